#!/usr/bin/env python3
"""Does the comparison see an error? Builds wrong copies of the Rust, of the grammar that filled sheets are held to, and of the
model's bases, which the Rust does not refuse, one error each, and compares the proved code with each.

    wrong.py [--text RUST_TEXT] [--cases N] [--seed S] [--only WORDS]

Run it after `run`, which builds the program that it uses. The random cases alone are run, not the exhaustive short ones.
An edit that no longer fits the text, or a copy that doesn't build, is an error, as is a copy that the comparison can't tell
from what it is a copy of; so is a difference from these themselves, which comes first. Three copies are there because they
change nothing: they must not be told apart. Copies are made in a temporary folder and removed.
"""
import argparse
import pathlib
import shutil
import subprocess
import sys
import tempfile

HERE = pathlib.Path(__file__).resolve().parent
BUILT = HERE.parent / "target" / "oracle"

# What is compared of the ground floor, and of matching.
GROUND = ["walker", "prefixes"]
MATCHING = ["matching", "programs"]

MATCHER = "asm/matcher/mod.rs"
WALKER = "syntax/walker.rs"
MAP = "asm/defs/ruledef_map.rs"
RESOLVER = "asm/resolver/instruction.rs"

TOP_ONLY = "if ruledef.is_subruledef\n            {\n                continue;\n            }"
SAME_PLACE = "|a, b| a.1.next_useful_index() == b.1.next_useful_index()"
GREEDY = "exprs.push((expr, walker_usize_greedy));"
UNCUT = "let mut results = parse_fn(walker.clone());\n"
NESTED_CALL = "                    walker.clone(),\n                    {})),"
CUT_BACK = "r.1.set_cursor_limit(prev_limit);"
NESTED_BACK = "walker.set_cursor_limit(walker_limit_prev);"
WHITE_PART = """walker.next_token().kind != syntax::TokenKind::Whitespace
                {
                    return vec![];
                }"""
USEFUL = "if !token.kind.is_ignorable()\n            {\n                if nth == 0"
CLOSER = "if paren_nesting == 0\n                    { break; }\n                \n                paren_nesting -= 1;"
OWN_AND_NESTED = "count + rule.exact_part_count"
SPANS_DIFFER = "if self.span != other.span"
SPAN = "let span = {}.get_span(\n            walker_start,\n            walker_end);"
EXPRESSION_SPAN = SPAN.format("inner_walker")
NESTED_SPAN = SPAN.format("walker")
BOTH_SPANS = [EXPRESSION_SPAN, NESTED_SPAN]
NESTED_MATCHES = """|walker| match_with_ruledef(
                    defs,
                    nested_ruledef_ref,
                    walker.clone(),
                    false)),"""


def span_of(span, start, end):
    """The span, and then another in its place, from what its own start and end are."""
    places = "let (start, end) = span.location().unwrap();\nlet _ = (start, end);\n"
    return f"{span}\n{places}let span = diagn::Span::new(span.file_handle, {start}, {end});\n"


def compared(place):
    """The test of two spans by something of their places alone."""
    return f"""let places = |span: diagn::Span| {{
            let (start, end) = span.location().unwrap();
            ({place.format("start")}, {place.format("end")})
        }};
        if places(self.span) != places(other.span)"""


# The arguments of every match that a nested step has found lose the base.
NESTED_AT_0 = """|walker| {
                    let mut found = match_with_ruledef(defs, nested_ruledef_ref, walker.clone(), false);
                    for (mtch, walker) in &mut found {
                        for arg in &mut mtch.args {
                            let start = walker.get_index_at_span_start(arg.span);
                            let end = walker.get_index_at_span_end(arg.span);
                            arg.span = diagn::Span::new(arg.span.file_handle, start, end);
                        }
                    }
                    found
                }),"""

# What is wrong, in which file, the text there and what stands for it: one text or several.
WRONG = [
    # both limits
    ("the cut stays in force after an expression", MATCHER, CUT_BACK, ""),
    ("the inner limit stays in force after a nested match", MATCHER, [CUT_BACK, NESTED_BACK], ["", ""]),
    ("a top rule may end before the limit", MATCHER, "if !walker.is_over() && needs_consume_all_tokens", "if false"),
    ("a nested rule must reach the limit", MATCHER, NESTED_CALL.format("false"), NESTED_CALL.format("true")),
    # the parameter's own ends
    ("equal ends kept", MATCHER, SAME_PLACE, "|_, _| false"),
    ("ends compared without whitespace skipped", MATCHER, SAME_PLACE, SAME_PLACE.replace("next_useful", "get_cursor")),
    ("the greedy end first", MATCHER, GREEDY, "exprs.insert(0, (expr, walker_usize_greedy));"),
    ("the greedy end dropped", MATCHER, GREEDY, "let _ = (expr, walker_usize_greedy);"),
    ("the cut dropped where the uncut parse succeeds", MATCHER, UNCUT,
     UNCUT + "if !results.is_empty() { return results; }\n"),
    ("the cut tried first", MATCHER, "    results.extend(\n        parse_with_lookahead(",
     "    results.splice(0..0,\n        parse_with_lookahead("),
    ("an argument's start past its end", MATCHER,
     "let walker_start = std::cmp::min(walker_start, walker_end);\n        \n", "let walker_start = walker_end;\n"),
    ("an expression's start before whitespace", MATCHER,
     "let walker_start = walker.next_useful_index();\n\n    let mut walker_usize",
     "let walker_start = walker.get_cursor_index();\n\n    let mut walker_usize"),
    ("a nested argument's start before whitespace", MATCHER,
     "let walker_start = walker.next_useful_index();\n    let walker_limit",
     "let walker_start = walker.get_cursor_index();\n    let walker_limit"),
    # lookahead
    ("no lookahead over whitespace parts", MATCHER, "            i += 1;\n            continue;", "            return None;"),
    ("a cut with nothing before it", WALKER, "let mut seen_tokens = false;", "let mut seen_tokens = true;"),
    ("a cut in this case only", WALKER, "if c.eq_ignore_ascii_case(&wanted_char) &&\n", "if c == wanted_char &&\n"),
    ("a closer that opens nothing doesn't end the search", WALKER, CLOSER, "if paren_nesting > 0 { paren_nesting -= 1; }"),
    ("braces hide nothing", WALKER, "paren_nesting == 0 &&\n                brace_nesting == 0", "paren_nesting == 0"),
    ("brackets hide nothing", WALKER, "seen_tokens &&\n                paren_nesting == 0 &&", "seen_tokens &&"),
    # exact parts and whitespace
    ("a whitespace part eats whitespace", MATCHER, WHITE_PART, WHITE_PART + "\n                walker.skip_ignorable();\n"),
    ("an exact part in this case only", WALKER, "if c.eq_ignore_ascii_case(&wanted_char)\n", "if c == wanted_char\n"),
    ("no whitespace before an exact part", WALKER, "let index = self.next_useful_index();\n\n        let c",
     "let index = self.cursor_index;\n\n        let c"),
    ("a whitespace part fails at the limit", MATCHER, "if !walker.is_over() &&\n                    walker.next_token()",
     "if walker.next_token()"),
    # byte 13 no whitespace, in one of the four ways in which the text asks for whitespace
    ("13 seen before the cut", WALKER, "if !syntax::token::is_whitespace(c)", "if c == '\\r' || !syntax::token::is_whitespace(c)"),
    ("13 in a line's prefix", MAP, "if syntax::is_whitespace(c) {", "if c != '\\r' && syntax::is_whitespace(c) {"),
    ("13 not enough for a whitespace part", MATCHER, WHITE_PART,
     WHITE_PART.replace("walker", "(walker.next_char() == '\\r' || walker", 1).replace("Whitespace", "Whitespace)")),
    ("13 a useful place", WALKER, USEFUL, USEFUL.replace("()", "() || self.char_at(byte_index) == '\\r'")),
    # prefixes
    ("prefixes of 3", MAP, "const MAX_PREFIX_SIZE: usize = 4;", "const MAX_PREFIX_SIZE: usize = 3;"),
    ("prefixes of 5", MAP, "const MAX_PREFIX_SIZE: usize = 4;", "const MAX_PREFIX_SIZE: usize = 5;"),
    ("a rule's prefix in its own case", MAP, "prefix[prefix_index] = c.to_ascii_lowercase();\n                prefix_index",
     "prefix[prefix_index] = *c;\n                prefix_index"),
    ("a line's prefix in its own case", MAP, "prefix[prefix_index] = c.to_ascii_lowercase();\n            prefix_index",
     "prefix[prefix_index] = c;\n            prefix_index"),
    ("a line's prefix ends at whitespace", MAP, "if syntax::is_whitespace(c) {\n                continue;",
     "if syntax::is_whitespace(c) {\n                break;"),
    ("a query past the line's prefix", MAP, "                break;\n            }\n        }\n\n        results",
     "            }\n        }\n\n        results"),
    ("lookup tries nested-only rulesets", MAP, TOP_ONLY, ""),
    ("scan tries nested-only rulesets", MATCHER, TOP_ONLY, ""),
    # equal matches and counts
    ("equal inner matches kept", MATCHER, "|a, b| a.0.is_same(&b.0)", "|_, _| false"),
    ("equal whatever the spans", MATCHER, SPANS_DIFFER, "if false"),
    ("equal whatever is nested", MATCHER, "a.is_same(b),", "true,"),
    ("the least count kept", MATCHER, ".max_by_key(|m| m.exact_part_count)", ".min_by_key(|m| m.exact_part_count)"),
    ("nested exact parts not counted", MATCHER, OWN_AND_NESTED, "rule.exact_part_count + 0 * count"),
    ("counts of 6 bits", MATCHER, OWN_AND_NESTED, f"({OWN_AND_NESTED}) % 64"),
    ("counts up to 119", MATCHER, OWN_AND_NESTED, f"({OWN_AND_NESTED}).min(119)"),
    # the base
    ("no base", MATCHER, "span.location().unwrap().0);", "0);"),
    ("the line's end as its base", MATCHER, "span.location().unwrap().0);", "span.location().unwrap().1);"),
    ("no base in lookup", MATCHER, "match_with_ruledef_map(\n            defs,\n            walker);",
     "match_with_ruledef_map(\n            defs,\n            syntax::Walker::new(src, span.file_handle, 0));"),
    ("no base in an expression's start", MATCHER, EXPRESSION_SPAN, span_of(EXPRESSION_SPAN, "walker_start", "end")),
    ("no base in an expression's end", MATCHER, EXPRESSION_SPAN, span_of(EXPRESSION_SPAN, "start", "walker_end")),
    ("no base in a nested argument's start", MATCHER, NESTED_SPAN, span_of(NESTED_SPAN, "walker_start", "end")),
    ("no base in a nested argument's end", MATCHER, NESTED_SPAN, span_of(NESTED_SPAN, "start", "walker_end")),
    ("the base twice in a nested argument", MATCHER, NESTED_SPAN,
     span_of(NESTED_SPAN, "start + start - walker_start", "end + end - walker_end")),
    ("no base in the arguments of nested matches", MATCHER, NESTED_MATCHES, NESTED_AT_0),
    ("places of 16 bits", MATCHER, BOTH_SPANS, [span_of(s, "start % (1 << 16)", "end % (1 << 16)") for s in BOTH_SPANS]),
    ("places of 31 bits", MATCHER, BOTH_SPANS, [span_of(s, "start % (1 << 31)", "end % (1 << 31)") for s in BOTH_SPANS]),
    ("0 for the place 2^32 - 1", MATCHER, BOTH_SPANS,
     [span_of(s, "start % ((1 << 32) - 1)", "end % ((1 << 32) - 1)") for s in BOTH_SPANS]),
    ("2^32 - 1 for places past it", MATCHER, BOTH_SPANS,
     [span_of(s, "start.min((1 << 32) - 1)", "end.min((1 << 32) - 1)") for s in BOTH_SPANS]),
    ("spans compared up to 2^16 alone", MATCHER, SPANS_DIFFER, compared("{}.min(1 << 16)")),
    ("spans compared in floating point of 32 bits", MATCHER, SPANS_DIFFER, compared("{} as f32")),
    ("spans compared up to 2^31 alone", MATCHER, SPANS_DIFFER, compared("{}.min(1 << 31)")),
    ("no base where a token ends", WALKER, "span.location().unwrap().1 - self.span_offset", "span.location().unwrap().1"),
    ("no base at the limit", WALKER, "self.span_offset + self.cursor_limit;", "self.cursor_limit;"),
    # selection
    ("the largest chosen", RESOLVER, ".min()\n        .unwrap();", ".max()\n        .unwrap();"),
    ("a tie of two let through", RESOLVER, "smallest_encodings.len() > 1", "smallest_encodings.len() > 2"),
    ("a tie refused while guessing is allowed", RESOLVER, "if !ctx.can_guess() &&\n        smallest_encodings",
     "if true &&\n        smallest_encodings"),
    ("failed constraints not marked", RESOLVER, "metadata.mark_guess();", "let _ = metadata;"),
    ("resolved outcomes not marked", RESOLVER, "resolved.mark_guess();", "let _ = resolved;"),
    ("marks with no guess", RESOLVER, "if any_encoding_guess\n", "if true\n"),
    ("no marks", RESOLVER, "if any_encoding_guess\n", "if false\n"),
]

# The nested step puts the limit back after parse_with_lookahead has done so.
REDUNDANT = ("the limit put back once, not twice", MATCHER, NESTED_BACK, "")

# Two places of one line are at most 120 apart, whatever its base: so seven bits tell them apart.
REDUNDANT_BITS = ("spans compared by their last 7 bits", MATCHER, SPANS_DIFFER, compared("{} % 128"))

GRAMMAR = "driver/grammar.rs"
MODEL = "driver/model.rs"

TOO_GREAT = "if call.base > MOST_BASE {\n        return (refused(19, 0), none);\n    }\n"
BAD_BUDGET = "if !(1..=MOST_VISITS).contains(&call.budget) {"
BAD_LINE = "if let Some(place) = bad_line(&call.line) {"
SPANS_WRITTEN = "base + *start as u32, base + *end as u32"
BASES_LENGTH = "call.bases.len() != lines.len() || "
LINE_BASE = "base: *base,"

# The same of what the model says of bases.
WRONG_MODEL = [
    ("the greatest base refused", MODEL, "if call.base > MOST_BASE", "if call.base >= MOST_BASE"),
    ("one more taken", MODEL, "if call.base > MOST_BASE", "if call.base > MOST_BASE + 1"),
    ("a base refused by where its line ends", MODEL, "if call.base > MOST_BASE",
     "if call.base.checked_add(call.line.len() as u32).is_none()"),
    ("19 before 5", MODEL, BAD_BUDGET, TOO_GREAT + "    " + BAD_BUDGET),
    ("19 before 3", MODEL, BAD_LINE, TOO_GREAT + "    " + BAD_LINE),
    ("19 with a place", MODEL, "refused(19, 0)", "refused(19, 120)"),
    ("6 for a base that is too great", MODEL, "refused(19, 0)", "refused(6, 0)"),
    ("the base in the end alone", MODEL, SPANS_WRITTEN, "*start as u32, base + *end as u32"),
    ("inner trees under base 0", MODEL, "write_tree(table, inner, base, words)", "write_tree(table, inner, 0, words)"),
    ("bases of any length from the lines' number on", MODEL, BASES_LENGTH, "call.bases.len() < lines.len() || "),
    ("as many bases as lines, or one for all", MODEL, [BASES_LENGTH, "zip(&call.bases) {"],
     ["!(call.bases.len() == lines.len() || call.bases.len() == 1) || ", "zip(call.bases.iter().cycle()) {"]),
    ("the first line's base for all", MODEL, LINE_BASE, "base: call.bases[0] + 0 * *base,"),
    ("bases from the last line on", MODEL, "zip(&call.bases) {", "zip(call.bases.iter().rev()) {"),
    ("a line's place in the text added to its base", MODEL, LINE_BASE,
     "base: base.saturating_add((line.as_ptr() as usize - call.text.as_ptr() as usize) as u32),"),
    ("a line of 19 stops the program", MODEL, "        singles.push((single, own, walked));\n",
     "        if own.number == 19 {\n            return refused(17);\n        }\n        singles.push((single, own, walked));\n"),
]

FREE_END = "self.expression(c).into_iter().max()"
GREEDY_END = "self.word(c, is_digit, is_digit).into_iter().max()"
NAME = "self.word(c, is_letter, goes_on)"
LATER = "is_letter(byte) || is_digit(byte)"
OPERATORS = 'b"+-*/&|"'
ONE_MORE_END = "            ends.push(end);\n"
ENCLOSED = "let inner = self.expression(inner);\n"
CLOSED = 'filter_map(|end| self.sign(end, b")"))'
TOKEN = "model::useful(self.line, c, self.line.len())"
ENTRY = "byte(search.free(c));"
WORD_ENDS = "            is_next = later;\n        }\n        ends\n"

# The same of the grammar.
WRONG_GRAMMAR = [
    # which end
    ("the least end", GRAMMAR, FREE_END, FREE_END.replace("max", "min")),
    ("an end after the whitespace that follows", GRAMMAR, FREE_END, FREE_END + ".map(|end| self.token(end))"),
    ("the limit ignored", GRAMMAR, "Search::under(line, l)", "Search::under(line, line.len())"),
    ("no end where the limit cuts a word", GRAMMAR, ENTRY,
     "byte(search.free(c).filter(|e| *e == line.len() || !goes_on(line[*e - 1]) || !goes_on(line[*e])));"),
    ("0 where the start lies above the limit", GRAMMAR, "vec![255; 2 * side * side]", "vec![0; 2 * side * side]"),
    ("an operator at the end counted", GRAMMAR, "ends.extend(self.expression(next));",
     "ends.push(next);\nends.extend(self.expression(next));"),
    ("no end before an operator", GRAMMAR, ONE_MORE_END,
     f"if self.sign(end, {OPERATORS}).is_none() {{ ends.push(end); }}\n"),
    # terms and tokens
    ("a digit begins a name", GRAMMAR, NAME, "self.word(c, goes_on, goes_on)"),
    ("a name of letters alone", GRAMMAR, NAME, "self.word(c, is_letter, is_letter)"),
    ("a name of lower case alone", GRAMMAR, "contains(&model::lowered(byte))", "contains(&byte)"),
    ("an underscore in a name", GRAMMAR, LATER, LATER + " || byte == b'_'"),
    ("a minus between terms alone", GRAMMAR, 'self.sign(c, b"-")', 'self.sign(c, b"")'),
    ("a plus before a term", GRAMMAR, 'self.sign(c, b"-")', 'self.sign(c, b"-+")'),
    ("empty parentheses", GRAMMAR, ENCLOSED, "let inner = [vec![inner], self.expression(inner)].concat();\n"),
    ("a term alone in parentheses", GRAMMAR, ENCLOSED, "let inner = self.term(inner);\n"),
    ("no whitespace before a closer", GRAMMAR, CLOSED, "filter(|e| self.line.get(*e) == Some(&b')')).map(|e| e + 1)"),
    ("no closer at the limit", GRAMMAR, CLOSED,
     'filter_map(|end| self.sign(end, b")").or((end == self.line.len()).then_some(end)))'),
    ("square brackets as parentheses", GRAMMAR, ['self.sign(c, b"(")', 'b")"'], ['self.sign(c, b"([")', 'b")]"']),
    ("parentheses 16 deep at most", GRAMMAR, ["    sought: Vec<", "sought: vec!", ENCLOSED],
     ["    depth: usize,\n    sought: Vec<", "depth: 0,\n            sought: vec!",
      "if self.depth == 16 {\nreturn ends;\n}\nself.depth += 1;\n" + ENCLOSED + "self.depth -= 1;\n"]),
    ("a stroke joins nothing", GRAMMAR, OPERATORS, 'b"+-*/&"'),
    ("a caret joins terms", GRAMMAR, OPERATORS, 'b"+-*/&|^"'),
    ("13 no whitespace before a token", GRAMMAR, TOKEN,
     "(c..self.line.len()).find(|at| ![9, 32].contains(&self.line[*at])).unwrap_or(self.line.len())"),
    # the greedy end
    ("a greedy end of no digits", GRAMMAR, GREEDY_END, GREEDY_END + ".or(Some(self.token(c)))"),
    ("a greedy end without whitespace skipped", GRAMMAR, GREEDY_END, GREEDY_END + ".filter(|_| self.token(c) == c)"),
    ("a greedy end over a minus", GRAMMAR, GREEDY_END, GREEDY_END.replace("(c", '(self.sign(c, b"-").unwrap_or(c)')),
    ("a greedy end over letters", GRAMMAR, GREEDY_END, GREEDY_END.replace("is_digit)", "goes_on)")),
    # refusals
    ("18 before 3", GRAMMAR, "= model::bad_line(line) {",
     "= model::bad_line(line).filter(|_| room == 2 * (line.len() + 1) * (line.len() + 1)) {"),
    ("a longer sheet will do", GRAMMAR, "sheet.len() != room", "sheet.len() > room"),
]

# Behind a word's earlier ends stands neither whitespace nor a sign, so that nothing goes on there.
REDUNDANT_END = ("the last end of a word alone", GRAMMAR, WORD_ENDS,
                 WORD_ENDS.replace("ends\n", "ends.split_off(ends.len().max(1) - 1)\n"))


def compare(oracle, part, args, program=BUILT / "compare"):
    """Whether the comparison tells the copy apart: by a difference, or because the copy goes round until its stack is full,
    where the Rust ends. Any other failure stops this program."""
    words = [program, "--only", part, "--seed", args.seed, "--cases", str(args.cases), "--quick"]
    done = subprocess.run(words, env={"LD_LIBRARY_PATH": str(oracle)}, capture_output=True, text=True)
    if done.returncode not in (0, 1) and "overflowed its stack" not in done.stderr:
        sys.exit(f"wrong: the comparison failed: {done.returncode} {done.stderr}")
    return done.returncode != 0


def edit_in(folder, edit):
    """Makes the edit in a copy of the text."""
    name, file, old, new = edit
    path = folder / file
    path.chmod(0o644)
    source = path.read_text()
    for text, other in zip([old], [new]) if isinstance(old, str) else zip(old, new):
        if source.count(text) != 1:
            sys.exit(f"wrong: {name}: its text stands {source.count(text)} times in {file}")
        source = source.replace(text, other)
    path.write_text(source)


def build(edit, words):
    done = subprocess.run(words, capture_output=True, text=True)
    if done.returncode:
        sys.exit(f"wrong: {edit[0]}: does not build: {done.stderr}")


def copy_with(text, edit, folder):
    """Builds the Rust with one edit; the folder that has the library."""
    shutil.copytree(text, folder / "src")
    edit_in(folder / "src", edit)
    build(edit, [HERE / "build", folder / "src", folder])
    return folder


def program_with(edit, folder):
    """Builds the program that compares with one edit, as `run` does without."""
    for part in ("oracle", "rust"):
        shutil.copytree(HERE.parent / part, folder / part)
    edit_in(folder / "oracle", edit)
    build(edit, ["rustc", "--edition", "2021", "--crate-name", "compare", "-O", "-o", folder / "compare", "-L", BUILT,
                 "-L", BUILT.parent / "staticlib", folder / "oracle" / "driver" / "main.rs"])
    return folder / "compare"


def seen_by(edit, folder, args):
    """The parts of the comparison that tell the copy apart."""
    if edit[1] in (GRAMMAR, MODEL):
        program = program_with(edit, folder)
        parts = ["expressions"] if edit[1] == GRAMMAR else MATCHING
        return [part for part in parts if compare(BUILT, part, args, program)]
    oracle = copy_with(args.text, edit, folder)
    parts = ["selection"] if edit[1] == RESOLVER else MATCHING + GROUND
    return [part for part in parts if compare(oracle, part, args)]


def main():
    args = argparse.ArgumentParser(description=__doc__, formatter_class=argparse.RawDescriptionHelpFormatter)
    args.add_argument("--text", type=pathlib.Path, default=HERE.parent.parent / "shared" / "docs" / "src" / "src")
    args.add_argument("--seed", default="7")
    args.add_argument("--cases", type=int, default=20_000)
    args.add_argument("--only", default="", help="only the edits whose name has these words")
    args = args.parse_args()

    if not (BUILT / "compare").exists():
        sys.exit("wrong: run oracle/run first: it builds the program that compares")
    if any(compare(BUILT, part, args) for part in GROUND + MATCHING + ["expressions", "selection"]):
        sys.exit("wrong: the proved code differs from the Rust, the grammar or the model itself")

    missed = 0
    edits = WRONG + [REDUNDANT, REDUNDANT_BITS] + WRONG_GRAMMAR + [REDUNDANT_END] + WRONG_MODEL
    edits = [edit for edit in edits if args.only in edit[0]]
    for edit in edits:
        with tempfile.TemporaryDirectory() as folder:
            seen = seen_by(edit, pathlib.Path(folder), args)
        missed += bool(seen) == (edit in (REDUNDANT, REDUNDANT_BITS, REDUNDANT_END))
        print(f"{'seen by ' + ' and '.join(seen) if seen else 'not seen':53} {edit[0]}", flush=True)
    print(f"{len(edits)} copies, {missed} judged wrongly")
    return 1 if missed else 0


if __name__ == "__main__":
    sys.exit(main())
