//! The oracle: customasm's published matcher, ruledef map, walker and `resolve_encoding`, read at build time from the
//! folder named by CUSTOMASM_SRC and unchanged, over stubs for what is not published. Each stub's file says what it stands
//! in for. This file takes the place of customasm's `lib.rs`: it reads document 01's packed words into the Rust's own types
//! and writes its answers as document 01's words, with the spans that the Rust gives.
//!
//! Input is taken as good: nothing here may be called on refused input, nor where the Rust's recursion would not end.
#![allow(dead_code, unexpected_cfgs)]

pub mod asm;
pub mod calls;
pub mod count;
pub mod diagn;
pub mod expr;
pub mod shown;
pub mod syntax;
pub mod util;

/// The line stands in a file other than 0, so that a forgotten handle shows.
const FILE: util::FileServerHandle = 3;

/// `match_instr` on a line and its extent sheet, by full scan or by prefix lookup. The line begins at `base` of its file:
/// the Rust takes its walker's `span_offset` from the span that it is handed with the line.
pub fn run_match(
    defs: &asm::ItemDefs,
    line: &[u8],
    sheet: &[u8],
    base: usize,
    lookup: bool,
) -> asm::InstructionMatches {
    let src = std::str::from_utf8(line).unwrap();

    expr::with_sheet(line.len(), sheet, || {
        asm::matcher::match_instr(
            &options(lookup),
            defs,
            diagn::Span::new(FILE, base, base + line.len()),
            src,
        )
    })
}

fn options(lookup: bool) -> asm::AssemblyOptions {
    asm::AssemblyOptions {
        optimize_instruction_matching: lookup,
        optimize_statically_known: false,
    }
}

fn definitions(ruledefs: asm::DefList<asm::Ruledef>) -> asm::ItemDefs {
    let mut ruledef_map = asm::RuledefMap::new();
    ruledef_map.build(&ruledefs);

    asm::ItemDefs {
        ruledefs,
        ruledef_map,
        instructions: asm::DefList::new(),
    }
}

/// Document 01's packed table: S, R, P; S flags; R records of ruleset, first part, part count; P part words.
pub fn unpack_table(table: &[u16]) -> asm::ItemDefs {
    let at = |i: usize| table[i] as usize;
    let (rulesets, records) = (at(0), at(1));
    let parts = 3 + rulesets + 3 * records;

    let mut ruledefs = asm::DefList::new();

    for s in 0..rulesets {
        ruledefs.defs.push(asm::Ruledef {
            name: format!("ruleset{}", s),
            is_subruledef: at(3 + s) != 0,
            rules: Vec::new(),
        });
    }

    for r in 0..records {
        let record = 3 + rulesets + 3 * r;
        let first = parts + at(record + 1);
        let count = at(record + 2);

        ruledefs.defs[at(record)]
            .rules
            .push(unpack_rule(&table[first..first + count]));
    }

    definitions(ruledefs)
}

fn unpack_rule(parts: &[u16]) -> asm::Rule {
    let mut pattern = asm::RulePattern::new();
    let mut parameters = Vec::new();
    let mut exact_part_count = 0;

    for &part in parts {
        let typ = match part {
            256 => {
                pattern.push(asm::RulePatternPart::Whitespace);
                continue;
            }
            // The matcher treats these four alike, so they take turns.
            257 => match parameters.len() % 4 {
                0 => asm::RuleParameterType::Unspecified,
                1 => asm::RuleParameterType::Unsigned(8),
                2 => asm::RuleParameterType::Signed(8),
                _ => asm::RuleParameterType::Integer(8),
            },
            512.. => asm::RuleParameterType::RuledefRef(util::ItemRef::new(part as usize - 512)),
            _ => {
                pattern.push(asm::RulePatternPart::Exact(part as u8 as char));
                exact_part_count += 1;
                continue;
            }
        };

        pattern.push(asm::RulePatternPart::ParameterIndex(parameters.len()));
        parameters.push(asm::RuleParameter {
            name: format!("p{}", parameters.len()),
            typ,
        });
    }

    asm::Rule {
        pattern,
        pattern_span: diagn::Span::new(0, 0, 0),
        exact_part_count,
        parameters,
        expr: expr::Expr::constant(expr::Value::make_unknown()),
    }
}

/// Number of matches, greatest count, then each tree; nothing if there is no match. The words are as wide as the Rust's own
/// numbers, so that a place past 2^32 shows.
pub fn pack_answer(matches: &asm::InstructionMatches) -> Vec<u64> {
    let mut words = Vec::new();

    if let Some(first) = matches.first() {
        // `match_instr` has kept the matches of the greatest count only.
        assert!(matches.iter().all(|m| m.exact_part_count == first.exact_part_count));
        words.push(matches.len() as u64);
        words.push(first.exact_part_count as u64);
    }

    for mtch in matches {
        pack_tree(mtch, &mut words);
    }

    words
}

fn pack_tree(mtch: &asm::InstructionMatch, words: &mut Vec<u64>) {
    words.push(mtch.ruledef_ref.get_raw() as u64);
    words.push(mtch.rule_ref.get_raw() as u64);
    words.push(mtch.args.len() as u64);

    for arg in &mtch.args {
        assert!(arg.span.file_handle == FILE);

        let (start, end) = arg.span.location().unwrap();
        let span = [start as u64, end as u64];

        match &arg.kind {
            asm::InstructionArgumentKind::Expr(_) => {
                words.push(0);
                words.extend(span);
            }
            asm::InstructionArgumentKind::Nested(inner) => {
                words.push(1);
                words.extend(span);
                pack_tree(inner, words);
            }
        }
    }
}

/// How many matches there are in trees, nested ones included.
fn nodes(matches: &[asm::InstructionMatch]) -> u64 {
    let inner = |arg: &asm::matcher::InstructionArgument| match &arg.kind {
        asm::InstructionArgumentKind::Expr(_) => 0,
        asm::InstructionArgumentKind::Nested(inner) => nodes(std::slice::from_ref(inner)),
    };

    matches.iter().map(|m| 1 + m.args.iter().map(inner).sum::<u64>()).sum()
}

/// Outcome word: guess + 2·kind + 8·size; kinds 1 failed constraint, 2 resolved but unknown, 3 sized. The Rust leaves no
/// match unresolved (kind 0) before it selects: such a word is refused here.
fn unpack_outcome(word: u32) -> expr::Value {
    let mut metadata = expr::ValueMetadata::new();

    if word & 1 != 0 {
        metadata.mark_guess();
    }

    match word / 2 % 4 {
        1 => {
            let msg = diagn::Message::error_span("constraint", diagn::Span::new(0, 0, 0));
            expr::Value::FailedConstraint(metadata, msg)
        }
        2 => expr::Value::Unknown(metadata),
        3 => {
            let size = Some(word as usize / 8);
            expr::Value::Integer(metadata, util::BigInt { size })
        }
        _ => panic!("an unresolved outcome"),
    }
}

/// Outcomes as so many rules, whose expressions evaluate to them, with one match for each rule.
pub struct Outcomes {
    matches: asm::InstructionMatches,
    decls: asm::ItemDecls,
    defs: asm::ItemDefs,
}

/// What `resolve_encoding` says: document 01's number, the indices chosen, and their number or the number tied.
pub struct Told {
    pub number: u32,
    pub count: usize,
    pub chosen: Vec<usize>,
}

impl Outcomes {
    pub fn new(words: &[u32]) -> Outcomes {
        let ruledef = || asm::Ruledef {
            name: "outcomes".to_string(),
            is_subruledef: false,
            rules: Vec::new(),
        };

        let rule = |word: &u32| asm::Rule {
            expr: expr::Expr::constant(unpack_outcome(*word)),
            ..unpack_rule(&[])
        };

        let mtch = |i| asm::InstructionMatch {
            ruledef_ref: util::ItemRef::new(0),
            rule_ref: util::ItemRef::new(i),
            args: Vec::new(),
            exact_part_count: 0,
            encoding: asm::InstructionMatchResolution::Unresolved,
            encoding_size_guess: None,
        };

        Outcomes {
            matches: (0..words.len()).map(mtch).collect(),
            decls: asm::ItemDecls {
                ruledefs: asm::DefList { defs: vec![ruledef()] },
            },
            defs: definitions(asm::DefList {
                defs: vec![asm::Ruledef {
                    rules: words.iter().map(rule).collect(),
                    ..ruledef()
                }],
            }),
        }
    }

    /// The Rust says "no choice" for each of 11 to 13, and only its report tells them apart, which is empty on a guessing
    /// pass and for an empty list: then 11 stands for both 11 and 12.
    pub fn select(&mut self, guessing: bool) -> Told {
        let mut report = diagn::Report::new();
        let opts = options(false);

        let chosen = asm::resolver::instruction::resolve_encoding(
            &mut report,
            &opts,
            diagn::Span::new(FILE, 0, 0),
            &mut util::NoFiles,
            &mut self.matches,
            &self.decls,
            &self.defs,
            &asm::ResolverContext {
                guessing,
                file_handle_ctx: None,
            },
            &mut expr::EvalContext::new(&opts),
        )
        .unwrap()
        .map(|encodings| encodings.iter().map(|e| e.0).collect::<Vec<_>>());

        let converged = report
            .messages
            .iter()
            .flat_map(|m| &m.inner)
            .all(|m| m.descr == "constraint");

        let (number, count) = match &chosen {
            Some(chosen) => (0, chosen.len()),
            None if !report.notes.is_empty() => (13, report.notes.len()),
            None if !converged => (12, 0),
            None => (11, 0),
        };

        Told {
            number,
            count,
            chosen: chosen.unwrap_or_default(),
        }
    }

    /// Which outcomes are guesses now.
    pub fn guesses(&self) -> impl Iterator<Item = bool> + '_ {
        self.matches.iter().map(|m| m.encoding.is_guess())
    }
}
