/* The matching core of customasm, with a proof of every function. Link libtholdrimash.a (`tools/build tholdrimash`).
 * docs/MANUAL.md has all of it at length: every term below, a worked example of each step, and what to do about each number.
 *
 * Every function takes any memory that its pointers and lengths describe (a length counts items, not bytes), ends, and
 * refuses bad input by a number; fields that a number does not name are 0. A refusal leaves what was lent unchanged, except
 * that a tie (13) still marks guesses. What a call writes to must overlap nothing else that it is lent. No pointer is kept,
 * and there is no state between calls, so threads may call at once. A length of 0 asks for a pointer that is not null and
 * aligned; nothing is read there. A call takes at most some 128 KiB of stack: that was measured with an older kit, on rules
 * nested to depth 16 with 8 parameters each, and is not proved.
 */
#ifndef THOLDRIMASH_H
#define THOLDRIMASH_H

#include <stddef.h>
#include <stdint.h>

/* The version of this interface, and of the crate in rust/. */
#define THOLDRIMASH_VERSION "0.6.0"
#define THOLDRIMASH_VERSION_MAJOR 0
#define THOLDRIMASH_VERSION_MINOR 6
#define THOLDRIMASH_VERSION_PATCH 0

#ifdef __cplusplus
extern "C" {
#endif

/* The numbers that the field `number` holds: of matching 0 to 9 and 19, of selection 0 and 10 to 14, of reading a table's
 * text 0, 15 and 16, of writing it 0, 2 and 16, of a program 0, 2 and 17, of filling a sheet 0, 3 and 18. Beside each stand
 * the fields that it returns. A program's lines have numbers too, those of matching but for 2; they stand in its rows.
 *
 * Matching judges table, line, sheet, budget and base in that order (2, 3, 4, 5, 19); then comes whichever of 6, 7 and 8 the
 * walk meets first; then 1; then 9. Selection judges 10, 11, 12, 13, 14 in that order. Reading judges the text (15), writing
 * the table (2), and then either the room for its result (16). A program call judges the table (2), then the shape of what
 * it is lent (17), and then each line as matching does. Filling judges the line (3), then the sheet's length (18).
 */
enum {
    THOLDRIMASH_MATCHED = 0,        /* visits; words: how many were written at the answer's start, the rest is unchanged */
    THOLDRIMASH_NO_MATCH = 1,       /* visits */
    THOLDRIMASH_BAD_TABLE = 2,
    THOLDRIMASH_BAD_LINE = 3,       /* place in the line, without the base: 120 if too long, else its first bad byte, else its
                                     * last byte (whitespace) */
    THOLDRIMASH_BAD_SHEET = 4,
    THOLDRIMASH_BAD_BUDGET = 5,
    THOLDRIMASH_SPENT = 6,          /* the next visit would exceed the budget; visits: the budget */
    THOLDRIMASH_TOO_DEEP = 7,       /* a nested step would enter depth 17, mostly by left recursion; visits so far */
    THOLDRIMASH_POOL_FULL = 8,      /* a 4,097th record is due; visits so far */
    THOLDRIMASH_TOO_LONG = 9,       /* the answer is longer than the buffer; visits; words: how many it needs */
    THOLDRIMASH_BAD_BASE = 19,      /* the base is above 4,294,967,175 */

    THOLDRIMASH_CHOSEN = 0,         /* count: how many indices were written at the start of `chosen`, the rest is unchanged */
    THOLDRIMASH_BAD_LIST = 10,
    THOLDRIMASH_NONE_RESOLVED = 11, /* every outcome is unresolved or a failed constraint, or there is none */
    THOLDRIMASH_NONE_KNOWN = 12,    /* some outcome is resolved, but none has a size */
    THOLDRIMASH_TIED = 13,          /* two or more have the least size, on the last pass; count: how many */
    THOLDRIMASH_NO_ROOM = 14,       /* the choice is longer than its buffer; count: how many are chosen */

    THOLDRIMASH_READ = 0,             /* words: how many were written at the start of `table`, the rest is unchanged */
    THOLDRIMASH_WRITTEN = 0,          /* words: how many bytes were written at the start of `text`, the rest is unchanged */
    THOLDRIMASH_BAD_TEXT = 15,        /* place: the first bad line, from 0; how many are ended if only the end is wrong */
    THOLDRIMASH_RESULT_TOO_LONG = 16, /* the table's words, or the text's bytes, are more than the room lent for them */

    THOLDRIMASH_PROGRAM_READ = 0, /* every line has its row; words: how many were written at the start of `answers` in all */
    THOLDRIMASH_BAD_PROGRAM = 17, /* more than 256 lines, bad ends, or sheets, budgets, bases or rows of the wrong length */

    THOLDRIMASH_FILLED = 0,         /* words: how many bytes the sheet has, each of which was written */
    THOLDRIMASH_BAD_SHEET_ROOM = 18 /* the sheet's length is not that of the line's sheet */
};

/* What matching returns; and what reading and writing a table's text, a program call and filling a sheet return, where
 * visits are 0.
 *
 * A visit is an arrival at a place in a rule's pattern: at each part that the walk comes to, and at the pattern's end. A
 * record is taken for each argument that the walk goes on with and for each match that it completes, and none is given back
 * before the call ends; a call has 4,096. Depth is 0 for a top rule and one more for each rule that it stands in.
 */
typedef struct {
    uint32_t number;
    uint32_t visits;
    uint32_t words;
    uint32_t place;
} tholdrimash_answer;

/* What selection returns. */
typedef struct {
    uint32_t number;
    uint32_t count;
} tholdrimash_selection;

/* The readings of a line with the greatest exact count: the full scan.
 *
 * table   16-bit words: S (1 to 32), R (0 to 512), P (0 to 8,192); S flags (0 top ruleset, 1 nested only); R records of
 *         ruleset, first part, part count, in nondecreasing ruleset order, at most 64 parts and 8 parameters each, the
 *         part counts P together at most; P part words: 33 to 126 except 59 (that byte, case ignored), 256 (whitespace),
 *         257 (expression), 512 + r (a rule of ruleset r). Expressions and nested rules are a rule's parameters. A rule's
 *         number counts from 0 within its ruleset, not within the table.
 * line    0 to 120 bytes, each 9, 13 or 32, which are whitespace, or 33 to 126 except 59; the last is no whitespace.
 * sheet   2(n+1)^2 bytes for a line of n: the free ends, free(c, l) at c(n+1)+l, then in the same order the greedy decimal
 *         ends. 255 for none, else from c to l. Entries with c above l may hold anything.
 *         tholdrimash_fill_sheet makes one from the line itself. If your expressions are others than those it knows, make it
 *         yourself: free(c, l) is where your expression parser ends if it begins at c and the line stops at l.
 *         greedy(c, l) is where the longest run of decimal digits from c ends, over whitespace before it, if there is a
 *         digit.
 *         BEWARE: c is the cursor, and it often stands on the whitespace before an expression: for `mov p` the sheet is
 *         asked for free(3, 5), not free(4, 5). Parse from every c, over leading whitespace; a sheet that knows only the
 *         first bytes of expressions passes every check and gives 1 for good lines.
 * budget  1 to 1,000,000 visits. It bounds the time of a call, and changes no answer but to 6: take 1,000,000 if unsure.
 * base    where the line begins in its file, or in whatever the caller counts places by: 0 to 4,294,967,175, so that the
 *         end of a line of 120 bytes is still a 32-bit number. 0 gives offsets within the line. A base moves every start and
 *         end in the answer; visits, how many words and all numbers but 19 are the same at each.
 * answer  32-bit words: number of matches, greatest exact count, then each tree: ruleset, rule, argument count; per argument
 *         0 (expression) or 1 (nested), start, end, and the inner tree if nested. Start and end are the base plus the offset
 *         within the line.
 */
tholdrimash_answer tholdrimash_match(const uint16_t *table, size_t table_len, const uint8_t *line, size_t line_len,
                                     const uint8_t *sheet, size_t sheet_len, uint32_t budget, uint32_t base,
                                     uint32_t *answer, size_t answer_len);

/* The same by prefix lookup: whenever the scan is not refused by 6, 7 or 8, the same number, readings and words with no more
 * visits. The readings' order may differ: by the length of the rule's prefix, then the table's order.
 */
tholdrimash_answer tholdrimash_lookup(const uint16_t *table, size_t table_len, const uint8_t *line, size_t line_len,
                                      const uint8_t *sheet, size_t sheet_len, uint32_t budget, uint32_t base,
                                      uint32_t *answer, size_t answer_len);

/* Fills a line's sheet from the line itself: where its expressions end, by the grammar of delta expressions.
 *
 * line    as above.
 * sheet   exactly 2(n+1)^2 bytes for a line of n. Each is written, whatever it held.
 *
 * A term is decimal digits, a name (a letter, then letters or digits), a minus before a term, or an expression in
 * parentheses. An expression is terms joined by one of + - * / & |. Whitespace may stand before any token: a number, a name,
 * a sign, a parenthesis. How deep it nests has no bound but the line's length.
 *
 * free(c, l) is the greatest end, up to l, of an expression that begins at c, over whitespace before it. It ends on its last
 * token: whitespace after that, or an operator that no term follows, is outside. No byte from l on is looked at, so that the
 * limit may cut a number or a name: `ab` under the limit 1 ends at 1. greedy(c, l) is the end of the longest run of decimal
 * digits, of one at least, within the limit and over whitespace before it. 255 stands for none, and where c is above l.
 *
 * The number is 3 for a bad line, with the place that matching gives; then 18 for a sheet of any other length. The sheet is
 * unchanged in both. Otherwise it is 0, and matching this line never finds the sheet bad (4).
 */
tholdrimash_answer tholdrimash_fill_sheet(const uint8_t *line, size_t line_len, uint8_t *sheet, size_t sheet_len);

/* The lines of a program, up to 256, matched in one call: the full scan. The table is judged once, so a line costs what is
 * its own.
 *
 * table    as above.
 * text     the lines' bytes, one line after another, with nothing between them.
 * ends     where each line ends in `text`: it begins where the line before it ends, the first one at 0. Equal ends are an
 *          empty line. What stands after the last end belongs to no line. There may be no line at all.
 * sheets   each line's sheet, one after another: 2(n+1)^2 bytes for a line of n up to 120, and none for a longer one.
 *          tholdrimash_fill_sheet fills each where it stands; a bad line's may hold anything.
 * budgets  a budget for each line.
 * bases    a base for each line: where it begins in its file, which mostly is another place than in `text`, since nothing
 *          stands between the lines there.
 * rows     two words for each line: its number, and how many answer words the lines before it have used.
 * answers  the words of the lines that matched, one line's after another's.
 *
 * The number is 2 for a bad table; then 17 for more than 256 lines, an end below the one before it or past the text, or
 * sheets, budgets, bases or rows of any other length than that. Both come before any line, and nothing is written. Otherwise
 * it is 0, whatever the lines' numbers are: every row is written, and `words` is how many answer words were used.
 *
 * Line i's number is rows[2i], and its words, if that is 0, begin at answers[rows[2i+1]] and end where the next line's
 * begin, the last one's at `words`; the rest of `answers` is unchanged. Number and words are what matching gives for the
 * line, its sheet, its budget and its base, with the room left in `answers` as its buffer: 0, 1, 3 to 9 or 19. A refused
 * line takes no words and stops nothing, so that after a 9 a later, shorter answer may still fit. Visits, the words that a 9
 * needs and the place of a 3 are not told: match that line alone to have them.
 */
tholdrimash_answer tholdrimash_match_program(const uint16_t *table, size_t table_len, const uint8_t *text, size_t text_len,
                                             const uint32_t *ends, size_t ends_len, const uint8_t *sheets,
                                             size_t sheets_len, const uint32_t *budgets, size_t budgets_len,
                                             const uint32_t *bases, size_t bases_len, uint32_t *rows, size_t rows_len,
                                             uint32_t *answers, size_t answers_len);

/* The same by prefix lookup: each line's number and words are what tholdrimash_lookup gives for it. */
tholdrimash_answer tholdrimash_lookup_program(const uint16_t *table, size_t table_len, const uint8_t *text, size_t text_len,
                                              const uint32_t *ends, size_t ends_len, const uint8_t *sheets,
                                              size_t sheets_len, const uint32_t *budgets, size_t budgets_len,
                                              const uint32_t *bases, size_t bases_len, uint32_t *rows, size_t rows_len,
                                              uint32_t *answers, size_t answers_len);

/* The outcomes of least known size, by index, ascending.
 *
 * outcomes   up to 4,096 words: guess + 2 * kind + 8 * size. Kinds: 0 unresolved (the word is 0), 1 failed constraint,
 *            2 resolved but unknown, 3 sized; the size is 0 to 65,535, and 0 unless sized. Kinds 2 and 3 are resolved; kind
 *            3 is known. On 0 and 13, if any outcome is a guess (an unresolved one is), every word of kind 1 to 3 gets its
 *            guess bit.
 * last_pass  0 while guessing is allowed, else the last pass, on which two or more of least size are 13.
 * chosen     room for the indices of the outcomes chosen, from 0.
 */
tholdrimash_selection tholdrimash_select(uint32_t *outcomes, size_t outcomes_len, uint32_t last_pass, uint16_t *chosen,
                                         size_t chosen_len);

/* Tables as text. A listing is a table's rulesets and rules, one a line:
 *
 *         ruleset top
 *         ruleset nested
 *         rule 0 m o v ws expr
 *         rule 0 m o v ws sub1
 *         rule 1 p
 *         rule 1 q
 *
 * with a tab (byte 9) in place of each space. Tabs part the fields, and byte 10 ends each line, the last one too. First come
 * all rulesets, one line each: `ruleset`, then `top` or `nested`. Then come all rules in the table's order, one line each:
 * `rule`, its ruleset's number, then a field for each part: the character itself for an exact part (one byte, 33 to 126
 * except 59), `ws` for whitespace, `expr` for an expression, `sub` and directly after it a ruleset's number for a nested
 * rule. A rule without parts ends after its ruleset's number. Numbers are decimal without leading zeros. Words are compared
 * byte for byte, and nothing else may stand in a listing: no spaces, no quotes around a field, no comment, no empty line, no
 * tab or byte 13 at a line's end.
 *
 * The table's limits hold: 1 to 32 rulesets, at most 512 rules, 64 parts and 8 parameters a rule, 8,192 parts together;
 * rules in nondecreasing ruleset order; each ruleset's number below the number of rulesets. Rulesets and rules within them
 * have one listing, and no others have the same. A listing has at most 41,440 bytes and a table at most 9,763 words, so that
 * much room is always enough.
 */

/* Reads a listing. The table is packed: the parts stand in the order of the rules, and none is spare.
 *
 * Any other text is 15. Its first bad line is the first ended one up to which, itself included, the lines begin no listing.
 * If there is none, only the end is wrong: bytes stand after the last line end, or there is no line at all. Then the place is
 * the number of ended lines. It is at most 544.
 *
 * A text that is read and then written again has the same bytes.
 */
tholdrimash_answer tholdrimash_read_table(const uint8_t *text, size_t text_len, uint16_t *table, size_t table_len);

/* Writes a table's listing. It says nothing of spare parts, nor of where the others stand: a table that is written and then
 * read again has the same rulesets and rules, packed. Matching and lookup answer alike by both, in every field and word.
 */
tholdrimash_answer tholdrimash_write_table(const uint16_t *table, size_t table_len, uint8_t *text, size_t text_len);

#ifdef __cplusplus
}
#endif

#endif
