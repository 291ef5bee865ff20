/* Calls every function that include/tholdrimash.h declares: bench cases 1, 2, 10, 11 and 12 of document 01, each number
 * from 0 to 19 by its name, the examples of docs/MANUAL.md in its order and notation, each at several bases, and filled
 * sheets beside a search for each span. After a call it looks at all that was lent and at what stands around it. It
 * writes one line, and ends with 1 if a check failed.
 */
#include "tholdrimash.h"

#include <ctype.h>
#include <stdio.h>
#include <stdlib.h>
#include <string.h>

enum { AROUND = 16, FILLER = 0xA5, ALL = 1000000 };

#define LEN(array) (sizeof(array) / sizeof *(array))

static unsigned checks, failed;

static void check(const char *name, const char *what, int good) {
    checks++;
    if (!good) {
        failed++;
        fprintf(stderr, "interface.c: %s: %s\n", name, what);
    }
}

/* Memory that is lent, with filler around it, and a copy of it all from before the call. */
typedef struct {
    unsigned char *all, *before;
    size_t len;
} lent;

/* A copy of the given bytes, or filler if there are none to copy. */
static lent lend(const void *given, size_t len) {
    size_t whole = AROUND + len + AROUND;
    lent l = {malloc(whole), malloc(whole), len};
    if (!l.all || !l.before) abort();
    memset(l.all, FILLER, whole);
    if (given) memcpy(l.all + AROUND, given, len);
    memcpy(l.before, l.all, whole);
    return l;
}

static void *at(lent l) { return l.all + AROUND; }

/* Whether its first bytes are those written, and nothing else has changed. */
static int holds(lent l, const void *written, size_t len) {
    size_t end = AROUND + len;
    return len <= l.len && memcmp(l.all, l.before, AROUND) == 0 && (len == 0 || memcmp(at(l), written, len) == 0) &&
           memcmp(l.all + end, l.before + end, l.len - len + AROUND) == 0;
}

static int unchanged(lent l) { return holds(l, NULL, 0); }

static void give_back(lent l) {
    free(l.all);
    free(l.before);
}

typedef tholdrimash_answer matching(const uint16_t *table, size_t table_len, const uint8_t *line, size_t line_len,
                                    const uint8_t *sheet, size_t sheet_len, uint32_t budget, uint32_t base,
                                    uint32_t *answer, size_t answer_len);

typedef struct {
    const uint16_t *table;
    size_t table_len;
    const char *line;
    const uint8_t *sheet;
    size_t sheet_len;
    uint32_t budget, base;
    size_t room;
} call;

/* One call gives these fields, and on number 0 these words. */
static void gives(const char *name, matching *run, call c, tholdrimash_answer expected, const uint32_t *words) {
    size_t line_len = strlen(c.line), written = expected.number == THOLDRIMASH_MATCHED ? expected.words : 0;
    lent table = lend(c.table, c.table_len * sizeof *c.table), line = lend(c.line, line_len),
         sheet = lend(c.sheet, c.sheet_len), answer = lend(NULL, c.room * sizeof *words);

    tholdrimash_answer told =
        run(at(table), c.table_len, at(line), line_len, at(sheet), c.sheet_len, c.budget, c.base, at(answer), c.room);
    check(name, "number", told.number == expected.number);
    check(name, "visits", told.visits == expected.visits);
    check(name, "words", told.words == expected.words);
    check(name, "place", told.place == expected.place);
    check(name, "table, line and sheet", unchanged(table) && unchanged(line) && unchanged(sheet));
    check(name, "answer", holds(answer, words, written * sizeof *words));

    give_back(table);
    give_back(line);
    give_back(sheet);
    give_back(answer);
}

/* The greatest base, bases from both sides of where 16 bits, a sign and 32 bits end, and two that are too great. */
#define GREATEST 4294967175U

static const uint32_t some_bases[] = {0, 1, 7, 65532, 65535, 65536, INT32_MAX, 1U << 31, GREATEST};
static const uint32_t too_great[] = {GREATEST + 1, UINT32_MAX};

/* Moves every start and end of the tree that begins here by the base, and says where the tree ends. */
static size_t move_tree(uint32_t *words, size_t at, uint32_t base) {
    uint32_t arguments = words[at + 2];
    at += 3;
    for (uint32_t i = 0; i < arguments; i++) {
        int nested = words[at] == 1;
        words[at + 1] += base;
        words[at + 2] += base;
        at += 3;
        if (nested) at = move_tree(words, at, base);
    }
    return at;
}

/* The words of an answer at base 0, if there are any, as they are at another base. */
static void move(uint32_t *moved, const uint32_t *words, size_t len, uint32_t base) {
    if (len == 0) return;
    memcpy(moved, words, len * sizeof *words);
    size_t at = 2;
    for (uint32_t i = 0; i < words[0]; i++) at = move_tree(moved, at, base);
    check("moved words", "one whole answer", at == len);
}

/* At every base one call gives these fields, and on number 0 these words, with starts and ends moved. */
static void moves(const char *name, matching *run, call c, tholdrimash_answer expected, const uint32_t *words) {
    static uint32_t moved[1024];
    size_t written = expected.number == THOLDRIMASH_MATCHED ? expected.words : 0;
    for (size_t i = 0; i < LEN(some_bases); i++) {
        c.base = some_bases[i];
        move(moved, words, written, c.base);
        gives(name, run, c, expected, moved);
    }
}

/* So do scan and lookup both. */
static void both(const char *name, call c, tholdrimash_answer expected, const uint32_t *words) {
    moves(name, tholdrimash_match, c, expected, words);
    moves(name, tholdrimash_lookup, c, expected, words);
}

static void refused(const char *name, call c, tholdrimash_answer expected) { both(name, c, expected, NULL); }

/* With too great a base, scan and lookup are both refused by this number and place. */
static void refused_at_bad_bases(const char *name, call c, uint32_t number, uint32_t place) {
    const tholdrimash_answer expected = {.number = number, .place = place};
    for (size_t i = 0; i < LEN(too_great); i++) {
        c.base = too_great[i];
        gives(name, tholdrimash_match, c, expected, NULL);
        gives(name, tholdrimash_lookup, c, expected, NULL);
    }
}

/* A selection gives these fields, on number 0 these indices, and leaves these outcomes. */
static void selects(const char *name, const uint32_t *outcomes, size_t len, uint32_t last_pass, size_t room,
                    tholdrimash_selection expected, const uint16_t *indices, const uint32_t *after) {
    size_t written = expected.number == THOLDRIMASH_CHOSEN ? expected.count : 0;
    lent words = lend(outcomes, len * sizeof *outcomes), chosen = lend(NULL, room * sizeof *indices);

    tholdrimash_selection told = tholdrimash_select(at(words), len, last_pass, at(chosen), room);
    check(name, "number", told.number == expected.number);
    check(name, "count", told.count == expected.count);
    check(name, "outcomes", holds(words, after, len * sizeof *after));
    check(name, "chosen", holds(chosen, indices, written * sizeof *indices));

    give_back(words);
    give_back(chosen);
}

/* A text read as a table gives these fields, and on number 0 these words. */
static void reads(const char *name, const void *given, size_t len, size_t room, tholdrimash_answer expected,
                  const uint16_t *words) {
    size_t written = expected.number == THOLDRIMASH_READ ? expected.words : 0;
    lent text = lend(given, len), table = lend(NULL, room * sizeof *words);

    tholdrimash_answer told = tholdrimash_read_table(at(text), len, at(table), room);
    check(name, "number", told.number == expected.number);
    check(name, "visits", told.visits == 0);
    check(name, "words", told.words == expected.words);
    check(name, "place", told.place == expected.place);
    check(name, "text", unchanged(text));
    check(name, "table", holds(table, words, written * sizeof *words));

    give_back(text);
    give_back(table);
}

/* A table written as text gives these fields, and on number 0 these bytes. */
static void writes(const char *name, const uint16_t *given, size_t len, size_t room, tholdrimash_answer expected,
                   const void *bytes) {
    size_t written = expected.number == THOLDRIMASH_WRITTEN ? expected.words : 0;
    lent table = lend(given, len * sizeof *given), text = lend(NULL, room);

    tholdrimash_answer told = tholdrimash_write_table(at(table), len, at(text), room);
    check(name, "number", told.number == expected.number);
    check(name, "visits", told.visits == 0);
    check(name, "words", told.words == expected.words);
    check(name, "place", told.place == 0);
    check(name, "table", unchanged(table));
    check(name, "text", holds(text, bytes, written));

    give_back(table);
    give_back(text);
}

/* Document 01's table T. */
static const uint16_t t[] = {2,  4, 12,  0,   1,   0,   0,   5,   0,   5,   5,   1,   10,  1,  1,
                             11, 1, 109, 111, 118, 256, 257, 109, 111, 118, 256, 513, 112, 113};

/* T on `mov p`, free(3,5)=5, all else 255: each check of the call, and each limit, from there. */
static void on_t(void) {
    static const uint32_t whole[] = {1, 4, 0, 1, 1, 1, 4, 5, 1, 0, 0};
    uint8_t sheet[72];
    memset(sheet, 255, sizeof sheet);
    sheet[3 * 6 + 5] = 5;
    const call good = {t, LEN(t), "mov p", sheet, sizeof sheet, ALL, 0, LEN(whole) + 1};
    const tholdrimash_answer matched = {.number = THOLDRIMASH_MATCHED, .visits = 15, .words = LEN(whole)};

    call c = good;
    both("bench 1", c, matched, whole);
    c.line = "mov\rp";
    both("bench 1, a carriage return for the space", c, matched, whole);
    c = good;
    c.budget = 14;
    refused("bench 2, budget 14", c, (tholdrimash_answer){.number = THOLDRIMASH_SPENT, .visits = 14});
    c.budget = 15;
    both("bench 2, budget 15", c, matched, whole);

    c = good;
    c.table_len--;
    refused("a table one word short", c, (tholdrimash_answer){.number = THOLDRIMASH_BAD_TABLE});
    c = good;
    c.line = "mov;p";
    refused("a semicolon", c, (tholdrimash_answer){.number = THOLDRIMASH_BAD_LINE, .place = 3});
    c.line = "mov ";
    refused("a line that ends in a space", c, (tholdrimash_answer){.number = THOLDRIMASH_BAD_LINE, .place = 3});
    c.line = "a\r";
    refused("a line that ends in a carriage return", c,
            (tholdrimash_answer){.number = THOLDRIMASH_BAD_LINE, .place = 1});
    c.line = "\r";
    refused("a carriage return alone", c, (tholdrimash_answer){.number = THOLDRIMASH_BAD_LINE});
    c.line = "mov\np";
    refused("a line feed", c, (tholdrimash_answer){.number = THOLDRIMASH_BAD_LINE, .place = 3});
    c = good;
    c.sheet_len--;
    refused("a sheet one byte short", c, (tholdrimash_answer){.number = THOLDRIMASH_BAD_SHEET});
    c = good;
    c.budget = 0;
    refused("budget 0", c, (tholdrimash_answer){.number = THOLDRIMASH_BAD_BUDGET});
    c.budget = ALL + 1;
    refused("budget 1,000,001", c, (tholdrimash_answer){.number = THOLDRIMASH_BAD_BUDGET});

    c = good;
    c.room = LEN(whole);
    both("a buffer exactly full", c, matched, whole);
    c.room--;
    refused("a buffer one word short", c,
            (tholdrimash_answer){.number = THOLDRIMASH_TOO_LONG, .visits = 15, .words = LEN(whole)});
    c.room = 0;
    refused("no buffer", c, (tholdrimash_answer){.number = THOLDRIMASH_TOO_LONG, .visits = 15, .words = LEN(whole)});

    /* Lookup tries no rule. */
    c = good;
    c.line = "nop p";
    moves("no match, scan", tholdrimash_match, c, (tholdrimash_answer){.number = THOLDRIMASH_NO_MATCH, .visits = 2},
          NULL);
    moves("no match, lookup", tholdrimash_lookup, c, (tholdrimash_answer){.number = THOLDRIMASH_NO_MATCH, .visits = 0},
          NULL);
}

static const char t_text[] = "ruleset\ttop\nruleset\tnested\nrule\t0\tm\to\tv\tws\texpr\nrule\t0\tm\to\tv\tws\tsub1\n"
                             "rule\t1\tp\nrule\t1\tq\n";

/* T's text and T's words, each from the other: in rooms that are larger, full, one short and none. */
static void t_as_text(void) {
    size_t len = sizeof t_text - 1;
    const tholdrimash_answer read = {.number = THOLDRIMASH_READ, .words = LEN(t)},
                             written = {.number = THOLDRIMASH_WRITTEN, .words = (uint32_t)len},
                             too_long = {.number = THOLDRIMASH_RESULT_TOO_LONG};

    reads("T's text", t_text, len, LEN(t) + 1, read, t);
    reads("T's text, a room exactly full", t_text, len, LEN(t), read, t);
    reads("T's text, a room one word short", t_text, len, LEN(t) - 1, too_long, NULL);
    reads("T's text, no room", t_text, len, 0, too_long, NULL);
    writes("T as text", t, LEN(t), len + 1, written, t_text);
    writes("T as text, a room exactly full", t, LEN(t), len, written, t_text);
    writes("T as text, a room one byte short", t, LEN(t), len - 1, too_long, NULL);
    writes("T as text, no room", t, LEN(t), 0, too_long, NULL);

    /* The text and the table are judged before the room. */
    for (size_t room = 0; room < 2; room++) {
        reads("T's text, not ended", t_text, len - 1, room * LEN(t),
              (tholdrimash_answer){.number = THOLDRIMASH_BAD_TEXT, .place = 5}, NULL);
        reads("no text", t_text, 0, room * LEN(t), (tholdrimash_answer){.number = THOLDRIMASH_BAD_TEXT}, NULL);
        writes("T one word short", t, LEN(t) - 1, room * len, (tholdrimash_answer){.number = THOLDRIMASH_BAD_TABLE},
               NULL);
        writes("no table", t, 0, room * len, (tholdrimash_answer){.number = THOLDRIMASH_BAD_TABLE}, NULL);
    }
}

/* Tables that an empty line is enough for. */
static void on_empty_line(void) {
    static const uint8_t sheet[] = {255, 255};
    static const uint16_t no_parts[] = {1, 1, 0, 0, 0, 0, 0}, itself[] = {1, 1, 1, 0, 0, 0, 1, 512};
    static const uint32_t empty[] = {1, 0, 0, 0, 0};
    /* Seven times ruleset 1, of three rules with no part: 8,745 records, were there room. */
    static const uint16_t many[] = {2, 4, 7, 0, 1, 0,   0,   7,   1,   0,   0,   1,
                                    0, 0, 1, 0, 0, 513, 513, 513, 513, 513, 513, 513};

    call c = {no_parts, LEN(no_parts), "", sheet, sizeof sheet, ALL, 0, LEN(empty) + 1};
    both("bench 10", c, (tholdrimash_answer){.number = THOLDRIMASH_MATCHED, .visits = 1, .words = LEN(empty)}, empty);
    c.table = itself;
    c.table_len = LEN(itself);
    refused("a ruleset that begins with itself", c, (tholdrimash_answer){.number = THOLDRIMASH_TOO_DEEP, .visits = 17});
    c.table = many;
    c.table_len = LEN(many);
    refused("more records than the pool has", c, (tholdrimash_answer){.number = THOLDRIMASH_POOL_FULL, .visits = 3077});
}

/* Any last_pass but 0 is the last pass. */
static const uint32_t last_passes[] = {1, 2, UINT32_MAX};

static void ties(void) {
    static const uint32_t sizes[] = {134, 70, 70}, guessed[] = {3, 70, 70}, marked[] = {3, 71, 71};
    static const uint16_t tied[] = {1, 2};
    const tholdrimash_selection tie = {.number = THOLDRIMASH_TIED, .count = 2};

    selects("bench 12, guessing pass", sizes, 3, 0, 3,
            (tholdrimash_selection){.number = THOLDRIMASH_CHOSEN, .count = 2}, tied, sizes);
    for (size_t i = 0; i < LEN(last_passes); i++) {
        selects("bench 12, last pass", sizes, 3, last_passes[i], 3, tie, NULL, sizes);
        selects("a tie still marks", guessed, 3, last_passes[i], 0, tie, NULL, marked);
    }
    selects("a buffer one short", guessed, 3, 0, 1, (tholdrimash_selection){.number = THOLDRIMASH_NO_ROOM, .count = 2},
            NULL, guessed);
}

static void choices(void) {
    static const uint32_t outcomes[] = {134, 71}, marked[] = {135, 71};
    static const uint16_t second[] = {1};
    static const uint32_t guess[] = {1}, constraint[] = {2}, unknown[] = {4}, large[] = {524294};
    const tholdrimash_selection chosen = {.number = THOLDRIMASH_CHOSEN, .count = 1},
                                bad_list = {.number = THOLDRIMASH_BAD_LIST},
                                none_resolved = {.number = THOLDRIMASH_NONE_RESOLVED},
                                none_known = {.number = THOLDRIMASH_NONE_KNOWN},
                                no_room = {.number = THOLDRIMASH_NO_ROOM, .count = 1};

    for (uint32_t last_pass = 0; last_pass < 2; last_pass++) {
        selects("bench 11", outcomes, 2, last_pass, 3, chosen, second, marked);
        selects("unresolved with its guess bit", guess, 1, last_pass, 3, bad_list, NULL, guess);
        selects("size 65,536", large, 1, last_pass, 3, bad_list, NULL, large);
        selects("no outcomes", outcomes, 0, last_pass, 3, none_resolved, NULL, outcomes);
        selects("none resolved", constraint, 1, last_pass, 3, none_resolved, NULL, constraint);
        selects("none known", unknown, 1, last_pass, 3, none_known, NULL, unknown);
        selects("one choice, no buffer", outcomes, 2, last_pass, 0, no_room, NULL, outcomes);
    }
}

/* The names stand for the numbers, and the version's parts for the version. */
static void names(void) {
    static const uint32_t matching[] = {THOLDRIMASH_MATCHED,  THOLDRIMASH_NO_MATCH,  THOLDRIMASH_BAD_TABLE,
                                        THOLDRIMASH_BAD_LINE, THOLDRIMASH_BAD_SHEET, THOLDRIMASH_BAD_BUDGET,
                                        THOLDRIMASH_SPENT,    THOLDRIMASH_TOO_DEEP,  THOLDRIMASH_POOL_FULL,
                                        THOLDRIMASH_TOO_LONG};
    static const uint32_t selection[] = {THOLDRIMASH_BAD_LIST, THOLDRIMASH_NONE_RESOLVED, THOLDRIMASH_NONE_KNOWN,
                                         THOLDRIMASH_TIED, THOLDRIMASH_NO_ROOM};
    static const uint32_t later[] = {THOLDRIMASH_BAD_TEXT, THOLDRIMASH_RESULT_TOO_LONG, THOLDRIMASH_BAD_PROGRAM,
                                     THOLDRIMASH_BAD_SHEET_ROOM, THOLDRIMASH_BAD_BASE};
    char version[16];

    for (uint32_t i = 0; i < LEN(matching); i++) check("names", "of matching", matching[i] == i);
    check("names", "of a choice", THOLDRIMASH_CHOSEN == 0);
    for (uint32_t i = 0; i < LEN(selection); i++) check("names", "of selection", selection[i] == LEN(matching) + i);
    check("names", "of a table read", THOLDRIMASH_READ == 0);
    check("names", "of a table written", THOLDRIMASH_WRITTEN == 0);
    check("names", "of a program read", THOLDRIMASH_PROGRAM_READ == 0);
    check("names", "of a sheet filled", THOLDRIMASH_FILLED == 0);
    for (uint32_t i = 0; i < LEN(later); i++)
        check("names", "of text, programs, sheets and bases", later[i] == LEN(matching) + LEN(selection) + i);
    snprintf(version, sizeof version, "%d.%d.%d", THOLDRIMASH_VERSION_MAJOR, THOLDRIMASH_VERSION_MINOR,
             THOLDRIMASH_VERSION_PATCH);
    check("names", "version", strcmp(version, THOLDRIMASH_VERSION) == 0);
}

/* The manual's notation of a part: a character, `ws`, `expr`, or `sub` with a ruleset's number. */
static uint16_t part_of(const char *token, size_t len) {
    if (len == 1) return (unsigned char)*token;
    if (len == 2) return 256;
    if (*token == 'e') return 257;
    return (uint16_t)(512 + atoi(token + 3));
}

/* Where the words of small tables are put together. */
typedef struct {
    uint16_t words[128];
    size_t len;
} packed;

static void put(packed *t, const uint16_t *words, size_t len) {
    memcpy(t->words + t->len, words, len * sizeof *words);
    t->len += len;
}

/* A table from its rules in the manual's notation: `|` parts rules, `/` begins a ruleset that is nested only, and `//`
 * a top one. No part at all is a rule of no parts. */
static packed pack(const char *rules) {
    uint16_t flags[3] = {0}, records[24], parts[64], sets = 1, fields = 0, count = 0, first = 0;
    for (const char *at = rules;;) {
        at += strspn(at, " ");
        size_t len = strcspn(at, " ");
        if (len > 0 && *at != '|' && *at != '/') {
            parts[count++] = part_of(at, len);
        } else {
            records[fields++] = (uint16_t)(sets - 1);
            records[fields++] = first;
            records[fields++] = (uint16_t)(count - first);
            first = count;
            if (len == 0) break;
            if (*at == '/') flags[sets++] = len == 1;
        }
        at += len;
    }
    const uint16_t sizes[] = {sets, (uint16_t)(fields / 3), count};
    packed t = {.len = 0};
    put(&t, sizes, LEN(sizes));
    put(&t, flags, sets);
    put(&t, records, fields);
    put(&t, parts, count);
    return t;
}

/* The sheet of a line of n bytes, and its length, from its entries other than 255, as `free(3,5)=5, greedy(0,2)=1`. */
static size_t fill(uint8_t *sheet, size_t n, const char *entries) {
    size_t side = n + 1, half = side * side;
    unsigned c, l, end;
    char kind;
    int read;
    memset(sheet, 255, 2 * half);
    while (sscanf(entries, " %c%*[a-z](%u,%u)=%u%n", &kind, &c, &l, &end, &read) == 4) {
        sheet[(kind == 'g' ? half : 0) + c * side + l] = (uint8_t)end;
        entries += read;
        entries += strspn(entries, ",");
    }
    return 2 * half;
}

/* The words of a list of numbers, and how many. */
static size_t numbers(uint32_t *words, const char *list) {
    size_t len = 0;
    unsigned word;
    int read;
    while (sscanf(list, " %u%n", &word, &read) == 1) {
        words[len++] = word;
        list += read;
        list += strspn(list, ",");
    }
    return len;
}

/* The same as the words of a small table. */
static size_t table_numbers(uint16_t *words, const char *list) {
    uint32_t wide[32];
    size_t len = numbers(wide, list);
    for (size_t i = 0; i < len; i++) words[i] = (uint16_t)wide[i];
    return len;
}

/* An example of the manual. Words that it does not tell are NULL: the call at base 0 tells them for the other bases. */
typedef struct {
    const char *rules, *line, *sheet;
    uint32_t number, visits;
    const char *words;
} example;

static void runs(matching *run, example e) {
    char name[128];
    uint8_t sheet[2 * 48 * 48];
    uint32_t words[1024];
    packed t = pack(e.rules);
    size_t line_len = strlen(e.line), sheet_len = fill(sheet, line_len, e.sheet);
    size_t len = e.words ? numbers(words, e.words) : 0;

    snprintf(name, sizeof name, "manual, %s on %s", e.rules, e.line);
    if (e.number == THOLDRIMASH_MATCHED && !e.words) {
        tholdrimash_answer told =
            run(t.words, t.len, (const uint8_t *)e.line, line_len, sheet, sheet_len, ALL, 0, words, LEN(words));
        check(name, "number", told.number == e.number);
        check(name, "visits", told.visits == e.visits);
        len = told.words;
    }
    moves(name, run, (call){t.words, t.len, e.line, sheet, sheet_len, ALL, 0, len + 1},
          (tholdrimash_answer){.number = e.number, .visits = e.visits, .words = (uint32_t)len}, words);
}

/* By scan, and by lookup with the same visits. */
static void shows(const example *examples, size_t len) {
    for (size_t i = 0; i < len; i++) {
        runs(tholdrimash_match, examples[i]);
        runs(tholdrimash_lookup, examples[i]);
    }
}

static const char *const T = "m o v ws expr | m o v ws sub1 / p | q";

/* Chapters 2 to 4. */
static void steps(void) {
    const example examples[] = {
        {"a x", "a\rx", "", 0, 3, "1,2, 0,0,0"},
        {"a ws x", "a\rx", "", 0, 4, "1,2, 0,0,0"},
        {"s t e p expr", "step7", "free(4,5)=5", 0, 6, "1,4, 0,0,1, 0,4,5"},
        {"s t e p expr", "step 7", "free(4,6)=6", 0, 6, "1,4, 0,0,1, 0,5,6"},
        {"s t e p ws expr", "step7", "free(4,5)=5", 1, 5, NULL},
        {T, "mov 7", "free(4,5)=5", 1, 12, NULL},
        {T, "mov 7", "free(4,5)=5, free(3,5)=5", 0, 13, "1,3, 0,0,1, 0,4,5"},
        {"a x", "ax", "", 0, 3, "1,2, 0,0,0"},
        {"a x", "a x", "", 0, 3, "1,2, 0,0,0"},
        {"A x", "aX", "", 0, 3, "1,2, 0,0,0"},
        {"n o p", "  nop", "", 0, 4, "1,3, 0,0,0"},
        {"a ws x", "a x", "", 0, 4, "1,2, 0,0,0"},
        {"a ws x", "ax", "", 1, 2, NULL},
        {"a ws ws x", "a x", "", 0, 5, "1,2, 0,0,0"},
        {"n o p ws", "nop", "", 0, 5, "1,3, 0,0,0"},
        {"expr + expr", "12+3", "free(0,4)=4, free(0,2)=2, free(3,4)=4, greedy(0,4)=2, greedy(3,4)=4", 0, 5,
         "1,1, 0,0,2, 0,0,2, 0,3,4"},
        {"expr + expr", "12+3", "free(0,4)=4, free(3,4)=4", 1, 2, NULL},
        {"expr + c", "ab +c", "free(0,5)=2, free(0,3)=3", 0, 4, "1,2, 0,0,1, 0,0,2"},
        {"expr sub1 / r", "2r", "free(0,2)=2, greedy(0,2)=1", 0, 7, "1,1, 0,0,2, 0,0,1, 1,1,2, 1,0,0"},
        {"expr sub1 / r", "2r", "free(0,2)=2", 1, 3, NULL},
        {"sub1 + c / a", "a+c", "", 0, 8, "1,3, 0,0,1, 1,0,1, 1,0,0"},
        {"sub1 + c / a ws", "a+c", "", 0, 9, "1,3, 0,0,1, 1,0,1, 1,0,0"},
        {"sub1 + expr / expr", "a+b", "free(0,3)=3, free(0,1)=1, free(2,3)=3", 0, 9,
         "1,1, 0,0,2, 1,0,1, 1,0,1, 0,0,1, 0,2,3"},
        {"a expr b", "a 7b", "free(1,3)=3", 0, 4, "1,2, 0,0,1, 0,2,3"},
        {"a expr b", "a b", "free(1,3)=1", 0, 4, "1,2, 0,0,1, 0,1,1"},
        {"a sub1 /", "a", "", 0, 4, "1,1, 0,0,1, 1,1,1, 1,0,0"},
        {"a", "ab", "", 1, 2, NULL},
        {"", "", "", 0, 1, "1,0, 0,0,0"},
        {"", "a", "", 1, 1, NULL},
        {"a // sub0 b", "ab", "", 0, 9, "1,2, 1,0,1, 1,0,1, 0,0,0"},
        {T, "mov p", "free(3,5)=5", 0, 15, "1,4, 0,1,1, 1,4,5, 1,0,0"},
        {"s t e p ws expr | s t e p expr", "step 7", "free(4,6)=6", 0, 13, "2,4, 0,0,1, 0,5,6, 0,1,1, 0,5,6"},
    };
    shows(examples, LEN(examples));
    runs(tholdrimash_match, (example){"n o p", "no", "", 1, 3, NULL});
}

/* Chapter 3.4. The rule is an expression, the character, and what follows it in the line; the sheet has an end under
 * that one place. So the line matches exactly if that is the cut. A letter is wanted in lower case. */
static void cuts_at(const char *line, char wanted, int place) {
    size_t n = strlen(line), start = strspn(line, "\t\r ");
    for (size_t p = 0; p < n; p++) {
        if (tolower((unsigned char)line[p]) != wanted) continue;
        char rules[64] = "expr", entry[64], words[64];
        for (size_t i = p; i < n; i++) {
            strcat(rules, " ");
            strncat(rules, line + i, 1);
        }
        snprintf(entry, sizeof entry, "free(0,%zu)=%zu", p, p);
        snprintf(words, sizeof words, "1,%zu, 0,0,1, 0,%zu,%zu", n - p, start, p);
        int is_cut = place >= 0 && (size_t)place == p;
        example e = {rules, line, entry, !is_cut, is_cut ? (uint32_t)(n - p + 2) : 1, is_cut ? words : NULL};
        shows(&e, 1);
    }
}

static void cuts(void) {
    cuts_at("a+b", '+', 1);
    cuts_at("+a+b", '+', 2);
    cuts_at("-1-2", '-', 2);
    cuts_at("\r-1-2", '-', 3);
    cuts_at("(a+b)+c", '+', 5);
    cuts_at("{a+b}+c", '+', 5);
    cuts_at("[a+b]+c", '+', 2);
    cuts_at("a)+b", '+', -1);
    cuts_at("(})+", '+', -1);
    cuts_at("(a+b", '+', -1);
    cuts_at("a)+b", ')', 1);
    cuts_at("(a))", ')', 3);
    cuts_at("a(", '(', 1);
    cuts_at("((", '(', -1);
    cuts_at("-2X3", 'x', 2);
}

/* Chapters 5 and 6. */
static void walks(void) {
    const example examples[] = {
        {"sub1 / ( sub1 ) | x", "((((((((((x))))))))))", "", 0, 8189, NULL},
        {"sub1 / ( sub1 ) | x", "(((((((((((x)))))))))))", "", 8, 10948, NULL},
        {"sub1 / ( sub1 sub2 | x / )", "(((((((((((x)))))))))))", "", 0, 82, NULL},
        {"sub0", "", "", 7, 17, NULL},
        {"sub1 / sub1 + a | a", "a+a", "", 7, 17, NULL},
        {"sub1 / a + sub1 | a", "a+a", "", 0, 13, "1,3, 0,0,1, 1,0,3, 1,0,1, 1,2,3, 1,1,0"},
        {"sub1 / a sub1 | a", "aaaaaaaaaaaaaaa", "", 0, 183, NULL},
        {"sub1 / a sub1 | a", "aaaaaaaaaaaaaaaa", "", 7, 33, NULL},
    };
    shows(examples, LEN(examples));

    const char *mov = "m o v q | m o v p | m o v ws expr | o v p", *order = "a expr | expr b";
    runs(tholdrimash_match, (example){mov, "  MoV p", "free(5,7)=7", 0, 16, "1,4, 0,1,0"});
    runs(tholdrimash_lookup, (example){mov, "  MoV p", "free(5,7)=7", 0, 11, "1,4, 0,1,0"});
    runs(tholdrimash_match,
         (example){order, "ab", "free(1,2)=2, free(0,1)=1", 0, 6, "2,1, 0,0,1, 0,1,2, 0,1,1, 0,0,1"});
    runs(tholdrimash_lookup,
         (example){order, "ab", "free(1,2)=2, free(0,1)=1", 0, 6, "2,1, 0,1,1, 0,0,1, 0,0,1, 0,1,2"});
}

/* The budgets of chapters 5 and 6. */
static void budgets(void) {
    static const uint32_t fourth[] = {1, 1, 0, 3, 0};
    uint8_t sheet[8];
    packed itself = pack("sub0"), many = pack("sub1 sub1 sub1 sub1 sub1 sub1 sub1 / | |"), four = pack("a | b | c | d");

    call c = {itself.words, itself.len, "", sheet, fill(sheet, 0, ""), 17, 0, 0};
    refused("depth 17 and budget 17", c, (tholdrimash_answer){.number = THOLDRIMASH_TOO_DEEP, .visits = 17});
    c.budget = 16;
    refused("depth 17 and budget 16", c, (tholdrimash_answer){.number = THOLDRIMASH_SPENT, .visits = 16});

    c = (call){many.words, many.len, "", sheet, fill(sheet, 0, ""), 3077, 0, 0};
    refused("record 4,097 and budget 3,077", c, (tholdrimash_answer){.number = THOLDRIMASH_POOL_FULL, .visits = 3077});
    c.budget = 3076;
    refused("record 4,097 and budget 3,076", c, (tholdrimash_answer){.number = THOLDRIMASH_SPENT, .visits = 3076});

    c = (call){four.words, four.len, "d", sheet, fill(sheet, 1, ""), 2, 0, LEN(fourth)};
    moves("budget 2, scan", tholdrimash_match, c, (tholdrimash_answer){.number = THOLDRIMASH_SPENT, .visits = 2}, NULL);
    moves("budget 2, lookup", tholdrimash_lookup, c,
          (tholdrimash_answer){.number = THOLDRIMASH_MATCHED, .visits = 2, .words = LEN(fourth)}, fourth);
}

/* Two levels of nested arguments, and an expression beside them: every word, the moved ones written out. */
static void nested_places(void) {
    uint8_t sheet[2 * 8 * 8];
    packed t = pack("m sub1 , expr / ( sub2 ) / p | q");
    call c = {t.words, t.len, "m (q),7", sheet, fill(sheet, 7, "free(6,7)=7"), ALL, 0, 0};

    for (size_t i = 0; i < LEN(some_bases); i++) {
        uint32_t b = some_bases[i];
        const uint32_t words[] = {1, 5, 0, 0, 2, 1, b + 2, b + 5, 1, 0, 1, 1, b + 3, b + 4, 2, 1, 0, 0, b + 6, b + 7};
        const tholdrimash_answer matched = {.number = THOLDRIMASH_MATCHED, .visits = 25, .words = LEN(words)};
        c.base = b;
        c.room = LEN(words);
        gives("places two deep, scan", tholdrimash_match, c, matched, words);
        gives("places two deep, lookup", tholdrimash_lookup, c, matched, words);
    }
}

/* A line of 120 bytes at the greatest base: its arguments end at the last place that 32 bits hold. */
static void greatest_places(void) {
    enum { START = 2, END = 120 };
    static uint8_t sheet[2 * (END + 1) * (END + 1)];
    static const struct {
        const char *rules;
        uint32_t visits;
        size_t len;
        uint32_t words[14];
    } ends[] = {
        {"m expr", 3, 8, {1, 1, 0, 0, 1, 0, GREATEST + START, UINT32_MAX}},
        {"m sub1 / expr",
         5,
         14,
         {1, 1, 0, 0, 1, 1, GREATEST + START, UINT32_MAX, 1, 0, 1, 0, GREATEST + START, UINT32_MAX}},
        {"m expr sub1 /", 5, 14, {1, 1, 0, 0, 2, 0, GREATEST + START, UINT32_MAX, 1, UINT32_MAX, UINT32_MAX, 1, 0, 0}},
    };
    char line[END + 1] = "m ";

    memset(line + START, '7', END - START);
    tholdrimash_answer told = tholdrimash_fill_sheet((const uint8_t *)line, END, sheet, sizeof sheet);
    check("the greatest end", "filled", told.number == THOLDRIMASH_FILLED);
    for (size_t i = 0; i < LEN(ends); i++) {
        packed t = pack(ends[i].rules);
        call c = {t.words, t.len, line, sheet, sizeof sheet, ALL, GREATEST, ends[i].len + 1};
        const tholdrimash_answer matched = {
            .number = THOLDRIMASH_MATCHED, .visits = ends[i].visits, .words = (uint32_t)ends[i].len};
        gives("the greatest end, scan", tholdrimash_match, c, matched, ends[i].words);
        gives("the greatest end, lookup", tholdrimash_lookup, c, matched, ends[i].words);
        refused_at_bad_bases("a base past the greatest end", c, THOLDRIMASH_BAD_BASE, 0);
    }
}

/* Too great a base is told after 2, 3, 4 and 5, and before all that the walk and the room may give. */
static void bad_bases(void) {
    uint8_t sheet[2 * 6 * 6];
    packed itself = pack("sub0"), many = pack("sub1 sub1 sub1 sub1 sub1 sub1 sub1 / | |");
    const call good = {t, LEN(t), "mov p", sheet, fill(sheet, 5, "free(3,5)=5"), ALL, 0, 11};

    call c = good;
    refused_at_bad_bases("a bad base", c, THOLDRIMASH_BAD_BASE, 0);
    c.room = 64;
    refused_at_bad_bases("a bad base, a larger buffer", c, THOLDRIMASH_BAD_BASE, 0);

    c = (call){t, 0, ";", sheet, 0, 0, 0, 0};
    refused_at_bad_bases("a bad base, and all else is bad", c, THOLDRIMASH_BAD_TABLE, 0);
    c = good;
    c.table_len--;
    refused_at_bad_bases("a bad base and a bad table", c, THOLDRIMASH_BAD_TABLE, 0);
    c = good;
    c.line = "mov;p";
    refused_at_bad_bases("a bad base and a bad line", c, THOLDRIMASH_BAD_LINE, 3);
    c = good;
    c.sheet_len--;
    refused_at_bad_bases("a bad base and a bad sheet", c, THOLDRIMASH_BAD_SHEET, 0);
    c = good;
    c.budget = 0;
    refused_at_bad_bases("a bad base and budget 0", c, THOLDRIMASH_BAD_BUDGET, 0);
    c.budget = ALL + 1;
    refused_at_bad_bases("a bad base and budget 1,000,001", c, THOLDRIMASH_BAD_BUDGET, 0);

    c = good;
    c.budget = 14;
    refused_at_bad_bases("a bad base and too small a budget", c, THOLDRIMASH_BAD_BASE, 0);
    c = good;
    c.line = "nop p";
    refused_at_bad_bases("a bad base and no match", c, THOLDRIMASH_BAD_BASE, 0);
    c = good;
    c.room--;
    refused_at_bad_bases("a bad base and a buffer one word short", c, THOLDRIMASH_BAD_BASE, 0);
    c.room = 0;
    refused_at_bad_bases("a bad base and no buffer", c, THOLDRIMASH_BAD_BASE, 0);
    c = (call){itself.words, itself.len, "", sheet, fill(sheet, 0, ""), ALL, 0, 0};
    refused_at_bad_bases("a bad base and depth 17", c, THOLDRIMASH_BAD_BASE, 0);
    c.table = many.words;
    c.table_len = many.len;
    refused_at_bad_bases("a bad base and record 4,097", c, THOLDRIMASH_BAD_BASE, 0);
}

/* Chapter 9: outcomes, what each pass gives, and the words after it. */
typedef struct {
    uint32_t words[3];
    size_t len;
    uint32_t guessing, last, count;
    uint16_t indices[3];
    uint32_t after[3];
} outcomes;

static void chooses(void) {
    static const outcomes lists[] = {
        {{134, 71}, 2, 0, 0, 1, {1}, {135, 71}},
        {{134, 70, 70}, 3, 0, 13, 2, {1, 2}, {134, 70, 70}},
        {{70, 71}, 2, 0, 13, 2, {0, 1}, {71, 71}},
        {{2, 134}, 2, 0, 0, 1, {1}, {2, 134}},
        {{4, 70}, 2, 0, 0, 1, {1}, {4, 70}},
        {{0, 70}, 2, 0, 0, 1, {1}, {0, 71}},
        {{2}, 1, 11, 11, 0, {0}, {2}},
        {{4}, 1, 12, 12, 0, {0}, {4}},
        {{4, 2}, 2, 12, 12, 0, {0}, {4, 2}},
        {{0}, 0, 11, 11, 0, {0}, {0}},
        {{1}, 1, 10, 10, 0, {0}, {1}},
        {{10}, 1, 10, 10, 0, {0}, {10}},
        {{524286}, 1, 0, 0, 1, {0}, {524286}},
        {{524294}, 1, 10, 10, 0, {0}, {524294}},
    };
    for (size_t i = 0; i < LEN(lists); i++) {
        outcomes o = lists[i];
        tholdrimash_selection guessing = {.number = o.guessing, .count = o.count},
                              last = {.number = o.last, .count = o.count};
        selects("manual, guessing pass", o.words, o.len, 0, 3, guessing, o.indices, o.after);
        selects("manual, last pass", o.words, o.len, 1, 3, last, o.indices, o.after);
    }
}

/* Chapter 10: a text, as the manual shows it with a space for a tab and `|` for byte 10. */
static size_t spell(char *text, const char *shown) {
    size_t len = strlen(shown);
    for (size_t i = 0; i < len; i++) text[i] = shown[i] == ' ' ? '\t' : shown[i] == '|' ? '\n' : shown[i];
    return len;
}

/* A text with the words that it gives, or NULL and its first bad line. */
typedef struct {
    const char *shown, *words;
    uint32_t line;
} listing;

/* The words that come back are the text again when they are written. */
static void lists(listing l) {
    char name[128], text[128];
    uint16_t words[32];
    size_t len = spell(text, l.shown), count = l.words ? table_numbers(words, l.words) : 0;

    snprintf(name, sizeof name, "manual, text %s", l.shown);
    if (!l.words) {
        reads(name, text, len, LEN(words), (tholdrimash_answer){.number = THOLDRIMASH_BAD_TEXT, .place = l.line}, NULL);
        return;
    }
    reads(name, text, len, count + 1, (tholdrimash_answer){.number = THOLDRIMASH_READ, .words = (uint32_t)count},
          words);
    writes(name, words, count, len + 1, (tholdrimash_answer){.number = THOLDRIMASH_WRITTEN, .words = (uint32_t)len},
           text);
}

static void listings(void) {
    static const listing texts[] = {
        {"ruleset top|rule 0 n o p|", "1,1,3, 0, 0,0,3, 110,111,112", 0},
        {"ruleset top|", "1,0,0, 0", 0},
        {"ruleset nested|rule 0|", "1,1,0, 1, 0,0,0", 0},
        {"ruleset top|rule 0 w s|", "1,1,2, 0, 0,0,2, 119,115", 0},
        {"", NULL, 0},
        {"ruleset top|rule 0 n o p", NULL, 1},
        {"ruleset top|rule 0 n o p|;", NULL, 2},
        {"Ruleset top|", NULL, 0},
        {"ruleset|", NULL, 0},
        {"rule 0 p|", NULL, 0},
        {"ruleset top|rule 0 sub1|", NULL, 1},
        {"ruleset top|rule 00 p|", NULL, 1},
        {"ruleset top|ruleset nested|rule 0 sub01|", NULL, 2},
        {"ruleset top|rule 4294967296|", NULL, 1},
        {"ruleset top|rule 0 nop|", NULL, 1},
        {"ruleset top|rule 0 ;|", NULL, 1},
        {"ruleset top|rule 0 p |", NULL, 1},
        {"ruleset top||rule 0 p|", NULL, 1},
        {"ruleset top|rule 0 p|ruleset nested|", NULL, 2},
        {"ruleset top|ruleset nested|rule 1 p|rule 0 q|", NULL, 3},
        {"ruleset top|rule 0 nop|rule 0 ;|", NULL, 1},
        {"ruleset top\r|rule 0 p\r|", NULL, 0},
        {"ruleset top|rule 0 p\r|", NULL, 1},
        {"ruleset top|rule 0 \"\"\"\"|", NULL, 1},
    };
    for (size_t i = 0; i < LEN(texts); i++) lists(texts[i]);
}

/* So many lines `ruleset top`, then so many `rule 0`: at the limit, and one over it. */
static void lines(uint32_t rulesets, uint32_t rules, int good) {
    static const char top[] = "ruleset\ttop\n", rule[] = "rule\t0\n";
    static char text[33 * sizeof top + 513 * sizeof rule];
    static uint16_t words[3 + 32 + 3 * 512];
    size_t len = 0, count = 3 + rulesets + 3 * rules;
    for (uint32_t i = 0; i < rulesets + rules; i++) {
        const char *line = i < rulesets ? top : rule;
        memcpy(text + len, line, strlen(line));
        len += strlen(line);
    }
    if (!good) {
        reads("lines over a limit", text, len, LEN(words),
              (tholdrimash_answer){.number = THOLDRIMASH_BAD_TEXT, .place = rulesets + rules - 1}, NULL);
        return;
    }
    memset(words, 0, sizeof words);
    words[0] = (uint16_t)rulesets;
    words[1] = (uint16_t)rules;
    reads("lines at a limit", text, len, count,
          (tholdrimash_answer){.number = THOLDRIMASH_READ, .words = (uint32_t)count}, words);
    writes("lines at a limit", words, count, len,
           (tholdrimash_answer){.number = THOLDRIMASH_WRITTEN, .words = (uint32_t)len}, text);
}

/* Parts in another order, and spare ones: the listing has neither, what is read again is packed, and both match alike.
 */
static void unpacked(void) {
    uint16_t words[16], again[13];
    char text[64];
    size_t count = table_numbers(words, "1,2,6, 0, 0,3,2, 0,1,1, 64,113,64,112,256,64"),
           packed = table_numbers(again, "1,2,3, 0, 0,0,2, 0,2,1, 112,256,113"),
           len = spell(text, "ruleset top|rule 0 p ws|rule 0 q|");
    writes("spare parts", words, count, 64, (tholdrimash_answer){.number = THOLDRIMASH_WRITTEN, .words = 33}, text);
    reads("spare parts", text, len, 16, (tholdrimash_answer){.number = THOLDRIMASH_READ, .words = (uint32_t)packed},
          again);

    static const uint32_t whole[] = {1, 1, 0, 0, 0};
    uint8_t sheet[8];
    const tholdrimash_answer matched = {.number = THOLDRIMASH_MATCHED, .visits = 4, .words = LEN(whole)};
    call c = {words, count, "p", sheet, fill(sheet, 1, ""), ALL, 0, LEN(whole)};
    moves("spare parts, matched", tholdrimash_match, c, matched, whole);
    c.table = again;
    c.table_len = packed;
    moves("spare parts, packed and matched", tholdrimash_match, c, matched, whole);
}

typedef tholdrimash_answer programming(const uint16_t *table, size_t table_len, const uint8_t *text, size_t text_len,
                                       const uint32_t *ends, size_t ends_len, const uint8_t *sheets, size_t sheets_len,
                                       const uint32_t *budgets, size_t budgets_len, const uint32_t *bases,
                                       size_t bases_len, uint32_t *rows, size_t rows_len, uint32_t *answers,
                                       size_t answers_len);

/* A program with room for every shape that is tried. A line too many has its end, its sheet, its budget and its base
 * here too. */
enum { LINES = 257 };

typedef struct {
    const uint16_t *table;
    size_t table_len;
    uint8_t text[LINES * 8];
    size_t text_len;
    uint32_t ends[LINES];
    size_t ends_len;
    uint8_t sheets[LINES * 128];
    size_t sheets_len;
    uint32_t budgets[LINES];
    size_t budgets_len;
    uint32_t bases[LINES];
    size_t bases_len;
    size_t rows_len, room;
} program;

/* One call gives this number, and on number 0 these rows and these words. */
static void runs_program(const char *name, programming *run, const program *p, uint32_t number, const uint32_t *rows,
                         const uint32_t *words, size_t words_len) {
    size_t rows_len = number == THOLDRIMASH_PROGRAM_READ ? p->rows_len : 0;
    lent table = lend(p->table, p->table_len * sizeof *p->table), text = lend(p->text, p->text_len),
         ends = lend(p->ends, p->ends_len * sizeof *p->ends), sheets = lend(p->sheets, p->sheets_len),
         budgets = lend(p->budgets, p->budgets_len * sizeof *p->budgets),
         bases = lend(p->bases, p->bases_len * sizeof *p->bases), own = lend(NULL, p->rows_len * sizeof *rows),
         answers = lend(NULL, p->room * sizeof *words);

    tholdrimash_answer told =
        run(at(table), p->table_len, at(text), p->text_len, at(ends), p->ends_len, at(sheets), p->sheets_len,
            at(budgets), p->budgets_len, at(bases), p->bases_len, at(own), p->rows_len, at(answers), p->room);
    check(name, "number", told.number == number);
    check(name, "visits and place", told.visits == 0 && told.place == 0);
    check(name, "words", told.words == words_len);
    check(name, "table, text, ends, sheets, budgets and bases",
          unchanged(table) && unchanged(text) && unchanged(ends) && unchanged(sheets) && unchanged(budgets) &&
              unchanged(bases));
    check(name, "rows", holds(own, rows, rows_len * sizeof *rows));
    check(name, "answers", holds(answers, words, words_len * sizeof *words));

    give_back(table);
    give_back(text);
    give_back(ends);
    give_back(sheets);
    give_back(budgets);
    give_back(bases);
    give_back(own);
    give_back(answers);
}

/* Scan and lookup both give these rows and words. */
static void both_run(const char *name, const program *p, const uint32_t *rows, const uint32_t *words, size_t len) {
    runs_program(name, tholdrimash_match_program, p, THOLDRIMASH_PROGRAM_READ, rows, words, len);
    runs_program(name, tholdrimash_lookup_program, p, THOLDRIMASH_PROGRAM_READ, rows, words, len);
}

static void both_refuse(const char *name, const program *p, uint32_t number) {
    runs_program(name, tholdrimash_match_program, p, number, NULL, NULL, 0);
    runs_program(name, tholdrimash_lookup_program, p, number, NULL, NULL, 0);
}

/* A program on T without lines. */
static void begin(program *p, size_t room) { *p = (program){.table = t, .table_len = LEN(t), .room = room}; }

/* One more line, with the entries of its sheet, at base 0. A line of more than 120 bytes has no sheet. */
static void add_line(program *p, const char *line, const char *entries) {
    size_t n = strlen(line);
    memcpy(p->text + p->text_len, line, n);
    p->text_len += n;
    p->ends[p->ends_len++] = (uint32_t)p->text_len;
    if (n <= 120) p->sheets_len += fill(p->sheets + p->sheets_len, n, entries);
    p->budgets[p->budgets_len++] = ALL;
    p->bases[p->bases_len++] = 0;
    p->rows_len += 2;
}

/* A line of five bytes that T reads, as `mov p`. */
static void add_mov(program *p, const char *line) { add_line(p, line, "free(3,5)=5"); }

/* T's readings of `mov p`, `mov 7` and `mov q`. */
#define MOV_P 1, 4, 0, 1, 1, 1, 4, 5, 1, 0, 0
#define MOV_7 1, 3, 0, 0, 1, 0, 4, 5
#define MOV_Q 1, 4, 0, 1, 1, 1, 4, 5, 1, 1, 0

/* Chapter 11: its lines, in rooms that are larger, full, and full before the last line, and before the second. */
static void lines_of_a_program(void) {
    static const uint32_t words[] = {MOV_P, MOV_7, MOV_Q};
    static const uint32_t all[] = {0, 0, 0, 11, 1, 19, 3, 19, 0, 19},
                          short_of_one[] = {0, 0, 0, 11, 1, 19, 3, 19, 9, 19},
                          short_of_two[] = {0, 0, 9, 11, 1, 11, 3, 11, 9, 11};
    static program p;

    begin(&p, 64);
    add_mov(&p, "mov p");
    add_mov(&p, "mov 7");
    add_line(&p, "", "");
    add_line(&p, "mov;", "");
    add_mov(&p, "mov q");
    both_run("a program", &p, all, words, 30);
    p.room = 30;
    both_run("a program, a buffer exactly full", &p, all, words, 30);
    p.room = 29;
    both_run("a program, one word short", &p, short_of_one, words, 19);
    p.room = 18;
    both_run("a program, short in the middle", &p, short_of_two, words, 11);
    p.room = 30;
    /* In a file, each line ended by one byte: the same rows, and each place moved by its line's base. */
    static const uint32_t bases[] = {0, 6, 12, 13, 18};
    uint32_t moved[LEN(words)];
    memcpy(p.bases, bases, sizeof bases);
    move(moved, words, 11, 0);
    move(moved + 11, words + 11, 8, 6);
    move(moved + 19, words + 19, 11, 18);
    both_run("a program, lines of a file", &p, all, moved, 30);
    memset(p.bases, 0, sizeof bases);
    memcpy(p.text + p.text_len, " ;no line", 9);
    p.text_len += 9;
    both_run("text after the last end", &p, all, words, 30);

    /* Each line is what the single call gives. */
    static const uint32_t budgets[] = {14, 0, 15, ALL, ALL + 1}, numbers[] = {6, 0, 5, 0, 1, 0, 3, 0, 5, 0};
    memcpy(p.budgets, budgets, sizeof budgets);
    both_run("a budget for each line", &p, numbers, words, 0);
    p.budgets[0] = 15;
    p.sheets[72 + 3 * 6 + 5] = 6;
    static const uint32_t bad_sheet[] = {0, 0, 4, 11, 1, 11, 3, 11, 5, 11};
    p.budgets[1] = ALL;
    both_run("a bad entry of one sheet", &p, bad_sheet, words, 11);
}

/* The rows and words of single calls on the lines, each in the room that those before it leave; and how many words. */
static size_t singly(const program *p, matching *run, uint32_t *rows, uint32_t *words) {
    size_t used = 0, start = 0, before = 0;
    for (size_t i = 0; i < p->ends_len; i++) {
        size_t n = p->ends[i] - start, sheet_len = n > 120 ? 0 : 2 * (n + 1) * (n + 1);
        tholdrimash_answer told = run(p->table, p->table_len, p->text + start, n, p->sheets + before, sheet_len,
                                      p->budgets[i], p->bases[i], words + used, p->room - used);
        rows[2 * i] = told.number;
        rows[2 * i + 1] = (uint32_t)used;
        if (told.number == THOLDRIMASH_MATCHED) used += told.words;
        start += n;
        before += sheet_len;
    }
    return used;
}

/* The program's rows and words are those of single calls. */
static void runs_singly(const char *name, const program *p) {
    static uint32_t rows[2 * LINES], words[LINES];
    size_t len = singly(p, tholdrimash_match, rows, words);
    runs_program(name, tholdrimash_match_program, p, THOLDRIMASH_PROGRAM_READ, rows, words, len);
    len = singly(p, tholdrimash_lookup, rows, words);
    runs_program(name, tholdrimash_lookup_program, p, THOLDRIMASH_PROGRAM_READ, rows, words, len);
}

/* A base for each line: where it begins in a file, at each of the bases, and too great for some. */
static void bases_of_a_program(void) {
    static const uint32_t zero[] = {MOV_P, MOV_7, MOV_Q}, p_and_q[] = {MOV_P, MOV_Q};
    /* Of a file with `mov p`, `mov 7` and, two bytes further in, `mov q`, each ended by one byte. */
    static const uint32_t in_a_file[] = {1, 4, 0,  1,  1, 1, 4, 5, 1, 0, 0,  1,  3, 0, 0,
                                         1, 0, 10, 11, 1, 4, 0, 1, 1, 1, 18, 19, 1, 1, 0};
    static const uint32_t all[] = {0, 0, 0, 11, 0, 19}, second[] = {0, 0, 19, 11, 0, 11},
                          none[] = {19, 0, 19, 0, 19, 0}, order[] = {5, 0, 19, 0, 19, 0};
    uint32_t words[LEN(zero)];
    static program good, p;

    begin(&good, LEN(zero));
    add_mov(&good, "mov p");
    add_mov(&good, "mov 7");
    add_mov(&good, "mov q");
    both_run("bases 0", &good, all, zero, LEN(zero));

    p = good;
    p.bases[1] = 6;
    p.bases[2] = 14;
    both_run("lines of a file", &p, all, in_a_file, LEN(in_a_file));
    for (size_t i = 0; i < LEN(some_bases); i++) {
        p = good;
        p.bases[0] = some_bases[i];
        p.bases[1] = some_bases[LEN(some_bases) - 1 - i];
        move(words, zero, 11, p.bases[0]);
        move(words + 11, zero + 11, 8, p.bases[1]);
        move(words + 19, zero + 19, 11, 0);
        both_run("a base for each line", &p, all, words, LEN(words));
        for (p.room = 0; p.room <= LEN(words); p.room++) runs_singly("a base for each line, singly", &p);
    }

    for (size_t i = 0; i < LEN(too_great); i++) {
        p = good;
        p.bases[1] = too_great[i];
        both_run("a bad base between good ones", &p, second, p_and_q, LEN(p_and_q));
        p.room = LEN(p_and_q);
        both_run("a bad base takes no room", &p, second, p_and_q, LEN(p_and_q));
        for (p.room = 0; p.room <= LEN(words); p.room++) runs_singly("a bad base, singly", &p);
        p.bases[0] = p.bases[2] = too_great[i];
        both_run("bad bases alone", &p, none, NULL, 0);
        p.room = 0;
        both_run("bad bases, no room", &p, none, NULL, 0);
        p.budgets[0] = 0;
        p.budgets[1] = 1;
        both_run("bad bases, and bad budgets", &p, order, NULL, 0);
        p.bases_len--;
        both_refuse("bad bases, too few", &p, THOLDRIMASH_BAD_PROGRAM);
        p.table_len--;
        both_refuse("bad bases, too few, and a bad table", &p, THOLDRIMASH_BAD_TABLE);
    }
}

/* Lines that a longer one stands between, that are empty, that are none. */
static void odd_lines(void) {
    static const uint32_t both[] = {MOV_P, MOV_Q}, then[] = {MOV_P, MOV_7}, empty[] = {1, 0, 0, 0, 0, 1, 0, 0, 0, 0};
    static const uint16_t no_parts[] = {1, 1, 0, 0, 0, 0, 0};
    static const uint32_t around[] = {0, 0, 3, 11, 0, 11}, later[] = {0, 0, 9, 11, 0, 11}, twice[] = {0, 0, 0, 5};
    static program p;
    char longer[122];

    memset(longer, 'a', 121);
    longer[121] = 0;
    begin(&p, 22);
    add_mov(&p, "mov p");
    add_line(&p, longer, "");
    add_mov(&p, "mov q");
    both_run("a line of 121 bytes", &p, around, both, LEN(both));

    begin(&p, 19);
    add_mov(&p, "mov p");
    add_mov(&p, "mov q");
    add_mov(&p, "mov 7");
    both_run("a shorter answer later", &p, later, then, LEN(then));

    begin(&p, 11);
    p.table = no_parts;
    p.table_len = LEN(no_parts);
    add_line(&p, "", "");
    add_line(&p, "", "");
    both_run("equal ends", &p, twice, empty, LEN(empty));

    begin(&p, 0);
    both_run("no line", &p, NULL, NULL, 0);
    memcpy(p.text, "mov p", 5);
    p.text_len = 5;
    both_run("no line, and a text", &p, NULL, NULL, 0);
    p.table_len--;
    both_refuse("no line, and a bad table", &p, THOLDRIMASH_BAD_TABLE);
}

/* 256 lines, and one more. */
static void most_lines(void) {
    static const uint32_t one[] = {MOV_7};
    static uint32_t words[LINES * LEN(one)], rows[2 * LINES];
    static program p;

    begin(&p, LEN(words));
    for (uint32_t i = 0; i < LINES; i++) {
        memcpy(words + i * LEN(one), one, sizeof one);
        rows[2 * i + 1] = i * (uint32_t)LEN(one);
        if (i == LINES - 1) both_run("256 lines", &p, rows, words, i * LEN(one));
        add_mov(&p, "mov 7");
    }
    both_refuse("257 lines", &p, THOLDRIMASH_BAD_PROGRAM);
}

/* Good but for one thing, which makes it 17; and 2 if its table is bad as well. */
static void spoilt(const char *name, const program *p) {
    static program worse;
    both_refuse(name, p, THOLDRIMASH_BAD_PROGRAM);
    worse = *p;
    worse.table_len--;
    both_refuse(name, &worse, THOLDRIMASH_BAD_TABLE);
}

static void bad_programs(void) {
    static const struct {
        const char *name;
        uint32_t ends[3];
    } bad_ends[] = {
        {"ends that fall", {10, 5, 15}},
        {"a last end that falls", {5, 10, 9}},
        {"an end past the text", {5, 10, 16}},
        {"an end far off", {5, 10, 1U << 31}},
        {"the greatest end", {UINT32_MAX, 10, 15}},
        {"ends of other lines", {4, 10, 15}},
    };
    static program good, p;

    begin(&good, 64);
    add_mov(&good, "mov p");
    add_mov(&good, "mov 7");
    add_mov(&good, "mov q");
    for (size_t i = 0; i < LEN(bad_ends); i++) {
        p = good;
        memcpy(p.ends, bad_ends[i].ends, sizeof bad_ends[i].ends);
        spoilt(bad_ends[i].name, &p);
    }
    /* Ends that fall are bad whatever sheets there are: here none for the line that would end before it begins, or one
     * as for an empty line. */
    static const size_t fallen[] = {242 + 242, 242 + 2 + 242};
    for (size_t i = 0; i < LEN(fallen); i++) {
        p = good;
        memcpy(p.ends, bad_ends[0].ends, sizeof bad_ends[0].ends);
        memset(p.sheets, 255, sizeof p.sheets);
        p.sheets_len = fallen[i];
        spoilt("ends that fall, and sheets to them", &p);
    }
    p = good;
    p.text_len--;
    spoilt("a text one byte short", &p);
    for (int more = -1; more < 2; more += 2) {
        p = good;
        p.ends_len += (size_t)more;
        spoilt("an end more or fewer", &p);
        p = good;
        p.sheets_len += (size_t)more;
        spoilt("a sheet's byte more or fewer", &p);
        p = good;
        p.budgets_len += (size_t)more;
        spoilt("a budget more or fewer", &p);
        p = good;
        p.bases_len += (size_t)more;
        spoilt("a base more or fewer", &p);
        p = good;
        p.rows_len += (size_t)more;
        spoilt("a row's word more or fewer", &p);
        p = good;
        p.rows_len += 2 * (size_t)more;
        spoilt("a row more or fewer", &p);
    }
    p = good;
    p.sheets_len = 0;
    spoilt("no sheets", &p);
    p = good;
    p.ends_len = 0;
    spoilt("no ends", &p);
    p = good;
    p.rows_len = 0;
    spoilt("no rows", &p);
    p = good;
    p.budgets_len = 0;
    spoilt("no budgets", &p);
    p = good;
    p.bases_len = 0;
    spoilt("no bases", &p);
    p = good;
    p.table_len--;
    both_refuse("a bad table", &p, THOLDRIMASH_BAD_TABLE);
}

/* The grammar of expressions once more, span by span: whether the bytes from c to before e are a whole term or a whole
 * expression. Bytes from e on are not looked at. What a span is told is kept, so that nested parentheses are soon done.
 */
enum { LONGEST = 120, SIDE = LONGEST + 1, UNKNOWN = 0, YES = 1, NO = 2 };

typedef struct {
    const char *line;
    char terms[SIDE][SIDE], expressions[SIDE][SIDE];
} spans;

static int one_of(const char *bytes, char byte) { return byte != 0 && strchr(bytes, byte) != NULL; }

static int is_blank(char byte) { return one_of("\t\r ", byte); }

static int is_number(char byte) { return one_of("0123456789", byte); }

static int is_letter(char byte) { return one_of("ABCDEFGHIJKLMNOPQRSTUVWXYZabcdefghijklmnopqrstuvwxyz", byte); }

static int is_word(const char *line, size_t c, size_t e) {
    int name = is_letter(line[c]);
    for (size_t i = c; i < e; i++)
        if (!is_number(line[i]) && !(name && is_letter(line[i]))) return 0;
    return 1;
}

static int is_expression(spans *s, size_t c, size_t e);

/* An expression, then nothing but whitespace. */
static int is_enclosed(spans *s, size_t c, size_t e) {
    return c < e && (is_expression(s, c, e) || (is_blank(s->line[e - 1]) && is_enclosed(s, c, e - 1)));
}

static int find_term(spans *s, size_t c, size_t e);

static int is_term(spans *s, size_t c, size_t e) {
    char *told = &s->terms[c][e];
    if (*told == UNKNOWN) *told = find_term(s, c, e) ? YES : NO;
    return *told == YES;
}

static int find_term(spans *s, size_t c, size_t e) {
    if (c == e) return 0;
    if (is_blank(s->line[c]) || s->line[c] == '-') return is_term(s, c + 1, e);
    if (s->line[c] == '(') return s->line[e - 1] == ')' && is_enclosed(s, c + 1, e - 1);
    return is_word(s->line, c, e);
}

/* A term, whitespace, an operator, an expression: some operator is the first. */
static int is_joined(spans *s, size_t c, size_t e) {
    for (size_t p = c; p < e; p++) {
        if (!one_of("+-*/&|", s->line[p]) || !is_expression(s, p + 1, e)) continue;
        for (size_t m = p;; m--) {
            if (is_term(s, c, m)) return 1;
            if (m == c || !is_blank(s->line[m - 1])) break;
        }
    }
    return 0;
}

static int is_expression(spans *s, size_t c, size_t e) {
    char *told = &s->expressions[c][e];
    if (*told == UNKNOWN) *told = is_term(s, c, e) || is_joined(s, c, e) ? YES : NO;
    return *told == YES;
}

/* The greatest end that is found, or 255. */
static uint8_t free_end(spans *s, size_t c, size_t l) {
    for (size_t e = l; e > c; e--)
        if (is_expression(s, c, e)) return (uint8_t)e;
    return 255;
}

static uint8_t greedy_end(const char *line, size_t c, size_t l) {
    while (c < l && is_blank(line[c])) c++;
    size_t e = c;
    while (e < l && is_number(line[e])) e++;
    return e == c ? 255 : (uint8_t)e;
}

/* The sheet that a line is to have, and its length. */
static size_t search(uint8_t *sheet, const char *line) {
    static spans s;
    size_t n = strlen(line), side = n + 1, half = side * side;
    memset(&s, UNKNOWN, sizeof s);
    s.line = line;
    for (size_t c = 0; c < side; c++)
        for (size_t l = 0; l < side; l++) {
            sheet[c * side + l] = c > l ? 255 : free_end(&s, c, l);
            sheet[half + c * side + l] = c > l ? 255 : greedy_end(line, c, l);
        }
    return 2 * half;
}

/* One call fills the sheet as the search does, and matching takes it. */
static void fills(const char *bytes) {
    static uint8_t whole[2 * SIDE * SIDE];
    char name[160];
    size_t n = strlen(bytes), len = search(whole, bytes);
    uint32_t words[64];
    lent line = lend(bytes, n), sheet = lend(NULL, len);

    snprintf(name, sizeof name, "sheet of %s", bytes);
    tholdrimash_answer told = tholdrimash_fill_sheet(at(line), n, at(sheet), len);
    check(name, "number", told.number == THOLDRIMASH_FILLED);
    check(name, "visits and place", told.visits == 0 && told.place == 0);
    check(name, "words", told.words == len);
    check(name, "line", unchanged(line));
    check(name, "sheet", holds(sheet, whole, len));
    told = tholdrimash_match(t, LEN(t), at(line), n, at(sheet), len, ALL, 0, words, LEN(words));
    check(name, "matched on", told.number == THOLDRIMASH_MATCHED || told.number == THOLDRIMASH_NO_MATCH);

    give_back(line);
    give_back(sheet);
}

/* One call is refused by this number and place, with a sheet of so many bytes, and leaves it as it is. */
static void fills_not(const char *name, const char *bytes, size_t len, uint32_t number, uint32_t place) {
    size_t n = strlen(bytes);
    lent line = lend(bytes, n), sheet = lend(NULL, len);

    tholdrimash_answer told = tholdrimash_fill_sheet(at(line), n, at(sheet), len);
    check(name, "number", told.number == number);
    check(name, "visits and words", told.visits == 0 && told.words == 0);
    check(name, "place", told.place == place);
    check(name, "line and sheet", unchanged(line) && unchanged(sheet));

    give_back(line);
    give_back(sheet);
}

/* A byte so many times, then a text; a line of at most 121 bytes. */
static const char *after_run(char byte, size_t count, const char *text) {
    static char line[LONGEST + 2];
    memset(line, byte, count);
    strcpy(line + count, text);
    return line;
}

/* A text again and again, up to so many bytes, the last of which is no whitespace. */
static const char *over_and_over(const char *text, size_t n) {
    static char line[LONGEST + 1];
    for (size_t i = 0; i < n; i++) line[i] = text[i % strlen(text)];
    if (is_blank(line[n - 1])) line[n - 1] = '1';
    line[n] = 0;
    return line;
}

/* Every line of up to four bytes of these, but those that end in whitespace. */
static void short_lines(void) {
    static const char bytes[] = "1a-+( )";
    char line[5] = {0};
    for (size_t n = 0, count = 1; n <= 4; n++, count *= sizeof bytes - 1)
        for (size_t i = 0; i < count; i++) {
            for (size_t at = 0, left = i; at < n; at++, left /= sizeof bytes - 1)
                line[at] = bytes[left % (sizeof bytes - 1)];
            if (n == 0 || !is_blank(line[n - 1])) fills(line);
        }
}

/* Fills each of these lines; a semicolon, which no line has, parts them. */
static void fill_each(const char *lines) {
    char line[LONGEST + 1];
    for (size_t n = 0; *lines; lines += n + (lines[n] == ';')) {
        n = strcspn(lines, ";");
        memcpy(line, lines, n);
        line[n] = 0;
        fills(line);
    }
}

static void filled_sheets(void) {
    fill_each("mov 7;mov p;delta 5 + stem*2, (left - 3);ab;12ab;a1b2 3;9x;x9y-8z;- 1;1 - -1;--(a)-1;1--2;1+-2;1-+2");
    fill_each("1+;1 +;+1;*1;1**2;a&b|c;-;(-);-(;();(1;(1));( 1 )+2;(1+2)*(3-4)/5&6|7;(1+2)x(3);((1)+(2))*3;(1+)2");
    fill_each("(1 2);((((1)));1+(2;1+(2*;a(1);1(2);1 2;a+b c+d;1.5;a_b;$1;#-1;[1];{1};1,2");
    fill_each("a\tb;1\t+\r2;\t\r 1;\r12 ,;(\t1\r);\t-\t1;-\r(\r-\ra\r)\r*\r1");
    short_lines();

    /* Each byte of a line as a term, in a number, in a name, and between terms. */
    for (char byte = 33; byte < 127; byte++) {
        if (byte == ';') continue;
        const char around[][4] = {{byte, 0}, {'1', byte, '2', 0}, {'a', byte, 'b', 0}, {'(', byte, ')', 0}};
        for (size_t i = 0; i < LEN(around); i++) fills(around[i]);
    }

    /* As deep and as long as a line goes. */
    for (size_t n = LONGEST - 1; n <= LONGEST; n++) {
        fills(after_run('-', n - 1, "1"));
        fills(after_run('1', n, ""));
        fills(after_run('a', n, ""));
        fills(after_run(' ', n - 1, "1"));
        fills(after_run('\t', n - 2, "\r1"));
        fills(after_run('(', n, ""));
        fills(over_and_over("1+", n));
        fills(over_and_over("a|", n));
        fills(over_and_over("(1)*", n));
        fills(over_and_over("-(a + 12)\t&\r", n));
        fills(over_and_over("delta 5 + stem*2, (left - 3)", n));
    }
    char closers[LONGEST] = "1";
    for (size_t depth = 1; depth < 60; depth++) {
        strcat(closers, ")");
        if (depth > 14) fills(after_run('(', depth, closers));
    }
    fills(after_run('(', 60, closers));
}

static void unfilled_sheets(void) {
    static const struct {
        const char *line;
        uint32_t place;
    } bad[] = {{"mov;p", 3},  {"1\n2", 1}, {"1 ", 1},      {"\t", 0}, {"a\r", 1},
               {"1+\177", 2}, {"\001", 0}, {"(\3761)", 1}, {"1; ", 1}};
    char name[64];

    /* The line is judged before the sheet's length. */
    for (size_t i = 0; i < LEN(bad); i++) {
        size_t side = strlen(bad[i].line) + 1;
        for (size_t more = 0; more < 3; more++)
            fills_not("a bad line", bad[i].line, 2 * side * side - 1 + more, THOLDRIMASH_BAD_LINE, bad[i].place);
        fills_not("a bad line, no sheet", bad[i].line, 0, THOLDRIMASH_BAD_LINE, bad[i].place);
    }
    const char *longer = after_run('1', LONGEST + 1, "");
    fills_not("121 bytes", longer, 2 * 122 * 122, THOLDRIMASH_BAD_LINE, 120);
    fills_not("121 bytes, the longest sheet", longer, 2 * 121 * 121, THOLDRIMASH_BAD_LINE, 120);
    fills_not("121 bytes, no sheet", longer, 0, THOLDRIMASH_BAD_LINE, 120);

    static const size_t lengths[] = {0, 1, 2, 5, 119, 120};
    for (size_t i = 0; i < LEN(lengths); i++) {
        size_t n = lengths[i], half = (n + 1) * (n + 1), len = 2 * half;
        const size_t wrong[] = {0, 1, len - 1, len + 1, half, 2 * n * n, 2 * (n + 2) * (n + 2), 2 * len};
        snprintf(name, sizeof name, "a sheet of the wrong length for %zu bytes", n);
        for (size_t j = 0; j < LEN(wrong); j++)
            fills_not(name, after_run('1', n, ""), wrong[j], THOLDRIMASH_BAD_SHEET_ROOM, 0);
    }
}

/* Table T on the line's filled sheet, by scan and by lookup. */
static void matches_filled(const char *line, uint32_t number, uint32_t visits, const uint32_t *words, size_t len) {
    uint8_t sheet[2 * 48 * 48];
    size_t n = strlen(line), sheet_len = 2 * (n + 1) * (n + 1);

    tholdrimash_answer told = tholdrimash_fill_sheet((const uint8_t *)line, n, sheet, sheet_len);
    check(line, "filled", told.number == THOLDRIMASH_FILLED && told.words == sheet_len);
    both(line, (call){t, LEN(t), line, sheet, sheet_len, ALL, 0, len},
         (tholdrimash_answer){.number = number, .visits = visits, .words = (uint32_t)len}, words);
}

/* Matching on filled sheets: the manual's lines, and a program whose sheets are filled where they stand. */
static void matched_when_filled(void) {
    static const uint32_t p_alone[] = {MOV_P}, seven[] = {MOV_7}, sum[] = {1, 3, 0, 0, 1, 0, 4, 13};
    static const uint32_t words[] = {MOV_7, MOV_P, 1, 3, 0, 0, 1, 0, 4, 11, MOV_Q};
    static const uint32_t rows[] = {0, 0, 0, 8, 0, 19, 3, 27, 1, 27, 0, 27};
    static const char *const lines[] = {"mov 7", "mov p", "mov (p - 3)", "mov;", "mov 7,", "mov\rq"};
    static program p;
    tholdrimash_answer told;

    matches_filled("mov p", THOLDRIMASH_MATCHED, 15, p_alone, LEN(p_alone));
    matches_filled("mov 7", THOLDRIMASH_MATCHED, 13, seven, LEN(seven));
    matches_filled("mov 7+(q - 2)", THOLDRIMASH_MATCHED, 14, sum, LEN(sum));
    matches_filled("mov 7+", THOLDRIMASH_NO_MATCH, 13, NULL, 0);

    begin(&p, LEN(words));
    for (size_t i = 0; i < LEN(lines); i++) {
        size_t before = p.sheets_len;
        add_line(&p, lines[i], "");
        told = tholdrimash_fill_sheet((const uint8_t *)lines[i], strlen(lines[i]), p.sheets + before,
                                      p.sheets_len - before);
        check(lines[i], "filled", told.number == (i == 3 ? THOLDRIMASH_BAD_LINE : THOLDRIMASH_FILLED));
    }
    both_run("a program on filled sheets", &p, rows, words, LEN(words));
}

int main(void) {
    names();
    on_t();
    t_as_text();
    on_empty_line();
    ties();
    choices();
    steps();
    cuts();
    walks();
    budgets();
    nested_places();
    greatest_places();
    bad_bases();
    chooses();
    listings();
    lines(32, 0, 1);
    lines(33, 0, 0);
    lines(1, 512, 1);
    lines(1, 513, 0);
    lines(32, 513, 0);
    unpacked();
    lines_of_a_program();
    bases_of_a_program();
    odd_lines();
    most_lines();
    bad_programs();
    filled_sheets();
    unfilled_sheets();
    matched_when_filled();
    printf("interface.c: %u checks, %u failed\n", checks, failed);
    return failed != 0;
}
