/* Each call from C, by the header alone: the example's sheet, the calls that it makes, the evening sheet of what they leave, refusals of each. */
#include <stdio.h>
#include <stdlib.h>
#include <string.h>
#include "stringmoss.h"

static uint64_t book[STRINGMOSS_WORDS], empty[STRINGMOSS_WORDS];
static uint8_t text[STRINGMOSS_TEXT], evening[STRINGMOSS_EVENING];

static const uint64_t row[STRINGMOSS_WIDTH] = {7, 2500, 2000, 500, 10000, 2, 2, 8, 0, 50000, 1000000,
    0, 1000000, 1, 400000000, 50000, 50000, 100000, 95, 100, 100000, 100000, 0};

static const char sheet[] =
    "1\n7 2500 2000 500 10000 2 2 8 0 50000 1000000 0 1000000 1 400000000 50000 50000 100000 95 100 100000 100000 0\n"
    "2\n7 101 103000 0 0\n7 102 103000 6 0\n1\n7 73 -1000 1000 500 2000 50000 20000 1000\n";

static const char lines[] =
    "O 7 0\nD 7 101 0 60000 120000 60000 500000000 0 1\nD 7 102 0 140000 280000 70000 580000000 0 2\nC 7 73 0 101000 108000\n";

/* The evening sheet of the book that the calls leave. */
static const char kept[] =
    "1\n7 2500 2000 500 10000 2 2 8 0 50000 1000000 0 1000000 1 500000000 60000 60000 120000 101 101 103000 100000 0\n0\n0\n";

static void same(const char *what, uint64_t found, uint64_t expected) {
    if (found != expected) {
        fprintf(stderr, "%s: %llu, and not %llu\n", what, (unsigned long long)found, (unsigned long long)expected);
        exit(1);
    }
}

static void runs_a_sheet(void) {
    uint64_t line = 1, start = 1, length = 1, written = 1;
    same("run", stringmoss_run_sheet(book, STRINGMOSS_WORDS, (const uint8_t *)sheet, strlen(sheet), text, STRINGMOSS_TEXT,
                                     &line, &start, &length, &written), STRINGMOSS_DONE);
    same("length of the text", written, strlen(lines));
    same("text", (uint64_t)memcmp(text, lines, strlen(lines)), 0);
    same("line", line, 0);
    same("byte beyond the text", text[written], 0);
    same("price kept", book[STRINGMOSS_AT_NEWER], 103000);
    same("room", stringmoss_run_sheet(book, STRINGMOSS_WORDS, (const uint8_t *)sheet, strlen(sheet), text, STRINGMOSS_TEXT - 1,
                                      &line, &start, &length, &written), STRINGMOSS_REFUSED_ROOM);
    same("nothing written", written, 0);
    same("bad run", stringmoss_run_sheet(book, STRINGMOSS_WORDS, (const uint8_t *)"0\n00\n", 5, text, STRINGMOSS_TEXT,
                                         &line, &start, &length, &written), STRINGMOSS_REFUSED_LINE);
    same("bad text", (uint64_t)memcmp(text, "L 2\n", 4), 0);
    same("check", stringmoss_check_sheet((const uint8_t *)"0\n00\n", 5, &line, &start, &length), STRINGMOSS_REFUSED_LINE);
    same("bad line", line, 2);
    same("bad start", start, 2);
    same("bad length", length, 2);
}

static uint64_t margin, concentration, preliminary, variance, days, from;

static uint64_t gives(uint64_t *on, uint64_t instrument, uint64_t day, uint64_t price) {
    return stringmoss_give_day(on, STRINGMOSS_WORDS, instrument, day, price, 0, 0, &margin, &concentration, &preliminary, &variance, &days, &from);
}

/* A refused day, before which none of the six numbers is zero. */
static void gives_none(const char *what, uint64_t *on, uint64_t instrument, uint64_t day, uint64_t price, uint64_t refusal) {
    margin = concentration = preliminary = variance = days = from = 1;
    same(what, gives(on, instrument, day, price), refusal);
    same("figures of a refused day", margin | concentration | preliminary | variance | days | from, 0);
}

static void makes_each_call(void) {
    static uint64_t later[STRINGMOSS_WORDS];
    uint64_t other[STRINGMOSS_WIDTH], lowest, highest;
    same("close", stringmoss_close(book, STRINGMOSS_WORDS, 7), STRINGMOSS_DONE);
    same("empty again", (uint64_t)memcmp(book, empty, sizeof book), 0);
    same("open", stringmoss_open(book, STRINGMOSS_WORDS, row, STRINGMOSS_WIDTH), STRINGMOSS_DONE);
    same("known", stringmoss_open(book, STRINGMOSS_WORDS, row, STRINGMOSS_WIDTH), STRINGMOSS_REFUSED_KNOWN);
    same("short row", stringmoss_open(book, STRINGMOSS_WORDS, row, STRINGMOSS_WIDTH - 1), STRINGMOSS_REFUSED_RANGE);
    memcpy(other, row, sizeof other);
    other[STRINGMOSS_AT_LAST_CHANGE] = other[STRINGMOSS_AT_LAST_DAY] + 1;
    same("changed after the last day", stringmoss_open(book, STRINGMOSS_WORDS, other, STRINGMOSS_WIDTH), STRINGMOSS_REFUSED_RANGE);
    same("day", gives(book, 7, 101, 103000), STRINGMOSS_DONE);
    same("margin", margin, 60000);
    same("concentration", concentration, 120000);
    same("preliminary", preliminary, 60000);
    same("variance", variance, 500000000);
    same("days", days, 0);
    same("from", from, STRINGMOSS_FROM_NEWER);
    gives_none("stale", book, 7, 101, 103000, STRINGMOSS_REFUSED_STALE);
    gives_none("too far from the older price", book, 7, 102, 200001, STRINGMOSS_REFUSED_MOVE);
    gives_none("no price", book, 7, 102, 0, STRINGMOSS_REFUSED_RANGE);
    gives_none("no such instrument", book, 8, 102, 103000, STRINGMOSS_REFUSED_UNKNOWN);
    memcpy(later, book, sizeof later);
    same("later day", gives(later, 7, 102, 103000), STRINGMOSS_DONE);
    same("from the older price", from, STRINGMOSS_FROM_OLDER);
    same("day within the period", gives(later, 7, 103, 103000), STRINGMOSS_DONE);
    same("days since the change", days, 1);
    same("day of the change", later[STRINGMOSS_AT_LAST_CHANGE], 102);
    later[STRINGMOSS_AT_LAST_CHANGE] = 104;
    gives_none("no sound book", later, 7, 105, 103000, STRINGMOSS_REFUSED_BOOK);
    same("corridor", stringmoss_corridor_of(book, STRINGMOSS_WORDS, 7, 0, 0, 0, 500, 2000, 50000, 20000, 1000, &lowest, &highest), STRINGMOSS_DONE);
    same("lowest", lowest, 101000);
    same("highest", highest, 106000);
    same("no tick", stringmoss_corridor_of(book, STRINGMOSS_WORDS, 7, 0, 0, 0, 500, 2000, 50000, 20000, 1000000, &lowest, &highest), STRINGMOSS_REFUSED_EMPTY);
    same("parameters", stringmoss_set_parameters(book, STRINGMOSS_WORDS, 7, row + STRINGMOSS_AT_ALPHA, STRINGMOSS_PARAMETERS), STRINGMOSS_DONE);
    same("fewer parameters", stringmoss_set_parameters(book, STRINGMOSS_WORDS, 7, row + STRINGMOSS_AT_ALPHA, 12), STRINGMOSS_REFUSED_RANGE);
    same("unknown", stringmoss_close(book, STRINGMOSS_WORDS, 8), STRINGMOSS_REFUSED_UNKNOWN);
    same("book", stringmoss_close(book, STRINGMOSS_WORDS - 1, 7), STRINGMOSS_REFUSED_BOOK);
}

static uint64_t weight, shock, branch, set_by;

static uint64_t explains(const uint64_t *on, size_t words, uint64_t day, uint64_t price, uint64_t j) {
    return stringmoss_explain_day(on, words, 7, day, price, 0, j, &margin, &concentration, &preliminary, &variance, &days, &from,
                                  &weight, &shock, &branch, &set_by);
}

/* Refused reasons, before which none of the ten numbers is zero. */
static void explains_none(const char *what, const uint64_t *on, size_t words, uint64_t day, uint64_t price, uint64_t refusal) {
    margin = concentration = preliminary = variance = days = from = weight = shock = branch = set_by = 1;
    same(what, explains(on, words, day, price, 0), refusal);
    same("numbers of refused reasons", margin | concentration | preliminary | variance | days | from | weight | shock | branch | set_by, 0);
}

/* The reasons of day 102 at 103000, whose move is 30000 from the older price, on the book with two words changed. */
static const struct {
    const char *what;
    int at, also_at;
    uint64_t word, also, j, weight, shock, branch, set_by;
} reasons[] = {
    {"a rise", STRINGMOSS_AT_PRELIMINARY, STRINGMOSS_AT_LEAST_MARGIN, 60000, 60000, 0,
     STRINGMOSS_WEIGHT_UPPER, 0, STRINGMOSS_BRANCH_RISE, STRINGMOSS_SET_BY_PRELIMINARY},
    {"the least", STRINGMOSS_AT_LEAST_MARGIN, STRINGMOSS_AT_GREATEST_MARGIN, 60001, 70001, 0,
     STRINGMOSS_WEIGHT_UPPER, 0, STRINGMOSS_BRANCH_RISE, STRINGMOSS_SET_BY_LEAST},
    {"the greatest", STRINGMOSS_AT_LEAST_MARGIN, STRINGMOSS_AT_GREATEST_MARGIN, 60001, 70000, 0,
     STRINGMOSS_WEIGHT_UPPER, 0, STRINGMOSS_BRANCH_RISE, STRINGMOSS_SET_BY_GREATEST},
    {"not monitored", STRINGMOSS_AT_MONITORED, STRINGMOSS_AT_GREATEST_MARGIN, 0, 50000, 0,
     STRINGMOSS_WEIGHT_UPPER, 0, STRINGMOSS_BRANCH_RISE, STRINGMOSS_SET_BY_NOT_MONITORED},
    {"V just D squared", STRINGMOSS_AT_VARIANCE, STRINGMOSS_AT_PRELIMINARY, 900000000, 80000, 0,
     STRINGMOSS_WEIGHT_LOWER, 0, STRINGMOSS_BRANCH_KEPT, STRINGMOSS_SET_BY_PRELIMINARY},
    {"a shock day", STRINGMOSS_AT_MARGIN, STRINGMOSS_AT_PRELIMINARY, 29999, 70000, 1,
     STRINGMOSS_WEIGHT_UPPER, 1, STRINGMOSS_BRANCH_KEPT, STRINGMOSS_SET_BY_PRELIMINARY},
    {"a shock day but for j", STRINGMOSS_AT_MARGIN, STRINGMOSS_AT_PRELIMINARY, 29999, 70000, 2,
     STRINGMOSS_WEIGHT_UPPER, 0, STRINGMOSS_BRANCH_KEPT, STRINGMOSS_SET_BY_PRELIMINARY},
    {"a fall", STRINGMOSS_AT_LAST_CHANGE, STRINGMOSS_AT_PRELIMINARY, 100, 80000, 0,
     STRINGMOSS_WEIGHT_UPPER, 0, STRINGMOSS_BRANCH_FALL, STRINGMOSS_SET_BY_PRELIMINARY},
    {"a day to go", STRINGMOSS_AT_LAST_CHANGE, STRINGMOSS_AT_PRELIMINARY, 101, 80000, 0,
     STRINGMOSS_WEIGHT_UPPER, 0, STRINGMOSS_BRANCH_KEPT, STRINGMOSS_SET_BY_PRELIMINARY},
};

/* They leave the book, and the day then has the six numbers that were said of it. */
static void explains_each(void) {
    static uint64_t asked[STRINGMOSS_WORDS], before[STRINGMOSS_WORDS];
    for (size_t i = 0; i < sizeof reasons / sizeof *reasons; i++) {
        memcpy(asked, book, sizeof asked);
        asked[reasons[i].at] = reasons[i].word;
        asked[reasons[i].also_at] = reasons[i].also;
        memcpy(before, asked, sizeof before);
        same(reasons[i].what, explains(asked, STRINGMOSS_WORDS, 102, 103000, reasons[i].j), STRINGMOSS_DONE);
        same(reasons[i].what, weight, reasons[i].weight);
        same(reasons[i].what, shock, reasons[i].shock);
        same(reasons[i].what, branch, reasons[i].branch);
        same(reasons[i].what, set_by, reasons[i].set_by);
        same("book of reasons", (uint64_t)memcmp(asked, before, sizeof before), 0);
        const uint64_t said[] = {margin, concentration, preliminary, variance, days, from};
        same("day of reasons", stringmoss_give_day(asked, STRINGMOSS_WORDS, 7, 102, 103000, 0, reasons[i].j, &margin, &concentration, &preliminary,
                                                   &variance, &days, &from), STRINGMOSS_DONE);
        const uint64_t given[] = {margin, concentration, preliminary, variance, days, from};
        same("numbers of the day", (uint64_t)memcmp(said, given, sizeof said), 0);
    }
}

static void gives_reasons(void) {
    static uint64_t halted[STRINGMOSS_WORDS];
    same("reasons", explains(book, STRINGMOSS_WORDS, 102, 103000, 0), STRINGMOSS_DONE);
    same("margin of reasons", margin, 70000);
    same("concentration of reasons", concentration, 140000);
    same("preliminary of reasons", preliminary, 70000);
    same("variance of reasons", variance, 580000000);
    same("days of reasons", days, 0);
    same("price of reasons", from, STRINGMOSS_FROM_OLDER);
    explains_each();
    explains_none("reasons of a stale day", book, STRINGMOSS_WORDS, 101, 103000, STRINGMOSS_REFUSED_STALE);
    explains_none("reasons of a move too far", book, STRINGMOSS_WORDS, 102, 200001, STRINGMOSS_REFUSED_MOVE);
    explains_none("reasons of no price", book, STRINGMOSS_WORDS, 102, 0, STRINGMOSS_REFUSED_RANGE);
    explains_none("reasons in a short book", book, STRINGMOSS_WORDS - 1, 102, 103000, STRINGMOSS_REFUSED_BOOK);
    explains_none("reasons in an empty book", empty, STRINGMOSS_WORDS, 102, 103000, STRINGMOSS_REFUSED_UNKNOWN);
    memcpy(halted, book, sizeof halted);
    halted[STRINGMOSS_AT_HALTED] = 1;
    explains_none("reasons of a halted one", halted, STRINGMOSS_WORDS, 101, 200001, STRINGMOSS_REFUSED_HALTED);
    explains_none("reasons with no book", NULL, 0, 102, 103000, STRINGMOSS_REFUSED_BOOK);
}

static uint64_t low, high;

static uint64_t asks_of_bond(const uint64_t *on, size_t words, uint64_t rise, uint64_t fall, uint64_t tick, uint64_t face, uint64_t carry,
                             uint64_t accrued) {
    return stringmoss_bond_corridor_of(on, words, 7, 0, 0, 0, 500, 2000, rise, fall, tick, face, carry, accrued, &low, &high);
}

/* Bond corridors at 103000 with a margin of 60000, so that s is 3 percent: the bounds are 106090 and 99910 less what is paid, and those of the rise and
 * the fall. */
static const struct {
    const char *what;
    uint64_t monitored, rise, fall, tick, face, carry, accrued, refusal, lowest, highest;
} bonds[] = {
    {"bond", 1, 50000, 20000, 1, 100000, 0, 0, STRINGMOSS_DONE, 1009400, 1060900},
    {"carry", 1, 50000, 20000, 1, 100000, 90, 0, STRINGMOSS_DONE, 1009400, 1060000},
    {"carry and accrued", 1, 50000, 100000, 1, 100000, 90, 1000, STRINGMOSS_DONE, 988200, 1050000},
    {"the rise", 1, 10000, 20000, 1, 100000, 0, 0, STRINGMOSS_DONE, 1009400, 1040300},
    {"on a tick", 1, 50000, 20000, 530450, 100000, 0, 0, STRINGMOSS_DONE, 1060900, 1060900},
    {"one below a tick", 1, 50000, 20000, 353634, 300000, 0, 0, STRINGMOSS_REFUSED_EMPTY, 0, 0},
    {"above a tick", 1, 50000, 20000, 353633, 300000, 0, 0, STRINGMOSS_DONE, 353633, 353633},
    {"at par", 1, 50000, 20000, 1000, 1000000, 0, 0, STRINGMOSS_DONE, 101000, 106000},
    {"the least face", 1, 50000, 20000, 1, 1, 0, 0, STRINGMOSS_DONE, 100940000000, 106090000000},
    {"the greatest face", 1, 50000, 20000, 1, 1000000000, 0, 0, STRINGMOSS_DONE, 101, 106},
    {"nearly all paid", 1, 1000000, 1000000, 1, 100000, 106089, 0, STRINGMOSS_DONE, 1, 10},
    {"all paid", 1, 1000000, 1000000, 1, 100000, 106000, 90, STRINGMOSS_REFUSED_EMPTY, 0, 0},
    {"more paid", 1, 1000000, 1000000, 1, 100000, 1000000000, 1000000000, STRINGMOSS_REFUSED_EMPTY, 0, 0},
    {"not monitored", 0, 50000, 20000, 1, 100000, 1000000000, 1000000000, STRINGMOSS_DONE, 1009400, 1081500},
    {"no face", 1, 50000, 20000, 1, 0, 0, 0, STRINGMOSS_REFUSED_RANGE, 0, 0},
    {"too great a face", 1, 50000, 20000, 1, 1000000001, 0, 0, STRINGMOSS_REFUSED_RANGE, 0, 0},
    {"too much carry", 0, 50000, 20000, 1, 100000, 1000000001, 0, STRINGMOSS_REFUSED_RANGE, 0, 0},
    {"too much accrued", 0, 50000, 20000, 1, 100000, 0, UINT64_MAX, STRINGMOSS_REFUSED_RANGE, 0, 0},
    {"no tick of a bond", 1, 50000, 20000, 0, 100000, 0, 0, STRINGMOSS_REFUSED_RANGE, 0, 0},
};

/* A refused one, before which neither price is zero. */
static void asks_for_none(const char *what, const uint64_t *on, size_t words, uint64_t refusal) {
    low = high = 1;
    same(what, asks_of_bond(on, words, 50000, 20000, 1, 100000, 0, 0), refusal);
    same("prices of a refused bond", low | high, 0);
}

/* They leave the book. */
static void asks_of_bonds(void) {
    static uint64_t asked[STRINGMOSS_WORDS], before[STRINGMOSS_WORDS];
    for (size_t i = 0; i < sizeof bonds / sizeof *bonds; i++) {
        memcpy(asked, book, sizeof asked);
        asked[STRINGMOSS_AT_MONITORED] = bonds[i].monitored;
        memcpy(before, asked, sizeof before);
        low = high = 1;
        same(bonds[i].what, asks_of_bond(asked, STRINGMOSS_WORDS, bonds[i].rise, bonds[i].fall, bonds[i].tick, bonds[i].face, bonds[i].carry,
                                         bonds[i].accrued), bonds[i].refusal);
        same(bonds[i].what, low, bonds[i].lowest);
        same(bonds[i].what, high, bonds[i].highest);
        same("book of a bond", (uint64_t)memcmp(asked, before, sizeof before), 0);
    }
    same("bond of some days", stringmoss_bond_corridor_of(book, STRINGMOSS_WORDS, 7, 73, -1000, 1000, 500, 2000, 50000, 20000, 1, 100000, 500, 250,
                                                          &low, &high), STRINGMOSS_DONE);
    same("lowest of some days", low, 1009400);
    same("highest of some days", high, 1074618);
    asks_for_none("bond in a short book", book, STRINGMOSS_WORDS - 1, STRINGMOSS_REFUSED_BOOK);
    asks_for_none("bond in an empty book", empty, STRINGMOSS_WORDS, STRINGMOSS_REFUSED_UNKNOWN);
    asks_for_none("bond with no book", NULL, 0, STRINGMOSS_REFUSED_BOOK);
    memcpy(asked, book, sizeof asked);
    asked[STRINGMOSS_AT_HALTED] = 1;
    asks_for_none("bond that is halted", asked, STRINGMOSS_WORDS, STRINGMOSS_REFUSED_HALTED);
    asked[STRINGMOSS_AT_HALTED] = 2;
    asks_for_none("bond in no sound book", asked, STRINGMOSS_WORDS, STRINGMOSS_REFUSED_BOOK);
}

/* On a copy of the book, of which only the word of the halt may change. */
static void sets_a_halt(void) {
    static uint64_t halted[STRINGMOSS_WORDS], kept[STRINGMOSS_WORDS];
    uint64_t lowest = 1, highest = 1;
    memcpy(halted, book, sizeof halted);
    memcpy(kept, book, sizeof kept);
    kept[STRINGMOSS_AT_HALTED] = 1;
    same("halt", stringmoss_set_halt(halted, STRINGMOSS_WORDS, 7, 1), STRINGMOSS_DONE);
    same("halt again", stringmoss_set_halt(halted, STRINGMOSS_WORDS, 7, 1), STRINGMOSS_DONE);
    gives_none("day of a halted one", halted, 7, 102, 103000, STRINGMOSS_REFUSED_HALTED);
    gives_none("stale day of a halted one", halted, 7, 101, 103000, STRINGMOSS_REFUSED_HALTED);
    gives_none("no price of a halted one", halted, 7, 102, 0, STRINGMOSS_REFUSED_RANGE);
    same("corridor of a halted one", stringmoss_corridor_of(halted, STRINGMOSS_WORDS, 7, 0, 0, 0, 500, 2000, 50000, 20000, 1000, &lowest, &highest),
         STRINGMOSS_REFUSED_HALTED);
    same("prices of a halted one", lowest | highest, 0);
    same("another value", stringmoss_set_halt(halted, STRINGMOSS_WORDS, 7, 2), STRINGMOSS_REFUSED_RANGE);
    same("the greatest value", stringmoss_set_halt(halted, STRINGMOSS_WORDS, 7, UINT64_MAX), STRINGMOSS_REFUSED_RANGE);
    same("halt of no instrument", stringmoss_set_halt(halted, STRINGMOSS_WORDS, 0, 0), STRINGMOSS_REFUSED_RANGE);
    same("halt of an unknown one", stringmoss_set_halt(halted, STRINGMOSS_WORDS, 8, 0), STRINGMOSS_REFUSED_UNKNOWN);
    same("halt in a short book", stringmoss_set_halt(halted, STRINGMOSS_WORDS - 1, 7, 0), STRINGMOSS_REFUSED_BOOK);
    same("known and halted", stringmoss_open(halted, STRINGMOSS_WORDS, row, STRINGMOSS_WIDTH), STRINGMOSS_REFUSED_KNOWN);
    same("book of a halt", (uint64_t)memcmp(halted, kept, sizeof kept), 0);
    same("parameters of a halted one",
         stringmoss_set_parameters(halted, STRINGMOSS_WORDS, 7, row + STRINGMOSS_AT_ALPHA, STRINGMOSS_PARAMETERS), STRINGMOSS_DONE);
    same("clear", stringmoss_set_halt(halted, STRINGMOSS_WORDS, 7, 0), STRINGMOSS_DONE);
    same("clear again", stringmoss_set_halt(halted, STRINGMOSS_WORDS, 7, 0), STRINGMOSS_DONE);
    same("book without the halt", (uint64_t)memcmp(halted, book, sizeof book), 0);
    same("day after a halt", gives(halted, 7, 102, 103000), STRINGMOSS_DONE);
    same("halt before closing", stringmoss_set_halt(halted, STRINGMOSS_WORDS, 7, 1), STRINGMOSS_DONE);
    same("close a halted one", stringmoss_close(halted, STRINGMOSS_WORDS, 7), STRINGMOSS_DONE);
    same("nothing left of a halt", (uint64_t)memcmp(halted, empty, sizeof empty), 0);
}

static void writes_an_evening_sheet(void) {
    static uint64_t next[STRINGMOSS_WORDS];
    uint64_t line, start, length, written = 1;
    size_t bytes = strlen(kept);
    memset(evening, 170, sizeof evening);
    same("no room", stringmoss_evening_sheet(book, STRINGMOSS_WORDS, evening, bytes - 1, &written), STRINGMOSS_REFUSED_ROOM);
    same("nothing written", written, 0);
    written = 1;
    same("short book", stringmoss_evening_sheet(book, STRINGMOSS_WORDS - 1, evening, bytes - 1, &written), STRINGMOSS_REFUSED_BOOK);
    same("no byte written", written, 0);
    for (size_t i = 0; i < sizeof evening; i++) same("byte of a refused sheet", evening[i], 170);
    same("evening", stringmoss_evening_sheet(book, STRINGMOSS_WORDS, evening, bytes, &written), STRINGMOSS_DONE);
    same("length of the sheet", written, bytes);
    same("evening sheet", (uint64_t)memcmp(evening, kept, bytes), 0);
    same("longer buffer", stringmoss_evening_sheet(book, STRINGMOSS_WORDS, evening, sizeof evening, &written), STRINGMOSS_DONE);
    same("length again", written, bytes);
    for (size_t i = bytes; i < sizeof evening; i++) same("byte beyond the sheet", evening[i], 170);
    same("evening run", stringmoss_run_sheet(next, STRINGMOSS_WORDS, evening, bytes, text, STRINGMOSS_TEXT, &line, &start, &length, &written),
         STRINGMOSS_DONE);
    same("book of the evening sheet", (uint64_t)memcmp(next, book, sizeof book), 0);
}

/* An array of no elements may be NULL. */
static void takes_nothing(void) {
    uint64_t line, start, length, written, lowest = 1, highest = 1;
    same("no book", stringmoss_open(NULL, 0, row, STRINGMOSS_WIDTH), STRINGMOSS_REFUSED_BOOK);
    same("no book to read", stringmoss_corridor_of(NULL, 0, 7, 0, 0, 0, 0, 1, 0, 0, 1, &lowest, &highest), STRINGMOSS_REFUSED_BOOK);
    same("no price", lowest + highest, 0);
    same("no row", stringmoss_open(book, STRINGMOSS_WORDS, NULL, 0), STRINGMOSS_REFUSED_RANGE);
    same("no parameters", stringmoss_set_parameters(book, STRINGMOSS_WORDS, 7, NULL, 0), STRINGMOSS_REFUSED_RANGE);
    same("no book to halt in", stringmoss_set_halt(NULL, 0, 7, 1), STRINGMOSS_REFUSED_BOOK);
    same("no sheet", stringmoss_check_sheet(NULL, 0, &line, &start, &length), STRINGMOSS_REFUSED_LINE);
    same("missing line", line, 1);
    same("no sheet run", stringmoss_run_sheet(book, STRINGMOSS_WORDS, NULL, 0, text, STRINGMOSS_TEXT, &line, &start, &length, &written),
         STRINGMOSS_REFUSED_LINE);
    same("no output", stringmoss_run_sheet(book, STRINGMOSS_WORDS, NULL, 0, NULL, 0, &line, &start, &length, &written), STRINGMOSS_REFUSED_ROOM);
    same("no evening of no book", stringmoss_evening_sheet(NULL, 0, NULL, 0, &written), STRINGMOSS_REFUSED_BOOK);
    same("no buffer", stringmoss_evening_sheet(book, STRINGMOSS_WORDS, NULL, 0, &written), STRINGMOSS_REFUSED_ROOM);
    same("nothing in no buffer", written, 0);
}

int main(void) {
    runs_a_sheet();
    makes_each_call();
    gives_reasons();
    asks_of_bonds();
    sets_a_halt();
    writes_an_evening_sheet();
    takes_nothing();
    puts("compare: the C program made each call");
    return 0;
}
