/* Every table of every call as NULL with the length 0: the answer is that for an empty table. */
#include "cogsplice.h"

#include <stdio.h>
#include <string.h>

/* 6 members and 8 links, and no member and no link. */
static const uint8_t w[] = {
    'V', 'C', 'H', 1, 0, 6, 0, 8, 0,
    0, 0, 3, 0, 0, 0, 4, 0, 1, 0, 3, 0, 1, 0, 4, 0,
    2, 0, 3, 0, 2, 0, 4, 0, 4, 0, 5, 0, 5, 0, 5, 0,
};
static const uint8_t nobody[] = {'V', 'C', 'H', 1, 0, 0, 0, 0, 0};
/* The same in version 2: 6 members and a link of kind 7, and no member and no link. */
static const uint8_t of_kinds[] = {'V', 'C', 'H', 2, 0, 6, 0, 1, 0, 0, 0, 3, 0, 7};
static const uint8_t nobody_of_kinds[] = {'V', 'C', 'H', 2, 0, 0, 0, 0, 0};
/* Of 2 members, the one entry adds the link from 0 to 1; and a journal without entries. */
static const uint8_t one_entry[] = {'V', 'J', 'N', 1, 0, 2, 0, COGSPLICE_ENTRY_ADD, 0, 0, 1, 0};
static const uint8_t no_entry[] = {'V', 'J', 'N', 1, 0, 2, 0};

#define W w, sizeof w
#define NOBODY nobody, sizeof nobody
#define OF_KINDS of_kinds, sizeof of_kinds
#define NOBODY_OF_KINDS nobody_of_kinds, sizeof nobody_of_kinds
#define ONE_ENTRY one_entry, sizeof one_entry
#define NO_ENTRY no_entry, sizeof no_entry
#define NONE NULL, 0
#define ALL(table) table, sizeof table / sizeof *table

static uint8_t a[6], b[6], s[6], t[6], out[COGSPLICE_FILE(8)];
static uint16_t starts[7], other_starts[7], rows[8], other_rows[8], layers[COGSPLICE_LAYERS(8)], work[COGSPLICE_WORK(6, 8)];
static uint8_t journal_out[COGSPLICE_JOURNAL_OUT], numbers[COGSPLICE_JOURNAL_NUMBERS(1)];
static uint16_t journal_work[COGSPLICE_JOURNAL_WORK];
static int faults;

static void expect(const char *call, unsigned refusal, unsigned given) {
    if (refusal != given) {
        printf("%s: refusal %u, expected %u\n", call, given, refusal);
        faults++;
    }
}

#define EXPECT(number, call) expect(#call, number, (call).refusal)

static void no_table(void) {
    EXPECT(9, cogsplice_count(W, NONE, ALL(t)));
    EXPECT(9, cogsplice_count(W, ALL(s), NONE));
    EXPECT(9, cogsplice_write(W, NONE));
    EXPECT(9, cogsplice_write(OF_KINDS, NONE));
    EXPECT(9, cogsplice_order(W, NONE));
    EXPECT(9, cogsplice_index(W, NONE, ALL(rows), ALL(other_starts), ALL(other_rows)));
    EXPECT(9, cogsplice_index(W, ALL(starts), NONE, ALL(other_starts), ALL(other_rows)));
    EXPECT(9, cogsplice_index(W, ALL(starts), ALL(rows), NONE, ALL(other_rows)));
    EXPECT(9, cogsplice_index(W, ALL(starts), ALL(rows), ALL(other_starts), NONE));
    EXPECT(9, cogsplice_core(W, NONE, ALL(b), 1, 1, ALL(s), ALL(t), ALL(work)));
    EXPECT(9, cogsplice_core(W, ALL(a), NONE, 1, 1, ALL(s), ALL(t), ALL(work)));
    EXPECT(9, cogsplice_core(W, ALL(a), ALL(b), 1, 1, NONE, ALL(t), ALL(work)));
    EXPECT(9, cogsplice_core(W, ALL(a), ALL(b), 1, 1, ALL(s), NONE, ALL(work)));
    EXPECT(9, cogsplice_core(W, ALL(a), ALL(b), 1, 1, ALL(s), ALL(t), NONE));
    EXPECT(9, cogsplice_level(W, NONE, ALL(b), 1, ALL(work)));
    EXPECT(9, cogsplice_level(W, ALL(a), NONE, 1, ALL(work)));
    EXPECT(9, cogsplice_level(W, ALL(a), ALL(b), 1, NONE));
    EXPECT(9, cogsplice_level_across(W, NONE, ALL(b), 1, ALL(work)));
    EXPECT(9, cogsplice_level_across(W, ALL(a), NONE, 1, ALL(work)));
    EXPECT(9, cogsplice_level_across(W, ALL(a), ALL(b), 1, NONE));
    EXPECT(9, cogsplice_equal_level(W, NONE, ALL(b), ALL(work)));
    EXPECT(9, cogsplice_equal_level(W, ALL(a), NONE, ALL(work)));
    EXPECT(9, cogsplice_equal_level(W, ALL(a), ALL(b), NONE));
    EXPECT(9, cogsplice_finding(W, NONE, ALL(b), ALL(s), ALL(t), ALL(work)));
    EXPECT(9, cogsplice_finding(W, ALL(a), NONE, ALL(s), ALL(t), ALL(work)));
    EXPECT(9, cogsplice_finding(W, ALL(a), ALL(b), NONE, ALL(t), ALL(work)));
    EXPECT(9, cogsplice_finding(W, ALL(a), ALL(b), ALL(s), NONE, ALL(work)));
    EXPECT(9, cogsplice_finding(W, ALL(a), ALL(b), ALL(s), ALL(t), NONE));
    EXPECT(9, cogsplice_layers(W, NONE, ALL(b), ALL(layers), ALL(work)));
    EXPECT(9, cogsplice_layers(W, ALL(a), NONE, ALL(layers), ALL(work)));
    EXPECT(9, cogsplice_layers(W, ALL(a), ALL(b), NONE, ALL(work)));
    EXPECT(9, cogsplice_layers(W, ALL(a), ALL(b), ALL(layers), NONE));
    EXPECT(9, cogsplice_harmonic(W, NONE, ALL(t), ALL(work)));
    EXPECT(9, cogsplice_harmonic(W, ALL(s), NONE, ALL(work)));
    EXPECT(9, cogsplice_harmonic(W, ALL(s), ALL(t), NONE));
    EXPECT(9, cogsplice_common(W, W, NONE));
    EXPECT(9, cogsplice_common(OF_KINDS, OF_KINDS, NONE));
}

/* Of a network without members and links, groups, rows and layers of no entries are long enough. */
static void enough(const uint8_t *file, size_t length) {
    EXPECT(0, cogsplice_check(file, length));
    EXPECT(0, cogsplice_count(file, length, NONE, NONE));
    EXPECT(0, cogsplice_write(file, length, ALL(out)));
    EXPECT(0, cogsplice_index(file, length, ALL(starts), NONE, ALL(other_starts), NONE));
    EXPECT(0, cogsplice_core(file, length, NONE, NONE, 1, 1, NONE, NONE, ALL(work)));
    EXPECT(0, cogsplice_level(file, length, NONE, NONE, 1, ALL(work)));
    EXPECT(0, cogsplice_level_across(file, length, NONE, NONE, 1, ALL(work)));
    EXPECT(0, cogsplice_equal_level(file, length, NONE, NONE, ALL(work)));
    EXPECT(0, cogsplice_finding(file, length, NONE, NONE, NONE, NONE, ALL(work)));
    EXPECT(0, cogsplice_layers(file, length, NONE, NONE, NONE, ALL(work)));
    EXPECT(0, cogsplice_harmonic(file, length, NONE, NONE, ALL(work)));
    EXPECT(0, cogsplice_common(file, length, NOBODY, ALL(out)));
    EXPECT(0, cogsplice_common(NOBODY, file, length, ALL(out)));
}

/* Outputs, starts and work tables of no entries are too short for every network. */
static void not_enough(const uint8_t *file, size_t length) {
    EXPECT(9, cogsplice_write(file, length, NONE));
    EXPECT(9, cogsplice_index(file, length, NONE, NONE, ALL(other_starts), NONE));
    EXPECT(9, cogsplice_index(file, length, ALL(starts), NONE, NONE, NONE));
    EXPECT(9, cogsplice_core(file, length, NONE, NONE, 1, 1, NONE, NONE, NONE));
    EXPECT(9, cogsplice_level(file, length, NONE, NONE, 1, NONE));
    EXPECT(9, cogsplice_level_across(file, length, NONE, NONE, 1, NONE));
    EXPECT(9, cogsplice_equal_level(file, length, NONE, NONE, NONE));
    EXPECT(9, cogsplice_finding(file, length, NONE, NONE, NONE, NONE, NONE));
    EXPECT(9, cogsplice_layers(file, length, NONE, NONE, NONE, NONE));
    EXPECT(9, cogsplice_harmonic(file, length, NONE, NONE, NONE));
    EXPECT(9, cogsplice_common(file, length, NOBODY, NONE));
    EXPECT(9, cogsplice_common(NOBODY, file, length, NONE));
}

/* Version 2 is refused before its output is looked at. */
static void order(void) {
    EXPECT(0, cogsplice_order(NOBODY, ALL(out)));
    EXPECT(0, cogsplice_order(NONE, ALL(out)));
    EXPECT(9, cogsplice_order(NOBODY, NONE));
    EXPECT(9, cogsplice_order(NONE, NONE));
    EXPECT(3, cogsplice_order(OF_KINDS, NONE));
    EXPECT(3, cogsplice_order(NOBODY_OF_KINDS, NONE));
}

static void row(unsigned refusal, bool side, const uint16_t *table, size_t length) {
    const uint16_t *out_table = side == COGSPLICE_VOUCHER ? table : NULL;
    const uint16_t *in_table = side == COGSPLICE_VOUCHED ? table : NULL;
    size_t out_length = side == COGSPLICE_VOUCHER ? length : 0;
    size_t in_length = side == COGSPLICE_VOUCHED ? length : 0;
    struct cogsplice_row_numbers part = cogsplice_row(side, 0, out_table, out_length, NONE, in_table, in_length, NONE);
    expect("cogsplice_row", refusal, part.refusal);
    expect("cogsplice_row: start and length", 0, (unsigned)(part.start + part.length));
    expect("cogsplice_row_refusal", refusal, cogsplice_row_refusal(side, 0, out_table, out_length, NONE, in_table, in_length, NONE));
}

/* A row of no rows at all, by the starts of its side. The other side's two tables are NULL too. */
static void rows_of(bool side) {
    static const uint16_t one_start[] = {0}, empty_row[] = {0, 0}, long_row[] = {0, 1};
    row(9, side, NONE);
    row(10, side, ALL(one_start));
    row(0, side, ALL(empty_row));
    row(14, side, ALL(long_row));
}

/* Zero bytes are no journal. No numbers are asked for where no entry is followed. */
static void journal(void) {
    EXPECT(1, cogsplice_journal(NONE, 1, ALL(journal_out), ALL(numbers), ALL(journal_work)));
    EXPECT(9, cogsplice_journal(ONE_ENTRY, 1, NONE, ALL(numbers), ALL(journal_work)));
    EXPECT(9, cogsplice_journal(ONE_ENTRY, 1, ALL(journal_out), NONE, ALL(journal_work)));
    EXPECT(9, cogsplice_journal(ONE_ENTRY, 1, ALL(journal_out), ALL(numbers), NONE));
    EXPECT(0, cogsplice_journal(ONE_ENTRY, 0, ALL(journal_out), NONE, ALL(journal_work)));
    EXPECT(0, cogsplice_journal(NO_ENTRY, SIZE_MAX, ALL(journal_out), NONE, ALL(journal_work)));
    EXPECT(9, cogsplice_journal(NO_ENTRY, SIZE_MAX, NONE, NONE, ALL(journal_work)));
    EXPECT(9, cogsplice_journal(NO_ENTRY, SIZE_MAX, ALL(journal_out), NONE, NONE));
}

/* A finding's groups are needed for its own n: of nobody they may have no entries, whatever the other finding has. */
static void equal(void) {
    EXPECT(9, cogsplice_equal_findings(2, 3, 6, NONE, ALL(t), 2, 3, 6, ALL(s), ALL(t)));
    EXPECT(9, cogsplice_equal_findings(2, 3, 6, ALL(s), NONE, 2, 3, 6, ALL(s), ALL(t)));
    EXPECT(9, cogsplice_equal_findings(2, 3, 6, ALL(s), ALL(t), 2, 3, 6, NONE, ALL(t)));
    EXPECT(9, cogsplice_equal_findings(2, 3, 6, ALL(s), ALL(t), 2, 3, 6, ALL(s), NONE));
    EXPECT(9, cogsplice_equal_findings(2, 3, 6, NONE, NONE, 2, 3, 6, NONE, NONE));
    EXPECT(0, cogsplice_equal_findings(2, 3, 0, NONE, NONE, 2, 3, 6, ALL(s), ALL(t)));
    EXPECT(0, cogsplice_equal_findings(2, 3, 6, ALL(s), ALL(t), 2, 3, 0, NONE, NONE));
    EXPECT(0, cogsplice_equal_findings(2, 3, 0, NONE, NONE, 2, 3, 0, NONE, NONE));
    expect("nobody twice: equal", true, cogsplice_equal_findings(2, 3, 0, NONE, NONE, 2, 3, 0, NONE, NONE).equal);
    expect("nobody and others: equal", false, cogsplice_equal_findings(2, 3, 0, NONE, NONE, 2, 3, 6, ALL(s), ALL(t)).equal);
}

/* Of no bytes twice the file is nobody's in version 2, of 9 bytes, and 21 comes before 9. */
static void common(void) {
    uint8_t written[COGSPLICE_FILE_OF_KINDS(0)] = {0};
    struct cogsplice_common_numbers told = cogsplice_common(NONE, NONE, ALL(written));
    expect("nothing twice", 0, told.refusal);
    expect("nothing twice: totals", 0, (unsigned)(told.both + told.first_only + told.second_only));
    expect("nothing twice: nobody's file", true, memcmp(written, nobody_of_kinds, sizeof nobody_of_kinds) == 0);
    EXPECT(9, cogsplice_common(NONE, NONE, written, sizeof written - 1));
    EXPECT(9, cogsplice_common(NONE, NONE, NONE));
    EXPECT(21, cogsplice_common(W, NONE, NONE));
    EXPECT(21, cogsplice_common(NONE, W, NONE));
}

int main(void) {
    no_table();
    enough(NOBODY);
    not_enough(NOBODY);
    /* No bytes count as that network's file. */
    enough(NONE);
    not_enough(NONE);
    enough(NOBODY_OF_KINDS);
    not_enough(NOBODY_OF_KINDS);
    order();
    rows_of(COGSPLICE_VOUCHER);
    rows_of(COGSPLICE_VOUCHED);
    journal();
    equal();
    common();
    return faults != 0;
}
