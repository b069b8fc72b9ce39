/*
 * Both headers, in every standard of C and C++: each name once, each field of each result, and the words. Status 1
 * if one is wrong.
 */
#include "rollback_messages.h"
#include "rollback.h"

#include <stdio.h>
#include <string.h>

/* What the headers' numbers and types must be to each other; a false one doesn't compile. */
typedef char slots_of_64_items[ROLLBACK_SLOTS_LEN == 64 * ROLLBACK_SLOT_LEN ? 1 : -1];
typedef char legs_of_3_bytes[ROLLBACK_LEGS_LEN == 3 * ROLLBACK_LEG_STRUCTS_LEN ? 1 : -1];
typedef char leg_of_3_bytes[sizeof(rollback_leg) == 3 ? 1 : -1];
typedef char table_of_largest_device[ROLLBACK_TABLE_LEN == 64 * 32 ? 1 : -1];
typedef char weights_of_32_commands[ROLLBACK_WEIGHTS_LEN == 32 ? 1 : -1];
typedef char scratch_of_64_states[ROLLBACK_SCRATCH_LEN == 64 ? 1 : -1];
typedef char plan_of_32_items[ROLLBACK_PLAN_LEN == 32 * 8 ? 1 : -1];
typedef char page_of_32_lines[ROLLBACK_PAGE_LEN == 32 * ROLLBACK_PAGE_LINE_LEN ? 1 : -1];
typedef char out_of_largest_tables[ROLLBACK_OUT_LEN == 6 + 4 + 2 * 32 + 2048 * 14 + 64 * 38 ? 1 : -1];
typedef char largest_book[ROLLBACK_BOOK_LEN == 6 + 4 + 2 * 32 + 2048 * 14 + 64 * 38 ? 1 : -1];
typedef char largest_run[ROLLBACK_RUN_LEN == 4 + 9 + 9 * (ROLLBACK_POINTS_LEN - 1) ? 1 : -1];
typedef char plain_results[sizeof(rollback_reading) == 40 && sizeof(rollback_writing) == 24 &&
                                   sizeof(rollback_lookup) == 24
                               ? 1
                               : -1];
typedef char checking_result[sizeof(rollback_checking) == 48 && offsetof(rollback_checking, items) == 32 &&
                                     offsetof(rollback_checking, units) == 40
                                 ? 1
                                 : -1];
typedef char forecast_result[sizeof(rollback_forecasted) == 40 && offsetof(rollback_forecasted, units) == 16 &&
                                     offsetof(rollback_forecasted, plan_bytes) == 24 &&
                                     offsetof(rollback_forecasted, legs) == 32
                                 ? 1
                                 : -1];
typedef char found_result[sizeof(rollback_found) == 32 && offsetof(rollback_found, count) == 16 &&
                                  offsetof(rollback_found, commands) == 24 && ROLLBACK_FOUND_LEN == 3
                              ? 1
                              : -1];
typedef char assembly_result[sizeof(rollback_assembly) == 176 && offsetof(rollback_assembly, sum) == 32 &&
                                     offsetof(rollback_assembly, fewest) == 40
                                 ? 1
                                 : -1];
typedef char no_chain_in_32_bits[ROLLBACK_NONE == (uint32_t)-1 ? 1 : -1];
typedef char paged_result[sizeof(rollback_paged) == 184 && offsetof(rollback_paged, assembly) == 0 &&
                                  offsetof(rollback_paged, length) == 176
                              ? 1
                              : -1];

static int wrong = 0;

static void expect(const char *found, const char *expected) {
    if (strcmp(found, expected) != 0) {
        printf("found: %s\nexpected: %s\n", found, expected);
        wrong = 1;
    }
}

static void expect_record(const uint8_t *book, size_t length, uint64_t place, const char *name, uint64_t number) {
    rollback_record record = rollback_record_at(book, length, place);
    expect(record.name, name);
    if (record.number != number) {
        printf("%s %lu, expected %lu\n", name, (unsigned long)record.number, (unsigned long)number);
        wrong = 1;
    }
}

static void hold(int right, const char *what) {
    if (!right) {
        printf("fields: %s\n", what);
        wrong = 1;
    }
}

/*
 * The order of fields. Any two fields of a result differ in one of its answers here: the numbers of a book that is
 * accepted are all different, and a refusal has another code than place.
 */
enum { ITEMS = 64, SENT = 32, REVERSED = 32, REFUSED_READING = 652, REFUSED_CHECKING = 1554, FIELDS_BOOK = 2154 };

static uint8_t *put_header(uint8_t *at, unsigned length, unsigned kind) {
    at[0] = (uint8_t)length;
    at[2] = (uint8_t)kind;
    return at + 4;
}

/*
 * Seven states, of which 0 alone has moves, 32 commands of weight 3 that stay there, and 64 items: 0 to 31 undo
 * command 0 to 31 by sending it three times, 32 to 63 by sending it twice.
 */
static size_t put_fields_book(uint8_t *book) {
    uint8_t *at = put_header(book, 2, 1);
    unsigned c, i;
    *at++ = 7;
    *at++ = SENT;
    for (at = put_header(at, 2 * SENT, 5), c = 0; c < SENT; c++, at += 2)
        *at = 3;
    for (c = 0; c < SENT; c++) {
        at = put_header(at, 10, 2);
        at[1] = (uint8_t)c;
        at[2] = 1;
        at += 10;
    }
    for (i = 0; i < ITEMS; i++) {
        unsigned r = i < REVERSED ? 3 : 2;
        at = put_header(at, 19 + r, 3);
        *at++ = 1;
        *at++ = (uint8_t)r;
        for (c = 0; c <= r; c++)
            *at++ = (uint8_t)(i % SENT);
        at[0] = 1;
        at[8] = 1;
        at += 16;
    }
    return (size_t)(at - book);
}

/*
 * Four states with one move each: command 0 leads from state 0 to 3, and 4, 1 and 2 lead from there back to 0, by 2
 * and 1.
 */
static const uint8_t around[] = {2, 0, 1, 0, 4, 5,                           /* device */
                                 10, 0, 2, 0, 0, 0, 8, 0, 0, 0, 0, 0, 0, 0,  /* move 0 */
                                 10, 0, 2, 0, 1, 2, 1, 0, 0, 0, 0, 0, 0, 0,  /* move 1 */
                                 10, 0, 2, 0, 2, 1, 2, 0, 0, 0, 0, 0, 0, 0,  /* move 2 */
                                 10, 0, 2, 0, 3, 4, 4, 0, 0, 0, 0, 0, 0, 0}; /* move 3, at 48 */
static const uint8_t zeros[9] = {0, 0, 0, 0, 0, 0, 0, 0, 0};

/* The command between points j and j + 1: each once, and not in their order. */
static uint8_t sent_at(unsigned j) {
    return (uint8_t)((5 * j + 3) % SENT);
}

/* All 32 commands; nothing was heard. */
static void put_fields_run(uint8_t *run) {
    unsigned j;
    uint8_t *at = run;
    *at++ = (uint8_t)((ROLLBACK_RUN_LEN - 4) % 256);
    *at++ = (ROLLBACK_RUN_LEN - 4) / 256;
    *at++ = 4;
    at++;
    *at++ = SENT;
    for (j = 0; j < SENT; j++)
        *at++ = sent_at(j);
    for (j = 0; j <= SENT; j++, at += 8)
        *at = 127;
}

static int reading_is(rollback_reading r, uint64_t code, uint64_t place, uint64_t n, uint64_t m, uint64_t items) {
    return r.code == code && r.place == place && r.n == n && r.m == m && r.items == items;
}

static int checking_is(rollback_checking r, uint64_t code, uint64_t place, uint64_t n, uint64_t m, uint64_t items,
                       uint64_t units) {
    return r.code == code && r.place == place && r.n == n && r.m == m && r.items == items && r.units == units;
}

static int forecast_is(rollback_forecasted r, uint64_t code, uint64_t place, uint64_t units, uint64_t plan_bytes,
                       uint64_t legs) {
    return r.code == code && r.place == place && r.units == units && r.plan_bytes == plan_bytes && r.legs == legs;
}

static int found_is(rollback_found r, uint64_t code, uint64_t place, uint64_t count, uint8_t first, uint8_t second,
                    uint8_t third) {
    return r.code == code && r.place == place && r.count == count && r.commands[0] == first &&
           r.commands[1] == second && r.commands[2] == third;
}

/*
 * Finding on that device: what each refusal is for, and that the table is read on 14 and 15 too and stays where it is
 * short. Entry 20 is past n * m.
 */
static void expect_finding(void) {
    static uint64_t table[ROLLBACK_TABLE_LEN];
    static const uint8_t five[] = {5};
    static const struct {
        const uint8_t *forward;
        size_t count;
        uint64_t phi, psi;
        size_t table_len;
        uint64_t code;
    } cases[] = {{zeros, 1, 15, 15, ROLLBACK_TABLE_LEN - 1, ROLLBACK_E_SHORT_BUFFER},
                 {NULL, 0, 15, 15, ROLLBACK_TABLE_LEN, ROLLBACK_E_ITEM_FIELDS},
                 {zeros, 9, 15, 15, ROLLBACK_TABLE_LEN, ROLLBACK_E_ITEM_FIELDS},
                 {five, 1, 15, 15, ROLLBACK_TABLE_LEN, ROLLBACK_E_ITEM_FIELDS},
                 {zeros, 1, 16, 15, ROLLBACK_TABLE_LEN, ROLLBACK_E_ITEM_FIELDS},
                 {zeros, 1, 15, 16, ROLLBACK_TABLE_LEN, ROLLBACK_E_ITEM_FIELDS},
                 {zeros, 8, 15, 15, ROLLBACK_TABLE_LEN, ROLLBACK_E_NO_REVERSE},
                 {zeros, 1, 0, 15, ROLLBACK_TABLE_LEN, ROLLBACK_E_NO_REVERSE},
                 {zeros, 1, 15, 0, ROLLBACK_TABLE_LEN, ROLLBACK_E_NO_REVERSE}};
    size_t i;
    for (i = 0; i < sizeof cases / sizeof cases[0]; i++) {
        uint64_t read = cases[i].code == ROLLBACK_E_SHORT_BUFFER ? 7 : 8;
        table[0] = table[20] = 7;
        hold(found_is(rollback_find(around, sizeof around, cases[i].forward, cases[i].count, cases[i].phi,
                                    cases[i].psi, table, cases[i].table_len),
                      cases[i].code, 0, 0, 0, 0, 0) &&
                 table[0] == read && table[20] == 7,
             "a refusal of finding");
    }
}

static int writing_is(rollback_writing r, uint64_t code, uint64_t place, uint64_t length) {
    return r.code == code && r.place == place && r.length == length;
}

static int lookup_is(rollback_lookup r, uint64_t code, uint64_t place, uint64_t mask) {
    return r.code == code && r.place == place && r.mask == mask;
}

/* Two commands of weight 3 for each of 32 legs, so that the number of point j is 6 * j. */
static int assembled(const rollback_assembly *r) {
    unsigned j;
    for (j = 0; j < ROLLBACK_POINTS_LEN; j++)
        if (r->fewest[j] != 6 * j)
            return 0;
    return r->code == 0 && r->place == 0 && r->commands == 64 && r->legs == 32 && r->sum == 192;
}

static int not_assembled(const rollback_assembly *r) {
    unsigned j;
    for (j = 0; j < ROLLBACK_POINTS_LEN; j++)
        if (r->fewest[j] != ROLLBACK_NONE)
            return 0;
    return r->code == ROLLBACK_E_NOT_EFFECTIVE && r->place == REFUSED_CHECKING && r->commands == 0 && r->legs == 0 &&
           r->sum == 0;
}

/* The leg from point j + 1 to j; its item is neither of the two. */
static int leg_is(unsigned j, uint8_t item, uint8_t upper, uint8_t lower) {
    return item == REVERSED + sent_at(j) && upper == j + 1 && lower == j && item != upper && item != lower;
}

static void expect_fields(void) {
    static uint64_t table[ROLLBACK_TABLE_LEN], scratch[ROLLBACK_SCRATCH_LEN];
    static uint16_t weights[ROLLBACK_WEIGHTS_LEN];
    static uint8_t slots[ROLLBACK_SLOTS_LEN], plan[ROLLBACK_PLAN_LEN], legs[ROLLBACK_LEGS_LEN];
    static uint8_t page[ROLLBACK_PAGE_LEN], out[ROLLBACK_OUT_LEN], run[ROLLBACK_RUN_LEN];
    static uint8_t good[FIELDS_BOOK], no_reading[FIELDS_BOOK], no_checking[FIELDS_BOOK];
    static rollback_leg structs[ROLLBACK_LEG_STRUCTS_LEN];
    rollback_assembly assembly;
    rollback_paged paged;
    unsigned t;

    hold(put_fields_book(good) == sizeof good, "the book's length");
    put_fields_run(run);
    memcpy(no_reading, good, sizeof good);
    no_reading[REFUSED_READING + 4] = 0; /* k of item 5 */
    memcpy(no_checking, good, sizeof good);
    no_checking[REFUSED_CHECKING + 9] = 2; /* phi of item 40 */

    hold(reading_is(rollback_read(good, sizeof good, table, ROLLBACK_TABLE_LEN, slots, ROLLBACK_SLOTS_LEN,
                                  weights, ROLLBACK_WEIGHTS_LEN),
                    0, 0, 7, 32, 64),
         "reading");
    hold(writing_is(rollback_write(7, 32, 64, table, ROLLBACK_TABLE_LEN, slots, ROLLBACK_SLOTS_LEN,
                                   weights, ROLLBACK_WEIGHTS_LEN, out, ROLLBACK_OUT_LEN),
                    0, 0, FIELDS_BOOK) &&
             memcmp(out, good, sizeof good) == 0,
         "writing");
    weights[9] = 0;
    hold(writing_is(rollback_write(7, 32, 64, table, ROLLBACK_TABLE_LEN, slots, ROLLBACK_SLOTS_LEN,
                                   weights, ROLLBACK_WEIGHTS_LEN, out, ROLLBACK_OUT_LEN),
                    ROLLBACK_E_FIELD, 9, 0),
         "writing, refused");
    hold(reading_is(rollback_read(no_reading, sizeof no_reading, table, ROLLBACK_TABLE_LEN, slots, ROLLBACK_SLOTS_LEN,
                                  weights, ROLLBACK_WEIGHTS_LEN),
                    ROLLBACK_E_FIELD, REFUSED_READING, 0, 0, 0),
         "reading, refused");
    hold(checking_is(rollback_check(good, sizeof good, table, ROLLBACK_TABLE_LEN, slots, ROLLBACK_SLOTS_LEN,
                                    weights, ROLLBACK_WEIGHTS_LEN),
                     0, 0, 7, 32, 64, 224),
         "checking");
    hold(checking_is(rollback_check(no_checking, sizeof no_checking, table, ROLLBACK_TABLE_LEN, slots,
                                    ROLLBACK_SLOTS_LEN, weights, ROLLBACK_WEIGHTS_LEN),
                     ROLLBACK_E_NOT_EFFECTIVE, REFUSED_CHECKING, 0, 0, 0, 155),
         "checking, refused");
    hold(forecast_is(rollback_forecast(good, sizeof good, 9), 0, 0, 224, 27, 9), "a forecast");
    hold(forecast_is(rollback_forecast(no_reading, sizeof no_reading, 9), ROLLBACK_E_FIELD, REFUSED_READING, 0, 0, 0),
         "a forecast, refused");
    hold(found_is(rollback_find(around, sizeof around, zeros, 1, 15, 15, table, ROLLBACK_TABLE_LEN),
                  0, 0, 3, 4, 1, 2),
         "finding");
    hold(found_is(rollback_find(around, sizeof around - 1, zeros, 1, 15, 15, table, ROLLBACK_TABLE_LEN),
                  ROLLBACK_E_CUT_OFF, 48, 0, 0, 0, 0),
         "finding, refused");
    hold(lookup_is(rollback_ridge(0, 13), 0, 0, 15) && lookup_is(rollback_ridge(64, 0), ROLLBACK_E_FIELD, 0, 0) &&
             lookup_is(rollback_portable(16, 5), 0, 0, 2162688) &&
             lookup_is(rollback_portable(0, 12), ROLLBACK_E_FIELD, 0, 0),
         "a lookup");

    assembly = rollback_assemble_legs(good, sizeof good, run, sizeof run, table, ROLLBACK_TABLE_LEN,
                                      slots, ROLLBACK_SLOTS_LEN, weights, ROLLBACK_WEIGHTS_LEN,
                                      plan, ROLLBACK_PLAN_LEN, structs, ROLLBACK_LEG_STRUCTS_LEN);
    hold(assembled(&assembly), "assembling with leg structs");
    assembly = rollback_assemble_small(good, sizeof good, run, sizeof run, scratch, ROLLBACK_SCRATCH_LEN,
                                       plan, ROLLBACK_PLAN_LEN, legs, ROLLBACK_LEGS_LEN);
    hold(assembled(&assembly), "assembling with a scratch");
    assembly = rollback_assemble(good, sizeof good, run, sizeof run, table, ROLLBACK_TABLE_LEN,
                                 slots, ROLLBACK_SLOTS_LEN, weights, ROLLBACK_WEIGHTS_LEN,
                                 plan, ROLLBACK_PLAN_LEN, legs, ROLLBACK_LEGS_LEN);
    hold(assembled(&assembly), "assembling");
    for (t = 0; t < SENT; t++) {
        hold(leg_is(31 - t, structs[t].item, structs[t].upper, structs[t].lower), "a leg struct");
        hold(leg_is(31 - t, legs[3 * t], legs[3 * t + 1], legs[3 * t + 2]), "a leg's bytes");
    }
    paged = rollback_page(good, sizeof good, run, sizeof run, table, ROLLBACK_TABLE_LEN, slots, ROLLBACK_SLOTS_LEN,
                          weights, ROLLBACK_WEIGHTS_LEN, plan, ROLLBACK_PLAN_LEN, legs, ROLLBACK_LEGS_LEN,
                          page, ROLLBACK_PAGE_LEN);
    hold(assembled(&paged.assembly) && paged.length == 1312, "the page");

    assembly = rollback_assemble(no_checking, sizeof no_checking, run, sizeof run, table, ROLLBACK_TABLE_LEN,
                                 slots, ROLLBACK_SLOTS_LEN, weights, ROLLBACK_WEIGHTS_LEN,
                                 plan, ROLLBACK_PLAN_LEN, legs, ROLLBACK_LEGS_LEN);
    hold(not_assembled(&assembly), "assembling, refused");
    paged = rollback_page(no_checking, sizeof no_checking, run, sizeof run, table, ROLLBACK_TABLE_LEN,
                          slots, ROLLBACK_SLOTS_LEN, weights, ROLLBACK_WEIGHTS_LEN, plan, ROLLBACK_PLAN_LEN,
                          legs, ROLLBACK_LEGS_LEN, page, ROLLBACK_PAGE_LEN);
    hold(not_assembled(&paged.assembly) && paged.length == 0, "the page, refused");
}

int main(void) {
    static uint64_t table[ROLLBACK_TABLE_LEN], scratch[ROLLBACK_SCRATCH_LEN];
    static uint16_t weights[ROLLBACK_WEIGHTS_LEN];
    static uint8_t slots[ROLLBACK_SLOTS_LEN], plan[ROLLBACK_PLAN_LEN], legs[ROLLBACK_LEGS_LEN];
    static uint8_t book[ROLLBACK_OUT_LEN], page[ROLLBACK_PAGE_LEN];
    static rollback_leg structs[ROLLBACK_LEG_STRUCTS_LEN];
    /* One state, one command of weight 700 that stays there, no items; then bytes of no known kind. */
    static const uint8_t small[] = {2, 0, 1, 0, 1, 1, 2, 0, 5, 0, 188, 2, 10, 0, 2,
                                    0, 0, 0, 1, 0, 0, 0, 0, 0, 0, 0, 0, 0, 9, 9};
    static const uint8_t run[] = {9, 0, 4, 0, 0, 1, 0, 0, 0, 0, 0, 0, 0};
    /* That device without the weight, and an item of one forward command and two reverse ones. */
    static const uint8_t with_item[] = {2, 0, 1, 0, 1, 1, 10, 0, 2, 0, 0, 0, 1, 0, 0, 0, 0, 0, 0, 0, 21, 0, 3,
                                        0, 1, 2, 0, 0, 0, 1, 0, 0, 0, 0, 0, 0, 0, 1, 0, 0, 0, 0, 0, 0, 0};
    static const uint8_t sent[] = {18, 0, 4, 0, 1, 0, 1, 0, 0, 0, 0, 0, 0, 0, 1, 0, 0, 0, 0, 0, 0, 0};
    char version[32];
    rollback_reading read;
    rollback_checking checked;
    rollback_forecasted longest, too_long;
    rollback_assembly bytes, in_structs, by_scratch, too_short;
    rollback_paged paged;
    rollback_writing written;

    sprintf(version, "%d.%d.%d", ROLLBACK_VERSION_MAJOR, ROLLBACK_VERSION_MINOR, ROLLBACK_VERSION_PATCH);
    expect(version, ROLLBACK_VERSION);

    read = rollback_read(small, 26, table, ROLLBACK_TABLE_LEN, slots, ROLLBACK_SLOTS_LEN,
                         weights, ROLLBACK_WEIGHTS_LEN);
    checked = rollback_check(small, 26, table, ROLLBACK_TABLE_LEN, slots, ROLLBACK_SLOTS_LEN,
                             weights, ROLLBACK_WEIGHTS_LEN);
    bytes = rollback_assemble(small, 26, run, sizeof run, table, ROLLBACK_TABLE_LEN, slots, ROLLBACK_SLOTS_LEN,
                              weights, ROLLBACK_WEIGHTS_LEN, plan, ROLLBACK_PLAN_LEN, legs, ROLLBACK_LEGS_LEN);
    in_structs = rollback_assemble_legs(small, 26, run, sizeof run, table, ROLLBACK_TABLE_LEN, slots,
                                        ROLLBACK_SLOTS_LEN, weights, ROLLBACK_WEIGHTS_LEN, plan, ROLLBACK_PLAN_LEN,
                                        structs, ROLLBACK_LEG_STRUCTS_LEN);
    paged = rollback_page(small, 26, run, sizeof run, table, ROLLBACK_TABLE_LEN, slots, ROLLBACK_SLOTS_LEN,
                          weights, ROLLBACK_WEIGHTS_LEN, plan, ROLLBACK_PLAN_LEN, legs, ROLLBACK_LEGS_LEN,
                          page, ROLLBACK_PAGE_LEN);
    written = rollback_write(1, 1, 0, table, ROLLBACK_TABLE_LEN, slots, ROLLBACK_SLOTS_LEN,
                             weights, ROLLBACK_WEIGHTS_LEN, book, ROLLBACK_OUT_LEN);
    if (read.code != ROLLBACK_E_DONE || read.n != 1 || read.m != 1 || read.items != 0 || weights[0] != 700 ||
        weights[1] != 0 || checked.code != read.code || checked.units != 0 || bytes.code != ROLLBACK_E_DONE ||
        bytes.sum != 0 || bytes.fewest[0] != 0 || bytes.fewest[1] != ROLLBACK_NONE || in_structs.code != bytes.code ||
        paged.assembly.code != bytes.code || paged.assembly.fewest[0] != 0 || paged.length != 0 || page[0] != 0 ||
        written.code != ROLLBACK_E_DONE || written.length != 26 || memcmp(book, small, 26) != 0 ||
        rollback_ridge(0, 13).mask != 15 || rollback_portable(16, 5).mask != 2162688) {
        printf("a call gives a wrong answer\n");
        wrong = 1;
    }
    checked = rollback_check(with_item, sizeof with_item, table, ROLLBACK_TABLE_LEN, slots, ROLLBACK_SLOTS_LEN,
                             weights, ROLLBACK_WEIGHTS_LEN);
    longest = rollback_forecast(with_item, sizeof with_item, 32);
    too_long = rollback_forecast(with_item, sizeof with_item, 33);
    if (checked.code != ROLLBACK_E_DONE || checked.items != 1 || checked.units != 3 ||
        longest.code != ROLLBACK_E_DONE || longest.place != 0 || longest.units != 3 || longest.plan_bytes != 64 ||
        longest.legs != 32 || too_long.code != ROLLBACK_E_RUN || too_long.place != 0 || too_long.units != 0 ||
        too_long.plan_bytes != 0 || too_long.legs != 0 || rollback_forecast(small, 26, 7).plan_bytes != 0 ||
        rollback_forecast(small, 28, 33).place != 26 || rollback_forecast(NULL, 0, 0).code != ROLLBACK_E_CUT_OFF) {
        printf("checking or a forecast gives a wrong answer\n");
        wrong = 1;
    }
    /* The item's two commands undo the one that was sent; with a scratch that is too short nothing happens. */
    scratch[0] = 7;
    plan[0] = 9;
    too_short = rollback_assemble_small(with_item, sizeof with_item, sent, sizeof sent, scratch,
                                        ROLLBACK_SCRATCH_LEN - 1, plan, ROLLBACK_PLAN_LEN, legs, ROLLBACK_LEGS_LEN);
    if (too_short.code != ROLLBACK_E_SHORT_BUFFER || too_short.place != 0 || too_short.commands != 0 ||
        too_short.legs != 0 || too_short.sum != 0 || too_short.fewest[0] != ROLLBACK_NONE || scratch[0] != 7 ||
        plan[0] != 9) {
        printf("a short scratch gives a wrong answer\n");
        wrong = 1;
    }
    by_scratch = rollback_assemble_small(with_item, sizeof with_item, sent, sizeof sent, scratch,
                                         ROLLBACK_SCRATCH_LEN, plan, ROLLBACK_PLAN_LEN, legs, ROLLBACK_LEGS_LEN);
    if (by_scratch.code != ROLLBACK_E_DONE || by_scratch.place != 0 || by_scratch.commands != 2 ||
        by_scratch.legs != 1 || by_scratch.sum != 2 || by_scratch.fewest[0] != 0 || by_scratch.fewest[1] != 2 ||
        by_scratch.fewest[2] != ROLLBACK_NONE || plan[0] != 0 || plan[1] != 0 || legs[0] != 0 || legs[1] != 1 ||
        legs[2] != 0) {
        printf("assembling with a scratch gives a wrong answer\n");
        wrong = 1;
    }

    expect_fields();
    expect_finding();

    expect(rollback_message(ROLLBACK_E_DONE), "done");
    expect(rollback_message(ROLLBACK_E_TOO_MANY_ITEMS), "a book has at most 64 items");
    expect(rollback_message(ROLLBACK_E_RUN),
           "a run is one record, has at most 32 commands, and only commands and states of its device");
    expect(rollback_message(ROLLBACK_E_NO_CHAIN), "no items of the book lead from the run's end back to its start");
    expect(rollback_message(ROLLBACK_E_NOT_EFFECTIVE),
           "the item can never be used: its forward commands lead from no start in psi to an end in phi");
    expect(rollback_message(ROLLBACK_E_ALL_ONES), "every weight is 1, as without this record: leave it out");
    expect(rollback_message(ROLLBACK_E_ITEM_FIELDS),
           "an item has 1 to 8 forward commands, and only commands and states of its device");
    expect(rollback_message(ROLLBACK_E_NO_REVERSE), "no reverse of at most 3 commands makes an accepted item");
    expect(rollback_message(ROLLBACK_E_NO_REVERSE + 1), "a code that this header doesn't know");
    expect_record(small, sizeof small, 0, "device", 0);
    expect_record(small, sizeof small, 6, "weights", 0);
    expect_record(small, sizeof small, 12, "move", 0);
    expect_record(small, sizeof small, 26, "record", 3);
    expect_record(small, 29, 26, "record", 3);
    expect_record(small, 8, 6, "record", 1);
    expect_record(small, 0, 0, "record", 0);
    expect_record(run, sizeof run, 0, "record", 0);
    table[0] = 2;
    expect(rollback_write_message(ROLLBACK_E_FIELD, 0, 65, 1, table, weights),
           "a device has 1 to 64 states and 1 to 32 commands");
    expect(rollback_write_message(ROLLBACK_E_FIELD, 0, 1, 1, table, weights),
           "the entry has a state that the device lacks");
    expect(rollback_write_message(ROLLBACK_E_FIELD, 0, 2, 1, table, weights),
           "a field of the item is outside its range, or an unused command byte is not 0");
    weights[0] = 1001;
    expect(rollback_write_message(ROLLBACK_E_FIELD, 0, 1, 1, table, weights),
           "the command's weight is outside 1 to 1,000");
    return wrong;
}
