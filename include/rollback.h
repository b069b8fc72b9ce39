/*
 * Roll-back plans for repeaters: the calls of libplanner.a.
 *
 * A book holds a device's transition table, its commands' weights and its items, a run what was sent and
 * heard. docs/FORMAT.md has the bytes of both; rollback_messages.h turns codes and places into words.
 *
 * Proved of the source, for all bytes, numbers and lengths: the answer, and the contents of each buffer
 * afterwards, are those said here. A call asks of its caller, and no proof covers:
 *
 * - every length is true: so many elements are there to be read, and to be written where not const;
 * - a buffer that a call writes overlaps no other of that call, and nobody else uses it meanwhile;
 * - table and scratch are aligned as uint64_t is, and weights as uint16_t;
 * - there is as much stack as said below.
 *
 * Nor does a proof cover that this header fits the archive, and that the compiler's back end, the linker,
 * memcpy and memset are right. c/check.sh and the tests in rust/ try all of that.
 *
 * Calls use the SSE registers, as the calling convention of x86-64 allows, and nothing of AVX. Where nobody saves
 * them, as in an interrupt handler, the caller does.
 *
 * Lengths count elements. Where a length is 0 the pointer may be null. Book, run and forward commands may have
 * any length. Lent buffers may be longer than stated: what lies past the stated length stays as it was, and no
 * answer depends on it. No call keeps anything: on buffers of their own, calls may run at the same time.
 */
#ifndef ROLLBACK_H
#define ROLLBACK_H

#include <stddef.h>
#include <stdint.h>

#ifdef __cplusplus
extern "C" {
#endif

/* Of this header; the Rust crate has the same. */
#define ROLLBACK_VERSION "0.10.0"
#define ROLLBACK_VERSION_MAJOR 0
#define ROLLBACK_VERSION_MINOR 10
#define ROLLBACK_VERSION_PATCH 0

/* The least lengths of lent buffers, in elements. A shorter one is refused with code 1. */
#define ROLLBACK_TABLE_LEN 2048     /* uint64_t: outcomes of state s, command c at s * m + c */
#define ROLLBACK_SLOTS_LEN 2176     /* bytes: 64 slots of 34, see below */
#define ROLLBACK_WEIGHTS_LEN 32     /* uint16_t: the weight of command c at c */
#define ROLLBACK_SCRATCH_LEN 64     /* uint64_t: for the call's own use; these may end with anything in them */
#define ROLLBACK_PLAN_LEN 256       /* bytes: a command each */
#define ROLLBACK_LEGS_LEN 96        /* bytes: 32 legs of 3, item, upper point, lower point */
#define ROLLBACK_LEG_STRUCTS_LEN 32 /* rollback_leg */
#define ROLLBACK_PAGE_LEN 1312      /* bytes: 32 lines of 41, see below */
#define ROLLBACK_OUT_LEN 31178      /* bytes: the book that writing gives */

/* Other lengths. */
#define ROLLBACK_BOOK_LEN 31178 /* bytes of the largest book that a call takes */
#define ROLLBACK_RUN_LEN 301    /* bytes of the largest run */
#define ROLLBACK_POINTS_LEN 33  /* points of the largest run, 0 to 32 */
#define ROLLBACK_FOUND_LEN 3    /* commands of the longest reverse that finding gives */
/*
 * A slot: k, r, 8 forward commands, 8 reverse commands, 8-byte masks phi and psi, little-endian.
 * Of the commands the first k and r count; the others are 0.
 */
#define ROLLBACK_SLOT_LEN 34
/*
 * A line of a page: 40 characters of ASCII and a newline. Right-aligned, padded with spaces: the leg's
 * number from 1 (3 wide), upper point (3), lower point (3), item (4), number of reverse commands (3), then
 * up to 8 commands (3 each), blank where there are fewer.
 */
#define ROLLBACK_PAGE_LINE_LEN 41

/*
 * Bytes of stack for a call on x86-64: the most that was measured, over the largest books (docs/SPEED.md),
 * rounded up; no proof has them. c/check.sh measures again and fails above these numbers. They are without the
 * dynamic linker, which works on the caller's stack where a program binds late (-z lazy) and a call is the first
 * to need memcpy or memset: with it 6,120 and 6,304 bytes were seen. Bound at the start (-z now) or linked
 * statically, a call takes what is said here.
 */
#define ROLLBACK_READ_STACK 1024
#define ROLLBACK_CHECK_STACK 1024
#define ROLLBACK_FORECAST_STACK 512
#define ROLLBACK_FIND_STACK 2048
#define ROLLBACK_ASSEMBLE_STACK 4096
#define ROLLBACK_ASSEMBLE_LEGS_STACK 4096
#define ROLLBACK_ASSEMBLE_SMALL_STACK 3072
#define ROLLBACK_PAGE_STACK 4096
#define ROLLBACK_WRITE_STACK 512
#define ROLLBACK_RIDGE_STACK 512
#define ROLLBACK_PORTABLE_STACK 512

/* In fewest: no chain from that point. */
#define ROLLBACK_NONE 4294967295u

/*
 * The codes. The place is the offset of the faulty record's first byte for 2 to 8, 12 and 13 in a book, and
 * 0 for the others; rollback_write has places of its own. The order of judging is 1; then, record by record,
 * 2, 3, 7, 4, 5, then 6 or 13, the first faulty record deciding; then, item by item, 8 or 12, the first wrong
 * item deciding; then 9, 10, 11, or of finding 14, 15. A forecast judges no item.
 */
enum {
    ROLLBACK_E_DONE = 0,
    ROLLBACK_E_SHORT_BUFFER = 1,     /* a lent buffer is shorter than stated */
    ROLLBACK_E_CUT_OFF = 2,          /* under 4 bytes of a record are left, or its body is cut off; an empty book */
    ROLLBACK_E_KIND = 3,             /* a kind unknown in a book, or out of its order */
    ROLLBACK_E_LENGTH = 4,           /* a body's length is not that of its kind */
    ROLLBACK_E_FIELD = 5,            /* a field is outside its range */
    ROLLBACK_E_NOT_RISING = 6,       /* a move doesn't rise */
    ROLLBACK_E_TOO_MANY_ITEMS = 7,   /* a 65th item */
    ROLLBACK_E_NOT_REVERSE_PLAN = 8, /* an item is no conditional reverse plan */
    ROLLBACK_E_RUN = 9,              /* the run isn't exactly one record, or a command or mask is outside m or n;
                                        a forecast for over 32 commands */
    ROLLBACK_E_NO_HISTORY = 10,      /* nothing can have happened that fits the run */
    ROLLBACK_E_NO_CHAIN = 11,        /* no items lead from the run's end back to its start */
    ROLLBACK_E_NOT_EFFECTIVE = 12,   /* an item can never be used: a conditional reverse plan, but not effective */
    ROLLBACK_E_ALL_ONES = 13,        /* a weights record in which every weight is 1 */
    ROLLBACK_E_ITEM_FIELDS = 14,     /* forward commands or masks that no item may hold */
    ROLLBACK_E_NO_REVERSE = 15       /* no reverse of at most 3 commands makes an accepted item */
};

/* From reading: n states, m commands, the number of items; all three 0 on a refusal. */
typedef struct {
    uint64_t code, place, n, m, items;
} rollback_reading;

/*
 * From checking: the same, and the units made, on 8 and 12 too; 0 on any other refusal. One unit is one
 * command applied to one set of states, an empty one too.
 */
typedef struct {
    uint64_t code, place, n, m, items, units;
} rollback_checking;

/*
 * From a forecast: the units of checking an accepted book, and the plan bytes and legs that no plan for a run
 * of i commands exceeds; all three 0 on a refusal.
 */
typedef struct {
    uint64_t code, place, units, plan_bytes, legs;
} rollback_forecasted;

/*
 * From finding: the number of reverse commands, 0 to 3, and the commands in order, 0 where they are not used; all
 * four are 0 on a refusal.
 */
typedef struct {
    uint64_t code, place, count;
    uint8_t commands[ROLLBACK_FOUND_LEN];
} rollback_found;

/*
 * From assembling: the numbers of commands and legs, and the sum of the commands' weights, all 0 on a
 * refusal; and for each point of the run the least sum of a chain that leads from it to point 0,
 * ROLLBACK_NONE where no chain does or the point is past the run's end. On refusals they are all
 * ROLLBACK_NONE, except that code 11 gives them true.
 */
typedef struct {
    uint64_t code, place, commands, legs, sum;
    uint32_t fewest[ROLLBACK_POINTS_LEN];
} rollback_assembly;

/* From the page: what assembling gives, and the length of the page's text in bytes, 0 on a refusal. */
typedef struct {
    rollback_assembly assembly;
    uint64_t length;
} rollback_paged;

/* From writing: the book's length in bytes, 0 on a refusal. */
typedef struct {
    uint64_t code, place, length;
} rollback_writing;

/* From a lookup in a device's table: the outcomes, 0 on a refusal. */
typedef struct {
    uint64_t code, place, mask;
} rollback_lookup;

/* One leg of a plan: the item that leads from the upper point to the lower one. */
typedef struct {
    uint8_t item, upper, lower;
} rollback_leg;

/*
 * Reads a book.
 *
 * Takes the book; lends table, slots and weights. Codes: 0 to 7, 13.
 * 0           table: entries below n * m are the outcomes, 0 where the book has no move; the others stay.
 *             slots: the items, in the book's order; bytes of slots past the last item stay.
 *             weights: the first m are the commands' weights, 1 where the book has no record of them; the
 *             others stay.
 * 1 to 7, 13  all untouched.
 */
rollback_reading rollback_read(
    const uint8_t *book, size_t book_len,
    uint64_t *table, size_t table_len,
    uint8_t *slots, size_t slots_len,
    uint16_t *weights, size_t weights_len);

/*
 * Reads a book and checks that every item is accepted, that is, a conditional reverse plan (else 8): from
 * wherever its forward commands can lead to in phi from a start in psi, its reverse commands are never
 * stuck and always end in that start; and effective (else 12): its forward commands can lead from some
 * start in psi to an end in phi.
 *
 * Takes the book; lends table, slots and weights. Codes: 0 to 8, 12, 13.
 * 0, 8, 12    all three as after reading with code 0; with 8 and 12 n, m and items are 0 all the same.
 * 1 to 7, 13  all untouched.
 *
 * It takes the items as they stand, the starts of each lowest first, for each start the forward commands and
 * then the reverse ones on all its ends in phi together. The units:
 * 0           the sum over items of (states in psi) * (k + r), at most 65,536.
 * 8           those up to and including the first reverse command that some state can't carry out, or, where a
 *             run ends outside its start, that start's last command.
 * 12          those up to that item's end.
 * 1 to 7, 13  0.
 */
rollback_checking rollback_check(
    const uint8_t *book, size_t book_len,
    uint64_t *table, size_t table_len,
    uint8_t *slots, size_t slots_len,
    uint16_t *weights, size_t weights_len);

/*
 * Forecasts how much checking a book will take, and how long a plan for a run of i commands can be. It
 * applies no command and judges no item.
 *
 * Takes the book and i; lends nothing. Codes: 0, 2 to 7, 9, 13.
 * 0           units: the sum over items of (states in psi) * (k + r), at most 65,536. Checking makes as many
 *             where it accepts the book, and never more.
 *             plan_bytes: i times the largest r of an item, 0 without items; legs: i. Assembling gives no more
 *             `commands` and `legs` for any run of i commands.
 * 2 to 7, 13  as reading, at the same place.
 * 9           i is over 32; after the others.
 */
rollback_forecasted rollback_forecast(const uint8_t *book, size_t book_len, uint64_t i);

/*
 * Checks a book and finds the reverse for an item with these forward commands, phi and psi: the shortest row of
 * at most 3 commands, or of none, that makes an accepted item; among equals, the one with the lower command at the
 * first difference. Weights don't count, nor whether the book has room for another item.
 *
 * Takes book, forward commands, phi and psi; lends table. Codes: 0 to 8, 12 to 15.
 * 0           table as after reading with code 0.
 * 1           table is shorter than stated: untouched.
 * 2 to 7, 13  as reading, at the same place; table untouched.
 * 8, 12       as checking, at the same place; table as after reading.
 * 14          no item may hold what was passed: no forward command or over 8, a command at m or above, a mask
 *             with a bit at n or above; after the book's codes. Table as after reading.
 * 15          there is no such row, as with phi or psi zero; after all others. Table as after reading.
 */
rollback_found rollback_find(
    const uint8_t *book, size_t book_len,
    const uint8_t *forward, size_t forward_len,
    uint64_t phi, uint64_t psi,
    uint64_t *table, size_t table_len);

/*
 * Checks a book and assembles from its items the plan that undoes a run: the chain whose commands' weights
 * have the least sum; among equals, the one with the lower item number at the first difference, whatever
 * the numbers of commands.
 *
 * Takes book and run; lends table, slots, weights, plan and legs, these as bytes. Codes: 0 to 13.
 * 0           table, slots and weights as after reading; plan: its first `commands` bytes are the commands
 *             to send, in order; legs: its first 3 * `legs` bytes are the legs in that order; the other
 *             bytes stay.
 * 1 to 7, 13  all untouched.
 * 8 to 12     table, slots and weights as after reading; plan and legs untouched.
 */
rollback_assembly rollback_assemble(
    const uint8_t *book, size_t book_len,
    const uint8_t *run, size_t run_len,
    uint64_t *table, size_t table_len,
    uint8_t *slots, size_t slots_len,
    uint16_t *weights, size_t weights_len,
    uint8_t *plan, size_t plan_len,
    uint8_t *legs, size_t legs_len);

/* The same with the legs as structs: the first `legs` are written on code 0, the others stay. */
rollback_assembly rollback_assemble_legs(
    const uint8_t *book, size_t book_len,
    const uint8_t *run, size_t run_len,
    uint64_t *table, size_t table_len,
    uint8_t *slots, size_t slots_len,
    uint16_t *weights, size_t weights_len,
    uint8_t *plan, size_t plan_len,
    rollback_leg *legs, size_t legs_len);

/*
 * Assembles with a scratch in place of table, slots and weights, where there is no room for them. It reads the
 * book again wherever it needs it, and so may take longer. For every book and run, result, plan and legs are
 * those that rollback_assemble gives with long enough buffers, plan and legs lent alike.
 *
 * Takes book and run; lends scratch, plan, and legs as bytes. Codes: 0 to 13.
 * 0        plan and legs as after rollback_assemble; anything may stand in the first 64 masks of scratch.
 * 1        scratch, plan or legs is shorter than stated: all untouched.
 * 2 to 13  plan and legs untouched; anything may stand in the first 64 masks of scratch.
 */
rollback_assembly rollback_assemble_small(
    const uint8_t *book, size_t book_len,
    const uint8_t *run, size_t run_len,
    uint64_t *scratch, size_t scratch_len,
    uint8_t *plan, size_t plan_len,
    uint8_t *legs, size_t legs_len);

/*
 * Assembles the plan and lays it out on a page, a line for each leg. The commands, taken down the page, are
 * the plan.
 *
 * Takes book and run; lends table, slots, weights, plan, legs as bytes, and page. Codes: 0 to 13.
 * 0        the other buffers as after assembling; page: its first `length` bytes are one line of
 *          ROLLBACK_PAGE_LINE_LEN bytes for each leg, in their order, not NUL-terminated; the others stay.
 * 1 to 13  as assembling; page untouched. A short page is 1 too, before everything else.
 */
rollback_paged rollback_page(
    const uint8_t *book, size_t book_len,
    const uint8_t *run, size_t run_len,
    uint64_t *table, size_t table_len,
    uint8_t *slots, size_t slots_len,
    uint16_t *weights, size_t weights_len,
    uint8_t *plan, size_t plan_len,
    uint8_t *legs, size_t legs_len,
    uint8_t *page, size_t page_len);

/*
 * Writes the book of a table, slots and weights. It judges the format, not whether items are accepted.
 *
 * Takes n, m, the number of items, table, slots and weights; lends out. Entries from n * m on, slots past
 * the items and weights from m on are ignored. Where the first m weights are all 1 the book has no record
 * of them. Codes, in this order:
 * 1, place 0      a buffer is shorter than stated, table, slots and weights too.
 * 5, place 0      n is outside 1 to 64 or m outside 1 to 32.
 * 7, place 0      over 64 items.
 * 5, a command    the first one whose weight is outside 1 to 1,000.
 * 5, an index     the first entry with a bit at n or above.
 * 5, a number     the first slot that no item has: k outside 1 to 8, r over 8, a command outside m, a mask
 *                 with a bit at n or above, or an unused command byte that isn't 0.
 * 0, place 0      out: its first `length` bytes are the book; the others stay.
 * On a refusal out is untouched.
 */
rollback_writing rollback_write(
    uint64_t n, uint64_t m, uint64_t items,
    const uint64_t *table, size_t table_len,
    const uint8_t *slots, size_t slots_len,
    const uint16_t *weights, size_t weights_len,
    uint8_t *out, size_t out_len);

/*
 * The outcomes of a command of the ridge repeater (64 states, 16 commands) in a state.
 * Codes: 0; 5 at place 0 for a state over 63 or a command over 15.
 */
rollback_lookup rollback_ridge(uint64_t state, uint64_t command);

/*
 * The outcomes of a command of the portable relay (32 states, 12 commands) in a state.
 * Codes: 0; 5 at place 0 for a state over 31 or a command over 11.
 */
rollback_lookup rollback_portable(uint64_t state, uint64_t command);

#ifdef __cplusplus
}
#endif

#endif
