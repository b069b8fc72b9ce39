/*
 * The deepest stack use of each call over some books and runs: stack BOOK RUN [BOOK RUN ...], or the cases of
 * one file: stack CASES
 * Each call runs in a thread of its own on a painted stack. Printed are the bytes used beyond a caller
 * that does nothing; the caller's frame with the result is among them. Status 1 if a call needs more than
 * rollback.h says.
 */
#define _XOPEN_SOURCE 700
#include "load.h"
#include "rollback.h"

#include <pthread.h>
#include <string.h>

enum { STACK = 1 << 20, GAP = 1 << 16, PAINT = 0xA5 };

static uint64_t table[ROLLBACK_TABLE_LEN], scratch[ROLLBACK_SCRATCH_LEN];
static uint16_t weights[ROLLBACK_WEIGHTS_LEN];
static uint8_t slots[ROLLBACK_SLOTS_LEN], plan[ROLLBACK_PLAN_LEN], legs[ROLLBACK_LEGS_LEN], page[ROLLBACK_PAGE_LEN];
static uint8_t out[ROLLBACK_OUT_LEN];
static rollback_leg structs[ROLLBACK_LEG_STRUCTS_LEN];
static file book, run;
static rollback_reading device;
static volatile uint64_t code;

static void nothing(void) {
    code = 0;
}

static void read_book(void) {
    rollback_reading r = rollback_read(book.bytes, book.length, table, ROLLBACK_TABLE_LEN, slots, ROLLBACK_SLOTS_LEN,
                                       weights, ROLLBACK_WEIGHTS_LEN);
    code = r.code;
}

static void check(void) {
    rollback_checking r = rollback_check(book.bytes, book.length, table, ROLLBACK_TABLE_LEN, slots,
                                         ROLLBACK_SLOTS_LEN, weights, ROLLBACK_WEIGHTS_LEN);
    code = r.code;
}

static void forecast(void) {
    rollback_forecasted r = rollback_forecast(book.bytes, book.length, 32);
    code = r.code;
}

/* One to four forward commands and all states: where no two commands undo them, rows of three are tried. */
static void find(void) {
    static const uint8_t forward[] = {0, 2, 4, 6};
    uint64_t all = device.n < 64 ? ((uint64_t)1 << device.n) - 1 : ~(uint64_t)0;
    size_t k;
    for (k = 1; k <= sizeof forward; k++) {
        rollback_found r = rollback_find(book.bytes, book.length, forward, k, all, all, table, ROLLBACK_TABLE_LEN);
        code = r.code;
    }
}

static void assemble(void) {
    rollback_assembly r = rollback_assemble(book.bytes, book.length, run.bytes, run.length, table, ROLLBACK_TABLE_LEN,
                                            slots, ROLLBACK_SLOTS_LEN, weights, ROLLBACK_WEIGHTS_LEN,
                                            plan, ROLLBACK_PLAN_LEN, legs, ROLLBACK_LEGS_LEN);
    code = r.code;
}

static void assemble_legs(void) {
    rollback_assembly r =
        rollback_assemble_legs(book.bytes, book.length, run.bytes, run.length, table, ROLLBACK_TABLE_LEN,
                               slots, ROLLBACK_SLOTS_LEN, weights, ROLLBACK_WEIGHTS_LEN, plan, ROLLBACK_PLAN_LEN,
                               structs, ROLLBACK_LEG_STRUCTS_LEN);
    code = r.code;
}

static void assemble_small(void) {
    rollback_assembly r =
        rollback_assemble_small(book.bytes, book.length, run.bytes, run.length, scratch, ROLLBACK_SCRATCH_LEN,
                                plan, ROLLBACK_PLAN_LEN, legs, ROLLBACK_LEGS_LEN);
    code = r.code;
}

static void lay_out(void) {
    rollback_paged r = rollback_page(book.bytes, book.length, run.bytes, run.length, table, ROLLBACK_TABLE_LEN,
                                     slots, ROLLBACK_SLOTS_LEN, weights, ROLLBACK_WEIGHTS_LEN,
                                     plan, ROLLBACK_PLAN_LEN, legs, ROLLBACK_LEGS_LEN, page, ROLLBACK_PAGE_LEN);
    code = r.assembly.code;
}

static void write_book(void) {
    rollback_writing r = rollback_write(device.n, device.m, device.items, table, ROLLBACK_TABLE_LEN,
                                        slots, ROLLBACK_SLOTS_LEN, weights, ROLLBACK_WEIGHTS_LEN,
                                        out, ROLLBACK_OUT_LEN);
    code = r.code;
}

static void ridge(void) {
    rollback_lookup r = rollback_ridge(16, 2);
    code = r.code;
}

static void portable(void) {
    rollback_lookup r = rollback_portable(16, 2);
    code = r.code;
}

static void (*caller)(void);

/* Calls below a gap that a thread's own start and end don't reach across. */
static void *below(void *p) {
    volatile uint8_t gap[GAP];
    size_t i = code % GAP;
    gap[i] = 0;
    caller();
    code = gap[i];
    return p;
}

/* The bytes of the stack from its top down to the lowest that a thread with f has changed. */
static size_t depth(uint8_t *stack, void (*f)(void)) {
    pthread_attr_t attributes;
    pthread_t thread;
    size_t i = 0;
    memset(stack, PAINT, STACK);
    caller = f;
    if (pthread_attr_init(&attributes) != 0 || pthread_attr_setstack(&attributes, stack, STACK) != 0 ||
        pthread_create(&thread, &attributes, below, NULL) != 0 || pthread_join(thread, NULL) != 0) {
        fprintf(stderr, "no thread\n");
        exit(2);
    }
    pthread_attr_destroy(&attributes);
    while (i < STACK && stack[i] == PAINT)
        i++;
    return STACK - i;
}

static const struct {
    const char *name;
    void (*f)(void);
    size_t stated;
} calls[] = {
    {"rollback_read", read_book, ROLLBACK_READ_STACK},
    {"rollback_check", check, ROLLBACK_CHECK_STACK},
    {"rollback_forecast", forecast, ROLLBACK_FORECAST_STACK},
    {"rollback_find", find, ROLLBACK_FIND_STACK},
    {"rollback_assemble", assemble, ROLLBACK_ASSEMBLE_STACK},
    {"rollback_assemble_legs", assemble_legs, ROLLBACK_ASSEMBLE_LEGS_STACK},
    {"rollback_assemble_small", assemble_small, ROLLBACK_ASSEMBLE_SMALL_STACK},
    {"rollback_page", lay_out, ROLLBACK_PAGE_STACK},
    {"rollback_write", write_book, ROLLBACK_WRITE_STACK},
    {"rollback_ridge", ridge, ROLLBACK_RIDGE_STACK},
    {"rollback_portable", portable, ROLLBACK_PORTABLE_STACK},
};
enum { CALLS = sizeof calls / sizeof calls[0] };
static size_t deepest[CALLS];

/* Every call on the book and run at hand. */
static void measure(uint8_t *stack, size_t empty) {
    size_t used, c;
    device = rollback_read(book.bytes, book.length, table, ROLLBACK_TABLE_LEN, slots, ROLLBACK_SLOTS_LEN,
                           weights, ROLLBACK_WEIGHTS_LEN);
    for (c = 0; c < CALLS; c++) {
        /* Once here first, so that the linker's late binding is not counted. */
        calls[c].f();
        used = depth(stack, calls[c].f) - empty;
        if (used > deepest[c])
            deepest[c] = used;
    }
}

int main(int argc, char **argv) {
    size_t empty, at = 0, c;
    void *stack;
    int a, status = 0;
    if (argc != 2 && (argc < 3 || argc % 2 == 0)) {
        fprintf(stderr, "usage: %s BOOK RUN [BOOK RUN ...], or %s CASES\n", argv[0], argv[0]);
        return 2;
    }
    if (posix_memalign(&stack, 4096, STACK) != 0)
        return 2;
    empty = depth(stack, nothing);
    for (a = 1; argc > 2 && a < argc; a += 2) {
        book = load(argv[a]);
        run = load(argv[a + 1]);
        measure(stack, empty);
        free(book.bytes);
        free(run.bytes);
    }
    if (argc == 2) {
        file cases = load(argv[1]);
        pair p;
        while (next_case(cases, &at, &p)) {
            book.bytes = (uint8_t *)p.bytes;
            book.length = p.book;
            run.bytes = book.bytes + p.book;
            run.length = p.run;
            measure(stack, empty);
        }
        free(cases.bytes);
    }
    for (c = 0; c < CALLS; c++) {
        printf("%s %lu\n", calls[c].name, (unsigned long)deepest[c]);
        if (deepest[c] > calls[c].stated) {
            fprintf(stderr, "%s: more than the %lu bytes that rollback.h says\n", calls[c].name,
                    (unsigned long)calls[c].stated);
            status = 1;
        }
    }
    free(stack);
    return status;
}
