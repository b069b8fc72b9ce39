/*
 * Prints the plan that undoes a run, with --page its page and nothing else, with --small the plan as
 * assembled with little memory: plan [--page | --small] BOOK RUN
 * A file may have any length: as by the program rollback, a byte more is judged of it than the largest
 * book or run has. Status 0 if there is a plan, 1 if the library refuses, 2 on bad usage or a file that
 * can't be read or written, a closed pipe too. rust/examples/plan.rs does the same in Rust.
 */
#include "load.h"
#include "rollback.h"
#include "rollback_messages.h"

#include <inttypes.h>
#include <signal.h>
#include <string.h>

/* Commands in a row, or "nothing". */
static void print_row(const uint8_t *commands, uint64_t count) {
    uint64_t i;
    for (i = 0; i < count; i++)
        printf(" %u", commands[i]);
    printf(count == 0 ? " nothing\n" : "\n");
}

/* What is wrong, and in which file and record; the names are those of book and run. */
static void print_refusal(char **names, file book, const rollback_assembly *r) {
    size_t point;
    if ((r->code >= ROLLBACK_E_CUT_OFF && r->code <= ROLLBACK_E_NOT_REVERSE_PLAN) ||
        r->code == ROLLBACK_E_NOT_EFFECTIVE || r->code == ROLLBACK_E_ALL_ONES) {
        rollback_record record = rollback_record_at(book.bytes, book.length, r->place);
        fprintf(stderr, "%s: %s %" PRIu64 " (%s%" PRIu64 "): ", names[0], record.name, record.number,
                strcmp(record.name, "record") == 0 ? "at " : "record at ", r->place);
    } else {
        fprintf(stderr, "%s: ", names[1]);
    }
    fprintf(stderr, "%s (code %" PRIu64 ")", rollback_message(r->code), r->code);
    if (r->code == ROLLBACK_E_NO_CHAIN) {
        fprintf(stderr, "; there are chains from points");
        for (point = 0; point < ROLLBACK_POINTS_LEN; point++)
            if (r->fewest[point] != ROLLBACK_NONE)
                fprintf(stderr, " %lu", (unsigned long)point);
    }
    fprintf(stderr, "\n");
}

/* The number of reverse commands of an item of an accepted book: the second byte of its record's body. */
static uint8_t reverse_count(file book, unsigned item) {
    size_t at = 0;
    while (at < book.length && (book.bytes[at + 2] != 3 || item-- > 0))
        at += 4u + book.bytes[at] + 256u * book.bytes[at + 1];
    return at < book.length ? book.bytes[at + 5] : 0;
}

/* What to send, then a line for each leg. */
static void print_plan(const rollback_assembly *r, file book, const uint8_t *plan, const rollback_leg *legs) {
    uint64_t i, sent = 0;
    printf("send");
    print_row(plan, r->commands);
    for (i = 0; i < r->legs; i++) {
        uint8_t count = reverse_count(book, legs[i].item);
        printf("item %u from point %u to %u:", legs[i].item, legs[i].upper, legs[i].lower);
        print_row(plan + sent, count);
        sent += count;
    }
}

int main(int argc, char **argv) {
    static uint64_t table[ROLLBACK_TABLE_LEN];
    static uint16_t weights[ROLLBACK_WEIGHTS_LEN];
    static uint8_t slots[ROLLBACK_SLOTS_LEN], plan[ROLLBACK_PLAN_LEN];
    int on_paper = argc > 1 && strcmp(argv[1], "--page") == 0, small = argc > 1 && strcmp(argv[1], "--small") == 0;
    char **names = argv + 1 + (on_paper || small);
    file book, run;
    rollback_assembly r;
    if (argc != 3 + (on_paper || small)) {
        fprintf(stderr, "usage: plan [--page | --small] BOOK RUN\n");
        return 2;
    }
#ifdef SIGPIPE
    signal(SIGPIPE, SIG_IGN); /* a closed pipe is a file that can't be written */
#endif
    book = load_first(names[0], ROLLBACK_BOOK_LEN + 1);
    run = load_first(names[1], ROLLBACK_RUN_LEN + 1);
    if (on_paper) {
        static uint8_t legs[ROLLBACK_LEGS_LEN], page[ROLLBACK_PAGE_LEN];
        rollback_paged p = rollback_page(book.bytes, book.length, run.bytes, run.length, table, ROLLBACK_TABLE_LEN,
                                         slots, ROLLBACK_SLOTS_LEN, weights, ROLLBACK_WEIGHTS_LEN,
                                         plan, ROLLBACK_PLAN_LEN, legs, ROLLBACK_LEGS_LEN,
                                         page, ROLLBACK_PAGE_LEN);
        r = p.assembly;
        fwrite(page, 1, p.length, stdout);
    } else {
        static rollback_leg legs[ROLLBACK_LEG_STRUCTS_LEN];
        if (small) {
            static uint64_t scratch[ROLLBACK_SCRATCH_LEN];
            static uint8_t leg_bytes[ROLLBACK_LEGS_LEN];
            r = rollback_assemble_small(book.bytes, book.length, run.bytes, run.length, scratch, ROLLBACK_SCRATCH_LEN,
                                        plan, ROLLBACK_PLAN_LEN, leg_bytes, ROLLBACK_LEGS_LEN);
            memcpy(legs, leg_bytes, sizeof legs);
        } else {
            r = rollback_assemble_legs(book.bytes, book.length, run.bytes, run.length, table, ROLLBACK_TABLE_LEN,
                                       slots, ROLLBACK_SLOTS_LEN, weights, ROLLBACK_WEIGHTS_LEN,
                                       plan, ROLLBACK_PLAN_LEN, legs, ROLLBACK_LEG_STRUCTS_LEN);
        }
        if (r.code == ROLLBACK_E_DONE)
            print_plan(&r, book, plan, legs);
    }
    if (r.code != ROLLBACK_E_DONE)
        print_refusal(names, book, &r);
    free(book.bytes);
    free(run.bytes);
    if (fflush(stdout) != 0 || ferror(stdout)) {
        perror("standard output");
        return 2;
    }
    return r.code == ROLLBACK_E_DONE ? 0 : 1;
}
