/*
 * Every call on valid and damaged input, in buffers that can't be left: guard pages|heap CASES CALLS [SEED]
 *
 * pages  Each buffer begins or ends at a page that can't be touched; of those that end there, some are no
 *        better aligned than their elements. Inputs are read-only. Each call is made twice, on other
 *        addresses and other former contents; the second time, the buffers that a refusal leaves are
 *        read-only too. Both answers and what was written must be equal, and all else as before. With a
 *        scratch they must also be those of rollback_assemble; what its 64 masks hold afterwards is free. What
 *        finding gives must make an item that checking accepts; where it gives 15, the item without a reverse
 *        command must not be accepted.
 * heap   Buffers are of malloc and of exact length, and lent ones hold nothing yet: for valgrind.
 *
 * CASES holds the books and runs that all inputs start from. The last line gives the numbers of calls and of
 * repeated refusals. Status 1 if anything is wrong, or if 50,000 calls and more have not met every code.
 */
#define _DEFAULT_SOURCE
#include "load.h"
#include "rollback.h"

#include <signal.h>
#include <string.h>
#include <sys/mman.h>
#include <sys/wait.h>
#include <unistd.h>

enum { PAGE = 4096, BOOK_ROOM = 10 * PAGE, CALLS = 11, CODES = 16 };

/* What assembling is lent for the legs, whether a page, and whether a scratch in place of the book's buffers. */
enum { AS_BYTES, AS_STRUCTS, ON_PAPER, WITH_SCRATCH, FORMS };

static int heap;
static uint64_t state;
static unsigned long calls_made, refusals_repeated;
static unsigned long met[CALLS][CODES];
static const char *volatile now = "start";

static uint64_t word(void) {
    uint64_t z = state += 0x9e3779b97f4a7c15u;
    z = (z ^ (z >> 30)) * 0xbf58476d1ce4e5b9u;
    z = (z ^ (z >> 27)) * 0x94d049bb133111ebu;
    return z ^ (z >> 31);
}

static size_t below(size_t end) {
    return (size_t)(word() % end);
}

static void fail(const char *what) {
    printf("%s: %s, after %lu calls\n", now, what, calls_made);
    fflush(stdout);
    _exit(1);
}

static void on_fault(int signal) {
    (void)signal;
    fail("touched a page that it may not touch");
}

/* A buffer in pages of its own between two that can't be touched. */
typedef struct {
    uint8_t *pages;
    size_t room;
    uint8_t *at;
    size_t bytes;
    uint8_t fill;
} area;

static area book, run, forward, table, slots, weights, plan, legs, structs, paper, scratch;
static area write_table, write_slots, write_weights, out;

static void map(area *a, size_t room) {
    uint8_t *all;
    a->room = room;
    a->at = NULL;
    if (heap)
        return;
    all = mmap(NULL, room + 2 * PAGE, PROT_NONE, MAP_PRIVATE | MAP_ANONYMOUS, -1, 0);
    if (all == MAP_FAILED) {
        perror("mmap");
        exit(2);
    }
    a->pages = all + PAGE;
}

static void allow(area *a, int protection) {
    if (!heap && mprotect(a->pages, a->room, protection) != 0) {
        perror("mprotect");
        exit(2);
    }
}

/* So many bytes at the start or the end of the pages, all of which hold the fill. */
static void lend(area *a, size_t bytes, int at_end, uint8_t fill) {
    a->bytes = bytes;
    a->fill = fill;
    if (heap) {
        free(a->at);
        a->at = bytes == 0 ? NULL : malloc(bytes);
        if (bytes != 0 && a->at == NULL)
            exit(2);
        return;
    }
    allow(a, PROT_READ | PROT_WRITE);
    memset(a->pages, fill, a->room);
    a->at = at_end ? a->pages + a->room - bytes : a->pages;
}

/* An input whose first bytes are these. */
static void give(area *a, const void *contents, size_t given, size_t bytes, int at_end) {
    lend(a, bytes, at_end, (uint8_t)word());
    if (given > bytes)
        given = bytes;
    if (given != 0)
        memcpy(a->at, contents, given);
    allow(a, PROT_READ);
}

/* Null where there is nothing. */
static void *pointer(const area *a) {
    return a->bytes == 0 ? NULL : a->at;
}

/* Everything in the pages but the buffer's first bytes is as it was. */
static void kept(const area *a, size_t used) {
    static uint8_t same[BOOK_ROOM];
    size_t before;
    if (heap)
        return;
    before = (size_t)(a->at - a->pages);
    memset(same, a->fill, a->room);
    if (memcmp(a->pages, same, before) != 0)
        fail("wrote before a buffer");
    if (memcmp(a->at + used, same, a->room - before - used) != 0)
        fail("changed what it leaves");
}

/* Reads all of it, so that valgrind sees bytes that were never set. */
static void look(const void *bytes, size_t length) {
    static volatile unsigned long odd;
    const uint8_t *at = bytes;
    size_t i;
    for (i = 0; i < length; i++)
        if (at[i] & 1)
            odd++;
}

/* What the first of two calls wrote; the second must write the same. */
typedef struct {
    uint8_t bytes[BOOK_ROOM];
    size_t length;
} copy;

static void wrote(const area *a, size_t used, copy *c, int second) {
    look(a->at, used);
    if (!second) {
        if (used != 0)
            memcpy(c->bytes, a->at, used);
        c->length = used;
    } else if (c->length != used || (used != 0 && memcmp(c->bytes, a->at, used) != 0)) {
        fail("wrote something else the second time");
    }
    kept(a, used);
}

/* The lengths of the lent buffers, in elements. */
typedef struct {
    size_t table, slots, weights, plan, legs, structs, paper, scratch, write_table, write_slots, write_weights, out;
} lengths;

static size_t length(size_t stated, int is_short) {
    if (is_short)
        return below(3) == 0 ? below(stated) : below(8) == 0 ? 0 : stated - 1;
    return below(4) == 0 ? stated + 1 + below(40) : stated;
}

static lengths some_lengths(void) {
    size_t is_short = below(7) == 0 ? 1 + below(7) : 0, writing = below(8) == 0 ? 1 + below(4) : 0;
    lengths l;
    l.table = length(ROLLBACK_TABLE_LEN, is_short == 1);
    l.slots = length(ROLLBACK_SLOTS_LEN, is_short == 2);
    l.plan = length(ROLLBACK_PLAN_LEN, is_short == 3);
    l.legs = length(ROLLBACK_LEGS_LEN, is_short == 4);
    l.structs = length(ROLLBACK_LEG_STRUCTS_LEN, is_short == 4);
    l.paper = length(ROLLBACK_PAGE_LEN, is_short == 5);
    l.weights = length(ROLLBACK_WEIGHTS_LEN, is_short == 6);
    l.scratch = length(ROLLBACK_SCRATCH_LEN, is_short == 7);
    l.write_table = length(ROLLBACK_TABLE_LEN, writing == 1);
    l.write_slots = length(ROLLBACK_SLOTS_LEN, writing == 2);
    l.out = length(ROLLBACK_OUT_LEN, writing == 3);
    l.write_weights = length(ROLLBACK_WEIGHTS_LEN, writing == 4);
    return l;
}

/* Whether a call with this code leaves the book in table, slots and weights. */
static int leaves_the_book(uint64_t code) {
    return code == ROLLBACK_E_DONE || (code >= ROLLBACK_E_NOT_REVERSE_PLAN && code != ROLLBACK_E_ALL_ONES);
}

static void count(size_t call, uint64_t code, int on_read_only) {
    calls_made++;
    if (code >= CODES)
        fail("gave an unknown code");
    met[call][code]++;
    refusals_repeated += on_read_only != 0;
}

/* What was answered for the book at hand: by reading, by checking, and to the last forecast. */
static rollback_checking device, checked;
static rollback_forecasted forecast;

/* Lends what reading fills; read-only where it is to stay. */
static void lend_for_book(lengths l, int at_end, int untouched) {
    lend(&table, l.table * sizeof(uint64_t), at_end, (uint8_t)word());
    lend(&slots, l.slots, at_end, (uint8_t)word());
    lend(&weights, l.weights * sizeof(uint16_t), at_end, (uint8_t)word());
    if (untouched) {
        allow(&table, PROT_READ);
        allow(&slots, PROT_READ);
        allow(&weights, PROT_READ);
    }
}

/* What reading fills holds the book of `device`, or all stays. */
static void wrote_book(uint64_t code, copy *tables, copy *all_slots, copy *all_weights, int second) {
    if (leaves_the_book(code)) {
        wrote(&table, device.n * device.m * sizeof(uint64_t), tables, second);
        wrote(&slots, device.items * ROLLBACK_SLOT_LEN, all_slots, second);
        wrote(&weights, device.m * sizeof(uint16_t), all_weights, second);
    } else {
        kept(&table, 0);
        kept(&slots, 0);
        kept(&weights, 0);
    }
}

/* As checking gives it. Reading makes no units. */
static rollback_checking read_book(lengths l) {
    rollback_reading r = rollback_read(pointer(&book), book.bytes, pointer(&table), l.table, pointer(&slots), l.slots,
                                       pointer(&weights), l.weights);
    rollback_checking c;
    c.code = r.code;
    c.place = r.place;
    c.n = r.n;
    c.m = r.m;
    c.items = r.items;
    c.units = 0;
    return c;
}

static rollback_checking check_book(lengths l) {
    return rollback_check(pointer(&book), book.bytes, pointer(&table), l.table, pointer(&slots), l.slots,
                          pointer(&weights), l.weights);
}

/* Reading or checking, once or for the second time after the answer `first`. */
static rollback_checking reading(size_t call, lengths l, int at_end, const rollback_checking *first) {
    static copy tables, all_slots, all_weights;
    rollback_checking r;
    int second = first != NULL, untouched = second && !leaves_the_book(first->code);
    lend_for_book(l, at_end, untouched);
    now = call == 0 ? "rollback_read" : "rollback_check";
    r = (call == 0 ? read_book : check_book)(l);
    count(call, r.code, untouched);
    if (second && (r.code != first->code || r.place != first->place || r.n != first->n || r.m != first->m ||
                   r.items != first->items || r.units != first->units))
        fail("gave another answer the second time");
    if (r.code != 0 && (r.n != 0 || r.m != 0 || r.items != 0))
        fail("refused with numbers that are not 0");
    if (!leaves_the_book(r.code) && r.units != 0)
        fail("made units though it judged no item");
    *(call == 0 ? &device : &checked) = r;
    wrote_book(r.code, &tables, &all_slots, &all_weights, second);
    return r;
}

/* A forecast for runs of so many commands, after reading and checking. It is lent nothing. */
static rollback_forecasted forecasting(uint64_t commands, const rollback_forecasted *first) {
    rollback_forecasted r;
    now = "rollback_forecast";
    r = rollback_forecast(pointer(&book), book.bytes, commands);
    count(2, r.code, 0);
    if (first != NULL && (r.code != first->code || r.place != first->place || r.units != first->units ||
                          r.plan_bytes != first->plan_bytes || r.legs != first->legs))
        fail("gave another answer the second time");
    if (r.code != 0 && (r.units != 0 || r.plan_bytes != 0 || r.legs != 0))
        fail("refused with numbers that are not 0");
    if (r.code == 0 && (commands > 32 || r.place != 0 || r.units > 65536 || r.plan_bytes > 8 * commands ||
                        r.legs != commands))
        fail("gave numbers that no book has");
    if (r.code == ROLLBACK_E_RUN && (commands <= 32 || r.place != 0))
        fail("gave a wrong code 9");
    if (device.code == 0 && r.code != 0 && r.code != ROLLBACK_E_RUN)
        fail("refused a book that reading takes");
    if (device.code != 0 && device.code != ROLLBACK_E_SHORT_BUFFER &&
        (r.code != device.code || r.place != device.place))
        fail("gave another code or place than reading");
    if (r.code == 0 && (checked.code == 0 ? r.units != checked.units : r.units < checked.units))
        fail("gave fewer units than checking made, or more for an accepted book");
    forecast = r;
    return r;
}

/* What an item is to have, but for its reverse. */
typedef struct {
    uint8_t forward[9];
    size_t count;
    uint64_t phi, psi;
} sought;

/* What reading and checking answer to the book at hand with buffers of the stated lengths, and what these hold then. */
static rollback_reading whole;
static rollback_checking judged;
static uint64_t whole_table[ROLLBACK_TABLE_LEN];
static uint16_t whole_weights[ROLLBACK_WEIGHTS_LEN];
static uint8_t whole_slots[ROLLBACK_SLOTS_LEN];

static void read_whole(void) {
    whole = rollback_read(pointer(&book), book.bytes, whole_table, ROLLBACK_TABLE_LEN, whole_slots, ROLLBACK_SLOTS_LEN,
                          whole_weights, ROLLBACK_WEIGHTS_LEN);
    judged = rollback_check(pointer(&book), book.bytes, whole_table, ROLLBACK_TABLE_LEN, whole_slots,
                            ROLLBACK_SLOTS_LEN, whole_weights, ROLLBACK_WEIGHTS_LEN);
}

/* A mask of the book's states, or now and then another one. */
static uint64_t some_mask(void) {
    uint64_t all = whole.n < 64 ? ((uint64_t)1 << whole.n) - 1 : ~(uint64_t)0, mask = word();
    return below(20) == 0 ? mask : below(2) ? all : below(2) ? mask & all : mask & word() & all;
}

/* What an item of the book has, or commands and masks of its device, now and then others. */
static sought some_sought(void) {
    sought s;
    size_t i;
    s.count = below(20) == 0 ? below(10) : 1 + below(below(4) == 0 ? 8 : 2);
    for (i = 0; i < sizeof s.forward; i++)
        s.forward[i] = (uint8_t)(below(40) == 0 || whole.m == 0 ? word() : below(whole.m));
    s.phi = some_mask();
    s.psi = some_mask();
    if (whole.items != 0 && below(2) == 0) {
        const uint8_t *slot = whole_slots + ROLLBACK_SLOT_LEN * below(whole.items);
        s.count = slot[0];
        memcpy(s.forward, slot + 2, 8);
        memcpy(&s.phi, slot + 18, 8);
        memcpy(&s.psi, slot + 26, 8);
    }
    return s;
}

/*
 * What checking answers to a book of that device and one item: what was sought, with these commands as reverse; 14
 * where no such book can be written.
 */
static uint64_t code_with_item(const sought *s, const uint8_t *commands, uint64_t count) {
    static uint64_t entries[ROLLBACK_TABLE_LEN];
    static uint16_t weight_of[ROLLBACK_WEIGHTS_LEN];
    static uint8_t items[ROLLBACK_SLOTS_LEN], bytes[ROLLBACK_OUT_LEN];
    rollback_writing w;
    memset(items, 0, ROLLBACK_SLOT_LEN);
    items[0] = (uint8_t)s->count;
    items[1] = (uint8_t)count;
    memcpy(items + 2, s->forward, s->count);
    memcpy(items + 10, commands, count);
    memcpy(items + 18, &s->phi, 8);
    memcpy(items + 26, &s->psi, 8);
    w = rollback_write(whole.n, whole.m, 1, whole_table, ROLLBACK_TABLE_LEN, items, ROLLBACK_SLOTS_LEN,
                       whole_weights, ROLLBACK_WEIGHTS_LEN, bytes, ROLLBACK_OUT_LEN);
    if (w.code != 0)
        return ROLLBACK_E_ITEM_FIELDS;
    return rollback_check(bytes, w.length, entries, ROLLBACK_TABLE_LEN, items, ROLLBACK_SLOTS_LEN,
                          weight_of, ROLLBACK_WEIGHTS_LEN)
        .code;
}

/* Finding in the book that was read as a whole, once or for the second time after the answer `first`. */
static rollback_found finding(const sought *s, lengths l, int at_end, const rollback_found *first) {
    static copy tables;
    rollback_found r;
    size_t i;
    int second = first != NULL, untouched = second && !leaves_the_book(first->code);
    give(&forward, s->forward, s->count, s->count, at_end);
    lend(&table, l.table * sizeof(uint64_t), at_end, (uint8_t)word());
    if (untouched)
        allow(&table, PROT_READ);
    now = "rollback_find";
    r = rollback_find(pointer(&book), book.bytes, pointer(&forward), s->count, s->phi, s->psi, pointer(&table), l.table);
    count(3, r.code, untouched);
    look(r.commands, sizeof r.commands);
    if (second && (r.code != first->code || r.place != first->place || r.count != first->count ||
                   memcmp(r.commands, first->commands, sizeof r.commands) != 0))
        fail("gave another answer the second time");
    if (r.count > (r.code == 0 ? ROLLBACK_FOUND_LEN : 0))
        fail("gave over 3 commands, or refused with a count that is not 0");
    for (i = r.count; i < ROLLBACK_FOUND_LEN; i++)
        if (r.commands[i] != 0)
            fail("gave an unused command that is not 0");
    if (l.table < ROLLBACK_TABLE_LEN) {
        if (r.code != ROLLBACK_E_SHORT_BUFFER || r.place != 0)
            fail("took a short table");
    } else if (judged.code != 0) {
        if (r.code != judged.code || r.place != judged.place)
            fail("gave another code or place than checking");
    } else if ((r.code != 0 && r.code < ROLLBACK_E_ITEM_FIELDS) || r.place != 0) {
        fail("refused a book that checking takes");
    }
    if (leaves_the_book(r.code))
        wrote(&table, whole.n * whole.m * sizeof(uint64_t), &tables, second);
    else
        kept(&table, 0);
    if (leaves_the_book(r.code) && memcmp(table.at, whole_table, whole.n * whole.m * sizeof(uint64_t)) != 0)
        fail("left another table than reading");
    if (r.code == 0 || r.code >= ROLLBACK_E_ITEM_FIELDS) {
        uint64_t with_item = code_with_item(s, r.commands, r.count);
        if (r.code == 0 && with_item != 0)
            fail("gave a reverse that makes no accepted item");
        if ((r.code == ROLLBACK_E_ITEM_FIELDS) != (with_item == ROLLBACK_E_ITEM_FIELDS))
            fail("gave 14 for what an item may hold, or not for what none may");
        if (r.code == ROLLBACK_E_NO_REVERSE && with_item == 0)
            fail("gave 15, though the item without a reverse command is accepted");
    }
    return r;
}

/* The sum of the weights of so many commands of the plan, as both are lent. */
static uint64_t plan_sum(uint64_t commands) {
    const uint16_t *weight = (const void *)weights.at;
    uint64_t i, sum = 0;
    for (i = 0; i < commands; i++) {
        if (plan.at[i] >= device.m)
            fail("gave a command that the device lacks");
        sum += weight[plan.at[i]];
    }
    return sum;
}

static int other_answer(const rollback_assembly *r, const rollback_assembly *expected) {
    return r->code != expected->code || r->place != expected->place || r->commands != expected->commands ||
           r->legs != expected->legs || r->sum != expected->sum ||
           memcmp(r->fewest, expected->fewest, sizeof r->fewest) != 0;
}

/*
 * What was answered and written with a scratch, held to rollback_assemble with other buffers of the stated
 * lengths, or with a short one where a buffer was short.
 */
static void as_the_first_form(const rollback_assembly *r, lengths l) {
    static uint64_t entries[ROLLBACK_TABLE_LEN];
    static uint16_t weight_of[ROLLBACK_WEIGHTS_LEN];
    static uint8_t items[ROLLBACK_SLOTS_LEN], commands[ROLLBACK_PLAN_LEN], leg_bytes[ROLLBACK_LEGS_LEN];
    int is_short = l.scratch < ROLLBACK_SCRATCH_LEN || l.plan < ROLLBACK_PLAN_LEN || l.legs < ROLLBACK_LEGS_LEN;
    rollback_assembly expected =
        rollback_assemble(pointer(&book), book.bytes, pointer(&run), run.bytes, entries, ROLLBACK_TABLE_LEN,
                          items, ROLLBACK_SLOTS_LEN, weight_of, ROLLBACK_WEIGHTS_LEN,
                          commands, is_short ? 0 : ROLLBACK_PLAN_LEN, leg_bytes, ROLLBACK_LEGS_LEN);
    if (other_answer(r, &expected))
        fail("gave another answer than rollback_assemble");
    if (r->code == 0 && (memcmp(plan.at, commands, r->commands) != 0 || memcmp(legs.at, leg_bytes, 3 * r->legs) != 0))
        fail("gave another plan or other legs than rollback_assemble");
}

/* Assembling in one of its forms. Without a page the length is 0. */
static rollback_paged assembling(int form, lengths l, int at_end, const rollback_paged *first) {
    static const char *const names[FORMS] = {"rollback_assemble", "rollback_assemble_legs", "rollback_page",
                                             "rollback_assemble_small"};
    static copy tables, all_slots, all_weights, commands, all_legs, lines;
    area *lent_legs = form == AS_STRUCTS ? &structs : &legs;
    rollback_paged p;
    const rollback_assembly *r = &p.assembly, *before = first == NULL ? NULL : &first->assembly;
    int second = first != NULL, refused = second && before->code != 0;
    if (form == WITH_SCRATCH) {
        lend(&scratch, l.scratch * sizeof(uint64_t), at_end, (uint8_t)word());
        if (refused && before->code == ROLLBACK_E_SHORT_BUFFER)
            allow(&scratch, PROT_READ);
    } else {
        lend_for_book(l, at_end, refused && !leaves_the_book(before->code));
    }
    lend(&plan, l.plan, at_end, (uint8_t)word());
    lend(lent_legs, form == AS_STRUCTS ? l.structs * sizeof(rollback_leg) : l.legs, at_end, (uint8_t)word());
    lend(&paper, l.paper, at_end, (uint8_t)word());
    if (refused) {
        allow(&plan, PROT_READ);
        allow(lent_legs, PROT_READ);
        allow(&paper, PROT_READ);
    }
    now = names[form];
    p.length = 0;
    if (form == AS_STRUCTS)
        p.assembly = rollback_assemble_legs(pointer(&book), book.bytes, pointer(&run), run.bytes, pointer(&table),
                                            l.table, pointer(&slots), l.slots, pointer(&weights), l.weights,
                                            pointer(&plan), l.plan, pointer(&structs), l.structs);
    else if (form == AS_BYTES)
        p.assembly = rollback_assemble(pointer(&book), book.bytes, pointer(&run), run.bytes, pointer(&table), l.table,
                                       pointer(&slots), l.slots, pointer(&weights), l.weights, pointer(&plan), l.plan,
                                       pointer(&legs), l.legs);
    else if (form == WITH_SCRATCH)
        p.assembly = rollback_assemble_small(pointer(&book), book.bytes, pointer(&run), run.bytes, pointer(&scratch),
                                             l.scratch, pointer(&plan), l.plan, pointer(&legs), l.legs);
    else
        p = rollback_page(pointer(&book), book.bytes, pointer(&run), run.bytes, pointer(&table), l.table,
                          pointer(&slots), l.slots, pointer(&weights), l.weights, pointer(&plan), l.plan,
                          pointer(&legs), l.legs, pointer(&paper), l.paper);
    count(4 + (size_t)form, r->code, refused);
    look(r->fewest, sizeof r->fewest);
    if (second && (other_answer(r, before) || p.length != first->length))
        fail("gave another answer the second time");
    if (r->code != 0 && (r->commands != 0 || r->legs != 0 || r->sum != 0))
        fail("refused with counts or a sum that are not 0");
    if (form == WITH_SCRATCH)
        as_the_first_form(r, l);
    else if (r->code == 0 && r->sum != plan_sum(r->commands))
        fail("gave a sum that is not that of its commands' weights");
    if (r->code == 0 && (forecast.code != 0 || r->commands > forecast.plan_bytes || r->legs > forecast.legs))
        fail("gave a plan that is longer than the forecast");
    if (p.length != (form == ON_PAPER ? r->legs * ROLLBACK_PAGE_LINE_LEN : 0))
        fail("gave a length that is not that of its legs' lines");
    if (form == WITH_SCRATCH)
        kept(&scratch, r->code == ROLLBACK_E_SHORT_BUFFER ? 0 : ROLLBACK_SCRATCH_LEN * sizeof(uint64_t));
    else
        wrote_book(r->code, &tables, &all_slots, &all_weights, second);
    wrote(&plan, r->commands, &commands, second);
    wrote(lent_legs, r->legs * 3, &all_legs, second);
    wrote(&paper, p.length, &lines, second);
    return p;
}

static rollback_writing writing(uint64_t n, uint64_t m, uint64_t items, lengths l, int at_end,
                                const rollback_writing *first) {
    static copy books;
    rollback_writing r;
    int second = first != NULL, refused = second && first->code != 0;
    lend(&out, l.out, at_end, (uint8_t)word());
    if (refused)
        allow(&out, PROT_READ);
    now = "rollback_write";
    r = rollback_write(n, m, items, pointer(&write_table), l.write_table, pointer(&write_slots), l.write_slots,
                       pointer(&write_weights), l.write_weights, pointer(&out), l.out);
    count(8, r.code, refused);
    if (second && (r.code != first->code || r.place != first->place || r.length != first->length))
        fail("gave another answer the second time");
    if (r.code != 0 && r.length != 0)
        fail("refused with a length that is not 0");
    wrote(&out, r.length, &books, second);
    return r;
}

/* A few bytes changed, cut off, put in or doubled; the room is BOOK_ROOM. */
static size_t damage(uint8_t *bytes, size_t length) {
    size_t at = length == 0 ? 0 : below(length), size = 1 + below(40);
    switch (below(7)) {
    case 0:
        return at;
    case 1:
        return length == 0 ? 0 : length - 1 - below(length < 8 ? length : 8);
    case 2:
        while (size-- > 0 && length < ROLLBACK_BOOK_LEN + 8)
            bytes[length++] = (uint8_t)(below(2) ? word() : below(5));
        return length;
    case 3:
        if (size > length - at)
            size = length - at;
        if (length + size <= BOOK_ROOM)
            memmove(bytes + at + size, bytes + at, length - at);
        else
            size = 0;
        return length + size;
    default:
        for (size = 1 + below(3); size > 0 && length > 0; size--) {
            at = below(2) ? below(length) : below(length < 200 ? length : 200);
            bytes[at] = (uint8_t)(below(2) ? word() : bytes[at] + below(5) - 2);
        }
        return length;
    }
}

static uint64_t some_number(uint64_t usual) {
    return below(6) != 0 ? usual : below(2) ? usual + below(5) - 2 : below(2) ? below(100) : word() >> below(64);
}

/* A lookup of a device with so many states and commands; whether a mask of its table may be empty. */
static void looking_up(size_t call, const char *name, rollback_lookup (*lookup)(uint64_t, uint64_t),
                       size_t states, size_t commands, int may_be_empty) {
    uint64_t number = below(4) ? below(states) : some_number(states - 1);
    uint64_t command = below(4) ? below(commands) : some_number(commands - 1);
    uint64_t expected = number >= states || command >= commands ? 5 : 0;
    rollback_lookup r;
    now = name;
    r = lookup(number, command);
    count(call, r.code, 0);
    if (r.code != expected || r.place != 0 || (expected != 0 ? r.mask != 0 : r.mask == 0 && !may_be_empty))
        fail("gave a wrong answer");
}

/* All calls on one book and run. */
static void all_calls(const uint8_t *book_bytes, size_t book_length, const uint8_t *run_bytes, size_t run_length) {
    /* What the last good book was read to. */
    static uint8_t entries[ROLLBACK_TABLE_LEN * sizeof(uint64_t)], items[ROLLBACK_SLOTS_LEN];
    static uint16_t weight_of[ROLLBACK_WEIGHTS_LEN];
    static uint64_t numbers[3];
    lengths l = some_lengths();
    rollback_checking r;
    rollback_forecasted some, of_run;
    sought s;
    rollback_found f;
    rollback_paged a;
    rollback_writing w;
    uint64_t n, m, all, commands = below(3) ? below(33) : some_number(32);
    int at_end = (int)below(2), form;
    give(&book, book_bytes, book_length, book_length, at_end);
    give(&run, run_bytes, run_length, run_length, at_end);
    r = reading(0, l, at_end, NULL);
    if (r.code == 0) {
        memcpy(entries, table.at, r.n * r.m * sizeof(uint64_t));
        memcpy(items, slots.at, r.items * ROLLBACK_SLOT_LEN);
        memcpy(weight_of, weights.at, r.m * sizeof(uint16_t));
        numbers[0] = r.n;
        numbers[1] = r.m;
        numbers[2] = r.items;
    }
    reading(0, l, !at_end, &r);
    r = reading(1, l, at_end, NULL);
    reading(1, l, !at_end, &r);

    /* For some number of commands and for the run's own; the second time with the book elsewhere. */
    some = forecasting(commands, NULL);
    of_run = forecasting(run_length > 4 ? run_bytes[4] : 0, NULL);
    give(&book, book_bytes, book_length, book_length, !at_end);
    forecasting(commands, &some);
    forecasting(run_length > 4 ? run_bytes[4] : 0, &of_run);
    read_whole();
    s = some_sought();
    f = finding(&s, l, at_end, NULL);
    finding(&s, l, !at_end, &f);
    for (form = AS_BYTES; form < FORMS; form++) {
        a = assembling(form, l, at_end, NULL);
        assembling(form, l, !at_end, &a);
    }

    /* Writing it back, with a change now and then. What is ignored is not given. */
    n = some_number(numbers[0]);
    m = some_number(numbers[1]);
    all = some_number(numbers[2]);
    if (below(5) == 0)
        entries[below(64)] = (uint8_t)word();
    if (below(5) == 0)
        items[below(120)] ^= (uint8_t)(1u << below(8));
    if (below(8) == 0)
        weight_of[below(4)] = (uint16_t)(below(2) ? below(4) : below(2) ? 998 + below(6) : word());
    give(&write_table, entries, n <= 64 && m <= 32 ? n * m * sizeof(uint64_t) : 0,
         l.write_table * sizeof(uint64_t), at_end);
    give(&write_slots, items, all <= 64 ? all * ROLLBACK_SLOT_LEN : 0, l.write_slots, at_end);
    give(&write_weights, weight_of, m <= 32 ? m * sizeof(uint16_t) : 0, l.write_weights * sizeof(uint16_t), at_end);
    w = writing(n, m, all, l, at_end, NULL);
    writing(n, m, all, l, !at_end, &w);

    looking_up(9, "rollback_ridge", rollback_ridge, 64, 16, 1);
    looking_up(10, "rollback_portable", rollback_portable, 32, 12, 0);
}

/* That the pages do what they are for: each of these must end by a fault. */
static void try_pages(void) {
    int which, status;
    pid_t child;
    for (which = 0; which < 3; which++) {
        give(&plan, "plan", 4, 4, which == 1);
        child = fork();
        if (child == 0) {
            volatile uint8_t *at = plan.at;
            if (which == 0)
                at[0] = at[-1];
            else if (which == 1)
                at[0] = at[4];
            else
                at[0] = 1;
            _exit(0);
        }
        if (child < 0 || waitpid(child, &status, 0) != child || !WIFSIGNALED(status))
            fail("pages don't guard");
    }
}

int main(int argc, char **argv) {
    static const char *const names[CALLS] = {"read", "check", "forecast", "find", "assemble", "assemble_legs",
                                             "page", "assemble_small", "write", "ridge", "portable"};
    static const unsigned has[CALLS] = {0x20FF, 0x31FF, 0x22FD, 0xF1FF, 0x3FFF, 0x3FFF,
                                        0x3FFF, 0x3FFF, 0x00A3, 0x0021, 0x0021};
    static uint8_t book_bytes[BOOK_ROOM], run_bytes[BOOK_ROOM];
    file cases;
    pair *pairs;
    size_t at = 0, found = 0, which, call, code, missed = 0;
    unsigned long wanted;
    if (argc < 4 || argc > 5 || (strcmp(argv[1], "pages") != 0 && strcmp(argv[1], "heap") != 0)) {
        fprintf(stderr, "usage: guard pages|heap CASES CALLS [SEED]\n");
        return 2;
    }
    heap = strcmp(argv[1], "heap") == 0;
    cases = load(argv[2]);
    wanted = strtoul(argv[3], NULL, 10);
    state = argc == 5 ? strtoul(argv[4], NULL, 10) : 0;
    pairs = calloc(cases.length / 4 + 1, sizeof *pairs);
    while (pairs != NULL && next_case(cases, &at, &pairs[found]))
        found++;
    if (found == 0 || at != cases.length) {
        fprintf(stderr, "%s: no cases\n", argv[2]);
        return 2;
    }
    map(&book, BOOK_ROOM);
    map(&run, BOOK_ROOM);
    map(&forward, PAGE);
    map(&table, 5 * PAGE);
    map(&slots, PAGE);
    map(&weights, PAGE);
    map(&plan, PAGE);
    map(&legs, PAGE);
    map(&structs, PAGE);
    map(&paper, PAGE);
    map(&scratch, PAGE);
    map(&write_table, 5 * PAGE);
    map(&write_slots, PAGE);
    map(&write_weights, PAGE);
    map(&out, BOOK_ROOM);
    if (!heap)
        try_pages();
    signal(SIGSEGV, on_fault);
    signal(SIGBUS, on_fault);
    while (calls_made < wanted) {
        size_t book_length, run_length;
        which = below(found);
        book_length = pairs[which].book;
        run_length = pairs[which].run;
        memcpy(book_bytes, pairs[which].bytes, book_length);
        memcpy(run_bytes, pairs[which].bytes + book_length, run_length);
        if (below(3) == 0)
            book_length = damage(book_bytes, book_length);
        if (below(5) == 0)
            run_length = damage(run_bytes, run_length);
        all_calls(book_bytes, book_length, run_bytes, run_length);
    }
    for (call = 0; call < CALLS; call++) {
        printf("%s:", names[call]);
        for (code = 0; code < CODES; code++)
            if (has[call] >> code & 1) {
                printf(" %lu: %lu", (unsigned long)code, met[call][code]);
                missed += met[call][code] == 0;
            } else if (met[call][code] != 0) {
                printf("\n");
                fail("gave a code that it doesn't have");
            }
        printf("\n");
    }
    if (missed != 0 && wanted >= 50000)
        fail("not every code was met");
    if (heap)
        printf("%lu calls\n", calls_made);
    else
        printf("%lu calls, %lu of them refusals repeated on read-only buffers\n", calls_made, refusals_repeated);
    free(pairs);
    free(cases.bytes);
    return 0;
}
