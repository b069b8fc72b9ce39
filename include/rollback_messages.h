/*
 * Refusals in words: what a code means, and which record of a book stands at a place. No part of the
 * proved library; needs nothing but rollback.h.
 */
#ifndef ROLLBACK_MESSAGES_H
#define ROLLBACK_MESSAGES_H

#include "rollback.h"

#if defined(__cplusplus) || (defined(__STDC_VERSION__) && __STDC_VERSION__ >= 199901L)
#define ROLLBACK_INLINE static inline
#elif defined(__GNUC__)
#define ROLLBACK_INLINE static __inline__
#else
#define ROLLBACK_INLINE static
#endif

/* What a code of reading, checking, finding, assembling, of a forecast, of the page or of a lookup means. */
ROLLBACK_INLINE const char *rollback_message(uint64_t code) {
    static const char *const messages[] = {
        "done",
        "a lent buffer is shorter than stated",
        "the book ends before this record does",
        "a record of this kind can't stand here",
        "the record's length is not that of its kind",
        "a field is outside its range",
        "the move doesn't rise: by state, then command, it must come after the move before it",
        "a book has at most 64 items",
        "the reverse commands can get stuck, or end elsewhere than in the start",
        "a run is one record, has at most 32 commands, and only commands and states of its device",
        "nothing that the device can do fits what was sent and heard",
        "no items of the book lead from the run's end back to its start",
        "the item can never be used: its forward commands lead from no start in psi to an end in phi",
        "every weight is 1, as without this record: leave it out",
        "an item has 1 to 8 forward commands, and only commands and states of its device",
        "no reverse of at most 3 commands makes an accepted item"};
    return code < sizeof messages / sizeof messages[0] ? messages[code] : "a code that this header doesn't know";
}

/*
 * The same for rollback_write. Its place is a command where the message says weight, an index where it says
 * entry, a number where it says item. Code 5 says which of the four it is only together with the arguments,
 * so they are needed too: n, m, the table and the weights.
 */
ROLLBACK_INLINE const char *rollback_write_message(
    uint64_t code, uint64_t place, uint64_t n, uint64_t m, const uint64_t *table, const uint16_t *weights) {
    if (code == ROLLBACK_E_FIELD) {
        if (n < 1 || n > 64 || m < 1 || m > 32)
            return "a device has 1 to 64 states and 1 to 32 commands";
        if (place < m && (weights[place] < 1 || weights[place] > 1000))
            return "the command's weight is outside 1 to 1,000";
        if (n < 64 && place < n * m && table[place] >> n != 0)
            return "the entry has a state that the device lacks";
        return "a field of the item is outside its range, or an unused command byte is not 0";
    }
    return rollback_message(code);
}

/* A record's name: "device", "move", "item" or "weights", and how many of that name stand before it. */
typedef struct {
    const char *name;
    uint64_t number;
} rollback_record;

/*
 * The record at a place that a call gave for this book: item 1, move 17. Where its kind is unknown or not
 * there it is a "record", and the number is that of all records before it.
 */
ROLLBACK_INLINE rollback_record rollback_record_at(const uint8_t *book, size_t book_len, uint64_t place) {
    /* By kind; 4 is a run, and no record of a book. */
    static const char *const names[] = {"record", "device", "move", "item", "", "weights"};
    uint64_t before[6] = {0, 0, 0, 0, 0, 0};
    size_t at = 0, kind = 0;
    rollback_record record;
    for (;;) {
        kind = 0;
        if (book_len - at >= 4) {
            kind = (size_t)book[at + 2] + 256 * (size_t)book[at + 3];
            if (kind > 5 || kind == 4)
                kind = 0;
        }
        if (at >= place || book_len - at < 4)
            break;
        before[kind] += kind != 0;
        before[0] += 1;
        at += 4 + (size_t)book[at] + 256 * (size_t)book[at + 1];
        if (at > book_len)
            at = book_len;
    }
    record.name = names[kind];
    record.number = before[kind];
    return record;
}

#endif
