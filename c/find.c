/*
 * Prints the shortest reverse, of at most 3 commands, for an item that is to stand in a book:
 * find BOOK PHI PSI COMMAND...
 * The commands are the item's forward ones; they and the masks are decimal numbers, or hexadecimal ones with 0x
 * before them. A book may have any length: as by the program rollback, a byte more is judged of it than the
 * largest has. Status 0 if there is a reverse, 1 if the library refuses, 2 on bad usage or a file that can't be
 * read or written, a closed pipe too. rust/examples/find.rs does the same in Rust.
 */
#include "load.h"
#include "rollback.h"
#include "rollback_messages.h"

#include <inttypes.h>
#include <signal.h>
#include <string.h>

/* Whether it is a number up to the largest; gives it. */
static int number(const char *text, uint64_t largest, uint64_t *to) {
    static const char digits[] = "00112233445566778899aAbBcCdDeEfF";
    uint64_t base = 10;
    const char *digit;
    if (strncmp(text, "0x", 2) == 0) {
        base = 16;
        text += 2;
    }
    if (*text == '\0')
        return 0;
    for (*to = 0; *text != '\0'; text++) {
        uint64_t value = (digit = strchr(digits, *text)) == NULL ? base : (uint64_t)(digit - digits) / 2;
        if (value >= base || *to > (largest - value) / base)
            return 0;
        *to = *to * base + value;
    }
    return 1;
}

int main(int argc, char **argv) {
    static uint64_t table[ROLLBACK_TABLE_LEN];
    uint8_t *forward = malloc((size_t)argc + 1);
    size_t count = 0;
    uint64_t phi, psi, command = 0, i;
    file book;
    rollback_found r;
    int right = forward != NULL && argc >= 4 && number(argv[2], UINT64_MAX, &phi) && number(argv[3], UINT64_MAX, &psi);
    while (right && (int)count + 4 < argc) {
        right = number(argv[count + 4], UINT8_MAX, &command);
        forward[count++] = (uint8_t)command;
    }
    if (!right) {
        fprintf(stderr, "usage: find BOOK PHI PSI COMMAND...\n");
        return 2;
    }
#ifdef SIGPIPE
    signal(SIGPIPE, SIG_IGN); /* a closed pipe is a file that can't be written */
#endif
    book = load_first(argv[1], ROLLBACK_BOOK_LEN + 1);
    r = rollback_find(book.bytes, book.length, forward, count, phi, psi, table, ROLLBACK_TABLE_LEN);
    if (r.code == ROLLBACK_E_DONE) {
        printf("send");
        for (i = 0; i < r.count; i++)
            printf(" %u", r.commands[i]);
        printf(r.count == 0 ? " nothing\n" : "\n");
    } else {
        fprintf(stderr, "%s: ", r.code < ROLLBACK_E_ITEM_FIELDS ? argv[1] : "find");
        if (r.code < ROLLBACK_E_ITEM_FIELDS) {
            rollback_record record = rollback_record_at(book.bytes, book.length, r.place);
            fprintf(stderr, "%s %" PRIu64 " (%s%" PRIu64 "): ", record.name, record.number,
                    strcmp(record.name, "record") == 0 ? "at " : "record at ", r.place);
        }
        fprintf(stderr, "%s (code %" PRIu64 ")\n", rollback_message(r.code), r.code);
    }
    free(forward);
    free(book.bytes);
    if (fflush(stdout) != 0 || ferror(stdout)) {
        perror("standard output");
        return 2;
    }
    return r.code == ROLLBACK_E_DONE ? 0 : 1;
}
