/* Reads whole files, and files of cases, for the programs beside it. */
#include <stdint.h>
#include <stdio.h>
#include <stdlib.h>

typedef struct {
    uint8_t *bytes;
    size_t length;
} file;

/* The file's first bytes, so many at most, or exit with status 2. */
static inline file load_first(const char *name, size_t most) {
    file f = {NULL, 0};
    size_t room = 0, got = 1;
    FILE *in = fopen(name, "rb");
    while (in != NULL && got > 0) {
        if (f.length == room) {
            f.bytes = realloc(f.bytes, room += 1 << 16);
            if (f.bytes == NULL)
                break;
        }
        got = fread(f.bytes + f.length, 1, (room < most ? room : most) - f.length, in);
        f.length += got;
    }
    if (in == NULL || f.bytes == NULL || ferror(in)) {
        perror(name);
        exit(2);
    }
    fclose(in);
    return f;
}

/* The whole file, or exit with status 2. */
static inline file load(const char *name) {
    return load_first(name, SIZE_MAX);
}

/* A book and a run, one after the other. */
typedef struct {
    const uint8_t *bytes;
    size_t book, run;
} pair;

/*
 * The cases of a file: before each book and run their two-byte lengths. Takes the place where the next one
 * begins and moves it on; 0 at the end.
 */
static inline int next_case(file f, size_t *at, pair *p) {
    const uint8_t *header = f.bytes + *at;
    if (f.length - *at < 4)
        return 0;
    p->book = header[0] + 256u * header[1];
    p->run = header[2] + 256u * header[3];
    p->bytes = header + 4;
    if (f.length - *at - 4 < p->book + p->run)
        return 0;
    *at += 4 + p->book + p->run;
    return 1;
}
