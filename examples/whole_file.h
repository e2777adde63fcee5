/* A whole file, into memory of fixed size and out of it: what the examples beside this header share. C90, and C++ as well. */
#ifndef WHOLE_FILE_H
#define WHOLE_FILE_H

#include "muon.h"

#include <stdio.h>

/* What the operating system said of a path; the exit code. */
static int failed(const char *path) {
    perror(path);
    return 2;
}

/* Whether the file was read, or its first bytes if it has more than `most`. */
static int get(const char *path, uint8_t *bytes, size_t most, size_t *len) {
    FILE *in = fopen(path, "rb");
    int good;
    if (in == NULL) return 0;
    *len = fread(bytes, 1, most, in);
    good = !ferror(in);
    return fclose(in) == 0 && good;
}

/* Whether all was written; to standard output if there is no path. Not every program writes. */
MUON_INLINE int put(const char *path, const uint8_t *bytes, size_t len) {
    FILE *out = path != NULL ? fopen(path, "wb") : stdout;
    int good;
    if (out == NULL) return 0;
    good = fwrite(bytes, 1, len, out) == len;
    return fclose(out) == 0 && good;
}

#endif
