/* peer FILE: reads a file in each way of the reader that is linked, and prints a line for each way: reader, version, way, bytes, and what
   was found. Each way is tried once, so that what is done only once is done, and then makes four calls of `counted`, each a count of
   callgrind's: the reading alone, giving back, the reading with all decoded, giving back. */
#include "peer.h"

#include <stdio.h>

#define FILE_MAX 65536

enum task { ALONE, DECODED, GIVE_BACK };

static char text[FILE_MAX + 1];
static size_t len;

static int done(const struct way *way, enum task task) {
    if (task != GIVE_BACK) return way->read(text, len, task == DECODED);
    if (way->give_back) way->give_back();
    return 1;
}

__attribute__((noinline, noclone)) int counted(const struct way *way, enum task task) {
    int accepted = done(way, task);
    /* not left by a jump, or callgrind would not see its end */
    __asm__ volatile("" ::: "memory");
    return accepted;
}

static int one(const struct way *way, enum task task, int (*call)(const struct way *, enum task)) {
    if (task != GIVE_BACK && way->ready) way->ready(text, len);
    return call(way, task);
}

static int measured(const struct way *way) {
    struct found found;
    if (!one(way, DECODED, done) || !one(way, GIVE_BACK, done)) return 0;
    if (!one(way, ALONE, counted) || !one(way, GIVE_BACK, counted)) return 0;
    if (!one(way, DECODED, counted)) return 0;
    found = way->found();
    printf("%s %s %s %zu %zu %lld %zu\n", reader, version, way->name, len, found.nodes, found.sum, found.bytes);
    return one(way, GIVE_BACK, counted);
}

int main(int count, char **arguments) {
    const struct way *way;
    FILE *file = count == 2 ? fopen(arguments[1], "rb") : 0;
    if (!file) return 2;
    len = fread(text, 1, FILE_MAX, file);
    fclose(file);
    for (way = ways; way->name; way++) {
        if (!measured(way)) {
            fprintf(stderr, "%s, %s: refused\n", reader, way->name);
            return 1;
        }
    }
    return 0;
}
