/* What a reader is measured by: each has a file of its own here, which gives the ways in which it reads, and peer.c calls them. */
#ifndef PEER_H
#define PEER_H

#include <stddef.h>

#ifdef __cplusplus
extern "C" {
#endif

/* What was read, the same for every reader of the same tree: names and values, the sum of the Integers, the bytes of the Texts and names. */
struct found {
    size_t nodes;
    long long sum;
    size_t bytes;
};

/* A way to read. Only read and give_back are counted. */
struct way {
    const char *name;
    /* whatever a reading needs that is no part of it, or 0 */
    void (*ready)(const char *text, size_t len);
    /* the reading alone, or with every Integer and Text decoded: 1 if the text is accepted; a 0 stands behind it */
    int (*read)(const char *text, size_t len, int decoded);
    /* of the last reading, which was with all decoded */
    struct found (*found)(void);
    /* frees what the reading allocated, or 0 */
    void (*give_back)(void);
};

/* Of the reader that is linked. The last way has no name. */
extern const char *const reader;
extern const char *const version;
extern const struct way ways[];

#ifdef __cplusplus
}
#endif

#endif
