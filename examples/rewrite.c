/* A settings file in its plain form: `rewrite TEXT` reads the file TEXT at level 2 and writes its plain form to standard output; `rewrite
   TEXT OTHER` writes it to the file OTHER, which must not be TEXT. All memory is of fixed size, and the stack that the two calls need is
   MUON_FILE_STACK_MAX. Prints `no`, number and place to standard error if TEXT is refused, and exits with 1; exits with 2 if a file cannot
   be read or written, or if OTHER is TEXT. */
#define _POSIX_C_SOURCE 200809L
#include "muon.h"
#include "other_file.h"
#include "whole_file.h"

#include <stdio.h>

/* One byte more than a text may have, so that one that is too long is seen to be. */
static uint8_t text[MUON_TEXT_MAX + 1];
static uint32_t table[MUON_TABLE_MAX];
static uint8_t plain[MUON_PLAIN_BYTES(MUON_TEXT_MAX)];

int main(int argc, char **argv) {
    if (!text_and_other(argc, argv, "rewrite TEXT [OTHER]")) return 2;
    const char *other = argv[2]; /* NULL stands behind the arguments */
    size_t text_len, place, count;
    if (!get(argv[1], text, sizeof text, &text_len)) return failed(argv[1]);
    uint32_t number = muon_read(2, text, text_len, table, MUON_TABLE_MAX, &place, &count);
    if (number == MUON_ACCEPTED)
        number = muon_plain(2, text, text_len, table, MUON_TABLE_MAX, plain, sizeof plain, &place, &count);
    if (number != MUON_ACCEPTED) {
        fprintf(stderr, "no %u %zu\n", (unsigned)number, place);
        return 1;
    }
    if (!put(other, plain, count)) return failed(other != NULL ? other : "standard output");
    return 0;
}
