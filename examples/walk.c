/* The tree of a text: `walk TEXT` reads the file TEXT at level 2 and prints its nodes, a line each: two spaces for each node above it, its
   role, its kind, and the bytes of a literal. `walk TEXT DEPTH` walks only so far down: a branch below is passed by its skip, and told as
   the number of its nodes. No recursion, and all memory is of fixed size. Prints `no`, number and place to standard error if TEXT is
   refused, and exits with 1; exits with 2 if it cannot be read. C90, and C++ as well. */
#include "muon.h"
#include "whole_file.h"

#include <stdio.h>
#include <stdlib.h>
#include <string.h>

/* One byte more than a text may have, so that one that is too long is seen to be. */
static uint8_t text[MUON_TEXT_MAX + 1];
static uint32_t table[MUON_TABLE_MAX];

static void print(uint32_t index, unsigned depth, int passed) {
    uint32_t kind = muon_node_word(table, index, MUON_NODE_KIND), role = muon_node_word(table, index, MUON_NODE_ROLE);
    uint32_t below = muon_node_word(table, index, MUON_NODE_SKIP) - index - 1;
    printf("%*s", (int)(2 * depth), "");
    if (role != MUON_ROLE_ROOT) printf("%s ", muon_role_name(role));
    fputs(muon_kind_name(kind), stdout);
    if (kind <= MUON_KIND_NESTING) {
        putchar(' ');
        fwrite(muon_piece(text, table, index), 1, muon_piece_len(table, index), stdout);
    }
    if (passed && below > 0) printf(", %u below", (unsigned)below);
    putchar('\n');
}

/* Down to the first child, else on to the next sibling of the nearest node above that has one. */
static void walk(unsigned most) {
    uint32_t index = 0, next;
    unsigned depth = 0;
    for (;;) {
        print(index, depth, depth == most);
        next = depth < most ? muon_first_child(table, index) : MUON_NONE;
        if (next != MUON_NONE) {
            depth++;
        } else {
            while ((next = muon_next_sibling(table, index)) == MUON_NONE && depth > 0) {
                index = muon_node_word(table, index, MUON_NODE_PARENT);
                depth--;
            }
            if (next == MUON_NONE) return;
        }
        index = next;
    }
}

/* Digits, and nothing else. */
static int is_number(const char *digits) {
    return digits[0] != 0 && strspn(digits, "0123456789") == strlen(digits);
}

int main(int argc, char **argv) {
    size_t text_len, place, count;
    uint32_t number;
    if (argc != 2 && (argc != 3 || !is_number(argv[2]))) {
        fputs("walk TEXT [DEPTH]\n", stderr);
        return 2;
    }
    if (!get(argv[1], text, sizeof text, &text_len)) return failed(argv[1]);
    number = muon_read(2, text, text_len, table, MUON_TABLE_MAX, &place, &count);
    if (number != MUON_ACCEPTED) {
        fprintf(stderr, "no %u %lu\n", (unsigned)number, (unsigned long)place);
        return 1;
    }
    /* no node is deeper than the brackets */
    walk(argc == 3 ? (unsigned)strtoul(argv[2], NULL, 10) : MUON_DEPTH_MAX);
    return fflush(stdout) == 0 ? 0 : failed("standard output");
}
