/* Stored files from C: `store write TEXT FILE` reads the file TEXT and writes its stored file to FILE; `store check TEXT FILE` tells
   whether FILE is the stored file of TEXT. All memory is of fixed size, and the stack that the two calls need is MUON_FILE_STACK_MAX.
   Prints `ok` and the bytes of FILE, or `no`, number and place; exits with 1 if text or file is refused, and with 2 if it cannot be read
   or written. */
#include "muon.h"
#include "whole_file.h"

#include <stdio.h>
#include <string.h>

/* One byte more than a text or a file may have, so that one that is too long is seen to be. */
static uint8_t text[MUON_TEXT_MAX + 1];
static uint8_t file[MUON_FILE_MAX + 1];

int main(int argc, char **argv) {
    int writes = argc == 4 && strcmp(argv[1], "write") == 0;
    if (!writes && !(argc == 4 && strcmp(argv[1], "check") == 0)) {
        fputs("store write|check TEXT FILE\n", stderr);
        return 2;
    }
    size_t text_len, file_len, place, count;
    uint32_t number;
    if (!get(argv[2], text, sizeof text, &text_len)) return failed(argv[2]);
    if (writes) {
        number = muon_file_write(text, text_len, file, MUON_FILE_MAX, &place, &count);
        if (number == MUON_ACCEPTED && !put(argv[3], file, count)) return failed(argv[3]);
    } else {
        if (!get(argv[3], file, sizeof file, &file_len)) return failed(argv[3]);
        number = muon_file_check(text, text_len, file, file_len, &place, &count);
    }
    if (number != MUON_ACCEPTED) {
        printf("no %u %zu\n", (unsigned)number, place);
        return 1;
    }
    printf("ok %zu\n", count);
    return 0;
}
