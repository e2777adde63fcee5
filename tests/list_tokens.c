/* Lists the tokens of standard input, as the proved library finds them: a line each with kind, first byte, byte after the last,
   detail and bad. The kinds and details are those of crates/token_c/specs/Numbers.antt. */
#include "muon.h"

#include <stdio.h>

size_t muon_front(const uint8_t *text, size_t text_len);
void muon_token(const uint8_t *text, size_t text_len, size_t at, uint64_t out[5]);

/* One byte more than a text may have. */
static uint8_t text[MUON_TEXT_MAX + 1];

static const char *const kinds[] = {"end",  "Ignorance", "Boolean", "Integer", "Fraction", "Bits",
                                    "Blob", "Text",      "later",   "symbol",  "no token"};

int main(void) {
    size_t len = fread(text, 1, sizeof text, stdin);
    if (len == sizeof text) {
        puts("text too long");
        return 1;
    }
    size_t place, steps;
    if (muon_utf8(text, len, &place, &steps) != MUON_ACCEPTED) {
        printf("not UTF-8 at %zu\n", place);
        return 1;
    }
    size_t at = muon_front(text, len);
    for (;;) {
        uint64_t token[5];
        muon_token(text, len, at, token);
        printf("%s %llu %llu %llu %llu\n", kinds[token[0]], (unsigned long long)token[1], (unsigned long long)token[2],
               (unsigned long long)token[3], (unsigned long long)token[4]);
        if (token[0] == 0 || token[0] == 10) {
            return token[0] == 0 ? 0 : 1;
        }
        at = token[2];
    }
}
