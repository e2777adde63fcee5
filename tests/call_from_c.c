/* The library as a C program meets it: the header's own words tried, and the stack measured.
   Prints for each call the most bytes of stack that it touched, those that read a text over the deepest texts; exits with 1 if an answer is
   not the one expected. */
#include "muon.h"

#include <stdio.h>
#include <stdlib.h>
#include <string.h>
#include <ucontext.h>

enum { STACK = 1 << 18, PAINT = 0xA5, WORDS = MUON_TABLE_MAX, BYTES = 64 };

static uint32_t table[WORDS];
static uint8_t buffer[BYTES];
static unsigned char stack[STACK] __attribute__((aligned(16)));
static ucontext_t caller, callee;

/* What the next call is given, and what it answered. */
static struct {
    uint32_t level;
    const char *text;
    size_t length;
    size_t words;
    size_t bytes;
    uint32_t number;
    size_t place, count;
    int64_t value;
} call;

static void read_it(void) {
    call.number = muon_read(call.level, call.text, call.length, table, call.words, &call.place, &call.count);
}

static void integer_of_it(void) {
    call.number = muon_integer(call.text, call.length, &call.value, &call.place, &call.count);
}

static void text_of_it(void) {
    call.number = muon_text(call.text, call.length, buffer, call.bytes, &call.place, &call.count);
}

static void blob_of_it(void) {
    call.number = muon_blob(call.text, call.length, buffer, call.bytes, &call.place, &call.count);
}

static void bits_of_it(void) {
    call.number = muon_bits(call.text, call.length, buffer, call.bytes, &call.place, &call.count);
}

/* into a buffer of so many bytes, at most MUON_FILE_MAX */
static uint8_t stored[MUON_FILE_MAX];

static void write_file_of_it(void) {
    call.number = muon_file_write(call.text, call.length, stored, call.bytes, &call.place, &call.count);
}

/* what was stored, so many bytes */
static void check_file_of_it(void) {
    call.number = muon_file_check(call.text, call.length, stored, call.bytes, &call.place, &call.count);
}

/* at the level and with the table that it was read with, so many words, into a buffer of so many bytes */
static uint8_t plain[MUON_PLAIN_BYTES(MUON_TEXT_MAX)];

static void write_plain_of_it(void) {
    call.number = muon_plain(call.level, call.text, call.length, table, call.words, plain, call.bytes, &call.place,
                             &call.count);
}

/* at the level, into a buffer of so many bytes */
static void convert_it(void) {
    call.number = muon_convert(call.level, call.text, call.length, plain, call.bytes, &call.place, &call.count);
}

/* the steps as the count */
static void utf8_of_it(void) {
    call.number = muon_utf8(call.text, call.length, &call.place, &call.count);
}

/* the line as the place, the column as the count */
static void line_column_of_it(void) { muon_line_column(call.text, call.length, call.length, &call.place, &call.count); }

static void read_nothing(void) {}

/* Runs on a stack of its own, painted before; the bytes of it that were touched. */
static size_t touched(void (*run)(void)) {
    memset(stack, PAINT, STACK);
    if (getcontext(&callee) != 0) exit(1);
    callee.uc_stack.ss_sp = stack;
    callee.uc_stack.ss_size = STACK;
    callee.uc_link = &caller;
    makecontext(&callee, run, 0);
    if (swapcontext(&caller, &callee) != 0) exit(1);
    size_t untouched = 0;
    while (untouched < STACK && stack[untouched] == PAINT) untouched++;
    return STACK - untouched;
}

static void expect(uint32_t level, const char *text, size_t words, uint32_t number, size_t place, size_t count) {
    call.level = level;
    call.text = text;
    call.length = strlen(text);
    call.words = words;
    read_it();
    if (call.number == number && call.place == place && call.count == count) return;
    printf("%s at level %u: %u %zu %zu\n", text, (unsigned)level, (unsigned)call.number, call.place, call.count);
    exit(1);
}

static void answers(void) {
    char deep[MUON_DEPTH_MAX + 2];
    memset(deep, '{', MUON_DEPTH_MAX + 1);
    deep[MUON_DEPTH_MAX + 1] = 0;
    expect(2, "(x:y)", WORDS, MUON_ACCEPTED, 5, 3);
    static const uint32_t pair[] = {
        MUON_KIND_PAIR, 0, 5, 0, MUON_ROLE_ROOT,       0,                3,
        MUON_KIND_TEXT, 1, 2, 0, MUON_ROLE_THIS,       MUON_DETAIL_WORD, 2,
        MUON_KIND_TEXT, 3, 4, 0, MUON_ROLE_THAT_AFTER, MUON_DETAIL_WORD, 3,
    };
    if (memcmp(table, pair, sizeof pair) != 0) exit(1);
    expect(3, "(x:y)", WORDS, MUON_REFUSED_LEVEL, 0, 0);
    expect(2, "\xFF", WORDS, MUON_REFUSED_NOT_UTF8, 0, 0);
    expect(2, "\"a", WORDS, MUON_REFUSED_NO_TOKEN, 0, 0);
    expect(2, "1/0", WORDS, MUON_REFUSED_BAD_VALUE, 0, 0);
    expect(2, "(x:y", WORDS, MUON_REFUSED_WRONG_PLACE, 4, 0);
    expect(1, "(Set:{7,7})", WORDS, MUON_REFUSED_NEWER_FORM, 0, 0);
    expect(2, "(x:y)", 20, MUON_REFUSED_NO_ROOM, 5, 3);
    expect(2, "(x:y)", 21, MUON_ACCEPTED, 5, 3);
    expect(2, "x", 6, MUON_REFUSED_NO_ROOM, 1, 1);
    expect(2, "x", 7, MUON_ACCEPTED, 1, 1);
    expect(2, deep, WORDS, MUON_REFUSED_TOO_DEEP, MUON_DEPTH_MAX, 0);
    /* the arrow: where it was allowed, and elsewhere */
    for (uint32_t level = 1; level <= 2; level++) {
        expect(level, "{a,b<-c}", WORDS, MUON_REFUSED_RETIRED_ARROW, 4, 0);
        expect(level, "(a<-$", 0, MUON_REFUSED_RETIRED_ARROW, 2, 0);
        expect(level, "(Mix<-5)", WORDS, MUON_REFUSED_RETIRED_ARROW, 4, 0);
        expect(level, "<-", WORDS, MUON_REFUSED_WRONG_PLACE, 0, 0);
        expect(level, "(<-a)", WORDS, MUON_REFUSED_WRONG_PLACE, 1, 0);
        expect(level, "(,a<-b)", WORDS, MUON_REFUSED_WRONG_PLACE, 3, 0);
        expect(level, "(0L<-5)", WORDS, MUON_REFUSED_NEWER_FORM, 1, 0);
        expect(level, "(1/0<-b)", WORDS, MUON_REFUSED_BAD_VALUE, 1, 0);
    }
    /* a code point out of range: in quotes its escape, else the literal */
    for (uint32_t level = 1; level <= 2; level++) {
        expect(level, "\"\\\\<0cxD800>\"", WORDS, MUON_REFUSED_BAD_VALUE, 2, 0);
        expect(level, "\"a\" \"\\b\\<0c65>\\<0cxD800>\\<0cxDFFF>\"", 0, MUON_REFUSED_BAD_VALUE, 14, 0);
        expect(level, "(x:\"\\\\<0cx110000>\")", WORDS, MUON_REFUSED_BAD_VALUE, 5, 0);
        expect(level, "(\"a\\<0cxD800>\"`c`\"\\\\<0cxDFFF>\":1,)", WORDS, MUON_REFUSED_BAD_VALUE, 19, 0);
        expect(level, "x \"\\\\<0cxD800>\"", WORDS, MUON_REFUSED_WRONG_PLACE, 2, 0);
        expect(level, "::a::0cxD800", WORDS, MUON_REFUSED_BAD_VALUE, 5, 0);
    }
    /* nothing lent */
    size_t place = 1, count = 1;
    if (muon_read(2, NULL, 0, NULL, 0, &place, &count) != MUON_REFUSED_WRONG_PLACE || place != 0 || count != 0) exit(1);
    if (muon_read(2, "5", 1, NULL, 0, &place, &count) != MUON_REFUSED_NO_ROOM || place != 1 || count != 1) exit(1);
    /* a byte too many */
    static uint8_t spaces[MUON_TEXT_MAX + 1];
    memset(spaces, ' ', sizeof spaces);
    if (muon_read(2, spaces, sizeof spaces, table, WORDS, &place, &count) != MUON_REFUSED_TOO_LONG || place != 0) exit(1);
}

/* The nodes of the text that was read, from one on, each the next sibling of the one before. */
static void expect_row(uint32_t first, const char *row) {
    char found[BYTES] = "";
    for (uint32_t i = first; i != MUON_NONE; i = muon_next_sibling(table, i)) sprintf(found + strlen(found), " %u", (unsigned)i);
    if (strcmp(found, row) == 0) return;
    printf("nodes of %s:%s, not%s\n", call.text, found, row);
    exit(1);
}

static void walks(void) {
    expect(2, "(x:(y,z))", WORDS, MUON_ACCEPTED, 9, 5);
    expect_row(muon_first_child(table, 0), " 1 2");
    expect_row(muon_first_child(table, 1), "");
    expect_row(muon_first_child(table, 2), " 3 4");
    expect_row(muon_first_child(table, 4), "");
    expect_row(0, " 0");
    expect_row(4, " 4");
    expect(2, "{{},{{}},{}}", WORDS, MUON_ACCEPTED, 12, 5);
    expect_row(muon_first_child(table, 0), " 1 2 4");
    expect_row(muon_first_child(table, 2), " 3");
    expect(2, "(Bag:{(a,b):2,[c]})", WORDS, MUON_ACCEPTED, 19, 7);
    expect_row(muon_first_child(table, 0), " 1 4 5");
    expect(2, "{,,}", WORDS, MUON_ACCEPTED, 4, 1);
    expect_row(muon_first_child(table, 0), "");
}

static void expect_integer(const char *piece, uint32_t number, size_t place, int64_t value) {
    call.text = piece;
    call.length = strlen(piece);
    call.value = 1;
    integer_of_it();
    if (call.number == number && call.place == place && call.count == 0 && call.value == value) return;
    printf("integer of %s: %u %zu %zu, %lld\n", piece, (unsigned)call.number, call.place, call.count, (long long)call.value);
    exit(1);
}

static void integers(void) {
    expect_integer("29 56", MUON_ACCEPTED, 5, 2956);
    expect_integer("-0x F_F", MUON_ACCEPTED, 7, -255);
    expect_integer("9223372036854775807", MUON_ACCEPTED, 19, INT64_MAX);
    expect_integer("9223372036854775808", MUON_REFUSED_OUT_OF_RANGE, 0, 0);
    expect_integer("-9223372036854775808", MUON_ACCEPTED, 20, INT64_MIN);
    expect_integer("-9223372036854775809", MUON_REFUSED_OUT_OF_RANGE, 0, 0);
    expect_integer("5 ", MUON_REFUSED_NOT_THE_LITERAL, 0, 0);
    expect_integer("1.5", MUON_REFUSED_NOT_THE_LITERAL, 0, 0);
    expect_integer("5\xFF", MUON_REFUSED_NOT_UTF8, 1, 0);
    /* nothing lent */
    size_t place = 1, count = 1;
    int64_t value = 1;
    if (muon_integer(NULL, 0, &value, &place, &count) != MUON_REFUSED_NOT_THE_LITERAL || place != 0 || count != 0 || value != 0) exit(1);
    /* a byte too many */
    static uint8_t digits[MUON_TEXT_MAX + 1];
    memset(digits, '0', sizeof digits);
    if (muon_integer(digits, sizeof digits, &value, &place, &count) != MUON_REFUSED_TOO_LONG || place != 0) exit(1);
    if (muon_integer(digits, MUON_TEXT_MAX, &value, &place, &count) != MUON_ACCEPTED || place != MUON_TEXT_MAX || value != 0) exit(1);
}

/* `value` is what stands in the buffer then, `written` bytes; every byte behind it is as it was. */
static void expect_bytes(void (*run)(void), const char *piece, size_t bytes, uint32_t number, size_t place, size_t count,
                         const char *value, size_t written) {
    static uint8_t rest[BYTES];
    memset(rest, PAINT, BYTES);
    memset(buffer, PAINT, BYTES);
    call.text = piece;
    call.length = strlen(piece);
    call.bytes = bytes;
    run();
    if (call.number == number && call.place == place && call.count == count && memcmp(buffer, value, written) == 0 &&
        memcmp(buffer + written, rest, BYTES - written) == 0)
        return;
    printf("value of %s: %u %zu %zu\n", piece, (unsigned)call.number, call.place, call.count);
    exit(1);
}

static void expect_text(const char *piece, size_t bytes, uint32_t number, size_t place, size_t count, const char *text) {
    expect_bytes(text_of_it, piece, bytes, number, place, count, text, strlen(text));
}

static void texts(void) {
    expect_text("word", BYTES, MUON_ACCEPTED, 4, 4, "word");
    expect_text("word", 4, MUON_ACCEPTED, 4, 4, "word");
    expect_text("word", 3, MUON_REFUSED_NO_ROOM, 4, 4, "");
    expect_text("\"\\\"", 0, MUON_ACCEPTED, 3, 0, "");
    expect_text("\"a\\n\"", BYTES, MUON_ACCEPTED, 5, 3, "a\\n");
    expect_text("\"\\a\\n\"", BYTES, MUON_ACCEPTED, 6, 2, "a\n");
    expect_text("\"\\\\q\\g\\b\\t\\n\\r\"", BYTES, MUON_ACCEPTED, 15, 6, "\"`\\\t\n\r");
    expect_text("\"a\" `c` \"\\\\<0cx10FFFF>\"", BYTES, MUON_ACCEPTED, 23, 5, "a\xF4\x8F\xBF\xBF");
    expect_text("0c233", BYTES, MUON_ACCEPTED, 5, 2, "\xC3\xA9");
    expect_text("0cxD800", BYTES, MUON_REFUSED_BAD_VALUE, 0, 0, "");
    expect_text("\"\\\\<0cxD800>\"", 0, MUON_REFUSED_BAD_VALUE, 2, 0, "");
    expect_text("\"a\" \"\\x\\<0cxD800>\"", BYTES, MUON_REFUSED_BAD_VALUE, 7, 0, "");
    expect_text("\"a\" ", BYTES, MUON_REFUSED_NOT_THE_LITERAL, 0, 0, "");
    expect_text("\"\xFF\"", BYTES, MUON_REFUSED_NOT_UTF8, 1, 0, "");
    /* nothing lent */
    size_t place = 1, count = 1;
    if (muon_text(NULL, 0, NULL, 0, &place, &count) != MUON_REFUSED_NOT_THE_LITERAL || place != 0 || count != 0) exit(1);
    if (muon_text("a", 1, NULL, 0, &place, &count) != MUON_REFUSED_NO_ROOM || place != 1 || count != 1) exit(1);
    /* a byte too many, and the longest word into a buffer as long */
    static uint8_t letters[MUON_TEXT_MAX + 1], room[MUON_TEXT_MAX];
    memset(letters, 'a', sizeof letters);
    if (muon_text(letters, sizeof letters, room, sizeof room, &place, &count) != MUON_REFUSED_TOO_LONG || place != 0) exit(1);
    if (muon_text(letters, MUON_TEXT_MAX, room, sizeof room, &place, &count) != MUON_ACCEPTED || count != sizeof room) exit(1);
    if (memcmp(letters, room, sizeof room) != 0) exit(1);
}

static void accepts(void (*run)(void), const char *piece, const char *value, size_t written) {
    expect_bytes(run, piece, BYTES, MUON_ACCEPTED, strlen(piece), written, value, written);
    expect_bytes(run, piece, written, MUON_ACCEPTED, strlen(piece), written, value, written);
    if (written > 0) expect_bytes(run, piece, written - 1, MUON_REFUSED_NO_ROOM, strlen(piece), written, "", 0);
}

static void refuses(void (*run)(void), const char *piece, uint32_t number, size_t place) {
    expect_bytes(run, piece, BYTES, number, place, 0, "", 0);
    expect_bytes(run, piece, 0, number, place, 0, "", 0);
}

/* A piece in the Blob call, which refuses at 0, and then as a text at both levels, where an accepted one has one node. */
static void expect_blob(const char *piece, uint32_t by_call, uint32_t by_reader, size_t place, const char *value, size_t written) {
    if (by_call == MUON_ACCEPTED)
        accepts(blob_of_it, piece, value, written);
    else
        refuses(blob_of_it, piece, by_call, 0);
    for (uint32_t level = 1; level <= 2; level++) expect(level, piece, WORDS, by_reader, place, by_reader == MUON_ACCEPTED);
}

/* The padding of base 64. */
static void paddings(void) {
    static const char *const bad[] = {"0xy====", "0xyA===", "0xyAB==", "0xyAAB=", "0xyAAA=_====", "0xyAA== AAAA"};
    for (size_t i = 0; i < sizeof bad / sizeof *bad; i++)
        expect_blob(bad[i], MUON_REFUSED_BAD_VALUE, MUON_REFUSED_BAD_VALUE, 0, "", 0);
    expect_blob("0xyAA==", MUON_ACCEPTED, MUON_ACCEPTED, 7, "\0", 1);
    expect_blob("0xyAAA=", MUON_ACCEPTED, MUON_ACCEPTED, 7, "\0\0", 2);
    expect_blob("0xy", MUON_ACCEPTED, MUON_ACCEPTED, 3, "", 0);
    /* no group of four */
    expect_blob("0xyTWF", MUON_REFUSED_NOT_THE_LITERAL, MUON_REFUSED_WRONG_PLACE, 3, "", 0);
    expect_blob("0xyAAAAA", MUON_REFUSED_NOT_THE_LITERAL, MUON_REFUSED_WRONG_PLACE, 7, "", 0);
    expect_blob("0xyAA=", MUON_REFUSED_NOT_THE_LITERAL, MUON_REFUSED_WRONG_PLACE, 3, "", 0);
    expect_blob("0xy=", MUON_REFUSED_NOT_THE_LITERAL, MUON_REFUSED_NO_TOKEN, 3, "", 0);
}

static void blobs(void) {
    accepts(blob_of_it, "0xb00000001", "\1", 1);
    accepts(blob_of_it, "0xxA7_05 FF", "\xA7\x05\xFF", 3);
    accepts(blob_of_it, "0xx `A7` 00`=`41", "\0A", 2);
    accepts(blob_of_it, "0xyAQ==", "\1", 1);
    accepts(blob_of_it, "0xyTWE=", "Ma", 2);
    accepts(blob_of_it, "0xyTWFu_+/+/", "Man\xFB\xFF\xBF", 6);
    refuses(blob_of_it, "0xxA", MUON_REFUSED_NOT_THE_LITERAL, 0);
    refuses(blob_of_it, "0xx ", MUON_REFUSED_NOT_THE_LITERAL, 0);
    refuses(blob_of_it, "0bb1", MUON_REFUSED_NOT_THE_LITERAL, 0);
    refuses(blob_of_it, "0xxA7\xFF", MUON_REFUSED_NOT_UTF8, 5);
    /* nothing lent */
    size_t place = 1, count = 1;
    if (muon_blob(NULL, 0, NULL, 0, &place, &count) != MUON_REFUSED_NOT_THE_LITERAL || place != 0 || count != 0) exit(1);
    if (muon_blob("0xx00", 5, NULL, 0, &place, &count) != MUON_REFUSED_NO_ROOM || place != 5 || count != 1) exit(1);
    /* a byte too many, and the longest Blob into three quarters of a buffer as long */
    static uint8_t digits[MUON_TEXT_MAX + 1], room[MUON_TEXT_MAX / 4 * 3];
    memset(digits, '/', sizeof digits);
    memcpy(digits, "0xy ", 4);
    if (muon_blob(digits, sizeof digits, room, sizeof room, &place, &count) != MUON_REFUSED_TOO_LONG || place != 0) exit(1);
    if (muon_blob(digits, MUON_TEXT_MAX, room, sizeof room, &place, &count) != MUON_ACCEPTED || count != sizeof room - 3) exit(1);
    if (room[0] != 0xFF || room[count - 1] != 0xFF || room[count] != 0) exit(1);
}

static void bits(void) {
    accepts(bits_of_it, "0bb1_0 1", "\1\0\1", 3);
    accepts(bits_of_it, "0bo17", "\0\0\1\1\1\1", 6);
    accepts(bits_of_it, "0bx`F`8", "\1\0\0\0", 4);
    accepts(bits_of_it, "0bb", "", 0);
    refuses(bits_of_it, "0bb ", MUON_REFUSED_NOT_THE_LITERAL, 0);
    refuses(bits_of_it, "0bo8", MUON_REFUSED_NOT_THE_LITERAL, 0);
    refuses(bits_of_it, "0xx", MUON_REFUSED_NOT_THE_LITERAL, 0);
    refuses(bits_of_it, "0bx\xFF", MUON_REFUSED_NOT_UTF8, 3);
    /* nothing lent */
    size_t place = 1, count = 1;
    if (muon_bits(NULL, 0, NULL, 0, &place, &count) != MUON_REFUSED_NOT_THE_LITERAL || place != 0 || count != 0) exit(1);
    if (muon_bits("0bo1", 4, NULL, 0, &place, &count) != MUON_REFUSED_NO_ROOM || place != 4 || count != 3) exit(1);
    /* a byte too many, and the longest Bits into the longest buffer */
    static uint8_t digits[MUON_TEXT_MAX + 1], room[MUON_BITS_MAX];
    memset(digits, 'F', sizeof digits);
    memcpy(digits, "0bx", 3);
    if (muon_bits(digits, sizeof digits, room, sizeof room, &place, &count) != MUON_REFUSED_TOO_LONG || place != 0) exit(1);
    if (muon_bits(digits, MUON_TEXT_MAX, room, sizeof room, &place, &count) != MUON_ACCEPTED || count != sizeof room - 12) exit(1);
    if (room[0] != 1 || room[count - 1] != 1 || room[count] != 0) exit(1);
}

static void expect_answer(const char *what, uint32_t number, size_t place, size_t count) {
    if (call.number == number && call.place == place && call.count == count) return;
    printf("%s of %.40s with %zu bytes: %u %zu %zu\n", what, call.text, call.bytes, (unsigned)call.number, call.place, call.count);
    exit(1);
}

/* Under a refusal nothing is stored. */
static void expect_written(const char *text, size_t bytes, uint32_t number, size_t place, size_t count) {
    static uint8_t before[MUON_FILE_MAX];
    memset(stored, PAINT, sizeof stored);
    memset(before, PAINT, sizeof before);
    call.text = text;
    call.length = strlen(text);
    call.bytes = bytes;
    write_file_of_it();
    expect_answer("file", number, place, count);
    size_t written = number == MUON_ACCEPTED ? count : 0;
    if (memcmp(stored + written, before, sizeof stored - written) != 0) exit(1);
}

static void expect_checked(const char *text, size_t bytes, uint32_t number) {
    call.text = text;
    call.length = strlen(text);
    call.bytes = bytes;
    check_file_of_it();
    int good = number == MUON_ACCEPTED;
    expect_answer("check", number, good ? call.length : 0, good ? bytes : 0);
}

/* The number of two bytes, the high one first. */
static unsigned number_at(size_t byte) { return 256u * stored[byte] + stored[byte + 1]; }

static void files(void) {
    static const uint8_t pair[] = {
        'F', 'N', 'T', 0, MUON_FILE_VERSION, 0, 3, 0, 5,
        0, MUON_KIND_PAIR, 0, 0, 0, 5, 0, 0, 0, MUON_ROLE_ROOT, 0, 0,
        0, MUON_KIND_TEXT, 0, 1, 0, 2, 0, 0, 0, MUON_ROLE_THIS, 0, MUON_DETAIL_WORD,
        0, MUON_KIND_TEXT, 0, 3, 0, 4, 0, 0, 0, MUON_ROLE_THAT_AFTER, 0, MUON_DETAIL_WORD,
    };
    if (sizeof pair != MUON_FILE_BYTES(3) || MUON_FILE_MAX != 12297) exit(1);
    expect_written("(x:y)", sizeof pair, MUON_ACCEPTED, 5, sizeof pair);
    expect_written("(x:y)", sizeof pair - 1, MUON_REFUSED_NO_ROOM, 5, sizeof pair);
    expect_written("(x:y)", 0, MUON_REFUSED_NO_ROOM, 5, sizeof pair);
    expect_written("(x", 64, MUON_REFUSED_WRONG_PLACE, 2, 0);
    expect_written("(x", 0, MUON_REFUSED_WRONG_PLACE, 2, 0);
    expect_written("1/0", 64, MUON_REFUSED_BAD_VALUE, 0, 0);
    expect_written("(x:\"\\\\<0cxD800>\")", 64, MUON_REFUSED_BAD_VALUE, 5, 0);
    expect_written("(b<-a)", 64, MUON_REFUSED_RETIRED_ARROW, 2, 0);
    /* a form of level 2, and one beyond it */
    expect_written("[1..10]", 64, MUON_ACCEPTED, 7, MUON_FILE_BYTES(3));
    expect_written("(Mix:{})", 64, MUON_REFUSED_NEWER_FORM, 0, 0);
    expect_written("(x:y)", MUON_FILE_MAX, MUON_ACCEPTED, 5, sizeof pair);
    if (memcmp(stored, pair, sizeof pair) != 0) exit(1);
    /* a word of a node, found as the header has it */
    if (number_at(MUON_FILE_BYTES(2) + 2 * MUON_NODE_ROLE) != MUON_ROLE_THAT_AFTER) exit(1);
    /* texts of other bytes with the same nodes, and other texts */
    expect_checked("(x:y)", sizeof pair, MUON_ACCEPTED);
    expect_checked("(a:b)", sizeof pair, MUON_ACCEPTED);
    expect_checked("(x,y)", sizeof pair, MUON_REFUSED_NOT_THE_FILE);
    expect_checked("(x:y) ", sizeof pair, MUON_REFUSED_NOT_THE_FILE);
    expect_checked("(x", sizeof pair, MUON_REFUSED_NOT_THE_FILE);
    expect_checked("\xFF", sizeof pair, MUON_REFUSED_NOT_THE_FILE);
    expect_checked("(x:y)", sizeof pair + 1, MUON_REFUSED_NOT_THE_FILE);
    expect_checked("(x:y)", sizeof pair - 1, MUON_REFUSED_NOT_THE_FILE);
    expect_checked("(x:y)", 5, MUON_REFUSED_NOT_THE_FILE);
    expect_checked("(x:y)", 4, MUON_REFUSED_NOT_THE_MARK);
    stored[sizeof pair - 1] ^= 1;
    expect_checked("(x:y)", sizeof pair, MUON_REFUSED_NOT_THE_FILE);
    /* stored before the arrow was retired */
    static const uint8_t arrow[] = {
        'F', 'N', 'T', 0, MUON_FILE_VERSION, 0, 3, 0, 6,
        0, MUON_KIND_PAIR, 0, 0, 0, 6, 0, 0, 0, MUON_ROLE_ROOT, 0, 0,
        0, MUON_KIND_TEXT, 0, 1, 0, 2, 0, 0, 0, MUON_ROLE_THAT_BEFORE, 0, MUON_DETAIL_WORD,
        0, MUON_KIND_TEXT, 0, 4, 0, 5, 0, 0, 0, MUON_ROLE_THIS, 0, MUON_DETAIL_WORD,
    };
    memcpy(stored, arrow, sizeof arrow);
    expect_checked("(b<-a)", sizeof arrow, MUON_ACCEPTED);
    expect_checked("(a->b)", sizeof arrow, MUON_REFUSED_NOT_THE_FILE);
    /* version and mark, whatever the text */
    stored[4] = 2;
    expect_checked("(x:y)", sizeof pair, MUON_REFUSED_OTHER_VERSION);
    expect_checked("\xFF", 5, MUON_REFUSED_OTHER_VERSION);
    stored[3] = stored[4] = 1;
    expect_checked("(x:y)", sizeof pair, MUON_REFUSED_OTHER_VERSION);
    stored[2] = 't';
    expect_checked("(x:y)", sizeof pair, MUON_REFUSED_NOT_THE_MARK);
    /* nothing lent */
    size_t place = 1, count = 1;
    if (muon_file_write(NULL, 0, NULL, 0, &place, &count) != MUON_REFUSED_WRONG_PLACE || place != 0 || count != 0) exit(1);
    if (muon_file_write("5", 1, NULL, 0, &place, &count) != MUON_REFUSED_NO_ROOM || place != 1 || count != 21) exit(1);
    if (muon_file_check(NULL, 0, NULL, 0, &place, &count) != MUON_REFUSED_NOT_THE_MARK || place != 0 || count != 0) exit(1);
    /* a byte too many, and the longest text */
    static uint8_t spaces[MUON_TEXT_MAX + 1];
    memset(spaces, ' ', sizeof spaces);
    spaces[MUON_TEXT_MAX - 1] = '5';
    if (muon_file_write(spaces, sizeof spaces, stored, sizeof stored, &place, &count) != MUON_REFUSED_TOO_LONG || place != 0) exit(1);
    if (muon_file_write(spaces, MUON_TEXT_MAX, stored, sizeof stored, &place, &count) != MUON_ACCEPTED || count != 21) exit(1);
    if (number_at(7) != MUON_TEXT_MAX || number_at(MUON_FILE_BYTES(0) + 2 * MUON_NODE_END) != MUON_TEXT_MAX) exit(1);
    if (muon_file_check(spaces, MUON_TEXT_MAX, stored, 21, &place, &count) != MUON_ACCEPTED || place != MUON_TEXT_MAX) exit(1);
    /* the most nodes, and one more */
    static char most[2 * MUON_NODES_MAX + 3] = "{";
    for (size_t i = 1; i < MUON_NODES_MAX; i++) strcat(most, "a,");
    strcat(most, "}");
    expect_written(most, MUON_FILE_MAX, MUON_ACCEPTED, 2 * MUON_NODES_MAX, MUON_FILE_MAX);
    expect_checked(most, MUON_FILE_MAX, MUON_ACCEPTED);
    strcpy(most + 2 * MUON_NODES_MAX - 1, "a,}");
    expect_written(most, MUON_FILE_MAX, MUON_REFUSED_NO_ROOM, 2 * MUON_NODES_MAX + 2, MUON_NODES_MAX + 1);
}

/* Writes a form of the text to a buffer of so many bytes; under a refusal nothing is. */
static void expect_form_by(void (*run)(void), size_t bytes, uint32_t number, size_t place, size_t count, const char *form) {
    static uint8_t before[sizeof plain];
    memset(plain, PAINT, sizeof plain);
    memset(before, PAINT, sizeof before);
    call.bytes = bytes;
    run();
    expect_answer("form", number, place, count);
    size_t written = number == MUON_ACCEPTED ? count : 0;
    if (written == strlen(form) && memcmp(plain, form, written) == 0 && memcmp(plain + written, before, sizeof plain - written) == 0)
        return;
    printf("form of %.40s: not %s\n", call.text, form);
    exit(1);
}

/* Read into the whole table, and then written with so many words of it. */
static void expect_plain(uint32_t level, const char *text, size_t words, size_t bytes, uint32_t number, size_t place, size_t count,
                         const char *form) {
    call.level = level;
    call.text = text;
    call.length = strlen(text);
    call.words = WORDS;
    read_it();
    call.words = words;
    expect_form_by(write_plain_of_it, bytes, number, place, count, form);
}

/* At both levels, with just enough room, and with a byte less. */
static void expect_form(const char *text, const char *form) {
    size_t length = strlen(text), bytes = strlen(form);
    for (uint32_t level = 1; level <= 2; level++) {
        expect_plain(level, text, WORDS, MUON_PLAIN_BYTES(length), MUON_ACCEPTED, length, bytes, form);
        expect_plain(level, text, WORDS, bytes, MUON_ACCEPTED, length, bytes, form);
        expect_plain(level, text, WORDS, bytes - 1, MUON_REFUSED_NO_ROOM, length, bytes, "");
        expect_plain(level, form, WORDS, bytes, MUON_ACCEPTED, bytes, bytes, form);
    }
}

static void plain_forms(void) {
    expect_form("( , x : + 0d 1_0 , )", "(x:+0d10,)");
    expect_form("\xEF\xBB\xBF#!x\n((x):(y)) `c`", "(x:y)");
    expect_form("{a:b, c->d, }", "{a:b,c:d}");
    expect_form("(Array->5)", "(\"Array\":5)");
    expect_form("::Set::a", "::\"Set\"::a");
    expect_form("\"a_ b\" `c` \"\\\\n\"", "\"a_ b\"\"\\\\n\"");
    expect_form("{,,}", "{}");
    expect_plain(2, "(Set:{ , a : 0bTRUE , })", WORDS, BYTES, MUON_ACCEPTED, 24, 16, "(Set:{a:0bTRUE})");
    expect_plain(2, "[ 1 <=*< 2 ]", WORDS, BYTES, MUON_ACCEPTED, 12, 8, "[1<=*<2]");
    /* the reader's refusals, whatever table and buffer are */
    for (size_t words = 0; words <= WORDS; words += WORDS) {
        expect_plain(3, "(x:y)", words, 0, MUON_REFUSED_LEVEL, 0, 0, "");
        expect_plain(1, " [5]", words, BYTES, MUON_REFUSED_NEWER_FORM, 1, 0, "");
        expect_plain(2, "(x", words, 0, MUON_REFUSED_WRONG_PLACE, 2, 0, "");
        expect_plain(2, "\xFF", words, BYTES, MUON_REFUSED_NOT_UTF8, 0, 0, "");
        expect_plain(2, "{b<-a}", words, BYTES, MUON_REFUSED_RETIRED_ARROW, 2, 0, "");
        expect_plain(2, "{\"\\\\<0cxD800>\"}", words, BYTES, MUON_REFUSED_BAD_VALUE, 3, 0, "");
    }
    /* a table that is too short, one that is just long enough, and one that is another's */
    expect_plain(2, "(x:y)", 0, BYTES, MUON_REFUSED_NO_ROOM, 5, 3, "");
    expect_plain(2, "(x:y)", 20, 0, MUON_REFUSED_NO_ROOM, 5, 3, "");
    expect_plain(2, "(x:y)", 21, BYTES, MUON_ACCEPTED, 5, 5, "(x:y)");
    call.words = WORDS;
    for (size_t word = 0; word < 21; word++) {
        table[word] ^= 1;
        for (call.bytes = 0; call.bytes <= BYTES; call.bytes += BYTES) {
            write_plain_of_it();
            expect_answer("plain form", MUON_REFUSED_NOT_THE_FILE, 0, 0);
        }
        table[word] ^= 1;
    }
    table[21] ^= 1;
    call.bytes = BYTES;
    write_plain_of_it();
    expect_answer("plain form", MUON_ACCEPTED, 5, 5);
    /* a table of six words a node, as it was before the skip: too short, and with three words more another's */
    for (size_t word = 0; word < 18; word++) table[word] = table[word / 6 * MUON_NODE_WORDS + word % 6];
    call.words = 18;
    write_plain_of_it();
    expect_answer("plain form", MUON_REFUSED_NO_ROOM, 5, 3);
    call.words = 21;
    write_plain_of_it();
    expect_answer("plain form", MUON_REFUSED_NOT_THE_FILE, 0, 0);
    /* nothing lent */
    size_t place = 1, count = 1;
    if (muon_plain(2, NULL, 0, NULL, 0, NULL, 0, &place, &count) != MUON_REFUSED_WRONG_PLACE || place != 0 || count != 0) exit(1);
    if (muon_plain(2, "5", 1, NULL, 0, NULL, 0, &place, &count) != MUON_REFUSED_NO_ROOM || count != 1) exit(1);
    /* the text and the table are only read */
    static const char text[] = "{b->a}";
    static uint32_t kept[WORDS];
    expect(2, text, WORDS, MUON_ACCEPTED, 6, 3);
    memcpy(kept, table, sizeof kept);
    call.bytes = BYTES;
    write_plain_of_it();
    expect_answer("plain form", MUON_ACCEPTED, 6, 5);
    if (memcmp(kept, table, sizeof kept) != 0 || strcmp(text, "{b->a}") != 0) exit(1);
    /* the longest text, of words that are put in quotes: longer than a text may be, and so not to be read again */
    static char heads[MUON_TEXT_MAX + 1];
    for (size_t at = 0; at + 5 <= MUON_TEXT_MAX; at += 5) memcpy(heads + at, "::Set", 5);
    expect(2, heads, WORDS, MUON_ACCEPTED, 32765, 1);
    call.bytes = sizeof plain;
    write_plain_of_it();
    expect_answer("plain form", MUON_ACCEPTED, 32765, 45871);
    if (muon_read(2, plain, call.count, table, WORDS, &place, &count) != MUON_REFUSED_TOO_LONG) exit(1);
}

static void expect_convert(uint32_t level, const char *text, size_t bytes, uint32_t number, size_t place, size_t count, const char *form) {
    call.level = level;
    call.text = text;
    call.length = strlen(text);
    expect_form_by(convert_it, bytes, number, place, count, form);
}

/* At both levels, with just enough room, and with a byte less; then converted again. */
static void expect_converted(const char *text, const char *form) {
    size_t length = strlen(text), bytes = strlen(form);
    for (uint32_t level = 1; level <= 2; level++) {
        expect_convert(level, text, MUON_PLAIN_BYTES(length), MUON_ACCEPTED, length, bytes, form);
        expect_convert(level, text, bytes, MUON_ACCEPTED, length, bytes, form);
        expect_convert(level, text, bytes - 1, MUON_REFUSED_NO_ROOM, length, bytes, "");
        expect_convert(level, text, 0, MUON_REFUSED_NO_ROOM, length, bytes, "");
        expect_convert(level, form, bytes, MUON_ACCEPTED, bytes, bytes, form);
    }
}

static void conversions(void) {
    expect_converted("(b<-a)", "(a:b)");
    expect_converted("{a,b<-c}", "{a,c:b}");
    expect_converted("(Mix<-5)", "(5:\"Mix\")");
    expect_converted("(a<-(b<-c))", "((c:b):a)");
    expect_converted("\xEF\xBB\xBF#!x\n{ b `c` <- (a), c->d, }", "{a:b,c:d}");
    expect_converted("( , x : + 0d 1_0 , )", "(x:+0d10,)");
    expect_convert(2, "[ 1 .. (b<-a) ]", BYTES, MUON_ACCEPTED, 15, 10, "[1..(a:b)]");
    /* the reader's refusals of before, whatever the buffer is */
    for (size_t bytes = 0; bytes <= BYTES; bytes += BYTES) {
        expect_convert(3, "(b<-a)", bytes, MUON_REFUSED_LEVEL, 0, 0, "");
        expect_convert(1, "(b<-[5])", bytes, MUON_REFUSED_NEWER_FORM, 4, 0, "");
        expect_convert(2, "(b<-", bytes, MUON_REFUSED_WRONG_PLACE, 4, 0, "");
        expect_convert(2, "(,b<-a)", bytes, MUON_REFUSED_WRONG_PLACE, 3, 0, "");
        expect_convert(2, "(a<-$", bytes, MUON_REFUSED_NO_TOKEN, 4, 0, "");
        expect_convert(2, "(a<-1/0)", bytes, MUON_REFUSED_BAD_VALUE, 4, 0, "");
        expect_convert(2, "{a<-\"\\\\<0cxD800>\"}", bytes, MUON_REFUSED_BAD_VALUE, 6, 0, "");
        expect_convert(2, "(b<-a)\xFF", bytes, MUON_REFUSED_NOT_UTF8, 6, 0, "");
    }
    /* nothing lent */
    size_t place = 1, count = 1;
    if (muon_convert(2, NULL, 0, NULL, 0, &place, &count) != MUON_REFUSED_WRONG_PLACE || place != 0 || count != 0) exit(1);
    if (muon_convert(2, "5", 1, NULL, 0, &place, &count) != MUON_REFUSED_NO_ROOM || place != 1 || count != 1) exit(1);
    /* a byte too many */
    static uint8_t spaces[MUON_TEXT_MAX + 1];
    memset(spaces, ' ', sizeof spaces);
    if (muon_convert(2, spaces, sizeof spaces, plain, sizeof plain, &place, &count) != MUON_REFUSED_TOO_LONG || place != 0) exit(1);
    /* the most nodes, and one more */
    static char most[5 * (MUON_NODES_MAX / 2) + 3] = "{";
    for (size_t i = 1; i < MUON_NODES_MAX / 2; i++) strcat(most, "b<-a,");
    strcat(most, "c}");
    expect(2, most, WORDS, MUON_REFUSED_RETIRED_ARROW, 2, 0);
    call.bytes = sizeof plain;
    convert_it();
    expect_answer("conversion", MUON_ACCEPTED, call.length, 4 * (MUON_NODES_MAX / 2 - 1) + 3);
    if (muon_read(2, plain, call.count, table, WORDS, &place, &count) != MUON_ACCEPTED || count != MUON_NODES_MAX) exit(1);
    strcpy(most + call.length - 2, "b<-c}");
    expect_convert(2, most, sizeof plain, MUON_REFUSED_NO_ROOM, strlen(most), MUON_NODES_MAX + 1, "");
}

static void expect_utf8(const char *text, uint32_t number, size_t place, size_t steps) {
    call.text = text;
    call.length = strlen(text);
    utf8_of_it();
    if (call.number == number && call.place == place && call.count == steps) return;
    printf("UTF-8 of %s: %u %zu %zu\n", text, (unsigned)call.number, call.place, call.count);
    exit(1);
}

static void utf8(void) {
    expect_utf8("", MUON_ACCEPTED, 0, 0);
    expect_utf8("seventeen letters", MUON_ACCEPTED, 17, 3);
    expect_utf8("aaaaaaa\xC3\xA9" "bbbbbbbbb\xFF", MUON_REFUSED_NOT_UTF8, 18, 10);
    expect_utf8("\xFF", MUON_REFUSED_NOT_UTF8, 0, 0);
    expect_utf8("12345678\xE2\x82", MUON_REFUSED_NOT_UTF8, 8, 1);
    /* nothing lent */
    size_t place = 1, steps = 1;
    if (muon_utf8(NULL, 0, &place, &steps) != MUON_ACCEPTED || place != 0 || steps != 0) exit(1);
    /* longer than a text that is read */
    static uint8_t zeros[MUON_TEXT_MAX + 9];
    if (muon_utf8(zeros, sizeof zeros, &place, &steps) != MUON_ACCEPTED || place != sizeof zeros) exit(1);
    if (steps != sizeof zeros / 8 + sizeof zeros % 8) exit(1);
}

static void expect_line_column(const char *text, size_t length, size_t place, size_t line, size_t column) {
    static char kept[BYTES];
    struct {
        size_t before, line, between, column, behind;
    } told = {7, 7, 7, 7, 7};
    memcpy(kept, text, length);
    muon_line_column(text, length, place, &told.line, &told.column);
    if (told.line == line && told.column == column && told.before == 7 && told.between == 7 && told.behind == 7 &&
        memcmp(kept, text, length) == 0)
        return;
    printf("place %zu of %s: line %zu, column %zu, not %zu and %zu\n", place, text, told.line, told.column, line, column);
    exit(1);
}

/* All places of a text, and two beyond it: a line and a column each, in digits. */
static void expect_places(const char *text, const char *told) {
    size_t length = strlen(text), places = strlen(told) / 3 + 1;
    if (places != length + 1) exit(1);
    for (size_t place = 0; place < places; place++)
        expect_line_column(text, length, place, (size_t)(told[3 * place] - '0'), (size_t)(told[3 * place + 1] - '0'));
    const char *last = told + 3 * length;
    expect_line_column(text, length, length + 1, (size_t)(last[0] - '0'), (size_t)(last[1] - '0'));
    expect_line_column(text, length, SIZE_MAX, (size_t)(last[0] - '0'), (size_t)(last[1] - '0'));
}

static void lines_and_columns(void) {
    expect_places("", "11");
    expect_places("abc", "11 12 13 14");
    expect_places("a\nbc\n", "11 12 21 22 23 31");
    expect_places("\n\n\tx", "11 21 31 32 33");
    expect_places("a\r\nb", "11 12 13 21 22");
    /* characters of two, three and four bytes, and places inside of them */
    expect_places("\xC3\xA9x", "11 11 12 13");
    expect_places("\xE2\x82\xAC\nx\xF4\x8F\xBF\xBF", "11 11 11 12 21 22 22 22 22 23");
    expect_places("\xEF\xBB\xBF(", "11 11 11 12 13");
    /* not UTF-8: no byte begins a sequence, one that is broken off, by a line too, too long a form, a surrogate, beyond 10FFFF */
    expect_places("\xFF\xFEx", "11 12 13 14");
    expect_places("\x80\xC3", "11 12 13");
    expect_places("\xE2\x82y", "11 12 13 14");
    expect_places("\xF0\x9F\x98\nz", "11 12 13 14 21 22");
    expect_places("\xC0\x80z", "11 12 13 14");
    expect_places("\xED\xA0\x80z", "11 12 13 14 15");
    expect_places("\xF4\x90\x80\x80z", "11 12 13 14 15 16");
    expect_places("\xE2\xC3\xA9z", "11 12 12 13 14");
    /* bytes behind the length are not looked at, and a 0 is one as any other */
    expect_line_column("\xC3\xA9", 1, 1, 1, 2);
    expect_line_column("a\0\nb", 4, 4, 2, 2);
    /* nothing lent */
    size_t line = 0, column = 0;
    muon_line_column(NULL, 0, 0, &line, &column);
    if (line != 1 || column != 1) exit(1);
    muon_line_column(NULL, 0, 9, &line, &column);
    if (line != 1 || column != 1) exit(1);
    /* longer than a text that is read */
    static char feeds[MUON_TEXT_MAX + 9];
    memset(feeds, '\n', sizeof feeds);
    feeds[sizeof feeds - 1] = 'x';
    muon_line_column(feeds, sizeof feeds, sizeof feeds, &line, &column);
    if (line != sizeof feeds || column != 2) exit(1);
    /* where a text is refused */
    expect(2, "(speed : 3000,\n\"\xC3\xA9\" : x y)", WORDS, MUON_REFUSED_WRONG_PLACE, 24, 0);
    expect_line_column(call.text, call.length, call.place, 2, 9);
}

static void expect_word(const char *what, uint32_t number, const char *word, const char *expected) {
    if (strcmp(word, expected) == 0) return;
    printf("%s %u is %s, not %s\n", what, (unsigned)number, word, expected);
    exit(1);
}

/* The words of all numbers from 0 on, and that of any other. */
static void expect_words(const char *what, const char *(*word)(uint32_t), const char *const *words, uint32_t known, const char *other) {
    for (uint32_t number = 0; number < known; number++) expect_word(what, number, word(number), words[number]);
    for (uint32_t beyond = 0; beyond < 100; beyond++) {
        expect_word(what, known + beyond, word(known + beyond), other);
        expect_word(what, UINT32_MAX - beyond, word(UINT32_MAX - beyond), other);
    }
}

static void words(void) {
    static const char *const names[] = {"accepted",    "level",         "too long", "not UTF-8",       "no token",     "bad value",
                                        "wrong place", "newer form",    "no room",  "not the literal", "out of range", "too deep",
                                        "not the mark", "other version", "not the file", "retired arrow"};
    static const char *const messages[] = {
        "accepted",
        "a level other than 1 and 2",
        "longer than 32,768 bytes",
        "not UTF-8",
        "no token starts here",
        "a bad value in a literal",
        "a token in the wrong place",
        "a newer form than the level has",
        "no room in the table or buffer",
        "not exactly one literal of the asked kind",
        "an Integer out of range",
        "more than 32 brackets open at once",
        "not a stored file",
        "a stored file of another version",
        "not the file or table of the text",
        "a retired arrow, <-",
    };
    static const char *const kinds[] = {"unknown", "Ignorance", "Boolean", "Integer", "Fraction", "Bits", "Blob", "Text",
                                        "Nesting", "Pair",      "Tuple",   "Lot",     "Array",    "Set",  "Bag",  "Interval"};
    static const char *const roles[] = {"root", "this", "that", "that", "name", "value", "count", "low", "high", "single"};
    expect_words("refusal", muon_refusal_name, names, MUON_REFUSED_RETIRED_ARROW + 1, "unknown");
    expect_words("refusal", muon_refusal_message, messages, MUON_REFUSED_RETIRED_ARROW + 1, "an unknown number");
    expect_words("kind", muon_kind_name, kinds, MUON_KIND_INTERVAL + 1, "unknown");
    expect_words("role", muon_role_name, roles, MUON_ROLE_SINGLE + 1, "unknown");
    /* the numbers in two of the messages, and one of the manual page */
    if (MUON_TEXT_MAX != 32768 || MUON_DEPTH_MAX != 32 || MUON_NAME_MAX != 256) exit(1);
    char version[BYTES];
    sprintf(version, "%d.%d.%d", MUON_VERSION_MAJOR, MUON_VERSION_MINOR, MUON_VERSION_PATCH);
    if (strcmp(version, MUON_VERSION) != 0) exit(1);
}

/* In the text that was read. */
static void expect_found(uint32_t tuple, const char *name, size_t name_len, uint32_t times, uint32_t value) {
    uint32_t found = 7, met = muon_attribute(call.text, table, tuple, name, name_len, &found);
    if (met == times && found == value) return;
    printf("%s in node %u of %s: %u times, %u\n", name, (unsigned)tuple, call.text, (unsigned)met, (unsigned)found);
    exit(1);
}

/* In a whole text. */
static void expect_attribute(const char *text, size_t nodes, const char *name, uint32_t times, uint32_t value) {
    expect(2, text, WORDS, MUON_ACCEPTED, strlen(text), nodes);
    expect_found(0, name, strlen(name), times, value);
}

static void attributes(void) {
    expect_attribute("(speed:1,)", 3, "speed", 1, 2);
    expect_attribute("(\"speed\":1,)", 3, "speed", 1, 2);
    expect_attribute("(\"sp\" `c` \"eed\":1,)", 3, "speed", 1, 2);
    expect_attribute("(\"\\\\<0c115>peed\":1,)", 3, "speed", 1, 2);
    expect_attribute("(\"\\caf\\<0cxE9>\":1,)", 3, "caf\xC3\xA9", 1, 2);
    expect_attribute("(speed:1,)", 3, "spee", 0, MUON_NONE);
    expect_attribute("(speed:1,)", 3, "speeds", 0, MUON_NONE);
    expect_attribute("(speed:1,)", 3, "Speed", 0, MUON_NONE);
    expect_attribute("(speed:1,)", 3, "", 0, MUON_NONE);
    /* the values before it may have branches, and names of their own */
    expect_attribute("(a:{2,{3}},speed:(4,),b:(speed:5,))", 13, "speed", 1, 7);
    expect_found(10, "speed", 5, 1, 12);
    expect_found(0, "a", 1, 1, 2);
    expect_found(0, "b", 1, 1, 10);
    /* more than once, in whatever form */
    expect_attribute("(x:1,y:2,\"x\":3,0cx78:4)", 9, "x", 3, 2);
    expect_found(0, "y", 1, 1, 4);
    /* no name, one without characters, and a Nesting */
    expect_attribute("(1,speed)", 3, "speed", 0, MUON_NONE);
    expect_found(0, NULL, 0, 0, MUON_NONE);
    expect_attribute("(\"\":1,)", 3, "", 1, 2);
    expect_found(0, NULL, 0, 1, 2);
    expect_attribute("(::speed : 1, ::a::speed : 2, speed : 3)", 7, "speed", 1, 6);
    expect_found(0, "::speed", 7, 0, MUON_NONE);
    /* no Tuple */
    expect_attribute("(speed:1)", 3, "speed", 0, MUON_NONE);
    expect_attribute("{speed:1}", 3, "speed", 0, MUON_NONE);
    expect_attribute("(Bag:{speed:1})", 3, "speed", 0, MUON_NONE);
    expect_attribute("speed", 1, "speed", 0, MUON_NONE);
    expect_attribute("()", 1, "speed", 0, MUON_NONE);
    /* a name need not end in 0, and may have one */
    expect_attribute("(speed:1,)", 3, "speedy", 0, MUON_NONE);
    expect_found(0, "speedy", 5, 1, 2);
    expect_found(0, "speedy", 4, 0, MUON_NONE);
    expect_attribute("(\"\\a\\<0c0>b\":1,)", 3, "a", 0, MUON_NONE);
    expect_found(0, "a\0b", 3, 1, 2);
    expect_found(0, "a\0c", 3, 0, MUON_NONE);
    /* the longest name that is found, and a byte more */
    static char text[MUON_NAME_MAX + 9] = "(", name[MUON_NAME_MAX + 2];
    memset(name, 'n', MUON_NAME_MAX + 1);
    for (size_t bytes = MUON_NAME_MAX; bytes <= MUON_NAME_MAX + 1; bytes++) {
        memcpy(text + 1, name, bytes);
        strcpy(text + 1 + bytes, ":1,)");
        expect(2, text, WORDS, MUON_ACCEPTED, strlen(text), 3);
        int found = bytes == MUON_NAME_MAX;
        expect_found(0, name, bytes, found, found ? 2 : MUON_NONE);
        expect_found(0, name, MUON_NAME_MAX, found, found ? 2 : MUON_NONE);
    }
}

/* Of a node of the text that was read. */
static void expect_same(uint32_t index, const char *name, size_t name_len, int same) {
    if (muon_text_is(call.text, table, index, name, name_len) == same) return;
    printf("node %u of %s is%s %s\n", (unsigned)index, call.text, same ? " not" : "", name);
    exit(1);
}

/* A whole text of one node, against `fast`. */
static void expect_text_is(const char *text, size_t nodes, int same) {
    expect(2, text, WORDS, MUON_ACCEPTED, strlen(text), nodes);
    expect_same(0, "fast", 4, same);
}

static void same_texts(void) {
    expect_text_is("fast", 1, 1);
    expect_text_is("\"fast\"", 1, 1);
    expect_text_is("\"fa\" `c` \"\\\\<0c115>t\"", 1, 1);
    expect_text_is("fas", 1, 0);
    expect_text_is("faster", 1, 0);
    expect_text_is("fasT", 1, 0);
    expect_text_is("\"\"", 1, 0);
    expect_same(0, NULL, 0, 1);
    /* other kinds, which have the same bytes or none */
    expect_text_is("::fast", 1, 0);
    expect_text_is("(fast,)", 2, 0);
    expect_same(1, "fast", 4, 1);
    expect_text_is("{fast}", 2, 0);
    expect_text_is("()", 1, 0);
    expect_same(0, NULL, 0, 0);
    expect_text_is("5", 1, 0);
    expect_same(0, "5", 1, 0);
    expect_text_is("0bTRUE", 1, 0);
    expect_same(0, "0bTRUE", 6, 0);
}

/* In the text that was read. */
static void expect_unknown_in(uint32_t tuple, const char *const *names, uint32_t index) {
    uint32_t found = muon_unknown(call.text, table, tuple, names);
    if (found == index) return;
    printf("unknown in node %u of %s: %u\n", (unsigned)tuple, call.text, (unsigned)found);
    exit(1);
}

/* In a whole text, where `speed`, `site` and a name with a character of two bytes are known. */
static const char *const known[] = {"speed", "site", "caf\xC3\xA9", NULL};

static void expect_unknown(const char *text, size_t nodes, uint32_t index) {
    expect(2, text, WORDS, MUON_ACCEPTED, strlen(text), nodes);
    expect_unknown_in(0, known, index);
}

static void unknown_attributes(void) {
    static const char *const none[] = {NULL}, *const empty[] = {"", NULL};
    expect_unknown("(speed:1,site:2)", 5, MUON_NONE);
    expect_unknown("(site:2,)", 3, MUON_NONE);
    expect_unknown("(site:1,site:2,speed:3)", 7, MUON_NONE);
    expect_unknown("(\"speed\":1,\"\\\\<0c115>ite\":2,\"\\caf\\<0cxE9>\":3)", 7, MUON_NONE);
    /* misspelt, first, in the middle and last */
    expect_unknown("(sped:1,site:2)", 5, 1);
    expect_unknown("(speed:1,sites:2,site:3)", 7, 3);
    expect_unknown("(speed:1,site:2,Site:3)", 7, 5);
    expect_unknown("(speed:1,\"sit\":2,speeds:3)", 7, 3);
    /* no name, though its value is one of the names */
    expect_unknown("(speed:3,000,site:x)", 6, 3);
    expect_unknown("(speed,site)", 3, 1);
    expect_unknown("(site:2,speed)", 4, 3);
    expect_unknown("(site:2,{speed},x:3)", 7, 3);
    /* a Nesting */
    expect_unknown("(speed:1,::site:2)", 5, 3);
    expect_unknown("(::site::speed:1,)", 3, 1);
    /* values with branches are passed, and have names of their own */
    expect_unknown("(speed:{2,{3}},site:(x:4,),sped:5)", 12, 10);
    expect_unknown_in(7, known, 8);
    expect_unknown("(speed:(a:1,b:(c:2,)),site:{x:y})", 13, MUON_NONE);
    expect_unknown_in(2, known, 3);
    expect_unknown_in(6, known, 7);
    /* no attributes, no names, and one without characters */
    expect_unknown("()", 1, MUON_NONE);
    expect_unknown_in(0, none, MUON_NONE);
    expect_unknown("(speed:1,)", 3, MUON_NONE);
    expect_unknown_in(0, none, 1);
    expect_unknown("(\"\":1,)", 3, 1);
    expect_unknown_in(0, empty, MUON_NONE);
    /* a name with a 0 is not the C string before it */
    expect_unknown("(\"\\site\\<0c0>\":1,)", 3, 1);
    /* no Tuple: the node itself, wherever it is */
    expect_unknown("(speed:1)", 3, 0);
    expect_unknown("{speed:1,site:2}", 5, 0);
    expect_unknown("{}", 1, 0);
    expect_unknown("(Set:{speed})", 2, 0);
    expect_unknown("speed", 1, 0);
    expect_unknown("(speed:(site:1),site:{})", 7, MUON_NONE);
    expect_unknown_in(2, known, 2);
    expect_unknown_in(6, known, 6);
    /* the longest name that is found, and a byte more */
    static char text[MUON_NAME_MAX + 9] = "(", name[MUON_NAME_MAX + 2];
    const char *const names[] = {"speed", name, NULL};
    for (size_t bytes = MUON_NAME_MAX; bytes <= MUON_NAME_MAX + 1; bytes++) {
        memset(name, 'n', bytes);
        memcpy(text + 1, name, bytes);
        strcpy(text + 1 + bytes, ":1,)");
        expect(2, text, WORDS, MUON_ACCEPTED, strlen(text), 3);
        expect_unknown_in(0, names, bytes == MUON_NAME_MAX ? MUON_NONE : 1);
    }
}

/* Of a whole text: its value, and that every other node of it is refused. */
static void expect_boolean(const char *text, size_t nodes, uint32_t number, int value) {
    expect(2, text, WORDS, MUON_ACCEPTED, strlen(text), nodes);
    for (uint32_t index = 0; index < nodes; index++) {
        int found = 7;
        uint32_t told = muon_boolean(table, index, &found);
        if (told == (index == 0 ? number : MUON_REFUSED_NOT_THE_LITERAL) && found == (index == 0 ? value : 0)) continue;
        printf("Boolean of node %u of %s: %u, %d\n", (unsigned)index, text, (unsigned)told, found);
        exit(1);
    }
}

static void booleans(void) {
    /* every other kind, and every detail of a Text and of an Interval */
    static const char *const others[] = {"0sIGNORANCE", "1", "0", "1.0", "0bb1", "0xx01", "\"false\"", "true", "TRUE", "0c49", "::true"};
    static const struct {
        const char *text;
        size_t nodes;
    } branches[] = {
        {"(x:y)", 3},    {"()", 1},       {"{}", 1},        {"(Array:{})", 1}, {"(Set:{})", 1}, {"(Bag:{})", 1}, {"[]", 1},
        {"[1]", 2},      {"[1<=*<=2]", 3}, {"[1<=*<2]", 3}, {"[1<*<=2]", 3},   {"[1<*<2]", 3},  {"[1<=*]", 2},   {"[1<*]", 2},
        {"[*<=2]", 2},   {"[*<2]", 2},    {"[*]", 1},       {"[1..2]", 3},
    };
    expect_boolean("0bTRUE", 1, MUON_ACCEPTED, 1);
    expect_boolean("0bFALSE", 1, MUON_ACCEPTED, 0);
    for (size_t i = 0; i < sizeof others / sizeof *others; i++) expect_boolean(others[i], 1, MUON_REFUSED_NOT_THE_LITERAL, 0);
    for (size_t i = 0; i < sizeof branches / sizeof *branches; i++)
        expect_boolean(branches[i].text, branches[i].nodes, MUON_REFUSED_NOT_THE_LITERAL, 0);
    /* within a Tuple */
    expect(2, "(armed:0bTRUE,off:0bFALSE)", WORDS, MUON_ACCEPTED, 26, 5);
    int value = 7;
    if (muon_boolean(table, 2, &value) != MUON_ACCEPTED || value != 1) exit(1);
    if (muon_boolean(table, 4, &value) != MUON_ACCEPTED || value != 0) exit(1);
    if (muon_boolean(table, 1, &value) != MUON_REFUSED_NOT_THE_LITERAL || value != 0) exit(1);
}

/* The words and the bytes of a node. */
static void nodes(void) {
    expect(2, "( x : 29 56 , )", WORDS, MUON_ACCEPTED, 15, 3);
    for (uint32_t word = 0; word < 3 * MUON_NODE_WORDS; word++)
        if (muon_node_word(table, word / MUON_NODE_WORDS, word % MUON_NODE_WORDS) != table[word]) exit(1);
    if (muon_piece(call.text, table, 0) != call.text || muon_piece_len(table, 0) != 15) exit(1);
    if (muon_piece(call.text, table, 2) != call.text + 6 || muon_piece_len(table, 2) != 5) exit(1);
    size_t place, count;
    int64_t value;
    if (muon_integer(muon_piece(call.text, table, 2), muon_piece_len(table, 2), &value, &place, &count) != MUON_ACCEPTED) exit(1);
    if (value != 2956) exit(1);
}

/* The longest ways through a literal. */
static const char *const literals[] = {
    "",    "5",     "-0x F_F `c` 0", "1 2.3 4*0b1 0^- 0x F F", "-1/2_0*3 0^+4_0", "1/0*1^2", "0bx F_F", "0xyAAAA_AAAA AA==", "0xxFF FF",
    "0cx41", "word", "Relation",     "\"a\" \"\\\\<0cx10_FFFF>\\n\"", "\"\\\\<0cx10FFFF>\"", "::a::\"\\\\<0c65>\"", "0Lct", "`c", "1/2*3",
    "\"\xF4\x8F\xBF\xBF\"", "Set:{1}", "(5)", "{5:1.5*2^3}", "\"a\" `c` \"\\\\<0c65>\\<0cx0110000>\"", "::a::\"\\b\" \"\\\\<0cxD800>\"", "0cxD800",
};

/* And through the value of one. */
static const char *const pieces[] = {
    "-`c` 0x `c` 7FFF FFFF `c` FFFF_FFFF", "-9223372036854775808", "9223372036854775808", "0b 1_0 1", "+0o 7 7", "0d 1", "99999999999999999999999",
    "\"a\" `c` \"\\\\<0cx10FFFF>\\<0co7>\\<0cb1>\\<0cd9>\\n\" \"\xC3\xA9\"", "\"\\\\<0cxD800>\"", "\"a\" `c` \"\\\\<0c65>\\n\\<0cxDFFF>\"",
    "0c1114111", "0c1114112", "0cb1", "\"\\\xF4\x8F\xBF\xBF\"",
    "\"\\", "\"a\" `c", "0cxF0\xFF",
    "0xb `c` 10101010_00000001 `1`", "0xb `c` 10101010_00000001`1` 11111111", "0xx `c` A7_05 `0` FF", "0xxA", "0xy `c` TWFu_TWE=", "0xyTWFu TQ== ",
    "0xyTWFu`=`TQ==", "0xyAB==", "0xyAAB=", "0xy====", "0xyAA==_AAAA", "0bb `c` 1_0`1` 1", "0bo `c` 7_0`1` 1", "0bx `c` F_0`1` A", "0bx", "0bb1_",
};

static size_t most_touched_by(void (*run)(void)) {
    size_t none = touched(read_nothing), most = 0, known = sizeof literals / sizeof *literals;
    for (size_t l = 0; l < known + sizeof pieces / sizeof *pieces; l++) {
        call.text = l < known ? literals[l] : pieces[l - known];
        call.length = strlen(call.text);
        for (call.bytes = 0; call.bytes <= BYTES; call.bytes += BYTES) {
            size_t bytes = touched(run) - none;
            if (bytes > most) most = bytes;
        }
    }
    return most;
}

/* By a call of the reader, at both levels, with no table and with one. */
static size_t most_touched_reading_it(void) {
    size_t most = 0;
    for (call.level = 1; call.level <= 2; call.level++) {
        for (call.words = 0; call.words <= WORDS; call.words += WORDS) {
            size_t bytes = touched(read_it);
            if (bytes > most) most = bytes;
        }
    }
    return most;
}

static size_t most_touched_writing_its_file(void) {
    size_t most = 0;
    for (call.bytes = 0; call.bytes <= MUON_FILE_MAX; call.bytes += MUON_FILE_MAX) {
        size_t bytes = touched(write_file_of_it);
        if (bytes > most) most = bytes;
    }
    return most;
}

/* Its own file if it has one, and else what has a mark and a version. */
static size_t most_touched_checking_its_file(void) {
    call.bytes = MUON_FILE_MAX;
    write_file_of_it();
    if (call.number == MUON_ACCEPTED) {
        call.bytes = call.count;
    } else {
        static const uint8_t front[] = {'F', 'N', 'T', 0, MUON_FILE_VERSION};
        memcpy(stored, front, sizeof front);
        call.bytes = sizeof front;
    }
    return touched(check_file_of_it);
}

/* With its own table and with another, at both levels, and with no buffer and a whole one. */
static size_t most_touched_writing_it_plainly(void) {
    size_t most = 0;
    for (call.level = 1; call.level <= 2; call.level++) {
        call.words = WORDS;
        read_it();
        for (int changed = 0; changed <= 1; changed++) {
            table[0] ^= (uint32_t)changed;
            for (call.bytes = 0; call.bytes <= sizeof plain; call.bytes += sizeof plain) {
                size_t bytes = touched(write_plain_of_it);
                if (bytes > most) most = bytes;
            }
        }
    }
    return most;
}

/* At both levels, and with no buffer and a whole one. */
static size_t most_touched_converting_it(void) {
    size_t most = 0;
    for (call.level = 1; call.level <= 2; call.level++) {
        for (call.bytes = 0; call.bytes <= sizeof plain; call.bytes += sizeof plain) {
            size_t bytes = touched(convert_it);
            if (bytes > most) most = bytes;
        }
    }
    return most;
}

/* As many brackets as may be open around the literals. */
static size_t most_touched_by_a_reading(size_t (*most_by)(void)) {
    static const char *const openers[][2] = {
        {"(", ")"},      {"{", "}"},         {"[", "]"},      {"(a,", ")"},     {"(,", ")"},         {"(a:", ")"},
        {"(a->", ")"},   {"(b<-", ")"},      {"{a:", "}"},    {"{a,", "}"},     {"{,", "}"},         {"[a..", "]"},
        {"[a<=*<", "]"}, {"[*<=", "]"},      {"(Set:{", "})"}, {"(Bag:{", "})"}, {"(Array:{a,", "})"}, {"((a:", "))"},
        {"({", "})"},    {"([", "])"},       {"{(", ")}"},    {"[(", ")]"},     {"(a:b,c:", ")"},    {"(((a,", ")))"},
        {"(", "<-b)"},   {"{b<-", "}"},      {"{", "<-b}"},   {"{a,b<-", "}"},  {"(", "->b)"},       {"{", ":b}"},
    };
    size_t none = touched(read_nothing), most = 0;
    for (size_t o = 0; o < sizeof openers / sizeof *openers; o++) {
        const char *open = openers[o][0], *close = openers[o][1];
        size_t brackets = 0;
        for (const char *at = open; *at; at++) brackets += strchr("({[", *at) != NULL;
        for (size_t l = 0; l < sizeof literals / sizeof *literals; l++) {
            for (size_t times = MUON_DEPTH_MAX / brackets - 1; times <= MUON_DEPTH_MAX / brackets + 1; times++) {
                static char text[2000];
                text[0] = 0;
                for (size_t i = 0; i < times; i++) strcat(text, open);
                strcat(text, literals[l]);
                for (size_t i = 0; i < times; i++) strcat(text, close);
                call.text = text;
                call.length = strlen(text);
                size_t bytes = most_by() - none;
                if (bytes > most) most = bytes;
            }
        }
    }
    return most;
}

int main(void) {
    answers();
    walks();
    integers();
    texts();
    blobs();
    paddings();
    bits();
    files();
    plain_forms();
    conversions();
    utf8();
    lines_and_columns();
    words();
    attributes();
    same_texts();
    unknown_attributes();
    booleans();
    nodes();
    printf("muon_read %zu\n", most_touched_by_a_reading(most_touched_reading_it));
    printf("muon_integer %zu\n", most_touched_by(integer_of_it));
    printf("muon_text %zu\n", most_touched_by(text_of_it));
    printf("muon_blob %zu\n", most_touched_by(blob_of_it));
    printf("muon_bits %zu\n", most_touched_by(bits_of_it));
    printf("muon_file_write %zu\n", most_touched_by_a_reading(most_touched_writing_its_file));
    printf("muon_file_check %zu\n", most_touched_by_a_reading(most_touched_checking_its_file));
    printf("muon_plain %zu\n", most_touched_by_a_reading(most_touched_writing_it_plainly));
    printf("muon_convert %zu\n", most_touched_by_a_reading(most_touched_converting_it));
    printf("muon_utf8 %zu\n", most_touched_by(utf8_of_it));
    printf("muon_line_column %zu\n", most_touched_by(line_column_of_it));
    return 0;
}
