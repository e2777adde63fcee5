/* A proved reader of MUON plain text (Muldis Object Notation 0.300.0) at the levels 1 and 2: muon_read gives the nodes
   of a text, muon_integer, muon_text, muon_blob and muon_bits give the value of one literal, muon_file_write and muon_file_check keep
   what was read in a file beside the text, muon_plain writes a text again in its plain form, muon_convert does so with a text that may
   still have the arrow `<-`, muon_utf8 tests bytes for UTF-8 alone, and muon_line_column tells the line and the column of a place.

   The language on one page: docs/SETTINGS.md. A setting read by its name: examples/settings.c.

   The archive is crates/capi/out/libcapi.a, written there by `rt lib` (x86-64); it needs no other library, but for memset, which a C
   compiler's own code needs as well. Linking, with the repository's or, behind `make install`, with the one that is then called libmuon.a:

       cc -Iinclude program.c crates/capi/out/libcapi.a
       cc program.c $(pkg-config --cflags --libs muon)

   The contract of every call here is proved for all inputs: any bytes, any level and any lent memory give an answer, and lent memory
   is touched as said below and not otherwise. What is not proved is the caller: a length that is not the memory's own, or memory that
   is lent twice; and the functions that stand in this header whole, for they are C. */
#ifndef MUON_H
#define MUON_H

#include <stddef.h>
#include <stdint.h>

#ifdef __cplusplus
extern "C" {
#endif

/* The version of header and archive. */
#define MUON_VERSION_MAJOR 0
#define MUON_VERSION_MINOR 2
#define MUON_VERSION_PATCH 0
#define MUON_VERSION "0.2.0"

/* Of a call whose result must not be ignored: a compiler that can warns of it. */
#if (defined(__cplusplus) && __cplusplus >= 201703L) || (defined(__STDC_VERSION__) && __STDC_VERSION__ >= 202311L)
#define MUON_MUST_USE [[nodiscard]]
#elif defined(__GNUC__)
#define MUON_MUST_USE __attribute__((__warn_unused_result__))
#else
#define MUON_MUST_USE
#endif

#if defined(__cplusplus) || (defined(__STDC_VERSION__) && __STDC_VERSION__ >= 199901L)
#define MUON_INLINE static inline
#elif defined(__GNUC__) /* C90 has no inline, and a static function that is not used is warned of */
#define MUON_INLINE static __inline__
#else
#define MUON_INLINE static
#endif

/* ---- Sizes ------------------------------------------------------------------------------------------------------------------ */

/* The longest text or piece, in bytes. A program that reads a file into memory of fixed size lends one byte more, so that a longer file is
   refused with 2 and not cut: what is left of it might be accepted. */
#define MUON_TEXT_MAX 32768
/* The most brackets open at once: each of ( { [ counts, also where it makes no node. */
#define MUON_DEPTH_MAX 32
/* Words of a node. */
#define MUON_NODE_WORDS 7
/* The most nodes that a table takes, however long it is. */
#define MUON_NODES_MAX 1024
/* The longest table that is made use of: 7,168 words. */
#define MUON_TABLE_MAX (MUON_NODES_MAX * MUON_NODE_WORDS)
/* The longest buffer that muon_bits makes use of, for no piece has more bits; muon_text and muon_blob need no more bytes than a piece. */
#define MUON_BITS_MAX (4 * MUON_TEXT_MAX)
/* The bytes of the stored file of a text with so many nodes, and those of the longest one: 12,297 bytes. */
#define MUON_FILE_BYTES(nodes) (9 + 12 * (nodes))
#define MUON_FILE_MAX MUON_FILE_BYTES(MUON_NODES_MAX)
/* Bytes that are always enough for the plain form of a text of so many bytes. It may be longer than the text, by two bytes for each word
   that it has to put in quotes. */
#define MUON_PLAIN_BYTES(text_len) (2 * (text_len))

/* The stack that a call needs at most, in bytes, whatever the input; muon_file_write, muon_file_check, muon_plain and muon_convert have
   another number.
   Behind it: the frames of muon_read times the open brackets that there may be come to 26,968 bytes in the archive as built today, those of
   muon_integer to 536, of muon_text to 752, of muon_blob to 552, of muon_bits to 456, of muon_utf8 to 216 and of muon_line_column to 232;
   the most that was measured, over the deepest texts and the longest ways through a literal, is 26,648, 536, 752, 552, 456, 72 and 72
   (tests/stack prints them and fails if one exceeds the number here).
   No call takes memory from anywhere else. */
#define MUON_STACK_MAX 32768
/* The stack that muon_file_write, muon_file_check, muon_plain and muon_convert need at most, since each reads the text into a table on its
   stack. By the frames it comes to 55,704 bytes at most; 55,352 and 55,336 were measured for the two calls of stored files, 55,400 for
   muon_plain and 55,368 for muon_convert (tests/stack, too). */
#define MUON_FILE_STACK_MAX (MUON_STACK_MAX + 4 * MUON_TABLE_MAX)

/* ---- The answer ------------------------------------------------------------------------------------------------------------- */

/* A call returns the answer's number, and writes its place and its count, muon_utf8 its steps in place of a count, in every case;
   muon_line_column alone refuses nothing, and returns nothing. A result that is ignored is warned of (MUON_MUST_USE).

   Accepted is 0: the place is the length of the text or piece, and the count is the number of nodes written by muon_read, of bytes
   written by muon_text, muon_blob, muon_bits, muon_file_write, muon_plain and muon_convert, of the file's bytes for muon_file_check, and 0
   for muon_integer.
   A refusal leaves the table or buffer as it was. Its count is 0, except under MUON_REFUSED_NO_ROOM. */
#define MUON_ACCEPTED 0

/* The refusals, and the place that each one gives. Places are bytes, counted from 0 at the start of the lent text or piece; a byte-order
   mark and a first line `#!` of a text are counted too. */

/* The level is not 1 or 2. Place 0. */
#define MUON_REFUSED_LEVEL 1
/* The text or piece is longer than MUON_TEXT_MAX. Place 0. muon_utf8 takes any length. */
#define MUON_REFUSED_TOO_LONG 2
/* Not UTF-8. The first byte at which, reading well-formed sequences from the front, none begins. */
#define MUON_REFUSED_NOT_UTF8 3
/* No token starts here. That byte. */
#define MUON_REFUSED_NO_TOKEN 4
/* A bad value in a literal: a code point outside 0..D7FF and E000..10FFFF, denominator 0, radix below 2, or a base-64 Blob that RFC 4648
   does not have (see muon_blob). For a code point in quotes, the backslash of its escape, the first such one in the literal, in whichever
   segment; else the literal's first byte, in a Nesting that of the Text. `"\\<0cxD800>"` is 5@2, `(x:"\\<0cx110000>")` is 5@5, and
   `"a" "\b\<0c65>\<0cxD800>\<0cxDFFF>"` is 5@14, but `0cxD800` is 5@0, `::a::0cxD800` is 5@5 and `{1/0}` is 5@1. */
#define MUON_REFUSED_BAD_VALUE 5
/* A token in the wrong place. Its first byte; the end counts as a token at the text's length. */
#define MUON_REFUSED_WRONG_PLACE 6
/* A newer form: a construct beyond the level at a place for a value. The construct's first byte. */
#define MUON_REFUSED_NEWER_FORM 7
/* No room: the table or buffer is too short, or there are more than MUON_NODES_MAX nodes. The length of the text or piece; the count is
   the nodes or bytes needed. */
#define MUON_REFUSED_NO_ROOM 8
/* The piece is not exactly one literal of the asked kind. Place 0. */
#define MUON_REFUSED_NOT_THE_LITERAL 9
/* An Integer outside -2^63 to 2^63 - 1. Place 0. */
#define MUON_REFUSED_OUT_OF_RANGE 10
/* More than MUON_DEPTH_MAX brackets. The bracket that would be the 33rd open. */
#define MUON_REFUSED_TOO_DEEP 11
/* Not a stored file: it has fewer than five bytes, or does not begin with the mark. Place 0. */
#define MUON_REFUSED_NOT_THE_MARK 12
/* A stored file of another version than MUON_FILE_VERSION. Place 0. */
#define MUON_REFUSED_OTHER_VERSION 13
/* Not the stored file of the text, or, from muon_plain, not its table. Place 0. */
#define MUON_REFUSED_NOT_THE_FILE 14
/* An arrow `<-` where one was allowed until it was retired: between the two values of a pair, in `(b<-a)` and in `{b<-a}`. Its first byte.
   Elsewhere it is MUON_REFUSED_WRONG_PLACE, as before. */
#define MUON_REFUSED_RETIRED_ARROW 15

/* Which refusal is given.

   muon_read: 1, 2 and 3 are tested in this order over the whole text. Then the tokens are judged from left to right, and the first
   faulty one decides: at one token 4, 6, 15, 7, 5, 11 in this order, and whether an arrow `<-` is 6 is judged as if it were still allowed.
   8 comes last, so a text that gets it is accepted with a table of count * MUON_NODE_WORDS words, if the count is at most MUON_NODES_MAX.
   No other. `{a,b<-c}` is 15@4 and `(a<-$` is 15@2, but `(<-a)` is 6@1, `(,a<-b)` is 6@3, `(0L<-5)` is 7@1 and `(1/0<-b)` is 5@1.
   The token that 5 is judged at is the literal, wherever in it the place is: `x "\\<0cxD800>"` is 6@2, and `"\\<0cxD800>" $` is 5@2.
   muon_integer: 2, 3, 9, 10 in this order, and no other.
   muon_text, muon_blob: 2, 3, 9, 5, 8 in this order, and no other. A piece that gets 8 is accepted with a buffer of count bytes
   (proved; `told_room` in `crates/values/proofs/Fits.antt`).
   muon_bits: the same without 5.
   muon_file_write: those of muon_read at level 2 with a table of MUON_TABLE_MAX words, with their places and counts; so never 1, and 8 with
   the nodes if they are more than MUON_NODES_MAX. Then 8 with the file's bytes if the buffer is shorter.
   muon_file_check: 12, 13, 14 in this order, and no other, all with place 0 and count 0. Under 12 and 13 the text is not looked at; a text
   that the reader refused before the arrow was retired, too, is 14, whatever its number.
   muon_plain: those of muon_read at that level with a table of that length, with their places and counts; so 8 with the nodes if the table
   is too short for them. Then 14 if the table does not begin with the words that muon_read writes for the text, then 8 with the bytes of
   the plain form if the buffer is shorter. No other.
   muon_convert: those of muon_read at that level with a table of MUON_TABLE_MAX words, with their places and counts, as they were before
   the arrow was retired; so never 15, and 8 with the nodes if they are more than MUON_NODES_MAX. Then 8 with the bytes of the plain form if
   the buffer is shorter. No other.
   muon_utf8: 3, and no other. muon_line_column: none. */

/* ---- The nodes -------------------------------------------------------------------------------------------------------------- */

/* A node is seven words of the table; the nodes stand one behind the other, the root first, a parent before its children, children in
   the order of the text. Of the node with index i, counted from 0:

       table[7 * i + MUON_NODE_KIND]     kind
       table[7 * i + MUON_NODE_FIRST]    place of its first byte
       table[7 * i + MUON_NODE_END]      place of the byte after its last
       table[7 * i + MUON_NODE_PARENT]   index of its parent; 0 for the root
       table[7 * i + MUON_NODE_ROLE]     what it is to its parent
       table[7 * i + MUON_NODE_DETAIL]   a further detail of its kind, else 0
       table[7 * i + MUON_NODE_SKIP]     index just past its last descendant, or past itself if it has none

   The skip passes a whole branch: what descends from node i are the nodes from i + 1 up to the one before its skip, and no others, so the
   root's skip is the count. The first child of i, if it has one, is i + 1; behind a child the next one begins at that child's skip, and the
   last child's skip is the skip of i. `(x:(y,z))` has the nodes `9 0 9 0 0 0 5`, `7 1 2 0 1 2 2`, `10 3 8 0 2 0 5`, `7 4 5 2 5 2 4` and
   `7 6 7 2 5 2 5`. muon_first_child and muon_next_sibling walk so; see below. */
#define MUON_NODE_KIND 0
#define MUON_NODE_FIRST 1
#define MUON_NODE_END 2
#define MUON_NODE_PARENT 3
#define MUON_NODE_ROLE 4
#define MUON_NODE_DETAIL 5
#define MUON_NODE_SKIP 6

/* What a caller of settings needs of this:

   An attribute of a Tuple that has a name is two nodes, the name and right behind it its value: a name has no children, so the value has
   the name's index + 1. An attribute without a name is its value alone. `(speed:1,2)` has the nodes `10 0 11 0 0 0 4`, `7 1 6 0 4 2 2`,
   `3 7 8 0 5 0 3` and `3 9 10 0 5 0 4`.
   Compare names by muon_text and not by their bytes: the names of `(speed:1,)` and `("speed":1,)` are one name. muon_attribute does so, and
   counts, for a Tuple may have a name twice: `(x:1,x:2)` has 5 nodes. muon_unknown meets the names that a program does not know.
   MUON_NODES_MAX is met before MUON_TEXT_MAX: from 2 KB on in the densest text, `{1,1,1}` with 1,024 members, which has 2,049 bytes; with
   attributes such as the one of `(speed:3000,)` from 5.6 KB on, and with space and a comment to each from some 20 KB on. Then muon_read
   gives MUON_REFUSED_NO_ROOM, and a count above MUON_NODES_MAX says that no table helps: divide the settings between two texts, or write a
   long row of numbers as one Blob or Text, which is one node however long it is. */

/* Kinds. A group `(v)` makes no node. The names in a Nesting are no nodes either. */
#define MUON_KIND_IGNORANCE 1
#define MUON_KIND_BOOLEAN 2 /* detail 0: FALSE, 1: TRUE; see muon_boolean */
#define MUON_KIND_INTEGER 3
#define MUON_KIND_FRACTION 4
#define MUON_KIND_BITS 5
#define MUON_KIND_BLOB 6
#define MUON_KIND_TEXT 7 /* detail 1: quoted, 2: word, 3: code point */
#define MUON_KIND_NESTING 8
#define MUON_KIND_PAIR 9
#define MUON_KIND_TUPLE 10
#define MUON_KIND_LOT 11
#define MUON_KIND_ARRAY 12 /* 12 to 15: at level 2 only */
#define MUON_KIND_SET 13
#define MUON_KIND_BAG 14
#define MUON_KIND_INTERVAL 15 /* detail: see below */

/* Roles. */
#define MUON_ROLE_ROOT 0
#define MUON_ROLE_THIS 1        /* the left side of `a:b` and `a->b`, in files stored before the right side of `b<-a`; a member by itself */
#define MUON_ROLE_THAT_AFTER 2  /* the right side of `a:b` and `a->b` */
#define MUON_ROLE_THAT_BEFORE 3 /* the left side of `b<-a`: only in files stored before the arrow was retired, no reading gives it */
#define MUON_ROLE_NAME 4        /* the name of an attribute of a Tuple */
#define MUON_ROLE_VALUE 5       /* the value of an attribute of a Tuple; a member of an Array, a Set or a Bag */
#define MUON_ROLE_COUNT 6       /* behind a member of an Array, a Set or a Bag */
#define MUON_ROLE_LOW 7         /* the low end of an Interval */
#define MUON_ROLE_HIGH 8        /* the high end of an Interval */
#define MUON_ROLE_SINGLE 9      /* the one value of `[v]` */

/* Details of a Boolean, a Text and an Interval; every other kind's detail is 0. */
#define MUON_DETAIL_FALSE 0
#define MUON_DETAIL_TRUE 1
#define MUON_DETAIL_QUOTED 1
#define MUON_DETAIL_WORD 2
#define MUON_DETAIL_CODE_POINT 3
#define MUON_DETAIL_EMPTY 0       /* []        */
#define MUON_DETAIL_ONE 1         /* [v]       */
#define MUON_DETAIL_CLOSED 2      /* [a<=*<=b] */
#define MUON_DETAIL_HIGH_OPEN 3   /* [a<=*<b]  */
#define MUON_DETAIL_LOW_OPEN 4    /* [a<*<=b]  */
#define MUON_DETAIL_OPEN 5        /* [a<*<b]   */
#define MUON_DETAIL_FROM 6        /* [a<=*]    */
#define MUON_DETAIL_ABOVE 7       /* [a<*]     */
#define MUON_DETAIL_UP_TO 8       /* [*<=b]    */
#define MUON_DETAIL_BELOW 9       /* [*<b]     */
#define MUON_DETAIL_UNLIMITED 10  /* [*]       */
#define MUON_DETAIL_DOTS 11       /* [a..b]    */

/* ---- Walking the nodes ------------------------------------------------------------------------------------------------------ */

/* No index: what functions below give where there is no such node. No node has it, since a table has at most MUON_NODES_MAX; 0
   would not do, since the root has it. */
#define MUON_NONE 0xFFFFFFFFu

/* The functions that stand here whole, in this section and in the last one, are no part of the archive, and not proved. What is proved, of
   every table that muon_read has written, is that the way the first two go, from the next index by each child's skip up to the node's own,
   meets all children and nothing else. Those of this section read at most three words of the table and write nothing. The table must be one
   that muon_read has accepted a text with, and the index below the count of that reading; otherwise words outside of the table may be read.
   All children of a node, each passed with all that is below it:

       for (i = muon_first_child(table, node); i != MUON_NONE; i = muon_next_sibling(table, i))

   examples/walk.c walks a whole text so. */

/* The index of a node's first child, or MUON_NONE if it has no children. */
MUON_INLINE uint32_t muon_first_child(const uint32_t *table, uint32_t index) {
    uint32_t skip = table[MUON_NODE_WORDS * index + MUON_NODE_SKIP];
    return skip > index + 1 ? index + 1 : MUON_NONE;
}

/* The index of the next child of the same parent, or MUON_NONE if a node is the last one, or the root. */
MUON_INLINE uint32_t muon_next_sibling(const uint32_t *table, uint32_t index) {
    uint32_t skip = table[MUON_NODE_WORDS * index + MUON_NODE_SKIP];
    uint32_t parent = table[MUON_NODE_WORDS * index + MUON_NODE_PARENT];
    return skip < table[MUON_NODE_WORDS * parent + MUON_NODE_SKIP] ? skip : MUON_NONE;
}

/* A word of a node: muon_node_word(table, index, MUON_NODE_KIND) is its kind. */
MUON_INLINE uint32_t muon_node_word(const uint32_t *table, uint32_t index, uint32_t word) {
    return table[MUON_NODE_WORDS * index + word];
}

/* The bytes of a node, which the value calls take as their piece: where they begin in the text, the one that was read, and how many they
   are. */
MUON_INLINE const void *muon_piece(const void *text, const uint32_t *table, uint32_t index) {
    return (const uint8_t *)text + muon_node_word(table, index, MUON_NODE_FIRST);
}

MUON_INLINE size_t muon_piece_len(const uint32_t *table, uint32_t index) {
    return muon_node_word(table, index, MUON_NODE_END) - muon_node_word(table, index, MUON_NODE_FIRST);
}

/* ---- The stored file ------------------------------------------------------------------------------------------------------- */

/* The nodes of a text as bytes, to be kept beside it. Behind the mark, every number has two bytes, the high one first.

       from byte     bytes
       0             3        the mark, the letters FNT: hexadecimal 46 4E 54
       3             2        the version, MUON_FILE_VERSION
       5             2        the number of nodes, n
       7             2        the length of the text
       9 + 12 * i    12       the node with index i, counted from 0: its first six words, two bytes each, in the order of the table

   So word w of node i begins at byte MUON_FILE_BYTES(i) + 2 * w, with w = MUON_NODE_KIND, ..., MUON_NODE_DETAIL; the skip, which follows
   from the parents, is not stored, and files are what they were before nodes had it. Behind the last node nothing follows: the file has
   MUON_FILE_BYTES(n) bytes. `(x:y)` has the file 46 4E 54 00 01 00 03 00 05
   00 09 00 00 00 05 00 00 00 00 00 00 00 07 00 01 00 02 00 00 00 01 00 02 00 07 00 03 00 04 00 00 00 02 00 02. */
#define MUON_FILE_VERSION 1

/* ---- The calls -------------------------------------------------------------------------------------------------------------- */

/* Memory, for every call: all of it stays the caller's. Nothing is kept when the call returns, nothing is allocated, and there is no
   global state, so calls may run in several threads, each with memory of its own to be written; what is only read may be shared.
   The caller sees to it that what is lent is of the lengths told, aligned as C has it for its type, does not overlap, and is not changed
   by another thread during the call. value, place, count, steps, line and column must not be NULL. With length 0 text, table, piece, buffer
   or file is not followed and may be NULL. Text, pieces, buffers and files are bytes, whatever type the caller has them in. */

/* Reads a text at a level, and writes its nodes to a lent table.

   The arrow `<-` is retired, at both levels: for a text that still has it, see muon_convert.

   level      1 or 2; every other number is refused with MUON_REFUSED_LEVEL
   text       text_len bytes, read only; need not end in 0
   table      table_len words, that is 4 * table_len bytes; what they held does not matter
   place      one size_t, written in every case
   count      one size_t, written in every case

   Accepted, exactly the first MUON_NODE_WORDS * *count words of the table are written. Refused, none. */
MUON_MUST_USE uint32_t muon_read(uint32_t level, const void *text, size_t text_len, uint32_t *table, size_t table_len, size_t *place,
                                 size_t *count);

/* The value calls. Their piece is the literal alone, as a node's first and end have it: text + first, end - first bytes. No byte-order
   mark, first line `#!` or dividing space around it is dropped; with one of them the piece is refused with 9.

   The bytes of a node of an accepted text are never refused with 2, 3, 9 or 5: an Integer's node gives muon_integer its value, or 10; a
   Text's node gives muon_text its characters, or 8; a Bits node gives muon_bits its bits, or 8; a Blob's node gives muon_blob its bytes,
   or 8 (proved; pieces in crates/demands/proofs/Pieces.antt). A Boolean's value is in its node: muon_boolean, in the last section. */

/* The signed integer of an Integer literal: `29 56` has the value 2956, `-0x F_F` has the value -255.

   piece      piece_len bytes, read only; need not end in 0
   value      one int64_t, written in every case: the integer if accepted, 0 if refused
   place      one size_t, written in every case
   count      one size_t, written in every case, always 0 */
MUON_MUST_USE uint32_t muon_integer(const void *piece, size_t piece_len, int64_t *value, size_t *place, size_t *count);

/* The characters of a Text literal (quoted, word or code point) as UTF-8, from the start of a lent buffer on; no 0 is put behind them.
   Only a segment that begins with a backslash has escapes: `"\a\n"` is a and a line feed, `"a\n"` has the characters `a\n`, and
   `"\"` has no characters.

   A code point out of range is 5, in quotes at the backslash of the first such escape, counted within the piece; bare at 0. As
   number@place: in the Text call `"\\<0cxD800>"` is 5@2, `"a" "\x\<0cxD800>"` is 5@7 and `0cxD800` is 5@0. In a segment that has no
   escapes it is not one either: `"a\<0cxD800>"` has the characters `a\<0cxD800>`.

   piece      piece_len bytes, read only; need not end in 0
   buffer     buffer_len bytes; what they held does not matter
   place      one size_t, written in every case
   count      one size_t, written in every case

   Accepted, exactly the first *count bytes of the buffer are written, and they are well-formed UTF-8. Refused, none.
   piece_len bytes are room enough for every piece: the characters of a Text are no more bytes than its literal (proved; `text_bounded`
   in `crates/values/proofs/Texts.antt` with `enough_room` in `crates/values/proofs/Fits.antt`). */
MUON_MUST_USE uint32_t muon_text(const void *piece, size_t piece_len, void *buffer, size_t buffer_len, size_t *place, size_t *count);

/* The bytes of a Blob literal, from the start of a lent buffer on. The digits are of base 2, 16 or 64: `0xb00000001` has the bytes 01,
   `0xxA7_05 FF` has the bytes A7 05 FF, `0xyAQ==` has the bytes 01, and `0xy` has no bytes.

   Base 64 is RFC 4648 section 4. Refused with 5, here and by muon_read, is what it does not have: a `=` with another character behind it,
   more than two `=`, and bits left over that are not zero. As number@place: in the Blob call `0xyAA== AAAA` is 5@0, `0xy====` is 5@0,
   `0xyAB==` is 5@0 and `0xyAAB=` is 5@0. Read as texts, `0xyAA== AAAA` is 5@0, `0xy====` is 5@0, `(a:0xyAB==)` is 5@3 and `{0xyAAB=}`
   is 5@1. Digits that do not fill whole bytes, or in base 64 groups of four, are no part of a Blob. In the Blob call `0xxA` is 9@0,
   `0xyTWF` is 9@0 and `0xyAQ=` is 9@0. Read as texts, with a token behind the Blob, `0xxA` is 6@3, `0xyTWF` is 6@3 and `0xyAQ=` is 6@3.

   piece      piece_len bytes, read only; need not end in 0
   buffer     buffer_len bytes; what they held does not matter
   place      one size_t, written in every case
   count      one size_t, written in every case

   Accepted, exactly the first *count bytes of the buffer are written. Refused, none.
   piece_len bytes are room enough for every piece (proved; `blob_bounded` in `crates/values/proofs/BitsAndBlobs.antt` with `enough_room`
   in `crates/values/proofs/Fits.antt`). */
MUON_MUST_USE uint32_t muon_blob(const void *piece, size_t piece_len, void *buffer, size_t buffer_len, size_t *place, size_t *count);

/* The bits of a Bits literal, from the start of a lent buffer on: a byte 0 or 1 for each bit, the most significant bit of each digit
   first. The digits are of base 2, 8 or 16: `0bb1_0 1` has the bits 1 0 1, `0bo17` has the bits 0 0 1 1 1 1, `0bxA` has the bits 1 0 1 0,
   and `0bb` has no bits.

   piece      piece_len bytes, read only; need not end in 0
   buffer     buffer_len bytes; what they held does not matter
   place      one size_t, written in every case
   count      one size_t, written in every case

   Accepted, exactly the first *count bytes of the buffer are written. Refused, none.
   4 * piece_len bytes are room enough for every piece, and so MUON_BITS_MAX are for any (proved; `bits_bounded` in
   `crates/values/proofs/BitsAndBlobs.antt` with `enough_room` in `crates/values/proofs/Fits.antt`). */
MUON_MUST_USE uint32_t muon_bits(const void *piece, size_t piece_len, void *buffer, size_t buffer_len, size_t *place, size_t *count);

/* Reads a text at level 2, and writes its stored file from the start of a lent buffer on. Nothing is stored with an arrow any more: as a
   text to be stored, `(b<-a)` is 15@2. A refusal of the reader has the reader's place: as a text to be stored, `(x:"\\<0cxD800>")` is 5@5.

   text       text_len bytes, read only; need not end in 0
   buffer     buffer_len bytes; what they held does not matter
   place      one size_t, written in every case
   count      one size_t, written in every case

   Accepted, exactly the first *count bytes of the buffer are written, and *count is MUON_FILE_BYTES of the nodes. Refused, none.
   MUON_FILE_MAX bytes are room enough for every text that has a file: with as many, 8 is given only where there are more than
   MUON_NODES_MAX nodes, and the count tells them (proved; `room_enough` in `crates/demands/proofs/Requests.antt`). With fewer, the count
   alone does not tell whether nodes or bytes are meant. */
MUON_MUST_USE uint32_t muon_file_write(const void *text, size_t text_len, void *buffer, size_t buffer_len, size_t *place, size_t *count);

/* Tests whether a file is the stored file of a text: it is accepted exactly when muon_file_write would give it for the text, or would have
   given it before the arrow was retired, all of it and nothing behind it (proved; `accepts_exactly` and `written_accepted` in
   `crates/demands/proofs/Requests.antt`). Nothing but place and count is written.

   So the text is read by the rules of before, and a file that was stored of a text with an arrow is accepted as ever: with the file 46 4E
   54 00 01 00 03 00 06 00 09 00 00 00 06 00 00 00 00 00 00 00 07 00 01 00 02 00 00 00 03 00 02 00 07 00 04 00 05 00 00 00 01 00 02,
   `(b<-a)` is accepted. Of a text without an arrow it takes exactly what muon_file_write gives (proved, too: `stored_alike`).

   The file tells what was read, and not the text's bytes. A text with other bytes, but of the same length and with the same nodes, has the
   same file: `x` has the file 46 4E 54 00 01 00 01 00 01 00 07 00 00 00 01 00 00 00 00 00 02, and so `y` has the file 46 4E 54 00 01 00 01
   00 01 00 07 00 00 00 01 00 00 00 00 00 02. To know that no byte of the text was changed, keep a check sum of the text, too.

   With the file 46 4E 54 00, `x` is 12@0; with the file 46 4E 54 00 02, `x` is 13@0; with the file 46 4E 54 00 01, `x` is 14@0.

   text       text_len bytes, read only; need not end in 0
   file       file_len bytes, read only, of any number
   place      one size_t, written in every case
   count      one size_t, written in every case */
MUON_MUST_USE uint32_t muon_file_check(const void *text, size_t text_len, const void *file, size_t file_len, size_t *place,
                                       size_t *count);

/* Writes the plain form of a text, which muon_read has read at this level into this table, from the start of a lent buffer on: the text
   less all that means nothing. No byte-order mark, first line `#!`, comment, dividing space or group is left, and no `_` between digits;
   a pair is this, `:` and that, however the text has it; commas stand only between members, and one behind a Tuple's single attribute.
   Everything else is as it stands in the text: signs, bases, zeros, code points, escapes, and the segments of a quoted text, side by side.
   `( , x : + 0d 1_0 , )` is written `(x:+0d10,)`, `((x):(y))` is written `(x:y)`, `{,a->b,}` is written `{a:b}`, `{,,}` is written `{}`,
   `[ 1 <=*< 2 ]` is written `[1<=*<2]`, and `- 1 / 2 * 3 ^ - 4` is written `-1/2*3^-4`. As a text to be written plainly, `{b<-a}` is 15@2
   and `{"\\<0cxD800>"}` is 5@3.

   A bare word that is one of the thirteen heads, but is no head where it stands, is put in quotes: `(Array->5)` is written `("Array":5)`,
   and `::Set::a` is written `::"Set"::a`, but `(Set:{ , a : 0bTRUE , })` is written `(Set:{a:0bTRUE})`. By these quotes the plain form may
   be longer than the text, and even than MUON_TEXT_MAX; it is written all the same, though muon_read refuses it with 2.

   Read at the same level, a plain form of at most MUON_TEXT_MAX bytes gives the nodes of the text, except that they have other places and
   that a word which was put in quotes has the detail MUON_DETAIL_QUOTED. Its own plain form is itself, byte for byte. At every other level,
   too, text and such a plain form end alike, in number and count, in tables of the same room: so a reader at level 1 takes the one just if
   it takes the other (proved; `reads_back`, `in_order` and `ends_alike` in `crates/demands/proofs/Requests.antt`).

   level      1 or 2, as it was read; every other number is refused with MUON_REFUSED_LEVEL
   text       text_len bytes, read only; need not end in 0
   table      table_len words, read only: what muon_read wrote, and perhaps more behind it, which does not matter
   buffer     buffer_len bytes; what they held does not matter
   place      one size_t, written in every case
   count      one size_t, written in every case

   Accepted, exactly the first *count bytes of the buffer are written. Refused, none.
   MUON_PLAIN_BYTES(text_len) bytes are room enough for every text. With as many, 8 is given only where muon_read would give it (proved;
   `plain_room` in `crates/demands/proofs/Requests.antt`), and the text is written without being measured first. With fewer, the count alone
   does not tell whether nodes or bytes are meant, but a table that muon_read has just accepted the text with has room for the nodes.
   With the table of `(x,y)`, `(x:y)` is 14@0. */
MUON_MUST_USE uint32_t muon_plain(uint32_t level, const void *text, size_t text_len, const uint32_t *table, size_t table_len,
                                  void *buffer, size_t buffer_len, size_t *place, size_t *count);

/* Converts a text that may still have the arrow `<-`: reads it at a level by the rules of before the arrow was retired, and writes its
   plain form (see muon_plain), which has no arrow, from the start of a lent buffer on. There `(b<-a)` was the pair of this a and that b.
   `(b<-a)` converts to `(a:b)`, `{a,b<-c}` converts to `{a,c:b}`, `( Mix <- 5 )` converts to `(5:"Mix")`, and `(a<-(b<-c))` converts to
   `((c:b):a)`. A text without an arrow converts to what muon_plain writes: `{,a->b,}` converts to `{a:b}`. As a text to be converted,
   `(a<-$` is 4@4, `(,a<-b)` is 6@3, and `{a<-"\\<0cxD800>"}` is 5@6.

   It needs no table: the text is read as if into one of MUON_TABLE_MAX words. Read at the same level, what is written, if it has at most
   MUON_TEXT_MAX bytes, is accepted; it has the nodes that the text had by the rules of before, except that they have other places, that a
   this stands before its that, with the indices that follow from it, that the role MUON_ROLE_THAT_BEFORE has become MUON_ROLE_THAT_AFTER,
   and that a word which was put in quotes has the detail MUON_DETAIL_QUOTED. Converted again it is itself, byte for byte. At every other
   level, too, muon_read ends on it as it ended on the text before, in number and count (proved; `converted_back` and `converted_alike` in
   `crates/demands/proofs/Requests.antt`; which buffer is long enough: `converted_room`).

   level      1 or 2; every other number is refused with MUON_REFUSED_LEVEL
   text       text_len bytes, read only; need not end in 0
   buffer     buffer_len bytes; what they held does not matter
   place      one size_t, written in every case
   count      one size_t, written in every case

   Accepted, exactly the first *count bytes of the buffer are written. Refused, none.
   MUON_PLAIN_BYTES(text_len) bytes are room enough for every text: with as many, 8 is given only where there are more than MUON_NODES_MAX
   nodes, and the count tells them. With fewer, the count alone does not tell whether nodes or bytes are meant. */
MUON_MUST_USE uint32_t muon_convert(uint32_t level, const void *text, size_t text_len, void *buffer, size_t buffer_len, size_t *place,
                                    size_t *count);

/* The UTF-8 test alone: MUON_ACCEPTED, with the length for the place, or MUON_REFUSED_NOT_UTF8, with the first byte at which, reading
   well-formed sequences from the front, none begins. It is the test that every other call makes before it gives that refusal, with the
   same place, so a text that is not UTF-8 gets 3 from muon_read unless it gets 1 or 2; but here a text of any length is taken.

   The steps are those of the test up to the place. Eight plain ASCII bytes, 00 to 7F, are one step wherever eight come next, at any
   address; else one well-formed sequence is, so n bytes of plain ASCII take n / 8 + n % 8 steps. The look that finds no sequence at the
   place is no step. `seventeen letters` has 3 steps. With \xFF for that byte, in the UTF-8 call `aaaaaaa\xC3\xA9bbbbbbbbb\xFF` is 3@18
   after 10 steps: seven letters, a character of two bytes, eight letters and one.

   text       text_len bytes, read only, of any number; need not end in 0
   place      one size_t, written in every case
   steps      one size_t, written in every case */
MUON_MUST_USE uint32_t muon_utf8(const void *text, size_t text_len, size_t *place, size_t *steps);

/* Line and column of a place, for people. The line is 1 and one more for each byte 0A before the place; the column is 1 and one more for
   each character between the start of the line and the place. A character is a well-formed UTF-8 sequence, however wide it is shown; a byte
   at which none begins is counted by itself. So a tab is one character, as is the byte 0D. A place inside of a character has the column of
   that character, and a place beyond the text is taken as its end. There is an answer for everything, and no refusal: nothing is returned,
   and nothing but line and column is written. A place within a piece is a place in the text once the first of its node is added.

   text       text_len bytes, read only, of any number; need not end in 0
   place      any number
   line       one size_t, written in every case
   column     one size_t, written in every case */
void muon_line_column(const void *text, size_t text_len, size_t place, size_t *line, size_t *column);

/* ---- A setting by its name, and words for numbers --------------------------------------------------------------------------- */

/* The text of these functions is the one that was read, their table the one that muon_read has accepted it with, and an index is below the
   count of that reading; 0 is the whole text. They write nothing but value. */

/* The longest Text that muon_text_is, and with it muon_attribute and muon_unknown, can find, in bytes. */
#define MUON_NAME_MAX 256

/* Whether a node is a Text of these characters: 1 or 0. Compared are the characters, byte for byte, by muon_text: `speed`, `"speed"` and
   `"\\<0c115>peed"` are the same. The answer is 0 for a Text of more than MUON_NAME_MAX bytes, whatever it is compared with.

       if (muon_text_is(text, table, mode, "night", 5)) ...

   name       name_len bytes, read only, as UTF-8; need not end in 0, may be NULL with length 0

   It needs MUON_NAME_MAX bytes of stack and a few words beside those of muon_text, and so do the next two. */
MUON_MUST_USE MUON_INLINE int muon_text_is(const void *text, const uint32_t *table, uint32_t index, const void *name, size_t name_len) {
    uint8_t found[MUON_NAME_MAX];
    const uint8_t *wanted = (const uint8_t *)name;
    size_t place, count, same = 0;
    if (muon_text(muon_piece(text, table, index), muon_piece_len(table, index), found, sizeof found, &place, &count) != MUON_ACCEPTED)
        return 0;
    if (count != name_len) return 0;
    while (same < count && found[same] == wanted[same]) same++;
    return same == count;
}

/* The attributes of a Tuple that have a name: returns how many they are, and writes the index of the first one's value, MUON_NONE if there
   is none. A setting that must be there once is one where 1 is returned; 0 is absent, 2 and more is repeated, and which of them is meant
   cannot be known.

       if (muon_attribute(text, table, 0, "speed", 5, &value) != 1) ...

   Names are compared by muon_text_is: the same is found in `(speed:1,)`, `("speed":1,)` and `("\\<0c115>peed":1,)`. A Nesting is no such
   name, and an attribute without a name has none. A name that is asked for and longer than MUON_NAME_MAX is not found.
   A node that is no Tuple has no attributes: of `(speed:1)`, which is a Pair, 0 is returned.

   tuple      an index
   name       name_len bytes, as for muon_text_is
   value      one uint32_t, written in every case */
MUON_MUST_USE MUON_INLINE uint32_t muon_attribute(const void *text, const uint32_t *table, uint32_t tuple, const void *name,
                                                  size_t name_len, uint32_t *value) {
    uint32_t times = 0, i;
    *value = MUON_NONE;
    for (i = muon_first_child(table, tuple); i != MUON_NONE; i = muon_next_sibling(table, i)) {
        if (muon_node_word(table, i, MUON_NODE_ROLE) != MUON_ROLE_NAME || !muon_text_is(text, table, i, name, name_len)) continue;
        if (times == 0) *value = i + 1;
        times++;
    }
    return times;
}

/* What a Tuple has beside the attributes that a program knows: the index of the first attribute that has none of the names, which is its
   name's node, or its value's if it has no name; MUON_NONE if there is none such. Asked for first, it keeps a setting that is misspelt from
   being taken for one that is absent, and `(speed:3,000)`, a speed of 3 and a value 000 without a name, from being taken for 3,000.

       static const char *const known[] = {"speed", "site", NULL};
       if (muon_unknown(text, table, 0, known) != MUON_NONE) ...

   Names are compared by muon_text_is, so a Nesting is none of them, nor is one of more than MUON_NAME_MAX bytes. A name that is known and
   repeated is not met here, but by muon_attribute. What is no Tuple is unknown itself: of `(speed:1)`, which is a Pair, and of `{speed:1}`,
   a Lot, the node is returned that was asked for.

   tuple      an index
   names      C strings in UTF-8, and behind the last one NULL */
MUON_MUST_USE MUON_INLINE uint32_t muon_unknown(const void *text, const uint32_t *table, uint32_t tuple, const char *const *names) {
    uint32_t i;
    if (muon_node_word(table, tuple, MUON_NODE_KIND) != MUON_KIND_TUPLE) return tuple;
    /* from name to name, each with its value behind it */
    for (i = muon_first_child(table, tuple); i != MUON_NONE; i = muon_next_sibling(table, i + 1)) {
        const char *const *name = names;
        if (muon_node_word(table, i, MUON_NODE_ROLE) != MUON_ROLE_NAME) return i;
        for (; *name != NULL; name++) {
            size_t name_len = 0;
            while ((*name)[name_len] != 0) name_len++;
            if (muon_text_is(text, table, i, *name, name_len)) break;
        }
        if (*name == NULL) return i;
    }
    return MUON_NONE;
}

/* The value of a Boolean, as the value calls give those of other kinds: MUON_ACCEPTED, or MUON_REFUSED_NOT_THE_LITERAL for a node of another
   kind. The detail alone does not do, for other kinds have details, too: that of the Text `"false"` is 1, as TRUE's is.

   value      one int, written in every case: 1 for TRUE, 0 for FALSE, 0 if refused */
MUON_MUST_USE MUON_INLINE uint32_t muon_boolean(const uint32_t *table, uint32_t index, int *value) {
    int boolean = muon_node_word(table, index, MUON_NODE_KIND) == MUON_KIND_BOOLEAN;
    *value = boolean && muon_node_word(table, index, MUON_NODE_DETAIL) == MUON_DETAIL_TRUE;
    return boolean ? MUON_ACCEPTED : MUON_REFUSED_NOT_THE_LITERAL;
}

/* What a refusal is called, and what to say of it to people; 0 is "accepted". Any number has an answer, as it has below. */
MUON_INLINE const char *muon_refusal_name(uint32_t number) {
    static const char *const names[] = {"accepted",     "level",           "too long",     "not UTF-8",
                                        "no token",     "bad value",       "wrong place",  "newer form",
                                        "no room",      "not the literal", "out of range", "too deep",
                                        "not the mark", "other version",   "not the file", "retired arrow"};
    return number < sizeof names / sizeof names[0] ? names[number] : "unknown";
}

MUON_INLINE const char *muon_refusal_message(uint32_t number) {
    static const char *const messages[] = {"accepted",
                                           "a level other than 1 and 2",
                                           "longer than 32,768 bytes",
                                           "not UTF-8",
                                           "no token starts here",
                                           "a bad value in a literal",
                                           "a token in the wrong place",
                                           "a newer form than the level has",
                                           "no room in the table or buffer",
                                           "not exactly one literal of the asked kind",
                                           "an Integer out of range",
                                           "more than 32 brackets open at once",
                                           "not a stored file",
                                           "a stored file of another version",
                                           "not the file or table of the text",
                                           "a retired arrow, <-"};
    return number < sizeof messages / sizeof messages[0] ? messages[number] : "an unknown number";
}

/* The name of a kind and of a role; the roles 2 and 3 are both called that. */
MUON_INLINE const char *muon_kind_name(uint32_t kind) {
    static const char *const names[] = {"unknown", "Ignorance", "Boolean", "Integer", "Fraction", "Bits", "Blob", "Text",
                                        "Nesting", "Pair",      "Tuple",   "Lot",     "Array",    "Set",  "Bag",  "Interval"};
    return names[kind < sizeof names / sizeof names[0] ? kind : 0];
}

MUON_INLINE const char *muon_role_name(uint32_t role) {
    static const char *const names[] = {"root", "this", "that", "that", "name", "value", "count", "low", "high", "single"};
    return role < sizeof names / sizeof names[0] ? names[role] : "unknown";
}

#ifdef __cplusplus
}
#endif

#endif
