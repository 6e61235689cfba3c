/* Jorvimest: a byte pattern to its one smallest numbered table, four matchers over any table, and the listing of a table.

   Two patterns match the same stretches of all texts exactly when their compiled tables are equal: R, the head row, 256 * R cells
   and R marks.

   Lent parts. A list that is lent is a pointer and the number of its elements, in this order. The pointer is aligned for its type
   and is not null, also where the number is 0: point at anything then. A part that is written overlaps no other part of the call.
   Nothing is kept after a call, nothing is allocated, and calls on different parts may run at once. Beside that, everything may be
   lent: any bytes, any numbers, any lengths.

   Answers. jorvimest_well_formed answers true or false. Every other function answers one number, and 0 is success. A number that is
   lent for an answer is left as it was where the answer has nothing to say there. Places and positions count bytes from 0.

   Time. To check a table its 256 * R cells are looked at once, by first and starts up to twice. Beside that, in a text of n bytes,
   whole and longest look at no more than n cells, first at no more than n * (R + 5), and starts at no more than n * (2 * R + 1), or
   twice as many where its list has fewer than n + 1 places.

   Trust. What is said here is proved, but for the time and the stack. Beside the definitions and the prover, this is taken on trust:
   the toolchain's front end and back end; the stack, which the proofs do not speak of; and these declarations, which a test compares
   with the library's source only as they are spelled.

   Link target/staticlib/libjorvimest.a, which is for Linux on x86-64. */
#ifndef JORVIMEST_H
#define JORVIMEST_H

#include <stdbool.h>
#include <stddef.h>
#include <stdint.h>

#ifdef __cplusplus
extern "C" {
#endif

/* The version, and the toolchain that it was made with, as `rt version` names it. */
#define JORVIMEST_VERSION "0.0.4"
#define JORVIMEST_VERSION_MAJOR 0
#define JORVIMEST_VERSION_MINOR 0
#define JORVIMEST_VERSION_PATCH 4
#define JORVIMEST_TOOLCHAIN "rattle-kit-13f logic dac8208d650f15bf"

/* Sizes: bytes of a pattern, groups open at once, nodes of a pattern, rows of a table, bytes of a text, at most. */
#define JORVIMEST_PATTERN_MOST 1024
#define JORVIMEST_GROUPS_MOST 32
#define JORVIMEST_NODES_MOST 2048
#define JORVIMEST_ROWS_MOST 1024
#define JORVIMEST_TEXT_MOST 1048576

/* Room: what to lend for each row. With cells, marks and set words for 1,024 rows no pattern lacks room that could have it. */
#define JORVIMEST_CELLS_A_ROW 256
#define JORVIMEST_MARKS_A_ROW 1
#define JORVIMEST_WORDS_A_ROW 32

/* Stack: the bytes that a call of jorvimest_compile needs at most, and a call of any other function; measured, with a margin. Where
   there are fewer, a call may end the program at the guard page below the stack. */
#define JORVIMEST_STACK_COMPILE 163840
#define JORVIMEST_STACK_OTHERS 16384

/* The numbers of what is turned away, and the place that comes with each. */
#define JORVIMEST_TOO_LONG 1    /* pattern over 1,024 bytes: 1,024 */
#define JORVIMEST_NO_ATOM 2     /* repeat sign with no atom before it, or after a repeat sign: the sign */
#define JORVIMEST_BAD_COUNT 3   /* count in braces not of the legal form: its { */
#define JORVIMEST_BAD_CLASS 4   /* class not of the legal form, escapes in it included: its [ */
#define JORVIMEST_BAD_ESCAPE 5  /* bad escape outside a class: its \ */
#define JORVIMEST_STRAY 6       /* bare ] or }: that byte */
#define JORVIMEST_NO_GROUP 7    /* ) with no group open: that byte */
#define JORVIMEST_OPEN_GROUP 8  /* pattern ends in an open group: the length */
#define JORVIMEST_DEEP_GROUP 9  /* a group that would be the 33rd open: its ( */
#define JORVIMEST_MANY_NODES 10 /* over 2,048 nodes: 0 */
#define JORVIMEST_MANY_ROWS 11  /* S greater than K: 0 */
#define JORVIMEST_LONG_TEXT 12  /* text over 1,048,576 bytes */
#define JORVIMEST_NOT_FORMED 13 /* table not well formed */
#define JORVIMEST_PAST_END 14   /* start greater than the text's length */
#define JORVIMEST_FEW_PLACES 15 /* more starts than places in the lent list, with the number of starts */

/* A matcher's answers beside these, and a text's. */
#define JORVIMEST_MATCH 0
#define JORVIMEST_NONE 1
#define JORVIMEST_WRITTEN 0
#define JORVIMEST_LONGER 1

/* Compiles a pattern in lent cells, marks and set words. There is room for K rows, the least of 1,024, cell_count / 256, mark_count
   and word_count / 32, each rounded down; a pattern needs room for its S set rows, which are at least 3 and may be more than the R
   rows of its table.

   Answers 0, and puts R into rows and the head row into head: the table is the first 256 * R cells and the first R marks. Or answers
   a refusal from 1 to 11, and puts its place into place.

   After success cells past 256 * R, marks past R and all set words are 0; after a refusal every cell, mark and set word. */
uint32_t jorvimest_compile(const uint8_t *pattern, size_t length, uint16_t *cells, size_t cell_count, uint8_t *marks,
                           size_t mark_count, uint64_t *sets, size_t word_count, uint16_t *rows, uint16_t *head, uint32_t *place);

/* Every function below takes a table as R, the head row, cells and marks. Row 0 is where reading begins inside a text, the head row
   where it begins at position 0, and cell 256 * q + b is the row that the byte b leads to from row q. A stretch of the text that ends
   at p matches if the row then reached is marked 3, or is marked 2 and p is the text's length. Any well-formed table will do, smallest
   or not; what lies past its first R rows is not looked at. */

/* Whether the table is well formed: R is from 1 to 1,024, there are at least 256 * R cells and R marks, the head row and the first
   256 * R cells are below R, and the first R marks are each 0, 2 or 3. */
bool jorvimest_well_formed(uint16_t rows, uint16_t head, const uint16_t *cells, size_t cell_count, const uint8_t *marks,
                           size_t mark_count);

/* Whole match: answers 0 if the whole text matches, 1 if not, or 13 or 12, the first that holds. */
uint32_t jorvimest_whole(uint16_t rows, uint16_t head, const uint16_t *cells, size_t cell_count, const uint8_t *marks,
                         size_t mark_count, const uint8_t *text, size_t length);

/* Longest from start: answers 0 and puts the greatest end of a match from there into end; or 1 for none, or 13, 12 or 14, the first
   that holds. A start equal to the length is allowed. */
uint32_t jorvimest_longest(uint16_t rows, uint16_t head, const uint16_t *cells, size_t cell_count, const uint8_t *marks,
                           size_t mark_count, const uint8_t *text, size_t length, uint32_t start, uint32_t *end);

/* First: answers 0 and puts the least start that has any match into start, and its longest end into end; or 1 for none, or 13 or 12,
   the first that holds. */
uint32_t jorvimest_first(uint16_t rows, uint16_t head, const uint16_t *cells, size_t cell_count, const uint8_t *marks,
                         size_t mark_count, const uint8_t *text, size_t length, uint32_t *start, uint32_t *end);

/* All starts: answers 0, puts every start that has any match into the first places of the list, ascending, each once, and their
   number into count; there are at most length + 1. Or answers 13, 12 or 15, the first that holds; 15 puts the number of starts into
   count. A refusal leaves the list as it was, success what is past the starts. */
uint32_t jorvimest_starts(uint16_t rows, uint16_t head, const uint16_t *cells, size_t cell_count, const uint8_t *marks,
                          size_t mark_count, const uint8_t *text, size_t length, uint32_t *list, size_t places, uint32_t *count);

/* The listing of a table, as text without a final 0: a line with R and the head row, then a line for each row with its number, its
   mark and the longest runs of bytes with one target.

   Answers 0 if the whole listing stands in the first bytes of out; 1 if it is longer than out, which is then full of its beginning.
   Both put the listing's length into length. Or answers 13. Bytes past the listing, and all of out after 13, are as they were. */
uint32_t jorvimest_listing(uint16_t rows, uint16_t head, const uint16_t *cells, size_t cell_count, const uint8_t *marks,
                           size_t mark_count, uint8_t *out, size_t room, uint32_t *length);

/* The line of a refusal with any number and any place, `refused N at P` and a line end, in the same way; never refused. */
uint32_t jorvimest_refusal(uint32_t number, uint32_t place, uint8_t *out, size_t room, uint32_t *length);

#ifdef __cplusplus
}
#endif

#endif
