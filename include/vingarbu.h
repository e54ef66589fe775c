/* Vingarbu for a host program in C: a query answered over the bytes of a book, and the answer printed, as the unit does
 * or on sheets.
 *
 * What each function gives back and leaves in every lent cell is proved of its source, crates/host_c/src/lib.rt over
 * crates/host/src/lib.rt, for all inputs; the definitions are in crates/host/specs. Nothing checks this header against that
 * source.
 *
 * A part of memory is a pointer and a length in elements. A pointer is never null, not even with length 0, and is aligned
 * for its elements; two parts of one call do not overlap where one of them is written. No function keeps a pointer,
 * allocates, reads a file or calls back; two threads may call at once with parts of their own.
 *
 * Stack: the work memory of vingarbu_answer lies on the stack, 645 KB by the sizes of its arrays and a frame of about 1 KB
 * for each table of a join, 128 at most. Give the thread that calls it 1 MB.
 *
 * Link with libhost.a (x86-64 Linux), a copy of crates/host_c/out/libhost_c.a, which `rt lib` writes in crates/host_c.
 */
#ifndef VINGARBU_H
#define VINGARBU_H

#include <stddef.h>
#include <stdint.h>

#ifdef __cplusplus
extern "C" {
#endif

/* Bounds of the paper. A book or a query with more is refused; a space may have any length. */
#define VINGARBU_BYTES 65536u          /* of a book, and of a query */
#define VINGARBU_ITEMS 8u              /* of a query */
#define VINGARBU_REFUSALS 21u          /* the highest number of a refusal; 8 and 15 to 17 are none */
#define VINGARBU_UNIT_CELLS 8192u      /* the space of the unit */
#define VINGARBU_UNIT_TEXT 98327u      /* bytes that every printed answer of at most 8,192 cells fits */
#define VINGARBU_WORDS 32u             /* bytes that the words of every refusal fit */
#define VINGARBU_SHEET 3880u           /* bytes of a sheet: 40 lines of 96 characters and a line feed */
#define VINGARBU_SHEET_ROWS 38u        /* rows that a sheet has lines for */

/* What a function returns. With any status but VINGARBU_DONE nothing was changed. */
#define VINGARBU_DONE 0u
#define VINGARBU_SHORT 1u              /* a lent part is too short */
#define VINGARBU_NOT_FIT 2u            /* an answer that is not fit to print; a number that no refusal has */

/* The results of vingarbu_answer, by place. */
#define VINGARBU_RESULTS 4u
#define VINGARBU_NUMBER 0u             /* 0 for a full answer, else the number of the refusal */
#define VINGARBU_ROWS 1u               /* the row count; 0 with a refusal */
#define VINGARBU_SERIAL 2u             /* the serial given plus one; with a refusal as it was given */
#define VINGARBU_READ 3u               /* the bytes of the query that were read, its kind 10 included; 0 with a refusal */

/* The cell that is missing: of lengths, and of names, angles and dates. A length of VINGARBU_NO_VALUE is -1. */
#define VINGARBU_NO_LENGTH 0x80000000u
#define VINGARBU_NO_VALUE 0xffffffffu

/* Answers the query at the front of `query` over the book; `serial` is that of the last answer.
 *   results  at least 4 cells, else VINGARBU_SHORT; the first 4 are set as above, the others stay.
 *   space    a full answer sets the first rows times items cells, row after row, ascending by the first item, then the
 *            next; cells past them stay. Refusal 13 (distinct rows times items are more than the space) sets all of it to
 *            zero. Any other refusal leaves it as it was.
 * A length is two's complement in 32 bits. A missing cell stands as in the book, VINGARBU_NO_LENGTH of a length and
 * VINGARBU_NO_VALUE of any other kind, and comes before all values. The number of items is what vingarbu_kinds gives. */
uint32_t vingarbu_answer(const uint8_t *book, size_t book_len, const uint8_t *query, size_t query_len, uint32_t serial,
                         uint32_t *space, size_t space_len, uint64_t *results, size_t results_len);

/* The value kinds of the items of the query at the front of `query`, in their order: 0 name, 1 length, 2 angle, 3 date.
 *   results  at least 1 cell, else VINGARBU_SHORT; the first is set to how many items there are, 0 where the book is
 *            refused or the query is refused for itself (1 to 12); the others stay.
 *   kinds    at least as many bytes as items (8 are enough), else VINGARBU_SHORT; the first ones are set, the others stay. */
uint32_t vingarbu_kinds(const uint8_t *book, size_t book_len, const uint8_t *query, size_t query_len, uint8_t *kinds,
                        size_t kinds_len, uint64_t *results, size_t results_len);

/* Prints an answer as the unit does: `Q`, the serial, `rows`, the count, then a line for each row; a missing cell is `-`.
 *   serial, rows   those that vingarbu_answer gave.
 *   kinds          the value kinds of the items, as many as there are items.
 *   cells          rows times items cells or more.
 *   results        at least 1 cell, else VINGARBU_SHORT; the first is set to how many bytes were printed, the others stay.
 *   out            long enough for the text, else VINGARBU_SHORT; bytes behind the text stay.
 * VINGARBU_NOT_FIT where there are not 1 to 8 items, a value kind is over 3, there are more than 999,999,999,999 rows or
 * fewer cells than rows times items, or one of those cells is outside its kind's range. */
uint32_t vingarbu_print(uint32_t serial, uint64_t rows, const uint8_t *kinds, size_t kinds_len, const uint32_t *cells,
                        size_t cells_len, uint8_t *out, size_t out_len, uint64_t *results, size_t results_len);

/* A few English words for the number of a refusal, without a line feed or a zero byte: docs/REFUSALS.md has the table.
 *   results  at least 1 cell, else VINGARBU_SHORT; the first is set to how many bytes the words are, the others stay.
 *   out      long enough for the words, else VINGARBU_SHORT; bytes behind them stay.
 * VINGARBU_NOT_FIT where the number is no refusal's: 0, 8, 15 to 17, or over 21. */
uint32_t vingarbu_refusal_text(uint32_t number, uint8_t *out, size_t out_len, uint64_t *results, size_t results_len);

/* Prints one sheet of an answer: the serial and the row count, 38 lines of rows, the sheet number. Each field stands at the
 * right of its 12 columns; a missing cell is `-`; lines behind the last row are blank.
 *   serial, rows, kinds, cells   as for vingarbu_print.
 *   number   which sheet, from 1.
 *   results  at least 1 cell, else VINGARBU_SHORT; the first is set to 0 where the sheet was printed, to 18 where `out` has
 *            under 3,880 bytes or the answer is not fit to print (see vingarbu_print, VINGARBU_NOT_FIT), else to 19 where
 *            the number is 0 or past the last sheet; the others stay.
 *   out      the sheet in its first 3,880 bytes, the others stay; with 18 and 19 all of it stays.
 * It never returns VINGARBU_NOT_FIT. */
uint32_t vingarbu_sheet(uint32_t serial, uint64_t rows, const uint8_t *kinds, size_t kinds_len, const uint32_t *cells,
                        size_t cells_len, uint64_t number, uint8_t *out, size_t out_len, uint64_t *results,
                        size_t results_len);

/* How many sheets an answer of so many rows has: one for each 38 rows, and one for no rows. */
uint64_t vingarbu_sheets(uint64_t rows);

#ifdef __cplusplus
}
#endif
#endif
