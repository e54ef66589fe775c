/* Answers the queries of a file over a book, and writes the sheets of every answer to a file, one behind the other, through
 * include/vingarbu.h. A refusal ends it.
 *   sheets BOOK QUERIES SHEETS */
#include "vingarbu.h"
#include <stdio.h>

static uint8_t book[VINGARBU_BYTES + 1], input[VINGARBU_BYTES + 1], sheet[VINGARBU_SHEET];
static uint32_t space[VINGARBU_UNIT_CELLS];

/* The bytes of a file, one more than a book may have at most; a file that cannot be read counts as empty. */
static size_t read_file(const char *name, uint8_t *bytes) {
    FILE *file = fopen(name, "rb");
    if (file == NULL) return 0;
    size_t length = fread(bytes, 1, VINGARBU_BYTES + 1, file);
    if (ferror(file)) length = 0;
    fclose(file);
    return length;
}

/* All sheets of one answer; 0 where each was printed and written. */
static int write_sheets(FILE *file, uint32_t serial, uint64_t rows, const uint8_t *kinds, size_t items) {
    uint64_t refusal, last = vingarbu_sheets(rows);
    for (uint64_t number = 1; number <= last; number++) {
        vingarbu_sheet(serial, rows, kinds, items, space, VINGARBU_UNIT_CELLS, number, sheet, sizeof sheet, &refusal, 1);
        if (refusal != 0 || fwrite(sheet, 1, sizeof sheet, file) != sizeof sheet) return 1;
    }
    return 0;
}

int main(int argc, char **argv) {
    if (argc != 4) return fprintf(stderr, "usage: sheets BOOK QUERIES SHEETS\n"), 2;
    size_t book_length = read_file(argv[1], book), length = read_file(argv[2], input), at = 0;
    FILE *file = fopen(argv[3], "wb");
    uint64_t results[VINGARBU_RESULTS], items;
    uint8_t kinds[VINGARBU_ITEMS];
    uint32_t serial = 0;
    if (file == NULL) return perror(argv[3]), 1;
    while (at < length) {
        vingarbu_answer(book, book_length, input + at, length - at, serial, space, VINGARBU_UNIT_CELLS, results,
                        VINGARBU_RESULTS);
        if (results[VINGARBU_NUMBER] != 0) return fprintf(stderr, "refused %d\n", (int)results[VINGARBU_NUMBER]), 1;
        vingarbu_kinds(book, book_length, input + at, length - at, kinds, VINGARBU_ITEMS, &items, 1);
        serial = (uint32_t)results[VINGARBU_SERIAL];
        if (write_sheets(file, serial, results[VINGARBU_ROWS], kinds, items)) return fprintf(stderr, "no sheet\n"), 1;
        at += results[VINGARBU_READ];
    }
    return fclose(file) == 0 ? 0 : 1;
}
