/* Reads a book and a file of queries, and prints what the unit prints for them, through include/vingarbu.h.
 *   host BOOK QUERIES */
#include "vingarbu.h"
#include <stdio.h>

static uint8_t book[VINGARBU_BYTES + 1], input[VINGARBU_BYTES + 1], text[VINGARBU_UNIT_TEXT];
static uint32_t space[VINGARBU_UNIT_CELLS];

/* The bytes of a file, one more than a book may have at most; a file that cannot be read counts as empty. */
static size_t read_file(const char *name, uint8_t *bytes) {
    FILE *file = fopen(name, "rb");
    if (file == NULL) return 0;
    size_t length = fread(bytes, 1, VINGARBU_BYTES + 1, file);
    if (ferror(file)) length = 0;
    fclose(file);
    return length;
}

/* Says that a book or a query is refused, on standard output as the unit does, and why on standard error. */
static int refused(const char *what, unsigned number) {
    uint8_t words[VINGARBU_WORDS];
    uint64_t length;
    printf("%s refused %u\n", what, number);
    if (vingarbu_refusal_text(number, words, sizeof words, &length, 1) == VINGARBU_DONE)
        fprintf(stderr, "%.*s\n", (int)length, (const char *)words);
    return 0;
}

int main(int argc, char **argv) {
    if (argc != 3) return fprintf(stderr, "usage: host BOOK QUERIES\n"), 2;
    size_t book_length = read_file(argv[1], book), length = read_file(argv[2], input), at = 0;
    uint64_t results[VINGARBU_RESULTS], items, printed;
    uint8_t kinds[VINGARBU_ITEMS];
    uint32_t serial = 0;
    const uint8_t end[] = {10};
    /* A query of kind 10 alone is 10 over a good book: any other number is the book's. */
    vingarbu_answer(book, book_length, end, 1, 0, space, 0, results, VINGARBU_RESULTS);
    if (results[VINGARBU_NUMBER] != 10) return refused("book", (unsigned)results[VINGARBU_NUMBER]);
    if (length > VINGARBU_BYTES) return refused("query", 1);
    while (at < length) {
        vingarbu_answer(book, book_length, input + at, length - at, serial, space, VINGARBU_UNIT_CELLS, results,
                        VINGARBU_RESULTS);
        if (results[VINGARBU_NUMBER] != 0) return refused("query", (unsigned)results[VINGARBU_NUMBER]);
        vingarbu_kinds(book, book_length, input + at, length - at, kinds, VINGARBU_ITEMS, &items, 1);
        serial = (uint32_t)results[VINGARBU_SERIAL];
        if (vingarbu_print(serial, results[VINGARBU_ROWS], kinds, items, space, VINGARBU_UNIT_CELLS, text, sizeof text,
                           &printed, 1) != VINGARBU_DONE)
            return fprintf(stderr, "an answer was not printed\n"), 1;
        fwrite(text, 1, printed, stdout);
        at += results[VINGARBU_READ];
    }
    return 0;
}
