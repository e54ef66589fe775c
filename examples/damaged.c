/* Calls the functions of include/vingarbu.h with damaged and random input, and looks at every cell around what they may
 * write. Prints the seed and the counts; ends with status 1 at the first cell that is not as the header says.
 *   damaged BOOK QUERIES [SEED] */
#include "vingarbu.h"
#include <stdio.h>
#include <stdlib.h>
#include <string.h>

enum { CALLS = 100000, GUARD = 4, CELLS = 40, LONGEST = 600, EXTRA = 26 };

/* Records to put behind a book or in front of a query. */
struct extra {
    size_t length;
    uint8_t bytes[EXTRA];
};

/* Kinds 14, 5 and 6; rows of the paper's book with missing cells. */
static const struct extra behind_book[] = {
    {12, {14, 5, 1, 0, 0, 0, 14, 6, 7, 0, 0, 0}},
    {6, {14, 5, 7, 0, 0, 0}},
    {26, {4, 0, 255, 255, 255, 255, 255, 255, 255, 255}},
    {26, {4, 1, 10, 0, 0, 0, 255, 255, 255, 255}},
    {26, {4, 2, 255, 255, 255, 255, 0, 0, 0, 128}},
};

/* As many items as a query may have; an operator that is not allowed; constants that are missing, or nearly. */
static const struct extra front_of_query[] = {
    {24, {7, 0, 0, 7, 0, 0, 7, 0, 0, 7, 0, 0, 7, 0, 0, 7, 0, 0, 7, 0, 0, 7, 0, 0}},
    {8, {9, 0, 1, 2, 245, 1, 0, 0}},
    {8, {9, 0, 1, 0, 255, 255, 255, 255}},
    {8, {9, 0, 3, 1, 0, 0, 0, 128}},
    {8, {9, 0, 3, 5, 1, 0, 0, 128}},
};

static uint64_t seed, state;

static uint64_t next(void) { /* splitmix64 */
    uint64_t z = state += 0x9e3779b97f4a7c15u;
    z = (z ^ (z >> 30)) * 0xbf58476d1ce4e5b9u;
    z = (z ^ (z >> 27)) * 0x94d049bb133111ebu;
    return z ^ (z >> 31);
}

static size_t below(size_t n) { return (size_t)(next() % n); }

static void fail(const char *what, unsigned long call) {
    printf("%s at call %lu, seed %llu\n", what, call, (unsigned long long)seed);
    exit(1);
}

/* Numbers of refusals: 8 and 15 to 17 are none, 18 and 19 are of sheets. */
static int is_refusal(uint64_t n) { return (n >= 1 && n <= 14 && n != 8) || (n >= 18 && n <= VINGARBU_REFUSALS); }

static int is_of_sheets(uint64_t n) { return n == 18 || n == 19; }

/* Random bytes, none zero; or a part of good bytes, cut off and changed in a few places; or good bytes with one of some
 * records behind or in front of them, cut off in them or whole; or nothing. */
static size_t damage(uint8_t *to, const uint8_t *good, size_t length, const struct extra *extras, size_t count,
                     int in_front) {
    size_t n = 0;
    switch (below(7)) {
    case 0: return 0;
    case 1:
        n = below(LONGEST);
        for (size_t i = 0; i < n; i++) to[i] = (uint8_t)(1 + below(255));
        return n;
    case 2: {
        const struct extra *e = &extras[below(count)];
        memcpy(to + (in_front ? 0 : length), e->bytes, e->length);
        memcpy(to + (in_front ? e->length : 0), good, length);
        return below(2) ? length + e->length : below(length + e->length + 1);
    }
    default:
        memcpy(to, good, length);
        n = below(4) ? length : below(length + 1);
        for (size_t k = below(3); k > 0 && n > 0; k--) to[below(n)] = (uint8_t)below(below(2) ? 16 : 256);
        return n;
    }
}

static size_t read_file(const char *name, uint8_t *bytes) {
    FILE *file = fopen(name, "rb");
    if (file == NULL) exit(2);
    size_t length = fread(bytes, 1, LONGEST - EXTRA, file);
    fclose(file);
    return length;
}

/* What a call may have done to a space of n cells between guards: all of them lie in `now`, and lay in `before`. */
static void look(const uint32_t *before, const uint32_t *now, size_t n, const uint64_t *results, size_t items,
                 unsigned long call) {
    size_t written = results[0] == 13 ? n : results[0] == 0 ? results[1] * items : 0;
    if (written > n) fail("more cells than the space has", call);
    for (size_t i = 0; i < CELLS + 2 * GUARD; i++) {
        if (i < GUARD || i >= GUARD + written) {
            if (now[i] != before[i]) fail("a cell outside the answer has changed", call);
        } else if (results[0] == 13 && now[i] != 0) {
            fail("a cell of a space that is too small is not zero", call);
        }
    }
}

int main(int argc, char **argv) {
    static uint8_t good_book[LONGEST], good_query[LONGEST], text[LONGEST], old[LONGEST];
    static uint8_t book[VINGARBU_BYTES + 1], query[VINGARBU_BYTES + 1];
    static unsigned long numbers[VINGARBU_REFUSALS + 1], statuses[3];
    if (argc < 3) return 2;
    size_t book_length = read_file(argv[1], good_book), query_length = read_file(argv[2], good_query);
    state = seed = argc > 3 ? strtoull(argv[3], NULL, 0) : 20261116;
    for (unsigned long call = 0; call < CALLS; call++) {
        uint32_t space[CELLS + 2 * GUARD], before[CELLS + 2 * GUARD];
        uint64_t results[6], marks[6], items, printed = 7;
        uint8_t kinds[8];
        size_t b = damage(book, good_book, book_length, behind_book, sizeof behind_book / sizeof *behind_book, 0);
        size_t q = damage(query, good_query, query_length, front_of_query,
                          sizeof front_of_query / sizeof *front_of_query, 1);
        if (below(1000) == 0) b = VINGARBU_BYTES + below(2);
        if (below(1000) == 0) q = VINGARBU_BYTES + below(2);
        size_t n = below(CELLS + 1), results_length = below(8) ? 4 + below(3) : below(4);
        uint32_t serial = (uint32_t[]){0, 1, 4294967294u, 4294967295u, (uint32_t)next()}[below(5)];
        for (size_t i = 0; i < CELLS + 2 * GUARD; i++) space[i] = before[i] = (uint32_t)next() | 1;
        for (size_t i = 0; i < 6; i++) results[i] = marks[i] = next();
        uint32_t status = vingarbu_answer(book, b, query, q, serial, space + GUARD, n, results, results_length);
        if (status != (results_length < 4 ? VINGARBU_SHORT : VINGARBU_DONE)) fail("another status", call);
        statuses[status]++;
        for (size_t i = status == VINGARBU_DONE ? 4 : 0; i < 6; i++)
            if (results[i] != marks[i]) fail("a result cell has changed", call);
        if (status != VINGARBU_DONE) {
            if (memcmp(space, before, sizeof space) != 0) fail("a cell has changed", call);
            continue;
        }
        if (results[0] != 0 && (!is_refusal(results[0]) || is_of_sheets(results[0]))) fail("another number", call);
        numbers[results[0]]++;
        if (results[2] != (results[0] == 0 ? (uint64_t)serial + 1 : serial)) fail("another serial", call);
        if (results[0] != 0 && (results[1] != 0 || results[3] != 0)) fail("a refusal with rows or bytes read", call);
        if (results[3] > q) fail("more bytes read than there are", call);
        if (vingarbu_kinds(book, b, query, q, kinds, 8, &items, 1) != VINGARBU_DONE) fail("no kinds", call);
        if (results[0] == 0 && items == 0) fail("an answer with no items", call);
        look(before, space, n, results, items, call);
        size_t room = below(LONGEST + 1);
        for (size_t i = 0; i < LONGEST; i++) text[i] = old[i] = (uint8_t)next();
        status = vingarbu_print((uint32_t)results[2], results[1], kinds, items, space + GUARD, n, text, room, &printed, 1);
        if (status == VINGARBU_DONE ? printed > room : printed != 7) fail("another length of a text", call);
        for (size_t i = status == VINGARBU_DONE ? printed : 0; i < LONGEST; i++)
            if (text[i] != old[i]) fail("a byte behind the text has changed", call);
        if (results[0] == 0 && status == VINGARBU_NOT_FIT) fail("an answer that is not fit to print", call);
        statuses[status]++;
        room = below(VINGARBU_WORDS + 1);
        memcpy(old, text, LONGEST);
        uint32_t number = (uint32_t)below(24);
        size_t lent = below(8) != 0;
        printed = VINGARBU_WORDS + 1;
        status = vingarbu_refusal_text(number, text, room, &printed, lent);
        int refusal = is_refusal(number);
        if (lent == 0 ? status != VINGARBU_SHORT : (status == VINGARBU_NOT_FIT) == refusal) fail("another status", call);
        if (status == VINGARBU_DONE ? printed > room || printed == 0 : printed != VINGARBU_WORDS + 1)
            fail("another length of the words", call);
        if (lent == 1 && refusal && room == VINGARBU_WORDS && status != VINGARBU_DONE) fail("words that do not fit", call);
        for (size_t i = status == VINGARBU_DONE ? printed : 0; i < LONGEST; i++)
            if (text[i] != old[i]) fail("a byte behind the words has changed", call);
        statuses[status]++;
    }
    printf("%d calls, seed %llu: statuses %lu %lu %lu, numbers", CALLS, (unsigned long long)seed, statuses[0], statuses[1],
           statuses[2]);
    for (unsigned i = 0; i <= VINGARBU_REFUSALS; i++)
        if (i == 0 || (is_refusal(i) && !is_of_sheets(i))) printf(" %u:%lu", i, numbers[i]);
    puts("");
    return 0;
}
