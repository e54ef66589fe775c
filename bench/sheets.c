/* Microseconds for one sheet of an answer of 8,192 cells, 1,024 rows of eight items, the last sheet: the whole answer is
 * looked at, whichever sheet is called for. Run by bench/sheets.sh. */
#define _POSIX_C_SOURCE 199309L
#include "vingarbu.h"
#include <stdio.h>
#include <time.h>

enum { ROWS = 1024, ITEMS = 8, CALLS = 10000 };

static uint32_t cells[ROWS * ITEMS];
static uint8_t sheet[VINGARBU_SHEET];

int main(void) {
    const uint8_t kinds[ITEMS] = {0, 1, 2, 3, 0, 1, 2, 3};
    uint64_t refusal, sum = 0;
    struct timespec start, end;
    for (size_t i = 0; i < ROWS * ITEMS; i++) cells[i] = kinds[i % ITEMS] == 2 ? 35999 : 0xfffffff0u - (uint32_t)i;
    clock_gettime(CLOCK_MONOTONIC, &start);
    for (int call = 0; call < CALLS; call++) {
        vingarbu_sheet(1, ROWS, kinds, ITEMS, cells, ROWS * ITEMS, vingarbu_sheets(ROWS), sheet, sizeof sheet, &refusal, 1);
        sum += refusal + sheet[200];
    }
    clock_gettime(CLOCK_MONOTONIC, &end);
    double took = (double)(end.tv_sec - start.tv_sec) * 1e6 + (double)(end.tv_nsec - start.tv_nsec) / 1e3;
    printf("%.1f microseconds for each of %d sheets (%llu)\n", took / CALLS, CALLS, (unsigned long long)sum);
    return 0;
}
