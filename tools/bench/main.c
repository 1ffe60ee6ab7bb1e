/* Does the rows of a file, for callgrind to count: the program of either side is this one over its
 * library.
 *
 * Each row is done with FEW rounds and with MANY, and callgrind dumps its count after each. What is
 * printed of a row: how many more times memory was asked for, how many texts were accepted, and how
 * long their results are. */
#include "rows.h"
#include <valgrind/callgrind.h>

/* The linker leads each request of either library here. */
static uint64_t requests;
void *__real_malloc(size_t size);
void *__real_calloc(size_t count, size_t size);
void *__real_realloc(void *block, size_t size);
int __real_posix_memalign(void **block, size_t alignment, size_t size);

void *__wrap_malloc(size_t size) {
    requests++;
    return __real_malloc(size);
}

void *__wrap_calloc(size_t count, size_t size) {
    requests++;
    return __real_calloc(count, size);
}

void *__wrap_realloc(void *block, size_t size) {
    requests++;
    return __real_realloc(block, size);
}

int __wrap_posix_memalign(void **block, size_t alignment, size_t size) {
    requests++;
    return __real_posix_memalign(block, alignment, size);
}

static uint64_t accepted, length;

/* Does the row's work with so many rounds, and returns how many requests that took. */
static uint64_t done(const struct row *row, uint64_t rounds) {
    uint64_t before = requests;
    accepted = length = 0;
    for (size_t at = 0; at < row->count; at++) {
        uint64_t result = work_on(row, at, rounds);
        if (result != UINT64_MAX) accepted++, length += result;
    }
    return requests - before;
}

int main(int count, char **words) {
    FILE *rows = count == 2 ? fopen(words[1], "rb") : NULL;
    if (!rows) fail("name a file of rows");
    struct row row;
    while (read_row(rows, &row)) {
        done(&row, row.few);
        CALLGRIND_ZERO_STATS;
        uint64_t less = done(&row, row.few);
        CALLGRIND_DUMP_STATS_AT("few");
        uint64_t more = done(&row, row.many);
        CALLGRIND_DUMP_STATS_AT("many");
        printf("%" PRIu64 " %" PRIu64 " %" PRIu64 "\n", more - less, accepted, length);
        free_row(&row);
    }
    return 0;
}
