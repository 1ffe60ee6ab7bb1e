/* Does the rows of a file against the clock, and takes turns with other such programs: each number
 * on the standard input, from 0, asks for a round of that row.
 *
 * usage: clock [in-order] ROWS
 *
 * A round passes over the row's texts again and again for a millisecond, with one call a text. Each
 * pass has an order of its own, since a processor learns the branches of one that is repeated;
 * in-order keeps that of the row. What is printed of a round: the nanoseconds of processor time of
 * a pass, those of one in which `bench` has no work, and how many of the texts are accepted. */
#include "rows.h"
#include <string.h>
#include <time.h>

static const uint32_t NO_WORK = UINT32_MAX;
static const double ROUND = 1e6;
/* So many calls, or a pass where that is more, are drawn before the clock starts. */
enum { DRAWN = 1024 };

static int is_in_order;
static size_t *order;

static double now(void) {
    struct timespec time;
    clock_gettime(CLOCK_PROCESS_CPUTIME_ID, &time);
    return (double)time.tv_sec * 1e9 + (double)time.tv_nsec;
}

static size_t below(size_t bound) {
    static uint64_t state = 88172645463325252;
    state ^= state << 13;
    state ^= state >> 7;
    state ^= state << 17;
    return (size_t)((state >> 32) * bound >> 32);
}

/* Writes the order of a pass. */
static void draw(size_t *pass, size_t count) {
    for (size_t at = 0; at < count; at++) {
        size_t other = is_in_order ? at : below(at + 1);
        pass[at] = pass[other];
        pass[other] = at;
    }
}

/* The nanoseconds of so many passes. */
static double took(const struct row *row, uint64_t passes) {
    if (row->count == 1) {
        double began = now();
        work_on(row, 0, passes);
        return now() - began;
    }
    double sum = 0;
    uint64_t most = row->count < DRAWN ? DRAWN / row->count : 1;
    for (uint64_t left = passes, some; left > 0; left -= some) {
        some = left < most ? left : most;
        for (uint64_t pass = 0; pass < some; pass++) draw(order + pass * row->count, row->count);
        double began = now();
        for (size_t at = 0; at < some * row->count; at++) work_on(row, order[at], 1);
        sum += now() - began;
    }
    return sum;
}

int main(int count, char **words) {
    is_in_order = count == 3 && !strcmp(words[1], "in-order");
    FILE *file = count == 2 + is_in_order ? fopen(words[count - 1], "rb") : NULL;
    if (!file) fail("name a file of rows");
    struct {
        struct row row, idle;
        uint64_t passes;
        size_t accepted;
    } *rows = NULL, *it;
    size_t held = 0, room = DRAWN, asked;
    struct row row;
    while (read_row(file, &row)) {
        if (row.count > room) room = row.count;
        rows = realloc(rows, (held + 1) * sizeof *rows);
        order = realloc(order, room * sizeof *order);
        if (!rows || !order) fail("no memory");
        it = &rows[held++];
        it->row = it->idle = row;
        it->idle.work = NO_WORK;
        it->passes = 1;
        it->accepted = 0;
        for (size_t at = 0; at < row.count; at++)
            it->accepted += work_on(&row, at, 1) != UINT64_MAX;
        while (took(&row, it->passes) < ROUND) it->passes *= 2;
    }
    while (scanf("%zu", &asked) == 1 && asked < held) {
        it = &rows[asked];
        double passes = (double)it->passes, whole = took(&it->row, it->passes) / passes;
        printf("%.3f %.3f %zu\n", whole, took(&it->idle, it->passes) / passes, it->accepted);
        fflush(stdout);
    }
    return 0;
}
