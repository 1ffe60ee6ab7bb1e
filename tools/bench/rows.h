/* The rows that tools/bench/run writes for the programs over either library. A row is a line "WORK
 * FEW MANY COUNT" and COUNT pairs of a text and a base, each pair a line "LENGTH LENGTH" and the
 * bytes of both. A NUL ends each where it is read, which some libraries ask for. */
#include <inttypes.h>
#include <stdint.h>
#include <stdio.h>
#include <stdlib.h>

/* Does the work so many times. What it writes into is not `static`: a compiler drops what is
 * written into an array that nothing reads. */
uint64_t bench(uint32_t work, const uint8_t *text, size_t text_length, const uint8_t *base,
               size_t base_length, uint64_t rounds);

struct pair {
    size_t text_length, base_length;
    uint8_t *text, *base;
};

struct row {
    uint32_t work;
    uint64_t few, many;
    size_t count;
    struct pair *pairs;
};

static void fail(const char *why) {
    fprintf(stderr, "bench: %s\n", why);
    exit(2);
}

static uint8_t *read_bytes(FILE *rows, size_t length) {
    uint8_t *bytes = malloc(length + 1);
    if (!bytes || fread(bytes, 1, length, rows) != length) fail("a text is cut short");
    bytes[length] = 0;
    return bytes;
}

/* Whether the file has another row, which it reads then. */
static int read_row(FILE *rows, struct row *row) {
    const char *head = "%" SCNu32 " %" SCNu64 " %" SCNu64 " %zu";
    if (fscanf(rows, head, &row->work, &row->few, &row->many, &row->count) != 4) return 0;
    row->pairs = malloc(row->count * sizeof *row->pairs);
    if (!row->pairs) fail("no memory");
    for (size_t at = 0; at < row->count; at++) {
        struct pair *it = &row->pairs[at];
        if (fscanf(rows, "%zu %zu", &it->text_length, &it->base_length) != 2) fail("no lengths");
        fgetc(rows);
        it->text = read_bytes(rows, it->text_length);
        it->base = read_bytes(rows, it->base_length);
    }
    return 1;
}

static void free_row(struct row *row) {
    for (size_t at = 0; at < row->count; at++) free(row->pairs[at].text), free(row->pairs[at].base);
    free(row->pairs);
}

/* Does the row's work so many times with one of its texts. */
static uint64_t work_on(const struct row *row, size_t at, uint64_t rounds) {
    const struct pair *it = &row->pairs[at];
    return bench(row->work, it->text, it->text_length, it->base, it->base_length, rounds);
}
