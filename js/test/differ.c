/* Makes the calls of calls.h of each line of standard input, over the archive for x86-64, and
 * writes all that each returns and changes. differ.mjs does so over the WebAssembly module. */
#include <fluent_uri.h>
#include <stdio.h>
#include <string.h>

/* Where things are in the room of both programs. */
enum {
    LINE = 0, BEFORE = 4096, COLUMN = 8192, OFFSETS = 16448, COMPONENTS = 16512, PARSED = 16640,
    PARTS = 16800, OUTCOME = 17088, OUT_OFFSETS = 17136, VALID = 17168, ERRORS = 17176,
    PORT = 17184, HASH = 17192, POSITION = 17200, PAIR = 17208, OUT = 17280, OUT_SIZE = 8192,
    ROOM = 25472
};
#define SEED 7

static union {
    uint8_t bytes[ROOM];
    uint64_t aligned;
} room;
#define P(offset) (void *)(room.bytes + (offset))

static void result(uint32_t it) { fwrite(&it, 4, 1, stdout); }
static void dump(size_t at, size_t size) { fwrite(room.bytes + at, 1, size, stdout); }

/* The result that a call wrote, and what is after it. */
static void out(void) {
    size_t length = ((fluent_uri_outcome *)P(OUTCOME))->length + 8;
    if (length > OUT_SIZE) length = OUT_SIZE;
    dump(OUT, length);
    memset(P(OUT), 0, length);
}

static void done(void) { memset(P(PARTS), 0, OUT - PARTS); }

int main(void) {
    size_t line_length = 0;
    for (uint32_t number = 0; fgets(P(BEFORE), BEFORE, stdin); number++) {
        uint8_t *line = P(LINE), *before = P(BEFORE), kept[BEFORE];
        size_t before_length = line_length, column_length;
        memcpy(kept, line, line_length);
        line_length = strcspn((char *)before, "\n");
        memcpy(line, before, line_length);
        memcpy(before, kept, before_length);
        memcpy(P(COLUMN), line, line_length);
        room.bytes[COLUMN + line_length] = '\n';
        memcpy(P(COLUMN + line_length + 1), before, before_length);
        column_length = line_length + 1 + before_length;
        uint32_t offsets[] = {0, (uint32_t)line_length, (uint32_t)column_length};
        memcpy(P(OFFSETS), offsets, sizeof offsets);
        for (uint32_t turn = 0; turn < 4; turn++) {
            uint32_t kind = number % 64 == 63 ? 4 : turn, option = (number + turn) % 9;
            uint32_t component = (number + turn) % 11, error = (number + turn) % 19;
            int is_parsed = fluent_uri_parse(kind, line, line_length, P(PARSED)) == 0;
            /* (what a reference is built of: all but the authority) */
            memcpy(P(COMPONENTS), P(PARSED + 16), 16);
            memcpy(P(COMPONENTS + 16), P(PARSED + 48), 96);
#include "calls.h"
        }
    }
    return 0;
}
