/* Writes COUNT random texts without NUL, and what the library says of each: number, hexadecimal
 * text, and for a URI and for an IRI the error and its index, or `ok`, and the normal form.
 * usage: fuzz_rows [COUNT [SEED]] */
#include "../../databases/calls.h"
#include "../../databases/random_texts.h"

#include <stdio.h>
#include <stdlib.h>

enum { ROOM = 12000 };

static void print_hex(uri_bytes bytes) {
    for (size_t i = 0; i < bytes.len; i++) printf("%02x", bytes.at[i]);
}

int main(int count, char **words) {
    static uint8_t text[ROOM], out[6 * ROOM];
    long rows = count > 1 ? atol(words[1]) : 100000;
    seed_dice(count > 2 ? strtoull(words[2], NULL, 10) : 1);
    for (long row = 0; row < rows; row++) {
        uri_bytes given = {text, random_text(text, ROOM, 1)};
        printf("%ld\t", row);
        print_hex(given);
        for (uint32_t kind = FLUENT_URI_URI; kind <= FLUENT_URI_IRI; kind += 2) {
            fluent_uri_outcome outcome;
            uri_write(URI_NORMALIZE, kind, 0, given, given, out, sizeof out, &outcome);
            if (outcome.error)
                printf("\t%s at index %zu\t", uri_message(outcome.error), outcome.index);
            else {
                uri_bytes form = {out, outcome.length};
                printf("\tok\t");
                print_hex(form);
            }
        }
        putchar('\n');
    }
    return 0;
}
