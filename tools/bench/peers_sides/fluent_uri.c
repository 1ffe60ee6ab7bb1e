/* The C interface, over fluent_uri.h. */
#include <fluent_uri.h>

#include "side.h"

static uint64_t worked(uint32_t work, const char *text, size_t length, const char *base,
                       size_t base_length) {
    const uint8_t *read = (const uint8_t *)text, *from = (const uint8_t *)base;
    uint8_t *to = (uint8_t *)out;
    fluent_uri_outcome outcome = {.length = length};
    fluent_uri_parts parts;
    uint32_t error;
    if (work == PARSE_URI)
        error = fluent_uri_parse(FLUENT_URI_URI, read, length, &parts);
    else if (work == NORMALIZE_URI)
        error = fluent_uri_normalize(FLUENT_URI_URI, 0, read, length, to, sizeof out, NULL, 0,
                                     &outcome);
    else
        error = fluent_uri_resolve(FLUENT_URI_URI, 0, from, base_length, read, length, to,
                                   sizeof out, NULL, 0, &outcome);
    return error ? UINT64_MAX : outcome.length;
}
