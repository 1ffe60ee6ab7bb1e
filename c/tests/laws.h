/* What holds of the calls for any text. */
#ifndef LAWS_H
#define LAWS_H
#include <fluent_uri.h>
#include <string.h>

/* The pairs that are read of a text are within it, in order, and all of it but `&` and the `=`
 * after their names. */
static inline int has_pairs_in_order(const uint8_t *text, size_t size) {
    size_t position = 0, before = 0;
    fluent_uri_pair pair;
    while (fluent_uri_next_pair(text, size, &position, &pair) == 1) {
        const fluent_uri_span name = pair.name, value = pair.value;
        if (name.start < before || name.start >= position || position > size) return 0;
        for (size_t i = before; i < name.start; i++)
            if (text[i] != '&') return 0;
        for (size_t i = name.start; i < position; i++)
            if (text[i] == '&' || (i < name.end && text[i] == '=')) return 0;
        if (value.start == SIZE_MAX) {
            if (name.end != position || value.end != SIZE_MAX) return 0;
        } else if (value.start != name.end + 1 || value.end != position || text[name.end] != '=') {
            return 0;
        }
        before = position;
    }
    for (size_t i = before; i < size; i++)
        if (text[i] != '&') return 0;
    return 1;
}

/* The key of a text: its normal form, or the text itself if it is not of the kind, which is told. */
static inline int normal_key(uint32_t kind, uint32_t options, const uint8_t *text, size_t size,
                             uint8_t *out, size_t room, const uint8_t **key, size_t *key_size) {
    fluent_uri_outcome outcome;
    *key = text, *key_size = size;
    if (fluent_uri_normalize(kind, options, text, size, out, room, NULL, 0, &outcome)) return 0;
    if (outcome.length > room) return -1;
    *key = out, *key_size = outcome.length;
    return 1;
}

/* Two texts are compared as their normal forms are, those of the kind first. What is one key has one
 * hash, and a text is normal exactly if normalising it keeps it. */
static inline int is_order_of_normal_forms(uint32_t kind, uint32_t options, const uint8_t *a,
                                           size_t a_size, const uint8_t *b, size_t b_size) {
    static uint8_t a_out[1 << 16], b_out[1 << 16];
    const uint8_t *a_key, *b_key;
    size_t a_len, b_len;
    uint64_t a_hash, b_hash;
    uint32_t found;
    int of_kind = normal_key(kind, options, a, a_size, a_out, sizeof a_out, &a_key, &a_len);
    int other_of_kind = normal_key(kind, options, b, b_size, b_out, sizeof b_out, &b_key, &b_len);
    int order = other_of_kind - of_kind;
    if (of_kind < 0 || other_of_kind < 0) return 1;
    if (order == 0 && (a_len < b_len ? a_len : b_len))
        order = memcmp(a_key, b_key, a_len < b_len ? a_len : b_len);
    if (order == 0) order = (a_len > b_len) - (a_len < b_len);
    found = fluent_uri_compare(kind, options, a, a_size, b, b_size);
    if (found != (uint32_t)((order > 0) - (order < 0) + 1)) return 0;
    found = fluent_uri_hash(kind, options, a_size, a, a_size, &a_hash);
    if (found != (uint32_t)of_kind) return 0;
    found = fluent_uri_hash(kind, options, a_size, b, b_size, &b_hash);
    if (found != (uint32_t)other_of_kind) return 0;
    if (order == 0 && a_hash != b_hash) return 0;
    return fluent_uri_is_normal(kind, options, a, a_size) ==
           (of_kind && a_len == a_size && memcmp(a_key, a, a_size) == 0);
}

/* Of three texts, the first and the last are in the order of the two steps between. */
static inline int are_in_order(uint32_t kind, uint32_t options, const uint8_t *a, size_t a_size,
                               const uint8_t *b, size_t b_size, const uint8_t *c, size_t c_size) {
    uint32_t ab = fluent_uri_compare(kind, options, a, a_size, b, b_size);
    uint32_t bc = fluent_uri_compare(kind, options, b, b_size, c, c_size);
    if (fluent_uri_compare(kind, options, b, b_size, a, a_size) != 2 - ab) return 0;
    if (ab > 1 || bc > 1) return 1;
    return fluent_uri_compare(kind, options, a, a_size, c, c_size) == (ab < bc ? ab : bc);
}

/* An address has the octets of its kind of host, a port is a number if it has digits below 65536, and
 * an origin is its own. */
static inline int has_host_of_its_kind(uint32_t kind, const uint8_t *text, size_t size) {
    static const size_t octets[] = {0, 0, 4, 16, 0};
    static uint8_t out[16], origin[1 << 16], again[1 << 16];
    fluent_uri_parts parts;
    fluent_uri_outcome outcome;
    uint32_t port = 7, error = fluent_uri_parse(kind, text, size, &parts);
    if (fluent_uri_host_address(kind, text, size, out, sizeof out, &outcome) != error) return 0;
    if (fluent_uri_port_number(kind, text, size, &port) != error) return 0;
    if (error) return port == 7 && outcome.error == error && outcome.index == parts.index;
    if (outcome.length != octets[parts.host_kind]) return 0;
    if ((port == FLUENT_URI_NO_PORT) != (parts.port.start == SIZE_MAX)) return 0;
    if ((port == FLUENT_URI_EMPTY_PORT) !=
        (parts.port.start != SIZE_MAX && parts.port.start == parts.port.end))
        return 0;
    error = fluent_uri_origin(kind, text, size, origin, sizeof origin, &outcome);
    if (error) return error == FLUENT_URI_INVALID_ARGUMENT && kind > FLUENT_URI_URI_REF;
    size_t length = outcome.length;
    if (length == 0 || length > sizeof origin) return 1;
    return fluent_uri_origin(0, origin, length, again, sizeof again, &outcome) == 0 &&
           outcome.length == length && !memcmp(origin, again, length);
}

/* A host in ASCII is its own, and nothing but the host differs between the two URIs of an IRI. */
static inline int has_ascii_host(uint32_t kind, const uint8_t *text, size_t size) {
    static uint8_t host[1 << 16], own[1 << 16], made[1 << 16], again[1 << 16];
    fluent_uri_parts of_own, of_made;
    fluent_uri_outcome outcome;
    uint32_t error = fluent_uri_ascii_host(kind, text, size, host, sizeof host, &outcome);
    if (error != outcome.error) return 0;
    size_t length = error ? 0 : outcome.length;
    for (size_t i = 0; i < length && i < sizeof host; i++)
        if (host[i] > 127) return 0;
    if (kind < FLUENT_URI_IRI || kind > FLUENT_URI_IRI_REF || size > sizeof own / 12) return 1;
    if (fluent_uri_to_uri_with_ascii_host(kind, text, size, made, sizeof made, &of_made, 1,
                                          &outcome) != error)
        return 0;
    if (error) return outcome.length == 0;
    size_t made_length = outcome.length;
    if (fluent_uri_to_uri(kind, text, size, own, sizeof own, &of_own, 1, &outcome)) return 0;
    if (of_own.host.start == SIZE_MAX)
        return length == 0 && made_length == outcome.length && !memcmp(own, made, made_length);
    if (of_made.host.end - of_made.host.start != length ||
        memcmp(made + of_made.host.start, host, length))
        return 0;
    /* What is before the host, and what is after it. */
    if (of_own.host.start != of_made.host.start ||
        outcome.length - of_own.host.end != made_length - of_made.host.end ||
        memcmp(own, made, of_own.host.start) ||
        memcmp(own + of_own.host.end, made + of_made.host.end, made_length - of_made.host.end))
        return 0;
    /* (a URI has the kind that is two before that of its IRI) */
    return fluent_uri_ascii_host(kind - 2, made, made_length, again, sizeof again, &outcome) == 0 &&
           outcome.length == length && !memcmp(again, host, length);
}

#endif
