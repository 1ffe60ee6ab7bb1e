/* What the extensions of SQLite and of PostgreSQL ask of libfluent_uri_c: each call once, the words
 * that SQL has for its numbers, and what is read from its results. */
#ifndef FLUENT_URI_DATABASES_CALLS_H
#define FLUENT_URI_DATABASES_CALLS_H
#include <fluent_uri.h>
#include <string.h>

typedef struct {
    const uint8_t *at;
    size_t len;
} uri_bytes;

/* By enum fluent_uri_kind: the words of SQL, and those of messages. */
static const char *const uri_kinds[] = {"uri", "uri-ref", "iri", "iri-ref"};
static const char *const uri_titles[] = {"a URI", "a URI reference", "an IRI", "an IRI reference"};
enum { URI_KINDS = 4, URI_COMPONENTS = 9, URI_OPTIONS = 3 };

/* By enum fluent_uri_component. */
static const char *const uri_components[] = {
    "userinfo", "host", "path", "query", "fragment", "scheme", "authority", "port", "data",
};

/* By bit, of enum fluent_uri_option. */
static const char *const uri_options[] = {"prefer-relative-path", "scheme-rules", "basic"};

/* Returns the number of a word among COUNT words, or -1. */
static inline int uri_number(const char *const *words, int count, const char *at, size_t len) {
    for (int i = 0; i < count; i++)
        if (strlen(words[i]) == len && memcmp(words[i], at, len) == 0) return i;
    return -1;
}

static inline const char *uri_message(uint32_t error) {
    switch (error) {
    case FLUENT_URI_INVALID_PCT_ENCODED_OCTET: return "invalid percent-encoded octet";
    case FLUENT_URI_UNEXPECTED_CHAR: return "unexpected character";
    case FLUENT_URI_INVALID_IPV6_ADDR: return "invalid IPv6 address";
    case FLUENT_URI_NOT_UTF8: return "not UTF-8";
    case FLUENT_URI_INVALID_REFERENCE_AGAINST_OPAQUE_BASE:
        return "a relative reference against an opaque base";
    case FLUENT_URI_PATH_STARTS_WITH_DOUBLE_SLASH:
        return "the target has no authority, and its path would start with //";
    default: return "no such kind, component or option";
    }
}

/* ---- Calls that write a text ---- */

typedef enum {
    URI_NORMALIZE,
    URI_RESOLVE,
    URI_RESOLVE_NORMALIZED,
    URI_RELATIVIZE,
    URI_TO_URI,
    URI_MEND,
    URI_MEND_LINK,
    URI_DECODE,
    URI_ENCODE,
} uri_call;

/* Makes a call. NUMBER is the kind, or the component of URI_DECODE and URI_ENCODE; B is the
 * reference or the target, of the calls that have one. */
static inline uint32_t uri_write(uri_call call, uint32_t number, uint32_t options, uri_bytes a,
                                 uri_bytes b, uint8_t *out, size_t room,
                                 fluent_uri_outcome *outcome) {
    switch (call) {
    case URI_NORMALIZE:
        return fluent_uri_normalize(number, options, a.at, a.len, out, room, NULL, 0, outcome);
    case URI_RESOLVE:
        return fluent_uri_resolve(number, options, a.at, a.len, b.at, b.len, out, room, NULL, 0,
                                  outcome);
    case URI_RESOLVE_NORMALIZED:
        return fluent_uri_resolve_normalized(number, options, a.at, a.len, b.at, b.len, out, room,
                                             NULL, 0, outcome);
    case URI_RELATIVIZE:
        return fluent_uri_relativize(number, options, a.at, a.len, b.at, b.len, out, room, NULL, 0,
                                     outcome);
    case URI_TO_URI: return fluent_uri_to_uri(number, a.at, a.len, out, room, NULL, 0, outcome);
    case URI_MEND: return fluent_uri_mend(number, a.at, a.len, out, room, NULL, 0, outcome);
    case URI_MEND_LINK:
        return fluent_uri_mend_link(number, a.at, a.len, out, room, NULL, 0, outcome);
    case URI_DECODE: return fluent_uri_decode(number, a.at, a.len, out, room, outcome);
    default: return fluent_uri_encode(number, a.at, a.len, out, room, outcome);
    }
}

/* ---- What is read from a text ---- */

/* Returns how many bytes are UTF-8: all of them, or those before the first that is not. The parser
 * looks at that before anything else. */
static inline size_t uri_utf8_length(const uint8_t *at, size_t len) {
    fluent_uri_parts parts;
    uint32_t error = fluent_uri_parse(FLUENT_URI_IRI_REF, at, len, &parts);
    return error == FLUENT_URI_NOT_UTF8 ? parts.index : len;
}

/* Finds a component. Returns 0 if it is absent. */
static inline int uri_component(const fluent_uri_parts *parts, uint32_t component,
                                const uint8_t *text, uri_bytes *found) {
    const fluent_uri_span spans[] = {
        parts->userinfo, parts->host,   parts->path,      parts->query,
        parts->fragment, parts->scheme, parts->authority, parts->port,
    };
    if (spans[component].start == SIZE_MAX) return 0;
    found->at = text + spans[component].start;
    found->len = spans[component].end - spans[component].start;
    return 1;
}

/* Returns the number that the digits of a port are, or -1 if there is none or it is above 65535. */
static inline int32_t uri_port_number(uri_bytes digits) {
    int32_t port = 0;
    if (digits.len == 0) return -1;
    for (size_t i = 0; i < digits.len; i++) {
        port = port * 10 + (digits.at[i] - '0');
        if (port > 65535) return -1;
    }
    return port;
}

/* Finds the next pair of a query from *POSITION on, and goes past it. The value of one without `=` is
 * empty. Returns 0 if there is none. */
static inline int uri_next_pair(uri_bytes query, size_t *position, uri_bytes *name,
                                uri_bytes *value) {
    fluent_uri_pair pair;
    if (fluent_uri_next_pair(query.at, query.len, position, &pair) != 1) return 0;
    name->at = query.at + pair.name.start, name->len = pair.name.end - pair.name.start;
    value->at = name->at, value->len = 0;
    if (pair.value.start != SIZE_MAX) {
        value->at = query.at + pair.value.start;
        value->len = pair.value.end - pair.value.start;
    }
    return 1;
}
#endif
