/**
 * @file fluent_uri.h
 * Generic URIs (RFC 3986) and IRIs (RFC 3987): parsed, normalised and resolved. C99 and C++11.
 *
 * TEXTS are a pointer and a length in bytes of UTF-8, and need no NUL at their end.
 *
 * RESULTS are written into the caller's buffer OUT of OUT_LEN bytes, with no NUL after them, as
 * snprintf does it: outcome->length is the length of the whole result. If that is at most OUT_LEN,
 * OUT begins with the result, and no byte after it has changed. Else OUT is as it was, and the
 * caller calls again with a buffer of outcome->length bytes. So nothing is freed across the border.
 *
 * PARTS of a result are written to parts[0] where PARTS_LEN is not 0: what fluent_uri_parse
 * reports of the whole result, also where that does not fit OUT. Other parts, and all if the call
 * returns an error, are as they were.
 *
 * ERRORS. Each call returns 0, or the number of an error, which is in the outcome too. OUT is then
 * as it was.
 *
 * POINTERS may be null where the length beside them is 0, and not otherwise. OUT, the offsets, the
 * validity, the outcome and the parts may not overlap a text, or one another.
 *
 * LENGTHS. No object in memory is longer than PTRDIFF_MAX bytes. A call that is given a longer
 * text, as by a length that was negative, returns FLUENT_URI_INVALID_ARGUMENT and reads nothing of
 * it, whatever its other arguments are. So does a call that returns no other error, such as
 * fluent_uri_compare: what it says that it returns holds of all other texts.
 *
 * THREADS. The library has no state: any thread may make any call at any time, each with buffers of
 * its own. It calls malloc, realloc and free, so it must not be called from a signal handler.
 * It raises no signal, prints nothing and never exits.
 *
 * FORK. In the forked child of a process with threads, the calls that take no memory may be made
 * wherever the program runs: each says so. The other calls may be made there too where malloc,
 * realloc and free can be called: glibc's can, POSIX does not promise it.
 *
 * PROCESSORS. The library is compiled for x86-64-v2 (SSE4.2; since 2009). On an older processor
 * glibc does not load it, and reports `CPU ISA level is lower than required`.
 */
#ifndef FLUENT_URI_H
#define FLUENT_URI_H

#include <stddef.h>
#include <stdint.h>

#ifdef __cplusplus
extern "C" {
#endif

#define FLUENT_URI_VERSION_MAJOR 0
#define FLUENT_URI_VERSION_MINOR 1

/** The version of normal forms, as fluent_uri_normal_version returns it. */
#define FLUENT_URI_NORMAL_VERSION 2

/** The kinds of texts. */
enum fluent_uri_kind {
    FLUENT_URI_URI = 0,     /**< RFC 3986, section 3 */
    FLUENT_URI_URI_REF = 1, /**< RFC 3986, section 4.1 */
    FLUENT_URI_IRI = 2,     /**< RFC 3987, section 2.2 */
    FLUENT_URI_IRI_REF = 3  /**< RFC 3987, section 2.2 */
};

/** The errors. An index is in bytes; 0 where none is named. */
enum fluent_uri_error {
    FLUENT_URI_OK = 0,
    FLUENT_URI_INVALID_PCT_ENCODED_OCTET = 1, /**< index: of the `%` */
    FLUENT_URI_UNEXPECTED_CHAR = 2,           /**< index: of the character, or the text's end */
    FLUENT_URI_INVALID_IPV6_ADDR = 3,         /**< index: of the byte after the `[` */
    FLUENT_URI_NOT_UTF8 = 4,                  /**< index: of the first byte that is not UTF-8 */
    FLUENT_URI_BASE_WITH_FRAGMENT = 5,        /**< reserved: no call returns it */
    FLUENT_URI_INVALID_REFERENCE_AGAINST_OPAQUE_BASE = 6,
    FLUENT_URI_PATH_UNDERFLOW = 7,            /**< reserved: no call returns it */
    FLUENT_URI_OUT_OF_MEMORY = 8,
    FLUENT_URI_INVALID_ARGUMENT = 9,          /**< no such kind, component or option; bad offsets;
                                               * a text longer than PTRDIFF_MAX */
    FLUENT_URI_FULL = 10,                     /**< a batch: an output is too small */
    FLUENT_URI_NONEMPTY_ROOTLESS_PATH = 11,   /**< to build: a host, and a path without a `/` */
    FLUENT_URI_PATH_STARTS_WITH_DOUBLE_SLASH = 12, /**< to build: the same without a host; so of a
                                               * target by FLUENT_URI_BASIC */
    FLUENT_URI_FIRST_PATH_SEGMENT_CONTAINS_COLON = 13, /**< to build: with no scheme nor host */
    FLUENT_URI_MISSING_COMPONENT = 14,        /**< to build: no scheme, or no host, is given */
    FLUENT_URI_NAME_NOT_UTF8 = 15,            /**< of a host in ASCII: its octets are not UTF-8 */
    FLUENT_URI_INVALID_NAME = 16              /**< of a host in ASCII: UTS 46 rejects the name */
};

/** The outputs that are too small where a batch returns FLUENT_URI_FULL, and what is needed of
 * each: at least so many bytes of OUT and of VALID, and elements of the others. */
enum fluent_uri_buffer {
    FLUENT_URI_OUT = 0,         /**< for the results so far and the next one */
    FLUENT_URI_OUT_OFFSETS = 1, /**< N + 1 */
    FLUENT_URI_VALID = 2,       /**< (N + 7) / 8 */
    FLUENT_URI_PARTS = 3,       /**< N */
    FLUENT_URI_LINE_ERRORS = 4, /**< for the lines so far and the next one */
    FLUENT_URI_OFFSET_WIDTH = 5 /**< where the next result ends, which is past the largest offset */
};

/** The options, bits that are added. A call that has an argument of them says which it takes: any
 * other bit is FLUENT_URI_INVALID_ARGUMENT. */
enum fluent_uri_option {
    FLUENT_URI_PREFER_RELATIVE_PATH = 1, /**< a relative path also where the path from the root is
                                          * shorter, as for pages that are read from a disk */
    FLUENT_URI_SCHEME_RULES = 2,         /**< normalising by the rules of schemes (RFC 3986, section
                                          * 6.2.3): http://a is http://a/, and file://localhost/a is
                                          * file:///a */
    FLUENT_URI_BASIC = 4                 /**< resolving by the basic algorithm as RFC 3986, section
                                          * 5.2, prints it, and its strict form */
};

/** The components that a number names. */
enum fluent_uri_component {
    FLUENT_URI_USERINFO = 0,
    FLUENT_URI_HOST = 1,      /**< to encode and decode: a registered name */
    FLUENT_URI_PATH = 2,
    FLUENT_URI_QUERY = 3,
    FLUENT_URI_FRAGMENT = 4,
    FLUENT_URI_SCHEME = 5,    /**< of a column only */
    FLUENT_URI_AUTHORITY = 6, /**< of a column only */
    FLUENT_URI_PORT = 7,      /**< of a column only */
    FLUENT_URI_DATA = 8       /**< to encode only: all but unreserved characters is encoded */
};

/** The kinds of hosts (RFC 3986, section 3.2.2). */
enum fluent_uri_host_kind {
    FLUENT_URI_NO_HOST = 0,   /**< there is no authority */
    FLUENT_URI_REG_NAME = 1,
    FLUENT_URI_IPV4 = 2,
    FLUENT_URI_IPV6 = 3,
    FLUENT_URI_IPV_FUTURE = 4
};

/** What fluent_uri_port_number writes of a port that has no number from 0 to 65535. */
enum fluent_uri_port {
    FLUENT_URI_NO_PORT = 65536,       /**< there is no port, perhaps no authority */
    FLUENT_URI_EMPTY_PORT = 65537,    /**< nothing is after the `:` */
    FLUENT_URI_PORT_TOO_LARGE = 65538 /**< the number is above 65535, which no kind forbids */
};

/** The bytes from `start` up to `end`; both are SIZE_MAX where the component is absent. */
typedef struct {
    size_t start, end;
} fluent_uri_span;

/** Where the components of a text are, or why it is rejected. */
typedef struct {
    uint32_t error;     /**< 0, or why the text is rejected; then every component is absent */
    uint32_t host_kind; /**< enum fluent_uri_host_kind */
    size_t index;       /**< where the error is; 0 where there is none */
    fluent_uri_span scheme, authority, userinfo, host, port, path, query, fragment;
} fluent_uri_parts;

/** Where the name and the value of a query's pair are. Without `=` the value is absent. */
typedef struct {
    fluent_uri_span name, value;
} fluent_uri_pair;

/** Where the components of a reference are in a text, of which it is built. */
typedef struct {
    fluent_uri_span scheme, userinfo, host, port, path, query, fragment;
} fluent_uri_components;

/** What a call reports. */
typedef struct {
    uint32_t error;
    uint32_t which;  /**< the text that is rejected: 0 the first, or the base; 1 the other one; of
                      * FLUENT_URI_FULL: enum fluent_uri_buffer; of fluent_uri_build: enum
                      * fluent_uri_component */
    size_t index;    /**< where in it; of a batch: how many texts are done */
    size_t length;   /**< how long the result is; of a batch: how long the results so far are */
    size_t needed;   /**< of FLUENT_URI_FULL: how much of that output is needed, at most SIZE_MAX;
                      * else 0 */
    size_t consumed; /**< of fluent_uri_normalize_lines: how many bytes of the lines are done; else
                      * 0 */
} fluent_uri_outcome;

/** The version of the library: a byte each for major, minor and patch, as 0x000100 for 0.1.0. */
uint32_t fluent_uri_version(void);

/** The version of normal forms, which changes where any of them does. Forms of two versions are not
 * keys of one table: a program that keeps some compares the number with the one that it kept beside
 * them. */
uint32_t fluent_uri_normal_version(void);

/** Writes the name of an error, as FLUENT_URI_NOT_UTF8. Takes no memory. Returns
 * FLUENT_URI_INVALID_ARGUMENT if there is no such error. */
uint32_t fluent_uri_error_name(uint32_t error, uint8_t *out, size_t out_len,
                               fluent_uri_outcome *outcome);

/** Writes what is wrong, by the number of an error, as `unexpected character`. Of a number that no
 * error has it writes `unknown error`. Takes no memory. */
uint32_t fluent_uri_error_message(uint32_t error, uint8_t *out, size_t out_len,
                                  fluent_uri_outcome *outcome);

/** Parses a text, and reports where its components are. Takes no memory. */
uint32_t fluent_uri_parse(uint32_t kind, const uint8_t *text, size_t text_len,
                          fluent_uri_parts *parts);

/** Returns 1 exactly if a text is of the kind and its own normal form by the options of
 * fluent_uri_normalize, and else 0. Unknown options have no normal forms. Takes no memory. */
uint32_t fluent_uri_is_normal(uint32_t kind, uint32_t options, const uint8_t *text,
                              size_t text_len);

/** Compares two texts as keys of a table: returns 0 if ONE is before OTHER, 1 if they are one key,
 * and 2 if ONE is after OTHER. Texts of the kind are in the order of the bytes of their normal
 * forms by the options of fluent_uri_normalize. They are one key exactly if they are equivalent.
 * All other bytes are after these, in the order of the bytes. An unknown kind has no texts, nor
 * have unknown options. For each kind and each options this is a total order on all bytes, as
 * indexes and qsort need it. Takes no memory. */
uint32_t fluent_uri_compare(uint32_t kind, uint32_t options, const uint8_t *one, size_t one_len,
                            const uint8_t *other, size_t other_len);

/** Writes the hash of a text as a key of a table. Returns 1 if it is a text of the kind, else 0.
 * What fluent_uri_compare finds to be one key by the same options has one hash. It is FNV-1a of 64
 * bits, which begins with 14695981039346656037 xor SEED: each byte is put in by xor, and the result
 * is multiplied by 1099511628211. The bytes are those of the normal form, or of a text that is not
 * of the kind, and then 255. While 1,024 bytes or more are left, the last 1,024 of them come first.
 * Takes no memory. */
uint32_t fluent_uri_hash(uint32_t kind, uint32_t options, uint64_t seed, const uint8_t *text,
                         size_t text_len, uint64_t *hash);

/** Writes the octets of the address that the host of a text is, in network order: 4 if
 * fluent_uri_parse reports FLUENT_URI_IPV4 of the text, 16 if it reports FLUENT_URI_IPV6, and else
 * none, so that outcome->length is 0 (RFC 3986, section 3.2.2). Takes no memory. */
uint32_t fluent_uri_host_address(uint32_t kind, const uint8_t *text, size_t text_len, uint8_t *out,
                                 size_t out_len, fluent_uri_outcome *outcome);

/** Sets *PORT to the number of the port of a text, from 0 to 65535, or to one of enum
 * fluent_uri_port where there is none (RFC 3986, section 3.2.3). Leading zeros make no difference.
 * If it returns an error, of which fluent_uri_parse reports the index, *PORT is as it was. Takes no
 * memory. */
uint32_t fluent_uri_port_number(uint32_t kind, const uint8_t *text, size_t text_len,
                                uint32_t *port);

/** Returns the default port of a scheme, as normalising knows it, or 0 if it has none. The case of
 * ASCII letters makes no difference: of `HTTP` it is 80. Takes no memory. */
uint32_t fluent_uri_default_port(const uint8_t *scheme, size_t scheme_len);

/** Writes the origin of a URI in ASCII, as `http://example.com:8080` (RFC 6454, section 6.2): the
 * scheme and the host of its normal form, and the port where it is not the scheme's default one.
 * KIND is FLUENT_URI_URI or FLUENT_URI_URI_REF: an IRI is converted first.
 *
 * outcome->length is 0 if the text has no origin of its own: its scheme has no default port, as
 * `file`, `data` and `urn` have none; it has no host, or an empty one; or its port is above 65535.
 * RFC 6454 writes `null` there, but no two such texts have the same origin. */
uint32_t fluent_uri_origin(uint32_t kind, const uint8_t *text, size_t text_len, uint8_t *out,
                           size_t out_len, fluent_uri_outcome *outcome);

/** Writes the host of a text in ASCII, as DNS has it: `xn--bcher-kva.example` of
 * `b%C3%BCcher.example`, and of the same name with that character itself. A registered name is
 * decoded (RFC 3986, section 2.1), and one with characters past ASCII is converted by ToASCII of
 * UTS 46, section 4.2, without transitional processing and with the flags of RFC 3987, section 3.1.
 * Every other host is written as it is: an address, and a name that decodes to ASCII.
 * outcome->length is 0 if there is no authority, or an empty host.
 *
 * FLUENT_URI_NAME_NOT_UTF8: the name does not decode to UTF-8. FLUENT_URI_INVALID_NAME: it has
 * characters past ASCII, and UTS 46 rejects it. outcome->index is then 0. Takes no memory for a
 * host that is ASCII and has no `%`. */
uint32_t fluent_uri_ascii_host(uint32_t kind, const uint8_t *text, size_t text_len, uint8_t *out,
                               size_t out_len, fluent_uri_outcome *outcome);

/** Writes the normal form (RFC 3986, section 6.2.2; default ports are left out, which is of section
 * 6.2.3). OPTIONS is 0 or FLUENT_URI_SCHEME_RULES: with it the form is by the other rules of schemes
 * too. Forms with it and without it are no keys of one table. */
uint32_t fluent_uri_normalize(uint32_t kind, uint32_t options, const uint8_t *text, size_t text_len,
                              uint8_t *out, size_t out_len, fluent_uri_parts *parts,
                              size_t parts_len, fluent_uri_outcome *outcome);

/** Writes the target of a reference against a base (RFC 3986, section 5.2). KIND is that of the
 * base, a URI or an IRI; the reference is one of URIs or of IRIs. The target is that of the base
 * without its fragment (section 5.1). OPTIONS is 0 or FLUENT_URI_BASIC: with it a base may be
 * opaque, and a target that has no authority and a path that begins with `//` is
 * FLUENT_URI_PATH_STARTS_WITH_DOUBLE_SLASH. docs/CONCEPTS.md has all differences. */
uint32_t fluent_uri_resolve(uint32_t kind, uint32_t options, const uint8_t *base, size_t base_len,
                            const uint8_t *reference, size_t reference_len, uint8_t *out,
                            size_t out_len, fluent_uri_parts *parts, size_t parts_len,
                            fluent_uri_outcome *outcome);

/** Writes the normal form of the target that fluent_uri_resolve writes without options, by the
 * options of fluent_uri_normalize. */
uint32_t fluent_uri_resolve_normalized(uint32_t kind, uint32_t options, const uint8_t *base,
                                       size_t base_len, const uint8_t *reference,
                                       size_t reference_len, uint8_t *out, size_t out_len,
                                       fluent_uri_parts *parts, size_t parts_len,
                                       fluent_uri_outcome *outcome);

/** Writes a short reference that leads from a base to a target, the inverse of fluent_uri_resolve:
 * resolved against the base without its fragment, it is the target without its dot segments. None
 * is shorter if the base's path has no dot segment. KIND is that of both. outcome->which is 1
 * where the target is rejected. OPTIONS is 0 or FLUENT_URI_PREFER_RELATIVE_PATH: with it a path of
 * the reference is relative unless the base's has a dot segment, and may be longer. */
uint32_t fluent_uri_relativize(uint32_t kind, uint32_t options, const uint8_t *base,
                               size_t base_len, const uint8_t *target, size_t target_len,
                               uint8_t *out, size_t out_len, fluent_uri_parts *parts,
                               size_t parts_len, fluent_uri_outcome *outcome);

/** Writes the text of the kind that has these components, which are bytes of TEXT without their
 * delimiters (RFC 3986, section 5.3): no other text is parsed as these. A component is absent where
 * both its offsets are SIZE_MAX; a path that is absent is empty. To replace a component of a text,
 * pass the spans of its parts, and for that component the span of what comes after the text.
 *
 * outcome->which is the component that is rejected, and outcome->index the byte of it: a character
 * that it may not have, as `?` in a path, or a `%` that begins no octet; of what begins with `[`
 * and is no address, FLUENT_URI_INVALID_IPV6_ADDR at 1. A span that is not within TEXT is
 * FLUENT_URI_INVALID_ARGUMENT. FLUENT_URI_MISSING_COMPONENT: a URI or an IRI has no scheme, or
 * userinfo or a port are without a host. */
uint32_t fluent_uri_build(uint32_t kind, const uint8_t *text, size_t text_len,
                          const fluent_uri_components *components, uint8_t *out, size_t out_len,
                          fluent_uri_parts *parts, size_t parts_len, fluent_uri_outcome *outcome);

/** Writes an IRI or an IRI reference as a URI or a URI reference (RFC 3987, section 3.1). A host
 * past ASCII is percent-encoded too: a name that DNS does not have, and that is never equal to the
 * one that DNS has. For that one, call fluent_uri_to_uri_with_ascii_host. */
uint32_t fluent_uri_to_uri(uint32_t kind, const uint8_t *text, size_t text_len, uint8_t *out,
                           size_t out_len, fluent_uri_parts *parts, size_t parts_len,
                           fluent_uri_outcome *outcome);

/** The same with the host as fluent_uri_ascii_host writes it (RFC 3987, section 3.1), and with the
 * errors of that call: `http://xn--bcher-kva.example/a` of `http://b%C3%BCcher.example/a`. Nothing
 * but the host differs from what fluent_uri_to_uri writes. */
uint32_t fluent_uri_to_uri_with_ascii_host(uint32_t kind, const uint8_t *text, size_t text_len,
                                           uint8_t *out, size_t out_len, fluent_uri_parts *parts,
                                           size_t parts_len, fluent_uri_outcome *outcome);

/** Writes the text of the kind that a text is mended to, by the least change (RFC 3986, sections
 * 2.1 and 4.2). Each character that the path, the query or the fragment may not have is
 * percent-encoded, and so is each `%` that begins no octet. If what is before a `:` is no scheme,
 * it is in the path, after `./`. Scheme and authority stay as they are, and so does a text of the
 * kind. Where the authority is not one of the kind, or a URI or an IRI has no scheme, the text is
 * rejected as fluent_uri_parse rejects it. */
uint32_t fluent_uri_mend(uint32_t kind, const uint8_t *text, size_t text_len, uint8_t *out,
                         size_t out_len, fluent_uri_parts *parts, size_t parts_len,
                         fluent_uri_outcome *outcome);

/** The same for a link of a page, of which it first drops what HTML drops: ASCII white space at
 * both ends, and each tab, LF and CR. outcome->index is in what is left of the link, but that of
 * FLUENT_URI_NOT_UTF8 in the link itself. */
uint32_t fluent_uri_mend_link(uint32_t kind, const uint8_t *text, size_t text_len, uint8_t *out,
                              size_t out_len, fluent_uri_parts *parts, size_t parts_len,
                              fluent_uri_outcome *outcome);

/** Writes the bytes that a component stands for, which may not be UTF-8. `+` is not a space. A text
 * is rejected as fluent_uri_parse rejects it: at its first character that the component may not
 * have, or at a `%` that begins no octet. */
uint32_t fluent_uri_decode(uint32_t component, const uint8_t *text, size_t text_len, uint8_t *out,
                           size_t out_len, fluent_uri_outcome *outcome);

/** Writes bytes as a component: each character that it may have as it is, all else as
 * percent-encoded octets. */
uint32_t fluent_uri_encode(uint32_t component, const uint8_t *bytes, size_t bytes_len, uint8_t *out,
                           size_t out_len, fluent_uri_outcome *outcome);

/** Writes a text as a component, of which some octets are percent-encoded already. Each `%` with
 * two hexadecimal digits after it stays, and so does each other character that the component may
 * have. All else is percent-encoded, a `%` without such digits too. */
uint32_t fluent_uri_mend_component(uint32_t component, const uint8_t *text, size_t text_len,
                                   uint8_t *out, size_t out_len, fluent_uri_outcome *outcome);

/** Reports where the next pair of a query is, from *POSITION on, and sets *POSITION to its end; at
 * first *POSITION is 0. A pair is a substring between the `&` that is not empty. Its name is what
 * is before its first `=`, and its value what is after that (RFC 3986, section 3.4). Returns 1, or
 * 0 if no pair is left, and then nothing has changed. fluent_uri_decode decodes names and values
 * as FLUENT_URI_QUERY. In the query of a form `+` is a space: replace it by `%20` before. Takes no
 * memory. */
uint32_t fluent_uri_next_pair(const uint8_t *query, size_t query_len, size_t *position,
                              fluent_uri_pair *pair);

/**
 * COLUMNS, as Apache Arrow has them: the text i runs from offsets[i] up to offsets[i + 1] of
 * TEXTS, so N texts have N + 1 offsets. Arrow's signed offsets are never negative, and so have the
 * bits of these: those of `utf8` are of 32 bits, those of `large_utf8` of 64, as the calls with
 * `64` take them. The largest offset of a result is Arrow's, 2^31 - 1 or 2^63 - 1. A column of
 * results needs N + 1 offsets and (N + 7) / 8 bytes of VALID, of which bit i is 1 where the text i
 * has a result; other bits stay. A text that is rejected has an empty result and bit 0:
 * fluent_uri_parse reports why.
 *
 * A call returns 0 if all N texts are done. It returns FLUENT_URI_INVALID_ARGUMENT if there is no
 * such kind, component or option, no offset, or a base or TEXTS of more than PTRDIFF_MAX bytes, and
 * else FLUENT_URI_FULL if there are not N + 1 offsets for the results, or not (N + 7) / 8 bytes of
 * VALID. Then no text is done, and no output has changed.
 *
 * Else the texts are done one by one. Where a call ends early, outcome->index texts are done, as
 * after a call with these alone, and outcome->length is the length of their results. The caller can
 * go on with the text outcome->index, in a second column. The number says what is wrong with it:
 *
 * FLUENT_URI_FULL: its result does not fit what is left of OUT, or ends past the largest offset.
 * outcome->which says which, and outcome->needed what is needed.
 *
 * FLUENT_URI_INVALID_ARGUMENT: it is not within TEXTS, since its offsets fall or are past the end.
 *
 * FLUENT_URI_OUT_OF_MEMORY: malloc or realloc failed. Calls that take no memory do not return it.
 */
uint32_t fluent_uri_normalize_batch(uint32_t kind, uint32_t options, const uint8_t *texts,
                                    size_t texts_len, const uint32_t *offsets, size_t offsets_len,
                                    uint8_t *out, size_t out_len, uint32_t *out_offsets,
                                    size_t out_offsets_len, uint8_t *valid, size_t valid_len,
                                    fluent_uri_outcome *outcome);
/** The same with offsets of 64 bits. */
uint32_t fluent_uri_normalize_batch64(uint32_t kind, uint32_t options, const uint8_t *texts,
                                      size_t texts_len, const uint64_t *offsets, size_t offsets_len,
                                      uint8_t *out, size_t out_len, uint64_t *out_offsets,
                                      size_t out_offsets_len, uint8_t *valid, size_t valid_len,
                                      fluent_uri_outcome *outcome);

/** Converts a column of IRIs, or of IRI references, as fluent_uri_to_uri does. */
uint32_t fluent_uri_to_uri_batch(uint32_t kind, const uint8_t *texts, size_t texts_len,
                                 const uint32_t *offsets, size_t offsets_len, uint8_t *out,
                                 size_t out_len, uint32_t *out_offsets, size_t out_offsets_len,
                                 uint8_t *valid, size_t valid_len, fluent_uri_outcome *outcome);
/** The same with offsets of 64 bits. */
uint32_t fluent_uri_to_uri_batch64(uint32_t kind, const uint8_t *texts, size_t texts_len,
                                   const uint64_t *offsets, size_t offsets_len, uint8_t *out,
                                   size_t out_len, uint64_t *out_offsets, size_t out_offsets_len,
                                   uint8_t *valid, size_t valid_len, fluent_uri_outcome *outcome);

/** Resolves a column of references against one base, which is parsed once, as fluent_uri_resolve
 * does. */
uint32_t fluent_uri_resolve_batch(uint32_t kind, uint32_t options, const uint8_t *base,
                                  size_t base_len, const uint8_t *texts, size_t texts_len,
                                  const uint32_t *offsets, size_t offsets_len, uint8_t *out,
                                  size_t out_len, uint32_t *out_offsets, size_t out_offsets_len,
                                  uint8_t *valid, size_t valid_len, fluent_uri_outcome *outcome);
/** The same with offsets of 64 bits. */
uint32_t fluent_uri_resolve_batch64(uint32_t kind, uint32_t options, const uint8_t *base,
                                    size_t base_len, const uint8_t *texts, size_t texts_len,
                                    const uint64_t *offsets, size_t offsets_len, uint8_t *out,
                                    size_t out_len, uint64_t *out_offsets, size_t out_offsets_len,
                                    uint8_t *valid, size_t valid_len, fluent_uri_outcome *outcome);

/** Resolves a column of references against one base, and normalises the targets. */
uint32_t fluent_uri_resolve_normalized_batch(uint32_t kind, uint32_t options, const uint8_t *base,
                                             size_t base_len, const uint8_t *texts,
                                             size_t texts_len, const uint32_t *offsets,
                                             size_t offsets_len, uint8_t *out, size_t out_len,
                                             uint32_t *out_offsets, size_t out_offsets_len,
                                             uint8_t *valid, size_t valid_len,
                                             fluent_uri_outcome *outcome);
/** The same with offsets of 64 bits. */
uint32_t fluent_uri_resolve_normalized_batch64(uint32_t kind, uint32_t options, const uint8_t *base,
                                               size_t base_len, const uint8_t *texts,
                                               size_t texts_len, const uint64_t *offsets,
                                               size_t offsets_len, uint8_t *out, size_t out_len,
                                               uint64_t *out_offsets, size_t out_offsets_len,
                                               uint8_t *valid, size_t valid_len,
                                               fluent_uri_outcome *outcome);

/** Makes references that lead from one base to a column of targets, as fluent_uri_relativize
 * does. */
uint32_t fluent_uri_relativize_batch(uint32_t kind, uint32_t options, const uint8_t *base,
                                     size_t base_len, const uint8_t *texts, size_t texts_len,
                                     const uint32_t *offsets, size_t offsets_len, uint8_t *out,
                                     size_t out_len, uint32_t *out_offsets, size_t out_offsets_len,
                                     uint8_t *valid, size_t valid_len, fluent_uri_outcome *outcome);
/** The same with offsets of 64 bits. */
uint32_t fluent_uri_relativize_batch64(uint32_t kind, uint32_t options, const uint8_t *base,
                                       size_t base_len, const uint8_t *texts, size_t texts_len,
                                       const uint64_t *offsets, size_t offsets_len, uint8_t *out,
                                       size_t out_len, uint64_t *out_offsets,
                                       size_t out_offsets_len, uint8_t *valid, size_t valid_len,
                                       fluent_uri_outcome *outcome);

/** Mends each text of a column, as fluent_uri_mend does. */
uint32_t fluent_uri_mend_batch(uint32_t kind, const uint8_t *texts, size_t texts_len,
                               const uint32_t *offsets, size_t offsets_len, uint8_t *out,
                               size_t out_len, uint32_t *out_offsets, size_t out_offsets_len,
                               uint8_t *valid, size_t valid_len, fluent_uri_outcome *outcome);
/** The same with offsets of 64 bits. */
uint32_t fluent_uri_mend_batch64(uint32_t kind, const uint8_t *texts, size_t texts_len,
                                 const uint64_t *offsets, size_t offsets_len, uint8_t *out,
                                 size_t out_len, uint64_t *out_offsets, size_t out_offsets_len,
                                 uint8_t *valid, size_t valid_len, fluent_uri_outcome *outcome);

/** Mends each link of a column, as fluent_uri_mend_link does. */
uint32_t fluent_uri_mend_link_batch(uint32_t kind, const uint8_t *texts, size_t texts_len,
                                    const uint32_t *offsets, size_t offsets_len, uint8_t *out,
                                    size_t out_len, uint32_t *out_offsets, size_t out_offsets_len,
                                    uint8_t *valid, size_t valid_len, fluent_uri_outcome *outcome);
/** The same with offsets of 64 bits. */
uint32_t fluent_uri_mend_link_batch64(uint32_t kind, const uint8_t *texts, size_t texts_len,
                                      const uint64_t *offsets, size_t offsets_len, uint8_t *out,
                                      size_t out_len, uint64_t *out_offsets, size_t out_offsets_len,
                                      uint8_t *valid, size_t valid_len,
                                      fluent_uri_outcome *outcome);

/** Decodes a column of components, as fluent_uri_decode does. A result may not be UTF-8. */
uint32_t fluent_uri_decode_batch(uint32_t component, const uint8_t *texts, size_t texts_len,
                                 const uint32_t *offsets, size_t offsets_len, uint8_t *out,
                                 size_t out_len, uint32_t *out_offsets, size_t out_offsets_len,
                                 uint8_t *valid, size_t valid_len, fluent_uri_outcome *outcome);
/** The same with offsets of 64 bits. */
uint32_t fluent_uri_decode_batch64(uint32_t component, const uint8_t *texts, size_t texts_len,
                                   const uint64_t *offsets, size_t offsets_len, uint8_t *out,
                                   size_t out_len, uint64_t *out_offsets, size_t out_offsets_len,
                                   uint8_t *valid, size_t valid_len, fluent_uri_outcome *outcome);

/** Encodes a column of bytes, as fluent_uri_encode does: all of them have results. */
uint32_t fluent_uri_encode_batch(uint32_t component, const uint8_t *texts, size_t texts_len,
                                 const uint32_t *offsets, size_t offsets_len, uint8_t *out,
                                 size_t out_len, uint32_t *out_offsets, size_t out_offsets_len,
                                 uint8_t *valid, size_t valid_len, fluent_uri_outcome *outcome);
/** The same with offsets of 64 bits. */
uint32_t fluent_uri_encode_batch64(uint32_t component, const uint8_t *texts, size_t texts_len,
                                   const uint64_t *offsets, size_t offsets_len, uint8_t *out,
                                   size_t out_len, uint64_t *out_offsets, size_t out_offsets_len,
                                   uint8_t *valid, size_t valid_len, fluent_uri_outcome *outcome);

/** Writes a component of each text; bit 0 also where the text has none. Takes no memory. */
uint32_t fluent_uri_component_batch(uint32_t kind, uint32_t component, const uint8_t *texts,
                                    size_t texts_len, const uint32_t *offsets, size_t offsets_len,
                                    uint8_t *out, size_t out_len, uint32_t *out_offsets,
                                    size_t out_offsets_len, uint8_t *valid, size_t valid_len,
                                    fluent_uri_outcome *outcome);
/** The same with offsets of 64 bits. */
uint32_t fluent_uri_component_batch64(uint32_t kind, uint32_t component, const uint8_t *texts,
                                      size_t texts_len, const uint64_t *offsets, size_t offsets_len,
                                      uint8_t *out, size_t out_len, uint64_t *out_offsets,
                                      size_t out_offsets_len, uint8_t *valid, size_t valid_len,
                                      fluent_uri_outcome *outcome);

/** Parses each text; parts[i].error says why one is rejected. Takes no memory. Returns
 * FLUENT_URI_FULL if there are not N parts; then no text is done, and no parts have changed.
 * outcome->length is 0. */
uint32_t fluent_uri_parse_batch(uint32_t kind, const uint8_t *texts, size_t texts_len,
                                const uint32_t *offsets, size_t offsets_len,
                                fluent_uri_parts *parts, size_t parts_len,
                                fluent_uri_outcome *outcome);
/** The same with offsets of 64 bits. */
uint32_t fluent_uri_parse_batch64(uint32_t kind, const uint8_t *texts, size_t texts_len,
                                  const uint64_t *offsets, size_t offsets_len,
                                  fluent_uri_parts *parts, size_t parts_len,
                                  fluent_uri_outcome *outcome);

/** Writes the normal form of each line, with a newline after each, by the options of
 * fluent_uri_normalize. What is between newlines is a
 * line, so N - 1 newlines part N lines: after a newline at the end of LINES there is an empty
 * line, and a caller whose lines each end in one leaves the last one out. A carriage return is of
 * its line, which is rejected at it, as it is no character of a URI. The line of a text that is
 * rejected is empty, and errors[i] is the number of its error; else errors[i] is 0.
 *
 * outcome->index lines are done, and outcome->consumed bytes of LINES, with the newlines after
 * them. Where the call ends early, the caller can go on with the line that begins there:
 * FLUENT_URI_FULL if what is written for it does not fit what is left of OUT, or there is no
 * errors[i] for it; FLUENT_URI_OUT_OF_MEMORY if malloc or realloc failed.
 * FLUENT_URI_INVALID_ARGUMENT: there is no such kind or option, or LINES is longer than
 * PTRDIFF_MAX, and nothing is written. */
uint32_t fluent_uri_normalize_lines(uint32_t kind, uint32_t options, const uint8_t *lines,
                                    size_t lines_len, uint8_t *out, size_t out_len, uint8_t *errors,
                                    size_t errors_len, fluent_uri_outcome *outcome);

#ifdef __cplusplus
}
#endif
#endif
