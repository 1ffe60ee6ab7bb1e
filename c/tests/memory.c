/* Each request for memory is denied in turn; and canaries around every buffer. Where a test is
 * linked with the static library, malloc and realloc of this file are the library's own. */
#define _GNU_SOURCE
#include "test.h"
#include <errno.h>

extern void *__libc_malloc(size_t);
extern void *__libc_realloc(void *, size_t);
extern void __libc_free(void *);
static long left = -1;
static size_t asked;

static int is_denied(void) {
    asked++;
    if (left < 0) return 0;
    return left-- == 0;
}

void *malloc(size_t size) { return is_denied() ? (errno = ENOMEM, NULL) : __libc_malloc(size); }
void *realloc(void *old, size_t size) {
    return is_denied() ? (errno = ENOMEM, NULL) : __libc_realloc(old, size);
}
void free(void *old) { __libc_free(old); }

/* A buffer between two canaries. */
enum { CANARY = 64, ROOM = 256 };
static uint8_t whole[CANARY + ROOM + CANARY], *const out = whole + CANARY;
static fluent_uri_outcome outcome;

static void clear(void) { memset(whole, '#', sizeof whole); }

static int is_clear(size_t from, size_t to) {
    for (size_t i = from; i < to; i++)
        if (whole[i] != '#') return 0;
    return 1;
}

/* No byte has changed but the first LENGTH of the buffer. */
static int is_kept(size_t length) {
    return is_clear(0, CANARY) && is_clear(CANARY + length, sizeof whole);
}

enum { WORKS = 17 };
static uint32_t ends[3];
static uint8_t valid;

static uint32_t work(int which, size_t room) {
    static const char *const base = "http://a/b/c", *const text = "HTTP://A:80/%7e/./\xc3\xa9";
    static const uint32_t offsets[] = {0, 20};
    switch (which) {
    case 0: return fluent_uri_normalize(2, 0, TEXT(text), out, room, NO_PARTS, &outcome);
    case 1: return fluent_uri_resolve(2, 0, TEXT(base), TEXT("../../\xc3\xa9/%7e"), out, room,
                                      NO_PARTS, &outcome);
    case 2: return fluent_uri_resolve_normalized(2, 0, TEXT(base), TEXT("../%7e"), out, room,
                                                 NO_PARTS, &outcome);
    case 3: return fluent_uri_to_uri(2, TEXT(text), out, room, NO_PARTS, &outcome);
    case 4: return fluent_uri_decode(FLUENT_URI_PATH, TEXT("%7e%20%41/"), out, room, &outcome);
    case 5: return fluent_uri_encode(FLUENT_URI_QUERY, TEXT("a b\xff#"), out, room, &outcome);
    case 6: return fluent_uri_normalize_batch(2, 0, TEXT(text), offsets, 2, out, room, ends, 2,
                                              &valid, 1, &outcome);
    case 7: return fluent_uri_relativize(2, 0, TEXT(base), TEXT("http://a/b/%7e/d"), out, room,
                                         NO_PARTS, &outcome);
    case 9: return fluent_uri_mend(2, TEXT("http://a/b c#d#e"), out, room, NO_PARTS, &outcome);
    case 11: return fluent_uri_mend_component(FLUENT_URI_PATH, TEXT("%7e b\xc3\xa9#"), out, room,
                                              &outcome);
    case 10: return fluent_uri_mend_link(1, TEXT(" /b\n c\t[ "), out, room, NO_PARTS, &outcome);
    case 13: return fluent_uri_origin(0, TEXT("HTTP://A:81/b"), out, room, &outcome);
    case 15: return fluent_uri_ascii_host(2, TEXT("http://a%C3%A9.b/"), out, room, &outcome);
    case 16: return fluent_uri_to_uri_with_ascii_host(2, TEXT("http://\xc3\xa9/\xc3\xa9"), out,
                                                      room, NO_PARTS, &outcome);
    case 14: return fluent_uri_resolve(0, FLUENT_URI_BASIC, TEXT(base), TEXT("../../c/%7e"), out,
                                       room, NO_PARTS, &outcome);
    case 12: {
        const fluent_uri_span none = {SIZE_MAX, SIZE_MAX};
        const fluent_uri_components it = {{0, 4}, none, {7, 8}, none, {8, 12}, none, {1, 4}};
        return fluent_uri_build(2, TEXT(base), &it, out, room, NO_PARTS, &outcome);
    }
    default: return fluent_uri_normalize_lines(2, 0, TEXT("A:%7e\nb"), out, room, &valid, 2 - 1,
                                               &outcome);
    }
}

/* A text that is its own normal form is written without a request, and so is its host in ASCII. */
static void test_unchanged(void) {
    static const char *const text = "http://h/%2F/b?q#f";
    static const uint32_t offsets[] = {0, 18};
    asked = 0, left = 0;
    for (uint32_t kind = 0; kind < 4; kind++) {
        clear();
        CHECK(!fluent_uri_normalize(kind, 0, TEXT(text), out, ROOM, NO_PARTS, &outcome));
        CHECK(outcome.length == 18 && !memcmp(out, text, 18) && is_kept(18));
        clear();
        CHECK(!fluent_uri_normalize_batch(kind, 0, TEXT(text), offsets, 2, out, ROOM, ends, 2,
                                          &valid, 1, &outcome));
        CHECK(outcome.length == 18 && !memcmp(out, text, 18) && is_kept(18));
        clear();
        CHECK(!fluent_uri_normalize_lines(kind, 0, TEXT(text), out, ROOM, &valid, 1, &outcome));
        CHECK(outcome.length == 19 && !memcmp(out, text, 18) && is_kept(19));
        clear();
        CHECK(!fluent_uri_ascii_host(kind, TEXT(text), out, ROOM, &outcome));
        CHECK(outcome.length == 1 && out[0] == 'h' && is_kept(1));
    }
    CHECK(asked == 0);
    left = -1;
}

int main(void) {
    int counts = 0;
    test_unchanged();
    for (int which = 0; which < WORKS; which++) {
        asked = 0, left = -1;
        clear();
        uint32_t whole_error = work(which, ROOM);
        size_t requests = asked, length = outcome.length;
        CHECK(whole_error == 0 || whole_error == FLUENT_URI_FULL);
        CHECK(is_kept(length));
        counts += requests > 0;
        for (size_t i = 0; i < requests; i++) {
            clear();
            left = (long)i;
            uint32_t error = work(which, ROOM);
            CHECK(error == FLUENT_URI_OUT_OF_MEMORY || error == whole_error);
            CHECK(is_kept(error == FLUENT_URI_OUT_OF_MEMORY ? 0 : length));
        }
        left = -1;
        for (size_t room = 0; room <= length + 1; room++) {
            clear();
            uint32_t error = work(which, room);
            CHECK(error == whole_error || error == FLUENT_URI_FULL);
            CHECK(is_kept(room >= length ? length : 0) || which == 6 || which == 8);
            CHECK(is_kept(room));
        }
    }
    /* By the shared library the requests are its own malloc's, which this file replaces too. */
    CHECK(counts >= 11);
    return ended("memory");
}
