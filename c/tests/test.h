/* What the tests share. */
#ifndef TEST_H
#define TEST_H
#include <fluent_uri.h>
#include <stdio.h>
#include <stdlib.h>
#include <string.h>

static int failed;
#define CHECK(it) \
    ((it) ? (void)0 : (void)(failed++, printf("%s:%d: %s\n", __FILE__, __LINE__, #it)))
#define TEXT(it) (const uint8_t *)(it), strlen(it)
#define NO_PARTS NULL, 0

static inline int is_text(const uint8_t *out, size_t length, const char *wanted) {
    return length == strlen(wanted) && memcmp(out, wanted, length) == 0;
}

static inline int ended(const char *name) {
    if (failed) printf("%s: %d failed\n", name, failed);
    return failed != 0;
}
#endif
