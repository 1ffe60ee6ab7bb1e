/* What a side in C or C++ is measured by: `bench` over the works of tools/bench/run that it has. A
 * NUL ends each text. */
#include <stdint.h>
#include <string.h>

enum { PARSE_URI = 0, NORMALIZE_URI = 4, RESOLVE_URI = 8 };

/* Not `static`: a compiler drops what is written into an array that nothing reads. */
char out[1 << 16];

/* Does the work once, and returns the length of what it made, or that of none. */
static uint64_t worked(uint32_t work, const char *text, size_t length, const char *base,
                       size_t base_length);

#ifdef __cplusplus
extern "C"
#endif
uint64_t bench(uint32_t work, const uint8_t *text, size_t text_length, const uint8_t *base,
               size_t base_length, uint64_t rounds) {
    int is_known = work == PARSE_URI || work == NORMALIZE_URI || work == RESOLVE_URI;
    uint64_t length = UINT64_MAX;
    for (uint64_t round = 0; is_known && round < rounds; round++)
        length = worked(work, (const char *)text, text_length, (const char *)base, base_length);
    return length;
}
