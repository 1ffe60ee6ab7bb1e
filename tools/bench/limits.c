/* What a call over a text costs at least, as `bench`: each byte is tested against a set once,
 * sixteen at a time by two shuffles, and what a call writes is copied once. No position is kept,
 * and no memory is requested. */
#include <stdint.h>
#include <string.h>
#include <tmmintrin.h>

enum { PARSE_LAST = 3, RESOLVE_URI = 8, RESOLVE_LAST = 11, LAST = 16, LANES = 16 };

/* The characters of a URI (RFC 3986, section 2): bit b % 8 of byte b / 8 is that of byte b. */
static const uint8_t SET[LANES] = {0, 0, 0, 0, 0xfa, 0xff, 0xff, 0xaf,
                                   0xff, 0xff, 0xff, 0xaf, 0xfe, 0xff, 0xff, 0x47};
static const uint8_t BITS[LANES] = {1, 2, 4, 8, 16, 32, 64, 128, 1, 2, 4, 8, 16, 32, 64, 128};

uint8_t out[1 << 24];

/* A bit for each of sixteen bytes that is ASCII and not in the set. */
static inline unsigned outside(const uint8_t *text) {
    __m128i bytes = _mm_loadu_si128((const __m128i *)text), zero = _mm_setzero_si128();
    __m128i row = _mm_and_si128(_mm_srli_epi16(bytes, 3), _mm_set1_epi8(LANES - 1));
    __m128i held = _mm_shuffle_epi8(_mm_loadu_si128((const __m128i *)SET), row);
    __m128i asked = _mm_shuffle_epi8(_mm_loadu_si128((const __m128i *)BITS),
                                     _mm_and_si128(bytes, _mm_set1_epi8(7)));
    __m128i lacks = _mm_cmpeq_epi8(_mm_and_si128(held, asked), zero);
    return (unsigned)_mm_movemask_epi8(_mm_andnot_si128(_mm_cmplt_epi8(bytes, zero), lacks));
}

/* Whether each byte is past ASCII or in the set. */
static __attribute__((noinline)) int is_in_set(const uint8_t *text, size_t length) {
    if (length < LANES) {
        int is_in = 1;
        for (size_t at = 0; at < length; at++)
            is_in &= text[at] >= 128 || (SET[text[at] >> 3] & BITS[text[at] & 7]) != 0;
        return is_in;
    }
    unsigned lanes = outside(text + length - LANES);
    for (size_t at = 0; at < length - LANES; at += LANES) lanes |= outside(text + at);
    return !lanes;
}

uint64_t bench(uint32_t work, const uint8_t *text, size_t text_length, const uint8_t *base,
               size_t base_length, uint64_t rounds) {
    int is_resolved = work >= RESOLVE_URI && work <= RESOLVE_LAST, is_in = 0;
    const uint8_t *result = is_resolved ? base : text;
    size_t length = is_resolved ? base_length : text_length;
    for (uint64_t round = 0; work <= LAST && round < rounds; round++) {
        is_in = is_in_set(text, text_length) && (!is_resolved || is_in_set(base, base_length));
        if (work > PARSE_LAST && length <= sizeof out) memcpy(out, result, length);
        /* (else a compiler makes one round of all) */
        __asm__ volatile("" ::: "memory");
    }
    return is_in ? length : UINT64_MAX;
}
