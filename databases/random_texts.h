/* Random texts for the tests: random bytes, and URLs with random changes. */
#ifndef FLUENT_URI_DATABASES_RANDOM_TEXTS_H
#define FLUENT_URI_DATABASES_RANDOM_TEXTS_H
#include <stdint.h>
#include <string.h>

static uint64_t dice_state;

static inline void seed_dice(uint64_t seed) { dice_state = seed * 0x9E3779B97F4A7C15u + 1; }

/* Returns a number from 0 on, below SIDES. */
static inline uint32_t dice(uint32_t sides) {
    dice_state ^= dice_state << 13, dice_state ^= dice_state >> 7, dice_state ^= dice_state << 17;
    return (uint32_t)((dice_state >> 11) % sides);
}

static const char *const url_seeds[] = {
    "http://user@example.com:80/a/./b/../%7efoo?x=1&y=%26#top", "mailto:a@b", "urn:a:b",
    "HTTPS://[2001:db8::7]:443/c=GB?objectClass?one", "../a/b?c", "//h/", "?a=b&&=c",
    "x:/a/b?c", "x://h/", "x:?a=b&&=c", "http://\xc3\xa9.example/\xc3\xbc?\xc3\xb6=1#x",
    "http://127.0.0.1:/", "file:///etc/", "http://[v1.a]/", "ftp://h:21/%E2%82%AC;type=i",
};

/* Writes a text of at most ROOM bytes, ROOM from 200 on, and returns its length. LEAST is the least
 * byte that it may have: 0, or 1. One in 80 is about as long as there is room. */
static inline size_t random_text(uint8_t *to, size_t room, uint32_t least) {
    static const char often[] = "%:/?#[]@.&=;+ \xc3\xa9\xff" "0aAgG~\xf0\x9f\x98\x80";
    const char *seed = url_seeds[dice(sizeof url_seeds / sizeof *url_seeds)];
    size_t len = strlen(seed);
    if (dice(4) == 0) {
        len = dice(40);
        for (size_t i = 0; i < len; i++) to[i] = (uint8_t)(least + dice(256 - least));
        return len;
    }
    memcpy(to, seed, len);
    for (uint32_t changes = dice(4); changes; changes--) {
        size_t at = dice((uint32_t)len + 1);
        switch (dice(4)) {
        case 0:
            if (at < len) memmove(to + at, to + at + 1, --len - at);
            break;
        case 1:
            if (at < len) to[at] = (uint8_t)(least + dice(256 - least));
            break;
        case 2: len = at; break;
        default:
            memmove(to + at + 1, to + at, len++ - at);
            to[at] = (uint8_t)often[dice(sizeof often - 1)];
        }
    }
    if (dice(80) == 0)
        for (size_t most = room - dice((uint32_t)room / 4); len < most; len++)
            to[len] = (uint8_t)"a%7e/.%41"[len % 9];
    return len;
}
#endif
