/* Texts as keys of a table: their order, their hashes, and which are normal. */
#include "laws.h"
#include "test.h"

#include "../../databases/random_texts.h"

static int order_by(uint32_t kind, uint32_t options, const char *one, const char *other) {
    return (int)fluent_uri_compare(kind, options, TEXT(one), TEXT(other)) - 1;
}

static int order(uint32_t kind, const char *one, const char *other) {
    return order_by(kind, 0, one, other);
}

static uint64_t hash_by(uint32_t kind, uint32_t options, uint64_t seed, const char *text) {
    uint64_t found = 7;
    CHECK(fluent_uri_hash(kind, options, seed, TEXT(text), &found) <= 1);
    return found;
}

static uint64_t hash(uint32_t kind, uint64_t seed, const char *text) {
    return hash_by(kind, 0, seed, text);
}

static void orders_texts(void) {
    /* Each is one key with itself, and before those after it. */
    static const char *const in_order[] = {"a:", "http://a/%7B", "http://a/b", "HTTP://A:80/b/%2e",
        "http://b", "http://b:8080", "urn:a", "", "%", "//a", "a b", "\xff"};
    static const int count = sizeof in_order / sizeof *in_order;
    for (int i = 0; i < count; i++)
        for (int j = 0; j < count; j++)
            CHECK(order(FLUENT_URI_URI, in_order[i], in_order[j]) == (i > j) - (i < j));
    CHECK(order(FLUENT_URI_URI, "HTTP://EXAMPLE.com:80/%7Ea/../b", "http://example.com/b") == 0);
    CHECK(order(FLUENT_URI_IRI, "http://\xc3\xa9/", "http://%C3%A9/") == 0);
    CHECK(order(FLUENT_URI_URI_REF, "//[::0:1]", "//[0::1]:") == 0);
    CHECK(order(FLUENT_URI_URI, "http://a/b%2Fc", "http://a/b/c") != 0);
    CHECK(order(FLUENT_URI_IRI, "//a", "//a") == 0 && order(FLUENT_URI_IRI, "//a", "//A") > 0);
    /* A kind that is unknown has no texts. */
    CHECK(order(4, "http://a", "HTTP://a") > 0 && order(4, "a", "a") == 0);
}

static uint64_t fnv(uint64_t state, const uint8_t *bytes, size_t len) {
    for (size_t i = 0; i < len; i++)
        state = (state ^ bytes[i]) * 1099511628211u;
    return state;
}

static void hashes_texts(void) {
    /* The published hash of `foobar`, and one step more, for 255. */
    CHECK(hash(4, 0, "foobar") == (0x85944171f73967e8 ^ 255) * 1099511628211);
    CHECK(hash(4, 0, "") == (0xcbf29ce484222325 ^ 255) * 1099511628211);
    CHECK(hash(FLUENT_URI_URI, 0, "foobar") == hash(4, 0, "foobar"));
    CHECK(hash(FLUENT_URI_URI, 5, "HTTP://a:80/%7E") == hash(4, 5, "http://a/~"));
    CHECK(hash(FLUENT_URI_URI, 5, "http://a") != hash(FLUENT_URI_URI, 6, "http://a"));
    uint64_t found;
    CHECK(fluent_uri_hash(FLUENT_URI_URI, 0, 0, TEXT("http://a"), &found) == 1);
    CHECK(fluent_uri_hash(FLUENT_URI_URI, 0, 0, TEXT("//a"), &found) == 0);
    CHECK(fluent_uri_hash(FLUENT_URI_URI, 1, 0, TEXT("http://a"), &found) == 0);
    /* Of 2,500 bytes the last 1,024 come first, then those before them, and then what is left. */
    uint8_t text[2500];
    for (size_t i = 0; i < sizeof text; i++)
        text[i] = "abcdefg"[i % 7];
    uint64_t blocks = fnv(fnv(0xcbf29ce484222325, text + 1476, 1024), text + 452, 1024);
    uint64_t all = (fnv(blocks, text, 452) ^ 255) * 1099511628211u;
    CHECK(fluent_uri_hash(FLUENT_URI_URI_REF, 0, 0, text, sizeof text, &found) == 1);
    CHECK(found == all);
    CHECK(fluent_uri_hash(FLUENT_URI_URI, 0, 0, text, sizeof text, &found) == 0 && found == all);
}

/* By the rules of schemes an empty path after an authority is `/`, and `localhost` is left out. */
static void orders_texts_by_scheme(void) {
    static const uint32_t rules = FLUENT_URI_SCHEME_RULES, kind = FLUENT_URI_URI;
    CHECK(order_by(kind, rules, "HTTP://a:80", "http://a/") == 0);
    CHECK(order_by(kind, rules, "file://LocalHost/a", "file:///a") == 0);
    CHECK(order_by(kind, rules, "http://a?b", "http://a/~") < 0);
    CHECK(order_by(kind, rules, "foo://a", "foo://a/") < 0);
    CHECK(hash_by(kind, rules, 3, "http://a") == hash(4, 3, "http://a/"));
    CHECK(hash_by(kind, rules, 3, "file://localhost/") == hash(4, 3, "file:///"));
    CHECK(fluent_uri_is_normal(kind, rules, TEXT("http://a")) == 0);
    CHECK(fluent_uri_is_normal(kind, rules, TEXT("http://a/")) == 1);
    CHECK(fluent_uri_is_normal(kind, rules, TEXT("file://localhost/a")) == 0);
    CHECK(fluent_uri_is_normal(kind, rules, TEXT("foo://localhost")) == 1);
    /* Options that are unknown have no texts. */
    for (uint32_t options = 1; options < 9; options += options == 1 ? 2 : 1) {
        CHECK(order_by(kind, options, "http://a", "HTTP://a") > 0);
        CHECK(fluent_uri_is_normal(kind, options, TEXT("http://a/")) == 0);
        CHECK(hash_by(kind, options, 3, "HTTP://a") == hash(4, 3, "HTTP://a"));
    }
}

static int is_normal(uint32_t kind, const char *text) {
    return fluent_uri_is_normal(kind, 0, TEXT(text)) == 1;
}

static void finds_what_is_normal(void) {
    static const char *const normal[] = {
        "http://example.com/a/b/~foo?x=1#y", "a:", "a:b", "http://u@h", "urn:example:Animal:Ferret",
        "http://127.0.0.1/", "http://Us@h/A?B#C", "x:/a/b.c/d..e/f.", "http://h/a?b=..",
        "file:///0123456789/0123456789/0123456789/0123456789", "http://a:8080/~", "http://[::1]/",
        "x:a/./b", "x:/..a", "x:/.//a", "x:/a/.b", "x:/a/...", "http://[2001:db8::7]:8080/",
        /* Octets that stay, also after a `/` and over the borders of sixteen bytes. */
        "http://h/%2F", "http://h/%2F..", "x:/%2F./a%20b", "http://u%3A@h%5Bost/a%7C?b%26#c%23",
        "http://h/%00%0A%1F%20%21%25%2A%2C%2F%3A%3F%40%5B%5E%60%7B%7D%7F", "a:?%22", "a:%2F#",
        "http://h/01234%2F", "http://h/012345%2F", "http://h/0123456%2F", "http://h/01234567%2F",
        "http://h/0123456789abcdef/%2F..%2F%2F/0123456789abcdef",
    };
    for (size_t i = 0; i < sizeof normal / sizeof *normal; i++)
        CHECK(is_normal(FLUENT_URI_URI, normal[i]) && is_normal(FLUENT_URI_IRI_REF, normal[i]));
    CHECK(is_normal(FLUENT_URI_URI_REF, "") && is_normal(FLUENT_URI_URI_REF, "../a//b"));
    CHECK(is_normal(FLUENT_URI_IRI, "http://\xc3\xa9/\xe6\xbc\xa2\xe2\x82\xac"));
    /* Octets past ASCII stay in a URI, and in an IRI those of no character that is decoded. */
    CHECK(is_normal(FLUENT_URI_URI, "http://%C3%A9/%E6%BC%A2?%FF#%80"));
    CHECK(is_normal(FLUENT_URI_URI_REF, "%E2%80%8E/0123456789%C3%A9"));
    CHECK(is_normal(FLUENT_URI_IRI, "x:%FF") && is_normal(FLUENT_URI_IRI, "x:%E2%80%8E%C3"));
    CHECK(!is_normal(FLUENT_URI_IRI, "http://h/%C3%A9"));
    CHECK(!is_normal(FLUENT_URI_IRI_REF, "%C3%A9"));
    /* What is not normal. */
    static const char *const others[] = {
        "HTTP://h/", "hTtp://h/", "http://H/", "http://h/%7e", "http://h/%2f", "http://h:80/",
        "http://h:/", "http://[::A]/", "http://[0:0::1]/", "x:/.", "x:/..", "x:/a/./b", "x:/a/../b",
        "http://h/0123456789/012345/./b", "http://h/0123456789/0123456/./b",
        "http://h/0123456789/01234567/../b", "http://h/0123456789abcdef/..", "x:/.%41", "x:/./a",
        "x:/a/%2e/b", "http://h/0123456789/0123456789/0123456789/%41", "x:%7e", "x:%2E", "x:%2D",
        "x:%5F", "x:%30", "x:%39", "x:%5A", "x:%61", "x:%7A", "x:%2a", "x:%2F%2f", "http://%2cA/",
        "http://A%2C/", "x:/%2F/.", "http://h/0123456789%2F/.", "http://h/012345678%2F%2f",
        "http://[::0:1]/", "A:", "a b",
    };
    for (size_t i = 0; i < sizeof others / sizeof *others; i++)
        CHECK(!is_normal(FLUENT_URI_URI, others[i]) && !is_normal(FLUENT_URI_IRI_REF, others[i]));
    CHECK(!is_normal(FLUENT_URI_IRI, "a:\xe2\x80\x8e"));
    CHECK(!is_normal(FLUENT_URI_URI, "//a") && !is_normal(FLUENT_URI_URI, ""));
    CHECK(fluent_uri_is_normal(4, 0, TEXT("a:")) == 0);
}

/* Random texts: any two are in the order that normalising both gives, and any three in an order. */
static void keeps_laws(long rounds) {
    enum { TEXTS = 16, ROOM = 1024 };
    static uint8_t texts[TEXTS][ROOM];
    size_t lens[TEXTS] = {0};
    seed_dice(1);
    for (long round = 0; round < rounds; round++) {
        int a = (int)(round % TEXTS), b = (int)dice(TEXTS), c = (int)dice(TEXTS);
        uint32_t kind = dice(5), options = dice(2) * FLUENT_URI_SCHEME_RULES;
        lens[a] = random_text(texts[a], ROOM, 0);
        CHECK(is_order_of_normal_forms(kind, options, texts[a], lens[a], texts[b], lens[b]));
        CHECK(are_in_order(kind, options, texts[a], lens[a], texts[b], lens[b], texts[c],
                           lens[c]));
    }
}

int main(int count, char **words) {
    orders_texts();
    hashes_texts();
    orders_texts_by_scheme();
    finds_what_is_normal();
    keeps_laws(count > 1 ? atol(words[1]) : 100000);
    return ended("orders");
}
