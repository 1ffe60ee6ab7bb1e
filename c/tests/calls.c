/* Each call on one text, and the rules of the border. */
#include "laws.h"
#include "test.h"

static fluent_uri_outcome outcome;
static fluent_uri_parts made;
static uint8_t out[256];

/* What follows the texts of a call that makes a value, with a room of some length or with all room;
 * and of one that makes bytes. */
#define SHORT(LENGTH) out, LENGTH, &made, 1, &outcome
#define VALUE SHORT(sizeof out)
#define BYTES out, sizeof out, &outcome

static int gives_bytes(uint32_t error, const char *wanted) {
    return error == 0 && outcome.error == 0 && is_text(out, outcome.length, wanted);
}

/* The parts beside a result are those of the result as it is parsed. */
static int has_parts_of(const char *result) {
    fluent_uri_parts parsed;
    return fluent_uri_parse(FLUENT_URI_IRI_REF, TEXT(result), &parsed) == 0 &&
           memcmp(&parsed, &made, sizeof made) == 0;
}

static int gives(uint32_t error, const char *wanted) {
    return gives_bytes(error, wanted) && has_parts_of(wanted);
}

static int rejects(uint32_t error, uint32_t wanted, uint32_t which, size_t index) {
    return error == wanted && outcome.error == wanted && outcome.which == which &&
           outcome.index == index && outcome.length == 0 && outcome.needed == 0 &&
           outcome.consumed == 0;
}

static int is_at(const char *text, fluent_uri_span at, const char *wanted) {
    if (!wanted) return at.start == SIZE_MAX && at.end == SIZE_MAX;
    return at.end - at.start == strlen(wanted) && !memcmp(text + at.start, wanted, strlen(wanted));
}

static void parses(void) {
    fluent_uri_parts p;
    const char *text = "foo://u@example.com:8042/over/there?name=ferret#nose";
    CHECK(fluent_uri_parse(FLUENT_URI_URI, TEXT(text), &p) == 0 && p.error == 0);
    CHECK(is_at(text, p.scheme, "foo") && is_at(text, p.authority, "u@example.com:8042"));
    CHECK(is_at(text, p.userinfo, "u") && is_at(text, p.host, "example.com"));
    CHECK(is_at(text, p.port, "8042") && is_at(text, p.path, "/over/there"));
    CHECK(is_at(text, p.query, "name=ferret") && is_at(text, p.fragment, "nose"));
    CHECK(p.host_kind == FLUENT_URI_REG_NAME);
    text = "//[::1]";
    CHECK(fluent_uri_parse(FLUENT_URI_URI_REF, TEXT(text), &p) == 0);
    CHECK(p.host_kind == FLUENT_URI_IPV6 && is_at(text, p.host, "[::1]"));
    CHECK(is_at(text, p.scheme, 0) && is_at(text, p.userinfo, 0) && is_at(text, p.port, 0));
    text = "//@127.0.0.1:";
    CHECK(fluent_uri_parse(FLUENT_URI_URI_REF, TEXT(text), &p) == 0);
    CHECK(p.host_kind == FLUENT_URI_IPV4 && is_at(text, p.userinfo, "") && is_at(text, p.port, ""));
    CHECK(fluent_uri_parse(FLUENT_URI_URI_REF, TEXT("//[v1.a]"), &p) == 0);
    CHECK(p.host_kind == FLUENT_URI_IPV_FUTURE);
    CHECK(fluent_uri_parse(FLUENT_URI_URI_REF, TEXT("a"), &p) == 0);
    CHECK(p.host_kind == FLUENT_URI_NO_HOST && is_at("a", p.host, 0));
    CHECK(fluent_uri_parse(FLUENT_URI_URI, TEXT("http://a b/"), &p) == FLUENT_URI_UNEXPECTED_CHAR);
    CHECK(p.error == FLUENT_URI_UNEXPECTED_CHAR && p.index == 8 && is_at("", p.path, 0));
    CHECK(fluent_uri_parse(FLUENT_URI_URI, TEXT("a:%2"), &p) ==
              FLUENT_URI_INVALID_PCT_ENCODED_OCTET && p.index == 2);
    CHECK(fluent_uri_parse(FLUENT_URI_URI, TEXT("a://[::1::]"), &p) ==
              FLUENT_URI_INVALID_IPV6_ADDR && p.index == 5);
    CHECK(fluent_uri_parse(FLUENT_URI_IRI, TEXT("a:\xff"), &p) == FLUENT_URI_NOT_UTF8);
    CHECK(p.index == 2);
    CHECK(fluent_uri_parse(4, TEXT("a:"), &p) == FLUENT_URI_INVALID_ARGUMENT);
    CHECK(fluent_uri_parse(1, NULL, 0, &p) == 0 && p.path.start == 0 && p.path.end == 0);
}

static void normalizes(void) {
    const char *text = "HTTP://Example.com:80/a/./b/%7Efoo";
    const char *normal = "http://example.com/a/b/~foo";
    CHECK(gives(fluent_uri_normalize(0, 0, TEXT(text), VALUE), normal));
    /* If the buffer is too short, the length and the parts are reported, and nothing is written. */
    memset(out, '#', sizeof out);
    memset(&made, '#', sizeof made);
    CHECK(fluent_uri_normalize(0, 0, TEXT(text), SHORT(26)) == 0 && outcome.length == 27);
    CHECK(out[0] == '#' && out[25] == '#' && has_parts_of(normal));
    CHECK(gives(fluent_uri_normalize(0, 0, TEXT(text), SHORT(27)), normal) && out[27] == '#');
    memset(out, '#', sizeof out);
    CHECK(gives(fluent_uri_normalize(0, 0, TEXT(text), SHORT(28)), normal) && out[27] == '#');
    /* No pointer is needed where there is nothing. */
    CHECK(fluent_uri_normalize(0, 0, TEXT(text), NULL, 0, NO_PARTS, &outcome) == 0);
    CHECK(outcome.length == 27);
    CHECK(fluent_uri_normalize(1, 0, NULL, 0, NULL, 0, NO_PARTS, &outcome) == 0);
    CHECK(outcome.length == 0);
    /* Of more parts only the first are written. */
    fluent_uri_parts two[2] = {{.index = 7}, {.index = 7}};
    CHECK(fluent_uri_normalize(1, 0, TEXT("a"), NULL, 0, two, 2, &outcome) == 0);
    CHECK(two[0].index == 0 && two[0].path.end == 1 && two[1].index == 7);
    /* A rejected call leaves the buffer and the parts as they were. */
    memset(out, '#', sizeof out);
    made.index = 7;
    CHECK(rejects(fluent_uri_normalize(0, 0, TEXT("a:b c"), VALUE), 2, 0, 3));
    CHECK(rejects(fluent_uri_normalize(9, 0, TEXT("a:"), VALUE), 9, 0, 0));
    CHECK(rejects(fluent_uri_normalize(0, 0, TEXT("a:\xc3"), VALUE), 4, 0, 2));
    CHECK(out[0] == '#' && made.index == 7);
}

/* The rules of schemes, by their option alone. */
static void normalizes_by_rules(void) {
    static const char *const rows[][3] = {
        {"HTTP://A", "http://a", "http://a/"},
        {"wss://a:443?q", "wss://a?q", "wss://a/?q"},
        {"file://LOCALHOST/a", "file://localhost/a", "file:///a"},
        {"foo://a", "foo://a", "foo://a"},
    };
    for (size_t i = 0; i < sizeof rows / sizeof *rows; i++) {
        CHECK(gives(fluent_uri_normalize(0, 0, TEXT(rows[i][0]), VALUE), rows[i][1]));
        CHECK(gives(fluent_uri_normalize(0, FLUENT_URI_SCHEME_RULES, TEXT(rows[i][0]), VALUE),
                    rows[i][2]));
        CHECK(gives(fluent_uri_resolve_normalized(0, FLUENT_URI_SCHEME_RULES, TEXT("a://b"),
                                                  TEXT(rows[i][0]), VALUE), rows[i][2]));
    }
    for (uint32_t options = 1; options < 9; options += 1 + (options == 1)) {
        CHECK(rejects(fluent_uri_normalize(0, options, TEXT("a:"), VALUE), 9, 0, 0));
        CHECK(rejects(fluent_uri_resolve_normalized(0, options, TEXT("a:"), TEXT(""), VALUE),
                      9, 0, 0));
    }
}

/* What a base's fragment is plays no part in a target. */
static void resolves_against_a_fragment(void) {
    static const char *const references[] = {"", "#g", "?q", "c", "../c", "//c", "x:c"};
    for (size_t i = 0; i < sizeof references / sizeof *references; i++) {
        for (uint32_t options = 0; options <= FLUENT_URI_BASIC; options += FLUENT_URI_BASIC) {
            char wanted[64];
            CHECK(fluent_uri_resolve(0, options, TEXT("http://a/b?d"), TEXT(references[i]),
                                     VALUE) == 0);
            sprintf(wanted, "%.*s", (int)outcome.length, (const char *)out);
            CHECK(gives(fluent_uri_resolve(0, options, TEXT("http://a/b?d#f"), TEXT(references[i]),
                                           VALUE), wanted));
        }
    }
    CHECK(gives(fluent_uri_resolve_normalized(0, 0, TEXT("http://A/b#f"), TEXT("%7e"), VALUE),
                "http://a/~"));
    /* It is a part of the text that is parsed. */
    CHECK(rejects(fluent_uri_resolve(0, 0, TEXT("a:#f#"), TEXT("g"), VALUE), 2, 0, 4));
    CHECK(rejects(fluent_uri_resolve(0, 0, TEXT("a:b#f"), TEXT("g"), VALUE),
                  FLUENT_URI_INVALID_REFERENCE_AGAINST_OPAQUE_BASE, 0, 0));
}

/* The differences that docs/CONCEPTS.md lists: base, reference, target without options, and by the
 * basic algorithm. */
static void resolves_by_the_basic_algorithm(void) {
    static const char *const rows[][4] = {
        {"http://a/b", "%2E%2E/g", "http://a/g", "http://a/%2E%2E/g"},
        {"http://a/b/..", "g", "http://a/g", "http://a/b/g"},
        {"http://a/./b", "?q", "http://a/b?q", "http://a/./b?q"},
        {"http://a/", "foo:a/../b", "foo:a/../b", "foo:/b"},
        {"foo:b", "g", NULL, "foo:g"},
        {"foo:/a", ".//b", "foo:/.//b", NULL},
    };
    for (size_t i = 0; i < sizeof rows / sizeof *rows; i++) {
        const char *const *it = rows[i];
        uint32_t error = fluent_uri_resolve(0, 0, TEXT(it[0]), TEXT(it[1]), VALUE);
        if (it[2]) CHECK(gives(error, it[2]));
        else CHECK(rejects(error, FLUENT_URI_INVALID_REFERENCE_AGAINST_OPAQUE_BASE, 0, 0));
        error = fluent_uri_resolve(0, FLUENT_URI_BASIC, TEXT(it[0]), TEXT(it[1]), VALUE);
        if (it[3]) CHECK(gives(error, it[3]));
        else CHECK(rejects(error, FLUENT_URI_PATH_STARTS_WITH_DOUBLE_SLASH, 0, 0));
    }
    CHECK(gives(fluent_uri_resolve(2, FLUENT_URI_BASIC, TEXT("x:\xc3\xb6/"), TEXT("\xc3\xa9"),
                                   VALUE), "x:\xc3\xb6/\xc3\xa9"));
    CHECK(rejects(fluent_uri_resolve(0, FLUENT_URI_BASIC, TEXT("a:"), TEXT("a b"), VALUE),
                  2, 1, 1));
    for (uint32_t options = 1; options < 9; options++) {
        if (options == FLUENT_URI_BASIC) continue;
        CHECK(rejects(fluent_uri_resolve(0, options, TEXT("a:"), TEXT(""), VALUE), 9, 0, 0));
    }
}

static void resolves(void) {
    const char *base = "http://a/b/c/d;p?q";
    CHECK(gives(fluent_uri_resolve(0, 0, TEXT(base), TEXT("../g"), VALUE), "http://a/b/g"));
    CHECK(rejects(fluent_uri_resolve(0, 0, TEXT(base), TEXT("a b"), SHORT(9)), 2, 1, 1));
    CHECK(rejects(fluent_uri_resolve(0, 0, TEXT("a b"), TEXT("a b"), SHORT(9)), 2, 0, 1));
    CHECK(rejects(fluent_uri_resolve(0, 0, TEXT("a:b"), TEXT("g"), SHORT(9)),
                  FLUENT_URI_INVALID_REFERENCE_AGAINST_OPAQUE_BASE, 0, 0));
    CHECK(rejects(fluent_uri_resolve(1, 0, TEXT(base), TEXT("g"), SHORT(9)), 9, 0, 0));
    CHECK(gives(fluent_uri_resolve_normalized(0, 0, TEXT(base), TEXT("//A:80"), VALUE),
                "http://a"));
    CHECK(gives(fluent_uri_resolve(2, 0, TEXT("http://a/"), TEXT("\xc3\xa9"), VALUE),
                "http://a/\xc3\xa9"));
}

static void relativizes(void) {
    CHECK(gives(fluent_uri_relativize(0, 0, TEXT("http://a/b/c/d"), TEXT("http://a/b/x/./y"),
                                      VALUE), "../x/y"));
    CHECK(gives(fluent_uri_relativize(2, 0, TEXT("http://a/b#f"), TEXT("http://a/\xc3\xa9"), VALUE),
                "\xc3\xa9"));
    CHECK(gives(fluent_uri_relativize(0, 0, TEXT("a:b"), TEXT("c:d"), VALUE), "c:d"));
    memset(out, '#', sizeof out);
    CHECK(fluent_uri_relativize(0, 0, TEXT("http://a/b"), TEXT("http://a/c/d"), SHORT(2)) == 0);
    CHECK(outcome.length == 3 && out[0] == '#');
    CHECK(rejects(fluent_uri_relativize(0, 0, TEXT("a b"), TEXT("c d"), SHORT(9)), 2, 0, 1));
    CHECK(rejects(fluent_uri_relativize(0, 0, TEXT("a:"), TEXT("c:d e"), SHORT(9)), 2, 1, 3));
    CHECK(rejects(fluent_uri_relativize(1, 0, TEXT("a:"), TEXT("c:"), SHORT(9)), 9, 0, 0));
    /* By an option the path is relative though that from the root is shorter. */
    const char *base = "http://a/b/c/d/", *target = "http://a/x";
    CHECK(gives(fluent_uri_relativize(0, 0, TEXT(base), TEXT(target), VALUE), "/x"));
    CHECK(gives(fluent_uri_relativize(0, FLUENT_URI_PREFER_RELATIVE_PATH, TEXT(base), TEXT(target),
                                      VALUE), "../../../x"));
    for (uint32_t option = 2; option; option *= 2)
        CHECK(rejects(fluent_uri_relativize(0, option | 1, TEXT(base), TEXT(target), VALUE),
                      9, 0, 0));
}

static void mends(void) {
    CHECK(gives(fluent_uri_mend(0, TEXT("http://h/a b?x=[1]"), VALUE),
                "http://h/a%20b?x=%5B1%5D"));
    CHECK(gives(fluent_uri_mend(1, TEXT("/50%"), VALUE), "/50%25"));
    CHECK(gives(fluent_uri_mend(1, TEXT("/\xc3\xa9#a#b"), VALUE), "/%C3%A9#a%23b"));
    CHECK(gives(fluent_uri_mend(3, TEXT("/\xc3\xa9#a#b"), VALUE), "/\xc3\xa9#a%23b"));
    CHECK(gives(fluent_uri_mend(1, TEXT("1:2"), VALUE), "./1:2"));
    CHECK(gives(fluent_uri_mend(0, TEXT("HTTP://H/%7e/."), VALUE), "HTTP://H/%7e/."));
    CHECK(gives(fluent_uri_mend(1, TEXT(" a "), VALUE), "%20a%20"));
    CHECK(gives(fluent_uri_mend_link(1, TEXT(" a "), VALUE), "a"));
    CHECK(gives(fluent_uri_mend_link(0, TEXT(" ht\ntp://h/a\t b\r\n"), VALUE),
                "http://h/a%20b"));
    /* What cannot be mended has the error of the parser. */
    CHECK(rejects(fluent_uri_mend(0, TEXT("http://a b/"), SHORT(99)), 2, 0, 8));
    CHECK(rejects(fluent_uri_mend(0, TEXT("http://good.com\\@evil.com/"), SHORT(99)), 2, 0, 15));
    CHECK(rejects(fluent_uri_mend(1, TEXT("//[::1::]/ "), SHORT(99)), 3, 0, 3));
    CHECK(rejects(fluent_uri_mend(0, TEXT("a b"), SHORT(99)), 2, 0, 1));
    CHECK(rejects(fluent_uri_mend(0, TEXT("a:\xff"), SHORT(99)), 4, 0, 2));
    CHECK(rejects(fluent_uri_mend(4, TEXT("a"), SHORT(99)), 9, 0, 0));
    CHECK(rejects(fluent_uri_mend_link(0, TEXT(" http:\n//a b/"), SHORT(99)), 2, 0, 8));
    CHECK(rejects(fluent_uri_mend_link(0, TEXT(" a:\xff"), SHORT(99)), 4, 0, 3));
    CHECK(rejects(fluent_uri_mend_link(4, TEXT("a"), SHORT(99)), 9, 0, 0));
    memset(out, '#', sizeof out);
    CHECK(fluent_uri_mend(1, TEXT("a b"), SHORT(4)) == 0 && outcome.length == 5 && out[0] == '#');
}

/* Builds a text of components, in the order of fluent_uri_components. NULL is an absent one. */
static uint32_t build(uint32_t kind, const char *const given[7]) {
    char text[256];
    size_t length = 0;
    fluent_uri_span spans[7];
    fluent_uri_components components;
    for (int i = 0; i < 7; i++) {
        spans[i].start = spans[i].end = SIZE_MAX;
        if (!given[i]) continue;
        spans[i].start = length;
        memcpy(text + length, given[i], strlen(given[i]));
        spans[i].end = length += strlen(given[i]);
    }
    memcpy(&components, spans, sizeof components);
    return fluent_uri_build(kind, (const uint8_t *)text, length, &components, VALUE);
}

#define BUILD(KIND, ...) build(KIND, (const char *const[7]){__VA_ARGS__})

static void builds(void) {
    /* RFC 3986, section 3; IRIs of RFC 3987, section 3.1; an authority of section 3.2.2. */
    CHECK(gives(BUILD(0, "foo", 0, "example.com", "8042", "/over/there", "name=ferret", "nose"),
                "foo://example.com:8042/over/there?name=ferret#nose"));
    CHECK(gives(BUILD(0, "urn", 0, 0, 0, "example:animal:ferret:nose", 0, 0),
                "urn:example:animal:ferret:nose"));
    CHECK(gives(BUILD(2, "http", 0, "r\xc3\xa9sum\xc3\xa9.example.org", 0, "/", 0, 0),
                "http://r\xc3\xa9sum\xc3\xa9.example.org/"));
    CHECK(gives(BUILD(1, 0, "", "[2001:db8::7]", "", "", "", ""), "//@[2001:db8::7]:?#"));
    CHECK(gives(BUILD(1, 0, 0, "[v1.fe:d]", 0, 0, 0, 0), "//[v1.fe:d]"));
    CHECK(gives(BUILD(3, 0, 0, 0, 0, 0, 0, 0), ""));
    CHECK(gives(BUILD(1, 0, 0, "", 0, "//", 0, 0), "////"));
    /* A component with another's delimiter is rejected, and so is one that is malformed. */
    CHECK(rejects(BUILD(0, "a:b", 0, 0, 0, "", 0, 0), 2, FLUENT_URI_SCHEME, 1));
    CHECK(rejects(BUILD(0, "1a", 0, 0, 0, "", 0, 0), 2, FLUENT_URI_SCHEME, 0));
    CHECK(rejects(BUILD(0, "", 0, 0, 0, "", 0, 0), 2, FLUENT_URI_SCHEME, 0));
    CHECK(rejects(BUILD(0, "a", "b@c", "", 0, "", 0, 0), 2, FLUENT_URI_USERINFO, 1));
    CHECK(rejects(BUILD(0, "a", 0, "b:80", 0, "", 0, 0), 2, FLUENT_URI_HOST, 1));
    CHECK(rejects(BUILD(0, "a", 0, "b/c", 0, "", 0, 0), 2, FLUENT_URI_HOST, 1));
    CHECK(rejects(BUILD(0, "a", 0, "[::g]", 0, "", 0, 0), 3, FLUENT_URI_HOST, 1));
    CHECK(rejects(BUILD(0, "a", 0, "[::1]:80", 0, "", 0, 0), 3, FLUENT_URI_HOST, 1));
    CHECK(rejects(BUILD(0, "a", 0, "[v.a]", 0, "", 0, 0), 3, FLUENT_URI_HOST, 1));
    CHECK(rejects(BUILD(0, "a", 0, "b", "8x", "", 0, 0), 2, FLUENT_URI_PORT, 1));
    CHECK(rejects(BUILD(0, "a", 0, "b", 0, "/a?b", 0, 0), 2, FLUENT_URI_PATH, 2));
    CHECK(rejects(BUILD(0, "a", 0, "b", 0, "/%2", 0, 0), 1, FLUENT_URI_PATH, 1));
    CHECK(rejects(BUILD(0, "a", 0, "b", 0, "/\xc3\xa9", 0, 0), 2, FLUENT_URI_PATH, 1));
    CHECK(rejects(BUILD(2, "a", 0, "b", 0, "/\xc3", 0, 0), 4, FLUENT_URI_PATH, 1));
    CHECK(rejects(BUILD(0, "a", 0, "b", 0, "", "c#d", 0), 2, FLUENT_URI_QUERY, 1));
    CHECK(rejects(BUILD(0, "a", 0, "b", 0, "", "c", "d#e"), 2, FLUENT_URI_FRAGMENT, 1));
    /* What they have to be together: sections 3, 3.2, 3.3 and 4.2. */
    CHECK(rejects(BUILD(0, 0, 0, "a", 0, "", 0, 0), FLUENT_URI_MISSING_COMPONENT,
                  FLUENT_URI_SCHEME, 0));
    CHECK(rejects(BUILD(1, 0, "a", 0, 0, "", 0, 0), FLUENT_URI_MISSING_COMPONENT,
                  FLUENT_URI_HOST, 0));
    CHECK(rejects(BUILD(1, 0, 0, 0, "1", "", 0, 0), FLUENT_URI_MISSING_COMPONENT,
                  FLUENT_URI_HOST, 0));
    CHECK(rejects(BUILD(1, 0, 0, "a", 0, "b", 0, 0), FLUENT_URI_NONEMPTY_ROOTLESS_PATH,
                  FLUENT_URI_PATH, 0));
    CHECK(rejects(BUILD(0, "a", 0, 0, 0, "//b", 0, 0), FLUENT_URI_PATH_STARTS_WITH_DOUBLE_SLASH,
                  FLUENT_URI_PATH, 0));
    CHECK(rejects(BUILD(1, 0, 0, 0, 0, "a:b", 0, 0),
                  FLUENT_URI_FIRST_PATH_SEGMENT_CONTAINS_COLON, FLUENT_URI_PATH, 0));
    CHECK(rejects(BUILD(4, "a", 0, 0, 0, "", 0, 0), 9, 0, 0));
}

/* A component is replaced by one after the text. A span beyond the text is rejected. */
static void replaces(void) {
    const char *text = "http://u@h:80/p?q#f/x";
    size_t length = strlen(text);
    fluent_uri_parts p;
    CHECK(fluent_uri_parse(0, (const uint8_t *)text, length - 2, &p) == 0);
    fluent_uri_components it = {p.scheme, p.userinfo, p.host, p.port, p.path, p.query, p.fragment};
    CHECK(gives(fluent_uri_build(0, TEXT(text), &it, VALUE), "http://u@h:80/p?q#f"));
    it.path.start = length - 2, it.path.end = length;
    it.query.start = it.query.end = SIZE_MAX;
    CHECK(gives(fluent_uri_build(0, TEXT(text), &it, VALUE), "http://u@h:80/x#f"));
    memset(out, '#', sizeof out);
    CHECK(fluent_uri_build(0, TEXT(text), &it, SHORT(16)) == 0 && outcome.length == 17);
    CHECK(out[0] == '#' && has_parts_of("http://u@h:80/x#f"));
    it.path.end = length + 1;
    CHECK(rejects(fluent_uri_build(0, TEXT(text), &it, VALUE), 9, FLUENT_URI_PATH, 0));
    it.path.start = SIZE_MAX;
    CHECK(rejects(fluent_uri_build(0, TEXT(text), &it, VALUE), 9, FLUENT_URI_PATH, 0));
    it.path.start = 2, it.path.end = 1;
    CHECK(rejects(fluent_uri_build(0, TEXT(text), &it, VALUE), 9, FLUENT_URI_PATH, 0));
    it.path.start = 0, it.path.end = SIZE_MAX;
    CHECK(rejects(fluent_uri_build(0, TEXT(text), &it, VALUE), 9, FLUENT_URI_PATH, 0));
    CHECK(rejects(fluent_uri_build(0, (const uint8_t *)text, SIZE_MAX, &it, VALUE), 9, 0, 0));
}

static void converts(void) {
    CHECK(gives(fluent_uri_to_uri(2, TEXT("http://a/\xc3\xa9"), VALUE), "http://a/%C3%A9"));
    CHECK(gives(fluent_uri_to_uri(3, TEXT("\xc3\xa9"), VALUE), "%C3%A9"));
    CHECK(rejects(fluent_uri_to_uri(0, TEXT("http://a/"), VALUE), 9, 0, 0));
    CHECK(gives_bytes(fluent_uri_decode(FLUENT_URI_PATH, TEXT("a%20b"), BYTES), "a b"));
    CHECK(gives_bytes(fluent_uri_decode(FLUENT_URI_QUERY, TEXT("a=b"), BYTES), "a=b"));
    /* A component is rejected as the parser rejects a text: error and index. */
    CHECK(rejects(fluent_uri_decode(FLUENT_URI_PATH, TEXT("ab c"), out, 9, &outcome), 2, 0, 2));
    CHECK(rejects(fluent_uri_decode(FLUENT_URI_PATH, TEXT("a/%zz"), out, 9, &outcome), 1, 0, 2));
    CHECK(rejects(fluent_uri_decode(FLUENT_URI_PATH, TEXT("\xc3\xa9%4"), out, 9, &outcome),
                  1, 0, 2));
    CHECK(rejects(fluent_uri_decode(FLUENT_URI_DATA, TEXT("a"), out, 9, &outcome), 9, 0, 0));
    CHECK(rejects(fluent_uri_decode(FLUENT_URI_PATH, TEXT("a\xff"), out, 9, &outcome), 4, 0, 1));
    CHECK(gives_bytes(fluent_uri_encode(FLUENT_URI_DATA, TEXT("a b&"), BYTES), "a%20b%26"));
    CHECK(gives_bytes(fluent_uri_encode(FLUENT_URI_PATH, TEXT("/a\xff"), BYTES), "/a%FF"));
    CHECK(rejects(fluent_uri_encode(FLUENT_URI_PORT, TEXT("a"), out, 9, &outcome), 9, 0, 0));
}

/* A component of which some octets are percent-encoded already. */
static void mends_components(void) {
    CHECK(gives_bytes(fluent_uri_mend_component(FLUENT_URI_PATH, TEXT("a%20b c/d?e"), BYTES),
                      "a%20b%20c/d%3Fe"));
    CHECK(gives_bytes(fluent_uri_mend_component(FLUENT_URI_QUERY, TEXT("a=%7e&50%&%4&?"), BYTES),
                      "a=%7e&50%25&%254&?"));
    CHECK(gives_bytes(fluent_uri_mend_component(FLUENT_URI_DATA, TEXT("%2f/\xc3\xa9"), BYTES),
                      "%2f%2F%C3%A9"));
    CHECK(gives_bytes(fluent_uri_mend_component(FLUENT_URI_FRAGMENT, NULL, 0, BYTES), ""));
    CHECK(rejects(fluent_uri_mend_component(FLUENT_URI_PATH, TEXT("a\xff"), BYTES), 4, 0, 1));
    CHECK(rejects(fluent_uri_mend_component(FLUENT_URI_PORT, TEXT("a"), BYTES), 9, 0, 0));
}

/* The pairs of a query, as `name=value` with a `;` after each; `name` alone where it has no `=`. */
static int has_pairs(const char *query, const char *wanted) {
    char found[256], *to = found;
    size_t position = 0;
    fluent_uri_pair pair;
    while (fluent_uri_next_pair(TEXT(query), &position, &pair) == 1) {
        const fluent_uri_span name = pair.name, value = pair.value;
        CHECK(name.start <= name.end && name.end <= position && position <= strlen(query));
        to += sprintf(to, "%.*s", (int)(name.end - name.start), query + name.start);
        if (value.start != SIZE_MAX)
            to += sprintf(to, "=%.*s", (int)(value.end - value.start), query + value.start);
        *to++ = ';';
    }
    *to = 0;
    return strcmp(found, wanted) == 0 && has_pairs_in_order(TEXT(query));
}

static void reads_pairs(void) {
    CHECK(has_pairs("name=ferret&page=2%263", "name=ferret;page=2%263;"));
    CHECK(has_pairs("", "") && has_pairs("&", "") && has_pairs("&&&", ""));
    CHECK(has_pairs("a", "a;") && has_pairs("a=", "a=;") && has_pairs("=a", "=a;"));
    CHECK(has_pairs("=", "=;") && has_pairs("a=b=c", "a=b=c;") && has_pairs("&a&&b&", "a;b;"));
    CHECK(has_pairs("0123456789abcdefgh=0123456789abcdefgh&x",
                    "0123456789abcdefgh=0123456789abcdefgh;x;"));
    CHECK(has_pairs("a;b=c+d", "a;b=c+d;"));
    /* Past the end, or of no query, there is none, and nothing changes. */
    size_t position = 4;
    fluent_uri_pair pair = {{1, 2}, {3, 4}};
    CHECK(fluent_uri_next_pair(TEXT("a=b"), &position, &pair) == 0 && position == 4);
    CHECK(pair.name.start == 1 && pair.value.end == 4);
    position = 0;
    CHECK(fluent_uri_next_pair(NULL, 0, &position, &pair) == 0 && position == 0);
}

/* A text of no bytes needs no pointer. */
static void takes_null(void) {
    CHECK(fluent_uri_parse(1, NULL, 0, &made) == 0 && made.path.start == 0 && made.path.end == 0);
    CHECK(gives(fluent_uri_normalize(1, 0, NULL, 0, VALUE), ""));
    CHECK(rejects(fluent_uri_normalize(0, 0, NULL, 0, VALUE), 2, 0, 0));
    CHECK(gives(fluent_uri_to_uri(3, NULL, 0, VALUE), ""));
    CHECK(gives(fluent_uri_resolve(0, 0, TEXT("a://b/c?d"), NULL, 0, VALUE), "a://b/c?d"));
    CHECK(rejects(fluent_uri_resolve(0, 0, NULL, 0, NULL, 0, VALUE), 2, 0, 0));
    CHECK(gives(fluent_uri_resolve_normalized(0, 0, TEXT("A://B/c"), NULL, 0, VALUE), "a://b/c"));
    CHECK(rejects(fluent_uri_relativize(0, 0, TEXT("a://b"), NULL, 0, VALUE), 2, 1, 0));
    CHECK(gives(fluent_uri_mend(1, NULL, 0, VALUE), ""));
    CHECK(gives(fluent_uri_mend_link(1, NULL, 0, VALUE), ""));
    CHECK(gives_bytes(fluent_uri_decode(FLUENT_URI_PATH, NULL, 0, BYTES), ""));
    CHECK(gives_bytes(fluent_uri_encode(FLUENT_URI_PATH, NULL, 0, BYTES), ""));
}

static void tells_of_itself(void) {
    CHECK(fluent_uri_version() >> 16 == FLUENT_URI_VERSION_MAJOR);
    CHECK((fluent_uri_version() >> 8 & 0xff) == FLUENT_URI_VERSION_MINOR);
    CHECK(gives_bytes(fluent_uri_error_name(0, BYTES), "FLUENT_URI_OK"));
    CHECK(gives_bytes(fluent_uri_error_name(FLUENT_URI_FULL, BYTES), "FLUENT_URI_FULL"));
    CHECK(rejects(fluent_uri_error_name(17, BYTES), 9, 0, 0));
    CHECK(fluent_uri_normal_version() == FLUENT_URI_NORMAL_VERSION);
    CHECK(gives_bytes(fluent_uri_error_message(FLUENT_URI_UNEXPECTED_CHAR, BYTES),
                      "unexpected character"));
    CHECK(gives_bytes(fluent_uri_error_message(FLUENT_URI_BASE_WITH_FRAGMENT, BYTES),
                      "base should not have fragment"));
    CHECK(gives_bytes(fluent_uri_error_message(17, BYTES), "unknown error"));
    CHECK(gives_bytes(fluent_uri_error_message(UINT32_MAX, BYTES), "unknown error"));
}

int main(void) {
    takes_null();
    tells_of_itself();
    parses();
    normalizes();
    normalizes_by_rules();
    resolves();
    resolves_against_a_fragment();
    resolves_by_the_basic_algorithm();
    relativizes();
    mends();
    builds();
    replaces();
    converts();
    mends_components();
    reads_pairs();
    return ended("calls");
}
