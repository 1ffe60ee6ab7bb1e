/* Runs the rows of crates/vectors/data that the calls of the header can try: rows FILE.. Its
 * README.txt has the format. */
#include "test.h"

enum { MOST = 1 << 21, FIELDS = 8 };
static char line[MOST], made[MOST], words[FIELDS][MOST / 4];
static uint8_t out[MOST];
static size_t lengths[FIELDS], tried;
static fluent_uri_outcome outcome;

static const char *const kinds[] = {"uri", "uri-ref", "iri", "iri-ref"};
static const char *const messages[] = {"", "invalid percent-encoded octet", "unexpected character",
    "invalid IPv6 address"};
static const char *const names[] = {"", "InvalidPctEncodedOctet", "UnexpectedChar",
    "InvalidIpv6Addr"};

static size_t utf8(unsigned long c, char *to) {
    if (c < 0x80) {
        to[0] = (char)c;
        return 1;
    }
    int more = c < 0x800 ? 1 : c < 0x10000 ? 2 : 3;
    to[0] = (char)(c >> (6 * more) | (more == 1 ? 0xc0 : more == 2 ? 0xe0 : 0xf0));
    for (int i = 1; i <= more; i++) to[i] = (char)(0x80 | (c >> (6 * (more - i)) & 0x3f));
    return (size_t)more + 1;
}

/* Reads a word up to a space, or what is left of the line, without its escapes. */
static size_t read_word(const char **from, char *to, int whole) {
    const char *at = *from;
    size_t length = 0;
    while (*at && (whole || *at != ' ')) {
        if (!strncmp(at, "\"\"", 2) && (!at[2] || at[2] == ' ') && (!length || at[-1] == ' ')) {
            at += 2;
        } else if (at[0] != '\\') {
            to[length++] = *at++;
        } else if (at[1] == 's') {
            to[length++] = ' ', at += 2;
        } else if (at[1] == 'u') {
            length += utf8(strtoul(at + 3, (char **)&at, 16), to + length);
            at++;
        } else {
            size_t times = strtoul(at + 1, (char **)&at, 10), long_ = strcspn(at + 1, "}");
            while (times--) memcpy(to + length, at + 1, long_), length += long_;
            at += long_ + 2;
        }
    }
    while (*at == ' ') at++;
    *from = at;
    return length;
}

static size_t put(size_t at, const char *name, const void *text, size_t length) {
    if (at) made[at++] = ' ';
    at += (size_t)sprintf(made + at, "%s", name);
    memcpy(made + at, text, length);
    return at + length;
}

static size_t span(size_t at, const char *name, fluent_uri_span it, const char *text) {
    return it.start == SIZE_MAX ? at : put(at, name, text + it.start, it.end - it.start);
}

static int kind_of(const char *word, size_t length) {
    for (int i = 0; i < 4; i++)
        if (strlen(kinds[i]) == length && !memcmp(kinds[i], word, length)) return i;
    return -1;
}

static const uint8_t *bytes(int i) { return (const uint8_t *)words[i]; }

static const struct {
    uint32_t number;
    const char *name;
} errors[] = {
    {FLUENT_URI_INVALID_REFERENCE_AGAINST_OPAQUE_BASE, "InvalidReferenceAgainstOpaqueBase"},
    {FLUENT_URI_PATH_STARTS_WITH_DOUBLE_SLASH, "PathStartsWithDoubleSlash"},
    {FLUENT_URI_NAME_NOT_UTF8, "NameNotUtf8"},
    {FLUENT_URI_INVALID_NAME, "InvalidName"},
};

/* What a call wrote, or the name of its error. */
static long written(uint32_t error) {
    for (size_t i = 0; i < sizeof errors / sizeof *errors; i++)
        if (error == errors[i].number) return sprintf(made, "error %s", errors[i].name);
    if (error) return sprintf(made, "error %u", error);
    memcpy(made, out, outcome.length);
    return (long)outcome.length;
}

/* The host of the row's text, which is no name, in the words of the rows. */
static long address(uint32_t kind) {
    fluent_uri_host_address(kind, bytes(1), lengths[1], out, MOST, &outcome);
    size_t length = outcome.length, at = 0;
    if (length == 0) return sprintf(made, "ipvfuture");
    at = (size_t)sprintf(made, length == 4 ? "ipv4" : "ipv6");
    for (size_t i = 0; i < length; i += length == 4 ? 1 : 2)
        at += (size_t)(length == 4 ? sprintf(made + at, " %d", out[i])
                                   : sprintf(made + at, " %x", out[i] << 8 | out[i + 1]));
    return (long)at;
}

static long default_port(void) {
    uint32_t port = fluent_uri_default_port(bytes(0), lengths[0]);
    return port ? sprintf(made, "%u", port) : sprintf(made, "none");
}

static long port(uint32_t kind) {
    uint32_t port;
    fluent_uri_port_number(kind, bytes(1), lengths[1], &port);
    if (port == FLUENT_URI_PORT_TOO_LARGE) return sprintf(made, "error");
    return port > 65535 ? sprintf(made, "none") : sprintf(made, "%u", port);
}

/* What follows the texts of a call that makes a value. */
#define VALUE out, MOST, NO_PARTS, &outcome

/* The text that a text of the row is mended to, or its parse error. */
static long mended(uint32_t error) {
    if (error >= 1 && error <= 3) return sprintf(made, "%s %zu", names[error], outcome.index);
    return written(error);
}

/* The same of a link, with white space that HTML drops around and within the text. */
static long mended_link(uint32_t kind) {
    size_t length = lengths[1], half = words[1][length / 2] & 0x80 ? length : length / 2;
    char *link = words[2];
    size_t size = (size_t)sprintf(link, " \n\f");
    memcpy(link + size, words[1], half);
    size += half;
    size += (size_t)sprintf(link + size, "\r\t");
    memcpy(link + size, words[1] + half, length - half);
    size += length - half;
    link[size++] = ' ';
    return mended(fluent_uri_mend_link(kind, bytes(2), size, VALUE));
}

static int has_white_space(const char *text, size_t length) {
    for (size_t i = 0; i < length; i++)
        if (memchr("\t\n\f\r", text[i], 4)) return 1;
    return length && (text[0] == ' ' || text[length - 1] == ' ');
}

/* What a text is mended to. It is no text of a row if the same link has another. */
static long mend(uint32_t kind) {
    static char first[MOST];
    long length = mended(fluent_uri_mend(kind, bytes(1), lengths[1], VALUE));
    if (has_white_space(words[1], lengths[1])) return length;
    memcpy(first, made, (size_t)length);
    if (mended_link(kind) == length && !memcmp(first, made, (size_t)length)) return length;
    return sprintf(made, "another link");
}

/* The text with its host in ASCII. */
static long ascii_host(uint32_t kind, fluent_uri_span host) {
    const char *text = words[1];
    if (host.start == SIZE_MAX) return (long)put(0, "", text, lengths[1]);
    uint32_t error = fluent_uri_ascii_host(kind, bytes(1), lengths[1], out, MOST, &outcome);
    if (error) return written(error);
    size_t at = host.start;
    memcpy(made, text, at);
    memcpy(made + at, out, outcome.length);
    at += outcome.length;
    memcpy(made + at, text + host.end, lengths[1] - host.end);
    return (long)(at + lengths[1] - host.end);
}

static long resolve(uint32_t kind, uint32_t options) {
    return written(fluent_uri_resolve(kind, options, bytes(1), lengths[1], bytes(2), lengths[2],
                                      VALUE));
}

static long resolve_normalized(uint32_t kind, uint32_t options) {
    return written(fluent_uri_resolve_normalized(kind, options, bytes(1), lengths[1], bytes(2),
                                                 lengths[2], VALUE));
}

/* The target, if both algorithms have it. */
static long resolve_both(uint32_t kind) {
    static char first[MOST];
    long length = resolve(kind, 0);
    memcpy(first, made, (size_t)length);
    if (resolve(kind, FLUENT_URI_BASIC) == length && !memcmp(first, made, (size_t)length))
        return length;
    return sprintf(made, "two targets");
}

static long relativize(uint32_t kind, uint32_t options) {
    return written(fluent_uri_relativize(kind, options, bytes(1), lengths[1], bytes(2), lengths[2],
                                         VALUE));
}

/* Whether the reference in `reference` leads back to the target in words[2]. */
static int leads_back(uint32_t kind, uint32_t options, const char *reference, size_t length) {
    uint32_t error = fluent_uri_resolve(kind, options, bytes(1), lengths[1],
                                        (const uint8_t *)reference, length, VALUE);
    return !error && outcome.length == lengths[2] && !memcmp(out, words[2], lengths[2]);
}

/* The reference that leads to a target, and whether it does so by the basic algorithm too. */
static long relativize_back(uint32_t kind) {
    size_t length = (size_t)relativize(kind, 0), at = length;
    if (!leads_back(kind, 0, made, length)) at += (size_t)sprintf(made + at, " not back");
    if (!leads_back(kind, FLUENT_URI_BASIC, made, length))
        at += (size_t)sprintf(made + at, " lost");
    return (long)at;
}

static long is_normal(uint32_t kind, uint32_t options) {
    uint32_t found = fluent_uri_is_normal(kind, options, bytes(1), lengths[1]);
    return sprintf(made, "%s", found ? "yes" : "no");
}

/* The order of two texts as keys, and whether their hashes say otherwise. */
static long compare(uint32_t kind, uint32_t options) {
    static const char *const orders[] = {"less", "equal", "greater"};
    const uint8_t *one = bytes(1), *other = bytes(2);
    uint32_t order = fluent_uri_compare(kind, options, one, lengths[1], other, lengths[2]);
    if (fluent_uri_compare(kind, options, other, lengths[2], one, lengths[1]) != 2 - order)
        return sprintf(made, "not reversed");
    uint64_t first, second;
    fluent_uri_hash(kind, options, 0, one, lengths[1], &first);
    fluent_uri_hash(kind, options, 0, other, lengths[2], &second);
    int is_hashed_so = (first == second) == (order == 1);
    return sprintf(made, "%s%s", orders[order], is_hashed_so ? "" : ", and by another hash");
}

/* What the row's call gives, or a negative number where the header has no such call. */
static long run(const char *op, int count) {
    int kind = count > 1 ? kind_of(words[0], lengths[0]) : -1;
    fluent_uri_parts p;
    const char *text = words[1];
    size_t at = 0;
    if (kind >= 0) fluent_uri_parse((uint32_t)kind, bytes(1), lengths[1], &p);
    if (!strcmp(op, "parse")) {
        if (p.error) return sprintf(made, "error: %s at index %zu", messages[p.error], p.index);
        at = span(at, "scheme=", p.scheme, text);
        at = span(at, "authority=", p.authority, text);
        at = span(at, "path=", p.path, text);
        at = span(at, "query=", p.query, text);
        return (long)span(at, "fragment=", p.fragment, text);
    }
    if (!strcmp(op, "error") && p.error)
        return sprintf(made, "%s %zu", names[p.error], p.index);
    if (!strcmp(op, "authority") && !p.error && p.authority.start != SIZE_MAX) {
        at = span(at, "userinfo=", p.userinfo, text);
        at = span(at, "host=", p.host, text);
        return (long)span(at, "port=", p.port, text);
    }
    if (!strcmp(op, "host") && p.host_kind == FLUENT_URI_REG_NAME)
        return (long)put(sprintf(made, "name") > 0 ? 4 : 0, "", text + p.host.start,
                         p.host.end - p.host.start);
    if (!strcmp(op, "host") && p.host_kind != FLUENT_URI_NO_HOST)
        return address((uint32_t)kind);
    if (!strcmp(op, "port") && !p.error) return port((uint32_t)kind);
    if (!strcmp(op, "default-port")) return default_port();
    if (!strcmp(op, "normalize"))
        return written(fluent_uri_normalize((uint32_t)kind, 0, bytes(1), lengths[1], VALUE));
    if (!strcmp(op, "normalize-by-rules"))
        return written(fluent_uri_normalize((uint32_t)kind, FLUENT_URI_SCHEME_RULES, bytes(1),
                                            lengths[1], VALUE));
    if (!strcmp(op, "is-normal")) return is_normal((uint32_t)kind, 0);
    if (!strcmp(op, "is-normal-by-rules"))
        return is_normal((uint32_t)kind, FLUENT_URI_SCHEME_RULES);
    if (!strcmp(op, "compare")) return compare((uint32_t)kind, 0);
    if (!strcmp(op, "compare-by-rules")) return compare((uint32_t)kind, FLUENT_URI_SCHEME_RULES);
    if (!strcmp(op, "mend")) return mend((uint32_t)kind);
    if (!strcmp(op, "ascii-host")) return ascii_host((uint32_t)kind, p.host);
    /* Here the fragment of a base plays no part. */
    if ((!strncmp(op, "resolve", 7) || !strcmp(op, "relativize-back")) &&
        p.fragment.start != SIZE_MAX)
        return -1;
    if (!strcmp(op, "resolve")) return resolve((uint32_t)kind, 0);
    if (!strcmp(op, "resolve-basic")) return resolve((uint32_t)kind, FLUENT_URI_BASIC);
    if (!strcmp(op, "resolve-both")) return resolve_both((uint32_t)kind);
    if (!strcmp(op, "resolve-normalized")) return resolve_normalized((uint32_t)kind, 0);
    if (!strcmp(op, "resolve-by-rules"))
        return resolve_normalized((uint32_t)kind, FLUENT_URI_SCHEME_RULES);
    if (!strcmp(op, "relativize")) return relativize((uint32_t)kind, 0);
    if (!strcmp(op, "relativize-path"))
        return relativize((uint32_t)kind, FLUENT_URI_PREFER_RELATIVE_PATH);
    if (!strcmp(op, "relativize-back")) return relativize_back((uint32_t)kind);
    if (!strcmp(op, "encode-as-uri"))
        return written(fluent_uri_to_uri((uint32_t)kind, bytes(1), lengths[1], VALUE));
    if (!strcmp(op, "encode") && lengths[0] == 4 && !memcmp(words[0], "path", 4))
        return written(fluent_uri_encode(FLUENT_URI_PATH, bytes(1), lengths[1], out, MOST, &outcome));
    if (!strcmp(op, "encode") && lengths[0] == 4 && !memcmp(words[0], "data", 4))
        return written(fluent_uri_encode(FLUENT_URI_DATA, bytes(1), lengths[1], out, MOST, &outcome));
    return -1;
}

int main(int argc, char **argv) {
    for (int i = 1; i < argc; i++) {
        FILE *file = fopen(argv[i], "r");
        CHECK(file != NULL);
        for (int number = 1; file && fgets(line, MOST, file); number++) {
            line[strcspn(line, "\n")] = 0;
            char *arrow = strstr(line, " -> ");
            if (line[0] == '#' || !arrow) continue;
            static char op[64], wanted[MOST];
            *arrow = 0;
            const char *at = line, *expected = arrow + 4;
            op[read_word(&at, op, 0)] = 0;
            int count = 0;
            while (*at && count < FIELDS) {
                lengths[count] = read_word(&at, words[count], 0);
                count++;
            }
            size_t length = read_word(&expected, wanted, 1);
            long got = run(op, count);
            if (got < 0) continue;
            tried++;
            if ((size_t)got != length || memcmp(made, wanted, length)) {
                failed++;
                printf("fail %s:%d: %.*s\n", argv[i], number, (int)got, made);
            }
        }
        if (file) fclose(file);
    }
    printf("rows: %zu tried\n", tried);
    CHECK(tried > 5450);
    return ended("rows");
}
