/* Each export, with each buffer of every size from none to one more than it needs, between
 * canaries: nothing changes but what the header lets the call write. A buffer that is full is named,
 * with what is needed of it, and that is enough. A buffer of no bytes may be NULL. */
#include "test.h"

enum { CANARY = 32, ROOM = 1024, TEXTS = 5 };
/* The buffers, by the numbers of enum fluent_uri_buffer. */
enum { OUT, ENDS, VALID, PARTS, ERRORS, BUFFERS };

/* A buffer: how many elements of which size a call gets, and the bytes around and in them. */
typedef struct {
    size_t count, size;
    uint8_t bytes[CANARY + ROOM + CANARY];
} buffer;

static buffer buffers[BUFFERS];
static fluent_uri_outcome outcome;
static int passes_null;

static void *at(int which) {
    buffer *it = &buffers[which];
    return it->count == 0 && passes_null ? NULL : it->bytes + CANARY;
}

#define ROOM_OF(WHICH) at(WHICH), buffers[WHICH].count
#define VALUE ROOM_OF(OUT), ROOM_OF(PARTS), &outcome
#define BYTES ROOM_OF(OUT), &outcome
#define COLUMN(OFFSETS) TEXT(texts), OFFSETS, TEXTS + 1, ROOM_OF(OUT), ROOM_OF(ENDS), \
    ROOM_OF(VALID), &outcome
#define BASE TEXT("http://a/b/c?q")

/* A text of each length, one that is no URI reference, and one with a component each. */
static const char *const texts = "//U@H:80/%7e/.?q#f a:b";
static const uint32_t offsets[TEXTS + 1] = {0, 18, 18, 19, 22, 22};
static const uint64_t offsets64[TEXTS + 1] = {0, 18, 18, 19, 22, 22};

/* The components of a text: its scheme, host, path and query. */
static const fluent_uri_components components = {
    {0, 4}, {SIZE_MAX, SIZE_MAX}, {7, 8}, {SIZE_MAX, SIZE_MAX}, {8, 12}, {13, 14},
    {SIZE_MAX, SIZE_MAX},
};

#define SINGLES(IT) \
    IT(error_name, fluent_uri_error_name(4, BYTES)) \
    IT(error_message, fluent_uri_error_message(4, BYTES)) \
    IT(parse, fluent_uri_parse(1, TEXT("//h/p"), at(PARTS))) \
    IT(normalize, fluent_uri_normalize(1, 0, TEXT("//H/%7e/."), VALUE)) \
    IT(to_uri, fluent_uri_to_uri(3, TEXT("//\xc3\xa9/p?q"), VALUE)) \
    IT(to_uri_with_ascii_host, \
       fluent_uri_to_uri_with_ascii_host(3, TEXT("//\xc3\xa9/p?q"), VALUE)) \
    IT(resolve, fluent_uri_resolve(0, 0, BASE, TEXT("../d#f"), VALUE)) \
    IT(resolve_basic, fluent_uri_resolve(0, FLUENT_URI_BASIC, BASE, TEXT("../d#f"), VALUE)) \
    IT(resolve_normalized, fluent_uri_resolve_normalized(0, 0, BASE, TEXT("//H:80"), VALUE)) \
    IT(mend, fluent_uri_mend(1, TEXT("//h/a b%"), VALUE)) \
    IT(mend_link, fluent_uri_mend_link(1, TEXT(" //h/a\n b\t#[ "), VALUE)) \
    IT(build, fluent_uri_build(0, BASE, &components, VALUE)) \
    IT(relativize, fluent_uri_relativize(0, 0, BASE, TEXT("http://a/d?q"), VALUE)) \
    IT(decode, fluent_uri_decode(FLUENT_URI_PATH, TEXT("a%20/b"), BYTES)) \
    IT(encode, fluent_uri_encode(FLUENT_URI_DATA, TEXT("a b/"), BYTES)) \
    IT(mend_component, fluent_uri_mend_component(FLUENT_URI_DATA, TEXT("%20 /"), BYTES)) \
    IT(host_address, fluent_uri_host_address(1, TEXT("//[::1]:80"), BYTES)) \
    IT(origin, fluent_uri_origin(0, TEXT("HTTP://A:81/b"), BYTES)) \
    IT(ascii_host, fluent_uri_ascii_host(3, TEXT("//u@\xc3\xa9:80"), BYTES))
#define COLUMNS(IT) \
    IT(normalize_batch, fluent_uri_normalize_batch(1, 0, COLUMN(offsets))) \
    IT(to_uri_batch, fluent_uri_to_uri_batch(3, COLUMN(offsets))) \
    IT(resolve_batch, fluent_uri_resolve_batch(0, 0, BASE, COLUMN(offsets))) \
    IT(resolve_normalized_batch, fluent_uri_resolve_normalized_batch(0, 0, BASE, COLUMN(offsets))) \
    IT(relativize_batch, fluent_uri_relativize_batch(0, 1, BASE, COLUMN(offsets))) \
    IT(mend_batch, fluent_uri_mend_batch(1, COLUMN(offsets))) \
    IT(mend_link_batch, fluent_uri_mend_link_batch(1, COLUMN(offsets))) \
    IT(decode_batch, fluent_uri_decode_batch(FLUENT_URI_QUERY, COLUMN(offsets))) \
    IT(encode_batch, fluent_uri_encode_batch(FLUENT_URI_DATA, COLUMN(offsets))) \
    IT(component_batch, fluent_uri_component_batch(1, FLUENT_URI_PATH, COLUMN(offsets)))
#define COLUMNS64(IT) \
    IT(normalize_batch64, fluent_uri_normalize_batch64(1, 0, COLUMN(offsets64))) \
    IT(to_uri_batch64, fluent_uri_to_uri_batch64(3, COLUMN(offsets64))) \
    IT(resolve_batch64, fluent_uri_resolve_batch64(0, 0, BASE, COLUMN(offsets64))) \
    IT(resolve_normalized_batch64, \
       fluent_uri_resolve_normalized_batch64(0, 0, BASE, COLUMN(offsets64))) \
    IT(relativize_batch64, fluent_uri_relativize_batch64(0, 1, BASE, COLUMN(offsets64))) \
    IT(mend_batch64, fluent_uri_mend_batch64(1, COLUMN(offsets64))) \
    IT(mend_link_batch64, fluent_uri_mend_link_batch64(1, COLUMN(offsets64))) \
    IT(decode_batch64, fluent_uri_decode_batch64(FLUENT_URI_QUERY, COLUMN(offsets64))) \
    IT(encode_batch64, fluent_uri_encode_batch64(FLUENT_URI_DATA, COLUMN(offsets64))) \
    IT(component_batch64, fluent_uri_component_batch64(1, FLUENT_URI_PATH, COLUMN(offsets64)))
#define OTHERS(IT) \
    IT(parse_batch, \
       fluent_uri_parse_batch(1, TEXT(texts), offsets, TEXTS + 1, ROOM_OF(PARTS), &outcome)) \
    IT(parse_batch64, \
       fluent_uri_parse_batch64(1, TEXT(texts), offsets64, TEXTS + 1, ROOM_OF(PARTS), &outcome)) \
    IT(normalize_lines, \
       fluent_uri_normalize_lines(1, 0, TEXT("A:\n \n//H"), ROOM_OF(OUT), ROOM_OF(ERRORS), \
                                  &outcome))

enum {
#define NUMBERED(NAME, CALL) call_##NAME,
    SINGLES(NUMBERED) COLUMNS(NUMBERED) COLUMNS64(NUMBERED) OTHERS(NUMBERED) CALLS
};

static const char *const names[] = {
#define NAMED(NAME, CALL) #NAME,
    SINGLES(NAMED) COLUMNS(NAMED) COLUMNS64(NAMED) OTHERS(NAMED)
};

static uint32_t make(int call) {
    switch (call) {
#define CASE(NAME, CALL) case call_##NAME: return CALL;
        SINGLES(CASE) COLUMNS(CASE) COLUMNS64(CASE) OTHERS(CASE)
    }
    return 0;
}

static int is_column(int call) { return call >= call_normalize_batch && call < call_parse_batch; }

static int is_single(int call) { return call < call_normalize_batch; }

static int parses_column(int call) { return call == call_parse_batch || call == call_parse_batch64; }

/* How many elements of a buffer a call of TEXTS texts writes when there is room for all. */
static size_t most(int call, int which) {
    switch (which) {
    case OUT: return call == call_parse || parses_column(call) ? 0 : outcome.length;
    case ENDS: return is_column(call) ? TEXTS + 1 : 0;
    case VALID: return is_column(call) ? (TEXTS + 7) / 8 : 0;
    case PARTS:
        if (parses_column(call)) return TEXTS;
        return call == call_parse || (call >= call_normalize && call <= call_relativize);
    default: return call == call_normalize_lines ? 3 : 0;
    }
}

static void clear(void) {
    for (int i = 0; i < BUFFERS; i++) memset(buffers[i].bytes, '#', sizeof buffers[i].bytes);
    memset(&outcome, '#', sizeof outcome);
}

static int is_clear(const buffer *it, size_t from) {
    for (size_t i = 0; i < sizeof it->bytes; i++)
        if ((i < CANARY || i >= CANARY + from) && it->bytes[i] != '#') return 0;
    return 1;
}

static int failed_before;
static void tells(int call, int which, size_t count) {
    if (failed != failed_before)
        printf("%s: buffer %d of %zu, null %d\n", names[call], which, count, passes_null);
    failed_before = failed;
}

/* What a call writes where there is room for all. */
static buffer whole[BUFFERS];
static fluent_uri_outcome whole_outcome;

/* The call with one buffer of COUNT elements: as with room for all, or full there. */
static void tries(int call, int which, size_t count, size_t needed) {
    buffers[which].count = count;
    clear();
    uint32_t error = make(call);
    for (int i = 0; i < BUFFERS; i++)
        CHECK(is_clear(&buffers[i], buffers[i].count * buffers[i].size));
    if (count >= needed) {
        CHECK(error == 0);
        for (int i = 0; i < BUFFERS; i++)
            CHECK(!memcmp(buffers[i].bytes, whole[i].bytes, sizeof whole[i].bytes));
        if (call != call_parse) CHECK(!memcmp(&outcome, &whole_outcome, sizeof outcome));
    } else if (is_single(call)) {
        /* A result that does not fit is not written, and the parts are the same. */
        CHECK(error == 0 && !memcmp(&outcome, &whole_outcome, sizeof outcome));
        CHECK(is_clear(&buffers[which], 0));
        int other = which == OUT ? PARTS : OUT;
        CHECK(!memcmp(buffers[other].bytes, whole[other].bytes, sizeof whole[other].bytes));
    } else {
        size_t done = outcome.index, wanted = outcome.needed;
        CHECK(error == FLUENT_URI_FULL && outcome.error == error);
        CHECK(outcome.which == (uint32_t)which && wanted > count && wanted <= needed);
        CHECK(done < TEXTS && !memcmp(buffers[OUT].bytes + CANARY, whole[OUT].bytes + CANARY,
                                      outcome.length));
        if (which == ENDS || which == VALID || which == PARTS) {
            CHECK(done == 0 && outcome.length == 0 && wanted == needed);
            for (int i = 0; i < BUFFERS; i++) CHECK(is_clear(&buffers[i], 0));
        }
        /* What is needed is enough for the next text. */
        buffers[which].count = wanted;
        clear();
        error = make(call);
        CHECK(error == 0 || (error == FLUENT_URI_FULL && outcome.index > done));
    }
    tells(call, which, count);
}

static void gives_all_room(int call) {
    for (int i = 0; i < BUFFERS; i++) buffers[i].size = 1;
    buffers[ENDS].size = call < call_normalize_batch64 ? sizeof *offsets : sizeof *offsets64;
    buffers[PARTS].size = sizeof(fluent_uri_parts);
    for (int i = 0; i < BUFFERS; i++) buffers[i].count = ROOM / buffers[i].size;
    if (parses_column(call)) buffers[PARTS].count = TEXTS;
}

int main(void) {
    for (int call = 0; call < CALLS; call++) {
        for (passes_null = 0; passes_null <= 1; passes_null++) {
            gives_all_room(call);
            clear();
            CHECK(make(call) == 0);
            whole_outcome = outcome;
            memcpy(whole, buffers, sizeof whole);
            size_t needed[BUFFERS];
            for (int i = 0; i < BUFFERS; i++) needed[i] = most(call, i);
            tells(call, -1, 0);
            for (int which = 0; which < BUFFERS; which++) {
                if (call == call_parse && which == PARTS) continue;
                for (size_t count = 0; count <= needed[which] + 1; count++) {
                    gives_all_room(call);
                    tries(call, which, count, needed[which]);
                }
            }
        }
    }
    return ended("borders");
}
