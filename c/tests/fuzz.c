/* libFuzzer on the border. Of any bytes, each call stays within what it is given: a text is beside
 * a page that cannot be read, and a call changes only what the header lets it write, between
 * canaries. What the calls return agrees. With SECOND_BUILD a second build of the library, by names
 * that begin with second_, writes the same bytes. Without libFuzzer, `fuzz FILE..` runs files. */
#define _DEFAULT_SOURCE
#include "laws.h"
#include "test.h"
#include <sys/mman.h>

enum { PAGE = 4096, CANARY = 32, ROOM = 4096, TEXTS = 4, LINES = 8 };

#define HOLDS(it) \
    ((it) ? (void)0 \
          : (fprintf(stderr, "%s:%d: call %d: %s\n", __FILE__, __LINE__, call, #it), abort()))

#define EACH_CALL(IT) \
    IT(parse) IT(decode) IT(encode) IT(ascii_host) IT(mend_component) IT(normalize) IT(to_uri) \
    IT(to_uri_with_ascii_host) IT(resolve) IT(resolve_normalized) IT(relativize) IT(build) \
    IT(mend) IT(mend_link) IT(normalize_batch) \
    IT(to_uri_batch) IT(component_batch) IT(resolve_batch) IT(resolve_normalized_batch) \
    IT(relativize_batch) IT(mend_batch) IT(mend_link_batch) IT(decode_batch) IT(encode_batch) \
    IT(normalize_batch64) IT(to_uri_batch64) IT(component_batch64) IT(resolve_batch64) \
    IT(resolve_normalized_batch64) IT(relativize_batch64) IT(mend_batch64) IT(mend_link_batch64) \
    IT(decode_batch64) IT(encode_batch64) IT(parse_batch) IT(parse_batch64) IT(normalize_lines)

enum {
#define NUMBERED(NAME) call_##NAME,
    EACH_CALL(NUMBERED) CALLS,
    FIRST_BATCH = call_normalize_batch,
    FIRST_BATCH64 = call_normalize_batch64
};

/* The calls of one build. */
typedef struct {
#define FIELD(NAME) __typeof__(fluent_uri_##NAME) *NAME;
    EACH_CALL(FIELD)
} build;

static const build first = {
#define FIRST(NAME) fluent_uri_##NAME,
    EACH_CALL(FIRST)
};

#ifdef SECOND_BUILD
#define DECLARED(NAME) extern __typeof__(fluent_uri_##NAME) second_fluent_uri_##NAME;
EACH_CALL(DECLARED)
static const build second = {
#define SECOND(NAME) second_fluent_uri_##NAME,
    EACH_CALL(SECOND)
};
#endif

typedef struct {
    uint32_t kind, component, options, rules, basic;
    /* Of the outputs: bytes, offsets, and parts of a result. */
    size_t room, places, parts;
    /* The text, and the same as two. */
    const uint8_t *text, *one, *other;
    size_t size, one_size, other_size;
    const uint32_t *offsets;
    const uint64_t *offsets64;
    fluent_uri_components components;
} input;

/* What a call returns and writes. All is '#' before. */
typedef struct {
    uint8_t before_out[CANARY], out[ROOM], after_out[CANARY];
    uint32_t ends[TEXTS + 1];
    uint8_t after_ends[CANARY];
    uint64_t ends64[TEXTS + 1];
    uint8_t after_ends64[CANARY], valid[1], errors[LINES], after_errors[CANARY];
    fluent_uri_parts parts[TEXTS];
    uint8_t after_parts[CANARY];
    fluent_uri_outcome outcome;
    uint8_t after_outcome[CANARY];
    uint32_t error;
} written;

static uint32_t made(const build *by, int call, const input *in, written *to) {
#define ONE in->text, in->size
#define TWO in->one, in->one_size, in->other, in->other_size
#define OUT to->out, in->room, &to->outcome
#define VALUE to->out, in->room, to->parts, in->parts, &to->outcome
#define COLUMN in->offsets, TEXTS + 1, to->out, in->room, to->ends, in->places, to->valid, 1, \
    &to->outcome
#define COLUMN64 in->offsets64, TEXTS + 1, to->out, in->room, to->ends64, in->places, to->valid, \
    1, &to->outcome
#define OF_KIND(NAME, NUMBERS) \
    case call_##NAME: return by->NAME(NUMBERS, ONE, VALUE); \
    case call_##NAME##_batch: return by->NAME##_batch(NUMBERS, ONE, COLUMN); \
    case call_##NAME##_batch64: return by->NAME##_batch64(NUMBERS, ONE, COLUMN64);
#define WITH_BASE(NAME, NUMBERS) \
    case call_##NAME: return by->NAME(NUMBERS, TWO, VALUE); \
    case call_##NAME##_batch: return by->NAME##_batch(NUMBERS, TWO, COLUMN); \
    case call_##NAME##_batch64: return by->NAME##_batch64(NUMBERS, TWO, COLUMN64);
#define OF_COMPONENT(NAME) \
    case call_##NAME: return by->NAME(in->component, ONE, OUT); \
    case call_##NAME##_batch: return by->NAME##_batch(in->component, ONE, COLUMN); \
    case call_##NAME##_batch64: return by->NAME##_batch64(in->component, ONE, COLUMN64);
#define RULED in->kind, in->rules
#define RELATIVE in->kind, in->options
#define RESOLVING in->kind, in->basic
    switch (call) {
        OF_KIND(normalize, RULED) OF_KIND(to_uri, in->kind) OF_KIND(mend, in->kind)
        OF_KIND(mend_link, in->kind) WITH_BASE(resolve, RESOLVING)
        WITH_BASE(resolve_normalized, RULED) WITH_BASE(relativize, RELATIVE)
        OF_COMPONENT(decode) OF_COMPONENT(encode)
    case call_parse: return by->parse(in->kind, ONE, to->parts);
    case call_mend_component: return by->mend_component(in->component, ONE, OUT);
    case call_ascii_host: return by->ascii_host(in->kind, ONE, OUT);
    case call_to_uri_with_ascii_host: return by->to_uri_with_ascii_host(in->kind, ONE, VALUE);
    case call_build: return by->build(in->kind, ONE, &in->components, VALUE);
    case call_component_batch: return by->component_batch(in->kind, in->component, ONE, COLUMN);
    case call_component_batch64:
        return by->component_batch64(in->kind, in->component, ONE, COLUMN64);
    case call_parse_batch:
        return by->parse_batch(in->kind, ONE, in->offsets, TEXTS + 1, to->parts, in->places - 1,
                               &to->outcome);
    case call_parse_batch64:
        return by->parse_batch64(in->kind, ONE, in->offsets64, TEXTS + 1, to->parts,
                                 in->places - 1, &to->outcome);
    default:
        return by->normalize_lines(RULED, ONE, to->out, in->room, to->errors, LINES,
                                   &to->outcome);
    }
}

static int makes_value(int call) { return call > call_mend_component && call < FIRST_BATCH; }

/* Nothing has changed but what the header lets the call write. */
static void stays_within(int call, const input *in, const written *it) {
    static written allowed;
    memset(&allowed, '#', sizeof allowed);
#define MAY_WRITE(FIELD, SIZE) memcpy(allowed.FIELD, it->FIELD, SIZE)
    allowed.error = it->error;
    if (call == call_parse) {
        MAY_WRITE(parts, sizeof *it->parts);
    } else {
        size_t done = it->outcome.index, length = it->outcome.length;
        allowed.outcome = it->outcome;
        HOLDS(it->outcome.error == it->error);
        if (call < FIRST_BATCH) {
            HOLDS(done <= in->size && it->outcome.which <= (call == call_build ? 7 : 1));
            if (it->error == 0 && length <= in->room) MAY_WRITE(out, length);
            if (!it->error && in->parts && makes_value(call)) MAY_WRITE(parts, sizeof *it->parts);
        } else if (call == call_parse_batch || call == call_parse_batch64) {
            HOLDS(done < in->places);
            MAY_WRITE(parts, done * sizeof *it->parts);
        } else if (call == call_normalize_lines) {
            HOLDS(done <= LINES && length <= in->room);
            MAY_WRITE(out, length), MAY_WRITE(errors, done);
        } else {
            HOLDS(done <= TEXTS && length <= in->room);
            MAY_WRITE(out, length);
            if (in->places > TEXTS) {
                size_t places = done + 1;
                if (call < FIRST_BATCH64) MAY_WRITE(ends, places * sizeof *it->ends);
                else MAY_WRITE(ends64, places * sizeof *it->ends64);
            }
            uint8_t bits = (uint8_t)((1u << done) - 1);
            allowed.valid[0] = (uint8_t)((it->valid[0] & bits) | ('#' & ~bits));
        }
    }
    HOLDS(!memcmp(&allowed, it, sizeof allowed));
}

/* What each call returns of the input, which each build returns alike. */
static written results[CALLS];

static void makes_all_calls(const input *in) {
    for (int call = 0; call < CALLS; call++) {
        written *it = &results[call];
        memset(it, '#', sizeof *it);
        it->error = made(&first, call, in, it);
        stays_within(call, in, it);
#ifdef SECOND_BUILD
        static written another;
        memset(&another, '#', sizeof another);
        another.error = made(&second, call, in, &another);
        HOLDS(!memcmp(&another, it, sizeof another));
#endif
    }
}

static void is_span(int call, fluent_uri_span at, size_t size) {
    HOLDS((at.start == SIZE_MAX && at.end == SIZE_MAX) || (at.start <= at.end && at.end <= size));
}

static void parse_returns_spans(const input *in) {
    int call = call_parse;
    const fluent_uri_parts *it = results[call].parts;
    HOLDS(it->error == results[call].error && it->index <= in->size);
    const fluent_uri_span spans[] = {it->scheme, it->authority, it->userinfo, it->host,
                                     it->port,   it->path,      it->query,    it->fragment};
    for (size_t i = 0; i < sizeof spans / sizeof *spans; i++) is_span(call, spans[i], in->size);
    HOLDS(has_pairs_in_order(in->text, in->size));
    HOLDS(has_host_of_its_kind(in->kind, in->text, in->size));
    HOLDS(has_ascii_host(in->kind, in->text, in->size));
    HOLDS(is_order_of_normal_forms(in->kind, in->options, in->one, in->one_size, in->other,
                                   in->other_size));
}

static uint8_t again[3 * ROOM];
static fluent_uri_outcome outcome;

/* Whether the call has made a text, which is in its buffer. */
static int is_there(int call, const input *in) {
    return results[call].error == 0 && results[call].outcome.length <= in->room;
}

/* The single call AGAIN made the text of CALL. */
static void is_same(int call, uint32_t error) {
    HOLDS(error == 0 && outcome.length == results[call].outcome.length);
    HOLDS(!memcmp(again, results[call].out, outcome.length));
}

/* The parts beside a result are those of the result as it is parsed. */
static void parts_agree(const input *in) {
    for (int call = 0; call < FIRST_BATCH; call++) {
        const written *it = &results[call];
        if (!makes_value(call) || !is_there(call, in) || !in->parts) continue;
        fluent_uri_parts parsed;
        HOLDS(!fluent_uri_parse(FLUENT_URI_IRI_REF, it->out, it->outcome.length, &parsed));
        HOLDS(!memcmp(&parsed, it->parts, sizeof parsed));
    }
}

static void single_calls_agree(const input *in) {
    int call = call_normalize;
    const written *it = &results[call];
    HOLDS(it->error == results[call_parse].error);
    if (is_there(call, in))
        is_same(call, fluent_uri_normalize(in->kind, in->rules, it->out, it->outcome.length,
                                           again, sizeof again, NO_PARTS, &outcome));
    call = call_encode, it = &results[call];
    if (is_there(call, in) && in->component < FLUENT_URI_DATA) {
        HOLDS(fluent_uri_decode(in->component, it->out, it->outcome.length, again, sizeof again,
                                &outcome) == 0);
        HOLDS(outcome.length == in->size && !memcmp(again, in->text, in->size));
    }
    call = call_resolve_normalized, it = &results[call];
    HOLDS(in->basic || it->error == results[call_resolve].error);
    if (!in->basic && is_there(call, in) && is_there(call_resolve, in))
        is_same(call, fluent_uri_normalize(in->kind, in->rules, results[call_resolve].out,
                                           results[call_resolve].outcome.length, again,
                                           sizeof again, NO_PARTS, &outcome));
    /* A reference that leads to a target: resolved, it is that target as it is resolved. Each has a
     * target, whatever the base's fragment is. */
    call = call_resolve, it = &results[call_relativize];
    if (is_there(call_relativize, in)) {
        HOLDS(!fluent_uri_resolve(in->kind, 0, in->one, in->one_size, it->out, it->outcome.length,
                                  again, sizeof again, NO_PARTS, &outcome));
        if (!in->basic && is_there(call, in))
            is_same(call, fluent_uri_resolve(in->kind, 0, in->one, in->one_size, it->out,
                                             it->outcome.length, again, sizeof again, NO_PARTS,
                                             &outcome));
    }
}

/* A text that is mended stays as it is when it is mended again, and a text of the kind at once. */
static void mended_texts_agree(const input *in) {
    for (int call = call_mend; call <= call_mend_link; call++) {
        const written *it = &results[call];
        if (is_there(call, in))
            is_same(call, fluent_uri_mend(in->kind, it->out, it->outcome.length, again,
                                          sizeof again, NO_PARTS, &outcome));
    }
    int call = call_mend;
    const written *it = &results[call], *parsed = &results[call_parse];
    HOLDS(it->error == 0 || it->error == parsed->error);
    if (parsed->error == 0)
        HOLDS(it->error == 0 && it->outcome.length == in->size &&
              (it->outcome.length > in->room || !memcmp(it->out, in->text, in->size)));
}

static int is_same_part(const input *in, fluent_uri_span given, const written *it,
                        fluent_uri_span made) {
    if (given.start == SIZE_MAX || made.start == SIZE_MAX) return given.start == made.start;
    size_t size = given.end - given.start;
    return made.end - made.start == size &&
           !memcmp(in->text + given.start, it->out + made.start, size);
}

/* A text that is built has the components that were given, and a text is built of its own. */
static void built_texts_agree(const input *in) {
    int call = call_build;
    const written *it = &results[call];
    const fluent_uri_components *given = &in->components;
    const fluent_uri_parts *own = results[call_parse].parts;
    fluent_uri_parts made;
    if (is_there(call, in)) {
        HOLDS(!fluent_uri_parse(in->kind, it->out, it->outcome.length, &made));
        fluent_uri_span path = given->path;
        if (path.start == SIZE_MAX) path.start = path.end = 0;
        HOLDS(is_same_part(in, given->scheme, it, made.scheme));
        HOLDS(is_same_part(in, given->userinfo, it, made.userinfo));
        HOLDS(is_same_part(in, given->host, it, made.host));
        HOLDS(is_same_part(in, given->port, it, made.port));
        HOLDS(is_same_part(in, path, it, made.path));
        HOLDS(is_same_part(in, given->query, it, made.query));
        HOLDS(is_same_part(in, given->fragment, it, made.fragment));
    }
    if (results[call_parse].error) return;
    const fluent_uri_components spans = {own->scheme, own->userinfo, own->host, own->port,
                                         own->path,   own->query,    own->fragment};
    HOLDS(!fluent_uri_build(in->kind, in->text, in->size, &spans, again, sizeof again, NO_PARTS,
                            &outcome));
    HOLDS(outcome.length == in->size && !memcmp(again, in->text, in->size));
}

/* Spans by bytes of the data: most are within it, and some are absent. Of no data all are. */
static fluent_uri_components given_by(const uint8_t *data, size_t size) {
    fluent_uri_span at[7];
    fluent_uri_components made;
    for (size_t i = 0; i < 7; i++) {
        uint8_t start = size ? data[2 * i % size] : 1, end = size ? data[(2 * i + 1) % size] : 0;
        at[i].start = start % 3 ? SIZE_MAX : start % (size + 1);
        at[i].end = start % 3 ? SIZE_MAX : at[i].start + end % (size + 2 - at[i].start);
    }
    memcpy(&made, at, sizeof made);
    return made;
}

/* The single call of a batch, on a text of its column. */
static uint32_t one_of(int call, const input *in, const uint8_t *text, size_t size) {
#define BASE in->one, in->one_size
#define AGAIN again, sizeof again, NO_PARTS, &outcome
    switch (call) {
    case call_normalize_batch:
        return fluent_uri_normalize(in->kind, in->rules, text, size, AGAIN);
    case call_to_uri_batch: return fluent_uri_to_uri(in->kind, text, size, AGAIN);
    case call_resolve_batch:
        return fluent_uri_resolve(in->kind, in->basic, BASE, text, size, AGAIN);
    case call_resolve_normalized_batch:
        return fluent_uri_resolve_normalized(in->kind, in->rules, BASE, text, size, AGAIN);
    case call_relativize_batch:
        return fluent_uri_relativize(in->kind, in->options, BASE, text, size, AGAIN);
    case call_mend_batch: return fluent_uri_mend(in->kind, text, size, AGAIN);
    case call_mend_link_batch: return fluent_uri_mend_link(in->kind, text, size, AGAIN);
    case call_decode_batch:
        return fluent_uri_decode(in->component, text, size, again, sizeof again, &outcome);
    default: return fluent_uri_encode(in->component, text, size, again, sizeof again, &outcome);
    }
}

/* Of the texts that are done, a column holds what the single calls make, by offsets of 32 bits and
 * of 64. */
static void column_agrees(int call, const input *in) {
    const written *it = &results[call], *wide = &results[call - FIRST_BATCH + FIRST_BATCH64];
    int has_base = call >= call_resolve_batch && call <= call_relativize_batch;
    const uint8_t *texts = has_base ? in->other : in->text;
    HOLDS(wide->error == it->error && !memcmp(&wide->outcome, &it->outcome, sizeof outcome));
    HOLDS(!memcmp(wide->out, it->out, ROOM) && wide->valid[0] == it->valid[0]);
    for (size_t i = 0; i < it->outcome.index; i++) {
        HOLDS(wide->ends64[i] == it->ends[i] && wide->ends64[i + 1] == it->ends[i + 1]);
        if (call == call_component_batch) continue;
        size_t start = in->offsets[i], size = in->offsets[i + 1] - start;
        uint32_t error = one_of(call, in, texts + start, size);
        HOLDS((error == 0) == (it->valid[0] >> i & 1));
        HOLDS(it->ends[i + 1] - it->ends[i] == (error ? 0 : outcome.length));
        HOLDS(error || !memcmp(again, it->out + it->ends[i], outcome.length));
    }
}

static void columns_agree(const input *in) {
    for (int call = FIRST_BATCH; call < FIRST_BATCH64; call++) column_agrees(call, in);
    int call = call_parse_batch;
    const written *it = &results[call];
    for (size_t i = 0; i < it->outcome.index; i++) {
        size_t start = in->offsets[i], size = in->offsets[i + 1] - start;
        HOLDS(it->parts[i].error == one_of(call_normalize_batch, in, in->text + start, size));
    }
    call = call_normalize_lines, it = &results[call];
    size_t at = 0, from = 0;
    for (size_t i = 0; i < it->outcome.index; i++) {
        size_t to = from;
        while (to < in->size && in->text[to] != '\n') to++;
        uint32_t error = fluent_uri_normalize(in->kind, in->rules, in->text + from, to - from,
                                              again, sizeof again, NO_PARTS, &outcome);
        size_t length = error ? 0 : outcome.length;
        HOLDS(it->errors[i] == error && !memcmp(it->out + at, again, length));
        HOLDS(it->out[at + length] == '\n');
        at += length + 1, from = to + 1;
    }
    HOLDS(at == it->outcome.length);
}

#ifdef LIBFUZZER
/* The library is not instrumented: what it returns tells libFuzzer which inputs are new. */
__attribute__((section("__libfuzzer_extra_counters"))) static uint8_t seen[1 << 15];

static void tells_what_is_new(void) {
    for (int call = 0; call < CALLS; call++) {
        size_t index = call ? results[call].outcome.index : results[call].parts->index;
        seen[((size_t)call * 17 + results[call].error) * 32 + (index < 31 ? index : 31)] = 1;
    }
    const fluent_uri_parts *it = results[call_parse].parts;
    const fluent_uri_span spans[] = {it->scheme, it->authority, it->userinfo, it->port,
                                     it->path,   it->query,     it->fragment};
    unsigned shape = it->host_kind;
    for (size_t i = 0; i < sizeof spans / sizeof *spans; i++)
        shape = shape * 2 + (spans[i].start < spans[i].end);
    seen[CALLS * 17 * 32 + shape] = 1;
}
#endif

/* A copy that begins or ends beside a page that cannot be read. */
static const void *beside(int page, int at_end, const void *data, size_t size) {
    static uint8_t *pages;
    enum { PAGES = 5 };
    if (!pages) {
        pages = mmap(NULL, (2 * PAGES + 1) * PAGE, PROT_NONE, MAP_PRIVATE | MAP_ANONYMOUS, -1, 0);
        if (pages == MAP_FAILED) abort();
        for (int i = 0; i < PAGES; i++)
            if (mprotect(pages + (2 * i + 1) * PAGE, PAGE, PROT_READ | PROT_WRITE)) abort();
    }
    uint8_t *to = pages + (2 * page + 1) * PAGE + (at_end ? PAGE - size : 0);
    return size ? memcpy(to, data, size) : to;
}

int LLVMFuzzerTestOneInput(const uint8_t *data, size_t size);
int LLVMFuzzerTestOneInput(const uint8_t *data, size_t size) {
    if (size < 3 || size > 1000) return 0;
    int at_end = data[0] >> 7, is_wild = data[0] >> 6 & 1, lacks_a_place = data[0] >> 5 & 1;
    size_t half = (size_t)data[1] % (size - 2);
    input in = {.kind = data[0] % 5, .component = data[1] % 10, .options = data[2] / 3 % 3,
                .rules = data[2] / 9 % 2 * FLUENT_URI_SCHEME_RULES,
                .basic = data[2] / 18 % 2 * FLUENT_URI_BASIC};
    in.room = (size_t)data[2] * 16, in.places = (size_t)TEXTS + 1 - (size_t)lacks_a_place;
    in.parts = data[2] % 3;
    data += 3, size -= 3;
    in.components = given_by(data, size);
    in.size = size, in.one_size = half, in.other_size = size - half;
    in.text = beside(0, at_end, data, size);
    in.one = beside(1, at_end, data, half);
    in.other = beside(2, at_end, data + half, size - half);
    uint32_t offsets[] = {0, (uint32_t)(half / 2), (uint32_t)half,
                          (uint32_t)(half + (size - half) / 2), (uint32_t)size};
    uint64_t offsets64[TEXTS + 1];
    for (size_t i = 0; i <= TEXTS; i++) {
        if (is_wild && i < size) offsets[i] = data[i];
        offsets64[i] = offsets[i];
    }
    in.offsets = beside(3, at_end, offsets, sizeof offsets);
    in.offsets64 = beside(4, at_end, offsets64, sizeof offsets64);
    makes_all_calls(&in);
    parse_returns_spans(&in);
    parts_agree(&in);
    single_calls_agree(&in);
    mended_texts_agree(&in);
    built_texts_agree(&in);
    columns_agree(&in);
#ifdef LIBFUZZER
    tells_what_is_new();
#endif
    return 0;
}

#ifndef LIBFUZZER
int main(int argc, char **argv) {
    static uint8_t data[1 << 16];
    for (int i = 1; i < argc; i++) {
        FILE *file = fopen(argv[i], "rb");
        if (!file) return 1;
        LLVMFuzzerTestOneInput(data, fread(data, 1, sizeof data, file));
        fclose(file);
    }
    return 0;
}
#endif
