/* The batches: each result is the single call's, and a batch that ends early loses nothing. */
#include "test.h"

static fluent_uri_outcome outcome;
static uint8_t out[512];

/* The outcome of a batch that is full says which output is, and what is needed of it. */
static int is_full(uint32_t error, uint32_t which, size_t needed) {
    return error == FLUENT_URI_FULL && outcome.error == error && outcome.which == which &&
           outcome.needed == needed;
}

static const char *const data = "HTTP://A/a bx:/%7e/.";
static const uint32_t offsets[] = {0, 9, 12, 20};

static void normalizes(void) {
    uint32_t ends[4] = {7, 7, 7, 7};
    uint8_t valid = 0xf8;
    CHECK(fluent_uri_normalize_batch(0, 0, TEXT(data), offsets, 4, out, sizeof out, ends, 4,
                                     &valid, 1, &outcome) == 0);
    CHECK(ends[0] == 0 && ends[1] == 9 && ends[2] == 9 && ends[3] == 14 && outcome.length == 14);
    CHECK(valid == 0xfd && !memcmp(out, "http://a/x:/~/", 14) && outcome.index == 3);
    /* Two fit: the third is left, with its offset and its bit. */
    memset(out, '#', sizeof out);
    ends[3] = 7, valid = 0xff;
    CHECK(is_full(fluent_uri_normalize_batch(0, 0, TEXT(data), offsets, 4, out, 13, ends, 4,
                                             &valid, 1, &outcome), FLUENT_URI_OUT, 14));
    CHECK(outcome.index == 2 && outcome.length == 9 && ends[2] == 9 && ends[3] == 7);
    CHECK(valid == 0xfd && !memcmp(out, "http://a/#", 10));
    /* No room for the offsets, or for the bits: nothing is done. */
    CHECK(is_full(fluent_uri_normalize_batch(0, 0, TEXT(data), offsets, 4, out, sizeof out, ends, 3,
                                             &valid, 1, &outcome), FLUENT_URI_OUT_OFFSETS, 4));
    CHECK(outcome.index == 0);
    CHECK(is_full(fluent_uri_normalize_batch(0, 0, TEXT(data), offsets, 4, out, sizeof out, ends, 4,
                                             NULL, 0, &outcome), FLUENT_URI_VALID, 1));
    CHECK(outcome.index == 0);
    /* Offsets that fall, or that are outside. */
    const uint32_t falling[] = {0, 3, 2}, outside[] = {0, 3, 99};
    CHECK(fluent_uri_normalize_batch(1, 0, TEXT("a:b"), falling, 3, out, 10, ends, 4, &valid, 1,
                                     &outcome) == FLUENT_URI_INVALID_ARGUMENT && outcome.index == 1);
    CHECK(fluent_uri_normalize_batch(1, 0, TEXT("a:b"), outside, 3, out, 10, ends, 4, &valid, 1,
                                     &outcome) == FLUENT_URI_INVALID_ARGUMENT && outcome.index == 1);
    CHECK(outcome.length == 3 && ends[1] == 3);
    CHECK(fluent_uri_normalize_batch(7, 0, TEXT("a:b"), offsets, 2, out, 10, ends, 4, &valid, 1,
                                     &outcome) == FLUENT_URI_INVALID_ARGUMENT && outcome.index == 0);
    CHECK(fluent_uri_normalize_batch(0, 1, TEXT("a:b"), offsets, 2, out, 10, ends, 4, &valid, 1,
                                     &outcome) == FLUENT_URI_INVALID_ARGUMENT && outcome.index == 0);
    /* By the rules of schemes. */
    const uint32_t two[] = {0, 8, 14};
    CHECK(fluent_uri_normalize_batch(0, FLUENT_URI_SCHEME_RULES, TEXT("HTTP://Afoo://"), two, 3,
                                     out, sizeof out, ends, 3, &valid, 1, &outcome) == 0);
    CHECK(ends[1] == 9 && ends[2] == 15 && !memcmp(out, "http://a/foo://", 15));
    /* No text has one offset; a column without any is none. */
    CHECK(fluent_uri_normalize_batch(0, 0, NULL, 0, offsets, 1, NULL, 0, ends, 1, NULL, 0,
                                     &outcome) == 0);
    CHECK(ends[0] == 0 && outcome.index == 0 && outcome.length == 0);
    CHECK(fluent_uri_normalize_batch(0, 0, NULL, 0, NULL, 0, NULL, 0, ends, 1, NULL, 0, &outcome) ==
          FLUENT_URI_INVALID_ARGUMENT);
}

static void others(void) {
    const char *base = "http://a/b/c/d;p?q";
    const uint64_t wide[] = {0, 9, 12, 20};
    uint64_t wide_ends[4];
    uint32_t ends[4];
    uint8_t valid = 0;
    CHECK(fluent_uri_normalize_batch64(0, 0, TEXT(data), wide, 4, out, sizeof out, wide_ends, 4,
                                       &valid, 1, &outcome) == 0);
    CHECK(wide_ends[1] == 9 && wide_ends[2] == 9 && wide_ends[3] == 14 && valid == 5);
    const uint32_t links[] = {0, 4, 5, 7}, targets[] = {0, 12, 15}, octets[] = {0, 5, 8};
    CHECK(fluent_uri_resolve_batch(0, 0, TEXT(base), TEXT("../g /x"), links, 4, out, sizeof out,
                                   ends, 4, &valid, 1, &outcome) == 0);
    CHECK(ends[1] == 12 && ends[2] == 12 && ends[3] == 22);
    CHECK(!memcmp(out, "http://a/b/ghttp://a/x", 22) && valid == 5);
    const uint32_t paths[] = {0, 4, 5};
    for (uint32_t option = 0; option <= FLUENT_URI_BASIC; option += FLUENT_URI_BASIC) {
        CHECK(fluent_uri_resolve_batch(0, option, TEXT("foo:/a#f"), TEXT(".//bg"), paths, 3, out,
                                       sizeof out, ends, 3, &valid, 1, &outcome) == 0);
        CHECK(ends[1] == (option ? 0 : 9) && ends[2] == ends[1] + 6);
        CHECK(!memcmp(out, option ? "foo:/g" : "foo:/.//bfoo:/g", ends[2]));
        CHECK((valid & 3) == (option ? 2 : 3));
    }
    CHECK(fluent_uri_resolve_normalized_batch(0, 0, TEXT(base), TEXT("../g /x"), links, 4, out,
                                              sizeof out, ends, 4, &valid, 1, &outcome) == 0);
    CHECK(ends[3] == 22);
    const uint32_t host[] = {0, 3};
    CHECK(fluent_uri_resolve_normalized_batch(0, FLUENT_URI_SCHEME_RULES, TEXT(base), TEXT("//B"),
                                              host, 2, out, sizeof out, ends, 2, &valid, 1,
                                              &outcome) == 0);
    CHECK(ends[1] == 9 && !memcmp(out, "http://b/", 9));
    CHECK(fluent_uri_relativize_batch(0, 0, TEXT(base), TEXT("http://a/b/g /x"), targets, 3, out,
                                      sizeof out, ends, 3, &valid, 1, &outcome) == 0);
    CHECK(ends[1] == 4 && ends[2] == 4 && !memcmp(out, "../g", 4) && (valid & 3) == 1);
    const uint32_t root[] = {0, 10};
    for (uint32_t option = 0; option <= 1; option++) {
        const char *wanted = option ? "../../x" : "/x";
        CHECK(fluent_uri_relativize_batch(0, option, TEXT(base), TEXT("http://a/x"), root, 2, out,
                                          sizeof out, ends, 3, &valid, 1, &outcome) == 0);
        CHECK(is_text(out, outcome.length, wanted));
    }
    const uint32_t pages[] = {0, 3, 9, 19};
    CHECK(fluent_uri_mend_batch(1, TEXT("a b//[::1 http:\n//h"), pages, 4, out, sizeof out, ends,
                                4, &valid, 1, &outcome) == 0);
    CHECK(ends[1] == 5 && ends[2] == 5 && ends[3] == 21 && (valid & 7) == 5);
    CHECK(!memcmp(out, "a%20b./%20http:%0A//h", outcome.length));
    CHECK(fluent_uri_mend_link_batch(1, TEXT("a b//[::1 http:\n//h"), pages, 4, out, sizeof out,
                                     ends, 4, &valid, 1, &outcome) == 0);
    CHECK(ends[1] == 5 && ends[2] == 5 && ends[3] == 13 && (valid & 7) == 5);
    CHECK(!memcmp(out, "a%20bhttp://h", 13));
    CHECK(fluent_uri_decode_batch(FLUENT_URI_PATH, TEXT("a%20b%zz"), octets, 3, out, sizeof out,
                                  ends, 3, &valid, 1, &outcome) == 0);
    CHECK(ends[1] == 3 && ends[2] == 3 && !memcmp(out, "a b", 3) && (valid & 3) == 1);
    CHECK(fluent_uri_encode_batch(FLUENT_URI_DATA, TEXT("a b\xff" "cdef"), octets, 3, out,
                                  sizeof out, ends, 3, &valid, 1, &outcome) == 0);
    CHECK(ends[1] == 9 && ends[2] == 12 && !memcmp(out, "a%20b%FFcdef", 12) && (valid & 3) == 3);
    const uint32_t accents[] = {0, 4, 6};
    CHECK(fluent_uri_to_uri_batch(FLUENT_URI_IRI, TEXT("a:\xc3\xa9" "b:"), accents, 3, out,
                                  sizeof out, ends, 3, &valid, 1, &outcome) == 0);
    CHECK(ends[1] == 8 && ends[2] == 10 && !memcmp(out, "a:%C3%A9b:", 10));
    CHECK(fluent_uri_component_batch(0, FLUENT_URI_HOST, TEXT(data), offsets, 4, out, sizeof out,
                                     ends, 4, &valid, 1, &outcome) == 0);
    CHECK((valid & 7) == 1 && ends[1] == 1 && ends[3] == 1 && out[0] == 'A');
    fluent_uri_parts each[3];
    CHECK(fluent_uri_parse_batch(0, TEXT(data), offsets, 4, each, 3, &outcome) == 0);
    CHECK(each[0].error == 0 && each[1].error == 2 && each[1].index == 1 && each[2].path.end == 8);
    CHECK(is_full(fluent_uri_parse_batch(0, TEXT(data), offsets, 4, each, 2, &outcome),
                  FLUENT_URI_PARTS, 3));
    CHECK(fluent_uri_parse_batch64(0, TEXT(data), wide, 4, each, 3, &outcome) == 0);
    CHECK(each[0].error == 0 && each[1].error == 2 && each[1].index == 1 && each[2].path.end == 8);
    CHECK(fluent_uri_component_batch64(0, FLUENT_URI_SCHEME, TEXT(data), wide, 4, out, sizeof out,
                                       wide_ends, 4, &valid, 1, &outcome) == 0);
    CHECK((valid & 7) == 5 && wide_ends[3] == 5 && !memcmp(out, "HTTPx", 5));
    uint8_t errors[3];
    CHECK(fluent_uri_normalize_lines(0, 0, TEXT("A:\n \nB:"), out, sizeof out, errors, 3,
                                     &outcome) == 0);
    CHECK(is_text(out, outcome.length, "a:\n\nb:\n") && outcome.index == 3);
    CHECK(outcome.consumed == 7);
    CHECK(errors[0] == 0 && errors[1] == 2 && errors[2] == 0);
    CHECK(is_full(fluent_uri_normalize_lines(0, 0, TEXT("A:\n \nB:"), out, sizeof out, errors, 2,
                                             &outcome), FLUENT_URI_LINE_ERRORS, 3));
    CHECK(outcome.index == 2 && outcome.consumed == 5);
    /* A room that the lines fill, and one that lacks a byte. */
    CHECK(fluent_uri_normalize_lines(0, 0, TEXT("A:\n \nB:"), out, 7, errors, 3, &outcome) == 0);
    CHECK(is_full(fluent_uri_normalize_lines(0, 0, TEXT("A:\n \nB:"), out, 6, errors, 3, &outcome),
                  FLUENT_URI_OUT, 7));
    CHECK(outcome.index == 2 && outcome.length == 4 && outcome.consumed == 5);
    /* A newline at the end has a line after it, and no input has one line. */
    CHECK(fluent_uri_normalize_lines(1, 0, TEXT("A:\n"), out, sizeof out, errors, 3,
                                     &outcome) == 0);
    CHECK(is_text(out, outcome.length, "a:\n\n") && outcome.index == 2 && outcome.consumed == 3);
    /* A carriage return is of its line. */
    CHECK(fluent_uri_normalize_lines(1, 0, TEXT("A:\r\nb"), out, sizeof out, errors, 3,
                                     &outcome) == 0);
    CHECK(is_text(out, outcome.length, "\nb\n") && errors[0] == FLUENT_URI_UNEXPECTED_CHAR);
    CHECK(fluent_uri_normalize_lines(1, 0, NULL, 0, out, sizeof out, errors, 3, &outcome) == 0);
    CHECK(is_text(out, outcome.length, "\n") && outcome.index == 1 && errors[0] == 0);
    /* By the rules of schemes, and by an option of another call. */
    CHECK(fluent_uri_normalize_lines(0, FLUENT_URI_SCHEME_RULES, TEXT("http://A\n\nfoo://b"), out,
                                     sizeof out, errors, 3, &outcome) == 0);
    CHECK(is_text(out, outcome.length, "http://a/\n\nfoo://b\n") && outcome.index == 3);
    CHECK(fluent_uri_normalize_lines(0, 1, TEXT("A:"), out, sizeof out, errors, 3, &outcome) ==
          FLUENT_URI_INVALID_ARGUMENT);
}

/* Numbers that name nothing are tested before the first text, and before the room. */
static void invalid(void) {
    uint32_t ends[4] = {7, 7, 7, 7};
    uint8_t valid = 0xff, errors[3] = {7, 7, 7};
    fluent_uri_parts parts = {.error = 7};
    memset(out, '#', sizeof out);
    for (uint32_t length = 0; length <= 4; length += 4) {
        CHECK(fluent_uri_normalize_batch(4, 0, TEXT(data), offsets, 4, out, sizeof out, ends,
                                         length,
                                         &valid, 1, &outcome) == FLUENT_URI_INVALID_ARGUMENT);
        CHECK(fluent_uri_to_uri_batch(1, TEXT(data), offsets, 4, out, sizeof out, ends, length,
                                      &valid, 1, &outcome) == FLUENT_URI_INVALID_ARGUMENT);
        CHECK(fluent_uri_resolve_batch(1, 0, TEXT("a:"), TEXT(data), offsets, 4, out, sizeof out,
                                       ends, length, &valid, 1, &outcome) ==
              FLUENT_URI_INVALID_ARGUMENT);
        CHECK(fluent_uri_resolve_batch(0, 2, TEXT("a:"), TEXT(data), offsets, 4, out, sizeof out,
                                       ends, length, &valid, 1, &outcome) ==
              FLUENT_URI_INVALID_ARGUMENT);
        CHECK(fluent_uri_resolve_normalized_batch(0, FLUENT_URI_BASIC, TEXT("a:"), TEXT(data),
                                                  offsets, 4, out, sizeof out, ends, length, &valid,
                                                  1, &outcome) == FLUENT_URI_INVALID_ARGUMENT);
        CHECK(fluent_uri_relativize_batch(1, 0, TEXT("a:"), TEXT(data), offsets, 4, out, sizeof out,
                                          ends, length, &valid, 1, &outcome) ==
              FLUENT_URI_INVALID_ARGUMENT);
        CHECK(fluent_uri_relativize_batch(0, 2, TEXT("a:"), TEXT(data), offsets, 4, out, sizeof out,
                                          ends, length, &valid, 1, &outcome) ==
              FLUENT_URI_INVALID_ARGUMENT);
        CHECK(fluent_uri_mend_batch(4, TEXT(data), offsets, 4, out, sizeof out, ends, length,
                                    &valid, 1, &outcome) == FLUENT_URI_INVALID_ARGUMENT);
        CHECK(fluent_uri_mend_link_batch(4, TEXT(data), offsets, 4, out, sizeof out, ends, length,
                                         &valid, 1, &outcome) == FLUENT_URI_INVALID_ARGUMENT);
        CHECK(fluent_uri_component_batch(0, FLUENT_URI_DATA, TEXT(data), offsets, 4, out, sizeof out,
                                         ends, length, &valid, 1, &outcome) ==
              FLUENT_URI_INVALID_ARGUMENT && outcome.index == 0 && outcome.length == 0);
    }
    CHECK(fluent_uri_normalize_batch(4, 0, NULL, 0, NULL, 0, out, sizeof out, ends, 4, &valid, 1,
                                     &outcome) == FLUENT_URI_INVALID_ARGUMENT);
    CHECK(fluent_uri_parse_batch(4, TEXT(data), offsets, 4, &parts, 1, &outcome) ==
          FLUENT_URI_INVALID_ARGUMENT && outcome.index == 0);
    CHECK(fluent_uri_normalize_lines(4, 0, TEXT("A:"), out, sizeof out, errors, 3, &outcome) ==
          FLUENT_URI_INVALID_ARGUMENT && outcome.index == 0 && outcome.length == 0);
    for (size_t i = 0; i < sizeof out; i++) CHECK(out[i] == '#');
    CHECK(ends[0] == 7 && valid == 0xff && errors[0] == 7 && parts.error == 7);
}

/* Many texts, in rooms of every size: after FULL the caller goes on with the next text. */
static void goes_on(void) {
    enum { COUNT = 40 };
    uint8_t texts[COUNT * 24];
    uint32_t starts[COUNT + 1] = {0}, ends[COUNT + 1];
    for (int i = 0; i < COUNT; i++)
        starts[i + 1] = starts[i] + (uint32_t)sprintf((char *)texts + starts[i],
            i % 5 == 3 ? "a b%d" : "HTTP://H%d/%%7e/./%d", i, i * i);
    for (size_t room = 24; room < 200; room++) {
        size_t done = 0;
        while (done < COUNT) {
            uint8_t valid[5] = {0};
            uint32_t error = fluent_uri_normalize_batch(0, 0, texts, starts[COUNT], starts + done,
                COUNT + 1 - done, out, room, ends, COUNT + 1, valid, sizeof valid, &outcome);
            CHECK(error == 0 || (error == FLUENT_URI_FULL && outcome.index > 0));
            if (failed) return;
            for (size_t i = 0; i < outcome.index; i++) {
                uint8_t single[64];
                fluent_uri_outcome one;
                const uint8_t *text = texts + starts[done + i];
                size_t length = starts[done + i + 1] - starts[done + i];
                uint32_t why = fluent_uri_normalize(0, 0, text, length, single, sizeof single,
                                                    NO_PARTS, &one);
                CHECK((why == 0) == (valid[i / 8] >> i % 8 & 1) && ends[i + 1] - ends[i] == one.length);
                CHECK(!memcmp(out + ends[i], single, one.length));
            }
            done += outcome.index;
        }
    }
}

int main(void) {
    normalizes();
    others();
    invalid();
    goes_on();
    return ended("columns");
}
