/* The host of a text as an address and in ASCII, ports as numbers, and origins. */
#include "laws.h"
#include "test.h"

static fluent_uri_outcome outcome;
static uint8_t out[64];

/* The octets of an address are those that are wanted, and nothing is written after them. */
static int has_address(uint32_t kind, const char *text, const char *wanted, size_t length) {
    memset(out, '#', sizeof out);
    if (!has_host_of_its_kind(kind, TEXT(text))) return 0;
    if (fluent_uri_host_address(kind, TEXT(text), out, sizeof out, &outcome) != 0) return 0;
    return outcome.error == 0 && outcome.length == length && !memcmp(out, wanted, length) &&
           out[length] == '#';
}

static void has_addresses(void) {
    CHECK(has_address(FLUENT_URI_URI, "http://127.0.0.1:80/", "\x7f\0\0\1", 4));
    CHECK(has_address(FLUENT_URI_IRI_REF, "//u@255.0.254.9", "\xff\0\xfe\x09", 4));
    CHECK(has_address(FLUENT_URI_URI_REF, "//[2001:db8::7]",
                      "\x20\x01\x0d\xb8\0\0\0\0\0\0\0\0\0\0\0\x07", 16));
    CHECK(has_address(FLUENT_URI_IRI, "a://[::FFFF:192.0.2.1]",
                      "\0\0\0\0\0\0\0\0\0\0\xff\xff\xc0\0\2\1", 16));
    static const char *const others[] = {"//a", "//", "//127.1", "//256.0.0.1", "//01.2.3.4",
        "//%31.2.3.4", "//[v1.a]", "//1.2.3.4.", "/127.0.0.1", ""};
    for (size_t i = 0; i < sizeof others / sizeof *others; i++)
        CHECK(has_address(FLUENT_URI_URI_REF, others[i], "", 0));
    /* Too short a buffer stays as it is. */
    memset(out, '#', sizeof out);
    CHECK(fluent_uri_host_address(1, TEXT("//1.2.3.4"), out, 3, &outcome) == 0);
    CHECK(outcome.length == 4 && out[0] == '#');
    CHECK(fluent_uri_host_address(1, TEXT("//[::1]"), NULL, 0, &outcome) == 0);
    CHECK(outcome.length == 16);
    CHECK(fluent_uri_host_address(0, TEXT("http://a b"), out, 16, &outcome) ==
              FLUENT_URI_UNEXPECTED_CHAR && outcome.index == 8 && outcome.length == 0);
    CHECK(fluent_uri_host_address(1, TEXT("//\xff"), out, 16, &outcome) == FLUENT_URI_NOT_UTF8);
    CHECK(fluent_uri_host_address(4, TEXT("//a"), out, 16, &outcome) ==
          FLUENT_URI_INVALID_ARGUMENT);
    CHECK(fluent_uri_host_address(1, (const uint8_t *)"", SIZE_MAX, out, 16, &outcome) ==
          FLUENT_URI_INVALID_ARGUMENT && out[0] == '#');
}

static uint32_t port_of(const char *text) {
    uint32_t port = 7;
    CHECK(fluent_uri_port_number(FLUENT_URI_URI_REF, TEXT(text), &port) == 0);
    return port;
}

static void has_ports(void) {
    CHECK(port_of("//a:0") == 0 && port_of("//a:80") == 80 && port_of("//a:65535") == 65535);
    CHECK(port_of("//[::1]:0000000000000000000000000000000000000443") == 443);
    CHECK(port_of("//u:1@a") == FLUENT_URI_NO_PORT && port_of("") == FLUENT_URI_NO_PORT);
    CHECK(port_of("a:80") == FLUENT_URI_NO_PORT && port_of("//a:") == FLUENT_URI_EMPTY_PORT);
    CHECK(port_of("//a:65536") == FLUENT_URI_PORT_TOO_LARGE);
    CHECK(port_of("//a:18446744073709551696") == FLUENT_URI_PORT_TOO_LARGE); /* 2^64 + 80 */
    uint32_t port = 7;
    CHECK(fluent_uri_port_number(0, TEXT("a://b:8x"), &port) == FLUENT_URI_UNEXPECTED_CHAR);
    CHECK(fluent_uri_port_number(9, TEXT("a:b"), &port) == FLUENT_URI_INVALID_ARGUMENT);
    CHECK(fluent_uri_port_number(0, (const uint8_t *)"a:", SIZE_MAX, &port) ==
          FLUENT_URI_INVALID_ARGUMENT && port == 7);
    CHECK(fluent_uri_default_port(TEXT("http")) == 80);
    CHECK(fluent_uri_default_port(TEXT("Coap+TCP")) == 5683);
    static const char *const without[] = {"", "htt", "http:", "https ", "mailto", "\xffhttp", "1"};
    for (size_t i = 0; i < sizeof without / sizeof *without; i++)
        CHECK(fluent_uri_default_port(TEXT(without[i])) == 0);
    CHECK(fluent_uri_default_port(NULL, 0) == 0);
    CHECK(fluent_uri_default_port((const uint8_t *)"http\0", 5) == 0);
}

static int has_origin(const char *text, const char *wanted) {
    uint32_t error = fluent_uri_origin(FLUENT_URI_URI_REF, TEXT(text), out, sizeof out, &outcome);
    return error == 0 && is_text(out, outcome.length, wanted) &&
           has_host_of_its_kind(FLUENT_URI_URI_REF, TEXT(text));
}

static void has_origins(void) {
    /* RFC 6454, sections 1 and 5: these have one origin, and each of those below another. */
    static const char *const same[] = {"http://example.com/", "http://example.com:80/",
        "http://example.com/path/file", "HTTP://u@EXAMPLE.com:0080?q#f", "http://%65xample.com"};
    for (size_t i = 0; i < sizeof same / sizeof *same; i++)
        CHECK(has_origin(same[i], "http://example.com"));
    CHECK(has_origin("http://example.com:8080/", "http://example.com:8080"));
    CHECK(has_origin("http://www.example.com/", "http://www.example.com"));
    CHECK(has_origin("https://example.com:80/", "https://example.com:80"));
    CHECK(has_origin("https://example.com/", "https://example.com"));
    CHECK(has_origin("http://[2001:DB8:0::1]:08080", "http://[2001:db8::1]:8080"));
    CHECK(has_origin("ws://127.0.0.1:", "ws://127.0.0.1"));
    static const char *const none[] = {"file:///etc/hosts", "file://h/", "data:,a", "urn:a",
        "//example.com/", "example.com", "foo://example.com", "http:///a", "http://:80",
        "http://u@/", "http:a", "http://a:65536", ""};
    for (size_t i = 0; i < sizeof none / sizeof *none; i++) CHECK(has_origin(none[i], ""));
    CHECK(fluent_uri_origin(0, TEXT("http://a b"), out, 9, &outcome) == FLUENT_URI_UNEXPECTED_CHAR);
    CHECK(outcome.index == 8);
    for (uint32_t kind = 2; kind < 5; kind++)
        CHECK(fluent_uri_origin(kind, TEXT("http://a"), out, 9, &outcome) ==
              FLUENT_URI_INVALID_ARGUMENT);
}

/* The host in ASCII is the one that is wanted, and nothing is written after it. */
static int has_ascii(const char *text, const char *wanted) {
    memset(out, '#', sizeof out);
    return fluent_uri_ascii_host(FLUENT_URI_IRI_REF, TEXT(text), out, sizeof out, &outcome) == 0 &&
           is_text(out, outcome.length, wanted) && out[outcome.length] == '#' &&
           has_ascii_host(FLUENT_URI_IRI_REF, TEXT(text));
}

static uint32_t ascii_error(uint32_t kind, const char *text) {
    memset(out, '#', sizeof out);
    uint32_t error = fluent_uri_ascii_host(kind, TEXT(text), out, sizeof out, &outcome);
    CHECK(out[0] == '#' && outcome.length == 0 && has_ascii_host(kind, TEXT(text)));
    return error;
}

static void has_ascii_hosts(void) {
    /* The names of UTS 46, table 1, and of RFC 3492, section 7.1 (D). */
    CHECK(has_ascii("//b\xc3\xbc" "cher.de", "xn--bcher-kva.de"));
    CHECK(has_ascii("//B\xc3\x9c" "cher.de", "xn--bcher-kva.de"));
    CHECK(has_ascii("//u@fa%C3%9f.de:80/%C3%9F", "xn--fa-hia.de"));
    CHECK(has_ascii("//\xce\xb2\xcf\x8c\xce\xbb\xce\xbf\xcf\x82.com", "xn--nxasmm1c.com"));
    CHECK(has_ascii("//pro\xc4\x8dprost\xc4\x9bnemluv\xc3\xad\xc4\x8d" "esky",
                    "xn--proprostnemluvesky-uyb24dma41a"));
    CHECK(has_ascii("//\xef\xbc\x91\xef\xbc\x92\xef\xbc\x97.0.0.1", "127.0.0.1"));
    static const char *const own[] = {"Example.com", "a_b%21", "%41%2f", "[::1]", "[v1.a]",
        "127.0.0.1", "xn--9ca", "XN--a", "-", ""};
    for (size_t i = 0; i < sizeof own / sizeof *own; i++) {
        char text[32] = "//";
        CHECK(has_ascii(strcat(text, own[i]), own[i]));
    }
    CHECK(has_ascii("", "") && has_ascii("/\xc3\xa9", "") && has_ascii("urn:\xc3\xa9", ""));
    CHECK(ascii_error(1, "//a%FF") == FLUENT_URI_NAME_NOT_UTF8 && outcome.index == 0);
    CHECK(ascii_error(1, "//%C3%28.example") == FLUENT_URI_NAME_NOT_UTF8);
    CHECK(ascii_error(3, "//a..\xc3\xa9") == FLUENT_URI_INVALID_NAME && outcome.index == 0);
    CHECK(ascii_error(3, "//a_\xc3\xa9") == FLUENT_URI_INVALID_NAME);
    CHECK(ascii_error(0, "http://-%C3%A9/") == FLUENT_URI_INVALID_NAME);
    CHECK(ascii_error(0, "http://a b") == FLUENT_URI_UNEXPECTED_CHAR && outcome.index == 8);
    CHECK(ascii_error(1, "//\xff") == FLUENT_URI_NOT_UTF8 && outcome.index == 2);
    CHECK(ascii_error(4, "//a") == FLUENT_URI_INVALID_ARGUMENT);
    CHECK(fluent_uri_ascii_host(1, (const uint8_t *)"", SIZE_MAX, out, 16, &outcome) ==
          FLUENT_URI_INVALID_ARGUMENT);
    /* A buffer that is too short stays as it is. */
    memset(out, '#', sizeof out);
    CHECK(fluent_uri_ascii_host(3, TEXT("//\xc3\xa9"), out, 6, &outcome) == 0);
    CHECK(outcome.length == 7 && out[0] == '#');
}

static void converts_with_ascii_hosts(void) {
    static const char *const iri = "http://\xc3\xbc@\xc3\xbc:80/\xc3\xbc?\xc3\xbc#\xc3\xbc";
    fluent_uri_parts parts;
    CHECK(fluent_uri_to_uri_with_ascii_host(2, TEXT(iri), out, sizeof out, &parts, 1, &outcome) ==
          0);
    CHECK(is_text(out, outcome.length, "http://%C3%BC@xn--tda:80/%C3%BC?%C3%BC#%C3%BC"));
    CHECK(parts.error == 0 && parts.host_kind == FLUENT_URI_REG_NAME &&
          parts.host.start == 14 && parts.host.end == 21);
    CHECK(fluent_uri_to_uri_with_ascii_host(3, TEXT("\xc3\xbc"), out, sizeof out, NO_PARTS,
                                            &outcome) == 0);
    CHECK(is_text(out, outcome.length, "%C3%BC"));
    memset(out, '#', sizeof out);
    CHECK(fluent_uri_to_uri_with_ascii_host(2, TEXT("\xc3\xbc"), out, sizeof out, NO_PARTS,
                                            &outcome) == FLUENT_URI_UNEXPECTED_CHAR);
    CHECK(fluent_uri_to_uri_with_ascii_host(3, TEXT("//a..\xc3\xbc"), out, sizeof out, NO_PARTS,
                                            &outcome) == FLUENT_URI_INVALID_NAME);
    CHECK(fluent_uri_to_uri_with_ascii_host(3, TEXT("//%FF"), out, sizeof out, NO_PARTS,
                                            &outcome) == FLUENT_URI_NAME_NOT_UTF8);
    for (uint32_t kind = 0; kind < 2; kind++)
        CHECK(fluent_uri_to_uri_with_ascii_host(kind, TEXT("http://a"), out, sizeof out, NO_PARTS,
                                                &outcome) == FLUENT_URI_INVALID_ARGUMENT);
    CHECK(out[0] == '#');
}

int main(void) {
    has_addresses();
    has_ascii_hosts();
    converts_with_ascii_hosts();
    has_ports();
    has_origins();
    return ended("hosts");
}
