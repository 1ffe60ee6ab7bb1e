// From C++: the C header in C++11, and fluent_uri.hpp in C++17.
#include <cstdint>
#include <cstdio>
#include <cstring>
#include <fluent_uri.h>
#if __cplusplus >= 201703L
#include <fluent_uri.hpp>
#endif

static bool by_the_c_header() {
    const char *text = "HTTP://A/%61";
    std::uint8_t out[32];
    fluent_uri_outcome outcome;
    return fluent_uri_normalize(FLUENT_URI_URI, 0, reinterpret_cast<const std::uint8_t *>(text),
                                std::strlen(text), out, sizeof out, nullptr, 0, &outcome) == 0 &&
           outcome.length == 10 && std::memcmp(out, "http://a/a", 10) == 0;
}

#if __cplusplus >= 201703L
static bool by_pairs() {
    std::string_view query = "&a=1&&b&=c=";
    auto first = fluent_uri::next_pair(query), second = fluent_uri::next_pair(query);
    auto third = fluent_uri::next_pair(query), none = fluent_uri::next_pair(query);
    return first && first.name == "a" && first.value == "1" && second && second.name == "b" &&
           !second.value && third.name == "" && third.value == "c=" && !none && query.empty();
}

static bool by_hosts() {
    using namespace fluent_uri;
    auto address = host_address(FLUENT_URI_URI, "http://[::1]:8080/");
    auto no_address = host_address(FLUENT_URI_URI, "http://a/");
    auto own = origin(FLUENT_URI_URI, "HTTP://u@A:8080/b"), none = origin(FLUENT_URI_URI, "urn:a");
    return address && address->size() == 16 && (*address)[15] == 1 && no_address &&
           no_address->empty() && !host_address(FLUENT_URI_URI, "a b") &&
           port_number(FLUENT_URI_URI, "a://b:080") == 80u &&
           port_number(FLUENT_URI_URI, "a://b:") == std::uint32_t{FLUENT_URI_EMPTY_PORT} &&
           !port_number(FLUENT_URI_URI, "a b") && default_port("HTTPS") == 443 &&
           !default_port("urn") && own && *own == "http://a:8080" && none && none->empty() &&
           !origin(FLUENT_URI_IRI, "http://a/");
}

static bool by_ascii_hosts() {
    using namespace fluent_uri;
    auto host = ascii_host(FLUENT_URI_IRI_REF, "//b\u00fccher.example");
    auto uri = to_uri_with_ascii_host(FLUENT_URI_IRI, "http://b\u00fccher/\u00e9");
    auto invalid = ascii_host(FLUENT_URI_IRI_REF, "//a..\u00e9");
    auto octets = to_uri_with_ascii_host(FLUENT_URI_IRI_REF, "//%FF");
    return host && *host == "xn--bcher-kva.example" && uri &&
           *uri == "http://xn--bcher-kva/%C3%A9" && !invalid &&
           invalid.why.error == FLUENT_URI_INVALID_NAME && !octets &&
           octets.why.error == FLUENT_URI_NAME_NOT_UTF8 &&
           ascii_host(FLUENT_URI_URI, "urn:a")->empty();
}

static bool by_strings() {
    using namespace fluent_uri;
    auto p = parse(FLUENT_URI_URI, "http://u@h:80/p?q#f");
    auto no = parse(FLUENT_URI_URI, "a b");
    auto rejected = resolve(FLUENT_URI_URI, 0, "http://a/", "a b");
    // Longer than the first buffer: a zone's worth of octets.
    auto longer = to_uri(FLUENT_URI_IRI_REF, "\u00e9\u00e9\u00e9\u00e9");
    components of(p), none;
    of.path = "/x", of.query.reset();
    none.path = "a?b";
    auto built = build(FLUENT_URI_URI, of), unbuilt = build(FLUENT_URI_URI_REF, none);
    return built && *built == "http://u@h:80/x#f" && !unbuilt &&
           unbuilt.why.error == FLUENT_URI_UNEXPECTED_CHAR &&
           unbuilt.why.which == FLUENT_URI_PATH && unbuilt.why.index == 1 &&
           p && p.scheme() == "http" && p.userinfo() == "u" && p.host() == "h" && p.port() == "80" &&
           p.path() == "/p" && p.query() == "q" && p.fragment() == "f" &&
           p.host_kind() == FLUENT_URI_REG_NAME && !no && no.why().index == 1 &&
           !no.scheme() && !rejected && rejected.why.which == 1 && rejected.why.index == 1 &&
           *normalize(FLUENT_URI_URI, 0, "HTTP://A/%61") == "http://a/a" &&
           *normalize(FLUENT_URI_URI_REF, 0, std::string_view()) == "" &&
           *normalize(FLUENT_URI_URI, FLUENT_URI_SCHEME_RULES, "http://a") == "http://a/" &&
           *resolve_normalized(FLUENT_URI_URI, FLUENT_URI_SCHEME_RULES, "a:", "http://b") ==
               "http://b/" &&
           *resolve(FLUENT_URI_URI, 0, "http://a/b/c", "../d") == "http://a/d" &&
           *resolve(FLUENT_URI_URI, FLUENT_URI_BASIC, "foo:b#f", "g") == "foo:g" &&
           *resolve_normalized(FLUENT_URI_URI, 0, "http://a/", "//B:80") == "http://b" &&
           *relativize(FLUENT_URI_URI, 0, "http://a/b/c", "http://a/d") == "/d" &&
           *relativize(FLUENT_URI_URI, FLUENT_URI_PREFER_RELATIVE_PATH, "http://a/b/c",
                       "http://a/d") == "../d" &&
           *mend(FLUENT_URI_URI_REF, "a b") == "a%20b" &&
           *mend_link(FLUENT_URI_URI_REF, " a\tb ") == "ab" &&
           longer && *longer == "%C3%A9%C3%A9%C3%A9%C3%A9" &&
           *decode(FLUENT_URI_PATH, "a%20b") == "a b" &&
           *encode(FLUENT_URI_DATA, "a b") == "a%20b" &&
           *mend_component(FLUENT_URI_PATH, "a%20b c") == "a%20b%20c" &&
           by_pairs() && by_hosts() && by_ascii_hosts() &&
           is_normal(FLUENT_URI_URI, 0, "http://a:8080/") &&
           !is_normal(FLUENT_URI_URI, 0, "http://A/") &&
           !is_normal(FLUENT_URI_URI, FLUENT_URI_SCHEME_RULES, "http://a") &&
           compare(FLUENT_URI_URI, 0, "HTTP://a:80/%7E", "http://a/~") == 0 &&
           compare(FLUENT_URI_URI, FLUENT_URI_SCHEME_RULES, "HTTP://a:80", "http://a/") == 0 &&
           compare(FLUENT_URI_URI, 0, "http://a", "") == -1 &&
           compare(FLUENT_URI_URI, 0, "b:", "A:") == 1 &&
           hash(FLUENT_URI_URI, 0, 1, "A:b") == hash(FLUENT_URI_URI, 0, 1, "a:b") &&
           version() >> 16 == FLUENT_URI_VERSION_MAJOR && !error_name(17) &&
           normal_version() == FLUENT_URI_NORMAL_VERSION &&
           *error_message(FLUENT_URI_UNEXPECTED_CHAR) == "unexpected character" &&
           *error_name(FLUENT_URI_NOT_UTF8) == "FLUENT_URI_NOT_UTF8";
}
#endif

int main() {
    bool ok = by_the_c_header();
#if __cplusplus >= 201703L
    ok = ok && by_strings();
#endif
    if (!ok) std::puts("cplusplus: failed");
    return !ok;
}
