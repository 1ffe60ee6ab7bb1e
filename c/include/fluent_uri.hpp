/**
 * @file fluent_uri.hpp
 * The calls of fluent_uri.h on std::string_view, with results as std::string. C++17. Nothing throws
 * but std::bad_alloc, where malloc fails.
 */
#ifndef FLUENT_URI_HPP
#define FLUENT_URI_HPP

#include <cstddef>
#include <cstdint>
#include <new>
#include <optional>
#include <string>
#include <string_view>
#include <utility>

#include "fluent_uri.h"

namespace fluent_uri {

/** Why a text is rejected: an error of fluent_uri.h, in which text (1: the reference), and at
 * which byte. */
struct rejection {
    std::uint32_t error;
    std::uint32_t which;
    std::size_t index;
};

/** A text, or why there is none. */
struct result {
    std::optional<std::string> text;
    rejection why;

    explicit operator bool() const noexcept { return text.has_value(); }
    const std::string &operator*() const noexcept { return *text; }
    const std::string *operator->() const noexcept { return &*text; }
};

namespace detail {

inline const std::uint8_t *bytes(std::string_view text) noexcept {
    return reinterpret_cast<const std::uint8_t *>(text.data());
}

/** Makes a call twice at most: the first has the result, or reports how long it is. */
template <typename Call> result make(std::size_t room, Call call) {
    std::string made(room, '\0');
    for (;;) {
        fluent_uri_outcome outcome;
        auto *out = reinterpret_cast<std::uint8_t *>(made.data());
        if (call(out, made.size(), &outcome) == FLUENT_URI_OUT_OF_MEMORY) throw std::bad_alloc();
        if (outcome.error) return {std::nullopt, {outcome.error, outcome.which, outcome.index}};
        bool fits = outcome.length <= made.size();
        made.resize(outcome.length);
        if (fits) return {std::move(made), {0, 0, 0}};
    }
}

/** The same of a call on one text. */
template <typename Call> result make_of_one(Call call, std::uint32_t kind, std::string_view text) {
    return make(text.size(), [&](std::uint8_t *out, std::size_t room, auto *outcome) {
        return call(kind, bytes(text), text.size(), out, room, nullptr, 0, outcome);
    });
}

/** The same of a call on two texts, by options. */
template <typename Call>
result make_of_two(Call call, std::uint32_t kind, std::uint32_t options, std::string_view one,
                   std::string_view other) {
    auto most = one.size() + other.size() + 3;
    return make(most, [&](std::uint8_t *out, std::size_t room, auto *outcome) {
        return call(kind, options, bytes(one), one.size(), bytes(other), other.size(), out, room,
                    nullptr, 0, outcome);
    });
}

} // namespace detail

/** The version of the library: a byte each for major, minor and patch. */
inline std::uint32_t version() noexcept { return fluent_uri_version(); }

/** The version of normal forms, which changes where any of them does. */
inline std::uint32_t normal_version() noexcept { return fluent_uri_normal_version(); }

/** The name of an error of fluent_uri.h, if there is such an error. */
inline result error_name(std::uint32_t error) {
    return detail::make(64, [&](std::uint8_t *out, std::size_t room, auto *outcome) {
        return fluent_uri_error_name(error, out, room, outcome);
    });
}

/** What is wrong, by the number of an error of fluent_uri.h: `unknown error` of any other number. */
inline result error_message(std::uint32_t error) {
    return detail::make(128, [&](std::uint8_t *out, std::size_t room, auto *outcome) {
        return fluent_uri_error_message(error, out, room, outcome);
    });
}

/** The components of a text, which has to outlive them, or why it is rejected. */
class parts {
  public:
    parts(std::uint32_t kind, std::string_view text) noexcept : text_(text) {
        fluent_uri_parse(kind, detail::bytes(text), text.size(), &parts_);
    }

    explicit operator bool() const noexcept { return parts_.error == 0; }
    rejection why() const noexcept { return {parts_.error, 0, parts_.index}; }
    std::uint32_t host_kind() const noexcept { return parts_.host_kind; }

    using component = std::optional<std::string_view>;
    component scheme() const noexcept { return at(parts_.scheme); }
    component authority() const noexcept { return at(parts_.authority); }
    component userinfo() const noexcept { return at(parts_.userinfo); }
    component host() const noexcept { return at(parts_.host); }
    component port() const noexcept { return at(parts_.port); }
    component path() const noexcept { return at(parts_.path); }
    component query() const noexcept { return at(parts_.query); }
    component fragment() const noexcept { return at(parts_.fragment); }

  private:
    component at(fluent_uri_span span) const noexcept {
        if (span.start == SIZE_MAX) return std::nullopt;
        return std::string_view(text_.data() + span.start, span.end - span.start);
    }

    std::string_view text_;
    fluent_uri_parts parts_;
};

inline parts parse(std::uint32_t kind, std::string_view text) noexcept { return {kind, text}; }

/** True exactly if a text is of the kind and its own normal form; the options are 0 or
 * FLUENT_URI_SCHEME_RULES. */
inline bool is_normal(std::uint32_t kind, std::uint32_t options, std::string_view text) noexcept {
    return fluent_uri_is_normal(kind, options, detail::bytes(text), text.size()) == 1;
}

/** Compares two texts as keys of a table: -1 if `one` is before `other`, 0 if they are one key, and 1
 * if `one` is after `other`. Texts of the kind are in the order of their normal forms, and all other
 * bytes are after these; the options are 0 or FLUENT_URI_SCHEME_RULES. */
inline int compare(std::uint32_t kind, std::uint32_t options, std::string_view one,
                   std::string_view other) noexcept {
    return static_cast<int>(fluent_uri_compare(kind, options, detail::bytes(one), one.size(),
                                               detail::bytes(other), other.size())) - 1;
}

/** The hash of a text as a key of a table: what `compare` finds to be one key by the same options
 * has one hash. */
inline std::uint64_t hash(std::uint32_t kind, std::uint32_t options, std::uint64_t seed,
                          std::string_view text) noexcept {
    std::uint64_t found;
    fluent_uri_hash(kind, options, seed, detail::bytes(text), text.size(), &found);
    return found;
}

/** The octets of the address that the host of a text is, 4 or 16 in network order; none if the host
 * is a name or there is none. */
inline result host_address(std::uint32_t kind, std::string_view text) {
    return detail::make(16, [&](std::uint8_t *out, std::size_t room, auto *outcome) {
        return fluent_uri_host_address(kind, detail::bytes(text), text.size(), out, room, outcome);
    });
}

/** The number of a text's port, from 0 to 65535, or one of `enum fluent_uri_port` where there is
 * none; nothing if the text is rejected. */
inline std::optional<std::uint32_t> port_number(std::uint32_t kind, std::string_view text) noexcept {
    std::uint32_t port;
    if (fluent_uri_port_number(kind, detail::bytes(text), text.size(), &port)) return std::nullopt;
    return port;
}

/** The default port of a scheme, if it has one. */
inline std::optional<std::uint16_t> default_port(std::string_view scheme) noexcept {
    auto port = fluent_uri_default_port(detail::bytes(scheme), scheme.size());
    if (port == 0) return std::nullopt;
    return static_cast<std::uint16_t>(port);
}

/** The origin of a URI in ASCII (RFC 6454, section 6.2); empty if the text has none of its own. */
inline result origin(std::uint32_t kind, std::string_view text) {
    return detail::make(text.size(), [&](std::uint8_t *out, std::size_t room, auto *outcome) {
        return fluent_uri_origin(kind, detail::bytes(text), text.size(), out, room, outcome);
    });
}

/** The host of a text in ASCII, as DNS has it (RFC 3987, section 3.1); empty if there is none. */
inline result ascii_host(std::uint32_t kind, std::string_view text) {
    return detail::make(text.size(), [&](std::uint8_t *out, std::size_t room, auto *outcome) {
        return fluent_uri_ascii_host(kind, detail::bytes(text), text.size(), out, room, outcome);
    });
}

/** The components of a reference to build, without their delimiters; one that is not there is
 * absent. */
struct components {
    parts::component scheme, userinfo, host, port;
    std::string_view path;
    parts::component query, fragment;

    components() = default;

    /** Those of a text, to change some of them. */
    explicit components(const parts &of) noexcept
        : scheme(of.scheme()), userinfo(of.userinfo()), host(of.host()), port(of.port()),
          path(of.path().value_or(std::string_view())), query(of.query()), fragment(of.fragment()) {
    }
};

/** The text of the kind that has these components (RFC 3986, section 5.3). `why.which` is the
 * component that is rejected, an `enum fluent_uri_component`, and `why.index` the byte of it. */
inline result build(std::uint32_t kind, const components &from) {
    std::string text;
    auto span = [&](const parts::component &it) -> fluent_uri_span {
        if (!it) return {SIZE_MAX, SIZE_MAX};
        text += *it;
        return {text.size() - it->size(), text.size()};
    };
    fluent_uri_components spans{span(from.scheme), span(from.userinfo), span(from.host),
                                span(from.port),   span(from.path),     span(from.query),
                                span(from.fragment)};
    auto most = text.size() + 7;
    return detail::make(most, [&](std::uint8_t *out, std::size_t room, auto *outcome) {
        return fluent_uri_build(kind, detail::bytes(text), text.size(), &spans, out, room, nullptr,
                                0, outcome);
    });
}

/** The normal form (RFC 3986, sections 6.2.2 and 6.2.3); the options are 0 or
 * FLUENT_URI_SCHEME_RULES. */
inline result normalize(std::uint32_t kind, std::uint32_t options, std::string_view text) {
    return detail::make(text.size() + 1, [&](std::uint8_t *out, std::size_t room, auto *outcome) {
        return fluent_uri_normalize(kind, options, detail::bytes(text), text.size(), out, room,
                                    nullptr, 0, outcome);
    });
}

/** The target of a reference against a base of the kind without its fragment (RFC 3986, sections
 * 5.1 and 5.2); the options are 0 or FLUENT_URI_BASIC. */
inline result resolve(std::uint32_t kind, std::uint32_t options, std::string_view base,
                      std::string_view reference) {
    return detail::make_of_two(fluent_uri_resolve, kind, options, base, reference);
}

/** The normal form of the target that `resolve` returns without options; the options are 0 or
 * FLUENT_URI_SCHEME_RULES. */
inline result resolve_normalized(std::uint32_t kind, std::uint32_t options, std::string_view base,
                                 std::string_view reference) {
    return detail::make_of_two(fluent_uri_resolve_normalized, kind, options, base, reference);
}

/** A reference that leads from a base to a target, both of the kind; the options are 0 or
 * FLUENT_URI_PREFER_RELATIVE_PATH. */
inline result relativize(std::uint32_t kind, std::uint32_t options, std::string_view base,
                         std::string_view target) {
    return detail::make_of_two(fluent_uri_relativize, kind, options, base, target);
}

/** An IRI or an IRI reference as a URI or a URI reference (RFC 3987, section 3.1). A host past ASCII
 * is percent-encoded too: a name that DNS does not have. */
inline result to_uri(std::uint32_t kind, std::string_view text) {
    return detail::make_of_one(fluent_uri_to_uri, kind, text);
}

/** The same with its host in ASCII, as `ascii_host` has it. */
inline result to_uri_with_ascii_host(std::uint32_t kind, std::string_view text) {
    return detail::make_of_one(fluent_uri_to_uri_with_ascii_host, kind, text);
}

/** The text of the kind that a text is mended to, by the least change. */
inline result mend(std::uint32_t kind, std::string_view text) {
    return detail::make_of_one(fluent_uri_mend, kind, text);
}

/** The text of the kind that a link of a page is mended to, without the white space that HTML
 * drops. */
inline result mend_link(std::uint32_t kind, std::string_view text) {
    return detail::make_of_one(fluent_uri_mend_link, kind, text);
}

/** The bytes that a component stands for. */
inline result decode(std::uint32_t component, std::string_view text) {
    return detail::make(text.size(), [&](std::uint8_t *out, std::size_t room, auto *outcome) {
        return fluent_uri_decode(component, detail::bytes(text), text.size(), out, room, outcome);
    });
}

/** Bytes, encoded as data of a component. */
inline result encode(std::uint32_t component, std::string_view bytes) {
    return detail::make(bytes.size(), [&](std::uint8_t *out, std::size_t room, auto *outcome) {
        return fluent_uri_encode(component, detail::bytes(bytes), bytes.size(), out, room, outcome);
    });
}

/** A text as a component: each `%XX` stays, and what the component may not have is
 * percent-encoded. */
inline result mend_component(std::uint32_t component, std::string_view text) {
    return detail::make(text.size(), [&](std::uint8_t *out, std::size_t room, auto *outcome) {
        return fluent_uri_mend_component(component, detail::bytes(text), text.size(), out, room,
                                         outcome);
    });
}

/** The name and the value of a pair of a query, as they are there; the value is absent where there
 * is no `=`. If no pair was left, both are absent. */
struct pair {
    std::optional<std::string_view> name, value;

    explicit operator bool() const noexcept { return name.has_value(); }
};

/** The next pair of a query, of which it leaves what is after the pair. */
inline pair next_pair(std::string_view &query) noexcept {
    std::size_t position = 0;
    fluent_uri_pair at;
    if (fluent_uri_next_pair(detail::bytes(query), query.size(), &position, &at) != 1) return {};
    auto in_query = [&](fluent_uri_span span) {
        return query.substr(span.start, span.end - span.start);
    };
    pair found;
    found.name = in_query(at.name);
    if (at.value.start != SIZE_MAX) found.value = in_query(at.value);
    query.remove_prefix(position);
    return found;
}

} // namespace fluent_uri

#endif
