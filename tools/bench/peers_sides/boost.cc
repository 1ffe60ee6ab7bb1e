// Boost.URL, over boost/url.hpp, compiled here.
#include <boost/url.hpp>
#include <boost/url/src.hpp>

#include "side.h"

namespace urls = boost::urls;

static uint64_t written(const urls::url &made) {
    memcpy(out, made.data(), made.size());
    return made.size();
}

static uint64_t worked(uint32_t work, const char *text, size_t length, const char *base,
                       size_t base_length) {
    boost::core::string_view read{text, length};
    if (work == RESOLVE_URI) {
        urls::url target;
        auto from = urls::parse_uri({base, base_length});
        auto reference = urls::parse_uri_reference(read);
        bool is_there = from && reference && urls::resolve(*from, *reference, target);
        return is_there ? written(target) : UINT64_MAX;
    }
    auto made = urls::parse_uri(read);
    if (!made) return UINT64_MAX;
    if (work == PARSE_URI) return length;
    urls::url normal(*made);
    normal.normalize();
    return written(normal);
}
