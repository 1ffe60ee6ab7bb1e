// ada, over ada.h.
#include <ada.h>

#include <string_view>

#include "side.h"

using url = ada::url_aggregator;

static uint64_t written(const ada::result<url> &made) {
    if (!made) return UINT64_MAX;
    std::string_view text = made->get_href();
    memcpy(out, text.data(), text.size());
    return text.size();
}

static uint64_t worked(uint32_t work, const char *text, size_t length, const char *base,
                       size_t base_length) {
    std::string_view read{text, length};
    if (work == RESOLVE_URI) {
        auto from = ada::parse<url>({base, base_length});
        return from ? written(ada::parse<url>(read, &*from)) : UINT64_MAX;
    }
    auto made = ada::parse<url>(read);
    if (work == NORMALIZE_URI) return written(made);
    return made ? length : UINT64_MAX;
}
