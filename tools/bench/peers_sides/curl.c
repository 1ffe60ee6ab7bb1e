/* curl, over CURLU. A handle is made for each text, since one that holds a text resolves the next
 * one against it. */
#include <curl/curl.h>

#include "side.h"

static const unsigned ANY_SCHEME = CURLU_NON_SUPPORT_SCHEME;

static uint64_t written(CURLU *handle) {
    char *text;
    if (curl_url_get(handle, CURLUPART_URL, &text, ANY_SCHEME)) return UINT64_MAX;
    size_t length = strlen(text);
    memcpy(out, text, length + 1);
    curl_free(text);
    return length;
}

static uint64_t worked(uint32_t work, const char *text, size_t length, const char *base,
                       size_t base_length) {
    CURLU *handle = curl_url();
    uint64_t result = UINT64_MAX;
    (void)base_length;
    if ((work != RESOLVE_URI || !curl_url_set(handle, CURLUPART_URL, base, ANY_SCHEME))
        && !curl_url_set(handle, CURLUPART_URL, text, ANY_SCHEME))
        result = work == PARSE_URI ? length : written(handle);
    curl_url_cleanup(handle);
    return result;
}
