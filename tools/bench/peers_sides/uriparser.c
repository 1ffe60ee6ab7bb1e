/* uriparser, over uriparser/Uri.h. */
#include <uriparser/Uri.h>

#include "side.h"

/* The length of the text of a URI, or that of none. */
static uint64_t printed(const UriUriA *uri) {
    int length = 0;
    return uriToStringA(out, uri, sizeof out, &length) ? UINT64_MAX : (uint64_t)length - 1;
}

static uint64_t resolved(const char *text, const char *end, const char *base,
                         const char *base_end) {
    UriUriA reference, from, target;
    uint64_t length = UINT64_MAX;
    if (uriParseSingleUriExA(&from, base, base_end, NULL)) return length;
    if (!uriParseSingleUriExA(&reference, text, end, NULL)) {
        if (!uriAddBaseUriExA(&target, &reference, &from, URI_RESOLVE_STRICTLY))
            length = printed(&target);
        uriFreeUriMembersA(&target);
        uriFreeUriMembersA(&reference);
    }
    uriFreeUriMembersA(&from);
    return length;
}

static uint64_t worked(uint32_t work, const char *text, size_t length, const char *base,
                       size_t base_length) {
    UriUriA uri;
    uint64_t result = length;
    if (work == RESOLVE_URI) return resolved(text, text + length, base, base + base_length);
    if (uriParseSingleUriExA(&uri, text, text + length, NULL)) return UINT64_MAX;
    if (work == NORMALIZE_URI) result = uriNormalizeSyntaxA(&uri) ? UINT64_MAX : printed(&uri);
    uriFreeUriMembersA(&uri);
    return result;
}
