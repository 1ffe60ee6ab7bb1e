/* GLib, over GUri. What is percent-encoded stays so, which is its fastest way. */
#include <glib.h>

#include "side.h"

static uint64_t written(char *text) {
    if (!text) return UINT64_MAX;
    size_t length = strlen(text);
    memcpy(out, text, length + 1);
    g_free(text);
    return length;
}

static uint64_t worked(uint32_t work, const char *text, size_t length, const char *base,
                       size_t base_length) {
    const GUriFlags flags = G_URI_FLAGS_ENCODED;
    (void)base_length;
    if (work == RESOLVE_URI) return written(g_uri_resolve_relative(base, text, flags, NULL));
    int is_written = work == NORMALIZE_URI;
    GUri *made = g_uri_parse(text, is_written ? flags | G_URI_FLAGS_SCHEME_NORMALIZE : flags, NULL);
    if (!made) return UINT64_MAX;
    uint64_t result = is_written ? written(g_uri_to_string(made)) : length;
    g_uri_unref(made);
    return result;
}
