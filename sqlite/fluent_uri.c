/* The loadable extension `fluent_uri` of SQLite, over libfluent_uri_c. README.md lists what it has.
 *
 * A text that is not of the kind is an error, as malformed JSON is to json1. NULL gives NULL. */
#include "uri.h"
SQLITE_EXTENSION_INIT1

#define PURE (SQLITE_UTF8 | SQLITE_DETERMINISTIC | SQLITE_INNOCUOUS)

/* ---- Calls that parse ---- */

/* Parses the argument as the kind of the next one, or as a URI. Returns 0 after an error. */
static int parse(sqlite3_context *context, int count, sqlite3_value **values, uri_bytes *text,
                 int *kind, fluent_uri_parts *parts) {
    if (uri_has_null(count, values) || !uri_text_of(context, values[0], text)) return 0;
    *kind = FLUENT_URI_URI;
    if (count > 1 && (*kind = uri_kind_of(context, values[1])) < 0) return 0;
    fluent_uri_parse((uint32_t)*kind, text->at, text->len, parts);
    return 1;
}

/* uri_is(kind, text) */
static void is_of_kind(sqlite3_context *context, int count, sqlite3_value **values) {
    uri_bytes text;
    fluent_uri_parts parts;
    int kind;
    if (uri_has_null(count, values) || (kind = uri_kind_of(context, values[0])) < 0) return;
    if (sqlite3_value_type(values[1]) == SQLITE_BLOB) sqlite3_result_int(context, 0);
    else if (uri_text_of(context, values[1], &text))
        sqlite3_result_int(context,
                           fluent_uri_parse((uint32_t)kind, text.at, text.len, &parts) == 0);
}

static void write_error(sqlite3_context *context, int count, sqlite3_value **values) {
    uri_bytes text;
    fluent_uri_parts parts;
    int kind;
    char *message;
    if (!parse(context, count, values, &text, &kind, &parts) || parts.error == 0) return;
    message = sqlite3_mprintf("%s at index %lld", uri_message(parts.error),
                              (sqlite3_int64)parts.index);
    if (message) sqlite3_result_text(context, message, -1, sqlite3_free);
    else sqlite3_result_error_nomem(context);
}

/* The position in characters from 1, as of json_error_position, or 0 if there is no error. */
static void error_position(sqlite3_context *context, int count, sqlite3_value **values) {
    uri_bytes text;
    fluent_uri_parts parts;
    int kind;
    sqlite3_int64 position = 1;
    if (!parse(context, count, values, &text, &kind, &parts)) return;
    for (size_t i = 0; i < parts.index; i++) position += (text.at[i] & 0xC0) != 0x80;
    sqlite3_result_int64(context, parts.error ? position : 0);
}

/* uri_host(text [, kind]) and the like; the user data is the component. */
static void write_component(sqlite3_context *context, int count, sqlite3_value **values) {
    const uint32_t *component = sqlite3_user_data(context);
    uri_bytes text, found;
    fluent_uri_parts parts;
    int kind;
    if (!parse(context, count, values, &text, &kind, &parts)) return;
    if (parts.error)
        uri_reject(context, sqlite3_mprintf("not %s: %s at index %lld", uri_titles[kind],
                                            uri_message(parts.error), (sqlite3_int64)parts.index));
    else if (!uri_component(&parts, *component, text.at, &found)) return;
    else if (*component == FLUENT_URI_PORT) {
        int32_t port = uri_port_number(found);
        if (port >= 0) sqlite3_result_int(context, port);
    } else
        sqlite3_result_text64(context, (const char *)found.at, found.len, SQLITE_TRANSIENT,
                              SQLITE_UTF8);
}

static void write_version(sqlite3_context *context, int count, sqlite3_value **values) {
    uint32_t version = fluent_uri_version();
    char text[12];
    (void)count, (void)values;
    sqlite3_snprintf(sizeof text, text, "%u.%u.%u", version >> 16 & 255, version >> 8 & 255,
                     version & 255);
    sqlite3_result_text(context, text, -1, SQLITE_TRANSIENT);
}

static void write_normal_version(sqlite3_context *context, int count, sqlite3_value **values) {
    (void)count, (void)values;
    sqlite3_result_int64(context, fluent_uri_normal_version());
}

/* ---- Collations ---- */

/* What is equivalent: texts of this kind, by these options. */
typedef struct {
    const char *name;
    uint32_t kind, options;
} collation;

static const collation collations[] = {
    {"URI", FLUENT_URI_URI, 0},
    {"IRI", FLUENT_URI_IRI, 0},
    {"URI_SCHEME_RULES", FLUENT_URI_URI, FLUENT_URI_SCHEME_RULES},
    {"IRI_SCHEME_RULES", FLUENT_URI_IRI, FLUENT_URI_SCHEME_RULES},
};

/* A total order on all texts, which takes no memory: URIs by meaning, and other texts after them. */
static int compare(void *data, int a_len, const void *a, int b_len, const void *b) {
    const collation *it = data;
    return (int)fluent_uri_compare(it->kind, it->options, a, (size_t)a_len, b, (size_t)b_len) - 1;
}

/* ---- What is registered ---- */

typedef struct {
    const char *name;
    int least, most;
    void (*call)(sqlite3_context *, int, sqlite3_value **);
    const void *data;
} function;

static const uri_work normalize = {URI_NORMALIZE, 1, FLUENT_URI_URI},
                      resolve = {URI_RESOLVE, 2, FLUENT_URI_URI},
                      resolve_normal = {URI_RESOLVE_NORMALIZED, 2, FLUENT_URI_URI},
                      relativize = {URI_RELATIVIZE, 2, FLUENT_URI_URI},
                      to_uri = {URI_TO_URI, 1, FLUENT_URI_IRI},
                      mend = {URI_MEND, 1, FLUENT_URI_URI},
                      mend_link = {URI_MEND_LINK, 1, FLUENT_URI_URI_REF},
                      decode = {URI_DECODE, 1, 0}, encode = {URI_ENCODE, 1, 0};
static const uint32_t numbers[] = {0, 1, 2, 3, 4, 5, 6, 7};

static const function functions[] = {
    {"uri_is", 2, 2, is_of_kind, NULL},
    {"uri_error", 1, 2, write_error, NULL},
    {"uri_error_position", 1, 2, error_position, NULL},
    {"uri_normal", 1, 3, uri_write_text, &normalize},
    {"uri_resolve", 2, 4, uri_write_text, &resolve},
    {"uri_resolve_normal", 2, 4, uri_write_text, &resolve_normal},
    {"uri_relativize", 2, 4, uri_write_text, &relativize},
    {"iri_to_uri", 1, 2, uri_write_text, &to_uri},
    {"uri_mend", 1, 2, uri_write_text, &mend},
    {"uri_mend_link", 1, 2, uri_write_text, &mend_link},
    {"uri_decode", 2, 2, uri_write_component, &decode},
    {"uri_encode", 2, 2, uri_write_component, &encode},
    {"uri_scheme", 1, 2, write_component, &numbers[FLUENT_URI_SCHEME]},
    {"uri_authority", 1, 2, write_component, &numbers[FLUENT_URI_AUTHORITY]},
    {"uri_userinfo", 1, 2, write_component, &numbers[FLUENT_URI_USERINFO]},
    {"uri_host", 1, 2, write_component, &numbers[FLUENT_URI_HOST]},
    {"uri_port", 1, 2, write_component, &numbers[FLUENT_URI_PORT]},
    {"uri_path", 1, 2, write_component, &numbers[FLUENT_URI_PATH]},
    {"uri_query", 1, 2, write_component, &numbers[FLUENT_URI_QUERY]},
    {"uri_fragment", 1, 2, write_component, &numbers[FLUENT_URI_FRAGMENT]},
    {"uri_version", 0, 0, write_version, NULL},
    {"uri_normal_version", 0, 0, write_normal_version, NULL},
};

#ifdef _WIN32
__declspec(dllexport)
#else
__attribute__((visibility("default")))
#endif
int sqlite3_fluenturi_init(sqlite3 *db, char **message, const sqlite3_api_routines *api) {
    int error = SQLITE_OK;
    (void)message;
    SQLITE_EXTENSION_INIT2(api);
    for (size_t i = 0; i < sizeof functions / sizeof *functions; i++) {
        const function *it = &functions[i];
        for (int count = it->least; count <= it->most && !error; count++)
            error = sqlite3_create_function_v2(db, it->name, count, PURE, (void *)it->data,
                                               it->call, NULL, NULL, NULL);
    }
    if (!error) error = sqlite3_create_module_v2(db, "uri_query", &uri_query_module, NULL, NULL);
    for (size_t i = 0; i < sizeof collations / sizeof *collations && !error; i++)
        error = sqlite3_create_collation_v2(db, collations[i].name, SQLITE_UTF8,
                                            (void *)&collations[i], compare, NULL);
    return error;
}
