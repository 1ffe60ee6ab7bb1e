/* Arguments of the SQL functions, and results that a call of the library writes. */
#include "uri.h"
SQLITE_EXTENSION_INIT3

int uri_has_null(int count, sqlite3_value **values) {
    for (int i = 0; i < count; i++)
        if (sqlite3_value_type(values[i]) == SQLITE_NULL) return 1;
    return 0;
}

int uri_text_of(sqlite3_context *context, sqlite3_value *value, uri_bytes *text) {
    if (sqlite3_value_type(value) == SQLITE_BLOB) {
        sqlite3_result_error(context, URI_NO_BLOB, -1);
        return 0;
    }
    text->at = sqlite3_value_text(value);
    text->len = (size_t)sqlite3_value_bytes(value);
    if (text->at == NULL) sqlite3_result_error_nomem(context);
    return text->at != NULL;
}

static int word_of(sqlite3_context *context, sqlite3_value *value, const char *const *words,
                   int count, const char *otherwise) {
    const char *word = (const char *)sqlite3_value_text(value);
    int number;
    if (word == NULL) {
        sqlite3_result_error_nomem(context);
        return -1;
    }
    number = uri_number(words, count, word, (size_t)sqlite3_value_bytes(value));
    if (number < 0) sqlite3_result_error(context, otherwise, -1);
    return number;
}

int uri_kind_of(sqlite3_context *context, sqlite3_value *value) {
    return word_of(context, value, uri_kinds, URI_KINDS, URI_NO_KIND);
}

int uri_component_of(sqlite3_context *context, sqlite3_value *value) {
    return word_of(context, value, uri_components, URI_COMPONENTS, "no such component");
}

void uri_reject(sqlite3_context *context, char *message) {
    if (message) sqlite3_result_error(context, message, -1);
    else sqlite3_result_error_nomem(context);
    sqlite3_free(message);
}

static void reject_call(sqlite3_context *context, uri_call call, uint32_t number,
                        const fluent_uri_outcome *outcome) {
    const char *why = uri_message(outcome->error);
    sqlite3_int64 index = (sqlite3_int64)outcome->index;
    if (outcome->error == FLUENT_URI_OUT_OF_MEMORY) sqlite3_result_error_nomem(context);
    else if (outcome->error > FLUENT_URI_NOT_UTF8)
        sqlite3_result_error(context, why, -1);
    else if (call == URI_DECODE)
        uri_reject(context, sqlite3_mprintf("cannot be decoded as %s: %s at index %lld",
                                            uri_components[number], why, index));
    else if (call == URI_MEND || call == URI_MEND_LINK)
        uri_reject(context, sqlite3_mprintf("cannot be mended to %s: %s at index %lld",
                                            uri_titles[number], why, index));
    else {
        /* The second text of a resolution is a reference. */
        uint32_t kind = outcome->which && call != URI_RELATIVIZE ? number | 1 : number;
        uri_reject(context, sqlite3_mprintf("not %s: %s at index %lld", uri_titles[kind], why,
                                            index));
    }
}

void uri_give(sqlite3_context *context, uri_call call, uint32_t number, uint32_t options,
              const uri_bytes *in) {
    uint8_t few[1024], *out = few, *heap = NULL;
    size_t room = sizeof few, expected = in[0].len + in[1].len + 2;
    size_t most =
        (size_t)sqlite3_limit(sqlite3_context_db_handle(context), SQLITE_LIMIT_LENGTH, -1);
    fluent_uri_outcome outcome;
    for (;;) {
        if (expected > room && expected <= most) {
            out = heap = sqlite3_malloc64(room = expected);
            if (heap == NULL) {
                sqlite3_result_error_nomem(context);
                return;
            }
        }
        uri_write(call, number, options, in[0], in[1], out, room, &outcome);
        if (outcome.error || outcome.length <= room) break;
        sqlite3_free(heap);
        heap = NULL;
        if (outcome.length > most) {
            sqlite3_result_error_toobig(context);
            return;
        }
        expected = outcome.length;
    }
    if (outcome.error) {
        sqlite3_free(heap);
        reject_call(context, call, number, &outcome);
    } else {
        void (*release)(void *) = heap ? sqlite3_free : SQLITE_TRANSIENT;
        /* A TEXT is UTF-8 without a NUL, which other functions of SQLite end at. */
        if (call == URI_DECODE && (memchr(out, 0, outcome.length) ||
                                   uri_utf8_length(out, outcome.length) < outcome.length))
            sqlite3_result_blob64(context, out, outcome.length, release);
        else sqlite3_result_text64(context, (char *)out, outcome.length, release, SQLITE_UTF8);
    }
}

/* f(text [, text] [, kind [, option]]) */
void uri_write_text(sqlite3_context *context, int count, sqlite3_value **values) {
    const uri_work *it = sqlite3_user_data(context);
    uri_bytes in[2] = {{NULL, 0}, {NULL, 0}};
    int kind = (int)it->kind, option;
    uint32_t options = 0;
    if (uri_has_null(count, values)) return;
    for (int i = 0; i < it->texts; i++)
        if (!uri_text_of(context, values[i], &in[i])) return;
    if (count > it->texts && (kind = uri_kind_of(context, values[it->texts])) < 0) return;
    if (count > it->texts + 1) {
        option = word_of(context, values[it->texts + 1], uri_options, URI_OPTIONS,
                         "no such option");
        if (option < 0) return;
        options = UINT32_C(1) << option;
    }
    uri_give(context, it->call, (uint32_t)kind, options, in);
}

/* f(component, text) */
void uri_write_component(sqlite3_context *context, int count, sqlite3_value **values) {
    const uri_work *it = sqlite3_user_data(context);
    uri_bytes in[2] = {{NULL, 0}, {NULL, 0}};
    int component;
    if (uri_has_null(count, values)) return;
    if ((component = uri_component_of(context, values[0])) < 0) return;
    if (it->call == URI_ENCODE && sqlite3_value_type(values[1]) == SQLITE_BLOB) {
        in[0].at = sqlite3_value_blob(values[1]);
        in[0].len = (size_t)sqlite3_value_bytes(values[1]);
        if (in[0].at == NULL && in[0].len) {
            sqlite3_result_error_nomem(context);
            return;
        }
    } else if (!uri_text_of(context, values[1], &in[0])) return;
    uri_give(context, it->call, (uint32_t)component, 0, in);
}
