/* What the files of the extension share. */
#ifndef SQLITE_URI_H
#define SQLITE_URI_H
#include <sqlite3ext.h>

#include "../databases/calls.h"

#define URI_NO_BLOB "a BLOB is not a URI: cast it to TEXT"
#define URI_NO_KIND "no such kind: uri, uri-ref, iri or iri-ref"

/* Whether one of the values is NULL. */
int uri_has_null(int count, sqlite3_value **values);

/* Reads a text. Returns 0 after an error. */
int uri_text_of(sqlite3_context *context, sqlite3_value *value, uri_bytes *text);

/* Reads the name of a kind, or of a component. Returns -1 after an error. */
int uri_kind_of(sqlite3_context *context, sqlite3_value *value);
int uri_component_of(sqlite3_context *context, sqlite3_value *value);

/* Returns a message as the error of a function. It is freed; NULL is a lack of memory. */
void uri_reject(sqlite3_context *context, char *message);

/* Returns what a call writes, or its error. IN has two texts. */
void uri_give(sqlite3_context *context, uri_call call, uint32_t number, uint32_t options,
              const uri_bytes *in);

/* The SQL functions whose result a call writes; the user data is a uri_work. */
typedef struct {
    uri_call call;
    int texts;
    uint32_t kind; /* without an argument that names one */
} uri_work;
void uri_write_text(sqlite3_context *context, int count, sqlite3_value **values);
void uri_write_component(sqlite3_context *context, int count, sqlite3_value **values);

/* The table-valued function uri_query. */
extern const sqlite3_module uri_query_module;
#endif
