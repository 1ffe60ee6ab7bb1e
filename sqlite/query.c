/* The table-valued function uri_query(text [, kind]): a row for each nonempty pair of the query. */
#include "uri.h"
SQLITE_EXTENSION_INIT3

typedef struct {
    sqlite3_vtab_cursor base;
    uint8_t *copy; /* of the text */
    uri_bytes text, query, pair[2]; /* the name and the value */
    const char *kind; /* the word that is given, or NULL */
    size_t position;
    sqlite3_int64 n;
    int has_pair;
} cursor;

enum { COLUMN_N, COLUMN_NAME, COLUMN_VALUE, COLUMN_TEXT, COLUMN_KIND };
enum { HAS_TEXT = 1, HAS_KIND = 2 };

static int connect(sqlite3 *db, void *data, int count, const char *const *words,
                   sqlite3_vtab **table, char **message) {
    int error = sqlite3_declare_vtab(db, "CREATE TABLE x(n INTEGER, name, value,"
                                         " text HIDDEN, kind HIDDEN)");
    (void)data, (void)count, (void)words, (void)message;
    if (error) return error;
    if ((*table = sqlite3_malloc(sizeof **table)) == NULL) return SQLITE_NOMEM;
    memset(*table, 0, sizeof **table);
    sqlite3_vtab_config(db, SQLITE_VTAB_INNOCUOUS);
    return SQLITE_OK;
}

static int disconnect(sqlite3_vtab *table) {
    sqlite3_free(table);
    return SQLITE_OK;
}

/* Asks for the text and the kind, as arguments of `filter` in this order. */
static int plan(sqlite3_vtab *table, sqlite3_index_info *info) {
    int given[2] = {-1, -1}, unusable[2] = {0, 0};
    (void)table;
    for (int i = 0; i < info->nConstraint; i++) {
        int at = info->aConstraint[i].iColumn - COLUMN_TEXT;
        if (at < 0) continue;
        if (!info->aConstraint[i].usable) unusable[at] = 1;
        else if (info->aConstraint[i].op == SQLITE_INDEX_CONSTRAINT_EQ) given[at] = i;
    }
    for (int i = 0, next = 1; i < 2; i++) {
        if (given[i] < 0 && unusable[i]) return SQLITE_CONSTRAINT;
        if (given[i] < 0) continue;
        info->aConstraintUsage[given[i]].argvIndex = next++;
        info->aConstraintUsage[given[i]].omit = 1;
        info->idxNum |= i == 0 ? HAS_TEXT : HAS_KIND;
    }
    info->estimatedCost = 10;
    info->estimatedRows = 4;
    if (info->nOrderBy == 1 && info->aOrderBy[0].iColumn == COLUMN_N && !info->aOrderBy[0].desc)
        info->orderByConsumed = 1;
    return SQLITE_OK;
}

static int open_cursor(sqlite3_vtab *table, sqlite3_vtab_cursor **made) {
    cursor *it = sqlite3_malloc(sizeof *it);
    (void)table;
    if (it == NULL) return SQLITE_NOMEM;
    memset(it, 0, sizeof *it);
    *made = &it->base;
    return SQLITE_OK;
}

static int close_cursor(sqlite3_vtab_cursor *base) {
    sqlite3_free(((cursor *)base)->copy);
    sqlite3_free(base);
    return SQLITE_OK;
}

static int next(sqlite3_vtab_cursor *base) {
    cursor *it = (cursor *)base;
    it->n++;
    it->has_pair = uri_next_pair(it->query, &it->position, &it->pair[0], &it->pair[1]);
    return SQLITE_OK;
}

static int at_end(sqlite3_vtab_cursor *base) { return !((cursor *)base)->has_pair; }

static int fail(sqlite3_vtab_cursor *base, char *message) {
    sqlite3_free(base->pVtab->zErrMsg);
    base->pVtab->zErrMsg = message;
    return message ? SQLITE_ERROR : SQLITE_NOMEM;
}

static int filter(sqlite3_vtab_cursor *base, int number, const char *words, int count,
                  sqlite3_value **values) {
    cursor *it = (cursor *)base;
    uri_bytes text, query;
    fluent_uri_parts parts;
    int kind = FLUENT_URI_URI;
    (void)words;
    sqlite3_free(it->copy);
    it->copy = NULL;
    it->n = it->has_pair = 0;
    if (uri_has_null(count, values) || !(number & HAS_TEXT)) return SQLITE_OK;
    if (sqlite3_value_type(values[0]) == SQLITE_BLOB)
        return fail(base, sqlite3_mprintf("%s", URI_NO_BLOB));
    if (number & HAS_KIND) {
        const char *name = (const char *)sqlite3_value_text(values[1]);
        if (name == NULL) return SQLITE_NOMEM;
        kind = uri_number(uri_kinds, URI_KINDS, name, (size_t)sqlite3_value_bytes(values[1]));
        if (kind < 0) return fail(base, sqlite3_mprintf("%s", URI_NO_KIND));
    }
    if ((text.at = sqlite3_value_text(values[0])) == NULL) return SQLITE_NOMEM;
    text.len = (size_t)sqlite3_value_bytes(values[0]);
    if (fluent_uri_parse((uint32_t)kind, text.at, text.len, &parts))
        return fail(base, sqlite3_mprintf("not %s: %s at index %lld", uri_titles[kind],
                                          uri_message(parts.error), (sqlite3_int64)parts.index));
    if (!uri_component(&parts, FLUENT_URI_QUERY, text.at, &query) || query.len == 0)
        return SQLITE_OK;
    if ((it->copy = sqlite3_malloc64(text.len)) == NULL) return SQLITE_NOMEM;
    memcpy(it->copy, text.at, text.len);
    it->text.at = it->copy, it->text.len = text.len;
    it->query.at = it->copy + (query.at - text.at), it->query.len = query.len;
    it->kind = number & HAS_KIND ? uri_kinds[kind] : NULL;
    it->position = 0;
    return next(base);
}

/* The text and the kind are columns with their values: of more conditions than it has bits for,
 * SQLite compares them itself. */
static int column(sqlite3_vtab_cursor *base, sqlite3_context *context, int number) {
    const cursor *it = (const cursor *)base;
    uri_bytes in[2] = {{NULL, 0}, {NULL, 0}};
    if (number == COLUMN_N) sqlite3_result_int64(context, it->n);
    else if (number == COLUMN_NAME || number == COLUMN_VALUE) {
        in[0] = it->pair[number - COLUMN_NAME];
        uri_give(context, URI_DECODE, FLUENT_URI_QUERY, 0, in);
    } else if (number == COLUMN_TEXT)
        sqlite3_result_text64(context, (const char *)it->text.at, it->text.len, SQLITE_TRANSIENT,
                              SQLITE_UTF8);
    else if (it->kind) sqlite3_result_text(context, it->kind, -1, SQLITE_STATIC);
    return SQLITE_OK;
}

static int rowid(sqlite3_vtab_cursor *base, sqlite3_int64 *row) {
    *row = ((cursor *)base)->n;
    return SQLITE_OK;
}

const sqlite3_module uri_query_module = {
    .xConnect = connect, .xBestIndex = plan, .xDisconnect = disconnect, .xOpen = open_cursor,
    .xClose = close_cursor, .xFilter = filter, .xNext = next, .xEof = at_end, .xColumn = column,
    .xRowid = rowid,
};
