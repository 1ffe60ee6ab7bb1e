/* Each request for memory is denied in turn, of SQLite, of the extension and of the library: malloc
 * and realloc of this file are those of all three. A statement then fails by SQLITE_NOMEM or gives
 * what it gives with memory, and all memory is freed. */
#define _GNU_SOURCE
#include "test.h"
#include <errno.h>

extern void *__libc_malloc(size_t);
extern void *__libc_realloc(void *, size_t);
extern void __libc_free(void *);
static long left = -1, asked, live;

static int is_denied(void) {
    asked++;
    return left >= 0 && left-- == 0;
}

void *malloc(size_t size) {
    void *made = is_denied() ? (errno = ENOMEM, NULL) : __libc_malloc(size);
    live += made != NULL;
    return made;
}

void *realloc(void *old, size_t size) {
    void *made = is_denied() ? (errno = ENOMEM, NULL) : __libc_realloc(old, size);
    live += old == NULL && made != NULL;
    return made;
}

void free(void *old) {
    live -= old != NULL;
    __libc_free(old);
}

static const char *const statements[] = {
    "SELECT uri_normal('HTTP://A:80/%7e/./' || replace(hex(zeroblob(1000)), '0', 'a'))",
    "SELECT iri_to_uri('x:' || replace(hex(zeroblob(1000)), '0', 'é'))",
    "SELECT uri_resolve('http://a/b', '../%7e'), uri_resolve_normal('http://a', '%7e')",
    "SELECT uri_relativize('http://a/b', 'http://a/c'), uri_error('a b'), uri_is('uri', 'x:')",
    "SELECT uri_encode('data', x'ff00'), uri_decode('path', '%ff'), uri_host('http://a')",
    "SELECT group_concat(name || value) FROM uri_query('x:?a=%41&b=%20&c')",
    "INSERT INTO links VALUES ('HTTP://A/%7e') ON CONFLICT (uri_normal(url)) DO UPDATE"
    " SET url = excluded.url RETURNING url",
    "SELECT uri_mend('http://a/ b?[' || replace(hex(zeroblob(500)), '0', ' ')), uri_version()",
    "SELECT uri_mend_link(' a' || char(10) || 'b '), uri_normal('a b')",
    "SELECT uri_normal('a b')",
    /* A column that compares by normal form. */
    "INSERT INTO keys VALUES ('http://b'), ('HTTP://A:80/%7E') ON CONFLICT DO NOTHING"
    " RETURNING url",
    "SELECT count(*) FROM keys WHERE url = 'http://a/' || replace(hex(zeroblob(500)), '0', '%7e')",
};

/* Runs a statement, and returns its last row, or its error, as text. */
static int run(sqlite3 *db, const char *sql, char *row, size_t room) {
    sqlite3_stmt *statement = NULL;
    int error = sqlite3_prepare_v2(db, sql, -1, &statement, NULL);
    *row = 0;
    while (error == SQLITE_OK || error == SQLITE_ROW) {
        error = sqlite3_step(statement);
        if (error != SQLITE_ROW) break;
        *row = 0;
        for (int i = 0; i < sqlite3_column_count(statement); i++) {
            const void *at = sqlite3_column_blob(statement, i);
            int size = sqlite3_column_bytes(statement, i);
            if (at == NULL && sqlite3_errcode(db) == SQLITE_NOMEM) {
                sqlite3_finalize(statement);
                return SQLITE_NOMEM;
            }
            snprintf(row + strlen(row), room - strlen(row), "%.*s|", size, at ? (char *)at : "");
        }
    }
    sqlite3_finalize(statement);
    return error;
}

int main(void) {
    static char expected[8192], row[8192], checked[64];
    static const char of_each_key[] =
        "SELECT count(*) = count(DISTINCT CASE WHEN uri_is('uri', url) THEN uri_normal(url)"
        " ELSE url END) FROM keys";
    long denied = 0, whole = 0, in_statement = 0, before;
    sqlite3_config(SQLITE_CONFIG_LOOKASIDE, 0, 0);
    sqlite3_initialize();
    before = live;
    for (size_t i = 0; i < sizeof statements / sizeof *statements; i++) {
        long requests = 1;
        int given = 0;
        for (long at = -1; at < requests; at++) {
            sqlite3 *db = opened(":memory:");
            int error;
            CHECK(!sqlite3_exec(db, "CREATE TABLE links (url);"
                                    "INSERT INTO links VALUES ('http://a/~');"
                                    "CREATE UNIQUE INDEX of_links ON links (uri_normal(url));"
                                    "CREATE TABLE keys (url TEXT COLLATE URI UNIQUE);"
                                    "INSERT INTO keys VALUES ('http://a/~'), ('a b')",
                                NULL, NULL, NULL));
            asked = 0, left = at;
            error = run(db, statements[i], at < 0 ? expected : row, sizeof row);
            in_statement = asked, left = -1;
            CHECK(run(db, "PRAGMA integrity_check", checked, sizeof checked) == SQLITE_DONE);
            CHECK(strcmp(checked, "ok|") == 0);
            CHECK(run(db, of_each_key, checked, sizeof checked) == SQLITE_DONE);
            CHECK(strcmp(checked, "1|") == 0);
            if (at < 0) requests = in_statement, given = error;
            else if (error == SQLITE_NOMEM) denied++;
            else {
                CHECK(error == given && strcmp(row, expected) == 0);
                whole++;
            }
            CHECK(sqlite3_close(db) == SQLITE_OK);
            CHECK(live == before);
        }
    }
    printf("memory: %ld denied requests are SQLITE_NOMEM, %ld are made good\n", denied, whole);
    return 0;
}
