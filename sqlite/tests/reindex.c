/* Normal forms change, as with a new version of the library: what docs/DATABASES.md says to do. */
#include "test.h"

static sqlite3 *db;

/* The normal forms of an older version: the texts. */
static void older(sqlite3_context *context, int count, sqlite3_value **values) {
    (void)count;
    sqlite3_result_value(context, values[0]);
}

static int does(const char *sql) { return sqlite3_exec(db, sql, NULL, NULL, NULL); }

static int number(const char *sql) {
    sqlite3_stmt *it;
    int found;
    CHECK(!sqlite3_prepare_v2(db, sql, -1, &it, NULL) && sqlite3_step(it) == SQLITE_ROW);
    found = sqlite3_column_int(it, 0);
    sqlite3_finalize(it);
    return found;
}

#define WHOLE "SELECT integrity_check = 'ok' FROM pragma_integrity_check"

int main(void) {
    db = opened(":memory:");
    CHECK(!sqlite3_create_function_v2(db, "uri_normal", 1, SQLITE_UTF8 | SQLITE_DETERMINISTIC,
                                      NULL, older, NULL, NULL, NULL));
    CHECK(!does("CREATE TABLE links (url TEXT);"
                "CREATE UNIQUE INDEX by_meaning ON links (uri_normal(url));"
                "CREATE TABLE pages (url TEXT, form TEXT AS (uri_normal(url)) STORED UNIQUE);"
                "INSERT INTO links VALUES ('HTTP://a/%7e'), ('HTTP://b'), ('http://0');"
                "INSERT INTO pages (url) SELECT url FROM links"));
    CHECK(number("SELECT count(*) FROM links WHERE uri_normal(url) = 'HTTP://b'") == 1);
    CHECK(sqlite3_fluenturi_init(db, NULL, NULL) == SQLITE_OK);
    CHECK(!does("REINDEX; UPDATE pages SET url = url"));
    CHECK(number("SELECT count(*) FROM links WHERE uri_normal(url) = 'http://a/~'") == 1);
    CHECK(number("SELECT count(*) FROM pages WHERE form = 'http://a/~'") == 1);
    CHECK(number(WHOLE));

    /* Two rows that were different are equivalent now. */
    CHECK(!does("DROP INDEX by_meaning"));
    CHECK(!sqlite3_create_function_v2(db, "uri_normal", 1, SQLITE_UTF8 | SQLITE_DETERMINISTIC,
                                      NULL, older, NULL, NULL, NULL));
    CHECK(!does("CREATE UNIQUE INDEX by_meaning ON links (uri_normal(url));"
                "INSERT INTO links VALUES ('http://B/'), ('http://b/'), ('http://c')"));
    CHECK(sqlite3_fluenturi_init(db, NULL, NULL) == SQLITE_OK);
    CHECK(does("REINDEX") == SQLITE_CONSTRAINT);
    CHECK(number("SELECT count(*) FROM links NOT INDEXED") == 6);
    CHECK(!does("DROP INDEX by_meaning;"
                "DELETE FROM links WHERE rowid NOT IN"
                " (SELECT min(rowid) FROM links GROUP BY uri_normal(url));"
                "CREATE UNIQUE INDEX by_meaning ON links (uri_normal(url))"));
    CHECK(number("SELECT count(*) FROM links") == 5 && number(WHOLE));
    CHECK(sqlite3_close(db) == SQLITE_OK);
    printf("reindex: other normal forms, made anew\n");
    return 0;
}
