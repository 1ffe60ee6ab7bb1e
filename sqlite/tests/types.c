/* Each function with arguments of every type, in each number: it gives a result or an error, and
 * NULL if an argument is NULL. */
#include "test.h"

static const char *const values[] = {
    "NULL", "5", "-1.5", "''", "'uri'", "'HTTP://a/%7e'", "x''", "x'ff00'", "'path'",
    "char(0)", "zeroblob(2000)", "replace(hex(zeroblob(1000)), '0', '/%7e')",
};
enum { VALUES = sizeof values / sizeof *values, MOST = 4 };
static long rows, nulls, errors;

/* Runs NAME with the COUNT arguments that the digits of WHICH, to the base VALUES, number. */
static void try(sqlite3 *db, const char *form, const char *name, int count, long which) {
    char sql[1000];
    int length = sprintf(sql, form, name), has_null = 0, status;
    sqlite3_stmt *it;
    for (int i = 0; i < count; i++, which /= VALUES) {
        has_null |= which % VALUES == 0;
        length += sprintf(sql + length, "%s%s", i ? ", " : "", values[which % VALUES]);
    }
    strcpy(sql + length, ")");
    if (sqlite3_prepare_v2(db, sql, -1, &it, NULL) != SQLITE_OK) {
        /* No such number of arguments. */
        CHECK(strstr(sqlite3_errmsg(db), "arguments"));
        return;
    }
    status = sqlite3_step(it);
    CHECK(status == SQLITE_ROW || status == SQLITE_ERROR || status == SQLITE_DONE);
    if (has_null)
        CHECK(status == SQLITE_DONE ||
              (status == SQLITE_ROW && sqlite3_column_type(it, 0) == SQLITE_NULL));
    rows += status == SQLITE_ROW, errors += status == SQLITE_ERROR, nulls += has_null;
    sqlite3_finalize(it);
}

int main(void) {
    sqlite3 *db = opened(":memory:");
    sqlite3_stmt *names;
    int tried = 0;
    CHECK(!sqlite3_prepare_v2(db, "SELECT DISTINCT name FROM pragma_function_list"
                                  " WHERE name GLOB '[ui]ri_*'",
                              -1, &names, NULL));
    for (; sqlite3_step(names) == SQLITE_ROW; tried++) {
        const char *name = (const char *)sqlite3_column_text(names, 0);
        long all = 1;
        for (int count = 0; count <= MOST; count++, all *= VALUES)
            for (long which = 0; which < all; which++) {
                try(db, "SELECT %s(", name, count, which);
                if (count > 2 && sqlite3_errcode(db) == SQLITE_ERROR &&
                    strstr(sqlite3_errmsg(db), "arguments"))
                    break;
            }
    }
    /* The table: an argument too many is an error, and too few give no row. */
    for (int count = 0, all = 1; count <= 3; count++, all *= VALUES)
        for (long which = 0; which < all; which++)
            try(db, "SELECT name FROM %s(", "uri_query", count, which);
    sqlite3_finalize(names);
    CHECK(sqlite3_close(db) == SQLITE_OK);
    CHECK(tried == 22);
    printf("types: %d functions, %ld results, %ld errors, %ld with NULL\n", tried, rows, errors,
           nulls);
    return 0;
}
