#include <sqlite3.h>
#include <stdio.h>
#include <stdlib.h>

#include "../../databases/calls.h"

#define CHECK(it) \
    ((it) ? (void)0 : (fprintf(stderr, "%s:%d: %s\n", __FILE__, __LINE__, #it), exit(1)))

int sqlite3_fluenturi_init(sqlite3 *db, char **message, const void *api);

static inline sqlite3 *opened(const char *name) {
    sqlite3 *db;
    CHECK(sqlite3_open(name, &db) == SQLITE_OK);
    CHECK(sqlite3_fluenturi_init(db, NULL, NULL) == SQLITE_OK);
    return db;
}
