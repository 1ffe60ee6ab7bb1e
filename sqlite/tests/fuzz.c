/* Random texts through each SQL function: what it gives is what the library gives. A collation is
 * an order. usage: fuzz [COUNT [SEED]] */
#include "test.h"

#include "../../databases/random_texts.h"

enum { TEXTS = 16, ROOM = 4096, PARTS = 8 };
static sqlite3 *db;
static uint8_t out[20 * ROOM];

static sqlite3_stmt *prepared(const char *sql) {
    sqlite3_stmt *it;
    CHECK(sqlite3_prepare_v2(db, sql, -1, &it, NULL) == SQLITE_OK);
    return it;
}

typedef uri_bytes text;

/* Runs a statement over ?1, ?2 and the kind ?3. */
static int run(sqlite3_stmt *it, text a, text b, uint32_t kind) {
    int error;
    sqlite3_reset(it);
    sqlite3_bind_text64(it, 1, (const char *)a.at, a.len, SQLITE_STATIC, SQLITE_UTF8);
    if (sqlite3_bind_parameter_count(it) > 1)
        sqlite3_bind_text64(it, 2, (const char *)b.at, b.len, SQLITE_STATIC, SQLITE_UTF8);
    if (sqlite3_bind_parameter_count(it) > 2)
        sqlite3_bind_text(it, 3, uri_kinds[kind], -1, SQLITE_STATIC);
    error = sqlite3_step(it);
    CHECK(error == SQLITE_ROW || error == SQLITE_ERROR || error == SQLITE_DONE);
    return error;
}

/* Whether the statement gave the LEN bytes of the library, or its error. */
static void same(sqlite3_stmt *it, int status, uint32_t error, const uint8_t *bytes, size_t len) {
    CHECK((status == SQLITE_ROW) == (error == 0));
    if (error) return;
    CHECK((size_t)sqlite3_column_bytes(it, 0) == len);
    CHECK(len == 0 || memcmp(sqlite3_column_blob(it, 0), bytes, len) == 0);
}

static void same_parts(sqlite3_stmt **statements, text a, text b, uint32_t kind) {
    fluent_uri_parts parts;
    uint32_t error = fluent_uri_parse(kind, a.at, a.len, &parts);
    const fluent_uri_span spans[PARTS] = {parts.userinfo, parts.host,     parts.path,
                                          parts.query,    parts.fragment, parts.scheme,
                                          parts.authority, parts.port};
    for (int i = 0; i < PARTS; i++) {
        int status = run(statements[i], a, b, kind);
        CHECK((status == SQLITE_ROW) == (error == 0));
        if (error) continue;
        if (i == FLUENT_URI_PORT) {
            /* A number whose digits are those of the text, but for zeros before them. */
            size_t start = spans[i].start, len;
            const char *digits = (const char *)sqlite3_column_text(statements[i], 0);
            if (digits == NULL) continue;
            CHECK(start != SIZE_MAX && start < spans[i].end);
            while (a.at[start] == '0' && start + 1 < spans[i].end) start++;
            len = spans[i].end - start;
            CHECK(strlen(digits) == len && memcmp(digits, a.at + start, len) == 0);
            continue;
        }
        if (spans[i].start == SIZE_MAX)
            CHECK(sqlite3_column_type(statements[i], 0) == SQLITE_NULL);
        else
            same(statements[i], status, 0, a.at + spans[i].start, spans[i].end - spans[i].start);
    }
}

/* The collation is an order of any three texts. */
static void ordered(sqlite3_stmt *less, text a, text b, text c) {
    const text pairs[4][2] = {{a, b}, {b, c}, {a, c}, {b, a}};
    int before[4], equal[4];
    for (int i = 0; i < 4; i++) {
        run(less, pairs[i][0], pairs[i][1], 0);
        before[i] = sqlite3_column_int(less, 0), equal[i] = sqlite3_column_int(less, 1);
        CHECK(before[i] + equal[i] < 2);
    }
    if ((before[0] || equal[0]) && (before[1] || equal[1])) {
        CHECK(before[2] || equal[2]);
        CHECK(equal[2] == (equal[0] && equal[1]));
    }
    CHECK(equal[3] == equal[0] && equal[0] + before[0] + before[3] == 1);
}

/* Of all texts, those in a unique column that compares by normal form are as many as their normal
 * forms, and in their order. */
static void unique(sqlite3_stmt *kept, sqlite3_stmt *form, text it) {
    CHECK(run(kept, it, it, 0) == SQLITE_DONE);
    CHECK(run(form, it, it, 0) == SQLITE_DONE);
}

static void ends_unique(void) {
    static const char sql[] =
        "WITH keys AS (SELECT uri_is('uri', t) AS is_uri, CASE WHEN uri_is('uri', t) THEN"
        " uri_normal(t) ELSE t END AS form, row_number() OVER (ORDER BY t COLLATE URI) AS n"
        " FROM kept), ranks AS (SELECT n, row_number() OVER (ORDER BY NOT is_uri, form"
        " COLLATE BINARY) AS m FROM keys) SELECT (SELECT count(*) FROM kept)"
        " = (SELECT count(*) FROM forms) AND NOT EXISTS (SELECT 1 FROM ranks WHERE n <> m),"
        " (SELECT integrity_check FROM pragma_integrity_check)";
    sqlite3_stmt *it = prepared(sql);
    CHECK(sqlite3_step(it) == SQLITE_ROW && sqlite3_column_int(it, 0) == 1);
    CHECK(strcmp((const char *)sqlite3_column_text(it, 1), "ok") == 0);
    sqlite3_finalize(it);
}

int main(int count, char **words) {
    static uint8_t texts[TEXTS][ROOM];
    size_t lens[TEXTS] = {0};
    long rounds = count > 1 ? atol(words[1]) : 100000, accepted = 0, pairs = 0;
    fluent_uri_outcome outcome;
    fluent_uri_parts parts;
    sqlite3_stmt *is, *normal, *resolve, *resolve_normal, *relativize, *decode, *encode, *ascii;
    sqlite3_stmt *mend, *mend_link, *position, *query, *less, *kept, *form, *part[PARTS];
    seed_dice(count > 2 ? strtoull(words[2], NULL, 10) : 1);
    db = opened(":memory:");
    is = prepared("SELECT uri_is(?3, ?1), ?2");
    normal = prepared("SELECT uri_normal(?1, ?3), ?2");
    resolve = prepared("SELECT uri_resolve(?1, ?2, ?3)");
    resolve_normal = prepared("SELECT uri_resolve_normal(?1, ?2, ?3)");
    relativize = prepared("SELECT uri_relativize(?1, ?2, ?3)");
    decode = prepared("SELECT uri_decode('path', ?1)");
    encode = prepared("SELECT uri_encode('path', ?1)");
    ascii = prepared("SELECT iri_to_uri(?1, ?3), ?2");
    mend = prepared("SELECT uri_mend(?1, ?3), ?2");
    mend_link = prepared("SELECT uri_mend_link(?1, ?3), ?2");
    position = prepared("SELECT uri_error_position(?1, ?3), ?2");
    query = prepared("SELECT name, value, ?2 FROM uri_query(?1, ?3)");
    less = prepared("SELECT ?1 < ?2 COLLATE URI, ?1 = ?2 COLLATE URI");
    CHECK(!sqlite3_exec(db, "CREATE TABLE kept (t TEXT COLLATE URI UNIQUE);"
                            "CREATE TABLE forms (is_uri, form TEXT, UNIQUE (is_uri, form))",
                        NULL, NULL, NULL));
    kept = prepared("INSERT OR IGNORE INTO kept SELECT ?1 WHERE ?2 IS NOT NULL");
    form = prepared("INSERT OR IGNORE INTO forms SELECT uri_is('uri', ?1), CASE WHEN"
                    " uri_is('uri', ?1) THEN uri_normal(?1) ELSE ?2 END");
    for (int i = 0; i < PARTS; i++) {
        char sql[100];
        sprintf(sql, "SELECT uri_%s(?1, ?3), ?2", uri_components[i]);
        part[i] = prepared(sql);
    }
    for (long round = 0; round < rounds; round++) {
        int at = (int)(round % TEXTS), step;
        uint32_t kind = dice(4), base = kind & 2, error;
        text a, b = {texts[(at + 1) % TEXTS], lens[(at + 1) % TEXTS]};
        text c = {texts[(at + 2) % TEXTS], lens[(at + 2) % TEXTS]};
        a.at = texts[at], a.len = lens[at] = random_text(texts[at], ROOM, 0);
        error = fluent_uri_parse(kind, a.at, a.len, &parts);
        CHECK(run(is, a, b, kind) == SQLITE_ROW);
        CHECK(sqlite3_column_int(is, 0) == (error == 0));
        accepted += error == 0;
        CHECK(run(position, a, b, kind) == SQLITE_ROW);
        CHECK((sqlite3_column_int64(position, 0) == 0) == (error == 0));
        CHECK(sqlite3_column_int64(position, 0) <= (sqlite3_int64)parts.index + 1);
        same_parts(part, a, b, kind);
        step = run(query, a, b, kind);
        CHECK((step == SQLITE_ERROR) == (error != 0));
        for (; step == SQLITE_ROW; pairs++) step = sqlite3_step(query);
        CHECK(error || step == SQLITE_DONE);
#define SAME(CALL, NUMBER, STATEMENT) \
    (error = uri_write(CALL, NUMBER, 0, a, b, out, sizeof out, &outcome), \
     same(STATEMENT, run(STATEMENT, a, b, (NUMBER)), error, out, outcome.length))
        SAME(URI_NORMALIZE, kind, normal);
        SAME(URI_RESOLVE, base, resolve);
        SAME(URI_RESOLVE_NORMALIZED, base, resolve_normal);
        SAME(URI_RELATIVIZE, base, relativize);
        SAME(URI_TO_URI, kind | 2, ascii);
        SAME(URI_MEND, kind, mend);
        SAME(URI_MEND_LINK, kind, mend_link);
        SAME(URI_DECODE, FLUENT_URI_PATH, decode);
        SAME(URI_ENCODE, FLUENT_URI_PATH, encode);
        ordered(less, a, b, c);
        unique(kept, form, a);
    }
    ends_unique();
    printf("fuzz: %ld texts, %ld of their kind, %ld pairs\n", rounds, accepted, pairs);
    return 0;
}
