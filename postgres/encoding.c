/* Texts in the server's encoding and in UTF-8. The library reads UTF-8, and values hold it. */
#include "values.h"

#include "catalog/namespace.h"
#include "lib/stringinfo.h"
#include "mb/pg_wchar.h"
#include "miscadmin.h"
#include "utils/builtins.h"

/* No text of UTF-8 has this byte, so the library rejects a text at it. */
#define NOT_UTF8 '\xff'

/* Whether bytes are the same in UTF-8: all are in a database of UTF8, and in one of SQL_ASCII, which
 * knows no characters. The other encodings of servers have ASCII alone in common with it. */
static bool are_utf8_bytes(uri_bytes bytes) {
    int encoding = GetDatabaseEncoding();

    if (encoding == PG_UTF8 || encoding == PG_SQL_ASCII) return true;
    for (size_t i = 0; i < bytes.len; i++)
        if (IS_HIGHBIT_SET(bytes.at[i])) return false;
    return true;
}

static Oid conversion(int from, int to) {
    Oid made = FindDefaultConversionProc(from, to);

    if (!OidIsValid(made))
        ereport(ERROR, (errcode(ERRCODE_UNDEFINED_FUNCTION),
                        errmsg("there is no conversion from encoding \"%s\" to \"%s\"",
                               pg_encoding_to_char(from), pg_encoding_to_char(to))));
    return made;
}

/* Adds a text in another encoding, up to the first character that this lacks. Returns how many bytes
 * of the text that is. */
static size_t add_converted(StringInfo to, Oid by, int from, int into, uri_bytes text) {
    enum { PIECE = 4096 };
    char piece[PIECE * MAX_CONVERSION_GROWTH + 1];
    size_t done = 0;

    while (done < text.len) {
        int len = pg_do_encoding_conversion_buf(by, from, into, (unsigned char *) text.at + done,
                                                (int) Min(PIECE, text.len - done),
                                                (unsigned char *) piece, sizeof piece, true);

        if (len == 0) break;
        appendStringInfoString(to, piece);
        done += len;
        CHECK_FOR_INTERRUPTS();
    }
    return done;
}

static uri_bytes bytes_in(StringInfo it) {
    uri_bytes made = {(const uint8_t *) it->data, (size_t) it->len};

    return made;
}

uri_bytes uri_from_server(uri_bytes text) {
    int encoding = GetDatabaseEncoding();
    StringInfoData made;

    if (are_utf8_bytes(text)) return text;
    initStringInfo(&made);
    if (add_converted(&made, conversion(encoding, PG_UTF8), encoding, PG_UTF8, text) < text.len)
        appendStringInfoChar(&made, NOT_UTF8);
    return bytes_in(&made);
}

uri_bytes uri_data_from_server(uri_bytes text) {
    uri_bytes made = text;

    if (are_utf8_bytes(text)) return text;
    made.at = (uint8_t *) pg_server_to_any((const char *) text.at, (int) text.len, PG_UTF8);
    made.len = strlen((const char *) made.at);
    return made;
}

uri_bytes uri_to_server(uri_bytes text) {
    uri_bytes made = text;

    if (are_utf8_bytes(text)) return text;
    made.at = (uint8_t *) pg_any_to_server((const char *) text.at, (int) text.len, PG_UTF8);
    made.len = strlen((const char *) made.at);
    return made;
}

uri_bytes uri_to_server_with_stand_ins(uri_bytes text) {
    int encoding = GetDatabaseEncoding();
    StringInfoData made;
    Oid by;

    if (are_utf8_bytes(text)) return text;
    by = conversion(PG_UTF8, encoding);
    initStringInfo(&made);
    for (;;) {
        size_t done = add_converted(&made, by, PG_UTF8, encoding, text);

        text.at += done;
        text.len -= done;
        if (text.len == 0) return bytes_in(&made);
        done = Min((size_t) pg_utf_mblen(text.at), text.len);
        appendStringInfoChar(&made, '?');
        text.at += done;
        text.len -= done;
    }
}

text *uri_text_of(uri_bytes bytes) {
    bytes = uri_to_server(bytes);
    return cstring_to_text_with_len((const char *) bytes.at, (int) bytes.len);
}

text *uri_text_to_server(text *it) {
    uri_bytes bytes = uri_bytes_of(it);

    return are_utf8_bytes(bytes) ? it : uri_text_of(bytes);
}

int uri_character_at(uri_bytes text, size_t index) {
    int before = 0;

    if (GetDatabaseEncoding() == PG_SQL_ASCII) return (int) index + 1;
    for (size_t i = 0; i < index; i++) before += (text.at[i] & 0xC0) != 0x80;
    return before + 1;
}

char *uri_shown(uri_bytes text) {
    enum { MOST = 200 };
    const char *at;
    char *made;
    int kept;

    /* No character is more than four bytes. */
    text.len = Min(text.len, 4 * MOST + 8);
    text = uri_to_server_with_stand_ins(text);
    at = (const char *) text.at;
    kept = (int) text.len;
    if (text.len > MOST) kept = pg_mbcliplen(at, (int) Min(text.len, MOST + 8), MOST);
    made = palloc(kept + 4);
    memcpy(made, at, kept);
    strcpy(made + kept, (size_t) kept < text.len ? "..." : "");
    return made;
}
