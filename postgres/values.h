/* Values of the types uri and iri, and what the files of the extension share. */
#ifndef FLUENT_URI_POSTGRES_VALUES_H
#define FLUENT_URI_POSTGRES_VALUES_H
#include "postgres.h"

#include "fmgr.h"
#if PG_VERSION_NUM >= 160000
#include "varatt.h"
#endif

#include "../databases/calls.h"

/* The version of the library's normal forms. Values of an older one compare by a form that is made
 * anew, and indexes need REINDEX (docs/DATABASES.md). It has six bits of the head. (A test sets
 * another.) */
#ifndef URI_FORM_VERSION
#define URI_FORM_VERSION FLUENT_URI_NORMAL_VERSION
#endif

/* A value is a varlena: a head, and then the text if it is its own normal form. Else three lengths,
 * the normal form, and what the text has in place of some bytes of that: those after the first
 * SAME_AT_START and before the last SAME_AT_END. So a comparison calls no library, and what both
 * have is stored once. Both are in UTF-8, whatever the server's encoding is: the order is the same
 * in each, and the normal form may have characters that the server's encoding lacks. */
enum { URI_DIFFERS = 1, URI_IS_IRI = 2, URI_VERSION_SHIFT = 2 };
typedef struct {
    uint32 form, same_at_start, same_at_end;
} uri_lengths;
enum { URI_SAME_AT = 1, URI_FORM_AT = 1 + sizeof(uri_lengths) };

typedef struct {
    uint32 kind;
    bool differs;            /* whether the text is not its own normal form */
    uri_bytes form, text;    /* the normal form; the text, after uri_read_text */
    struct varlena *renewed; /* has the normal form where that of the value is stale */
} uri_value;

#define URI_VALUE(N) ((struct varlena *) PG_DETOAST_DATUM_PACKED(PG_GETARG_DATUM(N)))

/* The bytes of a text that is an argument, for the library. */
#define URI_GIVEN(N) uri_from_server(uri_bytes_of(PG_GETARG_TEXT_PP(N)))

/* The bytes of a text, a bytea or a value, as they are. */
static inline uri_bytes uri_bytes_of(const void *packed) {
    uri_bytes made = {(const uint8_t *) VARDATA_ANY(packed), VARSIZE_ANY_EXHDR(packed)};

    return made;
}

static inline const char *uri_type_name(uint32 kind) {
    return kind == FLUENT_URI_IRI ? "iri" : "uri";
}

extern void uri_renew(const struct varlena *packed, uri_value *it);

/* Reads the normal form of a value. What compares many values calls uri_release after it. */
static inline void uri_read(const struct varlena *packed, uri_value *it) {
    uri_bytes all = uri_bytes_of(packed);
    uint8 head = all.at[0];

    it->renewed = NULL;
    it->kind = head & URI_IS_IRI ? FLUENT_URI_IRI : FLUENT_URI_URI;
    it->differs = (head & URI_DIFFERS) != 0;
    it->form.at = all.at + (it->differs ? URI_FORM_AT : URI_SAME_AT);
    it->form.len = all.len - URI_SAME_AT;
    if (it->differs) {
        uri_lengths lengths;

        memcpy(&lengths, all.at + 1, sizeof lengths);
        it->form.len = lengths.form;
    }
    if (unlikely(head >> URI_VERSION_SHIFT != URI_FORM_VERSION)) uri_renew(packed, it);
}

/* Reads the text of a value too. It is a copy where it differs from the normal form. */
extern void uri_read_text(const struct varlena *packed, uri_value *it);

static inline void uri_release(uri_value *it) {
    if (unlikely(it->renewed != NULL)) pfree(it->renewed);
}

/* Raises the errors that say nothing of the text. */
extern void uri_check_call(uint32 error);

/* ---- encoding.c: what leaves it for the library is UTF-8, and what leaves it for the server is in
 * the server's encoding. In a database of SQL_ASCII bytes stay as they are. ---- */

/* A text of the server. A character that Unicode lacks becomes a byte that is not UTF-8, and ends
 * the text, so that the library rejects it there. */
extern uri_bytes uri_from_server(uri_bytes text);

/* The same of a text that no call rejects. Such a character is an error. */
extern uri_bytes uri_data_from_server(uri_bytes text);

/* A text for the server. A character that its encoding lacks is an error. */
extern uri_bytes uri_to_server(uri_bytes text);

/* The same, with `?` for each character that its encoding lacks. */
extern uri_bytes uri_to_server_with_stand_ins(uri_bytes text);

/* The same as uri_to_server, of and as a value of the type text. */
extern text *uri_text_of(uri_bytes bytes);
extern text *uri_text_to_server(text *it);

/* The character of a byte, from 1. In a database of SQL_ASCII each byte is one. */
extern int uri_character_at(uri_bytes text, size_t index);

/* A text for a message, cut, and in the server's encoding. */
extern char *uri_shown(uri_bytes text);

/* ---- long_calls.c ---- */

/* The same as uri_write and fluent_uri_parse. A statement that is cancelled does not wait for them. */
extern void uri_make(uri_call call, uint32 number, uint32 options, uri_bytes a, uri_bytes b,
                     uint8 *out, size_t room, fluent_uri_outcome *outcome);
extern uint32 uri_parse(uint32 kind, uri_bytes text, fluent_uri_parts *parts);

/* ---- values.c ---- */

/* Makes a value of a text. Returns NULL and the outcome if the text is not of the kind. */
extern struct varlena *uri_value_of(uint32 kind, uri_bytes text, fluent_uri_outcome *outcome);

/* The same, or an error. */
extern struct varlena *uri_value_or_error(uint32 kind, uri_bytes text);

/* Makes a value of a normal form. A character that the server's encoding lacks is an error, so that
 * each value that is stored can be read. */
extern struct varlena *uri_value_of_form(uint32 kind, uri_bytes form);
#endif
