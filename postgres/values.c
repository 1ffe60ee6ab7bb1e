/* Values of the types uri and iri: how they are made of texts, and become texts.
 *
 * The library gets buffers and never calls back, so no error of PostgreSQL jumps over it. It frees
 * what it takes before it returns. */
#include "values.h"

#include "libpq/pqformat.h"
#include "utils/builtins.h"
#include "utils/memutils.h"

PG_MODULE_MAGIC;

void uri_check_call(uint32 error) {
    if (error == FLUENT_URI_OUT_OF_MEMORY)
        ereport(ERROR, (errcode(ERRCODE_OUT_OF_MEMORY), errmsg("out of memory")));
    if (error == FLUENT_URI_INVALID_ARGUMENT)
        ereport(ERROR,
                (errcode(ERRCODE_INVALID_PARAMETER_VALUE), errmsg("%s", uri_message(error))));
}

#define REJECTED(kind, text, outcome) \
    (errcode(ERRCODE_INVALID_TEXT_REPRESENTATION), \
     errmsg("invalid input syntax for type %s: \"%s\"", uri_type_name(kind), uri_shown(text)), \
     errdetail("Not %s: %s at character %d (index %zu).", uri_titles[kind], \
               uri_message((outcome).error), uri_character_at(text, (outcome).index), \
               (outcome).index))

static uint8 head_of(uint32 kind) {
    return URI_FORM_VERSION << URI_VERSION_SHIFT | (kind == FLUENT_URI_IRI ? URI_IS_IRI : 0);
}

/* How many bytes two texts begin with alike. */
static size_t same_at_start(uri_bytes one, uri_bytes other) {
    size_t most = Min(one.len, other.len), len = 0;

    while (len + 8 <= most && memcmp(one.at + len, other.at + len, 8) == 0) len += 8;
    while (len < most && one.at[len] == other.at[len]) len++;
    return len;
}

/* How many bytes two texts end with alike. */
static size_t same_at_end(uri_bytes one, uri_bytes other) {
    const uint8 *one_end = one.at + one.len, *other_end = other.at + other.len;
    size_t most = Min(one.len, other.len), len = 0;

    while (len + 8 <= most && memcmp(one_end - len - 8, other_end - len - 8, 8) == 0) len += 8;
    while (len < most && one_end[-1 - (ptrdiff_t) len] == other_end[-1 - (ptrdiff_t) len]) len++;
    return len;
}

/* Writes what a value has beside a normal form that is not its text. Returns the end. */
static uint8 *write_difference(uint8 *data, uri_bytes form, uri_bytes text) {
    size_t start = same_at_start(form, text);
    uri_bytes form_left = {form.at + start, form.len - start};
    uri_bytes left = {text.at + start, text.len - start};
    size_t end = same_at_end(form_left, left);
    uri_lengths lengths = {(uint32) form.len, (uint32) start, (uint32) end};

    data[0] |= URI_DIFFERS;
    memcpy(data + 1, &lengths, sizeof lengths);
    memcpy(data + URI_FORM_AT + form.len, left.at, left.len - end);
    return data + URI_FORM_AT + form.len + left.len - end;
}

struct varlena *uri_value_of(uint32 kind, uri_bytes text, fluent_uri_outcome *outcome) {
    static const uri_bytes none = {(const uint8_t *) "", 0};
    struct varlena *made;
    uint8 *data, *end;
    size_t room = text.len;
    uri_bytes form;

    for (;;) {
        /* Room for the normal form, and then at most for the text. */
        size_t size = VARHDRSZ + URI_FORM_AT + room + text.len;

        if (size >= MaxAllocSize)
            ereport(ERROR, (errcode(ERRCODE_PROGRAM_LIMIT_EXCEEDED),
                            errmsg("too long for type %s: %zu bytes", uri_type_name(kind),
                                   text.len)));
        made = palloc(size);
        data = (uint8 *) VARDATA(made);
        uri_make(URI_NORMALIZE, kind, 0, text, none, data + URI_FORM_AT, room, outcome);
        if (outcome->error != 0 || outcome->length <= room) break;
        pfree(made);
        room = outcome->length;
    }
    if (outcome->error != 0) {
        pfree(made);
        uri_check_call(outcome->error);
        return NULL;
    }
    form.at = data + URI_FORM_AT;
    form.len = outcome->length;
    data[0] = head_of(kind);
    if (form.len == text.len && memcmp(form.at, text.at, text.len) == 0) {
        memcpy(data + URI_SAME_AT, text.at, text.len);
        end = data + URI_SAME_AT + text.len;
    } else
        end = write_difference(data, form, text);
    SET_VARSIZE(made, end - (uint8 *) made);
    return made;
}

struct varlena *uri_value_or_error(uint32 kind, uri_bytes text) {
    fluent_uri_outcome outcome;
    struct varlena *made = uri_value_of(kind, text, &outcome);

    if (made == NULL) ereport(ERROR, REJECTED(kind, text, outcome));
    return made;
}

struct varlena *uri_value_of_form(uint32 kind, uri_bytes form) {
    struct varlena *made = palloc(VARHDRSZ + URI_SAME_AT + form.len);

    uri_to_server(form);
    SET_VARSIZE(made, VARHDRSZ + URI_SAME_AT + form.len);
    VARDATA(made)[0] = head_of(kind);
    memcpy(VARDATA(made) + URI_SAME_AT, form.at, form.len);
    return made;
}

/* The text of a value that has it beside a normal form. */
static uri_bytes text_beside(const struct varlena *packed) {
    uri_bytes all = uri_bytes_of(packed), text;
    uri_lengths same;
    const uint8 *form = all.at + URI_FORM_AT;
    size_t between;
    uint8 *made;

    memcpy(&same, all.at + 1, sizeof same);
    between = all.len - URI_FORM_AT - same.form;
    text.len = same.same_at_start + between + same.same_at_end;
    text.at = made = palloc(text.len);
    memcpy(made, form, same.same_at_start);
    memcpy(made + same.same_at_start, form + same.form, between);
    memcpy(made + same.same_at_start + between, form + same.form - same.same_at_end,
           same.same_at_end);
    return text;
}

void uri_read_text(const struct varlena *packed, uri_value *it) {
    uri_read(packed, it);
    if (it->differs) it->text = text_beside(packed);
    else {
        it->text = uri_bytes_of(packed);
        it->text.at += URI_SAME_AT;
        it->text.len -= URI_SAME_AT;
    }
}

/* Makes a stale normal form anew. */
void uri_renew(const struct varlena *packed, uri_value *it) {
    uri_bytes text = it->differs ? text_beside(packed) : it->form;
    fluent_uri_outcome outcome;
    uri_value renewed;

    it->renewed = uri_value_of(it->kind, text, &outcome);
    if (it->renewed == NULL)
        elog(ERROR, "a stored %s is not %s", uri_type_name(it->kind), uri_titles[it->kind]);
    uri_read(it->renewed, &renewed);
    it->form = renewed.form;
    if (it->differs) pfree((uint8 *) text.at);
}

/* ---- Input and output ---- */

static Datum input(FunctionCallInfo fcinfo, uint32 kind) {
    char *given = PG_GETARG_CSTRING(0);
    uri_bytes whole = {(const uint8_t *) given, strlen(given)}, text = uri_from_server(whole);
#if PG_VERSION_NUM >= 160000
    fluent_uri_outcome outcome;
    struct varlena *made = uri_value_of(kind, text, &outcome);

    if (made == NULL) ereturn(fcinfo->context, (Datum) 0, REJECTED(kind, text, outcome));
    PG_RETURN_POINTER(made);
#else
    PG_RETURN_POINTER(uri_value_or_error(kind, text));
#endif
}

static Datum receive(FunctionCallInfo fcinfo, uint32 kind) {
    StringInfo buffer = (StringInfo) PG_GETARG_POINTER(0);
    int len;
    char *given = pq_getmsgtext(buffer, buffer->len - buffer->cursor, &len);
    uri_bytes text = {(const uint8_t *) given, (size_t) len};

    PG_RETURN_POINTER(uri_value_or_error(kind, uri_from_server(text)));
}

static Datum from_text(FunctionCallInfo fcinfo, uint32 kind) {
    PG_RETURN_POINTER(uri_value_or_error(kind, URI_GIVEN(0)));
}

static Datum from_text_or_null(FunctionCallInfo fcinfo, uint32 kind) {
    fluent_uri_outcome outcome;
    struct varlena *made = uri_value_of(kind, URI_GIVEN(0), &outcome);

    if (made == NULL) PG_RETURN_NULL();
    PG_RETURN_POINTER(made);
}

#define OF_KINDS(NAME, BODY) \
    PG_FUNCTION_INFO_V1(uri_##NAME); \
    Datum uri_##NAME(PG_FUNCTION_ARGS) { return BODY(fcinfo, FLUENT_URI_URI); } \
    PG_FUNCTION_INFO_V1(iri_##NAME); \
    Datum iri_##NAME(PG_FUNCTION_ARGS) { return BODY(fcinfo, FLUENT_URI_IRI); }

OF_KINDS(in, input)
OF_KINDS(recv, receive)
OF_KINDS(from_text, from_text)
OF_KINDS(or_null, from_text_or_null)

PG_FUNCTION_INFO_V1(uri_out);
Datum uri_out(PG_FUNCTION_ARGS) {
    uri_value it;

    uri_read_text(URI_VALUE(0), &it);
    it.text = uri_to_server(it.text);
    PG_RETURN_CSTRING(pnstrdup((const char *) it.text.at, it.text.len));
}

PG_FUNCTION_INFO_V1(uri_send);
Datum uri_send(PG_FUNCTION_ARGS) {
    uri_value it;
    StringInfoData buffer;

    uri_read_text(URI_VALUE(0), &it);
    it.text = uri_to_server(it.text);
    pq_begintypsend(&buffer);
    pq_sendtext(&buffer, (const char *) it.text.at, (int) it.text.len);
    PG_RETURN_BYTEA_P(pq_endtypsend(&buffer));
}

PG_FUNCTION_INFO_V1(uri_to_text);
Datum uri_to_text(PG_FUNCTION_ARGS) {
    uri_value it;

    uri_read_text(URI_VALUE(0), &it);
    PG_RETURN_TEXT_P(uri_text_of(it.text));
}

/* A URI as an IRI: the text stays, and its normal form may be another. */
PG_FUNCTION_INFO_V1(uri_to_iri);
Datum uri_to_iri(PG_FUNCTION_ARGS) {
    uri_value it;

    uri_read_text(URI_VALUE(0), &it);
    PG_RETURN_POINTER(uri_value_or_error(FLUENT_URI_IRI, it.text));
}

PG_FUNCTION_INFO_V1(uri_normalize);
Datum uri_normalize(PG_FUNCTION_ARGS) {
    uri_value it;

    uri_read(URI_VALUE(0), &it);
    PG_RETURN_POINTER(uri_value_of_form(it.kind, it.form));
}
