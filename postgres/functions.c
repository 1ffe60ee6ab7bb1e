/* The functions of SQL: components, calls that write a text, texts of any kind, and pairs. */
#include "values.h"

#include "funcapi.h"
#include "lib/stringinfo.h"
#include "mb/pg_wchar.h"
#include "miscadmin.h"
#include "utils/builtins.h"

static const uri_bytes none = {(const uint8_t *) "", 0};

#define REPLACEMENT "\xef\xbf\xbd"

/* ---- Components ---- */

/* Finds a component of a value. Returns false if it is absent. */
static bool component_of(Datum datum, uint32 component, uri_bytes *found) {
    uri_value it;
    fluent_uri_parts parts;

    uri_read_text((struct varlena *) PG_DETOAST_DATUM_PACKED(datum), &it);
    if (uri_parse(it.kind, it.text, &parts) != 0)
        elog(ERROR, "a stored %s is not %s", uri_type_name(it.kind), uri_titles[it.kind]);
    return uri_component(&parts, component, it.text.at, found);
}

#define COMPONENT(NAME, COMPONENT) \
    PG_FUNCTION_INFO_V1(uri_##NAME); \
    Datum uri_##NAME(PG_FUNCTION_ARGS) { \
        uri_bytes found; \
        if (!component_of(PG_GETARG_DATUM(0), COMPONENT, &found)) PG_RETURN_NULL(); \
        PG_RETURN_TEXT_P(uri_text_of(found)); \
    }

COMPONENT(scheme, FLUENT_URI_SCHEME)
COMPONENT(authority, FLUENT_URI_AUTHORITY)
COMPONENT(userinfo, FLUENT_URI_USERINFO)
COMPONENT(host, FLUENT_URI_HOST)
COMPONENT(path, FLUENT_URI_PATH)
COMPONENT(query, FLUENT_URI_QUERY)
COMPONENT(fragment, FLUENT_URI_FRAGMENT)

PG_FUNCTION_INFO_V1(uri_port);
Datum uri_port(PG_FUNCTION_ARGS) {
    uri_bytes found;
    int32 port = -1;

    if (component_of(PG_GETARG_DATUM(0), FLUENT_URI_PORT, &found)) port = uri_port_number(found);
    if (port < 0) PG_RETURN_NULL();
    PG_RETURN_INT32(port);
}

/* ---- Calls that write a text ---- */

/* Makes a call. The result has room for a header before it. Returns NULL and the outcome after an
 * error of the text. */
static text *written(uri_call call, uint32 number, uint32 options, uri_bytes a, uri_bytes b,
                     fluent_uri_outcome *outcome) {
    size_t room = a.len + b.len + 2;

    for (;;) {
        text *made = palloc(VARHDRSZ + room);

        uri_make(call, number, options, a, b, (uint8 *) VARDATA(made), room, outcome);
        uri_check_call(outcome->error);
        if (outcome->error == 0 && outcome->length <= room) {
            SET_VARSIZE(made, VARHDRSZ + outcome->length);
            return made;
        }
        pfree(made);
        if (outcome->error != 0) return NULL;
        room = outcome->length;
    }
}

/* The same of stored values, which have no errors. */
static text *written_of_values(uri_call call, uint32 kind, uint32 options, uri_bytes a,
                               uri_bytes b) {
    fluent_uri_outcome outcome;
    text *made = written(call, kind, options, a, b, &outcome);

    if (made == NULL) elog(ERROR, "a stored value is rejected: %s", uri_message(outcome.error));
    return made;
}

/* The bit of the option that an argument names, or 0 without that argument. */
static uint32 option_of(FunctionCallInfo fcinfo, int number) {
    uri_bytes word;
    int bit;

    if (PG_NARGS() <= number) return 0;
    word = uri_bytes_of(PG_GETARG_TEXT_PP(number));
    bit = uri_number(uri_options, URI_OPTIONS, (const char *) word.at, word.len);
    if (bit < 0)
        ereport(ERROR, (errcode(ERRCODE_INVALID_PARAMETER_VALUE), errmsg("no such option"),
                        errhint("uri_normalize has the option scheme-rules, uri_relativize "
                                "prefer-relative-path, and uri_resolve basic.")));
    return UINT32_C(1) << bit;
}

PG_FUNCTION_INFO_V1(uri_resolve);
Datum uri_resolve(PG_FUNCTION_ARGS) {
    uri_value base;
    uri_bytes reference = URI_GIVEN(1);
    uint32 options = option_of(fcinfo, 2);
    fluent_uri_outcome outcome;
    text *target;

    uri_read_text(URI_VALUE(0), &base);
    target = written(URI_RESOLVE, base.kind, options, base.text, reference, &outcome);
    if (target != NULL) PG_RETURN_POINTER(uri_value_or_error(base.kind, uri_bytes_of(target)));
    if (outcome.error > FLUENT_URI_NOT_UTF8)
        ereport(ERROR, (errcode(ERRCODE_INVALID_PARAMETER_VALUE),
                        errmsg("the reference has no target: %s", uri_message(outcome.error))));
    ereport(ERROR, (errcode(ERRCODE_INVALID_TEXT_REPRESENTATION),
                    errmsg("invalid reference: \"%s\"", uri_shown(reference)),
                    errdetail("Not %s: %s at character %d (index %zu).", uri_titles[base.kind | 1],
                              uri_message(outcome.error),
                              uri_character_at(reference, outcome.index), outcome.index)));
}

/* The normal form of a value under an option. An equivalent text gives the same one, so this takes
 * the normal form without options, which is at hand. */
PG_FUNCTION_INFO_V1(uri_normalize_under);
Datum uri_normalize_under(PG_FUNCTION_ARGS) {
    uri_value it;
    uri_bytes form;
    uint32 options = option_of(fcinfo, 1);

    uri_read(URI_VALUE(0), &it);
    form = uri_bytes_of(written_of_values(URI_NORMALIZE, it.kind, options, it.form, none));
    uri_to_server(form);
    PG_RETURN_POINTER(uri_value_or_error(it.kind, form));
}

PG_FUNCTION_INFO_V1(uri_relativize);
Datum uri_relativize(PG_FUNCTION_ARGS) {
    uri_value base, target;
    uint32 options = option_of(fcinfo, 2);

    uri_read_text(URI_VALUE(0), &base);
    uri_read_text(URI_VALUE(1), &target);
    PG_RETURN_TEXT_P(uri_text_to_server(
        written_of_values(URI_RELATIVIZE, base.kind, options, base.text, target.text)));
}

PG_FUNCTION_INFO_V1(iri_to_uri);
Datum iri_to_uri(PG_FUNCTION_ARGS) {
    uri_value it;
    text *made;

    uri_read_text(URI_VALUE(0), &it);
    made = written_of_values(URI_TO_URI, FLUENT_URI_IRI, 0, it.text, none);
    PG_RETURN_POINTER(uri_value_or_error(FLUENT_URI_URI, uri_bytes_of(made)));
}

/* ---- Texts of any kind ---- */

static uint32 kind_of(text *name) {
    uri_bytes word = uri_bytes_of(name);
    int kind = uri_number(uri_kinds, URI_KINDS, (const char *) word.at, word.len);

    if (kind < 0)
        ereport(ERROR, (errcode(ERRCODE_INVALID_PARAMETER_VALUE), errmsg("no such kind of text"),
                        errhint("The kinds are uri, uri-ref, iri and iri-ref.")));
    return (uint32) kind;
}

PG_FUNCTION_INFO_V1(uri_is);
Datum uri_is(PG_FUNCTION_ARGS) {
    uint32 kind = kind_of(PG_GETARG_TEXT_PP(0));
    uri_bytes given = URI_GIVEN(1);
    fluent_uri_parts parts;

    PG_RETURN_BOOL(uri_parse(kind, given, &parts) == 0);
}

PG_FUNCTION_INFO_V1(uri_error);
Datum uri_error(PG_FUNCTION_ARGS) {
    uri_bytes given = URI_GIVEN(0);
    uint32 kind = kind_of(PG_GETARG_TEXT_PP(1));
    fluent_uri_parts parts;

    if (uri_parse(kind, given, &parts) == 0) PG_RETURN_NULL();
    PG_RETURN_TEXT_P(
        cstring_to_text(psprintf("%s at index %zu", uri_message(parts.error), parts.index)));
}

/* The position of the error in characters, from 1, or 0. */
PG_FUNCTION_INFO_V1(uri_error_position);
Datum uri_error_position(PG_FUNCTION_ARGS) {
    uri_bytes given = URI_GIVEN(0);
    uint32 kind = kind_of(PG_GETARG_TEXT_PP(1));
    fluent_uri_parts parts;

    if (uri_parse(kind, given, &parts) == 0) PG_RETURN_INT32(0);
    PG_RETURN_INT32(uri_character_at(given, parts.index));
}

static Datum mended(FunctionCallInfo fcinfo, uri_call call) {
    uri_bytes given = URI_GIVEN(0);
    uint32 kind = kind_of(PG_GETARG_TEXT_PP(1));
    fluent_uri_outcome outcome;
    text *made = written(call, kind, 0, given, none, &outcome);

    if (made == NULL)
        ereport(ERROR, (errcode(ERRCODE_INVALID_TEXT_REPRESENTATION),
                        errmsg("cannot be mended to %s: \"%s\"", uri_titles[kind],
                               uri_shown(given)),
                        errdetail("The error is: %s at index %zu.", uri_message(outcome.error),
                                  outcome.index)));
    PG_RETURN_TEXT_P(uri_text_to_server(made));
}

PG_FUNCTION_INFO_V1(uri_mend);
Datum uri_mend(PG_FUNCTION_ARGS) { return mended(fcinfo, URI_MEND); }

PG_FUNCTION_INFO_V1(uri_mend_link);
Datum uri_mend_link(PG_FUNCTION_ARGS) { return mended(fcinfo, URI_MEND_LINK); }

PG_FUNCTION_INFO_V1(uri_version);
Datum uri_version(PG_FUNCTION_ARGS) {
    uint32 version = fluent_uri_version();

    PG_RETURN_TEXT_P(cstring_to_text(
        psprintf("%u.%u.%u", version >> 16 & 255, version >> 8 & 255, version & 255)));
}

PG_FUNCTION_INFO_V1(uri_normal_version);
Datum uri_normal_version(PG_FUNCTION_ARGS) { PG_RETURN_INT32((int32)fluent_uri_normal_version()); }

/* ---- Encoding and decoding ---- */

static uint32 component_named(text *name) {
    uri_bytes word = uri_bytes_of(name);
    int component = uri_number(uri_components, URI_COMPONENTS, (const char *) word.at, word.len);

    if (component < 0)
        ereport(ERROR, (errcode(ERRCODE_INVALID_PARAMETER_VALUE), errmsg("no such component"),
                        errhint("The components are userinfo, host, path, query, fragment and, "
                                "to encode, data.")));
    return (uint32) component;
}

PG_FUNCTION_INFO_V1(uri_decode_bytea);
Datum uri_decode_bytea(PG_FUNCTION_ARGS) {
    uint32 component = component_named(PG_GETARG_TEXT_PP(0));
    uri_bytes given = URI_GIVEN(1);
    fluent_uri_outcome outcome;
    text *made = written(URI_DECODE, component, 0, given, none, &outcome);

    if (made == NULL)
        ereport(ERROR, (errcode(ERRCODE_INVALID_TEXT_REPRESENTATION),
                        errmsg("cannot be decoded as %s: \"%s\"", uri_components[component],
                               uri_shown(given)),
                        errdetail("The error is: %s at character %d (index %zu).",
                                  uri_message(outcome.error),
                                  uri_character_at(given, outcome.index), outcome.index)));
    PG_RETURN_BYTEA_P(made);
}

/* The same as a text. Bytes that are not UTF-8, or are NUL, are an error. */
PG_FUNCTION_INFO_V1(uri_decode);
Datum uri_decode(PG_FUNCTION_ARGS) {
    text *made = DatumGetTextPP(uri_decode_bytea(fcinfo));

    pg_verify_mbstr(PG_UTF8, VARDATA_ANY(made), VARSIZE_ANY_EXHDR(made), false);
    PG_RETURN_TEXT_P(uri_text_to_server(made));
}

static text *encoded(text *component, uri_bytes data) {
    return written_of_values(URI_ENCODE, component_named(component), 0, data, none);
}

PG_FUNCTION_INFO_V1(uri_encode);
Datum uri_encode(PG_FUNCTION_ARGS) {
    uri_bytes data = uri_data_from_server(uri_bytes_of(PG_GETARG_TEXT_PP(1)));

    PG_RETURN_TEXT_P(encoded(PG_GETARG_TEXT_PP(0), data));
}

PG_FUNCTION_INFO_V1(uri_encode_bytea);
Datum uri_encode_bytea(PG_FUNCTION_ARGS) {
    PG_RETURN_TEXT_P(encoded(PG_GETARG_TEXT_PP(0), uri_bytes_of(PG_GETARG_BYTEA_PP(1))));
}

/* ---- The pairs of a query ---- */

typedef struct {
    uri_bytes query;
    size_t position;
    int32 n;
} pairs;

/* Adds bytes without NUL. Each one that is not UTF-8 becomes U+FFFD. */
static void add_utf8(StringInfo to, uri_bytes left) {
    for (;;) {
        size_t len = uri_utf8_length(left.at, left.len);

        appendBinaryStringInfo(to, (const char *) left.at, (int) len);
        if (len == left.len) return;
        appendStringInfoString(to, REPLACEMENT);
        left.at += len + 1;
        left.len -= len + 1;
        CHECK_FOR_INTERRUPTS();
    }
}

/* Decodes a name or a value. Each byte that is not UTF-8, and NUL, becomes U+FFFD, and what the
 * server's encoding lacks `?`, so that one row of a crawl does not end a scan. No byte is looked at again for those before it. */
static Datum decoded(uri_bytes encoded) {
    text *made = written_of_values(URI_DECODE, FLUENT_URI_QUERY, 0, encoded, none);
    uri_bytes left = uri_bytes_of(made);
    StringInfoData clean;

    initStringInfo(&clean);
    for (;;) {
        const uint8_t *nul = memchr(left.at, 0, left.len);
        uri_bytes piece = {left.at, nul != NULL ? (size_t) (nul - left.at) : left.len};

        add_utf8(&clean, piece);
        if (nul == NULL) break;
        appendStringInfoString(&clean, REPLACEMENT);
        left.at += piece.len + 1;
        left.len -= piece.len + 1;
        CHECK_FOR_INTERRUPTS();
    }
    left.at = (const uint8_t *) clean.data;
    left.len = clean.len;
    left = uri_to_server_with_stand_ins(left);
    return PointerGetDatum(cstring_to_text_with_len((const char *) left.at, (int) left.len));
}

PG_FUNCTION_INFO_V1(uri_query_pairs);
Datum uri_query_pairs(PG_FUNCTION_ARGS) {
    FuncCallContext *context;
    pairs *it;
    uri_bytes name, value;
    Datum row[3];
    bool nulls[3] = {false, false, false};

    if (SRF_IS_FIRSTCALL()) {
        MemoryContext before;
        uri_bytes found;

        context = SRF_FIRSTCALL_INIT();
        before = MemoryContextSwitchTo(context->multi_call_memory_ctx);
        if (get_call_result_type(fcinfo, NULL, &context->tuple_desc) != TYPEFUNC_COMPOSITE)
            elog(ERROR, "return type must be a row type");
        context->tuple_desc = BlessTupleDesc(context->tuple_desc);
        it = palloc0(sizeof(pairs));
        it->query = none;
        if (component_of(PG_GETARG_DATUM(0), FLUENT_URI_QUERY, &found)) {
            it->query.at = (uint8_t *) pnstrdup((const char *) found.at, found.len);
            it->query.len = found.len;
        }
        context->user_fctx = it;
        MemoryContextSwitchTo(before);
    }
    context = SRF_PERCALL_SETUP();
    it = context->user_fctx;
    if (!uri_next_pair(it->query, &it->position, &name, &value)) SRF_RETURN_DONE(context);
    row[0] = Int32GetDatum(++it->n);
    row[1] = decoded(name);
    row[2] = decoded(value);
    SRF_RETURN_NEXT(context, HeapTupleGetDatum(heap_form_tuple(context->tuple_desc, row, nulls)));
}
