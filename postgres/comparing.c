/* Values compare, hash and sort by the bytes of their normal forms. */
#include "values.h"

#include "common/hashfn.h"
#include "lib/hyperloglog.h"
#include "utils/sortsupport.h"

static int compare_values(const struct varlena *a, const struct varlena *b) {
    uri_value one, other;
    int order;

    uri_read(a, &one);
    uri_read(b, &other);
    order = memcmp(one.form.at, other.form.at, Min(one.form.len, other.form.len));
    if (order == 0) order = (one.form.len > other.form.len) - (one.form.len < other.form.len);
    uri_release(&one);
    uri_release(&other);
    return order < 0 ? -1 : order > 0;
}

static int compare_arguments(FunctionCallInfo fcinfo) {
    struct varlena *a = URI_VALUE(0), *b = URI_VALUE(1);
    int order = compare_values(a, b);

    PG_FREE_IF_COPY(a, 0);
    PG_FREE_IF_COPY(b, 1);
    return order;
}

#define COMPARISON(NAME, RETURNED) \
    PG_FUNCTION_INFO_V1(uri_##NAME); \
    Datum uri_##NAME(PG_FUNCTION_ARGS) { int order = compare_arguments(fcinfo); RETURNED; }

COMPARISON(cmp, PG_RETURN_INT32(order))
COMPARISON(eq, PG_RETURN_BOOL(order == 0))
COMPARISON(ne, PG_RETURN_BOOL(order != 0))
COMPARISON(lt, PG_RETURN_BOOL(order < 0))
COMPARISON(le, PG_RETURN_BOOL(order <= 0))
COMPARISON(gt, PG_RETURN_BOOL(order > 0))
COMPARISON(ge, PG_RETURN_BOOL(order >= 0))
COMPARISON(smaller, PG_RETURN_DATUM(PG_GETARG_DATUM(order <= 0 ? 0 : 1)))
COMPARISON(larger, PG_RETURN_DATUM(PG_GETARG_DATUM(order >= 0 ? 0 : 1)))

PG_FUNCTION_INFO_V1(uri_hash);
Datum uri_hash(PG_FUNCTION_ARGS) {
    struct varlena *packed = URI_VALUE(0);
    uri_value it;
    Datum hash;

    uri_read(packed, &it);
    hash = hash_any(it.form.at, (int) it.form.len);
    uri_release(&it);
    PG_FREE_IF_COPY(packed, 0);
    return hash;
}

PG_FUNCTION_INFO_V1(uri_hash_extended);
Datum uri_hash_extended(PG_FUNCTION_ARGS) {
    struct varlena *packed = URI_VALUE(0);
    uri_value it;
    Datum hash;

    uri_read(packed, &it);
    hash = hash_any_extended(it.form.at, (int) it.form.len, PG_GETARG_INT64(1));
    uri_release(&it);
    PG_FREE_IF_COPY(packed, 0);
    return hash;
}

/* ---- Sorting ---- */

static int sort_compare(Datum a, Datum b, SortSupport ssup) {
    struct varlena *one = (struct varlena *) PG_DETOAST_DATUM_PACKED(a);
    struct varlena *other = (struct varlena *) PG_DETOAST_DATUM_PACKED(b);
    int order = compare_values(one, other);

    if ((Pointer) one != DatumGetPointer(a)) pfree(one);
    if ((Pointer) other != DatumGetPointer(b)) pfree(other);
    return order;
}

#if SIZEOF_DATUM == 8

typedef struct {
    int64 count;
    bool estimating;
    hyperLogLogState distinct;
} sorting;

/* How a form begins: below, at or above a prefix. */
static int begins(const uint8 *at, size_t len, const char *prefix, size_t prefix_len) {
    int order = memcmp(at, prefix, Min(len, prefix_len));

    return order != 0 ? order : len < prefix_len ? -1 : 0;
}

/* The first eight bytes of most URIs are `https://`. So the key begins with a number: of the range,
 * in the order of forms, that the form is in. All forms of a range begin alike, and the seven bytes
 * after that follow. So keys are in the order of their forms. */
static Datum key_of(uri_bytes form) {
    static const struct {
        const char *text;
        size_t len;
    } prefixes[] = {{"http://", 7}, {"https://", 8}};
    uint64 key = 0;
    size_t skipped = 0;

    for (size_t i = 0; i < lengthof(prefixes); i++) {
        int order = begins(form.at, form.len, prefixes[i].text, prefixes[i].len);

        if (order < 0) break;
        key++;
        if (order > 0) {
            key += 3;
            continue;
        }
        skipped = prefixes[i].len;
        order = begins(form.at + skipped, form.len - skipped, "www.", 4);
        if (order == 0) skipped += 4;
        key += order < 0 ? 0 : order == 0 ? 1 : 2;
        break;
    }
    for (size_t i = skipped; i < skipped + 7; i++)
        key = key << 8 | (i < form.len ? form.at[i] : 0);
    return (Datum) key;
}

static Datum sort_key(Datum original, SortSupport ssup) {
    sorting *it = ssup->ssup_extra;
    struct varlena *packed = (struct varlena *) PG_DETOAST_DATUM_PACKED(original);
    uri_value read;
    Datum key;

    uri_read(packed, &read);
    key = key_of(read.form);
    uri_release(&read);
    if ((Pointer) packed != DatumGetPointer(original)) pfree(packed);
    it->count++;
    if (it->estimating)
        addHyperLogLog(&it->distinct, DatumGetUInt32(hash_uint32((uint32) key ^ (key >> 32))));
    return key;
}

static int sort_compare_keys(Datum a, Datum b, SortSupport ssup) { return (a > b) - (a < b); }

/* Gives keys up where they say too little, as uuid_abbrev_abort does. */
static bool sort_abort(int count, SortSupport ssup) {
    sorting *it = ssup->ssup_extra;
    double distinct;

    if (count < 10000 || it->count < 10000 || !it->estimating) return false;
    distinct = estimateHyperLogLog(&it->distinct);
    if (distinct > 100000.0) it->estimating = false;
    return distinct < it->count / 2000.0 + 0.5;
}
#endif

PG_FUNCTION_INFO_V1(uri_sortsupport);
Datum uri_sortsupport(PG_FUNCTION_ARGS) {
    SortSupport ssup = (SortSupport) PG_GETARG_POINTER(0);

    ssup->comparator = sort_compare;
#if SIZEOF_DATUM == 8
    if (ssup->abbreviate) {
        MemoryContext before = MemoryContextSwitchTo(ssup->ssup_cxt);
        sorting *it = palloc0(sizeof(sorting));

        it->estimating = true;
        initHyperLogLog(&it->distinct, 10);
        ssup->ssup_extra = it;
        ssup->comparator = sort_compare_keys;
        ssup->abbrev_converter = sort_key;
        ssup->abbrev_abort = sort_abort;
        ssup->abbrev_full_comparator = sort_compare;
        MemoryContextSwitchTo(before);
    }
#endif
    PG_RETURN_VOID();
}
