/* How a text is passed to a function of the shared library, and a result fetched. */
#ifndef FLUENT_URI_RESULTS_H
#define FLUENT_URI_RESULTS_H

#include "_library.h"

/* Bytes of a result that need no memory of their own, and what a result has at most beside what it
 * is made of, but for a few. */
#define ROOM 2048
#define BESIDE 64

/* A text in UTF-8: bytes that `held` keeps. */
typedef struct {
    const uint8_t *at;
    Py_ssize_t size;
    PyObject *held;
} Utf8;

/* Has the UTF-8 of a text with surrogates: a surrogate is three bytes. */
static int utf8_with_surrogates(Utf8 *utf8) {
    PyObject *text = utf8->held;
    char *bytes;
    utf8->held = NULL;
    if (PyErr_ExceptionMatches(PyExc_UnicodeEncodeError)) {
        PyErr_Clear();
        utf8->held = PyUnicode_AsEncodedString(text, "utf-8", "surrogatepass");
    }
    Py_DECREF(text);
    if (!utf8->held || PyBytes_AsStringAndSize(utf8->held, &bytes, &utf8->size) < 0) return -1;
    utf8->at = (const uint8_t *)bytes;
    return 0;
}

/* Has the UTF-8 of a str, of which this takes over a reference. */
static inline int utf8_of(PyObject *text, Utf8 *utf8) {
    utf8->held = text;
    if (!text) return -1;
    utf8->at = (const uint8_t *)PyUnicode_AsUTF8AndSize(text, &utf8->size);
    return utf8->at ? 0 : utf8_with_surrogates(utf8);
}

/* How many characters begin before a byte of a text. Up to the first that is not ASCII eight are
 * looked at together. */
static size_t characters_before(const Utf8 *utf8, size_t index) {
    size_t end = index < (size_t)utf8->size ? index : (size_t)utf8->size, place = 0, count;
    for (uint64_t eight; place + sizeof eight <= end; place += sizeof eight) {
        memcpy(&eight, utf8->at + place, sizeof eight);
        if (eight & 0x8080808080808080) break;
    }
    for (count = place; place < end; place++) count += (utf8->at[place] & 0xC0) != 0x80;
    return count;
}

/* A `ParseError` with what its `__init__` gives it: arguments, and attributes with their values. */
static PyObject *parse_error_of(const State *state, uint32_t number, size_t index,
                                const Utf8 *utf8) {
    PyTypeObject *cls = (PyTypeObject *)state->parse_error;
    newfunc make = (newfunc)PyType_GetSlot(cls, Py_tp_new);
    PyObject *kind = PyTuple_GetItem(state->error_kinds, (Py_ssize_t)number - 1);
    PyObject *at = PyLong_FromSize_t(index);
    PyObject *character = at ? PyLong_FromSize_t(characters_before(utf8, index)) : NULL;
    PyObject *words = kind && character ? PyTuple_Pack(3, kind, at, character) : NULL;
    PyObject *attributes = words ? PyDict_New() : NULL, *error = NULL;
    int status = attributes ? 0 : -1;
    for (Py_ssize_t place = 0; status == 0 && place < 3; place++)
        status = PyDict_SetItem(attributes, state->error_names[place],
                                PyTuple_GetItem(words, place));
    if (status == 0) error = make(cls, words, NULL);
    if (error && PyObject_GenericSetDict(error, attributes, NULL) < 0) Py_CLEAR(error);
    Py_XDECREF(attributes);
    Py_XDECREF(words);
    Py_XDECREF(character);
    Py_XDECREF(at);
    return error;
}

static PyObject *raised(const State *state, uint32_t number, size_t index, const Utf8 *utf8,
                        int is_link) {
    int is_of_text = number && (Py_ssize_t)number <= PyTuple_Size(state->error_kinds);
    PyObject *error;
    /* (what Python's code makes takes three times as long) */
    if (is_of_text && !is_link)
        error = parse_error_of(state, number, index, utf8);
    else
        error = PyObject_CallFunction(state->error_of, "Iny#i", (unsigned int)number,
                                      (Py_ssize_t)index, (const char *)utf8->at, utf8->size,
                                      is_link);
    if (error) PyErr_SetObject((PyObject *)Py_TYPE(error), error);
    Py_XDECREF(error);
    return NULL;
}

/* Where what was asked for is of a text that is not of the kind: None if `lax`, else the error. */
static PyObject *rejected(const State *state, int lax, uint32_t number, size_t index,
                          const Utf8 *utf8) {
    if (lax && number != FLUENT_URI_OUT_OF_MEMORY) return Py_NewRef(Py_None);
    return raised(state, number, index, utf8, 0);
}

/* A call on a text, and on a second one where it takes two, perhaps with options. */
typedef struct {
    uint32_t kind;
    text_call *one;
    ruled_call *ruled;
    option_call *with_options;
    uint32_t options;
} Call;

static uint32_t call(const Call *it, const Utf8 *first, const Utf8 *second, uint8_t *out,
                     size_t size, fluent_uri_parts *parts, fluent_uri_outcome *outcome) {
    size_t length = (size_t)first->size;
    if (it->one) return it->one(it->kind, first->at, length, out, size, parts, !!parts, outcome);
    if (it->ruled)
        return it->ruled(it->kind, it->options, first->at, length, out, size, parts, !!parts,
                         outcome);
    return it->with_options(it->kind, it->options, first->at, length, second->at,
                            (size_t)second->size, out, size, parts, !!parts, outcome);
}

/* The result as a str, and its parts where they are asked for. It is `same` itself where the first
 * text does not change. */
static PyObject *result_of(const State *state, const Call *it, const Utf8 *first,
                           const Utf8 *second, PyObject *same, int lax, fluent_uri_parts *parts) {
    uint8_t room[ROOM], *out = room;
    size_t size = sizeof room;
    size_t expected = (size_t)first->size + (second ? (size_t)second->size : 0) + BESIDE;
    fluent_uri_outcome outcome;
    PyObject *made = NULL;
    uint32_t error;
    /* So a long result is seldom made twice. */
    if (expected > size) {
        size = expected;
        out = PyMem_Malloc(size);
        if (!out) return PyErr_NoMemory();
    }
    error = call(it, first, second, out, size, parts, &outcome);
    if (!error && outcome.length > size) {
        if (out != room) PyMem_Free(out);
        size = outcome.length;
        out = PyMem_Malloc(size);
        if (!out) return PyErr_NoMemory();
        error = call(it, first, second, out, size, NULL, &outcome);
    }
    /* (the index is one of what HTML leaves of a link) */
    if (error && it->one && it->one == state->call.mend_link)
        made = raised(state, error, outcome.index, first, 1);
    else if (error)
        made = rejected(state, lax, error, outcome.index, second ? second : first);
    else if (same && outcome.length == (size_t)first->size &&
             memcmp(out, first->at, outcome.length) == 0)
        made = Py_NewRef(same);
    else
        made = PyUnicode_DecodeUTF8((const char *)out, (Py_ssize_t)outcome.length, NULL);
    if (out != room) PyMem_Free(out);
    return made;
}

#endif
