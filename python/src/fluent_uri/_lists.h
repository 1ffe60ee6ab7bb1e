/* Calls for many texts, which return lists. */
#ifndef FLUENT_URI_LISTS_H
#define FLUENT_URI_LISTS_H

#include "_values.h"

/* What a call for many texts makes of each: values of this class and kind. */
typedef struct {
    const State *state;
    int kind;
    PyObject *cls;
} Each;

typedef PyObject *each_call(Each *, PyObject *);

/* A list of what `each` makes of the texts of a tuple. */
static inline PyObject *each_of(PyObject *words, each_call *each) {
    PyObject *cls, *texts;
    State *state;
    if (!PyArg_ParseTuple(words, "OO!", &cls, &PyTuple_Type, &texts)) return NULL;
    int kind = kind_of(cls, &state);
    Each it = {.state = state, .kind = kind, .cls = cls};
    Py_ssize_t count = PyTuple_Size(texts);
    PyObject *list = kind < 0 ? NULL : PyList_New(count);
    if (!list) return NULL;
    /* No handler of a signal finds the list by `gc` while it lacks items. */
    PyObject_GC_UnTrack(list);
    for (Py_ssize_t place = 0; place < count; place++) {
        PyObject *made = each(&it, PyTuple_GetItem(texts, place));
        if (made) PyList_SetItem(list, place, made);
        if (!made || (place % 1024 == 1023 && PyErr_CheckSignals() < 0)) {
            Py_DECREF(list);
            return NULL;
        }
    }
    PyObject_GC_Track(list);
    return list;
}

static PyObject *parsed_or_none(Each *it, PyObject *given) {
    return parsed(it->state, it->kind, it->cls, given, 1);
}

static PyObject *validity(Each *it, PyObject *given) {
    return is_of_kind(it->state, it->kind, it->cls, given);
}

static PyObject *normal_or_none(Each *it, PyObject *given) {
    PyObject *text = text_given(given), *made = NULL;
    Utf8 utf8 = {0};
    Call normal = {.kind = (uint32_t)it->kind, .ruled = it->state->call.normalize};
    if (!text) return NULL;
    if (utf8_of(Py_NewRef(text), &utf8) == 0)
        made = result_of(it->state, &normal, &utf8, NULL, text, 1, NULL);
    Py_XDECREF(utf8.held);
    Py_DECREF(text);
    return made;
}

static PyObject *mended_or_none(Each *it, PyObject *given) {
    Call mend = {.kind = (uint32_t)it->kind, .one = it->state->call.mend};
    return mended(it->state, it->cls, &mend, given, 1);
}

static PyObject *parse_all(PyObject *module, PyObject *words) {
    (void)module;
    return each_of(words, parsed_or_none);
}

static PyObject *normalize_all(PyObject *module, PyObject *words) {
    (void)module;
    return each_of(words, normal_or_none);
}

static PyObject *mend_all(PyObject *module, PyObject *words) {
    (void)module;
    return each_of(words, mended_or_none);
}

static PyObject *are_valid(PyObject *module, PyObject *words) {
    (void)module;
    return each_of(words, validity);
}

/* A part of a query, or None where it is absent. */
static PyObject *span_of(const Utf8 *query, fluent_uri_span span) {
    if (span.start == SIZE_MAX) return Py_NewRef(Py_None);
    return PyUnicode_DecodeUTF8((const char *)query->at + span.start,
                                (Py_ssize_t)(span.end - span.start), "surrogatepass");
}

/* Adds a pair of a name and a value to a list. */
static int add_pair(PyObject *list, const Utf8 *query, const fluent_uri_pair *at) {
    PyObject *name = span_of(query, at->name), *value = name ? span_of(query, at->value) : NULL;
    PyObject *pair = value ? PyTuple_Pack(2, name, value) : NULL;
    int status = pair ? PyList_Append(list, pair) : -1;
    Py_XDECREF(pair);
    Py_XDECREF(value);
    Py_XDECREF(name);
    return status;
}

/* pairs_in(query): a list of the pairs of a str as they are: a name, and a value or None. */
static PyObject *pairs_in(PyObject *module, PyObject *query) {
    State *state = PyModule_GetState(module);
    size_t position = 0;
    fluent_uri_pair pair;
    Utf8 utf8;
    if (!state || !state->call.next_pair) return PyErr_Format(PyExc_TypeError, "not opened");
    if (!PyUnicode_Check(query))
        return PyErr_Format(PyExc_TypeError, "a query is a str, not %R", Py_TYPE(query));
    PyObject *list = PyList_New(0);
    if (!list || utf8_of(Py_NewRef(query), &utf8) < 0) {
        Py_XDECREF(list);
        return NULL;
    }
    while (list && state->call.next_pair(utf8.at, (size_t)utf8.size, &position, &pair))
        if (add_pair(list, &utf8, &pair) < 0) Py_CLEAR(list);
    Py_DECREF(utf8.held);
    return list;
}

#endif
