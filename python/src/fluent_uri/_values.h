/* The values of the four kinds: how one is made of a text, or of what a call returns. What runs for
 * each text is inline. */
#ifndef FLUENT_URI_VALUES_H
#define FLUENT_URI_VALUES_H

#include "_results.h"

typedef struct {
    PyObject_HEAD
    PyObject *text;
    fluent_uri_parts parts;
} Reference;

static PyObject *component(PyObject *object, void *offset) {
    Reference *self = (Reference *)object;
    const fluent_uri_span *span =
        (const fluent_uri_span *)((const char *)&self->parts + (size_t)offset);
    if (span->start == SIZE_MAX) return Py_NewRef(Py_None);
    Py_ssize_t size, start = (Py_ssize_t)span->start, end = (Py_ssize_t)span->end;
    const char *text = PyUnicode_AsUTF8AndSize(self->text, &size);
    if (!text) return NULL;
    if (PyUnicode_GetLength(self->text) == size) /* (ASCII) */
        return PyUnicode_Substring(self->text, start, end);
    return PyUnicode_DecodeUTF8(text + start, end - start, NULL);
}

static PyObject *host_kind(PyObject *self, void *unused) {
    (void)unused;
    return PyLong_FromUnsignedLong(((Reference *)self)->parts.host_kind);
}

#define COMPONENT(NAME, DOC) \
    {#NAME, component, NULL, DOC, (void *)offsetof(fluent_uri_parts, NAME)}

static PyGetSetDef reference_components[] = {
    COMPONENT(scheme, "The scheme without its `:`, or None."),
    COMPONENT(authority, "The authority without its `//`, or None."),
    COMPONENT(userinfo, "The userinfo without its `@`, or None."),
    COMPONENT(host, "The host, or None where there is no authority."),
    COMPONENT(port, "The port without its `:`, which may be empty, or None."),
    COMPONENT(path, "The path, which may be empty."),
    COMPONENT(query, "The query without its `?`, or None."),
    COMPONENT(fragment, "The fragment without its `#`, or None."),
    {"_host_kind", host_kind, NULL, NULL, NULL},
    {NULL, NULL, NULL, NULL, NULL},
};

/* A class has values without a part in Python's collector exactly if it adds nothing to a kind. */
static int adds_nothing(PyTypeObject *cls) {
    return !(PyType_GetFlags(cls) & Py_TPFLAGS_HAVE_GC);
}

static void reference_dealloc(PyObject *self) {
    PyTypeObject *cls = Py_TYPE(self);
    Py_XDECREF(((Reference *)self)->text);
    if (adds_nothing(cls)) {
        PyObject_Free(self);
    } else {
        freefunc release = (freefunc)PyType_GetSlot(cls, Py_tp_free);
        release(self);
    }
    Py_DECREF(cls);
}

/* A value of the class, whose text and parts are still to be filled in. */
static inline Reference *allocated(PyTypeObject *cls) {
    Reference *self;
    if (adds_nothing(cls)) {
        self = PyObject_New(Reference, cls);
    } else {
        allocfunc allocate = (allocfunc)PyType_GetSlot(cls, Py_tp_alloc);
        self = (Reference *)allocate(cls, 0);
    }
    return self;
}

/* The type of this module whose layout the values of a class have, or NULL. Python 3.9 has slots of
 * heap types alone. */
static PyTypeObject *layout_of(PyTypeObject *cls) {
    while (cls && PyType_GetFlags(cls) & Py_TPFLAGS_HEAPTYPE) {
        if (PyType_GetSlot(cls, Py_tp_dealloc) == (void *)reference_dealloc) return cls;
        cls = (PyTypeObject *)PyType_GetSlot(cls, Py_tp_base);
    }
    return NULL;
}

static int is_value(PyObject *object) {
    return layout_of(Py_TYPE(object)) != NULL;
}

/* The kind with a layout and the state of its module, or -1 with an exception. */
static inline int kind_with(PyTypeObject *layout, State **state, PyObject *cls) {
    *state = layout ? PyType_GetModuleState(layout) : NULL;
    if (*state && (*state)->call.parse)
        for (int kind = 0; kind < KINDS; kind++)
            if ((*state)->types[kind] == (PyObject *)layout) return kind;
    if (!PyErr_Occurred()) PyErr_Format(PyExc_TypeError, "not a class of a kind: %R", cls);
    return -1;
}

/* The kind of a class and the state of its module, or -1 with an exception. A class keeps the
 * layout that it was made with, and so its kind. */
static int kind_of(PyObject *cls, State **state) {
    PyTypeObject *layout = PyType_Check(cls) ? layout_of((PyTypeObject *)cls) : NULL;
    return kind_with(layout, state, cls);
}

/* The same of a class that is one of a kind, as that of a value. */
static inline int kind_of_class(PyTypeObject *cls, State **state) {
    PyTypeObject *layout = cls;
    while (layout && PyType_GetSlot(layout, Py_tp_dealloc) != (void *)reference_dealloc)
        layout = (PyTypeObject *)PyType_GetSlot(layout, Py_tp_base);
    return kind_with(layout, state, (PyObject *)cls);
}

/* The text of a str, or of a value. */
static inline PyObject *text_given(PyObject *given) {
    if (PyUnicode_CheckExact(given)) return Py_NewRef(given);
    if (PyUnicode_Check(given)) return PyUnicode_FromObject(given);
    if (is_value(given)) return Py_NewRef(((Reference *)given)->text);
    return PyErr_Format(PyExc_TypeError, "a text is a value of a kind or a str, not %R",
                        Py_TYPE(given));
}

/* A value of the class with the text, of which this takes over a reference. */
static inline PyObject *value_of(PyObject *cls, PyObject *text, const fluent_uri_parts *parts) {
    Reference *self = text ? allocated((PyTypeObject *)cls) : NULL;
    if (!self) {
        Py_XDECREF(text);
        return NULL;
    }
    self->text = text;
    self->parts = *parts;
    return (PyObject *)self;
}

/* The value of what is given as a text. It is the value that is given, if that is of the class and
 * the class is a kind. A text is parsed before a value is made of it: a subclass may look at each
 * value that ends. */
static inline PyObject *parsed(const State *state, int kind, PyObject *cls, PyObject *given,
                               int lax) {
    if (Py_TYPE(given) == (PyTypeObject *)cls && cls == state->types[kind]) return Py_NewRef(given);
    fluent_uri_parts parts;
    Utf8 utf8;
    if (utf8_of(text_given(given), &utf8) < 0) return NULL;
    uint32_t error = state->call.parse((uint32_t)kind, utf8.at, (size_t)utf8.size, &parts);
    if (!error) return value_of(cls, utf8.held, &parts);
    PyObject *made = rejected(state, lax, error, parts.index, &utf8);
    Py_DECREF(utf8.held);
    return made;
}

static inline PyObject *is_of_kind(const State *state, int kind, PyObject *cls, PyObject *given) {
    fluent_uri_parts parts;
    Utf8 utf8;
    (void)cls;
    if (utf8_of(text_given(given), &utf8) < 0) return NULL;
    uint32_t error = state->call.parse((uint32_t)kind, utf8.at, (size_t)utf8.size, &parts);
    Py_DECREF(utf8.held);
    return PyBool_FromLong(!error);
}

/* A value of the class whose text is the call's result. It is the first value itself, if that is of
 * the class and does not change. */
static PyObject *value_result_of(const State *state, PyObject *cls, const Call *it, PyObject *self,
                                 PyObject *reference) {
    Utf8 first = {0}, second = {0};
    fluent_uri_parts parts;
    PyObject *text = ((Reference *)self)->text, *made = NULL;
    PyObject *same = cls == (PyObject *)Py_TYPE(self) && !reference ? text : NULL;
    if ((!reference || utf8_of(text_given(reference), &second) == 0) &&
        utf8_of(Py_NewRef(text), &first) == 0)
        made = result_of(state, it, &first, reference ? &second : NULL, same, 0, &parts);
    Py_XDECREF(first.held);
    Py_XDECREF(second.held);
    if (!made || made != same) return value_of(cls, made, &parts);
    Py_DECREF(made);
    return Py_NewRef(self);
}

/* The value that a call makes of a text that is given. It is the value that is given, if that is of
 * the class, the class is a kind, and its text does not change. */
static PyObject *mended(const State *state, PyObject *cls, const Call *it, PyObject *given,
                        int lax) {
    PyObject *text = text_given(given), *made = NULL;
    fluent_uri_parts parts;
    Utf8 utf8;
    if (!text || utf8_of(Py_NewRef(text), &utf8) < 0) {
        Py_XDECREF(text);
        return NULL;
    }
    made = result_of(state, it, &utf8, NULL, text, lax, &parts);
    int is_given = made == text && Py_TYPE(given) == (PyTypeObject *)cls &&
                   cls == state->types[it->kind];
    Py_DECREF(utf8.held);
    Py_DECREF(text);
    if (made == Py_None) return made;
    if (!is_given) return value_of(cls, made, &parts);
    Py_DECREF(made);
    return Py_NewRef(given);
}

/* Whether a value has what most texts have that are not in their normal form. */
static int is_hardly_normal(const Reference *self, const char *text) {
    return (*text >= 'A' && *text <= 'Z') || self->parts.port.start != SIZE_MAX;
}

/* The normal form of a value, by options. It is the value itself if its text does not change, and
 * then nothing is made. So the parts of the result are asked for at once only where the text will
 * hardly be its own. */
static PyObject *normal_form(const State *state, int kind, uint32_t options, PyObject *object) {
    Reference *self = (Reference *)object;
    PyObject *cls = (PyObject *)Py_TYPE(self);
    Py_ssize_t length;
    const char *text = PyUnicode_AsUTF8AndSize(self->text, &length);
    if (!text) return NULL;
    if (length <= ROOM - BESIDE) {
        uint8_t room[ROOM];
        fluent_uri_outcome outcome;
        fluent_uri_parts parts;
        size_t size = (size_t)length, takes_parts = (size_t)is_hardly_normal(self, text);
        uint32_t error = state->call.normalize((uint32_t)kind, options, (const uint8_t *)text,
                                               size, room, ROOM, &parts, takes_parts, &outcome);
        if (!error && outcome.length == size && memcmp(room, text, size) == 0)
            return Py_NewRef(object);
        if (!error && outcome.length <= ROOM) {
            size = outcome.length;
            if (!takes_parts) state->call.parse((uint32_t)kind, room, size, &parts);
            text = (const char *)room;
            return value_of(cls, PyUnicode_DecodeUTF8(text, (Py_ssize_t)size, NULL), &parts);
        }
    }
    /* It is long, or an error. */
    Call it = {.kind = (uint32_t)kind, .ruled = state->call.normalize, .options = options};
    return value_result_of(state, cls, &it, object, NULL);
}

#endif
