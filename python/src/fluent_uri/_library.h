/* The state of a module: the functions of the shared library, and the types of the four kinds. */
#ifndef FLUENT_URI_LIBRARY_H
#define FLUENT_URI_LIBRARY_H

/* The stable interface, in which types know their module. What is called here is in Python 3.9. */
#ifndef Py_LIMITED_API
#define Py_LIMITED_API 0x030A0000
#endif
#define PY_SSIZE_T_CLEAN
#include <Python.h>
#include <fluent_uri.h>
#include <stddef.h>
#include <string.h>

/* Values and lists are filled in while the interpreter's lock is held. */
#ifdef Py_GIL_DISABLED
#error "the free-threaded build of Python is not supported"
#endif

/* Python 3.7 and later have such calls, and the headers from Python 3.10 on name them late. */
#ifndef METH_FASTCALL
#define METH_FASTCALL 0x0080
#endif

#define KINDS 4

typedef uint32_t parse_call(uint32_t, const uint8_t *, size_t, fluent_uri_parts *);
typedef uint32_t next_call(const uint8_t *, size_t, size_t *, fluent_uri_pair *);
typedef uint32_t text_call(uint32_t, const uint8_t *, size_t, uint8_t *, size_t,
                           fluent_uri_parts *, size_t, fluent_uri_outcome *);
/* (with options) */
typedef uint32_t ruled_call(uint32_t, uint32_t, const uint8_t *, size_t, uint8_t *, size_t,
                            fluent_uri_parts *, size_t, fluent_uri_outcome *);
typedef uint32_t option_call(uint32_t, uint32_t, const uint8_t *, size_t, const uint8_t *, size_t,
                             uint8_t *, size_t, fluent_uri_parts *, size_t, fluent_uri_outcome *);

typedef struct {
    parse_call *parse; /* NULL before `open` */
    next_call *next_pair;
    text_call *to_uri, *to_uri_with_ascii_host, *mend, *mend_link;
    ruled_call *normalize;
    option_call *resolve, *resolve_normalized, *relativize;
} Functions;

typedef struct {
    Functions call;
    PyObject *error_of;  /* what makes an exception of (number, index, bytes) */
    PyObject *parse_error; /* the class of those of a text, */
    PyObject *error_kinds; /* its kinds, from that of the number 1 on, */
    PyObject *error_names[3]; /* and its attributes: kind, index, char_index */
    PyObject *reference; /* the base of the types of the kinds */
    PyObject *class_call; /* the type of the class methods of a kind */
    PyObject *types[KINDS];
} State;

/* Has the function at the address that is given for its name. */
static int taken(PyObject *addresses, const char *name, void *to) {
    PyObject *address = PyDict_GetItemString(addresses, name);
    void *function = address ? PyLong_AsVoidPtr(address) : NULL;
    if (!function) {
        if (!PyErr_Occurred()) PyErr_Format(PyExc_ImportError, "the library has no %s", name);
        return -1;
    }
    memcpy(to, &function, sizeof function);
    return 0;
}

/* Has what makes exceptions in place of what did so before. */
static int takes_errors(State *state, PyObject *error_of, PyObject *parse_error, PyObject *kinds) {
    static const char *const names[] = {"kind", "index", "char_index"};
    PyObject *before[] = {state->error_of, state->parse_error, state->error_kinds};
    for (int place = 0; place < 3; place++)
        if (!state->error_names[place] &&
            !(state->error_names[place] = PyUnicode_InternFromString(names[place])))
            return -1;
    state->error_of = Py_NewRef(error_of);
    state->parse_error = Py_NewRef(parse_error);
    state->error_kinds = Py_NewRef(kinds);
    for (int place = 0; place < 3; place++) Py_XDECREF(before[place]);
    return 0;
}

/* open(addresses, error_of, parse_error, kinds): takes the functions of the shared library, whose
 * addresses ctypes has by their names, and what makes exceptions. It never closes a library. */
static PyObject *module_open(PyObject *module, PyObject *words) {
    State *state = PyModule_GetState(module);
    PyObject *addresses, *error_of, *parse_error, *kinds;
    Functions found;
    if (!state || !PyArg_ParseTuple(words, "O!OO!O!", &PyDict_Type, &addresses, &error_of,
                                    &PyType_Type, &parse_error, &PyTuple_Type, &kinds))
        return NULL;
    if (taken(addresses, "parse", &found.parse) < 0 ||
        taken(addresses, "next_pair", &found.next_pair) < 0 ||
        taken(addresses, "normalize", &found.normalize) < 0 ||
        taken(addresses, "to_uri", &found.to_uri) < 0 ||
        taken(addresses, "to_uri_with_ascii_host", &found.to_uri_with_ascii_host) < 0 ||
        taken(addresses, "mend", &found.mend) < 0 ||
        taken(addresses, "mend_link", &found.mend_link) < 0 ||
        taken(addresses, "resolve", &found.resolve) < 0 ||
        taken(addresses, "resolve_normalized", &found.resolve_normalized) < 0 ||
        taken(addresses, "relativize", &found.relativize) < 0)
        return NULL;
    if (takes_errors(state, error_of, parse_error, kinds) < 0) return NULL;
    state->call = found;
    Py_RETURN_NONE;
}

static int module_traverse(PyObject *module, visitproc visit, void *arg) {
    State *state = PyModule_GetState(module);
    if (!state) return 0;
    Py_VISIT(state->error_of);
    Py_VISIT(state->parse_error);
    Py_VISIT(state->error_kinds);
    Py_VISIT(state->reference);
    Py_VISIT(state->class_call);
    for (int kind = 0; kind < KINDS; kind++) Py_VISIT(state->types[kind]);
    return 0;
}

static int module_clear(PyObject *module) {
    State *state = PyModule_GetState(module);
    if (!state) return 0;
    Py_CLEAR(state->error_of);
    Py_CLEAR(state->parse_error);
    Py_CLEAR(state->error_kinds);
    for (int place = 0; place < 3; place++) Py_CLEAR(state->error_names[place]);
    Py_CLEAR(state->reference);
    Py_CLEAR(state->class_call);
    for (int kind = 0; kind < KINDS; kind++) Py_CLEAR(state->types[kind]);
    return 0;
}

static void module_free(void *module) {
    module_clear(module);
}

#endif
