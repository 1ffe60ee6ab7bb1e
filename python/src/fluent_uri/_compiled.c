/* A text of a kind, compiled: the bases of the four kinds, and calls for many texts, over the
 * shared library whose addresses `open` is given. One file serves each Python from 3.9 on, and each
 * interpreter of a process has a module of its own. `_reference.py` does the same by ctypes. */
#include "_class_calls.h"
#include "_lists.h"

static PyObject *reference_parse(PyObject *cls, PyObject *text) {
    State *state;
    int kind = kind_of_class((PyTypeObject *)cls, &state);
    return kind < 0 ? NULL : parsed(state, kind, cls, text, 0);
}

static PyObject *reference_try_parse(PyObject *cls, PyObject *text) {
    State *state;
    int kind = kind_of_class((PyTypeObject *)cls, &state);
    return kind < 0 ? NULL : parsed(state, kind, cls, text, 1);
}

static PyObject *reference_is_valid(PyObject *cls, PyObject *text) {
    State *state;
    int kind = kind_of_class((PyTypeObject *)cls, &state);
    return kind < 0 ? NULL : is_of_kind(state, kind, cls, text);
}

static PyObject *reference_mend(PyObject *cls, PyObject *text) {
    State *state;
    int kind = kind_of_class((PyTypeObject *)cls, &state);
    if (kind < 0) return NULL;
    Call it = {.kind = (uint32_t)kind, .one = state->call.mend};
    return mended(state, cls, &it, text, 0);
}

static PyObject *reference_mend_link(PyObject *cls, PyObject *text) {
    State *state;
    int kind = kind_of_class((PyTypeObject *)cls, &state);
    if (kind < 0) return NULL;
    Call it = {.kind = (uint32_t)kind, .one = state->call.mend_link};
    return mended(state, cls, &it, text, 0);
}

static PyObject *reference_new(PyTypeObject *cls, PyObject *words, PyObject *named) {
    static char *names[] = {"text", NULL};
    PyObject *text;
    if (!PyArg_ParseTupleAndKeywords(words, named, "O", names, &text)) return NULL;
    return reference_parse((PyObject *)cls, text);
}

/* The base of the kinds has no values of its own, nor has a class that has no other base. */
static PyObject *base_new(PyTypeObject *cls, PyObject *words, PyObject *named) {
    (void)words, (void)named;
    return PyErr_Format(PyExc_TypeError, "not a class of a kind: %R", cls);
}

/* The options of a normal form, by whether it is by the rules of schemes. */
static uint32_t options_of(int scheme_rules) {
    return scheme_rules ? FLUENT_URI_SCHEME_RULES : 0;
}

/* normalize(*, scheme_rules) */
static PyObject *reference_normalize(PyObject *self, PyObject *const *words, Py_ssize_t count,
                                     PyObject *names) {
    State *state;
    Py_ssize_t named = names ? PyTuple_Size(names) : 0;
    int by_rules = 0;
    if (count || named > 1 || (named && PyUnicode_CompareWithASCIIString(PyTuple_GetItem(names, 0),
                                                                         "scheme_rules")))
        return PyErr_Format(PyExc_TypeError, "normalize() takes scheme_rules alone, by its name");
    if (named && (by_rules = PyObject_IsTrue(words[0])) < 0) return NULL;
    int kind = kind_of_class(Py_TYPE(self), &state);
    return kind < 0 ? NULL : normal_form(state, kind, options_of(by_rules), self);
}

/* Whether a call that takes so many words was given them. */
static int takes(Py_ssize_t wanted, Py_ssize_t count) {
    if (count == wanted) return 1;
    PyErr_Format(PyExc_TypeError, "the call takes %zd words, not %zd", wanted, count);
    return 0;
}

/* _resolve(reference, basic, normalizes, scheme_rules): the second only counts if it does not
 * normalize, and the last one if it does. */
static PyObject *reference_resolve(PyObject *self, PyObject *const *words, Py_ssize_t count) {
    State *state;
    PyObject *cls = (PyObject *)Py_TYPE(self);
    int basic = takes(4, count) ? PyObject_IsTrue(words[1]) : -1;
    int normalizes = basic < 0 ? -1 : PyObject_IsTrue(words[2]);
    int by_rules = normalizes < 0 ? -1 : PyObject_IsTrue(words[3]);
    int kind = by_rules < 0 ? -1 : kind_of(cls, &state);
    if (kind < 0) return NULL;
    Call resolve = {.kind = (uint32_t)kind, .with_options = state->call.resolve,
                    .options = basic ? FLUENT_URI_BASIC : 0};
    Call normal = {.kind = (uint32_t)kind, .with_options = state->call.resolve_normalized,
                   .options = options_of(by_rules)};
    return value_result_of(state, cls, normalizes ? &normal : &resolve, self, words[0]);
}

/* The kind of a value, if the class given for its result is of the kind that is `further` on. */
static int kind_before(PyObject *self, PyObject *made_of, int further, State **state) {
    State *other;
    int kind = kind_of((PyObject *)Py_TYPE(self), state);
    int made = kind < 0 ? -1 : kind_of(made_of, &other);
    if (made < 0) return -1;
    if (made == kind + further && other == *state) return kind;
    PyErr_Format(PyExc_TypeError, "not a class of the result's kind: %R", made_of);
    return -1;
}

static PyObject *converted(PyObject *self, PyObject *made_of, int with_ascii_host) {
    State *state;
    int kind = kind_before(self, made_of, FLUENT_URI_URI - FLUENT_URI_IRI, &state);
    if (kind < 0) return NULL;
    Call it = {.kind = (uint32_t)kind,
               .one = with_ascii_host ? state->call.to_uri_with_ascii_host : state->call.to_uri};
    return value_result_of(state, made_of, &it, self, NULL);
}

static PyObject *reference_to_uri(PyObject *self, PyObject *made_of) {
    return converted(self, made_of, 0);
}

static PyObject *reference_to_uri_with_ascii_host(PyObject *self, PyObject *made_of) {
    return converted(self, made_of, 1);
}

/* _relativize(target, class of the result, prefers_relative_path) */
static PyObject *reference_relativize(PyObject *self, PyObject *const *words, Py_ssize_t count) {
    State *state;
    int further = FLUENT_URI_URI_REF - FLUENT_URI_URI;
    int prefers = takes(3, count) ? PyObject_IsTrue(words[2]) : -1;
    int kind = prefers < 0 ? -1 : kind_before(self, words[1], further, &state);
    if (kind < 0) return NULL;
    Call it = {.kind = (uint32_t)kind, .with_options = state->call.relativize,
               .options = prefers ? FLUENT_URI_PREFER_RELATIVE_PATH : 0};
    return value_result_of(state, words[1], &it, self, words[0]);
}

static PyObject *reference_str(PyObject *self) {
    return Py_NewRef(((Reference *)self)->text);
}

static PyObject *reference_repr(PyObject *self) {
    PyObject *name = PyObject_GetAttrString((PyObject *)Py_TYPE(self), "__name__");
    PyObject *said = name ? PyUnicode_FromFormat("%S(%R)", name, ((Reference *)self)->text) : NULL;
    Py_XDECREF(name);
    return said;
}

static Py_hash_t reference_hash(PyObject *self) {
    return PyObject_Hash(((Reference *)self)->text);
}

static PyObject *reference_compare(PyObject *self, PyObject *other, int how) {
    if (Py_TYPE(self) != Py_TYPE(other)) return Py_NewRef(Py_NotImplemented);
    return PyObject_RichCompare(((Reference *)self)->text, ((Reference *)other)->text, how);
}

/* For a copy: a value needs its text. */
static PyObject *reference_getnewargs(PyObject *self, PyObject *unused) {
    (void)unused;
    return Py_BuildValue("(O)", ((Reference *)self)->text);
}

static PyMethodDef class_methods[] = {
    {"parse", reference_parse, METH_O,
     "parse($type, text, /)\n--\n\nReturns the value of a text, or raises `ParseError` if the text "
     "is not of the kind."},
    {"try_parse", reference_try_parse, METH_O,
     "try_parse($type, text, /)\n--\n\nReturns the value of a text, or None if the text is not of "
     "the kind."},
    {"is_valid", reference_is_valid, METH_O,
     "is_valid($type, text, /)\n--\n\nReturns whether a text is of the kind."},
    {"mend", reference_mend, METH_O,
     "mend($type, text, /)\n--\n\nReturns the value that a text is mended to by the least change: "
     "what its path, query or fragment may not hold is percent-encoded. Raises `ParseError` if no "
     "text of the kind has its scheme and authority."},
    {"mend_link", reference_mend_link, METH_O,
     "mend_link($type, link, /)\n--\n\nReturns what `mend` makes of a link of a page without the "
     "white space that HTML drops: at both ends, and each tab and line break."},
    {NULL, NULL, 0, NULL},
};

static PyMethodDef reference_methods[] = {
    {"normalize", (PyCFunction)(void (*)(void))reference_normalize, METH_FASTCALL | METH_KEYWORDS,
     "normalize($self, /, *, scheme_rules=False)\n--\n\n"
     "Returns the normal form (RFC 3986, section 6.2.2), without a default or empty port (section\n"
     "6.2.3). With `scheme_rules` it is by the other rules of schemes too: `http://a` is\n"
     "`http://a/`."},
    {"_resolve", (PyCFunction)(void (*)(void))reference_resolve, METH_FASTCALL, NULL},
    {"_relativize", (PyCFunction)(void (*)(void))reference_relativize, METH_FASTCALL, NULL},
    {"_to_uri", reference_to_uri, METH_O, NULL},
    {"_to_uri_with_ascii_host", reference_to_uri_with_ascii_host, METH_O, NULL},
    {"__getnewargs__", reference_getnewargs, METH_NOARGS, NULL},
    {NULL, NULL, 0, NULL},
};

static PyType_Slot base_slots[] = {
    {Py_tp_doc, "A text of one of the four kinds."},
    {Py_tp_new, base_new},
    {0, NULL},
};

/* It has no more than an object has. A class may have it and any other as bases, and then values
 * of another layout; so what looks into a value is in the kinds. */
static PyType_Spec base_spec = {
    "fluent_uri.Reference", sizeof(PyObject), 0, Py_TPFLAGS_DEFAULT | Py_TPFLAGS_BASETYPE,
    base_slots,
};

/* Each kind has a type with a layout of its own, so Python assigns no value the class of another
 * kind. The text of its documentation begins with its name. */
#define SLOTS(NAME) \
    {{Py_tp_doc, NAME "(text)\n--\n\nA text of a kind."}, \
     {Py_tp_new, reference_new}, \
     {Py_tp_dealloc, reference_dealloc}, \
     {Py_tp_str, reference_str}, \
     {Py_tp_repr, reference_repr}, \
     {Py_tp_hash, reference_hash}, \
     {Py_tp_richcompare, reference_compare}, \
     {Py_tp_getset, reference_components}, \
     {Py_tp_methods, reference_methods}, \
     {0, NULL}}

static PyType_Slot reference_slots[KINDS][10] = {
    [FLUENT_URI_URI] = SLOTS("Uri"),
    [FLUENT_URI_URI_REF] = SLOTS("UriRef"),
    [FLUENT_URI_IRI] = SLOTS("Iri"),
    [FLUENT_URI_IRI_REF] = SLOTS("IriRef"),
};

#define SPEC(KIND, NAME) \
    [KIND] = {"fluent_uri." NAME, sizeof(Reference), 0, \
              Py_TPFLAGS_DEFAULT | Py_TPFLAGS_BASETYPE, reference_slots[KIND]}

static PyType_Spec specs[KINDS] = {
    SPEC(FLUENT_URI_URI, "Uri"),
    SPEC(FLUENT_URI_URI_REF, "UriRef"),
    SPEC(FLUENT_URI_IRI, "Iri"),
    SPEC(FLUENT_URI_IRI_REF, "IriRef"),
};

/* kind_of(class): the number of its kind. */
static PyObject *module_kind_of(PyObject *module, PyObject *cls) {
    State *state;
    int kind = kind_of(cls, &state);
    (void)module;
    return kind < 0 ? NULL : PyLong_FromLong(kind);
}

/* text_of(value): its text, whatever a subclass makes of `str`. */
static PyObject *text_of(PyObject *module, PyObject *value) {
    (void)module;
    if (is_value(value)) return reference_str(value);
    return PyErr_Format(PyExc_TypeError, "not a value of a kind: %R", Py_TYPE(value));
}

/* text_given(text): the text of a str, or of a value. */
static PyObject *module_text_given(PyObject *module, PyObject *given) {
    (void)module;
    return text_given(given);
}

static PyMethodDef functions[] = {
    {"open", module_open, METH_VARARGS, NULL},
    {"parse_all", parse_all, METH_VARARGS, NULL},
    {"normalize_all", normalize_all, METH_VARARGS, NULL},
    {"are_valid", are_valid, METH_VARARGS, NULL},
    {"mend_all", mend_all, METH_VARARGS, NULL},
    {"pairs_in", pairs_in, METH_O, NULL},
    {"kind_of", module_kind_of, METH_O, NULL},
    {"text_of", text_of, METH_O, NULL},
    {"text_given", module_text_given, METH_O, NULL},
    {NULL, NULL, 0, NULL},
};

/* Gives the module the type of a kind, with its class methods. */
static int add_kind(PyObject *module, State *state, int kind, PyObject *bases) {
    PyObject *made = PyType_FromModuleAndSpec(module, &specs[kind], bases);
    if (!made) return -1;
    state->types[kind] = made;
    for (PyMethodDef *it = class_methods; it->ml_name; it++)
        if (add_class_call(state->class_call, made, it) < 0) return -1;
    return PyModule_AddType(module, (PyTypeObject *)made);
}

static int module_exec(PyObject *module) {
    State *state = PyModule_GetState(module);
    state->reference = PyType_FromModuleAndSpec(module, &base_spec, NULL);
    state->class_call = PyType_FromModuleAndSpec(module, &class_call_spec, NULL);
    if (!state->reference || !state->class_call ||
        PyModule_AddType(module, (PyTypeObject *)state->reference) < 0)
        return -1;
    PyObject *bases = PyTuple_Pack(1, state->reference);
    if (!bases) return -1;
    int status = 0;
    for (int kind = 0; status == 0 && kind < KINDS; kind++)
        status = add_kind(module, state, kind, bases);
    Py_DECREF(bases);
    return status;
}

/* The later slots are of the stable interfaces of Python 3.12 and 3.13. Without the first one, no
 * interpreter with a lock of its own loads the module; without the other one, Python turns its lock
 * on where it loads it. */
static PyModuleDef_Slot slots[] = {
    {Py_mod_exec, module_exec},
#ifdef Py_mod_multiple_interpreters
    {Py_mod_multiple_interpreters, Py_MOD_PER_INTERPRETER_GIL_SUPPORTED},
#endif
#ifdef Py_mod_gil
    {Py_mod_gil, Py_MOD_GIL_USED},
#endif
    {0, NULL},
};

static struct PyModuleDef definition = {
    PyModuleDef_HEAD_INIT, "fluent_uri._compiled", NULL, sizeof(State), functions, slots,
    module_traverse, module_clear, module_free,
};

PyMODINIT_FUNC PyInit__compiled(void) {
    return PyModuleDef_Init(&definition);
}
