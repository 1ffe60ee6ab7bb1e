/* Calls of a class, such as `Uri.parse`: class methods, of which each kind keeps those that are
 * bound to it. Python's own makes and frees a bound one for each call. */
#ifndef FLUENT_URI_CLASS_CALLS_H
#define FLUENT_URI_CLASS_CALLS_H

#include "_library.h"

typedef struct {
    PyObject_HEAD
    PyMethodDef *method;
    PyObject *owner; /* the class that has it */
    PyObject *bound; /* the method, bound to that class */
} ClassCall;

static int class_call_traverse(PyObject *self, visitproc visit, void *arg) {
    Py_VISIT(Py_TYPE(self));
    Py_VISIT(((ClassCall *)self)->owner);
    Py_VISIT(((ClassCall *)self)->bound);
    return 0;
}

static int class_call_clear(PyObject *self) {
    Py_CLEAR(((ClassCall *)self)->owner);
    Py_CLEAR(((ClassCall *)self)->bound);
    return 0;
}

static void class_call_dealloc(PyObject *self) {
    PyTypeObject *cls = Py_TYPE(self);
    PyObject_GC_UnTrack(self);
    class_call_clear(self);
    PyObject_GC_Del(self);
    Py_DECREF(cls);
}

/* The method of the owner, or of a subclass. */
static PyObject *class_call_get(PyObject *object, PyObject *instance, PyObject *cls) {
    ClassCall *self = (ClassCall *)object;
    if (!cls && instance) cls = (PyObject *)Py_TYPE(instance);
    if (cls && cls == self->owner && self->bound) return Py_NewRef(self->bound);
    if (cls && self->owner && PyType_Check(cls) &&
        PyType_IsSubtype((PyTypeObject *)cls, (PyTypeObject *)self->owner))
        return PyCFunction_NewEx(self->method, cls, NULL);
    return PyErr_Format(PyExc_TypeError, "%s is not of this class", self->method->ml_name);
}

/* There are none but those of the kinds. */
static PyObject *class_call_new(PyTypeObject *cls, PyObject *words, PyObject *named) {
    (void)words, (void)named;
    return PyErr_Format(PyExc_TypeError, "%R makes none", cls);
}

static PyType_Slot class_call_slots[] = {
    {Py_tp_new, class_call_new},
    {Py_tp_dealloc, class_call_dealloc},
    {Py_tp_traverse, class_call_traverse},
    {Py_tp_clear, class_call_clear},
    {Py_tp_descr_get, class_call_get},
    {0, NULL},
};

static PyType_Spec class_call_spec = {
    "fluent_uri._ClassCall", sizeof(ClassCall), 0, Py_TPFLAGS_DEFAULT | Py_TPFLAGS_HAVE_GC,
    class_call_slots,
};

/* Gives a class a method of the type of such calls. */
static int add_class_call(PyObject *type, PyObject *owner, PyMethodDef *method) {
    ClassCall *self = PyObject_GC_New(ClassCall, (PyTypeObject *)type);
    if (!self) return -1;
    self->method = method;
    self->owner = Py_NewRef(owner);
    self->bound = PyCFunction_NewEx(method, owner, NULL);
    PyObject_GC_Track((PyObject *)self);
    PyObject *it = (PyObject *)self;
    int status = self->bound ? PyObject_SetAttrString(owner, method->ml_name, it) : -1;
    Py_DECREF(it);
    return status;
}

#endif
