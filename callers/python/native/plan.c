/* What `into` says, from the tuples that `describe` of _shapes.py makes of it. */
#include "native.h"

static const char CAPSULE[] = "order_check.plan";

static void drop_record(record *it) {
  for (int i = 0; it->fields && i < it->count; i++) {
    Py_XDECREF(it->fields[i].name);
    Py_XDECREF(it->fields[i].bytes);
    Py_XDECREF(it->fields[i].instead);
  }
  PyMem_Free(it->fields);
  Py_XDECREF(it->class);
}

static void drop_plan(plan *it) {
  for (int i = 0; it->shapes && i < it->shape_count; i++) Py_XDECREF(it->shapes[i].told);
  for (int i = 0; it->records && i < it->record_count; i++) drop_record(&it->records[i]);
  PyMem_Free(it->shapes);
  PyMem_Free(it->records);
  PyMem_Free(it);
}

static void drop_capsule(PyObject *capsule) { drop_plan(PyCapsule_GetPointer(capsule, CAPSULE)); }

/* (kinds, items, members, record, told) */
static bool read_shape(PyObject *given, shape *to) {
  if (!PyArg_ParseTuple(given, "IiiiU", &to->kinds, &to->items, &to->members, &to->record, &to->told)) return false;
  Py_INCREF(to->told);
  return true;
}

/* (name, shape, instead, is_made, may_be_absent) */
static bool read_field(PyObject *given, field *to) {
  int is_made = 0, may_be_absent = 0;
  if (!PyArg_ParseTuple(given, "UiOpp", &to->name, &to->shape, &to->instead, &is_made, &may_be_absent)) return false;
  to->is_made = is_made;
  to->may_be_absent = may_be_absent;
  Py_INCREF(to->name);
  Py_INCREF(to->instead);
  PyUnicode_InternInPlace(&to->name);
  char *at = NULL;
  to->bytes = PyUnicode_AsUTF8String(to->name);
  if (!to->bytes || PyBytes_AsStringAndSize(to->bytes, &at, &to->len)) return false;
  to->at = at;
  return true;
}

/* (class, how, fields) */
static bool read_record(PyObject *given, record *to) {
  PyObject *fields = NULL;
  if (!PyArg_ParseTuple(given, "OiO", &to->class, &to->how, &fields)) return false;
  Py_INCREF(to->class);
  Py_ssize_t count = PyList_Size(fields);
  to->fields = PyMem_Calloc((size_t)count + 1, sizeof *to->fields);
  if (!to->fields) return PyErr_NoMemory() != NULL;
  for (to->count = 0; to->count < count; to->count++)
    if (!read_field(PyList_GetItem(fields, to->count), &to->fields[to->count])) return to->count++, false;
  return true;
}

static bool read_shapes(PyObject *given, plan *to) {
  Py_ssize_t count = PyList_Size(given);
  to->shapes = PyMem_Calloc((size_t)count + 1, sizeof *to->shapes);
  if (!to->shapes) return PyErr_NoMemory() != NULL;
  for (; to->shape_count < count; to->shape_count++)
    if (!read_shape(PyList_GetItem(given, to->shape_count), &to->shapes[to->shape_count])) return to->shape_count++, false;
  return true;
}

static bool read_records(PyObject *given, plan *to) {
  Py_ssize_t count = PyList_Size(given);
  to->records = PyMem_Calloc((size_t)count + 1, sizeof *to->records);
  if (!to->records) return PyErr_NoMemory() != NULL;
  for (; to->record_count < count; to->record_count++)
    if (!read_record(PyList_GetItem(given, to->record_count), &to->records[to->record_count])) return to->record_count++, false;
  return true;
}

/* The plan of (shapes, records, is_wrapped) as a capsule. */
static PyObject *planned(PyObject *described) {
  PyObject *shapes = NULL, *records = NULL, *capsule = NULL;
  int is_wrapped = 0;
  plan *to = PyMem_Calloc(1, sizeof *to);
  if (!to) return PyErr_NoMemory();
  if (PyArg_ParseTuple(described, "OOp", &shapes, &records, &is_wrapped) && read_shapes(shapes, to) && read_records(records, to))
    capsule = PyCapsule_New(to, CAPSULE, drop_capsule);
  to->is_wrapped = is_wrapped;
  if (!capsule) drop_plan(to);
  return capsule;
}

/* Makes the plan of `into`, and keeps it. */
static PyObject *kept_plan(state *held, PyObject *into) {
  PyObject *described = PyObject_CallFunctionObjArgs(held->describe, into, NULL);
  PyObject *capsule = described ? planned(described) : NULL;
  Py_XDECREF(described);
  if (capsule && PyDict_SetItem(held->plans, into, capsule)) Py_CLEAR(capsule);
  return capsule;
}

plan *plan_of(state *held, PyObject *into) {
  PyObject *capsule = PyDict_GetItemWithError(held->plans, into);
  if (capsule) return PyCapsule_GetPointer(capsule, CAPSULE);
  if (PyErr_Occurred()) return NULL;
  capsule = kept_plan(held, into);
  if (!capsule) return NULL;
  /* The dict holds it. */
  plan *found = PyCapsule_GetPointer(capsule, CAPSULE);
  Py_DECREF(capsule);
  return found;
}
