/* Objects of Python from the nodes of a value, which the library wrote and this trusts. Each function that makes one begins at the next
 * node, and goes past what it read. Nesting ends at 128, so none counts it. */
#include "native.h"

#include <limits.h>
#include <string.h>

static const shape ANY = {A_NULL | A_BOOL | AN_INT | A_FLOAT | A_TEXT | A_LIST | AN_OBJECT, -1, -1, -1, NULL};
static const char *const KINDS[] = {"null", "a bool", "an int", "a float", "a text", "a list", "an object"};

static PyObject *shaped(walk *in, const shape *as);

static const char *at_text(const walk *in, const order_node *it) {
  return (const char *)(it->in_texts ? in->texts : in->body) + it->value;
}

static PyObject *text_of(const walk *in, const order_node *it) { return PyUnicode_DecodeUTF8(at_text(in, it), it->len, NULL); }

/* A number is an int where JSON has it without a fraction and an exponent. */
static bool is_whole(const walk *in, const order_node *it) {
  const char *at = at_text(in, it);
  for (uint32_t i = 0; i < it->len; i++)
    if (at[i] == '.' || at[i] == 'e' || at[i] == 'E') return false;
  return true;
}

/* An int from a text of any length. */
static PyObject *number_of(const walk *in, const order_node *it) {
  PyObject *text = text_of(in, it), *number = NULL;
  if (text) number = is_whole(in, it) ? PyNumber_Long(text) : PyFloat_FromString(text);
  Py_XDECREF(text);
  return number;
}

static PyObject *negative_of(uint64_t value) {
  return PyLong_FromLongLong(value > LLONG_MAX ? LLONG_MIN : -(long long)value);
}

static PyObject *int_of(const walk *in, const order_node *it) {
  switch (it->kind) {
    case ORDER_NODE_WHOLE: return PyLong_FromUnsignedLongLong(it->value);
    case ORDER_NODE_NEGATIVE: return negative_of(it->value);
    default: return number_of(in, it);
  }
}

static unsigned kind_of(const walk *in) {
  switch (in->at->kind) {
    case ORDER_NODE_NULL: return A_NULL;
    case ORDER_NODE_FALSE:
    case ORDER_NODE_TRUE: return A_BOOL;
    case ORDER_NODE_WHOLE:
    case ORDER_NODE_NEGATIVE: return AN_INT;
    case ORDER_NODE_NUMBER: return is_whole(in, in->at) ? AN_INT : A_FLOAT;
    case ORDER_NODE_TEXT: return A_TEXT;
    case ORDER_NODE_LIST: return A_LIST;
    default: return AN_OBJECT;
  }
}

/* Where a name is kept, by its length, and its first and its last bytes. */
static uint32_t place_of(const char *at, uint32_t len) {
  uint64_t first = 0, last = 0;
  if (len >= 8) {
    memcpy(&first, at, 8);
    memcpy(&last, at + len - 8, 8);
  } else {
    for (uint32_t i = 0; i < len; i++) first = first << 8 | (uint8_t)at[i];
  }
  return (uint32_t)((first * 0x9E3779B97F4A7C15 ^ last * 0xC2B2AE3D27D4EB4F ^ len) >> 32) % NAMES;
}

/* The name of a member of a dict, or what a fault says of its rule. Short ones are kept, since they come again and again. */
static PyObject *name_of(const walk *in, const order_node *it) {
  if (it->len > NAME_LEN) return text_of(in, it);
  const char *at = at_text(in, it);
  name *kept = &in->held->names[place_of(at, it->len)];
  if (!kept->made || kept->len != it->len || memcmp(kept->text, at, it->len)) {
    PyObject *made = text_of(in, it), *before = kept->made;
    if (!made) return NULL;
    PyUnicode_InternInPlace(&made);
    memcpy(kept->text, at, it->len);
    kept->len = (uint8_t)it->len;
    kept->made = made;
    Py_XDECREF(before);
  }
  Py_INCREF(kept->made);
  return kept->made;
}

static PyObject *list_of(walk *in, const shape *items) {
  Py_ssize_t count = (Py_ssize_t)in->at++->value;
  PyObject *list = PyList_New(count);
  for (Py_ssize_t i = 0; list && i < count; i++) {
    PyObject *item = shaped(in, items);
    if (!item) Py_CLEAR(list);
    else PyList_SetItem(list, i, item);
  }
  return list;
}

static bool put_member(walk *in, PyObject *dict, const shape *members) {
  PyObject *key = name_of(in, in->at++), *value = key ? shaped(in, members) : NULL;
  bool is_put = value && !PyDict_SetItem(dict, key, value);
  Py_XDECREF(key);
  Py_XDECREF(value);
  return is_put;
}

static PyObject *dict_of(walk *in, const shape *members) {
  uint64_t count = in->at++->value;
  PyObject *dict = PyDict_New();
  for (; dict && count; count--)
    if (!put_member(in, dict, members)) Py_CLEAR(dict);
  return dict;
}

/* The field of a member, which most often is the next one. */
static const field *field_of(const walk *in, const record *as, int next) {
  const order_node *it = in->at;
  const char *at = at_text(in, it);
  for (int i = 0; i < as->count; i++) {
    const field *found = &as->fields[(next + i) % as->count];
    if (found->len == it->len && !memcmp(found->at, at, it->len)) return found;
  }
  PyObject *name = text_of(in, it);
  if (name) PyErr_Format(PyExc_TypeError, "%R has no field %R", as->class, name);
  Py_XDECREF(name);
  return NULL;
}

static bool put(const record *as, PyObject *to, const field *it, PyObject *value) {
  bool is_put = value && !(as->how == BY_FIELDS ? PyObject_GenericSetAttr(to, it->name, value) : PyDict_SetItem(to, it->name, value));
  Py_XDECREF(value);
  return is_put;
}

/* Reads so many members, and marks their fields. */
static bool put_fields(walk *in, const record *as, PyObject *to, uint64_t count, bool *seen) {
  int next = 0;
  for (; count; count--) {
    const field *it = field_of(in, as, next);
    if (!it) return false;
    in->at++;
    in->record = as;
    in->field = it;
    if (!put(as, to, it, shaped(in, &in->by->shapes[it->shape]))) return false;
    next = (int)(it - as->fields) + 1;
    seen[next - 1] = true;
  }
  return true;
}

/* What a field has where the body has no such member. A class that is called says so itself. */
static bool put_instead(const record *as, PyObject *to, const field *it) {
  if (it->may_be_absent || as->how == BY_CALL) return true;
  if (it->instead == Py_Ellipsis) {
    PyErr_Format(PyExc_TypeError, "%R wants a field %R, and the body has no such member", as->class, it->name);
    return false;
  }
  if (it->is_made) return put(as, to, it, PyObject_CallFunctionObjArgs(it->instead, NULL));
  Py_INCREF(it->instead);
  return put(as, to, it, it->instead);
}

static PyObject *begun(const record *as) {
  return as->how == BY_FIELDS ? PyType_GenericAlloc((PyTypeObject *)as->class, 0) : PyDict_New();
}

static PyObject *ended(const walk *in, const record *as, PyObject *fields) {
  if (as->how != BY_CALL) return fields;
  PyObject *object = PyObject_Call(as->class, in->held->empty, fields);
  Py_DECREF(fields);
  return object;
}

static PyObject *record_of(walk *in, const record *as) {
  uint64_t count = in->at++->value;
  bool seen[FIELDS] = {false}, is_put = false;
  PyObject *to = begun(as);
  if (!to) return NULL;
  is_put = put_fields(in, as, to, count, seen);
  for (int i = 0; is_put && count < (uint64_t)as->count && i < as->count; i++)
    is_put = seen[i] || put_instead(as, to, &as->fields[i]);
  if (is_put) return ended(in, as, to);
  Py_DECREF(to);
  return NULL;
}

static const shape *shape_at(const walk *in, int index) { return index < 0 ? &ANY : &in->by->shapes[index]; }

/* The error of a program whose class has a field of another kind. */
static PyObject *misfit(const walk *in, const shape *as, unsigned kind) {
  const char *told = KINDS[__builtin_ctz(kind)];
  if (!in->field) return PyErr_Format(PyExc_TypeError, "%S is wanted, and the body has %s", as->told, told);
  return PyErr_Format(PyExc_TypeError, "the field %R of %R is %S, and the body has %s", in->field->name, in->record->class, as->told, told);
}

/* An int where a float is wanted. */
static PyObject *float_of(const walk *in, const order_node *it) {
  PyObject *whole = int_of(in, it), *made = whole ? PyNumber_Float(whole) : NULL;
  Py_XDECREF(whole);
  return made;
}

static PyObject *shaped(walk *in, const shape *as) {
  unsigned kind = kind_of(in);
  if (!(as->kinds & kind)) return kind == AN_INT && as->kinds & A_FLOAT ? float_of(in, in->at++) : misfit(in, as, kind);
  switch (kind) {
    case A_NULL: return in->at++, Py_BuildValue("");
    case A_BOOL: return PyBool_FromLong(in->at++->kind == ORDER_NODE_TRUE);
    case A_TEXT: return text_of(in, in->at++);
    case A_LIST: return list_of(in, shape_at(in, as->items));
    case AN_OBJECT: return as->record < 0 ? dict_of(in, shape_at(in, as->members)) : record_of(in, &in->by->records[as->record]);
    default: return int_of(in, in->at++);
  }
}

PyObject *made(walk *in) { return shaped(in, in->by ? in->by->shapes : &ANY); }

/* What a sentence says of its rule, which are texts by names. */
static PyObject *params_of(walk *in) {
  uint64_t count = in->at++->value;
  PyObject *params = PyDict_New();
  for (; params && count; count--) {
    PyObject *key = name_of(in, in->at++), *value = key ? name_of(in, in->at++) : NULL;
    if (!value || PyDict_SetItem(params, key, value)) Py_CLEAR(params);
    Py_XDECREF(key);
    Py_XDECREF(value);
  }
  return params;
}

/* The next part of a fault, behind its name. */
static PyObject *part_of(walk *in, int part) {
  in->at++;
  if (part == PARTS - 1) return params_of(in);
  return part == 0 ? text_of(in, in->at++) : name_of(in, in->at++);
}

/* A fault, whose parts come one after the other, as order.h has them. */
static PyObject *fault_of(walk *in) {
  state *held = in->held;
  PyObject *fault = PyType_GenericAlloc((PyTypeObject *)held->fault, 0);
  in->at++;
  for (int i = 0; fault && i < PARTS; i++) {
    PyObject *value = part_of(in, i);
    if (!value || held->setters[i](held->parts[i], fault, value)) Py_CLEAR(fault);
    Py_XDECREF(value);
  }
  return fault;
}

PyObject *faults_made(walk *in) {
  Py_ssize_t count = (Py_ssize_t)in->at++->value;
  PyObject *faults = PyList_New(count);
  for (Py_ssize_t i = 0; faults && i < count; i++) {
    PyObject *fault = fault_of(in);
    if (!fault) Py_CLEAR(faults);
    else PyList_SetItem(faults, i, fault);
  }
  return faults;
}
