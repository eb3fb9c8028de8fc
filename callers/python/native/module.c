/* The functions of the module. */
#include "native.h"

#include <string.h>

static const char CHECK[] = "check(body, *, most=None, language='', room=None, places=False)\n--\n\n"
    "Returns the faults of a body, which is none where it is valid.\n\n"
    "`most` bounds how many there are, and `more` of the list says whether the body has others. `language` is the tag of the\n"
    "language of the sentences; where the library does not know it they are English. `room` is for `Checker`. With `places`\n"
    "`places` of the list says where in the body each fault is.\n\n"
    "Raises `NotJson` where the bytes are no JSON text, `ValueError` where `most` is less than 1, and `MemoryError`.";
static const char PROBLEM[] = "problem(body, *, most=None, language='', room=None)\n--\n\n"
    "Returns what is wrong with a body as problem details, or None where it is valid.\n\n"
    "Bytes that are no JSON text have a problem as well. The arguments are those of `check`, without places. Raises `ValueError` where `most` is\n"
    "less than 1, and `MemoryError`.";
static const char LOAD[] = "load(body, into=None, *, most=None, language='', room=None, places=False)\n--\n\n"
    "Returns the value of a valid body: that which was judged, and not read once more.\n\n"
    "It is what `json.loads` makes. Where `into` is a class it is an object of it, by its annotations, and where it is\n"
    "`Valid[Class]`, it is wrapped as one that is valid. The other arguments are those of `check`.\n\n"
    "Raises `Invalid` where the body has faults, `NotJson` where the bytes are no JSON text, `TypeError` where the class does not\n"
    "fit the body, and `MemoryError`.";
static const char IS_VALID[] = "is_valid(body)\n--\n\n"
    "Whether a body is valid. Bytes that are no JSON text are not. Reading ends at the first fault. Raises `MemoryError`.";

static PyObject *details_of(const room *in) { return PyBytes_FromStringAndSize((const char *)in->out, (Py_ssize_t)in->out_used); }

static bool is_named(const order_node *it, const room *in, const char *name) {
  return it->len == strlen(name) && !memcmp(in->texts + it->value, name, it->len);
}

/* The value of a member of the details, all of which have one node but the last one, or NULL. */
static const order_node *member(const room *in, const char *name) {
  const order_node *it = in->nodes + 1;
  for (uint64_t i = 0; i < in->nodes->value; i++, it += 2)
    if (is_named(it, in, name)) return it + 1;
  return NULL;
}

static walk walk_of(state *held, const room *in, const uint8_t *body, const order_node *at, const plan *by) {
  return (walk){.held = held, .by = by, .at = at, .body = body, .texts = in->texts};
}

/* The places of the faults that are in the room. */
static PyObject *places_of(state *held, const room *in) {
  PyObject *places = PyList_New((Py_ssize_t)in->places_used);
  for (size_t i = 0; places && i < in->places_used; i++) {
    const order_place *it = &in->places[i];
    PyObject *place = PyObject_CallFunction(held->place, "KK", (unsigned long long)it->line, (unsigned long long)it->column);
    if (!place) Py_CLEAR(places);
    else PyList_SetItem(places, (Py_ssize_t)i, place);
  }
  return places;
}

/* Gives the faults a list of their places. */
static bool put_places(state *held, const room *in, PyObject *faults) {
  PyObject *places = places_of(held, in);
  bool is_put = places && !PyObject_SetAttrString(faults, "places", places);
  Py_XDECREF(places);
  return is_put;
}

/* The faults that are in the room. */
static PyObject *faults_of(state *held, const room *in, const asked *it) {
  walk to = walk_of(held, in, in->texts, member(in, "errors"), NULL);
  PyObject *faults = PyObject_CallFunctionObjArgs(held->faults, NULL), *all = faults ? faults_made(&to) : NULL;
  if (!all || PyList_SetSlice(faults, 0, 0, all) || (member(in, "detail") && PyObject_SetAttrString(faults, "more", Py_True)) ||
      (it->places && !put_places(held, in, faults)))
    Py_CLEAR(faults);
  Py_XDECREF(all);
  return faults;
}

/* Raises that the bytes are no JSON text, whose details are in the room. */
static PyObject *not_json(state *held, const room *in) {
  walk to = walk_of(held, in, in->texts, member(in, "detail"), NULL);
  PyObject *why = made(&to), *details = why ? details_of(in) : NULL;
  PyObject *error = details ? PyObject_CallFunctionObjArgs(held->not_json, why, details, NULL) : NULL;
  if (error) PyErr_SetObject(held->not_json, error);
  Py_XDECREF(error);
  Py_XDECREF(details);
  Py_XDECREF(why);
  return NULL;
}

static PyObject *check_in(state *held, room *in, const asked *it) {
  asked more = *it;
  switch (ask_faults(in, it)) {
    case ORDER_VALID: return PyObject_CallFunctionObjArgs(held->faults, NULL);
    case ORDER_FAULTS: return faults_of(held, in, it);
    case ORDER_NO_JSON: break;
    default: return no_memory();
  }
  more.details = true;
  return it->details || ask_faults(in, &more) == ORDER_NO_JSON ? not_json(held, in) : no_memory();
}

static PyObject *problem_in(state *held, room *in, const asked *it) {
  uint8_t status = ask_details(in, it);
  if (status == ORDER_VALID) Py_RETURN_NONE;
  if (status != ORDER_FAULTS && status != ORDER_NO_JSON) return no_memory();
  return PyObject_CallFunction(held->problem, "iy#", status, in->out, (Py_ssize_t)in->out_used);
}

/* Raises the faults of a body that has some. */
static PyObject *invalid(state *held, room *in, const asked *it) {
  asked more = *it;
  more.details = true;
  PyObject *faults = check_in(held, in, &more), *details = faults ? details_of(in) : NULL;
  PyObject *error = details ? PyObject_CallFunctionObjArgs(held->invalid, faults, details, NULL) : NULL;
  if (error) PyErr_SetObject(held->invalid, error);
  Py_XDECREF(error);
  Py_XDECREF(details);
  Py_XDECREF(faults);
  return NULL;
}

/* A value that says that it is valid. */
static PyObject *wrapped(state *held, PyObject *value) {
  PyObject *valid = value ? PyType_GenericAlloc((PyTypeObject *)held->valid, 0) : NULL, *name = PyUnicode_FromString("value");
  if (valid && (!name || PyObject_GenericSetAttr(valid, name, value))) Py_CLEAR(valid);
  Py_XDECREF(name);
  Py_XDECREF(value);
  return valid;
}

static PyObject *value_in(state *held, room *in, const asked *it) {
  const plan *by = it->into ? plan_of(held, it->into) : NULL;
  if (it->into && !by) return NULL;
  switch (ask_value(in, it)) {
    case ORDER_VALID: break;
    case ORDER_MEMORY: return no_memory();
    default: return invalid(held, in, it);
  }
  walk to = walk_of(held, in, it->at, in->nodes, by);
  PyObject *value = made(&to);
  return by && by->is_wrapped ? wrapped(held, value) : value;
}

/* What one of these answers to the arguments of a call, in a room. */
static PyObject *answer(PyObject *module, PyObject *args, PyObject *words, int call,
                        PyObject *(*way)(state *, room *, const asked *)) {
  asked it;
  PyObject *found = NULL;
  state *held = PyModule_GetState(module);
  room *in = read_asked(args, words, call, &it) ? take_room(held, &it) : NULL;
  if (in) {
    found = way(held, in, &it);
    put_room(held, &it, in);
  }
  drop_asked(&it);
  return found;
}

static PyObject *check(PyObject *module, PyObject *args, PyObject *words) { return answer(module, args, words, TO_CHECK, check_in); }
static PyObject *problem(PyObject *module, PyObject *args, PyObject *words) { return answer(module, args, words, TO_PROBLEM, problem_in); }
static PyObject *load(PyObject *module, PyObject *args, PyObject *words) { return answer(module, args, words, TO_LOAD, value_in); }

static PyObject *valid_in(room *in, PyObject *body) {
  asked it = {0};
  uint8_t status = ORDER_MEMORY;
  PyObject *args = PyTuple_Pack(1, body);
  bool is_read = args && read_asked(args, NULL, TO_PROBLEM, &it);
  if (is_read) status = ask_whether(in, &it);
  drop_asked(&it);
  Py_XDECREF(args);
  if (!is_read) return NULL;
  return status == ORDER_MEMORY ? no_memory() : PyBool_FromLong(status == ORDER_VALID);
}

static PyObject *is_valid(PyObject *module, PyObject *body) {
  (void)module;
  room none = {.is_taken = true};
  return valid_in(&none, body);
}

#ifdef ORDER_TAKES_SCHEMA
/* is_valid_by(room, body) */
static PyObject *is_valid_by(PyObject *module, PyObject *args) {
  state *held = PyModule_GetState(module);
  PyObject *body = NULL;
  asked with = {0};
  room *in = PyArg_ParseTuple(args, "OO", &with.room, &body) ? take_room(held, &with) : NULL;
  if (!in) return NULL;
  PyObject *found = valid_in(in, body);
  put_room(held, &with, in);
  return found;
}
#endif

/* How many rooms are kept. */
static PyObject *kept_rooms(PyObject *module, PyObject *none) {
  (void)none;
  return PyLong_FromLong(((state *)PyModule_GetState(module))->room_count);
}

static PyMethodDef functions[] = {
    {"check", (PyCFunction)(void (*)(void))check, METH_VARARGS | METH_KEYWORDS, CHECK},
    {"problem", (PyCFunction)(void (*)(void))problem, METH_VARARGS | METH_KEYWORDS, PROBLEM},
    {"load", (PyCFunction)(void (*)(void))load, METH_VARARGS | METH_KEYWORDS, LOAD},
    {"is_valid", is_valid, METH_O, IS_VALID},
    {"new_room", new_room, METH_O, NULL},
    {"close_room", close_room, METH_O, NULL},
    {"kept_rooms", kept_rooms, METH_NOARGS, NULL},
#ifdef ORDER_TAKES_SCHEMA
    {"is_valid_by", is_valid_by, METH_VARARGS, NULL},
    {"set_schema", set_schema, METH_VARARGS, NULL},
#endif
    {NULL, NULL, 0, NULL},
};

/* The objects of a module that the collector of cycles may see, one after the other. */
static PyObject **object_at(state *held, int number) {
  PyObject **all[] = {&held->faults, &held->place, &held->problem, &held->not_json, &held->invalid, &held->valid, &held->describe,
                      &held->plans, &held->empty, &held->fault, &held->parts[0], &held->parts[1], &held->parts[2], &held->parts[3], NULL};
  return all[number];
}

static int visit_module(PyObject *module, visitproc visit, void *arg) {
  state *held = PyModule_GetState(module);
  for (int i = 0; held && object_at(held, i); i++) Py_VISIT(*object_at(held, i));
  return 0;
}

static int clear_module(PyObject *module) {
  state *held = PyModule_GetState(module);
  for (int i = 0; held && object_at(held, i); i++) Py_CLEAR(*object_at(held, i));
  for (int i = 0; held && i < NAMES; i++) Py_CLEAR(held->names[i].made);
  return 0;
}

static void free_module(void *module) {
  state *held = PyModule_GetState(module);
  clear_module(module);
  while (held && held->room_count) free_room(held->rooms[--held->room_count]);
}

static bool import(const char *from, const char *name, PyObject **to) {
  PyObject *module = PyImport_ImportModule(from);
  *to = module ? PyObject_GetAttrString(module, name) : NULL;
  Py_XDECREF(module);
  return *to != NULL;
}

static int set_by_name(PyObject *name, PyObject *fault, PyObject *value) { return PyObject_GenericSetAttr(fault, name, value); }

/* How a part of a fault is set: by its slot. Python 3.9 does not say how, so there it is by the name, which takes longer. */
static bool begin_part(state *held, int part, const char *name) {
  PyObject *slot = PyObject_GetAttrString(held->fault, name);
  held->parts[part] = slot;
  held->setters[part] = slot ? PyType_GetSlot(Py_TYPE(slot), Py_tp_descr_set) : NULL;
  if (!slot || held->setters[part]) return slot != NULL;
  PyErr_Clear();
  Py_DECREF(slot);
  held->setters[part] = set_by_name;
  held->parts[part] = PyUnicode_InternFromString(name);
  return held->parts[part] != NULL;
}

static bool begin_parts(state *held) {
  static const char *const NAMES[PARTS] = {"pointer", "detail", "code", "params"};
  for (int i = 0; i < PARTS; i++)
    if (!begin_part(held, i, NAMES[i])) return false;
  return true;
}

static int begin(PyObject *module) {
  static const char ANSWERS[] = "order_check._answers", SHAPES[] = "order_check._shapes";
  state *held = PyModule_GetState(module);
  if (order_version() != ORDER_VERSION) {
    PyErr_SetString(PyExc_ImportError, "the library has another version than its header");
    return -1;
  }
  held->plans = PyDict_New();
  held->empty = PyTuple_New(0);
  bool is_begun = held->plans && held->empty && import(ANSWERS, "Faults", &held->faults) && import(ANSWERS, "Place", &held->place) &&
                  import(ANSWERS, "problem_of", &held->problem) && import(ANSWERS, "NotJson", &held->not_json) && import(ANSWERS, "Invalid", &held->invalid) &&
                  import(SHAPES, "Valid", &held->valid) && import(SHAPES, "describe", &held->describe) &&
                  import(ANSWERS, "Fault", &held->fault) && begin_parts(held);
  return is_begun ? 0 : -1;
}

static PyModuleDef_Slot slots[] = {{Py_mod_exec, begin}, {0, NULL}};
static PyModuleDef definition = {PyModuleDef_HEAD_INIT, "_native", NULL, sizeof(state), functions, slots,
                                 visit_module, clear_module, free_module};

PyMODINIT_FUNC PyInit__native(void) { return PyModuleDef_Init(&definition); }
