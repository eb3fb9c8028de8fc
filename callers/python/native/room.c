/* The rooms that calls work in, and the calls of the library. */
#include "native.h"

#include <stdlib.h>
#include <string.h>

static const char CAPSULE[] = "order_check.room";
/* Bytes that a room has for details at first. */
static const size_t FIRST = 16 * 1024;
/* A room of a larger body, or with more memory for an answer, is not kept. */
static const size_t KEPT_BODY = 1024 * 1024, KEPT = 4 * 1024 * 1024;
/* Room for the faults of a larger body is made once it is known how many they are. What is not written takes no memory. */
static const size_t MOST_AT_FIRST = 4 * 1024 * 1024;

/* Makes room for so many things of a size. What was there is gone. */
static bool grow(room *in, void *held, size_t *len, size_t wanted, size_t size) {
  void **at = held;
  if (wanted <= *len) return true;
  free(*at);
  *at = wanted <= PY_SSIZE_T_MAX / size ? malloc(wanted * size) : NULL;
  *len = *at ? wanted : 0;
  in->is_large |= wanted > KEPT / size;
  return *at != NULL;
}

static bool grow_nodes(room *in, size_t wanted) { return grow(in, &in->nodes, &in->nodes_len, wanted, sizeof *in->nodes); }
static bool grow_places(room *in, size_t wanted) { return grow(in, &in->places, &in->places_len, wanted, sizeof *in->places); }
static bool grow_texts(room *in, size_t wanted) { return grow(in, &in->texts, &in->texts_len, wanted, 1); }
static bool grow_out(room *in, size_t wanted) { return grow(in, &in->out, &in->out_len, wanted, 1); }

static bool holds(const room *in) {
  return in->nodes_used <= in->nodes_len && in->texts_used <= in->texts_len && in->out_used <= in->out_len &&
         in->places_used <= in->places_len;
}

/* A call of the library, without the GIL where the body is long. */
static uint8_t ask(uint8_t (*call)(room *, const asked *), room *in, const asked *it) {
  in->is_large |= it->len > KEPT_BODY;
  if (it->len <= SMALL) return call(in, it);
  PyThreadState *thread = PyEval_SaveThread();
  uint8_t status = call(in, it);
  PyEval_RestoreThread(thread);
  return status;
}

/* A value has a node for every two bytes at most, with one more. */
static uint8_t call_value(room *in, const asked *it) {
  size_t nodes = it->len / 2 + 1, texts = memchr(it->at, '\\', it->len) ? it->len : 1;
  in->nodes_used = in->texts_used = in->out_used = in->places_used = 0;
  uint8_t status = ORDER_MEMORY;
  do {
    if (!grow_nodes(in, nodes) || !grow_texts(in, texts)) return ORDER_MEMORY;
    status = order_value_with(&in->checker, BY(in) it->at, it->len, in->nodes, in->nodes_len, &in->nodes_used, in->texts, in->texts_len,
                              &in->texts_used);
    nodes = in->nodes_used;
    texts = in->texts_used;
  } while (!holds(in));
  return status;
}

static uint8_t call_details(room *in, const asked *it) {
  size_t out = FIRST;
  in->nodes_used = in->texts_used = in->out_used = in->places_used = 0;
  uint8_t status = ORDER_MEMORY;
  do {
    if (!grow_out(in, out)) return ORDER_MEMORY;
    status = order_check_with(&in->checker, BY(in) it->at, it->len, it->most, it->tag, it->tag_len, in->out, in->out_len, &in->out_used);
    out = in->out_used;
  } while (!holds(in));
  return status;
}

/* Nodes and texts of most faults, of a body of so many bytes: some 13 nodes and 100 bytes for each, and a fault for 12 bytes at most. */
static size_t first_nodes(const asked *it) {
  size_t len = it->len < MOST_AT_FIRST ? it->len : MOST_AT_FIRST;
  return len + len / 8 + 256;
}

static uint8_t call_faults(room *in, const asked *it) {
  size_t nodes = first_nodes(it), texts = 8 * nodes, out = it->details ? 2 * texts : 1, places = it->places ? nodes / 8 : 1;
  in->nodes_used = in->texts_used = in->out_used = in->places_used = 0;
  uint8_t status = ORDER_MEMORY;
  do {
    if (!grow_out(in, out) || !grow_nodes(in, nodes) || !grow_texts(in, texts) || !grow_places(in, places)) return ORDER_MEMORY;
    status = order_faults_with(&in->checker, BY(in) it->at, it->len, it->most, it->tag, it->tag_len, in->out, it->details ? in->out_len : 0,
                               &in->out_used, in->nodes, in->nodes_len, &in->nodes_used, in->texts, in->texts_len, &in->texts_used,
                               in->places, it->places ? in->places_len : 0, &in->places_used);
    out = in->out_used;
    nodes = in->nodes_used;
    texts = in->texts_used;
    places = in->places_used;
  } while (!holds(in));
  return status;
}

static uint8_t call_whether(room *in, const asked *it) {
  (void)in;
  return order_is_valid(BY(in) it->at, it->len);
}

uint8_t ask_value(room *in, const asked *it) { return ask(call_value, in, it); }
uint8_t ask_details(room *in, const asked *it) { return ask(call_details, in, it); }
uint8_t ask_faults(room *in, const asked *it) { return ask(call_faults, in, it); }
uint8_t ask_whether(room *in, const asked *it) { return ask(call_whether, in, it); }

/* Frees what a room holds. */
static void empty(room *in) {
  order_free(&in->checker);
  free(in->nodes);
  free(in->places);
  free(in->texts);
  free(in->out);
  free(in->schema);
  *in = (room){.is_taken = in->is_taken};
}

void free_room(room *in) {
  empty(in);
  free(in);
}

static room *made_room(void) {
  room *in = calloc(1, sizeof *in);
  if (!in) PyErr_NoMemory();
  return in;
}

PyObject *no_memory(void) {
  PyErr_SetString(PyExc_MemoryError, "out of memory");
  return NULL;
}

/* The room of a checker, which one call has at a time. */
static room *room_of(PyObject *capsule) {
  room *in = PyCapsule_GetPointer(capsule, CAPSULE);
  if (in && in->is_taken) {
    PyErr_SetString(PyExc_RuntimeError, "the checker is closed, or is in use");
    return NULL;
  }
  if (in) in->is_taken = true;
  return in;
}

room *take_room(state *held, const asked *it) {
  if (it->room) return room_of(it->room);
  return held->room_count ? held->rooms[--held->room_count] : made_room();
}

void put_room(state *held, const asked *it, room *in) {
  if (it->room)
    in->is_taken = false;
  else if (in->is_large || held->room_count == ROOMS)
    free_room(in);
  else
    held->rooms[held->room_count++] = in;
}

static void drop_capsule(PyObject *capsule) { free_room(PyCapsule_GetPointer(capsule, CAPSULE)); }

/* A room of its own for a checker, for bodies of so many bytes. */
PyObject *new_room(PyObject *module, PyObject *length) {
  (void)module;
  long long wanted = PyLong_AsLongLong(length);
  if (wanted == -1 && PyErr_Occurred()) return NULL;
  if (wanted < 0) return PyErr_Format(PyExc_ValueError, "a body has no %S bytes", length);
  room *in = made_room();
  if (!in) return NULL;
  if (wanted && order_reserve(&in->checker, wanted < UINT32_MAX ? (uint32_t)wanted : UINT32_MAX) == ORDER_MEMORY) {
    free_room(in);
    return PyErr_NoMemory();
  }
  PyObject *capsule = PyCapsule_New(in, CAPSULE, drop_capsule);
  if (!capsule) free_room(in);
  return capsule;
}

PyObject *set_schema(PyObject *module, PyObject *args) {
  (void)module;
  PyObject *capsule = NULL;
  const char *at = NULL;
  Py_ssize_t len = 0;
  room *in = PyArg_ParseTuple(args, "Oy#", &capsule, &at, &len) ? PyCapsule_GetPointer(capsule, CAPSULE) : NULL;
  if (!in) return NULL;
  uint8_t *schema = malloc((size_t)len + 1);
  if (!schema) return PyErr_NoMemory();
  memcpy(schema, at, (size_t)len);
  free(in->schema);
  in->schema = schema;
  in->schema_len = (size_t)len;
  Py_RETURN_NONE;
}

/* Frees what the room of a checker holds. It stays taken from then on. */
PyObject *close_room(PyObject *module, PyObject *capsule) {
  (void)module;
  room *in = PyCapsule_GetPointer(capsule, CAPSULE);
  if (!in) return NULL;
  if (!in->is_taken) empty(in);
  in->is_taken = true;
  Py_RETURN_NONE;
}
