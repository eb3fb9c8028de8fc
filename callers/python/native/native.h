/* What the files of the extension share. It is built for the stable ABI of Python 3.9, so one serves all later versions.
 *
 * A call takes a room, and puts it back when it ends. So no two calls share one, be they in two threads, or in one thread where a
 * signal handler, a finalizer or a class of the caller calls again. What is shared is used with the GIL alone.
 */
#ifndef ORDER_NATIVE_H
#define ORDER_NATIVE_H

#define PY_SSIZE_T_CLEAN
#define Py_LIMITED_API 0x03090000
#include <Python.h>

#include "order.h"

enum {
  /* So many rooms are kept for calls to come, and so many names of members. */
  ROOMS = 4,
  NAMES = 512,
  /* A name of more bytes is not kept, and a class with more fields is rejected. */
  NAME_LEN = 39,
  FIELDS = 64,
  /* The parts of a fault. */
  PARTS = 4,
  /* A longer body releases the GIL. A shorter one is done before the GIL could be taken and given back. */
  SMALL = 512,
};

/* A checker, and memory for an answer. Both grow by need. */
typedef struct {
  order_checker checker;
  order_node *nodes;
  order_place *places;
  uint8_t *texts, *out;
  size_t nodes_len, places_len, texts_len, out_len;
  size_t nodes_used, places_used, texts_used, out_used;
  bool is_taken, is_large;
  /* The schema of a validator. */
  uint8_t *schema;
  size_t schema_len;
} room;

/* The schema that a room judges by: an argument of each call, where the library takes one. One without bytes is the schema of
 * schemas. */
#ifdef ORDER_TAKES_SCHEMA
#define BY(in) (in)->schema ? (in)->schema : (const uint8_t *)"", (in)->schema_len,
#else
#define BY(in)
#endif

/* What a call is asked. */
typedef struct {
  PyObject *body, *language, *into, *room;
  const uint8_t *at, *tag;
  size_t len, tag_len, most;
  bool places, details;
} asked;

/* What a value may be. */
enum { A_NULL = 1, A_BOOL = 2, AN_INT = 4, A_FLOAT = 8, A_TEXT = 16, A_LIST = 32, AN_OBJECT = 64 };

/* What is made of a value: the kinds that it may have, and what is made of the items of a list, and of an object: of one with a class,
 * or of one whose members are all alike. -1 is any value. */
typedef struct {
  unsigned kinds;
  int items, members, record;
  PyObject *told;
} shape;

/* A field of a class: its name, also in UTF-8, and what it has where the body has no such member, or NULL. */
typedef struct {
  PyObject *name, *bytes, *instead;
  const char *at;
  Py_ssize_t len;
  int shape;
  bool is_made, may_be_absent;
} field;

/* How an object of a class is made: as a dict; by its fields, one by one; or by a call with its fields. */
enum { AS_DICT, BY_FIELDS, BY_CALL };

typedef struct {
  PyObject *class;
  int how, count;
  field *fields;
} record;

/* What `into` says, with the first shape for the whole. */
typedef struct {
  shape *shapes;
  record *records;
  int shape_count, record_count;
  bool is_wrapped;
} plan;

typedef struct {
  char text[NAME_LEN];
  uint8_t len;
  PyObject *made;
} name;

/* What a module has. Each interpreter has a module of its own. */
typedef struct {
  PyObject *faults, *place, *problem, *not_json, *invalid, *valid, *describe, *plans, *empty;
  PyObject *fault, *parts[PARTS];
  descrsetfunc setters[PARTS];
  room *rooms[ROOMS];
  int room_count;
  name names[NAMES];
} state;

/* arguments.c: reads the arguments of a call, as its keywords say. `drop_asked` frees what it holds, also where this fails. */
enum { TO_PROBLEM, TO_CHECK, TO_LOAD };
bool read_asked(PyObject *args, PyObject *words, int call, asked *it);
void drop_asked(asked *it);

/* room.c */
room *take_room(state *held, const asked *it);
void put_room(state *held, const asked *it, room *in);
void free_room(room *in);
/* Raises that the library had no memory. */
PyObject *no_memory(void);
PyObject *new_room(PyObject *module, PyObject *length);
PyObject *close_room(PyObject *module, PyObject *capsule);
/* set_schema(room, schema): keeps a copy of the schema that the room of a validator judges by. */
PyObject *set_schema(PyObject *module, PyObject *args);
/* The status of a body, with its value, its details, or its faults as nodes in the room: with the details and the places too, where
 * they are asked for. */
uint8_t ask_value(room *in, const asked *it);
uint8_t ask_details(room *in, const asked *it);
uint8_t ask_faults(room *in, const asked *it);
uint8_t ask_whether(room *in, const asked *it);

/* plan.c: what is made by `into`. It is kept by the module. */
plan *plan_of(state *held, PyObject *into);

/* value.c: the value of these nodes, by a plan or as plain objects. */
typedef struct {
  state *held;
  const plan *by;
  const order_node *at;
  const uint8_t *body, *texts;
  const record *record;
  const field *field;
} walk;
PyObject *made(walk *in);
/* The faults of the nodes of `errors`. */
PyObject *faults_made(walk *in);

#endif
