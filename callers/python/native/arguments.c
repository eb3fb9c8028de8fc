/* The arguments of a call. */
#include "native.h"

#include <string.h>

static const uint8_t *const NOTHING = (const uint8_t *)"";

/* The bytes of a body. `bytes` are read where they lie. Of others a copy is made, since another thread could change them. */
static bool read_body(asked *it, PyObject *given) {
  if (PyBytes_Check(given)) {
    Py_INCREF(given);
    it->body = given;
  } else if (PyByteArray_Check(given) || PyObject_TypeCheck(given, &PyMemoryView_Type)) {
    it->body = PyBytes_FromObject(given);
  } else {
    PyErr_Format(PyExc_TypeError, "a body is bytes, not %R", (PyObject *)Py_TYPE(given));
  }
  char *at = NULL;
  Py_ssize_t len = 0;
  if (!it->body || PyBytes_AsStringAndSize(it->body, &at, &len)) return false;
  it->at = (const uint8_t *)at;
  it->len = (size_t)len;
  return true;
}

/* A number of faults: all, where it is larger than C can say. */
static bool read_number(asked *it, PyObject *number) {
  int overflow = 0;
  long long most = PyLong_AsLongLongAndOverflow(number, &overflow);
  if (most == -1 && PyErr_Occurred()) return false;
  if (overflow < 0 || (!overflow && most < 1)) {
    PyErr_Format(PyExc_ValueError, "most is %S, and has to be 1 or more", number);
    return false;
  }
  it->most = overflow ? SIZE_MAX : (size_t)most;
  return true;
}

static bool read_most(asked *it, PyObject *given) {
  if (!given || given == Py_None) return true;
  PyObject *number = PyNumber_Index(given);
  bool is_read = number && read_number(it, number);
  Py_XDECREF(number);
  return is_read;
}

static bool read_language(asked *it, PyObject *given) {
  if (!given) return true;
  if (!PyUnicode_Check(given)) {
    PyErr_SetString(PyExc_TypeError, "a language is a str");
    return false;
  }
  it->language = PyUnicode_AsEncodedString(given, "utf-8", "replace");
  char *at = NULL;
  Py_ssize_t len = 0;
  if (!it->language || PyBytes_AsStringAndSize(it->language, &at, &len)) return false;
  it->tag = (const uint8_t *)at;
  it->tag_len = (size_t)len;
  return true;
}

bool read_asked(PyObject *args, PyObject *words, int call, asked *it) {
  static char *to_problem[] = {"body", "most", "language", "room", NULL};
  static char *to_check[] = {"body", "most", "language", "room", "places", NULL};
  static char *to_load[] = {"body", "into", "most", "language", "room", "places", NULL};
  PyObject *body = NULL, *most = NULL, *language = NULL;
  int places = 0;
  *it = (asked){.tag = NOTHING, .most = SIZE_MAX};
  if (!words && PyTuple_Size(args) == 1) return read_body(it, PyTuple_GetItem(args, 0));
  bool is_read =
      call == TO_LOAD    ? PyArg_ParseTupleAndKeywords(args, words, "O|O$OOOp:load", to_load, &body, &it->into, &most, &language, &it->room, &places)
      : call == TO_CHECK ? PyArg_ParseTupleAndKeywords(args, words, "O|$OOOp:check", to_check, &body, &most, &language, &it->room, &places)
                         : PyArg_ParseTupleAndKeywords(args, words, "O|$OOO:problem", to_problem, &body, &most, &language, &it->room);
  if (it->into == Py_None) it->into = NULL;
  if (it->room == Py_None) it->room = NULL;
  it->places = places;
  return is_read && read_body(it, body) && read_most(it, most) && read_language(it, language);
}

void drop_asked(asked *it) {
  Py_XDECREF(it->body);
  Py_XDECREF(it->language);
}
