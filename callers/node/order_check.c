/* The functions of order.h, for index.js. They keep no state of their own: a room is a value of JavaScript, so each thread of
 * Node has its own. What index.js has not checked is checked here: a wrong argument throws, and reads nothing.
 */
#define NAPI_VERSION 8
#include <node_api.h>
#include <stdlib.h>
#include <string.h>

#include "order.h"

/* What a call works in: a checker, and memory for details or a text, for texts with an escape, and for places, which grow by need; and
 * the schema of a validator. */
typedef struct {
  order_checker checker;
  uint8_t *details, *texts;
  size_t size, texts_size;
  order_place *places;
  size_t places_size, places_used;
  uint8_t *schema;
  size_t schema_len;
} room;

/* The schema that a room judges by: an argument of each call, where the library takes one. One without bytes is the schema of
 * schemas. */
#ifdef ORDER_TAKES_SCHEMA
#define BY(in) (in) && (in)->schema ? (in)->schema : NOTHING, (in) ? (in)->schema_len : 0,
#else
#define BY(in)
#endif

/* Bytes, which are never at NULL. */
typedef struct {
  const uint8_t *at;
  size_t len;
} bytes;

/* A typed array of JavaScript: its elements, and how many there are. */
typedef struct {
  void *at;
  size_t len;
} array;

/* The arguments of a check. */
typedef struct {
  room *room;
  bytes body, language;
  size_t most;
  char tag[64];
} asked;

static const uint8_t *const NOTHING = (const uint8_t *)"";
/* Bytes that a room has for details at first, and places, and about what it holds in all. */
static const size_t FIRST = 16 * 1024, FIRST_PLACES = 64, FIRST_TEXTS = 64;
static const int64_t HELD = 20 * 1024;

static napi_value failed(napi_env env, const char *message) {
  bool pending = false;
  napi_is_exception_pending(env, &pending);
  if (!pending) napi_throw_type_error(env, NULL, message);
  return NULL;
}

static void empty(room *it) {
  order_free(&it->checker);
  free(it->details);
  free(it->texts);
  free(it->places);
  *it = (room){.checker = it->checker, .schema = it->schema, .schema_len = it->schema_len};
}

/* V8 learns what a room holds, about, so that it collects rooms in time. */
static void weigh(napi_env env, int64_t change) {
  int64_t all = 0;
  napi_adjust_external_memory(env, change, &all);
}

static void drop(napi_env env, void *given, void *hint) {
  (void)hint;
  empty(given);
  free(((room *)given)->schema);
  free(given);
  weigh(env, -HELD);
}

/* Makes memory for so many things of a size. */
static bool grow(void *held, size_t *has, size_t wanted, size_t size) {
  void **at = held;
  if (wanted <= *has) return true;
  void *made = wanted <= SIZE_MAX / size ? realloc(*at, wanted * size) : NULL;
  if (!made) return false;
  *at = made;
  *has = wanted;
  return true;
}

static bool room_of(napi_env env, napi_value value, room **found) {
  return napi_get_value_external(env, value, (void **)found) == napi_ok;
}

static bool bytes_of(napi_env env, napi_value value, bytes *found) {
  void *at = NULL;
  if (napi_get_buffer_info(env, value, &at, &found->len) != napi_ok) return false;
  found->at = at ? at : NOTHING;
  return true;
}

static bool array_of(napi_env env, napi_value value, napi_typedarray_type wanted, array *found) {
  napi_typedarray_type type;
  return napi_get_typedarray_info(env, value, &type, &found->len, &found->at, NULL, NULL) == napi_ok && type == wanted;
}

/* A number of faults: all, where it is larger than C can say. */
static bool most_of(napi_env env, napi_value value, size_t *found) {
  double most = 0;
  if (napi_get_value_double(env, value, &most) != napi_ok || !(most >= 1)) return false;
  *found = most < 9007199254740992.0 ? (size_t)most : SIZE_MAX;
  return true;
}

/* The tag of a language. One that is longer than any tag is cut, and is no tag then either. */
static bool language_of(napi_env env, napi_value value, asked *it) {
  it->language.at = (const uint8_t *)it->tag;
  return napi_get_value_string_utf8(env, value, it->tag, sizeof it->tag, &it->language.len) == napi_ok;
}

/* Checks a body. Where there is too little room for the details, it asks again with more. */
static uint8_t checked(const asked *it, size_t *len) {
  room *in = it->room;
  *len = FIRST;
  uint8_t status = ORDER_MEMORY;
  do {
    if (!grow(&in->details, &in->size, *len, 1)) return ORDER_MEMORY;
    status = order_check_with(&in->checker, BY(in) it->body.at, it->body.len, it->most, it->language.at, it->language.len, in->details,
                              in->size, len);
  } while (*len > in->size);
  return status;
}

/* newRoom(): a room, which is freed when it is no longer used. */
static napi_value new_room(napi_env env, napi_callback_info info) {
  (void)info;
  napi_value made = NULL;
  room *it = calloc(1, sizeof *it);
  if (!it || napi_create_external(env, it, drop, NULL, &made) != napi_ok) {
    free(it);
    return failed(env, "no room is made");
  }
  weigh(env, HELD);
  return made;
}

/* emptyRoom(room): frees what a room holds. */
static napi_value empty_room(napi_env env, napi_callback_info info) {
  napi_value word;
  size_t count = 1;
  room *it = NULL;
  if (napi_get_cb_info(env, info, &count, &word, NULL, NULL) != napi_ok || !room_of(env, word, &it))
    return failed(env, "no room");
  empty(it);
  return NULL;
}

/* The arguments of a check: a room, a body, how many faults at most, and a language. */
static bool asked_of(napi_env env, napi_value *words, asked *it) {
  if (!room_of(env, words[0], &it->room)) return failed(env, "no room");
  if (!bytes_of(env, words[1], &it->body)) return failed(env, "a body is a Uint8Array");
  if (!most_of(env, words[2], &it->most)) return failed(env, "most is a number from 1 on");
  return language_of(env, words[3], it) || failed(env, "a language is a string");
}

static napi_value number_of(napi_env env, uint8_t status) {
  napi_value number;
  return napi_create_uint32(env, status, &number) == napi_ok ? number : failed(env, "no status");
}

/* check(room, body, most, language): the status, or an array of it and of the details where there are some. */
static napi_value check(napi_env env, napi_callback_info info) {
  napi_value words[4], details, all;
  size_t count = 4, len = 0;
  asked it;
  if (napi_get_cb_info(env, info, &count, words, NULL, NULL) != napi_ok || !asked_of(env, words, &it)) return failed(env, "no arguments");
  uint8_t status = checked(&it, &len);
  napi_value number = number_of(env, status);
  if (!number || (status != ORDER_FAULTS && status != ORDER_NO_JSON)) return number;
  if (napi_create_buffer_copy(env, len, it.room->details, NULL, &details) != napi_ok) return failed(env, "no details");
  if (napi_create_array_with_length(env, 2, &all) != napi_ok || napi_set_element(env, all, 0, number) != napi_ok ||
      napi_set_element(env, all, 1, details) != napi_ok)
    return failed(env, "no answer");
  return all;
}

/* isValid(body), isValid(body, room): the status. */
static napi_value is_valid(napi_env env, napi_callback_info info) {
  napi_value words[2];
  size_t count = 2;
  bytes body;
  room *in = NULL;
  if (napi_get_cb_info(env, info, &count, words, NULL, NULL) != napi_ok || !bytes_of(env, words[0], &body))
    return failed(env, "a body is a Uint8Array");
  if (count > 1 && !room_of(env, words[1], &in)) return failed(env, "no room");
  (void)in;
  return number_of(env, order_is_valid(BY(in) body.at, body.len));
}

#ifdef ORDER_TAKES_SCHEMA
/* setSchema(room, schema): keeps a copy of the schema that the room of a validator judges by. */
static napi_value set_schema(napi_env env, napi_callback_info info) {
  napi_value words[2];
  size_t count = 2;
  room *in = NULL;
  bytes schema;
  if (napi_get_cb_info(env, info, &count, words, NULL, NULL) != napi_ok || !room_of(env, words[0], &in) || !bytes_of(env, words[1], &schema))
    return failed(env, "a room has a schema");
  uint8_t *kept = malloc(schema.len + 1);
  if (!kept) return failed(env, "no schema is kept");
  memcpy(kept, schema.at, schema.len);
  free(in->schema);
  in->schema = kept;
  in->schema_len = schema.len;
  return NULL;
}
#endif

/* Whether bytes are ASCII. */
static bool is_plain(const uint8_t *at, size_t len) {
  uint64_t all = 0, next;
  size_t i = 0;
  for (; len - i >= sizeof next; i += sizeof next) {
    memcpy(&next, at + i, sizeof next);
    all |= next;
  }
  for (; i < len; i++) all |= at[i];
  return !(all & 0x8080808080808080);
}

/* How many units of UTF-16 are before a byte of a text. Bytes are asked for in their order most often, so none is counted twice, and of
 * ASCII none is counted. */
typedef struct {
  const uint8_t *text;
  bool plain;
  size_t byte, unit, first_byte, first_unit;
} counter;

static size_t units_before(counter *in, size_t byte) {
  if (in->plain) return byte;
  if (byte < in->byte) {
    in->byte = in->first_byte;
    in->unit = in->first_unit;
  }
  for (; in->byte < byte; in->byte++) {
    uint8_t it = in->text[in->byte];
    in->unit += ((it & 0xC0) != 0x80) + (it >= 0xF0);
  }
  return in->unit;
}

/* Gives each text of these nodes the place that it has in a text of the body and of the texts with an escape, in units of UTF-16. */
static void place(order_node *nodes, size_t count, const uint8_t *text, size_t body_len, bool plain) {
  counter in_body = {.text = text, .plain = plain}, in_texts = in_body;
  in_texts.byte = in_texts.first_byte = body_len;
  in_texts.unit = in_texts.first_unit = units_before(&in_body, body_len);
  for (order_node *it = nodes; it < nodes + count; it++) {
    if (it->kind != ORDER_NODE_TEXT && it->kind != ORDER_NODE_NUMBER) continue;
    counter *in = it->in_texts ? &in_texts : &in_body;
    size_t from = (it->in_texts ? body_len : 0) + it->value, end = from + it->len;
    it->value = units_before(in, from);
    it->len = (uint32_t)(units_before(in, end) - it->value);
    it->in_texts = false;
  }
}

/* The text in which the texts of a value lie, as its nodes say then: the body, with those behind it that it has with an escape. */
static napi_value text_of(napi_env env, room *in, bytes body, int32_t *nodes, size_t texts_used) {
  napi_value text;
  const uint8_t *at = body.len ? body.at : in->texts;
  size_t len = body.len + texts_used;
  bool plain = is_plain(body.at, body.len) && is_plain(in->texts, texts_used);
  if (body.len && texts_used) {
    if (!grow(&in->details, &in->size, len, 1)) return failed(env, "no memory for a text");
    memcpy(in->details, body.at, body.len);
    memcpy(in->details + body.len, in->texts, texts_used);
    at = in->details;
  }
  if (texts_used || !plain) place((order_node *)nodes + 1, (size_t)nodes[0], at, body.len, plain);
  nodes[1] = plain && body.len <= INT32_MAX ? (int32_t)body.len : 0;
  napi_status made = plain ? napi_create_string_latin1(env, (const char *)at, len, &text) : napi_create_string_utf8(env, (const char *)at, len, &text);
  return made == napi_ok ? text : failed(env, "no text");
}

/* Nodes for which there is room: behind the first one. */
static bool nodes_of(napi_env env, napi_value value, array *nodes) {
  return array_of(env, value, napi_int32_array, nodes) && nodes->len >= 8 && !((uintptr_t)nodes->at % _Alignof(order_node));
}

static size_t room_for(const array *nodes) { return nodes->len * 4 / sizeof(order_node) - 1; }

/* value(room, body, nodes): the text in which the texts of the value lie, and in `nodes` how many nodes there are, how many bytes
 * of the body it begins with, where it is ASCII, and from the second node on the nodes. The status, where it is not valid; also of a
 * valid body for whose nodes there is not enough room. */
static napi_value value(napi_env env, napi_callback_info info) {
  napi_value words[3];
  size_t count = 3, nodes_used = 0, texts_used = FIRST_TEXTS;
  room *in = NULL;
  bytes body;
  array nodes;
  if (napi_get_cb_info(env, info, &count, words, NULL, NULL) != napi_ok || !room_of(env, words[0], &in)) return failed(env, "no room");
  if (!bytes_of(env, words[1], &body)) return failed(env, "a body is a Uint8Array");
  if (!nodes_of(env, words[2], &nodes)) return failed(env, "no room for a value");
  uint8_t status = ORDER_MEMORY;
  do {
    if (!grow(&in->texts, &in->texts_size, texts_used, 1)) return number_of(env, ORDER_MEMORY);
    status = order_value_with(&in->checker, BY(in) body.at, body.len, (order_node *)nodes.at + 1, room_for(&nodes), &nodes_used, in->texts,
                              in->texts_size, &texts_used);
  } while (texts_used > in->texts_size);
  ((int32_t *)nodes.at)[0] = (int32_t)nodes_used;
  if (status != ORDER_VALID || nodes_used > room_for(&nodes)) return number_of(env, status);
  return text_of(env, in, body, nodes.at, texts_used);
}

/* faults(room, body, most, language, nodes, hasPlaces): as `value`, of the problem details of a body with faults. The status of any other,
 * and where there is not enough room. */
static napi_value faults(napi_env env, napi_callback_info info) {
  napi_value words[6];
  size_t count = 6, none = 0, nodes_used = 0, texts_used = FIRST, places = FIRST_PLACES;
  asked it;
  array nodes;
  bool has_places = false;
  if (napi_get_cb_info(env, info, &count, words, NULL, NULL) != napi_ok || !asked_of(env, words, &it)) return failed(env, "no arguments");
  if (!nodes_of(env, words[4], &nodes)) return failed(env, "no room for faults");
  if (napi_get_value_bool(env, words[5], &has_places) != napi_ok) return failed(env, "places is true or false");
  room *in = it.room;
  uint8_t status = ORDER_MEMORY;
  do {
    if (!grow(&in->texts, &in->texts_size, texts_used, 1) || !grow(&in->places, &in->places_size, places, sizeof *in->places))
      return number_of(env, ORDER_MEMORY);
    status = order_faults_with(&in->checker, BY(in) it.body.at, it.body.len, it.most, it.language.at, it.language.len, in->texts, 0, &none,
                               (order_node *)nodes.at + 1, room_for(&nodes), &nodes_used, in->texts, in->texts_size, &texts_used, in->places,
                               has_places ? in->places_size : 0, &places);
  } while (texts_used > in->texts_size || places > in->places_size);
  in->places_used = places;
  ((int32_t *)nodes.at)[0] = (int32_t)nodes_used;
  if (status != ORDER_FAULTS || nodes_used > room_for(&nodes)) return number_of(env, status);
  return text_of(env, in, (bytes){NOTHING, 0}, nodes.at, texts_used);
}

/* places(room): line and column of each fault, one after the other. */
static napi_value places(napi_env env, napi_callback_info info) {
  napi_value word, buffer, made;
  size_t count = 1;
  room *in = NULL;
  void *at = NULL;
  if (napi_get_cb_info(env, info, &count, &word, NULL, NULL) != napi_ok || !room_of(env, word, &in)) return failed(env, "no room");
  if (napi_create_arraybuffer(env, 2 * in->places_used * sizeof(double), &at, &buffer) != napi_ok) return failed(env, "no places");
  for (size_t i = 0; i < in->places_used; i++) {
    ((double *)at)[2 * i] = (double)in->places[i].line;
    ((double *)at)[2 * i + 1] = (double)in->places[i].column;
  }
  return napi_create_typedarray(env, napi_float64_array, 2 * in->places_used, buffer, 0, &made) == napi_ok ? made : failed(env, "no places");
}

NAPI_MODULE_INIT() {
  const napi_property_descriptor functions[] = {
      {.utf8name = "newRoom", .method = new_room},
      {.utf8name = "emptyRoom", .method = empty_room},
      {.utf8name = "check", .method = check},
      {.utf8name = "isValid", .method = is_valid},
      {.utf8name = "value", .method = value},
      {.utf8name = "faults", .method = faults},
      {.utf8name = "places", .method = places},
#ifdef ORDER_TAKES_SCHEMA
      {.utf8name = "setSchema", .method = set_schema},
#endif
  };
  if (order_version() != ORDER_VERSION) return failed(env, "the library has another version than its header");
  if (napi_define_properties(env, exports, sizeof functions / sizeof *functions, functions) != napi_ok)
    return failed(env, "no functions");
  return exports;
}
