/* Checks the bodies on standard input, each with its length, the most faults and the length of a tag before it. Writes of each the
 * status, a length, and so many bytes: the details with the line and the column of each fault, or of a valid body its value, as
 * `JSON.stringify` of JavaScript writes it. */
#include <inttypes.h>
#include <stdio.h>
#include <stdlib.h>
#include <string.h>

#include "order.h"

enum { ROOM = 1 << 24 };
static uint8_t out[ROOM], texts[ROOM];
static order_node nodes[ROOM / 16];
static order_place places[ROOM / 16];
static size_t len;

static void put(const char *text) {
  while (*text) out[len++] = (uint8_t)*text++;
}

/* Writes a text between quotes. */
static void put_text(const order_node *it, const uint8_t *body) {
  const uint8_t *at = (it->in_texts ? texts : body) + it->value;
  const char *escaped = "\"\\\b\f\n\r\t", *letters = "\"\\bfnrt";
  put("\"");
  for (const uint8_t *end = at + it->len; at < end; at++) {
    const char *found = *at ? strchr(escaped, *at) : NULL;
    if (found || *at < 32) len += (size_t)sprintf((char *)out + len, found ? "\\%c" : "\\u%04x", found ? letters[found - escaped] : *at);
    else out[len++] = *at;
  }
  put("\"");
}

/* Writes a value. Returns the node behind it. */
static const order_node *put_value(const order_node *it, const uint8_t *body) {
  static const char *const words[] = {"null", "false", "true", "", "-"};
  if (it->kind <= ORDER_NODE_NEGATIVE) put(words[it->kind]);
  if (it->kind == ORDER_NODE_WHOLE || it->kind == ORDER_NODE_NEGATIVE) len += (size_t)sprintf((char *)out + len, "%" PRIu64, it->value);
  if (it->kind == ORDER_NODE_TEXT) put_text(it, body);
  if (it->kind < ORDER_NODE_LIST) return it + 1;
  bool is_list = it->kind == ORDER_NODE_LIST;
  const order_node *next = it + 1;
  put(is_list ? "[" : "{");
  for (uint64_t n = 0; n < it->value; n++) {
    if (n) put(",");
    if (!is_list) put_text(next++, body), put(":");
    next = put_value(next, body);
  }
  put(is_list ? "]" : "}");
  return next;
}

/* Writes the value of a valid body. Returns whether its nodes are all that there are. */
static bool value_of(order_checker *checker, const uint8_t *body, size_t body_len) {
  size_t used = 0, texts_used = 0;
  uint8_t status = order_value_with(checker, body, body_len, nodes, ROOM / 16, &used, texts, ROOM, &texts_used);
  len = 0;
  return status == ORDER_VALID && used <= ROOM / 16 && put_value(nodes, body) == nodes + used;
}

/* Checks a body, and writes the places of its faults behind the details. */
static uint8_t checked(order_checker *checker, const uint8_t *body, size_t body_len, size_t most, size_t language_len) {
  size_t nodes_used, texts_used, count;
  uint8_t status = order_faults_with(checker, body, body_len, most, (const uint8_t *)"cs", language_len, out, ROOM, &len, nodes, ROOM / 16,
                                     &nodes_used, texts, ROOM, &texts_used, places, ROOM / 16, &count);
  for (size_t n = 0; n < count; n++) len += (size_t)sprintf((char *)out + len, " %" PRIu64 ":%" PRIu64, places[n].line, places[n].column);
  return status;
}

int main(void) {
  order_checker checker = ORDER_CHECKER_EMPTY;
  uint32_t head[3];
  while (fread(head, sizeof head, 1, stdin) == 1) {
    uint8_t *body = malloc(head[0] + 1);
    if (!body || fread(body, 1, head[0], stdin) != head[0]) return 1;
    size_t most = head[1] == UINT32_MAX ? SIZE_MAX : head[1];
    uint8_t status = checked(&checker, body, head[0], most, head[2]);
    if (status == ORDER_VALID && !value_of(&checker, body, head[0])) return 1;
    uint32_t said[2] = {status, (uint32_t)len};
    if (len > sizeof out || fwrite(said, sizeof said, 1, stdout) != 1 || fwrite(out, 1, len, stdout) != len) return 1;
    free(body);
  }
  order_free(&checker);
  return 0;
}
