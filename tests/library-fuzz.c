/* The entry point of libFuzzer for the library of crates/use_library. The first bytes choose how many faults are wanted, the room and
 * the language, the others are the body. Each way to ask has to give the same answer, and nothing is written behind the room. Nodes are
 * walked as a caller walks them: each text lies in the body or in the texts, and there is no node too many.
 * The library has no counters of its own, so what it answers is counted: an answer that has something new is kept.
 *
 *     clang -g -O1 -fsanitize=fuzzer,address -I crates/use_library tests/library-fuzz.c \
 *         crates/use_library/out/libuse_library.a KIT/c/liblibc_c.a -o fuzz
 *     ./fuzz -max_total_time=600 CORPUS
 */
#include <stdlib.h>
#include <string.h>

#include "order.h"

static order_checker kept = ORDER_CHECKER_EMPTY;

__attribute__((section("__libfuzzer_extra_counters"), no_sanitize("address"), used)) static uint8_t answers[1 << 14];

/* Counts each piece of six bytes of an answer. */
static void count(int status, const uint8_t *text, size_t len) {
  uint32_t hash = (uint32_t)status;
  for (size_t i = 0; i < len; i++) {
    hash = i % 6 == 5 ? 0 : hash * 31 + text[i];
    answers[hash % sizeof answers] = 1;
  }
  answers[(uint32_t)status % sizeof answers] = 1;
}

static void expect(bool holds) {
  if (!holds) abort();
}

/* Nodes and texts in pieces of just their lengths. */
typedef struct {
  order_node *nodes;
  uint8_t *texts;
  size_t nodes_len, nodes_used, texts_len, texts_used;
} value;

static value room_of(size_t nodes, size_t texts) {
  return (value){malloc(nodes * sizeof(order_node) + !nodes), malloc(texts + !texts), nodes, 9, texts, 9};
}

static void drop(value *it) {
  free(it->nodes);
  free(it->texts);
}

/* Reads each byte of a text. */
static void touch(const order_node *it, const uint8_t *body, size_t body_len, const value *in) {
  size_t size = it->in_texts ? in->texts_used : body_len;
  const uint8_t *from = it->in_texts ? in->texts : body;
  uint32_t hash = it->in_texts;
  expect(it->value <= size && it->len <= size - it->value);
  for (uint32_t i = 0; i < it->len; i++) hash = hash * 31 + from[it->value + i];
  answers[hash % sizeof answers] = 1;
}

/* The node behind a value, so many lists and objects deep. */
static size_t walk(const value *in, size_t at, const uint8_t *body, size_t body_len, int deep) {
  expect(at < in->nodes_used && deep <= 128);
  const order_node *it = &in->nodes[at++];
  expect(it->kind <= ORDER_NODE_OBJECT);
  if (it->kind == ORDER_NODE_TEXT || it->kind == ORDER_NODE_NUMBER) touch(it, body, body_len, in);
  if (it->kind < ORDER_NODE_LIST) return at;
  for (uint64_t i = 0; i < it->value; i++) {
    if (it->kind == ORDER_NODE_OBJECT) {
      expect(at < in->nodes_used && in->nodes[at].kind == ORDER_NODE_TEXT);
      touch(&in->nodes[at++], body, body_len, in);
    }
    at = walk(in, at, body, body_len, deep + 1);
  }
  return at;
}

/* The whole value, where there is one. It is asked for once more with the room that it wants. */
static void try_value(const uint8_t *body, size_t body_len, size_t room, int status) {
  value few = room_of(room / 16, room / 64);
  int first = order_value_with(&kept, body, body_len, few.nodes, few.nodes_len, &few.nodes_used, few.texts, few.texts_len, &few.texts_used);
  value all = room_of(few.nodes_used, few.texts_used);
  int again = order_value_with(&kept, body, body_len, all.nodes, all.nodes_len, &all.nodes_used, all.texts, all.texts_len, &all.texts_used);
  expect(first == status && again == status && few.nodes_used == all.nodes_used && few.texts_used == all.texts_used);
  expect((all.nodes_used > 0) == (status == ORDER_VALID));
  if (all.nodes_used) expect(walk(&all, 0, body, body_len, 0) == all.nodes_used);
  drop(&few);
  drop(&all);
}

/* The faults as nodes, whose texts lie in no body, and the details as text where there is room for a byte. */
static void try_faults(const uint8_t *body, size_t body_len, size_t most, const uint8_t *language, size_t language_len, const uint8_t *details,
                       size_t details_len, int status) {
  for (size_t room = 0; room <= details_len; room += details_len / 2 + 1) {
    value few = room_of(0, 0);
    uint8_t *out = malloc(room + !room);
    size_t len = 9, places = 9;
    order_place none;
    int found = order_faults_with(&kept, body, body_len, most, language, language_len, out, room, &len, few.nodes, 0, &few.nodes_used, few.texts, 0,
                                  &few.texts_used, &none, 0, &places);
    value all = room_of(few.nodes_used, few.texts_used);
    order_faults_with(&kept, body, body_len, most, language, language_len, out, room, &len, all.nodes, all.nodes_len, &all.nodes_used, all.texts,
                      all.texts_len, &all.texts_used, &none, 0, &places);
    expect(found == status && len == (room ? details_len : 0) && few.nodes_used == all.nodes_used && !memcmp(out, details, room));
    expect((all.nodes_used > 0) == (details_len > 0));
    if (all.nodes_used) expect(walk(&all, 0, out, 0, 0) == all.nodes_used);
    drop(&few);
    drop(&all);
    free(out);
  }
}

int LLVMFuzzerTestOneInput(const uint8_t *input, size_t input_len) {
  static const uint8_t WHOLE[] = "cs";
  if (input_len < 2) return 0;
  size_t most = input[0] % 8 == 7 ? SIZE_MAX : input[0] % 8, room = (size_t)input[1] * 4, language_len = input[0] & 8 ? 2 : 0;
  size_t body_len = input_len - 2, len = 1, kept_len = 2;
  /* Pieces of just this length, so that AddressSanitizer sees each byte behind them. */
  uint8_t *body = malloc(body_len + !body_len), *out = malloc(room + !room), *kept_out = malloc(room + !room);
  memcpy(body, input + 2, body_len);
  int status = order_check(body, body_len, most, WHOLE, language_len, out, room, &len);
  int kept_status = order_check_with(&kept, body, body_len, most, WHOLE, language_len, kept_out, room, &kept_len);
  expect(status == kept_status && len == kept_len && !memcmp(out, kept_out, len < room ? len : room));
  expect((status == ORDER_WRONG_ARGUMENT) == (most == 0) && status <= ORDER_WRONG_ARGUMENT);
  expect((len > 0) == (status == ORDER_FAULTS || status == ORDER_NO_JSON));
  expect(most == 0 || order_is_valid(body, body_len) == status);
  if (most > 0) try_value(body, body_len, room, status);
  if (len <= room) try_faults(body, body_len, most, WHOLE, language_len, out, len, status);
  expect(!memcmp(body, input + 2, body_len));
  count(status, out, len < room ? len : room);
  if (input[0] & 16) order_free(&kept);
  free(body);
  free(out);
  free(kept_out);
  return 0;
}
