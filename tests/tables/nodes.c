/* A library whose values are those that the body spells out: the number of nodes and of bytes of texts, as 8 bytes each, the nodes, the
 * texts. So a caller meets values that no order has. Every body is valid. */
#include <string.h>

#include "order.h"

int rattle_alloc(void) { return 0; }

static size_t least(size_t a, size_t b) { return a < b ? a : b; }

uint32_t order_version(void) { return ORDER_VERSION; }

uint8_t order_is_valid(const uint8_t *body, size_t body_len) {
  (void)body;
  return body_len > 0 ? ORDER_VALID : ORDER_NO_JSON;
}

uint8_t order_check_with(order_checker *checker, const uint8_t *body, size_t body_len, size_t most, const uint8_t *language,
                         size_t language_len, uint8_t *out, size_t out_len, size_t *len) {
  (void)checker, (void)most, (void)language, (void)language_len, (void)out, (void)out_len;
  *len = 0;
  return order_is_valid(body, body_len);
}

uint8_t order_list_with(order_checker *checker, const uint8_t *body, size_t body_len, size_t most, const uint8_t *language,
                        size_t language_len, uint8_t *out, size_t out_len, size_t *len) {
  return order_check_with(checker, body, body_len, most, language, language_len, out, out_len, len);
}

uint8_t order_check(const uint8_t *body, size_t body_len, size_t most, const uint8_t *language, size_t language_len, uint8_t *out,
                    size_t out_len, size_t *len) {
  return order_check_with(NULL, body, body_len, most, language, language_len, out, out_len, len);
}

uint8_t order_value_with(order_checker *checker, const uint8_t *body, size_t body_len, order_node *nodes, size_t nodes_len, size_t *nodes_used,
                         uint8_t *texts, size_t texts_len, size_t *texts_used) {
  uint64_t counts[2];
  checker->has_room = false;
  memcpy(counts, body, sizeof counts);
  *nodes_used = counts[0];
  *texts_used = counts[1];
  memcpy(nodes, body + sizeof counts, least(nodes_len, counts[0]) * sizeof *nodes);
  memcpy(texts, body + sizeof counts + counts[0] * sizeof *nodes, least(texts_len, counts[1]));
  return order_is_valid(body, body_len);
}

uint8_t order_faults_with(order_checker *checker, const uint8_t *body, size_t body_len, size_t most, const uint8_t *language,
                          size_t language_len, uint8_t *out, size_t out_len, size_t *len, order_node *nodes, size_t nodes_len,
                          size_t *nodes_used, uint8_t *texts, size_t texts_len, size_t *texts_used, order_place *places, size_t places_len,
                          size_t *places_used) {
  (void)nodes, (void)nodes_len, (void)texts, (void)texts_len, (void)places, (void)places_len;
  *nodes_used = *texts_used = *places_used = 0;
  return order_check_with(checker, body, body_len, most, language, language_len, out, out_len, len);
}

uint8_t order_reserve(order_checker *checker, uint32_t body_len) {
  checker->has_room = body_len > 0;
  return ORDER_VALID;
}

void order_free(order_checker *checker) { checker->has_room = false; }
