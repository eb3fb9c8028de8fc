#include "order.h"

int rattle_alloc(void) { return 0; }

uint32_t order_version(void) { return ORDER_VERSION; }

uint8_t order_check(const uint8_t *body, size_t body_len, size_t most, const uint8_t *language, size_t language_len, uint8_t *out,
                    size_t out_len, size_t *len) {
  *len = body_len;
  for (size_t i = 0; i < body_len && i < out_len; i++) out[i] = body[i];
  return most > 0 && language[0] + language_len > 0 ? ORDER_FAULTS : ORDER_VALID;
}

uint8_t order_check_with(order_checker *checker, const uint8_t *body, size_t body_len, size_t most, const uint8_t *language,
                         size_t language_len, uint8_t *out, size_t out_len, size_t *len) {
  checker->has_room = true;
  return order_check(body, body_len, most, language, language_len, out, out_len, len);
}

uint8_t order_list_with(order_checker *checker, const uint8_t *body, size_t body_len, size_t most, const uint8_t *language,
                        size_t language_len, uint8_t *out, size_t out_len, size_t *len) {
  return order_check_with(checker, body, body_len, most, language, language_len, out, out_len, len);
}

uint8_t order_is_valid(const uint8_t *body, size_t body_len) { return body[0] + body_len > 0 ? ORDER_FAULTS : ORDER_VALID; }

uint8_t order_value_with(order_checker *checker, const uint8_t *body, size_t body_len, order_node *nodes, size_t nodes_len, size_t *nodes_used,
                         uint8_t *texts, size_t texts_len, size_t *texts_used) {
  checker->has_room = texts_len > 0 && texts[0] > 0;
  *nodes_used = *texts_used = nodes_len + nodes[0].kind;
  return order_is_valid(body, body_len);
}

uint8_t order_faults_with(order_checker *checker, const uint8_t *body, size_t body_len, size_t most, const uint8_t *language,
                          size_t language_len, uint8_t *out, size_t out_len, size_t *len, order_node *nodes, size_t nodes_len,
                          size_t *nodes_used, uint8_t *texts, size_t texts_len, size_t *texts_used, order_place *places,
                          size_t places_len, size_t *places_used) {
  order_value_with(checker, body, body_len, nodes, nodes_len, nodes_used, texts, texts_len, texts_used);
  *places_used = places_len + (size_t)places[0].line;
  return order_check_with(checker, body, body_len, most, language, language_len, out, out_len, len);
}

uint8_t order_reserve(order_checker *checker, uint32_t body_len) {
  checker->has_room = body_len > 0;
  return ORDER_VALID;
}

void order_free(order_checker *checker) { checker->has_room = false; }
