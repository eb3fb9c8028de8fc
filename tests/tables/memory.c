#include "order.h"
uint32_t order_version(void) { return VERSION; }
uint8_t order_is_valid(const uint8_t *b, size_t n) { (void)b, (void)n; return ORDER_MEMORY; }
uint8_t order_check_with(order_checker *c, const uint8_t *b, size_t n, size_t m, const uint8_t *l, size_t k, uint8_t *o,
                         size_t r, size_t *len) {
  (void)c, (void)b, (void)n, (void)m, (void)l, (void)k, (void)o, (void)r;
  *len = 0;
  return ORDER_MEMORY;
}
uint8_t order_value_with(order_checker *c, const uint8_t *b, size_t n, order_node *o, size_t r, size_t *len, uint8_t *t, size_t s, size_t *k) {
  (void)c, (void)b, (void)n, (void)o, (void)r, (void)t, (void)s;
  *len = *k = 0;
  return ORDER_MEMORY;
}
uint8_t order_faults_with(order_checker *c, const uint8_t *b, size_t n, size_t m, const uint8_t *l, size_t k, uint8_t *o, size_t r, size_t *len,
                          order_node *d, size_t e, size_t *f, uint8_t *t, size_t s, size_t *u, order_place *p, size_t q, size_t *v) {
  (void)c, (void)b, (void)n, (void)m, (void)l, (void)k, (void)o, (void)r, (void)d, (void)e, (void)t, (void)s, (void)p, (void)q;
  *len = *f = *u = *v = 0;
  return ORDER_MEMORY;
}
void order_free(order_checker *c) { (void)c; }
