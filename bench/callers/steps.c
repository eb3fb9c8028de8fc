/* steps CALL FILE COUNT: calls the library COUNT times on the body in FILE, and prints the requests for memory of the last call. Its
 * instructions are counted by valgrind. */
#include <stdio.h>
#include <stdlib.h>
#include <string.h>

#include "order.h"

static uint8_t body[1 << 20], out[1 << 20], texts[1 << 20];
static order_node nodes[1 << 16];
static long requests;

void *__real_malloc(size_t size);
void *__real_realloc(void *at, size_t size);

void *__wrap_malloc(size_t size) {
  requests++;
  return __real_malloc(size);
}

void *__wrap_realloc(void *at, size_t size) {
  requests++;
  return __real_realloc(at, size);
}

static uint8_t called(order_checker *checker, const char *call, size_t len) {
  const uint8_t *tag = (const uint8_t *)"";
  size_t size, count, used, found;
  order_place place;
  if (!strcmp(call, "value")) return order_value_with(checker, body, len, nodes, sizeof nodes / sizeof *nodes, &count, texts, sizeof texts, &used);
  if (!strcmp(call, "details")) return order_check_with(checker, body, len, SIZE_MAX, tag, 0, out, sizeof out, &size);
  return order_faults_with(checker, body, len, SIZE_MAX, tag, 0, out, 0, &size, nodes, sizeof nodes / sizeof *nodes, &count, texts, sizeof texts,
                           &used, &place, 0, &found);
}

int main(int argc, char **argv) {
  FILE *file = argc == 4 ? fopen(argv[2], "rb") : NULL;
  if (!file) return 2;
  size_t len = fread(body, 1, sizeof body, file);
  order_checker checker = ORDER_CHECKER_EMPTY;
  uint8_t status = ORDER_MEMORY;
  for (long left = atol(argv[3]); left > 0; left--) {
    requests = 0;
    status = called(&checker, argv[1], len);
  }
  printf("%d %ld\n", status, requests);
  order_free(&checker);
  return fclose(file) != 0;
}
