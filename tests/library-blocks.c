/* Counts blocks and requests for memory, and refuses the request that is chosen: a part of library.c and of library-schemas.c, which are
 * linked with --wrap for malloc, realloc and free. */
void *__real_malloc(size_t size);
void *__real_realloc(void *block, size_t size);
void __real_free(void *block);

static _Atomic long blocks, requests, refused, wrong;

static bool refuses(void) { return ++requests == refused; }

void *__wrap_malloc(size_t size) {
  void *block = refuses() ? NULL : __real_malloc(size);
  blocks += block != NULL;
  return block;
}

void *__wrap_realloc(void *block, size_t size) {
  void *moved = refuses() ? NULL : __real_realloc(block, size);
  blocks += !block && moved;
  return moved;
}

void __wrap_free(void *block) {
  blocks -= block != NULL;
  __real_free(block);
}

static void expect(bool holds, const char *what) {
  if (holds) return;
  wrong++;
  printf("%s\n", what);
}
