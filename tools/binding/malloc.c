/* The heap of the library where there is a C library, as `liblibc_c.a` of the toolchain has it for x86-64. */
#include <stdlib.h>

typedef struct { size_t is_there; void *at; } tried;
static char nothing;

static tried given(void *at) { return (tried){at != NULL, at ? at : &nothing}; }
tried rattle_alloc(size_t bytes, size_t align) { return given(malloc(bytes ? bytes : align)); }
tried rattle_realloc(void *at, size_t old, size_t bytes, size_t align) { return given(realloc(at, bytes ? bytes : align)); }
void rattle_dealloc(void *at) { free(at); }
