/* Linked with libdnlab.a by --wrap=malloc, realloc and free: refuses one of the library's allocations, and counts them. */
#include <stddef.h>

/* The number of the allocation that is refused, of allocations so far, and of blocks that are held. */
long refused, asked, held;
void *__real_malloc(size_t);
void *__real_realloc(void *, size_t);
void __real_free(void *);

void *__wrap_malloc(size_t size) {
  void *block = ++asked == refused ? NULL : __real_malloc(size);
  held += block != NULL;
  return block;
}

void *__wrap_realloc(void *old, size_t size) {
  void *block = ++asked == refused ? NULL : __real_realloc(old, size);
  held += !old && block;
  return block;
}

void __wrap_free(void *block) {
  held -= block != NULL;
  __real_free(block);
}
