/* The memory of the library, over malloc, realloc and free. Link it with the archive of the library, or put functions of your own in its
 * place. */
#include "interlaken_alloc.h"
#include <stdlib.h>

static char none;

static struct rattle_tried tried(void *at) {
  struct rattle_tried answer;
  answer.memory = at != NULL;
  answer.at = at != NULL ? at : &none;
  return answer;
}

struct rattle_tried rattle_alloc(size_t size, size_t align) {
  return tried(malloc(size != 0 ? size : align));
}

struct rattle_tried rattle_realloc(void *at, size_t kept, size_t size, size_t align) {
  (void)kept;
  return tried(realloc(at, size != 0 ? size : align));
}

void rattle_dealloc(void *at) {
  free(at);
}
