/* Each call while no memory is to be had: it requests none. Linked with --wrap=malloc,--wrap=realloc,--wrap=free. */
#define ROOM 300
#include "calls.h"

#include <stdio.h>

static long requests;

void *__wrap_malloc(size_t size) {
  (void)size;
  requests++;
  return NULL;
}

void *__wrap_realloc(void *old, size_t size) {
  (void)old;
  return __wrap_malloc(size);
}

void __wrap_free(void *old) { requests += old != NULL; }

int main(void) {
  static const char base[] = "x-unknown://User@HOST/a/%7e/b/../c?q";
  static const char *const texts[] = {
      "", "g", "/a/b/c/d/e/f/g/h/i/j/k/l/m/n/o/p", "X-Own://U%7e:P%7E@H%7e:1/%7e/..//a?%7e#%7e", "?%7e",
      "../../x/./y", "%", "1:2", "//[::1]:7/%41", "//[v1.X]"};
  struct written to;
  long runs = 0, accepted = 0;
  for (int which = 0; which < CALLS; which++) {
    for (size_t i = 0; i < sizeof texts / sizeof texts[0]; i++) {
      accepted += call(which, base, sizeof base - 1, texts[i], strlen(texts[i]), &to) == URIPARSE_OK;
      runs++;
    }
  }
  long requested = requests;
  printf("%ld calls, %ld accepted, %ld requests of memory\n", runs, accepted, requested);
  return requested != 0 || accepted == 0;
}
