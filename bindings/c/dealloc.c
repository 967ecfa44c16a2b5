/* What the library calls to free memory, for targets for which the kit has no code in C. No call of the library allocates, so none
 * comes here. */
#include <stdlib.h>

void rattle_dealloc(void *block);

void rattle_dealloc(void *block) {
  (void)block;
  abort();
}
