/* The version of the library. It also stands in the name of a symbol, OF_THIS_VERSION, so that a build can tell a library of other
 * calls before it runs anything. */
#include "uriparse.h"

extern const char OF_THIS_VERSION[];
const char OF_THIS_VERSION[] = URIPARSE_VERSION;

const char *uriparse_version(void) { return OF_THIS_VERSION; }
