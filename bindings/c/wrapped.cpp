// The header as some programs include it, and in a second file of one program.
extern "C" {
#include "uriparse.h"
}

bool wrapped_is_uri(const char *text, size_t len) { return uriparse_is_uri(text, len); }
