/* What tests of rows share: a count of the checks that passed and failed, and calls that write to a buffer. */
#include "uriparse.h"

#include <stdio.h>
#include <string.h>

static int passed, failed;

static void check(int holds, const char *what, const char *row) {
  if (holds) {
    passed++;
  } else {
    failed++;
    printf("FAILED %s: %s\n", what, row);
  }
}

/* The call of a text in a buffer that has exactly the room that is needed, one byte less, and more. */
typedef uint32_t writer(const char *text, size_t len, uint8_t *out, size_t room, size_t *needed);

static void writes(writer *call, const char *what, const char *text, size_t len, const char *expected, size_t size) {
  size_t needed = 99999;
  uint8_t out[100];
  memset(out, '~', sizeof out);
  check(call(text, len, out, sizeof out, &needed) == URIPARSE_OK && needed == size && memcmp(out, expected, size) == 0
            && out[size] == '~' && out[99] == '~', what, text);
  memset(out, '~', sizeof out);
  check(call(text, len, out, size, &needed) == URIPARSE_OK && needed == size && memcmp(out, expected, size) == 0
            && out[size] == '~', "exact room", text);
  if (size > 0) {
    memset(out, '~', sizeof out);
    check(call(text, len, out, size - 1, &needed) == URIPARSE_NO_ROOM && needed == size && out[0] == '~' && out[size - 1] == '~',
          "no room", text);
    check(call(text, len, NULL, 0, &needed) == URIPARSE_NO_ROOM && needed == size, "room NULL", text);
  }
}
