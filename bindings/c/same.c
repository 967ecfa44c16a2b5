/* Random strings, the same on every machine, and a digest of what each call returns and writes for them. Two builds of the library
 * must print the same.
 *
 *   same [COUNT]     COUNT strings, or 20,000 */
#define ROOM 300
#include "digest.h"

#include <stdio.h>
#include <stdlib.h>

enum { PIECES = 12, LONGEST = 160 };

static const char *const pieces[] = {
    "http:", "S:", "//", "/", "..", ".", "a", "%7e", "%", "%4A", "?", "#", "@", ":", "u:p@", "[::1]", "[v1.x]", "1.2.3.4", "%31.2.3.4",
    "h.Example", "[1:2:3:4:5:6:1.2.3.4]", ":080", "65536", "&", "=", "+", ";x", " ", "\\", "<", "\xc3\xa9", "abcdefghijklmnop", "0123456789"};

static uint64_t state = 88172645463325252u;

/* A number below `limit`. */
static size_t draw(size_t limit) {
  state ^= state << 13;
  state ^= state >> 7;
  state ^= state << 17;
  return (size_t)(state >> 33) % limit;
}

static size_t some_text(char *out) {
  size_t len = 0;
  for (size_t left = draw(PIECES); left > 0; left--) {
    const char *piece = pieces[draw(sizeof pieces / sizeof pieces[0])];
    size_t size = strlen(piece);
    if (len + size > LONGEST) break;
    memcpy(out + len, piece, size);
    len += size;
  }
  return len;
}

int main(int count, char **words) {
  long left = count > 1 ? atol(words[1]) : 20000, texts = 0, accepted = 0;
  static char text[LONGEST], base[LONGEST];
  size_t base_len = 0;
  uint64_t sum = 0;
  for (; texts < left; texts++) {
    size_t len = some_text(text);
    for (int which = 0; which < CALLS; which++) {
      uint64_t one = digest(which, base, base_len, text, len);
      mix(&sum, &one, sizeof one);
    }
    struct uriparse_parts parts;
    accepted += uriparse_parse(text, len, &parts) == URIPARSE_OK;
    if (uriparse_is_uri(text, len) || draw(4) == 0) {
      memcpy(base, text, len);
      base_len = len;
    }
  }
  printf("%ld strings, %ld accepted, digest %016llx\n", texts, accepted, (unsigned long long)sum);
  return 0;
}
