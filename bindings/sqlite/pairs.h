/* What the extensions of databases share: what bytes are a text, and pairs of a query that are left out by steps. */
#ifndef PAIRS_H
#define PAIRS_H

#include "uriparse.h"

#include <string.h>

/* Whether bytes are a text in UTF-8 that has no zero byte. */
static bool pairs_are_text(const char *bytes, size_t len) {
  const unsigned char *at = (const unsigned char *)bytes, *end = at + len;
  while (at < end) {
    unsigned char first = *at++;
    int more = first < 0x80 ? 0 : first < 0xc2 ? -1 : first < 0xe0 ? 1 : first < 0xf0 ? 2 : first < 0xf5 ? 3 : -1;
    unsigned char least = first == 0xe0 ? 0xa0 : first == 0xf0 ? 0x90 : 0x80;
    unsigned char most = first == 0xed ? 0x9f : first == 0xf4 ? 0x8f : 0xbf;
    if (!first || more < 0 || end - at < more) return false;
    if (more && (*at < least || *at > most)) return false;
    for (; more; more--)
      if ((*at++ & 0xc0) != 0x80) return false;
  }
  return true;
}

/* Writes the bytes of a name as escapes alone. In names to be left out they mean this name, whatever it has: "*" too. */
static void pairs_quote(const char *name, size_t len, char *out) {
  static const char DIGITS[] = "0123456789ABCDEF";
  for (size_t i = 0; i < len; i++) {
    unsigned char byte = (unsigned char)name[i];
    *out++ = '%';
    *out++ = DIGITS[byte >> 4];
    *out++ = DIGITS[byte & 15];
  }
}

/* A step of `pairs_drop` takes about this many bytes of the query, and of the names. */
enum { PAIRS_STEP = 4096 };

/* What `pairs_drop` returns if it was stopped. */
#define PAIRS_STOPPED UINT32_MAX

/* Whether `pairs_drop` may go on. It is asked between two steps. */
typedef bool pairs_may_go_on(void *data);

/* The end of the step that begins at `at`: the place of a '&', or the end of the text. */
static size_t pairs_step(const char *text, size_t len, size_t at) {
  const char *end = len - at > PAIRS_STEP ? memchr(text + at + PAIRS_STEP, '&', len - at - PAIRS_STEP) : NULL;
  return end ? (size_t)(end - text) : len;
}

/* Leaves out the pairs of a few names, step by step of the query. `out` has room for `*len` bytes. */
static uint32_t pairs_drop_few(const char *query, size_t *len, const char *names, size_t names_len, char *out,
                               pairs_may_go_on *may_go_on, void *data) {
  size_t end, needed, left = 0;
  bool is_left = false;
  for (size_t at = 0; at <= *len; at = end + 1) {
    uint32_t code;
    if (at && !may_go_on(data)) return PAIRS_STOPPED;
    end = pairs_step(query, *len, at);
    code = uriparse_drop_pairs(query + at, end - at, names, names_len, out + left + is_left, end - at, &needed);
    if (code == URIPARSE_NO_PAIRS) continue;
    if (code != URIPARSE_OK) return code;
    if (is_left) out[left] = '&';
    left += needed + is_left;
    is_left = true;
  }
  *len = left;
  return is_left ? URIPARSE_OK : URIPARSE_NO_PAIRS;
}

/* Does what `uriparse_drop_pairs` does, in steps between which it may be stopped. Each pair is left out or stays for itself, and
 * each name leaves out for itself, so the steps change nothing. `*query` and `*len` become what is left, in `out`, which has room
 * for twice the query's length. */
static uint32_t pairs_drop(const char **query, size_t *len, const char *names, size_t names_len, char *out,
                           pairs_may_go_on *may_go_on, void *data) {
  char *rooms[2] = {out, out + *len};
  size_t end, needed;
  uint32_t code = uriparse_decode(names, names_len, NULL, 0, &needed);
  if (code != URIPARSE_OK && code != URIPARSE_NO_ROOM) return URIPARSE_BAD_NAMES;
  for (size_t at = 0; at <= names_len; at = end + 1) {
    char *room = rooms[*query == rooms[0]];
    if (at && !may_go_on(data)) return PAIRS_STOPPED;
    end = pairs_step(names, names_len, at);
    code = pairs_drop_few(*query, len, names + at, end - at, room, may_go_on, data);
    if (code != URIPARSE_OK) return code;
    *query = room;
  }
  return URIPARSE_OK;
}

#endif
