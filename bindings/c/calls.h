/* Each call by its number, for tests of all of them. `ROOM` is defined before: how many bytes a call may write. */
#include "uriparse.h"

#include <stdlib.h>
#include <string.h>

/* calls.tsv: names */
enum { CALLS = 42 };

static const char *const names[CALLS] = {"parse", "first_fault", "is_uri", "equal", "compare", "same_origin",
                                         "is_normalized", "is_within", "host_is_within", "host_is_within_any",
                                         "host_flags", "disagreement", "is_public", "is_ambiguous", "port_or_default",
                                         "host_address", "default_port", "hash", "key", "place_key", "domain_prefix",
                                         "base_prefix", "normalize", "resolve", "relativize", "origin", "change",
                                         "without_default_port", "mask_password", "request_target", "next_segment",
                                         "next_pair", "find_pair", "find_next_pair", "set_pair", "append_pair",
                                         "drop_pairs", "decode", "form_decode", "encode", "escape", "trim_link"};

/* Whether a call reads the base. */
static const bool reads_base[CALLS] = {false, false, false, true, true, true, false, true, true, true, false, false,
                                       false, false, false, false, false, false, false, false, false, false, false,
                                       true, true, false, true, false, false, false, false, false, true, true, true,
                                       true, true, false, false, false, false, false};
/* calls.tsv: end */

/* What a call writes. */
struct written {
  uint8_t out[ROOM];
  size_t needed;
  size_t place;
  uint64_t hash;
  struct uriparse_parts parts;
  struct uriparse_pair pair;
  bool equal;
  int32_t order;
  uint32_t flags;
};

/* The query becomes the base, the port is removed, and all else is kept. */
static uint32_t call(int which, const char *base, size_t base_len, const char *text, size_t len, struct written *to) {
  struct uriparse_changes changes;
  memset(&changes, 0, sizeof changes);
  changes.port.action = URIPARSE_REMOVE;
  changes.query.end = base_len;
  changes.query.action = URIPARSE_SET;
  switch (which) {
  /* calls.tsv: calls */
  case 0: return uriparse_parse(text, len, &to->parts);
  case 1: return uriparse_first_fault(text, len, &to->place);
  case 2: return uriparse_is_uri(text, len) ? URIPARSE_OK : URIPARSE_NO_ROOM;
  case 3: return uriparse_equal(base, base_len, text, len, &to->equal);
  case 4: return uriparse_compare(base, base_len, text, len, &to->order);
  case 5: return uriparse_same_origin(base, base_len, text, len, &to->equal);
  case 6: return uriparse_is_normalized(text, len, &to->equal);
  case 7: return uriparse_is_within(text, len, base, base_len, &to->equal);
  case 8: return uriparse_host_is_within(text, len, base, base_len, &to->equal);
  case 9: return uriparse_host_is_within_any(text, len, base, base_len, &to->equal);
  case 10: return uriparse_host_flags(text, len, &to->flags);
  case 11: return uriparse_disagreement(text, len, &to->flags);
  case 12: return uriparse_is_public(text, len, &to->equal);
  case 13: return uriparse_is_ambiguous(text, len, &to->equal);
  case 14: return uriparse_port_or_default(text, len, &to->order);
  case 15: return uriparse_host_address(text, len, to->out, ROOM, &to->needed);
  case 16: return uriparse_default_port(text, len);
  case 17: return uriparse_hash(text, len, &to->hash);
  case 18: return uriparse_key(URIPARSE_KEY_PAGE, text, len, to->out, ROOM, &to->needed);
  case 19: return uriparse_place_key(text, len, to->out, ROOM, &to->needed);
  case 20: return uriparse_domain_prefix(text, len, to->out, ROOM, &to->needed);
  case 21: return uriparse_base_prefix(text, len, to->out, ROOM, &to->needed);
  case 22: return uriparse_normalize(text, len, to->out, ROOM, &to->needed);
  case 23: return uriparse_resolve(base, base_len, text, len, to->out, ROOM, &to->needed);
  case 24: return uriparse_relativize(base, base_len, text, len, to->out, ROOM, &to->needed);
  case 25: return uriparse_origin(text, len, to->out, ROOM, &to->needed);
  case 26: return uriparse_change(text, len, &changes, base, base_len, to->out, ROOM, &to->needed);
  case 27: return uriparse_without_default_port(text, len, to->out, ROOM, &to->needed);
  case 28: return uriparse_mask_password(text, len, to->out, ROOM, &to->needed);
  case 29: return uriparse_request_target(text, len, to->out, ROOM, &to->needed);
  case 30: return uriparse_next_segment(text, len, len / 2, &to->pair.name) ? URIPARSE_OK : URIPARSE_NO_ROOM;
  case 31: return uriparse_next_pair(text, len, len / 2, &to->pair) ? URIPARSE_OK : URIPARSE_NO_ROOM;
  case 32: return uriparse_find_pair(text, len, base, base_len, &to->pair) ? URIPARSE_OK : URIPARSE_NO_ROOM;
  case 33: return uriparse_find_next_pair(text, len, len / 2, base, base_len,
                                          &to->pair) ? URIPARSE_OK : URIPARSE_NO_ROOM;
  case 34: return uriparse_set_pair(text, len, base, base_len, text, len, true, to->out, ROOM, &to->needed);
  case 35: return uriparse_append_pair(text, len, base, base_len, text, len, true, to->out, ROOM, &to->needed);
  case 36: return uriparse_drop_pairs(text, len, base, base_len, to->out, ROOM, &to->needed);
  case 37: return uriparse_decode(text, len, to->out, ROOM, &to->needed);
  case 38: return uriparse_form_decode(text, len, to->out, ROOM, &to->needed);
  case 39: return uriparse_encode(URIPARSE_SEGMENT, text, len, to->out, ROOM, &to->needed);
  case 40: return uriparse_escape(text, len, to->out, ROOM, &to->needed);
  case 41: return uriparse_trim_link(text, len, to->out, ROOM, &to->needed);
  /* calls.tsv: end */
  default: abort();
  }
}
