/* A sum of what a call returns and writes, for tests that make calls in several ways. */
#include "calls.h"

static void mix(uint64_t *sum, const void *bytes, size_t len) {
  for (size_t i = 0; i < len; i++) {
    *sum = (*sum ^ ((const uint8_t *)bytes)[i]) * 0x100000001b3u;
  }
}

static void mix_span(uint64_t *sum, struct uriparse_span span) {
  size_t fields[] = {span.begin, span.end, span.present};
  mix(sum, fields, sizeof fields);
}

/* The call's number, its base and its text. What a call leaves as it was counts too. */
static uint64_t digest(int which, const char *base, size_t base_len, const char *text, size_t len) {
  struct written to;
  memset(&to, 0, sizeof to);
  uint64_t sum = call(which, base, base_len, text, len, &to);
  mix(&sum, to.out, ROOM);
  mix(&sum, &to.needed, sizeof to.needed);
  mix(&sum, &to.place, sizeof to.place);
  mix(&sum, &to.hash, sizeof to.hash);
  mix(&sum, &to.equal, sizeof to.equal);
  mix(&sum, &to.order, sizeof to.order);
  mix(&sum, &to.flags, sizeof to.flags);
  mix(&sum, &to.pair.next, sizeof to.pair.next);
  mix_span(&sum, to.pair.name);
  mix_span(&sum, to.pair.value);
  struct uriparse_parts *parts = &to.parts;
  struct uriparse_span spans[] = {parts->scheme, parts->authority, parts->username, parts->password, parts->host,
                                  parts->port,   parts->path,      parts->query,    parts->fragment};
  for (size_t k = 0; k < sizeof spans / sizeof spans[0]; k++) {
    mix_span(&sum, spans[k]);
  }
  mix(&sum, &parts->host_kind, sizeof parts->host_kind);
  mix(&sum, &parts->port_number, sizeof parts->port_number);
  return sum;
}
