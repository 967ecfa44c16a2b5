/* The calls of uriparse.h over the proved ones, which `make` renames to `proved_*` and which accept no NULL. */
#include "uriparse.h"

/* So that a compiler without a C library compiles this file too. */
void abort(void);

/* A pointer that isn't NULL, for a text or for a buffer. */
static const uint8_t *text_of(const void *text, size_t len) {
  if (text == NULL && len > 0) abort();
  return text != NULL ? text : (const void *)"";
}

static uint8_t *room_of(void *out, size_t room) {
  static uint8_t none;
  if (out == NULL && room > 0) abort();
  return out != NULL ? out : &none;
}

/* calls.tsv: calls */
uint32_t proved_parse(const uint8_t *text, size_t len, struct uriparse_parts *parts);
uint32_t uriparse_parse(uriparse_bytes text, size_t len, struct uriparse_parts *parts) {
  return proved_parse(text_of(text, len), len, parts);
}

uint32_t proved_first_fault(const uint8_t *text, size_t len, size_t *place);
uint32_t uriparse_first_fault(uriparse_bytes text, size_t len, size_t *place) {
  return proved_first_fault(text_of(text, len), len, place);
}

bool proved_is_uri(const uint8_t *text, size_t len);
bool uriparse_is_uri(uriparse_bytes text, size_t len) {
  return proved_is_uri(text_of(text, len), len);
}

uint32_t proved_equal(const uint8_t *left, size_t left_len, const uint8_t *right, size_t right_len, bool *equal);
uint32_t uriparse_equal(uriparse_bytes left, size_t left_len, uriparse_bytes right, size_t right_len, bool *equal) {
  return proved_equal(text_of(left, left_len), left_len, text_of(right, right_len), right_len, equal);
}

uint32_t proved_compare(const uint8_t *left, size_t left_len, const uint8_t *right, size_t right_len, int32_t *order);
uint32_t uriparse_compare(uriparse_bytes left, size_t left_len, uriparse_bytes right, size_t right_len,
                          int32_t *order) {
  return proved_compare(text_of(left, left_len), left_len, text_of(right, right_len), right_len, order);
}

uint32_t proved_same_origin(const uint8_t *left, size_t left_len, const uint8_t *right, size_t right_len, bool *same);
uint32_t uriparse_same_origin(uriparse_bytes left, size_t left_len, uriparse_bytes right, size_t right_len,
                              bool *same) {
  return proved_same_origin(text_of(left, left_len), left_len, text_of(right, right_len), right_len, same);
}

uint32_t proved_is_normalized(const uint8_t *text, size_t len, bool *normalized);
uint32_t uriparse_is_normalized(uriparse_bytes text, size_t len, bool *normalized) {
  return proved_is_normalized(text_of(text, len), len, normalized);
}

uint32_t proved_is_within(const uint8_t *text, size_t len, const uint8_t *base, size_t base_len, bool *within);
uint32_t uriparse_is_within(uriparse_bytes text, size_t len, uriparse_bytes base, size_t base_len, bool *within) {
  return proved_is_within(text_of(text, len), len, text_of(base, base_len), base_len, within);
}

uint32_t proved_host_is_within(const uint8_t *text, size_t len, const uint8_t *domain, size_t domain_len, bool *within);
uint32_t uriparse_host_is_within(uriparse_bytes text, size_t len, uriparse_bytes domain, size_t domain_len,
                                 bool *within) {
  return proved_host_is_within(text_of(text, len), len, text_of(domain, domain_len), domain_len, within);
}

uint32_t proved_host_is_within_any(const uint8_t *text, size_t len, const uint8_t *domains, size_t domains_len,
                                   bool *within);
uint32_t uriparse_host_is_within_any(uriparse_bytes text, size_t len, uriparse_bytes domains, size_t domains_len,
                                     bool *within) {
  return proved_host_is_within_any(text_of(text, len), len, text_of(domains, domains_len), domains_len, within);
}

uint32_t proved_host_flags(const uint8_t *text, size_t len, uint32_t *flags);
uint32_t uriparse_host_flags(uriparse_bytes text, size_t len, uint32_t *flags) {
  return proved_host_flags(text_of(text, len), len, flags);
}

uint32_t proved_disagreement(const uint8_t *text, size_t len, uint32_t *reasons);
uint32_t uriparse_disagreement(uriparse_bytes text, size_t len, uint32_t *reasons) {
  return proved_disagreement(text_of(text, len), len, reasons);
}

uint32_t proved_is_public(const uint8_t *text, size_t len, bool *is_public);
uint32_t uriparse_is_public(uriparse_bytes text, size_t len, bool *is_public) {
  return proved_is_public(text_of(text, len), len, is_public);
}

uint32_t proved_is_ambiguous(const uint8_t *segment, size_t len, bool *ambiguous);
uint32_t uriparse_is_ambiguous(uriparse_bytes segment, size_t len, bool *ambiguous) {
  return proved_is_ambiguous(text_of(segment, len), len, ambiguous);
}

uint32_t proved_port_or_default(const uint8_t *text, size_t len, int32_t *port);
uint32_t uriparse_port_or_default(uriparse_bytes text, size_t len, int32_t *port) {
  return proved_port_or_default(text_of(text, len), len, port);
}

uint32_t proved_host_address(const uint8_t *text, size_t len, uint8_t *out, size_t room, size_t *needed);
uint32_t uriparse_host_address(uriparse_bytes text, size_t len, uriparse_buffer out, size_t room, size_t *needed) {
  return proved_host_address(text_of(text, len), len, room_of(out, room), room, needed);
}

uint32_t proved_default_port(const uint8_t *scheme, size_t len);
uint32_t uriparse_default_port(uriparse_bytes scheme, size_t len) {
  return proved_default_port(text_of(scheme, len), len);
}

uint32_t proved_hash(const uint8_t *text, size_t len, uint64_t *hash);
uint32_t uriparse_hash(uriparse_bytes text, size_t len, uint64_t *hash) {
  return proved_hash(text_of(text, len), len, hash);
}

uint32_t proved_key(uint32_t flags, const uint8_t *text, size_t len, uint8_t *out, size_t room, size_t *needed);
uint32_t uriparse_key(uint32_t flags, uriparse_bytes text, size_t len, uriparse_buffer out, size_t room,
                      size_t *needed) {
  return proved_key(flags, text_of(text, len), len, room_of(out, room), room, needed);
}

uint32_t proved_place_key(const uint8_t *text, size_t len, uint8_t *out, size_t room, size_t *needed);
uint32_t uriparse_place_key(uriparse_bytes text, size_t len, uriparse_buffer out, size_t room, size_t *needed) {
  return proved_place_key(text_of(text, len), len, room_of(out, room), room, needed);
}

uint32_t proved_domain_prefix(const uint8_t *domain, size_t len, uint8_t *out, size_t room, size_t *needed);
uint32_t uriparse_domain_prefix(uriparse_bytes domain, size_t len, uriparse_buffer out, size_t room, size_t *needed) {
  return proved_domain_prefix(text_of(domain, len), len, room_of(out, room), room, needed);
}

uint32_t proved_base_prefix(const uint8_t *base, size_t len, uint8_t *out, size_t room, size_t *needed);
uint32_t uriparse_base_prefix(uriparse_bytes base, size_t len, uriparse_buffer out, size_t room, size_t *needed) {
  return proved_base_prefix(text_of(base, len), len, room_of(out, room), room, needed);
}

uint32_t proved_normalize(const uint8_t *text, size_t len, uint8_t *out, size_t room, size_t *needed);
uint32_t uriparse_normalize(uriparse_bytes text, size_t len, uriparse_buffer out, size_t room, size_t *needed) {
  return proved_normalize(text_of(text, len), len, room_of(out, room), room, needed);
}

uint32_t proved_resolve(const uint8_t *base, size_t base_len, const uint8_t *text, size_t len, uint8_t *out,
                        size_t room, size_t *needed);
uint32_t uriparse_resolve(uriparse_bytes base, size_t base_len, uriparse_bytes text, size_t len, uriparse_buffer out,
                          size_t room, size_t *needed) {
  return proved_resolve(text_of(base, base_len), base_len, text_of(text, len), len, room_of(out, room), room, needed);
}

uint32_t proved_relativize(const uint8_t *base, size_t base_len, const uint8_t *text, size_t len, uint8_t *out,
                           size_t room, size_t *needed);
uint32_t uriparse_relativize(uriparse_bytes base, size_t base_len, uriparse_bytes text, size_t len, uriparse_buffer out,
                             size_t room, size_t *needed) {
  return proved_relativize(text_of(base, base_len), base_len, text_of(text, len), len, room_of(out, room), room,
                           needed);
}

uint32_t proved_origin(const uint8_t *text, size_t len, uint8_t *out, size_t room, size_t *needed);
uint32_t uriparse_origin(uriparse_bytes text, size_t len, uriparse_buffer out, size_t room, size_t *needed) {
  return proved_origin(text_of(text, len), len, room_of(out, room), room, needed);
}

uint32_t proved_change(const uint8_t *text, size_t len, const struct uriparse_changes *changes, const uint8_t *values,
                       size_t values_len, uint8_t *out, size_t room, size_t *needed);
uint32_t uriparse_change(uriparse_bytes text, size_t len, const struct uriparse_changes *changes, uriparse_bytes values,
                         size_t values_len, uriparse_buffer out, size_t room, size_t *needed) {
  return proved_change(text_of(text, len), len, changes, text_of(values, values_len), values_len, room_of(out, room),
                       room, needed);
}

uint32_t proved_without_default_port(const uint8_t *text, size_t len, uint8_t *out, size_t room, size_t *needed);
uint32_t uriparse_without_default_port(uriparse_bytes text, size_t len, uriparse_buffer out, size_t room,
                                       size_t *needed) {
  return proved_without_default_port(text_of(text, len), len, room_of(out, room), room, needed);
}

uint32_t proved_mask_password(const uint8_t *text, size_t len, uint8_t *out, size_t room, size_t *needed);
uint32_t uriparse_mask_password(uriparse_bytes text, size_t len, uriparse_buffer out, size_t room, size_t *needed) {
  return proved_mask_password(text_of(text, len), len, room_of(out, room), room, needed);
}

uint32_t proved_request_target(const uint8_t *text, size_t len, uint8_t *out, size_t room, size_t *needed);
uint32_t uriparse_request_target(uriparse_bytes text, size_t len, uriparse_buffer out, size_t room, size_t *needed) {
  return proved_request_target(text_of(text, len), len, room_of(out, room), room, needed);
}

bool proved_next_segment(const uint8_t *path, size_t len, size_t at, struct uriparse_span *segment);
bool uriparse_next_segment(uriparse_bytes path, size_t len, size_t at, struct uriparse_span *segment) {
  return proved_next_segment(text_of(path, len), len, at, segment);
}

bool proved_next_pair(const uint8_t *query, size_t len, size_t at, struct uriparse_pair *pair);
bool uriparse_next_pair(uriparse_bytes query, size_t len, size_t at, struct uriparse_pair *pair) {
  return proved_next_pair(text_of(query, len), len, at, pair);
}

bool proved_find_pair(const uint8_t *query, size_t len, const uint8_t *name, size_t name_len,
                      struct uriparse_pair *pair);
bool uriparse_find_pair(uriparse_bytes query, size_t len, uriparse_bytes name, size_t name_len,
                        struct uriparse_pair *pair) {
  return proved_find_pair(text_of(query, len), len, text_of(name, name_len), name_len, pair);
}

bool proved_find_next_pair(const uint8_t *query, size_t len, size_t at, const uint8_t *name, size_t name_len,
                           struct uriparse_pair *pair);
bool uriparse_find_next_pair(uriparse_bytes query, size_t len, size_t at, uriparse_bytes name, size_t name_len,
                             struct uriparse_pair *pair) {
  return proved_find_next_pair(text_of(query, len), len, at, text_of(name, name_len), name_len, pair);
}

uint32_t proved_set_pair(const uint8_t *query, size_t len, const uint8_t *name, size_t name_len, const uint8_t *value,
                         size_t value_len, bool has_value, uint8_t *out, size_t room, size_t *needed);
uint32_t uriparse_set_pair(uriparse_bytes query, size_t len, uriparse_bytes name, size_t name_len, uriparse_bytes value,
                           size_t value_len, bool has_value, uriparse_buffer out, size_t room, size_t *needed) {
  return proved_set_pair(text_of(query, len), len, text_of(name, name_len), name_len, text_of(value, value_len),
                         value_len, has_value, room_of(out, room), room, needed);
}

uint32_t proved_append_pair(const uint8_t *query, size_t len, const uint8_t *name, size_t name_len,
                            const uint8_t *value, size_t value_len, bool has_value, uint8_t *out, size_t room,
                            size_t *needed);
uint32_t uriparse_append_pair(uriparse_bytes query, size_t len, uriparse_bytes name, size_t name_len,
                              uriparse_bytes value, size_t value_len, bool has_value, uriparse_buffer out, size_t room,
                              size_t *needed) {
  return proved_append_pair(text_of(query, len), len, text_of(name, name_len), name_len, text_of(value, value_len),
                            value_len, has_value, room_of(out, room), room, needed);
}

uint32_t proved_drop_pairs(const uint8_t *query, size_t len, const uint8_t *names, size_t names_len, uint8_t *out,
                           size_t room, size_t *needed);
uint32_t uriparse_drop_pairs(uriparse_bytes query, size_t len, uriparse_bytes names, size_t names_len,
                             uriparse_buffer out, size_t room, size_t *needed) {
  return proved_drop_pairs(text_of(query, len), len, text_of(names, names_len), names_len, room_of(out, room), room,
                           needed);
}

uint32_t proved_decode(const uint8_t *text, size_t len, uint8_t *out, size_t room, size_t *needed);
uint32_t uriparse_decode(uriparse_bytes text, size_t len, uriparse_buffer out, size_t room, size_t *needed) {
  return proved_decode(text_of(text, len), len, room_of(out, room), room, needed);
}

uint32_t proved_form_decode(const uint8_t *text, size_t len, uint8_t *out, size_t room, size_t *needed);
uint32_t uriparse_form_decode(uriparse_bytes text, size_t len, uriparse_buffer out, size_t room, size_t *needed) {
  return proved_form_decode(text_of(text, len), len, room_of(out, room), room, needed);
}

uint32_t proved_encode(uint32_t component, const uint8_t *bytes, size_t len, uint8_t *out, size_t room, size_t *needed);
uint32_t uriparse_encode(uint32_t component, uriparse_bytes bytes, size_t len, uriparse_buffer out, size_t room,
                         size_t *needed) {
  return proved_encode(component, text_of(bytes, len), len, room_of(out, room), room, needed);
}

uint32_t proved_escape(const uint8_t *text, size_t len, uint8_t *out, size_t room, size_t *needed);
uint32_t uriparse_escape(uriparse_bytes text, size_t len, uriparse_buffer out, size_t room, size_t *needed) {
  return proved_escape(text_of(text, len), len, room_of(out, room), room, needed);
}

uint32_t proved_trim_link(const uint8_t *text, size_t len, uint8_t *out, size_t room, size_t *needed);
uint32_t uriparse_trim_link(uriparse_bytes text, size_t len, uriparse_buffer out, size_t room, size_t *needed) {
  return proved_trim_link(text_of(text, len), len, room_of(out, room), room, needed);
}
/* calls.tsv: end */

const char *uriparse_error_text(uint32_t code) {
  switch (code & ~(0u | URIPARSE_IN_BASE)) {
  /* codes.tsv: words */
  case URIPARSE_OK: return "no error";
  case URIPARSE_OUT_OF_MEMORY: return "out of memory";
  case URIPARSE_NO_ROOM: return "buffer too small";
  case URIPARSE_NO_SCHEME: return "not URI";
  case URIPARSE_COLON_IN_SEGMENT: return "schemeless path URI reference starts with colon segment";
  case URIPARSE_TOO_MANY_SEGMENTS: return "exceeded maximum path length";
  case URIPARSE_TWO_SLASHES: return "absolute path URI reference starts with two slashes";
  case URIPARSE_NO_COMPONENT: return "no component has this number";
  case URIPARSE_NO_ORIGIN: return "the reference has no origin";
  case URIPARSE_MISSING_HOST: return "user name, password or port without a host";
  case URIPARSE_BAD_CHANGE: return "a change without a meaning";
  case URIPARSE_BAD_NAMES: return "invalid names of pairs";
  case URIPARSE_NO_PAIRS: return "no pair of the query is left";
  case URIPARSE_NO_ADDRESS: return "the host is no IP address";
  case URIPARSE_USERNAME_COLON: return "username contains a colon character";
  case URIPARSE_USERNAME_BYTE: return "invalid username character";
  case URIPARSE_USERNAME_ESCAPE: return "invalid username percent encoding";
  case URIPARSE_PASSWORD_BYTE: return "invalid password character";
  case URIPARSE_PASSWORD_ESCAPE: return "invalid password percent encoding";
  case URIPARSE_HOST_BYTE: return "invalid host IPv4 or registered name character";
  case URIPARSE_HOST_IPV6_BYTE: return "invalid host IPv6 character";
  case URIPARSE_HOST_IPV6_FORM: return "invalid host IPv6 format";
  case URIPARSE_HOST_FUTURE_BYTE: return "invalid host IPvFuture character";
  case URIPARSE_HOST_FUTURE_FORM: return "invalid host IPvFuture format";
  case URIPARSE_PORT_BYTE: return "invalid port character";
  case URIPARSE_PORT_RANGE: return "port overflow";
  case URIPARSE_PATH_BYTE: return "invalid path character";
  case URIPARSE_PATH_ESCAPE: return "invalid path percent encoding";
  case URIPARSE_QUERY_BYTE: return "invalid query character";
  case URIPARSE_QUERY_ESCAPE: return "invalid query percent encoding";
  case URIPARSE_FRAGMENT_BYTE: return "invalid fragment character";
  case URIPARSE_FRAGMENT_ESCAPE: return "invalid fragment percent encoding";
  case URIPARSE_SCHEME_EMPTY: return "scheme is empty";
  case URIPARSE_SCHEME_BYTE: return "invalid scheme character";
  case URIPARSE_SCHEME_LETTER: return "scheme starts with non-alphabetic character";
  case URIPARSE_KEY_FLAGS: return "no key has these flags";
  case URIPARSE_NO_TARGET: return "the path is in no target of a request";
  /* codes.tsv: end */
  default: return "unknown code";
  }
}

uint32_t uriparse_error_component(uint32_t code) {
  switch (code & ~(0u | URIPARSE_IN_BASE)) {
  /* codes.tsv: components */
  case URIPARSE_NO_SCHEME: return URIPARSE_SCHEME;
  case URIPARSE_COLON_IN_SEGMENT: return URIPARSE_SEGMENT;
  case URIPARSE_TOO_MANY_SEGMENTS: return URIPARSE_SEGMENT;
  case URIPARSE_TWO_SLASHES: return URIPARSE_SEGMENT;
  case URIPARSE_MISSING_HOST: return URIPARSE_HOST;
  case URIPARSE_BAD_NAMES: return URIPARSE_QUERY;
  case URIPARSE_NO_PAIRS: return URIPARSE_QUERY;
  case URIPARSE_KEY_FLAGS: return 0;
  case URIPARSE_NO_TARGET: return URIPARSE_SEGMENT;
  /* codes.tsv: end */
  default: return code & URIPARSE_COMPONENT_MASK;
  }
}

