/* Functions, tables and a collation for the URIs of RFC 3986 in SQLite, by the library for C. README.md lists them. */
#include "sqlite3ext.h"
SQLITE_EXTENSION_INIT1

#include <string.h>

#include "pairs.h"
#include "uriparse.h"

/* Texts and results up to this length are held on the stack. */
enum { SHORT = 1024 };

struct text {
  const char *at;
  size_t len;
};

/* Reads an argument: a blob's bytes, or else the text in UTF-8. Returns whether it is there. If it isn't, the function's
 * result has been set: NULL for NULL. */
static bool read_text(sqlite3_context *context, sqlite3_value *value, struct text *text) {
  int type = sqlite3_value_type(value);
  if (type == SQLITE_NULL) return false;
  text->at = type == SQLITE_BLOB ? sqlite3_value_blob(value) : (const char *)sqlite3_value_text(value);
  text->len = (size_t)sqlite3_value_bytes(value);
  if (text->at) return true;
  text->at = "";
  if (type == SQLITE_BLOB && !text->len) return true;
  sqlite3_result_error_nomem(context);
  return false;
}

/* Reads a reference, and its parts. Returns whether it is one; else the result stays NULL, or is an error. */
static bool read_reference(sqlite3_context *context, sqlite3_value *value, struct text *text, struct uriparse_parts *parts) {
  return read_text(context, value, text) && uriparse_parse(text->at, text->len, parts) == URIPARSE_OK;
}

static void result_span(sqlite3_context *context, const struct text *text, struct uriparse_span span) {
  if (span.present)
    sqlite3_result_text64(context, text->at + span.begin, span.end - span.begin, SQLITE_TRANSIENT, SQLITE_UTF8);
}

/* A component, by the place of its span in struct uriparse_parts, which is the function's user data. */
static void component(sqlite3_context *context, int count, sqlite3_value **values) {
  struct text text;
  struct uriparse_parts parts;
  (void)count;
  if (read_reference(context, values[0], &text, &parts)) {
    const char *place = (const char *)&parts + *(const size_t *)sqlite3_user_data(context);
    result_span(context, &text, *(const struct uriparse_span *)(const void *)place);
  }
}

static void port(sqlite3_context *context, int count, sqlite3_value **values) {
  struct text text;
  struct uriparse_parts parts;
  (void)count;
  if (read_reference(context, values[0], &text, &parts) && parts.port.end > parts.port.begin)
    sqlite3_result_int64(context, parts.port_number);
}

/* The kind of the host, which is named as in other languages. */
static void host_kind(sqlite3_context *context, int count, sqlite3_value **values) {
  struct text text;
  struct uriparse_parts parts;
  (void)count;
  if (!read_reference(context, values[0], &text, &parts)) return;
  switch (parts.host_kind) {
  case URIPARSE_HOST_NAME: sqlite3_result_text(context, "name", -1, SQLITE_STATIC); break;
  case URIPARSE_HOST_IPV4: sqlite3_result_text(context, "ipv4", -1, SQLITE_STATIC); break;
  case URIPARSE_HOST_IPV6: sqlite3_result_text(context, "ipv6", -1, SQLITE_STATIC); break;
  case URIPARSE_HOST_FUTURE: sqlite3_result_text(context, "ipvfuture", -1, SQLITE_STATIC); break;
  }
}

static void valid(sqlite3_context *context, int count, sqlite3_value **values) {
  struct text text;
  size_t place;
  (void)count;
  if (read_text(context, values[0], &text))
    sqlite3_result_int(context, uriparse_first_fault(text.at, text.len, &place) == URIPARSE_OK);
}

static void is_uri(sqlite3_context *context, int count, sqlite3_value **values) {
  struct text text;
  (void)count;
  if (read_text(context, values[0], &text)) sqlite3_result_int(context, uriparse_is_uri(text.at, text.len));
}

static void fault(sqlite3_context *context, int count, sqlite3_value **values) {
  struct text text;
  size_t place;
  (void)count;
  if (read_text(context, values[0], &text) && uriparse_first_fault(text.at, text.len, &place) != URIPARSE_OK)
    sqlite3_result_int64(context, (sqlite3_int64)place);
}

static void fault_text(sqlite3_context *context, int count, sqlite3_value **values) {
  struct text text;
  size_t place;
  uint32_t code;
  (void)count;
  if (!read_text(context, values[0], &text)) return;
  code = uriparse_first_fault(text.at, text.len, &place);
  if (code != URIPARSE_OK) sqlite3_result_text(context, uriparse_error_text(code), -1, SQLITE_STATIC);
}

/* The value itself, if it is a reference; else an error. */
static void check(sqlite3_context *context, int count, sqlite3_value **values) {
  struct text text;
  size_t place = 0;
  uint32_t code;
  (void)count;
  if (!read_text(context, values[0], &text)) return;
  code = uriparse_first_fault(text.at, text.len, &place);
  if (code == URIPARSE_OK) {
    sqlite3_result_value(context, values[0]);
    return;
  }
  char *message = sqlite3_mprintf("first wrong byte %llu: %s", (sqlite3_uint64)place, uriparse_error_text(code));
  if (message)
    sqlite3_result_error(context, message, -1);
  else
    sqlite3_result_error_nomem(context);
  sqlite3_free(message);
}

static void hash(sqlite3_context *context, int count, sqlite3_value **values) {
  struct text text;
  uint64_t number;
  sqlite3_int64 same;
  (void)count;
  if (!read_text(context, values[0], &text) || uriparse_hash(text.at, text.len, &number) != URIPARSE_OK) return;
  memcpy(&same, &number, sizeof same);
  sqlite3_result_int64(context, same);
}

static void equal(sqlite3_context *context, int count, sqlite3_value **values) {
  struct text left, right;
  bool is_equal;
  (void)count;
  if (read_text(context, values[0], &left) && read_text(context, values[1], &right) &&
      uriparse_equal(left.at, left.len, right.at, right.len, &is_equal) == URIPARSE_OK)
    sqlite3_result_int(context, is_equal);
}

static void compare(sqlite3_context *context, int count, sqlite3_value **values) {
  struct text left, right;
  int32_t order;
  (void)count;
  if (read_text(context, values[0], &left) && read_text(context, values[1], &right) &&
      uriparse_compare(left.at, left.len, right.at, right.len, &order) == URIPARSE_OK)
    sqlite3_result_int(context, order);
}

static void same_origin(sqlite3_context *context, int count, sqlite3_value **values) {
  struct text left, right;
  bool is_same;
  (void)count;
  if (read_text(context, values[0], &left) && read_text(context, values[1], &right) &&
      uriparse_same_origin(left.at, left.len, right.at, right.len, &is_same) == URIPARSE_OK)
    sqlite3_result_int(context, is_same);
}

static void is_normalized(sqlite3_context *context, int count, sqlite3_value **values) {
  struct text text;
  bool normalized;
  (void)count;
  if (read_text(context, values[0], &text) && uriparse_is_normalized(text.at, text.len, &normalized) == URIPARSE_OK)
    sqlite3_result_int(context, normalized);
}

/* Whether the host leads anywhere on the Internet, as far as its text says; NULL for what is no reference. */
static void is_public(sqlite3_context *context, int count, sqlite3_value **values) {
  struct text text;
  bool public;
  (void)count;
  if (read_text(context, values[0], &text) && uriparse_is_public(text.at, text.len, &public) == URIPARSE_OK)
    sqlite3_result_int(context, public);
}

/* uri_is_within(uri, base) */
static void is_within(sqlite3_context *context, int count, sqlite3_value **values) {
  struct text text, base;
  bool within;
  (void)count;
  if (read_text(context, values[0], &text) && read_text(context, values[1], &base) &&
      uriparse_is_within(text.at, text.len, base.at, base.len, &within) == URIPARSE_OK)
    sqlite3_result_int(context, within);
}

/* uri_host_is_within(uri, domain) */
static void host_is_within(sqlite3_context *context, int count, sqlite3_value **values) {
  struct text text, domain;
  bool within;
  (void)count;
  if (read_text(context, values[0], &text) && read_text(context, values[1], &domain) &&
      uriparse_host_is_within(text.at, text.len, domain.at, domain.len, &within) == URIPARSE_OK)
    sqlite3_result_int(context, within);
}

/* uri_host_is_within_any(uri, domains) */
static void host_is_within_any(sqlite3_context *context, int count, sqlite3_value **values) {
  struct text text, domains;
  bool within;
  (void)count;
  if (read_text(context, values[0], &text) && read_text(context, values[1], &domains) &&
      uriparse_host_is_within_any(text.at, text.len, domains.at, domains.len, &within) == URIPARSE_OK)
    sqlite3_result_int(context, within);
}

/* The sum of enum uriparse_host_flag. */
static void host_flags(sqlite3_context *context, int count, sqlite3_value **values) {
  struct text text;
  uint32_t flags;
  (void)count;
  if (read_text(context, values[0], &text) && uriparse_host_flags(text.at, text.len, &flags) == URIPARSE_OK)
    sqlite3_result_int64(context, flags);
}

/* The sum of enum uriparse_disagreement. */
static void disagreement(sqlite3_context *context, int count, sqlite3_value **values) {
  struct text text;
  uint32_t reasons;
  (void)count;
  if (read_text(context, values[0], &text) && uriparse_disagreement(text.at, text.len, &reasons) == URIPARSE_OK)
    sqlite3_result_int64(context, reasons);
}

/* Of a segment of a path. */
static void is_ambiguous(sqlite3_context *context, int count, sqlite3_value **values) {
  struct text segment;
  bool ambiguous;
  (void)count;
  if (read_text(context, values[0], &segment) && uriparse_is_ambiguous(segment.at, segment.len, &ambiguous) == URIPARSE_OK)
    sqlite3_result_int(context, ambiguous);
}

/* The port or the default port of the scheme; NULL if there is neither. */
static void port_or_default(sqlite3_context *context, int count, sqlite3_value **values) {
  struct text text;
  int32_t number;
  (void)count;
  if (read_text(context, values[0], &text) && uriparse_port_or_default(text.at, text.len, &number) == URIPARSE_OK && number >= 0)
    sqlite3_result_int(context, number);
}

/* The default port of a scheme; NULL if it has none. */
static void default_port(sqlite3_context *context, int count, sqlite3_value **values) {
  struct text text;
  uint32_t number;
  (void)count;
  if (!read_text(context, values[0], &text)) return;
  number = uriparse_default_port(text.at, text.len);
  if (number) sqlite3_result_int64(context, number);
}

/* A call of the library that writes a text, of one text or of two. */
typedef uint32_t writer(const struct text *texts, char *out, size_t room, size_t *needed);

static uint32_t write_normal(const struct text *texts, char *out, size_t room, size_t *needed) {
  return uriparse_normalize(texts[0].at, texts[0].len, out, room, needed);
}

/* The sort keys of a reference as it is, of its normal form, and of the page that it leads to. */
static uint32_t write_key(const struct text *texts, char *out, size_t room, size_t *needed) {
  return uriparse_key(0, texts[0].at, texts[0].len, out, room, needed);
}

static uint32_t write_normal_key(const struct text *texts, char *out, size_t room, size_t *needed) {
  return uriparse_key(URIPARSE_KEY_NORMAL, texts[0].at, texts[0].len, out, room, needed);
}

static uint32_t write_page_key(const struct text *texts, char *out, size_t room, size_t *needed) {
  return uriparse_key(URIPARSE_KEY_PAGE, texts[0].at, texts[0].len, out, room, needed);
}

/* The place key of a URI, and what those within a domain and those below a base begin with. */
static uint32_t write_place_key(const struct text *texts, char *out, size_t room, size_t *needed) {
  return uriparse_place_key(texts[0].at, texts[0].len, out, room, needed);
}

static uint32_t write_domain_prefix(const struct text *texts, char *out, size_t room, size_t *needed) {
  return uriparse_domain_prefix(texts[0].at, texts[0].len, out, room, needed);
}

static uint32_t write_base_prefix(const struct text *texts, char *out, size_t room, size_t *needed) {
  return uriparse_base_prefix(texts[0].at, texts[0].len, out, room, needed);
}

static uint32_t write_target(const struct text *texts, char *out, size_t room, size_t *needed) {
  return uriparse_resolve(texts[0].at, texts[0].len, texts[1].at, texts[1].len, out, room, needed);
}

static uint32_t write_relative(const struct text *texts, char *out, size_t room, size_t *needed) {
  return uriparse_relativize(texts[0].at, texts[0].len, texts[1].at, texts[1].len, out, room, needed);
}

static uint32_t write_escaped(const struct text *texts, char *out, size_t room, size_t *needed) {
  return uriparse_escape(texts[0].at, texts[0].len, out, room, needed);
}

static uint32_t write_without_default_port(const struct text *texts, char *out, size_t room, size_t *needed) {
  return uriparse_without_default_port(texts[0].at, texts[0].len, out, room, needed);
}

static uint32_t write_request_target(const struct text *texts, char *out, size_t room, size_t *needed) {
  return uriparse_request_target(texts[0].at, texts[0].len, out, room, needed);
}

static uint32_t write_masked(const struct text *texts, char *out, size_t room, size_t *needed) {
  return uriparse_mask_password(texts[0].at, texts[0].len, out, room, needed);
}

static uint32_t write_origin(const struct text *texts, char *out, size_t room, size_t *needed) {
  return uriparse_origin(texts[0].at, texts[0].len, out, room, needed);
}

/* What the call writes; NULL if it rejects a text. */
static void result_of(sqlite3_context *context, const struct text *texts, writer *write) {
  char room[SHORT], *out;
  size_t needed;
  uint32_t code = write(texts, room, sizeof room, &needed);
  if (code == URIPARSE_OK) sqlite3_result_text64(context, room, needed, SQLITE_TRANSIENT, SQLITE_UTF8);
  if (code != URIPARSE_NO_ROOM) return;
  out = sqlite3_malloc64(needed);
  if (!out)
    sqlite3_result_error_nomem(context);
  else if (write(texts, out, needed, &needed) == URIPARSE_OK)
    sqlite3_result_text64(context, out, needed, sqlite3_free, SQLITE_UTF8);
  else
    sqlite3_free(out);
}

static void result_written(sqlite3_context *context, int count, sqlite3_value **values, writer *write) {
  struct text texts[2];
  for (int i = 0; i < count; i++)
    if (!read_text(context, values[i], &texts[i])) return;
  result_of(context, texts, write);
}

static void normalize(sqlite3_context *context, int count, sqlite3_value **values) {
  result_written(context, count, values, write_normal);
}

static void key(sqlite3_context *context, int count, sqlite3_value **values) {
  result_written(context, count, values, write_key);
}

static void normal_key(sqlite3_context *context, int count, sqlite3_value **values) {
  result_written(context, count, values, write_normal_key);
}

static void page_key(sqlite3_context *context, int count, sqlite3_value **values) {
  result_written(context, count, values, write_page_key);
}

static void place_key(sqlite3_context *context, int count, sqlite3_value **values) {
  result_written(context, count, values, write_place_key);
}

static void domain_prefix(sqlite3_context *context, int count, sqlite3_value **values) {
  result_written(context, count, values, write_domain_prefix);
}

static void base_prefix(sqlite3_context *context, int count, sqlite3_value **values) {
  result_written(context, count, values, write_base_prefix);
}

static void resolve(sqlite3_context *context, int count, sqlite3_value **values) {
  result_written(context, count, values, write_target);
}

static void relativize(sqlite3_context *context, int count, sqlite3_value **values) {
  result_written(context, count, values, write_relative);
}

static void escape(sqlite3_context *context, int count, sqlite3_value **values) {
  result_written(context, count, values, write_escaped);
}

static void without_default_port(sqlite3_context *context, int count, sqlite3_value **values) {
  result_written(context, count, values, write_without_default_port);
}

static void request_target(sqlite3_context *context, int count, sqlite3_value **values) {
  result_written(context, count, values, write_request_target);
}

static void mask_password(sqlite3_context *context, int count, sqlite3_value **values) {
  result_written(context, count, values, write_masked);
}

static void origin(sqlite3_context *context, int count, sqlite3_value **values) {
  result_written(context, count, values, write_origin);
}

/* The address that is the host, as normal forms write it but without brackets; NULL if there is none. No text of an address is longer. */
static void host_address(sqlite3_context *context, int count, sqlite3_value **values) {
  char spelled[64] = "//", out[64];
  struct text text;
  struct uriparse_parts parts;
  size_t len;
  (void)count;
  if (!read_reference(context, values[0], &text, &parts)) return;
  len = parts.host.end - parts.host.begin;
  if (parts.host_kind == URIPARSE_HOST_IPV4) result_span(context, &text, parts.host);
  if (parts.host_kind != URIPARSE_HOST_IPV6) return;
  memcpy(spelled + 2, text.at + parts.host.begin, len);
  if (uriparse_normalize(spelled, len + 2, out, sizeof out, &len) == URIPARSE_OK)
    sqlite3_result_text64(context, out + 3, len - 5, SQLITE_TRANSIENT, SQLITE_UTF8);
}

/* A call that writes at most as many bytes as the text has. */
typedef uint32_t decoder(const void *text, size_t len, void *out, size_t room, size_t *needed);

/* The bytes that the call writes: a text if they are UTF-8 without a zero byte, else a blob. */
static void result_decoded(sqlite3_context *context, decoder *call, const char *at, size_t len) {
  char *out = sqlite3_malloc64(len + 1);
  if (!out)
    sqlite3_result_error_nomem(context);
  else if (call(at, len, out, len, &len) != URIPARSE_OK)
    sqlite3_free(out);
  else if (pairs_are_text(out, len))
    sqlite3_result_text64(context, out, len, sqlite3_free, SQLITE_UTF8);
  else
    sqlite3_result_blob64(context, out, len, sqlite3_free);
}

static void decode(sqlite3_context *context, int count, sqlite3_value **values) {
  struct text text;
  (void)count;
  if (read_text(context, values[0], &text)) result_decoded(context, uriparse_decode, text.at, text.len);
}

static void form_decode(sqlite3_context *context, int count, sqlite3_value **values) {
  struct text text;
  (void)count;
  if (read_text(context, values[0], &text)) result_decoded(context, uriparse_form_decode, text.at, text.len);
}

static void trim_link(sqlite3_context *context, int count, sqlite3_value **values) {
  struct text text;
  (void)count;
  if (read_text(context, values[0], &text)) result_decoded(context, uriparse_trim_link, text.at, text.len);
}

/* The place of a name in a list that ends with NULL. If it isn't there the function's result is an error. */
static int find_name(sqlite3_context *context, const struct text *name, const char *const *list) {
  char *message;
  for (int i = 0; list[i]; i++)
    if (strlen(list[i]) == name->len && memcmp(list[i], name->at, name->len) == 0) return i;
  message = sqlite3_mprintf("no component %.*Q", (int)(name->len < 40 ? name->len : 40), name->at);
  if (message)
    sqlite3_result_error(context, message, -1);
  else
    sqlite3_result_error_nomem(context);
  sqlite3_free(message);
  return -1;
}

static uint32_t write_encoded(const struct text *texts, char *out, size_t room, size_t *needed) {
  static const uint32_t COMPONENTS[] = {URIPARSE_USERNAME, URIPARSE_PASSWORD, URIPARSE_SEGMENT,
                                        URIPARSE_QUERY,    URIPARSE_FRAGMENT, URIPARSE_PAIR};
  return uriparse_encode(COMPONENTS[texts[0].len], texts[1].at, texts[1].len, out, room, needed);
}

/* uri_encode(component, value) */
static void encode(sqlite3_context *context, int count, sqlite3_value **values) {
  static const char *const NAMES[] = {"username", "password", "segment", "query", "fragment", "pair", NULL};
  struct text texts[2];
  int at;
  (void)count;
  if (!read_text(context, values[0], &texts[0]) || !read_text(context, values[1], &texts[1])) return;
  at = find_name(context, &texts[0], NAMES);
  if (at < 0) return;
  texts[0].len = (size_t)at;
  result_of(context, texts, write_encoded);
}

/* The text, and the change of a component to a value: which one, and whether it is set. */
static uint32_t write_replaced(const struct text *texts, char *out, size_t room, size_t *needed) {
  struct uriparse_changes changes = {0};
  struct uriparse_value *fields[] = {&changes.scheme, &changes.username, &changes.password, &changes.host,
                                      &changes.port,   &changes.path,     &changes.query,    &changes.fragment};
  struct uriparse_value *field = fields[texts[1].len];
  field->end = texts[2].len;
  field->action = texts[2].at ? URIPARSE_SET : URIPARSE_REMOVE;
  return uriparse_change(texts[0].at, texts[0].len, &changes, texts[2].at, texts[2].len, out, room, needed);
}

/* uri_replace(t, component, value): NULL removes the component. */
static void replace(sqlite3_context *context, int count, sqlite3_value **values) {
  static const char *const NAMES[] = {"scheme", "username", "password", "host", "port", "path", "query", "fragment", NULL};
  struct text texts[3] = {{.at = NULL, .len = 0}};
  int at;
  (void)count;
  if (!read_text(context, values[0], &texts[0]) || !read_text(context, values[1], &texts[1])) return;
  at = find_name(context, &texts[1], NAMES);
  if (at < 0 || (sqlite3_value_type(values[2]) != SQLITE_NULL && !read_text(context, values[2], &texts[2]))) return;
  texts[1].len = (size_t)at;
  result_of(context, texts, write_replaced);
}

/* The query of a reference: empty if it is absent. Returns whether the argument is a reference. */
static bool read_query(sqlite3_context *context, sqlite3_value *value, struct text *text, struct text *query, bool *present) {
  struct uriparse_parts parts;
  if (!read_reference(context, value, text, &parts)) return false;
  query->at = text->at + parts.query.begin;
  query->len = parts.query.end - parts.query.begin;
  *present = parts.query.present;
  return true;
}

/* uri_param(t, name): the value of the first pair of the name, as uri_pairs has it; empty without an "=". */
static void param(sqlite3_context *context, int count, sqlite3_value **values) {
  struct text text, query, name;
  struct uriparse_pair pair;
  bool present;
  (void)count;
  if (read_query(context, values[0], &text, &query, &present) && read_text(context, values[1], &name) && present &&
      uriparse_find_pair(query.at, query.len, name.at, name.len, &pair))
    result_decoded(context, uriparse_decode, query.at + pair.value.begin, pair.value.end - pair.value.begin);
}

/* Appends bytes to an array of JSON: as a string if they are UTF-8 without a zero byte, else as null. */
static void append_string(sqlite3_str *json, const char *at, size_t len) {
  if (sqlite3_str_length(json) > 1) sqlite3_str_appendchar(json, 1, ',');
  if (!pairs_are_text(at, len)) {
    sqlite3_str_appendall(json, "null");
    return;
  }
  sqlite3_str_appendchar(json, 1, '"');
  for (size_t i = 0; i < len; i++) {
    if ((unsigned char)at[i] < ' ')
      sqlite3_str_appendf(json, "\\u%04x", at[i]);
    else if (at[i] == '"' || at[i] == '\\')
      sqlite3_str_appendf(json, "\\%c", at[i]);
    else
      sqlite3_str_appendchar(json, 1, at[i]);
  }
  sqlite3_str_appendchar(json, 1, '"');
}

/* What the array has. */
static void result_json(sqlite3_context *context, sqlite3_str *json) {
  int code = sqlite3_str_errcode(json), len = sqlite3_str_length(json);
  char *text = sqlite3_str_finish(json);
  if (code == SQLITE_TOOBIG)
    sqlite3_result_error_toobig(context);
  else if (!text)
    sqlite3_result_error_nomem(context);
  else
    sqlite3_result_text(context, text, len, sqlite3_free);
}

/* uri_param_values(t, name): an array of JSON with the value of each pair of the name, as uri_param has it. */
static void param_values(sqlite3_context *context, int count, sqlite3_value **values) {
  struct text text, query, name;
  struct uriparse_pair pair;
  bool present;
  char *value;
  (void)count;
  if (!read_query(context, values[0], &text, &query, &present) || !read_text(context, values[1], &name)) return;
  value = sqlite3_malloc64((sqlite3_uint64)query.len + 1);
  if (!value) {
    sqlite3_result_error_nomem(context);
    return;
  }
  sqlite3_str *json = sqlite3_str_new(sqlite3_context_db_handle(context));
  sqlite3_str_appendchar(json, 1, '[');
  for (size_t at = 0; present && uriparse_find_next_pair(query.at, query.len, at, name.at, name.len, &pair); at = pair.next) {
    size_t len = pair.value.end - pair.value.begin;
    if (uriparse_decode(query.at + pair.value.begin, len, value, len, &len) == URIPARSE_OK) append_string(json, value, len);
  }
  sqlite3_str_appendchar(json, 1, ']');
  sqlite3_free(value);
  result_json(context, json);
}

/* The reference with this query, or without one. */
static void result_with_query(sqlite3_context *context, const struct text *text, const char *query, size_t len) {
  struct text texts[3] = {*text, {.at = "", .len = 6}, {.at = query, .len = len}};
  result_of(context, texts, write_replaced);
}

/* The reference with a pair that is set, or appended. NULL as the value stands for a pair without "=". */
static void result_with_pair(sqlite3_context *context, sqlite3_value **values, bool appends) {
  struct text text, query, name, value = {.at = "", .len = 0};
  bool present, has_value = sqlite3_value_type(values[2]) != SQLITE_NULL;
  size_t room;
  uint32_t code;
  char *out;
  if (!read_query(context, values[0], &text, &query, &present) || !read_text(context, values[1], &name) ||
      (has_value && !read_text(context, values[2], &value)))
    return;
  room = query.len + 3 * (name.len + value.len) + 2;
  out = sqlite3_malloc64(room);
  if (!out) {
    sqlite3_result_error_nomem(context);
    return;
  }
  code = appends ? uriparse_append_pair(query.at, query.len, name.at, name.len, value.at, value.len, has_value, out, room, &room)
                 : uriparse_set_pair(query.at, query.len, name.at, name.len, value.at, value.len, has_value, out, room, &room);
  if (code == URIPARSE_OK) result_with_query(context, &text, out, room);
  sqlite3_free(out);
}

/* uri_with_param(t, name, value) */
static void with_param(sqlite3_context *context, int count, sqlite3_value **values) {
  (void)count;
  result_with_pair(context, values, false);
}

/* uri_with_appended_param(t, name, value) */
static void with_appended_param(sqlite3_context *context, int count, sqlite3_value **values) {
  (void)count;
  result_with_pair(context, values, true);
}

/* Whether sqlite3_interrupt hasn't ended the statement that runs. Before version 3.41 only another statement says so. */
static bool may_go_on(void *data) {
  sqlite3 *db = data;
#if SQLITE_VERSION_NUMBER >= 3041000
  if (sqlite3_libversion_number() >= 3041000) return !sqlite3_is_interrupted(db);
#endif
  return sqlite3_exec(db, "SELECT 1", NULL, NULL, NULL) != SQLITE_INTERRUPT;
}

/* The reference without the pairs of these names, which are written as in a query. */
static void result_without(sqlite3_context *context, const struct text *text, struct text query, bool present, const char *names,
                           size_t len) {
  char *out = sqlite3_malloc64(2 * (sqlite3_uint64)query.len + 1);
  uint32_t code;
  if (!out) {
    sqlite3_result_error_nomem(context);
    return;
  }
  code = pairs_drop(&query.at, &query.len, names, len, out, may_go_on, sqlite3_context_db_handle(context));
  if (code == PAIRS_STOPPED)
    sqlite3_result_error_code(context, SQLITE_INTERRUPT);
  else if (code == URIPARSE_BAD_NAMES)
    sqlite3_result_error(context, uriparse_error_text(code), -1);
  else if (!present)
    sqlite3_result_text64(context, text->at, text->len, SQLITE_TRANSIENT, SQLITE_UTF8);
  else
    result_with_query(context, text, code == URIPARSE_OK ? query.at : NULL, query.len);
  sqlite3_free(out);
}

/* uri_without_params(t, name, ..): the names are written as in a query, and "utm_*" stands for each that begins so. */
static void without_params(sqlite3_context *context, int count, sqlite3_value **values) {
  struct text text, query, name;
  size_t len = 0;
  bool present;
  char *names;
  if (count < 1) {
    sqlite3_result_error(context, "wrong number of arguments to function uri_without_params()", -1);
    return;
  }
  if (!read_query(context, values[0], &text, &query, &present)) return;
  for (int i = 1; i < count; i++) {
    if (!read_text(context, values[i], &name)) return;
    len += name.len + 1;
  }
  if (!len) {
    sqlite3_result_text64(context, text.at, text.len, SQLITE_TRANSIENT, SQLITE_UTF8);
    return;
  }
  names = sqlite3_malloc64(len);
  if (!names) {
    sqlite3_result_error_nomem(context);
    return;
  }
  len = 0;
  for (int i = 1; i < count; i++) {
    read_text(context, values[i], &name);
    memcpy(names + len, name.at, name.len);
    names[len + name.len] = '&';
    len += name.len + 1;
  }
  result_without(context, &text, query, present, names, len - 1);
  sqlite3_free(names);
}

/* uri_without_param(t, name): the name is data, in which no "*" and no "&" means anything. */
static void without_param(sqlite3_context *context, int count, sqlite3_value **values) {
  struct text text, query, name;
  bool present;
  char *quoted;
  (void)count;
  if (!read_query(context, values[0], &text, &query, &present) || !read_text(context, values[1], &name)) return;
  quoted = sqlite3_malloc64(3 * (sqlite3_uint64)name.len + 1);
  if (!quoted) {
    sqlite3_result_error_nomem(context);
    return;
  }
  pairs_quote(name.at, name.len, quoted);
  result_without(context, &text, query, present, quoted, 3 * name.len);
  sqlite3_free(quoted);
}

/* The tables uri_pairs(t) and uri_segments(t): a row for each pair of the query, or each segment of the path, of a reference. The last column
 * is hidden, and is the argument. */
struct kind {
  const char *columns;
  int hidden;
  bool is_path;
};

static const struct kind OF_PAIRS = {"CREATE TABLE pairs(name, value, uri HIDDEN)", 2, false};
static const struct kind OF_SEGMENTS = {"CREATE TABLE segments(segment, uri HIDDEN)", 1, true};

struct pieces_table {
  sqlite3_vtab base;
  const struct kind *kind;
};

struct pieces {
  sqlite3_vtab_cursor base;
  sqlite3_value *uri; /* the argument, whose bytes the component is among; NULL if there are no rows */
  const char *component;
  size_t len;
  struct uriparse_pair pair; /* of a segment its name, and where the next one begins */
  sqlite3_int64 row;
  bool is_there; /* whether there is a piece in this row */
};

static const struct kind *kind_of(const struct pieces *pieces) { return ((const struct pieces_table *)pieces->base.pVtab)->kind; }

static int pieces_connect(sqlite3 *db, void *data, int count, const char *const *words, sqlite3_vtab **table, char **message) {
  const struct kind *kind = data;
  struct pieces_table *made;
  int code = sqlite3_declare_vtab(db, kind->columns);
  (void)count, (void)words, (void)message;
  if (code != SQLITE_OK) return code;
  sqlite3_vtab_config(db, SQLITE_VTAB_INNOCUOUS);
  made = sqlite3_malloc(sizeof *made);
  if (!made) return SQLITE_NOMEM;
  memset(made, 0, sizeof *made);
  made->kind = kind;
  *table = &made->base;
  return SQLITE_OK;
}

static int pieces_disconnect(sqlite3_vtab *table) {
  sqlite3_free(table);
  return SQLITE_OK;
}

/* The argument is `uri = ..`, which must be known. Without one there are no rows. */
static int pieces_plan(sqlite3_vtab *table, sqlite3_index_info *info) {
  info->estimatedCost = 10;
  info->estimatedRows = 4;
  for (int i = 0; i < info->nConstraint; i++) {
    if (info->aConstraint[i].iColumn != ((struct pieces_table *)table)->kind->hidden || info->aConstraint[i].op != SQLITE_INDEX_CONSTRAINT_EQ) continue;
    if (!info->aConstraint[i].usable) return SQLITE_CONSTRAINT;
    info->aConstraintUsage[i].argvIndex = 1;
    info->aConstraintUsage[i].omit = 1;
    info->idxNum = 1;
    break;
  }
  return SQLITE_OK;
}

static int pieces_open(sqlite3_vtab *table, sqlite3_vtab_cursor **cursor) {
  struct pieces *pieces = sqlite3_malloc(sizeof *pieces);
  (void)table;
  if (!pieces) return SQLITE_NOMEM;
  memset(pieces, 0, sizeof *pieces);
  *cursor = &pieces->base;
  return SQLITE_OK;
}

static int pieces_close(sqlite3_vtab_cursor *cursor) {
  sqlite3_value_free(((struct pieces *)cursor)->uri);
  sqlite3_free(cursor);
  return SQLITE_OK;
}

static void pieces_go(struct pieces *pieces, size_t at) {
  if (!pieces->component) {
    pieces->is_there = false;
  } else if (kind_of(pieces)->is_path) {
    pieces->is_there = uriparse_next_segment(pieces->component, pieces->len, at, &pieces->pair.name);
    pieces->pair.next = pieces->pair.name.end + 1;
  } else {
    pieces->is_there = uriparse_next_pair(pieces->component, pieces->len, at, &pieces->pair);
  }
}

static int pieces_next(sqlite3_vtab_cursor *cursor) {
  struct pieces *pieces = (struct pieces *)cursor;
  pieces->row++;
  pieces_go(pieces, pieces->pair.next);
  return SQLITE_OK;
}

static int pieces_filter(sqlite3_vtab_cursor *cursor, int plan, const char *name, int count, sqlite3_value **values) {
  struct pieces *pieces = (struct pieces *)cursor;
  struct uriparse_parts parts;
  const char *text;
  (void)plan, (void)name;
  sqlite3_value_free(pieces->uri);
  pieces->uri = NULL;
  pieces->component = NULL;
  pieces->row = 0;
  if (count && sqlite3_value_type(values[0]) != SQLITE_NULL) {
    pieces->uri = sqlite3_value_dup(values[0]);
    if (!pieces->uri) return SQLITE_NOMEM;
    text = sqlite3_value_type(pieces->uri) == SQLITE_BLOB ? sqlite3_value_blob(pieces->uri) : (const char *)sqlite3_value_text(pieces->uri);
    if (!text && sqlite3_value_type(pieces->uri) != SQLITE_BLOB) return SQLITE_NOMEM;
    if (!text) text = "";
    if (uriparse_parse(text, (size_t)sqlite3_value_bytes(pieces->uri), &parts) == URIPARSE_OK) {
      struct uriparse_span span = kind_of(pieces)->is_path ? parts.path : parts.query;
      if (span.present) pieces->component = text + span.begin;
      pieces->len = span.end - span.begin;
    }
  }
  pieces_go(pieces, 0);
  return SQLITE_OK;
}

static int pieces_eof(sqlite3_vtab_cursor *cursor) { return !((struct pieces *)cursor)->is_there; }

/* A segment, a name or a value, decoded; NULL for a value that is absent. */
static int pieces_column(sqlite3_vtab_cursor *cursor, sqlite3_context *context, int column) {
  struct pieces *pieces = (struct pieces *)cursor;
  struct uriparse_span span = column == 0 ? pieces->pair.name : pieces->pair.value;
  if (column == kind_of(pieces)->hidden)
    sqlite3_result_value(context, pieces->uri);
  else if (span.present)
    result_decoded(context, uriparse_decode, pieces->component + span.begin, span.end - span.begin);
  return SQLITE_OK;
}

static int pieces_row(sqlite3_vtab_cursor *cursor, sqlite3_int64 *row) {
  *row = ((struct pieces *)cursor)->row;
  return SQLITE_OK;
}

/* Without xCreate the tables need no CREATE VIRTUAL TABLE. */
static const sqlite3_module PIECES = {
  .xConnect = pieces_connect, .xBestIndex = pieces_plan, .xDisconnect = pieces_disconnect, .xOpen = pieces_open,
  .xClose = pieces_close,     .xFilter = pieces_filter,  .xNext = pieces_next,             .xEof = pieces_eof,
  .xColumn = pieces_column,   .xRowid = pieces_row,
};

/* The sign of the order of two byte strings. */
static int compare_bytes(const struct text *left, const struct text *right) {
  size_t least = left->len < right->len ? left->len : right->len;
  int first = least ? memcmp(left->at, right->at, least) : 0;
  return first ? (first < 0 ? -1 : 1) : (left->len > right->len) - (left->len < right->len);
}

static bool is_reference(const struct text *text) {
  size_t place;
  return uriparse_first_fault(text->at, text->len, &place) == URIPARSE_OK;
}

/* References in their order, then all other texts by their bytes. */
static int collate(void *data, int left_len, const void *left, int right_len, const void *right) {
  struct text texts[2] = {{.at = left ? left : "", .len = (size_t)left_len}, {.at = right ? right : "", .len = (size_t)right_len}};
  int bytes = compare_bytes(&texts[0], &texts[1]);
  int32_t order;
  bool is_left;
  (void)data;
  if (!bytes) return 0;
  if (uriparse_compare(texts[0].at, texts[0].len, texts[1].at, texts[1].len, &order) == URIPARSE_OK) return order;
  is_left = is_reference(&texts[0]);
  return is_left == is_reference(&texts[1]) ? bytes : is_left ? -1 : 1;
}

#define PLACE(name) offsetof(struct uriparse_parts, name)
static const size_t PLACES[] = {PLACE(scheme), PLACE(authority), PLACE(host), PLACE(path), PLACE(query), PLACE(fragment),
                                PLACE(username), PLACE(password)};

static const struct {
  const char *name;
  int count;
  void (*call)(sqlite3_context *, int, sqlite3_value **);
  const size_t *place;
} FUNCTIONS[] = {
  {"uri_valid", 1, valid, NULL},           {"uri_fault", 1, fault, NULL},
  {"uri_check", 1, check, NULL},           {"uri_scheme", 1, component, &PLACES[0]},
  {"uri_authority", 1, component, &PLACES[1]}, {"uri_host", 1, component, &PLACES[2]},
  {"uri_port", 1, port, NULL},             {"uri_path", 1, component, &PLACES[3]},
  {"uri_query", 1, component, &PLACES[4]}, {"uri_fragment", 1, component, &PLACES[5]},
  {"uri_normalize", 1, normalize, NULL},   {"uri_resolve", 2, resolve, NULL},
  {"uri_equal", 2, equal, NULL},           {"uri_hash", 1, hash, NULL},
  {"uri_escape", 1, escape, NULL},         {"uri_origin", 1, origin, NULL},
  {"uri_username", 1, component, &PLACES[6]}, {"uri_password", 1, component, &PLACES[7]},
  {"uri_host_kind", 1, host_kind, NULL},   {"uri_relativize", 2, relativize, NULL},
  {"uri_decode", 1, decode, NULL},         {"uri_encode", 2, encode, NULL},
  {"uri_replace", 3, replace, NULL},       {"uri_compare", 2, compare, NULL},
  {"uri_is_within", 2, is_within, NULL},   {"uri_host_is_within", 2, host_is_within, NULL},
  {"uri_default_port", 1, default_port, NULL}, {"uri_host_flags", 1, host_flags, NULL},
  {"uri_disagreement", 1, disagreement, NULL},
  {"uri_is_uri", 1, is_uri, NULL},         {"uri_param", 2, param, NULL},
  {"uri_with_param", 3, with_param, NULL}, {"uri_with_appended_param", 3, with_appended_param, NULL},
  {"uri_without_param", 2, without_param, NULL}, {"uri_without_params", -1, without_params, NULL},
  {"uri_same_origin", 2, same_origin, NULL}, {"uri_is_normalized", 1, is_normalized, NULL},
  {"uri_is_ambiguous", 1, is_ambiguous, NULL}, {"uri_port_or_default", 1, port_or_default, NULL},
  {"uri_host_address", 1, host_address, NULL}, {"uri_param_values", 2, param_values, NULL},
  {"uri_form_decode", 1, form_decode, NULL}, {"uri_trim_link", 1, trim_link, NULL},
  {"uri_fault_text", 1, fault_text, NULL}, {"uri_key", 1, key, NULL},
  {"uri_host_is_within_any", 2, host_is_within_any, NULL}, {"uri_without_default_port", 1, without_default_port, NULL},
  {"uri_mask_password", 1, mask_password, NULL}, {"uri_request_target", 1, request_target, NULL},
  {"uri_is_public", 1, is_public, NULL},   {"uri_normal_key", 1, normal_key, NULL}, {"uri_page_key", 1, page_key, NULL},
  {"uri_place_key", 1, place_key, NULL},   {"uri_domain_prefix", 1, domain_prefix, NULL}, {"uri_base_prefix", 1, base_prefix, NULL},
};

__attribute__((visibility("default")))
int sqlite3_uri_init(sqlite3 *db, char **message, const sqlite3_api_routines *api);

int sqlite3_uri_init(sqlite3 *db, char **message, const sqlite3_api_routines *api) {
  int code = SQLITE_OK, flags = SQLITE_UTF8 | SQLITE_DETERMINISTIC | SQLITE_INNOCUOUS;
  SQLITE_EXTENSION_INIT2(api);
  if (strcmp(uriparse_version(), URIPARSE_VERSION) != 0) {
    *message = sqlite3_mprintf("uri0 is of version %s, and its library of %s", URIPARSE_VERSION, uriparse_version());
    return SQLITE_ERROR;
  }
  for (size_t i = 0; i < sizeof FUNCTIONS / sizeof *FUNCTIONS && code == SQLITE_OK; i++)
    code = sqlite3_create_function_v2(db, FUNCTIONS[i].name, FUNCTIONS[i].count, flags, (void *)FUNCTIONS[i].place,
                                      FUNCTIONS[i].call, NULL, NULL, NULL);
  if (code == SQLITE_OK) code = sqlite3_create_module_v2(db, "uri_pairs", &PIECES, (void *)&OF_PAIRS, NULL);
  if (code == SQLITE_OK) code = sqlite3_create_module_v2(db, "uri_segments", &PIECES, (void *)&OF_SEGMENTS, NULL);
  return code == SQLITE_OK ? sqlite3_create_collation_v2(db, "URI", SQLITE_UTF8, NULL, collate, NULL) : code;
}

#ifndef SQLITE_CORE
/* SQLite calls this first, and by the file's name only if it isn't there: so the file may have any name. */
__attribute__((visibility("default")))
int sqlite3_extension_init(sqlite3 *db, char **message, const sqlite3_api_routines *api);

int sqlite3_extension_init(sqlite3 *db, char **message, const sqlite3_api_routines *api) {
  return sqlite3_uri_init(db, message, api);
}
#endif
