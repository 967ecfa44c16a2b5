/* The rows that all languages share, by the calls of C. Prints a line for each that fails and how many passed; the status is 0 if all did. */
#include "meanings.h"

enum { ROOM = 400 };

static char out[ROOM];
static size_t len;

static void prints(const char *answer) { len = (size_t)sprintf(out, "%s", answer); }

static void prints_number(unsigned number) { len = (size_t)sprintf(out, "%u", number); }

static void has_none(void) { prints("\\N"); }

static void rejects(uint32_t code, int argument, long place) { len = (size_t)error_row(out, ROOM, code, argument, place); }

/* The error of a text, which is the call's argument with this number. No byte is wrong if it has no scheme, or no fault. */
static void rejects_text(uint32_t code, int argument, struct field text) {
  size_t place;
  const bool has_place = (code & ~(0u | URIPARSE_IN_BASE)) != URIPARSE_NO_SCHEME && uriparse_first_fault(text.at, text.len, &place) != URIPARSE_OK;
  rejects(code, argument, has_place ? (long)place : -1);
}

/* Of two texts, of which the first is looked at first, or is the base. */
static void rejects_one_of(uint32_t code, struct field first, struct field second, bool is_first) {
  rejects_text(code, is_first ? 1 : 2, is_first ? first : second);
}

static bool is_faulty(struct field text) {
  size_t place;
  return uriparse_first_fault(text.at, text.len, &place) != URIPARSE_OK;
}

/* Where a text is wrong by itself in a reference that has it after `before`. Each byte of it that would end the component there becomes one
 * that no component has. */
static long place_in(const char *before, const char *ends, const char *after, struct field text) {
  char read[ROOM];
  size_t place, size = (size_t)sprintf(read, "%s", before);
  bool is_in_brackets = text.len > 0 && text.at[0] == '[';
  for (size_t i = 0; i < text.len; i++) {
    const char byte = text.at[i];
    is_in_brackets = is_in_brackets && byte != ']';
    read[size++] = byte != '\0' && strchr(ends, byte) && !(byte == ':' && is_in_brackets) ? '^' : byte;
  }
  size += (size_t)sprintf(read + size, "%s", after);
  return uriparse_first_fault(read, size, &place) == URIPARSE_OK ? -1 : (long)(place - strlen(before));
}

static long place_in_scheme(uint32_t code, struct field text) {
  static const char letters[] = "ABCDEFGHIJKLMNOPQRSTUVWXYZabcdefghijklmnopqrstuvwxyz0123456789+-.";
  return code == URIPARSE_SCHEME_EMPTY ? -1 : code == URIPARSE_SCHEME_LETTER ? 0 : (long)strspn(text.at, letters);
}

static long place_in_value(uint32_t code, struct field text) {
  switch (uriparse_error_component(code)) {
  case URIPARSE_SCHEME: return place_in_scheme(code, text);
  case URIPARSE_USERNAME: return place_in("//", "/?#@:[]", "@", text);
  case URIPARSE_PASSWORD: return place_in("//:", "/?#@[]", "@", text);
  case URIPARSE_HOST: return place_in("//", "/?#@:", "", text);
  case URIPARSE_PORT: return place_in("//:", "/?#@:[]", "", text);
  case URIPARSE_SEGMENT: return place_in("//h/", "?#", "", text);
  case URIPARSE_QUERY: return place_in("?", "#", "", text);
  default: return place_in("#", "", "", text);
  }
}

static void reads(const char *call, struct field text) {
  static const char *const kinds[] = {"\\N", "name", "", "", "ipv4", "", "ipv6", "ipvfuture"};
  struct uriparse_parts parts;
  const uint32_t code = uriparse_parse(text.at, text.len, &parts);
  if (code != URIPARSE_OK) {
    rejects_text(code, 1, text);
  } else if (strcmp(call, "check") == 0) {
    prints("true");
  } else if (strcmp(call, "host_kind") == 0) {
    prints(kinds[parts.host_kind]);
  } else if (!parts.port.present || (strcmp(call, "port_number") == 0 && parts.port.begin == parts.port.end)) {
    has_none();
  } else if (strcmp(call, "port_number") == 0) {
    prints_number(parts.port_number);
  } else {
    len = parts.port.end - parts.port.begin;
    memcpy(out, text.at + parts.port.begin, len);
  }
}

/* The query of a reference, or an absent field. */
static bool read_query(struct field text, struct field *query) {
  struct uriparse_parts parts;
  const uint32_t code = uriparse_parse(text.at, text.len, &parts);
  if (code != URIPARSE_OK) {
    rejects_text(code, 1, text);
    return false;
  }
  query->at = parts.query.present ? text.at + parts.query.begin : NULL;
  query->len = parts.query.end - parts.query.begin;
  return true;
}

static void lists_pairs(struct field query) {
  struct uriparse_pair pair;
  len = 0;
  for (size_t at = 0; query.at && uriparse_next_pair(query.at, query.len, at, &pair); at = pair.next) {
    len += (size_t)sprintf(out + len, pair.value.present ? "<%.*s=%.*s>" : "<%.*s>", (int)(pair.name.end - pair.name.begin),
                           query.at + pair.name.begin, (int)(pair.value.end - pair.value.begin), query.at + pair.value.begin);
  }
}

static void finds_pair(struct field query, struct field name) {
  struct uriparse_pair pair;
  if (!query.at || !uriparse_find_pair(query.at, query.len, name.at, name.len, &pair)) {
    has_none();
  } else {
    uriparse_decode(query.at + pair.value.begin, pair.value.end - pair.value.begin, out, ROOM, &len);
  }
}

static void lists_values(struct field query, struct field name) {
  struct uriparse_pair pair;
  len = 0;
  for (size_t at = 0; query.at && uriparse_find_next_pair(query.at, query.len, at, name.at, name.len, &pair); at = pair.next) {
    size_t needed = 0;
    out[len++] = '<';
    uriparse_decode(query.at + pair.value.begin, pair.value.end - pair.value.begin, out + len, ROOM - len, &needed);
    len += needed;
    out[len++] = '>';
  }
}

static void lists_segments(struct field text) {
  struct uriparse_parts parts;
  struct uriparse_span segment;
  const uint32_t code = uriparse_parse(text.at, text.len, &parts);
  len = 0;
  if (code != URIPARSE_OK) {
    rejects_text(code, 1, text);
    return;
  }
  const char *path = text.at + parts.path.begin;
  for (size_t at = 0; uriparse_next_segment(path, parts.path.end - parts.path.begin, at, &segment); at = segment.end + 1) {
    len += (size_t)sprintf(out + len, "<%.*s>", (int)(segment.end - segment.begin), path + segment.begin);
  }
}

/* The reference with another query, or without one. */
static void has_query(struct field text, const char *query, size_t size, bool is_present) {
  struct uriparse_changes changes = {0};
  changes.query.end = size;
  changes.query.action = is_present ? URIPARSE_SET : URIPARSE_REMOVE;
  uriparse_change(text.at, text.len, &changes, query, size, out, ROOM, &len);
}

static void drops(struct field text, struct field query, struct field names) {
  char left[ROOM];
  size_t size;
  const uint32_t code = uriparse_drop_pairs(query.at, query.len, names.at, names.len, left, ROOM, &size);
  if (code == URIPARSE_BAD_NAMES) {
    rejects(code, 2, place_in_value(code, names));
  } else {
    has_query(text, left, size, query.at && code == URIPARSE_OK);
  }
}

static void edits_pairs(const char *call, struct field text, struct field name, struct field value) {
  struct field query;
  char edited[ROOM];
  size_t size;
  if (!read_query(text, &query)) return;
  if (strcmp(call, "pairs") == 0) {
    lists_pairs(query);
  } else if (strcmp(call, "pair") == 0) {
    finds_pair(query, name);
  } else if (strcmp(call, "pair_values") == 0) {
    lists_values(query, name);
  } else if (strcmp(call, "without_pairs") == 0) {
    drops(text, query, name);
  } else if (strcmp(call, "without_pair") == 0) {
    uriparse_encode(URIPARSE_PAIR, name.at, name.len, edited, ROOM, &size);
    name.at = edited;
    name.len = size;
    drops(text, query, name);
  } else {
    if (strcmp(call, "with_pair") == 0) {
      uriparse_set_pair(query.at, query.len, name.at, name.len, value.at, value.len, value.at != NULL, edited, ROOM, &size);
    } else {
      uriparse_append_pair(query.at, query.len, name.at, name.len, value.at, value.len, value.at != NULL, edited, ROOM, &size);
    }
    has_query(text, edited, size, true);
  }
}

static void replaces(struct field text, struct field name, struct field value) {
  struct uriparse_changes changes = {0};
  const uint32_t components[] = {URIPARSE_SCHEME, URIPARSE_USERNAME, URIPARSE_PASSWORD, URIPARSE_HOST,
                                 URIPARSE_PORT,   URIPARSE_SEGMENT,  URIPARSE_QUERY,    URIPARSE_FRAGMENT};
  struct uriparse_value *const fields[] = {&changes.scheme, &changes.username, &changes.password, &changes.host,
                                           &changes.port,   &changes.path,     &changes.query,    &changes.fragment};
  uint32_t set = 0;
  for (size_t i = 0; i < sizeof fields / sizeof fields[0]; i++) {
    if (strcmp(component_names[components[i] / 0x10], name.at) == 0) {
      fields[i]->end = value.len;
      fields[i]->action = value.at ? URIPARSE_SET : URIPARSE_REMOVE;
      set = value.at ? components[i] : 0;
    }
  }
  const uint32_t code = uriparse_change(text.at, text.len, &changes, value.at, value.len, out, ROOM, &len);
  if (code == URIPARSE_OK) return;
  if (is_faulty(text)) {
    rejects_text(code, 1, text);
  } else if (code != URIPARSE_MISSING_HOST && uriparse_error_component(code) == set) {
    rejects(code, 3, place_in_value(code, value));
  } else {
    rejects(code, -1, -1);
  }
}

/* What a call writes of a reference; nothing if it has no such part. */
static void writes_part(const char *call, struct field text) {
  static const struct {
    const char *name;
    uint32_t (*call)(uriparse_bytes, size_t, uriparse_buffer, size_t, size_t *);
  } calls[] = {{"origin", uriparse_origin}, {"host_address", uriparse_host_address}, {"without_default_port", uriparse_without_default_port},
               {"mask_password", uriparse_mask_password}, {"request_target", uriparse_request_target}};
  size_t which = 0;
  while (strcmp(calls[which].name, call) != 0) which++;
  const uint32_t code = calls[which].call(text.at, text.len, out, ROOM, &len);
  if (code == URIPARSE_NO_ORIGIN || code == URIPARSE_NO_ADDRESS || code == URIPARSE_NO_TARGET) {
    has_none();
  } else if (code != URIPARSE_OK) {
    rejects_text(code, 1, text);
  }
}

static void decodes(const char *call, struct field text) {
  const bool is_form = strcmp(call, "form_decode") == 0;
  const uint32_t code = is_form ? uriparse_form_decode(text.at, text.len, out, ROOM, &len) : uriparse_decode(text.at, text.len, out, ROOM, &len);
  if (code != URIPARSE_OK) rejects(code, 1, place_in_value(code, text));
}

static void writes(const char *call, struct field text, struct field other) {
  uint32_t code;
  if (strcmp(call, "trim_link") == 0) {
    uriparse_trim_link(text.at, text.len, out, ROOM, &len);
  } else if (strcmp(call, "key") == 0 || strcmp(call, "page_key") == 0) {
    code = uriparse_key(strcmp(call, "key") == 0 ? 0 : URIPARSE_KEY_PAGE, text.at, text.len, out, ROOM, &len);
    if (code != URIPARSE_OK) rejects_text(code, 1, text);
  } else if (strcmp(call, "place_key") == 0 || strcmp(call, "base_prefix") == 0) {
    code = strcmp(call, "place_key") == 0 ? uriparse_place_key(text.at, text.len, out, ROOM, &len)
                                          : uriparse_base_prefix(text.at, text.len, out, ROOM, &len);
    if (code != URIPARSE_OK) rejects_text(code, 1, text);
  } else if (strcmp(call, "domain_prefix") == 0) {
    code = uriparse_domain_prefix(text.at, text.len, out, ROOM, &len);
    if (code != URIPARSE_OK) rejects(code, 1, place_in_value(code, text));
  } else if (strcmp(call, "encode") == 0) {
    static const char *const names[] = {"", "username", "password", "", "", "segment", "query", "fragment", "", "pair"};
    uint32_t component = 0;
    while (strcmp(names[component], text.at) != 0) component++;
    uriparse_encode(component * 0x10, other.at, other.len, out, ROOM, &len);
  } else {
    code = strcmp(call, "resolve") == 0 ? uriparse_resolve(text.at, text.len, other.at, other.len, out, ROOM, &len)
                                        : uriparse_relativize(text.at, text.len, other.at, other.len, out, ROOM, &len);
    if (code != URIPARSE_OK) rejects_one_of(code, text, other, (code & URIPARSE_IN_BASE) != 0);
  }
}

/* What a call writes to a number of a reference. */
static void numbers(const char *call, struct field text) {
  uint32_t code, flags = 0;
  int32_t port = 0;
  uint64_t hash = 0;
  bool is_normalized = false, is_public = false;
  if (strcmp(call, "host_flags") == 0) {
    code = uriparse_host_flags(text.at, text.len, &flags);
    prints_number(flags);
  } else if (strcmp(call, "disagreement") == 0) {
    code = uriparse_disagreement(text.at, text.len, &flags);
    prints_number(flags);
  } else if (strcmp(call, "port_or_default") == 0) {
    code = uriparse_port_or_default(text.at, text.len, &port);
    prints_number((unsigned)port);
    if (port == -1) has_none();
  } else if (strcmp(call, "is_normalized") == 0) {
    code = uriparse_is_normalized(text.at, text.len, &is_normalized);
    prints(is_normalized ? "true" : "false");
  } else if (strcmp(call, "is_public") == 0) {
    code = uriparse_is_public(text.at, text.len, &is_public);
    prints(is_public ? "true" : "false");
  } else {
    code = uriparse_hash(text.at, text.len, &hash);
    len = (size_t)sprintf(out, "%llu", (unsigned long long)hash);
  }
  if (code != URIPARSE_OK) rejects_text(code, 1, text);
}

/* A segment is wrong at a slash too. */
static void checks_segment(struct field text) {
  bool is_ambiguous = false;
  const uint32_t code = uriparse_is_ambiguous(text.at, text.len, &is_ambiguous);
  prints(is_ambiguous ? "true" : "false");
  if (code != URIPARSE_OK) rejects(code, 1, place_in("//h/", "/?#", "", text));
}

static void compares(const char *call, struct field text, struct field other) {
  bool is_true = false;
  int32_t order = 0;
  uint32_t code;
  if (strcmp(call, "compare") == 0) {
    code = uriparse_compare(text.at, text.len, other.at, other.len, &order);
    prints(order < 0 ? "-1" : order == 0 ? "0" : "1");
    if (code != URIPARSE_OK) rejects_one_of(code, text, other, is_faulty(text));
  } else if (strcmp(call, "host_is_within") == 0) {
    code = uriparse_host_is_within(text.at, text.len, other.at, other.len, &is_true);
    prints(is_true ? "true" : "false");
    if ((code & URIPARSE_IN_BASE) != 0) {
      rejects(code, 2, place_in_value(code, other));
    } else if (code != URIPARSE_OK) {
      rejects_text(code, 1, text);
    }
  } else {
    const bool is_within = strcmp(call, "is_within") == 0;
    code = is_within                    ? uriparse_is_within(text.at, text.len, other.at, other.len, &is_true)
           : strcmp(call, "equal") == 0 ? uriparse_equal(text.at, text.len, other.at, other.len, &is_true)
                                        : uriparse_same_origin(text.at, text.len, other.at, other.len, &is_true);
    prints(is_true ? "true" : "false");
    if (code != URIPARSE_OK) rejects_one_of(code, text, other, is_within ? (code & URIPARSE_IN_BASE) == 0 : is_faulty(text));
  }
}

/* Of the first domain that is no host the place is among all of them. */
static void tests_domains(struct field text, struct field domains) {
  bool is_within = false;
  const uint32_t code = uriparse_host_is_within_any(text.at, text.len, domains.at, domains.len, &is_within);
  prints(is_within ? "true" : "false");
  if (code != URIPARSE_OK && (code & URIPARSE_IN_BASE) == 0) {
    rejects_text(code, 1, text);
  } else if (code != URIPARSE_OK) {
    struct field domain = domains;
    long place = -1;
    for (size_t at = 0; place < 0 && at <= domains.len; at += domain.len + 1) {
      domain.at = domains.at + at;
      domain.len = strcspn(domain.at, " ");
      place = place_in_value(code, domain);
      if (place >= 0) place += (long)at;
    }
    rejects(code, 2, place);
  }
}

static bool is_one_of(const char *call, const char *const *names) {
  while (*names && strcmp(*names, call) != 0) names++;
  return *names != NULL;
}

/* Writes to `out` what a call answers. */
static void answer(const struct meaning *row) {
  static const char *const reading[] = {"check", "port", "port_number", "host_kind", NULL};
  static const char *const of_pairs[] = {"pairs", "pair", "pair_values", "with_pair", "with_appended_pair", "without_pairs", "without_pair", NULL};
  static const char *const with_part[] = {"origin", "host_address", "without_default_port", "mask_password", "request_target", NULL};
  static const char *const decoding[] = {"decode", "form_decode", NULL};
  static const char *const writing[] = {"resolve", "relativize", "encode", "trim_link", "key", "page_key", "place_key", "domain_prefix", "base_prefix", NULL};
  static const char *const with_number[] = {"host_flags", "disagreement", "port_or_default", "is_normalized", "is_public", "hash", NULL};
  static const char *const comparing[] = {"compare", "equal", "same_origin", "is_within", "host_is_within", NULL};
  const struct field text = row->values[0], other = row->values[1];
  prints("no call");
  if (is_one_of(row->call, reading)) {
    reads(row->call, text);
  } else if (is_one_of(row->call, of_pairs)) {
    edits_pairs(row->call, text, other, row->values[2]);
  } else if (is_one_of(row->call, with_part)) {
    writes_part(row->call, text);
  } else if (is_one_of(row->call, decoding)) {
    decodes(row->call, text);
  } else if (is_one_of(row->call, writing)) {
    writes(row->call, text, other);
  } else if (is_one_of(row->call, with_number)) {
    numbers(row->call, text);
  } else if (strcmp(row->call, "is_ambiguous") == 0) {
    checks_segment(text);
  } else if (strcmp(row->call, "segments") == 0) {
    lists_segments(text);
  } else if (strcmp(row->call, "host_is_within_any") == 0) {
    tests_domains(text, other);
  } else if (is_one_of(row->call, comparing)) {
    compares(row->call, text, other);
  } else if (strcmp(row->call, "replace") == 0) {
    replaces(text, other, row->values[2]);
  } else if (strcmp(row->call, "is_uri") == 0) {
    prints(uriparse_is_uri(text.at, text.len) ? "true" : "false");
  } else if (strcmp(row->call, "default_port") == 0) {
    const uint32_t port = uriparse_default_port(text.at, text.len);
    prints_number(port);
    if (port == 0) has_none();
  } else if (strcmp(row->call, "drop_pairs") == 0) {
    const uint32_t code = uriparse_drop_pairs(text.at, text.len, other.at, other.len, out, ROOM, &len);
    const bool is_names = code == URIPARSE_BAD_NAMES;
    if (code != URIPARSE_OK) rejects(code, is_names ? 2 : -1, is_names ? place_in_value(code, other) : -1);
  }
}

int main(void) {
  static struct meaning row;
  int passed = 0, failed = 0;
  FILE *const file = fopen("../rows.tsv", "r");
  while (file && read_meaning(file, &row)) {
    answer(&row);
    const struct field expected = row.answer.at ? row.answer : (struct field){"\\N", 2};
    if (len == expected.len && memcmp(out, expected.at, len) == 0) {
      passed++;
    } else {
      failed++;
      printf("FAILED %s: %.*s\n", row.line, (int)len, out);
    }
  }
  if (file) fclose(file);
  return printf("%d rows passed, %d failed\n", passed, failed) < 0 || failed != 0 || passed < 400;
}
