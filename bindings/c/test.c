/* Rows with what is expected: the tables of RFC 3986, section 5.4, references that lead to a URI, normal forms, components,
 * texts that are rejected, components that are changed, and texts that are decoded, encoded, escaped and cut into pairs. Prints a line
 * for each check that fails and how many passed; the status is 0 if all did. */
#define _POSIX_C_SOURCE 200809L
#include "rows.h"

#include <signal.h>
#include <stdlib.h>
#include <sys/wait.h>
#include <unistd.h>

/* Resolves into a buffer that has exactly the room that is needed, one byte less, and more. */
static void resolves(const char *base, const char *text, const char *expected) {
  size_t len = strlen(expected), needed = 99999;
  uint8_t more[300];
  memset(more, '~', sizeof more);
  check(uriparse_resolve(base, strlen(base), text, strlen(text), more, sizeof more, &needed) == URIPARSE_OK, "resolve", text);
  check(needed == len && memcmp(more, expected, len) == 0 && more[len] == '~' && more[299] == '~', "target", text);
  uint8_t *exact = malloc(len + 1);
  if (exact == NULL) {
    abort();
  }
  memset(exact, '~', len + 1);
  check(uriparse_resolve(base, strlen(base), text, strlen(text), exact, len, &needed) == URIPARSE_OK, "exact room", text);
  check(needed == len && memcmp(exact, expected, len) == 0 && exact[len] == '~', "exact target", text);
  if (len > 0) {
    memset(exact, '~', len + 1);
    check(uriparse_resolve(base, strlen(base), text, strlen(text), exact, len - 1, &needed) == URIPARSE_NO_ROOM, "no room", text);
    check(needed == len && exact[0] == '~' && exact[len - 1] == '~', "unchanged", text);
  }
  free(exact);
}

static void normalizes(const char *text, const char *expected) {
  size_t needed;
  uint8_t out[300];
  uint32_t code = uriparse_normalize(text, strlen(text), out, sizeof out, &needed);
  check(code == URIPARSE_OK && needed == strlen(expected) && memcmp(out, expected, needed) == 0, "normalize", text);
}

static uint32_t decode(const char *text, size_t len, uint8_t *out, size_t room, size_t *needed) {
  return uriparse_decode(text, len, out, room, needed);
}

static uint32_t escape(const char *text, size_t len, uint8_t *out, size_t room, size_t *needed) {
  return uriparse_escape(text, len, out, room, needed);
}

static uint32_t component;

static uint32_t encode(const char *text, size_t len, uint8_t *out, size_t room, size_t *needed) {
  return uriparse_encode(component, text, len, out, room, needed);
}

static void decodes(const char *text, const char *bytes, size_t count) {
  writes(decode, "decode", text, strlen(text), bytes, count);
}

static void decode_rejects(const char *text, uint32_t expected) {
  uint8_t out[4] = {1, 2, 3, 4};
  size_t needed = 7;
  check(uriparse_decode(text, strlen(text), out, 4, &needed) == expected && needed == 0 && out[0] == 1, "decode rejects", text);
}

/* What is encoded is decoded to the same bytes. */
static void encodes(uint32_t as, const char *bytes, size_t count, const char *expected) {
  component = as;
  writes(encode, "encode", bytes, count, expected, strlen(expected));
  writes(decode, "decode again", expected, strlen(expected), bytes, count);
}

/* What is escaped stays if it is escaped again. */
static void escapes(const char *text, const char *expected) {
  writes(escape, "escape", text, strlen(text), expected, strlen(expected));
  writes(escape, "escape again", expected, strlen(expected), expected, strlen(expected));
}

static void rejects(const char *text, uint32_t expected, size_t place) {
  struct uriparse_parts parts, before;
  memset(&parts, 0x5a, sizeof parts);
  memcpy(&before, &parts, sizeof parts);
  uint32_t code = uriparse_parse(text, strlen(text), &parts);
  check(code == expected, "code of", text);
  check(memcmp(&parts, &before, sizeof parts) == 0, "parts unchanged", text);
  size_t found = 99999;
  check(uriparse_first_fault(text, strlen(text), &found) == expected && found == place, "place of the fault", text);
  uint8_t out[4] = {1, 2, 3, 4};
  size_t needed = 7;
  check(uriparse_normalize(text, strlen(text), out, 4, &needed) == expected && needed == 0 && out[0] == 1, "normalize rejects", text);
  uint32_t of_base = expected == URIPARSE_COLON_IN_SEGMENT ? URIPARSE_NO_SCHEME : expected;
  check(uriparse_resolve(text, strlen(text), "x", 1, out, 4, &needed) == (of_base | URIPARSE_IN_BASE), "base rejected", text);
  check(uriparse_resolve("s:", 2, text, strlen(text), out, 4, &needed) == expected && needed == 0, "reference rejected", text);
}

static void is(const char *text, struct uriparse_span span, const char *piece) {
  if (piece == NULL) {
    check(!span.present && span.begin == 0 && span.end == 0, "absent", text);
  } else {
    check(span.present && span.begin <= span.end && span.end <= strlen(text) && span.end - span.begin == strlen(piece)
              && memcmp(text + span.begin, piece, strlen(piece)) == 0, piece, text);
  }
}

static void parses(const char *text, const char *scheme, const char *username, const char *password, const char *host, uint32_t kind,
                   const char *port, uint32_t number, const char *path, const char *query, const char *fragment) {
  struct uriparse_parts parts;
  memset(&parts, 0x5a, sizeof parts);
  check(uriparse_parse(text, strlen(text), &parts) == URIPARSE_OK, "parse", text);
  size_t place = 99999;
  check(uriparse_first_fault(text, strlen(text), &place) == URIPARSE_OK && place == 99999, "no fault", text);
  is(text, parts.scheme, scheme);
  is(text, parts.username, username);
  is(text, parts.password, password);
  is(text, parts.host, host);
  is(text, parts.port, port);
  is(text, parts.path, path);
  is(text, parts.query, query);
  is(text, parts.fragment, fragment);
  check(parts.authority.present == (host != NULL), "authority", text);
  check(parts.host_kind == kind && parts.port_number == number, "kind and port", text);
}

static void equals(const char *left, const char *right, uint32_t expected, bool answer) {
  bool equal = !answer;
  uint32_t code = uriparse_equal(left, strlen(left), right, strlen(right), &equal);
  check(code == expected && equal == (expected == URIPARSE_OK ? answer : !answer), "equal", right);
}

static void hashes(const char *left, const char *right, bool alike) {
  uint64_t one = 1, other = 2;
  check(uriparse_hash(left, strlen(left), &one) == URIPARSE_OK && uriparse_hash(right, strlen(right), &other) == URIPARSE_OK
            && (one == other) == alike, "hash", right);
}

static const char *base_of;

static uint32_t relativize(const char *text, size_t len, uint8_t *out, size_t room, size_t *needed) {
  return uriparse_relativize(base_of, strlen(base_of), text, len, out, room, needed);
}

/* What leads from a base to a URI has the target that the URI itself has. */
static void relates(const char *base, const char *text, const char *expected) {
  base_of = base;
  writes(relativize, "relativize", text, strlen(text), expected, strlen(expected));
  uint8_t own[100], target[100];
  size_t own_len, len;
  check(uriparse_resolve(base, strlen(base), text, strlen(text), own, sizeof own, &own_len) == URIPARSE_OK
            && uriparse_resolve(base, strlen(base), expected, strlen(expected), target, sizeof target, &len) == URIPARSE_OK
            && len == own_len && memcmp(own, target, len) == 0, "target of what leads there", text);
}

static void relates_not(const char *base, const char *text, uint32_t expected) {
  uint8_t out[4] = {1, 2, 3, 4};
  size_t needed = 7;
  check(uriparse_relativize(base, strlen(base), text, strlen(text), out, 4, &needed) == expected && needed == 0 && out[0] == 1,
        "relativize rejects", text);
}

static struct uriparse_changes changes;
static char values[100];
static size_t values_len;

/* Of the next change: no change, and a component that is set, or removed by NULL. */
static void keeps_all(void) {
  memset(&changes, 0, sizeof changes);
  values_len = 0;
}

static void sets(struct uriparse_value *change, const char *value) {
  change->action = value ? URIPARSE_SET : URIPARSE_REMOVE;
  if (value) {
    change->begin = values_len;
    memcpy(values + values_len, value, strlen(value));
    values_len += strlen(value);
    change->end = values_len;
  }
}

static uint32_t change(const char *text, size_t len, uint8_t *out, size_t room, size_t *needed) {
  return uriparse_change(text, len, &changes, values, values_len, out, room, needed);
}

static void changes_all(const char *text, const char *expected) {
  writes(change, "change", text, strlen(text), expected, strlen(expected));
  keeps_all();
  writes(change, "change nothing", expected, strlen(expected), expected, strlen(expected));
}

static void changes_to(const char *text, struct uriparse_value *field, const char *value, const char *expected) {
  keeps_all();
  sets(field, value);
  changes_all(text, expected);
}

static void change_rejects_all(const char *text, uint32_t expected) {
  uint8_t out[4] = {1, 2, 3, 4};
  size_t needed = 7;
  check(uriparse_change(text, strlen(text), &changes, values, values_len, out, 4, &needed) == expected && needed == 0
            && out[0] == 1, "change rejects", text);
}

static void change_rejects(const char *text, struct uriparse_value *field, const char *value, uint32_t expected) {
  keeps_all();
  sets(field, value);
  change_rejects_all(text, expected);
}

static uint32_t origin(const char *text, size_t len, uint8_t *out, size_t room, size_t *needed) {
  return uriparse_origin(text, len, out, room, needed);
}

static void has_origin(const char *text, const char *expected) {
  writes(origin, "origin", text, strlen(text), expected, strlen(expected));
}

static void has_no_origin(const char *text, uint32_t expected) {
  uint8_t out[4] = {1, 2, 3, 4};
  size_t needed = 7;
  check(uriparse_origin(text, strlen(text), out, 4, &needed) == expected && needed == 0 && out[0] == 1, "no origin", text);
}

/* The pairs of a query, each written as [name] or [name=value]. What is written beyond the end stays. */
static void pairs(const char *query, const char *expected) {
  size_t len = strlen(query), at = 0;
  char found[100] = "";
  struct uriparse_pair pair, before;
  while (uriparse_next_pair(query, len, at, &pair)) {
    check(pair.name.present && pair.name.begin == at && pair.name.end <= len && pair.next > at, "place of a name", query);
    check(!pair.value.present || (pair.value.begin == pair.name.end + 1 && pair.value.end <= len), "place of a value", query);
    check(pair.next == (pair.value.present ? pair.value.end : pair.name.end) + 1, "next", query);
    check(pair.value.present || (pair.value.begin == 0 && pair.value.end == 0), "absent value", query);
    sprintf(found + strlen(found), pair.value.present ? "[%.*s=%.*s]" : "[%.*s]", (int)(pair.name.end - pair.name.begin),
            query + pair.name.begin, (int)(pair.value.end - pair.value.begin), query + pair.value.begin);
    at = pair.next;
  }
  check(at == len + 1 && strcmp(found, expected) == 0, "pairs", query);
  memset(&before, 0x5a, sizeof before);
  memcpy(&pair, &before, sizeof pair);
  check(!uriparse_next_pair(query, len, len + 1, &pair) && !uriparse_next_pair(query, len, (size_t)-1, &pair)
            && memcmp(&pair, &before, sizeof pair) == 0, "no pair", query);
}

/* As many codes have a text as the header names. */
static void texts(void) {
  int named = 0;
  for (uint32_t code = 0; code < 0x100; code++) {
    named += strcmp(uriparse_error_text(code), "unknown code") != 0;
  }
  check(named == 37, "texts", "codes");
  check(strcmp(uriparse_error_text(URIPARSE_IN_BASE | URIPARSE_PORT_RANGE), "port overflow") == 0, "text", "0x142");
  check((URIPARSE_USERNAME_BYTE & URIPARSE_COMPONENT_MASK) == URIPARSE_USERNAME
            && (URIPARSE_PASSWORD_ESCAPE & URIPARSE_COMPONENT_MASK) == URIPARSE_PASSWORD
            && ((URIPARSE_IN_BASE | URIPARSE_HOST_FUTURE_FORM) & URIPARSE_COMPONENT_MASK) == URIPARSE_HOST
            && (URIPARSE_PORT_RANGE & URIPARSE_COMPONENT_MASK) == URIPARSE_PORT
            && (URIPARSE_PATH_BYTE & URIPARSE_COMPONENT_MASK) == URIPARSE_SEGMENT
            && (URIPARSE_QUERY_ESCAPE & URIPARSE_COMPONENT_MASK) == URIPARSE_QUERY
            && (URIPARSE_FRAGMENT_BYTE & URIPARSE_COMPONENT_MASK) == URIPARSE_FRAGMENT
            && (URIPARSE_USERNAME_COLON & URIPARSE_COMPONENT_MASK) == URIPARSE_USERNAME
            && (URIPARSE_SCHEME_EMPTY & URIPARSE_COMPONENT_MASK) == URIPARSE_SCHEME
            && (URIPARSE_NO_ORIGIN & URIPARSE_COMPONENT_MASK) == 0, "component", "codes");
  check(strcmp(uriparse_version(), URIPARSE_VERSION) == 0, "the library is that of the header", URIPARSE_VERSION);
}

/* A NULL that is said to have bytes ends the program, and nothing is read or written: each is called in a child. */
static void call_with_null(int which) {
  struct uriparse_parts parts;
  size_t needed;
  bool equal;
  switch (which) {
  case 0: uriparse_parse(NULL, 1, &parts); break;
  case 1: uriparse_normalize("http://h/aaaaaaaaaaaaaaaaaaaaaaaaaaaaaaaaaaaaaaaaaaaaaaaaaaa", 60, NULL, 64, &needed); break;
  case 2: uriparse_escape("a", 1, NULL, (size_t)1 << 40, &needed); break;
  default: uriparse_equal("a", 1, NULL, 1, &equal); break;
  }
}

/* A call is a function: its address accepts NULL too, and its arguments may have commas. */
static void calls_as_functions(void) {
  uint32_t (*hash)(const void *, size_t, uint64_t *) = uriparse_hash;
  uint64_t one = 1, other = 2;
  check(hash(NULL, 0, &one) == URIPARSE_OK && uriparse_hash("", 0, &other) == URIPARSE_OK && one == other, "address", "hash");
  check(uriparse_is_uri((const uint8_t[]){'a', ':'}, 2) && !uriparse_is_uri((const char[]){'a', 'b'}, 2), "compound literals", "is_uri");
}

static void ends_by_null(void) {
  for (int which = 0; which < 4; which++) {
    int status = 0;
    const pid_t child = fork();
    if (child == 0) {
      call_with_null(which);
      _exit(0);
    }
    check(child > 0 && waitpid(child, &status, 0) == child && WIFSIGNALED(status) && WTERMSIG(status) == SIGABRT, "NULL with a length", "");
  }
}

/* The component of a code, also of one that doesn't name it by its digit. */
static void components(void) {
  static const uint32_t rows[][2] = {
      {URIPARSE_NO_SCHEME, URIPARSE_SCHEME}, {URIPARSE_NO_SCHEME | URIPARSE_IN_BASE, URIPARSE_SCHEME}, {URIPARSE_COLON_IN_SEGMENT, URIPARSE_SEGMENT},
      {URIPARSE_TOO_MANY_SEGMENTS, URIPARSE_SEGMENT}, {URIPARSE_TWO_SLASHES, URIPARSE_SEGMENT}, {URIPARSE_MISSING_HOST, URIPARSE_HOST},
      {URIPARSE_BAD_NAMES, URIPARSE_QUERY}, {URIPARSE_NO_PAIRS, URIPARSE_QUERY}, {URIPARSE_NO_ORIGIN, 0}, {URIPARSE_NO_ADDRESS, 0},
      {URIPARSE_BAD_CHANGE, 0}, {URIPARSE_NO_COMPONENT, 0}, {URIPARSE_OK, 0}, {URIPARSE_HOST_IPV6_FORM | URIPARSE_IN_BASE, URIPARSE_HOST}, {URIPARSE_SCHEME_LETTER, URIPARSE_SCHEME}};
  for (size_t i = 0; i < sizeof rows / sizeof rows[0]; i++) {
    check(uriparse_error_component(rows[i][0]) == rows[i][1], "component", uriparse_error_text(rows[i][0]));
  }
}

int main(void) {
  check(sizeof(struct uriparse_pair) == 2 * sizeof(struct uriparse_span) + sizeof(size_t)
            && offsetof(struct uriparse_pair, next) == 2 * sizeof(struct uriparse_span), "layout", "uriparse_pair");
  check(sizeof(struct uriparse_span) == 3 * sizeof(size_t) && offsetof(struct uriparse_parts, host_kind) == 9 * sizeof(struct uriparse_span)
            && sizeof(struct uriparse_parts) == 9 * sizeof(struct uriparse_span) + 8, "layout", "uriparse_parts");
  const char *base = "http://a/b/c/d;p?q";
  static const char *const rows[][2] = {
      {"g:h", "g:h"}, {"g", "http://a/b/c/g"}, {"./g", "http://a/b/c/g"}, {"g/", "http://a/b/c/g/"}, {"/g", "http://a/g"}, {"//g", "http://g/"},
      {"?y", "http://a/b/c/d;p?y"}, {"g?y", "http://a/b/c/g?y"}, {"#s", "http://a/b/c/d;p?q#s"}, {"g#s", "http://a/b/c/g#s"},
      {"g?y#s", "http://a/b/c/g?y#s"}, {";x", "http://a/b/c/;x"}, {"g;x", "http://a/b/c/g;x"}, {"g;x?y#s", "http://a/b/c/g;x?y#s"},
      {"", "http://a/b/c/d;p?q"}, {".", "http://a/b/c/"}, {"./", "http://a/b/c/"}, {"..", "http://a/b/"}, {"../", "http://a/b/"},
      {"../g", "http://a/b/g"}, {"../..", "http://a/"}, {"../../", "http://a/"}, {"../../g", "http://a/g"}, {"../../../g", "http://a/g"},
      {"../../../../g", "http://a/g"}, {"/./g", "http://a/g"}, {"/../g", "http://a/g"}, {"g.", "http://a/b/c/g."}, {".g", "http://a/b/c/.g"},
      {"g..", "http://a/b/c/g.."}, {"..g", "http://a/b/c/..g"}, {"./../g", "http://a/b/g"}, {"./g/.", "http://a/b/c/g/"},
      {"g/./h", "http://a/b/c/g/h"}, {"g/../h", "http://a/b/c/h"}, {"g;x=1/./y", "http://a/b/c/g;x=1/y"}, {"g;x=1/../y", "http://a/b/c/y"},
      {"g?y/./x", "http://a/b/c/g?y/./x"}, {"g?y/../x", "http://a/b/c/g?y/../x"}, {"g#s/./x", "http://a/b/c/g#s/./x"},
      {"g#s/../x", "http://a/b/c/g#s/../x"}, {"http:g", "http:g"}};
  for (size_t i = 0; i < sizeof rows / sizeof rows[0]; i++) {
    resolves(base, rows[i][0], rows[i][1]);
  }
  resolves("s:/a/b", "..//c", "s:/.//c");

  /* Each a base, a URI, and what leads from one to the other. */
  static const char *const relations[][3] = {
      {"http://a/b/c/d;p?q", "http://a/b/c/g", "g"}, {"http://a/b/c/d;p?q", "g:h", "g:h"},
      {"http://a/b/c/d;p?q", "http:g", "http:g"}, {"http://a/b/c/d;p?q", "http://a/b/c/g/", "g/"},
      {"http://a/b/c/d;p?q", "http://a/b/c/g?y", "g?y"}, {"http://a/b/c/d;p?q", "http://a/b/c/g#s", "g#s"},
      {"http://a/b/c/d;p?q", "http://a/b/c/g?y#s", "g?y#s"}, {"http://a/b/c/d;p?q", "http://a/b/c/;x", ";x"},
      {"http://a/b/c/d;p?q", "http://a/b/c/g;x", "g;x"}, {"http://a/b/c/d;p?q", "http://a/b/c/g;x?y#s", "g;x?y#s"},
      {"http://a/b/c/d;p?q", "http://a/b/g", "../g"}, {"http://a/b/c/d;p?q", "http://a/b/c/g.", "g."},
      {"http://a/b/c/d;p?q", "http://a/b/c/.g", ".g"}, {"http://a/b/c/d;p?q", "http://a/b/c/g..", "g.."},
      {"http://a/b/c/d;p?q", "http://a/b/c/..g", "..g"}, {"http://a/b/c/d;p?q", "http://a/b/c/g/h", "g/h"},
      {"http://a/b/c/d;p?q", "http://a/b/c/h", "h"}, {"http://a/b/c/d;p?q", "http://a/b/c/g;x=1/y", "g;x=1/y"},
      {"http://a/b/c/d;p?q", "http://a/b/c/y", "y"}, {"http://a/b/c/d;p?q", "http://a/b/c/g?y/./x", "g?y/./x"},
      {"http://a/b/c/d;p?q", "http://a/b/c/g?y/../x", "g?y/../x"}, {"http://a/b/c/d;p?q", "http://a/b/c/g#s/./x", "g#s/./x"},
      {"http://a/b/c/d;p?q", "http://a/b/c/g#s/../x", "g#s/../x"}, {"http://a/b/c/d;p?q", "http://a/b/c/d;p?q", ""},
      {"http://a/b/c/d;p?q", "http://a/b/c/d;p?q#s", "#s"}, {"http://a/b/c/d;p?q", "http://a/b/c/d;p?y", "?y"},
      {"http://a/b/c/d;p?q", "http://a/b/c/d;p", "d;p"}, {"http://a/b/c/d;p?q", "http://a/b/c/", "./"},
      {"http://a/b/c/d;p?q", "http://a/b/", "../"}, {"http://a/b/c/d;p?q", "http://a/", "../../"},
      {"http://a/b/c/d;p?q", "http://a", "../../"}, {"http://a/b/c/d;p?q", "http://a/g", "../../g"},
      {"http://a/b/c/d;p?q", "http://g", "//g/"}, {"http://a/b/c/d;p?q", "https://a/b/c/g", "https://a/b/c/g"},
      {"http://a/b/c/d;p?q", "http://a/b/c/g:h", "./g:h"}, {"http://a/b/c/d;p?q", "http://a/b/c//g", ".//g"},
      {"http://a/b", "http://a//c", ".//c"}, {"http://a/b/c", "http://a//c", "..//c"}, {"http://a/b/../c", "http://a/b/d", "/b/d"},
      {"http://a/b/c", "http://a/b/./d", "/b/./d"}, {"http://a/b/c", "http://a//b/./d", "//a//b/./d"},
      {"file:///a/b", "file:///a/c", "c"}, {"file:/a/b", "file:/a/c", "c"}, {"file:///a/b", "file:/a/c", "file:/a/c"},
      {"mailto:a", "mailto:b", "b"}, {"mailto:a", "mailto:a#f", "#f"}, {"urn:isbn:1", "urn:isbn:2", "./isbn:2"},
      {"urn:a/b/c", "urn:a/d", "../d"}, {"urn:a/b/c", "urn:d", "urn:d"}, {"x:", "x:a", "a"},
      {"http://a/b/c/", "http://a/b/c", "../c"}, {"http://a/b/c", "http://a/b/c/", "c/"}, {"http://a/b/c?x", "http://a/b/c", "c"},
      {"http://a/b/?x", "http://a/b/", "./"}, {"HTTP://a/b", "http://a/c", "c"}, {"http://A/b", "http://a/c", "//a/c"},
      {"http://a/%7Eb/c", "http://a/~b/d", "../~b/d"}, {"http://a/b/c/d", "http://a/b", "../../b"},
      {"http://a/b/c?", "http://a/b/c", "c"}, {"http://a/b/c", "http://a/b/c?", "?"}, {"http://a/b?q", "http://a/b?q", ""},
      {"http://u@h/a", "http://u@h/b", "b"}, {"http://u@h/a", "http://h/b", "//h/b"}, {"http://h:80/a", "http://h/b", "//h/b"},
      {"http://1.2.3.4/a", "http://1.2.3.4/b", "b"}, {"http://[::1]/a", "http://[::1]/b/", "b/"},
      {"http://[::1]/a", "http://[0::1]/b", "b"}, {"s:/.//a", "s:/.//b", "/.//b"}, {"s:/a", "s:/.//b", "/.//b"},
      {"s:/a", "s:", "s:"}, {"s:", "s:", ""}, {"s:a?q", "s:a", "a"}, {"s:a", "s:a?q", "?q"}, {"s:a/b", "s:a/b", ""},
      {"s:a/../b", "s:a/../b", "s:a/../b"}, {"http://a/b/..", "http://a/b/c", "c"}, {"http://a/b/%2e%2E", "http://a/c", "../c"},
      {"http://a/%2E/b", "http://a/c", "/c"}, {"http://a/b/c//d", "http://a/b/c//e", "e"}, {"http://a//", "http://a/", "../"},
      {"http://a/", "http://a//", ".//"}, {"http://a/b/c", "http://a/b//", ".//"}, {"http://a/A/b", "http://a/%41/b", "../%41/b"},
      {"foo:/a/b", "Foo:/a/c", "Foo:/a/c"}, {"foo:/a/b", "foo:/a/c", "c"}, {"foo:/a/b", "FOO:/a/c", "FOO:/a/c"},
      {"http://a/b#f", "http://a/b", ""}, {"http://a/b#f", "http://a/b#f", "#f"}, {"s:a/b/c", "s:a/b", "../b"},
      {"s:a/b/c", "s:a/", "../"}, {"s:a/b/c", "s:a", "s:a"}, {"s:a/b", "s:b/c", "s:b/c"}, {"s:", "s:?q", "?q"}, {"s:a", "s:", "./"},
      {"s:a/b", "s:/a/c", "/a/c"}, {"s:a/b?q", "s:a/b", "b"}, {"s:a:b/c", "s:a:b/d:e", "./d:e"}};
  for (size_t i = 0; i < sizeof relations / sizeof relations[0]; i++) {
    relates(relations[i][0], relations[i][1], relations[i][2]);
  }
  relates_not("/a", "s:a", URIPARSE_NO_SCHEME | URIPARSE_IN_BASE);
  relates_not("1:2", "%", URIPARSE_NO_SCHEME | URIPARSE_IN_BASE);
  relates_not("s:%", "%", URIPARSE_PATH_ESCAPE | URIPARSE_IN_BASE);
  relates_not("s:a", "/a", URIPARSE_NO_SCHEME);
  relates_not("s:a", "1:2", URIPARSE_NO_SCHEME);
  relates_not("s:a", "s:a#%", URIPARSE_FRAGMENT_ESCAPE);

  normalizes("HTTP://U@EXAMPLE.com:80/a/./b/../%7e%2f?%7E#%41", "http://U@example.com:80/a/~%2F?~#A");
  normalizes("", "");
  normalizes("a/b/..", "a/");
  normalizes("http://[0:0:0:0:0:0:0:1]/", "http://[::1]/");

  decodes("", "", 0);
  decodes("a%20b%2f%2F%00%ff+", "a b//\0\377+", 8);
  decodes("%2525", "%25", 3);
  decodes("a=1&b", "a=1&b", 5);
  decode_rejects("a%2", URIPARSE_QUERY_ESCAPE);
  decode_rejects("%zz", URIPARSE_QUERY_ESCAPE);
  decode_rejects("a b", URIPARSE_QUERY_BYTE);
  decode_rejects("#", URIPARSE_QUERY_BYTE);

  encodes(URIPARSE_USERNAME, "a:b@/", 5, "a%3Ab%40%2F");
  encodes(URIPARSE_PASSWORD, "a:b@/", 5, "a:b%40%2F");
  encodes(URIPARSE_SEGMENT, "a:b@/?", 6, "a:b@%2F%3F");
  encodes(URIPARSE_QUERY, "a:b@/?#&=+", 10, "a:b@/?%23&=+");
  encodes(URIPARSE_FRAGMENT, "a:b@/?#", 7, "a:b@/?%23");
  encodes(URIPARSE_SEGMENT, "%41 \0\377", 6, "%2541%20%00%FF");
  encodes(URIPARSE_SEGMENT, "\xc3\xa9~", 3, "%C3%A9~");
  encodes(URIPARSE_QUERY, "", 0, "");
  {
    uint8_t out[4] = {1, 2, 3, 4};
    static const uint32_t others[] = {0, 0x11, 0x30, 0x40, 0x80, 0xffffffff};
    for (size_t i = 0; i < sizeof others / sizeof others[0]; i++) {
      size_t needed = 7;
      check(uriparse_encode(others[i], "a", 1, out, 4, &needed) == URIPARSE_NO_COMPONENT && needed == 0 && out[0] == 1,
            "no component", "a");
    }
  }

  /* RFC 3987, section 3.1; then bytes that RFC 3986 has nowhere, and delimiters where it doesn't have them. */
  escapes("http://www.example.org/red%09ros\xc3\xa9#red", "http://www.example.org/red%09ros%C3%A9#red");
  escapes("http://example.com/\xf0\x90\x8c\x80", "http://example.com/%F0%90%8C%80");
  escapes("http://h/a b?q=100%&r=\xc3\xbc#[x]", "http://h/a%20b?q=100%25&r=%C3%BC#%5Bx%5D");
  escapes("//[::1]/[a]?[#[#]", "//[::1]/%5Ba%5D?%5B#%5B%23%5D");
  escapes("a\\b^c`d{e|f}g\"<>", "a%5Cb%5Ec%60d%7Be%7Cf%7Dg%22%3C%3E");
  escapes("%%41%4", "%25%41%254");
  escapes("HTTP://H/%7e/../x", "HTTP://H/%7e/../x");
  escapes("", "");

  /* RFC 6454, sections 4, 5 and 6.2. */
  changes_to("HTTP://u@h/%7Ea?q#f", &changes.host, "example.org", "HTTP://u@example.org/%7Ea?q#f");
  changes_to("http://h/a", &changes.host, "[0:0::1]", "http://[0:0::1]/a");
  changes_to("a:b/c", &changes.host, "h", "a://h/b/c");
  changes_to("a:/b?q", &changes.host, "", "a:///b?q");
  changes_to("?q", &changes.host, "h", "//h?q");
  changes_to("http://u:p@h:80/a#f", &changes.host, NULL, "http:/a#f");
  changes_to("http://h?q", &changes.host, NULL, "http:/?q");
  changes_to("//h", &changes.host, NULL, "/");
  changes_to("http://u:p@h/", &changes.username, NULL, "http://h/");
  changes_to("http://u:p@h/", &changes.username, "", "http://:p@h/");
  changes_to("http://u:p@h/", &changes.password, NULL, "http://u@h/");
  changes_to("http://h/", &changes.password, "a:b", "http://:a:b@h/");
  changes_to("http://u@h:8/", &changes.port, "080", "http://u@h:080/");
  changes_to("http://h:/", &changes.port, NULL, "http://h/");
  changes_to("http://h", &changes.port, "", "http://h:");
  changes_to("http://h:/", &changes.path, "x/y", "http://h:/x/y");
  changes_to("http://h/a?q", &changes.path, NULL, "http://h?q");
  changes_to("a/b?q", &changes.path, "/c%2f", "/c%2f?q");
  changes_to("s:/a#f", &changes.query, "x?y", "s:/a?x?y#f");
  changes_to("s:a?q#f", &changes.query, NULL, "s:a#f");
  changes_to("s:a?q#f", &changes.query, "", "s:a?#f");
  changes_to("s:a?q#f", &changes.fragment, NULL, "s:a?q");
  changes_to("a", &changes.fragment, "?", "a#?");
  changes_to("Http://h", &changes.scheme, "Ws", "Ws://h");
  changes_to("s://h/a:b", &changes.scheme, NULL, "//h/a:b");
  changes_to("a/b:c", &changes.scheme, "x", "x:a/b:c");
  keeps_all();
  sets(&changes.scheme, NULL);
  sets(&changes.host, NULL);
  sets(&changes.path, "./a:b");
  changes_all("s://u@h:1/c?q", "./a:b?q");
  keeps_all();
  sets(&changes.password, "p");
  sets(&changes.username, NULL);
  changes_all("//u:w@h", "//:p@h");
  change_rejects("//h//a", &changes.host, NULL, URIPARSE_TWO_SLASHES);
  change_rejects("s:a", &changes.path, "//b", URIPARSE_TWO_SLASHES);
  change_rejects("s:a:b", &changes.scheme, NULL, URIPARSE_COLON_IN_SEGMENT);
  change_rejects("a", &changes.path, "b:c", URIPARSE_COLON_IN_SEGMENT);
  change_rejects("a", &changes.port, "80", URIPARSE_MISSING_HOST);
  change_rejects("s:a", &changes.username, "u", URIPARSE_MISSING_HOST);
  change_rejects("/a", &changes.password, "p", URIPARSE_MISSING_HOST);
  change_rejects("s:a", &changes.scheme, "1a", URIPARSE_SCHEME_LETTER);
  change_rejects("s:a", &changes.scheme, "", URIPARSE_SCHEME_EMPTY);
  change_rejects("s:a", &changes.scheme, "a/", URIPARSE_SCHEME_BYTE);
  change_rejects("//h", &changes.host, "a/b", URIPARSE_HOST_BYTE);
  change_rejects("//h", &changes.host, "a@b", URIPARSE_HOST_BYTE);
  change_rejects("//h", &changes.host, "a:1", URIPARSE_HOST_BYTE);
  change_rejects("//h", &changes.host, "[::x]", URIPARSE_HOST_IPV6_BYTE);
  change_rejects("//h", &changes.username, "a:b", URIPARSE_USERNAME_COLON);
  change_rejects("//h", &changes.password, "a@b", URIPARSE_PASSWORD_BYTE);
  change_rejects("//h", &changes.port, "65536", URIPARSE_PORT_RANGE);
  change_rejects("//h", &changes.port, "8x", URIPARSE_PORT_BYTE);
  change_rejects("//h", &changes.path, "a?b", URIPARSE_PATH_BYTE);
  change_rejects("//h", &changes.path, "a#b", URIPARSE_PATH_BYTE);
  change_rejects("//h", &changes.path, "%2", URIPARSE_PATH_ESCAPE);
  change_rejects("//h", &changes.query, "a#b", URIPARSE_QUERY_BYTE);
  change_rejects("//h", &changes.fragment, "a#b", URIPARSE_FRAGMENT_BYTE);
  change_rejects("a b", &changes.fragment, "x", URIPARSE_PATH_BYTE);
  keeps_all();
  changes.query.action = 3;
  change_rejects_all("a", URIPARSE_BAD_CHANGE);
  keeps_all();
  sets(&changes.query, "x");
  changes.query.end = 2;
  change_rejects_all("a", URIPARSE_BAD_CHANGE);
  changes.query.begin = 1;
  changes.query.end = 0;
  change_rejects_all("a", URIPARSE_BAD_CHANGE);
  has_origin("http://example.com/", "http://example.com");
  has_origin("http://example.com:80/", "http://example.com");
  has_origin("http://example.com/path/file", "http://example.com");
  has_origin("http://example.com:8080/", "http://example.com:8080");
  has_origin("HTTPS://u:p@EXAMPLE.com:0443/b?c#d", "https://example.com");
  has_origin("http://%65x%2e%c3%bc:", "http://ex.%C3%BC");
  has_origin("ftp://[0:0:0:0:0:0:0:1]:21", "ftp://[::1]");
  has_origin("X-a://[V1.B]:0", "x-a://[v1.b]:0");
  has_origin("http://1.2.3.4:65535", "http://1.2.3.4:65535");
  /* A text doesn't keep the kind of a host: a name and an address have one origin text. */
  has_origin("http://%31.2.3.4", "http://1.2.3.4");
  has_origin("http://1.2.3.4", "http://1.2.3.4");
  has_no_origin("file:///a", URIPARSE_NO_ORIGIN);
  has_no_origin("mailto:a@example.com", URIPARSE_NO_ORIGIN);
  has_no_origin("x-a://h", URIPARSE_NO_ORIGIN);
  has_no_origin("//h:80", URIPARSE_NO_ORIGIN);
  has_no_origin("", URIPARSE_NO_ORIGIN);
  /* RFC 9110, section 4.2.1: an empty host is invalid. */
  has_no_origin("http:///a", URIPARSE_NO_ORIGIN);
  has_no_origin("http://", URIPARSE_NO_ORIGIN);
  has_no_origin("http://u@:80/a", URIPARSE_NO_ORIGIN);
  has_no_origin("HTTPS://:/", URIPARSE_NO_ORIGIN);
  has_no_origin("http://h:65536", URIPARSE_PORT_RANGE);
  has_no_origin("1:2", URIPARSE_COLON_IN_SEGMENT);

  pairs("a=1&b=2", "[a=1][b=2]");
  pairs("", "[]");
  pairs("a", "[a]");
  pairs("a=", "[a=]");
  pairs("=", "[=]");
  pairs("&", "[][]");
  pairs("a&&b&", "[a][][b][]");
  pairs("a=b=c&=d", "[a=b=c][=d]");
  pairs("a%26b=%3D&c+d", "[a%26b=%3D][c+d]");
  pairs("a b#c&d", "[a b#c][d]");
  {
    struct uriparse_pair pair;
    check(uriparse_next_pair("a=1&b=2", 7, 5, &pair) && pair.name.begin == 5 && pair.name.end == 5 && pair.value.begin == 6
              && pair.value.end == 7 && pair.next == 8, "pair within a pair", "a=1&b=2");
    check(uriparse_next_pair(NULL, 0, 0, &pair) && pair.name.present && pair.name.end == 0 && !pair.value.present && pair.next == 1
              && !uriparse_next_pair(NULL, 0, 1, &pair), "next_pair", "NULL");
  }

  rejects("//u%@h", URIPARSE_USERNAME_ESCAPE, 3);
  rejects("//u\"@h", URIPARSE_USERNAME_BYTE, 3);
  rejects("//u:p%4@h", URIPARSE_PASSWORD_ESCAPE, 5);
  rejects("//u:p[@h", URIPARSE_PASSWORD_BYTE, 5);
  rejects("//h^/", URIPARSE_HOST_BYTE, 3);
  rejects("//[v1.]/", URIPARSE_HOST_FUTURE_FORM, 2);
  rejects("//[v1.^]/", URIPARSE_HOST_FUTURE_BYTE, 6);
  rejects("//[::g]/", URIPARSE_HOST_IPV6_BYTE, 5);
  rejects("//[1:2]/", URIPARSE_HOST_IPV6_FORM, 2);
  rejects("//h:8x/", URIPARSE_PORT_BYTE, 5);
  rejects("//h:65536/", URIPARSE_PORT_RANGE, 4);
  rejects("/a b", URIPARSE_PATH_BYTE, 2);
  rejects("/%g0", URIPARSE_PATH_ESCAPE, 1);
  rejects("1:2", URIPARSE_COLON_IN_SEGMENT, 0);
  rejects("?^", URIPARSE_QUERY_BYTE, 1);
  rejects("?%", URIPARSE_QUERY_ESCAPE, 1);
  rejects("#^", URIPARSE_FRAGMENT_BYTE, 1);
  rejects("#%f", URIPARSE_FRAGMENT_ESCAPE, 1);
  rejects("/\xc3\xa9", URIPARSE_PATH_BYTE, 1);
  {
    uint8_t out[4];
    size_t needed;
    check(uriparse_resolve("/a", 2, "b", 1, out, 4, &needed) == (URIPARSE_NO_SCHEME | URIPARSE_IN_BASE), "no scheme", "/a");
    struct uriparse_parts parts;
    check(uriparse_parse("a\0b", 3, &parts) == URIPARSE_PATH_BYTE, "zero byte", "a\\0b");
    size_t most = 1000000;
    char *many = malloc(most + 1);
    if (many == NULL) {
      abort();
    }
    memset(many, '/', most + 1);
    many[0] = 'a';
    check(uriparse_parse(many, most, &parts) == URIPARSE_OK && parts.path.end == most, "1,000,000 segments", "a////..");
    check(uriparse_parse(many, most + 1, &parts) == URIPARSE_TOO_MANY_SEGMENTS, "1,000,001 segments", "a////..");
    check(uriparse_first_fault(many, most + 1, &needed) == URIPARSE_TOO_MANY_SEGMENTS && needed == most, "place of the segment", "a////..");
    needed = 7;
    check(uriparse_resolve("s:/b/c", 6, many, most, out, 4, &needed) == URIPARSE_TOO_MANY_SEGMENTS && needed == 0,
          "1,000,001 segments, resolved", "a////..");
    memcpy(many, "s:/a", 4);
    check(uriparse_relativize("s:/b", 4, many, most, out, 4, &needed) == URIPARSE_NO_ROOM && needed == most - 3, "long text, related", "s:/a//..");
    check(uriparse_relativize(many, most, "s:/b", 4, out, 4, &needed) == URIPARSE_OK && needed == 2 && memcmp(out, "/b", 2) == 0,
          "too many segments, related", "s:/a//..");
    memcpy(many, "a///", 4);
    check(uriparse_normalize(many, most, out, 4, &needed) == URIPARSE_NO_ROOM && needed == most, "long normal form", "a////..");
    check(uriparse_escape(many, most + 1, out, 4, &needed) == URIPARSE_NO_ROOM && needed == most + 1, "long text, escaped", "a////..");
    check(uriparse_encode(URIPARSE_SEGMENT, many, most, out, 4, &needed) == URIPARSE_NO_ROOM && needed == 3 * most - 2,
          "long text, encoded", "a////..");
    check(uriparse_decode(many, most, out, 4, &needed) == URIPARSE_NO_ROOM && needed == most, "long text, decoded", "a////..");
    free(many);
  }

  equals("http://h/%7ea", "HTTP://H/~a", URIPARSE_OK, true);
  equals("http://h", "http://h/", URIPARSE_OK, true);
  equals("a/./b", "a/b", URIPARSE_OK, false);
  equals("//%31.2.3.4", "//1.2.3.4", URIPARSE_OK, false);
  equals("/a", "a", URIPARSE_OK, false);
  equals("%", "?^", URIPARSE_PATH_ESCAPE, false);
  equals("a", "?^", URIPARSE_QUERY_BYTE, false);
  check(uriparse_is_uri("a:", 2) && !uriparse_is_uri("a", 1) && !uriparse_is_uri("a:%", 3), "is_uri", "a:");
  texts();
  components();
  calls_as_functions();
  ends_by_null();

  hashes("http://h/%7ea", "HTTP://H/~a", true);
  hashes("//[V1.x]", "//[v1.X]", true);
  hashes("http://h/a", "http://h/b", false);
  hashes("", "/", false);
  {
    uint64_t hash = 1;
    check(uriparse_hash("%", 1, &hash) == URIPARSE_PATH_ESCAPE && hash == 1, "hash rejects", "%");
  }

  /* A change as a compound literal, whose commas stand in no parentheses. */
  {
    char out[40];
    size_t needed;
    check(uriparse_change("//u@h", 5, &(struct uriparse_changes){.host = {0, 1, URIPARSE_SET}, .port = {1, 3, URIPARSE_SET}}, "k80", 3, out,
                          sizeof out, &needed) == URIPARSE_OK && needed == 8 && memcmp(out, "//u@k:80", 8) == 0, "compound literal", "//u@h");
    check(uriparse_is_uri((const char[]){'s', ':'}, 2), "compound literal", "s:");
  }

  /* An empty text and an empty buffer may be NULL. */
  {
    struct uriparse_parts parts;
    bool equal = false;
    uint64_t hash;
    size_t needed = 7;
    check(uriparse_parse(NULL, 0, &parts) == URIPARSE_OK && parts.path.present && parts.path.end == 0, "parse", "NULL");
    check(!uriparse_is_uri(NULL, 0), "is_uri", "NULL");
    check(uriparse_first_fault(NULL, 0, &needed) == URIPARSE_OK && needed == 7, "first_fault", "NULL");
    check(uriparse_equal(NULL, 0, "", 0, &equal) == URIPARSE_OK && equal, "equal", "NULL");
    check(uriparse_hash(NULL, 0, &hash) == URIPARSE_OK, "hash", "NULL");
    check(uriparse_normalize(NULL, 0, NULL, 0, &needed) == URIPARSE_OK && needed == 0, "normalize", "NULL");
    check(uriparse_resolve("s:", 2, NULL, 0, NULL, 0, &needed) == URIPARSE_NO_ROOM && needed == 2, "resolve", "NULL");
    check(uriparse_relativize("s:", 2, NULL, 0, NULL, 0, &needed) == URIPARSE_NO_SCHEME && needed == 0, "relativize", "NULL");
    check(uriparse_origin(NULL, 0, NULL, 0, &needed) == URIPARSE_NO_ORIGIN && needed == 0, "origin", "NULL");
    check(uriparse_decode(NULL, 0, NULL, 0, &needed) == URIPARSE_OK && needed == 0, "decode", "NULL");
    check(uriparse_encode(URIPARSE_QUERY, NULL, 0, NULL, 0, &needed) == URIPARSE_OK && needed == 0, "encode", "NULL");
    check(uriparse_escape(NULL, 0, NULL, 0, &needed) == URIPARSE_OK && needed == 0, "escape", "NULL");
  }

  parses("", NULL, NULL, NULL, NULL, 0, NULL, 0, "", NULL, NULL);
  parses("HTTP://u:p@h:080/a/b?q?#f", "HTTP", "u", "p", "h", 1, "080", 80, "/a/b", "q?", "f");
  parses("http://h", "http", NULL, NULL, "h", 1, NULL, 0, "", NULL, NULL);
  parses("//h:?#", NULL, NULL, NULL, "h", 1, "", 0, "", "", "");
  parses("//u@", NULL, "u", NULL, "", 1, NULL, 0, "", NULL, NULL);
  parses("//@:0/", NULL, "", NULL, "", 1, "0", 0, "/", NULL, NULL);
  parses("//u:@h", NULL, "u", "", "h", 1, NULL, 0, "", NULL, NULL);
  parses("x-y://u:p:q@1.2.3.4:65535", "x-y", "u", "p:q", "1.2.3.4", 4, "65535", 65535, "", NULL, NULL);
  parses("ldap://[2001:db8::7]/c=GB?one", "ldap", NULL, NULL, "[2001:db8::7]", 6, NULL, 0, "/c=GB", "one", NULL);
  parses("//[::1]:22", NULL, NULL, NULL, "[::1]", 6, "22", 22, "", NULL, NULL);
  parses("//[v7.A:b]:1", NULL, NULL, NULL, "[v7.A:b]", URIPARSE_HOST_FUTURE, "1", 1, "", NULL, NULL);
  parses("mailto:John.Doe@example.com", "mailto", NULL, NULL, NULL, 0, NULL, 0, "John.Doe@example.com", NULL, NULL);
  parses("urn:a:b#c?d", "urn", NULL, NULL, NULL, 0, NULL, 0, "a:b", NULL, "c?d");
  parses("a/b:c?//d@e", NULL, NULL, NULL, NULL, 0, NULL, 0, "a/b:c", "//d@e", NULL);
  parses("?", NULL, NULL, NULL, NULL, 0, NULL, 0, "", "", NULL);
  return printf("%d passed, %d failed\n", passed, failed) < 0 || failed != 0;
}
