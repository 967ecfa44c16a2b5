/* Rows with what is expected: the order of references and their origins, URIs and hosts within others, what hosts and segments may be taken
 * for, addresses and ports, segments, pairs that are found, set, appended and dropped, forms and links. Prints as test.c does. */
#include "hostile.h"
#include "rows.h"

/* The order of two references, both ways round, and that `equal` agrees. */
static void compares(const char *left, const char *right, int32_t expected) {
  int32_t order = 7, other = 7;
  bool equal = !expected;
  check(uriparse_compare(left, strlen(left), right, strlen(right), &order) == URIPARSE_OK && order == expected, "compare", right);
  check(uriparse_compare(right, strlen(right), left, strlen(left), &other) == URIPARSE_OK && other == -expected, "compare back", right);
  check(uriparse_equal(left, strlen(left), right, strlen(right), &equal) == URIPARSE_OK && equal == !expected, "compare equal", right);
}

static void is_within(const char *text, const char *base, uint32_t expected, bool answer) {
  bool within = !answer;
  uint32_t code = uriparse_is_within(text, strlen(text), base, strlen(base), &within);
  check(code == expected && within == (expected == URIPARSE_OK ? answer : !answer), "is_within", text);
}

static void host_is_within(const char *text, const char *domain, uint32_t expected, bool answer) {
  bool within = !answer;
  uint32_t code = uriparse_host_is_within(text, strlen(text), domain, strlen(domain), &within);
  check(code == expected && within == (expected == URIPARSE_OK ? answer : !answer), "host_is_within", text);
}

static void disagreement(const char *text, uint32_t expected, uint32_t reasons) {
  uint32_t found = 999;
  check(uriparse_disagreement(text, strlen(text), &found) == expected && found == (expected == URIPARSE_OK ? reasons : 999), "disagreement", text);
}

static void host_is_within_any(const char *text, const char *domains, uint32_t expected, bool answer) {
  bool within = !answer;
  uint32_t code = uriparse_host_is_within_any(text, strlen(text), domains, strlen(domains), &within);
  check(code == expected && within == (expected == URIPARSE_OK ? answer : !answer), "host_is_within_any", domains);
}

static void host_flags(const char *text, uint32_t expected, uint32_t flags) {
  uint32_t found = 99;
  check(uriparse_host_flags(text, strlen(text), &found) == expected && found == (expected == URIPARSE_OK ? flags : 99), "host_flags", text);
}

static void same_origin(const char *left, const char *right, uint32_t expected, bool answer) {
  bool same = !answer;
  uint32_t code = uriparse_same_origin(left, strlen(left), right, strlen(right), &same);
  check(code == expected && same == (expected == URIPARSE_OK ? answer : !answer), "same_origin", right);
}

static void is_normalized(const char *text, uint32_t expected, bool answer) {
  bool normalized = !answer;
  uint32_t code = uriparse_is_normalized(text, strlen(text), &normalized);
  check(code == expected && normalized == (expected == URIPARSE_OK ? answer : !answer), "is_normalized", text);
}

static void is_public(const char *text, uint32_t expected, bool answer) {
  bool found = !answer;
  uint32_t code = uriparse_is_public(text, strlen(text), &found);
  check(code == expected && found == (expected == URIPARSE_OK ? answer : !answer), "is_public", text);
}

static void is_ambiguous(const char *segment, uint32_t expected, bool answer) {
  bool ambiguous = !answer;
  uint32_t code = uriparse_is_ambiguous(segment, strlen(segment), &ambiguous);
  check(code == expected && ambiguous == (expected == URIPARSE_OK ? answer : !answer), "is_ambiguous", segment);
}

static void port_or_default(const char *text, uint32_t expected, int32_t port) {
  int32_t found = 99;
  check(uriparse_port_or_default(text, strlen(text), &found) == expected && found == (expected == URIPARSE_OK ? port : 99), "port_or_default", text);
}

static uint32_t key(const char *text, size_t len, uint8_t *out, size_t room, size_t *needed) {
  return uriparse_key(0, text, len, out, room, needed);
}

/* The order of two keys of these flags, as bytes. */
static int order_of_keys(uint32_t flags, const char *left, const char *right) {
  uint8_t one[128], other[128];
  size_t len, other_len;
  check(uriparse_key(flags, left, strlen(left), one, sizeof one, &len) == URIPARSE_OK, "key", left);
  check(uriparse_key(flags, right, strlen(right), other, sizeof other, &other_len) == URIPARSE_OK, "key", right);
  const int order = memcmp(one, other, len < other_len ? len : other_len);
  return order != 0 ? order : (len > other_len) - (len < other_len);
}

/* Keys are ordered as `uriparse_compare` orders the references, and those of normal forms are too. */
static void keys_are_ordered(void) {
  static const char *const texts[] = {"", "a", "a?", "a#", "a?#", "a.b", "a/b", "a%2Fb", "A", "%41", "%7e", "s:", "S:a", "s-t:", "//", "//h", "//H/",
                                      "//h:1", "//h:80", "//h:080", "//h:", "//u@h", "//u:@h", "//h.a", "//9.0.0.0", "//10.0.0.0", "//[::1]",
                                      "//[::2:0]", "//[v1.a]", "//[V1.A:]", "//%31.2.3.4", "//1.2.3.4", "s://h/a/../b", "s://h/b", "s:a?b#c"};
  for (size_t i = 0; i < sizeof texts / sizeof *texts; i++) {
    for (size_t j = 0; j < sizeof texts / sizeof *texts; j++) {
      int32_t order;
      check(uriparse_compare(texts[i], strlen(texts[i]), texts[j], strlen(texts[j]), &order) == URIPARSE_OK, "compare", texts[i]);
      const int keys = order_of_keys(0, texts[i], texts[j]);
      check((keys > 0) - (keys < 0) == order, "keys are ordered", texts[i]);
    }
  }
  check(order_of_keys(URIPARSE_KEY_NORMAL, "s://h/a/../b", "s://h/b") == 0, "key", "normal form");
  check(order_of_keys(URIPARSE_KEY_NORMAL, "//%31.2.3.4", "//1.2.3.4") < 0, "key", "the kind of the host");
  check(order_of_keys(URIPARSE_KEY_PAGE, "HTTP://h:80/.#a", "http://h/#b") == 0, "key", "page");
}

static uint32_t place_key(const char *text, size_t len, uint8_t *out, size_t room, size_t *needed) {
  return uriparse_place_key(text, len, out, room, needed);
}

static uint32_t domain_prefix(const char *text, size_t len, uint8_t *out, size_t room, size_t *needed) {
  return uriparse_domain_prefix(text, len, out, room, needed);
}

static uint32_t base_prefix(const char *text, size_t len, uint8_t *out, size_t room, size_t *needed) {
  return uriparse_base_prefix(text, len, out, room, needed);
}

/* The key of a URI begins with the prefix of a domain exactly if its host is within that, and with the prefix of a base if it is below
 * that. */
static void prefixes_are_of_keys(void) {
  static const char *const hosts[] = {"example.com", "www.example.com.", "EXAMPLE.com", "evilexample.com", "com", "a..com", "%61.com", "a%2F.com",
                                      "1.2.3.4", "%31.2.3.4", "4", "[::1]", "[v1.a]", ""};
  static const char *const paths[] = {"", "/", "/a", "/a/", "/a/b?c", "/a/../b#d", "/a/%2e", "/a//../b", "/a;/..;/b"};
  uint8_t key[128], prefix[128];
  size_t len, prefix_len;
  char text[64], other[64];
  bool within;
  for (size_t i = 0; i < sizeof hosts / sizeof *hosts; i++) {
    for (size_t j = 0; j < sizeof hosts / sizeof *hosts; j++) {
      snprintf(text, sizeof text, "s://%s/", hosts[i]);
      check(uriparse_place_key(text, strlen(text), key, sizeof key, &len) == URIPARSE_OK, "place_key", text);
      check(uriparse_domain_prefix(hosts[j], strlen(hosts[j]), prefix, sizeof prefix, &prefix_len) == URIPARSE_OK, "domain_prefix", hosts[j]);
      check(uriparse_host_is_within(text, strlen(text), hosts[j], strlen(hosts[j]), &within) == URIPARSE_OK, "host_is_within", text);
      check(within == (len >= prefix_len && memcmp(key, prefix, prefix_len) == 0), "a domain's prefix", text);
    }
  }
  for (size_t i = 0; i < sizeof paths / sizeof *paths; i++) {
    for (size_t j = 0; j < sizeof paths / sizeof *paths; j++) {
      snprintf(text, sizeof text, "http://h%s", paths[i]);
      snprintf(other, sizeof other, "HTTP://H:80%s", paths[j]);
      check(uriparse_place_key(text, strlen(text), key, sizeof key, &len) == URIPARSE_OK, "place_key", text);
      check(uriparse_base_prefix(other, strlen(other), prefix, sizeof prefix, &prefix_len) == URIPARSE_OK, "base_prefix", other);
      check(uriparse_is_within(text, strlen(text), other, strlen(other), &within) == URIPARSE_OK, "is_within", text);
      check(!within || (len >= prefix_len && memcmp(key, prefix, prefix_len) == 0), "a base's prefix", text);
    }
  }
}

static uint32_t host_address(const char *text, size_t len, uint8_t *out, size_t room, size_t *needed) {
  return uriparse_host_address(text, len, out, room, needed);
}

static void has_no_address(const char *text, uint32_t expected) {
  uint8_t out[16] = {1};
  size_t needed = 7;
  check(host_address(text, strlen(text), out, sizeof out, &needed) == expected && needed == 0 && out[0] == 1, "no address", text);
}

static uint32_t form_decode(const char *text, size_t len, uint8_t *out, size_t room, size_t *needed) {
  return uriparse_form_decode(text, len, out, room, needed);
}

static uint32_t trim_link(const char *text, size_t len, uint8_t *out, size_t room, size_t *needed) {
  return uriparse_trim_link(text, len, out, room, needed);
}

static uint32_t without_default_port(const char *text, size_t len, uint8_t *out, size_t room, size_t *needed) {
  return uriparse_without_default_port(text, len, out, room, needed);
}

static uint32_t mask_password(const char *text, size_t len, uint8_t *out, size_t room, size_t *needed) {
  return uriparse_mask_password(text, len, out, room, needed);
}

static uint32_t request_target(const char *text, size_t len, uint8_t *out, size_t room, size_t *needed) {
  return uriparse_request_target(text, len, out, room, needed);
}

static void shows(uint32_t (*call)(const char *, size_t, uint8_t *, size_t, size_t *), const char *text, const char *expected) {
  const char *name = call == mask_password ? "mask_password" : call == request_target ? "request_target" : "without_default_port";
  writes(call, name, text, strlen(text), expected, strlen(expected));
}

/* The segments of a path, each as [segment]. What is written beyond the end stays. */
static void segments(const char *path, const char *expected) {
  const size_t len = strlen(path), slash = path[0] == '/';
  size_t at = 0;
  char found[100] = "";
  struct uriparse_span segment, before;
  while (uriparse_next_segment(path, len, at, &segment)) {
    check(segment.present == 1 && segment.begin == (at ? at : slash) && segment.end >= segment.begin && segment.end <= len, "place of a segment", path);
    sprintf(found + strlen(found), "[%.*s]", (int)(segment.end - segment.begin), path + segment.begin);
    at = segment.end + 1;
  }
  check(at == len + 1 && strcmp(found, expected) == 0, "segments", path);
  memset(&before, 0x5a, sizeof before);
  memcpy(&segment, &before, sizeof segment);
  check(!uriparse_next_segment(path, len, len + 1, &segment) && !uriparse_next_segment(path, len, (size_t)-1, &segment)
            && memcmp(&segment, &before, sizeof segment) == 0, "no segment", path);
}

static void default_port(const char *scheme, uint32_t expected) {
  check(uriparse_default_port(scheme, strlen(scheme)) == expected, "default_port", scheme);
}

/* Where the value of the first pair of a name is; -1 if there is no such pair. */
static void finds(const char *query, const char *name, long expected, const char *value) {
  struct uriparse_pair pair, before;
  memset(&before, 0x5a, sizeof before);
  memcpy(&pair, &before, sizeof pair);
  bool found = uriparse_find_pair(query, strlen(query), name, strlen(name), &pair);
  check(found == (expected >= 0), "find_pair", query);
  if (!found) {
    check(memcmp(&pair, &before, sizeof pair) == 0, "find_pair keeps", query);
  } else {
    check(pair.name.present && pair.name.begin == (size_t)expected && pair.value.present == (value != NULL), "found pair", query);
    check(value == NULL || (pair.value.end - pair.value.begin == strlen(value) && memcmp(query + pair.value.begin, value, strlen(value)) == 0),
          "found value", query);
  }
}

/* The places of the values of all pairs of a name, one after another. */
static void finds_all(const char *query, const char *name, const char *expected) {
  size_t len = strlen(query), at = 0;
  char found[100] = "";
  struct uriparse_pair pair, before;
  while (uriparse_find_next_pair(query, len, at, name, strlen(name), &pair)) {
    check(pair.name.present && pair.name.begin >= at && pair.next > pair.name.end, "place of a name", query);
    sprintf(found + strlen(found), "[%zu:%.*s]", pair.name.begin, (int)(pair.value.end - pair.value.begin), query + pair.value.begin);
    at = pair.next;
  }
  check(strcmp(found, expected) == 0, "find_next_pair", query);
  memset(&before, 0x5a, sizeof before);
  memcpy(&pair, &before, sizeof pair);
  check(!uriparse_find_next_pair(query, len, len + 1, name, strlen(name), &pair)
            && !uriparse_find_next_pair(query, len, (size_t)-1, name, strlen(name), &pair) && memcmp(&pair, &before, sizeof pair) == 0,
        "no next pair", query);
}

static const char *name_of, *value_of;

static uint32_t set_pair(const char *text, size_t len, uint8_t *out, size_t room, size_t *needed) {
  return uriparse_set_pair(text, len, name_of, strlen(name_of), value_of, value_of ? strlen(value_of) : 0, value_of != NULL, out, room, needed);
}

static uint32_t append_pair(const char *text, size_t len, uint8_t *out, size_t room, size_t *needed) {
  return uriparse_append_pair(text, len, name_of, strlen(name_of), value_of, value_of ? strlen(value_of) : 0, value_of != NULL, out, room, needed);
}

static uint32_t drop_pairs(const char *text, size_t len, uint8_t *out, size_t room, size_t *needed) {
  return uriparse_drop_pairs(text, len, name_of, strlen(name_of), out, room, needed);
}

static void sets_pair(const char *query, const char *name, const char *value, const char *expected) {
  name_of = name;
  value_of = value;
  writes(set_pair, "set_pair", query, strlen(query), expected, strlen(expected));
}

static void appends_pair(const char *query, const char *name, const char *value, const char *expected) {
  name_of = name;
  value_of = value;
  writes(append_pair, "append_pair", query, strlen(query), expected, strlen(expected));
}

/* Without `expected` no pair is left. */
static void drops(const char *query, const char *names, const char *expected) {
  name_of = names;
  if (expected) {
    writes(drop_pairs, "drop_pairs", query, strlen(query), expected, strlen(expected));
  } else {
    uint8_t out[4] = {1, 2, 3, 4};
    size_t needed = 7;
    check(drop_pairs(query, strlen(query), out, 4, &needed) == URIPARSE_NO_PAIRS && needed == 0 && out[0] == 1, "drop_pairs all", query);
  }
}

static void pair_rejects(uint32_t code, const size_t *needed, uint32_t expected, const char *row) {
  check(code == expected && *needed == 0, "pair rejects", row);
}

/* The answer to a row of tests/hostile.tsv, or NULL if no call answers it. */
static const char *answer_to(const struct hostile_row *row) {
  static const char *const sums[] = {"0", "1", "2", "3", "4", "5", "6", "7"};
  size_t len = strlen(row->text);
  uint32_t flags, code;
  bool is_true = false;
  if (strcmp(row->call, "host-flags") == 0) {
    return uriparse_host_flags(row->text, len, &flags) == URIPARSE_OK ? sums[flags & 7] : "rejected";
  }
  if (strcmp(row->call, "within") == 0) {
    code = uriparse_is_within(row->text, len, row->other, strlen(row->other), &is_true);
  } else if (strcmp(row->call, "host-within") == 0) {
    code = uriparse_host_is_within(row->text, len, row->other, strlen(row->other), &is_true);
  } else {
    return NULL;
  }
  return code != URIPARSE_OK ? "rejected" : is_true ? "yes" : "no";
}

static void hostile_rows(const char *path) {
  struct hostile_row row;
  int count = 0;
  FILE *file = fopen(path, "r");
  check(file != NULL, "rows", path);
  while (file != NULL && read_hostile_row(file, &row)) {
    const char *answer = answer_to(&row);
    if (answer != NULL) {
      check(strcmp(answer, row.answer) == 0, row.call, row.text);
      count++;
    }
  }
  check(count > 700, "count of rows", path);
  if (file != NULL) {
    fclose(file);
  }
}

int main(void) {
  uint8_t out[8];
  size_t needed;
  int32_t order = 7;
  bool within = true;
  compares("http://h/%7e", "HTTP://H/~", 0);
  compares("http:b", "https:a", -1);
  compares("b", "s:a", -1);
  compares("//2.0.0.0", "//10.0.0.0", -1);
  compares("//z", "//1.2.3.4", -1);
  compares("//1.2.3.4", "//[::1]", -1);
  compares("//h:9", "//h:10", -1);
  compares("//h/b", "//h:1/a", -1);
  compares("//h", "//h/", 0);
  compares("a?", "a#z", 1);
  compares("a", "a#", -1);
  check(uriparse_compare("a b", 3, "%", 1, &order) == URIPARSE_PATH_BYTE && order == 7, "compare rejects", "a b");
  check(uriparse_compare("a", 1, "%", 1, &order) == URIPARSE_PATH_ESCAPE && order == 7, "compare rejects", "%");

  is_within("http://h/a/b?q#f", "http://h/a/", URIPARSE_OK, true);
  is_within("HTTP://H:80/x/../a/b", "http://h/a/c?y", URIPARSE_OK, true);
  is_within("http://h/a/", "http://h/a/", URIPARSE_OK, true);
  is_within("http://h/a", "http://h/a/", URIPARSE_OK, false);
  is_within("http://h/appX", "http://h/app/", URIPARSE_OK, false);
  is_within("http://h/app/../admin", "http://h/app/", URIPARSE_OK, false);
  is_within("http://h/app/%2e%2e/admin", "http://h/app/", URIPARSE_OK, false);
  is_within("http://h/app/..;/admin", "http://h/app/", URIPARSE_OK, false);
  is_within("http://h/app/..%2fadmin", "http://h/app/", URIPARSE_OK, false);
  is_within("http://h/app/a%00", "http://h/app/", URIPARSE_OK, false);
  is_within("http://h/app/..;/../a", "http://h/app/", URIPARSE_OK, false);
  is_within("http://h/app//../a", "http://h/app/", URIPARSE_OK, false);
  is_within("http://h/app/a;x/../b", "http://h/app/", URIPARSE_OK, true);
  is_within("https://h/a/b", "http://h/a/", URIPARSE_OK, false);
  is_within("http://u@h/a/b", "http://h/a/", URIPARSE_OK, false);
  is_within("http://h:8080/a/b", "http://h/a/", URIPARSE_OK, false);
  is_within("mailto:a@b", "mailto:a@b", URIPARSE_OK, true);
  is_within("mailto:a@b", "mailto:a@c", URIPARSE_OK, false);
  is_within("/a/b", "http://h/a/", URIPARSE_NO_SCHEME, false);
  is_within("http://h/a", "/a/", URIPARSE_IN_BASE | URIPARSE_NO_SCHEME, false);
  is_within("http://h/a b", "http://h/%", URIPARSE_PATH_BYTE, false);
  is_within("http://h/a", "http://h/%", URIPARSE_IN_BASE | URIPARSE_PATH_ESCAPE, false);

  host_is_within("http://WWW.Example.com./", "example.com", URIPARSE_OK, true);
  host_is_within("//example.com", "example.com", URIPARSE_OK, true);
  host_is_within("//ex%61mple.com", "example.com.", URIPARSE_OK, true);
  host_is_within("//evilexample.com", "example.com", URIPARSE_OK, false);
  host_is_within("//example.com.evil.org", "example.com", URIPARSE_OK, false);
  host_is_within("//a..example.com", "example.com", URIPARSE_OK, false);
  host_is_within("//evil.org%2F.example.com", "example.com", URIPARSE_OK, false);
  host_is_within("//a%2F.h", "A%2f.H", URIPARSE_OK, true);
  host_is_within("//1.2.3.4", "4", URIPARSE_OK, false);
  host_is_within("//1.2.3.4", "1.2.3.4", URIPARSE_OK, true);
  host_is_within("//%31.2.3.4", "1.2.3.4", URIPARSE_OK, false);
  host_is_within("/a", "example.com", URIPARSE_OK, false);
  host_is_within("//h", "", URIPARSE_OK, false);
  host_is_within("//", "", URIPARSE_OK, true);
  host_is_within("//h[", "h", URIPARSE_HOST_BYTE, false);
  host_is_within("//h", "h/", URIPARSE_IN_BASE | URIPARSE_HOST_BYTE, false);
  host_is_within("//h", "[::1", URIPARSE_IN_BASE | URIPARSE_HOST_BYTE, false);

  host_flags("http://example.com/", URIPARSE_OK, 0);
  host_flags("//%31.2.3.4", URIPARSE_OK, URIPARSE_HIDES_ADDRESS | URIPARSE_MAY_BE_NUMERIC);
  host_flags("//2130706433", URIPARSE_OK, URIPARSE_MAY_BE_NUMERIC);
  host_flags("//0x7f.1.", URIPARSE_OK, URIPARSE_MAY_BE_NUMERIC);
  host_flags("//1.example.com", URIPARSE_OK, 0);
  host_flags("//1.2.3.4", URIPARSE_OK, 0);
  host_flags("//[::1]", URIPARSE_OK, 0);
  host_flags("a", URIPARSE_OK, 0);
  host_flags("//evil.org%2F.example.com", URIPARSE_OK, URIPARSE_HAS_ESCAPES);
  host_flags("//a%2f.1", URIPARSE_OK, URIPARSE_HAS_ESCAPES | URIPARSE_MAY_BE_NUMERIC);
  disagreement("https://example.com/a", URIPARSE_OK, 0);
  disagreement("https://u@127.1/%2e", URIPARSE_OK, URIPARSE_NUMERIC_NAME | URIPARSE_ESCAPED_DOTS | URIPARSE_USER_INFORMATION);
  disagreement("a", URIPARSE_OK, URIPARSE_OTHER_SCHEME);
  disagreement("a b", URIPARSE_PATH_BYTE, 0);
  hostile_rows("../../tests/hostile.tsv");
  host_flags("a b", URIPARSE_PATH_BYTE, 0);

  same_origin("HTTPS://u@H:443/a", "https://h/b", URIPARSE_OK, true);
  same_origin("http://h", "http://h:8080", URIPARSE_OK, false);
  same_origin("file:///a", "file:///a", URIPARSE_OK, false);
  same_origin("//h:80", "//h:80", URIPARSE_OK, false);
  same_origin("//h:x", "%", URIPARSE_PORT_BYTE, false);
  same_origin("a", "%", URIPARSE_PATH_ESCAPE, false);

  is_normalized("http://h/~", URIPARSE_OK, true);
  is_normalized("http://h", URIPARSE_OK, false);
  is_normalized("http://h/%7e", URIPARSE_OK, false);
  is_normalized("//h[", URIPARSE_HOST_BYTE, false);

  is_public("https://example.com/", URIPARSE_OK, true);
  is_public("//8.8.8.8", URIPARSE_OK, true);
  is_public("//127.0.0.1", URIPARSE_OK, false);
  is_public("//[::ffff:10.0.0.1]", URIPARSE_OK, false);
  is_public("//%31.2.3.4", URIPARSE_OK, false);
  is_public("/a", URIPARSE_OK, false);
  is_public("//h[", URIPARSE_HOST_BYTE, false);
  is_ambiguous("..;a", URIPARSE_OK, true);
  is_ambiguous("a%2fb", URIPARSE_OK, true);
  is_ambiguous("%2e%2e", URIPARSE_OK, false);
  is_ambiguous("a/b", URIPARSE_PATH_BYTE, false);
  is_ambiguous("a%2", URIPARSE_PATH_ESCAPE, false);

  port_or_default("https://h", URIPARSE_OK, 443);
  port_or_default("https://h:", URIPARSE_OK, 443);
  port_or_default("https://h:65535", URIPARSE_OK, 65535);
  port_or_default("https://h:0", URIPARSE_OK, 0);
  port_or_default("https:h", URIPARSE_OK, -1);
  port_or_default("//h", URIPARSE_OK, -1);
  port_or_default("//h:65536", URIPARSE_PORT_RANGE, 0);

  writes(host_address, "host_address", "//1.2.3.4:80", 12, "\1\2\3\4", 4);
  writes(host_address, "host_address", "//[1::255.0.0.2]", 16, "\0\1\0\0\0\0\0\0\0\0\0\0\377\0\0\2", 16);
  has_no_address("//h", URIPARSE_NO_ADDRESS);
  has_no_address("//[v1.a]", URIPARSE_NO_ADDRESS);
  has_no_address("//%31.2.3.4", URIPARSE_NO_ADDRESS);
  has_no_address("/1.2.3.4", URIPARSE_NO_ADDRESS);
  has_no_address("//[::g]", URIPARSE_HOST_IPV6_BYTE);

  default_port("https", 443);
  default_port("HTTP", 80);
  default_port("mailto", 0);
  default_port("x-unknown", 0);
  default_port("", 0);
  default_port("h:", 0);

  host_is_within_any("http://WWW.Example.com./", "example.org example.com", URIPARSE_OK, true);
  host_is_within_any("//a.example.org", "example.org example.com", URIPARSE_OK, true);
  host_is_within_any("//evilexample.com", "example.org example.com", URIPARSE_OK, false);
  host_is_within_any("//h", " h  ", URIPARSE_OK, true);
  host_is_within_any("//h", "a\tb", URIPARSE_IN_BASE | URIPARSE_HOST_BYTE, false);
  host_is_within_any("file:///a", "", URIPARSE_OK, false);
  host_is_within_any("file:///a", " h ", URIPARSE_OK, false);
  host_is_within_any("mailto:h", "h", URIPARSE_OK, false);
  host_is_within_any("//1.2.3.4", "3.4 1.2.3.4", URIPARSE_OK, true);
  host_is_within_any("//[::1]", "h [::0:1]", URIPARSE_OK, true);
  host_is_within_any("//h", "h x:1", URIPARSE_IN_BASE | URIPARSE_HOST_BYTE, false);
  host_is_within_any("//h", "[::g] x:1", URIPARSE_IN_BASE | URIPARSE_HOST_IPV6_BYTE, false);
  host_is_within_any("//h:x", "x:1", URIPARSE_PORT_BYTE, false);

  shows(without_default_port, "HTTP://u@H:080/%7e?#", "HTTP://u@H/%7e?#");
  shows(without_default_port, "https://[::1]:443", "https://[::1]");
  shows(without_default_port, "https://h:80", "https://h:80");
  shows(without_default_port, "http://h:", "http://h:");
  shows(without_default_port, "x://h:80", "x://h:80");
  shows(without_default_port, "//h:80", "//h:80");
  shows(without_default_port, "http:80", "http:80");
  check(without_default_port("http://h:x", 10, out, sizeof out, &needed) == URIPARSE_PORT_BYTE && needed == 0, "without_default_port rejects", "http://h:x");

  shows(mask_password, "ftp://u:secret@h:1/a?b#c", "ftp://u:***@h:1/a?b#c");
  shows(mask_password, "//:p@H", "//:***@H");
  shows(mask_password, "//u:@h", "//u:***@h");
  shows(mask_password, "//u:p:q@[::1]/%7e", "//u:***@[::1]/%7e");
  shows(mask_password, "//u@h:1", "//u@h:1");
  shows(mask_password, "a:b:c@d", "a:b:c@d");
  shows(mask_password, "", "");
  check(mask_password("//u:%@h", 7, out, sizeof out, &needed) == URIPARSE_PASSWORD_ESCAPE && needed == 0, "mask_password rejects", "//u:%@h");

  shows(request_target, "http://u@h:1/a/b?c#d", "/a/b?c");
  shows(request_target, "http://h", "/");
  shows(request_target, "http://h?q", "/?q");
  shows(request_target, "http://h//a?", "//a?");
  shows(request_target, "/%7e/..", "/%7e/..");
  shows(request_target, "#f", "/");
  check(request_target("mailto:a", 8, out, sizeof out, &needed) == URIPARSE_NO_TARGET && needed == 0, "request_target rejects", "mailto:a");
  check(request_target("a/b", 3, out, sizeof out, &needed) == URIPARSE_NO_TARGET && needed == 0, "request_target rejects", "a/b");
  check(request_target("/a b", 4, out, sizeof out, &needed) == URIPARSE_PATH_BYTE && needed == 0, "request_target rejects", "/a b");
  check(uriparse_error_component(URIPARSE_NO_TARGET) == URIPARSE_SEGMENT, "error_component", "NO_TARGET");

  segments("/a/b", "[a][b]");
  segments("a/b", "[a][b]");
  segments("", "[]");
  segments("/", "[]");
  segments("//", "[][]");
  segments("//a", "[][a]");
  segments("/a/", "[a][]");
  segments("a//b/", "[a][][b][]");
  segments("/%2F/..", "[%2F][..]");
  segments("a b?c/#", "[a b?c][#]");
  {
    struct uriparse_span segment;
    check(uriparse_next_segment("/ab/c", 5, 2, &segment) && segment.begin == 2 && segment.end == 3, "from within a segment", "/ab/c");
    check(uriparse_next_segment("ab/c", 4, 2, &segment) && segment.begin == 2 && segment.end == 2, "from a slash", "ab/c");
    check(uriparse_next_segment(NULL, 0, 0, &segment) && segment.present && segment.begin == 0 && segment.end == 0
              && !uriparse_next_segment(NULL, 0, 1, &segment), "next_segment", "NULL");
  }

  finds("a=1&b=%26&c", "b", 4, "%26");
  finds("a=1&b=%26&c", "c", 10, NULL);
  finds("a=1&%61=2", "a", 0, "1");
  finds("%61=2&a=1", "a", 0, "2");
  finds("a=1", "%61", -1, NULL);
  finds("a+b=1", "a b", -1, NULL);
  finds("", "", 0, NULL);
  finds("a&=x", "", 2, "x");
  finds("ab=1", "a", -1, NULL);

  finds_all("a=1&b&%61=2&a&ab=3", "a", "[0:1][6:2][12:]");
  finds_all("a=1&b", "c", "");
  finds_all("&=x&", "", "[0:][1:x][4:]");
  finds_all("", "a", "");
  {
    struct uriparse_pair pair;
    check(uriparse_find_next_pair("a=1&a=2", 7, 2, "a", 1, &pair) && pair.name.begin == 4 && pair.next == 8, "from within a pair", "a=1&a=2");
    check(uriparse_find_next_pair("a=1&a=2", 7, 7, "", 0, &pair) && pair.name.begin == 7, "from the end", "a=1&a=2");
    check(uriparse_find_next_pair(NULL, 0, 0, NULL, 0, &pair) && pair.name.begin == 0 && pair.next == 1, "find_next_pair", "NULL");
  }

  sets_pair("p=1&lang=de&%70=2", "p", "a&b", "p=a%26b&lang=de");
  sets_pair("", "a", "1", "a=1");
  sets_pair("b&", "a", "1", "b&a=1");
  sets_pair("b", "a", NULL, "b&a");
  sets_pair("x=%2f", "n=m", "c d+#%", "x=%2f&n%3Dm=c%20d%2B%23%25");
  appends_pair("a=1", "a", "2", "a=1&a=2");
  appends_pair("", "a", "", "a=");
  appends_pair("b&", "a", NULL, "b&a");
  drops("utm_source=x&q=1&%75tm_id=2&gclid", "utm_*&gclid", "q=1");
  drops("q=1&q=2&r", "q", "r");
  drops("a*=1&ab=2", "a%2A", "ab=2");
  drops("A=1", "a", "A=1");
  drops("utm_a", "utm_*", NULL);
  drops("a&", "a", "");
  drops("", "", NULL);
  pair_rejects(uriparse_set_pair("a[", 2, "n", 1, "v", 1, true, out, sizeof out, &needed), &needed, URIPARSE_QUERY_BYTE, "a[");
  pair_rejects(uriparse_append_pair("%", 1, "n", 1, "v", 1, true, out, sizeof out, &needed), &needed, URIPARSE_QUERY_ESCAPE, "%");
  pair_rejects(uriparse_drop_pairs("a#", 2, "b", 1, out, sizeof out, &needed), &needed, URIPARSE_QUERY_BYTE, "a#");
  pair_rejects(uriparse_drop_pairs("a", 1, "b#", 2, out, sizeof out, &needed), &needed, URIPARSE_BAD_NAMES, "b#");
  check(uriparse_encode(URIPARSE_PAIR, "a&b=c d+", 8, NULL, 0, &needed) == URIPARSE_NO_ROOM && needed == 16, "encode", "pair");

  writes(form_decode, "form_decode", "a+%2B%00", 8, "a +", 4);
  check(form_decode("a+%4", 4, out, sizeof out, &needed) == URIPARSE_QUERY_ESCAPE && needed == 0, "form_decode rejects", "a+%4");
  writes(key, "key", "//h?%61", 7, "1\1\2\1\1" "1h\1\1/\1\2a\1\1", 15);
  check(key("//h:x", 5, out, sizeof out, &needed) == URIPARSE_PORT_BYTE && needed == 0, "key rejects", "//h:x");
  check(uriparse_key(8, "a b", 3, out, sizeof out, &needed) == URIPARSE_KEY_FLAGS && needed == 0, "key rejects", "flags");
  check(uriparse_error_component(URIPARSE_KEY_FLAGS) == 0, "error_component", "KEY_FLAGS");
  keys_are_ordered();
  writes(place_key, "place_key", "s://a.b:1/c", 11, "p\2" "1b\1a\1\2\2" "00001\1\1\2s\1/c\1\1\1", 24);
  check(place_key("a", 1, out, sizeof out, &needed) == URIPARSE_NO_SCHEME && needed == 0, "place_key rejects", "a");
  writes(domain_prefix, "domain_prefix", "A.b.", 4, "p\2" "1b\1a\1", 7);
  check(domain_prefix("h:1", 3, out, sizeof out, &needed) == URIPARSE_HOST_BYTE && needed == 0, "domain_prefix rejects", "h:1");
  writes(base_prefix, "base_prefix", "s:/c/d?e", 8, "p\1\2s\1/c/", 8);
  check(base_prefix("//h", 3, out, sizeof out, &needed) == URIPARSE_NO_SCHEME && needed == 0, "base_prefix rejects", "//h");
  prefixes_are_of_keys();
  writes(trim_link, "trim_link", " <URL: http://h/\t>\n", 19, "http://h/", 9);
  writes(trim_link, "trim_link", "\377[ ", 3, "\377[", 2);
  writes(trim_link, "trim_link", "\0 ", 2, "", 1);

  check(uriparse_same_origin(NULL, 0, NULL, 0, &within) == URIPARSE_OK && !within, "same_origin", "NULL");
  check(uriparse_is_normalized(NULL, 0, &within) == URIPARSE_OK && within, "is_normalized", "NULL");
  check(uriparse_is_public(NULL, 0, &within) == URIPARSE_OK && !within, "is_public", "NULL");
  check(uriparse_is_ambiguous(NULL, 0, &within) == URIPARSE_OK && !within, "is_ambiguous", "NULL");
  check(uriparse_port_or_default(NULL, 0, &order) == URIPARSE_OK && order == -1, "port_or_default", "NULL");
  check(uriparse_host_address(NULL, 0, NULL, 0, &needed) == URIPARSE_NO_ADDRESS && needed == 0, "host_address", "NULL");
  check(uriparse_form_decode(NULL, 0, NULL, 0, &needed) == URIPARSE_OK && needed == 0, "form_decode", "NULL");
  check(uriparse_key(0, NULL, 0, NULL, 0, &needed) == URIPARSE_NO_ROOM && needed == 6, "key", "NULL");
  check(uriparse_place_key(NULL, 0, NULL, 0, &needed) == URIPARSE_NO_SCHEME && needed == 0, "place_key", "NULL");
  check(uriparse_domain_prefix(NULL, 0, NULL, 0, &needed) == URIPARSE_NO_ROOM && needed == 4, "domain_prefix", "NULL");
  check(uriparse_base_prefix(NULL, 0, NULL, 0, &needed) == URIPARSE_NO_SCHEME && needed == 0, "base_prefix", "NULL");
  check(uriparse_trim_link(NULL, 0, NULL, 0, &needed) == URIPARSE_OK && needed == 0, "trim_link", "NULL");
  within = true;
  check(uriparse_compare(NULL, 0, NULL, 0, &order) == URIPARSE_OK && order == 0, "compare", "NULL");
  check(uriparse_is_within("s:", 2, NULL, 0, &within) == (URIPARSE_IN_BASE | URIPARSE_NO_SCHEME) && within, "is_within", "NULL");
  check(uriparse_host_is_within(NULL, 0, NULL, 0, &within) == URIPARSE_OK && !within, "host_is_within", "NULL");
  check(uriparse_host_is_within_any(NULL, 0, NULL, 0, &within) == URIPARSE_OK && !within, "host_is_within_any", "NULL");
  check(uriparse_without_default_port(NULL, 0, NULL, 0, &needed) == URIPARSE_OK && needed == 0, "without_default_port", "NULL");
  check(uriparse_mask_password(NULL, 0, NULL, 0, &needed) == URIPARSE_OK && needed == 0, "mask_password", "NULL");
  check(uriparse_request_target(NULL, 0, NULL, 0, &needed) == URIPARSE_NO_ROOM && needed == 1, "request_target", "NULL");
  check(uriparse_default_port(NULL, 0) == 0, "default_port", "NULL");
  check(uriparse_set_pair(NULL, 0, NULL, 0, NULL, 0, false, NULL, 0, &needed) == URIPARSE_OK && needed == 0, "set_pair", "NULL");
  check(uriparse_append_pair(NULL, 0, NULL, 0, NULL, 0, true, NULL, 0, &needed) == URIPARSE_NO_ROOM && needed == 1, "append_pair", "NULL");
  check(uriparse_drop_pairs(NULL, 0, NULL, 0, NULL, 0, &needed) == URIPARSE_NO_PAIRS && needed == 0, "drop_pairs", "NULL");
  return printf("%d passed, %d failed\n", passed, failed) < 0 || failed != 0;
}
