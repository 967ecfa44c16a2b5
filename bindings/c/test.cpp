// The calls from C++. Prints how many checks passed; the status is 0 if all did.
#include "hostile.h"
#include "uriparse.h"

#include <cstdio>
#include <string>
#include <type_traits>
#include <vector>

static int passed, failed;

static void check(bool holds, const char *what) {
  if (holds) {
    passed++;
  } else {
    failed++;
    std::printf("FAILED %s\n", what);
  }
}

static std::string cut(const std::string &text, uriparse_span span) {
  return span.present ? text.substr(span.begin, span.end - span.begin) : std::string("absent");
}

static std::string normalize(const std::string &text) {
  std::string out(text.size() + 16, '\0');
  size_t needed;
  if (uriparse_normalize(text.data(), text.size(), &out[0], out.size(), &needed) != URIPARSE_OK) {
    return "rejected";
  }
  out.resize(needed);
  return out;
}

static std::string encode(uint32_t component, const std::string &bytes) {
  std::string out(3 * bytes.size(), '\0');
  size_t needed;
  if (uriparse_encode(component, bytes.data(), bytes.size(), &out[0], out.size(), &needed) != URIPARSE_OK) {
    return "rejected";
  }
  out.resize(needed);
  return out;
}

static std::string host_of(const std::string &text) {
  uriparse_parts parts;
  if (uriparse_parse(text.data(), text.size(), &parts) != URIPARSE_OK || !parts.host.present) return "";
  return text.substr(parts.host.begin, parts.host.end - parts.host.begin);
}

bool wrapped_is_uri(const char *text, size_t len);

// A name is one like any other: it may be qualified, its address taken, and another class may have it.
struct reader {
  bool uriparse_is_uri(const std::string &text) const { return ::uriparse_is_uri(text.data(), text.size()); }
};

// The answer to a row of tests/hostile.tsv that a call answers.
static std::string answer_to(const std::string &call, const std::string &text, const std::string &other) {
  uint32_t flags = 0;
  bool is_true = false;
  if (call == "host-flags") return uriparse_host_flags(text.data(), text.size(), &flags) == URIPARSE_OK ? std::to_string(flags) : "rejected";
  const uint32_t code = call == "within" ? uriparse_is_within(text.data(), text.size(), other.data(), other.size(), &is_true)
                                         : uriparse_host_is_within(text.data(), text.size(), other.data(), other.size(), &is_true);
  return code != URIPARSE_OK ? "rejected" : is_true ? "yes" : "no";
}

static void check_hostile() {
  hostile_row row;
  int count = 0;
  FILE *const file = std::fopen("../../tests/hostile.tsv", "r");
  while (file && read_hostile_row(file, &row)) {
    if (std::string(row.call).compare(0, 8, "redirect") == 0) continue;
    check(answer_to(row.call, row.text, row.other) == row.answer, row.text);
    count++;
  }
  check(count > 700, "rows of hostile input");
  if (file) std::fclose(file);
}

static void check_names() {
  uint32_t (*hash)(uriparse_bytes, size_t, uint64_t *) = &uriparse_hash;
  const uint8_t byte = 'a';
  uint64_t one = 1, other = 2;
  check(hash(&byte, 1, &one) == URIPARSE_OK && uriparse_hash("a", 1, &other) == URIPARSE_OK && one == other, "addresses");
  check(::uriparse_is_uri("a:", 2) && reader().uriparse_is_uri("a:") && wrapped_is_uri("a:", 2), "qualified names");
}

// A text and a buffer are of bytes, or of `void`, and are passed as pointers.
static_assert(std::is_trivially_copyable<uriparse_bytes>::value && sizeof(uriparse_bytes) == sizeof(void *), "a text as a pointer");
static_assert(std::is_trivially_copyable<uriparse_buffer>::value && sizeof(uriparse_buffer) == sizeof(void *), "a buffer as a pointer");
template <class Text> static constexpr bool is_text() { return std::is_convertible<Text, uriparse_bytes>::value; }
template <class Out> static constexpr bool is_buffer() { return std::is_convertible<Out, uriparse_buffer>::value; }

static_assert(is_text<char *>() && is_text<const char *>() && is_text<char[3]>() && is_text<signed char *>() && is_text<const uint8_t *>(), "bytes");
static_assert(is_text<void *>() && is_text<const void *>() && is_text<decltype(nullptr)>(), "void");
static_assert(!is_text<std::string *>() && !is_text<const std::string *>() && !is_text<char **>() && !is_text<wchar_t *>(), "what has no bytes of a text");
static_assert(!is_text<uriparse_parts *>() && !is_text<std::string>() && !is_text<bool>() && !is_text<std::vector<char>>(), "what has none either");
static_assert(is_buffer<char *>() && is_buffer<uint8_t *>() && is_buffer<void *>() && is_buffer<decltype(nullptr)>(), "buffers");
static_assert(!is_buffer<const char *>() && !is_buffer<std::string *>() && !is_buffer<char **>() && !is_buffer<const void *>(), "no buffers");

// An empty text and an empty buffer may be null, of any type.
static void check_null() {
  const std::vector<uint8_t> none;
  uriparse_parts parts;
  bool equal = false;
  uint64_t hash;
  size_t needed = 7;
  check(uriparse_parse(none.data(), 0, &parts) == URIPARSE_OK && uriparse_parse(nullptr, 0, &parts) == URIPARSE_OK, "parse null");
  check(uriparse_first_fault(nullptr, 0, &needed) == URIPARSE_OK && needed == 7, "first_fault null");
  check(!uriparse_is_uri(none.data(), 0) && !uriparse_is_uri(nullptr, 0), "is_uri null");
  check(uriparse_equal(nullptr, 0, none.data(), 0, &equal) == URIPARSE_OK && equal, "equal null");
  check(uriparse_hash(nullptr, 0, &hash) == URIPARSE_OK, "hash null");
  check(uriparse_normalize(nullptr, 0, nullptr, 0, &needed) == URIPARSE_OK && needed == 0, "normalize null");
  check(uriparse_resolve("s:", 2, nullptr, 0, nullptr, 0, &needed) == URIPARSE_NO_ROOM && needed == 2, "resolve null");
  check(uriparse_decode(nullptr, 0, nullptr, 0, &needed) == URIPARSE_OK && needed == 0, "decode null");
  check(uriparse_encode(URIPARSE_QUERY, nullptr, 0, nullptr, 0, &needed) == URIPARSE_OK && needed == 0, "encode null");
  check(uriparse_escape(nullptr, 0, nullptr, 0, &needed) == URIPARSE_OK && needed == 0, "escape null");
  check(uriparse_origin(nullptr, 0, nullptr, 0, &needed) == URIPARSE_NO_ORIGIN && needed == 0, "origin null");
  check(uriparse_relativize("s:", 2, nullptr, 0, nullptr, 0, &needed) == URIPARSE_NO_SCHEME && needed == 0, "relativize null");
  check(uriparse_parse(NULL, 0, &parts) == URIPARSE_OK && uriparse_escape(NULL, 0, NULL, 0, &needed) == URIPARSE_OK, "NULL");
  uriparse_pair pair;
  check(uriparse_next_pair(nullptr, 0, 0, &pair) && pair.next == 1 && !uriparse_next_pair(none.data(), 0, 1, &pair), "next_pair null");
}

int main() {
  const std::string text = "http://user@example.com:80/a?q#f";
  uriparse_parts parts;
  check(uriparse_parse(text.data(), text.size(), &parts) == URIPARSE_OK, "parse");
  check(cut(text, parts.host) == "example.com" && cut(text, parts.password) == "absent", "host");
  check(host_of(text) == "example.com" && host_of("a").empty() && host_of("%").empty(), "host_of");
  check(parts.host_kind == URIPARSE_HOST_NAME && parts.port_number == 80, "kind and port");
  check(uriparse_is_uri(text.data(), text.size()), "is_uri");
  check(normalize("HTTP://h/%7e/../x") == "http://h/x" && normalize("%") == "rejected", "normalize");
  size_t place = 9;
  check(uriparse_first_fault("a%7e", 4, &place) == URIPARSE_OK && place == 9, "no fault");
  check(uriparse_first_fault("a b", 3, &place) == URIPARSE_PATH_BYTE && place == 1, "fault");
  bool equal = false;
  check(uriparse_equal("a%7e", 4, "a~", 2, &equal) == URIPARSE_OK && equal, "equal");
  uint64_t one = 1, other = 2;
  check(uriparse_hash("a%7e", 4, &one) == 0 && uriparse_hash("a~", 2, &other) == 0 && one == other, "hash");
  char out[8];
  size_t needed;
  check(uriparse_resolve("s:/b", 4, "c", 1, out, sizeof out, &needed) == URIPARSE_OK, "resolve");
  check(std::string(out, needed) == "s:/c", "target");
  check(encode(URIPARSE_SEGMENT, "a/b") == "a%2Fb" && encode(URIPARSE_QUERY, "a/b") == "a/b" && encode(1, "a") == "rejected", "encode");
  check(uriparse_decode("a%2Fb", 5, out, sizeof out, &needed) == URIPARSE_OK && std::string(out, needed) == "a/b", "decode");
  check(uriparse_decode("a b", 3, out, sizeof out, &needed) == URIPARSE_QUERY_BYTE && needed == 0, "decode rejects");
  uriparse_pair pair;
  std::string names;
  for (size_t at = 0; uriparse_next_pair("a=1&b", 5, at, &pair); at = pair.next) {
    names += cut("a=1&b", pair.name) + ' ' + cut("a=1&b", pair.value) + ' ';
  }
  check(names == "a 1 b absent ", "pairs");
  check(uriparse_escape("a b%", 4, out, sizeof out, &needed) == URIPARSE_OK && std::string(out, needed) == "a%20b%25", "escape");
  check(std::string(uriparse_error_text(URIPARSE_IN_BASE | URIPARSE_PORT_RANGE)) == "port overflow", "text");
  check_names();
  check_null();
  check_hostile();
  std::printf("%d passed, %d failed\n", passed, failed);
  return failed != 0;
}
