// The rows that all languages share, and random strings, by the calls of uriparse.hpp: what they return is what the calls of C return. Prints a
// line for each row that fails and how many checks passed; the status is 0 if all did.
#define ROOM 3000
#include "calls.h"
#include "meanings.h"
#include "uriparse.hpp"

#include <array>
#include <functional>

static int passed, failed;

static void check(bool holds, std::string_view what, std::string_view given) {
  if (holds) {
    passed++;
  } else {
    failed++;
    std::printf("FAILED %.*s: %.*s\n", static_cast<int>(what.size()), what.data(), static_cast<int>(given.size()), given.data());
  }
}

static uriparse::view given(const field &value) { return value.at ? uriparse::view(std::string_view(value.at, value.len)) : std::nullopt; }

static std::string shown(bool answer) { return answer ? "true" : "false"; }

template <class Text> static std::string shown(const std::optional<Text> &answer) {
  if constexpr (std::is_integral_v<Text>) return answer ? std::to_string(*answer) : "\\N";
  else return answer ? std::string(*answer) : "\\N";
}

static std::string kind_of(std::string_view text) {
  switch (uriparse::reference(text).host_kind()) {
  case URIPARSE_HOST_NAME: return "name";
  case URIPARSE_HOST_IPV4: return "ipv4";
  case URIPARSE_HOST_IPV6: return "ipv6";
  case URIPARSE_HOST_FUTURE: return "ipvfuture";
  default: return "\\N";
  }
}

static std::string listed(uriparse::view query) {
  std::string all;
  for (const auto &[name, value] : uriparse::pairs(query)) all.append("<").append(name).append(value ? "=" : "").append(value.value_or("")).append(">");
  return all;
}

static std::string listed_values(std::string_view text, std::string_view name) {
  std::string all;
  for (const auto &value : uriparse::pair_values(text, name)) all.append("<").append(value).append(">");
  return all;
}

static std::string listed_segments(std::string_view text) {
  std::string all;
  for (const auto segment : uriparse::segments(uriparse::reference(text).path())) all.append("<").append(segment).append(">");
  return all;
}

static uriparse::change *field_of(uriparse::changes &all, std::string_view name) {
  const std::pair<std::string_view, uriparse::change *> fields[] = {
      {"scheme", &all.scheme}, {"username", &all.username}, {"password", &all.password}, {"host", &all.host},
      {"port", &all.port},     {"path", &all.path},         {"query", &all.query},       {"fragment", &all.fragment}};
  for (const auto &[one, at] : fields)
    if (one == name) return at;
  return nullptr;
}

static std::string replaced(std::string_view text, std::string_view name, uriparse::view value) {
  uriparse::changes changes;
  *field_of(changes, name) = value;
  return uriparse::replace(text, changes);
}

static std::string encoded(std::string_view name, std::string_view bytes) {
  const std::pair<std::string_view, uriparse_component> components[] = {{"username", URIPARSE_USERNAME}, {"password", URIPARSE_PASSWORD},
      {"segment", URIPARSE_SEGMENT}, {"query", URIPARSE_QUERY}, {"fragment", URIPARSE_FRAGMENT}, {"pair", URIPARSE_PAIR}};
  for (const auto &[one, component] : components)
    if (one == name) return uriparse::encode(component, bytes);
  return "no component";
}

struct call_of_row {
  std::string_view name;
  std::function<std::string(std::string_view, std::string_view, uriparse::view)> answer;
};

static const call_of_row calls[] = {
    {"check", [](auto text, auto, auto) { return shown(!uriparse::reference(text).text().empty() || text.empty()); }},
    {"is_uri", [](auto text, auto, auto) { return shown(uriparse::is_uri(text)); }},
    {"port", [](auto text, auto, auto) { return shown(uriparse::reference(text).port()); }},
    {"port_number", [](auto text, auto, auto) { return shown(uriparse::reference(text).port_number()); }},
    {"host_kind", [](auto text, auto, auto) { return kind_of(text); }},
    {"host_flags", [](auto text, auto, auto) { return std::to_string(uriparse::host_flags(text)); }},
    {"disagreement", [](auto text, auto, auto) { return std::to_string(uriparse::disagreement(text)); }},
    {"default_port", [](auto text, auto, auto) { return shown(uriparse::default_port(text)); }},
    {"port_or_default", [](auto text, auto, auto) { return shown(uriparse::port_or_default(text)); }},
    {"host_address", [](auto text, auto, auto) { return shown(uriparse::host_address(text)); }},
    {"is_normalized", [](auto text, auto, auto) { return shown(uriparse::is_normalized(text)); }},
    {"is_public", [](auto text, auto, auto) { return shown(uriparse::is_public(text)); }},
    {"is_ambiguous", [](auto segment, auto, auto) { return shown(uriparse::is_ambiguous(segment)); }},
    {"same_origin", [](auto left, auto right, auto) { return shown(uriparse::same_origin(left, right)); }},
    {"hash", [](auto text, auto, auto) { return std::to_string(uriparse::hash(text)); }},
    {"trim_link", [](auto text, auto, auto) { return uriparse::trim_link(text); }},
    {"key", [](auto text, auto, auto) { return uriparse::key(text); }},
    {"page_key", [](auto text, auto, auto) { return uriparse::key(text, URIPARSE_KEY_PAGE); }},
    {"place_key", [](auto text, auto, auto) { return uriparse::place_key(text); }},
    {"domain_prefix", [](auto domain, auto, auto) { return uriparse::domain_prefix(domain); }},
    {"base_prefix", [](auto base, auto, auto) { return uriparse::base_prefix(base); }},
    {"form_decode", [](auto text, auto, auto) { return uriparse::form_decode(text); }},
    {"pair_values", [](auto text, auto name, auto) { return listed_values(text, name); }},
    {"segments", [](auto text, auto, auto) { return listed_segments(text); }},
    {"without_default_port", [](auto text, auto, auto) { return uriparse::without_default_port(text); }},
    {"request_target", [](auto text, auto, auto) { return shown(uriparse::request_target(text)); }},
    {"mask_password", [](auto text, auto, auto) { return uriparse::mask_password(text); }},
    {"host_is_within_any", [](auto text, auto domains, auto) { return shown(uriparse::host_is_within_any(text, domains)); }},
    {"origin", [](auto text, auto, auto) { return shown(uriparse::origin(text)); }},
    {"pairs", [](auto text, auto, auto) { return listed(uriparse::reference(text).query()); }},
    {"pair", [](auto text, auto name, auto) { return shown(uriparse::pair(text, name)); }},
    {"with_pair", [](auto text, auto name, auto value) { return uriparse::with_pair(text, name, value); }},
    {"with_appended_pair", [](auto text, auto name, auto value) { return uriparse::with_appended_pair(text, name, value); }},
    {"without_pairs", [](auto text, auto list, auto) { return uriparse::without_pairs(text, list); }},
    {"without_pair", [](auto text, auto name, auto) { return uriparse::without_pair(text, name); }},
    {"host_is_within", [](auto text, auto domain, auto) { return shown(uriparse::host_is_within(text, domain)); }},
    {"is_within", [](auto uri, auto base, auto) { return shown(uriparse::is_within(uri, base)); }},
    {"resolve", [](auto base, auto text, auto) { return uriparse::resolve(base, text); }},
    {"relativize", [](auto base, auto uri, auto) { return uriparse::relativize(base, uri); }},
    {"equal", [](auto left, auto right, auto) { return shown(uriparse::equal(left, right)); }},
    {"compare", [](auto left, auto right, auto) { return std::to_string(uriparse::compare(left, right)); }},
    {"replace", [](auto text, auto name, auto value) { return replaced(text, name, value); }},
    {"decode", [](auto text, auto, auto) { return uriparse::decode(text); }},
    {"encode", [](auto name, auto bytes, auto) { return encoded(name, bytes); }}};

// What a row's call answers. The second argument of `replace` is its changes: the row's third, or all of them.
static std::string answer(const meaning &row, const call_of_row &call) {
  try {
    return call.answer(given(row.values[0]).value_or(""), given(row.values[1]).value_or(""), given(row.values[2]));
  } catch (const uriparse::error &error) {
    char out[200];
    const bool is_change = call.name == "replace" && error.argument == 1;
    const auto *const of_value = is_change ? component_names[error.component() / 0x10] : "";
    const bool is_whole = is_change && (error.code == URIPARSE_MISSING_HOST || given(row.values[1]) != std::string_view(of_value) || !given(row.values[2]));
    const int argument = is_whole ? -1 : is_change ? 3 : static_cast<int>(error.argument) + 1;
    const int size = error_row(out, sizeof out, error.code, argument, error.has_place ? static_cast<long>(error.place) : -1);
    return std::string(out, static_cast<std::size_t>(size));
  }
}

static void check_rows() {
  static meaning row;
  int count = 0;
  std::FILE *const file = std::fopen("../rows.tsv", "r");
  while (file && read_meaning(file, &row)) {
    bool is_found = row.call == std::string_view("drop_pairs"); // of a query that is no reference's
    for (const auto &call : calls) {
      if (call.name != row.call) continue;
      const std::string found = answer(row, call);
      check(found == given(row.answer).value_or("\\N"), row.line, found);
      is_found = true;
      count++;
    }
    check(is_found, row.line, "no call");
  }
  check(count > 400, "rows", std::to_string(count));
  if (file) std::fclose(file);
}

// What a call of C that is found by its name returns for two texts: what it writes, or its code.
static std::string by_c(std::string_view name, std::string_view base, std::string_view text) {
  static written to;
  int which = 0;
  while (names[which] != name) which++;
  const std::uint32_t code = call(which, base.data(), base.size(), text.data(), text.size(), &to);
  if (code != URIPARSE_OK) return "code " + std::to_string(code & ~std::uint32_t{URIPARSE_IN_BASE});
  if (name == "equal" || name == "same_origin" || name == "is_normalized" || name == "is_public" || name == "is_ambiguous" || name == "is_within" || name == "host_is_within" ||
      name == "host_is_within_any")
    return shown(to.equal);
  if (name == "compare") return std::to_string(to.order);
  if (name == "port_or_default") return to.order < 0 ? "\\N" : std::to_string(to.order);
  if (name == "host_flags" || name == "disagreement") return std::to_string(to.flags);
  if (name == "hash") return std::to_string(to.hash);
  return std::string(reinterpret_cast<const char *>(to.out), to.needed);
}

template <class Call> static std::string by_header(Call call) {
  try {
    return call();
  } catch (const uriparse::error &error) {
    return "code " + std::to_string(error.code);
  }
}

static void check_random(std::string_view base, std::string_view text) {
  uriparse::changes changes;
  changes.query = base, changes.port = std::nullopt;
  const std::pair<std::string_view, std::function<std::string()>> rows[] = {
      {"equal", [&] { return shown(uriparse::equal(base, text)); }}, {"compare", [&] { return std::to_string(uriparse::compare(base, text)); }},
      {"is_within", [&] { return shown(uriparse::is_within(text, base)); }},
      {"host_is_within", [&] { return shown(uriparse::host_is_within(text, base)); }},
      {"host_is_within_any", [&] { return shown(uriparse::host_is_within_any(text, base)); }},
      {"without_default_port", [&] { return uriparse::without_default_port(text); }}, {"mask_password", [&] { return uriparse::mask_password(text); }},
      {"host_flags", [&] { return std::to_string(uriparse::host_flags(text)); }}, {"hash", [&] { return std::to_string(uriparse::hash(text)); }},
      {"disagreement", [&] { return std::to_string(uriparse::disagreement(text)); }},
      {"normalize", [&] { return uriparse::normalize(text); }}, {"resolve", [&] { return uriparse::resolve(base, text); }},
      {"relativize", [&] { return uriparse::relativize(base, text); }}, {"decode", [&] { return uriparse::decode(text); }},
      {"escape", [&] { return uriparse::escape(text); }}, {"encode", [&] { return uriparse::encode(URIPARSE_SEGMENT, text); }},
      {"same_origin", [&] { return shown(uriparse::same_origin(base, text)); }}, {"is_normalized", [&] { return shown(uriparse::is_normalized(text)); }},
      {"is_public", [&] { return shown(uriparse::is_public(text)); }},
      {"is_ambiguous", [&] { return shown(uriparse::is_ambiguous(text)); }}, {"port_or_default", [&] { return shown(uriparse::port_or_default(text)); }},
      {"host_address", [&] { return uriparse::host_address(text).value_or("code " + std::to_string(URIPARSE_NO_ADDRESS)); }},
      {"key", [&] { return uriparse::key(text, URIPARSE_KEY_PAGE); }},
      {"form_decode", [&] { return uriparse::form_decode(text); }}, {"trim_link", [&] { return uriparse::trim_link(text); }},
      {"request_target", [&] { return uriparse::request_target(text).value_or("code " + std::to_string(URIPARSE_NO_TARGET)); }},
      {"origin", [&] { return uriparse::origin(text).value_or("code " + std::to_string(URIPARSE_NO_ORIGIN)); }},
      {"change", [&] { return uriparse::replace(text, changes); }}};
  for (const auto &[name, call] : rows) check(by_header(call) == by_c(name, base, text), name, text);
  const auto parsed = uriparse::reference::try_parse(text);
  check(parsed.has_value() == !uriparse::first_fault(text), "try_parse", text);
  if (!parsed) return;
  const std::string with = uriparse::with_pair(text, base, text);
  check(uriparse::pair(with, base) == text && uriparse::pair_values(with, base) == std::vector{std::string(text)}, "pair", with);
  check(uriparse::pair(uriparse::without_pair(with, base), base) == std::nullopt, "without_pair", with);
  const auto other = uriparse::reference::try_parse(base);
  if (other) check((*parsed == *other) == uriparse::equal(text, base) && parsed->compare(*other) == uriparse::compare(text, base), "operators", text);
}

static std::size_t draw(std::size_t limit) {
  static std::uint64_t state = 88172645463325252U;
  state ^= state << 13;
  state ^= state >> 7;
  state ^= state << 17;
  return static_cast<std::size_t>(state >> 33) % limit;
}

static std::string some_text() {
  static const std::string_view pieces[] = {"http:", "S:", "//", "/", "..", ".", "a", "%7e", "%", "%4A", "?", "#", "@", ":", "u:p@", "[::1]", "[v1.x]",
      "1.2.3.4", "%31.2.3.4", "h.Example", ":080", "65536", "&", "=", "+", ";x", " ", "\\", "\xc3\xa9", "*", "abcdefghijklmnop"};
  std::string text;
  for (std::size_t left = draw(10); left > 0; left--) text += pieces[draw(std::size(pieces))];
  return text;
}

int main() {
  check_rows();
  std::string base;
  for (int count = 0; count < 5000; count++) {
    const std::string text = some_text();
    check_random(base, text);
    if (uriparse::is_uri(text) || draw(4) == 0) base = text;
  }
  std::printf("%d passed, %d failed\n", passed, failed);
  return failed != 0;
}
