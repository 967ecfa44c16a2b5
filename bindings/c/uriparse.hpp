// The calls of uriparse.h, which says what each does, for C++17. A rejected string throws `uriparse::error`, and what is absent
// is std::nullopt; nullptr is no string, and doesn't compile. The views of a reference or a pair point into the string that was read,
// which must outlive them unchanged.
#ifndef URIPARSE_HPP
#define URIPARSE_HPP

#include "uriparse.h"

#if __cplusplus >= 202002L
#include <compare>
#endif
#include <cstddef>
#include <cstdint>
#include <functional>
#include <optional>
#include <stdexcept>
#include <string>
#include <string_view>
#include <tuple>
#include <type_traits>
#include <utility>
#include <vector>

namespace uriparse {
using view = std::optional<std::string_view>;

// A string that a call reads: whatever is implicitly a std::string_view, except nullptr.
struct input : std::string_view {
  input() noexcept = default;
  template <class Text, class = std::enable_if_t<std::is_convertible_v<const Text &, std::string_view> && !std::is_null_pointer_v<Text>>>
  input(const Text &text) : std::string_view(text) {}
};

// One of uriparse_code, and how many bytes of a string precede its first fault.
struct fault { std::uint32_t code; std::size_t place; };

inline std::optional<fault> first_fault(input text) noexcept {
  fault found{URIPARSE_OK, 0};
  found.code = uriparse_first_fault(text.data(), text.size(), &found.place);
  return found.code == URIPARSE_OK ? std::nullopt : std::optional(found);
}

// Why a call rejects its first argument, or its second one if `argument` is 1: that of `replace` is its changes, and the wrong one is
// `component()`'s. `place` counts the bytes that precede the first wrong one of that string; without `has_place` it is 0, and no byte of
// the string is wrong by itself, as in a base without a scheme. `component()` is one of uriparse_component, or 0.
struct error : std::runtime_error, fault {
  error(fault why, std::size_t which) : std::runtime_error(uriparse_error_text(why.code)), fault(why), argument(which), has_place(true) {}
  error(std::uint32_t why, std::optional<std::size_t> where, std::size_t which)
      : std::runtime_error(uriparse_error_text(why)), fault{why & ~std::uint32_t{URIPARSE_IN_BASE}, where.value_or(0)}, argument(which),
        has_place(where) {}
  std::uint32_t component() const noexcept { return uriparse_error_component(code); }
  std::size_t argument;
  bool has_place;
};

namespace detail {
inline std::optional<std::size_t> place_of(input text) noexcept {
  const auto found = first_fault(text);
  return found ? std::optional(found->place) : std::nullopt;
}

// Where the text of a component is wrong by itself, by a reference that has it. There each byte that would end the component is
// replaced by one that no component has.
inline std::optional<std::size_t> place_in(std::uint32_t component, std::string_view text) {
  static constexpr struct rule { std::uint32_t component; const char *before, *ends, *after; } rules[] = {
      {URIPARSE_USERNAME, "//", "/?#@:[]", "@"}, {URIPARSE_PASSWORD, "//:", "/?#@[]", "@"}, {URIPARSE_HOST, "//", "/?#@", ""},
      {URIPARSE_PORT, "//:", "/?#@:[]", ""}, {URIPARSE_SEGMENT, "//h/", "?#", ""}, {URIPARSE_QUERY, "?", "#", ""}, {URIPARSE_FRAGMENT, "#", "", ""}};
  for (const rule &one : rules) {
    if (one.component != component) continue;
    const std::string_view before = one.before, ends = one.ends;
    std::string read(before);
    bool is_in_brackets = component == URIPARSE_HOST && text.substr(0, 1) == "[";
    for (const char byte : text) {
      is_in_brackets = is_in_brackets && byte != ']';
      const bool is_end = ends.find(byte) != ends.npos || (component == URIPARSE_HOST && byte == ':' && !is_in_brackets);
      read += is_end ? '^' : byte;
    }
    const auto place = place_of(read += one.after);
    return place ? std::optional(*place - before.size()) : std::nullopt;
  }
  return std::nullopt;
}

// Where the first of several domains that is no host is wrong, counted from the first one's start.
inline std::optional<std::size_t> place_in_domains(std::string_view domains) {
  for (std::size_t at = 0; at <= domains.size();) {
    const std::size_t space = domains.find(' ', at), end = space == domains.npos ? domains.size() : space;
    if (const auto place = place_in(URIPARSE_HOST, domains.substr(at, end - at))) return at + *place;
    at = end + 1;
  }
  return std::nullopt;
}

inline void check(std::uint32_t code, std::string_view text, std::size_t argument = 0) {
  const bool has_scheme = (code & ~std::uint32_t{URIPARSE_IN_BASE}) != URIPARSE_NO_SCHEME;
  if (code != URIPARSE_OK) throw error(code, has_scheme ? place_of(text) : std::nullopt, argument);
}

inline void check(std::uint32_t code, std::string_view first, std::string_view second) {
  if (code != URIPARSE_OK && ((code & URIPARSE_IN_BASE) != 0 || first_fault(first))) check(code, first);
  check(code, second, 1);
}

// What a call returns in a number or a struct.
template <class Out, class Call, class... Texts> Out read(Call call, Texts... texts) {
  Out out{};
  check(std::apply(call, std::tuple_cat(std::tuple(texts.data(), texts.size())..., std::tuple(&out))), texts...);
  return out;
}

// Fills a string by a call, again with the room that is needed if there is too little.
template <class Call, class... Texts> std::uint32_t fill(std::string &out, Call call, Texts... texts) {
  std::size_t needed = 0;
  std::uint32_t code = URIPARSE_NO_ROOM;
  for (out.resize((texts.size() + ...) + 1); code == URIPARSE_NO_ROOM; out.resize(needed))
    code = std::apply(call, std::tuple_cat(std::tuple(texts.data(), texts.size())..., std::tuple(out.data(), out.size(), &needed)));
  return code;
}

template <class Call, class... Texts> std::string write(Call call, Texts... texts) {
  std::string out;
  check(fill(out, call, texts...), texts...);
  return out;
}

inline view cut(std::string_view text, uriparse_span span) noexcept {
  return span.present ? view(std::string_view(text.data() + span.begin, span.end - span.begin)) : std::nullopt;
}

// Whether views of what an argument was, or of nullptr, point to nothing after the call: `Text &&` of a temporary is no reference.
template <class Text> struct dangles : std::is_null_pointer<Text> {};
template <class Text> struct dangles<const Text> : dangles<Text> {};
template <class Traits, class Memory> struct dangles<std::basic_string<char, Traits, Memory>> : std::true_type {};
template <class Text> struct dangles<std::optional<Text>> : dangles<Text> {};
template <class Text> using if_dangling = std::enable_if_t<dangles<Text>::value>;
template <class Text> using if_null = std::enable_if_t<std::is_null_pointer_v<Text>>;
} // namespace detail

// A URI or a relative reference: views of its components. It isn't made from a temporary std::string. References are compared and hashed
// as `equal`, `compare` and `hash` do it.
class reference {
  std::string_view text_;
  uriparse_parts parts_;

  reference(std::string_view text, const uriparse_parts &parts) noexcept : text_(text), parts_(parts) {}

public:
  explicit reference(input text) : text_(text), parts_(detail::read<uriparse_parts>(uriparse_parse, text)) {}
  template <class Text, class = detail::if_dangling<Text>> explicit reference(Text &&) = delete;

  // The reference, or std::nullopt for a string that is none: `first_fault` says why.
  static std::optional<reference> try_parse(input text) noexcept {
    uriparse_parts parts;
    return uriparse_parse(text.data(), text.size(), &parts) == URIPARSE_OK ? std::optional(reference(text, parts)) : std::nullopt;
  }
  template <class Text, class = detail::if_dangling<Text>> static std::optional<reference> try_parse(Text &&) = delete;
  std::string_view text() const noexcept { return text_; }
  view scheme() const noexcept { return detail::cut(text_, parts_.scheme); }
  view authority() const noexcept { return detail::cut(text_, parts_.authority); }
  view username() const noexcept { return detail::cut(text_, parts_.username); }
  view password() const noexcept { return detail::cut(text_, parts_.password); }
  view host() const noexcept { return detail::cut(text_, parts_.host); }
  view port() const noexcept { return detail::cut(text_, parts_.port); }
  std::string_view path() const noexcept { return detail::cut(text_, parts_.path).value_or(""); }
  view query() const noexcept { return detail::cut(text_, parts_.query); }
  view fragment() const noexcept { return detail::cut(text_, parts_.fragment); }
  std::uint32_t host_kind() const noexcept { return parts_.host_kind; } // one of uriparse_host_kind
  std::optional<std::uint32_t> port_number() const noexcept {           // absent without a digit
    return parts_.port.begin < parts_.port.end ? std::optional(parts_.port_number) : std::nullopt;
  }
  int compare(const reference &other) const noexcept {
    std::int32_t order = 0;
    uriparse_compare(text_.data(), text_.size(), other.text_.data(), other.text_.size(), &order);
    return order;
  }
  friend bool operator==(const reference &left, const reference &right) noexcept { return left.compare(right) == 0; }
#if __cplusplus >= 202002L
  friend std::weak_ordering operator<=>(const reference &left, const reference &right) noexcept { return left.compare(right) <=> 0; }
#else
  friend bool operator!=(const reference &left, const reference &right) noexcept { return left.compare(right) != 0; }
  friend bool operator<(const reference &left, const reference &right) noexcept { return left.compare(right) < 0; }
  friend bool operator>(const reference &left, const reference &right) noexcept { return left.compare(right) > 0; }
  friend bool operator<=(const reference &left, const reference &right) noexcept { return left.compare(right) <= 0; }
  friend bool operator>=(const reference &left, const reference &right) noexcept { return left.compare(right) >= 0; }
#endif
};

inline bool is_uri(input text) noexcept { return uriparse_is_uri(text.data(), text.size()); }
inline bool equal(input left, input right) { return detail::read<bool>(uriparse_equal, left, right); }
inline int compare(input left, input right) { return detail::read<std::int32_t>(uriparse_compare, left, right); }
inline bool same_origin(input left, input right) { return detail::read<bool>(uriparse_same_origin, left, right); }
inline bool is_normalized(input text) { return detail::read<bool>(uriparse_is_normalized, text); }
inline bool is_public(input text) { return detail::read<bool>(uriparse_is_public, text); }
inline std::uint64_t hash(input text) { return detail::read<std::uint64_t>(uriparse_hash, text); }
inline std::string normalize(input text) { return detail::write(uriparse_normalize, text); }
inline std::string escape(input text) { return detail::write(uriparse_escape, text); }
inline std::string trim_link(input text) { return detail::write(uriparse_trim_link, text); }
inline std::string without_default_port(input text) { return detail::write(uriparse_without_default_port, text); }
inline std::string mask_password(input text) { return detail::write(uriparse_mask_password, text); }
inline std::string resolve(input base, input text) { return detail::write(uriparse_resolve, base, text); }
inline std::string relativize(input base, input uri) { return detail::write(uriparse_relativize, base, uri); }

inline bool is_within(input uri, input base) {
  bool within = false;
  const auto code = uriparse_is_within(uri.data(), uri.size(), base.data(), base.size(), &within);
  if ((code & URIPARSE_IN_BASE) != 0) detail::check(code, base, 1);
  detail::check(code, uri);
  return within;
}

inline bool host_is_within(input text, input domain) {
  bool within = false;
  const auto code = uriparse_host_is_within(text.data(), text.size(), domain.data(), domain.size(), &within);
  if ((code & URIPARSE_IN_BASE) != 0) throw error(code, detail::place_in(URIPARSE_HOST, domain), 1);
  detail::check(code, text);
  return within;
}

// The same of several domains, which spaces separate. Each is read, and the first one that is no host is rejected.
inline bool host_is_within_any(input text, input domains) {
  bool within = false;
  const auto code = uriparse_host_is_within_any(text.data(), text.size(), domains.data(), domains.size(), &within);
  if ((code & URIPARSE_IN_BASE) != 0) throw error(code, detail::place_in_domains(domains), 1);
  detail::check(code, text);
  return within;
}

// A sum of uriparse_host_flag.
inline std::uint32_t host_flags(input text) { return detail::read<std::uint32_t>(uriparse_host_flags, text); }

// A sum of uriparse_disagreement: why another reader may read another URI in the same string.
inline std::uint32_t disagreement(input text) { return detail::read<std::uint32_t>(uriparse_disagreement, text); }

// Whether readers disagree on what a segment of a path names. Its error is that of a path, also for a '/'.
inline bool is_ambiguous(input segment) {
  bool ambiguous = false;
  if (const auto code = uriparse_is_ambiguous(segment.data(), segment.size(), &ambiguous)) {
    std::string marked(segment);
    for (char &byte : marked) byte = byte == '/' ? '^' : byte;
    throw error(code, detail::place_in(URIPARSE_SEGMENT, marked), 0);
  }
  return ambiguous;
}

// The port of the reference, or the default port of its scheme. Without an authority it has none.
inline std::optional<std::uint32_t> port_or_default(input text) {
  const auto port = detail::read<std::int32_t>(uriparse_port_or_default, text);
  return port < 0 ? std::nullopt : std::optional(static_cast<std::uint32_t>(port));
}

inline std::optional<std::uint32_t> default_port(input scheme) noexcept {
  const auto port = uriparse_default_port(scheme.data(), scheme.size());
  return port ? std::optional(port) : std::nullopt;
}

// What becomes of a component: it is kept, unless it is set to a string, or removed by std::nullopt. It owns its string. A component of
// another reference sets it, or removes it if that is absent.
class change {
  std::uint8_t action_ = URIPARSE_KEEP;
  std::string text_;

  void set(std::string_view text) {
    action_ = URIPARSE_SET;
    text_ = text;
  }

public:
  change() noexcept = default;
  change(std::nullptr_t) = delete;
  template <class Text, class = std::enable_if_t<std::is_convertible_v<const Text &, view>>>
  change(const Text &text) : action_(URIPARSE_REMOVE) {
    if constexpr (std::is_convertible_v<const Text &, std::string_view>) set(text);
    else if (const view value = text) set(*value);
  }
  std::uint8_t action() const noexcept { return action_; } // one of uriparse_action
  const std::string &text() const noexcept { return text_; }
};

// What becomes of each component.
struct changes {
  change scheme, username, password, host, port, path, query, fragment;
};

namespace detail {
// The error of a string that rejects changes, or of a value, which is wrong by itself or where it stands, or of them all.
[[noreturn]] inline void reject_change(std::uint32_t code, std::string_view text, const changes &wanted) {
  if (const auto place = place_of(text)) throw error(code, place, 0);
  const std::pair<std::uint32_t, const change *> values[] = {
      {URIPARSE_USERNAME, &wanted.username}, {URIPARSE_PASSWORD, &wanted.password}, {URIPARSE_HOST, &wanted.host}, {URIPARSE_PORT, &wanted.port},
      {URIPARSE_SEGMENT, &wanted.path}, {URIPARSE_QUERY, &wanted.query}, {URIPARSE_FRAGMENT, &wanted.fragment}};
  for (const auto &[component, one] : values)
    if (component == uriparse_error_component(code) && code != URIPARSE_MISSING_HOST && one->action() == URIPARSE_SET)
      throw error(code, place_in(component, one->text()), 1);
  if (code != URIPARSE_SCHEME_BYTE && code != URIPARSE_SCHEME_LETTER) throw error(code, std::nullopt, 1);
  const std::string_view letters = "ABCDEFGHIJKLMNOPQRSTUVWXYZabcdefghijklmnopqrstuvwxyz0123456789+-.";
  throw error(code, code == URIPARSE_SCHEME_LETTER ? 0 : wanted.scheme.text().find_first_not_of(letters), 1);
}
} // namespace detail

// The text with these components changed. What isn't named stays, byte for byte.
inline std::string replace(input text, const changes &wanted) {
  uriparse_changes fields{};
  std::string values, out;
  const auto note = [&values](auto &field, const change &one) {
    field.action = one.action();
    field.begin = values.size();
    values += one.text();
    field.end = values.size();
  };
  note(fields.scheme, wanted.scheme), note(fields.username, wanted.username), note(fields.password, wanted.password);
  note(fields.host, wanted.host), note(fields.port, wanted.port), note(fields.path, wanted.path);
  note(fields.query, wanted.query), note(fields.fragment, wanted.fragment);
  const auto call = [&](const char *at, std::size_t len, char *to, std::size_t room, std::size_t *needed) {
    return uriparse_change(at, len, &fields, values.data(), values.size(), to, room, needed);
  };
  if (const auto code = detail::fill(out, call, text)) detail::reject_change(code, text, wanted);
  return out;
}

namespace detail {
// What a call writes of a reference; with the code `none` there is nothing.
template <class Call> std::optional<std::string> write_part(Call call, std::string_view text, std::uint32_t none) {
  std::string out;
  const auto code = fill(out, call, text);
  if (code != none) check(code, text);
  return code == URIPARSE_OK ? std::optional(out) : std::nullopt;
}
} // namespace detail

inline std::optional<std::string> origin(input text) { return detail::write_part(uriparse_origin, text, URIPARSE_NO_ORIGIN); }

// The path and the query, as an HTTP request has them (RFC 9112, section 3.2.1): absent for a path that begins without a '/'.
inline std::optional<std::string> request_target(input text) { return detail::write_part(uriparse_request_target, text, URIPARSE_NO_TARGET); }

// The 4 bytes of the host if it is an IPv4 address, the 16 bytes if it is an IPv6 address.
inline std::optional<std::string> host_address(input text) { return detail::write_part(uriparse_host_address, text, URIPARSE_NO_ADDRESS); }

// The sort key of a reference: bytes that are equal and ordered as references are, by these flags of uriparse_key_flag.
inline std::string key(input text, std::uint32_t flags = 0) {
  const auto call = [flags](auto... arguments) { return uriparse_key(flags, arguments...); };
  return detail::write(call, text);
}

// The place key of a URI, which begins with the host from its last label on, and what the keys of all URIs below a base begin with.
inline std::string place_key(input text) { return detail::write(uriparse_place_key, text); }
inline std::string base_prefix(input base) { return detail::write(uriparse_base_prefix, base); }

// What the place keys of all URIs within a domain begin with.
inline std::string domain_prefix(input domain) {
  std::string out;
  if (const auto code = detail::fill(out, uriparse_domain_prefix, domain)) throw error(code, detail::place_in(URIPARSE_HOST, domain), 0);
  return out;
}

// The least string above all that begin with such a prefix, which isn't empty.
inline std::string prefix_successor(std::string prefix) {
  ++prefix.back();
  return prefix;
}

inline std::string encode(uriparse_component component, input bytes) {
  std::string out;
  const auto call = [component](auto... arguments) { return uriparse_encode(component, arguments...); };
  if (const auto code = detail::fill(out, call, bytes)) throw error(code, std::nullopt, 0);
  return out;
}

namespace detail {
template <class Call> std::string decode(Call call, std::string_view text) {
  std::string out;
  if (const auto code = fill(out, call, text)) throw error(code, place_in(URIPARSE_QUERY, text), 0);
  return out;
}
} // namespace detail

inline std::string decode(input text) { return detail::decode(uriparse_decode, text); }

// The same of a name or a value of an HTML form, in which a '+' is a space.
inline std::string form_decode(input text) { return detail::decode(uriparse_form_decode, text); }

// The decoded value of the first pair of the query with this name: empty without a '='.
inline std::optional<std::string> pair(input uri, input name) {
  const auto query = reference(uri).query();
  uriparse_pair found;
  if (!query || !uriparse_find_pair(query->data(), query->size(), name.data(), name.size(), &found)) return std::nullopt;
  return decode(detail::cut(*query, found.value).value_or(""));
}

// The decoded values of all pairs of the query with this name, each empty without a '='.
inline std::vector<std::string> pair_values(input uri, input name) {
  std::vector<std::string> values;
  const auto query = reference(uri).query();
  const auto text = query.value_or("");
  uriparse_pair found{};
  while (query && uriparse_find_next_pair(text.data(), text.size(), found.next, name.data(), name.size(), &found))
    values.push_back(decode(detail::cut(text, found.value).value_or("")));
  return values;
}

namespace detail {
template <class Call> std::string with(Call call, std::string_view uri, std::string_view name, view value) {
  const auto query = reference(uri).query().value_or(""), text = value.value_or("");
  std::string out(query.size() + 3 * (name.size() + text.size()) + 2, '\0');
  std::size_t needed = 0;
  call(query.data(), query.size(), name.data(), name.size(), text.data(), text.size(), value.has_value(), out.data(), out.size(), &needed);
  out.resize(needed);
  changes wanted;
  wanted.query = out;
  return replace(uri, wanted);
}
} // namespace detail

// The URI with one pair of this name, in place of the first one, or with a pair after all others; std::nullopt sets one without '='.
inline std::string with_pair(input uri, input name, view value) {
  return detail::with([](auto... arguments) { return uriparse_set_pair(arguments...); }, uri, name, value);
}
inline std::string with_appended_pair(input uri, input name, view value) {
  return detail::with([](auto... arguments) { return uriparse_append_pair(arguments...); }, uri, name, value);
}
template <class Text, class = detail::if_null<Text>> std::string with_pair(input, input, Text) = delete;
template <class Text, class = detail::if_null<Text>> std::string with_appended_pair(input, input, Text) = delete;

// The URI without the pairs of these names, which are written like a query: "utm_*&gclid".
inline std::string without_pairs(input uri, input names) {
  const auto query = reference(uri).query();
  const auto from = query.value_or("");
  std::string out(from.size() + 1, '\0');
  std::size_t needed = 0;
  const auto code = uriparse_drop_pairs(from.data(), from.size(), names.data(), names.size(), out.data(), out.size(), &needed);
  if (code == URIPARSE_BAD_NAMES) throw error(code, detail::place_in(URIPARSE_QUERY, names), 1);
  if (!query) return std::string(uri);
  out.resize(needed);
  changes wanted;
  wanted.query = code == URIPARSE_OK ? change(out) : change(std::nullopt);
  return replace(uri, wanted);
}

// The URI without the pairs of this name, which is data: a '*' is one of the name.
inline std::string without_pair(input uri, input name) { return without_pairs(uri, encode(URIPARSE_PAIR, name)); }

// The pairs of a query, name and value, for a range-based `for`. An absent query has none.
class pairs {
  std::string_view query_;
  uriparse_pair found_{};
  bool is_found_ = false;

public:
  explicit pairs(view query) noexcept : query_(query.value_or("")) { if (query) ++*this; }
  template <class Text, class = detail::if_dangling<Text>> explicit pairs(Text &&) = delete;
  pairs begin() const noexcept { return *this; }
  std::nullopt_t end() const noexcept { return std::nullopt; }
  bool operator!=(std::nullopt_t) const noexcept { return is_found_; }
  void operator++() noexcept { is_found_ = uriparse_next_pair(query_.data(), query_.size(), found_.next, &found_); }
  std::pair<std::string_view, view> operator*() const noexcept {
    return {detail::cut(query_, found_.name).value_or(""), detail::cut(query_, found_.value)};
  }
};

// The segments of a path, for a range-based `for`: one at least, which is empty for an empty path and for "/".
class segments {
  std::string_view path_;
  uriparse_span found_{};
  bool is_found_ = false;

public:
  explicit segments(input path) noexcept : path_(path), is_found_(uriparse_next_segment(path.data(), path.size(), 0, &found_)) {}
  template <class Text, class = detail::if_dangling<Text>> explicit segments(Text &&) = delete;
  segments begin() const noexcept { return *this; }
  std::nullopt_t end() const noexcept { return std::nullopt; }
  bool operator!=(std::nullopt_t) const noexcept { return is_found_; }
  void operator++() noexcept { is_found_ = uriparse_next_segment(path_.data(), path_.size(), found_.end + 1, &found_); }
  std::string_view operator*() const noexcept { return detail::cut(path_, found_).value_or(""); }
};
} // namespace uriparse

template <> struct std::hash<uriparse::reference> {
  std::size_t operator()(const uriparse::reference &reference) const { return static_cast<std::size_t>(uriparse::hash(reference.text())); }
};

#endif
