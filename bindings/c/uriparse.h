/* URIs and URI references of RFC 3986: read, compare, hash, normalize, resolve, relativize, change, decode, encode and
 * escape them, check whether one is below another, write their origins, and read and change the pairs of a query. The
 * code behind these calls is proved: it is safe, it terminates, and it computes what this header says of results,
 * codes and what is written. That no call allocates, and what it says of threads, signal handlers and the stack, is
 * only tested. README.md says more.
 *
 * The library is for Linux on x86-64 processors of level x86-64-v2 or later, those with SSE4.2 and POPCNT, and on aarch64.
 * It doesn't check the processor.
 *
 * Texts are bytes with a length in bytes, and need no zero byte at their end. A zero byte in a text is rejected like
 * any other byte that no URI has. An empty text may be NULL with length 0: the calls below allow it, and `out` too may
 * be NULL if `room` is 0. NULL with a greater length ends the program. Each other pointer is valid and aligned for its
 * type, each text readable for its whole length, `changes` initialized, and `out` writable for `room` bytes. A length is at
 * most PTRDIFF_MAX.
 *
 * A text isn't written and isn't kept: after the call nothing points into it. Its bytes are initialized, and nothing
 * changes them during the call, be it another thread, a signal handler or another process that shares the memory: a
 * call reads a text more than once. What a call writes to, `out` and the target of each pointer that isn't to const,
 * overlaps no other argument. It need not be initialized, and nothing else uses it during the call. On an error
 * nothing is written except `*needed`, which becomes 0, or with URIPARSE_NO_ROOM the length of the text, and `*place`.
 *
 * There is no state between calls, so calls may run concurrently in any threads. No call allocates, so each may be called
 * in a signal handler, and in the forked child of a process with threads. A call takes at most 6,144 bytes of stack,
 * however long its texts are. Not counted is what the dynamic linker takes if it binds a function at its first call: link
 * with `-Wl,-z,now` to have it bind at the start.
 *
 * Limits: a path has at most 1,000,000 segments, a port is at most 65535. */
#ifndef URIPARSE_H
#define URIPARSE_H

#include <stdbool.h>
#include <stddef.h>
#include <stdint.h>
#if defined(__cplusplus) && __cplusplus >= 201703L
extern "C++" {
#include <cstddef>
}
#endif

#define URIPARSE_VERSION "0.4.0"

/* What a call returns. The error of a text is its first one: of the authority (user name, password, host, port), then
 * of the path, the colon rule, the query, the fragment; and within each of these the leftmost one.
 * `uriparse_error_component` returns the component that a code is about: `code & URIPARSE_COMPONENT_MASK` for the codes from 0x10 on.
 * `code & URIPARSE_IN_BASE` is set if `uriparse_resolve`, `uriparse_relativize` or `uriparse_is_within` rejects the base, or
 * `uriparse_host_is_within` the domain, or `uriparse_host_is_within_any` one of them. Later versions may add codes. */
enum uriparse_code {
  /* codes.tsv: codes */
  URIPARSE_OK = 0,
  URIPARSE_OUT_OF_MEMORY = 1,       /* Reserved: no call allocates. */
  URIPARSE_NO_ROOM = 2,             /* `room` is too small: `*needed` bytes are enough. */
  URIPARSE_NO_SCHEME = 3,           /* There is no scheme where a URI is expected, also in `1:2`. */
  URIPARSE_COLON_IN_SEGMENT = 4,    /* Without a scheme, a colon precedes the path's first slash: `1:2`. */
  URIPARSE_TOO_MANY_SEGMENTS = 5,   /* A path has more than 1,000,000 segments: that of the string, or that of a target. */
  URIPARSE_TWO_SLASHES = 6,         /* Without an authority, the path of a changed reference would start with `//`. */
  URIPARSE_NO_COMPONENT = 8,        /* `uriparse_encode` writes no component with this number. */
  URIPARSE_NO_ORIGIN = 10,          /* The reference has no origin: returned by `uriparse_origin` alone. */
  URIPARSE_MISSING_HOST = 11,       /* A change sets a user name, a password or a port of a reference without a host. */
  URIPARSE_BAD_CHANGE = 12,         /* An unknown action, or bytes outside the values: returned by `uriparse_change` alone. */
  URIPARSE_BAD_NAMES = 13,          /* The names of pairs are not a query. */
  URIPARSE_NO_PAIRS = 14,           /* No pair of the query is left: returned by `uriparse_drop_pairs` alone. */
  URIPARSE_NO_ADDRESS = 15,         /* The reference has no host that is an IPv4 or IPv6 address: returned by `uriparse_host_address` alone. */
  URIPARSE_USERNAME_COLON = 0x10,   /* A colon in a user name that is set. */
  URIPARSE_USERNAME_BYTE = 0x11,    /* A byte that no user name has. */
  URIPARSE_USERNAME_ESCAPE = 0x12,  /* A `%` in the user name that two hexadecimal digits don't follow. */
  URIPARSE_PASSWORD_BYTE = 0x21,    /* A byte that no password has. */
  URIPARSE_PASSWORD_ESCAPE = 0x22,  /* A `%` in the password that two hexadecimal digits don't follow. */
  URIPARSE_HOST_BYTE = 0x31,        /* A byte that no name of a host has, or a `%` that two hexadecimal digits don't follow. */
  URIPARSE_HOST_IPV6_BYTE = 0x32,   /* In brackets, a byte that no IPv6 address has. */
  URIPARSE_HOST_IPV6_FORM = 0x33,   /* In brackets, no form of an IPv6 address. */
  URIPARSE_HOST_FUTURE_BYTE = 0x34, /* In brackets, after `v`, a byte that no address of a later version has. */
  URIPARSE_HOST_FUTURE_FORM = 0x35, /* In brackets, after `v`, no form of such an address. */
  URIPARSE_PORT_BYTE = 0x41,        /* A byte of the port that is no digit. */
  URIPARSE_PORT_RANGE = 0x42,       /* The port is above 65535. */
  URIPARSE_PATH_BYTE = 0x51,        /* A byte that no path has. */
  URIPARSE_PATH_ESCAPE = 0x52,      /* A `%` in the path that two hexadecimal digits don't follow. */
  URIPARSE_QUERY_BYTE = 0x61,       /* A byte that no query has. */
  URIPARSE_QUERY_ESCAPE = 0x62,     /* A `%` in the query that two hexadecimal digits don't follow. */
  URIPARSE_FRAGMENT_BYTE = 0x71,    /* A byte that no fragment has. */
  URIPARSE_FRAGMENT_ESCAPE = 0x72,  /* A `%` in the fragment that two hexadecimal digits don't follow. */
  URIPARSE_SCHEME_EMPTY = 0x80,     /* A scheme that is set is empty. */
  URIPARSE_SCHEME_BYTE = 0x81,      /* A byte that no scheme has. */
  URIPARSE_SCHEME_LETTER = 0x82,    /* The first byte of a scheme that is set is no letter. */
  URIPARSE_KEY_FLAGS = 0x90,        /* `uriparse_key` was called with flags that have no meaning. */
  URIPARSE_NO_TARGET = 0x91,        /* The path neither is empty nor begins with a slash: returned by `uriparse_request_target` alone. */
  /* codes.tsv: end */

  URIPARSE_COMPONENT_MASK = 0xf0, /* the digit of a code that names the component */
  URIPARSE_IN_BASE = 0x100        /* added to a code: it is the base's error */
};

/* Where a component is: the bytes from text[begin] up to text[end], without text[end]. An absent component has begin
 * and end 0; one that is present may be empty ("http://h?" has an empty query, "http://h" has none). */
struct uriparse_span {
  size_t begin;
  size_t end;
  bool present;
};

enum uriparse_host_kind {
  URIPARSE_NO_HOST = 0,     /* there is no authority */
  URIPARSE_HOST_NAME = 1,   /* a registered name, which may be empty */
  URIPARSE_HOST_IPV4 = 4,
  URIPARSE_HOST_IPV6 = 6,
  URIPARSE_HOST_FUTURE = 7  /* an address of a later version, IPvFuture: "[v1.x]" */
};

/* What a name of a host may be taken for: RFC 3986, section 7.4. An address has no flag. */
enum uriparse_host_flag {
  URIPARSE_HIDES_ADDRESS = 1,  /* a name whose canonical spelling is that of an IPv4 address: "%31.2.3.4" */
  URIPARSE_MAY_BE_NUMERIC = 2, /* a name whose last label begins with a digit: "2130706433", "0x7f.1", "127.1" */
  URIPARSE_HAS_ESCAPES = 4     /* a name whose canonical spelling has an escape: "evil.org%2F.example.com" */
};

/* Why another reader, such as a browser or a library by the URL Standard, may read another URI in the same string. */
enum uriparse_disagreement {
  URIPARSE_OTHER_SCHEME = 1,     /* the scheme isn't http, https, ws, wss or ftp, or there is none */
  URIPARSE_WITHOUT_HOST = 2,     /* there is no authority, or its host is empty: "http:a.example", "http:///a.example" */
  URIPARSE_LATER_ADDRESS = 4,    /* the host is an address of a later version: "[v1.a]" */
  URIPARSE_ESCAPED_NAME = 8,     /* the name of the host has an escape, which some readers decode */
  URIPARSE_NUMERIC_NAME = 16,    /* the last label of the name begins with a digit: "0x7f.1", "2130706433" */
  URIPARSE_ENCODED_NAME = 32,    /* a label of the name begins with "xn--" */
  URIPARSE_ESCAPED_DOTS = 64,    /* a dot segment has an escape: "%2e%2e" */
  URIPARSE_USER_INFORMATION = 128 /* there is user information, which people take for the host: "https://example.com@evil.example/" */
};

/* What a sort key is of; 0 is the reference as it is. */
enum uriparse_key_flag {
  URIPARSE_KEY_NORMAL = 1,          /* the normal form, whose dot segments are removed; the kind of the host stays */
  URIPARSE_KEY_NO_DEFAULT_PORT = 2, /* without a port that is the scheme's default port */
  URIPARSE_KEY_NO_FRAGMENT = 4,     /* without the fragment */
  URIPARSE_KEY_PAGE = 7             /* all three: the page that the reference leads to */
};

/* The components of a reference as its text spells them: without their delimiters (':', "//", '@', '?', '#'), not
 * decoded and not normalized. An address in brackets has its brackets. `path` is always present, and `host` if
 * `authority` is. */
struct uriparse_parts {
  struct uriparse_span scheme;
  struct uriparse_span authority;
  struct uriparse_span username;
  struct uriparse_span password;
  struct uriparse_span host;
  struct uriparse_span port; /* the digits, which may be none: "h:" */
  struct uriparse_span path;
  struct uriparse_span query;
  struct uriparse_span fragment;
  uint32_t host_kind;   /* one of uriparse_host_kind */
  uint32_t port_number; /* 0 to 65535; 0 if there are no digits */
};

enum uriparse_action {
  URIPARSE_KEEP = 0,  /* the component keeps its bytes, or its absence */
  URIPARSE_SET = 1,   /* it is the bytes from values[begin] up to values[end] */
  URIPARSE_REMOVE = 2 /* it is absent; a path is empty */
};

/* What becomes of a component. */
struct uriparse_value {
  size_t begin;
  size_t end;
  uint8_t action; /* one of uriparse_action */
};

/* What becomes of each component. One that is all zero changes nothing. */
struct uriparse_changes {
  struct uriparse_value scheme;
  struct uriparse_value username;
  struct uriparse_value password;
  struct uriparse_value host;
  struct uriparse_value port;
  struct uriparse_value path;
  struct uriparse_value query;
  struct uriparse_value fragment;
};

/* A pair of a query, as name=value. The places count from the start of the query. */
struct uriparse_pair {
  struct uriparse_span name;  /* always present, and may be empty */
  struct uriparse_span value; /* absent if the pair has no '=' */
  size_t next;                /* where the next pair begins; after the last pair it is greater than the query's length */
};

/* What an error is about. `uriparse_encode` writes each of these except a host, a port and a scheme. */
enum uriparse_component {
  URIPARSE_USERNAME = 0x10,
  URIPARSE_PASSWORD = 0x20,
  URIPARSE_HOST = 0x30,
  URIPARSE_PORT = 0x40,
  URIPARSE_SEGMENT = 0x50, /* of a path: a '/' that is encoded becomes "%2F". Of an error: the path */
  URIPARSE_QUERY = 0x60,
  URIPARSE_FRAGMENT = 0x70,
  URIPARSE_SCHEME = 0x80,  /* of an error alone */
  URIPARSE_PAIR = 0x90     /* of `uriparse_encode` alone: a name or a value of a pair, in which '&', '=', '+' and '*' become escapes too */
};

/* A pointer to the bytes of a text, and one to a buffer. In C++ these are of `char`, of another type of bytes or of `void`, so that
 * the address of a `std::string` isn't taken for its bytes. Both processors pass such a class as the pointer that it has. */
#ifdef __cplusplus
extern "C++" {

/* The types of bytes. */
template <class Other> struct uriparse_type { typedef int is_no_byte; };
template <> struct uriparse_type<char> { typedef int is_byte; };
template <> struct uriparse_type<signed char> { typedef int is_byte; };
template <> struct uriparse_type<unsigned char> { typedef int is_byte; };
#if __cplusplus >= 201703L
template <> struct uriparse_type<std::byte> { typedef int is_byte; };
#endif
#ifdef __cpp_char8_t
template <> struct uriparse_type<char8_t> { typedef int is_byte; };
#endif

/* A pointer to the bytes of a text. */
class uriparse_bytes {
  const void *at_;

public:
  uriparse_bytes(const void *at) : at_(at) {}
  template <class Byte> uriparse_bytes(const Byte *at, typename uriparse_type<Byte>::is_byte = 0) : at_(at) {}
  template <class Other> uriparse_bytes(const Other *, typename uriparse_type<Other>::is_no_byte = 0) = delete;
  operator const void *() const { return at_; }
};

/* A pointer to a buffer. */
class uriparse_buffer {
  void *at_;

public:
  uriparse_buffer(void *at) : at_(at) {}
  template <class Byte> uriparse_buffer(Byte *at, typename uriparse_type<Byte>::is_byte = 0) : at_(at) {}
  template <class Other> uriparse_buffer(Other *, typename uriparse_type<Other>::is_no_byte = 0) = delete;
  operator void *() const { return at_; }
};
} // extern "C++"

extern "C" {
#else
typedef const void *uriparse_bytes;
typedef void *uriparse_buffer;
#endif

/* Reads a URI or a relative reference (RFC 3986, section 4.1), and writes to `*parts` where its components are. The text
 * is a URI if `parts->scheme.present`. Returns URIPARSE_OK or the text's error. */
uint32_t uriparse_parse(uriparse_bytes text, size_t len, struct uriparse_parts *parts);

/* Why a text is no reference, and where: returns the error that `uriparse_parse` returns, and writes to `*place` how many
 * bytes precede the text's first fault. Returns URIPARSE_OK if the text is a reference, and then leaves `*place` as it
 * was.
 *
 * The place of a wrong byte is its own, of an escape without two digits that of its '%', and of one segment too many that
 * of the slash before it. An address of a wrong form is wrong at its '[', a port that is too large at its first digit,
 * and a path with a colon where none may be at its first byte. A place is less than `len`. Reads a faulty text again. */
uint32_t uriparse_first_fault(uriparse_bytes text, size_t len, size_t *place);

/* Whether a text is a URI: a reference that has a scheme. */
bool uriparse_is_uri(uriparse_bytes text, size_t len);

/* Writes to `*equal` whether two references are equal: whether their hosts, if they have any, are of one kind, and
 * their texts, in the form that calls write (see `uriparse_normalize`), differ at most in the case of schemes, hosts and
 * hexadecimal digits and in percent-encoding of unreserved characters ("%7e" and "~", but not "%2F" and "/"). Dot
 * segments count: normalize first if they shouldn't, but see the warning at `uriparse_normalize`. If both texts are
 * faulty, the error is the left one's. */
uint32_t uriparse_equal(uriparse_bytes left, size_t left_len, uriparse_bytes right, size_t right_len, bool *equal);

/* Writes to `*order` -1, 0 or 1: whether the left reference is less than the right one, equal to it or greater. The first
 * component that differs decides, in the order scheme, authority, path, query, fragment, each in the spelling by which
 * `uriparse_equal` compares; an absent one is less than any that is present. Hosts of one kind are compared by their
 * bytes, ports as numbers. It is 0 exactly if `uriparse_equal` writes true. If both texts are faulty, the error is the
 * left one's. */
uint32_t uriparse_compare(uriparse_bytes left, size_t left_len, uriparse_bytes right, size_t right_len, int32_t *order);

/* Writes to `*same` whether two references both have an origin, as `uriparse_origin` finds it, and it is the same one: the
 * schemes are equal, the hosts and the ports, each the one that is named or the scheme's default one (RFC 6454, section 5).
 * It is false if either has no origin, also of a reference and itself. Hosts of different kinds differ, as in
 * `uriparse_equal`. If both texts are faulty, the error is the left one's. */
uint32_t uriparse_same_origin(uriparse_bytes left, size_t left_len, uriparse_bytes right, size_t right_len, bool *same);

/* Writes to `*normalized` whether a reference is its own normal form: whether `uriparse_normalize` writes the text itself. */
uint32_t uriparse_is_normalized(uriparse_bytes text, size_t len, bool *normalized);

/* Writes to `*within` whether a URI is below another one: whether the schemes are equal, the authorities too, each with the
 * port that it names or the scheme's default port, and the path, without dot segments, begins with the directory of the
 * base's path, through its last slash. Segments are compared whole and in canonical spelling, so "/appX", "/app/../admin"
 * and "/app/%2e%2e/admin" are not below "/app/". User information must be equal or absent in both. The query and the
 * fragment don't count. A base whose path has no slash has nothing below it but what has the same path.
 *
 * A URI isn't below the base if a segment after the directory is one that servers read in different ways: one with an
 * escaped '/', '\', '%' or zero byte, or "." or ".." followed by ';' or by an escaped ';', '?' or '#' ("/app/..;/admin",
 * "/app/..%2fadmin"). Nor is it if a double-dot segment of its path removes such a segment, or one that is empty or has nothing
 * before one of these ("/app/..;/../a", "/app//../a"). The segments of the directory itself aren't looked at.
 *
 * Hand on the normal form, or the target of `uriparse_resolve`, not the text: in that a server that doesn't take "%2e%2e" for
 * ".." reads another path.
 *
 * Both texts need a scheme (URIPARSE_NO_SCHEME). If both are faulty, the error is the first one's. */
uint32_t uriparse_is_within(uriparse_bytes text, size_t len, uriparse_bytes base, size_t base_len, bool *within);

/* Writes to `*within` whether the host of a reference is a domain or within it: whether the hosts are equal, or both are names
 * and the labels of the reference's host, which dots separate, end with all labels of the domain. Names are compared in
 * canonical spelling, and one dot at the end of either is ignored. "evilexample.com" isn't within "example.com". A name
 * with an empty label is within nothing but its equals, and so is an address, and a name whose canonical spelling is that
 * of an IPv4 address. A name with an escape in canonical spelling, such as "evil.org%2F.example.com", is within nothing but its
 * equals, and nothing else is within it. Without a host it is false.
 *
 * The domain is a host as `uriparse_parse` finds it; its error has URIPARSE_IN_BASE. If both texts are faulty, the error is
 * the reference's. */
uint32_t uriparse_host_is_within(uriparse_bytes text, size_t len, uriparse_bytes domain, size_t domain_len,
                                 bool *within);

/* The same of several domains, which spaces separate in one string: writes to `*within` whether the host is one of them or
 * within one, as `uriparse_host_is_within` says of each. A space at either end, or next to another one, names no domain, and
 * an empty string has none, so within it is no host, not even an empty one.
 *
 * Each domain is read, also after one that the host is within. The first one that is no host is rejected with the code of its
 * error and URIPARSE_IN_BASE. If the reference is faulty too, the error is the reference's. */
uint32_t uriparse_host_is_within_any(uriparse_bytes text, size_t len, uriparse_bytes domains, size_t domains_len,
                                     bool *within);

/* Writes to `*flags` the sum of the enum uriparse_host_flag of the reference's host, or 0 without a host. */
uint32_t uriparse_host_flags(uriparse_bytes text, size_t len, uint32_t *flags);

/* Writes to `*is_public` whether the host of a reference leads anywhere on the Internet, as far as its text says: a global address
 * by IANA's special-purpose registries (RFC 6890), also looked for in IPv6 addresses that embed an IPv4 address; or a name that
 * isn't empty and for which `uriparse_host_flags` writes 0. It is false without a host.
 *
 * DNS may answer for a name with any address: check the address of the connection too. "localhost" and names that end in
 * ".localhost", ".local" or ".internal" are names like others here. */
uint32_t uriparse_is_public(uriparse_bytes text, size_t len, bool *is_public);

/* Writes to `*ambiguous` whether readers disagree on what a segment of a path names: whether it has an escaped '/', '\', '%' or
 * zero byte, or is "." or ".." followed by ';' or by an escaped ';', '?' or '#' ("..;a", "a%2fb"). A segment is what stands
 * between two slashes; ".." and "%2e%2e" are not ambiguous. For a text that is no segment, as one with a '/', returns
 * URIPARSE_PATH_BYTE or URIPARSE_PATH_ESCAPE. */
uint32_t uriparse_is_ambiguous(uriparse_bytes segment, size_t len, bool *ambiguous);

/* Writes to `*port` the port of a reference, or the default port of its scheme if its authority names none, or -1 if it has
 * neither. Without an authority it is -1. An empty port ("h:") counts as absent. */
uint32_t uriparse_port_or_default(uriparse_bytes text, size_t len, int32_t *port);

/* Writes to `out` the bytes of the address that is the host of a reference, as `uriparse_decode` writes: 4 of an IPv4 address, 16 of
 * an IPv6 address, the most significant first. Returns URIPARSE_NO_ADDRESS for a reference with another host or without one. A
 * name isn't looked up, and one that may be taken for an address, such as "127.1" or "%31.2.3.4", has none: see
 * `uriparse_host_flags`. */
uint32_t uriparse_host_address(uriparse_bytes text, size_t len, uriparse_buffer out, size_t room, size_t *needed);

/* The default port of the scheme of this name, or 0 if it has none that is known or if the text is no scheme. It is 443 of
 * "https". */
uint32_t uriparse_default_port(uriparse_bytes scheme, size_t len);

/* Writes to `*hash` a hash of a reference: equal references have equal hashes, on every machine, in every run and in later
 * versions. It is SipHash-1-3 with both keys 0; the key isn't secret, so it doesn't protect a hash table from texts chosen to collide. */
uint32_t uriparse_hash(uriparse_bytes text, size_t len, uint64_t *hash);

/* Writes to `out` the sort key of a reference, as `uriparse_normalize` writes a text: bytes from 0x01 to 0x7E that are equal
 * exactly if `uriparse_equal` says so of the references, and that `memcmp` orders as `uriparse_compare` orders these, a prefix
 * first. So keys can be sorted, grouped and indexed where only bytes are compared. `flags` says what the key is of (enum
 * uriparse_key_flag); compare keys of the same flags only. A key is no reference, and nothing reads it back.
 *
 * The layout is frozen, and its first byte is its version: docs/KEYS.md. Returns URIPARSE_KEY_FLAGS for other flags, whatever
 * the text. */
uint32_t uriparse_key(uint32_t flags, uriparse_bytes text, size_t len, uriparse_buffer out, size_t room,
                      size_t *needed);

/* Writes to `out` the place key of a URI, as `uriparse_normalize` writes a text: bytes from 0x01 to 0x7E that begin with the host, from
 * its last label on, so that the URIs within a domain, and those below another URI, are a range of keys. Two URIs have the same key exactly
 * if their normal forms are equal, with the ports that they use. Returns URIPARSE_NO_SCHEME for a relative reference. A key is no
 * reference, and nothing reads it back. Its layout is frozen: docs/KEYS.md. */
uint32_t uriparse_place_key(uriparse_bytes text, size_t len, uriparse_buffer out, size_t room, size_t *needed);

/* Writes to `out` what the place keys of all URIs within a domain begin with, and those of no other: `uriparse_host_is_within` says
 * which these are. The successor of the prefix is the same bytes with the last one greater by one; the keys that begin with the prefix are
 * those that aren't less than it, and less than its successor. The error of a domain is that of a host. */
uint32_t uriparse_domain_prefix(uriparse_bytes domain, size_t len, uriparse_buffer out, size_t room, size_t *needed);

/* Writes to `out` what the place keys of all URIs below a base begin with: `uriparse_is_within` says which these are. The keys of some
 * other URIs begin with it too: those for which that call is false only because readers disagree on a segment. The successor is that of
 * `uriparse_domain_prefix`. Returns URIPARSE_NO_SCHEME for a relative reference. */
uint32_t uriparse_base_prefix(uriparse_bytes base, size_t len, uriparse_buffer out, size_t room, size_t *needed);

/* Writes to `out` the text of a reference's normal form (section 6.2.2: case, percent-encoding, dot segments), and to
 * `*needed` its length. If `room` is less, returns URIPARSE_NO_ROOM, and `out` is unchanged. No zero byte follows the
 * text; what follows it in `out` is unchanged.
 *
 * In each text that this call, `uriparse_resolve` and `uriparse_relativize` write, a registered scheme is in lower case, a
 * port has no leading zeros, an empty port is omitted, an IPv6 address is as RFC 5952 writes it, and an empty path after
 * an authority is "/".
 *
 * A text doesn't keep the kind of a host. "//%31.2.3.4" has a name, which `uriparse_equal` tells from the address 1.2.3.4;
 * its normal form has the text "//1.2.3.4", which has the address. So two normal forms may have equal texts although their
 * references differ. To tell such hosts apart, keep the text that was read. Any other text that is written is read back
 * as what it was written for. */
uint32_t uriparse_normalize(uriparse_bytes text, size_t len, uriparse_buffer out, size_t room, size_t *needed);

/* Resolves a reference against a base (section 5.2.2, strict), and writes the text of the target to `out` as
 * `uriparse_normalize` does. A base without a scheme is rejected; a base's fragment is ignored. If both texts are
 * faulty, the error is the base's. Returns URIPARSE_TOO_MANY_SEGMENTS if the merged paths have more segments than a
 * path may have. */
uint32_t uriparse_resolve(uriparse_bytes base, size_t base_len, uriparse_bytes text, size_t len, uriparse_buffer out,
                          size_t room, size_t *needed);

/* Writes to `out` the text of the reference that leads from a base to a URI, as `uriparse_normalize` does: resolved against
 * the base, it yields what the URI itself yields, which is the URI again if its path has no dot segments. It is "../g#s" of
 * "http://a/b/c/d" and "http://a/b/g#s".
 *
 * It omits what both have in the same spelling, from the front: the scheme, then the authority, then directories; and the
 * query if all before it is the same. A relative path has a ".." for each directory of the base that the URI isn't in. Where
 * none leads there, as to or from a path with dot segments, the reference has the whole path, or the authority or the scheme
 * too. A base or a URI without a scheme is rejected; a base's fragment is ignored. If both texts are faulty, the
 * error is the base's. */
uint32_t uriparse_relativize(uriparse_bytes base, size_t base_len, uriparse_bytes text, size_t len, uriparse_buffer out,
                             size_t room, size_t *needed);

/* Writes to `out` the text of the origin of a URI (RFC 6454, sections 4 and 6.2), as `uriparse_normalize` does: its scheme,
 * its host and, unless that is the scheme's default port, its port. It is "https://example.com" of
 * "HTTPS://u@EXAMPLE.com:443/b?c". The URIs of one origin have one text; a host is written without IDNA.
 *
 * Returns URIPARSE_NO_ORIGIN for a reference that has no scheme, no host or an empty host ("http:///a"), or for which neither
 * the authority names a port nor the scheme has a default one ("file:///a"). By RFC 6454 such a URI has an origin of its own,
 * which no other has.
 *
 * The text doesn't keep the kind of a host, as with normal forms: "http://%31.2.3.4" has a name and "http://1.2.3.4" an address,
 * and both have the origin text "http://1.2.3.4". To tell such hosts apart, keep the text that was read. */
uint32_t uriparse_origin(uriparse_bytes text, size_t len, uriparse_buffer out, size_t room, size_t *needed);

/* Writes to `out` the string of a reference with some components changed, as `uriparse_normalize` does. All changes are
 * made at once; a component that is kept keeps its bytes. The values are strings without delimiters, as the fields of
 * `struct uriparse_parts` are, each among the bytes `values`.
 *
 * Setting a host makes an authority, and removing it removes the authority. A user name, a password or a port that is set
 * without a host is an error. Setting a password brings an empty user name, and removing the user name removes a password
 * that is kept. After an authority a path that isn't empty gets a leading '/'; an empty one stands for "/", and becomes
 * that if the authority is removed.
 *
 * The first error is returned: that of the text as it is, also in a component that changes, then URIPARSE_BAD_CHANGE,
 * URIPARSE_MISSING_HOST, then the error of the first component of the result, in the order of the fields, which is as a
 * reader of that component alone reports it. Without an authority the path may not start with "//"
 * (URIPARSE_TWO_SLASHES), and with neither a scheme nor an authority no colon precedes its first slash
 * (URIPARSE_COLON_IN_SEGMENT). */
uint32_t uriparse_change(uriparse_bytes text, size_t len, const struct uriparse_changes *changes, uriparse_bytes values,
                         size_t values_len, uriparse_buffer out, size_t room, size_t *needed);

/* Writes to `out` the string of a reference without its port, if that is the default port of its scheme
 * (`uriparse_default_port`), and else the string as it is, as `uriparse_normalize` writes. All other components keep their
 * bytes: "HTTP://H:080/%7e" becomes "HTTP://H/%7e". The reference is equivalent (section 6.2.3), and `uriparse_equal` tells it
 * from the one with the port. An empty port ("http://h:") stays. */
uint32_t uriparse_without_default_port(uriparse_bytes text, size_t len, uriparse_buffer out, size_t room,
                                       size_t *needed);

/* Writes to `out` the string of a reference as it may be shown (section 7.5): with "***" in place of its password, also of an
 * empty one, as `uriparse_normalize` writes. A reference without a password is written as it is, and all other components
 * keep their bytes, so a secret elsewhere, as in the query, is still there. What is written is a reference. To remove the user
 * information, use `uriparse_change`. */
uint32_t uriparse_mask_password(uriparse_bytes text, size_t len, uriparse_buffer out, size_t room, size_t *needed);

/* Writes to `out` the target of an HTTP request for a reference, as `uriparse_normalize` writes: the origin-form of RFC 9112,
 * section 3.2.1. It is the path, or "/" in place of an empty one, and after a '?' the query, if there is one; the fragment is left
 * out. All bytes are kept, and dot segments stay. Two slashes at its start ("//a" of "http://h//a") are part of the path, so don't
 * read a target as a reference. Returns URIPARSE_NO_TARGET for a path that neither is empty nor begins with a '/'. */
uint32_t uriparse_request_target(uriparse_bytes text, size_t len, uriparse_buffer out, size_t room, size_t *needed);

/* Writes to `*segment` where the first segment is that is left of a path from `at` on. Returns whether there is one: if `at`
 * is greater than `len` there is none, and `*segment` is unchanged. To read all segments:
 *
 *     struct uriparse_span segment;
 *     for (size_t at = 0; uriparse_next_segment(path, len, at, &segment); at = segment.end + 1) { .. }
 *
 * The segments are the pieces between the '/' (section 3.3). At 0 the path begins, and a '/' there precedes the first segment:
 * "/a/b" and "a/b" have the segments "a" and "b". Each path has a segment at least, which is empty for "" and "/"; one that ends
 * in '/' ends in an empty segment. Segments are as they stand in the text: `uriparse_decode` reads each, and dot segments are
 * not removed. Any text is cut like that. Reads this segment alone. */
bool uriparse_next_segment(uriparse_bytes path, size_t len, size_t at, struct uriparse_span *segment);

/* Writes to `*pair` where the pair is that begins at `at` in a query, and where the next one begins. Returns whether there
 * is one: if `at` is greater than `len` there is none, and `*pair` is unchanged. To read all pairs:
 *
 *     struct uriparse_pair pair;
 *     for (size_t at = 0; uriparse_next_pair(query, len, at, &pair); at = pair.next) { .. }
 *
 * The pairs are the pieces between the '&', and the first '=' of a piece ends its name. Each query has a pair at least: that
 * of an empty piece has an empty name and no value. Names and values are as they stand in the text: `uriparse_decode` reads
 * each, and leaves a "+" as it is; `uriparse_form_decode` reads those of an HTML form. Any text is cut like that. RFC 3986 knows
 * of such pairs only as a habit (section 3.4). Reads this pair alone. */
bool uriparse_next_pair(uriparse_bytes query, size_t len, size_t at, struct uriparse_pair *pair);

/* Writes to `*pair` where the first pair is whose name stands for the bytes of `name`, as `uriparse_next_pair` does, and
 * returns whether there is one. If there is none, `*pair` is unchanged. The names are compared by the bytes that they stand
 * for: "%61" is 'a', and a "+" is no space. `name` itself is plain bytes, in which "%61" is three. To find the next pair of
 * the name, call `uriparse_find_next_pair` with `pair.next`. */
bool uriparse_find_pair(uriparse_bytes query, size_t len, uriparse_bytes name, size_t name_len,
                        struct uriparse_pair *pair);

/* The same, from the place `at` of the query on: the first pair of the name that begins there or later. If `at` is greater than
 * `len` there is none. To read all pairs of a name:
 *
 *     struct uriparse_pair pair;
 *     for (size_t at = 0; uriparse_find_next_pair(query, len, at, name, name_len, &pair); at = pair.next) { .. } */
bool uriparse_find_next_pair(uriparse_bytes query, size_t len, size_t at, uriparse_bytes name, size_t name_len,
                             struct uriparse_pair *pair);

/* Writes to `out` the query with one pair of this name, as `uriparse_decode` writes: the pair stands in place of the first one
 * whose name stands for the same bytes, and the others of that name are left out. If there is none, the pair follows all
 * others, in place of an empty piece at the end: "" becomes "a=1", and "b&" becomes "b&a=1". Each byte of the name and the
 * value is encoded as `uriparse_encode` does for URIPARSE_PAIR; all other pairs keep their bytes. Without `has_value` the pair
 * is the name alone, without '=', and the bytes of `value` don't count. Returns URIPARSE_QUERY_BYTE or URIPARSE_QUERY_ESCAPE
 * for a text that is no query. */
uint32_t uriparse_set_pair(uriparse_bytes query, size_t len, uriparse_bytes name, size_t name_len, uriparse_bytes value,
                           size_t value_len, bool has_value, uriparse_buffer out, size_t room, size_t *needed);

/* The same, but all pairs of the query stay, and the new one follows them, in place of an empty piece at the end. */
uint32_t uriparse_append_pair(uriparse_bytes query, size_t len, uriparse_bytes name, size_t name_len,
                              uriparse_bytes value, size_t value_len, bool has_value, uriparse_buffer out, size_t room,
                              size_t *needed);

/* Writes to `out` the query without the pairs of some names, as `uriparse_decode` writes. `names` is written like a query, and
 * its names are meant: "gclid&utm_*". A name that ends in '*' stands for each name that begins with what precedes the '*'
 * ("%2A" is a '*' of the name itself). The names are compared by the bytes that they stand for: "utm_*" leaves out
 * "%75tm_id=1". The other pairs stay in order, byte for byte. If no pair is left, returns URIPARSE_NO_PAIRS, with `*needed` 0
 * and `out` unchanged: remove the query then (an empty query is one pair with an empty name). Returns URIPARSE_QUERY_BYTE or
 * URIPARSE_QUERY_ESCAPE for a text that is no query, and then URIPARSE_BAD_NAMES if `names` is none. Takes time in proportion to
 * the length of the query times the number of names, plus the length of the names for each 64 pairs of the query. */
uint32_t uriparse_drop_pairs(uriparse_bytes query, size_t len, uriparse_bytes names, size_t names_len,
                             uriparse_buffer out, size_t room, size_t *needed);

/* Writes to `out` the bytes that the text of a component stands for, and to `*needed` their number: each escape as its
 * byte, each other byte as it is, so a "+" stays. If `room` is less, returns URIPARSE_NO_ROOM, and `out` is
 * unchanged. The text is that of a query, as the texts of user names, passwords, names of hosts, paths and fragments are
 * too; for another text returns URIPARSE_QUERY_BYTE or URIPARSE_QUERY_ESCAPE.
 *
 * Cut a query or a path at its delimiters before you decode its pieces, a query by `uriparse_next_pair`: "%26" and "&"
 * become the same byte. */
uint32_t uriparse_decode(uriparse_bytes text, size_t len, uriparse_buffer out, size_t room, size_t *needed);

/* The same of a name or a value of an HTML form, in which a "+" is a space. An escaped '+' ("%2B") is a '+'. */
uint32_t uriparse_form_decode(uriparse_bytes text, size_t len, uriparse_buffer out, size_t room, size_t *needed);

/* Writes to `out` any bytes as the text of a component, one of uriparse_component, as `uriparse_decode` writes: a byte
 * that the component may have stays, and each other becomes an escape with upper-case digits, '%' too.
 * `uriparse_decode` returns the bytes again. In a query '&', '=', '+' and '*' stay; as URIPARSE_PAIR they become escapes too,
 * so a name or a value can be made of any bytes: "a&b=c d+" becomes "a%26b%3Dc%20d%2B", and "a*" becomes "a%2A", which
 * `uriparse_drop_pairs` takes for that name alone. Returns URIPARSE_NO_COMPONENT for a host, a port or another number. */
uint32_t uriparse_encode(uint32_t component, uriparse_bytes bytes, size_t len, uriparse_buffer out, size_t room,
                         size_t *needed);

/* Makes a reference of any text and writes it to `out` as `uriparse_decode` does. Each byte that RFC 3986 doesn't allow in its
 * place is percent-encoded, except the delimiters of an authority; all else stays. So the text of a reference stays, and
 * a second call changes nothing. Bytes that aren't ASCII are percent-encoded, also in the name of a host, as RFC 3987,
 * section 3.1, does with IRIs in UTF-8. A '%' without two hexadecimal digits becomes "%25". The result may still be
 * rejected: for its authority, which keeps its delimiters, for too many segments, or by the colon rule. */
uint32_t uriparse_escape(uriparse_bytes text, size_t len, uriparse_buffer out, size_t room, size_t *needed);

/* Writes to `out` the reference in a text that was cut out of a page or a letter (RFC 3986, appendix C), as `uriparse_decode` writes:
 * the text without the white space at its ends and, if what is left begins with '<' and ends with '>', without these two, the
 * white space at the ends of what they hold, and a prefix "URL:" in any case with the white space after it. White space is a
 * space, a tab, a line feed, a form feed or a carriage return. Accepts any text; what is left may be no reference. */
uint32_t uriparse_trim_link(uriparse_bytes text, size_t len, uriparse_buffer out, size_t room, size_t *needed);

/* Reports why another reader, such as a browser, may read another URI in the same string. */
uint32_t uriparse_disagreement(uriparse_bytes text, size_t len, uint32_t *reasons);

/* What a code means, in English. */
const char *uriparse_error_text(uint32_t code);

/* The component that a code is about, one of uriparse_component, or 0 if it is about none. It is that of
 * URIPARSE_COMPONENT_MASK, and of the codes below 0x10 the scheme that is missing, the path, the host or the query. */
uint32_t uriparse_error_component(uint32_t code);

/* The version of the library that is linked. URIPARSE_VERSION is that of the header. */
const char *uriparse_version(void);

#ifdef __cplusplus
} // extern "C"
#endif

#endif
