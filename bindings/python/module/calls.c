/* The calls of one text and of two. Those of one shape go through one function, each with a row that says what is its own. */
#include "module.h"

#include <string.h>

/* The place of an error in a text. */
typedef size_t place_call(const uint8_t *bytes, size_t len);

/* A text to a text. */
struct text_to_text {
  const char *name;
  const char *argument;
  write_call *call;
  place_call *place;
  int taken;
  uint32_t none;      /* the code for which the answer is None, or 0 */
  uint32_t surrogate; /* the code of the error of a surrogate in data, or 0 for what isn't data */
};

struct one_text {
  const struct text_to_text *row;
  const struct text *text;
};

static uint32_t write_one(const void *job, uint8_t *out, size_t room, size_t *needed) {
  const struct one_text *one = (const struct one_text *)job;
  return one->row->call(one->text->bytes, one->text->len, out, room, needed);
}

/* A length that most outputs of some bytes don't exceed. */
static size_t guess_of(size_t len) { return 2 * len + 64; }

static PyObject *text_to_text(PyObject *module, const struct text_to_text *row, PyObject *const *args, Py_ssize_t count, PyObject *kwnames) {
  const struct state *state = state_of(module);
  struct text text;
  struct output output;
  PyObject *found = NULL;
  PyObject *source;
  uint32_t code;
  if (!take_arguments(row->name, &row->argument, 1, args, count, kwnames, &source)) return NULL;
  if (!(row->surrogate ? text_take_data(state, &text, source, PyUnicode_Check(source), row->surrogate, row->argument)
                       : text_take(state, &text, source, row->taken)))
    return NULL;
  struct one_text job = {row, &text};
  if (output_write(&output, write_one, &job, guess_of(text.len), &code)) {
    if (!code) {
      found = output_object(&output, text.is_str);
    } else {
      output_release(&output);
      found = code == row->none ? Py_NewRef(Py_None) : reject(state, code, &text, row->place(text.bytes, text.len), row->argument);
    }
  }
  text_release(&text);
  return found;
}

/* What two texts are called, and which of them is the base, whose errors have URIPARSE_IN_BASE. */
struct two_arguments {
  const char *name;
  const char *arguments[2];
  int base; /* 0 or 1, or -1 for none */
};

/* Raises the error of the text that is wrong: of the base by its code, else of the other one, or of the first that is wrong by
 * itself. */
static PyObject *reject_of_two(const struct state *state, const struct two_arguments *of, uint32_t code, const struct text texts[2]) {
  size_t place = 0;
  int at = of->base;
  if (code & URIPARSE_IN_BASE) return reject_fault(state, code, &texts[at], of->arguments[at]);
  at = at >= 0 ? 1 - at : uriparse_first_fault(texts[0].bytes, texts[0].len, &place) == URIPARSE_OK;
  return reject_fault(state, code, &texts[at], of->arguments[at]);
}

/* Two texts to a text. */
struct texts_to_text {
  struct two_arguments of;
  write_two_call *call;
};

struct two_texts {
  const struct texts_to_text *row;
  const struct text *texts;
};

static uint32_t write_two(const void *job, uint8_t *out, size_t room, size_t *needed) {
  const struct two_texts *two = (const struct two_texts *)job;
  return two->row->call(two->texts[0].bytes, two->texts[0].len, two->texts[1].bytes, two->texts[1].len, out, room, needed);
}

static bool take_two(const struct state *state, const struct two_arguments *of, PyObject *const *args, Py_ssize_t count, PyObject *kwnames,
                     int taken, struct text texts[2]) {
  PyObject *sources[2];
  return take_arguments(of->name, of->arguments, 2, args, count, kwnames, sources) && text_take_two(state, texts, sources, OR_URI, taken);
}

static PyObject *texts_to_text(PyObject *module, const struct texts_to_text *row, PyObject *const *args, Py_ssize_t count, PyObject *kwnames) {
  const struct state *state = state_of(module);
  struct text texts[2];
  struct output output;
  PyObject *found = NULL;
  uint32_t code;
  if (!take_two(state, &row->of, args, count, kwnames, OR_URI, texts)) return NULL;
  struct two_texts job = {row, texts};
  if (output_write(&output, write_two, &job, guess_of(texts[0].len + texts[1].len), &code)) {
    if (!code) {
      found = output_object(&output, texts[0].is_str);
    } else {
      output_release(&output);
      reject_of_two(state, &row->of, code, texts);
    }
  }
  text_release(&texts[0]);
  text_release(&texts[1]);
  return found;
}

/* Two texts to a bool. */
struct texts_to_bool {
  struct two_arguments of;
  test_two_call *call;
};

static PyObject *texts_to_bool(PyObject *module, const struct texts_to_bool *row, PyObject *const *args, Py_ssize_t count, PyObject *kwnames) {
  const struct state *state = state_of(module);
  struct text texts[2];
  bool answer = false;
  if (!take_two(state, &row->of, args, count, kwnames, OR_URI, texts)) return NULL;
  uint32_t code = row->call(texts[0].bytes, texts[0].len, texts[1].bytes, texts[1].len, &answer);
  PyObject *found = code ? reject_of_two(state, &row->of, code, texts) : PyBool_FromLong(answer);
  text_release(&texts[0]);
  text_release(&texts[1]);
  return found;
}

/* The method of a row, with the name of its C function and what the row says. */
#define CALL(shape, name, ...)                                                                                                             \
  static const struct shape name##_row = {__VA_ARGS__};                                                                                    \
  static PyObject *name(PyObject *module, PyObject *const *args, Py_ssize_t count, PyObject *kwnames) {                                    \
    return shape(module, &name##_row, args, count, kwnames);                                                                               \
  }
CALL(text_to_text, normalize, "normalize", "text", uriparse_normalize, text_fault, OR_URI, 0, 0)
CALL(text_to_text, key, "key", "text", exact_key, text_fault, OR_URI, 0, 0)
CALL(text_to_text, normal_key, "normal_key", "text", normal_form_key, text_fault, OR_URI, 0, 0)
CALL(text_to_text, page_key, "page_key", "text", page_form_key, text_fault, OR_URI, 0, 0)
CALL(text_to_text, place_key, "place_key", "text", uriparse_place_key, text_fault, OR_URI, 0, 0)
CALL(text_to_text, domain_prefix, "domain_prefix", "domain", uriparse_domain_prefix, text_host_fault, PLAIN, 0, 0)
CALL(text_to_text, base_prefix, "base_prefix", "base", uriparse_base_prefix, text_fault, OR_URI, 0, 0)
CALL(text_to_text, origin, "origin", "text", uriparse_origin, text_fault, OR_URI, URIPARSE_NO_ORIGIN, 0)
CALL(text_to_text, without_default_port, "without_default_port", "text", uriparse_without_default_port, text_fault, OR_URI, 0, 0)
CALL(text_to_text, mask_password, "mask_password", "text", uriparse_mask_password, text_fault, OR_URI, 0, 0)
CALL(text_to_text, request_target, "request_target", "text", uriparse_request_target, text_fault, OR_URI, URIPARSE_NO_TARGET, 0)
CALL(text_to_text, escape, "escape", "text", uriparse_escape, text_fault, OR_URI | STRICT, 0, 0)
CALL(text_to_text, trim_link, "trim_link", "text", uriparse_trim_link, text_fault, PLAIN, 0, URIPARSE_PATH_BYTE)
CALL(text_to_text, decode, "decode", "text", uriparse_decode, text_query_fault, PLAIN, 0, 0)
CALL(text_to_text, form_decode, "form_decode", "text", uriparse_form_decode, text_query_fault, PLAIN, 0, 0)
CALL(texts_to_text, resolve, {"resolve", {"base", "reference"}, 0}, uriparse_resolve)
CALL(texts_to_text, relativize, {"relativize", {"base", "uri"}, 0}, uriparse_relativize)
CALL(texts_to_bool, equal, {"equal", {"left", "right"}, -1}, uriparse_equal)
CALL(texts_to_bool, same_origin, {"same_origin", {"left", "right"}, -1}, uriparse_same_origin)
CALL(texts_to_bool, is_within, {"is_within", {"uri", "base"}, 1}, uriparse_is_within)

/* The place of the error of a domain, which is no reference, is that of a host. */
static size_t domain_fault(const uint8_t *bytes, size_t len) { return text_component_fault(URIPARSE_HOST, bytes, len); }

/* The place of the error of the first domain that is no host, of those that spaces separate. */
static size_t domains_fault(const uint8_t *bytes, size_t len) {
  size_t at = 0;
  while (at <= len) {
    const uint8_t *space = memchr(bytes + at, ' ', len - at);
    size_t end = space ? (size_t)(space - bytes) : len;
    bool answer;
    if (uriparse_host_is_within("", 0, bytes + at, end - at, &answer)) return at + domain_fault(bytes + at, end - at);
    at = end + 1;
  }
  return 0;
}

/* A text and a domain, or several, to a bool. */
struct domain_to_bool {
  struct two_arguments of;
  test_two_call *call;
  place_call *place;
};

static PyObject *domain_to_bool(PyObject *module, const struct domain_to_bool *row, PyObject *const *args, Py_ssize_t count, PyObject *kwnames) {
  const struct state *state = state_of(module);
  struct text texts[2];
  bool answer = false;
  PyObject *found;
  if (!take_two(state, &row->of, args, count, kwnames, PLAIN, texts)) return NULL;
  uint32_t code = row->call(texts[0].bytes, texts[0].len, texts[1].bytes, texts[1].len, &answer);
  if (code & URIPARSE_IN_BASE) {
    found = reject(state, code, &texts[1], row->place(texts[1].bytes, texts[1].len), row->of.arguments[1]);
  } else {
    found = code ? reject_of_two(state, &row->of, code, texts) : PyBool_FromLong(answer);
  }
  text_release(&texts[0]);
  text_release(&texts[1]);
  return found;
}
CALL(domain_to_bool, host_is_within, {"host_is_within", {"text", "domain"}, 1}, uriparse_host_is_within, domain_fault)
CALL(domain_to_bool, host_is_within_any, {"host_is_within_any", {"text", "domains"}, 1}, uriparse_host_is_within_any, domains_fault)

static PyObject *compare(PyObject *module, PyObject *const *args, Py_ssize_t count, PyObject *kwnames) {
  static const struct two_arguments of = {"compare", {"left", "right"}, -1};
  const struct state *state = state_of(module);
  struct text texts[2];
  int32_t order = 0;
  if (!take_two(state, &of, args, count, kwnames, OR_URI, texts)) return NULL;
  uint32_t code = uriparse_compare(texts[0].bytes, texts[0].len, texts[1].bytes, texts[1].len, &order);
  PyObject *found = code ? reject_of_two(state, &of, code, texts) : PyLong_FromLong(order);
  text_release(&texts[0]);
  text_release(&texts[1]);
  return found;
}

/* A text to what isn't a text: the call answers by an object, or sets the code. */
typedef PyObject *answer_call(const struct state *state, const struct text *text, uint32_t *code);

static PyObject *text_to_object(PyObject *module, const char *const name[2], int taken, place_call *place, answer_call *call,
                                PyObject *const *args, Py_ssize_t count, PyObject *kwnames) {
  const struct state *state = state_of(module);
  struct text text;
  PyObject *source;
  uint32_t code = 0;
  if (!take_arguments(name[0], &name[1], 1, args, count, kwnames, &source) || !text_take(state, &text, source, taken)) return NULL;
  PyObject *found = call(state, &text, &code);
  if (code) reject(state, code, &text, place(text.bytes, text.len), name[1]);
  text_release(&text);
  return found;
}

static PyObject *answer_parse(const struct state *state, const struct text *text, uint32_t *code) {
  struct uriparse_parts parts;
  *code = uriparse_parse(text->bytes, text->len, &parts);
  return *code ? NULL : reference_new(state, (PyTypeObject *)state->components, text, &parts);
}

/* The numbers of `struct uriparse_parts`, one after another. */
static PyObject *answer_spans(const struct state *state, const struct text *text, uint32_t *code) {
  struct uriparse_parts parts;
  (void)state;
  *code = uriparse_parse(text->bytes, text->len, &parts);
  if (*code) return NULL;
  const struct uriparse_span *spans[9] = {&parts.scheme, &parts.authority, &parts.username, &parts.password, &parts.host,
                                          &parts.port,   &parts.path,      &parts.query,    &parts.fragment};
  PyObject *found = PyTuple_New(11);
  for (Py_ssize_t i = 0; found && i < 11; i++) {
    PyObject *one = i < 9 ? Py_BuildValue("nnN", (Py_ssize_t)spans[i]->begin, (Py_ssize_t)spans[i]->end, PyBool_FromLong(spans[i]->present))
                          : PyLong_FromUnsignedLong(i == 9 ? parts.host_kind : parts.port_number);
    if (!one || PyTuple_SetItem(found, i, one)) Py_CLEAR(found);
  }
  return found;
}

static PyObject *answer_first_fault(const struct state *state, const struct text *text, uint32_t *code) {
  size_t place = 0;
  uint32_t fault = uriparse_first_fault(text->bytes, text->len, &place);
  (void)state;
  (void)code;
  return fault ? Py_BuildValue("In", (unsigned int)fault, (Py_ssize_t)place) : Py_NewRef(Py_None);
}

static PyObject *answer_is_uri(const struct state *state, const struct text *text, uint32_t *code) {
  (void)state;
  (void)code;
  return PyBool_FromLong(uriparse_is_uri(text->bytes, text->len));
}

static PyObject *answer_hash(const struct state *state, const struct text *text, uint32_t *code) {
  uint64_t hash = 0;
  (void)state;
  *code = uriparse_hash(text->bytes, text->len, &hash);
  return *code ? NULL : PyLong_FromUnsignedLongLong(hash);
}

static PyObject *answer_host_flags(const struct state *state, const struct text *text, uint32_t *code) {
  uint32_t flags = 0;
  (void)state;
  *code = uriparse_host_flags(text->bytes, text->len, &flags);
  return *code ? NULL : PyLong_FromUnsignedLong(flags);
}

static PyObject *answer_disagreement(const struct state *state, const struct text *text, uint32_t *code) {
  uint32_t reasons = 0;
  (void)state;
  *code = uriparse_disagreement(text->bytes, text->len, &reasons);
  return *code ? NULL : PyLong_FromUnsignedLong(reasons);
}

static PyObject *answer_is_normalized(const struct state *state, const struct text *text, uint32_t *code) {
  bool answer = false;
  (void)state;
  *code = uriparse_is_normalized(text->bytes, text->len, &answer);
  return *code ? NULL : PyBool_FromLong(answer);
}

static PyObject *answer_is_public(const struct state *state, const struct text *text, uint32_t *code) {
  bool answer = false;
  (void)state;
  *code = uriparse_is_public(text->bytes, text->len, &answer);
  return *code ? NULL : PyBool_FromLong(answer);
}

static PyObject *answer_is_ambiguous(const struct state *state, const struct text *text, uint32_t *code) {
  bool answer = false;
  (void)state;
  *code = uriparse_is_ambiguous(text->bytes, text->len, &answer);
  return *code ? NULL : PyBool_FromLong(answer);
}

static PyObject *answer_port_or_default(const struct state *state, const struct text *text, uint32_t *code) {
  int32_t port = -1;
  (void)state;
  *code = uriparse_port_or_default(text->bytes, text->len, &port);
  if (*code) return NULL;
  return port < 0 ? Py_NewRef(Py_None) : PyLong_FromLong(port);
}

/* The bytes of an address, also of a str. */
static PyObject *answer_host_address(const struct state *state, const struct text *text, uint32_t *code) {
  uint8_t out[16];
  size_t len = 0;
  (void)state;
  *code = uriparse_host_address(text->bytes, text->len, out, sizeof out, &len);
  if (*code != URIPARSE_NO_ADDRESS) return *code ? NULL : object_of(out, len, false);
  *code = URIPARSE_OK;
  return Py_NewRef(Py_None);
}

static PyObject *answer_default_port(const struct state *state, const struct text *text, uint32_t *code) {
  uint32_t port = uriparse_default_port(text->bytes, text->len);
  (void)state;
  (void)code;
  return port ? PyLong_FromUnsignedLong(port) : Py_NewRef(Py_None);
}

#define ANSWER(name, argument, taken, place, call)                                                                                         \
  static PyObject *name(PyObject *module, PyObject *const *args, Py_ssize_t count, PyObject *kwnames) {                                    \
    static const char *const names[2] = {#name, argument};                                                                                 \
    return text_to_object(module, names, taken, place, call, args, count, kwnames);                                                        \
  }
ANSWER(parse, "text", OR_URI, text_fault, answer_parse)
ANSWER(spans, "text", OR_URI, text_fault, answer_spans)
ANSWER(first_fault, "text", OR_URI, text_fault, answer_first_fault)
ANSWER(is_uri, "text", OR_URI, text_fault, answer_is_uri)
ANSWER(is_normalized, "text", OR_URI, text_fault, answer_is_normalized)
ANSWER(is_public, "text", OR_URI, text_fault, answer_is_public)
ANSWER(hash_of, "text", OR_URI, text_fault, answer_hash)
ANSWER(host_flags, "text", OR_URI, text_fault, answer_host_flags)
ANSWER(disagreement, "text", OR_URI, text_fault, answer_disagreement)
ANSWER(host_address, "text", OR_URI, text_fault, answer_host_address)
ANSWER(port_or_default, "text", OR_URI, text_fault, answer_port_or_default)
ANSWER(default_port, "scheme", PLAIN, text_fault, answer_default_port)
ANSWER(is_ambiguous, "segment", PLAIN, text_segment_fault, answer_is_ambiguous)

PyMethodDef call_methods[] = {
    /* methods.tsv: methods */
    METHOD("parse", parse,
           "parse($module, /, text)\n--\n\n"
           "The components of a reference, the kind of its host, and the number of its port, if it has digits."),
    METHOD("spans", spans,
           "spans($module, /, text)\n--\n\n"
           "Where the components are."),
    METHOD("first_fault", first_fault,
           "first_fault($module, /, text)\n--\n\n"
           "The code and the place of the first fault, or None."),
    METHOD("is_uri", is_uri,
           "is_uri($module, /, text)\n--\n\n"
           "Whether it is a reference that has a scheme."),
    METHOD("is_normalized", is_normalized,
           "is_normalized($module, /, text)\n--\n\n"
           "Whether a reference is its own normal form, as `normalize` writes it."),
    METHOD("is_public", is_public,
           "is_public($module, /, text)\n--\n\n"
           "Whether the host of a reference leads anywhere on the Internet, as far as its text says: a global address, also if an\n"
           "IPv6 address embeds it, or a name that no reader takes for an address or decodes. False without a host. DNS may answer\n"
           "for a name with any address: check that of the connection too."),
    METHOD("hash_of", hash_of,
           "hash_of($module, /, text)\n--\n\n"
           "A hash of a reference: equal references have equal ones."),
    METHOD("host_flags", host_flags,
           "host_flags($module, /, text)\n--\n\n"
           "What the host of a reference may be taken for."),
    METHOD("disagreement", disagreement,
           "disagreement($module, /, text)\n--\n\n"
           "Why another reader may read another URI in the same string."),
    METHOD("host_address", host_address,
           "host_address($module, /, text)\n--\n\n"
           "The bytes of the IPv4 or IPv6 address that is the host, or None."),
    METHOD("port_or_default", port_or_default,
           "port_or_default($module, /, text)\n--\n\n"
           "The port of a reference, or the default port of its scheme, or None if it has neither, also without an authority."),
    METHOD("is_ambiguous", is_ambiguous,
           "is_ambiguous($module, /, segment)\n--\n\n"
           "Whether readers disagree on what a segment of a path names, as on `..;a` and `a%2fb`. The segment has no `/`."),
    METHOD("default_port", default_port,
           "default_port($module, /, scheme)\n--\n\n"
           "The default port of a scheme, or None if it has none."),
    METHOD("normalize", normalize,
           "normalize($module, /, text)\n--\n\n"
           "The normal form."),
    METHOD("key", key,
           "key($module, /, text)\n--\n\n"
           "The sort key of a reference: characters from U+0001 to U+007E that are equal exactly if the references are, and ordered\n"
           "as `compare` orders these. Nothing reads a key back."),
    METHOD("normal_key", normal_key,
           "normal_key($module, /, text)\n--\n\n"
           "The sort key of the normal form. The kind of the host stays, which the normal form's string loses."),
    METHOD("page_key", page_key,
           "page_key($module, /, text)\n--\n\n"
           "The sort key of the page that a reference leads to: of its normal form without a default port and a fragment."),
    METHOD("place_key", place_key,
           "place_key($module, /, text)\n--\n\n"
           "The place key of a URI, which begins with the host from its last label on: characters from U+0001 to U+007E. The keys of\n"
           "the URIs within a domain, and of those below another URI, are a range."),
    METHOD("domain_prefix", domain_prefix,
           "domain_prefix($module, /, domain)\n--\n\n"
           "What the place keys of all URIs within a domain begin with, and those of no other, as `host_is_within` says."),
    METHOD("base_prefix", base_prefix,
           "base_prefix($module, /, base)\n--\n\n"
           "What the place keys of all URIs below a base begin with. Ask `is_within` too of what it finds: that is False where\n"
           "readers disagree on a segment."),
    METHOD("origin", origin,
           "origin($module, /, text)\n--\n\n"
           "The origin of a URI: its scheme, its host and, unless that is the default one, its port. It is None for a URI without a\n"
           "host, or with an empty one. A name such as `%31.2.3.4` and the address `1.2.3.4` have one origin."),
    METHOD("without_default_port", without_default_port,
           "without_default_port($module, /, text)\n--\n\n"
           "The reference without its port, if that is the default port of its scheme. All else stays, byte for byte."),
    METHOD("mask_password", mask_password,
           "mask_password($module, /, text)\n--\n\n"
           "The reference as it may be shown, with `***` in place of its password, if it has one. All else stays, byte for byte,\n"
           "also a secret in the query."),
    METHOD("request_target", request_target,
           "request_target($module, /, text)\n--\n\n"
           "The target of an HTTP request for a reference (RFC 9112, section 3.2.1): its path, or `/` in place of an empty one, and\n"
           "its query. None for a path that begins without a `/`."),
    METHOD("escape", escape,
           "escape($module, /, text)\n--\n\n"
           "A reference, made of any text, with escapes for what may not stand where it does."),
    METHOD("trim_link", trim_link,
           "trim_link($module, /, text)\n--\n\n"
           "The reference in a text that was cut out of a page: without the white space around it, a pair of angle brackets and, in\n"
           "these, `URL:`. Any text is accepted."),
    METHOD("decode", decode,
           "decode($module, /, text)\n--\n\n"
           "The bytes that a component stands for. Cut it at its delimiters first. Of a str they are decoded as UTF-8: those that\n"
           "aren't UTF-8 raise UnicodeDecodeError."),
    METHOD("form_decode", form_decode,
           "form_decode($module, /, text)\n--\n\n"
           "The bytes that a name or a value of an HTML form stands for: as `decode` reads it, and a `+` is a space."),
    METHOD("resolve", resolve,
           "resolve($module, /, base, reference)\n--\n\n"
           "The target of a reference against a base."),
    METHOD("relativize", relativize,
           "relativize($module, /, base, uri)\n--\n\n"
           "The reference that leads from a base to a URI: resolved against the base, it yields what the URI yields."),
    METHOD("equal", equal,
           "equal($module, /, left, right)\n--\n\n"
           "Whether two references are equal."),
    METHOD("same_origin", same_origin,
           "same_origin($module, /, left, right)\n--\n\n"
           "Whether two references both have an origin and it is one. A name such as `%31.2.3.4` and the address `1.2.3.4` are\n"
           "different hosts."),
    METHOD("compare", compare,
           "compare($module, /, left, right)\n--\n\n"
           "-1, 0 or 1: whether the left reference is less than the right one, equal to it or greater. Components are compared in\n"
           "order, each in the spelling by which `equal` compares; an absent one is less than any other."),
    METHOD("is_within", is_within,
           "is_within($module, /, uri, base)\n--\n\n"
           "Whether a URI is below another one: at the same scheme, user information, host and port, with a path that begins,\n"
           "without dot segments, with the directory of the base's path. The query and the fragment don't count. It is false if a\n"
           "segment that servers read in different ways, such as `..;` and `a%2fb`, comes after the directory, or if a `..` removes\n"
           "one, or an empty one. Hand on the normal form, not the input: not every server takes `%2e%2e` for `..`."),
    METHOD("host_is_within", host_is_within,
           "host_is_within($module, /, text, domain)\n--\n\n"
           "Whether the host of a reference is the domain or a name within it, label by label. False without a host. A name with an\n"
           "escape in canonical spelling, an address, and a name that hides one, are within nothing but their equals."),
    METHOD("host_is_within_any", host_is_within_any,
           "host_is_within_any($module, /, text, domains)\n--\n\n"
           "Whether the host of a reference is within one of several domains, which spaces separate, as `host_is_within` says of\n"
           "one. Within an empty string is no host. Each domain is read: the first that is no host raises its error, with its place\n"
           "among all of them."),
    /* methods.tsv: end */
    {NULL, NULL, 0, NULL}};
