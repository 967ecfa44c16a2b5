/* The calls that change the components of a reference and the pairs of its query, and `encode`. */
#include "module.h"

#include <string.h>

/* A reference with other components. */
struct change {
  const struct text *text;
  const struct uriparse_changes *changes;
  const uint8_t *values;
  size_t len;
};

static uint32_t write_change(const void *job, uint8_t *out, size_t room, size_t *needed) {
  const struct change *it = (const struct change *)job;
  return uriparse_change(it->text->bytes, it->text->len, it->changes, it->values, it->len, out, room, needed);
}

/* The length of the text and the values, with all delimiters and a slash. */
static size_t guess_of(const struct change *change) { return change->text->len + change->len + 9; }

/* The components that can be changed, in the order of the struct. */
enum { COMPONENTS = 8 };
static const char *const component_names[1 + COMPONENTS] = {"text", "scheme", "username", "password", "host", "port", "path", "query", "fragment"};

static struct uriparse_value *value_at(struct uriparse_changes *changes, size_t at) {
  struct uriparse_value *values[COMPONENTS] = {&changes->scheme, &changes->username, &changes->password, &changes->host,
                                               &changes->port,   &changes->path,     &changes->query,    &changes->fragment};
  return values[at];
}

/* The values that a call sets, which are taken, with the places that they get in one block. */
struct values {
  struct uriparse_changes changes;
  struct text texts[COMPONENTS];
  bool is_taken[COMPONENTS];
  size_t len;
};

static void values_release(struct values *values) {
  for (size_t i = 0; i < COMPONENTS; i++) {
    if (values->is_taken[i]) text_release(&values->texts[i]);
  }
}

static bool values_take(const struct state *state, struct values *values, bool is_str, PyObject *const *sources) {
  memset(&values->changes, 0, sizeof values->changes);
  memset(values->is_taken, 0, sizeof values->is_taken);
  values->len = 0;
  for (size_t i = 0; i < COMPONENTS; i++) {
    struct uriparse_value *value = value_at(&values->changes, i);
    if (sources[i] == Py_None) value->action = URIPARSE_REMOVE;
    if (sources[i] == Py_None || sources[i] == state->keep) continue;
    if (!text_take_value(state, &values->texts[i], sources[i], is_str, 0, NULL)) {
      values_release(values);
      return false;
    }
    values->is_taken[i] = true;
    value->action = URIPARSE_SET;
    value->begin = values->len;
    value->end = values->len += values->texts[i].len;
  }
  return true;
}

/* The values one after another, in a block of memory. */
static uint8_t *values_joined(const struct values *values) {
  uint8_t *joined = (uint8_t *)PyMem_Malloc(values->len);
  size_t at = 0;
  for (size_t i = 0; joined && i < COMPONENTS; i++) {
    if (!values->is_taken[i]) continue;
    memcpy(joined + at, values->texts[i].bytes, values->texts[i].len);
    at += values->texts[i].len;
  }
  if (!joined) PyErr_NoMemory();
  return joined;
}

/* What the components are called in codes, in the order of the struct. */
static const uint8_t digits[COMPONENTS] = {URIPARSE_SCHEME, URIPARSE_USERNAME, URIPARSE_PASSWORD, URIPARSE_HOST,
                                           URIPARSE_PORT,   URIPARSE_SEGMENT,  URIPARSE_QUERY,    URIPARSE_FRAGMENT};

/* Whether it is an error of a path among other components, which has no place in the path. */
static bool is_of_path(uint32_t code) { return code == URIPARSE_COLON_IN_SEGMENT || code == URIPARSE_TWO_SLASHES; }

/* The component whose value has an error of this code, or COMPONENTS for none. */
static size_t component_of(uint32_t code, const struct values *values) {
  bool is_segment = is_of_path(code) || code == URIPARSE_TOO_MANY_SEGMENTS;
  uint32_t digit = is_segment ? (uint32_t)URIPARSE_SEGMENT : code & URIPARSE_COMPONENT_MASK;
  size_t at = 0;
  while (at < COMPONENTS && !(digits[at] == digit && values->is_taken[at])) at++;
  return at;
}

/* The first byte that no scheme has; the other errors of a scheme are at its start. */
static size_t scheme_fault(uint32_t code, const struct text *text) {
  static const char allowed[] = "abcdefghijklmnopqrstuvwxyzABCDEFGHIJKLMNOPQRSTUVWXYZ0123456789+-.";
  size_t at = 0;
  while (code == URIPARSE_SCHEME_BYTE && at < text->len && text->bytes[at] && strchr(allowed, text->bytes[at])) at++;
  return at;
}

/* The place of the error in a value. */
static size_t value_fault(uint32_t code, size_t at, const struct text *text) {
  if (is_of_path(code)) return 0;
  return at ? text_component_fault((enum uriparse_component)digits[at], text->bytes, text->len) : scheme_fault(code, text);
}

/* The error of the text if it is wrong by itself, else of the value that is, else of the change. */
static void reject_change(const struct state *state, uint32_t code, const struct text *text, const struct values *values) {
  size_t place = 0;
  size_t at = component_of(code, values);
  if (uriparse_first_fault(text->bytes, text->len, &place)) {
    reject(state, code, text, place, "text");
  } else if (at < COMPONENTS) {
    reject(state, code, &values->texts[at], value_fault(code, at, &values->texts[at]), component_names[1 + at]);
  } else {
    reject(state, code, text, 0, "change");
  }
}

static PyObject *changed(const struct state *state, const struct text *text, const struct values *values) {
  struct output output;
  PyObject *found = NULL;
  uint32_t code;
  uint8_t *joined = values_joined(values);
  struct change job = {text, &values->changes, joined, values->len};
  if (joined && output_write(&output, write_change, &job, guess_of(&job), &code)) {
    if (!code) {
      found = output_object(&output, text->is_str);
    } else {
      output_release(&output);
      reject_change(state, code, text, values);
    }
  }
  PyMem_Free(joined);
  return found;
}

/* The text, and a value for each component: None removes it. */
static PyObject *replace(PyObject *module, PyObject *const *args, Py_ssize_t count, PyObject *kwnames) {
  const struct state *state = state_of(module);
  PyObject *sources[1 + COMPONENTS];
  struct text text;
  struct values values;
  PyObject *found = NULL;
  if (!take_arguments("replace", component_names, 1 + COMPONENTS, args, count, kwnames, sources)) return NULL;
  if (!text_take(state, &text, sources[0], OR_URI)) return NULL;
  if (values_take(state, &values, text.is_str, sources + 1)) {
    found = changed(state, &text, &values);
    values_release(&values);
  }
  text_release(&text);
  return found;
}

/* The query of a reference, which is empty if it has none. */
struct query {
  struct text uri;
  const uint8_t *bytes;
  size_t len;
  bool is_present;
};

/* Takes a reference. If it is rejected, an exception is set, and there is nothing to release. */
static bool query_take(const struct state *state, struct query *query, PyObject *source) {
  struct uriparse_parts parts;
  if (!text_take(state, &query->uri, source, OR_URI)) return false;
  uint32_t code = uriparse_parse(query->uri.bytes, query->uri.len, &parts);
  if (code) {
    reject_fault(state, code, &query->uri, "text");
    text_release(&query->uri);
    return false;
  }
  query->bytes = query->uri.bytes + parts.query.begin;
  query->len = parts.query.end - parts.query.begin;
  query->is_present = parts.query.present;
  return true;
}

/* The reference with this query, or without one. */
static PyObject *with_query(const struct state *state, const struct query *query, const struct output *other) {
  struct uriparse_changes changes;
  struct output output;
  uint32_t code;
  memset(&changes, 0, sizeof changes);
  changes.query.action = other ? URIPARSE_SET : URIPARSE_REMOVE;
  changes.query.end = other ? other->len : 0;
  struct change job = {&query->uri, &changes, other ? other->bytes : (const uint8_t *)"", changes.query.end};
  if (!output_write(&output, write_change, &job, guess_of(&job), &code)) return NULL;
  if (!code) return output_object(&output, query->uri.is_str);
  output_release(&output);
  return reject(state, code, &query->uri, 0, "text");
}

/* A query with a pair that is set or appended, or without the pairs of some names. */
struct edit {
  const struct query *query;
  const struct text *name;
  const struct text *value; /* NULL for none */
  uint32_t (*call)(const void *query, size_t len, const void *name, size_t name_len, const void *value, size_t value_len, bool has_value,
                   void *out, size_t room, size_t *needed);
};

static uint32_t write_pair(const void *job, uint8_t *out, size_t room, size_t *needed) {
  const struct edit *it = (const struct edit *)job;
  const uint8_t *value = it->value ? it->value->bytes : (const uint8_t *)"";
  return it->call(it->query->bytes, it->query->len, it->name->bytes, it->name->len, value, it->value ? it->value->len : 0, it->value != NULL, out,
                  room, needed);
}

static PyObject *edited(const struct state *state, const struct edit *edit) {
  struct output output;
  uint32_t code;
  size_t guess = edit->query->len + 3 * (edit->name->len + (edit->value ? edit->value->len : 0)) + 2;
  if (!output_write(&output, write_pair, edit, guess, &code)) return NULL;
  PyObject *found = code ? reject(state, code, &edit->query->uri, 0, "text") : with_query(state, edit->query, &output);
  output_release(&output);
  return found;
}

/* A reference, a name and a value: the reference with the query that the call writes. */
static PyObject *edit_pair(PyObject *module, const char *name, const struct edit *row, PyObject *const *args, Py_ssize_t count, PyObject *kwnames) {
  static const char *const names[] = {"uri", "name", "value"};
  const struct state *state = state_of(module);
  PyObject *sources[3];
  struct query query;
  struct text key, value;
  PyObject *found = NULL;
  if (!take_arguments(name, names, 3, args, count, kwnames, sources) || !query_take(state, &query, sources[0])) return NULL;
  if (text_take_value(state, &key, sources[1], query.uri.is_str, URIPARSE_QUERY_BYTE, "name")) {
    bool has_value = sources[2] != Py_None;
    if (!has_value || text_take_value(state, &value, sources[2], query.uri.is_str, URIPARSE_QUERY_BYTE, "value")) {
      struct edit edit = {&query, &key, has_value ? &value : NULL, row->call};
      found = edited(state, &edit);
      if (has_value) text_release(&value);
    }
    text_release(&key);
  }
  text_release(&query.uri);
  return found;
}

static PyObject *with_pair(PyObject *module, PyObject *const *args, Py_ssize_t count, PyObject *kwnames) {
  static const struct edit row = {.call = uriparse_set_pair};
  return edit_pair(module, "with_pair", &row, args, count, kwnames);
}

static PyObject *with_appended_pair(PyObject *module, PyObject *const *args, Py_ssize_t count, PyObject *kwnames) {
  static const struct edit row = {.call = uriparse_append_pair};
  return edit_pair(module, "with_appended_pair", &row, args, count, kwnames);
}

static uint32_t write_dropped(const void *job, uint8_t *out, size_t room, size_t *needed) {
  const struct edit *it = (const struct edit *)job;
  return uriparse_drop_pairs(it->query->bytes, it->query->len, it->name->bytes, it->name->len, out, room, needed);
}

static PyObject *dropped(const struct state *state, const struct query *query, const struct text *names) {
  struct edit edit = {.query = query, .name = names};
  struct output output;
  PyObject *found;
  uint32_t code;
  if (!output_write(&output, write_dropped, &edit, query->len, &code)) return NULL;
  if (code == URIPARSE_BAD_NAMES) {
    found = reject(state, code, names, text_query_fault(names->bytes, names->len), "names");
  } else if (!query->is_present) {
    found = text_copy(&query->uri);
  } else {
    found = with_query(state, query, code == URIPARSE_NO_PAIRS ? NULL : &output);
  }
  output_release(&output);
  return found;
}

/* A reference and names, as one text or None for no name. */
static PyObject *without_pairs(PyObject *module, PyObject *const *args, Py_ssize_t count, PyObject *kwnames) {
  static const char *const names[] = {"uri", "names"};
  const struct state *state = state_of(module);
  PyObject *sources[2];
  struct query query;
  struct text joined;
  PyObject *found = NULL;
  if (!take_arguments("without_pairs", names, 2, args, count, kwnames, sources) || !query_take(state, &query, sources[0])) return NULL;
  if (sources[1] == Py_None) {
    found = text_copy(&query.uri);
  } else if (text_take_data(state, &joined, sources[1], query.uri.is_str, URIPARSE_QUERY_BYTE, "names")) {
    found = dropped(state, &query, &joined);
    text_release(&joined);
  }
  text_release(&query.uri);
  return found;
}

/* Some bytes of a query. */
struct piece {
  const uint8_t *bytes;
  size_t len;
};

static uint32_t write_decoded(const void *job, uint8_t *out, size_t room, size_t *needed) {
  const struct piece *piece = (const struct piece *)job;
  return uriparse_decode(piece->bytes, piece->len, out, room, needed);
}

/* The decoded value of the first pair with a name, or None. */
static PyObject *pair(PyObject *module, PyObject *const *args, Py_ssize_t count, PyObject *kwnames) {
  static const char *const names[] = {"uri", "name"};
  const struct state *state = state_of(module);
  PyObject *sources[2];
  struct query query;
  struct text name;
  struct uriparse_pair at;
  struct output output;
  uint32_t code;
  PyObject *found = NULL;
  if (!take_arguments("pair", names, 2, args, count, kwnames, sources) || !query_take(state, &query, sources[0])) return NULL;
  if (text_take_value(state, &name, sources[1], query.uri.is_str, URIPARSE_QUERY_BYTE, "name")) {
    if (!query.is_present || !uriparse_find_pair(query.bytes, query.len, name.bytes, name.len, &at)) {
      found = Py_NewRef(Py_None);
    } else {
      struct piece piece = {query.bytes + at.value.begin, at.value.end - at.value.begin};
      if (output_write(&output, write_decoded, &piece, piece.len, &code)) found = output_object(&output, query.uri.is_str);
    }
    text_release(&name);
  }
  text_release(&query.uri);
  return found;
}

/* Appends the decoded value of a pair to a list. Returns whether that is done. */
static bool append_value(PyObject *list, const struct query *query, const struct uriparse_pair *at) {
  struct output output;
  uint32_t code;
  struct piece piece = {query->bytes + at->value.begin, at->value.end - at->value.begin};
  PyObject *one = output_write(&output, write_decoded, &piece, piece.len, &code) ? output_object(&output, query->uri.is_str) : NULL;
  bool is_done = one && !PyList_Append(list, one);
  Py_XDECREF(one);
  return is_done;
}

/* The decoded values of all pairs with a name. */
static PyObject *pair_values(PyObject *module, PyObject *const *args, Py_ssize_t count, PyObject *kwnames) {
  static const char *const names[] = {"uri", "name"};
  const struct state *state = state_of(module);
  PyObject *sources[2];
  struct query query;
  struct text name;
  struct uriparse_pair at = {.next = 0};
  PyObject *found = NULL;
  if (!take_arguments("pair_values", names, 2, args, count, kwnames, sources) || !query_take(state, &query, sources[0])) return NULL;
  if (text_take_value(state, &name, sources[1], query.uri.is_str, URIPARSE_QUERY_BYTE, "name")) {
    found = PyList_New(0);
    while (found && query.is_present && uriparse_find_next_pair(query.bytes, query.len, at.next, name.bytes, name.len, &at)) {
      if (!append_value(found, &query, &at)) Py_CLEAR(found);
    }
    text_release(&name);
  }
  text_release(&query.uri);
  return found;
}

/* A tuple of a name and a value, or of a name and None. */
static PyObject *pair_object(const struct text *query, const struct uriparse_pair *pair) {
  PyObject *name = object_of(query->bytes + pair->name.begin, pair->name.end - pair->name.begin, query->is_str);
  PyObject *value = pair->value.present ? object_of(query->bytes + pair->value.begin, pair->value.end - pair->value.begin, query->is_str)
                                        : Py_NewRef(Py_None);
  PyObject *found = name && value ? PyTuple_Pack(2, name, value) : NULL;
  Py_XDECREF(name);
  Py_XDECREF(value);
  return found;
}

/* The pairs of a query, as they stand there: none of None. */
static PyObject *pairs(PyObject *module, PyObject *const *args, Py_ssize_t count, PyObject *kwnames) {
  static const char *const names[] = {"query"};
  const struct state *state = state_of(module);
  PyObject *source;
  struct text query;
  struct uriparse_pair pair;
  if (!take_arguments("pairs", names, 1, args, count, kwnames, &source)) return NULL;
  PyObject *found = PyList_New(0);
  if (!found || source == Py_None) return found;
  if (!text_take_data(state, &query, source, PyUnicode_Check(source), URIPARSE_QUERY_BYTE, "query")) {
    Py_DECREF(found);
    return NULL;
  }
  for (size_t at = 0; found && uriparse_next_pair(query.bytes, query.len, at, &pair); at = pair.next) {
    PyObject *one = pair_object(&query, &pair);
    if (!one || PyList_Append(found, one)) Py_CLEAR(found);
    Py_XDECREF(one);
  }
  text_release(&query);
  return found;
}

/* The segments of a path, as they stand there. */
static PyObject *segments(PyObject *module, PyObject *const *args, Py_ssize_t count, PyObject *kwnames) {
  static const char *const names[] = {"path"};
  const struct state *state = state_of(module);
  PyObject *source;
  struct text path;
  struct uriparse_span segment;
  if (!take_arguments("segments", names, 1, args, count, kwnames, &source)) return NULL;
  if (!text_take_data(state, &path, source, PyUnicode_Check(source), URIPARSE_PATH_BYTE, "path")) return NULL;
  PyObject *found = PyList_New(0);
  for (size_t at = 0; found && uriparse_next_segment(path.bytes, path.len, at, &segment); at = segment.end + 1) {
    PyObject *one = object_of(path.bytes + segment.begin, segment.end - segment.begin, path.is_str);
    if (!one || PyList_Append(found, one)) Py_CLEAR(found);
    Py_XDECREF(one);
  }
  text_release(&path);
  return found;
}

/* Data that are written as a component. */
struct encoded {
  uint32_t component;
  const struct text *data;
};

static uint32_t write_encoded(const void *job, uint8_t *out, size_t room, size_t *needed) {
  const struct encoded *it = (const struct encoded *)job;
  return uriparse_encode(it->component, it->data->bytes, it->data->len, out, room, needed);
}

/* The number of a component, and data. */
static PyObject *encode(PyObject *module, PyObject *const *args, Py_ssize_t count, PyObject *kwnames) {
  static const char *const names[] = {"component", "data"};
  const struct state *state = state_of(module);
  PyObject *sources[2];
  PyObject *found = NULL;
  struct text data;
  struct output output;
  uint32_t code;
  if (!take_arguments("encode", names, 2, args, count, kwnames, sources)) return NULL;
  uint32_t component = (uint32_t)PyLong_AsUnsignedLong(sources[0]);
  if (PyErr_Occurred()) return NULL;
  uint32_t wrong = component == URIPARSE_PAIR ? (uint32_t)URIPARSE_QUERY_BYTE : component + 1;
  if (!text_take_data(state, &data, sources[1], PyUnicode_Check(sources[1]), wrong, "data")) return NULL;
  struct encoded job = {component, &data};
  if (output_write(&output, write_encoded, &job, 3 * data.len, &code)) {
    if (!code) {
      found = output_object(&output, data.is_str);
    } else {
      output_release(&output);
      reject(state, code, &data, 0, "component");
    }
  }
  text_release(&data);
  return found;
}

PyMethodDef edit_methods[] = {
    /* methods.tsv: methods */
    METHOD("pair", pair,
           "pair($module, /, uri, name)\n--\n\n"
           "The decoded value of the first pair of the query with this name, or None if there is none. It is empty for a pair\n"
           "without an `=`. Names are compared by the bytes that they stand for. The value of a str is decoded as UTF-8."),
    METHOD("pair_values", pair_values,
           "pair_values($module, /, uri, name)\n--\n\n"
           "The decoded values of all pairs of the query with this name, in order, each as `pair` returns it."),
    METHOD("with_pair", with_pair,
           "with_pair($module, /, uri, name, value)\n--\n\n"
           "The reference with one pair of this name in its query, in place of the first one. The others of the name are left out,\n"
           "and pairs of other names stay, byte for byte. Name and value are data: `pair` reads them back. With None there is no\n"
           "`=`."),
    METHOD("with_appended_pair", with_appended_pair,
           "with_appended_pair($module, /, uri, name, value)\n--\n\n"
           "The reference with a pair after all others of its query."),
    METHOD("segments", segments,
           "segments($module, /, path)\n--\n\n"
           "The segments of a path, in order: the pieces between its `/`, without one before a leading `/`, as they stand in the\n"
           "text. Each path has one at least, which is empty for an empty path and for `/`. `decode` reads each."),
    METHOD("pairs", pairs,
           "pairs($module, /, query)\n--\n\n"
           "The pairs of a query, in order: the pieces between its `&`, each a name and, after its first `=`, a value or None, as\n"
           "they stand in the text. `decode` reads each. The empty query has one pair, of an empty name, and None has none. Any text\n"
           "is cut like that."),
    /* methods.tsv: end */
    METHOD("replace", replace, NULL),
    METHOD("without_pairs", without_pairs, NULL),
    METHOD("encode", encode, NULL),
    {NULL, NULL, 0, NULL}};
