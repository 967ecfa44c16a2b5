/* The calls of many texts. Some hundred are taken from an iterable and kept; their bytes are read without the interpreter's lock; then
 * objects are made of what was found. */
#include "module.h"

#include <string.h>

/* A batch has at most so many texts, and takes no other once it has so many bytes. */
enum { TEXTS = 1024 };
#define BYTES ((size_t)1 << 20)

struct batch {
  const struct state *state;
  PyObject *iterator;
  PyObject *found; /* the list of answers */
  const char *argument;
  int taken; /* as what each text is taken */
  bool is_raising;
  bool has_kind; /* whether it is known if the texts are str */
  bool is_str;
  size_t count;
  size_t len;
  struct text texts[TEXTS];
  uint32_t codes[TEXTS];
};

static void batch_clear(struct batch *batch) {
  for (size_t i = 0; i < batch->count; i++) {
    Py_DECREF(batch->texts[i].source);
    text_release(&batch->texts[i]);
  }
  batch->count = batch->len = 0;
}

static void batch_free(struct batch *batch) {
  batch_clear(batch);
  Py_XDECREF(batch->iterator);
  Py_XDECREF(batch->found);
  PyMem_Free(batch);
}

/* Whether it is one text; an iterable of texts may have a buffer, too, as an array of objects. */
static bool is_text(PyObject *texts) {
  return PyUnicode_Check(texts) || PyBytes_Check(texts) || PyByteArray_Check(texts) || PyMemoryView_Check(texts);
}

/* Of any iterable but a text. */
static struct batch *batch_of(const struct state *state, PyObject *texts, PyObject *raising, const char *argument) {
  if (is_text(texts)) {
    PyErr_SetString(PyExc_TypeError, "an iterable of texts expected, not one text");
    return NULL;
  }
  int is_raising = PyObject_IsTrue(raising);
  struct batch *batch = is_raising < 0 ? NULL : (struct batch *)PyMem_Malloc(sizeof *batch);
  if (!batch) return is_raising < 0 ? NULL : (struct batch *)PyErr_NoMemory();
  batch->state = state;
  batch->argument = argument;
  batch->taken = OR_URI;
  batch->is_raising = is_raising;
  batch->has_kind = batch->is_str = false;
  batch->count = batch->len = 0;
  batch->found = PyList_New(0);
  batch->iterator = PyObject_GetIter(texts);
  if (batch->iterator && batch->found) return batch;
  batch_free(batch);
  return NULL;
}

/* Has the text be one that nothing can change: of a buffer that isn't a bytes object, a copy. */
static bool hold_still(struct text *text) {
  if (!text->view.obj) return true;
  text->held = text_copy(text);
  PyBuffer_Release(&text->view);
  if (text->held) text->bytes = (const uint8_t *)PyBytes_AsString(text->held);
  return text->held != NULL;
}

/* Takes a text, which the batch owns from now on, also if this fails. */
static bool batch_add(struct batch *batch, PyObject *source) {
  struct text *text = &batch->texts[batch->count];
  if (!text_take(batch->state, text, source, batch->taken)) {
    Py_DECREF(source);
    return false;
  }
  if (text->source != source) {
    Py_INCREF(text->source);
    Py_DECREF(source);
  }
  batch->count++;
  if (!hold_still(text)) return false;
  batch->len += text->len;
  if (batch->has_kind && batch->is_str != text->is_str) return text_mixed();
  batch->has_kind = true;
  batch->is_str = text->is_str;
  return true;
}

/* Takes the next texts. Returns whether that is done; there may be none. */
static bool batch_fill(struct batch *batch) {
  batch_clear(batch);
  while (batch->count < TEXTS && batch->len < BYTES) {
    PyObject *source = PyIter_Next(batch->iterator);
    if (!source) break;
    if (!batch_add(batch, source)) return false;
  }
  return !PyErr_Occurred() && !PyErr_CheckSignals();
}

/* Adds an answer to the list: the object, or None for a text without one, and for a rejected text, whose error may be raised. */
static bool batch_answer(struct batch *batch, size_t at, PyObject *answer) {
  if (batch->codes[at] && batch->codes[at] != URIPARSE_NO_PAIRS && batch->is_raising) {
    reject_fault(batch->state, batch->codes[at], &batch->texts[at], batch->argument);
    return false;
  }
  if (batch->codes[at]) answer = Py_NewRef(Py_None);
  bool done = answer && !PyList_Append(batch->found, answer);
  Py_XDECREF(answer);
  return done;
}

/* The list, if all went well. */
static PyObject *batch_end(struct batch *batch, bool done) {
  PyObject *found = done ? Py_NewRef(batch->found) : NULL;
  batch_free(batch);
  return found;
}

/* What a call writes for each text of a batch, one after another. */
struct written {
  write_call *call;         /* of a text alone, or NULL */
  write_two_call *two_call; /* of a base and a text */
  const struct text *base;  /* NULL for a call that takes none */
  uint8_t *out;
  size_t room;
  size_t ends[TEXTS];
};

/* Writes for the texts from `first` on until one has no room, whose need is then `*needed`. Returns how many are done. */
static size_t write_some(struct batch *batch, struct written *written, size_t first, size_t *needed) {
  size_t end = 0, at = first;
  for (; at < batch->count; at++) {
    const struct text *text = &batch->texts[at];
    uint8_t *out = written->out + end;
    size_t room = written->room - end;
    batch->codes[at] = written->call ? written->call(text->bytes, text->len, out, room, needed)
                                     : written->two_call(written->base->bytes, written->base->len, text->bytes, text->len, out, room, needed);
    if (batch->codes[at] == URIPARSE_NO_ROOM) break;
    written->ends[at] = end += *needed;
  }
  return at;
}

/* Makes the room at least so large. What is in it is lost. */
static bool make_room(struct written *written, size_t wanted) {
  if (wanted <= written->room) return true;
  PyMem_Free(written->out);
  written->out = (uint8_t *)PyMem_Malloc(wanted);
  written->room = written->out ? wanted : 0;
  if (!written->out) PyErr_NoMemory();
  return written->out != NULL;
}

static bool write_batch(struct batch *batch, struct written *written) {
  size_t done = 0, needed = 0, base_len = written->base ? written->base->len : 0;
  size_t more = (base_len + 16) * batch->count;
  if (!make_room(written, batch->len + (more < BYTES ? more : BYTES))) return false;
  while (done < batch->count) {
    size_t first = done;
    Py_BEGIN_ALLOW_THREADS
    done = write_some(batch, written, first, &needed);
    Py_END_ALLOW_THREADS
    for (size_t at = first, begin = 0; at < done; begin = written->ends[at++]) {
      PyObject *one = batch->codes[at] ? NULL : object_of(written->out + begin, written->ends[at] - begin, batch->is_str);
      if (!batch_answer(batch, at, one)) return false;
    }
    if (done < batch->count && !make_room(written, needed)) return false;
  }
  return true;
}

static PyObject *write_all(struct batch *batch, write_call *call, write_two_call *two_call, const struct text *base) {
  struct written *written = (struct written *)PyMem_Malloc(sizeof *written);
  bool done = written != NULL;
  if (written) {
    written->call = call;
    written->two_call = two_call;
    written->base = base;
    written->out = NULL;
    written->room = 0;
  } else {
    PyErr_NoMemory();
  }
  while (done && (done = batch_fill(batch)) && batch->count) done = write_batch(batch, written);
  if (written) PyMem_Free(written->out);
  PyMem_Free(written);
  return batch_end(batch, done);
}

static PyObject *normalize_many(PyObject *module, PyObject *const *args, Py_ssize_t count, PyObject *kwnames) {
  static const char *const names[] = {"texts", "is_raising"};
  PyObject *sources[2];
  if (!take_arguments("normalize_many", names, 2, args, count, kwnames, sources)) return NULL;
  struct batch *batch = batch_of(state_of(module), sources[0], sources[1], "text");
  return batch ? write_all(batch, uriparse_normalize, NULL, NULL) : NULL;
}

static PyObject *escape_many(PyObject *module, PyObject *const *args, Py_ssize_t count, PyObject *kwnames) {
  static const char *const names[] = {"texts"};
  PyObject *source;
  if (!take_arguments("escape_many", names, 1, args, count, kwnames, &source)) return NULL;
  struct batch *batch = batch_of(state_of(module), source, Py_False, "text");
  if (!batch) return NULL;
  batch->taken = OR_URI | STRICT;
  return write_all(batch, uriparse_escape, NULL, NULL);
}

/* The keys of the form with this number: 0 of the reference as it is, 1 of the normal form, 2 of the page; and with 3 the place keys. */
static PyObject *key_many(PyObject *module, PyObject *const *args, Py_ssize_t count, PyObject *kwnames) {
  static const char *const names[] = {"form", "texts", "is_raising"};
  static write_call *const keys[] = {exact_key, normal_form_key, page_form_key, uriparse_place_key};
  PyObject *sources[3];
  if (!take_arguments("key_many", names, 3, args, count, kwnames, sources)) return NULL;
  size_t form = PyLong_AsSize_t(sources[0]);
  if (PyErr_Occurred()) return NULL;
  if (form > 3) {
    PyErr_SetString(PyExc_ValueError, "no form has this number");
    return NULL;
  }
  struct batch *batch = batch_of(state_of(module), sources[1], sources[2], "text");
  return batch ? write_all(batch, keys[form], NULL, NULL) : NULL;
}

/* What a call says of each text and another one. */
static PyObject *test_all(struct batch *batch, test_two_call *call, const struct text *other) {
  bool answers[TEXTS];
  bool done = true;
  while (done && (done = batch_fill(batch)) && batch->count) {
    Py_BEGIN_ALLOW_THREADS
    for (size_t at = 0; at < batch->count; at++) {
      const struct text *text = &batch->texts[at];
      batch->codes[at] = call(text->bytes, text->len, other->bytes, other->len, &answers[at]);
    }
    Py_END_ALLOW_THREADS
    for (size_t at = 0; done && at < batch->count; at++) {
      done = batch_answer(batch, at, batch->codes[at] ? NULL : PyBool_FromLong(answers[at]));
    }
  }
  return batch_end(batch, done);
}

/* The decoded value of the first pair with a name, or the code NO_PAIRS. */
static uint32_t write_value(const void *name, size_t name_len, const void *text, size_t len, void *out, size_t room, size_t *needed) {
  struct uriparse_parts parts;
  struct uriparse_pair pair;
  uint32_t code = uriparse_parse(text, len, &parts);
  *needed = 0;
  if (code) return code;
  const uint8_t *query = (const uint8_t *)text + parts.query.begin;
  if (!parts.query.present || !uriparse_find_pair(query, parts.query.end - parts.query.begin, name, name_len, &pair)) return URIPARSE_NO_PAIRS;
  return uriparse_decode(query + pair.value.begin, pair.value.end - pair.value.begin, out, room, needed);
}

/* A reference without the pairs of some names. The query that is left is held behind the room for the reference, which gets no longer. */
static uint32_t write_left(const void *names, size_t names_len, const void *text, size_t len, void *out, size_t room, size_t *needed) {
  struct uriparse_parts parts;
  struct uriparse_changes changes;
  size_t left_len;
  uint32_t code = uriparse_parse(text, len, &parts);
  *needed = code ? 0 : 2 * len;
  if (code) return code;
  if (room < 2 * len) return URIPARSE_NO_ROOM;
  uint8_t *left = (uint8_t *)out + len;
  const uint8_t *query = (const uint8_t *)text + parts.query.begin;
  code = uriparse_drop_pairs(query, parts.query.end - parts.query.begin, names, names_len, left, len, &left_len);
  if (code == URIPARSE_BAD_NAMES) {
    *needed = 0;
    return code;
  }
  memset(&changes, 0, sizeof changes);
  changes.query.action = !parts.query.present ? URIPARSE_KEEP : code == URIPARSE_OK ? URIPARSE_SET : URIPARSE_REMOVE;
  changes.query.end = changes.query.action == URIPARSE_SET ? left_len : 0;
  return uriparse_change(text, len, &changes, left, changes.query.end, out, len, needed);
}

/* A call of many texts and another one, which the call of one text has accepted. */
struct many_and_one {
  const char *name;
  const char *arguments[3]; /* the other, the texts, and whether errors are raised */
  const char *argument;     /* what a text is called in its error */
  int taken;                /* as what the other is taken */
  write_two_call *write;    /* of the other and a text, or NULL */
  test_two_call *test;      /* of a text and the other */
};

static PyObject *many_and_one(PyObject *module, const struct many_and_one *row, PyObject *const *args, Py_ssize_t count, PyObject *kwnames) {
  const struct state *state = state_of(module);
  PyObject *sources[3];
  PyObject *found = NULL;
  struct text other;
  if (!take_arguments(row->name, row->arguments, 3, args, count, kwnames, sources) || !text_take(state, &other, sources[0], row->taken))
    return NULL;
  struct batch *batch = hold_still(&other) ? batch_of(state, sources[1], sources[2], row->argument) : NULL;
  if (batch) {
    batch->has_kind = true;
    batch->is_str = other.is_str;
    found = row->write ? write_all(batch, NULL, row->write, &other) : test_all(batch, row->test, &other);
  }
  text_release(&other);
  return found;
}

/* The method of a row, with the name of its C function and what the row says. */
#define MANY(name, ...)                                                                                                                    \
  static const struct many_and_one name##_row = {__VA_ARGS__};                                                                             \
  static PyObject *name(PyObject *module, PyObject *const *args, Py_ssize_t count, PyObject *kwnames) {                                    \
    return many_and_one(module, &name##_row, args, count, kwnames);                                                                        \
  }
MANY(resolve_many, "resolve_many", {"base", "references", "is_raising"}, "reference", OR_URI, uriparse_resolve, NULL)
MANY(relativize_many, "relativize_many", {"base", "uris", "is_raising"}, "uri", OR_URI, uriparse_relativize, NULL)
MANY(is_within_many, "is_within_many", {"base", "uris", "is_raising"}, "uri", OR_URI, NULL, uriparse_is_within)
MANY(pair_many, "pair_many", {"name", "uris", "is_raising"}, "text", PLAIN, write_value, NULL)
MANY(without_pairs_many, "without_pairs_many", {"names", "uris", "is_raising"}, "text", PLAIN, write_left, NULL)
MANY(host_is_within_many, "host_is_within_many", {"domain", "texts", "is_raising"}, "text", PLAIN, NULL, uriparse_host_is_within)

/* The object that is made of a text and its components. */
typedef PyObject *maker(const struct batch *batch, const struct text *text, const struct uriparse_parts *parts, size_t which);

static PyObject *parse_all(struct batch *batch, maker *make, size_t which) {
  struct uriparse_parts *parts = (struct uriparse_parts *)PyMem_Malloc(TEXTS * sizeof *parts);
  bool done = parts != NULL;
  if (!parts) PyErr_NoMemory();
  while (done && (done = batch_fill(batch)) && batch->count) {
    Py_BEGIN_ALLOW_THREADS
    for (size_t at = 0; at < batch->count; at++) {
      batch->codes[at] = uriparse_parse(batch->texts[at].bytes, batch->texts[at].len, &parts[at]);
    }
    Py_END_ALLOW_THREADS
    for (size_t at = 0; done && at < batch->count; at++) {
      done = batch_answer(batch, at, batch->codes[at] ? NULL : make(batch, &batch->texts[at], &parts[at], which));
    }
  }
  PyMem_Free(parts);
  return batch_end(batch, done);
}

static PyObject *make_components(const struct batch *batch, const struct text *text, const struct uriparse_parts *parts, size_t which) {
  (void)which;
  return reference_new(batch->state, (PyTypeObject *)batch->state->components, text, parts);
}

static PyObject *make_component(const struct batch *batch, const struct text *text, const struct uriparse_parts *parts, size_t which) {
  const struct uriparse_span *spans[9] = {&parts->scheme, &parts->authority, &parts->username, &parts->password, &parts->host,
                                          &parts->port,   &parts->path,      &parts->query,    &parts->fragment};
  (void)batch;
  return reference_cut(text->source, text->bytes, spans[which]);
}

static PyObject *make_kind(const struct batch *batch, const struct text *text, const struct uriparse_parts *parts, size_t which) {
  (void)text;
  (void)which;
  return reference_kind(batch->state, parts->host_kind);
}

static PyObject *parse_many(PyObject *module, PyObject *const *args, Py_ssize_t count, PyObject *kwnames) {
  static const char *const names[] = {"texts", "is_raising"};
  PyObject *sources[2];
  if (!take_arguments("parse_many", names, 2, args, count, kwnames, sources)) return NULL;
  struct batch *batch = batch_of(state_of(module), sources[0], sources[1], "text");
  return batch ? parse_all(batch, make_components, 0) : NULL;
}

/* The component is one of nine, by its number, and the last one is the kind of the host. */
static PyObject *get_many(PyObject *module, PyObject *const *args, Py_ssize_t count, PyObject *kwnames) {
  static const char *const names[] = {"component", "texts", "is_raising"};
  PyObject *sources[3];
  if (!take_arguments("get_many", names, 3, args, count, kwnames, sources)) return NULL;
  size_t which = PyLong_AsSize_t(sources[0]);
  if (PyErr_Occurred()) return NULL;
  if (which > 9) {
    PyErr_SetString(PyExc_ValueError, "no component has this number");
    return NULL;
  }
  struct batch *batch = batch_of(state_of(module), sources[1], sources[2], "text");
  return batch ? parse_all(batch, which < 9 ? make_component : make_kind, which) : NULL;
}

PyMethodDef many_methods[] = {METHOD("normalize_many", normalize_many, NULL), METHOD("key_many", key_many, NULL),
                              METHOD("resolve_many", resolve_many, NULL),
                              METHOD("relativize_many", relativize_many, NULL), METHOD("is_within_many", is_within_many, NULL),
                              METHOD("host_is_within_many", host_is_within_many, NULL), METHOD("parse_many", parse_many, NULL),
                              METHOD("escape_many", escape_many, NULL), METHOD("pair_many", pair_many, NULL),
                              METHOD("without_pairs_many", without_pairs_many, NULL),
                              METHOD("get_many", get_many, NULL), {NULL, NULL, 0, NULL}};
