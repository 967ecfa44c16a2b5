/* What the files of the extension module share: texts as arguments, the outputs of calls, and errors. */
#ifndef URIPARSE_MODULE_H
#define URIPARSE_MODULE_H

#define PY_SSIZE_T_CLEAN
#include <Python.h>
#include <stdbool.h>
#include <stddef.h>
#include <stdint.h>

#include "uriparse.h"

#ifdef Py_GIL_DISABLED
#error "A free-threaded CPython isn't supported: another thread could change a buffer while a call reads it."
#endif

/* What belongs to one import of the module. */
struct state {
  PyTypeObject *read;     /* a reference whose components are cut when they are read */
  PyTypeObject *compared; /* one with an order and a hash, the base of `URI` */
  PyObject *components;   /* the class that `parse` returns */
  PyObject *error;        /* the class of errors */
  PyObject *keep;         /* what stands for "leave this component as it is" */
  PyObject *kinds[4];     /* the names of the kinds of hosts */
};

static inline struct state *state_of(PyObject *module) { return (struct state *)PyModule_GetState(module); }

/* An argument. Its bytes stay where they are as long as it isn't released; the caller keeps `source`. */
struct text {
  const uint8_t *bytes;
  size_t len;
  bool is_str;
  PyObject *source; /* a str, or an object with a buffer */
  PyObject *held;   /* what the bytes belong to if it isn't `source`, or NULL */
  Py_buffer view;   /* released if its `obj` isn't NULL */
};

/* How a text is taken. */
enum taken {
  PLAIN = 0,
  OR_URI = 1, /* a `URI` stands for its text */
  STRICT = 2  /* a surrogate raises UnicodeEncodeError; else it becomes bytes that no URI has */
};

/* Takes an argument. Returns whether that is done; if not, an exception is set and there is nothing to release. */
bool text_take(const struct state *state, struct text *text, PyObject *source, int how);

/* Takes data. A surrogate raises the error with this code, if it isn't 0, for the argument of this name. */
bool text_take_data(const struct state *state, struct text *text, PyObject *source, bool is_str, uint32_t code, const char *argument);

/* The same of a name or a value, which may be an int. */
bool text_take_value(const struct state *state, struct text *text, PyObject *source, bool is_str, uint32_t code, const char *argument);

/* Takes two texts, both str or both bytes. */
bool text_take_two(const struct state *state, struct text texts[2], PyObject *const *sources, int how_left, int how_right);

void text_release(struct text *text);

/* Sets the TypeError of texts of both kinds, and returns false. */
bool text_mixed(void);

/* A str or bytes object with what the text has: the argument itself if it is of exactly that type. */
PyObject *text_copy(const struct text *text);

/* The place of the text's first fault, or 0 if it has none. */
size_t text_fault(const uint8_t *bytes, size_t len);

/* The same of a text that is all of a component other than a scheme. If memory is missing, an exception is set. */
size_t text_component_fault(enum uriparse_component component, const uint8_t *bytes, size_t len);
size_t text_query_fault(const uint8_t *bytes, size_t len);
size_t text_host_fault(const uint8_t *bytes, size_t len);
/* That of a path may have slashes, and this one of a segment none. */
size_t text_segment_fault(const uint8_t *bytes, size_t len);

/* Raises the error of a text. Returns NULL. */
PyObject *reject(const struct state *state, uint32_t code, const struct text *text, size_t place, const char *argument);

/* Raises the error of a text that is wrong by itself, if it is. Returns NULL. */
PyObject *reject_fault(const struct state *state, uint32_t code, const struct text *text, const char *argument);

/* The arguments of a call, which are all required, in order of their names, given by position or by name. */
bool take_arguments(const char *call, const char *const *names, Py_ssize_t wanted, PyObject *const *args, Py_ssize_t count, PyObject *kwnames,
                    PyObject **found);

/* What a call writes: to `small` if it has room, else to a block of memory. */
struct output {
  uint8_t *bytes;
  size_t len;
  uint8_t small[1024];
};

/* A call that writes, with its arguments in `job`. */
typedef uint32_t writer(const void *job, uint8_t *out, size_t room, size_t *needed);

/* Has the call write, and sets `*code`. Returns false with an exception if memory is missing. `guess` is a length that is likely
 * enough. The output must be released if this returns true. */
bool output_write(struct output *output, writer *write, const void *job, size_t guess, uint32_t *code);

void output_release(struct output *output);

/* The output as a str or bytes object, released. */
PyObject *output_object(struct output *output, bool is_str);

/* A str that is decoded from UTF-8, or bytes. */
PyObject *object_of(const uint8_t *bytes, size_t len, bool is_str);

/* The shapes of calls: of one text or two, which write a text, and of two that answer yes or no. */
typedef uint32_t write_call(const void *text, size_t len, void *out, size_t room, size_t *needed);
typedef uint32_t write_two_call(const void *left, size_t left_len, const void *right, size_t right_len, void *out, size_t room,
                                size_t *needed);
typedef uint32_t test_two_call(const void *left, size_t left_len, const void *right, size_t right_len, bool *answer);

/* texts.c: the sort keys of a reference as it is, of its normal form, and of the page that it leads to. */
write_call exact_key, normal_form_key, page_form_key;

/* A method that takes arguments by position and by name. */
#define METHOD(name, function, doc) {name, (PyCFunction)(void (*)(void))(function), METH_FASTCALL | METH_KEYWORDS, doc}

/* reference.c: the types of references that were read. */
bool reference_types(PyObject *module, struct state *state);
PyObject *reference_new(const struct state *state, PyTypeObject *type, const struct text *text, const struct uriparse_parts *parts);
/* The name of the kind of a host, or None. */
PyObject *reference_kind(const struct state *state, uint32_t kind);
/* A component of what was read, or None: of `source` with these bytes, a str or not. */
PyObject *reference_cut(PyObject *source, const uint8_t *bytes, const struct uriparse_span *span);
/* The argument as a text, if it is a `URI`. */
bool reference_is_uri(const struct state *state, PyObject *object);
void reference_text(PyObject *object, struct text *text);

/* The methods of a file, after which a line of zeros stands. */
extern PyMethodDef call_methods[], edit_methods[], many_methods[];

#endif
