/* Texts as arguments, what calls write, and errors. */
#include "module.h"

#include <string.h>

/* Raises TypeError for what is neither a str nor bytes. */
static bool wrong_type(PyObject *source) {
  if (source == Py_None) {
    PyErr_SetString(PyExc_TypeError, "str or bytes expected, not None");
    return false;
  }
  PyObject *name = PyType_GetName(Py_TYPE(source));
  if (name) {
    PyErr_Format(PyExc_TypeError, "str or bytes expected, not %U", name);
    Py_DECREF(name);
  }
  return false;
}

bool text_mixed(void) {
  PyErr_SetString(PyExc_TypeError, "str and bytes can't be mixed");
  return false;
}

/* The bytes of `held`, which belongs to the text from now on. */
static bool take_held(struct text *text, PyObject *held) {
  if (!held) return false;
  text->held = held;
  text->bytes = (const uint8_t *)PyBytes_AsString(held);
  text->len = (size_t)PyBytes_Size(held);
  return true;
}

static bool take_str(struct text *text, PyObject *source, int how) {
  Py_ssize_t len;
  const char *bytes = PyUnicode_AsUTF8AndSize(source, &len);
  text->is_str = true;
  if (bytes) {
    text->bytes = (const uint8_t *)bytes;
    text->len = (size_t)len;
    return true;
  }
  if (how & STRICT || !PyErr_ExceptionMatches(PyExc_UnicodeEncodeError)) return false;
  PyErr_Clear();
  return take_held(text, PyUnicode_AsEncodedString(source, "utf-8", "surrogatepass"));
}

/* A buffer of bytes, where it lies. */
static bool take_buffer(struct text *text, PyObject *source) {
  if (!PyObject_CheckBuffer(source)) return wrong_type(source);
  if (PyObject_GetBuffer(source, &text->view, PyBUF_FULL_RO)) return false;
  if (text->view.ndim == 1 && text->view.itemsize == 1 && PyBuffer_IsContiguous(&text->view, 'C')) {
    text->bytes = text->view.len ? (const uint8_t *)text->view.buf : (const uint8_t *)"";
    text->len = (size_t)text->view.len;
    return true;
  }
  if (text->view.ndim == 1 && text->view.itemsize == 1) {
    PyErr_SetString(PyExc_BufferError, "a contiguous buffer expected");
  } else {
    wrong_type(source);
  }
  PyBuffer_Release(&text->view);
  return false;
}

bool text_take(const struct state *state, struct text *text, PyObject *source, int how) {
  text->source = source;
  text->held = NULL;
  text->view.obj = NULL;
  text->is_str = false;
  if (PyUnicode_Check(source)) return take_str(text, source, how);
  if (PyBytes_Check(source)) {
    text->bytes = (const uint8_t *)PyBytes_AsString(source);
    text->len = (size_t)PyBytes_Size(source);
    return true;
  }
  if (how & OR_URI && reference_is_uri(state, source)) {
    reference_text(source, text);
    return true;
  }
  return take_buffer(text, source);
}

/* The digits of an int, as a str or as bytes. */
static PyObject *digits_of(PyObject *number, bool is_str) {
  PyObject *digits = PyNumber_ToBase(number, 10);
  if (!digits || is_str) return digits;
  PyObject *bytes = PyUnicode_AsASCIIString(digits);
  Py_DECREF(digits);
  return bytes;
}

/* Replaces the UnicodeEncodeError that is set by the error with this code. Returns false. */
static bool reject_surrogate(const struct state *state, struct text *text, uint32_t code, const char *argument) {
  PyObject *type, *value, *trace;
  Py_ssize_t place = 0;
  PyErr_Fetch(&type, &value, &trace);
  PyErr_NormalizeException(&type, &value, &trace);
  if (value && PyErr_GivenExceptionMatches(value, PyExc_UnicodeEncodeError)) PyUnicodeEncodeError_GetStart(value, &place);
  Py_XDECREF(type);
  Py_XDECREF(value);
  Py_XDECREF(trace);
  reject(state, code, text, (size_t)place, argument);
  return false;
}

bool text_take_data(const struct state *state, struct text *text, PyObject *source, bool is_str, uint32_t code, const char *argument) {
  if (PyUnicode_Check(source) && !is_str) return text_mixed();
  if (!text_take(state, text, source, code ? STRICT : PLAIN)) {
    return text->is_str && PyErr_ExceptionMatches(PyExc_UnicodeEncodeError) ? reject_surrogate(state, text, code, argument) : false;
  }
  if (text->is_str == is_str) return true;
  text_release(text);
  return text_mixed();
}

bool text_take_value(const struct state *state, struct text *text, PyObject *source, bool is_str, uint32_t code, const char *argument) {
  if (!PyLong_Check(source) || PyBool_Check(source)) return text_take_data(state, text, source, is_str, code, argument);
  PyObject *digits = digits_of(source, is_str);
  if (digits && text_take(state, text, digits, PLAIN)) {
    text->held = digits;
    return true;
  }
  Py_XDECREF(digits);
  return false;
}

bool text_take_two(const struct state *state, struct text texts[2], PyObject *const *sources, int how_left, int how_right) {
  if (!text_take(state, &texts[0], sources[0], how_left)) return false;
  if (text_take(state, &texts[1], sources[1], how_right)) {
    if (texts[0].is_str == texts[1].is_str) return true;
    text_release(&texts[1]);
    text_mixed();
  }
  text_release(&texts[0]);
  return false;
}

void text_release(struct text *text) {
  if (text->view.obj) PyBuffer_Release(&text->view);
  Py_CLEAR(text->held);
}

PyObject *text_copy(const struct text *text) {
  if (text->is_str) return PyUnicode_FromObject(text->source);
  if (PyBytes_CheckExact(text->source)) return Py_NewRef(text->source);
  return PyBytes_FromStringAndSize((const char *)text->bytes, (Py_ssize_t)text->len);
}

size_t text_fault(const uint8_t *bytes, size_t len) {
  size_t place = 0;
  uriparse_first_fault(bytes, len, &place);
  return place;
}

/* A reference in which a text is one component: what precedes and follows it, and the delimiters that would end it. */
struct frame {
  const char *before;
  const char *after;
  const char *ends;
};

/* A delimiter is a wrong byte of a text that is all of a component, so a space takes its place. In the brackets of an address a colon is
 * none. */
static void copy_without_ends(uint8_t *out, const uint8_t *bytes, size_t len, const char *ends) {
  bool is_in_brackets = len && bytes[0] == '[';
  for (size_t i = 0; i < len; i++) {
    bool is_end = bytes[i] && strchr(ends, bytes[i]) && !(bytes[i] == ':' && is_in_brackets);
    out[i] = is_end ? (uint8_t)' ' : bytes[i];
    if (bytes[i] == ']') is_in_brackets = false;
  }
}

/* Where a text is wrong in a frame, of which so many bytes precede it. */
static size_t fault_in(const struct frame *frame, size_t before, const uint8_t *bytes, size_t len) {
  size_t after = strlen(frame->after), place = before;
  uint8_t *whole = (uint8_t *)PyMem_Malloc(before + len + after);
  if (!whole) {
    PyErr_NoMemory();
    return 0;
  }
  memcpy(whole, frame->before, before);
  copy_without_ends(whole + before, bytes, len, frame->ends);
  memcpy(whole + before + len, frame->after, after);
  uriparse_first_fault(whole, before + len + after, &place);
  PyMem_Free(whole);
  return place > before ? place - before : 0;
}

size_t text_component_fault(enum uriparse_component component, const uint8_t *bytes, size_t len) {
  static const struct frame frames[] = {{"//", "@h", "/?#@:"}, {"//:", "@h", "/?#@"}, {"//", "", "/?#@:"}, {"//h:", "", "/?#@:[]"},
                                        {"//h/", "", "?#"},     {"?", "", "#"},        {"#", "", "#"}};
  const struct frame *frame = &frames[(component >> 4) - 1];
  bool is_absolute = component == URIPARSE_SEGMENT && len && bytes[0] == '/';
  return fault_in(frame, strlen(frame->before) - is_absolute, bytes, len);
}

size_t text_segment_fault(const uint8_t *bytes, size_t len) {
  static const struct frame frame = {"//h/", "", "/?#"};
  return fault_in(&frame, strlen(frame.before), bytes, len);
}

size_t text_host_fault(const uint8_t *bytes, size_t len) { return text_component_fault(URIPARSE_HOST, bytes, len); }

size_t text_query_fault(const uint8_t *bytes, size_t len) { return text_component_fault(URIPARSE_QUERY, bytes, len); }

PyObject *reject(const struct state *state, uint32_t code, const struct text *text, size_t place, const char *argument) {
  if (PyErr_Occurred()) return NULL;
  PyObject *copy = text_copy(text);
  PyObject *error = copy ? PyObject_CallFunction(state->error, "IOns", (unsigned int)code, copy, (Py_ssize_t)place, argument) : NULL;
  Py_XDECREF(copy);
  if (error) {
    PyErr_SetObject(state->error, error);
    Py_DECREF(error);
  }
  return NULL;
}

PyObject *reject_fault(const struct state *state, uint32_t code, const struct text *text, const char *argument) {
  return reject(state, code, text, text_fault(text->bytes, text->len), argument);
}

/* The number of the argument of this name, or -1. */
static Py_ssize_t index_of(PyObject *name, const char *const *names, Py_ssize_t wanted) {
  Py_ssize_t at = wanted - 1;
  while (at >= 0 && PyUnicode_CompareWithASCIIString(name, names[at])) at--;
  return at;
}

bool take_arguments(const char *call, const char *const *names, Py_ssize_t wanted, PyObject *const *args, Py_ssize_t count, PyObject *kwnames,
                    PyObject **found) {
  if (count > wanted) {
    PyErr_Format(PyExc_TypeError, "%s() takes %zd arguments, not %zd", call, wanted, count);
    return false;
  }
  for (Py_ssize_t i = 0; i < wanted; i++) found[i] = i < count ? args[i] : NULL;
  for (Py_ssize_t i = 0; kwnames && i < PyTuple_Size(kwnames); i++) {
    PyObject *name = PyTuple_GetItem(kwnames, i);
    Py_ssize_t at = index_of(name, names, wanted);
    if (at < 0 || found[at]) {
      PyErr_Format(PyExc_TypeError, at < 0 ? "%s() has no argument %R" : "%s() got the argument %R twice", call, name);
      return false;
    }
    found[at] = args[count + i];
  }
  for (Py_ssize_t i = 0; i < wanted; i++) {
    if (!found[i]) {
      PyErr_Format(PyExc_TypeError, "%s() lacks the argument '%s'", call, names[i]);
      return false;
    }
  }
  return true;
}

bool output_write(struct output *output, writer *write, const void *job, size_t guess, uint32_t *code) {
  size_t room = sizeof output->small;
  output->bytes = output->small;
  if (guess > room) {
    room = guess;
    output->bytes = (uint8_t *)PyMem_Malloc(room);
  }
  while (output->bytes) {
    *code = write(job, output->bytes, room, &output->len);
    if (*code != URIPARSE_NO_ROOM) return true;
    output_release(output);
    room = output->len;
    output->bytes = (uint8_t *)PyMem_Malloc(room);
  }
  PyErr_NoMemory();
  return false;
}

void output_release(struct output *output) {
  if (output->bytes != output->small) PyMem_Free(output->bytes);
}

PyObject *object_of(const uint8_t *bytes, size_t len, bool is_str) {
  return is_str ? PyUnicode_FromStringAndSize((const char *)bytes, (Py_ssize_t)len) : PyBytes_FromStringAndSize((const char *)bytes, (Py_ssize_t)len);
}

PyObject *output_object(struct output *output, bool is_str) {
  PyObject *object = object_of(output->bytes, output->len, is_str);
  output_release(output);
  return object;
}

uint32_t exact_key(const void *text, size_t len, void *out, size_t room, size_t *needed) {
  return uriparse_key(0, text, len, out, room, needed);
}

uint32_t normal_form_key(const void *text, size_t len, void *out, size_t room, size_t *needed) {
  return uriparse_key(URIPARSE_KEY_NORMAL, text, len, out, room, needed);
}

uint32_t page_form_key(const void *text, size_t len, void *out, size_t room, size_t *needed) {
  return uriparse_key(URIPARSE_KEY_PAGE, text, len, out, room, needed);
}
