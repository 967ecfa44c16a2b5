/* References that were read: they keep their text, and a component is cut when it is read. */
#include "module.h"

#include <string.h>

struct reference {
  PyObject_HEAD
  const struct state *state;
  PyObject *text; /* a str or bytes object of exactly that type */
  const uint8_t *bytes;
  size_t len;
  Py_hash_t hash; /* -1 until it is computed */
  struct uriparse_parts parts;
};

bool reference_is_uri(const struct state *state, PyObject *object) { return PyObject_TypeCheck(object, state->compared); }

void reference_text(PyObject *object, struct text *text) {
  const struct reference *self = (const struct reference *)object;
  text->source = self->text;
  text->bytes = self->bytes;
  text->len = self->len;
  text->is_str = true;
}

PyObject *reference_cut(PyObject *source, const uint8_t *bytes, const struct uriparse_span *span) {
  if (!span->present) Py_RETURN_NONE;
  if (PyUnicode_Check(source)) return PyUnicode_Substring(source, (Py_ssize_t)span->begin, (Py_ssize_t)span->end);
  return object_of(bytes + span->begin, span->end - span->begin, false);
}

PyObject *reference_new(const struct state *state, PyTypeObject *type, const struct text *text, const struct uriparse_parts *parts) {
  PyObject *kept = text_copy(text);
  struct reference *self = kept ? (struct reference *)PyType_GenericAlloc(type, 0) : NULL;
  if (!self) {
    Py_XDECREF(kept);
    return NULL;
  }
  self->state = state;
  self->text = kept;
  self->hash = -1;
  self->parts = *parts;
  self->bytes = kept == text->source ? text->bytes : (const uint8_t *)(text->is_str ? PyUnicode_AsUTF8AndSize(kept, NULL) : PyBytes_AsString(kept));
  self->len = text->len;
  if (self->bytes) return (PyObject *)self;
  Py_DECREF(self);
  return NULL;
}

static void reference_dealloc(PyObject *object) {
  PyTypeObject *type = Py_TYPE(object);
  freefunc release = (freefunc)PyType_GetSlot(type, Py_tp_free);
  Py_CLEAR(((struct reference *)object)->text);
  release(object);
  Py_DECREF(type);
}

/* The state of the module that a type is made in, or the one of this module that it is made from. */
static const struct state *state_of_type(PyTypeObject *type) {
  while (PyType_GetSlot(type, Py_tp_dealloc) != (void *)reference_dealloc) type = (PyTypeObject *)PyType_GetSlot(type, Py_tp_base);
  return (const struct state *)PyType_GetModuleState(type);
}

/* The one argument of a constructor, which is named `text`. */
static PyObject *only_argument(PyObject *args, PyObject *kwargs) {
  static char *names[] = {"text", NULL};
  PyObject *source = NULL;
  return PyArg_ParseTupleAndKeywords(args, kwargs, "O", names, &source) ? source : NULL;
}

static PyObject *reference_read(const struct state *state, PyTypeObject *type, PyObject *source) {
  struct text text;
  struct uriparse_parts parts;
  if (!text_take(state, &text, source, PLAIN)) return NULL;
  uint32_t code = uriparse_parse(text.bytes, text.len, &parts);
  PyObject *made = code ? reject_fault(state, code, &text, "text") : reference_new(state, type, &text, &parts);
  text_release(&text);
  return made;
}

static PyObject *read_new(PyTypeObject *type, PyObject *args, PyObject *kwargs) {
  PyObject *source = only_argument(args, kwargs);
  const struct state *state = source ? state_of_type(type) : NULL;
  return state ? reference_read(state, type, source) : NULL;
}

static PyObject *compared_new(PyTypeObject *type, PyObject *args, PyObject *kwargs) {
  PyObject *source = only_argument(args, kwargs);
  const struct state *state = source ? state_of_type(type) : NULL;
  if (!state) return NULL;
  if (PyUnicode_Check(source)) return reference_read(state, type, source);
  PyObject *name = PyType_GetName(Py_TYPE(source));
  if (name) {
    PyErr_Format(PyExc_TypeError, "str expected, not %U", name);
    Py_DECREF(name);
  }
  return NULL;
}

static PyObject *get_component(PyObject *object, void *offset) {
  const struct reference *self = (const struct reference *)object;
  return reference_cut(self->text, self->bytes, (const struct uriparse_span *)((const char *)&self->parts + (size_t)offset));
}

PyObject *reference_kind(const struct state *state, uint32_t kind) {
  switch (kind) {
  case URIPARSE_HOST_NAME: return Py_NewRef(state->kinds[0]);
  case URIPARSE_HOST_IPV4: return Py_NewRef(state->kinds[1]);
  case URIPARSE_HOST_IPV6: return Py_NewRef(state->kinds[2]);
  case URIPARSE_HOST_FUTURE: return Py_NewRef(state->kinds[3]);
  default: Py_RETURN_NONE;
  }
}

static PyObject *get_kind(PyObject *object, void *none) {
  const struct reference *self = (const struct reference *)object;
  (void)none;
  return reference_kind(self->state, self->parts.host_kind);
}

static PyObject *get_port_number(PyObject *object, void *none) {
  const struct uriparse_parts *parts = &((const struct reference *)object)->parts;
  (void)none;
  if (parts->port.begin == parts->port.end) Py_RETURN_NONE;
  return PyLong_FromUnsignedLong(parts->port_number);
}

static PyObject *get_text(PyObject *object, void *none) {
  (void)none;
  return Py_NewRef(((struct reference *)object)->text);
}

/* The hash by which equal references have equal ones. */
static Py_hash_t hash_reference(PyObject *object) {
  struct reference *self = (struct reference *)object;
  if (self->hash == -1) {
    uint64_t found = 0;
    uriparse_hash(self->bytes, self->len, &found);
    self->hash = (Py_hash_t)found == -1 ? -2 : (Py_hash_t)found;
  }
  return self->hash;
}

/* References of one text are equal, and those of different hashes aren't. */
static bool are_equal(PyObject *left, PyObject *right) {
  const struct reference *a = (const struct reference *)left, *b = (const struct reference *)right;
  bool equal = false;
  if (a->text == b->text || (a->len == b->len && !memcmp(a->bytes, b->bytes, a->len))) return true;
  if (hash_reference(left) != hash_reference(right)) return false;
  uriparse_equal(a->bytes, a->len, b->bytes, b->len, &equal);
  return equal;
}

static PyObject *compare_references(PyObject *left, PyObject *right, int operator) {
  const struct reference *a = (const struct reference *)left, *b = (const struct reference *)right;
  int32_t order = 0;
  if (!PyObject_TypeCheck(right, a->state->compared)) Py_RETURN_NOTIMPLEMENTED;
  if (operator == Py_EQ || operator == Py_NE) return PyBool_FromLong(are_equal(left, right) == (operator == Py_EQ));
  uriparse_compare(a->bytes, a->len, b->bytes, b->len, &order);
  Py_RETURN_RICHCOMPARE(order, 0, operator);
}

static PyObject *str_reference(PyObject *object) { return get_text(object, NULL); }

static PyObject *repr_reference(PyObject *object) { return PyUnicode_FromFormat("URI(%R)", ((struct reference *)object)->text); }

#define COMPONENT(name) {#name, get_component, NULL, NULL, (void *)offsetof(struct uriparse_parts, name)}

static PyGetSetDef members[] = {
    COMPONENT(scheme), COMPONENT(authority), COMPONENT(username), COMPONENT(password), COMPONENT(host), COMPONENT(port),
    COMPONENT(path), COMPONENT(query), COMPONENT(fragment),
    {"host_kind", get_kind, NULL, NULL, NULL},
    {"port_number", get_port_number, NULL, NULL, NULL},
    {"_text", get_text, NULL, NULL, NULL},
    {NULL, NULL, NULL, NULL, NULL}};

static PyType_Slot read_slots[] = {
    {Py_tp_doc, "A reference that was read. It keeps its text, and a component is cut when it is read."},
    {Py_tp_new, read_new}, {Py_tp_dealloc, reference_dealloc}, {Py_tp_getset, members}, {0, NULL}};

static PyType_Slot compared_slots[] = {
    {Py_tp_doc, "A reference with the order and the hash of references."},
    {Py_tp_new, compared_new}, {Py_tp_dealloc, reference_dealloc}, {Py_tp_richcompare, compare_references}, {Py_tp_hash, hash_reference},
    {Py_tp_str, str_reference}, {Py_tp_repr, repr_reference}, {0, NULL}};

static PyType_Spec read_spec = {
    "uriparse._uriparse.Read", sizeof(struct reference), 0, Py_TPFLAGS_DEFAULT | Py_TPFLAGS_BASETYPE | Py_TPFLAGS_IMMUTABLETYPE, read_slots};

static PyType_Spec compared_spec = {
    "uriparse._uriparse.Compared", sizeof(struct reference), 0, Py_TPFLAGS_DEFAULT | Py_TPFLAGS_BASETYPE | Py_TPFLAGS_IMMUTABLETYPE,
    compared_slots};

bool reference_types(PyObject *module, struct state *state) {
  state->read = (PyTypeObject *)PyType_FromModuleAndSpec(module, &read_spec, NULL);
  if (!state->read || PyModule_AddType(module, state->read)) return false;
  PyObject *bases = PyTuple_Pack(1, state->read);
  state->compared = bases ? (PyTypeObject *)PyType_FromModuleAndSpec(module, &compared_spec, bases) : NULL;
  Py_XDECREF(bases);
  return state->compared && !PyModule_AddType(module, state->compared);
}
