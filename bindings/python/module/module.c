/* The extension module `_uriparse`: what belongs to one import of it. */
#include "module.h"

static int state_traverse(PyObject *module, visitproc visit, void *arg) {
  struct state *state = state_of(module);
  Py_VISIT(state->read);
  Py_VISIT(state->compared);
  Py_VISIT(state->components);
  Py_VISIT(state->error);
  Py_VISIT(state->keep);
  return 0;
}

static int state_clear(PyObject *module) {
  struct state *state = state_of(module);
  Py_CLEAR(state->read);
  Py_CLEAR(state->compared);
  Py_CLEAR(state->components);
  Py_CLEAR(state->error);
  Py_CLEAR(state->keep);
  for (size_t i = 0; i < 4; i++) Py_CLEAR(state->kinds[i]);
  return 0;
}

static void state_free(void *module) { state_clear((PyObject *)module); }

/* The library's code is for processors of a certain level, and would end with a signal on another one. */
static bool has_processor(void) {
#ifdef __x86_64__
  __builtin_cpu_init();
  if (!__builtin_cpu_supports("sse4.2") || !__builtin_cpu_supports("popcnt")) {
    PyErr_SetString(PyExc_ImportError, "uriparse needs a processor of level x86-64-v2, with SSE4.2 and POPCNT");
    return false;
  }
#endif
  return true;
}

static int state_start(PyObject *module) {
  static const char *const kinds[4] = {"name", "ipv4", "ipv6", "ipvfuture"};
  struct state *state = state_of(module);
  if (!has_processor() || !reference_types(module, state)) return -1;
  for (size_t i = 0; i < 4; i++) {
    state->kinds[i] = PyUnicode_InternFromString(kinds[i]);
    if (!state->kinds[i]) return -1;
  }
  if (PyModule_AddStringConstant(module, "version", uriparse_version())) return -1;
  state->components = Py_NewRef((PyObject *)state->read);
  state->error = Py_NewRef(PyExc_ValueError);
  state->keep = Py_NewRef(Py_Ellipsis);
  PyMethodDef *const methods[] = {call_methods, edit_methods, many_methods};
  for (size_t i = 0; i < 3; i++) {
    if (PyModule_AddFunctions(module, methods[i])) return -1;
  }
  return 0;
}

static void replace_object(PyObject **place, PyObject *object) {
  PyObject *old = *place;
  *place = Py_NewRef(object);
  Py_DECREF(old);
}

/* Sets what the package defines: the class of components, that of errors, and what keeps a component. */
static PyObject *use(PyObject *module, PyObject *const *args, Py_ssize_t count, PyObject *kwnames) {
  static const char *const names[] = {"components", "error", "keep"};
  struct state *state = state_of(module);
  PyObject *found[3];
  if (!take_arguments("use", names, 3, args, count, kwnames, found)) return NULL;
  if (!PyType_Check(found[0]) || !PyType_IsSubtype((PyTypeObject *)found[0], state->read)) {
    PyErr_SetString(PyExc_TypeError, "components: a subclass of Read expected");
    return NULL;
  }
  replace_object(&state->components, found[0]);
  replace_object(&state->error, found[1]);
  replace_object(&state->keep, found[2]);
  Py_RETURN_NONE;
}

static PyMethodDef use_method[] = {METHOD("use", use, NULL), {NULL, NULL, 0, NULL}};

static PyModuleDef_Slot slots[] = {{Py_mod_exec, state_start}, {0, NULL}};

static struct PyModuleDef definition = {
    PyModuleDef_HEAD_INIT, "_uriparse", "The library for C, which the package `uriparse` calls.", sizeof(struct state), use_method, slots,
    state_traverse, state_clear, state_free};

PyMODINIT_FUNC PyInit__uriparse(void);

PyMODINIT_FUNC PyInit__uriparse(void) { return PyModuleDef_Init(&definition); }
