/* _texts.c: the texts of Python, one and many, as versions.h takes them; and errors. */
#include "_library.h"

#define LONG 65536

/*
 * CPython has it from 3.3 on, and in its stable ABI from 3.10 on. It calls no method of a subclass of str, and copies
 * nothing of an ASCII text. Any other text keeps its bytes in UTF-8 from then on.
 */
PyAPI_FUNC(const char *) PyUnicode_AsUTF8AndSize(PyObject *text, Py_ssize_t *size);

void *fail(PyObject *type, const char *format, ...) {
  va_list arguments;
  PyObject *words;

  va_start(arguments, format);
  words = PyUnicode_FromFormatV(format, arguments);
  va_end(arguments);
  if (words != NULL) PyErr_SetObject(type, words);
  Py_XDECREF(words);
  return NULL;
}

void *raise_invalid(const char *name, PyObject *text, uint32_t scheme) {
  PyObject *errors = PyImport_ImportModule("versions._errors");
  PyObject *type = errors == NULL ? NULL : PyObject_GetAttrString(errors, name);
  PyObject *held = type == NULL ? NULL : PyUnicode_FromObject(text);

  if (held != NULL && scheme != VERSIONS_MIXED) held = pair_of(held, scheme_name(scheme));
  if (held != NULL) PyErr_SetObject(type, held);
  Py_XDECREF(held);
  Py_XDECREF(type);
  Py_XDECREF(errors);
  return NULL;
}

void *raise_other(const char *wanted, PyObject *object) {
  PyObject *name = PyObject_GetAttrString((PyObject *)Py_TYPE(object), "__name__");

  if (name != NULL) fail(PyExc_TypeError, "%s, and this is of type %S: %R", wanted, name, object);
  Py_XDECREF(name);
  return NULL;
}

void *raise_status(int status) {
  if (status == VERSIONS_BAD_OFFSETS)
    return fail(PyExc_ValueError, "offsets of texts descend, are negative or leave their buffer");
  return fail(PyExc_RuntimeError, "versions: the library returned status %d", status);
}

struct error put_aside(void) {
  struct error error;

  PyErr_Fetch(&error.type, &error.value, &error.trace);
  return error;
}

void put_back(struct error error) { PyErr_Restore(error.type, error.value, error.trace); }

void add_context(struct error context) {
  struct error raised = put_aside();
  PyObject *of_its_own = NULL;

  if (raised.type != NULL && context.type != NULL) {
    PyErr_NormalizeException(&raised.type, &raised.value, &raised.trace);
    PyErr_NormalizeException(&context.type, &context.value, &context.trace);
    of_its_own = PyException_GetContext(raised.value);
    if (of_its_own == NULL && context.value != raised.value) {
      Py_INCREF(context.value);
      PyException_SetContext(raised.value, context.value);
    }
  }
  Py_XDECREF(of_its_own);
  Py_XDECREF(context.type);
  Py_XDECREF(context.value);
  Py_XDECREF(context.trace);
  put_back(raised);
}

/*
 * Schemes
 */

/* Writes the name of a scheme. Returns a status. */
static int ask_name(uint32_t scheme, PyObject **name) {
  char room[16];
  size_t size = 0;
  int status = versions_scheme_name(scheme, room, sizeof room, &size);

  if (status == VERSIONS_OK) *name = PyUnicode_FromStringAndSize(room, (Py_ssize_t)size);
  return status;
}

PyObject *scheme_name(uint32_t scheme) {
  PyObject *name = NULL;
  int status = ask_name(scheme, &name);

  return status == VERSIONS_OK ? name : raise_status(status);
}

PyObject *scheme_names(void) {
  PyObject *names = PyList_New(0), *name = NULL, *all;
  uint32_t scheme = VERSIONS_MIXED;
  int status = VERSIONS_OK;

  while (names != NULL && (status = ask_name(scheme++, &name)) == VERSIONS_OK) {
    if (name == NULL || PyList_Append(names, name) < 0) Py_CLEAR(names);
    Py_XDECREF(name);
  }
  if (names != NULL && status != VERSIONS_NO_SCHEME) {
    Py_CLEAR(names);
    raise_status(status);
  }
  all = names == NULL ? NULL : PyList_AsTuple(names);
  Py_XDECREF(names);
  return all;
}

/* ValueError for a text that is the name of no scheme. */
static void raise_no_scheme(PyObject *object) {
  PyObject *names = scheme_names(), *comma = names == NULL ? NULL : PyUnicode_FromString(", ");
  PyObject *listed = comma == NULL ? NULL : PyUnicode_Join(comma, names);

  if (listed != NULL) fail(PyExc_ValueError, "a scheme is one of %U, and this is %R", listed, object);
  Py_XDECREF(listed);
  Py_XDECREF(comma);
  Py_XDECREF(names);
}

int read_scheme(PyObject *object, uint32_t *scheme) {
  struct text text;
  int status;

  *scheme = VERSIONS_MIXED;
  if (!PyUnicode_Check(object)) {
    raise_other("a scheme is a str", object);
    return -1;
  }
  if (read_text(object, &text) < 0) return -1;
  status = versions_scheme(text.bytes, text.size, scheme);
  if (status == VERSIONS_OK) return 0;
  if (status == VERSIONS_NO_SCHEME)
    raise_no_scheme(object);
  else
    raise_status(status);
  return -1;
}

void *raise_schemes(uint32_t wanted, uint32_t given) {
  PyObject *first = scheme_name(wanted), *second = first == NULL ? NULL : scheme_name(given);

  if (second != NULL) fail(PyExc_TypeError, "versions of %U are wanted, and this is of %U", first, second);
  Py_XDECREF(second);
  Py_XDECREF(first);
  return NULL;
}

uint32_t scheme_or_its(uint32_t given, PyObject *object) {
  if (given != NO_SCHEME) return given;
  if (is_keyed(object)) return keyed_scheme(object);
  return is_formed(object) ? formed_set(object).scheme : VERSIONS_MIXED;
}

/*
 * One text
 */

int read_text(PyObject *object, struct text *text) {
  Py_ssize_t size;

  if (!PyUnicode_Check(object)) {
    raise_other("a text is a str", object);
    return -1;
  }
  text->bytes = PyUnicode_AsUTF8AndSize(object, &size);
  if (text->bytes != NULL) {
    text->size = (size_t)size;
    return 0;
  }
  /* A lone surrogate has no bytes in UTF-8. */
  if (!PyErr_ExceptionMatches(PyExc_UnicodeEncodeError)) return -1;
  PyErr_Clear();
  text->bytes = NOT_UTF8;
  text->size = sizeof NOT_UTF8 - 1;
  return 0;
}

PyThreadState *let_go(size_t size) { return size > LONG ? PyEval_SaveThread() : NULL; }

void take_again(PyThreadState *thread) {
  if (thread != NULL) PyEval_RestoreThread(thread);
}

int read_arguments(PyObject *args, PyObject *named, const char *format, char **names, PyObject **a, PyObject **b) {
  if (named != NULL || PyTuple_Size(args) != (b == NULL ? 1 : 2))
    return PyArg_ParseTupleAndKeywords(args, named, format, names, a, b) ? 0 : -1;
  *a = PyTuple_GetItem(args, 0);
  if (b != NULL) *b = PyTuple_GetItem(args, 1);
  return 0;
}

int read_with_scheme(PyObject *args, PyObject *named, const char *format, char **names, PyObject **a, PyObject **b,
                     uint32_t *scheme) {
  PyObject *name = NULL;

  if (named == NULL) return read_arguments(args, named, format, names, a, b);
  /* The scheme follows the one argument, or the two. */
  if (!PyArg_ParseTupleAndKeywords(args, named, format, names, a, b == NULL ? &name : b, &name)) return -1;
  return name == NULL ? 0 : read_scheme(name, scheme);
}

/*
 * Many texts
 */

void *allocated(size_t count, size_t size) {
  void *array = count < PY_SSIZE_T_MAX / size ? PyMem_Malloc((count + 1) * size) : NULL;

  return array != NULL ? array : (void *)PyErr_NoMemory();
}

PyThreadState *let_go_of(const struct texts *texts) {
  return let_go(texts->count > LONG ? texts->count : texts->size);
}

/* What a module has by a name, and NULL without an error where it isn't loaded or has nothing of that name. */
static PyObject *of_loaded(const char *module, const char *name) {
  PyObject *named = PyUnicode_FromString(module), *loaded, *found;

  if (named == NULL) return NULL;
  loaded = PyImport_GetModule(named);
  Py_DECREF(named);
  if (loaded == NULL) return NULL;
  found = PyObject_GetAttrString(loaded, name);
  Py_DECREF(loaded);
  if (found == NULL && PyErr_ExceptionMatches(PyExc_AttributeError)) PyErr_Clear();
  return found;
}

/* Whether an item is what pandas has by that name. */
static int is_of_pandas(PyObject *item, const char *name) {
  PyObject *found = of_loaded("pandas", name);
  int answer = found == item;

  Py_XDECREF(found);
  return PyErr_Occurred() ? -1 : answer;
}

/* Whether an item is a float of numpy, of any width. */
static int is_of_numpy(PyObject *item) {
  PyObject *floating = of_loaded("numpy", "floating");
  int answer = floating != NULL && PyType_Check(floating) && PyType_IsSubtype(Py_TYPE(item), (PyTypeObject *)floating);

  Py_XDECREF(floating);
  return PyErr_Occurred() ? -1 : answer;
}

/* Whether a float, of Python or of numpy, is not a number. */
static int is_nan(PyObject *item) {
  double number = PyFloat_AsDouble(item);

  return PyErr_Occurred() ? -1 : number != number;
}

/* Whether an item is a missing value. */
static int is_missing(PyObject *item) {
  int answer;

  if (item == Py_None) return 1;
  if (PyFloat_Check(item)) return is_nan(item);
  answer = is_of_pandas(item, "NA");
  if (answer == 0) answer = is_of_pandas(item, "NaT");
  if (answer != 0) return answer;
  answer = is_of_numpy(item);
  return answer == 1 ? is_nan(item) : answer;
}

PyObject *text_of(PyObject *object, uint32_t scheme) {
  if (PyUnicode_Check(object) || !is_keyed(object)) return object;
  return keyed_scheme(object) == scheme ? keyed_text(object) : raise_schemes(scheme, keyed_scheme(object));
}

int read_item(PyObject *item, uint32_t scheme, struct text *text) {
  PyObject *object = text_of(item, scheme);

  return object == NULL ? -1 : read_text(object, text);
}

int read_item_or_none(PyObject *item, uint32_t scheme, struct text *text) {
  if (!PyUnicode_Check(item) && !is_keyed(item)) {
    int missing = is_missing(item);

    if (missing != 0) return missing < 0 ? -1 : 0;
  }
  return read_item(item, scheme, text) < 0 ? -1 : 1;
}

/* Makes an array twice as long until it has `wanted` elements of `size` bytes. */
static int grow(void **array, size_t *room, size_t wanted, size_t size) {
  size_t more = *room < 64 ? 64 : *room;
  void *grown;

  while (more < wanted && more < PY_SSIZE_T_MAX / 2) more *= 2;
  grown = more < wanted || more > PY_SSIZE_T_MAX / size ? NULL : PyMem_Realloc(*array, more * size);
  if (grown == NULL) {
    PyErr_NoMemory();
    return -1;
  }
  *array = grown;
  *room = more;
  return 0;
}

/* Room for one more text of that size, and for the offset of the next. */
static int make_room(struct gathered *gathered, size_t size) {
  void *memory = gathered->bytes, *offsets = gathered->offsets;

  if (gathered->size + size + 1 > gathered->room) {
    if (grow(&memory, &gathered->room, gathered->size + size + 1, 1) < 0) return -1;
    gathered->bytes = memory;
  }
  if (gathered->count + 2 > gathered->places) {
    if (grow(&offsets, &gathered->places, gathered->count + 2, sizeof *gathered->offsets) < 0) return -1;
    gathered->offsets = offsets;
  }
  return 0;
}

int add_text(struct gathered *gathered, const struct text *text) {
  if (make_room(gathered, text->size) < 0) return -1;
  gathered->offsets[gathered->count++] = (int64_t)gathered->size;
  memcpy(gathered->bytes + gathered->size, text->bytes, text->size);
  gathered->size += text->size;
  return 0;
}

struct texts texts_of(const struct gathered *gathered) {
  static const int64_t no_offsets[] = {0};
  struct texts texts = {gathered->bytes, gathered->size, no_offsets, gathered->count, NULL, 0};

  if (gathered->count > 0) {
    gathered->offsets[gathered->count] = (int64_t)gathered->size;
    texts.offsets = gathered->offsets;
  }
  return texts;
}

void free_gathered(struct gathered *gathered) {
  PyMem_Free(gathered->bytes);
  PyMem_Free(gathered->offsets);
}

int refuse_one(PyObject *texts) {
  if (!PyUnicode_Check(texts) && !PyBytes_Check(texts)) return 0;
  fail(PyExc_TypeError, "many texts are wanted, and this is one: %R", texts);
  return -1;
}
