/*
 * _arrow.c: texts of Arrow, by its C data interface and its PyCapsule protocol. A capsule's structure stays in the
 * capsule, which releases it. What a stream hands out is released here. Releasing may run code of Python, and so an
 * error is put aside for that time.
 */
#include "_library.h"

struct ArrowSchema {
  const char *format, *name, *metadata;
  int64_t flags, n_children;
  struct ArrowSchema **children, *dictionary;
  void (*release)(struct ArrowSchema *);
  void *private_data;
};

struct ArrowArray {
  int64_t length, null_count, offset, n_buffers, n_children;
  const void **buffers;
  struct ArrowArray **children, *dictionary;
  void (*release)(struct ArrowArray *);
  void *private_data;
};

struct ArrowArrayStream {
  int (*get_schema)(struct ArrowArrayStream *, struct ArrowSchema *);
  int (*get_next)(struct ArrowArrayStream *, struct ArrowArray *);
  const char *(*get_last_error)(struct ArrowArrayStream *);
  void (*release)(struct ArrowArrayStream *);
  void *private_data;
};

static int raise_arrow(const char *what) {
  fail(PyExc_ValueError, "an Arrow array of texts %s", what);
  return -1;
}

/*
 * What an export that fails amounts to: 0, with the error, since the object may be iterated instead. It is -1 where the
 * error isn't about the export, as one for lack of memory or Ctrl-C.
 */
static int not_exported(void) {
  return PyErr_ExceptionMatches(PyExc_Exception) && !PyErr_ExceptionMatches(PyExc_MemoryError) ? 0 : -1;
}

/* Of arrays of string_view and binary_view: how many bytes a view has, and how many of a text are in it at most. */
enum { VIEW = 16, INLINE = 12 };

/* How many bytes an offset or a view has in arrays of the schema's type. */
static int width_of(const struct ArrowSchema *schema) {
  static const struct {
    const char *format;
    int width;
  } types[] = {{"u", 4}, {"z", 4}, {"U", 8}, {"Z", 8}, {"vu", VIEW}, {"vz", VIEW}};
  size_t place;

  for (place = 0; schema->dictionary == NULL && place < sizeof types / sizeof *types; place++)
    if (strcmp(schema->format, types[place].format) == 0) return types[place].width;
  fail(PyExc_TypeError,
       "an Arrow array of texts is of type string, binary, large_string, large_binary, string_view or binary_view "
       "(format u, z, U, Z, vu or vz), and this is %s of format %s",
       schema->dictionary == NULL ? "one" : "a dictionary", schema->format);
  return -1;
}

/* The array's offsets as the library reads them: of 64 bits, each at an address that is aligned. */
static int64_t *offsets_of(const struct ArrowArray *array, int width) {
  size_t count = (size_t)array->length, place;
  const char *from = (const char *)array->buffers[1] + (size_t)array->offset * (size_t)width;
  int64_t *offsets = allocated(count, sizeof *offsets);

  if (offsets == NULL) return NULL;
  if (width == 8) {
    memcpy(offsets, from, (count + 1) * sizeof *offsets);
    return offsets;
  }
  for (place = 0; place <= count; place++) {
    int32_t offset;

    memcpy(&offset, from + place * sizeof offset, sizeof offset);
    offsets[place] = offset;
  }
  return offsets;
}

/* Asks about an array whose offsets are read. An array doesn't say how long its bytes are: up to its last offset. */
static int ask_with_offsets(const struct call *call, const struct ArrowArray *array, const int64_t *offsets,
                            PyObject *answers) {
  size_t count = (size_t)array->length, size = offsets[count] > 0 ? (size_t)offsets[count] : 0;
  struct texts texts = {array->buffers[2], size, offsets, count, array->buffers[0], (size_t)array->offset};

  if (texts.bytes == NULL && size > 0) return raise_arrow("lacks its bytes");
  return call->ask(call, &texts, answers);
}

/* Reads the text of a view: its length, and then its bytes or four of them, a buffer's number and an offset there. */
static int read_view(const struct ArrowArray *array, int64_t place, struct text *text) {
  const char *view = (const char *)array->buffers[1] + (size_t)place * VIEW;
  const void *lengths = array->buffers[array->n_buffers - 1], *bytes;
  int32_t size, buffer, start;
  int64_t length;

  memcpy(&size, view, sizeof size);
  memcpy(&buffer, view + 8, sizeof buffer);
  memcpy(&start, view + 12, sizeof start);
  text->bytes = view + 4;
  text->size = (size_t)size;
  if (size >= 0 && size <= INLINE) return 0;
  if (size < 0 || buffer < 0 || buffer >= array->n_buffers - 3 || start < 0 || lengths == NULL)
    return raise_arrow("has a view that is wrong");
  memcpy(&length, (const char *)lengths + (size_t)buffer * sizeof length, sizeof length);
  bytes = array->buffers[2 + buffer];
  if (bytes == NULL || length < (int64_t)start + size) return raise_arrow("has a view that leaves its buffer");
  text->bytes = (const char *)bytes + start;
  return 0;
}

/* Gathers the texts of views. A null becomes a text that is not a version, since its view may be anything. */
static int gather_views(struct gathered *gathered, const struct ArrowArray *array) {
  const uint8_t *validity = array->buffers[0];
  int64_t place, end = array->offset + array->length;

  for (place = array->offset; place < end; place++) {
    struct text text = {NOT_UTF8, sizeof NOT_UTF8 - 1};
    bool is_null = validity != NULL && !(validity[place / 8] >> place % 8 & 1);

    if ((!is_null && read_view(array, place, &text) < 0) || add_text(gathered, &text) < 0) return -1;
  }
  return 0;
}

static int ask_views(const struct call *call, const struct ArrowArray *array, PyObject *answers) {
  struct gathered gathered = {NULL, 0, 0, NULL, 0, 0};
  int failed = gather_views(&gathered, array);

  if (failed == 0) {
    struct texts texts = texts_of(&gathered);

    failed = call->ask(call, &texts, answers);
  }
  free_gathered(&gathered);
  return failed;
}

static int ask_array(const struct call *call, const struct ArrowArray *array, int width, PyObject *answers) {
  int64_t *offsets;
  int failed;

  /* After the views come the buffers that they are of, and last how long each of these is. */
  if ((width == VIEW ? array->n_buffers < 3 : array->n_buffers != 3) || array->length < 0 || array->offset < 0 ||
      array->length > PY_SSIZE_T_MAX / width - 1 - array->offset)
    return raise_arrow("has a wrong length, offset or number of buffers");
  if (array->length == 0) return 0;
  if (array->buffers[1] == NULL) return raise_arrow(width == VIEW ? "lacks its views" : "lacks its offsets");
  if (width == VIEW) return ask_views(call, array, answers);
  offsets = offsets_of(array, width);
  if (offsets == NULL) return -1;
  failed = ask_with_offsets(call, array, offsets, answers);
  PyMem_Free(offsets);
  return failed;
}

/* What the capsules have of __arrow_c_array__, and the width of the array's type. Returns -1 if that can't be read. */
static int array_width(PyObject *capsules, const struct ArrowArray **array) {
  const struct ArrowSchema *schema;
  PyObject *first, *second;

  if (!PyTuple_Check(capsules)) {
    fail(PyExc_TypeError, "__arrow_c_array__ returned no tuple");
    return -1;
  }
  if (!PyArg_ParseTuple(capsules, "OO:__arrow_c_array__", &first, &second)) return -1;
  schema = PyCapsule_GetPointer(first, "arrow_schema");
  *array = schema == NULL ? NULL : PyCapsule_GetPointer(second, "arrow_array");
  if (*array == NULL) return -1;
  if (schema->release == NULL || (*array)->release == NULL) return raise_arrow("is released already");
  return width_of(schema);
}

static int ask_array_capsules(const struct call *call, PyObject *capsules, PyObject *answers) {
  const struct ArrowArray *array;
  int width = array_width(capsules, &array);

  if (width < 0) return not_exported();
  return ask_array(call, array, width, answers) < 0 ? -1 : 1;
}

static int raise_stream(struct ArrowArrayStream *stream, int failure) {
  const char *words = stream->get_last_error(stream);

  fail(PyExc_ValueError, "an Arrow stream failed with %d: %s", failure, words == NULL ? "" : words);
  return -1;
}

/* The width of the type of a stream's arrays, or -1 if that can't be read. */
static int stream_width(struct ArrowArrayStream *stream) {
  struct ArrowSchema schema = {.release = NULL};
  PyThreadState *thread;
  struct error error;
  int failure, width;

  if (stream == NULL) return -1;
  if (stream->release == NULL) return raise_arrow("is released already");
  thread = PyEval_SaveThread();
  failure = stream->get_schema(stream, &schema);
  PyEval_RestoreThread(thread);
  if (failure != 0) return raise_stream(stream, failure);
  width = width_of(&schema);
  error = put_aside();
  schema.release(&schema);
  put_back(error);
  return width;
}

/* Asks about the next array of a stream. Returns 1, or 0 at its end, which is an array that is released already. */
static int ask_next(const struct call *call, struct ArrowArrayStream *stream, int width, PyObject *answers) {
  struct ArrowArray array = {.release = NULL};
  /* A producer may need the lock in another thread of its own. */
  PyThreadState *thread = PyEval_SaveThread();
  int failure = stream->get_next(stream, &array), failed;
  struct error error;

  PyEval_RestoreThread(thread);
  if (failure != 0) return raise_stream(stream, failure);
  if (array.release == NULL) return 0;
  failed = ask_array(call, &array, width, answers);
  error = put_aside();
  array.release(&array);
  put_back(error);
  return failed < 0 ? -1 : 1;
}

static int ask_stream_capsule(const struct call *call, PyObject *capsule, PyObject *answers) {
  struct ArrowArrayStream *stream = PyCapsule_GetPointer(capsule, "arrow_array_stream");
  int width = stream_width(stream), found = 1;

  if (width < 0) return not_exported();
  /* From here on a failure is an error: what the stream has handed out, iterating may not give again. */
  while (found > 0) found = ask_next(call, stream, width, answers);
  return found < 0 ? -1 : 1;
}

/* What a method of an object returns, NULL without an error where it has no such method, or where that is None. */
static PyObject *called(PyObject *object, const char *name) {
  PyObject *method = PyObject_GetAttrString(object, name), *answer = NULL;

  if (method == NULL) {
    if (PyErr_ExceptionMatches(PyExc_AttributeError)) PyErr_Clear();
    return NULL;
  }
  if (method != Py_None) answer = PyObject_CallObject(method, NULL);
  Py_DECREF(method);
  return answer;
}

/* Asks about what a method returned, and gives its reference away. Returns what ask_arrow does. */
static int ask_and_release(int (*ask)(const struct call *, PyObject *, PyObject *), const struct call *call,
                           PyObject *capsules, PyObject *answers) {
  int found = ask(call, capsules, answers);
  struct error error = put_aside();

  Py_DECREF(capsules);
  put_back(error);
  return found;
}

int ask_arrow(const struct call *call, PyObject *object, PyObject *answers) {
  PyObject *capsules = called(object, "__arrow_c_array__");

  if (capsules != NULL) return ask_and_release(ask_array_capsules, call, capsules, answers);
  if (PyErr_Occurred()) return not_exported();
  capsules = called(object, "__arrow_c_stream__");
  if (capsules != NULL) return ask_and_release(ask_stream_capsule, call, capsules, answers);
  return PyErr_Occurred() ? not_exported() : 0;
}
