/*
 * A producer of Arrow arrays and streams in C, by Arrow's C data interface and its PyCapsule protocol: a module for
 * test_arrow, which knows nothing of `versions`. The arrays are slices of the texts "9.9", "1.2.3", null, "x y" and
 * "1.10", without the first.
 *
 * array() returns the capsules of __arrow_c_array__ of large strings, stream(n) the capsule of __arrow_c_stream__ of n
 * chunks of strings, and alive() how many structures are not released.
 */
#include <Python.h>

struct ArrowSchema {
  const char *format, *name, *metadata;
  int64_t flags, n_children;
  struct ArrowSchema **children, *dictionary;
  void (*release)(struct ArrowSchema *);
  void *private_data;
};

struct ArrowArray {
  int64_t length, null_count, offset, n_buffers, n_children;
  const void **buffers;
  struct ArrowArray **children, *dictionary;
  void (*release)(struct ArrowArray *);
  void *private_data;
};

struct ArrowArrayStream {
  int (*get_schema)(struct ArrowArrayStream *, struct ArrowSchema *);
  int (*get_next)(struct ArrowArrayStream *, struct ArrowArray *);
  const char *(*get_last_error)(struct ArrowArrayStream *);
  void (*release)(struct ArrowArrayStream *);
  void *private_data;
};

static long alive;

static const uint8_t validity[] = {1 << 0 | 1 << 1 | 1 << 3 | 1 << 4};
static const int32_t offsets[] = {0, 3, 8, 8, 11, 15};
static const int64_t large_offsets[] = {0, 3, 8, 8, 11, 15};
static const char texts[] = "9.91.2.3x y1.10";
static const void *buffers[] = {validity, offsets, texts}, *large_buffers[] = {validity, large_offsets, texts};

static void release_schema(struct ArrowSchema *schema) {
  schema->release = NULL;
  alive--;
}

static void release_array(struct ArrowArray *array) {
  array->release = NULL;
  alive--;
}

static void release_stream(struct ArrowArrayStream *stream) {
  stream->release = NULL;
  alive--;
}

static void export_schema(struct ArrowSchema *schema, const char *format) {
  *schema = (struct ArrowSchema){.format = format, .name = "", .flags = 2, .release = release_schema};
  alive++;
}

static void export_array(struct ArrowArray *array, const void **from) {
  *array = (struct ArrowArray){
      .length = 4, .null_count = 1, .offset = 1, .n_buffers = 3, .buffers = from, .release = release_array};
  alive++;
}

static int get_schema(struct ArrowArrayStream *stream, struct ArrowSchema *schema) {
  (void)stream;
  export_schema(schema, "u");
  return 0;
}

/* The private data counts the chunks that are left. */
static int get_next(struct ArrowArrayStream *stream, struct ArrowArray *array) {
  intptr_t left = (intptr_t)stream->private_data;
  array->release = NULL;
  if (left > 0) export_array(array, buffers);
  stream->private_data = (void *)(left - 1);
  return 0;
}

static const char *get_last_error(struct ArrowArrayStream *stream) {
  (void)stream;
  return NULL;
}

/* Each destructor releases what its capsule holds, unless a consumer has. */
static void destroy_schema(PyObject *capsule) {
  struct ArrowSchema *schema = PyCapsule_GetPointer(capsule, "arrow_schema");
  if (schema->release != NULL) schema->release(schema);
  free(schema);
}

static void destroy_array(PyObject *capsule) {
  struct ArrowArray *array = PyCapsule_GetPointer(capsule, "arrow_array");
  if (array->release != NULL) array->release(array);
  free(array);
}

static void destroy_stream(PyObject *capsule) {
  struct ArrowArrayStream *stream = PyCapsule_GetPointer(capsule, "arrow_array_stream");
  if (stream->release != NULL) stream->release(stream);
  free(stream);
}

static PyObject *array(PyObject *Py_UNUSED(module), PyObject *Py_UNUSED(args)) {
  struct ArrowSchema *schema = malloc(sizeof *schema);
  struct ArrowArray *array = malloc(sizeof *array);
  export_schema(schema, "U");
  export_array(array, large_buffers);
  return Py_BuildValue("NN", PyCapsule_New(schema, "arrow_schema", destroy_schema),
                       PyCapsule_New(array, "arrow_array", destroy_array));
}

static PyObject *stream(PyObject *Py_UNUSED(module), PyObject *chunks) {
  struct ArrowArrayStream *stream = malloc(sizeof *stream);
  *stream = (struct ArrowArrayStream){get_schema, get_next, get_last_error, release_stream, PyLong_AsVoidPtr(chunks)};
  alive++;
  return PyCapsule_New(stream, "arrow_array_stream", destroy_stream);
}

static PyObject *count_alive(PyObject *Py_UNUSED(module), PyObject *Py_UNUSED(args)) { return PyLong_FromLong(alive); }

static PyMethodDef functions[] = {
    {"array", array, METH_NOARGS, NULL},
    {"stream", stream, METH_O, NULL},
    {"alive", count_alive, METH_NOARGS, NULL},
    {NULL, NULL, 0, NULL},
};

static struct PyModuleDef definition = {PyModuleDef_HEAD_INIT, .m_name = "producer", .m_methods = functions};

PyMODINIT_FUNC PyInit_producer(void) { return PyModule_Create(&definition); }
