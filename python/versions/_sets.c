/*
 * _sets.c: the type Formed, of which VersionSet is made. The text of a set is read once, and its form is kept, by which
 * all else is asked of the library.
 */
#include "_library.h"

#include <structmember.h>

struct formed {
  PyObject_HEAD struct set set; /* whose form is owned */
  PyObject *text;               /* that was read as the set; null where none was */
  PyObject *version;            /* the text of the version that `of` was called with; null where it wasn't */
};

/* What the library is passed of a form. */
struct form {
  const uint8_t *bytes;
  size_t size;
};

static struct form form_of_bytes(PyObject *bytes) {
  struct form form = {(const uint8_t *)PyBytes_AsString(bytes), (size_t)PyBytes_Size(bytes)};

  return form;
}

struct set formed_set(PyObject *formed) { return ((struct formed *)formed)->set; }

static struct form form_of(PyObject *formed) { return form_of_bytes(formed_set(formed).form); }

static void formed_dealloc(PyObject *self) {
  struct formed *formed = (struct formed *)self;

  Py_XDECREF(formed->set.form);
  Py_XDECREF(formed->text);
  Py_XDECREF(formed->version);
  free_object(self);
}

bool is_formed(PyObject *object) { return is_made_by(object, formed_dealloc); }

/*
 * Forms that are written
 */

/* The form that a call has written into a room, which is freed; or raises the error of the status. */
static PyObject *written(uint8_t *room, int status, size_t size) {
  PyObject *form = NULL;

  if (status == VERSIONS_OK)
    form = PyBytes_FromStringAndSize((const char *)room, (Py_ssize_t)size);
  else
    raise_status(status);
  PyMem_Free(room);
  return form;
}

/*
 * An object that holds the form of a set of a scheme, whose reference is given away, and what it was made of: a text, a
 * version or neither.
 */
static PyObject *made(PyTypeObject *type, uint32_t scheme, PyObject *form, PyObject *text, PyObject *version) {
  struct formed *formed = form == NULL ? NULL : (struct formed *)PyType_GenericAlloc(type, 0);

  if (formed == NULL) {
    Py_XDECREF(form);
    return NULL;
  }
  formed->set.form = form;
  formed->set.scheme = scheme;
  /* The text of a subclass of str is copied, as it is and not as the subclass shows it. */
  if (text != NULL) formed->text = PyUnicode_FromObject(text);
  if (version != NULL) formed->version = PyUnicode_FromObject(version);
  if (PyErr_Occurred()) Py_CLEAR(formed);
  return (PyObject *)formed;
}

static int ask_bound(uint32_t scheme, const struct text *text, size_t *bound) {
  PyThreadState *thread = let_go(text->size);
  int status = versions_set_bound(scheme, text->bytes, text->size, bound);

  take_again(thread);
  return status;
}

static PyObject *form_of_text(uint32_t scheme, PyObject *object) {
  size_t bound = 0, size = 0;
  PyThreadState *thread;
  struct text text;
  uint8_t *room;
  int status;

  if (read_text(object, &text) < 0) return NULL;
  status = ask_bound(scheme, &text, &bound);
  if (status != VERSIONS_OK) return raise_status(status);
  room = allocated(bound, 1);
  if (room == NULL) return NULL;
  thread = let_go(text.size);
  status = versions_set(scheme, text.bytes, text.size, room, bound, &size);
  take_again(thread);
  if (status != VERSIONS_NO_SET) return written(room, status, size);
  PyMem_Free(room);
  return raise_invalid("InvalidVersionSet", object, scheme);
}

PyObject *form_in(uint32_t scheme, PyObject *object) {
  struct set set;

  if (!is_formed(object)) return form_of_text(scheme, object);
  set = formed_set(object);
  if (set.scheme != scheme) return raise_schemes(scheme, set.scheme);
  Py_INCREF(set.form);
  return set.form;
}

static PyObject *formed_new(PyTypeObject *type, PyObject *args, PyObject *named) {
  static char *names[] = {"text", "scheme", NULL};
  PyObject *object, *text, *version = NULL;
  uint32_t scheme = NO_SCHEME;

  if (read_with_scheme(args, named, "O|$O:VersionSet", names, &object, NULL, &scheme) < 0) return NULL;
  scheme = scheme_or_its(scheme, object);
  text = object;
  if (is_formed(object)) {
    text = ((struct formed *)object)->text;
    version = ((struct formed *)object)->version;
  }
  return made(type, scheme, form_in(scheme, object), text, version);
}

static int ask_of(uint32_t scheme, const struct text *version, uint8_t *room, size_t *size) {
  PyThreadState *thread = let_go(version->size);
  int status = versions_set_of_version(scheme, version->bytes, version->size, room, *size, size);

  take_again(thread);
  return status;
}

/* The form of the set of what ties with a version. */
static PyObject *form_of_version(uint32_t scheme, PyObject *object) {
  struct text version;
  size_t size = 0;
  uint8_t *room;
  int status;

  if (read_text(object, &version) < 0) return NULL;
  status = ask_of(scheme, &version, NULL, &size);
  if (status == VERSIONS_NO_VERSION) return raise_invalid("InvalidVersion", object, scheme);
  if (status != VERSIONS_NO_ROOM) return raise_status(status);
  room = allocated(size, 1);
  if (room == NULL) return NULL;
  status = ask_of(scheme, &version, room, &size);
  return written(room, status, size);
}

static PyObject *formed_of(PyObject *type, PyObject *args, PyObject *named) {
  static char *names[] = {"version", "scheme", NULL};
  PyObject *object;
  uint32_t scheme = NO_SCHEME;

  if (read_with_scheme(args, named, "O|$O:of", names, &object, NULL, &scheme) < 0) return NULL;
  scheme = scheme_or_its(scheme, object);
  object = text_of(object, scheme);
  return object == NULL ? NULL : made((PyTypeObject *)type, scheme, form_of_version(scheme, object), NULL, object);
}

typedef int testing(const uint8_t *, size_t, const uint8_t *, size_t, bool *);

/* Asks something about two forms. Returns a status. */
static int ask_two(testing *call, struct form a, struct form b, bool *answer) {
  PyThreadState *thread = let_go(a.size + b.size);
  int status = call(a.bytes, a.size, b.bytes, b.size, answer);

  take_again(thread);
  return status;
}

/* Finds the scheme of a form. */
static int find_scheme(struct form form, uint32_t *scheme) {
  int status = versions_set_scheme(form.bytes, form.size, scheme);

  if (status == VERSIONS_OK) return 0;
  raise_status(status);
  return -1;
}

/* Whether bytes are a form. */
static int check_form(struct form form) {
  PyThreadState *thread = let_go(form.size);
  size_t count = 0;
  int status = versions_set_count(form.bytes, form.size, &count);

  take_again(thread);
  if (status == VERSIONS_OK) return 0;
  if (status == VERSIONS_NO_FORM || status == VERSIONS_NO_SCHEME)
    fail(PyExc_ValueError, "these bytes are not the form of a set of versions");
  else
    raise_status(status);
  return -1;
}

/* Refuses what is neither a str nor None. */
static int check_text(PyObject *object) {
  struct text text;

  return object == Py_None ? 0 : read_text(object, &text);
}

/* _of_form(form, text, version): what a pickle holds. That may be anything, so it is checked. */
static PyObject *formed_of_form(PyObject *type, PyObject *args) {
  PyObject *given, *text, *version, *form;
  uint32_t scheme = VERSIONS_MIXED;

  if (!PyArg_ParseTuple(args, "OOO:_of_form", &given, &text, &version)) return NULL;
  if (!PyBytes_Check(given)) return raise_other("a form is bytes", given);
  if (check_text(text) < 0 || check_text(version) < 0) return NULL;
  form = PyBytes_FromObject(given);
  if (form != NULL && (check_form(form_of_bytes(form)) < 0 || find_scheme(form_of_bytes(form), &scheme) < 0))
    Py_CLEAR(form);
  return made((PyTypeObject *)type, scheme, form, text == Py_None ? NULL : text, version == Py_None ? NULL : version);
}

/*
 * Two sets
 */

/* TypeError for sets of two schemes. */
static int check_schemes(PyObject *one, PyObject *other) {
  uint32_t first = formed_set(one).scheme, second = formed_set(other).scheme;

  if (first == second) return 0;
  raise_schemes(first, second);
  return -1;
}

/* The class just above Formed: a computed set is of it, also where those that it is computed of are of a subclass. */
static PyTypeObject *plain_type(PyObject *set) {
  PyTypeObject *type = Py_TYPE(set), *base = type;

  while ((destructor)PyType_GetSlot(base, Py_tp_dealloc) != formed_dealloc) {
    type = base;
    base = PyType_GetSlot(type, Py_tp_base);
  }
  return type;
}

typedef int merging(const uint8_t *, size_t, const uint8_t *, size_t, uint8_t *, size_t, size_t *);

static PyObject *merged(merging *call, PyObject *one, PyObject *other) {
  struct form a, b;
  PyThreadState *thread;
  size_t most, size = 0;
  uint8_t *room;
  int status;

  if (!is_formed(one) || !is_formed(other)) Py_RETURN_NOTIMPLEMENTED;
  if (check_schemes(one, other) < 0) return NULL;
  a = form_of(one);
  b = form_of(other);
  most = a.size + b.size;
  room = allocated(most, 1);
  if (room == NULL) return NULL;
  thread = let_go(most);
  status = call(a.bytes, a.size, b.bytes, b.size, room, most, &size);
  take_again(thread);
  return made(plain_type(one), formed_set(one).scheme, written(room, status, size), NULL, NULL);
}

static PyObject *formed_and(PyObject *one, PyObject *other) { return merged(versions_set_and, one, other); }

static PyObject *formed_or(PyObject *one, PyObject *other) { return merged(versions_set_or, one, other); }

static PyObject *formed_not(PyObject *self) {
  struct form form = form_of(self);
  size_t most = form.size + 17, size = 0;
  uint8_t *room = allocated(most, 1);
  PyThreadState *thread;
  int status;

  if (room == NULL) return NULL;
  thread = let_go(most);
  status = versions_set_not(form.bytes, form.size, room, most, &size);
  take_again(thread);
  return made(plain_type(self), formed_set(self).scheme, written(room, status, size), NULL, NULL);
}

/* Asks something about two sets: 0 or 1. */
static int tested(testing *call, PyObject *one, PyObject *other) {
  bool answer = false;
  int status;

  if (check_schemes(one, other) < 0) return -1;
  status = ask_two(call, form_of(one), form_of(other), &answer);
  if (status == VERSIONS_OK) return answer;
  raise_status(status);
  return -1;
}

static PyObject *formed_isdisjoint(PyObject *self, PyObject *other) {
  int meet;

  if (!is_formed(other)) return raise_other("a set of versions is a VersionSet", other);
  meet = tested(versions_set_meets, self, other);
  return meet < 0 ? NULL : PyBool_FromLong(!meet);
}

/* Whether two sets are the same: 0 or 1. */
static int is_same(PyObject *one, PyObject *other) {
  return PyObject_RichCompareBool(formed_set(one).form, formed_set(other).form, Py_EQ);
}

static PyObject *formed_compare(PyObject *self, PyObject *other, int how) {
  bool is_below = how == Py_LT || how == Py_LE;
  int same, part;

  if (!is_formed(other)) Py_RETURN_NOTIMPLEMENTED;
  same = is_same(self, other);
  if (same < 0) return NULL;
  if (how == Py_EQ || how == Py_NE) return PyBool_FromLong(same == (how == Py_EQ));
  if (same && (how == Py_LT || how == Py_GT)) Py_RETURN_FALSE;
  part = is_below ? tested(versions_set_part_of, self, other) : tested(versions_set_part_of, other, self);
  return part < 0 ? NULL : PyBool_FromLong(part);
}

static Py_hash_t formed_hash(PyObject *self) { return PyObject_Hash(formed_set(self).form); }

/*
 * Intervals
 */

/* Asks where the ends of the interval at a place lie in the form. Returns 1, or 0 where there are fewer intervals. */
static int ask_interval(const struct form *form, size_t place, size_t ends[4]) {
  int status = versions_set_interval(form->bytes, form->size, place, &ends[0], &ends[1], &ends[2], &ends[3]);

  if (status == VERSIONS_OK) return 1;
  if (status == VERSIONS_NO_INTERVAL) return 0;
  raise_status(status);
  return -1;
}

static PyObject *key_between(const struct form *form, size_t start, size_t end) {
  return PyBytes_FromStringAndSize((const char *)form->bytes + start, (Py_ssize_t)(end - start));
}

static PyObject *interval_of(const struct form *form, const size_t ends[4]) {
  PyObject *high = Py_None;

  if (ends[2] == ends[3])
    Py_INCREF(high);
  else
    high = key_between(form, ends[2], ends[3]);
  return pair_of(key_between(form, ends[0], ends[1]), high);
}

static PyObject *formed_intervals(PyObject *self, void *Py_UNUSED(closure)) {
  struct form form = form_of(self);
  PyObject *intervals = PyList_New(0), *answer;
  size_t place, ends[4] = {0, 0, 0, 0};
  int found = 1;

  for (place = 0; intervals != NULL && (found = ask_interval(&form, place, ends)) == 1; place++) {
    PyObject *interval = interval_of(&form, ends);

    if (interval == NULL || PyList_Append(intervals, interval) < 0) Py_CLEAR(intervals);
    Py_XDECREF(interval);
  }
  answer = intervals == NULL || found < 0 ? NULL : PyList_AsTuple(intervals);
  Py_XDECREF(intervals);
  return answer;
}

static int formed_bool(PyObject *self) {
  struct form form = form_of(self);
  size_t ends[4];

  return ask_interval(&form, 0, ends);
}

/*
 * Versions, one and many
 */

static int formed_contains(PyObject *self, PyObject *version) {
  struct set set = formed_set(self);
  struct form form = form_of_bytes(set.form);
  PyThreadState *thread;
  struct text text;
  bool has = false;
  int status;

  if (read_item(version, set.scheme, &text) < 0) return -1;
  thread = let_go(text.size);
  status = versions_set_has(form.bytes, form.size, text.bytes, text.size, &has);
  take_again(thread);
  if (status == VERSIONS_OK) return has;
  if (status == VERSIONS_NO_VERSION)
    raise_invalid("InvalidVersion", version, set.scheme);
  else
    raise_status(status);
  return -1;
}

int has_texts(const struct set *set, const struct texts *texts, uint8_t *answers) {
  struct form form = form_of_bytes(set->form);
  PyThreadState *thread = let_go_of(texts);
  int status = versions_set_has_all(form.bytes, form.size, texts->bytes, texts->size, texts->offsets, texts->count + 1,
                                    answers, texts->count);

  take_again(thread);
  if (status == VERSIONS_OK) return 0;
  raise_status(status);
  return -1;
}

/* Puts in the place of tags the versions in them: an empty text where there is none. */
static int cut_tags(struct gathered *tags) {
  struct gathered versions = {NULL, 0, 0, NULL, 0, 0};
  struct texts texts = texts_of(tags);
  int64_t *starts = starts_in(&texts);
  int failed = starts == NULL ? -1 : 0;
  size_t place;

  for (place = 0; failed == 0 && place < texts.count; place++) {
    struct text version = {texts.bytes + starts[place], (size_t)(texts.offsets[place + 1] - starts[place])};

    failed = add_text(&versions, &version);
  }
  PyMem_Free(starts);
  free_gathered(tags);
  *tags = versions;
  return failed;
}

/* The items whose texts have the answer 1. */
static PyObject *kept_of(const struct set *set, PyObject *items, const struct texts *texts) {
  uint8_t *answers = allocated(texts->count, 1);
  PyObject *kept = answers != NULL && has_texts(set, texts, answers) == 0 ? PyList_New(0) : NULL;
  size_t place;

  for (place = 0; kept != NULL && place < texts->count; place++)
    if (answers[place] == 1 && PyList_Append(kept, PyList_GetItem(items, (Py_ssize_t)place)) < 0) Py_CLEAR(kept);
  PyMem_Free(answers);
  return kept;
}

PyObject *kept_in(const struct set *set, PyObject *items, bool tags) {
  struct gathered gathered = {NULL, 0, 0, NULL, 0, 0};
  PyObject *iterator = PyObject_GetIter(items), *kept = NULL;

  if (iterator != NULL && gather(&gathered, iterator, set->scheme, true) == 0 &&
      (!tags || cut_tags(&gathered) == 0)) {
    struct texts texts = texts_of(&gathered);

    kept = kept_of(set, items, &texts);
  }
  Py_XDECREF(iterator);
  free_gathered(&gathered);
  return kept;
}

static PyObject *formed_filter(PyObject *self, PyObject *args, PyObject *named) {
  static char *names[] = {"versions", NULL};
  struct set set = formed_set(self);
  PyObject *versions, *items, *kept;

  if (read_arguments(args, named, "O:filter", names, &versions, NULL) < 0 || refuse_one(versions) < 0) return NULL;
  items = PySequence_List(versions);
  kept = items == NULL ? NULL : kept_in(&set, items, false);
  Py_XDECREF(items);
  return kept;
}

/*
 * What is wrong with a text
 */

/* How many characters the first bytes of a text are. */
static Py_ssize_t characters_of(const char *bytes, size_t size) {
  PyObject *front = PyUnicode_Decode(bytes, (Py_ssize_t)size, "utf-8", "surrogatepass");
  Py_ssize_t count = front == NULL ? -1 : PyUnicode_GetLength(front);

  Py_XDECREF(front);
  return count;
}

/* The calls that say where a text is wrong, and why, as texts are read in a scheme. */
typedef int wrong_place(uint32_t, const char *, size_t, size_t *, uint32_t *);
typedef int wrong_text(uint32_t, const char *, size_t, char *, size_t, size_t *);

/* The calls of sets, or of versions, and the status of a text that is not wrong. */
struct wrong_calls {
  wrong_place *ask_place;
  wrong_text *ask_text;
  int right;
};

/* Where the bytes of a text are wrong, in characters, and why; None where they are not. */
static PyObject *wrong_in(struct wrong_calls calls, uint32_t scheme, const char *bytes, size_t size) {
  PyThreadState *thread = let_go(size);
  size_t place = 0, length = 0;
  uint32_t number = 0;
  Py_ssize_t start;
  char why[100];
  int status = calls.ask_place(scheme, bytes, size, &place, &number);

  if (status == VERSIONS_OK) status = calls.ask_text(scheme, bytes, size, why, sizeof why, &length);
  take_again(thread);
  if (status == calls.right) Py_RETURN_NONE;
  if (status != VERSIONS_OK) return raise_status(status);
  start = characters_of(bytes, place);
  return start < 0 ? NULL : Py_BuildValue("(nN)", start, PyUnicode_FromStringAndSize(why, (Py_ssize_t)length));
}

/* The same of the text and the scheme that a call of the module has. */
static PyObject *wrong_of(struct wrong_calls calls, const char *form, PyObject *args) {
  PyObject *object, *name, *bytes, *answer;
  struct text text;
  uint32_t scheme;

  if (!PyArg_ParseTuple(args, form, &object, &name)) return NULL;
  if (read_text(object, &text) < 0 || read_scheme(name, &scheme) < 0) return NULL;
  /* A lone surrogate becomes three bytes that are not UTF-8, so its piece is wrong. */
  bytes = PyUnicode_AsEncodedString(object, "utf-8", "surrogatepass");
  if (bytes == NULL) return NULL;
  answer = wrong_in(calls, scheme, PyBytes_AsString(bytes), (size_t)PyBytes_Size(bytes));
  Py_DECREF(bytes);
  return answer;
}

/* wrong_set(text, scheme): where the first wrong piece begins and why it is wrong; None where the text is a set */
PyObject *wrong_set(PyObject *Py_UNUSED(module), PyObject *args) {
  struct wrong_calls calls = {versions_set_wrong, versions_set_wrong_text, VERSIONS_NO_WRONG_MEMBER};

  return wrong_of(calls, "OO:wrong_set", args);
}

/* wrong_version(text, scheme): how far the text could become a version, and why no further; None where it is one */
PyObject *wrong_version(PyObject *Py_UNUSED(module), PyObject *args) {
  struct wrong_calls calls = {versions_wrong, versions_wrong_text, VERSIONS_IS_VERSION};

  return wrong_of(calls, "OO:wrong_version", args);
}

/*
 * The type
 */

PyDoc_STRVAR(formed_doc,
             "Formed(text, *, scheme='mixed')\n--\n\n"
             "A text that is a set of versions of a scheme, and the set's form.");

PyDoc_STRVAR(of_doc,
             "of($type, version, *, scheme='mixed')\n--\n\n"
             "The set of what ties with a version, a text or a `Version`, whose scheme it takes. `InvalidVersion` for "
             "a text that is not a version.\n"
             "\n"
             ">>> \"0:1.2\" in VersionSet.of(\"1.2\"), VersionSet.of(\"1.2\") == VersionSet(\"=1.2\")\n"
             "(True, True)\n"
             ">>> VersionSet.of(Version(\"latest\"))\n"
             "VersionSet.of('latest')\n");

PyDoc_STRVAR(of_form_doc, "_of_form($type, form, text, version, /)\n--\n\nThe set that a pickle holds.");

PyDoc_STRVAR(set_filter_doc,
             "filter($self, versions)\n--\n\n"
             "Those of many versions that are in it, in their order: of an iterable of `Version`s and texts.\n"
             "\n"
             "Texts that are not versions are left out, and so are missing values, as `kinds` has them.\n"
             "\n"
             ">>> VersionSet(\"^1.2 || =3\").filter([\"1.1\", \"1.3\", \"x y\", None, \"3\", \"1.2\"])\n"
             "['1.3', '3', '1.2']\n");

PyDoc_STRVAR(isdisjoint_doc,
             "isdisjoint($self, other, /)\n--\n\n"
             "Whether no key is in both, and so no version is.\n"
             "\n"
             ">>> [VersionSet(\"<2\").isdisjoint(VersionSet(text)) for text in (\">=2\", \">1\")]\n"
             "[True, False]\n");

static PyMethodDef formed_methods[] = {
    {"of", NAMED(formed_of), METH_VARARGS | METH_KEYWORDS | METH_CLASS, of_doc},
    {"_of_form", formed_of_form, METH_VARARGS | METH_CLASS, of_form_doc},
    {"filter", NAMED(formed_filter), METH_VARARGS | METH_KEYWORDS, set_filter_doc},
    {"isdisjoint", formed_isdisjoint, METH_O, isdisjoint_doc},
    {NULL, NULL, 0, NULL},
};

static PyObject *formed_scheme(PyObject *self, void *Py_UNUSED(closure)) {
  return scheme_name(formed_set(self).scheme);
}

static PyMemberDef formed_members[] = {
    {"_form", T_OBJECT_EX, offsetof(struct formed, set.form), READONLY, "The form."},
    {"_text", T_OBJECT, offsetof(struct formed, text), READONLY, "The text as it was written, or None."},
    {"_version", T_OBJECT, offsetof(struct formed, version), READONLY, "What `of` was called with, or None."},
    {NULL, 0, 0, 0, NULL},
};

static PyGetSetDef formed_attributes[] = {
    {"intervals", formed_intervals, NULL,
     "A tuple of pairs of keys, which rise: a low end, which is in it, and the high end, which is not, or None.", NULL},
    {"scheme", formed_scheme, NULL, "The name of its scheme, one of `SCHEMES`.", NULL},
    {NULL, NULL, NULL, NULL, NULL},
};

static PyType_Slot formed_slots[] = {
    {Py_tp_doc, (void *)formed_doc},
    {Py_tp_new, (void *)formed_new},
    {Py_tp_dealloc, (void *)formed_dealloc},
    {Py_tp_richcompare, (void *)formed_compare},
    {Py_tp_hash, (void *)formed_hash},
    {Py_sq_contains, (void *)formed_contains},
    {Py_nb_and, (void *)formed_and},
    {Py_nb_or, (void *)formed_or},
    {Py_nb_invert, (void *)formed_not},
    {Py_nb_bool, (void *)formed_bool},
    {Py_tp_methods, (void *)formed_methods},
    {Py_tp_members, (void *)formed_members},
    {Py_tp_getset, (void *)formed_attributes},
    {0, NULL},
};

PyType_Spec formed_spec = {
    "versions._library.Formed", sizeof(struct formed), 0, Py_TPFLAGS_DEFAULT | Py_TPFLAGS_BASETYPE, formed_slots,
};
