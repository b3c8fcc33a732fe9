/*
 * _values.c: the types Keyed and Ranged, of which Version and Requirement are made. What was asked of the library when
 * a value was made is kept in it: the key and the kind of a version, the range of a list of requirements.
 */
#include "_library.h"

#include <structmember.h>

/*
 * Bytes in order
 */

/* Eight bytes as a number, the first of them the highest. */
static uint64_t number_of(const uint8_t *at) {
  return (uint64_t)at[0] << 56 | (uint64_t)at[1] << 48 | (uint64_t)at[2] << 40 | (uint64_t)at[3] << 32 |
         (uint64_t)at[4] << 24 | (uint64_t)at[5] << 16 | (uint64_t)at[6] << 8 | (uint64_t)at[7];
}

static struct ordered ordered_of(PyObject *bytes) {
  struct ordered ordered = {bytes, 0, 0};
  uint8_t front[16] = {0};
  size_t size;

  if (bytes == NULL) return ordered;
  size = (size_t)PyBytes_Size(bytes);
  memcpy(front, PyBytes_AsString(bytes), size < sizeof front ? size : sizeof front);
  ordered.first = number_of(front);
  ordered.second = number_of(front + 8);
  return ordered;
}

static int order_of_bytes(PyObject *a, PyObject *b) {
  Py_ssize_t a_size = PyBytes_Size(a), b_size = PyBytes_Size(b);
  int order = memcmp(PyBytes_AsString(a), PyBytes_AsString(b), (size_t)(a_size < b_size ? a_size : b_size));

  return order != 0 ? order : (a_size > b_size) - (a_size < b_size);
}

/* Below, equal to or above 0, by memcmp, a prefix first. Numbers that differ decide: after a prefix they have zeros. */
static int order_of(const struct ordered *a, const struct ordered *b) {
  if (a->first != b->first) return a->first < b->first ? -1 : 1;
  if (a->second != b->second) return a->second < b->second ? -1 : 1;
  return order_of_bytes(a->bytes, b->bytes);
}

/*
 * Keyed: a text, its key, its scheme and its kind
 */

struct keyed {
  PyObject_HEAD PyObject *text;
  struct ordered key;
  uint32_t scheme;
  uint8_t kind; /* VERSIONS_NONE in another scheme than mixed */
};

const char *const kind_names[] = {"none", "ideal", "general", "complex"};

/* Writes the key of a text in a scheme, and in mixed its kind. Returns a status. */
static int ask_key(uint32_t scheme, const struct text *text, uint8_t *kind, uint8_t *room, size_t *size) {
  PyThreadState *thread = let_go(text->size);
  int status = scheme == VERSIONS_MIXED ? versions_parse(text->bytes, text->size, kind, room, *size, size)
                                        : versions_key(scheme, text->bytes, text->size, room, *size, size);

  take_again(thread);
  return status;
}

/* The key of a text that is longer than the room on the stack. */
static PyObject *long_key_of(uint32_t scheme, const struct text *text, uint8_t *kind, size_t size) {
  PyObject *key = PyBytes_FromStringAndSize(NULL, (Py_ssize_t)size);
  int status;

  if (key == NULL) return NULL;
  status = ask_key(scheme, text, kind, (uint8_t *)PyBytes_AsString(key), &size);
  if (status == VERSIONS_OK) return key;
  Py_DECREF(key);
  return raise_status(status);
}

/* The key that a Version keeps, which has to be of the scheme, and its kind. */
static PyObject *kept_key(PyObject *object, uint32_t scheme, uint8_t *kind) {
  struct keyed *keyed = (struct keyed *)object;

  if (keyed->scheme != scheme) return raise_schemes(scheme, keyed->scheme);
  *kind = keyed->kind;
  Py_INCREF(keyed->key.bytes);
  return keyed->key.bytes;
}

PyObject *key_of(PyObject *object, uint32_t scheme, uint8_t *kind) {
  uint8_t key[1024];
  size_t size = sizeof key;
  struct text text;
  int status;

  *kind = VERSIONS_NONE;
  if (!PyUnicode_Check(object) && is_keyed(object)) return kept_key(object, scheme, kind);
  if (read_text(object, &text) < 0) return NULL;
  status = ask_key(scheme, &text, kind, key, &size);
  switch (status) {
    case VERSIONS_OK: return PyBytes_FromStringAndSize((const char *)key, (Py_ssize_t)size);
    case VERSIONS_NO_ROOM: return long_key_of(scheme, &text, kind, size);
    case VERSIONS_NO_VERSION: return raise_invalid("InvalidVersion", object, scheme);
    default: return raise_status(status);
  }
}

static PyObject *keyed_new(PyTypeObject *type, PyObject *args, PyObject *named) {
  static char *names[] = {"text", "scheme", NULL};
  PyObject *object, *key;
  struct keyed *keyed;
  uint32_t scheme = NO_SCHEME;
  uint8_t kind;

  if (read_with_scheme(args, named, "O|$O:Version", names, &object, NULL, &scheme) < 0) return NULL;
  scheme = scheme_or_its(scheme, object);
  key = key_of(object, scheme, &kind);
  keyed = key == NULL ? NULL : (struct keyed *)PyType_GenericAlloc(type, 0);
  if (keyed == NULL) {
    Py_XDECREF(key);
    return NULL;
  }
  keyed->key = ordered_of(key);
  keyed->scheme = scheme;
  keyed->kind = kind;
  /* The text of a subclass of str is copied, as it is and not as the subclass shows it. */
  keyed->text = PyUnicode_FromObject(PyUnicode_Check(object) ? object : keyed_text(object));
  if (keyed->text == NULL) Py_CLEAR(keyed);
  return (PyObject *)keyed;
}

void free_object(PyObject *self) {
  PyTypeObject *type = Py_TYPE(self);
  freefunc release = (freefunc)PyType_GetSlot(type, Py_tp_free);

  release(self);
  Py_DECREF(type);
}

static void keyed_dealloc(PyObject *self) {
  struct keyed *keyed = (struct keyed *)self;

  Py_XDECREF(keyed->text);
  Py_XDECREF(keyed->key.bytes);
  free_object(self);
}

/*
 * Of the types that the object's type inherits from, the one just above `object`, which alone of them is not of the
 * heap, is that type or is not. Python 3.9 finds the module of a method by no call of the stable ABI.
 */
bool is_made_by(PyObject *object, destructor dealloc) {
  PyTypeObject *type = Py_TYPE(object), *base;

  while (PyType_GetFlags(type) & Py_TPFLAGS_HEAPTYPE) {
    base = PyType_GetSlot(type, Py_tp_base);
    if (!(PyType_GetFlags(base) & Py_TPFLAGS_HEAPTYPE))
      return (destructor)PyType_GetSlot(type, Py_tp_dealloc) == dealloc;
    type = base;
  }
  return false;
}

bool is_keyed(PyObject *object) { return is_made_by(object, keyed_dealloc); }

PyObject *keyed_text(PyObject *keyed) { return ((struct keyed *)keyed)->text; }

uint32_t keyed_scheme(PyObject *keyed) { return ((struct keyed *)keyed)->scheme; }

/* Whether an object is a Version of the scheme mixed. */
static bool is_mixed(PyObject *object) { return is_keyed(object) && keyed_scheme(object) == VERSIONS_MIXED; }

int order_of_keyed(PyObject *a, PyObject *b) { return order_of(&((struct keyed *)a)->key, &((struct keyed *)b)->key); }

static PyObject *keyed_compare(PyObject *self, PyObject *other, int how) {
  int order;

  if (Py_TYPE(self) != Py_TYPE(other) && !is_keyed(other)) Py_RETURN_NOTIMPLEMENTED;
  if (keyed_scheme(self) != keyed_scheme(other)) {
    if (how == Py_EQ || how == Py_NE) return PyBool_FromLong(how == Py_NE);
    return raise_schemes(keyed_scheme(self), keyed_scheme(other));
  }
  order = order_of_keyed(self, other);
  Py_RETURN_RICHCOMPARE(order, 0, how);
}

static Py_hash_t keyed_hash(PyObject *self) { return PyObject_Hash(((struct keyed *)self)->key.bytes); }

static PyObject *keyed_str(PyObject *self) {
  PyObject *text = ((struct keyed *)self)->text;

  Py_INCREF(text);
  return text;
}

static PyObject *keyed_scheme_name(PyObject *self, void *Py_UNUSED(closure)) {
  return scheme_name(keyed_scheme(self));
}

/* AttributeError for what versions of mixed alone have, as their kind. */
static void *raise_no_parts(PyObject *self) {
  PyObject *name = scheme_name(keyed_scheme(self));

  if (name != NULL) fail(PyExc_AttributeError, "versions of %U have no kind, parts, fields or stability", name);
  Py_XDECREF(name);
  return NULL;
}

static PyObject *keyed_kind(PyObject *self, void *Py_UNUSED(closure)) {
  if (keyed_scheme(self) != VERSIONS_MIXED) return raise_no_parts(self);
  return PyUnicode_InternFromString(kind_names[((struct keyed *)self)->kind]);
}

static PyObject *keyed_mixed(PyObject *self, void *Py_UNUSED(closure)) {
  return keyed_scheme(self) == VERSIONS_MIXED ? keyed_str(self) : raise_no_parts(self);
}

PyDoc_STRVAR(keyed_doc,
             "Keyed(text, *, scheme='mixed')\n--\n\n"
             "A text that is a version of a scheme, its key, by which it compares, and its kind.");

static PyMemberDef keyed_members[] = {
    {"_text", T_OBJECT_EX, offsetof(struct keyed, text), READONLY, "The text as it was written."},
    {"key", T_OBJECT_EX, offsetof(struct keyed, key.bytes), READONLY,
     "The sort key: bytes that compare as versions do by precedence, in any program that orders bytes."},
    {NULL, 0, 0, 0, NULL},
};

static PyGetSetDef keyed_attributes[] = {
    {"kind", keyed_kind, NULL, "`'ideal'`, `'general'` or `'complex'`: the first kind that fits.", NULL},
    {"scheme", keyed_scheme_name, NULL, "The name of its scheme, one of `SCHEMES`.", NULL},
    {"_mixed", keyed_mixed, NULL, "The text of a version of mixed. AttributeError for any other.", NULL},
    {NULL, NULL, NULL, NULL, NULL},
};

static PyType_Slot keyed_slots[] = {
    {Py_tp_doc, (void *)keyed_doc},
    {Py_tp_new, (void *)keyed_new},
    {Py_tp_dealloc, (void *)keyed_dealloc},
    {Py_tp_richcompare, (void *)keyed_compare},
    {Py_tp_hash, (void *)keyed_hash},
    {Py_tp_str, (void *)keyed_str},
    {Py_tp_members, (void *)keyed_members},
    {Py_tp_getset, (void *)keyed_attributes},
    {0, NULL},
};

PyType_Spec keyed_spec = {
    "versions._library.Keyed", sizeof(struct keyed), 0, Py_TPFLAGS_DEFAULT | Py_TPFLAGS_BASETYPE, keyed_slots,
};

/*
 * The range of a list of requirements
 */

/* Where versions_range writes the bounds. */
struct bounds {
  uint8_t *low, *high;
  size_t low_len, high_len;
};

static int ask_range(const struct text *list, struct bounds *bounds, uint32_t *flags) {
  PyThreadState *thread = let_go(list->size);
  int status = versions_range(list->bytes, list->size, bounds->low, bounds->low_len, &bounds->low_len, bounds->high,
                              bounds->high_len, &bounds->high_len, flags);

  take_again(thread);
  return status;
}

/* Keeps the bounds as bytes of Python. */
static int keep_bounds(struct range *range, const struct bounds *bounds) {
  PyObject *low = PyBytes_FromStringAndSize((const char *)bounds->low, (Py_ssize_t)bounds->low_len), *high = NULL;

  if (low == NULL) return -1;
  range->low = ordered_of(low);
  if (!(range->flags & VERSIONS_RANGE_HIGH)) return 0;
  high = PyBytes_FromStringAndSize((const char *)bounds->high, (Py_ssize_t)bounds->high_len);
  range->high = ordered_of(high);
  return high == NULL ? -1 : 0;
}

/* Asks again, with room for bounds that are longer than the room on the stack. */
static int ask_long_range(struct range *range, struct bounds *bounds) {
  int status, failed = -1;

  bounds->low = allocated(bounds->low_len, 1);
  bounds->high = bounds->low == NULL ? NULL : allocated(bounds->high_len, 1);
  if (bounds->high != NULL) {
    status = ask_range(&range->list, bounds, &range->flags);
    if (status == VERSIONS_OK)
      failed = keep_bounds(range, bounds);
    else
      raise_status(status);
  }
  PyMem_Free(bounds->low);
  PyMem_Free(bounds->high);
  return failed;
}

/* Asks for the range of the list that `range` has read of the object. */
static int ask_for_range(PyObject *object, struct range *range) {
  uint8_t low[512], high[512];
  struct bounds bounds = {low, high, sizeof low, sizeof high};
  int status = ask_range(&range->list, &bounds, &range->flags);

  if (status == VERSIONS_OK) return keep_bounds(range, &bounds);
  if (status == VERSIONS_NO_ROOM) return ask_long_range(range, &bounds);
  if (status == VERSIONS_NO_REQUIREMENTS)
    raise_invalid("InvalidRequirement", object, VERSIONS_MIXED);
  else
    raise_status(status);
  return -1;
}

void clear_range(struct range *range) {
  Py_CLEAR(range->text);
  Py_CLEAR(range->low.bytes);
  Py_CLEAR(range->high.bytes);
}

static int read_list(PyObject *object, struct range *range) {
  memset(range, 0, sizeof *range);
  if (read_text(object, &range->list) < 0) return -1;
  /* The text of a subclass of str is copied, as it is and not as the subclass shows it. */
  range->text = PyUnicode_FromObject(object);
  if (range->text != NULL && read_text(range->text, &range->list) == 0 && ask_for_range(object, range) == 0) return 0;
  clear_range(range);
  return -1;
}

/* What the library is passed of a bound, whose bytes are null where there is none. */
static struct text bytes_of(const struct ordered *bound) {
  struct text text = {NULL, 0};

  if (bound->bytes != NULL) {
    text.bytes = PyBytes_AsString(bound->bytes);
    text.size = (size_t)PyBytes_Size(bound->bytes);
  }
  return text;
}

/* Whether the key and the kind of a version are in the range. */
static bool has(const struct range *range, const struct keyed *keyed) {
  return range->flags & 1u << keyed->kind >> 1 && order_of(&keyed->key, &range->low) >= 0 &&
         (range->high.bytes == NULL || order_of(&keyed->key, &range->high) < 0);
}

static bool is_exact(const struct range *range) { return range->flags & VERSIONS_RANGE_EXACT; }

/* The library compares many texts with an exact range faster than with the list, unless the list wants some kinds. */
static bool is_faster(const struct range *range) {
  const uint32_t all = VERSIONS_RANGE_IDEAL | VERSIONS_RANGE_GENERAL | VERSIONS_RANGE_COMPLEX;

  return is_exact(range) && (range->flags & all) == all;
}

/* Whether a text matches. Returns a status. */
static int match_text(const struct range *range, const struct text *text, bool *answer) {
  struct text low = bytes_of(&range->low), high = bytes_of(&range->high);
  PyThreadState *thread = let_go(text->size > range->list.size ? text->size : range->list.size);
  int status = versions_match_in_range(text->bytes, text->size, (const uint8_t *)low.bytes, low.size,
                                       (const uint8_t *)high.bytes, high.size, range->flags, range->list.bytes,
                                       is_exact(range) ? 0 : range->list.size, answer);

  take_again(thread);
  return status;
}

int match_texts(const struct range *range, const struct texts *texts, uint8_t *answers) {
  struct text low = bytes_of(&range->low), high = bytes_of(&range->high);
  PyThreadState *thread = let_go_of(texts);
  int status;

  if (is_faster(range))
    status = versions_in_range_all(texts->bytes, texts->size, texts->offsets, texts->count + 1,
                                   (const uint8_t *)low.bytes, low.size, (const uint8_t *)high.bytes, high.size,
                                   range->flags, answers, texts->count);
  else
    status = versions_match_all(range->list.bytes, range->list.size, texts->bytes, texts->size, texts->offsets,
                                texts->count + 1, answers, texts->count);
  take_again(thread);
  if (status == VERSIONS_OK) return 0;
  raise_status(status);
  return -1;
}

/*
 * Ranged: a text that is a list of requirements, and its range
 */

struct ranged {
  PyObject_HEAD struct range range;
};

static PyObject *ranged_new(PyTypeObject *type, PyObject *args, PyObject *named) {
  static char *names[] = {"text", NULL};
  PyObject *object;
  struct range range;
  struct ranged *ranged;

  if (read_arguments(args, named, "O:Requirement", names, &object, NULL) < 0 || read_list(object, &range) < 0)
    return NULL;
  ranged = (struct ranged *)PyType_GenericAlloc(type, 0);
  if (ranged == NULL)
    clear_range(&range);
  else
    ranged->range = range;
  return (PyObject *)ranged;
}

static void ranged_dealloc(PyObject *self) {
  clear_range(&((struct ranged *)self)->range);
  free_object(self);
}

int read_range(PyObject *object, struct range *range) {
  if (!is_made_by(object, ranged_dealloc)) return read_list(object, range);
  *range = ((struct ranged *)object)->range;
  Py_INCREF(range->text);
  Py_INCREF(range->low.bytes);
  Py_XINCREF(range->high.bytes);
  return 0;
}

int match_one(const struct range *range, PyObject *version) {
  struct text text;
  bool answer = false;
  int status;

  if (is_mixed(version)) {
    struct keyed *keyed = (struct keyed *)version;

    if (!has(range, keyed)) return 0;
    if (is_exact(range)) return 1;
  }
  if (read_item(version, VERSIONS_MIXED, &text) < 0) return -1;
  status = match_text(range, &text, &answer);
  if (status == VERSIONS_OK) return answer;
  if (status == VERSIONS_NO_VERSION) return 2;
  raise_status(status);
  return -1;
}

static PyObject *ranged_matches(PyObject *self, PyObject *args, PyObject *named) {
  static char *names[] = {"version", NULL};
  PyObject *version;
  int answer;

  if (read_arguments(args, named, "O:matches", names, &version, NULL) < 0) return NULL;
  answer = match_one(&((struct ranged *)self)->range, version);
  if (answer == 2) return raise_invalid("InvalidVersion", version, VERSIONS_MIXED);
  return answer < 0 ? NULL : PyBool_FromLong(answer);
}

/* Of a member that doesn't match: the text of the version, where the member begins and ends, and why. */
static PyObject *mismatch(PyObject *version, size_t start, size_t end, uint32_t why) {
  /* The text of a subclass of str is copied, as it is and not as the subclass shows it. */
  PyObject *exact = PyUnicode_FromObject(version);

  return exact == NULL ? NULL : Py_BuildValue("(NnnI)", exact, (Py_ssize_t)start, (Py_ssize_t)end, why);
}

/* Asks the library why a version doesn't match. */
static PyObject *why_not(const struct range *range, PyObject *version) {
  struct text text;
  size_t start = 0, end = 0;
  PyThreadState *thread;
  uint32_t why = 0;
  int status;

  if (read_text(version, &text) < 0) return NULL;
  thread = let_go(text.size > range->list.size ? text.size : range->list.size);
  status = versions_why_not(range->list.bytes, range->list.size, text.bytes, text.size, &start, &end, &why);
  take_again(thread);
  switch (status) {
    case VERSIONS_OK: return mismatch(version, start, end, why);
    case VERSIONS_ALL_MATCH: Py_RETURN_NONE;
    case VERSIONS_NO_VERSION: return raise_invalid("InvalidVersion", version, VERSIONS_MIXED);
    default: return raise_status(status);
  }
}

static PyObject *ranged_why_not(PyObject *self, PyObject *version) {
  const struct range *range = &((struct ranged *)self)->range;

  if (is_exact(range) && is_mixed(version) && has(range, (struct keyed *)version)) Py_RETURN_NONE;
  version = text_of(version, VERSIONS_MIXED);
  return version == NULL ? NULL : why_not(range, version);
}

static int ranged_contains(PyObject *self, PyObject *version) {
  int answer = match_one(&((struct ranged *)self)->range, version);

  if (answer != 2) return answer;
  raise_invalid("InvalidVersion", version, VERSIONS_MIXED);
  return -1;
}

static PyObject *ranged_str(PyObject *self) {
  PyObject *text = ((struct ranged *)self)->range.text;

  Py_INCREF(text);
  return text;
}

/*
 * filter. An item is left out, kept or asked about: then its text is among those that are gathered.
 */

enum { LEFT_OUT, KEPT, ASKED };

/* Judges an item that is not a str. */
static int judge_value(const struct range *range, PyObject *item, struct gathered *gathered) {
  struct text text;
  int found;

  if (is_mixed(item)) {
    if (!has(range, (struct keyed *)item)) return LEFT_OUT;
    if (is_exact(range)) return KEPT;
  }
  found = read_item_or_none(item, VERSIONS_MIXED, &text);
  if (found <= 0) return found < 0 ? -1 : LEFT_OUT;
  return add_text(gathered, &text) < 0 ? -1 : ASKED;
}

static int judge(const struct range *range, PyObject *item, struct gathered *gathered) {
  struct text text;

  if (!PyUnicode_Check(item)) return judge_value(range, item, gathered);
  return read_text(item, &text) < 0 || add_text(gathered, &text) < 0 ? -1 : ASKED;
}

static int judge_all(const struct range *range, PyObject *items, struct gathered *gathered, uint8_t *marks) {
  Py_ssize_t place, count = PyList_Size(items);

  for (place = 0; place < count; place++) {
    int mark = judge(range, PyList_GetItem(items, place), gathered);

    if (mark < 0) return -1;
    marks[place] = (uint8_t)mark;
  }
  return 0;
}

/* The items that are kept, and those of which the text that was asked about has the answer 1. */
static PyObject *kept_of(PyObject *items, const uint8_t *marks, const uint8_t *answers) {
  Py_ssize_t place, count = PyList_Size(items);
  PyObject *kept = PyList_New(0);

  for (place = 0; kept != NULL && place < count; place++) {
    bool is_kept = marks[place] == ASKED ? *answers++ == 1 : marks[place] == KEPT;

    if (is_kept && PyList_Append(kept, PyList_GetItem(items, place)) < 0) Py_CLEAR(kept);
  }
  return kept;
}

static PyObject *filtered(const struct range *range, PyObject *items, struct gathered *gathered, uint8_t *marks) {
  struct texts texts;
  PyObject *kept = NULL;
  uint8_t *answers;

  if (judge_all(range, items, gathered, marks) < 0) return NULL;
  texts = texts_of(gathered);
  answers = allocated(texts.count, 1);
  if (answers != NULL && (texts.count == 0 || match_texts(range, &texts, answers) == 0))
    kept = kept_of(items, marks, answers);
  PyMem_Free(answers);
  return kept;
}

static PyObject *ranged_filter(PyObject *self, PyObject *args, PyObject *named) {
  static char *names[] = {"versions", NULL};
  struct gathered gathered = {NULL, 0, 0, NULL, 0, 0};
  PyObject *versions, *items, *kept = NULL;
  uint8_t *marks;

  if (read_arguments(args, named, "O:filter", names, &versions, NULL) < 0 || refuse_one(versions) < 0) return NULL;
  items = PySequence_List(versions);
  if (items == NULL) return NULL;
  marks = allocated((size_t)PyList_Size(items), 1);
  if (marks != NULL) kept = filtered(&((struct ranged *)self)->range, items, &gathered, marks);
  PyMem_Free(marks);
  free_gathered(&gathered);
  Py_DECREF(items);
  return kept;
}

PyDoc_STRVAR(ranged_doc,
             "Ranged(text)\n--\n\nA text that is a list of requirements, and the range of keys that it asks for.");

PyDoc_STRVAR(matches_doc,
             "matches($self, version)\n--\n\n"
             "Whether it matches a version, a `Version` or a text. `InvalidVersion` for a text that is not a version.\n"
             "\n"
             "Where the range is exact, a `Version` is compared with it by bytes.\n"
             "\n"
             ">>> Requirement(\"^1.2.0\").matches(\"1.3.0\"), Requirement(\"^1.2.0\").matches(Version(\"2.0.0\"))\n"
             "(True, False)\n");

PyDoc_STRVAR(filter_doc,
             "filter($self, versions)\n--\n\n"
             "Those of many versions that it matches, in their order: of an iterable of `Version`s and texts.\n"
             "\n"
             "Texts that are not versions are left out, and so are missing values, as `kinds` has them.\n"
             "\n"
             ">>> Requirement(\"^1.2.0\").filter([\"1.1.0\", \"1.3.0\", \"x y\", None, \"2.0.0\", \"1.2.0\"])\n"
             "['1.3.0', '1.2.0']\n");

PyDoc_STRVAR(why_not_doc,
             "_why_not($self, version)\n--\n\n"
             "None, or the text of the version, where the first member that doesn't match begins and ends, and why.");

static PyMethodDef ranged_methods[] = {
    {"matches", NAMED(ranged_matches), METH_VARARGS | METH_KEYWORDS, matches_doc},
    {"filter", NAMED(ranged_filter), METH_VARARGS | METH_KEYWORDS, filter_doc},
    {"_why_not", ranged_why_not, METH_O, why_not_doc},
    {NULL, NULL, 0, NULL},
};

static PyMemberDef ranged_members[] = {
    {"_text", T_OBJECT_EX, offsetof(struct ranged, range.text), READONLY, "The text as it was written."},
    {"low", T_OBJECT_EX, offsetof(struct ranged, range.low.bytes), READONLY,
     "The low bound: no version that matches has a key below it."},
    {"high", T_OBJECT, offsetof(struct ranged, range.high.bytes), READONLY,
     "The high bound, or None: each version that matches has a key below it."},
    {"_flags", T_UINT, offsetof(struct ranged, range.flags), READONLY, "The flags of versions_range."},
    {NULL, 0, 0, 0, NULL},
};

static PyType_Slot ranged_slots[] = {
    {Py_tp_doc, (void *)ranged_doc},
    {Py_tp_new, (void *)ranged_new},
    {Py_tp_dealloc, (void *)ranged_dealloc},
    {Py_tp_str, (void *)ranged_str},
    {Py_sq_contains, (void *)ranged_contains},
    {Py_tp_methods, (void *)ranged_methods},
    {Py_tp_members, (void *)ranged_members},
    {0, NULL},
};

PyType_Spec ranged_spec = {
    "versions._library.Ranged", sizeof(struct ranged), 0, Py_TPFLAGS_DEFAULT | Py_TPFLAGS_BASETYPE, ranged_slots,
};
