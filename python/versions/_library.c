/*
 * _library.c: the calls of versions.h as functions of Python, in the stable ABI of Python 3.9 and later.
 *
 * What a version is, how versions compare and what matches is asked of the library alone. This file passes it texts and
 * hands its answers on. The public functions are functions of this file; the types of which `Version`, `Requirement`
 * and `VersionSet` are made are in _values.c and _sets.c.
 */
#include "_library.h"

/* What one interpreter's module holds. */
struct state {
  PyObject *kinds[4]; /* the answers, by the number of a kind */
};

/*
 * One text, a str or that of a Version
 */

static PyObject *kind(PyObject *module, PyObject *args, PyObject *named) {
  static char *names[] = {"text", NULL};
  struct state *state = PyModule_GetState(module);
  PyThreadState *thread;
  PyObject *object;
  struct text text;
  int number;

  if (read_arguments(args, named, "O:kind", names, &object, NULL) < 0) return NULL;
  if (read_item(object, VERSIONS_MIXED, &text) < 0) return NULL;
  thread = let_go(text.size);
  number = versions_kind(text.bytes, text.size);
  take_again(thread);
  if (number < VERSIONS_NONE || number > VERSIONS_COMPLEX) return raise_status(number);
  Py_INCREF(state->kinds[number]);
  return state->kinds[number];
}

static PyObject *sort_key(PyObject *Py_UNUSED(module), PyObject *args, PyObject *named) {
  static char *names[] = {"text", "scheme", NULL};
  PyObject *object;
  uint32_t scheme = VERSIONS_MIXED;
  uint8_t kind;

  if (read_with_scheme(args, named, "O|$O:sort_key", names, &object, NULL, &scheme) < 0) return NULL;
  return key_of(object, scheme, &kind);
}

typedef int comparison(uint32_t, const char *, size_t, const char *, size_t, int32_t *);

static int compare_totally(uint32_t Py_UNUSED(scheme), const char *a, size_t a_len, const char *b, size_t b_len,
                           int32_t *order) {
  return versions_compare_total(a, a_len, b, b_len, order);
}

/* Raises the error of a status that speaks of two texts, unless it is VERSIONS_OK. */
static int check_two(int status, uint32_t scheme, PyObject *first, PyObject *second) {
  switch (status) {
    case VERSIONS_OK: return 0;
    case VERSIONS_NO_VERSION_A:
    case VERSIONS_NO_VERSION_AB: raise_invalid("InvalidVersion", first, scheme); return -1;
    case VERSIONS_NO_VERSION_B: raise_invalid("InvalidVersion", second, scheme); return -1;
    default: raise_status(status); return -1;
  }
}

/* Compares two texts in a scheme, or those of its Versions. */
static int order_of_items(comparison *call, uint32_t scheme, PyObject *first, PyObject *second, int32_t *order) {
  struct text a, b;
  PyThreadState *thread;
  int status;

  *order = 0;
  if (read_item(first, scheme, &a) < 0 || read_item(second, scheme, &b) < 0) return -1;
  thread = let_go(a.size > b.size ? a.size : b.size);
  status = call(scheme, a.bytes, a.size, b.bytes, b.size, order);
  take_again(thread);
  return check_two(status, scheme, first, second);
}

static PyObject *compared(comparison *call, uint32_t scheme, PyObject *first, PyObject *second) {
  int32_t order;

  return order_of_items(call, scheme, first, second, &order) < 0 ? NULL : PyLong_FromLong(order);
}

static PyObject *compare(PyObject *Py_UNUSED(module), PyObject *args, PyObject *named) {
  static char *names[] = {"a", "b", "scheme", NULL};
  PyObject *a, *b;
  uint32_t scheme = VERSIONS_MIXED;

  if (read_with_scheme(args, named, "OO|$O:compare", names, &a, &b, &scheme) < 0) return NULL;
  return compared(versions_compare, scheme, a, b);
}

static PyObject *compare_total(PyObject *Py_UNUSED(module), PyObject *args, PyObject *named) {
  static char *names[] = {"a", "b", NULL};
  PyObject *a, *b;

  if (read_arguments(args, named, "OO:compare_total", names, &a, &b) < 0) return NULL;
  return compared(compare_totally, VERSIONS_MIXED, a, b);
}

/* difference(a, b): the number of where two versions differ first, and that of the part */
static PyObject *difference(PyObject *Py_UNUSED(module), PyObject *args) {
  PyObject *first, *second;
  PyThreadState *thread;
  struct text a, b;
  uint32_t number = 0;
  size_t part = 0;
  int status;

  if (!PyArg_ParseTuple(args, "OO:difference", &first, &second)) return NULL;
  if (read_item(first, VERSIONS_MIXED, &a) < 0 || read_item(second, VERSIONS_MIXED, &b) < 0) return NULL;
  thread = let_go(a.size > b.size ? a.size : b.size);
  status = versions_difference(a.bytes, a.size, b.bytes, b.size, &number, &part);
  take_again(thread);
  if (check_two(status, VERSIONS_MIXED, first, second) < 0) return NULL;
  return Py_BuildValue("(In)", number, (Py_ssize_t)part);
}

/*
 * What a version has, for the attributes of Version
 */

/* Answers a call that finds nothing: None if the version has no such thing, else raises the error of the status. */
static PyObject *none_or_raise(int status, PyObject *object) {
  switch (status) {
    case VERSIONS_NO_NUMBER:
    case VERSIONS_NO_NEXT:
    case VERSIONS_NO_FIELD: Py_RETURN_NONE;
    case VERSIONS_NO_VERSION: return raise_invalid("InvalidVersion", object, VERSIONS_MIXED);
    default: return raise_status(status);
  }
}

/* Reads a place. One beyond the largest size is clipped to it. No text is so long that it has a part there. */
static int read_place(PyObject *object, size_t *place) {
  Py_ssize_t n = PyNumber_AsSsize_t(object, NULL);

  if (n == -1 && PyErr_Occurred()) return -1;
  if (n < 0) fail(PyExc_ValueError, "places are counted from 0: %S", object);
  *place = (size_t)n;
  return n < 0 ? -1 : 0;
}

static PyObject *nth(PyObject *Py_UNUSED(module), PyObject *args) {
  PyObject *object, *place;
  PyThreadState *thread;
  struct text text;
  uint32_t number = 0;
  size_t n;
  int status;

  if (!PyArg_ParseTuple(args, "OO:nth", &object, &place) || read_place(place, &n) < 0) return NULL;
  if (read_text(object, &text) < 0) return NULL;
  thread = let_go(text.size);
  status = versions_nth(text.bytes, text.size, n, &number);
  take_again(thread);
  return status == VERSIONS_OK ? PyLong_FromUnsignedLong(number) : none_or_raise(status, object);
}

static PyObject *epoch(PyObject *Py_UNUSED(module), PyObject *object) {
  PyThreadState *thread;
  struct text text;
  uint64_t number = 0;
  int status;

  if (read_text(object, &text) < 0) return NULL;
  thread = let_go(text.size);
  status = versions_epoch(text.bytes, text.size, &number);
  take_again(thread);
  /* A large epoch is the largest one that the library writes. */
  if (status != VERSIONS_OK && status != VERSIONS_LARGE_EPOCH) return none_or_raise(status, object);
  return PyLong_FromUnsignedLongLong(number);
}

/* field(text, which): the field as it is written, by the number that versions.h gives it */
static PyObject *field(PyObject *Py_UNUSED(module), PyObject *args) {
  PyObject *object;
  PyThreadState *thread;
  struct text text;
  size_t start = 0, end = 0;
  unsigned int which;
  int status;

  if (!PyArg_ParseTuple(args, "OI:field", &object, &which) || read_text(object, &text) < 0) return NULL;
  thread = let_go(text.size);
  status = versions_field(text.bytes, text.size, which, &start, &end);
  take_again(thread);
  if (status != VERSIONS_OK) return none_or_raise(status, object);
  return PyUnicode_FromStringAndSize(text.bytes + start, (Py_ssize_t)(end - start));
}

static PyObject *is_prerelease(PyObject *Py_UNUSED(module), PyObject *object) {
  PyThreadState *thread;
  struct text text;
  bool answer = false;
  int status;

  if (read_text(object, &text) < 0) return NULL;
  thread = let_go(text.size);
  status = versions_is_prerelease(text.bytes, text.size, &answer);
  take_again(thread);
  return status == VERSIONS_OK ? PyBool_FromLong(answer) : none_or_raise(status, object);
}

/* What comes next after a version: at a place, at the last one, or as a pre-release of a word, which may be empty. */
enum next_kind { NEXT, NEXT_RELEASE, NEXT_PRE };

struct next_asked {
  enum next_kind kind;
  size_t place;
  struct text word;
};

static int call_next(const struct text *text, const struct next_asked *asked, char *room, size_t *size) {
  const struct text *word = &asked->word;

  switch (asked->kind) {
    case NEXT_RELEASE: return versions_next_release(text->bytes, text->size, room, *size, size);
    case NEXT_PRE: return versions_next_pre(text->bytes, text->size, word->bytes, word->size, room, *size, size);
    default: return versions_next(text->bytes, text->size, asked->place, room, *size, size);
  }
}

static int ask_next(const struct text *text, const struct next_asked *asked, char *room, size_t *size) {
  PyThreadState *thread = let_go(text->size + asked->word.size);
  int status = call_next(text, asked, room, size);

  take_again(thread);
  return status;
}

/* Asks again, with room for a text that is longer than the room on the stack. Returns its status. */
static int ask_long_next(const struct text *text, const struct next_asked *asked, PyObject **next, size_t size) {
  char *room = allocated(size, 1);
  int status = room == NULL ? VERSIONS_NO_MEMORY : ask_next(text, asked, room, &size);

  if (status == VERSIONS_OK) *next = PyUnicode_FromStringAndSize(room, (Py_ssize_t)size);
  PyMem_Free(room);
  return status;
}

/* The text of the version that comes next, and None where there is none. */
static PyObject *next_of(PyObject *object, const struct next_asked *asked) {
  PyObject *next = NULL;
  struct text text;
  char room[256];
  size_t size = sizeof room;
  int status;

  if (read_text(object, &text) < 0) return NULL;
  status = ask_next(&text, asked, room, &size);
  if (status == VERSIONS_OK) return PyUnicode_FromStringAndSize(room, (Py_ssize_t)size);
  if (status == VERSIONS_NO_ROOM) status = ask_long_next(&text, asked, &next, size);
  if (status == VERSIONS_OK || PyErr_Occurred()) return next;
  return none_or_raise(status, object);
}

/* next(text, place) */
static PyObject *next(PyObject *Py_UNUSED(module), PyObject *args) {
  PyObject *object, *at;
  struct next_asked asked = {NEXT, 0, {NULL, 0}};

  if (!PyArg_ParseTuple(args, "OO:next", &object, &at) || read_place(at, &asked.place) < 0) return NULL;
  return next_of(object, &asked);
}

/* next_release(text) */
static PyObject *next_release(PyObject *Py_UNUSED(module), PyObject *object) {
  struct next_asked asked = {NEXT_RELEASE, 0, {NULL, 0}};

  return next_of(object, &asked);
}

/* next_pre(text, word), where the word may be None */
static PyObject *next_pre(PyObject *Py_UNUSED(module), PyObject *args) {
  PyObject *object, *word;
  struct next_asked asked = {NEXT_PRE, 0, {NULL, 0}};

  if (!PyArg_ParseTuple(args, "OO:next_pre", &object, &word)) return NULL;
  if (word != Py_None && read_text(word, &asked.word) < 0) return NULL;
  return next_of(object, &asked);
}

static int ask_why(const struct text *list, const struct text *version, char *room, size_t *size) {
  PyThreadState *thread = let_go(list->size + version->size);
  int status = versions_why_text(list->bytes, list->size, version->bytes, version->size, room, *size, size);

  take_again(thread);
  return status;
}

/* why_text(list, version): a sentence that says why the version doesn't match; it is empty where it does */
static PyObject *why_text(PyObject *Py_UNUSED(module), PyObject *args) {
  PyObject *of_list, *of_version, *said = NULL;
  struct text list, version;
  size_t size = 0;
  char *room;
  int status;

  if (!PyArg_ParseTuple(args, "OO:why_text", &of_list, &of_version)) return NULL;
  if (read_text(of_list, &list) < 0 || read_text(of_version, &version) < 0) return NULL;
  status = ask_why(&list, &version, NULL, &size);
  if (status == VERSIONS_ALL_MATCH) return PyUnicode_FromStringAndSize(NULL, 0);
  if (status == VERSIONS_NO_REQUIREMENTS) return raise_invalid("InvalidRequirement", of_list, VERSIONS_MIXED);
  if (status != VERSIONS_NO_ROOM) return none_or_raise(status, of_version);
  room = allocated(size, 1);
  if (room == NULL) return PyErr_NoMemory();
  status = ask_why(&list, &version, room, &size);
  if (status == VERSIONS_OK) said = PyUnicode_FromStringAndSize(room, (Py_ssize_t)size);
  PyMem_Free(room);
  return status == VERSIONS_OK ? said : raise_status(status);
}

/* in_tag(tag, prefix): the text of the version in a tag, after the prefix where that is not None */
static PyObject *in_tag(PyObject *Py_UNUSED(module), PyObject *args) {
  PyObject *object, *before;
  PyThreadState *thread;
  struct text tag, prefix = {NULL, 0};
  size_t start = 0;
  int status;

  if (!PyArg_ParseTuple(args, "OO:in_tag", &object, &before)) return NULL;
  object = text_of(object, VERSIONS_MIXED);
  if (object == NULL || read_text(object, &tag) < 0) return NULL;
  if (before != Py_None && read_text(before, &prefix) < 0) return NULL;
  thread = let_go(tag.size);
  status = before == Py_None ? versions_in_tag(tag.bytes, tag.size, &start)
                             : versions_after_prefix(prefix.bytes, prefix.size, tag.bytes, tag.size, &start);
  take_again(thread);
  if (status != VERSIONS_OK) return none_or_raise(status, object);
  return PyUnicode_FromStringAndSize(tag.bytes + start, (Py_ssize_t)(tag.size - start));
}

/* stability(text): its number */
static PyObject *stability(PyObject *Py_UNUSED(module), PyObject *object) {
  PyThreadState *thread;
  struct text text;
  int number;

  if (read_text(object, &text) < 0) return NULL;
  thread = let_go(text.size);
  number = versions_stability(text.bytes, text.size);
  take_again(thread);
  if (number == VERSIONS_NONE) return raise_invalid("InvalidVersion", object, VERSIONS_MIXED);
  if (number < VERSIONS_DEV || number > VERSIONS_STABLE) return raise_status(number);
  return PyLong_FromLong(number);
}

/* The first member of the bytes of a list that is not a requirement, as wrong_member returns it. */
static PyObject *wrong_member_of(const char *bytes, size_t size) {
  PyThreadState *thread = let_go(size);
  size_t start = 0, end = 0;
  int status = versions_wrong_member(bytes, size, &start, &end);
  PyObject *member;
  Py_ssize_t length;

  take_again(thread);
  if (status == VERSIONS_NO_WRONG_MEMBER) Py_RETURN_NONE;
  if (status != VERSIONS_OK) return raise_status(status);
  /* What precedes the member are requirements and commas, so each of its bytes is a character. */
  member = PyUnicode_Decode(bytes + start, (Py_ssize_t)(end - start), "utf-8", "surrogatepass");
  if (member == NULL) return NULL;
  length = PyUnicode_GetLength(member);
  Py_DECREF(member);
  return Py_BuildValue("(nn)", (Py_ssize_t)start, (Py_ssize_t)start + length);
}

/* wrong_member(text): where the first member begins and ends that is not a requirement; None where each is one */
static PyObject *wrong_member(PyObject *Py_UNUSED(module), PyObject *object) {
  PyObject *bytes, *answer;
  struct text text;

  if (read_text(object, &text) < 0) return NULL;
  /* A lone surrogate becomes three bytes that are not UTF-8, so its member is not a requirement. */
  bytes = PyUnicode_AsEncodedString(object, "utf-8", "surrogatepass");
  if (bytes == NULL) return NULL;
  answer = wrong_member_of(PyBytes_AsString(bytes), (size_t)PyBytes_Size(bytes));
  Py_DECREF(bytes);
  return answer;
}

PyObject *pair_of(PyObject *first, PyObject *second) {
  PyObject *pair = first == NULL || second == NULL ? NULL : PyTuple_Pack(2, first, second);

  Py_XDECREF(first);
  Py_XDECREF(second);
  return pair;
}

/* conflict(list): two members that exclude each other; None where there are none */
static PyObject *conflict(PyObject *Py_UNUSED(module), PyObject *object) {
  size_t start = 0, end = 0, other_start = 0, other_end = 0;
  PyThreadState *thread;
  struct text list;
  int status;

  if (read_text(object, &list) < 0) return NULL;
  thread = let_go(list.size);
  status = versions_conflict(list.bytes, list.size, &start, &end, &other_start, &other_end);
  take_again(thread);
  if (status == VERSIONS_NO_CONFLICT) Py_RETURN_NONE;
  if (status == VERSIONS_NO_REQUIREMENTS) return raise_invalid("InvalidRequirement", object, VERSIONS_MIXED);
  if (status != VERSIONS_OK) return raise_status(status);
  return pair_of(PyUnicode_FromStringAndSize(list.bytes + start, (Py_ssize_t)(end - start)),
                 PyUnicode_FromStringAndSize(list.bytes + other_start, (Py_ssize_t)(other_end - other_start)));
}

/*
 * Many texts
 */

static bool is_null(const struct texts *texts, size_t place) {
  size_t bit = texts->first + place;

  return texts->validity != NULL && !(texts->validity[bit / 8] >> bit % 8 & 1);
}

/* Appends of n numbers the answers that they stand for, which are borrowed. */
static int append_all(PyObject *answers, const struct texts *texts, const uint8_t *numbers, PyObject *const *meanings,
                      uint8_t largest) {
  size_t place;

  for (place = 0; place < texts->count; place++) {
    uint8_t number = numbers[place];

    if (number > largest) {
      raise_status(number);
      return -1;
    }
    if (PyList_Append(answers, is_null(texts, place) ? Py_None : meanings[number]) < 0) return -1;
  }
  return 0;
}

typedef int numbering(const char *, size_t, const int64_t *, size_t, uint8_t *, size_t);

/* Asks for a number of each text, and appends what the numbers mean. */
static int ask_numbers(const struct call *call, numbering *library_call, uint8_t largest, const struct texts *texts,
                       PyObject *answers) {
  uint8_t *numbers = allocated(texts->count, 1);
  PyThreadState *thread;
  int status, failed = -1;

  if (numbers == NULL) return -1;
  thread = let_go_of(texts);
  status = library_call(texts->bytes, texts->size, texts->offsets, texts->count + 1, numbers, texts->count);
  take_again(thread);
  if (status == VERSIONS_OK)
    failed = append_all(answers, texts, numbers, call->meanings, largest);
  else
    raise_status(status);
  PyMem_Free(numbers);
  return failed;
}

static int ask_kinds(const struct call *call, const struct texts *texts, PyObject *answers) {
  return ask_numbers(call, versions_kinds, VERSIONS_COMPLEX, texts, answers);
}

static int ask_stabilities(const struct call *call, const struct texts *texts, PyObject *answers) {
  return ask_numbers(call, versions_stabilities, VERSIONS_STABLE, texts, answers);
}

/* The version in the tag at a place, which begins at `start`; None where that is the tag's end, and of a null. */
static PyObject *version_at(const struct texts *texts, size_t place, int64_t start) {
  int64_t end = texts->offsets[place + 1];

  if (is_null(texts, place) || start == end) Py_RETURN_NONE;
  return PyUnicode_FromStringAndSize(texts->bytes + start, (Py_ssize_t)(end - start));
}

static int append_versions(PyObject *answers, const struct texts *texts, const int64_t *starts) {
  int failed = 0;
  size_t place;

  for (place = 0; failed == 0 && place < texts->count; place++) {
    PyObject *version = version_at(texts, place, starts[place]);

    failed = version == NULL ? -1 : PyList_Append(answers, version);
    Py_XDECREF(version);
  }
  return failed;
}

int64_t *starts_in(const struct texts *tags) {
  int64_t *starts = allocated(tags->count, sizeof *starts);
  PyThreadState *thread;
  int status;

  if (starts == NULL) return NULL;
  thread = let_go_of(tags);
  status = versions_in_tags(tags->bytes, tags->size, tags->offsets, tags->count + 1, starts, tags->count);
  take_again(thread);
  if (status == VERSIONS_OK) return starts;
  PyMem_Free(starts);
  return raise_status(status);
}

static int ask_in_tags(const struct call *Py_UNUSED(call), const struct texts *texts, PyObject *answers) {
  int64_t *starts = starts_in(texts);
  int failed = starts == NULL ? -1 : append_versions(answers, texts, starts);

  PyMem_Free(starts);
  return failed;
}

static int ask_matches(const struct call *call, const struct texts *texts, PyObject *answers) {
  PyObject *const meanings[] = {Py_False, Py_True, Py_None};
  uint8_t *numbers = allocated(texts->count, 1);
  int failed = -1;

  if (numbers != NULL)
    failed = call->wanted != NULL ? match_texts(call->wanted, texts, numbers) : has_texts(&call->set, texts, numbers);
  if (failed == 0) failed = append_all(answers, texts, numbers, meanings, 2);
  PyMem_Free(numbers);
  return failed;
}

/* The memory of the calls that write the keys of texts, and of those that sort by them. */
struct keys {
  uint8_t *bytes;
  size_t room;
  int64_t *offsets;
};

static void free_keys(struct keys *keys) {
  PyMem_Free(keys->bytes);
  PyMem_Free(keys->offsets);
}

/* Adds to the room what is enough for the key of the text at a place. Returns a status. */
static int add_room(uint32_t scheme, const struct texts *texts, size_t place, size_t *room) {
  int64_t start = texts->offsets[place], end = texts->offsets[place + 1];
  size_t bound = 0;
  int status;

  /* Offsets that the library will refuse may ask for any room. */
  if (start < 0 || end < start || (uint64_t)end > texts->size) return VERSIONS_BAD_OFFSETS;
  status = versions_key_bound(scheme, (size_t)(end - start), &bound);
  if (status != VERSIONS_OK) return status;
  if (bound > PY_SSIZE_T_MAX - *room) return VERSIONS_NO_MEMORY;
  *room += bound;
  return VERSIONS_OK;
}

/* Room that is enough for the keys of all texts in a scheme. */
static int allocate_keys(uint32_t scheme, const struct texts *texts, struct keys *keys) {
  int status = VERSIONS_OK;
  size_t place;

  keys->bytes = NULL;
  keys->offsets = NULL;
  keys->room = 0;
  for (place = 0; status == VERSIONS_OK && place < texts->count; place++)
    status = add_room(scheme, texts, place, &keys->room);
  if (status != VERSIONS_OK) {
    if (status == VERSIONS_NO_MEMORY)
      PyErr_NoMemory();
    else
      raise_status(status);
    return -1;
  }
  keys->bytes = allocated(keys->room, 1);
  keys->offsets = keys->bytes == NULL ? NULL : allocated(texts->count, sizeof *keys->offsets);
  return keys->offsets == NULL ? -1 : 0;
}

/* Whether the text at a place is not a version: its key is empty, which no version has. */
static bool has_no_key(const struct keys *keys, size_t place) {
  return keys->offsets[place] == keys->offsets[place + 1];
}

static PyObject *key_at(const struct texts *texts, const struct keys *keys, size_t place) {
  int64_t at = keys->offsets[place], end = keys->offsets[place + 1];

  if (is_null(texts, place) || has_no_key(keys, place)) Py_RETURN_NONE;
  return PyBytes_FromStringAndSize((const char *)keys->bytes + at, (Py_ssize_t)(end - at));
}

static int append_keys(PyObject *answers, const struct texts *texts, const struct keys *keys) {
  int failed = 0;
  size_t place;

  for (place = 0; failed == 0 && place < texts->count; place++) {
    PyObject *key = key_at(texts, keys, place);

    failed = key == NULL ? -1 : PyList_Append(answers, key);
    Py_XDECREF(key);
  }
  return failed;
}

/* Asks for the keys of all texts in a scheme. */
static int ask_keys(uint32_t scheme, const struct texts *texts, struct keys *keys) {
  size_t count = texts->count + 1;
  PyThreadState *thread;
  int status;

  if (allocate_keys(scheme, texts, keys) < 0) return -1;
  thread = let_go_of(texts);
  status = versions_keys(scheme, texts->bytes, texts->size, texts->offsets, count, keys->bytes, keys->room,
                         keys->offsets, count);
  take_again(thread);
  if (status == VERSIONS_OK) return 0;
  raise_status(status);
  return -1;
}

static int ask_sort_keys(const struct call *call, const struct texts *texts, PyObject *answers) {
  struct keys keys;
  int failed = ask_keys(call->scheme, texts, &keys);

  if (failed == 0) failed = append_keys(answers, texts, &keys);
  free_keys(&keys);
  return failed;
}

int gather(struct gathered *gathered, PyObject *iterator, uint32_t scheme, bool takes_missing) {
  PyObject *item;
  int failed = 0;

  while (failed == 0 && (item = PyIter_Next(iterator)) != NULL) {
    struct text text = {NOT_UTF8, sizeof NOT_UTF8 - 1};

    failed = takes_missing ? read_item_or_none(item, scheme, &text) : read_item(item, scheme, &text);
    if (failed >= 0) failed = add_text(gathered, &text);
    Py_DECREF(item);
  }
  return failed < 0 || PyErr_Occurred() ? -1 : 0;
}

static int ask_iterator(const struct call *call, PyObject *iterator, PyObject *answers) {
  struct gathered gathered = {NULL, 0, 0, NULL, 0, 0};
  int failed = gather(&gathered, iterator, call->scheme, true);

  if (failed == 0) {
    struct texts texts = texts_of(&gathered);

    failed = call->ask(call, &texts, answers);
  }
  free_gathered(&gathered);
  return failed;
}

/*
 * Asks about the items of an iterable. An error that is set says why its Arrow arrays are not read. It is raised if the
 * object can't be iterated, and is otherwise the context of what iterating it raises.
 */
static int ask_iterable(const struct call *call, PyObject *iterable, PyObject *answers) {
  struct error refused = put_aside();
  PyObject *iterator = PyObject_GetIter(iterable);
  int failed;

  if (iterator == NULL && refused.type != NULL && PyErr_ExceptionMatches(PyExc_TypeError)) {
    put_back(refused);
    return -1;
  }
  failed = iterator == NULL ? -1 : ask_iterator(call, iterator, answers);
  Py_XDECREF(iterator);
  add_context(refused);
  return failed;
}

/* A Series of the answers where the texts are one, and else the list; the list is given away. */
static PyObject *in_series(const struct call *call, PyObject *texts, PyObject *answers) {
  PyObject *module, *made = NULL;

  if (PyList_Check(texts) || PyTuple_Check(texts)) return answers;
  module = PyImport_ImportModule("versions._series");
  if (module != NULL)
    made = PyObject_CallMethod(module, "answers_of", "(OOi)", texts, answers, call->ask == ask_matches);
  Py_XDECREF(module);
  Py_DECREF(answers);
  return made;
}

static PyObject *answers_of(const struct call *call, PyObject *texts) {
  PyObject *answers;
  int found;

  if (refuse_one(texts) < 0) return NULL;
  answers = PyList_New(0);
  if (answers == NULL) return NULL;
  found = ask_arrow(call, texts, answers);
  if (found < 0 || (found == 0 && ask_iterable(call, texts, answers) < 0)) {
    Py_DECREF(answers);
    return NULL;
  }
  return in_series(call, texts, answers);
}

static char *texts_alone[] = {"texts", NULL};

static PyObject *kinds(PyObject *module, PyObject *args, PyObject *named) {
  struct state *state = PyModule_GetState(module);
  const struct call call = {.ask = ask_kinds, .scheme = VERSIONS_MIXED, .meanings = state->kinds};
  PyObject *texts;

  return read_arguments(args, named, "O:kinds", texts_alone, &texts, NULL) < 0 ? NULL : answers_of(&call, texts);
}

static PyObject *stabilities(PyObject *Py_UNUSED(module), PyObject *args, PyObject *named) {
  PyObject *meanings[VERSIONS_STABLE + 1], *texts, *module, *members, *answers = NULL;
  const struct call call = {.ask = ask_stabilities, .scheme = VERSIONS_MIXED, .meanings = meanings};
  int number;

  if (read_arguments(args, named, "O:stabilities", texts_alone, &texts, NULL) < 0) return NULL;
  module = PyImport_ImportModule("versions._version");
  members = module == NULL ? NULL : PyObject_GetAttrString(module, "STABILITIES");
  if (members != NULL) {
    for (number = VERSIONS_NONE; number <= VERSIONS_STABLE; number++)
      meanings[number] = PyTuple_GetItem(members, number);
    answers = answers_of(&call, texts);
  }
  Py_XDECREF(members);
  Py_XDECREF(module);
  return answers;
}

static PyObject *in_tags(PyObject *Py_UNUSED(module), PyObject *args, PyObject *named) {
  const struct call call = {.ask = ask_in_tags, .scheme = VERSIONS_MIXED};
  PyObject *texts;

  return read_arguments(args, named, "O:in_tags", texts_alone, &texts, NULL) < 0 ? NULL : answers_of(&call, texts);
}

static PyObject *sort_keys(PyObject *Py_UNUSED(module), PyObject *args, PyObject *named) {
  static char *names[] = {"texts", "scheme", NULL};
  struct call call = {.ask = ask_sort_keys, .scheme = VERSIONS_MIXED};
  PyObject *texts;

  if (read_with_scheme(args, named, "O|$O:sort_keys", names, &texts, NULL, &call.scheme) < 0) return NULL;
  return answers_of(&call, texts);
}

static PyObject *match_all(PyObject *Py_UNUSED(module), PyObject *args, PyObject *named) {
  static char *names[] = {"requirement", "texts", NULL};
  struct range wanted;
  struct call call = {.ask = ask_matches, .scheme = VERSIONS_MIXED, .wanted = &wanted};
  PyObject *requirement, *texts, *answers;

  if (read_arguments(args, named, "OO:match_all", names, &requirement, &texts) < 0) return NULL;
  if (is_formed(requirement)) {
    call.wanted = NULL;
    call.set = formed_set(requirement);
    call.scheme = call.set.scheme;
    return answers_of(&call, texts);
  }
  /* The requirement is judged first, whatever the texts are. */
  if (read_range(requirement, &wanted) < 0) return NULL;
  answers = answers_of(&call, texts);
  clear_range(&wanted);
  return answers;
}

/*
 * sorted. In reverse, the items are sorted from the last to the first, and then taken from the last to the first: so
 * those that tie keep their order.
 */

/* What is sorted, how, and with what. */
struct sort {
  PyObject *items; /* a list that only this call knows */
  PyObject *texts; /* a list of what `key` gives for each item, or `items` where there is no key */
  uint32_t scheme;
  bool reverse, last;
  struct keys keys;
  uint64_t *order;
};

/* How many texts are versions: the sort puts all others last. */
static size_t versions_of(const struct sort *sort, size_t count) {
  while (count > 0 && has_no_key(&sort->keys, (size_t)sort->order[count - 1])) count--;
  return count;
}

/* Raises InvalidVersion with the first text that is not a version, of those from `good` on in sorted order. */
static void *raise_first(const struct sort *sort, size_t good, size_t count) {
  uint64_t place = sort->order[sort->reverse ? count - 1 : good];

  /* A Version is one, so this is a str. */
  return raise_invalid("InvalidVersion", PyList_GetItem(sort->texts, (Py_ssize_t)place), sort->scheme);
}

/* Appends the items of the places from `from` up to `end` in sorted order, or in reverse. */
static int append_items(PyObject *answers, const struct sort *sort, size_t from, size_t end) {
  int failed = 0;
  size_t at;

  for (at = from; failed == 0 && at < end; at++) {
    uint64_t place = sort->order[sort->reverse ? from + end - 1 - at : at];

    failed = PyList_Append(answers, PyList_GetItem(sort->items, (Py_ssize_t)place));
  }
  return failed;
}

static PyObject *in_order(const struct sort *sort, size_t count) {
  size_t good = versions_of(sort, count);
  PyObject *answers;

  if (good < count && !sort->last) return raise_first(sort, good, count);
  answers = PyList_New(0);
  if (answers != NULL &&
      (append_items(answers, sort, 0, good) < 0 || append_items(answers, sort, good, count) < 0))
    Py_CLEAR(answers);
  return answers;
}

/* Asks for the order of all texts: in mixed that of compare_total. Returns a status. */
static int ask_sort(struct sort *sort, const struct texts *texts) {
  const struct keys *keys = &sort->keys;
  size_t count = texts->count;
  PyThreadState *thread = let_go_of(texts);
  int status;

  status = versions_sort(sort->scheme, texts->bytes, texts->size, texts->offsets, count + 1, keys->bytes, keys->room,
                         keys->offsets, count + 1, sort->order, count);
  take_again(thread);
  return status;
}

static PyObject *sort_texts(struct sort *sort, const struct texts *texts) {
  PyObject *answers = NULL;
  int status;

  sort->order = allocated(texts->count, sizeof *sort->order);
  if (allocate_keys(sort->scheme, texts, &sort->keys) == 0 && sort->order != NULL) {
    status = ask_sort(sort, texts);
    answers = status == VERSIONS_OK ? in_order(sort, texts->count) : raise_status(status);
  }
  free_keys(&sort->keys);
  PyMem_Free(sort->order);
  return answers;
}

/* Reverses what is sorted, if it is to be sorted in reverse. */
static int turn(const struct sort *sort) {
  if (!sort->reverse) return 0;
  if (sort->texts != sort->items && PyList_Reverse(sort->texts) < 0) return -1;
  return PyList_Reverse(sort->items);
}

static PyObject *sort_items(struct sort *sort) {
  struct gathered gathered = {NULL, 0, 0, NULL, 0, 0};
  PyObject *iterator = turn(sort) < 0 ? NULL : PyObject_GetIter(sort->texts), *answers = NULL;

  if (iterator != NULL && gather(&gathered, iterator, sort->scheme, sort->last) == 0) {
    struct texts texts = texts_of(&gathered);

    answers = sort_texts(sort, &texts);
  }
  Py_XDECREF(iterator);
  free_gathered(&gathered);
  return answers;
}

/* A list of what the key gives for each item; the items themselves where the key is None. */
static PyObject *texts_by(PyObject *key, PyObject *items) {
  PyObject *texts, *iterator, *item;

  if (key == Py_None) {
    Py_INCREF(items);
    return items;
  }
  texts = PyList_New(0);
  iterator = texts == NULL ? NULL : PyObject_GetIter(items);
  while (iterator != NULL && texts != NULL && (item = PyIter_Next(iterator)) != NULL) {
    PyObject *text = PyObject_CallFunctionObjArgs(key, item, NULL);

    if (text == NULL || PyList_Append(texts, text) < 0) Py_CLEAR(texts);
    Py_XDECREF(text);
    Py_DECREF(item);
  }
  Py_XDECREF(iterator);
  if (PyErr_Occurred()) Py_CLEAR(texts);
  return texts;
}

static PyObject *sorted(PyObject *Py_UNUSED(module), PyObject *args, PyObject *named) {
  static char *names[] = {"texts", "key", "reverse", "invalid", "scheme", NULL};
  struct sort sort = {.scheme = VERSIONS_MIXED};
  const char *invalid = "raise";
  PyObject *texts, *key = Py_None, *scheme = NULL, *answers;
  int reverse = 0;

  if (!PyArg_ParseTupleAndKeywords(args, named, "O|$OpsO:sorted", names, &texts, &key, &reverse, &invalid, &scheme))
    return NULL;
  if (scheme != NULL && read_scheme(scheme, &sort.scheme) < 0) return NULL;
  sort.reverse = reverse;
  sort.last = strcmp(invalid, "last") == 0;
  if (!sort.last && strcmp(invalid, "raise") != 0)
    return fail(PyExc_ValueError, "invalid is 'raise' or 'last', and this is '%s'", invalid);
  if (refuse_one(texts) < 0 || (sort.items = PySequence_List(texts)) == NULL) return NULL;
  sort.texts = texts_by(key, sort.items);
  answers = sort.texts == NULL ? NULL : sort_items(&sort);
  Py_XDECREF(sort.texts);
  Py_DECREF(sort.items);
  return answers;
}

/*
 * newest. In mixed, a Version is compared by its key where no more than its key and its kind is asked about. Of the
 * other items the library finds the newest, and that of both is then the newest of all. In another scheme the newest is
 * that with the greatest key.
 */

/* What is searched, and for what. */
struct search {
  PyObject *items; /* a list that only this call knows */
  struct range wanted;
  uint32_t least; /* of the stabilities, or 0 */
  uint32_t flags; /* of versions_newest */
  PyTypeObject *keyed; /* the type of the last Version that was met, since is_keyed takes long */
};

static bool goes_by_key(struct search *search, PyObject *item) {
  if (search->flags != 0 || search->least != 0) return false;
  if (Py_TYPE(item) != search->keyed && !PyUnicode_Check(item) && is_keyed(item)) search->keyed = Py_TYPE(item);
  return Py_TYPE(item) == search->keyed;
}

/* Finds the newest of the items that go by their keys. *newest stays -1 where there is none. */
static int find_by_keys(struct search *search, Py_ssize_t *newest) {
  Py_ssize_t place, count = PyList_Size(search->items);

  for (place = 0; place < count; place++) {
    PyObject *item = PyList_GetItem(search->items, place);
    int answer;

    if (!goes_by_key(search, item)) continue;
    if (keyed_scheme(item) != VERSIONS_MIXED) {
      raise_schemes(VERSIONS_MIXED, keyed_scheme(item));
      return -1;
    }
    if (*newest >= 0 && order_of_keyed(item, PyList_GetItem(search->items, *newest)) <= 0) continue;
    answer = match_one(&search->wanted, item);
    if (answer < 0) return -1;
    if (answer == 1) *newest = place;
  }
  return 0;
}

/* Gathers the texts of the other items. A missing value becomes a text of no version. */
static int gather_others(struct search *search, struct gathered *gathered) {
  Py_ssize_t place, count = PyList_Size(search->items);

  for (place = 0; place < count; place++) {
    PyObject *item = PyList_GetItem(search->items, place);
    struct text text = {NOT_UTF8, sizeof NOT_UTF8 - 1};

    if (goes_by_key(search, item)) continue;
    if (read_item_or_none(item, VERSIONS_MIXED, &text) < 0 || add_text(gathered, &text) < 0) return -1;
  }
  return 0;
}

/* The place of the item whose text is gathered at a place. */
static Py_ssize_t place_of_other(struct search *search, size_t gathered) {
  Py_ssize_t place = 0, count = PyList_Size(search->items);

  for (; place < count; place++)
    if (!goes_by_key(search, PyList_GetItem(search->items, place)) && gathered-- == 0) break;
  return place;
}

/* Finds the newest of the texts that are gathered. *newest stays -1 where there is none. */
static int find_by_texts(struct search *search, const struct gathered *gathered, Py_ssize_t *newest) {
  struct texts texts = texts_of(gathered);
  const struct text *list = &search->wanted.list;
  PyThreadState *thread = let_go_of(&texts);
  size_t place = 0;
  int status = versions_newest(texts.bytes, texts.size, texts.offsets, texts.count + 1, list->bytes, list->size,
                               search->least, search->flags, &place);

  take_again(thread);
  if (status == VERSIONS_OK) *newest = place_of_other(search, place);
  if (status == VERSIONS_OK || status == VERSIONS_NO_VERSION) return 0;
  raise_status(status);
  return -1;
}

/* The newer of two items, by their places; the first of two that tie. */
static PyObject *newer_of(const struct search *search, Py_ssize_t a, Py_ssize_t b) {
  PyObject *first = PyList_GetItem(search->items, a < b ? a : b);
  PyObject *second = PyList_GetItem(search->items, a < b ? b : a);
  int32_t order;

  if (order_of_items(versions_compare, VERSIONS_MIXED, first, second, &order) < 0) return NULL;
  return order < 0 ? second : first;
}

/* The newest item of all, which is borrowed; None where there is none. */
static PyObject *newest_item(struct search *search) {
  struct gathered gathered = {NULL, 0, 0, NULL, 0, 0};
  Py_ssize_t by_keys = -1, by_texts = -1;
  int failed = find_by_keys(search, &by_keys);

  if (failed == 0) failed = gather_others(search, &gathered);
  if (failed == 0 && gathered.count > 0) failed = find_by_texts(search, &gathered, &by_texts);
  free_gathered(&gathered);
  if (failed < 0) return NULL;
  if (by_keys >= 0 && by_texts >= 0) return newer_of(search, by_keys, by_texts);
  if (by_keys < 0 && by_texts < 0) return Py_None;
  return PyList_GetItem(search->items, by_keys < 0 ? by_texts : by_keys);
}

/* Reads the requirement, which is `*` where none is given, or a VersionSet of mixed in its place. */
static int read_wanted(PyObject *requirement, struct range *wanted) {
  bool is_set = is_formed(requirement);
  PyObject *all;
  int failed;

  if (!is_set && requirement != Py_None) return read_range(requirement, wanted);
  if (is_set && formed_set(requirement).scheme != VERSIONS_MIXED) {
    raise_schemes(VERSIONS_MIXED, formed_set(requirement).scheme);
    return -1;
  }
  all = PyUnicode_FromString("*");
  if (all == NULL) return -1;
  failed = read_range(all, wanted);
  Py_DECREF(all);
  return failed;
}

/* The Stability that is made of an object, such as its name. */
static PyObject *stability_of(PyObject *object) {
  PyObject *module = PyImport_ImportModule("versions._version");
  PyObject *stability = module == NULL ? NULL : PyObject_CallMethod(module, "Stability", "(O)", object);

  Py_XDECREF(module);
  return stability;
}

/* Reads a Stability, or what one is made of; 0 where it is None. */
static int read_stability(PyObject *object, uint32_t *number) {
  bool is_number = PyLong_Check(object) && !PyBool_Check(object);
  Py_ssize_t given = is_number ? PyNumber_AsSsize_t(object, NULL) : 0;

  if (object != Py_None && (given < VERSIONS_DEV || given > VERSIONS_STABLE)) {
    PyObject *stability = stability_of(object);

    if (stability == NULL) return -1;
    given = PyNumber_AsSsize_t(stability, NULL);
    Py_DECREF(stability);
  }
  *number = (uint32_t)given;
  return 0;
}

/* A list of the items that are searched: all, or those in a set, where its form is not null. */
static PyObject *items_of(PyObject *texts, const struct set *set, bool tags) {
  if (set->form != NULL) return kept_in(set, texts, tags);
  Py_INCREF(texts);
  return texts;
}

static PyObject *newest_in_mixed(PyObject *texts, PyObject *requirement, PyObject *stability, bool tags) {
  struct search search = {.flags = tags ? VERSIONS_NEWEST_TAGS : 0};
  struct set set = {NULL, VERSIONS_MIXED};
  PyObject *item;

  if (read_stability(stability, &search.least) < 0 || read_wanted(requirement, &search.wanted) < 0) return NULL;
  if (is_formed(requirement)) set = formed_set(requirement);
  search.items = items_of(texts, &set, tags);
  item = search.items == NULL ? NULL : newest_item(&search);
  Py_XINCREF(item);
  Py_XDECREF(search.items);
  clear_range(&search.wanted);
  return item;
}

/* The place of the greatest key, the first of those; -1 where no text is a version. */
static Py_ssize_t place_of_greatest(const struct keys *keys, size_t count) {
  const uint8_t *most = keys->bytes; /* the greatest key, with no byte before there is one */
  size_t place, most_size = 0;
  Py_ssize_t greatest = -1;

  for (place = 0; place < count; place++) {
    const uint8_t *key = keys->bytes + keys->offsets[place];
    size_t size = (size_t)(keys->offsets[place + 1] - keys->offsets[place]);
    int order = memcmp(key, most, size < most_size ? size : most_size);

    if (order < 0 || (order == 0 && size <= most_size)) continue;
    greatest = (Py_ssize_t)place;
    most = key;
    most_size = size;
  }
  return greatest;
}

/* The newest of the items of a list by the keys of a scheme; None where there is none. */
static PyObject *newest_by_keys(uint32_t scheme, PyObject *items) {
  struct gathered gathered = {NULL, 0, 0, NULL, 0, 0};
  PyObject *iterator = PyObject_GetIter(items), *item = NULL;
  struct keys keys = {NULL, 0, NULL};

  if (iterator != NULL && gather(&gathered, iterator, scheme, true) == 0) {
    struct texts texts = texts_of(&gathered);

    if (ask_keys(scheme, &texts, &keys) == 0) {
      Py_ssize_t place = place_of_greatest(&keys, texts.count);

      item = place < 0 ? Py_None : PyList_GetItem(items, place);
      Py_XINCREF(item);
    }
  }
  free_keys(&keys);
  free_gathered(&gathered);
  Py_XDECREF(iterator);
  return item;
}

static PyObject *newest_in_other(uint32_t scheme, PyObject *texts, PyObject *requirement) {
  struct set set = {NULL, scheme};
  PyObject *items, *item;

  if (requirement != Py_None && (set.form = form_in(scheme, requirement)) == NULL) return NULL;
  items = items_of(texts, &set, false);
  item = items == NULL ? NULL : newest_by_keys(scheme, items);
  Py_XDECREF(items);
  Py_XDECREF(set.form);
  return item;
}

/* What newest is asked, but for the items. */
struct asked {
  uint32_t scheme;
  PyObject *requirement, *stability;
  int tags;
};

/* The newest of the texts in a list that only this call knows; None where there is none. */
static PyObject *newest_of(const struct asked *asked, PyObject *texts) {
  if (asked->scheme != VERSIONS_MIXED) return newest_in_other(asked->scheme, texts, asked->requirement);
  return newest_in_mixed(texts, asked->requirement, asked->stability, asked->tags);
}

/* The item of a text that was found, which is borrowed. Of one object it is the first item, as of all that tie. */
static PyObject *item_of(PyObject *items, PyObject *texts, PyObject *found) {
  Py_ssize_t place = 0, count = PyList_Size(texts);

  if (items == texts || found == Py_None) return found;
  while (place < count && PyList_GetItem(texts, place) != found) place++;
  return place < count ? PyList_GetItem(items, place) : Py_None;
}

/* The newest of items by what the key gives for each; None where there is none. */
static PyObject *newest_by(const struct asked *asked, PyObject *key, PyObject *iterable) {
  PyObject *items = PySequence_List(iterable), *texts = items == NULL ? NULL : texts_by(key, items);
  PyObject *found = texts == NULL ? NULL : newest_of(asked, texts);
  PyObject *item = found == NULL ? NULL : item_of(items, texts, found);

  Py_XINCREF(item);
  Py_XDECREF(found);
  Py_XDECREF(texts);
  Py_XDECREF(items);
  return item;
}

static PyObject *newest(PyObject *Py_UNUSED(module), PyObject *args, PyObject *named) {
  static char *names[] = {"texts", "requirement", "stability", "tags", "key", "scheme", NULL};
  struct asked asked = {VERSIONS_MIXED, Py_None, Py_None, 0};
  PyObject *texts, *key = Py_None, *name = NULL;

  if (!PyArg_ParseTupleAndKeywords(args, named, "O|OOp$OO:newest", names, &texts, &asked.requirement,
                                   &asked.stability, &asked.tags, &key, &name) ||
      (name != NULL && read_scheme(name, &asked.scheme) < 0) || refuse_one(texts) < 0)
    return NULL;
  if (asked.scheme != VERSIONS_MIXED && (asked.stability != Py_None || asked.tags))
    return fail(PyExc_ValueError, "stability and tags are for the scheme mixed alone, and this is %U", name);
  return newest_by(&asked, key, texts);
}

/*
 * The module
 */

PyDoc_STRVAR(
    kind_doc,
    "kind(text)\n--\n\n"
    "The kind of a version: `'ideal'`, `'general'` or `'complex'`, the first that fits, or None for any other text.\n"
    "\n"
    "It takes a `Version` too.\n"
    "\n"
    ">>> kind(\"1.2.3-rc.1\"), kind(\"1:2.0rc1-3\"), kind(\"20.0026.1_0-2+0.93\"), kind(\"1..2\")\n"
    "('ideal', 'general', 'complex', None)\n");

PyDoc_STRVAR(
    sort_key_doc,
    "sort_key(text, *, scheme='mixed')\n--\n\n"
    "The sort key of a version: bytes that compare as versions do by precedence, in any program that orders bytes.\n"
    "\n"
    "Versions that compare equal have equal keys, as `1.0` and `0:1.0`. No key is empty or a prefix of another. A key "
    "of\n"
    "mixed has at most three bytes for each byte of the text and five more. `InvalidVersion` where the text is not a\n"
    "version. Of a `Version` it is the `key`. Keys of two schemes say nothing of each other.\n"
    "\n"
    ">>> sort_key(\"1.2.3\").hex()\n"
    "'000301310203013202030133020202'\n"
    ">>> max([\"1.10\", \"1.9\", \"1.10rc1\"], key=sort_key)\n"
    "'1.10'\n");

PyDoc_STRVAR(compare_doc,
             "compare(a, b, *, scheme='mixed')\n--\n\n"
             "-1, 0 or 1 where `a` is below, equal to or above `b` by precedence, the one order of all versions.\n"
             "\n"
             "Each is a text or a `Version`. `InvalidVersion` with the first text that is not a version.\n"
             "With a `scheme`, one of `SCHEMES`, it goes by the order of that.\n"
             "\n"
             ">>> compare(\"1.2.0-rc.1\", \"1.2.0\"), compare(\"1.0\", \"0:1.0\"), compare(\"1:0.1\", \"9.9\")\n"
             "(-1, 0, 1)\n"
             ">>> compare(\"1.0\", \"1.0~rc1\", scheme=\"deb\"), compare(\"1.0\", \"1.0-0\", scheme=\"deb\")\n"
             "(1, 0)\n");

PyDoc_STRVAR(compare_total_doc,
             "compare_total(a, b)\n--\n\n"
             "The same with ties broken, by kind and then field by field, as `vers sort` orders its lines.\n"
             "\n"
             "It is 0 only where both are the same version, up to the metadata of ideal ones.\n"
             "Each is a text or a `Version`. `InvalidVersion` with the first text that is not a version.\n"
             "\n"
             ">>> compare_total(\"1.0\", \"0:1.0\"), compare_total(\"1.0.0+a\", \"1.0.0+b\")\n"
             "(-1, 0)\n"
             ">>> from functools import cmp_to_key\n"
             ">>> min([\"0:1.0\", \"1.1\", \"1.0\"], key=cmp_to_key(compare_total))\n"
             "'1.0'\n");

PyDoc_STRVAR(
    kinds_doc,
    "kinds(texts)\n--\n\n"
    "The kind of each of many texts, as `kind` gives it.\n"
    "\n"
    "`texts` is an iterable of texts or `Version`s, or an Arrow array of texts. An object whose Arrow arrays fail to "
    "be\n"
    "exported, or are of another type, is iterated. A missing value has the answer None: None, a NaN of Python or "
    "numpy,\n"
    "and NA and NaT of pandas. Of a Series of pandas the answers are a Series with its index.\n"
    "\n"
    ">>> kinds([\"1.2.3\", None, \"1.2\", \"1..2\"])\n"
    "['ideal', None, 'general', None]\n");

PyDoc_STRVAR(sort_keys_doc,
             "sort_keys(texts, *, scheme='mixed')\n--\n\n"
             "The sort key of each of many texts, as `sort_key` gives it, and None for a text that is not a version.\n"
             "\n"
             "`texts` is what `kinds` takes. So pandas takes it as the key of a sort, and places what has no key as "
             "missing:\n"
             "`table.sort_values(\"version\", key=sort_keys)`. Beside the answers, in mixed the call allocates three "
             "bytes for\n"
             "each byte of the texts and 13 for each text.\n"
             "\n"
             ">>> keys = sort_keys([\"1.10\", None, \"1.9\", \"1..2\"])\n"
             ">>> [key is None for key in keys], keys[0] > keys[2]\n"
             "([False, True, False, True], True)\n");

PyDoc_STRVAR(match_all_doc,
             "match_all(requirement, texts)\n--\n\n"
             "Whether a requirement matches each of many texts, and None for a text that is not a version.\n"
             "\n"
             "`requirement` is a `Requirement` or a text, or a `VersionSet`, of which the answers are those of its "
             "`has_all`.\n"
             "`texts` is what `kinds` takes. Of a Series of pandas the answers are a mask: of bool, and False where "
             "there is no\n"
             "version. `InvalidRequirement` where the text is not a requirement.\n"
             "\n"
             ">>> match_all(\">=1.1.1,<2.0.0\", [\"1.5\", \"2.0.0\", \"1..2\", None])\n"
             "[True, False, None, None]\n");

PyDoc_STRVAR(sorted_doc,
             "sorted(texts, *, key=None, reverse=False, invalid='raise', scheme='mixed')\n--\n\n"
             "A list of texts or `Version`s in the order of `compare_total`, or in reverse.\n"
             "\n"
             "`texts` is an iterable. Those that `compare_total` ties keep their order, in reverse too.\n"
             "With another `scheme` than mixed, one of `SCHEMES`, the order is that of `compare`.\n"
             "With `key`, the items may be anything, and they are in the order of what `key` returns for each, which "
             "is a text\n"
             "or a `Version`.\n"
             "`InvalidVersion` with the first text that is not a version. With `invalid='last'` such texts come last,\n"
             "and so do missing values, as `kinds` has them: in their order, in reverse too.\n"
             "`from versions import *` leaves this name out, since Python has a function of the name.\n"
             "\n"
             ">>> import versions\n"
             ">>> versions.sorted([\"1.10\", \"0:1.9\", \"1.9\", \"1.10rc1\"])\n"
             "['1.9', '0:1.9', '1.10rc1', '1.10']\n"
             ">>> versions.sorted([\"1.0a\", \"1.0\", \"1.0~rc1\"], scheme=\"deb\")\n"
             "['1.0~rc1', '1.0', '1.0a']\n"
             ">>> versions.sorted([\"1.9\", \"x y\", None, \"1.10\"], reverse=True, invalid='last')\n"
             "['1.10', '1.9', 'x y', None]\n"
             ">>> versions.sorted([(\"a\", \"1.10\"), (\"b\", \"1.9\")], key=lambda item: item[1])\n"
             "[('b', '1.9'), ('a', '1.10')]\n");

PyDoc_STRVAR(stabilities_doc,
             "stabilities(texts)\n--\n\n"
             "How stable each of many versions is, a `Stability`, and None for a text that is not a version.\n"
             "\n"
             "`texts` is what `kinds` takes.\n"
             "\n"
             ">>> [stable and stable.name for stable in stabilities([\"1.0\", \"1.0rc1\", \"1.0.dev3\", None])]\n"
             "['STABLE', 'RC', 'DEV', None]\n");

PyDoc_STRVAR(in_tags_doc,
             "in_tags(texts)\n--\n\n"
             "The text of the version in each of many tags, as `Version.from_tag` finds it, and None where there is "
             "none.\n"
             "\n"
             "`texts` is what `kinds` takes.\n"
             "\n"
             ">>> in_tags([\"v1.2.3\", \"release-1.10\", \"1.9\", \"latest\", None])\n"
             "['1.2.3', '1.10', '1.9', None, None]\n");

PyDoc_STRVAR(newest_doc,
             "newest(texts, requirement=None, stability=None, tags=False, *, key=None, scheme='mixed')\n--\n\n"
             "The newest of many texts and `Version`s by precedence, the first of those that tie; None where none is "
             "left.\n"
             "\n"
             "The item itself is returned. `texts` is an iterable, in which texts that are not versions and missing "
             "values, as\n"
             "`kinds` has them, are passed over. So are versions that the `requirement` doesn't match, a `Requirement` "
             "or a text,\n"
             "or that aren't in it, a `VersionSet`; and versions that are less stable than a `stability`, a "
             "`Stability` or\n"
             "its name. With `tags`, a text has its version as `Version.from_tag` finds it, and the text of a "
             "`Version` counts\n"
             "as a tag too. `InvalidRequirement` where the text is not a requirement.\n"
             "With `key`, the items may be anything, and go by what `key` returns for each: a text, a `Version` or a "
             "missing\n"
             "value.\n"
             "With another `scheme` than mixed, one of `SCHEMES`, the `requirement` is a `VersionSet` of it or its "
             "text, and\n"
             "there is neither `stability` nor `tags`.\n"
             "\n"
             ">>> newest([\"1.9\", \"1.10\", \"2.0rc1\", \"x y\", None])\n"
             "'2.0rc1'\n"
             ">>> newest([\"1.9\", \"2.0~rc1\", \"2.0\"], \"<2.0\", scheme=\"deb\")\n"
             "'2.0~rc1'\n"
             ">>> newest([\"v1.10.0\", \"v2.0.0-beta.1\", \"v2.0.0\"], \"<2\", tags=True)\n"
             "'v1.10.0'\n"
             ">>> newest([\"1.9\", \"1.10\", \"2.0rc1\"], stability=\"stable\")\n"
             "'1.10'\n"
             ">>> newest([(\"a\", \"1.10\"), (\"b\", \"1.9\"), (\"c\", None)], key=lambda item: item[1])\n"
             "('a', '1.10')\n");

static PyMethodDef functions[] = {
    {"kind", NAMED(kind), METH_VARARGS | METH_KEYWORDS, kind_doc},
    {"sort_key", NAMED(sort_key), METH_VARARGS | METH_KEYWORDS, sort_key_doc},
    {"compare", NAMED(compare), METH_VARARGS | METH_KEYWORDS, compare_doc},
    {"compare_total", NAMED(compare_total), METH_VARARGS | METH_KEYWORDS, compare_total_doc},
    {"kinds", NAMED(kinds), METH_VARARGS | METH_KEYWORDS, kinds_doc},
    {"sort_keys", NAMED(sort_keys), METH_VARARGS | METH_KEYWORDS, sort_keys_doc},
    {"match_all", NAMED(match_all), METH_VARARGS | METH_KEYWORDS, match_all_doc},
    {"stabilities", NAMED(stabilities), METH_VARARGS | METH_KEYWORDS, stabilities_doc},
    {"in_tags", NAMED(in_tags), METH_VARARGS | METH_KEYWORDS, in_tags_doc},
    {"newest", NAMED(newest), METH_VARARGS | METH_KEYWORDS, newest_doc},
    {"sorted", NAMED(sorted), METH_VARARGS | METH_KEYWORDS, sorted_doc},
    {"nth", nth, METH_VARARGS, NULL},
    {"epoch", epoch, METH_O, NULL},
    {"field", field, METH_VARARGS, NULL},
    {"is_prerelease", is_prerelease, METH_O, NULL},
    {"difference", difference, METH_VARARGS, NULL},
    {"next", next, METH_VARARGS, NULL},
    {"next_release", next_release, METH_O, NULL},
    {"next_pre", next_pre, METH_VARARGS, NULL},
    {"in_tag", in_tag, METH_VARARGS, NULL},
    {"stability", stability, METH_O, NULL},
    {"wrong_member", wrong_member, METH_O, NULL},
    {"conflict", conflict, METH_O, NULL},
    {"why_text", why_text, METH_VARARGS, NULL},
    {"wrong_set", wrong_set, METH_VARARGS, NULL},
    {"wrong_version", wrong_version, METH_VARARGS, NULL},
    {NULL, NULL, 0, NULL},
};

static const struct {
  const char *name;
  int number;
} numbers[] = {
    {"PRE_RELEASE", VERSIONS_FIELD_PRE_RELEASE}, {"RELEASE", VERSIONS_FIELD_RELEASE},
    {"METADATA", VERSIONS_FIELD_METADATA},       {"IDEAL", VERSIONS_RANGE_IDEAL},
    {"GENERAL", VERSIONS_RANGE_GENERAL},         {"COMPLEX", VERSIONS_RANGE_COMPLEX},
    {"EXACT", VERSIONS_RANGE_EXACT},             {"DEV", VERSIONS_DEV},
    {"ALPHA", VERSIONS_ALPHA},                   {"BETA", VERSIONS_BETA},
    {"RC", VERSIONS_RC},                         {"STABLE", VERSIONS_STABLE},
    {"NONE", VERSIONS_DIFFERENCE_NONE},          {"TIE", VERSIONS_DIFFERENCE_TIE},
    {"EPOCH", VERSIONS_DIFFERENCE_EPOCH},        {"PART", VERSIONS_DIFFERENCE_PART},
    {"TAIL", VERSIONS_DIFFERENCE_TAIL},          {"KIND", VERSIONS_WHY_KIND},
    {"BELOW", VERSIONS_WHY_BELOW},               {"ABOVE", VERSIONS_WHY_ABOVE},
    {"PARTS", VERSIONS_WHY_PARTS},
};

/* Adds a type of a specification, and gives its reference away. */
static int add_type(PyObject *module, const char *name, PyType_Spec *spec) {
  PyObject *type = PyType_FromSpec(spec);
  int failed = type == NULL ? -1 : PyObject_SetAttrString(module, name, type);

  Py_XDECREF(type);
  return failed;
}

static int add_numbers(PyObject *module) {
  size_t place;
  int failed = 0;

  for (place = 0; failed == 0 && place < sizeof numbers / sizeof *numbers; place++)
    failed = PyModule_AddIntConstant(module, numbers[place].name, numbers[place].number);
  return failed;
}

static int add_schemes(PyObject *module) {
  PyObject *names = scheme_names();
  int failed = names == NULL ? -1 : PyObject_SetAttrString(module, "SCHEMES", names);

  Py_XDECREF(names);
  return failed;
}

static int fill(PyObject *module) {
  struct state *state = PyModule_GetState(module);
  int number;

  Py_INCREF(Py_None);
  state->kinds[VERSIONS_NONE] = Py_None;
  for (number = VERSIONS_IDEAL; number <= VERSIONS_COMPLEX; number++) {
    state->kinds[number] = PyUnicode_InternFromString(kind_names[number]);
    if (state->kinds[number] == NULL) return -1;
  }
  if (add_type(module, "Keyed", &keyed_spec) < 0 || add_type(module, "Ranged", &ranged_spec) < 0 ||
      add_type(module, "Formed", &formed_spec) < 0)
    return -1;
  if (add_numbers(module) < 0 || add_schemes(module) < 0) return -1;
  return PyModule_AddStringConstant(module, "__version__", versions_version());
}

static int traverse(PyObject *module, visitproc visit, void *arg) {
  struct state *state = PyModule_GetState(module);
  int number;

  for (number = VERSIONS_NONE; number <= VERSIONS_COMPLEX; number++) Py_VISIT(state->kinds[number]);
  return 0;
}

static int clear(PyObject *module) {
  struct state *state = PyModule_GetState(module);
  int number;

  for (number = VERSIONS_NONE; number <= VERSIONS_COMPLEX; number++) Py_CLEAR(state->kinds[number]);
  return 0;
}

static void release(void *module) { clear(module); }

/*
 * Interpreters. All that changes is in the state of a module, so each interpreter may have a lock (GIL) of its own.
 * A slot reports this to Python 3.12 and later, whose headers have its number; an earlier Python refuses that number.
 */

#define MULTIPLE_INTERPRETERS 3
#define PER_INTERPRETER_GIL_SUPPORTED ((void *)2)

static PyModuleDef_Slot slots[] = {
    {MULTIPLE_INTERPRETERS, PER_INTERPRETER_GIL_SUPPORTED},
    {Py_mod_exec, (void *)fill},
    {0, NULL},
};

#define DEFINITION(first_slot)                                                       \
  {                                                                                  \
    .m_base = PyModuleDef_HEAD_INIT, .m_name = "versions._library",                  \
    .m_doc = "The calls of the library, and the types of which values are made.",    \
    .m_size = sizeof(struct state), .m_methods = functions, .m_slots = (first_slot), \
    .m_traverse = traverse, .m_clear = clear, .m_free = release,                     \
  }

static struct PyModuleDef definition = DEFINITION(slots), definition_before_3_12 = DEFINITION(slots + 1);

/* Whether this is Python 3.12 or later. Its number as a constant joined the stable ABI in 3.11. */
static bool is_3_12(void) {
  int minor = atoi(Py_GetVersion() + strlen("3."));

  return minor >= 12;
}

PyMODINIT_FUNC PyInit__library(void) {
  return PyModuleDef_Init(is_3_12() ? &definition : &definition_before_3_12);
}
