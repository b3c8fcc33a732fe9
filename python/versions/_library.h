/*
 * _library.h: what the C files of the extension share.
 *
 * _texts.c reads texts and raises errors, _values.c has the types of which Version and Requirement are made, _sets.c
 * that of VersionSet, _arrow.c reads Arrow arrays, and _library.c has the calls and the module. All of them ask
 * versions.h what a version is, how versions compare and what matches.
 *
 * A function that fails raises an error of Python, and returns -1 or NULL. A pointer to a PyObject is borrowed, and one
 * that a function returns is new, if its comment says nothing else.
 */
#ifndef VERSIONS_PYTHON_LIBRARY_H
#define VERSIONS_PYTHON_LIBRARY_H

#include <Python.h>

#include "versions.h"

/* Bytes that are not UTF-8, and so not a version. They stand for what is not a text of Unicode. */
#define NOT_UTF8 "\xff"

/* A function or method that takes names. */
#define NAMED(function) ((PyCFunction)(void (*)(void))(function))

/*
 * Errors (_texts.c)
 */

/*
 * Raises an error of the type, with a message made as PyErr_Format makes it. If making the message fails, that failure is
 * raised instead; before Python 3.12 PyErr_Format loses it.
 */
void *fail(PyObject *type, const char *format, ...);

/* An error that is put aside while code runs that may raise others. Its type is null where there is none. */
struct error {
  PyObject *type, *value, *trace;
};

struct error put_aside(void);
void put_back(struct error error);

/* Makes an error that was put aside the context of the one that is raised since, or forgets it where none is. */
void add_context(struct error context);

/* Raises an error of the package that holds the text and the scheme in which it was read, such as InvalidVersion. */
void *raise_invalid(const char *name, PyObject *text, uint32_t scheme);

/* Raises a TypeError for an object of another type than what is wanted, as in "a text is a str". */
void *raise_other(const char *wanted, PyObject *object);

/* Raises the error of a status that does not speak of one text. */
void *raise_status(int status);

/*
 * Schemes, by their numbers (_texts.c)
 */

/* What is the number of no scheme: none is given. */
#define NO_SCHEME 0

/* A tuple of the names of all schemes, and the name of one. */
PyObject *scheme_names(void);
PyObject *scheme_name(uint32_t scheme);

/* Reads a str as the name of a scheme. ValueError where it is none, which lists the names. */
int read_scheme(PyObject *object, uint32_t *scheme);

/* TypeError for what is of another scheme than is wanted. */
void *raise_schemes(uint32_t wanted, uint32_t given);

/* The scheme that is given, or where none is that of the Version or VersionSet that an object is; mixed of a text. */
uint32_t scheme_or_its(uint32_t given, PyObject *object);

/*
 * One text (_texts.c)
 */

/* The bytes of a str in UTF-8, which the str owns. */
struct text {
  const char *bytes;
  size_t size;
};

/* Reads a str. A text with a lone surrogate becomes NOT_UTF8. TypeError for what is not a str. */
int read_text(PyObject *object, struct text *text);

/*
 * Lets the lock of Python (GIL) go if the library has more than 64 KiB to work on. Below that, letting it go and taking
 * it again costs more than the work. take_again takes it again.
 */
PyThreadState *let_go(size_t size);
void take_again(PyThreadState *thread);

/*
 * Reads the one argument of a call, or its two where b is not null. Python's own call for this, which also takes them
 * by their names, takes longer than the comparison of two short texts.
 */
int read_arguments(PyObject *args, PyObject *named, const char *format, char **names, PyObject **a, PyObject **b);

/*
 * The same where a scheme may come too, by its name: the format ends with "|$O". Where none is given, `scheme` stays as
 * it is.
 */
int read_with_scheme(PyObject *args, PyObject *named, const char *format, char **names, PyObject **a, PyObject **b,
                     uint32_t *scheme);

/*
 * Many texts (_texts.c)
 */

/* Texts in one buffer, as versions.h describes them. Of Arrow, `validity` may have a bit for each, from `first` on. */
struct texts {
  const char *bytes;
  size_t size;
  const int64_t *offsets;
  size_t count;
  const uint8_t *validity;
  size_t first;
};

/* Texts that grow, with the memory of the two arrays. It begins as zeros. */
struct gathered {
  char *bytes;
  size_t size, room;
  int64_t *offsets;
  size_t count, places;
};

/* An array of `count` elements of `size` bytes and one more, so that it is never empty. PyMem_Free frees it. */
void *allocated(size_t count, size_t size);

PyThreadState *let_go_of(const struct texts *texts);

/* The text of a Version, which has to be of the scheme, and any other object as it is; borrowed. */
PyObject *text_of(PyObject *object, uint32_t scheme);

/* Reads the text of a str or of a Version of the scheme. */
int read_item(PyObject *item, uint32_t scheme, struct text *text);

/*
 * The same. Returns 1, or 0 for a missing value, and leaves `text` as it is then: None, a float of Python or numpy that
 * is not a number, and NA and NaT of pandas.
 */
int read_item_or_none(PyObject *item, uint32_t scheme, struct text *text);

/* Adds a copy of a text to those that are gathered. */
int add_text(struct gathered *gathered, const struct text *text);

/* What the library is passed of the gathered texts, which it borrows. */
struct texts texts_of(const struct gathered *gathered);

void free_gathered(struct gathered *gathered);

/* TypeError for one text where many are wanted. */
int refuse_one(PyObject *texts);

/*
 * Values (_values.c)
 */

/* Bytes that compare by memcmp, a prefix first: a key or a bound. */
struct ordered {
  PyObject *bytes;        /* owned */
  uint64_t first, second; /* their first sixteen as two numbers, with zeros for those that are missing */
};

/* A list of requirements, with the range of keys that it asks for. */
struct range {
  PyObject *text; /* owned */
  struct text list;
  struct ordered low, high; /* high.bytes is null if there is no high bound */
  uint32_t flags;           /* of versions_range */
};

/* The names of the kinds, by their numbers. */
extern const char *const kind_names[];

/* The key of a str or of a Version in a scheme, and in mixed its kind. InvalidVersion for a text that is no version. */
PyObject *key_of(PyObject *object, uint32_t scheme, uint8_t *kind);

/* Reads a str as a list of requirements, or copies what a Requirement keeps. InvalidRequirement for any other text. */
int read_range(PyObject *object, struct range *range);
void clear_range(struct range *range);

/* Whether a version matches, a Version or a text: 0 or 1; 2 for a text that is not a version. */
int match_one(const struct range *range, PyObject *version);

/* Writes for each of many texts whether it matches: 0, 1, or 2 if it is not a version. */
int match_texts(const struct range *range, const struct texts *texts, uint8_t *answers);

/* Whether an object is a Version; the text of one, which is borrowed, and its scheme. */
bool is_keyed(PyObject *object);
PyObject *keyed_text(PyObject *keyed);
uint32_t keyed_scheme(PyObject *keyed);

/* Below, equal to or above 0 as the key of one Version is below, equal to or above that of another of its scheme. */
int order_of_keyed(PyObject *a, PyObject *b);

/* Whether an object is of a type of this extension, the one with that function, or of a class made of it. */
bool is_made_by(PyObject *object, destructor dealloc);

/* Frees an object whose fields are released. */
void free_object(PyObject *self);

/* The types Keyed and Ranged. */
extern PyType_Spec keyed_spec, ranged_spec;

/*
 * Sets (_sets.c)
 */

/* A set: its form, which is bytes, and its scheme. */
struct set {
  PyObject *form;
  uint32_t scheme;
};

/* Whether an object is a VersionSet, and the set of one, whose form is borrowed. */
bool is_formed(PyObject *object);
struct set formed_set(PyObject *formed);

/* The form of a VersionSet of the scheme, or of the set that a str is. InvalidVersionSet for any other text. */
PyObject *form_in(uint32_t scheme, PyObject *object);

/* Writes for each of many texts whether its version is in a set: 0, 1, or 2 if it is not a version. */
int has_texts(const struct set *set, const struct texts *texts, uint8_t *answers);

/* The items of a list whose versions are in a set. With `tags`, a text has its version as a tag has it. */
PyObject *kept_in(const struct set *set, PyObject *items, bool tags);

/* wrong_set(text, scheme) and wrong_version(text, scheme) of the module */
PyObject *wrong_set(PyObject *module, PyObject *args);
PyObject *wrong_version(PyObject *module, PyObject *args);

/* The type Formed. */
extern PyType_Spec formed_spec;

/* A pair of two objects, or NULL where either is. Their references are given away. */
PyObject *pair_of(PyObject *first, PyObject *second);

/*
 * Calls on many texts (_library.c, _arrow.c)
 */

/* A call on many texts: `ask` appends its answers about `texts` to `answers`. */
struct call {
  int (*ask)(const struct call *call, const struct texts *texts, PyObject *answers);
  uint32_t scheme;
  PyObject *const *meanings;  /* the answers of kinds and stabilities, by their numbers */
  const struct range *wanted; /* the requirement of match_all; null where the set is asked in its place */
  struct set set;
};

/*
 * Gathers the texts that an iterator gives, in a scheme. A missing value, where those are taken, becomes a text of no
 * version.
 */
int gather(struct gathered *gathered, PyObject *iterator, uint32_t scheme, bool takes_missing);

/* Where the version in each of many tags begins, or the tag ends if it has none: an array that PyMem_Free frees. */
int64_t *starts_in(const struct texts *tags);

/*
 * Makes a call on texts of Arrow. Returns 1, or 0 if the object offers none: without an error, or with the one that
 * says why it doesn't export them or why their type isn't taken.
 */
int ask_arrow(const struct call *call, PyObject *object, PyObject *answers);

#endif
