/*
 * versions.c: functions on versions and a collation, as a loadable extension of SQLite. sqlite/build builds it.
 *
 *   version_key(text), version_key(text, scheme)
 *                                        the sort key, a BLOB that sorts by precedence, or as a scheme orders
 *   is_version(text), is_version(text, scheme)
 *                                        1 or 0: whether a value is a version; NULL for NULL
 *   version_kind(text)                   'ideal', 'general' or 'complex'
 *   version_compare(a, b), version_compare(a, b, scheme)
 *                                        -1, 0 or 1 if a is before, equal to or after b by precedence, or in a scheme
 *   version_compare_total(a, b)          the same with ties broken
 *   version_matches(requirement, text)   1 or 0: whether a version matches a requirement or a list of requirements
 *   version_in_set(set, text), version_in_set(set, text, scheme)
 *                                        1 or 0: whether a set of versions, such as '>=1.2, <2 || ^3', has a version
 *   version_low(requirement)             a BLOB: the key of no version that matches is below it
 *   version_high(requirement)            a BLOB: the key of each version that matches is below it, if its epoch has
 *                                        fewer than 4,080 digits or the requirement has a high bound
 *   version_low(set, scheme), version_high(set, scheme)
 *                                        the same of a set, for the keys of its scheme
 *   version_nth(text, n)                 the number at a place, an integer counted from 0
 *   version_epoch(text)                  the epoch, the number before the colon; at most 9223372036854775807
 *   version_pre_release(text)            the pre-release of a strict version, a TEXT
 *   version_release(text)                the release of a general version, a TEXT
 *   version_metadata(text)               the metadata of a strict or general version, a TEXT
 *   version_is_prerelease(text)          1 or 0: whether a version is strict and has a pre-release
 *   version_in(tag), version_in(tag, prefix)
 *                                        the version in a tag, a TEXT, also after a prefix
 *   version_stability(text)              'dev', 'alpha', 'beta', 'rc' or 'stable', by the words in a version
 *   version_stability_rank(text)         the same as an integer to order by, from 1 for 'dev' to 5 for 'stable'
 *   version_difference(a, b)             where two versions differ first: 'epoch', 'part 0', 'tail', 'tie' or 'same'
 *   version_next(text, n)                the version that comes next at a place, an integer counted from 0
 *   version_next_release(text)           the same at the last place of its numbers
 *   version_next_pre(text), version_next_pre(text, word)
 *                                        the pre-release that comes next, of the version's own word or of one such as
 *                                        'rc'
 *   version_why_not(requirement, text)   why a version does not match, a sentence; NULL if it matches
 *   version_max(text), version_max(text, scheme)
 *                                        aggregate and window function: the greatest version of the rows
 *   version_min(text), version_min(text, scheme)
 *                                        the least version of the rows
 *   versions_version()                   the version of the library
 *   COLLATE VERSION                      by precedence, then by bytes; texts that are not versions come last
 *
 * Each function but is_version returns NULL if a value is not a version or lacks what is asked for. NULL, numbers,
 * BLOBs and texts that are not UTF-8 are not versions. A number is not converted to text, since 1.10 is already 1.1.
 * The aggregates skip values that are not versions. A function of a requirement returns NULL for NULL, and fails if the
 * requirement does not parse. version_nth and version_next return NULL for NULL, and fail if the place is not an
 * integer. version_in and version_next_pre return NULL if the prefix or the word is not a text.
 *
 * A scheme is a name, such as 'deb', and may differ from row to row, but not in the rows of an aggregate, which fails
 * then; without one it is 'mixed', or what stands in front of a set, as in 'deb:>=1.2'. The functions that take a scheme
 * return NULL if an argument is NULL, and else fail if it is not the name of a scheme, or if a text is not a set of it.
 *
 * All functions are deterministic and have no side effects, so indexes and generated columns can use them.
 *
 * All memory is SQLite's: keys, bounds, fields, the range of a constant requirement, a set, the texts that an aggregate
 * keeps, messages, and a number for a connection. Nothing else is allocated.
 *
 * The library alone decides what versions are and how they compare. This file only passes texts to it.
 */
#include "versions.h"

#include <sqlite3ext.h>
#include <string.h>
SQLITE_EXTENSION_INIT1

#ifdef _WIN32
#define EXPORTED __declspec(dllexport)
#elif defined(__GNUC__)
#define EXPORTED __attribute__((visibility("default")))
#else
#define EXPORTED
#endif

struct text {
  const char *bytes;
  size_t len;
};

/* Not UTF-8, and so neither a version nor a requirement. */
static const struct text no_text = {"\xff", 1};

/* The text of a value, in UTF-8; no_text for another type. Its bytes are null on allocation failure. */
static inline struct text text_of(sqlite3_value *value) {
  struct text text = no_text;
  if (sqlite3_value_type(value) == SQLITE_TEXT) {
    text.bytes = (const char *)sqlite3_value_text(value);
    text.len = (size_t)sqlite3_value_bytes(value);
  }
  return text;
}

/*
 * Appends the first 60 bytes of a text in quotes, and the number of further bytes. Quotes, backslashes and bytes that
 * are not printable ASCII become \xHH.
 */
static void append_quoted(sqlite3_str *message, struct text text) {
  const size_t most = 60, shown = text.len < most ? text.len : most;
  size_t at;
  sqlite3_str_appendchar(message, 1, '\'');
  for (at = 0; at < shown; at++) {
    unsigned char byte = (unsigned char)text.bytes[at];
    if (byte < ' ' || byte > '~' || byte == '\'' || byte == '\\') {
      sqlite3_str_appendf(message, "\\x%02x", byte);
    } else {
      sqlite3_str_appendchar(message, 1, (char)byte);
    }
  }
  sqlite3_str_appendchar(message, 1, '\'');
  if (text.len > shown) {
    sqlite3_str_appendf(message, " and %lld bytes more", (sqlite3_int64)(text.len - shown));
  }
}

/* The name of a type that is not NULL, as typeof returns it. */
static const char *name_of(int type) {
  switch (type) {
    case SQLITE_INTEGER: return "integer";
    case SQLITE_FLOAT: return "real";
    case SQLITE_BLOB: return "blob";
    default: return "text";
  }
}

/* Appends what a value is that is not NULL: the text in quotes, or the type of a value that is not a text. */
static void append_value(sqlite3_str *message, struct text text, int type) {
  if (type == SQLITE_TEXT) {
    append_quoted(message, text);
  } else {
    sqlite3_str_appendf(message, "a value of type %s", name_of(type));
  }
}

/* Gives a text of SQLite's memory, which SQLite frees. A null text is an allocation failure. */
static void give_text(sqlite3_context *context, char *said) {
  if (said) {
    sqlite3_result_text(context, said, -1, sqlite3_free);
  } else {
    sqlite3_result_error_nomem(context);
  }
}

/* Fails with a message of SQLite's memory, and frees it. A null message is an allocation failure. */
static void give_error(sqlite3_context *context, char *said) {
  if (said) {
    sqlite3_result_error(context, said, -1);
  } else {
    sqlite3_result_error_nomem(context);
  }
  sqlite3_free(said);
}

/* Appends the name of a scheme after what stands before it. Returns false, and appends nothing, if there is none. */
static bool append_scheme(sqlite3_str *message, const char *before, uint32_t scheme) {
  char name[16];
  size_t len;
  if (versions_scheme_name(scheme, name, sizeof name, &len) != VERSIONS_OK) return false;
  sqlite3_str_appendall(message, before);
  sqlite3_str_append(message, name, (int)len);
  return true;
}

/* Fails with a value that is not the name of a scheme, and with the names of all schemes. */
static void give_no_scheme(sqlite3_context *context, struct text text, int type) {
  sqlite3_str *message = sqlite3_str_new(NULL);
  uint32_t scheme = VERSIONS_MIXED;
  sqlite3_str_appendall(message, "not a scheme: ");
  append_value(message, text, type);
  append_scheme(message, "; a scheme is one of ", scheme);
  while (append_scheme(message, ", ", ++scheme)) continue;
  give_error(context, sqlite3_str_finish(message));
}

static bool has_null(int count, sqlite3_value **values) {
  int at;
  for (at = 0; at < count; at++) {
    if (sqlite3_value_type(values[at]) == SQLITE_NULL) return true;
  }
  return false;
}

/*
 * The scheme that the last argument names, of a function that is called with `without` arguments if it has none.
 * Returns false if one is there and an argument is NULL, and after a failure, and then the result is set.
 */
static inline bool read_scheme(sqlite3_context *context, int count, sqlite3_value **values, int without,
                               uint32_t *scheme) {
  struct text name;
  *scheme = VERSIONS_MIXED;
  if (count == without) return true;
  name = text_of(values[without]);
  if (!name.bytes) {
    sqlite3_result_error_nomem(context);
  } else if (has_null(count, values)) {
    sqlite3_result_null(context);
  } else if (versions_scheme(name.bytes, name.len, scheme) == VERSIONS_OK) {
    return true;
  } else {
    give_no_scheme(context, name, sqlite3_value_type(values[without]));
  }
  return false;
}

/* Returns a key that is too long for the stack, in memory of its length. */
static void give_long_key(sqlite3_context *context, uint32_t scheme, struct text text, size_t len) {
  uint8_t *key = sqlite3_malloc64(len);
  if (key && versions_key(scheme, text.bytes, text.len, key, len, &len) == VERSIONS_OK) {
    sqlite3_result_blob64(context, key, len, sqlite3_free);
  } else {
    sqlite3_free(key);
    sqlite3_result_error_nomem(context);
  }
}

static void version_key(sqlite3_context *context, int count, sqlite3_value **values) {
  struct text text = text_of(values[0]);
  uint8_t key[256];
  uint32_t scheme;
  size_t len;
  if (!read_scheme(context, count, values, 1, &scheme)) return;
  if (!text.bytes) {
    sqlite3_result_error_nomem(context);
    return;
  }
  switch (versions_key(scheme, text.bytes, text.len, key, sizeof key, &len)) {
    case VERSIONS_OK: sqlite3_result_blob64(context, key, len, SQLITE_TRANSIENT); break;
    case VERSIONS_NO_ROOM: give_long_key(context, scheme, text, len); break;
    default: sqlite3_result_null(context);
  }
}

/* Whether a text is a version. */
static bool is_of(uint32_t scheme, struct text text) {
  bool has = false;
  versions_has(scheme, text.bytes, text.len, &has);
  return has;
}

static void is_version(sqlite3_context *context, int count, sqlite3_value **values) {
  struct text text = text_of(values[0]);
  uint32_t scheme;
  if (!read_scheme(context, count, values, 1, &scheme)) return;
  if (!text.bytes) {
    sqlite3_result_error_nomem(context);
  } else if (sqlite3_value_type(values[0]) == SQLITE_NULL) {
    sqlite3_result_null(context);
  } else {
    sqlite3_result_int(context, is_of(scheme, text));
  }
}

static void version_kind(sqlite3_context *context, int count, sqlite3_value **values) {
  static const char *const names[] = {NULL, "ideal", "general", "complex"};
  struct text text = text_of(values[0]);
  (void)count;
  if (!text.bytes) {
    sqlite3_result_error_nomem(context);
  } else {
    /* A null name returns NULL. */
    sqlite3_result_text(context, names[versions_kind(text.bytes, text.len)], -1, SQLITE_STATIC);
  }
}

/* Gives the order that a call has written, or NULL with the status of a text that is not a version. */
static void give_order(sqlite3_context *context, int status, const int32_t *order) {
  if (status == VERSIONS_OK) {
    sqlite3_result_int(context, *order);
  } else {
    sqlite3_result_null(context);
  }
}

static void version_compare(sqlite3_context *context, int count, sqlite3_value **values) {
  struct text a = text_of(values[0]), b = text_of(values[1]);
  uint32_t scheme;
  int32_t order;
  if (!read_scheme(context, count, values, 2, &scheme)) return;
  if (!a.bytes || !b.bytes) {
    sqlite3_result_error_nomem(context);
  } else {
    give_order(context, versions_compare(scheme, a.bytes, a.len, b.bytes, b.len, &order), &order);
  }
}

static void version_compare_total(sqlite3_context *context, int count, sqlite3_value **values) {
  struct text a = text_of(values[0]), b = text_of(values[1]);
  int32_t order;
  (void)count;
  if (!a.bytes || !b.bytes) {
    sqlite3_result_error_nomem(context);
  } else {
    give_order(context, versions_compare_total(a.bytes, a.len, b.bytes, b.len, &order), &order);
  }
}

/* Appends why a text is not a list of requirements. */
static void append_reason(sqlite3_str *message, struct text list) {
  size_t start = 0, end = list.len;
  versions_wrong_member(list.bytes, list.len, &start, &end);
  if (end - start < list.len) {
    struct text member = {list.bytes + start, end - start};
    sqlite3_str_appendall(message, "; its member ");
    append_quoted(message, member);
    sqlite3_str_appendf(message, " at byte %lld is wrong", (sqlite3_int64)start);
  }
  sqlite3_str_appendall(message, "; a list looks like '>=1.2,<2'");
}

/* Fails with the text that does not parse as a requirement, or with the type of a value that is not a text. */
static void give_no_requirement(sqlite3_context *context, struct text text, int type) {
  sqlite3_str *message = sqlite3_str_new(NULL);
  sqlite3_str_appendall(message, "not a requirement: ");
  append_value(message, text, type);
  if (type == SQLITE_TEXT) append_reason(message, text);
  give_error(context, sqlite3_str_finish(message));
}

/* What versions_match_in_range takes of a list of requirements. */
struct range {
  size_t low_len, high_len, members_len;
  uint32_t flags;
  uint8_t *high; /* this and the members in the same allocation */
  char *members;
  uint8_t low[];
};

/* The range of a value, for sqlite3_free. Null for NULL and after a failure, and then the result is set. */
static struct range *range_of(sqlite3_context *context, sqlite3_value *value) {
  struct text list = text_of(value);
  struct range *range;
  size_t low_room, high_room, members_room;
  uint32_t flags;
  if (sqlite3_value_type(value) == SQLITE_NULL) {
    sqlite3_result_null(context);
    return NULL;
  }
  if (!list.bytes) {
    sqlite3_result_error_nomem(context);
    return NULL;
  }
  if (versions_range(list.bytes, list.len, NULL, 0, &low_room, NULL, 0, &high_room, &flags) ==
      VERSIONS_NO_REQUIREMENTS) {
    give_no_requirement(context, list, sqlite3_value_type(value));
    return NULL;
  }
  versions_inexact(list.bytes, list.len, NULL, 0, &members_room);
  range = sqlite3_malloc64(sizeof *range + low_room + high_room + members_room);
  if (!range) {
    sqlite3_result_error_nomem(context);
    return NULL;
  }
  range->high = range->low + low_room;
  range->members = (char *)range->high + high_room;
  versions_range(list.bytes, list.len, range->low, low_room, &range->low_len, range->high, high_room, &range->high_len,
                 &range->flags);
  versions_inexact(list.bytes, list.len, range->members, members_room, &range->members_len);
  return range;
}

static void version_low(sqlite3_context *context, int count, sqlite3_value **values) {
  struct range *range = range_of(context, values[0]);
  (void)count;
  if (range) sqlite3_result_blob64(context, range->low, range->low_len, SQLITE_TRANSIENT);
  sqlite3_free(range);
}

/*
 * Without a high bound the result is sixteen bytes FF. A key begins with one for each 255 digits of its epoch, so they
 * are above the key of each version whose epoch has fewer than 4,080 digits; no blob is above every key. With NULL
 * instead, a comparison would find no version.
 */
static const uint8_t unbounded[16] = {255, 255, 255, 255, 255, 255, 255, 255, 255, 255, 255, 255, 255, 255, 255, 255};

static void version_high(sqlite3_context *context, int count, sqlite3_value **values) {
  struct range *range = range_of(context, values[0]);
  (void)count;
  if (range && range->flags & VERSIONS_RANGE_HIGH) {
    sqlite3_result_blob64(context, range->high, range->high_len, SQLITE_TRANSIENT);
  } else if (range) {
    sqlite3_result_blob64(context, unbounded, sizeof unbounded, SQLITE_STATIC);
  }
  sqlite3_free(range);
}

/* Gives whether a version matches a list. Returns false if the list does not parse, and on allocation failure. */
static bool give_match(sqlite3_context *context, sqlite3_value *requirement, struct text text) {
  struct text list = text_of(requirement);
  bool matches;
  if (!list.bytes) {
    sqlite3_result_error_nomem(context);
    return false;
  }
  switch (versions_matches(list.bytes, list.len, text.bytes, text.len, &matches)) {
    case VERSIONS_OK: sqlite3_result_int(context, matches); return true;
    case VERSIONS_NO_REQUIREMENTS:
      give_no_requirement(context, list, sqlite3_value_type(requirement));
      return false;
    default: sqlite3_result_null(context); return true;
  }
}

/* The same by what is kept of the list. */
static inline void give_match_by_range(sqlite3_context *context, const struct range *range, struct text text) {
  bool matches;
  if (versions_match_in_range(text.bytes, text.len, range->low, range->low_len, range->high, range->high_len,
                              range->flags, range->members, range->members_len, &matches) == VERSIONS_OK) {
    sqlite3_result_int(context, matches);
  } else {
    sqlite3_result_null(context);
  }
}

/*
 * SQLite keeps data for an argument that is constant in a statement, but does not say which is. So a call leaves a
 * mark. The next call finds it, and replaces it by the range of the requirement, which the later calls find. If the
 * requirement is not constant, no call finds anything, and no range is made. To leave a mark costs half as much as to
 * read a list, so only one of 16 calls does; the user data counts the calls of the connection.
 */
static void version_matches(sqlite3_context *context, int count, sqlite3_value **values) {
  static char mark;
  void *kept = sqlite3_get_auxdata(context, 0);
  struct text text = text_of(values[1]);
  (void)count;
  if (!text.bytes) {
    sqlite3_result_error_nomem(context);
  } else if (kept == &mark) {
    struct range *range = range_of(context, values[0]);
    if (!range) return;
    give_match_by_range(context, range, text);
    sqlite3_set_auxdata(context, 0, range, sqlite3_free);
  } else if (kept) {
    give_match_by_range(context, kept, text);
  } else if (sqlite3_value_type(values[0]) == SQLITE_NULL) {
    sqlite3_result_null(context);
  } else if (give_match(context, values[0], text)) {
    unsigned *calls = sqlite3_user_data(context);
    if ((*calls)++ % 16 == 0) sqlite3_set_auxdata(context, 0, &mark, NULL);
  }
}

/* A set of versions: its form, by which the library is asked, and the scheme that it was asked for, 0 for any. */
struct set {
  uint32_t asked;
  size_t len;
  uint8_t form[];
};

static bool is_letter(char byte) { return (byte >= 'a' && byte <= 'z') || (byte >= 'A' && byte <= 'Z'); }

static bool is_digit(char byte) { return byte >= '0' && byte <= '9'; }

/*
 * How long the scheme in front of a text is, as in deb:>=1, with its colon; 0 where none is. It begins with a letter,
 * and goes on with letters, digits and dots. No set begins so.
 */
static size_t len_of_scheme(struct text text) {
  size_t len = 0;
  while (len < text.len &&
         (is_letter(text.bytes[len]) || (len > 0 && (text.bytes[len] == '.' || is_digit(text.bytes[len]))))) {
    len++;
  }
  return len > 0 && len < text.len && text.bytes[len] == ':' ? len + 1 : 0;
}

/* Begins to say that a value is not a set of a scheme. */
static sqlite3_str *say_no_set(const char *of, uint32_t scheme, struct text text, int type) {
  sqlite3_str *message = sqlite3_str_new(NULL);
  sqlite3_str_appendall(message, "not a set of versions");
  if (of) append_scheme(message, of, scheme);
  sqlite3_str_appendall(message, ": ");
  append_value(message, text, type);
  return message;
}

/*
 * Fails with the text that is not a set of a scheme from a place on, where and why, or with the type of a value that is
 * not a text.
 */
static void give_no_set(sqlite3_context *context, uint32_t scheme, struct text text, size_t from, int type) {
  sqlite3_str *message = say_no_set(scheme == VERSIONS_MIXED ? NULL : " of ", scheme, text, type);
  size_t place, len;
  uint32_t reason;
  char why[100];
  if (type == SQLITE_TEXT &&
      versions_set_wrong(scheme, text.bytes + from, text.len - from, &place, &reason) == VERSIONS_OK &&
      versions_set_wrong_text(scheme, text.bytes + from, text.len - from, why, sizeof why, &len) == VERSIONS_OK) {
    sqlite3_str_appendf(message, "; at byte %lld: %.*s", (sqlite3_int64)(from + place), (int)len, why);
  }
  give_error(context, sqlite3_str_finish(message));
}

/* Fails with a set of another scheme than the one that is asked for. */
static void give_other_scheme(sqlite3_context *context, uint32_t asked, struct text text, uint32_t scheme) {
  sqlite3_str *message = say_no_set(" of ", asked, text, SQLITE_TEXT);
  append_scheme(message, "; it is one of ", scheme);
  give_error(context, sqlite3_str_finish(message));
}

/* The set of a text from a place on, for sqlite3_free. Null after a failure, and then the result is set. */
static struct set *set_from(sqlite3_context *context, uint32_t scheme, struct text text, size_t from, int type) {
  struct set *set = NULL;
  size_t room;
  if (versions_set_bound(scheme, text.bytes + from, text.len - from, &room) == VERSIONS_OK) {
    set = sqlite3_malloc64(sizeof *set + room);
  }
  if (!set) {
    sqlite3_result_error_nomem(context);
  } else if (versions_set(scheme, text.bytes + from, text.len - from, set->form, room, &set->len) != VERSIONS_OK) {
    give_no_set(context, scheme, text, from, type);
    sqlite3_free(set);
    return NULL;
  }
  return set;
}

/*
 * The set of a value, of the scheme in front of it or of the one that is asked for, for sqlite3_free. Null after a
 * failure, and then the result is set.
 */
static struct set *set_of(sqlite3_context *context, uint32_t asked, sqlite3_value *value) {
  struct text text = text_of(value);
  struct set *set = NULL;
  struct text name = text;
  uint32_t scheme = asked ? asked : VERSIONS_MIXED;
  size_t from;
  if (!text.bytes) {
    sqlite3_result_error_nomem(context);
    return NULL;
  }
  from = len_of_scheme(text);
  name.len = from > 0 ? from - 1 : 0;
  if (from > 0 && versions_scheme(name.bytes, name.len, &scheme) != VERSIONS_OK) {
    give_no_scheme(context, name, SQLITE_TEXT);
  } else if (asked && scheme != asked) {
    give_other_scheme(context, asked, text, scheme);
  } else {
    set = set_from(context, scheme, text, from, sqlite3_value_type(value));
  }
  if (set) set->asked = asked;
  return set;
}

static inline void give_has(sqlite3_context *context, const struct set *set, struct text text) {
  bool has;
  if (versions_set_has(set->form, set->len, text.bytes, text.len, &has) == VERSIONS_OK) {
    sqlite3_result_int(context, has);
  } else {
    sqlite3_result_null(context);
  }
}

/*
 * SQLite keeps the set if its text is constant in a statement, and else frees it. The scheme may be another in each row,
 * and then the text is read again: it is another set.
 */
static void version_in_set(sqlite3_context *context, int count, sqlite3_value **values) {
  struct set *set = sqlite3_get_auxdata(context, 0);
  struct text text = text_of(values[1]);
  uint32_t scheme;
  if (!read_scheme(context, count, values, 2, &scheme)) return;
  if (count == 2) scheme = 0;
  if (!text.bytes) {
    sqlite3_result_error_nomem(context);
  } else if (has_null(2, values)) {
    sqlite3_result_null(context);
  } else if (set && set->asked == scheme) {
    give_has(context, set, text);
  } else {
    set = set_of(context, scheme, values[0]);
    if (!set) return;
    give_has(context, set, text);
    sqlite3_set_auxdata(context, 0, set, sqlite3_free);
  }
}

/* Gives an outermost end of a set: of its first interval or of its last. A set that has none has no key. */
static void give_end(sqlite3_context *context, uint32_t scheme, sqlite3_value *value, bool is_high) {
  struct set *set = set_of(context, scheme, value);
  size_t count = 0, low = 0, low_end = 0, high = 0, high_end = 0;
  if (!set) return;
  versions_set_count(set->form, set->len, &count);
  if (count > 0) {
    versions_set_interval(set->form, set->len, is_high ? count - 1 : 0, &low, &low_end, &high, &high_end);
  }
  if (is_high && count > 0 && high == high_end) {
    sqlite3_result_blob64(context, unbounded, sizeof unbounded, SQLITE_STATIC);
  } else if (is_high) {
    sqlite3_result_blob64(context, set->form + high, high_end - high, SQLITE_TRANSIENT);
  } else {
    sqlite3_result_blob64(context, set->form + low, low_end - low, SQLITE_TRANSIENT);
  }
  sqlite3_free(set);
}

static void low_of_set(sqlite3_context *context, int count, sqlite3_value **values) {
  uint32_t scheme;
  if (read_scheme(context, count, values, 1, &scheme)) give_end(context, scheme, values[0], false);
}

static void high_of_set(sqlite3_context *context, int count, sqlite3_value **values) {
  uint32_t scheme;
  if (read_scheme(context, count, values, 1, &scheme)) give_end(context, scheme, values[0], true);
}

/* Gives why a version does not match a list, a sentence that is too long for the stack, in memory of its length. */
static void give_long_why(sqlite3_context *context, struct text list, struct text text, size_t len) {
  char *why = sqlite3_malloc64(len);
  if (why && versions_why_text(list.bytes, list.len, text.bytes, text.len, why, len, &len) == VERSIONS_OK) {
    sqlite3_result_text64(context, why, len, sqlite3_free, SQLITE_UTF8);
  } else {
    sqlite3_free(why);
    sqlite3_result_error_nomem(context);
  }
}

static void version_why_not(sqlite3_context *context, int count, sqlite3_value **values) {
  struct text list = text_of(values[0]), text = text_of(values[1]);
  char why[256];
  size_t len;
  (void)count;
  if (!list.bytes || !text.bytes) {
    sqlite3_result_error_nomem(context);
    return;
  }
  if (sqlite3_value_type(values[0]) == SQLITE_NULL) {
    sqlite3_result_null(context);
    return;
  }
  switch (versions_why_text(list.bytes, list.len, text.bytes, text.len, why, sizeof why, &len)) {
    case VERSIONS_OK: sqlite3_result_text(context, why, (int)len, SQLITE_TRANSIENT); break;
    case VERSIONS_NO_ROOM: give_long_why(context, list, text, len); break;
    case VERSIONS_NO_REQUIREMENTS: give_no_requirement(context, list, sqlite3_value_type(values[0])); break;
    default: sqlite3_result_null(context);
  }
}

/* The place that a value names. Returns false for NULL and for a negative one, and fails for another type. */
static bool place_of(sqlite3_context *context, sqlite3_value *value, size_t *place) {
  int type = sqlite3_value_type(value);
  sqlite3_int64 number = type == SQLITE_INTEGER ? sqlite3_value_int64(value) : -1;
  sqlite3_result_null(context);
  if (type != SQLITE_INTEGER && type != SQLITE_NULL) {
    give_error(context, sqlite3_mprintf("not a place: a value of type %s; a place is an integer, counted from 0",
                                        name_of(type)));
  }
  *place = (size_t)number;
  return number >= 0;
}

static void version_nth(sqlite3_context *context, int count, sqlite3_value **values) {
  struct text text = text_of(values[0]);
  size_t place;
  uint32_t number;
  (void)count;
  if (!text.bytes) {
    sqlite3_result_error_nomem(context);
  } else if (place_of(context, values[1], &place) &&
             versions_nth(text.bytes, text.len, place, &number) == VERSIONS_OK) {
    sqlite3_result_int64(context, number);
  }
}

/* What comes next after a version: at a place, at the last one, or as a pre-release of a word, which may be empty. */
struct asked {
  struct text text, word;
  size_t place;
  enum { NEXT, NEXT_RELEASE, NEXT_PRE } what;
};

static int ask_next(const struct asked *asked, char *next, size_t room, size_t *len) {
  struct text text = asked->text, word = asked->word;
  switch (asked->what) {
    case NEXT_RELEASE: return versions_next_release(text.bytes, text.len, next, room, len);
    case NEXT_PRE: return versions_next_pre(text.bytes, text.len, word.bytes, word.len, next, room, len);
    default: return versions_next(text.bytes, text.len, asked->place, next, room, len);
  }
}

/* Gives the version that comes next, if there is one. */
static void give_next(sqlite3_context *context, const struct asked *asked) {
  size_t len;
  char *next;
  if (ask_next(asked, NULL, 0, &len) != VERSIONS_NO_ROOM) return;
  next = sqlite3_malloc64(len);
  if (next && ask_next(asked, next, len, &len) == VERSIONS_OK) {
    sqlite3_result_text64(context, next, len, sqlite3_free, SQLITE_UTF8);
  } else {
    sqlite3_free(next);
    sqlite3_result_error_nomem(context);
  }
}

static void version_next(sqlite3_context *context, int count, sqlite3_value **values) {
  struct asked asked = {text_of(values[0]), {NULL, 0}, 0, NEXT};
  (void)count;
  if (!asked.text.bytes) {
    sqlite3_result_error_nomem(context);
  } else if (place_of(context, values[1], &asked.place)) {
    give_next(context, &asked);
  }
}

static void version_next_release(sqlite3_context *context, int count, sqlite3_value **values) {
  struct asked asked = {text_of(values[0]), {NULL, 0}, 0, NEXT_RELEASE};
  (void)count;
  if (!asked.text.bytes) {
    sqlite3_result_error_nomem(context);
  } else {
    give_next(context, &asked);
  }
}

static void version_next_pre(sqlite3_context *context, int count, sqlite3_value **values) {
  struct asked asked = {text_of(values[0]), {"", 0}, 0, NEXT_PRE};
  if (count == 2) asked.word = text_of(values[1]);
  if (!asked.text.bytes || !asked.word.bytes) {
    sqlite3_result_error_nomem(context);
  } else {
    give_next(context, &asked);
  }
}

static void version_epoch(sqlite3_context *context, int count, sqlite3_value **values) {
  struct text text = text_of(values[0]);
  uint64_t epoch;
  (void)count;
  if (!text.bytes) {
    sqlite3_result_error_nomem(context);
    return;
  }
  switch (versions_epoch(text.bytes, text.len, &epoch)) {
    case VERSIONS_OK:
    case VERSIONS_LARGE_EPOCH: /* and `epoch` is then the largest integer of SQLite */
      sqlite3_result_int64(context, (sqlite3_int64)epoch);
      break;
    default: sqlite3_result_null(context);
  }
}

static void give_field(sqlite3_context *context, sqlite3_value *value, uint32_t field) {
  struct text text = text_of(value);
  size_t start, end;
  if (!text.bytes) {
    sqlite3_result_error_nomem(context);
  } else if (versions_field(text.bytes, text.len, field, &start, &end) == VERSIONS_OK) {
    sqlite3_result_text64(context, text.bytes + start, end - start, SQLITE_TRANSIENT, SQLITE_UTF8);
  } else {
    sqlite3_result_null(context);
  }
}

static void version_pre_release(sqlite3_context *context, int count, sqlite3_value **values) {
  (void)count;
  give_field(context, values[0], VERSIONS_FIELD_PRE_RELEASE);
}

static void version_release(sqlite3_context *context, int count, sqlite3_value **values) {
  (void)count;
  give_field(context, values[0], VERSIONS_FIELD_RELEASE);
}

static void version_metadata(sqlite3_context *context, int count, sqlite3_value **values) {
  (void)count;
  give_field(context, values[0], VERSIONS_FIELD_METADATA);
}

static void version_is_prerelease(sqlite3_context *context, int count, sqlite3_value **values) {
  struct text text = text_of(values[0]);
  bool is_prerelease;
  (void)count;
  if (!text.bytes) {
    sqlite3_result_error_nomem(context);
  } else if (versions_is_prerelease(text.bytes, text.len, &is_prerelease) == VERSIONS_OK) {
    sqlite3_result_int(context, is_prerelease);
  } else {
    sqlite3_result_null(context);
  }
}

/* The version in a tag: its text from the start that the library finds. Any text can be a prefix, no_text too. */
static void version_in(sqlite3_context *context, int count, sqlite3_value **values) {
  struct text tag = text_of(values[0]), prefix = text_of(values[count - 1]);
  size_t start;
  int status = VERSIONS_NO_VERSION;
  if (!tag.bytes || !prefix.bytes) {
    sqlite3_result_error_nomem(context);
    return;
  }
  if (count == 1) {
    status = versions_in_tag(tag.bytes, tag.len, &start);
  } else if (sqlite3_value_type(values[1]) == SQLITE_TEXT) {
    status = versions_after_prefix(prefix.bytes, prefix.len, tag.bytes, tag.len, &start);
  }
  if (status == VERSIONS_OK) {
    sqlite3_result_text64(context, tag.bytes + start, tag.len - start, SQLITE_TRANSIENT, SQLITE_UTF8);
  } else {
    sqlite3_result_null(context);
  }
}

static void version_stability(sqlite3_context *context, int count, sqlite3_value **values) {
  static const char *const names[] = {NULL, "dev", "alpha", "beta", "rc", "stable"};
  struct text text = text_of(values[0]);
  (void)count;
  if (!text.bytes) {
    sqlite3_result_error_nomem(context);
  } else {
    sqlite3_result_text(context, names[versions_stability(text.bytes, text.len)], -1, SQLITE_STATIC);
  }
}

static void version_stability_rank(sqlite3_context *context, int count, sqlite3_value **values) {
  struct text text = text_of(values[0]);
  int rank;
  (void)count;
  if (!text.bytes) {
    sqlite3_result_error_nomem(context);
    return;
  }
  rank = versions_stability(text.bytes, text.len);
  if (rank == VERSIONS_NONE) {
    sqlite3_result_null(context);
  } else {
    sqlite3_result_int(context, rank);
  }
}

static void version_difference(sqlite3_context *context, int count, sqlite3_value **values) {
  static const char *const names[] = {"same", "tie", "epoch", "part", "tail"};
  struct text a = text_of(values[0]), b = text_of(values[1]);
  uint32_t difference;
  size_t part;
  (void)count;
  if (!a.bytes || !b.bytes) {
    sqlite3_result_error_nomem(context);
  } else if (versions_difference(a.bytes, a.len, b.bytes, b.len, &difference, &part) != VERSIONS_OK) {
    sqlite3_result_null(context);
  } else if (difference != VERSIONS_DIFFERENCE_PART) {
    sqlite3_result_text(context, names[difference], -1, SQLITE_STATIC);
  } else {
    give_text(context, sqlite3_mprintf("part %lld", (sqlite3_int64)part));
  }
}

/*
 * version_max and version_min. A row is a candidate if no later row is better: only then can it be the best row of the
 * window, now or after earlier rows leave. The candidates are kept in the order of their rows. No candidate is better
 * than the candidate before it, so the first is the best. Rows leave in the order in which they came.
 */
struct candidate {
  struct candidate *before, *after;
  sqlite3_int64 row; /* the last of consecutive rows with this text, counted from 1 */
  size_t len;
  char bytes[];
};

struct window {
  struct candidate *first, *last;
  sqlite3_int64 came, left; /* numbers of rows */
  uint32_t scheme; /* 0 before the first row that has one */
};

/* The result of a comparison with a worse version: the user data of version_max and of version_min. */
static const int32_t above = 1, below = -1;

/* In mixed ties are broken. */
static bool is_better(sqlite3_context *context, uint32_t scheme, struct text text, const struct candidate *than) {
  const int32_t *better = sqlite3_user_data(context);
  int32_t order;
  int status = scheme == VERSIONS_MIXED
                   ? versions_compare_total(text.bytes, text.len, than->bytes, than->len, &order)
                   : versions_compare(scheme, text.bytes, text.len, than->bytes, than->len, &order);
  return status == VERSIONS_OK && order == *better;
}

static bool has_text(const struct candidate *candidate, struct text text) {
  return candidate->len == text.len && memcmp(candidate->bytes, text.bytes, text.len) == 0;
}

static void drop_first(struct window *window) {
  struct candidate *first = window->first;
  window->first = first->after;
  if (window->first) {
    window->first->before = NULL;
  } else {
    window->last = NULL;
  }
  sqlite3_free(first);
}

static void drop_last(struct window *window) {
  struct candidate *last = window->last;
  window->last = last->before;
  if (window->last) {
    window->last->after = NULL;
  } else {
    window->first = NULL;
  }
  sqlite3_free(last);
}

/* Appends a candidate. Returns false on allocation failure. */
static bool append(struct window *window, struct text text) {
  struct candidate *last = sqlite3_malloc64(sizeof *last + text.len);
  if (!last) return false;
  last->before = window->last;
  last->after = NULL;
  last->row = window->came;
  last->len = text.len;
  memcpy(last->bytes, text.bytes, text.len);
  if (window->last) {
    window->last->after = last;
  } else {
    window->first = last;
  }
  window->last = last;
  return true;
}

/* Whether rows have been of this scheme alone. Else fails: versions of two schemes are in no order. */
static bool is_of_one_scheme(sqlite3_context *context, struct window *window, uint32_t scheme) {
  sqlite3_str *message;
  if (window->scheme == 0) window->scheme = scheme;
  if (window->scheme == scheme) return true;
  message = sqlite3_str_new(NULL);
  append_scheme(message, "versions of two schemes have no order: of ", window->scheme);
  append_scheme(message, " and of ", scheme);
  give_error(context, sqlite3_str_finish(message));
  return false;
}

static void best_step(sqlite3_context *context, int count, sqlite3_value **values) {
  struct window *window = sqlite3_aggregate_context(context, sizeof *window);
  struct text text = text_of(values[0]);
  uint32_t scheme;
  if (!window || !text.bytes) {
    sqlite3_result_error_nomem(context);
    return;
  }
  window->came++;
  if (!read_scheme(context, count, values, 1, &scheme) || !is_of_one_scheme(context, window, scheme)) return;
  if (!is_of(scheme, text)) return;
  while (window->last && is_better(context, scheme, text, window->last)) drop_last(window);
  if (window->last && has_text(window->last, text)) {
    window->last->row = window->came;
  } else if (!append(window, text)) {
    sqlite3_result_error_nomem(context);
  }
}

static void best_inverse(sqlite3_context *context, int count, sqlite3_value **values) {
  struct window *window = sqlite3_aggregate_context(context, 0);
  (void)count;
  (void)values;
  if (!window) return;
  window->left++;
  if (window->first && window->first->row == window->left) drop_first(window);
}

static void best_value(sqlite3_context *context) {
  const struct window *window = sqlite3_aggregate_context(context, 0);
  if (window && window->first) {
    sqlite3_result_text64(context, window->first->bytes, window->first->len, SQLITE_TRANSIENT, SQLITE_UTF8);
  } else {
    sqlite3_result_null(context);
  }
}

/* SQLite calls this once for each window, even if the statement fails or is interrupted. */
static void best_final(sqlite3_context *context) {
  struct window *window = sqlite3_aggregate_context(context, 0);
  best_value(context);
  while (window && window->first) drop_first(window);
}

static void give_library_version(sqlite3_context *context, int count, sqlite3_value **values) {
  (void)count;
  (void)values;
  sqlite3_result_text(context, versions_version(), -1, SQLITE_STATIC);
}

/* A text that SQLite passes to a collation. An empty text may be a null pointer. */
static struct text passed(const void *bytes, int len) {
  struct text text = {bytes ? bytes : "", (size_t)len};
  return text;
}

/* By bytes, the shorter first if it is a prefix of the other. */
static int compare_bytes(struct text a, struct text b) {
  int order = memcmp(a.bytes, b.bytes, a.len < b.len ? a.len : b.len);
  return order ? order : (a.len > b.len) - (a.len < b.len);
}

/* A collation must not fail. This cannot, since the library does not allocate. */
static int collate(void *none, int a_len, const void *a_bytes, int b_len, const void *b_bytes) {
  struct text a = passed(a_bytes, a_len), b = passed(b_bytes, b_len);
  int32_t order = 0;
  (void)none;
  switch (versions_compare(VERSIONS_MIXED, a.bytes, a.len, b.bytes, b.len, &order)) {
    case VERSIONS_NO_VERSION_A: return 1;
    case VERSIONS_NO_VERSION_B: return -1;
    default: return order ? order : compare_bytes(a, b);
  }
}

static const int flags = SQLITE_UTF8 | SQLITE_DETERMINISTIC | SQLITE_INNOCUOUS;

static int define_functions(sqlite3 *db) {
  static const struct {
    const char *name;
    int count;
    void (*call)(sqlite3_context *, int, sqlite3_value **);
  } functions[] = {
      {"version_key", 1, version_key},
      {"version_key", 2, version_key},
      {"is_version", 1, is_version},
      {"is_version", 2, is_version},
      {"version_kind", 1, version_kind},
      {"version_compare", 2, version_compare},
      {"version_compare", 3, version_compare},
      {"version_compare_total", 2, version_compare_total},
      {"version_in_set", 2, version_in_set},
      {"version_in_set", 3, version_in_set},
      {"version_low", 1, version_low},
      {"version_high", 1, version_high},
      {"version_low", 2, low_of_set},
      {"version_high", 2, high_of_set},
      {"version_nth", 2, version_nth},
      {"version_epoch", 1, version_epoch},
      {"version_pre_release", 1, version_pre_release},
      {"version_release", 1, version_release},
      {"version_metadata", 1, version_metadata},
      {"version_is_prerelease", 1, version_is_prerelease},
      {"version_in", 1, version_in},
      {"version_in", 2, version_in},
      {"version_stability", 1, version_stability},
      {"version_stability_rank", 1, version_stability_rank},
      {"version_difference", 2, version_difference},
      {"version_next", 2, version_next},
      {"version_next_release", 1, version_next_release},
      {"version_next_pre", 1, version_next_pre},
      {"version_next_pre", 2, version_next_pre},
      {"version_why_not", 2, version_why_not},
      {"versions_version", 0, give_library_version},
  };
  int status = SQLITE_OK;
  size_t at;
  for (at = 0; at < sizeof functions / sizeof *functions && status == SQLITE_OK; at++) {
    status = sqlite3_create_function_v2(db, functions[at].name, functions[at].count, flags, NULL, functions[at].call,
                                        NULL, NULL, NULL);
  }
  return status;
}

static int define_matches(sqlite3 *db) {
  unsigned *calls = sqlite3_malloc64(sizeof *calls);
  if (!calls) return SQLITE_NOMEM;
  *calls = 0;
  return sqlite3_create_function_v2(db, "version_matches", 2, flags, calls, version_matches, NULL, NULL, sqlite3_free);
}

/* Defines an aggregate of a text, and of a text and a scheme. */
static int define_aggregate(sqlite3 *db, const char *name, const int32_t *better) {
  int status = SQLITE_OK, count;
  for (count = 1; count <= 2 && status == SQLITE_OK; count++) {
    status = sqlite3_create_window_function(db, name, count, flags, (void *)better, best_step, best_final, best_value,
                                            best_inverse, NULL);
  }
  return status;
}

/* A requirement of the extension that is not met here; null if all are met. */
static const char *missing(void) {
  return sqlite3_libversion_number() < 3031000 ? "SQLite 3.31 or later" : NULL;
}

EXPORTED int sqlite3_versions_init(sqlite3 *db, char **fault, const sqlite3_api_routines *routines) {
  int status;
  SQLITE_EXTENSION_INIT2(routines);
  if (missing()) {
    if (fault) *fault = sqlite3_mprintf("the functions on versions need %s", missing());
    return SQLITE_ERROR;
  }
  status = define_functions(db);
  if (status == SQLITE_OK) status = define_matches(db);
  if (status == SQLITE_OK) status = define_aggregate(db, "version_max", &above);
  if (status == SQLITE_OK) status = define_aggregate(db, "version_min", &below);
  if (status == SQLITE_OK) status = sqlite3_create_collation_v2(db, "VERSION", SQLITE_UTF8, NULL, collate, NULL);
  if (status != SQLITE_OK && fault) {
    *fault = sqlite3_mprintf("%s", status == SQLITE_NOMEM ? sqlite3_errstr(status) : sqlite3_errmsg(db));
  }
  return status;
}

#ifndef SQLITE_CORE
/* The entry point that SQLite tries for any file name. */
EXPORTED int sqlite3_extension_init(sqlite3 *db, char **fault, const sqlite3_api_routines *routines) {
  return sqlite3_versions_init(db, fault, routines);
}
#endif
