/*
 * versions.c: versions, requirements and sets in PostgreSQL, as functions on texts and as types. The Makefile builds
 * it. versions--0.1.0.sql declares the functions to PostgreSQL and describes their results.
 *
 * A value of the type `version`, or of the type of another scheme such as `deb_version`, is the text of a version,
 * unchanged: its representation is that of `text`. Versions are ASCII, and in every server encoding an ASCII byte is
 * that character. So texts are passed to the library unconverted: a text with a byte that is not ASCII is not a version
 * in any encoding.
 *
 * All memory is PostgreSQL's, so it is freed even if an error ends the statement. The library does not allocate.
 *
 * The library alone decides what versions, requirements and sets are. This file only passes texts to it.
 */
#include "postgres.h"

#include <ctype.h>

#if PG_VERSION_NUM < 130000
#error "PostgreSQL 13 or later is needed"
#endif

#include "access/detoast.h"
#include "access/stratnum.h"
#include "catalog/pg_am.h"
#include "catalog/pg_collation.h"
#include "catalog/pg_proc.h"
#include "catalog/pg_statistic.h"
#include "catalog/pg_type.h"
#include "common/hashfn.h"
#include "fmgr.h"
#include "lib/stringinfo.h"
#include "libpq/pqformat.h"
#include "nodes/makefuncs.h"
#include "nodes/nodeFuncs.h"
#include "nodes/pathnodes.h"
#include "nodes/supportnodes.h"
#include "optimizer/optimizer.h"
#include "utils/builtins.h"
#include "utils/lsyscache.h"
#include "utils/memutils.h"
#include "utils/selfuncs.h"
#include "utils/sortsupport.h"
#include "utils/syscache.h"
#if PG_VERSION_NUM >= 160000
#include "varatt.h"
#endif

#include "versions.h"

PG_MODULE_MAGIC;

/* In PostgreSQL 15 and earlier every error ends the statement. */
#ifndef ereturn
#define ereturn(context, value, ...) ereport(ERROR, __VA_ARGS__)
#endif

/*
 * Defines a function that SQL may call. Only these names are exported. No such function calls another by its name,
 * since another extension in the server's process may export the same name.
 */
#define SQL_FUNCTION(name)   \
  PG_FUNCTION_INFO_V1(name); \
  Datum name(PG_FUNCTION_ARGS)

/* The bytes of a text or of a version. */
typedef struct {
  const char *bytes;
  size_t len;
} Span;

static Span span_of(const text *value) {
  Span span = {VARDATA_ANY(value), VARSIZE_ANY_EXHDR(value)};
  return span;
}

static bool are_same(Span a, Span b) { return a.len == b.len && memcmp(a.bytes, b.bytes, a.len) == 0; }

/* Frees the bytes of a value if they are a copy, of a compressed value or of a value stored out of line. */
static void free_copy(struct varlena *bytes, Datum value) {
  if ((Pointer)bytes != DatumGetPointer(value)) pfree(bytes);
}

/*
 * Reading once. A parameter, the answer of a subquery and a text of a CTE may be the same in each row, but nothing tells
 * a function so: each row gives them anew, and the memory of another row is used again. So a function keeps what it was
 * given last at its place in a statement, and what that was read as, and compares bytes. Of a value that is stored out
 * of line these are the few that say where it is: as long as a statement runs, no other value has that place.
 */
typedef struct {
  uint32 scheme;
  Span given;
  bytea *value; /* NULL: not read yet */
} LastRead;

/* The bytes that an argument is given by. */
static Span given_as(Datum argument) {
  struct varlena *stored = (struct varlena *)DatumGetPointer(argument);
  Span given;
  /* what says where a value is in memory does not say which value it is */
  if (VARATT_IS_EXTERNAL(stored) && !VARATT_IS_EXTERNAL_ONDISK(stored)) stored = detoast_attr(stored);
  given.bytes = (const char *)stored;
  given.len = VARSIZE_ANY(stored);
  return given;
}

/* What is kept of the same bytes, by the same scheme; NULL where others were given last. */
static LastRead *last_given(FunctionCallInfo fcinfo, uint32 scheme, Span given) {
  LastRead *last = fcinfo->flinfo->fn_extra;
  return last && last->scheme == scheme && are_same(last->given, given) ? last : NULL;
}

static bytea *last_read(FunctionCallInfo fcinfo, uint32 scheme, Span given) {
  LastRead *last = last_given(fcinfo, scheme, given);
  return last ? last->value : NULL;
}

/*
 * Keeps bytes, and what they were read as, if they were, in place of what was kept. Returns the copy of that, which is
 * kept until others are given.
 */
static bytea *keep_read(FunctionCallInfo fcinfo, uint32 scheme, Span given, const bytea *value) {
  LastRead *last = fcinfo->flinfo->fn_extra;
  size_t len = value ? VARSIZE_ANY(value) : 0;
  char *end;
  fcinfo->flinfo->fn_extra = NULL;
  if (last) pfree(last);
  last = MemoryContextAllocHuge(fcinfo->flinfo->fn_mcxt, sizeof *last + len + given.len);
  end = (char *)(last + 1);
  last->scheme = scheme;
  last->value = value ? memcpy(end, value, len) : NULL;
  last->given.bytes = memcpy(end + len, given.bytes, given.len);
  last->given.len = given.len;
  fcinfo->flinfo->fn_extra = last;
  if (value) elog(DEBUG2, "read of an argument: %zu bytes", given.len);
  return last->value;
}

/* Reads an argument, by a scheme where it is a text. Returns memory of its own. Fails where it is not what is wanted. */
typedef bytea *Reading(uint32 scheme, Datum argument);

/* What an argument is read as, which is read once while it stays the same. */
static bytea *read_once(FunctionCallInfo fcinfo, Reading *read, uint32 scheme, Datum argument) {
  Span given = given_as(argument);
  bytea *value = last_read(fcinfo, scheme, given), *made;
  if (value) return value;
  made = read(scheme, argument);
  value = keep_read(fcinfo, scheme, given, made);
  pfree(made);
  return value;
}

/* A copy of what is kept, for a result: the next row may have what is kept replaced. */
static bytea *copy_of(const bytea *value) { return memcpy(palloc(VARSIZE(value)), value, VARSIZE(value)); }

/* Whether a value is whole where it is: not compressed, and not stored out of line. */
static bool is_whole_value(Datum value) {
  const struct varlena *stored = (const struct varlena *)DatumGetPointer(value);
  return !VARATT_IS_COMPRESSED(stored) && !VARATT_IS_EXTERNAL(stored);
}

static bytea *read_whole(uint32 scheme, Datum value) { return DatumGetByteaP(value); }

/* The bytes of an argument, which are fetched and decompressed once while it stays the same. */
static bytea *whole_once(FunctionCallInfo fcinfo, Datum value) {
  return is_whole_value(value) ? DatumGetByteaPP(value) : read_once(fcinfo, read_whole, 0, value);
}

/*
 * Schemes. A type of versions has one: its functions are written for every scheme, and a macro defines them for each
 * type. Each type has a row here, and is named in versions--0.1.0.sql.
 */
#define EACH_TYPE(row)                                                                                         \
  row(version, VERSIONS_MIXED) row(deb_version, VERSIONS_DEB) row(rpm_version, VERSIONS_RPM)                   \
  row(pypi_version, VERSIONS_PYPI) row(semver_version, VERSIONS_SEMVER) row(gem_version, VERSIONS_GEM)

/* The type of the versions of each scheme, at the scheme's number. */
#define TYPE_NAME(type, scheme) [scheme] = #type,
static const char *const type_names[] = {EACH_TYPE(TYPE_NAME)};

static bool parses(uint32 scheme, Span span) {
  bool parses = false;
  versions_has(scheme, span.bytes, span.len, &parses);
  return parses;
}

static int compare(uint32 scheme, Span a, Span b, int32_t *order) {
  return versions_compare(scheme, a.bytes, a.len, b.bytes, b.len, order);
}

static int write_key(uint32 scheme, Span span, uint8_t *key, size_t room, size_t *len) {
  return versions_key(scheme, span.bytes, span.len, key, room, len);
}

/* The name of a scheme; NULL where no scheme has the number. */
static const char *name_of(uint32 scheme) {
  char name[16];
  size_t len;
  if (versions_scheme_name(scheme, name, sizeof name, &len) != VERSIONS_OK) return NULL;
  return pnstrdup(name, len);
}

/*
 * Returns the first 60 bytes of a text in quotes, and the number of further bytes. Quotes, backslashes and bytes that
 * are not printable ASCII become \xHH.
 */
static const char *quoted(Span span) {
  const size_t most = 60, shown = span.len < most ? span.len : most;
  StringInfoData said;
  size_t at;
  initStringInfo(&said);
  appendStringInfoChar(&said, '"');
  for (at = 0; at < shown; at++) {
    unsigned char byte = (unsigned char)span.bytes[at];
    if (byte < ' ' || byte > '~' || byte == '"' || byte == '\\') {
      appendStringInfo(&said, "\\x%02x", byte);
    } else {
      appendStringInfoChar(&said, (char)byte);
    }
  }
  appendStringInfoChar(&said, '"');
  if (span.len > shown) appendStringInfo(&said, " and %zu bytes more", span.len - shown);
  return said.data;
}

/* What is said of the name of no scheme, behind an article: a list of all names. */
static const char *not_a_scheme(Span name) {
  StringInfoData said;
  uint32 scheme;
  initStringInfo(&said);
  appendStringInfoString(&said, "scheme is one of ");
  for (scheme = VERSIONS_MIXED; name_of(scheme); scheme++) appendStringInfo(&said, "%s, ", name_of(scheme));
  appendStringInfo(&said, "and this is %s", quoted(name));
  return said.data;
}

/* The scheme of a name. Fails for the name of none. */
static uint32 scheme_of(Span name) {
  uint32_t scheme = 0;
  if (versions_scheme(name.bytes, name.len, &scheme) != VERSIONS_OK) {
    ereport(ERROR, (errcode(ERRCODE_INVALID_PARAMETER_VALUE), errmsg("a %s", not_a_scheme(name))));
  }
  return scheme;
}

/* Fails where versions of one scheme are wanted, and what is given is of another. */
static void check_scheme(uint32 wanted, uint32 given) {
  if (wanted != given) {
    ereport(ERROR,
            (errcode(ERRCODE_INVALID_PARAMETER_VALUE),
             errmsg("versions of %s are wanted, and this is of %s", name_of(wanted), name_of(given))));
  }
}

/*
 * Damage: values of the types that no input makes. Only a damaged file has one, or a cast that a superuser declares.
 * Each call that reads a value fails for it. The outputs write a damaged text as it is.
 */

static void report_damage(uint32 scheme, Span span) {
  ereport(ERROR, (errcode(ERRCODE_DATA_CORRUPTED),
                  errmsg("a value of type %s is not a version: %s", type_names[scheme], quoted(span))));
}

static void report_damaged_requirement(void) {
  ereport(ERROR, (errcode(ERRCODE_DATA_CORRUPTED), errmsg("a value of type requirement is not a requirement")));
}

static void report_damaged_set(void) {
  ereport(ERROR, (errcode(ERRCODE_DATA_CORRUPTED), errmsg("a value of type version_set is not a set of versions")));
}

static void report_damaged_bound(void) {
  ereport(ERROR, (errcode(ERRCODE_DATA_CORRUPTED), errmsg("a value of type version_bound is not a bound")));
}

/*
 * The longest text that a key is made of, or a value of the types, in bytes. A statement can't be cancelled while the
 * library reads a text: this one takes it a few seconds. A key has at most five bytes for each of the text.
 */
enum { LONGEST = 16 * 1024 * 1024 };

/* Whether a text is not too long for what is made of it. An input that is asked to goes on after the error. */
static bool fits(fmNodePtr context, Span span, const char *made) {
  if (span.len > LONGEST) {
    ereturn(context, false,
            (errcode(ERRCODE_PROGRAM_LIMIT_EXCEEDED),
             errmsg("a text of %zu bytes is too long for a %s", span.len, made),
             errdetail("The longest text that is taken has %d bytes.", LONGEST)));
  }
  return true;
}

/* Keys. */

/* Room for nearly every key. */
typedef union {
  bytea key;
  char bytes[VARHDRSZ + 256];
} KeyRoom;

/* The key of a text: in the room if it fits, otherwise in memory of its length. NULL if the text is not a version. */
static bytea *key_of(uint32 scheme, Span span, KeyRoom *room) {
  bytea *key = &room->key;
  size_t len;
  int status;
  fits(NULL, span, "sort key");
  status = write_key(scheme, span, (uint8_t *)VARDATA(key), sizeof room->bytes - VARHDRSZ, &len);
  if (status == VERSIONS_NO_ROOM) {
    key = palloc(VARHDRSZ + len);
    status = write_key(scheme, span, (uint8_t *)VARDATA(key), len, &len);
  }
  if (status != VERSIONS_OK) return NULL;
  SET_VARSIZE(key, VARHDRSZ + len);
  return key;
}

static void free_key(bytea *key, KeyRoom *room) {
  if (key != &room->key) pfree(key);
}

/* The key of a text, as a result; NULL if the text is not a version. */
static bytea *key_to_keep(uint32 scheme, Span span) {
  KeyRoom room;
  bytea *key = key_of(scheme, span, &room);
  if (key == &room.key) key = memcpy(palloc(VARSIZE(key)), key, VARSIZE(key));
  return key;
}

/*
 * Functions on texts and on versions, of the same representation. For a text that is not a version the result is NULL;
 * a version that is not one is damaged. This defines both: the body begins after it, and `typed` says which it is.
 */
#define FUNCTIONS(name)                                                            \
  static inline Datum name##_result(FunctionCallInfo fcinfo, bool typed);          \
  SQL_FUNCTION(name) { return name##_result(fcinfo, false); }                      \
  SQL_FUNCTION(name##_of_version) { return name##_result(fcinfo, true); }          \
  static inline Datum name##_result(FunctionCallInfo fcinfo, bool typed)

/* The result NULL, by the status of a call for a text or a version. */
static Datum no_result(FunctionCallInfo fcinfo, bool typed, int status, Span span) {
  if (typed && status == VERSIONS_NO_VERSION) report_damage(VERSIONS_MIXED, span);
  PG_RETURN_NULL();
}

SQL_FUNCTION(is_version) { PG_RETURN_BOOL(parses(VERSIONS_MIXED, span_of(PG_GETARG_TEXT_PP(0)))); }

SQL_FUNCTION(is_version_in_scheme) {
  uint32 scheme = scheme_of(span_of(PG_GETARG_TEXT_PP(1)));
  PG_RETURN_BOOL(parses(scheme, span_of(PG_GETARG_TEXT_PP(0))));
}

SQL_FUNCTION(version_key) {
  bytea *key = key_to_keep(VERSIONS_MIXED, span_of(PG_GETARG_TEXT_PP(0)));
  if (!key) PG_RETURN_NULL();
  PG_RETURN_BYTEA_P(key);
}

SQL_FUNCTION(version_key_in_scheme) {
  uint32 scheme = scheme_of(span_of(PG_GETARG_TEXT_PP(1)));
  bytea *key = key_to_keep(scheme, span_of(PG_GETARG_TEXT_PP(0)));
  if (!key) PG_RETURN_NULL();
  PG_RETURN_BYTEA_P(key);
}

FUNCTIONS(version_kind) {
  static const char *const names[] = {NULL, "ideal", "general", "complex"};
  Span span = span_of(PG_GETARG_TEXT_PP(0));
  const char *name = names[versions_kind(span.bytes, span.len)];
  if (!name) return no_result(fcinfo, typed, VERSIONS_NO_VERSION, span);
  PG_RETURN_TEXT_P(cstring_to_text(name));
}

/* In mixed alone. */
static int compare_total(uint32 scheme, Span a, Span b, int32_t *order) {
  (void)scheme;
  return versions_compare_total(a.bytes, a.len, b.bytes, b.len, order);
}

typedef int Comparison(uint32, Span, Span, int32_t *);

/* Compares the first two arguments, and frees their copies, as functions of an index have to. */
static Datum compare_arguments(FunctionCallInfo fcinfo, bool typed, Comparison *compare) {
  text *first = PG_GETARG_TEXT_PP(0), *second = PG_GETARG_TEXT_PP(1);
  Span a = span_of(first), b = span_of(second);
  int32_t order;
  int status = compare(VERSIONS_MIXED, a, b, &order);
  if (status != VERSIONS_OK) {
    return no_result(fcinfo, typed, VERSIONS_NO_VERSION, status == VERSIONS_NO_VERSION_B ? b : a);
  }
  PG_FREE_IF_COPY(first, 0);
  PG_FREE_IF_COPY(second, 1);
  PG_RETURN_INT32(order);
}

FUNCTIONS(version_compare) { return compare_arguments(fcinfo, typed, compare); }
FUNCTIONS(version_compare_total) { return compare_arguments(fcinfo, typed, compare_total); }

SQL_FUNCTION(version_compare_in_scheme) {
  uint32 scheme = scheme_of(span_of(PG_GETARG_TEXT_PP(2)));
  int32_t order;
  if (compare(scheme, span_of(PG_GETARG_TEXT_PP(0)), span_of(PG_GETARG_TEXT_PP(1)), &order) != VERSIONS_OK) {
    PG_RETURN_NULL();
  }
  PG_RETURN_INT32(order);
}

/* Why a text is not a list of requirements, and what one looks like, for the errors about such texts. */
static int explain(Span list) {
  size_t start = 0, end = list.len;
  Span member;
  versions_wrong_member(list.bytes, list.len, &start, &end);
  member.bytes = list.bytes + start;
  member.len = end - start;
  errdetail("The first wrong member is %s, at byte %zu.", quoted(member), start);
  return errhint("Each requirement is * or an operator and a version, such as >=1.2; the operators are =, >, >=, "
                 "<, <=, ~ and ^. Commas separate requirements that all have to match, as in >=1.2,<2. There are "
                 "no spaces and no ||.");
}

/* Fails for a text that is not a list of requirements. */
static void report_no_requirement(Span list) {
  ereport(ERROR,
          (errcode(ERRCODE_INVALID_PARAMETER_VALUE), errmsg("not a requirement: %s", quoted(list)), explain(list)));
}

/* A place below 0 is, as a size_t, above each place of a version. */
FUNCTIONS(version_nth) {
  Span span = span_of(PG_GETARG_TEXT_PP(0));
  uint32_t number;
  int status = versions_nth(span.bytes, span.len, (size_t)PG_GETARG_INT64(1), &number);
  if (status != VERSIONS_OK) return no_result(fcinfo, typed, status, span);
  PG_RETURN_INT64(number);
}

FUNCTIONS(version_epoch) {
  Span span = span_of(PG_GETARG_TEXT_PP(0));
  uint64_t epoch;
  int status = versions_epoch(span.bytes, span.len, &epoch);
  /* A large epoch is the largest bigint. */
  if (status != VERSIONS_OK && status != VERSIONS_LARGE_EPOCH) return no_result(fcinfo, typed, status, span);
  PG_RETURN_INT64((int64)epoch);
}

/* A field of the argument, as a text. */
static Datum field_of_argument(FunctionCallInfo fcinfo, bool typed, uint32_t field) {
  Span span = span_of(PG_GETARG_TEXT_PP(0));
  size_t start, end;
  int status = versions_field(span.bytes, span.len, field, &start, &end);
  if (status != VERSIONS_OK) return no_result(fcinfo, typed, status, span);
  PG_RETURN_TEXT_P(cstring_to_text_with_len(span.bytes + start, (int)(end - start)));
}

FUNCTIONS(version_pre_release) { return field_of_argument(fcinfo, typed, VERSIONS_FIELD_PRE_RELEASE); }
FUNCTIONS(version_release) { return field_of_argument(fcinfo, typed, VERSIONS_FIELD_RELEASE); }
FUNCTIONS(version_metadata) { return field_of_argument(fcinfo, typed, VERSIONS_FIELD_METADATA); }

FUNCTIONS(version_is_prerelease) {
  Span span = span_of(PG_GETARG_TEXT_PP(0));
  bool is_prerelease;
  int status = versions_is_prerelease(span.bytes, span.len, &is_prerelease);
  if (status != VERSIONS_OK) return no_result(fcinfo, typed, status, span);
  PG_RETURN_BOOL(is_prerelease);
}

/* The rest of a tag from a start on, as a version. NULL where there is none, by the status of the call. */
static Datum version_from(FunctionCallInfo fcinfo, int status, Span tag, size_t start) {
  Span version = {tag.bytes + start, tag.len - start};
  if (status != VERSIONS_OK) PG_RETURN_NULL();
  fits(NULL, version, "version");
  PG_RETURN_TEXT_P(cstring_to_text_with_len(version.bytes, (int)version.len));
}

SQL_FUNCTION(version_in_tag) {
  Span tag = span_of(PG_GETARG_TEXT_PP(0));
  size_t start = 0;
  int status = versions_in_tag(tag.bytes, tag.len, &start);
  return version_from(fcinfo, status, tag, start);
}

SQL_FUNCTION(version_after_prefix) {
  Span tag = span_of(PG_GETARG_TEXT_PP(0)), prefix = span_of(PG_GETARG_TEXT_PP(1));
  size_t start = 0;
  int status = versions_after_prefix(prefix.bytes, prefix.len, tag.bytes, tag.len, &start);
  return version_from(fcinfo, status, tag, start);
}

/* The result is of the enumeration that the function is declared with. */
FUNCTIONS(version_stability) {
  static char *const names[] = {NULL, "dev", "alpha", "beta", "rc", "stable"};
  Span span = span_of(PG_GETARG_TEXT_PP(0));
  char *name = names[versions_stability(span.bytes, span.len)];
  if (!name) return no_result(fcinfo, typed, VERSIONS_NO_VERSION, span);
  return DirectFunctionCall2(enum_in, CStringGetDatum(name),
                             ObjectIdGetDatum(get_func_rettype(fcinfo->flinfo->fn_oid)));
}

FUNCTIONS(version_difference) {
  static const char *const names[] = {"same", "tie", "epoch", "part", "tail"};
  Span a = span_of(PG_GETARG_TEXT_PP(0)), b = span_of(PG_GETARG_TEXT_PP(1));
  uint32_t difference;
  size_t part;
  int status = versions_difference(a.bytes, a.len, b.bytes, b.len, &difference, &part);
  if (status != VERSIONS_OK) {
    return no_result(fcinfo, typed, VERSIONS_NO_VERSION, status == VERSIONS_NO_VERSION_B ? b : a);
  }
  if (difference == VERSIONS_DIFFERENCE_PART) PG_RETURN_TEXT_P(cstring_to_text(psprintf("part %zu", part)));
  PG_RETURN_TEXT_P(cstring_to_text(names[difference]));
}

/* What comes next after a version: at a place, at the last one, or as a pre-release of a word, which may be empty. */
typedef struct {
  enum { NEXT, NEXT_RELEASE, NEXT_PRE } what;
  Span text, word;
  size_t place;
} NextAsked;

static int ask_next(const NextAsked *asked, char *next, size_t room, size_t *len) {
  Span text = asked->text, word = asked->word;
  switch (asked->what) {
    case NEXT_RELEASE: return versions_next_release(text.bytes, text.len, next, room, len);
    case NEXT_PRE: return versions_next_pre(text.bytes, text.len, word.bytes, word.len, next, room, len);
    default: return versions_next(text.bytes, text.len, asked->place, next, room, len);
  }
}

/* What comes next, which has to fit its type. */
static Datum next_of(FunctionCallInfo fcinfo, bool typed, const NextAsked *asked) {
  Span found = {NULL, 0};
  text *next;
  int status = ask_next(asked, NULL, 0, &found.len);
  if (status != VERSIONS_NO_ROOM) return no_result(fcinfo, typed, status, asked->text);
  if (typed) fits(NULL, found, "version");
  next = palloc(VARHDRSZ + found.len);
  SET_VARSIZE(next, VARHDRSZ + found.len);
  ask_next(asked, VARDATA(next), found.len, &found.len);
  PG_RETURN_TEXT_P(next);
}

/* A place below 0 is, as a size_t, above each place of a version. */
FUNCTIONS(version_next) {
  NextAsked asked = {NEXT, span_of(PG_GETARG_TEXT_PP(0)), {NULL, 0}, (size_t)PG_GETARG_INT64(1)};
  return next_of(fcinfo, typed, &asked);
}

FUNCTIONS(version_next_release) {
  NextAsked asked = {NEXT_RELEASE, span_of(PG_GETARG_TEXT_PP(0)), {NULL, 0}, 0};
  return next_of(fcinfo, typed, &asked);
}

FUNCTIONS(version_next_pre) {
  NextAsked asked = {NEXT_PRE, span_of(PG_GETARG_TEXT_PP(0)), {NULL, 0}, 0};
  if (PG_NARGS() == 2) asked.word = span_of(PG_GETARG_TEXT_PP(1));
  return next_of(fcinfo, typed, &asked);
}

/* Why a version does not match a list, a sentence, if the status says that there is one. */
static Datum why_not(Span list, Span version, int *status) {
  size_t len = 256;
  text *why = palloc(VARHDRSZ + len);
  *status = versions_why_text(list.bytes, list.len, version.bytes, version.len, VARDATA(why), len, &len);
  if (*status == VERSIONS_NO_ROOM) {
    why = repalloc(why, VARHDRSZ + len);
    *status = versions_why_text(list.bytes, list.len, version.bytes, version.len, VARDATA(why), len, &len);
  }
  SET_VARSIZE(why, VARHDRSZ + len);
  return PointerGetDatum(why);
}

SQL_FUNCTION(version_why_not_text) {
  Span list = span_of(whole_once(fcinfo, PG_GETARG_DATUM(0))), span = span_of(PG_GETARG_TEXT_PP(1));
  int status;
  Datum why = why_not(list, span, &status);
  if (status == VERSIONS_NO_REQUIREMENTS) report_no_requirement(list);
  if (status != VERSIONS_OK) PG_RETURN_NULL();
  return why;
}

SQL_FUNCTION(version_of_library) { PG_RETURN_TEXT_P(cstring_to_text(versions_version())); }

/*
 * The types of versions, by their scheme: the input from a C string, from a client in binary, and from a text. That
 * from a text returns the text itself.
 */

/* Up to where a text could become a version, and why no further. */
static int explain_version(uint32 scheme, Span span) {
  size_t place = 0, len = 0;
  uint32_t reason;
  char why[100];
  versions_wrong(scheme, span.bytes, span.len, &place, &reason);
  versions_wrong_text(scheme, span.bytes, span.len, why, sizeof why, &len);
  return errdetail("At byte %zu: %.*s.", place, (int)len, why);
}

/* Whether a text is a version that is not too long. An input that is asked to goes on after the error. */
static bool is_value(fmNodePtr context, uint32 scheme, Span span) {
  if (!fits(context, span, type_names[scheme])) return false;
  if (!parses(scheme, span)) {
    ereturn(context, false,
            (errcode(ERRCODE_INVALID_TEXT_REPRESENTATION),
             errmsg("invalid input syntax for type %s: %s", type_names[scheme], quoted(span)),
             explain_version(scheme, span)));
  }
  return true;
}

static Datum version_of_input(FunctionCallInfo fcinfo, uint32 scheme) {
  char *bytes = PG_GETARG_CSTRING(0);
  Span span = {bytes, strlen(bytes)};
  if (!is_value(fcinfo->context, scheme, span)) return (Datum)0;
  PG_RETURN_TEXT_P(cstring_to_text_with_len(span.bytes, (int)span.len));
}

static Datum version_of_message(FunctionCallInfo fcinfo, uint32 scheme) {
  StringInfo message = (StringInfo)PG_GETARG_POINTER(0);
  int len;
  const char *bytes = pq_getmsgtext(message, message->len - message->cursor, &len);
  Span span = {bytes, (size_t)len};
  fits(NULL, span, type_names[scheme]);
  if (!parses(scheme, span)) {
    ereport(ERROR, (errcode(ERRCODE_INVALID_BINARY_REPRESENTATION),
                    errmsg("invalid binary representation of type %s: %s", type_names[scheme], quoted(span)),
                    explain_version(scheme, span)));
  }
  PG_RETURN_TEXT_P(cstring_to_text_with_len(span.bytes, len));
}

static Datum version_of_argument(FunctionCallInfo fcinfo, uint32 scheme) {
  text *value = PG_GETARG_TEXT_PP(0);
  if (!is_value(fcinfo->context, scheme, span_of(value))) return (Datum)0;
  PG_RETURN_TEXT_P(value);
}

/* The same, and NULL where the text is not a version. */
static Datum version_or_null(FunctionCallInfo fcinfo, uint32 scheme) {
  text *value = PG_GETARG_TEXT_PP(0);
  fits(NULL, span_of(value), type_names[scheme]);
  if (!parses(scheme, span_of(value))) PG_RETURN_NULL();
  PG_RETURN_TEXT_P(value);
}

/* The order of versions of a scheme. */

/* Compares two values of the type. Equal bytes are not parsed. */
static int32_t order_of(uint32 scheme, Span a, Span b) {
  int32_t order = 0;
  if (are_same(a, b)) return 0;
  switch (compare(scheme, a, b, &order)) {
    case VERSIONS_OK: break;
    case VERSIONS_NO_VERSION_B: report_damage(scheme, b); break;
    default: report_damage(scheme, a);
  }
  return order;
}

static int order_of_values(uint32 scheme, Datum a, Datum b) {
  text *first = DatumGetTextPP(a), *second = DatumGetTextPP(b);
  int32_t order = order_of(scheme, span_of(first), span_of(second));
  free_copy(first, a);
  free_copy(second, b);
  return order;
}

/* Defines the functions of the operators of an order, and that of an index. */
#define ORDER_FUNCTIONS(name, order, is_less)               \
  SQL_FUNCTION(name##_cmp) { PG_RETURN_INT32(order); }      \
  SQL_FUNCTION(name##_lt) { PG_RETURN_BOOL(is_less); }      \
  SQL_FUNCTION(name##_le) { PG_RETURN_BOOL((order) <= 0); } \
  SQL_FUNCTION(name##_eq) { PG_RETURN_BOOL((order) == 0); } \
  SQL_FUNCTION(name##_ge) { PG_RETURN_BOOL(!(is_less)); }   \
  SQL_FUNCTION(name##_gt) { PG_RETURN_BOOL((order) > 0); }

#define ORDER_OF_ARGUMENTS(scheme) order_of_values(scheme, PG_GETARG_DATUM(0), PG_GETARG_DATUM(1))

/* Hashes are of keys, so that versions that tie have the same hash. */

/* The key of a value of the type. */
static bytea *key_of_value(uint32 scheme, Datum value, KeyRoom *room) {
  text *version = DatumGetTextPP(value);
  bytea *key = key_of(scheme, span_of(version), room);
  if (!key) report_damage(scheme, span_of(version));
  free_copy(version, value);
  return key;
}

static Datum hash_of_argument(FunctionCallInfo fcinfo, uint32 scheme) {
  KeyRoom room;
  bytea *key = key_of_value(scheme, PG_GETARG_DATUM(0), &room);
  Datum hash = hash_any((const unsigned char *)VARDATA(key), VARSIZE(key) - VARHDRSZ);
  free_key(key, &room);
  return hash;
}

static Datum extended_hash_of_arguments(FunctionCallInfo fcinfo, uint32 scheme) {
  KeyRoom room;
  bytea *key = key_of_value(scheme, PG_GETARG_DATUM(0), &room);
  Datum hash = hash_any_extended((const unsigned char *)VARDATA(key), VARSIZE(key) - VARHDRSZ, PG_GETARG_INT64(1));
  free_key(key, &room);
  return hash;
}

/*
 * A sort compares 64 bits of each key, and compares versions only if these bits are equal. They are the first bits of a
 * code of the key that sorts as the key's bytes do. The bytes 0 to 3 and the digits, which most keys consist of, have
 * short codes. So 64 bits, eight plain bytes, distinguish most keys that differ in their first sixteen bytes.
 */

StaticAssertDecl(sizeof(Datum) == 8, "a processor that the library runs on has 64 bits");

/* The code of each byte: the first bits of a number. Codes sort as the bytes do, and no code is a prefix of another. */
static struct {
  uint64 code;
  int bits;
} codes[256];

static void make_codes(void) {
  unsigned byte;
  for (byte = 0; byte < lengthof(codes); byte++) {
    int bits = byte < 4 ? 3 : byte < '0' ? 12 : byte <= '9' ? 5 : 13;
    uint64 code = byte < 4 ? byte : byte < '0' ? 0x800 | byte : byte <= '9' ? 0x12 + (byte - '0') : 0x1c00 | byte;
    codes[byte].code = code << (64 - bits);
    codes[byte].bits = bits;
  }
}

/* The first 64 bits of the code of a key or of its beginning; a shorter code is followed by 0 bits. */
static uint64 beginning_of_code(Span key) {
  const unsigned char *byte = (const unsigned char *)key.bytes, *end = byte + key.len;
  uint64 beginning = 0;
  int bits = 0;
  for (; byte < end && bits < 64; byte++) {
    beginning |= codes[*byte].code >> bits;
    bits += codes[*byte].bits;
  }
  return beginning;
}


#if PG_VERSION_NUM < 150000
static int compare_abbreviated(Datum a, Datum b, SortSupport sort) {
  return a < b ? -1 : a > b;
}
#else
/* PostgreSQL has a faster sort for this function. */
#define compare_abbreviated ssup_datum_unsigned_cmp
#endif

/*
 * If these bits are equal, a sort compares few versions many times, such as the pre-releases of one version in many
 * rows. So it keeps the keys of recent versions, each at a place given by a hash of its text, and compares these keys.
 * Long versions are compared by their texts.
 */
typedef struct {
  uint8 len, key_len; /* len 0 is an unused place: no version is empty */
  char version[62];
  uint8 key[128];
} KeptKey;

enum { PLACES = 256 };

/* What a sort keeps: the scheme, and recent keys. */
typedef struct {
  uint32 scheme;
  KeptKey places[PLACES];
} Kept;

static KeptKey *place_of(Kept *kept, Span version) {
  return &kept->places[DatumGetUInt32(hash_any((const unsigned char *)version.bytes, (int)version.len)) % PLACES];
}

/* Puts the key of a version at the place if it fits. Returns whether the key is there. */
static bool keeps_key(uint32 scheme, KeptKey *place, Span version) {
  size_t len;
  if (version.len > sizeof place->version) return false;
  if (place->len == version.len && memcmp(place->version, version.bytes, version.len) == 0) return true;
  if (write_key(scheme, version, place->key, sizeof place->key, &len) != VERSIONS_OK) return false;
  memcpy(place->version, version.bytes, version.len);
  place->len = (uint8)version.len;
  place->key_len = (uint8)len;
  return true;
}

static int order_by_kept_keys(Kept *kept, Span a, Span b) {
  KeptKey *first, *second;
  if (are_same(a, b)) return 0;
  first = place_of(kept, a);
  second = place_of(kept, b);
  if (first == second || !keeps_key(kept->scheme, first, a) || !keeps_key(kept->scheme, second, b)) {
    return order_of(kept->scheme, a, b);
  }
  /* no key is a prefix of another */
  return memcmp(first->key, second->key, Min(first->key_len, second->key_len));
}

static int compare_in_sort(Datum a, Datum b, SortSupport sort) {
  text *first = DatumGetTextPP(a), *second = DatumGetTextPP(b);
  int order = order_by_kept_keys(sort->ssup_extra, span_of(first), span_of(second));
  free_copy(first, a);
  free_copy(second, b);
  return order;
}

static Datum abbreviate(Datum value, SortSupport sort) {
  KeyRoom room;
  bytea *key = key_of_value(((Kept *)sort->ssup_extra)->scheme, value, &room);
  uint64 beginning = beginning_of_code(span_of(key));
  free_key(key, &room);
  return UInt64GetDatum(beginning);
}

/* Making a key costs less than comparing two texts once, so a sort never gives up its keys. */
static bool never_abort(int count, SortSupport sort) { return false; }

static Datum support_sort(FunctionCallInfo fcinfo, uint32 scheme) {
  SortSupport sort = (SortSupport)PG_GETARG_POINTER(0);
  Kept *kept = MemoryContextAllocZero(sort->ssup_cxt, sizeof *kept);
  kept->scheme = scheme;
  sort->ssup_extra = kept;
  sort->comparator = compare_in_sort;
  if (sort->abbreviate) {
    sort->abbrev_converter = abbreviate;
    sort->abbrev_abort = never_abort;
    sort->abbrev_full_comparator = compare_in_sort;
    sort->comparator = compare_abbreviated;
  }
  PG_RETURN_VOID();
}

/*
 * The type `requirement`: a list of requirements, with the range of keys that it asks for, and the members that decide
 * about a version of the range, a list as well, if the range is not exact. Each version that the list matches is in its
 * range. Both are made once, by the input.
 */

/*
 * A value begins with this; then come the bytes of the low bound, those of the high one, the members that decide, and
 * the list, which is left out if these are all its members. So the beginning of a long value is enough for a match.
 */
typedef struct {
  uint32 flags, low_len, high_len, members_len;
} RequirementHead;

/* A range of keys of a scheme, and its flags, as versions_range has them. */
typedef struct {
  uint32 scheme, flags;
  Span low, high;
} Range;

typedef struct {
  Range range;
  Span members, list;
} Requirement;

enum {
  ALL_KINDS = VERSIONS_RANGE_IDEAL | VERSIONS_RANGE_GENERAL | VERSIONS_RANGE_COMPLEX,
  ALL_FLAGS = ALL_KINDS | VERSIONS_RANGE_HIGH | VERSIONS_RANGE_EXACT
};

/* The head of a value. */
static RequirementHead head_of(const struct varlena *value) {
  RequirementHead head;
  if (VARSIZE_ANY_EXHDR(value) < sizeof head) report_damaged_requirement();
  memcpy(&head, VARDATA_ANY(value), sizeof head);
  return head;
}

/* How many bytes of a value are before its list. */
static size_t len_before_list(RequirementHead head) {
  return sizeof head + head.low_len + head.high_len + head.members_len;
}

static Requirement requirement_of(const struct varlena *value) {
  size_t len = VARSIZE_ANY_EXHDR(value), before_list;
  RequirementHead head = head_of(value);
  Requirement requirement;
  before_list = len_before_list(head);
  if (len < before_list || head.flags > ALL_FLAGS || (head.high_len && !(head.flags & VERSIONS_RANGE_HIGH)) ||
      (head.flags & VERSIONS_RANGE_EXACT ? head.members_len || len == before_list : !head.members_len)) {
    report_damaged_requirement();
  }
  requirement.range.scheme = VERSIONS_MIXED;
  requirement.range.flags = head.flags;
  requirement.range.low.bytes = VARDATA_ANY(value) + sizeof head;
  requirement.range.low.len = head.low_len;
  requirement.range.high.bytes = requirement.range.low.bytes + head.low_len;
  requirement.range.high.len = head.high_len;
  requirement.members.bytes = requirement.range.high.bytes + head.high_len;
  requirement.members.len = head.members_len;
  requirement.list.bytes = requirement.members.bytes + head.members_len;
  requirement.list.len = len - before_list;
  if (requirement.list.len == 0) requirement.list = requirement.members;
  return requirement;
}

/*
 * What is before the list of a value, for a match or for bounds. No more is read of a long value that is compressed or
 * stored out of line: the list may be cut short.
 */
static bytea *beginning_of(Datum value) {
  const size_t first = 1024;
  struct varlena *stored = (struct varlena *)DatumGetPointer(value);
  bytea *beginning;
  size_t len;
  if (!VARATT_IS_COMPRESSED(stored) && !VARATT_IS_EXTERNAL(stored)) return DatumGetByteaPP(value);
  beginning = DatumGetByteaPSlice(value, 0, first);
  if (VARSIZE_ANY_EXHDR(beginning) < first) return beginning;
  /* with a byte of the list: what has none is a value whose list is left out */
  len = len_before_list(head_of(beginning)) + 1;
  if (len <= first) return beginning;
  pfree(beginning);
  return DatumGetByteaPSlice(value, 0, Min(len, toast_raw_datum_size(value) - VARHDRSZ));
}

/* The value of a list that is not too long. NULL if that does not parse. */
static bytea *requirement_from(Span list) {
  uint8_t low_room[256], high_room[256], *low = low_room, *high = high_room;
  size_t low_len, high_len, members_len;
  uint32_t flags;
  RequirementHead head;
  bytea *value;
  char *end;
  int status;
  status = versions_range(list.bytes, list.len, low, sizeof low_room, &low_len, high, sizeof high_room, &high_len,
                          &flags);
  if (status == VERSIONS_NO_ROOM) {
    low = palloc(low_len);
    high = palloc(high_len);
    status = versions_range(list.bytes, list.len, low, low_len, &low_len, high, high_len, &high_len, &flags);
  }
  if (status != VERSIONS_OK) return NULL;
  if (!(flags & VERSIONS_RANGE_HIGH)) high_len = 0;
  value = palloc(VARHDRSZ + sizeof head + low_len + high_len + 2 * list.len);
  end = VARDATA(value) + sizeof head;
  end = (char *)memcpy(end, low, low_len) + low_len;
  end = (char *)memcpy(end, high, high_len) + high_len;
  versions_inexact(list.bytes, list.len, end, list.len, &members_len);
  end += members_len;
  /* members of the list's length are the list */
  if (members_len < list.len) end = (char *)memcpy(end, list.bytes, list.len) + list.len;
  head.flags = flags;
  head.low_len = (uint32)low_len;
  head.high_len = (uint32)high_len;
  head.members_len = (uint32)members_len;
  memcpy(VARDATA(value), &head, sizeof head);
  SET_VARSIZE(value, end - (char *)value);
  if (low != low_room) pfree(low);
  if (high != high_room) pfree(high);
  return value;
}

/* The value of a list, for an input. NULL after an error, if the context asks to go on. */
static bytea *requirement_of_input(fmNodePtr context, Span list) {
  bytea *value;
  if (!fits(context, list, "requirement")) return NULL;
  value = requirement_from(list);
  if (!value) {
    ereturn(context, NULL,
            (errcode(ERRCODE_INVALID_TEXT_REPRESENTATION),
             errmsg("invalid input syntax for type requirement: %s", quoted(list)), explain(list)));
  }
  return value;
}

/* A cast of a text calls this for each row. */
SQL_FUNCTION(requirement_in) {
  char *bytes = PG_GETARG_CSTRING(0);
  Span list = {bytes, strlen(bytes)};
  bytea *value = last_read(fcinfo, VERSIONS_MIXED, list);
  if (value) PG_RETURN_BYTEA_P(copy_of(value));
  value = requirement_of_input(fcinfo->context, list);
  if (!value) return (Datum)0;
  keep_read(fcinfo, VERSIONS_MIXED, list, value);
  PG_RETURN_BYTEA_P(value);
}

SQL_FUNCTION(requirement_recv) {
  StringInfo message = (StringInfo)PG_GETARG_POINTER(0);
  int len;
  const char *bytes = pq_getmsgtext(message, message->len - message->cursor, &len);
  Span list = {bytes, (size_t)len};
  bytea *value;
  fits(NULL, list, "requirement");
  value = requirement_from(list);
  if (!value) {
    ereport(ERROR,
            (errcode(ERRCODE_INVALID_BINARY_REPRESENTATION),
             errmsg("invalid binary representation of type requirement: %s", quoted(list)), explain(list)));
  }
  PG_RETURN_BYTEA_P(value);
}

SQL_FUNCTION(requirement_out) {
  Span list = requirement_of(PG_GETARG_BYTEA_PP(0)).list;
  PG_RETURN_CSTRING(pnstrdup(list.bytes, list.len));
}

SQL_FUNCTION(requirement_send) {
  Span list = requirement_of(PG_GETARG_BYTEA_PP(0)).list;
  PG_RETURN_TEXT_P(cstring_to_text_with_len(list.bytes, (int)list.len));
}

/* Compares bytes: a shorter text that is a prefix comes first. */
static int order_of_bytes(Span a, Span b) {
  int order = memcmp(a.bytes, b.bytes, Min(a.len, b.len));
  if (order == 0) order = a.len < b.len ? -1 : a.len > b.len;
  return order;
}

/* The order of requirements is that of the bytes of their lists, and equal lists are equal. */
static int order_of_lists(Datum a, Datum b) {
  bytea *first = DatumGetByteaPP(a), *second = DatumGetByteaPP(b);
  int order = order_of_bytes(requirement_of(first).list, requirement_of(second).list);
  free_copy(first, a);
  free_copy(second, b);
  return order;
}

#define ORDER_OF_LISTS order_of_lists(PG_GETARG_DATUM(0), PG_GETARG_DATUM(1))

ORDER_FUNCTIONS(requirement, ORDER_OF_LISTS, ORDER_OF_LISTS < 0)
SQL_FUNCTION(requirement_ne) { PG_RETURN_BOOL(ORDER_OF_LISTS != 0); }

SQL_FUNCTION(requirement_hash) {
  bytea *value = PG_GETARG_BYTEA_PP(0);
  Span list = requirement_of(value).list;
  Datum hash = hash_any((const unsigned char *)list.bytes, (int)list.len);
  PG_FREE_IF_COPY(value, 0);
  return hash;
}

SQL_FUNCTION(requirement_hash_extended) {
  bytea *value = PG_GETARG_BYTEA_PP(0);
  Span list = requirement_of(value).list;
  Datum hash = hash_any_extended((const unsigned char *)list.bytes, (int)list.len, PG_GETARG_INT64(1));
  PG_FREE_IF_COPY(value, 0);
  return hash;
}

/* Whether a text matches the list of a value: true only of a version. */
static bool match(const bytea *value, Span span, int *status) {
  Requirement requirement = requirement_of(value);
  Range range = requirement.range;
  bool matches = false;
  *status = versions_match_in_range(span.bytes, span.len, (const uint8_t *)range.low.bytes, range.low.len,
                                    (const uint8_t *)range.high.bytes, range.high.len, range.flags,
                                    requirement.members.bytes, requirement.members.len, &matches);
  if (*status == VERSIONS_NO_REQUIREMENTS) report_damaged_requirement();
  return matches;
}

static bytea *read_beginning(uint32 scheme, Datum value) { return beginning_of(value); }

static Datum matches(FunctionCallInfo fcinfo, Datum version, Datum list) {
  bytea *value = is_whole_value(list) ? DatumGetByteaPP(list) : read_once(fcinfo, read_beginning, 0, list);
  text *bytes = DatumGetTextPP(version);
  int status;
  bool matches = match(value, span_of(bytes), &status);
  if (status != VERSIONS_OK) report_damage(VERSIONS_MIXED, span_of(bytes));
  free_copy(bytes, version);
  PG_RETURN_BOOL(matches);
}

SQL_FUNCTION(version_matches) { return matches(fcinfo, PG_GETARG_DATUM(1), PG_GETARG_DATUM(0)); }
SQL_FUNCTION(version_matched_by) { return matches(fcinfo, PG_GETARG_DATUM(0), PG_GETARG_DATUM(1)); }

/* Reads a text as a list, for a function; and as a cast does, which fails as the input of the type. */
static bytea *read_list(uint32 scheme, Datum argument) {
  text *list = DatumGetTextPP(argument);
  bytea *value = requirement_from(span_of(list));
  if (!value) report_no_requirement(span_of(list));
  free_copy(list, argument);
  return value;
}

static bytea *cast_list(uint32 scheme, Datum argument) {
  text *list = DatumGetTextPP(argument);
  bytea *value = requirement_of_input(NULL, span_of(list));
  free_copy(list, argument);
  return value;
}

/* Fails for a text that is too long for a requirement. */
static void check_list(Datum argument) {
  Span list = {NULL, toast_raw_datum_size(argument) - VARHDRSZ};
  fits(NULL, list, "requirement");
}

/*
 * Whether a text matches a list. A list that was not given last is read with the text, in one pass; only one that is
 * given again is read to be kept, unless it is too long. So it costs little that each row of a column has another.
 */
static bool match_list(FunctionCallInfo fcinfo, Reading *read, Datum argument, Span span, int *status) {
  Span given = given_as(argument), list;
  LastRead *last = last_given(fcinfo, VERSIONS_MIXED, given);
  bool matches = false;
  if (last && !last->value) keep_read(fcinfo, VERSIONS_MIXED, given, read(VERSIONS_MIXED, argument));
  if (last) return match(last_read(fcinfo, VERSIONS_MIXED, given), span, status);
  list = span_of(DatumGetTextPP(argument));
  *status = versions_matches(list.bytes, list.len, span.bytes, span.len, &matches);
  if (*status == VERSIONS_NO_REQUIREMENTS) read(VERSIONS_MIXED, argument);
  if (list.len <= LONGEST) keep_read(fcinfo, VERSIONS_MIXED, given, NULL);
  return matches;
}

SQL_FUNCTION(version_matches_text) {
  int status;
  bool matches = match_list(fcinfo, read_list, PG_GETARG_DATUM(0), span_of(PG_GETARG_TEXT_PP(1)), &status);
  if (status != VERSIONS_OK) PG_RETURN_NULL();
  PG_RETURN_BOOL(matches);
}

/* A text that is a list for a version. Of a constant the planner makes a requirement, with a cast: it fails as that. */
SQL_FUNCTION(version_matches_cast) {
  Span span = span_of(PG_GETARG_TEXT_PP(1));
  int status;
  bool matches;
  check_list(PG_GETARG_DATUM(0));
  matches = match_list(fcinfo, cast_list, PG_GETARG_DATUM(0), span, &status);
  if (status != VERSIONS_OK) report_damage(VERSIONS_MIXED, span);
  PG_RETURN_BOOL(matches);
}

SQL_FUNCTION(version_why_not) {
  Span list = requirement_of(whole_once(fcinfo, PG_GETARG_DATUM(0))).list, span = span_of(PG_GETARG_TEXT_PP(1));
  int status;
  Datum why = why_not(list, span, &status);
  if (status == VERSIONS_NO_REQUIREMENTS) report_damaged_requirement();
  if (status == VERSIONS_NO_VERSION) report_damage(VERSIONS_MIXED, span);
  if (status != VERSIONS_OK) PG_RETURN_NULL();
  return why;
}

/*
 * The type `version_bound`: a bound of a range. Its bytes compare with the key of a version. So versions of a scheme
 * and bounds are in one order, that of bytes, and are of one operator family: versions that tie have the same key, and
 * are on the same side of each bound. A value is one byte, which is 1 for the bound above every key, and otherwise 0;
 * then the bytes.
 */

typedef struct {
  bool is_above_all;
  Span bytes;
} Bound;

static Bound bound_in(const struct varlena *value) {
  Span all = span_of(value);
  Bound bound;
  if (all.len == 0 || (all.bytes[0] != 0 && (all.bytes[0] != 1 || all.len != 1))) report_damaged_bound();
  bound.is_above_all = all.bytes[0];
  bound.bytes.bytes = all.bytes + 1;
  bound.bytes.len = all.len - 1;
  return bound;
}

static Datum bound_from(bool is_above_all, Span bytes) {
  bytea *bound = palloc(VARHDRSZ + 1 + bytes.len);
  SET_VARSIZE(bound, VARHDRSZ + 1 + bytes.len);
  VARDATA(bound)[0] = is_above_all;
  memcpy(VARDATA(bound) + 1, bytes.bytes, bytes.len);
  PG_RETURN_BYTEA_P(bound);
}

static Datum bound_of_range(Range range, bool is_high) {
  return is_high ? bound_from(!(range.flags & VERSIONS_RANGE_HIGH), range.high) : bound_from(false, range.low);
}

static Range range_of_argument(FunctionCallInfo fcinfo) {
  return requirement_of(beginning_of(PG_GETARG_DATUM(0))).range;
}

SQL_FUNCTION(requirement_low) { return bound_of_range(range_of_argument(fcinfo), false); }
SQL_FUNCTION(requirement_high) { return bound_of_range(range_of_argument(fcinfo), true); }

/*
 * The bounds as bytes, for an index of the keys of texts. The one above every key is the byte 255, which is above the
 * key of each version whose epoch has fewer than 255 digits.
 */

static Datum bytes_of(Span bytes) {
  return PointerGetDatum(cstring_to_text_with_len(bytes.bytes, (int)bytes.len));
}

static Datum low_bytes(Range range) { return bytes_of(range.low); }

static Datum high_bytes(Range range) {
  static const Span above_all = {"\xff", 1};
  return bytes_of(range.flags & VERSIONS_RANGE_HIGH ? range.high : above_all);
}

static Range range_of_list(FunctionCallInfo fcinfo) {
  check_list(PG_GETARG_DATUM(0));
  return requirement_of(read_once(fcinfo, read_list, VERSIONS_MIXED, PG_GETARG_DATUM(0))).range;
}

SQL_FUNCTION(version_low) { return low_bytes(range_of_argument(fcinfo)); }
SQL_FUNCTION(version_high) { return high_bytes(range_of_argument(fcinfo)); }
SQL_FUNCTION(version_low_text) { return low_bytes(range_of_list(fcinfo)); }
SQL_FUNCTION(version_high_text) { return high_bytes(range_of_list(fcinfo)); }

/* What the output writes. */
SQL_FUNCTION(version_bound_in) {
  char *digits = PG_GETARG_CSTRING(0);
  Span written = {digits, strlen(digits)}, bytes;
  if (strcmp(digits, "infinity") == 0) {
    written.len = 0;
    return bound_from(true, written);
  }
  if (written.len % 2 || strspn(digits, "0123456789abcdefABCDEF") != written.len) {
    ereturn(fcinfo->context, (Datum)0,
            (errcode(ERRCODE_INVALID_TEXT_REPRESENTATION),
             errmsg("invalid input syntax for type version_bound: %s", quoted(written)),
             errhint("A bound is pairs of hexadecimal digits, or infinity.")));
  }
  bytes.bytes = palloc(written.len / 2 + 1);
  bytes.len = hex_decode(written.bytes, written.len, (char *)bytes.bytes);
  return bound_from(false, bytes);
}

/* Hexadecimal digits, or the word `infinity`. */
SQL_FUNCTION(version_bound_out) {
  Bound bound = bound_in(PG_GETARG_BYTEA_PP(0));
  char *digits;
  if (bound.is_above_all) PG_RETURN_CSTRING(pstrdup("infinity"));
  digits = palloc(2 * bound.bytes.len + 1);
  digits[hex_encode(bound.bytes.bytes, bound.bytes.len, digits)] = 0;
  PG_RETURN_CSTRING(digits);
}

/* Compares the key of a version with a bound. */
static int order_with_bound(uint32 scheme, Datum version, Datum value) {
  bytea *bytes = DatumGetByteaPP(value), *key;
  Bound bound = bound_in(bytes);
  KeyRoom room;
  int order = -1;
  if (!bound.is_above_all) {
    key = key_of_value(scheme, version, &room);
    order = order_of_bytes(span_of(key), bound.bytes);
    free_key(key, &room);
  }
  free_copy(bytes, value);
  return order;
}

/*
 * Whether the key of a version is below a bound. In mixed no key is made: the scan of an index calls this for each row.
 */
static bool is_below(uint32 scheme, Datum version, Datum value) {
  text *text_of_version;
  bytea *bytes;
  Span span;
  Bound bound;
  bool is_below = true;
  if (scheme != VERSIONS_MIXED) return order_with_bound(scheme, version, value) < 0;
  text_of_version = DatumGetTextPP(version);
  bytes = DatumGetByteaPP(value);
  span = span_of(text_of_version);
  bound = bound_in(bytes);
  if (!bound.is_above_all &&
      versions_in_range(span.bytes, span.len, NULL, 0, (const uint8_t *)bound.bytes.bytes, bound.bytes.len,
                        ALL_KINDS | VERSIONS_RANGE_HIGH, &is_below) != VERSIONS_OK) {
    report_damage(scheme, span);
  }
  free_copy(text_of_version, version);
  free_copy(bytes, value);
  return is_below;
}

/* Compares two bounds: the one above every key is the last. */
static int order_of_bounds(Datum a, Datum b) {
  bytea *first = DatumGetByteaPP(a), *second = DatumGetByteaPP(b);
  Bound x = bound_in(first), y = bound_in(second);
  int order = (int)x.is_above_all - (int)y.is_above_all;
  if (order == 0) order = order_of_bytes(x.bytes, y.bytes);
  free_copy(first, a);
  free_copy(second, b);
  return order;
}

#define ORDER_OF_BOUNDS order_of_bounds(PG_GETARG_DATUM(0), PG_GETARG_DATUM(1))
#define ORDER_WITH_BOUND(scheme, version, bound) \
  order_with_bound(scheme, PG_GETARG_DATUM(version), PG_GETARG_DATUM(bound))

ORDER_FUNCTIONS(bounds, ORDER_OF_BOUNDS, ORDER_OF_BOUNDS < 0)

/*
 * The type `version_set`: a set of versions of a scheme. A value is the length of its form, the form, and the text that
 * was read as the set: as it was written, but with the scheme in front where that was given beside it. A computed set
 * has no text, and is printed as its form. Sets are equal if their forms are.
 */

typedef struct {
  uint32 scheme;
  Span form, text;
} Set;

static const uint8_t *octets(Span span) { return (const uint8_t *)span.bytes; }

static Set set_of(const struct varlena *value) {
  Span all = span_of(value);
  uint32 form_len;
  Set set;
  if (all.len < sizeof form_len) report_damaged_set();
  memcpy(&form_len, all.bytes, sizeof form_len);
  if (form_len > all.len - sizeof form_len) report_damaged_set();
  set.form.bytes = all.bytes + sizeof form_len;
  set.form.len = form_len;
  set.text.bytes = set.form.bytes + form_len;
  set.text.len = all.len - sizeof form_len - form_len;
  if (versions_set_scheme(octets(set.form), set.form.len, &set.scheme) != VERSIONS_OK) report_damaged_set();
  return set;
}

/*
 * The longest form of a computed set, in bytes. It prints as two digits for each, which its input, a copy and a dump
 * take. That of a set with a text may be longer, as it prints as its text.
 */
enum { LONGEST_FORM = 4 * LONGEST };

static bool form_fits(fmNodePtr context, size_t len) {
  if (len > LONGEST_FORM) {
    ereturn(context, false,
            (errcode(ERRCODE_PROGRAM_LIMIT_EXCEEDED),
             errmsg("a form of %zu bytes is too long for a version_set", len),
             errdetail("The longest form of a computed set has %d bytes.", LONGEST_FORM)));
  }
  return true;
}

/* A value with room for a form. */
static bytea *value_for(size_t room) {
  return MemoryContextAllocHuge(CurrentMemoryContext, VARHDRSZ + sizeof(uint32) + room);
}

static uint8_t *form_in(bytea *value) { return (uint8_t *)VARDATA(value) + sizeof(uint32); }

/* Says how long the form in a value is, and what follows it. */
static bytea *with_form(bytea *value, size_t form_len, size_t text_len) {
  uint32 len = (uint32)form_len;
  if (text_len == 0) form_fits(NULL, form_len);
  memcpy(VARDATA(value), &len, sizeof len);
  SET_VARSIZE(value, VARHDRSZ + sizeof len + form_len + text_len);
  return value;
}

/* Why a text, or the rest of it, is not a set. */
static int explain_set(uint32 scheme, Span text, size_t from) {
  size_t place = 0, len = 0;
  uint32_t reason;
  char why[100];
  versions_set_wrong(scheme, text.bytes + from, text.len - from, &place, &reason);
  versions_set_wrong_text(scheme, text.bytes + from, text.len - from, why, sizeof why, &len);
  return errdetail("At byte %zu: %.*s.", from + place, (int)len, why);
}

/* How an error names what is no set: that of the type's input, or that of a function. */
typedef struct {
  int code;
  const char *what;
} Refusal;

static const Refusal of_input = {ERRCODE_INVALID_TEXT_REPRESENTATION, "invalid input syntax for type version_set"};
static const Refusal of_message = {ERRCODE_INVALID_BINARY_REPRESENTATION,
                                   "invalid binary representation of type version_set"};
static const Refusal of_function = {ERRCODE_INVALID_PARAMETER_VALUE, "not a set of versions"};

static bool is_letter(char byte) { return (byte >= 'a' && byte <= 'z') || (byte >= 'A' && byte <= 'Z'); }

/*
 * How long the scheme in front of a text is, as in deb:>=1, with its colon; 0 where none is. It begins with a letter,
 * and goes on with letters, digits and dots. No set begins so.
 */
static size_t len_of_scheme(Span text) {
  size_t len = 0;
  while (len < text.len && (is_letter(text.bytes[len]) ||
                            (len > 0 && (text.bytes[len] == '.' || isdigit((unsigned char)text.bytes[len]))))) {
    len++;
  }
  return len > 0 && len < text.len && text.bytes[len] == ':' ? len + 1 : 0;
}

static bool are_hexadecimal(Span digits) {
  size_t at;
  for (at = 0; at < digits.len; at++) {
    if (!isxdigit((unsigned char)digits.bytes[at])) return false;
  }
  return digits.len % 2 == 0;
}

/* The value of a form in hexadecimal digits; NULL where they are none, or no form. */
static bytea *set_of_digits(Span digits) {
  size_t len = digits.len / 2, count;
  bytea *value;
  if (!are_hexadecimal(digits)) return NULL;
  value = value_for(len);
  hex_decode(digits.bytes, digits.len, (char *)form_in(value));
  return versions_set_count(form_in(value), len, &count) == VERSIONS_OK ? with_form(value, len, 0) : NULL;
}

/*
 * The value of a text that is a set from a place on, before which its scheme stands; NULL where it is none. It prints
 * with what is put in front.
 */
static bytea *set_of_words(uint32 scheme, const char *front, Span text, size_t from) {
  size_t bound = 0, form_len, front_len = strlen(front);
  uint8_t *form;
  bytea *value = NULL;
  versions_set_bound(scheme, text.bytes + from, text.len - from, &bound);
  form = MemoryContextAllocHuge(CurrentMemoryContext, bound);
  if (versions_set(scheme, text.bytes + from, text.len - from, form, bound, &form_len) == VERSIONS_OK) {
    char *end;
    value = value_for(form_len + front_len + text.len);
    end = (char *)memcpy(form_in(value), form, form_len) + form_len;
    end = (char *)memcpy(end, front, front_len) + front_len;
    memcpy(end, text.bytes, text.len);
    with_form(value, form_len, front_len + text.len);
  }
  pfree(form);
  return value;
}

/*
 * The value of a text: of a set of a scheme, or of the scheme in front of it, or the form of a computed set, as the
 * output writes it. NULL after an error, if the context asks to go on.
 */
static bytea *set_from(fmNodePtr context, Refusal refusal, uint32 scheme, Span text) {
  size_t from = len_of_scheme(text);
  Span name = {text.bytes, from > 0 ? from - 1 : 0}, printed = text;
  const char *front;
  bytea *value;
  if (text.len >= 2 && text.bytes[0] == '\\' && text.bytes[1] == 'x') {
    Span digits = {text.bytes + 2, text.len - 2};
    if (!form_fits(context, digits.len / 2)) return NULL;
    value = set_of_digits(digits);
    if (!value) {
      ereturn(context, NULL, (errcode(refusal.code), errmsg("%s: %s", refusal.what, quoted(text)),
                              errdetail("What follows \\x is not the form of a set.")));
    }
    return value;
  }
  if (from > 0 && versions_scheme(name.bytes, name.len, &scheme) != VERSIONS_OK) {
    ereturn(context, NULL, (errcode(refusal.code), errmsg("%s: %s", refusal.what, quoted(text)),
                            errdetail("A %s.", not_a_scheme(name))));
  }
  front = from == 0 && scheme != VERSIONS_MIXED ? psprintf("%s:", name_of(scheme)) : "";
  printed.len += strlen(front);
  if (!fits(context, printed, "version_set")) return NULL;
  value = set_of_words(scheme, front, text, from);
  if (!value) {
    ereturn(context, NULL, (errcode(refusal.code), errmsg("%s: %s", refusal.what, quoted(text)),
                            explain_set(scheme, text, from)));
  }
  return value;
}

/* A cast of a text calls this for each row. */
SQL_FUNCTION(version_set_in) {
  char *bytes = PG_GETARG_CSTRING(0);
  Span text = {bytes, strlen(bytes)};
  bytea *value = last_read(fcinfo, VERSIONS_MIXED, text);
  if (value) PG_RETURN_BYTEA_P(copy_of(value));
  value = set_from(fcinfo->context, of_input, VERSIONS_MIXED, text);
  if (!value) return (Datum)0;
  keep_read(fcinfo, VERSIONS_MIXED, text, value);
  PG_RETURN_BYTEA_P(value);
}

SQL_FUNCTION(version_set_recv) {
  StringInfo message = (StringInfo)PG_GETARG_POINTER(0);
  int len;
  const char *bytes = pq_getmsgtext(message, message->len - message->cursor, &len);
  Span text = {bytes, (size_t)len};
  PG_RETURN_BYTEA_P(set_from(NULL, of_message, VERSIONS_MIXED, text));
}

/* The text of a set, or its form after \x, in memory of its own and with a byte 0 behind it. */
static Span said_of_set(Set set) {
  Span said = {NULL, set.text.len > 0 ? set.text.len : 2 + 2 * set.form.len};
  char *bytes = palloc(said.len + 1);
  if (set.text.len > 0) {
    memcpy(bytes, set.text.bytes, said.len);
  } else {
    memcpy(bytes, "\\x", 2);
    hex_encode(set.form.bytes, set.form.len, bytes + 2);
  }
  bytes[said.len] = 0;
  said.bytes = bytes;
  return said;
}

SQL_FUNCTION(version_set_out) { PG_RETURN_CSTRING(said_of_set(set_of(PG_GETARG_BYTEA_PP(0))).bytes); }
SQL_FUNCTION(version_set_send) { return bytes_of(said_of_set(set_of(PG_GETARG_BYTEA_PP(0)))); }

/* Reads a text as a set of a scheme, or of that in front of it. */
static bytea *read_set(uint32 scheme, Datum argument) {
  text *words = DatumGetTextPP(argument);
  bytea *value = set_from(NULL, of_function, scheme, span_of(words));
  free_copy(words, argument);
  return value;
}

SQL_FUNCTION(version_set_of_text) {
  uint32 scheme = scheme_of(span_of(PG_GETARG_TEXT_PP(1)));
  bytea *value = read_once(fcinfo, read_set, scheme, PG_GETARG_DATUM(0));
  check_scheme(scheme, set_of(value).scheme);
  PG_RETURN_BYTEA_P(copy_of(value));
}

SQL_FUNCTION(version_set_scheme) {
  PG_RETURN_TEXT_P(cstring_to_text(name_of(set_of(PG_GETARG_BYTEA_PP(0)).scheme)));
}

/* The order of sets is that of the bytes of their forms, for indexes and what sorts: it says nothing of versions. */
static int order_of_sets(Datum a, Datum b) {
  bytea *first = DatumGetByteaPP(a), *second = DatumGetByteaPP(b);
  int order = order_of_bytes(set_of(first).form, set_of(second).form);
  free_copy(first, a);
  free_copy(second, b);
  return order;
}

#define ORDER_OF_SETS order_of_sets(PG_GETARG_DATUM(0), PG_GETARG_DATUM(1))

ORDER_FUNCTIONS(version_set, ORDER_OF_SETS, ORDER_OF_SETS < 0)
SQL_FUNCTION(version_set_ne) { PG_RETURN_BOOL(ORDER_OF_SETS != 0); }

SQL_FUNCTION(version_set_hash) {
  bytea *value = PG_GETARG_BYTEA_PP(0);
  Span form = set_of(value).form;
  Datum hash = hash_any(octets(form), (int)form.len);
  PG_FREE_IF_COPY(value, 0);
  return hash;
}

SQL_FUNCTION(version_set_hash_extended) {
  bytea *value = PG_GETARG_BYTEA_PP(0);
  Span form = set_of(value).form;
  Datum hash = hash_any_extended(octets(form), (int)form.len, PG_GETARG_INT64(1));
  PG_FREE_IF_COPY(value, 0);
  return hash;
}

/* versions_set_part_of or versions_set_meets */
typedef int Testing(const uint8_t *, size_t, const uint8_t *, size_t, bool *);

static Datum test_sets(Testing *test, Datum first, Datum second) {
  Set one = set_of(DatumGetByteaPP(first)), other = set_of(DatumGetByteaPP(second));
  bool answer = false;
  check_scheme(one.scheme, other.scheme);
  if (test(octets(one.form), one.form.len, octets(other.form), other.form.len, &answer) != VERSIONS_OK) {
    report_damaged_set();
  }
  PG_RETURN_BOOL(answer);
}

SQL_FUNCTION(version_set_contains) {
  return test_sets(versions_set_part_of, PG_GETARG_DATUM(1), PG_GETARG_DATUM(0));
}
SQL_FUNCTION(version_set_contained_by) {
  return test_sets(versions_set_part_of, PG_GETARG_DATUM(0), PG_GETARG_DATUM(1));
}
SQL_FUNCTION(version_set_overlaps) {
  return test_sets(versions_set_meets, PG_GETARG_DATUM(0), PG_GETARG_DATUM(1));
}

/* versions_set_and or versions_set_or */
typedef int Merging(const uint8_t *, size_t, const uint8_t *, size_t, uint8_t *, size_t, size_t *);

static bytea *merged(Merging *merge, Set one, Set other) {
  size_t most = one.form.len + other.form.len, len;
  bytea *value;
  check_scheme(one.scheme, other.scheme);
  value = value_for(most);
  if (merge(octets(one.form), one.form.len, octets(other.form), other.form.len, form_in(value), most, &len) !=
      VERSIONS_OK) {
    report_damaged_set();
  }
  return with_form(value, len, 0);
}

static bytea *complement_of(Set set) {
  size_t most = set.form.len + 17, len;
  bytea *value = value_for(most);
  if (versions_set_not(octets(set.form), set.form.len, form_in(value), most, &len) != VERSIONS_OK) {
    report_damaged_set();
  }
  return with_form(value, len, 0);
}

SQL_FUNCTION(version_set_intersect) {
  PG_RETURN_BYTEA_P(merged(versions_set_and, set_of(PG_GETARG_BYTEA_PP(0)), set_of(PG_GETARG_BYTEA_PP(1))));
}
SQL_FUNCTION(version_set_union) {
  PG_RETURN_BYTEA_P(merged(versions_set_or, set_of(PG_GETARG_BYTEA_PP(0)), set_of(PG_GETARG_BYTEA_PP(1))));
}
SQL_FUNCTION(version_set_minus) {
  Set rest = set_of(complement_of(set_of(PG_GETARG_BYTEA_PP(1))));
  PG_RETURN_BYTEA_P(merged(versions_set_and, set_of(PG_GETARG_BYTEA_PP(0)), rest));
}
SQL_FUNCTION(version_set_complement) { PG_RETURN_BYTEA_P(complement_of(set_of(PG_GETARG_BYTEA_PP(0)))); }

/* The sets that functions are given beside a version: as a text, and as a value. */
static Set set_of_text(FunctionCallInfo fcinfo, uint32 scheme, Datum argument) {
  return set_of(read_once(fcinfo, read_set, scheme, argument));
}
static Set set_of_value(FunctionCallInfo fcinfo, Datum argument) { return set_of(whole_once(fcinfo, argument)); }

/* Whether a text is a version in a set, by the scheme of the set. NULL if it is not a version. */
static Datum has_text(FunctionCallInfo fcinfo, Set set, Span version) {
  bool has = false;
  switch (versions_set_has(octets(set.form), set.form.len, version.bytes, version.len, &has)) {
    case VERSIONS_OK: PG_RETURN_BOOL(has);
    case VERSIONS_NO_VERSION: PG_RETURN_NULL();
  }
  report_damaged_set();
  PG_RETURN_NULL();
}

SQL_FUNCTION(text_in_set_text) {
  Set set = set_of_text(fcinfo, VERSIONS_MIXED, PG_GETARG_DATUM(0));
  return has_text(fcinfo, set, span_of(PG_GETARG_TEXT_PP(1)));
}

SQL_FUNCTION(text_in_set_text_in_scheme) {
  uint32 scheme = scheme_of(span_of(PG_GETARG_TEXT_PP(2)));
  Set set = set_of_text(fcinfo, scheme, PG_GETARG_DATUM(0));
  check_scheme(scheme, set.scheme);
  return has_text(fcinfo, set, span_of(PG_GETARG_TEXT_PP(1)));
}

SQL_FUNCTION(text_in_set) {
  return has_text(fcinfo, set_of_value(fcinfo, PG_GETARG_DATUM(0)), span_of(PG_GETARG_TEXT_PP(1)));
}

/* Whether a version of a type is in a set. */
static Datum has_value(uint32 scheme, Set set, Datum version) {
  text *value = DatumGetTextPP(version);
  Span span = span_of(value);
  bool has = false;
  check_scheme(set.scheme, scheme);
  switch (versions_set_has(octets(set.form), set.form.len, span.bytes, span.len, &has)) {
    case VERSIONS_OK: break;
    case VERSIONS_NO_VERSION: report_damage(scheme, span); break;
    default: report_damaged_set();
  }
  free_copy(value, version);
  PG_RETURN_BOOL(has);
}

static size_t count_of(Set set) {
  size_t count;
  if (versions_set_count(octets(set.form), set.form.len, &count) != VERSIONS_OK) report_damaged_set();
  return count;
}

/* The range of the keys from an interval of a set through another. */
static Range range_of_intervals(Set set, size_t first, size_t last) {
  Range range = {set.scheme, ALL_KINDS, set.form, set.form};
  size_t low, low_end, high, high_end, other;
  if (versions_set_interval(octets(set.form), set.form.len, first, &low, &low_end, &other, &other) != VERSIONS_OK ||
      versions_set_interval(octets(set.form), set.form.len, last, &other, &other, &high, &high_end) != VERSIONS_OK) {
    report_damaged_set();
  }
  range.low.bytes += low;
  range.low.len = low_end - low;
  range.high.bytes += high;
  range.high.len = high_end - high;
  if (range.high.len > 0) range.flags |= VERSIONS_RANGE_HIGH;
  return range;
}

/* The range between the outermost ends of a set: that of no key where the set has none. */
static Range range_of_set(Set set) {
  const Range none = {set.scheme, ALL_KINDS | VERSIONS_RANGE_HIGH, {"", 0}, {"", 0}};
  size_t count = count_of(set);
  return count > 0 ? range_of_intervals(set, 0, count - 1) : none;
}

SQL_FUNCTION(version_low_of_set) { return low_bytes(range_of_set(set_of(PG_GETARG_BYTEA_PP(0)))); }
SQL_FUNCTION(version_high_of_set) { return high_bytes(range_of_set(set_of(PG_GETARG_BYTEA_PP(0)))); }

/* A bound of a set, for versions of a scheme. */
static Datum bound_of_set(FunctionCallInfo fcinfo, bool is_high) {
  Set set = set_of(PG_GETARG_BYTEA_PP(0));
  check_scheme(set.scheme, scheme_of(span_of(PG_GETARG_TEXT_PP(1))));
  return bound_of_range(range_of_set(set), is_high);
}

SQL_FUNCTION(version_set_low) { return bound_of_set(fcinfo, false); }
SQL_FUNCTION(version_set_high) { return bound_of_set(fcinfo, true); }

static Datum key_of_argument(FunctionCallInfo fcinfo, uint32 scheme) {
  Span span = span_of(PG_GETARG_TEXT_PP(0));
  bytea *key = key_to_keep(scheme, span);
  if (!key) report_damage(scheme, span);
  PG_RETURN_BYTEA_P(key);
}

/* The functions of a type of versions, which versions--0.1.0.sql declares. Of two that are equal the first counts. */
#define TYPE_FUNCTIONS(type, scheme)                                                                             \
  SQL_FUNCTION(type##_in) { return version_of_input(fcinfo, scheme); }                                           \
  SQL_FUNCTION(type##_recv) { return version_of_message(fcinfo, scheme); }                                       \
  SQL_FUNCTION(type##_of_text) { return version_of_argument(fcinfo, scheme); }                                   \
  SQL_FUNCTION(to_##type) { return version_or_null(fcinfo, scheme); }                                            \
  ORDER_FUNCTIONS(type, ORDER_OF_ARGUMENTS(scheme), ORDER_OF_ARGUMENTS(scheme) < 0)                              \
  SQL_FUNCTION(type##_ne) { PG_RETURN_BOOL(ORDER_OF_ARGUMENTS(scheme) != 0); }                                   \
  SQL_FUNCTION(type##_larger) { PG_RETURN_DATUM(PG_GETARG_DATUM(ORDER_OF_ARGUMENTS(scheme) >= 0 ? 0 : 1)); }     \
  SQL_FUNCTION(type##_smaller) { PG_RETURN_DATUM(PG_GETARG_DATUM(ORDER_OF_ARGUMENTS(scheme) <= 0 ? 0 : 1)); }    \
  SQL_FUNCTION(key_of_##type) { return key_of_argument(fcinfo, scheme); }                                        \
  SQL_FUNCTION(type##_hash) { return hash_of_argument(fcinfo, scheme); }                                         \
  SQL_FUNCTION(type##_hash_extended) { return extended_hash_of_arguments(fcinfo, scheme); }                      \
  SQL_FUNCTION(type##_sortsupport) { return support_sort(fcinfo, scheme); }                                      \
  ORDER_FUNCTIONS(type##_bound, ORDER_WITH_BOUND(scheme, 0, 1),                                                  \
                  is_below(scheme, PG_GETARG_DATUM(0), PG_GETARG_DATUM(1)))                                      \
  ORDER_FUNCTIONS(bound_##type, -ORDER_WITH_BOUND(scheme, 1, 0), ORDER_WITH_BOUND(scheme, 1, 0) > 0)             \
  SQL_FUNCTION(type##_in_set) {                                                                                  \
    return has_value(scheme, set_of_value(fcinfo, PG_GETARG_DATUM(0)), PG_GETARG_DATUM(1));                      \
  }                                                                                                              \
  SQL_FUNCTION(type##_contained_by) {                                                                            \
    return has_value(scheme, set_of_value(fcinfo, PG_GETARG_DATUM(1)), PG_GETARG_DATUM(0));                      \
  }                                                                                                              \
  SQL_FUNCTION(type##_in_set_text) {                                                                             \
    return has_value(scheme, set_of_text(fcinfo, scheme, PG_GETARG_DATUM(0)), PG_GETARG_DATUM(1));               \
  }                                                                                                              \
  SQL_FUNCTION(type##_contained_by_text) {                                                                       \
    return has_value(scheme, set_of_text(fcinfo, scheme, PG_GETARG_DATUM(1)), PG_GETARG_DATUM(0));               \
  }

EACH_TYPE(TYPE_FUNCTIONS)

/*
 * The planner: a version that matches a requirement, or is in a set, is not below the low bound of that, and is below
 * the high one. These two conditions bound the scan of an index, and the bounds' places in a histogram estimate how
 * many rows match.
 */

static List *arguments_of(Node *call) {
  if (is_opclause(call)) return ((OpExpr *)call)->args;
  if (is_funcclause(call)) return ((FuncExpr *)call)->args;
  return NIL;
}

/* A type of the extension. It is in the schema of the function that the planner has called, as the whole is. */
static Oid type_of(Oid caller, const char *name) {
  return GetSysCacheOid2(TYPENAMENSP, Anum_pg_type_oid, CStringGetDatum(name),
                         ObjectIdGetDatum(get_func_namespace(caller)));
}

static bool is_of(Node *expression, Oid caller, const char *type) {
  return exprType(expression) == type_of(caller, type);
}

/* The scheme of the versions of a type; 0 where it is another type. */
static uint32 scheme_of_type(Oid type, Oid caller) {
  uint32 scheme;
  for (scheme = VERSIONS_MIXED; scheme < lengthof(type_names); scheme++) {
    if (type == type_of(caller, type_names[scheme])) return scheme;
  }
  return 0;
}

/* A function of the extension, by its name and the types of its arguments. */
static Oid function_of(Oid caller, const char *name, Oid *types, int count) {
  return GetSysCacheOid3(PROCNAMEARGSNSP, Anum_pg_proc_oid, CStringGetDatum(name),
                         PointerGetDatum(buildoidvector(types, count)), ObjectIdGetDatum(get_func_namespace(caller)));
}

/* A call of such a function; NULL where there is none. */
static Node *call_of(Oid caller, const char *name, List *arguments) {
  Oid types[2], function;
  int count = 0;
  ListCell *argument;
  foreach (argument, arguments) types[count++] = exprType(lfirst(argument));
  function = function_of(caller, name, types, count);
  if (!OidIsValid(function)) return NULL;
  return (Node *)makeFuncExpr(function, get_func_rettype(function), arguments, InvalidOid, InvalidOid,
                              COERCE_EXPLICIT_CALL);
}

/* The name of a scheme, as an argument of type text. */
static Node *name_argument(uint32 scheme) {
  return (Node *)makeConst(TEXTOID, -1, DEFAULT_COLLATION_OID, -1, CStringGetTextDatum(name_of(scheme)), false, false);
}

/* A text as a requirement. */
static Node *cast_to_requirement(Oid caller, Node *said) {
  CoerceViaIO *cast = makeNode(CoerceViaIO);
  cast->arg = (Expr *)said;
  cast->resulttype = type_of(caller, "requirement");
  cast->coerceformat = COERCE_EXPLICIT_CAST;
  cast->location = -1;
  return (Node *)cast;
}

/* What a function or its operator reads a text as, beside versions of a scheme: a requirement or a set. */
static Node *value_of(Oid caller, Oid function, Node *said, uint32 scheme) {
  if (strcmp(get_func_name(function), "version_matches") == 0) return cast_to_requirement(caller, said);
  return call_of(caller, "version_set", list_make2(said, name_argument(scheme)));
}

/*
 * What versions of a column are held against: an expression that is a requirement or a set. The scheme is that of the
 * column, and a set that is constant is of it too.
 */
typedef struct {
  Oid caller;
  uint32 scheme;
  Node *expression;
  bool is_set;
} Asked;

/* Whether an expression is one. A set of another scheme is none: a function that is called with it then fails. */
static bool is_asked(Asked *asked, Oid caller, uint32 scheme, Node *expression) {
  asked->caller = caller;
  asked->scheme = scheme;
  asked->expression = expression;
  asked->is_set = is_of(expression, caller, "version_set");
  if (scheme == 0 || (IsA(expression, Const) && ((Const *)expression)->constisnull)) return false;
  if (!asked->is_set) return is_of(expression, caller, "requirement");
  return !IsA(expression, Const) ||
         set_of(DatumGetByteaPP(((Const *)expression)->constvalue)).scheme == scheme;
}

static bool is_constant(Asked asked) { return IsA(asked.expression, Const); }

static bytea *constant_of(Asked asked) { return DatumGetByteaPP(((Const *)asked.expression)->constvalue); }

/*
 * A bound of what is asked. That of a constant is a constant, and needs no right to call a function; that of another
 * expression is a call of requirement_low or requirement_high, or of version_set_low or version_set_high.
 */
static Node *bound_of(Asked asked, bool is_high) {
  List *arguments;
  if (is_constant(asked)) {
    bytea *value = constant_of(asked);
    Range range = asked.is_set ? range_of_set(set_of(value)) : requirement_of(value).range;
    return (Node *)makeConst(type_of(asked.caller, "version_bound"), -1, InvalidOid, -1,
                             bound_of_range(range, is_high), false, false);
  }
  arguments = list_make1(copyObject(asked.expression));
  if (!asked.is_set) return call_of(asked.caller, is_high ? "requirement_high" : "requirement_low", arguments);
  arguments = lappend(arguments, name_argument(asked.scheme));
  return call_of(asked.caller, is_high ? "version_set_high" : "version_set_low", arguments);
}

/* Appends the condition that a version compares so with a bound, if the operator family has that comparison. */
static List *append_condition(List *conditions, Node *version, Oid family, int16 strategy, Node *bound) {
  Oid operator = InvalidOid;
  if (bound) operator = get_opfamily_member(family, exprType(version), exprType(bound), strategy);
  if (!OidIsValid(operator)) return conditions;
  return lappend(conditions, make_opclause(operator, BOOLOID, false, (Expr *)copyObject(version), (Expr *)bound,
                                           InvalidOid, InvalidOid));
}

/* Whether every version meets a bound: the constant one with no bytes that is below every key, or above it. */
static bool is_open(Node *node, bool is_high) {
  Bound bound;
  if (!node || !IsA(node, Const)) return false;
  bound = bound_in(DatumGetByteaPP(((Const *)node)->constvalue));
  return bound.bytes.len == 0 && bound.is_above_all == is_high;
}

/* Whether the versions between the bounds are all those that match, whatever their kinds. */
static bool is_whole(Asked asked) {
  const uint32 whole = VERSIONS_RANGE_EXACT | ALL_KINDS;
  if (!is_constant(asked)) return false;
  if (asked.is_set) return count_of(set_of(constant_of(asked))) <= 1;
  return (requirement_of(constant_of(asked)).range.flags & whole) == whole;
}

#if PG_VERSION_NUM < 140000
#define is_pseudo_constant_for_index(root, expression, index) is_pseudo_constant_for_index(expression, index)
#endif

/*
 * The conditions of the scan of an index on versions; there are none for one on requirements or sets. What is asked may
 * be anything that is known when the scan begins: a constant, a parameter, or a column of another table. Rows are
 * tested again unless the range is known to be all that matters.
 */
static List *index_conditions(SupportRequestIndexCondition *request, Oid caller) {
  List *arguments = arguments_of(request->node), *conditions = NIL;
  Node *version, *other, *low, *high;
  uint32 scheme;
  Asked asked;
  if (request->index->relam != BTREE_AM_OID || list_length(arguments) != 2) return NIL;
  version = list_nth(arguments, request->indexarg);
  other = list_nth(arguments, 1 - request->indexarg);
  scheme = scheme_of_type(exprType(version), caller);
  if (scheme != 0 && exprType(other) == TEXTOID) other = value_of(caller, request->funcid, other, scheme);
  if (!other || !is_asked(&asked, caller, scheme, other)) return NIL;
  if (!is_pseudo_constant_for_index(request->root, asked.expression, request->index)) return NIL;
  low = bound_of(asked, false);
  high = bound_of(asked, true);
  if (!is_open(low, false)) {
    conditions = append_condition(conditions, version, request->opfamily, BTGreaterEqualStrategyNumber, low);
  }
  if (!is_open(high, true)) {
    conditions = append_condition(conditions, version, request->opfamily, BTLessStrategyNumber, high);
  }
  request->lossy = !is_whole(asked);
  return conditions;
}

/*
 * Of the keys between two values of a histogram, those below a bound are estimated by how the keys of the histogram go
 * on: how often each byte follows the three bytes before it. The order of bytes alone tells little: between 2.5.999 and
 * 2.6 there are most keys, but hardly a version. A histogram has few values, often in equal steps, such as each second
 * number; so before a byte all digits are alike, and half of a digit stands for each of the ten.
 */
enum { KEYS = 100, OF_KEY = 16, BEFORE = 3 };

typedef struct {
  uint8 before[BEFORE], byte;
} Step;

static bool is_digit(uint8 byte) { return byte >= '0' && byte <= '9'; }

/* The steps of the keys' first bytes, grouped by the last byte before: where a group begins, and after 255 the end. */
typedef struct {
  int begins[257];
  Step steps[KEYS * OF_KEY];
} Steps;

/* The byte of a key at a place, and those before it, each digit as '0'; before the first there are bytes 255. */
static Step step_at(Span key, size_t at) {
  Step step;
  size_t back;
  for (back = 1; back <= BEFORE; back++) {
    uint8 before = at < back ? 255 : (uint8)key.bytes[at - back];
    step.before[BEFORE - back] = is_digit(before) ? '0' : before;
  }
  step.byte = (uint8)key.bytes[at];
  return step;
}

static Steps *steps_of(uint32 scheme, const AttStatsSlot *histogram) {
  Steps *steps = palloc0(sizeof *steps);
  Step all[KEYS * OF_KEY];
  int keys = Min(histogram->nvalues, KEYS), count = 0, at;
  for (at = 0; at < keys; at++) {
    KeyRoom room;
    bytea *key = key_of_value(scheme, histogram->values[(int64)at * (histogram->nvalues - 1) / (keys - 1)], &room);
    size_t place;
    for (place = 0; place < Min(span_of(key).len, OF_KEY); place++) all[count++] = step_at(span_of(key), place);
    free_key(key, &room);
  }
  for (at = 0; at < count; at++) steps->begins[all[at].before[BEFORE - 1]]++;
  for (at = 1; at < 257; at++) steps->begins[at] += steps->begins[at - 1];
  for (at = 0; at < count; at++) steps->steps[--steps->begins[all[at].before[BEFORE - 1]]] = all[at];
  return steps;
}

/* How much of a byte that a key goes on with counts as one below another byte, and how much as that one. */
static void count_byte(uint8 byte, uint8 other, double *below, double *equal) {
  double itself = 1;
  if (is_digit(byte) && is_digit(other)) {
    itself = 0.5;
    *below += 0.5 * (other - '0') / 10;
    *equal += 0.5 / 10;
  }
  if (byte < other) *below += itself;
  if (byte == other) *equal += itself;
}

/*
 * The shares of keys that go on with a lower byte, and with this one. Those after one byte stand for half a key among
 * those after two, and so on; before them all each byte is as frequent.
 */
static void shares_of_step(const Steps *steps, Step step, double *lower, double *same) {
  double all[BEFORE] = {0}, below[BEFORE] = {0}, equal[BEFORE] = {0};
  int last = step.before[BEFORE - 1], at, known;
  /* each is counted where it is alike in most, and then in less */
  for (at = steps->begins[last]; at < steps->begins[last + 1]; at++) {
    const Step *other = &steps->steps[at];
    known = other->before[1] != step.before[1] ? 0 : other->before[0] != step.before[0] ? 1 : 2;
    all[known]++;
    count_byte(other->byte, step.byte, &below[known], &equal[known]);
  }
  *lower = step.byte / 256.0;
  *same = 1 / 256.0;
  for (known = BEFORE - 2; known >= 0; known--) {
    all[known] += all[known + 1];
    below[known] += below[known + 1];
    equal[known] += equal[known + 1];
  }
  for (known = 0; known < BEFORE; known++) {
    *lower = (below[known] + *lower / 2) / (all[known] + 0.5);
    *same = (equal[known] + *same / 2) / (all[known] + 0.5);
  }
}

/* The share of keys below one, or below a bound, of those that have the same first bytes. */
static double share_after(const Steps *steps, Span key, size_t first) {
  double share = 0, alike = 1;
  size_t at;
  for (at = first; at < key.len && alike > 0.001; at++) {
    double lower, same;
    shares_of_step(steps, step_at(key, at), &lower, &same);
    share += alike * lower;
    alike *= same;
  }
  return share;
}

/* How many of a histogram's values are below a bound. */
static int values_below(uint32 scheme, const AttStatsSlot *histogram, Datum bound) {
  int below = 0, end = histogram->nvalues;
  while (below < end) {
    int middle = below + (end - below) / 2;
    if (order_with_bound(scheme, histogram->values[middle], bound) < 0) {
      below = middle + 1;
    } else {
      end = middle;
    }
  }
  return below;
}

/* The gap between a value of a histogram and the one before: how many first bytes their keys share, and the shares. */
typedef struct {
  size_t first;
  double low, high;
} Gap;

static Gap gap_before(uint32 scheme, const AttStatsSlot *histogram, const Steps *steps, int at) {
  KeyRoom rooms[2];
  bytea *keys[] = {key_of_value(scheme, histogram->values[at - 1], &rooms[0]),
                   key_of_value(scheme, histogram->values[at], &rooms[1])};
  Span low = span_of(keys[0]), high = span_of(keys[1]);
  Gap gap = {0, 0, 0};
  while (gap.first < Min(low.len, high.len) && low.bytes[gap.first] == high.bytes[gap.first]) gap.first++;
  gap.low = share_after(steps, low, gap.first);
  gap.high = share_after(steps, high, gap.first);
  free_key(keys[0], &rooms[0]);
  free_key(keys[1], &rooms[1]);
  return gap;
}

/* Which part of a gap is below a bound in it. */
static double part_of_gap(const Steps *steps, Gap gap, Span bound) {
  if (gap.low >= gap.high) return 0.5;
  return Min(Max((share_after(steps, bound, gap.first) - gap.low) / (gap.high - gap.low), 0), 1);
}

/*
 * How many gaps of a histogram are between two bounds, by the numbers of the values that are below each. Of the gaps in
 * which a bound is it is a part, which is estimated if few values are between the bounds, and else is a half.
 */
static double gaps_between(const AttStatsSlot *histogram, Range range, int from, int to) {
  bool low_in = from > 0 && from < histogram->nvalues, high_in = to > 0 && to < histogram->nvalues;
  double low_part = 0.5, high_part = 0.5;
  if (to - from < 10 && (low_in || high_in)) {
    Steps *steps = steps_of(range.scheme, histogram);
    Gap gap = gap_before(range.scheme, histogram, steps, low_in ? from : to);
    if (low_in) low_part = part_of_gap(steps, gap, range.low);
    if (high_in && low_in && from != to) gap = gap_before(range.scheme, histogram, steps, to);
    if (high_in) high_part = part_of_gap(steps, gap, range.high);
    pfree(steps);
  }
  return (high_in ? to - 1 + high_part : to ? to - 1 : 0) - (low_in ? from - 1 + low_part : from ? from - 1 : 0);
}

/* Whether at most one key is between two bounds. */
static bool is_of_one_key(Span low, Span high) {
  return high.len == low.len + 1 && high.bytes[low.len] == 0 && memcmp(low.bytes, high.bytes, low.len) == 0;
}

/* How many of some values of a histogram are of the kinds of a range. Those of a set are all. */
static int of_kinds(const AttStatsSlot *histogram, uint32 flags, int from, int to) {
  int at, found = 0;
  if ((flags & ALL_KINDS) == ALL_KINDS) return to - from;
  for (at = from; at < to; at++) {
    text *version = DatumGetTextPP(histogram->values[at]);
    bool is_in = false;
    versions_in_range(VARDATA_ANY(version), VARSIZE_ANY_EXHDR(version), NULL, 0, NULL, 0,
                      flags & ~VERSIONS_RANGE_HIGH, &is_in);
    found += is_in;
  }
  return found;
}

/*
 * The share of a histogram's rows that are between the bounds of a range and of its kinds, and 0 for one key. The kinds
 * are those of the values between the bounds and of two more on each side, with two of all of them.
 */
static double share_in(const AttStatsSlot *histogram, Range range) {
  int from, to, all = histogram->nvalues;
  double between, kinds;
  if (is_of_one_key(range.low, range.high)) return 0;
  from = values_below(range.scheme, histogram, bound_of_range(range, false));
  to = values_below(range.scheme, histogram, bound_of_range(range, true));
  between = gaps_between(histogram, range, from, to) / (all - 1);
  kinds = 2.0 * of_kinds(histogram, range.flags, 0, all) / all;
  from = Max(from - 2, 0);
  to = Min(to + 2, all);
  return between * (of_kinds(histogram, range.flags, from, to) + kinds) / (to - from + 2);
}

/* Whether no key is between the bounds of a range. */
static bool is_empty(Range range) {
  return range.flags & VERSIONS_RANGE_HIGH && order_of_bytes(range.low, range.high) >= 0;
}

/* How many values a column has beside the common ones, which the statistics list. */
static double other_values(VariableStatData *column) {
  AttStatsSlot common;
  bool is_default;
  double values = get_variable_numdistinct(column, &is_default);
  if (get_attstatsslot(&common, column->statsTuple, STATISTIC_KIND_MCV, InvalidOid, ATTSTATSSLOT_NUMBERS)) {
    values -= common.nnumbers;
    free_attstatsslot(&common);
  }
  return Max(values, 1);
}

/* The share of a histogram's rows in a range, but not less than that of one value. */
static double share_of_range(const AttStatsSlot *histogram, Range range, double least) {
  return is_empty(range) ? 0 : Max(share_in(histogram, range), least);
}

/* The same of a constant: of a requirement's range, or of the intervals of a set; of many, between the outermost. */
static double share_of_constant(const AttStatsSlot *histogram, Asked asked, double least) {
  const size_t most = 32;
  bytea *value = constant_of(asked);
  double share = 0;
  size_t count, place;
  Set set;
  if (!asked.is_set) return share_of_range(histogram, requirement_of(value).range, least);
  set = set_of(value);
  count = count_of(set);
  if (count > most) return share_of_range(histogram, range_of_set(set), least);
  for (place = 0; place < count; place++) {
    share += share_of_range(histogram, range_of_intervals(set, place, place), least);
  }
  return share;
}

/*
 * The share of the rows of a column that match a constant, by the statistics of ANALYZE: the common values that match,
 * and of the others those between the bounds and of the kinds, but not less than one value. A negative number if there
 * are no statistics.
 */
static double share_by_statistics(VariableStatData *column, Oid function, Asked asked, bool is_first) {
  double common, share, others;
  AttStatsSlot histogram;
  FmgrInfo matches;
  if (!HeapTupleIsValid(column->statsTuple)) return -1;
  fmgr_info(function, &matches);
  share = mcv_selectivity(column, &matches, InvalidOid, ((Const *)asked.expression)->constvalue, is_first, &common);
  others = 1 - common - ((Form_pg_statistic)GETSTRUCT(column->statsTuple))->stanullfrac;
  if (others > 0 && statistic_proc_security_check(column, function) &&
      get_attstatsslot(&histogram, column->statsTuple, STATISTIC_KIND_HISTOGRAM, InvalidOid, ATTSTATSSLOT_VALUES)) {
    if (histogram.nvalues > 1) share += others * share_of_constant(&histogram, asked, 1 / other_values(column));
    free_attstatsslot(&histogram);
  }
  return share;
}

/* The share of the rows for which a function or its operator is true. By default PostgreSQL's own for a match. */
static Selectivity share_of(PlannerInfo *root, Oid caller, Oid function, List *arguments, int table) {
  Selectivity share = -1;
  VariableStatData column;
  Node *other;
  Asked asked;
  bool is_first;
  if (!get_restriction_variable(root, arguments, table, &column, &other, &is_first)) return DEFAULT_MATCHING_SEL;
  if (IsA(other, Const) && is_asked(&asked, caller, scheme_of_type(column.vartype, caller), other)) {
    share = share_by_statistics(&column, function, asked, is_first);
  }
  ReleaseVariableStats(column);
  if (share < 0) return DEFAULT_MATCHING_SEL;
  CLAMP_PROBABILITY(share);
  return share;
}

/* The constant set of a scheme that a constant text is read as. It needs no right to call a function. */
static Node *constant_set(Oid caller, Datum words, uint32 scheme) {
  bytea *value = read_set(scheme, words);
  check_scheme(set_of(value).scheme, scheme);
  return (Node *)makeConst(type_of(caller, "version_set"), -1, InvalidOid, -1, PointerGetDatum(value), false, false);
}

/*
 * A call with a constant text and a version is one with the requirement or the set that the text is read as, so that the
 * planner sees its bounds. NULL for another call: another text is read by the function, once while it stays the same.
 */
static Node *with_value(SupportRequestSimplify *request, Oid caller) {
  const char *name = get_func_name(request->fcall->funcid);
  List *arguments = request->fcall->args;
  bool is_set = strcmp(name, "version_matches") != 0;
  int at = exprType(linitial(arguments)) == TEXTOID ? 0 : 1;
  uint32 scheme = scheme_of_type(exprType(list_nth(arguments, 1 - at)), caller);
  Node *said = list_nth(arguments, at), *value;
  if (!IsA(said, Const) || ((Const *)said)->consttype != TEXTOID || ((Const *)said)->constisnull || scheme == 0) {
    return NULL;
  }
  value = is_set ? constant_set(caller, ((Const *)said)->constvalue, scheme)
                 : eval_const_expressions(request->root, cast_to_requirement(caller, said));
  arguments = list_copy(arguments);
  lfirst(list_nth_cell(arguments, at)) = value;
  return call_of(caller, name, arguments);
}

SQL_FUNCTION(version_matches_sel) {
  PG_RETURN_FLOAT8(share_of((PlannerInfo *)PG_GETARG_POINTER(0), fcinfo->flinfo->fn_oid,
                            get_opcode(PG_GETARG_OID(1)), (List *)PG_GETARG_POINTER(2), PG_GETARG_INT32(3)));
}

SQL_FUNCTION(version_matches_support) {
  Node *node = (Node *)PG_GETARG_POINTER(0);
  void *answer = NULL;
  if (IsA(node, SupportRequestIndexCondition)) {
    answer = index_conditions((SupportRequestIndexCondition *)node, fcinfo->flinfo->fn_oid);
  } else if (IsA(node, SupportRequestSelectivity)) {
    SupportRequestSelectivity *request = (SupportRequestSelectivity *)node;
    request->selectivity = request->is_join ? DEFAULT_MATCHING_SEL
                                            : share_of(request->root, fcinfo->flinfo->fn_oid, request->funcid,
                                                       request->args, request->varRelid);
    answer = request;
  } else if (IsA(node, SupportRequestSimplify)) {
    answer = with_value((SupportRequestSimplify *)node, fcinfo->flinfo->fn_oid);
  }
  PG_RETURN_POINTER(answer);
}

PGDLLEXPORT void _PG_init(void);

/* PostgreSQL calls this when it loads the file. If it fails, no function of the file can be called. */
void _PG_init(void) { make_codes(); }
