// A program of tests/sqlite, for tests that the program sqlite3 cannot make:
//   refused EXTENSION      loads it and runs statements, while one allocation of SQLite after another fails
//   interrupted EXTENSION  interrupts windows after different numbers of steps
//   kept EXTENSION         counts the allocations of a set that is the same in each row, and of one that is not
//   loading EXTENSION      loads it such that a load fails midway, again while a statement runs, and into an old SQLite
// Each checks that SQLite has freed all memory. The status is 1 if a check fails, and the check is printed.
// This is not an extension: it calls SQLite directly.
#define SQLITE_CORE 1
#include <sqlite3ext.h>

#include <dlfcn.h>
#include <stdbool.h>
#include <stdlib.h>
#include <string.h>

#include "support/check.h"

static const char *extension;

// The memory of SQLite. Allocation number `refused`, counted from 1, fails; with 0 none fails.
static sqlite3_mem_methods ample;
static long requests, refused;

static bool is_refused(void) { return ++requests == refused; }

static void *allocate(int size) { return is_refused() ? NULL : ample.xMalloc(size); }

static void *resize(void *block, int size) { return is_refused() ? NULL : ample.xRealloc(block, size); }

static void refuse(long request) {
  requests = 0;
  refused = request;
}

static void set_up_memory(void) {
  sqlite3_mem_methods counted;
  sqlite3_config(SQLITE_CONFIG_GETMALLOC, &ample);
  counted = ample;
  counted.xMalloc = allocate;
  counted.xRealloc = resize;
  sqlite3_config(SQLITE_CONFIG_MALLOC, &counted);
  // Without lookaside memory, small allocations can fail too.
  sqlite3_config(SQLITE_CONFIG_LOOKASIDE, 0, 0);
}

static sqlite3 *opened(const char *encoding) {
  sqlite3 *db;
  if (sqlite3_open(":memory:", &db) != SQLITE_OK) exit(2);
  if (sqlite3_exec(db, encoding, NULL, NULL, NULL) != SQLITE_OK) exit(2);
  if (sqlite3_enable_load_extension(db, 1) != SQLITE_OK) exit(2);
  return db;
}

static void close_all(sqlite3 *db) {
  CHECK(sqlite3_close(db) == SQLITE_OK);
  CHECK(sqlite3_memory_used() == 0);
}

static sqlite3 *loaded(const char *encoding) {
  sqlite3 *db = opened(encoding);
  CHECK(sqlite3_load_extension(db, extension, NULL, NULL) == SQLITE_OK);
  return db;
}

// The result of a statement: its status, the texts of its rows one after another, and the message of its error.
struct answer {
  int status;
  char text[4096];
};

static void add(struct answer *answer, const char *text) {
  size_t len = strlen(answer->text);
  snprintf(answer->text + len, sizeof answer->text - len, "%s;", text ? text : "NULL");
}

static struct answer run(sqlite3 *db, const char *statement) {
  struct answer answer = {0, ""};
  sqlite3_stmt *prepared = NULL;
  answer.status = sqlite3_prepare_v2(db, statement, -1, &prepared, NULL);
  while (answer.status == SQLITE_OK || answer.status == SQLITE_ROW) {
    answer.status = sqlite3_step(prepared);
    if (answer.status == SQLITE_ROW) add(&answer, (const char *)sqlite3_column_text(prepared, 0));
  }
  if (answer.status != SQLITE_DONE) add(&answer, sqlite3_errmsg(db));
  sqlite3_finalize(prepared);
  return answer;
}

static bool is_same(struct answer a, struct answer b) { return a.status == b.status && strcmp(a.text, b.text) == 0; }

// If SQLite cannot allocate the message of a function, it keeps the status and has a message of its own.
static bool is_error_without_words(struct answer a, struct answer b) {
  return a.status == SQLITE_ERROR && b.status == SQLITE_ERROR && strcmp(a.text, "SQL logic error;") == 0;
}

#define ROWS(count) \
  "WITH RECURSIVE row(i) AS (SELECT 1 UNION ALL SELECT i + 1 FROM row WHERE i < " count ")," \
  " versions(i, v) AS (SELECT i, iif(i % 5, printf('1.%d.0', i * 7919 % 100), 'none') FROM row) "
#define LONG "'1.' || printf('%0400d', 7)"

static const char *const encodings[] = {"PRAGMA encoding = 'UTF-8'", "PRAGMA encoding = 'UTF-16le'"};
static const char *const statements[] = {
    "SELECT hex(version_key('1.2.3'))",
    "SELECT hex(version_key(" LONG "))",
    "SELECT version_kind('1:2.0rc1-3')",
    "SELECT version_compare('1.0', " LONG ")",
    "SELECT version_compare_total('1.0', '0:1.0')",
    "SELECT version_matches('>=1.0,<2', " LONG ")",
    "SELECT version_matches(" LONG ", '1')",
    "SELECT version_matches(7, '1')",
    "SELECT hex(version_low('>=1.0,<2'))",
    "SELECT hex(version_high('^1.2.3,<=' || " LONG "))",
    "SELECT version_high('>=1,')",
    ROWS("9") "SELECT version_matches('^1.2.0', v) FROM versions",
    ROWS("9") "SELECT version_matches('=1.19,>' || " LONG ", iif(i % 3, v, '1.19')) FROM versions",
    ROWS("9") "SELECT version_matches(iif(i % 2, '>=1.2', '<1.40.0'), v) FROM versions",
    "SELECT hex(version_key('1.0~rc1', 'deb') || version_key(" LONG ", 'deb'))",
    "SELECT version_compare('1.0', " LONG ", 'rpm') || version_compare('1.0', '1..2', 'deb')",
    "SELECT version_key('1', 'dpkg')",
    "SELECT is_version(" LONG ", 'deb') || is_version('1.0', 'dpkg')",
    "SELECT version_in_set('deb:>=1.0 || =' || " LONG ", " LONG ")",
    "SELECT version_in_set('dpkg:>=1.0', '1') || version_in_set('deb:>=1.0', '1', 'rpm')",
    "SELECT hex(version_low('>=1.0, <' || " LONG ", 'deb') || version_high('>=1.0, <' || " LONG ", 'deb'))",
    "SELECT hex(version_high('rpm:>=1', 'rpm')) || version_low('>=', 'rpm')",
    "SELECT version_compare('1', '2', 7)",
    "SELECT version_in_set('>=1.0, <2 || =' || " LONG ", " LONG ")",
    "SELECT version_in_set('>=1.0,', '1')",
    "SELECT version_in_set('~' || " LONG ", '1', 'deb')",
    "SELECT version_in_set(7, '1')",
    ROWS("9") "SELECT version_in_set('^1.2.0 || =1.19.0', v) FROM versions",
    ROWS("9") "SELECT version_in_set('>=1.2.0 || =1.40.0', v, iif(i % 2, 'semver', 'deb')) FROM versions",
    ROWS("9") "SELECT version_in_set(iif(i % 2, '>=1.2', '<1.40.0'), v) FROM versions",
    "SELECT version_nth('1.2.3', 2)",
    "SELECT version_nth('1.2.3', 1.0)",
    "SELECT is_version(" LONG ") || is_version('1..2')",
    "SELECT version_epoch('1:2.0-3') || version_is_prerelease('1.0.0-rc.1')",
    "SELECT version_pre_release('1.0.0-rc.1') || version_release('1-2') || version_metadata('1+' || " LONG ")",
    "SELECT version_in('v' || " LONG ") || version_in('go1.2', 'go') || version_stability('1.0-rc1') ||"
    " version_stability_rank(" LONG ")",
    "SELECT version_difference('1.2.3', " LONG ") || version_difference('1.0', '1:1.0')",
    "SELECT version_next('1.' || " LONG ", 0) || version_next('1.2.3', 1.0)",
    "SELECT version_next(replace(hex(zeroblob(200)), '00', '1.') || '1', 9)",
    "SELECT version_why_not('>=1,<' || " LONG ", '2') || version_why_not('>= 1', '1')",
    "SELECT column1 FROM (VALUES ('1.10'), ('x y'), (" LONG "), ('1.9')) ORDER BY column1 COLLATE VERSION",
    ROWS("30") "SELECT version_max(v) || version_min(v) FROM versions",
    ROWS("30") "SELECT version_max(v) OVER (ORDER BY i ROWS 3 PRECEDING) FROM versions",
    ROWS("30") "SELECT version_max(v, 'deb') || version_min(v, 'semver') FROM versions",
    ROWS("30") "SELECT version_max(v, iif(i < 9, 'deb', 'rpm')) FROM versions",
    ROWS("30") "SELECT version_min(v, 'semver') OVER (ORDER BY i ROWS 3 PRECEDING) FROM versions",
    ROWS("30") "SELECT version_min(v || '+' || printf('%080d', i)) OVER"
               " (ORDER BY i ROWS BETWEEN 2 FOLLOWING AND 9 FOLLOWING) FROM versions",
};

static void try_refused(const char *encoding, const char *statement) {
  sqlite3 *db = loaded(encoding);
  struct answer ample_answer = run(db, statement), answer;
  long request = 0;
  bool reached;
  close_all(db);
  CHECK(ample_answer.status == SQLITE_DONE || ample_answer.status == SQLITE_ERROR);
  do {
    db = loaded(encoding);
    refuse(++request);
    answer = run(db, statement);
    if (answer.status != SQLITE_NOMEM && !is_same(answer, ample_answer) &&
        !is_error_without_words(answer, ample_answer)) {
      failures++;
      fprintf(stderr, "FAILED: %s, request %ld: status %d: %s\n", statement, request, answer.status, answer.text);
    }
    reached = requests >= refused;
    refuse(0);
    answer = run(db, statement);
    CHECK(is_same(answer, ample_answer));
    close_all(db);
  } while (reached);
  CHECK(request > 5);
}

static void try_refused_load(void) {
  long request = 0;
  bool reached = true;
  while (reached) {
    sqlite3 *db = opened(encodings[0]);
    char *fault = NULL;
    refuse(++request);
    int status = sqlite3_load_extension(db, extension, NULL, &fault);
    reached = requests >= refused;
    refuse(0);
    CHECK(status == SQLITE_OK || status == SQLITE_ERROR || status == SQLITE_NOMEM);
    sqlite3_free(fault);
    // Functions that a failed load defined can be called, and the extension can be loaded again.
    run(db, "SELECT version_key('1')");
    CHECK(sqlite3_load_extension(db, extension, NULL, NULL) == SQLITE_OK);
    CHECK(strcmp(run(db, "SELECT version_max(version_kind('1.2.3') || '.1')").text, "ideal.1;") == 0);
    close_all(db);
  }
  CHECK(request > 5);
}

static void try_all_refused(void) {
  size_t encoding, at;
  try_refused_load();
  for (encoding = 0; encoding < sizeof encodings / sizeof *encodings; encoding++) {
    for (at = 0; at < sizeof statements / sizeof *statements; at++) try_refused(encodings[encoding], statements[at]);
  }
}

static int interrupt(void *db) {
  sqlite3_interrupt(db);
  return 0;
}

static void try_interrupted(void) {
  static const char *const windows[] = {
      ROWS("2000") "SELECT version_max(v) OVER (ORDER BY i ROWS 100 PRECEDING) FROM versions",
      ROWS("2000") "SELECT version_min(v) OVER (ORDER BY i ROWS BETWEEN CURRENT ROW AND UNBOUNDED FOLLOWING)"
                   " FROM versions",
      ROWS("2000") "SELECT version_max(v) FROM versions GROUP BY i / 100",
  };
  int interrupted = 0, steps;
  size_t at;
  for (at = 0; at < sizeof windows / sizeof *windows; at++) {
    for (steps = 1; steps < 400000; steps = steps * 3 / 2 + 1) {
      sqlite3 *db = loaded(encodings[0]);
      sqlite3_progress_handler(db, steps, interrupt, db);
      struct answer answer = run(db, windows[at]);
      CHECK(answer.status == SQLITE_INTERRUPT || answer.status == SQLITE_DONE);
      interrupted += answer.status == SQLITE_INTERRUPT;
      sqlite3_progress_handler(db, 0, NULL, NULL);
      CHECK(strcmp(run(db, "SELECT version_max('1.0')").text, "1.0;") == 0);
      close_all(db);
    }
  }
  CHECK(interrupted > 30);
}

// How many allocations a statement makes that is run over a table of many rows. Its parameter is a set.
static long allocations(sqlite3 *db, const char *text) {
  sqlite3_stmt *statement;
  long rows = 0;
  CHECK(sqlite3_prepare_v2(db, text, -1, &statement, NULL) == SQLITE_OK);
  sqlite3_bind_text(statement, 1, ">=1.2, <2 || >=3", -1, SQLITE_STATIC);
  refuse(0);
  while (sqlite3_step(statement) == SQLITE_ROW) rows++;
  CHECK(rows == 1000);
  CHECK(sqlite3_finalize(statement) == SQLITE_OK);
  return requests;
}

// A set is read once if it is the same in each row, also if it is a parameter or its scheme comes from a column.
static void try_kept(void) {
  static const char *const once[] = {
      "SELECT version_in_set('>=1.2, <2 || ^3', v) FROM t",
      "SELECT version_in_set(?1, v) FROM t",
      "SELECT version_in_set('>=1.2, <2 || >=3', v, 'deb') FROM t",
      "SELECT version_in_set(?1, v, s) FROM t",
      "SELECT version_in_set('deb:>=1.2, <2', v) FROM t",
  };
  static const char *const at_each_row[] = {
      "SELECT version_in_set(w, v) FROM t",
      "SELECT version_in_set('>=1.2, <2', v, iif(rowid % 2, 'deb', 'rpm')) FROM t",
  };
  sqlite3 *db = loaded(encodings[0]);
  size_t at;
  long least;
  run(db, "CREATE TABLE t AS " ROWS("1000") "SELECT v, 'deb' AS s, '>=1.2' AS w FROM versions");
  least = allocations(db, "SELECT is_version(v) FROM t");
  for (at = 0; at < sizeof once / sizeof *once; at++) CHECK(allocations(db, once[at]) < least + 50);
  for (at = 0; at < sizeof at_each_row / sizeof *at_each_row; at++) {
    CHECK(allocations(db, at_each_row[at]) > least + 990);
  }
  close_all(db);
}

static int all_level(void *none, int a_len, const void *a, int b_len, const void *b) {
  (void)none, (void)a_len, (void)a, (void)b_len, (void)b;
  return 0;
}

static void try_loading(void) {
  sqlite3 *db = opened(encodings[0]);
  sqlite3_stmt *running;
  char *fault = NULL;
  CHECK(sqlite3_create_collation(db, "VERSION", SQLITE_UTF8, NULL, all_level) == SQLITE_OK);
  CHECK(sqlite3_prepare_v2(db, "VALUES (1), (2)", -1, &running, NULL) == SQLITE_OK);
  CHECK(sqlite3_step(running) == SQLITE_ROW);
  // The connection has the collation but not the functions. So the load fails midway.
  CHECK(sqlite3_load_extension(db, extension, NULL, &fault) != SQLITE_OK);
  CHECK(fault && strstr(fault, "collation") && strstr(fault, "active statements"));
  sqlite3_free(fault);
  CHECK(sqlite3_finalize(running) == SQLITE_OK);
  run(db, "SELECT version_kind('1.2.3')");
  CHECK(sqlite3_load_extension(db, extension, NULL, NULL) == SQLITE_OK);
  CHECK(strcmp(run(db, "SELECT version_kind('1.2.3')").text, "ideal;") == 0);

  CHECK(sqlite3_prepare_v2(db, "VALUES (1), (2)", -1, &running, NULL) == SQLITE_OK);
  CHECK(sqlite3_step(running) == SQLITE_ROW);
  CHECK(sqlite3_load_extension(db, extension, NULL, &fault) != SQLITE_OK);
  CHECK(fault && strstr(fault, "function") && strstr(fault, "active statements"));
  sqlite3_free(fault);
  CHECK(sqlite3_finalize(running) == SQLITE_OK);
  CHECK(strcmp(run(db, "SELECT version_kind('1.2.3')").text, "ideal;") == 0);
  close_all(db);
}

// The calls that SQLite passes to an extension.
static const sqlite3_api_routines *calls;

static int keep_calls(sqlite3 *db, char **fault, const sqlite3_api_routines *given) {
  (void)db, (void)fault;
  calls = given;
  return SQLITE_OK;
}

static int old_number(void) { return 3030001; }

// An SQLite that reports version 3.30.1, and has no calls that define functions or collations.
static void try_old(void) {
  static sqlite3_api_routines old;
  int (*load)(sqlite3 *, char **, const sqlite3_api_routines *);
  void *library = dlopen(extension, RTLD_NOW), *found = library ? dlsym(library, "sqlite3_versions_init") : NULL;
  CHECK(sqlite3_auto_extension((void (*)(void))keep_calls) == SQLITE_OK);
  sqlite3 *db = opened(encodings[0]);
  char *fault = NULL;
  sqlite3_reset_auto_extension();
  CHECK(found && calls);
  if (found && calls) {
    old = *calls;
    old.libversion_number = old_number;
    old.create_function_v2 = NULL;
    old.create_window_function = NULL;
    old.create_collation_v2 = NULL;
    memcpy(&load, &found, sizeof load);
    CHECK(load(db, &fault, &old) == SQLITE_ERROR);
    CHECK(fault && strcmp(fault, "the functions on versions need SQLite 3.31 or later") == 0);
    sqlite3_free(fault);
    CHECK(load(db, NULL, &old) == SQLITE_ERROR);
  }
  close_all(db);
}

int main(int count, char **words) {
  if (count != 3) return 2;
  extension = words[2];
  set_up_memory();
  if (strcmp(words[1], "refused") == 0) {
    try_all_refused();
  } else if (strcmp(words[1], "interrupted") == 0) {
    try_interrupted();
  } else if (strcmp(words[1], "kept") == 0) {
    try_kept();
  } else if (strcmp(words[1], "loading") == 0) {
    try_loading();
    try_old();
  } else {
    return 2;
  }
  return failures != 0;
}
