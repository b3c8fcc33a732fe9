// Loads the extension for SQLite, calls its functions on the lines of standard input, by each of the schemes too, and
// writes what they return:
//   rows EXTENSION [SCHEME ..]
// tests/processors compares that on two processors.
// This is not an extension: it calls SQLite directly.
#define SQLITE_CORE 1
#include <sqlite3ext.h>

#include <stdio.h>
#include <stdlib.h>
#include <string.h>

#define LONGEST 16384

// ?1 is a line, ?2 the one before it, ?3 a requirement, which may be a set too, and ?4 a scheme.
static const char *const of_each_line[] = {
  "INSERT INTO lines VALUES (?1)",
  "SELECT is_version(?1), version_key(?1), version_kind(?1), version_nth(?1, 0), version_nth(?1, 3), version_epoch(?1),"
  " version_pre_release(?1), version_release(?1), version_metadata(?1), version_is_prerelease(?1), version_in(?1),"
  " version_in(?1, 'v'), version_stability(?1), version_stability_rank(?1), version_next(?1, 0), version_next(?1, 1),"
  " version_next_release(?1), version_next_pre(?1), version_next_pre(?1, 'rc')",
  "SELECT version_compare(?2, ?1), version_compare_total(?2, ?1), version_difference(?2, ?1)",
  "SELECT version_matches(?3, ?1), version_why_not(?3, ?1), version_low(?3), version_high(?3)",
  "SELECT version_in_set(?3, ?1)",
};
static const char of_each_scheme[] =
  "SELECT version_key(?1, ?4), version_compare(?2, ?1, ?4), is_version(?1, ?4), version_in_set(?3, ?1, ?4)";
static const char *const of_all_lines[] = {
  "SELECT version_max(line), version_min(line), versions_version() FROM lines",
  "SELECT rowid FROM lines ORDER BY version_key(line), rowid",
  "SELECT rowid FROM lines ORDER BY line COLLATE VERSION, rowid",
  "SELECT rowid FROM lines WHERE version_matches('>=1.2,<2', line)",
  "SELECT rowid FROM lines WHERE version_in_set('>=1.2, <2 || ^3', line)",
  "SELECT rowid FROM lines WHERE version_in_set('>=1.2, <<2', line, 'deb')",
};
#define COUNT(list) (sizeof(list) / sizeof *(list))

static void stop(sqlite3 *db) {
  fprintf(stderr, "%s\n", sqlite3_errmsg(db));
  exit(2);
}

static sqlite3_stmt *prepared(sqlite3 *db, const char *statement) {
  sqlite3_stmt *made;
  if (sqlite3_prepare_v2(db, statement, -1, &made, NULL) != SQLITE_OK) stop(db);
  return made;
}

// Runs a statement, and writes the type, the length and the bytes of each value, or the error.
static void run(sqlite3 *db, sqlite3_stmt *statement) {
  int status;
  while ((status = sqlite3_step(statement)) == SQLITE_ROW) {
    for (int column = 0; column < sqlite3_column_count(statement); column++) {
      int type = sqlite3_column_type(statement, column);
      const void *bytes = sqlite3_column_blob(statement, column);
      int length = sqlite3_column_bytes(statement, column);
      printf("%d %d ", type, length);
      if (length > 0) fwrite(bytes, 1, (size_t)length, stdout);
    }
    putchar('\n');
  }
  if (status != SQLITE_DONE) printf("%s\n", sqlite3_errmsg(db));
  sqlite3_reset(statement);
}

int main(int count, char **words) {
  static char line[LONGEST], before[LONGEST], list[LONGEST + 2];
  static const char *const operators[] = {"=", ">", ">=", "<", "<=", "~", "^", ""};
  sqlite3_stmt *each[COUNT(of_each_line)], *by_scheme;
  sqlite3 *db;
  size_t lines = 0;
  if (count < 2 || sqlite3_open(":memory:", &db) != SQLITE_OK) return 2;
  if (sqlite3_enable_load_extension(db, 1) != SQLITE_OK) stop(db);
  if (sqlite3_load_extension(db, words[1], NULL, NULL) != SQLITE_OK) stop(db);
  if (sqlite3_exec(db, "CREATE TABLE lines (line TEXT)", NULL, NULL, NULL) != SQLITE_OK) stop(db);
  for (size_t i = 0; i < COUNT(each); i++) each[i] = prepared(db, of_each_line[i]);
  by_scheme = prepared(db, of_each_scheme);
  while (fgets(line, sizeof line, stdin) != NULL) {
    line[strcspn(line, "\n")] = 0;
    snprintf(list, sizeof list, "%s%s", operators[lines++ % 8], before);
    for (size_t i = 0; i < COUNT(each); i++) {
      sqlite3_bind_text(each[i], 1, line, -1, SQLITE_STATIC);
      if (i > 1) sqlite3_bind_text(each[i], 2, before, -1, SQLITE_STATIC);
      if (i > 2) sqlite3_bind_text(each[i], 3, list, -1, SQLITE_STATIC);
      run(db, each[i]);
    }
    sqlite3_bind_text(by_scheme, 1, line, -1, SQLITE_STATIC);
    sqlite3_bind_text(by_scheme, 2, before, -1, SQLITE_STATIC);
    sqlite3_bind_text(by_scheme, 3, list, -1, SQLITE_STATIC);
    for (int scheme = 2; scheme < count; scheme++) {
      sqlite3_bind_text(by_scheme, 4, words[scheme], -1, SQLITE_STATIC);
      run(db, by_scheme);
    }
    strcpy(before, line);
  }
  for (size_t i = 0; i < COUNT(each); i++) sqlite3_finalize(each[i]);
  sqlite3_finalize(by_scheme);
  for (size_t i = 0; i < COUNT(of_all_lines); i++) {
    sqlite3_stmt *statement = prepared(db, of_all_lines[i]);
    run(db, statement);
    sqlite3_finalize(statement);
  }
  return sqlite3_close(db) == SQLITE_OK && fflush(stdout) == 0 ? 0 : 1;
}
