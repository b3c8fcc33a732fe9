/* Prints the versions among its arguments, the lowest first. */
#include <versions.h>

#include <stdio.h>
#include <stdlib.h>
#include <string.h>

static int by_version(const void *a, const void *b) {
  const char *const *first = (const char *const *)a, *const *second = (const char *const *)b;
  int32_t order = 0;
  versions_compare(VERSIONS_MIXED, *first, strlen(*first), *second, strlen(*second), &order);
  return order;
}

int main(int count, char **words) {
  int kept = 0;
  for (int i = 1; i < count; i++) {
    if (versions_kind(words[i], strlen(words[i])) != VERSIONS_NONE) {
      words[kept++] = words[i];
    } else {
      fprintf(stderr, "%s: %s\n", words[i], versions_status_text(VERSIONS_NO_VERSION));
    }
  }
  qsort(words, (size_t)kept, sizeof *words, by_version);
  for (int i = 0; i < kept; i++) printf("%s\n", words[i]);
  return 0;
}
