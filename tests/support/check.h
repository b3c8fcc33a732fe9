// How the C programs of tests/ check: CHECK counts a failure and prints it, and a program ends with the count of them.
#ifndef CHECK_H
#define CHECK_H

#include <stdio.h>

static int failures;

#define CHECK(holds)                                                \
  do {                                                              \
    if (!(holds)) {                                                 \
      failures++;                                                   \
      fprintf(stderr, "FAILED: line %d: %s\n", __LINE__, #holds);   \
    }                                                               \
  } while (0)

#endif
