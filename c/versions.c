/*
 * versions.c: the functions of versions.h. What is included here follows from the header: c/declarations.py writes it.
 */
#include "versions.h"

/*
 * The proved functions. crates/versions_c exports them under the names of the calls; c/build adds the prefix proved_.
 * Their pointers are never null, because a slice in Rust is never null, even if it is empty.
 */
#include "prototypes.inc"

/* Stands in for a null pointer to an empty array. It is aligned for each type, and is neither read nor written. */
static uint64_t nothing;

/* Whether a pointer is null, which few are: so the compiler tests it first. */
static bool is_null(const void *pointer) { return __builtin_expect(pointer == NULL, 0); }

/* Whether a pointer is null although len is not 0. */
static bool lacks(const void *pointer, size_t len) { return is_null(pointer) && len != 0; }

/* The pointer, or one that is not null, to read from. */
static const void *from(const void *pointer) { return is_null(pointer) ? &nothing : pointer; }

/* The pointer, or one that is not null, to write to. */
static void *to(void *pointer) { return is_null(pointer) ? &nothing : pointer; }

/* The most elements that an array can have, by a pointer to one. A slice in Rust has no more bytes either. */
#define MOST(array) ((size_t)PTRDIFF_MAX / sizeof *(array))

/* A length, or the most that an array to write to can have. */
static size_t within(size_t len, size_t most) { return len > most ? most : len; }

/*
 * The calls. Each returns VERSIONS_NULL if a pointer is null that should point to something, VERSIONS_TOO_LONG if an
 * array to read from is longer than one can be, and otherwise calls the proved function.
 */
#include "functions.inc"

const char *versions_status_text(int status) {
  switch (status) {
#include "statuses.inc"
    default: return "not a status of this library";
  }
}

const char *versions_version(void) { return VERSIONS_VERSION; }
