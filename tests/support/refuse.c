// Refuses one request for memory to a program, and counts the blocks that it takes and gives back.
// tests/refused_memory builds it as a shared library and has the system load it before the C library, so that it
// stands in for that library's own allocator:
//   REFUSE   the request that is refused, counted from 1
//   REPORT   the file for the report: 1 where a request was refused, else 0, and the blocks that are still taken
#define _GNU_SOURCE
#include <errno.h>
#include <stddef.h>
#include <stdio.h>
#include <stdlib.h>

// The allocator of the GNU C library, by the names under which it is there beside the usual ones.
void *__libc_malloc(size_t size);
void *__libc_calloc(size_t count, size_t size);
void *__libc_realloc(void *block, size_t size);
void *__libc_memalign(size_t alignment, size_t size);
void __libc_free(void *block);

static unsigned long requests, refused_request;
static long taken;

__attribute__((constructor)) static void begin(void) {
  const char *text = getenv("REFUSE");
  if (text != NULL) refused_request = strtoul(text, NULL, 10);
}

__attribute__((destructor)) static void end(void) {
  // From here on the requests are this function's own.
  int was_refused = refused_request != 0 && requests >= refused_request;
  long still_taken = taken;
  refused_request = 0;
  const char *path = getenv("REPORT");
  FILE *report = path == NULL ? NULL : fopen(path, "w");
  if (report == NULL) return;
  fprintf(report, "%d %ld\n", was_refused, still_taken);
  fclose(report);
}

// Counts a request, and says whether it is the one.
static int is_refused(void) {
  if (++requests != refused_request) return 0;
  errno = ENOMEM;
  return 1;
}

// Counts a block, where there is one.
static void *counted(void *block) {
  if (block != NULL) taken++;
  return block;
}

void *malloc(size_t size) { return is_refused() ? NULL : counted(__libc_malloc(size)); }

void *calloc(size_t count, size_t size) { return is_refused() ? NULL : counted(__libc_calloc(count, size)); }

void *aligned_alloc(size_t alignment, size_t size) {
  return is_refused() ? NULL : counted(__libc_memalign(alignment, size));
}

int posix_memalign(void **block, size_t alignment, size_t size) {
  *block = aligned_alloc(alignment, size);
  return *block == NULL ? ENOMEM : 0;
}

// A block that moves is still one block.
void *realloc(void *block, size_t size) {
  if (is_refused()) return NULL;
  return block == NULL ? counted(__libc_malloc(size)) : __libc_realloc(block, size);
}

void free(void *block) {
  if (block != NULL) taken--;
  __libc_free(block);
}
