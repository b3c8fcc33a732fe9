/*
 * system.c: the functions by which a program of the toolchain reads its words, the error number of a system call, and
 * gets memory. The toolchain has them for x86-64 alone, and c/program links these for other processors. They do what the
 * toolchain's declarations say, in os/src/c.rt and libc/src/heap.rt. Nothing of them is proved.
 */
#include <errno.h>
#include <stdbool.h>
#include <stddef.h>
#include <stdint.h>
#include <stdlib.h>
#include <string.h>
#include <sys/types.h>

size_t rattle_arg_count(void);
ssize_t rattle_arg(size_t place, uint8_t *buffer, size_t room);
int32_t rattle_errno(void);
void rattle_set_errno(int32_t error);

/* Whether there is memory, and the pointer to it; without memory, one to a byte that nobody owns. */
struct tried {
  bool ok;
  void *pointer;
};
struct tried rattle_alloc(size_t size, size_t align);
struct tried rattle_realloc(void *block, size_t kept, size_t size, size_t align);
void rattle_dealloc(void *block);

static int count;
static char **words;

/* glibc passes the program's words to a constructor. */
__attribute__((constructor)) static void keep(int given, char **of_program) {
  count = given;
  words = of_program;
}

size_t rattle_arg_count(void) { return (size_t)count; }

/* Returns the length of a word; -1 if there is none at that place, and -2 if the buffer is too small, which is full. */
ssize_t rattle_arg(size_t place, uint8_t *buffer, size_t room) {
  size_t length;
  if (place >= (size_t)count || words[place] == NULL) return -1;
  length = strlen(words[place]);
  memcpy(buffer, words[place], length < room ? length : room);
  return length <= room ? (ssize_t)length : -2;
}

int32_t rattle_errno(void) { return errno; }

void rattle_set_errno(int32_t error) { errno = error; }

static struct tried tried(void *block) {
  static char nothing;
  return (struct tried){block != NULL, block != NULL ? block : &nothing};
}

/* malloc aligns by 16, and no alignment is larger. A block of no bytes takes those of its alignment. */
struct tried rattle_alloc(size_t size, size_t align) { return tried(malloc(size != 0 ? size : align)); }

struct tried rattle_realloc(void *block, size_t kept, size_t size, size_t align) {
  (void)kept;
  return tried(realloc(block, size != 0 ? size : align));
}

void rattle_dealloc(void *block) { free(block); }
