/* Counts the blocks that Python's allocators have handed out, and lets one allocation of a call fail. */
#include <Python.h>

static const PyMemAllocatorDomain domains[] = {PYMEM_DOMAIN_MEM, PYMEM_DOMAIN_OBJ};
static PyMemAllocatorEx before[2];
static long before_failure = -1; /* how many allocations go on before the one that fails, -1 where none is to fail */
static long blocks;

static int fails(void) { return before_failure >= 0 && before_failure-- == 0; }

static void *counted(void *block) {
  blocks += block != NULL;
  return block;
}

static void *allocate(void *of, size_t size) {
  PyMemAllocatorEx *allocator = of;

  return fails() ? NULL : counted(allocator->malloc(allocator->ctx, size));
}

static void *allocate_zeros(void *of, size_t count, size_t size) {
  PyMemAllocatorEx *allocator = of;

  return fails() ? NULL : counted(allocator->calloc(allocator->ctx, count, size));
}

static void *reallocate(void *of, void *block, size_t size) {
  PyMemAllocatorEx *allocator = of;
  void *moved = fails() ? NULL : allocator->realloc(allocator->ctx, block, size);

  if (block == NULL) counted(moved);
  return moved;
}

static void release(void *of, void *block) {
  PyMemAllocatorEx *allocator = of;

  blocks -= block != NULL;
  allocator->free(allocator->ctx, block);
}

void watch(void) {
  int domain;

  for (domain = 0; domain < 2; domain++) {
    PyMemAllocatorEx watching = {&before[domain], allocate, allocate_zeros, reallocate, release};

    PyMem_GetAllocator(domains[domain], &before[domain]);
    PyMem_SetAllocator(domains[domain], &watching);
  }
}

void unwatch(void) {
  int domain;

  for (domain = 0; domain < 2; domain++) PyMem_SetAllocator(domains[domain], &before[domain]);
}

long blocks_held(void) { return blocks; }

/* Calls with one allocation that fails. *reached becomes whether the call came so far. */
PyObject *call_failing(PyObject *call, long at, int *reached) {
  PyObject *answer;

  before_failure = at;
  answer = PyObject_CallObject(call, NULL);
  *reached = before_failure < 0;
  before_failure = -1;
  return answer;
}
