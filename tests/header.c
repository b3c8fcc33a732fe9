// Ways in which a program may use the header's names. tests/c compiles this with every warning, in each standard of C
// and C++, links the library, and runs it.
#include <versions.h>
#include <versions.h>  // Including it twice is allowed.

// A call in an inline function with external linkage.
inline int inlined_kind(const char *text, size_t length);
inline int inlined_kind(const char *text, size_t length) { return versions_kind(text, length); }
extern inline int inlined_kind(const char *text, size_t length);

#ifdef __cplusplus

// A call with a comma inside an argument.
template <size_t first, size_t second>
static size_t sum(void) {
  return first + second;
}

static int kind_by_comma(void) { return versions_kind("1.2.3", sum<2, 3>()); }

// A class with functions of the same names and other parameters.
struct catalogue {
  int versions_kind() const { return ::versions_kind("1.2.3", 5); }
  static int versions_nth(int place) { return place; }
};

static int kind_by_member(void) { return catalogue::versions_nth(catalogue().versions_kind()); }

#else

static int kind_by_comma(void) {
  uint8_t kinds[2] = {77, 77};
  if (versions_kinds("1.2.31.2", 8, (const int64_t[]){0, 5, 8}, 3, kinds, 2) != VERSIONS_OK) return 77;
  return kinds[0];
}

struct catalogue {
  int (*versions_kind)(void);
};

static int kind_by_member(void) {
  struct catalogue catalogue = {kind_by_comma};
  return catalogue.versions_kind();
}

#endif

// A call by its address.
static int kind_by_address(void) {
  int (*kind)(const char *, size_t) = &versions_kind;
  return kind("1.2.3", 5);
}

int main(void) {
  if (inlined_kind("1.2.3", 5) != VERSIONS_IDEAL) return 1;
  if (kind_by_comma() != VERSIONS_IDEAL) return 2;
  if (kind_by_member() != VERSIONS_IDEAL) return 3;
  if (kind_by_address() != VERSIONS_IDEAL) return 4;
  return 0;
}
