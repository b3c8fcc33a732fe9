// What the library for C answers for lines and lists of requirements, as one number for each call:
//   digest LINES LISTS
// javascript/tests/digest.js makes the same numbers of the WebAssembly module, and says how.
#include <versions.h>

#include <stdio.h>
#include <stdlib.h>
#include <string.h>

enum { PREFIX = 2, ROOM = 64, LISTS = 20, CALLS = 64 };

struct text {
  const char *at;
  size_t length;
};

struct texts {
  struct text *texts;
  size_t count;
};

static struct {
  const char *name;
  uint32_t state;
} digests[CALLS];

// The digest of a call, FNV-1a.
static uint32_t *of(const char *name) {
  size_t place = 0;
  while (digests[place].name != NULL && strcmp(digests[place].name, name) != 0) place++;
  if (digests[place].name == NULL) {
    digests[place].name = name;
    digests[place].state = 0x811c9dc5u;
  }
  return &digests[place].state;
}

static void digest(const char *name, const void *bytes, size_t length) {
  uint32_t *state = of(name);
  for (size_t at = 0; at < length; at++) *state = (*state ^ ((const uint8_t *)bytes)[at]) * 0x01000193u;
}

// Digests a status and the first slots, and clears these for the next call. Returns whether the status is VERSIONS_OK.
static uint64_t slots[8];
static bool digest_slots(const char *name, int status, size_t count, size_t width) {
  int32_t its = status;
  digest(name, &its, sizeof its);
  for (size_t place = 0; place < count; place++) digest(name, &slots[place], width);
  return status == VERSIONS_OK;
}

static void *allocated(size_t size) {
  void *memory = malloc(size + 1);
  if (memory == NULL) exit(2);
  return memory;
}

static struct texts read_texts(const char *name) {
  FILE *file = fopen(name, "rb");
  struct texts found = {NULL, 0};
  if (file == NULL || fseek(file, 0, SEEK_END) != 0) exit(2);
  size_t size = (size_t)ftell(file);
  char *bytes = (char *)allocated(size);
  rewind(file);
  if (fread(bytes, 1, size, file) != size) exit(2);
  fclose(file);
  found.texts = (struct text *)allocated(size * sizeof *found.texts);
  for (size_t from = 0; from < size;) {
    char *end = (char *)memchr(bytes + from, '\n', size - from);
    size_t length = end != NULL ? (size_t)(end - bytes) - from : size - from;
    found.texts[found.count].at = bytes + from;
    found.texts[found.count++].length = length;
    from += length + 1;
  }
  return found;
}

#define CLEAR memset(slots, 0, sizeof slots)
#define I32 ((int32_t *)&slots[0])
#define U32(place) ((uint32_t *)&slots[place])
#define SIZE(place) ((size_t *)&slots[place])

// The number of the last scheme, by the names of all.
static uint32_t last_scheme;

// A form that a call writes, with its status and length.
static size_t digest_form(const char *name, int status, const uint8_t *form) {
  return digest_slots(name, status, 1, 8) ? digest(name, form, slots[0]), slots[0] : 0;
}

// The list as a set of a scheme, the set of a version, and what is made of both.
static void digest_sets(uint32_t scheme, struct text a, struct text list) {
  CLEAR, digest_slots("set_bound", versions_set_bound(scheme, list.at, list.length, SIZE(0)), 1, 8);
  size_t room = slots[0], tied_room = 6 * a.length + 64;
  uint8_t *form = (uint8_t *)allocated(room), *tied = (uint8_t *)allocated(tied_room);
  uint8_t *made = (uint8_t *)allocated(room + tied_room);
  CLEAR;
  size_t length = digest_form("set", versions_set(scheme, list.at, list.length, form, room, SIZE(0)), form);
  CLEAR;
  int status = versions_set_of_version(scheme, a.at, a.length, tied, tied_room, SIZE(0));
  size_t tied_length = digest_form("set_of_version", status, tied);
  CLEAR, digest_slots("set_wrong", versions_set_wrong(scheme, list.at, list.length, SIZE(0), U32(1)), 2, 8);
  CLEAR, status = versions_set_wrong_text(scheme, list.at, list.length, (char *)made, room + tied_room, SIZE(0));
  digest_form("set_wrong_text", status, made);
  CLEAR, digest_slots("set_has", versions_set_has(form, length, a.at, a.length, (bool *)&slots[0]), 1, 1);
  CLEAR, digest_slots("set_scheme", versions_set_scheme(form, length, U32(0)), 1, 8);
  CLEAR, digest_slots("set_count", versions_set_count(form, length, SIZE(0)), 1, 8);
  CLEAR, status = versions_set_interval(form, length, 0, SIZE(0), SIZE(1), SIZE(2), SIZE(3));
  digest_slots("set_interval", status, 4, 8);
  CLEAR, status = versions_set_part_of(tied, tied_length, form, length, (bool *)&slots[0]);
  digest_slots("set_part_of", status, 1, 1);
  CLEAR, status = versions_set_meets(tied, tied_length, form, length, (bool *)&slots[0]);
  digest_slots("set_meets", status, 1, 1);
  CLEAR, status = versions_set_and(form, length, tied, tied_length, made, room + tied_room, SIZE(0));
  digest_form("set_and", status, made);
  CLEAR, status = versions_set_or(form, length, tied, tied_length, made, room + tied_room, SIZE(0));
  digest_form("set_or", status, made);
  CLEAR, digest_form("set_not", versions_set_not(tied, tied_length, made, room + tied_room, SIZE(0)), made);
  free(form), free(tied), free(made);
}

static void digest_one(size_t place, struct text a, struct text b, struct text list) {
  size_t room = 3 * (a.length > list.length ? a.length : list.length) + 5;
  uint8_t *out = (uint8_t *)allocated(room), *high = (uint8_t *)allocated(room);
  CLEAR, digest_slots("kind", versions_kind(a.at, a.length), 0, 8);
  CLEAR, digest_slots("stability", versions_stability(a.at, a.length), 0, 8);
  CLEAR, digest_slots("compare_total", versions_compare_total(a.at, a.length, b.at, b.length, I32), 1, 8);
  CLEAR, digest_slots("difference", versions_difference(a.at, a.length, b.at, b.length, U32(0), SIZE(1)), 2, 8);
  CLEAR;
  if (digest_slots("parse", versions_parse(a.at, a.length, (uint8_t *)&slots[0], out, room, SIZE(1)), 2, 8))
    digest("parse", out, slots[1]);
  // A short buffer, of the room that is needed at most.
  CLEAR;
  digest_slots("key", versions_key(VERSIONS_MIXED, a.at, a.length, out, room < ROOM ? room : ROOM, SIZE(0)), 1, 8);
  CLEAR, digest_slots("matches", versions_matches(list.at, list.length, a.at, a.length, (bool *)&slots[0]), 1, 8);
  CLEAR, digest_slots("wrong_member", versions_wrong_member(list.at, list.length, SIZE(0), SIZE(1)), 2, 8);
  CLEAR, digest_slots("wrong_member", versions_wrong_member(a.at, a.length, SIZE(0), SIZE(1)), 2, 8);
  CLEAR, digest_slots("why_not", versions_why_not(list.at, list.length, a.at, a.length, SIZE(0), SIZE(1), U32(2)), 3, 8);
  CLEAR;
  if (digest_slots("why_text", versions_why_text(list.at, list.length, a.at, a.length, (char *)out, room, SIZE(0)), 1, 8))
    digest("why_text", out, slots[0]);
  CLEAR, digest_slots("conflict", versions_conflict(list.at, list.length, SIZE(0), SIZE(1), SIZE(2), SIZE(3)), 4, 8);
  CLEAR;
  int status = versions_range(list.at, list.length, out, room, SIZE(0), high, room, SIZE(1), U32(2));
  if (digest_slots("range", status, 3, 8)) {
    size_t low_len = slots[0], high_len = slots[1];
    uint32_t flags = (uint32_t)slots[2];
    digest("range", out, low_len);
    digest("range", high, high_len);
    CLEAR, status = versions_in_range(a.at, a.length, out, low_len, high, high_len, flags, (bool *)&slots[0]);
    digest_slots("in_range", status, 1, 1);
    CLEAR, status = versions_match_in_range(a.at, a.length, out, low_len, high, high_len, flags, list.at, list.length,
                                            (bool *)&slots[0]);
    digest_slots("match_in_range", status, 1, 1);
  }
  CLEAR;
  if (digest_slots("inexact", versions_inexact(list.at, list.length, (char *)out, room, SIZE(0)), 1, 8))
    digest("inexact", out, slots[0]);
  digest_sets(VERSIONS_MIXED + (uint32_t)(place % last_scheme), a, list);
  CLEAR, digest_slots("scheme", versions_scheme(a.at, a.length, U32(0)), 1, 8);
  for (uint32_t scheme = 0; scheme <= last_scheme; scheme++) {
    CLEAR, digest_slots("has", versions_has(scheme, a.at, a.length, (bool *)&slots[0]), 1, 1);
    CLEAR, digest_slots("key_bound", versions_key_bound(scheme, a.length, SIZE(0)), 1, 8);
    CLEAR, digest_slots("wrong", versions_wrong(scheme, a.at, a.length, SIZE(0), U32(1)), 2, 8);
    CLEAR;
    if (digest_slots("wrong_text", versions_wrong_text(scheme, a.at, a.length, (char *)out, room, SIZE(0)), 1, 8))
      digest("wrong_text", out, slots[0]);
    CLEAR;
    int status = versions_compare(scheme, a.at, a.length, b.at, b.length, I32);
    digest_slots("compare", status, 1, 8);
    CLEAR, status = versions_key(scheme, a.at, a.length, out, room, SIZE(0));
    if (digest_slots("key", status, 1, 8)) digest("key", out, slots[0]);
    CLEAR, status = versions_scheme_name(scheme, (char *)out, room, SIZE(0));
    if (digest_slots("scheme_name", status, 1, 8)) digest("scheme_name", out, slots[0]);
  }
  for (uint32_t n = 0; n < 4; n++) {
    CLEAR, digest_slots("nth", versions_nth(a.at, a.length, n, U32(0)), 1, 8);
    CLEAR, digest_slots("field", versions_field(a.at, a.length, n + 1, SIZE(0), SIZE(1)), 2, 8);
    CLEAR;
    if (digest_slots("next", versions_next(a.at, a.length, n, (char *)out, room, SIZE(0)), 1, 8))
      digest("next", out, slots[0]);
  }
  CLEAR;
  if (digest_slots("next_release", versions_next_release(a.at, a.length, (char *)out, room, SIZE(0)), 1, 8))
    digest("next_release", out, slots[0]);
  for (int own = 1; own >= 0; own--) {
    CLEAR, status = versions_next_pre(a.at, a.length, b.at, own ? 0 : b.length, (char *)out, room, SIZE(0));
    if (digest_slots("next_pre", status, 1, 8)) digest("next_pre", out, slots[0]);
  }
  CLEAR, digest_slots("epoch", versions_epoch(a.at, a.length, &slots[0]), 1, 8);
  CLEAR, digest_slots("is_prerelease", versions_is_prerelease(a.at, a.length, (bool *)&slots[0]), 1, 1);
  CLEAR, digest_slots("in_tag", versions_in_tag(a.at, a.length, SIZE(0)), 1, 8);
  size_t prefix = a.length < PREFIX ? a.length : PREFIX;
  CLEAR, digest_slots("after_prefix", versions_after_prefix(a.at, prefix, a.at, a.length, SIZE(0)), 1, 8);
  free(out);
  free(high);
}

static void digest_all(struct texts lines, struct texts lists) {
  size_t n = lines.count, size = 0;
  for (size_t place = 0; place < n; place++) size += lines.texts[place].length;
  size_t room = 5 * size + 7 * n;
  char *texts = (char *)allocated(size);
  int64_t *offsets = (int64_t *)allocated(8 * (n + 1)), *key_offsets = (int64_t *)allocated(8 * (n + 1));
  uint64_t *order = (uint64_t *)allocated(8 * n);
  uint8_t *keys = (uint8_t *)allocated(room);
  offsets[0] = 0;
  for (size_t place = 0; place < n; place++) {
    memcpy(texts + offsets[place], lines.texts[place].at, lines.texts[place].length);
    offsets[place + 1] = offsets[place] + (int64_t)lines.texts[place].length;
  }
  digest_slots("kinds", versions_kinds(texts, size, offsets, n + 1, keys, n), 0, 8);
  digest("kinds", keys, n);
  digest_slots("stabilities", versions_stabilities(texts, size, offsets, n + 1, keys, n), 0, 8);
  digest("stabilities", keys, n);
  digest_slots("in_tags", versions_in_tags(texts, size, offsets, n + 1, (int64_t *)order, n), 0, 8);
  digest("in_tags", order, 8 * n);
  for (uint32_t scheme = VERSIONS_MIXED; scheme <= last_scheme; scheme++) {
    int its = versions_keys(scheme, texts, size, offsets, n + 1, keys, room, key_offsets, n + 1);
    digest_slots("keys", its, 0, 8);
    digest("keys", key_offsets, 8 * (n + 1));
    digest("keys", keys, (size_t)key_offsets[n]);
    its = versions_sort(scheme, texts, size, offsets, n + 1, keys, room, key_offsets, n + 1, order, n);
    digest_slots("sort", its, 0, 8);
    digest("sort", order, 8 * n);
  }
  for (size_t place = 0; place < lists.count && place < LISTS; place++) {
    struct text list = lists.texts[place];
    for (uint32_t flags = 0; flags < 2; flags++) {
      CLEAR;
      int status = versions_newest(texts, size, offsets, n + 1, list.at, list.length, 4 * flags, flags, SIZE(0));
      digest_slots("newest", status, 1, 8);
    }
    if (digest_slots("match_all", versions_match_all(list.at, list.length, texts, size, offsets, n + 1, keys, n), 0, 8))
      digest("match_all", keys, n);
  }
  uint8_t form[256];
  CLEAR;
  if (!digest_slots("set", versions_set(VERSIONS_MIXED, "!=1", 3, form, sizeof form, SIZE(0)), 0, 8)) exit(2);
  size_t length = slots[0];
  digest_slots("set_has_all", versions_set_has_all(form, length, texts, size, offsets, n + 1, keys, n), 0, 8);
  digest("set_has_all", keys, n);
  const uint8_t low[] = {0, 3, 1, 49, 2}, high[] = {0, 3, 1, 50, 2};
  int status = versions_in_range_all(texts, size, offsets, n + 1, low, sizeof low, high, sizeof high, 15, keys, n);
  digest_slots("in_range_all", status, 0, 8);
  digest("in_range_all", keys, n);
  free(texts), free(offsets), free(key_offsets), free(order), free(keys);
}

static int compare_names(const void *a, const void *b) { return strcmp(*(char *const *)a, *(char *const *)b); }

int main(int count, char **words) {
  if (count != 3) return 2;
  struct texts lines = read_texts(words[1]), lists = read_texts(words[2]);
  if (lines.count == 0 || lists.count == 0) return 2;
  while (versions_scheme_name(last_scheme + 1, NULL, 0, SIZE(0)) == VERSIONS_NO_ROOM) last_scheme++;
  for (size_t place = 0; place < lines.count; place++) {
    digest_one(place, lines.texts[place], lines.texts[(place + 1) % lines.count], lists.texts[place % lists.count]);
  }
  digest_all(lines, lists);
  char *said[CALLS];
  size_t calls = 0;
  for (; digests[calls].name != NULL; calls++) {
    said[calls] = (char *)allocated(64);
    snprintf(said[calls], 64, "%s %08x\n", digests[calls].name, (unsigned)digests[calls].state);
  }
  qsort(said, calls, sizeof *said, compare_names);
  for (size_t place = 0; place < calls; place++) fputs(said[place], stdout);
  return 0;
}
