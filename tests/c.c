// The program of tests/c. It links the library and makes its calls on the lines of standard input:
//   show      prints the kind of each line, its sort key in hexadecimal, and its first four numbers
//   compare   prints how each line compares with the next line: by precedence, and with ties broken
//   match R   prints 1, 0 or 2 for each line, as versions_match_all writes
//   sort      prints the lines in the order of versions_sort
//   threads   checks that eight threads at once get the same results
//   edges     needs no lines: null pointers, buffer sizes, offsets, bytes that are not UTF-8, every status, the version
//   long      texts of megabytes
//   many      a hundred thousand texts
//   ranges    needs no lines: ranges worked out by hand, buffer sizes, random lists and texts, bounds that are not keys
//   memory    makes every call, and allocates nothing itself
// A call for many texts and the call for one text must agree wherever both are made. The program prints each check that
// fails, and its status is then not 0. It is compiled as C and as C++.
#ifndef _GNU_SOURCE
#define _GNU_SOURCE
#endif
#include <versions.h>

#include <pthread.h>
#include <stdio.h>
#include <stdlib.h>
#include <string.h>
#include <sys/mman.h>
#include <unistd.h>

#include "schemes.h"  // what tests/support/schemes.py writes
#include "support/check.h"

#define COUNT(list) (sizeof(list) / sizeof *(list))

// Memory that ends at a page that may be neither read nor written. So an access one byte too far ends the program, even
// in the library, which the sanitizers do not see into. The address and the length of the mapping are stored before it.
static void *block(size_t size) {
  size_t page = (size_t)sysconf(_SC_PAGESIZE), whole = (size / page + 3) * page;
  char *base = (char *)mmap(NULL, whole, PROT_READ | PROT_WRITE, MAP_PRIVATE | MAP_ANONYMOUS, -1, 0);
  if (base == (char *)MAP_FAILED || mprotect(base + whole - page, page, PROT_NONE) != 0) exit(2);
  char *bytes = base + whole - page - size;
  memcpy(bytes - sizeof base, &base, sizeof base);
  memcpy(bytes - sizeof base - sizeof whole, &whole, sizeof whole);
  return bytes;
}

static void release(void *bytes) {
  char *base;
  size_t whole;
  if (bytes == NULL) return;
  memcpy(&base, (char *)bytes - sizeof base, sizeof base);
  memcpy(&whole, (char *)bytes - sizeof base - sizeof whole, sizeof whole);
  if (munmap(base, whole) != 0) exit(2);
}

// The lines of standard input in one buffer without line feeds, with their offsets. They are not read by <stdio.h>,
// which allocates.
struct lines {
  char *texts;
  int64_t *offsets;
  size_t count, length;
};

static struct lines read_lines(void) {
  size_t room = 1 << 20, used = 0;
  ssize_t got;
  char *all = (char *)block(room);
  struct lines lines;
  while ((got = read(STDIN_FILENO, all + used, room - used)) > 0) {
    used += (size_t)got;
    if (used == room) {
      char *more = (char *)block(2 * room);
      memcpy(more, all, used);
      release(all);
      all = more;
      room *= 2;
    }
  }
  lines.count = 0;
  for (size_t i = 0; i < used; i++) lines.count += all[i] == '\n';
  lines.length = used - lines.count;
  lines.texts = (char *)block(lines.length);
  lines.offsets = (int64_t *)block((lines.count + 1) * sizeof(int64_t));
  lines.offsets[0] = 0;
  size_t line = 0, at = 0;
  for (size_t i = 0; i < used; i++) {
    if (all[i] == '\n') {
      lines.offsets[++line] = (int64_t)at;
    } else {
      lines.texts[at++] = all[i];
    }
  }
  release(all);
  return lines;
}

static void free_lines(struct lines *lines) {
  release(lines->texts);
  release(lines->offsets);
}

static const char *text_of(const struct lines *lines, size_t line) { return lines->texts + lines->offsets[line]; }

static size_t length_of(const struct lines *lines, size_t line) {
  return (size_t)(lines->offsets[line + 1] - lines->offsets[line]);
}

// The size that is enough for the key of a text of a length in a scheme.
static size_t bound_in(uint32_t scheme, size_t length) {
  size_t bound = 77;
  CHECK(versions_key_bound(scheme, length, &bound) == VERSIONS_OK);
  return bound;
}

// The key of a text in a block of exactly its length, or NULL. Checks that a buffer of size 0, or one byte too small,
// stays unchanged, and that nothing after the key is written.
static uint8_t *key_of(const char *text, size_t length, size_t *key_length) {
  size_t bound = bound_in(VERSIONS_MIXED, length), needed = 77;
  int status = versions_key(VERSIONS_MIXED, text, length, NULL, 0, &needed);
  if (status == VERSIONS_NO_VERSION) {
    CHECK(needed == 77);
    CHECK(versions_kind(text, length) == VERSIONS_NONE);
    return NULL;
  }
  CHECK(status == VERSIONS_NO_ROOM);
  CHECK(0 < needed && needed <= bound);
  *key_length = needed;

  uint8_t *key = (uint8_t *)block(needed);
  memset(key, 170, needed);
  CHECK(versions_key(VERSIONS_MIXED, text, length, key, needed - 1, key_length) == VERSIONS_NO_ROOM);
  CHECK(*key_length == needed);
  for (size_t i = 0; i < needed; i++) CHECK(key[i] == 170);
  CHECK(versions_key(VERSIONS_MIXED, text, length, key, needed, key_length) == VERSIONS_OK);
  CHECK(*key_length == needed);

  uint8_t *other = (uint8_t *)block(bound + 3);
  memset(other, 170, bound + 3);
  CHECK(versions_key(VERSIONS_MIXED, text, length, other, bound + 3, key_length) == VERSIONS_OK);
  CHECK(*key_length == needed && memcmp(key, other, needed) == 0);
  for (size_t i = needed; i < bound + 3; i++) CHECK(other[i] == 170);
  release(other);
  return key;
}

// Checks versions_parse with buffers of several sizes, beside the kind and the key of the text. The key is NULL if the
// text is not a version.
static void check_parse(const char *text, size_t length, int kind, const uint8_t *key, size_t key_length) {
  const size_t rooms[] = {0,          key_length / 2, key_length - (key != NULL),
                          key_length, key_length + 3, bound_in(VERSIONS_MIXED, length)};
  for (size_t i = 0; i < sizeof rooms / sizeof *rooms; i++) {
    size_t room = rooms[i], needed = 77;
    bool fits = key != NULL && key_length <= room;
    uint8_t *bytes = (uint8_t *)block(room), parsed = 77;
    memset(bytes, 170, room);
    CHECK(versions_parse(text, length, &parsed, bytes, room, &needed) ==
          (key == NULL ? VERSIONS_NO_VERSION : fits ? VERSIONS_OK : VERSIONS_NO_ROOM));
    CHECK(parsed == (fits ? kind : 77));
    CHECK(needed == (key == NULL ? 77 : key_length));
    CHECK(!fits || memcmp(bytes, key, key_length) == 0);
    for (size_t at = fits ? key_length : 0; at < room; at++) CHECK(bytes[at] == 170);
    release(bytes);
  }
}

// The numbers of the fields, 1 to 4, and others, of which some have the last bits of these.
static const uint32_t fields[] = {0, 1, 2, 3, 4, 5, 8, 257, 65538, 0x80000003u, UINT32_MAX};

// The place of a field in a text of this kind, by the text. Returns whether the version has the field.
static bool field_of(const char *text, size_t length, int kind, uint32_t field, size_t *start, size_t *end) {
  const char *plus = (const char *)memchr(text, '+', length);
  size_t until = plus != NULL ? (size_t)(plus - text) : length, digits = 0;
  const char *hyphen = (const char *)memchr(text, '-', until);
  switch (field) {
    case VERSIONS_FIELD_EPOCH:
      while (digits < length && text[digits] >= '0' && text[digits] <= '9') digits++;
      *start = 0;
      *end = digits;
      return kind != VERSIONS_NONE && 0 < digits && digits < length && text[digits] == ':';
    case VERSIONS_FIELD_PRE_RELEASE:
    case VERSIONS_FIELD_RELEASE:
      *start = hyphen != NULL ? (size_t)(hyphen - text) + 1 : 0;
      *end = until;
      return hyphen != NULL && kind == (field == VERSIONS_FIELD_RELEASE ? VERSIONS_GENERAL : VERSIONS_IDEAL);
    case VERSIONS_FIELD_METADATA:
      *start = until + 1;
      *end = length;
      return plus != NULL && (kind == VERSIONS_IDEAL || kind == VERSIONS_GENERAL);
    default: return false;
  }
}

static void check_fields(const char *text, size_t length, int kind) {
  for (size_t i = 0; i < sizeof fields / sizeof *fields; i++) {
    size_t start = 77, end = 78, wanted_start, wanted_end;
    int status = versions_field(text, length, fields[i], &start, &end);
    if (field_of(text, length, kind, fields[i], &wanted_start, &wanted_end)) {
      CHECK(status == VERSIONS_OK);
      CHECK(start == wanted_start && end == wanted_end);
      CHECK(start < end && end <= length);
    } else {
      bool is_field = VERSIONS_FIELD_EPOCH <= fields[i] && fields[i] <= VERSIONS_FIELD_METADATA;
      int without = kind == VERSIONS_NONE ? VERSIONS_NO_VERSION : VERSIONS_NO_FIELD;
      CHECK(status == (is_field ? without : VERSIONS_UNKNOWN_FIELD));
      CHECK(start == 77 && end == 78);
    }
  }
}

// The number of some digits, or INT64_MAX if it is greater.
static uint64_t number_of(const char *digits, size_t length) {
  char number[20] = "";
  for (; length > 0 && *digits == '0'; length--) digits++;
  if (length >= sizeof number) return INT64_MAX;
  memcpy(number, digits, length);
  uint64_t value = strtoull(number, NULL, 10);
  return value < INT64_MAX ? value : INT64_MAX;
}

// Whether the number of some digits is greater than INT64_MAX.
static bool is_large(const char *digits, size_t length) {
  static const char largest[] = "9223372036854775807";
  for (; length > 0 && *digits == '0'; length--) digits++;
  if (length != strlen(largest)) return length > strlen(largest);
  return memcmp(digits, largest, length) > 0;
}

static void check_epoch(const char *text, size_t length, int kind) {
  size_t start, end;
  uint64_t epoch = 77;
  int status = versions_epoch(text, length, &epoch);
  if (field_of(text, length, kind, VERSIONS_FIELD_EPOCH, &start, &end)) {
    CHECK(epoch == number_of(text, end));
    CHECK(status == (is_large(text, end) ? VERSIONS_LARGE_EPOCH : VERSIONS_OK));
  } else {
    CHECK(status == (kind == VERSIONS_NONE ? VERSIONS_NO_VERSION : VERSIONS_NO_NUMBER) && epoch == 77);
  }
}

static void check_prerelease(const char *text, size_t length, int kind) {
  size_t start, end;
  bool wanted = field_of(text, length, kind, VERSIONS_FIELD_PRE_RELEASE, &start, &end), answer = !wanted;
  int status = versions_is_prerelease(text, length, &answer);
  CHECK(status == (kind == VERSIONS_NONE ? VERSIONS_NO_VERSION : VERSIONS_OK));
  CHECK(answer == (kind == VERSIONS_NONE ? !wanted : wanted));
}

static bool is_digit(char byte) { return byte >= '0' && byte <= '9'; }
static bool is_letter(char byte) { return (byte >= 'a' && byte <= 'z') || (byte >= 'A' && byte <= 'Z'); }
static bool is_sign(char byte) { return !is_digit(byte) && !is_letter(byte) && byte != '.'; }

// Where the version of a tag may begin, by the rule of versions.h, or the length of the tag.
static size_t start_of(const char *tag, size_t length) {
  for (size_t i = 0; i < length; i++) {
    if (!is_digit(tag[i])) continue;
    size_t before = i > 0 && (tag[i - 1] == 'v' || tag[i - 1] == 'V') ? i - 1 : i;
    if (i == 0 || before == 0 || is_sign(tag[before - 1])) return i;
    if (i + 2 < length && tag[i + 1] == '.' && is_digit(tag[i + 2])) return length;
  }
  return length;
}

// Checks where the version of a tag begins, and that it is found there after what stands before it.
static void check_tag(const char *tag, size_t length) {
  size_t wanted = start_of(tag, length), start = 77;
  int status = versions_in_tag(tag, length, &start);
  if (versions_kind(tag + wanted, length - wanted) == VERSIONS_NONE) {
    CHECK(status == VERSIONS_NO_VERSION && start == 77);
    return;
  }
  CHECK(status == VERSIONS_OK && start == wanted);
  start = 77;
  CHECK(versions_after_prefix(tag, wanted, tag, length, &start) == VERSIONS_OK && start == wanted);
  start = 77;
  CHECK(versions_after_prefix(tag, length, tag, length, &start) == VERSIONS_NO_VERSION && start == 77);
}

// Checks what a text of this kind says of itself, by the text.
static void check_values(const char *text, size_t length, int kind) {
  check_fields(text, length, kind);
  check_epoch(text, length, kind);
  check_prerelease(text, length, kind);
  check_tag(text, length);
  int stability = versions_stability(text, length);
  CHECK(kind == VERSIONS_NONE ? stability == VERSIONS_NONE
                              : VERSIONS_DEV <= stability && stability <= VERSIONS_STABLE);
}

// The place of the newest text that is asked for, by calls for one text each, or the number of texts.
static size_t newest_of(const struct lines *lines, const char *list, size_t length, uint32_t least, uint32_t flags) {
  size_t newest = lines->count, newest_length = 0;
  const char *newest_text = NULL;
  for (size_t line = 0; line < lines->count; line++) {
    size_t start = 0, text_length = length_of(lines, line);
    const char *text = text_of(lines, line);
    int32_t order = 1;
    bool matches = false;
    if ((flags & VERSIONS_NEWEST_TAGS) && versions_in_tag(text, text_length, &start) != VERSIONS_OK) continue;
    text += start;
    text_length -= start;
    if (versions_matches(list, length, text, text_length, &matches) != VERSIONS_OK || !matches) continue;
    if ((uint32_t)versions_stability(text, text_length) < least) continue;
    if (newest < lines->count) versions_compare(VERSIONS_MIXED, text, text_length, newest_text, newest_length, &order);
    if (order != 1) continue;
    newest = line;
    newest_text = text;
    newest_length = text_length;
  }
  return newest;
}

// Checks where the versions of tags begin, how stable they are, and the newest of them, by the calls for one text.
static void check_many(const struct lines *lines) {
  static const char *const lists[] = {"*", ">=1.2,<9", "^1.2.3", ">1.0.0,<0.9.9", "no list"};
  static const uint32_t flags[] = {0, VERSIONS_NEWEST_TAGS, 2, UINT32_MAX};
  size_t count = lines->count, start;
  uint8_t *stabilities = (uint8_t *)block(count);
  int64_t *starts = (int64_t *)block(count * sizeof(int64_t));
  CHECK(versions_stabilities(lines->texts, lines->length, lines->offsets, count + 1, stabilities, count) ==
        VERSIONS_OK);
  CHECK(versions_in_tags(lines->texts, lines->length, lines->offsets, count + 1, starts, count) == VERSIONS_OK);
  for (size_t line = 0; line < count; line++) {
    CHECK(stabilities[line] == versions_stability(text_of(lines, line), length_of(lines, line)));
    if (versions_in_tag(text_of(lines, line), length_of(lines, line), &start) != VERSIONS_OK) {
      start = length_of(lines, line);
    }
    CHECK(starts[line] == lines->offsets[line] + (int64_t)start);
  }
  release(stabilities);
  release(starts);
  for (size_t i = 0; i < sizeof lists / sizeof *lists; i++) {
    bool is_list = i + 1 < sizeof lists / sizeof *lists;
    for (size_t j = 0; j < sizeof flags / sizeof *flags; j++) {
      for (uint32_t least = 0; least <= VERSIONS_STABLE + 1; least++) {
        size_t place = SIZE_MAX, length = strlen(lists[i]);
        size_t wanted = newest_of(lines, lists[i], length, least, flags[j]);
        int status = versions_newest(lines->texts, lines->length, lines->offsets, count + 1, lists[i], length, least,
                                     flags[j], &place);
        CHECK(status == (!is_list ? VERSIONS_NO_REQUIREMENTS : wanted == count ? VERSIONS_NO_VERSION : VERSIONS_OK));
        CHECK(place == (wanted == count ? SIZE_MAX : wanted));
      }
    }
  }
}

static void show(const struct lines *lines) {
  static const char *const names[] = {"none", "ideal", "general", "complex"};
  size_t count = lines->count, key_end = 0;
  uint8_t *kinds = (uint8_t *)block(count);
  int64_t *key_offsets = (int64_t *)block((count + 1) * sizeof(int64_t));
  CHECK(versions_kinds(lines->texts, lines->length, lines->offsets, count + 1, kinds, count) == VERSIONS_OK);
  CHECK(versions_keys(VERSIONS_MIXED, lines->texts, lines->length, lines->offsets, count + 1, NULL, 0, key_offsets,
                      count + 1) == (count == 0 || key_offsets[count] == 0 ? VERSIONS_OK : VERSIONS_NO_ROOM));
  size_t all = (size_t)key_offsets[count];
  uint8_t *keys = (uint8_t *)block(all);
  memset(key_offsets, 0, (count + 1) * sizeof(int64_t));
  if (all > 0) {
    CHECK(versions_keys(VERSIONS_MIXED, lines->texts, lines->length, lines->offsets, count + 1, keys, all - 1,
                        key_offsets, count + 1) == VERSIONS_NO_ROOM);
    CHECK((size_t)key_offsets[count] == all);
  }
  CHECK(versions_keys(VERSIONS_MIXED, lines->texts, lines->length, lines->offsets, count + 1, keys, all, key_offsets,
                      count + 1) == VERSIONS_OK);

  for (size_t line = 0; line < count; line++) {
    // A copy, so that no byte follows the text.
    size_t length = length_of(lines, line), key_length = 0;
    char *text = (char *)block(length);
    memcpy(text, text_of(lines, line), length);
    int kind = versions_kind(text, length);
    CHECK(kind == kinds[line]);
    CHECK((size_t)key_offsets[line] == key_end);
    printf("%s", names[kind]);

    uint8_t *key = key_of(text, length, &key_length);
    CHECK((key != NULL) == (kind != VERSIONS_NONE));
    if (key != NULL) {
      CHECK(key_length == (size_t)(key_offsets[line + 1] - key_offsets[line]));
      CHECK(memcmp(key, keys + key_end, key_length) == 0);
      printf(" ");
      for (size_t i = 0; i < key_length; i++) printf("%02x", key[i]);
    }
    check_parse(text, length, kind, key, key_length);
    release(key);
    key_end = (size_t)key_offsets[line + 1];

    for (size_t place = 0; place < 4; place++) {
      uint32_t number = 77;
      int status = versions_nth(text, length, place, &number);
      if (status == VERSIONS_OK) {
        printf(" %u", (unsigned)number);
      } else {
        CHECK(status == (kind == VERSIONS_NONE ? VERSIONS_NO_VERSION : VERSIONS_NO_NUMBER));
        CHECK(number == 77);
        printf(" -");
      }
    }
    printf("\n");
    check_values(text, length, kind);
    release(text);
  }
  CHECK(key_end == all);
  check_many(lines);
  release(kinds);
  release(keys);
  release(key_offsets);
}

// The status for two texts, each of which is a version or not.
static int status_of(int a, int b) {
  if (a && b) return VERSIONS_OK;
  if (b) return VERSIONS_NO_VERSION_A;
  return a ? VERSIONS_NO_VERSION_B : VERSIONS_NO_VERSION_AB;
}

// Checks where two texts differ first, by the status for them and by how they compare.
static void check_difference(const char *a, size_t a_length, const char *b, size_t b_length, int wanted, int32_t order,
                             int32_t total) {
  uint32_t difference = 77, turned = 77;
  size_t part = 77, turned_part = 77;
  CHECK(versions_difference(a, a_length, b, b_length, &difference, &part) == wanted);
  if (wanted != VERSIONS_OK) {
    CHECK(difference == 77 && part == 77);
    return;
  }
  CHECK(versions_difference(b, b_length, a, a_length, &turned, &turned_part) == VERSIONS_OK);
  CHECK(turned == difference && turned_part == part);
  CHECK((difference == VERSIONS_DIFFERENCE_NONE) == (total == 0));
  CHECK((difference <= VERSIONS_DIFFERENCE_TIE) == (order == 0));
  CHECK(difference <= VERSIONS_DIFFERENCE_TAIL);
  CHECK(difference == VERSIONS_DIFFERENCE_PART || part == 0);
}

static void compare(const struct lines *lines) {
  for (size_t line = 0; line + 1 < lines->count; line++) {
    const char *a = text_of(lines, line), *b = text_of(lines, line + 1);
    size_t a_length = length_of(lines, line), b_length = length_of(lines, line + 1);
    int wanted = status_of(versions_kind(a, a_length) != 0, versions_kind(b, b_length) != 0);
    int32_t order = 77, total = 77, turned = 77;
    CHECK(versions_compare(VERSIONS_MIXED, a, a_length, b, b_length, &order) == wanted);
    CHECK(versions_compare_total(a, a_length, b, b_length, &total) == wanted);
    check_difference(a, a_length, b, b_length, wanted, order, total);
    if (wanted != VERSIONS_OK) {
      CHECK(order == 77 && total == 77);
      printf("%d\n", wanted);
      continue;
    }
    CHECK(versions_compare(VERSIONS_MIXED, b, b_length, a, a_length, &turned) == VERSIONS_OK && turned == -order);
    CHECK(versions_compare_total(b, b_length, a, a_length, &turned) == VERSIONS_OK && turned == -total);
    CHECK(order == 0 || order == total);

    // Keys compare as the versions do.
    size_t a_key_length = 0, b_key_length = 0;
    uint8_t *a_key = key_of(a, a_length, &a_key_length), *b_key = key_of(b, b_length, &b_key_length);
    int by_keys = memcmp(a_key, b_key, a_key_length < b_key_length ? a_key_length : b_key_length);
    if (by_keys == 0) by_keys = (a_key_length > b_key_length) - (a_key_length < b_key_length);
    CHECK((by_keys > 0) - (by_keys < 0) == order);
    release(a_key);
    release(b_key);
    printf("%d %d\n", (int)order, (int)total);
  }
}

// A range of keys, in blocks of exactly the sizes that its list needs.
struct range {
  uint8_t *low, *high;
  size_t low_length, high_length;
  uint32_t flags;
};

static void free_range(struct range *range) {
  release(range->low);
  release(range->high);
}

// The range that a list asks for. Checks that a buffer that is too small stays unchanged, that the sizes that a call
// reports are those of the bounds, and that those of versions_key_bound are enough.
static bool range_of(const char *list, size_t length, struct range *range) {
  size_t bound = bound_in(VERSIONS_MIXED, length), low = 77, high = 77, low_room, high_room;
  uint32_t flags = 77;
  int status = versions_range(list, length, NULL, 0, &low, NULL, 0, &high, &flags);
  if (status == VERSIONS_NO_REQUIREMENTS) {
    CHECK(low == 77 && high == 77 && flags == 77);
    return false;
  }
  CHECK(status == (low == 0 && high == 0 ? VERSIONS_OK : VERSIONS_NO_ROOM));
  CHECK(low <= bound && high <= bound);
  low_room = low;
  high_room = high;
  range->low = (uint8_t *)block(low_room);
  range->high = (uint8_t *)block(high_room);
  memset(range->low, 170, low_room);
  memset(range->high, 170, high_room);
  flags = 77;
  for (int which = 0; which < 2; which++) {
    size_t low_less = which == 0, high_less = which == 1;
    if (low_room < low_less || high_room < high_less) continue;
    low = high = 77;
    CHECK(versions_range(list, length, range->low, low_room - low_less, &low, range->high, high_room - high_less, &high,
                         &flags) == VERSIONS_NO_ROOM);
    CHECK(low == low_room && high == high_room && flags == 77);
    for (size_t i = 0; i < low_room; i++) CHECK(range->low[i] == 170);
    for (size_t i = 0; i < high_room; i++) CHECK(range->high[i] == 170);
  }
  CHECK(versions_range(list, length, range->low, low_room, &range->low_length, range->high, high_room,
                       &range->high_length, &range->flags) == VERSIONS_OK);
  CHECK(range->low_length == low_room && range->high_length == high_room && range->flags < 32);
  CHECK((range->flags & VERSIONS_RANGE_HIGH) != 0 || range->high_length == 0);

  uint8_t *low_bytes = (uint8_t *)block(bound), *high_bytes = (uint8_t *)block(bound);
  CHECK(versions_range(list, length, low_bytes, bound, &low, high_bytes, bound, &high, &flags) == VERSIONS_OK);
  CHECK(low == range->low_length && memcmp(low_bytes, range->low, low) == 0);
  CHECK(high == range->high_length && memcmp(high_bytes, range->high, high) == 0);
  CHECK(flags == range->flags);
  release(low_bytes);
  release(high_bytes);
  return true;
}

// How two lists of bytes compare.
static int bytes_order(const uint8_t *a, size_t a_length, const uint8_t *b, size_t b_length) {
  size_t length = a_length < b_length ? a_length : b_length;
  int order = length == 0 ? 0 : memcmp(a, b, length);
  return order != 0 ? order : (a_length > b_length) - (a_length < b_length);
}

// Whether a text is in a range, by its key and its kind: 1, 0, or 2 for a text that is not a version. Checks that the
// call gives the same answer.
static int in_range(const char *text, size_t length, const struct range *range) {
  size_t bound = bound_in(VERSIONS_MIXED, length), key_length = 0;
  uint8_t *key = (uint8_t *)block(bound);
  int kind = versions_kind(text, length), wanted = 2;
  bool answer = true, other = false;
  if (versions_key(VERSIONS_MIXED, text, length, key, bound, &key_length) == VERSIONS_OK) {
    wanted = bytes_order(key, key_length, range->low, range->low_length) >= 0 &&
             (!(range->flags & VERSIONS_RANGE_HIGH) ||
              bytes_order(key, key_length, range->high, range->high_length) < 0) &&
             (range->flags & 1u << (kind - 1)) != 0;
  }
  release(key);
  int status = versions_in_range(text, length, range->low, range->low_length, range->high, range->high_length,
                                 range->flags, &answer);
  CHECK(status == (wanted == 2 ? VERSIONS_NO_VERSION : VERSIONS_OK));
  CHECK(wanted == 2 ? answer : answer == (wanted == 1));
  versions_in_range(text, length, range->low, range->low_length, range->high, range->high_length, range->flags, &other);
  CHECK(wanted == 2 ? !other : other == (wanted == 1));
  return wanted;
}

// Checks whether a text is matched by a range and members: 1, 0, or 2 for a text that is not a version.
static void check_match_in_range(const char *text, size_t length, const struct range *range, const char *members,
                                 size_t members_length, int wanted) {
  for (int before = 0; before < 2; before++) {
    bool matches = before;
    int status = versions_match_in_range(text, length, range->low, range->low_length, range->high, range->high_length,
                                         range->flags, members, members_length, &matches);
    CHECK(status == (wanted == 2 ? VERSIONS_NO_VERSION : VERSIONS_OK));
    CHECK(matches == (wanted == 2 ? before : wanted));
  }
}

// In the range of a list the members that it leaves open decide, and it is exact if there are none. Checks that a
// buffer that is too small stays unchanged.
static void check_inexact(const struct lines *lines, const char *list, size_t length, const struct range *range,
                          const uint8_t *matches) {
  size_t room = 77, other = 77;
  CHECK(versions_inexact(list, length, NULL, 0, &room) == (room == 0 ? VERSIONS_OK : VERSIONS_NO_ROOM));
  CHECK(room <= length && (room == 0) == ((range->flags & VERSIONS_RANGE_EXACT) != 0));
  char *members = (char *)block(room);
  memset(members, 'x', room);
  if (room > 0) {
    CHECK(versions_inexact(list, length, members, room - 1, &other) == VERSIONS_NO_ROOM && other == room);
    for (size_t i = 0; i < room; i++) CHECK(members[i] == 'x');
  }
  other = 77;
  CHECK(versions_inexact(list, length, members, room, &other) == VERSIONS_OK && other == room);
  for (size_t line = 0; line < lines->count; line++) {
    const char *text = text_of(lines, line);
    size_t text_length = length_of(lines, line);
    bool decided = true;
    check_match_in_range(text, text_length, range, members, room, matches[line]);
    check_match_in_range(text, text_length, range, list, length, matches[line]);
    if (in_range(text, text_length, range) != 1) continue;
    CHECK(room == 0 || versions_matches(members, room, text, text_length, &decided) == VERSIONS_OK);
    CHECK(decided == (matches[line] == 1));
    check_match_in_range(text, text_length, range, NULL, 0, 1);
  }
  release(members);
}

// Each text that a list matches is in its range, and the converse holds if the range is exact.
static void check_range(const struct lines *lines, const char *list, size_t length, const uint8_t *matches) {
  struct range range;
  size_t count = lines->count;
  if (!range_of(list, length, &range)) {
    CHECK(!"a list has a range");
    return;
  }
  uint8_t *answers = (uint8_t *)block(count);
  memset(answers, 77, count);
  CHECK(versions_in_range_all(lines->texts, lines->length, lines->offsets, count + 1, range.low, range.low_length,
                              range.high, range.high_length, range.flags, answers, count) == VERSIONS_OK);
  for (size_t line = 0; line < count; line++) {
    CHECK(answers[line] == in_range(text_of(lines, line), length_of(lines, line), &range));
    CHECK((answers[line] == 2) == (matches[line] == 2));
    CHECK(matches[line] != 1 || answers[line] == 1);
    if (range.flags & VERSIONS_RANGE_EXACT) CHECK(answers[line] == matches[line]);
  }
  check_inexact(lines, list, length, &range, matches);
  release(answers);
  free_range(&range);
}

// Checks the first member that is not a requirement by what the list and its beginnings match.
static void check_member(const char *list, size_t length, bool is_list) {
  size_t start = 77, end = 77;
  bool matches;
  CHECK(versions_wrong_member(list, length, &start, &end) == (is_list ? VERSIONS_NO_WRONG_MEMBER : VERSIONS_OK));
  if (is_list) {
    CHECK(start == 77 && end == 77);
    return;
  }
  CHECK(start <= end && end <= length);
  CHECK(start == 0 || (list[start - 1] == ',' &&
                       versions_matches(list, start - 1, "1", 1, &matches) == VERSIONS_OK));
  CHECK(versions_matches(list + start, end - start, "1", 1, &matches) == VERSIONS_NO_REQUIREMENTS);
  CHECK(memchr(list + start, ',', end - start) == NULL && (end == length || list[end] == ','));
}

static void match(const struct lines *lines, const char *list) {
  size_t count = lines->count, length = strlen(list);
  uint8_t *matches = (uint8_t *)block(count);
  memset(matches, 77, count);
  int status = versions_match_all(list, length, lines->texts, lines->length, lines->offsets, count + 1, matches, count);
  if (status != VERSIONS_OK) {
    CHECK(status == VERSIONS_NO_REQUIREMENTS);
    for (size_t line = 0; line < count; line++) CHECK(matches[line] == 77);
    printf("no list\n");
  }
  for (size_t line = 0; line < count; line++) {
    bool one = false;
    int single = versions_matches(list, length, text_of(lines, line), length_of(lines, line), &one);
    if (status != VERSIONS_OK) {
      CHECK(single == VERSIONS_NO_REQUIREMENTS);
      continue;
    }
    CHECK(single == (matches[line] == 2 ? VERSIONS_NO_VERSION : VERSIONS_OK));
    CHECK(matches[line] == 2 || matches[line] == one);
    printf("%d\n", matches[line]);
  }
  if (status == VERSIONS_OK) check_range(lines, list, length, matches);
  check_member(list, length, status == VERSIONS_OK);
  release(matches);
}

static void sort(const struct lines *lines) {
  size_t count = lines->count;
  int64_t *needed = (int64_t *)block((count + 1) * sizeof(int64_t));
  int64_t *key_offsets = (int64_t *)block((count + 1) * sizeof(int64_t));
  uint64_t *order = (uint64_t *)block(count * sizeof(uint64_t));
  versions_keys(VERSIONS_MIXED, lines->texts, lines->length, lines->offsets, count + 1, NULL, 0, needed, count + 1);
  size_t all = (size_t)needed[count];
  uint8_t *wanted = (uint8_t *)block(all), *keys = (uint8_t *)block(all + 3);
  CHECK(versions_keys(VERSIONS_MIXED, lines->texts, lines->length, lines->offsets, count + 1, wanted, all, needed,
                      count + 1) == VERSIONS_OK);

  // If the buffer is one byte too small, nothing is sorted, but the needed size is returned.
  for (size_t i = 0; i < count; i++) order[i] = 77;
  if (all > 0) {
    CHECK(versions_sort(VERSIONS_MIXED, lines->texts, lines->length, lines->offsets, count + 1, keys, all - 1,
                        key_offsets, count + 1, order, count) == VERSIONS_NO_ROOM);
    CHECK(memcmp(key_offsets, needed, (count + 1) * sizeof(int64_t)) == 0);
    for (size_t i = 0; i < count; i++) CHECK(order[i] == 77);
  }

  // The keys are those of versions_keys, and nothing after them is written.
  memset(keys, 170, all + 3);
  memset(key_offsets, 0, (count + 1) * sizeof(int64_t));
  CHECK(versions_sort(VERSIONS_MIXED, lines->texts, lines->length, lines->offsets, count + 1, keys, all + 3,
                      key_offsets, count + 1, order, count) == VERSIONS_OK);
  CHECK(memcmp(key_offsets, needed, (count + 1) * sizeof(int64_t)) == 0);
  CHECK(memcmp(keys, wanted, all) == 0);
  for (size_t i = all; i < all + 3; i++) CHECK(keys[i] == 170);

  for (size_t i = 0; i < count; i++) {
    CHECK(order[i] < count);
    fwrite(text_of(lines, order[i]), 1, length_of(lines, order[i]), stdout);
    printf("\n");
  }
  release(needed);
  release(key_offsets);
  release(order);
  release(wanted);
  release(keys);
}

// The places of all lines in their order, as one number.
static uint64_t summed_order(const struct lines *lines) {
  size_t count = lines->count, room = 3 * lines->length + 5 * count;
  uint8_t *keys = (uint8_t *)block(room);
  int64_t *key_offsets = (int64_t *)block((count + 1) * sizeof(int64_t));
  uint64_t *order = (uint64_t *)block(count * sizeof(uint64_t)), sum = 0;
  CHECK(versions_sort(VERSIONS_MIXED, lines->texts, lines->length, lines->offsets, count + 1, keys, room, key_offsets,
                      count + 1, order, count) == VERSIONS_OK);
  for (size_t i = 0; i < count; i++) sum = sum * 31 + order[i];
  release(keys);
  release(key_offsets);
  release(order);
  return sum;
}

// The results of one thread for all lines, as one number.
static void *summed(void *argument) {
  const struct lines *lines = (const struct lines *)argument;
  uint64_t sum = summed_order(lines);
  for (size_t line = 0; line + 1 < lines->count; line++) {
    const char *a = text_of(lines, line), *b = text_of(lines, line + 1);
    size_t a_length = length_of(lines, line), b_length = length_of(lines, line + 1), key_length = 0;
    int32_t order = 5, total = 5;
    bool matches = false;
    uint8_t kind = 5;
    uint64_t epoch = 5;
    size_t start = 5, end = 5;
    sum = sum * 31 + (uint64_t)versions_kind(a, a_length);
    sum = sum * 31 + (uint64_t)versions_parse(a, a_length, &kind, NULL, 0, &key_length);
    sum = sum * 31 + (uint64_t)versions_epoch(a, a_length, &epoch);
    sum = sum * 31 + (uint64_t)versions_field(a, a_length, 1 + (uint32_t)line % 4, &start, &end);
    sum = sum * 31 + (uint64_t)versions_stability(a, a_length);
    sum = sum * 31 + epoch + 50 * start + 500 * end + kind;
    sum = sum * 31 + (uint64_t)versions_in_tag(a, a_length, &start) + 50 * start;
    sum = sum * 31 + (uint64_t)versions_compare(VERSIONS_MIXED, a, a_length, b, b_length, &order);
    sum = sum * 31 + (uint64_t)versions_compare_total(a, a_length, b, b_length, &total);
    sum = sum * 31 + (uint64_t)versions_matches("^1.2,<9", 7, a, a_length, &matches);
    sum = sum * 31 + (uint64_t)versions_key(VERSIONS_MIXED, a, a_length, NULL, 0, &key_length);
    sum = sum * 31 + (uint64_t)(order + 5) + (uint64_t)(total + 50) + (uint64_t)matches + key_length;
  }
  uint64_t *result = (uint64_t *)block(sizeof(uint64_t));
  *result = sum;
  return result;
}

static void threads(struct lines *lines) {
  uint64_t *alone = (uint64_t *)summed(lines);
  pthread_t running[8];
  for (int i = 0; i < 8; i++) CHECK(pthread_create(&running[i], NULL, summed, lines) == 0);
  for (int i = 0; i < 8; i++) {
    void *sum = NULL;
    CHECK(pthread_join(running[i], &sum) == 0);
    CHECK(sum != NULL && *(uint64_t *)sum == *alone);
    release(sum);
  }
  release(alone);
}

// Every call for many texts refuses these offsets, and writes nothing.
static void refused_offsets(const int64_t *offsets, size_t offsets_length, size_t count) {
  uint8_t answers[4], keys[64];
  int64_t key_offsets[5] = {77, 77, 77, 77, 77};
  uint64_t order[4] = {77, 77, 77, 77};
  memset(answers, 77, sizeof answers);
  memset(keys, 77, sizeof keys);
  CHECK(versions_kinds("1.2.31.2", 8, offsets, offsets_length, answers, count) == VERSIONS_BAD_OFFSETS);
  CHECK(versions_stabilities("1.2.31.2", 8, offsets, offsets_length, answers, count) == VERSIONS_BAD_OFFSETS);
  CHECK(versions_in_tags("1.2.31.2", 8, offsets, offsets_length, key_offsets, count) == VERSIONS_BAD_OFFSETS);
  CHECK(versions_in_range_all("1.2.31.2", 8, offsets, offsets_length, NULL, 0, NULL, 0, 7, answers, count) ==
        VERSIONS_BAD_OFFSETS);
  CHECK(versions_match_all("*", 1, "1.2.31.2", 8, offsets, offsets_length, answers, count) == VERSIONS_BAD_OFFSETS);
  CHECK(versions_match_all("no list", 7, "1.2.31.2", 8, offsets, offsets_length, answers, count) ==
        VERSIONS_BAD_OFFSETS);
  CHECK(versions_keys(VERSIONS_MIXED, "1.2.31.2", 8, offsets, offsets_length, keys, sizeof keys, key_offsets,
                      count + 1) == VERSIONS_BAD_OFFSETS);
  CHECK(versions_sort(VERSIONS_MIXED, "1.2.31.2", 8, offsets, offsets_length, keys, sizeof keys, key_offsets, count + 1,
                      order, count) == VERSIONS_BAD_OFFSETS);
  for (size_t i = 0; i < sizeof answers; i++) CHECK(answers[i] == 77);
  for (size_t i = 0; i < sizeof keys; i++) CHECK(keys[i] == 77);
  for (size_t i = 0; i < 5; i++) CHECK(key_offsets[i] == 77);
  for (size_t i = 0; i < 4; i++) CHECK(order[i] == 77);
}

// Offsets that are bad for any number of results have no newest text either, whatever the list is.
static void refused_newest(const int64_t *offsets, size_t offsets_length) {
  size_t place = 77;
  CHECK(versions_newest("1.2.31.2", 8, offsets, offsets_length, "*", 1, 0, 0, &place) == VERSIONS_BAD_OFFSETS);
  CHECK(versions_newest("1.2.31.2", 8, offsets, offsets_length, "no list", 7, 9, 1, &place) == VERSIONS_BAD_OFFSETS);
  CHECK(place == 77);
}

// Sorts texts in one buffer, and compares with the expected places.
static void sorted(const char *texts, const int64_t *offsets, size_t count, const uint64_t *wanted) {
  uint8_t keys[256];
  int64_t key_offsets[9];
  uint64_t order[9] = {77, 77, 77, 77, 77, 77, 77, 77, 77};
  CHECK(versions_sort(VERSIONS_MIXED, texts, strlen(texts), offsets, count + 1, keys, sizeof keys, key_offsets,
                      count + 1, order, count) == VERSIONS_OK);
  for (size_t i = 0; i < count; i++) CHECK(order[i] == wanted[i]);
  CHECK(order[count] == 77);
}

// Fields of texts, by docs/GRAMMAR.md and docs/ORDER.md. A place that ends at 0 stands for no field.
struct place {
  size_t start, end;
};

static void worked_fields(void) {
  static const struct {
    const char *text;
    int kind;
    struct place fields[4];
  } worked[] = {
      {"1.2.3", VERSIONS_IDEAL, {{0, 0}, {0, 0}, {0, 0}, {0, 0}}},
      {"1.2.3-rc.1+x86", VERSIONS_IDEAL, {{0, 0}, {6, 10}, {0, 0}, {11, 14}}},
      {"1.1.1-1+1", VERSIONS_IDEAL, {{0, 0}, {6, 7}, {0, 0}, {8, 9}}},
      {"1.2.3+a-b", VERSIONS_IDEAL, {{0, 0}, {0, 0}, {0, 0}, {6, 9}}},
      {"1.0.0-x-y-z.-", VERSIONS_IDEAL, {{0, 0}, {6, 13}, {0, 0}, {0, 0}}},
      {"1.2.3--+-", VERSIONS_IDEAL, {{0, 0}, {6, 7}, {0, 0}, {8, 9}}},
      {"1.2.3+..", VERSIONS_IDEAL, {{0, 0}, {0, 0}, {0, 0}, {6, 8}}},
      {"1.2", VERSIONS_GENERAL, {{0, 0}, {0, 0}, {0, 0}, {0, 0}}},
      {"1:2.0rc1-3", VERSIONS_GENERAL, {{0, 1}, {0, 0}, {9, 10}, {0, 0}}},
      {"1:1.1.1-1+1", VERSIONS_GENERAL, {{0, 1}, {0, 0}, {8, 9}, {10, 11}}},
      {"1:1-1:1+1", VERSIONS_COMPLEX, {{0, 1}, {0, 0}, {0, 0}, {0, 0}}},
      {"1-1+1", VERSIONS_GENERAL, {{0, 0}, {0, 0}, {2, 3}, {4, 5}}},
      {"1+1-1", VERSIONS_GENERAL, {{0, 0}, {0, 0}, {0, 0}, {2, 5}}},
      {"1.0-a--b", VERSIONS_GENERAL, {{0, 0}, {0, 0}, {4, 8}, {0, 0}}},
      {"4294967295:1", VERSIONS_GENERAL, {{0, 10}, {0, 0}, {0, 0}, {0, 0}}},
      {"4294967296:1-1+1", VERSIONS_COMPLEX, {{0, 10}, {0, 0}, {0, 0}, {0, 0}}},
      {"01:1.0", VERSIONS_COMPLEX, {{0, 2}, {0, 0}, {0, 0}, {0, 0}}},
      {"1:2:3", VERSIONS_COMPLEX, {{0, 1}, {0, 0}, {0, 0}, {0, 0}}},
      {"8:2007f~dfsg-7", VERSIONS_COMPLEX, {{0, 1}, {0, 0}, {0, 0}, {0, 0}}},
      {"20081126:1.03-4", VERSIONS_COMPLEX, {{0, 8}, {0, 0}, {0, 0}, {0, 0}}},
      {"1.2.3-06+1", VERSIONS_COMPLEX, {{0, 0}, {0, 0}, {0, 0}, {0, 0}}},
      {"1.0_1:2", VERSIONS_COMPLEX, {{0, 0}, {0, 0}, {0, 0}, {0, 0}}},
      {"1-2:3", VERSIONS_COMPLEX, {{0, 0}, {0, 0}, {0, 0}, {0, 0}}},
      {"1.2:3", VERSIONS_COMPLEX, {{0, 0}, {0, 0}, {0, 0}, {0, 0}}},
      {"1a:2", VERSIONS_COMPLEX, {{0, 0}, {0, 0}, {0, 0}, {0, 0}}},
      {"r1:2", VERSIONS_COMPLEX, {{0, 0}, {0, 0}, {0, 0}, {0, 0}}},
      {"1+x-y+z", VERSIONS_COMPLEX, {{0, 0}, {0, 0}, {0, 0}, {0, 0}}},
      {"1:", VERSIONS_NONE, {{0, 0}, {0, 0}, {0, 0}, {0, 0}}},
      {":1", VERSIONS_NONE, {{0, 0}, {0, 0}, {0, 0}, {0, 0}}},
      {"1:1..2-3+4", VERSIONS_NONE, {{0, 0}, {0, 0}, {0, 0}, {0, 0}}},
      {"1.2.3-rc.1+", VERSIONS_NONE, {{0, 0}, {0, 0}, {0, 0}, {0, 0}}},
      {"1.2.3-rc.1+x\xff", VERSIONS_NONE, {{0, 0}, {0, 0}, {0, 0}, {0, 0}}},
      {"", VERSIONS_NONE, {{0, 0}, {0, 0}, {0, 0}, {0, 0}}},
  };
  for (size_t i = 0; i < sizeof worked / sizeof *worked; i++) {
    const char *text = worked[i].text;
    size_t length = strlen(text);
    CHECK(versions_kind(text, length) == worked[i].kind);
    for (uint32_t field = 0; field < 6; field++) {
      size_t start = 77, end = 78;
      int status = versions_field(text, length, field, &start, &end);
      if (VERSIONS_FIELD_EPOCH <= field && field <= VERSIONS_FIELD_METADATA && worked[i].fields[field - 1].end > 0) {
        CHECK(status == VERSIONS_OK);
        CHECK(start == worked[i].fields[field - 1].start && end == worked[i].fields[field - 1].end);
      } else {
        int without = worked[i].kind == VERSIONS_NONE ? VERSIONS_NO_VERSION : VERSIONS_NO_FIELD;
        CHECK(status == (field == 0 || field == 5 ? VERSIONS_UNKNOWN_FIELD : without));
        CHECK(start == 77 && end == 78);
      }
    }
    check_values(text, length, worked[i].kind);
  }
  size_t start = 77, end = 78;
  CHECK(versions_field(NULL, 0, VERSIONS_FIELD_EPOCH, &start, &end) == VERSIONS_NO_VERSION);
  CHECK(versions_field(NULL, 0, 0, &start, &end) == VERSIONS_UNKNOWN_FIELD);
  CHECK(versions_field("1.2.3-1+x", 9, 99, &start, &end) == VERSIONS_UNKNOWN_FIELD);
  CHECK(versions_field("1.2.3-1+x", 9, UINT32_MAX, &start, &end) == VERSIONS_UNKNOWN_FIELD);
  CHECK(start == 77 && end == 78);
}

static void worked_epochs(void) {
  static const struct {
    const char *text;
    uint64_t epoch;
    int status;
  } worked[] = {
      {"0:7", 0, VERSIONS_OK},
      {"00:7", 0, VERSIONS_OK},
      {"1:2.0rc1-3", 1, VERSIONS_OK},
      {"01:1.0", 1, VERSIONS_OK},
      {"1:2:3", 1, VERSIONS_OK},
      {"8:2007f~dfsg-7", 8, VERSIONS_OK},
      {"20081126:1.03-4", 20081126, VERSIONS_OK},
      {"4294967295:1", 4294967295, VERSIONS_OK},
      {"4294967296:1", 4294967296, VERSIONS_OK},
      {"4294967297:1", 4294967297, VERSIONS_OK},
      {"9223372036854775806:1", 9223372036854775806, VERSIONS_OK},
      {"9223372036854775807:1", 9223372036854775807, VERSIONS_OK},
      {"9223372036854775808:1", 9223372036854775807, VERSIONS_LARGE_EPOCH},
      {"9223372036854775810:1", 9223372036854775807, VERSIONS_LARGE_EPOCH},
      {"10000000000000000000:1", 9223372036854775807, VERSIONS_LARGE_EPOCH},
      {"18446744073709551615:1", 9223372036854775807, VERSIONS_LARGE_EPOCH},
      {"18446744073709551616:1", 9223372036854775807, VERSIONS_LARGE_EPOCH},
      {"18446744073709551623:1", 9223372036854775807, VERSIONS_LARGE_EPOCH},
      {"99999999999999999999:1", 9223372036854775807, VERSIONS_LARGE_EPOCH},
      {"1000000000000000000000000000000000000000:1", 9223372036854775807, VERSIONS_LARGE_EPOCH},
      {"0000000000000000000000000000000000000007:1", 7, VERSIONS_OK},
      {"0000000000000000000009223372036854775807:1", 9223372036854775807, VERSIONS_OK},
      {"0000000000000000000009223372036854775808:1", 9223372036854775807, VERSIONS_LARGE_EPOCH},
  };
  static const char *const without[] = {"1.2.3-1", "1.2-1", "1.0_1", "1.0_1:2", "1-2:3", "1.2:3", "1a:2", "r1:2"};
  uint64_t epoch = 77;
  CHECK(versions_epoch(NULL, 0, &epoch) == VERSIONS_NO_VERSION);
  CHECK(versions_epoch("1:", 2, &epoch) == VERSIONS_NO_VERSION);
  CHECK(versions_epoch("1:2..3", 6, &epoch) == VERSIONS_NO_VERSION);
  for (size_t i = 0; i < sizeof without / sizeof *without; i++) {
    CHECK(versions_epoch(without[i], strlen(without[i]), &epoch) == VERSIONS_NO_NUMBER);
  }
  CHECK(epoch == 77);
  for (size_t i = 0; i < sizeof worked / sizeof *worked; i++) {
    epoch = 77;
    CHECK(versions_epoch(worked[i].text, strlen(worked[i].text), &epoch) == worked[i].status);
    CHECK(epoch == worked[i].epoch);
    check_values(worked[i].text, strlen(worked[i].text), versions_kind(worked[i].text, strlen(worked[i].text)));
  }
}

// Null pointers to empty texts, and bytes that are not UTF-8.
static void no_versions(void) {
  int32_t order = 77;
  bool matches = true;
  uint32_t number = 77;
  size_t length = 77;
  uint8_t bytes[4] = {77, 77, 77, 77}, kind = 77;
  CHECK(versions_kind(NULL, 0) == VERSIONS_NONE);
  CHECK(versions_kind("", 0) == VERSIONS_NONE);
  CHECK(versions_kind("1.2.3", 5) == VERSIONS_IDEAL);
  CHECK(versions_kind("1.2.3", 3) == VERSIONS_GENERAL);
  CHECK(versions_kind("1.0_1", 5) == VERSIONS_COMPLEX);
  CHECK(versions_kind("1.2\0003", 5) == VERSIONS_NONE);
  CHECK(versions_kind("1.2.\xff", 5) == VERSIONS_NONE);
  CHECK(versions_kind("\xc3\xa9", 2) == VERSIONS_NONE);
  CHECK(versions_compare(VERSIONS_MIXED, NULL, 0, "1", 1, &order) == VERSIONS_NO_VERSION_A);
  CHECK(versions_compare(VERSIONS_MIXED, "1", 1, NULL, 0, &order) == VERSIONS_NO_VERSION_B);
  CHECK(versions_compare(VERSIONS_MIXED, NULL, 0, NULL, 0, &order) == VERSIONS_NO_VERSION_AB);
  CHECK(versions_compare_total(NULL, 0, "1", 1, &order) == VERSIONS_NO_VERSION_A);
  CHECK(versions_compare_total("1", 1, NULL, 0, &order) == VERSIONS_NO_VERSION_B);
  CHECK(versions_compare_total("\xff", 1, NULL, 0, &order) == VERSIONS_NO_VERSION_AB);
  CHECK(order == 77);
  CHECK(versions_key(VERSIONS_MIXED, NULL, 0, NULL, 0, &length) == VERSIONS_NO_VERSION);
  CHECK(versions_key(VERSIONS_MIXED, "\xff", 1, bytes, 4, &length) == VERSIONS_NO_VERSION);
  CHECK(versions_parse(NULL, 0, &kind, NULL, 0, &length) == VERSIONS_NO_VERSION);
  CHECK(versions_parse("\xff", 1, &kind, bytes, 4, &length) == VERSIONS_NO_VERSION);
  CHECK(length == 77 && kind == 77 && bytes[0] == 77);
  CHECK(versions_matches(NULL, 0, "1", 1, &matches) == VERSIONS_NO_REQUIREMENTS);
  CHECK(versions_matches("\xff", 1, "1", 1, &matches) == VERSIONS_NO_REQUIREMENTS);
  CHECK(versions_matches("*", 1, NULL, 0, &matches) == VERSIONS_NO_VERSION);
  CHECK(versions_matches("*", 1, "\xff", 1, &matches) == VERSIONS_NO_VERSION);
  CHECK(matches);
  CHECK(versions_nth(NULL, 0, 0, &number) == VERSIONS_NO_VERSION);
  CHECK(versions_nth("1.2.3", 5, SIZE_MAX, &number) == VERSIONS_NO_NUMBER);
  CHECK(number == 77);
}

// Two versions of one key, and the total order of them: by the rows of docs/ORDER.md, "Ties".
static void ties(void) {
  static const struct {
    const char *first, *second;
    int32_t total;
  } worked[] = {
      {"1.0", "0:1.0", -1},      {"1.0", "1.0+x", -1},      {"1.2", "1.002", -1},       {"1.0+a", "1.0+b", -1},
      {"1.0.0", "0:1.0.0", -1},  {"1.0.0", "1.0.0+a", 0},   {"1.0.0+a", "1.0.0+b", 0},  {"1.2.3-a", "1.2.3-a+b", 0},
      {"1.2.3-1", "1.2.3-1", 0}, {"1.1a1", "1.1a01", -1},   {"01a.1a1", "1a.1a01", -1}, {"1.0+01a", "1.0+1a", -1},
  };
  for (size_t i = 0; i < sizeof worked / sizeof *worked; i++) {
    const char *a = worked[i].first, *b = worked[i].second;
    int32_t order = 77;
    CHECK(versions_compare(VERSIONS_MIXED, a, strlen(a), b, strlen(b), &order) == VERSIONS_OK && order == 0);
    CHECK(versions_compare_total(a, strlen(a), b, strlen(b), &order) == VERSIONS_OK && order == worked[i].total);
    CHECK(versions_compare_total(b, strlen(b), a, strlen(a), &order) == VERSIONS_OK && order == -worked[i].total);
  }
}

// Where two versions differ first, by the rules of docs/ORDER.md.
static void worked_differences(void) {
  static const struct {
    const char *first, *second;
    uint32_t difference;
    size_t part;
  } worked[] = {
      {"1:1.2", "1.2", VERSIONS_DIFFERENCE_EPOCH, 0},        {"2:1.2", "1:1.3", VERSIONS_DIFFERENCE_EPOCH, 0},
      {"1.2.3", "1.2.4", VERSIONS_DIFFERENCE_PART, 2},       {"1.2", "1.2.0", VERSIONS_DIFFERENCE_PART, 2},
      {"1.0a", "1.0b", VERSIONS_DIFFERENCE_PART, 1},         {"v1.2", "1.2", VERSIONS_DIFFERENCE_PART, 0},
      {"1.2.3-rc.1", "1.2.4", VERSIONS_DIFFERENCE_PART, 2},  {"1:1.9", "1:1.10", VERSIONS_DIFFERENCE_PART, 1},
      {"1.2.3", "1.2.3-rc.1", VERSIONS_DIFFERENCE_TAIL, 0},  {"1.2-1", "1.2-2", VERSIONS_DIFFERENCE_TAIL, 0},
      {"1.2_3", "1.2_4", VERSIONS_DIFFERENCE_TAIL, 0},       {"1:2:3", "1:2:4", VERSIONS_DIFFERENCE_TAIL, 0},
      {"1.2-3+a", "1.2-3+b", VERSIONS_DIFFERENCE_TIE, 0},    {"1.2", "0:1.2", VERSIONS_DIFFERENCE_TIE, 0},
      {"1.2", "1.02", VERSIONS_DIFFERENCE_TIE, 0},           {"1.2_3", "1.2~3", VERSIONS_DIFFERENCE_TIE, 0},
      {"1.2.3+a", "1.2.3+b", VERSIONS_DIFFERENCE_NONE, 0},   {"1.2.3", "1.2.3", VERSIONS_DIFFERENCE_NONE, 0},
  };
  uint32_t difference = 77;
  size_t part = 77;
  for (size_t i = 0; i < sizeof worked / sizeof *worked; i++) {
    const char *a = worked[i].first, *b = worked[i].second;
    CHECK(versions_difference(a, strlen(a), b, strlen(b), &difference, &part) == VERSIONS_OK);
    CHECK(difference == worked[i].difference && part == worked[i].part);
    CHECK(versions_difference(b, strlen(b), a, strlen(a), &difference, &part) == VERSIONS_OK);
    CHECK(difference == worked[i].difference && part == worked[i].part);
  }
  difference = 77;
  part = 77;
  CHECK(versions_difference(NULL, 0, "1", 1, &difference, &part) == VERSIONS_NO_VERSION_A);
  CHECK(versions_difference("1", 1, "\xff", 1, &difference, &part) == VERSIONS_NO_VERSION_B);
  CHECK(versions_difference("1.", 2, NULL, 0, &difference, &part) == VERSIONS_NO_VERSION_AB);
  CHECK(difference == 77 && part == 77);
}

// By the rows of docs/GRAMMAR.md.
static void worked_numbers(void) {
  uint32_t number = 77;
  CHECK(versions_nth("1:2.a.4.5.6.7-r1", 16, 1, &number) == VERSIONS_NO_NUMBER && number == 77);
  CHECK(versions_nth("1:2.a.4.5.6.7-r1", 16, 0, &number) == VERSIONS_OK && number == 2);
  CHECK(versions_nth("1:2.a.4.5.6.7-r1", 16, 2, &number) == VERSIONS_OK && number == 4);
  CHECK(versions_nth("1:2:3.4", 7, 0, &number) == VERSIONS_OK && number == 3);
  CHECK(versions_nth("1:2:3.4", 7, 1, &number) == VERSIONS_OK && number == 4);
  CHECK(versions_nth("1:2:3.4", 7, 2, &number) == VERSIONS_NO_NUMBER && number == 4);
  CHECK(versions_nth("1:20.0026.1_0-2", 15, 1, &number) == VERSIONS_OK && number == 26);
  CHECK(versions_nth("1.7d-15", 7, 1, &number) == VERSIONS_OK && number == 7);
  CHECK(versions_nth("2rc1", 4, 0, &number) == VERSIONS_OK && number == 2);
  CHECK(versions_nth("1.7d.3", 6, 1, &number) == VERSIONS_NO_NUMBER && number == 2);
}

// Strict versions alone are pre-releases. Metadata is none.
static void worked_prereleases(void) {
  bool matches = true;
  CHECK(versions_is_prerelease("", 0, &matches) == VERSIONS_NO_VERSION && matches);
  CHECK(versions_is_prerelease("1.2.3-", 6, &matches) == VERSIONS_NO_VERSION && matches);
  CHECK(versions_is_prerelease("1.2.3", 5, &matches) == VERSIONS_OK && !matches);
  CHECK(versions_is_prerelease("1.2.3-rc.1", 10, &matches) == VERSIONS_OK && matches);
  CHECK(versions_is_prerelease("1.2.3+a-b", 9, &matches) == VERSIONS_OK && !matches);
  CHECK(versions_is_prerelease("1.2.3-0+a", 9, &matches) == VERSIONS_OK && matches);
  CHECK(versions_is_prerelease("1.2-1", 5, &matches) == VERSIONS_OK && !matches);
  CHECK(versions_is_prerelease("1.2.3-06", 8, &matches) == VERSIONS_OK && !matches);
}

// Tags and the versions in them, which end where the tags do. NULL stands for no version.
static void worked_tags(void) {
  static const struct {
    const char *tag, *version;
  } worked[] = {
      {"v1.2.3", "1.2.3"},
      {"V1.2.3", "1.2.3"},
      {"1.2.3", "1.2.3"},
      {"release-1.2.3", "1.2.3"},
      {"refs/tags/v1.2.3", "1.2.3"},
      {"pkg@1.2.3", "1.2.3"},
      {"@a/b@1.2.3", "1.2.3"},
      {"log4j-2.17.1", "2.17.1"},
      {"k8s-v1.25", "1.25"},
      {"OpenSSL_1_1_1k", "1_1_1k"},
      {"wine-8.0-rc1", "8.0-rc1"},
      {"jdk-17.0.2+8", "17.0.2+8"},
      {"1:2.0-3", "1:2.0-3"},
      {"v01.2.3", "01.2.3"},
      {"release/2023.01.02", "2023.01.02"},
      {"\xe7\x89\x88\xe6\x9c\xac" "1.2", "1.2"},
      {"go1.20.3", NULL},
      {"n6.0", NULL},
      {"x1.0-2", NULL},
      {"vv1.0", NULL},
      {"v.1.2", NULL},
      {"latest", NULL},
      {"v", NULL},
      {"name-v1..2", NULL},
      {"jdk8u292-b10", NULL},
      {"", NULL},
  };
  static const struct {
    const char *prefix, *tag, *version;
  } prefixed[] = {
      {"go", "go1.20.3", "1.20.3"}, {"go-", "go-v1.2", "1.2"}, {"2ping-", "2ping-4.5", "4.5"},
      {"", "v1.2.3", "1.2.3"},      {"go", "go-1.2", NULL},    {"go", "Go1.20", NULL},
      {"go", "g", NULL},            {"go", "go", NULL},        {"", "", NULL},
      {"x", "xa1", NULL},           {"x", "xvv1", NULL},       {"x", "x1..2", NULL},
  };
  for (size_t i = 0; i < sizeof worked / sizeof *worked; i++) {
    size_t length = strlen(worked[i].tag), start = 77;
    int status = versions_in_tag(worked[i].tag, length, &start);
    CHECK(status == (worked[i].version != NULL ? VERSIONS_OK : VERSIONS_NO_VERSION));
    CHECK(start == (worked[i].version != NULL ? length - strlen(worked[i].version) : 77));
    CHECK(worked[i].version == NULL || strcmp(worked[i].tag + start, worked[i].version) == 0);
    check_tag(worked[i].tag, length);
  }
  for (size_t i = 0; i < sizeof prefixed / sizeof *prefixed; i++) {
    size_t length = strlen(prefixed[i].tag), start = 77;
    int status = versions_after_prefix(prefixed[i].prefix, strlen(prefixed[i].prefix), prefixed[i].tag, length, &start);
    CHECK(status == (prefixed[i].version != NULL ? VERSIONS_OK : VERSIONS_NO_VERSION));
    CHECK(start == (prefixed[i].version != NULL ? length - strlen(prefixed[i].version) : 77));
    CHECK(prefixed[i].version == NULL || strcmp(prefixed[i].tag + start, prefixed[i].version) == 0);
  }
  size_t start = 77;
  CHECK(versions_in_tag(NULL, 0, &start) == VERSIONS_NO_VERSION);
  CHECK(versions_in_tag("v1.2\0003", 6, &start) == VERSIONS_NO_VERSION);
  CHECK(versions_in_tag("v1.2.\xff", 6, &start) == VERSIONS_NO_VERSION);
  CHECK(versions_after_prefix(NULL, 0, NULL, 0, &start) == VERSIONS_NO_VERSION && start == 77);
  CHECK(versions_after_prefix(NULL, 0, "v1", 2, &start) == VERSIONS_OK && start == 1);
  CHECK(versions_in_tag("\000v1.2", 5, &start) == VERSIONS_OK && start == 2);

  // Three tags, of which the middle one has no version, between other bytes.
  const int64_t offsets[] = {3, 8, 11, 18};
  int64_t starts[] = {77, 77, 77, 77};
  CHECK(versions_in_tags("-9-a-1.2go1@a-v3.45", 19, offsets, 4, starts, 3) == VERSIONS_OK);
  CHECK(starts[0] == 5 && starts[1] == 11 && starts[2] == 15 && starts[3] == 77);
}

static void worked_stabilities(void) {
  static const struct {
    const char *text;
    int stability;
  } worked[] = {
      {"1.0", VERSIONS_STABLE},
      {"1.1.1k", VERSIONS_STABLE},
      {"1.0.Final", VERSIONS_STABLE},
      {"1.0.post1", VERSIONS_STABLE},
      {"1.2.3-5", VERSIONS_STABLE},
      {"1.2.3-r0", VERSIONS_STABLE},
      {"1.5.0-1ubuntu1", VERSIONS_STABLE},
      {"1.2.3+rc1", VERSIONS_STABLE},
      {"1.2-3+b1", VERSIONS_STABLE},
      {"1.0-SNAPSHOT", VERSIONS_DEV},
      {"1.0.dev3", VERSIONS_DEV},
      {"v1.0-nightly", VERSIONS_DEV},
      {"1.0-beta-dev", VERSIONS_DEV},
      {"1.2.0~DEVEL+20220331-1", VERSIONS_DEV},
      {"1.0rc1", VERSIONS_RC},
      {"1.0.0-rc.1", VERSIONS_RC},
      {"1.0c1", VERSIONS_RC},
      {"1.0CR2", VERSIONS_RC},
      {"1_0rc1+b1", VERSIONS_RC},
      {"2.0.0-beta.1", VERSIONS_BETA},
      {"1.0b2", VERSIONS_BETA},
      {"3.0~beta1-2", VERSIONS_BETA},
      {"1.0a1", VERSIONS_ALPHA},
      {"2.0-M1", VERSIONS_ALPHA},
      {"1.0preview3", VERSIONS_ALPHA},
      {"1.0.0-alpha.beta", VERSIONS_ALPHA},
      {"1.2.3-x.y", VERSIONS_ALPHA},
      {"1.0.0--x", VERSIONS_ALPHA},
      {"22-ea", VERSIONS_ALPHA},
      {"0.0~git20171103.1ea1667-1", VERSIONS_STABLE},
      {"22-EA.7", VERSIONS_ALPHA},
      {"22-sea", VERSIONS_STABLE},
      {"0.0~git20170716.74609b8-1.1", VERSIONS_STABLE},
      {"0.1.1+git1-1", VERSIONS_STABLE},
      {"1..2", VERSIONS_NONE},
      {"1.2.3-rc.1\xff", VERSIONS_NONE},
      {"", VERSIONS_NONE},
  };
  for (size_t i = 0; i < sizeof worked / sizeof *worked; i++) {
    CHECK(versions_stability(worked[i].text, strlen(worked[i].text)) == worked[i].stability);
  }
  CHECK(versions_stability(NULL, 0) == VERSIONS_NONE);
  CHECK(versions_stability("1.0rc1", 3) == VERSIONS_STABLE);

  // Three texts, of which the middle one is no version, between other bytes.
  const int64_t offsets[] = {3, 9, 9, 14};
  uint8_t stabilities[] = {77, 77, 77, 77};
  CHECK(versions_stabilities("dev1.0rc11.0b2dev", 17, offsets, 4, stabilities, 3) == VERSIONS_OK);
  CHECK(stabilities[0] == VERSIONS_RC && stabilities[1] == VERSIONS_NONE);
  CHECK(stabilities[2] == VERSIONS_BETA && stabilities[3] == 77);
}

// The newest of texts that are joined by commas. A place of 77 stands for a status.
static void worked_newest(void) {
  static const char tags[] = "v1.2.0,v2.0.0-beta.1,v1.10.0,V1.10.0+x,latest",
                    strict[] = "1.0.0-rc.1,1.0.0,2.0.0-dev,1.0.0-beta.1", ties[] = "1.0.0+a,1.0.0,1.0.0+b,0.9";
  static const struct {
    const char *texts, *list;
    uint32_t least, flags;
    int status;
    size_t place;
  } worked[] = {
      {tags, "*", 0, 1, VERSIONS_OK, 1},
      {tags, "*", 0, 3, VERSIONS_OK, 1},
      {tags, "*", VERSIONS_BETA, UINT32_MAX, VERSIONS_OK, 1},
      {tags, "*", VERSIONS_RC, 1, VERSIONS_OK, 2},
      {tags, "*", VERSIONS_STABLE, 1, VERSIONS_OK, 2},
      {tags, ">=1.2.0,<1.5.0", VERSIONS_STABLE, 1, VERSIONS_OK, 0},
      {tags, "<1.0.0", 0, 1, VERSIONS_NO_VERSION, 77},
      {tags, "*", VERSIONS_STABLE + 1, 1, VERSIONS_NO_VERSION, 77},
      {tags, "*", 257, 1, VERSIONS_NO_VERSION, 77},
      {tags, "*", UINT32_MAX, 1, VERSIONS_NO_VERSION, 77},
      {tags, "no list", 0, 1, VERSIONS_NO_REQUIREMENTS, 77},
      {tags, "", UINT32_MAX, 1, VERSIONS_NO_REQUIREMENTS, 77},
      {"v2.0.0,v2.0.0-beta.1", "*", 0, 0, VERSIONS_OK, 1},
      {"v2.0.0,v2.0.0-beta.1", "*", 0, 2, VERSIONS_OK, 1},
      {"v2.0.0,v2.0.0-beta.1", "*", 0, 1, VERSIONS_OK, 0},
      {strict, "*", 0, 0, VERSIONS_OK, 2},
      {strict, "*", VERSIONS_DEV, 0, VERSIONS_OK, 2},
      {strict, "*", VERSIONS_ALPHA, 0, VERSIONS_OK, 1},
      {strict, "*", VERSIONS_STABLE, 0, VERSIONS_OK, 1},
      {strict, "<1.0.0", VERSIONS_ALPHA, 0, VERSIONS_OK, 0},
      {strict, "<1.0.0", VERSIONS_RC, 0, VERSIONS_OK, 0},
      {strict, "<1.0.0", VERSIONS_STABLE, 0, VERSIONS_NO_VERSION, 77},
      {ties, "*", 0, 0, VERSIONS_OK, 0},
      {ties, "<1.0.0", 0, 0, VERSIONS_OK, 3},
      {"1.2.3", "*", 0, 0, VERSIONS_OK, 0},
      {"none!", "*", 0, 0, VERSIONS_NO_VERSION, 77},
      {"", "*", 0, 1, VERSIONS_NO_VERSION, 77},
      {",,1", "*", 0, 0, VERSIONS_OK, 2},
  };
  for (size_t i = 0; i < sizeof worked / sizeof *worked; i++) {
    char texts[64];
    int64_t offsets[9] = {0};
    size_t count = 0, used = 0, place = 77;
    for (const char *byte = worked[i].texts; *byte != 0; byte++) {
      if (*byte == ',') offsets[++count] = (int64_t)used;
      else texts[used++] = *byte;
    }
    offsets[++count] = (int64_t)used;
    CHECK(versions_newest(texts, used, offsets, count + 1, worked[i].list, strlen(worked[i].list), worked[i].least,
                          worked[i].flags, &place) == worked[i].status);
    CHECK(place == worked[i].place);
  }
}

// What comes next after versions at places. No text stands for none.
static void worked_next(void) {
  static const struct {
    const char *text;
    size_t place;
    const char *next;
  } worked[] = {
      {"1.2.3", 2, "1.2.4"},         {"1.2.3", 1, "1.3.0"},          {"1.2.3", 0, "2.0.0"},
      {"1.2.3", 3, NULL},            {"1.2.3", SIZE_MAX, NULL},      {"1.2.3-rc.1", 2, "1.2.3"},
      {"1.2.3-rc.1", 1, "1.3.0"},    {"1.2.0-rc.1", 1, "1.2.0"},     {"1.2.3+x", 2, "1.2.4"},
      {"1:1.9", 1, "1:1.10"},        {"0:1.0", 0, "0:2.0"},          {"1.2-3", 1, "1.3"},
      {"1.2.4294967295", 2, NULL},   {"1.2.4294967295", 1, "1.3.0"}, {"1.2.3.4", 1, "1.3.0.0"},
      {"5", 0, "6"},                 {"2-1", 0, "3"},                {"2023.01.02", 0, NULL},
      {"1.0rc1", 0, NULL},           {"1_2", 0, NULL},
  };
  for (size_t i = 0; i < sizeof worked / sizeof *worked; i++) {
    const char *text = worked[i].text, *wanted = worked[i].next;
    size_t place = worked[i].place, length = strlen(text), needed = 77;
    char next[20];
    memset(next, 77, sizeof next);
    int status = versions_next(text, length, place, NULL, 0, &needed);
    if (wanted == NULL) {
      CHECK(status == VERSIONS_NO_NEXT && needed == 77);
      CHECK(versions_next(text, length, place, next, sizeof next, &needed) == VERSIONS_NO_NEXT);
      CHECK(needed == 77 && next[0] == 77);
      continue;
    }
    CHECK(status == VERSIONS_NO_ROOM && needed == strlen(wanted));
    CHECK(versions_next(text, length, place, next, needed - 1, &needed) == VERSIONS_NO_ROOM && next[0] == 77);
    CHECK(versions_next(text, length, place, next, needed, &needed) == VERSIONS_OK && needed == strlen(wanted));
    CHECK(memcmp(next, wanted, needed) == 0 && next[needed] == 77);
  }
  size_t needed = 77;
  CHECK(versions_next(NULL, 0, 0, NULL, 0, &needed) == VERSIONS_NO_VERSION && needed == 77);
  CHECK(versions_next("1.2.3-", 6, 0, NULL, 0, &needed) == VERSIONS_NO_VERSION && needed == 77);
}

// What comes next as a release, where the word is `release`, and as a pre-release of a word. No text stands for none.
static void worked_next_pre(void) {
  static const char release[] = "release";
  static const struct {
    const char *text, *word, *next;
  } worked[] = {
      {"1.2.3-rc.1", release, "1.2.3"},
      {"1.2.3", release, "1.2.4"},
      {"1.2", release, "1.3"},
      {"1:1.9-3", release, "1:1.10"},
      {"1.2.4294967295-rc.1", release, "1.2.4294967295"},
      {"1.2.4294967295", release, NULL},
      {"1.0rc1", release, NULL},
      {"1_2", release, NULL},
      {"1.2.3", "rc", "1.2.4-rc.1"},
      {"1.2.3-rc.1", "rc", "1.2.3-rc.2"},
      {"1.2.3-rc", "rc", "1.2.3-rc.1"},
      {"1.2.3-alpha.4", "rc", "1.2.3-rc.1"},
      {"1.2.3-rc.1.5", "rc", "1.2.3-rc.2"},
      {"1.2.3-rc.1+b", "rc", "1.2.3-rc.2"},
      {"1.2.3-rc.1", "beta", "1.2.4-beta.1"},
      {"1.2.3-rc.x", "rc", "1.2.4-rc.1"},
      {"1.2.3-rc1", "rc", "1.2.4-rc.1"},
      {"1.2.3-a", "a.x", "1.2.3-a.x.1"},
      {"1.2.3-a.x.4", "a", "1.2.4-a.1"},
      {"1.2.3-rc.4294967295", "rc", "1.2.4-rc.1"},
      {"1.2.4294967295-a", "rc", "1.2.4294967295-rc.1"},
      {"1.2.4294967295", "rc", NULL},
      {"1.2.3-rc.1", "", "1.2.3-rc.2"},
      {"1.2.3-1", "", "1.2.3-2"},
      {"1.2.3-0", "", "1.2.3-1"},
      {"1.2.3-a.b.9", "", "1.2.3-a.b.10"},
      {"1.2.3", "", NULL},
      {"1.2.3-rc", "", NULL},
      {"1.2.3-rc1", "", NULL},
      {"1.2.3", "rc.", NULL},
      {"1.2.3", ".rc", NULL},
      {"1.2.3", "01", NULL},
      {"1.2.3", "4294967296", NULL},
      {"1.2.3", "rc_1", NULL},
      {"1.2.3", "rc+1", NULL},
      {"1.2", "rc", NULL},
      {"1.2-rc.1", "", NULL},
      {"1_2", "rc", NULL},
  };
  for (size_t i = 0; i < sizeof worked / sizeof *worked; i++) {
    const char *text = worked[i].text, *word = worked[i].word, *wanted = worked[i].next;
    const size_t length = strlen(text), word_length = strlen(word), most = wanted ? strlen(wanted) : 0;
    // With no room, too little, just enough and more, where the text ends at the end of memory that is its own.
    const size_t rooms[] = {0, most ? most - 1 : 0, most, most + 9};
    for (size_t j = 0; j < sizeof rooms / sizeof *rooms; j++) {
      size_t needed = 77;
      char next[40];
      memset(next, 77, sizeof next);
      int status = word == release ? versions_next_release(text, length, next, rooms[j], &needed)
                                   : versions_next_pre(text, length, word, word_length, next, rooms[j], &needed);
      size_t written = wanted && rooms[j] >= most ? most : 0;
      CHECK(status == (!wanted ? VERSIONS_NO_NEXT : written ? VERSIONS_OK : VERSIONS_NO_ROOM));
      CHECK(needed == (wanted ? most : 77) && (!wanted || memcmp(next, wanted, written) == 0));
      CHECK(next[written] == 77);
    }
  }
  size_t needed = 77;
  char next[20];
  CHECK(versions_next_release(NULL, 0, NULL, 0, &needed) == VERSIONS_NO_VERSION && needed == 77);
  CHECK(versions_next_pre(NULL, 0, NULL, 0, NULL, 0, &needed) == VERSIONS_NO_VERSION && needed == 77);
  CHECK(versions_next_pre("1.2.3-", 6, "rc", 2, NULL, 0, &needed) == VERSIONS_NO_VERSION && needed == 77);
  CHECK(versions_next_pre("1.2.3", 5, NULL, 1, next, sizeof next, &needed) == VERSIONS_NULL && needed == 77);
  CHECK(versions_next_pre("1.2.3-7", 7, NULL, 0, next, sizeof next, &needed) == VERSIONS_OK && needed == 7);
  CHECK(memcmp(next, "1.2.3-8", 7) == 0);
  // A word within other bytes, and the buffer that the word was in.
  CHECK(versions_next_pre("1.2.3", 5, "rc.1", 2, next, sizeof next, &needed) == VERSIONS_OK && needed == 10);
  CHECK(memcmp(next, "1.2.4-rc.1", 10) == 0);
}

// The first member that is not a requirement, by the tables of docs/REQUIREMENTS.md. A place of 77 stands for none.
static void worked_members(void) {
  static const struct {
    const char *list;
    size_t start, end;
  } worked[] = {
      {"*", 77, 77},           {">=1.1.1,<2.0.0", 77, 77}, {"", 0, 0},        {",", 0, 0},
      {"1.2.3", 0, 5},         {">= 1.2", 0, 6},           {",*", 0, 0},      {"*,,*", 2, 2},
      {"=1.0 || =2.0", 0, 12}, {">=1.0, <2.0", 6, 11},     {"=1.0.0,", 7, 7}, {"*,*,>", 4, 5},
      {"*,!=1.0,^1.*", 2, 7},  {"*,^1.*", 2, 6},           {"*1,*", 0, 2},    {"*,=>1.0", 2, 7},
      {"*,>=1-\xc3\xa9", 2, 8}, {"*,\xff,*", 2, 3},         {"\xff", 0, 1},    {"*,*", 77, 77},
  };
  for (size_t i = 0; i < sizeof worked / sizeof *worked; i++) {
    size_t length = strlen(worked[i].list), start = 77, end = 77;
    int status = versions_wrong_member(worked[i].list, length, &start, &end);
    CHECK(status == (worked[i].end == 77 ? VERSIONS_NO_WRONG_MEMBER : VERSIONS_OK));
    CHECK(start == worked[i].start && end == worked[i].end);
  }
  size_t start = 77, end = 77;
  CHECK(versions_wrong_member(NULL, 0, &start, &end) == VERSIONS_OK && start == 0 && end == 0);
  CHECK(versions_wrong_member("*,\0", 3, &start, &end) == VERSIONS_OK && start == 2 && end == 3);
}

// The first member that does not match, and why. A reason of 0 stands for a list that matches.
static void worked_exclusions(void) {
  static const struct {
    const char *list, *text;
    size_t start, end;
    uint32_t why;
  } worked[] = {
      {">=1.5", "1.4", 0, 5, VERSIONS_WHY_BELOW},    {">=1,<2", "2.0", 4, 6, VERSIONS_WHY_ABOVE},
      {">=1,<2", "0.9", 0, 3, VERSIONS_WHY_BELOW},   {">=1,<2", "1.5", 77, 77, 0},
      {"=1.2", "1.2.3.4_x", 0, 4, VERSIONS_WHY_KIND}, {"=1.0.0", "1.0", 0, 6, VERSIONS_WHY_KIND},
      {"=1.0", "0:1.0", 0, 4, VERSIONS_WHY_PARTS},   {"~1.2", "1.2.0.1", 0, 4, VERSIONS_WHY_PARTS},
      {"~1.2.3", "1.3.0", 0, 6, VERSIONS_WHY_ABOVE}, {">0,~1_2", "1_2", 3, 7, VERSIONS_WHY_KIND},
      {"*", "1_2", 77, 77, 0},                       {"=1.0.0", "1.0.0+x", 77, 77, 0},
  };
  for (size_t i = 0; i < sizeof worked / sizeof *worked; i++) {
    const char *list = worked[i].list, *text = worked[i].text;
    size_t start = 77, end = 77;
    uint32_t why = 0;
    int status = versions_why_not(list, strlen(list), text, strlen(text), &start, &end, &why);
    CHECK(status == (worked[i].why == 0 ? VERSIONS_ALL_MATCH : VERSIONS_OK));
    CHECK(start == worked[i].start && end == worked[i].end && why == worked[i].why);
  }
  size_t start = 77, end = 77;
  uint32_t why = 77;
  CHECK(versions_why_not(">2,", 3, "1", 1, &start, &end, &why) == VERSIONS_NO_REQUIREMENTS);
  CHECK(versions_why_not("", 0, "1..2", 4, &start, &end, &why) == VERSIONS_NO_REQUIREMENTS);
  CHECK(versions_why_not(">2", 2, "1..2", 4, &start, &end, &why) == VERSIONS_NO_VERSION);
  CHECK(start == 77 && end == 77 && why == 77);
}

// The same as a sentence. An empty one stands for a list that matches.
static void worked_sentences(void) {
  static const struct {
    const char *list, *text, *why;
  } worked[] = {
      {">=1.5", "1.4", "1.4 is below >=1.5"},
      {">=1,<2", "2.0", "2.0 is above <2"},
      {"*,^1.2", "1.2.5", "1.2.5 is not of a kind that ^1.2 matches"},
      {"=1.0", "0:1.0", "0:1.0 is within the bounds of =1.0, but its parts or fields differ"},
      {">=1,<2", "1.5", ""},
  };
  for (size_t i = 0; i < sizeof worked / sizeof *worked; i++) {
    const char *list = worked[i].list, *text = worked[i].text, *why = worked[i].why;
    char said[80];
    size_t length = strlen(why), len = 77;
    memset(said, '#', sizeof said);
    int status = versions_why_text(list, strlen(list), text, strlen(text), NULL, 0, &len);
    CHECK(status == (length == 0 ? VERSIONS_ALL_MATCH : VERSIONS_NO_ROOM) && len == (length == 0 ? 77 : length));
    if (length == 0) continue;
    status = versions_why_text(list, strlen(list), text, strlen(text), said, length - 1, &len);
    CHECK(status == VERSIONS_NO_ROOM && len == length && said[0] == '#');
    status = versions_why_text(list, strlen(list), text, strlen(text), said, sizeof said, &len);
    CHECK(status == VERSIONS_OK && len == length && memcmp(said, why, length) == 0 && said[length] == '#');
  }
  size_t len = 77;
  char said[80] = "#";
  CHECK(versions_why_text(">2,", 3, "1..2", 4, said, sizeof said, &len) == VERSIONS_NO_REQUIREMENTS);
  CHECK(versions_why_text(">2", 2, "1..2", 4, said, sizeof said, &len) == VERSIONS_NO_VERSION);
  CHECK(len == 77 && said[0] == '#');
}

// Two members that exclude each other. A place of 77 stands for none.
static void worked_conflicts(void) {
  static const struct {
    const char *list;
    size_t start, end, other_start, other_end;
  } worked[] = {
      {">=2,<1", 0, 3, 4, 6},         {">1,<1", 0, 2, 3, 5},         {">=1,<2,>3", 7, 9, 4, 6},
      {"^1.2.3,^1.2", 7, 11, 0, 6},   {"~1.0_2", 0, 6, 0, 6},        {">=1,~1.0_2", 4, 10, 4, 10},
      {"=1.2.3,=1.2.3.4", 7, 15, 0, 6}, {">=1,<2", 77, 77, 77, 77},  {"*", 77, 77, 77, 77},
      {">=1.0,<=1.0", 77, 77, 77, 77}, {"=1.0,=1.0+x", 77, 77, 77, 77},
  };
  size_t start, end, other_start, other_end;
  for (size_t i = 0; i < sizeof worked / sizeof *worked; i++) {
    start = end = other_start = other_end = 77;
    int status =
        versions_conflict(worked[i].list, strlen(worked[i].list), &start, &end, &other_start, &other_end);
    CHECK(status == (worked[i].end == 77 ? VERSIONS_NO_CONFLICT : VERSIONS_OK));
    CHECK(start == worked[i].start && end == worked[i].end);
    CHECK(other_start == worked[i].other_start && other_end == worked[i].other_end);
  }
  start = end = other_start = other_end = 77;
  CHECK(versions_conflict("", 0, &start, &end, &other_start, &other_end) == VERSIONS_NO_REQUIREMENTS);
  CHECK(versions_conflict(">2,<1,", 6, &start, &end, &other_start, &other_end) == VERSIONS_NO_REQUIREMENTS);
  CHECK(start == 77 && end == 77 && other_start == 77 && other_end == 77);
}

// Of the texts of three bytes, 1_1 has the longest key.
static void buffer_sizes(void) {
  size_t length = 77;
  CHECK(bound_in(VERSIONS_MIXED, 0) == 5);
  CHECK(bound_in(VERSIONS_MIXED, 3) == 14);
  CHECK(versions_key(VERSIONS_MIXED, "1_1", 3, NULL, 0, &length) == VERSIONS_NO_ROOM && length == 14);
  CHECK(bound_in(VERSIONS_MIXED, (SIZE_MAX - 5) / 3) == (SIZE_MAX - 5) / 3 * 3 + 5);
  CHECK(bound_in(VERSIONS_MIXED, SIZE_MAX / 3 + 1) == SIZE_MAX);
  CHECK(bound_in(VERSIONS_MIXED, SIZE_MAX) == SIZE_MAX);
}

static const int64_t one_offset[] = {0}, apart[] = {3, 8, 8, 11}, last[] = {8};

// The same for tags, stabilities and the newest.
static void few_tags(void) {
  int64_t starts[4] = {77, 77, 77, 77};
  uint8_t answers[4] = {77, 77, 77, 77};
  size_t place = 77;
  CHECK(versions_in_tags(NULL, 0, one_offset, 1, NULL, 0) == VERSIONS_OK);
  CHECK(versions_in_tags("1.2.31.2", 8, last, 1, NULL, 0) == VERSIONS_OK);
  CHECK(versions_in_tags(NULL, 0, NULL, 0, NULL, 0) == VERSIONS_BAD_OFFSETS);
  CHECK(versions_in_tags("???1.2.31.2???", 14, apart, 4, starts, 3) == VERSIONS_OK);
  CHECK(starts[0] == 3 && starts[1] == 8 && starts[2] == 8 && starts[3] == 77);
  CHECK(versions_stabilities(NULL, 0, one_offset, 1, NULL, 0) == VERSIONS_OK);
  CHECK(versions_stabilities("1.2.31.2", 8, last, 1, NULL, 0) == VERSIONS_OK);
  CHECK(versions_stabilities(NULL, 0, NULL, 0, NULL, 0) == VERSIONS_BAD_OFFSETS);
  CHECK(versions_stabilities("???1.2.31.2???", 14, apart, 4, answers, 3) == VERSIONS_OK);
  CHECK(answers[0] == VERSIONS_STABLE && answers[1] == VERSIONS_NONE);
  CHECK(answers[2] == VERSIONS_STABLE && answers[3] == 77);
  CHECK(versions_newest(NULL, 0, one_offset, 1, "*", 1, 0, 0, &place) == VERSIONS_NO_VERSION);
  CHECK(versions_newest("1.2.31.2", 8, last, 1, "*", 1, 0, 0, &place) == VERSIONS_NO_VERSION);
  CHECK(versions_newest("1.2.31.2", 8, last, 1, NULL, 0, 0, 0, &place) == VERSIONS_NO_REQUIREMENTS && place == 77);
  CHECK(versions_newest("???1.2.31.2???", 14, apart, 4, "*", 1, 0, 0, &place) == VERSIONS_OK && place == 0);
  CHECK(versions_newest("???1.2.31.2???", 14, apart, 4, "<1.2.3", 6, 0, 0, &place) == VERSIONS_OK && place == 2);
}

// No texts, and texts that do not start at the beginning of the buffer.
static void few_texts(void) {
  uint8_t answers[4] = {77, 77, 77, 77};
  int64_t key_offsets[1] = {77};
  CHECK(versions_kinds(NULL, 0, one_offset, 1, NULL, 0) == VERSIONS_OK);
  CHECK(versions_match_all("*", 1, NULL, 0, one_offset, 1, NULL, 0) == VERSIONS_OK);
  CHECK(versions_keys(VERSIONS_MIXED, NULL, 0, one_offset, 1, NULL, 0, key_offsets, 1) == VERSIONS_OK &&
        key_offsets[0] == 0);
  CHECK(versions_in_range_all(NULL, 0, one_offset, 1, NULL, 0, NULL, 0, 7, NULL, 0) == VERSIONS_OK);
  CHECK(versions_kinds("1.2.31.2", 8, last, 1, NULL, 0) == VERSIONS_OK);
  CHECK(versions_kinds(NULL, 0, NULL, 0, NULL, 0) == VERSIONS_BAD_OFFSETS);
  CHECK(versions_match_all("*", 1, NULL, 0, NULL, 0, NULL, 0) == VERSIONS_BAD_OFFSETS);
  CHECK(versions_keys(VERSIONS_MIXED, NULL, 0, NULL, 0, NULL, 0, NULL, 0) == VERSIONS_BAD_OFFSETS);
  CHECK(versions_kinds("???1.2.31.2???", 14, apart, 4, answers, 3) == VERSIONS_OK);
  CHECK(answers[0] == VERSIONS_IDEAL && answers[1] == VERSIONS_NONE);
  CHECK(answers[2] == VERSIONS_GENERAL && answers[3] == 77);
  CHECK(versions_match_all("1.2", 3, "???1.2.31.2???", 14, apart, 4, answers, 3) == VERSIONS_NO_REQUIREMENTS);
  CHECK(versions_in_range_all("???1.2.31.2???", 14, apart, 4, NULL, 0, NULL, 0, VERSIONS_RANGE_IDEAL, answers, 3) ==
        VERSIONS_OK);
  CHECK(answers[0] == 1 && answers[1] == 2 && answers[2] == 0 && answers[3] == 77);
  CHECK(versions_match_all("<1.2.3", 6, "???1.2.31.2???", 14, apart, 4, answers, 3) == VERSIONS_OK);
  CHECK(answers[0] == 0 && answers[1] == 2 && answers[2] == 1 && answers[3] == 77);
  few_tags();
}

// Sorted places of no text, of one text, and of texts that are not versions, which need no key buffer.
static void sorted_places(void) {
  const int64_t nowhere[] = {0, 0, 0, 0};
  int64_t key_offsets[5] = {77, 77, 77, 77, 77};
  uint64_t places[4] = {77, 77, 77, 77};
  CHECK(versions_sort(VERSIONS_MIXED, NULL, 0, one_offset, 1, NULL, 0, key_offsets, 1, NULL, 0) == VERSIONS_OK);
  CHECK(versions_sort(VERSIONS_MIXED, "1.2.31.2", 8, last, 1, NULL, 0, key_offsets, 1, NULL, 0) == VERSIONS_OK);
  CHECK(versions_sort(VERSIONS_MIXED, NULL, 0, nowhere, 4, NULL, 0, key_offsets, 4, places, 3) == VERSIONS_OK);
  CHECK(places[0] == 0 && places[1] == 1 && places[2] == 2 && places[3] == 77);
  CHECK(versions_sort(VERSIONS_MIXED, "???1.2.31.2???", 14, apart, 4, NULL, 0, key_offsets, 4, places, 3) ==
        VERSIONS_NO_ROOM);
  CHECK(places[0] == 0 && places[1] == 1 && places[2] == 2 && places[3] == 77);
  const int64_t alone[] = {3, 8};
  const uint64_t the_one[] = {0}, the_last_first[] = {2, 0, 1};
  sorted("???1.2.31.2???", alone, 1, the_one);
  sorted("???1.2.31.2???", apart, 3, the_last_first);
  // A tie that is broken by kind; metadata of strict versions breaks no tie; texts that are not versions come last.
  const int64_t ties[] = {0, 5, 6, 9, 16, 19, 26, 26}, twice[] = {0, 5, 8, 13, 14, 17};
  const uint64_t ties_broken[] = {2, 4, 0, 3, 5, 1, 6}, twice_in_turn[] = {1, 4, 0, 2, 3};
  sorted("0:1.0?1.01.0.1+b1.01.0.1+a", ties, 7, ties_broken);
  sorted("2.0.01.02.0.0?1.0", twice, 5, twice_in_turn);
}

// Any other number of key offsets or of places is an error.
static void refused_lengths(void) {
  const int64_t two[] = {0, 5, 8};
  int64_t key_offsets[5] = {77, 77, 77, 77, 77};
  uint64_t places[4] = {77, 77, 77, 77};
  uint8_t room[64];
  memset(room, 77, sizeof room);
  for (size_t more = 0; more < 5; more++) {
    for (size_t many = 0; many < 5; many++) {
      if (more == 3 && many == 2) continue;
      CHECK(versions_sort(VERSIONS_MIXED, "1.2.31.2", 8, two, 3, room, sizeof room, key_offsets, more, places, many) ==
            VERSIONS_BAD_OFFSETS);
    }
  }
  for (int i = 0; i < 4; i++) CHECK(places[i] == 77);
  for (size_t i = 0; i < sizeof room; i++) CHECK(room[i] == 77);
  for (int i = 0; i < 5; i++) CHECK(key_offsets[i] == 77);
}

// Offsets that are bad in each way, and arrays whose lengths do not match.
static void bad_offsets(void) {
  const int64_t negative[] = {-1, 5, 8}, lowest[] = {INT64_MIN, 5, 8}, descending[] = {5, 0, 8}, past[] = {0, 5, 9},
                largest[] = {0, 5, INT64_MAX}, negative_last[] = {0, 5, -1}, good[] = {0, 5, 8}, nothing[] = {-1};
  const int64_t *const bad[] = {negative, lowest, descending, past, largest, negative_last};
  for (size_t i = 0; i < sizeof bad / sizeof *bad; i++) {
    refused_offsets(bad[i], 3, 2);
    refused_newest(bad[i], 3);
  }
  refused_offsets(nothing, 1, 0);
  refused_newest(nothing, 1);
  refused_newest(good, 0);
  refused_newest(NULL, 0);
  refused_offsets(good, 3, 3);
  refused_offsets(good, 3, 1);
  refused_offsets(good, 3, 0);
  refused_offsets(good, 0, 0);
}

// Every status has its own text, its comment in the header up to a semicolon.
static void statuses(void) {
  CHECK(strcmp(versions_status_text(VERSIONS_NO_MEMORY), "memory allocation failed") == 0);
  for (int a = VERSIONS_OK; a <= VERSIONS_TOO_LONG + 1; a++) {
    CHECK(strlen(versions_status_text(a)) > 5);
    for (int b = VERSIONS_OK; b < a; b++) CHECK(strcmp(versions_status_text(a), versions_status_text(b)) != 0);
  }
}

// The version.
static void library(void) {
  char version[40];
  snprintf(version, sizeof version, "%d.%d.%d", VERSIONS_VERSION_MAJOR, VERSIONS_VERSION_MINOR, VERSIONS_VERSION_PATCH);
  CHECK(strcmp(version, VERSIONS_VERSION) == 0);
  CHECK(strcmp(versions_version(), VERSIONS_VERSION) == 0);
}

// A form in a block of just its length, of a text that is a set.
static uint8_t *form_of(const char *text, size_t *form_length) {
  size_t length = strlen(text), bound = 77, needed = 77;
  CHECK(versions_set_bound(VERSIONS_MIXED, text, length, &bound) == VERSIONS_OK && bound != 77);
  uint8_t *room = (uint8_t *)block(bound);
  CHECK(versions_set(VERSIONS_MIXED, text, length, room, bound, form_length) == VERSIONS_OK && *form_length <= bound);
  uint8_t *form = (uint8_t *)block(*form_length);
  memcpy(form, room, *form_length);
  release(room);
  CHECK(versions_set(VERSIONS_MIXED, text, length, NULL, 0, &needed) == VERSIONS_NO_ROOM && needed == bound);
  return form;
}

// Whether a call makes these bytes of one set, or of two, in a block of just their length, and in none smaller.
static bool makes(int (*call)(const uint8_t *, size_t, const uint8_t *, size_t, uint8_t *, size_t, size_t *),
                  const uint8_t *one, size_t one_length, const uint8_t *other, size_t other_length,
                  const uint8_t *wanted, size_t wanted_length) {
  size_t length = 77;
  if (call(one, one_length, other, other_length, NULL, 0, &length) != VERSIONS_NO_ROOM || length != wanted_length)
    return false;
  uint8_t *made = (uint8_t *)block(length);
  memset(made, 170, length);
  bool refused = call(one, one_length, other, other_length, made, length - 1, &length) == VERSIONS_NO_ROOM;
  for (size_t i = 0; i < length; i++) refused = refused && made[i] == 170;
  int status = call(one, one_length, other, other_length, made, length, &length);
  bool same = status == VERSIONS_OK && length == wanted_length && memcmp(made, wanted, length) == 0;
  release(made);
  return refused && same;
}

// versions_set_not as a call of two sets, of which the second counts for nothing.
static int negated(const uint8_t *one, size_t one_length, const uint8_t *other, size_t other_length, uint8_t *form,
                   size_t room, size_t *form_length) {
  CHECK(other != NULL && other_length != 0);
  return versions_set_not(one, one_length, form, room, form_length);
}

// Each call about sets, on rows worked out by hand: two sets, what both have, what either has, and what the first has not.
static void worked_sets(void) {
  static const struct {
    const char *one, *other, *both, *either, *rest;
    bool is_part, meet;
  } rows[] = {
      {">=1.2, <2", "^1.5", "^1.5", ">=1.2 <2 || ^1.5", "<1.2 || >=2", false, true},
      {"=1", ">0 <2", "==1 || =01", "> 0, <2 || =1", "!=1", true, true},
      {"<1", ">=1", "=1 !=1", "*", ">=1", false, false},
      {"*", "=1 =2", ">2 <1", "*", "=1,=2", false, false},
      {"=1.*", "!=1.*", "<0 >0", "*", "!=1.*", false, false},
      {"=1 || =2 || =3", "!=2", "=3 || =1", "*", "!=1 !=2 !=3", false, true},
      {"~1.2.3", "~1.2", "~1.2.3", "~1.2", "<1.2.3 || !=1.2.* >1.2.3", true, true},
  };
  for (size_t i = 0; i < sizeof rows / sizeof *rows; i++) {
    size_t one_length, other_length, both_length, either_length, rest_length;
    uint8_t *one = form_of(rows[i].one, &one_length), *other = form_of(rows[i].other, &other_length);
    uint8_t *both = form_of(rows[i].both, &both_length), *either = form_of(rows[i].either, &either_length);
    uint8_t *rest = form_of(rows[i].rest, &rest_length);
    bool is_part = !rows[i].is_part, meet = !rows[i].meet;
    CHECK(makes(versions_set_and, one, one_length, other, other_length, both, both_length));
    CHECK(makes(versions_set_or, one, one_length, other, other_length, either, either_length));
    CHECK(makes(negated, one, one_length, other, other_length, rest, rest_length));
    CHECK(versions_set_part_of(one, one_length, other, other_length, &is_part) == VERSIONS_OK && is_part == rows[i].is_part);
    CHECK(versions_set_meets(one, one_length, other, other_length, &meet) == VERSIONS_OK && meet == rows[i].meet);
    release(one), release(other), release(both), release(either), release(rest);
  }

  size_t length, count = 77, low = 77, low_end = 77, high = 77, high_end = 77;
  uint8_t *form = form_of("=1.2 || >3", &length);
  bool has = false;
  uint8_t answers[3] = {9, 9, 9};
  const int64_t offsets[] = {0, 3, 4, 7};
  CHECK(versions_set_count(form, length, &count) == VERSIONS_OK && count == 2);
  CHECK(versions_set_interval(form, length, 0, &low, &low_end, &high, &high_end) == VERSIONS_OK);
  CHECK(high_end - high == low_end - low + 1 && memcmp(form + low, form + high, low_end - low) == 0);
  CHECK(versions_set_interval(form, length, 1, &low, &low_end, &high, &high_end) == VERSIONS_OK);
  CHECK(high == high_end && low < low_end && low_end == length);
  CHECK(versions_set_interval(form, length, 2, &low, &low_end, &high, &high_end) == VERSIONS_NO_INTERVAL);
  CHECK(versions_set_has(form, length, "1.2+x", 5, &has) == VERSIONS_OK && has);
  CHECK(versions_set_has(form, length, "3", 1, &has) == VERSIONS_OK && !has);
  CHECK(versions_set_has(form, length, "3..", 3, &has) == VERSIONS_NO_VERSION);
  CHECK(versions_set_has_all(form, length, "0:1!3.1", 7, offsets, 4, answers, 3) == VERSIONS_OK);
  CHECK(answers[0] == 0 && answers[1] == 2 && answers[2] == 1);
  release(form);
  form = form_of("=1.2", &length);
  uint8_t *made = (uint8_t *)block(length);
  size_t made_length = 77;
  CHECK(versions_set_of_version(VERSIONS_MIXED, "0:1.02", 6, made, length - 1, &made_length) == VERSIONS_NO_ROOM);
  CHECK(made_length == length);
  CHECK(versions_set_of_version(VERSIONS_MIXED, "0:1.02", 6, made, length, &made_length) == VERSIONS_OK);
  CHECK(made_length == length && memcmp(made, form, length) == 0);
  release(form), release(made);
  size_t place = 77, why_length = 77;
  uint32_t reason = 77;
  CHECK(versions_set_wrong(VERSIONS_MIXED, ">=1, 2", 6, &place, &reason) == VERSIONS_OK);
  CHECK(place == 5 && reason == VERSIONS_SET_NO_OPERATOR);
  CHECK(versions_set_wrong(VERSIONS_MIXED, ">=1, =2", 7, &place, &reason) == VERSIONS_NO_WRONG_MEMBER);
  CHECK(versions_set_wrong_text(VERSIONS_MIXED, "2", 1, NULL, 0, &why_length) == VERSIONS_NO_ROOM && why_length < 100);
  char *why = (char *)block(why_length);
  CHECK(versions_set_wrong_text(VERSIONS_MIXED, "2", 1, why, why_length, &why_length) == VERSIONS_OK);
  CHECK(memcmp(why, "an operator is missing", 22) == 0);
  release(why);

  // A text that is not a set is none however small the buffer is, and nothing is written.
  static const char not_a_set[] = ">=1, <2 || ~1.2.3 ^1 || !=4, 5";
  uint8_t buffer[1000], before[1000];
  for (size_t room = 0; room <= sizeof buffer; room += 250) {
    memset(buffer, 7, sizeof buffer), memset(before, 7, sizeof before);
    length = 77;
    CHECK(versions_set(VERSIONS_MIXED, not_a_set, strlen(not_a_set), buffer, room, &length) == VERSIONS_NO_SET);
    CHECK(length == 77 && memcmp(buffer, before, sizeof buffer) == 0);
  }
}

// Lengths that no array has, and a room that says that there is enough.
static void too_long(void) {
  static const size_t lengths[] = {(size_t)PTRDIFF_MAX + 1, SIZE_MAX};
  uint8_t key[20];
  size_t length = 77;
  int32_t order = 77;
  for (size_t i = 0; i < 2; i++) {
    CHECK(versions_kind("1", lengths[i]) == -VERSIONS_TOO_LONG);
    CHECK(versions_stability("1", lengths[i]) == -VERSIONS_TOO_LONG);
    CHECK(versions_kind(NULL, lengths[i]) == -VERSIONS_NULL);
    CHECK(versions_compare(VERSIONS_MIXED, "1", lengths[i], "2", 1, &order) == VERSIONS_TOO_LONG && order == 77);
    CHECK(versions_compare(VERSIONS_MIXED, "1", 1, "2", lengths[i], &order) == VERSIONS_TOO_LONG && order == 77);
    CHECK(versions_key(VERSIONS_MIXED, "1", lengths[i], key, sizeof key, &length) == VERSIONS_TOO_LONG && length == 77);
    CHECK(versions_key(VERSIONS_MIXED, "1.2.3", 5, key, lengths[i], &length) == VERSIONS_OK && length == 15);
    length = 77;
  }
}

// A key in a block of just its length, of a version of a scheme.
static uint8_t *key_in(uint32_t scheme, const char *text, size_t length, size_t *key_length) {
  size_t bound = bound_in(scheme, length);
  CHECK(versions_key(scheme, text, length, NULL, 0, key_length) == VERSIONS_NO_ROOM && *key_length <= bound);
  uint8_t *key = (uint8_t *)block(*key_length);
  CHECK(versions_key(scheme, text, length, key, *key_length - 1, key_length) == VERSIONS_NO_ROOM);
  CHECK(versions_key(scheme, text, length, key, *key_length, key_length) == VERSIONS_OK);
  return key;
}

// Each call about schemes, on rows worked out by hand: two versions, and how they compare; and texts that are none.
static void worked_schemes(void) {
  for (size_t i = 0; i < COUNT(scheme_pairs); i++) {
    uint32_t scheme = scheme_pairs[i].scheme;
    const char *one = scheme_pairs[i].one, *other = scheme_pairs[i].other;
    size_t one_length = scheme_pairs[i].one_length, other_length = scheme_pairs[i].other_length, one_size, other_size;
    int32_t order = 77, back = 77;
    CHECK(versions_compare(scheme, one, one_length, other, other_length, &order) == VERSIONS_OK);
    CHECK(versions_compare(scheme, other, other_length, one, one_length, &back) == VERSIONS_OK);
    CHECK(order == scheme_pairs[i].order && back == -order);
    uint8_t *key = key_in(scheme, one, one_length, &one_size);
    uint8_t *other_key = key_in(scheme, other, other_length, &other_size);
    int bytes = memcmp(key, other_key, one_size < other_size ? one_size : other_size);
    CHECK((bytes > 0) - (bytes < 0) == order && (order != 0 || one_size == other_size));
    release(key), release(other_key);

    char texts[64];
    uint8_t keys[256];
    int64_t offsets[] = {0, (int64_t)other_length, (int64_t)other_length + 1, (int64_t)(other_length + 1 + one_length)};
    int64_t key_offsets[4];
    uint64_t places[3] = {77, 77, 77};
    size_t size = (size_t)snprintf(texts, sizeof texts, "%s!%s", other, one);
    CHECK(versions_sort(scheme, texts, size, offsets, 4, keys, sizeof keys, key_offsets, 4, places, 3) == VERSIONS_OK);
    // In mixed a sort breaks ties.
    bool breaks = scheme == VERSIONS_MIXED && order == 0;
    CHECK(breaks || (places[0] == (order < 0 ? 2 : 0) && places[1] == (order < 0 ? 0 : 2)));
    CHECK(places[0] + places[1] == 2 && places[0] != 1 && places[2] == 1);
    CHECK((size_t)key_offsets[1] == other_size && key_offsets[2] == key_offsets[1]);
  }
  for (size_t i = 0; i < COUNT(scheme_no_versions); i++) {
    uint32_t scheme = scheme_no_versions[i].scheme;
    const char *text = scheme_no_versions[i].text;
    size_t length = scheme_no_versions[i].length, written = 77;
    bool has = true;
    int32_t order = 77;
    CHECK(versions_has(scheme, text, length, &has) == VERSIONS_OK && !has);
    CHECK(versions_key(scheme, text, length, NULL, 0, &written) == VERSIONS_NO_VERSION);
    CHECK(versions_compare(scheme, text, length, "1.0.0", 5, &order) == VERSIONS_NO_VERSION_A);
    CHECK(written == 77 && order == 77);
  }
  uint32_t last = 0;
  for (size_t i = 0; i < COUNT(scheme_names); i++) {
    uint32_t scheme = scheme_names[i].scheme, found = 77;
    const char *its = scheme_names[i].text;
    size_t length = scheme_names[i].length, written = 77;
    char name[16];
    CHECK(versions_scheme(its, length, &found) == VERSIONS_OK && found == scheme);
    // The first names of schemes are those that calls answer.
    if (scheme == last) continue;
    CHECK(versions_scheme_name(scheme, name, sizeof name, &written) == VERSIONS_OK && written == length);
    CHECK(memcmp(name, its, length) == 0 && scheme == last + 1);
    CHECK(versions_scheme_name(scheme, NULL, 0, &written) == VERSIONS_NO_ROOM && written == length);
    found = 77;
    CHECK(versions_scheme(its, length - 1, &found) == VERSIONS_NO_SCHEME && found == 77);
    last = scheme;
  }
  size_t written = 77;
  CHECK(versions_scheme_name(0, NULL, 0, &written) == VERSIONS_NO_SCHEME && written == 77);
  CHECK(versions_scheme_name(last + 1, NULL, 0, &written) == VERSIONS_NO_SCHEME && written == 77);
  CHECK(versions_key_bound(last + 1, 1, &written) == VERSIONS_NO_SCHEME && written == 77);

  // A set of a scheme has its number, and goes by its order.
  uint8_t form[256];
  size_t form_length, place = 77;
  uint32_t reason = 77;
  bool has = false;
  CHECK(versions_set(VERSIONS_DEB, ">=1.0", 5, form, sizeof form, &form_length) == VERSIONS_OK);
  uint32_t found = 77;
  CHECK(versions_set_scheme(form, form_length, &found) == VERSIONS_OK && found == VERSIONS_DEB);
  found = 77;
  CHECK(versions_set_scheme(form, 1, &found) == VERSIONS_NO_FORM && found == 77);
  form[0] = 99;
  CHECK(versions_set_scheme(form, form_length, &found) == VERSIONS_NO_SCHEME && found == 77);
  form[0] = VERSIONS_DEB;
  CHECK(versions_set_has(form, form_length, "1.0-1", 5, &has) == VERSIONS_OK && has);
  CHECK(versions_set_has(form, form_length, "1.0~rc1", 7, &has) == VERSIONS_OK && !has);
  CHECK(versions_set_has(form, form_length, "a", 1, &has) == VERSIONS_NO_VERSION);
  CHECK(versions_set_wrong(VERSIONS_DEB, "^1", 2, &place, &reason) == VERSIONS_OK);
  CHECK(place == 1 && reason == VERSIONS_SET_NO_PARTS);
  CHECK(versions_set(VERSIONS_DEB, "<<1.0", 5, form, sizeof form, &form_length) == VERSIONS_OK);
  CHECK(versions_set_has(form, form_length, "1.0~rc1", 7, &has) == VERSIONS_OK && has);
  CHECK(versions_set_has(form, form_length, "1.0", 3, &has) == VERSIONS_OK && !has);
  CHECK(versions_set_wrong(VERSIONS_RPM, ">>1", 3, &place, &reason) == VERSIONS_OK);
  CHECK(place == 2 && reason == VERSIONS_SET_NOT_DOUBLED);
}

// Checks up to where a text could become a version of a scheme, and why no further. The texts are in blocks of their own.
static void check_flaw(uint32_t scheme, const char *its, size_t length, size_t wanted_place, uint32_t wanted_reason) {
  static const char *const words[] = {
      "", "nothing", "nothing after the hyphen", "nothing after the plus", "nothing after the dot",
      "nothing after the colon", "nothing after the underscore", "nothing after the tilde",
      "nothing after the exclamation mark", "an end too early", "a blank", "a control character",
      "a character past ASCII", "an empty part", "a number with a leading zero", "a character that can't stand there",
      "a colon after the hyphen",
  };
  uint32_t reason = 77;
  size_t place = 77, written = 77, wanted = strlen(words[wanted_reason]);
  char *text = (char *)block(length), *why = (char *)block(wanted);
  memcpy(text, its, length);
  CHECK(versions_wrong(scheme, text, length, &place, &reason) == VERSIONS_OK);
  CHECK(place == wanted_place && reason == wanted_reason);
  memset(why, '?', wanted);
  CHECK(versions_wrong_text(scheme, text, length, why, wanted - 1, &written) == VERSIONS_NO_ROOM);
  CHECK(written == wanted && why[0] == '?');
  written = 77;
  CHECK(versions_wrong_text(scheme, text, length, why, wanted, &written) == VERSIONS_OK);
  CHECK(written == wanted && memcmp(why, words[wanted_reason], wanted) == 0);
  CHECK(versions_wrong_text(scheme, text, length, NULL, 0, &written) == VERSIONS_NO_ROOM && written == wanted);
  release(why), release(text);
}

// Why texts are no versions, on rows worked out by hand, and on long texts of each scheme.
static void worked_flaws(void) {
  for (size_t i = 0; i < COUNT(scheme_flaws); i++) {
    check_flaw(scheme_flaws[i].scheme, scheme_flaws[i].text, scheme_flaws[i].length, scheme_flaws[i].place,
               scheme_flaws[i].reason);
  }
  check_flaw(VERSIONS_MIXED, "\xff", 1, 0, VERSIONS_WRONG_NOT_ASCII);
  check_flaw(VERSIONS_MIXED, "1\x80", 2, 1, VERSIONS_WRONG_NOT_ASCII);

  // Of a version, and in no scheme, nothing is written.
  size_t place = 77, written = 77;
  uint32_t reason = 77, schemes = COUNT(scheme_fronts);
  char why[1] = {'?'};
  for (size_t i = 0; i <= COUNT(scheme_pairs) + 1; i++) {
    bool is_version = i < COUNT(scheme_pairs);
    uint32_t scheme = is_version ? scheme_pairs[i].scheme : i == COUNT(scheme_pairs) ? 0 : schemes + 1;
    const char *text = is_version ? scheme_pairs[i].one : "";
    int status = is_version ? VERSIONS_IS_VERSION : VERSIONS_NO_SCHEME;
    CHECK(versions_wrong(scheme, text, strlen(text), &place, &reason) == status);
    CHECK(versions_wrong_text(scheme, text, strlen(text), why, 1, &written) == status);
    CHECK(place == 77 && reason == 77 && written == 77 && why[0] == '?');
  }

  // A million parts, and a blank or nothing after the last dot.
  for (uint32_t i = 0; i < schemes; i++) {
    size_t front = scheme_fronts[i].length, length = front + 2000001;
    char *text = (char *)block(length);
    memcpy(text, scheme_fronts[i].text, front);
    for (size_t at = front; at < length; at++) text[at] = (at - front) % 2 ? '.' : '1';
    text[length - 1] = ' ';
    CHECK(versions_wrong(scheme_fronts[i].scheme, text, length, &place, &reason) == VERSIONS_OK);
    CHECK(place == length - 1 && reason == VERSIONS_WRONG_BLANK);
    if (scheme_fronts[i].scheme == VERSIONS_MIXED) {
      CHECK(versions_wrong(VERSIONS_MIXED, text, length - 1, &place, &reason) == VERSIONS_OK);
      CHECK(place == length - 1 && reason == VERSIONS_WRONG_AFTER_DOT);
    }
    release(text);
  }
}

// Makes every call on a long text: a piece many times, and one more byte.
static void long_text(const char *piece, size_t times, int kind, size_t key_length) {
  size_t piece_length = strlen(piece), length = piece_length * times + 1, needed = 0;
  char *text = (char *)block(length);
  for (size_t i = 0; i < times; i++) memcpy(text + i * piece_length, piece, piece_length);
  text[length - 1] = '1';
  CHECK(versions_kind(text, length) == kind);
  int32_t order = 77, total = 77;
  CHECK(versions_compare(VERSIONS_MIXED, text, length, text, length, &order) == VERSIONS_OK && order == 0);
  CHECK(versions_compare_total(text, length, text, length, &total) == VERSIONS_OK && total == 0);
  check_difference(text, length, text, length, VERSIONS_OK, order, total);
  CHECK(versions_key(VERSIONS_MIXED, text, length, NULL, 0, &needed) == VERSIONS_NO_ROOM && needed == key_length);
  uint8_t *key = (uint8_t *)block(needed);
  CHECK(versions_key(VERSIONS_MIXED, text, length, key, needed, &needed) == VERSIONS_OK && needed == key_length);
  check_parse(text, length, kind, key, needed);
  check_values(text, length, kind);
  release(key);
  bool matches = false;
  CHECK(versions_matches("*", 1, text, length, &matches) == VERSIONS_OK && matches);
  CHECK(versions_matches(text, length, "1", 1, &matches) == VERSIONS_NO_REQUIREMENTS);
  check_member(text, length, false);
  struct range all = {NULL, NULL, 0, 0, 1u << (kind - 1)};
  CHECK(versions_in_range(text, length, all.low, 0, all.high, 0, all.flags, &matches) == VERSIONS_OK && matches);
  uint32_t number = 77;
  int status = versions_nth(text, length, 0, &number);
  CHECK(status == VERSIONS_OK ? number == 1 : status == VERSIONS_NO_NUMBER);
  release(text);
}

// Checks a version of three texts, the middle one a byte many times.
static void long_field(const char *before, char byte, size_t times, const char *after, int kind) {
  size_t start = strlen(before), end = start + times, length = end + strlen(after);
  char *text = (char *)block(length);
  memcpy(text, before, start);
  memset(text + start, byte, times);
  memcpy(text + end, after, length - end);
  CHECK(versions_kind(text, length) == kind);
  check_values(text, length, kind);
  release(text);
}

// A million sections, a million parts, and ten megabytes of letters. The key of sections of one digit has the length of
// the bound. Then fields of a million bytes.
static void long_texts(void) {
  size_t million = 1000000;
  long_text("1_", million, VERSIONS_COMPLEX, bound_in(VERSIONS_MIXED, 2 * million + 1));
  long_text("1.", million, VERSIONS_GENERAL, 1 + 4 * (million + 1) + 1 + 1);
  long_text("a", 10 * million, VERSIONS_GENERAL, 1 + 1 + 10 * million + 1 + 1 + 3 + 1 + 1);
  long_field("", '9', million, ":1", VERSIONS_COMPLEX);
  long_field("", '0', million, "7:1", VERSIONS_COMPLEX);
  long_field("", '0', million, "9223372036854775808:1", VERSIONS_COMPLEX);
  long_field("", '9', million, "a:1", VERSIONS_COMPLEX);
  long_field("1.2.3-", '-', million, "+a-b", VERSIONS_IDEAL);
  long_field("1:2-3+", '.', million, "", VERSIONS_GENERAL);
}

// The ranks of texts by their places: ascending, descending, scattered, all equal, two in turn, and with some or all
// texts not versions.
static size_t rising(size_t place, size_t count) { return (void)count, place; }
static size_t falling(size_t place, size_t count) { return count - place; }
static size_t scattered(size_t place, size_t count) { return place * 7919 % count; }
static size_t level(size_t place, size_t count) { return (void)place, (void)count, 0; }
static size_t in_turn(size_t place, size_t count) { return (void)count, place % 2; }
static size_t with_none(size_t place, size_t count) { return place % 3 == 0 ? SIZE_MAX : scattered(place, count) / 10; }
static size_t none(size_t place, size_t count) { return (void)place, (void)count, SIZE_MAX; }

// A hundred thousand texts with these ranks, each with its own metadata. Sorted by rank and then by place, they have
// exactly one order.
static void many_texts(size_t (*rank_of)(size_t, size_t)) {
  size_t count = 100000, used = 0, room = 64 * count;
  char *texts = (char *)block(room);
  int64_t *offsets = (int64_t *)block((count + 1) * sizeof(int64_t));
  int64_t *key_offsets = (int64_t *)block((count + 1) * sizeof(int64_t));
  uint8_t *keys = (uint8_t *)block(3 * room), *seen = (uint8_t *)block(count);
  uint64_t *order = (uint64_t *)block(count * sizeof(uint64_t));
  offsets[0] = 0;
  for (size_t place = 0; place < count; place++) {
    size_t rank = rank_of(place, count);
    used += (size_t)(rank == SIZE_MAX ? snprintf(texts + used, 64, "?%zu", count - place)
                                      : snprintf(texts + used, 64, "1.0.%zu+%zu", rank, count - place));
    offsets[place + 1] = (int64_t)used;
  }
  CHECK(versions_sort(VERSIONS_MIXED, texts, room, offsets, count + 1, keys, 3 * room, key_offsets, count + 1, order,
                      count) == VERSIONS_OK);
  memset(seen, 0, count);
  for (size_t i = 0; i < count; i++) {
    CHECK(order[i] < count && !seen[order[i]]++);
    if (i == 0) continue;
    size_t before = rank_of(order[i - 1], count), rank = rank_of(order[i], count);
    CHECK(before < rank || (before == rank && order[i - 1] < order[i]));
  }
  release(texts);
  release(offsets);
  release(key_offsets);
  release(keys);
  release(seen);
  release(order);
}

static void many(void) {
  many_texts(rising);
  many_texts(falling);
  many_texts(scattered);
  many_texts(level);
  many_texts(in_turn);
  many_texts(with_none);
  many_texts(none);
}

// The ranges of lists that were worked out by hand, byte by byte.
#define BYTES(text) text, sizeof text - 1

static void worked_ranges(void) {
  static const struct {
    const char *list, *low;
    size_t low_length;
    const char *high;
    size_t high_length;
    uint32_t flags;
  } worked[] = {
      {">=1.2.3,<2.0.0", BYTES("\x00\x03\x01\x31\x02\x03\x01\x32\x02\x03\x01\x33\x02\x02\x02"),
       BYTES("\x00\x03\x01\x32\x02\x03\x00\x02\x03\x00\x02\x02\x02"), 31},
      {">1.0", BYTES("\x00\x03\x01\x31\x02\x03\x00\x02\x02\x02\x00"), BYTES(""), 23},
      {"<=1.2", BYTES(""), BYTES("\x00\x03\x01\x31\x02\x03\x01\x32\x02\x02\x02\x00"), 31},
      {"=1.0.0", BYTES("\x00\x03\x01\x31\x02\x03\x00\x02\x03\x00\x02\x02\x02"),
       BYTES("\x00\x03\x01\x31\x02\x03\x00\x02\x03\x00\x02\x02\x02\x00"), 25},
      {"=1.0", BYTES("\x00\x03\x01\x31\x02\x03\x00\x02\x02\x02"),
       BYTES("\x00\x03\x01\x31\x02\x03\x00\x02\x02\x02\x00"), 10},
      {"*", BYTES(""), BYTES(""), 23},
      {"^1.2.3", BYTES("\x00\x03\x01\x31\x02\x03\x01\x32\x02\x03\x01\x33\x02"), BYTES("\x00\x03\x01\x31\x02\x04"), 25},
      {"^0.3.1", BYTES("\x00\x03\x00\x02\x03\x01\x33\x02\x03\x01\x31\x02"),
       BYTES("\x00\x03\x00\x02\x03\x01\x33\x02\x04"), 25},
      {"^0.0.3", BYTES("\x00\x03\x00\x02\x03\x00\x02\x03\x01\x33\x02"),
       BYTES("\x00\x03\x00\x02\x03\x00\x02\x03\x01\x33\x02\x04"), 25},
      {"~1.2.3", BYTES("\x00\x03\x01\x31\x02\x03\x01\x32\x02\x03\x01\x33\x02"),
       BYTES("\x00\x03\x01\x31\x02\x03\x01\x32\x02\x04"), 25},
      {"~1.2", BYTES("\x00\x03\x01\x31\x02\x03\x01\x32\x02"), BYTES("\x00\x03\x01\x31\x02\x04"), 10},
      {"~1", BYTES("\x00\x03\x01\x31\x02"), BYTES("\x00\x04"), 10},
      {"^1.2", BYTES("\x00\x03\x01\x31\x02\x03\x01\x32\x02"), BYTES("\x00\x03\x01\x31\x02\x04"), 10},
      {"^0.0", BYTES("\x00\x03\x00\x02\x03\x00\x02"), BYTES("\x00\x03\x00\x02\x03\x00\x02\x04"), 10},
      {"^1:1.2rc1", BYTES("\x01\x31\x03\x01\x31\x02\x03\x01\x32\x01\x72\x63\x00\x01\x01\x31\x00"),
       BYTES("\x01\x31\x03\x01\x31\x02\x04"), 10},
      {"~1a", BYTES("\x00\x03\x01\x31\x01\x61\x00\x00"), BYTES("\x00\x04"), 10},
      {"^1.2.3,<1.9.0", BYTES("\x00\x03\x01\x31\x02\x03\x01\x32\x02\x03\x01\x33\x02"),
       BYTES("\x00\x03\x01\x31\x02\x03\x01\x39\x02\x03\x00\x02\x02\x02"), 25},
      {">=2.0.0,<1.0.0", BYTES("\x00\x03\x01\x32\x02\x03\x00\x02\x03\x00\x02\x02\x02"),
       BYTES("\x00\x03\x01\x31\x02\x03\x00\x02\x03\x00\x02\x02\x02"), 31},
      {"~1_2", BYTES("\x00"), BYTES("\x00"), 24},
  };
  for (size_t i = 0; i < sizeof worked / sizeof *worked; i++) {
    struct range range;
    CHECK(range_of(worked[i].list, strlen(worked[i].list), &range));
    CHECK(range.low_length == worked[i].low_length && memcmp(range.low, worked[i].low, range.low_length) == 0);
    CHECK(range.high_length == worked[i].high_length && memcmp(range.high, worked[i].high, range.high_length) == 0);
    CHECK(range.flags == worked[i].flags);
    free_range(&range);
  }
}

// The members that a range leaves open: `=` with a version that is not strict, and `~` and `^` with a general one.
static void worked_inexact(void) {
  static const struct {
    const char *list, *members;
  } worked[] = {
      {"*", ""}, {">=1.2,<2", ""}, {"^1.2.3,~1.2.3,=1.2.3", ""}, {"~1_2,^1_2", ""}, {">0,~1.2", "~1.2"},
      {"~1.2,<9,^1:1.1,*,=1.0,=1.0.0,=1_2,>=0.1", "~1.2,^1:1.1,=1.0,=1_2"}, {"^1.2", "^1.2"}, {"=1,=1,=1", "=1,=1,=1"},
  };
  static const char *const others[] = {"", ",", "~1.2,", ",~1.2", "~1.2,x", "1.2", "~"};
  char members[64];
  size_t length;
  for (size_t i = 0; i < sizeof worked / sizeof *worked; i++) {
    memset(members, 'x', sizeof members);
    CHECK(versions_inexact(worked[i].list, strlen(worked[i].list), members, sizeof members, &length) == VERSIONS_OK);
    CHECK(length == strlen(worked[i].members) && memcmp(members, worked[i].members, length) == 0);
    for (size_t at = length; at < sizeof members; at++) CHECK(members[at] == 'x');
  }
  // Members that are no list are found where they are asked, and then nothing is written.
  for (size_t i = 0; i < sizeof others / sizeof *others; i++) {
    const char *other = others[i];
    bool matches = true;
    int asked = *other ? VERSIONS_NO_REQUIREMENTS : VERSIONS_OK;
    CHECK(versions_match_in_range("1.0", 3, NULL, 0, NULL, 0, 7, other, strlen(other), &matches) == asked && matches);
    CHECK(versions_match_in_range("?", 1, NULL, 0, NULL, 0, 7, other, strlen(other), &matches) == VERSIONS_NO_VERSION);
    CHECK(matches);
    CHECK(versions_match_in_range("1.0", 3, NULL, 0, NULL, 0, 1, other, strlen(other), &matches) == VERSIONS_OK);
    CHECK(!matches);
  }
  // What is no list has no members, and nothing is written: also if a first member could be one.
  memset(members, 'x', sizeof members);
  length = 77;
  for (size_t i = 0; i < sizeof others / sizeof *others; i++) {
    CHECK(versions_inexact(others[i], strlen(others[i]), members, sizeof members, &length) == VERSIONS_NO_REQUIREMENTS);
  }
  CHECK(versions_inexact(NULL, 0, NULL, 0, &length) == VERSIONS_NO_REQUIREMENTS && length == 77);
  for (size_t at = 0; at < sizeof members; at++) CHECK(members[at] == 'x');
}

// The next of a row of numbers below a bound, the same in each run.
static uint32_t random_below(uint32_t bound) {
  static uint64_t state = 1;
  state = state * 6364136223846793005u + 1442695040888963407u;
  return (uint32_t)(state >> 33) % bound;
}

// A random version at the end of a text, from few pieces, so that many are alike.
static size_t random_version(char *text) {
  static const char *const numbers[] = {"0", "1", "2", "3", "10", "255", "256", "a", "rc1", "1a", "0a2"};
  static const char *const fronts[] = {"", "", "", "", "", "1:", "0:"};
  static const char *const tails[] = {"", "", "", "", "-rc.1", "-1", "-a.2", "+x", "_2", "-1_0", "~1", ":3", "-2+y"};
  for (;;) {
    uint32_t few = random_below(3) ? 7 : 11, parts = random_below(2) ? 3 : 1 + random_below(4);
    int used = sprintf(text, "%s", fronts[random_below(7)]);
    for (uint32_t i = 0; i < parts; i++) {
      used += sprintf(text + used, "%s%s", i == 0 ? "" : ".", numbers[random_below(few)]);
    }
    used += sprintf(text + used, "%s", tails[random_below(13)]);
    if (versions_kind(text, (size_t)used) != VERSIONS_NONE) return (size_t)used;
  }
}

// A random list of up to three members.
static size_t random_list(char *list) {
  static const char *const ops[] = {"=", ">", ">=", "<", "<=", "~", "^"};
  size_t used = 0;
  for (uint32_t members = 1 + random_below(3); members > 0; members--) {
    if (random_below(30) == 0) {
      list[used++] = '*';
    } else {
      used += (size_t)sprintf(list + used, "%s", ops[random_below(7)]);
      used += random_version(list + used);
    }
    list[used++] = ',';
  }
  return used - 1;
}

// The same list, with a number of members more before and after it that every version matches.
static size_t with_stars(char *starred, const char *list, size_t length, int stars) {
  size_t used = 0;
  for (int i = 0; i < stars; i++) used += (size_t)sprintf(starred + used, "*,");
  memcpy(starred + used, list, length);
  used += length;
  for (int i = 0; i < stars; i++) used += (size_t)sprintf(starred + used, ",*");
  return used;
}

// Two hundred lists and five hundred texts: a hundred thousand pairs. Each list also as a longer one.
static void random_ranges(void) {
  enum { LISTS = 200, TEXTS = 500, STARS = 40 };
  struct lines lines;
  char list[256], starred[256 + 4 * STARS];
  size_t matched = 0, only_in_range = 0;
  lines.count = TEXTS;
  lines.length = 0;
  lines.texts = (char *)block(64 * TEXTS);
  lines.offsets = (int64_t *)block((TEXTS + 1) * sizeof(int64_t));
  uint8_t *matches = (uint8_t *)block(TEXTS), *again = (uint8_t *)block(TEXTS);
  for (size_t i = 0; i < LISTS; i++) {
    lines.length = 0;
    lines.offsets[0] = 0;
    for (size_t line = 0; line < TEXTS; line++) {
      lines.length += random_version(lines.texts + lines.length);
      lines.offsets[line + 1] = (int64_t)lines.length;
    }
    size_t length = random_list(list);
    CHECK(versions_match_all(list, length, lines.texts, lines.length, lines.offsets, TEXTS + 1, matches, TEXTS) ==
          VERSIONS_OK);
    check_range(&lines, list, length, matches);
    size_t starred_length = with_stars(starred, list, length, STARS);
    CHECK(versions_match_all(starred, starred_length, lines.texts, lines.length, lines.offsets, TEXTS + 1, again,
                             TEXTS) == VERSIONS_OK);
    CHECK(memcmp(matches, again, TEXTS) == 0);
    check_range(&lines, starred, starred_length, again);
    struct range range;
    range_of(list, length, &range);
    for (size_t line = 0; line < TEXTS; line++) {
      matched += matches[line];
      only_in_range += !matches[line] && in_range(text_of(&lines, line), length_of(&lines, line), &range) == 1;
    }
    free_range(&range);
  }
  // Many match, and some are only in the range.
  CHECK(matched > 10000 && only_in_range > 50);
  release(matches);
  release(again);
  free_lines(&lines);
}

// Bounds that no list asks for, and flags that mean nothing: random bytes, and keys with a byte changed, cut or added.
static void other_bounds(void) {
  char text[64];
  for (int i = 0; i < 20000; i++) {
    size_t lengths[2], key_length;
    uint8_t *bounds[2];
    for (int which = 0; which < 2; which++) {
      uint8_t key[256];
      size_t length = random_version(text);
      CHECK(versions_key(VERSIONS_MIXED, text, length, key, sizeof key, &key_length) == VERSIONS_OK);
      if (random_below(4) == 0) {
        key_length = random_below(9);
        for (size_t at = 0; at < key_length; at++) key[at] = (uint8_t)random_below(random_below(2) ? 5 : 256);
      } else if (random_below(2)) {
        key[random_below((uint32_t)key_length)] += (uint8_t)(1 + random_below(255));
      }
      if (random_below(4) == 0) key[key_length++] = (uint8_t)random_below(256);
      if (random_below(4) == 0) key_length = random_below((uint32_t)key_length + 1);
      bounds[which] = (uint8_t *)block(key_length);
      memcpy(bounds[which], key, key_length);
      lengths[which] = key_length;
    }
    uint32_t flags = random_below(2) ? 15 : random_below(1u << 31) ^ random_below(2) << 31;
    struct range range = {bounds[0], bounds[1], lengths[0], lengths[1], flags};
    for (int times = 0; times < 5; times++) {
      size_t length = random_version(text);
      char *alone = (char *)block(length);
      memcpy(alone, text, length);
      CHECK(in_range(alone, length, &range) != 2);
      release(alone);
    }
    free_range(&range);
  }
}

static void ranges(void) {
  worked_ranges();
  worked_inexact();
  random_ranges();
  other_bounds();

  // No bounds: without the flag the high bound is not read.
  struct range every = {NULL, NULL, 0, 0, VERSIONS_RANGE_IDEAL | VERSIONS_RANGE_GENERAL | VERSIONS_RANGE_COMPLEX};
  CHECK(in_range("1.2.3", 5, &every) == 1);
  CHECK(in_range("1_2", 3, &every) == 1);
  CHECK(in_range("1..2", 4, &every) == 2);
  CHECK(in_range(NULL, 0, &every) == 2);
  every.flags = UINT32_MAX;
  CHECK(in_range("1.2.3", 5, &every) == 0);
  every.flags = 0;
  CHECK(in_range("1.2.3", 5, &every) == 0);

  // Buffers of the bounds' lengths, 13 for 2.0.0 and 14 for 2.5.0, are enough where other members have longer ones.
  uint8_t low[64], high[64];
  size_t low_length = 77, high_length = 77;
  uint32_t flags = 77;
  static const char crossed[] = ">=1.0.0-abcdefghijklmnop,>=2.0.0,<3.0.0-abcdefghijklmnop,<2.5.0";
  CHECK(versions_range(crossed, sizeof crossed - 1, low, 12, &low_length, high, 14, &high_length, &flags) ==
        VERSIONS_NO_ROOM);
  CHECK(low_length == 13 && high_length == 14 && flags == 77);
  CHECK(versions_range(crossed, sizeof crossed - 1, low, 13, &low_length, high, 14, &high_length, &flags) ==
        VERSIONS_OK);
  CHECK(low_length == 13 && high_length == 14);

  // What is no list has no range, and nothing is written: also if a first member could be.
  low_length = high_length = 77;
  flags = 77;
  static const char *const others[] = {"", ",", ">=1,", ",>=1", ">=1,x", ">=1,>=2,1", "1.2", "**", "^"};
  memset(low, 170, sizeof low);
  memset(high, 170, sizeof high);
  for (size_t i = 0; i < sizeof others / sizeof *others; i++) {
    CHECK(versions_range(others[i], strlen(others[i]), low, sizeof low, &low_length, high, sizeof high, &high_length,
                         &flags) == VERSIONS_NO_REQUIREMENTS);
  }
  CHECK(versions_range(NULL, 0, NULL, 0, &low_length, NULL, 0, &high_length, &flags) == VERSIONS_NO_REQUIREMENTS);
  for (size_t i = 0; i < sizeof low; i++) CHECK(low[i] == 170 && high[i] == 170);
  CHECK(low_length == 77 && high_length == 77 && flags == 77);
}

// Makes every call on every line, with lists of each operator, and on texts with known results. tests/c counts the
// allocations of this run, so nothing else may allocate here.
static void without_memory(const struct lines *lines) {
  static const char *const lists[] = {
      "*", "^1.2.3-a,<9,>0.1a", "~1.2.3-a,=1.2.3-rc.10", "^1.2,>=0:1.0-1", "~1:2.0rc1-3", "=10.2+0.93+1-1,<=2_a",
      "no list",
  };
  size_t count = lines->count, room = 3 * lines->length + 5 * count;
  uint8_t *answers = (uint8_t *)block(count), *keys = (uint8_t *)block(room);
  int64_t *key_offsets = (int64_t *)block((count + 1) * sizeof(int64_t));
  release(summed((void *)lines));
  CHECK(versions_kinds(lines->texts, lines->length, lines->offsets, count + 1, answers, count) == VERSIONS_OK);
  for (size_t line = 0; line < count; line++) {
    const char *text = text_of(lines, line);
    size_t length = length_of(lines, line), key_length = 0;
    int32_t order = 77;
    uint32_t number = 77;
    int is_version = answers[line] != VERSIONS_NONE;
    CHECK(versions_compare_total(text, length, text, length, &order) == status_of(is_version, is_version));
    CHECK(order == (is_version ? 0 : 77));
    check_difference(text, length, text, length, status_of(is_version, is_version), order, order);
    CHECK((versions_key(VERSIONS_MIXED, text, length, keys, room, &key_length) == VERSIONS_OK) == is_version);
    check_parse(text, length, answers[line], is_version ? keys : NULL, key_length);
    for (size_t place = 0; place < 4; place++) {
      CHECK((versions_nth(text, length, place, &number) == VERSIONS_NO_VERSION) == !is_version);
    }
    check_values(text, length, answers[line]);
  }
  check_many(lines);
  CHECK(versions_keys(VERSIONS_MIXED, lines->texts, lines->length, lines->offsets, count + 1, keys, room, key_offsets,
                      count + 1) == VERSIONS_OK);
  for (size_t i = 0; i < sizeof lists / sizeof *lists; i++) {
    size_t length = strlen(lists[i]);
    int wanted = i + 1 < sizeof lists / sizeof *lists ? VERSIONS_OK : VERSIONS_NO_REQUIREMENTS;
    bool matches = false;
    CHECK(versions_match_all(lists[i], length, lines->texts, lines->length, lines->offsets, count + 1, answers,
                             count) == wanted);
    if (wanted == VERSIONS_OK) {
      check_range(lines, lists[i], length, answers);
    } else {
      struct range none_at_all;
      CHECK(!range_of(lists[i], length, &none_at_all));
    }
    check_member(lists[i], length, wanted == VERSIONS_OK);
    for (size_t line = 0; line < count; line++) {
      int status = versions_matches(lists[i], length, text_of(lines, line), length_of(lines, line), &matches);
      CHECK(wanted != VERSIONS_OK ? status == wanted
                                  : answers[line] == 2 ? status == VERSIONS_NO_VERSION : matches == answers[line]);
    }
  }
  release(answers);
  release(keys);
  release(key_offsets);

  // Ties that are broken field by field, or that stay; numbers; matches.
  int32_t order = 77, turned = 77;
  uint32_t number = 77;
  bool matches = false;
  CHECK(versions_compare_total("1.0.0-a+x", 9, "1.0.0-a+y", 9, &order) == VERSIONS_OK && order == 0);
  CHECK(versions_compare(VERSIONS_MIXED, "1.0_1-a", 7, "1.00_1-a", 8, &order) == VERSIONS_OK && order == 0);
  CHECK(versions_compare_total("1.0_1-a", 7, "1.00_1-a", 8, &order) == VERSIONS_OK && (order == 1 || order == -1));
  CHECK(versions_compare_total("1.00_1-a", 8, "1.0_1-a", 7, &turned) == VERSIONS_OK && turned == -order);
  CHECK(versions_nth("1.2.3-rc.1+x", 12, 2, &number) == VERSIONS_OK && number == 3);
  CHECK(versions_nth("1.2_a", 5, 1, &number) == VERSIONS_OK && number == 2);
  check_values("18446744073709551616:1", 22, VERSIONS_COMPLEX);
  CHECK(versions_matches("^1.2.3-a,<9,>0.1a", 17, "1.2.3-rc.10+x", 13, &matches) == VERSIONS_OK && matches);
  worked_sets();
  worked_schemes();
  worked_flaws();
}

int main(int count, char **words) {
  const char *word = count > 1 ? words[1] : "";
  if (strcmp(word, "edges") == 0) {
    no_versions();
    ties();
    worked_differences();
    worked_numbers();
    worked_prereleases();
    worked_tags();
    worked_stabilities();
    worked_newest();
    worked_next();
    worked_next_pre();
    worked_members();
    worked_exclusions();
    worked_sentences();
    worked_conflicts();
    worked_fields();
    worked_epochs();
    buffer_sizes();
    few_texts();
    sorted_places();
    refused_lengths();
    bad_offsets();
    worked_sets();
    worked_schemes();
    worked_flaws();
    statuses();
    library();
    too_long();
  } else if (strcmp(word, "long") == 0) {
    long_texts();
  } else if (strcmp(word, "many") == 0) {
    many();
  } else if (strcmp(word, "ranges") == 0) {
    ranges();
  } else {
    struct lines lines = read_lines();
    if (strcmp(word, "show") == 0) show(&lines);
    else if (strcmp(word, "compare") == 0) compare(&lines);
    else if (strcmp(word, "match") == 0) match(&lines, words[2]);
    else if (strcmp(word, "sort") == 0) sort(&lines);
    else if (strcmp(word, "threads") == 0) threads(&lines);
    else if (strcmp(word, "memory") == 0) without_memory(&lines);
    else CHECK(!"usage: show, compare, match R, sort, threads, edges, long, many, ranges or memory");
    free_lines(&lines);
  }
  return failures == 0 ? 0 : 99;
}
