// Makes every call of versions.h on the lines of standard input, and writes what each returns and writes:
// tests/processors compares that on two processors, whose numbers have the same bytes.
#include <stdio.h>
#include <stdlib.h>
#include <string.h>
#include <versions.h>

// No line of tests/processors is longer.
#define LONGEST 16384
#define ROOM (2 * LONGEST + 16)
// Stands in each byte that no call has written to.
#define UNTOUCHED 0x5a

static char texts[1 << 25];
static int64_t offsets[200001];
static size_t texts_len, count;
static uint32_t last_scheme; // its number, by the names of all

static void write_bytes(const void *bytes, size_t length) {
  if (fwrite(bytes, 1, length, stdout) != length) exit(1);
}

// What a call writes: numbers of eight bytes, and bytes.
static uint64_t numbers[5];
static uint8_t buffer[ROOM], other_buffer[ROOM];

static void fresh(void) {
  memset(numbers, UNTOUCHED, sizeof numbers);
}

// Writes what a call returned, and the numbers up to the first that no call wrote to.
static void answer(int status) {
  int8_t returned = (int8_t)status;
  size_t written = 0;
  write_bytes(&returned, 1);
  while (written < 4 && numbers[written] != numbers[4]) written++;
  write_bytes(numbers, written * sizeof *numbers);
  fresh();
}

// The same for a call that writes to a buffer, whose rest is unspecified.
static void answer_with(int status, size_t length) {
  answer(status);
  if (status == VERSIONS_OK) write_bytes(buffer, length);
}

// The places that a call writes to.
#define NUMBER(type, place) ((type *)&numbers[place])

static void of_one(const char *text, size_t length) {
  size_t written = 0;
  fresh();
  answer(versions_kind(text, length));
  answer(versions_stability(text, length));
  for (size_t room = 0; room < 40; room += 13) {
    int status = versions_key(VERSIONS_MIXED, text, length, buffer, room, &written);
    numbers[0] = written;
    answer_with(status, written);
  }
  int status = versions_parse(text, length, NUMBER(uint8_t, 0), buffer, ROOM, &written);
  numbers[1] = written;
  answer_with(status, written);
  for (size_t n = 0; n < 5; n++) answer(versions_nth(text, length, n, NUMBER(uint32_t, 0)));
  answer(versions_epoch(text, length, NUMBER(uint64_t, 0)));
  for (uint32_t field = 0; field < 6; field++)
    answer(versions_field(text, length, field, NUMBER(size_t, 0), NUMBER(size_t, 1)));
  answer(versions_is_prerelease(text, length, NUMBER(bool, 0)));
  answer(versions_in_tag(text, length, NUMBER(size_t, 0)));
  answer(versions_after_prefix(text, length / 3, text, length, NUMBER(size_t, 0)));
  for (size_t place = 0; place < 3; place++) {
    status = versions_next(text, length, place, (char *)buffer, ROOM, &written);
    numbers[0] = written;
    answer_with(status, written);
  }
  status = versions_next_release(text, length, (char *)buffer, ROOM, &written);
  numbers[0] = written;
  answer_with(status, written);
  for (size_t word_len = 0; word_len <= 2; word_len++) {
    status = versions_next_pre(text, length, "rc", word_len, (char *)buffer, ROOM, &written);
    numbers[0] = written;
    answer_with(status, written);
  }
  answer(versions_wrong_member(text, length, NUMBER(size_t, 0), NUMBER(size_t, 1)));
  answer(versions_scheme(text, length, NUMBER(uint32_t, 0)));
  // And numbers that no scheme has, on both sides.
  for (uint32_t scheme = 0; scheme <= last_scheme + 1; scheme++) {
    answer(versions_has(scheme, text, length, NUMBER(bool, 0)));
    answer(versions_wrong(scheme, text, length, NUMBER(size_t, 0), NUMBER(uint32_t, 1)));
    status = versions_wrong_text(scheme, text, length, (char *)buffer, ROOM, &written);
    numbers[0] = written;
    answer_with(status, written);
    answer(versions_key_bound(scheme, length, NUMBER(size_t, 0)));
    status = versions_key(scheme, text, length, buffer, ROOM, &written);
    numbers[0] = written;
    answer_with(status, written);
    status = versions_scheme_name(scheme, (char *)buffer, ROOM, &written);
    numbers[0] = written;
    answer_with(status, written);
  }
}

static void of_two(const char *a, size_t a_len, const char *b, size_t b_len) {
  answer(versions_compare_total(a, a_len, b, b_len, NUMBER(int32_t, 0)));
  answer(versions_difference(a, a_len, b, b_len, NUMBER(uint32_t, 0), NUMBER(size_t, 1)));
  for (uint32_t scheme = 0; scheme <= last_scheme; scheme++)
    answer(versions_compare(scheme, a, a_len, b, b_len, NUMBER(int32_t, 0)));
}

static void of_list(const char *list, size_t list_len, const char *text, size_t text_len) {
  size_t why_len = 0, low_len = 0, high_len = 0, members_len = 0;
  uint32_t flags = 0;
  answer(versions_matches(list, list_len, text, text_len, NUMBER(bool, 0)));
  answer(versions_why_not(list, list_len, text, text_len, NUMBER(size_t, 0), NUMBER(size_t, 1), NUMBER(uint32_t, 2)));
  int status = versions_why_text(list, list_len, text, text_len, (char *)buffer, ROOM, &why_len);
  numbers[0] = why_len;
  answer_with(status, why_len);
  answer(versions_conflict(list, list_len, NUMBER(size_t, 0), NUMBER(size_t, 1), NUMBER(size_t, 2), NUMBER(size_t, 3)));
  status = versions_inexact(list, list_len, (char *)buffer, ROOM, &members_len);
  numbers[0] = members_len;
  answer_with(status, members_len);
  status = versions_range(list, list_len, buffer, ROOM, &low_len, other_buffer, ROOM, &high_len, &flags);
  if (status == VERSIONS_OK) {
    write_bytes(buffer, low_len);
    write_bytes(other_buffer, high_len);
    int is_in = versions_in_range(text, text_len, buffer, low_len, other_buffer, high_len, flags, NUMBER(bool, 0));
    numbers[1] = low_len, numbers[2] = high_len, numbers[3] = flags;
    answer(is_in);
    answer(versions_match_in_range(text, text_len, buffer, low_len, other_buffer, high_len, flags, list, list_len,
                                   NUMBER(bool, 0)));
  }
  answer(status);
}

// The calls about sets: of a text that may be one, of a version, and of what is made of both.
static void of_set(const char *text, size_t text_len, const char *version, size_t version_len) {
  static uint8_t made[2 * ROOM];
  size_t one_len = 0, other_len = 0, made_len = 0;
  int status = versions_set_wrong_text(VERSIONS_MIXED, text, text_len, (char *)buffer, ROOM, &made_len);
  numbers[0] = made_len;
  answer_with(status, made_len);
  answer(versions_set_wrong(VERSIONS_MIXED, text, text_len, NUMBER(size_t, 0), NUMBER(uint32_t, 1)));
  answer(versions_set_bound(VERSIONS_MIXED, text, text_len, NUMBER(size_t, 0)));
  int other = versions_set_of_version(VERSIONS_MIXED, version, version_len, other_buffer, ROOM, &other_len);
  numbers[0] = other_len;
  answer(other);
  if (other == VERSIONS_OK) write_bytes(other_buffer, other_len);
  status = versions_set(VERSIONS_MIXED, text, text_len, buffer, ROOM, &one_len);
  numbers[0] = one_len;
  answer_with(status, one_len);
  if (status != VERSIONS_OK || other != VERSIONS_OK) return;
  answer(versions_set_has(buffer, one_len, version, version_len, NUMBER(bool, 0)));
  answer(versions_set_part_of(other_buffer, other_len, buffer, one_len, NUMBER(bool, 0)));
  answer(versions_set_meets(other_buffer, other_len, buffer, one_len, NUMBER(bool, 0)));
  answer(versions_set_count(buffer, one_len, NUMBER(size_t, 0)));
  answer(versions_set_scheme(buffer, one_len, NUMBER(uint32_t, 0)));
  answer(versions_set_interval(buffer, one_len, 0, NUMBER(size_t, 0), NUMBER(size_t, 1), NUMBER(size_t, 2),
                               NUMBER(size_t, 3)));
  int statuses[] = {
      versions_set_and(buffer, one_len, other_buffer, other_len, made, sizeof made, &made_len),
      versions_set_or(buffer, one_len, other_buffer, other_len, made, sizeof made, &made_len),
      versions_set_not(buffer, one_len, made, sizeof made, &made_len),
  };
  for (size_t i = 0; i < 3; i++) answer(statuses[i]);
  write_bytes(made, made_len);
}

// The calls that take many texts, on `many` of them from `first` on. Offsets of a part still begin the same array.
static void of_many(size_t first, size_t many, const char *list, size_t list_len) {
  static uint8_t small[200000], keys[1 << 26];
  static int64_t places[200001];
  static uint64_t order[200000];
  const int64_t *from = offsets + first;
  size_t low_len = 0, high_len = 0, offsets_len = many + 1;
  uint32_t flags = 0;
  if (versions_kinds(texts, texts_len, from, offsets_len, small, many) != VERSIONS_OK) exit(3);
  write_bytes(small, many);
  answer(versions_stabilities(texts, texts_len, from, offsets_len, small, many));
  write_bytes(small, many);
  answer(versions_in_tags(texts, texts_len, from, offsets_len, places, many));
  write_bytes(places, many * sizeof *places);
  for (uint32_t scheme = 0; scheme <= last_scheme; scheme++) {
    answer(versions_keys(scheme, texts, texts_len, from, offsets_len, keys, sizeof keys, places, offsets_len));
    write_bytes(places, offsets_len * sizeof *places);
    write_bytes(keys, (size_t)places[many]);
    answer(versions_sort(scheme, texts, texts_len, from, offsets_len, keys, sizeof keys, places, offsets_len, order,
                         many));
    write_bytes(order, many * sizeof *order);
  }
  int status = versions_match_all(list, list_len, texts, texts_len, from, offsets_len, small, many);
  answer(status);
  if (status == VERSIONS_OK) write_bytes(small, many);
  for (uint32_t least = 0; least <= VERSIONS_STABLE; least++) {
    answer(versions_newest(texts, texts_len, from, offsets_len, list, list_len, least, least % 2, NUMBER(size_t, 0)));
  }
  if (versions_set(VERSIONS_MIXED, list, list_len, buffer, ROOM, &low_len) == VERSIONS_OK) {
    answer(versions_set_has_all(buffer, low_len, texts, texts_len, from, offsets_len, small, many));
    write_bytes(small, many);
  }
  status = versions_range(list, list_len, buffer, ROOM, &low_len, other_buffer, ROOM, &high_len, &flags);
  if (status != VERSIONS_OK) return;
  answer(versions_in_range_all(texts, texts_len, from, offsets_len, buffer, low_len, other_buffer, high_len, flags,
                               small, many));
  write_bytes(small, many);
}

static const char *text_of(size_t place) { return texts + offsets[place % count]; }
static size_t length_of(size_t place) { return (size_t)(offsets[place % count + 1] - offsets[place % count]); }

// A list of one or two members, by the lines from a place on.
static size_t list_of(size_t place, char *list) {
  static const char *const operators[] = {"", "=", ">", ">=", "<", "<=", "~", "^"};
  const char *first = operators[place % 8], *second = operators[place / 8 % 8];
  size_t length = 0;
  memcpy(list, first, strlen(first));
  length += strlen(first);
  memcpy(list + length, text_of(place), length_of(place));
  length += length_of(place);
  if (place % 3 == 0) {
    list[length++] = ',';
    memcpy(list + length, second, strlen(second));
    length += strlen(second);
    memcpy(list + length, text_of(place + 2), length_of(place + 2));
    length += length_of(place + 2);
  }
  return length;
}

int main(void) {
  static char list[2 * LONGEST + 16];
  size_t line_start = 0, read = fread(texts, 1, sizeof texts, stdin);
  // The line feeds are dropped, so that each text ends where the next begins.
  for (size_t i = 0; i < read; i++) {
    if (texts[i] != '\n') {
      texts[texts_len++] = texts[i];
    } else {
      if (texts_len - line_start >= LONGEST || count >= 200000) return 2;
      offsets[++count] = (int64_t)(line_start = texts_len);
    }
  }
  if (count == 0) return 2;
  size_t len;
  while (versions_scheme_name(last_scheme + 1, NULL, 0, &len) == VERSIONS_NO_ROOM) last_scheme++;
  for (size_t i = 0; i < count; i++) {
    size_t list_len = list_of(i, list);
    of_one(text_of(i), length_of(i));
    of_two(text_of(i), length_of(i), text_of(i + 1), length_of(i + 1));
    of_list(list, list_len, text_of(i + 1), length_of(i + 1));
    of_list(text_of(i), length_of(i), text_of(i + 1), length_of(i + 1));
    of_set(list, list_len, text_of(i + 1), length_of(i + 1));
    if (i % 1000 == 0) of_many(i, count - i < 1000 ? count - i : 1000, list, list_len);
  }
  of_many(0, count, ">=1,<2", 6);
  if (puts(versions_version()) < 0) return 1;
  for (int status = -1; status < 24; status++)
    if (puts(versions_status_text(status)) < 0) return 1;
  return fflush(stdout) == 0 ? 0 : 1;
}
