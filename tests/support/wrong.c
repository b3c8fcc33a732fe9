/*
 * Not the library: the calls of versions.h, with answers that the header does not allow. A call returns the number in
 * its text, as 99 of `v99`; where that is VERSIONS_OK, it writes what is never written. The calls that aren't here are
 * made by tests/support/calls.py, and write nothing. tests/rust links all, to see that the crate for Rust panics.
 *
 * A text that begins with `i` or `v` is taken for a version at first, a strict or a general one, and all of these have
 * one key. A text that begins with `e` or `v` is taken for a list at first, with an exact range or with another one. A
 * text that begins with `s` or `t` is taken for a set, and is its form.
 */
#pragma GCC diagnostic ignored "-Wunused-parameter"
#include <string.h>
#include "versions.h"

/* The letter that a text begins with, or 0. */
static char letter(const char *text, size_t text_len) {
  return text_len > 0 && text[0] >= 'a' && text[0] <= 'z' ? text[0] : 0;
}

/* The number in a text, after its letter, if any; 0 of an empty text. */
static int number(const char *text, size_t text_len) {
  size_t at = letter(text, text_len) != 0;
  int value = 0, sign = 1;
  if (at < text_len && text[at] == '-') {
    sign = -1;
    at++;
  }
  for (; at < text_len && text[at] >= '0' && text[at] <= '9'; at++) value = value * 10 + (text[at] - '0');
  return sign * value;
}

/* The number in the texts; 77 where the offsets don't end where the texts do. */
static int number_of_all(const char *texts, size_t texts_len, const int64_t *offsets, size_t offsets_len) {
  return offsets[offsets_len - 1] == (int64_t)texts_len ? number(texts, texts_len) : 77;
}

/*
 * A place by the letter after the number: `a` past the text, `b` an end before the start, `c` nothing, `d` the places
 * from 3 to 4, and otherwise far past the text.
 */
static void place(const char *text, size_t text_len, size_t *start, size_t *end) {
  char which = text_len > 2 ? text[2] : 0;
  *start = which == 'b' ? 2 : which == 'c' ? 1 : which == 'd' ? 3 : 0;
  *end = which == 'a' ? text_len + 1 : which == 'b' || which == 'c' ? 1 : which == 'd' ? 4 : SIZE_MAX;
}

int stand_in(const char *text, size_t text_len) { return number(text, text_len); }

/* `k0` has no kind of versions.h, `n0` is said to be no version, and `l0` has a key longer than the room. */
int versions_parse(const char *text, size_t text_len, uint8_t *kind, uint8_t *key, size_t room, size_t *key_len) {
  char first = letter(text, text_len);
  if (room < 3 * text_len + 5) return 76;
  *kind = first == 'k' ? 9 : first == 'n' ? VERSIONS_NONE : first == 'v' ? VERSIONS_GENERAL : VERSIONS_IDEAL;
  *key_len = first == 'l' ? room + 1 : 1;
  key[0] = 'v';
  return first == 'v' || first == 'i' ? VERSIONS_OK : number(text, text_len);
}

int versions_compare_total(const char *a, size_t a_len, const char *b, size_t b_len, int32_t *order) {
  *order = 7;
  return number(a, a_len);
}

int versions_matches(const char *list, size_t list_len, const char *text, size_t text_len, bool *matches) {
  *(unsigned char *)matches = 9;
  return number(list, list_len);
}

/* The place is that of versions_field. A text of a number alone is said to be a list, by the status of that number. */
int versions_wrong_member(const char *list, size_t list_len, size_t *start, size_t *end) {
  place(list, list_len, start, end);
  return letter(list, list_len) ? VERSIONS_OK : number(list, list_len);
}

/* `l0` has a low bound longer than the room, `h0` a high one, and `f0` a flag that versions.h does not have. */
int versions_range(const char *list, size_t list_len, uint8_t *low, size_t low_room, size_t *low_len, uint8_t *high,
                   size_t high_room, size_t *high_len, uint32_t *flags) {
  char first = letter(list, list_len);
  if (low_room < 3 * list_len + 5 || high_room < 3 * list_len + 5) return 76;
  *low_len = first == 'l' ? low_room + 1 : 0;
  *high_len = first == 'h' ? high_room + 1 : 0;
  *flags = VERSIONS_RANGE_IDEAL | VERSIONS_RANGE_GENERAL;
  if (first == 'e') *flags |= VERSIONS_RANGE_EXACT;
  if (first == 'f') *flags |= 32;
  return first == 'v' || first == 'e' ? VERSIONS_OK : number(list, list_len);
}

int versions_match_in_range(const char *text, size_t text_len, const uint8_t *low, size_t low_len, const uint8_t *high,
                            size_t high_len, uint32_t flags, const char *members, size_t members_len, bool *matches) {
  *(unsigned char *)matches = 9;
  return number(text, text_len);
}

int versions_field(const char *text, size_t text_len, uint32_t field, size_t *start, size_t *end) {
  place(text, text_len, start, end);
  return number(text, text_len);
}

int versions_is_prerelease(const char *text, size_t text_len, bool *is_prerelease) {
  *(unsigned char *)is_prerelease = 9;
  return number(text, text_len);
}

int versions_difference(const char *a, size_t a_len, const char *b, size_t b_len, uint32_t *difference, size_t *part) {
  *difference = 9;
  *part = 0;
  return number(a, a_len);
}

/* The number of the reason is 9, or that of the text. */
int versions_why_not(const char *list, size_t list_len, const char *text, size_t text_len, size_t *start, size_t *end,
                     uint32_t *why) {
  int of_text = number(text, text_len);
  place(list, list_len, start, end);
  *why = of_text == 0 ? 9 : (uint32_t)of_text;
  return number(list, list_len);
}

/* The second member is the one that is wrong. */
int versions_conflict(const char *list, size_t list_len, size_t *start, size_t *end, size_t *other_start,
                      size_t *other_end) {
  *start = *end = 0;
  place(list, list_len, other_start, other_end);
  return number(list, list_len);
}

/* A byte that is not UTF-8; of a text of more than two bytes, a length that is longer than the room. */
int versions_next(const char *text, size_t text_len, size_t place, char *next, size_t room, size_t *next_len) {
  *next_len = text_len > 2 && text[2] == 'a' ? room + 1 : 1;
  next[0] = '\xff';
  return number(text, text_len);
}

int versions_next_release(const char *text, size_t text_len, char *next, size_t room, size_t *next_len) {
  return versions_next(text, text_len, 0, next, room, next_len);
}

int versions_next_pre(const char *text, size_t text_len, const char *word, size_t word_len, char *next, size_t room,
                      size_t *next_len) {
  (void)word, (void)word_len;
  return versions_next(text, text_len, 0, next, room, next_len);
}

/* The version begins where a field would end. */
int versions_in_tag(const char *tag, size_t tag_len, size_t *start) {
  size_t before;
  place(tag, tag_len, &before, start);
  return number(tag, tag_len);
}

int versions_after_prefix(const char *prefix, size_t prefix_len, const char *tag, size_t tag_len, size_t *start) {
  versions_in_tag(tag, tag_len, start);
  return number(prefix, prefix_len);
}

int versions_kinds(const char *texts, size_t texts_len, const int64_t *offsets, size_t offsets_len, uint8_t *kinds,
                   size_t kinds_len) {
  memset(kinds, 9, kinds_len);
  return number_of_all(texts, texts_len, offsets, offsets_len);
}

int versions_in_tags(const char *texts, size_t texts_len, const int64_t *offsets, size_t offsets_len, int64_t *starts,
                     size_t starts_len) {
  for (size_t i = 0; i < starts_len; i++) starts[i] = -1 - (int64_t)i;
  return number_of_all(texts, texts_len, offsets, offsets_len);
}

int versions_stabilities(const char *texts, size_t texts_len, const int64_t *offsets, size_t offsets_len,
                         uint8_t *stabilities, size_t stabilities_len) {
  memset(stabilities, 9, stabilities_len);
  return number_of_all(texts, texts_len, offsets, offsets_len);
}

int versions_newest(const char *texts, size_t texts_len, const int64_t *offsets, size_t offsets_len, const char *list,
                    size_t list_len, uint32_t least, uint32_t flags, size_t *place) {
  *place = offsets_len - 1;
  return number_of_all(texts, texts_len, offsets, offsets_len);
}

int versions_match_all(const char *list, size_t list_len, const char *texts, size_t texts_len, const int64_t *offsets,
                       size_t offsets_len, uint8_t *matches, size_t matches_len) {
  memset(matches, 9, matches_len);
  return number_of_all(texts, texts_len, offsets, offsets_len) == 77 ? 77 : number(list, list_len);
}

int versions_in_range_all(const char *texts, size_t texts_len, const int64_t *offsets, size_t offsets_len,
                          const uint8_t *low, size_t low_len, const uint8_t *high, size_t high_len, uint32_t flags,
                          uint8_t *answers, size_t answers_len) {
  memset(answers, 9, answers_len);
  return number_of_all(texts, texts_len, offsets, offsets_len);
}

/*
 * Schemes
 */

int versions_has(uint32_t scheme, const char *text, size_t text_len, bool *has) {
  *(unsigned char *)has = 9;
  return number(text, text_len);
}

int versions_compare(uint32_t scheme, const char *a, size_t a_len, const char *b, size_t b_len, int32_t *order) {
  return versions_compare_total(a, a_len, b, b_len, order);
}

/* A text of 99 bytes has the status 99. */
int versions_key_bound(uint32_t scheme, size_t text_len, size_t *bound) {
  *bound = text_len + 1;
  return text_len == 99 ? 99 : VERSIONS_OK;
}

/* `l0` has a key longer than the room. */
int versions_key(uint32_t scheme, const char *text, size_t text_len, uint8_t *key, size_t room,
                        size_t *key_len) {
  char first = letter(text, text_len);
  if (room < text_len + 1) return 76;
  *key_len = first == 'l' ? room + 1 : 1;
  key[0] = 'v';
  return first == 'v' || first == 'i' ? VERSIONS_OK : number(text, text_len);
}

/* The number in the texts; 76 where there isn't the room of versions_key_bound for each. */
static int number_by_keys(const char *texts, size_t texts_len, const int64_t *offsets, size_t offsets_len,
                                 size_t room) {
  return room == texts_len + offsets_len - 1 ? number_of_all(texts, texts_len, offsets, offsets_len) : 76;
}

int versions_keys(uint32_t scheme, const char *texts, size_t texts_len, const int64_t *offsets,
                         size_t offsets_len, uint8_t *keys, size_t room, int64_t *key_offsets, size_t key_offsets_len) {
  for (size_t i = 0; i < key_offsets_len; i++) key_offsets[i] = -1 - (int64_t)i;
  return number_by_keys(texts, texts_len, offsets, offsets_len, room);
}

int versions_sort(uint32_t scheme, const char *texts, size_t texts_len, const int64_t *offsets,
                         size_t offsets_len, uint8_t *keys, size_t room, int64_t *key_offsets, size_t key_offsets_len,
                         uint64_t *order, size_t order_len) {
  for (size_t i = 0; i < order_len; i++) order[i] = order_len + i;
  return number_by_keys(texts, texts_len, offsets, offsets_len, room);
}

/*
 * Sets
 */

/* Writes bytes as a form, where there is room. Of a text that begins with `l` the form is longer than any room. */
static void form_of(const char *text, size_t text_len, uint8_t *form, size_t room, size_t *form_len) {
  *form_len = letter(text, text_len) == 'l' ? room + 1 : text_len;
  if (*form_len <= room) memcpy(form, text, text_len);
}

int versions_set_bound(uint32_t scheme, const char *text, size_t text_len, size_t *bound) {
  *bound = text_len;
  return letter(text, text_len) == 'b' ? number(text, text_len) : VERSIONS_OK;
}

int versions_set(uint32_t scheme, const char *text, size_t text_len, uint8_t *form, size_t room, size_t *form_len) {
  char first = letter(text, text_len);
  form_of(text, text_len, form, room, form_len);
  return first == 's' || first == 't' ? VERSIONS_OK : number(text, text_len);
}

/* The fourth byte of a text, or 0. */
static char fourth(const char *text, size_t text_len) { return text_len > 3 ? text[3] : 0; }

/* The place of `w18a` is past the text, that of `w18d` the fifth byte, and that of `w18e` far past it. */
int versions_set_wrong(uint32_t scheme, const char *text, size_t text_len, size_t *place, uint32_t *reason) {
  char which = fourth(text, text_len);
  *place = which == 'a' ? text_len + 1 : which == 'd' ? 5 : which == 'e' ? SIZE_MAX : 0;
  *reason = VERSIONS_SET_NO_MEMBER;
  return letter(text, text_len) == 'w' ? VERSIONS_OK : number(text, text_len);
}

/* `w18l` is said more of than there is room for, `w18u` what isn't UTF-8, and `w18s` has the status 99. */
int versions_set_wrong_text(uint32_t scheme, const char *text, size_t text_len, char *why, size_t room,
                            size_t *why_len) {
  char which = fourth(text, text_len);
  *why_len = which == 'l' ? room + 1 : 1;
  why[0] = '\xff';
  return which == 's' ? 99 : VERSIONS_OK;
}

/* The same of texts that are no versions, as `w1_a`. */
int versions_wrong(uint32_t scheme, const char *text, size_t text_len, size_t *place, uint32_t *reason) {
  return versions_set_wrong(scheme, text, text_len, place, reason);
}

int versions_wrong_text(uint32_t scheme, const char *text, size_t text_len, char *why, size_t room, size_t *why_len) {
  return versions_set_wrong_text(scheme, text, text_len, why, room, why_len);
}

/* `i0` has a form longer than any room. */
int versions_set_of_version(uint32_t scheme, const char *text, size_t text_len, uint8_t *form, size_t room,
                            size_t *form_len) {
  form_of(text, text_len, form, room, form_len);
  if (letter(text, text_len) == 'i') *form_len = room + 1;
  return number(text, text_len);
}

int versions_set_has(const uint8_t *form, size_t form_len, const char *text, size_t text_len, bool *has) {
  *(unsigned char *)has = 9;
  return number((const char *)form, form_len);
}

int versions_set_has_all(const uint8_t *form, size_t form_len, const char *texts, size_t texts_len,
                         const int64_t *offsets, size_t offsets_len, uint8_t *answers, size_t answers_len) {
  memset(answers, 9, answers_len);
  return number_of_all(texts, texts_len, offsets, offsets_len) == 77 ? 77 : number((const char *)form, form_len);
}

/* What is made of sets is longer than the room. */
int versions_set_and(const uint8_t *one, size_t one_len, const uint8_t *other, size_t other_len, uint8_t *form,
                     size_t room, size_t *form_len) {
  *form_len = room + 1;
  return room < one_len + other_len ? 76 : number((const char *)one, one_len);
}

int versions_set_or(const uint8_t *one, size_t one_len, const uint8_t *other, size_t other_len, uint8_t *form,
                    size_t room, size_t *form_len) {
  return versions_set_and(one, one_len, other, other_len, form, room, form_len);
}

int versions_set_not(const uint8_t *set, size_t set_len, uint8_t *form, size_t room, size_t *form_len) {
  *form_len = room + 1;
  return room < set_len + 17 ? 76 : number((const char *)set, set_len);
}

int versions_set_part_of(const uint8_t *one, size_t one_len, const uint8_t *other, size_t other_len, bool *is_part) {
  *(unsigned char *)is_part = 9;
  return number((const char *)one, one_len);
}

int versions_set_meets(const uint8_t *one, size_t one_len, const uint8_t *other, size_t other_len, bool *meet) {
  return versions_set_part_of(one, one_len, other, other_len, meet);
}

/* The low end of a set that begins with `s`, and the high one of another, lie where a field would. */
int versions_set_interval(const uint8_t *form, size_t form_len, size_t at, size_t *low, size_t *low_end, size_t *high,
                          size_t *high_end) {
  bool is_low = form[0] == 's';
  *low = *high = 0;
  *low_end = *high_end = 1;
  place((const char *)form, form_len, is_low ? low : high, is_low ? low_end : high_end);
  return number((const char *)form, form_len);
}
