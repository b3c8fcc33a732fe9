/*
 * A library that returns what it was set to, for tests of what the extension does with that. The calls that aren't here
 * are made by tests/support/calls.py, and write nothing.
 */
#pragma GCC diagnostic ignored "-Wunused-parameter"
#include <string.h>

#include "versions.h"

int fake_status = VERSIONS_OK;
int fake_number = 0; /* what each answer about many texts is */
const char *fake_asked;    /* by what it was asked last whether a version matches: "list" or "range" */
size_t fake_bound_len = 4; /* of both bounds: zeros, and bytes 255 */
uint32_t fake_flags = VERSIONS_RANGE_GENERAL | VERSIONS_RANGE_HIGH;
size_t fake_room = 0, fake_form_len = 0; /* what room a set asks for, and what its form takes of it: bytes 7 */
size_t fake_place = 0;                   /* of what is wrong with a set */
size_t fake_key_bound = 0;               /* of each text */
int fake_form_status = VERSIONS_OK;      /* of a form's scheme */

const char *versions_version(void) { return "9.9.9"; }

int stand_in(const char *text, size_t text_len) { return fake_status; }

/* There are two schemes, whose names have five and three letters. There is none of four. */
int versions_scheme_name(uint32_t scheme, char *name, size_t room, size_t *name_len) {
  if (scheme > VERSIONS_DEB) return fake_status == VERSIONS_OK ? VERSIONS_NO_SCHEME : fake_status;
  *name_len = scheme == VERSIONS_DEB ? 3 : 5;
  memcpy(name, scheme == VERSIONS_DEB ? "deb" : "mixed", *name_len);
  return VERSIONS_OK;
}

int versions_scheme(const char *name, size_t name_len, uint32_t *scheme) {
  *scheme = name_len == 3 ? VERSIONS_DEB : VERSIONS_MIXED;
  return name_len == 4 ? VERSIONS_NO_SCHEME : name_len == 3 || name_len == 5 ? VERSIONS_OK : fake_status;
}

int versions_key(uint32_t scheme, const char *text, size_t text_len, uint8_t *key, size_t room, size_t *key_len) {
  *key_len = 5;
  if (fake_status == VERSIONS_OK) memset(key, (int)scheme, 5);
  return fake_status;
}

int versions_parse(const char *text, size_t text_len, uint8_t *kind, uint8_t *key, size_t room, size_t *key_len) {
  if (fake_status == VERSIONS_OK) *kind = VERSIONS_GENERAL;
  return versions_key(VERSIONS_MIXED, text, text_len, key, room, key_len);
}

int versions_key_bound(uint32_t scheme, size_t text_len, size_t *bound) {
  *bound = fake_key_bound;
  return fake_status == VERSIONS_NO_ROOM ? VERSIONS_OK : fake_status;
}

/* Each key takes its bound: bytes 8. */
int versions_keys(uint32_t scheme, const char *texts, size_t texts_len, const int64_t *offsets, size_t offsets_len,
                  uint8_t *keys, size_t room, int64_t *key_offsets, size_t key_offsets_len) {
  size_t place;
  if (fake_status != VERSIONS_OK || room != fake_key_bound * (offsets_len - 1)) return VERSIONS_NO_ROOM;
  memset(keys, 8, room);
  for (place = 0; place < offsets_len; place++) key_offsets[place] = (int64_t)(place * fake_key_bound);
  return VERSIONS_OK;
}

int versions_range(const char *list, size_t list_len, uint8_t *low, size_t low_room, size_t *low_len, uint8_t *high,
                   size_t high_room, size_t *high_len, uint32_t *flags) {
  *low_len = *high_len = fake_bound_len;
  if (low_room < fake_bound_len || high_room < fake_bound_len) return VERSIONS_NO_ROOM;
  memset(low, 0, fake_bound_len);
  memset(high, 255, fake_bound_len);
  *flags = fake_flags;
  return fake_status;
}

int versions_match_in_range(const char *text, size_t text_len, const uint8_t *low, size_t low_len, const uint8_t *high,
                            size_t high_len, uint32_t flags, const char *members, size_t members_len, bool *matches) {
  fake_asked = members_len > 0 ? "list" : "range";
  return fake_status;
}

static int answer(uint8_t *numbers, size_t count) {
  while (count > 0) numbers[--count] = (uint8_t)fake_number;
  return fake_status;
}

int versions_kinds(const char *texts, size_t texts_len, const int64_t *offsets, size_t offsets_len, uint8_t *kinds,
                   size_t kinds_len) {
  return answer(kinds, kinds_len);
}

int versions_stabilities(const char *texts, size_t texts_len, const int64_t *offsets, size_t offsets_len,
                         uint8_t *stabilities, size_t stabilities_len) {
  return answer(stabilities, stabilities_len);
}

int versions_match_all(const char *list, size_t list_len, const char *texts, size_t texts_len, const int64_t *offsets,
                       size_t offsets_len, uint8_t *matches, size_t matches_len) {
  fake_asked = "list";
  return answer(matches, matches_len);
}

int versions_in_range_all(const char *texts, size_t texts_len, const int64_t *offsets, size_t offsets_len,
                          const uint8_t *low, size_t low_len, const uint8_t *high, size_t high_len, uint32_t flags,
                          uint8_t *answers, size_t answers_len) {
  fake_asked = "range";
  return answer(answers, answers_len);
}

int versions_set_bound(uint32_t scheme, const char *text, size_t text_len, size_t *bound) {
  *bound = fake_room;
  if (scheme > VERSIONS_DEB) return VERSIONS_NO_SCHEME;
  return fake_status == VERSIONS_NO_SET ? VERSIONS_OK : fake_status;
}

int versions_set(uint32_t scheme, const char *text, size_t text_len, uint8_t *form, size_t room, size_t *form_len) {
  if (room != fake_room) return VERSIONS_NO_ROOM;
  memset(form, 7, fake_form_len);
  *form_len = fake_form_len;
  return fake_status;
}

int versions_set_scheme(const uint8_t *form, size_t form_len, uint32_t *scheme) {
  return fake_status == VERSIONS_OK ? fake_form_status : fake_status;
}

int versions_set_wrong(uint32_t scheme, const char *text, size_t text_len, size_t *place, uint32_t *reason) {
  *place = fake_place;
  return fake_status;
}

int versions_set_wrong_text(uint32_t scheme, const char *text, size_t text_len, char *why, size_t room,
                            size_t *why_len) {
  memset(why, '!', room);
  *why_len = room;
  return fake_status;
}

int versions_wrong(uint32_t scheme, const char *text, size_t text_len, size_t *place, uint32_t *reason) {
  return versions_set_wrong(scheme, text, text_len, place, reason);
}

int versions_wrong_text(uint32_t scheme, const char *text, size_t text_len, char *why, size_t room, size_t *why_len) {
  return versions_set_wrong_text(scheme, text, text_len, why, room, why_len);
}
