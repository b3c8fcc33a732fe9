/*
 * versions.h: version numbers and requirements, for C and C++. C99.
 *
 * The calls read, compare, sort and match version texts. Link with -lversions. The rules, and what is proved of them,
 * are in the documentation of the library `versions`.
 *
 * Texts. A text is a pointer and a length in bytes. It may contain any bytes, byte 0 included, and needs no byte 0
 * after it. Every text of every length gets an answer; a text that is not UTF-8 is not a version.
 *
 * Schemes. A scheme is a set of texts, which are its versions, and one order on them. It goes by a number: with
 * VERSIONS_MIXED every version is compared in one order, and with another number, such as VERSIONS_DEB, the versions
 * of one system in its own. A call that takes neither a scheme nor a set is for mixed alone, and its description
 * begins so: it is about kinds, fields, requirements, tags or words in versions. A version of mixed has the first of
 * three kinds whose grammar it matches: strict (called ideal), general, messy (called complex).
 *
 * Many texts. The texts lie in one buffer, as in a large binary array of Apache Arrow: with n + 1 offsets, the text at
 * place i is the bytes from offsets[i] up to, but without, offsets[i + 1]. Offsets are not negative, do not descend and
 * lie within the buffer. The first offset may be greater than 0, and the last less than the buffer's length. Each array
 * is passed with its own length, n + 1 for offsets and n for results, and nothing past an array is accessed.
 *
 * Alignment. A pointer is aligned as its type is: to int64_t, uint64_t or size_t to 8 bytes, to int32_t or uint32_t to 4.
 * Offsets that lie within a buffer of bytes, such as a file's, may not be: copy them first.
 *
 * Sets. A set of versions, such as >=1.2, <2 || ^3, is read once, by versions_set, and is then its form: bytes that the
 * other calls read in the place of its text. With one scheme, two sets have the same keys exactly if their forms are
 * the same bytes. A key is in the set if the number of its ends that are not above the key is odd; a set is of keys, so
 * versions that compare equal are in it together. No call reads past the bytes that it gets, but of bytes that no call
 * wrote it may answer anything: versions_set_count tells whether bytes are a form.
 *
 * Null pointers. A null pointer with length 0 is an empty text or an empty array. Any other null pointer is an error:
 * the call returns VERSIONS_NULL, whatever else is wrong, and reads and writes nothing.
 *
 * Lengths. No array has more than PTRDIFF_MAX bytes. If one that is read has a greater length, the call returns
 * VERSIONS_TOO_LONG, and reads and writes nothing. The length of one that is written may be greater: SIZE_MAX as the room
 * of a buffer says that there is enough.
 *
 * Ownership. The caller owns all memory that a call reads or writes, and may free it when the call returns. The library
 * owns only the constant texts that versions_status_text and versions_version return. Output must not overlap anything
 * else that is passed to the call. No call allocates memory.
 *
 * Statuses. A call returns VERSIONS_OK, or a status that says what is wrong. It writes its results only if it returns
 * VERSIONS_OK, unless its description says otherwise.
 *
 * Threads. The library has no state. Any thread, and any signal handler, may make any call at any time, on memory that
 * no other thread changes meanwhile.
 *
 * Other languages. Each call is a function, never a macro, so a foreign function interface can call it.
 */
#ifndef VERSIONS_H
#define VERSIONS_H

#include <stdbool.h>
#include <stddef.h>
#include <stdint.h>

#ifdef __cplusplus
extern "C" {
#endif

/* The version of the library that this header belongs to. c/build reads it here. */
#define VERSIONS_VERSION "0.1.0"
#define VERSIONS_VERSION_MAJOR 0
#define VERSIONS_VERSION_MINOR 1
#define VERSIONS_VERSION_PATCH 0

/* The statuses. */
#define VERSIONS_OK 0               /* success */
#define VERSIONS_NO_VERSION 1       /* the text is not a version */
#define VERSIONS_NO_VERSION_A 2     /* the first text is not a version */
#define VERSIONS_NO_VERSION_B 3     /* the second text is not a version */
#define VERSIONS_NO_VERSION_AB 4    /* neither text is a version */
#define VERSIONS_NO_REQUIREMENTS 5  /* the list does not parse as a list of requirements */
#define VERSIONS_NO_NUMBER 6        /* the version has no number at that place, or no epoch */
#define VERSIONS_NO_ROOM 7          /* a buffer for keys, for a bound or for a text is too small */
#define VERSIONS_BAD_OFFSETS 8      /* an offset is bad, or the lengths of two arrays do not match */
#define VERSIONS_NO_MEMORY 9        /* memory allocation failed; reserved: no call allocates, and none returns this */
#define VERSIONS_NULL 10            /* a pointer is null, and what it should point to is not empty */
#define VERSIONS_NO_FIELD 11        /* the version has no such field */
#define VERSIONS_NO_WRONG_MEMBER 12 /* each member of the list is a requirement, or the text is a set */
#define VERSIONS_LARGE_EPOCH 13     /* the epoch is above 9223372036854775807 */
#define VERSIONS_UNKNOWN_FIELD 14   /* no field has that number */
#define VERSIONS_ALL_MATCH 15       /* each member of the list matches the version */
#define VERSIONS_NO_CONFLICT 16     /* no two members of the list exclude each other */
#define VERSIONS_NO_NEXT 17         /* no version comes next after the version */
#define VERSIONS_NO_SET 18          /* the text is not a set of versions */
#define VERSIONS_NO_FORM 19         /* the bytes are not the form of a set */
#define VERSIONS_NO_SCHEME 20       /* no scheme has that number */
#define VERSIONS_OTHER_SCHEME 21    /* the two sets are of different schemes */
#define VERSIONS_NO_INTERVAL 22     /* the set has no interval at that place */
#define VERSIONS_IS_VERSION 23      /* the text is a version */
#define VERSIONS_TOO_LONG 24        /* the length of an array is above PTRDIFF_MAX bytes */

/* The kinds. */
#define VERSIONS_NONE 0    /* not a version */
#define VERSIONS_IDEAL 1   /* strict, such as 1.2.3-rc.1+x86 */
#define VERSIONS_GENERAL 2 /* such as 1:2.0rc1-3 */
#define VERSIONS_COMPLEX 3 /* messy, such as 10.2+0.93+1-1 */

/* The stabilities, in their order. */
#define VERSIONS_DEV 1    /* work in progress: a snapshot, or a nightly build */
#define VERSIONS_ALPHA 2  /* an early preview */
#define VERSIONS_BETA 3   /* a later preview */
#define VERSIONS_RC 4     /* a candidate for release */
#define VERSIONS_STABLE 5 /* a release */

/* The fields of a version, as pieces of its text. */
#define VERSIONS_FIELD_EPOCH 1       /* the digits before the colon of a general or messy version: 1 of 1:2.0-3 */
#define VERSIONS_FIELD_PRE_RELEASE 2 /* what follows the hyphen of a strict version: rc.1 of 1.2.3-rc.1+x86 */
#define VERSIONS_FIELD_RELEASE 3     /* what follows the hyphen of a general version: 3 of 1:2.0-3 */
#define VERSIONS_FIELD_METADATA 4    /* what follows the plus of a strict or general version: x86 of 1.2.3-rc.1+x86 */

/* Where two versions differ first. */
#define VERSIONS_DIFFERENCE_NONE 0  /* nowhere: the same version, apart from the metadata of strict versions */
#define VERSIONS_DIFFERENCE_TIE 1   /* in nothing that counts: they differ, but compare equal */
#define VERSIONS_DIFFERENCE_EPOCH 2 /* in their epochs */
#define VERSIONS_DIFFERENCE_PART 3  /* in one of the parts between the epoch and what follows the parts */
#define VERSIONS_DIFFERENCE_TAIL 4  /* in what follows the parts, such as a pre-release */

/* The flags of a range. */
#define VERSIONS_RANGE_IDEAL 1   /* strict versions are in the range */
#define VERSIONS_RANGE_GENERAL 2 /* general versions are in the range */
#define VERSIONS_RANGE_COMPLEX 4 /* messy versions are in the range */
#define VERSIONS_RANGE_HIGH 8    /* the range has a high bound */
#define VERSIONS_RANGE_EXACT 16  /* the list matches every version in the range */

/* The flags of versions_newest. */
#define VERSIONS_NEWEST_TAGS 1 /* the version of a text is the one in it as in a tag */

/* Why a requirement does not match a version: the first of these that is so. */
#define VERSIONS_WHY_KIND 1  /* the version's kind is not one of the kinds of the requirement's range */
#define VERSIONS_WHY_BELOW 2 /* its key is below the range */
#define VERSIONS_WHY_ABOVE 3 /* its key is not below the high bound of the range */
#define VERSIONS_WHY_PARTS 4 /* none of these: parts or fields differ */

/* The schemes: which texts are versions, and how these compare. */
#define VERSIONS_MIXED 1 /* mixed: every version, in the one order of all kinds */
#define VERSIONS_DEB 2 /* deb (debian, ubuntu): Debian's versions (Debian Policy, 5.6.12) */
#define VERSIONS_RPM 3 /* rpm (redhat, fedora, suse): RPM's versions (rpm-version(7)) */
#define VERSIONS_PYPI 4 /* pypi (python, pip, pep440): Python's versions (PEP 440) */
#define VERSIONS_SEMVER 5 /* semver (npm, cargo, crates.io): SemVer 2.0.0 in full */
#define VERSIONS_GEM 6 /* gem (rubygems, ruby): RubyGems' versions (Gem::Version) */

/* Why a text is not a version: what ends, or stands, at the place up to which it could become one. */
#define VERSIONS_WRONG_EMPTY 1             /* the text is empty */
#define VERSIONS_WRONG_AFTER_HYPHEN 2      /* it ends after a hyphen, which something has to follow */
#define VERSIONS_WRONG_AFTER_PLUS 3        /* it ends after a plus */
#define VERSIONS_WRONG_AFTER_DOT 4         /* it ends after a dot */
#define VERSIONS_WRONG_AFTER_COLON 5       /* it ends after a colon */
#define VERSIONS_WRONG_AFTER_UNDERSCORE 6  /* it ends after an underscore */
#define VERSIONS_WRONG_AFTER_TILDE 7       /* it ends after a tilde */
#define VERSIONS_WRONG_AFTER_EXCLAMATION 8 /* it ends after an exclamation mark */
#define VERSIONS_WRONG_UNFINISHED 9        /* it ends elsewhere, where something has to follow */
#define VERSIONS_WRONG_BLANK 10            /* a space or a tab */
#define VERSIONS_WRONG_CONTROL 11          /* another control character */
#define VERSIONS_WRONG_NOT_ASCII 12        /* a character past ASCII */
#define VERSIONS_WRONG_EMPTY_PART 13       /* a mark of the scheme, first or after another: a part is empty */
#define VERSIONS_WRONG_LEADING_ZERO 14     /* a number with a leading zero: a digit stands there, or what ends it */
#define VERSIONS_WRONG_OTHER 15            /* another character */
#define VERSIONS_WRONG_LATE_COLON 16       /* a colon after the hyphen, which a revision or release can't have */

/* Why a text is not a set. */
#define VERSIONS_SET_NO_MEMBER 1    /* a member has to come: first, or after a comma or || */
#define VERSIONS_SET_NO_VERSION 2   /* a version has to come, after an operator */
#define VERSIONS_SET_NO_OPERATOR 3  /* a version has no operator before it */
#define VERSIONS_SET_ONE_BAR 4      /* a bar stands alone, where two stand between alternatives */
#define VERSIONS_SET_NOT_VERSION 5  /* what follows an operator is not a version */
#define VERSIONS_SET_STAR 6         /* .* stands after another operator than =, == and != */
#define VERSIONS_SET_NOT_BARE 7     /* .* stands behind a version that has more than an epoch and parts */
#define VERSIONS_SET_NO_PARTS 8     /* the operator asks for parts, which versions of the scheme do not have */
#define VERSIONS_SET_LETTER_V 9     /* the version begins with v or V and a digit, as a tag does */
#define VERSIONS_SET_PART_X 10      /* the version has a part x or X, as a pattern does */
#define VERSIONS_SET_NO_DIGIT 11    /* the version has no digit, as latest */
#define VERSIONS_SET_NOT_DOUBLED 12 /* << or >> stands in a set of another scheme than Debian's */

/*
 * Compares two versions of a scheme by its order, without their keys: in mixed by precedence, the one order of all
 * kinds.
 *
 * Sets *order to -1, 0 or 1 if the first is before the second, compares equal to it, or is after it. Different texts
 * may compare equal, such as 1.0.0+a and 1.0.0+b in mixed, and 1.0 and 1.0-0 in deb.
 *
 * Returns VERSIONS_OK, VERSIONS_NO_SCHEME, VERSIONS_NO_VERSION_A, VERSIONS_NO_VERSION_B or VERSIONS_NO_VERSION_AB.
 */
int versions_compare(uint32_t scheme, const char *a, size_t a_len, const char *b, size_t b_len, int32_t *order);

/*
 * Tests whether a text is a version of a scheme.
 *
 * Sets *has to true or false.
 *
 * Returns VERSIONS_OK or VERSIONS_NO_SCHEME.
 */
int versions_has(uint32_t scheme, const char *text, size_t text_len, bool *has);

/*
 * Finds how far a text could become a version of a scheme, and why no further, for those who mend it.
 *
 * Sets *place to the length in bytes of its longest beginning that something put after it makes a version, and *reason
 * to what stands there, or to how the text ends there: VERSIONS_WRONG_EMPTY to VERSIONS_WRONG_LATE_COLON. In mixed 1.2.3-
 * ends at 6, after a hyphen; 1..2 has an empty part at 2, and 1.2.3 with a space after it a blank at 5. What stands
 * before the place is ASCII.
 *
 * Returns VERSIONS_OK, VERSIONS_NO_SCHEME, or VERSIONS_IS_VERSION if the text is one.
 */
int versions_wrong(uint32_t scheme, const char *text, size_t text_len, size_t *place, uint32_t *reason);

/*
 * Writes why a text is not a version of a scheme, in English without a full stop: for 1.2.3- in mixed, nothing after
 * the hyphen.
 *
 * Writes the text into the first bytes of `why`, which has `room` bytes, without a byte 0 after it, and its length to
 * *why_len, also with VERSIONS_NO_ROOM. 100 bytes are always enough. To get the length alone, pass room 0 and a null
 * pointer.
 *
 * Returns VERSIONS_OK, VERSIONS_NO_SCHEME, VERSIONS_IS_VERSION if the text is one, or VERSIONS_NO_ROOM.
 */
int versions_wrong_text(uint32_t scheme, const char *text, size_t text_len, char *why, size_t room, size_t *why_len);

/*
 * Writes the sort key of a version of a scheme.
 *
 * Keys of one scheme compare by memcmp, the shorter first if it is a prefix of the other, as versions_compare has
 * their versions. Two keys are equal exactly if their versions compare equal. No key is empty, and no key is a prefix
 * of another. Keys of different schemes say nothing of each other.
 *
 * `room` is the size of the buffer `key`. The call sets *key_len to the length of the key. It does so also if it
 * returns VERSIONS_NO_ROOM, and then writes nothing to `key`; a buffer of *key_len bytes is large enough, and so is
 * one of the size that versions_key_bound gets for text_len. To get only the length, pass room 0; `key` may then be
 * null.
 *
 * Returns VERSIONS_OK, VERSIONS_NO_SCHEME, VERSIONS_NO_VERSION or VERSIONS_NO_ROOM.
 */
int versions_key(uint32_t scheme, const char *text, size_t text_len, uint8_t *key, size_t room, size_t *key_len);

/*
 * Gets a buffer size that is large enough for the key of every text of a length in a scheme, or SIZE_MAX if that does
 * not fit in a size_t. For n bytes it is an + b, by two numbers of the scheme: 3n + 5 in mixed, 2n + 7 in deb and pypi,
 * 3n + 3 in rpm, 2n in semver, and 5n in gem.
 *
 * Returns VERSIONS_OK or VERSIONS_NO_SCHEME.
 */
int versions_key_bound(uint32_t scheme, size_t text_len, size_t *bound);

/*
 * Writes the sort keys of n texts in a scheme, one after another.
 *
 * The key of the text at place i is the bytes of `keys` from key_offsets[i] up to, but without, key_offsets[i + 1];
 * key_offsets[0] is 0. A text that is not a version of the scheme has an empty key, which no version has. Nothing
 * after the last key is written. offsets_len and key_offsets_len are n + 1.
 *
 * `room` is the size of the buffer `keys`. What versions_key_bound gets for each of the texts is together always
 * enough: in mixed 3 bytes for each byte of the texts, and 5 for each text. If the call returns VERSIONS_NO_ROOM, it
 * still writes key_offsets, and key_offsets[n] is the size that all keys need; the contents of `keys` are then
 * unspecified. To get only the offsets, pass room 0; `keys` may then be null.
 *
 * Returns VERSIONS_OK, VERSIONS_NO_ROOM, or VERSIONS_NO_SCHEME or VERSIONS_BAD_OFFSETS, and then writes nothing.
 */
int versions_keys(uint32_t scheme, const char *texts, size_t texts_len, const int64_t *offsets, size_t offsets_len,
                  uint8_t *keys, size_t room, int64_t *key_offsets, size_t key_offsets_len);

/*
 * Sorts n texts by the order of a scheme, and writes their places in sorted order.
 *
 * `order` gets every place from 0 to n - 1 once, the place of the least version first. The order is that of
 * versions_compare, in mixed that of versions_compare_total. Texts that compare equal stay in the order of their
 * places, as in a stable sort. Texts that are not versions of the scheme come last, also in the order of their places.
 *
 * The call sorts by keys. `keys`, room and key_offsets are those of versions_keys, and get what that call writes.
 * offsets_len and key_offsets_len are n + 1, and order_len is n. To get only the offsets, pass room 0; `keys` may then
 * be null. Room 0 is enough if no text is a version. The sort makes O(n log n) comparisons of keys at worst.
 *
 * Returns VERSIONS_OK; VERSIONS_NO_ROOM, and then does not write `order`; or VERSIONS_NO_SCHEME or
 * VERSIONS_BAD_OFFSETS, and then writes nothing.
 */
int versions_sort(uint32_t scheme, const char *texts, size_t texts_len, const int64_t *offsets, size_t offsets_len,
                  uint8_t *keys, size_t room, int64_t *key_offsets, size_t key_offsets_len, uint64_t *order,
                  size_t order_len);

/*
 * Finds the scheme that a text names in upper or lower case: by its name, such as deb, or by what else people call it,
 * such as debian, which stands in parentheses where the schemes have their numbers. Sets *scheme to its number.
 *
 * Returns VERSIONS_OK or VERSIONS_NO_SCHEME.
 */
int versions_scheme(const char *name, size_t name_len, uint32_t *scheme);

/*
 * Writes the name of a scheme. The schemes have the numbers from VERSIONS_MIXED on, without a gap.
 *
 * Writes the name into the first bytes of `name`, which has `room` bytes, without a byte 0 after it, and its length to
 * *name_len, also with VERSIONS_NO_ROOM. 16 bytes are always enough.
 *
 * Returns VERSIONS_OK, VERSIONS_NO_SCHEME or VERSIONS_NO_ROOM.
 */
int versions_scheme_name(uint32_t scheme, char *name, size_t room, size_t *name_len);

/*
 * Reads a set of versions of a scheme, and writes its form.
 *
 * A set is alternatives with || between them, and has what one of them has. An alternative is members with a comma or
 * blanks between them, and has what all of them have. A member is one of these, where blanks may stand around the
 * operator and the version; blanks are spaces and tabs:
 *
 *     *                  all versions
 *     =r, ==r            what compares equal to r
 *     !=r                all else
 *     <r, <=r, >r, >=r   what is before r, not after it, after it, not before it
 *     <<r, >>r           in Debian's sets alone: what is before r, after it
 *     =r.*, ==r.*        what has the epoch of r and begins with its parts
 *     !=r.*              all else
 *     ~r, ~=r, ~>r       what is not before r, and begins with its parts but the last
 *     ^r                 what is not before r, and begins with some of its parts
 *
 * The last four are for mixed alone, whose versions have parts. With .* the version has nothing behind its parts. With
 * ~ and ^ the epoch is the same too: ~ asks for an only part, and ^ for the parts through the first that is no plain
 * zero, or for all.
 *
 * `room` is the size of the buffer `form`. The call sets *form_len to the length of the form, which is the first bytes
 * of `form`; the bytes behind it are unspecified. If it returns VERSIONS_NO_ROOM, it sets *form_len to a size that is
 * enough, that of versions_set_bound, and the whole buffer is unspecified. If the text is
 * not a set, it returns VERSIONS_NO_SET and writes nothing, however small the buffer is. It is linear in the text, times
 * the logarithm of the number of members.
 *
 * Returns VERSIONS_OK, VERSIONS_NO_SCHEME, VERSIONS_NO_SET or VERSIONS_NO_ROOM.
 */
int versions_set(uint32_t scheme, const char *text, size_t text_len, uint8_t *form, size_t room, size_t *form_len);

/*
 * Gets a buffer size in which versions_set reads a text, whatever the text is. It is linear in the length of the words
 * of the text: blanks take no room.
 *
 * Returns VERSIONS_OK or VERSIONS_NO_SCHEME.
 */
int versions_set_bound(uint32_t scheme, const char *text, size_t text_len, size_t *bound);

/*
 * Finds where a text is not a set of versions, and why not.
 *
 * Sets *place to where the first wrong piece of the text begins, in bytes from 0, and *reason to why it is wrong:
 * VERSIONS_SET_NO_MEMBER to VERSIONS_SET_NOT_DOUBLED. The piece ends before a blank, a comma or a bar. Where something
 * is missing at the end of the text, *place is text_len.
 *
 * Returns VERSIONS_OK, VERSIONS_NO_SCHEME, or VERSIONS_NO_WRONG_MEMBER if the text is a set.
 */
int versions_set_wrong(uint32_t scheme, const char *text, size_t text_len, size_t *place, uint32_t *reason);

/*
 * Writes why a text is not a set of versions, and what to write, as a sentence in English without a full stop: for
 * 1.2, an operator is missing before the version: = for it alone, >= for it and all later.
 *
 * Writes the sentence into the first bytes of `why`, which has `room` bytes, without a byte 0 after it, and its length
 * to *why_len, also with VERSIONS_NO_ROOM. 100 bytes are always enough. To get the length alone, pass room 0 and a null
 * pointer.
 *
 * Returns VERSIONS_OK, VERSIONS_NO_SCHEME, VERSIONS_NO_WRONG_MEMBER if the text is a set, or VERSIONS_NO_ROOM.
 */
int versions_set_wrong_text(uint32_t scheme, const char *text, size_t text_len, char *why, size_t room,
                            size_t *why_len);

/*
 * Writes the form of the set of the versions of a scheme that compare equal to one. The version may be any: a text that
 * versions_set refuses as a slip, such as latest, is none here.
 *
 * `room` is the size of the buffer `form`. The call sets *form_len to the length of the form, also if it returns
 * VERSIONS_NO_ROOM, and then writes nothing to `form`. To get the length alone, pass room 0 and a null pointer.
 *
 * Returns VERSIONS_OK, VERSIONS_NO_SCHEME, VERSIONS_NO_VERSION or VERSIONS_NO_ROOM.
 */
int versions_set_of_version(uint32_t scheme, const char *text, size_t text_len, uint8_t *form, size_t room,
                            size_t *form_len);

/*
 * Gets the scheme of a set, by the set's form: sets *scheme to its number, such as VERSIONS_DEB.
 *
 * Returns VERSIONS_OK, VERSIONS_NO_FORM if the bytes end too early, or VERSIONS_NO_SCHEME.
 */
int versions_set_scheme(const uint8_t *form, size_t form_len, uint32_t *scheme);

/*
 * Tests whether a version is in a set, by the set's form. Reads the version once, and as many ends of the set as the
 * logarithm of their number.
 *
 * Sets *has to true or false.
 *
 * Returns VERSIONS_OK, VERSIONS_NO_FORM if the bytes end too early, VERSIONS_NO_SCHEME or VERSIONS_NO_VERSION.
 */
int versions_set_has(const uint8_t *form, size_t form_len, const char *text, size_t text_len, bool *has);

/*
 * Tests for each of n texts whether its version is in a set.
 *
 * Sets answers[i] to 1 if the version is in the set, to 0 if it is not, and to 2 if the text is not a version.
 * offsets_len is n + 1, and answers_len is n.
 *
 * Returns VERSIONS_OK, VERSIONS_BAD_OFFSETS (whatever the form is), VERSIONS_NO_FORM if its bytes end too early, or
 * VERSIONS_NO_SCHEME.
 */
int versions_set_has_all(const uint8_t *form, size_t form_len, const char *texts, size_t texts_len,
                         const int64_t *offsets, size_t offsets_len, uint8_t *answers, size_t answers_len);

/*
 * Writes the form of the set of what two sets both have.
 *
 * `room` is the size of the buffer `form`. The call sets *form_len to the length of the form, also if it returns
 * VERSIONS_NO_ROOM, and then writes nothing to `form`; one_len and other_len bytes together are always enough. To get
 * the length alone, pass room 0 and a null pointer.
 *
 * Returns VERSIONS_OK, VERSIONS_NO_FORM if the bytes of one end too early, VERSIONS_OTHER_SCHEME or VERSIONS_NO_ROOM.
 */
int versions_set_and(const uint8_t *one, size_t one_len, const uint8_t *other, size_t other_len, uint8_t *form,
                     size_t room, size_t *form_len);

/*
 * Writes the form of the set of what one of two sets has, or both. The buffer and the statuses are those of
 * versions_set_and.
 */
int versions_set_or(const uint8_t *one, size_t one_len, const uint8_t *other, size_t other_len, uint8_t *form,
                    size_t room, size_t *form_len);

/*
 * Writes the form of the set of all that a set does not have. The buffer is that of versions_set_and; set_len and 17
 * bytes are always enough.
 *
 * Returns VERSIONS_OK, VERSIONS_NO_FORM if the bytes end too early, or VERSIONS_NO_ROOM.
 */
int versions_set_not(const uint8_t *set, size_t set_len, uint8_t *form, size_t room, size_t *form_len);

/*
 * Tests whether a set has all that another has: sets *is_part to true if each key of the first is in the other, and
 * then each version is too.
 *
 * Returns VERSIONS_OK, VERSIONS_NO_FORM if the bytes of one end too early, or VERSIONS_OTHER_SCHEME.
 */
int versions_set_part_of(const uint8_t *one, size_t one_len, const uint8_t *other, size_t other_len, bool *is_part);

/*
 * Tests whether two sets meet: sets *meet to true if a key is in both. If it is false, no version is in both. A set can
 * have keys and no version, as >1.2 <1.2-0 has.
 *
 * Returns VERSIONS_OK, VERSIONS_NO_FORM if the bytes of one end too early, or VERSIONS_OTHER_SCHEME.
 */
int versions_set_meets(const uint8_t *one, size_t one_len, const uint8_t *other, size_t other_len, bool *meet);

/*
 * Counts the intervals of a set, and checks its form whole, which the other calls do not: the number is that of a
 * scheme, and the ends rise and lie one behind another through the last byte. Any bytes are such ends, so a set that
 * passes may have keys that no version has. It takes time linear in the form.
 *
 * Returns VERSIONS_OK, VERSIONS_NO_FORM or VERSIONS_NO_SCHEME.
 */
int versions_set_count(const uint8_t *form, size_t form_len, size_t *count);

/*
 * Finds the ends of an interval of a set. Places are counted from 0, and the intervals rise.
 *
 * The interval has the keys from the low end on, and below the high end. The low end is the bytes of the form from *low
 * up to, but without, *low_end, and the high end those from *high up to, but without, *high_end. Where *high is
 * *high_end, the interval has no high end: all keys from the low one on are in it.
 *
 * Returns VERSIONS_OK, VERSIONS_NO_FORM if the bytes end too early, or VERSIONS_NO_INTERVAL if the set has fewer.
 */
int versions_set_interval(const uint8_t *form, size_t form_len, size_t place, size_t *low, size_t *low_end,
                          size_t *high, size_t *high_end);

/*
 * For mixed alone: returns the kind of a text: VERSIONS_NONE, VERSIONS_IDEAL, VERSIONS_GENERAL or VERSIONS_COMPLEX.
 *
 * This is not a status. If text is null and text_len is not 0, the call returns -VERSIONS_NULL, which is not a kind, and
 * if text_len is above PTRDIFF_MAX, -VERSIONS_TOO_LONG.
 */
int versions_kind(const char *text, size_t text_len);

/*
 * For mixed alone: compares two versions by precedence, and breaks ties by kind and then field by field.
 *
 * Sets *order as versions_compare does, but to 0 only if the two are the same version, apart from the metadata of
 * strict versions.
 *
 * Returns VERSIONS_OK, VERSIONS_NO_VERSION_A, VERSIONS_NO_VERSION_B or VERSIONS_NO_VERSION_AB.
 */
int versions_compare_total(const char *a, size_t a_len, const char *b, size_t b_len, int32_t *order);

/*
 * For mixed alone: writes the kind and the sort key of a version, with one scan of the text.
 *
 * Sets *kind to VERSIONS_IDEAL, VERSIONS_GENERAL or VERSIONS_COMPLEX, if the call returns VERSIONS_OK. `key`, room and
 * key_len are those of versions_key, and get what that call writes.
 *
 * Returns VERSIONS_OK, VERSIONS_NO_VERSION or VERSIONS_NO_ROOM.
 */
int versions_parse(const char *text, size_t text_len, uint8_t *kind, uint8_t *key, size_t room, size_t *key_len);

/*
 * For mixed alone: tests whether a version matches a list of requirements, such as >=1.1.1,<2.0.0.
 *
 * Sets *matches to true or false.
 *
 * Returns VERSIONS_OK, VERSIONS_NO_REQUIREMENTS (whatever the text is) or VERSIONS_NO_VERSION.
 */
int versions_matches(const char *list, size_t list_len, const char *text, size_t text_len, bool *matches);

/*
 * For mixed alone: finds the first member of a text that is not a requirement, and so why the text is not a list of
 * requirements. The members are the pieces between the commas.
 *
 * The member is the bytes of the text from *start up to, but without, *end. It is empty if nothing stands before,
 * between or after commas, or in the whole text.
 *
 * Returns VERSIONS_OK, or VERSIONS_NO_WRONG_MEMBER if the text is a list of requirements.
 */
int versions_wrong_member(const char *list, size_t list_len, size_t *start, size_t *end);

/*
 * For mixed alone: writes the range of sort keys that a list of requirements asks for.
 *
 * A version is in the range if its key is not below the low bound, is below the high bound, if there is one, and its
 * kind is one of the kinds. Bounds and keys compare by memcmp, the shorter first if it is a prefix of the other. Every
 * version that the list matches is in the range. With VERSIONS_RANGE_EXACT the list matches every version in it too;
 * without, versions_match_in_range asks the members that versions_inexact writes too. A range can be empty.
 *
 * The call writes the low bound to `low`, a buffer of low_room bytes, and its length to *low_len; the high bound to
 * `high`, a buffer of high_room bytes, and its length to *high_len; and the flags, VERSIONS_RANGE_IDEAL to
 * VERSIONS_RANGE_EXACT added, to *flags. No low bound is missing, but it can be empty: every key is above it. Without
 * VERSIONS_RANGE_HIGH there is no high bound, and *high_len is 0. The rest of each buffer is then unspecified.
 *
 * If a bound is longer than its buffer, the call returns VERSIONS_NO_ROOM, sets *low_len and *high_len to the lengths of
 * the two bounds, and writes nothing else. Buffers of 3 * list_len + 5 bytes are always large enough.
 * To get only the lengths, pass the rooms 0; `low` and `high` may then be null. If room 0 is enough for both bounds, as
 * for *, the call returns VERSIONS_OK.
 *
 * An index over keys answers a list by one scan. With a table that has the key and the kind of each version, in the
 * order of the keys:
 *
 *     uint8_t low[256], high[256];
 *     size_t low_len, high_len;
 *     uint32_t flags;
 *     int status = versions_range(list, list_len, low, sizeof low, &low_len, high, sizeof high, &high_len, &flags);
 *
 * the rows from the first key that is not below `low` up to the first that is not below `high` are those to read, and
 * flags & 1 << (kind - 1) is not 0 where a row's kind is one of the kinds.
 *
 * Returns VERSIONS_OK, VERSIONS_NO_REQUIREMENTS or VERSIONS_NO_ROOM.
 */
int versions_range(const char *list, size_t list_len, uint8_t *low, size_t low_room, size_t *low_len, uint8_t *high,
                   size_t high_room, size_t *high_len, uint32_t *flags);

/*
 * For mixed alone: writes the members of a list of requirements that the range of the list leaves open: those that
 * need not match each version in their own range. Where a version is in the range of the list, the list matches it
 * exactly if each of these members does. So of a long list that is asked about many versions, keep its range and these
 * members, for versions_match_in_range.
 *
 * They are written with commas between them, and so are a list, or nothing, which is no list, if there are none: then
 * the range has VERSIONS_RANGE_EXACT.
 *
 * `room` is the size of the buffer `members`. The call sets *members_len to the length of what it writes. It does so
 * also if it returns VERSIONS_NO_ROOM, and then writes nothing to `members`; a buffer of *members_len bytes is large
 * enough, and so is one of list_len bytes. To get only the length, pass room 0; `members` may then be null.
 *
 * Returns VERSIONS_OK, VERSIONS_NO_REQUIREMENTS or VERSIONS_NO_ROOM.
 */
int versions_inexact(const char *list, size_t list_len, char *members, size_t room, size_t *members_len);

/*
 * For mixed alone: tests whether a version is in a range, without writing its key.
 *
 * The bounds and the flags are those of versions_range, or any others: bytes of every kind are bounds. Without
 * VERSIONS_RANGE_HIGH `high` is not read. VERSIONS_RANGE_EXACT and unknown flags mean nothing here.
 *
 * Sets *is_in to true or false.
 *
 * Returns VERSIONS_OK or VERSIONS_NO_VERSION.
 */
int versions_in_range(const char *text, size_t text_len, const uint8_t *low, size_t low_len, const uint8_t *high,
                      size_t high_len, uint32_t flags, bool *is_in);

/*
 * For mixed alone: tests whether a list of requirements matches a version, by what is kept of the list: its range, and
 * the members that the range leaves open. Reads the version once, and no member for a version that is not in the
 * range.
 *
 * The bounds and the flags are those of versions_range, and `members` is what versions_inexact writes, or the list; or
 * they are any others, as for versions_in_range: then the answer is whether the version is in the range, and `members`,
 * unless it is empty, matches it.
 *
 * Sets *matches to true or false.
 *
 * Returns VERSIONS_OK, VERSIONS_NO_VERSION, or VERSIONS_NO_REQUIREMENTS where the version is in the range and `members`
 * is neither empty nor a list.
 */
int versions_match_in_range(const char *text, size_t text_len, const uint8_t *low, size_t low_len, const uint8_t *high,
                            size_t high_len, uint32_t flags, const char *members, size_t members_len, bool *matches);

/*
 * For mixed alone: gets the number at a place of a version. Places are counted from 0.
 *
 * A strict version has three places: major, minor and patch.
 *
 * A general version has a place for each part between its epoch and its release. A part that is a number has that
 * number. The last part also has a number if it is a number and letters, or a number, letters and a number: the first
 * of these. 1.7d-15 has 7 at place 1, and 2rc1 has 2 at place 0. A number has no leading zero.
 *
 * A messy version has a place for each part of the first section that no colon follows. A part that is only digits has
 * their number: 1:20.0026.1_0-2 has 26 at place 1.
 *
 * No other part has a number. A number is at most 4294967295.
 *
 * Returns VERSIONS_OK, VERSIONS_NO_VERSION or VERSIONS_NO_NUMBER.
 */
int versions_nth(const char *text, size_t text_len, size_t n, uint32_t *number);

/*
 * For mixed alone: gets the epoch of a version: the number before its colon, which counts first in the order. 1:2.0-3
 * has 1.
 *
 * A general or messy version has an epoch if its text begins with digits and a colon: 8:2007f~dfsg-7 has 8. An epoch
 * is at most 9223372036854775807, so that it fits a signed number too. For a larger one the call sets *epoch to
 * 9223372036854775807, as strtoll does, and returns VERSIONS_LARGE_EPOCH; versions_field finds its digits.
 *
 * Returns VERSIONS_OK, VERSIONS_NO_VERSION, VERSIONS_NO_NUMBER for a version without an epoch, or VERSIONS_LARGE_EPOCH.
 */
int versions_epoch(const char *text, size_t text_len, uint64_t *epoch);

/*
 * For mixed alone: finds a field of a version in its text: VERSIONS_FIELD_EPOCH, VERSIONS_FIELD_PRE_RELEASE,
 * VERSIONS_FIELD_RELEASE or VERSIONS_FIELD_METADATA.
 *
 * The field is the bytes of the text from *start up to, but without, *end. No field is empty. A strict version can have
 * a pre-release and metadata, a general version an epoch, a release and metadata, and a messy version an epoch.
 *
 * Returns VERSIONS_OK, VERSIONS_UNKNOWN_FIELD for every other number (whatever the text is), VERSIONS_NO_VERSION, or
 * VERSIONS_NO_FIELD for a version without that field.
 */
int versions_field(const char *text, size_t text_len, uint32_t field, size_t *start, size_t *end);

/*
 * For mixed alone: tests whether a version is a pre-release (SemVer 2.0, section 9).
 *
 * Sets *is_prerelease to true for a strict version with a pre-release, such as 1.2.0-rc.1, and to false for every other
 * version. The text of a general or messy version does not say whether it is a pre-release.
 *
 * Returns VERSIONS_OK or VERSIONS_NO_VERSION.
 */
int versions_is_prerelease(const char *text, size_t text_len, bool *is_prerelease);

/*
 * For mixed alone: finds the version in a tag of git, or in another name of a release: release-1.2.3 has 1.2.3.
 *
 * The version is the bytes of the tag from *start to its end. It begins at the first digit that stands at the beginning
 * of the tag, or after a separator, or after one v or V that stands so. A separator is any byte that is neither an ASCII
 * letter, an ASCII digit nor a dot. v1.2.3, refs/tags/v1.2.3 and pkg@1.2.3 have 1.2.3, and OpenSSL_1_1_1k has 1_1_1k.
 *
 * A tag has no version if it has no such digit, as go1.20.3; if a dot between two digits stands before the digit, as in
 * x1.0-2; or if the rest of the tag from the digit on is not a version, as in name-v1..2.
 *
 * Returns VERSIONS_OK or VERSIONS_NO_VERSION.
 */
int versions_in_tag(const char *tag, size_t tag_len, size_t *start);

/*
 * For mixed alone: finds the version after a prefix of a tag: after go, go1.20.3 has 1.20.3.
 *
 * The version is the bytes of the tag from *start to its end. It is everything that follows the prefix, but for one v
 * or V, and begins with a digit: after go-, go-v1.2 has 1.2. A tag that does not begin with the prefix, byte by byte,
 * has no version.
 *
 * Returns VERSIONS_OK or VERSIONS_NO_VERSION.
 */
int versions_after_prefix(const char *prefix, size_t prefix_len, const char *tag, size_t tag_len, size_t *start);

/*
 * For mixed alone: returns how stable a version is, by a rule of habit, as Composer has it, and not of SemVer:
 * VERSIONS_DEV, VERSIONS_ALPHA, VERSIONS_BETA, VERSIONS_RC or VERSIONS_STABLE; or VERSIONS_NONE for a text that is not
 * a version.
 *
 * The words in the version say how stable it is, and the lowest counts: 1.0-beta-dev is dev. A word is a whole run of
 * ASCII letters, in upper or lower case:
 *
 *     VERSIONS_DEV    dev, devel, snapshot, nightly, canary
 *     VERSIONS_ALPHA  alpha, pre, preview, prerelease, milestone, eap
 *     VERSIONS_BETA   beta
 *     VERSIONS_RC     rc, cr
 *
 * A whole run of letters and digits counts too if it is one to three digits, a, b or c, and one or two digits: it is
 * alpha, beta or rc, as 1.0b2 is beta. One that is m and digits, or ea alone, is alpha, as 2.0-M1 and 22-ea. Metadata of
 * strict and general versions does not count.
 *
 * A strict version with a pre-release and none of these is alpha if the first part of the pre-release begins with a
 * letter or a hyphen, as 1.2.3-x.y, and isn't r and digits, as in 1.2.3-r0. Every other version is stable. Each of these
 * letters may be in upper or lower case: 1.2.3-R1 is stable.
 *
 * This is not a status. If text is null and text_len is not 0, the call returns -VERSIONS_NULL, which is not a
 * stability, and if text_len is above PTRDIFF_MAX, -VERSIONS_TOO_LONG.
 */
int versions_stability(const char *text, size_t text_len);

/*
 * For mixed alone: finds where two versions differ first, as their order looks at them: VERSIONS_DIFFERENCE_NONE to
 * VERSIONS_DIFFERENCE_TAIL.
 *
 * Sets *difference, and *part to the number of the part, counted from 0, with VERSIONS_DIFFERENCE_PART, and otherwise
 * to 0. 1.2.3 and 1.2.4 differ in part 2, and so do 1.2 and 1.2.0: a version whose parts end differs there from one
 * that has more. An absent epoch is 0. Parts and what follows them differ where they compare unequal: 1.2 and 1.02 tie.
 *
 * versions_compare sets 0 with VERSIONS_DIFFERENCE_NONE and VERSIONS_DIFFERENCE_TIE alone, and versions_compare_total
 * with VERSIONS_DIFFERENCE_NONE alone.
 *
 * Returns the statuses of versions_compare_total.
 */
int versions_difference(const char *a, size_t a_len, const char *b, size_t b_len, uint32_t *difference, size_t *part);

/*
 * For mixed alone: writes the version that comes next after another at a place, as text. Places are counted from 0.
 *
 * It is the least version that comes after that one, of its kind, with its epoch and as many numbers: the same ones
 * before the place, and zeros after it. It has no pre-release, release or metadata. After 1.2.3 comes 1.2.4 at place 2,
 * 1.3.0 at place 1 and 2.0.0 at place 0. After 1.2.3-rc.1 comes 1.2.3 at place 2, and after 1:1.9-3 comes 1:1.10 at
 * place 1.
 *
 * There is none where the version does not have so many parts, where its number would be past 4294967295, and after a
 * messy version and one with a part that is not a number, such as 1.0rc1.
 *
 * Writes the text into the first bytes of `next`, which has `room` bytes, without a byte 0 after it, and its length to
 * *next_len, also with VERSIONS_NO_ROOM. To get the length alone, pass room 0 and a null pointer.
 *
 * Returns VERSIONS_OK, VERSIONS_NO_VERSION, VERSIONS_NO_NEXT or VERSIONS_NO_ROOM.
 */
int versions_next(const char *text, size_t text_len, size_t place, char *next, size_t room, size_t *next_len);

/*
 * For mixed alone: writes the version that comes next after another at the last place of its numbers, as versions_next
 * does: the release that a pre-release precedes, or the one after a release. After 1.2.3-rc.1 comes 1.2.3, after 1.2.3
 * comes 1.2.4, after 1.2 comes 1.3, and after 1:1.9-3 comes 1:1.10.
 *
 * Returns the statuses of versions_next.
 */
int versions_next_release(const char *text, size_t text_len, char *next, size_t room, size_t *next_len);

/*
 * For mixed alone: writes the pre-release of a word that comes next after a strict version, as text.
 *
 * The word is what stands before the number of the pre-release: one chunk or more, joined by dots, such as rc. Where
 * word_len is 0 it is what stands before the last chunk of the version's own pre-release, if that chunk is a number,
 * and may then be nothing. What is written is the least version that comes after that one with the same major and minor
 * numbers, any patch, the word and one number from 1 on as pre-release, and no metadata.
 *
 *     version        word   next
 *     1.2.3          rc     1.2.4-rc.1
 *     1.2.3-rc.1     rc     1.2.3-rc.2
 *     1.2.3-alpha.4  rc     1.2.3-rc.1
 *     1.2.3-rc.1     beta   1.2.4-beta.1
 *     1.2.3-rc.1            1.2.3-rc.2
 *     1.2.3-1               1.2.3-2
 *
 * There is none after a version that is not strict, for a word that is not such chunks, without a word after a version
 * whose pre-release does not end with a number, such as 1.2.3 and 1.2.3-rc1, and where the patch would be past
 * 4294967295.
 *
 * Writes as versions_next does, and returns its statuses.
 */
int versions_next_pre(const char *text, size_t text_len, const char *word, size_t word_len, char *next, size_t room,
                      size_t *next_len);

/*
 * For mixed alone: finds the first member of a list of requirements that does not match a version, and why it does
 * not.
 *
 * The member is the bytes of the list from *start up to, but without, *end. Sets *why to VERSIONS_WHY_KIND,
 * VERSIONS_WHY_BELOW, VERSIONS_WHY_ABOVE or VERSIONS_WHY_PARTS. 1.4 is below >=1.5, and 2.0 is above <2.
 *
 * Returns VERSIONS_OK, VERSIONS_NO_REQUIREMENTS (whatever the text is), VERSIONS_NO_VERSION, or VERSIONS_ALL_MATCH if
 * each member matches.
 */
int versions_why_not(const char *list, size_t list_len, const char *text, size_t text_len, size_t *start, size_t *end,
                     uint32_t *why);

/*
 * For mixed alone: writes why the first member of a list of requirements that does not match a version does not, as a
 * sentence in English: 1.4 is below >=1.5. It begins with the text of the version, and has no full stop.
 *
 * Writes the sentence into the first bytes of `why`, which has `room` bytes, without a byte 0 after it, and its length
 * to *why_len, also with VERSIONS_NO_ROOM. To get the length alone, pass room 0 and a null pointer.
 *
 * Returns VERSIONS_OK, VERSIONS_NO_REQUIREMENTS (whatever the text is), VERSIONS_NO_VERSION, VERSIONS_ALL_MATCH if each
 * member matches, or VERSIONS_NO_ROOM.
 */
int versions_why_text(const char *list, size_t list_len, const char *text, size_t text_len, char *why, size_t room,
                      size_t *why_len);

/*
 * For mixed alone: finds two members of a list of requirements that exclude each other, so that the list matches no
 * version. The ranges of the two have no version in common, as those of >=2 and <1: they have no kind in common, or
 * the low bound of one is not below the high bound of the other. If one member alone excludes every version, as ~1_2
 * does, it is given twice.
 *
 * The members are the bytes of the list from *start up to, but without, *end, and from *other_start up to, but without,
 * *other_end. If bounds exclude each other, the first has the greatest low bound of the list, and the other has the
 * least high bound.
 *
 * Returns VERSIONS_OK, VERSIONS_NO_REQUIREMENTS, or VERSIONS_NO_CONFLICT if the range of the list is not empty. Such a
 * list can still match no version, as =1.0,=1.0+x does.
 */
int versions_conflict(const char *list, size_t list_len, size_t *start, size_t *end, size_t *other_start,
                      size_t *other_end);

/*
 * For mixed alone: writes the kind of each of n texts, as versions_kind returns it.
 *
 * offsets_len is n + 1, and kinds_len is n.
 *
 * Returns VERSIONS_OK or VERSIONS_BAD_OFFSETS.
 */
int versions_kinds(const char *texts, size_t texts_len, const int64_t *offsets, size_t offsets_len, uint8_t *kinds,
                   size_t kinds_len);

/*
 * For mixed alone: finds the version in each of n tags, as versions_in_tag does.
 *
 * Sets starts[i] to where the version in the tag at place i begins in `texts`; it ends where the tag does, at
 * offsets[i + 1]. For a tag without a version starts[i] is offsets[i + 1] too, so that the text between is empty.
 * offsets_len is n + 1, and starts_len is n.
 *
 * Returns VERSIONS_OK or VERSIONS_BAD_OFFSETS.
 */
int versions_in_tags(const char *texts, size_t texts_len, const int64_t *offsets, size_t offsets_len, int64_t *starts,
                     size_t starts_len);

/*
 * For mixed alone: writes how stable each of n versions is, as versions_stability returns it.
 *
 * offsets_len is n + 1, and stabilities_len is n.
 *
 * Returns VERSIONS_OK or VERSIONS_BAD_OFFSETS.
 */
int versions_stabilities(const char *texts, size_t texts_len, const int64_t *offsets, size_t offsets_len,
                         uint8_t *stabilities, size_t stabilities_len);

/*
 * For mixed alone: finds the newest of n texts: of those that are asked for, the first that no other comes after by
 * precedence.
 *
 * A text is asked for if it is a version, if `list`, a list of requirements, matches the version, and if the version
 * is at least as stable as `least`, one of VERSIONS_DEV to VERSIONS_STABLE. The list * matches every version, and
 * every version is as stable as 0 and as VERSIONS_DEV; none is more than VERSIONS_STABLE. With VERSIONS_NEWEST_TAGS
 * among the flags the version of a text is the one that versions_in_tag finds in it. Unknown flags mean nothing. Other
 * schemes have neither requirements nor stabilities: there versions_sort tells the newest.
 *
 * Sets *place to the place of that text, from 0 on. Each text is read once. offsets_len is n + 1.
 *
 * Returns VERSIONS_OK, VERSIONS_NO_REQUIREMENTS, VERSIONS_NO_VERSION if no text is asked for, or VERSIONS_BAD_OFFSETS
 * (whatever the list is).
 */
int versions_newest(const char *texts, size_t texts_len, const int64_t *offsets, size_t offsets_len, const char *list,
                    size_t list_len, uint32_t least, uint32_t flags, size_t *place);

/*
 * For mixed alone: tests each of n texts against a list of requirements.
 *
 * Sets matches[i] to 1 if the version matches, to 0 if it does not, and to 2 if the text is not a version. offsets_len
 * is n + 1, and matches_len is n.
 *
 * Returns VERSIONS_OK, VERSIONS_NO_REQUIREMENTS, or VERSIONS_BAD_OFFSETS (whatever the list is).
 */
int versions_match_all(const char *list, size_t list_len, const char *texts, size_t texts_len, const int64_t *offsets,
                       size_t offsets_len, uint8_t *matches, size_t matches_len);

/*
 * For mixed alone: tests for each of n texts whether its version is in a range, as versions_in_range does.
 *
 * Sets answers[i] to 1 if the version is in the range, to 0 if it is not, and to 2 if the text is not a version.
 * offsets_len is n + 1, and answers_len is n.
 *
 * Returns VERSIONS_OK or VERSIONS_BAD_OFFSETS.
 */
int versions_in_range_all(const char *texts, size_t texts_len, const int64_t *offsets, size_t offsets_len,
                          const uint8_t *low, size_t low_len, const uint8_t *high, size_t high_len, uint32_t flags,
                          uint8_t *answers, size_t answers_len);

/*
 * Returns a description of a status, in English; never null. The text stays valid as long as the library is loaded.
 */
const char *versions_status_text(int status);

/*
 * Returns the version of the library that is loaded. VERSIONS_VERSION is the version of the header.
 */
const char *versions_version(void);

#ifdef __cplusplus
}
#endif

#endif
