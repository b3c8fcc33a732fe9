//! What `versions.h` declares, as `c/declarations.py rust` writes it. All unsafe code of the crate is here.
//!
//! Of each call of the library there is a safe function, without `versions_` in its name. It takes an array and its
//! length as one slice or text, and returns what the call writes to single values, with its status.
#![allow(dead_code)]

use std::os::raw::{c_char, c_int};

use crate::library::Called;

pub const OK: c_int = 0;
pub const NO_VERSION: c_int = 1;
pub const NO_VERSION_A: c_int = 2;
pub const NO_VERSION_B: c_int = 3;
pub const NO_VERSION_AB: c_int = 4;
pub const NO_REQUIREMENTS: c_int = 5;
pub const NO_NUMBER: c_int = 6;
pub const NO_ROOM: c_int = 7;
pub const BAD_OFFSETS: c_int = 8;
pub const NO_MEMORY: c_int = 9;
pub const NULL: c_int = 10;
pub const NO_FIELD: c_int = 11;
pub const NO_WRONG_MEMBER: c_int = 12;
pub const LARGE_EPOCH: c_int = 13;
pub const UNKNOWN_FIELD: c_int = 14;
pub const ALL_MATCH: c_int = 15;
pub const NO_CONFLICT: c_int = 16;
pub const NO_NEXT: c_int = 17;
pub const NO_SET: c_int = 18;
pub const NO_FORM: c_int = 19;
pub const NO_SCHEME: c_int = 20;
pub const OTHER_SCHEME: c_int = 21;
pub const NO_INTERVAL: c_int = 22;
pub const IS_VERSION: c_int = 23;
pub const TOO_LONG: c_int = 24;

pub const NONE: c_int = 0;
pub const IDEAL: c_int = 1;
pub const GENERAL: c_int = 2;
pub const COMPLEX: c_int = 3;

pub const DEV: c_int = 1;
pub const ALPHA: c_int = 2;
pub const BETA: c_int = 3;
pub const RC: c_int = 4;
pub const STABLE: c_int = 5;

pub const FIELD_EPOCH: u32 = 1;
pub const FIELD_PRE_RELEASE: u32 = 2;
pub const FIELD_RELEASE: u32 = 3;
pub const FIELD_METADATA: u32 = 4;

pub const DIFFERENCE_NONE: u32 = 0;
pub const DIFFERENCE_TIE: u32 = 1;
pub const DIFFERENCE_EPOCH: u32 = 2;
pub const DIFFERENCE_PART: u32 = 3;
pub const DIFFERENCE_TAIL: u32 = 4;

pub const RANGE_IDEAL: u32 = 1;
pub const RANGE_GENERAL: u32 = 2;
pub const RANGE_COMPLEX: u32 = 4;
pub const RANGE_HIGH: u32 = 8;
pub const RANGE_EXACT: u32 = 16;

pub const NEWEST_TAGS: u32 = 1;

pub const WHY_KIND: u32 = 1;
pub const WHY_BELOW: u32 = 2;
pub const WHY_ABOVE: u32 = 3;
pub const WHY_PARTS: u32 = 4;

pub const MIXED: u32 = 1;
pub const DEB: u32 = 2;
pub const RPM: u32 = 3;
pub const PYPI: u32 = 4;
pub const SEMVER: u32 = 5;
pub const GEM: u32 = 6;

pub const WRONG_EMPTY: u32 = 1;
pub const WRONG_AFTER_HYPHEN: u32 = 2;
pub const WRONG_AFTER_PLUS: u32 = 3;
pub const WRONG_AFTER_DOT: u32 = 4;
pub const WRONG_AFTER_COLON: u32 = 5;
pub const WRONG_AFTER_UNDERSCORE: u32 = 6;
pub const WRONG_AFTER_TILDE: u32 = 7;
pub const WRONG_AFTER_EXCLAMATION: u32 = 8;
pub const WRONG_UNFINISHED: u32 = 9;
pub const WRONG_BLANK: u32 = 10;
pub const WRONG_CONTROL: u32 = 11;
pub const WRONG_NOT_ASCII: u32 = 12;
pub const WRONG_EMPTY_PART: u32 = 13;
pub const WRONG_LEADING_ZERO: u32 = 14;
pub const WRONG_OTHER: u32 = 15;
pub const WRONG_LATE_COLON: u32 = 16;

pub const SET_NO_MEMBER: u32 = 1;
pub const SET_NO_VERSION: u32 = 2;
pub const SET_NO_OPERATOR: u32 = 3;
pub const SET_ONE_BAR: u32 = 4;
pub const SET_NOT_VERSION: u32 = 5;
pub const SET_STAR: u32 = 6;
pub const SET_NOT_BARE: u32 = 7;
pub const SET_NO_PARTS: u32 = 8;
pub const SET_LETTER_V: u32 = 9;
pub const SET_PART_X: u32 = 10;
pub const SET_NO_DIGIT: u32 = 11;
pub const SET_NOT_DOUBLED: u32 = 12;

extern "C" {
    fn versions_compare(scheme: u32, a: *const c_char, a_len: usize, b: *const c_char, b_len: usize, order: *mut i32) -> c_int;
    fn versions_has(scheme: u32, text: *const c_char, text_len: usize, has: *mut u8) -> c_int;
    fn versions_wrong(scheme: u32, text: *const c_char, text_len: usize, place: *mut usize, reason: *mut u32) -> c_int;
    fn versions_wrong_text(scheme: u32, text: *const c_char, text_len: usize, why: *mut c_char, room: usize, why_len: *mut usize) -> c_int;
    fn versions_key(scheme: u32, text: *const c_char, text_len: usize, key: *mut u8, room: usize, key_len: *mut usize) -> c_int;
    fn versions_key_bound(scheme: u32, text_len: usize, bound: *mut usize) -> c_int;
    fn versions_keys(scheme: u32, texts: *const c_char, texts_len: usize, offsets: *const i64, offsets_len: usize, keys: *mut u8, room: usize, key_offsets: *mut i64, key_offsets_len: usize) -> c_int;
    fn versions_sort(scheme: u32, texts: *const c_char, texts_len: usize, offsets: *const i64, offsets_len: usize, keys: *mut u8, room: usize, key_offsets: *mut i64, key_offsets_len: usize, order: *mut u64, order_len: usize) -> c_int;
    fn versions_scheme(name: *const c_char, name_len: usize, scheme: *mut u32) -> c_int;
    fn versions_scheme_name(scheme: u32, name: *mut c_char, room: usize, name_len: *mut usize) -> c_int;
    fn versions_set(scheme: u32, text: *const c_char, text_len: usize, form: *mut u8, room: usize, form_len: *mut usize) -> c_int;
    fn versions_set_bound(scheme: u32, text: *const c_char, text_len: usize, bound: *mut usize) -> c_int;
    fn versions_set_wrong(scheme: u32, text: *const c_char, text_len: usize, place: *mut usize, reason: *mut u32) -> c_int;
    fn versions_set_wrong_text(scheme: u32, text: *const c_char, text_len: usize, why: *mut c_char, room: usize, why_len: *mut usize) -> c_int;
    fn versions_set_of_version(scheme: u32, text: *const c_char, text_len: usize, form: *mut u8, room: usize, form_len: *mut usize) -> c_int;
    fn versions_set_scheme(form: *const u8, form_len: usize, scheme: *mut u32) -> c_int;
    fn versions_set_has(form: *const u8, form_len: usize, text: *const c_char, text_len: usize, has: *mut u8) -> c_int;
    fn versions_set_has_all(form: *const u8, form_len: usize, texts: *const c_char, texts_len: usize, offsets: *const i64, offsets_len: usize, answers: *mut u8, answers_len: usize) -> c_int;
    fn versions_set_and(one: *const u8, one_len: usize, other: *const u8, other_len: usize, form: *mut u8, room: usize, form_len: *mut usize) -> c_int;
    fn versions_set_or(one: *const u8, one_len: usize, other: *const u8, other_len: usize, form: *mut u8, room: usize, form_len: *mut usize) -> c_int;
    fn versions_set_not(set: *const u8, set_len: usize, form: *mut u8, room: usize, form_len: *mut usize) -> c_int;
    fn versions_set_part_of(one: *const u8, one_len: usize, other: *const u8, other_len: usize, is_part: *mut u8) -> c_int;
    fn versions_set_meets(one: *const u8, one_len: usize, other: *const u8, other_len: usize, meet: *mut u8) -> c_int;
    fn versions_set_count(form: *const u8, form_len: usize, count: *mut usize) -> c_int;
    fn versions_set_interval(form: *const u8, form_len: usize, place: usize, low: *mut usize, low_end: *mut usize, high: *mut usize, high_end: *mut usize) -> c_int;
    fn versions_kind(text: *const c_char, text_len: usize) -> c_int;
    fn versions_compare_total(a: *const c_char, a_len: usize, b: *const c_char, b_len: usize, order: *mut i32) -> c_int;
    fn versions_parse(text: *const c_char, text_len: usize, kind: *mut u8, key: *mut u8, room: usize, key_len: *mut usize) -> c_int;
    fn versions_matches(list: *const c_char, list_len: usize, text: *const c_char, text_len: usize, matches: *mut u8) -> c_int;
    fn versions_wrong_member(list: *const c_char, list_len: usize, start: *mut usize, end: *mut usize) -> c_int;
    fn versions_range(list: *const c_char, list_len: usize, low: *mut u8, low_room: usize, low_len: *mut usize, high: *mut u8, high_room: usize, high_len: *mut usize, flags: *mut u32) -> c_int;
    fn versions_inexact(list: *const c_char, list_len: usize, members: *mut c_char, room: usize, members_len: *mut usize) -> c_int;
    fn versions_in_range(text: *const c_char, text_len: usize, low: *const u8, low_len: usize, high: *const u8, high_len: usize, flags: u32, is_in: *mut u8) -> c_int;
    fn versions_match_in_range(text: *const c_char, text_len: usize, low: *const u8, low_len: usize, high: *const u8, high_len: usize, flags: u32, members: *const c_char, members_len: usize, matches: *mut u8) -> c_int;
    fn versions_nth(text: *const c_char, text_len: usize, n: usize, number: *mut u32) -> c_int;
    fn versions_epoch(text: *const c_char, text_len: usize, epoch: *mut u64) -> c_int;
    fn versions_field(text: *const c_char, text_len: usize, field: u32, start: *mut usize, end: *mut usize) -> c_int;
    fn versions_is_prerelease(text: *const c_char, text_len: usize, is_prerelease: *mut u8) -> c_int;
    fn versions_in_tag(tag: *const c_char, tag_len: usize, start: *mut usize) -> c_int;
    fn versions_after_prefix(prefix: *const c_char, prefix_len: usize, tag: *const c_char, tag_len: usize, start: *mut usize) -> c_int;
    fn versions_stability(text: *const c_char, text_len: usize) -> c_int;
    fn versions_difference(a: *const c_char, a_len: usize, b: *const c_char, b_len: usize, difference: *mut u32, part: *mut usize) -> c_int;
    fn versions_next(text: *const c_char, text_len: usize, place: usize, next: *mut c_char, room: usize, next_len: *mut usize) -> c_int;
    fn versions_next_release(text: *const c_char, text_len: usize, next: *mut c_char, room: usize, next_len: *mut usize) -> c_int;
    fn versions_next_pre(text: *const c_char, text_len: usize, word: *const c_char, word_len: usize, next: *mut c_char, room: usize, next_len: *mut usize) -> c_int;
    fn versions_why_not(list: *const c_char, list_len: usize, text: *const c_char, text_len: usize, start: *mut usize, end: *mut usize, why: *mut u32) -> c_int;
    fn versions_why_text(list: *const c_char, list_len: usize, text: *const c_char, text_len: usize, why: *mut c_char, room: usize, why_len: *mut usize) -> c_int;
    fn versions_conflict(list: *const c_char, list_len: usize, start: *mut usize, end: *mut usize, other_start: *mut usize, other_end: *mut usize) -> c_int;
    fn versions_kinds(texts: *const c_char, texts_len: usize, offsets: *const i64, offsets_len: usize, kinds: *mut u8, kinds_len: usize) -> c_int;
    fn versions_in_tags(texts: *const c_char, texts_len: usize, offsets: *const i64, offsets_len: usize, starts: *mut i64, starts_len: usize) -> c_int;
    fn versions_stabilities(texts: *const c_char, texts_len: usize, offsets: *const i64, offsets_len: usize, stabilities: *mut u8, stabilities_len: usize) -> c_int;
    fn versions_newest(texts: *const c_char, texts_len: usize, offsets: *const i64, offsets_len: usize, list: *const c_char, list_len: usize, least: u32, flags: u32, place: *mut usize) -> c_int;
    fn versions_match_all(list: *const c_char, list_len: usize, texts: *const c_char, texts_len: usize, offsets: *const i64, offsets_len: usize, matches: *mut u8, matches_len: usize) -> c_int;
    fn versions_in_range_all(texts: *const c_char, texts_len: usize, offsets: *const i64, offsets_len: usize, low: *const u8, low_len: usize, high: *const u8, high_len: usize, flags: u32, answers: *mut u8, answers_len: usize) -> c_int;
    fn versions_status_text(status: c_int) -> *const c_char;
    fn versions_version() -> *const c_char;
}

// SAFETY of the calls below: each pointer to an array is passed with the length of that array, and each other
// pointer is to one value. What is written overlaps with nothing, as it is borrowed mutably. The library refuses
// offsets that leave their texts.

#[inline]
pub fn compare(scheme: u32, a: &str, b: &str) -> Called<i32> {
    let mut order = 0;
    let status = unsafe { versions_compare(scheme, a.as_ptr().cast(), a.len(), b.as_ptr().cast(), b.len(), &mut order) };
    Called { call: "versions_compare", status, value: order }
}

#[inline]
pub fn has(scheme: u32, text: &str) -> Called<u8> {
    let mut has = 0;
    let status = unsafe { versions_has(scheme, text.as_ptr().cast(), text.len(), &mut has) };
    Called { call: "versions_has", status, value: has }
}

#[inline]
pub fn wrong(scheme: u32, text: &str) -> Called<(usize, u32)> {
    let (mut place, mut reason) = (0, 0);
    let status = unsafe { versions_wrong(scheme, text.as_ptr().cast(), text.len(), &mut place, &mut reason) };
    Called { call: "versions_wrong", status, value: (place, reason) }
}

#[inline]
pub fn wrong_text(scheme: u32, text: &str, why: &mut [u8]) -> Called<usize> {
    let mut why_len = 0;
    let status = unsafe { versions_wrong_text(scheme, text.as_ptr().cast(), text.len(), why.as_mut_ptr().cast(), why.len(), &mut why_len) };
    Called { call: "versions_wrong_text", status, value: why_len }
}

#[inline]
pub fn key(scheme: u32, text: &str, key: &mut [u8]) -> Called<usize> {
    let mut key_len = 0;
    let status = unsafe { versions_key(scheme, text.as_ptr().cast(), text.len(), key.as_mut_ptr(), key.len(), &mut key_len) };
    Called { call: "versions_key", status, value: key_len }
}

#[inline]
pub fn key_bound(scheme: u32, text_len: usize) -> Called<usize> {
    let mut bound = 0;
    let status = unsafe { versions_key_bound(scheme, text_len, &mut bound) };
    Called { call: "versions_key_bound", status, value: bound }
}

#[inline]
pub fn keys(scheme: u32, texts: &str, offsets: &[i64], keys: &mut [u8], key_offsets: &mut [i64]) -> Called<()> {
    let status = unsafe { versions_keys(scheme, texts.as_ptr().cast(), texts.len(), offsets.as_ptr(), offsets.len(), keys.as_mut_ptr(), keys.len(), key_offsets.as_mut_ptr(), key_offsets.len()) };
    Called { call: "versions_keys", status, value: () }
}

#[inline]
pub fn sort(scheme: u32, texts: &str, offsets: &[i64], keys: &mut [u8], key_offsets: &mut [i64], order: &mut [u64]) -> Called<()> {
    let status = unsafe { versions_sort(scheme, texts.as_ptr().cast(), texts.len(), offsets.as_ptr(), offsets.len(), keys.as_mut_ptr(), keys.len(), key_offsets.as_mut_ptr(), key_offsets.len(), order.as_mut_ptr(), order.len()) };
    Called { call: "versions_sort", status, value: () }
}

#[inline]
pub fn scheme(name: &str) -> Called<u32> {
    let mut scheme = 0;
    let status = unsafe { versions_scheme(name.as_ptr().cast(), name.len(), &mut scheme) };
    Called { call: "versions_scheme", status, value: scheme }
}

#[inline]
pub fn scheme_name(scheme: u32, name: &mut [u8]) -> Called<usize> {
    let mut name_len = 0;
    let status = unsafe { versions_scheme_name(scheme, name.as_mut_ptr().cast(), name.len(), &mut name_len) };
    Called { call: "versions_scheme_name", status, value: name_len }
}

#[inline]
pub fn set(scheme: u32, text: &str, form: &mut [u8]) -> Called<usize> {
    let mut form_len = 0;
    let status = unsafe { versions_set(scheme, text.as_ptr().cast(), text.len(), form.as_mut_ptr(), form.len(), &mut form_len) };
    Called { call: "versions_set", status, value: form_len }
}

#[inline]
pub fn set_bound(scheme: u32, text: &str) -> Called<usize> {
    let mut bound = 0;
    let status = unsafe { versions_set_bound(scheme, text.as_ptr().cast(), text.len(), &mut bound) };
    Called { call: "versions_set_bound", status, value: bound }
}

#[inline]
pub fn set_wrong(scheme: u32, text: &str) -> Called<(usize, u32)> {
    let (mut place, mut reason) = (0, 0);
    let status = unsafe { versions_set_wrong(scheme, text.as_ptr().cast(), text.len(), &mut place, &mut reason) };
    Called { call: "versions_set_wrong", status, value: (place, reason) }
}

#[inline]
pub fn set_wrong_text(scheme: u32, text: &str, why: &mut [u8]) -> Called<usize> {
    let mut why_len = 0;
    let status = unsafe { versions_set_wrong_text(scheme, text.as_ptr().cast(), text.len(), why.as_mut_ptr().cast(), why.len(), &mut why_len) };
    Called { call: "versions_set_wrong_text", status, value: why_len }
}

#[inline]
pub fn set_of_version(scheme: u32, text: &str, form: &mut [u8]) -> Called<usize> {
    let mut form_len = 0;
    let status = unsafe { versions_set_of_version(scheme, text.as_ptr().cast(), text.len(), form.as_mut_ptr(), form.len(), &mut form_len) };
    Called { call: "versions_set_of_version", status, value: form_len }
}

#[inline]
pub fn set_scheme(form: &[u8]) -> Called<u32> {
    let mut scheme = 0;
    let status = unsafe { versions_set_scheme(form.as_ptr(), form.len(), &mut scheme) };
    Called { call: "versions_set_scheme", status, value: scheme }
}

#[inline]
pub fn set_has(form: &[u8], text: &str) -> Called<u8> {
    let mut has = 0;
    let status = unsafe { versions_set_has(form.as_ptr(), form.len(), text.as_ptr().cast(), text.len(), &mut has) };
    Called { call: "versions_set_has", status, value: has }
}

#[inline]
pub fn set_has_all(form: &[u8], texts: &str, offsets: &[i64], answers: &mut [u8]) -> Called<()> {
    let status = unsafe { versions_set_has_all(form.as_ptr(), form.len(), texts.as_ptr().cast(), texts.len(), offsets.as_ptr(), offsets.len(), answers.as_mut_ptr(), answers.len()) };
    Called { call: "versions_set_has_all", status, value: () }
}

#[inline]
pub fn set_and(one: &[u8], other: &[u8], form: &mut [u8]) -> Called<usize> {
    let mut form_len = 0;
    let status = unsafe { versions_set_and(one.as_ptr(), one.len(), other.as_ptr(), other.len(), form.as_mut_ptr(), form.len(), &mut form_len) };
    Called { call: "versions_set_and", status, value: form_len }
}

#[inline]
pub fn set_or(one: &[u8], other: &[u8], form: &mut [u8]) -> Called<usize> {
    let mut form_len = 0;
    let status = unsafe { versions_set_or(one.as_ptr(), one.len(), other.as_ptr(), other.len(), form.as_mut_ptr(), form.len(), &mut form_len) };
    Called { call: "versions_set_or", status, value: form_len }
}

#[inline]
pub fn set_not(set: &[u8], form: &mut [u8]) -> Called<usize> {
    let mut form_len = 0;
    let status = unsafe { versions_set_not(set.as_ptr(), set.len(), form.as_mut_ptr(), form.len(), &mut form_len) };
    Called { call: "versions_set_not", status, value: form_len }
}

#[inline]
pub fn set_part_of(one: &[u8], other: &[u8]) -> Called<u8> {
    let mut is_part = 0;
    let status = unsafe { versions_set_part_of(one.as_ptr(), one.len(), other.as_ptr(), other.len(), &mut is_part) };
    Called { call: "versions_set_part_of", status, value: is_part }
}

#[inline]
pub fn set_meets(one: &[u8], other: &[u8]) -> Called<u8> {
    let mut meet = 0;
    let status = unsafe { versions_set_meets(one.as_ptr(), one.len(), other.as_ptr(), other.len(), &mut meet) };
    Called { call: "versions_set_meets", status, value: meet }
}

#[inline]
pub fn set_count(form: &[u8]) -> Called<usize> {
    let mut count = 0;
    let status = unsafe { versions_set_count(form.as_ptr(), form.len(), &mut count) };
    Called { call: "versions_set_count", status, value: count }
}

#[inline]
pub fn set_interval(form: &[u8], place: usize) -> Called<(usize, usize, usize, usize)> {
    let (mut low, mut low_end, mut high, mut high_end) = (0, 0, 0, 0);
    let status = unsafe { versions_set_interval(form.as_ptr(), form.len(), place, &mut low, &mut low_end, &mut high, &mut high_end) };
    Called { call: "versions_set_interval", status, value: (low, low_end, high, high_end) }
}

#[inline]
pub fn kind(text: &str) -> c_int {
    unsafe { versions_kind(text.as_ptr().cast(), text.len()) }
}

#[inline]
pub fn compare_total(a: &str, b: &str) -> Called<i32> {
    let mut order = 0;
    let status = unsafe { versions_compare_total(a.as_ptr().cast(), a.len(), b.as_ptr().cast(), b.len(), &mut order) };
    Called { call: "versions_compare_total", status, value: order }
}

#[inline]
pub fn parse(text: &str, key: &mut [u8]) -> Called<(u8, usize)> {
    let (mut kind, mut key_len) = (0, 0);
    let status = unsafe { versions_parse(text.as_ptr().cast(), text.len(), &mut kind, key.as_mut_ptr(), key.len(), &mut key_len) };
    Called { call: "versions_parse", status, value: (kind, key_len) }
}

#[inline]
pub fn matches(list: &str, text: &str) -> Called<u8> {
    let mut matches = 0;
    let status = unsafe { versions_matches(list.as_ptr().cast(), list.len(), text.as_ptr().cast(), text.len(), &mut matches) };
    Called { call: "versions_matches", status, value: matches }
}

#[inline]
pub fn wrong_member(list: &str) -> Called<(usize, usize)> {
    let (mut start, mut end) = (0, 0);
    let status = unsafe { versions_wrong_member(list.as_ptr().cast(), list.len(), &mut start, &mut end) };
    Called { call: "versions_wrong_member", status, value: (start, end) }
}

#[inline]
pub fn range(list: &str, low: &mut [u8], high: &mut [u8]) -> Called<(usize, usize, u32)> {
    let (mut low_len, mut high_len, mut flags) = (0, 0, 0);
    let status = unsafe { versions_range(list.as_ptr().cast(), list.len(), low.as_mut_ptr(), low.len(), &mut low_len, high.as_mut_ptr(), high.len(), &mut high_len, &mut flags) };
    Called { call: "versions_range", status, value: (low_len, high_len, flags) }
}

#[inline]
pub fn inexact(list: &str, members: &mut [u8]) -> Called<usize> {
    let mut members_len = 0;
    let status = unsafe { versions_inexact(list.as_ptr().cast(), list.len(), members.as_mut_ptr().cast(), members.len(), &mut members_len) };
    Called { call: "versions_inexact", status, value: members_len }
}

#[inline]
pub fn in_range(text: &str, low: &[u8], high: &[u8], flags: u32) -> Called<u8> {
    let mut is_in = 0;
    let status = unsafe { versions_in_range(text.as_ptr().cast(), text.len(), low.as_ptr(), low.len(), high.as_ptr(), high.len(), flags, &mut is_in) };
    Called { call: "versions_in_range", status, value: is_in }
}

#[inline]
pub fn match_in_range(text: &str, low: &[u8], high: &[u8], flags: u32, members: &str) -> Called<u8> {
    let mut matches = 0;
    let status = unsafe { versions_match_in_range(text.as_ptr().cast(), text.len(), low.as_ptr(), low.len(), high.as_ptr(), high.len(), flags, members.as_ptr().cast(), members.len(), &mut matches) };
    Called { call: "versions_match_in_range", status, value: matches }
}

#[inline]
pub fn nth(text: &str, n: usize) -> Called<u32> {
    let mut number = 0;
    let status = unsafe { versions_nth(text.as_ptr().cast(), text.len(), n, &mut number) };
    Called { call: "versions_nth", status, value: number }
}

#[inline]
pub fn epoch(text: &str) -> Called<u64> {
    let mut epoch = 0;
    let status = unsafe { versions_epoch(text.as_ptr().cast(), text.len(), &mut epoch) };
    Called { call: "versions_epoch", status, value: epoch }
}

#[inline]
pub fn field(text: &str, field: u32) -> Called<(usize, usize)> {
    let (mut start, mut end) = (0, 0);
    let status = unsafe { versions_field(text.as_ptr().cast(), text.len(), field, &mut start, &mut end) };
    Called { call: "versions_field", status, value: (start, end) }
}

#[inline]
pub fn is_prerelease(text: &str) -> Called<u8> {
    let mut is_prerelease = 0;
    let status = unsafe { versions_is_prerelease(text.as_ptr().cast(), text.len(), &mut is_prerelease) };
    Called { call: "versions_is_prerelease", status, value: is_prerelease }
}

#[inline]
pub fn in_tag(tag: &str) -> Called<usize> {
    let mut start = 0;
    let status = unsafe { versions_in_tag(tag.as_ptr().cast(), tag.len(), &mut start) };
    Called { call: "versions_in_tag", status, value: start }
}

#[inline]
pub fn after_prefix(prefix: &str, tag: &str) -> Called<usize> {
    let mut start = 0;
    let status = unsafe { versions_after_prefix(prefix.as_ptr().cast(), prefix.len(), tag.as_ptr().cast(), tag.len(), &mut start) };
    Called { call: "versions_after_prefix", status, value: start }
}

#[inline]
pub fn stability(text: &str) -> c_int {
    unsafe { versions_stability(text.as_ptr().cast(), text.len()) }
}

#[inline]
pub fn difference(a: &str, b: &str) -> Called<(u32, usize)> {
    let (mut difference, mut part) = (0, 0);
    let status = unsafe { versions_difference(a.as_ptr().cast(), a.len(), b.as_ptr().cast(), b.len(), &mut difference, &mut part) };
    Called { call: "versions_difference", status, value: (difference, part) }
}

#[inline]
pub fn next(text: &str, place: usize, next: &mut [u8]) -> Called<usize> {
    let mut next_len = 0;
    let status = unsafe { versions_next(text.as_ptr().cast(), text.len(), place, next.as_mut_ptr().cast(), next.len(), &mut next_len) };
    Called { call: "versions_next", status, value: next_len }
}

#[inline]
pub fn next_release(text: &str, next: &mut [u8]) -> Called<usize> {
    let mut next_len = 0;
    let status = unsafe { versions_next_release(text.as_ptr().cast(), text.len(), next.as_mut_ptr().cast(), next.len(), &mut next_len) };
    Called { call: "versions_next_release", status, value: next_len }
}

#[inline]
pub fn next_pre(text: &str, word: &str, next: &mut [u8]) -> Called<usize> {
    let mut next_len = 0;
    let status = unsafe { versions_next_pre(text.as_ptr().cast(), text.len(), word.as_ptr().cast(), word.len(), next.as_mut_ptr().cast(), next.len(), &mut next_len) };
    Called { call: "versions_next_pre", status, value: next_len }
}

#[inline]
pub fn why_not(list: &str, text: &str) -> Called<(usize, usize, u32)> {
    let (mut start, mut end, mut why) = (0, 0, 0);
    let status = unsafe { versions_why_not(list.as_ptr().cast(), list.len(), text.as_ptr().cast(), text.len(), &mut start, &mut end, &mut why) };
    Called { call: "versions_why_not", status, value: (start, end, why) }
}

#[inline]
pub fn why_text(list: &str, text: &str, why: &mut [u8]) -> Called<usize> {
    let mut why_len = 0;
    let status = unsafe { versions_why_text(list.as_ptr().cast(), list.len(), text.as_ptr().cast(), text.len(), why.as_mut_ptr().cast(), why.len(), &mut why_len) };
    Called { call: "versions_why_text", status, value: why_len }
}

#[inline]
pub fn conflict(list: &str) -> Called<(usize, usize, usize, usize)> {
    let (mut start, mut end, mut other_start, mut other_end) = (0, 0, 0, 0);
    let status = unsafe { versions_conflict(list.as_ptr().cast(), list.len(), &mut start, &mut end, &mut other_start, &mut other_end) };
    Called { call: "versions_conflict", status, value: (start, end, other_start, other_end) }
}

#[inline]
pub fn kinds(texts: &str, offsets: &[i64], kinds: &mut [u8]) -> Called<()> {
    let status = unsafe { versions_kinds(texts.as_ptr().cast(), texts.len(), offsets.as_ptr(), offsets.len(), kinds.as_mut_ptr(), kinds.len()) };
    Called { call: "versions_kinds", status, value: () }
}

#[inline]
pub fn in_tags(texts: &str, offsets: &[i64], starts: &mut [i64]) -> Called<()> {
    let status = unsafe { versions_in_tags(texts.as_ptr().cast(), texts.len(), offsets.as_ptr(), offsets.len(), starts.as_mut_ptr(), starts.len()) };
    Called { call: "versions_in_tags", status, value: () }
}

#[inline]
pub fn stabilities(texts: &str, offsets: &[i64], stabilities: &mut [u8]) -> Called<()> {
    let status = unsafe { versions_stabilities(texts.as_ptr().cast(), texts.len(), offsets.as_ptr(), offsets.len(), stabilities.as_mut_ptr(), stabilities.len()) };
    Called { call: "versions_stabilities", status, value: () }
}

#[inline]
pub fn newest(texts: &str, offsets: &[i64], list: &str, least: u32, flags: u32) -> Called<usize> {
    let mut place = 0;
    let status = unsafe { versions_newest(texts.as_ptr().cast(), texts.len(), offsets.as_ptr(), offsets.len(), list.as_ptr().cast(), list.len(), least, flags, &mut place) };
    Called { call: "versions_newest", status, value: place }
}

#[inline]
pub fn match_all(list: &str, texts: &str, offsets: &[i64], matches: &mut [u8]) -> Called<()> {
    let status = unsafe { versions_match_all(list.as_ptr().cast(), list.len(), texts.as_ptr().cast(), texts.len(), offsets.as_ptr(), offsets.len(), matches.as_mut_ptr(), matches.len()) };
    Called { call: "versions_match_all", status, value: () }
}

#[inline]
pub fn in_range_all(texts: &str, offsets: &[i64], low: &[u8], high: &[u8], flags: u32, answers: &mut [u8]) -> Called<()> {
    let status = unsafe { versions_in_range_all(texts.as_ptr().cast(), texts.len(), offsets.as_ptr(), offsets.len(), low.as_ptr(), low.len(), high.as_ptr(), high.len(), flags, answers.as_mut_ptr(), answers.len()) };
    Called { call: "versions_in_range_all", status, value: () }
}
