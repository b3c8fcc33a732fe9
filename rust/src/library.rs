//! The library for C: what its calls answer, as values of this crate.

use std::cmp::Ordering;
use std::ops::Range;
use std::os::raw::c_int;

use crate::bytes::{Bytes, WITHIN};
use crate::declarations::{self as c, *};
use crate::range::{KeyRange, Kinds};
use crate::{Difference, Kind, Reason, Stability};

mod called;
pub mod schemes;
pub mod sets;

pub use called::Called;
use called::{answers, filled, fitting, piece, unexpected};

/// How many bytes of room for a key are made on the stack, which is enough for those of most texts.
const ON_STACK: usize = 128;
const _: () = assert!(2 * WITHIN <= ON_STACK);

/// The fields that are pieces of the text.
#[derive(Clone, Copy)]
#[repr(u32)]
pub enum Field {
    PreRelease = FIELD_PRE_RELEASE,
    Release = FIELD_RELEASE,
    Metadata = FIELD_METADATA,
}

/// Many texts as the library takes them: one after another in `bytes`, the text of place i from
/// `offsets[i]` up to `offsets[i + 1]`.
pub struct Texts {
    bytes: String,
    offsets: Vec<i64>,
}

impl Texts {
    /// Copies the texts.
    pub fn new<T: AsRef<str>>(texts: &[T]) -> Texts {
        let mut bytes = String::with_capacity(texts.iter().map(|text| text.as_ref().len()).sum());
        let mut offsets = vec![0; texts.len() + 1];
        for (text, end) in texts.iter().zip(&mut offsets[1..]) {
            bytes.push_str(text.as_ref());
            *end = bytes.len() as i64; // a String has at most i64::MAX bytes
        }
        Texts { bytes, offsets }
    }

    fn count(&self) -> usize {
        self.offsets.len() - 1
    }
}

/// The kind of a text; `None` where it is not a version.
pub fn kind(text: &str) -> Option<Kind> {
    kind_of(c::kind(text))
}

/// How two versions compare in the total order; the error is the first text that is not a version.
pub fn compare_total<'t>(a: &'t str, b: &'t str) -> Result<Ordering, &'t str> {
    c::compare_total(a, b).order(a, b)
}

/// The kind and the sort key of a text, by one scan; `None` where it is not a version.
#[inline]
pub fn parse(text: &str) -> Option<(Kind, Bytes)> {
    let bound = key_bound(text);
    if bound <= ON_STACK {
        let mut room = [0; ON_STACK];
        let (kind, length) = parse_into(text, &mut room)?;
        Some((kind, Bytes::copied(&mut room, length)))
    } else {
        let mut room = vec![0; bound];
        let (kind, length) = parse_into(text, &mut room)?;
        Some((kind, Bytes::taken(room, length)))
    }
}

/// How many bytes are enough for the sort key of a text, and for each bound of a list.
#[inline]
fn key_bound(text: &str) -> usize {
    text.len().saturating_mul(3).saturating_add(5)
}

/// The kind of a text, and the length of its sort key, which is written to the beginning of `room`.
/// That has to have `key_bound` bytes.
#[inline]
fn parse_into(text: &str, room: &mut [u8]) -> Option<(Kind, usize)> {
    let (number, length) = c::parse(text, room).unless(NO_VERSION)?;
    match kind_of_number(number.into()) {
        Some(kind) => Some((kind, fitting("versions_parse", length, room.len()))),
        None => unexpected("versions_parse", "kind", number),
    }
}

/// The range of sort keys that a list of requirements asks for; `None` where the text is not one.
pub fn range(list: &str) -> Option<KeyRange> {
    let bound = key_bound(list);
    if bound <= ON_STACK {
        let (mut low, mut high) = ([0; ON_STACK], [0; ON_STACK]);
        let (low_length, high_length, flags) = range_into(list, &mut low, &mut high)?;
        Some(range_of(
            Bytes::copied(&mut low, low_length),
            Bytes::copied(&mut high, high_length),
            flags,
        ))
    } else {
        let (mut low, mut high) = (vec![0; bound], vec![0; bound]);
        let (low_length, high_length, flags) = range_into(list, &mut low, &mut high)?;
        Some(range_of(
            Bytes::taken(low, low_length),
            Bytes::taken(high, high_length),
            flags,
        ))
    }
}

fn range_of(low: Bytes, high: Bytes, flags: u32) -> KeyRange {
    KeyRange {
        low,
        high: (flags & RANGE_HIGH != 0).then_some(high),
        kinds: Kind::ALL
            .into_iter()
            .filter(|kind| flags & flag(*kind) != 0)
            .fold(Kinds::NONE, Kinds::with),
        is_exact: flags & RANGE_EXACT != 0,
    }
}

/// Writes the bounds of a list to the beginnings of `low` and `high`, and returns their lengths and
/// the flags. Each has to have `key_bound` bytes.
fn range_into(list: &str, low: &mut [u8], high: &mut [u8]) -> Option<(usize, usize, u32)> {
    let (low_length, high_length, flags) = c::range(list, low, high).unless(NO_REQUIREMENTS)?;
    if flags > all_flags() {
        unexpected("versions_range", "sum of flags", flags);
    }
    let low_length = fitting("versions_range", low_length, low.len());
    let high_length = fitting("versions_range", high_length, high.len());
    Some((low_length, high_length, flags))
}

/// Whether a list of requirements, with its range, matches a version; `None` where the text is not a
/// version. Panics where `list` is not a list of requirements, and its range is not exact.
pub fn match_in_range(range: &KeyRange, list: &str, text: &str) -> Option<bool> {
    let (low, high) = (range.low(), range.high().unwrap_or_default());
    let members = if range.is_exact() { "" } else { list };
    let asked = c::match_in_range(text, low, high, flags(range), members);
    asked.flag().unless(NO_VERSION)
}

/// Whether a list of requirements matches a version; `None` where the text is not a version.
/// Panics where `list` is not a list of requirements.
pub fn matches(list: &str, text: &str) -> Option<bool> {
    c::matches(list, text).flag().unless(NO_VERSION)
}

/// Where the first member of a text lies that is not a requirement. Panics where each is one.
pub fn wrong_member(list: &str) -> Range<usize> {
    c::wrong_member(list).piece_of(list).ok()
}

/// The number at a place of a version. Panics where the text is not a version.
pub fn nth(text: &str, n: usize) -> Option<u32> {
    c::nth(text, n).unless(NO_NUMBER)
}

/// The epoch of a version, or the largest `i64` for a larger one. Panics where the text is not a version.
pub fn epoch(text: &str) -> Option<u64> {
    let asked = c::epoch(text);
    match asked.status {
        LARGE_EPOCH => Some(asked.value),
        _ => asked.unless(NO_NUMBER),
    }
}

/// A field of a version, a piece of its text. Panics where the text is not a version.
pub fn field(text: &str, field: Field) -> Option<&str> {
    let (from, to) = c::field(text, field as u32).unless(NO_FIELD)?;
    match text.get(from..to) {
        Some(piece) if !piece.is_empty() => Some(piece),
        _ => unexpected("versions_field", "place", format_args!("{from}..{to}")),
    }
}

/// Whether a version is a strict one with a pre-release. Panics where the text is not a version.
pub fn is_prerelease(text: &str) -> bool {
    c::is_prerelease(text).flag().ok()
}

/// Where the version in a tag begins, which ends with the tag.
pub fn in_tag(tag: &str) -> Option<usize> {
    beginning(c::in_tag(tag), tag)
}

/// Where the version begins that follows a prefix of a tag, and ends with the tag.
pub fn after_prefix(prefix: &str, tag: &str) -> Option<usize> {
    beginning(c::after_prefix(prefix, tag), tag)
}

fn beginning(asked: Called<usize>, tag: &str) -> Option<usize> {
    let call = asked.call;
    let from = asked.unless(NO_VERSION)?;
    match tag.get(from..) {
        Some(rest) if !rest.is_empty() => Some(from),
        _ => unexpected(call, "place", from),
    }
}

/// How stable a version is; `None` where the text is not a version.
pub fn stability(text: &str) -> Option<Stability> {
    stability_of(c::stability(text))
}

/// Where two versions differ first; `None` where one of the texts is not a version.
pub fn difference(a: &str, b: &str) -> Option<Difference> {
    let asked = c::difference(a, b);
    if matches!(asked.status, NO_VERSION_A | NO_VERSION_B | NO_VERSION_AB) {
        return None;
    }
    match asked.ok() {
        (DIFFERENCE_NONE, _) => Some(Difference::Same),
        (DIFFERENCE_TIE, _) => Some(Difference::Tie),
        (DIFFERENCE_EPOCH, _) => Some(Difference::Epoch),
        (DIFFERENCE_PART, part) => Some(Difference::Part(part)),
        (DIFFERENCE_TAIL, _) => Some(Difference::Tail),
        (other, _) => unexpected("versions_difference", "difference", other),
    }
}

/// The text of the version that comes next at a place. Panics where the text is not a version.
pub fn next(text: &str, place: usize) -> Option<String> {
    let asked = filled(text.len() + 1, |room| c::next(text, place, room));
    asked.text().unless(NO_NEXT)
}

/// The same at the last place of its numbers.
pub fn next_release(text: &str) -> Option<String> {
    let asked = filled(text.len() + 1, |room| c::next_release(text, room));
    asked.text().unless(NO_NEXT)
}

/// The text of the pre-release that comes next, of a word, or of the version's own where the word is
/// empty. Panics where the text is not a version.
pub fn next_pre(text: &str, word: &str) -> Option<String> {
    let size = text.len() + word.len() + 4;
    let asked = filled(size, |room| c::next_pre(text, word, room));
    asked.text().unless(NO_NEXT)
}

/// Where the first member of a list lies that does not match a version, and why it doesn't; `None`
/// where each matches. Panics where `list` is not a list of requirements, or the text is not a
/// version.
pub fn why_not(list: &str, text: &str) -> Option<(Range<usize>, Reason)> {
    let (from, to, why) = c::why_not(list, text).unless(ALL_MATCH)?;
    let reason = match why {
        WHY_KIND => Reason::Kind,
        WHY_BELOW => Reason::Below,
        WHY_ABOVE => Reason::Above,
        WHY_PARTS => Reason::Parts,
        _ => unexpected("versions_why_not", "reason", why),
    };
    Some((piece("versions_why_not", list, from, to), reason))
}

/// Why a version does not match a list, in a sentence. Panics where it does match, `list` is not a list
/// of requirements, or the text is not a version.
pub fn why_text(list: &str, text: &str) -> String {
    filled(0, |room| c::why_text(list, text, room)).text().ok()
}

/// Where two members of a list lie that exclude each other; `None` where there are none. Panics where
/// `list` is not a list of requirements.
pub fn conflict(list: &str) -> Option<[Range<usize>; 2]> {
    let (from, to, other_from, other_to) = c::conflict(list).unless(NO_CONFLICT)?;
    Some(
        [(from, to), (other_from, other_to)]
            .map(|(from, to)| piece("versions_conflict", list, from, to)),
    )
}

/// The kind of each text.
pub fn kinds(texts: &Texts) -> Vec<Option<Kind>> {
    let mut kinds = vec![0; texts.count()];
    c::kinds(&texts.bytes, &texts.offsets, &mut kinds).ok();
    kinds
        .into_iter()
        .map(|number| kind_of(number.into()))
        .collect()
}

/// Where in each text the version begins that is in it as in a tag. It ends with the text, and is
/// empty where there is none.
pub fn in_tags(texts: &Texts) -> Vec<usize> {
    let mut starts = vec![0; texts.count()];
    c::in_tags(&texts.bytes, &texts.offsets, &mut starts).ok();
    let pairs = starts.iter().zip(&texts.offsets);
    pairs
        .map(|(start, offset)| (start - offset) as usize)
        .collect()
}

/// How stable each version is; `None` for a text that is not a version.
pub fn stabilities(texts: &Texts) -> Vec<Option<Stability>> {
    let mut stabilities = vec![0; texts.count()];
    c::stabilities(&texts.bytes, &texts.offsets, &mut stabilities).ok();
    stabilities
        .into_iter()
        .map(|number| stability_of(number.into()))
        .collect()
}

/// The place of the newest text that a list matches and that is at least so stable: of all, or of
/// the versions in them as in tags. Panics where `list` is not a list of requirements.
pub fn newest(texts: &Texts, list: &str, least: Stability, are_tags: bool) -> Option<usize> {
    let least = number_of_stability(least) as u32;
    let flags = if are_tags { NEWEST_TAGS } else { 0 };
    let place = c::newest(&texts.bytes, &texts.offsets, list, least, flags).unless(NO_VERSION)?;
    if place >= texts.count() {
        unexpected("versions_newest", "place", place);
    }
    Some(place)
}

/// Whether a list of requirements matches each text; `None` for a text that is not a version.
/// Panics where `list` is not a list of requirements.
pub fn match_all(list: &str, texts: &Texts) -> Vec<Option<bool>> {
    let mut matches = vec![0; texts.count()];
    let asked = c::match_all(list, &texts.bytes, &texts.offsets, &mut matches);
    answers(asked, matches)
}

/// Whether each version is in a range; `None` for a text that is not a version.
pub fn in_range_all(range: &KeyRange, texts: &Texts) -> Vec<Option<bool>> {
    let (low, high) = (range.low(), range.high().unwrap_or_default());
    let mut are_in = vec![0; texts.count()];
    let asked = c::in_range_all(
        &texts.bytes,
        &texts.offsets,
        low,
        high,
        flags(range),
        &mut are_in,
    );
    answers(asked, are_in)
}

/// The kind of a number of `versions_kind`.
fn kind_of(number: c_int) -> Option<Kind> {
    match kind_of_number(number) {
        None if number != 0 => unexpected("versions_kind", "kind", number),
        kind => kind,
    }
}

#[inline]
fn kind_of_number(number: c_int) -> Option<Kind> {
    match number {
        IDEAL => Some(Kind::Ideal),
        GENERAL => Some(Kind::General),
        COMPLEX => Some(Kind::Complex),
        _ => None,
    }
}

/// The stability of a number of `versions_stability`.
fn stability_of(number: c_int) -> Option<Stability> {
    match number {
        0 => None,
        DEV => Some(Stability::Dev),
        ALPHA => Some(Stability::Alpha),
        BETA => Some(Stability::Beta),
        RC => Some(Stability::Rc),
        STABLE => Some(Stability::Stable),
        _ => unexpected("versions_stability", "stability", number),
    }
}

fn number_of_stability(stability: Stability) -> c_int {
    match stability {
        Stability::Dev => DEV,
        Stability::Alpha => ALPHA,
        Stability::Beta => BETA,
        Stability::Rc => RC,
        Stability::Stable => STABLE,
    }
}

/// The flag of a kind in a range.
fn flag(kind: Kind) -> u32 {
    match kind {
        Kind::Ideal => RANGE_IDEAL,
        Kind::General => RANGE_GENERAL,
        Kind::Complex => RANGE_COMPLEX,
    }
}

/// All flags of a range, added.
fn all_flags() -> u32 {
    Kind::ALL.map(flag).iter().sum::<u32>() + RANGE_HIGH + RANGE_EXACT
}

/// The flags of a range, added.
fn flags(range: &KeyRange) -> u32 {
    let kinds = Kind::ALL.into_iter().filter(|kind| range.has_kind(*kind));
    let bounds = if range.high().is_some() {
        RANGE_HIGH
    } else {
        0
    };
    kinds.map(flag).sum::<u32>() + bounds
}
