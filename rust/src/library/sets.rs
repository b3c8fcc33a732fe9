//! The calls about sets of versions. A set is its form: bytes that a call here has returned.

use super::{answers, filled, unexpected, Texts};
use crate::declarations::{self as c, NO_INTERVAL, NO_SET, NO_VERSION};
use crate::Scheme;

/// How many bytes are enough for each sentence of `versions_set_wrong_text`.
const SENTENCE: usize = 100;

/// The form of a set; `None` where the text is not a set.
pub fn form(scheme: Scheme, text: &str) -> Option<Box<[u8]>> {
    let bound = c::set_bound(scheme.number(), text).ok();
    let made = filled(bound, |room| c::set(scheme.number(), text, room));
    made.unless(NO_SET).map(Vec::into_boxed_slice)
}

/// Where the first wrong piece of a text begins, and why it is wrong. Panics where the text is a set.
pub fn wrong(scheme: Scheme, text: &str) -> (usize, String) {
    let (place, _) = c::set_wrong(scheme.number(), text).ok();
    if !text.is_char_boundary(place) {
        unexpected("versions_set_wrong", "place", place);
    }
    let why = filled(SENTENCE, |room| {
        c::set_wrong_text(scheme.number(), text, room)
    });
    (place, why.text().ok())
}

/// The form of the set of what ties with a version. Panics where the text is not a version.
pub fn form_of_version(scheme: Scheme, text: &str) -> Box<[u8]> {
    let made = filled(0, |room| c::set_of_version(scheme.number(), text, room));
    made.ok().into_boxed_slice()
}

/// Whether a version is in a set; `None` where the text is not a version of the set's scheme.
pub fn has(form: &[u8], text: &str) -> Option<bool> {
    c::set_has(form, text).flag().unless(NO_VERSION)
}

/// The same of many texts.
pub fn has_all(form: &[u8], texts: &Texts) -> Vec<Option<bool>> {
    let mut are_in = vec![0; texts.count()];
    let asked = c::set_has_all(form, &texts.bytes, &texts.offsets, &mut are_in);
    answers(asked, are_in)
}

/// The form of what two sets both have. Panics where they are of two schemes.
pub fn and(one: &[u8], other: &[u8]) -> Box<[u8]> {
    let made = filled(one.len() + other.len(), |room| c::set_and(one, other, room));
    made.ok().into_boxed_slice()
}

/// The form of what one of two sets has, or both. Panics where they are of two schemes.
pub fn or(one: &[u8], other: &[u8]) -> Box<[u8]> {
    let made = filled(one.len() + other.len(), |room| c::set_or(one, other, room));
    made.ok().into_boxed_slice()
}

/// The form of all that a set does not have.
pub fn not(form: &[u8]) -> Box<[u8]> {
    let made = filled(form.len() + 17, |room| c::set_not(form, room));
    made.ok().into_boxed_slice()
}

/// Whether each key of a set is in another. Panics where they are of two schemes.
pub fn is_part_of(one: &[u8], other: &[u8]) -> bool {
    c::set_part_of(one, other).flag().ok()
}

/// Whether a key is in two sets. Panics where they are of two schemes.
pub fn meet(one: &[u8], other: &[u8]) -> bool {
    c::set_meets(one, other).flag().ok()
}

/// The ends of the interval at a place: a low one, which is in it, and a high one, which is not, if
/// there is one. `None` where there are fewer intervals.
pub fn interval(form: &[u8], place: usize) -> Option<(&[u8], Option<&[u8]>)> {
    let (low, low_end, high, high_end) = c::set_interval(form, place).unless(NO_INTERVAL)?;
    let end = |from, to| match form.get(from..to) {
        Some(end) => end,
        None => unexpected(
            "versions_set_interval",
            "place",
            format_args!("{from}..{to}"),
        ),
    };
    Some((
        end(low, low_end),
        (high != high_end).then(|| end(high, high_end)),
    ))
}
