//! The calls about the versions of a scheme.

use std::cmp::Ordering;

use super::{filled, unexpected, Texts, ON_STACK};
use crate::bytes::Bytes;
use crate::declarations::{self as c, NO_SCHEME, NO_VERSION};
use crate::Scheme;

/// How many bytes are enough for each text of `versions_wrong_text`.
const PHRASE: usize = 100;

/// The scheme that has a name; `None` where none has.
pub fn named(name: &str) -> Option<Scheme> {
    let found = c::scheme(name).unless(NO_SCHEME)?;
    match Scheme::ALL.iter().find(|it| it.number() == found) {
        Some(scheme) => Some(*scheme),
        None => unexpected("versions_scheme", "scheme", found),
    }
}

/// Whether a text is a version.
pub fn is_version(scheme: Scheme, text: &str) -> bool {
    c::has(scheme.number(), text).flag().ok()
}

/// How far a text could become a version, and why no further. Panics where the text is a version.
pub fn wrong(scheme: Scheme, text: &str) -> (usize, String) {
    let (place, _) = c::wrong(scheme.number(), text).ok();
    if !text.is_char_boundary(place) {
        unexpected("versions_wrong", "place", place);
    }
    let why = filled(PHRASE, |room| c::wrong_text(scheme.number(), text, room));
    (place, why.text().ok())
}

/// How two versions compare; the error is the first text that is not a version.
pub fn compare<'t>(scheme: Scheme, a: &'t str, b: &'t str) -> Result<Ordering, &'t str> {
    c::compare(scheme.number(), a, b).order(a, b)
}

/// How many bytes are enough for the sort key of a text of a length.
fn key_bound(scheme: Scheme, length: usize) -> usize {
    c::key_bound(scheme.number(), length).ok()
}

/// The sort key of a text; `None` where it is not a version.
pub fn key(scheme: Scheme, text: &str) -> Option<Bytes> {
    let bound = key_bound(scheme, text.len());
    if bound <= ON_STACK {
        let mut room = [0; ON_STACK];
        let length = key_into(scheme, text, &mut room)?;
        Some(Bytes::copied(&mut room, length))
    } else {
        let mut room = vec![0; bound];
        let length = key_into(scheme, text, &mut room)?;
        Some(Bytes::taken(room, length))
    }
}

/// The length of the sort key of a text, which is written to the beginning of `room`. That has to
/// have `key_bound` bytes.
fn key_into(scheme: Scheme, text: &str, room: &mut [u8]) -> Option<usize> {
    let asked = c::key(scheme.number(), text, room);
    asked.within(room.len()).unless(NO_VERSION)
}

/// How many bytes are enough for the sort keys of all texts: the sum of what is for each, which is
/// linear.
fn key_room(scheme: Scheme, texts: &Texts) -> usize {
    let least = key_bound(scheme, 0);
    key_bound(scheme, texts.bytes.len()) - least + texts.count() * least
}

/// The sort keys of the texts, one after another, and their offsets, one more than texts.
pub fn keys(scheme: Scheme, texts: &Texts) -> (Vec<u8>, Vec<i64>) {
    let Texts { bytes, offsets } = texts;
    let mut keys = vec![0; key_room(scheme, texts)];
    let mut ends = vec![0; offsets.len()];
    c::keys(scheme.number(), bytes, offsets, &mut keys, &mut ends).ok();
    keys.truncate(ends[texts.count()] as usize);
    keys.shrink_to_fit();
    (keys, ends)
}

/// The places of the texts in the order of their versions, texts that are not versions last.
pub fn order(scheme: Scheme, texts: &Texts) -> Vec<usize> {
    let Texts { bytes, offsets } = texts;
    let mut keys = vec![0; key_room(scheme, texts)];
    let mut ends = vec![0; offsets.len()];
    let mut order = vec![0; texts.count()];
    c::sort(
        scheme.number(),
        bytes,
        offsets,
        &mut keys,
        &mut ends,
        &mut order,
    )
    .ok();
    order.into_iter().map(|place| place as usize).collect()
}
