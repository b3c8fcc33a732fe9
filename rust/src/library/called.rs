//! What a call of the library answers, with its status.

use std::cmp::Ordering;
use std::fmt::Display;
use std::ops::Range;
use std::os::raw::c_int;

use crate::declarations::{NO_ROOM, NO_VERSION_A, NO_VERSION_AB, NO_VERSION_B, OK};

/// A call, its status, and what it wrote. Where the status is another than `OK`, most calls write
/// nothing.
pub struct Called<T> {
    pub call: &'static str,
    pub status: c_int,
    pub value: T,
}

impl<T> Called<T> {
    /// What the call wrote. Panics where the status is not `OK`.
    #[inline]
    pub fn ok(self) -> T {
        match self.status {
            OK => self.value,
            status => unexpected(self.call, "status", status),
        }
    }

    /// What the call wrote; `None` where the status is one that says that there is nothing.
    #[inline]
    pub fn unless(self, none: c_int) -> Option<T> {
        (self.status != none).then(|| self.ok())
    }

    fn with<U>(self, read: impl FnOnce(&'static str, T) -> U, other: U) -> Called<U> {
        let Called { call, status, .. } = self;
        let value = match status {
            OK => read(call, self.value),
            _ => other,
        };
        Called {
            call,
            status,
            value,
        }
    }
}

impl Called<u8> {
    /// The same with a `bool` of C, which has to be 0 or 1.
    #[inline]
    pub fn flag(self) -> Called<bool> {
        self.with(bool_of, false)
    }
}

impl Called<usize> {
    /// The same with a length of what was written to a room of so many bytes.
    #[inline]
    pub fn within(self, room: usize) -> Called<usize> {
        self.with(|call, length| fitting(call, length, room), 0)
    }
}

impl Called<(usize, usize)> {
    /// The same with the place of a piece of a text.
    pub fn piece_of(self, text: &str) -> Called<Range<usize>> {
        self.with(|call, (from, to)| piece(call, text, from, to), 0..0)
    }
}

impl Called<Vec<u8>> {
    /// The same with bytes that are a text.
    pub fn text(self) -> Called<String> {
        let read = |call, bytes| match String::from_utf8(bytes) {
            Ok(text) => text,
            Err(error) => unexpected(call, "text", error),
        };
        self.with(read, String::new())
    }
}

impl Called<i32> {
    /// How two versions compare; the error is the first text that is not a version.
    pub fn order<'t>(self, a: &'t str, b: &'t str) -> Result<Ordering, &'t str> {
        match (self.status, self.value) {
            (OK, -1) => Ok(Ordering::Less),
            (OK, 0) => Ok(Ordering::Equal),
            (OK, 1) => Ok(Ordering::Greater),
            (OK, order) => unexpected(self.call, "order", order),
            (NO_VERSION_A | NO_VERSION_AB, _) => Err(a),
            (NO_VERSION_B, _) => Err(b),
            (status, _) => unexpected(self.call, "status", status),
        }
    }
}

/// The bytes that a call writes to the beginning of a buffer, and returns the length of. It gets one
/// of `size` bytes, and where that is too small, one of the length that it says.
pub fn filled(size: usize, ask: impl Fn(&mut [u8]) -> Called<usize>) -> Called<Vec<u8>> {
    let mut room = vec![0; size];
    let mut asked = ask(&mut room);
    if asked.status == NO_ROOM {
        room.resize(asked.value, 0);
        asked = ask(&mut room);
    }
    let Called {
        call,
        status,
        value,
    } = asked.within(room.len());
    room.truncate(value);
    let value = room;
    Called {
        call,
        status,
        value,
    }
}

/// The answers of a call about many texts, of which 2 says that a text is not a version.
pub fn answers(asked: Called<()>, numbers: Vec<u8>) -> Vec<Option<bool>> {
    let call = asked.call;
    asked.ok();
    let answer_of = |number| (number != 2).then(|| bool_of(call, number));
    numbers.into_iter().map(answer_of).collect()
}

/// The place of a piece of a text.
pub fn piece(call: &str, text: &str, from: usize, to: usize) -> Range<usize> {
    if text.get(from..to).is_none() {
        unexpected(call, "place", format_args!("{from}..{to}"));
    }
    from..to
}

/// The length of what a call wrote to a room of so many bytes.
#[inline]
pub fn fitting(call: &str, length: usize, room: usize) -> usize {
    if length > room {
        unexpected(call, "length", length);
    }
    length
}

#[inline]
fn bool_of(call: &str, number: u8) -> bool {
    match number {
        0 => false,
        1 => true,
        _ => unexpected(call, "match", number),
    }
}

/// Panics: the library that was linked doesn't do what its header says.
#[cold]
pub fn unexpected(call: &str, what: &str, value: impl Display) -> ! {
    panic!("{call} gave the {what} {value}, which versions.h does not allow here")
}
