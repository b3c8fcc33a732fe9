//! Bytes that lie within the value where they are few.

use std::cmp::Ordering;
use std::fmt;
use std::hash::{Hash, Hasher};

/// How many bytes lie within the value. So a `Bytes` has 40 bytes, and a `Versioning` 72. The keys
/// of nine in ten versions of Debian's packages are this short.
pub const WITHIN: usize = 38;

/// Bytes of any length. They compare and hash as slices do, wherever they lie.
#[derive(Clone)]
pub enum Bytes {
    /// At most `WITHIN` bytes, which are the first `length` of `room`. The rest of it is zeros.
    Within { length: u8, room: [u8; WITHIN] },
    /// More bytes, in an allocation of their length.
    Allocated(Box<[u8]>),
}

impl Bytes {
    /// Copies the first `length` bytes of a room that has at least twice `WITHIN` bytes. Writes to the
    /// bytes after them.
    #[inline]
    pub fn copied(from: &mut [u8], length: usize) -> Bytes {
        if length > WITHIN {
            return Bytes::Allocated(from[..length].into());
        }
        // As many zeros and as many bytes each time, since that takes no call.
        from[length..][..WITHIN].fill(0);
        let mut room = [0; WITHIN];
        room.copy_from_slice(&from[..WITHIN]);
        Bytes::Within {
            length: length as u8,
            room,
        }
    }

    /// The same, where the room can be handed over. Gives the rest of its allocation back.
    pub fn taken(mut from: Vec<u8>, length: usize) -> Bytes {
        if length <= WITHIN {
            return Bytes::copied(&mut from, length);
        }
        from.truncate(length);
        Bytes::Allocated(from.into_boxed_slice())
    }

    #[inline]
    pub fn as_slice(&self) -> &[u8] {
        match self {
            Bytes::Within { length, room } => &room[..usize::from(*length)],
            Bytes::Allocated(bytes) => bytes,
        }
    }
}

/// Copies the bytes.
#[cfg(feature = "serde")]
impl From<&[u8]> for Bytes {
    fn from(bytes: &[u8]) -> Bytes {
        if bytes.len() > WITHIN {
            return Bytes::Allocated(bytes.into());
        }
        let mut room = [0; WITHIN];
        room[..bytes.len()].copy_from_slice(bytes);
        Bytes::Within {
            length: bytes.len() as u8,
            room,
        }
    }
}

/// Where each word of a room begins. The last one overlaps with the one before.
const WORDS: [usize; 5] = [0, 8, 16, 24, WITHIN - 8];

/// The word of a room that begins there. Words compare as their bytes do.
#[inline]
fn word(room: &[u8], start: usize) -> u64 {
    let mut bytes = [0; 8];
    bytes.copy_from_slice(&room[start..start + 8]);
    u64::from_be_bytes(bytes)
}

/// As slices. Where both lie within their values, they are compared by words, without a call. Zeros
/// after the end of the shorter one leave it the lesser, unless the longer one has nothing but
/// zeros there; then the lengths decide.
impl Ord for Bytes {
    #[inline]
    fn cmp(&self, other: &Self) -> Ordering {
        if let (
            Bytes::Within { length, room },
            Bytes::Within {
                length: other_length,
                room: other_room,
            },
        ) = (self, other)
        {
            for start in WORDS {
                let (word, other_word) = (word(room, start), word(other_room, start));
                if word != other_word {
                    return word.cmp(&other_word);
                }
            }
            return length.cmp(other_length);
        }
        self.as_slice().cmp(other.as_slice())
    }
}

impl PartialOrd for Bytes {
    #[inline]
    fn partial_cmp(&self, other: &Self) -> Option<Ordering> {
        Some(self.cmp(other))
    }
}

impl Eq for Bytes {}

impl PartialEq for Bytes {
    #[inline]
    fn eq(&self, other: &Self) -> bool {
        self.as_slice() == other.as_slice()
    }
}

impl Hash for Bytes {
    fn hash<H: Hasher>(&self, state: &mut H) {
        self.as_slice().hash(state);
    }
}

/// In hexadecimal.
impl fmt::Debug for Bytes {
    fn fmt(&self, f: &mut fmt::Formatter<'_>) -> fmt::Result {
        self.as_slice()
            .iter()
            .try_for_each(|byte| write!(f, "{byte:02x}"))
    }
}
