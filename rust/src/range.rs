use std::fmt;
use std::ops::{Bound, RangeBounds};

use crate::bytes::Bytes;
use crate::{Kind, Versioning};

/// The range of sort keys that a requirement asks for: what [`Requirement::range`] returns.
///
/// [`Requirement::range`]: crate::Requirement::range
///
/// Each version that the requirement matches is in its range. If the range is
/// [exact](KeyRange::is_exact), the requirement matches each version in it too. A range can be
/// empty.
///
/// As `RangeBounds<[u8]>` it has the bounds alone, and not the kinds, for maps by
/// [`Key`](crate::Key). These bounds are never turned, so `BTreeMap::range` does not panic.
///
/// ```
/// use proved_versions::{Kind, Requirement, Versioning};
///
/// let requirement = Requirement::new("^1.2.3").unwrap();
/// let range = requirement.range();
/// assert!(range.is_exact() && range.has_kind(Kind::Ideal) && !range.has_kind(Kind::General));
/// assert!(range.contains(&Versioning::new("1.10.0").unwrap()));
/// assert!(!range.contains(&Versioning::new("1.10").unwrap()));
/// ```
#[derive(Clone, PartialEq, Eq, Hash)]
pub struct KeyRange {
    pub(crate) low: Bytes,
    pub(crate) high: Option<Bytes>,
    pub(crate) kinds: Kinds,
    pub(crate) is_exact: bool,
}

/// A set of kinds.
#[derive(Clone, Copy, Debug, PartialEq, Eq, Hash)]
pub struct Kinds(u8);

impl Kinds {
    pub const NONE: Kinds = Kinds(0);

    pub fn with(self, kind: Kind) -> Kinds {
        Kinds(self.0 | 1 << kind as u8)
    }

    pub fn has(self, kind: Kind) -> bool {
        self.0 & 1 << kind as u8 != 0
    }
}

impl KeyRange {
    /// Returns the low bound: no key in the range is below it. It can be empty, and then no key is.
    pub fn low(&self) -> &[u8] {
        self.low.as_slice()
    }

    /// Returns the high bound, if there is one: each key in the range is below it.
    pub fn high(&self) -> Option<&[u8]> {
        self.high.as_ref().map(Bytes::as_slice)
    }

    /// Returns whether versions of a kind are in the range.
    pub fn has_kind(&self, kind: Kind) -> bool {
        self.kinds.has(kind)
    }

    /// Returns whether the requirement matches every version in the range. If not, ask
    /// [`Requirement::matches`](crate::Requirement::matches) about each.
    pub fn is_exact(&self) -> bool {
        self.is_exact
    }

    /// Returns whether a version is in the range: its kind is one of the kinds, and its key is not
    /// below the low bound, and below the high bound. Allocates nothing.
    #[inline]
    pub fn contains(&self, version: &Versioning<'_>) -> bool {
        let key = version.key().bytes();
        self.kinds.has(version.kind())
            && self.low <= *key
            && self.high.as_ref().map_or(true, |high| key < high)
    }
}

/// From the low bound up to, but without, the high bound. Where that is below the low bound, it is
/// the low bound instead; in both ranges there is nothing.
impl RangeBounds<[u8]> for KeyRange {
    fn start_bound(&self) -> Bound<&[u8]> {
        Bound::Included(self.low())
    }

    fn end_bound(&self) -> Bound<&[u8]> {
        match self.high() {
            Some(high) => Bound::Excluded(high.max(self.low())),
            None => Bound::Unbounded,
        }
    }
}

/// The same, so that a map can be asked with what [`Requirement::range`](crate::Requirement::range)
/// lends.
impl RangeBounds<[u8]> for &KeyRange {
    fn start_bound(&self) -> Bound<&[u8]> {
        (**self).start_bound()
    }

    fn end_bound(&self) -> Bound<&[u8]> {
        (**self).end_bound()
    }
}

/// The bounds in hexadecimal, the kinds, and `exact` if it is, as `KeyRange(00.., general)`.
impl fmt::Debug for KeyRange {
    fn fmt(&self, f: &mut fmt::Formatter<'_>) -> fmt::Result {
        write!(f, "KeyRange({:?}..", self.low)?;
        if let Some(high) = &self.high {
            write!(f, "{high:?}")?;
        }
        for kind in Kind::ALL {
            if self.has_kind(kind) {
                write!(f, ", {kind}")?;
            }
        }
        f.write_str(if self.is_exact { ", exact)" } else { ")" })
    }
}
