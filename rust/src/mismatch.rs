use std::fmt;
use std::ops::Range;

use crate::library;

/// Why a requirement doesn't match a version: what
/// [`Requirement::why_not`](crate::Requirement::why_not) returns. It lends the texts of both.
///
/// ```
/// use proved_versions::{Reason, Requirement, Versioning};
///
/// let wanted = Requirement::new("*,>=1.5").unwrap();
/// let version = Versioning::new("1.4").unwrap();
/// let mismatch = wanted.why_not(&version).unwrap();
/// assert_eq!((mismatch.member(), mismatch.place()), (">=1.5", 2..7));
/// assert_eq!(mismatch.reason(), Reason::Below);
/// assert_eq!(mismatch.to_string(), "1.4 is below >=1.5");
/// ```
#[derive(Clone, Debug, PartialEq, Eq, Hash)]
pub struct Mismatch<'a> {
    pub(crate) list: &'a str,
    pub(crate) version: &'a str,
    pub(crate) place: Range<usize>,
    pub(crate) reason: Reason,
}

/// Why a member of a requirement doesn't match a version: the first of these that is so.
#[derive(Clone, Copy, Debug, PartialEq, Eq, Hash)]
pub enum Reason {
    /// The version's kind is not one of those that the member asks for.
    Kind,
    /// The version is below what the member asks for.
    Below,
    /// The version is above what the member asks for.
    Above,
    /// None of these: its parts or fields differ.
    Parts,
}

impl<'a> Mismatch<'a> {
    /// Returns the first member of the requirement that doesn't match.
    pub fn member(&self) -> &'a str {
        &self.list[self.place()]
    }

    /// Returns where that member lies in the text of the requirement, in bytes.
    pub fn place(&self) -> Range<usize> {
        self.place.clone()
    }

    /// Returns why that member doesn't match.
    pub fn reason(&self) -> Reason {
        self.reason
    }

    /// Returns the text of the version.
    pub fn version(&self) -> &'a str {
        self.version
    }
}

/// A sentence, as `1.4 is below >=1.5`, which the library writes into memory of its length. Width and
/// precision apply as to a `str`.
impl fmt::Display for Mismatch<'_> {
    fn fmt(&self, f: &mut fmt::Formatter<'_>) -> fmt::Result {
        f.pad(&library::why_text(self.member(), self.version()))
    }
}
