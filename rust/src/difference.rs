use std::fmt;

/// Where two versions differ first, in the order of the rules of precedence: what
/// [`Versioning::difference`](crate::Versioning::difference) returns.
///
/// ```
/// use proved_versions::{Difference, Versioning};
///
/// let [a, b] = ["1.2.3", "1.3.0"].map(|text| Versioning::new(text).unwrap());
/// assert_eq!(a.difference(&b), Difference::Part(1));
/// assert_eq!(a.difference(&b).to_string(), "they differ first in part 1");
/// ```
#[derive(Clone, Copy, Debug, PartialEq, Eq, Hash)]
pub enum Difference {
    /// Nowhere: they are the same version, apart from the metadata of strict ones.
    Same,
    /// Nowhere in precedence, though they aren't the same version: `1.0` and `0:1.0`.
    Tie,
    /// In the epoch.
    Epoch,
    /// In the part of that number, counted from 0.
    Part(usize),
    /// In what follows the parts: the pre-release, the release or the further sections.
    Tail,
}

/// A sentence.
impl fmt::Display for Difference {
    fn fmt(&self, f: &mut fmt::Formatter<'_>) -> fmt::Result {
        f.write_str(match self {
            Difference::Same => "they differ at most after the plus, which doesn't count",
            Difference::Tie => "they compare equal, and are not the same version",
            Difference::Epoch => "they differ first in the epoch",
            Difference::Part(part) => return write!(f, "they differ first in part {part}"),
            Difference::Tail => "they differ first in what follows the parts",
        })
    }
}
