use std::fmt;
use std::str::FromStr;

use crate::InvalidName;

/// Which of the three grammars a version has: the first that the whole text fits.
///
/// The order of kinds is the one by which `Ord` of [`Versioning`](crate::Versioning) orders versions of
/// different kinds whose precedence ties.
///
/// ```
/// use proved_versions::{kind, Kind};
///
/// assert_eq!(kind("1.2.3-rc.1+x86"), Some(Kind::Ideal));
/// assert_eq!(kind("1:2.0rc1-3"), Some(Kind::General));
/// assert_eq!(kind("20.0026.1_0-2+0.93"), Some(Kind::Complex));
/// assert_eq!(kind("1..2"), None);
/// assert_eq!(Kind::Ideal.to_string(), "ideal");
/// assert_eq!("ideal".parse(), Ok(Kind::Ideal));
/// ```
#[derive(Clone, Copy, Debug, PartialEq, Eq, PartialOrd, Ord, Hash)]
pub enum Kind {
    /// A strict version, as SemVer 2.0 has it: `1.2.3-rc.1+x86`.
    Ideal,
    /// What most packages carry: `1:2.0rc1-3`.
    General,
    /// Any other version: `20.0026.1_0-2+0.93`.
    Complex,
}

impl Kind {
    pub(crate) const ALL: [Kind; 3] = [Kind::Ideal, Kind::General, Kind::Complex];
    const NAMES: [&'static str; 3] = ["ideal", "general", "complex"];

    pub(crate) fn name(self) -> &'static str {
        Kind::NAMES[self as usize]
    }
}

/// `ideal`, `general` or `complex`.
impl fmt::Display for Kind {
    fn fmt(&self, f: &mut fmt::Formatter<'_>) -> fmt::Result {
        f.pad(self.name())
    }
}

/// From what `Display` prints.
impl FromStr for Kind {
    type Err = InvalidName;

    fn from_str(name: &str) -> Result<Kind, InvalidName> {
        InvalidName::place(&Kind::NAMES, name).map(|place| Kind::ALL[place])
    }
}
