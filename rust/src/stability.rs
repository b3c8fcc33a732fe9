use std::fmt;
use std::str::FromStr;

use crate::InvalidName;

/// How stable a version is, by the words that stand in it: what
/// [`Versioning::stability`](crate::Versioning::stability) returns.
///
/// It is a rule of habit, and not of SemVer 2.0. `Dev` is the lowest, and `Stable` the highest.
///
/// ```
/// use proved_versions::Stability;
///
/// assert!(Stability::Dev < Stability::Alpha && Stability::Rc < Stability::Stable);
/// assert_eq!(Stability::Beta.to_string(), "beta");
/// assert_eq!("beta".parse(), Ok(Stability::Beta));
/// ```
#[derive(Clone, Copy, Debug, PartialEq, Eq, PartialOrd, Ord, Hash)]
pub enum Stability {
    /// As `1.0-SNAPSHOT` and `1.0.dev3`.
    Dev,
    /// As `1.0a1` and `1.0.0-alpha`.
    Alpha,
    /// As `1.0b1` and `1.0.0-beta.2`.
    Beta,
    /// As `1.0rc1` and `1.0.0-rc.1`.
    Rc,
    /// Every other version.
    Stable,
}

impl Stability {
    const ALL: [Stability; 5] = [
        Stability::Dev,
        Stability::Alpha,
        Stability::Beta,
        Stability::Rc,
        Stability::Stable,
    ];
    const NAMES: [&'static str; 5] = ["dev", "alpha", "beta", "rc", "stable"];

    pub(crate) fn name(self) -> &'static str {
        Stability::NAMES[self as usize]
    }
}

/// `dev`, `alpha`, `beta`, `rc` or `stable`.
impl fmt::Display for Stability {
    fn fmt(&self, f: &mut fmt::Formatter<'_>) -> fmt::Result {
        f.pad(self.name())
    }
}

/// From what `Display` prints.
impl FromStr for Stability {
    type Err = InvalidName;

    fn from_str(name: &str) -> Result<Stability, InvalidName> {
        InvalidName::place(&Stability::NAMES, name).map(|place| Stability::ALL[place])
    }
}
