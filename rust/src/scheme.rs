//! Schemes as types, by which versions, keys and sets of two schemes are of two types.
//!
//! [`Mixed`], [`Deb`] and the others are each a scheme that a program names: a
//! [`VersionOf<Deb>`](crate::VersionOf) compares with no other version, and a
//! [`VersionSet<Deb>`](crate::VersionSet) with no other set. What is of [`Scheme`] itself has a
//! scheme that is known at run time, and a call on two returns a `Result`.
//!
//! ```
//! use proved_versions::scheme::{Deb, Rpm};
//! use proved_versions::VersionOf;
//!
//! let [a, b] = ["1.0~rc1", "1.0"].map(|text| VersionOf::new(text, Deb).unwrap());
//! assert!(a < b);
//! ```
//!
//! ```compile_fail,E0308
//! # use proved_versions::scheme::{Deb, Rpm};
//! # use proved_versions::VersionOf;
//! let a = VersionOf::new("1.0~rc1", Deb).unwrap();
//! let b = VersionOf::new("1.0", Rpm).unwrap();
//! assert!(a < b);
//! ```

use std::cmp::Ordering;
use std::fmt;
use std::hash::Hash;
use std::str::FromStr;

use crate::declarations;
use crate::library::{schemes, Texts};
use crate::many::permute;
use crate::{InvalidName, InvalidVersion, Key, SortKeys, VersionOf, Versioning};

macro_rules! declare {
    ($($type:ident $number:ident $name:literal $what:literal)*) => {
        /// Which texts are versions, and how they compare: this crate's own order, or that of another
        /// system.
        ///
        /// Its calls read texts. Versions that are kept are [`VersionOf`]s.
        ///
        /// ```
        /// use proved_versions::Scheme;
        ///
        /// let scheme: Scheme = "deb".parse()?;
        /// let mut texts = ["1.0a", "1.0", "1.0~rc1"];
        /// scheme.sort(&mut texts);
        /// assert_eq!(texts, ["1.0~rc1", "1.0", "1.0a"]);
        /// assert_eq!(scheme.to_string(), "deb");
        /// # Ok::<(), proved_versions::InvalidName>(())
        /// ```
        #[derive(Clone, Copy, Debug, PartialEq, Eq, PartialOrd, Ord, Hash)]
        pub enum Scheme {
            $(#[doc = $what] $type,)*
        }

        impl Scheme {
            /// All schemes.
            ///
            /// ```
            /// use proved_versions::Scheme;
            ///
            /// let found = Scheme::ALL.iter().filter(|scheme| scheme.is_version("1.0^git1"));
            /// assert!(found.eq(&[Scheme::Rpm]));
            /// ```
            pub const ALL: &'static [Scheme] = &[$(Scheme::$type),*];
            const NAMES: &'static [&'static str] = &[$($name),*];

            pub(crate) fn name(self) -> &'static str {
                match self {
                    $(Scheme::$type => $name,)*
                }
            }

            /// The number that the library knows it by.
            pub(crate) fn number(self) -> u32 {
                match self {
                    $(Scheme::$type => declarations::$number,)*
                }
            }
        }

        $(
            #[doc = concat!("[`Scheme::", stringify!($type), "`] as a type.")]
            #[derive(Clone, Copy, Debug, Default, PartialEq, Eq, PartialOrd, Ord, Hash)]
            pub struct $type;

            impl sealed::AnyScheme for $type {}

            impl AnyScheme for $type {
                fn scheme(self) -> Scheme {
                    Scheme::$type
                }
            }

            impl FixedScheme for $type {}
        )*
    };
}
each_scheme!(declare);

impl Scheme {
    /// Returns whether a text is a version. Allocates nothing.
    ///
    /// ```
    /// use proved_versions::Scheme;
    ///
    /// assert!(Scheme::Pypi.is_version("1.0rc1") && !Scheme::Semver.is_version("1.0rc1"));
    /// ```
    pub fn is_version(self, text: &str) -> bool {
        schemes::is_version(self, text)
    }

    /// Compares two texts by the order of their versions. Different versions may compare equal, as
    /// `1.0` and `1.0-0` of Debian.
    ///
    /// # Errors
    ///
    /// [`InvalidVersion`], with a copy of the first text that is not a version. Otherwise nothing is
    /// allocated.
    ///
    /// ```
    /// use std::cmp::Ordering;
    /// use proved_versions::Scheme;
    ///
    /// assert_eq!(Scheme::Deb.compare("1.0~rc1", "1.0"), Ok(Ordering::Less));
    /// let error = Scheme::Deb.compare("1.0", "1-").unwrap_err();
    /// assert_eq!((error.text(), error.place()), ("1-", Some(2)));
    /// ```
    pub fn compare(self, a: &str, b: &str) -> Result<Ordering, InvalidVersion> {
        schemes::compare(self, a, b).map_err(|text| InvalidVersion::new(text, self))
    }

    /// Returns the sort key of a text: bytes that compare as versions of the scheme do. Keys of two
    /// schemes say nothing of each other.
    ///
    /// # Errors
    ///
    /// [`InvalidVersion`], where the text is not a version. The error holds a copy of the text.
    ///
    /// ```
    /// use proved_versions::Scheme;
    ///
    /// let [a, b] = ["1.0", "1.0^git1"].map(|text| Scheme::Rpm.sort_key(text).unwrap());
    /// assert!(a.as_bytes() < b.as_bytes());
    /// ```
    pub fn sort_key(self, text: &str) -> Result<Key<Scheme>, InvalidVersion> {
        match schemes::key(self, text) {
            Some(bytes) => Ok(Key::new(bytes, self)),
            None => Err(InvalidVersion::new(text, self)),
        }
    }

    /// Returns the sort key of each text, as [`sort_key`](Scheme::sort_key) returns it, in one call of
    /// the library. A text that is not a version has no key.
    ///
    /// Allocates what [`sort_keys`](crate::sort_keys) does, but while the keys are made, as much as
    /// keys of the scheme may take.
    ///
    /// ```
    /// use proved_versions::Scheme;
    ///
    /// let keys = Scheme::Rpm.sort_keys(&["1.0", "1/0", "1.0~a"]);
    /// assert!(keys.get(2) < keys.get(0));
    /// assert_eq!(keys.get(1), None);
    /// ```
    pub fn sort_keys<T: AsRef<str>>(self, texts: &[T]) -> SortKeys {
        SortKeys::new(schemes::keys(self, &Texts::new(texts)))
    }

    /// Returns the places of the texts in the order of their versions, the least version first. Texts
    /// that are not versions come last, in their order.
    ///
    /// Versions that compare equal keep their order, as in a stable sort, but those of `Mixed` are in
    /// that of [`order`](crate::order), which breaks ties. Allocates what `order` does, with the
    /// room that keys of the scheme may take.
    ///
    /// ```
    /// use proved_versions::Scheme;
    ///
    /// assert_eq!(Scheme::Deb.order(&["1.0", "1_0", "1.0-0", "1.0~"]), [3, 0, 2, 1]);
    /// ```
    pub fn order<T: AsRef<str>>(self, texts: &[T]) -> Vec<usize> {
        schemes::order(self, &Texts::new(texts))
    }

    /// Sorts texts into the order that [`order`](Scheme::order) has. Allocates what that does. The
    /// texts are swapped in place, in linear time.
    ///
    /// ```
    /// use proved_versions::Scheme;
    ///
    /// let mut texts = ["1.0.post1", "1.0", "x", "1.0rc1"];
    /// Scheme::Pypi.sort(&mut texts);
    /// assert_eq!(texts, ["1.0rc1", "1.0", "1.0.post1", "x"]);
    /// ```
    pub fn sort<T: AsRef<str>>(self, texts: &mut [T]) {
        let order = self.order(texts);
        permute(texts, order);
    }
}

/// The name, as `deb`.
impl fmt::Display for Scheme {
    fn fmt(&self, f: &mut fmt::Formatter<'_>) -> fmt::Result {
        f.pad(self.name())
    }
}

/// From what `Display` prints, or another name that people know the system by, as `debian` or `npm`; in
/// any case.
///
/// ```
/// use proved_versions::Scheme;
///
/// assert_eq!("pypi".parse(), Ok(Scheme::Pypi));
/// assert_eq!("Debian".parse(), Ok(Scheme::Deb));
/// let error = "maven".parse::<Scheme>().unwrap_err();
/// assert!(error.to_string().starts_with("not one of mixed, deb, rpm, "));
/// ```
impl FromStr for Scheme {
    type Err = InvalidName;

    fn from_str(name: &str) -> Result<Scheme, InvalidName> {
        schemes::named(name).ok_or_else(|| InvalidName::new(Scheme::NAMES, name))
    }
}

/// What a version, a key or a set can be of: a scheme that the program names, as [`Deb`], or a
/// [`Scheme`]. No other crate can implement it.
///
/// ```
/// use proved_versions::scheme::{AnyScheme, Deb};
/// use proved_versions::Scheme;
///
/// assert_eq!((Deb.scheme(), Scheme::Rpm.scheme()), (Scheme::Deb, Scheme::Rpm));
/// ```
pub trait AnyScheme:
    Copy + Eq + Hash + fmt::Debug + Send + Sync + 'static + sealed::AnyScheme
{
    /// Returns which scheme it is.
    fn scheme(self) -> Scheme;
}

/// A scheme that the program names, as [`Deb`]. No other crate can implement it.
pub trait FixedScheme: AnyScheme + Default {}

/// A version of the scheme `S`, which a set of that scheme can be asked about: a [`VersionOf<S>`], and
/// where `S` is [`Mixed`] a [`Versioning`] too. No other crate can implement it.
pub trait OfScheme<S>: sealed::OfScheme<S> {}

impl<S: AnyScheme> OfScheme<S> for VersionOf<'_, S> {}

impl OfScheme<Mixed> for Versioning<'_> {}

impl sealed::AnyScheme for Scheme {}

impl AnyScheme for Scheme {
    fn scheme(self) -> Scheme {
        self
    }
}

pub(crate) mod sealed {
    use super::Mixed;
    use crate::scheme::AnyScheme as Any;
    use crate::{VersionOf, Versioning};

    pub trait AnyScheme {}

    pub trait OfScheme<S> {
        fn text(&self) -> &str;
        fn scheme(&self) -> S;
    }

    impl<S: Any> OfScheme<S> for VersionOf<'_, S> {
        fn text(&self) -> &str {
            self.as_str()
        }

        fn scheme(&self) -> S {
            self.key().of()
        }
    }

    impl OfScheme<Mixed> for Versioning<'_> {
        fn text(&self) -> &str {
            self.as_str()
        }

        fn scheme(&self) -> Mixed {
            Mixed
        }
    }
}
