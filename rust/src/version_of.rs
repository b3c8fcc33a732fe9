use std::borrow::Cow;
use std::cmp::Ordering;
use std::fmt;
use std::hash::{Hash, Hasher};
use std::str::FromStr;

use crate::library::schemes;
use crate::scheme::{AnyScheme, FixedScheme, Mixed};
use crate::text::into_cow;
use crate::{InvalidVersion, Key, OtherScheme, Scheme, Text, Versioning};

/// A version of a scheme: its text, borrowed or owned, and its sort key.
///
/// With a type of the module [`scheme`](crate::scheme), as `VersionOf<Deb>`, it has `Ord`, and
/// compares with versions of the same scheme alone: another is an error of the compiler. A
/// `VersionOf<Scheme>` has a scheme that is known at run time. It has [`try_cmp`], and no
/// `<`, which would be false for a version of another scheme, as `>=` would.
///
/// `Ord` and `==` are the order of the scheme, so different texts may be equal, as `1.0` and `1.0-0` of
/// Debian. Those of [`Versioning`] break such ties; `VersionOf<Mixed>` doesn't. Versions of two
/// schemes are unequal. `Hash` agrees with `==`. `version == "1.0"` reads the text each time: it is
/// false of a text that is not a version.
///
/// There is no `Borrow<str>`: texts that differ may be one version, so a map would look for a text in
/// another place than for its version. Look up by the version, or by its [`key`](VersionOf::key).
///
/// ```compile_fail,E0277
/// use std::collections::HashMap;
/// use proved_versions::{scheme::Deb, VersionOf};
///
/// let map: HashMap<VersionOf<Deb>, &str> = HashMap::new();
/// map.get::<str>("1.0-0");
/// ```
///
/// [`try_cmp`]: VersionOf::try_cmp
///
/// ```
/// use proved_versions::scheme::Deb;
/// use proved_versions::VersionOf;
///
/// let mut versions = ["1.0a", "1.0", "1.0~rc1"].map(|text| VersionOf::new(text, Deb).unwrap());
/// versions.sort();
/// assert_eq!(versions.map(|version| version.to_string()), ["1.0~rc1", "1.0", "1.0a"]);
/// let version: VersionOf<Deb> = "1.0".parse()?;
/// assert!(version == VersionOf::new("1.0-0", Deb)?);
/// # Ok::<(), proved_versions::InvalidVersion>(())
/// ```
///
/// ```compile_fail,E0369
/// use proved_versions::{Scheme, VersionOf};
///
/// let version = |text, scheme| VersionOf::new(text, scheme).unwrap();
/// assert!(version("1.0~rc1", Scheme::Deb) < version("1.0", Scheme::Rpm));
/// ```
#[derive(Clone)]
pub struct VersionOf<'a, S> {
    text: Cow<'a, str>,
    key: Key<S>,
}

impl<'a, S: AnyScheme> VersionOf<'a, S> {
    /// Parses a text. Borrows a `&str`, and takes a `String` as it is. [`Text`] names all types that it
    /// takes.
    ///
    /// Allocates nothing where keys of texts so long have at most 128 bytes, and this one at most 38.
    ///
    /// # Errors
    ///
    /// [`InvalidVersion`], where the text is not a version of the scheme. The error holds the text,
    /// for which a borrowed one is copied.
    ///
    /// ```
    /// use proved_versions::scheme::Semver;
    /// use proved_versions::{Scheme, VersionOf};
    ///
    /// assert!(VersionOf::new("1.0.0-rc.1", Semver).is_ok());
    /// assert_eq!(VersionOf::new("1.0", Semver).unwrap_err().scheme(), Scheme::Semver);
    /// let scheme: Scheme = "rpm".parse()?;
    /// assert_eq!(VersionOf::new("1.0^git1", scheme)?.scheme(), Scheme::Rpm);
    /// # Ok::<(), Box<dyn std::error::Error>>(())
    /// ```
    pub fn new(text: impl Text<'a>, scheme: S) -> Result<Self, InvalidVersion> {
        let text = into_cow(text);
        match schemes::key(scheme.scheme(), &text) {
            Some(key) => Ok(VersionOf {
                text,
                key: Key::new(key, scheme),
            }),
            None => Err(InvalidVersion::new(text, scheme.scheme())),
        }
    }

    /// Returns the text, as it was given.
    ///
    /// ```
    /// # use proved_versions::{scheme::Pypi, VersionOf};
    /// assert_eq!(VersionOf::new("v1.0-RC1", Pypi).unwrap().as_str(), "v1.0-RC1");
    /// ```
    pub fn as_str(&self) -> &str {
        &self.text
    }

    /// Returns which scheme the version is of.
    ///
    /// ```
    /// # use proved_versions::{scheme::Pypi, Scheme, VersionOf};
    /// assert_eq!(VersionOf::new("1.0", Pypi).unwrap().scheme(), Scheme::Pypi);
    /// ```
    pub fn scheme(&self) -> Scheme {
        self.key.scheme()
    }

    /// Returns the sort key: bytes that compare as versions of the scheme do.
    ///
    /// ```
    /// # use proved_versions::{scheme::Pypi, VersionOf};
    /// let [a, b, c] = ["1.0rc1", "1", "v1.0"].map(|text| VersionOf::new(text, Pypi).unwrap());
    /// assert!(a.sort_key() < b.sort_key() && b.sort_key() == c.sort_key());
    /// ```
    pub fn sort_key(&self) -> &[u8] {
        self.key.as_bytes()
    }

    /// Returns the sort key as a [`Key`], which can be the key of a map.
    ///
    /// ```
    /// use std::collections::BTreeMap;
    /// use proved_versions::scheme::Rpm;
    /// use proved_versions::{Key, VersionOf};
    ///
    /// let mut files: BTreeMap<Key<Rpm>, &str> = BTreeMap::new();
    /// for text in ["1.0", "1.0~rc1", "1.0^git1"] {
    ///     files.insert(VersionOf::new(text, Rpm)?.key().clone(), text);
    /// }
    /// assert!(files.values().eq(&["1.0~rc1", "1.0", "1.0^git1"]));
    /// # Ok::<(), proved_versions::InvalidVersion>(())
    /// ```
    pub fn key(&self) -> &Key<S> {
        &self.key
    }

    /// Whether a text is a version of the scheme that compares equal.
    fn is(&self, text: &str) -> bool {
        schemes::compare(self.scheme(), &self.text, text) == Ok(Ordering::Equal)
    }

    /// Returns the same version, with a text of its own. Copies a borrowed text.
    ///
    /// ```
    /// # use proved_versions::{scheme::Pypi, InvalidVersion, VersionOf};
    /// fn read(line: String) -> Result<VersionOf<'static, Pypi>, InvalidVersion> {
    ///     Ok(VersionOf::new(line.trim_end(), Pypi)?.into_owned())
    /// }
    /// assert_eq!(read("1.0.post1\n".into())?.as_str(), "1.0.post1");
    /// # Ok::<(), InvalidVersion>(())
    /// ```
    pub fn into_owned(self) -> VersionOf<'static, S> {
        VersionOf {
            text: Cow::Owned(self.text.into_owned()),
            key: self.key,
        }
    }
}

impl VersionOf<'_, Scheme> {
    /// Compares two versions whose schemes are known at run time. Allocates nothing.
    ///
    /// # Errors
    ///
    /// [`OtherScheme`], where they are of two schemes.
    ///
    /// ```
    /// use std::cmp::Ordering;
    /// use proved_versions::{Scheme, VersionOf};
    ///
    /// let [a, b] = ["1.0", "1.0-1"].map(|text| VersionOf::new(text, Scheme::Deb).unwrap());
    /// assert_eq!(a.try_cmp(&b), Ok(Ordering::Less));
    /// let error = a.try_cmp(&VersionOf::new("1.0", Scheme::Rpm).unwrap()).unwrap_err();
    /// assert_eq!(error.to_string(), "versions of deb are wanted, and this is of rpm");
    /// ```
    pub fn try_cmp(&self, other: &VersionOf<'_, Scheme>) -> Result<Ordering, OtherScheme> {
        OtherScheme::check(self.scheme(), other.scheme())?;
        Ok(self.key.as_bytes().cmp(other.key.as_bytes()))
    }
}

impl<S: FixedScheme> Ord for VersionOf<'_, S> {
    fn cmp(&self, other: &Self) -> Ordering {
        self.key.cmp(&other.key)
    }
}

impl<'b, S: FixedScheme> PartialOrd<VersionOf<'b, S>> for VersionOf<'_, S> {
    fn partial_cmp(&self, other: &VersionOf<'b, S>) -> Option<Ordering> {
        Some(self.key.cmp(&other.key))
    }
}

impl<S: AnyScheme> Eq for VersionOf<'_, S> {}

impl<'b, S: AnyScheme> PartialEq<VersionOf<'b, S>> for VersionOf<'_, S> {
    fn eq(&self, other: &VersionOf<'b, S>) -> bool {
        self.key == other.key
    }
}

/// Whether the text is a version of the scheme that compares equal.
///
/// ```
/// use proved_versions::{scheme::Deb, VersionOf};
///
/// let version = VersionOf::new("1.0", Deb).unwrap();
/// assert!(version == "1.0-0" && version != "1.0-1" && version != "1_0");
/// ```
impl<S: AnyScheme> PartialEq<str> for VersionOf<'_, S> {
    fn eq(&self, text: &str) -> bool {
        self.is(text)
    }
}

impl<S: AnyScheme> PartialEq<&str> for VersionOf<'_, S> {
    fn eq(&self, text: &&str) -> bool {
        self.is(text)
    }
}

impl<S: AnyScheme> PartialEq<VersionOf<'_, S>> for str {
    fn eq(&self, version: &VersionOf<'_, S>) -> bool {
        version.is(self)
    }
}

impl<S: AnyScheme> PartialEq<VersionOf<'_, S>> for &str {
    fn eq(&self, version: &VersionOf<'_, S>) -> bool {
        version.is(self)
    }
}

/// Hashes the sort key.
impl<S: AnyScheme> Hash for VersionOf<'_, S> {
    fn hash<H: Hasher>(&self, state: &mut H) {
        self.key.hash(state);
    }
}

/// The text, as it was given; width and precision apply as to a `str`.
impl<S> fmt::Display for VersionOf<'_, S> {
    fn fmt(&self, f: &mut fmt::Formatter<'_>) -> fmt::Result {
        f.pad(&self.text)
    }
}

/// As `VersionOf("1.0~rc1", Deb)`.
impl<S: AnyScheme> fmt::Debug for VersionOf<'_, S> {
    fn fmt(&self, f: &mut fmt::Formatter<'_>) -> fmt::Result {
        f.debug_tuple("VersionOf")
            .field(&self.text)
            .field(&self.scheme())
            .finish()
    }
}

impl<S> AsRef<str> for VersionOf<'_, S> {
    fn as_ref(&self) -> &str {
        &self.text
    }
}

/// The text. Copies a borrowed one.
impl<S> From<VersionOf<'_, S>> for String {
    fn from(version: VersionOf<'_, S>) -> String {
        version.text.into_owned()
    }
}

/// Takes the key out of the version.
impl<S> From<VersionOf<'_, S>> for Key<S> {
    fn from(version: VersionOf<'_, S>) -> Key<S> {
        version.key
    }
}

/// The same version, which compares by precedence alone. Copies nothing.
///
/// ```
/// use proved_versions::scheme::Mixed;
/// use proved_versions::{VersionOf, Versioning};
///
/// let [a, b] = ["1.0", "0:1.0"].map(|text| Versioning::new(text).unwrap());
/// assert!(a != b && VersionOf::from(a) == VersionOf::from(b));
/// ```
impl<'a> From<Versioning<'a>> for VersionOf<'a, Mixed> {
    fn from(version: Versioning<'a>) -> Self {
        let (text, key) = version.into_parts();
        VersionOf { text, key }
    }
}

/// Copies the text. [`VersionOf::new`] borrows it.
impl<S: FixedScheme> FromStr for VersionOf<'static, S> {
    type Err = InvalidVersion;

    fn from_str(text: &str) -> Result<Self, InvalidVersion> {
        VersionOf::new(text, S::default()).map(VersionOf::into_owned)
    }
}

impl<'a, S: FixedScheme> TryFrom<&'a str> for VersionOf<'a, S> {
    type Error = InvalidVersion;

    fn try_from(text: &'a str) -> Result<Self, InvalidVersion> {
        VersionOf::new(text, S::default())
    }
}

impl<S: FixedScheme> TryFrom<String> for VersionOf<'_, S> {
    type Error = InvalidVersion;

    fn try_from(text: String) -> Result<Self, InvalidVersion> {
        VersionOf::new(text, S::default())
    }
}
