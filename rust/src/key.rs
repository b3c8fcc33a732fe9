use std::borrow::Borrow;
use std::cmp::Ordering;
use std::fmt;
use std::hash::{Hash, Hasher};
use std::ops::Deref;

use crate::bytes::Bytes;
use crate::scheme::{AnyScheme, FixedScheme, Mixed};
use crate::{Scheme, Versioning};

/// The sort key of a version: bytes that compare as versions do by precedence, or as those of another
/// [scheme](crate::scheme), which a `Key<Deb>` names.
///
/// `Ord`, `==` and `Hash` are those of its bytes, so a map with keys of this type can be asked with
/// a `[u8]`. Equal keys are keys of versions that precedence ties. No key is empty, and none begins
/// another.
///
/// Keys of two schemes say nothing of each other, and are of two types. A `Key<Scheme>`, whose scheme is
/// known at run time, has [`as_bytes`](Key::as_bytes), but neither `Ord` nor `Deref`:
///
/// ```compile_fail,E0599
/// use proved_versions::Scheme;
///
/// let [a, b] = [Scheme::Deb, Scheme::Rpm].map(|scheme| scheme.sort_key("1.0").unwrap());
/// let order = a.cmp(&b);
/// ```
///
/// A key of at most 38 bytes lies within the value, and a longer one in an allocation.
///
/// ```
/// use std::collections::BTreeMap;
/// use proved_versions::{sort_key, Key, Requirement};
///
/// let mut releases: BTreeMap<Key, &str> = BTreeMap::new();
/// for text in ["1.9.0", "1.10.0", "2.0.0-rc.1", "2.0.0"] {
///     releases.insert(sort_key(text)?, text);
/// }
/// let wanted = Requirement::new(">=1.10.0,<2.0.0")?;
/// let found = releases.range::<[u8], _>(wanted.range()).map(|(_, text)| *text);
/// assert!(found.eq(["1.10.0", "2.0.0-rc.1"]));
/// # Ok::<(), Box<dyn std::error::Error>>(())
/// ```
#[derive(Clone)]
pub struct Key<S = Mixed> {
    bytes: Bytes,
    scheme: S,
}

impl<S> Key<S> {
    pub(crate) fn new(bytes: Bytes, scheme: S) -> Self {
        Key { bytes, scheme }
    }

    #[inline]
    pub(crate) fn bytes(&self) -> &Bytes {
        &self.bytes
    }

    /// Returns the bytes.
    #[inline]
    pub fn as_bytes(&self) -> &[u8] {
        self.bytes.as_slice()
    }

    /// Returns the bytes that come just after the key: they are above it, and below every greater
    /// key. So `..key.after()` has what `..=key` would. Allocates them.
    ///
    /// ```
    /// use proved_versions::sort_key;
    ///
    /// let [a, b] = ["1.2", "1.2-1"].map(|text| sort_key(text).unwrap());
    /// assert!(*a < *a.after() && *a.after() < *b);
    /// ```
    pub fn after(&self) -> Vec<u8> {
        [self.as_bytes(), &[0]].concat()
    }
}

impl<S: AnyScheme> Key<S> {
    /// Returns which scheme the key is of.
    ///
    /// ```
    /// use proved_versions::{sort_key, Scheme};
    ///
    /// assert_eq!(sort_key("1.0")?.scheme(), Scheme::Mixed);
    /// assert_eq!(Scheme::Deb.sort_key("1.0")?.scheme(), Scheme::Deb);
    /// # Ok::<(), proved_versions::InvalidVersion>(())
    /// ```
    pub fn scheme(&self) -> Scheme {
        self.scheme.scheme()
    }

    pub(crate) fn of(&self) -> S {
        self.scheme
    }
}

impl<S: FixedScheme> Ord for Key<S> {
    #[inline]
    fn cmp(&self, other: &Self) -> Ordering {
        self.bytes.cmp(&other.bytes)
    }
}

impl<S: FixedScheme> PartialOrd for Key<S> {
    #[inline]
    fn partial_cmp(&self, other: &Self) -> Option<Ordering> {
        Some(self.cmp(other))
    }
}

impl<S: AnyScheme> Eq for Key<S> {}

impl<S: AnyScheme> PartialEq for Key<S> {
    #[inline]
    fn eq(&self, other: &Self) -> bool {
        self.scheme == other.scheme && self.bytes == other.bytes
    }
}

impl<S> Hash for Key<S> {
    fn hash<H: Hasher>(&self, state: &mut H) {
        self.bytes.hash(state);
    }
}

/// The bytes.
impl<S: FixedScheme> Deref for Key<S> {
    type Target = [u8];

    fn deref(&self) -> &[u8] {
        self.as_bytes()
    }
}

impl<S> AsRef<[u8]> for Key<S> {
    fn as_ref(&self) -> &[u8] {
        self.as_bytes()
    }
}

impl<S: FixedScheme> Borrow<[u8]> for Key<S> {
    fn borrow(&self) -> &[u8] {
        self.as_bytes()
    }
}

/// Copies the key that the version holds.
impl From<&Versioning<'_>> for Key {
    fn from(version: &Versioning<'_>) -> Key {
        version.key().clone()
    }
}

/// Takes the key out of the version.
impl From<Versioning<'_>> for Key {
    fn from(version: Versioning<'_>) -> Key {
        version.into_parts().1
    }
}

/// Copies the bytes, where they lie within the value.
impl<S> From<Key<S>> for Vec<u8> {
    fn from(key: Key<S>) -> Vec<u8> {
        match key.bytes {
            Bytes::Allocated(bytes) => bytes.into_vec(),
            within => within.as_slice().to_vec(),
        }
    }
}

/// In hexadecimal, as `Key(00030131020202)`.
impl<S> fmt::Debug for Key<S> {
    fn fmt(&self, f: &mut fmt::Formatter<'_>) -> fmt::Result {
        write!(f, "Key({:?})", self.bytes)
    }
}
