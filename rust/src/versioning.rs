use std::borrow::Cow;
use std::cmp::Ordering;
use std::fmt;
use std::hash::{Hash, Hasher};
use std::str::FromStr;

use crate::library::{self, Field};
use crate::scheme::Mixed;
use crate::text::into_cow;
use crate::{Difference, InvalidVersion, Key, Kind, Stability, Text};

/// A version: its text, borrowed or owned, its [`Kind`] and its sort key.
///
/// # Order and equality
///
/// `Ord` is the total order: [precedence](Versioning::precedence), and where that ties, by kind and
/// then field by field. `==` holds exactly where `Ord` is `Equal`: of two versions that are the
/// same but for the metadata of strict ones. `Hash` agrees with `==`.
///
/// ```
/// use std::cmp::Ordering;
/// use proved_versions::Versioning;
///
/// let [a, b] = ["1.0", "0:1.0"].map(|text| Versioning::new(text).unwrap());
/// assert_eq!(a.precedence(&b), Ordering::Equal);
/// assert!(a < b && a != b);
/// assert_eq!(Versioning::new("1.0.0+a"), Versioning::new("1.0.0+b"));
/// ```
///
/// `==` with a text is `==` with the version that the text is, and false where it is not a version.
/// It reads the text each time, and allocates nothing.
///
/// ```
/// use proved_versions::Versioning;
///
/// let version = Versioning::new("1.0.0+a").unwrap();
/// assert!(version == "1.0.0" && version != "0:1.0.0" && version != "1..0");
/// ```
///
/// There is no `<` with a text, which would be false for a text that is not a version, as `>=` would:
/// [`compare_total`](crate::compare_total) returns the error.
///
/// ```compile_fail,E0308
/// let version = proved_versions::Versioning::default();
/// assert!(version < "1.0.0");
/// ```
///
/// The sort key is made once, by [`new`](Versioning::new), and comparisons go by keys. They ask the
/// library about the texts only where two keys are equal, and not both versions are strict.
///
/// `Versioning` is not `Borrow<str>`, since equal versions may have different texts, nor
/// `Borrow<[u8]>`, since different versions may have equal keys. [`Key`] is `Borrow<[u8]>`.
#[derive(Clone)]
pub struct Versioning<'a> {
    text: Cow<'a, str>,
    key: Key,
    kind: Kind,
}

impl<'a> Versioning<'a> {
    /// Parses a text, in one scan. Borrows a `&str`, and takes a `String` as it is. [`Text`] names all
    /// types that it takes.
    ///
    /// Allocates nothing where the text has at most 41 bytes and its key at most 38. Otherwise 3
    /// bytes for each byte of the text, and 5 more, are allocated for the key; a key of more than
    /// 38 bytes keeps its part of them.
    ///
    /// # Errors
    ///
    /// [`InvalidVersion`], where the text is not a version. The error holds the text, for which a
    /// borrowed one is copied.
    ///
    /// ```
    /// use proved_versions::Versioning;
    ///
    /// assert!(Versioning::new("1.2.3-rc.1").is_ok());
    /// assert!(Versioning::new(String::from("1.2.3 ")).is_err());
    /// let versions: Result<Vec<_>, _> = ["1.2", "1.10"].iter().map(Versioning::new).collect();
    /// assert_eq!(versions?.len(), 2);
    /// # Ok::<(), proved_versions::InvalidVersion>(())
    /// ```
    #[inline]
    pub fn new(text: impl Text<'a>) -> Result<Self, InvalidVersion> {
        Versioning::parsed(into_cow(text))
    }

    fn parsed(text: Cow<'a, str>) -> Result<Self, InvalidVersion> {
        match library::parse(&text) {
            Some((kind, key)) => Ok(Versioning {
                text,
                key: Key::new(key, Mixed),
                kind,
            }),
            None => Err(InvalidVersion::mixed(text)),
        }
    }

    /// Parses the version in a tag of git, or in another name of a release. Borrows the end of a `&str`,
    /// and cuts what precedes the version off a `String`. Allocates what [`new`](Versioning::new) does.
    ///
    /// The version begins at the first digit that is at the beginning, or after a separator, or after
    /// one `v` or `V` that is at the beginning or after a separator. A separator is a byte that is
    /// neither an ASCII letter or digit nor a dot. There is none where a dot between two digits comes
    /// before that place.
    ///
    /// # Errors
    ///
    /// [`InvalidVersion`], where there is no version. The error holds the whole tag.
    ///
    /// ```
    /// use proved_versions::Versioning;
    ///
    /// for tag in ["v1.2.3", "release-1.2.3", "refs/tags/v1.2.3", "pkg@1.2.3"] {
    ///     assert_eq!(Versioning::from_tag(tag)?.as_str(), "1.2.3");
    /// }
    /// assert_eq!(Versioning::from_tag("go1.20.3").unwrap_err().text(), "go1.20.3");
    /// # Ok::<(), proved_versions::InvalidVersion>(())
    /// ```
    pub fn from_tag(tag: impl Text<'a>) -> Result<Self, InvalidVersion> {
        let tag = into_cow(tag);
        match library::in_tag(&tag) {
            Some(start) => Versioning::parsed(cut(tag, start)),
            None => Err(InvalidVersion::tag(tag)),
        }
    }

    /// Parses the version in a tag that begins with a prefix: it follows the prefix, or one `v` or `V`
    /// after it. Otherwise as [`from_tag`](Versioning::from_tag).
    ///
    /// # Errors
    ///
    /// [`InvalidVersion`], also where the tag doesn't begin with the prefix. The error holds the
    /// whole tag.
    ///
    /// ```
    /// use proved_versions::Versioning;
    ///
    /// assert_eq!(Versioning::after_prefix("go", "go1.20.3")?.as_str(), "1.20.3");
    /// assert!(Versioning::after_prefix("go", "1.20.3").is_err());
    /// # Ok::<(), proved_versions::InvalidVersion>(())
    /// ```
    pub fn after_prefix(prefix: &str, tag: impl Text<'a>) -> Result<Self, InvalidVersion> {
        let tag = into_cow(tag);
        match library::after_prefix(prefix, &tag) {
            Some(start) => Versioning::parsed(cut(tag, start)),
            None => Err(InvalidVersion::tag(tag)),
        }
    }

    /// Returns the text, as it was given.
    pub fn as_str(&self) -> &str {
        &self.text
    }

    /// Returns the kind, without a call of the library.
    pub fn kind(&self) -> Kind {
        self.kind
    }

    /// Returns whether the version is strict, as `1.2.3-rc.1`.
    pub fn is_ideal(&self) -> bool {
        self.kind == Kind::Ideal
    }

    /// Returns whether the version is general, as `1:2.0rc1-3`.
    pub fn is_general(&self) -> bool {
        self.kind == Kind::General
    }

    /// Returns whether the version is of neither of these kinds, as `20.0026.1_0-2+0.93`.
    pub fn is_complex(&self) -> bool {
        self.kind == Kind::Complex
    }

    /// Returns the number at a place, counted from 0, or `None` if that place has no number. Allocates
    /// nothing.
    ///
    /// A strict version has three places: major, minor and patch. A general version has a place for
    /// each part between its epoch and its release. A part that is a number gives that number. The
    /// last part also gives the number that it begins with, where letters follow that number, and
    /// after them nothing or one more number. A messy version has a place for each part of the
    /// first section that no colon follows, and a part that is digits alone gives their number.
    ///
    /// ```
    /// use proved_versions::Versioning;
    ///
    /// let version = Versioning::new("1:1.a.7d-15").unwrap();
    /// assert_eq!([0, 1, 2, 3].map(|n| version.nth(n)), [Some(1), None, Some(7), None]);
    /// ```
    pub fn nth(&self, n: usize) -> Option<u32> {
        library::nth(&self.text, n)
    }

    /// Returns the number at place 0, as [`nth`](Versioning::nth) does.
    ///
    /// ```
    /// use proved_versions::Versioning;
    ///
    /// let versions = ["1.2.3-rc.1", "1.2", "a.2"].map(|text| Versioning::new(text).unwrap());
    /// let numbers = [0, 1, 2].map(|n: usize| (versions[n].major(), versions[n].patch()));
    /// assert_eq!(numbers, [(Some(1), Some(3)), (Some(1), None), (None, None)]);
    /// ```
    pub fn major(&self) -> Option<u32> {
        self.nth(0)
    }

    /// Returns the number at place 1, as [`nth`](Versioning::nth) does.
    pub fn minor(&self) -> Option<u32> {
        self.nth(1)
    }

    /// Returns the number at place 2, as [`nth`](Versioning::nth) does.
    pub fn patch(&self) -> Option<u32> {
        self.nth(2)
    }

    /// Returns the epoch: the number before the colon, which counts in the order. `None` for a
    /// version without one, as every strict version. Allocates nothing.
    ///
    /// A general version has an epoch if it begins with a number and a colon, a messy version if
    /// it begins with digits and a colon. An epoch above `i64::MAX` gives `i64::MAX`.
    ///
    /// ```
    /// use proved_versions::Versioning;
    ///
    /// let versions = ["1:2.0-3", "8:2007f~dfsg-7", "2.0-3"].map(Versioning::new);
    /// let epochs = versions.map(|version| version.unwrap().epoch());
    /// assert_eq!(epochs, [Some(1), Some(8), None]);
    /// ```
    pub fn epoch(&self) -> Option<u64> {
        library::epoch(&self.text)
    }

    /// Returns the pre-release of a strict version: what follows its hyphen. `None` for a version
    /// without one, and for every version of another kind. Allocates nothing.
    ///
    /// ```
    /// use proved_versions::Versioning;
    ///
    /// let versions = ["1.2.3-rc.1+x86", "1.2.3", "1.2-1"].map(|text| Versioning::new(text).unwrap());
    /// let pre_releases = [0, 1, 2].map(|n: usize| versions[n].pre_release());
    /// assert_eq!(pre_releases, [Some("rc.1"), None, None]);
    /// ```
    pub fn pre_release(&self) -> Option<&str> {
        library::field(&self.text, Field::PreRelease)
    }

    /// Returns the release of a general version: what follows its hyphen. `None` for a version
    /// without one, and for every version of another kind. Allocates nothing.
    ///
    /// ```
    /// use proved_versions::Versioning;
    ///
    /// assert_eq!(Versioning::new("1:2.0rc1-3").unwrap().release(), Some("3"));
    /// assert_eq!(Versioning::new("1.2.3-3").unwrap().release(), None);
    /// ```
    pub fn release(&self) -> Option<&str> {
        library::field(&self.text, Field::Release)
    }

    /// Returns the metadata of a strict or general version: what follows its plus. `None` for a
    /// version without any, and for every messy version. Allocates nothing.
    ///
    /// ```
    /// use proved_versions::Versioning;
    ///
    /// assert_eq!(Versioning::new("1.2.3-rc.1+x86").unwrap().metadata(), Some("x86"));
    /// ```
    pub fn metadata(&self) -> Option<&str> {
        library::field(&self.text, Field::Metadata)
    }

    /// Returns whether this is a strict version with a pre-release (SemVer 2.0, section 9), as
    /// `1.2.0-rc.1`. False for every general or messy version: its text does not say whether it
    /// is a pre-release. Allocates nothing.
    ///
    /// ```
    /// use proved_versions::Versioning;
    ///
    /// let versions = ["1.2.0-rc.1", "1.2.0", "1.2-1"].map(|text| Versioning::new(text).unwrap());
    /// assert_eq!(versions.map(|version| version.is_prerelease()), [true, false, false]);
    /// ```
    pub fn is_prerelease(&self) -> bool {
        library::is_prerelease(&self.text)
    }

    /// Returns how stable the version is, by the words that stand in it. The lowest of them counts.
    /// Allocates nothing.
    ///
    /// A word is a whole run of letters, upper or lower case. Metadata of strict and general versions
    /// doesn't count.
    ///
    /// ```
    /// use proved_versions::{Stability, Versioning};
    ///
    /// let versions = ["1.0-SNAPSHOT", "2.0.0-beta.1", "1.5.0-1"].map(|v| Versioning::new(v).unwrap());
    /// let wanted = [Stability::Dev, Stability::Beta, Stability::Stable];
    /// assert_eq!(versions.map(|version| version.stability()), wanted);
    /// ```
    pub fn stability(&self) -> Stability {
        valid(library::stability(&self.text))
    }

    /// Returns where this version and another one differ first. Allocates nothing.
    ///
    /// ```
    /// use proved_versions::{Difference, Versioning};
    ///
    /// let version = Versioning::new("1.2").unwrap();
    /// let others = ["1.2", "0:1.2", "1:1.2", "1.3", "1.2-1"].map(|text| Versioning::new(text).unwrap());
    /// let differences = others.map(|other| version.difference(&other));
    /// let [same, tie, epoch, part, tail] = differences;
    /// assert_eq!((same, tie, epoch), (Difference::Same, Difference::Tie, Difference::Epoch));
    /// assert_eq!((part, tail), (Difference::Part(1), Difference::Tail));
    /// ```
    pub fn difference(&self, other: &Versioning<'_>) -> Difference {
        valid(library::difference(&self.text, &other.text))
    }

    /// Returns the version that comes next at a place, counted from 0: the least version after this
    /// one that has zeros after the place, the same epoch, as many parts, and nothing after them.
    ///
    /// `None` for a messy version, for a general one of which a part is no number, beyond the parts,
    /// and where a number would be above `u32::MAX`. Allocates the text, and what
    /// [`new`](Versioning::new) does.
    ///
    /// ```
    /// use proved_versions::Versioning;
    ///
    /// let version = Versioning::new("1.2.3-rc.1").unwrap();
    /// let next = [0, 1, 2].map(|place| version.next(place).unwrap().to_string());
    /// assert_eq!(next, ["2.0.0", "1.3.0", "1.2.3"]);
    /// assert!(version.next(3).is_none());
    /// ```
    pub fn next(&self, place: usize) -> Option<Versioning<'static>> {
        let next = library::next(&self.text, place)?;
        Some(valid(Versioning::new(next).ok()))
    }

    /// Returns the version that comes next at the last place of its numbers, as [`next`](Versioning::next)
    /// has it: the release that a pre-release precedes, or the one after a release.
    ///
    /// ```
    /// use proved_versions::Versioning;
    ///
    /// let next = ["1.2.3-rc.1", "1.2.3", "1:1.9-3"]
    ///     .map(|text| Versioning::new(text).unwrap().next_release().unwrap().to_string());
    /// assert_eq!(next, ["1.2.3", "1.2.4", "1:1.10"]);
    /// ```
    pub fn next_release(&self) -> Option<Versioning<'static>> {
        let next = library::next_release(&self.text)?;
        Some(valid(Versioning::new(next).ok()))
    }

    /// Returns the least version after this one with its major and minor numbers whose pre-release is a
    /// word and one number from 1 on. A word is one chunk or more, joined by dots. Without a word, or with
    /// an empty one, it is what stands before the number that its own pre-release ends with.
    ///
    /// `None` for a version that isn't strict, without a word for one whose pre-release doesn't end with
    /// a number, for a word that isn't such chunks, and where the patch would be above `u32::MAX`.
    /// Allocates the text, and what [`new`](Versioning::new) does.
    ///
    /// ```
    /// use proved_versions::Versioning;
    ///
    /// let next = ["1.2.3", "1.2.3-rc.1", "1.2.3-alpha.4"]
    ///     .map(|text| Versioning::new(text).unwrap().next_pre(Some("rc")).unwrap().to_string());
    /// assert_eq!(next, ["1.2.4-rc.1", "1.2.3-rc.2", "1.2.3-rc.1"]);
    /// let version = Versioning::new("1.2.3-rc.1").unwrap();
    /// assert_eq!(version.next_pre(None).unwrap().as_str(), "1.2.3-rc.2");
    /// assert!(Versioning::new("1.2.3").unwrap().next_pre(None).is_none());
    /// ```
    pub fn next_pre(&self, word: Option<&str>) -> Option<Versioning<'static>> {
        let next = library::next_pre(&self.text, word.unwrap_or_default())?;
        Some(valid(Versioning::new(next).ok()))
    }

    /// Compares by precedence, the one order of all kinds. Allocates nothing.
    ///
    /// Different versions may tie, as `1.0` and `0:1.0`; [`Ord`] breaks these ties. The operators
    /// `>`, `>=`, `<` and `<=` of a [`Requirement`](crate::Requirement) go by precedence.
    ///
    /// ```
    /// use std::cmp::Ordering;
    /// use proved_versions::Versioning;
    ///
    /// let [a, b] = ["1.2.0-rc.1", "1.2.0"].map(|text| Versioning::new(text).unwrap());
    /// assert_eq!(a.precedence(&b), Ordering::Less);
    /// ```
    #[inline]
    pub fn precedence(&self, other: &Versioning<'_>) -> Ordering {
        self.key.cmp(&other.key)
    }

    /// Returns the sort key: bytes that compare as versions do by precedence.
    ///
    /// Equal keys are keys of versions that precedence ties. No key is empty, and none begins
    /// another. A key has at most 3 bytes for each byte of the text, and 5 more.
    ///
    /// ```
    /// use proved_versions::Versioning;
    ///
    /// let versions = ["1.9", "1.10rc1", "1.10"].map(|text| Versioning::new(text).unwrap());
    /// assert!(versions[0].sort_key() < versions[1].sort_key());
    /// assert!(versions[1].sort_key() < versions[2].sort_key());
    /// // The key of an index: a package's name, and then its version.
    /// let _key = [b"rust\0", versions[0].sort_key()].concat();
    /// ```
    #[inline]
    pub fn sort_key(&self) -> &[u8] {
        self.key.as_bytes()
    }

    /// Returns the sort key as a [`Key`], which can be the key of a map.
    pub fn key(&self) -> &Key {
        &self.key
    }

    pub(crate) fn into_parts(self) -> (Cow<'a, str>, Key) {
        (self.text, self.key)
    }

    /// Returns the same version, with a text that borrows from this one. Copies the key, and
    /// allocates nothing where that has at most 38 bytes.
    pub fn borrowed(&self) -> Versioning<'_> {
        Versioning {
            text: Cow::Borrowed(&self.text),
            key: self.key.clone(),
            kind: self.kind,
        }
    }

    /// Returns the same version, with a text of its own. Copies a borrowed text.
    ///
    /// A struct that outlives the text that was read holds such a version:
    ///
    /// ```
    /// use proved_versions::{InvalidVersion, Versioning};
    ///
    /// struct Package {
    ///     name: String,
    ///     version: Versioning<'static>,
    /// }
    ///
    /// fn read(line: &str) -> Result<Package, InvalidVersion> {
    ///     let (name, version) = line.split_once(' ').unwrap_or((line, ""));
    ///     let version = Versioning::new(version)?.into_owned();
    ///     Ok(Package { name: name.into(), version })
    /// }
    ///
    /// let package = read(&String::from("zlib 1.3.1"))?;
    /// assert_eq!((&*package.name, package.version.as_str()), ("zlib", "1.3.1"));
    /// # Ok::<(), InvalidVersion>(())
    /// ```
    pub fn into_owned(self) -> Versioning<'static> {
        Versioning {
            text: Cow::Owned(self.text.into_owned()),
            key: self.key,
            kind: self.kind,
        }
    }

    /// Whether a text is this version.
    fn is(&self, text: &str) -> bool {
        library::kind(text).is_some()
            && valid(library::compare_total(&self.text, text).ok()).is_eq()
    }

    /// How this version compares to another one of the same key.
    fn tie(&self, other: &Versioning<'_>) -> Ordering {
        if (self.is_ideal() && other.is_ideal()) || self.text == other.text {
            return Ordering::Equal;
        }
        valid(library::compare_total(&self.text, &other.text).ok())
    }
}

/// The text from a place on, which of a borrowed text is borrowed too.
fn cut(text: Cow<'_, str>, start: usize) -> Cow<'_, str> {
    match text {
        Cow::Borrowed(text) => Cow::Borrowed(&text[start..]),
        Cow::Owned(mut text) => {
            text.drain(..start);
            Cow::Owned(text)
        }
    }
}

/// What the library answers of a text that it has taken for a version before.
fn valid<R>(answer: Option<R>) -> R {
    answer.expect("the library no longer takes the text of a Versioning for a version")
}

impl Ord for Versioning<'_> {
    #[inline]
    fn cmp(&self, other: &Self) -> Ordering {
        match self.precedence(other) {
            Ordering::Equal => self.tie(other),
            order => order,
        }
    }
}

impl<'b> PartialOrd<Versioning<'b>> for Versioning<'_> {
    fn partial_cmp(&self, other: &Versioning<'b>) -> Option<Ordering> {
        Some(self.cmp(other))
    }
}

/// `0.0.0`.
impl Default for Versioning<'_> {
    fn default() -> Self {
        Versioning::new("0.0.0").expect("the library does not take 0.0.0 for a version")
    }
}

/// The strict version of three numbers. Allocates its text, and what [`Versioning::new`] does.
///
/// ```
/// use proved_versions::Versioning;
///
/// assert_eq!(Versioning::from((1, 2, 3)).as_str(), "1.2.3");
/// ```
impl From<(u32, u32, u32)> for Versioning<'_> {
    fn from((major, minor, patch): (u32, u32, u32)) -> Self {
        Versioning::new(format!("{major}.{minor}.{patch}"))
            .expect("the library does not take three numbers for a version")
    }
}

impl Eq for Versioning<'_> {}

impl<'b> PartialEq<Versioning<'b>> for Versioning<'_> {
    #[inline]
    fn eq(&self, other: &Versioning<'b>) -> bool {
        self.key == other.key && self.tie(other).is_eq()
    }
}

impl PartialEq<str> for Versioning<'_> {
    fn eq(&self, text: &str) -> bool {
        self.is(text)
    }
}

impl PartialEq<&str> for Versioning<'_> {
    fn eq(&self, text: &&str) -> bool {
        self.is(text)
    }
}

impl PartialEq<Versioning<'_>> for str {
    fn eq(&self, version: &Versioning<'_>) -> bool {
        version.is(self)
    }
}

impl PartialEq<Versioning<'_>> for &str {
    fn eq(&self, version: &Versioning<'_>) -> bool {
        version.is(self)
    }
}

/// Hashes the sort key, since equal versions have equal keys.
impl Hash for Versioning<'_> {
    fn hash<H: Hasher>(&self, state: &mut H) {
        self.key.hash(state);
    }
}

/// The text, as it was given; width and precision apply as to a `str`.
impl fmt::Display for Versioning<'_> {
    fn fmt(&self, f: &mut fmt::Formatter<'_>) -> fmt::Result {
        f.pad(&self.text)
    }
}

/// As `Versioning("1.2.3")`.
impl fmt::Debug for Versioning<'_> {
    fn fmt(&self, f: &mut fmt::Formatter<'_>) -> fmt::Result {
        f.debug_tuple("Versioning").field(&self.text).finish()
    }
}

impl AsRef<str> for Versioning<'_> {
    fn as_ref(&self) -> &str {
        &self.text
    }
}

/// The text. Copies a borrowed one.
impl From<Versioning<'_>> for String {
    fn from(version: Versioning<'_>) -> String {
        version.text.into_owned()
    }
}

/// Copies the text. [`Versioning::new`] borrows it.
impl FromStr for Versioning<'static> {
    type Err = InvalidVersion;

    fn from_str(text: &str) -> Result<Self, InvalidVersion> {
        Versioning::new(text).map(Versioning::into_owned)
    }
}

impl<'a> TryFrom<&'a str> for Versioning<'a> {
    type Error = InvalidVersion;

    fn try_from(text: &'a str) -> Result<Self, InvalidVersion> {
        Versioning::new(text)
    }
}

impl TryFrom<String> for Versioning<'_> {
    type Error = InvalidVersion;

    fn try_from(text: String) -> Result<Self, InvalidVersion> {
        Versioning::new(text)
    }
}
