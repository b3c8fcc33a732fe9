use std::borrow::{Borrow, Cow};
use std::fmt;
use std::hash::{Hash, Hasher};
use std::iter::FusedIterator;
use std::str::FromStr;

use crate::text::into_cow;
use crate::{library, InvalidRequirement, InvalidVersion, KeyRange, Mismatch, Text, Versioning};

/// A requirement, as `^1.2.3`, or a list of them with commas between, as `>=1.1.1,<2.0.0`.
///
/// The operators are `=`, `>=`, `>`, `<=`, `<`, `~` and `^`, each before a version, and `*` alone.
/// There are no spaces. A list matches the versions that each member matches.
///
/// A requirement holds its text, borrowed or owned, and its [range](Requirement::range) of sort
/// keys. `==` and `Hash` go by the text.
///
/// ```
/// use proved_versions::{Requirement, Versioning};
///
/// let requirement = Requirement::new(">=1.1.1,<2.0.0").unwrap();
/// assert!(requirement.matches(&Versioning::new("1.5").unwrap()));
/// assert!(!requirement.matches(&Versioning::new("2.0.0").unwrap()));
/// ```
#[derive(Clone)]
pub struct Requirement<'a> {
    text: Cow<'a, str>,
    range: KeyRange,
}

impl<'a> Requirement<'a> {
    /// Parses a requirement or a list of them. Borrows a `&str`, and takes a `String` as it is.
    ///
    /// Allocates nothing where the text has at most 41 bytes and each bound of its range at most
    /// 38. Otherwise 3 bytes for each byte of the text, and 5 more, are allocated for each bound; a
    /// bound of more than 38 bytes keeps its part of them.
    ///
    /// # Errors
    ///
    /// [`InvalidRequirement`], where the text is neither. The error holds the text, for which a
    /// borrowed one is copied.
    pub fn new(text: impl Text<'a>) -> Result<Self, InvalidRequirement> {
        let text = into_cow(text);
        match library::range(&text) {
            Some(range) => Ok(Requirement { text, range }),
            None => Err(InvalidRequirement::new(text)),
        }
    }

    /// Returns the text, as it was given.
    pub fn as_str(&self) -> &str {
        &self.text
    }

    /// Returns the range of sort keys that the requirement asks for. Each version that it matches is
    /// in the range.
    ///
    /// ```
    /// use proved_versions::{Requirement, Versioning};
    ///
    /// let mut versions = ["2.0.0", "1.2.9", "1.10.0", "1.2.3"].map(|v| Versioning::new(v).unwrap());
    /// versions.sort();
    /// // In a sorted slice, what a requirement can match lies together.
    /// let requirement = Requirement::new(">=1.2.4,<2.0.0").unwrap();
    /// let range = requirement.range();
    /// let first = versions.partition_point(|version| version.sort_key() < range.low());
    /// let found = requirement.filter(&versions[first..]);
    /// assert!(found.map(Versioning::as_str).eq(["1.2.9", "1.10.0"]));
    /// ```
    pub fn range(&self) -> &KeyRange {
        &self.range
    }

    /// Returns whether the requirement matches a version. Allocates nothing.
    ///
    /// Compares the version's key with the range. The library reads the texts only if the version
    /// is in the range, and the range is not exact.
    #[inline]
    pub fn matches(&self, version: &Versioning<'_>) -> bool {
        self.range.contains(version) && (self.range.is_exact() || self.matches_by_text(version))
    }

    fn matches_by_text(&self, version: &Versioning<'_>) -> bool {
        library::matches(&self.text, version.as_str())
            .expect("the library no longer takes the text of a Versioning for a version")
    }

    /// Returns whether the requirement matches a text, in one scan of the text.
    ///
    /// # Errors
    ///
    /// [`InvalidVersion`], where the text is not a version. The error holds a copy of the text;
    /// otherwise nothing is allocated.
    ///
    /// ```
    /// use proved_versions::Requirement;
    ///
    /// let requirement = Requirement::new("~1.1.1").unwrap();
    /// assert_eq!(requirement.matches_text("1.1.3"), Ok(true));
    /// assert_eq!(requirement.matches_text("1.2.0"), Ok(false));
    /// assert!(requirement.matches_text("1..2").is_err());
    /// ```
    pub fn matches_text(&self, text: &str) -> Result<bool, InvalidVersion> {
        library::match_in_range(&self.range, &self.text, text)
            .ok_or_else(|| InvalidVersion::mixed(text))
    }

    /// Returns why the requirement doesn't match a version, or `None` if it does. Allocates nothing.
    ///
    /// ```
    /// use proved_versions::{Reason, Requirement, Versioning};
    ///
    /// let requirement = Requirement::new("^1.2.3,<1.9.0").unwrap();
    /// let versions = ["1.5", "1.2.2", "1.9.1"].map(|text| Versioning::new(text).unwrap());
    /// let reasons = [0, 1, 2].map(|n: usize| requirement.why_not(&versions[n]).unwrap().reason());
    /// assert_eq!(reasons, [Reason::Kind, Reason::Below, Reason::Above]);
    /// ```
    pub fn why_not<'s>(&'s self, version: &'s Versioning<'_>) -> Option<Mismatch<'s>> {
        if self.range.is_exact() && self.range.contains(version) {
            return None;
        }
        let (list, version) = (self.as_str(), version.as_str());
        library::why_not(list, version).map(|(place, reason)| Mismatch {
            list,
            version,
            place,
            reason,
        })
    }

    /// Returns two members of the list that exclude each other by their ranges, so that no version
    /// matches, or `None`. Both are the same if one member excludes every version. Allocates nothing.
    ///
    /// `None` where the range isn't empty: such a list can still match no version, as `=1.0,=1.0+x`.
    ///
    /// ```
    /// use proved_versions::Requirement;
    ///
    /// let requirement = Requirement::new(">=1.2,*,<1.0").unwrap();
    /// assert_eq!(requirement.conflict(), Some((">=1.2", "<1.0")));
    /// for text in [">=1.2,<2", "=1.0,=1.0+x"] {
    ///     assert_eq!(Requirement::new(text).unwrap().conflict(), None);
    /// }
    /// ```
    pub fn conflict(&self) -> Option<(&str, &str)> {
        let [first, second] = library::conflict(&self.text)?;
        Some((&self.text[first], &self.text[second]))
    }

    /// Returns the versions that the requirement matches, in their order. The items may be [`Versioning`]s or
    /// references to them. The iterator is lazy: it matches a version when it comes to it.
    ///
    /// ```
    /// use proved_versions::{Requirement, Versioning};
    ///
    /// let versions = ["1.0", "1.5", "2.0"].map(|text| Versioning::new(text).unwrap());
    /// let requirement = Requirement::new(">=1.1,<2").unwrap();
    /// let matching: Vec<&Versioning> = requirement.filter(&versions).collect();
    /// assert_eq!(matching, [&versions[1]]);
    /// assert_eq!(requirement.filter(versions).max().unwrap().as_str(), "1.5");
    /// ```
    pub fn filter<'v, I>(&self, versions: I) -> Filter<'_, I::IntoIter>
    where
        I: IntoIterator,
        I::Item: Borrow<Versioning<'v>>,
    {
        Filter {
            requirement: self,
            versions: versions.into_iter(),
        }
    }

    /// Returns the same requirement, with a text of its own. Copies a borrowed text.
    pub fn into_owned(self) -> Requirement<'static> {
        Requirement {
            text: Cow::Owned(self.text.into_owned()),
            range: self.range,
        }
    }
}

/// `*`, which matches every version.
impl Default for Requirement<'_> {
    fn default() -> Self {
        Requirement::new("*").expect("the library does not take * for a requirement")
    }
}

impl Eq for Requirement<'_> {}

impl<'b> PartialEq<Requirement<'b>> for Requirement<'_> {
    fn eq(&self, other: &Requirement<'b>) -> bool {
        self.text == other.text
    }
}

impl Hash for Requirement<'_> {
    fn hash<H: Hasher>(&self, state: &mut H) {
        self.text.hash(state);
    }
}

/// The versions of an iterator that a requirement matches: what [`Requirement::filter`] returns.
#[derive(Clone, Debug)]
#[must_use = "iterators are lazy and do nothing unless consumed"]
pub struct Filter<'r, I> {
    requirement: &'r Requirement<'r>,
    versions: I,
}

impl<'v, I> Iterator for Filter<'_, I>
where
    I: Iterator,
    I::Item: Borrow<Versioning<'v>>,
{
    type Item = I::Item;

    fn next(&mut self) -> Option<I::Item> {
        let requirement = self.requirement;
        self.versions
            .find(|version| requirement.matches(version.borrow()))
    }

    fn size_hint(&self) -> (usize, Option<usize>) {
        (0, self.versions.size_hint().1)
    }
}

impl<'v, I> DoubleEndedIterator for Filter<'_, I>
where
    I: DoubleEndedIterator,
    I::Item: Borrow<Versioning<'v>>,
{
    fn next_back(&mut self) -> Option<I::Item> {
        let requirement = self.requirement;
        self.versions
            .rfind(|version| requirement.matches(version.borrow()))
    }
}

impl<'v, I> FusedIterator for Filter<'_, I>
where
    I: FusedIterator,
    I::Item: Borrow<Versioning<'v>>,
{
}

/// The text, as it was given; width and precision apply as to a `str`.
impl fmt::Display for Requirement<'_> {
    fn fmt(&self, f: &mut fmt::Formatter<'_>) -> fmt::Result {
        f.pad(&self.text)
    }
}

/// As `Requirement("^1.2.3")`.
impl fmt::Debug for Requirement<'_> {
    fn fmt(&self, f: &mut fmt::Formatter<'_>) -> fmt::Result {
        f.debug_tuple("Requirement").field(&self.text).finish()
    }
}

impl AsRef<str> for Requirement<'_> {
    fn as_ref(&self) -> &str {
        &self.text
    }
}

/// The text. Copies a borrowed one.
impl From<Requirement<'_>> for String {
    fn from(requirement: Requirement<'_>) -> String {
        requirement.text.into_owned()
    }
}

/// Copies the text. [`Requirement::new`] borrows it.
impl FromStr for Requirement<'static> {
    type Err = InvalidRequirement;

    fn from_str(text: &str) -> Result<Self, InvalidRequirement> {
        Requirement::new(text).map(Requirement::into_owned)
    }
}

impl<'a> TryFrom<&'a str> for Requirement<'a> {
    type Error = InvalidRequirement;

    fn try_from(text: &'a str) -> Result<Self, InvalidRequirement> {
        Requirement::new(text)
    }
}

impl TryFrom<String> for Requirement<'_> {
    type Error = InvalidRequirement;

    fn try_from(text: String) -> Result<Self, InvalidRequirement> {
        Requirement::new(text)
    }
}
