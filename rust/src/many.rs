use crate::library::{self, Texts};
use crate::{Kind, Requirement, Scheme, Stability};

/// Returns the kind of each text, as [`kind`](crate::kind()) returns it, in one call of the library.
///
/// Allocates, beside the answers, all texts once more, and at most 9 bytes for each text.
///
/// ```
/// use proved_versions::{kinds, Kind};
///
/// assert_eq!(kinds(&["1.2.3", "1..2", "1.2"]), [Some(Kind::Ideal), None, Some(Kind::General)]);
/// ```
pub fn kinds<T: AsRef<str>>(texts: &[T]) -> Vec<Option<Kind>> {
    library::kinds(&Texts::new(texts))
}

/// Returns the sort key of each text, as [`sort_key`](crate::sort_key) returns it, in one call of the
/// library. A text that is not a version has no key.
///
/// The answer is two allocations. Beside these, all texts are allocated once more, and 8 bytes for
/// each. While the keys are made, their allocation has 3 bytes for each byte of the texts, and 5 for
/// each text.
///
/// ```
/// use proved_versions::sort_keys;
///
/// let keys = sort_keys(&["1.10", "1..2", "1.9"]);
/// assert!(keys.get(2) < keys.get(0));
/// assert_eq!(keys.get(1), None);
/// ```
pub fn sort_keys<T: AsRef<str>>(texts: &[T]) -> SortKeys {
    Scheme::Mixed.sort_keys(texts)
}

/// Returns whether a requirement matches each text, in one call of the library; `None` for a text
/// that is not a version.
///
/// Allocates, beside the answers, all texts once more, and at most 9 bytes for each text.
///
/// ```
/// use proved_versions::{match_all, Requirement};
///
/// let requirement = Requirement::new("^1.2.0").unwrap();
/// let answers = match_all(&requirement, &["1.3.0", "1..2", "1.1.0"]);
/// assert_eq!(answers, [Some(true), None, Some(false)]);
/// ```
pub fn match_all<T: AsRef<str>>(requirement: &Requirement<'_>, texts: &[T]) -> Vec<Option<bool>> {
    let texts = Texts::new(texts);
    if requirement.range().is_exact() {
        library::in_range_all(requirement.range(), &texts)
    } else {
        library::match_all(requirement.as_str(), &texts)
    }
}

/// Returns how stable each version is, in one call of the library; `None` for a text that is not a
/// version.
///
/// Allocates, beside the answers, all texts once more, and at most 9 bytes for each text.
///
/// ```
/// use proved_versions::{stabilities, Stability};
///
/// let answers = stabilities(&["1.0", "1..2", "1.0rc1"]);
/// assert_eq!(answers, [Some(Stability::Stable), None, Some(Stability::Rc)]);
/// ```
pub fn stabilities<T: AsRef<str>>(texts: &[T]) -> Vec<Option<Stability>> {
    library::stabilities(&Texts::new(texts))
}

/// Returns the version in each tag, as [`Versioning::from_tag`](crate::Versioning::from_tag) finds it,
/// in one call of the library: the end of the text, or `None` where there is no version.
///
/// Allocates, beside the answers, all texts once more, and at most 24 bytes for each text.
///
/// ```
/// use proved_versions::in_tags;
///
/// let answers = in_tags(&["v1.2.3", "latest", "release-1.10"]);
/// assert_eq!(answers, [Some("1.2.3"), None, Some("1.10")]);
/// ```
pub fn in_tags<T: AsRef<str>>(texts: &[T]) -> Vec<Option<&str>> {
    let starts = library::in_tags(&Texts::new(texts));
    let versions = texts.iter().zip(starts).map(|(text, start)| {
        let version = &text.as_ref()[start..];
        Some(version).filter(|version| !version.is_empty())
    });
    versions.collect()
}

/// Returns the newest text, in one call of the library: the first that no other comes after by
/// precedence, among the versions that a requirement matches and that are at least so stable.
/// `None` if no version is left.
///
/// `Requirement::default()` matches every version, and `Stability::Dev` is the lowest.
///
/// Allocates all texts once more, and 8 bytes for each text.
///
/// ```
/// use proved_versions::{newest, Requirement, Stability};
///
/// let texts = ["1.10", "2.0rc1", "1.9", "not a version"];
/// let any = Requirement::default();
/// assert_eq!(newest(&texts, &any, Stability::Dev), Some(&"2.0rc1"));
/// assert_eq!(newest(&texts, &any, Stability::Stable), Some(&"1.10"));
/// assert_eq!(newest(&texts, &Requirement::new("<1.9")?, Stability::Dev), None);
/// # Ok::<(), proved_versions::InvalidRequirement>(())
/// ```
pub fn newest<'t, T: AsRef<str>>(
    texts: &'t [T],
    requirement: &Requirement<'_>,
    least: Stability,
) -> Option<&'t T> {
    let place = library::newest(&Texts::new(texts), requirement.as_str(), least, false)?;
    Some(&texts[place])
}

/// Returns the newest tag, as [`newest`] does of texts, by the version in each tag, as
/// [`Versioning::from_tag`](crate::Versioning::from_tag) finds it.
///
/// ```
/// use proved_versions::{newest_tag, Requirement, Stability};
///
/// let tags = ["v1.10.0", "latest", "v2.0.0", "v2.0.0-beta.1"];
/// let newest = newest_tag(&tags, &Requirement::default(), Stability::Stable);
/// assert_eq!(newest, Some(&"v2.0.0"));
/// ```
pub fn newest_tag<'t, T: AsRef<str>>(
    tags: &'t [T],
    requirement: &Requirement<'_>,
    least: Stability,
) -> Option<&'t T> {
    let place = library::newest(&Texts::new(tags), requirement.as_str(), least, true)?;
    Some(&tags[place])
}

/// Returns the places of the texts in the order of their versions, the least version first.
///
/// The order is that of `Ord` of [`Versioning`](crate::Versioning). Texts that compare equal keep their
/// order, as in a stable sort. Texts that are not versions come last, in their order too.
///
/// Allocates, beside the answer, 4 bytes for each byte of the texts, and at most 29 for each text.
///
/// ```
/// assert_eq!(proved_versions::order(&["1.10", "1..2", "1.9", "1.10rc1"]), [2, 3, 0, 1]);
/// ```
pub fn order<T: AsRef<str>>(texts: &[T]) -> Vec<usize> {
    Scheme::Mixed.order(texts)
}

/// Sorts texts into the order of their versions, as [`order`] has it: stable, and texts that are
/// not versions last.
///
/// Allocates what [`order`] does. The texts are swapped in place, in linear time.
///
/// ```
/// let mut texts = ["1.10", "1..2", "1.9", "1.10rc1"];
/// proved_versions::sort(&mut texts);
/// assert_eq!(texts, ["1.9", "1.10rc1", "1.10", "1..2"]);
/// ```
pub fn sort<T: AsRef<str>>(texts: &mut [T]) {
    let order = order(texts);
    permute(texts, order);
}

/// Puts texts into an order, which has every place once.
pub(crate) fn permute<T>(texts: &mut [T], mut order: Vec<usize>) {
    // Each cycle of the permutation is followed from `start`; a place that is done names itself.
    for start in 0..texts.len() {
        let mut place = start;
        while order[place] != start {
            let next = order[place];
            texts.swap(place, next);
            order[place] = place;
            place = next;
        }
        order[place] = place;
    }
}

/// The sort keys of many texts, in one allocation, with their offsets in another: what
/// [`sort_keys`] returns.
#[derive(Clone, Debug, PartialEq, Eq)]
pub struct SortKeys {
    keys: Vec<u8>,
    offsets: Vec<i64>,
}

impl SortKeys {
    pub(crate) fn new((keys, offsets): (Vec<u8>, Vec<i64>)) -> Self {
        SortKeys { keys, offsets }
    }

    /// Returns the key of the text at a place, or `None` if that text is not a version or there is
    /// no such place. No key is empty.
    pub fn get(&self, place: usize) -> Option<&[u8]> {
        if place < self.len() {
            self.between(self.offsets[place], self.offsets[place + 1])
        } else {
            None
        }
    }

    /// Returns how many texts there were, versions or not.
    pub fn len(&self) -> usize {
        self.offsets.len() - 1
    }

    /// Returns whether there was no text.
    pub fn is_empty(&self) -> bool {
        self.len() == 0
    }

    /// Returns an iterator over what [`get`](SortKeys::get) returns of each place in turn.
    ///
    /// ```
    /// let keys = proved_versions::sort_keys(&["1.10", "1..2", "1.9"]);
    /// assert_eq!(keys.iter().flatten().count(), 2);
    /// assert_eq!(keys.iter().max(), Some(keys.get(0)));
    /// ```
    pub fn iter(
        &self,
    ) -> impl ExactSizeIterator<Item = Option<&[u8]>> + DoubleEndedIterator + Clone + '_ {
        self.offsets
            .windows(2)
            .map(move |ends| self.between(ends[0], ends[1]))
    }

    /// A text that is not a version has an empty key, which no version has.
    fn between(&self, start: i64, end: i64) -> Option<&[u8]> {
        Some(&self.keys[start as usize..end as usize]).filter(|key| !key.is_empty())
    }
}
