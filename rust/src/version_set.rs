use std::fmt;
use std::hash::{Hash, Hasher};
use std::ops::{
    BitAnd, BitAndAssign, BitOr, BitOrAssign, BitXor, BitXorAssign, Bound, Not, Sub, SubAssign,
};
use std::str::FromStr;

use crate::library::{sets, Texts};
use crate::scheme::{AnyScheme, FixedScheme, Mixed, OfScheme};
use crate::text::into_cow;
use crate::{InvalidVersion, InvalidVersionSet, OtherScheme, Scheme, Text, VersionOf};

/// The bounds of the keys of an interval: a low one, which is in it, and a high one, which isn't, if
/// there is one. What [`VersionSet::intervals`] returns.
pub type Interval<'s> = (Bound<&'s [u8]>, Bound<&'s [u8]>);

/// A set of versions, as `>=1.2, <2 || ^3`, of the scheme `S`.
///
/// It is alternatives with `||` between them, each of members with a comma or blanks between them. A
/// member is `*` for all versions, or an operator and a version r. `<r`, `<=r`, `>r` and `>=r` go by
/// the order of the scheme, and so does all else, so versions that compare equal are in a set
/// together: unlike `Requirement("=1.0")`, `=1.0` has `0:1.0`. `=r` or `==r` is what compares equal
/// to r, and `!=r` all else. For Debian's versions `<<` and `>>` are `<` and `>`.
///
/// These are for [`Mixed`] alone: `=r.*` or `==r.*` is what has the epoch of r and begins with its
/// parts, and `!=r.*` all else. `~r`, `~=r` or `~>r` is what is not before r, and has its parts but
/// the last, or its only part; `^r` what is not before r, and has its parts through the first that is
/// not zero, or all.
///
/// ```
/// use proved_versions::scheme::Deb;
/// use proved_versions::{VersionOf, VersionSet, Versioning};
///
/// let wanted = VersionSet::new(">=1.2, <2 || ^3")?;
/// assert!(wanted.contains(&Versioning::new("1.5")?) && !wanted.contains_text("2.1")?);
///
/// let wanted: VersionSet<Deb> = ">=1.2~, <2".parse()?;
/// assert!(wanted.contains(&VersionOf::new("1.2~rc1", Deb)?));
/// # Ok::<(), Box<dyn std::error::Error>>(())
/// ```
///
/// # What is made of sets
///
/// `&a & &b` is what both have, `&a | &b` what one of them has, `&a - &b` what the first alone has,
/// `&a ^ &b` what one alone has, and `!&a` all else; also by value, and as `&=` and the like. Two sets
/// that have the same keys are equal, and hash alike, however they were made. The union of many is
/// collected:
///
/// ```
/// # use proved_versions::{VersionSet, Versioning};
/// let [a, b, c] = [">=1.2", "<2", "^3"].map(|text| VersionSet::new(text).unwrap());
/// assert_eq!(a & b | c, VersionSet::new(">=1.2, <2 || ^3")?);
///
/// let withdrawn = ["1.3", "1.4"].map(|text| Versioning::new(text).unwrap());
/// let withdrawn: VersionSet = withdrawn.map(VersionSet::singleton).into_iter().collect();
/// assert_eq!(VersionSet::new(">=1")? - withdrawn, VersionSet::new(">=1, !=1.3, !=1.4")?);
/// # Ok::<(), proved_versions::InvalidVersionSet>(())
/// ```
///
/// A set is of keys, and a set can have keys but no version, as `>1.2, <1.2-0`.
///
/// Sets of two schemes are of two types, and don't compile together. A `VersionSet<Scheme>` has a
/// scheme that is known at run time; calls on two of these begin with `try_`.
///
/// ```compile_fail,E0308
/// use proved_versions::scheme::{Deb, Rpm};
/// use proved_versions::VersionSet;
///
/// let (a, b): (VersionSet<Deb>, VersionSet<Rpm>) = ("*".parse().unwrap(), "*".parse().unwrap());
/// let both = a & b;
/// ```
///
/// # `Display`
///
/// A set that was read is shown as its text. A key has no text of its own, so a set that was made of
/// others, or of a version, is shown as its intervals in hexadecimal, which is not a text of a set.
///
/// ```
/// # use proved_versions::VersionSet;
/// let set = VersionSet::new("<1.2")?;
/// assert_eq!((set.to_string(), (!&set).to_string()), ("<1.2".into(), "[0003013102030132020202, )".into()));
/// assert_eq!((!&set & set).to_string(), "nothing");
/// # Ok::<(), proved_versions::InvalidVersionSet>(())
/// ```
///
/// # With pubgrub
///
/// The methods of `pubgrub`'s trait `VersionSet` are here by their names, so a type of one's own
/// implements it by one line for each:
///
/// ```
/// # mod pubgrub {
/// #     use std::fmt::{Debug, Display};
/// #     pub trait VersionSet: Debug + Display + Clone + Eq {
/// #         type V: Debug + Display + Clone + Ord;
/// #         fn empty() -> Self;
/// #         fn singleton(v: Self::V) -> Self;
/// #         fn complement(&self) -> Self;
/// #         fn intersection(&self, other: &Self) -> Self;
/// #         fn contains(&self, v: &Self::V) -> bool;
/// #         fn full() -> Self;
/// #         fn union(&self, other: &Self) -> Self;
/// #         fn is_disjoint(&self, other: &Self) -> bool;
/// #         fn subset_of(&self, other: &Self) -> bool;
/// #     }
/// # }
/// use std::fmt;
/// use proved_versions::scheme::Deb;
/// use proved_versions::{VersionOf, VersionSet};
///
/// #[derive(Clone, Debug, PartialEq, Eq)]
/// struct Set(VersionSet<Deb>);
///
/// impl fmt::Display for Set {
///     fn fmt(&self, f: &mut fmt::Formatter<'_>) -> fmt::Result { self.0.fmt(f) }
/// }
///
/// impl pubgrub::VersionSet for Set {
///     type V = VersionOf<'static, Deb>;
///     fn empty() -> Self { Set(VersionSet::empty()) }
///     fn full() -> Self { Set(VersionSet::full()) }
///     fn singleton(v: Self::V) -> Self { Set(VersionSet::singleton(v)) }
///     fn complement(&self) -> Self { Set(self.0.complement()) }
///     fn intersection(&self, other: &Self) -> Self { Set(self.0.intersection(&other.0)) }
///     fn union(&self, other: &Self) -> Self { Set(self.0.union(&other.0)) }
///     fn contains(&self, v: &Self::V) -> bool { self.0.contains(v) }
///     fn is_disjoint(&self, other: &Self) -> bool { self.0.is_disjoint(&other.0) }
///     fn subset_of(&self, other: &Self) -> bool { self.0.subset_of(&other.0) }
/// }
/// # use pubgrub::VersionSet as _;
/// # let one = Set::singleton("1.0".parse().unwrap());
/// # assert!(one.contains(&"1.0-0".parse().unwrap()) && one.subset_of(&Set::full()));
/// # assert!(one.is_disjoint(&one.complement()) && one.intersection(&Set::empty()) == Set::empty());
/// # assert_eq!(one.union(&one.complement()), Set::full());
/// ```
#[derive(Clone)]
pub struct VersionSet<S = Mixed> {
    scheme: S,
    form: Box<[u8]>,
    /// The text that was read.
    text: Option<Box<str>>,
}

impl VersionSet {
    /// Reads a set of the scheme mixed, whose versions are [`Versioning`](crate::Versioning)s.
    ///
    /// Allocates the set's text, its form, and while it reads, what the members may take.
    ///
    /// # Errors
    ///
    /// [`InvalidVersionSet`], where the text is not a set. The error says where it is wrong, and why.
    ///
    /// ```
    /// use proved_versions::VersionSet;
    ///
    /// assert!(VersionSet::new("^1.2 || =3").is_ok());
    /// assert_eq!(VersionSet::new("^1.2 || 3").unwrap_err().place(), 8);
    /// ```
    pub fn new<'t>(text: impl Text<'t>) -> Result<Self, InvalidVersionSet> {
        VersionSet::new_in(text, Mixed)
    }
}

impl<S: AnyScheme> VersionSet<S> {
    /// Reads a set of a scheme. Allocates what [`new`](VersionSet::new) does.
    ///
    /// # Errors
    ///
    /// [`InvalidVersionSet`], where the text is not a set of the scheme. The error says where it is
    /// wrong, and why.
    ///
    /// ```
    /// use proved_versions::scheme::Pypi;
    /// use proved_versions::{Scheme, VersionSet};
    ///
    /// assert!(VersionSet::new_in(">=1.0rc1", Pypi)?.contains_text("1.0c2")?);
    /// let scheme: Scheme = "deb".parse()?;
    /// assert!(VersionSet::new_in("<< 1.0", scheme)?.contains_text("1.0~rc1")?);
    /// let error = VersionSet::new_in("~1.0", scheme).unwrap_err();
    /// let reason = "versions of this scheme have no parts, which ~, ^ and .* ask for";
    /// assert_eq!((error.place(), error.reason()), (1, reason));
    /// # Ok::<(), Box<dyn std::error::Error>>(())
    /// ```
    pub fn new_in<'t>(text: impl Text<'t>, scheme: S) -> Result<Self, InvalidVersionSet> {
        let text = into_cow(text);
        match sets::form(scheme.scheme(), &text) {
            Some(form) => Ok(VersionSet {
                scheme,
                form,
                text: Some(text.into()),
            }),
            None => Err(InvalidVersionSet::new(text, scheme.scheme())),
        }
    }

    /// The set of a form that a call has returned.
    fn computed(scheme: S, form: Box<[u8]>) -> Self {
        VersionSet {
            scheme,
            form,
            text: None,
        }
    }

    /// Returns the set of a version, and of those that compare equal to it. The version may be any, also
    /// one that the text of a set can't have, as `latest`.
    ///
    /// ```
    /// use proved_versions::{VersionSet, Versioning};
    ///
    /// let set = VersionSet::singleton(Versioning::new("1.2").unwrap());
    /// assert_eq!(set, VersionSet::new("=1.2").unwrap());
    /// assert!(set.contains_text("0:1.2").unwrap());
    /// ```
    pub fn singleton(version: impl OfScheme<S>) -> Self {
        let scheme = version.scheme();
        let form = sets::form_of_version(scheme.scheme(), version.text());
        VersionSet::computed(scheme, form)
    }

    /// Returns which scheme the set is of.
    ///
    /// ```
    /// use proved_versions::{Scheme, VersionSet};
    ///
    /// assert_eq!(VersionSet::new("*").unwrap().scheme(), Scheme::Mixed);
    /// ```
    pub fn scheme(&self) -> Scheme {
        self.scheme.scheme()
    }

    /// Returns the text that was read as the set, as it was given; `None` of a set that was made
    /// otherwise.
    ///
    /// ```
    /// use proved_versions::VersionSet;
    ///
    /// let set = VersionSet::new("^1.2").unwrap();
    /// assert_eq!((set.text(), (!&set).text()), (Some("^1.2"), None));
    /// ```
    pub fn text(&self) -> Option<&str> {
        self.text.as_deref()
    }

    /// Returns whether the version that a text is, in the scheme of the set, is in it.
    ///
    /// # Errors
    ///
    /// [`InvalidVersion`], where the text is not a version of that scheme. The error holds a copy of
    /// the text; otherwise nothing is allocated.
    ///
    /// ```
    /// use proved_versions::VersionSet;
    ///
    /// let set = VersionSet::new("^1.2").unwrap();
    /// assert_eq!(["1.5", "2"].map(|text| set.contains_text(text)), [Ok(true), Ok(false)]);
    /// assert!(set.contains_text("1..2").is_err());
    /// ```
    pub fn contains_text(&self, text: &str) -> Result<bool, InvalidVersion> {
        sets::has(&self.form, text).ok_or_else(|| InvalidVersion::new(text, self.scheme()))
    }

    /// Returns the same of many texts, in one call of the library; `None` for a text that is not a
    /// version.
    ///
    /// Allocates, beside the answers, all texts once more, and at most 9 bytes for each text.
    ///
    /// ```
    /// use proved_versions::VersionSet;
    ///
    /// let set = VersionSet::new("^1.2 || =3").unwrap();
    /// assert_eq!(set.contains_texts(&["1.5", "1..2", "2"]), [Some(true), None, Some(false)]);
    /// ```
    pub fn contains_texts<T: AsRef<str>>(&self, texts: &[T]) -> Vec<Option<bool>> {
        sets::has_all(&self.form, &Texts::new(texts))
    }

    /// Whether a version is in the set, whose scheme is that of the version.
    fn has(&self, version: &str) -> bool {
        sets::has(&self.form, version)
            .expect("the library no longer takes the text of a version for one")
    }

    /// Returns the set of all that this one does not have.
    ///
    /// ```
    /// use proved_versions::VersionSet;
    ///
    /// let [a, b] = ["<1.2", ">=1.2"].map(|text| VersionSet::new(text).unwrap());
    /// assert_eq!(a.complement(), b);
    /// ```
    pub fn complement(&self) -> Self {
        VersionSet::computed(self.scheme, sets::not(&self.form))
    }

    /// Returns whether the set has no key, and so no version. Allocates nothing.
    ///
    /// ```
    /// use proved_versions::VersionSet;
    ///
    /// let [none, some] = [">1, <1", ">1"].map(|text| VersionSet::new(text).unwrap());
    /// assert!(none.is_empty() && !some.is_empty());
    /// ```
    pub fn is_empty(&self) -> bool {
        self.intervals().next().is_none()
    }

    /// Returns the intervals of keys that the set is of, which rise. Allocates nothing.
    ///
    /// Each is the bounds of a range in a map by [`Key`](crate::Key):
    ///
    /// ```
    /// use std::collections::BTreeMap;
    /// use proved_versions::{sort_key, Key, VersionSet};
    ///
    /// let mut releases: BTreeMap<Key, &str> = BTreeMap::new();
    /// for text in ["1.9", "1.10", "2.0", "2.1", "3.0"] {
    ///     releases.insert(sort_key(text)?, text);
    /// }
    /// let wanted = VersionSet::new("<1.10 || >2.0")?;
    /// let found = wanted.intervals().flat_map(|keys| releases.range::<[u8], _>(keys));
    /// assert!(found.map(|(_, text)| *text).eq(["1.9", "2.1", "3.0"]));
    /// # Ok::<(), Box<dyn std::error::Error>>(())
    /// ```
    pub fn intervals(&self) -> impl Iterator<Item = Interval<'_>> + Clone {
        (0..).map_while(move |place| {
            let (low, high) = sets::interval(&self.form, place)?;
            let high = high.map_or(Bound::Unbounded, Bound::Excluded);
            Some((Bound::Included(low), high))
        })
    }
}

impl<S: FixedScheme> VersionSet<S> {
    /// Returns the set of no version.
    ///
    /// ```
    /// use proved_versions::scheme::Rpm;
    /// use proved_versions::VersionSet;
    ///
    /// assert!(VersionSet::<Rpm>::empty().is_empty());
    /// ```
    pub fn empty() -> Self {
        VersionSet::full().complement()
    }

    /// Returns the set of all versions, `*`.
    ///
    /// ```
    /// use proved_versions::scheme::Rpm;
    /// use proved_versions::VersionSet;
    ///
    /// assert!(VersionSet::<Rpm>::full().contains_text("1.0^git1").unwrap());
    /// ```
    pub fn full() -> Self {
        VersionSet::new_in("*", S::default()).expect("the library does not take * for a set")
    }

    /// Returns the set of what both have.
    ///
    /// ```
    /// use proved_versions::VersionSet;
    ///
    /// let [a, b, both] = ["<2", ">=1", ">=1 <2"].map(|text| VersionSet::new(text).unwrap());
    /// assert_eq!(a.intersection(&b), both);
    /// ```
    pub fn intersection(&self, other: &Self) -> Self {
        VersionSet::computed(self.scheme, sets::and(&self.form, &other.form))
    }

    /// Returns the set of what one of both has, or each.
    ///
    /// ```
    /// use proved_versions::VersionSet;
    ///
    /// let [a, b, either] = ["<1", ">=1", "*"].map(|text| VersionSet::new(text).unwrap());
    /// assert_eq!(a.union(&b), either);
    /// ```
    pub fn union(&self, other: &Self) -> Self {
        VersionSet::computed(self.scheme, sets::or(&self.form, &other.form))
    }

    /// Returns the set of what it has and the other hasn't.
    ///
    /// ```
    /// use proved_versions::VersionSet;
    ///
    /// let [a, b, rest] = [">=1", "=1.5", ">=1 !=1.5"].map(|text| VersionSet::new(text).unwrap());
    /// assert_eq!(a.difference(&b), rest);
    /// ```
    pub fn difference(&self, other: &Self) -> Self {
        VersionSet::computed(self.scheme, sets::and(&self.form, &sets::not(&other.form)))
    }

    /// Returns the set of what one of both has, and the other hasn't.
    ///
    /// ```
    /// use proved_versions::VersionSet;
    ///
    /// let [a, b, one] = ["<2", ">=1", "<1 || >=2"].map(|text| VersionSet::new(text).unwrap());
    /// assert_eq!(a.symmetric_difference(&b), one);
    /// ```
    pub fn symmetric_difference(&self, other: &Self) -> Self {
        self.difference(other).union(&other.difference(self))
    }

    /// Returns whether a version is in the set: a [`VersionOf<S>`](VersionOf), and in a set of [`Mixed`]
    /// also a [`Versioning`](crate::Versioning). Allocates nothing.
    ///
    /// ```
    /// use proved_versions::scheme::Rpm;
    /// use proved_versions::{VersionOf, VersionSet};
    ///
    /// let set: VersionSet<Rpm> = "<1.0".parse().unwrap();
    /// let versions = ["1.0~rc1", "1.0"].map(|text| VersionOf::new(text, Rpm).unwrap());
    /// assert_eq!(versions.map(|version| set.contains(&version)), [true, false]);
    /// ```
    pub fn contains(&self, version: &impl OfScheme<S>) -> bool {
        self.has(version.text())
    }

    /// Returns whether no key is in both, and so no version is. Allocates nothing.
    ///
    /// ```
    /// use proved_versions::VersionSet;
    ///
    /// let [a, b, c] = ["<2", ">=2", ">1"].map(|text| VersionSet::new(text).unwrap());
    /// assert!(a.is_disjoint(&b) && !a.is_disjoint(&c));
    /// ```
    pub fn is_disjoint(&self, other: &Self) -> bool {
        !sets::meet(&self.form, &other.form)
    }

    /// Returns whether each key that the set has is in the other. Allocates nothing.
    ///
    /// ```
    /// use proved_versions::VersionSet;
    ///
    /// let [a, b] = ["~1.2.3", "^1.2"].map(|text| VersionSet::new(text).unwrap());
    /// assert!(a.subset_of(&b) && !b.subset_of(&a));
    /// ```
    pub fn subset_of(&self, other: &Self) -> bool {
        sets::is_part_of(&self.form, &other.form)
    }
}

/// Calls on what has a scheme that is known at run time. Each returns [`OtherScheme`] where
/// the two are of two schemes.
///
/// ```
/// use proved_versions::{Scheme, VersionOf, VersionSet};
///
/// let set = |text| VersionSet::new_in(text, Scheme::Deb).unwrap();
/// let (a, b) = (set("<<2"), set(">=1.0"));
/// assert_eq!(a.try_intersection(&b), Ok(set(">=1.0, <2")));
/// assert_eq!(a.try_union(&b), Ok(set("*")));
/// assert_eq!((a.try_is_disjoint(&b), a.try_subset_of(&b)), (Ok(false), Ok(false)));
/// assert_eq!(a.try_contains(&VersionOf::new("2~rc1", Scheme::Deb).unwrap()), Ok(true));
///
/// let other = VersionSet::new_in("*", Scheme::Rpm).unwrap();
/// assert!(a.try_intersection(&other).is_err() && a.try_union(&other).is_err());
/// assert!(a.try_is_disjoint(&other).is_err() && a.try_subset_of(&other).is_err());
/// assert!(a.try_contains(&VersionOf::new("2", Scheme::Rpm).unwrap()).is_err());
/// ```
impl VersionSet<Scheme> {
    /// As [`intersection`](VersionSet::intersection).
    ///
    /// # Errors
    ///
    /// [`OtherScheme`], where the sets are of two schemes.
    pub fn try_intersection(&self, other: &Self) -> Result<Self, OtherScheme> {
        OtherScheme::check(self.scheme, other.scheme)?;
        let form = sets::and(&self.form, &other.form);
        Ok(VersionSet::computed(self.scheme, form))
    }

    /// As [`union`](VersionSet::union).
    ///
    /// # Errors
    ///
    /// [`OtherScheme`], where the sets are of two schemes.
    pub fn try_union(&self, other: &Self) -> Result<Self, OtherScheme> {
        OtherScheme::check(self.scheme, other.scheme)?;
        let form = sets::or(&self.form, &other.form);
        Ok(VersionSet::computed(self.scheme, form))
    }

    /// As [`contains`](VersionSet::contains).
    ///
    /// # Errors
    ///
    /// [`OtherScheme`], where the version is of another scheme.
    pub fn try_contains(&self, version: &VersionOf<'_, Scheme>) -> Result<bool, OtherScheme> {
        OtherScheme::check(self.scheme, version.scheme())?;
        Ok(self.has(version.as_str()))
    }

    /// As [`is_disjoint`](VersionSet::is_disjoint).
    ///
    /// # Errors
    ///
    /// [`OtherScheme`], where the sets are of two schemes.
    pub fn try_is_disjoint(&self, other: &Self) -> Result<bool, OtherScheme> {
        OtherScheme::check(self.scheme, other.scheme)?;
        Ok(!sets::meet(&self.form, &other.form))
    }

    /// As [`subset_of`](VersionSet::subset_of).
    ///
    /// # Errors
    ///
    /// [`OtherScheme`], where the sets are of two schemes.
    pub fn try_subset_of(&self, other: &Self) -> Result<bool, OtherScheme> {
        OtherScheme::check(self.scheme, other.scheme)?;
        Ok(sets::is_part_of(&self.form, &other.form))
    }
}

/// Implements an operator of two sets, each by value or by reference.
macro_rules! operator {
    ($operator:ident $name:ident $method:ident: $($one:ty, $other:ty);*) => {$(
        #[doc = concat!("As [`", stringify!($method), "`](VersionSet::", stringify!($method), ").")]
        impl<S: FixedScheme> $operator<$other> for $one {
            type Output = VersionSet<S>;

            fn $name(self, other: $other) -> VersionSet<S> {
                VersionSet::$method(&self, &other)
            }
        }
    )*};
}

/// Implements the assignment of an operator, of a set by value or by reference.
macro_rules! assignment {
    ($operator:ident $name:ident $method:ident: $($other:ty);*) => {$(
        #[doc = concat!("As [`", stringify!($method), "`](VersionSet::", stringify!($method), ").")]
        impl<S: FixedScheme> $operator<$other> for VersionSet<S> {
            fn $name(&mut self, other: $other) {
                *self = VersionSet::$method(self, &other);
            }
        }
    )*};
}

macro_rules! operators {
    ($($operator:ident $name:ident $assigning:ident $assign:ident $method:ident;)*) => {$(
        operator!($operator $name $method:
            VersionSet<S>, VersionSet<S>; VersionSet<S>, &VersionSet<S>;
            &VersionSet<S>, VersionSet<S>; &VersionSet<S>, &VersionSet<S>);
        assignment!($assigning $assign $method: VersionSet<S>; &VersionSet<S>);
    )*};
}

operators! {
    BitAnd bitand BitAndAssign bitand_assign intersection;
    BitOr bitor BitOrAssign bitor_assign union;
    BitXor bitxor BitXorAssign bitxor_assign symmetric_difference;
    Sub sub SubAssign sub_assign difference;
}

/// As [`complement`](VersionSet::complement).
impl<S: AnyScheme> Not for VersionSet<S> {
    type Output = VersionSet<S>;

    fn not(self) -> VersionSet<S> {
        self.complement()
    }
}

/// As [`complement`](VersionSet::complement).
impl<S: AnyScheme> Not for &VersionSet<S> {
    type Output = VersionSet<S>;

    fn not(self) -> VersionSet<S> {
        self.complement()
    }
}

/// The set of no version, as [`empty`](VersionSet::empty) makes it.
impl<S: FixedScheme> Default for VersionSet<S> {
    fn default() -> Self {
        VersionSet::empty()
    }
}

/// The union of all, in time linear in their forms together, times the logarithm of their number.
impl<S: FixedScheme> FromIterator<VersionSet<S>> for VersionSet<S> {
    fn from_iter<I: IntoIterator<Item = VersionSet<S>>>(sets: I) -> Self {
        let mut forms: Vec<Box<[u8]>> = sets.into_iter().map(|set| set.form).collect();
        while forms.len() > 1 {
            forms = forms.chunks(2).map(either).collect();
        }
        match forms.pop() {
            Some(form) => VersionSet::computed(S::default(), form),
            None => VersionSet::empty(),
        }
    }
}

/// The form of the union of one set or two.
fn either(forms: &[Box<[u8]>]) -> Box<[u8]> {
    match forms {
        [one, other] => sets::or(one, other),
        _ => forms.concat().into(),
    }
}

impl<S> Eq for VersionSet<S> {}

/// Whether both have the same keys, and are of one scheme.
impl<S> PartialEq for VersionSet<S> {
    fn eq(&self, other: &Self) -> bool {
        self.form == other.form
    }
}

impl<S> Hash for VersionSet<S> {
    fn hash<H: Hasher>(&self, state: &mut H) {
        self.form.hash(state);
    }
}

/// The text that was read, or else the intervals; width and precision apply as to a `str`.
impl<S: AnyScheme> fmt::Display for VersionSet<S> {
    fn fmt(&self, f: &mut fmt::Formatter<'_>) -> fmt::Result {
        match &self.text {
            Some(text) => f.pad(text),
            None => f.pad(&self.shown_intervals()),
        }
    }
}

impl<S: AnyScheme> VersionSet<S> {
    /// As `[00, 0003) || [01, )`, in hexadecimal.
    fn shown_intervals(&self) -> String {
        let shown = |bound| match bound {
            Bound::Included(key) | Bound::Excluded(key) => hexadecimal(key),
            Bound::Unbounded => String::new(),
        };
        let intervals: Vec<String> = self
            .intervals()
            .map(|(low, high)| format!("[{}, {})", shown(low), shown(high)))
            .collect();
        if intervals.is_empty() {
            "nothing".into()
        } else {
            intervals.join(" || ")
        }
    }
}

fn hexadecimal(bytes: &[u8]) -> String {
    bytes.iter().map(|byte| format!("{byte:02x}")).collect()
}

/// As `VersionSet("<<2", Deb)`, with the intervals without quotes where there is no text.
impl<S: AnyScheme> fmt::Debug for VersionSet<S> {
    fn fmt(&self, f: &mut fmt::Formatter<'_>) -> fmt::Result {
        let mut shown = f.debug_tuple("VersionSet");
        match &self.text {
            Some(text) => shown.field(text),
            None => shown.field(&format_args!("{}", self.shown_intervals())),
        };
        shown.field(&self.scheme()).finish()
    }
}

/// Reads a set of the scheme, as [`new_in`](VersionSet::new_in) does.
impl<S: FixedScheme> FromStr for VersionSet<S> {
    type Err = InvalidVersionSet;

    fn from_str(text: &str) -> Result<Self, InvalidVersionSet> {
        VersionSet::new_in(text, S::default())
    }
}

impl<S: FixedScheme> TryFrom<&str> for VersionSet<S> {
    type Error = InvalidVersionSet;

    fn try_from(text: &str) -> Result<Self, InvalidVersionSet> {
        VersionSet::new_in(text, S::default())
    }
}

impl<S: FixedScheme> TryFrom<String> for VersionSet<S> {
    type Error = InvalidVersionSet;

    fn try_from(text: String) -> Result<Self, InvalidVersionSet> {
        VersionSet::new_in(text, S::default())
    }
}
