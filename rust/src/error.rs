use std::error::Error;
use std::fmt;
use std::ops::Range;

use crate::library::{self, schemes, sets};
use crate::Scheme;

/// The error for a text that is not a version of a scheme, which is [`Scheme::Mixed`] where none is
/// named. It holds the whole text, and says how far that could become a version, and why no further:
/// not of a tag that has none.
///
/// ```
/// use proved_versions::{Scheme, Versioning};
///
/// let error = Versioning::new("1..2").unwrap_err();
/// assert_eq!(error.to_string(), r#"not a version: "1..2"; at byte 2: an empty part"#);
/// assert_eq!((error.text(), error.scheme()), ("1..2", Scheme::Mixed));
/// assert_eq!((error.place(), error.reason().as_deref()), (Some(2), Some("an empty part")));
/// let error = Scheme::Deb.sort_key("1-").unwrap_err();
/// assert_eq!(
///     error.to_string(),
///     r#"not a version of deb: "1-"; at byte 2: nothing after the hyphen"#
/// );
/// ```
#[derive(Clone, Debug, PartialEq, Eq, Hash)]
pub struct InvalidVersion {
    text: String,
    scheme: Scheme,
    is_tag: bool,
}

/// The error for a text that is not a requirement, nor a list of them. It holds the whole text, and
/// where the first of its members that is wrong lies: of the pieces between the commas.
///
/// ```
/// let error = proved_versions::Requirement::new(">=1.0, <2.0").unwrap_err();
/// assert_eq!((error.member(), error.place()), (" <2.0", 6..11));
/// assert_eq!(
///     error.to_string(),
///     r#"not a requirement: ">=1.0, <2.0"; its member " <2.0" at byte 6 is wrong; a list looks like ">=1.2,<2""#
/// );
/// assert_eq!(error.into_text(), ">=1.0, <2.0");
/// ```
#[derive(Clone, Debug, PartialEq, Eq, Hash)]
pub struct InvalidRequirement {
    text: String,
    member: Range<usize>,
}

/// The error for a text that is not a set of versions of a scheme. It holds the whole text, the place
/// where its first wrong piece begins, and why that is wrong.
///
/// ```
/// let error = proved_versions::VersionSet::new(">=1.2,").unwrap_err();
/// assert_eq!((error.place(), error.reason()), (6, "a member is missing: * has all versions"));
/// assert_eq!(
///     error.to_string(),
///     r#"not a set of versions: ">=1.2,"; at byte 6: a member is missing: * has all versions"#
/// );
/// ```
#[derive(Clone, Debug, PartialEq, Eq, Hash)]
pub struct InvalidVersionSet {
    text: String,
    scheme: Scheme,
    place: usize,
    reason: String,
}

/// The error for a version or a set that is of another [`Scheme`] than is wanted.
///
/// ```
/// use proved_versions::{Scheme, VersionSet};
///
/// let [a, b] = [Scheme::Deb, Scheme::Rpm].map(|scheme| VersionSet::new_in("*", scheme).unwrap());
/// let error = a.try_union(&b).unwrap_err();
/// assert_eq!((error.wanted(), error.found()), (Scheme::Deb, Scheme::Rpm));
/// assert_eq!(error.to_string(), "versions of deb are wanted, and this is of rpm");
/// ```
#[derive(Clone, Copy, Debug, PartialEq, Eq, Hash)]
pub struct OtherScheme {
    wanted: Scheme,
    found: Scheme,
}

/// The error for a text that is not the name of a [`Kind`](crate::Kind), a
/// [`Stability`](crate::Stability) or a [`Scheme`], whichever is parsed. It holds the whole text.
///
/// ```
/// let error = "Ideal".parse::<proved_versions::Kind>().unwrap_err();
/// assert_eq!(error.to_string(), r#"not one of ideal, general, complex: "Ideal""#);
/// assert_eq!(error.text(), "Ideal");
/// ```
#[derive(Clone, Debug, PartialEq, Eq, Hash)]
pub struct InvalidName {
    text: String,
    names: &'static [&'static str],
}

impl InvalidVersion {
    pub(crate) fn new(text: impl Into<String>, scheme: Scheme) -> Self {
        InvalidVersion {
            text: text.into(),
            scheme,
            is_tag: false,
        }
    }

    /// The error for a tag that has no version, which may be one itself.
    pub(crate) fn tag(tag: impl Into<String>) -> Self {
        InvalidVersion {
            is_tag: true,
            ..InvalidVersion::mixed(tag)
        }
    }

    pub(crate) fn mixed(text: impl Into<String>) -> Self {
        InvalidVersion::new(text, Scheme::Mixed)
    }

    /// Returns the text that is not a version.
    pub fn text(&self) -> &str {
        &self.text
    }

    /// Returns the scheme that it was read in.
    pub fn scheme(&self) -> Scheme {
        self.scheme
    }

    /// Returns how many bytes of the text could begin a version; `None` where a tag has none. Asks the
    /// library, in time linear in the text.
    pub fn place(&self) -> Option<usize> {
        self.wrong().map(|(place, _)| place)
    }

    /// Returns what stands at that place, or how the text ends there: a phrase in English without a
    /// full stop. As [`place`](InvalidVersion::place).
    pub fn reason(&self) -> Option<String> {
        self.wrong().map(|(_, reason)| reason)
    }

    fn wrong(&self) -> Option<(usize, String)> {
        if self.is_tag {
            return None;
        }
        Some(schemes::wrong(self.scheme, &self.text))
    }

    /// Returns the text, as the `String` that the error held.
    pub fn into_text(self) -> String {
        self.text
    }
}

impl InvalidRequirement {
    pub(crate) fn new(text: impl Into<String>) -> Self {
        let text = text.into();
        let member = library::wrong_member(&text);
        InvalidRequirement { text, member }
    }

    /// Returns the text that is not a requirement.
    pub fn text(&self) -> &str {
        &self.text
    }

    /// Returns the first member that is not a requirement, which may be empty.
    pub fn member(&self) -> &str {
        &self.text[self.place()]
    }

    /// Returns where that member lies in the text, in bytes.
    pub fn place(&self) -> Range<usize> {
        self.member.clone()
    }

    /// Returns the same, as the `String` that the error held.
    pub fn into_text(self) -> String {
        self.text
    }
}

impl InvalidVersionSet {
    pub(crate) fn new(text: impl Into<String>, scheme: Scheme) -> Self {
        let text = text.into();
        let (place, reason) = sets::wrong(scheme, &text);
        InvalidVersionSet {
            text,
            scheme,
            place,
            reason,
        }
    }

    /// Returns the text that is not a set.
    pub fn text(&self) -> &str {
        &self.text
    }

    /// Returns the scheme that it was read in.
    pub fn scheme(&self) -> Scheme {
        self.scheme
    }

    /// Returns where the first wrong piece begins, in bytes: at the end of the text where something is
    /// missing there.
    pub fn place(&self) -> usize {
        self.place
    }

    /// Returns why that piece is wrong, and what to write: a sentence in English without a full stop.
    pub fn reason(&self) -> &str {
        &self.reason
    }

    /// Returns the text, as the `String` that the error held.
    pub fn into_text(self) -> String {
        self.text
    }
}

impl OtherScheme {
    /// The error, where two schemes differ.
    pub(crate) fn check(wanted: Scheme, found: Scheme) -> Result<(), Self> {
        if wanted == found {
            Ok(())
        } else {
            Err(OtherScheme { wanted, found })
        }
    }

    /// Returns the scheme that is wanted.
    pub fn wanted(&self) -> Scheme {
        self.wanted
    }

    /// Returns the scheme that was found.
    pub fn found(&self) -> Scheme {
        self.found
    }
}

impl InvalidName {
    /// The place of a name among others.
    pub(crate) fn place(names: &'static [&'static str], text: &str) -> Result<usize, Self> {
        let place = names.iter().position(|name| *name == text);
        place.ok_or_else(|| InvalidName::new(names, text))
    }

    pub(crate) fn new(names: &'static [&'static str], text: &str) -> Self {
        InvalidName {
            text: text.into(),
            names,
        }
    }

    /// Returns the text that is not a name.
    pub fn text(&self) -> &str {
        &self.text
    }

    /// Returns the same, as the `String` that the error held.
    pub fn into_text(self) -> String {
        self.text
    }
}

impl fmt::Display for InvalidVersion {
    fn fmt(&self, f: &mut fmt::Formatter<'_>) -> fmt::Result {
        write!(f, "not a version{}: {:?}", Of(self.scheme), self.text)?;
        match self.wrong() {
            Some((place, reason)) => write!(f, "; at byte {place}: {reason}"),
            None => Ok(()),
        }
    }
}

impl fmt::Display for InvalidRequirement {
    fn fmt(&self, f: &mut fmt::Formatter<'_>) -> fmt::Result {
        write!(f, "not a requirement: {:?}", self.text)?;
        if self.member() != self.text {
            let (member, start) = (self.member(), self.member.start);
            write!(f, "; its member {member:?} at byte {start} is wrong")?;
        }
        f.write_str(r#"; a list looks like ">=1.2,<2""#)
    }
}

impl fmt::Display for InvalidVersionSet {
    fn fmt(&self, f: &mut fmt::Formatter<'_>) -> fmt::Result {
        let (of, text) = (Of(self.scheme), &self.text);
        let (place, reason) = (self.place, &self.reason);
        write!(
            f,
            "not a set of versions{of}: {text:?}; at byte {place}: {reason}"
        )
    }
}

/// ` of deb`; nothing of `mixed`.
struct Of(Scheme);

impl fmt::Display for Of {
    fn fmt(&self, f: &mut fmt::Formatter<'_>) -> fmt::Result {
        match self.0 {
            Scheme::Mixed => Ok(()),
            scheme => write!(f, " of {scheme}"),
        }
    }
}

impl fmt::Display for OtherScheme {
    fn fmt(&self, f: &mut fmt::Formatter<'_>) -> fmt::Result {
        let OtherScheme { wanted, found } = self;
        write!(f, "versions of {wanted} are wanted, and this is of {found}")
    }
}

impl fmt::Display for InvalidName {
    fn fmt(&self, f: &mut fmt::Formatter<'_>) -> fmt::Result {
        write!(f, "not one of {}: {:?}", self.names.join(", "), self.text)
    }
}

impl Error for InvalidVersion {}

impl Error for InvalidRequirement {}

impl Error for InvalidVersionSet {}

impl Error for OtherScheme {}

impl Error for InvalidName {}
