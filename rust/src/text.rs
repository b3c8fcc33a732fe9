use std::borrow::Cow;

/// What [`Versioning::new`](crate::Versioning::new),
/// [`Requirement::new`](crate::Requirement::new), [`VersionOf::new`](crate::VersionOf::new) and
/// [`VersionSet::new`](crate::VersionSet::new) take: a text that is lent, as a `&str`, `&String`,
/// `&Box<str>`, `&Rc<str>`, `&Arc<str>` or `&Cow<str>`, or as any reference to one of these; or a text
/// that is handed over, as a `String`, a `Box<str>` or a `Cow<str>`.
///
/// A `&&str`, as closures get it, lends for as long as the `&str` in it does:
///
/// ```
/// use proved_versions::Versioning;
///
/// fn versions<'a>(texts: &[&'a str]) -> Vec<Versioning<'a>> {
///     texts.iter().flat_map(Versioning::new).collect()
/// }
/// assert_eq!(versions(&["1.2", "1..2", "1.10"]).len(), 2);
/// ```
///
/// Not every `AsRef<str>` is a `Text`, since a version that borrows its text has to know how long it
/// is lent. Where the type is another one, or a parameter, `as_ref()` lends the text, and
/// `as_ref().parse()` copies it.
///
/// ```
/// use proved_versions::{InvalidVersion, Versioning};
///
/// fn lent<S: AsRef<str>>(text: &S) -> Result<Versioning<'_>, InvalidVersion> {
///     Versioning::new(text.as_ref())
/// }
/// fn owned<S: AsRef<str>>(text: S) -> Result<Versioning<'static>, InvalidVersion> {
///     text.as_ref().parse()
/// }
/// assert_eq!(lent(&"1.2")?, owned(String::from("1.2"))?);
/// # Ok::<(), InvalidVersion>(())
/// ```
///
/// No other crate can implement it.
pub trait Text<'a>: sealed::IntoCow<'a> {}

impl<'a, T: sealed::IntoCow<'a>> Text<'a> for T {}

/// What is no [`Text`], and a version that would outlive its text.
///
/// ```compile_fail,E0277
/// let text: std::rc::Rc<str> = "1.2".into();
/// let version = proved_versions::Versioning::new(text);
/// ```
///
/// ```compile_fail,E0277
/// let text: std::sync::Arc<str> = "1.2".into();
/// let version = proved_versions::Versioning::new(text);
/// ```
///
/// ```compile_fail,E0277
/// let mut text = String::from("1.2");
/// let version = proved_versions::Versioning::new(&mut text);
/// ```
///
/// ```compile_fail,E0277
/// struct Tag(String);
/// impl AsRef<str> for Tag {
///     fn as_ref(&self) -> &str {
///         &self.0
///     }
/// }
/// let tag = Tag(String::from("1.2"));
/// let version = proved_versions::Versioning::new(&tag);
/// ```
///
/// ```compile_fail,E0277
/// fn is_version<S: AsRef<str>>(text: S) -> bool {
///     proved_versions::Versioning::new(text).is_ok()
/// }
/// ```
///
/// ```compile_fail,E0515
/// fn version() -> proved_versions::Versioning<'static> {
///     let text = String::from("1.2");
///     proved_versions::Versioning::new(&text).unwrap()
/// }
/// ```
#[cfg(doctest)]
struct Refused;

/// The text, without a copy.
pub(crate) fn into_cow<'a>(text: impl Text<'a>) -> Cow<'a, str> {
    sealed::IntoCow::into_cow(text)
}

mod sealed {
    use std::borrow::Cow;
    use std::rc::Rc;
    use std::sync::Arc;

    pub trait IntoCow<'a> {
        fn into_cow(self) -> Cow<'a, str>;
    }

    /// A text that is lent, however many references lead to it.
    pub trait Lent<'a>: Copy {
        fn lent(self) -> &'a str;
    }

    impl<'a, T: Lent<'a>> Lent<'a> for &T {
        fn lent(self) -> &'a str {
            (*self).lent()
        }
    }

    impl<'a> Lent<'a> for &'a str {
        fn lent(self) -> &'a str {
            self
        }
    }

    impl<'a> Lent<'a> for &'a String {
        fn lent(self) -> &'a str {
            self
        }
    }

    impl<'a> Lent<'a> for &'a Box<str> {
        fn lent(self) -> &'a str {
            self
        }
    }

    impl<'a> Lent<'a> for &'a Rc<str> {
        fn lent(self) -> &'a str {
            self
        }
    }

    impl<'a> Lent<'a> for &'a Arc<str> {
        fn lent(self) -> &'a str {
            self
        }
    }

    impl<'a> Lent<'a> for &'a Cow<'_, str> {
        fn lent(self) -> &'a str {
            self
        }
    }

    impl<'a, T: Lent<'a>> IntoCow<'a> for T {
        fn into_cow(self) -> Cow<'a, str> {
            Cow::Borrowed(self.lent())
        }
    }

    impl<'a> IntoCow<'a> for String {
        fn into_cow(self) -> Cow<'a, str> {
            Cow::Owned(self)
        }
    }

    impl<'a> IntoCow<'a> for Box<str> {
        fn into_cow(self) -> Cow<'a, str> {
            Cow::Owned(self.into())
        }
    }

    impl<'a> IntoCow<'a> for Cow<'a, str> {
        fn into_cow(self) -> Cow<'a, str> {
            self
        }
    }
}
