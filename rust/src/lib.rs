//! Versioning numbers of any shape: which texts are versions, how versions compare, and which versions
//! a requirement matches or a set has.
//!
//! ```
//! use proved_versions::{sort, Requirement, Versioning};
//!
//! let mut texts = ["1.10", "1.9", "1.10rc1"];
//! sort(&mut texts);
//! assert_eq!(texts, ["1.9", "1.10rc1", "1.10"]);
//!
//! let version: Versioning = "1.2.0-rc.1".parse()?;
//! assert!(version.is_ideal() && version < Versioning::new("1.2.0")?);
//! assert!(Requirement::new(">=1.1,<1.2.0")?.matches(&version));
//! # Ok::<(), Box<dyn std::error::Error>>(())
//! ```
//!
//! Sets of versions are [`VersionSet`]s. Other systems' orders, as Debian's, are [`Scheme`]s: of texts
//! by its calls, and of values by the types of the module [`scheme`], as [`VersionOf<Deb>`].
//!
//! [`VersionOf<Deb>`]: VersionOf
//!
//! Every answer is one of the library for C, `libversions.a`, in which each function is proved to
//! meet its contract. This crate passes texts to it and hands its answers on, and has no rule of
//! versions of its own. `build.rs` links the library from the folder that the environment variable
//! `VERSIONS_LIB_DIR` names, or else from the one that `pkg-config` names.
//!
//! # Texts
//!
//! A text is a `&str` of any length, since bytes that are not UTF-8 are not a version. A NUL byte is
//! a byte like any other.
//!
//! # Threads
//!
//! The library has no state. Every type here is `Send` and `Sync`, and any thread may make any call.
//!
//! # Panics
//!
//! A call panics where the library that was linked answers what its header does not allow, and
//! where an allocation of more than `isize::MAX` bytes would be needed. An allocation failure
//! ends the program, as elsewhere in Rust; the library itself allocates nothing.
//!
//! # Names
//!
//! The names are those of the crate `versions`, whose `Version` is its type of general versions
//! alone. Here no type has that name, so that a changed import is an error:
//!
//! ```compile_fail,E0432
//! use proved_versions::Version;
//! ```
//!
//! # Features
//!
//! `serde`: [`Versioning`], [`VersionOf`], [`Requirement`] and [`VersionSet`] are serialized as their
//! texts, [`Kind`], [`Stability`] and [`Scheme`] as their names, and all are deserialized from texts. A
//! set that was made of others has no text, and is an error. A [`Key`] is bytes, and in a format that
//! people read a text of their hexadecimal digits, which can be the key of a map. Values whose scheme
//! is known at run time have no serde, since a text doesn't say of which scheme it is.
#![deny(missing_docs, unsafe_code, unsafe_op_in_unsafe_fn)]

use std::cmp::Ordering;

/// The examples of README.md are tests.
#[cfg(doctest)]
#[doc = include_str!("../README.md")]
struct Readme;

#[macro_use]
#[rustfmt::skip]
mod each_scheme;

mod bytes;
#[allow(unsafe_code)]
#[rustfmt::skip]
mod declarations;
mod difference;
mod error;
mod key;
mod kind;
mod library;
mod many;
mod mismatch;
mod range;
mod requirement;
pub mod scheme;
#[cfg(feature = "serde")]
mod serde;
mod stability;
mod text;
mod version_of;
mod version_set;
mod versioning;

pub use difference::Difference;
pub use error::{InvalidName, InvalidRequirement, InvalidVersion, InvalidVersionSet, OtherScheme};
pub use key::Key;
pub use kind::Kind;
pub use many::{
    in_tags, kinds, match_all, newest, newest_tag, order, sort, sort_keys, stabilities, SortKeys,
};
pub use mismatch::{Mismatch, Reason};
pub use range::KeyRange;
pub use requirement::{Filter, Requirement};
#[doc(inline)]
pub use scheme::Scheme;
pub use stability::Stability;
pub use text::Text;
pub use version_of::VersionOf;
pub use version_set::{Interval, VersionSet};
pub use versioning::Versioning;

/// Returns the kind of a text, or `None` if it is not a version. Allocates nothing.
///
/// ```
/// use proved_versions::{kind, Kind};
///
/// assert_eq!(kind("1.2.3"), Some(Kind::Ideal));
/// assert_eq!(kind("1.2.3 "), None);
/// ```
pub fn kind(text: &str) -> Option<Kind> {
    library::kind(text)
}

/// Compares two texts by precedence, the one order of all kinds, as [`Versioning::precedence`] does.
///
/// # Errors
///
/// [`InvalidVersion`], with a copy of the first text that is not a version. Otherwise nothing is
/// allocated.
///
/// ```
/// use std::cmp::Ordering;
/// use proved_versions::compare;
///
/// assert_eq!(compare("1.2.0-rc.1", "1.2.0"), Ok(Ordering::Less));
/// assert_eq!(compare("1.0", "0:1.0"), Ok(Ordering::Equal));
/// assert_eq!(compare("1.0", "1..2").unwrap_err().text(), "1..2");
/// ```
pub fn compare(a: &str, b: &str) -> Result<Ordering, InvalidVersion> {
    Scheme::Mixed.compare(a, b)
}

/// Compares two texts in the total order, as `Ord` of [`Versioning`] does: by precedence, with ties
/// broken by kind and then field by field.
///
/// The answer is `Equal` only if both are the same version, apart from the metadata of strict ones.
///
/// # Errors
///
/// As those of [`compare`].
///
/// ```
/// use std::cmp::Ordering;
/// use proved_versions::compare_total;
///
/// assert_eq!(compare_total("1.0", "0:1.0"), Ok(Ordering::Less));
/// assert_eq!(compare_total("1.0.0+a", "1.0.0+b"), Ok(Ordering::Equal));
/// ```
pub fn compare_total(a: &str, b: &str) -> Result<Ordering, InvalidVersion> {
    library::compare_total(a, b).map_err(InvalidVersion::mixed)
}

/// Returns the sort key of a text, as [`Versioning::key`] does. Allocates what [`Versioning::new`]
/// does.
///
/// # Errors
///
/// [`InvalidVersion`], where the text is not a version. The error holds a copy of the text.
///
/// ```
/// let mut texts = ["1.10", "1.9", "1.10rc1"];
/// texts.sort_by_cached_key(|text| proved_versions::sort_key(text).unwrap());
/// assert_eq!(texts, ["1.9", "1.10rc1", "1.10"]);
/// ```
pub fn sort_key(text: &str) -> Result<Key, InvalidVersion> {
    match library::parse(text) {
        Some((_, key)) => Ok(Key::new(key, scheme::Mixed)),
        None => Err(InvalidVersion::mixed(text)),
    }
}
