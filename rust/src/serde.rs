//! Versions, requirements and sets as their texts, kinds, stabilities and schemes as their names, and
//! keys as bytes, by serde.

use std::borrow::Cow;
use std::fmt;

use serde::de::{Deserialize, Deserializer, Error, Unexpected, Visitor};
use serde::ser::{Error as _, Serialize, Serializer};

use crate::bytes::Bytes;
use crate::scheme::FixedScheme;
use crate::{Key, Kind, Requirement, Scheme, Stability, VersionOf, VersionSet, Versioning};

/// Takes a text, borrowed where the format lends it; the word says what it should be.
struct Text(&'static str);

impl<'de> Visitor<'de> for Text {
    type Value = Cow<'de, str>;

    fn expecting(&self, f: &mut fmt::Formatter<'_>) -> fmt::Result {
        f.write_str(self.0)
    }

    fn visit_borrowed_str<E: Error>(self, text: &'de str) -> Result<Self::Value, E> {
        Ok(Cow::Borrowed(text))
    }

    fn visit_str<E: Error>(self, text: &str) -> Result<Self::Value, E> {
        Ok(Cow::Owned(text.to_owned()))
    }

    fn visit_string<E: Error>(self, text: String) -> Result<Self::Value, E> {
        Ok(Cow::Owned(text))
    }
}

impl<'de> Versioning<'de> {
    /// Deserializes a version that borrows its text where the format lends it, for
    /// `#[serde(borrow, deserialize_with = "Versioning::deserialize_borrowed")]`. `Deserialize` copies
    /// the text, as that of `Cow<str>` does, so that `Versioning<'static>` is `DeserializeOwned`.
    ///
    /// # Errors
    ///
    /// An error of the format, with the text of [`InvalidVersion`](crate::InvalidVersion) where a
    /// text is not a version.
    pub fn deserialize_borrowed<D: Deserializer<'de>>(deserializer: D) -> Result<Self, D::Error> {
        Versioning::new(deserializer.deserialize_str(Text("a version"))?).map_err(D::Error::custom)
    }
}

impl<'de> Requirement<'de> {
    /// Deserializes a requirement that borrows its text where the format lends it, for
    /// `#[serde(borrow, deserialize_with = "Requirement::deserialize_borrowed")]`. `Deserialize`
    /// copies the text, as that of `Cow<str>` does, so that `Requirement<'static>` is
    /// `DeserializeOwned`.
    ///
    /// # Errors
    ///
    /// An error of the format, with the text of
    /// [`InvalidRequirement`](crate::InvalidRequirement) where a text is not a requirement.
    pub fn deserialize_borrowed<D: Deserializer<'de>>(deserializer: D) -> Result<Self, D::Error> {
        let text = deserializer.deserialize_str(Text("a requirement"))?;
        Requirement::new(text).map_err(D::Error::custom)
    }
}

/// The text has a copy of its own, whatever the format lends;
/// [`deserialize_borrowed`](Versioning::deserialize_borrowed) borrows.
impl<'de> Deserialize<'de> for Versioning<'_> {
    fn deserialize<D: Deserializer<'de>>(deserializer: D) -> Result<Self, D::Error> {
        Versioning::deserialize_borrowed(deserializer).map(Versioning::into_owned)
    }
}

/// The text has a copy of its own, whatever the format lends;
/// [`deserialize_borrowed`](Requirement::deserialize_borrowed) borrows.
impl<'de> Deserialize<'de> for Requirement<'_> {
    fn deserialize<D: Deserializer<'de>>(deserializer: D) -> Result<Self, D::Error> {
        Requirement::deserialize_borrowed(deserializer).map(Requirement::into_owned)
    }
}

/// As the text.
impl Serialize for Versioning<'_> {
    fn serialize<S: Serializer>(&self, serializer: S) -> Result<S::Ok, S::Error> {
        serializer.serialize_str(self.as_str())
    }
}

/// As the text.
impl Serialize for Requirement<'_> {
    fn serialize<S: Serializer>(&self, serializer: S) -> Result<S::Ok, S::Error> {
        serializer.serialize_str(self.as_str())
    }
}

/// The text has a copy of its own, whatever the format lends.
impl<'de, S: FixedScheme> Deserialize<'de> for VersionOf<'_, S> {
    fn deserialize<D: Deserializer<'de>>(deserializer: D) -> Result<Self, D::Error> {
        let text = deserializer.deserialize_str(Text("a version"))?;
        text.parse().map_err(D::Error::custom)
    }
}

/// As the text. What is of a `Scheme` isn't serialized, since its text doesn't say of which.
impl<S: FixedScheme> Serialize for VersionOf<'_, S> {
    fn serialize<T: Serializer>(&self, serializer: T) -> Result<T::Ok, T::Error> {
        serializer.serialize_str(self.as_str())
    }
}

/// From the text.
impl<'de, S: FixedScheme> Deserialize<'de> for VersionSet<S> {
    fn deserialize<D: Deserializer<'de>>(deserializer: D) -> Result<Self, D::Error> {
        let text = deserializer.deserialize_str(Text("a set of versions"))?;
        VersionSet::new_in(text, S::default()).map_err(D::Error::custom)
    }
}

/// As the text that was read. A set that was made otherwise has none, and is an error.
impl<S: FixedScheme> Serialize for VersionSet<S> {
    fn serialize<T: Serializer>(&self, serializer: T) -> Result<T::Ok, T::Error> {
        match self.text() {
            Some(text) => serializer.serialize_str(text),
            None => Err(T::Error::custom(
                "a set of versions that was not read from a text has none",
            )),
        }
    }
}

/// As the name, as `ideal`.
impl Serialize for Kind {
    fn serialize<S: Serializer>(&self, serializer: S) -> Result<S::Ok, S::Error> {
        serializer.serialize_str(self.name())
    }
}

/// From the name, as `ideal`.
impl<'de> Deserialize<'de> for Kind {
    fn deserialize<D: Deserializer<'de>>(deserializer: D) -> Result<Self, D::Error> {
        let name = deserializer.deserialize_str(Text("a kind"))?;
        name.parse().map_err(D::Error::custom)
    }
}

/// As the name, as `rc`.
impl Serialize for Stability {
    fn serialize<S: Serializer>(&self, serializer: S) -> Result<S::Ok, S::Error> {
        serializer.serialize_str(self.name())
    }
}

/// From the name, as `rc`.
impl<'de> Deserialize<'de> for Stability {
    fn deserialize<D: Deserializer<'de>>(deserializer: D) -> Result<Self, D::Error> {
        let name = deserializer.deserialize_str(Text("a stability"))?;
        name.parse().map_err(D::Error::custom)
    }
}

/// As the name, as `deb`.
impl Serialize for Scheme {
    fn serialize<S: Serializer>(&self, serializer: S) -> Result<S::Ok, S::Error> {
        serializer.serialize_str(self.name())
    }
}

/// From the name, as `deb`, or another that [`parse`](str::parse) takes.
impl<'de> Deserialize<'de> for Scheme {
    fn deserialize<D: Deserializer<'de>>(deserializer: D) -> Result<Self, D::Error> {
        let name = deserializer.deserialize_str(Text("a scheme"))?;
        name.parse().map_err(D::Error::custom)
    }
}

/// As bytes. In a format that people read, as JSON, as a text of two hexadecimal digits for each
/// byte, in lower case. So a key can be the key of a map there too, and such texts sort as keys do.
impl<S: FixedScheme> Serialize for Key<S> {
    fn serialize<T: Serializer>(&self, serializer: T) -> Result<T::Ok, T::Error> {
        if serializer.is_human_readable() {
            serializer.collect_str(&format_args!("{:?}", self.bytes()))
        } else {
            serializer.serialize_bytes(self.as_bytes())
        }
    }
}

/// From bytes, or a text of their hexadecimal digits. Takes any bytes, also those that are the key of
/// no version.
impl<'de, S: FixedScheme> Deserialize<'de> for Key<S> {
    fn deserialize<D: Deserializer<'de>>(deserializer: D) -> Result<Self, D::Error> {
        let bytes = if deserializer.is_human_readable() {
            deserializer.deserialize_str(Digits)
        } else {
            deserializer.deserialize_bytes(Digits)
        };
        Ok(Key::new(bytes?, S::default()))
    }
}

/// Takes the bytes of a key. Bytes may come where a text was asked for, since what serde holds back, as for an
/// untagged enum, counts as read by people.
struct Digits;

impl Visitor<'_> for Digits {
    type Value = Bytes;

    fn expecting(&self, f: &mut fmt::Formatter<'_>) -> fmt::Result {
        f.write_str("a key as bytes or hexadecimal digits")
    }

    fn visit_bytes<E: Error>(self, bytes: &[u8]) -> Result<Bytes, E> {
        Ok(Bytes::from(bytes))
    }

    fn visit_str<E: Error>(self, text: &str) -> Result<Bytes, E> {
        match bytes_of(text) {
            Some(bytes) => self.visit_bytes(&bytes),
            None => Err(E::invalid_value(Unexpected::Str(text), &self)),
        }
    }
}

/// The bytes of hexadecimal digits; `None` for any other text.
fn bytes_of(digits: &str) -> Option<Vec<u8>> {
    let byte = |pair: &[u8]| {
        let digit = |digit: u8| char::from(digit).to_digit(16);
        match *pair {
            [first, second] => Some((digit(first)? * 16 + digit(second)?) as u8),
            _ => None,
        }
    };
    digits.as_bytes().chunks(2).map(byte).collect()
}
