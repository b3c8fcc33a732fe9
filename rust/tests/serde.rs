//! Versions, requirements, names and keys by serde. Its formats are those that serde itself has, and
//! one of bytes.
#![cfg(feature = "serde")]

use std::borrow::Cow;
use std::fmt;

use proved_versions::scheme::{Deb, Mixed};
use proved_versions::{
    sort_key, Key, Kind, Requirement, Scheme, Stability, VersionOf, VersionSet, Versioning,
};
use serde::de::value::{
    BorrowedBytesDeserializer, BorrowedStrDeserializer, BytesDeserializer, CowStrDeserializer,
    Error, StrDeserializer, StringDeserializer, U32Deserializer, UnitDeserializer,
};
use serde::de::{Deserialize, DeserializeOwned, Deserializer, IntoDeserializer, Visitor};
use serde::forward_to_deserialize_any;
use serde::ser::{Impossible, Serialize, Serializer};

/// What serde writes of a value into a formatter, which takes texts as they are.
struct Written<T>(T);

impl<T: Serialize> fmt::Display for Written<T> {
    fn fmt(&self, f: &mut fmt::Formatter<'_>) -> fmt::Result {
        self.0.serialize(f)
    }
}

fn lent(text: &str) -> StrDeserializer<'_, Error> {
    text.into_deserializer()
}

fn borrowed(text: &str) -> BorrowedStrDeserializer<'_, Error> {
    BorrowedStrDeserializer::new(text)
}

fn handed_over(text: &str) -> StringDeserializer<Error> {
    text.to_string().into_deserializer()
}

fn of_cow(text: &str) -> CowStrDeserializer<'_, Error> {
    Cow::Borrowed(text).into_deserializer()
}

#[test]
fn are_written_as_their_texts() {
    for text in ["1.2.3-rc.1+x", "0:1.0", "20.0026.1_0-2"] {
        assert_eq!(Written(Versioning::new(text).unwrap()).to_string(), text);
    }
    for text in ["*", ">=1.1.1,<2.0.0"] {
        assert_eq!(Written(Requirement::new(text).unwrap()).to_string(), text);
    }
}

#[test]
fn are_read_from_every_kind_of_text() {
    let text = "1.2.3+x";
    let versions = [
        Versioning::deserialize(lent(text)),
        Versioning::deserialize(borrowed(text)),
        Versioning::deserialize(handed_over(text)),
        Versioning::deserialize(of_cow(text)),
        Versioning::deserialize_borrowed(lent(text)),
        Versioning::deserialize_borrowed(borrowed(text)),
        Versioning::deserialize_borrowed(handed_over(text)),
        Versioning::deserialize_borrowed(of_cow(text)),
    ];
    for version in versions {
        let version = version.unwrap();
        assert_eq!((version.as_str(), version.is_ideal()), (text, true));
    }
    let text = ">=1.1.1,<2.0.0";
    let requirements = [
        Requirement::deserialize(lent(text)),
        Requirement::deserialize(borrowed(text)),
        Requirement::deserialize(handed_over(text)),
        Requirement::deserialize_borrowed(lent(text)),
        Requirement::deserialize_borrowed(borrowed(text)),
        Requirement::deserialize_borrowed(handed_over(text)),
    ];
    for requirement in requirements {
        assert_eq!(requirement.unwrap().as_str(), text);
    }
}

#[test]
fn versions_of_schemes_and_sets_are_their_texts() {
    let text = "1.0~rc1";
    assert_eq!(
        Written(VersionOf::new(text, Deb).unwrap()).to_string(),
        text
    );
    let versions = [
        VersionOf::<Deb>::deserialize(lent(text)),
        VersionOf::<Deb>::deserialize(borrowed(text)),
        VersionOf::<Deb>::deserialize(handed_over(text)),
    ];
    for version in versions {
        assert_eq!(version.unwrap().as_str(), text);
    }
    let key = VersionOf::new(text, Deb).unwrap().key().clone();
    let digits = Written(&key).to_string();
    assert_eq!(Key::<Deb>::deserialize(lent(&digits)), Ok(key));
    let text = " <<2~ ||=1:0";
    let set: VersionSet<Deb> = text.parse().unwrap();
    assert_eq!(Written(&set).to_string(), text);
    let sets = [
        VersionSet::<Deb>::deserialize(lent(text)),
        VersionSet::<Deb>::deserialize(borrowed(text)),
        VersionSet::<Deb>::deserialize(handed_over(text)),
        VersionSet::<Deb>::deserialize(of_cow(text)),
    ];
    for made in sets {
        assert_eq!(
            (made.as_ref().unwrap(), made.as_ref().unwrap().text()),
            (&set, Some(text))
        );
    }
    let error = VersionOf::<Deb>::deserialize(lent("1_0")).unwrap_err();
    assert_eq!(
        error.to_string(),
        r#"not a version of deb: "1_0"; at byte 1: a character that can't stand there"#
    );
    let error = VersionSet::<Mixed>::deserialize(lent("<<2")).unwrap_err();
    assert_eq!(
        error.to_string(),
        VersionSet::new("<<2").unwrap_err().to_string()
    );
    let number = || U32Deserializer::<Error>::new(1);
    let error = VersionSet::<Deb>::deserialize(number()).unwrap_err();
    let said = "invalid type: integer `1`, expected a set of versions";
    assert_eq!(error.to_string(), said);
    assert!(VersionOf::<Deb>::deserialize(number()).is_err());
}

#[test]
fn a_set_without_a_text_is_not_written() {
    use std::fmt::Write;
    let (set, mut written) = (!VersionSet::<Deb>::full(), String::new());
    assert!(write!(written, "{}", Written(set)).is_err());
    assert_eq!(written, "");
    let full = VersionSet::<Deb>::full();
    assert_eq!(Written(full).to_string(), "*");
}

#[test]
fn schemes_are_their_names() {
    for scheme in Scheme::ALL.iter().copied() {
        let name = scheme.to_string();
        assert_eq!(Written(scheme).to_string(), name);
        assert_eq!(Scheme::deserialize(lent(&name)), Ok(scheme));
    }
    assert_eq!(Scheme::deserialize(lent("Debian")), Ok(Scheme::Deb));
    let error = Scheme::deserialize(lent("maven")).unwrap_err();
    let names: Vec<String> = Scheme::ALL.iter().map(Scheme::to_string).collect();
    let said = format!(r#"not one of {}: "maven""#, names.join(", "));
    assert_eq!(error.to_string(), said);
    assert!(Scheme::deserialize(U32Deserializer::<Error>::new(2)).is_err());
}

#[test]
fn borrow_where_they_are_told_to() {
    let text = String::from("1.2.3");
    let version = Versioning::deserialize_borrowed(borrowed(&text)).unwrap();
    assert_eq!(version.as_str().as_ptr(), text.as_ptr());
    let version = Versioning::deserialize(borrowed(&text)).unwrap();
    assert_ne!(version.as_str().as_ptr(), text.as_ptr());
    let text = String::from("^1.2.3");
    let requirement = Requirement::deserialize_borrowed(borrowed(&text)).unwrap();
    assert_eq!(requirement.as_str().as_ptr(), text.as_ptr());
    let requirement = Requirement::deserialize(borrowed(&text)).unwrap();
    assert_ne!(requirement.as_str().as_ptr(), text.as_ptr());
}

#[test]
fn outlive_what_they_are_read_from() {
    fn read<T: DeserializeOwned>(text: &str) -> T {
        let format = String::from(text);
        T::deserialize(lent(&format)).unwrap()
    }
    assert_eq!(read::<Versioning<'static>>("1.2.3").as_str(), "1.2.3");
    assert_eq!(read::<Requirement<'static>>("*").as_str(), "*");
}

#[test]
fn another_text_is_an_error_with_it() {
    for text in ["", "1..2", "1.2.3\0", "é\""] {
        let wanted = Versioning::new(text).unwrap_err().to_string();
        assert!(wanted.starts_with(&format!("not a version: {text:?}; at byte ")));
        assert_eq!(
            Versioning::deserialize(lent(text)).unwrap_err().to_string(),
            wanted
        );
        assert_eq!(
            Versioning::deserialize(handed_over(text))
                .unwrap_err()
                .to_string(),
            wanted
        );
        assert_eq!(
            Versioning::deserialize_borrowed(borrowed(text))
                .unwrap_err()
                .to_string(),
            wanted
        );
        let wanted = format!(r#"not a requirement: {text:?}; a list looks like ">=1.2,<2""#);
        assert_eq!(
            Requirement::deserialize(lent(text))
                .unwrap_err()
                .to_string(),
            wanted
        );
        let error = Requirement::deserialize_borrowed(borrowed(text)).unwrap_err();
        assert_eq!(error.to_string(), wanted);
    }
}

#[test]
fn what_is_not_a_text_is_an_error() {
    let number = || U32Deserializer::<Error>::new(1);
    let error = Versioning::deserialize(number()).unwrap_err();
    assert_eq!(
        error.to_string(),
        "invalid type: integer `1`, expected a version"
    );
    let error = Requirement::deserialize(number()).unwrap_err();
    assert_eq!(
        error.to_string(),
        "invalid type: integer `1`, expected a requirement"
    );
    assert!(Versioning::deserialize(UnitDeserializer::<Error>::new()).is_err());
    assert!(Versioning::deserialize(BorrowedBytesDeserializer::<Error>::new(b"1.2.3")).is_err());
}

#[test]
fn kinds_and_stabilities_are_their_names() {
    for (kind, name) in [
        (Kind::Ideal, "ideal"),
        (Kind::General, "general"),
        (Kind::Complex, "complex"),
    ] {
        assert_eq!(Written(kind).to_string(), name);
        assert_eq!(Kind::deserialize(lent(name)), Ok(kind));
        assert_eq!(Kind::deserialize(handed_over(name)), Ok(kind));
    }
    for (stability, name) in [
        (Stability::Dev, "dev"),
        (Stability::Alpha, "alpha"),
        (Stability::Beta, "beta"),
        (Stability::Rc, "rc"),
        (Stability::Stable, "stable"),
    ] {
        assert_eq!(Written(stability).to_string(), name);
        assert_eq!(Stability::deserialize(lent(name)), Ok(stability));
        assert_eq!(Stability::deserialize(borrowed(name)), Ok(stability));
    }
    let error = Kind::deserialize(lent("Ideal")).unwrap_err();
    let said = r#"not one of ideal, general, complex: "Ideal""#;
    assert_eq!(error.to_string(), said);
    let error = Stability::deserialize(lent("RC")).unwrap_err();
    let said = r#"not one of dev, alpha, beta, rc, stable: "RC""#;
    assert_eq!(error.to_string(), said);
    let number = || U32Deserializer::<Error>::new(1);
    let said = |what| format!("invalid type: integer `1`, expected a {what}");
    let error = Kind::deserialize(number()).unwrap_err();
    assert_eq!(error.to_string(), said("kind"));
    let error = Stability::deserialize(number()).unwrap_err();
    assert_eq!(error.to_string(), said("stability"));
}

// Of keys, their hexadecimal digits, by docs/ORDER.md.
const KEYS: [(&str, &str); 3] = [
    ("1:2:3", "013103013202020402030133020201"),
    ("1.0rc1", "0003013102030001726300010131000202"),
    ("00x1", "000300017800010131000202"),
];

fn read_key(digits: &str) -> Result<Key, Error> {
    Key::deserialize(lent(digits))
}

#[test]
fn keys_are_hexadecimal_digits_where_people_read() {
    for (text, digits) in KEYS {
        let key = sort_key(text).unwrap();
        assert_eq!(Written(&key).to_string(), digits);
        assert_eq!(read_key(digits).as_ref(), Ok(&key));
        assert_eq!(read_key(&digits.to_uppercase()).as_ref(), Ok(&key));
        assert_eq!(Key::deserialize(handed_over(digits)), Ok(key));
    }
    for wrong in ["0", "000", "0g", "+1", " 00", "0x00", "é", "00\0"] {
        let error = read_key(wrong).unwrap_err();
        let expected = "expected a key as bytes or hexadecimal digits";
        let said = format!("invalid value: string {wrong:?}, {expected}");
        assert_eq!(error.to_string(), said);
    }
    assert!(<Key>::deserialize(U32Deserializer::<Error>::new(1)).is_err());
}

#[test]
fn keys_are_bytes_where_people_do_not_read() {
    for (text, digits) in KEYS {
        let key = sort_key(text).unwrap();
        let written = key.serialize(ToBinary).unwrap();
        assert_eq!(written, key.as_bytes());
        assert_eq!(Key::deserialize(Binary(&written)).as_ref(), Ok(&key));
        assert_eq!(read_key(digits), Ok(key));
    }
    // What serde holds back of such a format counts as read by people, and has bytes.
    let key = <Key>::deserialize(BytesDeserializer::<Error>::new(b"1"));
    assert_eq!(key.as_deref(), Ok(&b"1"[..]));
    let key = <Key>::deserialize(BorrowedBytesDeserializer::<Error>::new(b"1"));
    assert_eq!(key.as_deref(), Ok(&b"1"[..]));
}

#[test]
fn keys_of_every_length_are_read_whole() {
    // A key of at most 38 bytes lies within the value.
    let all: Vec<u8> = (0..=255).rev().collect();
    for length in 0..=all.len() {
        let bytes = &all[..length];
        let key = Key::deserialize(Binary(bytes)).unwrap();
        assert_eq!(key.as_bytes(), bytes);
        assert_eq!(read_key(&Written(&key).to_string()).as_ref(), Ok(&key));
        assert_eq!(Vec::from(key), bytes);
    }
    let text = "a".repeat(100_000);
    let key = sort_key(&text).unwrap();
    assert_eq!(read_key(&Written(&key).to_string()), Ok(key));
}

/// Bytes as a format has them that people don't read.
struct Binary<'a>(&'a [u8]);

impl<'de> Deserializer<'de> for Binary<'de> {
    type Error = Error;

    fn is_human_readable(&self) -> bool {
        false
    }

    fn deserialize_bytes<V: Visitor<'de>>(self, visitor: V) -> Result<V::Value, Error> {
        visitor.visit_borrowed_bytes(self.0)
    }

    fn deserialize_any<V: Visitor<'de>>(self, _: V) -> Result<V::Value, Error> {
        Err(refused())
    }

    forward_to_deserialize_any! {
        bool i8 i16 i32 i64 u8 u16 u32 u64 f32 f64 char str string byte_buf option unit unit_struct
        newtype_struct seq tuple tuple_struct map struct enum identifier ignored_any
    }
}

fn refused() -> Error {
    serde::de::Error::custom("this format has nothing but bytes")
}

/// Writes bytes for such a format.
struct ToBinary;

macro_rules! refuse {
    ($($name:ident($($of:ty),*) -> $answer:ident;)*) => {
        $(fn $name(self, $(_: $of),*) -> Result<Self::$answer, Error> { Err(refused()) })*
    };
}

impl Serializer for ToBinary {
    type Ok = Vec<u8>;
    type Error = Error;
    type SerializeSeq = Impossible<Vec<u8>, Error>;
    type SerializeTuple = Impossible<Vec<u8>, Error>;
    type SerializeTupleStruct = Impossible<Vec<u8>, Error>;
    type SerializeTupleVariant = Impossible<Vec<u8>, Error>;
    type SerializeMap = Impossible<Vec<u8>, Error>;
    type SerializeStruct = Impossible<Vec<u8>, Error>;
    type SerializeStructVariant = Impossible<Vec<u8>, Error>;

    fn is_human_readable(&self) -> bool {
        false
    }

    fn serialize_bytes(self, bytes: &[u8]) -> Result<Vec<u8>, Error> {
        Ok(bytes.to_vec())
    }

    fn serialize_some<T: Serialize + ?Sized>(self, _: &T) -> Result<Vec<u8>, Error> {
        Err(refused())
    }

    fn serialize_newtype_struct<T: Serialize + ?Sized>(
        self,
        _: &'static str,
        _: &T,
    ) -> Result<Vec<u8>, Error> {
        Err(refused())
    }

    fn serialize_newtype_variant<T: Serialize + ?Sized>(
        self,
        _: &'static str,
        _: u32,
        _: &'static str,
        _: &T,
    ) -> Result<Vec<u8>, Error> {
        Err(refused())
    }

    refuse! {
        serialize_bool(bool) -> Ok;
        serialize_i8(i8) -> Ok;
        serialize_i16(i16) -> Ok;
        serialize_i32(i32) -> Ok;
        serialize_i64(i64) -> Ok;
        serialize_u8(u8) -> Ok;
        serialize_u16(u16) -> Ok;
        serialize_u32(u32) -> Ok;
        serialize_u64(u64) -> Ok;
        serialize_f32(f32) -> Ok;
        serialize_f64(f64) -> Ok;
        serialize_char(char) -> Ok;
        serialize_str(&str) -> Ok;
        serialize_none() -> Ok;
        serialize_unit() -> Ok;
        serialize_unit_struct(&'static str) -> Ok;
        serialize_unit_variant(&'static str, u32, &'static str) -> Ok;
        serialize_seq(Option<usize>) -> SerializeSeq;
        serialize_tuple(usize) -> SerializeTuple;
        serialize_tuple_struct(&'static str, usize) -> SerializeTupleStruct;
        serialize_tuple_variant(&'static str, u32, &'static str, usize) -> SerializeTupleVariant;
        serialize_map(Option<usize>) -> SerializeMap;
        serialize_struct(&'static str, usize) -> SerializeStruct;
        serialize_struct_variant(&'static str, u32, &'static str, usize) -> SerializeStructVariant;
    }
}
