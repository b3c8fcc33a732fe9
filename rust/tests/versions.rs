//! Versions, one or two at a time: what the library's pages say, through every way to ask.

use std::borrow::{Borrow, Cow};
use std::cmp::Ordering;
use std::collections::hash_map::DefaultHasher;
use std::collections::{BTreeMap, BTreeSet, HashSet};
use std::error::Error;
use std::hash::{Hash, Hasher};
use std::rc::Rc;
use std::sync::Arc;

use proved_versions::{
    compare, compare_total, kind, sort_key, Difference, InvalidName, InvalidRequirement,
    InvalidVersion, Key, KeyRange, Kind, Requirement, SortKeys, Stability, Versioning,
};

// By docs/GRAMMAR.md.
const IDEAL: &str =
    "1.2.3 1.2.3-alpha.2 1.2.3-0a 1.2.3-00a 1.0.0-x-y-z.- 1.0.0-alpha+001 1.2.3+.. \
    4294967295.0.0 1.0.0-x-y-z";
const GENERAL: &str = "1 1.2 8.u51-1 x 01a 1:2.0rc1-3 4294967296a 1.2-3+x 0.25-2 1:2.3.4 1.0-a--b \
    0rc01 01rc1 1.2.3r1 1--2";
const COMPLEX: &str = "1.2.3-06 1.2.3-01 1.01.1 1.2.3-4294967296 4294967296 4294967296.0.0 \
    4294967296:1 20.0026.1_0-2+0.93 003.03-3 1.002.3+r003 12.0.0-3ubuntu1~20.04.5 \
    2:10.2+0.0093r3+1-1 22.01-ZS-v1.5.5-R2 01.2 1:2:3 a:1 1.2_3 1+x-y+z";
const NOT_VERSIONS: [&str; 27] = [
    "",
    " ",
    "1.2.3 ",
    " 1.2.3",
    "1.2 ",
    "003.03-3 ",
    "1..2",
    ".1",
    "1.",
    "1:",
    ":1",
    "1+",
    "1__2",
    "1.2.3-",
    "1.2.3-a.",
    "1.2.3+",
    "1.2.3-a_!",
    "1.2.3+a1b!2c3.1",
    "1.2.3-é",
    "é",
    "1.2.3\n",
    "\0",
    "1\0",
    "1.2.3\0",
    "\u{0}1.2.3",
    "1\u{a0}",
    "１.2",
];

// In increasing order, all of different keys, by docs/ORDER.md.
const INCREASING: &str = "abc.0 0.0 1a.0 1.2.git 1.2 1.2.0-alpha 1.2.0-alpha.1 1.2.0-alpha.beta \
    1.2.0-beta 1.2.0-beta.2 1.2.0-beta.11 1.2.0-rc.1 1.2.0 1.2.3rc9 1.2.3rc10 1.2.3 1.2.3.0 \
    1.6.0a+2014+m872b87e73dfb-1 1.6.0-1 2.14.r8 2.14.r23 2.14 2.14.8 3.0 3.0-1 3.0_1 3.0.0-1 3.0.0 \
    4294967296.0.0 1:0.1 1:1.2.0 1:2:3 10:0";

// Of one key each, in increasing total order, by docs/ORDER.md: by kind, and then field by field.
const TIES: [&str; 2] = [
    "1.2 1.2+x 0:1.2 01.2 1.002",
    "1.2.3 1.2.3+a 0:1.2.3 01.2.3 1.02.3",
];

fn version(text: &str) -> Versioning<'_> {
    Versioning::new(text).unwrap()
}

fn hash<T: Hash + ?Sized>(value: &T) -> u64 {
    let mut hasher = DefaultHasher::new();
    value.hash(&mut hasher);
    hasher.finish()
}

fn kinds_of_the_page() -> impl Iterator<Item = (&'static str, Kind)> {
    [
        (IDEAL, Kind::Ideal),
        (GENERAL, Kind::General),
        (COMPLEX, Kind::Complex),
    ]
    .into_iter()
    .flat_map(|(texts, kind)| texts.split_whitespace().map(move |text| (text, kind)))
}

#[test]
fn kinds() {
    for (text, wanted) in kinds_of_the_page() {
        assert_eq!(kind(text), Some(wanted), "{text}");
        let read = version(text);
        assert_eq!(read.kind(), wanted, "{text}");
        let said = [read.is_ideal(), read.is_general(), read.is_complex()];
        assert_eq!(
            said,
            [Kind::Ideal, Kind::General, Kind::Complex].map(|kind| kind == wanted)
        );
    }
    for text in NOT_VERSIONS {
        assert_eq!(kind(text), None, "{text:?}");
    }
}

#[test]
fn kinds_are_printed_and_ordered() {
    let kinds = [Kind::Ideal, Kind::General, Kind::Complex];
    assert_eq!(
        kinds.map(|kind| kind.to_string()),
        ["ideal", "general", "complex"]
    );
    assert_eq!(
        format!("{:>9}|{:<9}|", Kind::General, Kind::Ideal),
        "  general|ideal    |"
    );
    assert!(kinds[0] < kinds[1] && kinds[1] < kinds[2]);
    assert_eq!(HashSet::from(kinds).len(), 3);
}

#[test]
fn names_of_kinds_and_stabilities() {
    let kinds = [
        ("ideal", Kind::Ideal),
        ("general", Kind::General),
        ("complex", Kind::Complex),
    ];
    // By docs/TASKS.md.
    let stabilities = [
        ("dev", Stability::Dev),
        ("alpha", Stability::Alpha),
        ("beta", Stability::Beta),
        ("rc", Stability::Rc),
        ("stable", Stability::Stable),
    ];
    for (name, kind) in kinds {
        assert_eq!((name.parse(), kind.to_string()), (Ok(kind), name.into()));
    }
    for (name, stability) in stabilities {
        let read = (name.parse(), stability.to_string());
        assert_eq!(read, (Ok(stability), name.into()));
    }
    for text in ["", "Ideal", "RC", "rc ", " dev", "strict", "alph", "rc\0"] {
        let kind = text.parse::<Kind>().unwrap_err();
        let said = format!("not one of ideal, general, complex: {text:?}");
        assert_eq!((kind.text(), kind.to_string()), (text, said));
        let stability: InvalidName = text.parse::<Stability>().unwrap_err();
        let said = format!("not one of dev, alpha, beta, rc, stable: {text:?}");
        assert_eq!(stability.to_string(), said);
        assert_ne!(kind, stability);
        let error: Box<dyn Error> = stability.into();
        assert!(error.source().is_none());
        assert_eq!(kind.into_text(), text);
    }
    assert!("dev".parse::<Kind>().is_err() && "ideal".parse::<Stability>().is_err());
}

#[test]
fn what_is_not_a_version_is_an_error_with_the_text() {
    for text in NOT_VERSIONS {
        let errors = [
            Versioning::new(text).unwrap_err(),
            Versioning::new(text.to_string()).unwrap_err(),
            Versioning::new(Cow::Borrowed(text)).unwrap_err(),
            text.parse::<Versioning>().unwrap_err(),
            Versioning::try_from(text).unwrap_err(),
            Versioning::try_from(text.to_string()).unwrap_err(),
            sort_key(text).unwrap_err(),
            compare(text, "1").unwrap_err(),
            compare("1", text).unwrap_err(),
            compare(text, " ").unwrap_err(),
            compare_total(text, "1").unwrap_err(),
            compare_total("1", text).unwrap_err(),
            compare_total(text, " ").unwrap_err(),
            Requirement::new("*")
                .unwrap()
                .matches_text(text)
                .unwrap_err(),
        ];
        for error in errors {
            assert_eq!(error.text(), text);
            let (place, reason) = (error.place().unwrap(), error.reason().unwrap());
            let said = format!("not a version: {text:?}; at byte {place}: {reason}");
            assert_eq!(error.to_string(), said);
            assert!(error.source().is_none());
            assert_eq!(error.clone(), error);
            assert_eq!(error.into_text(), text);
        }
    }
    assert_ne!(Versioning::new("1..2"), Versioning::new("1..3"));
    assert_eq!(
        compare("\"\n", "1").unwrap_err().to_string(),
        r#"not a version: "\"\n"; at byte 0: a character that can't stand there"#
    );
}

#[test]
fn the_text_is_kept() {
    for (text, _) in kinds_of_the_page() {
        let versions = [
            version(text),
            Versioning::new(text.to_string()).unwrap(),
            Versioning::new(Cow::Borrowed(text)).unwrap().into_owned(),
            text.parse().unwrap(),
            text.try_into().unwrap(),
            text.to_string().try_into().unwrap(),
            version(text).borrowed().into_owned(),
            version(text).clone(),
        ];
        for version in versions {
            assert_eq!(version.as_str(), text);
            assert_eq!(version.as_ref(), text);
            assert_eq!(version.borrowed().as_str(), text);
            assert_eq!(version.borrowed().kind(), kind(text).unwrap());
            assert_eq!(version.to_string(), text);
            assert_eq!(format!("{version:?}"), format!("Versioning({text:?})"));
            assert_eq!(format!("{version:>30}"), format!("{text:>30}"));
            assert_eq!(format!("{version:*^30.3}"), format!("{text:*^30.3}"));
            assert_eq!(String::from(version), text);
        }
    }
}

#[test]
fn texts_are_borrowed_and_owned_as_told() {
    let text = String::from("1.2.3-rc.1");
    let borrowing = Versioning::new(&text).unwrap();
    assert_eq!(borrowing.as_str().as_ptr(), text.as_ptr());
    assert_eq!(borrowing.borrowed().as_str().as_ptr(), text.as_ptr());
    assert_ne!(borrowing.into_owned().as_str().as_ptr(), text.as_ptr());
    assert_ne!(
        text.parse::<Versioning>().unwrap().as_str().as_ptr(),
        text.as_ptr()
    );
    let start = text.as_ptr();
    let owned = Versioning::new(text).unwrap().into_owned();
    assert_eq!(owned.borrowed().as_str().as_ptr(), start);
    let text = String::from(owned);
    assert_eq!(text.as_ptr(), start);
    assert_eq!(
        Versioning::new(String::from("1..2"))
            .unwrap_err()
            .into_text(),
        "1..2"
    );
}

#[test]
fn all_pairs_of_increasing_versions() {
    let texts: Vec<&str> = INCREASING.split_whitespace().collect();
    for (i, a) in texts.iter().enumerate() {
        for (j, b) in texts.iter().enumerate() {
            let (x, y, wanted) = (version(a), version(b), i.cmp(&j));
            assert_eq!(x.precedence(&y), wanted, "{a} {b}");
            assert_eq!(x.cmp(&y), wanted, "{a} {b}");
            assert_eq!(x.partial_cmp(&y), Some(wanted), "{a} {b}");
            assert_eq!(x == y, i == j, "{a} {b}");
            assert_eq!(compare(a, b), Ok(wanted), "{a} {b}");
            assert_eq!(compare_total(a, b), Ok(wanted), "{a} {b}");
            assert_eq!(x.sort_key().cmp(y.sort_key()), wanted, "{a} {b}");
            assert_eq!(hash(&x) == hash(&y), i == j, "{a} {b}");
        }
    }
    let mut versions: Vec<Versioning> = texts.iter().rev().map(|text| version(text)).collect();
    versions.sort();
    assert_eq!(
        versions.iter().map(Versioning::as_str).collect::<Vec<_>>(),
        texts
    );
    assert_eq!(versions.iter().max().unwrap().as_str(), "10:0");
    assert_eq!(
        versions.into_iter().collect::<BTreeSet<_>>().len(),
        texts.len()
    );
}

#[test]
fn ties() {
    for texts in TIES {
        let texts: Vec<&str> = texts.split_whitespace().collect();
        for (i, a) in texts.iter().enumerate() {
            for (j, b) in texts.iter().enumerate() {
                let (x, y) = (version(a), version(b));
                // Of strict versions, metadata alone is looked at by no order.
                let wanted = if x.is_ideal() && y.is_ideal() {
                    Ordering::Equal
                } else {
                    i.cmp(&j)
                };
                assert_eq!(x.precedence(&y), Ordering::Equal, "{a} {b}");
                assert_eq!(compare(a, b), Ok(Ordering::Equal), "{a} {b}");
                assert_eq!(x.cmp(&y), wanted, "{a} {b}");
                assert_eq!(compare_total(a, b), Ok(wanted), "{a} {b}");
                assert_eq!(x == y, wanted == Ordering::Equal, "{a} {b}");
                assert_eq!(x.sort_key(), y.sort_key(), "{a} {b}");
            }
        }
    }
}

#[test]
fn equal_versions_hash_alike() {
    let alike = ["1.0.0", "1.0.0+a", "1.0.0+b", "1.0.0+..", "1.0.0+0-0"].map(version);
    for version in &alike {
        assert_eq!(version, &alike[0]);
        assert_eq!(hash(version), hash(&alike[0]));
        assert_eq!(hash(&version.borrowed().into_owned()), hash(&alike[0]));
    }
    assert_eq!(alike.iter().collect::<HashSet<_>>().len(), 1);
    // Precedence ties these, but none is another.
    let apart: HashSet<Versioning> = TIES[0].split_whitespace().map(version).collect();
    assert_eq!(apart.len(), 5);
    assert!(apart.contains(&version("0:1.2")) && !apart.contains(&version("0:1.02")));
    // Keys of less than 256 bytes, of as many, and of more, which differ in their last byte alone.
    for length in 1..300 {
        let letters = "a".repeat(length);
        let texts = ["+x", "+y", "x", "y"].map(|end| format!("1.0.0-{letters}{end}"));
        let versions = [&texts[0], &texts[1], &texts[2], &texts[3]].map(|text| version(text));
        assert_eq!(versions[0], versions[1]);
        assert_eq!(hash(&versions[0]), hash(&versions[1]));
        assert_ne!(hash(&versions[2]), hash(&versions[3]));
        assert_ne!(hash(&versions[0]), hash(&versions[2]));
    }
}

#[test]
fn comparisons_across_lifetimes() {
    fn alike<'a, 'b>(a: &mut Versioning<'a>, b: &mut Versioning<'b>) -> bool {
        *a == *b && *b <= *a && Some(&*a) == Some(&*b)
    }
    let mut of_the_program = Versioning::new("1.2").unwrap();
    let text = String::from("1.2");
    assert!(alike(&mut of_the_program, &mut version(&text)));
    assert!(of_the_program == *text);
    let set: HashSet<Versioning<'static>> = HashSet::from([of_the_program]);
    assert!(set.contains(&version(&text)));
}

#[test]
fn sort_keys_of_the_page() {
    let rows = [
        ("1.2.3", "00 03 01 31 02 03 01 32 02 03 01 33 02 02 02"),
        (
            "1.2.3-r1+git",
            "00 03 01 31 02 03 01 32 02 03 01 33 02 02 01 03 72 31 00 01",
        ),
        ("1:2.0-3", "01 31 03 01 32 02 03 00 02 02 03 02 01 33 01"),
        (
            "1.0rc1",
            "00 03 01 31 02 03 00 01 72 63 00 01 01 31 00 02 02",
        ),
        (
            "2.a1.0",
            "00 03 01 32 02 01 61 00 01 01 31 00 03 00 02 02 02",
        ),
        ("0", "00 03 00 02 02 02"),
        (
            "1.0_2",
            "00 03 01 31 02 03 00 02 02 04 02 03 01 32 02 02 01",
        ),
        (
            "0:1.0_2",
            "00 03 01 31 02 03 00 02 02 04 02 03 01 32 02 02 01",
        ),
        ("1:2:3", "01 31 03 01 32 02 02 04 02 03 01 33 02 02 01"),
        ("1_2", "00 03 01 31 02 02 04 02 03 01 32 02 02 01"),
        (
            "1.2:3",
            "00 03 01 31 02 03 01 32 02 02 04 02 03 01 33 02 02 01",
        ),
        ("r1:2", "00 01 72 00 01 01 31 00 02 04 02 03 01 32 02 02 01"),
    ];
    for (text, bytes) in rows {
        let bytes = bytes
            .split(' ')
            .map(|byte| u8::from_str_radix(byte, 16).unwrap());
        let bytes: Vec<u8> = bytes.collect();
        let key = sort_key(text).unwrap();
        assert_eq!(key.as_bytes(), bytes, "{text}");
        assert_eq!(version(text).sort_key(), bytes, "{text}");
        assert_eq!(version(text).key(), &key, "{text}");
        assert_eq!(Key::from(&version(text)), key, "{text}");
        assert_eq!(Key::from(version(text)), key, "{text}");
        assert_eq!(key.as_ref(), bytes, "{text}");
        assert_eq!(key.after(), [&bytes[..], &[0]].concat(), "{text}");
        assert_eq!(Vec::from(key), bytes, "{text}");
    }
    assert_eq!(
        format!("{:?}", version("1_2").key()),
        "Key(0003013102020402030132020201)"
    );
}

#[test]
fn sort_keys_of_every_length() {
    // A part of n letters has the key 01, the letters, 00 and 00; the rest is 00, 02 and 02.
    for length in 1..600 {
        let text = "b".repeat(length);
        let wanted = [&[0, 1], text.as_bytes(), &[0, 0, 2, 2]].concat();
        assert_eq!(version(&text).sort_key(), wanted);
        let key = sort_key(&text).unwrap();
        assert_eq!(
            (key.as_bytes(), key.clone().as_bytes()),
            (&*wanted, &*wanted)
        );
        assert_eq!(version(&text).into_owned().borrowed().clone().key(), &key);
        assert_eq!(key.after(), [&wanted[..], &[0]].concat());
        assert_eq!(Vec::from(key), wanted);
    }
}

#[test]
fn keys_compare_hash_and_are_looked_up_as_their_bytes() {
    // Around the length from which a key has an allocation, and with one byte that differs.
    let texts = (1..80).flat_map(|length| {
        let letters = "b".repeat(length);
        ["", "a", "c"].map(|end| format!("{letters}{end}"))
    });
    let mut texts: Vec<String> = texts.collect();
    texts.extend(INCREASING.split_whitespace().map(String::from));
    let keys: Vec<Key> = texts.iter().map(|text| sort_key(text).unwrap()).collect();
    for a in &keys {
        let bytes: &[u8] = a.borrow();
        assert_eq!(hash(a), hash(bytes));
        for b in &keys {
            assert_eq!(a.cmp(b), bytes.cmp(b.borrow()), "{a:?} {b:?}");
            assert_eq!(a.partial_cmp(b), Some(a.cmp(b)));
            assert_eq!(a == b, a.cmp(b).is_eq(), "{a:?} {b:?}");
        }
    }
    let ordered: BTreeSet<Key> = keys.iter().cloned().collect();
    let hashed: HashSet<Key> = keys.iter().cloned().collect();
    assert_eq!((ordered.len(), hashed.len()), (texts.len(), texts.len()));
    for key in &keys {
        assert_eq!(ordered.get(key.as_bytes()), Some(key));
        assert_eq!(hashed.get(key.as_bytes()), Some(key));
        assert!(!ordered.contains(&*key.after()) && !hashed.contains(&*key.after()));
    }
}

/// Whether a version equals a text, and the text the version, in each way to write it.
fn is_text(version: &Versioning, text: &str) -> bool {
    let answers = [
        *version == *text,
        *version == text,
        *text == *version,
        text == *version,
    ];
    let unequal = [
        *version != *text,
        *version != text,
        *text != *version,
        text != *version,
    ];
    assert_eq!(answers.map(|answer| !answer), unequal);
    assert_eq!(answers, [answers[0]; 4], "{version} {text:?}");
    answers[0]
}

#[test]
fn a_version_equals_a_text() {
    // By docs/ORDER.md: each of the words but the first is another version, with the same key or
    // not; but for the metadata of strict versions.
    let rows = [
        ("1.2 0:1.2 01.2 1.002 1.2+x 1.2.0 1:1.2 1.2-1 v1.2", false),
        (
            "1.2.3-rc.1 1.2.3 1.2.3-rc.01 1.2.3-rc.2 0:1.2.3-rc.1",
            false,
        ),
        ("1.2.3 1.2.3+a 1.2.3+b", true),
        ("1.2.3+a 1.2.3 1.2.3+b", true),
        ("1_2 1_02 1.2 1-2", false),
    ];
    for (texts, are_equal) in rows {
        let mut texts = texts.split(' ');
        let one = version(texts.next().unwrap());
        assert!(is_text(&one, one.as_str()));
        for text in texts {
            assert_eq!(is_text(&one, text), are_equal, "{one} {text}");
            assert_eq!(one == version(text), are_equal, "{one} {text}");
        }
        for text in NOT_VERSIONS {
            assert!(!is_text(&one, text), "{one} {text:?}");
        }
    }
    let long = "1_".repeat(1_000_000) + "1";
    assert!(is_text(&version(&long), &long));
    assert!(!is_text(&version(&long), &long[..long.len() - 1]));
}

#[test]
fn versions_of_three_numbers() {
    let max = u32::MAX;
    let rows = [
        ((1, 2, 3), "1.2.3"),
        ((0, 0, 0), "0.0.0"),
        ((10, 0, 9), "10.0.9"),
        ((max, max, max), "4294967295.4294967295.4294967295"),
    ];
    for (numbers, text) in rows {
        let made = Versioning::from(numbers);
        assert_eq!((made.as_str(), made.kind()), (text, Kind::Ideal));
        let parts = [made.major(), made.minor(), made.patch()];
        assert_eq!(parts, [numbers.0, numbers.1, numbers.2].map(Some));
    }
    let made: Versioning<'static> = (1, 10, 0).into();
    assert!(made > Versioning::from((1, 9, max)));
}

#[test]
fn versions_are_keys_of_maps() {
    let mut map: BTreeMap<Versioning, usize> = BTreeMap::new();
    for texts in TIES {
        for (place, text) in texts.split_whitespace().enumerate() {
            map.insert(version(text), place);
        }
    }
    // `1.2.3` and `1.2.3+a` are equal.
    assert_eq!(map.len(), 9);
    assert_eq!(map.get(&version("0:1.2")), Some(&2));
    assert_eq!(map.get(&version("1.2.3+b")), Some(&1));
    assert_eq!(map.get(&version("1.2.0")), None);
    let from = map
        .range(version("1.2.3")..)
        .map(|(version, _)| version.as_str());
    assert!(from.eq(["1.2.3", "0:1.2.3", "01.2.3", "1.02.3"]));
}

#[test]
fn a_long_key_is_compared_whole() {
    use Ordering::{Greater, Less};
    // Keys of every length from 28 to 128, which differ in one letter.
    for length in 1..100 {
        for place in 0..length {
            let mut letters = "b".repeat(length);
            let text = format!("1.0.0-{letters}");
            letters.replace_range(place..=place, "c");
            let other = format!("1.0.0-{letters}");
            let (a, b) = (version(&text), version(&other));
            assert_eq!((a.cmp(&b), b.cmp(&a), a == b), (Less, Greater, false));
            assert_eq!(a.precedence(&b), Less);
            assert_ne!(hash(&a), hash(&b));
        }
    }
}

#[test]
fn numbers() {
    let rows: [(&str, &[Option<u32>]); 7] = [
        ("1.2.3-4", &[Some(1), Some(2), Some(3), None]),
        ("1:1.a.7d-15", &[Some(1), None, Some(7), None]),
        ("2rc1", &[Some(2), None]),
        ("1:20.0026.1_0-2", &[Some(20), Some(26), Some(1), None]),
        ("1:2:3.4", &[Some(3), Some(4), None]),
        (
            "1:2.a.4.5.6.7-r1",
            &[Some(2), None, Some(4), Some(5), Some(6), Some(7), None],
        ),
        (
            "4294967295.0.0",
            &[Some(4294967295), Some(0), Some(0), None],
        ),
    ];
    for (text, numbers) in rows {
        for (n, number) in numbers.iter().enumerate() {
            assert_eq!(version(text).nth(n), *number, "{text} {n}");
        }
        for n in [
            4294967295,
            4294967296,
            4294967297,
            usize::MAX / 2,
            usize::MAX - 1,
            usize::MAX,
        ] {
            assert_eq!(version(text).nth(n), None, "{text} {n}");
        }
    }
}

#[test]
fn epochs_and_pre_releases() {
    // Of a text, the epoch and whether it is a pre-release, by docs/GRAMMAR.md.
    let rows = [
        ("1:2.0rc1-3", Some(1), false),
        ("0:7", Some(0), false),
        ("4294967295:1", Some(4294967295), false),
        ("4294967296:1", Some(4294967296), false),
        ("9223372036854775807:1", Some(9223372036854775807), false),
        ("9223372036854775808:1", Some(9223372036854775807), false),
        ("99999999999999999999:1", Some(9223372036854775807), false),
        ("1:2:3", Some(1), false),
        ("8:2007f~dfsg-7", Some(8), false),
        ("20081126:1.03-4", Some(20081126), false),
        ("007:1_2", Some(7), false),
        ("1_2:3", None, false),
        ("r1:2", None, false),
        ("1.2:3", None, false),
        ("1.2", None, false),
        ("1.2-1", None, false),
        ("1.2rc1", None, false),
        ("1.2.3", None, false),
        ("1.2.3+a-b", None, false),
        ("1.2.3-0", None, true),
        ("1.2.3-rc.1+x", None, true),
        ("1.2.3-06", None, false),
    ];
    for (text, epoch, is_prerelease) in rows {
        let version = version(text);
        assert_eq!(
            (version.epoch(), version.is_prerelease()),
            (epoch, is_prerelease),
            "{text}"
        );
    }
}

#[test]
fn fields() {
    // Of a text, the pre-release, the release, the metadata, and the first three numbers, by
    // docs/GRAMMAR.md.
    let rows: [(&str, [Option<&str>; 3], &str); 18] = [
        ("1.2.3", [None; 3], "1 2 3"),
        ("1.2.3-rc.1+x86", [Some("rc.1"), None, Some("x86")], "1 2 3"),
        ("1.2.3-rc.1", [Some("rc.1"), None, None], "1 2 3"),
        ("1.2.3+a-b", [None, None, Some("a-b")], "1 2 3"),
        ("1.2.3+..", [None, None, Some("..")], "1 2 3"),
        ("1.0.0-x-y-z.-", [Some("x-y-z.-"), None, None], "1 0 0"),
        (
            "4294967295.0.4294967295",
            [None; 3],
            "4294967295 0 4294967295",
        ),
        ("1", [None; 3], "1 - -"),
        ("1.2-3+x", [None, Some("3"), Some("x")], "1 2 -"),
        ("1:2.0rc1-3", [None, Some("3"), None], "2 0 -"),
        ("1.2.3.4-5", [None, Some("5"), None], "1 2 3"),
        ("1.2rc1", [None; 3], "1 2 -"),
        ("1--2", [None, Some("-2"), None], "1 - -"),
        ("1.2+x", [None, None, Some("x")], "1 2 -"),
        ("2:10.2+0.0093r3+1-1", [None; 3], "10 2 -"),
        ("1.2.3-06", [None; 3], "1 2 3"),
        ("8:2007f~dfsg-7", [None; 3], "- - -"),
        ("4294967296.0.0", [None; 3], "- 0 0"),
    ];
    for (text, fields, numbers) in rows {
        let version = version(text);
        let found = [version.pre_release(), version.release(), version.metadata()];
        assert_eq!(found, fields, "{text}");
        let found = [version.major(), version.minor(), version.patch()];
        let found = found.map(|number| number.map_or("-".into(), |number| number.to_string()));
        assert_eq!(found.join(" "), numbers, "{text}");
        // They are pieces of the text.
        for piece in found_in(&version) {
            let start = piece.as_ptr() as usize - version.as_str().as_ptr() as usize;
            assert_eq!(&version.as_str()[start..start + piece.len()], piece);
        }
    }
    let long = "x".repeat(1_000_000);
    let text = format!("1.0.0-{long}+{long}");
    assert_eq!(version(&text).pre_release(), Some(&*long));
    assert_eq!(version(&text).metadata(), Some(&*long));
}

fn found_in<'a>(version: &'a Versioning) -> impl Iterator<Item = &'a str> {
    [version.pre_release(), version.release(), version.metadata()]
        .into_iter()
        .flatten()
}

#[test]
fn what_new_takes() {
    let texts = ["1.2", "1.2.3", "1_2"];
    let owned = texts.map(String::from);
    let cows = texts.map(Cow::Borrowed);
    let boxes = texts.map(Box::<str>::from);
    let (shared, across) = (texts.map(Rc::<str>::from), texts.map(Arc::<str>::from));
    for n in 0..3 {
        let (lent, twice): (&&str, &&String) = (&texts[n], &&owned[n]);
        type Deeper<'a> = (
            &'a &'a &'a str,
            &'a &'a &'a String,
            &'a &'a Box<str>,
            &'a &'a Cow<'a, str>,
        );
        let deeper: Deeper = (&lent, &twice, &&boxes[n], &&cows[n]);
        let deepest: (&&&Rc<str>, &&&Arc<str>) = (&&&shared[n], &&&across[n]);
        let versions = [
            Versioning::new(*lent),
            Versioning::new(lent),
            Versioning::new(*twice),
            Versioning::new(twice),
            Versioning::new(owned[n].clone()),
            Versioning::new(&boxes[n]),
            Versioning::new(boxes[n].clone()),
            Versioning::new(&cows[n]),
            Versioning::new(cows[n].clone()),
            Versioning::new(&shared[n]),
            Versioning::new(&across[n]),
            Versioning::new(deeper.0),
            Versioning::new(deeper.1),
            Versioning::new(deeper.2),
            Versioning::new(deeper.3),
            Versioning::new(deepest.0),
            Versioning::new(deepest.1),
        ];
        for version in versions {
            assert_eq!(version.unwrap().as_str(), texts[n]);
        }
        assert!(Requirement::new(lent).is_err() && Requirement::new(twice).is_err());
    }
    let lent: Vec<Versioning> = texts.iter().flat_map(Versioning::new).collect();
    assert!(lent.iter().map(Versioning::as_str).eq(texts));
    let lent: Vec<Versioning> = owned.iter().flat_map(Versioning::new).collect();
    assert!(lent.iter().map(Versioning::as_str).eq(texts));
    // The closure of `filter` gets a reference to what `iter` gives.
    let is_version = texts.iter().filter(|text| Versioning::new(text).is_ok());
    assert_eq!(is_version.count(), 3);
    let is_version = owned.iter().filter(|text| Versioning::new(text).is_ok());
    assert_eq!(is_version.count(), 3);
    let handed_over: Vec<Versioning> = owned.into_iter().flat_map(Versioning::new).collect();
    assert!(handed_over.iter().map(Versioning::as_str).eq(texts));
}

#[test]
fn a_version_outlives_the_references_that_led_to_its_text() {
    fn of_a_slice<'a>(texts: &[&'a str]) -> Vec<Versioning<'a>> {
        let found = texts.iter().filter(|text| Versioning::new(text).is_ok());
        found.flat_map(Versioning::new).collect()
    }
    fn of_references<'a>(texts: &[&&'a String]) -> Vec<Versioning<'a>> {
        texts.iter().flat_map(Versioning::new).collect()
    }
    let text = String::from("1.2.3");
    let versions = {
        let (lent, twice) = (vec![&*text], [&&text]);
        [of_a_slice(&lent), of_references(&twice)].concat()
    };
    assert_eq!(versions.len(), 2);
    for version in &versions {
        assert_eq!(version.as_str().as_ptr(), text.as_ptr());
    }
}

#[test]
fn defaults() {
    // As those of the crate `versions`.
    #[derive(Default)]
    struct Package {
        version: Versioning<'static>,
        wanted: Requirement<'static>,
    }
    let package = Package::default();
    assert_eq!(package.version.as_str(), "0.0.0");
    assert_eq!(package.wanted.as_str(), "*");
    assert_eq!(package.version, version("0.0.0"));
    assert_eq!(package.version.kind(), Kind::Ideal);
    assert_eq!(hash(&package.version), hash(&version("0.0.0")));
    for text in ["0", "1a.0", "0.0.0-rc.1", "1.2.3", "1:1_2"] {
        assert!(package.wanted.matches(&version(text)), "{text}");
    }
}

#[test]
fn great_lengths() {
    let ten = 10_000_000;
    let texts = [
        ("9".repeat(ten), Kind::Complex),
        ("a".repeat(ten), Kind::General),
        (format!("1.0.0-{}", "a".repeat(ten)), Kind::Ideal),
        (format!("1.0.0+{}", "a".repeat(ten)), Kind::Ideal),
        (format!("{}1", "1_".repeat(1_000_000)), Kind::Complex),
        (format!("{}1", "1.".repeat(1_000_000)), Kind::General),
    ];
    for (text, wanted) in &texts {
        let read = version(text);
        assert_eq!(read.kind(), *wanted);
        assert_eq!(read.as_str(), text);
        assert_eq!(read.to_string(), *text);
        assert_eq!(read, read.clone());
        assert!(read < version("1:0"));
        assert!(read.sort_key() < version("1:0").sort_key());
        assert_eq!(read.key(), &sort_key(text).unwrap());
        assert_eq!(hash(&read), hash(&read.clone()));
        assert_eq!(read.nth(usize::MAX), None);
        assert!(Requirement::new("<1:0").unwrap().matches(&read));
        assert!(Requirement::new(format!("={text}")).unwrap().matches(&read));
        let spoiled = format!("{text} ");
        assert_eq!(Versioning::new(&spoiled).unwrap_err().text(), spoiled);
    }
    assert_eq!(version(&texts[5].0).nth(1_000_000), Some(1));
    assert_eq!(version(&texts[5].0).nth(1_000_001), None);
    assert_eq!(kind(&"\0".repeat(ten)), None);
    assert_eq!(version(&texts[3].0), version("1.0.0"));
}

#[test]
fn every_type_is_send_and_sync() {
    fn holds<T: Send + Sync + Unpin + std::panic::UnwindSafe>() {}
    holds::<Versioning>();
    holds::<Requirement>();
    holds::<Key>();
    holds::<KeyRange>();
    holds::<Kind>();
    holds::<Stability>();
    holds::<Difference>();
    holds::<proved_versions::Mismatch>();
    holds::<InvalidVersion>();
    holds::<InvalidRequirement>();
    holds::<InvalidName>();
    holds::<SortKeys>();
    holds::<proved_versions::Filter<'_, std::vec::IntoIter<Versioning>>>();
}
