//! Requirements and lists of them, by docs/REQUIREMENTS.md.

use std::collections::hash_map::DefaultHasher;
use std::collections::{BTreeMap, HashSet};
use std::error::Error;
use std::hash::{Hash, Hasher};
use std::ops::{Bound, RangeBounds};

use proved_versions::{match_all, sort_key, Key, KeyRange, Kind, Requirement, Versioning};

const ROWS: [(&str, &str, bool); 41] = [
    ("~1.1.1", "1.1.3", true),
    ("^1.1.1", "1.1.3", true),
    ("~1.1.1", "1.2.0", false),
    ("^1.1.1", "1.2.0", true),
    ("~0.3.1", "0.3.5", true),
    ("^0.3.1", "0.3.5", true),
    ("~0.3.1", "0.4.0", false),
    ("^0.3.1", "0.4.0", false),
    ("~0.0.3", "0.0.4", true),
    ("^0.0.3", "0.0.4", false),
    ("~1.2.3", "1.2.3-a", true),
    ("^1.2.3", "1.2.3-a", true),
    ("~1.1.1", "2.0.0", false),
    ("^1.1.1", "1.0.0", false),
    ("^1.2.3", "1.4.0", true),
    ("^1.2.3", "2.0.0", false),
    ("~1.2", "1.5", true),
    ("~1.2", "5.0", false),
    ("~1.2", "1.2rc1", false),
    ("~1.2", "1.2.0", false),
    ("~1.2", "1:1.5", false),
    ("~1", "1", true),
    ("^1.2", "1.0", false),
    ("^1.2rc1", "1.2", true),
    ("^0.3", "0.3", true),
    ("^0.3", "0.4", false),
    ("^0.0", "0.0.5.1", true),
    ("^0.0", "0.1", false),
    ("^1", "5", false),
    ("^1.2.3.4", "1.2", false),
    ("~0:1.2", "1.5", true),
    ("~1:1.2", "1.5", false),
    (">=1.0", "0:1.0", true),
    ("=1.0", "0:1.0", false),
    (">=1.2.3rc1", "1.2.3", true),
    (">1.0", "0:1.0", false),
    ("<=1.0", "0:1.0", true),
    ("^1.1.1,<1.5.0", "1.2.0", true),
    ("^1.1.1,<1.5.0", "1.5.0-rc.1", true),
    ("^1.1.1,<1.5.0", "1.5.0", false),
    ("*", "20.0026.1_0-2+0.93", true),
];

const NOT_REQUIREMENTS: [&str; 17] = [
    "",
    "1.2.3",
    "*1",
    "=",
    "=>1.0",
    ",",
    ",*",
    "=1.0.0,",
    "=1.0.0,,*",
    ">= 1",
    " *",
    "* ",
    "=1\0",
    "=é",
    "=1..2",
    "==1",
    "!=1",
];

fn requirement(text: &str) -> Requirement<'_> {
    Requirement::new(text).unwrap()
}

fn version(text: &str) -> Versioning<'_> {
    Versioning::new(text).unwrap()
}

#[test]
fn rows_of_the_page() {
    for (wanted, text, answer) in ROWS {
        let wanted = requirement(wanted);
        assert_eq!(wanted.matches(&version(text)), answer, "{wanted} {text}");
        assert_eq!(wanted.matches_text(text), Ok(answer), "{wanted} {text}");
        assert_eq!(
            match_all(&wanted, &[text]),
            [Some(answer)],
            "{wanted} {text}"
        );
        let found: Vec<Versioning> = wanted.filter([version(text)]).collect();
        assert_eq!(
            found,
            if answer { vec![version(text)] } else { vec![] },
            "{wanted} {text}"
        );
    }
}

/// Bytes in hexadecimal, as the page has them.
fn hexadecimal(bytes: &[u8]) -> String {
    bytes.iter().map(|byte| format!("{byte:02x}")).collect()
}

const KINDS: [Kind; 3] = [Kind::Ideal, Kind::General, Kind::Complex];

#[test]
fn ranges_of_the_page() {
    // Of a list, the low bound, the high bound, the kinds and whether it is exact.
    type Row = (
        &'static str,
        &'static str,
        Option<&'static str>,
        [bool; 3],
        bool,
    );
    let all = [true; 3];
    let [ideal, general] = [[true, false, false], [false, true, false]];
    let rows: [Row; 12] = [
        (
            ">=1.2.3,<2.0.0",
            "000301310203013202030133020202",
            Some("00030132020300020300020202"),
            all,
            true,
        ),
        (">1.0", "0003013102030002020200", None, all, true),
        (
            "=1.0",
            "00030131020300020202",
            Some("0003013102030002020200"),
            general,
            false,
        ),
        (
            "^1.2.3",
            "00030131020301320203013302",
            Some("000301310204"),
            ideal,
            true,
        ),
        (
            "^0.0.3",
            "0003000203000203013302",
            Some("000300020300020301330204"),
            ideal,
            true,
        ),
        (
            "~1.2",
            "000301310203013202",
            Some("000301310204"),
            general,
            false,
        ),
        (
            "^1:1.2rc1",
            "0131030131020301320172630001013100",
            Some("01310301310204"),
            general,
            false,
        ),
        (
            "^1.2.3,<1.9.0",
            "00030131020301320203013302",
            Some("0003013102030139020300020202"),
            ideal,
            true,
        ),
        ("*", "", None, all, true),
        ("<1.0", "", Some("00030131020300020202"), all, true),
        ("<=1.0", "", Some("0003013102030002020200"), all, true),
        ("^1_2", "00", Some("00"), [false; 3], true),
    ];
    for (text, low, high, kinds, is_exact) in rows {
        for requirement in [requirement(text), requirement(text).into_owned().clone()] {
            let range = requirement.range();
            assert_eq!(hexadecimal(range.low()), low, "{text}");
            assert_eq!(range.high().map(hexadecimal).as_deref(), high, "{text}");
            assert_eq!(KINDS.map(|kind| range.has_kind(kind)), kinds, "{text}");
            assert_eq!(range.is_exact(), is_exact, "{text}");
            assert_eq!(range.start_bound(), Bound::Included(range.low()), "{text}");
            assert_eq!(
                range.end_bound(),
                range.high().map_or(Bound::Unbounded, Bound::Excluded),
                "{text}"
            );
        }
    }
    let range = requirement("~1.2").range().clone();
    assert_eq!(
        format!("{range:?}"),
        "KeyRange(000301310203013202..000301310204, general)"
    );
    let range = requirement(">1.0").range().clone();
    assert_eq!(
        format!("{range:?}"),
        "KeyRange(0003013102030002020200.., ideal, general, complex, exact)"
    );
    assert_eq!(
        requirement(">=1.0,*").range(),
        requirement(">=0:1.0").range()
    );
    assert_ne!(requirement(">=1.0").range(), requirement(">1.0").range());
}

#[test]
fn what_a_requirement_matches_is_in_its_range() {
    for (text, matching, answer) in ROWS {
        let (requirement, version) = (requirement(text), version(matching));
        let is_in = requirement.range().contains(&version);
        assert!(is_in || !answer, "{text} {matching}");
        if requirement.range().is_exact() {
            assert_eq!(is_in, answer, "{text} {matching}");
        }
    }
    // In the range, but not matched: `~1.2` asks for as many parts, `=1.0` for the same version.
    for (text, other) in [
        ("~1.2", "1.2.x"),
        ("=1.0", "0:1.0"),
        ("^1.2.3.4", "1.3.0.0"),
    ] {
        let requirement = requirement(text);
        assert!(
            requirement.range().contains(&version(other)),
            "{text} {other}"
        );
        assert!(!requirement.matches(&version(other)), "{text} {other}");
        assert_eq!(requirement.matches_text(other), Ok(false), "{text} {other}");
        assert_eq!(match_all(&requirement, &[other]), [Some(false)]);
    }
}

/// The texts in a map by their keys, in the order of these.
fn releases(texts: &[&'static str]) -> BTreeMap<Key, &'static str> {
    let entry = |text: &&'static str| (sort_key(text).unwrap(), *text);
    texts.iter().map(entry).collect()
}

fn found<'a>(map: &BTreeMap<Key, &'a str>, range: &KeyRange) -> Vec<&'a str> {
    map.range::<[u8], _>(range).map(|(_, text)| *text).collect()
}

#[test]
fn maps_are_searched_by_ranges() {
    let map = releases(&[
        "1.9.0",
        "1.10.0",
        "1.2",
        "2.0.0-rc.1",
        "2.0.0",
        "2.0.1",
        "1:0",
    ]);
    let rows: [(&str, &[&str]); 10] = [
        (
            "*",
            &[
                "1.2",
                "1.9.0",
                "1.10.0",
                "2.0.0-rc.1",
                "2.0.0",
                "2.0.1",
                "1:0",
            ],
        ),
        (">=1.9.0,<2.0.0", &["1.9.0", "1.10.0", "2.0.0-rc.1"]),
        (">1.9.0,<=2.0.0", &["1.10.0", "2.0.0-rc.1", "2.0.0"]),
        ("=2.0.0", &["2.0.0"]),
        (">2.0.1", &["1:0"]),
        ("<1.2", &[]),
        (">1:0", &[]),
        // Empty ranges, with equal bounds and with turned ones, at which a map would panic.
        ("^1_2", &[]),
        (">2.0.0,<=2.0.0", &[]),
        (">=2.0.1,<1.9.0", &[]),
    ];
    for (text, wanted) in rows {
        let requirement = requirement(text);
        assert_eq!(found(&map, requirement.range()), wanted, "{text}");
        let by_value: Vec<&str> = map
            .range::<[u8], _>(requirement.range().clone())
            .map(|(_, text)| *text)
            .collect();
        assert_eq!(by_value, wanted, "{text}");
    }
    // By the bounds of one version.
    let key = sort_key("2.0.0").unwrap();
    let bounds = |low: &Key, high: &[u8]| {
        let bounds = (Bound::Included(low.as_bytes()), Bound::Excluded(high));
        map.range::<[u8], _>(bounds).count()
    };
    assert_eq!(bounds(&key, &key), 0);
    assert_eq!(bounds(&key, &key.after()), 1);
    assert_eq!(bounds(&sort_key("0:2.0.0+x").unwrap(), &key.after()), 1);
}

#[test]
fn what_is_not_a_requirement_is_an_error_with_the_text() {
    for text in NOT_REQUIREMENTS {
        let errors = [
            Requirement::new(text).unwrap_err(),
            Requirement::new(text.to_string()).unwrap_err(),
            text.parse::<Requirement>().unwrap_err(),
            Requirement::try_from(text).unwrap_err(),
            Requirement::try_from(text.to_string()).unwrap_err(),
        ];
        for error in errors {
            assert_eq!(error.text(), text);
            let begins = format!("not a requirement: {text:?};");
            assert!(error.to_string().starts_with(&begins));
            assert!(error.source().is_none());
            assert_eq!(error.clone(), error);
            assert_eq!(error.into_text(), text);
        }
    }
}

#[test]
fn the_error_has_the_member_that_is_wrong() {
    let members = [
        ("1.2.3", 0..5),
        ("", 0..0),
        (",", 0..0),
        (",*", 0..0),
        ("=1.0.0,", 7..7),
        ("=1.0.0,,*", 7..7),
        (">=1.0, <2.0", 6..11),
        ("=1.0 || =2.0", 0..12),
        ("*,!=1.0,^1.*", 2..7),
        ("*,=\0,*", 2..4),
        ("*,=é,*", 2..5),
        ("*,😀,", 2..6),
    ];
    for (text, place) in members {
        let error = Requirement::new(text).unwrap_err();
        let member = &text[place.clone()];
        assert_eq!((error.member(), error.place()), (member, place.clone()));
        let wrong = format!("; its member {member:?} at byte {} is wrong", place.start);
        let wrong = if member == text { "" } else { &wrong };
        let said = format!(r#"not a requirement: {text:?}{wrong}; a list looks like ">=1.2,<2""#);
        assert_eq!(error.to_string(), said);
    }
}

#[test]
fn the_text_is_kept() {
    for text in ["*", "^1.2.3", ">=1.1.1,<2.0.0", "=1:20.0026.1_0-2,*,~1.7"] {
        let requirements = [
            requirement(text),
            Requirement::new(text.to_string()).unwrap(),
            text.parse().unwrap(),
            text.try_into().unwrap(),
            text.to_string().try_into().unwrap(),
            requirement(text).into_owned(),
            requirement(text).clone(),
        ];
        for requirement in requirements {
            assert_eq!(requirement.as_str(), text);
            assert_eq!(requirement.as_ref(), text);
            assert_eq!(requirement.to_string(), text);
            assert_eq!(format!("{requirement:?}"), format!("Requirement({text:?})"));
            assert_eq!(format!("{requirement:>30}|"), format!("{text:>30}|"));
            assert_eq!(String::from(requirement), text);
        }
    }
    let text = String::from("^1.2");
    assert_eq!(requirement(&text).as_str().as_ptr(), text.as_ptr());
    assert_ne!(
        requirement(&text).into_owned().as_str().as_ptr(),
        text.as_ptr()
    );
}

#[test]
fn equality_goes_by_the_text() {
    let hash = |text| {
        let mut hasher = DefaultHasher::new();
        requirement(text).hash(&mut hasher);
        hasher.finish()
    };
    assert_eq!(requirement("^1.2"), "^1.2".parse().unwrap());
    assert_eq!(hash("^1.2"), hash("^1.2"));
    for other in ["^1.02", "^0:1.2", "~1.2", "^1.2,*"] {
        assert_ne!(requirement("^1.2"), requirement(other));
        assert_ne!(hash("^1.2"), hash(other));
    }
    assert!(HashSet::from([requirement("*")]).contains(&requirement("*")));
}

#[test]
fn filters() {
    let wanted = requirement(">=1.1.1,<2.0.0");
    let versions = ["1.0", "1.5", "1.1.1", "2.0.0", "2.0.0-rc.1"].map(version);
    let texts =
        |found: Vec<Versioning>| found.iter().map(Versioning::to_string).collect::<Vec<_>>();
    assert_eq!(
        texts(wanted.filter(&versions).cloned().collect()),
        ["1.5", "1.1.1", "2.0.0-rc.1"]
    );
    assert_eq!(
        texts(wanted.filter(versions.clone()).collect()),
        ["1.5", "1.1.1", "2.0.0-rc.1"]
    );
    assert_eq!(texts(wanted.filter(versions.to_vec()).collect()).len(), 3);
    let backwards = wanted.filter(versions.iter()).rev().cloned().collect();
    assert_eq!(texts(backwards), ["2.0.0-rc.1", "1.1.1", "1.5"]);
    assert_eq!(wanted.filter(Vec::<Versioning>::new()).count(), 0);
    assert_eq!(wanted.filter(&versions).size_hint(), (0, Some(5)));
    let mut both = wanted.filter(&versions);
    assert_eq!(both.clone().count(), 3);
    assert_eq!(both.next().map(|found| found.as_str()), Some("1.5"));
    assert_eq!(
        both.next_back().map(|found| found.as_str()),
        Some("2.0.0-rc.1")
    );
    assert_eq!(both.next().map(|found| found.as_str()), Some("1.1.1"));
    assert_eq!(
        (both.next(), both.next_back(), both.next()),
        (None, None, None)
    );
    // The versions outlive the requirement.
    let newest = requirement("^1.1.1").filter(&versions).max();
    assert_eq!(newest, Some(&versions[2]));
}

#[test]
fn filters_lazily() {
    let mut asked = 0;
    let endless = std::iter::repeat_with(|| {
        asked += 1;
        Versioning::new(format!("1.{asked}")).unwrap()
    });
    let found: Vec<Versioning> = requirement(">1.1000").filter(endless).take(2).collect();
    assert_eq!(found, [version("1.1001"), version("1.1002")]);
    assert_eq!(asked, 1002);
}

#[test]
fn long_lists() {
    let mut text = vec![">=1.2"; 10_000].join(",");
    assert!(requirement(&text).matches(&version("1.2")));
    assert!(!requirement(&text).matches(&version("1.1")));
    text.push_str(",<1.2");
    assert!(!requirement(&text).matches(&version("1.2")));
    text.push(',');
    assert_eq!(Requirement::new(&text).unwrap_err().text(), text);
}
