//! Sets of versions, by docs/SETS.md and docs/SCHEMES.md.

use std::collections::hash_map::DefaultHasher;
use std::collections::{BTreeMap, HashSet};
use std::error::Error;
use std::fmt::Debug;
use std::hash::{Hash, Hasher};
use std::ops::Bound;

use proved_versions::scheme::{self, Deb, FixedScheme, Mixed, Rpm};
use proved_versions::{
    sort_key, InvalidVersionSet, Key, OtherScheme, Scheme, VersionOf, VersionSet, Versioning,
};
use support::rows_of;

#[path = "../src/each_scheme.rs"]
#[macro_use]
#[rustfmt::skip]
mod each_scheme;
mod support;

// A set of mixed, what is in it, and what is not, beside the rows of the page.
const ROWS: [(&str, &str, &str); 11] = [
    ("~=1.2", "1.2 1.5", "2 1.1"),
    ("~> 1.2", "1.2 1.5", "2 1.1"),
    ("==1.2.*", "1.2 1.2-1", "1.2rc1 1.20"),
    ("!=1.2.*", "1.2rc1 1.20", "1.2 1.2-1 1.2.x"),
    ("=1.2", "1.2 0:1.2 01.2 1.2+x", "1.2-1 1.2.0 1.3"),
    ("<=1.2", "1.2 0:1.2 1.1", "1.2.0 1.2.1"),
    (">1.2", "1.2.0 1.2.1", "1.2 0:1.2 1.1"),
    ("*", "0 1.2 1:2_3 latest", ""),
    (">1 <1", "", "0 1 2"),
    (" \t>= 1.2\t,<\t2 ", "1.2 1.9", "2 1.1"),
    ("^1:0.2", "1:0.2 1:0.2.1", "0.2 2:0.2 1:0.3"),
];

fn set(text: &str) -> VersionSet {
    VersionSet::new(text).unwrap()
}

fn any(text: &str, scheme: Scheme) -> VersionSet<Scheme> {
    VersionSet::new_in(text, scheme).unwrap()
}

fn hash(value: &impl Hash) -> u64 {
    let mut hasher = DefaultHasher::new();
    value.hash(&mut hasher);
    hasher.finish()
}

fn hexadecimal(bytes: &[u8]) -> String {
    bytes.iter().map(|byte| format!("{byte:02x}")).collect()
}

#[test]
fn rows_of_mixed() {
    let mut rows = Vec::new();
    for (text, has, has_not) in ROWS {
        for (answer, versions) in [(true, has), (false, has_not)] {
            let versions = versions.split_whitespace();
            rows.extend(versions.map(|version| (text.to_string(), version.to_string(), answer)));
        }
    }
    let of_page = rows_of("set").into_iter();
    for (_, words) in of_page.filter(|(scheme, _)| *scheme == Scheme::Mixed) {
        rows.push((words[0].clone(), words[1].clone(), words[2] == "1"));
    }
    for (text, version, answer) in &rows {
        let (made, rest) = (set(text), set(text).complement());
        let (name, text) = (format!("{made} {version}"), version);
        let version = Versioning::new(text.as_str()).unwrap();
        assert_eq!(made.contains(&version), *answer, "{name}");
        assert_eq!(made.contains(&VersionOf::from(version)), *answer, "{name}");
        assert_eq!(made.contains_text(text), Ok(*answer), "{name}");
        assert_eq!(rest.contains_text(text), Ok(!answer), "{name}");
    }
}

#[test]
fn rows_of_each_scheme() {
    for (scheme, words) in rows_of("set") {
        let (made, text, answer) = (any(&words[0], scheme), words[1].as_str(), words[2] == "1");
        assert_eq!(made.scheme(), scheme);
        let version = VersionOf::new(text, scheme).unwrap();
        let name = format!("{scheme} {made} {text}");
        assert_eq!(made.try_contains(&version), Ok(answer), "{name}");
        assert_eq!(made.contains_text(text), Ok(answer), "{name}");
        assert_eq!((!&made).contains_text(text), Ok(!answer), "{name}");
        let wanted = [Some(answer), Some(answer)];
        assert_eq!(made.contains_texts(&[text, text]), wanted, "{name}");
    }
}

#[test]
fn what_is_not_a_set_is_an_error_with_the_place_and_the_reason() {
    for (scheme, words) in rows_of("no-set") {
        let (text, reason) = (words[0].as_str(), words[2].as_str());
        let place = words[1].parse().unwrap();
        let of = match scheme {
            Scheme::Mixed => String::new(),
            scheme => format!(" of {scheme}"),
        };
        let said = format!("not a set of versions{of}: {text:?}; at byte {place}: {reason}");
        let errors = [
            VersionSet::new_in(text, scheme).unwrap_err(),
            VersionSet::new_in(text.to_string(), scheme).unwrap_err(),
        ];
        for error in errors {
            assert_eq!((error.text(), error.scheme()), (text, scheme));
            assert_eq!((error.place(), error.reason()), (place, reason), "{text}");
            assert_eq!(error.to_string(), said);
            assert!(error.source().is_none());
            assert_eq!(error.clone(), error);
            assert_eq!(error.into_text(), text);
        }
    }
    fn errors<S: FixedScheme>(text: &str) -> [InvalidVersionSet; 3] {
        [
            text.parse::<VersionSet<S>>().unwrap_err(),
            VersionSet::<S>::try_from(text).unwrap_err(),
            VersionSet::<S>::try_from(text.to_string()).unwrap_err(),
        ]
    }
    let wanted = VersionSet::new("<<1").unwrap_err();
    assert_eq!(errors::<Mixed>("<<1"), [(); 3].map(|_| wanted.clone()));
    let wanted = VersionSet::new_in("~1", Deb).unwrap_err();
    assert_eq!(errors::<Deb>("~1"), [(); 3].map(|_| wanted.clone()));
}

#[test]
fn a_text_that_is_no_version_is_an_error_whatever_the_set_is() {
    for scheme in Scheme::ALL.iter().copied() {
        for text in ["*", ">1.0.0 <1.0.0"] {
            let made = any(text, scheme);
            for other in ["", "!", "1\0", "é", "1.0.0 ", "\u{a0}"] {
                if scheme.is_version(other) {
                    continue;
                }
                let error = made.contains_text(other).unwrap_err();
                assert_eq!((error.text(), error.scheme()), (other, scheme));
                assert_eq!(made.contains_texts(&[other, "1.0.0"])[0], None);
            }
        }
    }
}

#[test]
fn sets_are_made_of_sets_by_value_and_by_reference() {
    let (a, b) = (set(">=1.2"), set("<2 || =3"));
    let (both, either, rest) = (set(">=1.2 <2 || =3"), set("*"), set("<1.2"));
    let ands = [
        &a & &b,
        &a & b.clone(),
        a.clone() & &b,
        a.clone() & b.clone(),
        a.intersection(&b),
        b.intersection(&a),
    ];
    assert!(ands.iter().all(|made| *made == both), "{ands:?}");
    let ors = [
        &a | &b,
        &a | b.clone(),
        a.clone() | &b,
        a.clone() | b.clone(),
        a.union(&b),
        b.union(&a),
    ];
    assert!(ors.iter().all(|made| *made == either), "{ors:?}");
    let nots = [!&a, !a.clone(), a.complement()];
    assert!(nots.iter().all(|made| *made == rest), "{nots:?}");
    let differences = [
        &a - &b,
        &a - b.clone(),
        a.clone() - &b,
        a.clone() - b.clone(),
        a.difference(&b),
    ];
    let of_a = set(">=2 !=3");
    assert!(
        differences.iter().all(|made| *made == of_a),
        "{differences:?}"
    );
    assert_eq!(&b - &a, rest);
    let ones = [
        &a ^ &b,
        &a ^ b.clone(),
        a.clone() ^ &b,
        a.clone() ^ b.clone(),
        a.symmetric_difference(&b),
        b.symmetric_difference(&a),
    ];
    assert!(
        ones.iter().all(|made| *made == set("<1.2 || >=2 !=3")),
        "{ones:?}"
    );
    let all = [&ands[..], &ors, &nots, &differences, &ones].concat();
    assert!(all.iter().all(|made| made.text().is_none()));
    assert_eq!(!!a.clone(), a);
}

#[test]
fn sets_are_assigned_to() {
    type Assign = fn(&mut VersionSet, &VersionSet, VersionSet);
    let rows: [(Assign, Assign, &str); 4] = [
        (|a, b, _| *a &= b, |a, _, b| *a &= b, ">=1.2 <2 || =3"),
        (|a, b, _| *a |= b, |a, _, b| *a |= b, "*"),
        (|a, b, _| *a -= b, |a, _, b| *a -= b, ">=2 !=3"),
        (|a, b, _| *a ^= b, |a, _, b| *a ^= b, "<1.2 || >=2 !=3"),
    ];
    let b = set("<2 || =3");
    for (by_reference, by_value, wanted) in rows {
        for assign in [by_reference, by_value] {
            let mut made = set(">=1.2");
            assign(&mut made, &b, b.clone());
            assert_eq!((&made, made.text()), (&set(wanted), None));
        }
    }
    let mut deb: VersionSet<Deb> = "<<2".parse().unwrap();
    deb -= VersionSet::singleton("1.0-0".parse::<VersionOf<Deb>>().unwrap());
    assert!(!deb.contains_text("1.0").unwrap() && deb.contains_text("1.0-1").unwrap());
}

#[test]
fn the_union_of_many_is_collected() {
    assert_eq!(VersionSet::<Mixed>::default(), set(">1 <1"));
    assert_eq!(VersionSet::<Deb>::default().scheme(), Scheme::Deb);
    let none: VersionSet<Rpm> = std::iter::empty().collect();
    assert!(none.is_empty() && none.scheme() == Scheme::Rpm);
    let texts: Vec<String> = (0..33).map(|n| format!("={}", n * 7 % 33)).collect();
    for count in 0..texts.len() {
        let some = &texts[..count];
        let made: VersionSet = some.iter().map(|text| set(text)).collect();
        let folded = some.iter().fold(VersionSet::empty(), |a, b| a | set(b));
        assert_eq!((&made, made.text()), (&folded, None));
        assert_eq!(made.intervals().count(), count);
    }
    // Each merged into all before it would copy more than 40 GB.
    let many: VersionSet = (0..100_000).map(|n| set(&format!("={n}"))).collect();
    assert_eq!(many.intervals().count(), 100_000);
}

/// What pubgrub asks of a set, of each scheme.
fn laws<S: FixedScheme>(scheme: S, texts: &[&str], versions: &[&str]) {
    let (empty, full) = (VersionSet::<S>::empty(), VersionSet::<S>::full());
    assert!(empty.is_empty() && !full.is_empty());
    assert_eq!(
        (empty.complement(), full.complement()),
        (full.clone(), empty.clone())
    );
    assert_eq!((full.text(), empty.text()), (Some("*"), None));
    let version = |text: &str| VersionOf::new(text.to_string(), scheme).unwrap();
    let mut sets: Vec<VersionSet<S>> = texts.iter().map(|text| text.parse().unwrap()).collect();
    sets.extend(
        versions
            .iter()
            .map(|text| VersionSet::singleton(version(text))),
    );
    sets.extend([empty.clone(), full.clone()]);
    for a in &sets {
        assert_eq!(a.scheme(), scheme.scheme());
        assert_eq!((a & &full, a | &empty), (a.clone(), a.clone()));
        assert_eq!((a & &empty, a | &full), (empty.clone(), full.clone()));
        assert_eq!((a & &!a, a | &!a), (empty.clone(), full.clone()));
        for b in &sets {
            let (both, either) = (a.intersection(b), a.union(b));
            assert_eq!(!(!a | !b), both);
            assert_eq!((a - b, a ^ b), (a & !b, &either - &both));
            assert_eq!(
                [a.clone(), b.clone()]
                    .into_iter()
                    .collect::<VersionSet<S>>(),
                either
            );
            assert_eq!(a.subset_of(b), both == *a);
            assert_eq!(a.is_disjoint(b), both == empty);
            assert_eq!(a == b, hash(a) == hash(b));
            for text in versions {
                let (in_a, in_b) = (a.contains(&version(text)), b.contains(&version(text)));
                assert_eq!(both.contains_text(text), Ok(in_a && in_b));
                assert_eq!(either.contains_text(text), Ok(in_a || in_b));
                assert_eq!(a.complement().contains_text(text), Ok(!in_a));
            }
        }
    }
    for a in versions.iter().copied() {
        let single = VersionSet::singleton(version(a));
        assert_eq!(single, format!("={a}").parse().unwrap());
        for b in versions.iter().copied() {
            assert_eq!(single.contains(&version(b)), version(a) == version(b));
        }
        let (version, after) = (version(a), version(a).key().after());
        let keys = (
            Bound::Included(version.sort_key()),
            Bound::Excluded(&*after),
        );
        assert!(single.intervals().eq([keys]));
    }
}

#[test]
fn laws_of_each_scheme() {
    let mixed = ["^1.2", "~1.2.3", "=1.*", "!=1.5.*", ">=1.2 <2 || =3"];
    laws(Mixed, &mixed, &["1.2", "0:1.2", "1.5", "3", "1.2.3-rc.1"]);
    let deb = ["<<1.2", ">=1.2~ <2", "!=1:0", ">2 || <1"];
    laws(Deb, &deb, &["1.2~rc1", "1.2", "1.2-0", "1:0", "3"]);
    let (rising, level) = (rows_of("rising"), rows_of("level"));
    macro_rules! check {
        ($($type:ident $number:ident $name:literal $what:literal)*) => {
            $(
                let its = |rows: &[(Scheme, Vec<String>)]| {
                    rows.iter().find(|(of, _)| *of == Scheme::$type).unwrap().1.clone()
                };
                let (five, tied) = (its(&rising), its(&level));
                let sets = [
                    format!(">={} <{}", five[1], five[3]),
                    format!("!={}", tied[1]),
                    format!("<{} || ={}", five[1], five[4]),
                ];
                let sets: Vec<&str> = sets.iter().map(String::as_str).collect();
                let texts: Vec<&str> = five.iter().chain(&tied).map(String::as_str).collect();
                laws(scheme::$type, &sets, &texts);
            )*
        };
    }
    each_scheme!(check);
}

#[test]
fn sets_of_two_schemes() {
    for a in Scheme::ALL.iter().copied() {
        for b in Scheme::ALL.iter().copied() {
            let (one, other) = (any(">=1.0.0", a), any("<2.0.0", b));
            let version = VersionOf::new("1.0.0", b).unwrap();
            let said: [Option<OtherScheme>; 5] = [
                one.try_intersection(&other).err(),
                one.try_union(&other).err(),
                one.try_is_disjoint(&other).err(),
                one.try_subset_of(&other).err(),
                one.try_contains(&version).err(),
            ];
            let found = said.map(|error| error.map(|error| (error.wanted(), error.found())));
            assert_eq!(found, [(a != b).then_some((a, b)); 5]);
            assert_eq!(any("*", a) == any("*", b), a == b);
            if a == b {
                let both = one.try_intersection(&other).unwrap();
                assert_eq!(both, any(">=1.0.0, <2.0.0", a));
                assert_eq!(one.try_union(&other), Ok(any("*", a)));
                assert_eq!(both.try_subset_of(&one), Ok(true));
                assert_eq!(one.try_subset_of(&both), Ok(false));
                assert_eq!(one.try_is_disjoint(&!&one), Ok(true));
                assert_eq!(one.try_is_disjoint(&other), Ok(false));
                assert_eq!(one.try_contains(&version), Ok(true));
                assert_eq!(VersionSet::singleton(version), any("=1.0.0", a));
            }
        }
    }
    // What is nothing or all in two schemes is not the same.
    let alike: HashSet<VersionSet<Scheme>> = Scheme::ALL
        .iter()
        .map(|scheme| !any("*", *scheme))
        .collect();
    assert_eq!(alike.len(), Scheme::ALL.len());
}

#[test]
fn any_version_has_a_set() {
    for text in ["1.2", "latest", "v1.2", "1.x", "1.2.3-rc.1+x"] {
        let version = Versioning::new(text).unwrap();
        let made = VersionSet::singleton(version.clone());
        assert!(made.contains(&version), "{text}");
        assert!(!made.contains_text(&format!("9{text}")).unwrap(), "{text}");
    }
}

#[test]
fn sets_with_the_same_keys_are_equal_and_hash_alike() {
    let alike: [&[&str]; 5] = [
        &["^1.2", ">=1.2 =1.*", "=1.* >=1.2 || ^1.2, =1.*", "~1.2"],
        &["*", "<1 || >=1", "!=1 || =1", "* || <1", ">=1 || <2"],
        &[">1 <1", "=1 =2", "!=1 =1", "=1.* =2.*"],
        &["=1.2", "==1.2", "=0:1.2", "=01.2", ">=1.2 <=1.2"],
        &[">1.2, <1.2-0"],
    ];
    let mut seen = HashSet::new();
    for texts in alike {
        let sets: Vec<VersionSet> = texts.iter().map(|text| set(text)).collect();
        for made in &sets {
            assert_eq!((made, hash(made)), (&sets[0], hash(&sets[0])));
        }
        assert!(texts
            .iter()
            .zip(&sets)
            .all(|(text, made)| made.to_string() == *text));
        seen.extend(sets);
    }
    assert_eq!(seen.len(), alike.len());
    // No version lies there, but keys would.
    let narrow = set(">1.2, <1.2-0");
    assert!(!narrow.is_empty() && !narrow.is_disjoint(&narrow));
}

#[test]
fn how_they_are_shown() {
    let (low, high) = ("0003013102030132020202", "00030132020202");
    assert_eq!(hexadecimal(&sort_key("1.2").unwrap()), low);
    let (one, other) = (set(">=1.2"), set("<2"));
    let rows = [
        (&one & &other, format!("[{low}, {high})")),
        (!set(">=1.2, <2"), format!("[, {low}) || [{high}, )")),
        (set("<1.2") | set(">=2"), format!("[, {low}) || [{high}, )")),
        (set(">1 <1") | set(">=2"), format!("[{high}, )")),
        (!set(">1 <1"), "[, )".into()),
        (!set("*"), "nothing".into()),
        (VersionSet::empty(), "nothing".into()),
        (
            VersionSet::singleton(Versioning::new("1.2").unwrap()),
            format!("[{low}, {low}00)"),
        ),
    ];
    for (made, shown) in rows {
        assert_eq!((made.to_string(), made.text()), (shown.clone(), None));
        assert_eq!(format!("{made:>60}|"), format!("{shown:>60}|"));
        assert_eq!(format!("{made:?}"), format!("VersionSet({shown}, Mixed)"));
        assert!(VersionSet::new(&shown).is_err());
    }
    for text in [">=1.2, <2", " ^1.2||* ", "*"] {
        for made in [set(text), set(text).clone(), text.parse().unwrap()] {
            assert_eq!((made.to_string(), made.text()), (text.into(), Some(text)));
            assert_eq!(format!("{made:<12}|"), format!("{text:<12}|"));
            assert_eq!(format!("{made:?}"), format!("VersionSet({text:?}, Mixed)"));
        }
    }
    let made: VersionSet<Deb> = "<<1.2".parse().unwrap();
    assert_eq!(
        format!("{made} {made:?}"),
        r#"<<1.2 VersionSet("<<1.2", Deb)"#
    );
    let made = any("<1.2", Scheme::Rpm);
    assert_eq!(
        format!("{made} {made:?}"),
        r#"<1.2 VersionSet("<1.2", Rpm)"#
    );
}

#[test]
fn intervals_are_ranges_of_maps() {
    let texts = ["1.2rc1", "1.2", "1.5", "2.0.0-rc.1", "2", "3", "3.1"];
    let map: BTreeMap<Key, &str> = texts
        .iter()
        .map(|text| (sort_key(text).unwrap(), *text))
        .collect();
    for (text, _, _) in ROWS {
        let made = set(text);
        let found = made.intervals().flat_map(|keys| map.range::<[u8], _>(keys));
        let mut wanted: Vec<&str> = texts.to_vec();
        wanted.retain(|text| made.contains_text(text).unwrap());
        proved_versions::sort(&mut wanted);
        assert!(found.map(|(_, text)| *text).eq(wanted), "{text}");
    }
    let count = |text| set(text).intervals().count();
    assert_eq!(
        ["*", "!=1", "=1 =2", "=1 || =2 || =3"].map(count),
        [1, 2, 0, 3]
    );
    let ends = set("^1.2");
    let wanted = (
        Bound::Included(&[0, 3, 1, 49, 2, 3, 1, 50, 2, 2, 2][..]),
        Bound::Excluded(&[0, 3, 1, 49, 2, 4][..]),
    );
    assert!(ends.intervals().eq([wanted]));
    let open = set(">=1.2");
    assert!(open.intervals().all(|keys| keys.1 == Bound::Unbounded));
}

#[test]
fn great_lengths() {
    let blanks = " \t".repeat(5_000_000);
    let error = VersionSet::new(&blanks).unwrap_err();
    assert_eq!(error.place(), blanks.len());
    assert_eq!(set(&format!("{blanks}>=1{blanks}")), set(">=1"));
    let long = format!("<{}1", "1.".repeat(1_000_000));
    assert_eq!(set(&long).contains_text(&long[1..]), Ok(false));
    assert_eq!(set(&long).contains_text("1"), Ok(true));
    let members: Vec<String> = (0..20_000).map(|n| format!("={n}")).collect();
    let many = set(&members.join("||"));
    assert_eq!(
        (many.intervals().count(), many.contains_text("19999")),
        (20_000, Ok(true))
    );
    assert!(set(&members.join(",")).is_empty());
    assert_eq!((&many & &!set("=7")).intervals().count(), 19_999);
    let bad = "é".repeat(5_000_000);
    assert_eq!(VersionSet::new(&bad).unwrap_err().place(), 0);
    assert_eq!(many.contains_text(&bad).unwrap_err().text(), bad);
}

#[test]
fn no_texts() {
    let none: [&str; 0] = [];
    assert!(set("*").contains_texts(&none).is_empty());
}

#[test]
fn threads_may_share_all() {
    fn shared<T: Send + Sync + Clone + Debug + Eq + Hash + 'static>() {}
    shared::<VersionSet>();
    shared::<VersionSet<Deb>>();
    shared::<VersionSet<Scheme>>();
    shared::<InvalidVersionSet>();
}
