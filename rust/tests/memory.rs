//! Every call, on texts in allocations of exactly their length, so that valgrind sees each byte that
//! is read or written outside of them.

use std::collections::hash_map::DefaultHasher;
use std::hash::Hash;

use proved_versions::{
    compare, compare_total, in_tags, kind, kinds, match_all, newest, newest_tag, order, sort,
    sort_key, sort_keys, stabilities, Requirement, Scheme, Stability, VersionOf, VersionSet,
    Versioning,
};

const TEXTS: [&str; 15] = [
    "1.2.3",
    "1.2.3-rc.1+x86",
    "",
    "1",
    "1:2.0rc1-3",
    "1..2",
    "20.0026.1_0-2+0.93",
    "1.",
    "1.2.3-",
    "é",
    "1.2.3\0",
    "1:",
    "4294967295",
    "4294967296",
    "1.0.0-x-y-z.-",
];
const REQUIREMENTS: [&str; 7] = ["*", ">=1.2,<1:0", "^1.2.3", "~1", "=1.2.3+x", "", "=1.0.0,"];

// Of every scheme, of some alone, and of none.
const SETS: [&str; 14] = [
    "*",
    ">=1.2.3",
    "<1.2.3-rc.1 || =1.2.3",
    "!=1.2.3,>1.0.0",
    "=1.2.3 =1.2.4",
    "<<1~rc1",
    "^1.2",
    "!=1.2.*",
    ">=1.2^git1",
    ">=1!2.0rc1",
    "",
    ">=",
    ">=é",
    ">=1\0",
];

fn exact(text: &str) -> Box<str> {
    text.into()
}

fn texts() -> Vec<Box<str>> {
    let long = "1.a".repeat(200);
    TEXTS.iter().copied().chain([&*long]).map(exact).collect()
}

#[test]
fn one_text_and_two() {
    for a in &texts() {
        assert_eq!(kind(a).is_some(), sort_key(a).is_ok());
        for b in &texts() {
            assert_eq!(
                compare(a, b).is_ok(),
                kind(a).is_some() && kind(b).is_some()
            );
            assert_eq!(compare_total(a, b).is_ok(), compare(a, b).is_ok());
        }
        if let Ok(version) = Versioning::new(&**a) {
            assert_eq!(sort_key(a).as_ref(), Ok(version.key()));
            version.hash(&mut DefaultHasher::new());
            for n in [0, 1, 2, 3, usize::MAX] {
                assert!(version.nth(n) <= Some(u32::MAX));
            }
            assert!(version.patch().is_some() || !version.is_ideal());
            assert!(version.epoch() <= Some(i64::MAX as u64));
            assert_eq!(version.is_prerelease(), version.pre_release().is_some());
            assert!(version.release().is_none() || version.is_general());
            assert!(version.metadata().is_none() || !version.is_complex());
            assert_eq!(version, version.clone().into_owned());
            assert!(version == **a);
            assert!(version.stability() >= Stability::Dev);
            for place in [0, 1, 2, 199, usize::MAX] {
                assert!(version.next(place).map_or(true, |next| next > version));
            }
            for next in [
                version.next_release(),
                version.next_pre(None),
                version.next_pre(Some(a)),
            ] {
                assert!(next.map_or(true, |next| next > version));
            }
            for b in &texts() {
                let other = Versioning::new(b).ok();
                let difference = other.map(|other| version.difference(&other));
                assert_eq!(difference.is_some(), kind(b).is_some());
            }
        }
        for front in ["", "v", "é-v", "go"].map(exact) {
            let tag = exact(&format!("{front}{a}"));
            let version = Versioning::after_prefix(&front, &tag);
            assert!(version.is_err() || tag.ends_with(version.unwrap().as_str()));
            let version = Versioning::from_tag(&tag);
            assert!(version.is_err() || tag.ends_with(version.unwrap().as_str()));
            assert!(Versioning::after_prefix(&tag, a).is_err() || front.is_empty());
        }
    }
}

#[test]
fn requirements() {
    for wanted in REQUIREMENTS.map(exact) {
        let answer = Requirement::new(&*wanted);
        assert_eq!(answer.is_err(), wanted.is_empty() || wanted.ends_with(','));
        if let Ok(requirement) = answer {
            assert_eq!(requirement.conflict(), None);
            for version in texts().iter().flat_map(Versioning::new) {
                let mismatch = requirement.why_not(&version);
                assert_eq!(mismatch.is_none(), requirement.matches(&version));
                assert!(mismatch.map_or(true, |found| wanted[found.place()] == *found.member()));
            }
            for text in &texts() {
                let version = Versioning::new(text).ok();
                let answer = version.map(|version| requirement.matches(&version));
                assert_eq!(requirement.matches_text(text).ok(), answer);
            }
            let single: Vec<Option<bool>> = texts()
                .iter()
                .map(|text| requirement.matches_text(text).ok())
                .collect();
            assert_eq!(match_all(&requirement, &texts()), single);
        }
    }
}

#[test]
fn many_texts() {
    let texts = texts();
    for from in 0..texts.len() {
        for to in [from, (from + 1).min(texts.len()), texts.len()] {
            let texts = &texts[from..to];
            assert_eq!(
                kinds(texts),
                texts.iter().map(|text| kind(text)).collect::<Vec<_>>()
            );
            let single = texts.iter().map(|text| Versioning::new(text).ok());
            let single = single.map(|version| Some(version?.stability()));
            assert_eq!(stabilities(texts), single.collect::<Vec<_>>());
            let single = texts.iter().map(|text| Versioning::from_tag(text).ok());
            let single = single.map(|version| Some(String::from(version?)));
            assert!(in_tags(texts)
                .into_iter()
                .map(|v| v.map(String::from))
                .eq(single));
            for wanted in ["*", ">=1.2,<1:0", "^1.2.3"] {
                let wanted = Requirement::new(wanted).unwrap();
                for least in [Stability::Dev, Stability::Stable] {
                    let found = newest(texts, &wanted, least);
                    assert!(found.map_or(true, |text| wanted.matches_text(text).unwrap()));
                    assert!(found <= found.and(texts.iter().max()));
                    assert!(newest_tag(texts, &wanted, least).is_some() || found.is_none());
                }
            }
            let keys = sort_keys(texts);
            assert_eq!(keys.len(), texts.len());
            for (place, text) in texts.iter().enumerate() {
                assert_eq!(keys.get(place), sort_key(text).ok().as_deref());
            }
            let places = order(texts);
            let mut sorted = texts.to_vec();
            sort(&mut sorted);
            assert!(sorted.iter().eq(places.iter().map(|place| &texts[*place])));
        }
    }
}

#[test]
fn versions_of_schemes() {
    for scheme in Scheme::ALL.iter().copied() {
        let texts = texts();
        let keys = scheme.sort_keys(&texts);
        for (place, a) in texts.iter().enumerate() {
            let version = VersionOf::new(&**a, scheme);
            assert_eq!(scheme.is_version(a), version.is_ok());
            let key = version.as_ref().ok().map(VersionOf::sort_key);
            assert_eq!(keys.get(place), key);
            let single = scheme.sort_key(a).ok();
            assert_eq!(single.as_ref().map(|key| key.as_bytes()), key);
            for b in &texts {
                let both = scheme.compare(a, b).ok();
                let other = VersionOf::new(&**b, scheme).ok();
                let wanted = other.and_then(|other| version.as_ref().ok()?.try_cmp(&other).ok());
                assert_eq!(both, wanted);
            }
        }
        let places = scheme.order(&texts);
        let mut sorted = texts.clone();
        scheme.sort(&mut sorted);
        assert!(sorted.iter().eq(places.iter().map(|place| &texts[*place])));
    }
}

#[test]
fn sets() {
    for scheme in Scheme::ALL.iter().copied() {
        let read = |text: &str| VersionSet::new_in(&*exact(text), scheme);
        let refused: Vec<_> = SETS.iter().flat_map(|text| read(text).err()).collect();
        assert!(refused
            .iter()
            .all(|error| error.place() <= error.text().len()));
        let sets: Vec<_> = SETS.iter().flat_map(|text| read(text).ok()).collect();
        assert!(sets.len() >= 4 && refused.len() >= 4);
        for a in &sets {
            assert_eq!(!!a, *a);
            assert_eq!(a.is_empty(), a.intervals().count() == 0);
            let single: Vec<_> = texts()
                .iter()
                .map(|text| a.contains_text(text).ok())
                .collect();
            assert_eq!(a.contains_texts(&texts()), single);
            for b in &sets {
                let (both, either) = (a.try_intersection(b).unwrap(), a.try_union(b).unwrap());
                assert_eq!((!a).try_union(&!b), Ok(!&both));
                assert_eq!(a.try_subset_of(b), Ok(both == *a));
                assert_eq!(a.try_is_disjoint(b), Ok(both.is_empty()));
                assert_eq!(either.is_empty(), a.is_empty() && b.is_empty());
            }
        }
        for text in &texts() {
            if let Ok(version) = VersionOf::new(&**text, scheme) {
                let set = VersionSet::singleton(version.clone());
                assert_eq!(set.try_contains(&version), Ok(true));
                assert_eq!(set.intervals().count(), 1);
            }
        }
    }
}
