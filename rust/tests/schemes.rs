//! Schemes, and their versions and keys, by docs/SCHEMES.md and the rows of tests/support/schemes.py.

use std::cmp::Ordering;
use std::collections::hash_map::DefaultHasher;
use std::collections::{BTreeMap, HashSet};
use std::error::Error;
use std::fmt::Debug;
use std::hash::{Hash, Hasher};

use proved_versions::scheme::{self, AnyScheme, Deb, FixedScheme, Mixed};
use proved_versions::{
    compare, order, sort_key, sort_keys, InvalidVersion, Key, OtherScheme, Scheme, VersionOf,
    Versioning,
};
use support::{chains, no_versions, rows_of};

#[path = "../src/each_scheme.rs"]
#[macro_use]
#[rustfmt::skip]
mod each_scheme;
mod support;

fn any(text: &str, scheme: Scheme) -> VersionOf<'_, Scheme> {
    VersionOf::new(text, scheme).unwrap()
}

fn hash(value: &impl Hash) -> u64 {
    let mut hasher = DefaultHasher::new();
    value.hash(&mut hasher);
    hasher.finish()
}

/// The versions of a chain, each with its place in the order.
fn ranked(chain: &[Vec<String>]) -> Vec<(usize, &str)> {
    let rows = chain.iter().enumerate();
    rows.flat_map(|(place, row)| row.iter().map(move |text| (place, text.as_str())))
        .collect()
}

#[test]
fn names() {
    let rows = rows_of("scheme");
    let names: Vec<String> = rows.iter().map(|(scheme, _)| scheme.to_string()).collect();
    let all: Vec<Scheme> = rows.iter().map(|(scheme, _)| *scheme).collect();
    assert_eq!(all, Scheme::ALL);
    for (scheme, words) in &rows {
        let name = scheme.to_string();
        assert_eq!(format!("{scheme:>7}|"), format!("{name:>7}|"));
        assert_eq!(scheme.scheme(), *scheme);
        // The number, and then what people call the systems, in any case.
        for known in words[1..].iter().chain([&name]) {
            assert_eq!(known.parse(), Ok(*scheme), "{known}");
            assert_eq!(known.to_uppercase().parse(), Ok(*scheme), "{known}");
        }
    }
    for text in ["", "debia", "de", "deb\0", " deb", "maven", "é", "deb,rpm"] {
        let error = text.parse::<Scheme>().unwrap_err();
        let said = format!("not one of {}: {text:?}", names.join(", "));
        assert_eq!((error.text(), error.to_string()), (text, said));
    }
    assert_eq!(HashSet::from([Scheme::Deb, Scheme::Deb]).len(), 1);
}

#[test]
fn types_are_their_schemes() {
    macro_rules! check {
        ($($type:ident $number:ident $name:literal $what:literal)*) => {
            assert_eq!([$(scheme::$type.scheme()),*], *Scheme::ALL);
            let names = [$($name),*];
            let rows = rows_of("scheme");
            assert!(rows.iter().map(|(scheme, _)| scheme.to_string()).eq(names));
        };
    }
    each_scheme!(check);
    assert_eq!(format!("{:?} {:?}", Deb, Scheme::Deb), "Deb Deb");
}

#[test]
fn orders_of_the_page() {
    for (scheme, chain) in chains() {
        let ranked = ranked(&chain);
        for (place, a) in &ranked {
            assert!(scheme.is_version(a), "{scheme} {a}");
            for (other, b) in &ranked {
                let wanted = place.cmp(other);
                let name = format!("{scheme}: {a} {b}");
                assert_eq!(scheme.compare(a, b), Ok(wanted), "{name}");
                let (x, y) = (any(a, scheme), any(b, scheme));
                assert_eq!(x.try_cmp(&y), Ok(wanted), "{name}");
                assert_eq!(
                    (x == y, hash(&x) == hash(&y)),
                    (wanted.is_eq(), wanted.is_eq())
                );
                let keys = [a, b].map(|text| scheme.sort_key(text).unwrap());
                assert_eq!(keys[0].as_bytes().cmp(keys[1].as_bytes()), wanted, "{name}");
                assert_eq!(keys[0] == keys[1], wanted.is_eq(), "{name}");
            }
        }
        // Backwards, so that what ties has to keep that order.
        let mut texts: Vec<&str> = ranked.iter().rev().map(|(_, text)| *text).collect();
        let places = scheme.order(&texts);
        let found: Vec<usize> = places.iter().map(|n| ranked.len() - 1 - n).collect();
        let by_rank: Vec<usize> = found.iter().map(|n| ranked[*n].0).collect();
        assert!(
            by_rank.windows(2).all(|pair| pair[0] <= pair[1]),
            "{scheme}"
        );
        if scheme != Scheme::Mixed {
            let ties = found
                .windows(2)
                .filter(|pair| ranked[pair[0]].0 == ranked[pair[1]].0);
            assert!(
                ties.clone().all(|pair| pair[0] > pair[1]),
                "{scheme} {found:?}"
            );
        }
        let wanted: Vec<&str> = places.iter().map(|place| texts[*place]).collect();
        scheme.sort(&mut texts);
        assert_eq!(texts, wanted);
    }
}

#[test]
fn mixed_is_the_order_of_calls_without_a_scheme() {
    let texts = [
        "1.10", "0:1.10", "1..2", "1.10rc1", "1.9", "01.10", "", "1.10",
    ];
    assert_eq!(Scheme::Mixed.order(&texts), order(&texts));
    assert_eq!(Scheme::Mixed.sort_keys(&texts), sort_keys(&texts));
    for a in texts {
        let key = sort_key(a).map(|key| key.as_bytes().to_vec());
        let found = Scheme::Mixed.sort_key(a).map(|key| key.as_bytes().to_vec());
        assert_eq!(found, key);
        for b in texts {
            assert_eq!(Scheme::Mixed.compare(a, b), compare(a, b));
        }
    }
    let version = Versioning::new("1.2.3-rc.1").unwrap();
    let converted = VersionOf::from(version.clone());
    assert_eq!(
        (converted.as_str(), converted.key()),
        ("1.2.3-rc.1", version.key())
    );
    assert_eq!(converted, VersionOf::new("1.2.3-rc.1", Mixed).unwrap());
}

#[test]
fn what_is_not_a_version_is_an_error_with_the_text_and_the_scheme() {
    for (scheme, text, good) in no_versions() {
        let (text, good) = (text.as_str(), good.as_str());
        assert!(!scheme.is_version(text), "{scheme} {text:?}");
        for error in [
            scheme.compare(text, good).unwrap_err(),
            scheme.compare(good, text).unwrap_err(),
            scheme.compare(text, "\0other").unwrap_err(),
            scheme.sort_key(text).unwrap_err(),
            VersionOf::new(text, scheme).unwrap_err(),
            VersionOf::new(text.to_string(), scheme).unwrap_err(),
        ] {
            assert_eq!((error.text(), error.scheme()), (text, scheme));
            let of = match scheme {
                Scheme::Mixed => String::new(),
                scheme => format!(" of {scheme}"),
            };
            let (place, reason) = (error.place().unwrap(), error.reason().unwrap());
            let said = format!("not a version{of}: {text:?}; at byte {place}: {reason}");
            assert_eq!(error.to_string(), said);
            assert!(error.source().is_none());
            assert_eq!(error.into_text(), text);
        }
        assert_eq!(scheme.sort_keys(&[text, good]).get(0), None);
        assert_eq!(scheme.order(&[text, good, text]), [1, 0, 2]);
    }
    assert_ne!(
        Scheme::Deb.sort_key("1/").err(),
        Scheme::Rpm.sort_key("1/").err()
    );
}

/// What every version of a scheme that the program names has.
fn values<S: FixedScheme>(scheme: S) {
    for (_, chain) in chains().iter().filter(|(of, _)| *of == scheme.scheme()) {
        values_of_chain(scheme, chain);
    }
    let others = no_versions().into_iter();
    for (_, text, good) in others.filter(|(of, ..)| *of == scheme.scheme()) {
        let (text, good) = (text.as_str(), VersionOf::new(good, scheme).unwrap());
        assert_eq!((good == text, text == good), (false, false));
        let errors: [InvalidVersion; 3] = [
            text.parse::<VersionOf<S>>().unwrap_err(),
            VersionOf::<S>::try_from(text).unwrap_err(),
            VersionOf::<S>::try_from(text.to_string()).unwrap_err(),
        ];
        for error in errors {
            assert_eq!((error.text(), error.scheme()), (text, scheme.scheme()));
        }
    }
}

fn values_of_chain<S: FixedScheme>(scheme: S, chain: &[Vec<String>]) {
    let version = |text| VersionOf::new(text, scheme).unwrap();
    let ranked = ranked(chain);
    for (place, a) in ranked.iter().copied() {
        let x = version(a);
        assert_eq!((x.as_str(), x.as_ref(), x.to_string()), (a, a, a.into()));
        assert_eq!(x.scheme(), scheme.scheme());
        assert_eq!(format!("{x:?}"), format!("VersionOf({a:?}, {scheme:?})"));
        assert_eq!(format!("{x:>20}|"), format!("{a:>20}|"));
        assert_eq!(
            x.sort_key(),
            scheme.scheme().sort_key(a).unwrap().as_bytes()
        );
        assert_eq!(x.key().as_bytes(), x.sort_key());
        assert_eq!(Key::from(x.clone()), *x.key());
        assert_eq!(x.key().scheme(), scheme.scheme());
        let others: [VersionOf<S>; 5] = [
            a.parse().unwrap(),
            a.try_into().unwrap(),
            a.to_string().try_into().unwrap(),
            x.clone().into_owned(),
            VersionOf::new(a.to_string(), scheme).unwrap(),
        ];
        for other in others {
            assert_eq!((other.as_str(), &other), (a, &x));
            assert_eq!(String::from(other), a);
        }
        for (other, b) in ranked.iter().copied() {
            let (y, wanted) = (version(b), place.cmp(&other));
            assert_eq!((x == *b, x == b), (wanted.is_eq(), wanted.is_eq()));
            assert_eq!((*b == x, b == x), (wanted.is_eq(), wanted.is_eq()));
            assert_eq!((x.cmp(&y), x.partial_cmp(&y)), (wanted, Some(wanted)));
            assert_eq!((x < y, x <= y), (wanted.is_lt(), wanted.is_le()));
            assert_eq!(x.key().cmp(y.key()), wanted);
            assert_eq!(x.key().partial_cmp(y.key()), Some(wanted));
            assert_eq!(
                (x == y, x.key() == y.key()),
                (wanted.is_eq(), wanted.is_eq())
            );
            assert_eq!(hash(&x) == hash(&y), wanted.is_eq());
        }
        assert_eq!(hash(x.key()), hash(&x.sort_key()));
    }
    let map: BTreeMap<Key<S>, &str> = ranked
        .iter()
        .rev()
        .map(|(_, text)| (version(text).into(), *text))
        .collect();
    assert!(map.values().eq(chain.iter().map(|row| &row[0])));
    let last = chain.last().unwrap()[0].as_str();
    assert_eq!(map.get(version(last).sort_key()), Some(&last));
}

#[test]
fn versions_of_each_scheme() {
    macro_rules! check {
        ($($type:ident $number:ident $name:literal $what:literal)*) => {
            $(values(scheme::$type);)*
        };
    }
    each_scheme!(check);
}

#[test]
fn versions_of_two_schemes() {
    for a in Scheme::ALL.iter().copied() {
        for b in Scheme::ALL.iter().copied() {
            let (x, y) = (any("1.0.0", a), any("1.0.0", b));
            assert_eq!(x == y, a == b);
            assert_eq!(x.key() == y.key(), a == b);
            assert!(x == "1.0.0" && x != "1.0.1");
            let said = x.try_cmp(&y);
            if a == b {
                assert_eq!(said, Ok(Ordering::Equal));
                continue;
            }
            let error: OtherScheme = said.unwrap_err();
            assert_eq!((error.wanted(), error.found()), (a, b));
            let wanted = format!("versions of {a} are wanted, and this is of {b}");
            assert_eq!(error.to_string(), wanted);
            assert!(error.source().is_none());
        }
    }
    let (deb, rpm) = (any("1", Scheme::Deb), any("1", Scheme::Rpm));
    assert_eq!(HashSet::from([deb.clone(), rpm, deb]).len(), 2);
}

#[test]
fn a_text_is_borrowed_or_taken_over() {
    let text = String::from("1.0~rc1");
    let version = VersionOf::new(&text, Deb).unwrap();
    assert_eq!(version.as_str().as_ptr(), text.as_ptr());
    assert_ne!(version.into_owned().as_str().as_ptr(), text.as_ptr());
    let start = text.as_ptr();
    let version = VersionOf::new(text, Deb).unwrap();
    assert_eq!(version.as_str().as_ptr(), start);
    let text = String::from(version);
    assert_eq!(text.as_ptr(), start);
}

#[test]
fn great_lengths() {
    for (scheme, words) in rows_of("front") {
        let long = |end| format!("{}{}{end}", words[0], "1.".repeat(50_000));
        let (a, b) = (long("1"), long("2"));
        assert_eq!(scheme.compare(&a, &b), Ok(Ordering::Less), "{scheme}");
        let [x, y] = [&a, &b].map(|text| VersionOf::new(text, scheme).unwrap());
        assert_eq!(x.try_cmp(&y), Ok(Ordering::Less), "{scheme}");
        let keys = scheme.sort_keys(&[&a, &b]);
        assert_eq!(keys.get(0), Some(x.sort_key()), "{scheme}");
        assert_eq!(keys.get(1), Some(y.sort_key()), "{scheme}");
        assert_eq!(scheme.order(&[b, a]), [1, 0], "{scheme}");
        let bad = "é".repeat(5_000_000);
        assert_eq!(scheme.sort_key(&bad).unwrap_err().text().len(), 10_000_000);
    }
    // Keys just as long as there is room for within a value, on the stack, and longer.
    for letters in 1..150 {
        let text = format!("1{}", "a".repeat(letters));
        for scheme in [Scheme::Mixed, Scheme::Deb, Scheme::Rpm] {
            let key = scheme.sort_key(&text).unwrap();
            assert_eq!(scheme.sort_keys(&[&text]).get(0), Some(key.as_bytes()));
        }
    }
}

#[test]
fn no_texts() {
    for scheme in Scheme::ALL.iter().copied() {
        let none: [&str; 0] = [];
        assert!(scheme.sort_keys(&none).is_empty() && scheme.order(&none).is_empty());
        scheme.sort(&mut [""; 0]);
    }
}

#[test]
fn threads_may_share_all() {
    fn shared<T: Send + Sync + Clone + Debug + 'static>() {}
    shared::<Scheme>();
    shared::<VersionOf<'static, Deb>>();
    shared::<VersionOf<'static, Scheme>>();
    shared::<Key<Scheme>>();
    shared::<OtherScheme>();
}

#[test]
fn why_a_text_is_no_version() {
    for (scheme, words) in rows_of("flaw") {
        let (text, reason) = (words[0].as_str(), words[2].as_str());
        let error = VersionOf::new(text, scheme).unwrap_err();
        assert_eq!(error.place(), words[1].parse().ok(), "{scheme} {text:?}");
        assert_eq!(error.reason().as_deref(), Some(reason));
        assert_eq!(error.clone().to_string(), error.to_string());
    }
    let long = "1.".repeat(1_000_000) + "é";
    let error = Scheme::Mixed.sort_key(&long).unwrap_err();
    assert_eq!(error.place(), Some(2_000_000));
    // A tag that has no version may be one itself.
    for (tag, prefix) in [("go1.20.3", None), ("x y", None), ("1.2", Some("go"))] {
        let error = match prefix {
            None => Versioning::from_tag(tag).unwrap_err(),
            Some(prefix) => Versioning::after_prefix(prefix, tag).unwrap_err(),
        };
        assert_eq!((error.place(), error.reason()), (None, None));
        assert_eq!(error.to_string(), format!("not a version: {tag:?}"));
    }
}
