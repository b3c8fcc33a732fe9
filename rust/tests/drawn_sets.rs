//! Sets and versions of each scheme that `tests/rust` of the repository draws: this answers what is
//! asked of them, and `tests/rust` compares the answers with its models and with the library for C.
//!
//! `DRAWN` names a folder. A line of its file `asked` has words with tabs between them; each text is
//! the hexadecimal digits of its bytes. This writes a line to `answered` for each.

use std::cmp::Ordering;
use std::env;
use std::fmt::Display;
use std::fs;
use std::path::Path;

use proved_versions::scheme::{self, FixedScheme};
use proved_versions::{Scheme, SortKeys, VersionOf, VersionSet, Versioning};

#[path = "../src/each_scheme.rs"]
#[macro_use]
#[rustfmt::skip]
mod each_scheme;

fn text_of(digits: &str) -> String {
    let byte = |n| u8::from_str_radix(&digits[n..n + 2], 16).unwrap();
    String::from_utf8((0..digits.len()).step_by(2).map(byte).collect()).unwrap()
}

fn hexadecimal(bytes: &[u8]) -> String {
    bytes.iter().map(|byte| format!("{byte:02x}")).collect()
}

/// One letter for an answer.
fn shown<E>(answer: Result<bool, E>) -> &'static str {
    match answer {
        Ok(true) => "1",
        Ok(false) => "0",
        Err(_) => "n",
    }
}

fn sign(order: Ordering) -> String {
    (order as i8).to_string()
}

/// What is said of two sets, the versions that are asked of both, and a text that is no version.
fn of_sets<S: FixedScheme>(scheme: S, text: &str, rest: &[String]) -> Vec<String> {
    let set: VersionSet<S> = match text.parse() {
        Ok(set) => set,
        Err(error) => {
            assert!(VersionSet::new_in(text, scheme.scheme()).err() == Some(error.clone()));
            assert_eq!((error.text(), error.scheme()), (text, scheme.scheme()));
            let reason = hexadecimal(error.reason().as_bytes());
            return vec!["wrong".into(), error.place().to_string(), reason];
        }
    };
    if rest.is_empty() {
        return vec!["a set".into()];
    }
    let (other, none, versions) = (&rest[0], &rest[1], &rest[2..]);
    let other = other.parse::<VersionSet<S>>().unwrap();
    let (both, either) = (&set & &other, &set | &other);
    let mut said = vec![
        (!!&set).to_string(),
        both.to_string(),
        either.to_string(),
        (!&set).to_string(),
        set.subset_of(&other).to_string(),
        (!set.is_disjoint(&other)).to_string(),
        (set == other).to_string(),
        shown(set.contains_text(none)).into(),
    ];
    let parsed = |text| VersionOf::new(text, scheme).unwrap();
    for text in versions {
        let version = parsed(text);
        let answers = [set.contains(&version), other.contains(&version)];
        assert_eq!(set.contains_text(text), Ok(answers[0]), "{set} {text}");
        assert_eq!(
            both.contains(&version),
            answers[0] && answers[1],
            "{set} {other} {text}"
        );
        assert_eq!(
            either.contains(&version),
            answers[0] || answers[1],
            "{set} {other} {text}"
        );
        assert_eq!((!&set).contains(&version), !answers[0], "{set} {text}");
        said.extend(answers.map(|answer| u8::from(answer).to_string()));
        let single = VersionSet::singleton(version.clone());
        assert!(single.contains(&version), "{text}");
        assert_eq!(single.subset_of(&set), answers[0], "{set} {text}");
    }
    let (a, b) = (parsed(&versions[0]), parsed(&versions[1]));
    assert_eq!(
        scheme.scheme().compare(a.as_str(), b.as_str()),
        Ok(a.cmp(&b))
    );
    assert_eq!((a == b, a < b), (a.cmp(&b).is_eq(), a.cmp(&b).is_lt()));
    said.extend([
        sign(a.cmp(&b)),
        hexadecimal(a.sort_key()),
        hexadecimal(b.sort_key()),
    ]);
    of_any(&set, &other, &versions[0]);
    said
}

/// The same where the scheme is known when the program runs.
fn of_any<S: FixedScheme>(set: &VersionSet<S>, other: &VersionSet<S>, text: &str) {
    let any = |set: &VersionSet<S>| VersionSet::new_in(set.text().unwrap(), set.scheme()).unwrap();
    let (one, two) = (any(set), any(other));
    let same = |a: &dyn Display, b: &dyn Display| assert_eq!(a.to_string(), b.to_string());
    same(&one.try_intersection(&two).unwrap(), &(set & other));
    same(&one.try_union(&two).unwrap(), &(set | other));
    same(&!&one, &!set);
    assert_eq!(one.try_subset_of(&two), Ok(set.subset_of(other)));
    assert_eq!(one.try_is_disjoint(&two), Ok(set.is_disjoint(other)));
    assert_eq!(one == two, set == other);
    let version = VersionOf::new(text, set.scheme()).unwrap();
    assert_eq!(
        one.try_contains(&version).ok(),
        set.contains_text(text).ok()
    );
    if set.scheme() == Scheme::Mixed {
        let set = VersionSet::new(set.text().unwrap()).unwrap();
        let answer = set.contains(&Versioning::new(text).unwrap());
        assert_eq!(Ok(answer), set.contains_text(text));
    }
}

/// The keys of many texts, their order, and which of them are in a set.
fn of_many<S: FixedScheme>(scheme: S, set: &str, texts: &[String]) -> Vec<String> {
    let set = set.parse::<VersionSet<S>>().unwrap();
    let keys: SortKeys = scheme.scheme().sort_keys(texts);
    let key = |key: Option<&[u8]>| key.map_or(String::new(), hexadecimal);
    let order = scheme.scheme().order(texts);
    let mut sorted = texts.to_vec();
    scheme.scheme().sort(&mut sorted);
    assert!(sorted.iter().eq(order.iter().map(|place| &texts[*place])));
    let answers = set.contains_texts(texts);
    for (place, text) in texts.iter().enumerate() {
        let version = VersionOf::new(text, scheme).ok();
        assert_eq!(
            scheme.scheme().is_version(text),
            version.is_some(),
            "{text}"
        );
        let single = version.as_ref().map(VersionOf::sort_key);
        assert_eq!(keys.get(place), single, "{text}");
        assert_eq!(
            answers[place],
            version.map(|version| set.contains(&version)),
            "{text}"
        );
    }
    let places: Vec<String> = order.iter().map(usize::to_string).collect();
    let said: Vec<&str> = answers
        .iter()
        .map(|answer| shown(answer.ok_or(())))
        .collect();
    vec![
        keys.iter().map(key).collect::<Vec<_>>().join(" "),
        places.join(" "),
        said.concat(),
    ]
}

fn answers<S: FixedScheme>(scheme: S, what: &str, texts: &[String]) -> Vec<String> {
    match what {
        "set" => of_sets(scheme, &texts[0], &texts[1..]),
        "many" => of_many(scheme, &texts[0], &texts[1..]),
        _ => panic!("{what} is no question"),
    }
}

#[test]
#[ignore = "run by tests/rust of the repository"]
fn answer() {
    let folder = env::var("DRAWN").expect("DRAWN is not set; tests/rust sets it");
    let asked = fs::read_to_string(Path::new(&folder).join("asked")).unwrap();
    let mut answered = String::new();
    for line in asked.lines() {
        let words: Vec<&str> = line.split('\t').collect();
        let texts: Vec<String> = words[2..].iter().map(|word| text_of(word)).collect();
        macro_rules! said {
            ($($type:ident $number:ident $name:literal $what:literal)*) => {
                match words[1].parse().unwrap() {
                    $(Scheme::$type => answers(scheme::$type, words[0], &texts),)*
                }
            };
        }
        let said = each_scheme!(said);
        answered += &said.join("\t");
        answered.push('\n');
    }
    fs::write(Path::new(&folder).join("answered"), answered).unwrap();
}
