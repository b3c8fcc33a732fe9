//! docs/MIGRATING.md: the calls of its first table, and the answers of this crate in its second.
//!
//! The page is the file that the environment variable `MIGRATING` names, or else the one of the
//! repository that this folder is in.

use std::collections::BTreeSet;
use std::convert::TryFrom;
use std::error::Error;
use std::rc::Rc;
use std::sync::Arc;
use std::{env, fs};

use proved_versions::{
    kind, match_all, sort, sort_key, InvalidVersion, Key, Kind, Requirement, Versioning,
};

/// What this crate answers to a call of the page.
fn answer(call: &str, words: &[&str]) -> String {
    let version = |text| Versioning::new(text).unwrap();
    let requirement = |text| Requirement::new(text).unwrap();
    match (call, words) {
        ("cmp", [a, b]) => format!("{:?}", version(*a).cmp(&version(*b))),
        ("sort", texts) => {
            let mut versions: Vec<Versioning> = texts.iter().map(|text| version(*text)).collect();
            versions.sort();
            let mut texts = texts.to_vec();
            sort(&mut texts);
            assert!(versions
                .iter()
                .map(Versioning::as_str)
                .eq(texts.iter().copied()));
            texts.join(", ")
        }
        ("sections", [n]) => {
            let text = vec!["1"; n.parse().unwrap()].join("_");
            Versioning::new(text).map_or("Err", |_| "Ok").to_string()
        }
        ("epoch", [v]) => format!("{:?}", version(*v).epoch()),
        ("error", [v]) => Versioning::new(*v).unwrap_err().to_string(),
        ("wrong", [r]) => Requirement::new(*r).unwrap_err().to_string(),
        ("requirement", [r]) => Requirement::new(*r).map_or("Err", |_| "Ok").to_string(),
        ("matches", [r, v]) => requirement(*r).matches(&version(*v)).to_string(),
        ("same", [r, s]) => (requirement(*r) == requirement(*s)).to_string(),
        _ => panic!("the page has a call that this test does not know: {call}"),
    }
}

/// What stands in a cell between backquotes, which are all of it.
fn code(cell: &str) -> Option<&str> {
    cell.trim().strip_prefix('`')?.strip_suffix('`')
}

#[test]
fn answers_that_change() {
    let path = env::var("MIGRATING")
        .unwrap_or_else(|_| concat!(env!("CARGO_MANIFEST_DIR"), "/../docs/MIGRATING.md").into());
    let page = fs::read_to_string(&path).unwrap_or_else(|error| panic!("{path}: {error}"));
    let (_, section) = page.split_once("\n## Answers that change\n").unwrap();
    let rows = section.lines().filter(|line| line.starts_with('|')).skip(2);
    let mut checked = 0;
    for row in rows {
        let cells = <[&str; 6]>::try_from(row.split('|').collect::<Vec<_>>());
        let [_, call, there, here, _why, _] =
            cells.unwrap_or_else(|_| panic!("not a row of four cells: {row}"));
        let (name, words) = code(call)
            .and_then(|call| call.strip_suffix(')')?.split_once('('))
            .unwrap_or_else(|| panic!("not a call: {row}"));
        let words: Vec<&str> = words.split(", ").collect();
        assert_eq!(Some(answer(name, &words).as_str()), code(here), "{row}");
        assert_ne!(there, here, "{row}");
        checked += 1;
    }
    assert!(checked >= 35, "only {checked} rows were found");
}

#[test]
fn calls() -> Result<(), Box<dyn Error>> {
    let version = Versioning::new("1.2.3")?;
    assert_eq!(version, Versioning::new(String::from("1.2.3"))?);
    assert_eq!(version, "1.2.3");
    assert_eq!(version, "1.2.3".parse::<Versioning>()?);
    assert_eq!(version, Versioning::from((1, 2, 3)));
    assert_eq!(version, Versioning::try_from("1.2.3")?);
    assert_eq!(version, Versioning::try_from(String::from("1.2.3"))?);
    assert!(version.is_ideal() && !version.is_general() && !version.is_complex());
    assert_eq!([0, 2, 3].map(|n| version.nth(n)), [Some(1), Some(3), None]);
    assert!(matches!(version.kind(), Kind::Ideal));
    assert_eq!(kind("1.2.3"), Some(Kind::Ideal));
    assert_eq!(kind("1.2"), Some(Kind::General));
    assert_eq!(kind("1_2"), Some(Kind::Complex));
    let numbers = (version.major(), version.minor(), version.patch());
    assert_eq!(numbers, (Some(1), Some(2), Some(3)));
    let strict = Versioning::new("1.2.3-rc.1+x")?;
    assert_eq!(
        (strict.pre_release(), strict.metadata()),
        (Some("rc.1"), Some("x"))
    );
    assert_eq!(Versioning::new("1:2-3")?.release(), Some("3"));
    assert_eq!(Versioning::new("1:2-3")?.epoch(), Some(1));
    assert!(strict < version);
    assert!(Versioning::new("1.0")?
        .precedence(&Versioning::new("0:1.0")?)
        .is_eq());

    // A map by versions has two entries for versions that tie, and one by keys has one.
    let ties = ["1.0", "0:1.0"];
    let versions: BTreeSet<Versioning> = ties.iter().flat_map(Versioning::new).collect();
    let keys: BTreeSet<Key> = ties.iter().flat_map(|text| sort_key(text)).collect();
    assert_eq!((versions.len(), keys.len()), (2, 1));

    let mut versions = [Versioning::new("1.10")?, Versioning::new("1.9")?];
    versions.sort();
    assert_eq!(versions.map(String::from), ["1.9", "1.10"]);
    assert_eq!(Versioning::default().as_str(), "0.0.0");
    assert_eq!(Requirement::default().as_str(), "*");
    assert_eq!(format!("{version}, {version:>7.3}"), "1.2.3,     1.2");
    assert_eq!(format!("{version:?}"), r#"Versioning("1.2.3")"#);

    let list = Requirement::new(">=1.1.1,<2.0.0")?;
    assert_eq!(list, ">=1.1.1,<2.0.0".parse()?);
    assert_eq!(list, Requirement::try_from(String::from(">=1.1.1,<2.0.0"))?);
    assert!(list.matches(&version) && list.matches_text("1.2.3")?);
    assert_eq!(list.filter([&version]).collect::<Vec<_>>(), [&version]);
    assert_eq!(
        match_all(&list, &["1.2.3", "2.0.0", "1..2"]),
        [Some(true), Some(false), None]
    );
    assert!(Requirement::new("*")?.matches(&Versioning::new("0.0.0")?));
    assert_eq!(Versioning::new("1..2").unwrap_err().text(), "1..2");
    assert_eq!(Requirement::new("1.2").unwrap_err().text(), "1.2");
    Ok(())
}

/// The second column of the page's table of what `new` does not take. The doctests of `Text` have the
/// first.
#[test]
fn instead_of_what_new_does_not_take() -> Result<(), InvalidVersion> {
    struct Tag(String);
    impl AsRef<str> for Tag {
        fn as_ref(&self) -> &str {
            &self.0
        }
    }
    fn lent<S: AsRef<str> + ?Sized>(text: &S) -> Result<Versioning<'_>, InvalidVersion> {
        Versioning::new(text.as_ref())
    }
    fn owned<S: AsRef<str>>(text: S) -> Result<Versioning<'static>, InvalidVersion> {
        text.as_ref().parse()
    }
    fn of_its_own_text() -> Result<[Versioning<'static>; 2], InvalidVersion> {
        let text = String::from("1.2.3");
        Ok([text.parse()?, Versioning::new(text)?])
    }
    let (shared, across) = (Rc::<str>::from("1.2.3"), Arc::<str>::from("1.2.3"));
    let (mut text, tag) = (String::from("1.2.3"), Tag(String::from("1.2.3")));
    let mutable: &mut String = &mut text;
    let [parsed, kept] = of_its_own_text()?;
    let versions = [
        Versioning::new(&shared)?,
        Versioning::new(&across)?,
        Versioning::new(&*mutable)?,
        Versioning::new(tag.as_ref())?,
        lent(&tag)?,
        lent("1.2.3")?,
        owned("1.2.3")?,
        parsed,
        kept,
    ];
    for version in versions {
        assert_eq!(version.as_str(), "1.2.3");
    }
    assert_eq!(owned(Tag(String::from("1..2"))).unwrap_err().text(), "1..2");
    Ok(())
}
