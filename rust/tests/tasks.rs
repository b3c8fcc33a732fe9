//! What people ask of versions beside their order: the version in a tag, how stable a version is, the
//! newest of many; what changed, what comes next; why a version doesn't match, and which requirements
//! exclude each other.

use std::borrow::Cow;

use proved_versions::{
    compare_total, in_tags, newest, newest_tag, stabilities, Difference, Reason, Requirement,
    Stability, Versioning,
};

// Tags, and the version in each.
const TAGS: [(&str, &str); 20] = [
    ("v1.2.3", "1.2.3"),
    ("V1.2.3", "1.2.3"),
    ("1.2.3", "1.2.3"),
    ("release-1.2.3", "1.2.3"),
    ("refs/tags/v1.2.3", "1.2.3"),
    ("pkg@1.2.3", "1.2.3"),
    ("@a/b@1.2.3", "1.2.3"),
    ("log4j-2.17.1", "2.17.1"),
    ("k8s-v1.25", "1.25"),
    ("OpenSSL_1_1_1k", "1_1_1k"),
    ("wine-8.0-rc1", "8.0-rc1"),
    ("jdk-17.0.2+8", "17.0.2+8"),
    ("1:2.0-3", "1:2.0-3"),
    ("v01.2.3", "01.2.3"),
    ("release/2023.01.02", "2023.01.02"),
    ("版本1.2", "1.2"),
    ("é1.2", "1.2"),
    ("é-v1.2", "1.2"),
    ("\0v1.2", "1.2"),
    ("a b\n1.2", "1.2"),
];
const WITHOUT: [&str; 18] = [
    "go1.20.3",
    "n6.0",
    "x1.0-2",
    "vv1.0",
    "v.1.2",
    "latest",
    "v",
    "name-v1..2",
    "jdk8u292-b10",
    "",
    ".1",
    "-",
    "-v",
    "x-1.2 ",
    "1.2\0",
    "v1.2é",
    "版本",
    "é",
];
// Tags, a prefix of theirs, and the version after it.
const AFTER: [(&str, &str, &str); 9] = [
    ("go1.20.3", "go", "1.20.3"),
    ("go-v1.2", "go-", "1.2"),
    ("2ping-4.5", "2ping-", "4.5"),
    ("版本v1.2", "版本", "1.2"),
    ("a\x001.2", "a\0", "1.2"),
    ("vv1.2", "v", "1.2"),
    ("x1.0V2", "x1.0", "2"),
    ("v1.2", "", "1.2"),
    ("1.2", "", "1.2"),
];
const NOT_AFTER: [(&str, &str); 13] = [
    ("1.2", "go"),
    ("Go1.2", "go"),
    ("go", "go"),
    ("gov", "go"),
    ("go-1.2", "go"),
    ("govv1.2", "go"),
    ("g", "go"),
    ("go1..2", "go"),
    ("r-1.2", ""),
    ("", ""),
    ("", "go"),
    ("é1.2", "Ã"),
    ("1.2", "1.2"),
];
const STABILITIES: [(Stability, &str); 5] = [
    (
        Stability::Dev,
        "1.0-SNAPSHOT 1.0.dev3 v1.0-nightly 1.0-beta-dev 1.2.0~DEVEL+20220331-1",
    ),
    (
        Stability::Alpha,
        "1.0a1 2.0-M1 1.0preview3 1.0.0-alpha.beta 1.2.3-x.y 1.0.0--x 22-ea",
    ),
    (Stability::Beta, "2.0.0-beta.1 1.0b2 3.0~beta1-2"),
    (Stability::Rc, "1.0rc1 1.0.0-rc.1 1.0c1 1.0CR2 1_0rc1+b1"),
    (
        Stability::Stable,
        "1.0 1.1.1k 1.0.Final 1.0.post1 1.2.3-5 1.2.3-r0 1.5.0-1ubuntu1 1.2.3+rc1 1.2-3+b1 \
         0.0~git20170716.74609b8-1.1 0.1.1+git1-1",
    ),
];
// In increasing order, all of different keys, by docs/ORDER.md.
const INCREASING: &str =
    "abc.0 0.0 1a.0 1.2.git 1.2 1.2.0-rc.1 1.2.0 1.2.3rc9 1.2.3rc10 1.2.3 1:0.1";
// Of one key.
const LEVEL: [&str; 5] = ["1.2", "01.2", "0:1.2", "1.2+x", "1.002"];

// Where pairs of versions differ first, by docs/ORDER.md.
const DIFFERENCES: [(Difference, &str); 7] = [
    (
        Difference::Same,
        "1.2.3 1.2.3, 1.0.0+a 1.0.0+b, 1_2 1_2, 1.0.0-a+x 1.0.0-a",
    ),
    (
        Difference::Tie,
        "1.2 0:1.2, 1.0 1.0+x, 1.2 1.002, 01.2.3 1.2.3",
    ),
    (
        Difference::Epoch,
        "1.2 1:1.2, 1:2 2:1, 9.9.9 1:0, 1:1_2 3:1_2",
    ),
    (
        Difference::Part(0),
        "1.2.3 2.2.3, 1.2 3.2-1, a.1 b.1, 1:1.0 1:2_0",
    ),
    (
        Difference::Part(1),
        "1.2.3 1.3.0, 1 1.0, 1.9 1.10, 1.3rc1 1.3, 2 2.git",
    ),
    (
        Difference::Part(2),
        "1.2.3 1.2.4, 1.2 1.2.0-rc.1, 1:0.1.2-3 1:0.1.3-3",
    ),
    (
        Difference::Tail,
        "1.2 1.2-1, 1.2.0-rc.1 1.2.0, 1.2_1 1.2, 1.2-1 1.2-2",
    ),
];
// What comes next at a place.
const NEXT: [(&str, usize, &str); 20] = [
    ("1.2.3", 2, "1.2.4"),
    ("1.2.3", 1, "1.3.0"),
    ("1.2.3", 0, "2.0.0"),
    ("1.2.3-rc.1", 2, "1.2.3"),
    ("1.2.3-rc.1", 1, "1.3.0"),
    ("1:1.9", 1, "1:1.10"),
    ("1.2-3", 1, "1.3"),
    ("1.2-3", 0, "2.0"),
    ("1.0.0-rc.1", 0, "1.0.0"),
    ("1.0.0-rc.1", 1, "1.0.0"),
    ("1.2.0-rc.1", 1, "1.2.0"),
    ("0:1.2", 0, "0:2.0"),
    ("1.2.3+x", 2, "1.2.4"),
    ("1.2+x", 1, "1.3"),
    ("7", 0, "8"),
    ("0", 0, "1"),
    ("1.2.3.4", 1, "1.3.0.0"),
    ("1.4294967295", 0, "2.0"),
    ("4294967294.0.0", 0, "4294967295.0.0"),
    ("1.9.9", 2, "1.9.10"),
];
// The pre-releases that come next after versions: of a word, or without one.
const PRE: [&str; 39] = [
    "1.2.3 rc 1.2.4-rc.1",
    "1.2.3-rc.1 rc 1.2.3-rc.2",
    "1.2.3-rc rc 1.2.3-rc.1",
    "1.2.3-alpha.4 rc 1.2.3-rc.1",
    "1.2.3-rc.1.5 rc 1.2.3-rc.2",
    "1.2.3-rc.1+b rc 1.2.3-rc.2",
    "1.2.3-rc.1 beta 1.2.4-beta.1",
    "1.2.3-rc.1 none 1.2.3-rc.2",
    "1.2.3-1 none 1.2.3-2",
    "1.2.3-0 none 1.2.3-1",
    "1.2.3-a.b.9 none 1.2.3-a.b.10",
    "1.2.3-rc.0 rc 1.2.3-rc.1",
    "1.2.3-9 rc 1.2.3-rc.1",
    "1.2.3-rc.x rc 1.2.4-rc.1",
    "1.2.3-rc1 rc 1.2.4-rc.1",
    "1.2.3-rc rc1 1.2.3-rc1.1",
    "1.2.3-a.x.4 a 1.2.4-a.1",
    "1.2.3-a a.x 1.2.3-a.x.1",
    "1.2.3-7.1 7 1.2.3-7.2",
    "1.2.3-RC.1 rc 1.2.3-rc.1",
    "1.2.3+x - 1.2.4--.1",
    "1.2.3-rc.4294967294 rc 1.2.3-rc.4294967295",
    "1.2.3-rc.4294967295 rc 1.2.4-rc.1",
    "1.2.4294967295-a rc 1.2.4294967295-rc.1",
    "1.2.4294967295 rc none",
    "1.2.4294967295-rc.4294967295 none none",
    "1.2.3 none none",
    "1.2.3-rc none none",
    "1.2.3-rc1 none none",
    "1.2.3-1.a none none",
    "1.2.3 rc. none",
    "1.2.3 .rc none",
    "1.2.3 01 none",
    "1.2.3 4294967296 none",
    "1.2.3 rc_1 none",
    "1.2.3 rc+1 none",
    "1.2 rc none",
    "1.2-rc.1 none none",
    "1_2 rc none",
];
const NO_NEXT: [(&str, usize); 16] = [
    ("4294967295.0.0", 0),
    ("1.4294967295", 1),
    ("1.2", 2),
    ("1.2.3", 3),
    ("1.2-3", 2),
    ("7", 1),
    ("1.2rc1", 0),
    ("1.2rc1", 1),
    ("a.1", 1),
    ("1.a", 0),
    ("1_2", 0),
    ("01.2", 0),
    ("1.2_3", 0),
    ("1.2.3", 4294967296),
    ("1.2.3", usize::MAX / 2),
    ("1.2.3", usize::MAX),
];

// A requirement, a version, the first member that doesn't match, and why, by docs/REQUIREMENTS.md.
const MISMATCHES: [(Reason, &str); 4] = [
    (
        Reason::Kind,
        "^1.2.3 1.5 ^1.2.3; ^1.2.3 1_2 ^1.2.3; *,~1.2 1.2.0 ~1.2; ^1_2 1.2 ^1_2",
    ),
    (
        Reason::Below,
        ">=1.5 1.4 >=1.5; *,>=1.5 1.4 >=1.5; >1.5 1.5 >1.5; =1.0 0.9 =1.0; ^1.2.3 1.2.2 ^1.2.3",
    ),
    (
        Reason::Above,
        "<2 2.0 <2; <2.0.0 2.0.0 <2.0.0; <=1 1.0 <=1; =1.0 1.1 =1.0; ^1.2.3 2.0.0 ^1.2.3; \
         ~1.1.1 1.2.0 ~1.1.1; ^1.1.1,<1.5.0 1.5.0 <1.5.0; >=1,<2,<1 3 <2",
    ),
    (
        Reason::Parts,
        "=1.0 0:1.0 =1.0; =1.0 1.0+x =1.0; *,=1.0,<0 0:1.0 =1.0",
    ),
];
const MATCHED: &str = ">=1.5 1.5; * 1_2; ^1.2.3 1.9.0; ^1.1.1,<1.5.0 1.2.0; >=1.0 0:1.0";

fn rated() -> impl Iterator<Item = (Stability, &'static str)> {
    STABILITIES
        .into_iter()
        .flat_map(|(stability, texts)| texts.split_whitespace().map(move |text| (stability, text)))
}

fn requirement(text: &str) -> Requirement<'_> {
    Requirement::new(text).unwrap()
}

#[test]
fn versions_in_tags() {
    for (tag, wanted) in TAGS {
        let version = Versioning::from_tag(tag).unwrap();
        assert_eq!(version.as_str(), wanted);
        assert_eq!(version, Versioning::new(wanted).unwrap());
        // It is the end of the tag that was lent.
        let start = tag.len() - wanted.len();
        assert_eq!(version.as_str().as_ptr(), tag[start..].as_ptr());
        let owned: Versioning<'static> = Versioning::from_tag(tag.to_string()).unwrap();
        assert_eq!(owned.as_str(), wanted);
        let cow = Versioning::from_tag(Cow::Borrowed(tag)).unwrap();
        assert_eq!(cow.as_str(), wanted);
    }
    for tag in WITHOUT {
        assert_eq!(Versioning::from_tag(tag).unwrap_err().text(), tag);
        let error = Versioning::from_tag(tag.to_string()).unwrap_err();
        assert_eq!(error.into_text(), tag);
    }
    let tags: Vec<&str> = TAGS.iter().map(|row| row.0).chain(WITHOUT).collect();
    let wanted = TAGS.iter().map(|row| Some(row.1));
    let wanted: Vec<Option<&str>> = wanted.chain(WITHOUT.map(|_| None)).collect();
    assert_eq!(in_tags(&tags), wanted);
    let owned: Vec<String> = tags.iter().map(|tag| tag.to_string()).collect();
    assert_eq!(in_tags(&owned), wanted);
    assert!(in_tags::<&str>(&[]).is_empty());
}

#[test]
fn versions_after_prefixes() {
    for (tag, prefix, wanted) in AFTER {
        let version = Versioning::after_prefix(prefix, tag).unwrap();
        assert_eq!(version.as_str(), wanted);
        let owned = Versioning::after_prefix(prefix, tag.to_string()).unwrap();
        assert_eq!(owned.as_str(), wanted);
    }
    for (tag, prefix) in NOT_AFTER {
        let error = Versioning::after_prefix(prefix, tag).unwrap_err();
        assert_eq!(error.text(), tag, "{prefix}");
    }
}

#[test]
fn how_stable_versions_are() {
    for (stability, text) in rated() {
        let version = Versioning::new(text).unwrap();
        assert_eq!(version.stability(), stability, "{text}");
    }
    let texts: Vec<&str> = rated().map(|row| row.1).chain(["", "1..2", "é"]).collect();
    let wanted: Vec<Option<Stability>> = rated().map(|row| Some(row.0)).collect();
    assert_eq!(stabilities(&texts), [&wanted[..], &[None; 3]].concat());
    assert!(stabilities::<String>(&[]).is_empty());
    let members = STABILITIES.map(|row| row.0);
    assert!(members.windows(2).all(|pair| pair[0] < pair[1]));
    let names = members.map(|member| format!("{member}|{member:>7}"));
    assert_eq!(
        names,
        [
            "dev|    dev",
            "alpha|  alpha",
            "beta|   beta",
            "rc|     rc",
            "stable| stable"
        ]
    );
}

#[test]
fn the_newest() {
    let any = Requirement::default();
    let tags = [
        "v1.9.0",
        "v1.10.0",
        "v2.0.0-beta.1",
        "latest",
        "v2.0.0",
        "v2.1.0-rc.1",
    ];
    let found = |wanted, least| newest_tag(&tags, &requirement(wanted), least).copied();
    assert_eq!(found("*", Stability::Dev), Some("v2.1.0-rc.1"));
    assert_eq!(found("*", Stability::Stable), Some("v2.0.0"));
    assert_eq!(found("<2", Stability::Stable), Some("v1.10.0"));
    assert_eq!(
        found("<2.0.0", Stability::Beta).unwrap().as_ptr(),
        tags[2].as_ptr()
    );
    assert_eq!(found(">=3", Stability::Dev), None);
    // As texts and not as tags, by docs/ORDER.md.
    let texts = ["v2.0.0", "v2.0.0-beta.1", "v1.9.0"];
    assert_eq!(newest(&texts, &any, Stability::Dev), Some(&texts[1]));
    assert_eq!(
        newest_tag(&["go1.2", "go1.3"], &any, Stability::Dev),
        None::<&&str>
    );
    for texts in [&[][..], &["x y", ""], &["1..2"]] {
        assert_eq!(newest(texts, &any, Stability::Dev), None);
        assert_eq!(newest_tag(texts, &any, Stability::Dev), None);
    }
    // Of an exact range and of others, by docs/REQUIREMENTS.md.
    let texts: Vec<String> = ["1.2", "1.2.3", "0:1.2", "1.5", "1.2.9", "2.0"]
        .map(String::from)
        .to_vec();
    for (wanted, place) in [("^1.2.3", 4), ("~1.2", 3), ("=1.2", 0), ("=0:1.2", 2)] {
        let found = newest(&texts, &requirement(wanted), Stability::Stable);
        assert_eq!(found, Some(&texts[place]), "{wanted}");
    }
}

#[test]
fn the_first_of_those_that_tie() {
    let any = Requirement::default();
    let texts: Vec<&str> = INCREASING.split_whitespace().collect();
    for (i, a) in texts.iter().enumerate() {
        for (j, b) in texts.iter().enumerate() {
            let wanted = if i >= j { a } else { b };
            assert_eq!(newest(&[a, b], &any, Stability::Dev), Some(&wanted));
        }
    }
    for turn in 0..LEVEL.len() {
        let mut texts = LEVEL.to_vec();
        texts.rotate_left(turn);
        let first = texts[0];
        texts.insert(turn % 2, "1..2");
        texts.insert(turn % 3, "1.1");
        let found = newest(&texts, &any, Stability::Dev);
        assert_eq!(found.unwrap().as_ptr(), first.as_ptr(), "{texts:?}");
    }
}

#[test]
fn where_versions_differ() {
    for (wanted, pairs) in DIFFERENCES {
        for pair in pairs.split(", ") {
            let (a, b) = pair.split_once(' ').unwrap();
            let [x, y] = [a, b].map(|text| Versioning::new(text).unwrap());
            assert_eq!(x.difference(&y), wanted, "{pair}");
            assert_eq!(y.difference(&x.into_owned()), wanted, "{pair}");
        }
    }
    let sentences = DIFFERENCES.map(|row| row.0.to_string());
    assert_eq!(
        sentences,
        [
            "they differ at most after the plus, which doesn't count",
            "they compare equal, and are not the same version",
            "they differ first in the epoch",
            "they differ first in part 0",
            "they differ first in part 1",
            "they differ first in part 2",
            "they differ first in what follows the parts",
        ]
    );
    // Beside the comparisons.
    let texts = INCREASING.split_whitespace().chain(LEVEL);
    let texts: Vec<&str> = texts.chain(rated().map(|row| row.1)).collect();
    for a in &texts {
        for b in &texts {
            let [x, y] = [a, b].map(|text| Versioning::new(text).unwrap());
            let found = x.difference(&y);
            let ties = found == Difference::Same || found == Difference::Tie;
            assert_eq!(ties, x.precedence(&y).is_eq(), "{a} {b}");
            assert_eq!(
                found == Difference::Same,
                compare_total(a, b).unwrap().is_eq()
            );
            let epochs = [&x, &y].map(|version| version.epoch().unwrap_or(0));
            assert_eq!(found == Difference::Epoch, epochs[0] != epochs[1]);
        }
    }
}

#[test]
fn what_comes_next() {
    for (text, place, wanted) in NEXT {
        let version = Versioning::new(text).unwrap();
        let next: Versioning<'static> = version.next(place).unwrap();
        assert_eq!(next.as_str(), wanted, "{text} {place}");
        assert!(next > version);
    }
    for (text, place) in NO_NEXT {
        let version = Versioning::new(text).unwrap();
        assert!(version.next(place).is_none(), "{text} {place}");
    }
    for count in [1, 40, 41, 42, 126, 127, 128, 1000, 1_000_000] {
        let version = Versioning::new("9.".repeat(count) + "9").unwrap();
        let next = version.next(count).unwrap();
        assert_eq!(next.as_str(), "9.".repeat(count) + "10");
        let next = version.next(0).unwrap();
        assert_eq!(next.as_str(), String::from("10") + &".0".repeat(count));
        assert!(version.next(count + 1).is_none());
        let other = Versioning::new("9.".repeat(count) + "8").unwrap();
        assert_eq!(version.difference(&other), Difference::Part(count));
    }
}

#[test]
fn the_next_release() {
    for row in [
        "1.2.3-rc.1 1.2.3",
        "1.2.3 1.2.4",
        "1.2 1.3",
        "1:1.9-3 1:1.10",
        "5 6",
        "1.2.3.4 1.2.3.5",
        "1.2.3+x 1.2.4",
        "1.2.4294967295-rc.1 1.2.4294967295",
    ] {
        let [text, wanted] = words(row);
        let version = Versioning::new(text).unwrap();
        let next: Versioning<'static> = version.next_release().unwrap();
        assert_eq!(next.as_str(), wanted, "{text}");
        assert!(next > version);
    }
    for text in ["1.2.4294967295", "1.0rc1", "1.a", "1_2", "01.2", "a"] {
        let version = Versioning::new(text).unwrap();
        assert!(version.next_release().is_none(), "{text}");
    }
    for count in [1, 126, 127, 128, 1_000_000] {
        let version = Versioning::new("9.".repeat(count) + "9").unwrap();
        let next = version.next_release().unwrap();
        assert_eq!(next.as_str(), "9.".repeat(count) + "10");
    }
}

#[test]
fn the_next_pre_release() {
    // By docs/ORDER.md: numbers before texts, a prefix before the longer one, and each before no
    // pre-release.
    for row in PRE {
        let [text, word, wanted] = words(row);
        let version = Versioning::new(text).unwrap();
        let word = Some(word).filter(|word| *word != "none");
        let next = version.next_pre(word);
        if wanted == "none" {
            assert!(next.is_none(), "{row}");
            continue;
        }
        let next: Versioning<'static> = next.unwrap();
        assert_eq!(next.as_str(), wanted, "{row}");
        assert!(next > version && next.is_prerelease());
    }
    let version = Versioning::new("1.2.3-rc.1").unwrap();
    for word in ["a b", " ", "rc\0", "é"] {
        assert!(version.next_pre(Some(word)).is_none(), "{word}");
    }
    assert_eq!(version.next_pre(Some("")), version.next_pre(None));
    for count in [1, 126, 127, 128, 1_000_000] {
        let long = "a.".repeat(count);
        let version = Versioning::new(format!("1.2.3-{long}9")).unwrap();
        let next = version.next_pre(None).unwrap();
        assert_eq!(next.as_str(), format!("1.2.3-{long}10"));
        let word = &long[..long.len() - 1];
        assert_eq!(version.next_pre(Some(word)).unwrap(), next);
        let largest = Versioning::new("4294967295.4294967295.9").unwrap();
        let next = largest.next_pre(Some(word)).unwrap();
        assert_eq!(next.as_str(), format!("4294967295.4294967295.10-{word}.1"));
    }
}

fn words<const N: usize>(row: &str) -> [&str; N] {
    let words: Vec<&str> = row.split_whitespace().collect();
    words.try_into().unwrap()
}

#[test]
fn why_versions_do_not_match() {
    for (reason, rows) in MISMATCHES {
        for row in rows.split("; ") {
            let [wanted, text, member] = words(row);
            let (wanted, version) = (requirement(wanted), Versioning::new(text).unwrap());
            let found = wanted.why_not(&version).unwrap();
            let start = wanted.as_str().find(member).unwrap();
            assert_eq!((found.member(), found.reason()), (member, reason), "{row}");
            assert_eq!(found.place(), start..start + member.len(), "{row}");
            assert_eq!(found.version(), text);
            let sentence = match reason {
                Reason::Kind => format!("{text} is not of a kind that {member} matches"),
                Reason::Below => format!("{text} is below {member}"),
                Reason::Above => format!("{text} is above {member}"),
                Reason::Parts => {
                    format!(
                        "{text} is within the bounds of {member}, but its parts or fields differ"
                    )
                }
            };
            assert_eq!(found.to_string(), sentence);
            assert_eq!(found.clone(), found);
        }
    }
    for row in MATCHED.split("; ") {
        let [wanted, text] = words(row);
        let version = Versioning::new(text).unwrap();
        assert_eq!(requirement(wanted).why_not(&version), None, "{row}");
    }
}

#[test]
fn why_not_beside_the_ranges_of_members() {
    let texts: Vec<&str> = INCREASING.split_whitespace().chain(LEVEL).collect();
    let mut members = vec!["*".to_string()];
    for operator in ["=", ">", ">=", "<", "<=", "~", "^"] {
        members.extend(texts.iter().map(|text| format!("{operator}{text}")));
    }
    let lists = members
        .iter()
        .zip(members.iter().rev())
        .zip(members.iter().cycle().skip(17));
    for ((a, b), c) in lists {
        let list = format!("{a},{b},{c}");
        let wanted = requirement(&list);
        for version in texts.iter().map(|text| Versioning::new(*text).unwrap()) {
            let first = [a, b, c]
                .into_iter()
                .map(|member| requirement(member))
                .find(|member| !member.matches(&version));
            let found = wanted.why_not(&version);
            assert_eq!(found.is_none(), wanted.matches(&version));
            assert_eq!(found.is_none(), first.is_none(), "{list} {version}");
            if let (Some(found), Some(first)) = (found, first) {
                let (range, key) = (first.range(), version.sort_key());
                let reason = if !range.has_kind(version.kind()) {
                    Reason::Kind
                } else if key < range.low() {
                    Reason::Below
                } else if range.high().map_or(false, |high| key >= high) {
                    Reason::Above
                } else {
                    Reason::Parts
                };
                assert_eq!(found.member(), first.as_str(), "{list} {version}");
                assert_eq!(found.reason(), reason, "{list} {version}");
            }
        }
    }
}

#[test]
fn requirements_that_exclude_each_other() {
    for row in [
        ">=1.2,<1.0 <1.0 >=1.2",
        "<1.0,>=1.2 <1.0 >=1.2",
        "*,>=2,<9,<2 <2 >=2",
        "<1,>1,* <1 >1",
        "^1.2.3,^2.0.0 ^1.2.3 ^2.0.0",
        "^1.2,^1.2.3 ^1.2 ^1.2.3",
        "=1.0,=1.1 =1.0 =1.1",
        ">=3,>=1,<5,<=2 <=2 >=3",
        // `^` of a messy version matches nothing.
        "^1_2 ^1_2 ^1_2",
        "*,~1_2 ~1_2 ~1_2",
    ] {
        let [list, a, b] = words(row);
        let list = requirement(list);
        let (first, second) = list.conflict().unwrap();
        let mut found = [first, second];
        found.sort();
        assert_eq!(found, [a, b], "{row}");
    }
    for text in ["*", ">=1.2,<2", "^1.2.3,<1.9.0", "=1.0", ">=1,<=1", "*,*"] {
        assert_eq!(requirement(text).conflict(), None, "{text}");
    }
}

#[test]
fn great_lengths() {
    let ten = 10_000_000;
    for front in [
        "-".repeat(ten),
        "v-".repeat(ten / 2),
        "v".repeat(ten) + "-",
        "é".repeat(ten / 2),
    ] {
        let tag = format!("{front}1.2");
        assert_eq!(Versioning::from_tag(&tag).unwrap().as_str(), "1.2");
        let version = Versioning::after_prefix(&front, &tag).unwrap();
        assert_eq!(version.as_str(), "1.2");
        assert_eq!(in_tags(&[&*tag, &front]), [Some("1.2"), None]);
    }
    for tag in ["a1.0-".repeat(ten / 5), "-1".repeat(ten / 2) + " "] {
        assert!(Versioning::from_tag(&tag).is_err());
    }
    let word = "a".repeat(ten);
    for (text, stability) in [
        (word.clone(), Stability::Stable),
        (format!("1.0.0-{word}"), Stability::Alpha),
        (format!("{}dev", "1_".repeat(ten / 2)), Stability::Dev),
    ] {
        assert_eq!(Versioning::new(&text).unwrap().stability(), stability);
        assert_eq!(stabilities(&[&text]), [Some(stability)]);
        let (any, texts) = (Requirement::default(), [&*text, "1..2", &*text]);
        let found = newest(&texts, &any, stability).unwrap();
        assert_eq!(found.as_ptr(), text.as_ptr());
    }
}
