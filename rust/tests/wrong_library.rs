//! What the crate does where the library answers what `versions.h` does not allow: it panics, and
//! says what it was given.
//!
//! This is linked with a library of that name which is not the library: `tests/support/wrong.c` of
//! the repository, which answers by the letter and the number that a text begins with. `tests/rust`
//! builds that, and runs this.

use std::panic::{catch_unwind, AssertUnwindSafe};

use proved_versions::scheme::{Deb, Mixed};
use proved_versions::{
    compare, compare_total, in_tags, kind, kinds, match_all, newest, newest_tag, order, sort,
    sort_key, sort_keys, stabilities, Requirement, Scheme, Stability, VersionOf, VersionSet,
    Versioning,
};

const FORGOTTEN: &str = "the library no longer takes the text of a Versioning for a version";

/// With what a call panics.
fn panic<R>(call: impl FnOnce() -> R) -> String {
    let payload = catch_unwind(AssertUnwindSafe(call))
        .err()
        .expect("the call has to panic");
    match payload.downcast_ref::<String>() {
        Some(text) => text.clone(),
        None => payload.downcast_ref::<&str>().unwrap().to_string(),
    }
}

fn unexpected(call: &str, what: &str) -> String {
    format!("{call} gave the {what}, which versions.h does not allow here")
}

fn version(text: &str) -> Versioning<'_> {
    Versioning::new(text).unwrap()
}

fn requirement(text: &str) -> Requirement<'_> {
    Requirement::new(text).unwrap()
}

#[test]
#[ignore = "run by tests/rust of the repository, with a wrong library"]
fn statuses() {
    let (strict, general) = (version("i99"), version("v99"));
    let (exact, wanted) = (requirement("e99"), requirement("v99"));
    let said = [
        ("versions_compare", panic(|| compare("v99", "v99"))),
        (
            "versions_compare_total",
            panic(|| compare_total("v99", "v99")),
        ),
        ("versions_compare_total", panic(|| general.cmp(&strict))),
        ("versions_compare_total", panic(|| general == version("v9"))),
        ("versions_compare_total", panic(|| general == "1")),
        ("versions_parse", panic(|| sort_key("x99"))),
        (
            "versions_parse",
            panic(|| Versioning::new("x99").map(String::from)),
        ),
        (
            "versions_range",
            panic(|| requirement("x99").matches(&general)),
        ),
        ("versions_nth", panic(|| general.nth(0))),
        ("versions_nth", panic(|| strict.major())),
        ("versions_epoch", panic(|| general.epoch())),
        ("versions_field", panic(|| strict.pre_release().is_some())),
        ("versions_field", panic(|| general.release().is_some())),
        ("versions_field", panic(|| general.metadata().is_some())),
        ("versions_is_prerelease", panic(|| general.is_prerelease())),
        (
            "versions_in_tag",
            panic(|| Versioning::from_tag("v99").is_ok()),
        ),
        (
            "versions_after_prefix",
            panic(|| Versioning::after_prefix("v99", "v99").is_ok()),
        ),
        (
            "versions_difference",
            panic(|| general.difference(&version("v0"))),
        ),
        ("versions_next", panic(|| general.next(0).is_some())),
        (
            "versions_next_release",
            panic(|| general.next_release().is_some()),
        ),
        (
            "versions_next_pre",
            panic(|| general.next_pre(Some("rc")).is_some()),
        ),
        (
            "versions_why_not",
            panic(|| wanted.why_not(&general).is_some()),
        ),
        ("versions_conflict", panic(|| wanted.conflict().is_some())),
        ("versions_in_tags", panic(|| in_tags(&["v99"]).len())),
        ("versions_stabilities", panic(|| stabilities(&["v99"]))),
        (
            "versions_newest",
            panic(|| newest(&["v99"], &wanted, Stability::Dev).is_some()),
        ),
        (
            "versions_newest",
            panic(|| newest_tag(&["v99"], &exact, Stability::Dev).is_some()),
        ),
        ("versions_matches", panic(|| wanted.matches(&general))),
        (
            "versions_match_in_range",
            panic(|| wanted.matches_text("v99")),
        ),
        (
            "versions_match_in_range",
            panic(|| exact.matches_text("v99")),
        ),
        ("versions_match_all", panic(|| match_all(&wanted, &["v99"]))),
        (
            "versions_in_range_all",
            panic(|| match_all(&exact, &["v99"])),
        ),
        ("versions_kinds", panic(|| kinds(&["v99"]))),
        ("versions_keys", panic(|| sort_keys(&["v99"]))),
        ("versions_sort", panic(|| sort(&mut ["v99"]))),
    ];
    for (call, text) in said {
        assert_eq!(text, unexpected(call, "status 99"));
    }
    for (text, what) in [("99", "kind 99"), ("-10", "kind -10")] {
        assert_eq!(panic(|| kind(text)), unexpected("versions_kind", what));
    }
    for (text, what) in [("v99", "stability 99"), ("v-10", "stability -10")] {
        let said = panic(|| version(text).stability());
        assert_eq!(said, unexpected("versions_stability", what));
    }
    assert!(panic(|| version("v0").stability()).contains(FORGOTTEN));
}

#[test]
#[ignore = "run by tests/rust of the repository, with a wrong library"]
fn statuses_of_other_calls() {
    // Each is a status of versions.h, and says what a text that was taken before is not.
    for text in ["v2", "v3", "v4"] {
        assert!(panic(|| version(text).cmp(&version("v0"))).contains(FORGOTTEN));
        assert!(panic(|| version(text) == version("v0")).contains(FORGOTTEN));
        assert!(panic(|| version(text) == "1").contains(FORGOTTEN));
        assert!(panic(|| version(text).difference(&version("v0"))).contains(FORGOTTEN));
    }
    for (text, status) in [("x5", "status 5"), ("x7", "status 7"), ("x10", "status 10")] {
        let said = panic(|| Versioning::new(text).is_ok());
        assert_eq!(said, unexpected("versions_parse", status));
    }
    for (text, status) in [("x1", "status 1"), ("x7", "status 7"), ("x10", "status 10")] {
        let said = panic(|| Requirement::new(text).is_ok());
        assert_eq!(said, unexpected("versions_range", status));
    }
    let said = panic(|| Requirement::new("5").is_ok());
    assert_eq!(said, unexpected("versions_wrong_member", "status 5"));
    for (text, status) in [("v1", "status 1"), ("v7", "status 7"), ("v11", "status 11")] {
        assert_eq!(
            panic(|| version(text).nth(0)),
            unexpected("versions_nth", status)
        );
        assert_eq!(
            panic(|| version(text).epoch()),
            unexpected("versions_epoch", status)
        );
    }
    for (text, status) in [("v1", "status 1"), ("v7", "status 7"), ("v15", "status 15")] {
        let said = panic(|| version(text).next(0).is_some());
        assert_eq!(said, unexpected("versions_next", status));
        let said = panic(|| version(text).next_release().is_some());
        assert_eq!(said, unexpected("versions_next_release", status));
        let said = panic(|| version(text).next_pre(None).is_some());
        assert_eq!(said, unexpected("versions_next_pre", status));
    }
    let said = panic(|| version("v1").difference(&version("v0")));
    assert_eq!(said, unexpected("versions_difference", "status 1"));
    for (text, status) in [("v1", "status 1"), ("v6", "status 6"), ("v10", "status 10")] {
        assert_eq!(
            panic(|| version(text).metadata().is_some()),
            unexpected("versions_field", status)
        );
        assert_eq!(
            panic(|| version(text).is_prerelease()),
            unexpected("versions_is_prerelease", status)
        );
    }
    let (exact, wanted) = (requirement("e5"), requirement("v5"));
    let status = unexpected("versions_matches", "status 5");
    assert_eq!(panic(|| wanted.matches(&version("v0"))), status);
    assert!(panic(|| requirement("v1").matches(&version("v1"))).contains(FORGOTTEN));
    for (text, status) in [("v1", "status 1"), ("v5", "status 5"), ("v12", "status 12")] {
        assert_eq!(
            panic(|| requirement(text).why_not(&version("v0")).is_some()),
            unexpected("versions_why_not", status)
        );
        assert_eq!(
            panic(|| requirement(text).conflict().is_some()),
            unexpected("versions_conflict", status)
        );
    }
    // The member is what follows the `d`.
    let (list, general) = (requirement("v0d9"), version("v1"));
    let mismatch = list.why_not(&general).unwrap();
    assert_eq!(
        panic(|| mismatch.to_string()),
        unexpected("versions_why_text", "status 9")
    );
    let status = unexpected("versions_match_all", "status 5");
    assert_eq!(panic(|| match_all(&wanted, &["v5"])), status);
    for (text, status) in [("v5", "status 5"), ("v7", "status 7"), ("v10", "status 10")] {
        assert_eq!(
            panic(|| exact.matches_text(text)),
            unexpected("versions_match_in_range", status)
        );
        assert_eq!(
            panic(|| match_all(&exact, &[text])),
            unexpected("versions_in_range_all", status)
        );
    }
    for (text, status) in [("v7", "status 7"), ("v8", "status 8"), ("v10", "status 10")] {
        assert_eq!(
            panic(|| kinds(&[text])),
            unexpected("versions_kinds", status)
        );
        assert_eq!(
            panic(|| sort_keys(&[text])),
            unexpected("versions_keys", status)
        );
        assert_eq!(
            panic(|| order(&[text])),
            unexpected("versions_sort", status)
        );
        assert_eq!(
            panic(|| in_tags(&[text]).len()),
            unexpected("versions_in_tags", status)
        );
        assert_eq!(
            panic(|| stabilities(&[text])),
            unexpected("versions_stabilities", status)
        );
        assert_eq!(
            panic(|| newest(&[text], &exact, Stability::Rc).is_some()),
            unexpected("versions_newest", status)
        );
        assert_eq!(
            panic(|| Versioning::from_tag(text).is_ok()),
            unexpected("versions_in_tag", status)
        );
    }
    let status = unexpected("versions_after_prefix", "status 5");
    assert_eq!(
        panic(|| Versioning::after_prefix("v5", "v0").is_ok()),
        status
    );
}

#[test]
#[ignore = "run by tests/rust of the repository, with a wrong library"]
fn answers() {
    // With the status VERSIONS_OK, and answers that it never has.
    assert_eq!(
        panic(|| compare("v0", "v0")),
        unexpected("versions_compare", "order 7")
    );
    let general = version("v0");
    assert_eq!(
        panic(|| general.cmp(&version("i0"))),
        unexpected("versions_compare_total", "order 7")
    );
    let (exact, wanted) = (requirement("e0"), requirement("v0"));
    let said = [
        ("versions_matches", panic(|| wanted.matches(&general))),
        (
            "versions_match_in_range",
            panic(|| wanted.matches_text("v0")),
        ),
        (
            "versions_match_in_range",
            panic(|| exact.matches_text("v0")),
        ),
        ("versions_match_all", panic(|| match_all(&wanted, &["v0"]))),
        (
            "versions_in_range_all",
            panic(|| match_all(&exact, &["v0"])),
        ),
        ("versions_is_prerelease", panic(|| general.is_prerelease())),
    ];
    for (call, text) in said {
        assert_eq!(text, unexpected(call, "match 9"));
    }
    assert_eq!(
        panic(|| kinds(&["v0"])),
        unexpected("versions_kind", "kind 9")
    );
    assert_eq!(
        panic(|| stabilities(&["v0"])),
        unexpected("versions_stability", "stability 9")
    );
    assert_eq!(
        panic(|| general.difference(&general)),
        unexpected("versions_difference", "difference 9")
    );
    let said = panic(|| general.next(0).is_some());
    assert!(said.starts_with("versions_next gave the text invalid utf-8"));
    let said = panic(|| version("v0a").next(0).is_some());
    assert_eq!(said, unexpected("versions_next", "length 5"));
    let said = panic(|| version("v0a").next_pre(Some("rc")).is_some());
    assert_eq!(said, unexpected("versions_next_pre", "length 10"));
    assert_eq!(
        panic(|| wanted.why_not(&general).is_some()),
        unexpected("versions_why_not", "reason 9")
    );
    let place = unexpected("versions_newest", "place 1");
    assert_eq!(
        panic(|| newest(&["v0"], &wanted, Stability::Dev).is_some()),
        place
    );
    assert_eq!(
        panic(|| newest_tag(&["v0"], &exact, Stability::Dev).is_some()),
        place
    );
    // Offsets and places of no text.
    panic(|| in_tags(&["v0", "v0"]).len());
    panic(|| sort_keys(&["v0"]).get(0).is_some());
    panic(|| sort(&mut ["v0", "v0"]));
}

#[test]
#[ignore = "run by tests/rust of the repository, with a wrong library"]
fn kinds_and_lengths() {
    for (text, what) in [("k0", "kind 9"), ("n0", "kind 0")] {
        let said = panic(|| Versioning::new(text).is_ok());
        assert_eq!(said, unexpected("versions_parse", what));
        let said = panic(|| sort_key(text));
        assert_eq!(said, unexpected("versions_parse", what));
    }
    // With room on the stack, and with room in an allocation.
    let long = |letter: &str| letter.to_string() + &"0".repeat(1000);
    for (text, room) in [("l0".to_string(), 128), (long("l"), 3 * 1001 + 5)] {
        let what = format!("length {}", room + 1);
        let said = panic(|| Versioning::new(&text).is_ok());
        assert_eq!(said, unexpected("versions_parse", &what));
        let said = panic(|| Requirement::new(&text).is_ok());
        assert_eq!(said, unexpected("versions_range", &what));
    }
    for (text, room) in [("h0".to_string(), 128), (long("h"), 3 * 1001 + 5)] {
        let said = panic(|| Requirement::new(&text).is_ok());
        let what = format!("length {}", room + 1);
        assert_eq!(said, unexpected("versions_range", &what));
    }
    let said = panic(|| Requirement::new("f0").is_ok());
    assert_eq!(said, unexpected("versions_range", "sum of flags 35"));
}

#[test]
#[ignore = "run by tests/rust of the repository, with a wrong library"]
fn places_of_fields() {
    let texts = ["v0a", "v0b", "v0c", "v0dé", "v0e"];
    let places = ["0..4", "2..1", "1..1", "3..4", "0..18446744073709551615"];
    for (text, place) in texts.into_iter().zip(places) {
        let (version, wanted) = (
            version(text),
            unexpected("versions_field", &format!("place {place}")),
        );
        assert_eq!(panic(|| version.pre_release().is_some()), wanted);
        assert_eq!(panic(|| version.release().is_some()), wanted);
        assert_eq!(panic(|| version.metadata().is_some()), wanted);
    }
}

#[test]
#[ignore = "run by tests/rust of the repository, with a wrong library"]
fn places_of_members() {
    let texts = ["x5a", "x5b", "x5dé", "x5e"];
    let places = ["0..4", "2..1", "3..4", "0..18446744073709551615"];
    for (text, place) in texts.into_iter().zip(places) {
        let wanted = unexpected("versions_wrong_member", &format!("place {place}"));
        assert_eq!(panic(|| Requirement::new(text).is_ok()), wanted);
    }
}

#[test]
#[ignore = "run by tests/rust of the repository, with a wrong library"]
fn places_of_members_that_differ() {
    let texts = ["v0a", "v0b", "v0dé", "v0e"];
    let places = ["0..4", "2..1", "3..4", "0..18446744073709551615"];
    for (text, place) in texts.into_iter().zip(places) {
        let (place, version) = (format!("place {place}"), version("v1"));
        assert_eq!(
            panic(|| requirement(text).why_not(&version).is_some()),
            unexpected("versions_why_not", &place)
        );
        assert_eq!(
            panic(|| requirement(text).conflict().is_some()),
            unexpected("versions_conflict", &place)
        );
    }
}

#[test]
#[ignore = "run by tests/rust of the repository, with a wrong library"]
fn places_in_tags() {
    // Past the tag, at its end, and within a letter.
    let texts = ["v0a", "v0dx", "v0dé", "v0e"];
    let places = ["4", "4", "4", "18446744073709551615"];
    for (text, place) in texts.into_iter().zip(places) {
        let place = format!("place {place}");
        assert_eq!(
            panic(|| Versioning::from_tag(text).is_ok()),
            unexpected("versions_in_tag", &place)
        );
        assert_eq!(
            panic(|| Versioning::after_prefix("v0", text).is_ok()),
            unexpected("versions_after_prefix", &place)
        );
    }
}

fn set(text: &str) -> VersionSet {
    VersionSet::new(text).unwrap()
}

fn single(text: &str) -> VersionSet<Deb> {
    VersionSet::singleton(VersionOf::new(text, Deb).unwrap())
}

#[test]
#[ignore = "run by tests/rust of the repository, with a wrong library"]
fn statuses_of_schemes_and_sets() {
    let long = format!("v{:098}", 0);
    let (deb, good) = (Scheme::Deb, set("s0"));
    let any = |text| VersionSet::new_in(text, Scheme::Rpm).unwrap();
    let said = [
        ("versions_scheme", panic(|| "v99".parse::<Scheme>())),
        ("versions_has", panic(|| deb.is_version("v99"))),
        ("versions_compare", panic(|| deb.compare("v99", "v99"))),
        (
            "versions_compare",
            panic(|| VersionOf::new("v99", Deb).unwrap() == "v99"),
        ),
        ("versions_key_bound", panic(|| deb.sort_key(&long))),
        ("versions_key_bound", panic(|| deb.sort_keys(&[&long]))),
        ("versions_key_bound", panic(|| deb.order(&[&long]))),
        ("versions_key", panic(|| deb.sort_key("x99"))),
        ("versions_key", panic(|| VersionOf::new("x99", Deb).is_ok())),
        ("versions_keys", panic(|| deb.sort_keys(&["v99"]))),
        ("versions_sort", panic(|| deb.sort(&mut ["v99"]))),
        ("versions_sort", panic(|| Scheme::Mixed.order(&["v99"]))),
        (
            "versions_set_bound",
            panic(|| VersionSet::new("b99").is_ok()),
        ),
        ("versions_set", panic(|| VersionSet::new("x99").is_ok())),
        (
            "versions_set_wrong_text",
            panic(|| VersionSet::new("w18s").is_ok()),
        ),
        ("versions_set_of_version", panic(|| single("v99"))),
        ("versions_set_has", panic(|| set("s99").contains_text("v0"))),
        (
            "versions_set_has",
            panic(|| set("s99").contains(&version("v0"))),
        ),
        (
            "versions_set_has_all",
            panic(|| set("s99").contains_texts(&["v0"])),
        ),
        ("versions_set_and", panic(|| set("s99") & &good)),
        ("versions_set_or", panic(|| set("s99") | &good)),
        ("versions_set_not", panic(|| !set("s99"))),
        (
            "versions_set_part_of",
            panic(|| set("s99").subset_of(&good)),
        ),
        (
            "versions_set_meets",
            panic(|| set("s99").is_disjoint(&good)),
        ),
        ("versions_set_interval", panic(|| set("s99").is_empty())),
        (
            "versions_set_and",
            panic(|| any("s99").try_intersection(&any("s0")).is_ok()),
        ),
        (
            "versions_set_or",
            panic(|| any("s99").try_union(&any("s0")).is_ok()),
        ),
        (
            "versions_set_part_of",
            panic(|| any("s99").try_subset_of(&any("s0"))),
        ),
        (
            "versions_set_meets",
            panic(|| any("s99").try_is_disjoint(&any("s0"))),
        ),
    ];
    for (call, text) in said {
        assert_eq!(text, unexpected(call, "status 99"));
    }
    // What another call has, or this one where it was asked something else.
    for number in [1, 7, 10, 12, 18, 19, 20, 21, 22, 23] {
        let status = format!("status {number}");
        let text = format!("s{number}");
        let made = || set(&text);
        let forms = [
            ("versions_set_and", panic(|| made() & made())),
            ("versions_set_or", panic(|| made() | made())),
            ("versions_set_not", panic(|| !made())),
            ("versions_set_part_of", panic(|| made().subset_of(&made()))),
            ("versions_set_meets", panic(|| made().is_disjoint(&made()))),
            (
                "versions_set_of_version",
                panic(|| single(&format!("v{number}"))),
            ),
            (
                "versions_set_bound",
                panic(|| VersionSet::new(format!("b{number}")).is_ok()),
            ),
            ("versions_has", panic(|| Scheme::Rpm.is_version(&text))),
            (
                "versions_compare",
                panic(|| Scheme::Rpm.compare(&text, "v0")),
            ),
            ("versions_keys", panic(|| Scheme::Rpm.sort_keys(&[&text]))),
            ("versions_sort", panic(|| Scheme::Rpm.order(&[&text]))),
        ];
        for (call, said) in forms {
            assert_eq!(said, unexpected(call, &status));
        }
        if number != 1 {
            let said = panic(|| made().contains_text("v0"));
            assert_eq!(said, unexpected("versions_set_has", &status));
            let said = panic(|| Scheme::Rpm.sort_key(&format!("x{number}")));
            assert_eq!(said, unexpected("versions_key", &status));
        }
        if number != 18 {
            let said = panic(|| VersionSet::new(format!("x{number}")).is_ok());
            assert_eq!(said, unexpected("versions_set", &status));
        }
        if number != 22 {
            let said = panic(|| made().intervals().count());
            assert_eq!(said, unexpected("versions_set_interval", &status));
        }
    }
    let said = panic(|| VersionSet::new("18").is_ok());
    assert_eq!(said, unexpected("versions_set_wrong", "status 18"));
    for (text, call, what) in [
        ("1", "versions_wrong", "status 1"),
        ("w1_s", "versions_wrong_text", "status 99"),
        ("w1_l", "versions_wrong_text", "length 101"),
    ] {
        let said = panic(|| Versioning::new(text).unwrap_err().reason());
        assert_eq!(said, unexpected(call, what));
    }
    let forgotten = "the library no longer takes the text of a version for one";
    assert!(panic(|| set("s1").contains(&version("v0"))).contains(forgotten));
}

#[test]
#[ignore = "run by tests/rust of the repository, with a wrong library"]
fn answers_of_schemes_and_sets() {
    let (deb, made) = (Scheme::Deb, set("s0"));
    let said = [
        ("versions_has", panic(|| deb.is_version("v0"))),
        ("versions_set_has", panic(|| made.contains_text("v0"))),
        (
            "versions_set_has",
            panic(|| made.contains(&VersionOf::new("v0", Mixed).unwrap())),
        ),
        (
            "versions_set_has_all",
            panic(|| made.contains_texts(&["v0"])),
        ),
        ("versions_set_part_of", panic(|| made.subset_of(&made))),
        ("versions_set_meets", panic(|| made.is_disjoint(&made))),
    ];
    for (call, text) in said {
        assert_eq!(text, unexpected(call, "match 9"));
    }
    assert_eq!(
        panic(|| "v0".parse::<Scheme>()),
        unexpected("versions_scheme", "scheme 0")
    );
    assert_eq!(
        panic(|| deb.compare("v0", "v0")),
        unexpected("versions_compare", "order 7")
    );
    let long = |letter: &str| letter.to_string() + &"0".repeat(1000);
    for (text, room) in [("l0".to_string(), 128), (long("l"), 1002)] {
        let what = format!("length {}", room + 1);
        let said = panic(|| deb.sort_key(&text));
        assert_eq!(said, unexpected("versions_key", &what));
        let said = panic(|| VersionOf::new(&text, Deb).is_ok());
        assert_eq!(said, unexpected("versions_key", &what));
    }
    let said = [
        ("versions_set", panic(|| VersionSet::new("l0").is_ok()), 3),
        ("versions_set_of_version", panic(|| single("i0")), 1),
        ("versions_set_and", panic(|| &made & &made), 5),
        ("versions_set_or", panic(|| &made | &made), 5),
        ("versions_set_not", panic(|| !&made), 20),
        (
            "versions_set_wrong_text",
            panic(|| VersionSet::new("w18l").is_ok()),
            101,
        ),
    ];
    for (call, text, length) in said {
        assert_eq!(text, unexpected(call, &format!("length {length}")));
    }
    // Here all versions have one key, and those of two schemes are unequal even so.
    let two = [Scheme::Deb, Scheme::Rpm].map(|scheme| VersionOf::new("v0", scheme).unwrap());
    assert_eq!(two[0].sort_key(), two[1].sort_key());
    assert!(two[0] != two[1] && two[0].key() != two[1].key());
    let said = panic(|| VersionSet::new("w18u").is_ok());
    assert!(said.starts_with("versions_set_wrong_text gave the text invalid utf-8"));
    // Offsets and places of no text.
    panic(|| deb.sort_keys(&["v0"]).get(0).is_some());
    panic(|| deb.sort(&mut ["v0", "v0"]));
}

#[test]
#[ignore = "run by tests/rust of the repository, with a wrong library"]
fn places_in_sets() {
    for (text, place) in [
        ("w18a", "5"),
        ("w18dé", "5"),
        ("w18e", "18446744073709551615"),
    ] {
        let said = panic(|| VersionSet::new(text).is_ok());
        assert_eq!(
            said,
            unexpected("versions_set_wrong", &format!("place {place}"))
        );
    }
    for (text, place) in [
        ("w1_a", "5"),
        ("w1_dé", "5"),
        ("w1_e", "18446744073709551615"),
    ] {
        let said = panic(|| Versioning::new(text).unwrap_err().place());
        let wanted = unexpected("versions_wrong", &format!("place {place}"));
        assert_eq!(said, wanted);
    }
    let ends = [
        ("a", "0..4"),
        ("b", "2..1"),
        ("e", "0..18446744073709551615"),
    ];
    for (letter, ends) in ends {
        for first in ["s", "t"] {
            let made = set(&format!("{first}0{letter}"));
            let said = panic(|| made.intervals().count());
            assert_eq!(
                said,
                unexpected("versions_set_interval", &format!("place {ends}"))
            );
            let said = panic(|| made.is_empty());
            assert_eq!(
                said,
                unexpected("versions_set_interval", &format!("place {ends}"))
            );
        }
    }
}
