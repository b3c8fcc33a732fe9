//! Which calls allocate, and how much, as their documentation says.

// The clippy of Rust 1.63 finds this in each `thread_local!` with `const`, by mistake.
#![allow(clippy::declare_interior_mutable_const)]
#![deny(unsafe_op_in_unsafe_fn)]

use std::alloc::{GlobalAlloc, Layout, System};
use std::borrow::Cow;
use std::cell::Cell;
use std::collections::hash_map::DefaultHasher;
use std::hash::{Hash, Hasher};
use std::mem::size_of;

use proved_versions::scheme::{Deb, Mixed};
use proved_versions::{
    compare, compare_total, in_tags, kind, kinds, match_all, newest, order, sort, sort_key,
    sort_keys, stabilities, Key, Requirement, Scheme, Stability, VersionOf, VersionSet, Versioning,
};
use support::rows_of;

mod support;

thread_local! {
    /// How many allocations and reallocations this thread has made.
    static COUNT: Cell<usize> = const { Cell::new(0) };
    /// How many bytes they asked for.
    static BYTES: Cell<usize> = const { Cell::new(0) };
}

struct Counting;

// SAFETY: each call is handed on to the allocator of the system.
unsafe impl GlobalAlloc for Counting {
    unsafe fn alloc(&self, layout: Layout) -> *mut u8 {
        COUNT.with(|count| count.set(count.get() + 1));
        BYTES.with(|bytes| bytes.set(bytes.get() + layout.size()));
        // SAFETY: the caller's.
        unsafe { System.alloc(layout) }
    }

    unsafe fn dealloc(&self, start: *mut u8, layout: Layout) {
        // SAFETY: the caller's.
        unsafe { System.dealloc(start, layout) }
    }
}

#[global_allocator]
static ALLOCATOR: Counting = Counting;

/// How many allocations a call makes, and of how many bytes in all.
fn of<R>(call: impl FnOnce() -> R) -> (usize, usize) {
    let (count, bytes) = (COUNT.with(Cell::get), BYTES.with(Cell::get));
    let answer = call();
    let made = (COUNT.with(Cell::get) - count, BYTES.with(Cell::get) - bytes);
    drop(answer);
    made
}

fn hash(version: &Versioning) -> u64 {
    let mut hasher = DefaultHasher::new();
    version.hash(&mut hasher);
    hasher.finish()
}

#[test]
fn the_counter_counts() {
    assert_eq!(of(|| vec![0_u8; 100]), (1, 100));
}

#[test]
fn calls_that_allocate_nothing() {
    let long = "a".repeat(100_000);
    let other = format!("0:{long}");
    for (a, b) in [
        ("1.2.3-rc.1", "1.2.3"),
        ("1.0", "1:20.0026.1_0-2"),
        ("1.2.3-1", "1.2.3_0"),
        (&*long, &*other),
    ] {
        let is_short = a.len() < 40;
        assert_eq!(of(|| kind(a)), (0, 0));
        assert_eq!(of(|| Versioning::new(a)) == (0, 0), is_short);
        let (x, y) = (Versioning::new(a).unwrap(), Versioning::new(b).unwrap());
        assert_eq!(of(|| compare(a, b)), (0, 0));
        assert_eq!(of(|| compare_total(a, b)), (0, 0));
        assert_eq!(of(|| (x.precedence(&y), x.cmp(&y), x == y)), (0, 0));
        assert_eq!(of(|| (x == *a, x == *b, x == "1..2")), (0, 0));
        assert_eq!(of(|| (x.kind(), x.nth(0), x.nth(99), x.major())), (0, 0));
        assert_eq!(of(|| (x.epoch(), x.is_prerelease())), (0, 0));
        assert_eq!(of(|| x.pre_release()), (0, 0));
        assert_eq!(of(|| (x.release(), x.metadata())), (0, 0));
        assert_eq!(of(|| x.stability()), (0, 0));
        assert_eq!(of(|| (x.difference(&y), y.difference(&x))), (0, 0));
        assert_eq!(of(|| Versioning::from_tag(a)) == (0, 0), is_short);
        let made =
            of(|| Versioning::after_prefix("1", &*format!("1{a}")).map(Versioning::into_owned));
        assert!(made.0 > 0);
        assert_eq!(of(|| hash(&x)), (0, 0));
        assert_eq!(of(|| x.sort_key()), (0, 0));
        assert_eq!(of(|| (x.borrowed(), x.clone())) == (0, 0), is_short);
        let text = format!(">={a},<{b},*");
        assert_eq!(of(|| Requirement::new(&text)) == (0, 0), is_short);
        let requirement = Requirement::new(&text).unwrap();
        assert_eq!(of(|| requirement.matches(&x)), (0, 0));
        assert_eq!(of(|| requirement.matches_text(b)), (0, 0));
        assert_eq!(
            of(|| (requirement.why_not(&x), requirement.why_not(&y))),
            (0, 0)
        );
        assert_eq!(of(|| requirement.conflict()), (0, 0));
        assert_eq!(of(|| requirement.filter([&x, &y]).count()), (0, 0));
    }
    let defaults = || (Versioning::default(), Requirement::default());
    assert_eq!(of(defaults), (0, 0));
    let owned = String::from("1.2.3");
    assert_eq!(
        of(|| String::from(Versioning::new(owned).unwrap().into_owned())),
        (0, 0)
    );
    let owned = (String::from("release-1.2.3"), String::from("go1.2.3"));
    assert_eq!(of(|| Versioning::from_tag(owned.0)), (0, 0));
    assert_eq!(of(|| Versioning::after_prefix("go", owned.1)), (0, 0));
}

/// A value is a text, a key of 40 bytes and a kind.
#[test]
fn sizes() {
    assert_eq!(size_of::<Key>(), 40);
    // A `Cow` has 24 bytes since Rust 1.64, and 32 before.
    assert_eq!(size_of::<Versioning>(), size_of::<Cow<str>>() + 40 + 8);
    assert_eq!(size_of::<Option<Versioning>>(), size_of::<Versioning>());
    // A scheme that the program names takes nothing.
    assert_eq!(size_of::<Key<Deb>>(), size_of::<Key>());
    assert_eq!(size_of::<VersionOf<Deb>>(), size_of::<Cow<str>>() + 40);
    assert_eq!(size_of::<VersionSet<Deb>>(), 32);
}

#[test]
fn keys() {
    // A part of n letters has a key of n + 6 bytes, and at most 38 bytes lie within the value.
    for letters in [1, 31, 32] {
        let text = "a".repeat(letters);
        assert_eq!(of(|| Versioning::new(&*text)), (0, 0), "{letters}");
        assert_eq!(of(|| sort_key(&text)), (0, 0), "{letters}");
    }
    // There is room for the key of a text of 41 bytes on the stack.
    for letters in [33, 34, 40, 41] {
        let text = "a".repeat(letters);
        assert_eq!(of(|| Versioning::new(&*text)), (1, letters + 6));
        assert_eq!(of(|| sort_key(&text)), (1, letters + 6));
        let version = Versioning::new(&*text).unwrap();
        assert_eq!(of(|| version.clone()), (1, letters + 6));
        assert_eq!(of(|| version.borrowed()), (1, letters + 6));
        assert_eq!(of(|| Key::from(version)), (0, 0));
    }
    for letters in [42, 43, 1000, 100_000] {
        let text = "a".repeat(letters);
        // The room, and then its part for the key, which this allocator moves.
        let bytes = 3 * letters + 5 + letters + 6;
        assert_eq!(of(|| Versioning::new(&*text)), (2, bytes));
        assert_eq!(of(|| sort_key(&text)), (2, bytes));
    }
    // A short key of a long text.
    let text = format!("1.0.0+{}", "a".repeat(1000));
    assert_eq!(of(|| Versioning::new(&*text)), (1, 3 * 1006 + 5));
    assert_eq!(of(|| sort_key("1.2").unwrap().after()).0, 1);
    // The text alone, which the version that comes next takes over.
    let version = Versioning::new("1.9.9").unwrap();
    assert_eq!(of(|| version.next(2)), (1, 6));
    assert_eq!(of(|| version.next_release()), (1, 6));
    assert_eq!(of(|| version.next_pre(Some("rc"))), (1, 11));
}

#[test]
fn bounds() {
    // The key of a part of n letters has n + 6 bytes, and what comes just after it one more.
    for (letters, allocations) in [(1, 0), (31, 0), (32, 1), (39, 1)] {
        let text = format!("<={}", "a".repeat(letters));
        let made = of(|| Requirement::new(&*text));
        assert_eq!(
            made,
            (allocations, allocations * (letters + 7)),
            "{letters}"
        );
    }
    let text = format!("<={}", "a".repeat(40));
    assert_eq!(of(|| Requirement::new(&*text)), (3, 2 * (3 * 42 + 5) + 47));
    assert_eq!(of(|| Requirement::new("^1.2.3,<1.9.0")), (0, 0));
}

#[test]
fn errors_hold_one_copy() {
    let (bad, text) = ("1..2", String::from("1..2"));
    assert_eq!(of(|| Versioning::new(bad)), (1, 4));
    assert_eq!(of(|| Versioning::new(text)), (0, 0));
    assert_eq!(of(|| bad.parse::<Versioning>()), (1, 4));
    assert_eq!(of(|| "1.2".parse::<Versioning>()), (1, 3));
    assert_eq!(of(|| sort_key(bad)), (1, 4));
    assert_eq!(of(|| compare("1", bad)), (1, 4));
    assert_eq!(of(|| Requirement::new(bad)), (1, 4));
    assert_eq!(of(|| Versioning::from_tag("go1.2")), (1, 5));
    assert_eq!(of(|| Versioning::after_prefix("x", "go1.2")), (1, 5));
}

#[test]
fn many_texts() {
    let mut texts = vec!["1.2.3"; 1000];
    let (bytes, places) = (5 * 1000, 8 * 1001);
    let room = 3 * bytes + 5 * 1000;
    let copied = bytes + places;
    // The answers may lie where the library wrote its bytes, or beside them.
    let copied_and_answers = copied + 1000..=copied + 2000;
    assert!(copied_and_answers.contains(&of(|| kinds(&texts)).1));
    assert!(copied_and_answers.contains(&of(|| stabilities(&texts)).1));
    let any = Requirement::default();
    assert_eq!(
        of(|| newest(&texts, &any, Stability::Stable).is_some()),
        (2, copied)
    );
    // The places, which may lie where the library wrote them, and the answers of 16 bytes.
    let (_, size) = of(|| in_tags(&texts).len());
    assert!(
        (copied + 24 * 1000..=copied + 32 * 1000).contains(&size),
        "{size}"
    );
    for text in ["*", "=1.0"] {
        let requirement = Requirement::new(text).unwrap();
        assert!(copied_and_answers.contains(&of(|| match_all(&requirement, &texts)).1));
    }
    // The keys of 15 bytes are moved at last, into an allocation of their own length.
    assert_eq!(
        of(|| sort_keys(&texts)),
        (5, copied + room + places + 15 * 1000)
    );
    let (count, size) = of(|| order(&texts));
    assert!(
        count <= 6 && size <= copied + room + places + 2 * 8 * 1000,
        "{count} {size}"
    );
    assert_eq!(of(|| sort(&mut texts)), (count, size));
}

#[test]
fn versions_of_schemes() {
    for scheme in Scheme::ALL.iter().copied() {
        let (a, b) = ("1.2.3", "1.10.0");
        assert_eq!(of(|| scheme.is_version(a)), (0, 0));
        assert_eq!(of(|| scheme.compare(a, b)), (0, 0));
        assert_eq!(of(|| scheme.sort_key(a)), (0, 0));
        assert_eq!(of(|| VersionOf::new(a, scheme)), (0, 0));
        let (x, y) = (
            VersionOf::new(a, scheme).unwrap(),
            VersionOf::new(b, scheme).unwrap(),
        );
        assert_eq!(of(|| (x.try_cmp(&y), x == y, x.scheme())), (0, 0));
        assert_eq!(of(|| scheme.sort_key("!")), (1, 1));
        assert_eq!(of(|| scheme.compare(a, "!")), (1, 1));
        let long = format!("1.{}", "2".repeat(100_000));
        assert_eq!(
            of(|| scheme.compare(&long, a)).0,
            usize::from(!scheme.is_version(&long))
        );
    }
    // Where the most bytes of a key are more than the 128 on the stack, they are allocated.
    for (scheme, most) in rows_of("key") {
        let [factor, summand] = [0, 1].map(|place: usize| most[place].parse::<usize>().unwrap());
        let long_as = |length: usize| format!("{}.0.0", "1".repeat(length - 4));
        let length = (128 - summand) / factor;
        let (short, long) = (long_as(length), long_as(length + 1));
        let (count, size) = of(|| VersionOf::new(&short, scheme));
        assert!(count <= 1 && size < factor * length + summand, "{scheme}");
        let size = factor * (length + 1) + summand;
        // A key of more than 38 bytes is then kept in memory of its own length.
        let wanted = match scheme.sort_key(&long).unwrap().as_bytes().len() {
            kept @ 39.. => (2, size + kept),
            _ => (1, size),
        };
        assert_eq!(of(|| VersionOf::new(&long, scheme)), wanted, "{scheme}");
    }
    let short = of(|| {
        VersionOf::new(
            "1.0+aaaaaaaaaaaaaaaaaaaaaaaaaaaaaaaaaaaaaaaaaaaaaaaaaaaaaaaa",
            Deb,
        )
    });
    assert_eq!(short.0, 1);
    let version = VersionOf::new("1.0", Deb).unwrap();
    assert_eq!(of(|| (version.clone(), Key::from(version.clone()))), (0, 0));
    let mixed = Versioning::new("1.0").unwrap();
    assert_eq!(of(|| VersionOf::from(mixed)), (0, 0));
    assert_eq!(of(|| "1.0".parse::<VersionOf<Deb>>()), (1, 3));
    let mut texts = vec!["1.2.3"; 1000];
    let (bytes, places) = (5 * 1000, 8 * 1001);
    // In deb each key has room for 17 bytes.
    let (count, size) = of(|| Scheme::Deb.order(&texts));
    let wanted = bytes + 2 * places + 17 * 1000 + 2 * 8 * 1000;
    assert!(count <= 6 && size <= wanted, "{count} {size}");
    assert_eq!(of(|| Scheme::Deb.sort(&mut texts)), (count, size));
    let (count, size) = of(|| Scheme::Deb.sort_keys(&texts));
    assert!(count <= 5 && size <= bytes + 2 * places + 2 * 17 * 1000);
}

#[test]
fn sets() {
    let (set, other) = (
        VersionSet::new("^1.2").unwrap(),
        VersionSet::new("<2").unwrap(),
    );
    let version = Versioning::new("1.5").unwrap();
    assert_eq!(
        of(|| (set.contains(&version), set.contains_text("1.5"))),
        (0, 0)
    );
    assert_eq!(
        of(|| (set.is_disjoint(&other), set.subset_of(&other))),
        (0, 0)
    );
    assert_eq!(
        of(|| (set == other, set.is_empty(), set.text().is_some())),
        (0, 0)
    );
    assert_eq!(of(|| set.intervals().count()), (0, 0));
    // The room, and its part that the form is; a text that is borrowed is copied.
    let made = of(|| VersionSet::new("^1.2"));
    assert!((2..=3).contains(&made.0), "{made:?}");
    let text = String::from("^1.2");
    assert_eq!(of(|| VersionSet::new(text)).0, made.0 - 1);
    for made in [of(|| &set & &other), of(|| &set | &other), of(|| !&set)] {
        assert!((1..=2).contains(&made.0), "{made:?}");
    }
    assert_eq!(
        of(|| VersionSet::singleton(VersionOf::new("1.5", Mixed).unwrap())).0,
        1
    );
    assert_eq!(of(|| set.contains_text("1..2")), (1, 4));
    let texts = vec!["1.2.3"; 1000];
    let copied = 5 * 1000 + 8 * 1001;
    let size = of(|| set.contains_texts(&texts)).1;
    assert!((copied + 1000..=copied + 2000).contains(&size), "{size}");
    // The text, the sentence, and what was tried.
    assert!(of(|| VersionSet::new("1.2")).0 <= 4);
}
