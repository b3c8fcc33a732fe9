//! Many texts in one call.

use std::cell::Cell;
use std::thread;

use proved_versions::{
    compare_total, kind, kinds, match_all, order, sort, sort_key, sort_keys, Kind, Requirement,
    Versioning,
};

const USUAL: [&str; 9] = [
    "1.2.3",
    "1..2",
    "1:2.0rc1-3",
    "",
    "20.0026.1_0-2+0.93",
    "1.0",
    "0:1.0",
    "é",
    "1.2.3\0",
];
const KINDS: [Option<Kind>; 9] = [
    Some(Kind::Ideal),
    None,
    Some(Kind::General),
    None,
    Some(Kind::Complex),
    Some(Kind::General),
    Some(Kind::General),
    None,
    None,
];
// Of `>=1.2,<1:0`.
const MATCHES: [Option<bool>; 9] = [
    Some(true),
    None,
    Some(false),
    None,
    Some(true),
    Some(false),
    Some(false),
    None,
    None,
];
// The versions in their total order, and then the others.
const ORDER: [usize; 9] = [5, 6, 0, 4, 2, 1, 3, 7, 8];

fn requirement() -> Requirement<'static> {
    Requirement::new(">=1.2,<1:0").unwrap()
}

fn keys(texts: &[&str]) -> Vec<Option<Vec<u8>>> {
    sort_keys(texts)
        .iter()
        .map(|key| key.map(<[u8]>::to_vec))
        .collect()
}

/// The texts of 100,000 versions in their order.
fn increasing() -> Vec<String> {
    (0..100_000)
        .map(|n| format!("{}.{}.{}", n / 10_000, n / 100 % 100, n % 100))
        .collect()
}

#[test]
fn usual_texts() {
    for from in 0..USUAL.len() {
        for to in from..=USUAL.len() {
            let texts = &USUAL[from..to];
            assert_eq!(kinds(texts), KINDS[from..to]);
            assert_eq!(match_all(&requirement(), texts), MATCHES[from..to]);
            let single: Vec<_> = texts
                .iter()
                .map(|text| sort_key(text).ok().map(Vec::from))
                .collect();
            assert_eq!(keys(texts), single);
            let wanted = ORDER.iter().filter(|place| (from..to).contains(place));
            assert_eq!(
                order(texts),
                wanted.map(|place| place - from).collect::<Vec<_>>()
            );
        }
    }
    let owned = USUAL.map(String::from).to_vec();
    assert_eq!(kinds(&owned), KINDS);
    assert_eq!(sort_keys(&owned), sort_keys(&USUAL));
    assert_eq!(order(&owned), ORDER);
    let versions = ["1.0", "0:1.0"].map(|text| Versioning::new(text).unwrap());
    assert_eq!(order(&versions), [0, 1]);
}

#[test]
fn no_texts_and_empty_ones() {
    let none: [&str; 0] = [];
    assert_eq!(kinds(&none), []);
    assert_eq!(match_all(&requirement(), &none), []);
    assert_eq!(order(&none), [0; 0]);
    sort(&mut { none });
    let keys = sort_keys(&none);
    assert!(keys.is_empty() && keys.get(0).is_none() && keys.iter().next().is_none());
    assert_eq!(keys.len(), 0);
    for n in [1, 2, 100_000] {
        let empty = vec![""; n];
        assert_eq!(kinds(&empty), vec![None; n]);
        assert_eq!(match_all(&requirement(), &empty), vec![None; n]);
        assert_eq!(order(&empty), (0..n).collect::<Vec<_>>());
        let keys = sort_keys(&empty);
        assert_eq!(keys.len(), n);
        assert!(!keys.is_empty() && keys.iter().all(|key| key.is_none()));
    }
}

#[test]
fn a_hundred_thousand_texts() {
    let sorted = increasing();
    let count = sorted.len();
    // 7919 is a prime, so that each place is drawn once.
    let places: Vec<usize> = (0..count).map(|n| n * 7919 % count).collect();
    let mut drawn: Vec<String> = places.iter().map(|place| sorted[*place].clone()).collect();
    let wanted: Vec<String> = order(&drawn)
        .iter()
        .map(|place| drawn[*place].clone())
        .collect();
    assert!(wanted == sorted);
    sort(&mut drawn);
    assert!(drawn == sorted);
    sort(&mut drawn);
    assert!(drawn == sorted);
    drawn.reverse();
    assert_eq!(order(&drawn), (0..count).rev().collect::<Vec<_>>());
    sort(&mut drawn);
    assert!(drawn == sorted);
    let keys = sort_keys(&sorted);
    assert_eq!((keys.len(), keys.iter().len()), (count, count));
    assert!(keys
        .iter()
        .zip(keys.iter().skip(1))
        .all(|(a, b)| a.unwrap() < b.unwrap()));
    let from_five = match_all(&Requirement::new(">=5.0.0").unwrap(), &sorted);
    assert!((0..count).all(|n| from_five[n] == Some(n >= 50_000)));
    drawn.iter_mut().step_by(3).for_each(|text| text.push('\0'));
    let kinds = kinds(&drawn);
    assert!((0..count).all(|n| kinds[n] == (n % 3 > 0).then_some(Kind::Ideal)));
    sort(&mut drawn);
    let good = count - (count + 2) / 3;
    assert!((0..good).all(|n| drawn[n] == sorted[n / 2 * 3 + n % 2 + 1]));
    assert!((good..count).all(|n| drawn[n] == format!("{}\0", sorted[(n - good) * 3])));
}

#[test]
fn every_permutation_is_sorted() {
    // Of the first two and of the last two the order has to be kept.
    let wanted = ["1.0.0+b", "1.0.0+a", "0:1.0.0", "1.1", "", "x y"];
    let mut tried = 0;
    let mut places = [0; 6];
    for code in 0..6_usize.pow(6) {
        places.iter_mut().fold(code, |rest, place| {
            *place = rest % 6;
            rest / 6
        });
        let position = |item| places.iter().position(|place| *place == item);
        if !(0..6).all(|item| position(item).is_some()) {
            continue;
        }
        tried += 1;
        let mut texts = places.map(|place| wanted[place]);
        sort(&mut texts);
        let mut sorted = wanted;
        if position(0) > position(1) {
            sorted.swap(0, 1);
        }
        if position(4) > position(5) {
            sorted.swap(4, 5);
        }
        assert_eq!(texts, sorted, "{places:?}");
    }
    assert_eq!(tried, 720);
}

#[test]
fn sorts_as_ord_does() {
    let texts: Vec<String> = (0..3000_usize)
        .map(|n| match n % 5 {
            0 => format!("{}.{}.0+{n}", n % 7, n % 3),
            1 => format!("{}.0{}", n % 7, n % 11),
            2 => format!("{}:{}rc{}", n % 2, n % 5, n % 13),
            3 => format!("{}_{}", n % 3, n % 17),
            _ => format!("{}.{}.0-rc.{}", n % 7, n % 3, n % 4),
        })
        .collect();
    let mut by_ord: Vec<Versioning> = texts
        .iter()
        .map(|text| Versioning::new(text).unwrap())
        .collect();
    by_ord.sort();
    let mut by_call = texts.clone();
    sort(&mut by_call);
    assert!(by_ord.iter().map(Versioning::as_str).eq(&by_call));
    assert!(by_call
        .windows(2)
        .all(|pair| compare_total(&pair[0], &pair[1]).unwrap().is_le()));
    let mut versions: Vec<Versioning> = texts
        .iter()
        .map(|text| Versioning::new(text).unwrap())
        .collect();
    sort(&mut versions);
    assert!(versions.iter().map(Versioning::as_str).eq(&by_call));
}

#[test]
fn keys_by_place() {
    let keys = sort_keys(&USUAL);
    assert_eq!((keys.len(), keys.is_empty()), (9, false));
    for (place, text) in USUAL.iter().enumerate() {
        assert_eq!(keys.get(place), sort_key(text).ok().as_deref());
    }
    for place in [9, 10, usize::MAX / 8, usize::MAX - 1, usize::MAX] {
        assert_eq!(keys.get(place), None);
    }
    assert!(keys.iter().eq((0..9).map(|place| keys.get(place))));
    assert!(keys
        .iter()
        .rev()
        .eq((0..9).rev().map(|place| keys.get(place))));
    assert_eq!(keys.iter().len(), 9);
    assert_eq!(keys.get(5), keys.get(6));
    assert!(keys.get(5).is_some());
    assert_eq!(keys.clone(), keys);
    assert_ne!(keys, sort_keys(&USUAL[1..]));
    assert_ne!(sort_keys(&["1.0", ""]), sort_keys(&["", "1.0"]));
}

#[test]
fn great_lengths() {
    let texts = [
        format!("{}1", "1_".repeat(1_000_000)),
        "x y".to_string(),
        "9".repeat(10_000_000),
        "\0".repeat(1_000_000),
        "a".repeat(10_000_000),
    ];
    assert_eq!(
        kinds(&texts),
        [&texts[0], "", &texts[2], "", &texts[4]].map(kind)
    );
    let keys = sort_keys(&texts);
    for (place, text) in texts.iter().enumerate() {
        assert!(keys.get(place) == sort_key(text).ok().as_deref());
    }
    assert_eq!(order(&texts), [4, 0, 2, 1, 3]);
}

/// A text that is longer by a byte each time that it is looked at.
struct Growing(Cell<usize>);

impl AsRef<str> for Growing {
    fn as_ref(&self) -> &str {
        self.0.set(self.0.get() + 1);
        &"1.2.3-rc.1+a-text-of-many-letters-at-which-no-test-will-ever-arrive"[..self.0.get()]
    }
}

#[test]
fn texts_that_change_while_they_are_read() {
    let mut growing: Vec<Growing> = (0..1000).map(|_| Growing(Cell::new(0))).collect();
    for _ in 0..3 {
        assert_eq!(kinds(&growing).len(), 1000);
        assert_eq!(sort_keys(&growing).len(), 1000);
        assert_eq!(match_all(&requirement(), &growing).len(), 1000);
        let mut places = order(&growing);
        places.sort_unstable();
        assert!(places.into_iter().eq(0..1000));
        sort(&mut growing);
        assert_eq!(growing.len(), 1000);
    }
}

#[test]
fn eight_threads_get_the_same_answers() {
    let texts: Vec<String> = (0..2000)
        .map(|n| format!("{}:{n}.{}rc{n}-{n}", n % 5, n % 3))
        .chain(["1..2".to_string()])
        .collect();
    let wanted = Requirement::new("^1:1").unwrap();
    let answers = || {
        let single: Vec<_> = texts
            .iter()
            .map(|text| sort_key(text).ok().map(Vec::from))
            .collect();
        let matches: Vec<_> = texts
            .iter()
            .map(|text| wanted.matches_text(text).ok())
            .collect();
        (
            kinds(&texts),
            sort_keys(&texts),
            order(&texts),
            match_all(&wanted, &texts),
            single,
            matches,
        )
    };
    let of_one = answers();
    assert_eq!(of_one.3, of_one.5);
    assert!(of_one
        .1
        .iter()
        .map(|key| key.map(<[u8]>::to_vec))
        .eq(of_one.4.iter().cloned()));
    thread::scope(|scope| {
        let threads: Vec<_> = (0..8)
            .map(|_| scope.spawn(|| (0..5).map(|_| answers()).all(|these| these == of_one)))
            .collect();
        for thread in threads {
            assert!(thread.join().unwrap());
        }
    });
}
