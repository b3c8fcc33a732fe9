//! Does one piece of work on the lines of standard input, by the crate `proved_versions`, by the Rust crate `versions`
//! or by `semver`, for bench/rust to time it or to count its instructions:
//!   rust CRATE WORK REQUIREMENT ROUNDS
//! It prints the best processor time of the rounds, in nanoseconds a line. With no rounds it makes ready for the work,
//! and prints nothing. A comparison takes a line and the next, and after the last the first. The Rust crate takes no
//! lists, so that each member of one is asked there in turn.
use std::hint::black_box;
use std::io::Read;
use std::os::raw::c_long;

extern "C" {
    // The processor time of this process, in microseconds, from the C library.
    fn clock() -> c_long;
}

/// Does the work for all lines in each round, and prints the best time.
fn time<T>(lines: usize, rounds: usize, work: impl Fn() -> T) {
    let best = (0..rounds).map(|_| {
        // SAFETY: `clock` has no preconditions.
        let begin = unsafe { clock() };
        black_box(work());
        unsafe { clock() - begin }
    });
    if let Some(best) = best.min() {
        println!("{:.1}", best as f64 * 1000.0 / lines as f64);
    }
}

/// The same, where the work is a call for each line.
fn time_each<I: Iterator, T>(
    lines: usize,
    rounds: usize,
    items: impl Fn() -> I,
    call: impl Fn(I::Item) -> T,
) {
    time(lines, rounds, || {
        for item in items() {
            black_box(call(item));
        }
    });
}

/// Each of the items and the next, and the last and the first.
fn pairs<T>(items: &[T]) -> impl Iterator<Item = (&T, &T)> {
    items.iter().zip(items.iter().cycle().skip(1))
}

/// The work that each crate does, by a value for a text that has an order.
fn run<'a, V: Ord>(
    work: &str,
    texts: &[&'a str],
    rounds: usize,
    parse: impl Fn(&'a str) -> V,
    matches: impl Fn(&V) -> bool,
) {
    let parse_all = || texts.iter().map(|text| parse(text)).collect::<Vec<V>>();
    let lines = texts.len();
    match work {
        "parse" => time_each(lines, rounds, || texts.iter(), |text| parse(text)),
        "sort" => time(lines, rounds, || {
            let mut versions = parse_all();
            versions.sort();
            versions
        }),
        "parse and cmp" => time_each(
            lines,
            rounds,
            || pairs(texts),
            |(a, b)| parse(a).cmp(&parse(b)),
        ),
        "cmp" => {
            let versions = parse_all();
            time_each(lines, rounds, || pairs(&versions), |(a, b)| a.cmp(b));
        }
        "parse and match" => {
            time_each(lines, rounds, || texts.iter(), |text| matches(&parse(text)))
        }
        "match" => {
            let versions = parse_all();
            time_each(lines, rounds, || versions.iter(), &matches);
        }
        _ => panic!("no such work: {work}"),
    }
}

/// The work that `proved_versions` does on texts, and otherwise what each crate does.
fn run_proved(work: &str, requirement: &str, texts: &[&str], rounds: usize) {
    use proved_versions::{compare, match_all, sort, Requirement, Versioning};
    let requirement = Requirement::new(requirement).unwrap();
    let lines = texts.len();
    match work {
        "sort texts" => time(lines, rounds, || {
            let mut sorted = texts.to_vec();
            sort(&mut sorted);
            sorted
        }),
        "compare" => time_each(
            lines,
            rounds,
            || pairs(texts),
            |(a, b)| compare(a, b).unwrap(),
        ),
        "matches_text" => time_each(
            lines,
            rounds,
            || texts.iter(),
            |text| requirement.matches_text(text).unwrap(),
        ),
        "match_all" => time(lines, rounds, || match_all(&requirement, texts)),
        _ => {
            let parse = |text| Versioning::new(text).unwrap();
            run(work, texts, rounds, parse, |v| requirement.matches(v));
        }
    }
}

fn main() {
    let words: Vec<String> = std::env::args().skip(1).collect();
    let mut input = String::new();
    std::io::stdin().read_to_string(&mut input).unwrap();
    let texts: Vec<&str> = input.lines().collect();
    let (work, wanted) = (words[1].as_str(), words[2].as_str());
    let rounds = words[3].parse().unwrap();
    match words[0].as_str() {
        "proved-versions" => run_proved(work, wanted, &texts, rounds),
        #[cfg(feature = "versions")]
        "versions" => {
            use versions::{Requirement, Versioning};
            let members: Option<Vec<_>> = wanted.split(',').map(Requirement::new).collect();
            let members = members.unwrap();
            let parse = |text| Versioning::new(text).unwrap();
            run(work, &texts, rounds, parse, |v| members.iter().all(|wanted| wanted.matches(v)));
        }
        "semver" => {
            use semver::{Version, VersionReq};
            let requirement = VersionReq::parse(wanted).unwrap();
            let parse = |text| Version::parse(text).unwrap();
            run(work, &texts, rounds, parse, |v| requirement.matches(v));
        }
        name => panic!("no such crate: {name}"),
    }
}
