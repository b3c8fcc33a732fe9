//! The crate beside the program `vers`, over lines of every shape.
//!
//! `VERS` names the program, and `BESIDE` a folder with the files `lines`, `requirements` (texts
//! that are requirements) and `texts` (texts that may be requirements), a text on each line.
//! `tests/rust` of the repository draws them and runs these tests. `PAIRS` and `LISTS` say how many
//! pairs of versions and lists of requirements are drawn of them, and `SEED` draws others.

use std::cmp::Ordering;
use std::collections::hash_map::DefaultHasher;
use std::collections::BTreeMap;
use std::env;
use std::fs;
use std::hash::{Hash, Hasher};
use std::path::Path;
use std::process::{Command, Output, Stdio};
use std::sync::atomic::{AtomicUsize, Ordering::Relaxed};

use proved_versions::{
    compare, compare_total, kind, kinds, match_all, order, sort, sort_key, sort_keys, Key, Kind,
    Requirement, Versioning,
};

/// How many versions `vers key` and `vers cmp` are asked about, a process each.
const SINGLE: usize = 200;

fn variable(name: &str) -> String {
    env::var(name).unwrap_or_else(|_| panic!("{name} is not set; tests/rust sets it"))
}

/// The lines of a file in the folder `BESIDE`. A carriage return is a part of its line.
fn lines(name: &str) -> Vec<String> {
    let path = Path::new(&variable("BESIDE")).join(name);
    let content = fs::read_to_string(path).unwrap();
    let lines: Vec<String> = content.split_terminator('\n').map(String::from).collect();
    assert!(lines.len() > 50);
    lines
}

/// What `vers` does with these words and lines.
fn run(words: &[&str], lines: &[String]) -> Output {
    static RUNS: AtomicUsize = AtomicUsize::new(0);
    let run = RUNS.fetch_add(1, Relaxed);
    let path = env::temp_dir().join(format!("vers-{}-{run}", std::process::id()));
    fs::write(
        &path,
        lines
            .iter()
            .flat_map(|line| [line, "\n"])
            .collect::<String>(),
    )
    .unwrap();
    let input = Stdio::from(fs::File::open(&path).unwrap());
    let output = Command::new(variable("VERS"))
        .args(words)
        .stdin(input)
        .output()
        .unwrap();
    fs::remove_file(&path).unwrap();
    output
}

/// The lines that `vers` writes.
fn vers(words: &[&str], lines: &[String]) -> Vec<String> {
    let output = run(words, lines);
    assert!(output.status.success(), "{words:?}: {output:?}");
    let written = String::from_utf8(output.stdout).unwrap();
    written.split_terminator('\n').map(String::from).collect()
}

fn good_lines() -> Vec<String> {
    lines("lines")
        .into_iter()
        .filter(|line| kind(line).is_some())
        .collect()
}

#[test]
#[ignore = "run by tests/rust of the repository"]
fn kinds_are_those_of_vers() {
    let lines = lines("lines");
    let said = vers(&["show"], &lines);
    assert_eq!(said.len(), lines.len());
    let all = kinds(&lines);
    let mut seen = [0; 4];
    for (n, line) in lines.iter().enumerate() {
        let word = said[n].split(' ').next().unwrap();
        assert_eq!(
            all[n].map_or("none".into(), |kind| kind.to_string()),
            word,
            "{line:?}"
        );
        assert_eq!(kind(line), all[n], "{line:?}");
        assert_eq!(
            Versioning::new(line).ok().map(|version| version.kind()),
            all[n],
            "{line:?}"
        );
        seen[all[n].map_or(3, |kind| kind as usize)] += 1;
    }
    assert!(seen.iter().all(|seen| *seen > 100), "{seen:?}");
}

#[test]
#[ignore = "run by tests/rust of the repository"]
fn the_order_is_that_of_vers() {
    let lines = good_lines();
    let sorted = vers(&["sort"], &lines);
    let mut by_call = lines.clone();
    sort(&mut by_call);
    assert!(by_call == sorted);
    assert!(order(&lines).iter().map(|place| &lines[*place]).eq(&sorted));
    let mut by_ord: Vec<Versioning> = lines
        .iter()
        .map(|line| Versioning::new(line).unwrap())
        .collect();
    by_ord.sort();
    assert!(by_ord.iter().map(Versioning::as_str).eq(&sorted));
    let mut by_key = lines.clone();
    by_key.sort_by_cached_key(|line| sort_key(line).unwrap());
    let keys = sort_keys(&sorted);
    assert!(sort_keys(&by_key) == keys);
    for (n, pair) in by_ord.windows(2).enumerate() {
        let (a, b) = (&pair[0], &pair[1]);
        let wanted = keys.get(n).cmp(&keys.get(n + 1));
        assert!(wanted.is_le(), "{a} {b}");
        assert_eq!(keys.get(n), Some(a.sort_key()), "{a}");
        assert_eq!(a.precedence(b), wanted, "{a} {b}");
        assert_eq!(b.precedence(a), wanted.reverse(), "{a} {b}");
        assert_eq!(compare(a.as_str(), b.as_str()), Ok(wanted), "{a} {b}");
        assert_eq!(
            compare_total(a.as_str(), b.as_str()),
            Ok(a.cmp(b)),
            "{a} {b}"
        );
        assert_eq!(a == b, a.cmp(b).is_eq(), "{a} {b}");
    }
}

#[test]
#[ignore = "run by tests/rust of the repository"]
fn keys_and_comparisons_are_those_of_vers() {
    let short: Vec<String> = good_lines()
        .into_iter()
        .filter(|line| line.len() < 1000)
        .collect();
    // Versions that are far from each other, in both orders.
    for (a, b) in short
        .iter()
        .step_by(short.len() / SINGLE)
        .zip(short.iter().rev().step_by(7))
    {
        let hexadecimal = |byte: &u8| format!("{byte:02x}");
        let key: String = sort_key(a).unwrap().iter().map(hexadecimal).collect();
        assert_eq!(vers(&["key", a], &[]), [key], "{a}");
        let sign = match compare(a, b).unwrap() {
            Ordering::Less => "<",
            Ordering::Equal => "=",
            Ordering::Greater => ">",
        };
        assert_eq!(vers(&["cmp", a, b], &[]), [sign], "{a} {b}");
    }
}

#[test]
#[ignore = "run by tests/rust of the repository"]
fn matches_are_those_of_vers() {
    let lines = lines("lines");
    let all = kinds(&lines);
    for text in self::lines("requirements") {
        let said = vers(&["match", &text], &lines);
        let requirement = Requirement::new(&text).unwrap();
        let answers = match_all(&requirement, &lines);
        let matching = lines
            .iter()
            .zip(&answers)
            .filter(|(_, answer)| **answer == Some(true));
        assert!(matching.map(|(line, _)| line).eq(&said), "{text}");
        assert!(answers
            .iter()
            .zip(&all)
            .all(|(answer, kind)| answer.is_some() == kind.is_some()));
    }
    let requirement = Requirement::new("^1.1.1").unwrap();
    let answers = match_all(&requirement, &lines);
    for (line, answer) in lines.iter().zip(&answers) {
        assert_eq!(requirement.matches_text(line).ok(), *answer, "{line:?}");
    }
    let versions: Vec<Versioning> = lines.iter().flat_map(Versioning::new).collect();
    let found = requirement.filter(&versions).map(Versioning::as_str);
    assert!(found.eq(&vers(&["match", "^1.1.1"], &lines)));
}

/// Draws numbers by a seed.
struct Draw(u64);

impl Draw {
    fn new() -> Draw {
        Draw(hash(&env::var("SEED").unwrap_or_default()) | 1)
    }

    fn below(&mut self, n: usize) -> usize {
        self.0 ^= self.0 << 13;
        self.0 ^= self.0 >> 7;
        self.0 ^= self.0 << 17;
        (self.0 >> 11) as usize % n
    }

    fn of<'a, T>(&mut self, items: &'a [T]) -> &'a T {
        &items[self.below(items.len())]
    }
}

fn count(name: &str, usual: usize) -> usize {
    env::var(name).map_or(usual, |number| number.parse().unwrap())
}

fn hash<T: Hash + ?Sized>(value: &T) -> u64 {
    let mut hasher = DefaultHasher::new();
    value.hash(&mut hasher);
    hasher.finish()
}

/// The good lines and relatives of them, many of which tie with them, in the order of `vers`.
fn sorted_relatives() -> Vec<String> {
    let relatives = good_lines().into_iter().flat_map(|line| {
        let more = [format!("{line}+x"), format!("0:{line}"), format!("0{line}")];
        [line].into_iter().chain(more)
    });
    let good: Vec<String> = relatives.filter(|line| kind(line).is_some()).collect();
    vers(&["sort"], &good)
}

/// Whether two versions are the same, but for the metadata of strict ones.
fn are_the_same(a: &Versioning, b: &Versioning) -> bool {
    let front = |version| {
        Versioning::as_str(version)
            .split('+')
            .next()
            .map(String::from)
    };
    a.as_str() == b.as_str() || (a.is_ideal() && b.is_ideal() && front(a) == front(b))
}

#[test]
#[ignore = "run by tests/rust of the repository"]
fn pairs_are_in_the_order_of_vers() {
    let sorted = sorted_relatives();
    let versions: Vec<Versioning> = sorted.iter().flat_map(Versioning::new).collect();
    let (mut draw, mut equal, mut tied) = (Draw::new(), 0, 0);
    for n in 0..count("PAIRS", 20_000) {
        let i = draw.below(versions.len());
        // Half of the pairs are close to each other, since few others tie.
        let j = match n % 2 {
            0 => draw.below(versions.len()),
            _ => (i + draw.below(4)).min(versions.len() - 1),
        };
        let (a, b) = (&versions[i], &versions[j]);
        let is_same = are_the_same(a, b);
        let wanted = if is_same { Ordering::Equal } else { i.cmp(&j) };
        assert_eq!(a.cmp(b), wanted, "{a} {b}");
        assert_eq!(b.cmp(a), wanted.reverse(), "{a} {b}");
        assert_eq!((a == b, b == a), (is_same, is_same), "{a} {b}");
        let by_key = a.sort_key().cmp(b.sort_key());
        assert!(by_key == wanted || by_key.is_eq(), "{a} {b}");
        assert_eq!(a.precedence(b), by_key, "{a} {b}");
        assert_eq!(compare(a.as_str(), b.as_str()), Ok(by_key), "{a} {b}");
        assert_eq!(a.key().cmp(b.key()), by_key, "{a} {b}");
        assert_eq!(hash(a) == hash(b), by_key.is_eq(), "{a} {b}");
        assert_eq!(hash(a.key()), hash(a.sort_key()), "{a}");
        equal += usize::from(is_same);
        tied += usize::from(by_key.is_eq() && !is_same);
    }
    assert!(equal > 100 && tied > 100, "{equal} {tied}");
}

/// A list of one to three requirements, and versions that are close to theirs or anywhere.
fn draw_list(draw: &mut Draw, sorted: &[String]) -> (String, Vec<String>) {
    let (mut members, mut near) = (Vec::new(), Vec::new());
    let mut place = draw.below(sorted.len());
    for _ in 0..1 + draw.below(3) {
        let operator = draw.of(&["=", ">", ">=", "<", "<=", "~", "^"]);
        members.push(format!("{operator}{}", sorted[place]));
        near.extend(place.saturating_sub(8)..(place + 8).min(sorted.len()));
        place = match draw.below(3) {
            0 => draw.below(sorted.len()),
            _ => (place + draw.below(30)).min(sorted.len() - 1),
        };
    }
    near.extend((0..16).map(|_| draw.below(sorted.len())));
    let near = near.into_iter().map(|place| sorted[place].clone());
    (members.join(","), near.collect())
}

#[test]
#[ignore = "run by tests/rust of the repository"]
fn lists_match_what_vers_matches() {
    let mut sorted = sorted_relatives();
    sorted.retain(|line| line.len() < 300);
    let (mut draw, mut matching, mut exact, mut left) = (Draw::new(), 0, 0, 0);
    let lists = count("LISTS", 500);
    for _ in 0..lists {
        let (text, near) = draw_list(&mut draw, &sorted);
        let said = vers(&["match", &text], &near);
        let requirement = Requirement::new(&text).unwrap();
        let range = requirement.range();
        let versions: Vec<Versioning> = near.iter().flat_map(Versioning::new).collect();
        let found = requirement.filter(&versions).map(Versioning::as_str);
        assert!(found.eq(said.iter()), "{text}");
        let answers = match_all(&requirement, &near);
        let mut map: BTreeMap<Key, Vec<&Versioning>> = BTreeMap::new();
        for (version, answer) in versions.iter().zip(answers) {
            let matches = requirement.matches(version);
            assert_eq!(answer, Some(matches), "{text} {version}");
            assert_eq!(
                requirement.matches_text(version.as_str()),
                Ok(matches),
                "{text} {version}"
            );
            let is_in = range.contains(version);
            assert!(is_in || !matches, "{text} {version}");
            assert!(!range.is_exact() || is_in == matches, "{text} {version}");
            left += usize::from(is_in && !matches);
            map.entry(version.into()).or_default().push(version);
        }
        let of_map = map
            .range::<[u8], _>(range)
            .flat_map(|(_, versions)| versions);
        let of_map = of_map.filter(|version| range.has_kind(version.kind()));
        let in_range = versions.iter().filter(|version| range.contains(version));
        assert_eq!(of_map.count(), in_range.count(), "{text}");
        matching += said.len();
        exact += usize::from(range.is_exact());
    }
    assert!(matching > lists && exact > lists / 10, "{matching} {exact}");
    assert!(
        exact < lists - lists / 10 && left > lists / 100,
        "{exact} {left}"
    );
}

#[test]
#[ignore = "run by tests/rust of the repository"]
fn fields_are_pieces_of_the_text() {
    let mut seen = [0; 4];
    for line in sorted_relatives() {
        let version = Versioning::new(&line).unwrap();
        // By docs/GRAMMAR.md: the first plus begins the metadata, the first hyphen before it what
        // follows the parts, and digits before a colon are an epoch.
        let (front, metadata) = match line.split_once('+') {
            Some((front, metadata)) => (front, Some(metadata)),
            None => (&*line, None),
        };
        let tail = front.split_once('-').map(|(_, tail)| tail);
        let epoch = line
            .split_once(':')
            .filter(|(digits, _)| digits.bytes().all(|byte| byte.is_ascii_digit()))
            .map(|(digits, _)| digits.parse().map_or(i64::MAX as u64, |n: i64| n as u64));
        let wanted = match version.kind() {
            Kind::Ideal => (tail, None, metadata),
            Kind::General => (None, tail, metadata),
            Kind::Complex => (None, None, None),
        };
        let found = (version.pre_release(), version.release(), version.metadata());
        assert_eq!(found, wanted, "{line}");
        assert_eq!(version.epoch(), epoch, "{line}");
        assert_eq!(version.is_prerelease(), version.pre_release().is_some());
        let numbers = [version.major(), version.minor(), version.patch()];
        assert_eq!(numbers, [0, 1, 2].map(|n| version.nth(n)), "{line}");
        if version.is_ideal() {
            let [major, minor, patch] = numbers.map(Option::unwrap);
            let part = |sign, part: Option<&str>| {
                part.map_or(String::new(), |part| format!("{sign}{part}"))
            };
            let tails = part('-', found.0) + &part('+', found.2);
            assert_eq!(format!("{major}.{minor}.{patch}{tails}"), line);
        }
        let fields = [found.0, found.1, found.2].map(|field| field.is_some());
        for (seen, is_there) in
            seen.iter_mut()
                .zip([fields[0], fields[1], fields[2], epoch.is_some()])
        {
            *seen += usize::from(is_there);
        }
    }
    assert!(seen.iter().all(|seen| *seen > 100), "{seen:?}");
}

#[test]
#[ignore = "run by tests/rust of the repository"]
fn requirements_are_those_of_vers() {
    let mut accepted = 0;
    let texts = lines("texts");
    for text in &texts {
        let wanted = run(&["match", text], &[]).status.success();
        assert_eq!(Requirement::new(text).is_ok(), wanted, "{text:?}");
        accepted += usize::from(wanted);
    }
    assert!(accepted > 20 && accepted < texts.len() - 20, "{accepted}");
}
