//! What is by hand of each scheme: the rows that `tests/support/schemes.py` of the repository writes,
//! in the file that `SCHEMES` names. `tests/rust` makes it.
#![allow(dead_code)]

use std::{env, fs};

use proved_versions::Scheme;

/// The rows of a kind, each by its scheme and its other words.
pub fn rows_of(kind: &str) -> Vec<(Scheme, Vec<String>)> {
    let file = env::var("SCHEMES").expect("SCHEMES is not set; tests/rust sets it");
    let text = fs::read_to_string(file).unwrap();
    let signs = [("\\n", "\n"), ("\\t", "\t"), ("\\0", "\0")];
    let word = |word: &str| {
        let made = signs.iter();
        made.fold(word.to_string(), |text, (sign, byte)| {
            text.replace(sign, byte)
        })
    };
    let mut found = Vec::new();
    for line in text.lines() {
        let mut words = line.split('\t').map(word);
        if words.next().unwrap() == kind {
            found.push((words.next().unwrap().parse().unwrap(), words.collect()));
        }
    }
    assert!(!found.is_empty(), "{kind}");
    found
}

/// Chains of versions in their order, those that compare equal in one row.
pub fn chains() -> Vec<(Scheme, Vec<Vec<String>>)> {
    let mut chains = Vec::new();
    for (scheme, words) in rows_of("chain") {
        let mut rows = vec![vec![words[0].clone()]];
        for pair in words[1..].chunks(2) {
            match pair[0].as_str() {
                "<" => rows.push(vec![pair[1].clone()]),
                _ => rows.last_mut().unwrap().push(pair[1].clone()),
            }
        }
        chains.push((scheme, rows));
    }
    chains
}

/// Texts that are no versions of a scheme, and one that is.
pub fn no_versions() -> Vec<(Scheme, String, String)> {
    let good = rows_of("level");
    let mut found = rows_of("none");
    found.extend(rows_of("flaw"));
    let with_good = |(scheme, words): (Scheme, Vec<String>)| {
        let (_, level) = good.iter().find(|(of, _)| *of == scheme).unwrap();
        (scheme, words[0].clone(), level[0].clone())
    };
    found.into_iter().map(with_good).collect()
}
