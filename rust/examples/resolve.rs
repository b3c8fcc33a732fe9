//! Resolves requirements: for each word, prints the newest line of standard input that it matches.
//!
//! ```sh
//! printf '1.2.0\n1.10.0\n2.0.0-rc.1\n2.0.0\n' | cargo run --example resolve '^1.2.0' '<2.0.0' '>2'
//! ```
//!
//! This prints `1.10.0`, `2.0.0-rc.1` and `2.0.0`. Lines that are not versions are left out. The
//! status is 1 where a requirement matches no line, and 2 where a word is not a requirement.

use std::collections::BTreeMap;
use std::io::{self, Read};
use std::process::ExitCode;

use proved_versions::{Key, Requirement, Versioning};

/// Versions by their keys. Different versions can have one key.
type Versions<'a> = BTreeMap<Key, Vec<Versioning<'a>>>;

/// The lines that are versions.
fn read(text: &str) -> Versions<'_> {
    let mut versions = Versions::new();
    for version in text.lines().flat_map(Versioning::new) {
        let of_its_key = versions.entry(Key::from(&version)).or_default();
        of_its_key.push(version);
    }
    versions
}

/// The newest version that a requirement matches. Only those in its range are looked at.
fn newest<'v>(versions: &'v Versions, requirement: &Requirement) -> Option<&'v Versioning<'v>> {
    versions
        .range::<[u8], _>(requirement.range())
        .rev()
        .find_map(|(_, of_a_key)| requirement.filter(of_a_key).max())
}

fn main() -> io::Result<ExitCode> {
    let mut text = String::new();
    io::stdin().read_to_string(&mut text)?;
    let versions = read(&text);
    let mut status = ExitCode::SUCCESS;
    for word in std::env::args().skip(1) {
        match Requirement::new(&word) {
            Ok(requirement) => match newest(&versions, &requirement) {
                Some(version) => println!("{version}"),
                None => {
                    eprintln!("no version matches {requirement}");
                    status = ExitCode::from(1);
                }
            },
            Err(error) => {
                eprintln!("{error}");
                return Ok(ExitCode::from(2));
            }
        }
    }
    Ok(status)
}
