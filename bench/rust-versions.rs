//! The Rust crate `versions` 8.0.1 as a program with the commands `ideal`, `show`, `sort` and
//! `match` of `vers`, for the scripts that compare the two. It is the `src/main.rs` of a project
//! with the dependency `versions = "=8.0.1"`, built by `cargo build --release`.

use std::io::{self, BufWriter, Read, Write};
use versions::{Requirement, SemVer, Versioning};

fn main() -> io::Result<()> {
    let words: Vec<String> = std::env::args().skip(1).collect();
    let mut bytes = Vec::new();
    io::stdin().read_to_end(&mut bytes)?;
    let text = String::from_utf8_lossy(&bytes);
    let lines = text.split_terminator('\n');
    let mut out = BufWriter::new(io::stdout().lock());
    match words[0].as_str() {
        "ideal" => lines.map(SemVer::new).try_for_each(|v| match v {
            Some(v) => writeln!(out, "ideal {v}"),
            None => writeln!(out, "none"),
        }),
        "show" => lines.map(Versioning::new).try_for_each(|v| match v {
            Some(Versioning::Ideal(v)) => writeln!(out, "ideal {v}"),
            Some(Versioning::General(v)) => writeln!(out, "general {v}"),
            Some(Versioning::Complex(v)) => writeln!(out, "complex {v}"),
            None => writeln!(out, "none"),
        }),
        "sort" => {
            let mut versions: Vec<Versioning> =
                lines.map(|line| Versioning::new(line).unwrap()).collect();
            versions.sort();
            versions.iter().try_for_each(|v| writeln!(out, "{v}"))
        }
        "match" => {
            let wanted = Requirement::new(&words[1]).unwrap();
            let is_wanted = |line: &str| Versioning::new(line).is_some_and(|v| wanted.matches(&v));
            lines
                .filter(|line| is_wanted(line))
                .try_for_each(|line| writeln!(out, "{line}"))
        }
        word => panic!("no such command: {word}"),
    }
}
