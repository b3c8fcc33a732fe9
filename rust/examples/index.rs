//! Keeps an index of files by their versions, and prints the files from one version on.
//!
//! ```sh
//! printf '1.10.0 c.tar\n1.9.0 b.tar\n1.2.0 a.tar\n' | cargo run --example index 1.9.0
//! ```
//!
//! This prints `b.tar` and `c.tar`. Each line of standard input has a version and a file. The versions
//! are owned, so the index outlives the lines. A line without a version ends the program by the
//! status 1.

use std::collections::BTreeMap;
use std::error::Error;
use std::io::{self, BufRead};

use proved_versions::Versioning;

/// Files by versions. Of equal versions, such as `1.0.0+a` and `1.0.0+b`, the file of the last line is
/// kept; `1.0` and `0:1.0` are two versions.
type Index = BTreeMap<Versioning<'static>, String>;

fn read(lines: impl BufRead) -> Result<Index, Box<dyn Error>> {
    let mut index = Index::new();
    for line in lines.lines() {
        let line = line?;
        let (version, file) = line.split_once(' ').ok_or("a line has two columns")?;
        index.insert(Versioning::new(version)?.into_owned(), file.into());
    }
    Ok(index)
}

fn main() -> Result<(), Box<dyn Error>> {
    let word = std::env::args().nth(1).ok_or("name a version")?;
    let first = Versioning::new(word)?;
    let index = read(io::stdin().lock())?;
    for (_, file) in index.range(first..) {
        println!("{file}");
    }
    Ok(())
}
