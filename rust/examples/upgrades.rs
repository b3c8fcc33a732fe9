//! Prints which installed versions can be upgraded. Each line of standard input has two columns: the
//! version that is installed, and the one that is available.
//!
//! ```sh
//! printf '1.9.0 1.10.0\n1.0 0:1.0\n' | cargo run --example upgrades
//! ```
//!
//! This prints `1.9.0 -> 1.10.0`. The second line is no upgrade: `<` has `1.0` before `0:1.0`, but
//! these tie in precedence. A line without two versions ends the program by the status 1.

use std::cmp::Ordering;
use std::error::Error;
use std::io::{self, BufRead};

use proved_versions::Versioning;

/// The two versions of a line.
fn read(line: &str) -> Result<[Versioning<'_>; 2], Box<dyn Error>> {
    let (installed, available) = line.split_once(' ').ok_or("a line has two columns")?;
    let available = available.trim_start();
    Ok([Versioning::new(installed)?, Versioning::new(available)?])
}

fn main() -> Result<(), Box<dyn Error>> {
    for line in io::stdin().lock().lines() {
        let line = line?;
        let [installed, available] = read(&line)?;
        if installed.precedence(&available) == Ordering::Less {
            println!("{installed} -> {available}");
        }
    }
    Ok(())
}
