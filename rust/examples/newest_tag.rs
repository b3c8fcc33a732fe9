//! Prints the newest tag of standard input that a requirement matches.
//!
//! ```sh
//! git tag | cargo run --example newest_tag '^1.2.0'
//! ```
//!
//! The version is found in a tag as `Versioning::from_tag` finds it, so `v1.10.0` and `release-1.10.0`
//! have one. Other lines are left out. The status is 1 where no tag matches, or the word is not a
//! requirement.

use std::error::Error;
use std::io::{self, Read};

use proved_versions::{newest_tag, Requirement, Stability};

fn main() -> Result<(), Box<dyn Error>> {
    let word = std::env::args().nth(1).ok_or("name a requirement")?;
    let wanted = Requirement::new(word)?;
    let mut tags = String::new();
    io::stdin().read_to_string(&mut tags)?;
    let tags: Vec<&str> = tags.lines().collect();
    let newest = newest_tag(&tags, &wanted, Stability::Dev);
    println!("{}", newest.ok_or("no tag matches")?);
    Ok(())
}
