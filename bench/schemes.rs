//! Reads or compares the lines of standard input by the crate `semver`, for bench/schemes to count its instructions:
//!   schemes WORK ROUNDS
//! A comparison takes a line and the next, and after the last the first.
use semver::Version;
use std::hint::black_box;
use std::io::Read;

/// Does the work for each line and the next in each round.
fn repeat(rounds: usize, lines: usize, work: impl Fn(usize, usize)) {
    for _ in 0..rounds {
        for line in 0..lines {
            work(line, if line + 1 < lines { line + 1 } else { 0 });
        }
    }
}

fn main() {
    let mut text = String::new();
    std::io::stdin().read_to_string(&mut text).unwrap();
    let lines: Vec<&str> = text.lines().collect();
    let read = |line: usize| black_box(lines[line]).parse::<Version>().unwrap();
    let versions: Vec<Version> = (0..lines.len()).map(read).collect();
    let words: Vec<String> = std::env::args().collect();
    let rounds = words[2].parse().unwrap();
    match words[1].as_str() {
        "read" => repeat(rounds, lines.len(), |line, _| {
            black_box(read(line));
        }),
        "compare" => repeat(rounds, lines.len(), |line, next| {
            black_box(black_box(&versions[line]).cmp(&versions[next]));
        }),
        "read and compare" => repeat(rounds, lines.len(), |line, next| {
            black_box(read(line).cmp(&read(next)));
        }),
        work => panic!("no work {work}"),
    }
}
