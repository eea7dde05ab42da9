//! Holds the Rattle library against the Rust.
//!
//!     compare [--short] [--seed N] [FAMILY ..]
//!
//! Asks every family of questions, or the named ones, on every edge and on random and damaged inputs:
//! some millions of each, or with --short a few seconds' worth in all. Prints a line for each family
//! with how many questions were asked and how many answers differ. Exits with 1 if any answer differs
//! that is not on record, or if a difference on record was not met.

mod families;
mod ours;
mod report;

use report::Plan;
use std::process::ExitCode;

const SHORT: u64 = 1_000_000;
const LONG: u64 = 20_000_000;

fn main() -> ExitCode {
    let mut plan = Plan { seed: cases::SEED, random: LONG };
    let mut named = Vec::new();
    let mut words = std::env::args().skip(1);
    while let Some(word) = words.next() {
        match word.as_str() {
            "--short" => plan.random = SHORT,
            "--seed" => match words.next().and_then(|n| n.parse().ok()) {
                Some(seed) => plan.seed = seed,
                None => return usage("--seed wants a number"),
            },
            name if families::ALL.iter().copied().flatten().any(|f| f.0 == name) => named.push(word),
            other => return usage(&format!("no family {other}")),
        }
    }
    let mut good = true;
    for (name, run) in families::ALL.iter().copied().flatten() {
        if named.is_empty() || named.iter().any(|n| n == name) {
            good &= run(plan);
        }
    }
    println!("{}", if good { "compare: the same" } else { "compare: NOT the same" });
    ExitCode::from(u8::from(!good))
}

fn usage(wrong: &str) -> ExitCode {
    let names: Vec<&str> = families::ALL.iter().copied().flatten().map(|f| f.0).collect();
    eprintln!("compare: {wrong}\nusage: compare [--short] [--seed N] [FAMILY ..]\nfamilies: {}", names.join(" "));
    ExitCode::from(2)
}
