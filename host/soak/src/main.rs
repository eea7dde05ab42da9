//! Bad input at length: the C interface in guarded slices, every answer and every room held to the model.

mod boards;
mod calls;
mod given;
mod lent;
mod tally;

use boards::Fixed;
use cases::Random;
use lent::Lending;
use std::process::ExitCode;
use std::time::Instant;
use tally::{Tally, REFUSALS};

const HELP: &str = "\
soak: calls the library's C interface with numbers, sizes, floats and indexes of every kind, good and bad.
Each lent slice has a buffer of its own with guards on both sides. After each call the guards, the slices
lent for reading, the answer, the value and all of every room are compared with what docs/01-scope.md says,
as oracle/model reads it.

  --calls N   stop after so many calls (default 6000000)
  --short     120000 calls
  --most N    no outline of more than N points (default 20000)
  --seed N    other numbers (default: the same at every run)
  --board N   only this board, as a fault names it
  --bare      no guard zones: each slice is a heap block, so that valgrind sees every read past its ends
";

/// Numbers in each guard zone.
const ZONE: usize = 32;

struct Options {
    calls: u64,
    most: usize,
    seed: u64,
    board: Option<u64>,
    lending: Lending,
}

fn options(mut words: impl Iterator<Item = String>) -> Result<Options, String> {
    let mut options =
        Options { calls: 6_000_000, most: 20_000, seed: cases::SEED, board: None, lending: Lending { zone: ZONE } };
    while let Some(word) = words.next() {
        let mut number = || {
            let text = words.next().ok_or_else(|| format!("{word} wants a number"))?;
            text.parse::<u64>().map_err(|_| format!("{word} wants a number, and {text} stood there"))
        };
        match word.as_str() {
            "--calls" => options.calls = number()?,
            "--short" => options.calls = 120_000,
            "--most" => options.most = number()? as usize,
            "--seed" => options.seed = number()?,
            "--board" => options.board = Some(number()?),
            "--bare" => options.lending.zone = 0,
            _ => return Err(format!("{word} is no option")),
        }
    }
    Ok(options)
}

/// A board has random numbers of its own, so that it can be asked again alone.
fn ask(fixed: &Fixed, seed: u64, board: u64, tally: &mut Tally) -> Result<(), String> {
    let mut random = Random::new(seed ^ board.wrapping_mul(0x9e6c_63d0_676a_9a99), "soak");
    fixed.ask(&mut random, board, tally).map_err(|fault| {
        format!("board {board}: {fault}\nagain: soak --seed {seed} --board {board}, with the same --most")
    })
}

fn run(options: &Options) -> Result<String, String> {
    let start = Instant::now();
    let fixed = Fixed::new(options.most);
    let mut tally = Tally::new(options.lending);
    if let Some(board) = options.board {
        ask(&fixed, options.seed, board, &mut tally)?;
        return Ok(tally.table());
    }
    let mut boards = 0;
    while tally.calls() < options.calls {
        ask(&fixed, options.seed, boards, &mut tally)?;
        boards += 1;
    }
    println!("{}", tally.table());
    let unmet = tally.unmet();
    let (calls, seconds, met, all) = (tally.calls(), start.elapsed().as_secs(), tally.refusals(), REFUSALS.len());
    if !unmet.is_empty() {
        let missing = unmet.join("\n");
        return Err(format!("{calls} calls agree, but not all was met ({met} of {all} refusals):\n{missing}"));
    }
    let guards = if options.lending.zone > 0 { "no guard touched" } else { "no guard zones" };
    Ok(format!(
        "soak: {calls} calls on {boards} boards in {seconds} s, seed {}: no difference, {guards}, \
         {met} of {all} refusals met, every answer of every call met",
        options.seed
    ))
}

fn main() -> ExitCode {
    let words: Vec<String> = std::env::args().skip(1).collect();
    if words.iter().any(|w| w == "--help") {
        print!("{HELP}");
        return ExitCode::SUCCESS;
    }
    let done = options(words.into_iter()).map_err(|wrong| format!("{wrong}\n\n{HELP}")).and_then(|o| run(&o));
    match done {
        Ok(summary) => {
            println!("{summary}");
            ExitCode::SUCCESS
        }
        Err(fault) => {
            eprintln!("soak: {fault}");
            ExitCode::FAILURE
        }
    }
}
