//! What a family of questions came to.

use std::fmt::Debug;
use std::time::Instant;

/// How much a run asks.
#[derive(Copy, Clone)]
pub struct Plan {
    pub seed: u64,
    /// Random inputs of a family; damaged ones come on top.
    pub random: u64,
}

/// A difference between the Rust and the library that docs/DIFFERENCES.md has, and how often it was met.
struct Recorded {
    what: &'static str,
    met: u64,
}

pub struct Family {
    name: &'static str,
    asked: u64,
    differ: u64,
    recorded: Vec<Recorded>,
    start: Instant,
}

/// So many differences of a family are printed; the rest are counted.
const SHOWN: u64 = 5;

impl Family {
    /// A family with the recorded differences that its edges have to meet.
    pub fn new(name: &'static str, recorded: &[&'static str]) -> Self {
        let recorded = recorded.iter().map(|&what| Recorded { what, met: 0 }).collect();
        Family { name, asked: 0, differ: 0, recorded, start: Instant::now() }
    }

    /// One question and both answers, which have to be the same.
    pub fn same<T: PartialEq + Debug>(&mut self, ours: T, theirs: T, question: impl FnOnce() -> String) {
        self.asked += 1;
        if ours != theirs {
            self.differ += 1;
            if self.differ <= SHOWN {
                println!("{}: {}: ours {ours:x?}, the Rust's {theirs:x?}", self.name, question());
            }
        }
    }

    /// One question where a recorded difference is due: both answers have to be those on record.
    pub fn recorded<T: PartialEq + Debug>(&mut self, what: &str, answers: [T; 2], on_record: [T; 2]) {
        self.asked += 1;
        let entry = self.recorded.iter_mut().find(|r| r.what == what).expect("a family names what it records");
        if answers == on_record {
            entry.met += 1;
        } else {
            self.differ += 1;
            println!("{}: {what}: answers {answers:x?}, on record {on_record:x?}", self.name);
        }
    }

    /// Prints the family's line; true where nothing is amiss.
    pub fn end(self) -> bool {
        let seconds = self.start.elapsed().as_secs_f64();
        println!("{:14} {:>11} asked {:>3} differ  {seconds:6.1} s", self.name, self.asked, self.differ);
        let mut good = self.differ == 0 && self.asked > 0;
        for Recorded { what, met } in &self.recorded {
            println!("{:14} {met:>11} times, as recorded: {what}", "");
            if *met == 0 {
                println!("{:14} a recorded difference that was never met", "");
                good = false;
            }
        }
        good
    }
}
