//! Makes each call on both sides, holds the two against each other, and counts what was answered.

use crate::calls::{self, Call};
use crate::lent::{differ, Content, Fault, Lending, Slices};
use std::fmt::Write;

/// What is no refusal: no, yes, and a ring without a turn.
const SAID: usize = 3;

/// The refusals that a call of the C interface can give.
pub const REFUSALS: [u32; 12] = [1, 2, 3, 4, 5, 7, 8, 9, 10, 11, 12, 15];

/// What is said, and the refusals.
const COLUMNS: usize = SAID + REFUSALS.len();

fn column(code: u32) -> Option<usize> {
    match code {
        0..=2 => Some(code as usize),
        _ => REFUSALS.iter().position(|n| 100 + n == code).map(|i| SAID + i),
    }
}

struct Row {
    name: &'static str,
    answers: &'static [u32],
    counts: [u64; COLUMNS],
}

pub struct Tally {
    lending: Lending,
    rows: Vec<Row>,
    calls: u64,
}

fn row<C: Call>() -> Row {
    Row { name: C::NAME, answers: C::ANSWERS, counts: [0; COLUMNS] }
}

impl Tally {
    pub fn new(lending: Lending) -> Self {
        let rows = vec![
            row::<calls::ListScan>(),
            row::<calls::ListStripes>(),
            row::<calls::ListTree>(),
            row::<calls::RingScan>(),
            row::<calls::RingStripes>(),
            row::<calls::RingTree>(),
            row::<calls::RingGrid>(),
            row::<calls::Turn>(),
            row::<calls::BuildStripes>(),
            row::<calls::BuildTree>(),
            row::<calls::Make>(),
            row::<calls::Build>(),
            row::<calls::ReadWkb>(),
            row::<calls::Inside>(),
            row::<calls::InsidePlain>(),
        ];
        Tally { lending, rows, calls: 0 }
    }

    pub fn calls(&self) -> u64 {
        self.calls
    }

    /// Makes a call through C and asks the model; they have to agree in all.
    pub fn ask<C: Call>(&mut self, call: &C) -> Result<(), Fault> {
        let code = self.compare(call).map_err(|fault| {
            let mut given = format!("{call:?}");
            if given.len() > MOST_SHOWN {
                given.truncate((0..=MOST_SHOWN).rev().find(|&n| given.is_char_boundary(n)).unwrap_or(0));
                given.push_str(" ...");
            }
            format!("brothstitch_{}: {fault}\ngiven: {given}", C::NAME)
        })?;
        self.calls += 1;
        let row = self.rows.iter_mut().find(|r| r.name == C::NAME).expect("every call has a row");
        row.counts[code] += 1;
        Ok(())
    }

    fn compare<C: Call>(&self, call: &C) -> Result<usize, Fault> {
        let mut slices = Slices::new(self.lending, self.calls);
        let code = call.ours(&mut slices);
        let rooms = slices.back()?;
        let (expected, contents) = call.model();
        if code != expected {
            return Err(format!("returned {code}, the model {expected}"));
        }
        same(&rooms, &contents)?;
        match column(code) {
            Some(column) if C::ANSWERS.contains(&code) => Ok(column),
            _ => Err(format!("returned {code}, which this call cannot say")),
        }
    }

    /// The counts, a line for each call.
    pub fn table(&self) -> String {
        let mut text = format!("{:<14}{:>11}{:>11}{:>11}{:>11}", "call", "calls", "0", "1", "2");
        REFUSALS.iter().for_each(|n| write!(text, "{:>10}", format!("ref. {n}")).expect("a string takes all"));
        let mut sums = [0; COLUMNS];
        let mut line = |name: &str, counts: &[u64; COLUMNS]| {
            write!(text, "\n{name:<14}{:>11}", counts.iter().sum::<u64>()).expect("a string takes all");
            for (i, n) in counts.iter().enumerate() {
                write!(text, "{n:>0$}", if i < SAID { 11 } else { 10 }).expect("a string takes all");
            }
        };
        for row in &self.rows {
            line(row.name, &row.counts);
            sums.iter_mut().zip(row.counts).for_each(|(sum, n)| *sum += n);
        }
        line("all", &sums);
        text
    }

    /// What some call can say, and did not: a run that has not met it has shown nothing about it.
    pub fn unmet(&self) -> Vec<String> {
        let missing = |row: &Row, code: u32| column(code).is_none_or(|i| row.counts[i] == 0);
        let mut unmet = Vec::new();
        for row in &self.rows {
            let codes = row.answers.iter().filter(|&&code| missing(row, code));
            unmet.extend(codes.map(|code| format!("brothstitch_{} never returned {code}", row.name)));
        }
        unmet
    }

    /// How many of the refusals were met.
    pub fn refusals(&self) -> usize {
        (SAID..COLUMNS).filter(|&i| self.rows.iter().any(|row| row.counts[i] > 0)).count()
    }
}

/// How much of a call's input a fault shows.
const MOST_SHOWN: usize = 4000;

fn same(ours: &[Content], model: &[Content]) -> Result<(), Fault> {
    assert!(ours.iter().map(|r| r.name).eq(model.iter().map(|r| r.name)), "both sides have the same rooms");
    for (a, b) in ours.iter().zip(model) {
        if let Some(i) = differ(&a.bits, &b.bits) {
            let (n, [x, y]) = (a.bits.len(), [a, b].map(|r| r.bits.get(i)));
            return Err(format!("{}: number {i} of {n} is {x:x?} (as bits), the model's is {y:x?}", a.name));
        }
    }
    Ok(())
}
