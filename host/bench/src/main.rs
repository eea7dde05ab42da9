//! The pace: the library through its C interface beside the Rust, in one run.

mod clock;
mod shapes;
mod sides;

use cases::rings::Ring;
use shapes::{SHAPES, SIZES};
use sides::{compare, Kind, Ours, Rust};
use std::fmt::Write;
use std::hint::black_box;
use std::process::ExitCode;
use std::time::Instant;

const HELP: &str = "\
bench: the library through its C interface beside the Rust. First the answers of both are compared, on
edges under both edge rules; then both are timed in turns, and the best of all rounds counts. A line each:
  NAME ours NS rust NS ratio R        nanoseconds of processor time a query, or a build

  --short       fewer queries, for a quick look
  --only PART   only lines with this in their name, as scan-comb, and the builds that go with them
  --page FILE   writes the tables of docs/PACE.md as well
";

struct Effort {
    queries: usize,
    rounds: usize,
    /// Builds take turns of about so many segments.
    built: usize,
}

const LONG: Effort = Effort { queries: 100_000, rounds: 5, built: 65_536 };
const SHORT: Effort = Effort { queries: 2_000, rounds: 5, built: 8_192 };

struct Line {
    name: String,
    ours: f64,
    rust: f64,
}

impl Line {
    fn ratio(&self) -> f64 {
        self.ours / self.rust
    }
}

/// Nanoseconds of processor time for each of n.
fn timed(n: usize, work: impl FnOnce()) -> f64 {
    let start = clock::nanoseconds();
    work();
    (clock::nanoseconds() - start) as f64 / n as f64
}

/// The best of several rounds, in which both sides take turns; of three where they take long.
fn best(rounds: usize, mut ours: impl FnMut() -> f64, mut rust: impl FnMut() -> f64) -> (f64, f64) {
    let start = Instant::now();
    let mut best = (f64::INFINITY, f64::INFINITY);
    for round in 0..rounds {
        if round >= 3 && start.elapsed().as_secs() >= 6 {
            break;
        }
        best = (best.0.min(ours()), best.1.min(rust()));
    }
    best
}

struct Bench {
    effort: Effort,
    /// What a name has to contain.
    only: String,
    lines: Vec<Line>,
    /// Each ring's stripes: its name, stripes, entries in all, fullest stripe.
    stripes: Vec<(String, [usize; 3])>,
}

impl Bench {
    fn add(&mut self, name: String, (ours, rust): (f64, f64)) {
        let line = Line { name, ours, rust };
        println!("{} ours {ours:.1} rust {rust:.1} ratio {:.2}", line.name, line.ratio());
        self.lines.push(line);
    }

    /// Queries of an outline. With a name for it, building it too.
    fn outline(&mut self, kind: Kind, all: &[Ring], name: String, build: Option<String>) -> Result<(), String> {
        if !name.contains(&self.only) {
            return Ok(());
        }
        let (mut ours, mut rust) = (Ours::new(kind, all), Rust::new(kind, all));
        let places = shapes::queries(&all[0], self.effort.queries);
        compare(&ours, &rust, &places, &shapes::on_edges(all)).map_err(|wrong| format!("{name}: {wrong}"))?;
        if let (Kind::Stripes, [([_, stripes, entries, fullest], _)]) = (kind, &ours.told()[..]) {
            self.stripes.push((name.clone(), [*stripes, *entries, *fullest]));
        }
        let ask_ours = || {
            timed(places.len(), || {
                for &p in &places {
                    black_box(ours.inside(black_box(p), 0));
                }
            })
        };
        let ask_rust = || {
            timed(places.len(), || {
                for &p in &places {
                    black_box(rust.inside(black_box(p)));
                }
            })
        };
        let pace = best(self.effort.rounds, ask_ours, ask_rust);
        self.add(name, pace);
        if let Some(name) = build {
            let times = (self.effort.built / all.iter().map(Vec::len).sum::<usize>()).max(1);
            let build_ours = || timed(times, || (0..times).for_each(|_| assert_eq!(black_box(ours.build()), 0)));
            let build_rust = || timed(times, || (0..times).for_each(|_| black_box(&mut rust).build()));
            let pace = best(self.effort.rounds, build_ours, build_rust);
            self.add(name, pace);
        }
        Ok(())
    }

    fn all(&mut self) -> Result<(), String> {
        for kind in [Kind::Scan, Kind::Stripes, Kind::Tree] {
            for shape in SHAPES {
                for size in SIZES {
                    let name = format!("{}-{shape}-{size}", kind.name());
                    let build = (kind != Kind::Scan).then(|| format!("build-{name}"));
                    self.outline(kind, &[shapes::ring(shape, size)], format!("ring-{name}"), build)?;
                }
            }
        }
        for holes in [1, 60] {
            for kind in [Kind::Scan, Kind::Stripes, Kind::Tree, Kind::Integer] {
                let name = format!("outline-{}-{holes}", kind.name());
                self.outline(kind, &shapes::outline(holes), name, None)?;
            }
        }
        Ok(())
    }

    /// Query lines on which the Rust is faster.
    fn behind(&self) -> Vec<&str> {
        let slow = |line: &&Line| !line.name.starts_with("build-") && line.ratio() > 1.0;
        self.lines.iter().filter(slow).map(|line| line.name.as_str()).collect()
    }

    /// Ring tests by stripes at 4,096 segments that take over twice the Rust's time.
    fn beyond(&self) -> Vec<&str> {
        let far = |l: &&Line| l.name.starts_with("ring-stripes-") && l.name.ends_with("-4096") && l.ratio() > 2.0;
        self.lines.iter().filter(far).map(|line| line.name.as_str()).collect()
    }

    /// The tables of docs/PACE.md.
    fn page(&self) -> String {
        let mut page = String::from("| line | ours, ns | Rust, ns | ratio |\n|---|---:|---:|---:|\n");
        for l in &self.lines {
            writeln!(page, "| {} | {:.1} | {:.1} | {:.2} |", l.name, l.ours, l.rust, l.ratio()).expect("it fits");
        }
        page.push_str("\nFrom 64 to 4,096 segments, 64 times as many:\n\n");
        page.push_str("| | ours: 64 | 512 | 4,096 | times | Rust: 64 | 512 | 4,096 | times |\n");
        page.push_str("|---|---:|---:|---:|---:|---:|---:|---:|---:|\n");
        for first in self.lines.iter().filter(|l| l.name.ends_with("-64")) {
            let stem = first.name.trim_end_matches("64");
            let at =
                |n: usize| self.lines.iter().find(|l| l.name == format!("{stem}{n}")).expect("every size is there");
            let side = |ns: fn(&Line) -> f64| {
                let [a, b, c] = SIZES.map(|n| ns(at(n)));
                format!("{a:.1} | {b:.1} | {c:.1} | {:.1}", c / a)
            };
            let (name, ours, rust) = (stem.trim_end_matches('-'), side(|l| l.ours), side(|l| l.rust));
            writeln!(page, "| {name} | {ours} | {rust} |").expect("it fits");
        }
        page.push_str("\nWhat a query by stripes reads, one stripe of these:\n\n");
        page.push_str("| | stripes | entries in all | a stripe, on average | fullest |\n|---|---:|---:|---:|---:|\n");
        for (name, [stripes, entries, fullest]) in &self.stripes {
            let average = *entries as f64 / *stripes as f64;
            writeln!(page, "| {name} | {stripes} | {entries} | {average:.1} | {fullest} |").expect("it fits");
        }
        page
    }
}

/// The processor, as the machine names it, and how many there are.
fn machine() -> String {
    let told = std::fs::read_to_string("/proc/cpuinfo").unwrap_or_default();
    let model = told.lines().find_map(|l| l.strip_prefix("model name")).and_then(|l| l.split_once(": "));
    let cores = std::thread::available_parallelism().map_or(0, usize::from);
    format!("{}, {cores} processors", model.map_or("unknown processor", |(_, name)| name))
}

struct Options {
    effort: Effort,
    only: String,
    page: Option<String>,
}

fn options(mut words: impl Iterator<Item = String>) -> Result<Options, String> {
    let mut options = Options { effort: LONG, only: String::new(), page: None };
    while let Some(word) = words.next() {
        match word.as_str() {
            "--short" => options.effort = SHORT,
            "--only" => options.only = words.next().ok_or("--only wants a part of a name")?,
            "--page" => options.page = Some(words.next().ok_or("--page wants a file")?),
            _ => return Err(format!("{word} is no option\n\n{HELP}")),
        }
    }
    Ok(options)
}

fn run(words: Vec<String>) -> Result<(), String> {
    let Options { effort, only, page } = options(words.into_iter())?;
    if page.is_some() && !only.is_empty() {
        return Err("the tables want every line: --page goes without --only".to_string());
    }
    println!(
        "machine: {}\n{} queries a line, builds of {} segments in all, best of {} rounds, or 3 where they take long",
        machine(),
        effort.queries,
        effort.built,
        effort.rounds
    );
    let mut bench = Bench { effort, only, lines: vec![], stripes: vec![] };
    bench.all()?;
    if let Some(file) = page {
        let text = format!("machine: {}\n\n{}", machine(), bench.page());
        std::fs::write(&file, text).map_err(|wrong| format!("{file}: {wrong}"))?;
    }
    match bench.behind()[..] {
        [] => println!("not slower than the Rust on any query line"),
        ref names => println!("slower than the Rust: {}", names.join(" ")),
    }
    match bench.beyond()[..] {
        [] => Ok(()),
        ref names => Err(format!("over twice the Rust's time: {}", names.join(" "))),
    }
}

fn main() -> ExitCode {
    let words: Vec<String> = std::env::args().skip(1).collect();
    if words.iter().any(|w| w == "--help") {
        print!("{HELP}");
        return ExitCode::SUCCESS;
    }
    match run(words) {
        Ok(()) => ExitCode::SUCCESS,
        Err(wrong) => {
            eprintln!("bench: {wrong}");
            ExitCode::FAILURE
        }
    }
}
