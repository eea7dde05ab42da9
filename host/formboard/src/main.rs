use formboard::ask::{ask, Answers};
use formboard::board::Board;
use formboard::check::check;
use formboard::draw::draw;
use formboard::machine::{csv, json};
use formboard::options::{parse, Command, Format, Options, HELP, VERSION};
use formboard::read::read_in;
use formboard::table::table;
use std::env;
use std::fs;
use std::io::{self, ErrorKind, Read, Write};
use std::path::Path;
use std::process::ExitCode;

/// The board's bytes: of a file, or of standard input.
fn bytes_of(file: &str) -> Result<Vec<u8>, String> {
    let mut bytes = Vec::new();
    let read = match file {
        "-" => io::stdin().lock().read_to_end(&mut bytes).map(|_| bytes),
        _ => fs::read(file),
    };
    read.map_err(|error| format!("{file}: cannot be read: {error}"))
}

/// Whether two names lead to one file.
fn same_file(a: &str, b: &str) -> bool {
    a == b || matches!((fs::canonicalize(a), fs::canonicalize(b)), (Ok(a), Ok(b)) if a == b)
}

/// Prints it. A reader that has closed the pipe has read what it wanted.
fn print(text: &str) -> Result<(), String> {
    let mut out = io::stdout().lock();
    match out.write_all(text.as_bytes()).and_then(|()| out.flush()) {
        Err(error) if error.kind() != ErrorKind::BrokenPipe => Err(format!("nothing can be printed: {error}")),
        _ => Ok(()),
    }
}

/// Names each broken zone once, with its line.
fn tell_faults(file: &str, board: &Board, answers: &Answers) {
    for fault in &answers.faults {
        let (line, words) = fault.words(board);
        eprintln!("formboard: {file}: line {line}: {words}");
    }
}

/// Runs it; says whether every zone was taken and every splice got its part.
fn run(options: &Options) -> Result<bool, String> {
    let file = &options.file;
    if let Some(drawing) = options.draw.as_ref().filter(|drawing| same_file(drawing, file)) {
        return Err(format!("--draw: {drawing} is the board itself, which is not written over"));
    }
    let folder = Path::new(file).parent().unwrap_or(Path::new(""));
    let board = read_in(&bytes_of(file)?, folder).map_err(|error| format!("{file}: {error}"))?;
    let answers = ask(&board, options.build, &options.damages)?;
    if options.check {
        let found = check(&board, &answers);
        print(&found.iter().map(|line| format!("{line}\n")).collect::<String>())?;
        return Ok(found.is_empty());
    }
    print(&match options.format {
        Format::Table => table(&board, &answers),
        Format::Csv => csv(&board, &answers),
        Format::Json => json(&board, &answers),
    })?;
    tell_faults(file, &board, &answers);
    if let Some(drawing) = &options.draw {
        let svg = draw(&board, &answers.said, options.rays);
        fs::write(drawing, svg).map_err(|error| format!("{drawing}: cannot be written: {error}"))?;
    }
    Ok(answers.all_well())
}

fn main() -> ExitCode {
    let arguments: Vec<String> = env::args_os().skip(1).map(|word| word.to_string_lossy().into_owned()).collect();
    let done = match parse(&arguments) {
        Ok(Command::Help) => print(HELP).map(|()| true),
        Ok(Command::Version) => print(VERSION).map(|()| true),
        Ok(Command::Run(options)) => run(&options),
        Err(problem) => Err(problem),
    };
    match done {
        Ok(true) => ExitCode::SUCCESS,
        Ok(false) => ExitCode::from(1),
        Err(problem) => {
            eprintln!("formboard: {problem}");
            ExitCode::from(2)
        }
    }
}
