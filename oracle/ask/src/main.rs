//! The program `oracle`: asks geometry-rs.
//!
//!     oracle < QUESTIONS              a line of answer for each line of question
//!     oracle sample FOLDER            writes the samples: for FOLDER/replay and FOLDER/replay_rings the file stdin, the
//!                                     questions, and stdout, the answers
//!     oracle sample --check FOLDER    holds the four files against what it would write

mod indexed;
mod numbers;
mod rings;
mod sample;
mod segments;
mod words;

use std::io::{self, Read};
use std::path::Path;
use std::process::ExitCode;
use std::{env, fs};

const USAGE: &str = "usage: oracle < QUESTIONS | oracle sample [--check] FOLDER | oracle --help";

fn main() -> ExitCode {
    let arguments: Vec<String> = env::args().skip(1).collect();
    let done = match arguments.iter().map(String::as_str).collect::<Vec<_>>()[..] {
        [] => answer_standard_input(),
        ["sample", folder] => write_sample(Path::new(folder)),
        ["sample", "--check", folder] => check_sample(Path::new(folder)),
        ["--help"] => {
            let help = [numbers::HELP, segments::HELP, indexed::HELP, rings::HELP].join("\n");
            println!("{USAGE}\nquestions:\n{help}");
            Ok(())
        }
        _ => Err(USAGE.into()),
    };
    match done {
        Ok(()) => ExitCode::SUCCESS,
        Err(wrong) => {
            eprintln!("oracle: {wrong}");
            ExitCode::FAILURE
        }
    }
}

fn answer(question: &str) -> Result<String, String> {
    if let Some(answer) = numbers::answer(question)? {
        return Ok(answer);
    }
    if let Some(answer) = segments::answer(question)? {
        return Ok(answer);
    }
    if let Some(answer) = indexed::answer(question)? {
        return Ok(answer);
    }
    rings::answer(question)
}

/// The answers to some lines, a line each.
fn answers(questions: &str) -> Result<String, String> {
    let mut out = String::new();
    for (i, line) in questions.lines().enumerate() {
        out += &answer(line).map_err(|wrong| format!("line {}: {wrong}", i + 1))?;
        out.push('\n');
    }
    Ok(out)
}

fn answer_standard_input() -> Result<(), String> {
    let mut questions = String::new();
    io::stdin().read_to_string(&mut questions).map_err(|e| e.to_string())?;
    print!("{}", answers(&questions)?);
    Ok(())
}

/// The names and contents of the samples' files: what the Rust answers, then what 01 decides against
/// it, then lines that are no question.
fn sample_files() -> Result<[(&'static str, String); 4], String> {
    let lines = |list: &[String]| list.iter().map(|line| format!("{line}\n")).collect::<String>();
    let (asked, others) = (lines(&sample::questions()), sample::no_questions());
    let (decided, decisions): (Vec<String>, Vec<String>) = sample::decided().into_iter().unzip();
    let questions = [&asked, &lines(&decided), &lines(&others)].map(String::as_str).concat();
    let answers_to = answers(&asked)? + &lines(&decisions) + &"?\n".repeat(others.len());
    let (rings, others) = (lines(&sample::of_rings()), sample::no_questions_of_rings());
    let of_rings = answers(&rings)? + &"?\n".repeat(others.len());
    Ok([
        ("replay/stdin", questions),
        ("replay/stdout", answers_to),
        ("replay_rings/stdin", rings + &lines(&others)),
        ("replay_rings/stdout", of_rings),
    ])
}

fn write_sample(folder: &Path) -> Result<(), String> {
    for (name, content) in sample_files()? {
        let file = folder.join(name);
        fs::write(&file, &content).map_err(|e| format!("{}: {e}", file.display()))?;
        println!("{}: {} lines", file.display(), content.lines().count());
    }
    Ok(())
}

fn check_sample(folder: &Path) -> Result<(), String> {
    for (name, content) in sample_files()? {
        let file = folder.join(name);
        let there = fs::read_to_string(&file).map_err(|e| format!("{}: {e}", file.display()))?;
        if there != content {
            return Err(format!("{} is not what `oracle sample` writes", file.display()));
        }
    }
    Ok(())
}

#[cfg(test)]
mod tests {
    use super::*;

    #[test]
    fn what_is_decided_is_not_what_the_rust_says() {
        for (question, decision) in sample::decided() {
            let said = answer(&question).expect("it is a question");
            assert_ne!(said, decision, "{question}");
        }
    }
}
