//! The kept inputs of the fuzzer, once more: the library behind the C driver
//! against the independent program.

use compare::fuzzed::Bases;
use compare::options::SEED;
use compare::packed::{END, GAP};
use compare::session::Session;
use std::process::ExitCode;
use std::{fs, io};

const HELP: &str = "\
replayed FILE -- COMMAND..

Runs the driver by COMMAND and compares it with the independent program on the
inputs of FILE, one to a line in hex digits. Together they have to reach every
refusal, a gap and the end of a file, and every call has to be done once. The last line is 'N passed, M failed', in
inputs and in what is to be reached.
";

/// Calls that have to be done.
const CALLS: [&str; 10] = [
    "judge", "find", "count", "free", "read", "salvage", "write", "create", "delete", "physical",
];

fn main() -> ExitCode {
    let words: Vec<String> = std::env::args().skip(1).collect();
    let (file, command) = match words.as_slice() {
        [file, dashes, command @ ..] if dashes == "--" => (file, command),
        _ => {
            eprint!("{HELP}");
            return ExitCode::from(2);
        }
    };
    match run(file, command) {
        Ok((passed, failed)) => {
            println!("{passed} passed, {failed} failed");
            ExitCode::from(u8::from(failed > 0 || passed == 0))
        }
        Err(error) => {
            eprintln!("replayed: {error}");
            ExitCode::FAILURE
        }
    }
}

/// The bytes of a line.
fn bytes(line: &str) -> io::Result<Vec<u8>> {
    let digits: Option<Vec<u8>> = line
        .chars()
        .map(|digit| Some(digit.to_digit(16)? as u8))
        .collect();
    let pairs = digits.filter(|digits| digits.len() % 2 == 0);
    let pairs = pairs.ok_or_else(|| io::Error::other(format!("no input: {line}")))?;
    let byte = |pair: &[u8]| pair[0] << 4 | pair[1];
    Ok(pairs.chunks(2).map(byte).collect())
}

fn run(file: &str, command: &[String]) -> io::Result<(usize, usize)> {
    let mut session = Session::start(command, SEED)?;
    let bases = Bases::default();
    let (mut passed, mut failed, mut codes) = (0, 0, Vec::new());
    for line in fs::read_to_string(file)?.lines() {
        let answered = bases.run(&bytes(line)?, |case| session.compare_whole(case))?;
        if let Some(answered) = answered {
            codes.extend(answered);
            passed += 1;
        } else {
            println!("different: {line}");
            failed += 1;
        }
    }
    println!("{} calls", codes.len());
    let answers = (1..=29).chain([GAP, END]).map(|code| {
        let answered = codes.iter().any(|row| row.1 == code);
        (code.to_string(), answered)
    });
    let done = CALLS.map(|name| (format!("{name} done"), codes.contains(&(name, 0))));
    for (row, reached) in answers.chain(done) {
        if reached {
            passed += 1;
        } else {
            println!("never answered: {row}");
            failed += 1;
        }
    }
    Ok((passed, failed))
}
