//! The command line.

use compare::cover::cover;
use compare::drive::{expected, serve_by, Outcome};
use compare::listing::{listing, MOST_BYTES};
use compare::make::case;
use compare::make::sample::{named, NAMES, OTHER_NAMES};
use compare::make::sizes::to_write;
use compare::options::{Options, SEED};
use compare::properties::check;
use compare::reading::{given, places};
use compare::{skips, Call};
use std::io::{Read, Write};
use std::process::ExitCode;

const DEFAULT_LARGEST: usize = 70_000;

const HELP: &str = "\
compare listing                         lists the image on standard input
compare sample NAME                     writes a sample image to standard output
compare drawn NUMBER                    writes the image of a drawn case
compare cover [--seed N] [--count N]    shows what the made cases reach
compare check [--seed N] [--count N]    checks the properties on made cases
compare walk read MOST                  writes how many places reading the file in slot 1 of the image on standard input
compare walk salvage MOST               leads to, and at most so many of them, evenly taken: block, offset and mark
compare given read                      writes how many answers reading that file gives before its end, and how many bytes of records
compare given salvage                   the same of salvage
compare bodies NAME                     writes the records that fill the file of a sample as write-F-100, joined
compare lengths NAME                    writes the length of each of them, one to a line
compare serve [--wrong N]               answers calls as the C driver does, every Nth wrongly
compare serve --skip NAME               the same with a wrong skip of defective cylinders, as d2-with-c
compare --help                          shows this text
";

fn main() -> ExitCode {
    let arguments: Vec<String> = std::env::args().skip(1).collect();
    let words: Vec<&str> = arguments.iter().map(String::as_str).collect();
    match words.as_slice() {
        ["listing"] => show_listing(),
        ["sample", name] => sample(name),
        ["drawn", number] => drawn(number),
        ["cover", options @ ..] => with_options(options, 20_000, show_cover),
        ["check", options @ ..] => with_options(options, 5_000, show_check),
        ["walk", "read", most] => walk(false, most),
        ["walk", "salvage", most] => walk(true, most),
        ["given", "read"] => give(false),
        ["given", "salvage"] => give(true),
        ["bodies", name] => list(name, |records| records.concat()),
        ["lengths", name] => list(name, lengths),
        ["serve"] => serve_calls("0"),
        ["serve", "--wrong", every] => serve_calls(every),
        ["serve", "--skip", name] => serve_skip(name),
        ["--help" | "-h" | "help"] => print(HELP.as_bytes()),
        _ => misused(),
    }
}

fn misused() -> ExitCode {
    eprint!("{HELP}");
    ExitCode::from(2)
}

fn print(bytes: &[u8]) -> ExitCode {
    match std::io::stdout().write_all(bytes) {
        Ok(()) => ExitCode::SUCCESS,
        Err(_) => ExitCode::FAILURE,
    }
}

fn show_listing() -> ExitCode {
    let mut image = Vec::new();
    let most = MOST_BYTES as u64 + 1;
    match std::io::stdin().take(most).read_to_end(&mut image) {
        Ok(_) => print(&listing(&image)),
        Err(_) => ExitCode::FAILURE,
    }
}

fn sample(name: &str) -> ExitCode {
    match named(name) {
        Some(image) => print(&image),
        None => {
            let names = NAMES.join(", ");
            eprintln!("samples: {names}; and such as {}", OTHER_NAMES.join(", "));
            ExitCode::from(2)
        }
    }
}

fn drawn(number: &str) -> ExitCode {
    match number.parse() {
        Ok(number) => print(&case(SEED, number, DEFAULT_LARGEST).image),
        Err(_) => misused(),
    }
}

fn walk(salvaging: bool, most: &str) -> ExitCode {
    let Some(most) = most.parse().ok().filter(|most| *most > 0) else {
        return misused();
    };
    let mut image = Vec::new();
    if std::io::stdin().read_to_end(&mut image).is_err() {
        return ExitCode::FAILURE;
    }
    let all = places(&image, 1, salvaging);
    // An odd step, so that blocks of 2, 4, 8 or 16 records are met all over.
    let step = all.len().div_ceil(most) | 1;
    let mut text = format!("{}\n", all.len());
    for place in all.iter().step_by(step) {
        let mark = u8::from(place.mark);
        text += &format!("{} {} {mark}\n", place.block, place.offset);
    }
    print(text.as_bytes())
}

fn give(salvaging: bool) -> ExitCode {
    let mut image = Vec::new();
    if std::io::stdin().read_to_end(&mut image).is_err() {
        return ExitCode::FAILURE;
    }
    let (answers, bytes) = given(&image, 1, salvaging);
    print(format!("{answers} {bytes}\n").as_bytes())
}

fn list(name: &str, part: fn(&[Vec<u8>]) -> Vec<u8>) -> ExitCode {
    match to_write(name) {
        Some(made) => print(&part(&made.records)),
        None => misused(),
    }
}

fn lengths(records: &[Vec<u8>]) -> Vec<u8> {
    let lines = records.iter().map(|record| format!("{}\n", record.len()));
    lines.collect::<String>().into_bytes()
}

fn serve_calls(every: &str) -> ExitCode {
    match every.parse() {
        Ok(every) => serve_said(every, expected),
        Err(_) => misused(),
    }
}

fn serve_skip(name: &str) -> ExitCode {
    match skips::named(name) {
        Some(skip) => serve_said(0, |image, call| skips::said(skip, image, call)),
        None => {
            let names = skips::WRONG.map(|wrong| wrong.0);
            eprintln!("wrong skips: {}", names.join(", "));
            ExitCode::from(2)
        }
    }
}

fn serve_said(every: usize, said: impl FnMut(&[u8], &Call) -> Option<Outcome>) -> ExitCode {
    let mut output = std::io::stdout().lock();
    match serve_by(&mut std::io::stdin().lock(), &mut output, every, said) {
        Ok(()) => ExitCode::SUCCESS,
        Err(_) => ExitCode::FAILURE,
    }
}

fn with_options(words: &[&str], count: u64, run: fn(u64, usize) -> ExitCode) -> ExitCode {
    match Options::numbers(words, &[("seed", SEED), ("count", count)]) {
        Some(options) => run(options.number("seed"), options.count("count")),
        None => misused(),
    }
}

fn show_cover(seed: u64, count: usize) -> ExitCode {
    let cover = cover(seed, count, DEFAULT_LARGEST);
    print!("{}", cover.text());
    for missing in cover.missing() {
        println!("never reached: {missing}");
    }
    for unlisted in cover.unlisted() {
        println!("no judged field: {unlisted}");
    }
    if cover.missing().is_empty() && cover.unlisted().next().is_none() {
        ExitCode::SUCCESS
    } else {
        ExitCode::FAILURE
    }
}

fn show_check(seed: u64, count: usize) -> ExitCode {
    match check(seed, count, DEFAULT_LARGEST) {
        Ok(counts) => {
            for (name, count) in counts {
                println!("{name:<40} {count:>8}");
            }
            ExitCode::SUCCESS
        }
        Err(failure) => {
            println!("{failure}");
            ExitCode::FAILURE
        }
    }
}
