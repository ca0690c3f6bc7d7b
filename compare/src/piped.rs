//! A program of the library that reads an image on its standard input,
//! against what this one says it should write.

use crate::make::cases;
use crate::make::sample::{named, NAMES};
use crate::make::version::{old_form, small_samples};
use crate::options::{Options, SEED, SHOWN};
use std::io::Write;
use std::process::{Command, ExitCode, Stdio};

/// How many bytes of what is written are printed.
const MOST_SHOWN: usize = 4_000;

/// Images a little above the longest that the programs take, 65,536 bytes.
const LARGEST: usize = 70_000;

/// Runs the command behind `--` once for each image, the samples, the small
/// ones in the form before request 2026-02 too, and those of so many drawn
/// cases, and compares what it writes with what is right, which may hang on
/// further options.
pub fn compared(
    help: &str,
    further: &[(&'static str, u64)],
    right: impl Fn(&Options, &[u8]) -> Vec<u8>,
) -> ExitCode {
    let words: Vec<String> = std::env::args().skip(1).collect();
    let defaults = [&[("seed", SEED), ("count", 400)], further].concat();
    let Some(options) = Options::with_command(&words, &defaults) else {
        eprint!("{help}");
        return ExitCode::from(2);
    };
    let (mut passed, mut failed) = (0, 0);
    for (name, image) in images(&options) {
        let (right, is) = (right(&options, &image), run(&options.command, &image));
        if is.as_deref() == Ok(&right[..]) {
            passed += 1;
            continue;
        }
        failed += 1;
        if failed <= SHOWN {
            println!("DIFFERENT: {name}, {} bytes", image.len());
            println!("  the program: {}", shown(&Ok(right)));
            println!("  the library: {}", shown(&is));
        }
    }
    println!("{passed} passed, {failed} failed");
    ExitCode::from(u8::from(failed > 0 || passed == 0))
}

fn images(options: &Options) -> impl Iterator<Item = (String, Vec<u8>)> {
    let seed = options.number("seed");
    let samples = NAMES
        .iter()
        .map(|name| (format!("sample {name}"), named(name).unwrap_or_default()));
    let old = small_samples().map(|(name, image)| (format!("old {name}"), old_form(&image)));
    let drawn = cases(seed, options.count("count"), LARGEST).enumerate();
    samples.chain(old).chain(drawn.map(move |(number, case)| {
        (
            format!("seed {seed}, case {number}, family {}", case.family),
            case.image,
        )
    }))
}

/// What was written, with its first bytes if it is long.
fn shown(written: &Result<Vec<u8>, String>) -> String {
    match written {
        Ok(text) => {
            let first = &text[..text.len().min(MOST_SHOWN)];
            format!("{} bytes, {:?}", text.len(), String::from_utf8_lossy(first))
        }
        Err(error) => error.clone(),
    }
}

/// What the command writes of an image, if it ends well.
fn run(command: &[String], image: &[u8]) -> Result<Vec<u8>, String> {
    let (program, words) = command.split_first().ok_or("no command")?;
    let started = Command::new(program)
        .args(words)
        .stdin(Stdio::piped())
        .stdout(Stdio::piped())
        .spawn();
    let mut child = started.map_err(|error| error.to_string())?;
    let input = child.stdin.take();
    let lent = image.to_vec();
    // Beside the reading of what it writes, so that neither waits for the
    // other. A program may stop reading where the input is too long for it.
    let writer = std::thread::spawn(move || input.map(|mut input| input.write_all(&lent)));
    let ended = child
        .wait_with_output()
        .map_err(|error| error.to_string())?;
    drop(writer.join());
    if ended.status.success() {
        Ok(ended.stdout)
    } else {
        Err(format!("it ended with {}", ended.status))
    }
}
