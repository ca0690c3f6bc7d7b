//! The library behind the C driver against the independent program: the
//! number that each call returns, and every lent byte afterwards.

use compare::layout::Geometry;
use compare::make::build::plain_geometry;
use compare::make::create_cases::right_fields;
use compare::make::rng::Rng;
use compare::make::sample::{named, NAMES};
use compare::make::{bad::bad, cases, counted, cylinders, version, Case};
use compare::options::{Options, SEED};
use compare::session::Session;
use compare::{created, edges, follow, judge, odd, uncreated, unwritten, written, Call};
use std::io;
use std::process::ExitCode;

const HELP: &str = "\
driven [--seed N] [--count N] [--largest BYTES] [--every N] -- COMMAND..

Runs the driver by COMMAND and compares with it
- the samples, up to the largest volume, and so many drawn cases, with images of at most so many bytes, each asked for
  its judgement, its free records, blocks of slots, files of names, a create, a delete, a physical cylinder and what the
  case itself asks;
- of the cases that are counted out, one of every N; all of those of the version digit, positions 79 and 80 of VOL1, each
  with the number that is right; all of those of the skip of defective cylinders, each with the number and every byte
  that is right by the walk over good cylinders: what ERMAP may say of five cylinders, physical cylinders, and files that
  are read, salvaged, written, created and deleted on volumes with every pair of defects;
- bad input: random bytes, a volume cut to every length, every value of every
  byte of its VOL1 and ERMAP sectors;
- whole files, plainly and in salvage, by following the places that the library gives: of N/2 sound volumes, of N/4 with
  lost blocks, of N/2 with broken content or refused, of N/8 with control words in any order;
- places that no reading leads to, in N/40 small volumes; places of the largest volumes;
- writes: of every two lengths about the bounds of a block, on every extent of a small volume, of every format on volumes
  counted out, on N/8 drawn volumes, on the largest ones, each by several lists, one over the other; behind each that is
  done every byte of the image is accounted for, the file is read back, all other files are read, judgement, free records
  and names are asked again; of files of more than a thousand records some;
- refused writes: each refusal, every set of them at once, wrong sums and lengths, N/8 bad images; and N/4 drawn
  writes, refused or done;
- creates and deletes, counted out and N/4 drawn ones, refused or done; behind each that is done every byte of the image
  is accounted for, and the file, all other files, judgement, free records and names are asked; fields of any bytes; on
  N/100 volumes chains of deletes, creates and writes until the volume is full and until it is empty.
What calls of reading, salvage, writing, creating and deleting have reached is printed, and what those of the skip have;
all of the table has to be. The last line is 'N passed, M failed'.
";

const DEFAULTS: [(&str, u64); 4] = [
    ("seed", SEED),
    ("count", 4_000),
    ("largest", 70_000),
    ("every", 13),
];

fn main() -> ExitCode {
    let words: Vec<String> = std::env::args().skip(1).collect();
    let options = Options::with_command(&words, &DEFAULTS);
    let Some(options) = options.filter(|options| options.number("every") > 0) else {
        eprint!("{HELP}");
        return ExitCode::from(2);
    };
    match run(&options) {
        Ok((passed, failed)) => {
            println!("{passed} passed, {failed} failed");
            ExitCode::from(u8::from(failed > 0 || passed == 0))
        }
        Err(error) => {
            eprintln!("driven: {error}");
            ExitCode::FAILURE
        }
    }
}

type Stage = fn(&mut Session, &Options) -> io::Result<()>;

const STAGES: [(&str, Stage); 4] = [
    ("volumes", volumes),
    ("files", files),
    ("writes", writes),
    ("creates and deletes", placings),
];

fn run(options: &Options) -> io::Result<(usize, usize)> {
    let mut session = Session::start(&options.command, options.number("seed"))?;
    for (number, (name, stage)) in (1..).zip(STAGES) {
        // A driver that answers no more was told of and counted.
        if stage(&mut session, options).is_err() {
            return Ok(session.tally());
        }
        let (passed, failed) = session.tally();
        let calls = passed + failed;
        eprintln!(
            "[{number} of {}] {name}: {calls} calls by now",
            STAGES.len()
        );
    }
    session.end()
}

/// Images and calls that are drawn or counted beforehand.
fn volumes(session: &mut Session, options: &Options) -> io::Result<()> {
    let (seed, count) = (options.number("seed"), options.count("count"));
    let largest = options.count("largest");
    let some = counted(largest).step_by(options.count("every"));
    let drawn = cases(seed, count, largest).enumerate().flat_map(asked);
    session.stage("samples", |on| {
        on.compare_all(samples().enumerate().flat_map(asked))
    })?;
    session.stage("drawn", |on| on.compare_all(drawn))?;
    session.stage("counted", |on| on.compare_all(some))?;
    session.stage("version", |on| on.compare_told(version::told()))?;
    session.stage("cylinders", |on| on.compare_answered(cylinders::all()))?;
    session.stage("bad", |on| on.compare_all(bad(seed, count)))
}

/// Files whose answers lead to the next call.
fn files(session: &mut Session, options: &Options) -> io::Result<()> {
    let (seed, count) = (options.number("seed"), options.count("count"));
    let mut files = 0;
    session.stage("followed", |on| {
        files = follow::followed(on, seed, count / 2)?;
        Ok(())
    })?;
    println!("followed: {files} files");
    session.stage("salvaged", |on| follow::salvaged(on, seed, count / 4))?;
    session.stage("broken", |on| follow::broken(on, seed, count / 2))?;
    session.stage("segments", |on| follow::ordered_anyhow(on, seed, count / 8))?;
    session.stage("places", |on| odd::places(on, seed, count / 40))?;
    session.stage("large", odd::large)
}

/// Files that are written, read and written again.
fn writes(session: &mut Session, options: &Options) -> io::Result<()> {
    let (seed, count) = (options.number("seed"), options.count("count"));
    let largest = options.count("largest");
    session.stage("lengths", edges::lengths)?;
    session.stage("extents", edges::extents)?;
    session.stage("shapes", |on| written::shapes(on, seed))?;
    session.stage("rewritten", |on| {
        written::rewritten(on, seed, count / 8, largest)
    })?;
    session.stage("unwritten", |on| {
        unwritten::all(on, seed, count / 4, largest)
    })?;
    session.stage("written large", edges::large)
}

/// Files that are created and deleted.
fn placings(session: &mut Session, options: &Options) -> io::Result<()> {
    let (seed, count) = (options.number("seed"), options.count("count"));
    let largest = options.count("largest");
    session.stage("created", |on| created::all(on, seed, count / 4, largest))?;
    session.stage("uncreated", uncreated::all)?;
    session.stage("chains", |on| created::chains(on, seed, count / 100))
}

fn samples() -> impl Iterator<Item = Case> {
    let images = NAMES.iter().filter_map(|name| named(name));
    images.map(|image| Case {
        family: "sample",
        image,
        call: Call::Judge,
    })
}

/// Each drawn image is asked all that the driver knows, and the case's call.
fn asked((number, case): (usize, Case)) -> Vec<Case> {
    let mut rng = Rng::for_case(case.image.len() as u64, number as u64);
    let mut calls = vec![Call::Judge, Call::Free];
    if !calls.contains(&case.call) {
        calls.push(case.call.clone());
    }
    let slots = judge(&case.image).map_or(1, |geometry| geometry.slots());
    for _ in 0..2 {
        let slot = rng.below(slots + 2);
        calls.push(Call::Count { slot: slot as u64 });
        calls.push(Call::Find {
            name: name(&mut rng, &case.image, slot),
        });
    }
    calls.push(Call::Count { slot: rng.huge() });
    let slot = rng.below(slots + 2) as u64;
    let geometry = judge(&case.image).unwrap_or(plain_geometry(1, 8, 1, 0, 1));
    let fields = right_fields(&mut rng, &geometry);
    let n = rng.between(1, 3) as u64;
    calls.extend([Call::Delete { slot }, Call::Create { fields, n }]);
    let cylinder = rng.below(geometry.l + 2) as u64;
    calls.push(Call::Physical { cylinder });
    calls
        .into_iter()
        .map(|call| Case {
            family: case.family,
            image: case.image.clone(),
            call,
        })
        .collect()
}

/// The name in a slot, now and then changed in a byte or in length.
fn name(rng: &mut Rng, image: &[u8], slot: usize) -> Vec<u8> {
    let at = Geometry::slot_ordinal(slot) * 129 + 6;
    let mut name = image
        .get(at..at + 17)
        .map_or(vec![b' '; 17], <[u8]>::to_vec);
    match rng.below(5) {
        0 => name[rng.clone().below(17)] = rng.byte(),
        1 => name.truncate(rng.below(17)),
        2 => name.extend(rng.bytes(1)),
        _ => {}
    }
    name
}
