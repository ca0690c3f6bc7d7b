//! Turns small cases into equations about the definitions, which the prover
//! then checks by computation: on the left the definition that a contract
//! cites, on the right what the independent program answered.
//!
//! The names to import and to unfold are read off the definitions themselves,
//! so that this file knows only the names that it cites.

use compare::cover::Cover;
use compare::make::{cases, counted, cylinders, placings, Case};
use compare::packed::{code, GAP};
use compare::{answer, listing, Call};
use std::collections::BTreeMap;
use std::fmt::Write as _;
use std::fs;
use std::io;
use std::path::{Path, PathBuf};
use std::process::ExitCode;

const HELP: &str = "\
equations DEFINITIONS OUT [--seed N] [--count N] [--largest BYTES] [--each N]
equations DEFINITIONS OUT --image FILE

Writes the crates equations_1, equations_2 .. below the folder OUT, equations
about each of so many cases to a crate: DEFINITIONS is the folder specs/ of the crate standard. First
come cases that reach every refusal, position, answer and shape between them,
those of creating and deleting for themselves, then salvages that give gaps and go on behind them, and physical
cylinders of volumes with defects, by the two comparisons and by the walk; of the rest every
other one is drawn from the seed, with images of at most so many bytes, or taken evenly from those counted out.
Prints a line for each crate: its name, the number of its equations, and 'needed' if one of them is of the first sort,
a salvage or a physical cylinder, else 'more'.
With --image the cases are the judgement, the free records and the listing of
that image, and the listing is printed.
";

struct Options {
    seed: u64,
    count: usize,
    largest: usize,
    each: usize,
    image: Option<String>,
}

fn main() -> ExitCode {
    let words: Vec<String> = std::env::args().skip(1).collect();
    let (Some(definitions), Some(out), Some(options)) = (
        words.first(),
        words.get(1),
        options(words.get(2..).unwrap_or(&[])),
    ) else {
        eprint!("{HELP}");
        return ExitCode::from(2);
    };
    match write_crates(Path::new(definitions), Path::new(out), &options) {
        Ok(lines) => {
            print!("{lines}");
            ExitCode::SUCCESS
        }
        Err(error) => {
            eprintln!("equations: {error}");
            ExitCode::FAILURE
        }
    }
}

fn options(words: &[String]) -> Option<Options> {
    let mut options = Options {
        seed: 28_081,
        count: 300,
        largest: 2_500,
        each: 50,
        image: None,
    };
    for pair in words.chunks(2) {
        let [name, value] = pair else { return None };
        match name.as_str() {
            "--seed" => options.seed = value.parse().ok()?,
            "--count" => options.count = value.parse().ok()?,
            "--largest" => options.largest = value.parse().ok()?,
            "--each" => options.each = value.parse().ok().filter(|n| *n > 0)?,
            "--image" => options.image = Some(value.clone()),
            _ => return None,
        }
    }
    Some(options)
}

fn write_crates(definitions: &Path, out: &Path, options: &Options) -> io::Result<String> {
    let preamble = Preamble::read(definitions)?;
    let (cases, needed) = chosen(options)?;
    let mut lines = String::new();
    for (number, part) in cases.chunks(options.each).enumerate() {
        let first = number * options.each;
        let (text, equations) = crate_text(&preamble, first, part);
        let name = format!("equations_{}", number + 1);
        write_crate(&out.join(&name), &text)?;
        let sort = if first < needed { "needed" } else { "more" };
        let _ = writeln!(lines, "{name} {equations} {sort}");
    }
    Ok(lines)
}

/// The module of a crate, its cases numbered from the first on, and how many
/// equations it has.
fn crate_text(preamble: &Preamble, first: usize, part: &[Case]) -> (String, usize) {
    let mut text = preamble.imports.clone();
    let mut equations = 0;
    for (number, case) in (first..).zip(part) {
        let facts = facts(number, &case.image, &case.call);
        equations += facts.len();
        let _ = write!(
            text,
            "\n-- {} {number}\nabbrev image_{number} : List ℕ\nimage_{number} =\n    {}\n\ncase_{number} :\n    ({})\nunfolding{}\ncase_{number} = {}\n",
            case.family,
            list(&case.image),
            facts.join(")\n    × ("),
            preamble.unfolding,
            proofs(facts.len())
        );
    }
    (text, equations)
}

fn write_crate(folder: &Path, text: &str) -> io::Result<()> {
    fs::create_dir_all(folder.join("src"))?;
    fs::create_dir_all(folder.join("specs"))?;
    fs::write(
        folder.join("src/lib.rt"),
        "// Equations only: see specs/Cases.antt.\n#![tactic(auto)]\n",
    )?;
    fs::write(folder.join("specs/Lib.antt"), "pub mod Cases\n")?;
    fs::write(folder.join("specs/Cases.antt"), text)
}

/// The cases, and how many of them are needed: those that come first.
fn chosen(options: &Options) -> io::Result<(Vec<Case>, usize)> {
    let Some(file) = &options.image else {
        let small = cases(options.seed, LOOKED_AT, options.largest);
        let roomy = cases(options.seed, LOOKED_AT, options.largest.max(ROOMY));
        let mut all = covering(Cover::new(), small.chain(roomy), &[LEFT_OUT])?;
        let placings = placings(options.seed, LOOKED_AT, options.largest);
        all.extend(covering(Cover::of_creating(), placings, &[])?);
        all.extend(salvaged(options, |mark, code| mark == 0 && code == GAP));
        all.extend(salvaged(options, |mark, code| mark != 0 && code == GAP));
        all.extend(salvaged(options, |mark, code| mark != 0 && code == 0));
        all.extend(skipped());
        let needed = all.len();
        let rest = options.count.saturating_sub(needed);
        let drawn = cases(options.seed, rest.div_ceil(2), options.largest);
        let mut counted = evenly(rest / 2).into_iter();
        for case in drawn {
            all.push(case);
            all.extend(counted.next());
        }
        return Ok((all, needed));
    };
    let image = fs::read(file)?;
    eprint!("{}", String::from_utf8_lossy(&listing(&image)));
    let calls = [Call::Judge, Call::Free, Call::Listing];
    let case = |call| Case {
        family: "image",
        image: image.clone(),
        call,
    };
    let all: Vec<Case> = calls.into_iter().map(case).collect();
    let needed = all.len();
    Ok((all, needed))
}

/// How many drawn cases are looked through for one that reaches something new.
const LOOKED_AT: usize = 20_000;

/// The sizes P = 512 and 1024 need images of more than 3,084 and 5,132 bytes.
const ROOMY: usize = 8_000;

/// A listing that is too long needs an image that is too long to be computed.
const LEFT_OUT: &str = "listings: TOO LONG";

/// Cases that reach every refusal, judged position, answer and shape between
/// them, or all else that a cover has: each the first that reaches something
/// new.
fn covering(
    mut cover: Cover,
    drawn: impl Iterator<Item = Case>,
    left_out: &[&str],
) -> io::Result<Vec<Case>> {
    let mut missing = cover.missing();
    let mut taken = Vec::new();
    for case in drawn {
        let mut with = cover.clone();
        with.count(&case);
        let left = with.missing();
        if left.len() < missing.len() {
            (cover, missing) = (with, left);
            taken.push(case);
        }
        if missing == left_out {
            return Ok(taken);
        }
    }
    let message = format!("never reached: {}", missing.join("; "));
    Err(io::Error::other(message))
}

/// How many cases of each sort of salvage are taken.
const OF_EACH: usize = 15;

/// Salvages that answer as asked, from places marked or not: the small images
/// of the other cases give few gaps.
fn salvaged(options: &Options, wanted: fn(u64, u8) -> bool) -> impl Iterator<Item = Case> {
    let drawn = cases(options.seed, LOOKED_AT, options.largest);
    let asked = move |case: &Case| match case.call {
        Call::Salvage { mark, .. } => wanted(mark, code(answer(&case.image, &case.call).packed)),
        _ => false,
    };
    drawn.filter(asked).take(OF_EACH)
}

/// The largest image of the counted cases that are taken.
const COUNTED: usize = 4_700;

/// Data cylinders that a defective one moves, of small volumes.
fn skipped() -> Vec<Case> {
    let moved = |case: &Case| match case.call {
        Call::Physical { cylinder } => answer(&case.image, &case.call).packed > cylinder,
        _ => false,
    };
    let all = cylinders::all().map(|(case, _)| case);
    let small = all.filter(|case| case.image.len() <= COUNTED);
    let all: Vec<Case> = small.filter(moved).collect();
    let step = all.len().div_ceil(OF_EACH).max(1);
    all.into_iter().step_by(step).collect()
}

/// So many counted cases: as many of each family, and those evenly spread.
fn evenly(count: usize) -> Vec<Case> {
    let mut sizes: BTreeMap<&str, usize> = BTreeMap::new();
    for case in counted(COUNTED) {
        *sizes.entry(case.family).or_default() += 1;
    }
    let share = count.div_ceil(sizes.len().max(1));
    let mut met: BTreeMap<&str, usize> = BTreeMap::new();
    let mut taken = Vec::new();
    for case in counted(COUNTED) {
        let index = met.entry(case.family).or_default();
        let size = sizes[case.family];
        if *index * share / size != (*index + 1) * share / size {
            taken.push(case);
        }
        *index += 1;
    }
    taken.truncate(count);
    taken
}

fn proofs(count: usize) -> String {
    if count == 1 {
        "refl".to_string()
    } else {
        format!("({})", vec!["refl"; count].join(", "))
    }
}

/// What stands above the equations, and the line that opens the definitions.
struct Preamble {
    imports: String,
    unfolding: String,
}

impl Preamble {
    fn read(definitions: &Path) -> io::Result<Preamble> {
        let mut imports = String::from(
            "-- Cases of the independent program, as equations about the definitions.\n\
             -- Assumes nothing.\n\
             use Rattle.std.specs.Prelude.{ℕ, ◌≡◌, refl, true, false, replicate}\n\
             use mathlib.Core.List.{List, [], ◌∷◌, ◌++◌, flatten}\n",
        );
        // The library's definition that the packing of F computes with; all others here open by themselves.
        let mut unfolding = String::from(" flatten");
        for file in modules(definitions)? {
            let text = fs::read_to_string(&file)?;
            let opened: Vec<&str> = names(&text, "unfoldable pub ").collect();
            let cited = names(&text, "abbrev pub ")
                .filter(|name| CITED.contains(name))
                .chain(
                    ["plain", "salvage"]
                        .into_iter()
                        .filter(|mode| declares(&text, mode)),
                );
            let all: Vec<&str> = opened.iter().copied().chain(cited).collect();
            if let (Some(module), false) = (file.file_stem(), all.is_empty()) {
                let module = module.to_string_lossy();
                let _ = writeln!(
                    imports,
                    "use Rattle.standard.specs.{module}.{{{}}}",
                    all.join(", ")
                );
            }
            for name in opened {
                let _ = write!(unfolding, " {name}");
            }
        }
        Ok(Preamble { imports, unfolding })
    }
}

/// Those of the cited names that are no `unfoldable` definitions.
const CITED: [&str; 10] = [
    "bytes",
    "volume_of",
    "read_answer",
    "output_after",
    "written",
    "image_after",
    "created",
    "image_after_create",
    "deleted",
    "image_after_delete",
];

/// The modules that hold definitions: the examples and edges hold facts.
fn modules(definitions: &Path) -> io::Result<Vec<PathBuf>> {
    let mut files = Vec::new();
    for entry in fs::read_dir(definitions)? {
        let path = entry?.path();
        let stem = path.file_stem().map(|s| s.to_string_lossy().to_string());
        if !matches!(stem.as_deref(), Some("Lib" | "Examples" | "Edges") | None) {
            files.push(path);
        }
    }
    files.sort();
    Ok(files)
}

fn names<'a>(text: &'a str, mark: &'a str) -> impl Iterator<Item = &'a str> {
    text.lines()
        .filter_map(move |line| line.strip_prefix(mark))
        .filter_map(|rest| rest.split(' ').next())
}

/// Whether the module declares the constructors of the modes.
fn declares(text: &str, mode: &str) -> bool {
    text.contains("data Mode") && text.contains(mode)
}

/// The equations of a case: the packed answer, and the lent bytes afterwards.
fn facts(number: usize, image: &[u8], call: &Call) -> Vec<String> {
    let found = answer(image, call);
    let packed = found.packed;
    let image_name = format!("image_{number}");
    let after = |name: String| match found.image == image {
        true => name,
        false => list(&found.image),
    };
    match call {
        Call::Judge => vec![format!("packed_judged (judged {image_name}) ≡ {packed}")],
        // 0 is given where there is no such cylinder: nothing to define.
        Call::Physical { .. } if packed == 0 => facts(number, image, &Call::Judge),
        // The two comparisons, and the walk beside them.
        Call::Physical { cylinder } => ["physical", "walked"]
            .map(|by| format!("{by} (volume_of {image_name}) {cylinder} ≡ {packed}"))
            .to_vec(),
        Call::Find { name } => {
            vec![format!(
                "packed_found (found {image_name} ({})) ≡ {packed}",
                list(name)
            )]
        }
        Call::Count { slot } => {
            vec![format!(
                "packed_counted (counted {image_name} {slot}) ≡ {packed}"
            )]
        }
        Call::Free => vec![format!(
            "packed_counted (free_count {image_name}) ≡ {packed}"
        )],
        Call::Read {
            slot,
            block,
            offset,
            mark,
            out,
        }
        | Call::Salvage {
            slot,
            block,
            offset,
            mark,
            out,
        } => {
            let mode = if matches!(call, Call::Read { .. }) {
                "plain"
            } else {
                "salvage"
            };
            let place = place(*block, *offset, *mark);
            let call = format!("{mode} {image_name} {slot} {place} ({})", list(out));
            vec![
                format!("packed_answer (read_answer {call}) ≡ {packed}"),
                format!("output_after {call} ≡ ({})", list(&found.out)),
            ]
        }
        Call::Write {
            slot,
            bodies,
            lengths,
        } => {
            let lengths: String = lengths.iter().map(|n| format!("{n} ∷ ")).collect();
            let call = format!("{image_name} {slot} ({}) ({lengths}[])", list(bodies));
            vec![
                format!("packed_written (written {call}) ≡ {packed}"),
                format!("image_after {call} ≡ ({})", after(image_name)),
            ]
        }
        Call::Create { fields, n } => {
            let call = format!("{image_name} ({}) {n}", list(fields));
            vec![
                format!("packed_created (created {call}) ≡ {packed}"),
                format!("image_after_create {call} ≡ ({})", after(image_name)),
            ]
        }
        Call::Delete { slot } => {
            let call = format!("{image_name} {slot}");
            vec![
                format!("packed_counted (deleted {call}) ≡ {packed}"),
                format!("image_after_delete {call} ≡ ({})", after(image_name)),
            ]
        }
        Call::Listing => vec![format!("listing {image_name} ≡ ({})", list(&found.out))],
    }
}

/// "a mark is set if it is not 0"
fn place(block: u64, offset: u64, mark: u64) -> String {
    format!(
        "(record {{ block = {block}; offset = {offset}; mark = {} }})",
        mark != 0
    )
}

const RUN: usize = 6;

/// Bytes as a list: runs of one byte, texts, and single bytes.
fn list(bytes: &[u8]) -> String {
    let mut parts = Vec::new();
    let mut rest = bytes;
    while let Some(first) = rest.first() {
        let run = run_of(rest);
        let length = if run >= RUN { run } else { mixed(rest) };
        let (part, behind) = rest.split_at(length);
        parts.push(if run >= RUN {
            format!("replicate {run} {first}")
        } else if is_text(*first) {
            format!("bytes \"{}\"", String::from_utf8_lossy(part))
        } else {
            let bytes: String = part.iter().map(|b| format!("{b} ∷ ")).collect();
            format!("({bytes}[])")
        });
        rest = behind;
    }
    if parts.is_empty() {
        "[]".to_string()
    } else {
        parts.join("\n    ++ ")
    }
}

fn run_of(bytes: &[u8]) -> usize {
    bytes.iter().take_while(|byte| **byte == bytes[0]).count()
}

/// How many bytes are of one sort, text or not, up to the next long run.
fn mixed(bytes: &[u8]) -> usize {
    let sort = is_text(bytes[0]);
    let mut length = 0;
    while length < bytes.len() && is_text(bytes[length]) == sort {
        let run = run_of(&bytes[length..]);
        if run >= RUN {
            break;
        }
        length += run;
    }
    length
}

fn is_text(byte: u8) -> bool {
    (b' '..=b'~').contains(&byte) && byte != b'"' && byte != b'\\'
}
