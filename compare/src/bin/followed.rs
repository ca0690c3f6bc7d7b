//! The library's following program against this one: what it writes of an
//! image on its standard input, following the places of every slot.

use compare::{piped, read, salvage, Place, Reading, Refusal};
use std::fmt::Write as _;
use std::process::ExitCode;

const HELP: &str = "\
followed [--seed N] [--count N] -- COMMAND..

Runs COMMAND once for each image, the samples, the small ones also with the
version digit at 79 as before request 2026-02, and those of so many drawn
cases, and compares what it writes. The last line is 'N passed, M failed'.
";

/// The longest image, the room of the output, and the answers of a row.
const MOST_BYTES: usize = 65_536;
const ROOM: usize = 4_096;
const MOST_ANSWERS: usize = 4_096;

/// Slots there may be: 19 on side 0, 26 on side 1.
const SLOTS: u64 = 45;

fn main() -> ExitCode {
    piped::compared(HELP, &[], |_, image| rows(image).into_bytes())
}

/// All rows of an image; of a volume that is refused, one line.
fn rows(image: &[u8]) -> String {
    if MOST_BYTES < image.len() {
        return "TOO LONG\n".to_string();
    }
    let first = read(image, 1, Place::START, &mut [0; ROOM]);
    if matches!(first, Err(refusal) if refusal.number <= 12) {
        return line(1, 'r', &first, &[]);
    }
    (1..=SLOTS)
        .flat_map(|slot| ['r', 's'].map(|mode| row(image, slot, mode)))
        .collect()
}

fn row(image: &[u8], slot: u64, mode: char) -> String {
    let mut text = String::new();
    let mut place = Place::START;
    let mut out = vec![0; ROOM];
    for _ in 0..MOST_ANSWERS {
        let answer = if mode == 's' {
            salvage(image, slot, place, &mut out)
        } else {
            read(image, slot, place, &mut out)
        };
        text += &line(slot, mode, &answer, &out);
        match answer {
            Ok(Reading::Record { next, .. } | Reading::Gap { next }) => place = next,
            _ => break,
        }
    }
    text
}

fn line(slot: u64, mode: char, answer: &Result<Reading, Refusal>, out: &[u8]) -> String {
    let at = |place: &Place| format!("{} {} {}", place.block, place.offset, u8::from(place.mark));
    match answer {
        Ok(Reading::Record { length, next }) => {
            let body = hex(&out[..*length as usize]);
            format!("{slot} {mode} record {length} {}{body}\n", at(next))
        }
        Ok(Reading::Gap { next }) => format!("{slot} {mode} gap {}\n", at(next)),
        Ok(Reading::End { next }) => format!("{slot} {mode} end {}\n", at(next)),
        Err(Refusal {
            number,
            first,
            second,
            ..
        }) => format!("{slot} {mode} refused {number} {first} {second}\n"),
    }
}

/// A space and two digits for each byte; nothing of an empty body.
fn hex(body: &[u8]) -> String {
    let mut text = String::new();
    for (number, byte) in body.iter().enumerate() {
        let space = if number == 0 { " " } else { "" };
        // Writing into a text cannot fail.
        let _ = write!(text, "{space}{byte:02x}");
    }
    text
}
