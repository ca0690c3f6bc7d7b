//! Packing and writing (refusals 24 to 27).

use crate::file::{Block, File, Good};
use crate::label::{Entry, Format};
use crate::layout::Geometry;
use crate::refusal::Refusal;
use crate::text::{address_digits, five_digits};

/// "Writing takes all record bodies joined, and their lengths." The answer is
/// the number of blocks written. "Writing: 13-16, 24, 17, 25-27."
pub fn write(image: &mut [u8], slot: u64, bodies: &[u8], lengths: &[u32]) -> Result<u64, Refusal> {
    let file = File::open(image, slot)?;
    file.accessible()?;
    file.unprotected()?;
    let survey = file.survey(image, 0)?;
    judge_sum(bodies, lengths)?;
    judge_lengths(&file.entry, lengths)?;
    let mut needed = Measure::new(file.entry.b);
    pack(&file.entry, bodies, lengths, &mut needed);
    let held = survey.good / file.m;
    // "27 | more blocks needed than the extent holds | needed"
    if needed.blocks > held {
        return Err(Refusal::at(27, needed.blocks));
    }
    let mut filler = Filler::new(image, &file);
    pack(&file.entry, bodies, lengths, &mut filler);
    filler.close();
    let mut good = filler.good;
    let next = good.next(image).map(|found| found.0);
    let data_end = data_end(&file, needed.blocks, held, next);
    set_label(image, &file, needed.unused(&file.entry), data_end);
    Ok(needed.blocks as u64)
}

/// "25 | lengths do not sum to the bytes lent"
fn judge_sum(bodies: &[u8], lengths: &[u32]) -> Result<(), Refusal> {
    let sum: u128 = lengths.iter().map(|&length| u128::from(length)).sum();
    if sum != bodies.len() as u128 {
        return Err(Refusal::bare(25));
    }
    Ok(())
}

/// "26 | F length not R; V length+4 over R; S length over R (R not 0000), or
/// not 0 with B = 5 | record, from 0"
fn judge_lengths(entry: &Entry, lengths: &[u32]) -> Result<(), Refusal> {
    let r = entry.r as u64;
    let kept = |length: u64| match entry.format {
        Format::Fixed => length == r,
        Format::Variable => length + 4 <= r,
        Format::Spanned => (r == 0 || length <= r) && (entry.b != 5 || length == 0),
    };
    match lengths.iter().position(|&length| !kept(u64::from(length))) {
        Some(record) => Err(Refusal::at(26, record)),
        None => Ok(()),
    }
}

/// Where packed bytes go: counted only, or into the image.
trait Sink {
    /// Opens the next block.
    fn open(&mut self);
    /// Bytes left in the block's B; 0 while none is open.
    fn left(&self) -> usize;
    /// Puts bytes that fit into the block.
    fn put(&mut self, bytes: &[u8]);
}

/// "F: B/R to a block. V unblocked: one to a block; blocked: into the current
/// block if it fits, else the next."
fn pack(entry: &Entry, bodies: &[u8], lengths: &[u32], sink: &mut impl Sink) {
    let mut rest = bodies;
    for &length in lengths {
        let (body, behind) = rest.split_at(length as usize);
        rest = behind;
        match entry.format {
            Format::Fixed => {
                if sink.left() < body.len() {
                    sink.open();
                }
                sink.put(body);
            }
            Format::Variable => {
                if !entry.blocked || sink.left() < body.len() + 4 {
                    sink.open();
                }
                sink.put(&four_digits(body.len() + 4));
                sink.put(body);
            }
            Format::Spanned => pack_spanned(body, sink),
        }
    }
}

/// "S: a segment starts where 6 bytes are left (5 for an empty record), takes
/// what fits, and goes on in the next block."
fn pack_spanned(body: &[u8], sink: &mut impl Sink) {
    let least = if body.is_empty() { 5 } else { 6 };
    if sink.left() < least {
        sink.open();
    }
    let mut rest = body;
    let mut begun = false;
    loop {
        let (part, behind) = rest.split_at(rest.len().min(sink.left() - 5));
        let indicator = match (begun, behind.is_empty()) {
            (false, true) => b'0',
            (false, false) => b'1',
            (true, false) => b'2',
            (true, true) => b'3',
        };
        sink.put(&[indicator]);
        sink.put(&four_digits(part.len() + 5));
        sink.put(part);
        if behind.is_empty() {
            return;
        }
        rest = behind;
        begun = true;
        sink.open();
    }
}

fn four_digits(number: usize) -> [u8; 4] {
    let [_, digits @ ..] = five_digits(number);
    digits
}

/// Counts the blocks of a packing.
struct Measure {
    b: usize,
    used: usize,
    blocks: usize,
}

impl Measure {
    fn new(b: usize) -> Measure {
        Measure {
            b,
            used: b,
            blocks: 0,
        }
    }

    /// "Unblocked files get U = 0." Before the first block nothing is left.
    fn unused(&self, entry: &Entry) -> usize {
        if entry.blocked {
            self.left()
        } else {
            0
        }
    }
}

impl Sink for Measure {
    fn open(&mut self) {
        self.blocks += 1;
        self.used = 0;
    }

    fn left(&self) -> usize {
        self.b - self.used
    }

    fn put(&mut self, bytes: &[u8]) {
        self.used += bytes.len();
    }
}

/// "the writer hands each physical record's body on to be filled"
struct Filler<'a> {
    image: &'a mut [u8],
    good: Good,
    block: Block,
    open: bool,
    count: Measure,
}

impl<'a> Filler<'a> {
    fn new(image: &'a mut [u8], file: &'a File) -> Filler<'a> {
        Filler {
            image,
            good: file.good_from(file.entry.start),
            block: Block::none(file),
            open: false,
            count: Measure::new(file.entry.b),
        }
    }

    fn close(&mut self) {
        if self.open {
            self.block.finish(self.image, self.count.used);
        }
        self.open = false;
    }
}

impl Sink for Filler<'_> {
    fn open(&mut self) {
        self.close();
        self.count.open();
        self.block.take(&mut self.good, self.image);
        self.open = true;
    }

    fn left(&self) -> usize {
        self.count.left()
    }

    fn put(&mut self, bytes: &[u8]) {
        self.block.put(self.image, self.count.used, bytes);
        self.count.put(bytes);
    }
}

/// "start for 0 blocks; the first good record of the next block if a whole
/// one is left; else the step past the extent's end."
fn data_end(file: &File, blocks: usize, held: usize, next: Option<usize>) -> usize {
    match next {
        _ if blocks == 0 => file.entry.start,
        Some(record) if blocks < held => record,
        _ => file.entry.end + 1,
    }
}

/// "Then U (spaces for 0) and the data end are set"
fn set_label(image: &mut [u8], file: &File, unused: usize, data_end: usize) {
    let label = Geometry::index_body_mut(image, Geometry::slot_ordinal(file.slot));
    let digits = match unused {
        0 => [b' '; 5],
        _ => five_digits(unused),
    };
    label[57..62].copy_from_slice(&digits);
    label[74..79].copy_from_slice(&address_digits(data_end, &file.geometry));
}
