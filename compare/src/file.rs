//! Files of an accepted volume: finding, free records, extents, good
//! records, blocks and their count (refusals 13 to 18).

use crate::label::{self, Entry, Format};
use crate::layout::{mark, Geometry, Mark, Walk, MOST_IN_BLOCK};
use crate::refusal::Refusal;
use crate::text::character;
use crate::volume::{judge, label_in};

/// "A file's label is handed out as the 128 bytes in the image itself."
#[derive(Clone, Copy, Debug, PartialEq, Eq)]
pub struct Found<'a> {
    pub slot: usize,
    /// Where the label's first byte stands in the image.
    pub at: usize,
    pub label: &'a [u8],
}

/// "Names are 17 bytes, found among levels space, 1, 2 only"
pub fn find<'a>(image: &'a [u8], name: &[u8]) -> Result<Found<'a>, Refusal> {
    let geometry = judge(image)?;
    (1..=geometry.slots())
        .find(|&slot| label_in(image, slot).and_then(label::name) == Some(name))
        .and_then(|slot| label_of(image, &geometry, slot as u64))
        .ok_or(Refusal::bare(13))
}

fn label_of<'a>(image: &'a [u8], geometry: &Geometry, slot: u64) -> Option<Found<'a>> {
    let slot = usize::try_from(slot).ok()?;
    if !(1..=geometry.slots()).contains(&slot) {
        return None;
    }
    Some(Found {
        slot,
        at: geometry.kind_at(Geometry::slot_ordinal(slot)) + 1,
        label: label_in(image, slot)?,
    })
}

/// Free records: data addresses in no extent, marks playing no part.
pub fn free(image: &[u8]) -> Result<u64, Refusal> {
    let geometry = judge(image)?;
    Ok(free_records(image, &geometry) as u64)
}

pub fn free_records(image: &[u8], geometry: &Geometry) -> usize {
    let taken: usize = (1..=geometry.slots())
        .filter_map(|slot| label_in(image, slot))
        .filter_map(|label| label::extent(label, geometry))
        .map(|(start, end)| end - start + 1)
        .sum();
    geometry.data_records() - taken
}

/// "the count of blocks needs only 13, 14, 17, 18"
pub fn count(image: &[u8], slot: u64) -> Result<u64, Refusal> {
    let file = File::open(image, slot)?;
    let survey = file.survey(image, 0)?;
    Ok(file.blocks(&survey)? as u64)
}

/// The numbers of one file of level space, 1 or 2.
#[derive(Clone, Copy, Debug)]
pub struct File {
    pub geometry: Geometry,
    pub slot: usize,
    pub entry: Entry,
    /// Positions 42, 43 and 45.
    access: u8,
    protection: u8,
    interchange: u8,
    /// "m = B/P for B > P, else 1"
    pub m: usize,
}

/// What one walk over the kinds of an extent finds.
#[derive(Clone, Copy, Debug)]
pub struct Survey {
    /// Good records of the extent.
    pub good: usize,
    /// Good records before the data end.
    pub before: usize,
    /// The data record that is good record number `wanted`, if there is one.
    pub at: Option<usize>,
}

impl File {
    /// "A file call stops at the first refusal of the volume." Then
    /// "13 | no label in that slot or of that name" and "14 | another level".
    pub fn open(image: &[u8], slot: u64) -> Result<File, Refusal> {
        let geometry = judge(image)?;
        let found = label_of(image, &geometry, slot).ok_or(Refusal::bare(13))?;
        File::in_slot(&geometry, found.slot, found.label)
    }

    /// The file of a label of an accepted volume.
    pub fn in_slot(geometry: &Geometry, slot: usize, label: &[u8]) -> Result<File, Refusal> {
        let entry = Entry::of(label, geometry).ok_or(Refusal::at(14, slot))?;
        let p = geometry.p();
        Ok(File {
            geometry: *geometry,
            slot,
            entry,
            access: character(label, 42),
            protection: character(label, 43),
            interchange: character(label, 45),
            m: if entry.b > p { entry.b / p } else { 1 },
        })
    }

    /// "15 | 42 not space", "16 | 45 not space"
    pub fn accessible(&self) -> Result<(), Refusal> {
        for (number, character) in [(15, self.access), (16, self.interchange)] {
            if character != b' ' {
                return Err(Refusal::at(number, self.slot));
            }
        }
        Ok(())
    }

    /// "24 | 43 is P"
    pub fn unprotected(&self) -> Result<(), Refusal> {
        if self.protection == b'P' {
            return Err(Refusal::at(24, self.slot));
        }
        Ok(())
    }

    /// "A record of the extent is defective if its mark is incorrect and its
    /// first byte `F`; it is skipped and never written. The others are good,
    /// check-failed ones included." "17 | incorrect mark, not `F`, anywhere
    /// in the extent | ordinal"
    pub fn survey(&self, image: &[u8], wanted: u64) -> Result<Survey, Refusal> {
        let mut survey = Survey {
            good: 0,
            before: 0,
            at: None,
        };
        for (record, at) in self.geometry.walk(self.entry.start, self.entry.end) {
            if mark(image[at]) == Mark::Incorrect {
                if image[at + 1] != b'F' {
                    return Err(Refusal::at(17, self.geometry.record_ordinal(record)));
                }
                continue;
            }
            if survey.good as u64 == wanted {
                survey.at = Some(record);
            }
            survey.good += 1;
            if record < self.entry.data_end {
                survey.before += 1;
            }
        }
        Ok(survey)
    }

    /// "The number of blocks is 0 if data end = start; (good records before
    /// the data end)/m if it lies in the extent; the whole part of (good
    /// records)/m if it is beyond." "18 | data end in the extent splits a
    /// block, or U > 0 with 0 blocks | slot"
    pub fn blocks(&self, survey: &Survey) -> Result<usize, Refusal> {
        let entry = &self.entry;
        let splits = entry.data_end <= entry.end && !survey.before.is_multiple_of(self.m);
        let blocks = if entry.data_end <= entry.end {
            survey.before / self.m
        } else {
            survey.good / self.m
        };
        if splits || (entry.u > 0 && blocks == 0) {
            return Err(Refusal::at(18, self.slot));
        }
        Ok(blocks)
    }

    /// "A block's content is its first B bytes; B-U in the last."
    pub fn content(&self, block: usize, blocks: usize) -> usize {
        if block + 1 == blocks {
            self.entry.b - self.entry.u
        } else {
            self.entry.b
        }
    }

    /// The good records from a data record on.
    pub fn good_from(&self, record: usize) -> Good {
        Good(self.geometry.walk(record, self.entry.end))
    }

    pub fn fixed(&self) -> bool {
        self.entry.format == Format::Fixed
    }
}

/// The good records of an extent that was surveyed.
#[derive(Clone, Copy, Debug)]
pub struct Good(Walk);

impl Good {
    /// The next good record and where its kind stands.
    pub fn next(&mut self, image: &[u8]) -> Option<(usize, usize)> {
        self.0
            .by_ref()
            .find(|&(_, at)| mark(image[at]) != Mark::Incorrect)
    }
}

/// The m good records of one block.
#[derive(Clone, Copy, Debug)]
pub struct Block {
    bodies: [usize; MOST_IN_BLOCK],
    m: usize,
    k: u8,
    /// "A lost block contains a check-failed record."
    pub lost: bool,
}

impl Block {
    /// Room for a block of the file.
    pub fn none(file: &File) -> Block {
        Block {
            bodies: [0; MOST_IN_BLOCK],
            m: file.m,
            k: file.geometry.k,
            lost: false,
        }
    }

    /// "blocks take m good records in turn"
    pub fn take(&mut self, good: &mut Good, image: &[u8]) {
        self.lost = false;
        for body in self.bodies[..self.m].iter_mut() {
            if let Some((_, at)) = good.next(image) {
                *body = at + 1;
                self.lost |= mark(image[at]) == Mark::CheckFailed;
            }
        }
    }

    fn p(&self) -> usize {
        128 << self.k
    }

    /// The byte at an offset of the block.
    pub fn byte(&self, image: &[u8], offset: usize) -> u8 {
        image[self.bodies[offset >> (7 + self.k)] + (offset & (self.p() - 1))]
    }

    /// The stretch of the image that holds the block's bytes from an offset
    /// up to a bound, as far as the same physical record goes.
    fn stretch(&self, offset: usize, bound: usize) -> (usize, usize) {
        let within = offset & (self.p() - 1);
        let at = self.bodies[offset >> (7 + self.k)] + within;
        (at, (self.p() - within).min(bound - offset))
    }

    /// "Fill is byte 00."
    pub fn is_fill(&self, image: &[u8], offset: usize, bound: usize) -> bool {
        let mut offset = offset;
        while offset < bound {
            let (at, length) = self.stretch(offset, bound);
            if image[at..at + length].iter().any(|&byte| byte != 0) {
                return false;
            }
            offset += length;
        }
        true
    }

    /// Copies bytes of the block into an output of that length.
    pub fn copy(&self, image: &[u8], offset: usize, out: &mut [u8]) {
        let bound = offset + out.len();
        let mut done = 0;
        while offset + done < bound {
            let (at, length) = self.stretch(offset + done, bound);
            out[done..done + length].copy_from_slice(&image[at..at + length]);
            done += length;
        }
    }

    /// Puts bytes into the block.
    pub fn put(&self, image: &mut [u8], offset: usize, bytes: &[u8]) {
        let bound = offset + bytes.len();
        let mut done = 0;
        while offset + done < bound {
            let (at, length) = self.stretch(offset + done, bound);
            image[at..at + length].copy_from_slice(&bytes[done..done + length]);
            done += length;
        }
    }

    /// "Content left, and physical records' ends, are filled with 00.
    /// Written records get the valid mark"
    pub fn finish(&self, image: &mut [u8], used: usize) {
        let bound = self.m * self.p();
        let mut offset = used;
        while offset < bound {
            let (at, length) = self.stretch(offset, bound);
            image[at..at + length].fill(0);
            offset += length;
        }
        for body in &self.bodies[..self.m] {
            image[body - 1] = self.k;
        }
    }
}
