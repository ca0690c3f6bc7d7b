//! Whole files read through the library by following the places that it
//! gives, plainly and in salvage: sound files, files with lost blocks, files
//! with broken content. Every answer on the way is compared.

use crate::layout::Geometry;
use crate::make::build::{plain_geometry, volume, volume_of, with_defects, Volume};
use crate::make::calls::{call_at, needed};
use crate::make::content_cases as content;
use crate::make::file::{FilePlan, Want};
use crate::make::file_cases;
use crate::make::read_cases::{lose, lose_record, marked_starts};
use crate::make::rng::Rng;
use crate::make::segments::{segments, BLOCKS};
use crate::make::volume_cases::Made;
use crate::make::Case;
use crate::model::Call;
use crate::packed::{code, place_of, refusal_of, GAP};
use crate::reading::Place;
use crate::session::Session;
use std::io;

/// Images of more bytes would cost more than they show: all of one is lent
/// for each record.
const LARGEST: usize = 12_000;

/// A file on its way through the library.
pub struct Walk<'a> {
    session: &'a mut Session,
    rng: &'a mut Rng,
    case: Case,
    slot: u64,
    pub salvaging: bool,
}

impl Walk<'_> {
    /// The answer at a place for an output of so many drawn bytes; none if
    /// it was wrong.
    pub fn ask(&mut self, place: Place, room: usize) -> io::Result<Option<u64>> {
        let out = self.rng.bytes(room);
        self.case.call = call_at(self.rng, self.slot, place, self.salvaging, out);
        self.session.compare(&self.case)
    }

    /// The answer at a place for an output that is exact, longer, or first
    /// one byte too short.
    pub fn step(&mut self, place: Place) -> io::Result<Option<u64>> {
        let needed = needed(&self.case.image, self.slot, place, self.salvaging);
        let length = needed.unwrap_or(self.rng.below(9));
        match self.rng.below(4) {
            0 if needed.is_some() => match self.ask(place, length - 1)? {
                Some(_) => self.ask(place, length),
                None => Ok(None),
            },
            0 | 1 => self.ask(place, length),
            _ => {
                let more = self.rng.between(1, 30);
                self.ask(place, length + more)
            }
        }
    }

    /// From a place on, as long as the answers give a next one: the last
    /// answer. A wrong answer ends the walk, as it may lead nowhere.
    fn from(&mut self, mut place: Place) -> io::Result<Option<u64>> {
        loop {
            match self.step(place)? {
                Some(answer) if matches!(code(answer), 0 | GAP) => place = place_of(answer),
                last => return Ok(last),
            }
        }
    }

    /// The start of every block, with the mark and without.
    fn starts(&mut self, blocks: usize) -> io::Result<()> {
        for block in 0..=blocks as u64 {
            for mark in [false, true] {
                self.step(Place {
                    block,
                    offset: 0,
                    mark,
                })?;
            }
        }
        Ok(())
    }

    /// All of a file: plain reading goes on behind each lost block, where
    /// nothing is known of what stood in it.
    fn whole(&mut self) -> io::Result<Option<u64>> {
        let mut last = self.from(Place::START)?;
        while let Some(refused) = last.and_then(refusal_of).filter(|r| r.number == 20) {
            last = self.from(Place::unmarked(refused.first + 1, 0))?;
        }
        Ok(last)
    }
}

impl<'a> Walk<'a> {
    pub fn new(
        session: &'a mut Session,
        rng: &'a mut Rng,
        family: &'static str,
        image: &[u8],
        slot: u64,
    ) -> Walk<'a> {
        Walk {
            session,
            rng,
            case: Case {
                family,
                image: image.to_vec(),
                call: Call::Judge,
            },
            slot,
            salvaging: false,
        }
    }
}

/// A file of an image plainly and in salvage; whether both came to an end
/// without a difference.
fn both_ways(
    session: &mut Session,
    rng: &mut Rng,
    family: &'static str,
    image: &[u8],
    slot: u64,
) -> io::Result<bool> {
    let mut walk = Walk::new(session, rng, family, image, slot);
    let plainly = walk.whole()?;
    walk.salvaging = true;
    Ok(walk.whole()?.is_some() && plainly.is_some())
}

/// The first file's traits, in turn.
fn want(number: usize) -> Want {
    const SHAPES: [(u8, bool); 6] = [
        (b'F', true),
        (b'S', true),
        (b'V', true),
        (b'S', true),
        (b'V', false),
        (b'F', false),
    ];
    let (format, blocked) = SHAPES[number % SHAPES.len()];
    Want {
        blocked: Some(blocked),
        ..Want::format(format)
    }
}

/// Small volumes, in which physical records are short; every sixth has long
/// ones.
fn drawn(seed: u64, number: usize) -> (Rng, Volume) {
    let mut rng = Rng::for_case(seed, number as u64);
    let made = match number / 6 % 6 {
        0 => {
            let geometry = long_records(&mut rng);
            volume_of(&mut rng, geometry, want(number))
        }
        _ => volume(&mut rng, LARGEST, want(number)),
    };
    (rng, made)
}

/// P of 512 and 1024, with room for a few blocks.
fn long_records(rng: &mut Rng) -> Geometry {
    let (l, i, d) = (rng.between(1, 3), rng.between(8, 10), rng.between(3, 6));
    let k = rng.pick(&[2, 3]);
    with_defects(rng, plain_geometry(l, i, d, k, 1))
}

/// Every file of so many sound volumes. How many files were followed.
pub fn followed(session: &mut Session, seed: u64, volumes: usize) -> io::Result<usize> {
    let mut files = 0;
    for number in 0..volumes {
        let (mut rng, made) = drawn(seed, number);
        for file in &made.files {
            let slot = file.slot as u64;
            if both_ways(session, &mut rng, "followed", &made.image, slot)? {
                session.cover.count_read_file(&made, file);
            }
            files += 1;
        }
        for &slot in &made.others {
            both_ways(session, &mut rng, "another level", &made.image, slot as u64)?;
        }
    }
    Ok(files)
}

/// Loses blocks of a file: the first, the last, one, two, some or all.
fn lose_blocks(rng: &mut Rng, made: &mut Volume, file: &FilePlan, number: usize) {
    let mut lose_one = |rng: &mut Rng, block: usize| {
        let record = rng.pick(file.block_records(block));
        lose_record(rng, made, record);
    };
    let blocks = file.blocks();
    match number % 6 {
        0 => lose_one(rng, 0),
        1 => lose_one(rng, blocks - 1),
        2 => {
            let block = rng.below(blocks);
            lose_one(rng, block);
        }
        3 => {
            let block = rng.below(blocks);
            lose_one(rng, block);
            lose_one(rng, (block + 2).min(blocks - 1));
        }
        4 => (0..blocks).for_each(|block| lose_one(rng, block)),
        _ => lose(rng, made, file, 25),
    }
}

/// The first file of so many volumes with lost blocks.
pub fn salvaged(session: &mut Session, seed: u64, volumes: usize) -> io::Result<()> {
    for number in 0..volumes {
        let (mut rng, mut made) = drawn(seed, number);
        let file = made.main().clone();
        if file.blocks() > 0 {
            lose_blocks(&mut rng, &mut made, &file, number / 6);
        }
        both_ways(session, &mut rng, "salvaged", &made.image, file.slot as u64)?;
    }
    Ok(())
}

type Family = (&'static str, fn(&mut Rng, usize) -> Made);

const BROKEN: [Family; 11] = [
    ("broken-variable", content::broken_variable),
    ("joined-wrongly", content::joined_wrongly),
    ("marked-starts", marked_starts),
    ("broken-fill", content::broken_fill),
    ("tightened", content::tightened),
    ("broken-spanned", content::broken_spanned),
    ("joined-wrongly", content::joined_wrongly),
    ("shuffled-blocks", content::shuffled_blocks),
    ("mutated-content", content::mutated_content),
    ("file-order", file_cases::file_order),
    ("count", file_cases::count),
];

/// The slot that a call asks for.
fn slot_of(call: &Call) -> Option<u64> {
    match call {
        Call::Count { slot } | Call::Read { slot, .. } => Some(*slot),
        Call::Salvage { slot, .. } | Call::Write { slot, .. } => Some(*slot),
        _ => None,
    }
}

/// Files with broken content, with any data end, and files refused whole:
/// the drawn call, which asks near the fault, then all of the file.
pub fn broken(session: &mut Session, seed: u64, count: usize) -> io::Result<()> {
    for number in 0..count {
        let (family, make) = BROKEN[number % BROKEN.len()];
        let mut rng = Rng::for_case(seed, number as u64);
        let (image, call) = make(&mut rng, LARGEST);
        let Some(slot) = slot_of(&call) else { continue };
        let case = Case {
            family,
            image,
            call,
        };
        session.compare(&case)?;
        both_ways(session, &mut rng, family, &case.image, slot)?;
    }
    Ok(())
}

/// So many files with control words in any order: all of each, and the start
/// of every block, marked or not.
pub fn ordered_anyhow(session: &mut Session, seed: u64, count: usize) -> io::Result<()> {
    for number in 0..count {
        let mut rng = Rng::for_case(seed, number as u64);
        let image = segments(&mut rng);
        both_ways(session, &mut rng, "segments", &image, 1)?;
        let mut walk = Walk::new(session, &mut rng, "segments", &image, 1);
        for salvaging in [false, true] {
            walk.salvaging = salvaging;
            walk.starts(BLOCKS)?;
        }
    }
    Ok(())
}
