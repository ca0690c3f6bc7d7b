//! Places that no reading leads to: every place of small files, and numbers
//! at and beyond every bound, of slots too; and files as large as can be.

use crate::follow::Walk;
use crate::make::build::{volume, Volume};
use crate::make::calls::reading_call;
use crate::make::file::{FilePlan, Want};
use crate::make::read_cases::lose;
use crate::make::rng::Rng;
use crate::make::sizes::{longest_blocks, longest_record, most_blocks, LONGEST_RECORD};
use crate::make::Case;
use crate::model::Call;
use crate::reading::Place;
use crate::session::Session;
use std::io;

/// Small volumes, so that many places can be asked.
const LARGEST: usize = 4_000;

/// Files with more places are asked for some of them only.
const MOST_PLACES: usize = 400;

/// Where numbers of some width end.
const WIDTHS: [u64; 6] = [1 << 15, 1 << 16, 1 << 24, 1 << 31, 1 << 32, 1 << 63];

/// A number, one more, the same with a bit that a narrower number has not,
/// and the ends of all widths.
fn near(rng: &mut Rng, number: usize) -> u64 {
    let number = number as u64;
    let width = rng.pick(&WIDTHS);
    match rng.below(8) {
        0 | 1 => number,
        2 => number + 1,
        3 => number.wrapping_sub(1),
        4 => number.wrapping_add(width),
        5 => width - 1,
        6 => width,
        _ => u64::MAX - rng.below(2) as u64,
    }
}

fn asked(made: &Volume, call: Call) -> Case {
    Case {
        family: "odd place",
        image: made.image.clone(),
        call,
    }
}

/// Reading or salvage from a place with a mark that is any number.
fn odd_call(rng: &mut Rng, made: &Volume, slot: u64, block: u64, offset: u64) -> Call {
    let chosen = rng.pick(&[0, 1, 2, 1 << 32, 1 << 63]);
    let place = Place {
        block,
        offset,
        mark: chosen != 0,
    };
    let salvaging = rng.chance(60);
    let mut call = reading_call(rng, made, slot, place, salvaging);
    if let Call::Read { mark, .. } | Call::Salvage { mark, .. } = &mut call {
        *mark = chosen;
    }
    call
}

/// Every place from Start to two blocks behind the last, offsets beyond the
/// content included, as long as the file is small.
fn every_place(session: &mut Session, rng: &mut Rng, made: &Volume) -> io::Result<()> {
    let file = made.main();
    let per_block = file.shape.b + 2;
    let places = per_block * (file.blocks() + 1) + 2;
    let step = places.div_ceil(MOST_PLACES);
    for number in (rng.below(step)..places).step_by(step) {
        let (block, offset) = (number / per_block, number % per_block);
        let call = odd_call(rng, made, file.slot as u64, block as u64, offset as u64);
        session.compare(&asked(made, call))?;
    }
    Ok(())
}

/// The bounds of a file's blocks and of one block's content, and what is no
/// number of a place.
fn bounds(session: &mut Session, rng: &mut Rng, made: &Volume) -> io::Result<()> {
    let file = made.main();
    for _ in 0..40 {
        let block = rng.pick(&[0, file.blocks().saturating_sub(1), file.blocks()]);
        let content = content(file, block);
        let offset = rng.pick(&[0, content, file.shape.r.min(content), file.shape.b]);
        let (block, offset) = (near(rng, block), near(rng, offset));
        let call = odd_call(rng, made, file.slot as u64, block, offset);
        session.compare(&asked(made, call))?;
    }
    Ok(())
}

fn content(file: &FilePlan, block: usize) -> usize {
    if block < file.blocks() {
        file.content(block)
    } else {
        0
    }
}

/// Every slot, 0, the one behind the last, and numbers that are none.
fn slots(session: &mut Session, rng: &mut Rng, made: &Volume) -> io::Result<()> {
    let all = 0..=made.geometry.slots() as u64 + 1;
    let main = made.main().slot;
    let others: Vec<u64> = (0..6).map(|_| near(rng, main)).collect();
    for slot in all.chain(others) {
        let block = rng.pick(&[0, 0, 1, u64::MAX]);
        let call = odd_call(rng, made, slot, block, 0);
        session.compare(&asked(made, call))?;
    }
    Ok(())
}

/// So many small volumes, blocks of every other one lost.
pub fn places(session: &mut Session, seed: u64, volumes: usize) -> io::Result<()> {
    for number in 0..volumes {
        let mut rng = Rng::for_case(seed, number as u64);
        let want = Want::format(b"SVF"[number % 3]);
        let mut made = volume(&mut rng, LARGEST, want);
        if number % 2 == 1 {
            let file = made.main().clone();
            lose(&mut rng, &mut made, &file, 25);
        }
        every_place(session, &mut rng, &made)?;
        bounds(session, &mut rng, &made)?;
        slots(session, &mut rng, &made)?;
    }
    Ok(())
}

/// Some places of an image's file, plainly and in salvage.
fn some_places(session: &mut Session, image: &[u8], places: &[(u64, u64)]) -> io::Result<()> {
    let mut rng = Rng::new(image.len() as u64);
    let mut walk = Walk::new(session, &mut rng, "large", image, 1);
    for &(block, offset) in places {
        walk.step(Place::unmarked(block, offset))?;
    }
    walk.salvaging = true;
    for &(block, offset) in places.iter().rev().take(3) {
        walk.step(Place::unmarked(block, offset))?;
    }
    Ok(())
}

/// The most blocks, the longest block, the longest record: numbers of every
/// width that an answer has room for. The last again with a block lost.
pub fn large(session: &mut Session) -> io::Result<()> {
    let (blocks, length) = LONGEST_RECORD;
    let ends = [(255, 128), (4_095, 64), (4_990, 128), (4_991, 128)];
    some_places(session, &most_blocks(), &ends)?;
    let ends = [(0, 15_360), (1, 26_624), (191, 25_600), (191, 26_624)];
    some_places(session, &longest_blocks(), &ends)?;
    let mut image = longest_record();
    let mut rng = Rng::new(length as u64);
    let mut walk = Walk::new(session, &mut rng, "large", &image, 1);
    walk.ask(Place::START, length - 1)?;
    walk.ask(Place::START, length)?;
    let geometry = crate::judge(&image).map_err(|_| io::ErrorKind::InvalidData)?;
    let last = (blocks as usize - 1) * 9;
    image[geometry.kind_at(geometry.record_ordinal(last))] = 32 + geometry.k;
    some_places(session, &image, &[(0, 0), (blocks, 0)])
}
