//! Calls for a made volume.

use super::build::Volume;
use super::file::FilePlan;
use super::pack::body;
use super::rng::Rng;
use crate::model::Call;
use crate::reading::{read, salvage, Place, Reading};

/// A call that needs no file: any numbers, any bytes.
pub fn wild_call(rng: &mut Rng) -> Call {
    let out = rng.bytes(rng.clone().below(40));
    let slot = rng.pick(&[0, 1, 2, 3, u64::MAX]);
    let (block, offset, mark) = (rng.huge(), rng.huge(), rng.draw());
    match rng.below(8) {
        0 => Call::Judge,
        1 => Call::Free,
        2 => Call::Listing,
        3 => Call::Find {
            name: rng.telling_bytes(17),
        },
        4 => Call::Count { slot },
        5 => Call::Read {
            slot,
            block,
            offset,
            mark,
            out,
        },
        6 => Call::Salvage {
            slot,
            block,
            offset,
            mark,
            out,
        },
        _ => Call::Write {
            slot,
            bodies: out,
            lengths: vec![rng.draw() as u32; rng.below(4)],
        },
    }
}

/// Mostly judging; now and then what else a label decides.
pub fn label_call(rng: &mut Rng, made: &Volume) -> Call {
    match rng.below(8) {
        0 => Call::Listing,
        1 => Call::Free,
        2 => any_call(rng, made),
        _ => Call::Judge,
    }
}

/// Any call, mostly on the first file.
pub fn any_call(rng: &mut Rng, made: &Volume) -> Call {
    let file = made.main();
    let slot = file.slot as u64;
    match rng.below(8) {
        0 => Call::Judge,
        1 => Call::Free,
        2 => Call::Listing,
        3 => Call::Find {
            name: file.name.to_vec(),
        },
        4 => Call::Count { slot },
        5 => write_call(slot, &[body(rng, &file.shape)]),
        6 => reading_call(rng, made, slot, Place::START, false),
        _ => reading_call(rng, made, slot, Place::START, true),
    }
}

pub fn write_call(slot: u64, records: &[Vec<u8>]) -> Call {
    Call::Write {
        slot,
        bodies: records.concat(),
        lengths: records.iter().map(|record| record.len() as u32).collect(),
    }
}

/// The length an empty output is too small for.
pub fn needed(image: &[u8], slot: u64, place: Place, salvaging: bool) -> Option<usize> {
    let asked = if salvaging {
        salvage(image, slot, place, &mut [])
    } else {
        read(image, slot, place, &mut [])
    };
    match asked {
        Err(refused) if refused.number == 23 => Some(refused.first as usize),
        _ => None,
    }
}

/// Reading or salvage with an output too short by one, exact, longer or
/// empty, measured by what the answer needs.
pub fn reading_call(
    rng: &mut Rng,
    made: &Volume,
    slot: u64,
    place: Place,
    salvaging: bool,
) -> Call {
    let needed = needed(&made.image, slot, place, salvaging).unwrap_or(rng.below(20));
    let length = match rng.below(6) {
        0 => needed.saturating_sub(1),
        1 => needed,
        2 => 0,
        3 => needed + 1,
        _ => needed + rng.below(40),
    };
    let out = rng.bytes(length);
    call_at(rng, slot, place, salvaging, out)
}

/// Plain reading or salvage of a place by its numbers: block, offset, mark.
#[rustfmt::skip]
pub fn reading_of(slot: u64, place: [u64; 3], salvaging: bool, out: Vec<u8>) -> Call {
    let [block, offset, mark] = place;
    match salvaging {
        false => Call::Read { slot, block, offset, mark, out },
        true => Call::Salvage { slot, block, offset, mark, out },
    }
}

/// Reading or salvage from a place; a mark is any number but 0.
pub fn call_at(rng: &mut Rng, slot: u64, place: Place, salvaging: bool, out: Vec<u8>) -> Call {
    let mark = if place.mark { 1 + rng.draw() / 2 } else { 0 };
    reading_of(slot, [place.block, place.offset, mark], salvaging, out)
}

/// The place after some steps from Start, as long as there is a next one.
pub fn followed(rng: &mut Rng, made: &Volume, file: &FilePlan, salvaging: bool) -> Place {
    let mut place = Place::START;
    let mut out = vec![0; made.image.len()];
    let most = file.packed.records.len() + 3;
    for _ in 0..rng.below(most.min(40)) {
        let answer = if salvaging {
            salvage(&made.image, file.slot as u64, place, &mut out)
        } else {
            read(&made.image, file.slot as u64, place, &mut out)
        };
        match answer {
            Ok(Reading::Record { next, .. } | Reading::Gap { next }) => place = next,
            _ => break,
        }
    }
    place
}

/// Places at and around the bounds of a file, huge ones included.
pub fn odd_place(rng: &mut Rng, file: &FilePlan) -> Place {
    let count = file.blocks();
    let block = match rng.below(6) {
        0 => count,
        1 => count + 1,
        2 => count.saturating_sub(1),
        _ => rng.between(0, count),
    };
    let content = if block < count {
        file.content(block)
    } else {
        0
    };
    let r = file.shape.r.max(1);
    let offset = match rng.below(8) {
        0 => 0,
        1 => content,
        2 => content + 1,
        3 => rng.between(0, content / r) * r,
        4 => content.saturating_sub(1),
        5 => rng.below(12),
        _ => rng.between(0, content),
    };
    let block = if rng.chance(5) {
        rng.huge()
    } else {
        block as u64
    };
    let offset = if rng.chance(5) {
        rng.huge()
    } else {
        offset as u64
    };
    Place {
        block,
        offset,
        mark: rng.chance(50),
    }
}
