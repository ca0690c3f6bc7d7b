//! Cases for finding, counting, free records and listing.

use super::build::{volume, Volume};
use super::calls::{odd_place, reading_call, write_call};
use super::file::Want;
use super::pack::body;
use super::rng::Rng;
use super::volume_cases::Made;
use crate::listing::MOST_BYTES;
use crate::model::Call;

pub fn find(rng: &mut Rng, largest: usize) -> Made {
    let made = volume(rng, largest, Want::default());
    let file = rng.pick(&made.files.iter().collect::<Vec<_>>());
    let mut name = file.name.to_vec();
    match rng.below(8) {
        0 => name.truncate(rng.below(17)),
        1 => name.extend_from_slice(b" "),
        2 => name[16] = b'Q',
        3 => name[0] = rng.outside_a_set(),
        4 => name = vec![b' '; 17],
        5 if !made.others.is_empty() => {
            let mut other = made.clone();
            let slot = rng.pick(&made.others);
            name = other.label(slot)[5..22].to_vec();
        }
        _ => {}
    }
    (made.image, Call::Find { name })
}

pub fn free(rng: &mut Rng, largest: usize) -> Made {
    (volume(rng, largest, Want::default()).image, Call::Free)
}

pub fn listing(rng: &mut Rng, largest: usize) -> Made {
    let mut made = volume(rng, largest, Want::default());
    for slot in made.files.iter().map(|file| file.slot).collect::<Vec<_>>() {
        if rng.chance(25) {
            let end = rng.below(made.geometry.data_records() + 1);
            let start = made.files.iter().find(|file| file.slot == slot);
            let end = end.max(start.map_or(0, |file| file.start));
            made.set(slot, 75, &made.digits(end));
        }
        if rng.chance(15) {
            wrong_mark(rng, &mut made, slot);
        }
    }
    (made.image, Call::Listing)
}

/// Around 65,536 bytes where the size allows, else a small one.
pub fn listing_too_long(rng: &mut Rng, largest: usize) -> Made {
    let length = rng.pick(&[MOST_BYTES - 1, MOST_BYTES, MOST_BYTES + 1, MOST_BYTES + 500]);
    if length > largest {
        return listing(rng, largest);
    }
    let mut image = volume(rng, length, Want::default()).image;
    image.resize(length, 0);
    (image, Call::Listing)
}

/// An incorrect mark, not `F`, somewhere in a file's extent.
pub fn wrong_mark(rng: &mut Rng, made: &mut Volume, slot: usize) {
    let Some(file) = made.files.iter().find(|file| file.slot == slot) else {
        return;
    };
    let record = rng.between(file.start, file.end);
    let at = made.geometry.kind_at(made.geometry.record_ordinal(record));
    made.image[at] = 16 + made.geometry.k;
    made.image[at + 1] = rng.pick(b"DGE \0f");
}

/// Data ends and U of all sorts.
fn vary_end(rng: &mut Rng, made: &mut Volume) {
    let file = made.main().clone();
    let records = made.geometry.data_records();
    let end = match rng.below(6) {
        0 => file.start,
        1 => rng.between(file.start, file.end),
        2 => file.end,
        3 => file.end + 1,
        4 => records,
        _ => rng.between(file.start, records),
    };
    made.set(file.slot, 75, &made.digits(end));
    if file.shape.blocked && rng.chance(50) {
        let r = if file.shape.format == b'F' {
            file.shape.r
        } else {
            1
        };
        let most = (file.shape.b - 1) / r;
        let unused = rng.between(0, most) * r;
        made.set(file.slot, 58, format!("{unused:05}").as_bytes());
    }
}

pub fn count(rng: &mut Rng, largest: usize) -> Made {
    let mut made = volume(rng, largest, Want::default());
    let slot = made.main().slot;
    vary_end(rng, &mut made);
    if rng.chance(15) {
        wrong_mark(rng, &mut made, slot);
    }
    if rng.chance(15) {
        made.set(slot, 42, b"X");
        made.set(slot, 45, b"C");
    }
    (made.image, Call::Count { slot: slot as u64 })
}

/// Slots that hold no label, and labels of another level.
pub fn count_slots(rng: &mut Rng, largest: usize) -> Made {
    let made = volume(rng, largest, Want::default());
    let slots = made.geometry.slots() as u64;
    let slot = match rng.below(7) {
        0 => 0,
        1 => slots + 1,
        2 => rng.huge(),
        3 => (1 << 32) + made.main().slot as u64,
        4 if !made.others.is_empty() => rng.pick(&made.others) as u64,
        5 if !made.deleted.is_empty() => rng.pick(&made.deleted) as u64,
        _ => 1 + rng.draw() % slots,
    };
    (made.image, Call::Count { slot })
}

/// Several of 13 to 18 and 24 at once: the order shows.
pub fn file_order(rng: &mut Rng, largest: usize) -> Made {
    let mut made = volume(rng, largest, Want::default());
    let slot = made.main().slot;
    if rng.chance(40) {
        made.set(slot, 42, &[rng.a_character()]);
    }
    if rng.chance(40) {
        made.set(slot, 45, &[rng.pick(b"CL ")]);
    }
    if rng.chance(30) {
        made.set(slot, 43, b"P");
    }
    if rng.chance(30) {
        wrong_mark(rng, &mut made, slot);
    }
    if rng.chance(40) {
        vary_end(rng, &mut made);
    }
    if rng.chance(10) {
        made.set(slot, 44, b"4");
    }
    let place = odd_place(rng, made.main());
    let call = match rng.below(4) {
        0 => Call::Count { slot: slot as u64 },
        1 => reading_call(rng, &made, slot as u64, place, false),
        2 => reading_call(rng, &made, slot as u64, place, true),
        _ => {
            let mut record = body(rng, &made.main().shape);
            record.resize(rng.pick(&[0, record.len(), record.len() + 1]), 0);
            write_call(slot as u64, &[record])
        }
    };
    (made.image, call)
}
