//! Cases of creating and deleting, right and refused (28, 29, and 10, 12, 13,
//! 14, 24 of these calls).

use super::build::{volume, Volume};
use super::fields::hdr1_value;
use super::file::{draw_fields, Want};
use super::file_cases::wrong_mark;
use super::positions::{field_at, Field, HDR1};
use super::rng::Rng;
use super::volume_cases as volumes;
use super::volume_cases::Made;
use super::Family;
use crate::layout::Geometry;
use crate::model::Call;
use crate::slots::Held;
use std::ops::Range;

/// The families of creating and deleting. They are numbered by themselves, so
/// that the cases of the others stay what they were.
pub const FAMILIES: [Family; 15] = [
    ("create", create),
    ("create-n", create_n),
    ("delete", delete),
    ("create-field", create_field),
    ("create-fields", create_fields),
    ("delete-slot", delete_slot),
    ("create-level", create_level),
    ("create-length", create_length),
    ("create-name", create_name),
    ("create-packed", create_packed),
    ("delete-refused", delete_refused),
    ("create-order", create_order),
    ("create-marks", create_marks),
    ("create-refused-volume", create_refused_volume),
    ("delete-refused-volume", delete_refused_volume),
];

/// "the 29 bytes of label fields 6-22, 23-27, 40, 44, 54-57, 63": their first
/// positions, in that order.
const TOLD: [usize; 6] = [6, 23, 40, 44, 54, 63];

/// Where the field of a position stands in the 29 bytes.
fn place(position: usize) -> Range<usize> {
    let length = |told: usize| field_at(&HDR1, told).map_or(0, Field::length);
    let before = TOLD.into_iter().filter(|told| *told < position);
    let at: usize = before.map(length).sum();
    at..at + length(position)
}

fn drawn(rng: &mut Rng, largest: usize) -> Volume {
    let made = volume(rng, largest, Want::default());
    match made.deleted.is_empty() && rng.chance(80) {
        true => volume(rng, largest, Want::default()),
        false => made,
    }
}

/// Right fields with a name that no file of the maker has.
pub fn right_fields(rng: &mut Rng, geometry: &Geometry) -> Vec<u8> {
    let mut fields = draw_fields(rng, geometry);
    fields[0] = b'+';
    fields
}

/// A number of records that there is a run of, if any is free.
pub fn right_n(rng: &mut Rng, held: &Held) -> u64 {
    let stretches = held.stretches();
    if stretches.is_empty() {
        return 1;
    }
    let (_, count) = rng.pick(&stretches);
    match rng.below(3) {
        0 => 1,
        1 => count as u64,
        _ => rng.between(1, count) as u64,
    }
}

/// Numbers at the ends of what a machine counts.
pub const LARGE: [u64; 7] = [
    1 << 16,
    (1 << 32) - 1,
    1 << 32,
    (1 << 32) + 1,
    1 << 63,
    u64::MAX - 1,
    u64::MAX,
];

/// Any bytes behind `D` in the deleted slots.
fn soil_deleted(rng: &mut Rng, made: &mut Volume) {
    for slot in made.deleted.clone() {
        let bytes = rng.telling_bytes(127);
        made.label(slot)[1..].copy_from_slice(&bytes);
    }
}

fn with_right_n(rng: &mut Rng, made: Volume, fields: Vec<u8>) -> Made {
    let n = Held::of(&made.image).map_or(1, |held| right_n(rng, &held));
    (made.image, Call::Create { fields, n })
}

/// Right fields and a number that there is room for.
pub fn create(rng: &mut Rng, largest: usize) -> Made {
    let mut made = drawn(rng, largest);
    if rng.chance(50) {
        soil_deleted(rng, &mut made);
    }
    let fields = right_fields(rng, &made.geometry);
    with_right_n(rng, made, fields)
}

/// Numbers about the free stretches, about N, and large ones.
fn create_n(rng: &mut Rng, largest: usize) -> Made {
    let made = drawn(rng, largest);
    let fields = right_fields(rng, &made.geometry);
    let all = made.geometry.data_records() as u64;
    let longest = Held::of(&made.image).map_or(0, |held| {
        let counts = held.stretches().into_iter().map(|stretch| stretch.1);
        counts.max().unwrap_or(0)
    }) as u64;
    let n = match rng.below(4) {
        0 => rng.pick(&[0, 1, all, all + 1]),
        1 => rng.pick(&LARGE),
        _ => longest + rng.pick(&[0, 1]),
    };
    (made.image, Call::Create { fields, n })
}

/// Puts a value, broken or at a bound, into one field.
fn change(rng: &mut Rng, made: &Volume, fields: &mut [u8], position: usize) {
    let value = hdr1_value(rng, made, made.main().slot, position);
    fields[place(position)].copy_from_slice(&value);
}

fn some_position(rng: &mut Rng) -> usize {
    rng.pick(&TOLD)
}

fn create_field(rng: &mut Rng, largest: usize) -> Made {
    let made = drawn(rng, largest);
    let mut fields = right_fields(rng, &made.geometry);
    let position = some_position(rng);
    change(rng, &made, &mut fields, position);
    with_right_n(rng, made, fields)
}

/// Several fields at once, n = 0 among them.
fn create_fields(rng: &mut Rng, largest: usize) -> Made {
    let made = drawn(rng, largest);
    let mut fields = right_fields(rng, &made.geometry);
    for _ in 0..rng.between(2, 4) {
        let position = some_position(rng);
        change(rng, &made, &mut fields, position);
    }
    let n = rng.pick(&[0, 1, 1, 2]);
    (made.image, Call::Create { fields, n })
}

/// Levels that are none, the other fields broken or not.
fn create_level(rng: &mut Rng, largest: usize) -> Made {
    let made = drawn(rng, largest);
    let mut fields = right_fields(rng, &made.geometry);
    for _ in 0..rng.below(3) {
        let position = some_position(rng);
        change(rng, &made, &mut fields, position);
    }
    fields[23] = rng.pick(b"3.#\0@0AZ_ 12");
    let n = rng.pick(&[0, 1, 1]);
    (made.image, Call::Create { fields, n })
}

/// "other than 29 bytes at 6"
fn create_length(rng: &mut Rng, largest: usize) -> Made {
    let made = drawn(rng, largest);
    let mut fields = right_fields(rng, &made.geometry);
    let length = rng.pick(&[0, 1, 17, 28, 29, 30, 128]);
    fields.resize(length, b' ');
    let n = rng.below(3) as u64;
    (made.image, Call::Create { fields, n })
}

/// Names in use, by a file or by a label of another level only, nearly in
/// use, and blank.
fn create_name(rng: &mut Rng, largest: usize) -> Made {
    let mut made = drawn(rng, largest);
    let mut fields = right_fields(rng, &made.geometry);
    let slots: Vec<usize> = match made.others.as_slice() {
        others if !others.is_empty() && rng.chance(40) => others.to_vec(),
        _ => made.files.iter().map(|file| file.slot).collect(),
    };
    let slot = rng.pick(&slots);
    fields[..17].copy_from_slice(&made.label(slot)[5..22]);
    fields[23] = b'2';
    match rng.below(4) {
        0 => fields[16] = rng.a_character(),
        1 => fields[..17].fill(b' '),
        _ => {}
    }
    with_right_n(rng, made, fields)
}

/// Gives every deleted slot a label: of another level, on one free address.
fn fill_slots(rng: &mut Rng, made: &mut Volume, keep: usize) {
    let free = Held::of(&made.image).map_or(Vec::new(), |held| {
        let ranks = 0..held.owners.len();
        ranks.filter(|&rank| held.owners[rank].is_none()).collect()
    });
    let slots = made.deleted.clone();
    let filled = slots.len().saturating_sub(keep);
    for (&slot, &rank) in slots[..filled].iter().zip(&free) {
        super::file::other_label(rng, made, slot, (rank, rank));
        made.deleted.retain(|&deleted| deleted != slot);
    }
}

/// Volumes with one deleted slot or none, and little room or none.
fn create_packed(rng: &mut Rng, largest: usize) -> Made {
    let mut made = drawn(rng, largest);
    let keep = rng.below(2);
    fill_slots(rng, &mut made, keep);
    let fields = right_fields(rng, &made.geometry);
    with_right_n(rng, made, fields)
}

/// Those of 10, 12, 28 and 29 that are drawn, at once.
fn create_order(rng: &mut Rng, largest: usize) -> Made {
    let mut made = drawn(rng, largest);
    let mut fields = right_fields(rng, &made.geometry);
    if rng.chance(50) {
        fields[..17].copy_from_slice(&made.main().name);
        fields[23] = b'2';
    }
    if rng.chance(40) {
        let position = some_position(rng);
        change(rng, &made, &mut fields, position);
    }
    if rng.chance(50) {
        fill_slots(rng, &mut made, 0);
    }
    if rng.chance(50) {
        let n = made.geometry.data_records() as u64;
        return (made.image, Call::Create { fields, n });
    }
    with_right_n(rng, made, fields)
}

/// Any marks and bodies on the free addresses.
fn create_marks(rng: &mut Rng, largest: usize) -> Made {
    let mut made = drawn(rng, largest);
    let k = made.geometry.k;
    let free: Vec<usize> = Held::of(&made.image).map_or(Vec::new(), |held| {
        let all = held.addresses.iter().zip(&held.owners);
        all.filter(|a| a.1.is_none()).map(|a| a.0 .1).collect()
    });
    for at in free {
        let marked: [u8; 2] = rng.pick(&[[0, b'x'], [16, b'F'], [16, b'G'], [32, 0]]);
        made.image[at..at + 2].copy_from_slice(&[k + marked[0], marked[1]]);
    }
    let fields = right_fields(rng, &made.geometry);
    with_right_n(rng, made, fields)
}

/// A volume of a family that is judged, mostly a refused one.
fn judged(rng: &mut Rng, largest: usize) -> Vec<u8> {
    const REFUSED: [fn(&mut Rng, usize) -> Made; 12] = [
        volumes::lengths,
        volumes::label_sectors,
        volumes::vol1_one,
        volumes::vol1_access,
        volumes::kinds,
        volumes::ermap_one,
        volumes::slots,
        volumes::hdr1_one,
        volumes::clashes,
        volumes::names,
        volumes::mutated,
        volumes::random_behind_vol1,
    ];
    let make = rng.pick(&REFUSED);
    make(rng, largest).0
}

fn create_refused_volume(rng: &mut Rng, largest: usize) -> Made {
    let image = judged(rng, largest);
    let geometry = super::build::geometry(rng, largest);
    let mut fields = right_fields(rng, &geometry);
    if rng.chance(30) {
        fields.truncate(rng.below(29));
    }
    let n = rng.pick(&[0, 1, 1, 1, u64::MAX]);
    (image, Call::Create { fields, n })
}

fn delete_refused_volume(rng: &mut Rng, largest: usize) -> Made {
    let image = judged(rng, largest);
    let slot = rng.pick(&[0, 1, 2, 3, u64::MAX]);
    (image, Call::Delete { slot })
}

/// A file of a healthy volume.
fn delete(rng: &mut Rng, largest: usize) -> Made {
    let made = drawn(rng, largest);
    let slots: Vec<usize> = made.files.iter().map(|file| file.slot).collect();
    let slot = rng.pick(&slots) as u64;
    (made.image, Call::Delete { slot })
}

/// Any slot, those that are none included.
fn delete_slot(rng: &mut Rng, largest: usize) -> Made {
    let made = drawn(rng, largest);
    let last = made.geometry.slots();
    let slot = match rng.below(4) {
        0 => rng.pick(&[0, last as u64 + 1, 1 << 32, u64::MAX]),
        1 => (1 << rng.pick(&[8, 16, 32, 63])) + rng.between(0, last) as u64,
        _ => rng.between(0, last) as u64,
    };
    (made.image, Call::Delete { slot })
}

/// Labels of another level, protected, and with what else keeps a file from
/// being read or written.
fn delete_refused(rng: &mut Rng, largest: usize) -> Made {
    let mut made = drawn(rng, largest);
    let file = made.main().clone();
    for _ in 0..rng.between(1, 2) {
        match rng.below(7) {
            0 => made.set(file.slot, 44, b"5"),
            1 | 2 => made.set(file.slot, 43, b"P"),
            3 => made.set(file.slot, 42, b"A"),
            4 => made.set(file.slot, 45, b"L"),
            5 => {
                let end = rng.between(file.start, file.end);
                made.set(file.slot, 75, &made.digits(end));
            }
            _ => wrong_mark(rng, &mut made, file.slot),
        }
    }
    let slot = file.slot as u64;
    (made.image, Call::Delete { slot })
}
