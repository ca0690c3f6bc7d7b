//! Cases for the judgement of a volume: refusals 1 to 12.

use super::build::{blank, geometry, plain_geometry, volume, volume_of, Volume, LEAST};
use super::calls::{any_call, label_call};
use super::fields::{ermap_value, hdr1_value, vol1_value, READING_PAIRS};
use super::file::Want;
use super::positions::{judged_in, named_by_10, ERMAP, HDR1, VOL1};
use super::rng::Rng;
use crate::layout::{Geometry, INDEX_SECTOR};
use crate::model::Call;
use crate::volume::judge;

pub type Made = (Vec<u8>, Call);

pub fn healthy(rng: &mut Rng, largest: usize) -> Made {
    let made = volume(rng, largest, Want::default());
    (made.image, Call::Judge)
}

/// Every number of a geometry at its bounds, as far as the size allows.
pub fn bounds(rng: &mut Rng, largest: usize) -> Made {
    for _ in 0..20 {
        let mut geometry = plain_geometry(
            rng.pick(&[1, 2, 96]),
            rng.pick(&[8, 26]),
            rng.pick(&[1, 26]),
            rng.below(4) as u8,
            rng.between(1, 2),
        );
        if rng.chance(60) {
            geometry.d1 = Some(geometry.l);
            geometry.d2 = rng.chance(60).then_some(geometry.l + 1);
        }
        if geometry.image_length() <= largest.max(LEAST) {
            let made = volume_of(rng, geometry, Want::default());
            return (made.image, Call::Judge);
        }
    }
    healthy(rng, largest)
}

/// Truncated, extended, and around the bound of refusal 1.
pub fn lengths(rng: &mut Rng, largest: usize) -> Made {
    let mut image = volume(rng, largest.saturating_sub(300), Want::default()).image;
    let length = match rng.below(8) {
        0 => 0,
        1 => 902,
        2 => 903,
        3 => image.len() - 1,
        4 => image.len() + 1,
        5 => rng.below(1000),
        6 => image.len() + rng.between(2, 300),
        _ => rng.below(image.len()),
    };
    image.resize(length.min(largest.max(LEAST)), rng.pick(&[0, b' ', 16]));
    (
        image,
        rng.pick(&[Call::Judge, Call::Free, Call::Listing].each_ref())
            .clone(),
    )
}

pub fn random_bytes(rng: &mut Rng, largest: usize) -> Made {
    let length = rng.below(largest.clamp(LEAST, 2_000));
    let image = if rng.chance(50) {
        rng.bytes(length)
    } else {
        rng.telling_bytes(length)
    };
    let call = super::calls::wild_call(rng);
    (image, call)
}

/// Random bytes behind a proper VOL1.
pub fn random_behind_vol1(rng: &mut Rng, largest: usize) -> Made {
    let geometry = geometry(rng, largest);
    let whole = blank(rng, &geometry);
    let mut image = rng.telling_bytes(whole.len());
    let kinds = rng.chance(70);
    for ordinal in 0..geometry.sectors() {
        let at = geometry.kind_at(ordinal);
        if kinds {
            image[at] = whole[at];
        }
        if ordinal == 6 || (ordinal == 4 && rng.chance(70)) {
            image[at..at + INDEX_SECTOR].copy_from_slice(&whole[at..at + INDEX_SECTOR]);
        }
    }
    (image, Call::Judge)
}

/// Bytes changed anywhere in a healthy volume.
pub fn mutated(rng: &mut Rng, largest: usize) -> Made {
    let mut made = volume(rng, largest, Want::default());
    let call = any_call(rng, &made);
    let index = made.geometry.index_sectors() * INDEX_SECTOR;
    for _ in 0..rng.between(1, 4) {
        let bound = if rng.chance(70) {
            index
        } else {
            made.image.len()
        };
        let at = rng.below(bound);
        made.image[at] = rng.telling_bytes(1)[0];
    }
    (made.image, call)
}

/// "sector 05, then 07, kind not 0"
pub fn label_sectors(rng: &mut Rng, largest: usize) -> Made {
    let mut made = volume(rng, largest, Want::default());
    let which = rng.below(3);
    if which != 1 {
        made.image[4 * INDEX_SECTOR] = rng.pick(&[1, 16, 32, 255]);
    }
    if which != 0 {
        made.image[6 * INDEX_SECTOR] = rng.pick(&[1, 16, 32, 255]);
    }
    if rng.chance(30) {
        made.set_vol1(1, b"X");
    }
    (made.image, Call::Judge)
}

/// One field of VOL1, those that are not judged among them.
pub fn vol1_one(rng: &mut Rng, largest: usize) -> Made {
    let mut made = volume(rng, largest, Want::default());
    let position = rng.pick(&VOL1).first;
    made.set_vol1(position, &vol1_value(rng, position));
    (made.image, Call::Judge)
}

/// Two judged fields of VOL1, and now and then a length that is wrong too.
pub fn vol1_two(rng: &mut Rng, largest: usize) -> Made {
    let mut made = volume(rng, largest, Want::default());
    for _ in 0..2 {
        let position = rng.pick(&judged_in(&VOL1));
        made.set_vol1(position, &vol1_value(rng, position));
    }
    if rng.chance(20) {
        made.image.pop();
    }
    (made.image, Call::Judge)
}

/// "VOL1 11 not space", alone and with a later fault.
pub fn vol1_access(rng: &mut Rng, largest: usize) -> Made {
    let mut made = volume(rng, largest, Want::default());
    made.set_vol1(11, &[rng.a_character()]);
    match rng.below(4) {
        0 => made.set_vol1(80, b"2"),
        1 => made.image.truncate(903),
        2 => made.image[0] = 99,
        _ => {}
    }
    (made.image, Call::Judge)
}

/// "a sector's kind not one of its three"
pub fn kinds(rng: &mut Rng, largest: usize) -> Made {
    let mut made = volume(rng, largest, Want::default());
    let geometry = made.geometry;
    let last = geometry.sectors() - 1;
    for _ in 0..rng.between(1, 2) {
        let ordinal = match rng.below(5) {
            0 => 0,
            1 => last,
            2 => geometry.index_sectors(),
            3 => geometry.index_sectors() - 1,
            _ => rng.between(0, last),
        };
        let kind = match rng.below(3) {
            0 => rng.byte(),
            1 => rng.pick(&[0, 1, 2, 3]) + rng.pick(&[0, 16, 32]),
            _ => rng.pick(&[4, 15, 20, 31, 36, 48, 64, 255]),
        };
        made.image[geometry.kind_at(ordinal)] = kind;
    }
    if rng.chance(30) {
        made.set_ermap(1, b"X");
    }
    let call = rng.pick(&[Call::Judge, Call::Listing].each_ref()).clone();
    (made.image, call)
}

/// One field of ERMAP, those that are not judged among them.
pub fn ermap_one(rng: &mut Rng, largest: usize) -> Made {
    let mut made = volume(rng, largest, Want::default());
    let position = rng.pick(&ERMAP).first;
    made.set_ermap(position, &ermap_value(rng, position, &made.geometry));
    (made.image, Call::Judge)
}

pub fn ermap_two(rng: &mut Rng, largest: usize) -> Made {
    let mut made = volume(rng, largest, Want::default());
    for position in [7, 11] {
        made.set_ermap(position, &ermap_value(rng, position, &made.geometry));
    }
    (made.image, Call::Judge)
}

/// Slots check-failed, defective, neither label nor deleted.
pub fn slots(rng: &mut Rng, largest: usize) -> Made {
    let mut made = volume(rng, largest, Want::default());
    for _ in 0..rng.between(1, 2) {
        let slot = rng.between(1, made.geometry.slots());
        let at = Geometry::slot_ordinal(slot) * INDEX_SECTOR;
        match rng.below(7) {
            0 => made.image[at] = 32,
            1 => made.image[at..at + 2].copy_from_slice(&[16, b'F']),
            2 => made.image[at..at + 2].copy_from_slice(&[16, rng.byte()]),
            3 => made.image[at..at + 5].copy_from_slice(b"\x10HDR1"),
            4 => made.image[at..at + 2].copy_from_slice(b"\0D"),
            5 => made.image[at] = 0,
            _ => made.image[at..at + 5].copy_from_slice(b"\0HDR2"),
        }
    }
    let call = label_call(rng, &made);
    (made.image, call)
}

/// A slot with a label: mostly the first file's.
fn some_slot(rng: &mut Rng, made: &Volume) -> usize {
    if !made.others.is_empty() && rng.chance(15) {
        return rng.pick(&made.others);
    }
    rng.pick(&made.files.iter().map(|file| file.slot).collect::<Vec<_>>())
}

fn change_fields(rng: &mut Rng, made: &mut Volume, slot: usize, positions: &[usize]) {
    for &position in positions {
        let value = hdr1_value(rng, made, slot, position);
        made.set(slot, position, &value);
    }
}

/// One field of a label but 1-4, those that are not judged among them.
pub fn hdr1_one(rng: &mut Rng, largest: usize) -> Made {
    let mut made = volume(rng, largest, Want::default());
    let slot = some_slot(rng, &made);
    let position = rng.pick(&HDR1[1..]).first;
    // A legal value is drawn again a few times, so that most are broken.
    for _ in 0..rng.between(1, 5) {
        change_fields(rng, &mut made, slot, &[position]);
        if judge(&made.image).is_err() {
            break;
        }
    }
    let call = label_call(rng, &made);
    (made.image, call)
}

pub fn hdr1_two(rng: &mut Rng, largest: usize) -> Made {
    let mut made = volume(rng, largest, Want::default());
    let slot = some_slot(rng, &made);
    let judged = named_by_10();
    let positions = [rng.pick(&judged), rng.pick(&judged)];
    change_fields(rng, &mut made, slot, &positions);
    let call = label_call(rng, &made);
    (made.image, call)
}

/// Pairs where one field's rule reads the other.
pub fn hdr1_reading_pairs(rng: &mut Rng, largest: usize) -> Made {
    let mut made = volume(rng, largest, Want::default());
    let slot = some_slot(rng, &made);
    let (reader, read) = rng.pick(&READING_PAIRS);
    change_fields(rng, &mut made, slot, &[reader, read]);
    if rng.chance(20) {
        let third = rng.pick(&named_by_10());
        change_fields(rng, &mut made, slot, &[third]);
    }
    (made.image, Call::Judge)
}

/// Level, format, B, R, U and blocking drawn freely together.
pub fn hdr1_free_shape(rng: &mut Rng, largest: usize) -> Made {
    let mut made = volume(rng, largest, Want::default());
    let slot = made.main().slot;
    let fields = [44, 40, 23, 54, 58, 63];
    let count = rng.between(2, fields.len());
    let mut chosen = fields;
    rng.shuffle(&mut chosen);
    change_fields(rng, &mut made, slot, &chosen[..count]);
    (made.image, Call::Judge)
}

/// The pairs of the readings on suspended parts, one by one.
pub fn hdr1_suspended(rng: &mut Rng, largest: usize) -> Made {
    const SCRIPTS: [&[(usize, &str)]; 16] = [
        &[(44, "1"), (40, "V"), (23, "00003")],
        &[(44, " "), (40, "S"), (23, "00004")],
        &[(44, "1"), (40, "S"), (23, "10240")],
        &[(44, "2"), (40, "S"), (63, " "), (58, "00001")],
        &[(44, " "), (40, "F"), (63, "B"), (58, "00010")],
        &[(44, "2"), (40, "X"), (23, "00000")],
        &[(44, "2"), (40, "F"), (23, "00030"), (54, "0007"), (63, "X")],
        &[(44, "2"), (40, "F"), (23, "00030"), (54, "0031"), (63, "X")],
        &[
            (44, "2"),
            (40, "F"),
            (23, "00030"),
            (54, "0010"),
            (63, "X"),
            (58, "00010"),
        ],
        &[(44, "2"), (40, "V"), (23, "00030"), (54, "0003"), (63, "X")],
        &[(44, "@"), (6, "LONG NAME FOR ONE")],
        &[(44, "@"), (40, "V"), (23, "00003")],
        &[(44, "@"), (40, "S"), (23, "00030")],
        &[(44, "#"), (23, "00256"), (40, "F")],
        &[(44, "1"), (6, "LONG NAME FOR ONE")],
        &[(44, "2"), (40, "V"), (23, "10000"), (29, "00000")],
    ];
    let mut made = volume(rng, largest, Want::default());
    let slot = made.main().slot;
    for &(position, value) in rng.pick(&SCRIPTS) {
        made.set(slot, position, value.as_bytes());
    }
    (made.image, Call::Judge)
}

/// Faults of 8, 9, 10 in two slots: "slots checked one by one".
pub fn two_slots(rng: &mut Rng, largest: usize) -> Made {
    let mut made = volume(rng, largest, Want::default());
    let (first, second) = (some_slot(rng, &made), some_slot(rng, &made));
    let position = rng.pick(&named_by_10());
    change_fields(rng, &mut made, first, &[position]);
    match rng.below(3) {
        0 => made.set(second, 1, b"HDR2"),
        1 => made.image[Geometry::slot_ordinal(second) * INDEX_SECTOR] = 32,
        _ => change_fields(rng, &mut made, second, &[29]),
    }
    (made.image, Call::Listing)
}

/// Puts a copy of the first file's label into a deleted slot.
fn double_label(rng: &mut Rng, made: &mut Volume) -> Option<usize> {
    if made.deleted.is_empty() {
        return None;
    }
    let slot = rng.pick(&made.deleted);
    let copy = made.label(made.files[0].slot).to_vec();
    made.label(slot).copy_from_slice(&copy);
    made.image[Geometry::slot_ordinal(slot) * INDEX_SECTOR] = 0;
    Some(slot)
}

/// "extent shares a record with a lower slot's", by one record too.
pub fn clashes(rng: &mut Rng, largest: usize) -> Made {
    let mut made = volume(rng, largest, Want::default());
    let records = made.geometry.data_records();
    for _ in 0..rng.between(1, 2) {
        let Some(slot) = double_label(rng, &mut made) else {
            break;
        };
        let file = made.main().clone();
        let (start, end) = match rng.below(5) {
            0 => (file.end, records - 1),
            1 => (file.start, file.start),
            2 => (0, file.start),
            3 => (rng.below(records), records - 1),
            _ => (file.start, file.end),
        };
        made.set(slot, 6, format!("K{slot:02}").as_bytes());
        made.set(slot, 29, &made.digits(start));
        made.set(slot, 35, &made.digits(end));
        made.set(slot, 75, &made.digits(start));
        made.set(slot, 58, b"     ");
        if rng.chance(25) {
            made.set(slot, 44, b"7");
        }
    }
    let call = label_call(rng, &made);
    (made.image, call)
}

/// "name of a lower slot (levels space, 1, 2)", with extents apart.
pub fn names(rng: &mut Rng, largest: usize) -> Made {
    let mut made = volume(rng, largest, Want::default());
    let name = if rng.chance(30) {
        [b' '; 17]
    } else {
        made.main().name
    };
    let labels: Vec<usize> = made.files.iter().map(|file| file.slot).collect();
    for &slot in labels.iter().chain(&made.others.clone()) {
        if rng.chance(60) {
            made.set(slot, 6, &name);
        }
        if rng.chance(10) {
            made.set(slot, 44, b"9");
        }
    }
    let call = label_call(rng, &made);
    (made.image, call)
}

/// Block lengths around 9,999 where the size allows.
pub fn long_blocks(rng: &mut Rng, largest: usize) -> Made {
    let (d, k) = rng.pick(&[(10, 3), (13, 3), (20, 2), (26, 2)]);
    let geometry = plain_geometry(1, 8, d, k, 1);
    if geometry.image_length() > largest {
        return hdr1_free_shape(rng, largest);
    }
    let want = Want {
        level: Some(b'2'),
        ..Want::default()
    };
    let mut made = volume_of(rng, geometry, want);
    let slot = made.main().slot;
    let length = rng.pick(&[b"09728", b"09216", b"09999", b"10000", b"10240", b"10752"]);
    made.set(slot, 23, length);
    made.set(slot, 54, b"    ");
    made.set(slot, 58, b"     ");
    let call = label_call(rng, &made);
    (made.image, call)
}
