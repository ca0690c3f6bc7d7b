//! Values for the fields of labels: broken ones, legal ones at bounds, and any
//! bytes where no rule judges them.

use super::build::Volume;
use super::positions::{field_at, Field, ERMAP, HDR1, VOL1};
use super::rng::Rng;
use crate::layout::Geometry;

/// Pairs of fields, the first of which reads the second.
pub const READING_PAIRS: [(usize, usize); 18] = [
    (6, 44),
    (23, 40),
    (23, 44),
    (40, 44),
    (54, 63),
    (58, 63),
    (63, 40),
    (63, 44),
    (54, 23),
    (54, 40),
    (54, 44),
    (58, 23),
    (58, 40),
    (58, 54),
    (35, 29),
    (75, 29),
    (29, 44),
    (75, 35),
];

fn text(rng: &mut Rng, values: &[&str]) -> Vec<u8> {
    rng.pick(values).as_bytes().to_vec()
}

/// Letters of the a-set with one byte put outside it.
fn letters_with_one_outside(rng: &mut Rng, length: usize) -> Vec<u8> {
    let mut bytes = rng.a_characters(length);
    bytes[rng.below(length)] = rng.outside_a_set();
    bytes
}

/// A word with one byte changed.
fn misspelt(rng: &mut Rng, word: &[u8]) -> Vec<u8> {
    let mut bytes = word.to_vec();
    let place = rng.below(word.len());
    bytes[place] = bytes[place].wrapping_add(rng.between(1, 255) as u8);
    bytes
}

/// A value of a field that no rule judges.
fn any_bytes(rng: &mut Rng, fields: &[Field], position: usize) -> Vec<u8> {
    let length = field_at(fields, position).map_or(0, Field::length);
    rng.telling_bytes(length)
}

/// A broken value of a VOL1 field, now and then a legal one.
pub fn vol1_value(rng: &mut Rng, position: usize) -> Vec<u8> {
    match position {
        1 => misspelt(rng, b"VOL1"),
        5 => letters_with_one_outside(rng, 6),
        11 => vec![rng.outside_a_set()],
        38 => letters_with_one_outside(rng, 14),
        72 => text(rng, &["B", " ", "a", "\0"]),
        76 => text(rng, &["0", "4", "9", "A", "\0", "\u{1}"]),
        77 => text(
            rng,
            &["00", "14", " 1", "1 ", "1A", "99", "13", "01", "0\0"],
        ),
        80 => text(rng, &["1", "2", "4", " ", "\u{3}"]),
        81 => text(rng, &["00", "61", "FF", "0a", "5g", "  ", " 1", "G0", "60"]),
        83 => text(rng, &["07", "00", "1B", "FF", "1a", "  ", "08", "1A"]),
        85 => text(rng, &["00", "1B", "FF", "1a", " 1", "1A", "01"]),
        89 => text(rng, &["0", "3", "F", "A", "a", " ", "\0"]),
        _ => any_bytes(rng, &VOL1, position),
    }
}

/// A value of an ERMAP field, broken or at a bound.
pub fn ermap_value(rng: &mut Rng, position: usize, geometry: &Geometry) -> Vec<u8> {
    match position {
        1 => misspelt(rng, b"ERMAP"),
        7 | 11 => cylinder_value(rng, geometry),
        _ => any_bytes(rng, &ERMAP, position),
    }
}

/// A defective cylinder or what is nearly one.
fn cylinder_value(rng: &mut Rng, geometry: &Geometry) -> Vec<u8> {
    let near = [
        0,
        1,
        geometry.l - 1,
        geometry.l,
        geometry.l + 1,
        geometry.l + 2,
    ];
    let d1 = geometry.d1.unwrap_or(1);
    let cylinder = match rng.below(3) {
        0 => rng.pick(&near),
        1 => rng.pick(&[d1 - 1, d1, d1 + 1]),
        _ => rng.between(0, 99),
    };
    match rng.below(8) {
        0 => format!("{cylinder:02}1").into_bytes(),
        1 => format!("{cylinder:02} ").into_bytes(),
        2 => text(
            rng,
            &["   ", " 10", "1 0", "0A0", "  0", "000", "A00", "\0\0\0"],
        ),
        _ => format!("{cylinder:02}0").into_bytes(),
    }
}

/// Five digits of an address or of what is nearly one.
fn address_value(rng: &mut Rng, volume: &Volume) -> Vec<u8> {
    let g = volume.geometry;
    let (l, s, d) = (g.l, g.s, g.d);
    let cylinder = rng.pick(&[0, 1, 1, 1, l, l, l + 1]);
    let side = rng.pick(&[0, 0, s - 1, s - 1, s]);
    let sector = rng.pick(&[0, 1, 1, d, d, d + 1, rng.clone().between(1, d)]);
    match rng.below(6) {
        0 => text(
            rng,
            &["     ", "01 01", "0100A", "\0\0\0\0\0", "99999", "00000"],
        ),
        1 => volume.digits(g.data_records()).to_vec(),
        2 => format!("{cylinder:02}{side}{sector:02}").into_bytes(),
        _ => volume.digits(rng.below(g.data_records())).to_vec(),
    }
}

/// An address next to the file's own.
fn near_address(rng: &mut Rng, volume: &Volume, slot: usize) -> Vec<u8> {
    let file = volume.files.iter().find(|file| file.slot == slot);
    let (Some(file), true) = (file, rng.chance(60)) else {
        return address_value(rng, volume);
    };
    let record = rng.pick(&[file.start, file.end, file.data_end]) + rng.below(3);
    let record = record.saturating_sub(1).min(volume.geometry.data_records());
    volume.digits(record).to_vec()
}

fn block_length_value(rng: &mut Rng, geometry: &Geometry) -> Vec<u8> {
    let (p, d) = (geometry.p(), geometry.d);
    let near = [p - 1, p, p + 1, 2 * p, 3 * p, d * p, d * p + 1, (d + 1) * p];
    let value = match rng.below(4) {
        0 => rng.pick(&[0, 1, 2, 3, 4, 5, 6]),
        1 => rng.pick(&near),
        2 => rng.pick(&[9_999, 10_000, 10_240, 9_984, 9_728, 99_999]),
        _ => return text(rng, &["     ", "0012A", " 0100", "00\x0010", "00030"]),
    };
    format!("{value:05}").into_bytes()
}

fn record_length_value(rng: &mut Rng, b: usize) -> Vec<u8> {
    let value = match rng.below(5) {
        0 => rng.pick(&[0, 1, 2, 3, 4, 5, 7]),
        1 => rng.pick(&[b, b + 1, b.saturating_sub(1), b / 2, b / 3]),
        2 => rng.between(0, b),
        3 => 9_999,
        _ => return text(rng, &["    ", "   1", " 100", "1   ", "00A1", "\x00001"]),
    };
    format!("{:04}", value.min(9_999)).into_bytes()
}

fn unused_value(rng: &mut Rng, b: usize, r: usize) -> Vec<u8> {
    let value = match rng.below(5) {
        0 => rng.pick(&[0, 1, 2, 3]),
        1 => rng.pick(&[b, b + 1, b.saturating_sub(1)]),
        2 => rng.pick(&[r, 2 * r, r + 1, b.saturating_sub(r)]),
        3 => rng.between(0, b),
        _ => return text(rng, &["     ", "00000", "    1", "0000A", "99999", "0 000"]),
    };
    format!("{:05}", value.min(99_999)).into_bytes()
}

fn date_value(rng: &mut Rng) -> Vec<u8> {
    text(
        rng,
        &[
            "      ",
            "000101",
            "991231",
            "990001",
            "991301",
            "990132",
            "990100",
            "999999",
            "999998",
            "99 101",
            "96022 ",
            "9A0101",
            "960230",
            "\x0090101",
            "99\x00123",
        ],
    )
}

/// A name with a byte outside the a-set, or long, or blank.
fn name_value(rng: &mut Rng) -> Vec<u8> {
    match rng.below(4) {
        0 => vec![b' '; 17],
        1 => {
            let mut name = vec![b' '; 17];
            name[0] = b'N';
            name[rng.between(7, 16)] = b'X';
            name
        }
        _ => letters_with_one_outside(rng, 17),
    }
}

/// A value of an HDR1 field, broken or at a bound.
pub fn hdr1_value(rng: &mut Rng, volume: &Volume, slot: usize, position: usize) -> Vec<u8> {
    let file = volume.files.iter().find(|file| file.slot == slot);
    let (b, r) = file.map_or((30, 10), |file| (file.shape.b, file.shape.r));
    match position {
        6 => name_value(rng),
        23 => block_length_value(rng, &volume.geometry),
        29 | 35 | 75 => near_address(rng, volume, slot),
        40 => text(rng, &["V", "S", "F", " ", "X", "f", "\0", "U"]),
        41 => text(rng, &["B", " ", "X", "\0", "b"]),
        42 | 73 => vec![if rng.chance(70) {
            rng.outside_a_set()
        } else {
            b'X'
        }],
        43 => text(rng, &["P", " ", "X", "\0"]),
        44 if rng.chance(50) => vec![rng.outside_a_set()],
        44 => text(rng, &[" ", "1", "2", "3", "0", "Z", "_"]),
        45 => text(rng, &["C", "L", " ", "X", "\0"]),
        46 => text(rng, &["  ", "00", "01", "99", " 1", "1 ", "0A", "\x001"]),
        48 | 67 => date_value(rng),
        54 => record_length_value(rng, b),
        58 => unused_value(rng, b, r),
        63 => text(rng, &["B", " ", "X", "b", "\0"]),
        64 => text(rng, &["S", " ", "X", "\0"]),
        _ => any_bytes(rng, &HDR1, position),
    }
}
