//! Files of a volume under construction: label, records, blocks.

use super::build::Volume;
use super::pack::{body, pack, pack_loosely, Packed, Shape};
use super::positions::{draw_label, of_another_level, HDR1};
use super::rng::Rng;
use crate::layout::Geometry;
use crate::text::address_digits;

/// Traits asked of a volume's first file.
#[derive(Clone, Copy, Debug, Default)]
pub struct Want {
    /// `F`, `V` or `S`.
    pub format: Option<u8>,
    pub blocked: Option<bool>,
    pub level: Option<u8>,
    /// At least one record packed, if a whole block fits.
    pub full: bool,
}

impl Want {
    pub fn format(format: u8) -> Want {
        Want {
            format: Some(format),
            full: true,
            ..Want::default()
        }
    }

    pub fn filled() -> Want {
        Want {
            full: true,
            ..Want::default()
        }
    }
}

/// A file and the maker's own account of what it holds.
#[derive(Clone, Debug)]
pub struct FilePlan {
    pub slot: usize,
    pub name: [u8; 17],
    pub level: u8,
    pub shape: Shape,
    pub m: usize,
    pub start: usize,
    pub end: usize,
    /// Good records of the extent, in order.
    pub good: Vec<usize>,
    pub packed: Packed,
    pub u: usize,
    pub data_end: usize,
}

impl FilePlan {
    /// The data records of one block.
    pub fn block_records(&self, block: usize) -> &[usize] {
        &self.good[block * self.m..(block + 1) * self.m]
    }

    pub fn blocks(&self) -> usize {
        self.packed.blocks.len()
    }

    pub fn content(&self, block: usize) -> usize {
        let last = block + 1 == self.blocks();
        self.shape.b - if last { self.u } else { 0 }
    }

    /// Where a byte of a block stands in the image.
    pub fn byte_at(&self, geometry: &Geometry, block: usize, offset: usize) -> usize {
        let record = self.block_records(block)[offset / geometry.p()];
        geometry.kind_at(geometry.record_ordinal(record)) + 1 + offset % geometry.p()
    }
}

/// Adds a file of level space, 1 or 2 in a slot.
pub fn plan_file(
    rng: &mut Rng,
    volume: &mut Volume,
    slot: usize,
    extent: (usize, usize),
    want: Want,
) {
    let good = good_records(volume, extent);
    let (level, mut shape) = draw_shape(rng, &volume.geometry, &good, want);
    let m = (shape.b / volume.geometry.p()).max(1);
    shape.capacity = good.len() / m;
    let packed = draw_contents(rng, &shape, want);
    let u = draw_unused(rng, &shape, &packed);
    let data_end = draw_data_end(rng, volume, extent, &good, packed.blocks.len() * m, m);
    let file = FilePlan {
        slot,
        name: draw_name(rng, volume, slot, level),
        level,
        shape,
        m,
        start: extent.0,
        end: extent.1,
        good,
        packed,
        u,
        data_end,
    };
    lay(volume, &file);
    write_label(rng, volume, &file);
    volume.files.push(file);
}

fn good_records(volume: &Volume, extent: (usize, usize)) -> Vec<usize> {
    let geometry = &volume.geometry;
    (extent.0..=extent.1)
        .filter(|&record| {
            let at = geometry.kind_at(geometry.record_ordinal(record));
            volume.image[at] < 16
        })
        .collect()
}

fn draw_shape(rng: &mut Rng, geometry: &Geometry, good: &[usize], want: Want) -> (u8, Shape) {
    let format = want.format.unwrap_or_else(|| rng.pick(b"FFVS"));
    let blocked = match format {
        b'S' => true,
        _ => want.blocked.unwrap_or_else(|| rng.chance(50)),
    };
    let level = want.level.unwrap_or_else(|| match (format, blocked) {
        (b'F', false) => rng.pick(b" 12"),
        (b'F', true) => rng.pick(b"12"),
        _ => b'2',
    });
    let b = draw_block_length(rng, geometry, good.len(), format, level);
    let r = draw_record_length(rng, format, blocked, b);
    let shape = Shape {
        format,
        blocked,
        b,
        r,
        capacity: 0,
    };
    (level, shape)
}

/// B below P, equal to P, or a multiple of P.
fn draw_block_length(
    rng: &mut Rng,
    geometry: &Geometry,
    good: usize,
    format: u8,
    level: u8,
) -> usize {
    let p = geometry.p();
    let least = match format {
        b'V' => 4,
        b'S' => 5,
        _ => 1,
    };
    let most = if format == b'F' { usize::MAX } else { 9_999 };
    let multiple = rng.between(1, geometry.d.min(good.max(1))) * p;
    match rng.below(10) {
        0 => least,
        1 => rng.between(least, least + 8),
        2 => p,
        3 => p - 1,
        4 | 5 if level != b' ' && multiple <= most => multiple,
        6 | 7 if level != b' ' && geometry.d > 1 && good > 1 => 2 * p,
        8 => rng.between(least, p),
        _ => rng.between(least, 60),
    }
}

fn draw_record_length(rng: &mut Rng, format: u8, blocked: bool, b: usize) -> usize {
    match (format, blocked) {
        (b'V', _) => match rng.below(3) {
            0 => b,
            1 => rng.between(4, b),
            _ => rng.between(4, b.min(20)),
        },
        (b'S', _) => match rng.below(4) {
            0 => 0,
            1 => b,
            2 => rng.between(1, 3 * b).min(9_999),
            _ => rng.between(1, 40),
        },
        (_, false) => b,
        (_, true) => {
            let divisors: Vec<usize> = (1..=b).filter(|r| b.is_multiple_of(*r)).collect();
            rng.pick(&divisors)
        }
    }
}

fn draw_contents(rng: &mut Rng, shape: &Shape, want: Want) -> Packed {
    let per_block = match shape.format {
        b'F' => shape.b / shape.r,
        b'V' if !shape.blocked => 1,
        _ => 4,
    };
    let most = shape.capacity * per_block + 1;
    let count = match rng.below(6) {
        0 if !want.full => 0,
        1 => most,
        2 => per_block,
        _ => rng.between(1, most),
    };
    let bodies: Vec<Vec<u8>> = (0..count.min(400)).map(|_| body(rng, shape)).collect();
    if shape.format != b'F' && rng.chance(35) {
        pack_loosely(rng, shape, &bodies)
    } else {
        pack(shape, &bodies)
    }
}

/// U up to what the last block leaves; F and unblocked files have no choice.
fn draw_unused(rng: &mut Rng, shape: &Shape, packed: &Packed) -> usize {
    let Some(last) = packed.blocks.last() else {
        return 0;
    };
    let left = shape.b - last.len();
    match (shape.format, shape.blocked) {
        (_, false) => 0,
        (b'F', true) => left,
        _ if rng.chance(70) => left.min(shape.b - 1),
        _ => rng.between(0, left.min(shape.b - 1)),
    }
}

/// Any data end that gives the number of used good records.
fn draw_data_end(
    rng: &mut Rng,
    volume: &Volume,
    extent: (usize, usize),
    good: &[usize],
    used: usize,
    m: usize,
) -> usize {
    let least = match used {
        0 => extent.0,
        _ => good[used - 1] + 1,
    };
    let most = good.get(used).copied().unwrap_or(extent.1 + 1);
    let beyond = good.len() / m * m == used;
    match rng.below(5) {
        0 => rng.between(least, most),
        1 => least,
        2 if beyond => rng.between(extent.1 + 1, volume.geometry.data_records()),
        3 | 4 if beyond && used > 0 => extent.1 + 1,
        _ => most,
    }
}

fn draw_name(rng: &mut Rng, volume: &Volume, slot: usize, level: u8) -> [u8; 17] {
    let mut name = [b' '; 17];
    let blank_taken = volume.files.iter().any(|file| file.name == name);
    if !blank_taken && rng.chance(5) {
        return name;
    }
    let length = rng.between(2, if level == b'2' { 17 } else { 8 });
    for place in name.iter_mut().take(length) {
        *place = rng.a_character();
    }
    // The slot's number keeps names apart.
    name[0] = b'A' + (slot % 26) as u8;
    name[1] = b'0' + (slot / 26) as u8;
    name
}

/// Puts the blocks into the good records, 00 behind them.
pub fn lay(volume: &mut Volume, file: &FilePlan) {
    let geometry = volume.geometry;
    for (number, block) in file.packed.blocks.iter().enumerate() {
        let mut bytes = block.clone();
        bytes.resize(file.m * geometry.p(), 0);
        for (part, &record) in bytes.chunks(geometry.p()).zip(file.block_records(number)) {
            let at = geometry.kind_at(geometry.record_ordinal(record));
            volume.image[at] = geometry.k;
            volume.image[at + 1..at + 1 + geometry.p()].copy_from_slice(part);
        }
    }
}

/// The 29 bytes "of label fields 6-22, 23-27, 40, 44, 54-57, 63" of a file
/// that may stand on a volume, all its records good.
pub fn draw_fields(rng: &mut Rng, geometry: &Geometry) -> Vec<u8> {
    let good: Vec<usize> = (0..geometry.data_records().min(30)).collect();
    let (level, shape) = draw_shape(rng, geometry, &good, Want::default());
    let mut name = [b' '; 17];
    let length = rng.between(1, if level == b'2' { 17 } else { 8 });
    for place in name.iter_mut().take(length) {
        *place = rng.a_character();
    }
    let record = record_length(rng, &shape);
    let mut fields = [&name[..], format!("{:05}", shape.b).as_bytes()].concat();
    fields.extend([label_format(rng, shape.format), level]);
    fields.extend(record.bytes());
    fields.push(if shape.blocked { b'B' } else { b' ' });
    fields
}

fn date(rng: &mut Rng) -> String {
    match rng.below(3) {
        0 => "      ".to_string(),
        _ => format!(
            "{:02}{:02}{:02}",
            rng.below(100),
            rng.between(1, 12),
            rng.between(1, 31)
        ),
    }
}

fn generation(rng: &mut Rng) -> String {
    match rng.below(2) {
        0 => "  ".to_string(),
        _ => format!("{:02}", rng.between(1, 99)),
    }
}

/// 67-72: "the same, or 999999".
fn expiry(rng: &mut Rng) -> String {
    match rng.below(3) {
        0 => "999999".to_string(),
        _ => date(rng),
    }
}

/// 58-62: "spaces meaning 0".
fn unused(rng: &mut Rng, u: usize) -> String {
    match (u, rng.chance(50)) {
        (0, true) => "     ".to_string(),
        (u, _) => format!("{u:05}"),
    }
}

/// 54-57: "spaces mean R = B".
fn record_length(rng: &mut Rng, shape: &Shape) -> String {
    match shape.r == shape.b && (shape.r > 9_999 || rng.chance(50)) {
        true => "    ".to_string(),
        false => format!("{:04}", shape.r),
    }
}

fn label_format(rng: &mut Rng, format: u8) -> u8 {
    match format {
        b'F' => rng.pick(b" F"),
        other => other,
    }
}

/// Puts a label into a slot.
fn put_label(volume: &mut Volume, slot: usize, label: &[u8]) {
    Geometry::set_index_kind(&mut volume.image, Geometry::slot_ordinal(slot), 0);
    volume.label(slot).copy_from_slice(label);
}

fn write_label(rng: &mut Rng, volume: &mut Volume, file: &FilePlan) {
    let geometry = volume.geometry;
    let label = draw_label(rng, &HDR1, |rng, field| {
        value(rng, &geometry, file, field.first)
    });
    put_label(volume, file.slot, &label);
}

/// A legal value of a judged field of a file's label.
fn value(rng: &mut Rng, geometry: &Geometry, file: &FilePlan, position: usize) -> Vec<u8> {
    let digits = |record: usize| address_digits(record, geometry).to_vec();
    match position {
        1 => b"HDR1".to_vec(),
        6 => file.name.to_vec(),
        23 => format!("{:05}", file.shape.b).into_bytes(),
        29 => digits(file.start),
        35 => digits(file.end),
        40 => vec![label_format(rng, file.shape.format)],
        41 => vec![rng.pick(b" B")],
        44 => vec![file.level],
        46 => generation(rng).into_bytes(),
        48 => date(rng).into_bytes(),
        54 => record_length(rng, &file.shape).into_bytes(),
        58 => unused(rng, file.u).into_bytes(),
        63 => vec![if file.shape.blocked { b'B' } else { b' ' }],
        64 => vec![rng.pick(b" S")],
        67 => expiry(rng).into_bytes(),
        73 => vec![rng.a_character()],
        75 => digits(file.data_end),
        // 42, 43 and 45: what refuses a reading or a write is put in later.
        _ => b" ".to_vec(),
    }
}

/// A label of another level: any bytes but for what is judged.
pub fn other_label(rng: &mut Rng, volume: &mut Volume, slot: usize, extent: (usize, usize)) {
    let (start, end) = (volume.digits(extent.0), volume.digits(extent.1));
    let label = draw_label(rng, &of_another_level(), |rng, field| match field.first {
        1 => b"HDR1".to_vec(),
        29 => start.to_vec(),
        35 => end.to_vec(),
        _ => vec![rng.pick(b"034589AFVZ!_\"%>")],
    });
    put_label(volume, slot, &label);
    volume.others.push(slot);
}
