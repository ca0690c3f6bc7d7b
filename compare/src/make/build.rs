//! Healthy volumes of every geometry.

use super::file::{other_label, plan_file, FilePlan, Want};
use super::positions::{draw_label, ERMAP, VOL1};
use super::rng::Rng;
use crate::layout::{Geometry, INDEX_SECTOR};
use crate::text::address_digits;

/// A volume with what is known of it.
#[derive(Clone, Debug)]
pub struct Volume {
    pub geometry: Geometry,
    pub image: Vec<u8>,
    /// Files of levels space, 1 and 2; the first is the one asked for.
    pub files: Vec<FilePlan>,
    /// Slots with labels of another level.
    pub others: Vec<usize>,
    /// Deleted slots.
    pub deleted: Vec<usize>,
}

impl Volume {
    pub fn main(&self) -> &FilePlan {
        &self.files[0]
    }

    /// The label in a slot, to be changed.
    pub fn label(&mut self, slot: usize) -> &mut [u8] {
        Geometry::index_body_mut(&mut self.image, Geometry::slot_ordinal(slot))
    }

    /// Sets positions of the label in a slot, counted from 1.
    pub fn set(&mut self, slot: usize, position: usize, bytes: &[u8]) {
        self.label(slot)[position - 1..position - 1 + bytes.len()].copy_from_slice(bytes);
    }

    /// Sets positions of VOL1.
    pub fn set_vol1(&mut self, position: usize, bytes: &[u8]) {
        let at = 6 * INDEX_SECTOR + position;
        self.image[at..at + bytes.len()].copy_from_slice(bytes);
    }

    /// Sets positions of ERMAP.
    pub fn set_ermap(&mut self, position: usize, bytes: &[u8]) {
        let at = 4 * INDEX_SECTOR + position;
        self.image[at..at + bytes.len()].copy_from_slice(bytes);
    }

    pub fn digits(&self, record: usize) -> [u8; 5] {
        address_digits(record, &self.geometry)
    }
}

/// The smallest legal image.
pub const LEAST: usize = 1_548;

/// A geometry whose image has at most `largest` bytes.
pub fn geometry(rng: &mut Rng, largest: usize) -> Geometry {
    let wide = rng.chance(10);
    for _ in 0..60 {
        let geometry = if wide {
            draw_geometry(rng, 96, 26, 26)
        } else {
            draw_geometry(rng, 4, 12, 10)
        };
        let usual = if wide { largest } else { largest.min(12_000) };
        if geometry.image_length() <= usual {
            return with_defects(rng, geometry);
        }
    }
    with_defects(rng, plain_geometry(1, 8, 1, 0, 1))
}

fn draw_geometry(rng: &mut Rng, most_l: usize, most_i: usize, most_d: usize) -> Geometry {
    plain_geometry(
        rng.between(1, most_l),
        rng.between(8, most_i),
        rng.between(1, most_d),
        rng.pick(&[0, 0, 0, 1, 1, 2, 3]),
        rng.between(1, 2),
    )
}

pub fn plain_geometry(l: usize, i: usize, d: usize, k: u8, s: usize) -> Geometry {
    Geometry {
        l,
        i,
        d,
        k,
        s,
        d1: None,
        d2: None,
    }
}

/// d1 and d2 absent, one or both, now and then at their bounds.
pub fn with_defects(rng: &mut Rng, mut geometry: Geometry) -> Geometry {
    let l = geometry.l;
    if rng.chance(40) {
        return geometry;
    }
    let d1 = if rng.chance(30) { l } else { rng.between(1, l) };
    geometry.d1 = Some(d1);
    if rng.chance(60) {
        let last = rng.chance(30);
        geometry.d2 = Some(if last {
            l + 1
        } else {
            rng.between(d1 + 1, l + 1)
        });
    }
    geometry
}

/// What stands in a judged field of VOL1 where the geometry leaves no choice.
pub fn vol1_of(geometry: &Geometry, position: usize) -> Option<Vec<u8>> {
    let hex = |number: usize| format!("{number:02X}").into_bytes();
    Some(match position {
        1 => b"VOL1".to_vec(),
        72 => b"A".to_vec(),
        76 => vec![b" 123"[geometry.k as usize]],
        80 => b"3".to_vec(),
        81 => hex(geometry.l),
        83 => hex(geometry.i),
        85 => hex(geometry.d),
        89 => vec![b'0' + geometry.s as u8],
        _ => return None,
    })
}

/// What stands in a judged field of ERMAP.
pub fn ermap_of(geometry: &Geometry, position: usize) -> Option<Vec<u8>> {
    let cylinder = match position {
        1 => return Some(b"ERMAP".to_vec()),
        7 => geometry.d1,
        _ => geometry.d2,
    };
    cylinder.map(|cylinder| format!("{cylinder:02}0").into_bytes())
}

fn vol1(rng: &mut Rng, geometry: &Geometry) -> Vec<u8> {
    draw_label(rng, &VOL1, |rng, field| match field.first {
        5 | 38 => rng.a_characters(field.length()),
        77 if rng.below(3) > 0 => format!("{:02}", rng.between(1, 13)).into_bytes(),
        // 11 is a space, and 77-78 now and then.
        position => vol1_of(geometry, position).unwrap_or_else(|| field.spaces()),
    })
}

fn ermap(rng: &mut Rng, geometry: &Geometry) -> Vec<u8> {
    draw_label(rng, &ERMAP, |_, field| {
        ermap_of(geometry, field.first).unwrap_or_else(|| field.spaces())
    })
}

/// All sectors with legal kinds, VOL1 and ERMAP, every slot deleted. Data
/// records have the valid mark; other cylinders any.
pub fn blank(rng: &mut Rng, geometry: &Geometry) -> Vec<u8> {
    let mut image = vec![0; geometry.image_length()];
    for ordinal in 0..geometry.sectors() {
        let at = geometry.kind_at(ordinal);
        let index = ordinal < geometry.index_sectors();
        let k = if index { 0 } else { geometry.k };
        image[at] = k + rng.pick(&[0, 0, 0, 0, 16, 32]);
        let length = if index { 128 } else { geometry.p() };
        if rng.chance(30) {
            let body = rng.telling_bytes(length);
            image[at + 1..at + 1 + length].copy_from_slice(&body);
        }
    }
    for record in 0..geometry.data_records() {
        image[geometry.kind_at(geometry.record_ordinal(record))] = geometry.k;
    }
    for (ordinal, label) in [(4, ermap(rng, geometry)), (6, vol1(rng, geometry))] {
        image[ordinal * INDEX_SECTOR] = 0;
        Geometry::index_body_mut(&mut image, ordinal).copy_from_slice(&label);
    }
    for slot in 1..=geometry.slots() {
        let ordinal = Geometry::slot_ordinal(slot);
        image[ordinal * INDEX_SECTOR] = 16;
        Geometry::index_body_mut(&mut image, ordinal)[0] = b'D';
    }
    image
}

/// Defective records anywhere among the data, other incorrect marks nowhere.
fn sprinkle_defects(rng: &mut Rng, volume: &mut Volume) {
    let percent = rng.pick(&[0, 0, 5, 15, 40]);
    let geometry = volume.geometry;
    for record in 0..geometry.data_records() {
        if rng.chance(percent) {
            let at = geometry.kind_at(geometry.record_ordinal(record));
            volume.image[at] = 16 + geometry.k;
            volume.image[at + 1] = b'F';
        }
    }
}

/// A healthy volume whose first file has the wanted traits.
pub fn volume(rng: &mut Rng, largest: usize, want: Want) -> Volume {
    let mut chosen = geometry(rng, largest);
    // A file that is to hold something has room for a few blocks.
    for _ in 0..6 {
        if !want.full || chosen.data_records() >= 12 {
            break;
        }
        chosen = geometry(rng, largest);
    }
    volume_of(rng, chosen, want)
}

/// A healthy volume of a geometry.
pub fn volume_of(rng: &mut Rng, geometry: Geometry, want: Want) -> Volume {
    let mut volume = Volume {
        geometry,
        image: blank(rng, &geometry),
        files: Vec::new(),
        others: Vec::new(),
        deleted: Vec::new(),
    };
    sprinkle_defects(rng, &mut volume);
    let mut slots: Vec<usize> = (1..=geometry.slots()).collect();
    rng.shuffle(&mut slots);
    let most = match rng.below(10) {
        0 => slots.len(),
        _ if want.full => 2,
        _ => 5,
    };
    let extents = extents(rng, &geometry, most.min(slots.len()));
    for (place, (&slot, &extent)) in slots.iter().zip(&extents).enumerate() {
        if place == 0 {
            plan_file(rng, &mut volume, slot, extent, want);
        } else if rng.chance(20) {
            other_label(rng, &mut volume, slot, extent);
        } else {
            plan_file(rng, &mut volume, slot, extent, Want::default());
        }
    }
    volume.deleted = slots[extents.len()..].to_vec();
    volume.deleted.sort_unstable();
    volume
}

/// Extents that share no record, the longest first.
fn extents(rng: &mut Rng, geometry: &Geometry, most: usize) -> Vec<(usize, usize)> {
    let records = geometry.data_records();
    let wanted = rng.between(1, most);
    let usual = (records / wanted).max(1);
    let longest = if rng.chance(5) { records } else { 60 };
    let mut extents = Vec::new();
    let mut start = if rng.chance(50) { 0 } else { rng.below(usual) };
    while start < records && extents.len() < wanted {
        let least = if rng.chance(50) { usual.div_ceil(2) } else { 1 };
        let length = rng
            .between(least.min(longest), usual.min(longest))
            .min(records - start);
        extents.push((start, start + length - 1));
        start += length + rng.pick(&[0, 0, 0, 1, 2]);
    }
    extents.sort_by_key(|extent| (std::cmp::Reverse(extent.1 - extent.0), extent.0));
    extents
}
