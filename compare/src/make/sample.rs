//! Volumes made by hand: the sample of document 01's listing and a few more.

use super::build::{ermap_of, plain_geometry, vol1_of};
use super::defects;
use super::positions::{free_in, plain_label, ERMAP, HDR1, VOL1};
use super::sizes::{largest, read_sample, smallest, to_place, to_write, typical};
use crate::layout::{Geometry, INDEX_SECTOR};
use crate::text::address;
use crate::writing::write;

/// A volume made field by field, without chance: labels of spaces, data of
/// 00, every slot deleted until a label is put in it.
#[derive(Clone, Debug)]
pub struct Plain {
    pub geometry: Geometry,
    pub image: Vec<u8>,
}

/// A label's 128 bytes: a fixed unblocked file of level space.
pub fn hdr1(name: &str, b: usize, start: &str, end: &str) -> Vec<u8> {
    let length = format!("{b:05}");
    plain_label(&HDR1, |position| {
        let text = match position {
            1 => "HDR1",
            6 => name,
            23 => length.as_str(),
            29 | 75 => start,
            35 => end,
            _ => return None,
        };
        Some(text.as_bytes().to_vec())
    })
}

/// VOL1 of a geometry: what has no choice, and a name.
fn vol1(geometry: &Geometry) -> Vec<u8> {
    plain_label(&VOL1, |position| match position {
        5 => Some(b"DEMO01".to_vec()),
        _ => vol1_of(geometry, position),
    })
}

/// ERMAP of a geometry.
fn ermap(geometry: &Geometry) -> Vec<u8> {
    plain_label(&ERMAP, |position| ermap_of(geometry, position))
}

impl Plain {
    pub fn new(l: usize, i: usize, d: usize, k: u8, s: usize) -> Plain {
        let geometry = plain_geometry(l, i, d, k, s);
        let mut plain = Plain {
            geometry,
            image: vec![0; geometry.image_length()],
        };
        for ordinal in geometry.index_sectors()..geometry.sectors() {
            plain.image[geometry.kind_at(ordinal)] = k;
        }
        for ordinal in 0..geometry.index_sectors() {
            Geometry::index_body_mut(&mut plain.image, ordinal).fill(b' ');
        }
        for slot in 1..=geometry.slots() {
            plain.delete(slot);
        }
        plain.set_sector(5, 1, &ermap(&geometry));
        plain.set_sector(7, 1, &vol1(&geometry));
        plain
    }

    /// The same with defective cylinders, in the geometry and in ERMAP.
    pub fn with_defects(mut self, d1: Option<usize>, d2: Option<usize>) -> Plain {
        (self.geometry.d1, self.geometry.d2) = (d1, d2);
        let ermap = ermap(&self.geometry);
        self.set_sector(5, 1, &ermap);
        self
    }

    /// Sets positions, from 1, of an index sector of side 0, from 01.
    pub fn set_sector(&mut self, sector: usize, position: usize, bytes: &[u8]) {
        let at = (sector - 1) * INDEX_SECTOR + position;
        self.image[at..at + bytes.len()].copy_from_slice(bytes);
    }

    pub fn delete(&mut self, slot: usize) {
        let ordinal = Geometry::slot_ordinal(slot);
        self.image[ordinal * INDEX_SECTOR] = 16;
        Geometry::index_body_mut(&mut self.image, ordinal)[0] = b'D';
    }

    pub fn put_label(&mut self, slot: usize, label: &[u8]) {
        let ordinal = Geometry::slot_ordinal(slot);
        self.image[ordinal * INDEX_SECTOR] = 0;
        Geometry::index_body_mut(&mut self.image, ordinal).copy_from_slice(label);
    }

    /// Sets positions, from 1, of the label in a slot.
    pub fn set(&mut self, slot: usize, position: usize, bytes: &[u8]) {
        let label = Geometry::index_body_mut(&mut self.image, Geometry::slot_ordinal(slot));
        label[position - 1..position - 1 + bytes.len()].copy_from_slice(bytes);
    }

    /// Bytes that are no space wherever a label is not judged, so that each
    /// one that stays is seen to.
    pub fn soil_label(&mut self, slot: usize) {
        for position in free_in(&HDR1) {
            self.set(slot, position, &[0x80 | position as u8]);
        }
    }

    /// Where the kind of the record at an address stands.
    pub fn kind_at(&self, digits: &str) -> usize {
        let record = address(digits.as_bytes(), &self.geometry).unwrap_or(0);
        self.geometry.kind_at(self.geometry.record_ordinal(record))
    }

    /// Sets the kind of the record at an address.
    pub fn set_kind(&mut self, digits: &str, kind: u8) {
        let at = self.kind_at(digits);
        self.image[at] = kind;
    }

    /// Sets the first bytes of the record at an address.
    pub fn set_body(&mut self, digits: &str, bytes: &[u8]) {
        let at = self.kind_at(digits) + 1;
        self.image[at..at + bytes.len()].copy_from_slice(bytes);
    }

    /// Writes records, one per line of a text.
    pub fn write_lines(&mut self, slot: u64, lines: &[&str]) {
        let bodies: Vec<u8> = lines.concat().into_bytes();
        let lengths: Vec<u32> = lines.iter().map(|line| line.len() as u32).collect();
        let written = write(&mut self.image, slot, &bodies, &lengths);
        debug_assert!(written.is_ok());
    }
}

fn part(number: usize, name: &str) -> String {
    format!("{:<128}", format!("{number:06} {name}"))
}

fn log(length: usize, entry: &str) -> String {
    format!("{entry:.<length$}")
}

/// The volume of document 01's listing section: 9,546 bytes.
pub fn sample() -> Vec<u8> {
    demo().image
}

fn demo() -> Plain {
    let mut plain = Plain::new(5, 10, 8, 0, 1);
    plain.put_label(1, &hdr1("PARTS", 128, "01001", "01008"));
    plain.put_label(3, &hdr1("LOG", 256, "02001", "03008"));
    plain.set(3, 40, b"V");
    plain.set(3, 44, b"2");
    plain.set(3, 54, b"0100");
    plain.set(3, 63, b"B");
    let parts = [part(104, "AXLE"), part(117, "BEARING"), part(230, "COVER")];
    plain.write_lines(1, &parts.each_ref().map(String::as_str));
    let entries = [
        log(96, "STARTED"),
        log(76, "DRIVE 1 READY"),
        log(66, "VOLUME DEMO01 IN"),
        log(96, "PARTS OPENED"),
        log(56, "THREE READ"),
        log(36, "CLOSED"),
    ];
    plain.write_lines(3, &entries.each_ref().map(String::as_str));
    plain
}

/// Two sides, labels on side 1, P = 256, defective cylinders 1 and 3.
fn two_sided() -> Plain {
    let mut plain = Plain::new(2, 8, 4, 1, 2);
    plain.set_sector(5, 7, b"010 030");
    plain.put_label(1, &hdr1("FIRST", 200, "01001", "01103"));
    plain.put_label(2, &hdr1("SECOND ON SIDE 1", 512, "01104", "02104"));
    plain.set(2, 40, b"S");
    plain.set(2, 44, b"2");
    plain.set(2, 54, b"0000");
    plain.set(2, 63, b"B");
    plain.write_lines(1, &[&log(200, "ONE"), &log(200, "TWO")]);
    plain.write_lines(2, &[&log(700, "LONG"), "", &log(100, "SHORT")]);
    plain
}

/// The sample with PARTS turned into a file of level 3.
fn other_level() -> Plain {
    let mut plain = demo();
    plain.set(1, 44, b"3");
    plain
}

/// The sample with an incorrect mark, not `F`, in PARTS.
fn wrong_mark() -> Plain {
    let mut plain = demo();
    plain.set_kind("01006", 16);
    plain
}

/// The sample with a data end that splits a block of LOG.
fn split() -> Plain {
    let mut plain = demo();
    plain.set(3, 75, b"02004");
    plain
}

/// The sample with a broken block length in slot 3.
fn refused() -> Plain {
    let mut plain = demo();
    plain.set(3, 23, b"00257");
    plain
}

pub const NAMES: [&str; 11] = [
    "demo",
    "two-sided",
    "other-level",
    "wrong-mark",
    "split",
    "refused",
    "smallest",
    "typical",
    "largest",
    "largest-one",
    "largest-none",
];

/// Names with numbers and other words in them, one of each sort.
pub const OTHER_NAMES: [&str; 6] = [
    "F-100",
    "S-4900-lost",
    "write-V-1000-short",
    "create-typical",
    "delete-largest",
    "defects-73-73-74",
];

/// A sample by its name.
pub fn named(name: &str) -> Option<Vec<u8>> {
    Some(match name {
        "demo" => demo().image,
        "two-sided" => two_sided().image,
        "other-level" => other_level().image,
        "wrong-mark" => wrong_mark().image,
        "split" => split().image,
        "refused" => refused().image,
        "smallest" => smallest(),
        "typical" => typical(),
        "largest" => largest(45),
        "largest-one" => largest(1),
        "largest-none" => largest(0),
        _ => {
            let written = || to_write(name).map(|made| made.image);
            return read_sample(name)
                .or_else(written)
                .or_else(|| to_place(name))
                .or_else(|| defects::sample(name));
        }
    })
}
