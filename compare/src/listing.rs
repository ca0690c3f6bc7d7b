//! The listing text.

use crate::file::{free_records, File};
use crate::label::{self, Entry};
use crate::layout::Geometry;
use crate::refusal::Refusal;
use crate::text::{character, field};
use crate::volume::{judge, label_in, VOL1_ORDINAL};

/// "A program reads an image of at most 65,536 bytes"
pub const MOST_BYTES: usize = 65_536;

/// The text for an image: "the volume line ..., then one line per label".
pub fn listing(image: &[u8]) -> Vec<u8> {
    listing_up_to(MOST_BYTES, image)
}

/// The same of a program that takes images of at most so many bytes.
pub fn listing_up_to(most: usize, image: &[u8]) -> Vec<u8> {
    // "Longer input prints `TOO LONG` alone."
    if image.len() > most {
        return b"TOO LONG\n".to_vec();
    }
    let geometry = match judge(image) {
        Ok(geometry) => geometry,
        Err(refusal) => return refused(&refusal).into_bytes(),
    };
    let mut text = Vec::new();
    volume_line(&mut text, image, &geometry);
    for slot in 1..=geometry.slots() {
        if let Some(label) = label_in(image, slot) {
            label_line(&mut text, image, &geometry, slot, label);
        }
    }
    text
}

/// "A refused volume prints one line: `REFUSED`, number and each place, one
/// space between." Of 1 to 12 only 10 has two places.
fn refused(refusal: &Refusal) -> String {
    let Refusal {
        number,
        first,
        second,
        ..
    } = refusal;
    match number {
        10 => format!("REFUSED {number} {first} {second}\n"),
        _ => format!("REFUSED {number} {first}\n"),
    }
}

/// "the volume line (name, numbers, free records)"
fn volume_line(text: &mut Vec<u8>, image: &[u8], geometry: &Geometry) {
    let Geometry { l, i, d, s, .. } = geometry;
    let p = geometry.p();
    let free = free_records(image, geometry);
    text.extend_from_slice(b"VOLUME ");
    text.extend_from_slice(field(Geometry::index_body(image, VOL1_ORDINAL), 5, 10));
    text.extend_from_slice(format!(" L={l} I={i} D={d} P={p} S={s} FREE={free}\n").as_bytes());
}

/// "one line per label: slot, name, level (`.` for space), format (`F` for
/// space), `B` or `-`, B, R, start, end, blocks, U."
fn label_line(text: &mut Vec<u8>, image: &[u8], geometry: &Geometry, slot: usize, label: &[u8]) {
    let fields = match Entry::of(label, geometry) {
        Some(entry) => file_fields(image, geometry, slot, label, &entry),
        None => other_fields(slot, label),
    };
    for (place, field) in fields.iter().enumerate() {
        if place > 0 {
            text.push(b'|');
        }
        text.extend_from_slice(field);
    }
    text.push(b'\n');
}

fn or(byte: u8, blank: u8) -> Vec<u8> {
    vec![if byte == b' ' { blank } else { byte }]
}

fn decimal(number: usize) -> Vec<u8> {
    number.to_string().into_bytes()
}

fn file_fields(
    image: &[u8],
    geometry: &Geometry,
    slot: usize,
    label: &[u8],
    entry: &Entry,
) -> [Vec<u8>; 11] {
    [
        decimal(slot),
        label::name(label).unwrap_or_default().to_vec(),
        or(character(label, 44), b'.'),
        or(character(label, 40), b'F'),
        or(character(label, 63), b'-'),
        decimal(entry.b),
        decimal(entry.r),
        field(label, 29, 33).to_vec(),
        field(label, 35, 39).to_vec(),
        blocks_field(image, geometry, slot, label),
        decimal(entry.u),
    ]
}

/// "Refused counts print `!17` or `!18` in place of blocks."
fn blocks_field(image: &[u8], geometry: &Geometry, slot: usize, label: &[u8]) -> Vec<u8> {
    let count =
        File::in_slot(geometry, slot, label).and_then(|file| file.blocks(&file.survey(image, 0)?));
    match count {
        Ok(count) => decimal(count),
        Err(refusal) => format!("!{}", refusal.number).into_bytes(),
    }
}

/// "Another level shows `?` but for slot, level, start, end."
fn other_fields(slot: usize, label: &[u8]) -> [Vec<u8>; 11] {
    let mut fields = [(); 11].map(|()| b"?".to_vec());
    fields[0] = decimal(slot);
    fields[2] = vec![character(label, 44)];
    fields[7] = field(label, 29, 33).to_vec();
    fields[8] = field(label, 35, 39).to_vec();
    fields
}
