//! Creating and deleting a file (refusals 28 and 29): each changes one slot's
//! sector and nothing else.

use crate::file::File;
use crate::label::{self, Level};
use crate::layout::{Geometry, INDEX_BODY, MOST_SLOTS};
use crate::refusal::Refusal;
use crate::text::{address_digits, address_number};
use crate::volume::{judge, label_in};

/// "the 29 bytes of label fields 6-22, 23-27, 40, 44, 54-57, 63", joined in
/// this order: first and last position of each, and where it begins.
const FIELDS: [(usize, usize, usize); 6] = [
    (6, 22, 0),
    (23, 27, 17),
    (40, 40, 22),
    (44, 44, 23),
    (54, 57, 24),
    (63, 63, 28),
];
pub const FIELDS_BYTES: usize = 29;

/// "Kind k: valid data mark. Kind 16+k: incorrect-data mark." "Cylinder 0
/// uses k = 0 (house)".
const VALID: u8 = 0;
const INCORRECT: u8 = 16;

/// Where a file was created: its slot, and its start as the number of its
/// five digits.
#[derive(Clone, Copy, Debug, PartialEq, Eq)]
pub struct Placed {
    pub slot: usize,
    pub start: usize,
}

/// "Creating takes the 29 bytes of label fields .. and a number n of physical
/// records, and uses the lowest free run of n consecutive data addresses and
/// the lowest deleted slot." "Refusals: after 1-12 on the volume, 10 for the
/// proposed label, with slot 0 .., 12 for a name in use, with the slot that
/// has it, then 28 no deleted slot, 29 no run".
pub fn create(image: &mut [u8], fields: &[u8], n: u64) -> Result<Placed, Refusal> {
    let geometry = judge(image)?;
    if let Some(position) = fault(fields, n, &geometry) {
        return Err(Refusal::at_two(10, 0, position));
    }
    if let Some(slot) = slot_named(image, &geometry, &fields[..17]) {
        return Err(Refusal::at(12, slot));
    }
    let slot = deleted_slot(image, &geometry).ok_or(Refusal::bare(28))?;
    let (start, end) = free_run(image, &geometry, n).ok_or(Refusal::bare(29))?;
    let ordinal = Geometry::slot_ordinal(slot);
    Geometry::set_index_kind(image, ordinal, VALID);
    let label = label(fields, &geometry, start, end);
    Geometry::index_body_mut(image, ordinal).copy_from_slice(&label);
    Ok(Placed {
        slot,
        start: address_number(start, &geometry),
    })
}

/// "Deleting gives the slot the incorrect mark and first byte `D`, nothing
/// else." "delete gives 13, 14, 24". The answer is the number of physical
/// records that are free again.
pub fn delete(image: &mut [u8], slot: u64) -> Result<u64, Refusal> {
    let file = File::open(image, slot)?;
    file.unprotected()?;
    let ordinal = Geometry::slot_ordinal(file.slot);
    Geometry::set_index_kind(image, ordinal, INCORRECT);
    Geometry::index_body_mut(image, ordinal)[0] = b'D';
    Ok((file.entry.end - file.entry.start + 1) as u64)
}

/// "Other fields are spaces, the data end is the start."
fn label(fields: &[u8], geometry: &Geometry, start: usize, end: usize) -> [u8; INDEX_BODY] {
    let mut label = [b' '; INDEX_BODY];
    label[..4].copy_from_slice(b"HDR1");
    for (first, last, at) in FIELDS {
        label[first - 1..last].copy_from_slice(&fields[at..=at + last - first]);
    }
    for (first, record) in [(29, start), (35, end), (75, start)] {
        label[first - 1..first + 4].copy_from_slice(&address_digits(record, geometry));
    }
    label
}

/// The lowest position at fault of the proposed label: "a level other than
/// space, 1, 2 counts at 44, n = 0 at 35, other than 29 bytes at 6". Whichever
/// addresses it gets are legal, so it is judged with 01001.
fn fault(fields: &[u8], n: u64, geometry: &Geometry) -> Option<usize> {
    if fields.len() != FIELDS_BYTES {
        return Some(6);
    }
    let label = label(fields, geometry, 0, 0);
    let another = label::level(&label) == Some(Level::Other);
    let faults = [
        label::fault(&label, geometry),
        (n == 0).then_some(35),
        another.then_some(44),
    ];
    faults.into_iter().flatten().min()
}

/// "12 for a name in use, with the slot that has it": of a label of level
/// space, 1 or 2.
fn slot_named(image: &[u8], geometry: &Geometry, name: &[u8]) -> Option<usize> {
    (1..=geometry.slots()).find(|&slot| label_in(image, slot).and_then(label::name) == Some(name))
}

/// "the lowest deleted slot": on an accepted volume a slot without a label.
fn deleted_slot(image: &[u8], geometry: &Geometry) -> Option<usize> {
    (1..=geometry.slots()).find(|&slot| label_in(image, slot).is_none())
}

/// "the lowest free run of n consecutive data addresses", first and last: in
/// front of an extent, or behind the last, the extents being in order.
fn free_run(image: &[u8], geometry: &Geometry, n: u64) -> Option<(usize, usize)> {
    let mut extents = [(0, 0); MOST_SLOTS];
    let mut known = 0;
    for slot in 1..=geometry.slots() {
        let label = label_in(image, slot);
        if let Some(extent) = label.and_then(|label| label::extent(label, geometry)) {
            extents[known] = extent;
            known += 1;
        }
    }
    extents[..known].sort_unstable();
    let mut from = 0;
    for (start, end) in &extents[..known] {
        if n <= (start - from) as u64 {
            return Some((from, from + n as usize - 1));
        }
        from = end + 1;
    }
    let left = geometry.data_records() - from;
    (n <= left as u64).then(|| (from, from + n as usize - 1))
}
