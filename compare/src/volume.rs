//! The judgement of a volume: refusals 1 to 12 in order.

use crate::label;
use crate::layout::{mark, Geometry, Mark, INDEX_SECTOR, MOST_SLOTS};
use crate::refusal::Refusal;
use crate::text::{all_in_a_set, all_spaces, character, decimal, field, hexadecimal, in_a_set};

/// "05 is ERMAP, 07 is VOL1": ordinals 4 and 6.
pub const ERMAP_ORDINAL: usize = 4;
pub const VOL1_ORDINAL: usize = 6;

/// "1 | image below 903 bytes": the seven sectors that end with VOL1.
pub const LEAST_IMAGE: usize = 7 * INDEX_SECTOR;

/// "Volume order is 1 to 12, slots checked one by one through 8, 9, 10."
pub fn judge(image: &[u8]) -> Result<Geometry, Refusal> {
    if image.len() < LEAST_IMAGE {
        return Err(Refusal::at(1, 0));
    }
    judge_label_sectors(image)?;
    let mut geometry = judge_vol1(Geometry::index_body(image, VOL1_ORDINAL))?;
    if image.len() != geometry.image_length() {
        return Err(Refusal::at(5, 0));
    }
    if let Some(ordinal) = geometry.first_illegal_kind(image) {
        return Err(Refusal::at(6, ordinal));
    }
    judge_ermap(Geometry::index_body(image, ERMAP_ORDINAL), &mut geometry)?;
    judge_slots(image, &geometry)?;
    judge_extents(image, &geometry)?;
    judge_names(image, &geometry)?;
    Ok(geometry)
}

/// "2 | sector 05, then 07, kind not 0 | sector"
fn judge_label_sectors(image: &[u8]) -> Result<(), Refusal> {
    [ERMAP_ORDINAL, VOL1_ORDINAL]
        .into_iter()
        .find(|&ordinal| Geometry::index_kind(image, ordinal) != 0)
        .map_or(Ok(()), |ordinal| Err(Refusal::at(2, ordinal + 1)))
}

fn hex_between(
    label: &[u8],
    first: usize,
    last: usize,
    least: usize,
    most: usize,
) -> Option<usize> {
    hexadecimal(field(label, first, last)).filter(|value| (least..=most).contains(value))
}

/// "76 space, 1, 2, 3 for P = 128, 256, 512, 1024"
fn size_code(label: &[u8]) -> Option<u8> {
    match character(label, 76) {
        b' ' => Some(0),
        byte @ b'1'..=b'3' => Some(byte - b'0'),
        _ => None,
    }
}

/// "77-78 spaces or 01-13"
fn interleave_kept(label: &[u8]) -> bool {
    let bytes = field(label, 77, 78);
    all_spaces(bytes) || decimal(bytes).is_some_and(|value| (1..=13).contains(&value))
}

/// "VOL1: 1-4 `VOL1`; 5-10, 11, 38-51 in the a-set; 72 `A`; 76 space, 1, 2,
/// 3 for P = 128, 256, 512, 1024; 77-78 spaces or 01-13; 79 `3`; 81-82 hex
/// L, 1-96; 83-84 hex I, 8-26; 85-86 hex D, 1-26; 89 hex S, 1-2."
/// Request 2026-02 moves the version digit: "Position 80 must be `3`; 79
/// becomes reserved and is not judged." So 80 stands where document 01 has 79.
/// "In all three labels a fault is reported at its field's first position,
/// the lowest first." Then "4 | VOL1 11 not space".
fn judge_vol1(label: &[u8]) -> Result<Geometry, Refusal> {
    let k = size_code(label);
    let l = hex_between(label, 81, 82, 1, 96);
    let i = hex_between(label, 83, 84, 8, 26);
    let d = hex_between(label, 85, 86, 1, 26);
    let s = hex_between(label, 89, 89, 1, 2);
    let rules = [
        (1, field(label, 1, 4) == b"VOL1"),
        (5, all_in_a_set(field(label, 5, 10))),
        (11, in_a_set(character(label, 11))),
        (38, all_in_a_set(field(label, 38, 51))),
        (72, character(label, 72) == b'A'),
        (76, k.is_some()),
        (77, interleave_kept(label)),
        (80, character(label, 80) == b'3'),
        (81, l.is_some()),
        (83, i.is_some()),
        (85, d.is_some()),
        (89, s.is_some()),
    ];
    if let Some((position, _)) = rules.iter().find(|rule| !rule.1) {
        return Err(Refusal::at(3, *position));
    }
    let (Some(k), Some(l), Some(i), Some(d), Some(s)) = (k, l, i, d, s) else {
        return Err(Refusal::at(3, 1));
    };
    if character(label, 11) != b' ' {
        return Err(Refusal::at(4, 11));
    }
    Ok(Geometry {
        l,
        i,
        d,
        k,
        s,
        d1: None,
        d2: None,
    })
}

/// A field of three: spaces, or a cylinder in the bounds and `0`.
fn defective_cylinder(bytes: &[u8], least: usize, most: usize) -> Result<Option<usize>, ()> {
    if all_spaces(bytes) {
        return Ok(None);
    }
    match decimal(&bytes[0..2]) {
        Some(cylinder) if (least..=most).contains(&cylinder) && bytes[2] == b'0' => {
            Ok(Some(cylinder))
        }
        _ => Err(()),
    }
}

/// "ERMAP: 1-5 `ERMAP`; 7-9 spaces, or a cylinder d1 in 01..L and `0`; 11-13
/// spaces, or d2 and `0`, where d1 is present and d1 < d2 ≤ L+1."
fn judge_ermap(label: &[u8], geometry: &mut Geometry) -> Result<(), Refusal> {
    if field(label, 1, 5) != b"ERMAP" {
        return Err(Refusal::at(7, 1));
    }
    let d1 =
        defective_cylinder(field(label, 7, 9), 1, geometry.l).map_err(|()| Refusal::at(7, 7))?;
    let least = d1.map_or(1, |d1| d1 + 1);
    let d2 = defective_cylinder(field(label, 11, 13), least, geometry.l + 1)
        .map_err(|()| Refusal::at(7, 11))?;
    if d2.is_some() && d1.is_none() {
        return Err(Refusal::at(7, 11));
    }
    geometry.d1 = d1;
    geometry.d2 = d2;
    Ok(())
}

/// The label in a slot of a volume whose slots were judged.
pub fn label_in(image: &[u8], slot: usize) -> Option<&[u8]> {
    let ordinal = Geometry::slot_ordinal(slot);
    (mark(Geometry::index_kind(image, ordinal)) == Mark::Valid)
        .then(|| Geometry::index_body(image, ordinal))
}

/// "A slot is a label (valid mark, `HDR1`) or deleted (incorrect mark, first
/// byte `D`)."
fn judge_slots(image: &[u8], geometry: &Geometry) -> Result<(), Refusal> {
    for slot in 1..=geometry.slots() {
        let ordinal = Geometry::slot_ordinal(slot);
        let body = Geometry::index_body(image, ordinal);
        match mark(Geometry::index_kind(image, ordinal)) {
            // "8 | slot check-failed, or incorrect mark with `F` | slot"
            Mark::CheckFailed => return Err(Refusal::at(8, slot)),
            Mark::Incorrect if body[0] == b'F' => return Err(Refusal::at(8, slot)),
            Mark::Incorrect if body[0] == b'D' => {}
            Mark::Valid if field(body, 1, 4) == b"HDR1" => {
                // "10 | HDR1 rule broken | slot, position"
                if let Some(position) = label::fault(body, geometry) {
                    return Err(Refusal::at_two(10, slot, position));
                }
            }
            // "9 | slot neither label nor deleted | slot"
            _ => return Err(Refusal::at(9, slot)),
        }
    }
    Ok(())
}

/// "11 | extent shares a record with a lower slot's | lowest such slot"
fn judge_extents(image: &[u8], geometry: &Geometry) -> Result<(), Refusal> {
    let mut extents = [(0usize, 0usize); MOST_SLOTS];
    let mut known = 0;
    for slot in 1..=geometry.slots() {
        let Some((start, end)) = label_in(image, slot).and_then(|l| label::extent(l, geometry))
        else {
            continue;
        };
        if extents[..known]
            .iter()
            .any(|lower| lower.0 <= end && start <= lower.1)
        {
            return Err(Refusal::at(11, slot));
        }
        extents[known] = (start, end);
        known += 1;
    }
    Ok(())
}

/// "12 | name of a lower slot (levels space, 1, 2) | lowest such slot"
fn judge_names(image: &[u8], geometry: &Geometry) -> Result<(), Refusal> {
    let mut names: [&[u8]; MOST_SLOTS] = [&[]; MOST_SLOTS];
    let mut known = 0;
    for slot in 1..=geometry.slots() {
        let Some(name) = label_in(image, slot).and_then(label::name) else {
            continue;
        };
        if names[..known].contains(&name) {
            return Err(Refusal::at(12, slot));
        }
        names[known] = name;
        known += 1;
    }
    Ok(())
}
