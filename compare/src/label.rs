//! HDR1: the rules of one label, in ascending positions.

use crate::layout::Geometry;
use crate::text::{
    address, all_in_a_set, all_spaces, character, data_end_address, decimal, field, in_a_set,
};

/// "Position 44 is the level: space, 1, 2 or another a-character."
#[derive(Clone, Copy, Debug, PartialEq, Eq)]
pub enum Level {
    Space,
    One,
    Two,
    Other,
}

/// "40 space or F (fixed), V, S"
#[derive(Clone, Copy, Debug, PartialEq, Eq)]
pub enum Format {
    Fixed,
    Variable,
    Spanned,
}

/// The level, or none if the field is at fault.
pub fn level(label: &[u8]) -> Option<Level> {
    match character(label, 44) {
        b' ' => Some(Level::Space),
        b'1' => Some(Level::One),
        b'2' => Some(Level::Two),
        byte if in_a_set(byte) => Some(Level::Other),
        _ => None,
    }
}

/// The name of a label "of levels space, 1, 2 only".
pub fn name(label: &[u8]) -> Option<&[u8]> {
    (level(label) != Some(Level::Other)).then(|| field(label, 6, 22))
}

/// Start and end of a judged label.
pub fn extent(label: &[u8], geometry: &Geometry) -> Option<(usize, usize)> {
    let start = address(field(label, 29, 33), geometry)?;
    let end = address(field(label, 35, 39), geometry)?;
    Some((start, end))
}

/// The lowest position at fault. Values read by other fields are none while
/// their own field is at fault: "A part of a rule that reads another field
/// is not applied while that field is itself at fault." "With 44 outside the
/// a-set every field is judged, without the parts that name a level."
pub fn fault(label: &[u8], geometry: &Geometry) -> Option<usize> {
    let level = level(label);
    let start = address(field(label, 29, 33), geometry);
    let end_kept = end_kept(label, geometry, start);
    // "Another level has only 1-4, 29-33, 35-39 and 44 judged."
    if level == Some(Level::Other) {
        return lowest(&[(29, start.is_some()), (35, end_kept)]);
    }
    let format = format(label, level);
    let length = block_length(label, geometry, level, format);
    let blocked = blocked(label, level, format);
    let record = record_length(label, level, format, length, blocked);
    let one_of = |position, legal: &[u8]| legal.contains(&character(label, position));
    lowest(&[
        (6, name_kept(label, level)),
        (23, length.is_some()),
        (29, start.is_some()),
        (35, end_kept),
        (40, format.is_some()),
        // "41 space, B. 42 a-set. 43 space, P. 45 space, C, L."
        (41, one_of(41, b" B")),
        (42, in_a_set(character(label, 42))),
        (43, one_of(43, b" P")),
        (44, level.is_some()),
        (45, one_of(45, b" CL")),
        (46, generation_kept(field(label, 46, 47))),
        (48, date_kept(field(label, 48, 53))),
        (54, record.is_ok()),
        (58, unused_kept(label, format, length, blocked, record)),
        (63, blocked.is_some()),
        // "64 space, S. 73 a-set."
        (64, one_of(64, b" S")),
        // "67-72 the same, or 999999"
        (67, expiry_kept(field(label, 67, 72))),
        (73, in_a_set(character(label, 73))),
        (75, data_end_kept(label, geometry, start)),
    ])
}

fn lowest(rules: &[(usize, bool)]) -> Option<usize> {
    rules.iter().find(|rule| !rule.1).map(|rule| rule.0)
}

/// "6-22 a-set; levels space and 1 have spaces in 14-22."
fn name_kept(label: &[u8], level: Option<Level>) -> bool {
    let short = matches!(level, Some(Level::Space | Level::One));
    all_in_a_set(field(label, 6, 22)) && (!short || all_spaces(field(label, 14, 22)))
}

/// "23-27 block length B: at least 1, 4, 5 for F, V, S; at most D·P; above P
/// a multiple of P; level space at most P; V and S at most 9,999 (house)."
fn block_length(
    label: &[u8],
    geometry: &Geometry,
    level: Option<Level>,
    format: Option<Format>,
) -> Option<usize> {
    let length = decimal(field(label, 23, 27))?;
    let p = geometry.p();
    let format_part = match format {
        Some(Format::Fixed) => length >= 1,
        Some(Format::Variable) => (4..=9_999).contains(&length),
        Some(Format::Spanned) => (5..=9_999).contains(&length),
        None => true,
    };
    let size_part = length <= geometry.d * p && (length <= p || length % p == 0);
    let level_part = level != Some(Level::Space) || length <= p;
    (format_part && size_part && level_part).then_some(length)
}

/// "35-39 end, not before start"; 29 is read only if it is not at fault.
fn end_kept(label: &[u8], geometry: &Geometry, start: Option<usize>) -> bool {
    address(field(label, 35, 39), geometry)
        .is_some_and(|end| start.is_none_or(|start| start <= end))
}

/// "40 space or F (fixed), V, S; levels space and 1 fixed only."
fn format(label: &[u8], level: Option<Level>) -> Option<Format> {
    let format = match character(label, 40) {
        b' ' | b'F' => Format::Fixed,
        b'V' => Format::Variable,
        b'S' => Format::Spanned,
        _ => return None,
    };
    let fixed_only = matches!(level, Some(Level::Space | Level::One));
    (format == Format::Fixed || !fixed_only).then_some(format)
}

/// "46-47 spaces or 01-99."
fn generation_kept(bytes: &[u8]) -> bool {
    all_spaces(bytes) || decimal(bytes).is_some_and(|value| value >= 1)
}

/// "48-53 spaces or YYMMDD (month 01-12, day 01-31)"
fn date_kept(bytes: &[u8]) -> bool {
    let within = |part: &[u8], most| decimal(part).is_some_and(|v| (1..=most).contains(&v));
    all_spaces(bytes)
        || (decimal(&bytes[0..2]).is_some() && within(&bytes[2..4], 12) && within(&bytes[4..6], 31))
}

fn expiry_kept(bytes: &[u8]) -> bool {
    bytes == b"999999" || date_kept(bytes)
}

/// "54-57 record length R; spaces mean R = B. F: 1 to B, equal to B if
/// unblocked, else a divisor of B; level space R = B. V: 4 to B, RCW
/// counted. S: control words not counted, 0000 means no maximum."
/// The value is none where R is B and B is at fault.
fn record_length(
    label: &[u8],
    level: Option<Level>,
    format: Option<Format>,
    length: Option<usize>,
    blocked: Option<bool>,
) -> Result<Option<usize>, ()> {
    let bytes = field(label, 54, 57);
    let written = match decimal(bytes) {
        Some(value) => Some(value),
        None if all_spaces(bytes) => length,
        None => return Err(()),
    };
    let (Some(r), Some(b)) = (written, length) else {
        return Ok(written);
    };
    let blocking_part = match blocked {
        Some(true) => r != 0 && b.is_multiple_of(r),
        Some(false) => r == b,
        None => true,
    };
    let format_part = match format {
        Some(Format::Fixed) => (1..=b).contains(&r) && blocking_part,
        Some(Format::Variable) => (4..=b).contains(&r),
        Some(Format::Spanned) | None => true,
    };
    let level_part = level != Some(Level::Space) || r == b;
    if format_part && level_part {
        Ok(Some(r))
    } else {
        Err(())
    }
}

/// "58-62 unused count U, spaces meaning 0, below B; 0 if unblocked; for F a
/// multiple of R."
fn unused_kept(
    label: &[u8],
    format: Option<Format>,
    length: Option<usize>,
    blocked: Option<bool>,
    record: Result<Option<usize>, ()>,
) -> bool {
    let Some(unused) = unused(label) else {
        return false;
    };
    let below = length.is_none_or(|b| unused < b);
    let none_if_unblocked = blocked != Some(false) || unused == 0;
    let multiple = match (format, record) {
        (Some(Format::Fixed), Ok(Some(r))) => r == 0 || unused % r == 0,
        _ => true,
    };
    below && none_if_unblocked && multiple
}

fn unused(label: &[u8]) -> Option<usize> {
    let bytes = field(label, 58, 62);
    if all_spaces(bytes) {
        Some(0)
    } else {
        decimal(bytes)
    }
}

/// "63 space, or B for blocked; S needs B; level space needs space."
fn blocked(label: &[u8], level: Option<Level>, format: Option<Format>) -> Option<bool> {
    let blocked = match character(label, 63) {
        b' ' => false,
        b'B' => true,
        _ => return None,
    };
    let format_part = format != Some(Format::Spanned) || blocked;
    let level_part = level != Some(Level::Space) || !blocked;
    (format_part && level_part).then_some(blocked)
}

/// "75-79 data end: not before start, an address or the one past the last."
fn data_end_kept(label: &[u8], geometry: &Geometry, start: Option<usize>) -> bool {
    data_end_address(field(label, 75, 79), geometry)
        .is_some_and(|end| start.is_none_or(|start| start <= end))
}

/// What a judged label of level space, 1 or 2 says of its file.
#[derive(Clone, Copy, Debug, PartialEq, Eq)]
pub struct Entry {
    pub format: Format,
    pub blocked: bool,
    /// Block length B.
    pub b: usize,
    /// Record length R; 0 is S without a maximum.
    pub r: usize,
    /// Unused count U.
    pub u: usize,
    pub start: usize,
    pub end: usize,
    pub data_end: usize,
}

impl Entry {
    /// None for another level, which has no such fields.
    pub fn of(label: &[u8], geometry: &Geometry) -> Option<Entry> {
        let level = level(label)?;
        if level == Level::Other {
            return None;
        }
        let (start, end) = extent(label, geometry)?;
        let b = decimal(field(label, 23, 27))?;
        Some(Entry {
            format: format(label, Some(level))?,
            blocked: character(label, 63) == b'B',
            b,
            r: decimal(field(label, 54, 57)).unwrap_or(b),
            u: unused(label)?,
            start,
            end,
            data_end: data_end_address(field(label, 75, 79), geometry)?,
        })
    }
}
