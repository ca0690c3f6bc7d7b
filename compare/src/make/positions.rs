//! Every position of the three labels, field by field, as tables 2 to 4 of
//! document 002 have them, and what the rules make of each field. A label is
//! drawn by a walk over its table, and whatever else the makers know of
//! positions comes out of it too.

use super::rng::Rng;
use crate::layout::INDEX_BODY;

/// What the rules make of a field.
#[derive(Clone, Copy, Debug, PartialEq, Eq)]
pub enum Class {
    /// A rule says what may stand in it.
    Judged,
    /// Kept by its table for later standardization, and not judged.
    Reserved,
    /// Of a meaning of its own, and not judged.
    Unjudged,
}

/// A field of a label, positions counted from 1.
#[derive(Clone, Copy, Debug, PartialEq, Eq)]
pub struct Field {
    pub first: usize,
    pub last: usize,
    pub class: Class,
    pub name: &'static str,
}

const fn field(first: usize, last: usize, class: Class, name: &'static str) -> Field {
    Field {
        first,
        last,
        class,
        name,
    }
}

const fn judged(first: usize, last: usize, name: &'static str) -> Field {
    field(first, last, Class::Judged, name)
}

const fn reserved(first: usize, last: usize) -> Field {
    field(first, last, Class::Reserved, "reserved")
}

/// Table 2. "79 becomes reserved and is not judged" (request 2026-02); "87-88
/// cannot hold 256, so 76 decides; they .. are not judged."
pub const VOL1: [Field; 18] = [
    judged(1, 4, "label identifier and number"),
    judged(5, 10, "volume identifier"),
    judged(11, 11, "accessibility of the volume"),
    reserved(12, 37),
    judged(38, 51, "owner of the volume"),
    reserved(52, 71),
    judged(72, 72, "type of recording"),
    reserved(73, 75),
    judged(76, 76, "size of physical records"),
    judged(77, 78, "sequence of sectors"),
    reserved(79, 79),
    judged(80, 80, "version of the standard"),
    judged(81, 82, "last data cylinder"),
    judged(83, 84, "last sector of the index cylinder"),
    judged(85, 86, "last sector of a data cylinder"),
    field(87, 88, Class::Unjudged, "length of physical records"),
    judged(89, 89, "number of sides"),
    reserved(90, 128),
];

/// Table 4.
pub const ERMAP: [Field; 6] = [
    judged(1, 5, "label identifier"),
    reserved(6, 6),
    judged(7, 9, "first defective cylinder"),
    reserved(10, 10),
    judged(11, 13, "second defective cylinder"),
    reserved(14, 128),
];

/// Table 3, for levels space, 1 and 2.
pub const HDR1: [Field; 26] = [
    judged(1, 4, "label identifier and number"),
    reserved(5, 5),
    judged(6, 22, "file identifier"),
    judged(23, 27, "block length"),
    reserved(28, 28),
    judged(29, 33, "start of the extent"),
    reserved(34, 34),
    judged(35, 39, "end of the extent"),
    judged(40, 40, "format of records"),
    judged(41, 41, "exchange"),
    judged(42, 42, "accessibility of the file"),
    judged(43, 43, "protection"),
    judged(44, 44, "level"),
    judged(45, 45, "file of several volumes"),
    judged(46, 47, "number of the section"),
    judged(48, 53, "date of creation"),
    judged(54, 57, "record length"),
    judged(58, 62, "unused count"),
    judged(63, 63, "blocking of records"),
    judged(64, 64, "kind of file"),
    reserved(65, 66),
    judged(67, 72, "date of expiry"),
    judged(73, 73, "verified or copied"),
    reserved(74, 74),
    judged(75, 79, "data end"),
    reserved(80, 128),
];

impl Field {
    pub fn length(&self) -> usize {
        self.last - self.first + 1
    }

    pub fn spaces(&self) -> Vec<u8> {
        vec![b' '; self.length()]
    }

    /// Whether any bytes may stand in the field. The one place that says so
    /// of reserved fields: "Other positions are not judged." Request 2026-11
    /// is to ask for spaces in them.
    pub fn is_free(&self) -> bool {
        self.class != Class::Judged
    }

    /// The field's bytes in a label.
    pub fn of<'a>(&self, label: &'a mut [u8]) -> &'a mut [u8] {
        &mut label[self.first - 1..self.last]
    }
}

/// The first positions of judged fields, where their faults are reported.
pub fn judged_in(fields: &[Field]) -> Vec<usize> {
    let judged = fields.iter().filter(|field| field.class == Class::Judged);
    judged.map(|field| field.first).collect()
}

/// Those of HDR1 but for 1-4: a slot without `HDR1` is no label, refusal 9.
pub fn named_by_10() -> Vec<usize> {
    judged_in(&HDR1[1..])
}

/// Every position of the fields that any bytes may stand in.
pub fn free_in(fields: &[Field]) -> impl Iterator<Item = usize> + '_ {
    let free = fields.iter().filter(|field| field.is_free());
    free.flat_map(|field| field.first..=field.last)
}

/// The field that a position is of.
pub fn field_at(fields: &[Field], position: usize) -> Option<&Field> {
    let holds = |field: &&Field| (field.first..=field.last).contains(&position);
    fields.iter().find(holds)
}

/// A table with some of its fields not judged, whatever they were.
pub fn unjudging(fields: &[Field], which: impl Fn(&Field) -> bool) -> Vec<Field> {
    let changed = fields.iter().map(|field| match which(field) {
        true => Field {
            class: Class::Unjudged,
            ..*field
        },
        false => *field,
    });
    changed.collect()
}

/// "Another level has only 1-4, 29-33, 35-39 and 44 judged."
pub fn of_another_level() -> Vec<Field> {
    unjudging(&HDR1, |field| ![1, 29, 35, 44].contains(&field.first))
}

/// A label drawn field by field: any bytes where they may stand, the value
/// that is drawn for it in a judged field, spaces in what is left.
pub fn draw_label(
    rng: &mut Rng,
    fields: &[Field],
    mut value: impl FnMut(&mut Rng, &Field) -> Vec<u8>,
) -> Vec<u8> {
    let mut label = rng.telling_bytes(INDEX_BODY);
    for field in fields.iter().filter(|field| !field.is_free()) {
        let bytes = match field.class {
            Class::Judged => value(rng, field),
            _ => field.spaces(),
        };
        field.of(&mut label).copy_from_slice(&bytes);
    }
    label
}

/// A label without chance: values of judged fields, by their first positions,
/// with spaces behind those that are shorter and everywhere else.
pub fn plain_label(fields: &[Field], value: impl Fn(usize) -> Option<Vec<u8>>) -> Vec<u8> {
    let mut label = vec![b' '; INDEX_BODY];
    for position in judged_in(fields) {
        let bytes = value(position).unwrap_or_default();
        label[position - 1..][..bytes.len()].copy_from_slice(&bytes);
    }
    label
}
