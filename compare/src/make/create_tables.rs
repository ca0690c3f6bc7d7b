//! Creates and deletes counted out: every byte in every place of the fields,
//! every two of them at fault, every extent and number of a small volume,
//! every set of deleted slots, every slot.

use super::sample::{hdr1, Plain};
use super::tables::{index_at, table, Edits, Table};
use super::tables::{BLOCKINGS, FORMATS, LENGTHS, LEVELS, RECORDS};
use crate::model::Call;
use crate::text::address_digits;

/// The 29 bytes of fields told one by one.
pub fn told(name: &[u8], b: &[u8], format: &[u8], level: &[u8], r: &[u8], k: &[u8]) -> Vec<u8> {
    let mut fields = [b' '; 17];
    fields[..name.len()].copy_from_slice(name);
    [&fields[..], b, format, level, r, k].concat()
}

/// Fields of each level and format that are right on a volume of P = 128 and
/// at least two records to a track.
pub fn right() -> [Vec<u8>; 6] {
    [
        told(b"NEW", b"00128", b" ", b" ", b"    ", b" "),
        told(b"NEW", b"00030", b"F", b"1", b"0010", b"B"),
        told(b"A LONG NEW NAME 1", b"00256", b"F", b"2", b"0128", b"B"),
        told(b"A LONG NEW NAME 1", b"00030", b"V", b"2", b"0020", b"B"),
        told(b"NEW", b"00128", b"V", b"2", b"    ", b" "),
        told(b"NEW", b"00030", b"S", b"2", b"0000", b"B"),
    ]
}

/// Two cylinders of three records with a file in slot 1 and another in 3.
fn base() -> Plain {
    let mut plain = Plain::new(2, 11, 3, 0, 1);
    plain.put_label(1, &hdr1("FILE", 30, "01001", "01002"));
    plain.put_label(3, &hdr1("NEXT", 30, "02001", "02001"));
    plain
}

fn create(fields: &[u8], n: u64) -> Call {
    let fields = fields.to_vec();
    Call::Create { fields, n }
}

/// Every byte in every place of right fields.
fn every_byte(fields: &[u8]) -> Table {
    let mut rows = Vec::new();
    for place in 0..fields.len() {
        for byte in 0..=255 {
            let mut fields = fields.to_vec();
            fields[place] = byte;
            rows.push((Edits::new(), create(&fields, 1)));
        }
    }
    table("every-byte-fields", &base(), rows)
}

/// Where a field stands in the 29 bytes, and values that break it.
const FAULTS: [(usize, &[&[u8]]); 6] = [
    (0, &[b"BAD#", b"NINECHARS", b"\0"]),
    (17, &[b"00000", b"00129", b"XXXXX", b"99999"]),
    (22, &[b"X", b"S", b"\0"]),
    (23, &[b"3", b".", b"#", b"\0"]),
    (24, &[b"0007", b"00 0", b"9999"]),
    (28, &[b"X", b"B", b" "]),
];

/// Every two fields at fault, with n of 1 and 0.
fn every_two() -> Table {
    let mut rows = Vec::new();
    for fields in right() {
        for (place, (first, values)) in FAULTS.into_iter().enumerate() {
            for (second, others) in &FAULTS[place..] {
                for value in values {
                    for other in *others {
                        let mut fields = fields.clone();
                        fields[first..first + value.len()].copy_from_slice(value);
                        fields[*second..*second + other.len()].copy_from_slice(other);
                        rows.extend([1, 0].map(|n| (Edits::new(), create(&fields, n))));
                    }
                }
            }
        }
    }
    table("every-two-fields", &base(), rows)
}

/// Chosen values of level, format, B, R and blocking in every combination,
/// with a name of 8 and one of 17 bytes.
fn every_shape() -> Table {
    let mut rows = Vec::new();
    for level in LEVELS {
        for format in FORMATS {
            for blocking in BLOCKINGS {
                for (place, b) in LENGTHS.into_iter().enumerate() {
                    for (step, r) in RECORDS.into_iter().enumerate() {
                        let name: &[u8] = match (place + step) % 3 {
                            0 => b"A LONG NEW NAME 1",
                            _ => b"NEW NAME",
                        };
                        let fields = told(name, b, format, level, r, blocking);
                        rows.push((Edits::new(), create(&fields, 1)));
                    }
                }
            }
        }
    }
    table("every-fields", &base(), rows)
}

/// Every two extents of a small volume that share no record, with every n up
/// to one too many; on one side, on two, and with defective cylinders.
fn every_run(plain: &Plain) -> Table {
    let all = plain.geometry.data_records();
    let fields = &right()[0];
    let mut rows = Vec::new();
    for first in 0..all {
        for last in first..all {
            for next in last + 1..all {
                for end in [next, all - 1] {
                    let mut edits = Edits::new();
                    for (slot, extent) in [(1, [next, end]), (3, [first, last])] {
                        for (position, rank) in [(29, extent[0]), (35, extent[1])] {
                            let digits = address_digits(rank, &plain.geometry);
                            edits.push((index_at(slot + 7, position), digits.to_vec()));
                        }
                        let start = address_digits(extent[0], &plain.geometry);
                        edits.push((index_at(slot + 7, 75), start.to_vec()));
                    }
                    let numbers = 1..=all as u64 + 1;
                    rows.extend(numbers.map(|n| (edits.clone(), create(fields, n))));
                }
            }
        }
    }
    table("every-run", plain, rows)
}

fn runs() -> [Table; 3] {
    let two = |mut plain: Plain| {
        plain.put_label(1, &hdr1("FILE", 30, "01001", "01001"));
        plain.put_label(3, &hdr1("NEXT", 30, "01002", "01002"));
        plain
    };
    let mut defective = Plain::new(3, 10, 2, 0, 1);
    defective.set_sector(5, 7, b"020 040");
    [
        two(Plain::new(2, 10, 3, 0, 1)),
        two(Plain::new(1, 8, 3, 0, 2)),
        two(defective),
    ]
    .map(|plain| every_run(&plain))
}

/// Every set of nine slots with labels, on two sides.
fn every_set_of_slots() -> Table {
    let plain = Plain::new(1, 8, 5, 0, 2);
    let fields = &right()[0];
    let mut rows = Vec::new();
    for set in 0..1usize << 9 {
        let mut edits = Edits::new();
        for slot in (1..=9).filter(|slot| set >> (slot - 1) & 1 == 1) {
            let at = address_digits(slot - 1, &plain.geometry);
            let at = String::from_utf8_lossy(&at).into_owned();
            let label = hdr1(&format!("FILE{slot}"), 30, &at, &at);
            edits.push((index_at(slot + 7, 0), [vec![0], label].concat()));
        }
        let slot = (set % 11) as u64;
        rows.push((edits.clone(), create(fields, 1)));
        rows.push((edits, Call::Delete { slot }));
    }
    table("every-set-of-slots", &plain, rows)
}

/// Numbers of records and slots at the ends of what a machine counts.
const NUMBERS: [u64; 16] = [
    0,
    1,
    2,
    3,
    4,
    5,
    6,
    7,
    1 << 8,
    1 << 16,
    (1 << 32) - 1,
    1 << 32,
    (1 << 32) + 1,
    (1 << 63) - 1,
    1 << 63,
    u64::MAX,
];

fn every_number() -> Table {
    let mut rows = Vec::new();
    for n in NUMBERS {
        for fields in right() {
            rows.push((Edits::new(), create(&fields, n)));
        }
        for slot in [n, n.wrapping_add(1), n.wrapping_add(3)] {
            rows.push((Edits::new(), Call::Delete { slot }));
        }
    }
    table("every-number", &base(), rows)
}

/// Every set of 14, 24 and what a delete does not mind.
fn every_kept() -> Table {
    let mut plain = base();
    plain.set(1, 23, b"00256");
    plain.set(1, 44, b"1");
    let faults: [(usize, &[u8]); 6] = [
        (index_at(8, 44), b"4"),
        (index_at(8, 43), b"P"),
        (index_at(8, 42), b"X"),
        (index_at(8, 45), b"C"),
        (index_at(8, 75), b"01002"),
        (plain.kind_at("01002"), b"\x10D"),
    ];
    let mut rows = Vec::new();
    for set in 0..1usize << faults.len() {
        let chosen = faults.iter().enumerate();
        let edits: Edits = chosen
            .filter(|(place, _)| set >> place & 1 == 1)
            .map(|(_, fault)| (fault.0, fault.1.to_vec()))
            .collect();
        for slot in 0..=5 {
            rows.push((edits.clone(), Call::Delete { slot }));
        }
        rows.push((edits, create(&right()[1], 1)));
    }
    table("every-kept", &plain, rows)
}

/// Every table of creates and deletes.
pub fn tables() -> Vec<Table> {
    let mut tables: Vec<Table> = right()[..5].iter().map(|f| every_byte(f)).collect();
    tables.extend([every_two(), every_shape(), every_set_of_slots()]);
    tables.extend(runs());
    tables.extend([every_number(), every_kept()]);
    tables
}

/// Every byte in every place of one right set of fields, and fields of other
/// lengths: bad input.
pub fn bad_fields() -> impl Iterator<Item = super::Case> {
    let lengths = [0, 1, 2, 16, 17, 28, 30, 31, 58, 128, 1_000];
    let rows = lengths.into_iter().flat_map(|length| {
        let mut fields = right()[0].clone();
        fields.resize(length, b' ');
        [0, 1].map(|n| (Edits::new(), create(&fields, n)))
    });
    let others = table("bad-fields", &base(), rows.collect());
    every_byte(&right()[1]).cases().chain(others.cases())
}
