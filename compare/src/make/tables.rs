//! Cases counted out instead of drawn: every byte in every judged position,
//! every kind, chosen shapes of a label, every place of a few files.

use super::places::both;
use super::sample::{hdr1, Plain};
use super::Case;
use crate::layout::INDEX_SECTOR;
use crate::model::Call;

/// A few bytes of the image set anew.
pub(super) type Edits = Vec<(usize, Vec<u8>)>;

/// One image with many small changes, a call for each.
pub struct Table {
    pub family: &'static str,
    base: Vec<u8>,
    rows: Vec<(Edits, Call)>,
}

impl Table {
    fn new(family: &'static str, base: &Plain) -> Table {
        Table {
            family,
            base: base.image.clone(),
            rows: Vec::new(),
        }
    }

    fn add(&mut self, edits: Edits, call: Call) {
        self.rows.push((edits, call));
    }

    pub fn len(&self) -> usize {
        self.rows.len()
    }

    pub fn is_empty(&self) -> bool {
        self.rows.is_empty()
    }

    /// The cases of the table in order.
    pub fn cases(self) -> impl Iterator<Item = Case> {
        let (family, base) = (self.family, self.base);
        self.rows.into_iter().map(move |(edits, call)| {
            let mut image = base.clone();
            for (at, bytes) in edits {
                image[at..at + bytes.len()].copy_from_slice(&bytes);
            }
            Case {
                family,
                image,
                call,
            }
        })
    }
}

/// Where a position, from 1, of an index sector, from 01, stands.
pub(super) fn index_at(sector: usize, position: usize) -> usize {
    (sector - 1) * INDEX_SECTOR + position
}

const VOL1: usize = 7;
const ERMAP: usize = 5;
/// Slot 1.
const HDR1: usize = 8;

/// A volume of two cylinders of three records with a file in slot 1.
fn base(name: &str, b: usize) -> Plain {
    let mut plain = Plain::new(2, 10, 3, 0, 1);
    plain.put_label(1, &hdr1(name, b, "01001", "02002"));
    plain
}

fn shaped(level: &[u8], format: &[u8], b: usize, r: &[u8], blocking: &[u8]) -> Plain {
    let mut plain = base("FILE", b);
    plain.set(1, 44, level);
    plain.set(1, 40, format);
    plain.set(1, 54, r);
    plain.set(1, 63, blocking);
    plain
}

/// One label of each level and format.
fn labels() -> [Plain; 7] {
    [
        shaped(b" ", b" ", 30, b"    ", b" "),
        shaped(b"1", b"F", 30, b"0010", b"B"),
        shaped(b"2", b"F", 256, b"0128", b"B"),
        shaped(b"2", b"V", 30, b"0020", b"B"),
        shaped(b"2", b"V", 128, b"    ", b" "),
        shaped(b"2", b"S", 30, b"0000", b"B"),
        shaped(b"7", b"X", 0, b"ABCD", b"?"),
    ]
}

/// Every byte in each of positions 1 to 90 of an index sector, the last that
/// a label's rules name; one byte in each behind them.
fn every_byte(family: &'static str, plain: &Plain, sector: usize) -> Table {
    let mut table = Table::new(family, plain);
    for position in 1..=90 {
        for byte in 0..=255 {
            table.add(vec![(index_at(sector, position), vec![byte])], Call::Judge);
        }
    }
    for position in 91..=128 {
        table.add(vec![(index_at(sector, position), vec![0xFF])], Call::Judge);
    }
    table
}

/// Every two-digit number, decimal and hex, in every field of two or three.
fn every_pair() -> Table {
    let plain = base("FILE", 30);
    let mut table = Table::new("every-pair", &plain);
    for number in 0..=255 {
        let hex = format!("{number:02X}").into_bytes();
        for position in [81, 83, 85] {
            table.add(vec![(index_at(VOL1, position), hex.clone())], Call::Judge);
        }
        table.add(vec![(index_at(VOL1, 77), hex.clone())], Call::Judge);
        for position in [46, 48, 50, 52, 67, 69, 71] {
            let date = (index_at(HDR1, 48), b"960101".to_vec());
            let expiry = (index_at(HDR1, 67), b"960101".to_vec());
            let pair = (index_at(HDR1, position), hex.clone());
            table.add(vec![date, expiry, pair], Call::Judge);
        }
    }
    for d1 in 0..=5 {
        for d2 in 0..=5 {
            let digits = format!("{d1:02}0 {d2:02}0");
            for fields in [digits.replace("000", "   "), digits] {
                table.add(vec![(index_at(ERMAP, 7), fields.into_bytes())], Call::Judge);
            }
        }
    }
    table
}

/// Every address in start, end and data end.
fn every_address() -> Table {
    let plain = base("FILE", 30);
    let mut table = Table::new("every-address", &plain);
    for number in 0..=42 {
        let (cylinder, side, sector) = (number / 10, number / 5 % 2, number % 5);
        let address = format!("{cylinder:02}{side}{sector:02}").into_bytes();
        for position in [29, 35, 75] {
            table.add(
                vec![(index_at(HDR1, position), address.clone())],
                Call::Judge,
            );
        }
    }
    table
}

pub(super) const LEVELS: [&[u8]; 5] = [b" ", b"1", b"2", b"7", b"@"];
pub(super) const FORMATS: [&[u8]; 5] = [b" ", b"F", b"V", b"S", b"X"];
pub(super) const BLOCKINGS: [&[u8]; 3] = [b" ", b"B", b"X"];
pub(super) const LENGTHS: [&[u8]; 9] = [
    b"00000", b"00003", b"00004", b"00005", b"00030", b"00128", b"00129", b"00256", b"00512",
];
pub(super) const RECORDS: [&[u8]; 8] = [
    b"    ", b"0000", b"0003", b"0004", b"0007", b"0010", b"0030", b"0128",
];
const UNUSED: [&[u8]; 5] = [b"     ", b"00001", b"00010", b"00030", b"X    "];

/// Chosen values of level, format, B, R and blocking in every combination,
/// with U as spaces and with one other value.
fn every_shape() -> Table {
    let plain = base("FILE", 30);
    let mut table = Table::new("every-shape", &plain);
    let at = |position: usize| index_at(HDR1, position);
    for level in LEVELS {
        for format in FORMATS {
            for blocking in BLOCKINGS {
                for (place, length) in LENGTHS.into_iter().enumerate() {
                    for (step, record) in RECORDS.into_iter().enumerate() {
                        let unused = UNUSED[(place + step) % UNUSED.len()];
                        for unused in [UNUSED[0], unused] {
                            let edits = vec![
                                (at(44), level.to_vec()),
                                (at(40), format.to_vec()),
                                (at(63), blocking.to_vec()),
                                (at(23), length.to_vec()),
                                (at(54), record.to_vec()),
                                (at(58), unused.to_vec()),
                            ];
                            table.add(edits, Call::Judge);
                        }
                    }
                }
            }
        }
    }
    table
}

/// Every kind in sectors of every sort.
fn every_kind(k: u8) -> Table {
    let mut plain = Plain::new(2, 8, 1, k, 2);
    plain.put_label(1, &hdr1("FILE", 30, "01001", "02001"));
    let geometry = plain.geometry;
    let index = geometry.index_sectors();
    let mut table = Table::new("every-kind", &plain);
    for ordinal in [
        0,
        3,
        4,
        5,
        6,
        7,
        8,
        index - 1,
        index,
        index + 1,
        geometry.sectors() - 1,
    ] {
        for kind in 0..=255 {
            let edits = vec![(geometry.kind_at(ordinal), vec![kind])];
            let call = if kind % 2 == 0 {
                Call::Judge
            } else {
                Call::Count { slot: 1 }
            };
            table.add(edits, call);
        }
    }
    table
}

/// Two extents of every sort, now and then of another level.
fn every_clash() -> Table {
    let mut plain = base("FIRST", 30);
    plain.put_label(3, &hdr1("SECOND", 30, "02002", "02003"));
    let mut table = Table::new("every-clash", &plain);
    let extents: Vec<(usize, usize)> = (0..6)
        .flat_map(|start| (start..6).map(move |end| (start, end)))
        .collect();
    for (place, &first) in extents.iter().enumerate() {
        for (step, &second) in extents.iter().enumerate() {
            let mut edits = Vec::new();
            for (sector, (start, end)) in [(HDR1, first), (HDR1 + 2, second)] {
                for (position, record) in [(29, start), (35, end), (75, start)] {
                    let digits = crate::text::address_digits(record, &plain.geometry);
                    edits.push((index_at(sector, position), digits.to_vec()));
                }
            }
            if (place + step) % 3 == 0 {
                edits.push((index_at(HDR1, 44), b"5".to_vec()));
            }
            let call = if step % 2 == 0 {
                Call::Judge
            } else {
                Call::Free
            };
            table.add(edits, call);
        }
    }
    table
}

/// Every data end and a few U for a file with m = 2 and defective records.
fn every_data_end() -> Table {
    let mut plain = shaped(b"2", b"F", 256, b"0128", b"B");
    plain.set_kind("01002", 16);
    plain.set_body("01002", b"F");
    let mut table = Table::new("every-data-end", &plain);
    let second = plain.kind_at("02001");
    for record in 0..=6 {
        for unused in [&b"     "[..], b"00128"] {
            for mark in [&b"\x00A"[..], b"\x10F", b"\x10D", b"\x20A"] {
                let digits = crate::text::address_digits(record, &plain.geometry);
                let edits = vec![
                    (index_at(HDR1, 75), digits.to_vec()),
                    (index_at(HDR1, 58), unused.to_vec()),
                    (second, mark.to_vec()),
                ];
                for call in [Call::Count { slot: 1 }, Call::Listing] {
                    table.add(edits.clone(), call);
                }
            }
        }
    }
    table
}

/// Calls of every sort on slot 1, some with faults of their own.
fn file_calls() -> Vec<Call> {
    let write = |bodies: usize, lengths: Vec<u32>| Call::Write {
        slot: 1,
        bodies: vec![b'w'; bodies],
        lengths,
    };
    let mut calls = vec![
        Call::Judge,
        Call::Listing,
        Call::Count { slot: 1 },
        write(128, vec![128]),
        write(129, vec![128]),
        write(127, vec![127]),
        write(640, vec![128; 5]),
        write(0, vec![]),
    ];
    for (block, offset) in [(0, 0), (0, 1), (1, 128), (9, 0)] {
        calls.extend(both(block, offset, 0, 200));
        calls.extend(both(block, offset, 1, 9));
    }
    calls
}

/// Every set of 14, 15, 16, 24, 17, 18 and 20 at once: the order shows.
fn every_order() -> Table {
    let mut plain = shaped(b"2", b"F", 256, b"0128", b"B");
    plain.set(1, 75, b"02001");
    let mut table = Table::new("every-order", &plain);
    // 02001 is the fourth record, so the data end splits a block as it is.
    let faults = [
        (index_at(HDR1, 44), b"4".to_vec()),
        (index_at(HDR1, 42), b"X".to_vec()),
        (index_at(HDR1, 45), b"C".to_vec()),
        (index_at(HDR1, 43), b"P".to_vec()),
        (plain.kind_at("02002"), b"\x10D".to_vec()),
        (index_at(HDR1, 75), b"01003".to_vec()),
        (plain.kind_at("01001"), b"\x20".to_vec()),
    ];
    for set in 0..1usize << faults.len() {
        let chosen = faults.iter().enumerate();
        let edits: Edits = chosen
            .filter(|(place, _)| set >> place & 1 == 1)
            .map(|(_, fault)| fault.clone())
            .collect();
        for call in file_calls() {
            table.add(edits.clone(), call);
        }
    }
    table
}

/// Block lengths around 9,999, which need records of 1,024 bytes.
fn every_long_block() -> Table {
    let mut plain = Plain::new(1, 8, 10, 3, 1);
    plain.put_label(1, &hdr1("LONG", 1_024, "01001", "01010"));
    let mut table = Table::new("every-long-block", &plain);
    for level in [b"1", b"2", b"@"] {
        for (format, blocking) in [(b"F", b" "), (b"F", b"B"), (b"V", b"B"), (b"S", b"B")] {
            for length in [b"09216", b"09999", b"10000", b"10240", b"11264"] {
                let edits = vec![
                    (index_at(HDR1, 44), level.to_vec()),
                    (index_at(HDR1, 40), format.to_vec()),
                    (index_at(HDR1, 63), blocking.to_vec()),
                    (index_at(HDR1, 23), length.to_vec()),
                ];
                table.add(edits, Call::Judge);
            }
        }
    }
    table
}

/// Every table, in order.
pub fn tables() -> Vec<Table> {
    let mut tables = vec![
        every_byte("every-byte-vol1", &base("FILE", 30), VOL1),
        every_byte("every-byte-ermap", &base("FILE", 30), ERMAP),
        every_pair(),
        every_address(),
        every_shape(),
        every_clash(),
        every_data_end(),
        every_long_block(),
        every_order(),
    ];
    for plain in &labels() {
        tables.push(every_byte("every-byte-hdr1", plain, HDR1));
    }
    tables.extend((0..4).map(every_kind));
    tables.extend(super::places::tables());
    tables.extend(super::create_tables::tables());
    tables
}

/// The cases of every table, of the version digit and of the skip of defective
/// cylinders, whose image has at most `largest` bytes; the same each time. All
/// but `every-long-block` and some of the last two are below 13,000 bytes.
pub fn counted(largest: usize) -> impl Iterator<Item = Case> {
    let fitting = tables()
        .into_iter()
        .filter(move |table| table.base.len() <= largest);
    let version = super::version::told().map(|(case, _)| case);
    let cylinders = super::cylinders::all().map(|(case, _)| case);
    let told = version.chain(cylinders);
    let told = told.filter(move |case| case.image.len() <= largest);
    fitting.flat_map(Table::cases).chain(told)
}

/// For the tables of places, writes and creates.
pub(super) fn table(family: &'static str, plain: &Plain, rows: Vec<(Edits, Call)>) -> Table {
    Table {
        rows,
        ..Table::new(family, plain)
    }
}

/// R set in the label of slot 1.
pub(super) fn record_length(r: usize) -> Edits {
    vec![(index_at(HDR1, 54), format!("{r:04}").into_bytes())]
}
