//! Every place of a few files, and writes of every two or three lengths.

use super::calls::reading_of;
use super::sample::{hdr1, Plain};
use super::tables::{record_length, table, Edits, Table};
use crate::model::Call;

/// A small volume of one file of level 2 on seven records.
pub fn with_seven(format: &[u8; 1], b: usize, r: &[u8; 4], blocking: &[u8; 1]) -> Plain {
    let mut plain = Plain::new(1, 8, 7, 0, 1);
    plain.put_label(1, &hdr1("FILE", b, "01001", "01007"));
    plain.set(1, 44, b"2");
    plain.set(1, 40, format);
    plain.set(1, 54, r);
    plain.set(1, 63, blocking);
    plain
}

/// A file with blocks as given, each on one record.
fn with_blocks(format: &[u8; 1], blocking: &[u8; 1], u: &[u8; 5], blocks: &[&[u8]]) -> Plain {
    let mut plain = with_seven(format, 20, b"    ", blocking);
    for (number, block) in blocks.iter().enumerate() {
        plain.set_body(&format!("0100{}", number + 1), block);
    }
    let data_end = match blocks.len() {
        7 => "02001".to_string(),
        length => format!("0100{}", length + 1),
    };
    plain.set(1, 75, data_end.as_bytes());
    plain.set(1, 58, u);
    plain
}

/// Reading and salvage from a place.
pub(super) fn both(block: u64, offset: u64, mark: u64, room: usize) -> [Call; 2] {
    let out = vec![b'.'; room];
    [false, true].map(|salvaging| reading_of(1, [block, offset, mark], salvaging, out.clone()))
}

/// Every place of blocks 0 to `count` + 1, with and without the mark.
fn every_place(plain: &Plain, count: u64, b: u64) -> Table {
    let mut rows = Vec::new();
    for block in 0..=count + 1 {
        for offset in 0..=b + 1 {
            for mark in [0, 1] {
                let room = if (block + offset) % 4 == 0 { 2 } else { 40 };
                for call in both(block, offset, mark, room) {
                    rows.push((Edits::new(), call));
                }
            }
        }
    }
    table("every-place", plain, rows)
}

/// Every block's start with every R up to 45.
fn every_maximum(plain: &Plain) -> Table {
    let mut rows = Vec::new();
    for r in 0..=45 {
        for block in 0..7 {
            for mark in [0, 1] {
                for call in both(block, 0, mark, 60) {
                    rows.push((record_length(r), call));
                }
            }
        }
    }
    table("every-maximum", plain, rows)
}

fn lost(mut plain: Plain, address: &str) -> Plain {
    plain.set_kind(address, 32);
    plain
}

fn spanned_files() -> [Plain; 6] {
    let sound: [&[u8]; 6] = [
        b"00008abc10012defghij",
        b"20020klmnopqrstuvwxy",
        b"30006z00005",
        b"",
        b"10006a",
        b"30008bcd00005",
    ];
    let odd: [&[u8]; 7] = [
        b"30006a30006b",
        b"20006c",
        b"",
        b"20006d",
        b"00006e",
        b"10006f",
        b"20006g",
    ];
    // Rests behind 1 and 2 that are no fill, the last behind the content.
    let dirty: [&[u8]; 6] = [
        b"10006a\0X",
        b"30006b",
        b"10006c",
        b"20006d00006e",
        b"30006f\0\0\0\0\0\0\0\0X",
        b"20006g\0\0\0\0\0\0\0\0\0X",
    ];
    let whole = with_blocks(b"S", b"B", b"00007", &sound);
    [
        lost(whole.clone(), "01002"),
        lost(whole.clone(), "01004"),
        lost(whole.clone(), "01006"),
        whole,
        with_blocks(b"S", b"B", b"     ", &odd),
        with_blocks(b"S", b"B", b"00005", &dirty),
    ]
}

fn other_files() -> [Plain; 5] {
    let variable: [&[u8]; 4] = [
        b"0007abc0013defghijkl",
        b"0004000600000005m",
        b"",
        b"0008wxyz00040007qrs",
    ];
    let single: [&[u8]; 3] = [b"0007abc", b"0020abcdefghijklmnop", b"0005a0004"];
    let fixed: [&[u8]; 3] = [b"abcdefghijklmnopqrst", b"uvwxy", b"0123456789"];
    let mut tens = with_blocks(b"F", b"B", b"00010", &fixed);
    tens.set(1, 54, b"0005");
    let blocked = with_blocks(b"V", b"B", b"     ", &variable);
    [
        lost(blocked.clone(), "01003"),
        blocked,
        with_blocks(b"V", b" ", b"     ", &single),
        lost(tens.clone(), "01002"),
        tens,
    ]
}

/// Writes of two and three records of every length up to a bound.
fn every_write(format: &[u8; 1], b: usize, r: &[u8; 4], blocking: &[u8; 1]) -> Table {
    let plain = with_seven(format, b, r, blocking);
    let mut rows = Vec::new();
    let mut add = |lengths: Vec<u32>| {
        let bodies = lengths.iter().zip(b'a'..);
        let call = Call::Write {
            slot: 1,
            bodies: bodies
                .flat_map(|(&length, letter)| vec![letter; length as usize])
                .collect(),
            lengths,
        };
        rows.push((Edits::new(), call));
    };
    for first in 0..=2 * b as u32 {
        for second in 0..=b as u32 + 2 {
            add(vec![first, second]);
            if first % 5 == 0 {
                add(vec![second, first, second]);
            }
        }
    }
    for count in 0..=50 {
        add(vec![0; count]);
        add(vec![b as u32 / 2; count]);
    }
    table("every-write", &plain, rows)
}

pub fn tables() -> Vec<Table> {
    let mut tables: Vec<Table> = spanned_files()
        .iter()
        .chain(&other_files())
        .map(|plain| every_place(plain, 7, 20))
        .collect();
    tables.extend(spanned_files().iter().map(every_maximum));
    tables.extend(other_files()[..2].iter().map(every_maximum));
    tables.push(every_write(b"S", 20, b"0000", b"B"));
    tables.push(every_write(b"S", 20, b"    ", b"B"));
    tables.push(every_write(b"S", 6, b"0009", b"B"));
    tables.push(every_write(b"S", 5, b"0000", b"B"));
    tables.push(every_write(b"V", 20, b"    ", b"B"));
    tables.push(every_write(b"V", 20, b"0012", b" "));
    tables.push(every_write(b"F", 20, b"0010", b"B"));
    tables.push(every_write(b"F", 10, b"    ", b" "));
    tables
}
