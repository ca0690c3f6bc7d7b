//! Volumes by hand for the tests of the readings.
#![allow(dead_code)]

use compare::make::sample::{hdr1, Plain};
use compare::{judge, Place, Reading, Refusal};

/// L=2, I=10, D=8, P=128, S=1 with a fixed file of 01001-01008 in slot 1.
pub fn base() -> Plain {
    let mut plain = Plain::new(2, 10, 8, 0, 1);
    plain.put_label(1, &hdr1("ONE", 30, "01001", "01008"));
    plain
}

/// The same with level 2, a format, B, R and blocking.
pub fn shaped(format: &[u8; 1], b: usize, r: &[u8; 4], blocking: &[u8; 1]) -> Plain {
    let mut plain = base();
    plain.set(1, 40, format);
    plain.set(1, 44, b"2");
    plain.set(1, 23, format!("{b:05}").as_bytes());
    plain.set(1, 54, r);
    plain.set(1, 63, blocking);
    plain
}

/// A file of level 2 with blocks as given, each on one record; `r` as it
/// stands in the label. The data end is behind the last block.
pub fn with_blocks(format: &[u8; 1], b: usize, r: &[u8; 4], blocks: &[&[u8]]) -> Plain {
    let mut plain = shaped(format, b, r, b"B");
    for (number, block) in blocks.iter().enumerate() {
        plain.set_body(&format!("0100{}", number + 1), block);
    }
    plain.set(1, 75, format!("0100{}", blocks.len() + 1).as_bytes());
    plain
}

/// A spanned file of B = 20 without a maximum.
pub fn spanned(blocks: &[&[u8]]) -> Plain {
    with_blocks(b"S", 20, b"0000", blocks)
}

pub fn refusal(plain: &Plain) -> Option<Refusal> {
    judge(&plain.image).err()
}

/// Refusal 10 at a position of slot 1.
pub fn fault(position: usize) -> Option<Refusal> {
    Some(Refusal::at_two(10, 1, position))
}

pub fn broken(block: usize, offset: usize) -> Result<(Reading, Vec<u8>), Refusal> {
    Err(Refusal::at_two(21, block, offset))
}

pub fn record(body: &[u8], block: u64, offset: u64) -> Result<(Reading, Vec<u8>), Refusal> {
    let next = Place::unmarked(block, offset);
    let length = body.len() as u64;
    Ok((Reading::Record { length, next }, body.to_vec()))
}

pub fn gap(block: u64) -> Result<(Reading, Vec<u8>), Refusal> {
    let next = Place {
        block,
        offset: 0,
        mark: true,
    };
    Ok((Reading::Gap { next }, Vec::new()))
}

pub fn end(block: u64) -> Result<(Reading, Vec<u8>), Refusal> {
    let next = Place::unmarked(block, 0);
    Ok((Reading::End { next }, Vec::new()))
}

fn with_body(given: Result<Reading, Refusal>, out: &[u8]) -> Result<(Reading, Vec<u8>), Refusal> {
    given.map(|reading| {
        let length = match reading {
            Reading::Record { length, .. } => length as usize,
            _ => 0,
        };
        (reading, out[..length].to_vec())
    })
}

pub fn read_at(plain: &Plain, block: u64, offset: u64) -> Result<(Reading, Vec<u8>), Refusal> {
    let mut out = [0xEE; 400];
    let place = Place::unmarked(block, offset);
    with_body(compare::read(&plain.image, 1, place, &mut out), &out)
}

pub fn salvage_at(
    plain: &Plain,
    block: u64,
    offset: u64,
    mark: bool,
) -> Result<(Reading, Vec<u8>), Refusal> {
    let mut out = [0xEE; 400];
    let place = Place {
        block,
        offset,
        mark,
    };
    with_body(compare::salvage(&plain.image, 1, place, &mut out), &out)
}
