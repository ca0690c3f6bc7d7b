//! Writes counted out: every two lengths about the bounds of a block, every
//! number of records up to one too many, every extent of a small volume; and
//! writes as large as can be.

use crate::make::calls::write_call;
use crate::make::places::with_seven;
use crate::make::rng::Rng;
use crate::make::sample::{hdr1, Plain};
use crate::make::sizes::{longest_blocks, longest_record, most_blocks, typical, LONGEST_RECORD};
use crate::model::Call;
use crate::session::Session;
use crate::text::address_digits;
use crate::written::{list_for, Writer, MOST_READ};
use std::io;

/// Bodies of so many bytes each, no two alike beside each other.
pub fn lettered(lengths: &[usize]) -> Vec<Vec<u8>> {
    let letters = (b'a'..=b'z').cycle();
    let bodies = lengths.iter().zip(letters);
    bodies
        .map(|(&length, letter)| vec![letter; length])
        .collect()
}

/// The image with no data record of 00, so that each byte of fill shows, and
/// no space where the label in a slot is not judged.
fn soiled(mut plain: Plain, slot: usize) -> Vec<u8> {
    plain.soil_label(slot);
    let Plain {
        geometry,
        mut image,
    } = plain;
    for ordinal in geometry.index_sectors()..geometry.sectors() {
        let at = geometry.kind_at(ordinal) + 1;
        let defective = image[at - 1] >= 16;
        image[at + usize::from(defective)..at + geometry.p()].fill(0x80 | ordinal as u8);
    }
    image
}

/// Lists of one, two and three lengths about the bounds of a block of V or S.
fn about_a_block(b: usize, most: usize) -> Vec<Vec<usize>> {
    let mut lists = Vec::new();
    for first in 0..=most {
        lists.push(vec![first]);
        for second in [0, 1, b / 2] {
            lists.push(vec![first, second.min(most)]);
        }
        lists.push(vec![first, 0, 0, 1.min(most)]);
    }
    lists
}

/// So many records of one length, up to one too many of them and more.
fn up_to(count: usize, length: usize) -> Vec<Vec<usize>> {
    (0..=count).map(|count| vec![length; count]).collect()
}

/// A file whose data end splits a block, which may be written all the same.
fn split() -> Plain {
    let mut plain = with_seven(b" ", 256, b"0064", b"B");
    plain.set(1, 75, b"01002");
    plain
}

/// One small file after another, each written over and over.
pub fn lengths(session: &mut Session) -> io::Result<()> {
    let files = [
        (with_seven(b"S", 12, b"0000", b"B"), about_a_block(12, 25)),
        (with_seven(b"S", 20, b"    ", b"B"), about_a_block(20, 20)),
        (with_seven(b"S", 7, b"0009", b"B"), about_a_block(7, 9)),
        (with_seven(b"S", 6, b"0000", b"B"), about_a_block(6, 8)),
        (with_seven(b"S", 5, b"0000", b"B"), up_to(8, 0)),
        (with_seven(b"S", 12, b"0000", b"B"), up_to(15, 0)),
        (with_seven(b"V", 12, b"    ", b"B"), about_a_block(12, 8)),
        (with_seven(b"V", 20, b"0014", b"B"), about_a_block(20, 10)),
        (with_seven(b"V", 12, b"    ", b"B"), up_to(22, 0)),
        (with_seven(b"V", 4, b"    ", b"B"), up_to(8, 0)),
        (with_seven(b"V", 12, b"    ", b" "), up_to(8, 5)),
        (with_seven(b"F", 12, b"0004", b"B"), up_to(23, 4)),
        (with_seven(b"F", 12, b"    ", b" "), up_to(9, 12)),
        (split(), up_to(14, 64)),
    ];
    for (plain, lists) in files {
        let mut rng = Rng::new(lists.len() as u64);
        let mut writer = Writer::new(session, &mut rng, "lengths", soiled(plain, 1));
        for lengths in lists {
            let call = write_call(1, &lettered(&lengths));
            writer.write_and_read(call, MOST_READ)?;
        }
    }
    Ok(())
}

fn digits(plain: &Plain, record: usize) -> String {
    String::from_utf8_lossy(&address_digits(record, &plain.geometry)).into_owned()
}

/// Two cylinders of two sides of three sectors, one file on some of them,
/// one of its records defective or none, in blocks of so many records.
fn on(first: usize, last: usize, defective: Option<usize>, m: usize) -> Plain {
    let mut plain = Plain::new(2, 8, 3, 0, 2);
    let (start, end) = (digits(&plain, first), digits(&plain, last));
    plain.put_label(2, &hdr1("EXTENT", 128 * m, &start, &end));
    plain.set(2, 44, b"1");
    if let Some(record) = defective {
        let address = digits(&plain, record);
        plain.set_kind(&address, 16);
        plain.set_body(&address, b"F");
    }
    plain
}

/// Every extent of that volume, written with no, one, all blocks but one, all
/// and one too many.
pub fn extents(session: &mut Session) -> io::Result<()> {
    for first in 0..12 {
        for last in first..12 {
            let middle = first + (last - first) / 2;
            for (defective, m) in [(None, 1), (Some(last), 1), (Some(middle), 2)] {
                let plain = on(first, last, defective, m);
                let good = last - first + 1 - usize::from(defective.is_some());
                written_to(session, plain, good / m, 128 * m)?;
            }
        }
    }
    Ok(())
}

fn written_to(session: &mut Session, plain: Plain, held: usize, r: usize) -> io::Result<()> {
    let mut rng = Rng::new(held as u64);
    let mut writer = Writer::new(session, &mut rng, "extents", soiled(plain, 2));
    let mut counts = vec![held, held.saturating_sub(1), 1, 0, held + 1];
    counts.dedup();
    for count in counts {
        let call = write_call(2, &lettered(&vec![r; count]));
        writer.write_and_read(call, MOST_READ)?;
    }
    Ok(())
}

/// Records of one length; the letters keep neighbours apart.
fn of(length: usize, count: usize) -> Call {
    write_call(1, &lettered(&vec![length; count]))
}

/// Lists on the largest volumes, in turn on each.
fn in_turn(session: &mut Session, image: Vec<u8>, lists: Vec<Call>) -> io::Result<()> {
    let mut rng = Rng::new(image.len() as u64);
    let mut writer = Writer::new(session, &mut rng, "large", image);
    for call in lists {
        writer.write_and_read(call, 3)?;
    }
    Ok(())
}

/// The most blocks, the longest blocks, the longest record and the most
/// records; and each file of a volume of many.
pub fn large(session: &mut Session) -> io::Result<()> {
    let (blocks, length) = LONGEST_RECORD;
    in_turn(
        session,
        most_blocks(),
        vec![of(64, 9_983), of(64, 9_985), of(64, 3), of(64, 9_984)],
    )?;
    in_turn(
        session,
        longest_blocks(),
        vec![of(1_024, 4_992), of(1_024, 4_993), of(1_024, 27)],
    )?;
    let empty = blocks as usize * (9_216 / 5);
    in_turn(
        session,
        longest_record(),
        vec![
            of(length + 1, 1),
            of(length, 1),
            of(0, empty + 1),
            of(0, empty),
        ],
    )?;
    let image = typical();
    let mut rng = Rng::new(image.len() as u64);
    let lists: Vec<Call> = (1..=6)
        .map(|slot| list_for(&mut rng, &image, slot))
        .collect();
    in_turn(session, image, lists)
}
