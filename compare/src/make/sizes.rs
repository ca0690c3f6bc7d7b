//! Volumes for measuring: of three sizes with as many labels as wanted, to be
//! judged; with one full file, to be read; with one file to be written, and
//! lists that fill it.

use super::pack::{pack, Shape as Packing};
use super::rng::Rng;
use super::sample::{hdr1, Plain};
use crate::text::address_digits;

/// A blocked file of level 2: its format, B, R and U.
struct Shape {
    format: &'static [u8; 1],
    block: usize,
    record: &'static [u8; 4],
    unused: &'static [u8; 5],
}

/// Blocks of eight, four and three physical records of a size.
fn shape(number: usize, p: usize) -> Shape {
    match number % 3 {
        0 => Shape {
            format: b"F",
            block: 8 * p,
            record: b"0064",
            unused: b"00128",
        },
        1 => Shape {
            format: b"V",
            block: 4 * p,
            record: b"0100",
            unused: b"00077",
        },
        _ => Shape {
            format: b"S",
            block: 3 * p,
            record: b"0000",
            unused: b"     ",
        },
    }
}

/// Labels in the first slots, on two cylinders each, one behind the other,
/// of two blocks of 00 each.
/// Names differ only at their end, so that a comparison has most to do.
fn with_files(mut plain: Plain, count: usize) -> Vec<u8> {
    let geometry = plain.geometry;
    for slot in 1..=count {
        let shape = shape(slot, geometry.p());
        let last_side = geometry.s - 1;
        let start = format!("{:02}001", 2 * slot - 1);
        let end = format!("{:02}{last_side}{:02}", 2 * slot, geometry.d);
        let name = format!("MACHINE PARTS {slot:03}");
        plain.put_label(slot, &hdr1(&name, shape.block, &start, &end));
        plain.set(slot, 40, shape.format);
        plain.set(slot, 44, b"2");
        plain.set(slot, 48, b"890401");
        plain.set(slot, 54, shape.record);
        plain.set(slot, 58, shape.unused);
        plain.set(slot, 63, b"B");
        plain.set(slot, 67, b"999999");
        let behind = 2 * shape.block / geometry.p() + 1;
        plain.set(
            slot,
            75,
            format!("{:02}0{behind:02}", 2 * slot - 1).as_bytes(),
        );
    }
    plain.image
}

/// 1,548 bytes: one cylinder, one sector, one slot, one label.
pub fn smallest() -> Vec<u8> {
    let mut plain = Plain::new(1, 8, 1, 0, 1);
    plain.put_label(1, &hdr1("PARTS", 128, "01001", "01001"));
    plain.image
}

/// 271,674 bytes: 77 cylinders of 26 records of 128 bytes, six files.
pub fn typical() -> Vec<u8> {
    with_files(Plain::new(77, 26, 26, 0, 1), 6)
}

/// 5,283,408 bytes, as large as can be, with so many of its 45 slots used.
pub fn largest(count: usize) -> Vec<u8> {
    with_files(Plain::new(96, 26, 26, 3, 2), count)
}

/// Volumes for a create, each with its last slot deleted, and for a delete:
/// `create-smallest`, without a label; `create-typical`; `create-largest`, with
/// 44 labels; `create-largest-back`, with their extents in falling order; and
/// `delete-smallest`, `delete-typical`, `delete-largest`.
pub fn to_place(name: &str) -> Option<Vec<u8>> {
    Some(match name {
        "create-smallest" => Plain::new(1, 8, 1, 0, 1).image,
        "create-typical" | "delete-typical" => typical(),
        "create-largest" => largest(44),
        "create-largest-back" => backward(largest(44), 44),
        "delete-smallest" => smallest(),
        "delete-largest" => largest(45),
        _ => return None,
    })
}

/// The first labels of an image in falling order, each with its own name.
fn backward(mut image: Vec<u8>, count: usize) -> Vec<u8> {
    const REST: std::ops::Range<usize> = 22..128;
    let label = |slot: usize| (slot + 6) * 129 + 1;
    let rests: Vec<Vec<u8>> = (1..=count)
        .map(|slot| image[label(slot)..][REST].to_vec())
        .collect();
    for (slot, rest) in (1..=count).rev().zip(rests) {
        image[label(slot)..][REST].copy_from_slice(&rest);
    }
    image
}

/// The geometry for a file of so many sectors: L, I, D and S.
fn room(sectors: usize) -> Option<(usize, usize, usize, usize)> {
    Some(match sectors {
        10 => (1, 8, 10, 1),
        100 => (4, 8, 25, 1),
        1_000 => (20, 26, 25, 2),
        4_900 => (96, 26, 26, 2),
        _ => return None,
    })
}

/// B of every file that is read: five physical records of 256 bytes.
const READ_BLOCK: usize = 1_280;

/// Bodies that fill a file: 80 bytes each in F; up to 300 in V, short and
/// long ones mixed; up to three blocks in S, where the file has so many.
fn bodies(format: u8, capacity: usize) -> Vec<Vec<u8>> {
    let mut rng = Rng::new(28_081);
    let r = match format {
        b'F' => 80,
        b'V' => READ_BLOCK,
        _ => 0,
    };
    let shape = Packing {
        format,
        blocked: true,
        b: READ_BLOCK,
        r,
        capacity,
    };
    let drawn: Vec<Vec<u8>> = (0..capacity * READ_BLOCK / 80 + 1)
        .map(|_| {
            let length = match format {
                b'F' => 80,
                b'V' => rng.between(0, 300),
                _ => rng.between(0, READ_BLOCK * 3.min(capacity / 2)),
            };
            vec![rng.between(b'A' as usize, b'Z' as usize) as u8; length]
        })
        .collect();
    let packed = pack(&shape, &drawn);
    packed
        .records
        .into_iter()
        .map(|record| record.body)
        .collect()
}

/// One blocked file, in slot 1, of `F`, `V` or `S` on so many sectors, some
/// of them defective, and nothing written yet; 54-57 as given.
fn with_one_label(
    format: u8,
    sectors: usize,
    record: &[u8; 4],
    defective: impl Fn(usize) -> bool,
) -> Option<Plain> {
    let (l, i, d, s) = room(sectors)?;
    let mut plain = Plain::new(l, i, d, 1, s);
    let digits = address_digits(sectors - 1, &plain.geometry);
    let end = String::from_utf8_lossy(&digits).into_owned();
    plain.put_label(1, &hdr1("READ", READ_BLOCK, "01001", &end));
    plain.set(1, 40, &[format]);
    plain.set(1, 44, b"2");
    plain.set(1, 54, record);
    plain.set(1, 63, b"B");
    for place in (0..sectors).filter(|&place| defective(place)) {
        let kind = plain.geometry.kind_at(plain.geometry.record_ordinal(place));
        plain.image[kind] = 16 + plain.geometry.k;
        plain.image[kind + 1] = b'F';
    }
    Some(plain)
}

/// The same, full; the middle one of its records defective, or none.
fn with_one_file(format: u8, sectors: usize, defect: bool) -> Option<Plain> {
    let record = match format {
        b'F' => b"0080",
        b'V' => b"    ",
        _ => b"0000",
    };
    let middle = |place| defect && place == sectors / 2;
    let mut plain = with_one_label(format, sectors, record, middle)?;
    let good = sectors - usize::from(defect);
    let bodies = bodies(format, good * 256 / READ_BLOCK);
    let lengths: Vec<u32> = bodies.iter().map(|body| body.len() as u32).collect();
    let written = crate::write(&mut plain.image, 1, &bodies.concat(), &lengths);
    written.is_ok().then_some(plain)
}

/// Names as `F-100`; `S-4900-lost`, with its middle block lost; and
/// `V-1000-defect`, with its middle record defective.
pub fn read_sample(name: &str) -> Option<Vec<u8>> {
    let mut words = name.split('-');
    let format = *words.next()?.as_bytes().first()?;
    let sectors: usize = words.next()?.parse().ok()?;
    let (more, end) = (words.next(), words.next());
    let mut plain = match format {
        b'F' | b'V' | b'S' => with_one_file(format, sectors, more == Some("defect"))?,
        _ => return None,
    };
    match (more, end) {
        (None | Some("defect"), None) => {}
        (Some("lost"), None) => {
            let geometry = plain.geometry;
            let middle = crate::count(&plain.image, 1).ok()? as usize / 2;
            let first = geometry.record_ordinal(middle * READ_BLOCK / geometry.p());
            plain.image[geometry.kind_at(first)] = 32 + geometry.k;
        }
        _ => return None,
    }
    Some(plain.image)
}

/// A volume with one file to be written, and the records that fill it.
pub struct ToWrite {
    pub image: Vec<u8>,
    pub records: Vec<Vec<u8>>,
}

/// Names as `write-F-100`: the volume of `F-100`, its file without a block, and
/// records of 80 bytes in F, of 60 to 100 in V and S; `write-V-100-short`, with
/// records of 4 bytes in F, of 1 to 4 in V and S; and `write-S-100-defect`, with
/// every tenth record of the extent defective.
pub fn to_write(name: &str) -> Option<ToWrite> {
    let mut words = name.strip_prefix("write-")?.split('-');
    let format = *words.next()?.as_bytes().first()?;
    let sectors: usize = words.next()?.parse().ok()?;
    let (more, end) = (words.next(), words.next());
    let (short, defect) = match (more, end) {
        (None, None) => (false, false),
        (Some("short"), None) => (true, false),
        (Some("defect"), None) => (false, true),
        _ => return None,
    };
    let (record, r, least, most): (&[u8; 4], usize, usize, usize) = match (format, short) {
        (b'F', false) => (b"0080", 80, 80, 80),
        (b'F', true) => (b"0004", 4, 4, 4),
        (b'V', false) => (b"    ", READ_BLOCK, 60, 100),
        (b'V', true) => (b"    ", READ_BLOCK, 1, 4),
        (b'S', false) => (b"0000", 0, 60, 100),
        (b'S', true) => (b"0000", 0, 1, 4),
        _ => return None,
    };
    let plain = with_one_label(format, sectors, record, |n| defect && n % 10 == 5)?;
    let good = sectors - if defect { sectors / 10 } else { 0 };
    let shape = Packing {
        format,
        blocked: true,
        b: READ_BLOCK,
        r,
        capacity: good * 256 / READ_BLOCK,
    };
    Some(ToWrite {
        image: plain.image,
        records: records_of(&shape, least, most),
    })
}

/// Records of lengths between two bounds, as many as the blocks hold.
fn records_of(shape: &Packing, least: usize, most: usize) -> Vec<Vec<u8>> {
    let mut rng = Rng::new(28_081);
    let drawn: Vec<Vec<u8>> = (0..shape.capacity * shape.b / least + 1)
        .map(|_| {
            let length = rng.between(least, most);
            vec![rng.between(b'A' as usize, b'Z' as usize) as u8; length]
        })
        .collect();
    let kept = pack(shape, &drawn).records.into_iter();
    kept.map(|record| record.body).collect()
}

/// The largest volume of a size of P with one file on all of it: its format,
/// B and R.
fn filled(k: u8, format: u8, b: usize, r: &[u8; 4]) -> Plain {
    let mut plain = Plain::new(96, 26, 26, k, 2);
    plain.put_label(1, &hdr1("ALL", b, "01001", "96126"));
    plain.set(1, 40, &[format]);
    plain.set(1, 44, b"2");
    plain.set(1, 54, r);
    plain.set(1, 63, b"B");
    plain.set(1, 75, b"97001");
    for record in 0..plain.geometry.data_records() {
        let at = plain
            .geometry
            .kind_at(plain.geometry.record_ordinal(record))
            + 1;
        plain.image[at..at + 2].copy_from_slice(&(record as u16).to_le_bytes());
    }
    plain
}

/// As many blocks as a file can have, 4,992, of one physical record each.
pub fn most_blocks() -> Vec<u8> {
    filled(0, b'F', 128, b"0064").image
}

/// Blocks as long as they can be, 26,624 bytes; 192 of them.
pub fn longest_blocks() -> Vec<u8> {
    filled(3, b'F', 26 * 1_024, b"1024").image
}

/// Blocks of S, 9,216 bytes each, and what one record over all of them holds.
pub const LONGEST_RECORD: (u64, usize) = (554, 554 * (9_216 - 5));

/// One record as long as it can be.
pub fn longest_record() -> Vec<u8> {
    let mut plain = filled(3, b'S', 9_216, b"0000");
    let mut rng = Rng::new(28_081);
    let body = rng.bytes(LONGEST_RECORD.1);
    let written = crate::write(&mut plain.image, 1, &body, &[body.len() as u32]);
    debug_assert!(written == Ok(LONGEST_RECORD.0));
    plain.image
}
