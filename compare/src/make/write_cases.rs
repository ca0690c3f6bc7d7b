//! Cases for writing.

use super::build::{volume, Volume};
use super::calls::write_call;
use super::file::{FilePlan, Want};
use super::file_cases::wrong_mark;
use super::pack::{body, pack, Shape};
use super::read_cases::lose;
use super::rng::Rng;
use super::volume_cases::Made;
use crate::model::Call;

/// Records until the extent is full, and the first that no longer fits.
fn filling(rng: &mut Rng, shape: &Shape) -> (Vec<Vec<u8>>, Vec<u8>) {
    let mut records = Vec::new();
    let step = if shape.format == b'F' {
        shape.b / shape.r
    } else {
        1
    };
    let most = if shape.format == b'F' {
        step * shape.capacity
    } else {
        600
    };
    while records.len() < most {
        for _ in 0..step {
            records.push(body(rng, shape));
        }
        if pack(shape, &records).records.len() < records.len() {
            break;
        }
    }
    let kept = pack(shape, &records).records.len();
    let over = match records.get(kept) {
        Some(record) => record.clone(),
        None => body(rng, shape),
    };
    records.truncate(kept);
    (records, over)
}

/// Records that take part of the extent.
fn some(rng: &mut Rng, shape: &Shape) -> Vec<Vec<u8>> {
    let mut records: Vec<Vec<u8>> = (0..rng.between(1, 12)).map(|_| body(rng, shape)).collect();
    let kept = pack(shape, &records).records.len();
    records.truncate(kept);
    records
}

fn written(rng: &mut Rng, largest: usize) -> (Volume, FilePlan) {
    let want = Want {
        format: Some(rng.pick(b"FVSS")),
        ..Want::default()
    };
    let made = volume(rng, largest, want);
    let file = made.main().clone();
    (made, file)
}

/// Lists that fit, also over lost and odd old contents.
pub fn write_some(rng: &mut Rng, largest: usize) -> Made {
    let (mut made, file) = written(rng, largest);
    if rng.chance(40) {
        lose(rng, &mut made, &file, 40);
    }
    if rng.chance(30) {
        let end = rng.between(file.start, file.end);
        made.set(file.slot, 75, &made.digits(end));
    }
    let records = some(rng, &file.shape);
    (made.image, write_call(file.slot as u64, &records))
}

/// Lists that just fit, or need one block more.
pub fn write_full(rng: &mut Rng, largest: usize) -> Made {
    let (made, file) = written(rng, largest);
    let (mut records, over) = filling(rng, &file.shape);
    if rng.chance(50) {
        records.push(over);
    }
    if rng.chance(20) {
        records.extend(some(rng, &file.shape));
    }
    (made.image, write_call(file.slot as u64, &records))
}

/// No records, many empty ones.
pub fn write_empty(rng: &mut Rng, largest: usize) -> Made {
    let (made, file) = written(rng, largest);
    let count = rng.pick(&[0, 1, 2, 5, 30, 300]);
    (
        made.image,
        write_call(file.slot as u64, &vec![Vec::new(); count]),
    )
}

/// Sums that are wrong, also by 2^32 exactly.
pub fn write_sums(rng: &mut Rng, largest: usize) -> Made {
    let (made, file) = written(rng, largest);
    let records = some(rng, &file.shape);
    let mut bodies = records.concat();
    let mut lengths: Vec<u32> = records.iter().map(|record| record.len() as u32).collect();
    match rng.below(6) {
        0 => bodies.push(0),
        1 => drop(bodies.pop()),
        2 => lengths.push(1),
        3 => lengths.extend([u32::MAX, 1]),
        4 => {
            bodies.clear();
            lengths = vec![1 << 31, 1 << 31];
        }
        _ => lengths = vec![u32::MAX; rng.between(1, 4)],
    }
    let slot = file.slot as u64;
    let call = Call::Write {
        slot,
        bodies,
        lengths,
    };
    (made.image, call)
}

/// One record, or several, of a wrong length.
pub fn write_lengths(rng: &mut Rng, largest: usize) -> Made {
    let (mut made, file) = written(rng, largest);
    if file.shape.format == b'S' && rng.chance(30) {
        made.set(file.slot, 54, b"0003");
    }
    let mut records = some(rng, &file.shape);
    let r = file.shape.r;
    for _ in 0..rng.between(1, 2) {
        let length = match rng.below(5) {
            0 => r + 1,
            1 => r.saturating_sub(3),
            2 => r.saturating_sub(4),
            3 => r,
            _ => rng.below(12),
        };
        records.insert(rng.between(0, records.len()), vec![b'L'; length]);
    }
    (made.image, write_call(file.slot as u64, &records))
}

/// Refusals 13 to 17 and 24, with faults of the list besides.
pub fn write_refused(rng: &mut Rng, largest: usize) -> Made {
    let (mut made, file) = written(rng, largest);
    let mut slot = file.slot as u64;
    match rng.below(7) {
        0 => slot = rng.pick(&[0, 1, 2, 3, 99, u64::MAX]),
        1 => made.set(file.slot, 44, b"5"),
        2 => made.set(file.slot, 42, b"A"),
        3 => made.set(file.slot, 45, b"L"),
        4 => made.set(file.slot, 43, b"P"),
        _ => wrong_mark(rng, &mut made, file.slot),
    }
    let mut records = some(rng, &file.shape);
    if rng.chance(30) {
        records.push(vec![0; file.shape.b + 1]);
    }
    let mut call = write_call(slot, &records);
    if let (Call::Write { bodies, .. }, true) = (&mut call, rng.chance(30)) {
        bodies.push(0);
    }
    (made.image, call)
}
