//! Lists of records to be written, by how much of the extent they take.

use super::pack::{body, pack, Packed, Shape};
use super::rng::Rng;

/// What a list takes of the blocks that the extent holds.
#[derive(Clone, Copy, Debug, PartialEq, Eq)]
pub enum Takes {
    Nothing,
    One,
    Some,
    AllButOne,
    /// As many drawn records as fit.
    All,
    /// To the last byte, where the format allows it.
    Exactly,
    /// The same with its last record one byte longer than there is room for;
    /// in F, one more.
    OneByteMore,
    OneRecordMore,
    OneBlockMore,
    /// Empty records, as many as fit; in F, all there is room for.
    Empty,
    OneEmptyMore,
    /// One record as long as the file takes it.
    OneLong,
}

impl Takes {
    pub const ALL: [Takes; 12] = [
        Takes::All,
        Takes::Some,
        Takes::OneByteMore,
        Takes::Exactly,
        Takes::Nothing,
        Takes::One,
        Takes::AllButOne,
        Takes::OneRecordMore,
        Takes::Empty,
        Takes::OneLong,
        Takes::OneBlockMore,
        Takes::OneEmptyMore,
    ];
}

/// How many records drawn lists have at most.
const MOST: usize = 6_000;

/// Bytes that a record takes beside its body, at least.
fn beside(shape: &Shape) -> usize {
    match shape.format {
        b'V' => 4,
        b'S' => 5,
        _ => 0,
    }
}

/// Drawn records for more than so many blocks.
fn plenty(rng: &mut Rng, shape: &Shape, blocks: usize) -> Vec<Vec<u8>> {
    let mut records = Vec::new();
    let mut room = (blocks + 1) * shape.b;
    while records.len() < MOST {
        let record = body(rng, shape);
        let takes = match shape.format {
            b'V' if !shape.blocked => shape.b,
            _ => record.len() + beside(shape),
        };
        records.push(record);
        match room.checked_sub(takes) {
            Some(left) => room = left,
            None => break,
        }
    }
    records
}

/// Drawn records, as many as so many blocks hold, and the next one.
fn filling(rng: &mut Rng, shape: &Shape, blocks: usize) -> (Packed, Vec<u8>) {
    let capped = Shape {
        capacity: blocks,
        ..*shape
    };
    let records = plenty(rng, shape, blocks);
    let packed = pack(&capped, &records);
    let next = records.get(packed.records.len());
    let next = next.cloned().unwrap_or_else(|| body(rng, shape));
    (packed, next)
}

fn bodies(packed: Packed) -> Vec<Vec<u8>> {
    let kept = packed.records.into_iter();
    kept.map(|record| record.body).collect()
}

/// The longest body of a record that the file takes; of S without a maximum
/// what so many blocks hold.
fn longest(shape: &Shape, blocks: usize) -> usize {
    match (shape.format, shape.r) {
        (b'V', r) => r - 4,
        (b'S', 0) => blocks * (shape.b - 5),
        (b'S', _) if shape.b == 5 => 0,
        (b'S', r) => r.min(blocks * (shape.b - 5)),
        (_, r) => r,
    }
}

/// Filled up so that the last block has as little left as the format allows.
fn topped(rng: &mut Rng, shape: &Shape) -> Vec<Vec<u8>> {
    let (packed, _) = filling(rng, shape, shape.capacity);
    let blocks = packed.blocks.len();
    let mut left = packed.blocks.last().map_or(0, |b| shape.b - b.len());
    let mut records = bodies(packed);
    if shape.format == b'F' || (shape.format == b'V' && !shape.blocked) {
        return records;
    }
    left += (shape.capacity - blocks) * shape.b;
    let most = longest(shape, 1).min(shape.b - beside(shape));
    while left >= beside(shape) + usize::from(shape.format == b'S') {
        let length = (left - beside(shape)).min(most);
        if most == 0 {
            break;
        }
        records.push(rng.telling_bytes(length));
        left -= length + beside(shape);
    }
    let kept = pack(shape, &records).records.len();
    records.truncate(kept);
    records
}

/// The last record goes on over all that its block has left and one byte
/// more, or, where it may not be so long, is followed by another.
fn one_byte_more(rng: &mut Rng, shape: &Shape) -> Vec<Vec<u8>> {
    let mut records = topped(rng, shape);
    let packed = pack(shape, &records);
    let left = packed.blocks.last().map_or(0, |b| shape.b - b.len());
    let most = longest(shape, usize::from(u16::MAX));
    match records.last_mut() {
        Some(last) if shape.blocked && shape.format != b'F' && last.len() + left < most => {
            last.extend(vec![b'+'; left + 1]);
        }
        _ => records.push(body(rng, shape)),
    }
    records
}

fn empty_ones(rng: &mut Rng, shape: &Shape) -> Vec<Vec<u8>> {
    let each = match (shape.format, shape.blocked) {
        (b'V', false) => 1,
        (b'V' | b'S', _) => shape.b / beside(shape),
        _ => return bodies(filling(rng, shape, shape.capacity).0),
    };
    vec![Vec::new(); each * shape.capacity]
}

/// A list for a file whose extent holds so many blocks as its shape says.
pub fn list(rng: &mut Rng, shape: &Shape, takes: Takes) -> Vec<Vec<u8>> {
    let all = shape.capacity;
    match takes {
        Takes::Nothing => Vec::new(),
        Takes::One => vec![body(rng, shape)],
        Takes::Some => {
            let blocks = rng.between(1, all.max(1));
            let mut records = bodies(filling(rng, shape, blocks).0);
            records.truncate(rng.between(1, 12));
            records
        }
        Takes::AllButOne => bodies(filling(rng, shape, all.saturating_sub(1)).0),
        Takes::All => bodies(filling(rng, shape, all).0),
        Takes::Exactly => topped(rng, shape),
        Takes::OneByteMore => one_byte_more(rng, shape),
        Takes::OneRecordMore => {
            let (packed, next) = filling(rng, shape, all);
            let mut records = bodies(packed);
            records.push(next);
            records
        }
        Takes::OneBlockMore => bodies(filling(rng, shape, all + 1).0),
        Takes::Empty => empty_ones(rng, shape),
        Takes::OneEmptyMore => {
            let mut records = empty_ones(rng, shape);
            records.push(match shape.format {
                b'F' => body(rng, shape),
                _ => Vec::new(),
            });
            records
        }
        Takes::OneLong => {
            let length = longest(shape, all);
            vec![rng.telling_bytes(length)]
        }
    }
}
