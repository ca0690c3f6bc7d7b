//! Bad input: bytes that are no volume at all, and a small volume cut,
//! lengthened, or changed in one byte.

use super::rng::Rng;
use super::sizes::smallest;
use super::Case;
use crate::layout::INDEX_SECTOR;
use crate::model::Call;

fn judged(family: &'static str, image: Vec<u8>) -> Case {
    Case {
        family,
        image,
        call: Call::Judge,
    }
}

/// Random bytes of random lengths, most of them about the length of a volume.
fn random(seed: u64, count: usize) -> impl Iterator<Item = Case> {
    (0..count).map(move |number| {
        let mut rng = Rng::for_case(seed, number as u64);
        let length = match number % 4 {
            0 => rng.below(1_000),
            1 => rng.below(20_000),
            _ => 1_548 + rng.below(8),
        };
        let image = if rng.chance(50) {
            rng.bytes(length)
        } else {
            rng.telling_bytes(length)
        };
        judged("random", image)
    })
}

/// The smallest volume cut to every length, and lengthened by up to a sector.
pub fn resized() -> impl Iterator<Item = Case> {
    let image = smallest();
    (0..=image.len() + INDEX_SECTOR).map(move |length| {
        let mut image = image.clone();
        image.resize(length, b' ');
        judged("resized", image)
    })
}

/// Every value of every byte of the ERMAP and the VOL1 sector, kind included.
fn every_byte() -> impl Iterator<Item = Case> {
    let image = smallest();
    [4, 6].into_iter().flat_map(move |ordinal| {
        let image = image.clone();
        (0..INDEX_SECTOR * 256).map(move |number| {
            let mut image = image.clone();
            image[ordinal * INDEX_SECTOR + number / 256] = (number % 256) as u8;
            judged("every-byte", image)
        })
    })
}

/// All of it: so many random ones, 1,678 resized, 66,048 with one byte changed.
pub fn bad(seed: u64, count: usize) -> impl Iterator<Item = Case> {
    random(seed, count).chain(resized()).chain(every_byte())
}
