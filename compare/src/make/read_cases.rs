//! Cases for plain reading and salvage of sound and damaged files.

use super::build::{volume, Volume};
use super::calls::{followed, odd_place, reading_call};
use super::file::{FilePlan, Want};
use super::rng::Rng;
use super::volume_cases::Made;
use crate::reading::Place;

/// Marks sectors of used blocks check-failed, with random bodies.
pub fn lose(rng: &mut Rng, made: &mut Volume, file: &FilePlan, percent: usize) {
    for &record in &file.good[..file.blocks() * file.m] {
        if rng.chance(percent) {
            lose_record(rng, made, record);
        }
    }
}

/// Marks one data record check-failed, with a random body.
pub fn lose_record(rng: &mut Rng, made: &mut Volume, record: usize) {
    let geometry = made.geometry;
    let at = geometry.kind_at(geometry.record_ordinal(record));
    made.image[at] = 32 + geometry.k;
    let body = rng.telling_bytes(geometry.p());
    made.image[at + 1..at + 1 + geometry.p()].copy_from_slice(&body);
}

fn some_format(rng: &mut Rng) -> Want {
    Want::format(rng.pick(b"FVSS"))
}

/// Places that reading leads to, outputs of every fit.
pub fn read_followed(rng: &mut Rng, largest: usize) -> Made {
    let want = some_format(rng);
    let made = volume(rng, largest, want);
    let place = followed(rng, &made, made.main(), false);
    let call = reading_call(rng, &made, made.main().slot as u64, place, false);
    (made.image, call)
}

/// Any place of a sound file and outside it.
pub fn read_odd(rng: &mut Rng, largest: usize) -> Made {
    let want = some_format(rng);
    let made = volume(rng, largest, want);
    let place = odd_place(rng, made.main());
    let salvaging = rng.chance(50);
    let call = reading_call(rng, &made, made.main().slot as u64, place, salvaging);
    (made.image, call)
}

/// Plain reading of a file with lost blocks.
pub fn read_lost(rng: &mut Rng, largest: usize) -> Made {
    let want = some_format(rng);
    let mut made = volume(rng, largest, want);
    let file = made.main().clone();
    lose(rng, &mut made, &file, 25);
    let place = followed(rng, &made, &file, false);
    let call = reading_call(rng, &made, file.slot as u64, place, false);
    (made.image, call)
}

/// Salvage from places it leads to.
pub fn salvage_followed(rng: &mut Rng, largest: usize) -> Made {
    let want = some_format(rng);
    let mut made = volume(rng, largest, want);
    let file = made.main().clone();
    let percent = rng.pick(&[0, 10, 30, 60]);
    lose(rng, &mut made, &file, percent);
    let place = followed(rng, &made, &file, true);
    let call = reading_call(rng, &made, file.slot as u64, place, true);
    (made.image, call)
}

/// Salvage and reading from any place of a file with lost blocks: their ends
/// too, with marks at every offset.
pub fn lost_odd(rng: &mut Rng, largest: usize) -> Made {
    let want = some_format(rng);
    let mut made = volume(rng, largest, want);
    let file = made.main().clone();
    lose(rng, &mut made, &file, 40);
    let place = odd_place(rng, &file);
    let salvaging = rng.chance(70);
    let call = reading_call(rng, &made, file.slot as u64, place, salvaging);
    (made.image, call)
}

/// The start of any block with and without the mark, in S.
pub fn marked_starts(rng: &mut Rng, largest: usize) -> Made {
    let mut made = volume(rng, largest, Want::format(b'S'));
    let file = made.main().clone();
    lose(rng, &mut made, &file, 10);
    let place = Place {
        block: rng.between(0, file.blocks()) as u64,
        offset: 0,
        mark: rng.chance(80),
    };
    let salvaging = rng.chance(80);
    let call = reading_call(rng, &made, file.slot as u64, place, salvaging);
    (made.image, call)
}
