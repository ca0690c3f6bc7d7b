//! The case maker: volumes and cases from a seed. The same seed gives the
//! same cases on every machine.

pub mod bad;
pub mod build;
pub mod calls;
pub mod content_cases;
pub mod create_cases;
pub mod create_tables;
pub mod cylinders;
pub mod defects;
pub mod fields;
pub mod file;
pub mod file_cases;
pub mod grounds;
pub mod lists;
pub mod pack;
pub mod places;
pub mod positions;
pub mod read_cases;
pub mod rng;
pub mod sample;
pub mod segments;
pub mod sizes;
pub mod tables;
pub mod version;
pub mod volume_cases;
pub mod write_cases;

pub use build::LEAST;
pub use sample::{named, sample};
pub use tables::counted;

use crate::model::Call;
use rng::Rng;
use volume_cases::Made;

/// An image and a call on it.
#[derive(Clone, Debug, PartialEq, Eq)]
pub struct Case {
    pub family: &'static str,
    pub image: Vec<u8>,
    pub call: Call,
}

pub type Family = (&'static str, fn(&mut Rng, usize) -> Made);

/// All families. Case number n is of family n modulo their number, so that
/// they come interleaved.
pub const FAMILIES: [Family; 54] = [
    ("healthy", volume_cases::healthy),
    ("hdr1-one", volume_cases::hdr1_one),
    ("read-followed", read_cases::read_followed),
    ("broken-spanned", content_cases::broken_spanned),
    ("write-some", write_cases::write_some),
    ("vol1-one", volume_cases::vol1_one),
    ("count", file_cases::count),
    ("salvage-followed", read_cases::salvage_followed),
    ("hdr1-two", volume_cases::hdr1_two),
    ("joined-wrongly", content_cases::joined_wrongly),
    ("write-full", write_cases::write_full),
    ("ermap-one", volume_cases::ermap_one),
    ("listing", file_cases::listing),
    ("hdr1-reading-pairs", volume_cases::hdr1_reading_pairs),
    ("lost-odd", read_cases::lost_odd),
    ("bounds", volume_cases::bounds),
    ("broken-variable", content_cases::broken_variable),
    ("kinds", volume_cases::kinds),
    ("find", file_cases::find),
    ("write-lengths", write_cases::write_lengths),
    ("read-odd", read_cases::read_odd),
    ("clashes", volume_cases::clashes),
    ("hdr1-suspended", volume_cases::hdr1_suspended),
    ("marked-starts", read_cases::marked_starts),
    ("lengths", volume_cases::lengths),
    ("file-order", file_cases::file_order),
    ("names", volume_cases::names),
    ("read-lost", read_cases::read_lost),
    ("write-sums", write_cases::write_sums),
    ("tightened", content_cases::tightened),
    ("slots", volume_cases::slots),
    ("vol1-two", volume_cases::vol1_two),
    ("free", file_cases::free),
    ("hdr1-one", volume_cases::hdr1_one),
    ("broken-fill", content_cases::broken_fill),
    ("hdr1-free-shape", volume_cases::hdr1_free_shape),
    ("write-refused", write_cases::write_refused),
    ("hdr1-one", volume_cases::hdr1_one),
    ("vol1-access", volume_cases::vol1_access),
    ("count-slots", file_cases::count_slots),
    ("shuffled-blocks", content_cases::shuffled_blocks),
    ("two-slots", volume_cases::two_slots),
    ("write-empty", write_cases::write_empty),
    ("mutated-content", content_cases::mutated_content),
    ("ermap-two", volume_cases::ermap_two),
    ("mutated", volume_cases::mutated),
    ("long-blocks", volume_cases::long_blocks),
    ("hdr1-two", volume_cases::hdr1_two),
    ("hdr1-free-shape", volume_cases::hdr1_free_shape),
    ("hdr1-reading-pairs", volume_cases::hdr1_reading_pairs),
    ("label-sectors", volume_cases::label_sectors),
    ("random-bytes", volume_cases::random_bytes),
    ("random-behind-vol1", volume_cases::random_behind_vol1),
    ("listing-too-long", file_cases::listing_too_long),
];

/// The numbered case of creating or deleting of a seed; these are numbered by
/// themselves.
pub fn placing(seed: u64, index: usize, largest: usize) -> Case {
    made(&create_cases::FAMILIES, seed ^ 0xC5, index, largest)
}

/// The first `count` of them.
pub fn placings(seed: u64, count: usize, largest: usize) -> impl Iterator<Item = Case> {
    (0..count).map(move |index| placing(seed, index, largest))
}

/// The numbered case of a seed, with an image of at most `largest` bytes (or
/// the smallest legal one).
pub fn case(seed: u64, index: usize, largest: usize) -> Case {
    made(&FAMILIES, seed, index, largest)
}

fn made(families: &[Family], seed: u64, index: usize, largest: usize) -> Case {
    let (family, make) = families[index % families.len()];
    let mut rng = Rng::for_case(seed, index as u64);
    let (image, call) = make(&mut rng, largest);
    Case {
        family,
        image,
        call,
    }
}

/// The first `count` cases of a seed.
pub fn cases(seed: u64, count: usize, largest: usize) -> impl Iterator<Item = Case> {
    (0..count).map(move |index| case(seed, index, largest))
}
