//! What the bytes of a fuzzer mean: a base image, changes to it, and calls on
//! it one after the other. Any bytes mean something; where they end, zeros
//! follow.

use crate::drive::{knows, Outcome};
use crate::layout::{Geometry, INDEX_SECTOR};
use crate::make::calls::{reading_of, write_call};
use crate::make::sample::named;
use crate::make::{cases, Case, FAMILIES};
use crate::model::Call;
use crate::options::SEED;
use crate::packed::{code, place_of, END, GAP};
use crate::reading::Place;
use crate::volume::judge;
use std::io;

/// Small images are compared fast, and have every rule in them.
const LARGEST: usize = 6_000;

/// Each family of the maker comes twenty times.
const DRAWN: usize = 20 * FAMILIES.len();

const SAMPLES: [&str; 14] = [
    "smallest",
    "demo",
    "two-sided",
    "F-10",
    "V-10",
    "S-10",
    "F-10-lost",
    "V-10-lost",
    "S-10-lost",
    "F-10-defect",
    "write-V-10",
    "write-S-10",
    "defects-5-2-3",
    "defects-5-5-6",
];

const MOST_CHANGES: u8 = 12;
const MOST_CALLS: usize = 12;
const MOST_RECORDS: u8 = 40;

/// No base has a record or a block that is longer.
const MOST_BYTES: u64 = 12_000;

/// Numbers about the ends of what the boundary packs or a machine counts.
const ENDS: [u64; 8] = [
    0x7FFF,
    0x8000,
    0xFFFF,
    0x1_0000,
    0xFFFF_FFFF,
    0x1_0000_0000,
    1 << 63,
    u64::MAX,
];

/// The images that inputs begin with, each with a call of its own.
pub struct Bases {
    bases: Vec<(Case, Option<Geometry>)>,
}

impl Default for Bases {
    fn default() -> Bases {
        let samples = SAMPLES.iter().filter_map(|name| named(name));
        let samples = samples.map(|image| Case {
            family: "sample",
            image,
            call: Call::Judge,
        });
        let drawn = cases(SEED, DRAWN, LARGEST);
        let small = drawn.filter(|case| case.image.len() <= LARGEST && knows(&case.call));
        let with_geometry = |case: Case| {
            let geometry = judge(&case.image).ok();
            (case, geometry)
        };
        Bases {
            bases: samples.chain(small).map(with_geometry).collect(),
        }
    }
}

/// The rest of an input.
struct Bytes<'a>(&'a [u8]);

impl Bytes<'_> {
    fn byte(&mut self) -> u8 {
        let Some((first, rest)) = self.0.split_first() else {
            return 0;
        };
        self.0 = rest;
        *first
    }

    fn word(&mut self) -> usize {
        usize::from(self.byte()) | usize::from(self.byte()) << 8
    }

    /// Small numbers in a byte, others in three, and the ends.
    fn number(&mut self) -> u64 {
        match self.byte() {
            small @ 0..=0xEF => u64::from(small),
            0xF0..=0xF7 => self.word() as u64,
            end => ENDS[usize::from(end & 7)],
        }
    }

    /// One to eight bytes.
    fn run(&mut self) -> Vec<u8> {
        let count = 1 + (self.byte() & 7);
        (0..count).map(|_| self.byte()).collect()
    }
}

/// Puts bytes into an image, as far as they are inside.
fn put(image: &mut [u8], at: usize, bytes: &[u8]) {
    for (place, byte) in image.iter_mut().skip(at).zip(bytes) {
        *place = *byte;
    }
}

/// Where the sector of a slot begins.
fn label(input: &mut Bytes) -> usize {
    Geometry::slot_ordinal(1 + usize::from(input.byte() % 8)) * INDEX_SECTOR
}

/// One change: of any bytes, of a label, by its own bytes or by another's, of
/// a sector's kind or body, of the length.
fn change(image: &mut Vec<u8>, geometry: Option<&Geometry>, input: &mut Bytes) {
    let sector = |ordinal: u8| match geometry {
        Some(geometry) => geometry.kind_at(usize::from(ordinal) % geometry.sectors()),
        None => usize::from(ordinal) * INDEX_SECTOR,
    };
    match input.byte() % 8 {
        0 => put(image, input.word(), &input.run()),
        1 => {
            let at = label(input) + usize::from(input.byte());
            put(image, at, &input.run());
        }
        2 => {
            let (from, to) = (label(input), label(input));
            let at = usize::from(input.byte());
            let count = 1 + usize::from(input.byte() % 32);
            let copied: Vec<u8> = image.iter().skip(from + at).take(count).copied().collect();
            put(image, to + at, &copied);
        }
        3 | 4 => put(image, sector(input.byte()), &[input.byte()]),
        5 | 6 => {
            let at = sector(input.byte()) + input.word() % 1_025;
            put(image, at, &input.run());
        }
        _ => image.resize(input.word() % (LARGEST + 1), 0),
    }
}

/// Bytes of which each tells its place.
fn telling(count: u64) -> Vec<u8> {
    (0..count).map(|place| (place % 251) as u8).collect()
}

/// An input as it is run: the image now, and where the last reading led.
struct Run<'a> {
    input: Bytes<'a>,
    image: Vec<u8>,
    own: Call,
    next: Place,
}

impl Run<'_> {
    fn place(&mut self) -> Place {
        Place {
            block: self.input.number(),
            offset: self.input.number(),
            mark: self.input.byte() & 1 == 1,
        }
    }

    fn reading(&mut self, place: Place, salvaging: bool) -> Call {
        let slot = self.input.number();
        let out = telling(self.input.number().min(MOST_BYTES));
        let numbers = [place.block, place.offset, u64::from(place.mark)];
        reading_of(slot, numbers, salvaging, out)
    }

    /// Positions of the label in a slot with a change, or of a length below a
    /// bound.
    fn of_label(&mut self, positions: impl Iterator<Item = usize>, bound: usize) -> Vec<u8> {
        let at = label(&mut self.input);
        let bytes = positions.filter_map(|position| self.image.get(at + position));
        let mut bytes: Vec<u8> = bytes.copied().collect();
        let length = usize::from(self.input.byte());
        if length > 0 {
            bytes.resize(length % bound, b' ');
        }
        let at = usize::from(self.input.byte());
        put(&mut bytes, at, &self.input.run());
        bytes
    }

    /// The name of a slot with a change, or one of any length.
    fn name(&mut self) -> Vec<u8> {
        self.of_label(6..=22, 32)
    }

    /// A create with the fields of a slot, changed likewise, or a delete.
    fn placing(&mut self) -> Call {
        if self.input.byte() & 1 == 1 {
            return Call::Delete {
                slot: self.input.number(),
            };
        }
        let positions = (6..=27).chain([40, 44, 54, 55, 56, 57, 63]);
        Call::Create {
            fields: self.of_label(positions, 64),
            n: self.input.number(),
        }
    }

    /// A list of records; now and then its bytes are not the sum.
    fn list(&mut self) -> Call {
        let slot = self.input.number();
        let count = self.input.byte() % MOST_RECORDS;
        let sum = self.input.byte();
        let lengths: Vec<u64> = (0..count).map(|_| self.input.number()).collect();
        let sizes = lengths.iter().map(|length| (*length).min(MOST_BYTES));
        let records: Vec<Vec<u8>> = sizes.map(telling).collect();
        let Call::Write { mut bodies, .. } = write_call(slot, &records) else {
            return Call::Judge;
        };
        match sum {
            0xF0..=0xF7 => bodies.push(sum),
            0xF8..=0xFF => bodies.truncate(bodies.len().saturating_sub(1)),
            _ => {}
        }
        Call::Write {
            slot,
            bodies,
            lengths: lengths.iter().map(|length| *length as u32).collect(),
        }
    }

    fn call(&mut self) -> Call {
        match self.input.byte() % 13 {
            0 => self.own.clone(),
            1 => Call::Judge,
            2 => Call::Free,
            3 => Call::Count {
                slot: self.input.number(),
            },
            4 => Call::Find { name: self.name() },
            turn @ (5 | 6) => {
                let place = self.place();
                self.reading(place, turn == 6)
            }
            turn @ 7..=9 => self.reading(self.next, turn > 7),
            10 => self.list(),
            11 => self.placing(),
            _ => Call::Physical {
                cylinder: self.input.number(),
            },
        }
    }

    /// The image is what the call left; a reading leads on.
    fn goes_on(&mut self, call: &Call, outcome: Outcome) {
        let reads = matches!(call, Call::Read { .. } | Call::Salvage { .. });
        if reads && matches!(code(outcome.returned), 0 | GAP | END) {
            self.next = place_of(outcome.returned);
        }
        [self.image, ..] = outcome.lent;
    }
}

impl Bases {
    /// Runs an input: each call is compared by `compare`, which gives what the
    /// library did if that is right. The names of the calls with the codes that
    /// were answered; none from the first call on that was not right.
    pub fn run(
        &self,
        input: &[u8],
        mut compare: impl FnMut(&Case) -> io::Result<Option<Outcome>>,
    ) -> io::Result<Option<Vec<(&'static str, u8)>>> {
        let mut run = self.begin(Bytes(input));
        let mut codes = Vec::new();
        while codes.is_empty() || !run.input.0.is_empty() && codes.len() < MOST_CALLS {
            let case = Case {
                family: "fuzzed",
                call: run.call(),
                image: run.image.clone(),
            };
            let Some(outcome) = compare(&case)? else {
                return Ok(None);
            };
            codes.push((case.call.name(), code(outcome.returned)));
            run.goes_on(&case.call, outcome);
        }
        Ok(Some(codes))
    }

    /// The base with its changes, before the first call.
    fn begin<'a>(&self, mut input: Bytes<'a>) -> Run<'a> {
        let number = input.word();
        let (base, geometry) = &self.bases[number % self.bases.len()];
        let mut image = base.image.clone();
        for _ in 0..input.byte() % MOST_CHANGES {
            change(&mut image, geometry.as_ref(), &mut input);
        }
        Run {
            input,
            image,
            own: base.call.clone(),
            next: Place::START,
        }
    }
}
