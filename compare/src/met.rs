//! What a call of writing has met, for the tables of what was reached: told
//! from the image before it and its answer, by the account of `account`.

use crate::account::{Ground, List};
use crate::file::count;
use crate::packed::{code, refusal_of};
use crate::volume::judge;
use crate::walked::Address;

pub const REFUSED: &str = "refusals of writing";
pub const PLACES: &str = "places of refused writes";
pub const ORDER: &str = "first of two refusals of a write";
pub const FORMATS: &str = "written: format and blocking";
pub const LEVELS: &str = "written: level and position 40";
pub const SIZES: &str = "written: P";
pub const BLOCKS: &str = "written: B";
pub const VOLUMES: &str = "written: sides and defective cylinders";
pub const ENDS: &str = "written: data end and U";
pub const STEPS: &str = "written: data end against the record before it";
pub const EXTENTS: &str = "written: extent";
pub const LISTS: &str = "written: list";
pub const OVER: &str = "written over what was there";

/// Every row that has to be reached.
pub const TABLES: [(&str, &[&str]); 13] = [
    (
        REFUSED,
        &[
            "1", "2", "3", "4", "5", "6", "7", "8", "9", "10", "11", "12", "13", "14", "15", "16",
            "17", "24", "25", "26", "27",
        ],
    ),
    (
        PLACES,
        &[
            "13: slot 0",
            "13: a deleted slot",
            "13: behind the last slot",
            "13: above 2^32",
            "25: one byte above the sum",
            "25: one byte below the sum",
            "25: 2^32 below the sum",
            "25: no byte lent",
            "26: F too short",
            "26: F too long",
            "26: V",
            "26: S",
            "26: S with B = 5",
            "26: the only record",
            "26: the first record",
            "26: a record in the midst",
            "26: the last record",
            "26: a second one behind it",
            "27: one block",
            "27: several blocks",
            "27: one record",
            "27: one byte",
            "27: no block in the extent",
        ],
    ),
    (
        ORDER,
        &["15, 16", "16, 24", "24, 17", "17, 25", "25, 26", "26, 27"],
    ),
    (FORMATS, &["F", "F blocked", "V", "V blocked", "S blocked"]),
    (
        LEVELS,
        &[
            "level space, space",
            "level space, F",
            "level 1, space",
            "level 1, F",
            "level 2, space",
            "level 2, F",
            "level 2, V",
            "level 2, S",
        ],
    ),
    (SIZES, &["128", "256", "512", "1024"]),
    (
        BLOCKS,
        &[
            "B below P",
            "B = P",
            "B = 2 P",
            "B above 2 P",
            "B = 5 in S",
            "B = 6 in S",
        ],
    ),
    (
        VOLUMES,
        &[
            "one side",
            "two sides",
            "none defective",
            "d1",
            "d1 and d2",
            "a defective cylinder in the extent",
        ],
    ),
    (
        ENDS,
        &[
            "at the start, U blank",
            "in the extent, U blank",
            "in the extent, U not blank",
            "past the extent, U blank",
            "past the extent, U not blank",
        ],
    ),
    (
        STEPS,
        &[
            "in the extent: on the same track",
            "in the extent: on the other side",
            "in the extent: on another cylinder",
            "past the extent: on the same track",
            "past the extent: on the other side",
            "past the extent: on another cylinder",
            "past the extent: past the last address",
        ],
    ),
    (
        EXTENTS,
        &[
            "a defective record skipped",
            "the first one defective",
            "the last one defective",
            "one defective in a block's midst",
            "one defective before the last block",
            "one defective behind the last block",
            "a check-failed one made valid",
            "a check-failed one left as it was",
            "good ones that make no whole block",
            "not all of a last track",
        ],
    ),
    (
        LISTS,
        &[
            "no record",
            "records, all of them empty",
            "every block of the extent",
            "every byte of the extent's blocks",
            "all blocks but one",
            "V: a block filled to its last byte",
            "S: a segment where 6 bytes were left",
            "S: a record moved on where 5 were left",
            "S: an empty record where 5 were left",
            "S: an empty record moved on where 4 were left",
            "S: a record over two blocks",
            "S: a record over five blocks",
        ],
    ),
    (
        OVER,
        &[
            "fewer blocks",
            "as many blocks",
            "more blocks",
            "none where some were",
            "18",
        ],
    ),
];

/// A title and a row of it.
pub type Fact = (&'static str, String);

/// All that a call has met; `after` is the image afterwards.
pub fn facts(before: &[u8], list: &List, packed: u64, after: &[u8]) -> Vec<Fact> {
    let ground = Ground::of(before, list.slot);
    match (refusal_of(packed), ground) {
        (Some(refused), ground) => {
            let mut found = vec![(REFUSED, refused.number.to_string())];
            found.extend(of_slots(before, list, refused.number));
            if let Some(ground) = ground {
                found.extend(of_order(before, &ground, list, refused.number));
                found.extend(of_lists_refused(&ground, list, packed));
            }
            found
        }
        (None, Some(ground)) if code(packed) == 0 => {
            let done = Done {
                before,
                after,
                blocks: packed as usize,
                ground,
            };
            done.facts(list)
        }
        _ => Vec::new(),
    }
}

/// The rows of a table that were met.
pub fn named(title: &'static str, rows: &[(bool, &str)]) -> Vec<Fact> {
    let met = rows.iter().filter(|row| row.0);
    met.map(|row| (title, row.1.to_string())).collect()
}

fn of_slots(before: &[u8], list: &List, number: u8) -> Vec<Fact> {
    let slots = judge(before).map_or(0, |geometry| geometry.slots()) as u64;
    let refused = number == 13;
    named(
        PLACES,
        &[
            (refused && list.slot == 0, "13: slot 0"),
            (
                refused && (1..=slots).contains(&list.slot),
                "13: a deleted slot",
            ),
            (
                refused && list.slot == slots + 1,
                "13: behind the last slot",
            ),
            (refused && list.slot >= 1 << 32, "13: above 2^32"),
        ],
    )
}

/// Whether the sentence of a refusal holds, no matter which comes first.
fn holds(before: &[u8], ground: &Ground, list: &List, number: u8) -> bool {
    let label = &before[ground.label..ground.label + 128];
    let wrong = |entry: &&(Address, usize)| {
        before[entry.1] == 16 + ground.geometry.k && before[entry.1 + 1] != b'F'
    };
    match number {
        15 => label[41] != b' ',
        16 => label[44] != b' ',
        17 => ground.extent.iter().any(|entry| wrong(&entry)),
        24 => label[42] == b'P',
        25 => !list.sums(),
        26 => list.lengths.iter().any(|&length| ground.refuses(length)),
        _ => false,
    }
}

fn of_order(before: &[u8], ground: &Ground, list: &List, number: u8) -> Vec<Fact> {
    const PAIRS: [(u8, u8); 5] = [(15, 16), (16, 24), (24, 17), (17, 25), (25, 26)];
    let both = |pair: &&(u8, u8)| pair.0 == number && holds(before, ground, list, pair.1);
    let mut found: Vec<Fact> = PAIRS
        .iter()
        .filter(both)
        .map(|pair| (ORDER, format!("{}, {}", pair.0, pair.1)))
        .collect();
    if number == 26 && too_many_without_the_wrong(ground, list) {
        found.push((ORDER, "26, 27".to_string()));
    }
    found
}

/// Whether the records of right lengths alone need more than there is.
fn too_many_without_the_wrong(ground: &Ground, list: &List) -> bool {
    let records = list.records();
    let right = records.iter().filter(|r| !ground.refuses(r.len() as u32));
    let right: Vec<Vec<u8>> = right.cloned().collect();
    needed(ground, &right) > ground.shape.capacity
}

fn needed(ground: &Ground, records: &[Vec<u8>]) -> usize {
    let lengths: Vec<u32> = records.iter().map(|record| record.len() as u32).collect();
    let list = List {
        slot: 0,
        bodies: &records.concat(),
        lengths: &lengths,
    };
    ground.packed(&list).blocks.len()
}

fn of_lists_refused(ground: &Ground, list: &List, packed: u64) -> Vec<Fact> {
    let Some(refused) = refusal_of(packed) else {
        return Vec::new();
    };
    match refused.number {
        25 => of_sums(list),
        26 => of_lengths(ground, list, refused.first as usize),
        27 => of_needs(ground, list, refused.first as usize),
        _ => Vec::new(),
    }
}

fn of_sums(list: &List) -> Vec<Fact> {
    let sum: i128 = list.lengths.iter().map(|&length| i128::from(length)).sum();
    let above = list.bodies.len() as i128 - sum;
    named(
        PLACES,
        &[
            (above == 1, "25: one byte above the sum"),
            (above == -1, "25: one byte below the sum"),
            (above == -(1 << 32), "25: 2^32 below the sum"),
            (list.bodies.is_empty(), "25: no byte lent"),
        ],
    )
}

fn of_lengths(ground: &Ground, list: &List, record: usize) -> Vec<Fact> {
    let lengths = list.lengths;
    let Some(&wrong) = lengths.get(record) else {
        return Vec::new();
    };
    let last = lengths.len() - 1;
    let (format, r) = (ground.shape.format, ground.shape.r);
    let short = (wrong as usize) < r;
    let of_five = format == b'S' && ground.shape.b == 5;
    let again = lengths[record + 1..].iter().any(|&l| ground.refuses(l));
    named(
        PLACES,
        &[
            (format == b'F' && short, "26: F too short"),
            (format == b'F' && !short, "26: F too long"),
            (format == b'V', "26: V"),
            (format == b'S' && !of_five, "26: S"),
            (of_five, "26: S with B = 5"),
            (last == 0, "26: the only record"),
            (record == 0 && last > 0, "26: the first record"),
            (record > 0 && record < last, "26: a record in the midst"),
            (record > 0 && record == last, "26: the last record"),
            (again, "26: a second one behind it"),
        ],
    )
}

fn of_needs(ground: &Ground, list: &List, blocks: usize) -> Vec<Fact> {
    let held = ground.shape.capacity;
    let mut records = list.records();
    let last = records.pop().unwrap_or_default();
    let without = needed(ground, &records) <= held;
    let mut shorter = last.clone();
    let byte_less = shorter.pop().is_some() && ground.shape.format != b'F' && {
        records.push(shorter);
        needed(ground, &records) <= held
    };
    named(
        PLACES,
        &[
            (blocks == held + 1, "27: one block"),
            (blocks > held + 1, "27: several blocks"),
            (without, "27: one record"),
            (byte_less, "27: one byte"),
            (held == 0, "27: no block in the extent"),
        ],
    )
}

/// A write that was done.
struct Done<'a> {
    before: &'a [u8],
    after: &'a [u8],
    blocks: usize,
    ground: Ground,
}

impl Done<'_> {
    fn facts(&self, list: &List) -> Vec<Fact> {
        let mut found = self.of_shape();
        found.extend(self.of_volume());
        found.extend(self.of_ends());
        found.extend(self.of_extent());
        found.extend(self.of_list(list));
        found.extend(self.of_over(list.slot));
        found
    }

    fn of_shape(&self) -> Vec<Fact> {
        let (shape, p) = (&self.ground.shape, self.ground.geometry.p());
        let blocked = if shape.blocked { " blocked" } else { "" };
        let word = |byte: u8| match byte {
            b' ' => "space".to_string(),
            byte => char::from(byte).to_string(),
        };
        let (level, format) = (word(self.ground.level), word(self.ground.format));
        let mut found = vec![
            (FORMATS, format!("{}{blocked}", char::from(shape.format))),
            (LEVELS, format!("level {level}, {format}")),
            (SIZES, p.to_string()),
        ];
        let spanned = shape.format == b'S';
        found.extend(named(
            BLOCKS,
            &[
                (shape.b < p, "B below P"),
                (shape.b == p, "B = P"),
                (shape.b == 2 * p, "B = 2 P"),
                (shape.b > 2 * p, "B above 2 P"),
                (spanned && shape.b == 5, "B = 5 in S"),
                (spanned && shape.b == 6, "B = 6 in S"),
            ],
        ));
        found
    }

    fn of_volume(&self) -> Vec<Fact> {
        let geometry = &self.ground.geometry;
        // A cylinder is left out where two records next to each other in the
        // extent are not so in the image.
        let apart = |pair: &[(Address, usize)]| pair[1].1 - pair[0].1 > geometry.p() + 1;
        named(
            VOLUMES,
            &[
                (geometry.s == 1, "one side"),
                (geometry.s == 2, "two sides"),
                (geometry.d1.is_none(), "none defective"),
                (geometry.d1.is_some() && geometry.d2.is_none(), "d1"),
                (geometry.d2.is_some(), "d1 and d2"),
                (
                    self.ground.extent.windows(2).any(apart),
                    "a defective cylinder in the extent",
                ),
            ],
        )
    }

    fn of_ends(&self) -> Vec<Fact> {
        let ground = &self.ground;
        let label = &self.after[ground.label..ground.label + 128];
        let unused = if label[57..62] == *b"     " {
            "U blank"
        } else {
            "U not blank"
        };
        let end = ground.data_end(self.blocks);
        let place = match self.blocks {
            0 => "at the start",
            _ if end == ground.past => "past the extent",
            _ => "in the extent",
        };
        let mut found = vec![(ENDS, format!("{place}, {unused}"))];
        // Against the last record written, or the extent's last.
        let from = match ground.taken(self.blocks).last() {
            _ if end == ground.past => ground.extent[ground.extent.len() - 1].0,
            Some(&record) => ground.extent[record].0,
            None => return found,
        };
        let step = match end {
            (cylinder, ..) if cylinder > ground.geometry.l => "past the last address",
            (cylinder, ..) if cylinder != from.0 => "on another cylinder",
            (_, side, _) if side != from.1 => "on the other side",
            _ => "on the same track",
        };
        found.push((STEPS, format!("{place}: {step}")));
        found
    }

    fn of_extent(&self) -> Vec<Fact> {
        let ground = &self.ground;
        let taken = ground.taken(self.blocks);
        let last = ground.extent.len() - 1;
        let failed = |record: &usize| self.before[ground.extent[*record].1] >= 32;
        let defective = |record: usize| ground.good.binary_search(&record).is_err();
        let before_last = taken.len().checked_sub(ground.m).map(|n| taken[n]);
        let parted = |records: &[usize]| records.windows(2).any(|two| two[1] - two[0] > 1);
        let behind = taken.last().map(|&record| record + 1);
        let skipped = taken.last().is_some_and(|&n| n + 1 > taken.len());
        let blocks = self.blocks > 0;
        named(
            EXTENTS,
            &[
                (skipped, "a defective record skipped"),
                (blocks && defective(0), "the first one defective"),
                (blocks && defective(last), "the last one defective"),
                (
                    taken.chunks(ground.m).any(parted),
                    "one defective in a block's midst",
                ),
                (
                    before_last.is_some_and(|n| n > 0 && defective(n - 1)),
                    "one defective before the last block",
                ),
                (
                    behind.is_some_and(|n| n <= last && defective(n)),
                    "one defective behind the last block",
                ),
                (taken.iter().any(failed), "a check-failed one made valid"),
                (
                    blocks && ground.good[taken.len()..].iter().any(failed),
                    "a check-failed one left as it was",
                ),
                (
                    blocks && !ground.good.len().is_multiple_of(ground.m),
                    "good ones that make no whole block",
                ),
                (
                    ground.extent[last].0 .2 < ground.geometry.d,
                    "not all of a last track",
                ),
            ],
        )
    }

    fn of_list(&self, list: &List) -> Vec<Fact> {
        let shape = &self.ground.shape;
        let packed = self.ground.packed(list);
        let full = |block: &Vec<u8>| block.len() == shape.b;
        let every = self.blocks > 0 && self.blocks == shape.capacity;
        let spans = |most: usize| packed.records.iter().any(|r| r.last - r.first >= most);
        let records = !list.lengths.is_empty();
        let mut found = named(
            LISTS,
            &[
                (!records, "no record"),
                (
                    records && list.bodies.is_empty(),
                    "records, all of them empty",
                ),
                (every, "every block of the extent"),
                (
                    every && packed.blocks.iter().all(full),
                    "every byte of the extent's blocks",
                ),
                (
                    self.blocks > 0 && self.blocks + 1 == shape.capacity,
                    "all blocks but one",
                ),
                (
                    shape.format == b'V' && packed.blocks.iter().any(full),
                    "V: a block filled to its last byte",
                ),
                (spans(1), "S: a record over two blocks"),
                (spans(4), "S: a record over five blocks"),
            ],
        );
        if shape.format == b'S' {
            found.extend(of_room_left(shape.b, list.lengths));
        }
        found
    }

    fn of_over(&self, slot: u64) -> Vec<Fact> {
        let before = match count(self.before, slot) {
            Ok(blocks) => blocks as usize,
            Err(_) => return named(OVER, &[(true, "18")]),
        };
        let now = self.blocks;
        named(
            OVER,
            &[
                (now > 0 && now < before, "fewer blocks"),
                (now > 0 && now == before, "as many blocks"),
                (now > before, "more blocks"),
                (now == 0 && before > 0, "none where some were"),
            ],
        )
    }
}

/// "S: a segment starts where 6 bytes are left (5 for an empty record)": how
/// many were left where each record began.
fn of_room_left(b: usize, lengths: &[u32]) -> Vec<Fact> {
    let mut found = Vec::new();
    let mut left = 0;
    for &length in lengths {
        let mut rest = length as usize;
        match (left, rest) {
            (6, 1..) => found.push("S: a segment where 6 bytes were left"),
            (5, 1..) => found.push("S: a record moved on where 5 were left"),
            (5, 0) => found.push("S: an empty record where 5 were left"),
            (4, 0) => found.push("S: an empty record moved on where 4 were left"),
            _ => {}
        }
        if left < 5 + usize::from(rest > 0) {
            left = b;
        }
        while rest > left - 5 {
            rest -= left - 5;
            left = b;
        }
        left -= 5 + rest;
    }
    found
        .into_iter()
        .map(|row| (LISTS, row.to_string()))
        .collect()
}
