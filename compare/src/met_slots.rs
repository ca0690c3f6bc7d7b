//! What a create or a delete has met, for the tables of what was reached: told
//! from the image before it and its answer, by the account of `slots`.

use crate::account::Ground;
use crate::met::{named, Fact};
use crate::model::Call;
use crate::packed::{code, placed_of, refusal_of};
use crate::refusal::Refusal;
use crate::slots::{fault, known, Held};
use crate::text::in_a_set;
use crate::walked::Address;

pub const REFUSED: &str = "refusals of creating";
pub const KEPT: &str = "refusals of deleting";
pub const POSITIONS: &str = "positions of refused fields";
pub const PLACES: &str = "places of refused creates and deletes";
pub const ORDER: &str = "first of two refusals of a create";
pub const VOLUMES_FIRST: &str = "a volume's refusal before those of a create or delete";
pub const NUMBERS: &str = "creates: n";
pub const VOLUMES: &str = "creates: volumes";
pub const SLOTS: &str = "created: slot";
pub const OLD: &str = "created: what stood in the slot";
pub const RUNS: &str = "created: run";
pub const MARKS: &str = "created: marks in the run";
pub const FORMATS: &str = "created: format and blocking";
pub const LEVELS: &str = "created: level and position 40";
pub const SIZES: &str = "created: P and sides";
pub const BLOCKS: &str = "created: B and R";
pub const NAMES: &str = "created: name";
pub const DELETED: &str = "deleted";
pub const STEPS: &str = "chains";

/// Every row that has to be reached, but for `VOLUMES_FIRST`.
pub const TABLES: [(&str, &[&str]); 18] = [
    (
        REFUSED,
        &[
            "1",
            "2",
            "3",
            "4",
            "5",
            "6",
            "7",
            "8",
            "9",
            "10",
            "11",
            "12",
            "10 of the fields",
            "12 of the name",
            "28",
            "29",
        ],
    ),
    (
        KEPT,
        &[
            "1", "2", "3", "4", "5", "6", "7", "8", "9", "10", "11", "12", "13", "14", "24",
        ],
    ),
    (POSITIONS, &["6", "23", "35", "40", "44", "54", "63"]),
    (
        PLACES,
        &[
            "6: 0 bytes",
            "6: 1 byte",
            "6: 28 bytes",
            "6: 30 bytes",
            "6: 128 bytes",
            "6: a wrong length and n = 0",
            "44: another level",
            "44: another level, the name outside the a-set",
            "44: outside the a-set",
            "35: another level",
            "12: the lowest slot",
            "12: a slot in the midst",
            "12: the last slot",
            "12: a blank name",
            "29: no free address",
            "29: n above N",
            "29: enough, but not in a row",
            "13: slot 0",
            "13: a deleted slot",
            "13: behind the last slot",
            "13: 2^32",
            "13: above 2^32",
            "13: 2^64-1",
            "14: protected too",
        ],
    ),
    (
        ORDER,
        &["10, 12", "10, 28", "10, 29", "12, 28", "12, 29", "28, 29"],
    ),
    (
        NUMBERS,
        &[
            "0",
            "1",
            "a stretch's length",
            "a stretch's length less one",
            "the longest stretch's length and one",
            "N",
            "N+1",
            "2^16",
            "2^32-1",
            "2^32",
            "2^32+1",
            "2^63",
            "2^64-1",
        ],
    ),
    (
        VOLUMES,
        &[
            "no free address",
            "none taken",
            "every second address taken",
            "N = 1",
            "N = 4,992",
            "45 labels",
            "44 labels and a deleted slot",
        ],
    ),
    (
        SLOTS,
        &[
            "the first",
            "in the midst",
            "the last",
            "on side 1",
            "the lowest of several deleted ones",
            "the only deleted one",
        ],
    ),
    (OLD, &["spaces", "the rest of a label", "other bytes"]),
    (
        RUNS,
        &[
            "begins at the first address",
            "begins behind an extent",
            "ends at the last address",
            "ends before an extent",
            "one address",
            "every address of the volume",
            "all of a stretch",
            "part of a stretch",
            "a shorter stretch below it",
            "a longer stretch behind it",
            "crosses to the other side",
            "crosses to another cylinder",
            "crosses one defective cylinder",
            "crosses two defective cylinders",
            "d1 = 1",
            "d2 = L+1",
        ],
    ),
    (MARKS, &["valid", "defective", "check-failed", "wrong"]),
    (FORMATS, &["F", "F blocked", "V", "V blocked", "S blocked"]),
    (
        LEVELS,
        &[
            "level space, space",
            "level space, F",
            "level 1, space",
            "level 1, F",
            "level 2, space",
            "level 2, F",
            "level 2, V",
            "level 2, S",
        ],
    ),
    (
        SIZES,
        &["128", "256", "512", "1024", "one side", "two sides"],
    ),
    (
        BLOCKS,
        &[
            "B = 1",
            "B below P",
            "B = P",
            "B = 2 P",
            "B = D P",
            "R spaces",
            "R 0000",
            "R",
            "no whole block in the extent",
        ],
    ),
    (
        NAMES,
        &[
            "blank",
            "17 bytes",
            "as another level's bytes",
            "another than one in use by its last byte",
        ],
    ),
    (
        DELETED,
        &[
            "level space",
            "level 1",
            "level 2",
            "42 filled",
            "45 filled",
            "18",
            "17",
            "no block",
            "blocks",
            "the first slot",
            "the last slot",
            "a slot on side 1",
            "one record",
            "every address of the volume",
        ],
    ),
    (
        STEPS,
        &[
            "deleted until no label is left",
            "created until 28",
            "created until 29",
            "written and read back",
            "written over what was deleted",
        ],
    ),
];

/// The rows of `VOLUMES_FIRST`: each refusal of a volume with each of a call.
pub fn volumes_first() -> impl Iterator<Item = String> {
    let later = [10, 12, 28, 29, 13, 14, 24];
    (1..=12).flat_map(move |first| later.map(|later| format!("{first}, {later}")))
}

/// All that a create or delete has met.
pub fn facts(before: &[u8], call: &Call, packed: u64) -> Vec<Fact> {
    let refused = refusal_of(packed);
    let title = match call {
        Call::Create { .. } => REFUSED,
        Call::Delete { .. } => KEPT,
        _ => return Vec::new(),
    };
    let Ok(held) = Held::of(before) else {
        return number(title, refused);
    };
    match call {
        Call::Create { fields, n } => {
            let made = Made {
                before,
                held,
                fields,
                n: *n,
            };
            made.facts(packed)
        }
        Call::Delete { slot } => {
            let mut found = number(KEPT, refused);
            found.extend(of_kept(&held, *slot, refused));
            found.extend(of_deleted(before, &held, *slot, packed));
            found
        }
        _ => Vec::new(),
    }
}

fn number(title: &'static str, refused: Option<Refusal>) -> Vec<Fact> {
    let row = refused.map(|refused| (title, refused.number.to_string()));
    row.into_iter().collect()
}

/// A create on an accepted volume.
struct Made<'a> {
    before: &'a [u8],
    held: Held<'a>,
    fields: &'a [u8],
    n: u64,
}

impl Made<'_> {
    fn facts(&self, packed: u64) -> Vec<Fact> {
        let mut found = self.of_number();
        found.extend(self.of_volume());
        if let Some(refused) = refusal_of(packed) {
            found.extend(self.of_refusal(&refused));
            found.extend(self.of_order(refused.number));
        } else if let Some(placed) = placed_of(packed) {
            found.extend(self.of_slot(placed.slot));
            found.extend(self.of_shape());
            found.extend(self.of_blocks());
            found.extend(self.of_name());
            found.extend(self.of_run());
            found.extend(self.of_crossing());
            found.extend(self.of_marks());
        }
        found
    }

    fn of_number(&self) -> Vec<Fact> {
        let counts = self.held.stretches().into_iter().map(|s| s.1 as u64);
        let counts: Vec<u64> = counts.collect();
        let longest = counts.iter().copied().max().unwrap_or(0);
        let all = self.held.owners.len() as u64;
        let n = self.n;
        named(
            NUMBERS,
            &[
                (n == 0, "0"),
                (n == 1, "1"),
                (counts.contains(&n), "a stretch's length"),
                (
                    counts.iter().any(|&count| count > 1 && n == count - 1),
                    "a stretch's length less one",
                ),
                (n == longest + 1, "the longest stretch's length and one"),
                (n == all, "N"),
                (n == all + 1, "N+1"),
                (n == 1 << 16, "2^16"),
                (n == (1 << 32) - 1, "2^32-1"),
                (n == 1 << 32, "2^32"),
                (n == (1 << 32) + 1, "2^32+1"),
                (n == 1 << 63, "2^63"),
                (n == u64::MAX, "2^64-1"),
            ],
        )
    }

    fn of_volume(&self) -> Vec<Fact> {
        let owners = &self.held.owners;
        let labels = self.held.slots() - self.held.deleted().len();
        let second = |(rank, owner): (usize, &Option<usize>)| owner.is_some() == (rank % 2 == 0);
        named(
            VOLUMES,
            &[
                (owners.iter().all(Option::is_some), "no free address"),
                (owners.iter().all(Option::is_none), "none taken"),
                (
                    owners.len() > 3 && owners.iter().enumerate().all(second),
                    "every second address taken",
                ),
                (owners.len() == 1, "N = 1"),
                (owners.len() == 4_992, "N = 4,992"),
                (labels == 45, "45 labels"),
                (
                    labels == 44 && self.held.slots() == 45,
                    "44 labels and a deleted slot",
                ),
            ],
        )
    }

    fn of_refusal(&self, refused: &Refusal) -> Vec<Fact> {
        match refused.number {
            10 => self.of_fields(refused.second),
            12 => self.of_name_in_use(refused.first as usize),
            29 => self.of_no_run(),
            _ => number(REFUSED, Some(*refused)),
        }
    }

    fn of_fields(&self, position: u64) -> Vec<Fact> {
        let length = self.fields.len();
        let level = self.fields.get(23).copied().unwrap_or(b' ');
        let another = length == 29 && in_a_set(level) && !b" 12".contains(&level);
        let outside = length == 29 && !in_a_set(level);
        let name = self.fields.iter().take(17).all(|&byte| in_a_set(byte));
        let mut found = vec![
            (REFUSED, "10 of the fields".to_string()),
            (POSITIONS, position.to_string()),
        ];
        found.extend(named(
            PLACES,
            &[
                (length == 0, "6: 0 bytes"),
                (length == 1, "6: 1 byte"),
                (length == 28, "6: 28 bytes"),
                (length == 30, "6: 30 bytes"),
                (length == 128, "6: 128 bytes"),
                (length != 29 && self.n == 0, "6: a wrong length and n = 0"),
                (position == 44 && another, "44: another level"),
                (
                    position == 44 && another && !name,
                    "44: another level, the name outside the a-set",
                ),
                (position == 44 && outside, "44: outside the a-set"),
                (position == 35 && another, "35: another level"),
            ],
        ));
        found
    }

    fn of_name_in_use(&self, slot: usize) -> Vec<Fact> {
        let last = self.held.slots();
        let mut found = vec![(REFUSED, "12 of the name".to_string())];
        found.extend(named(
            PLACES,
            &[
                (slot == 1, "12: the lowest slot"),
                (slot > 1 && slot < last, "12: a slot in the midst"),
                (slot > 1 && slot == last, "12: the last slot"),
                (self.fields[..17] == [b' '; 17], "12: a blank name"),
            ],
        ));
        found
    }

    fn of_no_run(&self) -> Vec<Fact> {
        let free = self.held.owners.iter().filter(|owner| owner.is_none());
        let free = free.count() as u64;
        let mut found = vec![(REFUSED, "29".to_string())];
        found.extend(named(
            PLACES,
            &[
                (free == 0, "29: no free address"),
                (self.n > self.held.owners.len() as u64, "29: n above N"),
                (self.n <= free, "29: enough, but not in a row"),
            ],
        ));
        found
    }

    /// Which of the later refusals would have been given too.
    fn of_order(&self, number: u8) -> Vec<Fact> {
        let whole = self.fields.len() == 29;
        let holds = [
            (
                10,
                fault(self.fields, self.n, &self.held.geometry).is_some(),
            ),
            (12, whole && self.held.named(&self.fields[..17]).is_some()),
            (28, self.held.deleted().is_empty()),
            (29, self.n > 0 && self.held.lowest_run(self.n).is_none()),
        ];
        let later = holds.iter().filter(|row| row.0 > number && row.1);
        later
            .map(|row| (ORDER, format!("{number}, {}", row.0)))
            .collect()
    }

    fn of_slot(&self, slot: usize) -> Vec<Fact> {
        let last = self.held.slots();
        let several = self.held.deleted().len() > 1;
        let mut found = named(
            SLOTS,
            &[
                (slot == 1, "the first"),
                (slot > 1 && slot < last, "in the midst"),
                (slot > 1 && slot == last, "the last"),
                (slot + 7 > self.held.geometry.i, "on side 1"),
                (several, "the lowest of several deleted ones"),
                (!several, "the only deleted one"),
            ],
        );
        let at = Held::at(slot) + 1;
        let old = match &self.before[at + 1..at + 128] {
            rest if rest.iter().all(|&byte| byte == b' ') => "spaces",
            rest if rest.starts_with(b"DR1") => "the rest of a label",
            _ => "other bytes",
        };
        found.push((OLD, old.to_string()));
        found
    }

    fn of_shape(&self) -> Vec<Fact> {
        let word = |byte: u8| match byte {
            b' ' => "space".to_string(),
            byte => char::from(byte).to_string(),
        };
        let (format, level) = (self.fields[22], self.fields[23]);
        let blocked = match self.fields[28] {
            b'B' => " blocked",
            _ => "",
        };
        let meant = if format == b' ' { b'F' } else { format };
        let geometry = &self.held.geometry;
        let mut found = vec![
            (FORMATS, format!("{}{blocked}", char::from(meant))),
            (LEVELS, format!("level {}, {}", word(level), word(format))),
            (SIZES, geometry.p().to_string()),
        ];
        found.extend(named(
            SIZES,
            &[
                (geometry.s == 1, "one side"),
                (geometry.s == 2, "two sides"),
            ],
        ));
        found
    }

    fn of_blocks(&self) -> Vec<Fact> {
        let (p, d) = (self.held.geometry.p(), self.held.geometry.d);
        let digits = self.fields[17..22].iter();
        let b = digits.fold(0, |n, &digit| 10 * n + usize::from(digit & 15));
        let r = &self.fields[24..28];
        named(
            BLOCKS,
            &[
                (b == 1, "B = 1"),
                (b < p, "B below P"),
                (b == p, "B = P"),
                (b == 2 * p, "B = 2 P"),
                (d > 2 && b == d * p, "B = D P"),
                (r == b"    ", "R spaces"),
                (r == b"0000", "R 0000"),
                (r != b"    " && r != b"0000", "R"),
                (b > p * self.n as usize, "no whole block in the extent"),
            ],
        )
    }

    fn of_name(&self) -> Vec<Fact> {
        let name = &self.fields[..17];
        let labels = (1..=self.held.slots()).filter_map(|slot| self.held.label(slot));
        let labels: Vec<&[u8]> = labels.collect();
        let others = labels.iter().filter(|label| !known(label));
        let files = labels.iter().filter(|label| known(label));
        let as_other = others.clone().any(|label| &label[5..22] == name);
        let nearly = files.clone().any(|label| label[5..21] == name[..16]);
        named(
            NAMES,
            &[
                (name == [b' '; 17], "blank"),
                (!name.contains(&b' '), "17 bytes"),
                (as_other, "as another level's bytes"),
                (nearly, "another than one in use by its last byte"),
            ],
        )
    }

    fn of_run(&self) -> Vec<Fact> {
        let Some(first) = self.held.lowest_run(self.n) else {
            return Vec::new();
        };
        let (n, all) = (self.n as usize, self.held.owners.len());
        let stretches = self.held.stretches();
        let whole = stretches.contains(&(first, n));
        let geometry = &self.held.geometry;
        named(
            RUNS,
            &[
                (first == 0, "begins at the first address"),
                (first > 0, "begins behind an extent"),
                (first + n == all, "ends at the last address"),
                (whole && first + n < all, "ends before an extent"),
                (n == 1, "one address"),
                (n == all, "every address of the volume"),
                (whole, "all of a stretch"),
                (!whole, "part of a stretch"),
                (
                    stretches.first().is_some_and(|s| s.0 < first),
                    "a shorter stretch below it",
                ),
                (
                    stretches.iter().any(|s| s.0 > first && s.1 > n),
                    "a longer stretch behind it",
                ),
                (geometry.d1 == Some(1), "d1 = 1"),
                (geometry.d2 == Some(geometry.l + 1), "d2 = L+1"),
            ],
        )
    }

    /// The addresses of the run, with where their kinds stand.
    fn run(&self) -> &[(Address, usize)] {
        match self.held.lowest_run(self.n) {
            Some(first) => &self.held.addresses[first..first + self.n as usize],
            None => &[],
        }
    }

    /// Steps inside the run.
    fn of_crossing(&self) -> Vec<Fact> {
        let run = self.run();
        let p = self.held.geometry.p();
        let cylinder = self.held.geometry.s * self.held.geometry.d * (p + 1);
        let steps = || run.windows(2);
        let left_out = steps().map(|two| (two[1].1 - two[0].1) / cylinder);
        let left_out: usize = match cylinder > p + 1 {
            true => left_out.sum(),
            false => left_out.map(|apart| apart - 1).sum(),
        };
        named(
            RUNS,
            &[
                (
                    steps().any(|two| two[0].0 .1 != two[1].0 .1),
                    "crosses to the other side",
                ),
                (
                    steps().any(|two| two[0].0 .0 != two[1].0 .0),
                    "crosses to another cylinder",
                ),
                (left_out == 1, "crosses one defective cylinder"),
                (left_out == 2, "crosses two defective cylinders"),
            ],
        )
    }

    /// "incorrect mark and its first byte `F`" is defective, another is wrong.
    fn of_marks(&self) -> Vec<Fact> {
        let k = self.held.geometry.k;
        let marked = |kind: u8, defective: Option<bool>| {
            let is = |at: usize| defective.is_none_or(|d| (self.before[at + 1] == b'F') == d);
            let mut run = self.run().iter();
            run.any(|a| self.before[a.1] == kind + k && is(a.1))
        };
        named(
            MARKS,
            &[
                (marked(0, None), "valid"),
                (marked(16, Some(true)), "defective"),
                (marked(16, Some(false)), "wrong"),
                (marked(32, None), "check-failed"),
            ],
        )
    }
}

fn of_kept(held: &Held, slot: u64, refused: Option<Refusal>) -> Vec<Fact> {
    let number = refused.map_or(0, |refused| refused.number);
    let last = held.slots() as u64;
    let none = number == 13;
    let label = (1..=last)
        .contains(&slot)
        .then(|| held.label(slot as usize))
        .flatten();
    let protected = label.is_some_and(|label| label[42] == b'P');
    named(
        PLACES,
        &[
            (none && slot == 0, "13: slot 0"),
            (none && (1..=last).contains(&slot), "13: a deleted slot"),
            (none && slot == last + 1, "13: behind the last slot"),
            (none && slot == 1 << 32, "13: 2^32"),
            (none && slot > 1 << 32, "13: above 2^32"),
            (none && slot == u64::MAX, "13: 2^64-1"),
            (number == 14 && protected, "14: protected too"),
        ],
    )
}

fn of_deleted(before: &[u8], held: &Held, slot: u64, packed: u64) -> Vec<Fact> {
    let ground = Ground::of(before, slot).filter(|_| code(packed) == 0);
    let (Some(ground), Ok(slot)) = (ground, usize::try_from(slot)) else {
        return Vec::new();
    };
    let label = &before[ground.label..ground.label + 128];
    let counted = crate::count(before, slot as u64);
    let refused = counted.map_err(|refused| refused.number).err();
    let last = held.slots();
    named(
        DELETED,
        &[
            (ground.level == b' ', "level space"),
            (ground.level == b'1', "level 1"),
            (ground.level == b'2', "level 2"),
            (label[41] != b' ', "42 filled"),
            (label[44] != b' ', "45 filled"),
            (refused == Some(18), "18"),
            (refused == Some(17), "17"),
            (counted == Ok(0), "no block"),
            (counted.is_ok_and(|blocks| blocks > 0), "blocks"),
            (slot == 1, "the first slot"),
            (slot == last, "the last slot"),
            (slot + 7 > held.geometry.i, "a slot on side 1"),
            (ground.extent.len() == 1, "one record"),
            (
                ground.extent.len() == held.owners.len(),
                "every address of the volume",
            ),
        ],
    )
}
