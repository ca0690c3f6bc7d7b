//! Counts which refusals, answers, positions and shapes cases reach.

use crate::account::List;
use crate::label::{Entry, Format};
use crate::make::build::Volume;
use crate::make::create_cases::FAMILIES;
use crate::make::file::FilePlan;
use crate::make::positions::{judged_in, named_by_10, ERMAP, VOL1};
use crate::make::{cases, placings, Case};
use crate::met;
use crate::met_cylinders;
use crate::met_slots::{self, KEPT, NUMBERS, POSITIONS, REFUSED};
use crate::model::{answer, Answer, Call};
use crate::packed::{code, refusal_of, END, GAP};
use crate::reading::{watched, Event, Events, Place};
use crate::volume::{judge, label_in};
use std::collections::{BTreeMap, BTreeSet};

/// How often each thing was reached, in the order of the tables.
#[derive(Clone, Debug)]
pub struct Cover {
    tables: Vec<Table>,
    /// Positions that refusals named and that no table of fields has.
    unlisted: BTreeSet<String>,
}

/// A title and how often each row was reached.
type Table = (&'static str, BTreeMap<String, usize>);

fn table<T: ToString>(title: &'static str, keys: impl IntoIterator<Item = T>) -> Table {
    let rows = keys.into_iter().map(|key| (wide(&key.to_string()), 0));
    (title, rows.collect())
}

/// Numbers are kept in their order by leading spaces.
fn wide(key: &str) -> String {
    if key.bytes().all(|byte| byte.is_ascii_digit()) {
        format!("{key:>3}")
    } else {
        key.to_string()
    }
}

const REFUSALS: &str = "refusals";
const READINGS: &str = "answers of reading and salvage";
const DONE: &str = "calls done";
const SECTORS: &str = "sectors of refusal 2";
const OF_VOL1: &str = "positions of refusal 3";
const OF_ERMAP: &str = "positions of refusal 7";
const OF_HDR1: &str = "positions of refusal 10";
const OF_CREATING: &str = "families of creating and deleting";
const SIZES: &str = "P accepted";
const SIDES: &str = "S accepted";
const DEFECTS: &str = "defective cylinders accepted";
const FORMATS: &str = "format and blocking accepted";
const LEVELS: &str = "levels accepted";
const BLOCKS: &str = "B and R accepted";
const LISTS: &str = "listings";

const MET: &str = "met in reading and salvage";
const FILES: &str = "files read from Start to their end";

const OF_READING: [&str; 5] = [
    "read record",
    "read End",
    "salvage record",
    "salvage gap",
    "salvage End",
];

/// What calls answer.
fn answer_tables() -> Vec<Table> {
    let done = [
        "judge",
        "find",
        "count",
        "free",
        "write",
        "write of nothing",
    ];
    vec![
        table(REFUSALS, 1..=27),
        table(READINGS, OF_READING),
        table(DONE, done),
        table(SECTORS, [5, 7]),
        table(OF_VOL1, judged_in(&VOL1)),
        table(OF_ERMAP, judged_in(&ERMAP)),
        table(OF_HDR1, named_by_10()),
        table(
            LISTS,
            ["VOLUME", "REFUSED", "!17", "!18", "|?|", "TOO LONG"],
        ),
    ]
}

/// What accepted volumes look like.
fn shape_tables() -> Vec<Table> {
    let defects = ["none", "d1", "d1 = L", "d1 and d2", "d1 = L and d2 = L+1"];
    let formats = ["F", "F blocked", "V", "V blocked", "S blocked"];
    let blocks = ["B below P", "B = P", "B above P", "R spaces", "R 0000", "R"];
    vec![
        table(SIZES, [128, 256, 512, 1024]),
        table(SIDES, [1, 2]),
        table(DEFECTS, defects),
        table(FORMATS, formats),
        table(LEVELS, ["space", "1", "2", "another"]),
        table(BLOCKS, blocks),
    ]
}

impl Cover {
    pub fn new() -> Cover {
        let mut tables = answer_tables();
        tables.extend(shape_tables());
        Cover::of(tables)
    }

    fn of(tables: Vec<Table>) -> Cover {
        let unlisted = BTreeSet::new();
        Cover { tables, unlisted }
    }

    /// What creates and deletes reach: every family, refusal, position and
    /// class of n.
    pub fn of_creating() -> Cover {
        let some = [REFUSED, POSITIONS, NUMBERS];
        let tables = met_slots::TABLES.iter();
        let tables = tables.filter(|table| some.contains(&table.0));
        let tables = tables.map(|(title, rows)| table(title, rows.iter().copied()));
        let others = [
            table(KEPT, [13, 14, 24]),
            table(DONE, ["create", "delete"]),
            table(OF_CREATING, FAMILIES.map(|family| family.0)),
        ];
        Cover::of(tables.chain(others).collect())
    }

    /// What calls of reading, salvage, writing, creating and deleting reach.
    pub fn of_files() -> Cover {
        let files = ["defective records", "U > 0", "several records to a block"];
        let mut tables = vec![
            table(REFUSALS, 13..=23),
            table(READINGS, OF_READING),
            table(MET, Event::ALL.map(|event| event.1)),
            table(FILES, files),
        ];
        let shapes = shape_tables().into_iter();
        tables.extend(shapes.filter(|shape| [SIZES, FORMATS, BLOCKS].contains(&shape.0)));
        let written = met::TABLES.iter();
        let placed = met_slots::TABLES.iter();
        let deep = written.chain(placed).chain(&met_cylinders::TABLES);
        tables.extend(deep.map(|(title, rows)| table(title, rows.iter().copied())));
        tables.push(table(met_slots::VOLUMES_FIRST, met_slots::volumes_first()));
        Cover::of(tables)
    }

    /// Counts a row of a table.
    pub fn reach(&mut self, title: &str, key: &str) {
        let key = wide(key);
        let found = self.tables.iter_mut().find(|table| table.0 == title);
        if let Some(row) = found.and_then(|table| table.1.get_mut(&key)) {
            *row += 1;
        }
    }

    /// Counts a position that a refusal named: the first one of a judged
    /// field, or it is in no table.
    fn reach_position(&mut self, title: &str, position: u64) {
        let key = position.to_string();
        let found = self.tables.iter().find(|table| table.0 == title);
        if found.is_some_and(|table| !table.1.contains_key(&wide(&key))) {
            self.unlisted.insert(format!("{title}: {key}"));
        }
        self.reach(title, &key);
    }

    /// Counts a case and its answer.
    pub fn count(&mut self, case: &Case) -> Answer {
        let given = answer(&case.image, &case.call);
        self.count_refusal(given.packed);
        self.count_done(&case.call, &given);
        self.count_placing(case, given.packed);
        if let Ok(geometry) = judge(&case.image) {
            self.count_volume(&case.image, &geometry);
        }
        given
    }

    /// Counts a call of reading or salvage, the number that it returned and
    /// the output afterwards.
    pub fn count_reading(&mut self, image: &[u8], call: &Call, packed: u64, out: &[u8]) {
        #[rustfmt::skip]
        let (slot, block, offset, mark, salvaging) = match call {
            Call::Read { slot, block, offset, mark, .. } => (slot, block, offset, mark, false),
            Call::Salvage { slot, block, offset, mark, .. } => (slot, block, offset, mark, true),
            _ => return,
        };
        self.count_refusal(packed);
        self.count_answer(call, packed);
        let place = Place {
            block: *block,
            offset: *offset,
            mark: *mark != 0,
        };
        let events = Events::default();
        let mut out = out.to_vec();
        let _ = watched(image, *slot, place, &mut out, salvaging, &events);
        for (event, name) in Event::ALL {
            if events.has(event) {
                self.reach(MET, name);
            }
        }
    }

    /// Counts a call of writing, the number that it returned and the image
    /// afterwards.
    pub fn count_writing(&mut self, case: &Case, packed: u64, after: &[u8]) {
        let Some(list) = List::of(&case.call) else {
            return;
        };
        for (title, row) in met::facts(&case.image, &list, packed, after) {
            self.reach(title, &row);
        }
    }

    /// Counts a create or delete and the number that it returned.
    pub fn count_placing(&mut self, case: &Case, packed: u64) {
        self.reach(OF_CREATING, case.family);
        for (title, row) in met_slots::facts(&case.image, &case.call, packed) {
            self.reach(title, &row);
        }
    }

    /// Counts a case of the skip of defective cylinders, and the number that it
    /// returned.
    pub fn count_cylinders(&mut self, case: &Case, packed: u64) {
        for (title, row) in met_cylinders::facts(case, packed) {
            self.reach(title, &row);
        }
    }

    /// Counts a file that was read to its end.
    pub fn count_read_file(&mut self, made: &Volume, file: &FilePlan) {
        let geometry = &made.geometry;
        if file.good.len() <= file.end - file.start {
            self.reach(FILES, "defective records");
        }
        if file.u > 0 {
            self.reach(FILES, "U > 0");
        }
        if file.m > 1 {
            self.reach(FILES, "several records to a block");
        }
        self.reach(SIZES, &geometry.p().to_string());
        if let Some(label) = label_in(&made.image, file.slot) {
            if let Some(entry) = Entry::of(label, geometry) {
                self.count_file(label, &entry, geometry.p());
            }
        }
    }

    fn count_refusal(&mut self, packed: u64) {
        let Some(refused) = refusal_of(packed) else {
            return;
        };
        self.reach(REFUSALS, &refused.number.to_string());
        match refused.number {
            2 => self.reach(SECTORS, &refused.first.to_string()),
            3 => self.reach_position(OF_VOL1, refused.first),
            7 => self.reach_position(OF_ERMAP, refused.first),
            10 if refused.first > 0 => self.reach_position(OF_HDR1, refused.second),
            _ => {}
        }
    }

    fn count_done(&mut self, call: &Call, given: &Answer) {
        self.count_answer(call, given.packed);
        if *call == Call::Listing {
            self.count_listing(&given.out);
        }
    }

    fn count_answer(&mut self, call: &Call, packed: u64) {
        match (call, code(packed)) {
            (Call::Judge, 0) => self.reach(DONE, "judge"),
            (Call::Find { .. }, 0) => self.reach(DONE, "find"),
            (Call::Count { .. }, 0) => self.reach(DONE, "count"),
            (Call::Free, 0) => self.reach(DONE, "free"),
            (Call::Write { lengths, .. }, 0) => {
                self.reach(DONE, "write");
                if lengths.is_empty() {
                    self.reach(DONE, "write of nothing");
                }
            }
            (Call::Create { .. }, 0) => self.reach(DONE, "create"),
            (Call::Delete { .. }, 0) => self.reach(DONE, "delete"),
            (Call::Read { .. }, 0) => self.reach(READINGS, "read record"),
            (Call::Read { .. }, END) => self.reach(READINGS, "read End"),
            (Call::Salvage { .. }, 0) => self.reach(READINGS, "salvage record"),
            (Call::Salvage { .. }, GAP) => self.reach(READINGS, "salvage gap"),
            (Call::Salvage { .. }, END) => self.reach(READINGS, "salvage End"),
            _ => {}
        }
    }

    fn count_listing(&mut self, text: &[u8]) {
        let text = String::from_utf8_lossy(text).into_owned();
        for key in ["VOLUME", "REFUSED", "!17", "!18", "|?|", "TOO LONG"] {
            if text.contains(key) {
                self.reach(LISTS, key);
            }
        }
    }

    fn count_volume(&mut self, image: &[u8], geometry: &crate::Geometry) {
        self.reach(SIZES, &geometry.p().to_string());
        self.reach(SIDES, &geometry.s.to_string());
        let defects = match (geometry.d1, geometry.d2) {
            (None, _) => "none",
            (Some(d1), None) if d1 == geometry.l => "d1 = L",
            (Some(_), None) => "d1",
            (Some(d1), Some(_)) if d1 == geometry.l => "d1 = L and d2 = L+1",
            (Some(_), Some(_)) => "d1 and d2",
        };
        self.reach(DEFECTS, defects);
        for label in (1..=geometry.slots()).filter_map(|slot| label_in(image, slot)) {
            match Entry::of(label, geometry) {
                Some(entry) => self.count_file(label, &entry, geometry.p()),
                None => self.reach(LEVELS, "another"),
            }
        }
    }

    fn count_file(&mut self, label: &[u8], entry: &Entry, p: usize) {
        let level = match label[43] {
            b'1' => "1",
            b'2' => "2",
            _ => "space",
        };
        self.reach(LEVELS, level);
        let format = match (entry.format, entry.blocked) {
            (Format::Fixed, false) => "F",
            (Format::Fixed, true) => "F blocked",
            (Format::Variable, false) => "V",
            (Format::Variable, true) => "V blocked",
            (Format::Spanned, _) => "S blocked",
        };
        self.reach(FORMATS, format);
        let size = match entry.b.cmp(&p) {
            std::cmp::Ordering::Less => "B below P",
            std::cmp::Ordering::Equal => "B = P",
            std::cmp::Ordering::Greater => "B above P",
        };
        self.reach(BLOCKS, size);
        let record = match &label[53..57] {
            b"    " => "R spaces",
            b"0000" => "R 0000",
            _ => "R",
        };
        self.reach(BLOCKS, record);
    }

    /// Positions that were named and should not have been.
    pub fn unlisted(&self) -> impl Iterator<Item = &String> {
        self.unlisted.iter()
    }

    /// What was never reached.
    pub fn missing(&self) -> Vec<String> {
        let rows = self.tables.iter().flat_map(|(title, rows)| {
            rows.iter()
                .filter(|row| *row.1 == 0)
                .map(move |row| format!("{title}: {}", row.0.trim()))
        });
        rows.collect()
    }

    /// The tables as text.
    pub fn text(&self) -> String {
        let mut text = String::new();
        for (title, rows) in &self.tables {
            text.push_str(&format!("{title}\n"));
            for (key, count) in rows {
                text.push_str(&format!("  {key:<46} {count:>8}\n"));
            }
        }
        text
    }
}

impl Default for Cover {
    fn default() -> Cover {
        Cover::new()
    }
}

/// The cover of the first cases of a seed, and of a tenth as many creates and
/// deletes, which have tables of their own.
pub fn cover(seed: u64, count: usize, largest: usize) -> Cover {
    let mut cover = Cover::new();
    let mut creating = Cover::of_creating();
    for case in cases(seed, count, largest) {
        cover.count(&case);
    }
    for case in placings(seed, count / 10, largest) {
        creating.count(&case);
    }
    cover.tables.extend(creating.tables);
    cover
}
