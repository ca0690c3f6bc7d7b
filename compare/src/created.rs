//! Creates and deletes through the library: each is compared, and held
//! against an account of every byte; then all that has to be as before is
//! asked, and what has to be otherwise. Chains of them fill volumes and empty
//! them.

use crate::account::Ground;
use crate::make::build::volume;
use crate::make::calls::{call_at, write_call};
use crate::make::create_cases::{right_fields, right_n, LARGE};
use crate::make::create_tables::{right, told};
use crate::make::file::Want;
use crate::make::lists::{list, Takes};
use crate::make::rng::Rng;
use crate::make::sample::{hdr1, Plain};
use crate::make::sizes::{largest, typical};
use crate::make::{named, placings};
use crate::met_slots::STEPS;
use crate::model::{answer, Call};
use crate::packed::{code, placed_of, refusal, END};
use crate::reading::Place;
use crate::refusal::Refusal;
use crate::session::Session;
use crate::slots::Held;
use crate::text::address_digits;
use crate::volume::label_in;
use crate::written::{found_by_name, Writer, MOST_READ};
use std::io;

fn create(fields: &[u8], n: u64) -> Call {
    let fields = fields.to_vec();
    Call::Create { fields, n }
}

impl Writer<'_> {
    /// A create or delete, and if it was done all that is asked behind it;
    /// the number that was returned, if it was the right one.
    pub fn place(&mut self, call: Call) -> io::Result<Option<u64>> {
        let before = self.case.image.clone();
        let returned = self.change(call.clone())?;
        match (&call, returned.filter(|&returned| code(returned) == 0)) {
            (Call::Create { fields, n }, Some(returned)) => {
                self.read_created(&before, fields, *n, returned)?;
            }
            (Call::Delete { slot }, Some(freed)) => self.read_deleted(&before, *slot, freed)?,
            _ => {}
        }
        Ok(returned)
    }

    /// Behind a create: "Existing files read as before", n fewer records are
    /// free, and the new file is found by its name and has nothing in it, or
    /// answers 17.
    fn read_created(
        &mut self,
        before: &[u8],
        fields: &[u8],
        n: u64,
        returned: u64,
    ) -> io::Result<()> {
        let Some(placed) = placed_of(returned) else {
            return Ok(());
        };
        let (slot, name) = (placed.slot as u64, fields[..17].to_vec());
        self.others_answer_as(before, slot, &name)?;
        self.frees(before, |free| free.checked_sub(n))?;
        let at = Held::at(placed.slot) as u64 + 1;
        self.answers(Call::Find { name }, slot << 24 | at)?;
        let wrong = self.wrong_mark(slot);
        let refused = wrong.map(|ordinal| refusal(&Refusal::at(17, ordinal)));
        self.answers(Call::Count { slot }, refused.unwrap_or(0))?;
        for salvaging in [false, true] {
            let call = call_at(self.rng, slot, Place::START, salvaging, vec![7; 9]);
            self.answers(call, refused.unwrap_or(u64::from(END) << 56))?;
        }
        let start = placed.start.to_string();
        let label = label_in(&self.case.image, placed.slot).map(<[u8]>::to_vec);
        let stands = label.is_some_and(|label| {
            let digits = format!("{start:0>5}").into_bytes();
            label[28..33] == digits && label[74..79] == digits
        });
        self.demand(stands, || "the start is not the label's".to_string());
        Ok(())
    }

    /// The ordinal of the first record of a file's extent with an incorrect
    /// mark that is not `F`.
    fn wrong_mark(&self, slot: u64) -> Option<usize> {
        let image = &self.case.image;
        let ground = Ground::of(image, slot)?;
        let geometry = &ground.geometry;
        let index = geometry.s * geometry.i;
        let wrong = ground
            .extent
            .iter()
            .find(|entry| image[entry.1] == 16 + geometry.k && image[entry.1 + 1] != b'F')?;
        Some(index + (wrong.1 - index * 129) / (geometry.p() + 1))
    }

    /// Behind a delete: the slot and the name answer 13, the extent is free.
    fn read_deleted(&mut self, before: &[u8], slot: u64, freed: u64) -> io::Result<()> {
        let Some(Call::Find { name }) = found_by_name(before, slot) else {
            return Ok(());
        };
        self.others_answer_as(before, slot, &name)?;
        self.frees(before, |free| free.checked_add(freed))?;
        let gone = refusal(&Refusal::bare(13));
        self.answers(Call::Find { name }, gone)?;
        self.answers(Call::Count { slot }, gone)?;
        let call = call_at(self.rng, slot, Place::START, true, vec![7; 9]);
        self.answers(call, gone)?;
        self.answers(Call::Delete { slot }, gone)?;
        self.answers(write_call(slot, &[]), gone)
    }

    /// The judgement, and the name, count and records of every other file, and
    /// how a write to it is refused.
    fn others_answer_as(&mut self, before: &[u8], slot: u64, name: &[u8]) -> io::Result<()> {
        let slots = Held::of(before).map_or(0, |held| held.slots()) as u64;
        let mut calls = vec![Call::Judge];
        calls.extend((0..=slots + 1).filter(|&other| other != slot).map(|slot| {
            let (bodies, lengths) = (vec![1], Vec::new());
            Call::Write {
                slot,
                bodies,
                lengths,
            }
        }));
        let others = self.calls_of_others(before, slot).into_iter();
        let found = |call: &Call| matches!(call, Call::Find { name: asked } if asked == name);
        calls.extend(others.filter(|call| !found(call)));
        self.answers_as(before, calls)
    }

    fn frees(&mut self, before: &[u8], now: impl Fn(u64) -> Option<u64>) -> io::Result<()> {
        let free = answer(before, &Call::Free).packed;
        let right = now(free);
        self.demand(right.is_some(), || "more than was free".to_string());
        self.answers(Call::Free, right.unwrap_or(0))
    }

    /// A call that has one right answer.
    fn answers(&mut self, call: Call, right: u64) -> io::Result<()> {
        let told = format!("{call:?}");
        if let Some((returned, _)) = self.ask(call)? {
            self.demand(returned == right, || {
                format!("{told} answers {returned:#x}, not {right:#x}")
            });
        }
        Ok(())
    }

    fn step(&mut self, row: &str) {
        self.session.cover.reach(STEPS, row);
    }

    /// Writes all of a file and reads it back.
    fn fill(&mut self, slot: u64) -> io::Result<()> {
        let Some(ground) = Ground::of(&self.case.image, slot) else {
            return Ok(());
        };
        let records = list(self.rng, &ground.shape, Takes::All);
        self.write_and_read(write_call(slot, &records), MOST_READ)
    }
}

/// One create or delete on an image, with all that is asked behind it.
fn placed(session: &mut Session, image: Vec<u8>, call: Call) -> io::Result<()> {
    let mut rng = Rng::new(image.len() as u64);
    let mut writer = Writer::new(session, &mut rng, "placed", image);
    writer.place(call).map(|_| ())
}

/// A volume with labels of one address each at chosen ranks, in the slots from
/// the last on.
fn taken(mut plain: Plain, ranks: impl Iterator<Item = usize>) -> Plain {
    let slots = (1..=plain.geometry.slots()).rev();
    for (slot, rank) in slots.zip(ranks) {
        let digits = address_digits(rank, &plain.geometry);
        let at = String::from_utf8_lossy(&digits).into_owned();
        plain.put_label(slot, &hdr1(&format!("T{rank}"), 30, &at, &at));
    }
    plain
}

/// Volumes with no free address, with none taken, with every second one
/// taken, with one address; each with every n about its stretches.
pub fn numbers(session: &mut Session) -> io::Result<()> {
    let room = || Plain::new(2, 18, 3, 0, 1);
    let mut whole = Plain::new(2, 10, 3, 0, 1);
    whole.put_label(2, &hdr1("ALL", 30, "01001", "02003"));
    let volumes = [
        whole,
        room(),
        taken(room(), (0..6).step_by(2)),
        taken(room(), 0..6),
        taken(room(), 2..4),
        Plain::new(1, 8, 1, 0, 1),
        taken(Plain::new(1, 9, 1, 0, 1), 0..1),
        taken(Plain::new(1, 8, 4, 0, 2), 1..2),
    ];
    for plain in volumes {
        let all = plain.geometry.data_records() as u64;
        for n in (0..=all + 2).chain(LARGE) {
            placed(session, plain.image.clone(), create(&right()[0], n))?;
        }
    }
    Ok(())
}

/// Runs over sides, cylinders and defective cylinders, from each address and
/// of each length that is left, on volumes of every size of record.
pub fn runs(session: &mut Session) -> io::Result<()> {
    let defects: [&[u8]; 5] = [b"       ", b"010    ", b"020    ", b"010 020", b"020 040"];
    for (number, defects) in defects.into_iter().enumerate() {
        for (k, s) in [(0, 1), (1, 2), (2, 1), (3, 2)] {
            let mut plain = Plain::new(3, 9, 2, k, s);
            plain.set_sector(5, 7, defects);
            let all = plain.geometry.data_records();
            for first in 0..=3 {
                let plain = taken(plain.clone(), 0..first.min(plain.geometry.slots() - 1));
                let free = all - first.min(plain.geometry.slots() - 1);
                for n in [1, 2, 3, free - 1, free] {
                    let fields = told(b"RUN", b"00001", b" ", b" ", b"    ", b" ");
                    let n = (n + number % 2).min(free) as u64;
                    placed(session, plain.image.clone(), create(&fields, n))?;
                }
            }
        }
    }
    Ok(())
}

/// Fields with B at its bounds on every size of record, and names.
pub fn shapes(session: &mut Session) -> io::Result<()> {
    for (k, s) in [(0, 2), (1, 1), (2, 2), (3, 1)] {
        let mut plain = Plain::new(1, 10, 4, k, s);
        plain.put_label(2, &hdr1("NAME", 30, "01001", "01001"));
        let p = plain.geometry.p();
        for level in [b" ", b"1", b"2"] {
            for (format, blocking) in [(b" ", b" "), (b"F", b"B"), (b"V", b"B"), (b"S", b"B")] {
                for b in [1, 4, 5, p - 1, p, p + 1, 2 * p, 4 * p, 5 * p] {
                    for r in ["    ", "0000", "0001", "0004"] {
                        let b = format!("{b:05}").into_bytes();
                        let fields = told(b"NEW", &b, format, level, r.as_bytes(), blocking);
                        placed(session, plain.image.clone(), create(&fields, 1))?;
                    }
                }
            }
        }
    }
    Ok(())
}

/// Names: in use in each slot, by another level only, blank twice, and
/// differing in the last byte or in the length of a level.
pub fn names(session: &mut Session) -> io::Result<()> {
    let full = "A-NAME-OF-17-BYT1";
    let texts = ["NAME", "", full, "X"];
    for slot in 1..=9 {
        for text in texts {
            let mut plain = Plain::new(1, 8, 6, 0, 2);
            plain.put_label(slot, &hdr1(text, 30, "01001", "01001"));
            let other = slot % 9 + 1;
            plain.put_label(other, &hdr1("OTHER", 30, "01102", "01102"));
            plain.set(other, 44, b"3");
            plain.set(slot, 44, b"2");
            for asked in texts
                .into_iter()
                .chain(["OTHER", "A-NAME-OF-17-BYT2", "NAMe"])
            {
                for level in [b" ", b"1", b"2"] {
                    let rest = [b"00030F", &level[..], b"     "].concat();
                    let fields = [format!("{asked:<17}").as_bytes(), &rest].concat();
                    placed(session, plain.image.clone(), create(&fields, 2))?;
                }
            }
        }
    }
    Ok(())
}

/// Every kind of mark in a run of three, with any body.
pub fn marks(session: &mut Session) -> io::Result<()> {
    let kinds: [(u8, u8); 5] = [(0, b'F'), (16, b'F'), (16, b'D'), (32, b'F'), (32, 0)];
    for set in 0..kinds.len().pow(3) {
        let mut plain = Plain::new(1, 9, 5, 1, 1);
        plain.put_label(1, &hdr1("FIRST", 30, "01001", "01001"));
        for place in 0..3 {
            let (kind, body) = kinds[set / kinds.len().pow(place) % kinds.len()];
            let address = format!("0100{}", place + 2);
            plain.set_kind(&address, kind + 1);
            plain.set_body(&address, &[body, 0xEE]);
        }
        let n = 1 + set as u64 % 4;
        placed(session, plain.image, create(&right()[0], n))?;
    }
    Ok(())
}

/// Deletes of every slot of the samples and of volumes with much about the
/// labels, and slots that are none.
pub fn deletes(session: &mut Session) -> io::Result<()> {
    let samples = ["demo", "two-sided", "other-level", "wrong-mark", "split"];
    let more = ["smallest", "F-10", "V-10", "S-10-lost", "refused"];
    for name in samples.into_iter().chain(more) {
        let image = named(name).unwrap_or_default();
        let slots = Held::of(&image).map_or(1, |held| held.slots()) as u64;
        let wide = [
            1 << 8,
            1 << 16,
            1 << 32,
            (1 << 32) + 1,
            (1 << 63) + 1,
            u64::MAX,
        ];
        for slot in (0..=slots + 1).chain(wide) {
            placed(session, image.clone(), Call::Delete { slot })?;
        }
    }
    let changes: [(usize, &[u8]); 6] = [
        (42, b"A"),
        (45, b"L"),
        (45, b"C"),
        (43, b"P"),
        (44, b"7"),
        (67, b"999999"),
    ];
    for set in 0..1usize << changes.len() {
        let mut plain = Plain::new(1, 8, 4, 0, 2);
        plain.put_label(9, &hdr1("LAST", 30, "01001", "01104"));
        plain.soil_label(9);
        plain.set(9, 44, &b" 12"[set % 3..][..1]);
        plain.set_kind("01003", if set % 3 == 0 { 16 } else { 0 });
        for (place, (position, bytes)) in changes.iter().enumerate() {
            if set >> place & 1 == 1 {
                plain.set(9, *position, bytes);
            }
        }
        placed(session, plain.image, Call::Delete { slot: 9 })?;
    }
    Ok(())
}

/// So many drawn cases of every family.
pub fn drawn(session: &mut Session, seed: u64, count: usize, largest: usize) -> io::Result<()> {
    for case in placings(seed, count, largest) {
        placed(session, case.image, case.call)?;
    }
    Ok(())
}

/// The largest volumes: N = 4,992 with 45 labels, with 44, with none.
pub fn large(session: &mut Session) -> io::Result<()> {
    let fields = told(b"NEW", b"01024", b"S", b"2", b"0000", b"B");
    let full = largest(45);
    let mut one_less = full.clone();
    one_less[Held::at(30)..Held::at(30) + 2].copy_from_slice(b"\x10D");
    for image in [full, one_less, largest(0), typical()] {
        for n in [1, 104, 105, 4_992, 4_993, u64::MAX] {
            let mut rng = Rng::new(n);
            let mut writer = Writer::new(session, &mut rng, "large", image.clone());
            writer.write(create(&fields, n))?;
        }
        for slot in [1, 30, 45] {
            let mut rng = Rng::new(slot);
            let mut writer = Writer::new(session, &mut rng, "large", image.clone());
            writer.write(Call::Delete { slot })?;
        }
    }
    Ok(())
}

/// Deletes all files of a volume but those that are kept, one after another.
fn empty(writer: &mut Writer) -> io::Result<()> {
    let slots = Held::of(&writer.case.image).map_or(0, |held| held.slots()) as u64;
    let mut order: Vec<u64> = (1..=slots).collect();
    writer.rng.shuffle(&mut order);
    for slot in order {
        writer.place(Call::Delete { slot })?;
    }
    let held = Held::of(&writer.case.image);
    if held.is_ok_and(|held| held.deleted().len() == held.slots()) {
        writer.step("deleted until no label is left");
    }
    Ok(())
}

/// Creates files, each of which is written and read back, until there is no
/// slot or no room; each refusal is asked for once.
fn fill(writer: &mut Writer, turn: usize) -> io::Result<()> {
    for number in 0..50 {
        let Ok(held) = Held::of(&writer.case.image) else {
            return Ok(());
        };
        let emptied = turn > 0 && held.deleted().len() == held.slots();
        let (geometry, most) = (held.geometry, right_n(writer.rng, &held));
        // Small files take the slots first, large ones the room.
        let n = if turn.is_multiple_of(2) { 1 } else { most };
        let mut fields = right_fields(writer.rng, &geometry);
        fields[1..3].copy_from_slice(format!("{number:02}").as_bytes());
        let returned = writer.place(create(&fields, n))?;
        if returned.map(code) != Some(0) {
            if let Some(refused @ (28 | 29)) = returned.map(code) {
                writer.step(&format!("created until {refused}"));
            }
            return Ok(());
        }
        let slot = returned.map_or(0, |returned| returned >> 24);
        if number % 3 == 0 {
            writer.fill(slot)?;
            writer.step("written and read back");
            if emptied {
                writer.step("written over what was deleted");
            }
        }
    }
    Ok(())
}

/// Chains on so many drawn volumes: files are deleted, created, written, read
/// back and deleted again, until the volume is full and until it is empty.
pub fn chains(session: &mut Session, seed: u64, volumes: usize) -> io::Result<()> {
    for number in 0..volumes {
        let mut rng = Rng::for_case(seed ^ 0xCA, number as u64);
        let mut made = volume(&mut rng, 9_000, Want::default());
        for slot in made.others.clone() {
            made.set(slot, 1, b"D");
            made.image[Held::at(slot)] = 16;
        }
        let mut writer = Writer::new(session, &mut rng, "chains", made.image);
        for turn in 0..3 {
            fill(&mut writer, turn)?;
            empty(&mut writer)?;
        }
        fill(&mut writer, 3)?;
    }
    Ok(())
}

/// All of it, with so many drawn cases and a number of chains.
pub fn all(session: &mut Session, seed: u64, count: usize, largest: usize) -> io::Result<()> {
    numbers(session)?;
    runs(session)?;
    shapes(session)?;
    names(session)?;
    marks(session)?;
    deletes(session)?;
    drawn(session, seed, count, largest)?;
    large(session)
}
