//! Writes through the library: each is compared, and held against an account
//! of every byte; then the file and all others are read through the library.

use crate::account::{Ground, List};
use crate::make::build::{volume, Volume};
use crate::make::calls::{call_at, write_call};
use crate::make::file::Want;
use crate::make::grounds::{ground, GROUNDS};
use crate::make::lists::{list, Takes};
use crate::make::read_cases::lose;
use crate::make::rng::Rng;
use crate::make::Case;
use crate::model::{answer, Call};
use crate::packed::{code, END};
use crate::reading::{Opened, Place, Reading};
use crate::session::Session;
use crate::volume::{judge, label_in};
use std::io;

/// Longer files are asked for so many of their records only, and files beside
/// the written one for fewer. All their records are read by the independent
/// program.
pub const MOST_READ: usize = 1000;
const MOST_READ_BESIDE: usize = 60;

/// A volume on its way through writes.
pub struct Writer<'a> {
    pub(crate) session: &'a mut Session,
    pub(crate) rng: &'a mut Rng,
    pub(crate) case: Case,
}

/// The search for the name in a slot of an accepted volume.
pub(crate) fn found_by_name(image: &[u8], slot: u64) -> Option<Call> {
    let label = label_in(image, slot as usize)?;
    Some(Call::Find {
        name: label[5..22].to_vec(),
    })
}

/// Every place from Start to the one where reading ends, with the records
/// that it gives on the way.
fn walk(image: &[u8], slot: u64, salvaging: bool) -> (Vec<Place>, Vec<Option<Vec<u8>>>) {
    let (mut places, mut records) = (vec![Place::START], Vec::new());
    let Ok(opened) = Opened::open(image, slot) else {
        return (places, records);
    };
    let mut out = vec![0; image.len()];
    loop {
        let given = opened.at(places[places.len() - 1], salvaging, &mut out);
        let (record, next) = match given {
            Ok(Reading::Record { length, next }) => (Some(out[..length as usize].to_vec()), next),
            Ok(Reading::Gap { next }) => (None, next),
            _ => return (places, records),
        };
        places.push(next);
        records.push(record);
    }
}

/// So many numbers below a bound at most, the first and the last two always.
fn some_of(rng: &mut Rng, bound: usize, most: usize) -> Vec<usize> {
    if bound <= most {
        return (0..bound).collect();
    }
    let step = bound.div_ceil(most - 2);
    let first = rng.below(step);
    let mut some = vec![0];
    some.extend((first..bound - 2).step_by(step).filter(|&n| n > 0));
    some.extend([bound - 2, bound - 1]);
    some
}

impl<'a> Writer<'a> {
    pub fn new(
        session: &'a mut Session,
        rng: &'a mut Rng,
        family: &'static str,
        image: Vec<u8>,
    ) -> Writer<'a> {
        Writer {
            session,
            rng,
            case: Case {
                family,
                image,
                call: Call::Judge,
            },
        }
    }

    /// A write, create or delete; whether it was done, and rightly. The image
    /// is then the one that it left.
    pub fn write(&mut self, call: Call) -> io::Result<bool> {
        let returned = self.change(call)?;
        Ok(returned.is_some_and(|returned| code(returned) == 0))
    }

    /// The same; the number that was returned, if it was the right one.
    pub(crate) fn change(&mut self, call: Call) -> io::Result<Option<u64>> {
        self.case.call = call;
        let outcome = self.session.compare_whole(&self.case)?;
        Ok(outcome.map(|outcome| {
            let [after, ..] = outcome.lent;
            self.case.image = after;
            outcome.returned
        }))
    }

    /// A write, and if it was done all that is asked behind it, of a long
    /// file so many records.
    pub fn write_and_read(&mut self, call: Call, most: usize) -> io::Result<()> {
        let before = self.case.image.clone();
        if !self.write(call.clone())? {
            return Ok(());
        }
        if let Some(list) = List::of(&call) {
            self.read_back(&list, most)?;
            let mut calls = vec![Call::Judge, Call::Free];
            calls.extend(found_by_name(&before, list.slot));
            calls.extend(self.calls_of_others(&before, list.slot));
            self.answers_as(&before, calls)?;
        }
        Ok(())
    }

    /// What has to hold behind the last call.
    pub(crate) fn demand(&mut self, holds: bool, why: impl FnOnce() -> String) {
        let held = if holds { Ok(()) } else { Err(why()) };
        self.session.demand(&self.case, held);
    }

    pub(crate) fn ask(&mut self, call: Call) -> io::Result<Option<(u64, Vec<u8>)>> {
        self.case.call = call;
        let outcome = self.session.compare_whole(&self.case)?;
        Ok(outcome.map(|outcome| {
            let [_, out, _] = outcome.lent;
            (outcome.returned, out)
        }))
    }

    /// Reading or salvage from a place, with room for so many bytes or more.
    fn read(
        &mut self,
        slot: u64,
        place: Place,
        salvaging: bool,
        length: usize,
    ) -> io::Result<Option<(u64, Vec<u8>)>> {
        let room = length + self.rng.pick(&[0, 0, 1, 9]);
        let out = self.rng.bytes(room);
        let call = call_at(self.rng, slot, place, salvaging, out);
        self.ask(call)
    }

    /// The file that was written, plainly and in salvage, from Start to End:
    /// it is the list.
    fn read_back(&mut self, list: &List, most: usize) -> io::Result<()> {
        let records = list.records();
        for salvaging in [false, true] {
            let (places, _) = walk(&self.case.image, list.slot, salvaging);
            let right = places.len() == records.len() + 1;
            self.demand(right, || {
                format!("{} places of {} records", places.len(), records.len())
            });
            for number in some_of(self.rng, places.len(), most) {
                let (place, record) = (places[number], records.get(number));
                let length = record.map_or(0, Vec::len);
                let given = self.read(list.slot, place, salvaging, length)?;
                let Some((returned, out)) = given else {
                    return Ok(());
                };
                let same = match record {
                    Some(body) => code(returned) == 0 && out[..length] == body[..],
                    None => code(returned) == END,
                };
                self.demand(same, || format!("record {number} is not read back"));
            }
        }
        Ok(())
    }

    /// The name, the count and the records of every file but one, of which
    /// something was changed.
    pub(crate) fn calls_of_others(&mut self, before: &[u8], changed: u64) -> Vec<Call> {
        let slots = judge(before).map_or(0, |geometry| geometry.slots()) as u64;
        let mut calls = Vec::new();
        for slot in (1..=slots).filter(|&slot| slot != changed) {
            if label_in(before, slot as usize).is_some() {
                calls.extend(found_by_name(before, slot));
                calls.push(Call::Count { slot });
                calls.extend(self.readings_of(before, slot));
            }
        }
        calls
    }

    /// Calls that answer as they did before.
    pub(crate) fn answers_as(&mut self, before: &[u8], calls: Vec<Call>) -> io::Result<()> {
        for call in calls {
            let right = answer(before, &call);
            let Some((returned, out)) = self.ask(call)? else {
                return Ok(());
            };
            let same = returned == right.packed && (right.out.is_empty() || right.out == out);
            self.demand(same, || "it answered otherwise before".to_string());
        }
        Ok(())
    }

    /// Calls that read a file that is not written, from Start to End. All
    /// that it gives in salvage is as it was.
    fn readings_of(&mut self, before: &[u8], slot: u64) -> Vec<Call> {
        let (places, records) = walk(before, slot, true);
        let same = walk(&self.case.image, slot, true) == (places.clone(), records.clone());
        self.demand(same, || format!("slot {slot} was another before"));
        let numbers = some_of(self.rng, places.len(), MOST_READ_BESIDE);
        let calls = numbers.into_iter().map(|number| {
            let record = records.get(number).and_then(Option::as_ref);
            let out = self.rng.bytes(record.map_or(0, Vec::len) + 1);
            let salvaging = self.rng.chance(70);
            call_at(self.rng, slot, places[number], salvaging, out)
        });
        calls.collect()
    }
}

/// A drawn list that takes all of a file's extent.
pub fn list_for(rng: &mut Rng, image: &[u8], slot: u64) -> Call {
    let ground = Ground::of(image, slot);
    let records = ground.map(|ground| list(rng, &ground.shape, Takes::All));
    write_call(slot, &records.unwrap_or_default())
}

/// Lists in turn on one file, each over what the one before left.
fn lists_in_turn(
    writer: &mut Writer,
    slot: u64,
    turns: impl Iterator<Item = Takes>,
) -> io::Result<()> {
    for takes in turns {
        let Some(ground) = Ground::of(&writer.case.image, slot) else {
            return Ok(());
        };
        let records = list(writer.rng, &ground.shape, takes);
        writer.write_and_read(write_call(slot, &records), MOST_READ)?;
    }
    Ok(())
}

/// Every format on volumes counted out, four lists each, one over the other.
pub fn shapes(session: &mut Session, seed: u64) -> io::Result<()> {
    for number in 0..GROUNDS {
        let mut rng = Rng::for_case(seed, number as u64);
        let plain = ground(&mut rng, number);
        let mut writer = Writer::new(session, &mut rng, "shapes", plain.image);
        let turns = (0..4).map(|turn| Takes::ALL[(4 * number + turn) % Takes::ALL.len()]);
        lists_in_turn(&mut writer, 1, turns)?;
    }
    Ok(())
}

/// Most images are small, so that many are written; every eighth is drawn up
/// to the size asked for.
const SMALL: usize = 12_000;

fn drawn(rng: &mut Rng, number: usize, largest: usize) -> Volume {
    let want = Want {
        format: Some(b"FVSFVSS"[number % 7]),
        ..Want::default()
    };
    let size = if number.is_multiple_of(8) {
        largest
    } else {
        SMALL
    };
    let mut made = volume(rng, size, want);
    let file = made.main().clone();
    match number % 4 {
        0 => lose(rng, &mut made, &file, 40),
        1 => {
            // Any data end may stand there before, one that is refused 18 too.
            let end = rng.between(file.start, file.end);
            made.set(file.slot, 75, &made.digits(end));
        }
        _ => {}
    }
    made
}

/// Lists of every kind on the first file of so many drawn volumes, two each.
pub fn rewritten(
    session: &mut Session,
    seed: u64,
    volumes: usize,
    largest: usize,
) -> io::Result<()> {
    for number in 0..volumes {
        let mut rng = Rng::for_case(seed ^ 0x2D, number as u64);
        let made = drawn(&mut rng, number, largest);
        let slot = made.main().slot as u64;
        let mut writer = Writer::new(session, &mut rng, "rewritten", made.image);
        let turns = (0..2).map(|turn| Takes::ALL[(5 * number + 7 * turn) % Takes::ALL.len()]);
        lists_in_turn(&mut writer, slot, turns)?;
    }
    Ok(())
}
