//! Properties checked over many made cases.

use crate::account::{self, Ground, List};
use crate::file::count;
use crate::label::{level, Level};
use crate::layout::Geometry;
use crate::make::build::{volume, Volume};
use crate::make::create_cases::right_fields;
use crate::make::file::{FilePlan, Want};
use crate::make::positions::{free_in, of_another_level, Field, ERMAP, HDR1, VOL1};
use crate::make::read_cases::lose;
use crate::make::rng::Rng;
use crate::make::volume_cases::Made;
use crate::make::{case, placing, write_cases, Case};
use crate::model::{answer, Answer, Call};
use crate::packed::{self, code, refusal_of};
use crate::reading::{read, salvage, Place, Reading};
use crate::refusal::Refusal;
use crate::slots::{self, Held};
use crate::text::address;
use crate::volume::{judge, label_in, ERMAP_ORDINAL, LEAST_IMAGE, VOL1_ORDINAL};
use crate::walked;

type Property = (&'static str, fn(u64, usize, usize) -> Result<(), String>);

/// Every property with its name.
pub const PROPERTIES: [Property; 15] = [
    ("lent bytes stay", lent_bytes),
    ("what is not judged decides nothing", unjudged),
    ("read-back", read_back),
    ("every write is accounted for", accounted),
    ("a write minds no old contents", old_contents),
    ("salvage gives the survivors", survivors),
    ("plain reading stops at 20", up_to_lost),
    ("following never answers 19", following),
    ("equal index and extent, equal answers", equal_answers),
    ("the mark counts in salvage of S only", marks),
    ("every create and delete is accounted for", placings),
    ("creates and deletes leave all other files", others_stay),
    ("room freed by a delete is used again", used_again),
    ("a create minds no data", data_unminded),
    ("physical cylinders are the walk's", walk),
];

/// Checks all properties on numbered cases; the counts per property, or the
/// first failure in words that reproduce it.
pub fn check(
    seed: u64,
    count: usize,
    largest: usize,
) -> Result<Vec<(&'static str, usize)>, String> {
    let mut counts = Vec::new();
    for (name, property) in PROPERTIES {
        for index in 0..count {
            property(seed, index, largest).map_err(|why| {
                format!("property `{name}`, seed {seed}, case {index}, largest {largest}: {why}")
            })?;
        }
        counts.push((name, count));
    }
    Ok(counts)
}

fn ensure(holds: bool, why: impl FnOnce() -> String) -> Result<(), String> {
    if holds {
        Ok(())
    } else {
        Err(why())
    }
}

fn lent_bytes(seed: u64, index: usize, largest: usize) -> Result<(), String> {
    lent_bytes_stay(&case(seed, index, largest))
}

/// "A refusal returns number and place, and all lent bytes stay. Bytes behind
/// a record in the output stay too; gap and End change none."
pub fn lent_bytes_stay(case: &Case) -> Result<(), String> {
    let given = answer(&case.image, &case.call);
    let done = code(given.packed) == 0;
    match &case.call {
        Call::Write { .. } if done => only_the_file_changed(case, &given),
        Call::Create { .. } | Call::Delete { .. } => {
            slots::holds(&case.image, &given.image, &case.call, given.packed)
        }
        Call::Read { out, .. } | Call::Salvage { out, .. } => {
            let length = if done {
                given.packed >> 32 & 0xFF_FFFF
            } else {
                0
            } as usize;
            ensure(given.image == case.image, || "image changed".to_string())?;
            ensure(
                given.out.len() == out.len() && given.out[length..] == out[length..],
                || "output changed behind the record".to_string(),
            )
        }
        _ => ensure(given.image == case.image, || "image changed".to_string()),
    }
}

/// Any bytes where a label's fields take them.
fn soil(rng: &mut Rng, image: &mut [u8], ordinal: usize, fields: &[Field]) {
    let label = Geometry::index_body_mut(image, ordinal);
    for position in free_in(fields) {
        label[position - 1] = rng.telling_bytes(1)[0];
    }
}

/// The same in ERMAP, VOL1 and the labels of an accepted volume.
fn soiled(rng: &mut Rng, image: &[u8]) -> Vec<u8> {
    let mut other = image.to_vec();
    soil(rng, &mut other, ERMAP_ORDINAL, &ERMAP);
    soil(rng, &mut other, VOL1_ORDINAL, &VOL1);
    let slots = judge(image).map_or(0, |geometry| geometry.slots());
    for slot in 1..=slots {
        let fields = match label_in(image, slot).map(level) {
            None => continue,
            Some(Some(Level::Other)) => of_another_level(),
            Some(_) => HDR1.to_vec(),
        };
        soil(rng, &mut other, Geometry::slot_ordinal(slot), &fields);
    }
    other
}

/// "Other positions are not judged.": whatever stands there, every call
/// answers the same and leaves it.
fn unjudged(seed: u64, index: usize, largest: usize) -> Result<(), String> {
    let Case { image, call, .. } = case(seed, index, largest);
    if image.len() < LEAST_IMAGE {
        return Ok(());
    }
    let other = soiled(&mut Rng::for_case(seed ^ 0xF, index as u64), &image);
    let (one, two) = (answer(&image, &call), answer(&other, &call));
    let same = one.packed == two.packed && one.out == two.out;
    ensure(same, || "answers differ".to_string())?;
    let mut left = one.image;
    for at in (0..image.len()).filter(|&at| image[at] != other[at]) {
        left[at] = other[at];
    }
    ensure(left == two.image, || "other bytes are left".to_string())
}

/// Good records of the file in a slot and its m, by a count of its own.
fn good_records(image: &[u8], geometry: &Geometry, slot: usize) -> Option<(Vec<usize>, usize)> {
    let label = label_in(image, slot)?;
    let start = address(&label[28..33], geometry)?;
    let end = address(&label[34..39], geometry)?;
    let b: usize = std::str::from_utf8(&label[22..27]).ok()?.parse().ok()?;
    let kind = |record: usize| image[geometry.kind_at(geometry.record_ordinal(record))];
    let good = (start..=end).filter(|&record| !(16..32).contains(&kind(record)));
    Some((good.collect(), (b / geometry.p()).max(1)))
}

/// A write changes the records of its blocks and label positions 58-62 and
/// 75-79 only.
fn only_the_file_changed(case: &Case, given: &Answer) -> Result<(), String> {
    let Call::Write { slot, .. } = &case.call else {
        return Ok(());
    };
    let slot = *slot as usize;
    let geometry = judge(&case.image).map_err(|refused| format!("{refused:?}"))?;
    let (good, m) = good_records(&case.image, &geometry, slot).ok_or("no label")?;
    let mut expected = case.image.clone();
    for &record in &good[..given.packed as usize * m] {
        let at = geometry.kind_at(geometry.record_ordinal(record));
        ensure(given.image[at] == geometry.k, || {
            "no valid mark".to_string()
        })?;
        expected[at..=at + geometry.p()].copy_from_slice(&given.image[at..=at + geometry.p()]);
    }
    let label = Geometry::slot_ordinal(slot) * 129;
    for (first, last) in [(58, 62), (75, 79)] {
        let range = label + first..=label + last;
        expected[range.clone()].copy_from_slice(&given.image[range]);
    }
    ensure(expected == given.image, || {
        "bytes outside the file changed".to_string()
    })
}

/// The answers met by following from Start, as packed numbers and bodies.
fn dump(image: &[u8], slot: u64, salvaging: bool) -> Vec<(Result<Reading, Refusal>, Vec<u8>)> {
    let mut answers = Vec::new();
    let mut place = Place::START;
    let mut out = vec![0; image.len()];
    loop {
        let given = if salvaging {
            salvage(image, slot, place, &mut out)
        } else {
            read(image, slot, place, &mut out)
        };
        let length = match given {
            Ok(Reading::Record { length, .. }) => length as usize,
            _ => 0,
        };
        answers.push((given, out[..length].to_vec()));
        match given {
            Ok(Reading::Record { next, .. } | Reading::Gap { next }) => place = next,
            _ => return answers,
        }
    }
}

/// After an accepted write, reading from Start gives the list, then End; the
/// count equals the answer; the volume judges the same; all other files read
/// as before.
fn read_back(seed: u64, index: usize, largest: usize) -> Result<(), String> {
    let mut rng = Rng::for_case(seed ^ 0xB, index as u64);
    let make = rng.pick(&[
        write_cases::write_some as fn(&mut Rng, usize) -> (Vec<u8>, Call),
        write_cases::write_full,
        write_cases::write_empty,
    ]);
    let (image, call) = make(&mut rng, largest);
    let given = answer(&image, &call);
    let Call::Write {
        slot,
        bodies,
        lengths,
    } = &call
    else {
        return Ok(());
    };
    if code(given.packed) != 0 {
        return Ok(());
    }
    ensure(count(&given.image, *slot) == Ok(given.packed), || {
        "count differs".to_string()
    })?;
    ensure(judge(&given.image) == judge(&image), || {
        "judged otherwise".to_string()
    })?;
    list_is_read(&given.image, *slot, bodies, lengths)?;
    let slots = judge(&image).map_or(0, |geometry| geometry.slots()) as u64;
    for other in (1..=slots).filter(|other| other != slot) {
        let same = dump(&image, other, true) == dump(&given.image, other, true);
        ensure(same, || format!("slot {other} reads otherwise"))?;
    }
    Ok(())
}

fn list_is_read(image: &[u8], slot: u64, bodies: &[u8], lengths: &[u32]) -> Result<(), String> {
    let answers = dump(image, slot, false);
    ensure(answers.len() == lengths.len() + 1, || {
        format!("{} answers for {} records", answers.len(), lengths.len())
    })?;
    let mut rest = bodies;
    for (number, &length) in lengths.iter().enumerate() {
        let (body, behind) = rest.split_at(length as usize);
        rest = behind;
        ensure(answers[number].1 == body, || {
            format!("record {number} differs")
        })?;
    }
    let ended = matches!(answers.last(), Some((Ok(Reading::End { .. }), _)));
    ensure(ended, || "no End".to_string())
}

/// A case of writing, of any of its families.
fn write_case(seed: u64, index: usize, largest: usize) -> Made {
    const FAMILIES: [fn(&mut Rng, usize) -> Made; 6] = [
        write_cases::write_some,
        write_cases::write_full,
        write_cases::write_empty,
        write_cases::write_sums,
        write_cases::write_lengths,
        write_cases::write_refused,
    ];
    let mut rng = Rng::for_case(seed ^ 0xE, index as u64);
    FAMILIES[index % FAMILIES.len()](&mut rng, largest)
}

/// The account of a write, which is none of `writing`, names the same blocks,
/// the same bytes and the same refusal of a list.
fn accounted(seed: u64, index: usize, largest: usize) -> Result<(), String> {
    let (image, call) = write_case(seed, index, largest);
    let given = answer(&image, &call);
    match List::of(&call) {
        Some(list) => account::holds(&image, &given.image, &list, given.packed),
        None => Ok(()),
    }
}

/// What stood in good records, their marks, U and the data end play no part:
/// the blocks and the label come out the same.
fn old_contents(seed: u64, index: usize, largest: usize) -> Result<(), String> {
    let (image, call) = write_case(seed, index, largest);
    let Some(ground) = List::of(&call).and_then(|list| Ground::of(&image, list.slot)) else {
        return Ok(());
    };
    let mut rng = Rng::for_case(seed ^ 0xE1, index as u64);
    let mut other = image.clone();
    for &record in &ground.good {
        let at = ground.extent[record].1;
        other[at] = ground.geometry.k + rng.pick(&[0, 32]);
        let bytes = rng.telling_bytes(ground.geometry.p());
        other[at + 1..=at + ground.geometry.p()].copy_from_slice(&bytes);
    }
    let start = other[ground.label + 28..ground.label + 33].to_vec();
    other[ground.label + 74..ground.label + 79].copy_from_slice(&start);
    other[ground.label + 57..ground.label + 62].fill(b' ');
    let (one, two) = (answer(&image, &call), answer(&other, &call));
    ensure(one.packed == two.packed, || "answers differ".to_string())?;
    if code(one.packed) != 0 {
        return Ok(());
    }
    let label = ground.label..ground.label + 128;
    let sectors = ground.taken(one.packed as usize).iter().map(|&record| {
        let at = ground.extent[record].1;
        at..at + 1 + ground.geometry.p()
    });
    for part in sectors.chain([label]) {
        let same = one.image[part.clone()] == two.image[part.clone()];
        ensure(same, || format!("bytes {part:?} differ"))?;
    }
    Ok(())
}

/// A file that reads whole, then some of its sectors lost.
fn damaged(seed: u64, index: usize, largest: usize) -> (Volume, FilePlan, Vec<bool>) {
    let mut rng = Rng::for_case(seed ^ 0xC, index as u64);
    let want = Want::format(rng.pick(b"FVSS"));
    let mut made = volume(&mut rng, largest, want);
    let file = made.main().clone();
    let percent = rng.pick(&[0, 5, 15, 30, 60]);
    lose(&mut rng, &mut made, &file, percent);
    let geometry = made.geometry;
    let failed =
        |record: usize| made.image[geometry.kind_at(geometry.record_ordinal(record))] >= 32;
    let lost = (0..file.blocks())
        .map(|block| {
            file.block_records(block)
                .iter()
                .any(|&record| failed(record))
        })
        .collect();
    (made, file, lost)
}

/// "in order every record no block of which is lost, one gap per lost block
/// at its place, End", counted from the packer's own account.
fn survivors(seed: u64, index: usize, largest: usize) -> Result<(), String> {
    let (made, file, lost) = damaged(seed, index, largest);
    let answers = dump(&made.image, file.slot as u64, true);
    let mut expected: Vec<Option<&[u8]>> = Vec::new();
    let mut places = Vec::new();
    let mut records = file.packed.records.iter().peekable();
    for (block, &is_lost) in lost.iter().enumerate() {
        while let Some(record) = records.next_if(|record| record.last <= block) {
            if !lost[record.first..=record.last].contains(&true) {
                expected.push(Some(&record.body));
                places.push((record.last, false));
            }
        }
        if is_lost {
            expected.push(None);
            places.push((block + 1, true));
        }
    }
    let found: Vec<Option<&[u8]>> = answers.iter().filter_map(shown).collect();
    ensure(found == expected, || format!("{found:?} for {expected:?}"))?;
    for ((given, _), (block, mark)) in answers.iter().zip(places) {
        let (Ok(Reading::Record { next, .. }) | Ok(Reading::Gap { next })) = given else {
            return Err("an early end".to_string());
        };
        let right = next.block == block as u64 && next.mark == mark;
        ensure(right && (!mark || next.offset == 0), || {
            format!("place {next:?}")
        })?;
    }
    let end = Reading::End {
        next: Place::unmarked(file.blocks() as u64, 0),
    };
    let ended = answers.last().map(|answer| answer.0) == Some(Ok(end));
    ensure(ended, || format!("no End: {:?}", answers.last()))
}

/// A record's body, a gap as none; End and refusals are left out.
fn shown(answer: &(Result<Reading, Refusal>, Vec<u8>)) -> Option<Option<&[u8]>> {
    match answer.0 {
        Ok(Reading::Record { .. }) => Some(Some(&answer.1)),
        Ok(Reading::Gap { .. }) => Some(None),
        _ => None,
    }
}

/// Plain reading gives the records up to the first lost block, then 20.
fn up_to_lost(seed: u64, index: usize, largest: usize) -> Result<(), String> {
    let (made, file, lost) = damaged(seed, index, largest);
    let answers = dump(&made.image, file.slot as u64, false);
    let first_lost = lost.iter().position(|&is_lost| is_lost);
    let bound = first_lost.unwrap_or(file.blocks());
    let expected: Vec<Option<&[u8]>> = file
        .packed
        .records
        .iter()
        .filter(|record| record.last < bound)
        .map(|record| Some(&record.body[..]))
        .collect();
    let found: Vec<Option<&[u8]>> = answers.iter().filter_map(shown).collect();
    ensure(found == expected, || format!("{found:?} for {expected:?}"))?;
    let last = match first_lost {
        Some(block) => Err(Refusal::at(20, block)),
        None => Ok(Reading::End {
            next: Place::unmarked(bound as u64, 0),
        }),
    };
    let ended = answers.last().map(|answer| answer.0) == Some(last);
    ensure(ended, || format!("{:?} for {last:?}", answers.last()))
}

/// Following never answers 19, and every place lies behind the one before.
fn following(seed: u64, index: usize, largest: usize) -> Result<(), String> {
    let case = case(seed, index, largest);
    let slots = judge(&case.image).map_or(0, |geometry| geometry.slots()) as u64;
    for slot in 1..=slots {
        for salvaging in [false, true] {
            let mut before = (0, 0, false);
            for (number, (given, _)) in dump(&case.image, slot, salvaging).iter().enumerate() {
                match given {
                    Ok(Reading::Record { next, .. } | Reading::Gap { next }) => {
                        let place = (next.block, next.offset, next.mark);
                        ensure(place > before, || format!("slot {slot} stays at {place:?}"))?;
                        before = place;
                    }
                    Err(refused) => {
                        ensure(refused.number != 19, || {
                            format!("slot {slot}, step {number}: 19")
                        })?;
                    }
                    Ok(Reading::End { .. }) => {}
                }
            }
        }
    }
    Ok(())
}

/// "Two accepted images equal in the index cylinder and in one file's extent
/// give equal answers to every reading of that file."
fn equal_answers(seed: u64, index: usize, largest: usize) -> Result<(), String> {
    let mut rng = Rng::for_case(seed ^ 0xF, index as u64);
    let want = Want::format(rng.pick(b"FVSS"));
    let mut made = volume(&mut rng, largest, want);
    let file = made.main().clone();
    lose(&mut rng, &mut made, &file, 10);
    let twin = scrambled_outside(&mut rng, &made, &file);
    let slot = file.slot as u64;
    for salvaging in [false, true] {
        let same = dump(&made.image, slot, salvaging) == dump(&twin, slot, salvaging);
        ensure(same, || "following differs".to_string())?;
    }
    for _ in 0..6 {
        let place = crate::make::calls::odd_place(&mut rng, &file);
        let salvaging = rng.chance(50);
        let call = crate::make::calls::reading_call(&mut rng, &made, slot, place, salvaging);
        let (one, two) = (answer(&made.image, &call), answer(&twin, &call));
        let same = one.packed == two.packed && one.out == two.out;
        ensure(same, || format!("{place:?}: {:?}", refusal_of(one.packed)))?;
    }
    ensure(count(&made.image, slot) == count(&twin, slot), || {
        "counts differ".to_string()
    })
}

/// The image with every sector outside the index and the extent changed.
fn scrambled_outside(rng: &mut Rng, made: &Volume, file: &FilePlan) -> Vec<u8> {
    let geometry = made.geometry;
    let inside: Vec<usize> = (file.start..=file.end)
        .map(|record| geometry.record_ordinal(record))
        .collect();
    let mut twin = made.image.clone();
    for ordinal in geometry.index_sectors()..geometry.sectors() {
        if inside.binary_search(&ordinal).is_err() {
            let at = geometry.kind_at(ordinal);
            twin[at] = geometry.k + rng.pick(&[0, 16, 32]);
            let body = rng.telling_bytes(geometry.p());
            twin[at + 1..=at + geometry.p()].copy_from_slice(&body);
        }
    }
    twin
}

/// "In plain reading, at offsets above 0, and in F and V, the mark counts as
/// absent." Without it, salvage answers as plain reading up to a lost block.
fn marks(seed: u64, index: usize, largest: usize) -> Result<(), String> {
    let case = case(seed, index, largest);
    let (Call::Read {
        slot,
        block,
        offset,
        ..
    }
    | Call::Salvage {
        slot,
        block,
        offset,
        ..
    }) = &case.call
    else {
        return Ok(());
    };
    let unmarked = Place::unmarked(*block, *offset);
    let marked = Place {
        mark: true,
        ..unmarked
    };
    let image = &case.image;
    let mut out = vec![0; image.len()];
    let plain = read(image, *slot, unmarked, &mut out);
    let with_mark = read(image, *slot, marked, &mut out);
    ensure(plain == with_mark, || {
        "plain reading minds the mark".to_string()
    })?;
    let salvaged = salvage(image, *slot, unmarked, &mut out);
    match (plain, salvaged) {
        (Err(refused), Ok(Reading::Gap { next })) if refused.number == 20 => {
            let right = next.block == refused.first + 1;
            ensure(right, || format!("gap to {next:?} for {refused:?}"))?;
        }
        _ => ensure(plain == salvaged, || format!("{plain:?}, {salvaged:?}"))?,
    }
    let spanned = format_of(image, *slot) == Some(b'S');
    let minds = salvage(image, *slot, marked, &mut out) != salvaged;
    ensure(!minds || (spanned && *offset == 0), || {
        "the mark counts".to_string()
    })
}

/// Position 40 of the label in a slot of an accepted volume.
fn format_of(image: &[u8], slot: u64) -> Option<u8> {
    let geometry = judge(image).ok()?;
    let slot = usize::try_from(slot).ok()?;
    if !(1..=geometry.slots()).contains(&slot) {
        return None;
    }
    label_in(image, slot).map(|label| label[39])
}

/// The account of a create or delete, which is none of `creating`, names the
/// same number and the same bytes.
fn placings(seed: u64, index: usize, largest: usize) -> Result<(), String> {
    lent_bytes_stay(&placing(seed, index, largest))
}

/// "Existing files read as before." The volume is judged as before, and the
/// free count moves by what was taken or freed.
fn others_stay(seed: u64, index: usize, largest: usize) -> Result<(), String> {
    let case = placing(seed, index, largest);
    let given = answer(&case.image, &case.call);
    if code(given.packed) != 0 {
        return Ok(());
    }
    let free = |image: &[u8]| answer(image, &Call::Free).packed;
    let (slot, right) = match case.call {
        Call::Create { n, .. } => (given.packed >> 24, free(&given.image) + n),
        Call::Delete { slot } => (slot, free(&given.image).wrapping_sub(given.packed)),
        _ => return Ok(()),
    };
    ensure(free(&case.image) == right, || "free records".to_string())?;
    ensure(judge(&given.image) == judge(&case.image), || {
        "judged otherwise".to_string()
    })?;
    let slots = judge(&case.image).map_or(0, |geometry| geometry.slots()) as u64;
    for other in (1..=slots).filter(|&other| other != slot) {
        let same = dump(&case.image, other, true) == dump(&given.image, other, true)
            && count(&case.image, other) == count(&given.image, other);
        ensure(same, || format!("slot {other} reads otherwise"))?;
    }
    Ok(())
}

/// "Room freed by a delete is used again": any number of records up to as many
/// as were freed is had right behind it.
fn used_again(seed: u64, index: usize, largest: usize) -> Result<(), String> {
    let case = placing(seed, index, largest);
    let given = answer(&case.image, &case.call);
    let (Call::Delete { .. }, 0) = (&case.call, code(given.packed)) else {
        return Ok(());
    };
    let geometry = judge(&given.image).map_err(|refused| format!("{refused:?}"))?;
    let mut rng = Rng::for_case(seed ^ 0xA6, index as u64);
    for n in [
        1,
        rng.between(1, given.packed as usize) as u64,
        given.packed,
    ] {
        let fields = right_fields(&mut rng, &geometry);
        let again = answer(&given.image, &Call::Create { fields, n });
        ensure(code(again.packed) == 0, || {
            format!("{n}: {:?}", refusal_of(again.packed))
        })?;
    }
    Ok(())
}

/// "free does not look at marks": whatever stands in the data, a create gives
/// the same number and the same label.
fn data_unminded(seed: u64, index: usize, largest: usize) -> Result<(), String> {
    let case = placing(seed, index, largest);
    let (Call::Create { .. }, Ok(held)) = (&case.call, Held::of(&case.image)) else {
        return Ok(());
    };
    let mut rng = Rng::for_case(seed ^ 0xDA, index as u64);
    let mut other = case.image.clone();
    let (k, p) = (held.geometry.k, held.geometry.p());
    for &(_, at) in &held.addresses {
        other[at] = k + rng.pick(&[0, 16, 32]);
        other[at + 1..=at + p].fill(rng.byte());
    }
    let (one, two) = (answer(&case.image, &case.call), answer(&other, &case.call));
    let index = held.geometry.s * held.geometry.i * 129;
    ensure(one.packed == two.packed, || "answers differ".to_string())?;
    ensure(one.image[..index] == two.image[..index], || {
        "labels differ".to_string()
    })?;
    ensure(two.image[index..] == other[index..], || {
        "data changed".to_string()
    })
}

/// "What it answers stays the same for every cylinder and pair of defects": of
/// an accepted volume the cylinders that are given, and where the records
/// stand, are those of the walk; 0 is given on both sides of 1 to L.
fn walk(seed: u64, index: usize, largest: usize) -> Result<(), String> {
    let image = case(seed, index, largest).image;
    let judged = judge(&image);
    let packed = packed::judged(&judged);
    let walked = judged.as_ref().map(walked::of).unwrap_or_default();
    let right: Vec<u64> = walked.iter().map(|&physical| physical as u64).collect();
    let last = right.len() as u64 + 1;
    let given = |cylinder| packed::physical(packed, cylinder);
    let is: Vec<u64> = (1..last).map(given).collect();
    ensure(is == right, || format!("{is:?}, not {right:?}"))?;
    ensure([0, last, u64::MAX].map(given) == [0; 3], || {
        "a cylinder outside 1 to L".to_string()
    })?;
    let Ok(geometry) = judged else { return Ok(()) };
    let records = geometry.walk(0, geometry.data_records() - 1);
    let addresses = walked::addresses(&geometry);
    ensure(
        records
            .map(|record| record.1)
            .eq(addresses.iter().map(|a| a.1)),
        || "records stand elsewhere".to_string(),
    )
}
