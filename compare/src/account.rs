//! What a write leaves, worked out a second time from document 01's words,
//! without `writing` and `layout`'s ordinals: address by address through the
//! image, by the walk over its cylinders, with the case maker's own packing.

use crate::layout::Geometry;
use crate::make::pack::{pack, Packed, Shape};
use crate::model::Call;
use crate::packed::refusal_of;
use crate::refusal::Refusal;
use crate::volume::judge;
use crate::walked::{addresses, Address};

/// A list of records that a file is to hold.
#[derive(Clone, Copy, Debug)]
pub struct List<'a> {
    pub slot: u64,
    pub bodies: &'a [u8],
    pub lengths: &'a [u32],
}

impl<'a> List<'a> {
    /// The list of a call of writing.
    pub fn of(call: &'a Call) -> Option<List<'a>> {
        #[rustfmt::skip]
        let Call::Write { slot, bodies, lengths } = call else {
            return None;
        };
        Some(List {
            slot: *slot,
            bodies,
            lengths,
        })
    }

    /// Each body by itself, where the lengths sum to the bytes lent.
    pub fn records(&self) -> Vec<Vec<u8>> {
        let mut rest = self.bodies;
        let taken = self.lengths.iter().map(|&length| {
            let (body, behind) = rest.split_at(rest.len().min(length as usize));
            rest = behind;
            body.to_vec()
        });
        taken.collect()
    }

    /// "25 | lengths do not sum to the bytes lent"
    pub fn sums(&self) -> bool {
        let sum: u128 = self.lengths.iter().map(|&length| u128::from(length)).sum();
        sum == self.bodies.len() as u128
    }
}

pub fn digits(address: Address) -> Vec<u8> {
    let (cylinder, side, sector) = address;
    format!("{cylinder:02}{side}{sector:02}").into_bytes()
}

/// A file of level space, 1 or 2 as its label and its extent say, before it
/// is written.
#[derive(Clone, Debug)]
pub struct Ground {
    pub geometry: Geometry,
    /// Where the label's position 1 stands.
    pub label: usize,
    pub level: u8,
    /// The character in 40.
    pub format: u8,
    /// Its capacity is what the extent holds.
    pub shape: Shape,
    pub m: usize,
    /// The records of the extent: address and where the kind stands.
    pub extent: Vec<(Address, usize)>,
    /// Which of them are good, in turn.
    pub good: Vec<usize>,
    /// What the step past the extent's end gives.
    pub past: Address,
}

/// The bytes of positions of a label, both from 1.
fn positions(label: &[u8], first: usize, last: usize) -> &[u8] {
    &label[first - 1..last]
}

fn number(bytes: &[u8]) -> Option<usize> {
    std::str::from_utf8(bytes).ok()?.parse().ok()
}

impl Ground {
    /// None where no file of those levels is in the slot of an accepted image.
    pub fn of(image: &[u8], slot: u64) -> Option<Ground> {
        let geometry = judge(image).ok()?;
        let slots = (geometry.s * geometry.i - 7) as u64;
        if !(1..=slots).contains(&slot) || image[(slot as usize + 6) * 129] != 0 {
            return None;
        }
        let at = (slot as usize + 6) * 129 + 1;
        let label = &image[at..at + 128];
        let level = label[43];
        b" 12".contains(&level).then_some(())?;
        Ground::of_label(image, geometry, at, label)
    }

    fn of_label(image: &[u8], geometry: Geometry, at: usize, label: &[u8]) -> Option<Ground> {
        let all = addresses(&geometry);
        let place = |first| {
            let wanted = positions(label, first, first + 4);
            all.iter().position(|entry| digits(entry.0) == wanted)
        };
        let (start, end) = (place(29)?, place(35)?);
        let extent = all[start..=end].to_vec();
        // "A record of the extent is defective if its mark is incorrect and
        // its first byte `F`"; another incorrect mark is refused.
        let marked = |entry: &(Address, usize)| image[entry.1] == 16 + geometry.k;
        let good: Vec<usize> = (0..extent.len()).filter(|&n| !marked(&extent[n])).collect();
        let b = number(positions(label, 23, 27))?;
        let p = 128 << geometry.k;
        let m = if b > p { b / p } else { 1 };
        let shape = Shape {
            format: if label[39] == b' ' { b'F' } else { label[39] },
            blocked: label[62] == b'B',
            b,
            r: number(positions(label, 54, 57)).unwrap_or(b),
            capacity: good.len() / m,
        };
        Some(Ground {
            geometry,
            label: at,
            level: label[43],
            format: label[39],
            shape,
            m,
            extent,
            good,
            past: all.get(end + 1).map_or((geometry.l + 1, 0, 1), |a| a.0),
        })
    }

    /// The records of the extent that so many blocks take, as far as there
    /// are so many.
    pub fn taken(&self, blocks: usize) -> &[usize] {
        let most = self.good.len();
        &self.good[..blocks.saturating_mul(self.m).min(most)]
    }

    /// "start for 0 blocks; the first good record of the next block if a
    /// whole one is left; else the step past the extent's end."
    pub fn data_end(&self, blocks: usize) -> Address {
        let (used, next) = self.good.split_at(self.taken(blocks).len());
        match next {
            _ if used.is_empty() => self.extent[0].0,
            [first, ..] if next.len() >= self.m => self.extent[*first].0,
            _ => self.past,
        }
    }

    /// "26 | F length not R; V length+4 over R; S length over R (R not 0000),
    /// or not 0 with B = 5"
    pub fn refuses(&self, length: u32) -> bool {
        let (length, Shape { b, r, .. }) = (length as usize, self.shape);
        match self.shape.format {
            b'V' => length + 4 > r,
            b'S' => (r > 0 && length > r) || (b == 5 && length > 0),
            _ => length != r,
        }
    }

    /// The list in blocks, though the extent may not hold so many.
    pub fn packed(&self, list: &List) -> Packed {
        let shape = Shape {
            capacity: usize::MAX,
            ..self.shape
        };
        pack(&shape, &list.records())
    }
}

fn ensure(holds: bool, why: impl FnOnce() -> String) -> Result<(), String> {
    if holds {
        Ok(())
    } else {
        Err(why())
    }
}

/// Whether the number that a write returned and the image after it are what
/// the account of it says.
pub fn holds(before: &[u8], after: &[u8], list: &List, packed: u64) -> Result<(), String> {
    match refusal_of(packed) {
        Some(refusal) if before == after => refused(before, list, &refusal),
        Some(_) => Err("a refusal changed the image".to_string()),
        None => kept(before, after, list, packed),
    }
}

/// Whether an accepted write of a list left every byte of the image as it
/// has to be.
fn kept(before: &[u8], after: &[u8], list: &List, blocks: u64) -> Result<(), String> {
    let ground = Ground::of(before, list.slot).ok_or("no file in that slot")?;
    let lengths_kept = !list.lengths.iter().any(|&length| ground.refuses(length));
    ensure(list.sums() && lengths_kept, || "25 or 26 not given".into())?;
    let packed = ground.packed(list);
    ensure(packed.blocks.len() as u64 == blocks, || {
        format!("{} blocks, not {blocks}", packed.blocks.len())
    })?;
    ensure(packed.blocks.len() <= ground.shape.capacity, || {
        "more blocks than the extent holds".into()
    })?;
    others_stay(before, after, &ground, packed.blocks.len())?;
    blocks_stand(after, &ground, &packed)?;
    label_set(after, &ground, &packed)
}

/// "and every byte outside": a mask over the image, of the sectors that the
/// blocks take and of label positions 58-62 and 75-79.
fn others_stay(before: &[u8], after: &[u8], ground: &Ground, blocks: usize) -> Result<(), String> {
    let mut free = vec![false; before.len()];
    for &record in ground.taken(blocks) {
        let at = ground.extent[record].1;
        free[at..=at + ground.geometry.p()].fill(true);
    }
    for (first, last) in [(58, 62), (75, 79)] {
        free[ground.label + first - 1..ground.label + last].fill(true);
    }
    let changed = (0..before.len()).find(|&at| before[at] != after[at] && !free[at]);
    match changed {
        Some(at) => Err(format!("byte {at} is outside what is written")),
        None => Ok(()),
    }
}

/// "Content left, and physical records' ends, are filled with 00. Written
/// records get the valid mark"
fn blocks_stand(after: &[u8], ground: &Ground, packed: &Packed) -> Result<(), String> {
    let p = ground.geometry.p();
    let taken = ground.taken(packed.blocks.len()).chunks(ground.m);
    for (number, (block, records)) in packed.blocks.iter().zip(taken).enumerate() {
        let mut bytes = block.clone();
        bytes.resize(ground.m * p, 0);
        for (part, &record) in bytes.chunks(p).zip(records) {
            let at = ground.extent[record].1;
            ensure(after[at] == ground.geometry.k, || {
                format!("block {number}: no valid mark at byte {at}")
            })?;
            ensure(after[at + 1..=at + p] == *part, || {
                format!("block {number}: the record at byte {at} is another")
            })?;
        }
    }
    Ok(())
}

/// "Then U (spaces for 0) and the data end are set"; "Unblocked files get
/// U = 0."
fn label_set(after: &[u8], ground: &Ground, packed: &Packed) -> Result<(), String> {
    let left = packed.blocks.last().map_or(0, |b| ground.shape.b - b.len());
    let unused = match left {
        left if left > 0 && ground.shape.blocked => format!("{left:05}"),
        _ => "     ".to_string(),
    };
    let data_end = digits(ground.data_end(packed.blocks.len()));
    let label = &after[ground.label..ground.label + 128];
    for (first, right) in [(58, unused.as_bytes()), (75, &data_end)] {
        let is = positions(label, first, first + 4);
        ensure(is == right, || {
            let text = String::from_utf8_lossy;
            format!("position {first}: '{}', not '{}'", text(is), text(right))
        })?;
    }
    Ok(())
}

/// Whether a refusal 25 to 27 is given rightly and names the right place.
fn refused(before: &[u8], list: &List, refusal: &Refusal) -> Result<(), String> {
    let Some(ground) = Ground::of(before, list.slot).filter(|_| refusal.number >= 25) else {
        return Ok(());
    };
    let wrong = list.lengths.iter().position(|&l| ground.refuses(l));
    let right = match wrong {
        _ if !list.sums() => Refusal::bare(25),
        Some(record) => Refusal::at(26, record),
        None => Refusal::at(27, ground.packed(list).blocks.len()),
    };
    ensure(*refusal == right, || format!("{refusal:?}, not {right:?}"))?;
    ensure(
        right.number != 27 || right.first > ground.shape.capacity as u64,
        || "the extent holds it".into(),
    )
}
