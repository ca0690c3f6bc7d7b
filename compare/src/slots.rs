//! What creating and deleting leave, worked out a second time from the words
//! of request 2026-01, without `creating`: slot by slot, address by address,
//! and with a small volume that has the proposed label alone.

use crate::account::digits;
use crate::layout::Geometry;
use crate::make::sample::Plain;
use crate::model::Call;
use crate::packed;
use crate::refusal::Refusal;
use crate::volume::judge;
use crate::walked::{addresses, Address};

/// What an accepted volume holds.
pub struct Held<'a> {
    image: &'a [u8],
    pub geometry: Geometry,
    /// Every data address in order, with where its kind stands.
    pub addresses: Vec<(Address, usize)>,
    /// The slot whose extent has the address; none if it is free.
    pub owners: Vec<Option<usize>>,
}

/// The address that five bytes of a label say.
fn address(bytes: &[u8]) -> Address {
    let number = |part: &[u8]| part.iter().fold(0, |n, &b| 10 * n + usize::from(b & 15));
    (
        number(&bytes[..2]),
        number(&bytes[2..3]),
        number(&bytes[3..]),
    )
}

/// Whether a label has a level that has names.
pub fn known(label: &[u8]) -> bool {
    b" 12".contains(&label[43])
}

impl<'a> Held<'a> {
    pub fn of(image: &'a [u8]) -> Result<Held<'a>, Refusal> {
        let geometry = judge(image)?;
        let addresses = addresses(&geometry);
        let mut held = Held {
            image,
            geometry,
            owners: vec![None; addresses.len()],
            addresses,
        };
        for slot in 1..=held.slots() {
            let (Some(from), Some(to)) = (held.rank(slot, 29), held.rank(slot, 35)) else {
                continue;
            };
            held.owners[from..=to].fill(Some(slot));
        }
        Ok(held)
    }

    pub fn slots(&self) -> usize {
        self.geometry.s * self.geometry.i - 7
    }

    /// Where a slot's sector begins.
    pub fn at(slot: usize) -> usize {
        (slot + 6) * 129
    }

    /// The label in a slot; none in a deleted one.
    pub fn label(&self, slot: usize) -> Option<&'a [u8]> {
        let at = Held::at(slot);
        (self.image[at] == 0).then(|| &self.image[at + 1..at + 129])
    }

    /// The number from 0 of the address at a position of a slot's label.
    fn rank(&self, slot: usize, position: usize) -> Option<usize> {
        let wanted = address(&self.label(slot)?[position - 1..position + 4]);
        self.addresses.binary_search_by_key(&wanted, |a| a.0).ok()
    }

    /// "12 for a name in use, with the slot that has it"
    pub fn named(&self, name: &[u8]) -> Option<usize> {
        (1..=self.slots()).find(|&slot| {
            let label = self.label(slot).filter(|label| known(label));
            label.is_some_and(|label| &label[5..22] == name)
        })
    }

    pub fn deleted(&self) -> Vec<usize> {
        let gone = |slot: &usize| self.label(*slot).is_none();
        (1..=self.slots()).filter(gone).collect()
    }

    /// Free stretches, each as long as can be: first address and how many.
    pub fn stretches(&self) -> Vec<(usize, usize)> {
        let mut found: Vec<(usize, usize)> = Vec::new();
        for (rank, _) in self.owners.iter().enumerate().filter(|o| o.1.is_none()) {
            match found.last_mut() {
                Some((first, count)) if *first + *count == rank => *count += 1,
                _ => found.push((rank, 1)),
            }
        }
        found
    }

    /// "the lowest free run of n consecutive data addresses": where the n-th
    /// free one in a row is met.
    pub fn lowest_run(&self, n: u64) -> Option<usize> {
        let mut in_a_row = 0;
        for (rank, owner) in self.owners.iter().enumerate() {
            in_a_row = if owner.is_none() { in_a_row + 1 } else { 0 };
            if in_a_row == n {
                return Some(rank + 1 - n as usize);
            }
        }
        None
    }
}

/// The label that is to stand, from its first position to its last.
fn label(fields: &[u8], start: Address, end: Address) -> Vec<u8> {
    let (start, end) = (digits(start), digits(end));
    let (lengths, rest) = (&fields[17..22], &fields[22..]);
    let mut label = [b"HDR1 ", &fields[..17], lengths, b" "].concat();
    label.extend([&start[..], b" ", &end, &rest[..1], b"   ", &rest[1..2]].concat());
    label.extend([&[b' '; 9][..], &rest[2..6], b"     ", &rest[6..]].concat());
    label.extend([&[b' '; 11][..], &start, &[b' '; 49]].concat());
    label
}

/// The position at fault: that for which a volume of the same records, with
/// this label alone, is refused, or one of "a level other than space, 1, 2
/// counts at 44, n = 0 at 35, other than 29 bytes at 6".
pub fn fault(fields: &[u8], n: u64, geometry: &Geometry) -> Option<u64> {
    if fields.len() != 29 {
        return Some(6);
    }
    let mut alone = Plain::new(1, 8, geometry.d, geometry.k, 1);
    alone.put_label(1, &label(fields, (1, 0, 1), (1, 0, 1)));
    let judged = judge(&alone.image).err().map(|refused| refused.second);
    let level = (!b" 12".contains(&fields[23])).then_some(44);
    let none = (n == 0).then_some(35);
    [judged, level, none].into_iter().flatten().min()
}

/// The number and the image that a call has to give.
type Given = Result<(u64, Vec<u8>), Refusal>;

fn created(image: &[u8], fields: &[u8], n: u64) -> Given {
    let held = Held::of(image)?;
    if let Some(position) = fault(fields, n, &held.geometry) {
        return Err(Refusal::at_two(10, 0, position as usize));
    }
    if let Some(slot) = held.named(&fields[..17]) {
        return Err(Refusal::at(12, slot));
    }
    let slot = *held.deleted().first().ok_or(Refusal::bare(28))?;
    let first = held.lowest_run(n).ok_or(Refusal::bare(29))?;
    let (start, end) = (
        held.addresses[first].0,
        held.addresses[first + n as usize - 1].0,
    );
    let mut after = image.to_vec();
    after[Held::at(slot)] = 0;
    after[Held::at(slot) + 1..Held::at(slot + 1)].copy_from_slice(&label(fields, start, end));
    let start = start.0 * 1000 + start.1 * 100 + start.2;
    Ok((slot as u64 * (1 << 24) + start as u64, after))
}

fn deleted(image: &[u8], wanted: u64) -> Given {
    let held = Held::of(image)?;
    let slot = (1..=held.slots()).find(|&slot| slot as u64 == wanted);
    let slot = slot.ok_or(Refusal::bare(13))?;
    let label = held.label(slot).ok_or(Refusal::bare(13))?;
    if !known(label) {
        return Err(Refusal::at(14, slot));
    }
    if label[42] == b'P' {
        return Err(Refusal::at(24, slot));
    }
    let mut after = image.to_vec();
    after[Held::at(slot)..Held::at(slot) + 2].copy_from_slice(b"\x10D");
    let freed = held.owners.iter().filter(|&&owner| owner == Some(slot));
    Ok((freed.count() as u64, after))
}

/// Whether the number that a create or delete returned and the image after
/// it are what the account of it says; of other calls it says nothing.
pub fn holds(before: &[u8], after: &[u8], call: &Call, returned: u64) -> Result<(), String> {
    let given = match call {
        Call::Create { fields, n } => created(before, fields, *n),
        Call::Delete { slot } => deleted(before, *slot),
        _ => return Ok(()),
    };
    let (number, image) = match given {
        Ok((number, image)) => (number, image),
        Err(refused) => (packed::refusal(&refused), before.to_vec()),
    };
    if number != returned {
        let told = |number| packed::in_words(number, false);
        return Err(format!("{}, not {}", told(returned), told(number)));
    }
    match image.iter().zip(after).position(|(is, was)| is != was) {
        Some(at) => Err(format!("byte {at} is {}, not {}", after[at], image[at])),
        None if image.len() != after.len() => Err("another length".to_string()),
        None => Ok(()),
    }
}
