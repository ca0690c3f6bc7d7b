//! The one 64-bit number of every call, and back apart again.

use crate::creating::Placed;
use crate::file::Found;
use crate::layout::Geometry;
use crate::reading::{Place, Reading};
use crate::refusal::Refusal;

/// "The code is the top byte": gap and End.
pub const GAP: u8 = 128;
pub const END: u8 = 129;

/// "A first place above 2^32-1 is given as 2^32-1"
pub fn refusal(refusal: &Refusal) -> u64 {
    let first = refusal.first.min(u64::from(u32::MAX));
    u64::from(refusal.number) << 56
        | first << 24
        | (refusal.second & 0xF_FFFF) << 4
        | (refusal.third & 0xF)
}

/// "L bits 0-7, I 8-15, D 16-23, k 24-27, S 28-31, d1 32-39, d2 40-47 (0:
/// absent)"
pub fn judged(answer: &Result<Geometry, Refusal>) -> u64 {
    match answer {
        Ok(g) => {
            g.l as u64
                | (g.i as u64) << 8
                | (g.d as u64) << 16
                | u64::from(g.k) << 24
                | (g.s as u64) << 28
                | (g.d1.unwrap_or(0) as u64) << 32
                | (g.d2.unwrap_or(0) as u64) << 40
        }
        Err(refused) => refusal(refused),
    }
}

/// "slot in bits 24-55, the label's byte offset in the image in bits 0-23"
pub fn found(answer: &Result<Found, Refusal>) -> u64 {
    match answer {
        Ok(found) => (found.slot as u64) << 24 | found.at as u64,
        Err(refused) => refusal(refused),
    }
}

/// "slot in bits 24-55; the start as the number of its five digits
/// (cylinder·1000 + side·100 + sector) in bits 0-23"
pub fn placed(answer: &Result<Placed, Refusal>) -> u64 {
    match answer {
        Ok(placed) => (placed.slot as u64) << 24 | placed.start as u64,
        Err(refused) => refusal(refused),
    }
}

/// Counts of blocks, free records, blocks written and records freed.
pub fn number(answer: &Result<u64, Refusal>) -> u64 {
    match answer {
        Ok(number) => *number,
        Err(refused) => refusal(refused),
    }
}

/// "bit 0 its mark, bits 1-15 its offset, bits 16-31 its block; bits 32-55
/// the record's length (0 for gap and End)"
pub fn reading(answer: &Result<Reading, Refusal>) -> u64 {
    let place = |place: &Place| place.block << 16 | place.offset << 1 | u64::from(place.mark);
    match answer {
        Ok(Reading::Record { length, next }) => length << 32 | place(next),
        Ok(Reading::Gap { next }) => u64::from(GAP) << 56 | place(next),
        Ok(Reading::End { next }) => u64::from(END) << 56 | place(next),
        Err(refused) => refusal(refused),
    }
}

/// The top byte.
pub fn code(packed: u64) -> u8 {
    (packed >> 56) as u8
}

/// The refusal of a number whose code is 1 to 127.
pub fn refusal_of(packed: u64) -> Option<Refusal> {
    (1..=127).contains(&code(packed)).then(|| Refusal {
        number: code(packed),
        first: packed >> 24 & 0xFFFF_FFFF,
        second: packed >> 4 & 0xF_FFFF,
        third: packed & 0xF,
    })
}

/// The place of a record, gap or End.
pub fn place_of(packed: u64) -> Place {
    Place {
        block: packed >> 16 & 0xFFFF,
        offset: packed >> 1 & 0x7FFF,
        mark: packed & 1 == 1,
    }
}

/// The answer of a reading or salvage.
pub fn reading_of(packed: u64) -> Option<Result<Reading, Refusal>> {
    let next = place_of(packed);
    match code(packed) {
        0 => Some(Ok(Reading::Record {
            length: packed >> 32 & 0xFF_FFFF,
            next,
        })),
        GAP => Some(Ok(Reading::Gap { next })),
        END => Some(Ok(Reading::End { next })),
        _ => refusal_of(packed).map(Err),
    }
}

/// Where a file was created.
pub fn placed_of(packed: u64) -> Option<Placed> {
    (code(packed) == 0).then_some(Placed {
        slot: (packed >> 24 & 0xFFFF_FFFF) as usize,
        start: (packed & 0xFF_FFFF) as usize,
    })
}

/// The numbers of an accepted volume.
pub fn geometry_of(packed: u64) -> Option<Geometry> {
    let byte = |shift: u32| (packed >> shift & 0xFF) as usize;
    let cylinder = |shift: u32| Some(byte(shift)).filter(|&cylinder| cylinder > 0);
    (code(packed) == 0).then(|| Geometry {
        l: byte(0),
        i: byte(8),
        d: byte(16),
        k: (packed >> 24 & 0xF) as u8,
        s: (packed >> 28 & 0xF) as usize,
        d1: cylinder(32),
        d2: cylinder(40),
    })
}

/// The physical cylinder of a data cylinder, from the number that a judgement
/// gave: 0 "for a cylinder outside 1..L", and where the volume is refused.
pub fn physical(judged: u64, cylinder: u64) -> u64 {
    let Some(geometry) = geometry_of(judged) else {
        return 0;
    };
    match usize::try_from(cylinder) {
        Ok(c) if (1..=geometry.l).contains(&c) => geometry.physical_cylinder(c) as u64,
        _ => 0,
    }
}

/// A packed number in words, for messages; `reads` for reading and salvage.
pub fn in_words(packed: u64, reads: bool) -> String {
    if let Some(refused) = refusal_of(packed) {
        return format!(
            "refusal {} at {}, {}, {}",
            refused.number, refused.first, refused.second, refused.third
        );
    }
    match reading_of(packed) {
        Some(Ok(answer)) if reads => format!("{answer:?}"),
        _ => format!("code {}, {}", code(packed), packed & 0xFF_FFFF_FFFF_FFFF),
    }
}
