//! The walk of request 2026-03, written out as a loop: "the code walks
//! cylinders counting good ones". `layout` has the two comparisons of document
//! 01 in its place; nothing of them is used here, so that each can be held
//! against the other.

use crate::layout::Geometry;

/// "from physical cylinder 1 upward, count those that are neither d1 nor d2;
/// data cylinder c stands on the c-th" (reading 03.1): the physical cylinders
/// of data cylinders 1 to `count`.
pub fn cylinders(d1: Option<usize>, d2: Option<usize>, count: usize) -> Vec<usize> {
    let mut good = Vec::with_capacity(count);
    let mut physical = 1;
    while good.len() < count {
        if ![d1, d2].contains(&Some(physical)) {
            good.push(physical);
        }
        physical += 1;
    }
    good
}

/// Those of a volume's data cylinders, 1 to L.
pub fn of(geometry: &Geometry) -> Vec<usize> {
    cylinders(geometry.d1, geometry.d2, geometry.l)
}

/// Where the kind of a sector of a physical cylinder, from 1, stands: "Sectors
/// in order: physical cylinder 0 to L+3, side 0 then 1, sector 01 upward. Each
/// is one byte of kind, then a body."
pub fn sector_at(geometry: &Geometry, physical: usize, side: usize, sector: usize) -> usize {
    let before = ((physical - 1) * geometry.s + side) * geometry.d + sector - 1;
    geometry.s * geometry.i * 129 + before * (1 + (128 << geometry.k))
}

/// A data address: cylinder, side, sector.
pub type Address = (usize, usize, usize);

/// The data addresses in their order, each with where its kind stands.
pub fn addresses(geometry: &Geometry) -> Vec<(Address, usize)> {
    let mut found = Vec::new();
    for (cylinder, physical) in (1..).zip(of(geometry)) {
        for side in 0..geometry.s {
            for sector in 1..=geometry.d {
                let at = sector_at(geometry, physical, side, sector);
                found.push(((cylinder, side, sector), at));
            }
        }
    }
    found
}
