//! Wrong skips of defective cylinders, served in the place of the library's:
//! the cases of request 2026-03 have to tell each from the right one.

use crate::drive::{expected, Outcome};
use crate::layout::Geometry;
use crate::model::Call;
use crate::volume::judge;
use crate::walked::{self, sector_at};
use std::ops::Range;

/// The physical cylinder of a data cylinder, from d1, d2 and c.
pub type Skip = fn(Option<usize>, Option<usize>, usize) -> usize;

/// Each by its name. Data cylinders one behind the other never stand on one
/// physical cylinder, and none stands behind L+3. With d1 < d2 the comparison of
/// d2 with c, that by `<` with q, and the two exchanged come to the same.
pub const WRONG: [(&str, Skip); 9] = [
    ("never", |_, _, c| c),
    ("only-d1", |d1, _, c| past(at_most(d1, c), c)),
    ("only-d2", |_, d2, c| past(at_most(d2, c), c)),
    ("d1-below", |d1, d2, c| {
        let q = past(below(d1, c), c);
        past(at_most(d2, q), q)
    }),
    ("d2-below", |d1, d2, c| {
        let q = past(at_most(d1, c), c);
        past(below(d2, q), q)
    }),
    ("both-below", |d1, d2, c| {
        let q = past(below(d1, c), c);
        past(below(d2, q), q)
    }),
    ("d2-with-c", |d1, d2, c| {
        past(at_most(d2, c), past(at_most(d1, c), c))
    }),
    ("exchanged", |d1, d2, c| {
        let q = past(at_most(d2, c), c);
        past(at_most(d1, q), q)
    }),
    ("absent-is-0", |d1, d2, c| {
        let q = past(d1.unwrap_or(0) <= c, c);
        past(d2.unwrap_or(0) <= q, q)
    }),
];

fn past(skips: bool, cylinder: usize) -> usize {
    cylinder + usize::from(skips)
}

fn at_most(defect: Option<usize>, cylinder: usize) -> bool {
    defect.is_some_and(|defect| defect <= cylinder)
}

fn below(defect: Option<usize>, cylinder: usize) -> bool {
    defect.is_some_and(|defect| defect < cylinder)
}

/// A wrong skip by its name.
pub fn named(name: &str) -> Option<Skip> {
    let found = WRONG.iter().find(|wrong| wrong.0 == name);
    found.map(|wrong| wrong.1)
}

/// What a program with a wrong skip, and nothing else wrong, says of a call:
/// it is the right program on an image in which each data cylinder has been
/// brought from where the wrong skip looks for it, and is put back there.
pub fn said(skip: Skip, image: &[u8], call: &Call) -> Option<Outcome> {
    let Ok(geometry) = judge(image) else {
        return expected(image, call);
    };
    let taken = |c| skip(geometry.d1, geometry.d2, c);
    let moves = (1..).zip(walked::of(&geometry));
    let moves: Vec<(Range<usize>, Range<usize>)> = moves
        .map(|(c, right)| (cylinder(&geometry, taken(c)), cylinder(&geometry, right)))
        .collect();
    let mut shown = image.to_vec();
    for (wrong, right) in &moves {
        shown[right.clone()].copy_from_slice(&image[wrong.clone()]);
    }
    let mut outcome = expected(&shown, call)?;
    let [left, ..] = &mut outcome.lent;
    let index = geometry.s * geometry.i * 129;
    let mut after = [&left[..index], &image[index..]].concat();
    for (wrong, right) in moves {
        after[wrong].copy_from_slice(&left[right]);
    }
    *left = after;
    if let (Call::Physical { cylinder }, 1..) = (call, outcome.returned) {
        outcome.returned = taken(*cylinder as usize) as u64;
    }
    Some(outcome)
}

/// The bytes of a physical cylinder.
fn cylinder(geometry: &Geometry, physical: usize) -> Range<usize> {
    let at = |physical| sector_at(geometry, physical, 0, 1);
    at(physical)..at(physical + 1)
}
