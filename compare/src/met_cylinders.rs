//! What a case of request 2026-03 has met, for the tables of what was reached:
//! told from the image, the call and its answer, by the walk.

use crate::account::Ground;
use crate::layout::Geometry;
use crate::make::Case;
use crate::met::{named, Fact};
use crate::model::Call;
use crate::packed::{code, refusal_of, GAP};
use crate::volume::judge;
use crate::walked;

pub const PAIRS: &str = "defects of a volume whose cylinders are asked or read";
pub const ASKED: &str = "physical cylinder of";
pub const REFUSED: &str = "physical cylinder of a volume refused";
pub const BLOCKS: &str = "blocks of files beside defects";
pub const SIZES: &str = "sizes of volumes with two defects that are read";

/// Every row that has to be reached.
pub const TABLES: [(&str, &[&str]); 5] = [
    (
        PAIRS,
        &[
            "none",
            "d1 = 1 alone",
            "d1 in the midst alone",
            "d1 = L alone",
            "neighbours in the midst",
            "neighbours, d1 = 1",
            "d1 = L and d2 = L+1",
            "apart",
            "apart, d1 = 1 and d2 = L+1",
            "L = 1, d1 = 1 and d2 = 2",
            "L = 96, d1 = 96 and d2 = 97",
        ],
    ),
    (
        ASKED,
        &[
            "a cylinder not moved",
            "a cylinder moved by one",
            "a cylinder moved by two",
            "cylinder d1 - 1",
            "cylinder d1",
            "cylinder d2 - 1",
            "cylinder d2",
            "cylinder L",
            "0",
            "L+1",
            "above L+1",
            "1 to L and a multiple of 2^8",
            "1 to L and a multiple of 2^16",
            "1 to L and a multiple of 2^32",
            "2^64-1",
        ],
    ),
    (
        REFUSED,
        &[
            "1", "2", "3", "4", "5", "6", "7", "8", "9", "10", "11", "12",
        ],
    ),
    (
        BLOCKS,
        &[
            "read over a cylinder's end",
            "read over a defective cylinder",
            "read over two defective cylinders",
            "salvaged over a cylinder's end",
            "salvaged over a defective cylinder",
            "salvaged over two defective cylinders",
            "read lost",
            "salvaged lost",
            "salvaged lost before a defective cylinder",
            "salvaged lost behind a defective cylinder",
            "salvaged lost over a defective cylinder",
            "written over a cylinder's end",
            "written over a defective cylinder",
            "written over two defective cylinders",
        ],
    ),
    (
        SIZES,
        &[
            "D = 1, one side",
            "D = 1, two sides",
            "D = 2, one side",
            "D = 2, two sides",
            "D = 3, one side",
            "D = 3, two sides",
            "P = 128",
            "P = 256",
            "P = 512",
            "P = 1024",
        ],
    ),
];

/// All that a case has met.
pub fn facts(case: &Case, returned: u64) -> Vec<Fact> {
    let judged = judge(&case.image);
    match (&case.call, judged) {
        (Call::Physical { .. }, Err(refused)) => vec![(REFUSED, refused.number.to_string())],
        (Call::Physical { cylinder }, Ok(geometry)) => {
            let mut found = of_pair(&geometry);
            found.extend(of_asked(&geometry, *cylinder));
            found
        }
        (Call::Judge, _) | (_, Err(_)) => Vec::new(),
        (call, Ok(geometry)) => {
            let mut found = of_pair(&geometry);
            found.extend(of_blocks(&case.image, call, returned));
            found
        }
    }
}

fn of_pair(geometry: &Geometry) -> Vec<Fact> {
    let l = geometry.l;
    let alone = |d1: usize| geometry.d2.is_none() && geometry.d1 == Some(d1);
    let both = |d1, d2| (geometry.d1, geometry.d2) == (Some(d1), Some(d2));
    let (d1, d2) = (geometry.d1.unwrap_or(0), geometry.d2.unwrap_or(0));
    let midst = 1 < d1 && d1 < l;
    let apart = d1 + 1 < d2;
    named(
        PAIRS,
        &[
            (d1 == 0, "none"),
            (alone(1), "d1 = 1 alone"),
            (midst && d2 == 0, "d1 in the midst alone"),
            (alone(l), "d1 = L alone"),
            (midst && d1 + 1 == d2, "neighbours in the midst"),
            (both(1, 2), "neighbours, d1 = 1"),
            (both(l, l + 1), "d1 = L and d2 = L+1"),
            (apart, "apart"),
            (apart && both(1, l + 1), "apart, d1 = 1 and d2 = L+1"),
            (l == 1 && both(1, 2), "L = 1, d1 = 1 and d2 = 2"),
            (l == 96 && both(96, 97), "L = 96, d1 = 96 and d2 = 97"),
        ],
    )
}

fn of_asked(geometry: &Geometry, cylinder: u64) -> Vec<Fact> {
    let l = geometry.l as u64;
    let inside = (1..=l).contains(&cylinder);
    let place = (cylinder as usize).wrapping_sub(1);
    let moved = walked::of(geometry).get(place).map(|&p| p - place - 1);
    let is = |defect: Option<usize>, less: usize| {
        inside && defect.is_some_and(|defect| defect as u64 == cylinder + less as u64)
    };
    let wraps = |bits: u32| {
        let rest = cylinder % (1 << bits);
        cylinder > l && (1..=l).contains(&rest)
    };
    named(
        ASKED,
        &[
            (moved == Some(0), "a cylinder not moved"),
            (moved == Some(1), "a cylinder moved by one"),
            (moved == Some(2), "a cylinder moved by two"),
            (is(geometry.d1, 1), "cylinder d1 - 1"),
            (is(geometry.d1, 0), "cylinder d1"),
            (is(geometry.d2, 1), "cylinder d2 - 1"),
            (is(geometry.d2, 0), "cylinder d2"),
            (cylinder == l, "cylinder L"),
            (cylinder == 0, "0"),
            (cylinder == l + 1, "L+1"),
            (cylinder > l + 1, "above L+1"),
            (wraps(8), "1 to L and a multiple of 2^8"),
            (wraps(16), "1 to L and a multiple of 2^16"),
            (wraps(32), "1 to L and a multiple of 2^32"),
            (cylinder == u64::MAX, "2^64-1"),
        ],
    )
}

/// The blocks that a call has met: that of a reading, or all that were written.
fn of_blocks(image: &[u8], call: &Call, returned: u64) -> Vec<Fact> {
    let (word, slot, blocks) = match call {
        Call::Read { slot, .. } => ("read", *slot, behind(call)),
        Call::Salvage { slot, .. } => ("salvaged", *slot, behind(call)),
        Call::Write { slot, .. } if code(returned) == 0 => {
            ("written", *slot, (0..returned as usize).collect())
        }
        _ => return Vec::new(),
    };
    let Some(ground) = Ground::of(image, slot) else {
        return Vec::new();
    };
    let mut found = of_size(&ground.geometry);
    let lost =
        refusal_of(returned).is_some_and(|refused| refused.number == 20) || code(returned) == GAP;
    let all = blocks.into_iter().filter_map(|block| {
        let records = ground.good.chunks_exact(ground.m).nth(block)?;
        Some(of_block(&ground, records, word, lost))
    });
    found.extend(all.flatten());
    found
}

fn of_size(geometry: &Geometry) -> Vec<Fact> {
    if geometry.d2.is_none() {
        return Vec::new();
    }
    let sides = ["one side", "two sides"][geometry.s - 1];
    vec![
        (SIZES, format!("D = {}, {sides}", geometry.d)),
        (SIZES, format!("P = {}", geometry.p())),
    ]
}

/// The block that a reading meets: that of its place, or the one behind it
/// where the place is a block's end. All files here have one record to a block.
fn behind(call: &Call) -> Vec<usize> {
    match call {
        Call::Read { block, offset, .. } | Call::Salvage { block, offset, .. } => {
            vec![*block as usize + usize::from(*offset > 0)]
        }
        _ => Vec::new(),
    }
}

/// How a block lies against the cylinders; how many of them it steps over is
/// seen from where its records stand.
fn of_block(ground: &Ground, records: &[usize], word: &str, lost: bool) -> Vec<Fact> {
    let geometry = &ground.geometry;
    let good = walked::of(geometry);
    let physical = |record: &usize| good[ground.extent[*record].0 .0 - 1];
    let (Some(first), Some(last)) = (records.first(), records.last()) else {
        return Vec::new();
    };
    let (from, to) = (physical(first), physical(last));
    let defects = [geometry.d1, geometry.d2];
    let over = defects.iter().flatten().filter(|d| (from..to).contains(d));
    let (ends, over) = (from != to, over.count());
    let is_defect = |cylinder: usize| defects.contains(&Some(cylinder));
    let (before, after) = (is_defect(to + 1), is_defect(from - 1));
    let rows = [
        (ends && !lost, "over a cylinder's end"),
        (over == 1 && !lost, "over a defective cylinder"),
        (over == 2 && !lost, "over two defective cylinders"),
        (lost && before, "lost before a defective cylinder"),
        (lost && after, "lost behind a defective cylinder"),
        (lost && over > 0, "lost over a defective cylinder"),
        (lost, "lost"),
    ];
    let met = rows.iter().filter(|row| row.0);
    met.map(|row| (BLOCKS, format!("{word} {}", row.1)))
        .collect()
}
