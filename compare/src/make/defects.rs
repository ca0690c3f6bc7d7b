//! Volumes with defective cylinders in which every sector names its own
//! physical cylinder, the defective and spare ones too: a reader that goes to
//! a wrong cylinder reads a wrong number.

use super::sample::{hdr1, Plain};
use crate::account::digits;
use crate::layout::Geometry;
use crate::walked::{addresses, sector_at, Address};

/// d1 and d2.
pub type Pair = (Option<usize>, Option<usize>);

/// "Every pair that ERMAP lets pass: none; d1 alone; d1 < d2" (reading 03.4),
/// with d1 in 01..L and d2 at most L+1.
pub fn pairs(l: usize) -> impl Iterator<Item = Pair> {
    let with = move |d1| (d1 + 1..=l + 1).map(move |d2| (Some(d1), Some(d2)));
    let alone = |d1| (Some(d1), None);
    let some = (1..=l).flat_map(move |d1| std::iter::once(alone(d1)).chain(with(d1)));
    std::iter::once((None, None)).chain(some)
}

/// A sector's body names where it stands in each 64 bytes, the physical
/// cylinder in two digits first.
pub fn body(geometry: &Geometry, physical: usize, side: usize, sector: usize) -> Vec<u8> {
    let named = format!("{physical:02} PHYSICAL CYLINDER, SIDE {side}, SECTOR {sector:02}");
    let part = |number: usize| format!("{:<64}", format!("{named}, PART {number:02}"));
    let parts = 1..=geometry.p() / 64;
    parts.map(part).collect::<String>().into_bytes()
}

/// Every sector of physical cylinders 1 to L+3: cylinder, side, sector.
pub fn sectors(geometry: &Geometry) -> impl Iterator<Item = Address> {
    let Geometry { l, d, s, .. } = *geometry;
    (1..=l + 3).flat_map(move |physical| {
        (0..s).flat_map(move |side| (1..=d).map(move |sector| (physical, side, sector)))
    })
}

/// The volume of a geometry, its defects included, without a file.
pub fn volume(geometry: &Geometry) -> Plain {
    let Geometry { l, i, d, k, s, .. } = *geometry;
    let mut plain = Plain::new(l, i, d, k, s).with_defects(geometry.d1, geometry.d2);
    for (physical, side, sector) in sectors(geometry) {
        let at = sector_at(geometry, physical, side, sector) + 1;
        let body = body(geometry, physical, side, sector);
        plain.image[at..at + body.len()].copy_from_slice(&body);
    }
    plain
}

/// The same with a fixed unblocked file in slot 1, in blocks of m physical
/// records: from one of the data records, counted from 0, to the last one,
/// full. Its name of nine characters needs level 2.
pub fn with_file(geometry: &Geometry, first: usize, m: usize) -> Plain {
    let mut plain = volume(geometry);
    let all = addresses(geometry);
    let text = |record: usize| String::from_utf8_lossy(&digits(all[record].0)).into_owned();
    let (start, end) = (text(first), text(all.len() - 1));
    plain.put_label(1, &hdr1("CYLINDERS", m * geometry.p(), &start, &end));
    plain.set(1, 44, b"2");
    plain.set(1, 75, &digits((geometry.l + 1, 0, 1)));
    plain
}

/// Names as `defects-73-73-74`: L, d1 and d2, 0 for an absent one; a volume of
/// one side, I = 8, D = 2 and P = 128 with a record of the file to each sector.
/// None where no volume can have them.
pub fn sample(name: &str) -> Option<Vec<u8>> {
    let numbers: Option<Vec<usize>> = name
        .strip_prefix("defects-")?
        .split('-')
        .map(|word| word.parse().ok())
        .collect();
    let [l, d1, d2] = numbers?[..] else {
        return None;
    };
    let present = |defect: usize| Some(defect).filter(|&defect| defect > 0);
    let pair = (present(d1), present(d2));
    let legal = (1..=96).contains(&l) && pairs(l).any(|legal| legal == pair);
    let spelt = name == format!("defects-{l}-{d1}-{d2}");
    (legal && spelt).then(|| with_file(&small(l, 2, pair), 0, 1).image)
}

/// A geometry of one side, I = 8 and P = 128.
pub fn small(l: usize, d: usize, (d1, d2): Pair) -> Geometry {
    Geometry {
        l,
        i: 8,
        d,
        k: 0,
        s: 1,
        d1,
        d2,
    }
}
