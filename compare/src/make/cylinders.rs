//! Request 2026-03, "Cylinder skip readable beside the paper", counted out:
//! every pair of defects of five cylinders and the extremes of others. With
//! each case stands its whole answer, the number and every lent byte, worked
//! out by the walk and by document 01's words.

use super::calls::{self, write_call};
use super::create_tables;
use super::defects::{body, pairs, sectors, small, volume, with_file, Pair};
use super::sample::{hdr1, Plain};
use super::Case;
use crate::account::digits;
use crate::layout::Geometry;
use crate::model::{Answer, Call};
use crate::packed;
use crate::reading::{Place, Reading};
use crate::refusal::Refusal;
use crate::walked::{self, addresses, sector_at, Address};

/// A case and its whole answer.
pub type Told = (Case, Answer);

/// A call that changes no lent byte.
fn told(family: &'static str, image: &[u8], call: Call, packed: u64) -> Told {
    let image = image.to_vec();
    let right = Answer {
        packed,
        image: image.clone(),
        out: Vec::new(),
    };
    let case = Case {
        family,
        image,
        call,
    };
    (case, right)
}

/// A call that leaves another image.
fn changes(family: &'static str, image: &[u8], call: Call, packed: u64, after: &[u8]) -> Told {
    let (case, right) = told(family, image, call, packed);
    let image = after.to_vec();
    (case, Answer { image, ..right })
}

/// What is put into 7-9 and 11-13, and the number that it says: 0 for spaces,
/// none where it is neither spaces nor two digits from 01 on and `0`.
const FIELDS: [(&[u8; 3], Option<usize>); 19] = [
    (b"   ", Some(0)),
    (b"010", Some(1)),
    (b"020", Some(2)),
    (b"030", Some(3)),
    (b"040", Some(4)),
    (b"050", Some(5)),
    (b"060", Some(6)),
    (b"070", Some(7)),
    (b"080", Some(8)),
    (b"990", Some(99)),
    (b"000", None),
    (b"0 0", None),
    (b" 10", None),
    (b"01 ", None),
    (b"051", None),
    (b"A10", None),
    (b"0A0", None),
    (b"01\0", None),
    (b"\0\0\0", None),
];

/// "7-9 spaces, or a cylinder d1 in 01..L and `0`; 11-13 spaces, or d2 and
/// `0`, where d1 is present and d1 < d2 ≤ L+1": the pair of a volume of five
/// cylinders, or the position at fault.
fn pair_of(first: Option<usize>, second: Option<usize>) -> Result<Pair, usize> {
    let d1 = match first {
        Some(0) => None,
        Some(d1) if d1 <= 5 => Some(d1),
        _ => return Err(7),
    };
    match (d1, second) {
        (_, Some(0)) => Ok((d1, None)),
        (Some(first), Some(d2)) if first < d2 && d2 <= 6 => Ok((d1, Some(d2))),
        _ => Err(11),
    }
}

/// Every two of those fields in ERMAP, judged.
fn every_two_fields() -> impl Iterator<Item = Told> {
    let plain = with_file(&small(5, 1, (None, None)), 0, 1);
    let two = FIELDS.into_iter().flat_map(|first| {
        let seconds = FIELDS.into_iter();
        seconds.map(move |second| (first, second))
    });
    two.map(move |(first, second)| {
        let mut plain = plain.clone();
        plain.set_sector(5, 7, first.0);
        plain.set_sector(5, 11, second.0);
        let right = match pair_of(first.1, second.1) {
            Ok(pair) => Ok(small(5, 1, pair)),
            Err(position) => Err(Refusal::at(7, position)),
        };
        let packed = packed::judged(&right);
        told("cylinders-ermap", &plain.image, Call::Judge, packed)
    })
}

/// Data cylinders to be asked for: each from 0 to L+2, and numbers about 2^8,
/// 2^16, 2^32 and 2^64, those among them that are 1 to L in fewer bits.
pub fn asked(l: usize) -> Vec<u64> {
    let l = l as u64;
    let mut asked: Vec<u64> = (0..=l + 2).collect();
    for bits in [8, 16, 32] {
        let end = 1u64 << bits;
        asked.extend([end - 1, end, end + l + 1, 3 * end + 1]);
        let step = l.div_ceil(6) as usize;
        asked.extend((end + 1..=end + l).step_by(step));
    }
    asked.extend([1 << 63, (1 << 63) + 1, u64::MAX - l, u64::MAX]);
    asked
}

/// The physical cylinders of a volume by the walk: "0 for a cylinder outside
/// 1..L".
fn physicals(family: &'static str, plain: &Plain) -> Vec<Told> {
    let good = walked::of(&plain.geometry);
    let right = |cylinder: u64| {
        let place = usize::try_from(cylinder).ok()?.checked_sub(1)?;
        good.get(place).map(|physical| *physical as u64)
    };
    let asked = asked(plain.geometry.l).into_iter();
    let all = asked.map(|cylinder| {
        let call = Call::Physical { cylinder };
        told(family, &plain.image, call, right(cylinder).unwrap_or(0))
    });
    all.collect()
}

type Fault = (fn(&mut Plain), Refusal);

const fn refusal(number: u8, first: u64, second: u64) -> Refusal {
    Refusal {
        number,
        first,
        second,
        third: 0,
    }
}

fn put_second(plain: &mut Plain, name: &str, address: &str) {
    plain.put_label(2, &hdr1(name, 30, address, address));
    plain.set(2, 44, b"2");
}

/// Each refusal of a volume, on one with a file from 01002 to the last address.
const FAULTS: [Fault; 12] = [
    (|plain| plain.image.truncate(902), refusal(1, 0, 0)),
    (|plain| plain.set_sector(5, 0, &[16]), refusal(2, 5, 0)),
    (|plain| plain.set_sector(7, 80, b" "), refusal(3, 80, 0)),
    (|plain| plain.set_sector(7, 11, b"X"), refusal(4, 11, 0)),
    (|plain| plain.image.push(0), refusal(5, 0, 0)),
    (|plain| plain.set_sector(2, 0, &[1]), refusal(6, 1, 0)),
    (|plain| plain.set_sector(5, 11, b"020"), refusal(7, 11, 0)),
    (|plain| plain.set_sector(8, 0, &[32]), refusal(8, 1, 0)),
    (|plain| plain.set(1, 1, b"HDR2"), refusal(9, 1, 0)),
    (|plain| plain.set(1, 29, b"06001"), refusal(10, 1, 29)),
    (
        |plain| put_second(plain, "SECOND", "05002"),
        refusal(11, 2, 0),
    ),
    (
        |plain| put_second(plain, "CYLINDERS", "01001"),
        refusal(12, 2, 0),
    ),
];

/// 0 where the volume is refused, though its defects be legal.
fn refused() -> impl Iterator<Item = Told> {
    let geometry = Geometry {
        i: 9,
        ..small(5, 2, (Some(2), Some(3)))
    };
    let sound = with_file(&geometry, 1, 1);
    FAULTS.into_iter().flat_map(move |(fault, refusal)| {
        let mut plain = sound.clone();
        fault(&mut plain);
        let tell = |call, packed| told("cylinders-refused", &plain.image, call, packed);
        let physical = asked(5).into_iter();
        let mut all: Vec<Told> = physical
            .map(|cylinder| tell(Call::Physical { cylinder }, 0))
            .collect();
        all.push(tell(Call::Judge, packed::refusal(&refusal)));
        all
    })
}

/// A file whose records are blocks of m physical ones, and these in their
/// order by the walk, each with where its kind stands.
struct File {
    family: &'static str,
    plain: Plain,
    slot: usize,
    m: usize,
    records: Vec<(Address, usize)>,
}

/// What each block holds; none if it is lost.
type Contents = Vec<Option<Vec<u8>>>;

impl File {
    /// On the data records from one on to the last, counted from 0.
    fn on(family: &'static str, geometry: &Geometry, first: usize, m: usize) -> File {
        File {
            family,
            plain: with_file(geometry, first, m),
            slot: 1,
            m,
            records: addresses(geometry).split_off(first),
        }
    }

    /// The physical cylinder of each physical record, by the walk.
    fn physical(&self) -> Vec<usize> {
        let good = walked::of(&self.plain.geometry);
        let cylinders = self.records.iter().map(|record| record.0 .0);
        cylinders.map(|cylinder| good[cylinder - 1]).collect()
    }

    /// Each block's records name the cylinders that the walk gives.
    fn contents(&self) -> Contents {
        let named = self.physical().into_iter().zip(&self.records);
        let bodies: Vec<Vec<u8>> = named
            .map(|(physical, ((_, side, sector), _))| {
                body(&self.plain.geometry, physical, *side, *sector)
            })
            .collect();
        let blocks = bodies.chunks_exact(self.m);
        blocks.map(|bodies| Some(bodies.concat())).collect()
    }

    /// Every sector of a defective or spare cylinder with a kind, 0, 16 or 32.
    fn mark_others(&mut self, kind: u8) {
        let geometry = self.plain.geometry;
        let good = walked::of(&geometry);
        for (physical, side, sector) in sectors(&geometry) {
            if !good.contains(&physical) {
                let at = sector_at(&geometry, physical, side, sector);
                self.plain.image[at] = kind + geometry.k;
            }
        }
    }

    /// Loses a physical record of the file.
    fn lose(&mut self, record: usize, contents: &mut Contents) {
        self.plain.image[self.records[record].1] = 32 + self.plain.geometry.k;
        if let Some(content) = contents.get_mut(record / self.m) {
            *content = None;
        }
    }

    /// From Start to End, plainly and in salvage; plain reading goes on behind
    /// a lost block.
    fn read(&self, contents: &Contents) -> Vec<Told> {
        let b = self.m * self.plain.geometry.p();
        let mut all = Vec::new();
        for salvaging in [false, true] {
            let mut place = Place::START;
            for (block, content) in (0..).zip(contents) {
                let (right, next) = met(block, content.as_deref(), salvaging);
                all.push(self.answered(place, salvaging, b + 5, right, content.as_deref()));
                place = next;
            }
            let next = Place::unmarked(contents.len() as u64, 0);
            let end = Ok(Reading::End { next });
            all.push(self.answered(place, salvaging, b + 5, end, None));
        }
        all
    }

    /// A reading with its answer, and what it puts into the output.
    fn answered(
        &self,
        place: Place,
        salvaging: bool,
        room: usize,
        right: Result<Reading, Refusal>,
        content: Option<&[u8]>,
    ) -> Told {
        let mut out = vec![b'.'; room];
        let numbers = [place.block, place.offset, u64::from(place.mark)];
        let call = calls::reading_of(self.slot as u64, numbers, salvaging, out.clone());
        if let Some(content) = content {
            out[..content.len()].copy_from_slice(content);
        }
        let packed = packed::reading(&right);
        let (case, answer) = told(self.family, &self.plain.image, call, packed);
        (case, Answer { out, ..answer })
    }

    /// A write of so many records; the file is then the one that it left.
    fn write(&mut self, count: usize) -> Told {
        let records: Vec<Vec<u8>> = (0..count).map(|number| self.record(number)).collect();
        let before = self.plain.image.clone();
        self.put(&records);
        let call = write_call(self.slot as u64, &records);
        let after = &self.plain.image;
        changes(self.family, &before, call, count as u64, after)
    }

    /// Bytes that name the number of their record and their place in it.
    fn record(&self, number: usize) -> Vec<u8> {
        let parts = 0..self.m * self.plain.geometry.p() / 64;
        let text = |part: usize| format!("WRITTEN RECORD {number}, PART {part}");
        let part = |part| format!("{:<64}", text(part));
        parts.map(part).collect::<String>().into_bytes()
    }

    /// "Written records get the valid mark"; "Then .. the data end [is] set:
    /// start for 0 blocks; the first good record of the next block if a whole
    /// one is left; else the step past the extent's end."
    fn put(&mut self, records: &[Vec<u8>]) {
        let Geometry { k, l, .. } = self.plain.geometry;
        let p = self.plain.geometry.p();
        let sectors = records.iter().flat_map(|record| record.chunks(p));
        for (bytes, (_, at)) in sectors.zip(&self.records) {
            self.plain.image[*at] = k;
            self.plain.image[at + 1..=at + p].copy_from_slice(bytes);
        }
        let left = &self.records[records.len() * self.m..];
        let end = match left {
            [next, ..] if left.len() >= self.m => next.0,
            _ => (l + 1, 0, 1),
        };
        self.plain.set(self.slot, 75, &digits(end));
    }
}

/// What a block's start answers, and the place that is asked behind it.
fn met(block: u64, content: Option<&[u8]>, salvaging: bool) -> (Result<Reading, Refusal>, Place) {
    match content {
        Some(content) => {
            let length = content.len() as u64;
            let next = Place::unmarked(block, length);
            (Ok(Reading::Record { length, next }), next)
        }
        None if salvaging => {
            let next = Place {
                mark: true,
                ..Place::unmarked(block + 1, 0)
            };
            (Ok(Reading::Gap { next }), next)
        }
        None => {
            let refused = Refusal::at(20, block as usize);
            (Err(refused), Place::unmarked(block + 1, 0))
        }
    }
}

/// Each pair of five cylinders with one, two and three sectors to a side;
/// sides, sizes and the marks of the cylinders that hold no data in turn.
pub fn fives() -> impl Iterator<Item = (Geometry, u8)> {
    pairs(5).enumerate().flat_map(|(number, (d1, d2))| {
        (1..=3).map(move |d| {
            let turn = 3 * number + d;
            let geometry = Geometry {
                l: 5,
                i: 9 + turn % 3,
                d,
                k: (turn % 4) as u8,
                s: 1 + turn / 4 % 2,
                d1,
                d2,
            };
            (geometry, [0, 16, 32][turn / 2 % 3])
        })
    })
}

/// Files of blocks of one, two and three records, as far as "B .. at most D·P"
/// allows, from the first data record or the one behind it, so that blocks lie
/// over the ends of cylinders of one, two and three sectors.
fn shapes(geometry: &Geometry) -> Vec<(&'static str, usize, usize)> {
    let mut shapes = vec![("cylinders-read", 0, 1)];
    for m in 2..=geometry.d {
        let apart = (geometry.d * geometry.s).is_multiple_of(m);
        shapes.push(("cylinders-blocks", usize::from(apart), m));
    }
    shapes
}

/// The physical records of a file on both sides of each defective cylinder:
/// those before one, and those behind one; one in the midst without any.
fn beside(file: &File) -> [Vec<usize>; 2] {
    let physical = file.physical();
    let (mut before, mut behind) = (Vec::new(), Vec::new());
    if physical[0] > 1 {
        behind.push(0);
    }
    for (record, two) in physical.windows(2).enumerate() {
        if two[1] > two[0] + 1 {
            before.push(record);
            behind.push(record + 1);
        }
    }
    if behind.is_empty() {
        behind.push(physical.len() / 2);
    }
    [before, behind]
}

/// Every file of a volume: read, read with blocks lost beside the defective
/// cylinders, written and read back.
fn files((geometry, kind): (Geometry, u8)) -> Vec<Told> {
    let mut all = Vec::new();
    for (family, first, m) in shapes(&geometry) {
        let mut file = File::on(family, &geometry, first, m);
        file.mark_others(kind);
        all.extend(file.read(&file.contents()));
    }
    let shape = shapes(&geometry).pop();
    let (_, first, m) = shape.unwrap_or(("", 0, 1));
    all.extend(lost(&geometry, first, m));
    let mut file = File::on("cylinders-write", &geometry, first, m);
    file.mark_others(kind);
    let blocks = file.contents().len();
    for count in [blocks, blocks / 2] {
        all.push(file.write(count));
    }
    all.extend(file.read(&(0..blocks / 2).map(|n| Some(file.record(n))).collect()));
    all
}

fn lost(geometry: &Geometry, first: usize, m: usize) -> Vec<Told> {
    let file = || File::on("cylinders-lost", geometry, first, m);
    let sides = beside(&file()).into_iter();
    let all = sides.filter(|records| !records.is_empty()).map(|records| {
        let mut file = file();
        let mut contents = file.contents();
        for record in records {
            file.lose(record, &mut contents);
        }
        file.read(&contents)
    });
    all.flatten().collect()
}

/// A file created behind one of a single record, over the ends of all
/// cylinders; written, read back and deleted.
fn placed((geometry, kind): (Geometry, u8)) -> Vec<Told> {
    let family = "cylinders-create";
    let mut plain = volume(&geometry);
    plain.put_label(1, &hdr1("FIRST", 30, "01001", "01001"));
    let mut file = File {
        family,
        plain,
        slot: 2,
        m: 1,
        records: addresses(&geometry).split_off(1),
    };
    file.mark_others(kind);
    let n = file.records.len();
    let b = format!("{:05}", geometry.p());
    let fields = create_tables::told(b"NEW", b.as_bytes(), b" ", b" ", b"    ", b" ");
    let before = file.plain.image.clone();
    let ends = [0, n - 1].map(|record| digits(file.records[record].0));
    let [start, end] = ends.map(|digits| String::from_utf8_lossy(&digits).into_owned());
    let label = hdr1("NEW", geometry.p(), &start, &end);
    file.plain.put_label(2, &label);
    let number: u64 = start.parse().unwrap_or(0);
    let call = Call::Create {
        fields,
        n: n as u64,
    };
    let created = changes(family, &before, call, 2 << 24 | number, &file.plain.image);
    let mut all = vec![created, file.write(n)];
    all.extend(file.read(&(0..n).map(|number| Some(file.record(number))).collect()));
    let before = file.plain.image.clone();
    file.plain.delete(2);
    let call = Call::Delete { slot: 2 };
    all.push(changes(family, &before, call, n as u64, &file.plain.image));
    all
}

/// "d1=1; d1=L; d1=L, d2=L+1; d1=1, d2=2; L=1 with d1=1, d2=2; L=96", and the
/// volumes of examples 4 and 5: asked for their cylinders and read.
fn extremes() -> impl Iterator<Item = Told> {
    let of = |l: usize, pairs: &[(usize, usize)]| {
        let present = |defect: usize| Some(defect).filter(|&defect| defect > 0);
        let pairs = pairs.iter();
        let all = pairs.map(|&(d1, d2)| small(l, 1, (present(d1), present(d2))));
        all.collect::<Vec<Geometry>>()
    };
    let short = [1, 2]
        .into_iter()
        .flat_map(|l| pairs(l).map(move |pair| small(l, 1, pair)));
    let most = [(0, 0), (1, 0), (96, 0), (1, 2), (96, 97), (47, 50)];
    let volumes = short
        .chain(of(96, &most))
        .chain(of(73, &[(10, 11), (73, 74)]));
    volumes.flat_map(|geometry| {
        let file = File::on("cylinders-extreme", &geometry, 0, 1);
        let mut all = physicals(file.family, &file.plain);
        all.extend(file.read(&file.contents()));
        all
    })
}

/// All of it.
pub fn all() -> impl Iterator<Item = Told> {
    let asked = fives().flat_map(|(geometry, _)| {
        let plain = with_file(&geometry, 0, 1);
        physicals("cylinders-physical", &plain)
    });
    let created = fives().filter(|(geometry, _)| geometry.d == 2);
    every_two_fields()
        .chain(asked)
        .chain(extremes())
        .chain(refused())
        .chain(fives().flat_map(files))
        .chain(created.flat_map(placed))
}
