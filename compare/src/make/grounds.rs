//! Volumes to be written on, counted out: every level, format and blocking
//! with blocks below, at and above P, on extents that end everywhere, with
//! defective and check-failed records where they matter.

use super::rng::Rng;
use super::sample::{hdr1, Plain};
use crate::text::address_digits;

/// Level, position 40, position 63, B, and 54-57.
#[derive(Clone, Copy, Debug)]
struct Form {
    level: u8,
    format: u8,
    blocking: u8,
    b: Size,
    r: Record,
}

/// B as bytes, as P less some, or as so many P.
#[derive(Clone, Copy, Debug)]
enum Size {
    Bytes(usize),
    Below(usize),
    Times(usize),
}

/// R as spaces, as digits, as a part of B or as some more than B.
#[derive(Clone, Copy, Debug)]
enum Record {
    Spaces,
    Of(usize),
    Part(usize),
    Twice,
}

const fn form(level: u8, format: u8, blocking: u8, b: Size, r: Record) -> Form {
    Form {
        level,
        format,
        blocking,
        b,
        r,
    }
}

use Record::{Of, Part, Spaces, Twice};
use Size::{Below, Bytes, Times};

const FORMS: [Form; 31] = [
    form(b' ', b' ', b' ', Below(28), Spaces),
    form(b' ', b'F', b' ', Times(1), Part(1)),
    form(b' ', b'F', b' ', Bytes(1), Spaces),
    form(b'1', b' ', b' ', Below(1), Spaces),
    form(b'1', b'F', b' ', Times(2), Spaces),
    form(b'1', b' ', b'B', Times(1), Part(4)),
    form(b'1', b'F', b'B', Times(3), Part(6)),
    form(b'2', b' ', b' ', Times(1), Spaces),
    form(b'2', b'F', b' ', Times(3), Spaces),
    form(b'2', b'F', b'B', Bytes(60), Of(15)),
    form(b'2', b' ', b'B', Times(2), Part(4)),
    form(b'2', b'F', b'B', Bytes(12), Of(1)),
    form(b'2', b'V', b' ', Below(8), Spaces),
    form(b'2', b'V', b' ', Times(1), Part(2)),
    form(b'2', b'V', b' ', Times(2), Spaces),
    form(b'2', b'V', b' ', Bytes(4), Spaces),
    form(b'2', b'V', b'B', Bytes(30), Spaces),
    form(b'2', b'V', b'B', Below(1), Part(2)),
    form(b'2', b'V', b'B', Times(1), Spaces),
    form(b'2', b'V', b'B', Times(2), Part(3)),
    form(b'2', b'V', b'B', Times(3), Spaces),
    form(b'2', b'V', b'B', Bytes(4), Of(4)),
    form(b'2', b'S', b'B', Bytes(5), Of(0)),
    form(b'2', b'S', b'B', Bytes(6), Of(0)),
    form(b'2', b'S', b'B', Bytes(6), Of(9)),
    form(b'2', b'S', b'B', Bytes(20), Of(0)),
    form(b'2', b'S', b'B', Below(3), Spaces),
    form(b'2', b'S', b'B', Times(1), Of(0)),
    form(b'2', b'S', b'B', Times(2), Twice),
    form(b'2', b'S', b'B', Times(3), Of(0)),
    form(b'2', b'S', b'B', Times(2), Part(5)),
];

/// How many volumes there are: each form with each P on one and two sides.
pub const GROUNDS: usize = FORMS.len() * 8;

impl Form {
    fn b(&self, p: usize) -> usize {
        match self.b {
            Bytes(bytes) => bytes,
            Below(less) => p - less,
            Times(times) => times * p,
        }
    }

    /// 54-57; a record of more than 9,999 bytes is spaces.
    fn r(&self, b: usize) -> String {
        match self.r {
            Spaces => "    ".to_string(),
            Of(r) => format!("{r:04}"),
            Part(part) => format!("{:04}", b / part),
            Twice => format!("{:04}", 2 * b),
        }
    }
}

/// Where the extent begins and ends, in turn: at a sector in a track's midst,
/// at a track's, a side's, a cylinder's and the volume's end.
fn extent(number: usize, plain: &Plain) -> (usize, usize) {
    let (d, s) = (plain.geometry.d, plain.geometry.s);
    let all = plain.geometry.data_records();
    match number % 7 {
        0 => (0, d + 1),
        1 => (1, d * s - 1 + d),
        2 => (0, 2 * d * s - 1),
        3 => (d * s - 2, all - 1),
        4 => (d - 1, 2 * d + d / 2),
        5 => (0, all - 1),
        _ => (2, 2 * d - 1),
    }
}

/// Which records of an extent are defective, in turn.
fn defective(number: usize, record: usize, length: usize) -> bool {
    match number % 9 {
        0 | 1 => false,
        2 => record == 0,
        3 => record + 1 == length,
        4 => record == length / 2,
        5 => record % 3 == 1,
        6 => record == 0 || record + 1 == length || record + 2 == length,
        7 => !record.is_multiple_of(4),
        _ => number.is_multiple_of(5) || record > 0,
    }
}

/// Which good ones are check-failed, in turn.
fn check_failed(number: usize, record: usize) -> bool {
    match number % 5 {
        0 | 1 => false,
        2 => record.is_multiple_of(2),
        3 => true,
        _ => record > 2,
    }
}

fn geometry(number: usize, k: u8, s: usize) -> Plain {
    let d = [4, 5, 6][number % 3];
    let (d1, d2) = match number % 5 {
        0 | 1 => (None, None),
        2 => (Some(1), None),
        3 => (Some(2), Some(3)),
        _ => (Some(2), Some(4)),
    };
    Plain::new(3, 10 + number % 3, d, k, s).with_defects(d1, d2)
}

/// A file beside the one that is written, full of what stands there.
fn neighbour(plain: &mut Plain, slot: usize, name: &str, first: usize, last: usize) {
    let (start, end) = (digits(plain, first), digits(plain, last));
    plain.put_label(slot, &hdr1(name, 100, &start, &end));
    plain.set(slot, 75, digits(plain, last + 1).as_bytes());
}

fn digits(plain: &Plain, record: usize) -> String {
    String::from_utf8_lossy(&address_digits(record, &plain.geometry)).into_owned()
}

fn mark(plain: &mut Plain, record: usize, kind: u8, first: Option<u8>) {
    let at = plain
        .geometry
        .kind_at(plain.geometry.record_ordinal(record));
    plain.image[at] = kind + plain.geometry.k;
    if let Some(first) = first {
        plain.image[at + 1] = first;
    }
}

/// Every data sector with bytes of its own, so that each one that stays is
/// seen to.
fn scatter(rng: &mut Rng, plain: &mut Plain) {
    let geometry = plain.geometry;
    for ordinal in geometry.index_sectors()..geometry.sectors() {
        let at = geometry.kind_at(ordinal) + 1;
        let bytes = rng.bytes(geometry.p());
        plain.image[at..at + geometry.p()].copy_from_slice(&bytes);
    }
}

/// The numbered volume; the file to be written is in slot 1, those beside it
/// in 2 and 3.
pub fn ground(rng: &mut Rng, number: usize) -> Plain {
    let form = FORMS[number % FORMS.len()];
    let turn = number / FORMS.len();
    let mixed = number + 3 * turn;
    let mut plain = geometry(mixed, (turn % 4) as u8, 1 + turn / 4 % 2);
    scatter(rng, &mut plain);
    let (first, last) = extent(number + turn, &plain);
    put_file(&mut plain, &form, first, last);
    for record in first..=last {
        let place = record - first;
        if defective(mixed / 2, place, last - first + 1) {
            mark(&mut plain, record, 16, Some(b'F'));
        } else if check_failed(mixed, place) {
            mark(&mut plain, record, 32, None);
        }
    }
    if first > 0 {
        neighbour(&mut plain, 2, "BEFORE", 0, first - 1);
    }
    if last + 1 < plain.geometry.data_records() {
        neighbour(&mut plain, 3, "BEHIND", last + 1, last + 1);
    }
    plain
}

fn put_file(plain: &mut Plain, form: &Form, first: usize, last: usize) {
    let b = form.b(plain.geometry.p());
    let (start, end) = (digits(plain, first), digits(plain, last));
    plain.put_label(1, &hdr1("WRITTEN", b, &start, &end));
    plain.set(1, 40, &[form.format]);
    plain.set(1, 44, &[form.level]);
    plain.set(1, 54, form.r(b).as_bytes());
    plain.set(1, 63, &[form.blocking]);
    plain.soil_label(1);
}
