//! Request 2026-02, "The version digit is at 80", counted out: every value of
//! 79 and of 80, 80 wrong beside every other fault, and the samples as they
//! were before it. With each case stands the number that is right.

use super::calls::write_call;
use super::create_tables::right;
use super::places::both;
use super::positions::{field_at, judged_in, VOL1};
use super::sample::{hdr1, named, Plain, NAMES};
use super::sizes::smallest;
use super::Case;
use crate::layout::Geometry;
use crate::listing::MOST_BYTES;
use crate::model::{answer, Call};
use crate::packed;
use crate::refusal::Refusal;
use crate::volume::VOL1_ORDINAL;

/// A case and the number that is to be returned.
pub type Told = (Case, u64);

/// "Position 80 must be `3`", and these are not.
const WRONG: [u8; 5] = [b' ', b'1', b'2', b'4', 3];

fn refused(number: u8, place: usize) -> u64 {
    packed::refusal(&Refusal::at(number, place))
}

/// An image with positions of its VOL1 set anew.
fn with_vol1(image: &[u8], position: usize, bytes: &[u8]) -> Vec<u8> {
    let mut image = image.to_vec();
    let label = Geometry::index_body_mut(&mut image, VOL1_ORDINAL);
    label[position - 1..][..bytes.len()].copy_from_slice(bytes);
    image
}

fn judged(family: &'static str, image: Vec<u8>, right: u64) -> Told {
    let call = Call::Judge;
    let case = Case {
        family,
        image,
        call,
    };
    (case, right)
}

/// A volume of each P, on one side and on two, with a file in slot 1.
fn volumes() -> impl Iterator<Item = Plain> {
    (0..8).map(|number| {
        let mut plain = Plain::new(1, 8, 1, number % 4, 1 + usize::from(number / 4));
        plain.put_label(1, &hdr1("FILE", 30, "01001", "01001"));
        plain
    })
}

/// Every byte at 79 before a `3`, and every byte at 80 behind some.
fn pairs() -> impl Iterator<Item = [u8; 2]> {
    let reserved = (0..=255).map(|byte| [byte, b'3']);
    let version = [b' ', b'3', 0xFF].into_iter();
    reserved.chain(version.flat_map(|first| (0..=255).map(move |byte| [first, byte])))
}

/// "Position 80 must be `3`; 79 becomes reserved and is not judged."
fn every_pair(plain: Plain) -> impl Iterator<Item = Told> {
    let accepted = packed::judged(&Ok(plain.geometry));
    pairs().map(move |pair| {
        let right = match pair[1] {
            b'3' => accepted,
            _ => refused(3, 80),
        };
        judged("version-pair", with_vol1(&plain.image, 79, &pair), right)
    })
}

/// 80 wrong, and one byte of another judged field: "the lowest first". 00 and
/// `@` are legal in none of them.
fn beside_field(first: usize) -> impl Iterator<Item = Told> {
    let last = field_at(&VOL1, first).map_or(first, |field| field.last);
    let bytes = (first..=last).flat_map(|position| [0, b'@'].map(|byte| (position, byte)));
    bytes.flat_map(move |(position, byte)| {
        WRONG.map(|wrong| {
            let image = with_vol1(&with_vol1(&smallest(), 80, &[wrong]), position, &[byte]);
            judged("version-and-field", image, refused(3, first.min(80)))
        })
    })
}

fn beside_fields() -> impl Iterator<Item = Told> {
    let others = judged_in(&VOL1).into_iter().filter(|first| *first != 80);
    others.flat_map(beside_field)
}

type Fault = (fn(&mut Plain), u8, usize);

/// What else may be wrong, and what is named with 80 wrong too: "Volume order
/// is 1 to 12", and 4 comes behind all of 3.
const BESIDE: [Fault; 17] = [
    (|plain| plain.image.clear(), 1, 0),
    (|plain| plain.image.truncate(902), 1, 0),
    (|plain| plain.set_sector(5, 0, &[16]), 2, 5),
    (|plain| plain.set_sector(5, 0, &[1]), 2, 5),
    (|plain| plain.set_sector(7, 0, &[32]), 2, 7),
    (|plain| plain.set_sector(7, 0, &[1]), 2, 7),
    (|plain| plain.set_sector(7, 11, b"X"), 3, 80),
    (|plain| plain.set_sector(7, 11, b"_"), 3, 80),
    (|plain| plain.image.truncate(903), 3, 80),
    (|plain| plain.image.truncate(plain.image.len() - 1), 3, 80),
    (|plain| plain.image.push(0), 3, 80),
    (|plain| plain.set_sector(1, 0, &[1]), 3, 80),
    (|plain| plain.set_kind("01001", 48), 3, 80),
    (|plain| plain.set_sector(5, 1, b"X"), 3, 80),
    (|plain| plain.set_sector(8, 0, &[32]), 3, 80),
    (|plain| plain.set(1, 1, b"HDR2"), 3, 80),
    (|plain| plain.set(1, 23, b"0000A"), 3, 80),
];

fn with_wrong_version(wrong: u8) -> impl Iterator<Item = Plain> {
    volumes().map(move |mut plain| {
        plain.set_sector(7, 80, &[wrong]);
        plain
    })
}

fn beside_others() -> impl Iterator<Item = Told> {
    let volumes = || WRONG.into_iter().flat_map(with_wrong_version);
    BESIDE.into_iter().flat_map(move |(fault, number, place)| {
        volumes().map(move |mut plain| {
            fault(&mut plain);
            judged("version-and-fault", plain.image, refused(number, place))
        })
    })
}

/// The samples that the listing takes, by their names.
pub fn small_samples() -> impl Iterator<Item = (String, Vec<u8>)> {
    let volumes = NAMES.into_iter().map(str::to_string);
    let placed = ["create-smallest", "delete-smallest"].map(str::to_string);
    let read = with_words("", &["", "-lost", "-defect"]);
    let written = with_words("write-", &["", "-short", "-defect"]);
    let names = volumes.chain(placed).chain(read).chain(written);
    let images = names.filter_map(|name| named(&name).map(|image| (name, image)));
    images.filter(|(_, image)| image.len() <= MOST_BYTES)
}

/// Names as `write-F-10-short`, of each format and of two sizes.
fn with_words(before: &str, behind: &[&str]) -> Vec<String> {
    let formats = ["F-10", "V-10", "S-10", "F-100", "V-100", "S-100"].iter();
    let names = formats.flat_map(|format| {
        let behind = behind.iter();
        behind.map(move |behind| format!("{before}{format}{behind}"))
    });
    names.collect()
}

/// `3` at 79 and a space at 80, as document 01 had them.
pub fn old_form(image: &[u8]) -> Vec<u8> {
    with_vol1(image, 79, b"3 ")
}

/// `3` at 79 and at 80, which is accepted: any byte may stand at 79.
pub fn both_forms(image: &[u8]) -> Vec<u8> {
    with_vol1(image, 79, b"33")
}

/// Every call, on the file in slot 1 where it is on one.
pub fn calls(image: &[u8]) -> Vec<Call> {
    let label = Geometry::index_body(image, Geometry::slot_ordinal(1));
    let mut calls = vec![
        Call::Judge,
        Call::Free,
        Call::Listing,
        Call::Find {
            name: label[5..22].to_vec(),
        },
        Call::Count { slot: 1 },
        write_call(1, &[vec![b'w'; 80]]),
        write_call(1, &[]),
        Call::Create {
            fields: right()[0].clone(),
            n: 1,
        },
        Call::Delete { slot: 1 },
        Call::Physical { cylinder: 1 },
    ];
    calls.extend(both(0, 0, 0, 4_000));
    calls
}

/// Every call on a sample of the old form is refused; with `3` in both places
/// it answers what it answers of the sample itself.
fn both_forms_called(image: Vec<u8>) -> impl Iterator<Item = Told> {
    calls(&image).into_iter().flat_map(move |call| {
        let old = match call {
            Call::Listing | Call::Physical { .. } => 0,
            _ => refused(3, 80),
        };
        let same = answer(&image, &call).packed;
        let told = |family, image, right| {
            let call = call.clone();
            let case = Case {
                family,
                image,
                call,
            };
            (case, right)
        };
        [
            told("version-old-form", old_form(&image), old),
            told("version-both-forms", both_forms(&image), same),
        ]
    })
}

/// All of it.
pub fn told() -> impl Iterator<Item = Told> {
    let forms = small_samples().flat_map(|(_, image)| both_forms_called(image));
    let beside = beside_fields().chain(beside_others());
    volumes().flat_map(every_pair).chain(beside).chain(forms)
}
