//! Document 01's twelve examples and its listing.

use compare::make::sample::{hdr1, named, sample, Plain};
use compare::text::{address, address_digits};
use compare::{
    count, free, judge, listing, read, salvage, write, Geometry, Place, Reading, Refusal,
};

fn geometry(l: usize, d: usize, s: usize) -> Geometry {
    Plain::new(l, 10, d, 0, s).geometry
}

fn step(digits: &str, geometry: &Geometry) -> String {
    let record = address(digits.as_bytes(), geometry).expect("a legal address");
    String::from_utf8(address_digits(record + 1, geometry).to_vec()).expect("digits")
}

#[test]
fn example_1_01008_steps_to_01101() {
    assert_eq!(step("01008", &geometry(5, 8, 2)), "01101");
}

#[test]
fn example_2_01108_steps_to_02001() {
    assert_eq!(step("01108", &geometry(5, 8, 2)), "02001");
}

#[test]
fn example_3_05008_steps_to_06001() {
    assert_eq!(step("05008", &geometry(5, 8, 1)), "06001");
}

#[test]
fn example_4_cylinder_9_is_9_and_10_is_12() {
    let mut geometry = geometry(73, 8, 1);
    geometry.d1 = Some(10);
    geometry.d2 = Some(11);
    assert_eq!(geometry.physical_cylinder(9), 9);
    assert_eq!(geometry.physical_cylinder(10), 12);
}

#[test]
fn example_5_cylinder_72_is_72_and_73_is_75() {
    let mut geometry = geometry(73, 8, 1);
    geometry.d1 = Some(73);
    geometry.d2 = Some(74);
    assert_eq!(geometry.physical_cylinder(72), 72);
    assert_eq!(geometry.physical_cylinder(73), 75);
}

/// A fixed file of level 1 with B = 256 on records of 128: m = 2.
fn pairs(end: &str) -> Plain {
    let mut plain = Plain::new(2, 8, 8, 0, 1);
    plain.put_label(1, &hdr1("PAIRS", 256, "01001", end));
    plain.set(1, 44, b"1");
    plain
}

fn write_pairs(plain: &mut Plain, blocks: usize) -> Vec<u8> {
    let bodies = vec![b'X'; 256 * blocks];
    let written = write(&mut plain.image, 1, &bodies, &vec![256; blocks]);
    assert_eq!(written, Ok(blocks as u64));
    assert_eq!(count(&plain.image, 1), Ok(blocks as u64));
    let at = 7 * 129 + 75;
    plain.image[at..at + 5].to_vec()
}

#[test]
fn example_6_data_end_at_the_seventh_of_8_good_or_past_the_end() {
    assert_eq!(write_pairs(&mut pairs("01008"), 3), b"01007");
    assert_eq!(write_pairs(&mut pairs("01008"), 4), b"02001");
}

#[test]
fn example_7_data_end_past_the_end_with_7_good() {
    assert_eq!(write_pairs(&mut pairs("01007"), 3), b"01008");
}

fn file_of(format: u8, b: usize, r: &[u8; 4]) -> Plain {
    let mut plain = Plain::new(2, 8, 8, 0, 1);
    plain.put_label(1, &hdr1("FILE", b, "01001", "01008"));
    plain.set(1, 40, &[format]);
    plain.set(1, 44, b"2");
    plain.set(1, 54, r);
    plain.set(1, 63, b"B");
    plain
}

fn write_lengths(plain: &mut Plain, lengths: &[u32]) -> Vec<Vec<u8>> {
    let records: Vec<Vec<u8>> = lengths
        .iter()
        .zip(b'a'..)
        .map(|(&length, letter)| vec![letter; length as usize])
        .collect();
    let written = write(&mut plain.image, 1, &records.concat(), lengths);
    assert!(written.is_ok());
    records
}

#[test]
fn example_8_v_of_30_with_three_bodies_of_10() {
    let mut plain = file_of(b'V', 30, b"0030");
    write_lengths(&mut plain, &[10, 10, 10]);
    assert_eq!(count(&plain.image, 1), Ok(2));
    assert_eq!(&plain.image[7 * 129 + 58..7 * 129 + 63], b"00016");
    let first = plain.kind_at("01001") + 1;
    assert_eq!(
        &plain.image[first..first + 30],
        b"0014aaaaaaaaaa0014bbbbbbbbbb\0\0"
    );
}

fn example_9() -> (Plain, Vec<Vec<u8>>) {
    let mut plain = file_of(b'S', 20, b"0000");
    let records = write_lengths(&mut plain, &[8, 12, 3]);
    (plain, records)
}

#[test]
fn example_9_s_of_20_with_bodies_8_12_3() {
    let (plain, _) = example_9();
    let blocks: [&[u8; 20]; 3] = [
        b"00013aaaaaaaa10007bb",
        b"30015bbbbbbbbbb\0\0\0\0\0",
        b"00008ccc\0\0\0\0\0\0\0\0\0\0\0\0",
    ];
    for (address, block) in ["01001", "01002", "01003"].iter().zip(blocks) {
        let at = plain.kind_at(address) + 1;
        assert_eq!(&plain.image[at..at + 20], block);
        assert!(plain.image[at + 20..at + 128].iter().all(|&byte| byte == 0));
    }
    assert_eq!(&plain.image[7 * 129 + 58..7 * 129 + 63], b"00012");
    assert_eq!(&plain.image[7 * 129 + 75..7 * 129 + 80], b"01004");
}

#[derive(Debug, PartialEq, Eq)]
enum Item {
    Body(Vec<u8>),
    Gap(u64),
}

/// Salvage from Start to End.
fn salvaged(image: &[u8]) -> Vec<Item> {
    let mut items = Vec::new();
    let mut place = Place::START;
    let mut out = [0; 100];
    loop {
        match salvage(image, 1, place, &mut out).expect("no refusal") {
            Reading::Record { length, next } => {
                items.push(Item::Body(out[..length as usize].to_vec()));
                place = next;
            }
            Reading::Gap { next } => {
                assert!(next.mark);
                items.push(Item::Gap(next.block - 1));
                place = next;
            }
            Reading::End { next } => {
                assert!(!next.mark);
                return items;
            }
        }
    }
}

#[test]
fn example_10_block_1_lost() {
    let (mut plain, records) = example_9();
    plain.set_kind("01002", 32);
    let expected = [
        Item::Body(records[0].clone()),
        Item::Gap(1),
        Item::Body(records[2].clone()),
    ];
    assert_eq!(salvaged(&plain.image), expected);
}

#[test]
fn example_11_block_0_lost() {
    let (mut plain, records) = example_9();
    plain.set_kind("01001", 32);
    let expected = [Item::Gap(0), Item::Body(records[2].clone())];
    assert_eq!(salvaged(&plain.image), expected);
}

#[test]
fn example_12_middle_block_of_three_lost_gives_one_gap_only() {
    let mut plain = file_of(b'S', 20, b"0000");
    write_lengths(&mut plain, &[20, 20]);
    assert_eq!(count(&plain.image, 1), Ok(3));
    plain.set_kind("01002", 32);
    assert_eq!(salvaged(&plain.image), [Item::Gap(1)]);
}

#[test]
fn plain_reading_meets_the_lost_block_of_example_12() {
    let mut plain = file_of(b'S', 20, b"0000");
    write_lengths(&mut plain, &[20, 20]);
    plain.set_kind("01002", 32);
    let answer = read(&plain.image, 1, Place::START, &mut [0; 100]);
    assert_eq!(answer, Err(Refusal::at(20, 1)));
}

const LISTING: &str = "\
VOLUME DEMO01 L=5 I=10 D=8 P=128 S=1 FREE=16
1|PARTS            |.|F|-|128|128|01001|01008|3|0
3|LOG              |2|V|B|256|100|02001|03008|2|56
";

#[test]
fn the_sample_is_listed_as_document_01_prints_it() {
    let image = sample();
    assert_eq!(image.len(), 9_546);
    assert_eq!(String::from_utf8_lossy(&listing(&image)), LISTING);
    assert_eq!(free(&image), Ok(16));
}

fn listed(name: &str) -> String {
    let image = named(name).expect("a known name");
    String::from_utf8(listing(&image)).expect("text")
}

#[test]
fn another_level_shows_question_marks_but_for_slot_level_start_end() {
    assert!(listed("other-level").contains("\n1|?|3|?|?|?|?|01001|01008|?|?\n"));
}

#[test]
fn refused_counts_print_17_or_18_in_place_of_blocks() {
    assert!(listed("wrong-mark").contains("|128|128|01001|01008|!17|0\n"));
    assert!(listed("split").contains("|256|100|02001|03008|!18|56\n"));
}

#[test]
fn a_refused_volume_prints_one_line() {
    assert_eq!(listed("refused"), "REFUSED 10 3 23\n");
    assert_eq!(listing(&[]), b"REFUSED 1 0\n");
    let mut image = sample();
    image.push(0);
    assert_eq!(listing(&image), b"REFUSED 5 0\n");
}

#[test]
fn longer_input_prints_too_long_alone() {
    assert_eq!(listing(&[0; 65_536]), b"REFUSED 3 1\n");
    assert_eq!(listing(&[0; 65_537]), b"TOO LONG\n");
}

#[test]
fn the_two_sided_sample_continues_the_slots_on_side_1() {
    let text = listed("two-sided");
    assert!(text.starts_with("VOLUME DEMO01 L=2 I=8 D=4 P=256 S=2 FREE=0\n"));
    assert!(text.contains("\n2|SECOND ON SIDE 1 |2|S|B|512|0|01104|02104|2|"));
}

#[test]
fn the_volumes_for_measuring_are_accepted_with_their_labels() {
    for (name, length, slots, labels) in [
        ("smallest", 1_548, 1, 1),
        ("typical", 271_674, 19, 6),
        ("largest", 5_283_408, 45, 45),
        ("largest-one", 5_283_408, 45, 1),
        ("largest-none", 5_283_408, 45, 0),
    ] {
        let image = named(name).expect("a known name");
        assert_eq!(image.len(), length);
        let geometry = judge(&image).expect(name);
        assert_eq!(geometry.slots(), slots);
        let counted = (1..=slots as u64).filter(|&slot| count(&image, slot).is_ok());
        assert_eq!(counted.count(), labels, "{name}");
    }
}
