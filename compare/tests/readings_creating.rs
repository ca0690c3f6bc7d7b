//! Readings of request 2026-01: creating and deleting files.

mod common;

use compare::make::sample::{hdr1, Plain};
use compare::make::{named, sample};
use compare::{answer, Call, Place, Placed, Reading, Refusal};
use compare::{count, create, delete, find, free, judge, read, write};

/// The fields of a fixed unblocked file of level space, B = R = 128.
fn fields(name: &str) -> Vec<u8> {
    format!("{name:<17}00128       ").into_bytes()
}

/// Fields with everything told.
fn told(name: &str, b: &str, format: &str, level: &str, r: &str, blocking: &str) -> Vec<u8> {
    format!("{name:<17}{b}{format}{level}{r}{blocking}").into_bytes()
}

/// A create on the sample that is refused and changes nothing.
fn refused(fields: &[u8], n: u64) -> Refusal {
    refused_on(&mut sample(), fields, n)
}

fn refused_on(image: &mut [u8], fields: &[u8], n: u64) -> Refusal {
    let before = image.to_vec();
    let refusal = create(image, fields, n).expect_err("a refusal");
    assert_eq!(image, before);
    refusal
}

fn at(position: usize) -> Refusal {
    Refusal::at_two(10, 0, position)
}

fn placed(slot: usize, start: usize) -> Result<Placed, Refusal> {
    Ok(Placed { slot, start })
}

/// The kind and the 128 bytes of a slot.
fn sector(image: &[u8], slot: usize) -> &[u8] {
    &image[(slot + 6) * 129..(slot + 7) * 129]
}

/// Bytes in which two images differ.
fn changed(before: &[u8], after: &[u8]) -> Vec<usize> {
    (0..before.len())
        .filter(|&at| before[at] != after[at])
        .collect()
}

#[test]
fn r1_1_fields_are_joined_in_the_order_of_positions() {
    let fields = told("A LONG NAME OF 17", "00256", "V", "2", "0100", "B");
    assert_eq!(fields.len(), 29);
    let mut image = sample();
    assert_eq!(create(&mut image, &fields, 8), placed(2, 4001));
    let label = &sector(&image, 2)[1..];
    assert_eq!(&label[5..22], b"A LONG NAME OF 17");
    assert_eq!(&label[22..27], b"00256");
    assert_eq!((label[39], label[43]), (b'V', b'2'));
    assert_eq!(&label[53..57], b"0100");
    assert_eq!(label[62], b'B');
}

#[test]
fn r1_1_nothing_is_padded_trimmed_or_turned_into_capitals() {
    assert_eq!(
        refused(&told("test", "00128", " ", " ", "    ", " "), 8),
        at(6)
    );
    assert_eq!(
        refused(&told("TEST", "  128", " ", " ", "    ", " "), 8),
        at(23)
    );
    assert_eq!(
        refused(&told("TEST", "00128", "v", "2", "    ", " "), 8),
        at(40)
    );
    assert_eq!(refused(b"TEST", 8), at(6));
}

#[test]
fn r1_2_other_than_29_bytes_at_6() {
    let right = fields("TEST");
    let longer = [right.clone(), vec![b' '; 99]].concat();
    for length in [0, 1, 28, 30, 128] {
        assert_eq!(refused(&longer[..length], 8), at(6));
        assert_eq!(refused(&longer[..length], 0), at(6));
    }
    assert_eq!(create(&mut sample(), &longer[..29], 8), placed(2, 4001));
}

#[test]
fn r1_4_other_fields_are_spaces_and_the_data_end_is_the_start() {
    let mut image = sample();
    assert_eq!(create(&mut image, &fields("TEST"), 9), placed(2, 4001));
    let expected = format!(
        "HDR1 TEST             00128 04001 05001{:35}04001{:49}",
        "", ""
    );
    assert_eq!(sector(&image, 2)[0], 0);
    assert_eq!(&sector(&image, 2)[1..], expected.as_bytes());
}

#[test]
fn r1_5_the_volume_comes_first() {
    let mut image = sample();
    image.push(0);
    assert_eq!(refused_on(&mut image, b"", 0), Refusal::bare(5));
    let mut image = named("refused").expect("a sample");
    assert_eq!(refused_on(&mut image, b"", 0), Refusal::at_two(10, 3, 23));
}

#[test]
fn r1_5_to_14_the_order_is_10_12_28_29() {
    assert_eq!(refused(&fields("PARTS"), 0), at(35));
    assert_eq!(
        refused(&told("LOG", "00128", "X", "2", "    ", " "), 8),
        at(40)
    );
    assert_eq!(refused(&fields("PARTS"), 17), Refusal::at(12, 1));
    let mut plain = Plain::new(1, 8, 1, 0, 1);
    plain.put_label(1, &hdr1("ONE", 30, "01001", "01001"));
    let mut on = |name: &str, n| refused_on(&mut plain.image, &fields(name), n);
    assert_eq!(on("ONE#", 1), at(6));
    assert_eq!(on("ONE", 0), at(35));
    assert_eq!(on("ONE", 1), Refusal::at(12, 1));
    assert_eq!(on("TWO", 1), Refusal::bare(28));
}

#[test]
fn r1_6_and_7_positions_of_the_proposed_label_with_slot_0() {
    let rows = [
        (told("BAD#", "00128", " ", " ", "    ", " "), 6),
        (told("NINECHARS", "00128", " ", "1", "    ", " "), 6),
        (told("TEST", "00129", " ", " ", "    ", " "), 23),
        (told("TEST", "00256", " ", " ", "    ", " "), 23),
        (told("TEST", "00030", "X", "2", "    ", " "), 40),
        (told("TEST", "00030", "V", "1", "    ", " "), 40),
        (told("TEST", "00030", "F", "2", "0007", "B"), 54),
        (told("TEST", "00030", "F", "2", "0007", "X"), 63),
        (told("TEST", "00030", " ", " ", "    ", "B"), 63),
        (told("TEST", "00030", "S", "2", "0000", " "), 63),
        // 58 is at fault only behind a lower one: B = 0.
        (told("TEST", "00000", "X", "2", "    ", " "), 40),
        (told("TEST", "00000", "F", "2", "    ", " "), 23),
    ];
    for (fields, position) in rows {
        assert_eq!(refused(&fields, 8), at(position));
    }
}

#[test]
fn r1_6_b_is_judged_by_the_volume_it_is_to_stand_on() {
    let most = told("TEST", "01024", " ", "1", "    ", " ");
    assert_eq!(create(&mut sample(), &most, 8), placed(2, 4001));
    let more = told("TEST", "01152", " ", "1", "    ", " ");
    assert_eq!(refused(&more, 8), at(23));
}

#[test]
fn r1_8_n_0_is_at_35_in_its_place_among_the_positions() {
    let rows = [
        (fields("TEST"), 35),
        (fields("BAD#"), 6),
        (told("TEST", "00000", "F", "2", "    ", " "), 23),
        (told("TEST", "00030", "X", "2", "    ", " "), 35),
        (told("TEST", "00030", " ", "#", "    ", " "), 35),
        (told("TEST", "00030", "F", "2", "0007", "B"), 35),
        (told("TEST", "00030", "F", "2", "    ", "X"), 35),
    ];
    for (fields, position) in rows {
        assert_eq!(refused(&fields, 0), at(position));
    }
}

#[test]
fn r1_9_another_level_has_only_35_and_44_judged() {
    for level in ["3", "0", ".", "A", "_"] {
        let bad = told("BAD#", "XXXXX", "X", level, "XXXX", "X");
        assert_eq!(refused(&bad, 8), at(44));
        assert_eq!(refused(&bad, 0), at(35));
        let right = told("TEST", "00128", " ", level, "    ", " ");
        assert_eq!(refused(&right, 8), at(44));
    }
}

#[test]
fn r1_10_a_level_outside_the_a_set_has_every_field_judged() {
    let with = |name, b, format| told(name, b, format, "#", "    ", " ");
    assert_eq!(refused(&with("TEST", "00030", "X"), 8), at(40));
    assert_eq!(refused(&with("TEST", "00030", " "), 8), at(44));
    assert_eq!(refused(&with("TEST", "00000", "F"), 8), at(23));
    assert_eq!(refused(&with("BAD#", "00000", "F"), 8), at(6));
    // Parts that name a level are left out.
    assert_eq!(refused(&with("A LONG NAME OF 17", "00256", "V"), 8), at(44));
    assert_eq!(refused(&with("TEST", "00030", " "), 0), at(35));
    let behind = told("TEST", "00030", "F", "\0", "0007", "X");
    assert_eq!(refused(&behind, 8), at(44));
}

#[test]
fn r1_11_a_name_in_use_with_its_slot() {
    assert_eq!(refused(&fields("PARTS"), 8), Refusal::at(12, 1));
    assert_eq!(refused(&fields("LOG"), 8), Refusal::at(12, 3));
    let mut image = sample();
    assert_eq!(create(&mut image, &fields("PARTS1"), 4), placed(2, 4001));
    let mut blank = Plain::new(1, 10, 8, 0, 1);
    assert_eq!(create(&mut blank.image, &fields(""), 1), placed(1, 1001));
    let again = refused_on(&mut blank.image, &fields(""), 1);
    assert_eq!(again, Refusal::at(12, 1));
}

#[test]
fn r1_11_what_another_level_has_in_6_to_22_is_no_name() {
    let mut image = named("other-level").expect("a sample");
    assert_eq!(create(&mut image, &fields("PARTS"), 8), placed(2, 4001));
    assert!(judge(&image).is_ok());
    assert_eq!(find(&image, &fields("PARTS")[..17]).map(|f| f.slot), Ok(2));
}

#[test]
fn r1_13_no_deleted_slot() {
    let mut plain = Plain::new(1, 8, 3, 0, 1);
    plain.put_label(1, &hdr1("ONE", 30, "01001", "01001"));
    let none = refused_on(&mut plain.image, &fields("TWO"), 1);
    assert_eq!(none, Refusal::bare(28));
    // Before 29.
    let none = refused_on(&mut plain.image, &fields("TWO"), 3);
    assert_eq!(none, Refusal::bare(28));
}

#[test]
fn r1_14_and_15_no_run_at_any_n() {
    let mut image = sample();
    assert_eq!(create(&mut image, &fields("TEST"), 16), placed(2, 4001));
    let large = [17, 40, 41, 1 << 16, u64::from(u32::MAX), 1 << 32];
    let larger = [(1 << 32) + 1, 1 << 63, u64::MAX - 7, u64::MAX];
    for n in large.into_iter().chain(larger) {
        assert_eq!(refused(&fields("TEST"), n), Refusal::bare(29));
    }
}

#[test]
fn r1_16_labels_of_another_level_take_room_and_deleted_slots_do_not() {
    let mut image = named("other-level").expect("a sample");
    assert_eq!(create(&mut image, &fields("TEST"), 8), placed(2, 4001));
    let mut plain = Plain::new(1, 9, 3, 0, 1);
    plain.put_label(1, &hdr1("GONE", 30, "01001", "01003"));
    assert_eq!(delete(&mut plain.image, 1), Ok(3));
    assert_eq!(&sector(&plain.image, 1)[29..40], b"01001 01003");
    assert_eq!(create(&mut plain.image, &fields("NEW"), 3), placed(1, 1001));
}

#[test]
fn r1_17_consecutive_is_by_the_step_of_an_address() {
    let mut plain = Plain::new(1, 8, 1, 0, 2);
    assert_eq!(create(&mut plain.image, &fields("TWO"), 2), placed(1, 1001));
    assert_eq!(&sector(&plain.image, 1)[29..40], b"01001 01101");
    let mut plain = Plain::new(1, 8, 2, 0, 2);
    plain.put_label(1, &hdr1("ONE", 30, "01001", "01002"));
    assert_eq!(create(&mut plain.image, &fields("TWO"), 2), placed(2, 1101));
    // Over a defective cylinder, which has no addresses.
    let mut plain = Plain::new(2, 8, 2, 0, 1);
    plain.set_sector(5, 7, b"010 030");
    assert_eq!(create(&mut plain.image, &fields("ALL"), 4), placed(1, 1001));
    assert_eq!(&sector(&plain.image, 1)[29..40], b"01001 02002");
}

#[test]
fn r1_17_the_lowest_run_is_used_from_its_first_address() {
    let mut plain = Plain::new(3, 12, 8, 0, 1);
    plain.put_label(1, &hdr1("FAR", 30, "02001", "02004"));
    plain.put_label(2, &hdr1("NEAR", 30, "01003", "01004"));
    for (n, start) in [(1, 1001), (2, 1001), (3, 1005), (4, 1005), (5, 2005)] {
        let mut image = plain.image.clone();
        assert_eq!(create(&mut image, &fields("NEW"), n), placed(3, start));
    }
}

#[test]
fn r1_18_slot_and_run_do_not_depend_on_each_other() {
    for (n, start, end) in [(8, 1001, b"01008"), (9, 4001, b"05001")] {
        let mut image = sample();
        assert_eq!(delete(&mut image, 1), Ok(8));
        assert_eq!(create(&mut image, &fields("TEST"), n), placed(1, start));
        assert_eq!(&sector(&image, 1)[35..40], end);
    }
}

#[test]
fn r1_18_the_lowest_deleted_slot_may_be_on_side_1() {
    let mut plain = Plain::new(1, 8, 2, 0, 2);
    plain.put_label(1, &hdr1("ONE", 30, "01001", "01001"));
    assert_eq!(create(&mut plain.image, &fields("TWO"), 1), placed(2, 1002));
    assert_eq!(sector(&plain.image, 2)[0], 0);
}

#[test]
fn r1_19_marks_in_the_run_are_not_looked_at() {
    let mut plain = Plain::new(1, 9, 3, 0, 1);
    plain.set_kind("01001", 16);
    plain.set_body("01001", b"F");
    plain.set_kind("01002", 32);
    let before = plain.image.clone();
    assert_eq!(
        create(&mut plain.image, &fields("THREE"), 3),
        placed(1, 1001)
    );
    assert!(changed(&before, &plain.image)
        .iter()
        .all(|&at| at < 8 * 129));
    // Two good records, the check-failed one among them.
    assert_eq!(write(&mut plain.image, 1, &[b'w'; 256], &[128, 128]), Ok(2));
    assert_eq!(
        write(&mut plain.image, 1, &[b'w'; 384], &[128; 3]),
        Err(Refusal::at(27, 3))
    );
    let mut plain = Plain::new(1, 9, 3, 0, 1);
    plain.set_kind("01002", 16);
    assert_eq!(
        create(&mut plain.image, &fields("WRONG"), 3),
        placed(1, 1001)
    );
    let wrong = Refusal::at(17, 10);
    assert_eq!(count(&plain.image, 1), Err(wrong));
    assert_eq!(read(&plain.image, 1, Place::START, &mut []), Err(wrong));
    assert_eq!(write(&mut plain.image, 1, &[], &[]), Err(wrong));
}

#[test]
fn r1_20_n_is_not_compared_with_b() {
    let mut image = sample();
    let two_to_a_block = told("TEST", "00256", " ", "1", "    ", " ");
    assert_eq!(create(&mut image, &two_to_a_block, 1), placed(2, 4001));
    assert_eq!(count(&image, 2), Ok(0));
    let written = write(&mut image, 2, &[b'w'; 256], &[256]);
    assert_eq!(written, Err(Refusal::at(27, 1)));
}

#[test]
fn r1_21_all_of_the_sector_is_set_and_nothing_else() {
    let mut image = sample();
    let at_slot = 8 * 129;
    for (number, byte) in image[at_slot + 2..at_slot + 129].iter_mut().enumerate() {
        *byte = 0x80 | number as u8;
    }
    let mut clean = sample();
    let before = image.clone();
    assert_eq!(create(&mut image, &fields("TEST"), 8), placed(2, 4001));
    assert_eq!(create(&mut clean, &fields("TEST"), 8), placed(2, 4001));
    assert_eq!(image, clean);
    let inside = at_slot..at_slot + 129;
    assert!(changed(&before, &image)
        .iter()
        .all(|at| inside.contains(at)));
}

#[test]
fn r1_22_create_answers_the_slot_and_the_start() {
    let create = |fields: Vec<u8>, n| answer(&sample(), &Call::Create { fields, n });
    assert_eq!(create(fields("TEST"), 8).packed, 33_558_433);
    assert_eq!(create(fields("TEST"), 0).packed, 10 << 56 | 35 << 4);
    assert_eq!(create(fields("LOG"), 8).packed, 12 << 56 | 3 << 24);
    assert_eq!(create(fields("TEST"), 17).packed, 29 << 56);
}

#[test]
fn r1_23_the_new_file_is_found_empty_and_takes_a_write() {
    let mut image = sample();
    assert_eq!(create(&mut image, &fields("TEST"), 8), placed(2, 4001));
    let found = find(&image, &fields("TEST")[..17]).expect("a file");
    assert_eq!((found.slot, found.at), (2, 8 * 129 + 1));
    assert_eq!(count(&image, 2), Ok(0));
    let next = Place::START;
    let end = read(&image, 2, Place::START, &mut []);
    assert_eq!(end, Ok(Reading::End { next }));
    assert_eq!(write(&mut image, 2, &[b'w'; 1024], &[128; 8]), Ok(8));
    assert_eq!(count(&image, 2), Ok(8));
}

#[test]
fn r1_24_delete_gives_13_14_and_24() {
    let mut image = sample();
    for slot in [0, 2, 4, 1 << 32, (1 << 32) + 1, u64::MAX] {
        assert_eq!(delete(&mut image, slot), Err(Refusal::bare(13)));
    }
    assert_eq!(image, sample());
    let mut other = named("other-level").expect("a sample");
    other[7 * 129 + 43] = b'P';
    assert_eq!(delete(&mut other, 1), Err(Refusal::at(14, 1)));
    let mut protected = sample();
    protected[9 * 129 + 43] = b'P';
    assert_eq!(delete(&mut protected, 3), Err(Refusal::at(24, 3)));
    let mut refused = named("refused").expect("a sample");
    let volume = Refusal::at_two(10, 3, 23);
    assert_eq!(delete(&mut refused, 1), Err(volume));
}

#[test]
fn r1_24_nothing_else_keeps_a_file() {
    for (name, slot, freed) in [("wrong-mark", 1, 8), ("split", 3, 16)] {
        let mut image = named(name).expect("a sample");
        assert_eq!(delete(&mut image, slot), Ok(freed));
    }
    for (position, byte) in [(42, b'A'), (45, b'C'), (45, b'L'), (67, b'9')] {
        let mut image = sample();
        let at = 9 * 129 + position;
        let length = if position == 67 { 6 } else { 1 };
        image[at..at + length].fill(byte);
        assert_eq!(delete(&mut image, 3), Ok(16));
    }
}

#[test]
fn r1_25_delete_changes_two_bytes() {
    let mut image = sample();
    let before = image.clone();
    assert_eq!(delete(&mut image, 3), Ok(16));
    assert_eq!(changed(&before, &image), [9 * 129, 9 * 129 + 1]);
    assert!(sector(&image, 3).starts_with(b"\x10DDR1 LOG"));
    assert_eq!(delete(&mut image, 3), Err(Refusal::bare(13)));
}

#[test]
fn r1_26_delete_answers_the_records_that_are_free_again() {
    let delete = |slot| answer(&sample(), &Call::Delete { slot }).packed;
    assert_eq!(delete(3), 16);
    assert_eq!(delete(1), 8);
    assert_eq!(delete(2), 13 << 56);
}

#[test]
fn r1_27_room_freed_by_a_delete_is_used_again() {
    let mut image = sample();
    assert_eq!(delete(&mut image, 3), Ok(16));
    for n in 1..=16 {
        let mut again = image.clone();
        assert!(create(&mut again, &fields("LOG"), n).is_ok());
    }
    assert_eq!(create(&mut image, &fields("LOG"), 16), placed(2, 2001));
    assert_eq!(&sector(&image, 2)[29..40], b"02001 03008");
}

#[test]
fn r1_28_and_29_other_files_stay_and_the_free_count_moves() {
    let mut image = sample();
    let whole = image.clone();
    assert_eq!(free(&image), Ok(16));
    assert_eq!(create(&mut image, &fields("TEST"), 5), placed(2, 4001));
    assert_eq!(free(&image), Ok(11));
    assert_eq!(judge(&image), judge(&whole));
    assert_eq!(delete(&mut image, 1), Ok(8));
    assert_eq!(free(&image), Ok(19));
    assert_eq!(count(&image, 3), count(&whole, 3));
    assert_eq!(sector(&image, 3), sector(&whole, 3));
    let gone = find(&image, &fields("PARTS")[..17]).map(|found| found.slot);
    assert_eq!(gone, Err(Refusal::bare(13)));
}
