//! Readings 1 to 4 and 8: volumes, labels, slots, finding; 02.1 to 02.7 of
//! request 2026-02.

mod common;

use common::{base, fault, refusal, shaped};
use compare::make::positions::{field_at, judged_in, Class, VOL1};
use compare::make::sample;
use compare::make::sample::{hdr1, Plain};
use compare::{count, find, free, judge, listing, Refusal};

#[test]
fn r1_1_a_wrong_fourth_byte_of_vol1_is_reported_at_position_1() {
    let mut plain = base();
    plain.set_sector(7, 4, b"2");
    assert_eq!(refusal(&plain), Some(Refusal::at(3, 1)));
}

#[test]
fn r1_2_all_of_vol1_is_judged_for_3_before_4_is_given() {
    let mut plain = base();
    plain.set_sector(7, 11, b"X");
    assert_eq!(refusal(&plain), Some(Refusal::at(4, 11)));
    plain.set_sector(7, 80, b"2");
    assert_eq!(refusal(&plain), Some(Refusal::at(3, 80)));
    plain.set_sector(7, 11, b"@");
    assert_eq!(refusal(&plain), Some(Refusal::at(3, 11)));
}

#[test]
fn r1_3_sector_05_then_07_kind_not_0_before_any_other_number() {
    for kind in [16, 32, 1, 99] {
        let mut plain = base();
        plain.set_sector(7, 0, &[kind]);
        plain.set_sector(7, 1, b"X");
        assert_eq!(refusal(&plain), Some(Refusal::at(2, 7)));
        plain.set_sector(5, 0, &[kind]);
        assert_eq!(refusal(&plain), Some(Refusal::at(2, 5)));
    }
}

#[test]
fn r1_4_every_sector_is_looked_at_for_6_reserved_cylinders_too() {
    let mut plain = base();
    let last = plain.geometry.sectors() - 1;
    plain.image[plain.geometry.kind_at(last)] = 1;
    assert_eq!(refusal(&plain), Some(Refusal::at(6, last)));
    plain.set_sector(6, 0, &[48]);
    assert_eq!(refusal(&plain), Some(Refusal::at(6, 5)));
}

#[test]
fn r1_5_ermap_fields_are_spaces_or_all_digits() {
    let cases: [(&[u8], usize); 10] = [
        (b"01     ", 7),
        (b"010 01 ", 11),
        (b"    010", 11),
        (b"030    ", 7),
        (b"000    ", 7),
        (b"011    ", 7),
        (b"010 010", 11),
        (b"010 040", 11),
        (b"020 010", 11),
        (b" 10 020", 7),
    ];
    for (fields, position) in cases {
        let mut plain = base();
        plain.set_sector(5, 7, fields);
        assert_eq!(refusal(&plain), Some(Refusal::at(7, position)));
    }
    let mut plain = base();
    plain.set_sector(5, 7, b"020X030");
    let judged = judge(&plain.image).expect("accepted");
    assert_eq!((judged.d1, judged.d2), (Some(2), Some(3)));
}

#[test]
fn r1_7_image_length_is_exact() {
    let mut plain = base();
    plain.image.push(0);
    assert_eq!(refusal(&plain), Some(Refusal::at(5, 0)));
    plain.image.truncate(plain.image.len() - 2);
    assert_eq!(refusal(&plain), Some(Refusal::at(5, 0)));
    plain.image.truncate(903);
    assert_eq!(refusal(&plain), Some(Refusal::at(5, 0)));
    plain.image.truncate(902);
    assert_eq!(refusal(&plain), Some(Refusal::at(1, 0)));
}

#[test]
fn r1_8_to_1_10_hex_digits_interleave_and_size_of_vol1() {
    let cases: [(usize, &[u8], usize); 6] = [
        (83, b"0a", 83),
        (81, b"61", 81),
        (77, b" 1", 77),
        (77, b"14", 77),
        (76, b"0", 76),
        (89, b"3", 89),
    ];
    for (at, bytes, position) in cases {
        let mut plain = base();
        plain.set_sector(7, at, bytes);
        assert_eq!(refusal(&plain), Some(Refusal::at(3, position)));
    }
    let mut plain = base();
    plain.set_sector(7, 77, b"13");
    plain.set_sector(7, 87, b"\xFF\xFF");
    assert_eq!(refusal(&plain), None);
}

/// Sets positions of VOL1 and names the fault.
fn with_vol1(fields: &[(usize, &[u8])]) -> Option<Refusal> {
    let mut plain = base();
    for (position, bytes) in fields {
        plain.set_sector(7, *position, bytes);
    }
    refusal(&plain)
}

#[test]
fn r02_1_the_byte_at_80_is_3_and_no_other_place_will_do() {
    for byte in 0..=255u8 {
        let wrong = (byte != b'3').then_some(Refusal::at(3, 80));
        assert_eq!(with_vol1(&[(80, &[byte])]), wrong);
    }
    assert_eq!(with_vol1(&[(79, b"3 ")]), Some(Refusal::at(3, 80)));
}

#[test]
fn r02_2_any_byte_at_79_is_accepted() {
    for byte in 0..=255u8 {
        assert_eq!(with_vol1(&[(79, &[byte, b'3'])]), None);
    }
}

#[test]
fn r02_3_80_stands_between_77_and_81_and_79_is_never_named() {
    let named = [1, 5, 11, 38, 72, 76, 77, 80, 81, 83, 85, 89];
    assert_eq!(judged_in(&VOL1), named);
    for position in named {
        let one = with_vol1(&[(position, b"\0")]);
        assert_eq!(one, Some(Refusal::at(3, position)));
        let two = with_vol1(&[(position, b"\0"), (80, b" ")]);
        assert_eq!(two, Some(Refusal::at(3, position.min(80))));
    }
    assert_eq!(
        with_vol1(&[(77, b"14"), (79, b"3 ")]),
        Some(Refusal::at(3, 77))
    );
    assert_eq!(
        with_vol1(&[(79, b"3 "), (81, b"61")]),
        Some(Refusal::at(3, 80))
    );
}

#[test]
fn r02_4_nothing_else_changes() {
    assert_eq!(
        with_vol1(&[(11, b"X"), (80, b"2")]),
        Some(Refusal::at(3, 80))
    );
    assert_eq!(with_vol1(&[(11, b"X")]), Some(Refusal::at(4, 11)));
    let mut plain = base();
    plain.set_sector(7, 80, b"2");
    plain.set_sector(6, 0, &[48]);
    plain.image.push(0);
    assert_eq!(refusal(&plain), Some(Refusal::at(3, 80)));
    plain.set_sector(7, 0, &[16]);
    assert_eq!(refusal(&plain), Some(Refusal::at(2, 7)));
    plain.image.truncate(902);
    assert_eq!(refusal(&plain), Some(Refusal::at(1, 0)));
}

#[test]
fn r02_5_the_space_of_two_plants_at_79_is_no_rule() {
    let mut plain = base();
    let judged = judge(&plain.image).expect("accepted");
    for pair in [b" 3", b"33", b"X3", b"\x003", b"\xFF3"] {
        plain.set_sector(7, 79, pair);
        assert_eq!(judge(&plain.image), Ok(judged));
    }
}

#[test]
fn r02_6_79_is_the_reserve_and_80_the_version_the_fields_beside_them_stay() {
    let of = |position| field_at(&VOL1, position).expect("a field");
    assert_eq!(
        [of(78), of(79), of(80), of(81)].map(|field| (field.first, field.last, field.class)),
        [
            (77, 78, Class::Judged),
            (79, 79, Class::Reserved),
            (80, 80, Class::Judged),
            (81, 82, Class::Judged),
        ]
    );
}

#[test]
fn r02_7_the_sample_has_a_space_at_79_and_3_at_80_and_lists_the_same() {
    let image = sample();
    assert_eq!(image.len(), 9_546);
    assert_eq!(&image[6 * 129 + 79..6 * 129 + 81], b" 3");
    let text = "VOLUME DEMO01 L=5 I=10 D=8 P=128 S=1 FREE=16\n\
        1|PARTS            |.|F|-|128|128|01001|01008|3|0\n\
        3|LOG              |2|V|B|256|100|02001|03008|2|56\n";
    assert_eq!(String::from_utf8_lossy(&listing(&image)), text);
}

/// Sets fields of slot 1 and names the fault.
fn judged(fields: &[(usize, &[u8])]) -> Option<Refusal> {
    let mut plain = base();
    for (position, bytes) in fields {
        plain.set(1, *position, bytes);
    }
    refusal(&plain)
}

#[test]
fn r2_1_a_field_is_at_fault_also_by_a_part_that_reads_a_third_field() {
    assert_eq!(judged(&[(44, b"1"), (40, b"V"), (23, b"00003")]), fault(40));
    assert_eq!(judged(&[(44, b" "), (40, b"S"), (23, b"00004")]), fault(40));
    let s = [(44, &b"2"[..]), (40, b"S"), (63, b" "), (58, b"00001")];
    assert_eq!(judged(&s), fault(63));
    assert_eq!(judged(&[(63, b"B"), (58, b"00030")]), fault(58));
    assert_eq!(judged(&[(63, b"B"), (58, b"00001")]), fault(58));
    assert_eq!(judged(&[(63, b"B"), (54, b"0010")]), fault(54));
    assert_eq!(judged(&[(63, b"B")]), fault(63));
}

#[test]
fn r2_1_formats_at_no_fault_bound_the_block_length() {
    assert_eq!(judged(&[(44, b"2"), (40, b"V"), (23, b"00003")]), fault(23));
    assert_eq!(
        judged(&[(44, b"2"), (40, b"S"), (63, b"B"), (23, b"00004")]),
        fault(23)
    );
    assert_eq!(
        judged(&[(44, b"2"), (40, b"S"), (63, b"B"), (23, b"00005")]),
        None
    );
    assert_eq!(judged(&[(23, b"00000")]), fault(23));
}

#[test]
fn r2_1_v_and_s_at_most_9999_is_not_applied_while_40_is_at_fault() {
    let mut plain = Plain::new(2, 10, 10, 3, 1);
    plain.put_label(1, &hdr1("ONE", 10_240, "01001", "01008"));
    plain.set(1, 44, b"1");
    assert_eq!(refusal(&plain), None);
    plain.set(1, 40, b"V");
    assert_eq!(refusal(&plain), fault(40));
    plain.set(1, 44, b"2");
    assert_eq!(refusal(&plain), fault(23));
}

#[test]
fn r2_3_a_block_length_of_0_is_no_fault_while_40_is_at_fault() {
    assert_eq!(judged(&[(44, b"2"), (40, b"X"), (23, b"00000")]), fault(40));
    assert_eq!(judged(&[(44, b"1"), (40, b"V"), (23, b"00000")]), fault(40));
    assert_eq!(judged(&[(44, b"2"), (40, b"X"), (23, b"00129")]), fault(23));
    assert_eq!(judged(&[(44, b" "), (40, b"X"), (23, b"00256")]), fault(23));
}

#[test]
fn r2_4_a_divisor_is_not_asked_while_63_is_at_fault() {
    assert_eq!(judged(&[(44, b"2"), (54, b"0007"), (63, b"X")]), fault(63));
    assert_eq!(judged(&[(44, b"2"), (54, b"0007"), (63, b"B")]), fault(54));
    assert_eq!(judged(&[(44, b"2"), (54, b"0007"), (63, b" ")]), fault(54));
}

#[test]
fn r2_5_parts_that_do_not_read_63_stay() {
    assert_eq!(judged(&[(44, b"2"), (54, b"0000"), (63, b"X")]), fault(54));
    assert_eq!(judged(&[(44, b"2"), (54, b"0031"), (63, b"X")]), fault(54));
    let v = [(44, &b"2"[..]), (40, b"V"), (54, b"0003"), (63, b"X")];
    assert_eq!(judged(&v), fault(54));
    assert_eq!(judged(&[(54, b"0010"), (63, b"X")]), fault(54));
    assert_eq!(judged(&[(44, b"2"), (58, b"00030"), (63, b"X")]), fault(58));
    assert_eq!(
        judged(&[(44, b"2"), (58, b"00010"), (54, b"0010"), (63, b"X")]),
        fault(63)
    );
}

#[test]
fn r2_6_with_44_outside_the_a_set_parts_that_name_a_level_are_not_applied() {
    assert_eq!(judged(&[(44, b"@")]), fault(44));
    assert_eq!(judged(&[(44, b"@"), (14, b"LONG")]), fault(44));
    assert_eq!(judged(&[(44, b"@"), (14, b"@")]), fault(6));
    assert_eq!(judged(&[(44, b"@"), (40, b"V")]), fault(44));
    assert_eq!(judged(&[(44, b"@"), (40, b"V"), (23, b"00003")]), fault(23));
    assert_eq!(judged(&[(44, b"@"), (23, b"00256")]), fault(44));
    assert_eq!(
        judged(&[(44, b"@"), (54, b"0001"), (75, b"     ")]),
        fault(44)
    );
    assert_eq!(judged(&[(44, b"@"), (43, b"X")]), fault(43));
    assert_eq!(judged(&[(44, b" "), (14, b"LONG")]), fault(6));
    assert_eq!(judged(&[(44, b" "), (23, b"00256")]), fault(23));
}

#[test]
fn r2_7_another_level_has_only_29_35_and_44_judged() {
    for level in [b"0", b"3", b"Z", b"_"] {
        let rubbish = [
            (44, &level[..]),
            (6, b"@@"),
            (23, b"X"),
            (63, b"?"),
            (75, b"?"),
        ];
        assert_eq!(judged(&rubbish), None);
        assert_eq!(judged(&[(44, level), (35, b"00001")]), fault(35));
        assert_eq!(judged(&[(44, level), (29, b"01009")]), fault(29));
    }
    assert_eq!(
        judged(&[(44, b"3"), (29, b"01005"), (35, b"01004")]),
        fault(35)
    );
}

#[test]
fn r2_8_spaces_mean_all_positions_of_a_field() {
    let cases: [(usize, &[u8]); 8] = [
        (23, b"     "),
        (29, b"     "),
        (46, b" 1"),
        (48, b"96 101"),
        (54, b"  30"),
        (58, b"    0"),
        (67, b"     1"),
        (75, b"     "),
    ];
    for (position, bytes) in cases {
        assert_eq!(judged(&[(position, bytes)]), fault(position));
    }
    assert_eq!(judged(&[(46, b"00")]), fault(46));
    assert_eq!(judged(&[(46, b"99")]), None);
}

#[test]
fn r2_9_days_01_to_31_in_every_month_and_999999_in_67_only() {
    assert_eq!(judged(&[(48, b"000231"), (67, b"999999")]), None);
    assert_eq!(judged(&[(48, b"999999")]), fault(48));
    assert_eq!(judged(&[(48, b"960132")]), fault(48));
    assert_eq!(judged(&[(67, b"961301")]), fault(67));
    assert_eq!(judged(&[(67, b"960100")]), fault(67));
}

#[test]
fn r2_10_r_of_0000_for_s_only_and_without_other_bound() {
    for r in [b"0000", b"    ", b"9999", b"0001"] {
        assert_eq!(refusal(&shaped(b"S", 30, r, b"B")), None);
    }
    assert_eq!(refusal(&shaped(b"V", 30, b"0000", b"B")), fault(54));
    assert_eq!(refusal(&shaped(b"F", 30, b"0000", b"B")), fault(54));
    assert_eq!(refusal(&shaped(b"V", 30, b"0031", b" ")), fault(54));
    assert_eq!(refusal(&shaped(b"V", 30, b"0004", b" ")), None);
}

#[test]
fn r2_11_u_below_b_0_if_unblocked_for_f_a_multiple_of_r() {
    let with = |r: &[u8; 4], blocking: &[u8; 1], u: &[u8]| {
        let mut plain = shaped(b"F", 30, r, blocking);
        plain.set(1, 58, u);
        refusal(&plain)
    };
    assert_eq!(with(b"0010", b"B", b"00020"), None);
    assert_eq!(with(b"0010", b"B", b"00030"), fault(58));
    assert_eq!(with(b"0010", b"B", b"00005"), fault(58));
    assert_eq!(with(b"    ", b" ", b"00000"), None);
    assert_eq!(with(b"    ", b" ", b"00001"), fault(58));
}

#[test]
fn r2_12_blocked_f_with_r_equal_to_b_is_legal() {
    assert_eq!(refusal(&shaped(b"F", 30, b"0030", b"B")), None);
}

#[test]
fn r2_13_the_one_past_the_last_is_legal_only_as_a_data_end() {
    assert_eq!(judged(&[(75, b"03001")]), None);
    assert_eq!(judged(&[(75, b"03002")]), fault(75));
    assert_eq!(judged(&[(75, b"03101")]), fault(75));
    assert_eq!(judged(&[(75, b"01101")]), fault(75));
    assert_eq!(judged(&[(35, b"03001")]), fault(35));
    assert_eq!(judged(&[(29, b"01002")]), fault(75));
    assert_eq!(judged(&[(75, b"02008")]), None);
}

#[test]
fn r2_13_and_2_14_order_of_addresses_on_two_sides() {
    let mut plain = Plain::new(2, 10, 8, 0, 2);
    plain.put_label(1, &hdr1("ONE", 30, "01008", "01101"));
    assert_eq!(refusal(&plain), None);
    plain.set(1, 35, b"01007");
    assert_eq!(refusal(&plain), fault(35));
    plain.set(1, 35, b"01201");
    assert_eq!(refusal(&plain), fault(35));
}

#[test]
fn r2_15_a_slot_without_hdr1_is_9() {
    assert_eq!(judged(&[(1, b"HDR2")]), Some(Refusal::at(9, 1)));
}

#[test]
fn r3_1_slots_are_checked_one_by_one_through_8_9_10() {
    let mut plain = base();
    plain.put_label(2, &hdr1("TWO", 30, "00000", "00000"));
    plain.set_sector(10, 0, &[32]);
    assert_eq!(refusal(&plain), Some(Refusal::at_two(10, 2, 29)));
    plain.set(1, 1, b"X");
    assert_eq!(refusal(&plain), Some(Refusal::at(9, 1)));
    plain.delete(1);
    plain.delete(2);
    assert_eq!(refusal(&plain), Some(Refusal::at(8, 3)));
}

#[test]
fn r3_2_11_names_the_lowest_slot_clashing_with_a_lower_one() {
    let mut plain = base();
    plain.put_label(2, &hdr1("TWO", 30, "02001", "02008"));
    plain.put_label(3, &hdr1("THREE", 30, "01008", "01008"));
    assert_eq!(refusal(&plain), Some(Refusal::at(11, 3)));
    plain.set(3, 29, b"02008");
    plain.set(3, 35, b"02008");
    plain.set(3, 75, b"02008");
    assert_eq!(refusal(&plain), Some(Refusal::at(11, 3)));
    plain.set(2, 29, b"01008");
    plain.set(2, 75, b"01008");
    assert_eq!(refusal(&plain), Some(Refusal::at(11, 2)));
}

#[test]
fn r3_3_extents_of_another_level_count_on_both_sides() {
    for other in [1, 2] {
        let mut plain = base();
        plain.put_label(2, &hdr1("TWO", 30, "01008", "02001"));
        plain.set(other, 44, b"7");
        assert_eq!(refusal(&plain), Some(Refusal::at(11, 2)));
    }
}

#[test]
fn r3_4_names_of_another_level_do_not_clash_blank_names_do() {
    let mut plain = base();
    plain.put_label(3, &hdr1("ONE", 30, "02001", "02008"));
    assert_eq!(refusal(&plain), Some(Refusal::at(12, 3)));
    plain.set(1, 44, b"7");
    assert_eq!(refusal(&plain), None);
    plain.set(1, 44, b" ");
    plain.set(3, 44, b"7");
    assert_eq!(refusal(&plain), None);
    plain.set(3, 44, b" ");
    plain.set(1, 6, b"   ");
    plain.set(3, 6, b"   ");
    assert_eq!(refusal(&plain), Some(Refusal::at(12, 3)));
    plain.put_label(2, &hdr1("TWO", 30, "02008", "02008"));
    assert_eq!(refusal(&plain), Some(Refusal::at(11, 3)));
}

#[test]
fn r3_5_9_is_neither_label_nor_deleted() {
    let cases: [(u8, &[u8], Option<u8>); 6] = [
        (0, b"D   ", Some(9)),
        (16, b"HDR1", Some(9)),
        (16, b"X", Some(9)),
        (16, b"F", Some(8)),
        (32, b"HDR1", Some(8)),
        (16, b"D@@@", None),
    ];
    for (kind, bytes, number) in cases {
        let mut plain = base();
        plain.set_sector(9, 0, &[kind]);
        plain.set(2, 1, bytes);
        assert_eq!(refusal(&plain), number.map(|number| Refusal::at(number, 2)));
    }
}

#[test]
fn r4_1_free_counts_data_addresses_in_no_extent_whatever_their_marks() {
    let mut plain = base();
    assert_eq!(free(&plain.image), Ok(8));
    plain.put_label(2, &hdr1("TWO", 30, "02001", "02003"));
    plain.set(2, 44, b"7");
    plain.set_kind("02008", 16);
    plain.set_body("02008", b"F");
    assert_eq!(free(&plain.image), Ok(5));
}

#[test]
fn r8_1_names_are_17_bytes_of_levels_space_1_2() {
    let mut plain = base();
    let name = b"ONE              ";
    let found = find(&plain.image, name).expect("found");
    assert_eq!((found.slot, found.at), (1, 7 * 129 + 1));
    assert_eq!(found.label.as_ptr(), plain.image[found.at..].as_ptr());
    assert_eq!(found.label.len(), 128);
    for wrong in [
        &name[..16],
        b"ONE               ",
        b"",
        b"ONE@             ",
    ] {
        assert_eq!(find(&plain.image, wrong), Err(Refusal::bare(13)));
    }
    plain.set(1, 44, b"7");
    assert_eq!(find(&plain.image, name), Err(Refusal::bare(13)));
}

#[test]
fn r8_2_slots_outside_the_volume_and_deleted_ones_are_13() {
    let plain = base();
    for slot in [0, 2, 3, 4, 1 << 32, (1 << 32) + 1, u64::MAX] {
        assert_eq!(count(&plain.image, slot), Err(Refusal::bare(13)));
    }
    assert_eq!(count(&plain.image, 1), Ok(0));
}
