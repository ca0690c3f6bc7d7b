//! Readings 5 and 10: extents, blocks, counts, listing.

mod common;

use common::{base, gap, read_at, refusal, salvage_at, shaped, with_blocks};
use compare::make::sample::{hdr1, Plain};
use compare::{count, listing, Refusal};

/// A blocked fixed file of B = 256 on records of 128: m = 2.
fn pairs() -> Plain {
    shaped(b"F", 256, b"0128", b"B")
}

fn defective(plain: &mut Plain, address: &str) {
    plain.set_kind(address, 16);
    plain.set_body(address, b"F");
}

#[test]
fn r5_1_17_names_the_ordinal_in_the_image() {
    let mut plain = base();
    plain.set_kind("01003", 16);
    plain.set_body("01003", b"D");
    plain.set_kind("01005", 16);
    assert_eq!(count(&plain.image, 1), Err(Refusal::at(17, 12)));
    plain.set_sector(5, 7, b"010");
    assert_eq!(count(&plain.image, 1), Ok(0));
    plain.image[plain.geometry.kind_at(10 + 8 + 2)] = 16;
    assert_eq!(count(&plain.image, 1), Err(Refusal::at(17, 20)));
}

#[test]
fn r5_2_17_is_given_behind_the_data_end_too() {
    let mut plain = base();
    plain.set_kind("01008", 16);
    assert_eq!(count(&plain.image, 1), Err(Refusal::at(17, 17)));
    plain.set_body("01008", b"F");
    assert_eq!(count(&plain.image, 1), Ok(0));
}

#[test]
fn r5_3_defective_records_at_the_data_end_change_nothing() {
    let mut plain = pairs();
    for address in ["01001", "01004", "01006"] {
        defective(&mut plain, address);
    }
    plain.set(1, 75, b"01002");
    assert_eq!(count(&plain.image, 1), Ok(0));
    for end in [b"01004", b"01005"] {
        plain.set(1, 75, end);
        assert_eq!(count(&plain.image, 1), Ok(1));
    }
}

#[test]
fn r5_4_a_data_end_in_the_extent_that_splits_a_block_is_18() {
    let mut plain = pairs();
    plain.set(1, 75, b"01008");
    assert_eq!(count(&plain.image, 1), Err(Refusal::at(18, 1)));
    plain.set(1, 75, b"01007");
    assert_eq!(count(&plain.image, 1), Ok(3));
    plain.set(1, 35, b"01007");
    assert_eq!(count(&plain.image, 1), Ok(3));
    for beyond in [b"01008", b"02005", b"03001"] {
        plain.set(1, 75, beyond);
        assert_eq!(count(&plain.image, 1), Ok(3));
    }
}

#[test]
fn r5_5_u_above_0_with_0_blocks_is_18_whichever_way_the_0_came_about() {
    let mut plain = pairs();
    plain.set(1, 58, b"00128");
    assert_eq!(count(&plain.image, 1), Err(Refusal::at(18, 1)));
    defective(&mut plain, "01001");
    plain.set(1, 75, b"01002");
    assert_eq!(count(&plain.image, 1), Err(Refusal::at(18, 1)));
    plain.set(1, 35, b"01002");
    plain.set(1, 75, b"01003");
    assert_eq!(count(&plain.image, 1), Err(Refusal::at(18, 1)));
    plain.set(1, 58, b"     ");
    assert_eq!(count(&plain.image, 1), Ok(0));
}

#[test]
fn r5_6_bytes_behind_the_content_are_not_judged() {
    let mut plain = with_blocks(b"V", 20, b"    ", &[b"0006ab\0\0\0\0XXXXXXXXXX"]);
    assert_eq!(read_at(&plain, 0, 6), common::broken(0, 6));
    plain.set(1, 58, b"00010");
    assert_eq!(read_at(&plain, 0, 6), common::end(1));
}

#[test]
fn r5_7_a_block_is_lost_by_any_check_failed_record_of_its_m() {
    let mut plain = pairs();
    plain.set(1, 75, b"01005");
    plain.set(1, 58, b"00128");
    plain.set_kind("01004", 32);
    assert_eq!(read_at(&plain, 1, 0), Err(Refusal::at(20, 1)));
    assert_eq!(salvage_at(&plain, 1, 0, false), gap(2));
}

#[test]
fn r5_8_count_needs_only_13_14_17_18() {
    let mut plain = base();
    plain.set(1, 42, b"X");
    plain.set(1, 45, b"C");
    assert_eq!(count(&plain.image, 1), Ok(0));
    assert_eq!(read_at(&plain, 9, 9), Err(Refusal::at(15, 1)));
    plain.set(1, 42, b" ");
    assert_eq!(read_at(&plain, 9, 9), Err(Refusal::at(16, 1)));
    plain.set(1, 44, b"5");
    assert_eq!(count(&plain.image, 1), Err(Refusal::at(14, 1)));
}

fn lines(plain: &Plain) -> Vec<String> {
    let text = String::from_utf8(listing(&plain.image)).expect("text");
    assert!(text.ends_with('\n'));
    text.lines().map(str::to_string).collect()
}

#[test]
fn r10_1_refused_prints_each_place_of_the_table() {
    let mut plain = base();
    plain.put_label(2, &hdr1("TWO", 30, "01008", "01008"));
    assert_eq!(lines(&plain), ["REFUSED 11 2"]);
    plain.set(2, 64, b"X");
    assert_eq!(lines(&plain), ["REFUSED 10 2 64"]);
    plain.image.pop();
    assert_eq!(lines(&plain), ["REFUSED 5 0"]);
    plain.image.truncate(0);
    assert_eq!(lines(&plain), ["REFUSED 1 0"]);
}

#[test]
fn r10_2_names_keep_their_trailing_spaces() {
    let mut plain = base();
    plain.set_sector(7, 5, b"AB    ");
    let lines = lines(&plain);
    assert_eq!(lines[0], "VOLUME AB     L=2 I=10 D=8 P=128 S=1 FREE=8");
    assert_eq!(lines[1], "1|ONE              |.|F|-|30|30|01001|01008|0|0");
}

#[test]
fn r10_3_r_as_spaces_prints_b_and_0000_prints_0() {
    let shown = lines(&shaped(b"S", 30, b"0000", b"B"));
    assert_eq!(shown[1], "1|ONE              |2|S|B|30|0|01001|01008|0|0");
    let shown = lines(&shaped(b"S", 30, b"    ", b"B"));
    assert_eq!(shown[1], "1|ONE              |2|S|B|30|30|01001|01008|0|0");
}

#[test]
fn r10_4_to_10_6_another_level_refused_counts_and_deleted_slots() {
    let mut plain = pairs();
    plain.set(1, 75, b"01002");
    plain.set(1, 58, b"00128");
    plain.put_label(3, &hdr1("THREE", 30, "02001", "02008"));
    plain.set(3, 44, b"_");
    assert_eq!(refusal(&plain), None);
    let shown = lines(&plain);
    assert_eq!(
        shown[1],
        "1|ONE              |2|F|B|256|128|01001|01008|!18|128"
    );
    assert_eq!(shown[2], "3|?|_|?|?|?|?|02001|02008|?|?");
    assert_eq!(shown.len(), 3);
    plain.set_kind("01008", 16);
    assert!(lines(&plain)[1].ends_with("|!17|128"));
}
