//! Readings 9: writing.

mod common;

use common::{read_at, record, shaped};
use compare::make::sample::Plain;
use compare::{count, judge, write, Refusal};

/// Writes bodies of the given lengths and gives the answer.
fn written(plain: &mut Plain, lengths: &[u32]) -> Result<u64, Refusal> {
    let total: u32 = lengths.iter().sum();
    write(&mut plain.image, 1, &vec![b'w'; total as usize], lengths)
}

fn unused(plain: &Plain) -> &[u8] {
    &plain.image[7 * 129 + 58..7 * 129 + 63]
}

fn data_end(plain: &Plain) -> &[u8] {
    &plain.image[7 * 129 + 75..7 * 129 + 80]
}

#[test]
fn r9_1_order_13_to_16_24_17_25_26_27() {
    let mut plain = shaped(b"F", 30, b"0010", b"B");
    let too_many = [11; 1];
    plain.set(1, 75, b"01008");
    plain.set_kind("01002", 16);
    plain.set(1, 43, b"P");
    plain.set(1, 45, b"L");
    plain.set(1, 42, b"A");
    plain.set(1, 44, b"3");
    let attempt = |plain: &mut Plain| {
        let before = plain.image.clone();
        let refused = write(&mut plain.image, 1, b"", &too_many);
        assert_eq!(plain.image, before);
        refused
    };
    assert_eq!(attempt(&mut plain), Err(Refusal::at(14, 1)));
    plain.set(1, 44, b"2");
    assert_eq!(attempt(&mut plain), Err(Refusal::at(15, 1)));
    plain.set(1, 42, b" ");
    assert_eq!(attempt(&mut plain), Err(Refusal::at(16, 1)));
    plain.set(1, 45, b" ");
    assert_eq!(attempt(&mut plain), Err(Refusal::at(24, 1)));
    plain.set(1, 43, b" ");
    assert_eq!(attempt(&mut plain), Err(Refusal::at(17, 11)));
    plain.set_kind("01002", 0);
    assert_eq!(attempt(&mut plain), Err(Refusal::bare(25)));
    assert_eq!(written(&mut plain, &[11]), Err(Refusal::at(26, 0)));
    assert_eq!(write(&mut plain.image, 2, b"", &[]), Err(Refusal::bare(13)));
}

#[test]
fn r9_1_a_file_whose_data_end_splits_a_block_may_be_written() {
    let mut plain = shaped(b"F", 256, b"0128", b"B");
    plain.set(1, 75, b"01002");
    assert_eq!(count(&plain.image, 1), Err(Refusal::at(18, 1)));
    assert_eq!(written(&mut plain, &[128]), Ok(1));
    assert_eq!(count(&plain.image, 1), Ok(1));
    assert_eq!(unused(&plain), b"00128");
}

#[test]
fn r9_2_25_is_judged_on_the_exact_sum() {
    let mut plain = shaped(b"S", 30, b"0000", b"B");
    let wrapping = [1 << 31, 1 << 31];
    assert_eq!(
        write(&mut plain.image, 1, b"", &wrapping),
        Err(Refusal::bare(25))
    );
    assert_eq!(
        write(&mut plain.image, 1, b"ab", &[u32::MAX, 3]),
        Err(Refusal::bare(25))
    );
    assert_eq!(
        write(&mut plain.image, 1, b"ab", &[1]),
        Err(Refusal::bare(25))
    );
}

#[test]
fn r9_3_26_names_the_first_record_of_a_wrong_length() {
    let mut plain = shaped(b"F", 30, b"    ", b" ");
    assert_eq!(written(&mut plain, &[30, 29, 31]), Err(Refusal::at(26, 1)));
    let mut plain = shaped(b"V", 30, b"0010", b"B");
    assert_eq!(written(&mut plain, &[6, 0, 7]), Err(Refusal::at(26, 2)));
    let mut plain = shaped(b"S", 30, b"0010", b"B");
    assert_eq!(written(&mut plain, &[10, 11]), Err(Refusal::at(26, 1)));
    let mut plain = shaped(b"S", 30, b"    ", b"B");
    assert_eq!(written(&mut plain, &[31]), Err(Refusal::at(26, 0)));
    let mut plain = shaped(b"S", 5, b"0010", b"B");
    assert_eq!(written(&mut plain, &[0, 1]), Err(Refusal::at(26, 1)));
}

#[test]
fn r9_4_27_gives_the_number_of_blocks_the_whole_list_takes() {
    let mut plain = shaped(b"F", 30, b"0010", b"B");
    assert_eq!(written(&mut plain, &[10; 24]), Ok(8));
    assert_eq!(written(&mut plain, &[10; 25]), Err(Refusal::at(27, 9)));
    assert_eq!(written(&mut plain, &[10; 100]), Err(Refusal::at(27, 34)));
    let mut plain = shaped(b"S", 20, b"0000", b"B");
    assert_eq!(written(&mut plain, &[120]), Ok(8));
    assert_eq!(written(&mut plain, &[121]), Err(Refusal::at(27, 9)));
    let mut plain = shaped(b"F", 256, b"    ", b" ");
    plain.set(1, 35, b"01007");
    assert_eq!(written(&mut plain, &[256; 4]), Err(Refusal::at(27, 4)));
}

#[test]
fn r9_5_v_blocked_fits_if_length_and_4_are_at_most_the_bytes_left() {
    let mut plain = shaped(b"V", 30, b"    ", b"B");
    assert_eq!(written(&mut plain, &[11, 11]), Ok(1));
    assert_eq!(unused(&plain), b"     ");
    assert_eq!(written(&mut plain, &[11, 12]), Ok(2));
    assert_eq!(unused(&plain), b"00014");
}

#[test]
fn r9_6_s_opens_no_block_until_a_record_needs_it() {
    let mut plain = shaped(b"S", 20, b"0000", b"B");
    assert_eq!(written(&mut plain, &[15]), Ok(1));
    assert_eq!(unused(&plain), b"     ");
    assert_eq!(written(&mut plain, &[10, 0]), Ok(1));
    assert_eq!(unused(&plain), b"     ");
    assert_eq!(written(&mut plain, &[10, 1]), Ok(2));
    assert_eq!(unused(&plain), b"00014");
    assert_eq!(written(&mut plain, &[9, 2]), Ok(2));
    assert_eq!(read_at(&plain, 0, 14), record(b"ww", 1, 6));
}

#[test]
fn r9_7_s_with_b_of_5_holds_one_empty_record_to_a_block() {
    let mut plain = shaped(b"S", 5, b"0000", b"B");
    assert_eq!(written(&mut plain, &[0, 0, 0]), Ok(3));
    assert_eq!(unused(&plain), b"     ");
    assert_eq!(read_at(&plain, 0, 5), record(b"", 1, 5));
}

#[test]
fn r9_8_u_of_f_blocked_and_of_unblocked_files() {
    let mut plain = shaped(b"F", 30, b"0010", b"B");
    assert_eq!(written(&mut plain, &[10; 4]), Ok(2));
    assert_eq!(unused(&plain), b"00020");
    let mut plain = shaped(b"V", 30, b"    ", b" ");
    assert_eq!(written(&mut plain, &[1, 2]), Ok(2));
    assert_eq!(unused(&plain), b"     ");
}

#[test]
fn r9_9_and_9_12_zero_records_set_the_data_end_to_the_start() {
    let mut plain = shaped(b"F", 30, b"0010", b"B");
    plain.set_kind("01001", 16);
    plain.set_body("01001", b"F");
    plain.set(1, 75, b"01008");
    plain.set(1, 58, b"00010");
    let before = plain.image.clone();
    assert_eq!(written(&mut plain, &[]), Ok(0));
    assert_eq!(data_end(&plain), b"01001");
    assert_eq!(unused(&plain), b"     ");
    let label = 7 * 129..8 * 129;
    let mut expected = before;
    expected[label.clone()].copy_from_slice(&plain.image[label]);
    assert_eq!(plain.image, expected);
}

#[test]
fn r9_10_data_end_is_the_next_good_record_or_the_step_past_the_end() {
    let mut plain = shaped(b"F", 30, b"    ", b" ");
    for address in ["01002", "01008"] {
        plain.set_kind(address, 16);
        plain.set_body(address, b"F");
    }
    assert_eq!(written(&mut plain, &[30]), Ok(1));
    assert_eq!(data_end(&plain), b"01003");
    assert_eq!(written(&mut plain, &[30; 6]), Ok(6));
    assert_eq!(data_end(&plain), b"02001");
    plain.set(1, 35, b"02008");
    assert_eq!(written(&mut plain, &[30; 14]), Ok(14));
    assert_eq!(data_end(&plain), b"03001");
    assert!(judge(&plain.image).is_ok());
}

#[test]
fn r9_11_written_records_are_filled_whole_and_all_others_stay() {
    let mut plain = shaped(b"F", 30, b"0010", b"B");
    let full = [0xAA; 128];
    for (address, kind) in [("01001", 32), ("01002", 16), ("01003", 0), ("01004", 32)] {
        plain.set_kind(address, kind);
        plain.set_body(address, &full);
    }
    plain.set_body("01002", b"F");
    let before = plain.image.clone();
    assert_eq!(written(&mut plain, &[10; 4]), Ok(2));
    let mut expected = before;
    for (address, used) in [("01001", 30), ("01003", 10)] {
        let at = plain.kind_at(address);
        expected[at..at + 129].fill(0);
        expected[at + 1..at + 1 + used].fill(b'w');
    }
    let label = 7 * 129;
    expected[label + 58..label + 63].copy_from_slice(b"00020");
    expected[label + 75..label + 80].copy_from_slice(b"01004");
    assert_eq!(plain.image, expected);
}
