//! Readings 6 and 7: places, plain reading, salvage and the mark.

mod common;

use common::{broken, end, gap, read_at, record, salvage_at, shaped, spanned, with_blocks};
use compare::make::sample::named;
use compare::reading::{places, Opened};
use compare::{read, salvage, Place, Reading, Refusal};

const MISSED: Refusal = Refusal {
    number: 19,
    first: 0,
    second: 0,
    third: 0,
};

#[test]
fn r6_1_and_6_2_the_place_right_behind_a_record_stays_in_its_block() {
    let plain = with_blocks(b"F", 20, b"0010", &[b"aaaaaaaaaabbbbbbbbbb", b"cccccccccc"]);
    assert_eq!(read_at(&plain, 0, 10), record(b"bbbbbbbbbb", 0, 20));
    assert_eq!(read_at(&plain, 0, 20), record(b"cccccccccc", 1, 10));
    assert_eq!(
        salvage_at(&plain, 0, 10, true),
        record(b"bbbbbbbbbb", 0, 20)
    );
}

#[test]
fn r6_3_the_end_of_a_lost_block_meets_it_in_all_formats() {
    for format in [b"F", b"V", b"S"] {
        let mut plain = with_blocks(format, 20, b"    ", &[b"", b""]);
        plain.set_kind("01001", 32);
        assert_eq!(read_at(&plain, 0, 20), Err(Refusal::at(20, 0)));
        assert_eq!(salvage_at(&plain, 0, 20, false), gap(1));
        plain.set_kind("01001", 0);
        plain.set_kind("01002", 32);
        assert_eq!(salvage_at(&plain, 0, 20, false), gap(2));
    }
}

#[test]
fn r6_4_places_not_in_the_file_are_19() {
    let mut plain = with_blocks(b"F", 20, b"0010", &[b"", b""]);
    plain.set(1, 58, b"00010");
    let missed = [
        (3, 0),
        (2, 1),
        (2, 10),
        (1, 20),
        (0, 30),
        (0, 5),
        (u64::MAX, 0),
        (1 << 63, 0),
        (1 << 32, 0),
        (0, u64::MAX),
        (0, 1 << 32),
    ];
    for (block, offset) in missed {
        assert_eq!(read_at(&plain, block, offset), Err(MISSED));
        assert_eq!(salvage_at(&plain, block, offset, true), Err(MISSED));
    }
    assert_eq!(read_at(&plain, 2, 0), end(2));
    assert_eq!(read_at(&plain, 1, 10), end(2));
    plain.set_kind("01001", 32);
    assert_eq!(read_at(&plain, 0, 5), Err(MISSED));
    assert_eq!(read_at(&plain, 0, 10), Err(Refusal::at(20, 0)));
}

#[test]
fn r6_5_any_other_offset_may_be_asked_in_v_and_s() {
    let plain = with_blocks(b"V", 20, b"    ", &[b"00100005a1"]);
    assert_eq!(read_at(&plain, 0, 0), record(b"0005a1", 0, 10));
    assert_eq!(read_at(&plain, 0, 4), record(b"a", 0, 9));
    assert_eq!(read_at(&plain, 0, 9), broken(0, 9));
    let plain = spanned(&[b"0001200007abxx"]);
    assert_eq!(read_at(&plain, 0, 5), record(b"ab", 0, 12));
}

#[test]
fn r6_6_a_place_in_s_is_a_fresh_start() {
    let plain = spanned(&[b"10007ab", b"30007cd", b"00006e"]);
    assert_eq!(read_at(&plain, 0, 0), record(b"abcd", 1, 7));
    assert_eq!(read_at(&plain, 0, 7), broken(1, 0));
    assert_eq!(read_at(&plain, 1, 0), broken(1, 0));
    assert_eq!(salvage_at(&plain, 1, 0, false), broken(1, 0));
    assert_eq!(read_at(&plain, 1, 7), record(b"e", 2, 6));
}

#[test]
fn r6_7_f_has_no_fill() {
    let plain = with_blocks(b"F", 4, b"0002", &[b"", b""]);
    assert_eq!(read_at(&plain, 0, 2), record(&[0, 0], 0, 4));
    assert_eq!(read_at(&plain, 0, 4), record(&[0, 0], 1, 2));
}

#[test]
fn r6_8_control_words_of_v_are_broken_at_their_offset() {
    let words: [&[u8]; 8] = [
        b"0003",
        b"0012aaaaaaaa",
        b"00a6",
        b" 006",
        b"0006",
        b"\x000006ab",
        b"00",
        b"0\x0007",
    ];
    for word in &words[..4] {
        let plain = with_blocks(b"V", 20, b"0011", &[b"0005a", word]);
        assert_eq!(read_at(&plain, 0, 5), broken(1, 0), "{word:?}");
    }
    for word in &words[5..] {
        let plain = with_blocks(b"V", 20, b"0011", &[b"0005a", word]);
        assert_eq!(read_at(&plain, 0, 5), broken(1, 0), "{word:?}");
    }
    let mut plain = with_blocks(b"V", 20, b"0011", &[b"0005a", words[4]]);
    plain.set(1, 58, b"00015");
    assert_eq!(read_at(&plain, 1, 0), broken(1, 0));
    plain.set(1, 58, b"00014");
    assert_eq!(read_at(&plain, 1, 0), record(&[0, 0], 1, 6));
}

#[test]
fn r6_9_unblocked_v_has_only_fill_at_offsets_above_0() {
    let mut plain = shaped(b"V", 20, b"    ", b" ");
    plain.set_body("01001", b"0005a0005b");
    plain.set_body("01002", b"0005c");
    plain.set(1, 75, b"01003");
    assert_eq!(read_at(&plain, 0, 0), record(b"a", 0, 5));
    assert_eq!(read_at(&plain, 0, 5), broken(0, 5));
    assert_eq!(read_at(&plain, 0, 10), record(b"c", 1, 5));
    assert_eq!(read_at(&plain, 1, 5), end(2));
}

#[test]
fn r6_10_faults_of_an_s_segment_the_lowest_place_first() {
    let over_and_rest: &[u8] = b"10009abcdX";
    let plain = with_blocks(b"S", 20, b"0003", &[over_and_rest, b"30006e"]);
    assert_eq!(read_at(&plain, 0, 0), broken(0, 0));
    let plain = with_blocks(b"S", 20, b"0004", &[over_and_rest, b"30006e"]);
    assert_eq!(read_at(&plain, 0, 0), broken(0, 9));
    let plain = with_blocks(b"S", 20, b"0004", &[b"10009abcd", b"30006e"]);
    assert_eq!(read_at(&plain, 0, 0), broken(1, 0));
    for word in [
        &b"40005"[..],
        b"00004",
        b"0000a",
        b"00021",
        b"/0005",
        b"0\x000005",
    ] {
        let plain = spanned(&[b"", word]);
        assert_eq!(read_at(&plain, 0, 0), broken(1, 0), "{word:?}");
    }
}

#[test]
fn r6_11_the_rest_is_judged_before_the_next_block_is_met() {
    let mut plain = spanned(&[b"10006aX", b"30006b"]);
    plain.set_kind("01002", 32);
    assert_eq!(read_at(&plain, 0, 0), broken(0, 6));
    assert_eq!(salvage_at(&plain, 0, 0, false), broken(0, 6));
    let plain = spanned(&[b"10006aX"]);
    assert_eq!(read_at(&plain, 0, 0), broken(0, 6));
}

#[test]
fn r6_12_the_rest_of_the_block_is_the_rest_of_the_content() {
    let mut plain = spanned(&[b"10006aX"]);
    plain.set(1, 58, b"00014");
    assert_eq!(read_at(&plain, 0, 0), Err(Refusal::bare(22)));
    let mut plain = spanned(&[b"20006aX"]);
    assert_eq!(salvage_at(&plain, 0, 0, true), broken(0, 6));
    plain.set(1, 58, b"00014");
    assert_eq!(salvage_at(&plain, 0, 0, true), end(1));
}

#[test]
fn r6_13_blocks_of_fill_inside_a_spanned_record_are_passed_over() {
    let plain = spanned(&[b"10006a", b"", b"20006b", b"", b"", b"30006c"]);
    assert_eq!(read_at(&plain, 0, 0), record(b"abc", 5, 6));
}

#[test]
fn r6_14_a_3_in_the_same_block_as_its_1_is_no_fill() {
    let plain = spanned(&[b"10006a30006b"]);
    assert_eq!(read_at(&plain, 0, 0), broken(0, 6));
}

#[test]
fn r6_15_22_when_the_blocks_end_midway_and_23_last() {
    let plain = spanned(&[b"10006a", b"20006b"]);
    assert_eq!(
        read(&plain.image, 1, Place::START, &mut []),
        Err(Refusal::bare(22))
    );
    let plain = spanned(&[b"10006a", b"20006b", b"30006c"]);
    let mut out = *b"xy";
    assert_eq!(
        read(&plain.image, 1, Place::START, &mut out),
        Err(Refusal::at(23, 3))
    );
    assert_eq!(&out, b"xy");
    let plain = spanned(&[b"00005"]);
    let next = Place::unmarked(0, 5);
    let empty = read(&plain.image, 1, Place::START, &mut []);
    assert_eq!(empty, Ok(Reading::Record { length: 0, next }));
}

#[test]
fn r6_15_bytes_behind_a_record_in_the_output_stay() {
    let plain = spanned(&[b"10006a", b"30006b"]);
    let mut out = *b"xyz";
    let next = Place::unmarked(1, 6);
    let given = read(&plain.image, 1, Place::START, &mut out);
    assert_eq!(given, Ok(Reading::Record { length: 2, next }));
    assert_eq!(&out, b"abz");
}

#[test]
fn r6_16_r_in_s_measures_the_sum_of_bodies_and_spaces_mean_b() {
    let long: &[&[u8]] = &[b"10015aaaaaaaaaa", b"30015bbbbbbbbbb"];
    let plain = with_blocks(b"S", 20, b"    ", long);
    assert_eq!(
        read_at(&plain, 0, 0),
        record(b"aaaaaaaaaabbbbbbbbbb", 1, 15)
    );
    let plain = with_blocks(b"S", 20, b"    ", &[long[0], b"20015bbbbbbbbbb", b"30006c"]);
    assert_eq!(read_at(&plain, 0, 0), broken(2, 0));
    let plain = with_blocks(b"S", 20, b"    ", &[long[0], b"20015bbbbbbbbbb", b"30005"]);
    assert_eq!(read_at(&plain, 0, 0), record(b"aaaaaaaaaabbbbbbbbbb", 2, 5));
}

#[test]
fn r7_1_a_gap_of_the_last_block_gives_count_0_marked_then_end() {
    for format in [b"F", b"V", b"S"] {
        let mut plain = with_blocks(format, 20, b"    ", &[b"", b""]);
        plain.set_kind("01002", 32);
        assert_eq!(salvage_at(&plain, 1, 0, false), gap(2));
        assert_eq!(salvage_at(&plain, 2, 0, true), end(2));
    }
}

#[test]
fn r7_2_midway_in_a_spanned_record_one_gap_for_the_lost_block() {
    let mut plain = spanned(&[b"00006x10006a", b"", b"30006b00006y"]);
    assert_eq!(salvage_at(&plain, 0, 6, false), record(b"ab", 2, 6));
    plain.set_kind("01002", 32);
    assert_eq!(salvage_at(&plain, 0, 6, false), gap(2));
    assert_eq!(salvage_at(&plain, 2, 0, true), record(b"y", 2, 12));
    assert_eq!(read_at(&plain, 0, 6), Err(Refusal::at(20, 1)));
}

#[test]
fn r7_3_the_mark_counts_at_offset_0_in_s_and_salvage_only() {
    let plain = spanned(&[b"00020abcdefghijklmno", b"30006b00006y"]);
    assert_eq!(salvage_at(&plain, 0, 20, true), broken(1, 0));
    assert_eq!(salvage_at(&plain, 1, 0, true), record(b"y", 1, 12));
    assert_eq!(salvage_at(&plain, 1, 0, false), broken(1, 0));
    let mut out = [0; 9];
    let marked = Place {
        block: 1,
        offset: 0,
        mark: true,
    };
    let given = read(&plain.image, 1, marked, &mut out);
    assert_eq!(given, Err(Refusal::at_two(21, 1, 0)));
}

#[test]
fn r7_4_a_dropped_2_is_unmeasured_but_its_header_and_rest_are_judged() {
    let plain = with_blocks(b"S", 20, b"0002", &[b"20010abcde", b"30010abcde00006y"]);
    assert_eq!(salvage_at(&plain, 0, 0, true), record(b"y", 1, 16));
    let plain = spanned(&[b"20010abcdeX"]);
    assert_eq!(salvage_at(&plain, 0, 0, true), broken(0, 10));
    let plain = spanned(&[b"20004"]);
    assert_eq!(salvage_at(&plain, 0, 0, true), broken(0, 0));
}

#[test]
fn r7_5_after_a_dropped_2_the_mark_stays_and_0_to_3_may_come() {
    for (next, expected) in [
        (&b"00006y"[..], record(b"y", 1, 6)),
        (b"20006y", end(2)),
        (b"30006y", end(2)),
        (b"10006y", Err(Refusal::bare(22))),
    ] {
        let plain = spanned(&[b"20006a", next]);
        assert_eq!(salvage_at(&plain, 0, 0, true), expected);
    }
}

#[test]
fn r7_6_after_a_dropped_3_only_0_or_1_may_follow() {
    let plain = spanned(&[b"30006a30006b"]);
    assert_eq!(salvage_at(&plain, 0, 0, true), broken(0, 6));
    let plain = spanned(&[b"30006a", b"20006b"]);
    assert_eq!(salvage_at(&plain, 0, 0, true), broken(1, 0));
    let plain = spanned(&[b"30006a10006b", b"30006c"]);
    assert_eq!(salvage_at(&plain, 0, 0, true), record(b"bc", 1, 6));
}

#[test]
fn r7_7_end_after_dropped_segments_is_end() {
    let plain = spanned(&[b"20006a", b"20006b"]);
    assert_eq!(salvage_at(&plain, 0, 0, true), end(2));
}

#[test]
fn r7_8_a_block_of_fill_keeps_the_mark() {
    let plain = spanned(&[b"", b"", b"30006a00006y"]);
    assert_eq!(salvage_at(&plain, 0, 0, true), record(b"y", 2, 12));
    assert_eq!(salvage_at(&plain, 0, 0, false), broken(2, 0));
}

#[test]
fn r7_9_a_1_at_a_marked_place_begins_a_record() {
    let plain = spanned(&[b"10006a", b"00006b"]);
    assert_eq!(salvage_at(&plain, 0, 0, true), broken(1, 0));
    let plain = spanned(&[b"10006a"]);
    assert_eq!(salvage_at(&plain, 0, 0, true), Err(Refusal::bare(22)));
}

#[test]
fn r7_10_the_size_of_the_output_plays_no_part_in_gap_and_end() {
    let mut plain = spanned(&[b"00006a"]);
    plain.set_kind("01001", 32);
    let given = compare::salvage(&plain.image, 1, Place::START, &mut []);
    assert_eq!(given, gap(1).map(|found| found.0));
    let given = compare::salvage(&plain.image, 1, Place::unmarked(1, 0), &mut []);
    assert_eq!(given, end(1).map(|found| found.0));
}

#[test]
fn r7_11_21_in_salvage_is_a_refusal() {
    let plain = spanned(&[b"X0006a", b"00006y"]);
    assert_eq!(salvage_at(&plain, 0, 0, true), broken(0, 0));
}

/// Asked for every place that reading leads to, and some that are not in the
/// file, a file opened once answers as the calls that open it anew.
#[test]
fn a_file_opened_once_answers_the_same() {
    for name in [
        "F-100",
        "V-100",
        "S-100",
        "F-100-lost",
        "S-100-lost",
        "F-100-defect",
        "V-100-defect",
        "S-100-defect",
    ] {
        let image = named(name).expect("a sample");
        let opened = Opened::open(&image, 1).expect("a file");
        for salvaging in [false, true] {
            let call = if salvaging { salvage } else { read };
            let mut asked = places(&image, 1, salvaging);
            let answers = opened.answers(salvaging, &mut [0; 4_000], 1 << 20);
            assert_eq!((answers, name), (asked.len() as u64 - 1, name));
            asked.extend(
                [(0, 3), (5, 1_281), (20, 0), (u64::MAX, 0)]
                    .map(|(block, offset)| Place::unmarked(block, offset)),
            );
            for place in asked {
                let (mut once, mut anew) = ([0; 4_000], [0; 4_000]);
                let answer = opened.at(place, salvaging, &mut once);
                assert_eq!(
                    answer,
                    call(&image, 1, place, &mut anew),
                    "{name} {place:?}"
                );
                assert_eq!(once, anew);
            }
        }
    }
}
