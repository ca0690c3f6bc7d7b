//! The command line.

use std::io::Write;
use std::process::{Command, Output, Stdio};

fn run(arguments: &[&str], input: &[u8]) -> Output {
    let mut child = Command::new(env!("CARGO_BIN_EXE_compare"))
        .args(arguments)
        .stdin(Stdio::piped())
        .stdout(Stdio::piped())
        .stderr(Stdio::piped())
        .spawn()
        .expect("the program starts");
    // The program stops reading behind 65,537 bytes, so a longer input may
    // find the pipe closed.
    let mut lent = child.stdin.take().expect("an input");
    let _ = lent.write_all(input);
    drop(lent);
    child.wait_with_output().expect("the program ends")
}

#[test]
fn a_sample_is_listed_from_standard_input() {
    let image = run(&["sample", "demo"], b"").stdout;
    assert_eq!(image, compare::make::sample());
    let listed = run(&["listing"], &image);
    assert!(listed.status.success());
    assert_eq!(listed.stdout, compare::listing(&image));
}

#[test]
fn input_above_65536_bytes_is_too_long() {
    assert_eq!(run(&["listing"], &[0; 65_536]).stdout, b"REFUSED 3 1\n");
    assert_eq!(run(&["listing"], &[0; 65_537]).stdout, b"TOO LONG\n");
    assert_eq!(run(&["listing"], &vec![0; 200_000]).stdout, b"TOO LONG\n");
}

#[test]
fn a_drawn_case_is_the_one_of_its_number() {
    let drawn = run(&["drawn", "7"], b"").stdout;
    let case = compare::make::case(compare::options::SEED, 7, 70_000);
    assert_eq!(drawn, case.image);
    assert_eq!(run(&["drawn", "x"], b"").status.code(), Some(2));
}

#[test]
fn cover_fails_where_something_is_never_reached() {
    assert_eq!(run(&["cover", "--count", "10"], b"").status.code(), Some(1));
    assert_eq!(run(&["cover", "--seed", "3"], b"").status.code(), Some(0));
}

#[test]
fn check_prints_a_count_per_property() {
    let checked = run(&["check", "--seed", "9", "--count", "200"], b"");
    assert!(checked.status.success());
    let text = String::from_utf8(checked.stdout).expect("text");
    assert_eq!(text.lines().count(), 15);
    assert!(text.lines().all(|line| line.ends_with(" 200")));
}

#[test]
fn a_walk_tells_the_places_that_reading_leads_to() {
    let sound = run(&["sample", "F-10"], b"").stdout;
    let walk = run(&["walk", "read", "40"], &sound).stdout;
    let text = String::from_utf8(walk).expect("text");
    assert!(text.starts_with("33\n0 0 0\n0 80 0\n"));
    assert!(text.ends_with("\n1 1200 0\n1 1280 0\n"));
    assert_eq!(text.lines().count(), 34);
    // Of 33 places every fifth.
    let some = run(&["walk", "read", "7"], &sound).stdout;
    assert!(some.starts_with(b"33\n0 0 0\n0 400 0\n"));
    let lost = run(&["sample", "F-10-lost"], b"").stdout;
    let walk = run(&["walk", "salvage", "40"], &lost).stdout;
    assert!(walk.starts_with(b"18\n"));
    assert!(walk.ends_with(b"\n0 1280 0\n2 0 1\n"));
}

#[test]
fn a_file_gives_answers_and_bytes() {
    let given = |name: &str, call: &str| {
        let image = run(&["sample", name], b"").stdout;
        String::from_utf8(run(&["given", call], &image).stdout).expect("text")
    };
    // Two blocks of 1,280 bytes; one, and a gap; one, of nine good records.
    assert_eq!(given("F-10", "read"), "32 2560\n");
    assert_eq!(given("F-10-lost", "salvage"), "17 1280\n");
    assert_eq!(given("F-10-defect", "read"), "16 1280\n");
}

#[test]
fn a_list_to_be_written_fills_its_file() {
    for (name, records, blocks) in [
        ("write-F-10", 32, 2),
        ("write-F-10-short", 640, 2),
        ("write-F-10-defect", 16, 1),
        ("write-S-100-short", 3_399, 20),
    ] {
        let mut image = run(&["sample", name], b"").stdout;
        let bodies = run(&["bodies", name], b"").stdout;
        let text = String::from_utf8(run(&["lengths", name], b"").stdout).expect("text");
        let lengths: Vec<u32> = text.lines().filter_map(|line| line.parse().ok()).collect();
        assert_eq!(lengths.len(), records);
        let written = compare::write(&mut image, 1, &bodies, &lengths);
        assert_eq!(written, Ok(blocks));
    }
}

#[test]
fn help_is_printed_and_misuse_is_2() {
    assert!(run(&["--help"], b"").status.success());
    for wrong in [
        &["sample", "none"][..],
        &[],
        &["cover", "--seed"],
        &["check", "--count", "x"],
        &["sample", "F-11"],
        &["sample", "F-10-found"],
        &["walk", "read", "0"],
        &["bodies", "F-10"],
        &["lengths", "write-F-10-long"],
        &["sample", "write-X-10"],
        &["sample", "defects-5-6-0"],
        &["serve", "--skip", "none"],
    ] {
        assert_eq!(run(wrong, b"").status.code(), Some(2));
    }
}
