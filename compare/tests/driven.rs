//! The comparisons themselves: they find nothing where nothing is wrong, and
//! find what is wrong.

use std::process::{Command, Output};

fn run(program: &str, words: &[&str]) -> Output {
    Command::new(program)
        .args(words)
        .output()
        .expect("the program starts")
}

fn text(output: &Output) -> String {
    String::from_utf8_lossy(&output.stdout).into_owned()
}

const DRIVEN: &str = env!("CARGO_BIN_EXE_driven");
const LISTED: &str = env!("CARGO_BIN_EXE_listed");
const REPLAYED: &str = env!("CARGO_BIN_EXE_replayed");
const COMPARE: &str = env!("CARGO_BIN_EXE_compare");

fn driven(words: &[&str]) -> Output {
    let few = ["--count", "250", "--every", "500", "--"];
    run(DRIVEN, &[&few[..], words].concat())
}

#[test]
fn the_program_itself_behind_a_pipe_differs_nowhere() {
    let output = driven(&[COMPARE, "serve"]);
    assert!(output.status.success());
    let text = text(&output);
    assert!(text.ends_with(" passed, 0 failed\n"));
    assert!(!text.contains("DIFFERENT"));
    for stage in [
        "version",
        "cylinders",
        "followed",
        "salvaged",
        "broken",
        "segments",
        "places",
        "large",
        "lengths",
        "extents",
        "shapes",
        "rewritten",
        "unwritten",
        "written large",
        "created",
        "uncreated",
        "chains",
    ] {
        let line = text
            .lines()
            .find(|line| line.starts_with(&format!("{stage}: ")) && line.contains(" alike"));
        assert!(line.is_some_and(|line| line.ends_with(" alike, 0 different")));
    }
}

#[test]
fn what_is_never_reached_is_a_failure() {
    let few = ["--count", "20", "--every", "100000", "--", COMPARE, "serve"];
    let output = run(DRIVEN, &few);
    assert_eq!(output.status.code(), Some(1));
    let text = text(&output);
    assert!(text.contains("\nnever reached: refusals: 19\n"));
    assert!(text.contains("\nnever reached: chains: created until 28\n"));
    assert!(!text.contains("DIFFERENT"));
}

#[test]
fn every_wrong_answer_is_found_and_told() {
    let output = driven(&[COMPARE, "serve", "--wrong", "1000"]);
    assert_eq!(output.status.code(), Some(1));
    let text = text(&output);
    assert_eq!(text.matches("DIFFERENT: seed 28081, ").count(), 10);
    assert!(text.contains("; the image changed; byte 0 of the image is "));
    assert!(text.contains("; bytes that were not lent changed\n"));
    assert!(text.contains("; the header takes it apart wrongly\n"));
    let tally = text.lines().last().expect("a tally");
    let numbers: Vec<usize> = tally.split(' ').filter_map(|w| w.parse().ok()).collect();
    assert_eq!(numbers[1], (numbers[0] + numbers[1]) / 1000);
}

#[test]
fn a_driver_that_ends_early_is_a_failure() {
    let output = driven(&["true"]);
    assert_eq!(output.status.code(), Some(1));
    assert!(text(&output).ends_with("0 passed, 1 failed\n"));
    assert_eq!(driven(&[]).status.code(), Some(1));
    assert_eq!(
        run(DRIVEN, &["--seed", "x", "--", "true"]).status.code(),
        Some(2)
    );
}

#[test]
fn the_listing_is_compared_byte_for_byte() {
    let right = run(LISTED, &["--count", "20", "--", COMPARE, "listing"]);
    assert!(right.status.success());
    assert!(text(&right).ends_with("76 passed, 0 failed\n"));
    let wrong = run(LISTED, &["--count", "20", "--", COMPARE, "--help"]);
    assert_eq!(wrong.status.code(), Some(1));
    assert!(text(&wrong).ends_with("0 passed, 76 failed\n"));
    assert_eq!(run(LISTED, &["--count"]).status.code(), Some(2));
}

#[test]
fn what_is_too_long_for_the_listing_is_said() {
    let longer = ["--count", "0", "--most", "100000", "--", COMPARE, "listing"];
    assert!(text(&run(LISTED, &longer)).ends_with("56 passed, 0 failed\n"));
    let all = [
        "--count", "0", "--most", "6000000", "--", COMPARE, "listing",
    ];
    assert!(text(&run(LISTED, &all)).ends_with("52 passed, 4 failed\n"));
}

#[test]
fn the_kept_inputs_reach_every_refusal_and_find_what_is_wrong() {
    let kept = ["fuzz/seeds.txt", "--", COMPARE, "serve"];
    let right = run(REPLAYED, &kept);
    assert!(right.status.success());
    assert!(text(&right).ends_with(" passed, 0 failed\n"));
    let wrong = run(REPLAYED, &[&kept[..], &["--wrong", "1000"]].concat());
    assert_eq!(wrong.status.code(), Some(1));
    assert!(text(&wrong).contains("\ndifferent: "));
    assert_eq!(run(REPLAYED, &["fuzz/seeds.txt"]).status.code(), Some(2));
}
