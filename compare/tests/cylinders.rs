//! Request 2026-03: the two comparisons of document 01 against the walk that
//! counts good cylinders, for every cylinder and pair of defects; and the
//! cases counted out, which tell each wrong skip from the right one.

use compare::drive::outcome_of;
use compare::make::cylinders::{all, asked, fives};
use compare::make::defects::{self, pairs, Pair};
use compare::make::sample::named;
use compare::packed::{self, code, geometry_of, physical};
use compare::session::Session;
use compare::skips::{said, Skip, WRONG};
use compare::walked::{addresses, cylinders};
use compare::{answer, judge, Answer, Call, Geometry};
use std::collections::{BTreeMap, BTreeSet};

fn geometry(l: usize, pair: Pair) -> Geometry {
    defects::small(l, 1, pair)
}

/// Every L with every pair of defects that ERMAP lets pass.
fn volumes() -> impl Iterator<Item = Geometry> {
    (1..=96).flat_map(|l| pairs(l).map(move |pair| geometry(l, pair)))
}

/// "What it answers stays the same for every cylinder and pair of defects";
/// reading 03.3 has no upper bound.
#[test]
fn the_comparisons_are_the_walk_for_every_cylinder_and_pair() {
    let mut compared = 0;
    for volume in volumes() {
        let most = volume.l + 4;
        let walk = cylinders(volume.d1, volume.d2, most);
        let judged = packed::judged(&Ok(volume));
        for (c, &right) in (1..).zip(&walk) {
            assert_eq!(volume.physical_cylinder(c), right, "{volume:?}, {c}");
            // The call answers 0 behind L.
            let given = if c <= volume.l { right } else { 0 };
            assert_eq!(physical(judged, c as u64), given as u64);
        }
        assert_eq!(physical(judged, 0), 0);
        compared += walk.len();
    }
    assert_eq!(compared, COMPARED);
}

/// For each L, 1 + L + L(L+1)/2 pairs with L + 4 cylinders.
const COMPARED: usize = 11_920_520;

#[test]
fn a_cylinder_far_behind_the_last_is_moved_by_as_many_as_are_defective() {
    for (pair, moved) in [
        ((None, None), 0),
        ((Some(3), None), 1),
        ((Some(3), Some(9)), 2),
    ] {
        let walk = cylinders(pair.0, pair.1, 3_000);
        assert_eq!(walk[2_999], 3_000 + moved);
        assert_eq!(geometry(9, pair).physical_cylinder(3_000), 3_000 + moved);
    }
}

#[test]
fn the_physical_cylinders_of_a_volume_are_the_good_ones_from_1_on() {
    for volume in volumes() {
        let given: Vec<usize> = (1..=volume.l)
            .map(|c| volume.physical_cylinder(c))
            .collect();
        assert!(given.windows(2).all(|two| two[0] < two[1]));
        let last = given[volume.l - 1];
        assert!(last <= volume.l + 2);
        let defective = |physical: &usize| [volume.d1, volume.d2].contains(&Some(*physical));
        assert!(!given.iter().any(defective));
        let good: Vec<usize> = (1..=last).filter(|p| !defective(p)).collect();
        assert_eq!(given, good);
    }
}

#[test]
fn there_are_as_many_pairs_as_ermap_lets_pass() {
    for l in 1..=96 {
        assert_eq!(pairs(l).count(), 1 + l + l * (l + 1) / 2);
    }
    assert_eq!(pairs(5).count(), 21);
}

#[test]
fn examples_4_and_5_by_the_walk_and_by_the_comparisons() {
    for (pair, rows) in [
        ((Some(10), Some(11)), [(9, 9), (10, 12)]),
        ((Some(73), Some(74)), [(72, 72), (73, 75)]),
    ] {
        for (c, right) in rows {
            assert_eq!(geometry(73, pair).physical_cylinder(c), right);
            assert_eq!(cylinders(pair.0, pair.1, c)[c - 1], right);
        }
    }
}

/// Reading 03.4: "The two ways do part elsewhere, and no accepted volume gets
/// there".
#[test]
fn the_two_ways_part_where_d1_is_d2() {
    let pair = (Some(5), Some(5));
    assert_eq!(cylinders(pair.0, pair.1, 5)[4], 6);
    assert_eq!(geometry(9, pair).physical_cylinder(5), 7);
    assert!(!pairs(9).any(|legal| legal == pair));
}

#[test]
fn every_wrong_skip_is_told_from_the_walk_by_some_legal_pair() {
    for (name, skip) in WRONG {
        let tells = |volume: &Geometry| {
            let walk = cylinders(volume.d1, volume.d2, volume.l);
            let parts = |(c, right): (usize, &usize)| skip(volume.d1, volume.d2, c) != *right;
            (1..).zip(&walk).any(parts)
        };
        let found = pairs(5).filter(|pair| tells(&geometry(5, *pair))).count();
        assert!(found > 0, "{name}");
    }
}

/// They stand in for a program: no two cylinders on one, none outside.
#[test]
fn every_wrong_skip_stays_in_the_image_and_keeps_cylinders_apart() {
    for (name, skip) in WRONG {
        for volume in volumes() {
            let given = (1..=volume.l).map(|c| skip(volume.d1, volume.d2, c));
            let given: Vec<usize> = given.collect();
            assert!(given.windows(2).all(|two| two[0] < two[1]), "{name}");
            assert!(given[volume.l - 1] <= volume.l + 3, "{name}");
        }
    }
}

#[test]
fn every_case_is_answered_as_told() {
    let mut families: BTreeMap<&str, usize> = BTreeMap::new();
    for (case, right) in all() {
        let given = answer(&case.image, &case.call);
        assert!(given == right, "{} {:?}", case.family, case.call);
        *families.entry(case.family).or_default() += 1;
    }
    let counts = families.into_iter().collect::<Vec<_>>();
    assert_eq!(counts, COUNTS);
}

/// 12,386 in all.
const COUNTS: [(&str, usize); 9] = [
    ("cylinders-blocks", 1_120),
    ("cylinders-create", 683),
    ("cylinders-ermap", 361),
    ("cylinders-extreme", 2_757),
    ("cylinders-lost", 1_848),
    ("cylinders-physical", 2_457),
    ("cylinders-read", 2_026),
    ("cylinders-refused", 480),
    ("cylinders-write", 654),
];

#[test]
fn exactly_the_21_pairs_of_five_cylinders_are_accepted() {
    let of_ermap = all().filter(|(case, _)| case.family == "cylinders-ermap");
    let accepted: Vec<Pair> = of_ermap
        .filter_map(|(case, _)| judge(&case.image).ok())
        .map(|geometry| (geometry.d1, geometry.d2))
        .collect();
    assert_eq!(accepted.len(), 21);
    let legal: BTreeSet<Pair> = pairs(5).collect();
    assert_eq!(accepted.into_iter().collect::<BTreeSet<Pair>>(), legal);
}

/// The told answers alone, without this program's own skip: by each sort of
/// call that goes to a cylinder some case tells each wrong skip.
#[test]
fn every_wrong_skip_is_found_by_what_is_told() {
    for (name, skip) in WRONG {
        let found = found_in(skip);
        for call in ["physical", "read", "salvage", "write"] {
            assert!(found.contains(call), "{name}: {call}");
        }
    }
}

fn found_in(skip: Skip) -> BTreeSet<&'static str> {
    let told = all().filter_map(|(case, right)| {
        let right = outcome_of(&case.image, &case.call, right)?;
        let is = said(skip, &case.image, &case.call)?;
        (is != right).then(|| case.call.name())
    });
    told.collect()
}

/// And each is found through the pipe by the stage of `driven`.
#[test]
fn every_wrong_skip_that_is_served_is_found() {
    for (name, _) in WRONG {
        let command = [env!("CARGO_BIN_EXE_compare"), "serve", "--skip", name];
        let mut session = Session::start(&command.map(str::to_string), 1).expect("a driver");
        let run = session.compare_answered(all().step_by(7));
        assert!(run.is_ok(), "{name}");
        let (passed, failed) = session.tally();
        assert!(failed > 20 && passed > failed, "{name}: {passed}, {failed}");
    }
}

fn served() -> Session {
    let command = [env!("CARGO_BIN_EXE_compare"), "serve"];
    Session::start(&command.map(str::to_string), 1).expect("a driver")
}

/// Both programs alike and another answer told: so a fault that they share is
/// found, in the number, in the image and in the output.
#[test]
fn a_fault_that_both_programs_share_is_found_in_every_part_of_an_answer() {
    let spoilt: [fn(&mut Answer); 3] = [
        |right| right.packed ^= 1,
        |right| right.image[1] ^= 1,
        |right| right.out.iter_mut().for_each(|byte| *byte ^= 1),
    ];
    let some = || all().step_by(101);
    let mut session = served();
    session.compare_answered(some()).expect("answers");
    assert_eq!(session.tally(), (some().count(), 0));
    for spoil in spoilt {
        let mut session = served();
        let wrong = some().map(|(case, mut right)| {
            spoil(&mut right);
            (case, right)
        });
        let told = some().filter(|(_, right)| {
            let mut wrong = right.clone();
            spoil(&mut wrong);
            wrong != *right
        });
        session.compare_answered(wrong).expect("answers");
        assert_eq!(session.tally(), (some().count(), told.count()));
    }
}

type Wrong = (&'static str, fn(u64, u64) -> u64);

/// Wrong ways of asking the number of a judgement for a cylinder.
const ASKED_WRONGLY: [Wrong; 7] = [
    ("no bound above", |judged, c| skipped(judged, c, u64::MAX)),
    ("one too many", |judged, c| {
        skipped(judged, c, (judged & 255) + 1)
    }),
    ("one too few", |judged, c| {
        skipped(judged, c, (judged & 255).max(1) - 1)
    }),
    ("a refusal taken for a volume", |judged, c| {
        physical(judged & 0xFF_FFFF_FFFF_FFFF, c)
    }),
    ("8 bits of the cylinder", |judged, c| {
        physical(judged, c & 0xFF)
    }),
    ("16 bits of the cylinder", |judged, c| {
        physical(judged, c & 0xFFFF)
    }),
    ("32 bits of the cylinder", |judged, c| {
        physical(judged, c & 0xFFFF_FFFF)
    }),
];

/// The right skip for cylinders from 1 to a bound.
fn skipped(judged: u64, cylinder: u64, most: u64) -> u64 {
    match geometry_of(judged) {
        Some(geometry) if (1..=most).contains(&cylinder) => {
            let near = geometry.physical_cylinder(cylinder.min(1_000) as usize) as u64;
            cylinder.wrapping_add(near.wrapping_sub(cylinder.min(1_000)))
        }
        _ => 0,
    }
}

#[test]
fn every_wrong_way_of_asking_for_a_cylinder_is_found_by_what_is_told() {
    for (name, wrong) in ASKED_WRONGLY {
        let found = all().any(|(case, right)| match case.call {
            Call::Physical { cylinder } => {
                let judged = answer(&case.image, &Call::Judge).packed;
                wrong(judged, cylinder) != right.packed
            }
            _ => false,
        });
        assert!(found, "{name}");
    }
}

#[test]
fn a_physical_cylinder_is_a_small_number_and_changes_no_byte() {
    for (geometry, _) in fives().take(9) {
        let image = defects::with_file(&geometry, 0, 1).image;
        for cylinder in asked(5) {
            let given = answer(&image, &Call::Physical { cylinder });
            assert!(given.packed <= 7 && code(given.packed) == 0);
            assert_eq!((given.image, given.out), (image.clone(), Vec::new()));
        }
    }
}

#[test]
fn every_sector_of_a_sample_names_its_own_cylinder() {
    let image = named("defects-73-73-74").expect("a sample");
    let geometry = judge(&image).expect("accepted");
    assert_eq!((geometry.l, geometry.i, geometry.d), (73, 8, 2));
    assert_eq!((geometry.p(), geometry.s), (128, 1));
    assert_eq!((geometry.d1, geometry.d2), (Some(73), Some(74)));
    let sectors = image[8 * 129..].chunks(129);
    for (number, sector) in sectors.enumerate() {
        let text = format!("{:02} PHYSICAL CYLINDER, SIDE 0, ", number / 2 + 1);
        assert!(sector[1..].starts_with(text.as_bytes()));
        assert!(sector[65..].starts_with(text.as_bytes()));
    }
    let last = addresses(&geometry)[145].1;
    assert!(image[last + 1..].starts_with(b"75 "));
    assert_eq!(compare::count(&image, 1), Ok(146));
}

#[test]
fn a_name_whose_numbers_no_volume_can_have_is_no_sample() {
    for name in [
        "defects-5-2-3",
        "defects-5-5-6",
        "defects-1-1-2",
        "defects-96-0-0",
    ] {
        assert!(named(name).is_some_and(|image| judge(&image).is_ok()));
    }
    for name in [
        "defects-0-0-0",
        "defects-97-0-0",
        "defects-5-6-0",
        "defects-5-0-2",
        "defects-5-3-3",
        "defects-5-3-2",
        "defects-5-5-7",
        "defects-5-2",
        "defects-5-2-3-4",
        "defects-05-2-3",
        "defects-5-+2-3",
        "defects-5--2-3",
        "defects",
    ] {
        assert_eq!(named(name), None, "{name}");
    }
}
