//! The case maker, its cover, the properties, and inputs of any kind.

use compare::cover::cover;
use compare::make::create_cases;
use compare::make::rng::Rng;
use compare::make::sample::{named, NAMES, OTHER_NAMES};
use compare::make::{case, cases, counted, placings, sample, sizes, Case, FAMILIES, LEAST};
use compare::packed::{code, geometry_of, reading_of, refusal, refusal_of};
use compare::properties::{check, lent_bytes_stay};
use compare::{answer, count, judge, read, Call, Geometry, Place, Reading, Refusal};
use std::collections::BTreeSet;

const SEED: u64 = 28_081;

#[test]
fn every_refusal_answer_position_and_shape_is_reached() {
    let reached = cover(SEED, 20_000, 70_000);
    assert_eq!(reached.missing(), Vec::<String>::new());
    assert_eq!(reached.unlisted().next(), None);
}

#[test]
fn small_cases_reach_all_but_too_long() {
    assert_eq!(
        cover(SEED + 1, 20_000, 6_000).missing(),
        ["listings: TOO LONG"]
    );
}

#[test]
fn every_property_holds_on_the_default_seed() {
    let counts = check(SEED, 3_000, 70_000).expect("every property holds");
    assert!(counts.iter().all(|row| row.1 == 3_000));
}

#[test]
fn every_property_holds_on_large_volumes() {
    assert!(check(SEED, 60, 5_300_000).is_ok());
}

#[test]
fn counted_cases_keep_lent_bytes_and_are_many() {
    let mut number = 0;
    for made in counted(70_000) {
        assert_eq!(lent_bytes_stay(&made), Ok(()), "{}", made.family);
        number += 1;
    }
    assert_eq!(number, COUNTED);
}

const COUNTED: usize = 333_756;

#[test]
fn the_first_cases_touch_every_family() {
    let families: BTreeSet<&str> = cases(SEED, FAMILIES.len(), 6_000)
        .map(|c| c.family)
        .collect();
    let all: BTreeSet<&str> = FAMILIES.iter().map(|family| family.0).collect();
    assert_eq!(families, all);
}

#[test]
fn images_are_no_larger_than_asked() {
    for largest in [0, LEAST, 3_000, 20_000] {
        for made in cases(SEED, 400, largest) {
            assert!(made.image.len() <= largest.max(LEAST), "{}", made.family);
        }
    }
}

#[test]
fn creates_and_deletes_touch_every_family_and_are_no_larger_than_asked() {
    let count = create_cases::FAMILIES.len();
    let families: BTreeSet<&str> = placings(SEED, count, 6_000).map(|c| c.family).collect();
    let all: BTreeSet<&str> = create_cases::FAMILIES.iter().map(|f| f.0).collect();
    assert_eq!(families, all);
    for largest in [0, LEAST, 3_000, 20_000] {
        for made in placings(SEED, 300, largest) {
            assert!(made.image.len() <= largest.max(LEAST), "{}", made.family);
        }
    }
}

/// FNV-1a over everything a case lends.
fn digest(made: impl Iterator<Item = Case>) -> u64 {
    let mut digest = 0xCBF2_9CE4_8422_2325u64;
    for case in made {
        let call = format!("{} {:?}", case.family, case.call);
        for byte in call.bytes().chain(case.image) {
            digest = (digest ^ u64::from(byte)).wrapping_mul(0x100_0000_01B3);
        }
    }
    digest
}

#[test]
fn the_same_seed_gives_the_same_cases_on_every_machine() {
    assert_eq!(digest(cases(SEED, 500, 6_000)), DIGEST);
    assert_eq!(
        case(SEED, 77, 6_000),
        cases(SEED, 78, 6_000).last().expect("a case")
    );
}

const DIGEST: u64 = 8_265_344_272_794_446_410;

#[test]
fn creates_and_deletes_are_the_same_on_every_machine() {
    assert_eq!(digest(placings(SEED, 300, 6_000)), DIGEST_OF_CREATING);
}

const DIGEST_OF_CREATING: u64 = 7_379_813_559_426_521_422;

/// Every call on an image, with numbers of any size.
fn call_all(rng: &mut Rng, image: &[u8]) {
    let numbers = [0, 1, 2, 7, 255, 1 << 31, 1 << 32, u64::MAX - 1, u64::MAX];
    let length = rng.below(300);
    let calls = [
        Call::Judge,
        Call::Free,
        Call::Listing,
        Call::Find {
            name: rng.bytes(17),
        },
        Call::Count {
            slot: rng.pick(&numbers),
        },
        Call::Read {
            slot: rng.pick(&numbers),
            block: rng.pick(&numbers),
            offset: rng.pick(&numbers),
            mark: rng.draw(),
            out: vec![0; length],
        },
        Call::Salvage {
            slot: 1,
            block: rng.pick(&numbers),
            offset: rng.pick(&numbers),
            mark: rng.draw(),
            out: vec![0; length],
        },
        Call::Write {
            slot: rng.pick(&[1, 2, 3]),
            bodies: vec![1; length],
            lengths: vec![u32::MAX; rng.below(4)],
        },
        Call::Create {
            fields: rng.telling_bytes(rng.clone().pick(&[28, 29, 29, 29])),
            n: rng.pick(&numbers),
        },
        Call::Delete {
            slot: rng.pick(&numbers),
        },
        Call::Physical {
            cylinder: rng.pick(&numbers),
        },
    ];
    for call in calls {
        let given = answer(image, &call);
        let listed = call == Call::Listing;
        assert!(given.image == image || code(given.packed) == 0);
        assert!(!listed || given.out.ends_with(b"\n"));
    }
}

#[test]
fn byte_strings_of_any_kind_are_answered() {
    let mut rng = Rng::new(SEED);
    for round in 0..3_000 {
        let length = if round < 50 { round } else { rng.below(3_000) };
        let image = rng.telling_bytes(length);
        call_all(&mut rng, &image);
    }
}

#[test]
fn changed_samples_are_answered_from_every_place() {
    let mut rng = Rng::new(SEED + 1);
    let whole = sample();
    for _ in 0..3_000 {
        let mut image = whole.clone();
        for _ in 0..rng.between(1, 3) {
            let bound = rng.pick(&[image.len(), 1_290]);
            let at = rng.below(bound);
            image[at] = rng.telling_bytes(1)[0];
        }
        call_all(&mut rng, &image);
    }
}

#[test]
fn a_refusal_is_packed_number_first_second_third() {
    let refused = Refusal {
        number: 21,
        first: 4_991,
        second: 26_624,
        third: 0,
    };
    let packed = refusal(&refused);
    assert_eq!(packed, 21 << 56 | 4_991 << 24 | 26_624 << 4);
    assert_eq!(refusal_of(packed), Some(refused));
}

#[test]
fn a_first_place_above_2_to_32_saturates() {
    for first in [u64::from(u32::MAX), 1 << 32, u64::MAX] {
        let refused = Refusal {
            first,
            ..Refusal::bare(27)
        };
        assert_eq!(refusal(&refused), 27 << 56 | 0xFFFF_FFFF << 24);
    }
}

#[test]
fn the_numbers_of_the_sample_are_packed_as_the_boundary_says() {
    let image = sample();
    let judged = answer(&image, &Call::Judge).packed;
    assert_eq!(judged, 5 | 10 << 8 | 8 << 16 | 1 << 28);
    assert_eq!(geometry_of(judged), judge(&image).ok());
    let name = b"LOG              ".to_vec();
    let found = answer(&image, &Call::Find { name }).packed;
    assert_eq!(found, 3 << 24 | (9 * 129 + 1));
    assert_eq!(answer(&image, &Call::Free).packed, 16);
    assert_eq!(answer(&image, &Call::Count { slot: 3 }).packed, 2);
    let defective = Geometry {
        d1: Some(5),
        d2: Some(6),
        ..judge(&image).expect("accepted")
    };
    assert_eq!(
        compare::packed::judged(&Ok(defective)),
        judged | 5 << 32 | 6 << 40
    );
}

#[test]
fn a_record_carries_the_next_place_and_its_length() {
    let image = sample();
    let call = Call::Read {
        slot: 3,
        block: 0,
        offset: 100,
        mark: 1,
        out: vec![0; 90],
    };
    let given = answer(&image, &call);
    assert_eq!(given.packed, 76 << 32 | 180 << 1);
    let next = Place::unmarked(0, 180);
    assert_eq!(
        reading_of(given.packed),
        Some(Ok(Reading::Record { length: 76, next }))
    );
    assert!(given.out.starts_with(b"DRIVE 1 READY..."));
    let call = Call::Salvage {
        slot: 3,
        block: 2,
        offset: 0,
        mark: 1,
        out: vec![],
    };
    assert_eq!(answer(&image, &call).packed, 129 << 56 | 2 << 16);
}

#[test]
fn the_largest_files_reach_every_bound() {
    let (blocks, length) = sizes::LONGEST_RECORD;
    assert_eq!(count(&sizes::most_blocks(), 1), Ok(4_992));
    assert_eq!(count(&sizes::longest_blocks(), 1), Ok(192));
    let image = sizes::longest_record();
    let mut out = vec![0; length];
    let next = Place::unmarked(blocks - 1, 9_216);
    let whole = Reading::Record {
        length: length as u64,
        next,
    };
    assert_eq!(read(&image, 1, Place::START, &mut out), Ok(whole));
}

#[test]
fn every_sample_that_is_named_is_made_and_judged_with_its_own_length() {
    for name in NAMES.into_iter().chain(OTHER_NAMES) {
        let image = named(name).expect("a sample");
        if let Ok(geometry) = judge(&image) {
            assert_eq!(image.len(), geometry.image_length(), "{name}");
        } else {
            assert_eq!(name, "refused");
        }
    }
}
