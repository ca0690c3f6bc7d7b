//! The account of a write, of a create and of a delete: it says what the
//! documents' examples say, and of one image only that it is right.

mod common;

use common::shaped;
use compare::account::{holds, Ground, List};
use compare::edges::lettered;
use compare::make::calls::write_call;
use compare::make::grounds::{ground, GROUNDS};
use compare::make::lists::{list, Takes};
use compare::make::pack::pack;
use compare::make::rng::Rng;
use compare::make::sample::{sample, Plain};
use compare::slots::{self, Held};
use compare::{answer, judge, packed, Call, Refusal};

fn written(plain: &Plain, lengths: &[usize]) -> (Call, u64, Vec<u8>) {
    let call = write_call(1, &lettered(lengths));
    let given = answer(&plain.image, &call);
    (call, given.packed, given.image)
}

fn accounted(plain: &Plain, call: &Call, packed: u64, after: &[u8]) -> Result<(), String> {
    let list = List::of(call).expect("a list");
    holds(&plain.image, after, &list, packed)
}

/// A spanned file with a defective and a check-failed record before its last
/// block, in blocks of two records.
fn spanned() -> Plain {
    let mut plain = shaped(b"S", 256, b"0000", b"B");
    plain.set_kind("01003", 16);
    plain.set_body("01003", b"F");
    plain.set_kind("01004", 32);
    plain.set(1, 75, b"01006");
    plain.set(1, 58, b"00007");
    plain
}

#[test]
fn the_account_is_of_one_image_only() {
    let plain = spanned();
    let (call, packed, after) = written(&plain, &[300, 0, 100]);
    assert_eq!(packed, 2);
    assert_eq!(accounted(&plain, &call, packed, &after), Ok(()));
    for at in 0..after.len() {
        let mut wrong = after.clone();
        wrong[at] ^= 0x21;
        assert!(accounted(&plain, &call, packed, &wrong).is_err());
    }
    assert!(accounted(&plain, &call, packed, &plain.image).is_err());
    assert!(accounted(&plain, &call, 3, &after).is_err());
    assert!(accounted(&plain, &call, 1, &after).is_err());
}

#[test]
fn the_account_knows_the_places_of_25_26_and_27() {
    let plain = shaped(b"V", 30, b"0010", b"B");
    let refused = |call: &Call, refusal: Refusal| {
        let packed = packed::refusal(&refusal);
        accounted(&plain, call, packed, &plain.image)
    };
    let (call, ..) = written(&plain, &[6, 7, 0, 8]);
    assert_eq!(refused(&call, Refusal::at(26, 1)), Ok(()));
    assert!(refused(&call, Refusal::at(26, 3)).is_err());
    assert!(refused(&call, Refusal::bare(25)).is_err());
    let (call, ..) = written(&plain, &[6; 25]);
    assert_eq!(refused(&call, Refusal::at(27, 9)), Ok(()));
    assert!(refused(&call, Refusal::at(27, 8)).is_err());
    // Eight blocks of three are what the extent holds.
    let (call, ..) = written(&plain, &[6; 24]);
    assert!(refused(&call, Refusal::at(27, 8)).is_err());
    let (mut call, ..) = written(&plain, &[6, 6]);
    if let Call::Write { bodies, .. } = &mut call {
        bodies.pop();
    }
    assert_eq!(refused(&call, Refusal::bare(25)), Ok(()));
    let mut other = plain.image.clone();
    other[2_000] ^= 1;
    let packed = packed::refusal(&Refusal::bare(25));
    assert!(accounted(&plain, &call, packed, &other).is_err());
}

/// Examples 6 and 7: eight and seven good records, m = 2.
#[test]
fn the_account_sets_the_data_end_as_the_examples_do() {
    let mut plain = shaped(b"F", 256, b"    ", b" ");
    let data_end = |plain: &Plain, blocks| Ground::of(&plain.image, 1).map(|g| g.data_end(blocks));
    assert_eq!(data_end(&plain, 0), Some((1, 0, 1)));
    assert_eq!(data_end(&plain, 3), Some((1, 0, 7)));
    assert_eq!(data_end(&plain, 4), Some((2, 0, 1)));
    plain.set_kind("01005", 16);
    plain.set_body("01005", b"F");
    assert_eq!(data_end(&plain, 2), Some((1, 0, 6)));
    assert_eq!(data_end(&plain, 3), Some((2, 0, 1)));
    plain.set(1, 35, b"02008");
    assert_eq!(data_end(&plain, 7), Some((3, 0, 1)));
}

#[test]
fn every_ground_is_accepted_and_lists_take_what_they_say() {
    for number in 0..GROUNDS {
        let mut rng = Rng::for_case(28_081, number as u64);
        let plain = ground(&mut rng, number);
        assert_eq!(judge(&plain.image), Ok(plain.geometry), "{number}");
        let shape = Ground::of(&plain.image, 1).expect("a file").shape;
        for takes in Takes::ALL {
            let records = list(&mut rng, &shape, takes);
            let fits = pack(&shape, &records).records.len() == records.len();
            let more = [
                Takes::OneByteMore,
                Takes::OneRecordMore,
                Takes::OneEmptyMore,
            ];
            let exceeds = more.contains(&takes);
            let any = matches!(takes, Takes::OneBlockMore | Takes::One | Takes::OneLong);
            let any = any || (takes == Takes::Some && shape.capacity == 0);
            assert!(any || fits != exceeds, "{number}, {takes:?}");
        }
    }
}

fn placed(image: &[u8], call: &Call) -> (u64, Vec<u8>) {
    let given = answer(image, call);
    let held = slots::holds(image, &given.image, call, given.packed);
    assert_eq!(held, Ok(()));
    (given.packed, given.image)
}

#[test]
fn the_account_of_a_create_and_of_a_delete_is_of_one_image_only() {
    let image = sample();
    let create = Call::Create {
        fields: b"NEW              00030V20020B".to_vec(),
        n: 9,
    };
    for (call, right) in [(create, 2 << 24 | 4001), (Call::Delete { slot: 3 }, 16)] {
        let (packed, after) = placed(&image, &call);
        assert_eq!(packed, right);
        for at in 0..after.len() {
            let mut wrong = after.clone();
            wrong[at] ^= 0x21;
            assert!(slots::holds(&image, &wrong, &call, packed).is_err());
        }
        assert!(slots::holds(&image, &image, &call, packed).is_err());
        assert!(slots::holds(&image, &after[1..], &call, packed).is_err());
        for wrong in [packed + 1, packed + (1 << 24), 13 << 56, 29 << 56] {
            assert!(slots::holds(&image, &after, &call, wrong).is_err());
        }
    }
}

#[test]
fn the_account_of_a_refused_create_or_delete_has_its_number_and_place() {
    let image = sample();
    let create = |name: &str, n| Call::Create {
        fields: format!("{name:<17}00030V20020B").into_bytes(),
        n,
    };
    let rows = [
        (create("NEW#", 1), Refusal::at_two(10, 0, 6)),
        (create("NEW", 0), Refusal::at_two(10, 0, 35)),
        (create("LOG", 1), Refusal::at(12, 3)),
        (create("NEW", 17), Refusal::bare(29)),
        (Call::Delete { slot: 2 }, Refusal::bare(13)),
    ];
    for (call, refusal) in rows {
        let (packed, after) = placed(&image, &call);
        assert_eq!(packed, packed::refusal(&refusal));
        assert_eq!(after, image);
        let other = packed::refusal(&Refusal::bare(28));
        assert!(slots::holds(&image, &image, &call, other).is_err());
        let mut changed = image.clone();
        changed[900] ^= 1;
        assert!(slots::holds(&image, &changed, &call, packed).is_err());
    }
}

/// Stretches and runs of the sample: 04001 to 05008 are free.
#[test]
fn the_account_counts_addresses_one_by_one() {
    let image = sample();
    let held = Held::of(&image).expect("accepted");
    assert_eq!(held.stretches(), [(24, 16)]);
    assert_eq!(held.lowest_run(16), Some(24));
    assert_eq!(held.lowest_run(17), None);
    assert_eq!(held.lowest_run(u64::MAX), None);
    assert_eq!(held.deleted(), [2]);
    assert_eq!(held.named(b"LOG              "), Some(3));
    assert_eq!(held.named(b"LOGS             "), None);
}
