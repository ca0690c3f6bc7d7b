//! Request 2026-02 counted out: each case is answered as it is told, and the
//! samples in the form before it are refused by every call.

use compare::make::sample::named;
use compare::make::version::{both_forms, calls, old_form, small_samples, told};
use compare::packed::{code, refusal};
use compare::{answer, listing, Call, Refusal};
use std::collections::BTreeMap;

#[test]
fn every_case_is_answered_as_told_and_a_refusal_changes_no_lent_byte() {
    let mut families: BTreeMap<&str, usize> = BTreeMap::new();
    for (case, right) in told() {
        let given = answer(&case.image, &case.call);
        assert_eq!(given.packed, right, "{} {:?}", case.family, case.call);
        assert!(code(right) == 0 || given.image == case.image);
        *families.entry(case.family).or_default() += 1;
    }
    let counts = families.into_iter().collect::<Vec<_>>();
    assert_eq!(counts, COUNTS);
}

const COUNTS: [(&str, usize); 5] = [
    ("version-and-fault", 680),
    ("version-and-field", 360),
    ("version-both-forms", 540),
    ("version-old-form", 540),
    ("version-pair", 8_192),
];

#[test]
fn the_old_form_of_every_small_sample_is_refused_3_at_80_by_every_call() {
    let at_80 = refusal(&Refusal::at(3, 80));
    for (name, image) in small_samples() {
        let old = old_form(&image);
        for call in calls(&image) {
            let given = answer(&old, &call);
            assert_eq!(given.image, old, "{name}");
            match &call {
                Call::Listing => assert_eq!(given.out, b"REFUSED 3 80\n", "{name}"),
                Call::Physical { .. } => assert_eq!(given.packed, 0, "{name}"),
                Call::Read { out, .. } | Call::Salvage { out, .. } => {
                    assert_eq!((given.packed, &given.out), (at_80, out), "{name}");
                }
                _ => assert_eq!(given.packed, at_80, "{name}"),
            }
        }
    }
}

#[test]
fn with_3_at_79_too_every_call_answers_as_of_the_sample_itself() {
    for (name, image) in small_samples() {
        let both = both_forms(&image);
        for call in calls(&image) {
            let (one, two) = (answer(&image, &call), answer(&both, &call));
            assert_eq!((one.packed, &one.out), (two.packed, &two.out), "{name}");
            assert_eq!(both_forms(&one.image), two.image, "{name}");
        }
    }
}

#[test]
fn every_sample_by_name_that_the_listing_takes_is_among_the_small_ones() {
    let names: Vec<String> = small_samples().map(|(name, _)| name).collect();
    for name in ["demo", "two-sided", "refused", "smallest", "S-100-lost"] {
        assert!(names.iter().any(|small| small == name), "{name}");
    }
    assert!(!names.iter().any(|small| small == "typical"));
    let demo = named("demo").expect("a sample");
    assert_ne!(listing(&demo), listing(&old_form(&demo)));
}
