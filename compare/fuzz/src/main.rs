//! The entry of libFuzzer. `$DRIVER` is the driver's command, one word to a
//! line. An input on which the library and the independent program differ, or
//! on which the driver ends, aborts; libFuzzer keeps it.
#![no_main]

use compare::drive::{expected, Driver, Outcome};
use compare::fuzzed::Bases;
use compare::make::Case;
use compare::packed::{code, place_of, refusal_of};
use compare::session::accounted;
use compare::Call;
use std::cell::RefCell;
use std::io;
use std::sync::atomic::{AtomicU8, Ordering};

/// Answers that were met. libFuzzer takes this section for counters and keeps
/// an input that sets a new one: so different numbers count as something new,
/// though no branch of the Rust program tells them apart.
#[used]
#[link_section = "__libfuzzer_extra_counters"]
static ANSWERS: [AtomicU8; 1 << 14] = [const { AtomicU8::new(0) }; 1 << 14];

struct Judge {
    bases: Bases,
    driver: Driver,
}

thread_local! {
    // libFuzzer calls the entry from one thread.
    static JUDGE: RefCell<Judge> = RefCell::new(judge());
}

fn judge() -> Judge {
    let command = std::env::var("DRIVER").expect("$DRIVER is the command of the driver");
    let command: Vec<String> = command.lines().map(str::to_string).collect();
    Judge {
        bases: Bases::default(),
        driver: Driver::start(&command).expect("the driver starts"),
    }
}

/// Notes an answer by its call, its code, and two small numbers: the places of
/// a refusal, the place behind a reading, the defects of a volume, slot and
/// cylinder of a created file, a count, a physical cylinder.
fn note(call: &Call, returned: u64) {
    let next = place_of(returned);
    let (kind, first, second) = match (call, refusal_of(returned)) {
        (_, Some(refusal)) => (0, refusal.first, refusal.second / 4),
        (Call::Read { .. }, None) => (1, next.block, next.offset / 4),
        (Call::Salvage { .. }, None) if next.mark => (2, next.block, next.offset / 4),
        (Call::Salvage { .. }, None) => (3, next.block, next.offset / 4),
        (Call::Judge, None) => (4, returned >> 32 & 0xFF, returned >> 40),
        (Call::Find { .. }, None) => (5, returned >> 24, 0),
        (Call::Delete { .. }, None) => (5, returned, 1),
        (Call::Physical { .. }, None) => (6, returned, 1),
        (Call::Create { .. }, None) => (7, returned >> 24, returned % (1 << 24) / 1000),
        _ => (6, returned, 0),
    };
    let mut place = u64::from(code(returned));
    for (number, most) in [(kind, 7), (first, 15), (second, 31)] {
        place = place * (most + 1) + number.min(most);
    }
    ANSWERS[place as usize * 7919 % ANSWERS.len()].store(1, Ordering::Relaxed);
}

/// What the library did, if the independent program and its account of
/// writes say the same.
fn compare(driver: &mut Driver, case: &Case) -> io::Result<Option<Outcome>> {
    let right = expected(&case.image, &case.call);
    let is = driver.ask(&case.image, &case.call)?;
    if let Some(is) = &is {
        note(&case.call, is.returned);
    }
    Ok(is.filter(|is| right.as_ref() == Some(is) && accounted(case, is).is_ok()))
}

/// # Safety
/// libFuzzer lends so many bytes for the time of the call.
#[no_mangle]
pub unsafe extern "C" fn LLVMFuzzerTestOneInput(bytes: *const u8, count: usize) -> i32 {
    let input = match count {
        0 => &[],
        _ => std::slice::from_raw_parts(bytes, count),
    };
    JUDGE.with_borrow_mut(|Judge { bases, driver }| {
        let answered = bases.run(input, |case| compare(driver, case));
        assert!(matches!(answered, Ok(Some(_))), "the answers differ");
    });
    0
}
