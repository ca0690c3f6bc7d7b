//! Creates and deletes that are refused: every refusal of a volume before
//! each of theirs, every set of theirs at once, fields of any bytes, images
//! that are none.

use crate::make::bad::resized;
use crate::make::create_tables::{bad_fields, told};
use crate::make::sample::{hdr1, Plain};
use crate::make::Case;
use crate::met_slots::VOLUMES_FIRST;
use crate::model::Call;
use crate::packed::code;
use crate::session::Session;
use std::io;

/// Slots 1, 2 and 4 with files, 3 deleted; nine records, three of them free
/// at the end and one before.
fn base() -> Plain {
    let mut plain = Plain::new(1, 11, 9, 0, 1);
    plain.put_label(1, &hdr1("ONE", 30, "01001", "01002"));
    plain.put_label(2, &hdr1("TWO", 30, "01003", "01004"));
    plain.put_label(4, &hdr1("FOUR", 30, "01006", "01006"));
    plain
}

/// What makes the volume refused, from 1 to 12, whatever is in slots 1 and 3.
const FAULTS: [fn(&mut Plain); 12] = [
    |plain| plain.image.truncate(902),
    |plain| plain.image[6 * 129] = 32,
    |plain| plain.set_sector(7, 80, b"2"),
    |plain| plain.set_sector(7, 11, b"X"),
    |plain| plain.image.push(0),
    |plain| plain.set_kind("01009", 1),
    |plain| plain.set_sector(5, 1, b"X"),
    |plain| plain.image[8 * 129] = 32,
    |plain| plain.set(2, 1, b"HDR2"),
    |plain| plain.set(2, 23, b"0000A"),
    |plain| plain.set(4, 29, b"01004"),
    |plain| plain.set(4, 6, b"TWO "),
];

fn fields(name: &[u8]) -> Vec<u8> {
    told(name, b"00030", b"F", b"2", b"0010", b"B")
}

/// A volume and a call that is refused on it by a number of its own.
fn refused_by(number: u8) -> (Plain, Call) {
    let mut plain = base();
    let create = |fields: Vec<u8>, n| Call::Create { fields, n };
    let call = match number {
        10 => create(fields(b"NEW#"), 1),
        12 => create(fields(b"ONE"), 1),
        28 => {
            plain.put_label(3, &hdr1("THREE", 30, "01009", "01009"));
            create(fields(b"NEW"), 1)
        }
        29 => create(fields(b"NEW"), 4),
        14 => {
            plain.set(1, 44, b"7");
            Call::Delete { slot: 1 }
        }
        24 => {
            plain.set(1, 43, b"P");
            Call::Delete { slot: 1 }
        }
        _ => Call::Delete { slot: 3 },
    };
    (plain, call)
}

/// One call on an image; whether the library answered the number wanted.
fn answers(session: &mut Session, image: Vec<u8>, call: Call, wanted: u8) -> io::Result<bool> {
    let case = Case {
        family: "refused",
        image,
        call,
    };
    let returned = session.compare(&case)?;
    let held = match returned.map(code) {
        Some(number) if number != wanted => Err(format!("{number}, not {wanted}")),
        _ => Ok(()),
    };
    Ok(session.demand(&case, held) && returned.is_some())
}

/// Fields that are none, with n = 0 and without.
fn no_fields(n: u64) -> (Plain, Call) {
    let fields = Vec::new();
    (base(), Call::Create { fields, n })
}

/// Each refusal of the volume, where each refusal of a call would follow.
pub fn volumes(session: &mut Session) -> io::Result<()> {
    let told = [10, 12, 28, 29, 13, 14, 24].map(|later| (later, refused_by(later)));
    let none = [0, 1].map(|n| (10, no_fields(n)));
    for (later, (plain, call)) in told.into_iter().chain(none) {
        let follows = answers(session, plain.image.clone(), call.clone(), later)?;
        for (fault, first) in FAULTS.into_iter().zip(1..) {
            let mut plain = plain.clone();
            fault(&mut plain);
            if answers(session, plain.image, call.clone(), first)? && follows {
                let row = format!("{first}, {later}");
                session.cover.reach(VOLUMES_FIRST, &row);
            }
        }
    }
    Ok(())
}

/// Every set of 10, 12, 28 and 29 at once, with each position at fault.
pub fn sets(session: &mut Session) -> io::Result<()> {
    let broken: [(usize, &[u8]); 6] = [
        (3, b"#"),
        (17, b"00129"),
        (22, b"X"),
        (23, b"3"),
        (24, b"0007"),
        (28, b"X"),
    ];
    for set in 0..8 {
        let mut plain = base();
        if set & 2 != 0 {
            plain.put_label(3, &hdr1("THREE", 30, "01009", "01009"));
        }
        let name: &[u8] = if set & 1 != 0 { b"ONE" } else { b"NEW" };
        let n = if set & 4 != 0 { 4 } else { 1 };
        let case = |fields, n| Case {
            family: "sets",
            image: plain.image.clone(),
            call: Call::Create { fields, n },
        };
        session.compare(&case(fields(name), n))?;
        session.compare(&case(fields(name), 0))?;
        for (at, bytes) in broken {
            let mut fields = fields(name);
            fields[at..at + bytes.len()].copy_from_slice(bytes);
            session.compare(&case(fields.clone(), n))?;
            session.compare(&case(fields, 0))?;
        }
    }
    Ok(())
}

/// Levels that are none, each other field broken or not.
pub fn levels(session: &mut Session) -> io::Result<()> {
    let broken: [(usize, &[u8]); 6] = [
        (0, b"N"),
        (3, b"#"),
        (17, b"00129"),
        (22, b"X"),
        (24, b"0007"),
        (28, b"X"),
    ];
    for level in [b'3', b'.', b'0', b'#', 0] {
        for (at, bytes) in broken {
            let mut fields = fields(b"NEW");
            fields[23] = level;
            fields[at..at + bytes.len()].copy_from_slice(bytes);
            for n in [1, 0, u64::MAX] {
                let case = Case {
                    family: "levels",
                    image: base().image,
                    call: Call::Create {
                        fields: fields.clone(),
                        n,
                    },
                };
                session.compare(&case)?;
            }
        }
    }
    Ok(())
}

/// Bytes that are no fields, and a volume of every length under both calls.
pub fn bad(session: &mut Session) -> io::Result<()> {
    session.compare_all(bad_fields())?;
    let calls = [
        Call::Create {
            fields: fields(b"NEW"),
            n: 1,
        },
        Call::Delete { slot: 1 },
    ];
    for call in calls {
        let call = |case: Case| Case {
            call: call.clone(),
            ..case
        };
        session.compare_all(resized().map(call))?;
    }
    Ok(())
}

/// All of it.
pub fn all(session: &mut Session) -> io::Result<()> {
    volumes(session)?;
    sets(session)?;
    levels(session)?;
    bad(session)
}
