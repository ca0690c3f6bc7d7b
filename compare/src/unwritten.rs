//! Writes that are refused: each refusal, every set of them at once, wrong
//! sums and lengths, and images that are none.

use crate::edges::lettered;
use crate::make::calls::write_call;
use crate::make::places::with_seven;
use crate::make::rng::Rng;
use crate::make::sample::{hdr1, Plain};
use crate::make::volume_cases::Made;
use crate::make::write_cases;
use crate::model::Call;
use crate::session::Session;
use crate::written::{Writer, MOST_READ};
use std::io;

/// One write on an image.
fn refused(session: &mut Session, image: Vec<u8>, call: Call) -> io::Result<()> {
    let mut rng = Rng::new(image.len() as u64);
    Writer::new(session, &mut rng, "refused", image)
        .write(call)
        .map(|_| ())
}

/// A file of F on six records, so that another has room behind it.
fn base() -> Plain {
    let mut plain = with_seven(b"F", 12, b"0004", b"B");
    plain.set(1, 35, b"01006");
    plain
}

/// What makes a volume refused, from 1 to 12.
const VOLUME_FAULTS: [fn(&mut Plain); 16] = [
    |plain| plain.image.clear(),
    |plain| plain.image.truncate(902),
    |plain| plain.image[4 * 129] = 16,
    |plain| plain.image[6 * 129] = 32,
    |plain| plain.set_sector(7, 80, b"2"),
    |plain| plain.set_sector(7, 11, b"X"),
    |plain| plain.image.push(0),
    |plain| plain.image.truncate(plain.image.len() - 1),
    |plain| plain.image[0] = 1,
    |plain| plain.set_kind("01007", 1),
    |plain| plain.set_sector(5, 1, b"X"),
    |plain| plain.image[7 * 129] = 32,
    |plain| plain.set(1, 1, b"HDR2"),
    |plain| plain.set(1, 23, b"0000A"),
    |plain| plain.put_label(1, &hdr1("ONE", 12, "01001", "02001")),
    |plain| plain.set(1, 75, b"02002"),
];

/// A second label, on a record of the first one's extent or of its name.
fn clashes() -> [Plain; 2] {
    let two = |name: &str, start: &str| {
        let mut plain = Plain::new(1, 9, 7, 0, 1);
        plain.put_label(1, &hdr1("FILE", 12, "01001", "01006"));
        plain.put_label(2, &hdr1(name, 12, start, "01007"));
        plain
    };
    [two("OTHER", "01006"), two("FILE", "01007")]
}

fn volumes(session: &mut Session) -> io::Result<()> {
    let list = || write_call(1, &lettered(&[4, 4, 4]));
    for fault in VOLUME_FAULTS {
        let mut plain = base();
        fault(&mut plain);
        refused(session, plain.image, list())?;
    }
    for plain in clashes() {
        refused(session, plain.image, list())?;
    }
    Ok(())
}

/// "13 | no label in that slot": 0, a deleted one, the one behind the last,
/// and numbers of which a part is a right one.
fn slots(session: &mut Session) -> io::Result<()> {
    let mut plain = Plain::new(1, 9, 7, 0, 1);
    plain.put_label(1, &hdr1("FILE", 12, "01001", "01006"));
    let wide = [1 << 8, 1 << 16, 1 << 24, 1 << 32, 1 << 63].map(|bit| bit + 1);
    for slot in [0, 2, 3, u64::MAX].into_iter().chain(wide) {
        let call = write_call(slot, &lettered(&[12]));
        refused(session, plain.image.clone(), call)?;
    }
    Ok(())
}

/// A file with lengths that it takes and lengths that it does not, and how
/// many of the first are more than it holds.
struct Judged {
    plain: Plain,
    right: usize,
    wrong: &'static [usize],
    many: usize,
}

fn judged() -> [Judged; 9] {
    let row = |plain, right, wrong, many| Judged {
        plain,
        right,
        wrong,
        many,
    };
    [
        row(with_seven(b"F", 12, b"0004", b"B"), 4, &[0, 3, 5], 22),
        row(with_seven(b" ", 12, b"    ", b" "), 12, &[11, 13, 24], 8),
        row(with_seven(b"V", 12, b"    ", b"B"), 8, &[9, 12], 8),
        row(with_seven(b"V", 20, b"0010", b"B"), 6, &[7, 10], 15),
        row(with_seven(b"V", 20, b"0010", b" "), 3, &[7, 16], 8),
        row(with_seven(b"S", 12, b"0009", b"B"), 9, &[10, 21], 12),
        row(with_seven(b"S", 12, b"    ", b"B"), 12, &[13, 30], 12),
        row(with_seven(b"S", 5, b"0000", b"B"), 0, &[1, 5], 8),
        row(with_seven(b"S", 5, b"0003", b"B"), 0, &[3, 4], 8),
    ]
}

/// 26: each wrong length alone, first, in the midst, last, and twice.
fn wrong_lengths(session: &mut Session) -> io::Result<()> {
    for file in judged() {
        for &wrong in file.wrong {
            let right = file.right;
            let lists = [
                vec![wrong],
                vec![wrong, right, right],
                vec![right, wrong, right],
                vec![right, right, wrong],
                vec![right, wrong, right, wrong],
                vec![wrong, wrong],
            ];
            for lengths in lists {
                let call = write_call(1, &lettered(&lengths));
                refused(session, file.plain.image.clone(), call)?;
            }
        }
    }
    Ok(())
}

/// 25: sums by one byte and by 2^32 too large and too small, and lists of
/// which either part is missing.
fn wrong_sums(session: &mut Session) -> io::Result<()> {
    const HALF: u32 = 1 << 31;
    let sums: [(usize, &[u32]); 14] = [
        (9, &[4, 4]),
        (7, &[4, 4]),
        (0, &[4, 4]),
        (1, &[]),
        (0, &[1]),
        (8, &[4, 4, HALF, HALF]),
        (8, &[4, 4, u32::MAX, 1]),
        (8, &[HALF, HALF, 8]),
        (0, &[HALF, HALF]),
        (3, &[u32::MAX, 4]),
        (8, &[u32::MAX; 9]),
        (0, &[u32::MAX]),
        (4, &[u32::MAX, 5]),
        (8, &[4, 4, HALF, HALF, HALF, HALF]),
    ];
    for file in judged() {
        for (bytes, lengths) in sums {
            let call = Call::Write {
                slot: 1,
                bodies: vec![b'b'; bytes],
                lengths: lengths.to_vec(),
            };
            refused(session, file.plain.image.clone(), call)?;
        }
    }
    Ok(())
}

/// Every set of 14, 15, 16, 24, 17, 25, 26 and 27 at once: the order shows.
fn sets(session: &mut Session) -> io::Result<()> {
    for file in judged() {
        for set in 0..256 {
            let has = |bit: u32| set >> bit & 1 == 1;
            let mut plain = file.plain.clone();
            let changes: [(u32, usize, &[u8; 1]); 4] =
                [(0, 44, b"3"), (1, 42, b"A"), (2, 45, b"C"), (3, 43, b"P")];
            for (bit, position, byte) in changes {
                if has(bit) {
                    plain.set(1, position, byte);
                }
            }
            if has(4) {
                plain.set_kind("01005", 16);
                plain.set_body("01005", b"G");
            }
            let call = faulty_list(&file, has(5), has(6), has(7));
            refused(session, plain.image, call)?;
        }
    }
    Ok(())
}

/// A list with those of 25, 26 and 27 that are wanted.
fn faulty_list(file: &Judged, sum: bool, length: bool, need: bool) -> Call {
    let mut lengths = vec![file.right; if need { file.many } else { 2 }];
    if length {
        lengths[1] = file.wrong[0];
        lengths.push(file.wrong[1]);
    }
    let mut call = write_call(1, &lettered(&lengths));
    if let (Call::Write { bodies, .. }, true) = (&mut call, sum) {
        bodies.push(b'+');
    }
    call
}

type Family = fn(&mut Rng, usize) -> Made;

const FAMILIES: [Family; 6] = [
    write_cases::write_sums,
    write_cases::write_lengths,
    write_cases::write_refused,
    write_cases::write_full,
    write_cases::write_some,
    write_cases::write_empty,
];

/// So many drawn writes, refused and done, with images of at most so many
/// bytes.
fn drawn(session: &mut Session, seed: u64, count: usize, largest: usize) -> io::Result<()> {
    for number in 0..count {
        let mut rng = Rng::for_case(seed ^ 0x19, number as u64);
        let (image, call) = FAMILIES[number % FAMILIES.len()](&mut rng, largest);
        Writer::new(session, &mut rng, "drawn write", image).write_and_read(call, MOST_READ)?;
    }
    Ok(())
}

/// Bytes that are no volume, and the volume cut anywhere.
fn no_images(session: &mut Session, seed: u64, count: usize) -> io::Result<()> {
    let whole = base().image;
    for number in 0..count {
        let mut rng = Rng::for_case(seed ^ 0x91, number as u64);
        let image = match number % 3 {
            0 => whole[..rng.below(whole.len())].to_vec(),
            1 => rng.telling_bytes(rng.clone().below(2_000)),
            _ => {
                let mut image = whole.clone();
                let bound = rng.pick(&[image.len(), 1_032]);
                image[rng.below(bound)] = rng.byte();
                image
            }
        };
        let lengths = [rng.below(5), rng.below(5)];
        refused(session, image, write_call(1, &lettered(&lengths)))?;
    }
    Ok(())
}

/// All of it, with so many drawn writes and half as many bad images.
pub fn all(session: &mut Session, seed: u64, count: usize, largest: usize) -> io::Result<()> {
    volumes(session)?;
    slots(session)?;
    wrong_lengths(session)?;
    wrong_sums(session)?;
    sets(session)?;
    no_images(session, seed, count / 2)?;
    drawn(session, seed, count, largest)
}
