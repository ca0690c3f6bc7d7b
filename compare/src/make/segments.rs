//! Small files of V and S whose blocks are drawn control word by control
//! word: mostly in an order that is right, now and then in any other.

use super::rng::Rng;
use super::sample::{hdr1, Plain};

/// Blocks of the file, each on one physical record.
pub const BLOCKS: usize = 6;

/// What the next control word may say by the rules.
#[derive(Clone, Copy, PartialEq, Eq)]
enum State {
    Fresh,
    Midway,
}

/// Mostly an indicator that may stand here.
fn indicator(rng: &mut Rng, state: State) -> u8 {
    match state {
        _ if rng.chance(25) => rng.pick(b"01232323"),
        State::Fresh => rng.pick(b"001"),
        State::Midway => rng.pick(b"233"),
    }
}

/// A control word of a length, now and then a wrong one.
fn word(rng: &mut Rng, lead: &[u8], length: usize) -> Vec<u8> {
    let told = match rng.below(30) {
        0 => length + 1,
        1 => length.saturating_sub(1),
        2 => rng.below(40),
        _ => length,
    };
    let mut word = lead.to_vec();
    word.extend(format!("{told:04}").bytes());
    if rng.chance(2) {
        let at = rng.below(word.len());
        word[at] = rng.pick(b"4/:A \0");
    }
    word
}

/// One block of at most `b` bytes: no segment, or some of them, the rest
/// mostly fill.
fn block(rng: &mut Rng, spanned: bool, state: &mut State, b: usize) -> Vec<u8> {
    let mut bytes = Vec::new();
    for _ in 0..rng.pick(&[0, 1, 1, 1, 2, 2, 3, 4]) {
        let chosen = indicator(rng, *state);
        let lead: &[u8] = if spanned { &[chosen] } else { b"" };
        let body = rng.telling_bytes(rng.clone().below(9));
        bytes.extend(word(rng, lead, lead.len() + 4 + body.len()));
        bytes.extend(body);
        let goes_on = spanned && matches!(chosen, b'1' | b'2');
        *state = if goes_on { State::Midway } else { State::Fresh };
        // "After 1 or 2 the rest of the block is fill"
        if goes_on && rng.chance(85) {
            break;
        }
    }
    if rng.chance(6) {
        bytes.resize(b.max(bytes.len() + 1) - 1, 0);
        bytes.push(rng.pick(b"0X\x01"));
    }
    bytes.resize(b, 0);
    bytes
}

/// A volume with such a file in slot 1, some of its blocks lost.
pub fn segments(rng: &mut Rng) -> Vec<u8> {
    let spanned = rng.chance(75);
    let b = rng.between(12, 60);
    let mut plain = Plain::new(1, 8, BLOCKS, 0, 1);
    plain.put_label(1, &hdr1("SEGMENTS", b, "01001", "01006"));
    plain.set(1, 40, if spanned { b"S" } else { b"V" });
    plain.set(1, 44, b"2");
    let most = match (rng.below(3), spanned) {
        (0, _) => "    ".to_string(),
        (1, true) => "0000".to_string(),
        _ => format!("{:04}", rng.between(4, 12)),
    };
    plain.set(1, 54, most.as_bytes());
    plain.set(
        1,
        63,
        if spanned || rng.chance(70) {
            b"B"
        } else {
            b" "
        },
    );
    plain.set(1, 75, b"02001");
    let mut state = State::Fresh;
    let lost = rng.pick(&[0, 0, 10, 30]);
    for number in 1..=BLOCKS {
        let address = format!("0100{number}");
        let bytes = block(rng, spanned, &mut state, b);
        plain.set_body(&address, &bytes);
        if rng.chance(lost) {
            plain.set_kind(&address, 32);
        }
    }
    plain.image
}
