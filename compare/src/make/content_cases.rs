//! Cases for broken contents: control words, fill, spanned records joined
//! wrongly.

use super::build::{volume, Volume};
use super::calls::{followed, reading_call};
use super::file::{FilePlan, Want};
use super::read_cases::lose;
use super::rng::Rng;
use super::volume_cases::Made;
use crate::model::Call;
use crate::reading::Place;
use crate::text::decimal;

/// Block and offset of every control word the packing made.
fn control_words(file: &FilePlan) -> Vec<(usize, usize)> {
    let lead = usize::from(file.shape.format == b'S');
    let mut words = Vec::new();
    for (number, block) in file.packed.blocks.iter().enumerate() {
        let mut offset = 0;
        while offset + lead + 4 <= block.len() {
            words.push((number, offset));
            let digits = &block[offset + lead..offset + lead + 4];
            offset += decimal(digits).unwrap_or(4).max(4);
        }
    }
    words
}

/// Sets bytes of a block, as far as its content goes.
fn set_block(made: &mut Volume, file: &FilePlan, block: usize, offset: usize, bytes: &[u8]) {
    for (step, &byte) in bytes.iter().enumerate() {
        if offset + step < file.shape.b {
            let at = file.byte_at(&made.geometry, block, offset + step);
            made.image[at] = byte;
        }
    }
}

/// Places from which the damaged block is met, and the call.
fn call_near(rng: &mut Rng, made: &Volume, file: &FilePlan, block: usize, offset: usize) -> Call {
    let salvaging = rng.chance(50);
    let place = match rng.below(6) {
        0 => Place::START,
        1 => Place {
            block: block as u64,
            offset: 0,
            mark: rng.chance(50),
        },
        2 | 3 => Place {
            block: block as u64,
            offset: offset.min(file.content(block)) as u64,
            mark: rng.chance(50),
        },
        4 => Place {
            block: block.saturating_sub(1) as u64,
            offset: 0,
            mark: rng.chance(70),
        },
        _ => followed(rng, made, file, salvaging),
    };
    reading_call(rng, made, file.slot as u64, place, salvaging)
}

/// A length broken in one of the ways the rules name.
fn length_value(rng: &mut Rng, file: &FilePlan, left: usize) -> Vec<u8> {
    let least = if file.shape.format == b'S' { 5 } else { 4 };
    let r = file.shape.r;
    let value = match rng.below(7) {
        0 => least - 1,
        1 => left,
        2 => left + 1,
        3 => r + 1,
        4 => r + 6,
        5 => rng.pick(&[0, least, 9_999]),
        _ => {
            return rng
                .pick(&["00 4", "0A10", "\x000004", "001\x00", "+012"])
                .as_bytes()[..4]
                .to_vec()
        }
    };
    format!("{:04}", value.min(9_999)).into_bytes()
}

/// One control word, or the byte it begins with, broken.
fn break_word(rng: &mut Rng, made: &mut Volume, file: &FilePlan, word: (usize, usize)) {
    let (block, offset) = word;
    let lead = usize::from(file.shape.format == b'S');
    let left = file.content(block).saturating_sub(offset);
    match rng.below(5) {
        0 => set_block(made, file, block, offset, &[0]),
        1 if lead == 1 => {
            let indicator = rng.pick(b"4/90123A");
            set_block(made, file, block, offset, &[indicator]);
        }
        2 => {
            let byte = rng.telling_bytes(1);
            set_block(made, file, block, offset + rng.below(5), &byte);
        }
        _ => {
            let value = length_value(rng, file, left);
            set_block(made, file, block, offset + lead, &value);
        }
    }
}

fn broken_words(rng: &mut Rng, largest: usize, format: u8) -> Made {
    let mut made = volume(rng, largest, Want::format(format));
    let file = made.main().clone();
    let words = control_words(&file);
    if words.is_empty() {
        let call = reading_call(rng, &made, file.slot as u64, Place::START, true);
        return (made.image, call);
    }
    let word = rng.pick(&words);
    break_word(rng, &mut made, &file, word);
    if rng.chance(25) {
        lose(rng, &mut made, &file, 15);
    }
    let call = call_near(rng, &made, &file, word.0, word.1);
    (made.image, call)
}

pub fn broken_variable(rng: &mut Rng, largest: usize) -> Made {
    broken_words(rng, largest, b'V')
}

pub fn broken_spanned(rng: &mut Rng, largest: usize) -> Made {
    broken_words(rng, largest, b'S')
}

/// A byte that is no fill in a rest: in the content or behind it.
pub fn broken_fill(rng: &mut Rng, largest: usize) -> Made {
    let want = Want::format(rng.pick(b"VSS"));
    let mut made = volume(rng, largest, want);
    let file = made.main().clone();
    if file.blocks() == 0 {
        let call = reading_call(rng, &made, file.slot as u64, Place::START, true);
        return (made.image, call);
    }
    let block = rng.below(file.blocks());
    let used = file.packed.blocks[block].len();
    let offset = match rng.below(3) {
        0 => used,
        1 => file.content(block).saturating_sub(1).max(used),
        _ => rng.between(used, file.shape.b - 1),
    };
    // A control word behind an unblocked record is no fill either.
    let bytes: &[u8] = rng.pick(&[b"\x01", b"0", b"F", b" ", b"0004", b"0006ab", b"00005"]);
    set_block(&mut made, &file, block, offset, bytes);
    let call = call_near(rng, &made, &file, block, used);
    (made.image, call)
}

/// Makes a block of one segment, the rest mostly fill.
fn put_segment(rng: &mut Rng, made: &mut Volume, file: &FilePlan, block: usize, indicator: u8) {
    let most = file.shape.b - 5;
    let length = match rng.below(3) {
        0 => 0,
        1 => most,
        _ => rng.between(0, most.min(12)),
    };
    let mut bytes = vec![indicator];
    bytes.extend_from_slice(format!("{:04}", length + 5).as_bytes());
    bytes.extend(rng.telling_bytes(length));
    let used = bytes.len();
    bytes.resize(file.shape.b, 0);
    if used < file.shape.b && rng.chance(15) {
        let place = rng.between(used, file.shape.b - 1);
        bytes[place] = rng.pick(b"03X\x01");
    }
    set_block(made, file, block, 0, &bytes);
}

/// Indicators of consecutive blocks; `f` is a block of fill.
fn segment_order(rng: &mut Rng, blocks: usize) -> Vec<u8> {
    const ORDERS: [&[u8]; 16] = [
        b"10", b"02", b"12", b"133", b"1223", b"2233", b"1f3", b"2f3", b"13", b"2f0", b"3f1",
        b"223", b"1", b"1f", b"12f", b"22f",
    ];
    if rng.chance(40) {
        return (0..blocks.min(6)).map(|_| rng.pick(b"0123f23")).collect();
    }
    rng.pick(&ORDERS).to_vec()
}

/// Blocks remade with segments in any order: 1 then 0, 2 after 0, 3 missing,
/// 3 twice, fill between, lost blocks between.
pub fn joined_wrongly(rng: &mut Rng, largest: usize) -> Made {
    let mut made = volume(rng, largest, Want::format(b'S'));
    let file = made.main().clone();
    let blocks = file.blocks();
    let order = segment_order(rng, blocks);
    let latest = blocks.saturating_sub(order.len());
    let at_end = rng.chance(40);
    let first = if at_end {
        latest
    } else {
        rng.below(latest + 1)
    };
    if at_end {
        made.set(file.slot, 58, b"     ");
    }
    for (block, &indicator) in (first..blocks).zip(&order) {
        if indicator == b'f' {
            set_block(&mut made, &file, block, 0, &vec![0; file.shape.b]);
        } else {
            put_segment(rng, &mut made, &file, block, indicator);
        }
    }
    if rng.chance(30) {
        lose(rng, &mut made, &file, 15);
    }
    let place = Place {
        block: if rng.chance(70) {
            first.min(blocks)
        } else {
            rng.between(0, blocks)
        } as u64,
        offset: 0,
        mark: rng.chance(60),
    };
    let salvaging = rng.chance(60);
    let call = reading_call(rng, &made, file.slot as u64, place, salvaging);
    (made.image, call)
}

/// Blocks blanked, copied onto others or exchanged.
pub fn shuffled_blocks(rng: &mut Rng, largest: usize) -> Made {
    let want = Want::format(rng.pick(b"VSS"));
    let mut made = volume(rng, largest, want);
    let file = made.main().clone();
    let mut block = 0;
    for _ in 0..rng.between(1, 2) {
        if file.blocks() == 0 {
            break;
        }
        block = rng.below(file.blocks());
        let mut bytes = vec![0; file.shape.b];
        if rng.chance(50) {
            let from = &file.packed.blocks[rng.below(file.blocks())];
            bytes[..from.len()].copy_from_slice(from);
        }
        set_block(&mut made, &file, block, 0, &bytes);
    }
    let call = match file.blocks() {
        0 => reading_call(rng, &made, file.slot as u64, Place::START, true),
        _ => call_near(rng, &made, &file, block, 0),
    };
    (made.image, call)
}

/// R made smaller, U made larger: bodies over R, contents cut short.
pub fn tightened(rng: &mut Rng, largest: usize) -> Made {
    let want = Want::format(rng.pick(b"VSSS"));
    let mut made = volume(rng, largest, want);
    let file = made.main().clone();
    let least = if file.shape.format == b'V' { 4 } else { 1 };
    if rng.chance(70) {
        let most = match file.shape.r {
            0 => file.shape.b,
            r => r,
        };
        let bound = rng.pick(&[6, 20, 9_999]);
        let r = rng.between(least, most.min(bound).max(least));
        made.set(file.slot, 54, format!("{r:04}").as_bytes());
    }
    if file.shape.blocked && file.blocks() > 0 && rng.chance(60) {
        let u = rng.between(0, file.shape.b - 1);
        made.set(file.slot, 58, format!("{u:05}").as_bytes());
    }
    let block = rng.between(0, file.blocks().saturating_sub(1));
    let salvaging = rng.chance(50);
    let place = match rng.below(3) {
        0 => followed(rng, &made, &file, salvaging),
        _ => Place {
            block: block as u64,
            offset: 0,
            mark: rng.chance(50),
        },
    };
    let call = reading_call(rng, &made, file.slot as u64, place, salvaging);
    (made.image, call)
}

/// Bytes of the file's own records changed anywhere.
pub fn mutated_content(rng: &mut Rng, largest: usize) -> Made {
    let want = Want::format(rng.pick(b"FVSS"));
    let mut made = volume(rng, largest, want);
    let file = made.main().clone();
    for _ in 0..rng.between(1, 6) {
        if file.blocks() > 0 {
            let block = rng.below(file.blocks());
            let offset = rng.below(file.shape.b);
            let bytes = rng.telling_bytes(rng.clone().between(1, 3));
            set_block(&mut made, &file, block, offset, &bytes);
        }
    }
    let salvaging = rng.chance(50);
    let place = followed(rng, &made, &file, salvaging);
    let call = reading_call(rng, &made, file.slot as u64, place, salvaging);
    (made.image, call)
}
