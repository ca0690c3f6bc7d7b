//! The independent program's calls as C functions of the same form as the
//! library's, so that one driver measures both, and a program in C runs over
//! either.

use compare::{creating, file, packed, reading, volume, writing, Place};
use std::slice::{from_raw_parts, from_raw_parts_mut};

/// # Safety
/// `image` points to `length` bytes that nothing changes meanwhile.
#[no_mangle]
pub unsafe extern "C" fn rust_judge(image: *const u8, length: u64) -> u64 {
    let image = from_raw_parts(image, length as usize);
    packed::judged(&volume::judge(image))
}

/// # Safety
/// As of `rust_judge`; `name` points to `name_length` bytes likewise.
#[no_mangle]
pub unsafe extern "C" fn rust_find(
    image: *const u8,
    length: u64,
    name: *const u8,
    name_length: u64,
) -> u64 {
    let image = from_raw_parts(image, length as usize);
    let name = from_raw_parts(name, name_length as usize);
    packed::found(&file::find(image, name))
}

/// # Safety
/// As of `rust_judge`.
#[no_mangle]
pub unsafe extern "C" fn rust_count(image: *const u8, length: u64, slot: u64) -> u64 {
    let image = from_raw_parts(image, length as usize);
    packed::number(&file::count(image, slot))
}

/// # Safety
/// As of `rust_judge`.
#[no_mangle]
pub unsafe extern "C" fn rust_free(image: *const u8, length: u64) -> u64 {
    let image = from_raw_parts(image, length as usize);
    packed::number(&file::free(image))
}

fn place(block: u64, offset: u64, mark: u64) -> Place {
    Place {
        block,
        offset,
        mark: mark != 0,
    }
}

/// # Safety
/// `image` points to `length` bytes that nothing changes meanwhile, `out` to
/// `room` others.
#[no_mangle]
pub unsafe extern "C" fn rust_read(
    image: *const u8,
    length: u64,
    slot: u64,
    block: u64,
    offset: u64,
    mark: u64,
    out: *mut u8,
    room: u64,
) -> u64 {
    let image = from_raw_parts(image, length as usize);
    let out = from_raw_parts_mut(out, room as usize);
    packed::reading(&reading::read(image, slot, place(block, offset, mark), out))
}

/// # Safety
/// As of `rust_read`.
#[no_mangle]
pub unsafe extern "C" fn rust_salvage(
    image: *const u8,
    length: u64,
    slot: u64,
    block: u64,
    offset: u64,
    mark: u64,
    out: *mut u8,
    room: u64,
) -> u64 {
    let image = from_raw_parts(image, length as usize);
    let out = from_raw_parts_mut(out, room as usize);
    packed::reading(&reading::salvage(
        image,
        slot,
        place(block, offset, mark),
        out,
    ))
}

/// # Safety
/// As of `rust_read`.
#[no_mangle]
pub unsafe extern "C" fn rust_pace(
    image: *const u8,
    length: u64,
    slot: u64,
    salvage: u64,
    out: *mut u8,
    room: u64,
) -> u64 {
    let image = from_raw_parts(image, length as usize);
    let out = from_raw_parts_mut(out, room as usize);
    match reading::Opened::open(image, slot) {
        Ok(opened) => opened.answers(salvage != 0, out, 1 << 20),
        Err(_) => 0,
    }
}

/// # Safety
/// `image` points to `length` bytes, `bodies` to `total` and `lengths` to
/// `count` others that nothing changes meanwhile.
#[no_mangle]
pub unsafe extern "C" fn rust_write(
    image: *mut u8,
    length: u64,
    slot: u64,
    bodies: *const u8,
    total: u64,
    lengths: *const u32,
    count: u64,
) -> u64 {
    let image = from_raw_parts_mut(image, length as usize);
    let bodies = from_raw_parts(bodies, total as usize);
    let lengths = from_raw_parts(lengths, count as usize);
    packed::number(&writing::write(image, slot, bodies, lengths))
}

/// # Safety
/// `image` points to `length` bytes, `fields` to `fields_length` others that
/// nothing changes meanwhile.
#[no_mangle]
pub unsafe extern "C" fn rust_create(
    image: *mut u8,
    length: u64,
    fields: *const u8,
    fields_length: u64,
    n: u64,
) -> u64 {
    let image = from_raw_parts_mut(image, length as usize);
    let fields = from_raw_parts(fields, fields_length as usize);
    packed::placed(&creating::create(image, fields, n))
}

/// # Safety
/// `image` points to `length` bytes.
#[no_mangle]
pub unsafe extern "C" fn rust_delete(image: *mut u8, length: u64, slot: u64) -> u64 {
    let image = from_raw_parts_mut(image, length as usize);
    packed::number(&creating::delete(image, slot))
}
