//! Characters, numbers and addresses as they stand in labels.

use crate::layout::Geometry;

/// "The a-set (house reading): bytes hex 20-22, 25-3F, 41-5A, 5F."
pub fn in_a_set(byte: u8) -> bool {
    matches!(byte, 0x20..=0x22 | 0x25..=0x3F | 0x41..=0x5A | 0x5F)
}

pub fn all_in_a_set(bytes: &[u8]) -> bool {
    bytes.iter().all(|&byte| in_a_set(byte))
}

pub fn all_spaces(bytes: &[u8]) -> bool {
    bytes.iter().all(|&byte| byte == b' ')
}

/// The positions `first` to `last` of a label, both from 1 as the tables count.
pub fn field(label: &[u8], first: usize, last: usize) -> &[u8] {
    &label[first - 1..last]
}

/// The one character at a position counted from 1.
pub fn character(label: &[u8], position: usize) -> u8 {
    label[position - 1]
}

/// A number written in decimal digits only.
pub fn decimal(bytes: &[u8]) -> Option<usize> {
    bytes.iter().try_fold(0usize, |value, &byte| {
        byte.is_ascii_digit()
            .then(|| value * 10 + usize::from(byte - b'0'))
    })
}

/// "Hex digits are 0-9, A-F."
pub fn hexadecimal(bytes: &[u8]) -> Option<usize> {
    bytes.iter().try_fold(0usize, |value, &byte| {
        let digit = match byte {
            b'0'..=b'9' => byte - b'0',
            b'A'..=b'F' => byte - b'A' + 10,
            _ => return None,
        };
        Some(value * 16 + usize::from(digit))
    })
}

/// Five decimal digits of a number below 100,000.
pub fn five_digits(number: usize) -> [u8; 5] {
    let mut digits = [b'0'; 5];
    let mut rest = number;
    for digit in digits.iter_mut().rev() {
        *digit = b'0' + (rest % 10) as u8;
        rest /= 10;
    }
    digits
}

/// "An address is five digits: cylinder 01..L, side below S, sector 01..D."
/// The answer is the record's number from 0 in the order of addresses:
/// "Sector counts fastest, then side, then cylinder."
pub fn address(digits: &[u8], geometry: &Geometry) -> Option<usize> {
    let cylinder = decimal(&digits[0..2])?;
    let side = decimal(&digits[2..3])?;
    let sector = decimal(&digits[3..5])?;
    let legal = (1..=geometry.l).contains(&cylinder)
        && side < geometry.s
        && (1..=geometry.d).contains(&sector);
    legal.then(|| ((cylinder - 1) * geometry.s + side) * geometry.d + sector - 1)
}

/// "The step from the last address gives cylinder L+1, side 0, sector 01,
/// legal only as a data end."
pub fn data_end_address(digits: &[u8], geometry: &Geometry) -> Option<usize> {
    let past_last = geometry.data_records();
    address(digits, geometry)
        .or_else(|| (digits == address_digits(past_last, geometry)).then_some(past_last))
}

/// The five digits of a record's number; the number of records itself gives
/// cylinder L+1, side 0, sector 01. The step is to the next number.
pub fn address_digits(record: usize, geometry: &Geometry) -> [u8; 5] {
    five_digits(address_number(record, geometry))
}

/// The same digits as one number.
pub fn address_number(record: usize, geometry: &Geometry) -> usize {
    let sector = record % geometry.d + 1;
    let side = record / geometry.d % geometry.s;
    let cylinder = record / (geometry.d * geometry.s) + 1;
    cylinder * 1000 + side * 100 + sector
}
