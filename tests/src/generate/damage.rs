//! Damage: numbers out of range, numbers that are none, bytes changed, cut off, added.

use super::plan::Numbers;
use super::written;
use crate::numbers::put;
use crate::random::Random;

/// Numbers at the edges of the ranges, as they are written: signed ones doubled.
#[rustfmt::skip]
const EDGES: [u64; 38] = [
    0, 1, 2, 3, 4, 5, 6, 7, 8, 9, 10, 11, 12, 15, 16, 17, 30, 31, 32, 33, 64, 127, 128, 255, 4_095, 4_096, 4_097, 8_192, 1_048_575, 1_048_576,
    1_048_577, 2_097_151, 2_097_152, 2_097_153, 2_097_154, 2_147_483_647, 2_147_483_648, 4_294_967_295,
];

/// The first number that is out of range, for each number of each operation; 0 where none is.
fn beyond(operation: u64, at: usize, random: &mut Random) -> u64 {
    let signed = random.pick(&[2_097_153, 2_097_154, 2_147_483_647, 4_294_967_295]);
    match (operation, at) {
        (_, 0) => random.pick(&[0, 6, 7, 8, 128]),
        (1, 2) => 1_048_577,
        (2, 2) | (2, 4) => signed,
        (2, 3) => 4_097,
        (3, 2) => 7,
        (3, 3) => 3,
        (3, 4) => 2,
        (3, 5) => 1_048_577,
        (5, 2) => random.pick(&[0, 17]),
        (5, at) if at >= 3 && at % 4 == 3 => random.pick(&[12, 12, 13, 128]),
        (1, _) => 0,
        _ => random.pick(&[32, 33, 64, 128]),
    }
}

/// The bytes of a sheet, damaged.
pub fn damaged(random: &mut Random, mut operations: Vec<Numbers>) -> Vec<u8> {
    operations.retain(|operation| !operation.is_empty());
    if operations.is_empty() {
        operations.push(vec![4, 0]);
    }
    // The run is the last; half of the damage goes there.
    let last = operations.len() - 1;
    let at = if random.one_in(2) { last } else { random.place(operations.len()) };
    let number = random.place(operations[at].len());
    match random.below(12) {
        0..=2 => {
            operations[at][number] = beyond(operations[at][0], number, random);
            written(&operations)
        }
        3 => {
            operations[at][number] = random.pick(&EDGES);
            written(&operations)
        }
        4 => {
            operations[at][number] = random.next() >> random.range(32, 63);
            written(&operations)
        }
        5..=7 => misformed(random, &operations, at, number),
        _ => {
            let mut sheet = written(&operations);
            for _ in 0..random.pick(&[1, 1, 1, 2, 3]) {
                bytes_damaged(random, &mut sheet);
            }
            sheet
        }
    }
}

/// One number is written in a form that is none.
fn misformed(random: &mut Random, operations: &[Numbers], at: usize, number: usize) -> Vec<u8> {
    let mut sheet = written(&operations[..at]);
    for &before in &operations[at][..number] {
        put(&mut sheet, before);
    }
    bad_number(random, &mut sheet, operations[at][number]);
    for &after in &operations[at][number + 1..] {
        put(&mut sheet, after);
    }
    sheet.extend(written(&operations[at + 1..]));
    sheet
}

/// Writes a number that is not shortest, or too long.
pub fn bad_number(random: &mut Random, bytes: &mut Vec<u8>, value: u64) {
    match random.below(5) {
        0 | 1 => {
            put(bytes, value);
            if let Some(last) = bytes.last_mut() {
                *last += 128;
            }
            if random.one_in(3) {
                bytes.push(0x80);
            }
            bytes.push(0);
        }
        2 => put(bytes, 4_294_967_296 + value),
        3 => put(bytes, random.next() | 1 << 40),
        _ => bytes.extend([0x80, 0x80, 0x80, 0x80, random.pick(&[0x10, 0x7f, 0x80, 0xff])]),
    }
}

pub fn bytes_damaged(random: &mut Random, bytes: &mut Vec<u8>) {
    let length = bytes.len();
    if length == 0 {
        return bytes.push(random.next() as u8);
    }
    let at = random.place(length);
    match random.below(8) {
        0 | 1 => bytes.truncate(at),
        2 => bytes[at] ^= 1 << random.below(8),
        3 => bytes[at] = random.next() as u8,
        4 => bytes.insert(at, random.pick(&[0, 1, 2, 0x7f, 0x80, 0xff])),
        5 => drop(bytes.remove(at)),
        6 => bytes.extend((0..random.range(1, 4)).map(|i| (random.next() >> i) as u8).collect::<Vec<u8>>()),
        _ => bytes.push(random.pick(&[0, 1, 4, 5, 0x80, 0xff])),
    }
}
