//! Loose operations on a few registers, in any order.

use super::body::line;
use super::plan::Numbers;
use super::{vector_length, Made};
use crate::numbers::unsigned;
use crate::random::Random;

pub fn sheet(random: &mut Random) -> Made {
    let vl = vector_length(random);
    let registers: Vec<u64> = (0..random.range(1, 3)).map(|_| random.below(32)).collect();
    let mut operations = Vec::new();
    let count = random.pick(&[0, 1, 2, 3, 4, 5, 6, 8, 10, 14, 20, 30]);
    // The next kind follows from the last: mostly forward, now and then anywhere.
    let mut kind = 1;
    let mut register = random.pick(&registers);
    for _ in 0..count {
        operations.push(operation(random, kind, register));
        kind = match (kind, random.below(12)) {
            (_, 0) => random.range(1, 4),
            (1, _) => 2,
            (2, 1..=5) => 2,
            (2, 6..=8) => 3,
            (3, 1..=5) => 3,
            (3, 6..=8) => 2,
            (4, 1..=2) => random.range(2, 4),
            (4, _) => 1,
            _ => 4,
        };
        if kind == 1 || random.one_in(15) {
            register = random.pick(&registers);
        }
    }
    if random.one_in(2) {
        operations.push(run(random, &registers));
    }
    (operations, vl, random.pick(&[0, 1, 7, 8, 20, 64, 200]))
}

fn operation(random: &mut Random, kind: i64, register: u64) -> Numbers {
    match kind {
        1 => vec![1, word(random, register), random.pick(&[0, 0, 1, 8, 30, 1_048_576])],
        2 => {
            let offset = unsigned(random.range(-3, 3));
            let size = if random.one_in(4) { 0 } else { random.range(1, 6) as u64 };
            vec![2, register, offset, size, unsigned(random.range(-2, 3))]
        }
        3 => {
            let target = if random.one_in(6) { random.below(7) } else { random.below(2) };
            vec![3, register, target, random.below(3), random.below(2), random.pick(&[0, 0, 1, 1, 2, 3])]
        }
        _ => vec![4, register],
    }
}

fn word(random: &mut Random, register: u64) -> u64 {
    let kind = random.pick(&[4, 4, 4, 0, 0, 5, 1, 6, 2, 7, 3]);
    let coupling = if random.one_in(2) { 0 } else { 8 + random.pick(&[0, 0, 0, 1, 1, 2, 3, 4, 5, 6]) };
    let mut word = 0x0b + (register << 7) + (kind << 12) + (coupling << 27);
    if random.one_in(30) {
        word ^= 1 << random.below(32);
    }
    if random.one_in(60) {
        word |= random.pick(&[1 << 31, 1 << 24, (1 << 31) + (1 << 24), 7 << 27, (7 << 27) + (1 << 30)]);
    }
    word
}

fn run(random: &mut Random, registers: &[u64]) -> Numbers {
    let count = random.range(1, 3) as u64;
    let register = |random: &mut Random| if random.one_in(4) { random.below(32) } else { random.pick(registers) };
    let mut run = vec![5, register(random), count];
    for _ in 0..count {
        let first = register(random);
        let second = if random.one_in(2) { first } else { register(random) };
        let destination = register(random);
        run.extend(line(random, destination, first, second));
    }
    run
}
