//! Nests to be tried: valid, near-valid, damaged, extreme.

use super::damage::{bad_number, bytes_damaged};
use super::plan::Shape;
use super::{ragged, vector_length, Style};
use crate::nest::{read, Loop, Nest, Operand};
use crate::numbers::{put, unsigned};
use crate::random::Random;

/// A nest, the length of the room for its sheet, and what to run the sheet on.
#[derive(Clone)]
pub struct NestInput {
    pub style: Style,
    pub nest: Vec<u8>,
    pub room: usize,
    pub memory: Vec<u8>,
    pub vls: Vec<u64>,
}

const MOST: i64 = 1_048_576;

/// The nest of a seed and a number.
pub fn nest(seed: u64, number: u64) -> NestInput {
    let mut random = Random::new(seed, 2 * number + 1);
    let style = match random.below(20) {
        0..=8 => Style::Valid,
        9..=12 => Style::Near,
        13..=16 => Style::Damaged,
        _ => Style::Extreme,
    };
    let mut nest = drafted(&mut random);
    match style {
        Style::Near => disturbed(&mut random, &mut nest),
        Style::Extreme => extreme(&mut random, &mut nest),
        _ => {}
    }
    let memory = place(&mut random, &mut nest, style);
    let bytes = match style {
        Style::Damaged => damaged(&mut random, numbers(&nest)),
        _ => written(&numbers(&nest)),
    };
    let vls = (0..random.pick(&[1, 1, 2, 4])).map(|_| vector_length(&mut random)).collect();
    NestInput { style, room: room(&mut random, &bytes), nest: bytes, memory: random.bytes(memory), vls }
}

/// The numbers of a nest, in order.
fn numbers(nest: &Nest) -> Vec<u64> {
    let mut numbers = vec![u64::from(nest.width.trailing_zeros()), nest.loops.len() as u64, nest.coupled as u64, nest.operation];
    for this in &nest.loops {
        numbers.push(this.number as u64);
        numbers.extend(this.terms.iter().map(|&term| unsigned(term)));
    }
    for operand in &nest.operands {
        numbers.push(operand.base as u64);
        numbers.extend(operand.strides.iter().map(|&stride| unsigned(stride)));
    }
    numbers
}

fn written(numbers: &[u64]) -> Vec<u8> {
    let mut bytes = Vec::new();
    for &number in numbers {
        put(&mut bytes, number);
    }
    bytes
}

/// A nest that is accepted, its bases still to be chosen.
fn drafted(random: &mut Random) -> Nest {
    let ragged = random.one_in(6);
    let (shape, coupled) = if ragged { ragged::shape(random) } else { (Shape::small(random), 0) };
    let depth = shape.sizes.len();
    let mut loops: Vec<Loop> = (1..=depth).map(|this| Loop { number: shape.sizes[this - 1], terms: vec![0; depth - this] }).collect();
    for modifier in &shape.modifiers {
        let term = if modifier.adds { modifier.displacement } else { -modifier.displacement };
        loops[modifier.target - 1].terms[modifier.owner - modifier.target - 1] += term;
    }
    let operands = (0..3).map(|_| Operand { base: 0, strides: strides(random, &shape) }).collect();
    let coupled = match (ragged, random.one_in(2)) {
        (true, _) => coupled as usize,
        (false, true) => 0,
        (false, false) => random.range(1, depth as i64) as usize,
    };
    Nest { width: 1 << random.below(4), coupled, operation: random.range(1, 7) as u64, loops, operands }
}

fn strides(random: &mut Random, shape: &Shape) -> Vec<i64> {
    let mut row = 1;
    let mut strides = Vec::new();
    for &size in &shape.sizes {
        strides.push(match random.below(9) {
            0 => 0,
            1 => random.range(-9, 9),
            2 => -row,
            3 => row + random.range(1, 3),
            _ => row,
        });
        row = (row * size.clamp(1, 40)).min(400);
    }
    strides
}

/// Chooses the bases, and answers the length of the memory.
fn place(random: &mut Random, nest: &mut Nest, style: Style) -> usize {
    let free = style == Style::Extreme && random.one_in(3);
    if nest.loops.len() > 7 || free || read(&written(&numbers(nest))).is_err() {
        return random.pick(&[0, 8, 64, 300]);
    }
    if random.one_in(5) {
        nest.operands[2] = nest.operands[random.place(2)].clone();
    }
    let mut from = random.range(0, 5);
    let mut memory = 0;
    for operand in 0..3 {
        nest.operands[operand].base = 0;
        let (least, behind) = span(nest, operand);
        nest.operands[operand].base = (from - least).clamp(0, MOST);
        let behind = behind + nest.operands[operand].base;
        memory = memory.max(behind);
        from = if random.one_in(4) { random.range(0, 20) } else { behind.clamp(0, 60_000) };
    }
    if nest.operands[2].strides == nest.operands[0].strides && random.one_in(2) {
        nest.operands[2].base = nest.operands[0].base;
    }
    match random.below(8) {
        0 => memory -= random.range(1, 20),
        1 => memory += random.range(1, 20),
        _ => {}
    }
    memory.clamp(0, 65_536) as usize
}

/// The first byte of an operand and the first byte behind it, over the first visits.
fn span(nest: &Nest, operand: usize) -> (i64, i64) {
    let (mut least, mut most) = (i64::MAX, i64::MIN);
    let mut visits = 0;
    nest.visits(&mut |index| {
        let address = nest.address(operand, index);
        least = least.min(address);
        most = most.max(address);
        visits += 1;
        visits < 13_000
    });
    if most < least {
        return (0, 0);
    }
    (least, most + nest.width as i64)
}

/// Breaks one rule, or nearly.
fn disturbed(random: &mut Random, nest: &mut Nest) {
    let depth = nest.loops.len();
    let this = random.place(depth);
    match random.below(12) {
        0 => nest.coupled = depth + random.range(0, 1) as usize,
        1 => nest.operation = random.pick(&[0, 8, 9, 10, 11, 12]),
        2 => nest.loops[this].number = random.pick(&[4_096, 4_097, 5_000]),
        3 | 4 => many_terms(random, nest),
        5 | 6 => far_term(random, nest),
        7 => {
            nest.loops[0].number = 1_024 + random.range(-1, 1);
            nest.loops[depth - 1].number = 1_024 + random.range(-1, 1);
        }
        8 => {
            let operand = random.place(3);
            nest.operands[operand].strides[this] = random.pick(&[MOST, -MOST, MOST + 1, -MOST - 1]);
        }
        9 => nest.operands[random.place(3)].base = random.pick(&[MOST, MOST + 1]),
        10 => nest.width = random.pick(&[8, 16]),
        _ => nest.loops[this].number = (nest.loops[this].number - random.range(1, 5)).max(0),
    }
}

/// Seven loops with eight or nine nonzero terms, or so.
fn many_terms(random: &mut Random, nest: &mut Nest) {
    let depth = random.range(5, 7) as usize;
    let mut left = random.pick(&[7, 8, 8, 9, 9, 10]);
    nest.loops = (1..=depth).map(|this| Loop { number: random.range(1, 2), terms: vec![0; depth - this] }).collect();
    while left > 0 {
        let inner = random.place(depth - 1);
        let terms = &mut nest.loops[inner].terms;
        let outward = random.place(terms.len());
        if terms[outward] == 0 {
            terms[outward] = random.pick(&[1, 1, 1, 2, -1]);
            left -= 1;
        }
    }
    for operand in &mut nest.operands {
        operand.strides = (0..depth).map(|_| random.range(-4, 12)).collect();
    }
    nest.coupled = random.below(depth as u64 + 1) as usize;
}

/// A term that takes a count to one of its limits, or over it.
fn far_term(random: &mut Random, nest: &mut Nest) {
    let depth = nest.loops.len();
    if depth < 2 {
        return;
    }
    let inner = random.place(depth - 1);
    let outward = random.place(depth - 1 - inner);
    let steps = (nest.loops[inner + 1 + outward].number - 1).max(1);
    let number = nest.loops[inner].number;
    let term = if random.one_in(2) { (4_096 - number) / steps } else { -(number / steps) };
    nest.loops[inner].terms[outward] = term + random.range(-1, 1);
}

fn extreme(random: &mut Random, nest: &mut Nest) {
    let depth = nest.loops.len();
    let this = random.place(depth);
    match random.below(8) {
        0 => nest.loops[this].number = 4_096,
        1 => many_terms(random, nest),
        2 if depth >= 2 => {
            // A term without effect: the loop outside runs once at most.
            nest.loops[depth - 1].number = random.pick(&[0, 1, 1]);
            nest.loops[depth - 1].terms.clear();
            nest.loops[0].terms[depth - 2] = random.pick(&[MOST, -MOST]);
        }
        3 => nest.operands[random.place(3)].strides[this] = random.pick(&[MOST, -MOST, MOST - 1]),
        4 => nest.operands[random.place(3)].base = MOST,
        5 => {
            let rows = random.range(1, 3);
            nest.loops = vec![Loop { number: random.range(600, 4_096), terms: vec![0] }, Loop { number: rows, terms: vec![] }];
            for operand in &mut nest.operands {
                operand.strides = vec![1, random.pick(&[0, 1, 4_096])];
            }
            nest.coupled = random.below(3) as usize;
        }
        6 => {
            let rows = random.range(30, 90);
            nest.loops = vec![Loop { number: 0, terms: vec![1] }, Loop { number: rows, terms: vec![] }];
            for operand in &mut nest.operands {
                operand.strides = vec![1, rows];
            }
            nest.coupled = random.below(3) as usize;
        }
        _ => nest.loops[this].number = 0,
    }
}

/// The first number out of range at each place of a nest, or a number in a form that is none, or changed bytes.
fn damaged(random: &mut Random, mut numbers: Vec<u64>) -> Vec<u8> {
    let at = if random.one_in(4) { random.place(4) } else { random.place(numbers.len()) };
    match random.below(8) {
        0..=2 => {
            numbers[at] = match at {
                0 => 4,
                1 => random.pick(&[0, 8]),
                2 => 8,
                3 => random.pick(&[0, 8, 11]),
                _ => random.pick(&[4_097, 1_048_577, 2_097_153, 2_097_154, 4_294_967_295, 4_294_967_294]),
            };
            written(&numbers)
        }
        3 | 4 => {
            let mut bytes = written(&numbers[..at]);
            bad_number(random, &mut bytes, numbers[at]);
            bytes.extend(written(&numbers[at + 1..]));
            bytes
        }
        5 => {
            let mut bytes = written(&numbers);
            bytes.push(random.next() as u8);
            bytes
        }
        _ => {
            let mut bytes = written(&numbers);
            bytes_damaged(random, &mut bytes);
            bytes
        }
    }
}

/// The length of a room: too short, exact, longer.
fn room(random: &mut Random, nest: &[u8]) -> usize {
    let exact = read(nest).map_or(60, |nest| nest.sheet().len());
    match random.below(8) {
        0 => exact - 1,
        1 => random.place(exact),
        2 => 0,
        3 | 4 => exact,
        5 => 1_024,
        _ => exact + random.place(40),
    }
}
