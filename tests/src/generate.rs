//! Sheets to be tried: valid, near-valid, damaged, loose operations, extreme. Every one comes from a seed and a number.

pub mod body;
pub mod damage;
pub mod draft;
pub mod extreme;
pub mod fixed;
pub mod nests;
pub mod plan;
pub mod ragged;
pub mod soup;
pub mod sums;

use crate::numbers::put;
use crate::random::Random;
use draft::Draft;
use plan::Numbers;

#[derive(Clone, Copy, PartialEq, Eq, Debug)]
pub enum Style {
    Valid,
    Near,
    Damaged,
    Soup,
    Extreme,
}

impl Style {
    pub const ALL: [Style; 5] = [Style::Valid, Style::Near, Style::Damaged, Style::Soup, Style::Extreme];
}

/// A sheet, with the vector length and the memory to run it on.
#[derive(Clone)]
pub struct SheetInput {
    pub style: Style,
    pub sheet: Vec<u8>,
    pub vl: u64,
    pub memory: Vec<u8>,
}

/// The sheet of a seed and a number.
pub fn sheet(seed: u64, number: u64) -> SheetInput {
    let mut random = Random::new(seed, 2 * number);
    let style = match random.below(100) {
        0..=23 => Style::Valid,
        24..=63 => Style::Near,
        64..=81 => Style::Damaged,
        82..=95 => Style::Soup,
        _ => Style::Extreme,
    };
    let (operations, vl, memory) = match style {
        Style::Valid => draft(&mut random, |_, _| {}),
        Style::Near => draft(&mut random, |random, draft| draft.disturb(random)),
        Style::Damaged => draft(&mut random, |random, draft| {
            if random.one_in(4) {
                draft.disturb(random);
            }
        }),
        Style::Soup => soup::sheet(&mut random),
        Style::Extreme => extreme::sheet(&mut random),
    };
    let sheet = match style {
        Style::Damaged => damage::damaged(&mut random, operations),
        _ => written(&operations),
    };
    let (vl, memory) = lengths(&mut random, vl, memory);
    let memory = if random.one_in(6) { random.few_bytes(memory) } else { random.bytes(memory) };
    SheetInput { style, sheet, vl, memory }
}

type Made = (Vec<Numbers>, u64, usize);

fn draft(random: &mut Random, change: impl Fn(&mut Random, &mut Draft)) -> Made {
    let mut draft = match random.below(16) {
        0 | 1 => sums::draft(random),
        2 | 3 => ragged::draft(random),
        _ => Draft::new(random),
    };
    change(random, &mut draft);
    (draft.operations(random), draft.vl, draft.memory.clamp(0, 65_536) as usize)
}

/// The bytes of some operations.
pub fn written(operations: &[Numbers]) -> Vec<u8> {
    let mut bytes = Vec::new();
    for &number in operations.iter().flatten() {
        put(&mut bytes, number);
    }
    bytes
}

pub fn vector_length(random: &mut Random) -> u64 {
    if random.one_in(3) {
        8
    } else {
        8 * random.range(1, 8) as u64
    }
}

/// Now and then a length that is not allowed, or a memory at the limit.
fn lengths(random: &mut Random, vl: u64, memory: usize) -> (u64, usize) {
    match random.below(400) {
        0..=3 => {
            let edges =
                [0, 1, 4, 7, 9, 12, 15, 17, 63, 65, 68, 72, 80, 128, 4_096, 1 << 32, (1 << 32) + 8, 1 << 63, u64::MAX - 7, u64::MAX];
            (random.pick(&edges), memory)
        }
        4 => (random.below(80), memory),
        5 => (vl, random.pick(&[65_536, 65_536, 65_537, 65_540, 70_000])),
        _ => (vl, memory),
    }
}
