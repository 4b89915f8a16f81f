//! Inputs that are tried on every run, whatever the seed: the text's examples over many memories and vector lengths, folds of all widths,
//! rows with nothing in them, the sheets of the mark, and the longest runs.

use super::nests::NestInput;
use super::{written, SheetInput, Style};
use crate::hex::bytes_of;
use crate::mark;
use crate::numbers::unsigned;

/// Row sums of a triangle that shrinks to nothing, and the image that it is run on.
pub const EMPTY_ROWS: &str = include_str!("../../../examples/empty-rows.hex");
pub const IMAGE: &str = include_str!("../../../examples/image.hex");

fn input(numbers: Vec<u64>, vl: u64, memory: usize) -> SheetInput {
    let memory = (0..memory).map(|i| (7 * i + 3) as u8).collect();
    SheetInput { style: Style::Valid, sheet: written(&[numbers]), vl, memory }
}

/// The triangle, its chunks copied to register 4.
fn triangle(coupling: u64) -> Vec<u64> {
    let (one, eight) = (unsigned(1), unsigned(8));
    vec![1, 0x408b + coupling, 0, 2, 1, 0, 1, one, 2, 1, 0, 4, eight, 3, 1, 0, 0, 0, 1, 4, 1, 5, 1, 1, 0, 4, 1, 1]
}

/// Size 4 shrinking by 1, over some rows.
fn shrinking(rows: u64) -> Vec<u64> {
    let one = unsigned(1);
    vec![1, 0x408b, 0, 2, 1, 0, 4, one, 2, 1, 0, rows, one, 3, 1, 0, 0, 1, 1, 4, 1, 5, 1, 1, 0, 4, 1, 1]
}

fn product(size: u64) -> Vec<u64> {
    vec![1, 0x408b, 0, 2, 1, 0, 1_024, 0, 2, 1, 0, size, 0, 4, 1]
}

fn words() -> Vec<u64> {
    vec![1, 0x5608b, 4, 2, 1, 0, 5, unsigned(2), 4, 1, 5, 1, 1, 0, 2, 1, 1]
}

/// Register 3 takes the sums of registers 1 and 2, each a stream of 70 elements with a base and a stride of its own.
fn added(code: u64, streams: [(u64, i64); 3]) -> Vec<u64> {
    let mut numbers = Vec::new();
    for (register, (base, stride)) in (1..).zip(streams) {
        let load = if register < 3 { 4 } else { 0 };
        numbers.extend([1, 0x0b + (register << 7) + ((load + code) << 12), base, 2, register, 0, 70, unsigned(stride), 4, register]);
    }
    numbers.extend([5, 1, 1, 1, 3, 1, 2]);
    numbers
}

/// Sums of which a stream runs out of memory, one of the three or more: at every lane, above and below. The others stay at byte 0.
fn outside(vl: u64) -> Vec<SheetInput> {
    let code = vl / 8 % 4;
    let still = (0, 0);
    let mut inputs = Vec::new();
    for memory in 0..=80 {
        let (one, further) = ((9, 1), (20, 1));
        for streams in [[one, still, still], [still, one, still], [still, still, one], [one, further, further], [still, one, further]] {
            inputs.push(input(added(code, streams), vl, memory));
        }
    }
    for base in 0..=63 {
        let down = (base, -1);
        for streams in [[down, still, still], [still, down, still], [still, still, down]] {
            inputs.push(input(added(code, streams), vl, 80));
        }
    }
    inputs
}

/// A load stream of so many elements, register 1, and a store stream behind them, register 3, with a body.
fn folded(code: u64, elements: u64, body: &[u64]) -> Vec<u64> {
    let one = unsigned(1);
    let load = [1, 0x408b + (code << 12), 0, 2, 1, 0, elements, one, 4, 1];
    let store = [1, 0x018b + (code << 12), elements << code, 2, 3, 0, 9, one, 4, 3];
    [&load[..], &store, &[5, 1, body.len() as u64 / 4], body].concat()
}

/// Lanes in rising and falling order, all equal, all but one, and at the edges of the signed range.
fn patterns(length: usize) -> Vec<Vec<u8>> {
    let bytes = |byte: &dyn Fn(usize) -> usize| (0..length).map(|i| byte(i) as u8).collect();
    vec![
        bytes(&|i| 3 * i),
        bytes(&|i| 255 - 5 * i % 256),
        bytes(&|_| 0),
        bytes(&|_| 0x80),
        bytes(&|_| 0xff),
        bytes(&|i| if i / 8 == 1 { 0x7f } else { 0x80 }),
        bytes(&|i| [0x00, 0x80, 0xff, 0x7f][i / 8 % 4]),
        bytes(&|i| [0x01, 0x80, 0x80, 0x7f, 0xff][i % 5]),
    ]
}

/// Each of 8 to 11 over chunks: kept and then folded into a store stream, into another register and into the same one; and folded at once
/// into the store stream, of which the elements behind the one to be written lie outside, or that one does, or elements of the source.
fn folds(vl: u64) -> Vec<SheetInput> {
    let mut inputs = Vec::new();
    for (operation, code) in (8..=11).flat_map(|operation| (0..4).map(move |code| (operation, code))) {
        let lanes = vl >> code;
        let kept = [0, 4, 1, 1, operation, 3, 4, 4, operation, 5, 4, 4, operation, 4, 4, 4];
        let at_once = [operation, 3, 1, 1];
        for elements in [1, 2, lanes - lanes / 2, lanes, lanes + 1, 2 * lanes + 1] {
            for memory in patterns(((elements + 9) << code) as usize) {
                inputs.push(SheetInput { memory, ..input(folded(code, elements, &kept), vl, 0) });
            }
            for memory in [2 * elements + 1, 2 * elements, 2 * elements - 1, elements] {
                inputs.push(input(folded(code, elements, &at_once), vl, (memory << code >> 1) as usize + 1));
                inputs.push(input(folded(code, elements, &at_once), vl, (memory << code >> 1) as usize));
            }
        }
    }
    inputs
}

/// A fold of a fresh register into a store stream, inside memory or outside, or of another width, or being configured: the checks before
/// 18, and the one behind it.
fn folds_of_nothing() -> Vec<SheetInput> {
    let mut inputs = Vec::new();
    for (operation, code) in (8..=11).flat_map(|operation| (0..4).map(move |code| (operation, code))) {
        for base in [0, 7, 8, 9] {
            let load = [1, 0x408b, 0, 2, 1, 0, 3, unsigned(1), 4, 1];
            let store = [1, 0x018b + (code << 12), base, 2, 3, 0, 2, unsigned(-9), 4, 3];
            let body = [5, 1, 2, 0, 4, 1, 1, operation, 3, 9, 9];
            inputs.push(input([&load[..], &store, &body].concat(), 8, 8));
            inputs.push(input([&load[..], &store[..8], &body].concat(), 8, 8));
        }
    }
    inputs
}

/// Codes around 8 to 11, and second sources other than the first.
fn folds_misread() -> Vec<SheetInput> {
    let load = [1, 0x408b, 0, 2, 1, 0, 3, unsigned(1), 4, 1];
    let lines = (0..=14).flat_map(|operation| [[operation, 4, 1, 1], [operation, 4, 1, 2], [operation, 4, 2, 1]]);
    lines.map(|line| input([&load[..], &[5, 1, 1], &line].concat(), 8, 8)).collect()
}

/// A stream of a shape: each dimension a size and a stride, with the numbers of a modifier behind some.
fn shaped(register: u64, word: u64, base: u64, shape: &[&[u64]]) -> Vec<u64> {
    let mut numbers = vec![1, word + (register << 7), base];
    for dimension in shape {
        numbers.extend([2, register, 0, dimension[0], unsigned(dimension[1] as i64)]);
        if dimension.len() > 2 {
            numbers.extend([&[3, register], &dimension[2..]].concat());
        }
    }
    numbers.extend([4, register]);
    numbers
}

/// Rows that shrink to nothing, that grow from it, that do so two at a time, passes of fewer and fewer rows, and no element at all: two
/// load streams and a store stream of that shape, coupled to each dimension or to none, and a store stream of single elements. They are
/// copied, added, folded into both stores; and what has no lanes is stored among it.
fn ragged(vl: u64) -> Vec<SheetInput> {
    // A modifier: target, parameter, behaviour, displacement.
    let shapes: [[&[u64]; 3]; 5] = [
        [&[3, 1], &[4, 4, 0, 0, 1, 1], &[2, 16]],
        [&[0, 1], &[4, 4, 0, 0, 0, 1], &[2, 16]],
        [&[2, 1], &[2, 4], &[3, 8, 0, 0, 1, 1]],
        [&[3, 1], &[3, 4], &[4, 8, 1, 0, 1, 1]],
        [&[2, 1], &[0, 4], &[2, 8]],
    ];
    let mut bodies: Vec<Vec<u64>> = vec![
        vec![0, 3, 1, 1],
        vec![1, 3, 1, 2],
        vec![0, 5, 1, 1, 0, 3, 5, 5],
        vec![0, 3, 9, 9, 0, 3, 1, 1],
        vec![0, 3, 1, 1, 0, 3, 9, 9],
        vec![8, 5, 1, 1, 0, 3, 5, 5],
        vec![0, 5, 1, 1, 1, 3, 5, 2],
        vec![1, 5, 1, 9, 0, 3, 5, 5],
    ];
    for fold in 8..=11 {
        bodies.extend([vec![fold, 4, 1, 1], vec![fold, 3, 1, 1], vec![fold, 5, 1, 1, 0, 4, 5, 5]]);
    }
    let code = vl / 8 % 4;
    let mut inputs = Vec::new();
    for (shape, coupled) in shapes.iter().flat_map(|shape| (0..=3).map(move |coupled| (shape, coupled))) {
        let coupling = if coupled == 0 { 0 } else { (8 + coupled - 1) << 27 };
        let (load, store) = (0x400b + (code << 12) + coupling, 0x0b + (code << 12) + coupling);
        let streams = [
            shaped(1, load, 0, shape),
            shaped(2, load, 1, shape),
            shaped(3, store, 40 << code, shape),
            shaped(4, 0x0b + (code << 12), 80 << code, &[&[40, 1]]),
        ];
        for body in &bodies {
            for memory in [120, 84, 50, 0] {
                let run = [&[5, 1, body.len() as u64 / 4], &body[..]].concat();
                inputs.push(input([streams.concat(), run].concat(), vl, memory << code));
            }
        }
    }
    inputs
}

/// 1,048,576 passes: elements of 8 bytes, one a chunk, all at one place.
fn longest() -> Vec<u64> {
    vec![1, 0x708b, 0, 2, 1, 0, 4_096, 0, 2, 1, 0, 256, 0, 4, 1, 5, 1, 1, 0, 2, 1, 1]
}

/// As many chunks of no lanes, each summed up.
fn longest_of_nothing() -> Vec<u64> {
    vec![1, 0x4000_408b, 0, 2, 1, 0, 0, 0, 2, 1, 0, 4_096, 0, 2, 1, 0, 256, 0, 4, 1, 5, 1, 1, 8, 2, 1, 1]
}

pub fn sheets() -> Vec<SheetInput> {
    let mut inputs = vec![input(longest(), 8, 8), input(longest_of_nothing(), 8, 0)];
    inputs.extend([input(vec![], 8, 0), input(vec![1, 0x5608b, 0, 1, 0x6218b, 0], 8, 0)]);
    for vl in (8..=64).step_by(8) {
        for memory in 0..=30 {
            for coupling in [0, 1 << 30, 9 << 27, 10 << 27] {
                inputs.push(input(triangle(coupling), vl, memory));
            }
        }
        for memory in 3..=42 {
            inputs.push(input(words(), vl, memory));
        }
        inputs.extend(outside(vl));
        inputs.extend(folds(vl));
        inputs.extend(ragged(vl));
    }
    for (job, vl) in mark::JOBS.iter().flat_map(|job| mark::VECTOR_LENGTHS.map(|vl| (job, vl))) {
        inputs.push(SheetInput { style: Style::Valid, sheet: job.sheet(), vl, memory: job.memory(&mark::mark()) });
    }
    for vl in mark::VECTOR_LENGTHS {
        let (sheet, memory) = (bytes_of(EMPTY_ROWS), bytes_of(IMAGE));
        inputs.push(SheetInput { style: Style::Valid, sheet, vl, memory });
    }
    inputs.extend(folds_of_nothing());
    inputs.extend(folds_misread());
    for rows in 0..=8 {
        inputs.push(input(shrinking(rows), 8, 12));
    }
    for size in 1_020..=1_030 {
        inputs.push(input(product(size), 8, 0));
    }
    inputs
}

/// The text's nest in rooms of many lengths, whole and cut off.
pub fn nests() -> Vec<NestInput> {
    let nest = vec![0x00, 0x01, 0x00, 0x01, 0x03, 0x00, 0x02, 0x08, 0x02, 0x10, 0x02];
    let mut inputs = Vec::new();
    for room in 0..=44 {
        let memory = (0..24).collect();
        inputs.push(NestInput { style: Style::Valid, nest: nest.clone(), room, memory, vls: (8..=64).step_by(8).collect() });
    }
    for length in 0..nest.len() {
        inputs.push(NestInput { style: Style::Valid, nest: nest[..length].to_vec(), room: 60, memory: vec![], vls: vec![] });
    }
    inputs
}
