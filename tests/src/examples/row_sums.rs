//! Examples of calculations 8 to 11, worked out by hand from request 2/14 of document 02.

use super::*;

const FOLDS: [u64; 4] = [8, 9, 10, 11];

/// A load stream on register 1: width code, base, size, stride.
fn load(code: u64, base: u64, size: u64, stride: i64) -> Vec<u64> {
    vec![1, word(Kind::Load, code, 1, 0), base, 2, 1, 0, size, unsigned(stride), 4, 1]
}

/// A store stream on register 3.
fn store(code: u64, base: u64, size: u64, stride: i64) -> Vec<u64> {
    vec![1, word(Kind::Store, code, 3, 0), base, 2, 3, 0, size, unsigned(stride), 4, 3]
}

fn body(lines: &[[u64; 4]]) -> Vec<u64> {
    [&[5, 1, lines.len() as u64], lines.concat().as_slice()].concat()
}

/// The valid lanes of a register and its width; what lies behind them must be zeros.
fn held(answer: &Answer, register: usize) -> (usize, Vec<u64>) {
    let register = &answer.registers[register];
    let (lanes, behind) = register.bytes.split_at(register.valid * register.width);
    assert!(behind.iter().all(|&byte| byte == 0));
    (register.width, lanes.chunks(register.width).map(crate::calculation::value).collect())
}

/// Bytes 200, 100, 128, 127, 127: as two's complement -56, 100, -128, 127, 127.
#[test]
fn one_chunk_of_bytes() {
    for (operation, expected) in FOLDS.into_iter().zip([170, 128, 127, 3]) {
        let mut memory = vec![200, 100, 128, 127, 127];
        let answer = ran(&[load(0, 0, 5, 1), body(&[[operation, 4, 1, 1]])].concat(), 8, &mut memory);
        assert_eq!((refused(&answer), answer.passes, answer.calculations), (None, 1, 1));
        assert_eq!(held(&answer, 4), (1, vec![expected]));
        assert_eq!(held(&answer, 1), (1, vec![200, 100, 128, 127, 127]));
    }
}

/// Two lanes of each width: -1 and -2, so that the sum wraps and the largest is negative.
#[test]
fn negative_lanes_of_every_width() {
    for code in 0..4 {
        let width = 1 << code;
        let top = u64::MAX >> (64 - 8 * width);
        let memory = [&(top - 1).to_le_bytes()[..width], &top.to_le_bytes()[..width]].concat();
        for (operation, expected) in FOLDS.into_iter().zip([top - 2, top - 1, top, 1]) {
            let answer = ran(&[load(code, 0, 2, 1), body(&[[operation, 4, 1, 1]])].concat(), 16, &mut memory.clone());
            assert_eq!(held(&answer, 4), (width, vec![expected]), "operation {operation}, width {width}");
        }
    }
}

/// The lowest lane among equal largest ones, wherever they are.
#[test]
fn ties_of_the_largest() {
    for (lanes, first) in [([9, 9, 9, 9], 0), ([1, 9, 9, 1], 1), ([0x80, 0xff, 0x80, 0xff], 1), ([0xff, 0x80, 0, 0], 2)] {
        let answer = ran(&[load(0, 0, 4, 1), body(&[[11, 4, 1, 1]])].concat(), 8, &mut lanes.map(|lane: u64| lane as u8));
        assert_eq!(held(&answer, 4), (1, vec![first]), "{lanes:x?}");
    }
}

/// Ten bytes at length 8: a chunk of 8 and one of 2. The store stream takes a single lane for each, moves on by 1, and stays open.
#[test]
fn ragged_row_into_a_store() {
    for (operation, expected) in FOLDS.into_iter().zip([[28, 17], [0, 8], [7, 9], [7, 1]]) {
        let mut memory = counting(16);
        let answer = ran(&[load(0, 0, 10, 1), store(0, 12, 3, 1), body(&[[operation, 3, 1, 1]])].concat(), 8, &mut memory);
        assert_eq!((refused(&answer), answer.passes), (None, 2));
        assert_eq!(memory, [&counting(12)[..], &expected, &[14, 15]].concat());
        assert_eq!((answer.registers[3].state, answer.registers[3].stream().moved), (State::Open, 2));
    }
}

/// A coupled stream gives a chunk for each row of three: a sum for each row at every vector length.
#[test]
fn coupled_rows() {
    let rows = [1, word(Kind::Load, 0, 1, 1), 0, 2, 1, 0, 3, unsigned(1), 2, 1, 0, 4, unsigned(4), 4, 1];
    for vl in (8..=64).step_by(8) {
        let mut memory = counting(20);
        let answer = ran(&[rows.to_vec(), store(0, 16, 4, 1), body(&[[8, 3, 1, 1]])].concat(), vl, &mut memory);
        assert_eq!((refused(&answer), answer.passes, &memory[16..]), (None, 4, &[3, 15, 27, 39][..]));
        assert_eq!(answer.registers[3].state, State::Finished);
    }
}

/// However the vector length cuts it, the partial sums of a row add up to the row's sum, modulo the width.
#[test]
fn partial_sums_of_any_cutting() {
    for code in 0..4 {
        let width = 1 << code;
        let memory: Vec<u8> = (0..37 * width).map(|i| (i * i + 201) as u8).collect();
        let values = memory.chunks(width).map(crate::calculation::value);
        let expected = values.fold(0, |sum, value| crate::calculation::lane(1, width, sum, value));
        for vl in (8..=64).step_by(8) {
            let mut memory = [&memory[..], &vec![0; 37 * width]].concat();
            let numbers = [load(code, 0, 37, 1), store(code, 37 << code, 37, 1), body(&[[8, 3, 1, 1]])].concat();
            let answer = ran(&numbers, vl, &mut memory);
            assert_eq!(answer.passes, 37_u64.div_ceil(vl >> code));
            let partial: Vec<u64> = memory[37 * width..].chunks(width).map(crate::calculation::value).collect();
            assert_eq!(crate::calculation::fold(8, width, &partial), expected, "width {width}, vector length {vl}");
        }
    }
}

/// A fresh register has width 1 and no lanes: its sum is a single lane, 0, in a plain register and in a store stream.
#[test]
fn sum_over_no_lanes() {
    let mut memory = vec![7; 8];
    let lines = [[0, 4, 1, 1], [8, 5, 9, 9], [8, 3, 9, 9], [8, 4, 9, 9]];
    let answer = ran(&[load(1, 0, 2, 1), store(0, 6, 2, 1), body(&lines)].concat(), 8, &mut memory);
    assert_eq!((refused(&answer), answer.calculations), (None, 4));
    assert_eq!((held(&answer, 5), held(&answer, 4), held(&answer, 9)), ((1, vec![0]), (1, vec![0]), (1, vec![])));
    assert_eq!((&memory, answer.registers[3].stream().moved), (&vec![7, 7, 7, 7, 7, 7, 0, 7], 1));
}

/// 18 has the calculation's place, and nothing moves.
#[test]
fn no_lanes() {
    for operation in [9, 10, 11] {
        let mut memory = counting(8);
        let numbers = [load(0, 0, 5, 1), store(0, 6, 2, 1), body(&[[0, 4, 1, 1], [operation, 3, 9, 9]])].concat();
        let answer = ran(&numbers, 8, &mut memory);
        let place = sheet(&numbers).len() - 4;
        assert_eq!((refused(&answer), answer.passes, answer.calculations), (Some((18, place)), 0, 1));
        assert_eq!((outside(&answer), &report(&answer)[4..8]), (None, &[0; 4][..]));
        assert_eq!((memory, answer.registers[3].stream().moved), (counting(8), 0));
    }
}

/// 5, 10, 11 and 12 come before 18, and 14 after it.
#[test]
fn no_lanes_in_turn() {
    let (near, far) = (store(0, 0, 2, 1), store(0, 8, 2, 1));
    let empty = store(0, 0, 0, 1);
    let cases: [(&[u64], u64, u64); 7] =
        [(&near, 3, 18), (&far, 3, 18), (&store(1, 8, 2, 1), 3, 12), (&near[..3], 3, 5), (&empty, 3, 11), (&near, 1, 10), (&near, 9, 18)];
    for (operation, (streams, destination, number)) in [9, 10, 11].into_iter().flat_map(|operation| cases.map(|case| (operation, case))) {
        let numbers = [&load(0, 0, 5, 1), streams, &body(&[[operation, destination, 9, 9], [0, 4, 1, 1]])].concat();
        let answer = ran(&numbers, 8, &mut counting(8));
        assert_eq!((refused(&answer).map(|(number, _)| number), answer.calculations), (Some(number), 0), "{numbers:?}");
    }
    // A sum does without lanes: the element to be written is looked at.
    let answer = ran(&[load(0, 0, 5, 1), far, body(&[[8, 3, 9, 9], [0, 4, 1, 1]])].concat(), 8, &mut counting(8));
    assert_eq!(outside(&answer), Some((0, Role::Destination, 8)));
}

/// 14: the source's chunk first, then the single element to be written. What lies behind that one does not count.
#[test]
fn fold_outside() {
    // The source has bytes 0 to 4, or runs out of a memory of 16 bytes at lane 2; so has the store stream.
    for (source, written, expected) in [
        ((0, 1), (15, 1), None),
        ((0, 1), (16, -1), Some((0, Role::Destination, 16))),
        ((14, 1), (15, 1), Some((2, Role::First, 16))),
        ((14, 1), (16, 1), Some((2, Role::First, 16))),
        ((1, -1), (0, -1), Some((2, Role::First, -1))),
        ((4, -1), (0, -1), None),
    ] {
        for operation in FOLDS {
            let numbers = [load(0, source.0, 5, source.1), store(0, written.0, 5, written.1), body(&[[operation, 3, 1, 1]])].concat();
            let answer = ran(&numbers, 8, &mut counting(16));
            assert_eq!((outside(&answer), answer.passes), (expected, u64::from(expected.is_none())), "{numbers:?}");
        }
    }
}

/// A plain destination has a single lane afterwards, whatever it had before; also where it is the source.
#[test]
fn no_old_lanes() {
    for operation in FOLDS {
        let lines = [[0, 4, 1, 1], [0, 5, 4, 4], [operation, 5, 4, 4], [operation, 4, 4, 4]];
        let answer = ran(&[load(1, 0, 4, 1), body(&lines)].concat(), 8, &mut [1, 0, 9, 0, 3, 0, 9, 0]);
        let expected = [22, 1, 9, 1][operation as usize - 8];
        assert_eq!((held(&answer, 4), held(&answer, 5)), ((2, vec![expected]), (2, vec![expected])));
    }
}

/// A second source that is not the first, and a code above 11: 2, at the calculation's place, though the loop register is finished and no pass
/// would follow.
#[test]
fn refused_at_reading() {
    let open = load(0, 0, 0, 1);
    let at = sheet(&open).len() + 3;
    for (line, expected) in [
        ([8, 4, 1, 2], Clause::SumDiffers),
        ([9, 4, 1, 2], Clause::SmallestDiffers),
        ([10, 4, 2, 1], Clause::LargestDiffers),
        ([11, 4, 2, 1], Clause::FirstLargestDiffers),
        ([12, 4, 1, 1], Clause::CalculationOperation),
        ([12, 40, 41, 42], Clause::CalculationOperation),
        ([8, 32, 1, 2], Clause::CalculationDestination),
        ([8, 4, 32, 1], Clause::CalculationFirst),
        ([8, 4, 1, 32], Clause::CalculationSecond),
    ] {
        let answer = ran(&[open.clone(), body(&[line])].concat(), 8, &mut [0; 8]);
        assert_eq!(answer.refusal, Some(Refusal::at(at, expected)));
        assert_eq!(expected.number(), 2);
    }
    for operation in FOLDS {
        assert_eq!(refused(&ran(&[open.clone(), body(&[[operation, 4, 1, 1]])].concat(), 8, &mut [])), None);
    }
}

/// A nest's operations stay 1 to 7.
#[test]
fn nests_do_not_fold() {
    for operation in 8..=12 {
        let nest = sheet(&[0, 1, 0, operation, 3, 0, 2, 8, 2, 16, 2]);
        assert_eq!(nest::translate(&nest, &mut [0; 1_024]), Err((Clause::NestOperationAbove, 3)));
    }
}
