//! Examples of coupled passes without elements, worked out by hand from request 3/14 of document 02.

use super::*;
use crate::generate::fixed::{EMPTY_ROWS, IMAGE};
use crate::hex::bytes_of;

/// A stream of bytes on a register, all strides 1: its coupled dimension and its sizes, with the numbers of modifiers behind some of them.
fn stream(kind: Kind, register: u64, coupled: u64, base: u64, dimensions: &[&[u64]]) -> Vec<u64> {
    let mut numbers = vec![1, word(kind, 0, register, coupled), base];
    for dimension in dimensions {
        numbers.extend([2, register, 0, dimension[0], unsigned(1)]);
        for modifier in dimension[1..].chunks(4) {
            numbers.extend([&[3, register], modifier].concat());
        }
    }
    numbers.extend([4, register]);
    numbers
}

/// Behind a size: the size of a dimension shrinks by 1, or grows by 1.
const SHRINKS_1: [u64; 4] = [0, 0, 1, 1];
const SHRINKS_2: [u64; 4] = [1, 0, 1, 1];
const GROWS_1: [u64; 4] = [0, 0, 0, 1];
const GROWS_2: [u64; 4] = [1, 0, 0, 1];

fn with(size: u64, modifier: [u64; 4]) -> Vec<u64> {
    [&[size][..], &modifier].concat()
}

/// A load stream on register 30 that gives a single lane so many times, and a run of so many passes over it. Its lanes go to register 31.
fn times(passes: u64, lines: &[[u64; 4]]) -> Vec<u64> {
    let counted = stream(Kind::Load, 30, 1, 0, &[&[1], &[passes]]);
    let run = [5, 30, lines.len() as u64 + 1, 0, 31, 30, 30];
    [&counted[..], &run, &lines.concat()].concat()
}

/// Lanes and flags of register 1 after each of the chunks of a load stream, all of them: the state is open until the last.
fn chunks(coupled: u64, dimensions: &[&[u64]], vl: u64, expected: &[(usize, &str)]) {
    let load = stream(Kind::Load, 1, coupled, 0, dimensions);
    assert_eq!(ran(&load, vl, &mut []).registers[1].state, State::Open);
    assert!(flags(&ran(&load, vl, &mut []), 1).iter().all(|flag| !flag));
    for (n, &(lanes, set)) in (1..).zip(expected) {
        let answer = ran(&[load.clone(), times(n, &[[0, 2, 1, 1]])].concat(), vl, &mut counting(32));
        let found: String = flags(&answer, 1).iter().map(|&flag| if flag { '1' } else { '0' }).collect();
        assert_eq!((refused(&answer), answer.passes, answer.calculations), (None, n, 2 * n), "chunk {n}");
        assert_eq!((answer.registers[1].valid, answer.registers[2].valid, found.as_str()), (lanes, lanes, set), "chunk {n}");
        assert_eq!(answer.registers[1].bytes[lanes..], [0; 64][lanes..], "chunk {n}");
        let state = if n as usize == expected.len() { State::Finished } else { State::Open };
        assert_eq!(answer.registers[1].state, state, "chunk {n}");
    }
    // As a loop register it makes as many passes.
    let answer = ran(&[load, vec![5, 1, 1, 0, 2, 1, 1]].concat(), vl, &mut counting(32));
    assert_eq!((refused(&answer), answer.passes), (None, expected.len() as u64));
}

/// Rows of 2, 1, 0: flags 10, 10, 11. Rows of 0, 1, 2: the first chunk has no lanes, and flag 1 is set after it.
#[test]
fn rows_that_shrink_and_grow() {
    chunks(1, &[&[2], &with(3, SHRINKS_1)], 8, &[(2, "10"), (1, "10"), (0, "11")]);
    chunks(1, &[&[0], &with(3, GROWS_1)], 8, &[(0, "10"), (1, "10"), (2, "11")]);
}

/// Rows of 1 and 0, twice: after each empty row the flag of dimension 2 is set, and after the last that of dimension 3.
#[test]
fn rows_that_shrink_twice() {
    chunks(1, &[&[1], &with(2, SHRINKS_1), &[2]], 8, &[(1, "100"), (0, "110"), (1, "100"), (0, "111")]);
}

/// Each row of 1, 0 comes twice: two chunks of no lanes in a row.
#[test]
fn two_in_a_row() {
    chunks(1, &[&[1], &[2], &with(2, SHRINKS_1)], 8, &[(1, "100"), (1, "110"), (0, "100"), (0, "111")]);
    chunks(1, &[&[0], &[3]], 8, &[(0, "10"), (0, "10"), (0, "11")]);
}

/// Coupled to dimension 2: passes of 2, 1 and 0 rows of 2; of rows of no element; and of a row that is 0 long in the last pass.
#[test]
fn coupled_to_dimension_2() {
    chunks(2, &[&[2], &[2], &with(3, SHRINKS_2)], 8, &[(4, "110"), (2, "110"), (0, "111")]);
    chunks(2, &[&[0], &[2], &[2]], 8, &[(0, "110"), (0, "111")]);
    chunks(2, &[&[1], &[3], &with(2, SHRINKS_1)], 8, &[(3, "110"), (0, "111")]);
    // Rows of 0, 1 and 2 in one pass: an empty row inside a coupled pass gives no chunk.
    chunks(2, &[&[0], &with(3, GROWS_1), &[2]], 8, &[(3, "110"), (3, "111")]);
}

/// A pass of 10 at length 8: the chunk that ends inside it has 01's flags; the one that ends it, those of the passes to come.
#[test]
fn chunks_inside_a_pass() {
    chunks(2, &[&[4], &[3], &with(2, SHRINKS_2)], 8, &[(8, "100"), (4, "110"), (8, "111")]);
    chunks(2, &[&[4], &[3], &[2, 1, 0, 1, 3]], 8, &[(8, "100"), (4, "110"), (0, "111")]);
    chunks(2, &[&[5], &[2], &[2, 1, 0, 1, 2]], 8, &[(8, "000"), (2, "110"), (0, "111")]);
}

/// Coupled to the outermost dimension there is just one pass, with elements or without.
#[test]
fn coupled_to_the_outermost() {
    chunks(1, &[&[0]], 8, &[(0, "1")]);
    chunks(2, &[&[0], &[2]], 8, &[(0, "11")]);
    chunks(2, &[&[2], &[0]], 8, &[(0, "11")]);
    chunks(7, &[&[1], &[1], &[1], &[0], &[1], &[1], &[1]], 8, &[(0, "1111111")]);
}

/// The passes that the loops outside reach: dimension 2 has 0, 1 and 2 of them.
#[test]
fn passes_that_are_reached() {
    chunks(1, &[&[0], &[0], &with(3, GROWS_2)], 8, &[(0, "110"), (0, "100"), (0, "111")]);
    chunks(1, &[&[3], &[0], &with(3, GROWS_2)], 8, &[(3, "110"), (3, "100"), (3, "111")]);
    // No pass at all: finished at end, all flags set. So is an uncoupled stream without elements.
    for (coupled, dimensions) in [(1, [1, 0]), (0, [0, 1]), (0, [1, 0]), (0, [0, 0])] {
        let answer = ran(&stream(Kind::Load, 1, coupled, 0, &[&dimensions[..1], &dimensions[1..]]), 8, &mut []);
        assert_eq!((answer.registers[1].state, flags(&answer, 1)), (State::Finished, vec![true, true]));
    }
}

/// State, elements and passes that lie behind, and flags of register 3.
fn store_after(answer: &Answer) -> (State, usize, usize, Vec<bool>) {
    let register = &answer.registers[3];
    (register.state, register.stream().moved, register.stream().passed, flags(answer, 3))
}

/// A store stream of rows of 0, 1, 0: no lanes from a fresh register move it past an empty row and nothing else.
#[test]
fn stores_at_empty_passes() {
    let rows = stream(Kind::Store, 3, 1, 8, &[&[0], &with(2, GROWS_1), &[2]]);
    let none = [0, 3, 9, 9];
    let single = [0, 3, 31, 31];
    for (lines, expected) in [
        // Rows 0, 1, 0, 1. Before anything has moved no flag is set.
        (vec![], (State::Open, 0, 0, [false; 3])),
        (vec![none], (State::Open, 0, 1, [true, false, false])),
        // At the row of 1, no lanes move nothing.
        (vec![none, none], (State::Open, 0, 1, [true, false, false])),
        // The row is complete; the empty one is still to come.
        (vec![none, single], (State::Open, 1, 2, [true, true, false])),
        (vec![none, single, none], (State::Open, 1, 3, [true, false, false])),
        (vec![none, single, none, none, single], (State::Finished, 2, 4, [true; 3])),
    ] {
        let answer = ran(&[rows.clone(), times(1, &lines)].concat(), 8, &mut counting(16));
        let (state, moved, passed, set) = expected;
        assert_eq!((refused(&answer), store_after(&answer)), (None, (state, moved, passed, set.to_vec())), "{lines:?}");
    }
    // More than 0 lanes at an empty pass: 13, and it stays there.
    for lines in [vec![single], vec![none, single, single], vec![none, single, [8, 3, 31, 31]], vec![none, single, [8, 3, 9, 9]]] {
        let answer = ran(&[rows.clone(), times(1, &lines)].concat(), 8, &mut counting(16));
        let done = lines.len() - 1;
        assert_eq!((refused(&answer).map(|(number, _)| number), answer.calculations), (Some(13), 1 + done as u64), "{lines:?}");
        assert_eq!(store_after(&answer).2, done, "{lines:?}");
    }
    // The last pass is empty: the stream is finished by no lanes.
    let shrinks = stream(Kind::Store, 3, 1, 8, &[&[1], &with(2, SHRINKS_1)]);
    let answer = ran(&[shrinks, times(1, &[single, none])].concat(), 8, &mut counting(16));
    assert_eq!((refused(&answer), store_after(&answer)), (None, (State::Finished, 1, 2, vec![true, true])));
}

/// A store of fewer lanes than its row ends inside the pass: 01's flags, though an empty row comes behind it.
#[test]
fn store_inside_a_pass() {
    let rows = stream(Kind::Store, 3, 1, 8, &[&[2], &[2, 0, 0, 1, 2]]);
    let single = [0, 3, 31, 31];
    for (lines, set) in [(vec![single], [false, false]), (vec![single, single], [true, false])] {
        let answer = ran(&[rows.clone(), times(1, &lines)].concat(), 8, &mut counting(16));
        assert_eq!((refused(&answer), flags(&answer, 3), answer.registers[3].state), (None, set.to_vec(), State::Open));
    }
    // An uncoupled stream of that shape is finished by the second.
    let uncoupled = stream(Kind::Store, 3, 0, 8, &[&[2], &[2, 0, 0, 1, 2]]);
    let answer = ran(&[uncoupled, times(1, &[single, single])].concat(), 8, &mut counting(16));
    assert_eq!(answer.registers[3].state, State::Finished);
}

/// Sum n is that of row n: rows of 3, 2, 1, 0, twice.
#[test]
fn a_sum_for_each_row() {
    let rows = [
        1,
        word(Kind::Load, 0, 1, 1),
        0,
        2,
        1,
        0,
        3,
        unsigned(1),
        2,
        1,
        0,
        4,
        unsigned(4),
        3,
        1,
        0,
        0,
        1,
        1,
        2,
        1,
        0,
        2,
        unsigned(16),
        4,
        1,
    ];
    let sums = stream(Kind::Store, 3, 0, 32, &[&[8]]);
    for vl in (8..=64).step_by(8) {
        let mut memory = counting(40);
        let answer = ran(&[&rows[..], &sums, &[5, 1, 1, 8, 3, 1, 1]].concat(), vl, &mut memory);
        assert_eq!((refused(&answer), answer.passes, &memory[32..]), (None, 8, &[3, 9, 8, 0, 51, 41, 24, 0][..]));
        assert_eq!((answer.registers[1].state, answer.registers[3].state), (State::Finished, State::Finished));
    }
}

/// The sheet of `examples/`: byte 128 + n is the sum of row n of a triangle, in the upper half of the image and in the lower.
#[test]
fn the_example() {
    let image = bytes_of(IMAGE);
    let mut sums = Vec::new();
    for row in 0..8 {
        sums.push((0..3 - row % 4).map(|column| image[16 * row + column]).sum());
    }
    assert_eq!(sums, [3, 33, 32, 0, 195, 161, 96, 0]);
    for vl in (8..=64).step_by(8) {
        let mut memory = image.clone();
        let answer = run(&bytes_of(EMPTY_ROWS), vl, &mut memory);
        assert_eq!((refused(&answer), answer.passes, answer.calculations), (None, 8, 8));
        assert_eq!(memory, [&image[..128], &sums, &image[136..]].concat());
        assert_eq!((answer.registers[1].stream().stops(), answer.registers[1].valid, flags(&answer, 1)), (14, 0, vec![true; 3]));
    }
}

/// 18 at a chunk of no lanes: it is not taken. 13 comes before it, where the store stream is at an empty pass too; 14 behind it.
#[test]
fn smallest_of_an_empty_row() {
    let rows = stream(Kind::Load, 1, 1, 0, &[&[1], &with(2, SHRINKS_1)]);
    for operation in [9, 10, 11] {
        let answer = ran(&[rows.clone(), vec![5, 1, 1, operation, 2, 1, 1]].concat(), 8, &mut counting(8));
        assert_eq!((refused(&answer).map(|(number, _)| number), answer.passes), (Some(18), 1));
        let register = &answer.registers[1];
        assert_eq!((register.state, register.valid, register.stream().passed), (State::Open, 1, 1));
        assert_eq!(flags(&answer, 1), [true, false]);
        for (store, number) in [
            (stream(Kind::Store, 3, 1, 4, &[&[1], &with(2, SHRINKS_1)]), 13),
            (stream(Kind::Store, 3, 0, 4, &[&[2]]), 18),
            (stream(Kind::Store, 3, 0, 7, &[&[2]]), 18),
        ] {
            let answer = ran(&[rows.clone(), store, vec![5, 1, 1, operation, 3, 1, 1]].concat(), 8, &mut counting(8));
            assert_eq!((refused(&answer).map(|(number, _)| number), answer.passes), (Some(number), 1));
        }
    }
    // Before anything has moved: all flags stay clear.
    let empty = stream(Kind::Load, 1, 1, 0, &[&[0], &[2]]);
    let answer = ran(&[empty, vec![5, 1, 1, 9, 2, 1, 1]].concat(), 8, &mut []);
    assert_eq!((refused(&answer).map(|(number, _)| number), flags(&answer, 1)), (Some(18), vec![false, false]));
}

/// A chunk of no lanes against lanes: 13, and neither moves. Against another chunk of no lanes, or a plain register without lanes: done.
#[test]
fn an_empty_row_with_another_source() {
    let rows = stream(Kind::Load, 1, 1, 0, &[&[0], &[2]]);
    for (other, number, passes) in [
        (stream(Kind::Load, 2, 1, 0, &[&[0], &[2]]), None, 2),
        (stream(Kind::Load, 2, 1, 0, &[&[0], &[3]]), None, 2),
        (stream(Kind::Load, 2, 1, 0, &[&[0], &with(2, GROWS_1)]), Some(13), 1),
        (stream(Kind::Load, 2, 0, 0, &[&[1], &[2]]), Some(13), 0),
        (vec![], None, 2),
    ] {
        let answer = ran(&[rows.clone(), other, vec![5, 1, 1, 1, 4, 1, 2]].concat(), 8, &mut counting(8));
        assert_eq!((refused(&answer).map(|(number, _)| number), answer.passes), (number, passes));
        assert_eq!(answer.registers[1].stream().passed as u64, passes);
        assert_eq!((answer.registers[4].width, answer.registers[4].valid), (1, 0));
    }
}

/// An empty row forms no address: its neighbours may lie outside.
#[test]
fn empty_rows_outside() {
    let rows = [1, word(Kind::Load, 0, 1, 1), 0, 2, 1, 0, 1, unsigned(1), 2, 1, 0, 2, unsigned(99), 3, 1, 0, 0, 1, 1, 4, 1];
    let answer = ran(&[&rows[..], &[5, 1, 1, 0, 4, 1, 1]].concat(), 8, &mut counting(8));
    assert_eq!((refused(&answer), answer.passes), (None, 2));
}

/// A coupled stream of empty passes is open after end: to open it again is refused with 5. An uncoupled one is finished.
#[test]
fn opened_again() {
    for (coupled, number) in [(1, Some(5)), (2, Some(5)), (0, None)] {
        let empty = stream(Kind::Load, 1, coupled, 0, &[&[0], &[2]]);
        let answer = ran(&[&empty[..], &empty].concat(), 8, &mut []);
        assert_eq!(refused(&answer).map(|(number, _)| number), number);
    }
}

/// Rows of 0, 1, 2, coupled: the three streams of a nest's sheet go past the empty row together.
#[test]
fn nests_with_empty_rows() {
    for (first, term, coupled, passes) in [(0, 1, 1, 3), (2, -1, 1, 3), (0, 1, 2, 1), (0, 0, 1, 3), (0, 0, 2, 1), (0, 0, 0, 0)] {
        let loops = [0, 2, coupled, 1, first, unsigned(term), 3];
        let operands = [0, unsigned(1), unsigned(4), 12, unsigned(1), unsigned(4), 24, unsigned(1), unsigned(4)];
        let nest = nest::read(&sheet(&[&loops[..], &operands].concat())).unwrap();
        let mut plain = counting(36);
        assert_eq!(nest::plain_loop(&nest, &mut plain), nest::Went { inside: true, reads_written: false });
        for vl in (8..=64).step_by(8) {
            let mut memory = counting(36);
            let answer = run(&nest.sheet(), vl, &mut memory);
            assert_eq!((refused(&answer), answer.passes, &memory), (None, passes, &plain), "{loops:?}");
            assert!((1..=3).all(|register| answer.registers[register].state == State::Finished));
        }
    }
}
