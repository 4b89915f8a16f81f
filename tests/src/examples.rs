//! The examples of document 01, worked out by hand from its text.

mod empty_rows;
mod row_sums;

use crate::calculation::{Outside, Role};
use crate::clauses::Clause;
use crate::model::{run, Answer, Refusal, State};
use crate::nest;
use crate::numbers::{put, unsigned};
use crate::report::report;
use crate::stream::{Dimension, Kind, Modifier, Parameter, Stream};

fn sheet(numbers: &[u64]) -> Vec<u8> {
    let mut bytes = Vec::new();
    for &number in numbers {
        put(&mut bytes, number);
    }
    bytes
}

/// A header word.
fn word(kind: Kind, code: u64, register: u64, coupled: u64) -> u64 {
    let load = if kind == Kind::Load { 4 } else { 0 };
    let coupling = if coupled == 0 { 0 } else { 0x4000_0000 + ((coupled - 1) << 27) };
    0x0b + (register << 7) + ((load + code) << 12) + coupling
}

/// Rows of a triangle: size 1, stride 1; size 4, stride 8; the size of dimension 1 grows by 1.
fn triangle(coupled: u64) -> Vec<u64> {
    let (one, eight) = (unsigned(1), unsigned(8));
    vec![1, word(Kind::Load, 0, 1, coupled), 0, 2, 1, 0, 1, one, 2, 1, 0, 4, eight, 3, 1, 0, 0, 0, 1, 4, 1]
}

fn ran(numbers: &[u64], vl: u64, memory: &mut [u8]) -> Answer {
    run(&sheet(numbers), vl, memory)
}

fn refused(answer: &Answer) -> Option<(u64, usize)> {
    answer.refusal.map(|refusal| (refusal.clause.number(), refusal.place))
}

/// Lane, role and address of a refusal 14.
fn outside(answer: &Answer) -> Option<(usize, Role, i64)> {
    answer.refusal?.outside.map(|Outside { lane, role, address }| (lane, role, address))
}

fn flags(answer: &Answer, register: usize) -> Vec<bool> {
    let stream = answer.registers[register].stream();
    (1..=stream.dimensions.len()).map(|dimension| stream.flag(dimension)).collect()
}

fn counting(length: usize) -> Vec<u8> {
    (0..length).map(|i| i as u8).collect()
}

#[test]
fn triangle_addresses() {
    let mut stream = Stream::new(Kind::Load, 1, 0, 0);
    stream.dimensions = vec![Dimension { offset: 0, size: 1, stride: 1 }, Dimension { offset: 0, size: 4, stride: 8 }];
    stream.modifiers = vec![Modifier { owner: 2, target: 1, parameter: Parameter::Size, adds: true, displacement: 1 }];
    stream.list(100);
    let addresses: Vec<i64> = stream.elements.iter().map(|element| element.address).collect();
    assert_eq!(addresses, [0, 8, 9, 16, 17, 18, 24, 25, 26, 27]);
    assert!(stream.whole);
}

/// The triangle's first chunks, one by one: each copied to the plain register 4, until the loop register is out of memory at last.
#[test]
fn triangle_chunks() {
    let run = [5, 1, 1, 0, 4, 1, 1];
    let whole = ran(&[triangle(0), run.to_vec()].concat(), 8, &mut counting(28));
    assert_eq!((refused(&whole), whole.passes, whole.calculations), (None, 2, 2));
    assert_eq!(whole.registers[1].state, State::Finished);
    assert_eq!((whole.registers[1].valid, &whole.registers[1].bytes[..3]), (2, &[26, 27, 0][..]));
    assert_eq!((whole.registers[4].state, whole.registers[4].valid), (State::Plain, 2));
    assert_eq!(flags(&whole, 1), [true, true]);

    let cut = ran(&[triangle(0), run.to_vec()].concat(), 8, &mut counting(27));
    assert_eq!((refused(&cut), cut.passes, cut.calculations), (Some((14, 26)), 1, 1));
    assert_eq!(outside(&cut), Some((1, Role::First, 27)));
    assert_eq!((cut.registers[1].valid, &cut.registers[1].bytes[..8]), (8, &[0, 8, 9, 16, 17, 18, 24, 25][..]));
    assert_eq!(flags(&cut, 1), [false, false]);
}

#[test]
fn coupled_triangle() {
    let numbers = [triangle(1), vec![5, 1, 1, 0, 4, 1, 1]].concat();
    let expected: [(usize, u64, [bool; 2]); 4] =
        [(1, 9, [true, false]), (2, 18, [true, false]), (3, 27, [true, false]), (4, 28, [true, true])];
    for (lanes, memory, set) in expected {
        // Memory ends inside the next row, so that the run stops after this chunk.
        let answer = ran(&numbers, 8, &mut counting(memory as usize));
        assert_eq!((answer.registers[1].valid, flags(&answer, 1)), (lanes, set.to_vec()));
        assert_eq!(answer.passes, lanes as u64);
    }
}

/// Size 4 shrinking by 1: five rows are 4, 3, 2, 1, 0; six are refused.
#[test]
fn shrinking_rows() {
    let rows = |rows| {
        let one = unsigned(1);
        let numbers = [1, word(Kind::Load, 0, 1, 0), 0, 2, 1, 0, 4, one, 2, 1, 0, rows, one, 3, 1, 0, 0, 1, 1, 4, 1];
        ran(&numbers, 8, &mut [])
    };
    let five = rows(5);
    assert_eq!(refused(&five), None);
    let mut stream = five.registers[1].stream().clone();
    stream.list(100);
    assert_eq!(stream.elements.len(), 10);

    let six = rows(6);
    assert_eq!(six.refusal, Some(Refusal::at(21, Clause::Low)));
    assert_eq!(six.registers[1].state, State::Configuring);
}

/// Rows of 2, 1, 0, twice, uncoupled, written lane by lane: the flag of dimension 2 is set after the second row, since no element follows it
/// in that pass.
#[test]
fn flag_before_empty_rows() {
    let one = unsigned(1);
    let rows = [1, word(Kind::Store, 0, 1, 0), 0, 2, 1, 0, 2, one, 2, 1, 0, 3, 0, 3, 1, 0, 0, 1, 1, 2, 1, 0, 2, 0, 4, 1];
    for (lanes, set) in [(1, [false, false, false]), (2, [true, false, false]), (3, [true, true, false]), (6, [true, true, true])] {
        let other = [1, word(Kind::Load, 0, 2, 1), 0, 2, 2, 0, 1, 0, 2, 2, 0, lanes, 0, 4, 2, 5, 2, 1, 0, 1, 2, 2];
        let answer = ran(&[&rows[..], &other].concat(), 8, &mut counting(8));
        assert_eq!((refused(&answer), answer.passes, flags(&answer, 1)), (None, lanes, set.to_vec()));
    }
}

#[test]
fn products() {
    for (size, number) in [(1_024, None), (1_025, Some(9))] {
        let numbers = [1, word(Kind::Load, 0, 1, 0), 0, 2, 1, 0, 1_024, 0, 2, 1, 0, size, 0, 4, 1];
        assert_eq!(refused(&ran(&numbers, 8, &mut [])).map(|(number, _)| number), number);
    }
}

#[test]
fn words_and_memory_of_40() {
    let numbers = [1, 0x5608b, 4, 2, 1, 0, 5, unsigned(2), 4, 1, 5, 1, 1, 0, 2, 1, 1];
    let whole = ran(&numbers, 16, &mut counting(40));
    assert_eq!((refused(&whole), whole.passes, whole.calculations), (None, 2, 2));
    assert_eq!((whole.registers[2].width, whole.registers[2].valid), (4, 1));
    assert_eq!(whole.registers[2].bytes[..5], [36, 37, 38, 39, 0]);

    let short = ran(&numbers, 16, &mut counting(39));
    assert_eq!((refused(&short), short.passes, short.calculations), (Some((14, 15)), 1, 1));
    assert_eq!(short.registers[2].valid, 4);
    assert_eq!(short.registers[2].bytes[..8], [4, 5, 6, 7, 12, 13, 14, 15]);
    assert_eq!(outside(&short), Some((0, Role::First, 36)));
    assert_eq!(report(&short)[..8], [14, 15, 1, 1, 0, 0, 0, 0]);
}

/// Bytes: register 3 takes the sums of registers 1 and 2, each a stream with a base, a size and a stride.
fn added(streams: [(u64, u64, i64); 3]) -> Vec<u64> {
    let mut numbers = Vec::new();
    for (register, (base, size, stride)) in (1..).zip(streams) {
        let kind = if register < 3 { Kind::Load } else { Kind::Store };
        numbers.extend([1, word(kind, 0, register, 0), base, 2, register, 0, size, unsigned(stride), 4, register]);
    }
    numbers.extend([5, 1, 1, 1, 3, 1, 2]);
    numbers
}

/// A memory too short for one of the three: the lane in its chunk, counted from 0, and the address.
#[test]
fn each_operand_outside() {
    let near = (0, 12, 1);
    for (streams, memory, passes, expected) in [
        // The first chunk has bytes 20 to 27, the second 28 to 31.
        ([(20, 12, 1), near, near], 25, 0, (5, Role::First, 25)),
        ([near, (20, 12, 1), near], 20, 0, (0, Role::Second, 20)),
        ([near, (20, 12, 1), near], 31, 1, (3, Role::Second, 31)),
        ([near, near, (20, 12, 1)], 28, 1, (0, Role::Destination, 28)),
        ([near, near, (20, 12, 1)], 27, 0, (7, Role::Destination, 27)),
        // Downward: 9 to 2, then 1, 0, -1.
        ([(9, 12, -1), near, near], 32, 1, (2, Role::First, -1)),
        ([near, (9, 12, -1), near], 32, 1, (2, Role::Second, -1)),
        ([near, near, (9, 12, -1)], 32, 1, (2, Role::Destination, -1)),
    ] {
        let answer = ran(&added(streams), 8, &mut counting(memory));
        let (lane, role, _) = expected;
        assert_eq!((outside(&answer), answer.passes), (Some(expected), passes), "{streams:?}");
        let place = sheet(&added(streams)).len() as u64 - 4;
        assert_eq!(report(&answer)[..8], [14, place, passes, passes, lane as u64, role.number(), 0, 0]);
    }
}

/// First source, second source, destination in turn: the first that is outside counts, in whatever lane; then its lowest lane.
#[test]
fn more_than_one_outside() {
    let (near, middle, far) = ((0, 8, 1), (9, 8, 1), (12, 8, 1));
    for (streams, expected) in [
        ([middle, far, far], (7, Role::First, 16)),
        ([near, middle, far], (7, Role::Second, 16)),
        ([near, near, far], (4, Role::Destination, 16)),
        // 3, 13, 23 and so on: every lane from 2 on is outside. Then 13, 9, 5, 1 and, from lane 4 on, below 0.
        ([(3, 8, 10), far, near], (2, Role::First, 23)),
        ([(13, 8, -4), near, far], (4, Role::First, -3)),
    ] {
        assert_eq!(outside(&ran(&added(streams), 8, &mut counting(16))), Some(expected), "{streams:?}");
    }
    // Rows of 3 whose outer loop comes back: 14, 15, 16, then 0, 1, 2. Lane 2 alone is outside.
    let back = [1, word(Kind::Load, 0, 1, 0), 14, 2, 1, 0, 3, unsigned(1), 2, 1, 0, 2, unsigned(-14), 4, 1, 5, 1, 1, 0, 4, 1, 1];
    assert_eq!(outside(&ran(&back, 8, &mut counting(16))), Some((2, Role::First, 16)));
}

/// Named as both sources, a stream is the first.
#[test]
fn named_twice_outside() {
    let numbers = [1, word(Kind::Load, 0, 1, 0), 10, 2, 1, 0, 8, unsigned(1), 4, 1, 5, 1, 1, 1, 4, 1, 1];
    let answer = ran(&numbers, 8, &mut counting(16));
    assert_eq!((outside(&answer), &report(&answer)[4..6]), (Some((6, Role::First, 16)), &[6, 0][..]));
}

/// A store of 3 lanes whose chunk of 8 has elements outside behind them; the next chunk begins there.
#[test]
fn outside_behind_the_lanes_of_a_store() {
    // Rows of 3, 4 apart; the store goes on without a gap, from byte 13 to 18.
    let rows = [1, word(Kind::Load, 0, 1, 1), 0, 2, 1, 0, 3, unsigned(1), 2, 1, 0, 2, unsigned(4), 4, 1];
    let store = [1, word(Kind::Store, 0, 3, 0), 13, 2, 3, 0, 20, unsigned(1), 4, 3, 5, 1, 1, 0, 3, 1, 1];
    let numbers = [&rows[..], &store].concat();
    for (memory, passes, expected) in [(19, 2, None), (18, 1, Some((2, Role::Destination, 18))), (16, 1, Some((0, Role::Destination, 16)))]
    {
        let answer = ran(&numbers, 8, &mut counting(memory));
        assert_eq!((outside(&answer), answer.passes), (expected, passes));
    }
    // A store of no lanes looks at no element.
    let none = [1, word(Kind::Load, 0, 1, 0), 0, 2, 1, 0, 1, 0, 4, 1, 1, word(Kind::Store, 0, 3, 0), 99, 2, 3, 0, 9, 0, 4, 3];
    let answer = ran(&[&none[..], &[5, 1, 2, 0, 3, 5, 5, 0, 4, 1, 1]].concat(), 8, &mut counting(16));
    assert_eq!((refused(&answer), answer.passes, answer.calculations), (None, 1, 2));
}

/// No other answer has a lane or an operand: lanes that differ come before a lane outside.
#[test]
fn only_14_names_a_lane() {
    let near = (0, 8, 1);
    for (streams, number) in [([near, near, near], 0), ([(99, 8, 1), (0, 7, 1), near], 13), ([near, (99, 8, 1), (99, 7, 1)], 13)] {
        let answer = ran(&added(streams), 8, &mut counting(16));
        assert_eq!((report(&answer)[0], &report(&answer)[4..8], outside(&answer)), (number, &[0; 4][..], None));
    }
}

#[test]
fn header_words() {
    // 5608Bh has bits 19-15 and nothing else beside load W, register 1; 6218Bh is store W, register 3.
    let answer = ran(&[1, 0x5608b, 0, 1, 0x6218b, 0], 8, &mut []);
    let (one, three) = (&answer.registers[1], &answer.registers[3]);
    assert_eq!((one.stream().kind, one.width, one.stream().coupled), (Kind::Load, 4, 0));
    assert_eq!((three.stream().kind, three.width, three.stream().coupled), (Kind::Store, 4, 0));
    assert_eq!((one.state, three.state), (State::Configuring, State::Configuring));
}

#[test]
fn header_bits() {
    let good = word(Kind::Load, 0, 1, 0);
    let cases = [
        (good, None),
        (good ^ 1, Some(3)),
        (good ^ 1 << 15, None),
        (good ^ 1 << 19, None),
        (good ^ 1 << 20, Some(3)),
        (good ^ 1 << 21, Some(3)),
        (good ^ 1 << 22, None),
        (good ^ 1 << 23, None),
        (good ^ 1 << 24, Some(4)),
        (good ^ 1 << 25, Some(3)),
        (good ^ 1 << 26, Some(3)),
        (good ^ 1 << 27, Some(3)),
        (good ^ 1 << 30, None),
        (good ^ 0b1110 << 27, None),
        (good ^ 0b1111 << 27, Some(3)),
        (good ^ 1 << 31, Some(4)),
        (good ^ 1 << 31 ^ 1 << 20, Some(3)),
    ];
    for (word, number) in cases {
        assert_eq!(refused(&ran(&[1, word, 0], 8, &mut [])), number.map(|number| (number, 0)), "{word:x}");
    }
}

/// Refusal 15 comes before anything is read.
#[test]
fn lengths() {
    for vl in [0, 7, 9, 12, 65, 72, u64::MAX] {
        assert_eq!(ran(&[77], vl, &mut []).refusal, Some(Refusal::at(0, Clause::VectorLength)));
    }
    for vl in (8..=64).step_by(8) {
        assert_eq!(refused(&ran(&[], vl, &mut vec![0; 65_536])), None);
    }
    assert_eq!(ran(&[77], 8, &mut vec![0; 65_537]).refusal, Some(Refusal::at(0, Clause::MemoryLength)));
}

/// The loop register named in two calculations of one body: 20 bytes, lanes of 8; it finishes in the second pass.
#[test]
fn loop_register_named_in_two_calculations() {
    let numbers = [1, word(Kind::Load, 0, 1, 0), 0, 2, 1, 0, 20, unsigned(1), 4, 1, 5, 1, 2, 0, 4, 1, 1, 0, 5, 1, 1];
    let answer = ran(&numbers, 8, &mut counting(20));
    let place = sheet(&numbers).len() - 4;
    assert_eq!((refused(&answer), answer.passes, answer.calculations), (Some((11, place)), 1, 3));
}

/// Places: of the operation, of the calculation, of the first byte after a run, of a calculation that is missing.
#[test]
fn places() {
    let open = [1, word(Kind::Load, 0, 1, 0), 0, 2, 1, 0, 1, 0, 4, 1];
    let at = sheet(&open).len();
    for (run, expected) in [
        (vec![6], (2, at)),
        (vec![5], (1, at)),
        (vec![5, 32], (2, at)),
        (vec![5, 1, 0], (2, at)),
        (vec![5, 1, 17], (2, at)),
        (vec![5, 1, 1], (1, at + 3)),
        (vec![5, 1, 1, 12], (2, at + 3)),
        (vec![5, 1, 2, 0, 2, 1, 1, 0, 2, 1, 2], (2, at + 7)),
        (vec![5, 1, 1, 0, 2, 1, 1, 128], (2, at + 7)),
        (vec![5, 1, 1, 0, 2, 3, 3], (16, at)),
        (vec![5, 2, 1, 0, 2, 1, 1], (16, at)),
    ] {
        assert_eq!(refused(&ran(&[open.to_vec(), run].concat(), 8, &mut [0])), Some(expected));
    }
}

#[test]
fn nest_of_42_bytes() {
    let nest = [0x00, 0x01, 0x00, 0x01, 0x03, 0x00, 0x02, 0x08, 0x02, 0x10, 0x02];
    let sheet = [
        0x01, 0x8b, 0x81, 0x01, 0x00, 0x02, 0x01, 0x00, 0x03, 0x02, 0x04, 0x01, 0x01, 0x8b, 0x82, 0x01, 0x08, 0x02, 0x02, 0x00, 0x03, 0x02,
        0x04, 0x02, 0x01, 0x8b, 0x03, 0x10, 0x02, 0x03, 0x00, 0x03, 0x02, 0x04, 0x03, 0x05, 0x01, 0x01, 0x01, 0x03, 0x01, 0x02,
    ];
    let mut room = [0xee; 44];
    assert_eq!(nest::translate(&nest, &mut room), Ok(42));
    assert_eq!((&room[..42], &room[42..]), (&sheet[..], &[0xee, 0xee][..]));
    let mut short = [0xee; 41];
    assert_eq!(nest::translate(&nest, &mut short), Err((Clause::NoRoom, 0)));
    assert_eq!(short, [0xee; 41]);

    let mut memory = counting(24);
    let mut plain = memory.clone();
    let went = nest::plain_loop(&nest::read(&nest).unwrap(), &mut plain);
    assert_eq!(went, nest::Went { inside: true, reads_written: false });
    assert_eq!(run(&sheet, 8, &mut memory).refusal, None);
    assert_eq!((&memory[16..20], &memory), (&[8, 10, 12, 19][..], &plain));
}

/// Where a visit reads what an earlier one wrote, the plain loop and the sheet part.
#[test]
fn nest_that_reads_what_it_wrote() {
    let nest = nest::read(&sheet(&[0, 1, 0, 1, 3, 0, unsigned(1), 8, 0, 1, unsigned(1)])).unwrap();
    let mut memory = vec![1, 2, 3, 4, 0, 0, 0, 0, 0];
    let mut plain = memory.clone();
    assert!(nest::plain_loop(&nest, &mut plain).reads_written);
    run(&nest.sheet(), 8, &mut memory);
    assert_eq!((&plain[..4], &memory[..4]), (&[1, 1, 1, 1][..], &[1, 1, 2, 3][..]));
}

#[test]
fn nest_refusals() {
    let cases: [(&[u64], Clause, usize); 9] = [
        (&[], Clause::NestCutOff, 0),
        (&[4], Clause::NestWidth, 0),
        (&[0, 0], Clause::NestLoopsZero, 1),
        (&[0, 8], Clause::NestLoopsAbove, 1),
        (&[0, 1, 2], Clause::NestCoupled, 2),
        (&[0, 1, 0, 0], Clause::NestOperationZero, 3),
        (&[0, 1, 0, 1, 4_097], Clause::NestCount, 4),
        (&[0, 1, 0, 1, 3, 0, 0, 0, 0, 0, 0, 9], Clause::BytesAfterNest, 11),
        (&[0, 2, 0, 1, 1_024, 0, 1_025, 0, 0, 0, 0, 0, 0, 0, 0, 0], Clause::NestProduct, 0),
    ];
    for (numbers, clause, place) in cases {
        assert_eq!(nest::translate(&sheet(numbers), &mut [0; 1_024]), Err((clause, place)), "{numbers:?}");
    }
}
