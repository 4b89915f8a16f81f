//! The model and the fast model on the same inputs, without the engine: fixed ones, and some of a seed. The program `check` compares
//! both with the engine, on more.

use crate::generate::nests::{self, NestInput};
use crate::generate::{fixed, sheet, SheetInput};
use crate::nest::{plain_loop, read};
use crate::{model, report};

const SEED: u64 = 3;
const SHEETS: u64 = 10_000;
const NESTS: u64 = 5_000;

/// Runs a sheet on both, and answers the refusal's number and the memory.
fn both(input: &SheetInput, what: &str) -> (u64, Vec<u8>) {
    let (mut memory, mut fast_memory) = (input.memory.clone(), input.memory.clone());
    let expected = report::report(&model::run(&input.sheet, input.vl, &mut memory));
    let mut bytes = vec![0; report::BYTES];
    let number = fast::run(&input.sheet, input.vl, &mut fast_memory, &mut bytes);
    let numbers = bytes.chunks(8).map(|bytes| u64::from_le_bytes(bytes.try_into().unwrap()));
    let differs = numbers.zip(&expected).position(|(number, &expected)| number != expected);
    assert_eq!(differs.map(report::name), None, "{what}");
    assert!(number == expected[0] && fast_memory == memory, "{what}: answer or memory");
    (number, memory)
}

/// Runs the sheet of an accepted nest on both, and holds it to the plain loop.
fn nest(input: &NestInput, what: &str) {
    let Ok(nest) = read(&input.nest) else {
        return;
    };
    let mut plain = input.memory.clone();
    let went = plain_loop(&nest, &mut plain);
    for &vl in &input.vls {
        let run = SheetInput { style: input.style, sheet: nest.sheet(), vl, memory: input.memory.clone() };
        let (number, memory) = both(&run, what);
        assert!(!went.inside || number == 0, "{what}: refused");
        assert!(!went.inside || went.reads_written || memory == plain, "{what}: the plain loop's memory");
    }
}

#[test]
fn fixed_inputs() {
    for (number, input) in fixed::sheets().iter().enumerate() {
        both(input, &format!("fixed sheet {number}"));
    }
    for (number, input) in fixed::nests().iter().enumerate() {
        nest(input, &format!("fixed nest {number}"));
    }
}

#[test]
fn sheets_of_a_seed() {
    for number in 0..SHEETS {
        both(&sheet(SEED, number), &format!("seed {SEED}, sheet {number}"));
    }
}

#[test]
fn nests_of_a_seed() {
    for number in 0..NESTS {
        nest(&nests::nest(SEED, number), &format!("seed {SEED}, nest {number}"));
    }
}
