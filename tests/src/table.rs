//! The tables of the programs `bench` and `nests`, held to the model.

use crate::hex::bytes_of;
use crate::model::{run, Answer, State};
use crate::nest::{plain_loop, read};
use crate::report::report;

const TABLE: &str = include_str!("../../crates/bench/stdin");
const NESTS: &str = include_str!("../../crates/nests/stdin");

/// The fields of each row.
fn rows(table: &str) -> Vec<Vec<&str>> {
    let rows = table.lines().filter(|line| !line.is_empty() && !line.starts_with('#'));
    rows.map(|line| line.split(';').map(str::trim).collect()).collect()
}

fn numbers(field: &str) -> Vec<u64> {
    field.split_whitespace().map(|word| word.parse().expect("a decimal number")).collect()
}

fn bytes(field: &str) -> Vec<u8> {
    bytes_of(&field.replace('|', " "))
}

/// A memory whose bytes hold their own places, those from 256 on 0.
fn numbered(size: usize) -> Vec<u8> {
    (0..size).map(|place| u8::try_from(place).unwrap_or(0)).collect()
}

/// The refusal's number and place, passes and calculations; of a 14 also lane and operand.
fn outcome(answer: &Answer) -> Vec<u64> {
    let numbers = report(answer);
    let length = if numbers[0] == 14 { 6 } else { 4 };
    numbers[..length].to_vec()
}

/// The answer to a question for the end of stream, or for a flag: 0 no, 1 yes, 100 and the refusal.
fn asked(answer: &Answer, register: u64, dimension: Option<u64>) -> u64 {
    if register > 31 || dimension.is_some_and(|dimension| !(1..=7).contains(&dimension)) {
        return 102;
    }
    let register = &answer.registers[register as usize];
    if matches!(register.state, State::Plain | State::Configuring) {
        return 105;
    }
    match dimension {
        None => u64::from(register.state == State::Finished),
        Some(dimension) if dimension as usize > register.stream().dimensions.len() => 102,
        Some(dimension) => u64::from(register.stream().flag(dimension as usize)),
    }
}

/// What a row says, and what the model says.
fn compared(fields: &[&str]) -> (String, String) {
    let &[vl, size] = numbers(fields[2]).as_slice() else {
        panic!("a vector length and a memory's size");
    };
    let sheet = bytes(fields[3]);
    let mut memory = if fields[0] == "memory" { bytes(fields[5]) } else { numbered(size as usize) };
    assert_eq!(memory.len() as u64, size);
    let answer = run(&sheet, vl, &mut memory);
    let said = numbers(fields[4]);
    if fields[0] == "ask" {
        let (dimension, told) = if said.len() == 3 { (Some(said[1]), said[2]) } else { (None, said[1]) };
        return (told.to_string(), asked(&answer, said[0], dimension).to_string());
    }
    let after = match fields[0] {
        "run" => Vec::new(),
        "copies" => bytes(fields[5]),
        "memory" => bytes(fields[6]),
        kind => panic!("no kind of row: {kind}"),
    };
    let ends = &memory[memory.len() - after.len()..];
    (format!("{said:?} {after:02X?}"), format!("{:?} {ends:02X?}", outcome(&answer)))
}

#[test]
fn rows_of_the_bench() {
    let rows = rows(TABLE);
    let mut differing = Vec::new();
    for fields in &rows {
        let (said, found) = compared(fields);
        if said != found {
            differing.push(format!("{}: {said}, by the model {found}", fields[1]));
        }
    }
    assert!(differing.is_empty(), "{}", differing.join("\n"));
    assert_eq!(include_str!("../../crates/bench/stdout"), format!("{} rows, 0 do not agree\n", rows.len()));
}

/// The nests that are to agree with the plain loop, and how many visits each has.
#[test]
fn rows_of_nests() {
    let told = include_str!("../../crates/nests/stdout");
    for fields in rows(NESTS).iter().filter(|fields| fields[0] == "agree") {
        let nest = read(&bytes(fields[2])).expect("a nest that is accepted");
        let before: Vec<u8> = (0..16_384_usize).map(|place| (place * place / 7 + 3 * place) as u8).collect();
        let mut plain = before.clone();
        assert!(plain_loop(&nest, &mut plain).inside, "{}", fields[1]);
        for vl in (8..=64).step_by(8) {
            let mut memory = before.clone();
            let answer = run(&nest.sheet(), vl, &mut memory);
            assert!(answer.refusal.is_none() && memory == plain, "{} at vector length {vl}", fields[1]);
        }
        let mut visits = 0;
        nest.visits(&mut |_| {
            visits += 1;
            true
        });
        let line = format!("{}: {visits} visits, agree at 8 of 8 lengths\n", fields[1]);
        assert!(told.contains(&line), "{line}");
    }
    assert!(told.ends_with(&format!("{} rows, 0 not as they must be\n", rows(NESTS).len())));
}
