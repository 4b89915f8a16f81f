//! What a sheet came to, as the numbers of the engine's report. Eight numbers of the answer, fourteen for each register, eight for masks,
//! each little-endian in 64 bits. The answer: number, place, passes, calculations, lane and operand of a refusal 14, and two that stay 0.

use crate::calculation::value;
use crate::model::{Answer, Register, State};
use crate::stream::Kind;

pub const NUMBERS: usize = 8 + 32 * 14 + 8;
pub const BYTES: usize = 8 * NUMBERS;

/// The report of an answer.
pub fn report(answer: &Answer) -> Vec<u64> {
    let (number, place) = match answer.refusal {
        None => (0, 0),
        Some(refusal) => (refusal.clause.number(), refusal.place as u64),
    };
    let (lane, operand) = match answer.refusal.and_then(|refusal| refusal.outside) {
        None => (0, 0),
        Some(outside) => (outside.lane as u64, outside.role.number()),
    };
    let mut numbers = vec![number, place, answer.passes, answer.calculations, lane, operand, 0, 0];
    for register in &answer.registers {
        numbers.extend(of_register(register));
    }
    numbers.extend([0; 8]);
    numbers
}

fn of_register(register: &Register) -> Vec<u64> {
    let state = match register.state {
        State::Plain => 0,
        State::Configuring => 1,
        State::Open => 2,
        State::Finished => 3,
    };
    let mut numbers = vec![state, kind(register), register.width as u64, register.valid as u64, dimensions(register), flags(register)];
    numbers.extend(register.bytes.chunks(8).map(value));
    numbers
}

fn kind(register: &Register) -> u64 {
    match &register.stream {
        None => 0,
        Some(stream) if stream.kind == Kind::Load => 1,
        Some(_) => 2,
    }
}

fn dimensions(register: &Register) -> u64 {
    register.stream.as_ref().map_or(0, |stream| stream.dimensions.len() as u64)
}

/// The flags of an open or finished stream, dimension 1 lowest.
fn flags(register: &Register) -> u64 {
    match register.state {
        State::Plain | State::Configuring => 0,
        State::Open | State::Finished => {
            let stream = register.stream();
            (1..=stream.dimensions.len()).map(|dimension| u64::from(stream.flag(dimension)) << (dimension - 1)).sum()
        }
    }
}

/// What a number of the report is, for a message.
pub fn name(at: usize) -> String {
    const OF_REGISTER: [&str; 6] = ["state", "kind", "width", "valid lanes", "dimensions", "flags"];
    match at {
        0 => "number".into(),
        1 => "place".into(),
        2 => "passes".into(),
        3 => "calculations".into(),
        4 => "lane".into(),
        5 => "operand".into(),
        6..=7 => format!("number {at} of the answer"),
        _ if at < 8 + 32 * 14 => {
            let (register, field) = ((at - 8) / 14, (at - 8) % 14);
            match OF_REGISTER.get(field) {
                Some(name) => format!("register {register}, {name}"),
                None => format!("register {register}, bytes from {}", 8 * (field - 6)),
            }
        }
        _ => format!("mask {}", at - 8 - 32 * 14),
    }
}
