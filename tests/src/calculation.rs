//! One calculation: its checks in the order of the text, then everything that it changes.

use crate::clauses::{Clause, Event};
use crate::model::{Machine, State};
use crate::stream::Kind;

#[derive(Clone, Copy, Debug)]
pub struct Calculation {
    /// Its first byte.
    pub place: usize,
    pub operation: u64,
    pub destination: usize,
    pub first: usize,
    pub second: usize,
}

/// The operand of a calculation that a register is named as.
#[derive(Clone, Copy, PartialEq, Eq, Debug)]
pub enum Role {
    First,
    Second,
    Destination,
}

/// What 14 carries: the first lane outside memory, counted from 0, and the operand that it is a lane of.
#[derive(Clone, Copy, PartialEq, Eq, Debug)]
pub struct Outside {
    pub lane: usize,
    pub role: Role,
    /// Of the lane's element. The report does not have it; the words of program `run` do.
    pub address: i64,
}

/// Why a calculation is refused.
#[derive(Clone, Copy, PartialEq, Eq, Debug)]
pub struct Fault {
    pub clause: Clause,
    pub outside: Option<Outside>,
}

impl From<Clause> for Fault {
    fn from(clause: Clause) -> Fault {
        Fault { clause, outside: None }
    }
}

impl Role {
    /// Its number in the report.
    pub fn number(self) -> u64 {
        match self {
            Role::First => 0,
            Role::Second => 1,
            Role::Destination => 2,
        }
    }

    fn pick(self, first: Clause, second: Clause, destination: Clause) -> Clause {
        match self {
            Role::First => first,
            Role::Second => second,
            Role::Destination => destination,
        }
    }
}

/// Whether an operation is one of 8 to 11, over all valid lanes of a source.
pub fn folds(operation: u64) -> bool {
    operation >= 8
}

/// Whether the second source of an operation must equal the first.
pub fn has_one_source(operation: u64) -> bool {
    operation == 0 || folds(operation)
}

/// How many lanes the destination takes of sources of `n` lanes.
pub fn taken(operation: u64, n: usize) -> usize {
    if folds(operation) {
        1
    } else {
        n
    }
}

/// How many values a lane of `width` bytes can have.
fn values_of(width: usize) -> i128 {
    1 << (8 * width)
}

/// A lane of `width` bytes, read as two's complement.
pub fn signed(lane: u64, width: usize) -> i128 {
    let (value, size) = (i128::from(lane), values_of(width));
    if value >= size / 2 {
        value - size
    } else {
        value
    }
}

/// What one of the operations 0 to 7 makes of two lanes of `width` bytes.
pub fn lane(operation: u64, width: usize, first: u64, second: u64) -> u64 {
    let (a, b) = (i128::from(first), i128::from(second));
    let exact = match operation {
        0 => a,
        1 => a + b,
        2 => a - b,
        3 => a & b,
        4 => a | b,
        5 => a ^ b,
        6 => signed(first, width).min(signed(second, width)),
        _ => signed(first, width).max(signed(second, width)),
    };
    exact.rem_euclid(values_of(width)) as u64
}

/// What one of the operations 8 to 11 makes of lanes of `width` bytes. Only a sum can do without a lane.
pub fn fold(operation: u64, width: usize, lanes: &[u64]) -> u64 {
    let signed: Vec<i128> = lanes.iter().map(|&lane| signed(lane, width)).collect();
    let exact = match operation {
        8 => lanes.iter().map(|&lane| i128::from(lane)).sum(),
        9 => *signed.iter().min().expect("no lanes are refused with 18"),
        10 => *signed.iter().max().expect("no lanes are refused with 18"),
        _ => first_largest(&signed) as i128,
    };
    exact.rem_euclid(values_of(width)) as u64
}

/// The first place that no other exceeds.
fn first_largest(values: &[i128]) -> usize {
    (0..values.len()).find(|&at| values.iter().all(|value| *value <= values[at])).expect("no lanes are refused with 18")
}

/// The little-endian value of some bytes.
pub fn value(bytes: &[u8]) -> u64 {
    bytes.iter().rev().fold(0, |value, &byte| 256 * value + u64::from(byte))
}

impl Machine<'_> {
    /// Carries out a calculation, or refuses it and changes nothing.
    pub fn calculate(&mut self, c: &Calculation) -> Result<(), Fault> {
        if let Err(fault) = self.check(c) {
            self.note_refused(c, fault.clause);
            return Err(fault);
        }
        let width = self.registers[c.first].width;
        let written = self.written(c);
        let first = self.values(c.first);
        let second = self.values(c.second);
        self.note_sources(c, &first, &written);
        self.take(c.first, &first);
        if c.second != c.first {
            self.take(c.second, &second);
        }
        let result: Vec<u64> = if folds(c.operation) {
            vec![fold(c.operation, width, &first)]
        } else {
            (0..first.len()).map(|i| lane(c.operation, width, first[i], second[i])).collect()
        };
        if self.registers[c.destination].state == State::Plain {
            self.registers[c.destination].width = width;
            self.hold(c.destination, &result);
        } else {
            for (&address, value) in written.iter().zip(&result) {
                let at = address as usize;
                self.memory[at..at + width].copy_from_slice(&value.to_le_bytes()[..width]);
            }
            self.move_on(c.destination, result.len());
        }
        Ok(())
    }

    /// All that can be refused, in turn.
    fn check(&mut self, c: &Calculation) -> Result<(), Fault> {
        self.usable(c.first, Role::First)?;
        self.usable(c.second, Role::Second)?;
        self.usable(c.destination, Role::Destination)?;
        for register in [c.first, c.second, c.destination] {
            self.list_ahead(register);
        }
        self.widths(c)?;
        self.lanes(c)?;
        self.some_lanes(c)?;
        self.inside(c)
    }

    /// 5, 11, 10 for one register.
    fn usable(&self, register: usize, role: Role) -> Result<(), Clause> {
        let register = &self.registers[register];
        match register.state {
            State::Plain => Ok(()),
            State::Configuring => Err(role.pick(Clause::FirstConfiguring, Clause::SecondConfiguring, Clause::DestinationConfiguring)),
            State::Finished => Err(role.pick(Clause::FirstFinished, Clause::SecondFinished, Clause::DestinationFinished)),
            State::Open => match (register.stream().kind, role) {
                (Kind::Load, Role::Destination) => Err(Clause::DestinationLoad),
                (Kind::Store, Role::First) => Err(Clause::FirstStore),
                (Kind::Store, Role::Second) => Err(Clause::SecondStore),
                _ => Ok(()),
            },
        }
    }

    /// Lists as many elements and passes of an open stream as this calculation can look at, and more for the flags.
    pub fn list_ahead(&mut self, register: usize) {
        if self.registers[register].state == State::Open {
            let stream = self.registers[register].stream_mut();
            // Up to the present pass, the longest chunk, and what comes after it.
            stream.list(stream.moved + stream.passed + 1 + 64 + 2);
        }
    }

    /// 12. A plain destination takes the width, so it is not compared.
    fn widths(&self, c: &Calculation) -> Result<(), Clause> {
        let width = self.registers[c.first].width;
        if width != self.registers[c.second].width {
            return Err(Clause::WidthOfSources);
        }
        if self.registers[c.destination].state == State::Open && width != self.registers[c.destination].width {
            return Err(Clause::WidthOfStore);
        }
        Ok(())
    }

    /// 13. With 8 to 11 it comes only where a store stream stands at an empty pass, which has no room for the single lane: there is one
    /// source.
    fn lanes(&self, c: &Calculation) -> Result<(), Clause> {
        let n = self.lanes_of(c.first);
        if n != self.lanes_of(c.second) {
            return Err(Clause::LanesOfSources);
        }
        if self.registers[c.destination].state == State::Open && taken(c.operation, n) > self.lanes_of(c.destination) {
            return Err(Clause::LanesOfStore);
        }
        Ok(())
    }

    /// 18.
    fn some_lanes(&self, c: &Calculation) -> Result<(), Clause> {
        match c.operation {
            9 if self.lanes_of(c.first) == 0 => Err(Clause::NoLanesSmallest),
            10 if self.lanes_of(c.first) == 0 => Err(Clause::NoLanesLargest),
            11 if self.lanes_of(c.first) == 0 => Err(Clause::NoLanesFirstLargest),
            _ => Ok(()),
        }
    }

    /// The length of an open stream's next chunk, or the valid lanes of a plain register.
    pub fn lanes_of(&self, register: usize) -> usize {
        let register = &self.registers[register];
        match register.state {
            State::Open => register.stream().chunk(self.vl / register.width).len(),
            _ => register.valid,
        }
    }

    /// The addresses of an open stream's next chunk; none for a plain register.
    pub fn addresses(&self, register: usize) -> Vec<i64> {
        let register = &self.registers[register];
        match register.state {
            State::Open => register.stream().chunk(self.vl / register.width).iter().map(|element| element.address).collect(),
            _ => Vec::new(),
        }
    }

    /// The addresses of the elements that a calculation writes; none for a plain destination.
    pub fn written(&self, c: &Calculation) -> Vec<i64> {
        let taken = taken(c.operation, self.lanes_of(c.first));
        self.addresses(c.destination).into_iter().take(taken).collect()
    }

    /// 14, of the elements that would move: those of both sources in turn, then those to be written.
    fn inside(&self, c: &Calculation) -> Result<(), Fault> {
        let width = self.registers[c.first].width;
        self.all_inside(&self.addresses(c.first), width, Role::First)?;
        self.all_inside(&self.addresses(c.second), width, Role::Second)?;
        self.all_inside(&self.written(c), width, Role::Destination)
    }

    /// 14 for one role, with the first lane outside.
    fn all_inside(&self, addresses: &[i64], width: usize, role: Role) -> Result<(), Fault> {
        for (lane, &address) in addresses.iter().enumerate() {
            if !self.is_inside(address, width) {
                let clause = match (lane, address < 0) {
                    (0, true) => role.pick(Clause::FirstLane0Below, Clause::SecondLane0Below, Clause::DestinationLane0Below),
                    (0, false) => role.pick(Clause::FirstLane0Above, Clause::SecondLane0Above, Clause::DestinationLane0Above),
                    (_, true) => role.pick(Clause::FirstLaneBelow, Clause::SecondLaneBelow, Clause::DestinationLaneBelow),
                    (_, false) => role.pick(Clause::FirstLaneAbove, Clause::SecondLaneAbove, Clause::DestinationLaneAbove),
                };
                return Err(Fault { clause, outside: Some(Outside { lane, role, address }) });
            }
        }
        Ok(())
    }

    /// Whether an element lies inside memory.
    pub fn is_inside(&self, address: i64, width: usize) -> bool {
        address >= 0 && address + width as i64 <= self.memory.len() as i64
    }

    /// The lanes that a source gives: those that memory holds for an open stream, its own for a plain register.
    fn values(&self, register: usize) -> Vec<u64> {
        let width = self.registers[register].width;
        match self.registers[register].state {
            State::Open => {
                let addresses = self.addresses(register);
                addresses.iter().map(|&address| value(&self.memory[address as usize..][..width])).collect()
            }
            _ => {
                let register = &self.registers[register];
                register.bytes[..register.valid * width].chunks(width).map(value).collect()
            }
        }
    }

    /// A load stream that was read holds its chunk and moves on; a plain source stays as it is.
    fn take(&mut self, register: usize, chunk: &[u64]) {
        if self.registers[register].state == State::Open {
            self.hold(register, chunk);
            self.move_on(register, chunk.len());
        }
    }

    /// Valid lanes in front, zeros behind.
    fn hold(&mut self, register: usize, lanes: &[u64]) {
        let register = &mut self.registers[register];
        register.valid = lanes.len();
        register.bytes = [0; 64];
        for (bytes, lane) in register.bytes.chunks_mut(register.width).zip(lanes) {
            bytes.copy_from_slice(&lane.to_le_bytes()[..register.width]);
        }
    }

    /// After its last element a stream is finished; a coupled one after its last pass.
    fn move_on(&mut self, register: usize, elements: usize) {
        self.note_move(register, elements);
        let register = &mut self.registers[register];
        let stream = register.stream_mut();
        stream.move_on(elements);
        if stream.is_at_end() {
            register.state = State::Finished;
            self.seen.mark(Event::FinishedByMove);
        }
    }
}

#[cfg(test)]
mod tests {
    use super::*;

    #[test]
    fn lanes_of_the_text() {
        assert_eq!(lane(1, 1, 200, 100), 44);
        assert_eq!(lane(2, 1, 0, 1), 255);
        assert_eq!(lane(6, 1, 0x80, 0x01), 0x80);
        assert_eq!(lane(7, 1, 0x80, 0x01), 0x01);
    }

    #[test]
    fn lanes_of_every_width() {
        for width in [1, 2, 4, 8] {
            let top = u64::MAX >> (64 - 8 * width);
            let sign = top / 2 + 1;
            assert_eq!(lane(0, width, top, 0), top);
            assert_eq!(lane(1, width, top, 1), 0);
            assert_eq!(lane(2, width, 0, top), 1);
            assert_eq!(lane(3, width, top, sign), sign);
            assert_eq!(lane(4, width, sign, 1), sign + 1);
            assert_eq!(lane(5, width, top, sign), sign - 1);
            assert_eq!(lane(6, width, top, 0), top);
            assert_eq!(lane(7, width, sign - 1, sign), sign - 1);
        }
    }

    #[test]
    fn folds_of_every_width() {
        for width in [1, 2, 4, 8] {
            let top = u64::MAX >> (64 - 8 * width);
            let sign = top / 2 + 1;
            // In order as two's complement: sign, sign + 1, top (-1), 0, 1, sign - 1.
            let rows: [(&[u64], [u64; 4]); 7] = [
                (&[5], [5, 5, 5, 0]),
                (&[3, 7, 7, 1], [18, 1, 7, 1]),
                (&[0, top, sign, 1], [sign, sign, 1, 3]),
                (&[top, sign, top], [sign - 2, sign, top, 0]),
                (&[sign, sign], [0, sign, sign, 0]),
                (&[sign, sign - 1, sign + 1], [sign, sign, sign - 1, 1]),
                (&[0, 0, 0], [0, 0, 0, 0]),
            ];
            for (lanes, expected) in rows {
                assert_eq!([8, 9, 10, 11].map(|operation| fold(operation, width, lanes)), expected, "{lanes:x?}");
            }
            assert_eq!(fold(8, width, &[]), 0);
            assert_eq!(fold(8, width, &vec![top; 64]), top - 63);
            let mut last = vec![sign; 64];
            last[63] = top;
            assert_eq!(fold(11, width, &last), 63);
        }
    }
}
