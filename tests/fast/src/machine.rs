//! The registers, and one calculation on them.

use crate::lanes::{calculate, fold, gather, scatter, Lanes};
use crate::walk::{Ahead, Stream};

pub const PLAIN: u8 = 0;
pub const CONFIGURING: u8 = 1;
pub const OPEN: u8 = 2;
pub const FINISHED: u8 = 3;
pub const LOAD: u8 = 1;
pub const STORE: u8 = 2;

const NUMBERS: usize = 8 + 32 * 14 + 8;
pub const REPORT_BYTES: usize = 8 * NUMBERS;

#[derive(Clone, Copy)]
pub struct Register {
    pub state: u8,
    pub kind: u8,
    /// Width code.
    pub code: u8,
    pub valid: u8,
    pub lanes: Lanes,
    pub base: i64,
    pub stream: Stream,
}

const FRESH: Register = Register { state: PLAIN, kind: 0, code: 0, valid: 0, lanes: [0; 64], base: 0, stream: Stream::NONE };

pub struct Machine {
    pub vl: usize,
    pub registers: [Register; 32],
    pub passes: u64,
    pub calculations: u64,
    /// Lane and operand of a refusal 14.
    outside: [u64; 2],
    first: Ahead,
    second: Ahead,
    destination: Ahead,
}

#[derive(Clone, Copy, Default)]
pub struct Calculation {
    pub place: usize,
    pub operation: u8,
    pub destination: u8,
    pub first: u8,
    pub second: u8,
}

impl Machine {
    pub fn fresh(vl: usize) -> Machine {
        Machine {
            vl,
            registers: [FRESH; 32],
            passes: 0,
            calculations: 0,
            outside: [0; 2],
            first: Ahead::none(),
            second: Ahead::none(),
            destination: Ahead::none(),
        }
    }

    /// 5, 11 or 10 for a register, if it cannot serve as this kind of stream.
    #[inline]
    fn usable(&self, register: u8, kind: u8) -> Result<(), u64> {
        let register = &self.registers[register as usize];
        match register.state {
            PLAIN => Ok(()),
            OPEN if register.kind == kind => Ok(()),
            OPEN => Err(10),
            CONFIGURING => Err(5),
            _ => Err(11),
        }
    }

    /// Carries out a calculation, or answers the number of its refusal and changes nothing.
    pub fn calculate(&mut self, c: &Calculation, memory: &mut [u8]) -> Result<(), u64> {
        self.usable(c.first, LOAD)?;
        self.usable(c.second, LOAD)?;
        self.usable(c.destination, STORE)?;
        let (a, b, d) = (c.first as usize, c.second as usize, c.destination as usize);
        let code = self.registers[a].code;
        let stores = self.registers[d].state == OPEN;
        if code != self.registers[b].code || stores && code != self.registers[d].code {
            return Err(12);
        }
        let lanes = self.vl >> code;
        let n = look(&self.registers[a], lanes, &mut self.first);
        if a != b && n != look(&self.registers[b], lanes, &mut self.second) {
            return Err(13);
        }
        let folds = c.operation >= 8;
        let taken = if folds { 1 } else { n };
        // No lanes are written where there is nothing to write to: the store stream moves past its empty pass.
        let writes = stores && (taken > 0 || self.registers[d].stream.walk.empty);
        if writes {
            // No further than what is taken: what lies behind is looked at when it is reached.
            self.registers[d].stream.look(taken, &mut self.destination);
            if self.destination.n < taken {
                return Err(13);
            }
        }
        if n == 0 && c.operation > 8 {
            return Err(18);
        }
        let (width, length) = (1 << code, memory.len() as i64);
        let reads = |register: usize| self.registers[register].state == OPEN;
        let looked = [(reads(a), &self.first), (a != b && reads(b), &self.second), (writes, &self.destination)];
        for (operand, (moves, ahead)) in looked.into_iter().enumerate() {
            if moves && !ahead.inside(width, length) {
                self.outside = [ahead.first_outside(width, length), operand as u64];
                return Err(14);
            }
        }
        read(&mut self.registers[a], &self.first, memory);
        if a != b {
            read(&mut self.registers[b], &self.second, memory);
        }
        let result = if folds {
            fold(c.operation, code, &self.registers[a].lanes, n)
        } else {
            calculate(c.operation, code, &self.registers[a].lanes, &self.registers[b].lanes)
        };
        let destination = &mut self.registers[d];
        if !stores {
            destination.code = code;
            destination.valid = taken as u8;
            destination.lanes = result;
        } else if writes {
            scatter(memory, code, &self.destination, &result);
            move_on(destination, &self.destination);
        }
        Ok(())
    }

    pub fn report(&self, number: u64, place: u64, report: &mut [u8]) {
        let mut numbers = [0; NUMBERS];
        numbers[..4].copy_from_slice(&[number, place, self.passes, self.calculations]);
        numbers[4..6].copy_from_slice(&self.outside);
        for (to, register) in numbers[8..].chunks_exact_mut(14).zip(&self.registers) {
            let stream = &register.stream;
            let flags = match register.state {
                OPEN => stream.flags,
                FINISHED => ((1_u32 << stream.dimensions) - 1) as u8,
                _ => 0,
            };
            let fields = [register.state, register.kind, 1 << register.code, register.valid, stream.dimensions, flags];
            for (to, field) in to.iter_mut().zip(fields) {
                *to = u64::from(field);
            }
            for (to, bytes) in to[6..].iter_mut().zip(register.lanes.chunks_exact(8)) {
                *to = u64::from_le_bytes(bytes.try_into().unwrap());
            }
        }
        for (to, number) in report.chunks_exact_mut(8).zip(numbers) {
            to.copy_from_slice(&number.to_le_bytes());
        }
    }
}

/// The lanes that a source will give; looks ahead in an open stream.
#[inline]
fn look(register: &Register, lanes: usize, ahead: &mut Ahead) -> usize {
    if register.state != OPEN {
        return register.valid as usize;
    }
    register.stream.look(lanes, ahead);
    ahead.n
}

/// Reads what an open stream looked at.
#[inline]
fn read(register: &mut Register, ahead: &Ahead, memory: &[u8]) {
    if register.state == OPEN {
        register.lanes = gather(memory, register.code, ahead);
        register.valid = ahead.n as u8;
        move_on(register, ahead);
    }
}

#[inline]
fn move_on(register: &mut Register, ahead: &Ahead) {
    if !register.stream.advance(ahead) {
        register.state = FINISHED;
    }
}
