//! Loop nests: read, translated to a sheet, and carried out by a plain loop over the nest's own numbers.

use crate::calculation::{lane, value};
use crate::clauses::Clause;
use crate::numbers::{number_at, put, signed, unsigned};

#[derive(Clone, Debug)]
pub struct Nest {
    pub width: usize,
    pub coupled: usize,
    pub operation: u64,
    /// Innermost first.
    pub loops: Vec<Loop>,
    /// First source, second source, destination.
    pub operands: Vec<Operand>,
}

/// Its count is `number` plus each term times the index of that loop: `terms[0]` belongs to the next loop outside this one.
#[derive(Clone, Debug)]
pub struct Loop {
    pub number: i64,
    pub terms: Vec<i64>,
}

#[derive(Clone, Debug)]
pub struct Operand {
    pub base: i64,
    pub strides: Vec<i64>,
}

/// A refusal and its place.
pub type Refused = (Clause, usize);

struct Reader<'a> {
    bytes: &'a [u8],
    place: usize,
}

impl Reader<'_> {
    /// A number of `least` to `most`. The place of a refusal is the first byte of the number.
    fn number(&mut self, least: u64, below: Clause, most: u64, above: Clause) -> Result<u64, Refused> {
        let at = self.place;
        let (value, place) = number_at(self.bytes, at).map_err(|no| (Clause::of_nest(no), at))?;
        if value < least {
            return Err((below, at));
        }
        if value > most {
            return Err((above, at));
        }
        self.place = place;
        Ok(value)
    }

    fn upto(&mut self, most: u64, above: Clause) -> Result<u64, Refused> {
        self.number(0, above, most, above)
    }

    /// A signed number in the range of strides.
    fn reach(&mut self, below: Clause, above: Clause) -> Result<i64, Refused> {
        let at = self.place;
        let (raw, place) = number_at(self.bytes, at).map_err(|no| (Clause::of_nest(no), at))?;
        let value = signed(raw);
        if value < -1_048_576 {
            return Err((below, at));
        }
        if value > 1_048_576 {
            return Err((above, at));
        }
        self.place = place;
        Ok(value)
    }
}

/// The nest that some bytes stand for.
pub fn read(bytes: &[u8]) -> Result<Nest, Refused> {
    let mut reader = Reader { bytes, place: 0 };
    let width = 1 << reader.upto(3, Clause::NestWidth)?;
    let depth = reader.number(1, Clause::NestLoopsZero, 7, Clause::NestLoopsAbove)? as usize;
    let coupled = reader.upto(depth as u64, Clause::NestCoupled)? as usize;
    let operation = reader.number(1, Clause::NestOperationZero, 7, Clause::NestOperationAbove)?;
    let mut nest = Nest { width, coupled, operation, loops: Vec::new(), operands: Vec::new() };
    for this in 1..=depth {
        let number = reader.upto(4_096, Clause::NestCount)? as i64;
        let mut terms = Vec::new();
        for _ in this + 1..=depth {
            terms.push(reader.reach(Clause::NestTermBelow, Clause::NestTermAbove)?);
        }
        nest.loops.push(Loop { number, terms });
    }
    for clause in [Clause::NestFirstBase, Clause::NestSecondBase, Clause::NestDestinationBase] {
        let base = reader.upto(1_048_576, clause)? as i64;
        let mut strides = Vec::new();
        for _ in 1..=depth {
            strides.push(reader.reach(Clause::NestStrideBelow, Clause::NestStrideAbove)?);
        }
        nest.operands.push(Operand { base, strides });
    }
    if reader.place < bytes.len() {
        return Err((Clause::BytesAfterNest, reader.place));
    }
    nest.rules().map_err(|clause| (clause, 0))?;
    Ok(nest)
}

/// Translates a nest into a room, and answers the length of the sheet.
pub fn translate(bytes: &[u8], room: &mut [u8]) -> Result<usize, Refused> {
    let sheet = read(bytes)?.sheet();
    if room.len() < sheet.len() {
        return Err((Clause::NoRoom, 0));
    }
    room[..sheet.len()].copy_from_slice(&sheet);
    Ok(sheet.len())
}

impl Nest {
    /// 6, 8, 9.
    fn rules(&self) -> Result<(), Clause> {
        let terms = self.loops.iter().flat_map(|this| &this.terms);
        if terms.filter(|&&term| term != 0).count() > 8 {
            return Err(Clause::NinthTerm);
        }
        let mut high = vec![0; self.loops.len()];
        for this in (0..self.loops.len()).rev() {
            let mut low = self.loops[this].number;
            high[this] = low;
            for (outward, term) in self.loops[this].terms.iter().enumerate() {
                let most: i64 = high[this + 1 + outward];
                let reach = term * (most.max(1) - 1);
                if *term > 0 {
                    high[this] += reach;
                } else {
                    low += reach;
                }
            }
            if low < 0 {
                return Err(Clause::NestLow);
            }
            if high[this] > 4_096 {
                return Err(Clause::NestHigh);
            }
        }
        let product: i128 = high.iter().map(|&high| i128::from(high.max(1))).product();
        if product > 1_048_576 {
            return Err(Clause::NestProduct);
        }
        Ok(())
    }

    /// The sheet: three streams on registers 1, 2, 3, and a run of one calculation.
    pub fn sheet(&self) -> Vec<u8> {
        let mut numbers = Vec::new();
        for (register, operand) in (1..).zip(&self.operands) {
            self.stream(&mut numbers, register, operand);
        }
        numbers.extend([5, 1, 1, self.operation, 3, 1, 2]);
        let mut sheet = Vec::new();
        for number in numbers {
            put(&mut sheet, number);
        }
        sheet
    }

    fn stream(&self, numbers: &mut Vec<u64>, register: u64, operand: &Operand) {
        let code = u64::from(self.width.trailing_zeros());
        let load = if register == 3 { 0 } else { 4 };
        let coupling = if self.coupled == 0 { 0 } else { 8 + self.coupled as u64 - 1 };
        let word = 0b000_1011 + register * 2_u64.pow(7) + (load + code) * 2_u64.pow(12) + coupling * 2_u64.pow(27);
        numbers.extend([1, word, operand.base as u64]);
        for outer in 0..self.loops.len() {
            numbers.extend([2, register, unsigned(0), self.loops[outer].number as u64, unsigned(operand.strides[outer])]);
            for inner in 0..outer {
                let term = self.loops[inner].terms[outer - inner - 1];
                if term != 0 {
                    numbers.extend([3, register, inner as u64, 0, u64::from(term < 0), term.unsigned_abs()]);
                }
            }
        }
        numbers.extend([4, register]);
    }

    /// Shows the index of each visit to `see`, in order, until it answers false.
    pub fn visits(&self, see: &mut dyn FnMut(&[i64; 7]) -> bool) {
        self.visits_inside(self.loops.len(), &mut [0; 7], see);
    }

    fn visits_inside(&self, depth: usize, index: &mut [i64; 7], see: &mut dyn FnMut(&[i64; 7]) -> bool) -> bool {
        let Some(this) = depth.checked_sub(1) else {
            return see(index);
        };
        let mut count = self.loops[this].number;
        for (outward, term) in self.loops[this].terms.iter().enumerate() {
            count += term * index[this + 1 + outward];
        }
        for k in 0..count {
            index[this] = k;
            if !self.visits_inside(this, index, see) {
                return false;
            }
        }
        true
    }

    pub fn address(&self, operand: usize, index: &[i64; 7]) -> i64 {
        let Operand { base, strides } = &self.operands[operand];
        base + strides.iter().zip(index).map(|(stride, k)| stride * k * self.width as i64).sum::<i64>()
    }
}

/// How the plain loop went.
#[derive(Clone, Copy, PartialEq, Eq, Debug)]
pub struct Went {
    /// All visits lie inside memory; else the loop was left at the first that does not.
    pub inside: bool,
    /// Some visit reads a byte that an earlier one wrote.
    pub reads_written: bool,
}

/// The plain loop: destination = operation of both sources, visit by visit.
pub fn plain_loop(nest: &Nest, memory: &mut [u8]) -> Went {
    let mut went = Went { inside: true, reads_written: false };
    let mut written = vec![false; memory.len()];
    nest.visits(&mut |index| {
        let width = nest.width;
        let addresses = [0, 1, 2].map(|operand| nest.address(operand, index));
        if addresses.iter().any(|&at| at < 0 || at + width as i64 > memory.len() as i64) {
            went.inside = false;
            return false;
        }
        let [first, second, destination] = addresses.map(|at| at as usize..at as usize + width);
        went.reads_written |= written[first.clone()].contains(&true) || written[second.clone()].contains(&true);
        let result = lane(nest.operation, width, value(&memory[first]), value(&memory[second]));
        memory[destination.clone()].copy_from_slice(&result.to_le_bytes()[..width]);
        written[destination].fill(true);
        true
    });
    went
}
