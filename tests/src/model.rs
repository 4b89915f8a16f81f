//! Document 01's engine with the requests of document 02 that have landed, written from their text alone, to be compared with the proved one.

use crate::calculation::{has_one_source, Calculation, Fault, Outside};
use crate::clauses::{Clause, Event, Seen};
use crate::numbers;
use crate::stream::{Dimension, Kind, Modifier, Parameter, Stream};

#[derive(Clone, Copy, PartialEq, Eq, Debug)]
pub enum State {
    Plain,
    Configuring,
    Open,
    Finished,
}

#[derive(Clone, Debug)]
pub struct Register {
    pub state: State,
    pub width: usize,
    pub valid: usize,
    pub bytes: [u8; 64],
    /// There is one unless the register is plain.
    pub stream: Option<Stream>,
}

impl Register {
    pub fn fresh() -> Register {
        Register { state: State::Plain, width: 1, valid: 0, bytes: [0; 64], stream: None }
    }

    pub fn is_open(&self, kind: Kind) -> bool {
        self.state == State::Open && self.stream().kind == kind
    }

    pub fn stream(&self) -> &Stream {
        self.stream.as_ref().expect("a register that is not plain has a stream")
    }

    pub fn stream_mut(&mut self) -> &mut Stream {
        self.stream.as_mut().expect("a register that is not plain has a stream")
    }
}

#[derive(Clone, Copy, PartialEq, Eq, Debug)]
pub struct Refusal {
    pub clause: Clause,
    pub place: usize,
    /// What 14 carries; no other refusal does.
    pub outside: Option<Outside>,
}

impl Refusal {
    /// A refusal other than 14.
    pub fn at(place: usize, clause: Clause) -> Refusal {
        Refusal { clause, place, outside: None }
    }
}

/// What a sheet comes to, beside the memory.
pub struct Answer {
    pub refusal: Option<Refusal>,
    pub passes: u64,
    pub calculations: u64,
    pub registers: Vec<Register>,
    pub seen: Seen,
}

pub struct Machine<'a> {
    pub vl: usize,
    pub memory: &'a mut [u8],
    pub registers: Vec<Register>,
    pub passes: u64,
    pub calculations: u64,
    pub seen: Seen,
}

/// Runs a sheet.
pub fn run(sheet: &[u8], vl: u64, memory: &mut [u8]) -> Answer {
    let memory_length = memory.len();
    let mut machine =
        Machine { vl: vl as usize, memory, registers: vec![Register::fresh(); 32], passes: 0, calculations: 0, seen: Seen::default() };
    let done = if !(8..=64).contains(&vl) || vl % 8 != 0 {
        Err(Refusal::at(0, Clause::VectorLength))
    } else if memory_length > 65_536 {
        Err(Refusal::at(0, Clause::MemoryLength))
    } else {
        machine.sheet(sheet)
    };
    machine.seen.mark_if(machine.registers.iter().any(|register| register.state == State::Configuring), Event::LeftConfiguring);
    Answer {
        refusal: done.err(),
        passes: machine.passes,
        calculations: machine.calculations,
        registers: machine.registers,
        seen: machine.seen,
    }
}

/// Reads the numbers of one operation or calculation. `no_number` says which clause a missing number falls under.
struct Reader<'a> {
    sheet: &'a [u8],
    place: usize,
    no_number: fn(numbers::NoNumber) -> Clause,
}

impl Reader<'_> {
    fn number(&mut self) -> Result<u64, Clause> {
        let (value, place) = numbers::number_at(self.sheet, self.place).map_err(self.no_number)?;
        self.place = place;
        Ok(value)
    }

    /// A number of at most `most`.
    fn upto(&mut self, most: u64, clause: Clause) -> Result<u64, Clause> {
        let value = self.number()?;
        if value > most {
            return Err(clause);
        }
        Ok(value)
    }

    /// An offset or a stride.
    fn reach(&mut self, below: Clause, above: Clause) -> Result<i64, Clause> {
        let value = numbers::signed(self.number()?);
        if value < -1_048_576 {
            return Err(below);
        }
        if value > 1_048_576 {
            return Err(above);
        }
        Ok(value)
    }

    fn register(&mut self, clause: Clause) -> Result<usize, Clause> {
        Ok(self.upto(31, clause)? as usize)
    }
}

impl Machine<'_> {
    fn sheet(&mut self, sheet: &[u8]) -> Result<(), Refusal> {
        let mut reader = Reader { sheet, place: 0, no_number: Clause::of_operation };
        self.seen.mark_if(sheet.is_empty(), Event::EmptySheet);
        while reader.place < sheet.len() {
            let place = reader.place;
            let refused = |clause| Refusal::at(place, clause);
            match reader.number().map_err(refused)? {
                1 => self.open(&mut reader).map_err(refused)?,
                2 => self.dimension(&mut reader).map_err(refused)?,
                3 => self.modifier(&mut reader).map_err(refused)?,
                4 => self.end(&mut reader).map_err(refused)?,
                5 => return self.run(&mut reader, place),
                _ => return Err(refused(Clause::UnknownOperation)),
            }
        }
        self.seen.mark(Event::NoRun);
        Ok(())
    }

    fn open(&mut self, reader: &mut Reader) -> Result<(), Clause> {
        let word = reader.number()?;
        let base = reader.upto(1_048_576, Clause::OpenBase)?;
        let bits = |high: u32, low: u32| word / 2_u64.pow(low) % 2_u64.pow(high - low + 1);
        fixed_bits(bits)?;
        match (bits(31, 31), bits(24, 24)) {
            (0, 0) => {}
            (_, 0) => return Err(Clause::HeaderM),
            (0, _) => return Err(Clause::HeaderInds),
            _ => return Err(Clause::HeaderBoth),
        }
        let register = &mut self.registers[bits(11, 7) as usize];
        match register.state {
            State::Plain => {}
            State::Finished => self.seen.mark(Event::OpenedAgain),
            State::Configuring => return Err(Clause::OpenConfiguring),
            State::Open => {
                self.seen.mark_if(!register.stream().has_element(), Event::OpenEmptyOnly);
                return Err(Clause::OpenOpen);
            }
        }
        let (kind, width) = match bits(14, 12) {
            code @ 0..=3 => (Kind::Store, 1 << code),
            code => (Kind::Load, 1 << (code - 4)),
        };
        let coupled = if bits(30, 30) == 1 { bits(29, 27) as usize + 1 } else { 0 };
        *register = Register {
            state: State::Configuring,
            width,
            valid: 0,
            bytes: [0; 64],
            stream: Some(Stream::new(kind, width as i64, coupled, base as i64)),
        };
        Ok(())
    }

    fn dimension(&mut self, reader: &mut Reader) -> Result<(), Clause> {
        let register = reader.register(Clause::DimensionRegister)?;
        let offset = reader.reach(Clause::DimensionOffsetBelow, Clause::DimensionOffsetAbove)?;
        let size = reader.upto(4_096, Clause::DimensionSize)? as i64;
        let stride = reader.reach(Clause::DimensionStrideBelow, Clause::DimensionStrideAbove)?;
        let register = &mut self.registers[register];
        being_configured(register, [Clause::DimensionPlain, Clause::DimensionOpen, Clause::DimensionFinished])?;
        let stream = register.stream_mut();
        if stream.dimensions.len() == 7 {
            return Err(Clause::EighthDimension);
        }
        stream.dimensions.push(Dimension { offset, size, stride });
        Ok(())
    }

    fn modifier(&mut self, reader: &mut Reader) -> Result<(), Clause> {
        let register = reader.register(Clause::ModifierRegister)?;
        let target = reader.upto(6, Clause::ModifierTarget)? as usize + 1;
        let parameter = match reader.upto(2, Clause::ModifierParameter)? {
            0 => Parameter::Size,
            1 => Parameter::Offset,
            _ => Parameter::Stride,
        };
        let adds = reader.upto(1, Clause::ModifierBehaviour)? == 0;
        let displacement = reader.upto(1_048_576, Clause::ModifierDisplacement)? as i64;
        let register = &mut self.registers[register];
        being_configured(register, [Clause::ModifierPlain, Clause::ModifierOpen, Clause::ModifierFinished])?;
        let stream = register.stream_mut();
        if stream.modifiers.len() == 8 {
            return Err(Clause::NinthModifier);
        }
        let owner = stream.dimensions.len();
        if owner == 0 {
            return Err(Clause::ModifierNoDimension);
        }
        if target >= owner {
            return Err(Clause::TargetNotBelow);
        }
        stream.modifiers.push(Modifier { owner, target, parameter, adds, displacement });
        Ok(())
    }

    fn end(&mut self, reader: &mut Reader) -> Result<(), Clause> {
        let register = reader.register(Clause::EndRegister)?;
        let register = &mut self.registers[register];
        being_configured(register, [Clause::EndPlain, Clause::EndOpen, Clause::EndFinished])?;
        let stream = register.stream_mut();
        if stream.dimensions.is_empty() {
            return Err(Clause::EndNoDimension);
        }
        if stream.coupled > stream.dimensions.len() {
            return Err(Clause::CoupledMissing);
        }
        stream.bounds()?;
        if stream.has_chunk() {
            register.state = State::Open;
        } else {
            stream.whole = true;
            let coupled = stream.coupled > 0;
            register.state = State::Finished;
            self.seen.mark(Event::FinishedAtEnd);
            self.seen.mark_if(coupled, Event::NoPass);
        }
        Ok(())
    }

    /// The whole body is read, then bytes after it refused, then 16 checked, before the first pass.
    fn run(&mut self, reader: &mut Reader, place: usize) -> Result<(), Refusal> {
        let refused = |clause| Refusal::at(place, clause);
        let loop_register = reader.register(Clause::RunLoopRegister).map_err(refused)?;
        let count = reader.upto(16, Clause::RunCountAbove).map_err(refused)?;
        if count == 0 {
            return Err(refused(Clause::RunCountZero));
        }
        let mut body = Vec::new();
        reader.no_number = Clause::of_calculation;
        for _ in 0..count {
            let place = reader.place;
            body.push(calculation(reader).map_err(|clause| Refusal::at(place, clause))?);
        }
        if reader.place < reader.sheet.len() {
            return Err(Refusal::at(reader.place, Clause::BytesAfterRun));
        }
        self.loop_register(loop_register, &body).map_err(refused)?;
        self.passes(loop_register, &body)
    }

    /// 16.
    fn loop_register(&self, loop_register: usize, body: &[Calculation]) -> Result<(), Clause> {
        let register = &self.registers[loop_register];
        match register.state {
            State::Plain => return Err(Clause::LoopPlain),
            State::Configuring => return Err(Clause::LoopConfiguring),
            State::Open if register.stream().kind == Kind::Store => return Err(Clause::LoopStoreOpen),
            State::Finished if register.stream().kind == Kind::Store => return Err(Clause::LoopStoreFinished),
            _ => {}
        }
        if !body.iter().any(|calculation| calculation.first == loop_register || calculation.second == loop_register) {
            return Err(Clause::LoopNotNamed);
        }
        Ok(())
    }

    fn passes(&mut self, loop_register: usize, body: &[Calculation]) -> Result<(), Refusal> {
        self.seen.mark_if(self.registers[loop_register].state == State::Finished, Event::LoopFinishedNoPass);
        while self.registers[loop_register].state == State::Open {
            for calculation in body {
                self.seen.mark_if(self.registers[loop_register].state == State::Finished, Event::LoopFinishesInBody);
                self.calculate(calculation).map_err(|Fault { clause, outside }| Refusal { clause, place: calculation.place, outside })?;
                self.calculations += 1;
            }
            self.passes += 1;
            self.seen.mark_if(self.passes >= 2, Event::Passes2);
            self.seen.mark_if(self.passes >= 100, Event::Passes100);
            self.seen.mark_if(self.passes >= 10_000, Event::Passes10000);
            self.seen.mark_if(body.len() == 16, Event::Calculations16);
        }
        Ok(())
    }
}

/// 3.
fn fixed_bits(bits: impl Fn(u32, u32) -> u64) -> Result<(), Clause> {
    if bits(6, 0) != 0b000_1011 {
        return Err(Clause::HeaderLowBits);
    }
    if bits(21, 20) != 0 {
        return Err(Clause::HeaderBits21);
    }
    if bits(26, 25) != 0 {
        return Err(Clause::HeaderBits26);
    }
    if bits(30, 30) == 0 && bits(29, 27) != 0 {
        return Err(Clause::HeaderUncoupled);
    }
    if bits(29, 27) == 0b111 {
        return Err(Clause::HeaderSeven);
    }
    Ok(())
}

/// 5 for operations 2 to 4; the clauses are for a plain, an open and a finished register.
fn being_configured(register: &Register, [plain, open, finished]: [Clause; 3]) -> Result<(), Clause> {
    match register.state {
        State::Configuring => Ok(()),
        State::Plain => Err(plain),
        State::Open => Err(open),
        State::Finished => Err(finished),
    }
}

fn calculation(reader: &mut Reader) -> Result<Calculation, Clause> {
    let place = reader.place;
    let operation = reader.upto(11, Clause::CalculationOperation)?;
    let destination = reader.register(Clause::CalculationDestination)?;
    let first = reader.register(Clause::CalculationFirst)?;
    let second = reader.register(Clause::CalculationSecond)?;
    if has_one_source(operation) && second != first {
        return Err(match operation {
            0 => Clause::CopyDiffers,
            8 => Clause::SumDiffers,
            9 => Clause::SmallestDiffers,
            10 => Clause::LargestDiffers,
            _ => Clause::FirstLargestDiffers,
        });
    }
    Ok(Calculation { place, operation, destination, first, second })
}
