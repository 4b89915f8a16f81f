//! A sheet's operations, one after another, and its run.

use crate::machine::{Calculation, Machine, CONFIGURING, FINISHED, LOAD, OPEN, PLAIN, STORE};
use crate::walk::{Modifier, Stream, DIMENSIONS, MODIFIERS};

/// A refusal's number and place.
pub type Refusal = (u64, usize);

struct Reader<'a> {
    sheet: &'a [u8],
    place: usize,
}

impl Reader<'_> {
    /// A number, or refusal 1.
    #[inline]
    fn number(&mut self) -> Result<u64, u64> {
        let rest = self.sheet.get(self.place..).unwrap_or(&[]);
        let mut value = 0_u64;
        for (group, &byte) in rest.iter().take(5).enumerate() {
            value |= u64::from(byte & 0x7f) << (7 * group);
            if byte < 0x80 {
                if byte == 0 && group > 0 || value > u64::from(u32::MAX) {
                    return Err(1);
                }
                self.place += group + 1;
                return Ok(value);
            }
        }
        Err(1)
    }

    fn upto(&mut self, most: u64) -> Result<u64, u64> {
        match self.number()? {
            value if value <= most => Ok(value),
            _ => Err(2),
        }
    }

    fn reach(&mut self) -> Result<i64, u64> {
        let raw = self.number()? as i64;
        let value = raw >> 1 ^ -(raw & 1);
        if value.abs() > 1_048_576 {
            return Err(2);
        }
        Ok(value)
    }
}

/// Runs a sheet whose vector length and memory are allowed.
pub fn run(machine: &mut Machine, sheet: &[u8], memory: &mut [u8]) -> Result<(), Refusal> {
    let mut reader = Reader { sheet, place: 0 };
    while reader.place < sheet.len() {
        let place = reader.place;
        let refused = |number| (number, place);
        match reader.number().map_err(refused)? {
            1 => open(machine, &mut reader).map_err(refused)?,
            2 => dimension(machine, &mut reader).map_err(refused)?,
            3 => modifier(machine, &mut reader).map_err(refused)?,
            4 => end(machine, &mut reader).map_err(refused)?,
            5 => return repeat(machine, &mut reader, place, memory),
            _ => return Err((2, place)),
        }
    }
    Ok(())
}

fn open(machine: &mut Machine, reader: &mut Reader) -> Result<(), u64> {
    let word = reader.number()? as u32;
    let base = reader.upto(1_048_576)? as i64;
    let (coupled, dimension) = (word >> 30 & 1, word >> 27 & 7);
    if word & 0x0630_007f != 0x0b || coupled == 0 && dimension != 0 || dimension == 7 {
        return Err(3);
    }
    if word & 0x8100_0000 != 0 {
        return Err(4);
    }
    let register = &mut machine.registers[(word >> 7 & 31) as usize];
    if register.state != PLAIN && register.state != FINISHED {
        return Err(5);
    }
    register.state = CONFIGURING;
    register.kind = if word >> 14 & 1 == 1 { LOAD } else { STORE };
    register.code = (word >> 12 & 3) as u8;
    register.valid = 0;
    register.lanes = [0; 64];
    register.base = base;
    register.stream = Stream::NONE;
    register.stream.coupled = if coupled == 1 { dimension as u8 + 1 } else { 0 };
    Ok(())
}

fn dimension(machine: &mut Machine, reader: &mut Reader) -> Result<(), u64> {
    let register = &mut machine.registers[reader.upto(31)? as usize];
    let offset = reader.reach()?;
    let size = reader.upto(4_096)?;
    let stride = reader.reach()?;
    if register.state != CONFIGURING {
        return Err(5);
    }
    let stream = &mut register.stream;
    let d = stream.dimensions as usize;
    if d == DIMENSIONS {
        return Err(6);
    }
    stream.walk.offset[d] = offset;
    stream.walk.size[d] = size as i32;
    stream.walk.step[d] = stride << register.code;
    stream.first[d + 1] = stream.modifiers;
    stream.dimensions += 1;
    Ok(())
}

fn modifier(machine: &mut Machine, reader: &mut Reader) -> Result<(), u64> {
    let register = &mut machine.registers[reader.upto(31)? as usize];
    let target = reader.upto(6)? as u8;
    let parameter = reader.upto(2)? as u8;
    let subtracts = reader.upto(1)? == 1;
    let displacement = reader.upto(1_048_576)? as i64;
    if register.state != CONFIGURING {
        return Err(5);
    }
    let stream = &mut register.stream;
    let at = stream.modifiers as usize;
    if at == MODIFIERS {
        return Err(6);
    }
    if target + 1 >= stream.dimensions {
        return Err(7);
    }
    let step = if subtracts { -displacement } else { displacement };
    let step = if parameter == 2 { step << register.code } else { step };
    let owner = stream.dimensions - 1;
    stream.modifier[at] = Modifier { owner, target, parameter, step };
    stream.modifiers += 1;
    stream.first[owner as usize + 1] = stream.modifiers;
    Ok(())
}

fn end(machine: &mut Machine, reader: &mut Reader) -> Result<(), u64> {
    let register = &mut machine.registers[reader.upto(31)? as usize];
    if register.state != CONFIGURING {
        return Err(5);
    }
    let stream = &mut register.stream;
    if stream.dimensions == 0 || stream.coupled > stream.dimensions {
        return Err(7);
    }
    bounds(stream)?;
    register.state = if stream.begin(register.base) { OPEN } else { FINISHED };
    Ok(())
}

/// 8 and 9.
fn bounds(stream: &Stream) -> Result<(), u64> {
    let mut high = [0_i64; DIMENSIONS];
    for d in (0..stream.dimensions as usize).rev() {
        let mut low = i64::from(stream.walk.size[d]);
        high[d] = low;
        for modifier in &stream.modifier[..stream.modifiers as usize] {
            if modifier.target as usize == d && modifier.parameter == 0 {
                let reach = modifier.step * (high[modifier.owner as usize] - 1).max(0);
                if modifier.step > 0 {
                    high[d] += reach;
                } else {
                    low += reach;
                }
            }
        }
        if low < 0 || high[d] > 4_096 {
            return Err(8);
        }
    }
    let mut product = 1;
    for high in high {
        product *= high.max(1);
        if product > 1_048_576 {
            return Err(9);
        }
    }
    Ok(())
}

fn repeat(machine: &mut Machine, reader: &mut Reader, place: usize, memory: &mut [u8]) -> Result<(), Refusal> {
    let refused = |number| (number, place);
    let looped = reader.upto(31).map_err(refused)? as usize;
    let count = reader.upto(16).map_err(refused)? as usize;
    if count == 0 {
        return Err((2, place));
    }
    let mut body = [Calculation::default(); 16];
    for calculation in &mut body[..count] {
        let place = reader.place;
        *calculation = read(reader).map_err(|number| (number, place))?;
    }
    let body = &body[..count];
    if reader.place < reader.sheet.len() {
        return Err((2, reader.place));
    }
    let loops = machine.registers[looped].kind == LOAD && machine.registers[looped].state >= OPEN;
    if !loops || !body.iter().any(|c| c.first as usize == looped || c.second as usize == looped) {
        return Err((16, place));
    }
    while machine.registers[looped].state == OPEN {
        for calculation in body {
            machine.calculate(calculation, memory).map_err(|number| (number, calculation.place))?;
            machine.calculations += 1;
        }
        machine.passes += 1;
    }
    Ok(())
}

fn read(reader: &mut Reader) -> Result<Calculation, u64> {
    let place = reader.place;
    let operation = reader.upto(11)? as u8;
    let destination = reader.upto(31)? as u8;
    let first = reader.upto(31)? as u8;
    let second = reader.upto(31)? as u8;
    if (operation == 0 || operation >= 8) && first != second {
        return Err(2);
    }
    Ok(Calculation { place, operation, destination, first, second })
}
