//! One input on the model, on the engine and on the fast model, and what differs.

use std::time::{Duration, Instant};

use tests::clauses::{Hits, Seen};
use tests::generate::nests::NestInput;
use tests::generate::SheetInput;
use tests::mark::{self, Job};
use tests::model;
use tests::nest::{self, Went};
use tests::random::Random;
use tests::report::{self, report};

use crate::engine;

/// Bytes before and behind a lent slice; they must stay.
const MARGIN: usize = 24;

/// What was counted over all inputs.
pub struct Tally {
    pub hits: Hits,
    pub sheets: u64,
    pub nests: u64,
    /// Runs of translated sheets.
    pub runs: u64,
    /// Runs held to the plain loop.
    pub plain: u64,
    /// Nests accepted, and those with all visits inside of which some reads what an earlier one wrote.
    pub accepted: u64,
    pub reading_written: u64,
    pub refused: u64,
    pub short_reports: u64,
    pub model: Duration,
    pub engine: Duration,
    pub fast: Duration,
}

impl Tally {
    pub fn new() -> Tally {
        Tally {
            hits: Hits::none(),
            sheets: 0,
            nests: 0,
            runs: 0,
            plain: 0,
            accepted: 0,
            reading_written: 0,
            refused: 0,
            short_reports: 0,
            model: Duration::ZERO,
            engine: Duration::ZERO,
            fast: Duration::ZERO,
        }
    }
}

/// A slice lent with a margin of bytes on both sides.
struct Lent {
    bytes: Vec<u8>,
    margin: Vec<u8>,
}

impl Lent {
    fn new(random: &mut Random, content: &[u8]) -> Lent {
        let margin = random.bytes(MARGIN);
        Lent { bytes: [&margin, content, &margin].concat(), margin }
    }

    fn slice(&mut self) -> &mut [u8] {
        let length = self.bytes.len();
        &mut self.bytes[MARGIN..length - MARGIN]
    }

    /// The slice after the call; an error if a byte of the margin has changed.
    fn content(&self, what: &str) -> Result<&[u8], String> {
        let (before, rest) = self.bytes.split_at(MARGIN);
        let (content, behind) = rest.split_at(rest.len() - MARGIN);
        if before != self.margin || behind != self.margin {
            return Err(format!("bytes outside the {what} were written"));
        }
        Ok(content)
    }
}

type Run = fn(&[u8], u64, &mut [u8], &mut [u8]) -> u64;

/// What a run must come to.
struct Expected {
    report: Vec<u64>,
    memory: Vec<u8>,
    seen: Seen,
}

/// Compares one way to run a sheet with what is expected. Answers the time it took.
fn held_to(run: Run, random: &mut Random, input: &SheetInput, expected: &Expected) -> Result<Duration, String> {
    let mut memory = Lent::new(random, &input.memory);
    let longer = random.pick(&[0, 0, 1, 7, 8, 40]);
    let filling = random.bytes(report::BYTES + longer);
    let mut report = Lent::new(random, &filling);
    let began = Instant::now();
    let number = run(&input.sheet, input.vl, memory.slice(), report.slice());
    let took = began.elapsed();
    if number != expected.report[0] {
        return Err(format!("answer: {number}, expected {}", expected.report[0]));
    }
    let (numbers, behind) = report.content("report")?.split_at(report::BYTES);
    for (at, (bytes, &expected)) in numbers.chunks(8).zip(&expected.report).enumerate() {
        let number = u64::from_le_bytes(bytes.try_into().unwrap());
        if number != expected {
            return Err(format!("{}: {number:#x}, expected {expected:#x}", report::name(at)));
        }
    }
    if behind != &filling[report::BYTES..] {
        return Err("bytes behind the report were written".into());
    }
    same_bytes("memory", memory.content("memory")?, &expected.memory)?;
    Ok(took)
}

fn same_bytes(what: &str, bytes: &[u8], expected: &[u8]) -> Result<(), String> {
    match (0..bytes.len()).find(|&at| bytes[at] != expected[at]) {
        None => Ok(()),
        Some(at) => Err(format!("{what}, byte {at}: {:#x}, expected {:#x}", bytes[at], expected[at])),
    }
}

/// A report that is too short gets nothing, and nothing is done.
fn short_report(run: Run, random: &mut Random, input: &SheetInput) -> Result<(), String> {
    let length = random.pick(&[0, 1, 8, 64, report::BYTES - 8, report::BYTES - 1]);
    let filling = random.bytes(length);
    let mut report = Lent::new(random, &filling);
    let mut memory = Lent::new(random, &input.memory);
    let number = run(&input.sheet, input.vl, memory.slice(), report.slice());
    if number != u64::MAX {
        return Err(format!("report of {length} bytes: answer {number}"));
    }
    same_bytes("short report", report.content("report")?, &filling)?;
    same_bytes("memory after a short report", memory.content("memory")?, &input.memory)
}

fn expected(input: &SheetInput, tally: &mut Tally) -> Expected {
    let mut memory = input.memory.clone();
    let began = Instant::now();
    let answer = model::run(&input.sheet, input.vl, &mut memory);
    tally.model += began.elapsed();
    if let Some(refusal) = answer.refusal {
        tally.hits.refused(refusal.clause, answer.passes);
        tally.refused += 1;
    }
    tally.hits.saw(&answer.seen);
    Expected { report: report(&answer), memory, seen: answer.seen }
}

/// Compares the engine and the fast model with the model on a sheet.
pub fn sheet(input: &SheetInput, random: &mut Random, tally: &mut Tally) -> Result<(), String> {
    let expected = expected(input, tally);
    tally.engine += held_to(engine::run, random, input, &expected)?;
    tally.fast += held_to(fast::run, random, input, &expected).map_err(|difference| format!("fast model: {difference}"))?;
    if random.one_in(64) {
        tally.short_reports += 1;
        short_report(engine::run, random, input)?;
        short_report(fast::run, random, input).map_err(|difference| format!("fast model: {difference}"))?;
    }
    Ok(())
}

/// Compares the translator with the model, then runs the sheet and holds it to the model and to the plain loop.
pub fn nest(input: &NestInput, random: &mut Random, tally: &mut Tally) -> Result<(), String> {
    let filling = random.bytes(input.room);
    let mut expected_room = filling.clone();
    let translated = nest::translate(&input.nest, &mut expected_room);
    let expected = match translated {
        Ok(length) => [0, 0, length as u64],
        Err((clause, place)) => {
            tally.hits.refused(clause, 0);
            [clause.number(), place as u64, 0]
        }
    };
    let mut room = Lent::new(random, &filling);
    let length = 24 + random.pick(&[0, 0, 1, 8, 40]);
    let report = random.bytes(length);
    let mut lent = Lent::new(random, &report);
    let number = engine::translate(&input.nest, room.slice(), lent.slice());
    let (numbers, behind) = lent.content("report")?.split_at(24);
    let numbers: Vec<u64> = numbers.chunks(8).map(|bytes| u64::from_le_bytes(bytes.try_into().unwrap())).collect();
    if number != expected[0] || numbers != expected {
        return Err(format!("answer {number}, report {numbers:?}, expected {expected:?}"));
    }
    if behind != &report[24..] {
        return Err("bytes behind the report were written".into());
    }
    same_bytes("room", room.content("room")?, &expected_room)?;
    if random.one_in(64) {
        tally.short_reports += 1;
        short_translation(random, input, &filling)?;
    }
    match nest::read(&input.nest) {
        Ok(nest) => runs_of(&nest, input, random, tally),
        Err(_) => Ok(()),
    }
}

fn short_translation(random: &mut Random, input: &NestInput, filling: &[u8]) -> Result<(), String> {
    let length = random.pick(&[0, 1, 8, 23]);
    let report = random.bytes(length);
    let mut lent = Lent::new(random, &report);
    let mut room = Lent::new(random, filling);
    let number = engine::translate(&input.nest, room.slice(), lent.slice());
    if number != u64::MAX {
        return Err(format!("report of {} bytes: answer {number}", report.len()));
    }
    same_bytes("short report", lent.content("report")?, &report)?;
    same_bytes("room after a short report", room.content("room")?, filling)
}

/// Runs the sheet of an accepted nest at some vector lengths.
fn runs_of(nest: &nest::Nest, input: &NestInput, random: &mut Random, tally: &mut Tally) -> Result<(), String> {
    tally.accepted += 1;
    let mut plain = input.memory.clone();
    let Went { inside, reads_written, .. } = nest::plain_loop(nest, &mut plain);
    tally.reading_written += u64::from(inside && reads_written);
    for &vl in &input.vls {
        let run = SheetInput { style: input.style, sheet: nest.sheet(), vl, memory: input.memory.clone() };
        let at = |difference| format!("the sheet at vector length {vl}: {difference}");
        tally.runs += 1;
        let expected = expected(&run, tally);
        tally.hits.saw_nest(&expected.seen);
        tally.engine += held_to(engine::run, random, &run, &expected).map_err(at)?;
        if inside && expected.report[0] != 0 {
            return Err(at("refused, though all visits lie inside".into()));
        }
        if inside && !reads_written {
            tally.plain += 1;
            let mut memory = input.memory.clone();
            engine::run(&run.sheet, vl, &mut memory, &mut vec![0; report::BYTES]);
            same_bytes("memory against the plain loop", &memory, &plain).map_err(at)?;
        }
    }
    Ok(())
}

/// A sheet of the mark's centroid on images, held to its plain loop.
pub fn mark(job: &Job, vl: u64) -> Result<(), String> {
    for image in mark::images() {
        for (name, run) in [("", engine::run as Run), ("fast model: ", fast::run)] {
            let mut memory = job.memory(&image);
            let number = run(&job.sheet(), vl, &mut memory, &mut vec![0; report::BYTES]);
            if number != 0 {
                return Err(format!("{name}refused with {number}"));
            }
            job.held(&image, &memory).map_err(|difference| format!("{name}{difference}"))?;
        }
    }
    Ok(())
}

/// Slices of no bytes at all.
pub fn nothing() -> Result<(), String> {
    let answers = [
        ("an empty sheet on no memory", engine::run(&[], 8, &mut [], &mut [0; report::BYTES]), 0),
        ("an empty sheet without a report", engine::run(&[], 8, &mut [], &mut []), u64::MAX),
        ("an empty nest in no room", engine::translate(&[], &mut [], &mut [0; 24]), 1),
        ("an empty nest without a report", engine::translate(&[], &mut [], &mut []), u64::MAX),
    ];
    match answers.iter().find(|(_, answer, expected)| answer != expected) {
        None => Ok(()),
        Some((what, answer, expected)) => Err(format!("{what}: {answer}, expected {expected}")),
    }
}
