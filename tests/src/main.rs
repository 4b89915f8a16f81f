//! Compares the engine with the model on kept inputs, then on seeded ones, and counts what was reached.
//!
//!     check [--seed N] [--sheets N] [--nests N] [--kept FOLDER]
//!     check [--seed N] --sheet N | --nest N      one input by its number

mod compare;
mod engine;
mod kept;

use std::path::PathBuf;
use std::process::ExitCode;
use std::time::Instant;

use compare::Tally;
use tests::clauses::{Clause, Event, Hits};
use tests::generate::{self, fixed, nests, Style};
use tests::mark::{self, Job};
use tests::random::Random;

struct Options {
    seed: u64,
    sheets: u64,
    nests: u64,
    kept: PathBuf,
    one_sheet: Option<u64>,
    one_nest: Option<u64>,
}

fn options() -> Result<Options, String> {
    let mut options = Options { seed: 1, sheets: 200_000, nests: 50_000, kept: "kept".into(), one_sheet: None, one_nest: None };
    let mut arguments = std::env::args().skip(1);
    while let Some(name) = arguments.next() {
        let value = arguments.next().ok_or_else(|| format!("{name} needs a value"))?;
        let number = || value.parse::<u64>().map_err(|_| format!("{name}: not a number: {value}"));
        match name.as_str() {
            "--seed" => options.seed = number()?,
            "--sheets" => options.sheets = number()?,
            "--nests" => options.nests = number()?,
            "--sheet" => options.one_sheet = Some(number()?),
            "--nest" => options.one_nest = Some(number()?),
            "--kept" => options.kept = value.into(),
            _ => return Err(format!("unknown argument {name}")),
        }
    }
    Ok(options)
}

/// After so many differences the rest is not tried.
const MOST_DIFFERENCES: usize = 10;

struct Check {
    options: Options,
    tally: Tally,
    styles: [u64; Style::ALL.len()],
    differences: usize,
}

impl Check {
    fn kept(&mut self) -> Result<usize, String> {
        let inputs = kept::all(&self.options.kept)?;
        for (number, (path, input)) in inputs.iter().enumerate() {
            let mut random = Random::new(0, number as u64);
            let outcome = match input {
                kept::Input::Sheet(input) => compare::sheet(input, &mut random, &mut self.tally),
                kept::Input::Nest(input) => compare::nest(input, &mut random, &mut self.tally),
            };
            if let Err(difference) = outcome {
                self.differences += 1;
                println!("DIFFERS: {}: {difference}", path.display());
            }
        }
        Ok(inputs.len())
    }

    /// The inputs that do not come from a seed.
    fn fixed(&mut self) -> usize {
        let (sheets, nests) = (fixed::sheets(), fixed::nests());
        let mut outcomes = vec![("slices of no bytes", 0, compare::nothing())];
        for (number, input) in sheets.iter().enumerate() {
            outcomes.push(("sheet", number, compare::sheet(input, &mut Random::new(0, number as u64), &mut self.tally)));
        }
        for (number, input) in nests.iter().enumerate() {
            outcomes.push(("nest", number, compare::nest(input, &mut Random::new(0, number as u64), &mut self.tally)));
        }
        for (what, number, outcome) in outcomes {
            if let Err(difference) = outcome {
                self.differences += 1;
                println!("DIFFERS: fixed {what} {number}: {difference}");
            }
        }
        sheets.len() + nests.len()
    }

    /// The sheets of the mark's centroid at every vector length, on some images.
    fn marks(&mut self) -> usize {
        let runs: Vec<(&Job, u64)> = mark::JOBS.iter().flat_map(|job| mark::VECTOR_LENGTHS.map(|vl| (job, vl))).collect();
        for &(job, vl) in &runs {
            if let Err(difference) = compare::mark(job, vl) {
                self.differences += 1;
                println!("DIFFERS: examples/{}.hex at vector length {vl}: {difference}", job.name);
            }
        }
        runs.len() * mark::images().len()
    }

    fn sheet(&mut self, number: u64) {
        let seed = self.options.seed;
        let input = generate::sheet(seed, number);
        let mut random = Random::new(!seed, number);
        self.styles[input.style as usize] += 1;
        self.tally.sheets += 1;
        if let Err(difference) = compare::sheet(&input, &mut random, &mut self.tally) {
            let name = format!("sheet-{seed}-{number}");
            let where_kept = kept::keep_sheet(&self.options.kept, &name, &difference, &input);
            self.differences += 1;
            println!("DIFFERS: seed {seed}, sheet {number}: {difference}; {where_kept}");
        }
    }

    fn nest(&mut self, number: u64) {
        let seed = self.options.seed;
        let input = nests::nest(seed, number);
        let mut random = Random::new(!seed, number);
        self.tally.nests += 1;
        if let Err(difference) = compare::nest(&input, &mut random, &mut self.tally) {
            let name = format!("nest-{seed}-{number}");
            let where_kept = kept::keep_nest(&self.options.kept, &name, &difference, &input);
            self.differences += 1;
            println!("DIFFERS: seed {seed}, nest {number}: {difference}; {where_kept}");
        }
    }

    fn all(&mut self) {
        for number in 0..self.options.sheets {
            if self.differences < MOST_DIFFERENCES {
                self.sheet(number);
            }
        }
        for number in 0..self.options.nests {
            if self.differences < MOST_DIFFERENCES {
                self.nest(number);
            }
        }
    }

    fn print(&self, [kept, fixed, marks]: [usize; 3], seconds: f64) {
        let tally = &self.tally;
        println!("kept inputs: {kept}, fixed inputs: {fixed}, sums of images held to plain loops: {marks}");
        println!("sheets: {}, {} of all runs refused", tally.sheets, tally.refused);
        for style in Style::ALL {
            println!("    {style:?}: {}", self.styles[style as usize]);
        }
        println!("nests: {}, accepted {}, their sheets run {} times", tally.nests, tally.accepted, tally.runs);
        println!("    held to the plain loop: {} runs; {} nests read what they wrote", tally.plain, tally.reading_written);
        println!("short reports: {}", tally.short_reports);
        print_hits(&tally.hits);
        let seconds_of = |duration: std::time::Duration| duration.as_secs_f64();
        println!(
            "seconds: {seconds:.1} in all; in the model {:.1}, in the engine {:.1}, in the fast model {:.1}",
            seconds_of(tally.model),
            seconds_of(tally.engine),
            seconds_of(tally.fast)
        );
    }
}

fn print_hits(hits: &Hits) {
    println!("{:>8} {:>8}  no. clause", "hits", "later");
    for &clause in Clause::ALL {
        let later = if clause.can_come_later() { hits.later[clause as usize].to_string() } else { String::new() };
        println!("{:>8} {later:>8}  {:>3} {}", hits.clauses[clause as usize], clause.number(), clause.text());
    }
    println!("{:>8} event", "sheets");
    for &event in Event::ALL {
        println!("{:>8} {}: {}", hits.events[event as usize], event.group(), event.text());
    }
}

/// The clauses and events that no input reached, one line each.
fn never_reached(hits: &Hits) -> Vec<String> {
    let mut lines = Vec::new();
    for &clause in Clause::ALL {
        let (number, text) = (clause.number(), clause.text());
        if hits.clauses[clause as usize] == 0 {
            lines.push(format!("NEVER HIT: {number}, {text}"));
        }
        if clause.can_come_later() && hits.later[clause as usize] == 0 {
            lines.push(format!("NEVER HIT in a later pass: {number}, {text}"));
        }
    }
    for &event in Event::ALL {
        if hits.events[event as usize] == 0 {
            lines.push(format!("NEVER SEEN: {}: {}", event.group(), event.text()));
        }
    }
    lines
}

fn checked() -> Result<bool, String> {
    let began = Instant::now();
    let mut check = Check { options: options()?, tally: Tally::new(), styles: [0; Style::ALL.len()], differences: 0 };
    if let Some(number) = check.options.one_sheet {
        check.sheet(number);
        return Ok(check.differences == 0);
    }
    if let Some(number) = check.options.one_nest {
        check.nest(number);
        return Ok(check.differences == 0);
    }
    let kept = check.kept()?;
    let fixed = check.fixed();
    let marks = check.marks();
    check.all();
    check.print([kept, fixed, marks], began.elapsed().as_secs_f64());
    let never = never_reached(&check.tally.hits);
    for line in &never {
        println!("{line}");
    }
    println!("{} differences, {} clauses or events never reached", check.differences, never.len());
    Ok(check.differences == 0 && never.is_empty())
}

fn main() -> ExitCode {
    match checked() {
        Ok(true) => ExitCode::SUCCESS,
        Ok(false) => ExitCode::FAILURE,
        Err(message) => {
            eprintln!("check: {message}");
            ExitCode::from(2)
        }
    }
}
