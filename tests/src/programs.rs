//! Runs the built programs as people do, and compares what they write.
//!
//!     programs FOLDER        the folder that has them: target/bin
//!
//! What is held to the model: the sheets of `translate`, and the first line, the lane outside memory, the counts, how far each stream has
//! moved, and the memory of `run`.
//! The texts as a whole are held to the files of `expected/`, which were read by eye.

use std::fs;
use std::io::Write as _;
use std::path::{Path, PathBuf};
use std::process::{Command, ExitCode, Stdio};

use tests::calculation::{Outside, Role};
use tests::hex::bytes_of;
use tests::report::report;
use tests::{mark, model, nest};

/// What a program wrote to standard output and to standard error.
struct Written {
    out: Vec<u8>,
    error: Vec<u8>,
}

/// Runs a program in a folder.
fn run(program: &Path, folder: &Path, arguments: &[&str], input: &[u8], out: Stdio) -> Result<Written, String> {
    let said = |error| format!("{}: {error}", program.display());
    let mut child = Command::new(program)
        .args(arguments)
        .current_dir(folder)
        .env("LC_ALL", "C")
        .stdin(Stdio::piped())
        .stdout(out)
        .stderr(Stdio::piped())
        .spawn()
        .map_err(said)?;
    let mut pipe = child.stdin.take().expect("a pipe was asked for");
    // A program may end before it has read all.
    let _ = pipe.write_all(input);
    drop(pipe);
    let output = child.wait_with_output().map_err(said)?;
    Ok(Written { out: output.stdout, error: output.stderr })
}

/// What `translate` says of a refusal, by its number.
fn why(number: u64) -> &'static str {
    match number {
        1 => "a number is cut off, too long or not shortest",
        2 => "a number out of its range, or bytes after the nest",
        6 => "more than eight terms are not 0",
        8 => "a loop's count can fall below 0 or rise above 4,096",
        9 => "the product of the loops' largest counts is above 1,048,576",
        _ => "no refusal of a nest",
    }
}

/// What `run` says of a refusal 14.
fn where_outside(outside: Outside) -> String {
    let operand = match outside.role {
        Role::First => "first source",
        Role::Second => "second source",
        Role::Destination => "destination",
    };
    format!("lane {} of the {operand}, at address {}, lies outside memory", outside.lane, outside.address)
}

/// The text of a file of `examples/`.
fn example_text(name: &str) -> Result<String, String> {
    let path = format!("../examples/{name}.hex");
    fs::read_to_string(&path).map_err(|error| format!("{path}: {error}"))
}

/// The vector length of an example's run: its comment ends with that command.
fn vector_length(name: &str, text: &str) -> Result<u64, String> {
    let command = text.lines().filter_map(|line| line.split("target/bin/run ").nth(1)).last();
    let word = command.and_then(|command| command.split(' ').next());
    word.and_then(|word| word.parse().ok()).ok_or_else(|| format!("{name}: no vector length"))
}

fn plural(n: u64, one: &str, more: &str) -> String {
    format!("{n} {}", if n == 1 { one } else { more })
}

struct Tried {
    programs: PathBuf,
    folder: PathBuf,
    cases: usize,
    failures: usize,
}

impl Tried {
    fn path(&self, name: &str) -> PathBuf {
        self.folder.join(name)
    }

    fn made(&self, name: &str, bytes: &[u8]) -> Result<(), String> {
        fs::write(self.path(name), bytes).map_err(|error| format!("{name}: {error}"))
    }

    fn run(&self, program: &str, arguments: &[&str], input: &[u8]) -> Result<Written, String> {
        run(&self.programs.join(program), &self.folder, arguments, input, Stdio::piped())
    }

    /// One case: what was found must be what was expected.
    fn same(&mut self, case: &str, found: &[u8], expected: &[u8]) {
        self.cases += 1;
        if found != expected {
            self.failures += 1;
            println!(
                "{case}: not as expected\n  found    {:?}\n  expected {:?}",
                found.escape_ascii().to_string(),
                expected.escape_ascii().to_string()
            );
        }
    }

    /// What a program writes to both outputs.
    fn expect(&mut self, program: &str, arguments: &[&str], input: &[u8], out: &[u8], error: &str) -> Result<(), String> {
        let written = self.run(program, arguments, input)?;
        self.same(&format!("{program} {}", arguments.join(" ")), &written.out, out);
        self.same(&format!("{program} {}, standard error", arguments.join(" ")), &written.error, error.as_bytes());
        Ok(())
    }

    /// What a program writes to standard output is the text of a file in `expected/`.
    fn expect_file(&mut self, program: &str, arguments: &[&str], input: &[u8], file: &str) -> Result<Vec<u8>, String> {
        let path = Path::new("expected").join(file);
        let text = fs::read(&path).map_err(|error| format!("{}: {error}", path.display()))?;
        self.expect(program, arguments, input, &text, "")?;
        Ok(text)
    }

    /// The program `translate` on a nest: the sheet of the model's translator, or nothing, and the model's refusal on standard error.
    fn translate(&mut self, bytes: &[u8]) -> Result<(), String> {
        let (sheet, error) = match nest::read(bytes) {
            Ok(nest) => (nest.sheet(), String::new()),
            Err((clause, place)) => (Vec::new(), format!("refused {} at {place}: {}\n", clause.number(), why(clause.number()))),
        };
        self.expect("translate", &[], bytes, &sheet, &error)
    }

    fn translations(&mut self) -> Result<(), String> {
        const ONE: [u8; 11] = [0x00, 0x01, 0x00, 0x01, 0x03, 0x00, 0x02, 0x08, 0x02, 0x10, 0x02];
        for cut in 0..=ONE.len() {
            self.translate(&ONE[..cut])?;
        }
        // The program's buffer has 257 bytes, and no nest is longer than 195.
        for length in [12, 195, 196, 255, 256, 257, 258, 4_096, 70_000] {
            let mut longer = ONE.to_vec();
            longer.resize(length, 0);
            self.translate(&longer)?;
            self.translate(&vec![0; length])?;
            self.translate(&vec![255; length])?;
        }
        // 6: five loops, ten terms of 1; 8: 3 - 1 x 4; 9: 1,025 x 1,024.
        let streams = |depth: usize| ["00", &"02".repeat(depth)].concat().repeat(3);
        self.translate(&bytes_of(&["00 05 00 01  01 02 02 02 02  01 02 02 02  01 02 02  01 02  01", &streams(5)].concat()))?;
        self.translate(&bytes_of(&["00 02 00 01  03 01  05", &streams(2)].concat()))?;
        self.translate(&bytes_of(&["00 02 00 01  81 08 00  80 08", &streams(2)].concat()))
    }

    /// A document has a text of `expected/`, behind the command that gives it.
    fn told(&mut self, document: &str, command: &str, file: &str) -> Result<(), String> {
        let read = |path: &str| fs::read_to_string(path).map_err(|error| format!("{path}: {error}"));
        let text = format!("$ {command}\n{}", read(&format!("expected/{file}"))?);
        let block: String = text.lines().map(|line| format!("    {line}\n")).collect();
        self.same(&format!("{document}: {command}"), &[u8::from(read(&format!("../{document}"))?.contains(&block))], &[1]);
        Ok(())
    }

    /// The program `run`: its text is that of a file in `expected/`; its first line, the lane outside, the counts, how far each stream has
    /// moved and the memory are the model's. Answers the first line.
    fn ran(&mut self, name: &str, sheet: &[u8], vl: u64, image: &[u8]) -> Result<String, String> {
        self.made("sheet", sheet)?;
        self.made("image", image)?;
        let text = self.expect_file("run", &[&vl.to_string(), "sheet", "image", "after"], b"", &format!("{name}.run"))?;
        let text = String::from_utf8_lossy(&text).into_owned();
        let line = |at: usize| text.lines().nth(at).unwrap_or("").as_bytes();
        let mut memory = image.to_vec();
        let answer = model::run(sheet, vl, &mut memory);
        let numbers = report(&answer);
        let after = fs::read(self.path("after")).map_err(|error| format!("after: {error}"))?;
        self.same(&format!("{name}: memory"), &after, &memory);
        let first = if numbers[0] == 0 { "done".into() } else { format!("refused {} at {}", numbers[0], numbers[1]) };
        self.same(&format!("{name}: first line"), line(0), first.as_bytes());
        if let Some(outside) = answer.refusal.and_then(|refusal| refusal.outside) {
            self.same(&format!("{name}: lane outside"), line(1), where_outside(outside).as_bytes());
        }
        let counts = format!("{}, {}", plural(numbers[2], "pass", "passes"), plural(numbers[3], "calculation", "calculations"));
        self.same(&format!("{name}: counts"), &[u8::from(text.lines().any(|line| line == counts))], &[1]);
        for (number, register) in answer.registers.iter().enumerate().filter(|(_, register)| register.stream.is_some()) {
            let line = text.lines().find(|line| line.starts_with(&format!("u{number} "))).unwrap_or("");
            let moved = format!("{:9} moved  flags", register.stream().stops());
            self.same(&format!("{name}: how far u{number} has moved"), &[u8::from(line.contains(&moved))], &[1]);
        }
        let changed = memory.iter().zip(image).filter(|(now, before)| now != before).count();
        let last = format!("{changed} of {} memory bytes changed", image.len());
        self.same(&format!("{name}: last line"), text.lines().last().unwrap_or("").as_bytes(), last.as_bytes());
        Ok(first)
    }

    /// An example: its listing, from a file and from standard input, and its run. Its comment says how the run begins.
    fn example(&mut self, name: &str, comment: &str, sheet: &[u8], vl: u64, image: &[u8]) -> Result<(), String> {
        let first = self.ran(name, sheet, vl, image)?;
        self.expect_file("listing", &["sheet"], b"", &format!("{name}.listing"))?;
        self.expect_file("listing", &[], sheet, &format!("{name}.listing"))?;
        let said = comment.lines().find_map(|line| line.strip_prefix("# First line: ")).unwrap_or("");
        self.same(&format!("{name}: its comment"), said.as_bytes(), first.as_bytes());
        Ok(())
    }

    /// The examples of the repository that run on its image.
    fn examples(&mut self) -> Result<(), String> {
        let image = bytes_of(&example_text("image")?);
        for name in ["first", "triangle", "coupled-triangle", "ragged-rows", "empty-rows", "saxpy", "named-twice", "smoothing"] {
            let text = example_text(name)?;
            let mut sheet = bytes_of(&text);
            if name == "smoothing" {
                self.translate(&sheet)?;
                sheet = nest::read(&sheet).map_err(|_| "smoothing: refused")?.sheet();
            }
            self.example(name, &text, &sheet, vector_length(name, &text)?, &image)?;
        }
        for (document, name, vl) in [("docs/USING.md", "first", 16), ("examples/README.md", "named-twice", 8)] {
            self.told(document, "target/bin/listing sheet", &format!("{name}.listing"))?;
            self.told(document, &format!("target/bin/run {vl} sheet image after"), &format!("{name}.run"))?;
        }
        self.told("docs/USING.md", "target/bin/run 8 sheet image after", "empty-rows.run")?;
        self.told("docs/USING.md", "./run-c sheet image", "first.run-c")
    }

    /// The examples that run on the mark: at the vector length that they name, then at every one, with the memory held to the plain loop.
    fn marks(&mut self) -> Result<(), String> {
        let image = mark::mark();
        for job in &mark::JOBS {
            let text = example_text(job.name)?;
            self.example(job.name, &text, &job.sheet(), vector_length(job.name, &text)?, &job.memory(&image))?;
            for vl in mark::VECTOR_LENGTHS {
                fs::remove_file(self.path("after")).map_err(|error| format!("after: {error}"))?;
                let written = self.run("run", &[&vl.to_string(), "sheet", "image", "after"], b"")?;
                let after = fs::read(self.path("after")).map_err(|error| format!("after: {error}"))?;
                let held = job.held(&image, &after).err().unwrap_or_default();
                self.same(&format!("{} at vector length {vl}: memory", job.name), held.as_bytes(), b"");
                let first = written.out.split(|&byte| byte == b'\n').next().unwrap_or(b"");
                self.same(&format!("{} at vector length {vl}: first line", job.name), first, b"done");
            }
        }
        self.told("docs/USING.md", "target/bin/run 16 sheet mark words", "widen.run")?;
        self.told("docs/USING.md", "target/bin/listing sheet", "total.listing")?;
        self.told("docs/USING.md", "target/bin/run 16 sheet words after", "total.run")
    }

    /// Each of 8 to 11 in words; and smallest of a register that has no lanes.
    fn folds(&mut self) -> Result<(), String> {
        let image = bytes_of(&example_text("image")?);
        let sheet = bytes_of(
            "01 8B 81 01 00  02 01 00 04 02  04 01  05 01 05
            00 02 01 01  08 04 02 02  09 05 02 02  0A 06 02 02  0B 07 02 02",
        );
        self.ran("folds", &sheet, 8, &image)?;
        self.expect_file("listing", &["sheet"], b"", "folds.listing")?;
        let none = bytes_of("01 8B 81 01 00  02 01 00 04 02  04 01  05 01 02  00 02 01 01  09 05 03 03");
        self.ran("no-lanes", &none, 8, &image)?;
        Ok(())
    }

    /// Runs that are refused with 14, for each operand: document 01's words in 39 bytes, a second source that runs down below 0, the
    /// first example in 72 bytes. And rows of 0, 1 and 2 pixels in 33 bytes: the empty one has no address.
    fn outside(&mut self) -> Result<(), String> {
        let image = bytes_of(&example_text("image")?);
        let words = bytes_of("01 8B C1 15 04  02 01 00 05 04  04 01  05 01 01  00 02 01 01");
        self.ran("outside-first", &words, 16, &image[..39])?;
        let down = bytes_of(
            "01 8B A1 01 00  02 01 00 06 02  04 01
            01 8B A2 01 10  02 02 00 06 03  04 02
            01 8B 23 80 01  02 03 00 06 02  04 03
            05 01 01  01 03 01 02",
        );
        self.ran("outside-second", &down, 8, &image)?;
        let rows = bytes_of("01 8B 81 81 80 04 00  02 01 00 00 02  02 01 00 04 20  03 01 00 00 00 01  04 01  05 01 01  00 02 01 01");
        self.ran("outside-after-empty", &rows, 8, &image[..33])?;
        self.ran("outside-destination", &bytes_of(&example_text("first")?), 16, &image[..72])?;
        self.told("docs/USING.md", "target/bin/run 16 sheet short", "outside-destination.run")?;
        self.told("docs/USING.md", "./run-c sheet short", "outside-destination.run-c")
    }

    /// A sheet that is refused before it runs is listed up to there.
    fn refused_sheets(&mut self) -> Result<(), String> {
        let sheet = bytes_of("01 8B 81 01 00  02 01 00 04 02  02 01 00 06 02  03 01 00 00 01 01  04 01  05 01 01  00 02 01 01");
        self.expect_file("listing", &[], &sheet, "low-below-0.listing")?;
        self.expect_file("listing", &[], &sheet[..12], "cut-off.listing")?;
        self.expect_file("listing", &[], &bytes_of("01 8B 81 01 00  06"), "unknown.listing")?;
        self.expect_file("listing", &[], b"", "empty.listing")?;
        Ok(())
    }

    /// Streams that are configured in turns, a register that is opened anew, one that stays being configured; and as many streams as a
    /// sheet can have.
    fn many_streams(&mut self) -> Result<(), String> {
        let sheet = bytes_of(
            "01 8B 81 01 00  02 01 00 00 02  04 01
            01 8B 82 01 08  01 8B 81 01 00  02 02 00 04 02  02 01 00 03 02  04 02  02 01 00 02 10  04 01
            01 8B 84 01 00  02 04 00 01 02  01 8B 03 80 01  02 03 00 06 02  04 03
            05 01 01  00 03 01 01",
        );
        self.expect_file("listing", &[], &sheet, "in-turns.listing")?;
        let sheet = bytes_of("01 8B 81 01 00  02 01 00 00 02  04 01").repeat(5_461);
        let written = self.run("listing", &[], &sheet)?;
        let text = String::from_utf8_lossy(&written.out).into_owned();
        self.same("5,461 streams: lines", &text.lines().count().to_le_bytes(), &(3 * 5_461_usize + 1).to_le_bytes());
        self.same("5,461 streams: last line", text.lines().last().unwrap_or("").as_bytes(), b"accepted: 65532 bytes");
        Ok(())
    }

    /// A device that is full.
    fn full_device(&mut self) -> Result<(), String> {
        self.made("empty", b"")?;
        let nest = bytes_of("00 01 00 01 03 00 02 08 02 10 02");
        let cases: [(&str, &[&str], &[u8]); 3] =
            [("run", &["8", "empty", "empty"], b""), ("listing", &["empty"], b""), ("translate", &[], &nest)];
        for (program, arguments, input) in cases {
            let full = fs::File::options().write(true).open("/dev/full").map_err(|error| format!("/dev/full: {error}"))?;
            let written = run(&self.programs.join(program), &self.folder, arguments, input, full.into())?;
            self.same(&format!("{program}, a full device"), &written.error, b"standard output: No space left on device\n");
        }
        Ok(())
    }

    /// Wrong arguments, files that cannot be read, lengths that are not allowed, help.
    fn wrong_use(&mut self) -> Result<(), String> {
        const RUN: &str = "usage: run VECTOR-LENGTH SHEET MEMORY [OUT]\n";
        const LISTING: &str = "usage: listing [SHEET]\n";
        self.made("sheet", &bytes_of("01 8B 81 01 00"))?;
        self.made("empty", b"")?;
        self.made("long", &[0; 65_537])?;
        fs::create_dir_all(self.path("folder")).map_err(|error| format!("folder: {error}"))?;
        let few = format!("run takes a vector length, a sheet and a memory\n{RUN}");
        self.expect("run", &[], b"", b"", &few)?;
        self.expect("run", &["8", "sheet"], b"", b"", &few)?;
        self.expect("run", &["8", "sheet", "empty", "after", "more"], b"", b"", &format!("run takes no more than four arguments\n{RUN}"))?;
        for word in ["", "x", "8x", "-8"] {
            self.expect("run", &[word, "sheet", "empty"], b"", b"", &format!("the vector length is no number\n{RUN}"))?;
        }
        for (program, usage, before, behind) in
            [("run", RUN, &["8"][..], &["empty"][..]), ("run", RUN, &["8", "sheet"], &[]), ("listing", LISTING, &[], &[])]
        {
            for (name, why) in [("missing", "No such file or directory"), ("folder", "Is a directory")] {
                let arguments = [before, &[name], behind].concat();
                self.expect(program, &arguments, b"", b"", &format!("{name}: {why}\n{usage}"))?;
            }
        }
        self.expect("run", &["8", "long", "empty"], b"", b"", "the sheet has more than 65,536 bytes\n")?;
        self.expect("listing", &["long"], b"", b"", "the sheet has more than 65,536 bytes\n")?;
        self.expect("listing", &["sheet", "empty"], b"", b"", &format!("listing takes one sheet\n{LISTING}"))?;
        self.expect("translate", &["sheet"], b"", b"", "translate takes no arguments\nusage: translate < NEST > SHEET\n")?;
        self.expect_file("run", &["8", "empty", "empty"], b"", "empty.run")?;
        self.expect_file("run", &["8", "sheet", "long"], b"", "long-memory.run")?;
        self.expect_file("run", &["12", "sheet", "empty"], b"", "length-12.run")?;
        self.expect_file("run", &["18446744073709551624", "sheet", "empty"], b"", "length-12.run")?;
        let written = self.run("run", &["8", "empty", "empty", "missing/after"], b"")?;
        self.same("run, an OUT that cannot be made", &written.error, b"missing/after: No such file or directory\n");
        for program in ["run", "listing", "translate"] {
            self.expect_file(program, &["--help"], b"", &format!("{program}.help"))?;
        }
        Ok(())
    }

    fn all(&mut self) -> Result<(), String> {
        self.translations()?;
        self.examples()?;
        self.marks()?;
        self.folds()?;
        self.outside()?;
        self.refused_sheets()?;
        self.many_streams()?;
        self.full_device()?;
        self.wrong_use()
    }
}

fn main() -> ExitCode {
    let Some(Ok(programs)) = std::env::args().nth(1).map(fs::canonicalize) else {
        eprintln!("programs: name the folder that has the programs");
        return ExitCode::from(2);
    };
    let folder = std::env::temp_dir().join(format!("programs-{}", std::process::id()));
    if let Err(error) = fs::create_dir_all(&folder) {
        eprintln!("programs: {}: {error}", folder.display());
        return ExitCode::from(2);
    }
    let mut tried = Tried { programs, folder, cases: 0, failures: 0 };
    let ended = tried.all();
    let _ = fs::remove_dir_all(&tried.folder);
    if let Err(error) = ended {
        eprintln!("programs: {error}");
        return ExitCode::from(2);
    }
    println!("programs: {} of {} comparisons as expected", tried.cases - tried.failures, tried.cases);
    ExitCode::from(u8::from(tried.failures > 0))
}
