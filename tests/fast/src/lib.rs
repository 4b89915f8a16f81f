//! Document 01's engine as one would write it for speed: running addresses and indices, no lists, lanes worked on 64 bytes at a time.
//! It is not proved. The tests compare it with the others on every sheet, and the bench times it beside them.

mod lanes;
mod machine;
mod sheet;
mod walk;

pub use machine::REPORT_BYTES;

/// Runs a sheet, with the same answer and report as the engine's `uve_run`.
pub fn run(sheet: &[u8], vl: u64, memory: &mut [u8], report: &mut [u8]) -> u64 {
    if report.len() < REPORT_BYTES {
        return u64::MAX;
    }
    let mut machine = machine::Machine::fresh(vl as usize);
    let (number, place) = if !(8..=64).contains(&vl) || vl % 8 != 0 || memory.len() > 65_536 {
        (15, 0)
    } else {
        match sheet::run(&mut machine, sheet, memory) {
            Ok(()) => (0, 0),
            Err(refusal) => refusal,
        }
    };
    machine.report(number, place as u64, report);
    number
}
