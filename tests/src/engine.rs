//! The engine, reached through its C library.

extern "C" {
    fn uve_run(
        sheet: *const u8,
        sheet_length: usize,
        vl: u64,
        memory: *mut u8,
        memory_length: usize,
        report: *mut u8,
        report_length: usize,
    ) -> u64;

    fn uve_translate(nest: *const u8, nest_length: usize, room: *mut u8, room_length: usize, report: *mut u8, report_length: usize) -> u64;
}

/// Runs a sheet. Answers the refusal's number, 0 for none, or 2^64 - 1 if the report is too short.
pub fn run(sheet: &[u8], vl: u64, memory: &mut [u8], report: &mut [u8]) -> u64 {
    // Each slice goes over as its pointer and its length, and the three do not overlap.
    unsafe { uve_run(sheet.as_ptr(), sheet.len(), vl, memory.as_mut_ptr(), memory.len(), report.as_mut_ptr(), report.len()) }
}

/// Translates a nest. Answers the refusal's number, 0 for none, or 2^64 - 1 if the report is too short.
pub fn translate(nest: &[u8], room: &mut [u8], report: &mut [u8]) -> u64 {
    unsafe { uve_translate(nest.as_ptr(), nest.len(), room.as_mut_ptr(), room.len(), report.as_mut_ptr(), report.len()) }
}
