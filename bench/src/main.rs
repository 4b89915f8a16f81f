//! Times each job on the engine, on the fast model and as a plain loop, side by side: nanoseconds for an element and for a calculation,
//! their ratios, and how the time grows when the job doubles.

#[path = "../../tests/src/engine.rs"]
#[allow(dead_code)]
mod engine;
mod jobs;

use std::hint::black_box;
use std::time::{Duration, Instant};

use jobs::{Job, JOBS};

type Run = fn(&[u8], u64, &mut [u8], &mut [u8]) -> u64;

fn memory() -> Vec<u8> {
    (0..65_536_u32).map(|i| (i.wrapping_mul(2_654_435_761) >> 13) as u8).collect()
}

/// The least time of one call, in nanoseconds: the best of 50 batches of about 2 ms, so that some go undisturbed on a busy machine.
fn nanoseconds(mut call: impl FnMut()) -> f64 {
    call();
    let began = Instant::now();
    call();
    let once = began.elapsed().max(Duration::from_nanos(100));
    let batch = (2_000_000 / once.as_nanos()).clamp(1, 100_000) as u32;
    let mut best = f64::INFINITY;
    for _ in 0..50 {
        let began = Instant::now();
        for _ in 0..batch {
            call();
        }
        best = best.min(began.elapsed().as_nanos() as f64 / f64::from(batch));
    }
    best
}

/// Runs the job once and answers the calculations, after a look at what it did.
fn tried(run: Run, job: &Job, size: usize) -> u64 {
    let mut expected = memory();
    (job.plain)(size, &mut expected);
    let mut memory = memory();
    let mut report = vec![0; fast::REPORT_BYTES];
    let number = run(&(job.sheet)(size), job.vl, &mut memory, &mut report);
    assert_eq!(number, 0, "{}: refused", job.name);
    assert!(memory == expected, "{}: the memory is not that of the plain loop", job.name);
    u64::from_le_bytes(report[24..32].try_into().unwrap())
}

fn timed(run: Run, job: &Job, size: usize) -> f64 {
    let sheet = (job.sheet)(size);
    let mut memory = memory();
    let mut report = vec![0; fast::REPORT_BYTES];
    nanoseconds(|| {
        black_box(run(black_box(&sheet), job.vl, &mut memory, &mut report));
    })
}

fn timed_plain(job: &Job, size: usize) -> f64 {
    let mut memory = memory();
    nanoseconds(|| (job.plain)(black_box(size), black_box(&mut memory)))
}

fn main() {
    println!("nanoseconds for an element, and for a calculation (c.); growth: time at twice the elements, over twice the time");
    println!(
        "{:<46} {:>8} {:>6} {:>9} {:>8} {:>8} {:>9} {:>7} {:>9} {:>9} {:>7} {:>7}",
        "job", "elements", "calc.", "engine", "engine c.", "fast", "fast c.", "plain", "eng/fast", "eng/plain", "growth", "growth f."
    );
    for job in &JOBS {
        let [half, whole] = job.sizes;
        let calculations = tried(engine::run, job, whole);
        assert_eq!(calculations, tried(fast::run, job, whole), "{}: calculations", job.name);
        tried(engine::run, job, half);
        let [engine, engine_half] = [whole, half].map(|size| timed(engine::run, job, size));
        let [fast, fast_half] = [whole, half].map(|size| timed(fast::run, job, size));
        let plain = timed_plain(job, whole);
        let elements = (job.elements)(whole) as f64;
        let more = elements / (job.elements)(half) as f64;
        let each = |time: f64| if calculations == 0 { "-".into() } else { format!("{:.1}", time / calculations as f64) };
        println!(
            "{:<46} {:>8} {:>6} {:>9.2} {:>8} {:>8.2} {:>9} {:>7.2} {:>9.1} {:>9.1} {:>7.2} {:>7.2}",
            job.name,
            elements,
            calculations,
            engine / elements,
            each(engine),
            fast / elements,
            each(fast),
            plain / elements,
            engine / fast,
            engine / plain,
            engine / engine_half / more,
            fast / fast_half / more,
        );
    }
}
