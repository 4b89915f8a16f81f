//! The independent tests: a model of document 01 written from its text alone, a generator of inputs, and what is counted.
//!
//! - `numbers`      numbers in groups of seven bits
//! - `clauses`      every clause of the refusal table, and the events that a test run must have seen
//! - `stream`       loops, elements, chunks, flags
//! - `model`        registers, operations, runs of sheets
//! - `calculation`  one calculation
//! - `notes`        the events of a calculation
//! - `report`       what a sheet came to, in the form of the engine's report
//! - `nest`         loop nests: the translation, and the plain loop
//! - `mark`         the sheets of a mark's centroid, and the plain loops that they are held to
//! - `hex`          commented hexadecimal text
//! - `random`       a seeded source of numbers
//! - `generate`     sheets and nests: valid, near-valid, damaged, extreme

pub mod calculation;
pub mod clauses;
pub mod generate;
pub mod hex;
pub mod mark;
pub mod model;
pub mod nest;
mod notes;
pub mod numbers;
pub mod random;
pub mod report;
pub mod stream;

#[cfg(test)]
mod examples;
#[cfg(test)]
mod models;
#[cfg(test)]
mod table;
