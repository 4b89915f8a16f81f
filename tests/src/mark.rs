//! The mark of `examples/` and the sheets of its centroid: row sums, the sum of all pixels, the sums of the pixels times their columns and
//! times their rows. What each sheet leaves in memory is held to a plain loop over the pixels, at every vector length.

use crate::hex::bytes_of;
use crate::random::Random;

pub const COLUMNS: usize = 13;
pub const ROWS: usize = 11;
pub const VECTOR_LENGTHS: [u64; 8] = [8, 16, 24, 32, 40, 48, 56, 64];

/// The mark, a word for widen.hex, and room.
const MEMORY: &str = include_str!("../../examples/mark.hex");

/// Where the pixels stand as words.
const WORDS: usize = 256;
/// A word that row-sums.hex writes on its way: the sum of the last chunk, which the vector length decides on.
const CHUNK: usize = 204;

/// Pixels, row by row.
pub type Image = [u8; COLUMNS * ROWS];

pub struct Job {
    pub name: &'static str,
    text: &'static str,
    /// The memory has the pixels as words, too.
    on_words: bool,
    /// Where the results stand.
    at: usize,
    plain: fn(&Image) -> Vec<u32>,
}

macro_rules! job {
    ($name:literal, $on_words:literal, $at:expr, $plain:expr) => {
        Job { name: $name, text: include_str!(concat!("../../examples/", $name, ".hex")), on_words: $on_words, at: $at, plain: $plain }
    };
}

pub const JOBS: [Job; 5] = [
    job!("widen", false, WORDS, |image| image.iter().map(|&pixel| u32::from(pixel)).collect()),
    job!("row-sums", true, 160, |image| image.chunks(COLUMNS).map(|row| row.iter().map(|&pixel| u32::from(pixel)).sum()).collect()),
    job!("total", true, 208, |image| weighted(image, |_, _| 1)),
    job!("sum-x", true, 212, |image| weighted(image, |x, _| x)),
    job!("sum-y", true, 216, |image| weighted(image, |_, y| y)),
];

/// The sum of the pixels, each times a number that its column and its row have.
fn weighted(image: &Image, number: fn(u32, u32) -> u32) -> Vec<u32> {
    let mut sum = 0;
    for y in 0..ROWS {
        for x in 0..COLUMNS {
            sum += number(x as u32, y as u32) * u32::from(image[COLUMNS * y + x]);
        }
    }
    vec![sum]
}

/// The pixels of `examples/mark.hex`.
pub fn mark() -> Image {
    *bytes_of(MEMORY).first_chunk().expect("the memory begins with the pixels")
}

/// The mark, the brightest image and the darkest, and some others.
pub fn images() -> Vec<Image> {
    let mut random = Random::new(2, 14);
    let mut images = vec![mark(), [255; COLUMNS * ROWS], [0; COLUMNS * ROWS]];
    images.extend((0..8).map(|_| [0; COLUMNS * ROWS].map(|_: u8| random.next() as u8)));
    images
}

fn little_endian(numbers: &[u32]) -> Vec<u8> {
    numbers.iter().flat_map(|number| number.to_le_bytes()).collect()
}

impl Job {
    pub fn sheet(&self) -> Vec<u8> {
        bytes_of(self.text)
    }

    /// The memory to run the sheet on.
    pub fn memory(&self, image: &Image) -> Vec<u8> {
        let mut memory = bytes_of(MEMORY);
        memory[..image.len()].copy_from_slice(image);
        if self.on_words {
            let words = little_endian(&image.map(u32::from));
            memory[WORDS..][..words.len()].copy_from_slice(&words);
        }
        memory
    }

    /// The memory that the sheet must leave, the word at 204 aside, which is taken from `after`.
    fn expected(&self, image: &Image, after: &[u8]) -> Vec<u8> {
        let mut memory = self.memory(image);
        let results = little_endian(&(self.plain)(image));
        memory[self.at..][..results.len()].copy_from_slice(&results);
        if self.name == "row-sums" {
            memory[CHUNK..][..4].copy_from_slice(&after[CHUNK..][..4]);
        }
        memory
    }

    /// An error if this is not the memory that the sheet must leave.
    pub fn held(&self, image: &Image, after: &[u8]) -> Result<(), String> {
        let expected = self.expected(image, after);
        match (0..expected.len()).find(|&at| after.get(at) != Some(&expected[at])) {
            None => Ok(()),
            Some(at) => Err(format!("memory, byte {at}: {:#x?}, and {:#x} by the plain loop", after.get(at), expected[at])),
        }
    }
}

#[cfg(test)]
mod tests {
    use super::*;
    use crate::model::run;

    /// The numbers that docs/USING.md and the examples tell.
    #[test]
    fn the_mark() {
        let results = |name: &str| JOBS.iter().find(|job| job.name == name).map(|job| (job.plain)(&mark()));
        assert_eq!(results("row-sums"), Some(vec![0, 0, 0, 720, 720, 1_320, 1_920, 1_920, 1_320, 720, 720]));
        assert_eq!([results("total"), results("sum-x"), results("sum-y")], [9_360, 77_220, 60_840].map(|sum| Some(vec![sum])));
        // The middle is at column 33/4 and row 13/2.
        assert_eq!((77_220 * 4, 60_840 * 2), (9_360 * 33, 9_360 * 13));
    }

    #[test]
    fn every_sheet_at_every_vector_length() {
        for (job, vl) in JOBS.iter().flat_map(|job| VECTOR_LENGTHS.map(|vl| (job, vl))) {
            for image in images() {
                let mut memory = job.memory(&image);
                let answer = run(&job.sheet(), vl, &mut memory);
                assert_eq!((answer.refusal, job.held(&image, &memory)), (None, Ok(())), "{} at vector length {vl}", job.name);
            }
        }
    }

    /// The sum so far is also the lane of register 4.
    #[test]
    fn sums_in_a_register() {
        for (job, vl) in JOBS[2..].iter().flat_map(|job| VECTOR_LENGTHS.map(|vl| (job, vl))) {
            let answer = run(&job.sheet(), vl, &mut job.memory(&mark()));
            let register = &answer.registers[4];
            assert_eq!((register.width, register.valid), (4, 1));
            assert_eq!(register.bytes[..4], little_endian(&(job.plain)(&mark())));
        }
    }

    /// A loop that is wrong is seen: a result, or a byte that no result has.
    #[test]
    fn what_is_wrong_is_seen() {
        for job in &JOBS {
            let mut memory = job.memory(&mark());
            run(&job.sheet(), 8, &mut memory);
            for at in (0..memory.len()).filter(|at| job.name != "row-sums" || !(CHUNK..CHUNK + 4).contains(at)) {
                memory[at] ^= 1;
                assert!(job.held(&mark(), &memory).is_err());
                memory[at] ^= 1;
            }
        }
    }
}
