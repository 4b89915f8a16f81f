//! The jobs: each a sheet of some size, and the same work as a plain loop.

use std::hint::black_box;

pub struct Job {
    pub name: &'static str,
    pub vl: u64,
    /// The job is done at two sizes, the second of twice the elements, or nearly.
    pub sizes: [usize; 2],
    pub sheet: fn(usize) -> Vec<u8>,
    /// Does the work on the memory.
    pub plain: fn(usize, &mut [u8]),
    /// Elements of the longest stream, or iterations begun where there are none.
    pub elements: fn(usize) -> usize,
}

const LOAD: u64 = 4;
const STORE: u64 = 0;

/// A sheet under way.
struct Sheet(Vec<u8>);

impl Sheet {
    fn new() -> Sheet {
        Sheet(Vec::new())
    }

    fn put(mut self, numbers: &[u64]) -> Sheet {
        for &number in numbers {
            let mut rest = number;
            while rest >= 128 {
                self.0.push((rest % 128) as u8 + 128);
                rest /= 128;
            }
            self.0.push(rest as u8);
        }
        self
    }

    /// `coupled` is 0 for none.
    fn open(self, register: u64, kind: u64, code: u64, coupled: u64, base: u64) -> Sheet {
        let coupling = if coupled == 0 { 0 } else { 8 + coupled - 1 };
        self.put(&[1, 0x0b + (register << 7) + ((kind + code) << 12) + (coupling << 27), base])
    }

    fn dimension(self, register: u64, size: usize, stride: u64) -> Sheet {
        self.put(&[2, register, 0, size as u64, 2 * stride])
    }

    /// The size of `target` (from 1) grows, or shrinks if `shrinks` is 1.
    fn resized(self, register: u64, target: u64, shrinks: u64, displacement: u64) -> Sheet {
        self.put(&[3, register, target - 1, 0, shrinks, displacement])
    }

    fn end(self, register: u64) -> Sheet {
        self.put(&[4, register])
    }

    /// One calculation, loop register 1.
    fn run(self, operation: u64, destination: u64, first: u64, second: u64) -> Vec<u8> {
        self.body(&[[operation, destination, first, second]])
    }

    /// These calculations, loop register 1.
    fn body(self, calculations: &[[u64; 4]]) -> Vec<u8> {
        self.put(&[5, 1, calculations.len() as u64]).put(&calculations.concat()).0
    }
}

/// So many rows of 1,024 elements, one after another.
fn rows(sheet: Sheet, register: u64, kind: u64, code: u64, base: u64, rows: usize) -> Sheet {
    sheet.open(register, kind, code, 0, base).dimension(register, 1_024, 1).dimension(register, rows, 1_024).end(register)
}

fn copy(size: usize) -> Vec<u8> {
    let sheet = rows(Sheet::new(), 1, LOAD, 0, 0, size);
    rows(sheet, 2, STORE, 0, 32_768, size).run(0, 2, 1, 1)
}

fn copy_plain(size: usize, memory: &mut [u8]) {
    let (from, to) = memory.split_at_mut(32_768);
    for i in 0..1_024 * size {
        to[i] = from[i];
    }
}

fn add(size: usize) -> Vec<u8> {
    let sheet = rows(Sheet::new(), 1, LOAD, 2, 0, size);
    let sheet = rows(sheet, 2, LOAD, 2, 16_384, size);
    rows(sheet, 3, STORE, 2, 32_768, size).run(1, 3, 1, 2)
}

fn add_plain(size: usize, memory: &mut [u8]) {
    let word = |memory: &[u8], at: usize| u32::from_le_bytes(memory[at..at + 4].try_into().unwrap());
    for i in 0..1_024 * size {
        let sum = word(memory, 4 * i).wrapping_add(word(memory, 16_384 + 4 * i));
        memory[32_768 + 4 * i..][..4].copy_from_slice(&sum.to_le_bytes());
    }
}

/// Rows of 1,000 words, each cut into chunks, the last of them ragged: each chunk's sum is added to the sum of all, which memory holds.
fn sums(size: usize) -> Vec<u8> {
    let sheet = Sheet::new().open(1, LOAD, 2, 1, 0).dimension(1, 1_000, 1).dimension(1, size, 1_000).end(1);
    // The sum so far, one lane at a time, read and written once for each chunk.
    let sheet = sheet.open(2, LOAD, 2, 1, 49_152).dimension(2, 1, 0).dimension(2, 4_096, 0).end(2);
    sheet.open(3, STORE, 2, 0, 49_152).dimension(3, 4_096, 0).end(3).body(&[[8, 4, 1, 1], [1, 3, 4, 2]])
}

fn sums_plain(size: usize, memory: &mut [u8]) {
    let word = |at: usize| u32::from_le_bytes(memory[at..at + 4].try_into().unwrap());
    let sum = (0..1_000 * size).fold(word(49_152), |sum, i| sum.wrapping_add(word(4 * i)));
    memory[49_152..49_156].copy_from_slice(&sum.to_le_bytes());
}

/// Every second pixel of rows of 256, packed.
fn strided(size: usize) -> Vec<u8> {
    let sheet = Sheet::new().open(1, LOAD, 0, 0, 0).dimension(1, 128, 2).dimension(1, size, 256).end(1);
    sheet.open(2, STORE, 0, 0, 32_768).dimension(2, 128, 1).dimension(2, size, 128).end(2).run(0, 2, 1, 1)
}

fn strided_plain(size: usize, memory: &mut [u8]) {
    let (from, to) = memory.split_at_mut(32_768);
    for y in 0..size {
        for x in 0..128 {
            to[128 * y + x] = from[256 * y + 2 * x];
        }
    }
}

fn triangle(size: usize) -> Vec<u8> {
    let of = |sheet: Sheet, register, kind, base| {
        let sheet = sheet.open(register, kind, 0, 0, base).dimension(register, 1, 1).dimension(register, size, 180);
        sheet.resized(register, 1, 0, 1).end(register)
    };
    let sheet = of(Sheet::new(), 1, LOAD, 0);
    of(sheet, 2, STORE, 32_768).run(0, 2, 1, 1)
}

fn triangle_plain(size: usize, memory: &mut [u8]) {
    let (from, to) = memory.split_at_mut(32_768);
    for y in 0..size {
        for x in 0..=y {
            to[180 * y + x] = from[180 * y + x];
        }
    }
}

/// Rows of five pixels, eight apart, each a chunk of its own.
fn short_rows(size: usize) -> Vec<u8> {
    let of = |sheet: Sheet, register, kind, base| {
        sheet.open(register, kind, 0, 1, base).dimension(register, 5, 1).dimension(register, size, 8).end(register)
    };
    let sheet = of(Sheet::new(), 1, LOAD, 0);
    of(sheet, 2, STORE, 32_768).run(0, 2, 1, 1)
}

fn short_rows_plain(size: usize, memory: &mut [u8]) {
    let (from, to) = memory.split_at_mut(32_768);
    for y in 0..size {
        for x in 0..5 {
            to[8 * y + x] = from[8 * y + x];
        }
    }
}

/// Seven dimensions of four, the outermost up to eight.
fn seven(size: usize) -> Vec<u8> {
    let of = |sheet: Sheet, register, kind, base| {
        let mut sheet = sheet.open(register, kind, 0, 0, base);
        for dimension in 0..6 {
            sheet = sheet.dimension(register, 4, 1 << (2 * dimension));
        }
        sheet.dimension(register, size, 1 << 12).end(register)
    };
    let sheet = of(Sheet::new(), 1, LOAD, 0);
    of(sheet, 2, STORE, 32_768).run(0, 2, 1, 1)
}

fn seven_plain(size: usize, memory: &mut [u8]) {
    let (from, to) = memory.split_at_mut(32_768);
    for g in 0..size {
        for f in 0..4 {
            for e in 0..4 {
                for d in 0..4 {
                    for c in 0..4 {
                        for b in 0..4 {
                            for a in 0..4 {
                                let at = a + 4 * (b + 4 * (c + 4 * (d + 4 * (e + 4 * (f + 4 * g)))));
                                to[at] = from[at];
                            }
                        }
                    }
                }
            }
        }
    }
}

/// Rows of a triangle in which every pass of dimension 1 is empty: all of the walk falls to end. Twice the size is twice the triangles.
fn empty_triangle(size: usize) -> Vec<u8> {
    let sheet = Sheet::new().open(1, LOAD, 0, 0, 0).dimension(1, 0, 1).dimension(1, 0, 0);
    let sheet = sheet.dimension(1, 512, 0).resized(1, 2, 0, 1).dimension(1, size, 0).end(1);
    sheet.run(0, 2, 1, 1)
}

fn empty_triangle_plain(size: usize, _memory: &mut [u8]) {
    for _ in 0..size {
        for y in 0..512 {
            for _ in 0..black_box(y) {
                for _ in 0..black_box(0) {
                    black_box(0);
                }
            }
        }
    }
}

/// One element, then 1,024 empty passes, and so on; one lane is stored at a time.
fn lonely_stores(size: usize) -> Vec<u8> {
    let sheet = Sheet::new().open(1, LOAD, 0, 1, 0).dimension(1, 1, 1).dimension(1, size, 1).end(1);
    let sheet = sheet.open(2, STORE, 0, 0, 32_768).dimension(2, 1, 1).dimension(2, 0, 0).dimension(2, 1_024, 0).dimension(2, 2, 0);
    // While dimension 4 stands at 0, dimension 2 has no pass and dimension 3 has 1,024; at 1, both have one.
    sheet.resized(2, 2, 0, 1).resized(2, 3, 1, 1_023).dimension(2, size, 1).end(2).run(0, 2, 1, 1)
}

fn lonely_stores_plain(size: usize, memory: &mut [u8]) {
    let (from, to) = memory.split_at_mut(32_768);
    for e in 0..size {
        for d in 0..2 {
            for _ in 0..black_box(1_024 - 1_023 * d) {
                for _ in 0..black_box(d) {
                    to[e] = from[e];
                }
            }
        }
    }
}

pub const JOBS: [Job; 10] = [
    Job { name: "copy of bytes, length 64", vl: 64, sizes: [16, 32], sheet: copy, plain: copy_plain, elements: |size| 1_024 * size },
    Job { name: "copy of bytes, length 8", vl: 8, sizes: [16, 32], sheet: copy, plain: copy_plain, elements: |size| 1_024 * size },
    Job { name: "add of words", vl: 64, sizes: [2, 4], sheet: add, plain: add_plain, elements: |size| 1_024 * size },
    Job { name: "sum of words, ragged rows", vl: 64, sizes: [6, 12], sheet: sums, plain: sums_plain, elements: |size| 1_000 * size },
    Job { name: "2-D with stride", vl: 64, sizes: [64, 128], sheet: strided, plain: strided_plain, elements: |size| 128 * size },
    Job { name: "triangle", vl: 64, sizes: [127, 180], sheet: triangle, plain: triangle_plain, elements: |size| size * (size + 1) / 2 },
    Job {
        name: "coupled rows of 5 pixels",
        vl: 64,
        sizes: [2_048, 4_096],
        sheet: short_rows,
        plain: short_rows_plain,
        elements: |size| 5 * size,
    },
    Job { name: "seven dimensions", vl: 64, sizes: [4, 8], sheet: seven, plain: seven_plain, elements: |size| 4_096 * size },
    Job {
        name: "long empty triangle (iterations)",
        vl: 64,
        sizes: [2, 4],
        sheet: empty_triangle,
        plain: empty_triangle_plain,
        elements: |size| size * (1 + 512 + 512 * 511 / 2),
    },
    Job {
        name: "one-lane stores, empty stretches (iterations)",
        vl: 64,
        sizes: [256, 512],
        sheet: lonely_stores,
        plain: lonely_stores_plain,
        elements: |size| size * (1 + 2 + 1_024 + 1 + 1 + 1),
    },
];
