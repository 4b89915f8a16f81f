//! Drafts in which each chunk of a stream is folded, and the single lanes are joined in memory: to one answer for the whole stream, or to
//! one for each pass of the coupled dimension.

use super::body::{Cast, Line};
use super::draft::Draft;
use super::plan::{Plan, Shape};
use super::{ragged, vector_length};
use crate::random::Random;
use crate::stream::{Dimension, Kind};

/// Streams and a body, and the pairs of streams that have one place in memory. The first stream is the one that is folded.
struct Parts {
    plans: Vec<Plan>,
    body: Vec<Line>,
    pairs: Vec<(usize, usize)>,
}

pub fn draft(random: &mut Random) -> Draft {
    let ragged = random.one_in(4);
    let (shape, coupled) = if ragged { ragged::shape(random) } else { (Shape::small(random), 0) };
    let depth = shape.sizes.len() as u64;
    let coupled = if ragged { coupled } else { random.below(depth + 1) };
    let mut registers: Vec<u64> = (0..32).collect();
    random.shuffle(&mut registers);
    let code = random.below(4);
    let image = shape.plan(random, registers[0], Kind::Load, code, coupled);
    let fold = random.range(8, 11) as u64;
    let join = match fold {
        8 => 1,
        9 => 6,
        10 => 7,
        _ => random.range(1, 7) as u64,
    };
    let chunks = shape.chunks(coupled).clamp(1, 4_096) as i64;
    let parts = if coupled > 0 && coupled < depth && !random.one_in(3) {
        of_rows(image, &shape, &registers, [fold, join], chunks)
    } else {
        of_all(image, &registers, [fold, join], chunks)
    };
    let of_kind = |kind: Kind| parts.plans.iter().filter(|plan| plan.kind == kind).map(|plan| plan.register).collect();
    let mut draft = Draft {
        cast: Cast { loads: of_kind(Kind::Load), stores: of_kind(Kind::Store), plains: registers[8..11].to_vec() },
        plans: parts.plans,
        loop_register: registers[0],
        body: parts.body,
        vl: vector_length(random),
        memory: 0,
        scuffs: Vec::new(),
    };
    draft.put_in_memory(random);
    for (one, other) in parts.pairs {
        draft.plans[one].base = draft.plans[other].base;
    }
    draft
}

/// A stream of the image's width with all strides 0.
fn still(image: &Plan, register: u64, kind: Kind, coupled: u64, sizes: &[i64]) -> Plan {
    let dimensions = sizes.iter().map(|&size| Dimension { offset: 0, size, stride: 0 }).collect();
    Plan { register, kind, code: image.code, coupled, base: 0, free: 0, dimensions, modifiers: Vec::new() }
}

/// The answer so far is a single element, read and written once for each chunk.
fn of_all(image: Plan, registers: &[u64], [fold, join]: [u64; 2], chunks: i64) -> Parts {
    let &[folded, so_far, answer, plain, ..] = registers else {
        unreachable!("there are 32 registers");
    };
    let read = still(&image, so_far, Kind::Load, 1, &[1, chunks]);
    let write = still(&image, answer, Kind::Store, 0, &[chunks]);
    let body = vec![[fold, plain, folded, folded], [join, answer, plain, so_far]];
    Parts { plans: vec![image, read, write], body, pairs: vec![(1, 2)] }
}

/// The answers so far stand side by side. A chunk's single lane goes through memory to as many lanes as the chunk has, and these are
/// joined with as many copies of the row's answer.
fn of_rows(image: Plan, shape: &Shape, registers: &[u64], [fold, join]: [u64; 2], chunks: i64) -> Parts {
    let &[folded, cell, cells, so_far, answer, ..] = registers else {
        unreachable!("there are 32 registers");
    };
    let (coupled, sizes) = (image.coupled, &shape.sizes);
    let write = still(&image, cell, Kind::Store, 0, &[chunks]);
    let alike = |register: u64, kind: Kind| Plan { modifiers: shape.modifiers.clone(), ..still(&image, register, kind, coupled, sizes) };
    let read = alike(cells, Kind::Load);
    let mut row = alike(so_far, Kind::Load);
    let mut rows = 1;
    for dimension in &mut row.dimensions[coupled as usize..] {
        dimension.stride = rows;
        rows = (rows * dimension.size.max(1)).min(400);
    }
    let result = Plan { register: answer, kind: Kind::Store, ..row.clone() };
    let body = vec![[fold, cell, folded, folded], [join, answer, so_far, cells]];
    Parts { plans: vec![image, write, read, row, result], body, pairs: vec![(2, 1), (3, 4)] }
}
