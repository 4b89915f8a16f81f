//! Coupled streams of which some passes have no element: triangles that shrink to nothing or grow from it, and drafts that read and write
//! them: chunk by chunk together, a sum for each row, or step by step with single lanes and with none.

use super::body::{flowing, Cast, Line};
use super::draft::Draft;
use super::plan::{Plan, Shape};
use super::vector_length;
use crate::random::Random;
use crate::stream::{Dimension, Kind, Modifier, Parameter};

fn on_size(owner: usize, target: usize, adds: bool, displacement: i64) -> Modifier {
    Modifier { owner, target, parameter: Parameter::Size, adds, displacement }
}

/// A shape and its coupled dimension.
pub fn shape(random: &mut Random) -> (Shape, u64) {
    let rows = random.range(2, 5);
    let step = random.pick(&[1, 1, 1, 2, 3, 9]);
    let (sizes, modifiers, coupled) = match random.below(9) {
        // Rows that shrink to nothing, and rows that grow from it.
        0 => (vec![step * (rows - 1), rows], vec![on_size(2, 1, false, step)], 1),
        1 => (vec![0, rows], vec![on_size(2, 1, true, step)], 1),
        // The same over and over, and each row more than once.
        2 => (vec![step * (rows - 1), rows, random.range(1, 3)], vec![on_size(2, 1, false, step)], 1),
        3 => (vec![0, random.range(1, 3), rows], vec![on_size(3, 1, true, step)], random.pick(&[1, 2])),
        4 => (vec![step * (rows - 1), random.range(1, 3), rows], vec![on_size(3, 1, false, step)], random.pick(&[1, 2])),
        // Passes of fewer and fewer rows, and of rows that are empty in part.
        5 => (vec![random.range(0, 4), rows - 1, rows], vec![on_size(3, 2, false, 1)], random.pick(&[1, 2, 2])),
        6 => (vec![0, random.range(0, 2), rows], vec![on_size(2, 1, true, 1), on_size(3, 2, true, 1)], random.pick(&[1, 2])),
        // No element anywhere.
        7 => {
            let depth = random.range(1, 4) as usize;
            let mut sizes: Vec<i64> = (0..depth).map(|_| random.range(1, 3)).collect();
            sizes[random.place(depth)] = 0;
            (sizes, Vec::new(), random.range(1, depth as i64) as u64)
        }
        _ => {
            let Shape { mut sizes, modifiers } = Shape::small(random);
            let depth = sizes.len();
            if !modifiers.iter().any(|modifier| modifier.parameter == Parameter::Size && !modifier.adds) {
                sizes[random.place(depth)] = 0;
            }
            (sizes, modifiers, random.range(1, depth as i64) as u64)
        }
    };
    (Shape { sizes, modifiers }, coupled)
}

/// Two load streams and two store streams of one shape.
pub fn draft(random: &mut Random) -> Draft {
    let (shape, coupled) = shape(random);
    let mut registers: Vec<u64> = (0..32).collect();
    random.shuffle(&mut registers);
    let code = random.pick(&[0, 0, 1, 2, 3]);
    let mut plans = Vec::new();
    for (at, &register) in registers[..4].iter().enumerate() {
        let kind = if at < 2 { Kind::Load } else { Kind::Store };
        plans.push(shape.plan(random, register, kind, code, coupled));
    }
    let mut draft = Draft {
        plans,
        cast: Cast { loads: registers[..2].to_vec(), stores: registers[2..4].to_vec(), plains: registers[4..7].to_vec() },
        loop_register: registers[0],
        body: Vec::new(),
        vl: vector_length(random),
        memory: 0,
        scuffs: Vec::new(),
    };
    let chunks = shape.chunks(coupled) as i64;
    match random.below(4) {
        0 => together(random, &mut draft),
        1 => row_sums(random, &mut draft, chunks),
        _ => step_by_step(random, &mut draft, &registers[7..9], chunks),
    }
    draft.put_in_memory(random);
    draft
}

/// All streams step together.
fn together(random: &mut Random, draft: &mut Draft) {
    let looped = draft.loop_register;
    let most = random.range(1, 5) as usize;
    draft.body = flowing(random, &draft.cast, most);
    if !draft.body.iter().any(|line| line[2] == looped || line[3] == looped) {
        draft.body = vec![[random.range(1, 7) as u64, draft.cast.stores[0], looped, draft.cast.loads[1]]];
    }
}

/// A sum for each chunk, or now and then a smallest or a largest, goes to a store stream of single elements.
fn row_sums(random: &mut Random, draft: &mut Draft, chunks: i64) {
    let [looped, store, plain] = [draft.loop_register, draft.cast.stores[0], draft.cast.plains[0]];
    let flat = Shape::flat((chunks + random.pick(&[0, 0, 0, 1, -1])).clamp(0, 4_096) as usize);
    let coupled = random.below(2);
    draft.plans[2] = flat.plan(random, store, Kind::Store, draft.plans[0].code, coupled);
    let fold = random.pick(&[8, 8, 8, 8, 9, 10, 11]);
    draft.body =
        if random.one_in(2) { vec![[fold, store, looped, looped]] } else { vec![[0, plain, looped, looped], [fold, store, plain, plain]] };
}

/// A stream of rows of 0 or 1 elements, all at one place.
fn rows(like: &Plan, register: u64, size: i64, count: i64) -> Plan {
    let dimensions = [size, count].map(|size| Dimension { offset: 0, size, stride: 0 }).to_vec();
    Plan { register, kind: Kind::Load, coupled: 1, dimensions, modifiers: Vec::new(), ..like.clone() }
}

/// A stream of single lanes runs the loop, and another gives no lanes. The others are read, and written with single lanes, with none,
/// with chunks.
fn step_by_step(random: &mut Random, draft: &mut Draft, registers: &[u64], chunks: i64) {
    let &[counted, nothing] = registers else {
        unreachable!("there are two registers for them");
    };
    let &[single, none, plain] = draft.cast.plains.as_slice() else {
        unreachable!("there are three plain registers");
    };
    let passes = (chunks + random.range(-2, 1)).clamp(1, 40);
    draft.plans.extend([rows(&draft.plans[0], counted, 1, passes), rows(&draft.plans[0], nothing, 0, passes)]);
    draft.loop_register = counted;
    draft.body = vec![[0, single, counted, counted], [0, none, nothing, nothing]];
    for _ in 0..random.range(1, 4) {
        let load = random.pick(&draft.cast.loads);
        let store = random.pick(&draft.cast.stores);
        let either = random.pick(&[plain, store]);
        let line: Line = match random.below(12) {
            0 | 1 => [0, store, none, none],
            2 | 3 => [0, store, single, single],
            4 => [0, either, load, load],
            5 => [8, either, load, load],
            6 => [random.range(9, 11) as u64, either, load, load],
            7 => [random.range(1, 7) as u64, store, draft.cast.loads[0], draft.cast.loads[1]],
            8 => [random.range(1, 7) as u64, either, load, none],
            9 => [random.range(1, 7) as u64, either, random.pick(&[single, none]), load],
            10 => [random.range(8, 11) as u64, store, none, none],
            _ => [random.range(8, 11) as u64, store, single, single],
        };
        draft.body.push(line);
    }
}
