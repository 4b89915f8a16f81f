//! Sheets at the limits: the largest sizes, strides and displacements, the deepest streams, long runs, long stretches without an element.

use super::draft::Draft;
use super::plan::{modifier, Numbers, Plan, Shape};
use super::{vector_length, Made};
use crate::random::Random;
use crate::stream::{Dimension, Kind, Modifier, Parameter};

const MOST: i64 = 1_048_576;

pub fn sheet(random: &mut Random) -> Made {
    match random.below(200) {
        0..=39 => limits(random),
        40..=59 => cancelling(random),
        60..=119 => shapes(random),
        120..=159 => deep(random),
        160..=179 => crowd(random),
        180..=195 => long_run(random, 4_096),
        196..=198 => empty_stretches(random),
        _ => long_run(random, MOST),
    }
}

/// A drafted sheet with some numbers at the ends of their ranges.
fn limits(random: &mut Random) -> Made {
    let mut draft = Draft::new(random);
    for _ in 0..random.range(1, 3) {
        let at = random.place(draft.plans.len());
        let plan = &mut draft.plans[at];
        let dimension = random.place(plan.dimensions.len());
        let end = random.pick(&[MOST, -MOST, MOST - 1, 1 - MOST]);
        match random.below(6) {
            0 => plan.base = end.abs(),
            1 => plan.dimensions[dimension].offset = end,
            2 => plan.dimensions[dimension].stride = end,
            3 => plan.dimensions[dimension].size = random.pick(&[4_096, 4_095, 1]),
            _ => {
                if plan.dimensions.len() >= 2 && plan.modifiers.len() < 8 {
                    let parameter = random.pick(&[Parameter::Size, Parameter::Offset, Parameter::Stride, Parameter::Stride]);
                    let mut new = modifier(random, plan.dimensions.len(), parameter);
                    new.displacement = end.abs();
                    plan.modifiers.push(new);
                    plan.modifiers.sort_by_key(|modifier| modifier.owner);
                }
            }
        }
    }
    if random.one_in(2) {
        draft.put_in_memory(random);
    }
    (draft.operations(random), draft.vl, draft.memory.clamp(0, 65_536) as usize)
}

/// Elements that lie inside memory though their summands are as large as can be: the outer stride goes one way, and modifiers of the
/// inner offset as far the other way.
fn cancelling(random: &mut Random) -> Made {
    let code = random.below(4);
    let width = 1 << code;
    let (inner, outer) = (random.range(1, 12), random.range(1, 256));
    let adds = random.one_in(2);
    let mut operations = Vec::new();
    for (register, kind) in [(1, Kind::Load), (2, Kind::Store)] {
        let mut plan = bare(register, kind, code, random.below(3), &Shape { sizes: vec![inner, outer], modifiers: vec![] });
        plan.dimensions[0].stride = random.pick(&[1, 1, 2, 0]);
        plan.dimensions[1].stride = if adds { -MOST } else { MOST };
        let turn = Modifier { owner: 2, target: 1, parameter: Parameter::Offset, adds, displacement: MOST };
        plan.modifiers = vec![turn; width];
        // A few bytes left over at each step.
        plan.modifiers[0].displacement -= random.range(0, 9);
        plan.put_at(random.range(0, 20));
        operations.extend(plan.operations());
    }
    operations.push(vec![5, 1, 1, 0, 2, 1, 1]);
    (operations, vector_length(random), random.pick(&[0, 64, 400, 3_000]))
}

fn grows(owner: usize, target: usize, displacement: i64) -> Modifier {
    Modifier { owner, target, parameter: Parameter::Size, adds: true, displacement }
}

fn shrinks(owner: usize, target: usize, displacement: i64) -> Modifier {
    Modifier { adds: false, ..grows(owner, target, displacement) }
}

/// Shapes on both sides of the rules 8 and 9.
fn edge_shape(random: &mut Random) -> Shape {
    let one = random.range(-1, 1);
    let (sizes, modifiers) = match random.below(20) {
        0 => (vec![1_024, 1_024 + one], vec![]),
        1 => (vec![4_096, 256 + one], vec![]),
        2 => (vec![4_096], vec![]),
        3 => (vec![16, 16, 16, 16, 16 + one], vec![]),
        4 => (vec![1, 4_096, 1, 256 + one, 1, 1, 1], vec![]),
        5 => (vec![1 + one, 1_024], vec![grows(2, 1, 1)]),
        6 => (vec![1_023 + one, 1_024], vec![shrinks(2, 1, 1)]),
        7 => (vec![4_096, 1], vec![grows(2, 1, MOST), shrinks(2, 1, MOST)]),
        8 => (vec![4_095 + one, 2], vec![grows(2, 1, 1)]),
        9 => (vec![4_096, 2], vec![shrinks(2, 1, 4_096 + one)]),
        10 => (vec![1, 2, 2], vec![grows(3, 2, 62), grows(2, 1, 64 + one)]),
        11 => (vec![0, 0, 4_096], vec![grows(3, 2, 1), grows(2, 1, 1)]),
        12 => {
            (vec![2, 2, 2, 2, 2, 2, 2], vec![grows(7, 6, MOST), grows(6, 5, MOST), grows(5, 4, MOST), grows(4, 3, MOST), grows(3, 2, MOST)])
        }
        13 => (vec![0, 4_096, 256 + one], vec![]),
        // An owner of size 0 or 1 reaches nowhere, and the rules hold though there is no element.
        14 => (vec![1_024, 1_024 + one, 0], vec![grows(3, 2, 1)]),
        15 => (vec![1_024 + one, 1_024, random.range(0, 1)], vec![grows(3, 1, 1), shrinks(3, 2, 1_024)]),
        16 => (vec![random.range(0, 2), 0], vec![shrinks(2, 1, 2)]),
        17 => (vec![4_096, random.range(0, 2)], vec![grows(2, 1, 1)]),
        18 => (vec![4_095, 2, 0], vec![grows(2, 1, 1 + one), grows(3, 2, 1)]),
        _ => (vec![2, 4_097 - random.range(1, 4), 1], vec![grows(3, 2, 3), shrinks(2, 1, 0)]),
    };
    Shape { sizes, modifiers }
}

/// One or two streams of such shapes, and a run that ends soon because memory does, unless all its chunks are empty.
fn shapes(random: &mut Random) -> Made {
    let shape = edge_shape(random);
    let depth = shape.sizes.len() as u64;
    let coupled = if random.one_in(2) { 0 } else { random.range(1, depth as i64) as u64 };
    let code = random.below(4);
    let mut operations = Vec::new();
    for (register, kind) in [(1, Kind::Load), (2, Kind::Store)] {
        let mut plan = bare(register, kind, code, coupled, &shape);
        for dimension in &mut plan.dimensions {
            dimension.stride = random.pick(&[1, 1, 8, -1, 512]);
        }
        plan.base = random.pick(&[0, 0, 100, 1_000]);
        operations.extend(plan.operations());
        if random.one_in(2) {
            break;
        }
    }
    operations.push(vec![5, 1, 1, 0, random.pick(&[2, 3]), 1, 1]);
    (operations, vector_length(random), random.pick(&[0, 64, 500, 1_100]))
}

fn bare(register: u64, kind: Kind, code: u64, coupled: u64, shape: &Shape) -> Plan {
    let dimensions = shape.bare().dimensions;
    Plan { register, kind, code, coupled, base: 0, free: 0, dimensions, modifiers: shape.modifiers.clone() }
}

/// Seven dimensions and eight modifiers, on streams that step together; now and then one too many.
fn deep(random: &mut Random) -> Made {
    let depth = if random.one_in(12) { 8 } else { 7 };
    let mut plan = bare(1, Kind::Load, random.below(4), random.below(8), &Shape { sizes: vec![], modifiers: vec![] });
    for _ in 0..depth {
        let size = random.pick(&[1, 1, 2, 2, 3]);
        plan.dimensions.push(Dimension { offset: random.range(-4, 4), size, stride: random.range(-6, 12) });
    }
    let count = if random.one_in(12) { 9 } else { random.pick(&[0, 3, 8, 8]) };
    for _ in 0..count {
        let parameter = random.pick(&[Parameter::Size, Parameter::Offset, Parameter::Stride]);
        let mut new = modifier(random, depth, parameter);
        new.adds |= parameter == Parameter::Size && !random.one_in(6);
        plan.modifiers.push(new);
    }
    plan.modifiers.sort_by_key(|modifier| modifier.owner);
    let mut other = plan.clone();
    other.register = 2;
    other.kind = Kind::Store;
    plan.put_at(0);
    other.put_at(random.range(0, 300));
    let behind = [&plan, &other].iter().filter_map(|plan| plan.span()).map(|(_, behind)| behind).max().unwrap_or(0);
    let mut operations = [plan.operations(), other.operations()].concat();
    operations.push(vec![5, 1, 1, 0, 2, 1, 1]);
    (operations, vector_length(random), behind.clamp(0, 65_536) as usize)
}

/// A stream on every register.
fn crowd(random: &mut Random) -> Made {
    let mut operations = Vec::new();
    let code = random.below(4);
    for register in 0..32 {
        let kind = if register % 2 == 0 { Kind::Load } else { Kind::Store };
        let shape = Shape { sizes: vec![random.pick(&[20, 20, 20, 19, 0])], modifiers: vec![] };
        let mut plan = bare(register, kind, code, random.below(2), &shape);
        plan.dimensions[0].stride = 1;
        plan.base = 3 * register as i64;
        operations.extend(plan.operations());
    }
    let count = random.range(1, 16) as u64;
    let mut run = vec![5, 0, count];
    for line in 0..count {
        let first = 2 * ((line * 3) % 16);
        run.extend([random.pick(&[0, 0, 8, 9, 10, 11]), (first + 1) % 32, first, first]);
    }
    operations.push(run);
    (operations, vector_length(random), random.pick(&[260, 253, 200]))
}

/// A run of many passes: strides of 0, or of 1 through the whole memory.
fn long_run(random: &mut Random, most: i64) -> Made {
    let (inner, outer) = if most == MOST { (4_096, random.pick(&[256, 255, 200])) } else { (random.range(500, 4_096), random.range(1, 4)) };
    let code = if most == MOST { 0 } else { random.below(4) };
    let coupled = random.pick(&[0, 0, 1, 2]);
    let mut operations: Vec<Numbers> = Vec::new();
    let stride = if (inner * outer) << code <= 65_536 { random.pick(&[0, 1, 1]) } else { 0 };
    for (register, kind) in [(1, Kind::Load), (2, Kind::Load), (3, Kind::Store)] {
        let mut plan = bare(register, kind, code, coupled, &Shape { sizes: vec![inner, outer], modifiers: vec![] });
        plan.dimensions[0].stride = stride;
        plan.dimensions[1].stride = stride * inner;
        operations.extend(plan.operations());
    }
    operations.push(match random.below(4) {
        0 => vec![5, 1, 2, 1, 4, 1, 2, 0, 3, 4, 4],
        1 => vec![5, 1, 2, 1, 4, 1, 2, random.range(8, 11) as u64, 3, 4, 4],
        _ => vec![5, 1, 1, random.range(1, 7) as u64, 3, 1, 2],
    });
    let need = if stride == 0 { 8 } else { (inner * outer) << code };
    let vl = if most == MOST { random.pick(&[32, 64]) } else { vector_length(random) };
    (operations, vl, need as usize)
}

/// Rows that are empty for long, and single elements between them.
fn empty_stretches(random: &mut Random) -> Made {
    let rows = random.range(60, 200);
    let (sizes, modifiers) = match random.below(4) {
        // The inner size is 1 only while dimension 2 stands at its last index.
        0 => (vec![rows - 1, rows, 20], vec![shrinks(2, 1, 1)]),
        1 => (vec![0, 0, rows], vec![grows(3, 2, 1), grows(2, 1, 1)]),
        2 => (vec![0, 4_096, 256], vec![]),
        _ => (vec![1, 0, rows * 10], vec![Modifier { displacement: 1, ..grows(3, 2, 0) }]),
    };
    let shape = Shape { sizes, modifiers };
    let coupled = random.below(4);
    let mut operations = bare(1, Kind::Load, 0, coupled, &shape).operations();
    let flat = Shape::flat(random.range(1, 60) as usize);
    let mut single = bare(2, Kind::Load, 0, 1, &Shape { sizes: vec![1, flat.sizes[0]], modifiers: vec![] });
    single.dimensions[1].stride = 1;
    operations.extend(single.operations());
    operations.extend(bare(3, Kind::Store, 0, coupled, &shape).operations());
    // Single lanes go to a store stream of that shape, or the stream itself is read.
    operations.push(if random.one_in(2) { vec![5, 2, 1, 0, 3, 2, 2] } else { vec![5, 1, 1, 0, 3, 1, 1] });
    (operations, vector_length(random), 64)
}
