//! Bodies of runs.

use crate::calculation::folds;
use crate::random::Random;

/// Operation, destination, first source, second source.
pub type Line = [u64; 4];

/// The registers that a body can name.
#[derive(Clone, Default)]
pub struct Cast {
    /// The first is the loop register.
    pub loads: Vec<u64>,
    pub stores: Vec<u64>,
    pub plains: Vec<u64>,
}

impl Cast {
    pub fn any(&self, random: &mut Random) -> u64 {
        let all: Vec<u64> = [&self.loads[..], &self.stores, &self.plains].concat();
        if all.is_empty() || random.one_in(20) {
            random.below(32)
        } else {
            random.pick(&all)
        }
    }
}

/// A line that is read without refusal. A source that is named twice is folded in a third of them.
pub fn line(random: &mut Random, destination: u64, first: u64, second: u64) -> Line {
    let operation = match (first == second, random.one_in(3)) {
        (true, true) => random.range(8, 11) as u64,
        (true, false) => random.below(8),
        (false, _) => random.range(1, 7) as u64,
    };
    [operation, destination, first, second]
}

/// A body in which every load stream is read at most once, every store stream written at most once, and a plain register named as a
/// source only after this pass wrote it: streams that step together get through it. Single lanes are joined with single lanes only.
pub fn flowing(random: &mut Random, cast: &Cast, most: usize) -> Vec<Line> {
    let mut unread = cast.loads.clone();
    let mut stores = cast.stores.clone();
    // The plain registers that this pass wrote: with as many lanes as a chunk has, or with a single one.
    let (mut whole, mut single): (Vec<u64>, Vec<u64>) = (Vec::new(), Vec::new());
    let mut body = Vec::new();
    while body.len() < most {
        let sources = [&unread[..], &whole, &single].concat();
        if sources.is_empty() {
            break;
        }
        let first = if unread.is_empty() || random.one_in(4) { random.pick(&sources) } else { random.pick(&unread) };
        let mut alike = if single.contains(&first) { single.clone() } else { [&unread[..], &whole].concat() };
        alike.push(first);
        let second = random.pick(&alike);
        unread.retain(|&register| register != first && register != second);
        let to_store = !stores.is_empty() && (cast.plains.is_empty() || random.one_in(2));
        if !to_store && cast.plains.is_empty() {
            break;
        }
        let at = random.place(if to_store { stores.len() } else { cast.plains.len() });
        let destination = if to_store { stores.swap_remove(at) } else { cast.plains[at] };
        let line = line(random, destination, first, second);
        if !to_store {
            let to_single = folds(line[0]) || single.contains(&first);
            whole.retain(|&register| register != destination);
            single.retain(|&register| register != destination);
            if to_single { &mut single } else { &mut whole }.push(destination);
        }
        body.push(line);
        if unread.is_empty() && random.one_in(3) {
            break;
        }
    }
    body
}

/// Lines put in front that read plain registers before this pass has written them: no lanes at first, those of the pass before later on.
pub fn carried(random: &mut Random, cast: &Cast) -> Vec<Line> {
    if cast.plains.is_empty() {
        return Vec::new();
    }
    let mut lines = Vec::new();
    for _ in 0..random.range(1, 2) {
        let first = random.pick(&cast.plains);
        let second = if random.one_in(3) { random.pick(&cast.plains) } else { first };
        let destination = if cast.stores.is_empty() || random.one_in(3) { random.pick(&cast.plains) } else { random.pick(&cast.stores) };
        lines.push(line(random, destination, first, second));
    }
    lines
}

/// Any registers in any role.
pub fn wild(random: &mut Random, cast: &Cast) -> Vec<Line> {
    let count = random.range(1, 4);
    let mut body = Vec::new();
    for _ in 0..count {
        let first = cast.any(random);
        let second = if random.one_in(2) { first } else { cast.any(random) };
        let destination = cast.any(random);
        body.push(line(random, destination, first, second));
    }
    body
}

/// The loop register's lanes change the width of a plain register that a line before has used: fine in the first pass only.
pub fn shifting(random: &mut Random, cast: &Cast) -> Vec<Line> {
    let (Some(&looped), true) = (cast.loads.first(), cast.plains.len() >= 3) else {
        return wild(random, cast);
    };
    let (p, q, r) = (cast.plains[0], cast.plains[1], cast.plains[2]);
    let used = match random.below(3) {
        0 if !cast.stores.is_empty() => [0, cast.stores[0], p, p],
        1 => [random.range(1, 7) as u64, r, q, p],
        _ => [random.range(1, 7) as u64, r, p, q],
    };
    let copy = [0, p, looped, looped];
    if random.one_in(2) {
        vec![used, copy]
    } else {
        vec![[0, r, q, q], used, copy]
    }
}
