//! Sheets drafted to run through: streams that step together, a body that suits them, a memory in which they lie. And the disturbances
//! that make such a sheet go wrong somewhere, often only after some passes.

use super::body::{carried, flowing, line, shifting, wild, Cast, Line};
use super::plan::{modifier, Numbers, Plan, Shape};
use super::vector_length;
use crate::calculation::has_one_source;
use crate::random::Random;
use crate::stream::{Dimension, Kind, Parameter};

pub struct Draft {
    pub plans: Vec<Plan>,
    pub cast: Cast,
    pub loop_register: u64,
    pub body: Vec<Line>,
    pub vl: u64,
    /// Length of the memory.
    pub memory: i64,
    /// What is done to the operations once they are written down.
    pub scuffs: Vec<Scuff>,
}

/// A change of the written operations.
#[derive(Clone, Copy)]
pub enum Scuff {
    Remove,
    Repeat,
    Swap,
    NoRun,
    NoEnd,
    /// This register is opened, and no more.
    Configuring(u64),
}

impl Draft {
    pub fn new(random: &mut Random) -> Draft {
        let vl = vector_length(random);
        let code = random.pick(&[0, 0, 0, 1, 1, 2, 2, 3]);
        let lanes = vl >> code;
        let shape = Shape::small(random);
        let coupled = if random.one_in(2) { 0 } else { random.range(1, shape.sizes.len() as i64) as u64 };
        let mut registers: Vec<u64> = (0..32).collect();
        random.shuffle(&mut registers);
        let mut draft = Draft {
            plans: Vec::new(),
            cast: Cast::default(),
            loop_register: registers[0],
            body: Vec::new(),
            vl,
            memory: 0,
            scuffs: Vec::new(),
        };
        let loads = random.pick(&[1, 1, 1, 2, 2, 2, 3]);
        let stores = random.pick(&[0, 1, 1, 1, 1, 2, 3]);
        draft.cast.loads = registers[..loads].to_vec();
        draft.cast.stores = registers[loads..loads + stores].to_vec();
        draft.cast.plains = registers[loads + stores..loads + stores + random.below(5) as usize].to_vec();
        let together = !random.one_in(4);
        for (at, &register) in registers[..loads + stores].iter().enumerate() {
            let kind = if at < loads { Kind::Load } else { Kind::Store };
            let apart = at > 0 && (!together || kind == Kind::Store && random.one_in(4));
            let shape = if apart { shape.sibling(random, lanes) } else { shape.clone() };
            let depth = shape.sizes.len() as u64;
            let coupled = if at > 0 && !together && random.one_in(3) { random.below(depth + 1) } else { coupled.min(depth) };
            draft.plans.push(shape.plan(random, register, kind, code, coupled));
        }
        draft.put_in_memory(random);
        draft.choose_body(random);
        draft
    }

    /// Gives each plan a place, and the memory the length that they need.
    pub fn put_in_memory(&mut self, random: &mut Random) {
        self.memory = 0;
        let mut from = random.range(0, 9);
        for plan in &mut self.plans {
            plan.put_at(from);
            let behind = plan.span().map_or(0, |(_, behind)| behind);
            self.memory = self.memory.max(behind);
            from = if random.one_in(2) { behind.clamp(0, 60_000) } else { random.range(0, 30) };
        }
        if random.one_in(3) {
            self.memory += random.range(0, 40);
        }
    }

    fn choose_body(&mut self, random: &mut Random) {
        let most = if random.one_in(40) { 16 } else { random.range(1, 7) as usize };
        self.body = match random.below(20) {
            0 => wild(random, &self.cast),
            1 => {
                for plan in self.plans.iter_mut().filter(|plan| plan.kind == Kind::Store) {
                    plan.code = 0;
                }
                shifting(random, &self.cast)
            }
            2..=4 => [carried(random, &self.cast), flowing(random, &self.cast, most)].concat(),
            _ => flowing(random, &self.cast, most),
        };
        let looped = self.loop_register;
        if self.body.is_empty() || !self.body.iter().any(|line| line[2] == looped || line[3] == looped) {
            let destination = self.cast.plains.first().copied().unwrap_or(31 - looped.min(30));
            self.body.push([0, destination, looped, looped]);
        }
        while most == 16 && self.body.len() < 16 && !self.cast.plains.is_empty() {
            let plain = random.pick(&self.cast.plains);
            self.body.push([random.below(9), random.pick(&self.cast.plains), plain, plain]);
        }
        if random.one_in(12) {
            self.take_nothing(random);
        }
        self.body.truncate(16);
    }

    /// A register that no plan has and no line names.
    fn unnamed(&self) -> Option<u64> {
        (0..32).find(|register| {
            let named = self.body.iter().any(|line| line[1..].contains(register));
            !named && self.plans.iter().all(|plan| plan.register != *register)
        })
    }

    /// A line stores the lanes of a register that has none, or their sum, or sums them where they are.
    fn take_nothing(&mut self, random: &mut Random) {
        let Some(fresh) = self.unnamed() else {
            return;
        };
        let (operation, destination) = match self.cast.stores.first() {
            Some(&store) if !random.one_in(3) => (random.pick(&[0, 8]), store),
            _ => (8, fresh),
        };
        let place = random.place(self.body.len() + 1);
        self.body.insert(place, [operation, destination, fresh, fresh]);
    }

    /// All operations and the run.
    pub fn operations(&self, random: &mut Random) -> Vec<Numbers> {
        let mut lists: Vec<Vec<Numbers>> = self.plans.iter().map(Plan::operations).collect();
        let mut operations = Vec::new();
        if random.one_in(5) {
            while let Some(at) = (!lists.is_empty()).then(|| random.place(lists.len())) {
                operations.push(lists[at].remove(0));
                lists.retain(|list| !list.is_empty());
            }
        } else {
            operations = lists.concat();
        }
        let mut run = vec![5, self.loop_register, self.body.len() as u64];
        run.extend(self.body.iter().flatten());
        operations.push(run);
        for &scuff in &self.scuffs {
            scuffed(random, &mut operations, scuff);
        }
        operations
    }

    /// One or two disturbances.
    pub fn disturb(&mut self, random: &mut Random) {
        self.disturb_once(random);
        if random.one_in(4) {
            self.disturb_once(random);
        }
    }

    fn disturb_once(&mut self, random: &mut Random) {
        let at = random.place(self.plans.len());
        match random.below(38) {
            0..=3 => self.memory -= random.range(1, self.memory.clamp(1, 24)),
            4 => self.memory = random.range(0, self.memory.max(0)),
            5 => self.plans[at].base = (self.plans[at].base + random.range(-20, 20)).max(0),
            6 => self.plans[at].dimensions[0].offset -= random.range(1, 60),
            7 => self.plans[at].code = random.below(4),
            8 => self.plans[at].coupled = random.below(self.plans[at].dimensions.len() as u64 + 2).min(7),
            9 => self.resize(random, at),
            10 => self.plans[at].kind = if self.plans[at].kind == Kind::Load { Kind::Store } else { Kind::Load },
            11..=13 => self.misname(random),
            14 => self.scuffs.push(Scuff::NoEnd),
            15 => self.empty(at),
            16 => self.scuffs.push(random.pick(&[Scuff::Remove, Scuff::Repeat, Scuff::Swap])),
            17 => {
                self.plans[at].free ^=
                    random.pick(&[1 << 31, 1 << 30, 1 << 29, 1 << 28, 1 << 27, 1 << 26, 1 << 25, 1 << 24, 1 << 21, 1 << 20, 1])
            }
            18 => self.loop_register = self.cast.any(random),
            19 => self.read_again(random),
            20 => self.deepen(random, at),
            21 => self.modify(random, at),
            22 => self.resize_by_modifier(random, at),
            23 => self.scuffs.push(Scuff::NoRun),
            24 => self.write_again(random),
            25 => self.open_anew(random, at),
            26 => self.plans[at].register = random.below(32),
            27 | 28 => self.crooked(random),
            29..=32 => self.slip(random),
            33 | 34 => self.fold_nothing(random),
            35 | 36 => self.misfold(random),
            _ => self.body = wild(random, &self.cast),
        }
    }

    /// An operand of a line slips out of memory; now and then a second one of the same line, of which the one looked at first counts.
    fn slip(&mut self, random: &mut Random) {
        let at = random.place(self.body.len());
        if random.one_in(2) {
            self.part_sources(random, at);
        }
        let memory = self.memory.clamp(0, 65_536);
        for _ in 0..random.pick(&[1, 1, 2]) {
            let register = self.body[at][random.range(1, 3) as usize];
            if let Some(plan) = self.plans.iter_mut().find(|plan| plan.register == register) {
                plan.slip(random, memory);
            }
        }
    }

    /// A line gets a second source that steps together with its first, a load stream.
    fn part_sources(&mut self, random: &mut Random, at: usize) {
        let [_, destination, first, _] = self.body[at];
        let load = self.plans.iter().find(|plan| plan.register == first && plan.kind == Kind::Load);
        if let (Some(plan), Some(second)) = (load, self.unnamed()) {
            self.plans.push(Plan { register: second, ..plan.clone() });
            self.body[at] = [random.range(1, 7) as u64, destination, first, second];
        }
    }

    /// A line wants the smallest or the largest lane of a register that has none. Where a store is to take it, an earlier check may
    /// have it refused, and the store's next element may lie outside.
    fn fold_nothing(&mut self, random: &mut Random) {
        let Some(fresh) = self.unnamed() else {
            return;
        };
        let (operation, place) = (random.range(9, 11) as u64, random.place(self.body.len() + 1));
        let destination = match self.cast.stores.first() {
            Some(&store) if random.one_in(2) => store,
            _ if random.one_in(2) => fresh,
            _ => self.cast.any(random),
        };
        self.body.insert(place, [operation, destination, fresh, fresh]);
        self.body.truncate(16);
        let memory = self.memory.clamp(0, 65_536);
        if let Some(plan) = self.plans.iter_mut().find(|plan| plan.register == destination) {
            if random.one_in(2) {
                plan.put_at(memory + random.range(0, 3));
            }
        }
    }

    /// A line gets one of 8 to 11, or 12, as its operation, and now and then another second source.
    fn misfold(&mut self, random: &mut Random) {
        let at = random.place(self.body.len());
        self.body[at][0] = random.range(8, 12) as u64;
        if random.one_in(2) {
            self.body[at][3] = self.cast.any(random);
        }
    }

    fn resize(&mut self, random: &mut Random, at: usize) {
        let dimensions = &mut self.plans[at].dimensions;
        let dimension = random.place(dimensions.len());
        dimensions[dimension].size = (dimensions[dimension].size + random.range(-4, 9)).max(0);
    }

    /// One register of the body is another.
    fn misname(&mut self, random: &mut Random) {
        let line = random.place(self.body.len());
        let field = random.range(1, 3) as usize;
        let register = self.cast.any(random);
        self.body[line][field] = register;
        if field > 1 && !random.one_in(8) && has_one_source(self.body[line][0]) {
            self.body[line][0] = random.range(1, 7) as u64;
        }
    }

    /// A stream without an element: finished at end or, if coupled, one of empty passes.
    fn empty(&mut self, at: usize) {
        let plan = &mut self.plans[at];
        plan.modifiers.retain(|modifier| modifier.parameter != Parameter::Size);
        plan.dimensions[0].size = 0;
    }

    /// A stream that a line already reads is read once more.
    fn read_again(&mut self, random: &mut Random) {
        let [_, written, read, _] = self.body[random.place(self.body.len())];
        let destination = if random.one_in(2) { self.cast.any(random) } else { written };
        let place = random.place(self.body.len() + 1);
        self.body.insert(place, line(random, destination, read, read));
        self.body.truncate(16);
    }

    /// A line is there twice.
    fn write_again(&mut self, random: &mut Random) {
        let line = self.body[random.place(self.body.len())];
        let place = random.place(self.body.len() + 1);
        self.body.insert(place, line);
        self.body.truncate(16);
    }

    /// More dimensions, up to and over the limit; a coupled dimension above all.
    fn deepen(&mut self, random: &mut Random, at: usize) {
        let plan = &mut self.plans[at];
        let depth = random.range(plan.dimensions.len() as i64, 8) as usize;
        while plan.dimensions.len() < depth {
            let size = random.pick(&[1, 1, 1, 2, 0]);
            plan.dimensions.push(Dimension { offset: 0, size, stride: random.range(-2, 2) });
        }
        if random.one_in(3) {
            plan.coupled = random.range(1, 7) as u64;
        }
    }

    /// More modifiers, up to and over the limit, some of them misplaced.
    fn modify(&mut self, random: &mut Random, at: usize) {
        let plan = &mut self.plans[at];
        let depth = plan.dimensions.len();
        let count = random.range(1, 9 - (plan.modifiers.len() as i64).min(8));
        for _ in 0..count {
            let parameter = random.pick(&[Parameter::Offset, Parameter::Stride, Parameter::Size]);
            let mut new = modifier(random, depth.max(2), parameter);
            if depth == 1 || random.one_in(12) {
                new.owner = random.range(1, depth as i64) as usize;
                new.target = random.range(new.owner as i64, 7) as usize;
            }
            plan.modifiers.push(new);
        }
        plan.modifiers.sort_by_key(|modifier| modifier.owner);
    }

    /// A modifier of a size that reaches too far, or nearly so.
    fn resize_by_modifier(&mut self, random: &mut Random, at: usize) {
        let plan = &mut self.plans[at];
        if plan.dimensions.len() < 2 || plan.modifiers.len() == 8 {
            return;
        }
        let mut new = modifier(random, plan.dimensions.len(), Parameter::Size);
        let steps = (plan.dimensions[new.owner - 1].size - 1).max(1);
        let size = plan.dimensions[new.target - 1].size;
        let reach = if new.adds { 4_096 - size } else { size };
        new.displacement = (reach / steps + random.range(-1, 1)).max(0);
        plan.modifiers.push(new);
        plan.modifiers.sort_by_key(|modifier| modifier.owner);
    }

    /// One more stream is left being configured and one is finished, and one line may name any register in any role: faults that come
    /// together, of which the first counts.
    fn crooked(&mut self, random: &mut Random) {
        let free: Vec<u64> = (0..32).filter(|register| self.plans.iter().all(|plan| plan.register != *register)).collect();
        let mut finished = self.plans[random.place(self.plans.len())].clone();
        finished.register = free[0];
        finished.kind = random.pick(&[Kind::Load, Kind::Store]);
        finished.coupled = 0;
        self.plans.push(finished);
        self.empty(self.plans.len() - 1);
        let mut names: Vec<u64> = self.plans.iter().map(|plan| plan.register).collect();
        names.extend([free[1], free[1], free[2]]);
        self.scuffs.push(Scuff::Configuring(free[1]));
        let (first, destination) = (random.pick(&names), random.pick(&names));
        let second = if random.one_in(3) { first } else { random.pick(&names) };
        let place = random.place(self.body.len() + 1);
        self.body.insert(place, line(random, destination, first, second));
        self.body.truncate(16);
    }

    /// Before a stream, its register has another without elements: opened, finished, and opened anew; or coupled, and so still open.
    fn open_anew(&mut self, random: &mut Random, at: usize) {
        let mut before = self.plans[at].clone();
        before.modifiers.clear();
        before.dimensions.truncate(random.range(1, 2) as usize);
        before.dimensions[0].size = 0;
        before.coupled = random.pick(&[0, 0, 0, 1]);
        before.code = random.below(4);
        self.plans.insert(at, before);
    }
}

fn scuffed(random: &mut Random, operations: &mut Vec<Numbers>, scuff: Scuff) {
    if operations.is_empty() {
        return;
    }
    let at = random.place(operations.len());
    let other = random.place(operations.len());
    match scuff {
        Scuff::Remove => drop(operations.remove(at)),
        Scuff::Repeat => operations.insert(at, operations[other].clone()),
        Scuff::Swap => operations.swap(at, other),
        Scuff::NoRun => drop(operations.pop()),
        Scuff::Configuring(register) => operations.insert(0, vec![1, 0x0b + (register << 7) + (random.below(8) << 12), 0]),
        Scuff::NoEnd => {
            let ends: Vec<usize> = (0..operations.len()).filter(|&at| operations[at][0] == 4).collect();
            if !ends.is_empty() {
                operations.remove(random.pick(&ends));
            }
        }
    }
}
