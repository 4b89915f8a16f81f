//! A stream's place in its loops, kept as running values. Dimensions count from 0 here.

pub const DIMENSIONS: usize = 7;
pub const MODIFIERS: usize = 8;

/// `step` is added to the target's value whenever the owner steps: elements for a size, bytes for an offset or a stride.
#[derive(Clone, Copy, Default)]
pub struct Modifier {
    pub owner: u8,
    pub target: u8,
    pub parameter: u8,
    pub step: i64,
}

/// Where the next element is, or the pass of the coupled dimension that has none. `size`, `offset` and `step` are the values under the
/// present indices, offset and step in bytes.
#[derive(Clone, Copy)]
pub struct Walk {
    /// At a coupled pass without elements, its loops gone through and their modifiers undone.
    pub empty: bool,
    pub index: [i32; DIMENSIONS],
    pub size: [i32; DIMENSIONS],
    pub offset: [i64; DIMENSIONS],
    pub step: [i64; DIMENSIONS],
    /// Address without the dimensions below; the last is the base. The next element lies at `at[0]`.
    pub at: [i64; DIMENSIONS + 1],
}

#[derive(Clone, Copy)]
pub struct Stream {
    pub walk: Walk,
    pub dimensions: u8,
    /// 0 for none.
    pub coupled: u8,
    pub flags: u8,
    pub modifiers: u8,
    /// Modifiers of one owner stand together, from `first[owner]` to `first[owner + 1]`.
    pub first: [u8; DIMENSIONS + 1],
    pub modifier: [Modifier; MODIFIERS],
}

/// Elements one after another, a step apart.
#[derive(Clone, Copy)]
pub struct Stretch {
    pub start: i64,
    pub step: i64,
    pub count: usize,
}

/// Elements looked at and not yet moved: `n` of them, in stretches.
pub struct Ahead {
    pub n: usize,
    count: usize,
    stretch: [Stretch; 64],
    /// The walk behind the elements, and the highest dimension that stepped; only if there was a look beyond the present pass.
    beyond: bool,
    walk: Walk,
    highest: usize,
}

pub const STILL: Walk = Walk { empty: false, index: [0; 7], size: [0; 7], offset: [0; 7], step: [0; 7], at: [0; 8] };

impl Ahead {
    pub fn none() -> Ahead {
        let stretch = [Stretch { start: 0, step: 0, count: 0 }; 64];
        Ahead { n: 0, count: 0, stretch, beyond: false, walk: STILL, highest: 0 }
    }

    pub fn stretches(&self) -> &[Stretch] {
        &self.stretch[..self.count]
    }

    /// Whether all elements lie inside a memory.
    pub fn inside(&self, width: i64, memory: i64) -> bool {
        let fits = |address: i64| fits(address, width, memory);
        self.stretches().iter().all(|stretch| fits(stretch.start) && fits(stretch.start + (stretch.count as i64 - 1) * stretch.step))
    }

    /// How many elements lie inside a memory before the first that does not.
    #[cold]
    pub fn first_outside(&self, width: i64, memory: i64) -> u64 {
        let addresses = self.stretches().iter().flat_map(|stretch| (0..stretch.count as i64).map(|k| stretch.start + k * stretch.step));
        addresses.take_while(|&address| fits(address, width, memory)).count() as u64
    }
}

/// Whether an element lies inside a memory.
fn fits(address: i64, width: i64, memory: i64) -> bool {
    address >= 0 && address + width <= memory
}

impl Stream {
    pub const NONE: Stream = Stream {
        walk: STILL,
        dimensions: 0,
        coupled: 0,
        flags: 0,
        modifiers: 0,
        first: [0; 8],
        modifier: [Modifier { owner: 0, target: 0, parameter: 0, step: 0 }; MODIFIERS],
    };

    /// Changes what the modifiers of a dimension are at, by some of its steps.
    #[inline]
    fn modify(&self, walk: &mut Walk, owner: usize, steps: i64) {
        for modifier in &self.modifier[self.first[owner] as usize..self.first[owner + 1] as usize] {
            let target = modifier.target as usize;
            match modifier.parameter {
                0 => walk.size[target] += (modifier.step * steps) as i32,
                1 => walk.offset[target] += modifier.step * steps,
                _ => walk.step[target] += modifier.step * steps,
            }
        }
    }

    /// Goes to the next element, or to the next coupled pass that has none, once the pass of dimension 0 is at its end or there is none
    /// (`steps`), or to the first of all. Answers the highest dimension that stepped, or the number of dimensions if there is no such
    /// place.
    fn seek(&self, walk: &mut Walk, mut steps: bool) -> usize {
        let dimensions = self.dimensions as usize;
        let coupled = self.coupled as usize;
        let mut d = match (steps, walk.empty) {
            (false, _) => dimensions - 1,
            (true, false) => 1,
            (true, true) => coupled,
        };
        walk.empty = false;
        // Whether a coupled pass was begun on the way: if it is gone through without an element, the way ends there.
        let mut begun = false;
        let mut highest = 0;
        loop {
            if !steps {
                begun |= d + 1 == coupled;
                walk.index[d] = 0;
                walk.at[d] = walk.at[d + 1] + walk.offset[d];
                if walk.size[d] <= 0 {
                    steps = true;
                    d += 1;
                } else if d == 0 {
                    return highest;
                } else {
                    d -= 1;
                }
            } else if begun && d == coupled {
                walk.empty = true;
                return highest;
            } else if d == dimensions {
                return dimensions;
            } else if walk.index[d] + 1 < walk.size[d] {
                walk.index[d] += 1;
                walk.at[d] += walk.step[d];
                self.modify(walk, d, 1);
                highest = highest.max(d);
                steps = false;
                d -= 1;
            } else {
                self.modify(walk, d, -i64::from(walk.index[d]));
                d += 1;
            }
        }
    }

    /// Goes to the first element, or coupled pass without one; answers whether there is such.
    pub fn begin(&mut self, base: i64) -> bool {
        let dimensions = self.dimensions as usize;
        let mut walk = self.walk;
        walk.at[dimensions] = base;
        let there = self.seek(&mut walk, false) < dimensions;
        self.walk = walk;
        there
    }

    /// Looks at the next elements, up to `want` and no further than the end of the stream or of the coupled pass.
    pub fn look(&self, want: usize, ahead: &mut Ahead) {
        if self.walk.empty {
            (ahead.n, ahead.count, ahead.beyond) = (0, 0, false);
            return;
        }
        let left = (self.walk.size[0] - self.walk.index[0]) as usize;
        ahead.beyond = left < want && self.coupled != 1;
        if ahead.beyond {
            return self.look_beyond(want, ahead);
        }
        ahead.n = left.min(want);
        ahead.count = 1;
        ahead.stretch[0] = Stretch { start: self.walk.at[0], step: self.walk.step[0], count: ahead.n };
    }

    fn look_beyond(&self, want: usize, ahead: &mut Ahead) {
        ahead.n = 0;
        ahead.count = 0;
        ahead.walk = self.walk;
        let walk = &mut ahead.walk;
        loop {
            let count = ((walk.size[0] - walk.index[0]) as usize).min(want - ahead.n);
            ahead.stretch[ahead.count] = Stretch { start: walk.at[0], step: walk.step[0], count };
            ahead.count += 1;
            ahead.n += count;
            walk.index[0] += count as i32;
            walk.at[0] += count as i64 * walk.step[0];
            ahead.highest = if walk.index[0] < walk.size[0] { 0 } else { self.seek(walk, true) };
            let ends = ahead.highest == self.dimensions as usize || self.coupled != 0 && ahead.highest >= self.coupled as usize;
            if ahead.n == want || ends {
                return;
            }
        }
    }

    /// Moves over the elements looked at, or past the empty pass; answers whether the stream goes on.
    pub fn advance(&mut self, ahead: &Ahead) -> bool {
        let highest = if ahead.beyond {
            self.walk = ahead.walk;
            ahead.highest
        } else {
            self.walk.index[0] += ahead.n as i32;
            self.walk.at[0] += ahead.n as i64 * self.walk.step[0];
            if !self.walk.empty && self.walk.index[0] < self.walk.size[0] {
                0
            } else {
                let mut walk = self.walk;
                let highest = self.seek(&mut walk, true);
                self.walk = walk;
                highest
            }
        };
        self.flags = ((1_u32 << highest) - 1) as u8;
        highest < self.dimensions as usize
    }
}
