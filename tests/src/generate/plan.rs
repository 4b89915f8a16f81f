//! Streams to be put on a sheet: their shapes, their places in memory, their operations.

use crate::numbers::unsigned;
use crate::random::Random;
use crate::stream::{Dimension, Kind, Modifier, Parameter, Stream};

/// An operation, or the numbers of a sheet: what is written one after another.
pub type Numbers = Vec<u64>;

#[derive(Clone)]
pub struct Plan {
    pub register: u64,
    pub kind: Kind,
    /// Width code.
    pub code: u64,
    /// The coupled dimension, 0 for none.
    pub coupled: u64,
    pub base: i64,
    /// Header bits without effect: 19-15 and 23-22.
    pub free: u64,
    pub dimensions: Vec<Dimension>,
    pub modifiers: Vec<Modifier>,
}

impl Plan {
    pub fn width(&self) -> i64 {
        1 << self.code
    }

    pub fn word(&self) -> u64 {
        let load = if self.kind == Kind::Load { 4 } else { 0 };
        let coupling = if self.coupled == 0 { 0 } else { 8 + self.coupled - 1 };
        0x0b + (self.register << 7) + ((load + self.code) << 12) + (coupling << 27) + self.free
    }

    /// Open, each dimension with its modifiers, end.
    pub fn operations(&self) -> Vec<Numbers> {
        let mut operations = vec![vec![1, self.word(), self.base as u64]];
        for (number, dimension) in (1..).zip(&self.dimensions) {
            let Dimension { offset, size, stride } = dimension;
            operations.push(vec![2, self.register, unsigned(*offset), *size as u64, unsigned(*stride)]);
            for modifier in self.modifiers.iter().filter(|modifier| modifier.owner == number) {
                operations.push(self.modifier(modifier));
            }
        }
        operations.push(vec![4, self.register]);
        operations
    }

    fn modifier(&self, modifier: &Modifier) -> Numbers {
        let parameter = match modifier.parameter {
            Parameter::Size => 0,
            Parameter::Offset => 1,
            Parameter::Stride => 2,
        };
        vec![3, self.register, modifier.target as u64 - 1, parameter, u64::from(!modifier.adds), modifier.displacement as u64]
    }

    pub fn stream(&self) -> Stream {
        let mut stream = Stream::new(self.kind, self.width(), self.coupled as usize, self.base);
        stream.dimensions = self.dimensions.clone();
        stream.modifiers = self.modifiers.clone();
        stream
    }

    /// The addresses of the first elements; none if the stream will be refused for its sizes.
    fn addresses(&self) -> Vec<i64> {
        // The elements are the same whatever it is coupled to, and that dimension may be missing.
        let mut stream = Stream { coupled: 0, ..self.stream() };
        if stream.dimensions.len() > 7 || stream.bounds().is_err() {
            return Vec::new();
        }
        stream.list(1_000);
        stream.elements.iter().map(|element| element.address).collect()
    }

    /// The first byte and the first byte behind, over the first elements; none if there is no element, or the stream will be refused.
    pub fn span(&self) -> Option<(i64, i64)> {
        let addresses = self.addresses();
        Some((*addresses.iter().min()?, addresses.iter().max()? + self.width()))
    }

    /// Moves the stream so that one of its elements lies just outside a memory, below or above it. Where its strides lead there, the
    /// elements before lie inside.
    pub fn slip(&mut self, random: &mut Random, memory: i64) {
        let below = random.one_in(2);
        if random.one_in(2) {
            for dimension in &mut self.dimensions {
                dimension.stride = if below { -dimension.stride.abs() } else { dimension.stride.abs() };
            }
        }
        let addresses = self.addresses();
        if addresses.is_empty() {
            return;
        }
        let outside = if below { -random.range(1, self.width()) } else { memory - self.width() + random.range(1, self.width()) };
        let base = self.base + outside - random.pick(&addresses);
        self.base = base.clamp(0, 1_048_576);
        self.dimensions[0].offset += base.min(0);
    }

    /// Gives the plan a base from which its elements lie at `from` and above.
    pub fn put_at(&mut self, from: i64) {
        self.base = 0;
        if let Some((least, _)) = self.span() {
            self.base = (from - least).clamp(0, 1_048_576);
        }
    }
}

/// Sizes and the modifiers on them: what streams that step together have in common.
#[derive(Clone)]
pub struct Shape {
    pub sizes: Vec<i64>,
    pub modifiers: Vec<Modifier>,
}

/// A modifier within a stream of some depth, at least 2.
pub fn modifier(random: &mut Random, depth: usize, parameter: Parameter) -> Modifier {
    let owner = random.range(2, depth as i64) as usize;
    Modifier {
        owner,
        target: random.range(1, owner as i64 - 1) as usize,
        parameter,
        adds: random.one_in(2),
        displacement: random.pick(&[0, 1, 1, 1, 1, 2, 2, 3]),
    }
}

impl Shape {
    /// A shape of few elements that end accepts.
    pub fn small(random: &mut Random) -> Shape {
        loop {
            let shape = Shape::any_small(random);
            if shape.product() <= 600 {
                return shape;
            }
        }
    }

    fn any_small(random: &mut Random) -> Shape {
        let depth = random.pick(&[1, 1, 1, 1, 2, 2, 2, 2, 2, 2, 3, 3, 3, 3, 4, 4, 5, 6, 7]);
        let mut sizes = Vec::new();
        for dimension in 1..=depth {
            let most = if depth == 1 { random.pick(&[3, 9, 20, 40, 40, 150]) } else { [9, 5, 3, 2, 2, 2, 2][dimension - 1] };
            sizes.push(if random.one_in(25) { 0 } else { random.range(1, most) });
        }
        let mut shape = Shape { sizes, modifiers: Vec::new() };
        if depth >= 2 && random.one_in(2) {
            for _ in 0..random.pick(&[1, 1, 1, 1, 2, 2, 3, 4]) {
                shape.modifiers.push(modifier(random, depth, Parameter::Size));
            }
            shape.make_room(random);
        }
        shape
    }

    /// Raises sizes until no low is below 0, mostly to the least that will do; lets growing sizes start at 0 now and then.
    fn make_room(&mut self, random: &mut Random) {
        let depth = self.sizes.len();
        let mut high = vec![0; depth + 1];
        for dimension in (1..=depth).rev() {
            let (mut up, mut down) = (0, 0);
            for modifier in self.modifiers.iter().filter(|modifier| modifier.target == dimension) {
                let reach = modifier.displacement * (high[modifier.owner] as i64 - 1).max(0);
                if modifier.adds {
                    up += reach;
                } else {
                    down += reach;
                }
            }
            let size = &mut self.sizes[dimension - 1];
            if down > *size || down > 0 && random.one_in(2) {
                *size = down + random.pick(&[0, 0, 0, 1, 2]);
            } else if up > 0 && random.one_in(2) {
                *size = random.pick(&[0, 0, 1, 1]) + down;
            }
            high[dimension] = *size + up;
        }
    }

    /// The stream of this shape with all strides and offsets 0.
    pub fn bare(&self) -> Stream {
        let mut stream = Stream::new(Kind::Load, 1, 0, 0);
        stream.dimensions = self.sizes.iter().map(|&size| Dimension { offset: 0, size, stride: 0 }).collect();
        stream.modifiers = self.modifiers.clone();
        stream
    }

    /// How many elements it has, counted up to some thousands.
    pub fn elements(&self) -> usize {
        let mut stream = self.bare();
        stream.list(2_000);
        stream.elements.len()
    }

    /// How many chunks there can be at most, counted up to some thousands: one for each element and, of a coupled stream, one for each
    /// pass without.
    pub fn chunks(&self, coupled: u64) -> usize {
        let mut stream = Stream { coupled: coupled as usize, ..self.bare() };
        stream.list(2_000);
        stream.elements.len() + stream.passes.iter().filter(|pass| pass.elements.is_empty()).count()
    }

    /// The largest count that the sizes could come to.
    fn product(&self) -> i64 {
        let mut high = vec![0; self.sizes.len() + 1];
        for dimension in (1..=self.sizes.len()).rev() {
            let grows = self.modifiers.iter().filter(|modifier| modifier.target == dimension && modifier.adds);
            let reach: i64 = grows.map(|modifier| modifier.displacement * (high[modifier.owner] as i64 - 1).max(0)).sum();
            high[dimension] = self.sizes[dimension - 1] + reach;
        }
        high[1..].iter().map(|&high| high.max(1)).product()
    }

    /// A flat shape of so many elements.
    pub fn flat(elements: usize) -> Shape {
        Shape { sizes: vec![elements as i64], modifiers: Vec::new() }
    }

    /// A shape that steps together with this one, at least for a while: some difference in length, or none.
    pub fn sibling(&self, random: &mut Random, lanes: u64) -> Shape {
        let mut shape = self.clone();
        match random.below(7) {
            0 => {
                let dimension = random.place(shape.sizes.len());
                shape.sizes[dimension] += random.range(1, 4);
            }
            1 => {
                let dimension = random.place(shape.sizes.len());
                shape.sizes[dimension] = (shape.sizes[dimension] - random.range(1, 3)).max(0);
            }
            2 => return Shape::flat(self.elements().min(4_096)),
            3 => return Shape::flat((self.elements() + random.range(0, 40) as usize).min(4_096)),
            4 => return Shape::flat((lanes * random.below(5)) as usize),
            5 => {
                let rows = random.range(1, 12);
                shape = Shape { sizes: vec![random.range(1, lanes as i64), rows], modifiers: Vec::new() };
            }
            _ => {}
        }
        shape
    }

    /// A stream of this shape, with strides, offsets and modifiers of them. Its base is still to be chosen.
    pub fn plan(&self, random: &mut Random, register: u64, kind: Kind, code: u64, coupled: u64) -> Plan {
        let depth = self.sizes.len();
        let mut row = 1;
        let mut dimensions = Vec::new();
        for (dimension, &size) in self.sizes.iter().enumerate() {
            let stride = match random.below(8) {
                0 => 0,
                1 => random.range(-9, 9),
                2 => -row,
                3 if dimension == 0 => random.pick(&[2, 3, 4, -2]),
                _ => row,
            };
            let offset = if random.one_in(4) { random.range(-12, 12) } else { 0 };
            dimensions.push(Dimension { offset, size, stride });
            row = (row * size.clamp(1, 40)).min(400) + random.pick(&[0, 0, 0, 1, 3]);
        }
        let mut modifiers = self.modifiers.clone();
        if depth >= 2 && random.one_in(3) {
            let room = 8 - modifiers.len() as i64;
            let more = if random.one_in(5) { room } else { random.range(1, 2).min(room) };
            for _ in 0..more {
                let parameter = random.pick(&[Parameter::Offset, Parameter::Stride]);
                modifiers.push(modifier(random, depth, parameter));
            }
        }
        random.shuffle(&mut modifiers);
        modifiers.sort_by_key(|modifier| modifier.owner);
        let free = if random.one_in(3) { (random.below(32) << 15) + (random.below(4) << 22) } else { 0 };
        Plan { register, kind, code, coupled, base: 0, free, dimensions, modifiers }
    }
}
