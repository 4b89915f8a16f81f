//! A stream: its loops, its elements, the passes of its coupled dimension, its chunks and its flags.
//!
//! All of it is literal. The elements are listed by nested loops whose parameters are worked out anew from the owners' indices; of a
//! coupled stream each pass of that dimension is listed with its elements, also where it has none. A chunk is the front of what is left
//! of the present pass. A flag is found by comparing an element with the next one or, where a chunk ended its coupled pass, by looking
//! through the later passes. Nothing is carried from one element to the next.

use std::ops::Range;

use crate::clauses::Clause;

/// Index of each dimension, dimension 1 first.
pub type Index = [u16; 7];

#[derive(Clone, Copy, PartialEq, Eq, Debug)]
pub enum Kind {
    Load,
    Store,
}

#[derive(Clone, Copy, PartialEq, Eq, Debug)]
pub enum Parameter {
    Size,
    Offset,
    Stride,
}

#[derive(Clone, Copy, Debug)]
pub struct Dimension {
    pub offset: i64,
    pub size: i64,
    pub stride: i64,
}

/// Owner and target are dimensions, counted from 1.
#[derive(Clone, Copy, Debug)]
pub struct Modifier {
    pub owner: usize,
    pub target: usize,
    pub parameter: Parameter,
    pub adds: bool,
    pub displacement: i64,
}

#[derive(Clone, Copy, Debug)]
pub struct Element {
    pub index: Index,
    pub address: i64,
}

/// A pass of the coupled dimension that the loops outside it reach.
#[derive(Clone, Debug)]
pub struct Pass {
    /// Of the loops outside; 0 in the coupled dimension and below.
    pub index: Index,
    /// Where its elements stand in the list of all. Of the last pass listed, those listed.
    pub elements: Range<usize>,
}

#[derive(Clone, Debug)]
pub struct Stream {
    pub kind: Kind,
    pub width: i64,
    /// The coupled dimension, 0 for none.
    pub coupled: usize,
    pub base: i64,
    pub dimensions: Vec<Dimension>,
    pub modifiers: Vec<Modifier>,
    /// The first elements of the loop, and of a coupled stream the first passes: all of them if `whole`, else as many as were asked
    /// for up to now.
    pub elements: Vec<Element>,
    pub passes: Vec<Pass>,
    pub whole: bool,
    /// How many elements have moved, and how many coupled passes lie behind; of an uncoupled stream none do.
    pub moved: usize,
    pub passed: usize,
}

impl Stream {
    pub fn new(kind: Kind, width: i64, coupled: usize, base: i64) -> Stream {
        Stream {
            kind,
            width,
            coupled,
            base,
            dimensions: Vec::new(),
            modifiers: Vec::new(),
            elements: Vec::new(),
            passes: Vec::new(),
            whole: false,
            moved: 0,
            passed: 0,
        }
    }

    /// A parameter of a dimension while the owners of its modifiers stand at these indices.
    pub fn parameter(&self, dimension: usize, parameter: Parameter, index: &Index) -> i64 {
        let configured = &self.dimensions[dimension - 1];
        let mut value = match parameter {
            Parameter::Size => configured.size,
            Parameter::Offset => configured.offset,
            Parameter::Stride => configured.stride,
        };
        for modifier in &self.modifiers {
            if modifier.target == dimension && modifier.parameter == parameter {
                let k = i64::from(index[modifier.owner - 1]);
                if modifier.adds {
                    value += k * modifier.displacement;
                } else {
                    value -= k * modifier.displacement;
                }
            }
        }
        value
    }

    pub fn address(&self, index: &Index) -> i64 {
        let mut address = self.base;
        for dimension in 1..=self.dimensions.len() {
            let offset = self.parameter(dimension, Parameter::Offset, index);
            let stride = self.parameter(dimension, Parameter::Stride, index);
            address += offset + stride * i64::from(index[dimension - 1]) * self.width;
        }
        address
    }

    /// Runs the loops from `outer` down to the one above `inner`, and shows each index to `see` until it answers false. Answers whether
    /// it never did.
    fn loops(&self, outer: usize, inner: usize, index: &mut Index, see: &mut dyn FnMut(&Index) -> bool) -> bool {
        if outer == inner {
            return see(index);
        }
        let size = self.parameter(outer, Parameter::Size, index);
        for k in 0..size {
            index[outer - 1] = k as u16;
            if !self.loops(outer - 1, inner, index, see) {
                return false;
            }
        }
        true
    }

    /// Lists the first `count` elements and passes, both counted, at least, or all if there are fewer.
    pub fn list(&mut self, count: usize) {
        if self.whole || self.elements.len() + self.passes.len() >= count {
            return;
        }
        let most = (4 * count).max(64);
        let depth = self.dimensions.len();
        let mut elements = Vec::new();
        let mut passes: Vec<Pass> = Vec::new();
        let element = |index: &Index| Element { index: *index, address: self.address(index) };
        let whole = if self.coupled == 0 {
            self.loops(depth, 0, &mut [0; 7], &mut |index| {
                elements.push(element(index));
                elements.len() < most
            })
        } else {
            self.loops(depth, self.coupled, &mut [0; 7], &mut |outside| {
                let from = elements.len();
                let left = most.saturating_sub(from + passes.len() + 1);
                let ended = left > 0
                    && self.loops(self.coupled, 0, &mut outside.clone(), &mut |index| {
                        elements.push(element(index));
                        elements.len() < from + left
                    });
                passes.push(Pass { index: *outside, elements: from..elements.len() });
                ended
            })
        };
        self.elements = elements;
        self.passes = passes;
        self.whole = whole;
    }

    /// Whether there is a chunk at all: of a coupled stream, whether the loops outside reach a pass; else whether there is an element.
    pub fn has_chunk(&self) -> bool {
        !self.loops(self.dimensions.len(), self.coupled, &mut [0; 7], &mut |_| false)
    }

    /// Whether the loops reach an element at all.
    pub fn has_element(&self) -> bool {
        !self.loops(self.dimensions.len(), 0, &mut [0; 7], &mut |_| false)
    }

    /// The rules at end: 8 from the outermost dimension inward, then 9. Leaves at the first dimension that breaks 8, so that the numbers
    /// of the others stay small.
    pub fn bounds(&self) -> Result<(), Clause> {
        let mut high = vec![0; self.dimensions.len() + 1];
        for dimension in (1..=self.dimensions.len()).rev() {
            let size = self.dimensions[dimension - 1].size;
            let mut low = size;
            high[dimension] = size;
            for modifier in &self.modifiers {
                if modifier.target == dimension && modifier.parameter == Parameter::Size {
                    let reach = modifier.displacement * (high[modifier.owner].max(1) - 1);
                    if modifier.adds {
                        high[dimension] += reach;
                    } else {
                        low -= reach;
                    }
                }
            }
            if low < 0 {
                return Err(Clause::Low);
            }
            if high[dimension] > 4_096 {
                return Err(Clause::High);
            }
        }
        let product: i128 = high[1..].iter().map(|&high| i128::from(high.max(1))).product();
        if product > 1_048_576 {
            return Err(Clause::Product);
        }
        Ok(())
    }

    /// The coupled pass that the next chunk is of; none if the stream is uncoupled, or finished.
    pub fn pass(&self) -> Option<&Pass> {
        self.passes.get(self.passed)
    }

    /// Whether the next chunk is that of a coupled pass without elements.
    pub fn at_empty_pass(&self) -> bool {
        self.pass().is_some_and(|pass| pass.elements.is_empty())
    }

    /// The next chunk, among the elements listed: the next elements, as many as there are lanes, fewer at the end of the stream or, if
    /// coupled, at the end of the current pass of that dimension. A pass without elements gives one of no lanes.
    pub fn chunk(&self, lanes: usize) -> &[Element] {
        let end = self.pass().map_or(self.elements.len(), |pass| pass.elements.end);
        let rest = &self.elements[self.moved..end];
        &rest[..lanes.min(rest.len())]
    }

    /// Moves on by so many elements of the next chunk. Where that is all that is left of a coupled pass, the pass lies behind: also one
    /// without elements, by 0 of them.
    pub fn move_on(&mut self, elements: usize) {
        self.moved += elements;
        if self.pass().is_some_and(|pass| pass.elements.end == self.moved) {
            self.passed += 1;
        }
    }

    /// How far it has moved, as the program `run` tells it: the elements, and one for each coupled pass without elements that lies behind.
    pub fn stops(&self) -> usize {
        self.moved + self.passes[..self.passed].iter().filter(|pass| pass.elements.is_empty()).count()
    }

    /// Whether the last chunk lies behind: that of the last coupled pass, or of the last element.
    pub fn is_at_end(&self) -> bool {
        self.whole && self.moved == self.elements.len() && self.passed == self.passes.len()
    }

    /// The coupled pass that the last chunk, or store, ended; none if that ended inside its pass, or the stream is uncoupled, or nothing has
    /// moved.
    pub fn ended_pass(&self) -> Option<&Pass> {
        let last = self.passes.get(self.passed.checked_sub(1)?)?;
        (last.elements.end == self.moved).then_some(last)
    }

    /// The flag of a dimension.
    pub fn flag(&self, dimension: usize) -> bool {
        if self.is_at_end() {
            return true;
        }
        if let Some(ended) = self.ended_pass() {
            let same_pass = |later: &Pass| later.index[dimension..] == ended.index[dimension..];
            return dimension < self.coupled || !self.passes[self.passed..].iter().any(same_pass);
        }
        if self.moved == 0 {
            return false;
        }
        // The last element moved is the last of its pass: the next differs in an index above.
        self.elements[self.moved - 1].index[dimension..] != self.elements[self.moved].index[dimension..]
    }
}
