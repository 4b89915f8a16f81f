//! Events of calculations, for the counts. Nothing here changes what the model answers.

use crate::calculation::{folds, has_one_source, signed, taken, Calculation};
use crate::clauses::{Clause, Event};
use crate::model::{Machine, State};
use crate::stream::{Element, Index, Kind, Parameter, Pass, Stream};

impl Machine<'_> {
    /// A calculation whose first source has these lanes is about to move, and to write at these addresses.
    pub fn note_sources(&mut self, c: &Calculation, lanes: &[u64], written: &[i64]) {
        let n = lanes.len();
        let taken = taken(c.operation, n);
        let open = |register: usize| self.registers[register].state == State::Open;
        let (first, second, destination) = (open(c.first), open(c.second), open(c.destination));
        let width = self.registers[c.first].width as i64;
        let chunk = |register: usize| self.registers[register].stream().chunk(self.vl / width as usize);
        let meets = |register: usize| written.iter().any(|at| chunk(register).iter().any(|read| (read.address - at).abs() < width));
        let overlaps = destination && (first && meets(c.first) || second && meets(c.second));
        let twice = written.windows(2).any(|pair| (pair[0] - pair[1]).abs() < width);
        let part = destination && taken < chunk(c.destination).len();
        let outside = |element: &Element| !self.is_inside(element.address, width as usize);
        let outside_behind = part && chunk(c.destination)[taken..].iter().any(outside);

        let seen = &mut self.seen;
        seen.mark(OPERATIONS[c.operation as usize]);
        seen.mark_if(n > 0, WIDTHS[width.trailing_zeros() as usize]);
        seen.mark_if(first && c.first == c.second && !has_one_source(c.operation), Event::ReadTwiceNamed);
        seen.mark_if(first && second && c.first != c.second, Event::ReadTwoStreams);
        seen.mark_if(!(first && second) && n > 0, Event::SourcePlain);
        seen.mark_if(!(first && second) && n == 0, Event::SourceNone);
        seen.mark_if(!destination && n > 0 && (c.destination == c.first || c.destination == c.second), Event::DestinationIsSource);
        seen.mark_if(destination && !part && taken > 0, Event::StoreWhole);
        seen.mark_if(part && taken > 0, Event::StorePart);
        seen.mark_if(part && taken == 0, Event::StoreNone);
        seen.mark_if(overlaps, Event::StoreOverlaps);
        seen.mark_if(twice, Event::StoreTwice);
        seen.mark_if(outside_behind && taken > 0, Event::StoreBehindOutside);
        seen.mark_if(outside_behind && taken == 0, Event::StoreNoneOutside);
        if n == 0 {
            self.note_no_lanes(c);
        }
        if folds(c.operation) {
            self.seen.mark_if(outside_behind, Event::FoldBehindOutside);
            self.note_fold(c, lanes);
            self.note_folded(c.operation, width as usize, lanes);
        }
    }

    /// A calculation whose sources have no lanes is about to move.
    fn note_no_lanes(&mut self, c: &Calculation) {
        let open = |register: usize| self.registers[register].state == State::Open;
        let (first, second, stores) = (open(c.first), open(c.second), open(c.destination));
        let moves = stores && taken(c.operation, 0) == 0;
        let store = self.registers[c.destination].stream.as_ref();
        let at_empty = moves && store.is_some_and(Stream::at_empty_pass);
        let stays = moves && store.is_some_and(|stream| stream.coupled > 0 && !stream.at_empty_pass());

        let seen = &mut self.seen;
        seen.mark_if(first && second && c.first != c.second, Event::EmptyBoth);
        seen.mark_if(first != second, Event::EmptyWithPlain);
        seen.mark_if(folds(c.operation) && first, Event::EmptySum);
        seen.mark_if(folds(c.operation) && first && stores, Event::EmptySumStored);
        seen.mark_if(at_empty && (first || second), Event::StorePassesEmpty);
        seen.mark_if(at_empty && !first && !second, Event::StorePassesEmptyPlain);
        seen.mark_if(stays, Event::StoreNoneStays);
    }

    /// One of 8 to 11 is about to move: what it reads and where the single lane goes.
    fn note_fold(&mut self, c: &Calculation, lanes: &[u64]) {
        let n = lanes.len();
        let (source, destination) = (&self.registers[c.first], &self.registers[c.destination]);
        let (open, stores) = (source.state == State::Open, destination.state == State::Open);
        let cut = open && n > 0 && n < self.vl / source.width;
        let ends = open && next_index(source.stream(), n).is_none();
        let onto_lanes = !stores && c.destination != c.first && destination.valid > 1;
        let code = source.width.trailing_zeros() as usize;

        let seen = &mut self.seen;
        seen.mark_if(n > 0, FOLD_WIDTHS[code]);
        seen.mark_if(n == 1, Event::FoldOneLane);
        seen.mark_if(open && n > 0 && !cut, Event::FoldChunk);
        seen.mark_if(cut && ends, Event::FoldAtEnd);
        seen.mark_if(cut && !ends, Event::FoldCoupled);
        seen.mark_if(!open && n > 1, Event::FoldPlain);
        seen.mark_if(!open && n > 1 && c.destination == c.first, Event::FoldInPlace);
        seen.mark_if(onto_lanes, Event::FoldOntoLanes);
        seen.mark_if(stores, Event::FoldStored);
        seen.mark_if(n == 0, Event::SumNone);
        seen.mark_if(n == 0 && stores, Event::SumNoneStored);
    }

    /// One of 8 to 11 over these lanes: what makes its answer hard to get right.
    fn note_folded(&mut self, operation: u64, width: usize, lanes: &[u64]) {
        let values: Vec<i128> = lanes.iter().map(|&lane| signed(lane, width)).collect();
        let (Some(least), Some(most)) = (values.iter().min(), values.iter().max()) else {
            return;
        };
        let at = |value: &i128| values.iter().position(|other| other == value);
        let unsigned_least = (0..lanes.len()).min_by_key(|&lane| lanes[lane]);
        let unsigned_most = (0..lanes.len()).rev().max_by_key(|&lane| lanes[lane]);
        let sum: u128 = lanes.iter().map(|&lane| u128::from(lane)).sum();

        let seen = &mut self.seen;
        match operation {
            8 => seen.mark_if(sum >> (8 * width) > 0, Event::SumWraps),
            9 => seen.mark_if(at(least) != unsigned_least, Event::SmallestBySign),
            10 => {
                seen.mark_if(at(most) != unsigned_most, Event::LargestBySign);
                seen.mark_if(lanes.len() > 1 && *most < 0, Event::LargestNegative);
            }
            _ => {
                let equal = values.iter().filter(|value| *value == most).count();
                seen.mark_if(at(most) != unsigned_most, Event::FirstLargestBySign);
                seen.mark_if(equal > 1, Event::FirstLargestTie);
                seen.mark_if(lanes.len() > 1 && at(most) == Some(lanes.len() - 1), Event::FirstLargestLast);
            }
        }
    }

    /// A calculation is about to be refused by a clause.
    pub fn note_refused(&mut self, c: &Calculation, clause: Clause) {
        self.list_ahead(c.first);
        let source = &self.registers[c.first];
        let gives_none = source.state == State::Plain || source.is_open(Kind::Load);
        let no_lanes = c.operation > 8 && gives_none && self.lanes_of(c.first) == 0;
        match clause.number() {
            14 => self.note_outside(c),
            5 | 10 | 11 => self.seen.mark_if(no_lanes, Event::NoLanesUnusable),
            12 => self.seen.mark_if(no_lanes, Event::NoLanesWidth),
            13 => {
                let at_empty = |register: usize| self.registers[register].stream.as_ref().is_some_and(Stream::at_empty_pass);
                let of_sources = clause == Clause::LanesOfSources;
                let chunk_of_none = of_sources && (at_empty(c.first) || at_empty(c.second));
                let store_at_empty = !of_sources && at_empty(c.destination);
                self.seen.mark_if(chunk_of_none, Event::EmptyAgainstLanes);
                self.seen.mark_if(store_at_empty, Event::StoreAtEmptyRefused);
                self.seen.mark_if(store_at_empty && folds(c.operation), Event::StoreAtEmptyFold);
                self.seen.mark_if(store_at_empty && no_lanes, Event::NoLanesStore);
            }
            18 => {
                let outside = self.written(c).iter().any(|&address| !self.is_inside(address, source.width));
                let chunk = source.state == State::Open;
                self.seen.mark_if(outside, Event::NoLanesOutside);
                self.seen.mark_if(chunk, Event::EmptyNoLanes);
            }
            _ => {}
        }
    }

    /// A calculation is about to be refused with 14.
    fn note_outside(&mut self, c: &Calculation) {
        let width = self.registers[c.first].width;
        let written = &self.written(c);
        let inside = |addresses: &[i64]| addresses.iter().map(|&address| self.is_inside(address, width)).collect::<Vec<bool>>();
        let operands = [inside(&self.addresses(c.first)), inside(&self.addresses(c.second)), inside(written)];
        let lane = |operand: &Vec<bool>| operand.iter().position(|inside| !inside);
        let [first, second, store] = [0, 1, 2].map(|at| lane(&operands[at]));
        let source = first.or(second);
        let again = operands.iter().find_map(|operand| lane(operand).map(|lane| operand[lane..].contains(&true)));
        let below = |one: Option<usize>, other: Option<usize>| one.is_some_and(|one| other.is_some_and(|other| one < other));
        let chunk_of_none = self.registers[c.first].state == State::Open && operands[0].is_empty();

        let seen = &mut self.seen;
        seen.mark_if(first.is_some() && c.first == c.second && !has_one_source(c.operation), Event::TwiceOutside);
        seen.mark_if(below(second, first), Event::BothOutside);
        seen.mark_if(below(store, source), Event::SourceAndStoreOutside);
        seen.mark_if(again == Some(true), Event::InsideAgain);
        if folds(c.operation) {
            seen.mark_if(first.is_some(), Event::FoldSourceOutside);
            seen.mark_if(first.is_none(), Event::FoldStoreOutside);
            seen.mark_if(first.is_some() && store.is_some(), Event::FoldBothOutside);
            seen.mark_if(chunk_of_none, Event::EmptySumOutside);
        }
    }

    /// An open stream is about to move on by some elements of its next chunk.
    pub fn note_move(&mut self, register: usize, elements: usize) {
        self.note_pass(register, elements);
        if elements == 0 {
            return;
        }
        let stream = self.registers[register].stream();
        let lanes = self.vl / stream.width as usize;
        let chunk = &stream.elements[stream.moved..stream.moved + elements];
        let last = &chunk[elements - 1].index;
        let next = next_index(stream, elements);
        let inside = stream.pass().is_some_and(|pass| stream.moved + elements < pass.elements.end);
        let cut = stream.kind == Kind::Load && elements < lanes && next.is_some();
        let seen = &mut self.seen;
        seen.mark_if(elements == lanes, Event::ChunkFull);
        seen.mark_if(stream.kind == Kind::Load && elements < lanes && next.is_none(), Event::ChunkAtEnd);
        seen.mark_if(cut && stream.coupled == 1, Event::ChunkCoupled1);
        seen.mark_if(cut && stream.coupled == 2, Event::ChunkCoupled2);
        seen.mark_if(cut && stream.coupled == 3, Event::ChunkCoupled3);
        seen.mark_if(cut && stream.coupled > 3, Event::ChunkCoupledAbove);
        seen.mark_if(chunk[0].index[1..] != last[1..], Event::ChunkOverPasses);
        seen.mark_if(inside && stream.kind == Kind::Load, Event::ChunkInsideCoupled);
        seen.mark_if(inside && stream.kind == Kind::Store, Event::StoreInsideCoupled);
        if let Some(next) = next {
            let clear = last[1..] == next[1..];
            seen.mark_if(clear, Event::FlagsNone);
            seen.mark_if(!clear, Event::FlagsSome);
        }
        seen.mark_if(stream.dimensions.len() == 7, Event::SevenDimensions);
        seen.mark_if(skips_empty(stream, last, next), Event::FlagSkipsEmpty);
        if !stream.modifiers.is_empty() {
            seen.mark_if(modified(stream, last, Parameter::Size) > 0, Event::ModifiedSize);
            seen.mark_if(modified(stream, last, Parameter::Offset) > 0, Event::ModifiedOffset);
            seen.mark_if(modified(stream, last, Parameter::Stride) > 0, Event::ModifiedStride);
            seen.mark_if(two_owners(stream, last), Event::TwoOwners);
            seen.mark_if(stream.modifiers.len() == 8, Event::EightModifiers);
        }
    }

    /// The same, where the stream is coupled and this ends the present pass.
    fn note_pass(&mut self, register: usize, elements: usize) {
        let stream = self.registers[register].stream();
        let Some(pass) = stream.pass().filter(|pass| stream.moved + elements == pass.elements.end) else {
            return;
        };
        let empty = pass.elements.is_empty();
        let loads = stream.kind == Kind::Load;
        let is_empty = |pass: &Pass| pass.elements.is_empty();
        let before = stream.passed.checked_sub(1).map(|at| is_empty(&stream.passes[at]));
        // Of the last pass listed it is not known whether it has elements.
        let known = stream.whole || stream.passed + 2 < stream.passes.len();
        let next = stream.passes.get(stream.passed + 1).filter(|_| known).map(is_empty);
        let last = stream.whole && stream.passed + 1 == stream.passes.len();
        let first_element = stream.moved == 0;
        let waits = next == Some(true) && waits_empty(stream, pass);

        let seen = &mut self.seen;
        seen.mark_if(waits, Event::FlagWaitsEmpty);
        seen.mark_if(!loads && !empty && next == Some(true), Event::StoreBeforeEmpty);
        if !empty {
            return;
        }
        seen.mark_if(first_element && !last, Event::FlagsBeforeElement);
        if !loads {
            seen.mark_if(first_element, Event::StorePassesFirst);
            seen.mark_if(before == Some(true), Event::StorePassesTwice);
            seen.mark_if(last, Event::StoreFinishedEmpty);
            return;
        }
        seen.mark(Event::EmptyChunk);
        seen.mark_if(stream.coupled == 1, Event::EmptyCoupled1);
        seen.mark_if(stream.coupled == 2, Event::EmptyCoupled2);
        seen.mark_if(stream.coupled > 2, Event::EmptyCoupledAbove);
        seen.mark_if(stream.coupled == stream.dimensions.len(), Event::EmptyOutermost);
        seen.mark_if(before.is_none(), Event::EmptyFirst);
        seen.mark_if(last && !first_element, Event::EmptyLast);
        seen.mark_if(before == Some(false) && next == Some(false), Event::EmptyBetween);
        seen.mark_if(before == Some(true), Event::EmptyTwice);
        seen.mark_if(last && first_element, Event::EmptyOnly);
    }
}

const OPERATIONS: [Event; 12] = [
    Event::CopyDone,
    Event::AddDone,
    Event::SubtractDone,
    Event::AndDone,
    Event::OrDone,
    Event::XorDone,
    Event::SmallerDone,
    Event::LargerDone,
    Event::SumDone,
    Event::SmallestDone,
    Event::LargestDone,
    Event::FirstLargestDone,
];

const WIDTHS: [Event; 4] = [Event::Width1, Event::Width2, Event::Width4, Event::Width8];

const FOLD_WIDTHS: [Event; 4] = [Event::FoldWidth1, Event::FoldWidth2, Event::FoldWidth4, Event::FoldWidth8];

/// Where a stream stands once so many elements of its next chunk have moved: the index of the next element or, where these end the coupled
/// pass, of the next pass; none at the stream's end.
fn next_index(stream: &Stream, elements: usize) -> Option<&Index> {
    match stream.pass() {
        Some(pass) if stream.moved + elements == pass.elements.end => stream.passes.get(stream.passed + 1).map(|pass| &pass.index),
        _ => stream.elements.get(stream.moved + elements).map(|element| &element.index),
    }
}

/// Whether the pass of some dimension ends at `last` although its index could still grow: what is left of the pass is empty.
fn skips_empty(stream: &Stream, last: &Index, next: Option<&Index>) -> bool {
    (2..=stream.dimensions.len()).any(|dimension| {
        let ends = next.is_none_or(|next| next[dimension..] != last[dimension..]);
        ends && i64::from(last[dimension - 1]) + 1 < stream.parameter(dimension, Parameter::Size, last)
    })
}

/// Whether the pass of some dimension goes on behind a coupled pass that ends, by other coupled passes and by no element.
fn waits_empty(stream: &Stream, ended: &Pass) -> bool {
    let next = &stream.passes[stream.passed + 1].index;
    let element = match stream.elements.get(ended.elements.end) {
        None if !stream.whole => return false,
        element => element,
    };
    (stream.coupled + 1..=stream.dimensions.len()).any(|dimension| {
        let goes_on = next[dimension..] == ended.index[dimension..];
        goes_on && element.is_none_or(|element| element.index[dimension..] != ended.index[dimension..])
    })
}

/// How many modifiers of a parameter change something at an element.
fn modified(stream: &Stream, at: &Index, parameter: Parameter) -> usize {
    let changes = stream.modifiers.iter().filter(|m| m.parameter == parameter && m.displacement > 0 && at[m.owner - 1] > 0);
    changes.count()
}

/// Whether two owners change one parameter of one dimension at an element.
fn two_owners(stream: &Stream, at: &Index) -> bool {
    let changing = || stream.modifiers.iter().filter(|m| m.displacement > 0 && at[m.owner - 1] > 0);
    changing().any(|one| changing().any(|other| one.owner != other.owner && one.target == other.target && one.parameter == other.parameter))
}
