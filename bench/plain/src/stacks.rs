//! What the blocks of one end of a track bring at most, exactly: no prices say who stands in whose way.
//!
//! A stack is a track with one of its ends, and its blocks come and go by that end. Those that don't cross are nested or apart in the order
//! of events, so the greatest sum over all of them is found from parts of that order, and the room that is left.

use crate::checker::{Case, Path, duals, parts};
use crate::nights::{Choice, Park, Shape, Tables};
use std::collections::HashMap;

/// A block of a stack that brings something: its events and the events of all its units, its length, and what it brings.
#[derive(Clone, Copy)]
pub(crate) struct Bringing {
    shape: Shape,
    enters: usize,
    leaves: usize,
    long: u64,
    gain: i64,
}

/// A track by one of its ends.
#[derive(Clone, Copy, PartialEq, Eq)]
pub(crate) struct Stack {
    pub(crate) track: usize,
    pub(crate) side: usize,
}

impl Stack {
    fn park(self) -> Park {
        Park { track: self.track, sides: [self.side, self.side] }
    }

    /// The place of the stack of a choice among all, where it has one.
    pub(crate) fn place_of(choice: Choice) -> Option<usize> {
        choice.park.filter(|park| park.sides[0] == park.sides[1]).map(|park| 2 * park.track + park.sides[0])
    }
}

/// The order of a night's events: when each unit enters and each position leaves.
pub(crate) struct Order {
    enters: Vec<usize>,
    leaves: Vec<usize>,
    events: usize,
}

impl Order {
    pub(crate) fn new(tables: &Tables) -> Order {
        let night = &tables.night;
        let entries = tables.units.iter().enumerate().map(|(u, unit)| ((night.arrive[unit.train].minute, true, unit.train, unit.place), u));
        let leaves = tables.positions.iter().enumerate();
        let leaves = leaves.map(|(v, position)| ((night.depart[position.train].minute, false, position.train, 9 - position.place), v));
        let mut events: Vec<_> = entries.chain(leaves).collect();
        events.sort_unstable();
        let mut order = Order { enters: vec![0; tables.units.len()], leaves: vec![0; tables.positions.len()], events: events.len() };
        for (at, ((_, enters, ..), place)) in events.into_iter().enumerate() {
            if enters {
                order.enters[place] = at;
            } else {
                order.leaves[place] = at;
            }
        }
        order
    }

    fn bringing(&self, tables: &Tables, shape: Shape, gain: i64) -> Bringing {
        Bringing { shape, enters: self.enters[shape.u], leaves: self.leaves[shape.v], long: tables.length(shape), gain }
    }

    /// For each stack the blocks of free shapes that bring something in a case.
    pub(crate) fn bringing_at(&self, tables: &Tables, path: &Path, case: &Case) -> Vec<Vec<Bringing>> {
        let mut all = vec![vec![]; 2 * tables.night.tracks];
        for u in (0..tables.units.len()).filter(|u| !path.units[*u]) {
            for shape in tables.shapes_at(u, &path.units, &path.positions) {
                let (sum, long) = (duals(case, shape), tables.length(shape));
                let parts = parts(tables, case, shape, long);
                for (place, blocks) in all.iter_mut().enumerate() {
                    let stack = Stack { track: place / 2, side: place % 2 };
                    let Some(cost) = tables.cost(Choice { shape, park: Some(stack.park()) }) else { continue };
                    let gain = sum - 1000 * cost as i64 - parts[stack.track] as i64;
                    if gain > 0 && long <= tables.night.rooms[stack.track] {
                        blocks.push(self.bringing(tables, shape, gain));
                    }
                }
            }
        }
        all
    }

    /// What can stand on a stack together with the blocks of a path there.
    pub(crate) fn filling(&self, tables: &Tables, stack: usize, path: &Path, free: &[Bringing]) -> Filling {
        let mut from = vec![vec![]; self.events];
        free.iter().for_each(|block| from[block.enters].push(*block));
        let mut forced = vec![None; self.events];
        for block in path.blocks.iter().filter(|block| Stack::place_of(**block) == Some(stack)) {
            let block = self.bringing(tables, block.shape, 0);
            forced[block.enters] = Some(block);
        }
        let mut nexts = vec![self.events; self.events + 1];
        for at in (0..self.events).rev() {
            nexts[at] = if from[at].is_empty() && forced[at].is_none() { nexts[at + 1] } else { at };
        }
        Filling { from, forced, nexts, room: tables.night.rooms[stack / 2], known: HashMap::new() }
    }

    /// What less a stack brings behind the entry of a next block if that stands there; none where it can't. What isn't on the path comes no earlier.
    pub(crate) fn less_brought(&self, tables: &Tables, filling: &mut Filling, shape: Shape) -> Option<i64> {
        let block = self.bringing(tables, shape, 0);
        let (to, room) = filling.part_at(block.enters);
        Some(filling.best(block.enters, to, room)? - filling.with(block, to, room)?)
    }
}

impl Bringing {
    /// Whether none of its units and positions is on a path.
    pub(crate) fn is_free(&self, path: &Path) -> bool {
        let Shape { u, v, n } = self.shape;
        path.units[u..u + n].iter().chain(&path.positions[v..v + n]).all(|covered| !covered)
    }
}

/// The blocks that may begin at each event, those that have to, the next event at which one begins, and what is known of parts of the order.
pub(crate) struct Filling {
    from: Vec<Vec<Bringing>>,
    forced: Vec<Option<Bringing>>,
    nexts: Vec<usize>,
    room: u64,
    known: HashMap<(usize, usize, u64), Option<i64>>,
}

impl Filling {
    /// The greatest sum of what blocks of the stack bring that can stand there together with those of the path; none where these can't.
    pub(crate) fn greatest(&mut self) -> Option<i64> {
        self.best(0, self.forced.len(), self.room)
    }

    // Where the part of the order ends in which an event lies behind all entries of the path, and its room.
    fn part_at(&self, at: usize) -> (usize, u64) {
        let standing = self.forced[..at].iter().flatten().filter(|block| block.leaves > at);
        standing.fold((self.forced.len(), self.room), |(_, room), block| (block.leaves + 1 - block.shape.n, room.saturating_sub(block.long)))
    }

    // The greatest sum between two events with some room left.
    fn best(&mut self, from: usize, to: usize, room: u64) -> Option<i64> {
        let from = self.nexts[from.min(self.forced.len())];
        if from >= to {
            return Some(0);
        }
        if let Some(known) = self.known.get(&(from, to, room)) {
            return *known;
        }
        let best = match self.forced[from] {
            Some(block) => self.with(block, to, room),
            None => {
                let mut best = self.best(from + 1, to, room);
                for k in 0..self.from[from].len() {
                    best = best.max(self.with(self.from[from][k], to, room));
                }
                best
            }
        };
        self.known.insert((from, to, room), best);
        best
    }

    // The greatest sum with a block that begins there: what stands behind it while it is there, and what comes after it.
    fn with(&mut self, block: Bringing, to: usize, room: u64) -> Option<i64> {
        if block.leaves >= to || block.long > room {
            return None;
        }
        let n = block.shape.n;
        let inside = self.best(block.enters + n, block.leaves + 1 - n, room - block.long)?;
        Some(block.gain + inside + self.best(block.leaves + 1, to, room)?)
    }
}
