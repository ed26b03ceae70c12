//! The greatest sum of what blocks of one stack bring: a table over those events alone at which such blocks begin or end.
//!
//! A row is for the pieces that end before some end, and for some room. It has the greatest sum from each entry on, from the last entry down to where it was
//! asked for. What a piece brings with all that is inside it goes by the room alone, so each row finds it at hand.

use super::stacks::{NO_ROOM, Part, Stack};

/// A block that brings something, by its place among the rows of a scene.
#[derive(Clone, Copy)]
pub(crate) struct Piece {
    pub(crate) enters: u32,
    pub(crate) leaves: u32,
    pub(crate) n: u32,
    pub(crate) long: u16,
    pub(crate) gain: i64,
    pub(crate) row: usize,
}

/// Where a piece, what is inside it and what comes behind it stand among the events of the table.
#[derive(Clone, Copy)]
struct Place {
    leaves: usize,
    inside: (usize, usize),
    behind: usize,
}

const UNKNOWN: i64 = i64::MIN;
const TOO_LONG: i64 = i64::MIN / 2;

/// A table of one stack, kept so that no memory is asked for again.
#[derive(Default)]
pub(crate) struct Table {
    pub(crate) pieces: Vec<Piece>,
    places: Vec<Place>,
    entries: Vec<u32>,
    firsts: Vec<usize>,
    ends: Vec<u32>,
    rooms: usize,
    lengths: usize,
    // For each end and room how far down the row is known, and its sums.
    known: Vec<usize>,
    sums: Vec<i64>,
    // For each piece and room what it brings with all that is inside it.
    whole: Vec<i64>,
    // How many pieces were looked at so far, each at an entry of a row.
    pub(crate) steps: u64,
}

impl Table {
    /// Prepares the table for its pieces.
    pub(crate) fn prepare(&mut self, stack: &Stack, lengths: usize) {
        (self.rooms, self.lengths) = (stack.rooms.len(), lengths);
        self.pieces.sort_unstable_by_key(|piece| (piece.enters, piece.leaves));
        self.entries.clear();
        self.firsts.clear();
        for (place, piece) in self.pieces.iter().enumerate() {
            if self.entries.last() != Some(&piece.enters) {
                self.entries.push(piece.enters);
                self.firsts.push(place);
            }
        }
        self.firsts.push(self.pieces.len());
        self.ends.clear();
        self.ends.extend(self.pieces.iter().map(|piece| piece.leaves));
        self.ends.sort_unstable();
        self.ends.dedup();
        let (entries, ends) = (&self.entries, &self.ends);
        let entry = |at: u32| entries.partition_point(|entry| *entry < at);
        let end = |at: u32| ends.partition_point(|end| *end < at);
        self.places.clear();
        self.places.extend(self.pieces.iter().map(|piece| Place {
            leaves: end(piece.leaves),
            inside: (entry(piece.enters + piece.n), end(piece.leaves + 1 - piece.n)),
            behind: entry(piece.leaves + 1),
        }));
        let (rows, wide) = ((self.ends.len() + 1) * self.rooms, self.entries.len() + 1);
        self.known.clear();
        self.known.resize(rows, wide - 1);
        if self.sums.len() < rows * wide {
            self.sums.resize(rows * wide, 0);
        }
        (0..rows).for_each(|row| self.sums[row * wide + wide - 1] = 0);
        self.whole.clear();
        self.whole.resize(self.pieces.len() * self.rooms, UNKNOWN);
    }

    // The greatest sum from an entry on of pieces that end before an end, with some room.
    fn best(&mut self, stack: &Stack, from: usize, to: usize, room: u16) -> i64 {
        if from >= self.entries.len() || to == 0 || self.ends[to - 1] < self.entries[from] {
            return 0;
        }
        let row = to * self.rooms + room as usize;
        let start = row * (self.entries.len() + 1);
        while self.known[row] > from {
            let at = self.known[row] - 1;
            let mut best = self.sums[start + at + 1];
            for k in self.firsts[at]..self.firsts[at + 1] {
                if self.places[k].leaves >= to {
                    break;
                }
                self.steps += 1;
                best = best.max(self.whole(stack, k, room) + self.sums[start + self.places[k].behind]);
            }
            self.sums[start + at] = best;
            self.known[row] = at;
        }
        self.sums[start + from]
    }

    // What a piece brings with all that is inside it, where it fits.
    fn whole(&mut self, stack: &Stack, k: usize, room: u16) -> i64 {
        let at = k * self.rooms + room as usize;
        if self.whole[at] == UNKNOWN {
            let (piece, inside) = (self.pieces[k], self.places[k].inside);
            let left = stack.less(room, piece.long, self.lengths);
            self.whole[at] = if left == NO_ROOM { TOO_LONG } else { piece.gain + self.best(stack, inside.0, inside.1, left) };
        }
        self.whole[at]
    }

    fn between(&self, part: Part) -> (usize, usize) {
        (self.entries.partition_point(|entry| *entry < part.from), self.ends.partition_point(|end| *end < part.to))
    }

    /// The greatest sum in a part of the order of events.
    pub(crate) fn greatest(&mut self, stack: &Stack, part: Part) -> i64 {
        if self.pieces.is_empty() || part.from >= part.to || part.room == NO_ROOM {
            return 0;
        }
        let (from, to) = self.between(part);
        self.best(stack, from, to, part.room)
    }

    /// Adds the rows of pieces that come to the greatest sum in a part.
    pub(crate) fn chosen(&mut self, stack: &Stack, part: Part, rows: &mut Vec<usize>) {
        if self.greatest(stack, part) == 0 {
            return;
        }
        let (from, to) = self.between(part);
        let mut left = vec![(from, to, part.room)];
        while let Some((mut from, to, room)) = left.pop() {
            let mut best = self.best(stack, from, to, room);
            while best > 0 {
                let behind = self.best(stack, from + 1, to, room);
                if behind == best {
                    from += 1;
                    continue;
                }
                let pieces = (self.firsts[from]..self.firsts[from + 1]).filter(|k| self.places[*k].leaves < to).collect::<Vec<_>>();
                let with = |table: &mut Table, k: usize| table.whole(stack, k, room) + table.best(stack, table.places[k].behind, to, room);
                let pick = pieces.into_iter().find(|k| with(self, *k) == best).expect("a piece");
                rows.push(self.pieces[pick].row);
                let place = self.places[pick];
                left.push((place.inside.0, place.inside.1, stack.less(room, self.pieces[pick].long, self.lengths)));
                from = place.behind;
                best = self.best(stack, from, to, room);
            }
        }
    }
}
