//! The stacks of a night for the search: each end of a track, with the order of events and what blocks of a group cost there.

use super::evaluate::Scene;
use super::model::{Model, ONE};
use crate::nights::{Choice, Park, Shape, Tables};

/// No room is left.
pub(crate) const NO_ROOM: u16 = u16::MAX;

/// A track by one of its ends: the rooms that blocks can leave there, and what each length leaves of each.
pub(crate) struct Stack {
    pub(crate) track: usize,
    pub(crate) rooms: Vec<u64>,
    left: Vec<u16>,
}

/// A part of the order of events, with the room that is left there.
#[derive(Clone, Copy)]
pub(crate) struct Part {
    pub(crate) from: u32,
    pub(crate) to: u32,
    pub(crate) room: u16,
}

/// All stacks of a night, by track and end.
pub(crate) struct Stacks<'m> {
    pub(crate) model: &'m Model<'m>,
    pub(crate) enters: Vec<u32>,
    pub(crate) leaves: Vec<u32>,
    pub(crate) events: u32,
    pub(crate) lengths: usize,
    pub(crate) all: Vec<Stack>,
    /// For each group its class of length, its ways through each track, and its ways by each stack, from the lightest on.
    pub(crate) long: Vec<u16>,
    pub(crate) through: Vec<Vec<(usize, i64)>>,
    pub(crate) same: Vec<Vec<(usize, i64)>>,
}

fn order(tables: &Tables) -> (Vec<u32>, Vec<u32>) {
    let night = &tables.night;
    let mut events = vec![];
    for (u, unit) in tables.units.iter().enumerate() {
        events.push((night.arrive[unit.train].minute, true, unit.train, unit.place, u));
    }
    for (v, position) in tables.positions.iter().enumerate() {
        events.push((night.depart[position.train].minute, false, position.train, 9 - position.place, v));
    }
    events.sort_unstable();
    let (mut enters, mut leaves) = (vec![0; tables.units.len()], vec![0; tables.positions.len()]);
    for (at, (_, is_entry, _, _, place)) in events.into_iter().enumerate() {
        if is_entry { enters[place] = at as u32 } else { leaves[place] = at as u32 }
    }
    (enters, leaves)
}

// The sums of units' lengths up to a room.
fn rooms(tables: &Tables, room: u64) -> Vec<u64> {
    let mut lengths: Vec<u64> = tables.units.iter().map(|unit| tables.night.lengths[unit.kind]).collect();
    lengths.sort_unstable();
    lengths.dedup();
    let mut is_sum = vec![false; room as usize + 1];
    is_sum[0] = true;
    for sum in 0..=room {
        for length in lengths.iter().filter(|_| is_sum[sum as usize]).map(|length| sum + length).collect::<Vec<_>>() {
            if length <= room {
                is_sum[length as usize] = true;
            }
        }
    }
    (0..=room).filter(|sum| is_sum[*sum as usize]).collect()
}

fn stack(tables: &Tables, track: usize, lengths: &[u64]) -> Stack {
    let rooms = rooms(tables, tables.night.rooms[track]);
    let mut left = vec![];
    for room in &rooms {
        left.extend(lengths.iter().map(|long| if long <= room { rooms.partition_point(|sum| sum + long <= *room) as u16 - 1 } else { NO_ROOM }));
    }
    Stack { track, rooms, left }
}

impl Stack {
    /// What a block of a class of length leaves of a room.
    pub(crate) fn less(&self, room: u16, long: u16, lengths: usize) -> u16 {
        self.left[room as usize * lengths + long as usize]
    }

    fn place_of(&self, room: u64) -> u16 {
        self.rooms.partition_point(|sum| *sum <= room) as u16 - 1
    }
}

/// The stack of an option.
pub(crate) fn stack_of(park: Option<Park>) -> Option<usize> {
    park.filter(|park| park.sides[0] == park.sides[1]).map(|park| 2 * park.track + park.sides[0])
}

// The ways of a shape through each track, and by each stack.
fn ways_of(tables: &Tables, shape: Shape) -> (Vec<(usize, i64)>, Vec<(usize, i64)>) {
    let (mut through, mut same) = (vec![], vec![]);
    let way = |park: Park| {
        let cost = tables.cost(Choice { shape, park: Some(park) })?;
        Some(1000 * ONE * (cost - tables.ends(shape)) as i64)
    };
    let long = tables.length(shape);
    for track in (0..tables.night.tracks).filter(|track| long <= tables.night.rooms[*track]) {
        let across = [[0, 1], [1, 0]].into_iter().filter_map(|sides| way(Park { track, sides })).min();
        through.extend(across.map(|cost| (track, cost)));
        same.extend((0..2).filter_map(|side| Some((2 * track + side, way(Park { track, sides: [side, side] })?))));
    }
    // From the lightest on.
    through.sort_unstable_by_key(|(track, way)| (*way, *track));
    same.sort_unstable_by_key(|(stack, way)| (*way, *stack));
    (through, same)
}

impl Stacks<'_> {
    pub(crate) fn new<'m>(model: &'m Model<'m>) -> Stacks<'m> {
        let tables = model.tables;
        let mut lengths: Vec<u64> = model.rows.iter().map(|row| tables.length(row.shape)).collect();
        lengths.sort_unstable();
        lengths.dedup();
        let (enters, leaves) = order(tables);
        let all = (0..2 * tables.night.tracks).map(|place| stack(tables, place / 2, &lengths)).collect();
        let mut stacks = Stacks {
            model,
            events: (enters.len() + leaves.len()) as u32,
            enters,
            leaves,
            lengths: lengths.len(),
            all,
            long: vec![0; model.groups.len()],
            through: vec![vec![]; model.groups.len()],
            same: vec![vec![]; model.groups.len()],
        };
        let mut known = vec![false; model.groups.len()];
        for row in &model.rows {
            if !std::mem::replace(&mut known[row.group], true) {
                let long = tables.length(row.shape);
                stacks.long[row.group] = lengths.partition_point(|length| *length < long) as u16;
                (stacks.through[row.group], stacks.same[row.group]) = ways_of(tables, row.shape);
            }
        }
        stacks
    }

    /// The parts of each stack that a path leaves, whose blocks are those of the first units.
    pub(crate) fn parts(&self, scene: &Scene, path: &[Choice]) -> Vec<Vec<Part>> {
        let tables = self.model.tables;
        let first = scene.covered.iter().position(|covered| !covered).map_or(self.events, |u| self.enters[u]);
        let mut standing: Vec<Vec<(u32, u32, u64)>> = vec![vec![]; self.all.len()];
        for block in path {
            let Some(stack) = stack_of(block.park) else { continue };
            let leaves = self.leaves[block.shape.v];
            if leaves > first {
                standing[stack].push((leaves, block.shape.n as u32, tables.length(block.shape)));
            }
        }
        self.all.iter().zip(&mut standing).map(|(stack, standing)| self.parts_of(stack, standing, first)).collect()
    }

    fn parts_of(&self, stack: &Stack, standing: &mut [(u32, u32, u64)], first: u32) -> Vec<Part> {
        standing.sort_unstable();
        let mut room = self.model.tables.night.rooms[stack.track].saturating_sub(standing.iter().map(|block| block.2).sum());
        let (mut parts, mut from) = (vec![], first);
        for (leaves, n, long) in standing.iter() {
            parts.push(Part { from, to: leaves + 1 - n, room: stack.place_of(room) });
            from = leaves + 1;
            room += long;
        }
        parts.push(Part { from, to: self.events, room: stack.place_of(room) });
        parts
    }
}
