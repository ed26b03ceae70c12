//! The shapes of a night in groups that weigh alike in every case with the same prices.

use crate::nights::{Shape, Tables};
use std::collections::HashMap;

/// Numbers count so many to one while they are searched for.
pub(crate) const ONE: i64 = 1024;

/// Stands for a way that isn't there.
pub(crate) const NO_WAY: i64 = 1 << 56;

/// A price without its value.
#[derive(Clone, Copy, PartialEq, Eq, Debug)]
pub(crate) struct Slot {
    pub(crate) parts: Option<u64>,
    pub(crate) track: usize,
    pub(crate) train: usize,
}

impl Slot {
    /// What the blocks that stand at its moment count together at most.
    pub(crate) fn most(&self, tables: &Tables) -> i64 {
        self.parts.unwrap_or(tables.night.rooms[self.track]) as i64
    }

    /// What a block of this length counts.
    pub(crate) fn count(&self, tables: &Tables, long: u64) -> i64 {
        (match self.parts {
            None => long,
            Some(parts) => ((parts + 1) * long - 1) / tables.night.rooms[self.track],
        }) as i64
    }

    /// Whether a block of this shape on its track stands at its moment.
    pub(crate) fn stands(&self, tables: &Tables, shape: Shape) -> bool {
        tables.units[shape.u].train <= self.train && tables.night.arrive[self.train].minute < tables.departing(shape).minute
    }
}

/// A shape with its group and what its ends cost.
#[derive(Clone, Copy)]
pub(crate) struct Row {
    pub(crate) shape: Shape,
    pub(crate) group: usize,
    pub(crate) ends: i64,
}

/// What the shapes of a group have in common: their least ways for each track, and what they count for each price.
pub(crate) struct Group {
    pub(crate) ways: Vec<i64>,
    /// Those that are there, each with its track, from the lightest on.
    pub(crate) by_weight: Vec<(i64, usize)>,
    pub(crate) counts: Vec<(usize, usize, i64)>,
}

/// All shapes of a night, by units, positions and lengths, in groups for a list of prices.
pub(crate) struct Model<'t> {
    pub(crate) tables: &'t Tables,
    pub(crate) slots: Vec<Slot>,
    pub(crate) rows: Vec<Row>,
    pub(crate) groups: Vec<Group>,
    /// For each unit and position, where their shapes begin among the rows.
    pub(crate) starts: Vec<usize>,
    pub(crate) unparked: i64,
    pub(crate) grain: i64,
}

/// What the steps, levels and temperatures of the search count in, so that they fit nights of any costs: a tenth of the middle one of the
/// costs of ways, splits and couplings that aren't 0, at least 1.
fn grain(tables: &Tables) -> i64 {
    let night = &tables.night;
    let mut costs: Vec<u64> = night.routes.values().copied().chain([night.split, night.couple]).filter(|cost| *cost > 0).collect();
    costs.sort_unstable();
    costs.get(costs.len() / 2).map_or(1, |middle| (middle / 10).max(1) as i64)
}

type Likeness = (Option<usize>, Option<usize>, Option<usize>, u64, usize, usize, Vec<usize>);

// What shapes of one group have in common.
fn likeness(tables: &Tables, moments: &[usize], permitted: bool, shape: Shape) -> Likeness {
    let (arriving, departing) = (tables.arriving(shape), tables.departing(shape));
    let early = moments.partition_point(|train| *train < tables.units[shape.u].train);
    let late = moments.partition_point(|train| tables.night.arrive[*train].minute < departing.minute);
    let mut kinds: Vec<usize> = vec![];
    if permitted {
        kinds = tables.units[shape.u..shape.u + shape.n].iter().map(|unit| unit.kind).collect();
        kinds.sort_unstable();
        kinds.dedup();
    }
    (arriving.platform, arriving.track, departing.platform, tables.length(shape), early, late, kinds)
}

fn group(tables: &Tables, slots: &[Slot], shape: Shape) -> Group {
    let long = tables.length(shape);
    let way = |track| tables.least_ways(shape, long, track).map_or(NO_WAY, |cost| 1000 * ONE * cost as i64);
    let ways: Vec<i64> = (0..tables.night.tracks).map(way).collect();
    let counts = slots.iter().enumerate().filter(|(_, slot)| ways[slot.track] < NO_WAY && slot.stands(tables, shape));
    let counts = counts.map(|(place, slot)| (place, slot.track, slot.count(tables, long))).filter(|count| count.2 > 0).collect();
    let mut by_weight: Vec<_> = ways.iter().copied().zip(0..).filter(|(way, _)| *way < NO_WAY).collect();
    by_weight.sort_unstable();
    Group { ways, by_weight, counts }
}

// The shapes that begin at a unit and a position.
fn shapes_of(tables: &Tables, u: usize, v: usize) -> Vec<Shape> {
    let (mut shapes, mut n) = (vec![], 0);
    let inside = |from: usize, at: usize, all: &[crate::nights::Place]| at < all.len() && all[at].train == all[from].train;
    while inside(u, u + n, &tables.units) && inside(v, v + n, &tables.positions) && tables.is_pair(u + n, v + n) {
        n += 1;
        shapes.push(Shape { u, v, n });
    }
    shapes
}

impl Model<'_> {
    pub(crate) fn new(tables: &Tables, slots: Vec<Slot>) -> Model<'_> {
        let mut moments: Vec<usize> = slots.iter().map(|slot| slot.train).collect();
        moments.sort_unstable();
        moments.dedup();
        let permitted = tables.night.permits.iter().any(|permits| !permits.is_empty());
        let (mut groups, mut rows, mut starts, mut known) = (vec![], vec![], vec![], HashMap::new());
        for place in 0..tables.units.len() * tables.positions.len() {
            starts.push(rows.len());
            for shape in shapes_of(tables, place / tables.positions.len(), place % tables.positions.len()) {
                let at = *known.entry(likeness(tables, &moments, permitted, shape)).or_insert_with(|| {
                    groups.push(group(tables, &slots, shape));
                    groups.len() - 1
                });
                rows.push(Row { shape, group: at, ends: 1000 * ONE * tables.ends(shape) as i64 });
            }
        }
        starts.push(rows.len());
        Model { tables, slots, rows, groups, starts, unparked: 1000 * ONE * tables.night.unparked as i64, grain: grain(tables) }
    }

    /// The shapes that begin at a unit and a position, the shortest first.
    pub(crate) fn rows_at(&self, u: usize, v: usize) -> &[Row] {
        let place = u * self.tables.positions.len() + v;
        &self.rows[self.starts[place]..self.starts[place + 1]]
    }
}

/// The moments that no later one takes the place of: a departure lies behind each of them and before the next.
pub(crate) fn moments(tables: &Tables) -> Vec<usize> {
    let (arrive, depart) = (&tables.night.arrive, &tables.night.depart);
    let parts = |train: &usize| {
        let next = arrive.get(train + 1).map_or(u32::MAX, |next| next.minute);
        depart.iter().any(|other| arrive[*train].minute < other.minute && other.minute <= next)
    };
    (0..arrive.len()).filter(parts).collect()
}
