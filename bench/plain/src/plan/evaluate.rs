//! What a case comes to at a path, with the slopes of its numbers.

use super::model::{Model, ONE, Row};
use crate::checker::Path;
use crate::nights::Choice;

/// The numbers of a case while they are searched for, each 1024 to one.
#[derive(Clone)]
pub(crate) struct Point {
    pub(crate) beta: Vec<i64>,
    pub(crate) prices: Vec<i64>,
    pub(crate) multiplier: i64,
}

impl Point {
    pub(crate) fn new(model: &Model) -> Point {
        Point { beta: vec![0; model.tables.positions.len()], prices: vec![0; model.slots.len()], multiplier: 0 }
    }
}

/// How many unparked blocks a case speaks of.
#[derive(Clone, Copy, Debug)]
pub(crate) struct Span {
    pub(crate) from: i64,
    pub(crate) to: i64,
}

/// A choice at the path by its shape and its track, with what it costs.
#[derive(Clone, Copy)]
pub(crate) struct Entry {
    pub(crate) row: Row,
    pub(crate) track: Option<usize>,
    pub(crate) cost: i64,
}

/// What a path leaves free, and what its own blocks come to.
#[derive(Clone)]
pub(crate) struct Scene<'m> {
    pub(crate) model: &'m Model<'m>,
    pub(crate) rows: Vec<Row>,
    /// For each unit, where its free shapes begin.
    pub(crate) starts: Vec<usize>,
    pub(crate) covered: Vec<bool>,
    pub(crate) free: Vec<usize>,
    pub(crate) paid: i64,
    pub(crate) unparked: i64,
    /// For each price, what the path's blocks count there less its most.
    pub(crate) counts: Vec<i64>,
    pub(crate) entries: Vec<Entry>,
}

impl Scene<'_> {
    pub(crate) fn new<'m>(model: &'m Model<'m>, path: &Path) -> Scene<'m> {
        let tables = model.tables;
        let (mut rows, mut starts) = (vec![], vec![]);
        for u in 0..tables.units.len() {
            starts.push(rows.len());
            let first = u * tables.positions.len();
            for row in &model.rows[model.starts[first]..model.starts[first + tables.positions.len()]] {
                let shape = row.shape;
                if !path.units[u..u + shape.n].contains(&true) && !path.positions[shape.v..shape.v + shape.n].contains(&true) {
                    rows.push(*row);
                }
            }
        }
        starts.push(rows.len());
        let free = (0..tables.positions.len()).filter(|v| !path.positions[*v]).collect();
        let counts = model.slots.iter().map(|slot| counted(model, slot, &path.blocks) - slot.most(tables)).collect();
        let paid = path.blocks.iter().map(|block| 1000 * ONE * tables.cost(*block).unwrap_or(0) as i64).sum();
        let unparked = path.blocks.iter().filter(|block| block.park.is_none()).count() as i64;
        Scene { model, rows, starts, covered: path.units.clone(), free, paid, unparked, counts, entries: vec![] }
    }

    fn is_first(&self, u: usize) -> bool {
        let units = &self.model.tables.units;
        !self.covered[u] && (units[u].place == 0 || self.covered[u - 1])
    }

    // What the rest of a train comes to behind a unit.
    fn behind(&self, rest: &[i64], u: usize) -> i64 {
        let units = &self.model.tables.units;
        if u < units.len() && units[u].place > 0 && !self.covered[u] { rest[u] } else { 0 }
    }
}

fn counted(model: &Model, slot: &super::model::Slot, blocks: &[Choice]) -> i64 {
    let tables = model.tables;
    let there = blocks.iter().filter(|block| block.park.is_some_and(|park| park.track == slot.track) && slot.stands(tables, block.shape));
    there.map(|block| slot.count(tables, tables.length(block.shape))).sum()
}

/// What an evaluation finds, kept so that no memory is asked for again.
pub(crate) struct Work {
    /// For each group and track what a parked block weighs there but for its ends.
    pub(crate) parked: Vec<i64>,
    least: Vec<(i64, Option<usize>)>,
    before: Vec<i64>,
    /// For each unit the least that covering its train from there on comes to.
    pub(crate) rest: Vec<i64>,
    pick: Vec<usize>,
    pub(crate) slope_beta: Vec<i64>,
    pub(crate) slope_price: Vec<i64>,
    pub(crate) slope_multiplier: i64,
}

// The lightest option: a way to a track, which come from the lightest on, or being unparked. Prices take nothing less than nothing.
fn lightest(ways: &[(i64, usize)], parked: &[i64], unparked: i64) -> (i64, Option<usize>) {
    let mut least = (unparked, None);
    for (way, track) in ways {
        if *way > least.0 {
            break;
        }
        least = least.min((parked[*track], Some(*track)));
    }
    least
}

impl Work {
    pub(crate) fn new(model: &Model) -> Work {
        let (units, positions) = (model.tables.units.len(), model.tables.positions.len());
        Work {
            parked: model.groups.iter().flat_map(|group| group.ways.iter().copied()).collect(),
            least: vec![(0, None); model.groups.len()],
            before: vec![0; positions + 1],
            rest: vec![0; units + 1],
            pick: vec![usize::MAX; units],
            slope_beta: vec![0; positions],
            slope_price: vec![0; model.slots.len()],
            slope_multiplier: 0,
        }
    }

    // The least that a shape of each group weighs but for its ends, and by which option.
    pub(crate) fn weigh(&mut self, model: &Model, point: &Point) {
        let tracks = model.tables.night.tracks;
        for (place, group) in model.groups.iter().enumerate() {
            let parked = &mut self.parked[place * tracks..(place + 1) * tracks];
            group.counts.iter().for_each(|(_, track, _)| parked[*track] = group.ways[*track]);
            for (slot, track, count) in &group.counts {
                parked[*track] += point.prices[*slot] * count;
            }
            self.least[place] = lightest(&group.by_weight, parked, model.unparked + point.multiplier);
        }
        for (v, beta) in point.beta.iter().enumerate() {
            self.before[v + 1] = self.before[v] + beta;
        }
    }

    pub(crate) fn betas(&self, row: &Row) -> i64 {
        self.before[row.shape.v + row.shape.n] - self.before[row.shape.v]
    }

    // The least that covering each train from each unit on comes to.
    fn cover(&mut self, scene: &Scene) {
        for u in (0..scene.covered.len()).rev() {
            if scene.covered[u] {
                continue;
            }
            let (mut least, mut pick) = (2_000_000_000 * ONE + scene.behind(&self.rest, u + 1), usize::MAX);
            for place in scene.starts[u]..scene.starts[u + 1] {
                let row = &scene.rows[place];
                let weight = row.ends + self.least[row.group].0 - self.betas(row) + scene.behind(&self.rest, u + row.shape.n);
                if weight < least {
                    (least, pick) = (weight, place);
                }
            }
            (self.rest[u], self.pick[u]) = (least, pick);
        }
    }

    // Counts a chosen shape with an option in the slopes.
    fn choose(&mut self, model: &Model, row: &Row, option: Option<usize>) {
        let shape = row.shape;
        self.slope_beta[shape.v..shape.v + shape.n].iter_mut().for_each(|slope| *slope -= 1);
        match option {
            None => self.slope_multiplier += 1,
            Some(option) => {
                for (slot, track, count) in &model.groups[row.group].counts {
                    if *track == option {
                        self.slope_price[*slot] += count;
                    }
                }
            }
        }
    }

    fn choose_from(&mut self, scene: &Scene, mut u: usize) {
        let units = &scene.model.tables.units;
        let train = units[u].train;
        while u < units.len() && units[u].train == train && !scene.covered[u] {
            let Some(row) = scene.rows.get(self.pick[u]) else {
                u += 1;
                continue;
            };
            self.choose(scene.model, row, self.least[row.group].1);
            u += row.shape.n;
        }
    }

    fn begin_slopes(&mut self, scene: &Scene, span: Span, point: &Point) {
        self.slope_beta.fill(1);
        self.slope_price.copy_from_slice(&scene.counts);
        self.slope_multiplier = scene.unparked - if point.multiplier >= 0 { span.to } else { span.from };
    }

    // The choice with which the path grows least, and what the sum grows by with it.
    fn next(&self, scene: &Scene, point: &Point) -> Option<(i64, usize)> {
        let tracks = scene.model.tables.night.tracks;
        let mut least: Option<(i64, usize)> = None;
        for (place, entry) in scene.entries.iter().enumerate() {
            let row = &entry.row;
            let option = match entry.track {
                None => point.multiplier,
                Some(track) => self.parked[row.group * tracks + track] - scene.model.groups[row.group].ways[track],
            };
            let weight = entry.cost + option - self.betas(row) + scene.behind(&self.rest, row.shape.u + row.shape.n);
            if least.is_none_or(|least| weight < least.0) {
                least = Some((weight, place));
            }
        }
        least
    }

    /// The sum of a case at a path, 1024 to one, with its slopes. Where the scene has choices, it is the least sum of a longer path.
    pub(crate) fn evaluate(&mut self, scene: &Scene, span: Span, point: &Point) -> i64 {
        self.evaluate_with(scene, span, point, !scene.entries.is_empty())
    }

    /// The sum of a case at a path, whatever choices the scene has.
    pub(crate) fn evaluate_alone(&mut self, scene: &Scene, span: Span, point: &Point) -> i64 {
        self.evaluate_with(scene, span, point, false)
    }

    fn evaluate_with(&mut self, scene: &Scene, span: Span, point: &Point, longer: bool) -> i64 {
        self.weigh(scene.model, point);
        self.cover(scene);
        self.begin_slopes(scene, span, point);
        let mut sum = scene.paid + point.multiplier * scene.unparked - (point.multiplier * span.from).max(point.multiplier * span.to);
        sum += point.prices.iter().zip(&scene.counts).map(|(price, count)| price * count).sum::<i64>();
        sum += scene.free.iter().map(|v| point.beta[*v]).sum::<i64>();
        let next = if longer { self.next(scene, point) } else { None };
        let first = next.map(|(_, place)| scene.entries[place].row.shape.u);
        for u in 0..scene.covered.len() {
            if !scene.is_first(u) {
                continue;
            }
            let Some((weight, place)) = next.filter(|_| first == Some(u)) else {
                sum += self.rest[u];
                self.choose_from(scene, u);
                continue;
            };
            let entry = &scene.entries[place];
            sum += weight;
            self.choose(scene.model, &entry.row, entry.track);
            let behind = u + entry.row.shape.n;
            if behind < scene.covered.len() && scene.model.tables.units[behind].place > 0 && !scene.covered[behind] {
                self.choose_from(scene, behind);
            }
        }
        sum
    }
}
