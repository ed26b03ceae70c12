//! What a case with stacks comes to at a path, with the slopes of its numbers, the alphas among them.

use super::evaluate::{Point, Scene, Span};
use super::filling::{Piece, Table};
use super::model::{ONE, Row};
use super::stacks::{NO_ROOM, Part, Stacks, stack_of};
use crate::nights::Choice;

/// No choice comes to so much.
pub(crate) const FAR: i64 = i64::MAX / 4;

/// The numbers of a case with stacks while they are searched for, each 1024 to one.
#[derive(Clone)]
pub(crate) struct Numbers {
    pub(crate) alpha: Vec<i64>,
    pub(crate) point: Point,
}

/// A choice at the path that goes through, with what it costs.
#[derive(Clone, Copy)]
pub(crate) struct Next {
    pub(crate) row: Row,
    pub(crate) choice: Choice,
    pub(crate) cost: i64,
}

/// A path as stacks see it.
pub(crate) struct Place<'s, 'm> {
    pub(crate) stacks: &'s Stacks<'m>,
    pub(crate) scene: Scene<'m>,
    pub(crate) parts: Vec<Vec<Part>>,
    /// The choices there, which all begin at the first uncovered unit.
    pub(crate) nexts: Vec<Next>,
}

/// What is asked of an evaluation: the sum at the path, or the least bound among its choices.
#[derive(Clone, Copy, PartialEq, Eq)]
pub(crate) enum Asked {
    Sum,
    Least,
}

/// What an evaluation finds, kept so that no memory is asked for again.
pub(crate) struct Gains {
    /// For each group and track what its prices take.
    prices: Vec<i64>,
    /// The least of the options of each group that have to hold, with its track, and of its ways by stacks.
    held: Vec<(i64, Option<usize>)>,
    stacked: Vec<i64>,
    /// For each row what its units and positions are worth beyond its ends.
    worth: Vec<i64>,
    /// For each unit by how much its train's values have to fall from there on.
    pub(crate) fall: Vec<i64>,
    pick: Vec<usize>,
    tables: Vec<Table>,
    pub(crate) gains: Vec<i64>,
    first: Vec<i64>,
    pub(crate) slope_alpha: Vec<i64>,
    pub(crate) slope_beta: Vec<i64>,
    pub(crate) slope_price: Vec<i64>,
    pub(crate) slope_multiplier: i64,
    /// How many shapes, prices and ways were looked at, and what else took as long.
    pub(crate) spent: u64,
}

// The lightest option: a way through a track, which come from the lightest on, or being unparked. Prices take nothing less than nothing.
fn lightest(ways: &[(usize, i64)], prices: &[i64], unparked: i64) -> (i64, Option<usize>) {
    let mut least = (unparked, None);
    for (track, way) in ways {
        if *way > least.0 {
            break;
        }
        least = least.min((way + prices[*track], Some(*track)));
    }
    least
}

// The lightest way by a stack.
fn lightest_by_stack(ways: &[(usize, i64)], prices: &[i64]) -> i64 {
    let mut least = FAR;
    for (stack, way) in ways {
        if *way >= least {
            break;
        }
        least = least.min(way + prices[stack / 2]);
    }
    least
}

impl Gains {
    pub(crate) fn new(stacks: &Stacks) -> Gains {
        let model = stacks.model;
        Gains {
            prices: vec![0; model.groups.len() * model.tables.night.tracks],
            held: vec![(0, None); model.groups.len()],
            stacked: vec![0; model.groups.len()],
            worth: vec![],
            fall: vec![0; model.tables.units.len() + 1],
            pick: vec![usize::MAX; model.tables.units.len()],
            tables: (0..stacks.all.len()).map(|_| Table::default()).collect(),
            gains: vec![0; stacks.all.len()],
            first: vec![0; stacks.all.len()],
            slope_alpha: vec![0; model.tables.units.len()],
            slope_beta: vec![0; model.tables.positions.len()],
            slope_price: vec![0; model.slots.len()],
            slope_multiplier: 0,
            spent: 0,
        }
    }

    /// How much work there was so far: about as many steps of tables as it takes as long as.
    pub(crate) fn work(&self) -> u64 {
        self.spent + self.tables.iter().map(|table| table.steps).sum::<u64>()
    }

    fn weigh(&mut self, stacks: &Stacks, point: &Point) {
        let (model, tracks) = (stacks.model, stacks.model.tables.night.tracks);
        for (place, group) in model.groups.iter().enumerate() {
            let prices = &mut self.prices[place * tracks..(place + 1) * tracks];
            self.spent += group.counts.len() as u64;
            group.counts.iter().for_each(|(_, track, _)| prices[*track] = 0);
            for (slot, track, count) in &group.counts {
                prices[*track] += point.prices[*slot] * count;
            }
            self.held[place] = lightest(&stacks.through[place], prices, model.unparked + point.multiplier);
            self.stacked[place] = lightest_by_stack(&stacks.same[place], prices);
        }
    }

    fn value(&mut self, scene: &Scene, numbers: &Numbers) {
        self.worth.clear();
        for row in &scene.rows {
            let shape = row.shape;
            let values = numbers.alpha[shape.u..shape.u + shape.n].iter().chain(&numbers.point.beta[shape.v..shape.v + shape.n]);
            self.worth.push(values.sum::<i64>() - row.ends);
        }
    }

    fn is_inside(scene: &Scene, u: usize) -> bool {
        let units = &scene.model.tables.units;
        u < units.len() && units[u].place > 0 && !scene.covered[u]
    }

    fn behind(&self, scene: &Scene, u: usize) -> i64 {
        if Self::is_inside(scene, u) { self.fall[u] } else { 0 }
    }

    // By how much the values of each train are above what has to hold, at least.
    fn fall(&mut self, scene: &Scene) {
        for u in (0..scene.covered.len()).rev().filter(|u| !scene.covered[*u]) {
            let (mut least, mut pick) = (self.behind(scene, u + 1), usize::MAX);
            for place in scene.starts[u]..scene.starts[u + 1] {
                let row = &scene.rows[place];
                let weight = self.held[row.group].0 - self.worth[place] + self.behind(scene, u + row.shape.n);
                if weight < least {
                    (least, pick) = (weight, place);
                }
            }
            (self.fall[u], self.pick[u]) = (least, pick);
        }
    }

    // The part of a stack in which an event lies.
    fn part_at(parts: &[Part], at: u32) -> Option<Part> {
        parts.iter().copied().find(|part| part.from <= at && at < part.to)
    }

    fn gather(&mut self, place: &Place) {
        let (stacks, scene) = (place.stacks, &place.scene);
        let tracks = stacks.model.tables.night.tracks;
        self.tables.iter_mut().for_each(|table| table.pieces.clear());
        self.spent += scene.rows.len() as u64;
        for (at, row) in scene.rows.iter().enumerate() {
            if self.worth[at] <= self.stacked[row.group] {
                continue;
            }
            let (enters, leaves, long) = (stacks.enters[row.shape.u], stacks.leaves[row.shape.v], stacks.long[row.group]);
            let lighter = stacks.same[row.group].partition_point(|(_, way)| *way < self.worth[at]);
            self.spent += lighter as u64;
            for (stack, way) in &stacks.same[row.group][..lighter] {
                let gain = self.worth[at] - way - self.prices[row.group * tracks + stack / 2];
                let Some(part) = Self::part_at(&place.parts[*stack], enters) else { continue };
                if gain > 0 && leaves < part.to && stacks.all[*stack].less(part.room, long, stacks.lengths) != NO_ROOM {
                    self.tables[*stack].pieces.push(Piece { enters, leaves, n: row.shape.n as u32, long, gain, row: at });
                }
            }
        }
        for (k, stack) in stacks.all.iter().enumerate() {
            let table = &mut self.tables[k];
            (self.gains[k], self.first[k]) = (0, 0);
            if table.pieces.is_empty() {
                continue;
            }
            table.prepare(stack, stacks.lengths);
            for (number, part) in place.parts[k].iter().enumerate() {
                let greatest = table.greatest(stack, *part);
                self.gains[k] += greatest;
                if number == 0 {
                    self.first[k] = greatest;
                }
            }
        }
    }

    // The parts of its stack that a choice's block leaves of the first one: inside it and behind it.
    fn left_by(stacks: &Stacks, parts: &[Part], next: &Next, stack: usize) -> [Part; 2] {
        let (first, shape) = (parts[0], next.row.shape);
        let (enters, leaves, n) = (stacks.enters[shape.u], stacks.leaves[shape.v], shape.n as u32);
        let room = stacks.all[stack].less(first.room, stacks.long[next.row.group], stacks.lengths);
        [Part { from: enters + n, to: leaves + 1 - n, room }, Part { from: leaves + 1, ..first }]
    }

    // What the sum of a case grows by with a choice; its place among the rows is found by its shape.
    fn step(&mut self, place: &Place, numbers: &Numbers, next: &Next) -> i64 {
        let (stacks, scene, shape) = (place.stacks, &place.scene, next.row.shape);
        let tracks = stacks.model.tables.night.tracks;
        let values = numbers.alpha[shape.u..shape.u + shape.n].iter().chain(&numbers.point.beta[shape.v..shape.v + shape.n]);
        let mut step = next.cost - values.sum::<i64>() - self.fall[shape.u] + self.behind(scene, shape.u + shape.n);
        step += next.choice.park.map_or(numbers.point.multiplier, |park| self.prices[next.row.group * tracks + park.track]);
        let Some(stack) = stack_of(next.choice.park).filter(|stack| self.first[*stack] > 0) else { return step };
        let left = Self::left_by(stacks, &place.parts[stack], next, stack);
        let less: i64 = left.into_iter().map(|part| self.tables[stack].greatest(&stacks.all[stack], part)).sum();
        step + self.first[stack] - less
    }

    /// The sum of a case at a path, 1024 to one.
    pub(crate) fn sum(&mut self, place: &Place, span: Span, numbers: &Numbers) -> i64 {
        let (scene, point) = (&place.scene, &numbers.point);
        self.weigh(place.stacks, point);
        self.value(scene, numbers);
        self.fall(scene);
        self.gather(place);
        let mut sum = scene.paid + point.multiplier * scene.unparked - (point.multiplier * span.from).max(point.multiplier * span.to);
        sum += point.prices.iter().zip(&scene.counts).map(|(price, count)| price * count).sum::<i64>();
        sum += scene.free.iter().map(|v| point.beta[*v]).sum::<i64>();
        for u in (0..scene.covered.len()).filter(|u| !scene.covered[*u]) {
            sum += numbers.alpha[u];
            if u == 0 || scene.model.tables.units[u].place == 0 || scene.covered[u - 1] {
                sum += self.fall[u];
            }
        }
        sum - self.gains.iter().sum::<i64>()
    }

    /// The sums of a case with each choice, behind an evaluation of the sum; FAR where the case isn't open there.
    pub(crate) fn steps(&mut self, place: &Place, span: Span, numbers: &Numbers, sum: i64) -> Vec<i64> {
        let open = |next: &Next| place.scene.unparked + i64::from(next.choice.park.is_none()) <= span.to;
        place.nexts.iter().map(|next| if open(next) { sum + self.step(place, numbers, next) } else { FAR }).collect()
    }

    fn choose(&mut self, place: &Place, at: usize, track: Option<usize>) {
        let row = place.scene.rows[at];
        self.choose_row(place, &row, track);
    }

    fn choose_row(&mut self, place: &Place, row: &Row, track: Option<usize>) {
        let (model, shape) = (place.stacks.model, row.shape);
        self.slope_alpha[shape.u..shape.u + shape.n].iter_mut().for_each(|slope| *slope -= 1);
        self.slope_beta[shape.v..shape.v + shape.n].iter_mut().for_each(|slope| *slope -= 1);
        let Some(track) = track else {
            self.slope_multiplier += 1;
            return;
        };
        for (slot, on, count) in &model.groups[row.group].counts {
            if *on == track {
                self.slope_price[*slot] += count;
            }
        }
    }

    fn choose_fallen(&mut self, place: &Place, mut u: usize) {
        let units = &place.stacks.model.tables.units;
        let train = units[u].train;
        while u < units.len() && units[u].train == train && !place.scene.covered[u] {
            let at = self.pick[u];
            if at == usize::MAX {
                u += 1;
                continue;
            }
            let track = self.held[place.scene.rows[at].group].1;
            self.choose(place, at, track);
            u += place.scene.rows[at].shape.n;
        }
    }

    fn choose_filling(&mut self, place: &Place, stack: usize, part: Part) {
        let mut rows = vec![];
        self.tables[stack].chosen(&place.stacks.all[stack], part, &mut rows);
        for row in rows {
            self.choose(place, row, Some(stack / 2));
        }
    }

    // The slopes behind an evaluation, those of the sum with a choice where there is one.
    fn slopes(&mut self, place: &Place, span: Span, numbers: &Numbers, next: Option<&Next>) {
        let scene = &place.scene;
        self.slope_alpha.fill(1);
        self.slope_beta.fill(1);
        self.slope_price.copy_from_slice(&scene.counts);
        self.slope_multiplier = scene.unparked - if numbers.point.multiplier >= 0 { span.to } else { span.from };
        let taken = next.map(|next| next.row.shape.u);
        for u in (0..scene.covered.len()).filter(|u| !scene.covered[*u]) {
            let is_first = u == 0 || scene.model.tables.units[u].place == 0 || scene.covered[u - 1];
            if is_first && taken != Some(u) {
                self.choose_fallen(place, u);
            }
        }
        let at = next.and_then(|next| stack_of(next.choice.park));
        if let Some(next) = next {
            self.choose_row(place, &next.row, next.choice.park.map(|park| park.track));
            let behind = next.row.shape.u + next.row.shape.n;
            if Self::is_inside(scene, behind) {
                self.choose_fallen(place, behind);
            }
            if let Some(stack) = at {
                for part in Self::left_by(place.stacks, &place.parts[stack], next, stack) {
                    self.choose_filling(place, stack, part);
                }
            }
        }
        for stack in 0..place.parts.len() {
            for (number, part) in place.parts[stack].iter().enumerate() {
                if number > 0 || at != Some(stack) {
                    self.choose_filling(place, stack, *part);
                }
            }
        }
    }

    /// What is asked of a case at a path, with its slopes.
    pub(crate) fn evaluate(&mut self, place: &Place, span: Span, numbers: &Numbers, asked: Asked) -> i64 {
        let sum = self.sum(place, span, numbers);
        if asked == Asked::Sum {
            self.slopes(place, span, numbers, None);
            return sum;
        }
        let steps = self.steps(place, span, numbers, sum);
        let least = (0..steps.len()).min_by_key(|k| steps[*k]).filter(|k| steps[*k] < FAR);
        self.slopes(place, span, numbers, least.map(|k| &place.nexts[k]));
        least.map_or(FAR / ONE, |k| steps[k])
    }

    /// Lowers alphas so that all that has to hold does.
    pub(crate) fn lower(&self, scene: &Scene, alpha: &mut [i64]) {
        for u in (0..alpha.len()).filter(|u| !scene.covered[*u]) {
            alpha[u] += self.fall[u] - self.behind(scene, u + 1);
        }
    }
}
