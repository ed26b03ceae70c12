//! A plan of little cost: blocks are taken away and others put in their place, by chance and guided by a case.

use super::draws::{Cooling, Draws};
use super::guide::Guide;
use super::model::{Model, NO_WAY, ONE};
use super::yard::{Stay, Yard};
use crate::nights::{Choice, Park, Shape, Tables};

const NO_BLOCK: usize = usize::MAX;

/// Of so many drawn blocks the one is ruined that weighs most above its duals.
const DRAWN: usize = 4;

/// Above so many units a search begins cool and goes on longer.
pub(crate) const MANY: usize = 100;

/// A temperature in thousandths, and by what it falls 256 times, in millionths, so that it ends at 300.
#[derive(Clone, Copy)]
pub(crate) struct Fall {
    first: i64,
    factor: i64,
}

pub(crate) const HOT: Fall = Fall { first: 60_000, factor: 979_516 };
pub(crate) const WARM: Fall = Fall { first: 30_000, factor: 982_172 };
pub(crate) const MILD: Fall = Fall { first: 10_000, factor: 986_396 };
pub(crate) const COOL: Fall = Fall { first: 8_000, factor: 987_256 };

/// A plan under change. A block's number is its first unit.
pub(crate) struct Search<'m> {
    model: &'m Model<'m>,
    guide: &'m Guide,
    /// For each shape its stay by sides A.
    stays: Vec<Stay>,
    draws: Draws,
    blocks: Vec<Option<Choice>>,
    /// For each block what it weighs above its duals.
    above: Vec<i64>,
    units: Vec<usize>,
    positions: Vec<usize>,
    free: Vec<usize>,
    yard: Yard,
    cost: i64,
    parts: i64,
    /// For each unit the least of a block's cost that falls on it, and their sum over the units without a block.
    shares: Vec<i64>,
    bare: i64,
    /// What the noises are divided by.
    quiet: i64,
    gone: Vec<Choice>,
    come: Vec<usize>,
}

impl Search<'_> {
    pub(crate) fn new<'m>(model: &'m Model<'m>, guide: &'m Guide, plan: &[Choice]) -> Search<'m> {
        let tables = model.tables;
        let shares = shares(model);
        let (units, positions) = (tables.units.len(), tables.positions.len());
        let mut search = Search {
            model,
            guide,
            stays: model.rows.iter().map(|row| Stay::new(tables, row.shape, Park { track: 0, sides: [0, 0] })).collect(),
            draws: Draws::new(1),
            blocks: vec![None; units],
            above: vec![0; units],
            units: vec![NO_BLOCK; units],
            positions: vec![NO_BLOCK; positions],
            free: (0..positions).collect(),
            yard: Yard::new(tables),
            cost: 0,
            parts: 0,
            bare: shares.iter().sum(),
            shares,
            quiet: if units > MANY { 2 } else { 1 },
            gone: vec![],
            come: vec![],
        };
        plan.iter().for_each(|choice| search.put(*choice));
        search
    }

    fn tables(&self) -> &Tables {
        self.model.tables
    }

    fn group(&self, shape: Shape) -> usize {
        self.model.rows_at(shape.u, shape.v)[shape.n - 1].group
    }

    // What a block weighs above its duals.
    fn above(&self, choice: Choice) -> i64 {
        let Shape { u, v, n } = choice.shape;
        let place = self.model.starts[u * self.positions.len() + v] + n - 1;
        let option = match choice.park {
            None => self.guide.unparked,
            Some(park) => 1000 * self.tables().ways(choice.shape, park).unwrap_or(0) as i64 + self.guide.part(self.model.rows[place].group, choice),
        };
        self.guide.reduced[place] + option
    }

    fn weigh(&mut self, choice: Choice, sign: i64) {
        self.cost += sign * 1000 * self.tables().cost(choice).unwrap_or(0) as i64;
        self.parts += sign * self.guide.part(self.group(choice.shape), choice);
        let Shape { u, n, .. } = choice.shape;
        self.bare -= sign * self.shares[u..u + n].iter().sum::<i64>();
    }

    fn put(&mut self, choice: Choice) {
        let Shape { u, v, n } = choice.shape;
        self.units[u..u + n].fill(u);
        self.positions[v..v + n].fill(u);
        self.free.retain(|free| !(v..v + n).contains(free));
        if let Some(park) = choice.park {
            let stay = Stay::new(self.model.tables, choice.shape, park);
            self.yard.come(park.track, stay);
        }
        self.blocks[u] = Some(choice);
        self.above[u] = self.above(choice);
        self.weigh(choice, 1);
    }

    // Takes a block away, where there is one with this number.
    fn take(&mut self, u: usize) -> Option<Choice> {
        let choice = self.blocks.get_mut(u)?.take()?;
        let Shape { v, n, .. } = choice.shape;
        self.units[u..u + n].fill(NO_BLOCK);
        self.positions[v..v + n].fill(NO_BLOCK);
        self.free.extend(v..v + n);
        if let Some(park) = choice.park {
            self.yard.go(park.track, u);
        }
        self.weigh(choice, -1);
        Some(choice)
    }

    fn ruin(&mut self, u: usize) {
        if let Some(choice) = self.take(u) {
            self.gone.push(choice);
        }
    }

    fn ruin_track(&mut self, track: usize) {
        let all: Vec<usize> = self.yard.tracks[track].iter().map(|stay| stay.u).collect();
        all.into_iter().for_each(|u| self.ruin(u));
    }

    // Takes away all blocks of a shape's units and positions.
    fn ruin_shape(&mut self, shape: Shape) {
        for k in 0..shape.n {
            self.ruin(self.units[shape.u + k]);
            self.ruin(self.positions[shape.v + k]);
        }
    }

    fn some_unit(&mut self) -> usize {
        let many = self.units.len();
        self.draws.below(many)
    }

    // The first block from a unit drawn at random on for which something holds.
    fn some_block(&mut self, holds: impl Fn(&Tables, Choice) -> bool) -> Option<Choice> {
        let (from, many) = (self.some_unit(), self.units.len());
        let all = (0..many).filter_map(|k| self.blocks[(from + k) % many]);
        all.into_iter().find(|choice| holds(self.tables(), *choice))
    }

    fn some_split(&mut self) -> Option<Choice> {
        self.some_block(|tables, choice| tables.ends(choice.shape) > 0)
    }

    // The dearest of some split or coupled blocks.
    fn dear_split(&mut self) -> Option<Choice> {
        let drawn: Vec<Choice> = (0..DRAWN).filter_map(|_| self.some_split()).collect();
        drawn.into_iter().max_by_key(|choice| self.above[choice.shape.u])
    }

    // The unit of the dearest of some blocks, or without these any unit.
    fn dear_unit(&mut self) -> usize {
        let drawn: Vec<usize> = (0..DRAWN).map(|_| self.some_unit()).collect();
        let above = |unit: &usize| self.above.get(self.units[*unit]).copied().unwrap_or(i64::MIN);
        drawn.into_iter().max_by_key(above).unwrap_or(0)
    }

    fn ruin_tracks(&mut self) {
        let many = self.yard.tracks.len();
        for _ in 0..1 + self.draws.below(2) {
            if many > 0 {
                let track = self.draws.below(many);
                self.ruin_track(track);
            }
        }
    }

    // Some longer shape through a split or coupled block, and one or two of the tracks of the blocks there.
    fn ruin_split(&mut self) {
        let Some(Shape { u, n, .. }) = self.dear_split().map(|choice| choice.shape) else { return };
        let model = self.model;
        let units = model.tables.units.as_slice();
        let (train, many) = (units[u].train, self.positions.len());
        let first = u - units[u].place;
        let longer: Vec<Shape> = (first..=u)
            .flat_map(|from| (0..many).flat_map(move |v| model.rows_at(from, v)))
            .map(|row| row.shape)
            .filter(|shape| shape.n > n && units[shape.u].train == train && (shape.u..shape.u + shape.n).contains(&u))
            .filter(|shape| (1..shape.n).any(|k| self.positions[shape.v + k] != self.positions[shape.v]))
            .collect();
        if longer.is_empty() {
            return;
        }
        let shape = longer[self.draws.below(longer.len())];
        let before = self.gone.len();
        self.ruin_shape(shape);
        let tracks: Vec<usize> = self.gone[before..].iter().filter_map(|choice| choice.park).map(|park| park.track).collect();
        for _ in 0..1 + self.draws.below(2) {
            if !tracks.is_empty() {
                let track = tracks[self.draws.below(tracks.len())];
                self.ruin_track(track);
            }
        }
    }

    // An unparked block with what stands in its way on some track.
    fn ruin_way(&mut self) {
        let unparked = if self.draws.below(4) > 0 { self.some_block(|_, choice| choice.park.is_none()) } else { None };
        let Some(block) = unparked.or_else(|| self.some_block(|_, _| true)) else { return };
        let guide = self.guide;
        let spots = &guide.spots[self.group(block.shape)];
        self.ruin(block.shape.u);
        if spots.is_empty() {
            return;
        }
        let spot = spots[self.draws.below(spots.len())];
        let stay = Stay::new(self.model.tables, block.shape, spot.park);
        if !self.yard.goes_through(spot.park.track, &stay) {
            self.yard.in_the_way(spot.park.track, &stay).into_iter().for_each(|u| self.ruin(u));
        }
    }

    fn ruin_more(&mut self) {
        for _ in 0..1 + self.draws.below(4) {
            let unit = self.dear_unit();
            match self.draws.below(4) {
                0 => {
                    if let Some(choice) = self.some_block(|_, choice| choice.park.is_none()) {
                        self.ruin(choice.shape.u);
                    }
                }
                1 => self.ruin(self.units[unit]),
                2 => {
                    let units = &self.model.tables.units;
                    let train = (0..units.len()).filter(|u| units[*u].train == units[unit].train);
                    train.for_each(|u| self.ruin(self.units[u]));
                }
                _ => {
                    let place = (self.draws.draw() << 15 | self.draws.draw()) as usize % self.model.rows.len();
                    self.ruin_shape(self.model.rows[place].shape);
                }
            }
        }
    }

    fn ruin_some(&mut self) {
        match self.draws.below(24) {
            0..6 => self.ruin_tracks(),
            6..10 => {}
            10..20 => self.ruin_split(),
            _ => self.ruin_way(),
        }
        self.ruin_more();
    }

    // The choice at a unit that is free of least reduced weight with some noise.
    fn best_at(&mut self, u: usize, noise: i64) -> Option<Choice> {
        let mut least: Option<(i64, Choice)> = None;
        let guide = self.guide;
        let units = &self.model.tables.units;
        for v in &self.free {
            let first = self.model.starts[u * self.positions.len() + v];
            for (k, row) in self.model.rows_at(u, *v).iter().enumerate() {
                let at = u + k;
                if self.units[at] != NO_BLOCK || self.positions[v + k] != NO_BLOCK || units[at].train != units[u].train {
                    break;
                }
                let base = guide.reduced[first + k];
                let more = (self.draws.draw() as i64 * noise) >> 15;
                if least.is_none_or(|least| base + guide.unparked + more < least.0) {
                    least = Some((base + guide.unparked + more, Choice { shape: row.shape, park: None }));
                }
                for spot in &guide.spots[row.group] {
                    if least.is_some_and(|least| base + spot.weight >= least.0) {
                        break;
                    }
                    let key = base + spot.weight + ((self.draws.draw() as i64 * noise) >> 15);
                    if least.is_some_and(|least| key >= least.0) {
                        continue;
                    }
                    if self.yard.goes_through(spot.park.track, &self.stays[first + k].by(spot.park.sides)) {
                        least = Some((key, Choice { shape: row.shape, park: Some(spot.park) }));
                    }
                }
            }
        }
        Some(least?.1)
    }

    // What the plan comes to, with so much of the prices.
    fn weighed(&self, kappa: i64) -> i64 {
        self.cost + kappa * self.parts / 1024
    }

    // Covers what is free, train by train in some order; whether it can, and nothing shows earlier that the plan comes to more than the most.
    fn recreate(&mut self, kappa: i64, most: i64) -> bool {
        let noise = [1, 4_000, 16_000, 60_000, 130_000, 260_000][self.draws.below(6)] / self.quiet * self.model.grain;
        let units = &self.model.tables.units;
        let mut trains: Vec<usize> = self.gone.iter().map(|choice| units[choice.shape.u].train).collect();
        trains.sort_unstable();
        trains.dedup();
        for k in (1..trains.len()).rev() {
            let other = self.draws.below(k + 1);
            trains.swap(k, other);
        }
        for train in trains {
            let first = units.partition_point(|unit| unit.train < train);
            for u in first..units.len() {
                if units[u].train != train {
                    break;
                }
                if self.units[u] != NO_BLOCK {
                    continue;
                }
                let Some(choice) = self.best_at(u, noise) else { return false };
                self.put(choice);
                self.come.push(choice.shape.u);
                if self.weighed(kappa) + self.bare > most {
                    return false;
                }
            }
        }
        true
    }

    fn undo(&mut self) {
        while let Some(u) = self.come.pop() {
            self.take(u);
        }
        while let Some(choice) = self.gone.pop() {
            self.put(choice);
        }
    }

    fn plan(&self) -> Vec<Choice> {
        self.blocks.iter().filter_map(|block| *block).collect()
    }

    // Many tries to cover the whole night anew.
    fn begin(&mut self) {
        for _ in 0..24 {
            let before = self.cost;
            (0..self.units.len()).for_each(|u| self.ruin(u));
            if !self.recreate(0, i64::MAX) || self.cost >= before {
                self.undo();
            }
            self.gone.clear();
            self.come.clear();
        }
    }

    // Takes a plan in the place of the one under change.
    fn return_to(&mut self, plan: &[Choice]) {
        (0..self.units.len()).for_each(|u| self.ruin(u));
        plan.iter().for_each(|choice| self.put(*choice));
        self.gone.clear();
    }

    // So many steps while the temperature falls once, which note a plan that is cheaper than the best one.
    fn cool(&mut self, cooling: &Cooling, fall: Fall, steps: i64, best: &mut (Vec<Choice>, i64)) {
        let mut temperature = fall.first * ONE * self.model.grain;
        for step in 0..steps {
            if step % (steps / 256).max(1) == 0 {
                temperature = temperature * fall.factor / 1_000_000;
            }
            let kappa = 512 * (steps - step) / steps;
            let before = self.weighed(kappa);
            self.ruin_some();
            let most = before + cooling.rise(temperature / ONE, &mut self.draws);
            if !self.recreate(kappa, most) || self.weighed(kappa) > most {
                self.undo();
            }
            self.gone.clear();
            self.come.clear();
            if self.cost < best.1 {
                *best = (self.plan(), self.cost);
            }
        }
    }

    /// The cheapest plan that so many steps of ruin and recreation find, as many for each fall of the temperature; each begins with the best.
    pub(crate) fn run(&mut self, steps: i64, falls: &[Fall]) -> Vec<Choice> {
        if self.units.is_empty() {
            return vec![];
        }
        self.begin();
        let cooling = Cooling::new();
        let mut best = (self.plan(), self.cost);
        for fall in falls {
            self.return_to(&best.0);
            self.cool(&cooling, *fall, steps / falls.len() as i64, &mut best);
        }
        best.0
    }
}

// For each unit the least cost of a block with it over its units, in thousandths.
fn shares(model: &Model) -> Vec<i64> {
    let mut shares = vec![i64::MAX; model.tables.units.len()];
    let least = |group: &super::model::Group| group.ways.iter().copied().min().unwrap_or(NO_WAY).min(model.unparked) / ONE;
    let least: Vec<i64> = model.groups.iter().map(least).collect();
    for row in &model.rows {
        let Shape { u, n, .. } = row.shape;
        let share = (row.ends / ONE + least[row.group]) / n as i64;
        shares[u..u + n].iter_mut().for_each(|old| *old = share.min(*old));
    }
    shares
}

/// A plan of unparked blocks of one unit, each type's units with its positions in their order.
pub(crate) fn opening(tables: &Tables) -> Vec<Choice> {
    let mut taken = vec![false; tables.positions.len()];
    let block = |(u, unit): (usize, &crate::nights::Place)| {
        let v = (0..taken.len()).find(|v| !taken[*v] && tables.positions[*v].kind == unit.kind).expect("a position");
        taken[v] = true;
        Choice { shape: Shape { u, v, n: 1 }, park: None }
    };
    tables.units.iter().enumerate().map(block).collect()
}

/// Changes the options of single blocks while that makes a plan cheaper.
pub(crate) fn polish(tables: &Tables, plan: &mut [Choice]) {
    while (0..plan.len()).any(|k| cheaper(tables, plan, k)) {}
}

// Whether one block has a cheaper option that goes through; it then has it.
fn cheaper(tables: &Tables, plan: &mut [Choice], k: usize) -> bool {
    let now = plan[k];
    let others: Vec<Choice> = plan.iter().copied().filter(|other| other.shape != now.shape).collect();
    let yard = Yard::of(tables, &others);
    for park in crate::checker::options(tables) {
        let choice = Choice { park, ..now };
        let Some(cost) = tables.cost(choice) else { continue };
        let through = park.is_none_or(|park| yard.goes_through(park.track, &Stay::new(tables, now.shape, park)));
        if through && tables.cost(now).is_none_or(|before| cost < before) {
            plan[k] = choice;
            return true;
        }
    }
    false
}
