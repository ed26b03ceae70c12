//! Better numbers of a case by Shor's r-algorithm, in whole numbers.

use super::evaluate::{Point, Scene, Span, Work};
use super::model::ONE;

pub(crate) const FINE: u32 = 24;
const UNIT: u32 = 20;
const LARGEST: i64 = 1 << 34;
// The greatest value of a price, and that of any number of a case.
pub(crate) const DEAREST: i64 = 999_999_999;
const LIMIT: i64 = 470_000_000_000;

// How far the numbers of an ascent go at most.
pub(crate) fn farthest(scene: &Scene) -> i64 {
    (DEAREST * scene.model.grain).min(LIMIT) * ONE
}

/// Where an ascent goes: which numbers it changes, how far it goes at first, and when it ends.
#[derive(Clone, Copy)]
pub(crate) struct Ascent {
    /// Whether the prices of length change too, which are coarse once they are whole.
    pub(crate) lengths: bool,
    pub(crate) multiplier: bool,
    pub(crate) step: i64,
    pub(crate) most: usize,
    pub(crate) goal: i64,
}

/// The numbers that an ascent changes, one after the other, prices of length 512 to one.
struct Numbers {
    at: Vec<i64>,
    slope: Vec<i64>,
    slots: Vec<usize>,
}

// The prices that an ascent changes.
fn slots_of(scene: &Scene, ascent: Ascent) -> Vec<usize> {
    let slots = &scene.model.slots;
    (0..slots.len()).filter(|slot| ascent.lengths || slots[*slot].parts.is_some()).collect()
}

fn scale(scene: &Scene, slot: usize) -> i64 {
    if scene.model.slots[slot].parts.is_none() { 512 } else { 1 }
}

impl Numbers {
    fn new(scene: &Scene, ascent: Ascent, point: &Point) -> Numbers {
        let slots = slots_of(scene, ascent);
        let mut at: Vec<i64> = scene.free.iter().map(|v| point.beta[*v]).collect();
        at.extend(slots.iter().map(|slot| point.prices[*slot] * scale(scene, *slot)));
        if ascent.multiplier {
            at.push(point.multiplier);
        }
        let slope = vec![0; at.len()];
        Numbers { at, slope, slots }
    }

    fn put(&self, scene: &Scene, ascent: Ascent, at: &[i64], point: &mut Point) {
        scene.free.iter().zip(at).for_each(|(v, value)| point.beta[*v] = *value);
        for (slot, value) in self.slots.iter().zip(&at[scene.free.len()..]) {
            point.prices[*slot] = (value / scale(scene, *slot)).clamp(0, DEAREST * ONE);
        }
        if ascent.multiplier {
            point.multiplier = at[at.len() - 1];
        }
    }

    // Slopes 512 to one; a price below 0 counts as 0 and is to rise.
    fn slopes(&mut self, scene: &Scene, ascent: Ascent, work: &Work) {
        let betas = scene.free.len();
        scene.free.iter().zip(&mut self.slope).for_each(|(v, slope)| *slope = 512 * work.slope_beta[*v]);
        for (place, slot) in self.slots.iter().enumerate() {
            let falls = self.at[betas + place] < 0;
            self.slope[betas + place] = if falls { 1536 } else { work.slope_price[*slot] * (512 / scale(scene, *slot)) };
        }
        if ascent.multiplier {
            self.slope[betas + self.slots.len()] = 512 * work.slope_multiplier;
        }
    }
}

/// The whole root of a number that isn't negative.
fn root(number: i64) -> i64 {
    let mut root = 0;
    for bit in (0..31).rev() {
        let more = root + (1 << bit);
        if more * more <= number {
            root = more;
        }
    }
    root
}

// The vector of length 1, at 2^20 to one, in the same direction; whether there is one.
fn unit(vector: &[i64], into: &mut [i64]) -> bool {
    let largest = vector.iter().map(|value| value.saturating_abs()).max().unwrap_or(0);
    let shift = (64 - largest.leading_zeros()).saturating_sub(26);
    let square: i64 = vector.iter().map(|value| (value >> shift) * (value >> shift)).sum();
    let length = root(square);
    if length == 0 {
        return false;
    }
    into.iter_mut().zip(vector).for_each(|(into, value)| *into = ((value >> shift) << UNIT) / length);
    true
}

/// The matrix in which an ascent measures lengths, 2^24 to one, with the vectors that it is used with.
pub(crate) struct Metric {
    size: usize,
    matrix: Vec<i64>,
    pub(crate) gathered: Vec<i64>,
    along: Vec<i64>,
    across: Vec<i64>,
    /// Where the next step goes, 2^24 to one.
    pub(crate) direction: Vec<i64>,
}

impl Metric {
    pub(crate) fn new(size: usize) -> Metric {
        let mut matrix = vec![0; size * size];
        (0..size).for_each(|k| matrix[k * size + k] = 1 << FINE);
        let none = || vec![0; size];
        Metric { size, matrix, gathered: none(), along: none(), across: none(), direction: none() }
    }

    fn gather(&mut self, slope: &[i64]) {
        self.gathered.fill(0);
        for (row, slope) in self.matrix.chunks_exact(self.size).zip(slope) {
            if *slope != 0 {
                self.gathered.iter_mut().zip(row).for_each(|(sum, value)| *sum += value * slope);
            }
        }
    }

    // The first direction, from the first slopes.
    pub(crate) fn begin(&mut self, slope: &[i64]) -> bool {
        self.gather(slope);
        if !unit(&self.gathered, &mut self.along) {
            return false;
        }
        let size = self.size;
        self.direction.iter_mut().zip(self.matrix.chunks_exact(size)).for_each(|(to, row)| *to = dot(row, &self.along));
        true
    }

    // Shrinks the metric along the change of the slopes to a third, and turns to the new slopes.
    pub(crate) fn dilate(&mut self, slope: &[i64], before: &mut Vec<i64>) -> bool {
        self.gather(slope);
        let change: Vec<i64> = self.gathered.iter().zip(before.iter()).map(|(now, then)| now - then).collect();
        if !unit(&change, &mut self.across) {
            return unit(&self.gathered, &mut self.along);
        }
        let parts = self.gathered.iter().zip(&self.across).map(|(value, across)| i128::from(*value) * i128::from(*across));
        let along = (parts.sum::<i128>() >> UNIT) as i64;
        let kept = |(sum, across): (&i64, &i64)| sum - ((2 * i128::from(along) * i128::from(*across) / 3) >> UNIT) as i64;
        *before = self.gathered.iter().zip(&self.across).map(kept).collect();
        if !unit(before, &mut self.along) {
            return false;
        }
        for (row, to) in self.matrix.chunks_exact_mut(self.size).zip(&mut self.direction) {
            let less = 2 * dot(row, &self.across) / 3;
            for (value, across) in row.iter_mut().zip(&self.across) {
                *value -= (less * across + (1 << (UNIT - 1))) >> UNIT;
            }
            *to = dot(row, &self.along);
        }
        true
    }

    pub(crate) fn double(&mut self) {
        self.matrix.iter_mut().for_each(|value| *value = (*value * 2).clamp(-LARGEST, LARGEST));
    }
}

// The product with a vector at 2^20 to one.
fn dot(row: &[i64], vector: &[i64]) -> i64 {
    row.iter().zip(vector).map(|(value, other)| (value * other) >> 8).sum::<i64>() >> (UNIT - 8)
}

pub(crate) fn moves_on(slope: &[i64], direction: &[i64]) -> bool {
    slope.iter().zip(direction).map(|(slope, to)| slope * (to >> 8)).sum::<i64>() > 0
}

/// An ascent under way.
struct Climb<'s, 'm> {
    scene: &'s Scene<'m>,
    span: Span,
    ascent: Ascent,
    point: Point,
    numbers: Numbers,
    metric: Metric,
    /// How far a step goes, 1024 to one.
    step: i64,
    best: i64,
    best_at: Vec<i64>,
    /// How many evaluations there were, and how many dilations since one was the best.
    spent: usize,
    idle: usize,
}

impl Climb<'_, '_> {
    fn is_over(&self) -> bool {
        self.best >= self.ascent.goal || self.spent >= self.ascent.most
    }

    // One step in the direction of the metric, and the sum and the slopes there.
    fn step_on(&mut self, work: &mut Work) {
        let farthest = farthest(self.scene);
        for (at, to) in self.numbers.at.iter_mut().zip(&self.metric.direction) {
            *at = (*at + ((i128::from(self.step) * i128::from(*to)) >> FINE) as i64).clamp(-farthest, farthest);
        }
        self.numbers.put(self.scene, self.ascent, &self.numbers.at, &mut self.point);
        let sum = work.evaluate(self.scene, self.span, &self.point);
        self.numbers.slopes(self.scene, self.ascent, work);
        self.spent += 1;
        if sum > self.best {
            (self.best, self.idle) = (sum, 0);
            self.best_at.copy_from_slice(&self.numbers.at);
        }
    }

    // Steps while the sum rises along the direction, longer ones from the third on.
    fn walk(&mut self, work: &mut Work) {
        self.idle += 1;
        let mut steps = 0;
        while self.spent < self.ascent.most {
            self.step_on(work);
            steps += 1;
            if self.best >= self.ascent.goal || !moves_on(&self.numbers.slope, &self.metric.direction) {
                break;
            }
            if steps >= 3 {
                self.step = (self.step / 5 * 6).min(self.scene.model.grain << 30);
            }
        }
        if steps == 1 {
            self.step = self.step / 20 * 19 + 1;
        }
    }

    // Walks and dilates by turns; each dilation leaves less room, so that the metric is doubled now and then.
    fn climb(&mut self, work: &mut Work) {
        let size = self.numbers.at.len();
        let (mut before, mut dilations) = (self.metric.gathered.clone(), 0);
        while !self.is_over() && self.idle < 60 + size {
            self.walk(work);
            if self.best >= self.ascent.goal || !self.metric.dilate(&self.numbers.slope, &mut before) {
                break;
            }
            dilations += 1;
            if dilations * 100 >= 63 * size {
                (dilations, self.step) = (0, self.step / 2 + 1);
                self.metric.double();
                before.iter_mut().for_each(|value| *value *= 2);
            }
        }
    }
}

/// The best point that an ascent from a point finds, and the sum there; the point itself where none is better.
pub(crate) fn ascend(scene: &Scene, span: Span, ascent: Ascent, start: &Point, work: &mut Work) -> (Point, i64) {
    let best = work.evaluate(scene, span, start);
    let mut numbers = Numbers::new(scene, ascent, start);
    numbers.slopes(scene, ascent, work);
    let (best_at, metric) = (numbers.at.clone(), Metric::new(numbers.at.len()));
    let (point, step) = (start.clone(), ascent.step * ONE);
    let mut climb = Climb { scene, span, ascent, point, numbers, metric, step, best, best_at, spent: 1, idle: 0 };
    if !climb.best_at.is_empty() && !climb.is_over() && climb.metric.begin(&climb.numbers.slope) {
        climb.climb(work);
        climb.numbers.put(scene, ascent, &climb.best_at, &mut climb.point);
    }
    (climb.point, climb.best)
}
