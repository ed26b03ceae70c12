//! Better numbers of a case with stacks by Shor's r-algorithm, in whole numbers: the alphas climb too.

use super::ascend::{Metric, DEAREST, farthest, moves_on};
use super::evaluate::Span;
use super::gains::{Asked, FAR, Gains, Numbers, Place};
use super::model::ONE;

// By how many thousandths of a grain a value has to rise for its climb to go on as at first. The end of one is long and brings next to nothing.
const LITTLE: i64 = 100;

/// Where a climb goes: what it is asked to raise, whether prices of length, which are coarse once they are whole, and the multiplier change too, how far it goes
/// at first, and when it ends.
#[derive(Clone, Copy)]
pub(crate) struct Way {
    pub(crate) asked: Asked,
    pub(crate) lengths: bool,
    pub(crate) multiplier: bool,
    pub(crate) step: i64,
    pub(crate) most: usize,
    pub(crate) work: u64,
    pub(crate) goal: i64,
}

/// The numbers that a climb changes: alphas of uncovered units, betas of free positions, prices, the multiplier.
struct Changed {
    units: Vec<usize>,
    slots: Vec<usize>,
    at: Vec<i64>,
    slope: Vec<i64>,
}

fn is_by_length(place: &Place, slot: usize) -> bool {
    place.stacks.model.slots[slot].parts.is_none()
}

fn scale(place: &Place, slot: usize) -> i64 {
    if is_by_length(place, slot) { 512 } else { 1 }
}

impl Changed {
    fn new(place: &Place, way: Way, numbers: &Numbers) -> Changed {
        let units: Vec<usize> = (0..place.scene.covered.len()).filter(|u| !place.scene.covered[*u]).collect();
        let changes = |slot: &usize| (way.lengths || !is_by_length(place, *slot)) && numbers.point.prices[*slot] >= 0;
        let slots: Vec<usize> = (0..place.stacks.model.slots.len()).filter(changes).collect();
        let mut at: Vec<i64> = units.iter().map(|u| numbers.alpha[*u]).collect();
        at.extend(place.scene.free.iter().map(|v| numbers.point.beta[*v]));
        at.extend(slots.iter().map(|slot| numbers.point.prices[*slot] * scale(place, *slot)));
        if way.multiplier {
            at.push(numbers.point.multiplier);
        }
        let slope = vec![0; at.len()];
        Changed { units, slots, at, slope }
    }

    fn put(&self, place: &Place, way: Way, at: &[i64], numbers: &mut Numbers) {
        self.units.iter().zip(at).for_each(|(u, value)| numbers.alpha[*u] = *value);
        let at = &at[self.units.len()..];
        place.scene.free.iter().zip(at).for_each(|(v, value)| numbers.point.beta[*v] = *value);
        let at = &at[place.scene.free.len()..];
        for (slot, value) in self.slots.iter().zip(at) {
            numbers.point.prices[*slot] = (value / scale(place, *slot)).clamp(0, DEAREST * ONE);
        }
        if way.multiplier {
            numbers.point.multiplier = at[self.slots.len()];
        }
    }

    // Slopes 512 to one; a price below 0 counts as 0 and is to rise.
    fn slopes(&mut self, place: &Place, way: Way, gains: &Gains) {
        let mut slopes: Vec<i64> = self.units.iter().map(|u| 512 * gains.slope_alpha[*u]).collect();
        slopes.extend(place.scene.free.iter().map(|v| 512 * gains.slope_beta[*v]));
        let first = slopes.len();
        for (number, slot) in self.slots.iter().enumerate() {
            let falls = self.at[first + number] < 0;
            slopes.push(if falls { 1536 } else { gains.slope_price[*slot] * (512 / scale(place, *slot)) });
        }
        if way.multiplier {
            slopes.push(512 * gains.slope_multiplier);
        }
        self.slope = slopes;
    }
}

/// A climb under way.
struct Climb<'p, 's, 'm> {
    place: &'p Place<'s, 'm>,
    span: Span,
    way: Way,
    numbers: Numbers,
    changed: Changed,
    metric: Metric,
    step: i64,
    best: i64,
    best_at: Vec<i64>,
    // The last value that rose by more than a little, and how many walks there were since.
    mark: i64,
    idle: usize,
    spent: usize,
    // How much work there is when it ends, and whether it came to that.
    last: u64,
    is_out: bool,
}

impl Climb<'_, '_, '_> {
    fn is_over(&self) -> bool {
        self.best >= self.way.goal || self.spent >= self.way.most || self.is_out
    }

    fn step_on(&mut self, gains: &mut Gains) {
        let farthest = farthest(&self.place.scene);
        for (at, to) in self.changed.at.iter_mut().zip(&self.metric.direction) {
            *at = (*at + ((i128::from(self.step) * i128::from(*to)) >> super::ascend::FINE) as i64).clamp(-farthest, farthest);
        }
        self.changed.put(self.place, self.way, &self.changed.at, &mut self.numbers);
        let value = gains.evaluate(self.place, self.span, &self.numbers, self.way.asked);
        self.changed.slopes(self.place, self.way, gains);
        self.spent += 1;
        self.is_out = gains.work() >= self.last;
        if value > self.best {
            if value > self.mark + LITTLE * self.place.stacks.model.grain * ONE {
                (self.mark, self.idle) = (value, 0);
            }
            self.best = value;
            self.best_at.copy_from_slice(&self.changed.at);
        }
    }

    fn walk(&mut self, gains: &mut Gains) {
        self.idle += 1;
        let mut steps = 0;
        while self.spent < self.way.most {
            self.step_on(gains);
            steps += 1;
            if self.is_over() || !moves_on(&self.changed.slope, &self.metric.direction) {
                break;
            }
            if steps >= 3 {
                self.step = (self.step / 5 * 6).min(self.place.stacks.model.grain << 30);
            }
        }
        if steps == 1 {
            self.step = self.step / 20 * 19 + 1;
        }
    }

    fn climb(&mut self, gains: &mut Gains) {
        let size = self.changed.at.len();
        let (mut before, mut dilations) = (self.metric.gathered.clone(), 0);
        while !self.is_over() && self.idle < 60 + size / 2 {
            self.walk(gains);
            if self.is_over() || !self.metric.dilate(&self.changed.slope, &mut before) {
                break;
            }
            gains.spent += (size * size) as u64;
            dilations += 1;
            if dilations * 100 >= 63 * size {
                (dilations, self.step) = (0, self.step / 2 + 1);
                self.metric.double();
                before.iter_mut().for_each(|value| *value *= 2);
            }
        }
    }
}

fn whole(value: i64) -> i64 {
    (value + ONE / 2).div_euclid(ONE) * ONE
}

/// The numbers made whole, with alphas that make them hold, and the sum there.
pub(crate) fn holding(place: &Place, span: Span, numbers: &Numbers, gains: &mut Gains) -> (Numbers, i64) {
    let mut numbers = numbers.clone();
    let point = &mut numbers.point;
    numbers.alpha.iter_mut().chain(&mut point.beta).chain(&mut point.prices).for_each(|value| *value = whole(*value));
    point.multiplier = whole(point.multiplier);
    gains.sum(place, span, &numbers);
    gains.lower(&place.scene, &mut numbers.alpha);
    let sum = gains.sum(place, span, &numbers);
    (numbers, sum)
}

// The best numbers that a climb from some finds, which is short where the prices of length are whole and the others have to make up for that.
fn ascended(place: &Place, span: Span, way: Way, start: &Numbers, gains: &mut Gains) -> Numbers {
    let best = gains.evaluate(place, span, start, way.asked);
    let mut changed = Changed::new(place, way, start);
    changed.slopes(place, way, gains);
    let way = if way.lengths { way } else { Way { most: way.most.min(2 * changed.at.len() + 100), ..way } };
    let (best_at, metric) = (changed.at.clone(), Metric::new(changed.at.len()));
    let (step, last) = (way.step * ONE, gains.work().saturating_add(way.work));
    let numbers = start.clone();
    let mut climb = Climb { place, span, way, numbers, changed, metric, step, best, best_at, mark: best, idle: 0, spent: 1, last, is_out: false };
    if !climb.best_at.is_empty() && climb.metric.begin(&climb.changed.slope) {
        climb.climb(gains);
    }
    let at = std::mem::take(&mut climb.best_at);
    climb.changed.put(place, way, &at, &mut climb.numbers);
    climb.numbers
}

// Numbers near some whose prices of length are whole, and whose other numbers have climbed since.
fn settled(place: &Place, span: Span, way: Way, numbers: Numbers, gains: &mut Gains) -> Numbers {
    let coarse: Vec<usize> = (0..numbers.point.prices.len()).filter(|slot| is_by_length(place, *slot)).collect();
    if coarse.iter().all(|slot| numbers.point.prices[*slot] == whole(numbers.point.prices[*slot])) {
        return numbers;
    }
    let mut near = numbers;
    coarse.into_iter().for_each(|slot| near.point.prices[slot] = whole(near.point.prices[slot]));
    let way = Way { lengths: false, step: way.step / 4, most: way.most / 2, work: way.work / 2, ..way };
    ascended(place, span, way, &near, gains)
}

/// The best whole numbers that a climb finds, with the sum; those that it began with where none are better at what is asked.
pub(crate) fn climb(place: &Place, span: Span, way: Way, start: &Numbers, gains: &mut Gains) -> (Numbers, i64) {
    let asked = |numbers: &Numbers, sum: i64, gains: &mut Gains| match way.asked {
        Asked::Sum => sum,
        Asked::Least => gains.steps(place, span, numbers, sum).into_iter().min().unwrap_or(FAR),
    };
    let (start, sum) = holding(place, span, start, gains);
    let before = asked(&start, sum, gains);
    if before >= way.goal {
        return (start, sum);
    }
    let high = ascended(place, span, way, &start, gains);
    let best = settled(place, span, way, high, gains);
    let (found, found_sum) = holding(place, span, &best, gains);
    if asked(&found, found_sum, gains) > before { (found, found_sum) } else { (start, sum) }
}
