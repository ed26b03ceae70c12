//! Cases with stacks: those of the path without blocks, and how paths are rated by them.

use super::cases::goal_for;
use super::climb::{Way, climb, holding};
use super::evaluate::{Point, Scene, Span};
use super::gains::{Asked, Gains, Next, Numbers, Place};
use super::model::{Model, ONE, Slot, moments};
use super::prices::{EVERY, MOST, useful_parts};
use super::stacks::Stacks;
use super::tree::{Aim, Fixed, Rating, entries};
use crate::checker::Path;
use crate::nights::{Choice, Tables};
use std::rc::Rc;

// How often a case is evaluated in one climb at the path without blocks, and how often it climbs.
const LONG: usize = 3_000;
const CLIMBS: usize = 3;

// About how much work one climb at the path without blocks takes at most, in steps of tables, all those there with the same prices, and all those at nodes.
const WORK: u64 = 2_000_000_000;
const WORK_IN_ALL: u64 = 3_000_000_000;
const WORK_AT_NODES: u64 = 4_000_000_000;

// How many prices there are beside stacks at most, since a matrix of a climb has as many rows and columns.
const WIDE: usize = 600;

fn place<'s, 'm>(stacks: &'s Stacks<'m>, path: &Path, next: usize) -> Place<'s, 'm> {
    let scene = Scene::new(stacks.model, path);
    let parts = stacks.parts(&scene, &path.blocks);
    let found = entries(stacks.model, path, &scene, next).into_iter();
    let nexts = found.map(|(entry, choice)| Next { row: entry.row, choice, cost: entry.cost }).collect();
    Place { stacks, scene, parts, nexts }
}

fn numbers_of(case: &Fixed) -> Numbers {
    Numbers { alpha: case.alpha.iter().map(|alpha| alpha * ONE).collect(), point: case.point.clone() }
}

fn fixed(span: Span, numbers: Numbers) -> Rc<Fixed> {
    Rc::new(Fixed { span, point: numbers.point, alpha: numbers.alpha.iter().map(|alpha| alpha / ONE).collect() })
}

/// Paths rated by cases with stacks.
pub(crate) struct ByStacks<'s, 'm> {
    stacks: &'s Stacks<'m>,
    gains: Gains,
}

impl ByStacks<'_, '_> {
    pub(crate) fn new<'s, 'm>(stacks: &'s Stacks<'m>) -> ByStacks<'s, 'm> {
        ByStacks { stacks, gains: Gains::new(stacks) }
    }
}

impl<'s, 'm> Rating for ByStacks<'s, 'm> {
    type Place = Place<'s, 'm>;

    fn place(&mut self, path: &Path, next: usize) -> Self::Place {
        place(self.stacks, path, next)
    }

    fn choices(&self, place: &Self::Place) -> Vec<Choice> {
        place.nexts.iter().map(|next| next.choice).collect()
    }

    fn sums(&mut self, place: &Self::Place, cases: &[Rc<Fixed>], _: &[i64]) -> Vec<i64> {
        cases.iter().map(|case| self.gains.sum(place, case.span, &numbers_of(case)) / ONE).collect()
    }

    fn steps(&mut self, place: &Self::Place, case: &Fixed, _: i64) -> Vec<i64> {
        let numbers = numbers_of(case);
        let sum = self.gains.sum(place, case.span, &numbers);
        self.gains.steps(place, case.span, &numbers, sum).into_iter().map(|step| step / ONE).collect()
    }

    fn lifted(&mut self, place: &Self::Place, case: &Fixed, aim: Aim) -> (Rc<Fixed>, i64) {
        let grain = self.stacks.model.grain;
        let goal = 1000 * (aim.level + 4 * grain).min(aim.cost - 1) + 1 + 3000 * grain;
        let most = if aim.depth < 2 { 240 } else { 60 };
        let work = WORK_AT_NODES.saturating_sub(self.gains.work());
        let way = Way { asked: Asked::Least, lengths: true, multiplier: aim.many, step: 2_000 * grain, most, work, goal: goal * ONE };
        let (numbers, sum) = climb(place, case.span, way, &numbers_of(case), &mut self.gains);
        (fixed(case.span, numbers), sum / ONE)
    }
}

// Whether a track has one stack alone, and all that can stand there stands at one moment: its stack then knows its room.
fn needs_no_price(model: &Model, stacks: &Stacks, track: usize) -> bool {
    let groups = 0..model.groups.len();
    let used = |stack: usize| groups.clone().any(|group| stacks.same[group].iter().any(|way| way.0 == stack));
    let crossed = groups.clone().any(|group| stacks.through[group].iter().any(|way| way.0 == track));
    if crossed || used(2 * track) && used(2 * track + 1) {
        return false;
    }
    let there = model.rows.iter().filter(|row| stacks.same[row.group].iter().any(|way| way.0 / 2 == track));
    let rows: Vec<_> = there.collect();
    moments(model.tables).into_iter().any(|train| rows.iter().all(|row| Slot { parts: None, track, train }.stands(model.tables, row.shape)))
}

// The prices beside stacks: those of a model, with which no stack brings anything yet, and all others on tracks that need some, unless these are too many.
fn slots_beside(model: &Model, stacks: &Stacks) -> Vec<Slot> {
    let tables = model.tables;
    let mut lengths: Vec<u64> = model.rows.iter().map(|row| tables.length(row.shape)).collect();
    lengths.sort_unstable();
    lengths.dedup();
    let mut slots: Vec<Slot> = model.slots.clone();
    for track in (0..tables.night.tracks).filter(|track| !needs_no_price(model, stacks, *track)) {
        for train in moments(tables) {
            let kinds = std::iter::once(None).chain(useful_parts(tables, track, &lengths).into_iter().map(Some));
            slots.extend(kinds.map(|parts| Slot { parts, track, train }));
        }
    }
    let mut all: Vec<Slot> = vec![];
    slots.into_iter().for_each(|slot| if !all.contains(&slot) { all.push(slot) });
    if all.len() > WIDE { model.slots.clone() } else { all }
}

/// A case with stacks at the path without blocks, with its sum 1024 to one.
struct Found {
    span: Span,
    numbers: Numbers,
    sum: i64,
}

// The same numbers for other prices.
fn moved(numbers: &Numbers, from: &[Slot], to: &[Slot]) -> Numbers {
    let price = |slot: &Slot| from.iter().position(|known| known == slot).map_or(0, |at| numbers.point.prices[at]);
    Numbers { alpha: numbers.alpha.clone(), point: Point { prices: to.iter().map(price).collect(), ..numbers.point.clone() } }
}

fn raised(place: &Place, span: Span, start: &Numbers, goal: i64, multiplier: bool, gains: &mut Gains) -> Found {
    let grain = place.stacks.model.grain;
    let (mut numbers, mut sum) = holding(place, span, start, gains);
    for number in 0..CLIMBS {
        let step = if number == 0 { 4_000 } else { 1_000 } * grain;
        let work = WORK_IN_ALL.saturating_sub(gains.work()).min(WORK);
        let way = Way { asked: Asked::Sum, lengths: number == 0, multiplier, step, most: LONG, work, goal };
        let before = sum;
        (numbers, sum) = climb(place, span, way, &numbers, gains);
        if sum >= goal || sum < before + 100 * grain * ONE {
            break;
        }
    }
    Found { span, numbers, sum }
}

// Two cases by the number of unparked blocks near that of a plan, where they bound more than one.
fn parted(place: &Place, one: Found, unparked: i64, goal: i64, gains: &mut Gains) -> Vec<Found> {
    let close = 500 * ONE * place.stacks.model.grain;
    let (alone, mut least) = (one.sum, one.sum + close);
    let start = one.numbers.clone();
    let mut best = vec![one];
    let (mut many, mut seen) = (unparked.max(1), vec![]);
    while (1..=160).contains(&many) && !seen.contains(&many) && seen.len() < 4 && alone < goal {
        seen.push(many);
        let multiplier = place.stacks.model.unparked / 100 * 94;
        let with = |multiplier: i64| Numbers { point: Point { multiplier, ..start.point.clone() }, ..start.clone() };
        let first = raised(place, Span { from: 0, to: many - 1 }, &with(multiplier), goal, true, gains);
        if first.sum <= alone + close {
            many -= 1;
            continue;
        }
        let last = raised(place, Span { from: many, ..EVERY }, &with(-multiplier), goal, true, gains);
        if last.sum <= alone + close {
            many += 1;
        }
        if first.sum.min(last.sum) > least {
            least = first.sum.min(last.sum);
            best = vec![first, last];
        }
    }
    best
}

fn root_place<'s, 'm>(stacks: &'s Stacks<'m>, tables: &Tables) -> Place<'s, 'm> {
    let scene = Scene::new(stacks.model, &Path::new(tables));
    let parts = stacks.parts(&scene, &[]);
    Place { stacks, scene, parts, nexts: vec![] }
}

fn raised_all(model: &Model, found: Vec<Found>, unparked: i64, goal: i64) -> Vec<Found> {
    let stacks = Stacks::new(model);
    let (place, mut gains) = (root_place(&stacks, model.tables), Gains::new(&stacks));
    let many = found.len() > 1;
    let mut raised: Vec<Found> = found.into_iter().map(|case| raised(&place, case.span, &case.numbers, goal, many, &mut gains)).collect();
    if !many && let Some(one) = raised.pop() {
        return parted(&place, one, unparked, goal, &mut gains);
    }
    raised
}

// The 64 prices that are worth most in some case.
fn best_slots(model: &Model, found: &[Found]) -> Vec<Slot> {
    let worth = |at: &usize| found.iter().map(|case| case.numbers.point.prices[*at]).max().unwrap_or(0) * model.slots[*at].most(model.tables);
    let mut places: Vec<usize> = (0..model.slots.len()).filter(|at| worth(at) > 0).collect();
    places.sort_by_key(|at| (std::cmp::Reverse(worth(at)), *at));
    places.truncate(MOST);
    places.into_iter().map(|at| model.slots[at]).collect()
}

/// The prices beside stacks, and the cases with stacks of the path without blocks, from those with prices alone, with their sums.
pub(crate) fn cases_with_stacks(model: &Model, cases: &[Rc<Fixed>], unparked: i64, cost: i64) -> (Vec<Slot>, Vec<Rc<Fixed>>, Vec<i64>) {
    let (tables, goal) = (model.tables, goal_for(cost));
    let slots = slots_beside(model, &Stacks::new(model));
    let start = |case: &Rc<Fixed>| Found { span: case.span, numbers: moved(&numbers_of(case), &model.slots, &slots), sum: 0 };
    let found = cases.iter().map(start).collect();
    let wide = Model::new(tables, slots.clone());
    let found = raised_all(&wide, found, unparked, goal);
    let kept = best_slots(&wide, &found);
    let narrow = Model::new(tables, kept.clone());
    let found = found.into_iter().map(|case| Found { numbers: moved(&case.numbers, &slots, &kept), ..case }).collect();
    let found = if kept.len() < slots.len() || cases.len() == 1 { raised_all(&narrow, found, unparked, goal) } else { found };
    let stacks = Stacks::new(&narrow);
    let (place, mut gains) = (root_place(&stacks, tables), Gains::new(&stacks));
    let fixed = |case: &Found| {
        let (numbers, sum) = holding(&place, case.span, &case.numbers, &mut gains);
        (fixed(case.span, numbers), sum / ONE)
    };
    let (cases, sums) = found.iter().map(fixed).unzip();
    (kept, cases, sums)
}
