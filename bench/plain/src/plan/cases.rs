//! Two cases by the number of unparked blocks, where they bound more than one.

use super::ascend::{Ascent, ascend};
use super::evaluate::{Point, Scene, Span, Work};
use super::fit::whole_prices;
use super::model::ONE;
use super::prices::{EVERY, TENTHS, betas_alone, first};

/// A case of the path without blocks while it is searched for: what it speaks of, its numbers and its sum there.
#[derive(Clone)]
pub(crate) struct Found {
    pub(crate) span: Span,
    pub(crate) point: Point,
    pub(crate) sum: i64,
}

/// The sum from which on a case bounds as much as a plan costs.
pub(crate) fn goal_for(cost: i64) -> i64 {
    (1_000 * (cost - 1) + 1) * ONE
}

fn least(cases: &[Found]) -> i64 {
    cases.iter().map(|case| case.sum).min().unwrap_or(i64::MAX)
}

// A case of some numbers of unparked blocks, from the one that speaks of all, with a multiplier to begin with.
fn part(scene: &Scene, span: Span, one: &Point, multiplier: i64, goal: i64, work: &mut Work) -> Found {
    let start = Point { multiplier, ..one.clone() };
    let grain = scene.model.grain;
    let ascent = Ascent { multiplier: true, goal, ..first(grain) };
    let (point, _) = ascend(scene, span, ascent, &start, work);
    let ascent = Ascent { multiplier: true, goal, ..betas_alone(scene.covered.len(), grain) };
    let (point, sum) = whole_prices(scene, span, ascent, &TENTHS, &point, work);
    Found { span, point, sum }
}

fn two(scene: &Scene, one: &Point, many: i64, goal: i64, work: &mut Work) -> Vec<Found> {
    let multiplier = scene.model.unparked / 100 * 94;
    let first = part(scene, Span { from: 0, to: many - 1 }, one, multiplier, goal, work);
    let last = part(scene, Span { from: many, ..EVERY }, one, -multiplier, goal, work);
    vec![first, last]
}

/// The cases at the path without blocks, parted near the number of unparked blocks of a plan of this cost.
pub(crate) fn cases_at_root(scene: &Scene, one: Found, unparked: i64, cost: i64, work: &mut Work) -> Vec<Found> {
    let (goal, close) = (goal_for(cost), 500 * ONE * scene.model.grain);
    let (point, alone) = (one.point.clone(), one.sum);
    let mut best = vec![one];
    let mut seen = vec![];
    let mut many = unparked.max(1);
    while many >= 1 && many <= 160 && !seen.contains(&many) && alone < goal {
        seen.push(many);
        let cases = two(scene, &point, many, goal, work);
        let sums = (cases[0].sum, cases[1].sum);
        if least(&cases) > least(&best).max(alone + close) {
            best = cases;
        }
        if sums.0 <= alone + close {
            many -= 1;
        } else if sums.1 <= alone + close {
            many += 1;
        }
    }
    best
}
