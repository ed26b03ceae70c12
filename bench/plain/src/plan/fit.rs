//! Whole numbers of a case, and the alphas that make them hold at a path.

use super::ascend::{Ascent, ascend};
use super::evaluate::{Point, Scene, Span, Work};
use super::model::{Model, ONE};
use super::tree::Fixed;
use crate::checker::{Case, Price};

fn whole(value: i64) -> i64 {
    (value + ONE / 2).div_euclid(ONE)
}

/// The case of a point whose numbers are made whole, with its sum: each alpha is what the least cover of its train grows by.
pub(crate) fn alphas(scene: &Scene, span: Span, point: &Point, work: &mut Work) -> (Fixed, i64) {
    let mut point = point.clone();
    point.beta.iter_mut().chain(&mut point.prices).for_each(|value| *value = whole(*value) * ONE);
    point.multiplier = whole(point.multiplier) * ONE;
    let sum = work.evaluate_alone(scene, span, &point) / ONE;
    let units = &scene.model.tables.units;
    let alpha = (0..units.len()).map(|u| {
        let behind = u + 1 < units.len() && units[u + 1].place > 0 && !scene.covered[u + 1];
        if scene.covered[u] { 0 } else { (work.rest[u] - if behind { work.rest[u + 1] } else { 0 }) / ONE }
    });
    let alpha = alpha.collect();
    let mut beta = vec![0; point.beta.len()];
    scene.free.iter().for_each(|v| beta[*v] = point.beta[*v]);
    (Fixed { span, point: Point { beta, ..point }, alpha }, sum)
}

/// The case as a certificate has it.
pub(crate) fn case_of(model: &Model, fixed: &Fixed) -> Case {
    let prices = model.slots.iter().zip(&fixed.point.prices).filter(|(_, value)| **value > 0);
    let prices = prices.map(|(slot, value)| Price { parts: slot.parts, track: slot.track, train: slot.train, value: (value / ONE) as u64 });
    Case {
        to: fixed.span.to as u64,
        multiplier: fixed.point.multiplier / ONE,
        alpha: fixed.alpha.clone(),
        beta: fixed.point.beta.iter().map(|value| value / ONE).collect(),
        prices: prices.collect(),
    }
}

/// The better of a point and those with whole prices near it, whose other numbers then ascend; its prices of length are whole.
pub(crate) fn whole_prices(scene: &Scene, span: Span, ascent: Ascent, tenths: &[i64], point: &Point, work: &mut Work) -> (Point, i64) {
    let mut best: Option<(Point, i64)> = None;
    for tenth in tenths {
        let mut near = point.clone();
        for (price, slot) in near.prices.iter_mut().zip(&scene.model.slots) {
            if slot.parts.is_none() && *price > 0 {
                *price = (*price + ONE * tenth / 10).div_euclid(ONE) * ONE;
            }
        }
        let ascent = Ascent { lengths: false, ..ascent };
        let (near, sum) = ascend(scene, span, ascent, &near, work);
        if best.as_ref().is_none_or(|best| sum > best.1) {
            best = Some((near, sum));
        }
        if sum >= ascent.goal {
            break;
        }
    }
    best.unwrap_or_else(|| (point.clone(), i64::MIN))
}
