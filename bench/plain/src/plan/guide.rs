//! What a case says of the choices, for a search for plans that it guides.

use super::model::{Model, NO_WAY, ONE};
use crate::checker::Case;
use crate::nights::{Choice, Park};

/// A way to park the shapes of a group, and what it weighs but for their ends.
#[derive(Clone, Copy)]
pub(crate) struct Spot {
    pub(crate) weight: i64,
    pub(crate) park: Park,
}

/// The reduced weights of all shapes but for their options, and the options of each group, the lightest first.
pub(crate) struct Guide {
    pub(crate) reduced: Vec<i64>,
    pub(crate) spots: Vec<Vec<Spot>>,
    /// For each group and track, the part of the prices.
    parts: Vec<i64>,
    pub(crate) unparked: i64,
    tracks: usize,
}

impl Guide {
    pub(crate) fn new(model: &Model, case: &Case) -> Guide {
        let tracks = model.tables.night.tracks;
        let mut parts = vec![0; model.groups.len() * tracks];
        let value = |place: usize| {
            let slot = model.slots[place];
            let same = |price: &&crate::checker::Price| (price.parts, price.track, price.train) == (slot.parts, slot.track, slot.train);
            case.prices.iter().find(same).map_or(0, |price| price.value as i64)
        };
        let values: Vec<i64> = (0..model.slots.len()).map(value).collect();
        for (place, group) in model.groups.iter().enumerate() {
            for (slot, track, count) in &group.counts {
                parts[place * tracks + track] += values[*slot] * count;
            }
        }
        let reduced = model.rows.iter().map(|row| {
            let (shape, units, positions) = (row.shape, &case.alpha, &case.beta);
            let duals = units[shape.u..shape.u + shape.n].iter().sum::<i64>() + positions[shape.v..shape.v + shape.n].iter().sum::<i64>();
            row.ends / ONE - duals
        });
        let mut guide = Guide { reduced: reduced.collect(), spots: vec![], parts, unparked: model.unparked / ONE + case.multiplier, tracks };
        let mut firsts = vec![None; model.groups.len()];
        model.rows.iter().rev().for_each(|row| firsts[row.group] = Some(row.shape));
        guide.spots = (0..model.groups.len()).map(|group| guide.spots_of(model, group, firsts[group])).collect();
        guide
    }

    fn spots_of(&self, model: &Model, group: usize, shape: Option<crate::nights::Shape>) -> Vec<Spot> {
        let mut spots = vec![];
        let Some(shape) = shape else { return spots };
        for track in (0..self.tracks).filter(|track| model.groups[group].ways[*track] < NO_WAY) {
            for side in 0..4 {
                let park = Park { track, sides: [side / 2, side % 2] };
                let Some(cost) = model.tables.ways(shape, park) else { continue };
                let cost = 1000 * cost as i64;
                spots.push(Spot { weight: cost + self.parts[group * self.tracks + track], park });
            }
        }
        spots.sort_by_key(|spot| spot.weight);
        spots
    }

    /// The part of the prices in the weight of a choice.
    pub(crate) fn part(&self, group: usize, choice: Choice) -> i64 {
        choice.park.map_or(0, |park| self.parts[group * self.tracks + park.track])
    }
}
