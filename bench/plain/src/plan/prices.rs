//! Which prices the cases of a night have, and the best case without a multiplier at the path without blocks.

use super::ascend::{Ascent, ascend};
use super::evaluate::{Point, Scene, Span, Work};
use super::fit::whole_prices;
use super::model::{Model, Slot, moments};
use crate::checker::Path;
use crate::nights::Tables;

pub(crate) const EVERY: Span = Span { from: 0, to: 160 };
pub(crate) const MOST: usize = 64;
pub(crate) const TENTHS: [i64; 1] = [5];

// The most evaluations of an ascent at the path without blocks.
const LONGEST: usize = 6_000;

/// An ascent at the path without blocks.
pub(crate) fn first(grain: i64) -> Ascent {
    Ascent { lengths: true, multiplier: false, step: 20_000 * grain, most: LONGEST, goal: i64::MAX }
}

/// An ascent of the betas alone.
pub(crate) fn betas_alone(units: usize, grain: i64) -> Ascent {
    Ascent { lengths: false, multiplier: false, step: 300 * grain, most: 60 + 2 * units, goal: i64::MAX }
}

// The best point with these prices at the path without blocks.
fn ascended(model: &Model, point: &Point, most: usize) -> Point {
    let scene = Scene::new(model, &Path::new(model.tables));
    ascend(&scene, EVERY, Ascent { most, ..first(model.grain) }, point, &mut Work::new(model)).0
}

/// The prices that are worth a place, the best case at the path without blocks with these, and its sum.
pub(crate) fn root_point(tables: &Tables) -> (Vec<Slot>, Point, i64) {
    let (slots, point) = length_prices(tables);
    let model = Model::new(tables, slots);
    let point = ascended(&model, &point, LONGEST);
    let (slots, point) = with_parts(&model, &point);
    let model = Model::new(tables, slots);
    let point = ascended(&model, &point, LONGEST);
    let (slots, point) = best_slots(&model, &point);
    let model = Model::new(tables, slots);
    let point = ascended(&model, &point, LONGEST);
    let scene = Scene::new(&model, &Path::new(tables));
    let (point, sum) = whole_prices(&scene, EVERY, betas_alone(tables.units.len(), model.grain), &TENTHS, &point, &mut Work::new(&model));
    (model.slots, point, sum)
}

// The prices of length to begin with: all, or where these are too many those that ten rounds find, fewer where they find the same again.
fn length_prices(tables: &Tables) -> (Vec<Slot>, Point) {
    let all = moments(tables).into_iter().flat_map(|train| (0..tables.night.tracks).map(move |track| Slot { parts: None, track, train }));
    let full = Model::new(tables, all.collect());
    let none = Point::new(&full);
    if full.slots.len() <= MOST {
        return (full.slots, none);
    }
    let mut places = fullest(&full, &none, &[]);
    let mut point = none;
    for _ in 0..10 {
        let before = places.clone();
        let model = Model::new(tables, places.iter().map(|place| full.slots[*place]).collect());
        let start = Point { prices: places.iter().map(|place| point.prices[*place]).collect(), ..point.clone() };
        let found = ascended(&model, &start, 1_500);
        point = Point { prices: vec![0; full.slots.len()], ..found.clone() };
        places.iter().zip(&found.prices).for_each(|(place, value)| point.prices[*place] = *value);
        places.retain(|place| point.prices[*place] > 0);
        let more = fullest(&full, &point, &places);
        places.extend(more);
        places.sort_unstable();
        if places == before {
            break;
        }
    }
    (places.iter().map(|place| full.slots[*place]).collect(), Point { prices: places.iter().map(|place| point.prices[*place]).collect(), ..point })
}

// For each track the moment at which the chosen shapes exceed its length most, but for those that are known.
fn fullest(full: &Model, point: &Point, known: &[usize]) -> Vec<usize> {
    let scene = Scene::new(full, &Path::new(full.tables));
    let mut work = Work::new(full);
    work.evaluate(&scene, EVERY, point);
    let at = |track: usize| {
        let places = (0..full.slots.len()).filter(move |place| full.slots[*place].track == track && !known.contains(place));
        places.max_by_key(|place| (work.slope_price[*place], std::cmp::Reverse(*place)))
    };
    let found = (0..full.tables.night.tracks).filter_map(at);
    found.filter(|place| known.is_empty() || work.slope_price[*place] > 0).collect()
}

// The numbers of parts for which some length counts more for its most than its length does.
pub(crate) fn useful_parts(tables: &Tables, track: usize, lengths: &[u64]) -> Vec<u64> {
    let room = tables.night.rooms[track];
    let lengths: Vec<u64> = lengths.iter().copied().filter(|long| *long <= room).collect();
    let count = |parts: u64, long: u64| ((parts + 1) * long - 1) / room;
    let rules = |one: u64, other: u64| lengths.iter().all(|long| count(one, *long) * other >= count(other, *long) * one);
    let useful = |parts: &u64| lengths.iter().any(|long| count(*parts, *long) * room > long * parts);
    let useful: Vec<u64> = (1..=4).filter(useful).collect();
    let ruled = |parts: u64| useful.iter().any(|other| *other != parts && rules(*other, parts) && (!rules(parts, *other) || *other < parts));
    useful.iter().copied().filter(|parts| !ruled(*parts)).collect()
}

// The prices of a model and those of parts at each of their moments, with a point that costs nothing there.
fn with_parts(model: &Model, point: &Point) -> (Vec<Slot>, Point) {
    let tables = model.tables;
    let mut lengths: Vec<u64> = model.rows.iter().map(|row| tables.length(row.shape)).collect();
    lengths.sort_unstable();
    lengths.dedup();
    let mut slots = model.slots.clone();
    let mut trains: Vec<usize> = slots.iter().map(|slot| slot.train).collect();
    trains.dedup();
    for (slot, value) in model.slots.iter().zip(&point.prices) {
        if trains.len() > 32 && *value == 0 {
            continue;
        }
        for parts in useful_parts(tables, slot.track, &lengths) {
            slots.push(Slot { parts: Some(parts), ..*slot });
        }
    }
    let mut point = point.clone();
    point.prices.resize(slots.len(), 0);
    (slots, point)
}

// The 64 prices with the greatest values for their mosts.
fn best_slots(model: &Model, point: &Point) -> (Vec<Slot>, Point) {
    let worth = |place: &usize| point.prices[*place] * model.slots[*place].most(model.tables);
    let mut places: Vec<usize> = (0..model.slots.len()).filter(|place| point.prices[*place] > 0).collect();
    places.sort_by_key(|place| (std::cmp::Reverse(worth(place)), *place));
    places.truncate(MOST);
    places.sort_unstable();
    let kept = Point { prices: places.iter().map(|place| point.prices[*place]).collect(), ..point.clone() };
    (places.iter().map(|place| model.slots[*place]).collect(), kept)
}
