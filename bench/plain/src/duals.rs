//! Whether cases hold at the path without blocks, and what they bound there, by plain loops over a table of routes.

use crate::assign::{least_assignment, shares};
use crate::choices::{Night, Train, read, spent};

struct Price {
    parts: Option<u64>,
    track: usize,
    train: usize,
    value: u64,
}

struct Case {
    from: u64,
    to: u64,
    multiplier: i64,
    alpha: Vec<i64>,
    beta: Vec<i64>,
    prices: Vec<Price>,
}

// For each track and side, what it costs from each arriving train, and to each departing train.
struct Ways {
    from: Vec<Option<u64>>,
    to: Vec<Option<u64>>,
}

fn ways(night: &Night) -> Ways {
    let table = |trains: &[Train]| {
        let mut ways = Vec::new();
        for train in trains {
            for track in 0..night.tracks {
                for side in 0..2 {
                    ways.push(crate::choices::way(night, train, track, side));
                }
            }
        }
        ways
    };
    Ways { from: table(&night.arrive), to: table(&night.depart) }
}

fn firsts(trains: &[Train]) -> Vec<usize> {
    let mut next = 0;
    let mut firsts = Vec::new();
    for train in trains {
        firsts.push(next);
        next += train.units.len();
    }
    firsts
}

fn length(night: &Night, arriving: &Train, p: usize, n: usize) -> u64 {
    arriving.units[p..p + n].iter().map(|kind| night.lengths[*kind]).sum()
}

// Whether no option of a shape that has room weighs less than its duals.
#[allow(clippy::too_many_arguments)]
fn shape_holds(night: &Night, ways: &Ways, case: &Case, a: usize, p: usize, n: usize, d: usize, q: usize, sum: i64) -> bool {
    let (arriving, departing) = (&night.arrive[a], &night.depart[d]);
    let cost = if p > 0 { night.split } else { 0 } + if q > 0 { night.couple } else { 0 };
    if sum > (1000 * (cost + night.unparked)) as i64 + case.multiplier {
        return false;
    }
    let long = length(night, arriving, p, n);
    let mut parts = vec![0; night.tracks];
    for price in &case.prices {
        if a <= price.train && night.arrive[price.train].minute < departing.minute {
            let count = match price.parts {
                None => long,
                Some(parts) => ((parts + 1) * long - 1) / night.rooms[price.track],
            };
            parts[price.track] += price.value * count;
        }
    }
    for track in 0..night.tracks {
        let permits = &night.permits[track];
        if long > night.rooms[track] || !permits.is_empty() && !arriving.units[p..p + n].iter().all(|kind| permits.contains(kind)) {
            continue;
        }
        for side_in in 0..2 {
            let Some(cost_in) = ways.from[(a * night.tracks + track) * 2 + side_in] else { continue };
            for side_out in 0..2 {
                let Some(cost_out) = ways.to[(d * night.tracks + track) * 2 + side_out] else { continue };
                if sum > (1000 * (cost + cost_in + cost_out) + parts[track]) as i64 {
                    return false;
                }
            }
        }
    }
    true
}

fn holds(night: &Night, ways: &Ways, case: &Case) -> bool {
    let (units, positions) = (firsts(&night.arrive), firsts(&night.depart));
    for (a, arriving) in night.arrive.iter().enumerate() {
        for p in 0..arriving.units.len() {
            for (d, departing) in night.depart.iter().enumerate() {
                for q in 0..departing.units.len() {
                    let mut sum = 0;
                    for k in 0..(arriving.units.len() - p).min(departing.units.len() - q) {
                        let kind = arriving.units[p + k];
                        if kind != departing.units[q + k] || arriving.minute + night.turns[kind] > departing.minute {
                            break;
                        }
                        sum += case.alpha[units[a] + p + k] + case.beta[positions[d] + q + k];
                        if !shape_holds(night, ways, case, a, p, k + 1, d, q, sum) {
                            return false;
                        }
                    }
                }
            }
        }
    }
    true
}

fn uncovered(values: &[i64], covered: &[bool]) -> i64 {
    values.iter().zip(covered).filter(|(_, covered)| !**covered).map(|(value, _)| value).sum()
}

fn bound(night: &Night, units: &[bool], positions: &[bool], case: &Case) -> i64 {
    let duals = uncovered(&case.alpha, units) + uncovered(&case.beta, positions);
    let paid: u64 = case.prices.iter().map(|price| price.value * price.parts.unwrap_or(night.rooms[price.track])).sum();
    let surcharge = (case.multiplier * case.from as i64).max(case.multiplier * case.to as i64);
    let sum = duals - paid as i64 - surcharge;
    sum.div_euclid(1000) + i64::from(sum.rem_euclid(1000) > 0)
}

/// Prints whether two cases of 64 prices hold at the path without blocks of a night, what they bound there, and the
/// processor times of telling so once and of a thousand bounds in nanoseconds, each the mean of so many.
pub fn measure(station: &str, timetable: &str, runs: u32) {
    let night = read(station, timetable);
    let n = night.arrive.iter().map(|train| train.units.len()).sum();
    let (_, alpha, debt) = least_assignment(&shares(&night), n);
    let case = |from, to, multiplier| Case {
        from,
        to,
        multiplier,
        alpha: alpha.iter().map(|value| *value as i64).collect(),
        beta: debt.iter().map(|value| -(*value as i64)).collect(),
        prices: (0..64)
            .map(|k| Price {
                parts: (k % 2 == 1).then_some(1 + k as u64 % 8),
                track: k % night.tracks,
                train: k % night.arrive.len(),
                value: 3,
            })
            .collect(),
    };
    let cases = [case(0, 9, 5000), case(10, 160, 0)];
    let ways = ways(&night);
    let covered = (vec![false; n], vec![false; n]);
    let start = spent();
    let mut hold = true;
    for _ in 0..runs {
        hold = std::hint::black_box(&cases).iter().all(|case| holds(&night, &ways, case));
    }
    let middle = spent();
    let mut least = 0;
    for _ in 0..1000 * runs {
        let (units, positions) = std::hint::black_box(&covered);
        least = std::hint::black_box(&cases).iter().map(|case| bound(&night, units, positions, case)).min().expect("two cases");
    }
    let end = spent();
    let runs = u128::from(runs);
    println!("duals hold {} bound {least} holding nanoseconds {} thousand bounds nanoseconds {}", u8::from(hold), (middle - start) / runs, (end - middle) / runs);
}
