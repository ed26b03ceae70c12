//! Shares of the cheapest blocks, and the assignment of least sum, by plain loops; and nights to try them on.

use crate::choices::{Night, Train, read, spent, way};

// The table has this where a pair doesn't match.
const ABSENT: u64 = 480_000_000_001;

pub(crate) struct Draw(pub(crate) u64);

impl Draw {
    // A number below a limit.
    fn below(&mut self, limit: u64) -> u64 {
        self.0 = self.0.wrapping_mul(6364136223846793005).wrapping_add(1442695040888963407);
        (self.0 >> 33) % limit
    }

    /// A number of twelve digits, of either sign.
    pub(crate) fn value(&mut self) -> i64 {
        self.0 = self.0.wrapping_mul(6364136223846793005).wrapping_add(1442695040888963407);
        let size = 100_000_000_000 + ((self.0 >> 16) % 900_000_000_000) as i64;
        if self.0 >> 63 == 0 { size } else { -size }
    }
}

/// A station of three types, ten platforms and twenty tracks, with seven in ten of all routes.
pub fn mixed_station() -> String {
    let mut draw = Draw(7);
    let mut text = String::from("station,1,mixed\ntype,K,200,10\ntype,X,250,10\ntype,Y,300,10\n");
    for platform in 0..10 {
        text.push_str(&format!("platform,p{platform}\n"));
    }
    for track in 0..20 {
        text.push_str(&format!("track,t{track},1500,AB\n"));
    }
    for platform in 0..10 {
        for track in 0..20 {
            for side in ["A", "B"] {
                if draw.below(10) < 7 {
                    text.push_str(&format!("route,p{platform},t{track},{side},{}\n", 1 + draw.below(60)));
                }
            }
        }
    }
    text.push_str("cost,50,40,120\n");
    text
}

/// Trains of four units, of which the departing ones have the arriving units in another order, a day later.
pub fn mixed_timetable(units: usize) -> String {
    let mut draw = Draw(units as u64);
    let mut kinds: Vec<u64> = (0..units).map(|_| draw.below(3)).collect();
    let mut text = String::from("timetable,1\n");
    for (word, hour) in [("arrive", 2), ("depart", 26)] {
        for (train, units) in kinds.chunks(4).enumerate() {
            text.push_str(&format!("{word},{}{train},{:02}:{:02},p{}", &word[..1], hour + draw.below(20), draw.below(60), draw.below(10)));
            for kind in units {
                text.push_str([",K", ",X", ",Y"][*kind as usize]);
            }
            text.push('\n');
        }
        for last in (1..kinds.len()).rev() {
            kinds.swap(last, draw.below(last as u64 + 1) as usize);
        }
    }
    text
}

fn cheapest(night: &Night, arriving: &Train, departing: &Train, p: usize, n: usize, q: usize) -> u64 {
    let mut least = night.unparked;
    for track in 0..night.tracks {
        let permits = &night.permits[track];
        if !permits.is_empty() && !arriving.units[p..p + n].iter().all(|kind| permits.contains(kind)) {
            continue;
        }
        let side = |train: &Train| (0..2).filter_map(|side| way(night, train, track, side)).min();
        if let (Some(cost_in), Some(cost_out)) = (side(arriving), side(departing)) {
            least = least.min(cost_in + cost_out);
        }
    }
    least + if p > 0 { night.split } else { 0 } + if q > 0 { night.couple } else { 0 }
}

fn share(night: &Night, arriving: &Train, departing: &Train, p: usize, q: usize) -> Option<u64> {
    let fits = |p: usize, q: usize| {
        let kind = arriving.units[p];
        kind == departing.units[q] && arriving.minute + night.turns[kind] <= departing.minute
    };
    if !fits(p, q) {
        return None;
    }
    let before = (1..=p.min(q)).take_while(|k| fits(p - k, q - k)).count();
    let room = (arriving.units.len() - p).min(departing.units.len() - q);
    let after = (0..room).take_while(|k| fits(p + k, q + k)).count();
    (0..=before)
        .flat_map(|back| (back + 1..=back + after).map(move |n| (back, n)))
        .map(|(back, n)| 1000 * cheapest(night, arriving, departing, p - back, n, q - back) / n as u64)
        .min()
}

pub(crate) fn shares(night: &Night) -> Vec<Option<u64>> {
    let mut table = Vec::new();
    for arriving in &night.arrive {
        for p in 0..arriving.units.len() {
            for departing in &night.depart {
                for q in 0..departing.units.len() {
                    table.push(share(night, arriving, departing, p, q));
                }
            }
        }
    }
    table
}

// The least sum of shares, with what each row gives and each column owes: each row grows a tree of least slack up to a free
// column.
pub(crate) fn least_assignment(shares: &[Option<u64>], n: usize) -> (u64, Vec<u64>, Vec<u64>) {
    let table: Vec<u64> = shares.iter().map(|share| share.unwrap_or(ABSENT)).collect();
    let (mut alpha, mut debt) = (vec![0u64; n], vec![0u64; n]);
    let (mut place, mut owner) = (vec![n; n], vec![usize::MAX; n]);
    for root in 0..n {
        let mut distance: Vec<u64> = (0..n).map(|c| table[root * n + c] + debt[c]).collect();
        let mut way = vec![root; n];
        let mut joined = vec![false; n];
        let mut tree = vec![];
        let end = loop {
            let mut c = n;
            let mut least = u64::MAX;
            for d in 0..n {
                if !joined[d] && distance[d] < least {
                    c = d;
                    least = distance[d];
                }
            }
            let r = owner[c];
            if r == usize::MAX {
                break c;
            }
            joined[c] = true;
            tree.push(c);
            for d in 0..n {
                let far = least + (table[r * n + d] + debt[d]) - alpha[r];
                if far < distance[d] {
                    distance[d] = far;
                    way[d] = r;
                }
            }
        };
        alpha[root] += distance[end];
        for c in tree {
            alpha[owner[c]] += distance[end] - distance[c];
            debt[c] += distance[end] - distance[c];
        }
        let mut c = end;
        loop {
            let r = way[c];
            owner[c] = r;
            std::mem::swap(&mut place[r], &mut c);
            if r == root {
                break;
            }
        }
    }
    let total = (0..n).map(|r| table[r * n + place[r]]).sum();
    (total, alpha, debt)
}

/// Prints what the least assignment of a night adds up to, in thousandths of a cost unit, and the processor times of the
/// table of shares and of the assignment, each the mean of so many, in nanoseconds.
pub fn measure(station: &str, timetable: &str, runs: u32) {
    let night = read(station, timetable);
    let n = night.arrive.iter().map(|train| train.units.len()).sum();
    let start = spent();
    let mut table = vec![];
    for _ in 0..runs {
        table = shares(&night);
    }
    let middle = spent();
    let mut total = 0;
    for _ in 0..runs {
        total = least_assignment(&table, n).0;
    }
    let end = spent();
    let runs = u128::from(runs);
    println!("assign total {total} shares nanoseconds {} nanoseconds {}", (middle - start) / runs, (end - middle) / runs);
}
