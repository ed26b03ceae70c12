//! Nights of five families unlike the generator's, by chance from a number.

use crate::nights::Draws;
use std::fmt::Write;

/// Of what kind a night is.
#[derive(Clone, Copy, PartialEq, Eq)]
pub(crate) enum Family {
    /// Trains come and go at all hours, and units stay 40 minutes to 9 hours.
    Day,
    /// The same, and a quarter of the units stands on tracks when the day begins.
    Stand,
    /// One peak of arrivals and one of departures, with costs a thousand times as high.
    Money,
    /// Two peaks, permits on half of the tracks, and costs a hundred times as high.
    Mixed,
    /// Few long one-sided tracks, and trains of four.
    Yard,
}

use Family::{Day, Mixed, Money, Stand, Yard};

const KINDS: [(&str, u64, u64); 3] = [("K", 250, 10), ("L", 500, 20), ("M", 750, 30)];
const LAST: u64 = 2879;

struct Track {
    long: u64,
    sides: &'static str,
}

/// A train by its minute and the kinds of its units.
struct Train {
    minute: u64,
    kinds: Vec<usize>,
}

impl Family {
    pub(crate) fn named(name: &str) -> Option<Family> {
        let all = [("day", Day), ("stand", Stand), ("money", Money), ("mixed", Mixed), ("yard", Yard)];
        all.iter().find(|(other, _)| *other == name).map(|(_, family)| *family)
    }

    fn longest_train(self) -> usize {
        if self == Yard { 4 } else { 2 }
    }

    fn scale(self) -> u64 {
        match self {
            Money => 1000,
            Mixed => 100,
            _ => 1,
        }
    }

    fn tracks(self, units: usize, draws: &mut Draws) -> Vec<Track> {
        let many = match self {
            Yard => units / 8,
            Money | Mixed => units * 3 / 10,
            Day | Stand => units * 3 / 14,
        };
        let one = |draws: &mut Draws| match self {
            Yard => Track { long: 250 * draws.between(8, 14), sides: "A" },
            Money | Mixed => Track { long: 250 * draws.between(4, 8), sides: if draws.below(3) < 2 { "A" } else { "AB" } },
            Day | Stand => Track { long: 250 * draws.between(4, 8), sides: if draws.below(5) < 1 { "A" } else { "AB" } },
        };
        (0..many.clamp(3, 60)).map(|_| one(draws)).collect()
    }

    // When trains come.
    fn minutes(self, many: usize, draws: &mut Draws) -> Vec<u64> {
        let one = |k: usize, draws: &mut Draws| match self {
            Day | Stand => draws.between(60, 2000),
            Mixed if k < many / 2 => draws.between(480, 600),
            Mixed => draws.between(1150, 1380),
            Money | Yard => 1200 + 6 * k as u64,
        };
        let mut minutes: Vec<u64> = (0..many).map(|k| one(k, draws)).collect();
        minutes.sort_unstable();
        minutes
    }

    // When a unit that is there from a minute on is wanted.
    fn wanted(self, minute: u64, kind: usize, draws: &mut Draws) -> u64 {
        match self {
            Day | Stand => minute + KINDS[kind].2 + draws.between(40, 540),
            Mixed if minute < 700 => draws.between(930, 1080),
            Mixed => draws.between(1750, 1900),
            Money | Yard => 0,
        }
    }

    // The departing trains of units by their minutes and kinds, in the order in which these come.
    fn departures(self, units: &[(u64, usize)], draws: &mut Draws) -> Vec<Train> {
        let train = |(k, units): (usize, &[(u64, usize)])| {
            let last = units.iter().map(|unit| unit.0).max().unwrap_or(0);
            let minute = if matches!(self, Money | Yard) { 1740 + 6 * k as u64 } else { last.min(LAST) };
            Train { minute, kinds: units.iter().map(|unit| unit.1).collect() }
        };
        // Those that leave in one peak are mixed within a window.
        let window = if self == Money { units.len() as u64 } else { 12 };
        let place = |(k, (minute, kind)): (usize, &(u64, usize))| match self {
            Money | Yard => (100 * k as u64 + draws.below(100 * window), *kind),
            _ => (self.wanted(*minute, *kind, draws), *kind),
        };
        let mut wanted: Vec<(u64, usize)> = units.iter().enumerate().map(place).collect();
        wanted.sort_unstable();
        wanted.chunks(self.longest_train()).enumerate().map(train).collect()
    }
}

// Trains of two that stand where there is room for them; an eighth of the units is tried.
fn standing(tracks: &[Track], units: usize, draws: &mut Draws) -> Vec<(usize, Vec<usize>)> {
    let sided: Vec<usize> = (0..tracks.len()).filter(|track| tracks[*track].sides == "AB").collect();
    let mut room: Vec<u64> = tracks.iter().map(|track| track.long).collect();
    let mut standing = vec![];
    for _ in 0..if sided.is_empty() { 0 } else { units / 8 } {
        let track = sided[draws.below(sided.len() as u64) as usize];
        let kinds: Vec<usize> = (0..2).map(|_| draws.below(3) as usize).collect();
        let long: u64 = kinds.iter().map(|kind| KINDS[*kind].1).sum();
        if room[track] >= long {
            room[track] -= long;
            standing.push((track, kinds));
        }
    }
    standing
}

// Whether as many units of each kind are ready at each minute as have left by then.
fn is_matched(units: &[(u64, usize)], departures: &[Train]) -> bool {
    (0..KINDS.len()).all(|kind| {
        let mut ready: Vec<u64> = units.iter().filter(|unit| unit.1 == kind).map(|unit| unit.0 + KINDS[kind].2).collect();
        let leaving = |train: &Train| vec![train.minute; train.kinds.iter().filter(|other| **other == kind).count()];
        let mut left: Vec<u64> = departures.iter().flat_map(leaving).collect();
        ready.sort_unstable();
        left.sort_unstable();
        ready.len() == left.len() && ready.iter().zip(&left).all(|(ready, left)| ready <= left)
    })
}

struct Made {
    tracks: Vec<Track>,
    standing: Vec<(usize, Vec<usize>)>,
    arrivals: Vec<Train>,
    departures: Vec<Train>,
}

// A night by chance, where it has a matching.
fn attempt(family: Family, units: usize, draws: &mut Draws) -> Option<Made> {
    let size = family.longest_train();
    let tracks = family.tracks(units, draws);
    let minutes = family.minutes(units.div_ceil(size), draws);
    let standing = if family == Stand { standing(&tracks, units, draws) } else { vec![] };
    let left = units - 2 * standing.len();
    let kinds: Vec<usize> = (0..left).map(|_| draws.below(3) as usize).collect();
    let arrivals: Vec<Train> = kinds.chunks(size).zip(&minutes).map(|(kinds, minute)| Train { minute: *minute, kinds: kinds.to_vec() }).collect();
    let stood = standing.iter().flat_map(|(_, kinds)| kinds.iter().map(|kind| (0, *kind)));
    let come = arrivals.iter().flat_map(|train| train.kinds.iter().map(|kind| (train.minute, *kind)));
    let all: Vec<(u64, usize)> = stood.chain(come).collect();
    let departures = family.departures(&all, draws);
    is_matched(&all, &departures).then_some(Made { tracks, standing, arrivals, departures })
}

fn station(family: Family, tracks: &[Track], draws: &mut Draws) -> String {
    let mut text = String::from("station,2,F\n");
    let mut line = |line: String| writeln!(text, "{line}").expect("a string");
    KINDS.iter().for_each(|(name, long, turn)| line(format!("type,{name},{long},{turn}")));
    (1..=4).for_each(|platform| line(format!("platform,P{platform}")));
    tracks.iter().enumerate().for_each(|(k, track)| line(format!("track,T{},{},{}", k + 1, track.long, track.sides)));
    let scale = family.scale();
    for (platform, k) in (1..=4).flat_map(|platform| (0..tracks.len()).map(move |k| (platform, k))) {
        for side in tracks[k].sides.chars() {
            line(format!("route,P{platform},T{},{side},{}", k + 1, scale * draws.between(1, 20)));
        }
    }
    for k in (0..tracks.len()).step_by(2).filter(|_| family == Mixed) {
        let other = draws.below(3) as usize;
        (0..3).filter(|kind| *kind != other).for_each(|kind| line(format!("permit,T{},{}", k + 1, KINDS[kind].0)));
    }
    line(format!("cost,{},{},{}", 10 * scale, 10 * scale, 500 * scale));
    text
}

fn timetable(made: &Made, draws: &mut Draws) -> String {
    let mut text = String::from("timetable,2\n");
    let named = |kinds: &[usize]| kinds.iter().map(|kind| KINDS[*kind].0).collect::<Vec<_>>().join(",");
    for (k, (track, kinds)) in made.standing.iter().enumerate() {
        writeln!(text, "stand,s{},T{},{}", k + 1, track + 1, named(kinds)).expect("a string");
    }
    for (word, trains) in [("arrive", &made.arrivals), ("depart", &made.departures)] {
        for (k, Train { minute, kinds }) in trains.iter().enumerate() {
            let (platform, hour, minute) = (draws.between(1, 4), minute / 60, minute % 60);
            writeln!(text, "{word},{}{},{hour:02}:{minute:02},P{platform},{}", &word[..1], k + 1, named(kinds)).expect("a string");
        }
    }
    text
}

/// The texts of the station and the timetable of a night of a family made from a number, with so many units.
pub(crate) fn made(family: Family, number: u64, units: usize) -> (String, String) {
    let mut draws = Draws::new(number);
    let made = (0..1000).find_map(|_| attempt(family, units, &mut draws)).expect("a night with a matching");
    (station(family, &made.tracks, &mut draws), timetable(&made, &mut draws))
}
