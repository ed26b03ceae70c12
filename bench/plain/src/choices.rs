//! The choices for each unit of a night, by plain loops over plain tables.

use std::collections::HashMap;

pub(crate) struct Train {
    pub(crate) name: String,
    pub(crate) minute: u32,
    pub(crate) platform: Option<usize>,
    pub(crate) track: Option<usize>,
    pub(crate) units: Vec<usize>,
}

#[derive(Default)]
pub(crate) struct Night {
    pub(crate) turns: Vec<u32>,
    pub(crate) lengths: Vec<u64>,
    pub(crate) tracks: usize,
    pub(crate) track_names: Vec<String>,
    pub(crate) rooms: Vec<u64>,
    pub(crate) routes: HashMap<(usize, usize, usize), u64>,
    pub(crate) permits: Vec<Vec<usize>>,
    pub(crate) arrive: Vec<Train>,
    pub(crate) depart: Vec<Train>,
    pub(crate) split: u64,
    pub(crate) couple: u64,
    pub(crate) unparked: u64,
}

fn minute(text: &str) -> u32 {
    let (hours, minutes) = text.split_once(':').expect("a minute");
    hours.parse::<u32>().expect("hours") * 60 + minutes.parse::<u32>().expect("minutes")
}

fn place(names: &[String], name: &str) -> usize {
    names.iter().position(|other| other == name).expect("a known name")
}

pub(crate) fn read(station: &str, timetable: &str) -> Night {
    let mut night = Night::default();
    let (mut types, mut platforms, mut tracks) = (vec![], vec![], vec![]);
    for line in std::fs::read_to_string(station).expect("a station").lines() {
        let row: Vec<&str> = line.split(',').collect();
        match row[0] {
            "type" => {
                types.push(row[1].to_string());
                night.lengths.push(row[2].parse().expect("a length"));
                night.turns.push(row[3].parse().expect("a turn"));
            }
            "platform" => platforms.push(row[1].to_string()),
            "track" => {
                tracks.push(row[1].to_string());
                night.rooms.push(row[2].parse().expect("a length"));
                night.permits.push(vec![]);
            }
            "route" => {
                let way = (place(&platforms, row[1]), place(&tracks, row[2]), usize::from(row[3] == "B"));
                night.routes.insert(way, row[4].parse().expect("a cost"));
            }
            "permit" => night.permits[place(&tracks, row[1])].push(place(&types, row[2])),
            "cost" => {
                night.split = row[1].parse().expect("a cost");
                night.couple = row[2].parse().expect("a cost");
                night.unparked = row[3].parse().expect("a cost");
            }
            _ => {}
        }
    }
    night.tracks = tracks.len();
    night.track_names = tracks;
    for line in std::fs::read_to_string(timetable).expect("a timetable").lines() {
        let row: Vec<&str> = line.split(',').collect();
        let name = || row[1].to_string();
        let kinds = |from: usize| row[from..].iter().map(|name| place(&types, name)).collect();
        match row[0] {
            "stand" => night.arrive.push(Train { name: name(), minute: 0, platform: None, track: Some(place(&night.track_names, row[2])), units: kinds(3) }),
            "arrive" => night.arrive.push(Train { name: name(), minute: minute(row[2]), platform: Some(place(&platforms, row[3])), track: None, units: kinds(4) }),
            "depart" => night.depart.push(Train { name: name(), minute: minute(row[2]), platform: Some(place(&platforms, row[3])), track: None, units: kinds(4) }),
            _ => {}
        }
    }
    night.arrive.sort_by_key(|train| train.minute);
    night.depart.sort_by_key(|train| train.minute);
    night
}

pub(crate) fn way(night: &Night, train: &Train, track: usize, side: usize) -> Option<u64> {
    match train.track {
        Some(own) => (own == track && side == 1).then_some(0),
        None => night.routes.get(&(train.platform?, track, side)).copied(),
    }
}

// How many choices the unit at this place has, and the least costs of its shapes added up.
fn choices(night: &Night, arriving: &Train, p: usize) -> (u64, u64) {
    let (mut count, mut costs) = (0, 0);
    for n in 1..=8 {
        if p + n > arriving.units.len() {
            break;
        }
        for departing in &night.depart {
            for q in 0..departing.units.len() {
                if q + n > departing.units.len() {
                    break;
                }
                let fits = (0..n).all(|k| {
                    let kind = arriving.units[p + k];
                    kind == departing.units[q + k] && arriving.minute + night.turns[kind] <= departing.minute
                });
                if !fits {
                    continue;
                }
                count += 1;
                let mut least = night.unparked;
                for track in 0..night.tracks {
                    let permits = &night.permits[track];
                    if !permits.is_empty() && !arriving.units[p..p + n].iter().all(|kind| permits.contains(kind)) {
                        continue;
                    }
                    for side_in in 0..2 {
                        let Some(cost_in) = way(night, arriving, track, side_in) else { continue };
                        for side_out in 0..2 {
                            let Some(cost_out) = way(night, departing, track, side_out) else { continue };
                            count += 1;
                            least = least.min(cost_in + cost_out);
                        }
                    }
                }
                costs += least + if p > 0 { night.split } else { 0 } + if q > 0 { night.couple } else { 0 };
            }
        }
    }
    (count, costs)
}

// How long this process had a processor so far, in nanoseconds.
pub(crate) fn spent() -> u128 {
    let text = std::fs::read_to_string("/proc/self/schedstat").expect("Linux");
    text.split_whitespace().next().and_then(|word| word.parse().ok()).expect("a time")
}

/// Prints how many options the shapes of all units have, their least costs added up, and the processor time of one walk over
/// them in microseconds, the mean of so many.
pub fn measure(station: &str, timetable: &str, walks: u32) {
    let night = read(station, timetable);
    let start = spent();
    let (mut count, mut costs) = (0, 0);
    for _ in 0..walks {
        (count, costs) = (0, 0);
        for train in &night.arrive {
            for p in 0..train.units.len() {
                let more = choices(&night, train, p);
                count += more.0;
                costs += more.1;
            }
        }
    }
    let micros = (spent() - start) / 1000 / u128::from(walks);
    println!("choices {count} least {costs} microseconds {micros}");
}
