//! The nights that are made from a number, and what a plan or a certificate has to know of a night.

use crate::choices::{Night, Train, way};
use std::fmt::Write;

/// Numbers that look random.
pub(crate) struct Draws(u64);

impl Draws {
    pub(crate) fn new(start: u64) -> Draws {
        Draws(start)
    }

    /// A number below one of at most 2^15.
    pub(crate) fn below(&mut self, n: u64) -> u64 {
        self.0 = (1_103_515_245 * self.0 + 12_345) % (1 << 31);
        self.0 / 65_536 % n
    }

    /// A number from one to another.
    pub(crate) fn between(&mut self, least: u64, most: u64) -> u64 {
        least + self.below(most - least + 1)
    }
}

/// The texts of the station and the timetable of a night made from a number, with so many units.
pub(crate) fn made(number: u64, units: usize) -> (String, String) {
    let mut draws = Draws::new(number);
    let mut station = String::from("station,2,G\ntype,K,250,10\ntype,L,500,20\ntype,M,750,30\nplatform,P1\nplatform,P2\n");
    let tracks = 2 + units / 4;
    let sides = |track: usize| if track % 3 == 0 { "AB" } else { "A" };
    for track in 1..=tracks {
        writeln!(station, "track,T{track},{},{}", 1000 + 250 * draws.below(5), sides(track)).expect("a string");
    }
    for platform in ["P1", "P2"] {
        for track in 1..=tracks {
            for side in sides(track).chars() {
                writeln!(station, "route,{platform},T{track},{side},{}", 1 + draws.below(20)).expect("a string");
            }
        }
    }
    station.push_str("cost,10,10,500\n");
    let trains = units.div_ceil(2);
    let mut kinds: Vec<Vec<&str>> = vec![];
    for train in 0..trains {
        let length = if train + 1 == trains && units % 2 == 1 { 1 } else { 2 };
        kinds.push((0..length).map(|_| ["K", "L", "M"][draws.below(3) as usize]).collect());
    }
    let mut timetable = String::from("timetable,2\n");
    let mut line = |word: &str, name: char, train: usize, minute: usize, platform: usize, kinds: &[&str]| {
        let (hour, minute) = (minute / 60, minute % 60);
        writeln!(timetable, "{word},{name}{},{hour:02}:{minute:02},P{},{}", train + 1, platform + 1, kinds.join(",")).expect("a string");
    };
    for (train, kinds) in kinds.iter().enumerate() {
        line("arrive", 'a', train, 1200 + 6 * train, train % 2, kinds);
    }
    let shift = if trains > 0 { draws.below(trains as u64) as usize } else { 0 };
    for train in 0..trains {
        let mut kinds = kinds[(train + shift) % trains].clone();
        if draws.below(2) == 1 {
            kinds.reverse();
        }
        line("depart", 'd', train, 1740 + 6 * train, 1 - train % 2, &kinds);
    }
    (station, timetable)
}

/// A unit or a position: its train, its place there from 0, and its type.
#[derive(Clone, Copy)]
pub(crate) struct Place {
    pub(crate) train: usize,
    pub(crate) place: usize,
    pub(crate) kind: usize,
}

/// So many units from one on with so many positions from one on.
#[derive(Clone, Copy, PartialEq, Eq)]
pub(crate) struct Shape {
    pub(crate) u: usize,
    pub(crate) v: usize,
    pub(crate) n: usize,
}

#[derive(Clone, Copy, PartialEq, Eq)]
pub(crate) struct Park {
    pub(crate) track: usize,
    pub(crate) sides: [usize; 2],
}

#[derive(Clone, Copy, PartialEq, Eq)]
pub(crate) struct Choice {
    pub(crate) shape: Shape,
    pub(crate) park: Option<Park>,
}

/// Tables of a night.
pub(crate) struct Tables {
    pub(crate) night: Night,
    pub(crate) units: Vec<Place>,
    pub(crate) positions: Vec<Place>,
    ways_in: Vec<Option<u64>>,
    ways_out: Vec<Option<u64>>,
}

fn places(trains: &[Train]) -> Vec<Place> {
    let each = trains.iter().enumerate();
    each.flat_map(|(train, it)| it.units.iter().enumerate().map(move |(place, kind)| Place { train, place, kind: *kind })).collect()
}

impl Tables {
    pub(crate) fn new(night: Night) -> Tables {
        let ways = |trains: &[Train]| {
            let (tracks, night) = (night.tracks, &night);
            trains.iter().flat_map(|train| (0..2 * tracks).map(move |k| way(night, train, k / 2, k % 2))).collect()
        };
        let (ways_in, ways_out) = (ways(&night.arrive), ways(&night.depart));
        Tables { units: places(&night.arrive), positions: places(&night.depart), night, ways_in, ways_out }
    }

    pub(crate) fn arriving(&self, shape: Shape) -> &Train {
        &self.night.arrive[self.units[shape.u].train]
    }

    pub(crate) fn departing(&self, shape: Shape) -> &Train {
        &self.night.depart[self.positions[shape.v].train]
    }

    pub(crate) fn length(&self, shape: Shape) -> u64 {
        self.units[shape.u..shape.u + shape.n].iter().map(|unit| self.night.lengths[unit.kind]).sum()
    }

    pub(crate) fn is_pair(&self, u: usize, v: usize) -> bool {
        let (unit, position) = (self.units[u], self.positions[v]);
        let ready = self.night.arrive[unit.train].minute + self.night.turns[unit.kind];
        unit.kind == position.kind && ready <= self.night.depart[position.train].minute
    }

    /// The shapes that begin at a unit and use no covered unit or position, in their order.
    pub(crate) fn shapes_at(&self, u: usize, units: &[bool], positions: &[bool]) -> Vec<Shape> {
        let mut shapes = vec![];
        for n in 1..=8 {
            let inside = |from: usize, all: &[Place]| from + n <= all.len() && all[from + n - 1].train == all[from].train;
            if !inside(u, &self.units) || units[u + n - 1] {
                break;
            }
            for v in 0..self.positions.len() {
                if inside(v, &self.positions) && (0..n).all(|k| !positions[v + k] && self.is_pair(u + k, v + k)) {
                    shapes.push(Shape { u, v, n });
                }
            }
        }
        shapes
    }

    /// What a shape costs without a way: where it splits its arriving train and couples in its departing one.
    pub(crate) fn ends(&self, shape: Shape) -> u64 {
        let split = if self.units[shape.u].place > 0 { self.night.split } else { 0 };
        split + if self.positions[shape.v].place > 0 { self.night.couple } else { 0 }
    }

    pub(crate) fn permits(&self, shape: Shape, track: usize) -> bool {
        let permits = &self.night.permits[track];
        permits.is_empty() || self.units[shape.u..shape.u + shape.n].iter().all(|unit| permits.contains(&unit.kind))
    }

    /// What the ways of a shape to and from a track by these sides cost, where both are there.
    pub(crate) fn ways(&self, shape: Shape, park: Park) -> Option<u64> {
        let place = |train: usize, side: usize| (train * self.night.tracks + park.track) * 2 + side;
        let way_in = self.ways_in[place(self.units[shape.u].train, park.sides[0])]?;
        Some(way_in + self.ways_out[place(self.positions[shape.v].train, park.sides[1])]?)
    }

    /// What the cheapest ways of a shape to and from a track cost, where it may stand there.
    pub(crate) fn least_ways(&self, shape: Shape, long: u64, track: usize) -> Option<u64> {
        if long > self.night.rooms[track] || !self.permits(shape, track) {
            return None;
        }
        (0..4).filter_map(|k| self.ways(shape, Park { track, sides: [k / 2, k % 2] })).min()
    }

    /// What the cheapest ways of a shape cost that comes to a track by one end and goes by the other, where it may stand there.
    pub(crate) fn least_through(&self, shape: Shape, long: u64, track: usize) -> Option<u64> {
        if long > self.night.rooms[track] || !self.permits(shape, track) {
            return None;
        }
        [[0, 1], [1, 0]].into_iter().filter_map(|sides| self.ways(shape, Park { track, sides })).min()
    }

    /// What a choice costs, where it is one.
    pub(crate) fn cost(&self, choice: Choice) -> Option<u64> {
        let way = match choice.park {
            None => self.night.unparked,
            Some(park) if self.permits(choice.shape, park.track) => self.ways(choice.shape, park)?,
            Some(_) => return None,
        };
        Some(self.ends(choice.shape) + way)
    }

    /// Whether the run of these blocks goes through.
    pub(crate) fn goes_through(&self, blocks: &[Choice]) -> bool {
        let mut events = vec![];
        for (id, block) in blocks.iter().enumerate() {
            let Some(park) = block.park else { continue };
            let (unit, position) = (self.units[block.shape.u], self.positions[block.shape.v]);
            events.push(((self.arriving(block.shape).minute, true, unit.train, unit.place), id, park));
            events.push(((self.departing(block.shape).minute, false, position.train, 9 - position.place), id, park));
        }
        events.sort_by_key(|event| event.0);
        let mut lists: Vec<Vec<usize>> = vec![vec![]; self.night.tracks];
        for ((_, enters, ..), id, park) in events {
            let list = &mut lists[park.track];
            if !enters {
                let end = if park.sides[1] == 0 { 0 } else { list.len() - 1 };
                if list[end] != id {
                    return false;
                }
                list.remove(end);
                continue;
            }
            list.insert(if park.sides[0] == 0 { 0 } else { list.len() }, id);
            if list.iter().map(|id| self.length(blocks[*id].shape)).sum::<u64>() > self.night.rooms[park.track] {
                return false;
            }
        }
        true
    }
}
