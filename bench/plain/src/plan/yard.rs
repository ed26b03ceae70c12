//! The blocks that stand on each track, and whether one more goes through.

use crate::nights::{Choice, Park, Shape, Tables};

/// A parked block: when it enters and leaves, and by which sides.
#[derive(Clone, Copy)]
pub(crate) struct Stay {
    pub(crate) u: usize,
    arrives: u32,
    departs: u32,
    /// Leaves go by departing trains, and in each by descending places.
    leaves: usize,
    long: u64,
    sides: [usize; 2],
}

impl Stay {
    pub(crate) fn new(tables: &Tables, shape: Shape, park: Park) -> Stay {
        let position = tables.positions[shape.v];
        Stay {
            u: shape.u,
            arrives: tables.arriving(shape).minute,
            departs: tables.departing(shape).minute,
            leaves: 16 * position.train + 9 - position.place,
            long: tables.length(shape),
            sides: park.sides,
        }
    }

    /// The same stay by other sides.
    pub(crate) fn by(self, sides: [usize; 2]) -> Stay {
        Stay { sides, ..self }
    }

    // Whether it crosses another that entered before.
    fn crosses(&self, earlier: &Stay) -> bool {
        let end = if self.leaves < earlier.leaves { self.sides[1] } else { 1 - earlier.sides[1] };
        self.arrives < earlier.departs && end != self.sides[0]
    }

    fn stands_when(&self, other: &Stay) -> bool {
        self.u <= other.u && self.departs > other.arrives
    }
}

/// For each track its stays, and whether others go through with them.
#[derive(Clone)]
pub(crate) struct Yard {
    pub(crate) tracks: Vec<Vec<Stay>>,
    rooms: Vec<u64>,
}

impl Yard {
    pub(crate) fn new(tables: &Tables) -> Yard {
        Yard { tracks: vec![vec![]; tables.night.tracks], rooms: tables.night.rooms.clone() }
    }

    pub(crate) fn of(tables: &Tables, blocks: &[Choice]) -> Yard {
        let mut yard = Yard::new(tables);
        for block in blocks {
            if let Some(park) = block.park {
                yard.come(park.track, Stay::new(tables, block.shape, park));
            }
        }
        yard
    }

    pub(crate) fn come(&mut self, track: usize, stay: Stay) {
        self.tracks[track].push(stay);
    }

    pub(crate) fn go(&mut self, track: usize, u: usize) {
        if let Some(place) = self.tracks[track].iter().position(|stay| stay.u == u) {
            self.tracks[track].swap_remove(place);
        }
    }

    /// Whether the run goes through with one more stay on a track.
    pub(crate) fn goes_through(&self, track: usize, stay: &Stay) -> bool {
        let others = &self.tracks[track];
        let free = others.iter().all(|other| if other.u < stay.u { !stay.crosses(other) } else { !other.crosses(stay) });
        free && self.has_room(track, stay)
    }

    fn has_room(&self, track: usize, stay: &Stay) -> bool {
        let (others, room) = (&self.tracks[track], self.rooms[track]);
        if stay.long + others.iter().map(|other| other.long).sum::<u64>() <= room {
            return true;
        }
        let load = |at: &Stay| stay.long + others.iter().filter(|other| other.stands_when(at)).map(|other| other.long).sum::<u64>();
        load(stay) <= room && others.iter().filter(|at| stay.stands_when(at)).all(|at| load(at) <= room)
    }

    /// The stays that are in the way of one on a track: those that cross it, and where there is no room all others.
    pub(crate) fn in_the_way(&self, track: usize, stay: &Stay) -> Vec<usize> {
        let crosses = |other: &&Stay| if other.u < stay.u { stay.crosses(other) } else { other.crosses(stay) };
        let found: Vec<usize> = self.tracks[track].iter().filter(crosses).map(|other| other.u).collect();
        if found.is_empty() { self.tracks[track].iter().map(|other| other.u).collect() } else { found }
    }
}
