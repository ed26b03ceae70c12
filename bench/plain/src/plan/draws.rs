//! Numbers that look random, with a fixed start, and logarithms by a table.

/// The generator's recurrence.
pub(crate) struct Draws(u64);

impl Draws {
    pub(crate) fn new(start: u64) -> Draws {
        Draws(start)
    }

    /// A number below 2^15.
    pub(crate) fn draw(&mut self) -> u64 {
        self.0 = (1_103_515_245 * self.0 + 12_345) % (1 << 31);
        self.0 >> 16
    }

    /// A number below one of at most 2^15, which isn't 0.
    pub(crate) fn below(&mut self, most: usize) -> usize {
        (self.draw() as usize * most) >> 15
    }
}

/// Cooling from a first to a last temperature, and what a rise may be at each.
pub(crate) struct Cooling {
    /// The negative logarithms of the middles of 1024 equal parts of 0 to 1, each 2^16 to one.
    logarithms: Vec<i64>,
}

// The negative natural logarithm of a fraction of 2^31, 2^16 to one, by squares.
fn logarithm(fraction: u64) -> i64 {
    let (mut number, mut twos) = (u128::from(fraction), 0i64);
    while number < 1 << 31 {
        number *= 2;
        twos += 1;
    }
    let mut binary = twos << 20;
    for bit in (0..20).rev() {
        number = (number * number) >> 31;
        if number >= 1 << 32 {
            number >>= 1;
            binary -= 1 << bit;
        }
    }
    ((i128::from(binary) * 726_817) >> 24) as i64
}

impl Cooling {
    pub(crate) fn new() -> Cooling {
        Cooling { logarithms: (0..1024).map(|part| logarithm((2 * part + 1) << 20)).collect() }
    }

    /// By how much a sum may rise at a temperature, by a draw.
    pub(crate) fn rise(&self, temperature: i64, draws: &mut Draws) -> i64 {
        (temperature * self.logarithms[draws.below(1024)]) >> 16
    }
}
