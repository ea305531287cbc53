//! A small seeded source of numbers (splitmix64), so that every stream can be made again.

/// The source.
#[derive(Clone, Debug)]
pub struct Random {
    state: u64,
}

/// Words at which arithmetic, types and comparisons turn.
const EDGES: [i32; 12] =
    [0, 1, -1, 2, -2, 7, -7, 10, i32::MIN, i32::MIN + 1, i32::MAX, i32::MAX - 1];

impl Random {
    /// A source for a seed; near seeds give unlike streams.
    pub fn new(seed: u64) -> Random {
        Random { state: seed.wrapping_mul(0x2545_F491_4F6C_DD1D) ^ 0x9E37_79B9_7F4A_7C15 }
    }

    /// The next 64 bits.
    pub fn draw(&mut self) -> u64 {
        self.state = self.state.wrapping_add(0x9E37_79B9_7F4A_7C15);
        let mut mixed = self.state;
        mixed = (mixed ^ (mixed >> 30)).wrapping_mul(0xBF58_476D_1CE4_E5B9);
        mixed = (mixed ^ (mixed >> 27)).wrapping_mul(0x94D0_49BB_1331_11EB);
        mixed ^ (mixed >> 31)
    }

    /// A number below the limit; 0 for a limit of 0.
    pub fn below(&mut self, limit: usize) -> usize {
        (self.draw() % (limit.max(1) as u64)) as usize
    }

    /// A number from the first to the last, both included.
    pub fn between(&mut self, first: usize, last: usize) -> usize {
        first + self.below(last - first + 1)
    }

    /// True so often of a hundred.
    pub fn chance(&mut self, percent: usize) -> bool {
        self.below(100) < percent
    }

    /// One of some things.
    pub fn one<T: Copy>(&mut self, of: &[T]) -> T {
        of[self.below(of.len())]
    }

    /// The place of one of some weights, each as likely as it is large.
    pub fn weighted(&mut self, weights: &[usize]) -> usize {
        let mut left = self.below(weights.iter().sum());
        for (place, &weight) in weights.iter().enumerate() {
            if left < weight {
                return place;
            }
            left -= weight;
        }
        0
    }

    /// A word: an edge, a small one or any.
    pub fn word(&mut self) -> i32 {
        match self.below(4) {
            0 => self.one(&EDGES),
            3 => self.draw() as i32,
            _ => self.between(0, 40) as i32 - 20,
        }
    }

    /// Shares out what is over the least of each, at random.
    pub fn split(&mut self, total: usize, least: &[usize]) -> Vec<usize> {
        let mut shares = least.to_vec();
        let mut over = total.saturating_sub(least.iter().sum());
        let turn = self.below(shares.len());
        for i in 0..shares.len() {
            let at = (i + turn) % shares.len();
            let share = if i + 1 == shares.len() { over } else { self.below(over + 1) };
            shares[at] += share;
            over -= share;
        }
        shares
    }
}
