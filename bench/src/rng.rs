//! A small random number generator (splitmix64), so that a seed always gives
//! the same file.

pub struct Rng {
    state: u64,
}

impl Rng {
    pub fn new(seed: u64) -> Rng {
        Rng { state: seed }
    }

    /// Any number of 64 bits.
    pub fn number(&mut self) -> u64 {
        self.state = self.state.wrapping_add(0x9e37_79b9_7f4a_7c15);
        let mut mixed = self.state;
        mixed = (mixed ^ (mixed >> 30)).wrapping_mul(0xbf58_476d_1ce4_e5b9);
        mixed = (mixed ^ (mixed >> 27)).wrapping_mul(0x94d0_49bb_1331_11eb);
        mixed ^ (mixed >> 31)
    }

    /// A number from `from` up to and with `to`; `from` if there is none.
    pub fn range(&mut self, from: i32, to: i32) -> i32 {
        if to <= from {
            return from;
        }
        let span = to.abs_diff(from) as u64 + 1;
        from + (self.number() % span) as i32
    }

    /// True in `percent` of a hundred cases.
    pub fn chance(&mut self, percent: i32) -> bool {
        self.range(1, 100) <= percent
    }

    /// One of the given things, of which there must be some.
    pub fn pick<T: Copy>(&mut self, things: &[T]) -> T {
        things[(self.number() % things.len() as u64) as usize]
    }

    /// An index, each as likely as its weight is large.
    pub fn weighted(&mut self, weights: &[i32]) -> usize {
        let mut ticket = self.range(1, weights.iter().sum());
        for (index, weight) in weights.iter().enumerate() {
            if ticket <= *weight {
                return index;
            }
            ticket -= weight;
        }
        weights.len() - 1
    }
}
