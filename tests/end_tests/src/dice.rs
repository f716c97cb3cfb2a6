//! What comes by chance, the same in each run.

/// Numbers by Marsaglia's xorshift.
#[derive(Clone, Copy, Drop)]
pub(crate) struct Dice {
    state: u64,
}

impl Dice {
    /// Dice that begin with a number other than 0.
    pub(crate) fn new(seed: u64) -> Dice {
        Dice {
            state: seed ^ 0x9e37_79b9_7f4a_7c15,
        }
    }

    /// A number below another, or 0 where that is 0.
    pub(crate) fn roll(&mut self, below: u64) -> u64 {
        let mut x = self.state;
        x ^= x << 13;
        x ^= x >> 7;
        x ^= x << 17;
        self.state = x;
        if below == 0 { 0 } else { x % below }
    }

    pub(crate) fn flip(&mut self) -> bool {
        self.roll(2) == 0
    }
}
