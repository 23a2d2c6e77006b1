//! Choices at random, the same for the same seed, or as some bytes say.

const STEP: u64 = 0x9E37_79B9_7F4A_7C15;

pub enum Random {
    /// Numbers of a seed.
    Seeded(u64),
    /// Bytes that are left, the first one last, and whether there were too few.
    Bytes(Vec<u8>, bool),
}

impl Random {
    pub fn new(seed: u64, number: u64) -> Random {
        let state = (seed.wrapping_mul(STEP) ^ number).wrapping_add(STEP);
        Random::Seeded((state ^ number.rotate_left(32)).wrapping_add(STEP))
    }

    pub fn of_bytes(bytes: &[u8]) -> Random {
        Random::Bytes(bytes.iter().rev().copied().collect(), false)
    }

    /// Whether there were too few bytes for a choice.
    pub fn is_over(&self) -> bool {
        matches!(self, Random::Bytes(_, true))
    }

    /// A number below a bound, which is not 0.
    pub fn below(&mut self, bound: usize) -> usize {
        let number = match self {
            // SplitMix64.
            Random::Seeded(state) => {
                *state = state.wrapping_add(STEP);
                mixed(*state)
            }
            Random::Bytes(bytes, is_over) => {
                let (mut number, mut most) = (0, 1);
                while most < bound as u64 {
                    *is_over |= bytes.is_empty();
                    number = number << 8 | u64::from(bytes.pop().unwrap_or(0));
                    most <<= 8;
                }
                // What is chosen then ends all loops: it is true in none of 1,000 cases.
                if *is_over { 999 } else { number }
            }
        };
        (number % bound as u64) as usize
    }

    /// A number from one up to another, both included.
    pub fn between(&mut self, low: usize, high: usize) -> usize {
        low + self.below(high - low + 1)
    }

    /// True in so many of 1,000 cases.
    pub fn per_mille(&mut self, share: u64) -> bool {
        self.below(1_000) < share as usize
    }

    pub fn one_of<T: Copy>(&mut self, items: &[T]) -> T {
        items[self.below(items.len())]
    }

    /// An index, each as often as its weight says.
    pub fn weighted(&mut self, weights: &[u32]) -> usize {
        let total: u32 = weights.iter().sum();
        let chosen = self.below(total as usize) as u32;
        let mut up_to = 0;
        let holds = |weight: &u32| {
            up_to += weight;
            chosen < up_to
        };
        weights.iter().position(holds).unwrap_or(0)
    }
}

fn mixed(state: u64) -> u64 {
    let mut mixed = state;
    mixed = (mixed ^ (mixed >> 30)).wrapping_mul(0xBF58_476D_1CE4_E5B9);
    mixed = (mixed ^ (mixed >> 27)).wrapping_mul(0x94D0_49BB_1331_11EB);
    mixed ^ (mixed >> 31)
}
