//! Random numbers (splitmix64), the same for the same seed.

use std::env;

const SEED: &str = "TUPEHIWO_SEED";
const USUAL_SEED: u64 = 20_010_911;

pub struct Rng(u64);

impl Rng {
    pub fn new(seed: u64) -> Rng {
        Rng(seed)
    }

    pub fn bits(&mut self) -> u64 {
        self.0 = self.0.wrapping_add(0x9E37_79B9_7F4A_7C15);
        let mut z = self.0;
        z = (z ^ (z >> 30)).wrapping_mul(0xBF58_476D_1CE4_E5B9);
        z = (z ^ (z >> 27)).wrapping_mul(0x94D0_49BB_1331_11EB);
        z ^ (z >> 31)
    }

    /// A number below `bound`, which is not 0.
    pub fn below(&mut self, bound: usize) -> usize {
        (self.bits() % bound as u64) as usize
    }

    /// True once in `times` on average.
    pub fn once_in(&mut self, times: usize) -> bool {
        self.below(times) == 0
    }

    /// One of `choices`, which is not empty.
    pub fn pick<T: Copy>(&mut self, choices: &[T]) -> T {
        choices[self.below(choices.len())]
    }

    pub fn shuffle<T>(&mut self, row: &mut [T]) {
        for i in (1..row.len()).rev() {
            row.swap(i, self.below(i + 1));
        }
    }

    /// One of `choices`, or `None` if there is none.
    pub fn pick_any<T: Copy>(&mut self, choices: impl Iterator<Item = T> + Clone) -> Option<T> {
        let count = choices.clone().count();
        (count > 0).then(|| self.below(count)).and_then(|n| choices.clone().nth(n))
    }
}

/// The seed of a test: that of the environment, else the usual one. Printed,
/// so that a failure can be run again.
pub fn seed(test: &str) -> u64 {
    let seed = env::var(SEED).map_or(USUAL_SEED, |text| {
        text.parse().unwrap_or_else(|_| panic!("{SEED} is not a number: {text}"))
    });
    println!("{test}: {SEED}={seed}");
    seed
}
