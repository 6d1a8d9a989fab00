//! Numbers that look random and are the same on every machine (splitmix64).

const STEP: u64 = 0x9e37_79b9_7f4a_7c15;

pub struct Random {
    state: u64,
}

/// What is drawn beside a case, each from a stream of its own: the bit of the seed that is turned
/// over for it.
#[derive(Clone, Copy, Debug)]
pub enum Beside {
    /// Rooms and damages.
    Damage = 63,
    /// Texts of a palette.
    Text = 62,
    /// Costs that a group of replayed blocks shares.
    Group = 61,
    /// Texts of several palettes.
    Report = 60,
    /// Pieces that a text is handed over in.
    Pieces = 59,
    /// Lists to be read back.
    Read = 58,
    /// Adapted tables that costs are made from.
    Adapted = 57,
    /// Strips of blocks.
    Strip = 56,
    /// Blocks at the edge of sureness.
    Sure = 55,
    /// Histograms of levels.
    Histogram = 54,
}

impl Random {
    /// Each case has its own stream.
    pub fn new(seed: u64, index: u64) -> Self {
        Random {
            state: mix(seed.wrapping_add(STEP)) ^ mix(index.wrapping_mul(STEP)),
        }
    }

    /// What is drawn here leaves the case of the seed and index as it is.
    pub fn beside(seed: u64, index: u64, what: Beside) -> Self {
        Random::new(seed ^ (1 << what as u32), index)
    }

    pub fn bits(&mut self) -> u64 {
        self.state = self.state.wrapping_add(STEP);
        mix(self.state)
    }

    pub fn below(&mut self, end: usize) -> usize {
        ((u128::from(self.bits()) * end as u128) >> 64) as usize
    }

    /// Both ends included.
    pub fn between(&mut self, low: usize, high: usize) -> usize {
        low + self.below(high - low + 1)
    }

    pub fn one_in(&mut self, times: usize) -> bool {
        self.below(times) == 0
    }

    /// From 0 to below 1.
    pub fn unit(&mut self) -> f64 {
        (self.bits() >> 11) as f64 / (1u64 << 53) as f64
    }

    pub fn pick<T: Copy>(&mut self, from: &[T]) -> T {
        from[self.below(from.len())]
    }

    pub fn shuffle<T>(&mut self, items: &mut [T]) {
        for last in (1..items.len()).rev() {
            items.swap(last, self.below(last + 1));
        }
    }
}

fn mix(state: u64) -> u64 {
    let z = (state ^ (state >> 30)).wrapping_mul(0xbf58_476d_1ce4_e5b9);
    let z = (z ^ (z >> 27)).wrapping_mul(0x94d0_49bb_1331_11eb);
    z ^ (z >> 31)
}
