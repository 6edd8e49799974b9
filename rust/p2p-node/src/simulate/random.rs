//! A deterministic random generator.

/// The generator splitmix64. The same seed gives the same numbers on every machine.
///
/// Its state is a counter that grows by a constant, and each number is a mix of the state. It has a
/// period of 2^64, and no security.
///
/// # Examples
///
/// ```
/// use p2p_node::simulate::Random;
///
/// let mut random = Random::new(0);
/// assert_eq!(random.number(), 0xe220_a839_7b1d_cdaf);
/// ```
#[derive(Clone, Debug)]
pub struct Random {
    state: u64,
}

impl Random {
    /// Creates a generator from a seed. Each seed gives another sequence.
    #[must_use]
    pub fn new(seed: u64) -> Random {
        Random { state: seed }
    }

    /// The next number, uniform among all of 64 bits.
    pub fn number(&mut self) -> u64 {
        self.state = self.state.wrapping_add(0x9e37_79b9_7f4a_7c15);
        let mixed = (self.state ^ (self.state >> 30)).wrapping_mul(0xbf58_476d_1ce4_e5b9);
        let mixed = (mixed ^ (mixed >> 27)).wrapping_mul(0x94d0_49bb_1331_11eb);
        mixed ^ (mixed >> 31)
    }

    /// A number below the bound, or 0 if the bound is 0. Two numbers differ in their probability by
    /// at most 2^-64.
    pub fn below(&mut self, bound: u64) -> u64 {
        let product = u128::from(self.number()) * u128::from(bound);
        (product >> 64) as u64
    }

    /// An index below the length, or 0 if the length is 0.
    pub fn index(&mut self, length: usize) -> usize {
        self.below(length as u64) as usize
    }

    /// Whether an event of this probability happens. A probability of 0 never does, and one of 1
    /// always.
    pub fn happens(&mut self, probability: f64) -> bool {
        let uniform = (self.number() >> 11) as f64 / (1_u64 << 53) as f64;
        uniform < probability
    }

    /// Puts the items into a random order.
    pub fn shuffle<T>(&mut self, items: &mut [T]) {
        for last in (1..items.len()).rev() {
            items.swap(last, self.index(last + 1));
        }
    }

    /// Puts a random choice of so many items to the front, in a random order, and returns them. It
    /// returns all if there are no more.
    pub fn choose<'a, T>(&mut self, items: &'a mut [T], count: usize) -> &'a [T] {
        let count = count.min(items.len());
        for place in 0..count {
            let other = place + self.index(items.len() - place);
            items.swap(place, other);
        }
        &items[..count]
    }
}
