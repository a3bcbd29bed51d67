//! Random numbers from a seed (splitmix64), the same on every machine.

pub struct Random {
    state: u64,
}

impl Random {
    pub fn new(seed: u64) -> Random {
        Random { state: seed.wrapping_mul(0x2545_F491_4F6C_DD1D) }
    }

    fn next(&mut self) -> u64 {
        self.state = self.state.wrapping_add(0x9E37_79B9_7F4A_7C15);
        let mut mixed = self.state;
        mixed = (mixed ^ mixed >> 30).wrapping_mul(0xBF58_476D_1CE4_E5B9);
        mixed = (mixed ^ mixed >> 27).wrapping_mul(0x94D0_49BB_1331_11EB);
        mixed ^ mixed >> 31
    }

    /// From `low` to `high`, both included.
    pub fn between(&mut self, low: u64, high: u64) -> u64 {
        low + self.next() % (high - low + 1)
    }

    /// True that many times in a hundred.
    pub fn chance(&mut self, percent: u64) -> bool {
        self.between(1, 100) <= percent
    }

    /// One of these, if there is any.
    pub fn one_of<T: Clone>(&mut self, choices: &[T]) -> Option<T> {
        let last = (choices.len() as u64).checked_sub(1)?;
        Some(choices[self.between(0, last) as usize].clone())
    }

    /// One of these; for lists that are never empty.
    pub fn pick<T: Clone>(&mut self, choices: &[T]) -> T {
        self.one_of(choices).expect("a choice of at least one")
    }

    /// A number of up to that size, small ones as likely as large ones.
    pub fn of_any_size(&mut self, most: u64) -> u64 {
        let bits = self.between(1, u64::from(u64::BITS - most.leading_zeros()));
        self.between(1, most.min((1 << bits) - 1))
    }

    pub fn seven_cards(&mut self) -> [u64; 7] {
        let mut cards = [u64::MAX; 7];
        for place in 0..7 {
            while cards[place] == u64::MAX || cards[..place].contains(&cards[place]) {
                cards[place] = self.between(0, 51);
            }
        }
        cards
    }
}
