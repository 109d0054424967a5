//! A small source of random numbers (splitmix64): the same on every machine for the same seed.

#[derive(Debug, Clone)]
pub struct Rng {
    state: u64,
}

impl Rng {
    pub fn new(seed: u64) -> Rng {
        Rng { state: seed }
    }

    /// The source for case `number` of a generator: apart from its neighbours', and found without
    /// making the cases before it.
    pub fn case(generator: &str, seed: u64, number: u64) -> Rng {
        let mut rng = Rng::new(seed);
        for byte in generator.bytes() {
            rng.state = rng.draw() ^ byte as u64;
        }
        rng.state = rng.draw() ^ number;
        rng.draw();
        rng
    }

    /// As `one_in`, and nothing is drawn: what comes after it is the same whatever it says.
    pub fn aside_one_in(&self, n: usize) -> bool {
        Rng::new(!self.state).one_in(n)
    }

    pub fn draw(&mut self) -> u64 {
        self.state = self.state.wrapping_add(0x9E37_79B9_7F4A_7C15);
        let mut z = self.state;
        z = (z ^ (z >> 30)).wrapping_mul(0xBF58_476D_1CE4_E5B9);
        z = (z ^ (z >> 27)).wrapping_mul(0x94D0_49BB_1331_11EB);
        z ^ (z >> 31)
    }

    /// A number below `bound`, or 0 where the bound is 0.
    pub fn below(&mut self, bound: usize) -> usize {
        match bound {
            0 => 0,
            _ => ((self.draw() as u128 * bound as u128) >> 64) as usize,
        }
    }

    /// A number from `low` to `high`, both possible.
    pub fn between(&mut self, low: usize, high: usize) -> usize {
        low + self.below(high - low + 1)
    }

    pub fn one_in(&mut self, n: usize) -> bool {
        self.below(n) == 0
    }

    pub fn percent(&mut self, n: usize) -> bool {
        self.below(100) < n
    }

    pub fn pick<'a, T>(&mut self, items: &'a [T]) -> &'a T {
        &items[self.below(items.len())]
    }
}
