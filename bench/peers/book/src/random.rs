//! Pseudo-random numbers: splitmix64, by Sebastiano Vigna (public domain), with the seeds of `crates/test_runtime/src/loads`.

pub struct Random {
    state: u64,
}

impl Random {
    /// The generator of a seed, and of one of the streams that have this seed.
    pub fn new(seed: u32, stream: u32) -> Self {
        let mut random = Random { state: u64::from(seed) << 32 | u64::from(stream) };
        random.state = random.draw();
        random
    }

    fn draw(&mut self) -> u64 {
        self.state = self.state.wrapping_add(0x9e37_79b9_7f4a_7c15);
        let z = (self.state ^ (self.state >> 30)).wrapping_mul(0xbf58_476d_1ce4_e5b9);
        let z = (z ^ (z >> 27)).wrapping_mul(0x94d0_49bb_1331_11eb);
        z ^ (z >> 31)
    }

    /// A number below a limit.
    pub fn below(&mut self, limit: u16) -> u16 {
        (self.draw() % u64::from(limit)) as u16
    }
}
