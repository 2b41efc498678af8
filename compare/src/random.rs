//! Numbers that a seed determines (splitmix64).

#[derive(Clone)]
pub struct Random(u64);

impl Random {
    /// The numbers of a seed's `stream`.
    pub fn new(seed: u64, stream: u64) -> Random {
        let mut random = Random(seed ^ stream.wrapping_mul(0xD134_2543_DE82_EF95));
        random.next();
        random
    }

    pub fn next(&mut self) -> u64 {
        self.0 = self.0.wrapping_add(0x9E37_79B9_7F4A_7C15);
        let z = (self.0 ^ self.0 >> 30).wrapping_mul(0xBF58_476D_1CE4_E5B9);
        let z = (z ^ z >> 27).wrapping_mul(0x94D0_49BB_1331_11EB);
        z ^ z >> 31
    }

    pub fn word(&mut self) -> u32 {
        self.next() as u32
    }

    /// A number below `limit`, which is not 0.
    pub fn below(&mut self, limit: usize) -> usize {
        (self.next() >> 32) as usize * limit >> 32
    }

    /// True `part` times in 100.
    pub fn percent(&mut self, part: usize) -> bool {
        self.below(100) < part
    }

    pub fn pick<T: Copy>(&mut self, list: &[T]) -> T {
        list[self.below(list.len())]
    }

    /// n different keys, of which `draw` gives the lowest 24 bits.
    pub fn keys(&mut self, n: usize, draw: impl Fn(&mut Random) -> u32) -> Vec<u32> {
        let mut keys = Vec::new();
        while keys.len() < n {
            let key = draw(self) & 0xFF_FFFF;
            if !keys.contains(&key) {
                keys.push(key);
            }
        }
        keys
    }
}
