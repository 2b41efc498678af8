//! The commands of the test programs, and the digests in the lines that they print.

/// Six words: the number, a, b, c, d, and how many words of a buffer are lent to the call.
#[derive(Clone, Copy, Default, Debug)]
pub struct Command {
    pub number: u32,
    pub a: u32,
    pub b: u32,
    pub c: u32,
    pub d: u32,
    pub lent: u32,
}

impl Command {
    pub fn bytes(self) -> Vec<u8> {
        [self.number, self.a, self.b, self.c, self.d, self.lent].iter().flat_map(|word| word.to_le_bytes()).collect()
    }

    /// The commands in these bytes.
    pub fn all(bytes: &[u8]) -> impl Iterator<Item = Command> + '_ {
        bytes.chunks_exact(24).map(|bytes| {
            let word = |k: usize| u32::from_le_bytes(bytes[4 * k..4 * k + 4].try_into().unwrap());
            Command { number: word(0), a: word(1), b: word(2), c: word(3), d: word(4), lent: word(5) }
        })
    }
}

/// Each set as two words, the lower one first.
pub fn set_words(sets: &[u64]) -> impl Iterator<Item = u32> + '_ {
    sets.iter().flat_map(|&set| [set as u32, (set >> 32) as u32])
}

pub fn digest(words: impl Iterator<Item = u32>) -> u64 {
    words.fold(0, |digest, word| (31 * digest + word as u64) % (1 << 32))
}
