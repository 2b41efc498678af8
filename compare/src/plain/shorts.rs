//! Document 02's note 14: a short ring for the log.

use super::{bits, Plain, Slip, POOL};
use crate::ring::Shortened;
use crate::LENGTH;

/// n and m, as word 0 has them.
fn sizes(word: u32) -> (usize, usize) {
    (bits(word, 4, 10) as usize, bits(word, 11, 21) as usize)
}

impl Plain {
    fn slips(&self, slip: Slip) -> bool {
        self.slip == Some(slip)
    }

    /// The words that the short edition keeps: "word 0, then only the words that belong to a stand, pair or message, in
    /// ring order".
    fn kept(&self, (n, m): (usize, usize)) -> Vec<usize> {
        let messages = m - (m > 0 && self.slips(Slip::ShortMessageLess)) as usize;
        let of_messages = (0..5 * messages).map(|k| 8_321 + k).collect();
        [vec![0], self.kept_of_nodes(n), of_messages].concat()
    }

    fn kept_of_nodes(&self, n: usize) -> Vec<usize> {
        let node = |s: usize| vec![1 + 2 * s, 2 + 2 * s];
        let all = |one: &dyn Fn(usize) -> Vec<usize>| (0..n).flat_map(one).collect::<Vec<usize>>();
        match self.slip {
            Some(Slip::ShortNodeThenPairs) => all(&|x| [node(x), self.kept_of_pairs(n, x)].concat()),
            _ => [all(&node), all(&|x| self.kept_of_pairs(n, x))].concat(),
        }
    }

    /// Of the pairs (x, z), two words each.
    fn kept_of_pairs(&self, n: usize, x: usize) -> Vec<usize> {
        let others = (0..n).filter(|&z| z != x || self.slips(Slip::ShortOwnPair));
        others
            .flat_map(|z| {
                let (x, z) = if self.slips(Slip::ShortOtherFirst) { (z, x) } else { (x, z) };
                let at = 129 + 2 * (64 * x + z);
                [at, at + 1]
            })
            .collect()
    }

    /// "the lent place for the short form is too small"
    fn place_fits(&self, places: usize, length: usize) -> bool {
        match self.slip {
            Some(Slip::ShortLongerPlace) => places == length,
            Some(Slip::ShortPlaceLess) => places + 1 >= length,
            _ => places >= length,
        }
    }

    fn try_shorten(&self, words: &[u32], place: &mut [u32]) -> Result<usize, u32> {
        let refusal = if self.slips(Slip::ShortPlace19) { 19 } else { 20 };
        if self.slips(Slip::ShortPlaceFirst) && words.len() == LENGTH && place.is_empty() {
            return Err(refusal);
        }
        self.read(words)?;
        let kept = self.kept(sizes(words[0]));
        if !self.place_fits(place.len(), kept.len()) {
            return Err(refusal);
        }
        place.iter_mut().zip(&kept).for_each(|(place, &at)| *place = words[at]);
        if self.slips(Slip::ShortBeyond) {
            place.iter_mut().skip(kept.len()).for_each(|place| *place = 0);
        }
        Ok(kept.len())
    }

    /// "gives the length written, 0 if refused"
    pub(super) fn shorten_ring(&self, words: &[u32], place: &mut [u32]) -> Shortened {
        match self.try_shorten(words, place) {
            Ok(written) => Shortened { answer: 0, written: written as u32 },
            Err(refusal) => {
                if self.slips(Slip::ShortRefusedWrites) {
                    place.iter_mut().zip(words).for_each(|(place, &word)| *place = word);
                }
                let lacking = refusal == 20 && self.slips(Slip::ShortRefusedLength);
                let written = if lacking { self.kept(sizes(words[0])).len() as u32 } else { 0 };
                Shortened { answer: refusal, written }
            }
        }
    }

    /// "a short input is empty, has another length than its word 0 says, or wouldn't expand to a ring"
    fn expanded(&self, short: &[u32]) -> Option<Vec<u32>> {
        let (n, m) = sizes(*short.first()?);
        if n > 64 || m > POOL && !self.slips(Slip::ShortMessage1025) {
            return None;
        }
        let kept = self.kept((n, m));
        if short.len() != kept.len() && !(self.slips(Slip::ShortOneLonger) && short.len() == kept.len() + 1) {
            return None;
        }
        let mut long = vec![0; LENGTH];
        for (&at, &word) in kept.iter().zip(short).filter(|(&at, _)| at < LENGTH) {
            long[at] = word;
        }
        self.expands(&long, n, m).then_some(long)
    }

    fn expands(&self, long: &[u32], n: usize, m: usize) -> bool {
        match self.slip {
            Some(Slip::ShortNoNodes) if n == 0 => true,
            Some(Slip::ShortMessage1025) if m > POOL => true,
            Some(Slip::ShortUnread) => n > 0,
            Some(Slip::ShortSender257) => Plain { slip: Some(Slip::SenderAnyRing) }.read(long).is_ok(),
            _ => self.read(long).is_ok(),
        }
    }

    fn try_lengthen(&self, short: &[u32], words: &mut [u32]) -> Result<(), u32> {
        if self.slips(Slip::ShortLongLast) {
            self.expanded(short).ok_or(19u32)?;
        }
        let longer = self.slips(Slip::ShortLongerLong) && words.len() > LENGTH;
        if words.len() != LENGTH && !longer {
            return Err(1);
        }
        if self.slips(Slip::ShortOldRead) {
            self.read(words)?;
        }
        if self.slips(Slip::ShortWritesFirst) {
            words.fill(0);
        }
        let long = self.expanded(short).ok_or(19u32)?;
        let old_kept = self.slips(Slip::ShortOldKept);
        let places = words.iter_mut().zip(long).filter(|(_, word)| *word != 0 || !old_kept);
        places.for_each(|(place, word)| *place = word);
        Ok(())
    }

    pub(super) fn lengthen_ring(&self, short: &[u32], words: &mut [u32]) -> u32 {
        self.try_lengthen(short, words).err().unwrap_or(0)
    }
}
