//! Document 02's note 12: one talkative stand.

use super::{bits, Message, Plain, Slip, State, POOL};
use crate::ring::Ring;

/// How many messages of each node were lost, as a slip remembers it.
pub(super) type Lost = [usize; 64];

/// The node that may send at an event, and how many messages it has travelling before.
#[derive(Clone, Copy)]
pub(super) struct Acting {
    x: usize,
    before: usize,
}

impl State {
    /// "No sender may have more than 256 messages travelling."
    fn most_of_sender(&self) -> usize {
        match self.slip {
            Some(Slip::Sender255) => 255,
            Some(Slip::Sender257) => 257,
            _ => 256,
        }
    }

    fn travelling(&self, x: usize) -> usize {
        let of_receiver = self.has(Slip::SenderReceives);
        let counts = |message: &&Message| if of_receiver { message.receiver == x } else { message.sender == x };
        self.messages.iter().filter(counts).count()
    }

    /// "This becomes part of what makes words a ring."
    pub(super) fn senders_fit(&self) -> bool {
        let fits = |x: usize| self.travelling(x) <= self.most_of_sender();
        self.has(Slip::SenderAnyRing) || (0..self.nodes.len()).all(fits)
    }

    /// "the acting or answering stand"
    pub(super) fn acting(&self, word: u32) -> Option<Acting> {
        let x = match bits(word, 28, 31) {
            10 if self.has(Slip::SenderLeaves) => return None,
            14 if self.has(Slip::SenderAnswers) => return None,
            10 | 12 | 13 => bits(word, 0, 5) as usize,
            14 => self.messages.get(bits(word, 0, 9) as usize)?.receiver,
            _ => return None,
        };
        Some(Acting { x, before: self.travelling(x) })
    }

    /// 11 and 17, of the messages that an event would leave: "refused after 11".
    pub(super) fn left_refusal(&self, word: u32, acting: Option<Acting>) -> Option<u32> {
        let room = if self.has(Slip::FullPoolEarly) { POOL - 1 } else { POOL };
        let passes = acting.is_some_and(|acting| self.counted(word, acting) > self.most_of_sender());
        let mut tried = [(11, self.messages.len() > room), (17, passes && !self.has(Slip::SenderNeverFull))];
        if self.has(Slip::SenderFirst) {
            tried.reverse();
        }
        tried.into_iter().find(|(_, applies)| *applies).map(|(refusal, _)| refusal)
    }

    /// What refusal 17 counts.
    fn counted(&self, word: u32, Acting { x, before }: Acting) -> usize {
        let left = self.travelling(x);
        let is_echo = bits(word, 28, 31) == 14 && bits(word, 10, 10) == 1;
        match self.slip {
            Some(Slip::SenderEchoed) if is_echo && left > before => left + 1,
            Some(Slip::SenderOneFits) => left.min(before + 1),
            _ => left,
        }
    }
}

impl Plain {
    /// Plays a word of a list; by a slip what was lost before it in the list still counts.
    pub(super) fn play_in_list(&self, words: &mut [u32], word: u32, lost: &mut Lost) -> u32 {
        let Some(before) = self.read(words).ok().filter(|_| self.slip == Some(Slip::SenderLost)) else {
            return self.play(words, word);
        };
        let mut left = words.to_vec();
        let answer = self.play(&mut left, word);
        if answer != 0 {
            return answer;
        }
        if bits(word, 28, 31) == 15 {
            lost[before.messages[bits(word, 0, 9) as usize].sender] += 1;
        }
        let after = State::decode(&left, self.slip).unwrap();
        let passes = |Acting { x, before }| {
            let left = after.travelling(x);
            left > before && left + lost[x] > after.most_of_sender()
        };
        if before.acting(word).is_some_and(passes) {
            return 17;
        }
        words.copy_from_slice(&left);
        0
    }
}
