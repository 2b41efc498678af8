//! Document 02's note 10: two rings become one.

use super::{Message, Node, Pair, Plain, Slip, State, CLOCK_LIMIT, POOL};
use crate::LENGTH;
use std::collections::BTreeSet;

impl State {
    /// 14, 15 and 16, "in rising order".
    fn joining_refusal(&self, second: &State) -> Option<u32> {
        let mut tried = [
            (14, self.sides_differ(second)),
            (15, self.tables_clash(second)),
            (16, self.messages.len() + second.messages.len() > POOL + self.has(Slip::JoinMessage1025) as usize),
        ];
        match self.slip {
            Some(Slip::JoinTablesFirst) => tried.swap(0, 1),
            Some(Slip::JoinMessagesFirst) => tried.swap(1, 2),
            _ => {}
        }
        tried.into_iter().find(|(_, applies)| *applies).map(|(refusal, _)| refusal)
    }

    /// "the two differ in A or B"
    fn sides_differ(&self, second: &State) -> bool {
        let ahead_only = self.has(Slip::JoinSidesAhead);
        self.sides.clockwise != second.sides.clockwise
            || self.sides.counter_clockwise != second.sides.counter_clockwise && !ahead_only
    }

    /// "more than 64 stands or a shared key"
    fn tables_clash(&self, second: &State) -> bool {
        let keys = |state: &State| state.nodes.iter().map(|node| node.key).collect::<BTreeSet<u32>>();
        let shared = !keys(self).is_disjoint(&keys(second)) && !self.has(Slip::JoinSharedKey);
        self.nodes.len() + second.nodes.len() > 64 + self.has(Slip::JoinNode65) as usize || shared
    }

    fn joined(&self, second: &State) -> State {
        let (n, more) = (self.nodes.len(), second.nodes.len());
        let ours = self.nodes.iter().map(|node| {
            let across = vec![self.across(node); more];
            Node { pairs: [node.pairs.clone(), across].concat(), ..node.clone() }
        });
        let theirs = second.nodes.iter().map(|node| {
            let risen = node.pairs.iter().map(|pair| self.risen_pair(pair)).collect();
            Node { pairs: [vec![Pair::default(); n], risen].concat(), ..node.clone() }
        });
        let mut nodes: Vec<Node> = ours.chain(theirs).collect();
        if self.has(Slip::JoinClocks) {
            let latest = nodes.iter().map(|node| node.clock).max().unwrap();
            nodes.iter_mut().for_each(|node| node.clock = latest);
        }
        State { sides: self.sides, nodes, messages: self.joined_messages(second), slip: self.slip }
    }

    /// "Across the two rings nobody is held and nobody is a candidate."
    fn across(&self, node: &Node) -> Pair {
        let held = node.running && self.has(Slip::JoinHeld);
        let commit = if held { node.clock } else { 0 };
        Pair { commit, held, candidate: node.running && self.has(Slip::JoinCandidate), spare: None }
    }

    /// A pair of the second ring. "Clocks, stamps and marks are kept."
    fn risen_pair(&self, pair: &Pair) -> Pair {
        let spare = match self.slip {
            Some(Slip::JoinSpareStays) => pair.spare,
            _ => self.risen(pair.spare, Slip::JoinSpare64),
        };
        let later = if pair.held && self.has(Slip::JoinCommits) { self.nodes.len() as u32 } else { 0 };
        Pair { spare, commit: CLOCK_LIMIT.min(pair.commit + later), ..pair.clone() }
    }

    /// "The second's numbers rise by the first's n .. 64 for none stays 64", but by the slip.
    fn risen(&self, node: Option<usize>, slip: Slip) -> Option<usize> {
        let n = self.nodes.len();
        node.map(|s| s + n).or(self.has(slip).then_some(64 + n))
    }

    /// "The first ring's messages come first, then the second's."
    fn joined_messages(&self, second: &State) -> Vec<Message> {
        let risen: Vec<Message> = second.messages.iter().map(|message| self.risen_message(message)).collect();
        let mut messages = match self.slip {
            Some(Slip::JoinSecondFirst) => [risen, self.messages.clone()].concat(),
            _ => [self.messages.clone(), risen].concat(),
        };
        messages.truncate(POOL);
        messages
    }

    fn risen_message(&self, message: &Message) -> Message {
        let n = self.nodes.len();
        let later = if message.stamp > 0 && self.has(Slip::JoinStamps) { n as u32 } else { 0 };
        Message {
            sender: message.sender + n,
            receiver: message.receiver + n,
            subject: self.risen(message.subject, Slip::JoinSubject64),
            stamp: CLOCK_LIMIT.min(message.stamp + later),
            view: self.risen_view(&message.view),
            ..*message
        }
    }

    fn risen_view(&self, view: &BTreeSet<usize>) -> BTreeSet<usize> {
        let n = self.nodes.len();
        match self.slip {
            Some(Slip::JoinViewStays) => view.clone(),
            Some(Slip::JoinViewCut) => view.iter().map(|s| s + n).filter(|s| s % 24 >= n).collect(),
            _ => view.iter().map(|s| s + n).collect(),
        }
    }
}

impl Plain {
    fn try_join(&self, first: &[u32], second: &[u32], joined: &mut [u32]) -> Result<(), u32> {
        if self.slip == Some(Slip::JoinRingsFirst) && first.len() == LENGTH {
            self.read(first)?;
        }
        let third_fits = joined.len() == LENGTH || self.slip == Some(Slip::JoinAnyThird);
        if first.len() != LENGTH || second.len() != LENGTH || !third_fits {
            return Err(1);
        }
        let (first, second) = (self.read(first)?, self.read(second)?);
        if self.slip == Some(Slip::JoinThirdRead) {
            self.read(joined)?;
        }
        if let Some(refusal) = first.joining_refusal(&second) {
            return Err(refusal);
        }
        let unused_kept = self.slip == Some(Slip::JoinUnusedKept);
        let words = first.joined(&second).encode();
        let places = joined.iter_mut().zip(words).filter(|(_, word)| *word != 0 || !unused_kept);
        places.for_each(|(place, word)| *place = word);
        Ok(())
    }

    pub(super) fn join_rings(&self, first: &[u32], second: &[u32], joined: &mut [u32]) -> u32 {
        let outcome = self.try_join(first, second, joined);
        if outcome.is_err() && self.slip == Some(Slip::JoinRefusedWrites) {
            joined.iter_mut().zip(first).for_each(|(place, &word)| *place = word);
        }
        outcome.err().unwrap_or(0)
    }
}
