//! Document 01 with document 02's notes, once more, simple and slow: the words are decoded to plain structs, the event is played on them, and they
//! are encoded again. Written from their text alone, and not from the reference.
//!
//! A [`Slip`] makes it a wrong program, for the self-test of the harness.

mod joins;
pub mod listener;
mod reaches;
mod senders;
mod shorts;

use crate::ring::{play_each, Conductor, Ring, Routed, Shortened, Sides, Technician};
use crate::LENGTH;
use std::collections::BTreeSet;

/// Wrong programs: what document 01 warns of, and slips at the edges of the rules.
#[derive(Clone, Copy, PartialEq, Debug)]
pub enum Slip {
    /// "Comparing stamps with 'not above'."
    StampNotAbove,
    /// "Commit 0 for a stand taken in again."
    CommitZero,
    /// "Offering the asker as its own spare."
    AskerAsSpare,
    /// "Sorting keys without the wrap."
    NoWrap,
    /// One that never lets go on 10.
    NeverRelease,
    /// "One that trades a link at timer 3."
    ReleaseAtTimer3,
    /// On 10, lets go of z whatever its commit.
    CommitIgnored,
    /// On 10, lets go of z without taking y in.
    ReleaseWithoutHold,
    /// On 9, the commit doesn't become now.
    CommitNotRenewed,
    /// On 10, the leafset is the one after y is held.
    LeafsetAfterHold,
    /// Type 7's tie goes to the counter-clockwise one.
    TieCounterClockwise,
    /// Timer 0 takes only the invited from the candidates.
    CandidatesKept,
    /// Timer 0 asks, then invites.
    AskFirst,
    /// Timer 0 only invites, as timer 1 did.
    InviteOnly,
    /// Timer 0 only asks, as it did before.
    AskOnly,
    /// Timer 0 raises the clock twice.
    TwoTicks,
    /// Timer 0 is refused by 11 only where its invitations don't fit; of its questions it sends those that do.
    RoomToInvite,
    /// Timer 1 still invites.
    OldTimer1,
    /// A counter-clockwise, B clockwise.
    SidesSwapped,
    /// "Fewer than" 2 times A in place of A + B.
    TwiceClockwise,
    /// A notice strikes its subject from the candidates only where it was held.
    NoticeStrikesHeld,
    /// A notice strikes everybody from the candidates.
    NoticeStrikesAll,
    /// Type 13 only strikes its sender from the candidates.
    LeaveStrikesOnly,
    /// Type 13 only lets go of its sender.
    LeaveReleasesOnly,
    /// Every off sends type 13.
    LeaveAlways,
    /// A polite off sends type 13 once nobody is held any more.
    LeaveAfterClearing,
    /// Type 13 only to held nodes that run.
    LeaveToRunning,
    /// A polite off raises the clock.
    LeaveTicks,
    /// An echo is no event, as before.
    EchoUnknown,
    /// An echo moves its message behind the others.
    EchoMoves,
    /// An echo takes its message out after all.
    EchoTakesOut,
    /// An echo to a node that is off takes its message out.
    EchoOffTakesOut,
    /// An echo doesn't raise the clock.
    EchoKeepsClock,
    /// Refusal 11 counts an echo's message as taken out; an answer for which there is no place is dropped.
    EchoUncounted,
    /// Refusal 11 for every echo while the pool is full.
    EchoFullPool,
    /// A lose with bit 10 is a lose.
    LoseBit10,
    /// "One that always finds stands connected."
    AlwaysConnected,
    /// Groups count the nodes that are off, too.
    GroupsOfAll,
    /// Refusal 11 where exactly 1,024 messages would be left.
    FullPoolEarly,
    /// Refusal 8 before refusal 7.
    OffBeforeUnknown,
    /// A route's tie goes to the counter-clockwise one, in choosing and in beating.
    RouteTieOther,
    /// A tie stops a route: only a smaller distance beats.
    RouteDistanceOnly,
    /// A route goes to held nodes that are off, too.
    RouteThroughOff,
    /// A route goes to candidates, too.
    RouteCandidates,
    /// A route goes to the leafset of the held nodes only.
    RouteLeafset,
    /// A refused route writes its start into the list.
    RouteRefusedWrites,
    /// Hops are the nodes of the route, one too many.
    RouteHopsOne,
    /// Refusal 13 before refusal 12.
    RouteListFirst,
    /// A route is content with a list of n places.
    RouteShortList,
    /// A refused preview copies the ring.
    PreviewRefusedCopies,
    /// An accepted preview leaves the ring's old words in the second buffer.
    PreviewUnplayed,
    /// A preview plays on the ring, too.
    PreviewPlays,
    /// The event's refusals before refusal 1 of the second buffer.
    PreviewLengthLast,
    /// Refusal 1 for the ring's length alone.
    PreviewAnySecond,
    /// A preview is content with a longer second buffer.
    PreviewLongSecond,
    /// The conductor's keys have the low bits of the clocks above them.
    ScreenClock,
    /// The conductor's leafsets are of the held nodes and the candidates.
    ScreenCandidates,
    /// A node that is off has a leafset, too, of all running nodes.
    ScreenOffLeafset,
    /// The conductor's leafsets are of all running nodes.
    ScreenAllRunning,
    /// The conductor's leafsets are of the held nodes that run.
    ScreenHeldRunning,
    /// The conductor sees the held sets.
    ScreenHeldSets,
    /// The part has one message more, where there is room.
    ScreenPartLonger,
    /// The part begins one word early.
    ScreenPartEarly,
    /// The part has as many messages as word 0 says, though the words don't read as a ring.
    ScreenPartUnread,
    /// Places of no pair have 64 for a spare.
    ScreenNoPair64,
    /// A refused call shows 64 for each spare.
    ScreenRefused64,
    /// A refused call shows n.
    ScreenRefusedNodes,
    /// A refused call leaves lent arrays as they are.
    ScreenRefusedKeeps,
    /// An accepted call leaves places of no node and of no pair as they are.
    ScreenUnusedKept,
    /// The stamp of (x, z) is at 64 z + x.
    ScreenStampsTurned,
    /// The spare of (x, z) is at n x + z.
    ScreenSparesPacked,
    /// A join's subject 64 rises, too.
    JoinSubject64,
    /// A join's views keep their numbers.
    JoinViewStays,
    /// A join's views rise within each word: bits that leave it are lost.
    JoinViewCut,
    /// In a join the second ring's messages come first.
    JoinSecondFirst,
    /// A join's spares keep their numbers.
    JoinSpareStays,
    /// A join's spare 64 rises, too.
    JoinSpare64,
    /// Refusal 15 before refusal 14.
    JoinTablesFirst,
    /// Refusal 16 before refusal 15.
    JoinMessagesFirst,
    /// Rings that differ in B alone are joined.
    JoinSidesAhead,
    /// Rings that share a key are joined.
    JoinSharedKey,
    /// 64 + 1 nodes are joined.
    JoinNode65,
    /// 1,025 messages are joined; the last is dropped.
    JoinMessage1025,
    /// In a join the first ring's running nodes have the second's as candidates.
    JoinCandidate,
    /// In a join the first ring's running nodes hold the second's.
    JoinHeld,
    /// In a join each clock becomes the latest.
    JoinClocks,
    /// A join's commit stamps rise with the numbers.
    JoinCommits,
    /// A join's messages' stamps rise with the numbers.
    JoinStamps,
    /// Refusal 6 for the third buffer's old words, too.
    JoinThirdRead,
    /// Refusal 6 of the first source before refusal 1.
    JoinRingsFirst,
    /// A join is content with a third buffer of any length.
    JoinAnyThird,
    /// A join leaves the third buffer's places of no node, pair and message as they are.
    JoinUnusedKept,
    /// A refused join copies its first source.
    JoinRefusedWrites,
    /// A finger skips the node at its very place.
    ReachSkipsPlace,
    /// A finger past key 16,777,215 is looked for from 0 on.
    ReachFromZero,
    /// Fingers are among the held nodes and the node itself.
    ReachHeld,
    /// Nodes that are off are met, too.
    ReachMeetsOff,
    /// Fingers up to the key, one at it included.
    ReachAtKey,
    /// A reach goes to the nearest finger before the key.
    ReachNearest,
    /// The span 4,096 is 4,095.
    ReachSpanMiddle,
    /// The span 8,388,608 is 8,388,609.
    ReachSpanLast,
    /// Without a finger before the key a reach goes to that of span 2.
    ReachSpan2,
    /// The owner of a key is strictly after it.
    ReachOwnerAfter,
    /// Hops are the nodes of the reach, one too many.
    ReachHopsOne,
    /// A refused reach answers node 0.
    ReachRefused0,
    /// Refusal 12 before refusal 8.
    ReachKeyFirst,
    /// A reach to key 16,777,216 is made.
    ReachKeyAbove,
    /// A sender has at most 255 messages travelling.
    Sender255,
    /// A sender has at most 257 messages travelling.
    Sender257,
    /// Refusal 17 before refusal 11.
    SenderFirst,
    /// An echo that is answered counts its message as one of the answering node's.
    SenderEchoed,
    /// Counted are the messages that a node is to receive.
    SenderReceives,
    /// An answer is never refused with 17.
    SenderAnswers,
    /// Words with 257 of a sender don't read as a ring, but no event is refused with 17.
    SenderNeverFull,
    /// Words with 257 of a sender read as a ring; only events are refused, with 17.
    SenderAnyRing,
    /// Refusal 17 only where not even the first message of an event fits.
    SenderOneFits,
    /// In a list a lost message still counts for its sender.
    SenderLost,
    /// A polite off is never refused with 17.
    SenderLeaves,
    /// The short edition keeps the words of a node with itself.
    ShortOwnPair,
    /// The short edition lacks the last message.
    ShortMessageLess,
    /// In the short edition each node is followed by its pairs.
    ShortNodeThenPairs,
    /// In the short edition the pairs (x, z) come by z first.
    ShortOtherFirst,
    /// Refusal 20 for a longer place, too.
    ShortLongerPlace,
    /// A place of one word less is filled as far as it goes.
    ShortPlaceLess,
    /// Refusal 19 where the place is too small.
    ShortPlace19,
    /// Refusal 20 of an empty place before refusal 6.
    ShortPlaceFirst,
    /// Words of the place beyond the short edition become 0.
    ShortBeyond,
    /// Refused, the place gets the ring's first words.
    ShortRefusedWrites,
    /// Refusal 20 gives the length that the place lacks.
    ShortRefusedLength,
    /// A short input with n = 0 is made long.
    ShortNoNodes,
    /// A short input with m above 1,024 is made long; the last messages are dropped.
    ShortMessage1025,
    /// A short input of one word more is made long.
    ShortOneLonger,
    /// A short input is made long though the words don't read as a ring.
    ShortUnread,
    /// A short input with 257 of a sender is made long.
    ShortSender257,
    /// Made long, words that belong to nothing stay as they are.
    ShortOldKept,
    /// The long buffer is cleared before refusal 19.
    ShortWritesFirst,
    /// Refusal 6 for the long buffer's old words.
    ShortOldRead,
    /// Refusal 19 before refusal 1.
    ShortLongLast,
    /// A short input is made long in a longer buffer, too.
    ShortLongerLong,
    /// Reads as a ring with a commit stamp one above the clock.
    CommitAboveClock,
    /// Reads as a ring with a node as its own spare.
    OwnSpare,
    /// Reads as a ring with a view that holds its receiver.
    ReceiverInView,
    /// Reads as a ring with a type 13 whose subject is its sender.
    LeaveNamesSender,
    /// Reads as a ring with two equal keys.
    EqualKeys,
    /// Reads as a ring with a word that is not 0 where a node is paired with itself.
    Diagonal,
    /// Reads as a ring whatever the last word is.
    LastWord,
}

impl Slip {
    pub const ALL: [Slip; 146] = [
        Slip::StampNotAbove,
        Slip::CommitZero,
        Slip::AskerAsSpare,
        Slip::NoWrap,
        Slip::NeverRelease,
        Slip::ReleaseAtTimer3,
        Slip::CommitIgnored,
        Slip::ReleaseWithoutHold,
        Slip::CommitNotRenewed,
        Slip::LeafsetAfterHold,
        Slip::TieCounterClockwise,
        Slip::CandidatesKept,
        Slip::AskFirst,
        Slip::InviteOnly,
        Slip::AskOnly,
        Slip::TwoTicks,
        Slip::RoomToInvite,
        Slip::OldTimer1,
        Slip::SidesSwapped,
        Slip::TwiceClockwise,
        Slip::NoticeStrikesHeld,
        Slip::NoticeStrikesAll,
        Slip::LeaveStrikesOnly,
        Slip::LeaveReleasesOnly,
        Slip::LeaveAlways,
        Slip::LeaveAfterClearing,
        Slip::LeaveToRunning,
        Slip::LeaveTicks,
        Slip::EchoUnknown,
        Slip::EchoMoves,
        Slip::EchoTakesOut,
        Slip::EchoOffTakesOut,
        Slip::EchoKeepsClock,
        Slip::EchoUncounted,
        Slip::EchoFullPool,
        Slip::LoseBit10,
        Slip::AlwaysConnected,
        Slip::GroupsOfAll,
        Slip::FullPoolEarly,
        Slip::OffBeforeUnknown,
        Slip::RouteTieOther,
        Slip::RouteDistanceOnly,
        Slip::RouteThroughOff,
        Slip::RouteCandidates,
        Slip::RouteLeafset,
        Slip::RouteRefusedWrites,
        Slip::RouteHopsOne,
        Slip::RouteListFirst,
        Slip::RouteShortList,
        Slip::PreviewRefusedCopies,
        Slip::PreviewUnplayed,
        Slip::PreviewPlays,
        Slip::PreviewLengthLast,
        Slip::PreviewAnySecond,
        Slip::PreviewLongSecond,
        Slip::ScreenClock,
        Slip::ScreenCandidates,
        Slip::ScreenOffLeafset,
        Slip::ScreenAllRunning,
        Slip::ScreenHeldRunning,
        Slip::ScreenHeldSets,
        Slip::ScreenPartLonger,
        Slip::ScreenPartEarly,
        Slip::ScreenPartUnread,
        Slip::ScreenNoPair64,
        Slip::ScreenRefused64,
        Slip::ScreenRefusedNodes,
        Slip::ScreenRefusedKeeps,
        Slip::ScreenUnusedKept,
        Slip::ScreenStampsTurned,
        Slip::ScreenSparesPacked,
        Slip::JoinSubject64,
        Slip::JoinViewStays,
        Slip::JoinViewCut,
        Slip::JoinSecondFirst,
        Slip::JoinSpareStays,
        Slip::JoinSpare64,
        Slip::JoinTablesFirst,
        Slip::JoinMessagesFirst,
        Slip::JoinSidesAhead,
        Slip::JoinSharedKey,
        Slip::JoinNode65,
        Slip::JoinMessage1025,
        Slip::JoinCandidate,
        Slip::JoinHeld,
        Slip::JoinClocks,
        Slip::JoinCommits,
        Slip::JoinStamps,
        Slip::JoinThirdRead,
        Slip::JoinRingsFirst,
        Slip::JoinAnyThird,
        Slip::JoinUnusedKept,
        Slip::JoinRefusedWrites,
        Slip::ReachSkipsPlace,
        Slip::ReachFromZero,
        Slip::ReachHeld,
        Slip::ReachMeetsOff,
        Slip::ReachAtKey,
        Slip::ReachNearest,
        Slip::ReachSpanMiddle,
        Slip::ReachSpanLast,
        Slip::ReachSpan2,
        Slip::ReachOwnerAfter,
        Slip::ReachHopsOne,
        Slip::ReachRefused0,
        Slip::ReachKeyFirst,
        Slip::ReachKeyAbove,
        Slip::Sender255,
        Slip::Sender257,
        Slip::SenderFirst,
        Slip::SenderEchoed,
        Slip::SenderReceives,
        Slip::SenderAnswers,
        Slip::SenderNeverFull,
        Slip::SenderAnyRing,
        Slip::SenderOneFits,
        Slip::SenderLost,
        Slip::SenderLeaves,
        Slip::ShortOwnPair,
        Slip::ShortMessageLess,
        Slip::ShortNodeThenPairs,
        Slip::ShortOtherFirst,
        Slip::ShortLongerPlace,
        Slip::ShortPlaceLess,
        Slip::ShortPlace19,
        Slip::ShortPlaceFirst,
        Slip::ShortBeyond,
        Slip::ShortRefusedWrites,
        Slip::ShortRefusedLength,
        Slip::ShortNoNodes,
        Slip::ShortMessage1025,
        Slip::ShortOneLonger,
        Slip::ShortUnread,
        Slip::ShortSender257,
        Slip::ShortOldKept,
        Slip::ShortWritesFirst,
        Slip::ShortOldRead,
        Slip::ShortLongLast,
        Slip::ShortLongerLong,
        Slip::CommitAboveClock,
        Slip::OwnSpare,
        Slip::ReceiverInView,
        Slip::LeaveNamesSender,
        Slip::EqualKeys,
        Slip::Diagonal,
        Slip::LastWord,
    ];

    /// Those of joins.
    pub fn of_join(self) -> bool {
        format!("{self:?}").starts_with("Join")
    }

    /// Those of reaches.
    pub fn of_reach(self) -> bool {
        format!("{self:?}").starts_with("Reach")
    }

    /// Those of short editions.
    pub fn of_short(self) -> bool {
        format!("{self:?}").starts_with("Short")
    }
}

pub struct Plain {
    pub slip: Option<Slip>,
}

const CLOCK_LIMIT: u32 = 16_777_215;
const POOL: usize = 1_024;
const PLACES: u32 = 16_777_216;

const TIMERS: [u32; 4] = [0, 2, 3, 4];

#[derive(Clone, Default)]
struct Pair {
    commit: u32,
    held: bool,
    candidate: bool,
    spare: Option<usize>,
}

#[derive(Clone)]
struct Node {
    key: u32,
    running: bool,
    clock: u32,
    /// One for each node; the one for the node itself stays as it is made.
    pairs: Vec<Pair>,
}

#[derive(Clone)]
struct Message {
    kind: u32,
    sender: usize,
    receiver: usize,
    subject: Option<usize>,
    stamp: u32,
    view: BTreeSet<usize>,
}

impl Message {
    fn new(kind: u32, sender: usize, receiver: usize) -> Message {
        Message { kind, sender, receiver, subject: None, stamp: 0, view: BTreeSet::new() }
    }
}

struct State {
    sides: Sides,
    nodes: Vec<Node>,
    messages: Vec<Message>,
    slip: Option<Slip>,
}

/// Bits `from` to `to` of a word, both included.
fn bits(word: u32, from: u32, to: u32) -> u32 {
    word >> from & (2u32.pow(to - from + 1) - 1)
}

/// A node number, or 64 for none.
fn node_or_none(number: u32) -> Option<usize> {
    (number != 64).then_some(number as usize)
}

fn number_or_64(node: Option<usize>) -> u32 {
    node.map_or(64, |s| s as u32)
}

// Between words and structs.

impl Pair {
    fn decode(words: &[u32]) -> Pair {
        Pair {
            commit: bits(words[0], 0, 23),
            held: bits(words[0], 24, 24) == 1,
            candidate: bits(words[0], 25, 25) == 1,
            spare: node_or_none(bits(words[1], 0, 6)),
        }
    }

    fn encode(&self) -> [u32; 2] {
        let marks = (self.held as u32) << 24 | (self.candidate as u32) << 25;
        [3 << 28 | self.commit | marks, 4 << 28 | number_or_64(self.spare)]
    }
}

impl Message {
    fn decode(words: &[u32]) -> Message {
        let in_view = |s: &usize| words[2 + s / 24] >> (s % 24) & 1 == 1;
        Message {
            kind: bits(words[0], 0, 3),
            sender: bits(words[0], 4, 9) as usize,
            receiver: bits(words[0], 10, 15) as usize,
            subject: node_or_none(bits(words[0], 16, 22)),
            stamp: bits(words[1], 0, 23),
            view: (0..64).filter(in_view).collect(),
        }
    }

    fn encode(&self) -> [u32; 5] {
        let ends = (self.sender as u32) << 4 | (self.receiver as u32) << 10;
        let mut words = [6 << 28 | self.kind | ends | number_or_64(self.subject) << 16, 7 << 28 | self.stamp, 0, 0, 0];
        for (part, word) in words[2..].iter_mut().enumerate() {
            *word = 8 << 28;
            for &s in self.view.iter().filter(|&&s| s / 24 == part) {
                *word += 1 << (s % 24);
            }
        }
        words
    }
}

impl State {
    /// The ring in the words, where they read as one: what was decoded has to fit and give the same words again.
    fn decode(words: &[u32], slip: Option<Slip>) -> Option<State> {
        let n = bits(words[0], 4, 10) as usize;
        let m = bits(words[0], 11, 21) as usize;
        if n > 64 || m > POOL {
            return None;
        }
        let node = |s: usize| Node {
            key: bits(words[1 + 2 * s], 0, 23),
            running: bits(words[1 + 2 * s], 24, 24) == 1,
            clock: bits(words[2 + 2 * s], 0, 23),
            pairs: (0..n).map(|z| Pair::decode(&words[129 + 2 * (64 * s + z)..])).collect(),
        };
        let state = State {
            sides: Sides { clockwise: bits(words[0], 0, 3), counter_clockwise: bits(words[0], 22, 25) },
            nodes: (0..n).map(node).collect(),
            messages: (0..m).map(|p| Message::decode(&words[8321 + 5 * p..])).collect(),
            slip,
        };
        (state.fits() && state.same_words(words)).then_some(state)
    }

    fn encode(&self) -> Vec<u32> {
        let mut words = vec![0; LENGTH];
        let n = self.nodes.len();
        words[0] = 1 << 28
            | self.sides.clockwise
            | (n as u32) << 4
            | (self.messages.len() as u32) << 11
            | self.sides.counter_clockwise << 22;
        for (x, node) in self.nodes.iter().enumerate() {
            words[1 + 2 * x] = 2 << 28 | node.key | (node.running as u32) << 24;
            words[2 + 2 * x] = 5 << 28 | node.clock;
            for (z, pair) in node.pairs.iter().enumerate().filter(|&(z, _)| z != x) {
                let at = 129 + 2 * (64 * x + z);
                words[at..at + 2].copy_from_slice(&pair.encode());
            }
        }
        for (p, message) in self.messages.iter().enumerate() {
            words[8321 + 5 * p..8326 + 5 * p].copy_from_slice(&message.encode());
        }
        words
    }

    fn same_words(&self, words: &[u32]) -> bool {
        let mut again = self.encode();
        if self.has(Slip::LastWord) {
            again[LENGTH - 1] = words[LENGTH - 1];
        }
        if self.has(Slip::Diagonal) {
            again[129] = words[129];
        }
        again == words
    }

    fn has(&self, slip: Slip) -> bool {
        self.slip == Some(slip)
    }

    // What makes it a ring.

    fn fits(&self) -> bool {
        let n = self.nodes.len();
        let keys: BTreeSet<u32> = self.nodes.iter().map(|node| node.key).collect();
        (1..=8).contains(&self.sides.clockwise)
            && (1..=8).contains(&self.sides.counter_clockwise)
            && n >= 1
            && (keys.len() == n || self.has(Slip::EqualKeys))
            && (0..n).all(|x| (0..n).all(|z| x == z || self.pair_fits(x, z)))
            && self.messages.iter().all(|message| self.message_fits(message))
            && self.senders_fit()
    }

    fn pair_fits(&self, x: usize, z: usize) -> bool {
        let (node, pair) = (&self.nodes[x], &self.nodes[x].pairs[z]);
        let latest = node.clock + self.has(Slip::CommitAboveClock) as u32;
        let spare_fits = |s: usize| s < self.nodes.len() && (s != x || self.has(Slip::OwnSpare)) && s != z;
        (pair.commit == 0) == !pair.held
            && pair.commit <= latest
            && (pair.held || pair.spare.is_none())
            && pair.spare.is_none_or(spare_fits)
            && (node.running || !pair.held && !pair.candidate)
    }

    fn message_fits(&self, message: &Message) -> bool {
        let n = self.nodes.len();
        let (sender, receiver) = (message.sender, message.receiver);
        let subject_fits = match (message.kind, message.subject) {
            (8, Some(s)) => s < n && s != sender && s != receiver,
            (9..=11, Some(s)) => s < n,
            (9..=11, None) => false,
            (13, Some(s)) => s == sender && self.has(Slip::LeaveNamesSender),
            (_, subject) => subject.is_none(),
        };
        let stamp_fits = message.kind == 9 || message.kind == 10 || message.stamp == 0;
        let seen = |s: &usize| *s < n && (*s != receiver || self.has(Slip::ReceiverInView));
        let view_fits = message.view.is_empty() || message.kind == 4 && message.view.iter().all(seen);
        let ends_fit = sender < n && receiver < n && sender != receiver;
        (1..=13).contains(&message.kind) && ends_fit && subject_fits && stamp_fits && view_fits
    }

    // Keys and leafsets.

    fn clockwise(&self, a: usize, b: usize) -> u32 {
        (PLACES + self.nodes[b].key - self.nodes[a].key) % PLACES
    }

    fn distance(&self, a: usize, b: usize) -> u32 {
        self.clockwise(a, b).min(self.clockwise(b, a))
    }

    fn leafset(&self, x: usize, set: &BTreeSet<usize>) -> BTreeSet<usize> {
        let mut others: Vec<usize> = set.iter().copied().filter(|&s| s != x).collect();
        let (mut a, mut b) = (self.sides.clockwise as usize, self.sides.counter_clockwise as usize);
        if self.has(Slip::SidesSwapped) {
            (a, b) = (b, a);
        }
        let few = if self.has(Slip::TwiceClockwise) { 2 * a } else { a + b };
        if others.len() < few || others.len() < a + b {
            return others.into_iter().collect();
        }
        if self.has(Slip::NoWrap) {
            others.sort_by_key(|&s| self.nodes[s].key.abs_diff(self.nodes[x].key));
            return others[..a + b].iter().copied().collect();
        }
        others.sort_by_key(|&s| self.clockwise(x, s));
        let last = others.len() - b;
        others[..a].iter().chain(&others[last..]).copied().collect()
    }

    fn held(&self, x: usize) -> BTreeSet<usize> {
        (0..self.nodes.len()).filter(|&z| self.nodes[x].pairs[z].held).collect()
    }

    fn candidates(&self, x: usize) -> BTreeSet<usize> {
        (0..self.nodes.len()).filter(|&z| self.nodes[x].pairs[z].candidate).collect()
    }

    fn own_leafset(&self, x: usize) -> BTreeSet<usize> {
        self.leafset(x, &self.held(x))
    }

    // Events.

    fn play(&mut self, word: u32) -> Result<(), u32> {
        let (x, y) = (bits(word, 0, 5) as usize, bits(word, 6, 11) as usize);
        match bits(word, 28, 31) {
            9 => self.on(x),
            10 => self.off(x, bits(word, 12, 12) == 1),
            11 => self.notice(x, y),
            12 => self.contact(x, y),
            13 => self.timer(x, bits(word, 12, 14)),
            14 if bits(word, 10, 10) == 1 => self.echo(bits(word, 0, 9) as usize),
            14 => self.deliver(bits(word, 0, 9) as usize),
            _ => self.take_out(bits(word, 0, 9) as usize).map(|_| ()),
        }
    }

    /// Refusals 7, 8 and 10 for a notice, contact or timer at x.
    fn can_act(&self, x: usize, other: usize) -> Result<(), u32> {
        if self.has(Slip::OffBeforeUnknown) && self.nodes.get(x).is_some_and(|node| !node.running) {
            return Err(8);
        }
        if x >= self.nodes.len() || other >= self.nodes.len() {
            Err(7)
        } else if !self.nodes[x].running {
            Err(8)
        } else if self.nodes[x].clock == CLOCK_LIMIT {
            Err(10)
        } else {
            Ok(())
        }
    }

    fn tick(&mut self, x: usize) -> u32 {
        self.nodes[x].clock += 1;
        self.nodes[x].clock
    }

    fn on(&mut self, x: usize) -> Result<(), u32> {
        let node = self.nodes.get_mut(x).ok_or(7u32)?;
        if node.running {
            return Err(9);
        }
        if node.clock == CLOCK_LIMIT {
            return Err(10);
        }
        node.clock += 1;
        node.running = true;
        Ok(())
    }

    fn off(&mut self, x: usize, polite: bool) -> Result<(), u32> {
        if !self.nodes.get(x).ok_or(7u32)?.running {
            return Err(8);
        }
        if (polite || self.has(Slip::LeaveAlways)) && !self.has(Slip::LeaveAfterClearing) {
            self.leave(x);
        }
        self.nodes[x].running = false;
        self.nodes[x].pairs.fill(Pair::default());
        Ok(())
    }

    /// Type 13 to each held node.
    fn leave(&mut self, x: usize) {
        for y in self.held(x) {
            if self.nodes[y].running || !self.has(Slip::LeaveToRunning) {
                self.messages.push(Message::new(13, x, y));
            }
        }
        if self.has(Slip::LeaveTicks) {
            self.tick(x);
        }
    }

    fn notice(&mut self, x: usize, subject: usize) -> Result<(), u32> {
        self.can_act(x, subject)?;
        self.tick(x);
        let held = self.nodes[x].pairs[subject].held;
        self.release(x, subject);
        match self.slip {
            Some(Slip::NoticeStrikesHeld) if !held => {}
            Some(Slip::NoticeStrikesAll) => self.nodes[x].pairs.iter_mut().for_each(|pair| pair.candidate = false),
            _ => self.nodes[x].pairs[subject].candidate = false,
        }
        Ok(())
    }

    fn contact(&mut self, x: usize, y: usize) -> Result<(), u32> {
        self.can_act(x, y)?;
        self.tick(x);
        self.messages.push(Message::new(1, x, y));
        Ok(())
    }

    fn timer(&mut self, x: usize, timer: u32) -> Result<(), u32> {
        self.can_act(x, x)?;
        let now = self.tick(x);
        let held = self.held(x);
        let leafset = self.own_leafset(x);
        match timer {
            0 => self.invite_and_ask(x),
            // As it was, by a slip.
            1 => self.invite(x),
            2 => held.difference(&leafset).for_each(|&y| self.messages.push(Message::new(7, x, y))),
            3 => held.difference(&leafset).for_each(|&z| self.request(x, z, now)),
            _ => {
                if let Some(successor) = self.successor(x).filter(|&successor| self.passes_zero(x, successor)) {
                    self.messages.push(Message { subject: Some(x), ..Message::new(11, x, successor) });
                }
            }
        }
        Ok(())
    }

    /// Timer 0: "those of the old timer 1, then those of the old timer 0".
    fn invite_and_ask(&mut self, x: usize) {
        match self.slip {
            Some(Slip::InviteOnly) => self.invite(x),
            Some(Slip::AskOnly) => self.ask_held(x),
            Some(Slip::AskFirst) => {
                self.ask_held(x);
                self.invite(x);
            }
            _ => {
                self.invite(x);
                let invited = self.messages.len();
                self.ask_held(x);
                if self.has(Slip::RoomToInvite) {
                    self.messages.truncate(invited.max(POOL));
                }
            }
        }
        if self.has(Slip::TwoTicks) {
            self.tick(x);
        }
    }

    fn ask_held(&mut self, x: usize) {
        self.held(x).into_iter().for_each(|y| self.messages.push(Message::new(3, x, y)));
    }

    fn invite(&mut self, x: usize) {
        let (held, candidates) = (self.held(x), self.candidates(x));
        let near = self.leafset(x, &held.union(&candidates).copied().collect());
        for &y in candidates.difference(&held).filter(|y| near.contains(y)) {
            self.messages.push(Message::new(5, x, y));
            self.nodes[x].pairs[y].candidate = false;
        }
        if !self.has(Slip::CandidatesKept) {
            self.nodes[x].pairs.iter_mut().for_each(|pair| pair.candidate = false);
        }
    }

    /// Type 9 to the spare of z, if there is one.
    fn request(&mut self, x: usize, z: usize, now: u32) {
        let Some(spare) = self.nodes[x].pairs[z].spare else { return };
        self.messages.push(Message { subject: Some(z), stamp: now, ..Message::new(9, x, spare) });
        if self.has(Slip::ReleaseAtTimer3) {
            self.release(x, z);
        }
    }

    fn successor(&self, x: usize) -> Option<usize> {
        self.held(x).into_iter().min_by_key(|&z| self.clockwise(x, z))
    }

    fn passes_zero(&self, x: usize, successor: usize) -> bool {
        (PLACES - self.nodes[x].key) % PLACES < self.clockwise(x, successor)
    }

    fn hold(&mut self, x: usize, y: usize, now: u32) {
        let commit = if self.has(Slip::CommitZero) { 0 } else { now };
        let pair = &mut self.nodes[x].pairs[y];
        if !pair.held {
            *pair = Pair { held: true, commit, spare: None, ..*pair };
        }
    }

    fn release(&mut self, x: usize, z: usize) {
        let pair = &mut self.nodes[x].pairs[z];
        *pair = Pair { held: false, commit: 0, spare: None, ..*pair };
    }

    fn take_out(&mut self, position: usize) -> Result<Message, u32> {
        if position >= self.messages.len() {
            return Err(7);
        }
        Ok(self.messages.remove(position))
    }

    fn deliver(&mut self, position: usize) -> Result<(), u32> {
        let message = self.take_out(position)?;
        let x = message.receiver;
        if !self.nodes[x].running {
            return Ok(());
        }
        if self.nodes[x].clock == CLOCK_LIMIT {
            return Err(10);
        }
        let now = self.tick(x);
        self.receive(message, now);
        Ok(())
    }

    /// "A deliver event with bit 10 set delivers and leaves the message in its position."
    fn echo(&mut self, position: usize) -> Result<(), u32> {
        let message = self.messages.get(position).ok_or(7u32)?.clone();
        let x = message.receiver;
        if !self.nodes[x].running {
            if self.has(Slip::EchoOffTakesOut) {
                self.messages.remove(position);
            }
            return Ok(());
        }
        if self.nodes[x].clock == CLOCK_LIMIT {
            return Err(10);
        }
        if self.has(Slip::EchoFullPool) && self.messages.len() == POOL {
            return Err(11);
        }
        let now = if self.has(Slip::EchoKeepsClock) { self.nodes[x].clock } else { self.tick(x) };
        self.displace(position);
        self.receive(message, now);
        if self.has(Slip::EchoUncounted) {
            self.messages.truncate(POOL);
        }
        Ok(())
    }

    /// What slips do to an echo's message, which has to stay.
    fn displace(&mut self, position: usize) {
        if self.has(Slip::EchoTakesOut) {
            self.messages.remove(position);
        }
        if self.has(Slip::EchoMoves) {
            self.messages[position..].rotate_left(1);
        }
    }

    fn receive(&mut self, message: Message, now: u32) {
        let (x, a) = (message.receiver, message.sender);
        match message.kind {
            1 => self.messages.push(Message::new(2, x, a)),
            2 => self.hold(x, a, now),
            3 => {
                let view = self.leafset(a, &self.held(x));
                self.messages.push(Message { view, ..Message::new(4, x, a) });
                self.nodes[x].pairs[a].candidate = true;
            }
            4 => message.view.iter().for_each(|&z| self.nodes[x].pairs[z].candidate = true),
            5 => self.messages.push(Message::new(6, x, a)),
            6 => {
                let mut with_sender = self.held(x);
                with_sender.insert(a);
                if self.leafset(x, &with_sender).contains(&a) {
                    self.hold(x, a, now);
                }
            }
            7 => {
                let subject = self.offer(x, a);
                self.messages.push(Message { subject, ..Message::new(8, x, a) });
            }
            8 if self.nodes[x].pairs[a].held => self.nodes[x].pairs[a].spare = message.subject,
            9 => self.requested(&message, now),
            10 => self.acknowledged(&message, now),
            11 => self.pass_on(x, message.subject.unwrap()),
            12 => self.nodes[x].pairs[a].candidate = true,
            13 => self.left(x, a),
            _ => {}
        }
    }

    /// On 13 from a at x.
    fn left(&mut self, x: usize, a: usize) {
        if !self.has(Slip::LeaveStrikesOnly) {
            self.release(x, a);
        }
        if !self.has(Slip::LeaveReleasesOnly) {
            self.nodes[x].pairs[a].candidate = false;
        }
    }

    /// Type 7's choice at x for a.
    fn offer(&self, x: usize, a: usize) -> Option<usize> {
        let mut nearer = self.own_leafset(x);
        nearer.retain(|&z| (z != a || self.has(Slip::AskerAsSpare)) && self.distance(a, z) < self.distance(a, x));
        let least = nearer.iter().map(|&z| self.distance(a, z)).min()?;
        let nearest: Vec<usize> = nearer.into_iter().filter(|&z| self.distance(a, z) == least).collect();
        let wanted = if self.has(Slip::TieCounterClockwise) { PLACES - least } else { least };
        nearest.iter().copied().find(|&z| self.clockwise(a, z) == wanted).or(nearest.first().copied())
    }

    fn requested(&mut self, request: &Message, now: u32) {
        let x = request.receiver;
        let renew = !self.has(Slip::CommitNotRenewed);
        let pair = &mut self.nodes[x].pairs[request.subject.unwrap()];
        if !pair.held {
            return;
        }
        if renew {
            pair.commit = now;
        }
        self.messages.push(Message { kind: 10, sender: x, receiver: request.sender, ..request.clone() });
    }

    fn acknowledged(&mut self, message: &Message, now: u32) {
        let (x, y, z) = (message.receiver, message.sender, message.subject.unwrap());
        let pair = self.nodes[x].pairs[z].clone();
        let mut held = self.held(x);
        if self.has(Slip::LeafsetAfterHold) {
            held.insert(y);
        }
        if !pair.held || pair.spare != Some(y) || self.leafset(x, &held).contains(&z) {
            return;
        }
        if !self.has(Slip::ReleaseWithoutHold) {
            self.hold(x, y, now);
        }
        let below = match self.slip {
            Some(Slip::StampNotAbove) => pair.commit <= message.stamp,
            Some(Slip::NeverRelease) => false,
            Some(Slip::CommitIgnored) => true,
            _ => pair.commit < message.stamp,
        };
        if below {
            self.release(x, z);
            if self.nodes[x].pairs[y].held {
                self.nodes[x].pairs[y].commit = now;
            }
        }
    }

    fn pass_on(&mut self, x: usize, origin: usize) {
        let Some(successor) = self.successor(x) else { return };
        if origin == x {
            return;
        }
        if self.passes_zero(x, successor) {
            self.nodes[x].pairs[origin].candidate = true;
            self.messages.push(Message::new(12, x, origin));
        } else {
            self.messages.push(Message { subject: Some(origin), ..Message::new(11, x, successor) });
        }
    }

    // Connection.

    /// The running nodes reached from a, which runs.
    fn group(&self, a: usize) -> BTreeSet<usize> {
        let beside = |x: usize, z: usize| self.nodes[x].pairs[z].held || self.nodes[z].pairs[x].held;
        let mut group = BTreeSet::from([a]);
        loop {
            let more = |z: &usize| self.nodes[*z].running && group.iter().any(|&x| beside(x, *z));
            let found: Vec<usize> = (0..self.nodes.len()).filter(|z| !group.contains(z)).filter(more).collect();
            if found.is_empty() {
                return group;
            }
            group.extend(found);
        }
    }

    fn groups(&self) -> usize {
        let counts = |a: &usize| self.nodes[*a].running || self.has(Slip::GroupsOfAll);
        let groups: BTreeSet<BTreeSet<usize>> = (0..self.nodes.len()).filter(counts).map(|a| self.group(a)).collect();
        groups.len()
    }

    // Routes.

    /// How near a node is to a key: "smallest distance, the clockwise one from the key on a tie".
    fn nearness(&self, key: u32, s: usize) -> (u32, u32) {
        let clockwise = (PLACES + self.nodes[s].key - key) % PLACES;
        let counter_clockwise = (PLACES + key - self.nodes[s].key) % PLACES;
        let tie = if self.has(Slip::RouteTieOther) { counter_clockwise } else { clockwise };
        (clockwise.min(counter_clockwise), tie)
    }

    /// "The nearest of the running stands held there, as long as that one beats the present stand by the same measure."
    fn next_node(&self, x: usize, key: u32) -> Option<usize> {
        let mut nodes = self.held(x);
        if self.has(Slip::RouteCandidates) {
            nodes.extend(self.candidates(x));
        }
        if self.has(Slip::RouteLeafset) {
            nodes = self.leafset(x, &nodes);
        }
        nodes.retain(|&z| self.nodes[z].running || self.has(Slip::RouteThroughOff));
        let next = nodes.into_iter().min_by_key(|&z| self.nearness(key, z))?;
        let (here, there) = (self.nearness(key, x), self.nearness(key, next));
        let beats = if self.has(Slip::RouteDistanceOnly) { there.0 < here.0 } else { there < here };
        beats.then_some(next)
    }

    fn route(&self, start: usize, key: u32) -> Vec<usize> {
        let mut route = vec![start];
        if let Some(next) = self.next_node(start, key) {
            route.extend(self.route(next, key));
        }
        route
    }

    // Screens.

    /// "Each running stand's leafset of its held set": none of a node that is off.
    fn shown_leafset(&self, x: usize) -> BTreeSet<usize> {
        let running = || self.having(|node| node.running);
        if !self.nodes[x].running {
            let of_off = self.has(Slip::ScreenOffLeafset);
            return if of_off { self.leafset(x, &running()) } else { BTreeSet::new() };
        }
        let mut held = self.held(x);
        match self.slip {
            Some(Slip::ScreenCandidates) => held.extend(self.candidates(x)),
            Some(Slip::ScreenAllRunning) => held = running(),
            Some(Slip::ScreenHeldRunning) => held.retain(|&z| self.nodes[z].running),
            Some(Slip::ScreenHeldSets) => return held,
            _ => {}
        }
        self.leafset(x, &held)
    }

    fn having(&self, mark: impl Fn(&Node) -> bool) -> BTreeSet<usize> {
        (0..self.nodes.len()).filter(|&x| mark(&self.nodes[x])).collect()
    }

    fn show_conductor(&self, screen: &mut Conductor) {
        if !self.has(Slip::ScreenUnusedKept) {
            *screen = Conductor::EMPTY;
        }
        screen.sides = self.sides;
        screen.nodes = self.nodes.len() as u32;
        screen.running = as_bits(&self.having(|node| node.running));
        for (x, node) in self.nodes.iter().enumerate() {
            let clock = if self.has(Slip::ScreenClock) { node.clock << 24 } else { 0 };
            screen.keys[x] = node.key | clock;
            screen.leafsets[x] = as_bits(&self.shown_leafset(x));
        }
    }

    fn show_technician(&self, screen: &mut Technician) {
        if !self.has(Slip::ScreenUnusedKept) {
            *screen = Technician::EMPTY;
        }
        if self.has(Slip::ScreenNoPair64) {
            screen.spares.fill(64);
        }
        self.show_conductor(&mut screen.conductor);
        let n = self.nodes.len();
        let row = if self.has(Slip::ScreenSparesPacked) { n } else { 64 };
        for x in 0..n {
            screen.candidates[x] = as_bits(&self.candidates(x));
            for z in (0..n).filter(|&z| z != x) {
                let pair = &self.nodes[x].pairs[z];
                let at = if self.has(Slip::ScreenStampsTurned) { 64 * z + x } else { 64 * x + z };
                screen.stamps[at] = pair.commit;
                screen.spares[row * x + z] = number_or_64(pair.spare) as u8;
            }
        }
    }

    /// Refusals 7 and 8 of a question about a node.
    fn ask(&self, node: u32) -> Result<usize, u32> {
        match self.nodes.get(node as usize) {
            None => Err(7),
            Some(node) if !node.running => Err(8),
            Some(_) => Ok(node as usize),
        }
    }
}

/// A set of nodes as 64 bits.
fn as_bits(set: &BTreeSet<usize>) -> u64 {
    set.iter().map(|&s| 1u64 << s).sum()
}

/// Refusals 4 and 5 of an event word.
pub fn event_fault(word: u32) -> Option<u32> {
    let unnamed = match bits(word, 28, 31) {
        9 => bits(word, 6, 27),
        10 => bits(word, 6, 11) + bits(word, 13, 27),
        11 | 12 => bits(word, 12, 27),
        13 => bits(word, 6, 11) + bits(word, 15, 27) + !TIMERS.contains(&bits(word, 12, 14)) as u32,
        14 => bits(word, 11, 27),
        15 => bits(word, 10, 27),
        _ => return Some(4),
    };
    let two_nodes = bits(word, 28, 31) == 11 || bits(word, 28, 31) == 12;
    if unnamed != 0 {
        Some(4)
    } else if two_nodes && bits(word, 0, 5) == bits(word, 6, 11) {
        Some(5)
    } else {
        None
    }
}

impl Plain {
    fn read(&self, words: &[u32]) -> Result<State, u32> {
        if words.len() != LENGTH {
            return Err(1);
        }
        State::decode(words, self.slip).ok_or(6)
    }

    fn try_open(&self, words: &mut [u32], sides: Sides, keys: &[u32]) -> Result<(), u32> {
        let distinct: BTreeSet<u32> = keys.iter().copied().collect();
        if words.len() != LENGTH {
            return Err(1);
        }
        let in_range = |side: u32| (1..=8).contains(&side);
        if !in_range(sides.clockwise) || !in_range(sides.counter_clockwise) || keys.is_empty() || keys.len() > 64 {
            return Err(2);
        }
        if distinct.len() < keys.len() || distinct.last() >= Some(&PLACES) {
            return Err(3);
        }
        let pairs = vec![Pair::default(); keys.len()];
        let node = |&key: &u32| Node { key, running: false, clock: 0, pairs: pairs.clone() };
        let nodes = keys.iter().map(node).collect();
        let state = State { sides, nodes, messages: vec![], slip: self.slip };
        words.copy_from_slice(&state.encode());
        Ok(())
    }

    /// Refusals 4 and 5, as a slip has them.
    fn event_fault(&self, word: u32) -> Option<u32> {
        match self.slip {
            Some(Slip::OldTimer1) if word & !63 == 13 << 28 | 1 << 12 => None,
            Some(Slip::LoseBit10) if word & !1_023 == 15 << 28 | 1 << 10 => None,
            Some(Slip::EchoUnknown) if word & !1_023 == 14 << 28 | 1 << 10 => Some(4),
            _ => event_fault(word),
        }
    }

    fn try_play(&self, words: &mut [u32], word: u32) -> Result<(), u32> {
        if words.len() != LENGTH {
            return Err(1);
        }
        if let Some(refusal) = self.event_fault(word) {
            return Err(refusal);
        }
        let mut state = self.read(words)?;
        let acting = state.acting(word);
        state.play(word)?;
        if let Some(refusal) = state.left_refusal(word, acting) {
            return Err(refusal);
        }
        words.copy_from_slice(&state.encode());
        Ok(())
    }

    /// "a second buffer of the same length"
    fn second_fits(&self, length: usize) -> bool {
        match self.slip {
            Some(Slip::PreviewAnySecond) => true,
            Some(Slip::PreviewLongSecond) => length >= LENGTH,
            _ => length == LENGTH,
        }
    }

    fn try_preview(&self, words: &mut [u32], word: u32, second: &mut [u32]) -> Result<(), u32> {
        let mut copy = words.to_vec();
        let played = self.try_play(&mut copy, word);
        let is_late = played.is_err() && self.slip == Some(Slip::PreviewLengthLast);
        if !is_late && !self.second_fits(second.len()) {
            return Err(1);
        }
        if played.is_ok() || self.slip == Some(Slip::PreviewRefusedCopies) {
            let shown = if self.slip == Some(Slip::PreviewUnplayed) { &*words } else { &copy[..] };
            second.iter_mut().zip(shown).for_each(|(place, &word)| *place = word);
        }
        if self.slip == Some(Slip::PreviewPlays) {
            words.copy_from_slice(&copy);
        }
        played
    }

    fn try_leafset(&self, words: &[u32], node: u32) -> Result<u64, u32> {
        let state = self.read(words)?;
        let node = state.ask(node)?;
        Ok(as_bits(&state.own_leafset(node)))
    }

    fn try_connected(&self, words: &[u32], a: u32, b: u32) -> Result<bool, u32> {
        let state = self.read(words)?;
        let (first, second) = (state.ask(a), state.ask(b));
        if let Some(refusal) = first.err().into_iter().chain(second.err()).min() {
            return Err(refusal);
        }
        Ok(state.group(a as usize).contains(&(b as usize)) || self.slip == Some(Slip::AlwaysConnected))
    }

    fn try_route(&self, words: &[u32], start: u32, key: u32, places: usize) -> Result<Vec<usize>, u32> {
        let state = self.read(words)?;
        let start = state.ask(start)?;
        let enough = if state.has(Slip::RouteShortList) { state.nodes.len() } else { 64 };
        if state.has(Slip::RouteListFirst) && places < enough {
            return Err(13);
        }
        if key > 16_777_215 {
            return Err(12);
        }
        if places < enough {
            return Err(13);
        }
        Ok(state.route(start, key))
    }

    /// What a refused call shows of n: nothing.
    fn refused_nodes(&self, words: &[u32]) -> u32 {
        let shows = self.slip == Some(Slip::ScreenRefusedNodes);
        words.first().filter(|_| shows).map_or(0, |&word| bits(word, 4, 10))
    }

    fn refuse_conductor(&self, words: &[u32], screen: &mut Conductor) {
        let (keys, leafsets) = (screen.keys, screen.leafsets);
        *screen = Conductor { nodes: self.refused_nodes(words), ..Conductor::EMPTY };
        if self.slip == Some(Slip::ScreenRefusedKeeps) {
            (screen.keys, screen.leafsets) = (keys, leafsets);
        }
    }

    fn refuse_technician(&self, words: &[u32], screen: &mut Technician) {
        self.refuse_conductor(words, &mut screen.conductor);
        if self.slip != Some(Slip::ScreenRefusedKeeps) {
            *screen = Technician { conductor: screen.conductor.clone(), ..Technician::EMPTY };
        }
        if self.slip == Some(Slip::ScreenRefused64) {
            screen.spares.fill(64);
        }
    }

    /// How many messages the part has.
    fn messages_shown(&self, words: &[u32]) -> usize {
        match self.read(words) {
            Ok(state) if self.slip == Some(Slip::ScreenPartLonger) => POOL.min(state.messages.len() + 1),
            Ok(state) => state.messages.len(),
            Err(6) if self.slip == Some(Slip::ScreenPartUnread) => POOL.min(bits(words[0], 11, 21) as usize),
            Err(_) => 0,
        }
    }
}

impl Ring for Plain {
    fn name(&self) -> &'static str {
        "plain"
    }

    fn open(&self, words: &mut [u32], sides: Sides, keys: &[u32]) -> u32 {
        self.try_open(words, sides, keys).err().unwrap_or(0)
    }

    fn play(&self, words: &mut [u32], word: u32) -> u32 {
        self.try_play(words, word).err().unwrap_or(0)
    }

    fn preview(&self, words: &mut [u32], word: u32, second: &mut [u32]) -> u32 {
        self.try_preview(words, word, second).err().unwrap_or(0)
    }

    fn join(&self, first: &[u32], second: &[u32], joined: &mut [u32]) -> u32 {
        self.join_rings(first, second, joined)
    }

    fn shorten(&self, words: &[u32], place: &mut [u32]) -> Shortened {
        self.shorten_ring(words, place)
    }

    fn lengthen(&self, short: &[u32], words: &mut [u32]) -> u32 {
        self.lengthen_ring(short, words)
    }

    fn leafset_of(&self, words: &[u32], node: u32) -> (u32, u64) {
        self.try_leafset(words, node).map_or_else(|refusal| (refusal, 0), |set| (0, set))
    }

    fn play_all(&self, words: &mut [u32], list: &[u32], answers: &mut [u8]) -> u32 {
        let (answer, _) = self.groups(words);
        let mut lost = [0; 64];
        if answer == 0 {
            play_each(list, answers, |word| self.play_in_list(words, word, &mut lost));
        }
        answer
    }

    fn connected(&self, words: &[u32], a: u32, b: u32) -> (u32, bool) {
        self.try_connected(words, a, b).map_or_else(|refusal| (refusal, false), |yes| (0, yes))
    }

    fn groups(&self, words: &[u32]) -> (u32, u32) {
        self.read(words).map_or_else(|refusal| (refusal, 0), |state| (0, state.groups() as u32))
    }

    fn route(&self, words: &[u32], start: u32, key: u32, list: &mut [u8]) -> Routed {
        match self.try_route(words, start, key, list.len()) {
            Ok(route) => {
                route.iter().zip(list).for_each(|(&node, place)| *place = node as u8);
                let hops = route.len() - (self.slip != Some(Slip::RouteHopsOne)) as usize;
                Routed { answer: 0, end: route[route.len() - 1] as u32, hops: hops as u32 }
            }
            Err(refusal) => {
                if self.slip == Some(Slip::RouteRefusedWrites) {
                    list.iter_mut().take(1).for_each(|place| *place = start as u8);
                }
                Routed::refused(refusal)
            }
        }
    }

    fn reach(&self, words: &[u32], start: u32, key: u32) -> Routed {
        self.reach_owner(words, start, key)
    }

    fn conductor(&self, words: &[u32], screen: &mut Conductor) -> u32 {
        match self.read(words) {
            Ok(state) => {
                state.show_conductor(screen);
                0
            }
            Err(refusal) => {
                self.refuse_conductor(words, screen);
                refusal
            }
        }
    }

    fn technician(&self, words: &[u32], screen: &mut Technician) -> u32 {
        match self.read(words) {
            Ok(state) => {
                state.show_technician(screen);
                0
            }
            Err(refusal) => {
                self.refuse_technician(words, screen);
                refusal
            }
        }
    }

    fn messages<'a>(&self, words: &'a [u32]) -> &'a [u32] {
        let count = self.messages_shown(words);
        if count == 0 {
            return &[];
        }
        let start = 8_321 - (self.slip == Some(Slip::ScreenPartEarly)) as usize;
        &words[start..start + 5 * count]
    }
}
