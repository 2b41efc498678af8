//! The messages in flight, first words sixteen at a time and the rest of each at once: SSE2, which every x86-64 processor
//! has.

use super::layout::*;
use super::lanes::*;
use std::arch::x86_64::*;

pub fn messages_fit(messages: &[u32], n: usize) -> bool {
    // SAFETY: the processor has SSE2.
    unsafe { all_fit(messages, n) }
}

/// Whether no sender has more than its part: nothing to count where all together have no more. Four counts of each, in
/// turns, so that messages of one sender in a row don't wait for each other.
pub fn senders_fit(messages: &[u32]) -> bool {
    if messages.len() <= OF_SENDER * MESSAGE {
        return true;
    }
    let mut counts = [[0u16; NODES]; 4];
    let mut fours = messages.chunks_exact(4 * MESSAGE);
    for four in &mut fours {
        for (place, counts) in counts.iter_mut().enumerate() {
            counts[sender(four[MESSAGE * place])] += 1;
        }
    }
    fours.remainder().chunks_exact(MESSAGE).for_each(|message| counts[0][sender(message[0])] += 1);
    let [a, b, c, d] = &counts;
    (0..NODES).fold(0, |most, s| (a[s] + b[s] + c[s] + d[s]).max(most)) <= OF_SENDER as u16
}

/// How many of the messages have this sender.
pub fn of_sender(messages: &[u32], x: usize) -> usize {
    messages.chunks_exact(MESSAGE).filter(|message| sender(message[0]) == x).count()
}

fn sender(head: u32) -> usize {
    (head >> 4 & 63) as usize
}

#[target_feature(enable = "sse2")]
fn all_fit(messages: &[u32], n: usize) -> bool {
    let fixed = fixed_bits(n);
    let (mut fit, mut unfit) = (each(!0), each(0));
    let mut sixteens = messages.chunks_exact(16 * MESSAGE);
    for sixteen in &mut sixteens {
        fit = _mm_and_si128(fit, heads_fit(sixteen, n));
    }
    if !sixteens.remainder().is_empty() {
        fit = _mm_and_si128(fit, heads_fit(sixteens.remainder(), n));
    }
    for message in messages.chunks_exact(MESSAGE) {
        unfit = _mm_or_si128(unfit, rest_unfit(message, &fixed));
    }
    _mm_movemask_epi8(_mm_andnot_si128(_mm_cmpeq_epi32(unfit, each(0)), fit)) == 0
        && _mm_movemask_epi8(fit) == 0xFFFF
}

/// The fields of sixteen first words, a byte each.
struct Heads {
    kind: __m128i,
    sender: __m128i,
    receiver: __m128i,
    /// 127 where the bits above the subject are wrong.
    subject: __m128i,
}

impl Heads {
    /// Of up to sixteen messages: where there are fewer, the first stands in for the others.
    #[target_feature(enable = "sse2")]
    fn read(messages: &[u32]) -> Heads {
        let head = |place: usize| messages.get(MESSAGE * place).copied().unwrap_or(messages[0]) as i32;
        let four = |from: usize| _mm_setr_epi32(head(from), head(from + 1), head(from + 2), head(from + 3));
        let (a, b, c, d) = (four(0), four(4), four(8), four(12));
        let low = |four| _mm_srai_epi32(_mm_slli_epi32(four, 16), 16);
        let high = |four| _mm_srli_epi32(_mm_xor_si128(four, each(KIND_MESSAGE)), 16);
        let (front, back) = (_mm_packs_epi32(low(a), low(b)), _mm_packs_epi32(low(c), low(d)));
        let field = |eight, shift, mask| _mm_and_si128(_mm_srl_epi16(eight, _mm_cvtsi32_si128(shift)), _mm_set1_epi16(mask));
        let bytes = |shift, mask| _mm_packus_epi16(field(front, shift, mask), field(back, shift, mask));
        Heads {
            kind: bytes(0, 15),
            sender: bytes(4, 63),
            receiver: bytes(10, 63),
            subject: _mm_packs_epi16(_mm_packs_epi32(high(a), high(b)), _mm_packs_epi32(high(c), high(d))),
        }
    }
}

/// All ones where a first word fits.
#[target_feature(enable = "sse2")]
fn heads_fit(messages: &[u32], n: usize) -> __m128i {
    let Heads { kind, sender, receiver, subject } = Heads::read(messages);
    let last = n as i8 - 1;
    let types = up_to(_mm_sub_epi8(kind, bytes(1)), 12);
    let nodes = _mm_and_si128(up_to(sender, last), up_to(receiver, last));
    let ends = _mm_andnot_si128(_mm_cmpeq_epi8(sender, receiver), nodes);
    // Types 8 to 11 use the subject; of them only 8 may have none, and its subject is neither sender nor receiver.
    let used = _mm_cmpeq_epi8(_mm_and_si128(kind, bytes(12)), bytes(8));
    let of_8 = _mm_cmpeq_epi8(kind, bytes(8));
    let some = _mm_and_si128(used, up_to(subject, last));
    let none = _mm_andnot_si128(_mm_xor_si128(used, of_8), _mm_cmpeq_epi8(subject, bytes(NONE as i8)));
    let at_an_end = _mm_or_si128(_mm_cmpeq_epi8(subject, sender), _mm_cmpeq_epi8(subject, receiver));
    let subjects = _mm_andnot_si128(_mm_and_si128(of_8, at_an_end), _mm_or_si128(some, none));
    _mm_and_si128(_mm_and_si128(types, ends), subjects)
}

/// A message's stamp and view: its last four words.
type Rest = [u32; 4];

/// For each receiver its bit in a view.
static IN_VIEW: [Rest; NODES] = in_view();

const fn in_view() -> [Rest; NODES] {
    let mut table = [[0; 4]; NODES];
    let mut s = 0;
    while s < NODES {
        table[s][1 + s / 24] = 1 << (s % 24);
        s += 1;
    }
    table
}

/// For each type the bits of its stamp and view that have to be as in empty ones, where the nodes are n.
fn fixed_bits(n: usize) -> [Rest; 16] {
    let nodes = u64::MAX >> (64 - n);
    let mut fixed = [[!0; 4]; 16];
    fixed[4] = [!0, !(nodes as u32 & LOW24), !((nodes >> 24) as u32 & LOW24), !((nodes >> 48) as u32)];
    fixed[9][0] = !LOW24;
    fixed[10][0] = !LOW24;
    fixed
}

/// Not 0 where the stamp or the view doesn't fit.
#[target_feature(enable = "sse2")]
fn rest_unfit(message: &[u32], fixed: &[Rest; 16]) -> __m128i {
    let empty = load(&[KIND_STAMP, KIND_VIEW, KIND_VIEW, KIND_VIEW]);
    let rest = _mm_xor_si128(load(&message[1..5]), empty);
    let by_type = load(&fixed[(message[0] & 15) as usize]);
    let by_receiver = load(&IN_VIEW[(message[0] >> 10 & 63) as usize]);
    _mm_and_si128(rest, _mm_or_si128(by_type, by_receiver))
}
