//! Boundary cases, one after another: held bytes against t and last, also beside a bad first byte, and
//! packets cut at every byte.

use super::broadcast::{assemble, Broadcast};
use super::commands::{self, Commands};
use super::damage::spoil_first;
use super::layout::{self, set_pointers, FramePlan};
use super::packet::Item;
use super::prng::Prng;
use super::sender::{Config, Sender};
use crate::slots::NO_POINTER;

const LEN: usize = 1_870;
/// BPSK 1/3: 24 live slots of 1,870 bytes.
const SHORTEST: [(u8, u8); 1] = [(0x11, 120)];
/// Pairs of live slots in such a frame, and frames of undamaged headers in a capture.
const PAIRS: usize = 12;
const FRAMES: usize = 4;
const CASES: usize = 7 * 11 * 10 * 4;
/// Captures that go through all cases of held bytes.
pub const HELD_CAPTURES: u64 = (CASES / (FRAMES * PAIRS) + 1) as u64;

fn config() -> Config {
    Config {
        stream_id: 1,
        cid: 5,
        ids: vec![7, 9],
        joined_max: 100,
    }
}

fn full_frame(rng: &mut Prng) -> FramePlan {
    layout::full_frame_of(rng, config().stream_id, &SHORTEST)
}

/// Pairs of slots: the first ends with some bytes of a packet, the second goes on as the case says. In
/// one frame more, a header of each pair has a bad first byte.
pub fn held(number: u64) -> Commands {
    let mut rng = Prng::new(number);
    let number = number as usize;
    let mut out = vec![commands::start(&config())];
    let pairs = |from: usize| -> Vec<[Slot; 2]> { (from..from + PAIRS).map(pair).collect() };
    for frame in number * FRAMES..(number + 1) * FRAMES {
        out.extend(frame_of(&mut rng, &pairs(frame * PAIRS)));
    }
    let mut spoilt = pairs(number * PAIRS);
    for pair in &mut spoilt {
        let (data, top, _) = &mut pair[rng.below(2)];
        spoil_first(&mut rng, data, usize::from(*top));
    }
    out.extend(frame_of(&mut rng, &spoilt));
    out
}

/// Data, t and last.
type Slot = (Vec<u8>, u16, u16);

/// A frame of these slots.
fn frame_of(rng: &mut Prng, pairs: &[[Slot; 2]]) -> Commands {
    let plan = full_frame(rng);
    let (mut block, mut slots) = (plan.block, Vec::new());
    let mut next = pairs.iter().flatten();
    for (s, slot) in plan.slots.iter().enumerate() {
        if !slot.own {
            slots.extend(commands::slot(&[]));
            continue;
        }
        let (data, top, last) = next.next().expect("a slot for each live one");
        set_pointers(&mut block, s, *top, *last);
        slots.extend(commands::slot(data));
    }
    vec![commands::frame(&block), slots]
}

/// The two slots of a case; behind the last case comes the first.
fn pair(case: usize) -> [Slot; 2] {
    let (held, case) = (case % 7, case % CASES / 7);
    let (which_total, case) = (case % 11, case / 11);
    let (which_top, which_last) = (case % 10, case / 10);
    let ends = [
        held + LEN - 1,
        held + LEN,
        held + LEN + 1,
        16_384,
        16_385,
        65_539,
    ];
    let total = match which_total {
        0..=4 => 4 + which_total,
        i => ends[i - 5],
    };
    let packet = packet(0xF1, total);
    let mut first = self::packet(0xF2, LEN - held);
    first.extend(&packet[..held.min(total)]);
    first.resize(LEN, 0x7F);
    let due = total.saturating_sub(held);
    let tops = [
        0,
        1,
        2,
        3,
        due.saturating_sub(1),
        due,
        due + 1,
        LEN - 2,
        LEN - 1,
        0xFFFF,
    ];
    let top = tops[which_top];
    let mut second = packet[held.min(total)..].to_vec();
    second.truncate(LEN.min(top));
    second.resize(LEN.min(top), 0x7F);
    let right = fill(&mut second);
    let last = [right, NO_POINTER, LEN as u16, top as u16][which_last];
    let first_end = if held == 0 { LEN } else { LEN - held } as u16;
    [(first, 0, first_end), (second, top as u16, last)]
}

/// Fills the slot up with packets; gives the last pointer.
fn fill(data: &mut Vec<u8>) -> u16 {
    let mut last = if data.is_empty() || data.len() == LEN {
        NO_POINTER
    } else {
        data.len() as u16
    };
    while data.len() < LEN {
        let room = LEN - data.len();
        let whole = packet(0xF3, 600.min(room.max(4)));
        data.extend(&whole[..whole.len().min(room)]);
        if whole.len() <= room {
            last = data.len() as u16;
        }
    }
    last
}

/// A packet of `total` bytes, of a type that nobody reads and that shows which one it is.
fn packet(tlv_type: u8, total: usize) -> Vec<u8> {
    let mut out = vec![0xEE; total];
    out[..2].copy_from_slice(&[0x7F, tlv_type]);
    out[2..4].copy_from_slice(&((total - 4) as u16).to_be_bytes());
    out
}

/// Good packets, each also cut at every byte.
pub fn cuts(seed: u64) -> Broadcast {
    let mut rng = Prng::new(seed);
    let plans = vec![full_frame(&mut rng)];
    let mut sender = Sender::new(Prng::new(seed ^ 0xC0), config());
    let mut items = Vec::new();
    let mut len = 0;
    while len < 24 * LEN {
        sender.step();
        let Some(Item::Flow(spec)) = sender.items.last() else {
            continue;
        };
        let most = spec.bytes().len() - 4;
        if most > 150 {
            continue;
        }
        for cut in 0..=most {
            let mut spec = spec.clone();
            spec.cut = Some(cut);
            if rng.chance(1, 2) && !spec.signalling() {
                // As if the payload's length knew of the cut.
                spec.length_error = 0u16.wrapping_sub((most - cut) as u16);
            }
            len += 4 + cut;
            items.push(Item::Flow(spec));
        }
    }
    assemble(&mut rng, config(), plans, 0, &items, Vec::new())
}
