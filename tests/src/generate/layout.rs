//! Control blocks: random legal modes, streams and slots.

use super::prng::Prng;
use crate::control_block::{BLOCK_LEN, DATA_LENGTHS, SLOTS};

/// A frame to be filled: its control block, and what each slot is.
#[derive(Clone)]
pub struct FramePlan {
    pub block: [u8; BLOCK_LEN],
    pub slots: Vec<PlannedSlot>,
}

#[derive(Clone, Copy)]
pub struct PlannedSlot {
    pub len: usize,
    pub own: bool,
}

/// A legal frame in which the stream has at least one live slot.
pub fn frame(rng: &mut Prng, stream_id: u16) -> FramePlan {
    let modes = modes(rng);
    frame_of(rng, stream_id, &modes)
}

/// A legal frame with these modes: (modulation and code rate, slots).
pub fn frame_of(rng: &mut Prng, stream_id: u16, modes: &[(u8, u8)]) -> FramePlan {
    let mut block = [0; BLOCK_LEN];
    rng.fill(&mut block); // what is ignored may hold anything
    write_modes(rng, &mut block, modes);
    let lengths = slot_lengths(modes);
    let own = rng.below(16);
    write_streams(rng, &mut block, own, stream_id);
    let mut relative = assign(rng, own);
    if !(0..SLOTS).any(|i| lengths[i] > 0 && relative[i] == own) {
        let live: Vec<usize> = (0..SLOTS).filter(|&i| lengths[i] > 0).collect();
        relative[rng.pick(&live)] = own;
    }
    let mut slots = Vec::with_capacity(SLOTS);
    for i in 0..SLOTS {
        let half = relative[i] as u8;
        let byte = &mut block[633 + i / 2];
        *byte = if i % 2 == 0 { half << 4 } else { *byte | half };
        slots.push(PlannedSlot {
            len: lengths[i],
            own: lengths[i] > 0 && relative[i] == own,
        });
    }
    FramePlan { block, slots }
}

/// A legal frame with these modes, all of whose live slots are the own stream's.
pub fn full_frame_of(rng: &mut Prng, stream_id: u16, modes: &[(u8, u8)]) -> FramePlan {
    loop {
        let plan = frame_of(rng, stream_id, modes);
        if plan.slots.iter().all(|slot| slot.own || slot.len == 0) {
            return plan;
        }
    }
}

/// Writes a slot's top and last pointer; `slot` counts from 0.
pub fn set_pointers(block: &mut [u8], slot: usize, top: u16, last: u16) {
    let at = 153 + 4 * slot;
    block[at..at + 2].copy_from_slice(&top.to_be_bytes());
    block[at + 2..at + 4].copy_from_slice(&last.to_be_bytes());
}

/// Mostly few live slots, to keep captures short; now and then any modes at all.
fn modes(rng: &mut Prng) -> Vec<(u8, u8)> {
    let pair = |modulation: usize, rate: usize| (modulation << 4 | rate) as u8;
    match rng.below(12) {
        0..=6 => vec![(pair(1, rng.range(1, 11)), 120)],
        7..=8 => vec![(pair(rng.range(1, 3), rng.range(1, 4)), 120)],
        9 => vec![(pair(rng.range(1, 5), rng.range(1, 11)), 120)],
        _ => {
            let n = rng.range(2, 8);
            let mut pairs: Vec<u8> = Vec::new();
            while pairs.len() < n {
                let high = if rng.chance(1, 4) { 5 } else { 2 };
                let next = pair(rng.range(1, high), rng.range(1, 11));
                if !pairs.contains(&next) {
                    pairs.push(next);
                }
            }
            pairs.sort_unstable_by(|a, b| b.cmp(a));
            let mut fives = vec![1u8; n];
            for _ in n..24 {
                fives[rng.below(n)] += 1;
            }
            pairs
                .iter()
                .zip(&fives)
                .map(|(&pair, &fives)| (pair, 5 * fives))
                .collect()
        }
    }
}

fn write_modes(rng: &mut Prng, block: &mut [u8], modes: &[(u8, u8)]) {
    for (i, mode) in block[1..25].chunks_exact_mut(3).enumerate() {
        match modes.get(i) {
            Some(&(pair, count)) => mode.copy_from_slice(&[pair, count, rng.byte()]),
            None => mode.copy_from_slice(&[0xFF, 0, 0]),
        }
    }
}

fn slot_lengths(modes: &[(u8, u8)]) -> Vec<usize> {
    let mut lengths = Vec::with_capacity(SLOTS);
    for &(pair, count) in modes {
        for i in 0..usize::from(count) {
            let live = i % 5 < usize::from(pair >> 4);
            let len = usize::from(DATA_LENGTHS[usize::from(pair & 15)]);
            lengths.push(if live { len } else { 0 });
        }
    }
    lengths
}

/// The own stream, other TLV streams, and the own id on streams of another type.
fn write_streams(rng: &mut Prng, block: &mut [u8], own: usize, stream_id: u16) {
    for r in 0..16 {
        let (kind, id) = match rng.below(4) {
            _ if r == own => (2, stream_id),
            0 => (2, stream_id ^ (1 << rng.below(16))),
            1 => (rng.pick(&[0, 1, 3, 0xFF]), stream_id),
            2 => (0xFF, 0xFFFF),
            _ => (rng.pick(&[0, 1]), rng.u16()),
        };
        block[25 + r] = kind;
        block[693 + 2 * r..695 + 2 * r].copy_from_slice(&id.to_be_bytes());
    }
}

/// Each slot's relative stream.
fn assign(rng: &mut Prng, own: usize) -> Vec<usize> {
    let style = rng.below(4);
    let mut now = own;
    (0..SLOTS)
        .map(|_| match style {
            0 => own,
            1 => {
                if rng.chance(1, 2) {
                    own
                } else {
                    rng.below(16)
                }
            }
            2 => {
                if rng.chance(1, 8) {
                    now = if now == own { rng.below(16) } else { own };
                }
                now
            }
            _ => rng.below(16),
        })
        .collect()
}
