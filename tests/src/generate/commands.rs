//! A capture as a list of commands, and damage to the list.

use super::layout;
use super::prng::Prng;
use super::sender::{self, Config};
use crate::packets::MAX_IDS;

/// Each command with its operands.
pub type Commands = Vec<Vec<u8>>;

pub fn start(config: &Config) -> Vec<u8> {
    let mut out = vec![b'C'];
    out.extend(config.stream_id.to_be_bytes());
    out.extend(config.cid.to_be_bytes());
    out.push(config.ids.len() as u8);
    for k in 0..MAX_IDS {
        // Places from n on are ignored, also where they repeat an id.
        let id = config.ids.get(k).or(config.ids.first()).copied();
        out.extend(id.unwrap_or(0).to_be_bytes());
    }
    out.extend(config.joined_max.to_be_bytes());
    out
}

pub fn frame(block: &[u8]) -> Vec<u8> {
    [b"F", block].concat()
}

pub fn slot(data: &[u8]) -> Vec<u8> {
    let mut out = vec![b'S'];
    out.extend((data.len() as u16).to_be_bytes());
    out.extend(data);
    out
}

/// Changes one operand of C so that start is likely to be refused, or the memory too short.
pub fn damage_start(rng: &mut Prng, start: &mut [u8]) {
    match rng.below(7) {
        0 => start[5] = rng.pick(&[0, 17, 255]),
        1 => {
            // The first id again, at a place below n.
            start[5] = start[5].clamp(2, 16);
            let place = rng.range(1, usize::from(start[5]) - 1);
            let first = [start[6], start[7]];
            start[6 + 2 * place..8 + 2 * place].copy_from_slice(&first);
        }
        2 => start[3] |= 0x10 << rng.below(4),
        3 => start[38..42].fill(0),
        4 => start[38..42].copy_from_slice(&1_048_577u32.to_be_bytes()),
        5 => start[38..42].copy_from_slice(&1_048_576u32.to_be_bytes()),
        _ => {
            // A legal R that the collecting memory doesn't suffice for.
            let above = 65_536 / u32::from(start[5].max(1)) + 1;
            start[38..42].copy_from_slice(&above.to_be_bytes());
        }
    }
}

/// Changes one thing of a control block so that it is likely to be refused.
pub fn damage_block(rng: &mut Prng, block: &mut [u8]) {
    let mode = 1 + 3 * rng.below(8);
    match rng.below(12) {
        0 => block[mode] = rng.byte(),
        1 => block[mode + 1] = rng.pick(&[0, 5, 10, 115, 119, 120, 125, 255]),
        2 => block[22..25].copy_from_slice(&rng.pick(&[[0xFF, 0, 1], [0xFF, 5, 0], [0, 0, 0]])),
        3 => block[4..7].copy_from_slice(&[0x1B, 0, 0]),
        4 => block.copy_within(1..4, 4), // the same pair twice
        5 => {
            let second = [block[4], block[5], block[6]];
            block.copy_within(1..4, 4);
            block[1..4].copy_from_slice(&second);
        }
        6 => block[25..41].fill(2),
        7 => block[25..41].fill(1),
        8 => block[rng.range(25, 40)] = 2,
        9 => {
            let from = 693 + 2 * rng.below(16);
            let to = 693 + 2 * rng.below(16);
            block.copy_within(from..from + 2, to);
            block[25 + (to - 693) / 2] = 2;
        }
        10 => {
            // Every slot to one relative stream, most likely another one.
            let half = rng.byte() & 15;
            block[633..693].fill(half << 4 | half);
        }
        _ => block[rng.range(0, 40)] ^= 1 << rng.below(8),
    }
}

/// A short list that is likely to be refused: at C, at F, or at a call out of turn.
pub fn refused(rng: &mut Prng) -> Commands {
    let config = sender::config(rng);
    let mut out = vec![start(&config)];
    let mut block = layout::frame(rng, config.stream_id).block;
    match rng.below(4) {
        0 => damage_start(rng, &mut out[0]),
        1 => {}
        _ => damage_block(rng, &mut block),
    }
    let last = rng.pick(b"FXLSS");
    out.push(frame(&block));
    out.extend(vec![vec![b'L']; rng.pick(&[0, 1, 119, 120, 121])]);
    out.push(match last {
        b'F' => frame(&block),
        b'S' => slot(&vec![0; rng.pick(&[0, 1, 1_870, 5_049])]),
        _ => vec![last],
    });
    out
}

/// Changes the list: order, lengths, unknown commands, a cut at the end.
pub fn damage(rng: &mut Prng, commands: &mut Commands) {
    let at = rng.below(commands.len());
    let frames: Vec<usize> = (0..commands.len())
        .filter(|&i| commands[i][0] == b'F')
        .collect();
    match rng.below(12) {
        0 => {
            commands.remove(at);
        }
        1 => commands.insert(at, commands[at].clone()),
        2 => commands[at][0] = rng.byte(),
        3 => commands.insert(at, vec![rng.pick(b"XLFSC\0c")]),
        4 | 5 if !frames.is_empty() => {
            damage_block(rng, &mut commands[frame_near(at, &frames)][1..])
        }
        6 => damage_start(rng, &mut commands[0]),
        7 => {
            let other = rng.below(commands.len());
            commands.swap(at, other);
        }
        8 => {
            let len = rng.pick(&[0, 1, 1_869, 1_870, 5_049, 5_050, 65_535]);
            commands[at] = slot(&vec![0x7F; len]);
        }
        9 => {
            let keep = rng.below(commands[at].len());
            commands[at].truncate(keep);
            commands.truncate(at + 1);
        }
        10 => commands.push(vec![rng.pick(b"XLXLZ")]),
        _ => {
            let inside = rng.below(commands[at].len());
            commands[at][inside] ^= 1 << rng.below(8);
        }
    }
}

/// A frame near `at`.
fn frame_near(at: usize, frames: &[usize]) -> usize {
    let next = frames.partition_point(|&frame| frame < at);
    frames[next.min(frames.len() - 1)]
}
