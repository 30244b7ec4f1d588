//! The cost of each command that carries no data, in memory.

use std::error::Error;
use std::hint::black_box;

use second::control_block::SLOTS;
use second::generate::commands::{frame, slot, start};
use second::generate::sender::Config;

use crate::clock::Best;
use crate::decoders::{Memories, LONGEST_LINE};

const STREAM: u16 = 0xB110;
/// Frames of a capture, and readings of a short one.
const FRAMES: usize = 5_000;
/// 32APSK 1/3, all slots live, and BPSK 1/3, one slot in five.
const ALL_LIVE: u8 = 0x51;
const FEW_LIVE: u8 = 0x11;
/// Dummies of such a frame: four in five.
const DUMMIES: usize = 96;

/// Seconds that each decoder takes.
#[derive(Clone, Copy)]
struct Cost {
    second: f64,
    proved: f64,
}

const NOTHING: Cost = Cost {
    second: 0.0,
    proved: 0.0,
};

impl Cost {
    /// Of one of `count` things, once `rest` is taken away.
    fn each(self, rest: Cost, count: usize) -> Cost {
        let each = |whole: f64, rest: f64| (whole - rest) / count as f64;
        Cost {
            second: each(self.second, rest.second),
            proved: each(self.proved, rest.proved),
        }
    }

    fn plus(self, other: Cost, times: usize) -> Cost {
        let plus = |one: f64, other: f64| one + other * times as f64;
        Cost {
            second: plus(self.second, other.second),
            proved: plus(self.proved, other.proved),
        }
    }

    fn print(self, name: &str) {
        let (second, proved) = (self.second * 1e9, self.proved * 1e9);
        let ratio = second / proved;
        println!("{name:<44} {second:>12.1} {proved:>12.1} {ratio:>17.2}");
    }
}

/// C, which watches one packet_id.
fn begin() -> Vec<u8> {
    start(&Config {
        stream_id: STREAM,
        cid: 1,
        ids: vec![0],
        joined_max: 65_536,
    })
}

/// F of one mode; the own stream has all slots, or the first alone.
fn control_block(mode: u8, own: bool) -> Vec<u8> {
    let mut block = vec![0; 1_178];
    block[1..25].copy_from_slice(&[0xFF, 0, 0].repeat(8));
    block[1..3].copy_from_slice(&[mode, SLOTS as u8]);
    block[25 + 3] = 2;
    block[693 + 6..693 + 8].copy_from_slice(&STREAM.to_be_bytes());
    block[633..693].fill(if own { 0x33 } else { 0x44 });
    block[633] = if own { 0x33 } else { 0x34 };
    frame(&block)
}

/// Reads the capture `times` over; the cost of all that.
fn cost(capture: &[u8], times: usize, rounds: usize) -> Result<Cost, Box<dyn Error>> {
    let mut memories = Memories::new();
    let (mut ours, mut theirs) = (Vec::with_capacity(2 * LONGEST_LINE), [0; 2 * LONGEST_LINE]);
    memories.second(capture, &mut ours);
    let len = memories.proved(capture, &mut theirs);
    if theirs[..len] != ours || !ours.starts_with(b"end ") {
        let text = String::from_utf8_lossy(&ours);
        return Err(format!("the decoders disagree on commands without data: {text}").into());
    }
    let (mut second, mut proved) = (Best::new(), Best::new());
    for _ in 0..rounds {
        second.time(|| {
            for _ in 0..times {
                memories.second(black_box(capture), &mut ours);
            }
        });
        proved.time(|| {
            for _ in 0..times {
                black_box(memories.proved(black_box(capture), &mut theirs));
            }
        });
    }
    Ok(Cost {
        second: second.seconds(),
        proved: proved.seconds(),
    })
}

/// The cost of one frame of many, and of its F alone: a capture of C and F, less one of C.
fn frame_cost(block: &[u8], slots: &[u8], rounds: usize) -> Result<(Cost, Cost), Box<dyn Error>> {
    let capture = [begin(), [block, slots].concat().repeat(FRAMES)].concat();
    let whole = cost(&capture, 1, rounds)?.each(NOTHING, FRAMES);
    let with_block = cost(&[&begin(), block].concat(), FRAMES, rounds)?;
    let without = cost(&begin(), FRAMES, rounds)?;
    Ok((whole, with_block.each(without, FRAMES)))
}

/// Measures and prints.
pub fn measure(rounds: usize) -> Result<(), Box<dyn Error>> {
    println!(
        "{:<44} {:>12} {:>12} {:>17}",
        "nanoseconds", "second", "proved", "proved to second"
    );
    let lost_frames = [begin(), vec![b'X'; FRAMES * SLOTS]].concat();
    let lost = cost(&lost_frames, 1, rounds)?;
    lost.each(NOTHING, FRAMES * SLOTS).print("X: a lost frame");

    let (whole, block) = frame_cost(&control_block(ALL_LIVE, true), &[b'L'; SLOTS], rounds)?;
    whole.each(block, SLOTS).print("L: an own slot, lost");

    let few = control_block(FEW_LIVE, false);
    let (whole, block) = frame_cost(&few, &[b'L'; SLOTS], rounds)?;
    let other = whole.each(block, SLOTS);
    other.print("L: a dummy or another stream's slot, lost");

    let five = [b"L".to_vec(), slot(&[]).repeat(4)].concat();
    let (whole, block) = frame_cost(&few, &five.repeat(SLOTS / 5), rounds)?;
    let lost = block.plus(other, SLOTS - DUMMIES);
    whole
        .each(lost, DUMMIES)
        .print("S: a dummy slot, of 0 bytes");
    block.print("F: a control block, of 1,178 bytes");
    Ok(())
}
