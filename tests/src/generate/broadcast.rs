//! A broadcast: a row of packets cut into the own live slots of frames, with losses if wanted.
//!
//! It knows where each packet stands and which packets carry each unit. So what a reading with lost
//! slots must give follows from the broadcast itself, without a decoder.

use std::ops::Range;

use super::commands::{self, Commands};
use super::layout::{self, FramePlan};
use super::packet::{tlv, Item};
use super::prng::Prng;
use super::sender::{Config, Sender, Sent};
use crate::control_block::SLOTS;
use crate::slots::NO_POINTER;

pub struct Frame {
    pub block: Vec<u8>,
    /// Data of each slot; empty for a dummy one.
    pub slots: Vec<Vec<u8>>,
}

/// An own live slot, and the bytes of the row that it holds.
pub struct OwnSlot {
    pub frame: usize,
    pub slot: usize,
    pub row: Range<usize>,
}

pub struct Broadcast {
    pub config: Config,
    pub frames: Vec<Frame>,
    pub own: Vec<OwnSlot>,
    /// Where each packet of the row stands, the last perhaps past the row's end.
    pub packets: Vec<Range<usize>>,
    /// Units all of whose packets are complete in the row.
    pub units: Vec<Sent>,
}

/// What was lost on the way: whole frames, and slots of each frame.
#[derive(Clone)]
pub struct Losses {
    pub frames: Vec<bool>,
    pub slots: Vec<[bool; SLOTS]>,
}

impl Losses {
    pub fn none(frames: usize) -> Self {
        Losses {
            frames: vec![false; frames],
            slots: vec![[false; SLOTS]; frames],
        }
    }

    /// Single slots, stretches, or whole frames.
    pub fn random(rng: &mut Prng, frames: usize) -> Self {
        let mut losses = Losses::none(frames);
        let rate = rng.pick(&[1, 3, 10, 50]);
        let mut fade = 0usize;
        for f in 0..frames {
            losses.frames[f] = rng.chance(1, 10);
            for lost in &mut losses.slots[f] {
                if fade == 0 && rng.chance(rate, 100) {
                    fade = rng.pick(&[1, 1, 1, 5, 30]);
                }
                *lost = fade > 0;
                fade = fade.saturating_sub(1);
            }
        }
        losses
    }

    pub fn lost(&self, frame: usize, slot: usize) -> bool {
        self.frames[frame] || self.slots[frame][slot]
    }
}

/// An undamaged broadcast of up to `most` frames.
pub fn undamaged(seed: u64, most: usize) -> Broadcast {
    let mut rng = Prng::new(seed);
    let config = super::sender::config(&mut rng);
    let frames = rng.range(1, most);
    let plans: Vec<FramePlan> = (0..frames)
        .map(|_| layout::frame(&mut rng, config.stream_id))
        .collect();
    let mut sender = Sender::new(Prng::new(seed ^ 0xB0), config);
    let head = head_len(&mut rng);
    sender.edges = edges(&plans, head);
    sender.send_up_to(capacity(&plans).saturating_sub(head));
    let Sender {
        config,
        items,
        units,
        ..
    } = sender;
    assemble(&mut rng, config, plans, head, &items, units)
}

/// Bytes of a packet that began before the first slot: often none, sometimes several slots of them.
pub fn head_len(rng: &mut Prng) -> usize {
    match rng.below(8) {
        0..=3 => 0,
        4 => rng.pick(&[1, 1_870, 2 * 1_870, 2_244]),
        5 => rng.below(6_000),
        _ => rng.below(1_000),
    }
}

/// Where the own live slots end, counted from byte `head` of the row.
pub fn edges(plans: &[FramePlan], head: usize) -> Vec<usize> {
    let mut end = 0;
    let slots = plans.iter().flat_map(|plan| &plan.slots);
    slots
        .filter(|slot| slot.own)
        .filter_map(|slot| {
            end += slot.len;
            usize::checked_sub(end, head)
        })
        .collect()
}

/// Bytes of the plans' own live slots.
pub fn capacity(plans: &[FramePlan]) -> usize {
    let slots = plans.iter().flat_map(|plan| &plan.slots);
    slots.filter(|slot| slot.own).map(|slot| slot.len).sum()
}

/// Lays the packets out from byte `head` of the row on, and cuts the row into slots.
pub fn assemble(
    rng: &mut Prng,
    config: Config,
    plans: Vec<FramePlan>,
    head: usize,
    items: &[Item],
    units: Vec<Sent>,
) -> Broadcast {
    let mut row = rng.bytes(head);
    let mut packets = Vec::with_capacity(items.len());
    for item in items {
        let from = row.len();
        row.extend(item.bytes());
        packets.push(from..row.len());
    }
    let end = capacity(&plans);
    while row.len() < end {
        let from = row.len();
        let len = (end - from).clamp(4, 1_000) - 4;
        row.extend(tlv(0x7F, 0xFF, &vec![0; len]));
        packets.push(from..row.len());
    }
    let complete = |unit: &Sent| unit.carriers.iter().all(|&p| packets[p].end <= end);
    let units = units.into_iter().filter(complete).collect();
    let (frames, own) = cut(rng, plans, &row, head, &packets);
    Broadcast {
        config,
        frames,
        own,
        packets,
        units,
    }
}

/// Cuts the row into the plans' own live slots, with their pointers.
pub fn cut(
    rng: &mut Prng,
    plans: Vec<FramePlan>,
    row: &[u8],
    head: usize,
    packets: &[Range<usize>],
) -> (Vec<Frame>, Vec<OwnSlot>) {
    let (mut frames, mut own) = (Vec::new(), Vec::new());
    let mut from = 0;
    for (f, plan) in plans.into_iter().enumerate() {
        let mut block = plan.block;
        let mut slots = Vec::with_capacity(SLOTS);
        for (s, slot) in plan.slots.iter().enumerate() {
            if !slot.own {
                slots.push(rng.bytes(slot.len));
                continue;
            }
            let part = from..from + slot.len;
            let (top, last) = pointers(&part, head, packets);
            layout::set_pointers(&mut block, s, top, last);
            slots.push(row[part.clone()].to_vec());
            from = part.end;
            own.push(OwnSlot {
                frame: f,
                slot: s,
                row: part,
            });
        }
        let block = block.to_vec();
        frames.push(Frame { block, slots });
    }
    (frames, own)
}

/// Top: where the first packet starts in the slot. Last: one past the last byte of the last packet
/// that ends in it; the packet that began before the first slot ends at `head`.
fn pointers(slot: &Range<usize>, head: usize, packets: &[Range<usize>]) -> (u16, u16) {
    let first = packets.partition_point(|packet| packet.start < slot.start);
    let top = packets[first..]
        .first()
        .filter(|packet| packet.start < slot.end)
        .map_or(NO_POINTER, |packet| (packet.start - slot.start) as u16);
    let ended = packets.partition_point(|packet| packet.end <= slot.end);
    let end = ended.checked_sub(1).map_or(head, |p| packets[p].end);
    let last = if end > slot.start && end <= slot.end {
        (end - slot.start) as u16
    } else {
        NO_POINTER
    };
    (top, last)
}

impl Broadcast {
    /// The units of which no carrying packet had a byte in a lost slot.
    pub fn surviving(&self, losses: &Losses) -> Vec<&Sent> {
        let lost: Vec<&Range<usize>> = self
            .own
            .iter()
            .filter(|own| losses.lost(own.frame, own.slot))
            .map(|own| &own.row)
            .collect();
        let hit = |packet: &Range<usize>| {
            let next = lost.partition_point(|slot| slot.end <= packet.start);
            lost.get(next).is_some_and(|slot| slot.start < packet.end)
        };
        let survives = |unit: &&Sent| !unit.carriers.iter().any(|&p| hit(&self.packets[p]));
        self.units.iter().filter(survives).collect()
    }

    /// The capture's commands, with these losses.
    pub fn commands(&self, losses: &Losses) -> Commands {
        let mut out = vec![commands::start(&self.config)];
        for (f, frame) in self.frames.iter().enumerate() {
            if losses.frames[f] {
                out.push(vec![b'X']);
                continue;
            }
            out.push(commands::frame(&frame.block));
            for (s, data) in frame.slots.iter().enumerate() {
                out.push(if losses.slots[f][s] {
                    vec![b'L']
                } else {
                    commands::slot(data)
                });
            }
        }
        out
    }

    /// The capture with nothing lost.
    pub fn capture(&self) -> Vec<u8> {
        self.commands(&Losses::none(self.frames.len())).concat()
    }
}
