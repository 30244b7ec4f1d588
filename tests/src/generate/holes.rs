//! Units of more than 256 pieces with holes in them: 256 pieces in a row, or some more or less, do not
//! arrive. Where it is a multiple of 256, the counters go on as if nothing had been lost.

use std::ops::Range;

use super::broadcast::{assemble, capacity, edges, head_len, Broadcast, Losses};
use super::layout::full_frame_of;
use super::packet::Spec;
use super::prng::Prng;
use super::sender::{self, Sender};

const FRAMES: usize = 2;

/// A broadcast of such units, and what is lost of it. It knows no unit of which a packet is bad.
pub fn broadcast(seed: u64) -> (Broadcast, Losses) {
    let mut rng = Prng::new(seed);
    let mut config = sender::config(&mut rng);
    config.ids.truncate(rng.range(1, 3));
    let mode = (rng.pick(&[0x11, 0x12]), 120);
    let frame = |_| full_frame_of(&mut rng, config.stream_id, &[mode]);
    let plans: Vec<_> = (0..FRAMES).map(frame).collect();
    let head = head_len(&mut rng);
    let mut sender = Sender::new(Prng::new(seed ^ 0x801E), config);
    sender.edges = edges(&plans, head);
    let mut lost = Vec::new();
    while sender.len < capacity(&plans) {
        for _ in 0..rng.below(20) {
            sender.step();
        }
        let k = rng.below(sender.config.ids.len());
        match rng.below(4) {
            0 => no_hole(&mut rng, &mut sender, k),
            1 => hole_of_packets(&mut rng, &mut sender, k),
            _ => lost.push(hole_in_slots(&mut rng, &mut sender, k)),
        }
    }
    let Sender {
        config,
        items,
        units,
        ..
    } = sender;
    let sent = assemble(&mut rng, config, plans, head, &items, units);
    let mut losses = Losses::none(FRAMES);
    for own in &sent.own {
        let (start, end) = (own.row.start, own.row.end);
        let inside = |part: &Range<usize>| head + part.start <= start && end <= head + part.end;
        losses.slots[own.frame][own.slot] = lost.iter().any(inside);
    }
    (sent, losses)
}

/// Pieces before a hole, in it and behind it. Of 513 in all the first one has counter 0.
fn hole(rng: &mut Prng) -> [usize; 3] {
    let hole = rng.pick(&[255, 256, 256, 256, 256, 257, 512]);
    let any = hole + rng.range(2, 60);
    let count = rng.pick(&[any, any, any.max(513)]);
    let before = rng.range(1, count - hole - 1);
    [before, hole, count - hole - before]
}

/// A long unit without a hole.
fn no_hole(rng: &mut Prng, sender: &mut Sender, k: usize) {
    let any = rng.range(257, 600);
    let count = rng.pick(&[257, 513, any]);
    sender.begin(k, count);
    sender.pieces(k, count);
}

/// A unit of which just the pieces of a hole stand in slots that are to be lost; gives their part of the row.
fn hole_in_slots(rng: &mut Prng, sender: &mut Sender, k: usize) -> Range<usize> {
    let [before, hole, behind] = hole(rng);
    sender.begin(k, before + hole + behind);
    sender.pieces(k, before);
    sender.fill_slot();
    let from = sender.len;
    sender.pieces(k, hole);
    sender.fill_slot();
    let to = sender.len;
    sender.pieces(k, behind);
    from..to
}

/// A unit of which just the pieces of a hole are bad, for one reason or for several.
fn hole_of_packets(rng: &mut Prng, sender: &mut Sender, k: usize) {
    let [before, hole, behind] = hole(rng);
    sender.begin(k, before + hole + behind);
    sender.pieces(k, before + hole + behind);
    let unit = sender.units.pop().expect("the unit that was just sent");
    let (reason, several) = (rng.below(3), rng.chance(1, 4));
    for &carrier in &unit.carriers[before..before + hole] {
        let reason = if several { rng.below(3) } else { reason };
        let piece = sender.items[carrier].flow().expect("a piece");
        spoil(rng, piece, reason);
    }
}

/// Changes a packet so that it counts as never received: silent, 51 or 52.
fn spoil(rng: &mut Prng, spec: &mut Spec, reason: usize) {
    match reason {
        0 => spec.cid ^= 1 << rng.below(12),
        1 => spec.flags |= rng.pick(&[0x40, 0x80, 0x08, 0x10]),
        _ => spec.payload_type = spec.payload_type & 0xC0 | rng.pick(&[1, 3, 0x3F]),
    }
}
