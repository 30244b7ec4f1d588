//! Damage inside slots: in every field of packets, in first bytes, in pointers, and in the order of slots.

use super::broadcast::{assemble, capacity, head_len, Broadcast, Frame, Losses};
use super::commands::Commands;
use super::layout::{self, FramePlan};
use super::packet::{tlv, Item, Spec};
use super::prng::Prng;
use super::sender::{self, Config, Sender};
use crate::fields::be16;
use crate::slots::{packet_total, TLV_HEADER};

/// A broadcast whose packets are damaged here and there.
pub fn packets(seed: u64, most: usize) -> Broadcast {
    let mut rng = Prng::new(seed);
    let config = sender::config(&mut rng);
    let plans = plans(&mut rng, &config, most);
    let mut sender = Sender::new(Prng::new(seed ^ 0xDA), config);
    let len = capacity(&plans);
    sender.send_up_to(len);
    let rate = rng.pick(&[5, 20, 100]);
    let mut items = Vec::new();
    for item in sender.items {
        if rng.chance(rate, 400) {
            damage_item(&mut rng, &sender.config, item, &mut items);
        } else {
            items.push(item);
        }
    }
    let head = head_len(&mut rng);
    assemble(&mut rng, sender.config, plans, head, &items, Vec::new())
}

pub fn plans(rng: &mut Prng, config: &Config, most: usize) -> Vec<FramePlan> {
    (0..rng.range(1, most))
        .map(|_| layout::frame(rng, config.stream_id))
        .collect()
}

/// Lost, doubled, or changed; or a stranger before it.
fn damage_item(rng: &mut Prng, config: &Config, mut item: Item, items: &mut Vec<Item>) {
    match rng.below(12) {
        0 => {}
        1 => items.extend([item.clone(), item]),
        2 => items.extend([Item::Raw(stray(rng, config)), item]),
        3 => {
            let mut bytes = item.bytes();
            for _ in 0..rng.range(1, 3) {
                // Not the TLV header, or the rest of the row would be another one.
                if bytes.len() > 4 {
                    let at = rng.range(4, bytes.len().min(60) - 1);
                    bytes[at] = rng.byte();
                }
            }
            items.push(Item::Raw(bytes));
        }
        _ => {
            if let Some(spec) = item.flow() {
                damage_spec(rng, spec);
            }
            items.push(item);
        }
    }
}

/// A short or odd packet of the flow.
fn stray(rng: &mut Prng, config: &Config) -> Vec<u8> {
    let len = rng.pick(&[0, 1, 2, 3, 4, 5, 15, 23, 45, 60]);
    let mut data = rng.bytes(len);
    if len >= 3 {
        data[..2].copy_from_slice(&(config.cid << 4).to_be_bytes());
        data[2] = rng.pick(&[0x20, 0x21, 0x60, 0x61, 0x22, 0]);
    }
    tlv(0x7F, rng.pick(&[3, 3, 3, 0xFF]), &data)
}

/// Changes one field.
pub fn damage_spec(rng: &mut Prng, spec: &mut Spec) {
    let len = spec.bytes().len() - 4;
    match rng.below(25) {
        0 => spec.header_type = rng.byte(),
        1 => spec.cut = Some(rng.below(8)),
        2 => spec.cut = Some(rng.below(len + 1)),
        3 => spec.cut = Some(len.saturating_sub(1)),
        4 => spec.flags |= rng.pick(&[0x40, 0x80, 0x08, 0x10]),
        5 => spec.flags ^= rng.pick(&[0x20, 0x02, 0x04, 0x01]),
        6 => {
            spec.flags |= 2;
            spec.extension_error = rng.pick(&[1, 0xFFFF, 0x7FFF, 40]);
        }
        7 => spec.payload_type = rng.byte(),
        8 => spec.packet_id ^= rng.pick(&[1, 0x8000]),
        9 => spec.psn = spec.psn.wrapping_add(rng.pick(&[1, 2, u32::MAX, 1 << 31])),
        10 => spec.length_error = rng.pick(&[1, 0xFFFF, 0x8000]),
        11 => spec.head = rng.byte(),
        12 => spec.head ^= 1,
        13 => spec.head ^= 1 << rng.below(8),
        14 => spec.set_indicator(rng.below(4) as u8),
        15 => spec.counter = rng.pick(&[0, 1, 2, 254, 255]),
        16 => spec.counter = spec.counter.wrapping_add(rng.pick(&[1, 255])),
        17 => spec.mpu ^= 1 << rng.below(32),
        18 => spec.tlv_first = bad_first(rng),
        _ => damage_body(rng, &mut spec.body),
    }
}

/// Shorter, longer, or with a wrong bit in its fields or aggregate lengths.
fn damage_body(rng: &mut Prng, body: &mut Vec<u8>) {
    match rng.below(6) {
        0 => {
            let keep = rng.below(body.len() + 1).min(rng.below(20));
            body.truncate(keep);
        }
        1 => body.push(0),
        2 => body.clear(),
        3 => {
            let more = rng.pick(&[1, 1_000, 12_000]);
            body.extend(vec![0; more]);
        }
        _ => {
            let at = rng.below(body.len().clamp(1, 16));
            if let Some(byte) = body.get_mut(at) {
                *byte ^= 1 << rng.below(8);
            }
        }
    }
}

/// A first byte that no header may have. Most look like a header at a glance: reserved bits changed, the
/// top bit set, or one bit wrong.
pub fn bad_first(rng: &mut Prng) -> u8 {
    match rng.below(10) {
        0..=3 => rng.range(0x40, 0x7E) as u8,
        4..=6 => rng.range(0x80, 0xFF) as u8,
        7 | 8 => 0x7F ^ 1 << rng.below(8),
        _ => rng.below(0x40) as u8,
    }
}

/// Where headers begin from `t` on, by the packets' lengths alone; none if `t` points nowhere.
pub fn headers(data: &[u8], t: usize) -> Vec<usize> {
    let (mut places, mut at) = (Vec::new(), t);
    while at < data.len() {
        places.push(at);
        if data.len() - at < TLV_HEADER {
            break;
        }
        at += packet_total(data, at);
    }
    places
}

/// Gives a header from `t` on a bad first byte: the first, one of the last two (the unfinished packet
/// and the last complete one, where a slot has both), or any.
pub fn spoil_first(rng: &mut Prng, data: &mut [u8], t: usize) {
    let places = headers(data, t);
    let Some(end) = places.len().checked_sub(1) else {
        return;
    };
    let any = rng.below(places.len());
    let which = rng.pick(&[0, end.saturating_sub(1), end, end, any]);
    data[places[which]] = bad_first(rng);
}

/// Damages slots and pointers of a broadcast: bits, first bytes, pointers, slots doubled, changed over,
/// left out.
pub fn slots(seed: u64, broadcast: &mut Broadcast) {
    let mut rng = Prng::new(seed);
    for _ in 0..rng.range(1, 12) {
        let i = rng.below(broadcast.own.len());
        let (frame, slot) = (broadcast.own[i].frame, broadcast.own[i].slot);
        match rng.below(11) {
            0 | 1 => {
                let data = &mut broadcast.frames[frame].slots[slot];
                let at = rng.below(data.len());
                data[at] ^= 1 << rng.below(8);
            }
            2..=4 => damage_pointers(&mut rng, broadcast, frame, slot),
            5 | 6 => move_slot(&mut rng, broadcast, i),
            7..=9 => {
                let Frame { block, slots } = &mut broadcast.frames[frame];
                let t = be16(block, pointers_at(slot).start);
                spoil_first(&mut rng, &mut slots[slot], t.into());
            }
            _ => {
                let data = &mut broadcast.frames[frame].slots[slot];
                rng.fill(data);
            }
        }
    }
}

fn pointers_at(slot: usize) -> std::ops::Range<usize> {
    153 + 4 * slot..157 + 4 * slot
}

fn damage_pointers(rng: &mut Prng, broadcast: &mut Broadcast, frame: usize, slot: usize) {
    let len = broadcast.frames[frame].slots[slot].len() as u16;
    let any = rng.u16() % (len + 2);
    let pointers = &mut broadcast.frames[frame].block[pointers_at(slot)];
    let which = 2 * rng.below(2);
    let old = u16::from_be_bytes([pointers[which], pointers[which + 1]]);
    let (up, down) = (old.wrapping_add(1), old.wrapping_sub(1));
    let other = [pointers[2 - which], pointers[3 - which]];
    let new = rng.pick(&[
        up,
        down,
        0,
        0xFFFF,
        0xFFFE,
        len,
        len - 1,
        any,
        u16::from_be_bytes(other),
    ]);
    pointers[which..which + 2].copy_from_slice(&new.to_be_bytes());
}

/// Puts an own slot's data and pointers in the place of another of the same length: each slot stays
/// sound, but what is held no longer fits.
fn move_slot(rng: &mut Prng, broadcast: &mut Broadcast, i: usize) {
    let near = (i + rng.range(1, 4)).min(broadcast.own.len() - 1);
    let (from, to) = if rng.chance(1, 2) {
        (i, near)
    } else {
        (near, i)
    };
    let (from, to) = (&broadcast.own[from], &broadcast.own[to]);
    let data = broadcast.frames[from.frame].slots[from.slot].clone();
    let pointers = broadcast.frames[from.frame].block[pointers_at(from.slot)].to_vec();
    let target = &mut broadcast.frames[to.frame];
    if target.slots[to.slot].len() == data.len() {
        target.slots[to.slot] = data;
        target.block[pointers_at(to.slot)].copy_from_slice(&pointers);
    }
}

/// The commands of a damaged broadcast, with or without losses.
pub fn with_losses(rng: &mut Prng, broadcast: &Broadcast) -> Commands {
    let frames = broadcast.frames.len();
    let losses = if rng.chance(1, 2) {
        Losses::none(frames)
    } else {
        Losses::random(rng, frames)
    };
    broadcast.commands(&losses)
}
