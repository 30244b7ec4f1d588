//! Noise that still reaches the machines: random steps of joining, random slots, random bytes.

use super::broadcast::{assemble, capacity, Broadcast};
use super::commands::{self, Commands};
use super::damage::{plans, spoil_first};
use super::layout::{self, set_pointers};
use super::packet::Item;
use super::prng::Prng;
use super::sender::{self, field_bytes, Config, Sender};
use crate::control_block::SLOTS;
use crate::packets::UnitFields;

/// Packets whose psn, FI, counter, kind and fields are each right or wrong by chance, over few ids
/// and a small R: every step of joining from every state.
pub fn joining(seed: u64) -> Broadcast {
    let mut rng = Prng::new(seed);
    let mut config = sender::config(&mut rng);
    config.ids.truncate(rng.range(1, 3));
    config.joined_max = rng.pick(&[1, 3, 10, 60]);
    let plans = plans(&mut rng, &config, 1);
    let len = capacity(&plans).min(30_000);
    let mut sender = Sender::new(Prng::new(seed ^ 0x70), config);
    let mut last = vec![Last::default(); sender.config.ids.len()];
    for state in &mut last {
        state.psn = rng.pick(&[5, u32::MAX - 3]);
    }
    let (mut items, mut sent) = (Vec::new(), 0);
    while sent < len {
        let k = rng.below(last.len());
        let item = random_piece(&mut rng, &mut sender, k, &mut last[k]);
        sent += item.bytes().len();
        items.push(item);
    }
    assemble(&mut rng, sender.config, plans, 0, &items, Vec::new())
}

/// The packet of an id that was sent last.
#[derive(Clone, Default)]
struct Last {
    psn: u32,
    kind: u8,
    counter: u8,
    mpu: u32,
    fields: UnitFields,
    indicator: u8,
}

fn random_piece(rng: &mut Prng, sender: &mut Sender, k: usize, last: &mut Last) -> Item {
    let steady = 9; // in ten: each field goes on as it should
    let going = matches!(last.indicator, 1 | 2) && rng.chance(steady, 10);
    last.psn = last.psn.wrapping_add(if rng.chance(19, 20) {
        1
    } else {
        rng.pick(&[0, 2, 257, 65_537]) // 256 pieces lost, or 65,536: the counter may still fit
    });
    if !going || rng.chance(1, 20) {
        last.kind = rng.below(5) as u8;
        last.mpu = rng.pick(&[0, 1]);
        last.fields.fragment = rng.pick(&[0, 1]);
        last.fields.sample = rng.pick(&[0, 1]);
    }
    last.fields.offset = rng.u32();
    last.counter = if going && rng.chance(steady, 10) {
        last.counter.wrapping_sub(1)
    } else {
        rng.pick(&[0, 1, 2, 3, 255])
    };
    last.indicator = match (going, last.counter) {
        _ if rng.chance(1, 10) => rng.below(4) as u8,
        (true, 0) => rng.pick(&[2, 3, 3]), // a last piece has 0, but others may have it too
        (true, _) => 2,
        (false, 0) => rng.pick(&[0, 1]),
        (false, _) => 1,
    };
    let mut spec = sender.spec(k, last.kind);
    spec.header_type = 0x61;
    spec.flags = 0;
    spec.psn = last.psn;
    spec.counter = last.counter;
    spec.mpu = last.mpu;
    spec.set_indicator(last.indicator);
    spec.body = field_bytes(last.kind, &last.fields);
    let len = rng.pick(&[0, 1, 2, 5, 20]);
    spec.body.extend(rng.bytes(len));
    Item::Flow(Box::new(spec))
}

/// Frames of own slots built one by one, so that held bytes, first bytes, header, t and last fit or not
/// by chance.
pub fn slots(seed: u64) -> Commands {
    let mut rng = Prng::new(seed);
    let config = sender::config(&mut rng);
    let mut out = vec![commands::start(&config)];
    let mut builder = SlotBuilder {
        held: Vec::new(),
        config,
    };
    for _ in 0..rng.range(1, 2) {
        let plan = loop {
            let rate = rng.range(1, 11) as u8;
            let plan = layout::frame_of(&mut rng, builder.config.stream_id, &[(0x10 | rate, 120)]);
            if plan.slots.iter().filter(|slot| slot.own).count() > 8 {
                break plan;
            }
        };
        let mut block = plan.block;
        let mut slots = Vec::with_capacity(SLOTS);
        for (s, slot) in plan.slots.iter().enumerate() {
            if !slot.own {
                slots.push(commands::slot(&vec![0; slot.len]));
                continue;
            }
            let (data, top, last) = builder.slot(&mut rng, slot.len);
            set_pointers(&mut block, s, top, last);
            let lost = rng.chance(1, 25);
            slots.push(if lost {
                vec![b'L']
            } else {
                commands::slot(&data)
            });
        }
        out.push(commands::frame(&block));
        out.extend(slots);
    }
    out
}

struct SlotBuilder {
    /// Bytes of a packet that the slots so far ended with.
    held: Vec<u8>,
    config: Config,
}

impl SlotBuilder {
    /// A slot's data and pointers.
    fn slot(&mut self, rng: &mut Prng, len: usize) -> (Vec<u8>, u16, u16) {
        let mut data = self.continuing(rng, len);
        let whole = data.len() == len;
        let mut top = if whole { 0xFFFF } else { data.len() as u16 };
        let mut last = if data.is_empty() || whole {
            0xFFFF
        } else {
            top
        };
        if whole && rng.chance(1, 2) {
            last = len as u16;
        }
        self.held.extend(&data);
        while data.len() < len {
            let packet = self.packet(rng, len - data.len());
            let part = packet.len().min(len - data.len());
            data.extend(&packet[..part]);
            self.held = packet[..part].to_vec();
            if part == packet.len() {
                last = data.len() as u16;
                self.held.clear();
            }
        }
        if rng.chance(1, 4) {
            spoil_first(rng, &mut data, top.into());
        }
        if rng.chance(1, 12) {
            let near = top.wrapping_add(rng.pick(&[1, 0xFFFF]));
            top = rng.pick(&[near, 0, 1, 2, 3, 0xFFFF, len as u16]);
        }
        if rng.chance(1, 20) {
            let near = last.wrapping_add(rng.pick(&[1, 0xFFFF]));
            last = rng.pick(&[near, 0, top, 0xFFFF, len as u16]);
        }
        (data, top, last)
    }

    /// Bytes with which the held packet goes on; sometimes too few, too many, or of another length.
    fn continuing(&mut self, rng: &mut Prng, len: usize) -> Vec<u8> {
        if self.held.is_empty() && rng.chance(9, 10) {
            return Vec::new();
        }
        let mut header = self.held.clone();
        header.truncate(4);
        let known = header.len();
        if known < 4 {
            let total = rng.pick(&[0, 4, 300, len, 16_379, 16_380, 16_381, 40_000]) as u16;
            header.resize(4, 0x7F);
            header[2..].copy_from_slice(&total.to_be_bytes());
            header[..known].copy_from_slice(&self.held[..known]);
        }
        let total = 4 + usize::from(u16::from_be_bytes([header[2], header[3]]));
        let mut left = total.saturating_sub(self.held.len());
        if rng.chance(1, 15) {
            left = left.saturating_sub(1) + rng.below(3);
        }
        let mut data = header[known..].to_vec();
        data.resize(left.min(len), 0x55);
        data
    }

    /// A packet for the `room` left: one that fills it, all but a few bytes of it, or any.
    fn packet(&self, rng: &mut Prng, room: usize) -> Vec<u8> {
        let straddling = rng.range(1, 5); // leaves a header, or less, for the next packet
        let len = match rng.below(20) {
            0 => room.saturating_sub(4),
            1..=3 => room.saturating_sub(4 + straddling),
            4 => rng.pick(&[16_379, 16_380, 16_381, 65_535]),
            5 => room + rng.below(8),
            6 => 5_000 + rng.below(9_000),
            _ => rng.pick(&[0, 1, 2, 20, 100, 300]),
        };
        let mut packet = vec![0; 4 + len];
        packet[0] = 0x7F;
        packet[1] = rng.pick(&[3, 3, 0xFF]);
        packet[2..4].copy_from_slice(&(len as u16).to_be_bytes());
        if len >= 20 {
            packet[4..6].copy_from_slice(&(self.config.cid << 4).to_be_bytes());
            packet[6] = 0x61;
            packet[8] = 2;
            packet[9..11].copy_from_slice(&self.config.ids[0].to_be_bytes());
        }
        packet
    }
}

/// C and then random bytes, or frames of random bytes, or nothing but random bytes.
pub fn bytes(seed: u64) -> Vec<u8> {
    let mut rng = Prng::new(seed);
    let len = rng.pick(&[0, 1, 41, 42, 43, 300, 3_000]);
    if rng.chance(1, 4) {
        return rng.bytes(len);
    }
    let config = sender::config(&mut rng);
    let mut out = commands::start(&config);
    if rng.chance(1, 2) {
        let plan = layout::frame(&mut rng, config.stream_id);
        out.extend(commands::frame(&plan.block));
        for slot in &plan.slots {
            let data = rng.bytes(slot.len);
            out.extend(commands::slot(&data));
        }
    }
    for _ in 0..len / 8 {
        let letter = rng.pick(b"XLSFC");
        out.push(if rng.chance(9, 10) {
            letter
        } else {
            rng.byte()
        });
    }
    out
}
