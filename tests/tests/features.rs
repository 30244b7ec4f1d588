//! The undamaged broadcasts have every feature that document 01 names: counted from what was sent.

use std::collections::BTreeMap;

use second::generate::broadcast::{undamaged, Broadcast, OwnSlot};
use second::generate::packet::Item;
use second::generate::prng::Prng;
use second::generate::sender::{config, Config, Sender, Sent};
use second::slots::NO_POINTER;

type Counts = BTreeMap<String, usize>;

fn count(counts: &mut Counts, what: impl Into<String>, seen: bool) {
    *counts.entry(what.into()).or_default() += usize::from(seen);
}

fn all_seen(counts: &Counts) {
    for (what, seen) in counts {
        println!("{seen:8} {what}");
        assert!(*seen > 0, "never seen: {what}");
    }
}

fn count_item(counts: &mut Counts, item: &Item, config: &Config) {
    assert_eq!(item.bytes()[0], 0x7F);
    let spec = match item {
        Item::Raw(bytes) => {
            count(counts, "null packet", bytes[1] == 0xFF);
            count(counts, "packet of another flow", bytes[1] == 3);
            count(counts, "packet without data", bytes.len() == 4);
            return;
        }
        Item::Flow(spec) => spec,
    };
    for header_type in [0x20, 0x21, 0x60, 0x61] {
        let seen = spec.header_type == header_type;
        count(counts, format!("header type {header_type:#x}"), seen);
    }
    for flags in [0, 2, 0x20, 0x22] {
        let seen = spec.flags & 0x22 == flags;
        count(counts, format!("C and X {flags:#x}"), seen);
    }
    let watched = config.ids.contains(&spec.packet_id);
    let own = spec.cid == config.cid;
    count(counts, "packet_id not watched", !watched);
    count(counts, "good but for its CID", watched && !own);
    let aggregate = spec.head & 1 == 1 && watched && own;
    let wide = spec.signalling() && spec.head & 2 == 2;
    count(counts, "aggregate, 16-bit lengths", aggregate && !wide);
    count(counts, "aggregate, 32-bit lengths", aggregate && wide);
    count(counts, "16,384 bytes", spec.bytes().len() == 16_384);
    for (indicator, name) in [(1, "first"), (2, "middle")] {
        let zero = spec.counter == 0 && spec.indicator() == indicator && watched && own;
        count(counts, format!("{name} piece with counter 0"), zero);
    }
}

fn count_unit(counts: &mut Counts, unit: &Sent, r: usize) {
    let (pieces, len) = (unit.carriers.len(), unit.bytes.len());
    count(counts, format!("kind {} whole", unit.kind), pieces == 1);
    count(counts, format!("kind {} joined", unit.kind), pieces > 1);
    count(counts, "empty whole unit", pieces == 1 && len == 0);
    count(counts, "empty joined unit", pieces > 1 && len == 0);
    for exactly in [256, 257, 513] {
        count(counts, format!("{exactly} pieces"), pieces == exactly);
    }
    count(counts, "more than 256 pieces", pieces > 256);
    count(counts, "joined unit of R", pieces > 1 && len == r);
    let wraps = unit.psn.checked_add(pieces as u32 - 1).is_none();
    count(counts, "psn wraps inside a unit", wraps);
}

#[test]
fn packets_of_every_form() {
    let mut counts = Counts::new();
    for seed in 0..60 {
        let mut rng = Prng::new(seed);
        let config = config(&mut rng);
        let mut sender = Sender::new(rng, config);
        sender.send_up_to(100_000);
        for item in &sender.items {
            count_item(&mut counts, item, &sender.config);
        }
        for unit in &sender.units {
            count_unit(&mut counts, unit, sender.config.joined_max as usize);
        }
    }
    all_seen(&counts);
}

fn count_modes(counts: &mut Counts, block: &[u8]) {
    let modes: Vec<u8> = block[1..25].chunks(3).map(|mode| mode[0]).collect();
    for modulation in 1..=5 {
        let seen = modes.iter().any(|mode| mode >> 4 == modulation);
        count(counts, format!("modulation {modulation}"), seen);
    }
    for rate in 1..=11 {
        let seen = modes.iter().any(|&mode| mode < 0x60 && mode & 15 == rate);
        count(counts, format!("rate {rate}"), seen);
    }
    count(counts, "several modes", modes[1] != 0xFF);
    count(counts, "eight modes", modes[7] != 0xFF);
}

fn count_slot(counts: &mut Counts, broadcast: &Broadcast, own: &OwnSlot) {
    let at = 153 + 4 * own.slot;
    let block = &broadcast.frames[own.frame].block;
    let top = u16::from_be_bytes([block[at], block[at + 1]]);
    let last = u16::from_be_bytes([block[at + 2], block[at + 3]]);
    let len = own.row.len() as u16;
    count(counts, "t = 0", top == 0);
    count(
        counts,
        "t = 0xFFFF, last 0xFFFF",
        top == NO_POINTER && last == top,
    );
    count(
        counts,
        "t = 0xFFFF, last L",
        top == NO_POINTER && last == len,
    );
    count(counts, "packet ends with the slot", last == len);
    for held in 1..4 {
        let start = own.row.end - held;
        let seen = broadcast.packets.iter().any(|packet| packet.start == start);
        count(counts, format!("header straddles after {held}"), seen);
    }
}

#[test]
fn frames_and_slots_of_every_form() {
    let mut counts = Counts::new();
    for seed in 0..150 {
        let broadcast = undamaged(seed, 3);
        for frame in &broadcast.frames {
            count_modes(&mut counts, &frame.block);
            let dummies = frame.slots.iter().filter(|data| data.is_empty()).count();
            count(&mut counts, "dummy slots", dummies > 0);
        }
        for own in &broadcast.own {
            count_slot(&mut counts, &broadcast, own);
        }
        let slots = broadcast.frames.iter().flat_map(|frame| &frame.slots);
        let live = slots.filter(|data| !data.is_empty()).count();
        let others = live > broadcast.own.len();
        count(&mut counts, "live slots of other streams", others);
        let begins = broadcast.packets[0].start;
        count(&mut counts, "the row begins inside a packet", begins > 0);
    }
    all_seen(&counts);
}
