//! The slot machine beside a model over lists: notes, packets, state and every byte of packet memory.
//!
//! The model follows document 01's sentences one by one and cares for nothing but being plain.

mod common;

use common::own_slots;
use second::generate::catalogue::{capture, family};
use second::slots::{Held, Stream, Taken, MAX_PACKET, PACKET_MEMORY, SLOT_AT};

/// Notes and complete packets of a slot, in stream order.
#[derive(Debug, PartialEq)]
enum Item {
    Note(u8),
    Packet(Vec<u8>),
}

struct Model {
    /// None: searching.
    held: Option<Vec<u8>>,
    memory: Vec<u8>,
}

fn total(packet: &[u8]) -> usize {
    4 + usize::from(packet[2]) * 256 + usize::from(packet[3])
}

/// Packets from t on, the last perhaps not complete; none if one doesn't start with 0x7F.
fn split(mut rest: &[u8]) -> Option<Vec<&[u8]>> {
    let mut packets = Vec::new();
    while let Some(first) = rest.first() {
        if *first != 0x7F {
            return None;
        }
        let len = if rest.len() < 4 {
            rest.len()
        } else {
            total(rest).min(rest.len())
        };
        packets.push(&rest[..len]);
        rest = &rest[len..];
    }
    Some(packets)
}

fn complete(packet: &[u8]) -> bool {
    packet.len() >= 4 && packet.len() == total(packet)
}

fn is_sound(data: &[u8], t: usize, last: usize) -> bool {
    if t == 0xFFFF {
        return last == 0xFFFF || last == data.len();
    }
    if t >= data.len() {
        return false;
    }
    let Some(packets) = split(&data[t..]) else {
        return false;
    };
    let mut end = t;
    let mut due = if t == 0 { 0xFFFF } else { t };
    for packet in packets {
        end += packet.len();
        if complete(packet) {
            due = end;
        }
    }
    last == due
}

impl Model {
    fn lose(&mut self) -> Vec<Item> {
        let note = self.held.take().map(|_| Item::Note(40));
        note.into_iter().collect()
    }

    fn take(&mut self, data: &[u8], t: usize, last: usize) -> Vec<Item> {
        let len = data.len();
        let mut items = Vec::new();
        if is_sound(data, t, last) {
            self.held_goes_on(data, t, last, &mut items);
            if t < len {
                self.read_from(&data[t..], &mut items);
            }
        } else {
            items.push(Item::Note(41));
            self.held = None;
        }
        self.memory[16_384..16_384 + len].copy_from_slice(data);
        items
    }

    fn held_goes_on(&mut self, data: &[u8], t: usize, last: usize, items: &mut Vec<Item>) {
        let Some(held) = self.held.take() else {
            return;
        };
        let all = [&held[..], data].concat();
        if !held.is_empty() && total(&all) > 16_384 {
            items.push(Item::Note(43));
            return;
        }
        let end = if held.is_empty() {
            0
        } else {
            total(&all) - held.len()
        };
        let len = data.len();
        let differs = if t == 0xFFFF {
            end < len
                || (end == len && last != len)
                || (end > len && last == len)
                || held.is_empty()
        } else {
            end != t
        };
        if differs {
            items.push(Item::Note(42));
            return;
        }
        let so_far = &all[..held.len() + end.min(len)];
        if held.is_empty() {
            self.held = Some(Vec::new());
            return;
        }
        self.memory[..so_far.len()].copy_from_slice(so_far);
        if end <= len {
            items.push(Item::Packet(so_far.to_vec()));
            self.held = Some(Vec::new());
        } else {
            self.held = Some(so_far.to_vec());
        }
    }

    fn read_from(&mut self, rest: &[u8], items: &mut Vec<Item>) {
        self.held = Some(Vec::new());
        for packet in split(rest).expect("the slot is sound") {
            if complete(packet) {
                items.push(Item::Packet(packet.to_vec()));
            } else if packet.len() >= 4 && total(packet) > 16_384 {
                items.push(Item::Note(43));
                self.held = None;
            } else {
                self.held = Some(packet.to_vec());
            }
        }
    }
}

/// What the machine left to be read, as the model says it.
fn items_of(taken: &Taken, memory: &[u8]) -> Vec<Item> {
    let note = |number| (number != 0).then_some(Item::Note(number));
    let mut items: Vec<Item> = note(taken.note).into_iter().collect();
    if taken.continued > 0 {
        items.push(Item::Packet(memory[..taken.continued].to_vec()));
    }
    let mut at = taken.at;
    while at < taken.end {
        let len = total(&memory[at..]);
        items.push(Item::Packet(memory[at..at + len].to_vec()));
        at += len;
    }
    items.extend(note(taken.tail_note));
    items
}

/// What was compared.
#[derive(Default)]
struct Compared {
    slots: usize,
    packets: usize,
    notes: usize,
    /// Slots that left some bytes of a packet.
    holding: usize,
}

/// The same is held by both, and what is held begins as a header must.
fn same_held(machine: Held, memory: &[u8], model: Option<&[u8]>) -> bool {
    let begins = |bytes: &[u8]| bytes.is_empty() || bytes[0] == 0x7F;
    match (machine, model) {
        (Held::Searching, None) => true,
        (Held::Bytes { from, len }, Some(bytes)) => {
            let held = &memory[from..from + len];
            held == bytes && begins(held) && begins(bytes)
        }
        _ => false,
    }
}

fn compare(number: u64, compared: &mut Compared) {
    let mut stream = Stream::default();
    let mut memory = vec![0xAB; PACKET_MEMORY];
    let mut model = Model {
        held: None,
        memory: memory.clone(),
    };
    for (data, t, last) in own_slots(&capture(number)) {
        let (due, taken) = match data {
            None => (model.lose(), stream.lose()),
            Some(data) => (
                model.take(&data, t.into(), last.into()),
                stream.take(&data, t, last, &mut memory),
            ),
        };
        let items = items_of(&taken, &memory);
        assert!(items == due, "capture {number}");
        assert!(memory == model.memory, "capture {number}");
        let held = model.held.as_deref();
        let same = same_held(stream.held, &memory, held);
        assert!(same, "capture {number}: {:?}", stream.held);
        compared.slots += 1;
        compared.holding += usize::from(held.is_some_and(|bytes| !bytes.is_empty()));
        let is_note = |item: &&Item| matches!(item, Item::Note(_));
        let notes = due.iter().filter(is_note).count();
        compared.notes += notes;
        compared.packets += due.len() - notes;
    }
}

#[test]
fn machine_and_model_agree() {
    assert_eq!(
        (MAX_PACKET, SLOT_AT, PACKET_MEMORY),
        (16_384, 16_384, 21_433)
    );
    let families = [
        "packets damaged",
        "slots damaged",
        "slot noise",
        "boundaries of held bytes",
    ];
    let mut compared = Compared::default();
    for number in (0..3_000).filter(|&number| families.contains(&family(number))) {
        compare(number, &mut compared);
    }
    let Compared {
        slots,
        packets,
        notes,
        holding,
    } = compared;
    println!("{slots} slots, {packets} packets, {notes} notes; {holding} slots left bytes");
    assert!(slots > 10_000 && packets > 30_000 && notes > 5_000);
    assert!(holding > 5_000);
}
