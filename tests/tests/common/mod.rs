//! Shared by the tests: reading a broadcast by the calls, and packets written out by hand.
#![allow(dead_code)]

pub mod lists;

use std::ops::Range;

use second::calls::{self, show, Event, Receiver};
use second::control_block::{decode, SlotPlan};
use second::generate::broadcast::{Broadcast, Losses};
use second::generate::sender::{Config, Sent};
use second::packets::{UnitFields, MAX_IDS};
use second::slots::PACKET_MEMORY;

/// A receiver and the memories that it is lent.
pub struct Station {
    pub receiver: Receiver,
    pub packet_memory: Vec<u8>,
    pub collecting: Vec<u8>,
}

/// A unit with all that it carries.
#[derive(Clone, Debug, PartialEq, Eq)]
pub struct Got {
    pub packet_id: u16,
    pub kind: u8,
    pub psn: u32,
    pub mpu: u32,
    pub fields: UnitFields,
    pub bytes: Vec<u8>,
}

/// Units, and notes with their ids.
#[derive(Clone, Debug, Default, PartialEq, Eq)]
pub struct Read {
    pub units: Vec<Got>,
    pub notes: Vec<(u8, Option<u16>)>,
}

impl Read {
    pub fn numbers(&self) -> Vec<u8> {
        self.notes.iter().map(|note| note.0).collect()
    }
}

impl From<&Sent> for Got {
    fn from(sent: &Sent) -> Self {
        Got {
            packet_id: sent.packet_id,
            kind: sent.kind,
            psn: sent.psn,
            mpu: sent.mpu,
            fields: sent.fields,
            bytes: sent.bytes.clone(),
        }
    }
}

pub fn sixteen(ids: &[u16]) -> [u16; MAX_IDS] {
    let mut all = [0; MAX_IDS];
    all[..ids.len()].copy_from_slice(ids);
    all
}

impl Station {
    /// Memories of just the lengths needed, filled with `fill`.
    pub fn new(config: &Config, fill: u8) -> Self {
        let n = config.ids.len();
        let ids = sixteen(&config.ids);
        let (stream, cid, r) = (config.stream_id, config.cid, config.joined_max);
        let receiver = calls::start(stream, cid, n as u8, &ids, r).expect("a legal start");
        Station {
            receiver,
            packet_memory: vec![fill; PACKET_MEMORY],
            collecting: vec![fill; n * r as usize],
        }
    }

    pub fn slot(&mut self, data: &[u8]) -> Result<(), u8> {
        let memory = &mut self.packet_memory;
        self.receiver.slot(data, memory, &self.collecting)
    }

    pub fn lost_slot(&mut self) -> Result<(), u8> {
        let memory = &self.packet_memory;
        self.receiver.lost_slot(memory, &self.collecting)
    }

    pub fn next(&mut self) -> Result<Event, u8> {
        let memory = &self.packet_memory;
        self.receiver.next(memory, &mut self.collecting)
    }

    /// Calls next until nothing waits, and show after each unit.
    pub fn drain(&mut self, read: &mut Read) {
        loop {
            match self.next().expect("the memories suffice") {
                Event::Nothing => return,
                Event::Note { number, packet_id } => read.notes.push((number, packet_id)),
                Event::Unit(unit) => read.units.push(Got {
                    packet_id: unit.packet_id,
                    kind: unit.kind,
                    psn: unit.psn,
                    mpu: unit.mpu,
                    fields: unit.fields,
                    bytes: show(&unit, &self.packet_memory, &self.collecting).to_vec(),
                }),
            }
        }
    }
}

/// Reads a broadcast with losses; `between` may make calls that are refused.
pub fn read_with(
    broadcast: &Broadcast,
    losses: &Losses,
    fill: u8,
    mut between: impl FnMut(&mut Station),
) -> Read {
    let mut station = Station::new(&broadcast.config, fill);
    let mut read = Read::default();
    for (f, frame) in broadcast.frames.iter().enumerate() {
        between(&mut station);
        if losses.frames[f] {
            assert_eq!(station.receiver.lost_frame(), Ok(()));
            station.drain(&mut read);
            continue;
        }
        assert_eq!(station.receiver.frame(&frame.block), Ok(()));
        for (s, data) in frame.slots.iter().enumerate() {
            between(&mut station);
            let answer = if losses.slots[f][s] {
                station.lost_slot()
            } else {
                station.slot(data)
            };
            assert_eq!(answer, Ok(()));
            between(&mut station);
            station.drain(&mut read);
        }
    }
    read
}

pub fn read(broadcast: &Broadcast, losses: &Losses) -> Read {
    read_with(broadcast, losses, 0, |_| {})
}

/// A control block: these modes, relative stream 3 of type 2 and id 1, every slot of it.
pub fn block(modes: &[(u8, u8)]) -> Vec<u8> {
    let mut block = vec![0; 1_178];
    for (i, mode) in block[1..25].chunks_exact_mut(3).enumerate() {
        let (pair, count) = modes.get(i).copied().unwrap_or((0xFF, 0));
        mode.copy_from_slice(&[pair, count, 0]);
    }
    block[25 + 3] = 2;
    block[693 + 6..693 + 8].copy_from_slice(&[0, 1]);
    block[633..693].fill(0x33);
    block
}

/// A station for stream 1, CID 5, these ids, R 100, that has read no frame.
pub fn station(ids: &[u16]) -> Station {
    let config = Config {
        stream_id: 1,
        cid: 5,
        ids: ids.to_vec(),
        joined_max: 100,
    };
    Station::new(&config, 0)
}

pub fn tlv(tlv_type: u8, data: &[u8]) -> Vec<u8> {
    second::generate::packet::tlv(0x7F, tlv_type, data)
}

/// A packet of CID 5, header type 0x61, with these MMTP bytes.
pub fn flow(mmtp: &[u8]) -> Vec<u8> {
    tlv(3, &[&[0, 0x50, 0x61], mmtp].concat())
}

/// MMTP header of 12 bytes.
pub fn mmtp(payload_type: u8, id: u16, psn: u32) -> Vec<u8> {
    let mut out = vec![0, payload_type];
    out.extend(id.to_be_bytes());
    out.extend([0; 4]);
    out.extend(psn.to_be_bytes());
    out
}

/// A signalling packet.
pub fn signalling(id: u16, psn: u32, indicator: u8, counter: u8, bytes: &[u8]) -> Vec<u8> {
    let head = [indicator << 6, counter];
    flow(&[&mmtp(2, id, psn)[..], &head, bytes].concat())
}

/// An MPU packet; `after` is all that follows the MPU sequence number.
pub fn mpu(id: u16, psn: u32, head: u8, counter: u8, number: u32, after: &[u8]) -> Vec<u8> {
    let mut out = mmtp(0, id, psn);
    out.extend((6 + after.len() as u16).to_be_bytes());
    out.extend([head, counter]);
    out.extend(number.to_be_bytes());
    out.extend(after);
    flow(&out)
}

/// A unit of `count` pieces, at least 2, from this psn on: counters fall to 0 modulo 256, every tenth piece
/// has a byte. `packet` writes each from psn, FI, counter and bytes.
pub fn in_pieces(
    count: usize,
    psn: u32,
    packet: impl Fn(u32, u8, u8, &[u8]) -> Vec<u8>,
) -> Vec<Vec<u8>> {
    let piece = |i: usize| {
        let indicator = match i {
            0 => 1,
            _ if i + 1 == count => 3,
            _ => 2,
        };
        let counter = ((count - 1 - i) % 256) as u8;
        let psn = psn.wrapping_add(i as u32);
        packet(psn, indicator, counter, &bytes_of(i..i + 1))
    };
    (0..count).map(piece).collect()
}

/// The bytes of these pieces of such a unit.
pub fn bytes_of(pieces: Range<usize>) -> Vec<u8> {
    let tenth = pieces.filter(|i| i % 10 == 0);
    tenth.map(|i| (i % 251) as u8).collect()
}

/// Reads these packets in frames of BPSK 1/3, padded with a null packet.
pub fn read_packets(ids: &[u16], packets: &[Vec<u8>]) -> Read {
    let mut station = station(ids);
    let mut read = Read::default();
    for (data, top, last) in cut_padded(packets) {
        feed(&mut station, &data, top, last, &mut read);
    }
    read
}

/// Data (none if lost), t and last of each own live slot of a capture; a lost frame counts as a lost slot.
pub fn own_slots(capture: &[u8]) -> Vec<(Option<Vec<u8>>, u16, u16)> {
    let be16 = |at: usize| u16::from_be_bytes([capture[at], capture[at + 1]]);
    let (mut out, mut at) = (Vec::new(), 42);
    let mut slots = [SlotPlan::default(); 120].into_iter();
    while at < capture.len() {
        if capture[at] == b'F' {
            let block = capture[at + 1..at + 1_179].try_into().expect("1,178 bytes");
            slots = decode(block, be16(1)).expect("a legal block").into_iter();
            at += 1_179;
            continue;
        }
        if capture[at] == b'X' {
            out.push((None, 0, 0));
            at += 1;
            continue;
        }
        let slot = slots.next().expect("120 slots");
        let mut data = None;
        if capture[at] == b'S' {
            data = Some(capture[at + 3..at + 3 + usize::from(slot.len)].to_vec());
            at += 2 + usize::from(slot.len);
        }
        at += 1;
        if slot.own {
            out.push((data, slot.top, slot.last));
        }
    }
    out
}

/// Cuts packets and padding into slots of 1,870 bytes by the cutter.
pub fn cut_padded(packets: &[Vec<u8>]) -> Vec<(Vec<u8>, u16, u16)> {
    let mut run = packets.concat();
    let mut left = (1_870 - run.len() % 1_870) % 1_870;
    if (1..4).contains(&left) {
        left += 1_870;
    }
    if left > 0 {
        run.extend(tlv(0xFF, &vec![0; left - 4]));
    }
    let mut out = Vec::new();
    for s in 0..run.len() / 1_870 {
        let mut data = vec![0; 1_870];
        let (top, last) = second::cutter::cut(&run, 1_870, s, &mut data).expect("a whole run");
        out.push((data, top, last));
    }
    out
}

/// Gives an own slot in a frame of its own: slot 1 of a BPSK 1/3 frame whose other slots are another
/// stream's.
pub fn feed(station: &mut Station, data: &[u8], top: u16, last: u16, read: &mut Read) {
    let mut block = block(&[(0x11, 120)]);
    block[633..693].fill(0x44);
    block[633] = 0x34;
    block[153..155].copy_from_slice(&top.to_be_bytes());
    block[155..157].copy_from_slice(&last.to_be_bytes());
    assert_eq!(station.receiver.frame(&block), Ok(()));
    assert_eq!(station.slot(data), Ok(()));
    station.drain(read);
    for _ in 1..120 {
        assert_eq!(station.lost_slot(), Ok(()));
        station.drain(read);
    }
}
