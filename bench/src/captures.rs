//! The four captures that are measured, built in memory.
//!
//! The capture program lends 65,536 bytes of collecting memory, so n × R is that in each: R is 65,536 where
//! one packet_id is watched, and 4,096 where 16 are. No unit is longer than R.

use second::generate::broadcast::{capacity, cut};
use second::generate::commands;
use second::generate::layout::{full_frame_of, FramePlan};
use second::generate::prng::Prng;
use second::generate::sender::Config;
use second::packer::{pack, Head, Numbers};
use second::packets::{UnitFields, KIND_SIGNALLING, KIND_TIMED};

/// 16APSK 7/9: 96 live slots of 4,301 bytes in a frame.
const MODES: [(u8, u8); 1] = [(0x47, 120)];
const STREAM: u16 = 0xB110;
const CID: u16 = 1;
/// R where one packet_id is watched, and where 16 are.
const R_ALONE: u32 = 65_536;
const R_SHARED: u32 = 4_096;

pub struct Measured {
    pub name: &'static str,
    pub what: &'static str,
    pub capture: Vec<u8>,
    /// Packets of the row that are complete in it; lost slots have some of them.
    pub packets: usize,
}

/// A row of packets being sent, and where each stands.
struct Row {
    rng: Prng,
    bytes: Vec<u8>,
    packets: Vec<std::ops::Range<usize>>,
    /// The watched packet_ids in the order given, and the next psn of each.
    ids: Vec<u16>,
    psns: Vec<u32>,
}

impl Row {
    fn new(seed: u64, ids: Vec<u16>) -> Self {
        Row {
            rng: Prng::new(seed),
            bytes: Vec::new(),
            packets: Vec::new(),
            psns: vec![0; ids.len()],
            ids,
        }
    }

    /// Packs a unit of `len` bytes for the watched id at place `k`.
    fn send(&mut self, k: usize, kind: u8, len: usize) {
        let pieces = self.pack(self.ids[k], self.psns[k], kind, len);
        self.psns[k] = self.psns[k].wrapping_add(pieces);
    }

    /// Packs a unit of `len` bytes; how many packets it takes.
    fn pack(&mut self, packet_id: u16, psn: u32, kind: u8, len: usize) -> u32 {
        let head = Head {
            packet_id,
            kind,
            mpu: 1,
            fields: UnitFields::default(),
        };
        let numbers = Numbers {
            cid: CID,
            sn: 0,
            psn,
        };
        let unit = self.rng.bytes(len);
        let mut out = vec![0; len + 47 * (len / 1_400 + 1)];
        let written = pack(&head, &unit, 1_400, numbers, &mut out).expect("a legal unit");
        let (mut at, mut pieces) = (0, 0);
        while at < written {
            let end = at + 4 + usize::from(u16::from_be_bytes([out[at + 2], out[at + 3]]));
            let from = self.bytes.len();
            self.packets.push(from..from + end - at);
            self.bytes.extend_from_slice(&out[at..end]);
            pieces += 1;
            at = end;
        }
        pieces
    }

    /// The capture: the row in full frames, `lost` slots in 100 lost; and how many packets it has.
    fn capture(mut self, plans: Vec<FramePlan>, joined_max: u32, lost: usize) -> (Vec<u8>, usize) {
        let end = capacity(&plans);
        assert!(self.bytes.len() >= end, "the row fills the slots");
        let packets = self.packets.partition_point(|packet| packet.end <= end);
        let (frames, _) = cut(&mut self.rng, plans, &self.bytes, 0, &self.packets);
        let mut out = commands::start(&Config {
            stream_id: STREAM,
            cid: CID,
            ids: self.ids,
            joined_max,
        });
        for frame in frames {
            out.extend(commands::frame(&frame.block));
            for data in &frame.slots {
                if self.rng.chance(lost, 100) {
                    out.push(b'L');
                } else {
                    out.extend(commands::slot(data));
                }
            }
        }
        (out, packets)
    }
}

fn plans(frames: usize) -> Vec<FramePlan> {
    let mut rng = Prng::new(1);
    let plan = full_frame_of(&mut rng, STREAM, &MODES);
    vec![plan; frames]
}

/// Video: units of 20,000 to R bytes of one packet_id, in pieces of 1,400.
fn video(frames: usize) -> (Vec<u8>, usize) {
    let plans = plans(frames);
    let mut row = Row::new(2, vec![0]);
    while row.bytes.len() < capacity(&plans) {
        let len = row.rng.range(20_000, R_ALONE as usize);
        row.send(0, KIND_TIMED, len);
    }
    row.capture(plans, R_ALONE, 0)
}

/// Signalling: whole units of 20 to 180 bytes over 16 packet_ids.
fn small(frames: usize) -> (Vec<u8>, usize) {
    let plans = plans(frames);
    let mut row = Row::new(3, (0..16).collect());
    while row.bytes.len() < capacity(&plans) {
        let (k, len) = (row.rng.below(16), row.rng.range(20, 180));
        row.send(k, KIND_SIGNALLING, len);
    }
    row.capture(plans, R_SHARED, 0)
}

/// Video and signalling, with 5 slots in 100 lost. About three bytes in four are video, in units of two
/// or three pieces.
fn lossy(frames: usize) -> (Vec<u8>, usize) {
    let plans = plans(frames);
    let mut row = Row::new(4, (0..16).collect());
    while row.bytes.len() < capacity(&plans) {
        for _ in 0..20 {
            let (k, len) = (row.rng.range(1, 15), row.rng.range(20, 1_200));
            row.send(k, KIND_SIGNALLING, len);
        }
        for _ in 0..11 {
            let len = row.rng.range(2_000, R_SHARED as usize);
            row.send(0, KIND_TIMED, len);
        }
    }
    row.capture(plans, R_SHARED, 5)
}

/// As signalling, but nine packets in ten are of packet_ids that are not watched: below, between and above the
/// watched ones, which are spread over all numbers and given in mixed order.
fn unwatched(frames: usize) -> (Vec<u8>, usize) {
    let plans = plans(frames);
    let mut ids: Vec<u16> = (0..16).map(|k| 0x800 + 0x1000 * k).collect();
    Prng::new(6).shuffle(&mut ids);
    let mut row = Row::new(5, ids);
    while row.bytes.len() < capacity(&plans) {
        let (k, len) = (row.rng.below(16), row.rng.range(20, 180));
        let other = row.rng.u16();
        if row.rng.chance(1, 10) || row.ids.contains(&other) {
            row.send(k, KIND_SIGNALLING, len);
        } else {
            row.pack(other, 0, KIND_SIGNALLING, len);
        }
    }
    row.capture(plans, R_SHARED, 0)
}

/// Name, what it has, and how it is built: a capture of so many frames, and the number of its packets.
type Entry = (&'static str, &'static str, fn(usize) -> (Vec<u8>, usize));

const CAPTURES: [Entry; 4] = [
    (
        "video",
        "units of 20,000 to 65,536 bytes in pieces of 1,400, one packet_id, R 65,536",
        video,
    ),
    (
        "signalling",
        "whole units of 20 to 180 bytes over 16 packet_ids, R 4,096",
        small,
    ),
    (
        "losses",
        "video units of 2,000 to 4,096 bytes and signalling over 16 packet_ids, R 4,096, 5 percent of the slots lost",
        lossy,
    ),
    (
        "unwatched",
        "as signalling, but nine packets in ten are of packet_ids that are not watched",
        unwatched,
    ),
];

fn measured((name, what, build): Entry, frames: usize) -> Measured {
    let (capture, packets) = build(frames);
    Measured {
        name,
        what,
        capture,
        packets,
    }
}

pub fn all(frames: usize) -> impl Iterator<Item = Measured> {
    let entries = CAPTURES.into_iter();
    entries.map(move |entry| measured(entry, frames))
}

/// The capture of that name, if there is one.
pub fn named(name: &str, frames: usize) -> Option<Measured> {
    let entry = CAPTURES.into_iter().find(|entry| entry.0 == name)?;
    Some(measured(entry, frames))
}
