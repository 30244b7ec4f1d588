//! Packer: one unit to TLV packets.

use crate::calls::MAX_CID;
use crate::packets::{fields_len, UnitFields, KIND_ITEM, KIND_SIGNALLING, KIND_TIMED};
use crate::packets::{FI_FIRST, FI_LAST, FI_MIDDLE, FI_WHOLE};
use crate::Refusal;

pub const MAX_PIECE: usize = 1_400;
const MAX_PIECES: usize = 65_535;
const HEADERS: usize = 4 + 3 + 12;

/// What a unit's packets say of it; fields that the kind lacks are not written.
#[derive(Clone, Copy, Debug, PartialEq, Eq)]
pub struct Head {
    pub packet_id: u16,
    pub kind: u8,
    pub mpu: u32,
    pub fields: UnitFields,
}

/// Where the packets go: the flow, and the numbers of the first one.
#[derive(Clone, Copy, Debug, PartialEq, Eq)]
pub struct Numbers {
    pub cid: u16,
    pub sn: u8,
    pub psn: u32,
}

/// Writes the unit's packets from `out`'s byte 0 on, in pieces of `m` bytes; gives their length.
pub fn pack(
    head: &Head,
    unit: &[u8],
    m: usize,
    numbers: Numbers,
    out: &mut [u8],
) -> Result<usize, Refusal> {
    if !(1..=MAX_PIECE).contains(&m) {
        return Err(70);
    }
    if head.kind > KIND_SIGNALLING {
        return Err(71);
    }
    let pieces = unit.len().div_ceil(m).max(1);
    if pieces > MAX_PIECES {
        return Err(72);
    }
    let before = HEADERS + payload_header_len(head.kind) + fields_len(head.kind);
    let length = pieces * before + unit.len();
    if out.len() < length {
        return Err(73);
    }
    if numbers.cid > MAX_CID {
        return Err(74);
    }
    let mut at = 0;
    for i in 0..pieces {
        let piece = &unit[i * m..unit.len().min((i + 1) * m)];
        let numbers = Numbers {
            sn: numbers.sn.wrapping_add(i as u8),
            psn: numbers.psn.wrapping_add(i as u32),
            ..numbers
        };
        let mut writer = Writer { out, at };
        writer.headers(head, before + piece.len(), numbers);
        writer.payload(head, piece, indicator(i, pieces), counter(i, pieces));
        at = writer.at;
    }
    Ok(at)
}

/// FI of piece `i`, from 0.
fn indicator(i: usize, pieces: usize) -> u8 {
    match (i == 0, i + 1 == pieces) {
        (true, true) => FI_WHOLE,
        (true, false) => FI_FIRST,
        (false, false) => FI_MIDDLE,
        (false, true) => FI_LAST,
    }
}

/// Counter of piece `i`: the pieces behind it, modulo 256.
fn counter(i: usize, pieces: usize) -> u8 {
    ((pieces - 1 - i) % 256) as u8
}

fn payload_header_len(kind: u8) -> usize {
    if kind == KIND_SIGNALLING {
        2
    } else {
        8
    }
}

struct Writer<'a> {
    out: &'a mut [u8],
    at: usize,
}

impl Writer<'_> {
    fn put(&mut self, bytes: &[u8]) {
        self.out[self.at..self.at + bytes.len()].copy_from_slice(bytes);
        self.at += bytes.len();
    }

    /// TLV, compressed IP and MMTP header of a packet of `total` bytes.
    fn headers(&mut self, head: &Head, total: usize, numbers: Numbers) {
        self.put(&[0x7F, 3]);
        self.put(&((total - 4) as u16).to_be_bytes());
        self.put(&(numbers.cid << 4 | u16::from(numbers.sn & 15)).to_be_bytes());
        let payload_type = if head.kind == KIND_SIGNALLING { 2 } else { 0 };
        self.put(&[0x61, 0, payload_type]);
        self.put(&head.packet_id.to_be_bytes());
        self.put(&[0; 4]);
        self.put(&numbers.psn.to_be_bytes());
    }

    fn payload(&mut self, head: &Head, piece: &[u8], indicator: u8, counter: u8) {
        if head.kind == KIND_SIGNALLING {
            self.put(&[indicator << 6, counter]);
        } else {
            let length = 6 + fields_len(head.kind) + piece.len();
            let type_and_timed = match head.kind {
                KIND_TIMED => 0x28,
                KIND_ITEM => 0x20,
                kind => kind << 4,
            };
            self.put(&(length as u16).to_be_bytes());
            self.put(&[type_and_timed | indicator << 1, counter]);
            self.put(&head.mpu.to_be_bytes());
        }
        self.fields(head);
        self.put(piece);
    }

    fn fields(&mut self, head: &Head) {
        let fields = &head.fields;
        if head.kind == KIND_TIMED || head.kind == KIND_ITEM {
            self.put(&fields.fragment.to_be_bytes());
        }
        if head.kind == KIND_TIMED {
            self.put(&fields.sample.to_be_bytes());
            self.put(&fields.offset.to_be_bytes());
            self.put(&[fields.priority, fields.dependency]);
        }
    }
}
