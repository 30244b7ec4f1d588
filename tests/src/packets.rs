//! Packets: compressed IP flow, MMTP header, payload header and data units; notes 50, 51, 52.

use crate::fields::{be16, be32};
use crate::slots::TLV_HEADER;

const TYPE_COMPRESSED_IP: u8 = 3;
const MMTP_HEADER: usize = 12;
const MPU_HEADER: usize = 8;
const SIGNALLING_HEADER: usize = 2;
pub const MAX_IDS: usize = 16;

/// Kinds of units: 0 and 1 as FT, MFU timed or not, signalling.
pub const KIND_TIMED: u8 = 2;
pub const KIND_ITEM: u8 = 3;
pub const KIND_SIGNALLING: u8 = 4;

/// Fragmentation indicator.
pub const FI_WHOLE: u8 = 0;
pub const FI_FIRST: u8 = 1;
pub const FI_MIDDLE: u8 = 2;
pub const FI_LAST: u8 = 3;

/// No place; above every place.
const NO_PLACE: u8 = MAX_IDS as u8;

/// The watched packet_ids, by their place in the order given, found by a hash of one byte. The answer is that
/// of a search in the order given (`tests/watching.rs`); no list in rising order is kept here, unlike in the
/// proved library, so that the two share no step.
#[derive(Clone, Copy, Debug)]
pub struct Watch {
    ids: [u16; MAX_IDS],
    /// First place for each hash, and after each place the next of the same hash.
    first: [u8; 256],
    after: [u8; MAX_IDS],
}

#[inline(always)]
fn hash(id: u16) -> usize {
    usize::from((id ^ id >> 8) as u8)
}

impl Watch {
    /// `ids` are at most 16, all different.
    pub fn new(ids: &[u16]) -> Self {
        let mut watch = Watch {
            ids: [0; MAX_IDS],
            first: [NO_PLACE; 256],
            after: [NO_PLACE; MAX_IDS],
        };
        for (k, &id) in ids.iter().enumerate() {
            watch.ids[k] = id;
            watch.after[k] = watch.first[hash(id)];
            watch.first[hash(id)] = k as u8;
        }
        watch
    }

    /// The id's place in the order given.
    #[inline(always)]
    pub fn place(&self, id: u16) -> Option<usize> {
        let mut k = usize::from(self.first[hash(id)]);
        while k < MAX_IDS {
            if self.ids[k] == id {
                return Some(k);
            }
            k = usize::from(self.after[k]);
        }
        None
    }

    #[inline(always)]
    pub fn id(&self, place: usize) -> u16 {
        self.ids[place]
    }
}

/// Fields before the bytes of a unit or piece; 0 where its kind has none.
#[derive(Clone, Copy, Debug, Default, PartialEq, Eq)]
pub struct UnitFields {
    /// Movie fragment number, or the item id.
    pub fragment: u32,
    pub sample: u32,
    pub offset: u32,
    pub priority: u8,
    pub dependency: u8,
}

/// Bytes that the fields of a kind take.
#[inline(always)]
pub fn fields_len(kind: u8) -> usize {
    const BY_KIND: [u8; 8] = [0, 0, 14, 4, 0, 0, 0, 0];
    usize::from(BY_KIND[usize::from(kind & 7)])
}

impl UnitFields {
    /// The fields at the head of `unit`, which is long enough for its kind.
    #[inline(always)]
    pub fn read(kind: u8, unit: &[u8]) -> Self {
        match kind {
            KIND_TIMED => UnitFields {
                fragment: be32(unit, 0),
                sample: be32(unit, 4),
                offset: be32(unit, 8),
                priority: unit[12],
                dependency: unit[13],
            },
            KIND_ITEM => UnitFields {
                fragment: be32(unit, 0),
                ..UnitFields::default()
            },
            _ => UnitFields::default(),
        }
    }
}

/// A good packet of a watched packet_id.
#[derive(Clone, Copy, Debug, PartialEq, Eq)]
pub struct Packet {
    /// Place of the packet_id in the watch list.
    pub place: usize,
    pub psn: u32,
    pub kind: u8,
    pub indicator: u8,
    pub counter: u8,
    pub mpu: u32,
    /// Bytes of the length before each unit: 0 without aggregation.
    pub prefix: usize,
    /// Offset in the TLV packet of what follows the payload header.
    pub at: usize,
}

#[derive(Clone, Copy, Debug, PartialEq, Eq)]
pub enum Reading {
    Silent,
    /// 50 or 51.
    Noted(u8),
    /// 52, for the packet_id at a place.
    BadPayload(usize),
    Good(Packet),
}

/// Reads one complete TLV packet.
#[inline(always)]
pub fn read(packet: &[u8], cid: u16, watch: &Watch) -> Reading {
    let (mmtp, at) = match shortest_headers(packet, cid) {
        Some(headers) => headers,
        None => match any_headers(packet, cid) {
            Ok(headers) => headers,
            Err(reading) => return reading,
        },
    };
    let Some(place) = watch.place(be16(&mmtp, 2)) else {
        return Reading::Silent;
    };
    let payload = &packet[at..];
    let read = match mmtp[1] & 0x3F {
        0 => read_mpu(payload),
        2 => read_signalling(payload),
        _ => None,
    };
    match read {
        Some(p) => Reading::Good(Packet {
            place,
            psn: be32(&mmtp, 8),
            at: at + p.at,
            ..p
        }),
        None => Reading::BadPayload(place),
    }
}

/// MMTP's first 12 bytes, and where its payload starts.
type Headers = ([u8; MMTP_HEADER], usize);

/// The headers of most packets of the flow, taken at one go: header type 0x61, no counter, no
/// extension. None if they are others, good or not.
#[inline(always)]
fn shortest_headers(packet: &[u8], cid: u16) -> Option<Headers> {
    let headers = packet.first_chunk::<{ TLV_HEADER + 3 + MMTP_HEADER }>()?;
    let same_flow = headers[1] == TYPE_COMPRESSED_IP && be16(headers, 4) >> 4 == cid;
    let version_c_fec_x = headers[7] & 0xFA;
    if !same_flow || headers[6] != 0x61 || version_c_fec_x != 0 {
        return None;
    }
    let mmtp = headers.last_chunk::<MMTP_HEADER>()?;
    Some((*mmtp, headers.len()))
}

/// All headers up to MMTP's payload, or why there is none.
#[inline(never)]
fn any_headers(packet: &[u8], cid: u16) -> Result<Headers, Reading> {
    if packet[1] != TYPE_COMPRESSED_IP {
        return Err(Reading::Silent);
    }
    let Some(&[c0, c1, header_type]) = packet.get(TLV_HEADER..TLV_HEADER + 3) else {
        return Err(Reading::Noted(50));
    };
    if u16::from_be_bytes([c0, c1]) >> 4 != cid {
        return Err(Reading::Silent);
    }
    let start = TLV_HEADER
        + match header_type {
            0x20 => 23,
            0x21 => 5,
            0x60 => 45,
            0x61 => 3,
            _ => return Err(Reading::Noted(50)),
        };
    let mmtp = packet.get(start..).ok_or(Reading::Noted(50))?;
    let (header, payload_at) = mmtp_header(mmtp).ok_or(Reading::Noted(51))?;
    Ok((header, start + payload_at))
}

/// The MMTP header; none is 51.
fn mmtp_header(mmtp: &[u8]) -> Option<Headers> {
    let header = mmtp.first_chunk::<MMTP_HEADER>()?;
    let (version, fec) = (header[0] >> 6, header[0] >> 3 & 3);
    if version != 0 || fec != 0 {
        return None;
    }
    let (with_counter, with_extension) = (header[0] >> 5 & 1 == 1, header[0] >> 1 & 1 == 1);
    let mut at = MMTP_HEADER + if with_counter { 4 } else { 0 };
    if with_extension {
        if mmtp.len() < at + 4 {
            return None;
        }
        at += 4 + usize::from(be16(mmtp, at + 2));
    }
    (at <= mmtp.len()).then_some((*header, at))
}

/// Payload type 0; none is 52.
#[inline(always)]
fn read_mpu(payload: &[u8]) -> Option<Packet> {
    let header = payload.first_chunk::<MPU_HEADER>()?;
    if usize::from(be16(header, 0)) != payload.len() - 2 {
        return None;
    }
    let timed = header[2] >> 3 & 1 == 1;
    let kind = match (header[2] >> 4, timed) {
        (0, _) => 0,
        (1, _) => 1,
        (2, true) => KIND_TIMED,
        (2, false) => KIND_ITEM,
        _ => return None,
    };
    let aggregated = header[2] & 1 == 1;
    let packet = Packet {
        place: 0,
        psn: 0,
        kind,
        indicator: header[2] >> 1 & 3,
        counter: header[3],
        mpu: be32(header, 4),
        prefix: if aggregated { 2 } else { 0 },
        at: MPU_HEADER,
    };
    good(&packet, &payload[MPU_HEADER..]).then_some(packet)
}

/// Payload type 2; none is 52.
#[inline(always)]
fn read_signalling(payload: &[u8]) -> Option<Packet> {
    let header = payload.first_chunk::<SIGNALLING_HEADER>()?;
    let prefix = match (header[0] & 1, header[0] >> 1 & 1) {
        (0, _) => 0,
        (_, 0) => 2,
        _ => 4,
    };
    let packet = Packet {
        place: 0,
        psn: 0,
        kind: KIND_SIGNALLING,
        indicator: header[0] >> 6,
        counter: header[1],
        mpu: 0,
        prefix,
        at: SIGNALLING_HEADER,
    };
    good(&packet, &payload[SIGNALLING_HEADER..]).then_some(packet)
}

/// Indicator, counter and aggregation agree, and what follows the payload header is units.
#[inline(always)]
fn good(packet: &Packet, body: &[u8]) -> bool {
    // The counter runs modulo 256, so a first or middle piece may have 0 too.
    let counter_fits = packet.indicator != FI_LAST || packet.counter == 0;
    if packet.prefix == 0 {
        return counter_fits && body.len() >= fields_len(packet.kind);
    }
    packet.indicator == FI_WHOLE && aggregate_fits(body, packet.prefix, packet.kind)
}

/// At least one unit, each after its length, which covers the kind's fields, and no byte left over.
fn aggregate_fits(body: &[u8], prefix: usize, kind: u8) -> bool {
    let mut rest = body;
    loop {
        let Some((len, from)) = unit_length(rest, prefix) else {
            return false;
        };
        if len < fields_len(kind) || from.len() < len {
            return false;
        }
        rest = &from[len..];
        if rest.is_empty() {
            return true;
        }
    }
}

/// Splits the length of an aggregated unit off.
#[inline(always)]
pub fn unit_length(bytes: &[u8], prefix: usize) -> Option<(usize, &[u8])> {
    if prefix == 2 {
        let (head, rest) = bytes.split_first_chunk::<2>()?;
        Some((usize::from(u16::from_be_bytes(*head)), rest))
    } else {
        let (head, rest) = bytes.split_first_chunk::<4>()?;
        Some((u32::from_be_bytes(*head) as usize, rest))
    }
}
