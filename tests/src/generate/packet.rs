//! One TLV packet, field by field, so that damage can change a single field.

use super::prng::Prng;

/// A packet of the compressed IP flow. Written as its fields say, right or wrong.
#[derive(Clone)]
pub struct Spec {
    pub tlv_first: u8,
    pub tlv_type: u8,
    pub cid: u16,
    pub header_type: u8,
    /// MMTP's first byte.
    pub flags: u8,
    /// Reserved bits and payload type.
    pub payload_type: u8,
    pub packet_id: u16,
    pub psn: u32,
    pub extension: Vec<u8>,
    /// Added to the extension's and to the payload's length field.
    pub extension_error: u16,
    pub length_error: u16,
    /// The byte with FI and A.
    pub head: u8,
    pub counter: u8,
    pub mpu: u32,
    /// What follows the payload header: fields, lengths and bytes.
    pub body: Vec<u8>,
    /// Keep only so many bytes after the TLV header.
    pub cut: Option<usize>,
    /// Seed of what is ignored: SN, IP headers, timestamp, counter, extension type.
    pub free: u64,
}

/// A packet as a row has it.
#[derive(Clone)]
pub enum Item {
    Flow(Box<Spec>),
    /// Any other packet, header included.
    Raw(Vec<u8>),
}

impl Item {
    pub fn bytes(&self) -> Vec<u8> {
        match self {
            Item::Flow(spec) => spec.bytes(),
            Item::Raw(bytes) => bytes.clone(),
        }
    }

    pub fn flow(&mut self) -> Option<&mut Spec> {
        match self {
            Item::Flow(spec) => Some(spec),
            Item::Raw(_) => None,
        }
    }
}

/// A TLV packet around `data`.
pub fn tlv(first: u8, tlv_type: u8, data: &[u8]) -> Vec<u8> {
    let mut out = vec![first, tlv_type];
    out.extend_from_slice(&(data.len() as u16).to_be_bytes());
    out.extend_from_slice(data);
    out
}

/// Bytes between the header type and the payload.
pub fn address_len(header_type: u8) -> usize {
    match header_type {
        0x20 => 20,
        0x21 => 2,
        0x60 => 42,
        _ => 0,
    }
}

impl Spec {
    pub fn bytes(&self) -> Vec<u8> {
        let mut free = Prng::new(self.free);
        let mut data = (self.cid << 4 | free.u16() & 15).to_be_bytes().to_vec();
        data.push(self.header_type);
        data.extend(free.bytes(address_len(self.header_type)));
        data.extend([self.flags, self.payload_type]);
        data.extend(self.packet_id.to_be_bytes());
        data.extend(free.u32().to_be_bytes());
        data.extend(self.psn.to_be_bytes());
        if self.flags & 0x20 != 0 {
            data.extend(free.u32().to_be_bytes());
        }
        if self.flags & 0x02 != 0 {
            let len = (self.extension.len() as u16).wrapping_add(self.extension_error);
            data.extend(free.u16().to_be_bytes());
            data.extend(len.to_be_bytes());
            data.extend(&self.extension);
        }
        if self.payload_type & 0x3F == 2 {
            data.extend([self.head, self.counter]);
        } else {
            let len = (6 + self.body.len() as u16).wrapping_add(self.length_error);
            data.extend(len.to_be_bytes());
            data.extend([self.head, self.counter]);
            data.extend(self.mpu.to_be_bytes());
        }
        data.extend(&self.body);
        data.truncate(self.cut.unwrap_or(usize::MAX));
        tlv(self.tlv_first, self.tlv_type, &data)
    }

    pub fn signalling(&self) -> bool {
        self.payload_type & 0x3F == 2
    }

    pub fn indicator(&self) -> u8 {
        if self.signalling() {
            self.head >> 6
        } else {
            self.head >> 1 & 3
        }
    }

    pub fn set_indicator(&mut self, indicator: u8) {
        if self.signalling() {
            self.head = self.head & 0x3F | indicator << 6;
        } else {
            self.head = self.head & 0xF9 | indicator << 1;
        }
    }
}
