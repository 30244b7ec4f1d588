//! A sender: an endless row of good packets over several packet_ids, and the units that they carry.

use super::packet::{tlv, Item, Spec};
use super::prng::Prng;
use crate::packets::{UnitFields, KIND_ITEM, KIND_SIGNALLING, KIND_TIMED};

/// What the receiver is started with.
#[derive(Clone, Debug)]
pub struct Config {
    pub stream_id: u16,
    pub cid: u16,
    pub ids: Vec<u16>,
    pub joined_max: u32,
}

/// A unit as it was sent, and the packets (by place in the row) that carry it.
#[derive(Clone, Debug, PartialEq, Eq)]
pub struct Sent {
    pub packet_id: u16,
    pub kind: u8,
    pub psn: u32,
    pub mpu: u32,
    pub fields: UnitFields,
    pub bytes: Vec<u8>,
    pub carriers: Vec<usize>,
}

/// A unit of which some pieces are still to be sent.
struct Open {
    sent: Sent,
    /// The pieces' lengths; those sent are gone.
    pieces: Vec<usize>,
    from: usize,
}

struct Source {
    psn: u32,
    mpu: u32,
    open: Option<Open>,
    /// Nothing is sent before the row has this length: units stay open over many slots.
    quiet_until: usize,
}

pub struct Sender {
    pub rng: Prng,
    pub config: Config,
    sources: Vec<Source>,
    pub items: Vec<Item>,
    pub units: Vec<Sent>,
    pub len: usize,
    /// Lengths of the row at which a slot ends, rising; may be empty.
    pub edges: Vec<usize>,
}

/// A random legal configuration that the capture program's memory suffices for.
pub fn config(rng: &mut Prng) -> Config {
    let n = rng.pick(&[1, 1, 2, 3, 5, 16]);
    let mut ids: Vec<u16> = Vec::new();
    while ids.len() < n {
        let any = rng.u16();
        let id = rng.pick(&[0, 1, 0xFFFF, any, any]);
        if !ids.contains(&id) {
            ids.push(id);
        }
    }
    let most = 65_536 / n;
    let few = rng.range(1, 100);
    let joined_max = rng.pick(&[most, most, 4_000, 1_500, few, 1]).min(most);
    let any = rng.u16();
    Config {
        stream_id: rng.u16(),
        cid: rng.pick(&[0, 1, 0xFFF, any & 0xFFF]),
        ids,
        joined_max: joined_max as u32,
    }
}

impl Sender {
    pub fn new(mut rng: Prng, config: Config) -> Self {
        let sources = (0..config.ids.len())
            .map(|_| {
                let (psn, mpu) = (rng.u32(), rng.u32());
                Source {
                    // Near the wrap, so that broadcasts pass it.
                    psn: rng.pick(&[0, u32::MAX - 5, u32::MAX, psn]),
                    mpu: rng.pick(&[0, u32::MAX, mpu]),
                    open: None,
                    quiet_until: 0,
                }
            })
            .collect();
        Sender {
            rng,
            config,
            sources,
            items: Vec::new(),
            units: Vec::new(),
            len: 0,
            edges: Vec::new(),
        }
    }

    /// Sends packets until the row has at least `len` bytes.
    pub fn send_up_to(&mut self, len: usize) {
        while self.len < len {
            self.step();
        }
    }

    /// Sends one packet.
    pub fn step(&mut self) {
        match self.rng.below(24) {
            0 => self.null(),
            1 => self.other_packet(),
            2 => self.unwatched(),
            3 => self.null_to_edge(),
            _ => {
                let Some(k) = self.next_source() else {
                    return self.unwatched();
                };
                if self.sources[k].open.is_some() {
                    self.piece(k);
                } else if self.rng.chance(1, 3) {
                    self.open(k);
                } else {
                    self.whole(k);
                }
            }
        }
    }

    /// A source that has something to say now.
    fn next_source(&mut self) -> Option<usize> {
        let k = self.rng.below(self.sources.len());
        (self.sources[k].quiet_until <= self.len).then_some(k)
    }

    fn push(&mut self, item: Item) {
        self.len += item.bytes().len();
        self.items.push(item);
    }

    fn raw(&mut self, tlv_type: u8, data: &[u8]) {
        self.push(Item::Raw(tlv(0x7F, tlv_type, data)));
    }

    fn null(&mut self) {
        let len = match self.rng.below(30) {
            0 => 16_380,
            1..=5 => self.rng.below(3_000),
            _ => self.rng.below(8),
        };
        let data = self.rng.bytes(len);
        self.raw(0xFF, &data);
    }

    /// A null packet that ends with a slot, or a few bytes before, so that a header straddles.
    fn null_to_edge(&mut self) {
        let next = self.edges.partition_point(|&edge| edge < self.len + 8);
        let Some(edge) = self.edges.get(next) else {
            return;
        };
        let len = edge - self.len - 4 - self.rng.below(5);
        if len <= 16_380 {
            let data = self.rng.bytes(len);
            self.raw(0xFF, &data);
        }
    }

    /// A null packet that ends just with a slot, unless the row does already.
    pub fn fill_slot(&mut self) {
        let end = self.edges.partition_point(|&edge| edge < self.len);
        if self.edges.get(end) == Some(&self.len) {
            return;
        }
        let next = self.edges.partition_point(|&edge| edge < self.len + 4);
        if let Some(edge) = self.edges.get(next) {
            let data = self.rng.bytes(edge - self.len - 4);
            self.raw(0xFF, &data);
        }
    }

    /// Other TLV types, and packets of another flow, whatever they hold.
    fn other_packet(&mut self) {
        let len = self.rng.range(3, 80);
        let mut data = self.rng.bytes(len);
        let tlv_type = self.rng.pick(&[0, 1, 2, 4, 0xFE, 3, 3]);
        if tlv_type == 3 {
            let other = self.config.cid ^ (1 << self.rng.below(12));
            data[..2].copy_from_slice(&(other << 4).to_be_bytes());
        }
        self.raw(tlv_type, &data);
    }

    /// A packet that differs from a good one in its packet_id, or in its CID alone.
    fn unwatched(&mut self) {
        let id = self.rng.u16();
        let k = self.rng.below(self.sources.len());
        let mut spec = self.spec(k, KIND_SIGNALLING);
        let len = self.rng.below(60);
        spec.body = self.rng.bytes(len);
        if self.config.ids.contains(&id) || self.rng.chance(1, 2) {
            spec.cid ^= 1 << self.rng.below(12);
        } else {
            spec.packet_id = id;
            spec.payload_type = self.rng.byte();
            spec.head = self.rng.byte();
        }
        self.push(Item::Flow(Box::new(spec)));
    }

    /// Sends a packet that nothing but its packet_id keeps from being read: whole, or a piece.
    pub fn stranger(&mut self, packet_id: u16) {
        let k = self.rng.below(self.sources.len());
        let kind = self.rng.below(5) as u8;
        let mut spec = self.spec(k, kind);
        spec.packet_id = packet_id;
        let indicator = self.rng.below(4) as u8;
        spec.set_indicator(indicator);
        spec.counter = match indicator {
            3 => 0,
            _ => self.rng.pick(&[0, 1, 2, 255]),
        };
        spec.mpu = self.sources[k].mpu;
        spec.body = field_bytes(kind, &fields(&mut self.rng, kind));
        let len = self.rng.below(40);
        spec.body.extend(self.rng.bytes(len));
        self.push(Item::Flow(Box::new(spec)));
    }

    /// Sends source `k`'s next packet: of a unit in few pieces, or a whole one.
    pub fn speak(&mut self, k: usize) {
        if self.sources[k].open.is_none() && self.rng.chance(2, 3) {
            let count = self.rng.range(2, 4);
            self.begin(k, count);
        }
        if self.sources[k].open.is_some() {
            self.piece(k);
        } else {
            self.whole(k);
        }
    }

    /// A packet of source `k`, its psn not yet counted; payload to be filled in.
    pub fn spec(&mut self, k: usize, kind: u8) -> Spec {
        let rng = &mut self.rng;
        let flags = rng.pick(&[0, 0, 0x20, 0x02, 0x22]) | rng.byte() & 0x05;
        let extension_len = rng.pick(&[0, 1, 4, 30]);
        Spec {
            tlv_first: 0x7F,
            tlv_type: 3,
            cid: self.config.cid,
            header_type: rng.pick(&[0x61, 0x61, 0x60, 0x20, 0x21]),
            flags,
            payload_type: rng.byte() & 0xC0 | if kind == KIND_SIGNALLING { 2 } else { 0 },
            packet_id: self.config.ids[k],
            psn: self.sources[k].psn,
            extension: rng.bytes(extension_len),
            extension_error: 0,
            length_error: 0,
            head: head_of(rng, kind),
            counter: 0,
            mpu: 0,
            body: Vec::new(),
            cut: None,
            free: rng.u64(),
        }
    }

    fn count_psn(&mut self, k: usize) {
        let psn = &mut self.sources[k].psn;
        *psn = psn.wrapping_add(1);
    }

    /// A unit of source `k` with random fields, its psn the next one.
    fn unit(&mut self, k: usize, kind: u8, len: usize) -> Sent {
        if self.rng.chance(1, 4) {
            self.sources[k].mpu = self.sources[k].mpu.wrapping_add(1);
        }
        let source = &self.sources[k];
        Sent {
            packet_id: self.config.ids[k],
            kind,
            psn: source.psn,
            mpu: if kind == KIND_SIGNALLING {
                0
            } else {
                source.mpu
            },
            fields: fields(&mut self.rng, kind),
            bytes: self.rng.bytes(len),
            carriers: Vec::new(),
        }
    }

    /// FI 00: one unit, or an aggregate.
    fn whole(&mut self, k: usize) {
        let kind = self.rng.below(5) as u8;
        let mut spec = self.spec(k, kind);
        spec.counter = if self.rng.chance(1, 3) {
            self.rng.byte()
        } else {
            0
        };
        let place = self.items.len();
        if self.rng.chance(1, 3) {
            self.aggregate(k, kind, &mut spec, place);
        } else {
            let len = self.whole_len(&spec);
            let mut unit = self.unit(k, kind, len);
            spec.body = field_bytes(kind, &unit.fields);
            spec.body.extend(&unit.bytes);
            spec.mpu = unit.mpu;
            unit.carriers.push(place);
            self.units.push(unit);
        }
        self.count_psn(k);
        self.push(Item::Flow(Box::new(spec)));
    }

    /// Any length, now and then the one that makes a packet of 16,384 bytes.
    fn whole_len(&mut self, spec: &Spec) -> usize {
        match self.rng.below(60) {
            0 => {
                let kind_fields = match (spec.signalling(), spec.head & 0xF8) {
                    (false, 0x28) => 14,
                    (false, 0x20) => 4,
                    _ => 0,
                };
                16_384 - spec.bytes().len() - kind_fields
            }
            1..=4 => self.rng.below(6_000),
            5..=20 => self.rng.below(1_400),
            21..=25 => 0,
            _ => self.rng.below(100),
        }
    }

    fn aggregate(&mut self, k: usize, kind: u8, spec: &mut Spec, place: usize) {
        spec.head |= 1;
        let wide = kind == KIND_SIGNALLING && spec.head & 2 != 0;
        let n = self.rng.pick(&[1, 2, 3, 20]);
        for _ in 0..n {
            let len = self.rng.pick(&[0, 1, 40, 300]);
            let len = self.rng.range(0, len);
            let mut unit = self.unit(k, kind, len);
            if spec.body.is_empty() {
                spec.mpu = unit.mpu;
            }
            unit.mpu = spec.mpu;
            let mut whole = field_bytes(kind, &unit.fields);
            whole.extend(&unit.bytes);
            if wide {
                spec.body.extend((whole.len() as u32).to_be_bytes());
            } else {
                spec.body.extend((whole.len() as u16).to_be_bytes());
            }
            spec.body.extend(whole);
            unit.carriers.push(place);
            self.units.push(unit);
        }
    }

    /// Begins a unit in pieces: mostly few, now and then more than the counter counts. Of 257 or 513 the
    /// first one has counter 0.
    fn open(&mut self, k: usize) {
        let count = match self.rng.below(40) {
            0 | 1 => 256,
            2..=5 => self.rng.range(2, 256),
            6 => self.rng.pick(&[257, 513]),
            7 => self.rng.range(258, 600),
            _ => self.rng.range(2, 6),
        };
        self.begin(k, count);
        self.piece(k);
    }

    /// Source `k` has a unit of `count` pieces to send from now on, once it has sent what it has open. Where
    /// they are very many, they are short.
    pub fn begin(&mut self, k: usize, count: usize) {
        while self.sources[k].open.is_some() {
            self.piece(k);
        }
        let kind = self.rng.below(5) as u8;
        let mut left = self.config.joined_max as usize;
        let fill = self.rng.chance(1, 3); // joined bytes of exactly R
        let mut pieces = Vec::with_capacity(count);
        for i in 0..count {
            let most = if count > 256 {
                self.rng.pick(&[0, 0, 1, 20])
            } else {
                self.rng.pick(&[0, 1, 20, 200, 1_400])
            };
            let len = if fill && i + 1 == count && left < 8_000 {
                left
            } else {
                self.rng.range(0, most.min(left))
            };
            left -= len;
            pieces.push(len);
        }
        let len = pieces.iter().sum();
        let sent = self.unit(k, kind, len);
        let from = 0;
        self.sources[k].open = Some(Open { sent, pieces, from });
    }

    /// Sends `count` pieces of source `k`'s open unit, and packets of others between them.
    pub fn pieces(&mut self, k: usize, count: usize) {
        for _ in 0..count {
            self.sources[k].quiet_until = usize::MAX;
            while self.rng.chance(1, 12) {
                self.step();
            }
            self.piece(k);
        }
        self.sources[k].quiet_until = 0;
    }

    /// Sends the open unit's next piece.
    fn piece(&mut self, k: usize) {
        let Some(mut open) = self.sources[k].open.take() else {
            return;
        };
        let kind = open.sent.kind;
        let mut spec = self.spec(k, kind);
        let len = open.pieces.remove(0);
        let (is_first, is_last) = (open.sent.carriers.is_empty(), open.pieces.is_empty());
        spec.set_indicator(match (is_first, is_last) {
            (true, _) => 1,
            (_, true) => 3,
            _ => 2,
        });
        spec.counter = open.pieces.len() as u8;
        spec.mpu = open.sent.mpu;
        let mut piece_fields = open.sent.fields;
        if !is_first && kind == KIND_TIMED {
            // A later piece has an offset of its own; the unit keeps the first one's.
            piece_fields.offset = piece_fields.offset.wrapping_add(open.from as u32);
            piece_fields.priority = self.rng.byte();
        }
        spec.body = field_bytes(kind, &piece_fields);
        spec.body
            .extend(&open.sent.bytes[open.from..open.from + len]);
        open.from += len;
        open.sent.carriers.push(self.items.len());
        self.count_psn(k);
        self.push(Item::Flow(Box::new(spec)));
        if is_last {
            self.units.push(open.sent);
        } else {
            let left = open.pieces.len();
            self.sources[k].open = Some(open);
            if self.rng.chance(1, 2 + left * left) {
                self.sources[k].quiet_until = self.len + self.rng.range(2_000, 12_000);
            }
        }
    }
}

/// FT, timed (free where FT isn't 2), or H and reserved bits; FI 00, A 0.
fn head_of(rng: &mut Prng, kind: u8) -> u8 {
    match kind {
        KIND_SIGNALLING => rng.byte() & 0x3E,
        KIND_TIMED => 0x28,
        KIND_ITEM => 0x20,
        _ => kind << 4 | rng.byte() & 0x08,
    }
}

fn fields(rng: &mut Prng, kind: u8) -> UnitFields {
    match kind {
        KIND_TIMED => UnitFields {
            fragment: rng.u32(),
            sample: rng.u32(),
            offset: rng.u32(),
            priority: rng.byte(),
            dependency: rng.byte(),
        },
        KIND_ITEM => UnitFields {
            fragment: rng.u32(),
            ..UnitFields::default()
        },
        _ => UnitFields::default(),
    }
}

/// The fields as they stand before a unit's bytes.
pub fn field_bytes(kind: u8, fields: &UnitFields) -> Vec<u8> {
    let mut out = Vec::new();
    if kind == KIND_TIMED || kind == KIND_ITEM {
        out.extend(fields.fragment.to_be_bytes());
    }
    if kind == KIND_TIMED {
        out.extend(fields.sample.to_be_bytes());
        out.extend(fields.offset.to_be_bytes());
        out.extend([fields.priority, fields.dependency]);
    }
    out
}
