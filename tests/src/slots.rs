//! Slots: pointers, sound slots, and the bytes of a TLV packet held from slot to slot.

use crate::fields::be16;

/// A pointer that points nowhere.
pub const NO_POINTER: u16 = 0xFFFF;
/// The longest TLV packet that is held, header included.
pub const MAX_PACKET: usize = 16_384;
pub const TLV_HEADER: usize = 4;
/// Where a slot is copied to in packet memory; the bytes below are those of a continued packet.
pub const SLOT_AT: usize = MAX_PACKET;
/// The longest slot.
pub const MAX_SLOT: usize = 5_049;
/// Packet memory: a held packet and the longest slot.
pub const PACKET_MEMORY: usize = SLOT_AT + MAX_SLOT;

/// Whether a TLV header may begin with this byte. Every other one is noise, the reserved bits included.
#[inline(always)]
pub fn good_first(byte: u8) -> bool {
    byte == 0x7F
}

/// Length, header included, of the TLV packet at `at`, whose header is there.
#[inline(always)]
pub fn packet_total(bytes: &[u8], at: usize) -> usize {
    TLV_HEADER + usize::from(be16(bytes, at + 2))
}

/// Walks the packets from `t`: one past the last complete one (`t` if none is), or none if the first
/// byte of a packet isn't good, be it the only byte of the packet in the slot.
#[inline]
pub fn walk(data: &[u8], t: usize) -> Option<usize> {
    let mut at = t;
    while at < data.len() {
        if !good_first(data[at]) {
            return None;
        }
        if data.len() - at < TLV_HEADER {
            break;
        }
        let total = packet_total(data, at);
        if data.len() - at < total {
            break;
        }
        at += total;
    }
    Some(at)
}

/// For a sound slot, one past its last packet complete from `t` (its length, where none starts).
#[inline]
pub fn sound(data: &[u8], t: u16, last: u16) -> Option<usize> {
    let len = data.len();
    if t == NO_POINTER {
        return (last == NO_POINTER || usize::from(last) == len).then_some(len);
    }
    if usize::from(t) >= len {
        return None;
    }
    let end = walk(data, usize::from(t))?;
    let due = if end == 0 { NO_POINTER } else { end as u16 };
    (last == due).then_some(end)
}

/// The own stream between two slots.
#[derive(Clone, Copy, Debug, PartialEq, Eq)]
pub enum Held {
    Searching,
    /// `len` bytes (perhaps none) of a packet stand at `from` in packet memory.
    Bytes {
        from: usize,
        len: usize,
    },
}

/// What a slot left to be read, in stream order.
#[derive(Clone, Copy, Debug, Default, PartialEq, Eq)]
pub struct Taken {
    /// 40 to 43, or 0.
    pub note: u8,
    /// Length of the held packet that ended in the slot and stands at byte 0, or 0.
    pub continued: usize,
    /// The slot's own complete packets, as places in packet memory.
    pub at: usize,
    pub end: usize,
    /// 43 for the tail, or 0.
    pub tail_note: u8,
}

/// Whether the held bytes go on in a sound slot.
enum Onward {
    /// The packet has `total` bytes, of which the slot has up to `end`.
    Ends {
        total: usize,
        end: usize,
    },
    Dropped(u8),
}

/// The own stream: what is held, and room to save it in.
#[derive(Clone, Debug)]
pub struct Stream {
    pub held: Held,
    /// Held bytes that a new slot is copied over. The slot is copied before it is walked: a walk over
    /// bytes that aren't in the cache waits for them packet by packet.
    saved: [u8; MAX_SLOT],
}

impl Default for Stream {
    fn default() -> Self {
        Stream {
            held: Held::Searching,
            saved: [0; MAX_SLOT],
        }
    }
}

impl Stream {
    /// A lost slot, or a lost frame as one.
    pub fn lose(&mut self) -> Taken {
        let searching = self.held == Held::Searching;
        self.held = Held::Searching;
        Taken {
            note: if searching { 0 } else { 40 },
            ..Taken::default()
        }
    }

    /// An own live slot's data: moves and copies bytes in packet memory, and says what is to be read.
    #[inline]
    pub fn take(&mut self, data: &[u8], t: u16, last: u16, memory: &mut [u8]) -> Taken {
        let (continued, slot) = memory.split_at_mut(SLOT_AT);
        if let Held::Bytes { from, len } = self.held {
            if from >= SLOT_AT {
                let from = from - SLOT_AT;
                self.saved[..len].copy_from_slice(&slot[from..from + len]);
            }
        }
        let slot = &mut slot[..data.len()];
        slot.copy_from_slice(data);
        let mut taken = Taken::default();
        let Some(end) = sound(slot, t, last) else {
            self.held = Held::Searching;
            taken.note = 41;
            return taken;
        };
        self.go_on(slot, t, last, continued, &mut taken);
        if t != NO_POINTER {
            taken.at = SLOT_AT + usize::from(t);
            taken.end = SLOT_AT + end;
            taken.tail_note = self.hold_tail(slot, end);
        }
        taken
    }

    /// Held bytes meet a sound slot.
    #[inline]
    fn go_on(&mut self, slot: &[u8], t: u16, last: u16, continued: &mut [u8], taken: &mut Taken) {
        let Held::Bytes { from, len } = self.held else {
            return;
        };
        let in_place = from < SLOT_AT;
        let held = if in_place {
            &continued[from..from + len]
        } else {
            &self.saved[..len]
        };
        match onward(held, slot, t, last) {
            Onward::Dropped(note) => {
                taken.note = note;
                self.held = Held::Searching;
            }
            Onward::Ends { total, end } => {
                let part = end.min(slot.len());
                if len > 0 {
                    if !in_place {
                        continued[..len].copy_from_slice(&self.saved[..len]);
                    }
                    continued[len..len + part].copy_from_slice(&slot[..part]);
                }
                self.held = if end <= slot.len() {
                    taken.continued = total;
                    Held::Bytes { from: 0, len: 0 }
                } else {
                    let len = len + part;
                    Held::Bytes { from: 0, len }
                };
            }
        }
    }

    /// Holds what stands after the slot's last complete packet; 43 if it is known to be too long.
    #[inline]
    fn hold_tail(&mut self, slot: &[u8], end: usize) -> u8 {
        let len = slot.len() - end;
        if len >= TLV_HEADER && packet_total(slot, end) > MAX_PACKET {
            self.held = Held::Searching;
            return 43;
        }
        let from = SLOT_AT + end;
        self.held = Held::Bytes { from, len };
        0
    }
}

/// Compares where the held packet ends with where the slot's pointers say that it does.
#[inline]
fn onward(held: &[u8], data: &[u8], t: u16, last: u16) -> Onward {
    if held.is_empty() {
        return if t == 0 {
            Onward::Ends { total: 0, end: 0 }
        } else {
            Onward::Dropped(42)
        };
    }
    // The missing header bytes are the slot's first ones, whatever t says: the total so read decides.
    let byte = |i: usize| {
        if i < held.len() {
            held[i]
        } else {
            data[i - held.len()]
        }
    };
    let total = TLV_HEADER + usize::from(u16::from_be_bytes([byte(2), byte(3)]));
    if total > MAX_PACKET {
        return Onward::Dropped(43);
    }
    let end = total - held.len();
    let agrees = if t != NO_POINTER {
        end == usize::from(t)
    } else {
        let ends_with_slot = usize::from(last) == data.len();
        if ends_with_slot {
            end == data.len()
        } else {
            end > data.len()
        }
    };
    if agrees {
        Onward::Ends { total, end }
    } else {
        Onward::Dropped(42)
    }
}
