//! Joining: the pieces of one watched packet_id to units; notes 60 to 64.

use crate::packets::{Packet, UnitFields, FI_FIRST, FI_LAST};

#[derive(Clone, Copy, Debug, PartialEq, Eq)]
pub enum Phase {
    Unheard,
    Waiting,
    Idle,
    Open,
}

/// The open unit: what its next piece must agree with, and what the unit will carry.
#[derive(Clone, Copy, Debug, Default, PartialEq, Eq)]
pub struct OpenUnit {
    pub kind: u8,
    pub counter: u8,
    pub psn: u32,
    pub mpu: u32,
    pub fields: UnitFields,
    pub len: usize,
}

/// One watched packet_id.
#[derive(Clone, Copy, Debug)]
pub struct Flow {
    phase: Phase,
    last_psn: u32,
    pub open: OpenUnit,
}

/// What comes of a piece.
#[derive(Clone, Copy, Debug, PartialEq, Eq)]
pub enum Step {
    Silent,
    /// A note, and perhaps (not 0) a second one.
    Noted(u8, u8),
    /// The open unit is given.
    Joined,
}

impl Step {
    /// The notes that aren't 0, in order.
    #[inline(always)]
    fn noted(first: u8, second: u8) -> Step {
        match (first, second) {
            (0, 0) => Step::Silent,
            (0, note) => Step::Noted(note, 0),
            _ => Step::Noted(first, second),
        }
    }
}

impl Default for Flow {
    fn default() -> Self {
        Flow {
            phase: Phase::Unheard,
            last_psn: 0,
            open: OpenUnit::default(),
        }
    }
}

impl Flow {
    /// (a) and (b): the psn is compared and recorded; gives 60 or 0.
    #[inline(always)]
    fn hear(&mut self, psn: u32) -> u8 {
        let gap = self.phase != Phase::Unheard && psn != self.last_psn.wrapping_add(1);
        self.last_psn = psn;
        if gap {
            self.phase = Phase::Waiting;
            return 60;
        }
        0
    }

    /// The packet is heard, and starts something: an open unit is dropped. Gives 60, 61 or 0; never
    /// both, since 60 leaves it waiting.
    #[inline(always)]
    fn hear_start(&mut self, psn: u32) -> u8 {
        let note = self.hear(psn);
        if self.phase == Phase::Open {
            return 61;
        }
        note
    }

    /// FI 00: gives the note, if any, that comes before the packet's units.
    #[inline(always)]
    pub fn whole(&mut self, psn: u32) -> u8 {
        let note = self.hear_start(psn);
        self.phase = Phase::Idle;
        note
    }

    /// FI 01, 10 or 11, with the piece's fields and bytes. `area` is where this packet_id collects, R
    /// bytes.
    #[inline(always)]
    pub fn piece(
        &mut self,
        packet: &Packet,
        fields: UnitFields,
        bytes: &[u8],
        area: &mut [u8],
    ) -> Step {
        if packet.indicator == FI_FIRST {
            let note = self.hear_start(packet.psn);
            self.open = OpenUnit {
                kind: packet.kind,
                counter: packet.counter,
                psn: packet.psn,
                mpu: packet.mpu,
                fields,
                len: 0,
            };
            return Step::noted(note, self.collect(bytes, area));
        }
        match self.hear(packet.psn) {
            0 => self.go_on(packet, fields, bytes, area),
            note => Step::noted(note, 0), // now waiting: the piece itself is silent
        }
    }

    /// FI 10 or 11 without a gap before it.
    #[inline(always)]
    fn go_on(
        &mut self,
        packet: &Packet,
        fields: UnitFields,
        bytes: &[u8],
        area: &mut [u8],
    ) -> Step {
        if self.phase != Phase::Open {
            let note = if self.phase == Phase::Idle { 62 } else { 0 };
            self.phase = Phase::Waiting;
            return Step::noted(note, 0);
        }
        let open = &mut self.open;
        // A kind without some of these fields has 0 there, so the comparison can be the same for all. The
        // counter is one lower modulo 256: 0 is followed by 255.
        let agrees = packet.kind == open.kind
            && packet.mpu == open.mpu
            && fields.fragment == open.fields.fragment
            && fields.sample == open.fields.sample
            && packet.counter.wrapping_add(1) == open.counter;
        if !agrees {
            self.phase = Phase::Waiting;
            return Step::noted(63, 0);
        }
        open.counter = packet.counter;
        let note = self.collect(bytes, area);
        if note == 0 && packet.indicator == FI_LAST {
            self.phase = Phase::Idle;
            return Step::Joined;
        }
        Step::noted(note, 0)
    }

    /// Appends a piece, or writes nothing and gives 64.
    #[inline(always)]
    fn collect(&mut self, bytes: &[u8], area: &mut [u8]) -> u8 {
        let len = self.open.len;
        match area.get_mut(len..len + bytes.len()) {
            Some(room) => {
                room.copy_from_slice(bytes);
                self.open.len = len + bytes.len();
                self.phase = Phase::Open;
                0
            }
            None => {
                self.phase = Phase::Waiting;
                64
            }
        }
    }
}
