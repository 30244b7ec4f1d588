//! Calls: start, frame, lost frame, slot, lost slot, next, show.

use crate::control_block::{self, Layout, SlotPlan, BLOCK_LEN, SLOTS};
use crate::joining::{Flow, Step};
use crate::packets::{
    self, fields_len, unit_length, Packet, Reading, UnitFields, Watch, FI_WHOLE, MAX_IDS,
};
use crate::slots::{packet_total, Stream, Taken, PACKET_MEMORY};
use crate::Refusal;

pub const MAX_CID: u16 = 4_095;
pub const MAX_JOINED: u32 = 1_048_576;

/// Where a unit's bytes are.
#[derive(Clone, Copy, Debug, PartialEq, Eq)]
pub enum Place {
    /// Packet memory: a whole unit.
    Packet { at: usize, len: usize },
    /// Collecting memory: a joined unit.
    Collecting { at: usize, len: usize },
}

/// What a unit carries beside its bytes.
#[derive(Clone, Copy, Debug, PartialEq, Eq)]
pub struct Unit {
    pub packet_id: u16,
    pub kind: u8,
    /// The first packet's.
    pub psn: u32,
    pub mpu: u32,
    pub fields: UnitFields,
    pub place: Place,
}

impl Unit {
    /// How many bytes the unit has.
    #[inline]
    pub fn len(&self) -> usize {
        match self.place {
            Place::Packet { len, .. } | Place::Collecting { len, .. } => len,
        }
    }

    pub fn is_empty(&self) -> bool {
        self.len() == 0
    }
}

/// What next gives.
#[derive(Clone, Copy, Debug, PartialEq, Eq)]
pub enum Event {
    /// Nothing waits.
    Nothing,
    /// A note; those above 51 name a packet_id.
    Note {
        number: u8,
        packet_id: Option<u16>,
    },
    Unit(Unit),
}

/// Units of one packet still to be given.
#[derive(Clone, Copy, Debug)]
struct Units {
    packet: Packet,
    /// Place in packet memory of the next unit (its length, in an aggregate) and of the packet's end.
    at: usize,
    end: usize,
}

/// Events of the packet read last that wait.
#[derive(Clone, Copy, Debug)]
enum Waiting {
    Nothing,
    Note { number: u8, place: usize },
    Units(Units),
}

/// The receiver's state. Both memories are lent to each call.
#[derive(Clone, Debug)]
pub struct Receiver {
    taken: Taken,
    waiting: Waiting,
    owed: bool,
    /// Slots of the frame that were given; all of them, if none is due.
    given: usize,
    stream: Stream,
    cid: u16,
    stream_id: u16,
    joined_max: usize,
    collecting: usize,
    watch: Watch,
    flows: [Flow; MAX_IDS],
    layout: Layout,
}

/// Start: a fresh receiver for the first `n` of `ids`.
pub fn start(
    stream_id: u16,
    cid: u16,
    n: u8,
    ids: &[u16; MAX_IDS],
    joined_max: u32,
) -> Result<Receiver, Refusal> {
    let n = usize::from(n);
    if !(1..=MAX_IDS).contains(&n) {
        return Err(1);
    }
    let watched = &ids[..n];
    if (1..n).any(|k| watched[..k].contains(&watched[k])) {
        return Err(2);
    }
    if cid > MAX_CID {
        return Err(3);
    }
    if !(1..=MAX_JOINED).contains(&joined_max) {
        return Err(4);
    }
    Ok(Receiver {
        taken: Taken::default(),
        waiting: Waiting::Nothing,
        owed: false,
        given: SLOTS,
        stream: Stream::default(),
        cid,
        stream_id,
        joined_max: joined_max as usize,
        collecting: n * joined_max as usize,
        watch: Watch::new(watched),
        flows: [Flow::default(); MAX_IDS],
        layout: [SlotPlan::default(); SLOTS],
    })
}

impl Receiver {
    /// Frame: the control block of the 120 slots that follow.
    pub fn frame(&mut self, block: &[u8]) -> Result<(), Refusal> {
        let block: &[u8; BLOCK_LEN] = block.try_into().map_err(|_| 10)?;
        self.between_frames()?;
        self.layout = control_block::decode(block, self.stream_id)?;
        self.given = 0;
        Ok(())
    }

    /// Lost frame: its slots are read as one lost own slot.
    pub fn lost_frame(&mut self) -> Result<(), Refusal> {
        self.between_frames()?;
        self.taken = self.stream.lose();
        self.owed = true;
        Ok(())
    }

    fn between_frames(&self) -> Result<(), Refusal> {
        if self.given < SLOTS || self.owed {
            Err(11)
        } else {
            Ok(())
        }
    }

    /// Slot, with its data.
    #[inline]
    pub fn slot(
        &mut self,
        data: &[u8],
        packet_memory: &mut [u8],
        collecting: &[u8],
    ) -> Result<(), Refusal> {
        let plan = self.slot_due(packet_memory, collecting)?;
        if data.len() != usize::from(plan.len) {
            return Err(23);
        }
        if plan.own {
            self.taken = self.stream.take(data, plan.top, plan.last, packet_memory);
        }
        self.count_slot();
        Ok(())
    }

    /// Slot, lost.
    pub fn lost_slot(&mut self, packet_memory: &[u8], collecting: &[u8]) -> Result<(), Refusal> {
        let plan = self.slot_due(packet_memory, collecting)?;
        if plan.own {
            self.taken = self.stream.lose();
        }
        self.count_slot();
        Ok(())
    }

    /// The slot that is due, or refusals 20, 21, 22.
    #[inline]
    fn slot_due(&self, packet_memory: &[u8], collecting: &[u8]) -> Result<SlotPlan, Refusal> {
        let plan = *self.layout.get(self.given).ok_or(20)?;
        if self.owed {
            return Err(21);
        }
        self.memories_suffice(packet_memory, collecting)?;
        Ok(plan)
    }

    #[inline(always)]
    fn count_slot(&mut self) {
        self.given += 1;
        self.owed = true;
    }

    #[inline(always)]
    fn memories_suffice(&self, packet_memory: &[u8], collecting: &[u8]) -> Result<(), Refusal> {
        if packet_memory.len() < PACKET_MEMORY || collecting.len() < self.collecting {
            Err(22)
        } else {
            Ok(())
        }
    }

    /// Next: one event, in stream order, or that nothing waits.
    #[inline]
    pub fn next(&mut self, packet_memory: &[u8], collecting: &mut [u8]) -> Result<Event, Refusal> {
        self.memories_suffice(packet_memory, collecting)?;
        if !self.owed {
            return Ok(Event::Nothing);
        }
        if self.taken.note != 0 {
            let number = std::mem::take(&mut self.taken.note);
            return Ok(note(number));
        }
        match self.waiting {
            Waiting::Nothing => Ok(self.read_on(packet_memory, collecting)),
            Waiting::Note { number, place } => {
                self.waiting = Waiting::Nothing;
                Ok(self.note_of(number, place))
            }
            Waiting::Units(units) => {
                self.waiting = Waiting::Nothing;
                Ok(Event::Unit(self.give_unit(units, packet_memory)))
            }
        }
    }

    /// Reads packets up to the first event.
    #[inline(always)]
    fn read_on(&mut self, packet_memory: &[u8], collecting: &mut [u8]) -> Event {
        while let Some((at, end)) = self.next_packet(packet_memory) {
            let event = match packets::read(&packet_memory[at..end], self.cid, &self.watch) {
                Reading::Silent => continue,
                Reading::Noted(number) => note(number),
                Reading::BadPayload(place) => self.note_of(52, place),
                Reading::Good(packet) => {
                    match self.join(packet, at, end, packet_memory, collecting) {
                        Some(event) => event,
                        None => continue,
                    }
                }
            };
            return event;
        }
        if self.taken.tail_note != 0 {
            return note(std::mem::take(&mut self.taken.tail_note));
        }
        self.owed = false;
        Event::Nothing
    }

    /// Place and end of the next complete packet: first the one that came over from earlier slots.
    #[inline(always)]
    fn next_packet(&mut self, packet_memory: &[u8]) -> Option<(usize, usize)> {
        let taken = &mut self.taken;
        if taken.continued != 0 {
            return Some((0, std::mem::take(&mut taken.continued)));
        }
        if taken.at == taken.end {
            return None;
        }
        let at = taken.at;
        taken.at += packet_total(packet_memory, at);
        Some((at, taken.at))
    }

    /// Joins a good packet; further events of it wait.
    #[inline(always)]
    fn join(
        &mut self,
        packet: Packet,
        at: usize,
        end: usize,
        packet_memory: &[u8],
        collecting: &mut [u8],
    ) -> Option<Event> {
        let place = packet.place;
        let at = at + packet.at;
        if packet.indicator == FI_WHOLE {
            let units = Units { packet, at, end };
            let note = self.flows[place].whole(packet.psn);
            if note == 0 {
                return Some(Event::Unit(self.give_unit(units, packet_memory)));
            }
            self.waiting = Waiting::Units(units);
            return Some(self.note_of(note, place));
        }
        let body = &packet_memory[at..end];
        let fields = UnitFields::read(packet.kind, body);
        let piece = &body[fields_len(packet.kind)..];
        let area_at = place * self.joined_max;
        let area = &mut collecting[area_at..area_at + self.joined_max];
        match self.flows[place].piece(&packet, fields, piece, area) {
            Step::Silent => None,
            Step::Joined => Some(Event::Unit(self.joined_unit(place))),
            Step::Noted(first, second) => {
                if second != 0 {
                    let number = second;
                    self.waiting = Waiting::Note { number, place };
                }
                Some(self.note_of(first, place))
            }
        }
    }

    /// The next unit of a whole packet; if there are more, they wait.
    #[inline(always)]
    fn give_unit(&mut self, units: Units, packet_memory: &[u8]) -> Unit {
        let Units { packet, at, end } = units;
        let (at, unit_end) = if packet.prefix == 0 {
            (at, end)
        } else {
            let (len, _) = unit_length(&packet_memory[at..end], packet.prefix)
                .expect("the aggregate was walked before");
            (at + packet.prefix, at + packet.prefix + len)
        };
        if unit_end < end {
            self.waiting = Waiting::Units(Units {
                at: unit_end,
                ..units
            });
        }
        let fields = UnitFields::read(packet.kind, &packet_memory[at..unit_end]);
        let at = at + fields_len(packet.kind);
        Unit {
            packet_id: self.watch.id(packet.place),
            kind: packet.kind,
            psn: packet.psn,
            mpu: packet.mpu,
            fields,
            place: Place::Packet {
                at,
                len: unit_end - at,
            },
        }
    }

    #[inline(always)]
    fn joined_unit(&self, place: usize) -> Unit {
        let open = &self.flows[place].open;
        Unit {
            packet_id: self.watch.id(place),
            kind: open.kind,
            psn: open.psn,
            mpu: open.mpu,
            fields: open.fields,
            place: Place::Collecting {
                at: place * self.joined_max,
                len: open.len,
            },
        }
    }

    fn note_of(&self, number: u8, place: usize) -> Event {
        let packet_id = Some(self.watch.id(place));
        Event::Note { number, packet_id }
    }
}

fn note(number: u8) -> Event {
    let packet_id = None;
    Event::Note { number, packet_id }
}

/// Show: the unit's bytes; empty if a byte of its place is outside.
#[inline]
pub fn show<'a>(unit: &Unit, packet_memory: &'a [u8], collecting: &'a [u8]) -> &'a [u8] {
    let (memory, at, len) = match unit.place {
        Place::Packet { at, len } => (packet_memory, at, len),
        Place::Collecting { at, len } => (collecting, at, len),
    };
    at.checked_add(len)
        .and_then(|end| memory.get(at..end))
        .unwrap_or(&[])
}
