//! Events: the notes and units that a receiver gives.

use std::fmt;

use crate::link::{self, Record};

/// A note or a unit.
#[derive(Clone, Copy, Debug, PartialEq, Eq)]
pub enum Event<'a> {
    /// Something was missing or damaged.
    Note(Note),
    /// A whole unit.
    Unit(Unit<'a>),
}

/// What was missing or damaged.
#[derive(Clone, Copy, Debug, PartialEq, Eq, Hash)]
pub struct Note {
    /// What it was.
    pub cause: Cause,
    /// The packet_id that it is about; none for notes up to 51.
    pub packet_id: Option<u16>,
}

impl Note {
    /// The note's number.
    pub fn number(&self) -> u8 {
        self.cause.number()
    }
}

impl fmt::Display for Note {
    fn fmt(&self, f: &mut fmt::Formatter<'_>) -> fmt::Result {
        write!(f, "note {}", self.number())?;
        if let Some(id) = self.packet_id {
            write!(f, ", packet_id {id}")?;
        }
        write!(f, ": {}", self.cause.text())
    }
}

macro_rules! causes {
    ($($name:ident = $number:literal, $text:literal;)*) => {
        /// What a note says. Later versions may have more of them.
        #[derive(Clone, Copy, Debug, PartialEq, Eq, Hash, PartialOrd, Ord)]
        #[repr(u8)]
        #[non_exhaustive]
        pub enum Cause {
            $(#[doc = concat!($number, ": ", $text, ".")] $name = $number,)*
        }

        impl Cause {
            /// All of them, by rising number.
            pub const ALL: &'static [Cause] = &[$(Cause::$name,)*];

            /// Its text.
            pub fn text(self) -> &'static str {
                match self { $(Cause::$name => $text,)* }
            }
        }
    };
}

causes! {
    SlotLost = 40, "an own slot was lost where packets had been followed";
    SlotUnsound = 41, "the slot's pointers and packets disagree, or a packet does not begin with 0x7F";
    HeldBreaks = 42, "the held packet does not go on as the slot says";
    PacketLong = 43, "a packet above 16,384 bytes";
    CompressedHeader = 50, "a malformed compressed header";
    MmtpHeader = 51, "a malformed MMTP header";
    Payload = 52, "a malformed payload";
    PacketsMissing = 60, "packets of this packet_id are missing";
    UnitDropped = 61, "an open unit was dropped";
    NoBeginning = 62, "a piece without a beginning";
    PieceMisfits = 63, "a piece that does not fit the open unit";
    UnitLong = 64, "a joined unit above the limit R";
}

impl Cause {
    /// The note's number.
    ///
    /// ```
    /// assert_eq!(ixohuemil::Cause::PacketsMissing.number(), 60);
    /// ```
    pub fn number(self) -> u8 {
        self as u8
    }

    fn of_word(number: u64) -> Cause {
        let cause = Cause::ALL.iter().copied().find(|cause| u64::from(cause.number()) == number);
        cause.unwrap_or_else(|| panic!("the library gives note {number}, which is none of this version"))
    }
}

/// What a unit is.
#[derive(Clone, Copy, Debug, Default, PartialEq, Eq, Hash, PartialOrd, Ord)]
#[repr(u8)]
pub enum Kind {
    /// 0: MPU metadata.
    #[default]
    MpuMetadata = 0,
    /// 1: movie fragment metadata.
    MovieFragmentMetadata = 1,
    /// 2: a timed MFU.
    TimedMfu = 2,
    /// 3: a non-timed MFU.
    NonTimedMfu = 3,
    /// 4: signalling.
    Signalling = 4,
}

impl Kind {
    /// The kind's number.
    ///
    /// ```
    /// assert_eq!(ixohuemil::Kind::Signalling.number(), 4);
    /// ```
    pub fn number(self) -> u8 {
        self as u8
    }

    fn of_word(number: u64) -> Kind {
        match number {
            0 => Kind::MpuMetadata,
            1 => Kind::MovieFragmentMetadata,
            2 => Kind::TimedMfu,
            3 => Kind::NonTimedMfu,
            4 => Kind::Signalling,
            _ => panic!("the library gives kind {number}, which is none"),
        }
    }
}

/// A unit: what [`pack`](crate::pack) takes and a receiver gives. Fields that its kind lacks are 0. Build one with
/// `..Unit::default()`, as later versions have more fields.
#[derive(Clone, Copy, Debug, Default, PartialEq, Eq, Hash)]
pub struct Unit<'a> {
    /// The packet_id.
    pub packet_id: u16,
    /// What it is.
    pub kind: Kind,
    /// The packet sequence number of its first packet.
    pub psn: u32,
    /// The MPU sequence number; 0 for signalling.
    pub mpu: u32,
    /// The movie fragment's number, of a timed MFU.
    pub movie_fragment: u32,
    /// The sample's number, of a timed MFU.
    pub sample: u32,
    /// The offset in the sample, of a timed MFU.
    pub offset: u32,
    /// The priority, of a timed MFU.
    pub priority: u8,
    /// The dependency counter, of a timed MFU.
    pub dependency: u8,
    /// The item id, of a non-timed MFU.
    pub item: u32,
    /// Its bytes, which stand in the receiver's memory until the next call on it.
    pub bytes: &'a [u8],
}

impl Unit<'_> {
    /// The library's record of the unit, for the packer: without a place.
    pub(crate) fn record(&self) -> Record {
        let mut record = [0; link::EVENT_WORDS];
        record[0] = link::UNIT;
        record[5] = self.packet_id.into();
        record[6] = self.kind.number().into();
        record[7] = self.psn.into();
        record[8] = self.mpu.into();
        record[9] = self.movie_fragment.into();
        record[10] = self.sample.into();
        record[11] = self.offset.into();
        record[12] = self.priority.into();
        record[13] = self.dependency.into();
        record[14] = self.item.into();
        record
    }
}

impl<'a> Event<'a> {
    /// The event of a record whose bytes stand in these memories; none where nothing waits.
    pub(crate) fn of_record(record: &Record, packet: &'a [u8], collecting: &'a [u8]) -> Option<Event<'a>> {
        match record[0] {
            link::NOTHING_WAITS => None,
            link::NOTE => {
                let cause = Cause::of_word(record[1]);
                let packet_id = (cause >= Cause::Payload).then_some(record[5] as u16);
                Some(Event::Note(Note { cause, packet_id }))
            }
            _ => {
                let memory = if record[2] == link::IN_PACKET_MEMORY { packet } else { collecting };
                Some(Event::Unit(unit_of_record(record, part(memory, record[3], record[4]))))
            }
        }
    }
}

/// A part of a memory; an empty one where a byte of it lies outside.
fn part(memory: &[u8], start: u64, length: u64) -> &[u8] {
    let place = |word| usize::try_from(word).ok();
    let range = || Some(place(start)?..place(start.checked_add(length)?)?);
    range().and_then(|range| memory.get(range)).unwrap_or(&[])
}

/// The unit of a record: no field is wider there than here.
fn unit_of_record<'a>(record: &Record, bytes: &'a [u8]) -> Unit<'a> {
    Unit {
        packet_id: record[5] as u16,
        kind: Kind::of_word(record[6]),
        psn: record[7] as u32,
        mpu: record[8] as u32,
        movie_fragment: record[9] as u32,
        sample: record[10] as u32,
        offset: record[11] as u32,
        priority: record[12] as u8,
        dependency: record[13] as u8,
        item: record[14] as u32,
        bytes,
    }
}

#[cfg(test)]
mod tests {
    use super::{part, Cause, Event, Kind, Note, Unit};
    use crate::link;

    #[test]
    fn a_note_has_a_packet_id_from_52_on() {
        for &cause in Cause::ALL {
            let mut record = [0; link::EVENT_WORDS];
            (record[0], record[1], record[5]) = (link::NOTE, cause.number().into(), 0x1234);
            let packet_id = (cause.number() >= 52).then_some(0x1234);
            assert_eq!(Event::of_record(&record, &[], &[]), Some(Event::Note(Note { cause, packet_id })));
        }
        assert_eq!(Event::of_record(&[0; link::EVENT_WORDS], &[], &[]), None);
    }

    #[test]
    fn a_units_record_says_its_fields_and_its_memory() {
        let mut record = [0; link::EVENT_WORDS];
        for (word, value) in record.iter_mut().zip([2, 0, 0, 1, 2, 5, 3, 7, 8, 9, 10, 11, 12, 13, 14]) {
            *word = value;
        }
        let unit = Unit {
            packet_id: 5,
            kind: Kind::NonTimedMfu,
            psn: 7,
            mpu: 8,
            movie_fragment: 9,
            sample: 10,
            offset: 11,
            priority: 12,
            dependency: 13,
            item: 14,
            bytes: b"bc",
        };
        assert_eq!(Event::of_record(&record, b"abcd", b"ABCD"), Some(Event::Unit(unit)));
        record[2] = 1;
        assert_eq!(Event::of_record(&record, b"abcd", b"ABCD"), Some(Event::Unit(Unit { bytes: b"BC", ..unit })));
        (record[2], record[3], record[4]) = (0, 0, 0);
        assert_eq!(unit.record(), record);
    }

    #[test]
    fn a_place_outside_its_memory_is_empty() {
        let memory = [1, 2, 3, 4];
        assert_eq!(part(&memory, 1, 3), [2, 3, 4]);
        assert_eq!(part(&memory, 4, 0), []);
        for (start, length) in [(2, 3), (5, 0), (u64::MAX, 1), (1, u64::MAX), (u64::MAX, u64::MAX)] {
            assert_eq!(part(&memory, start, length), [], "{start} {length}");
        }
    }
}
