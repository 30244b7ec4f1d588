//! Refusals: why a call was not accepted.

use std::error::Error;
use std::fmt;

macro_rules! refusals {
    ($($name:ident = $number:literal, $text:literal;)*) => {
        /// Why a call was refused. A refused call changes nothing. Later versions may have more of them.
        #[derive(Clone, Copy, Debug, PartialEq, Eq, Hash, PartialOrd, Ord)]
        #[repr(u8)]
        #[non_exhaustive]
        pub enum Refusal {
            $(#[doc = concat!($number, ": ", $text, ".")] $name = $number,)*
        }

        impl Refusal {
            /// All of them, by rising number.
            pub const ALL: &'static [Refusal] = &[$(Refusal::$name,)*];

            /// Its text.
            pub fn text(self) -> &'static str {
                match self { $(Refusal::$name => $text,)* }
            }
        }
    };
}

refusals! {
    Count = 1, "the number of packet_ids is not 1 to 16";
    IdTwice = 2, "a packet_id stands twice";
    Cid = 3, "the CID is above 4,095";
    Limit = 4, "the limit R is not 1 to 1,048,576";
    BlockLength = 10, "the control block has not 1,178 bytes";
    FrameNotRead = 11, "slots are due, or events were not read until nothing waits";
    Modes = 12, "the control block's modes break the rules";
    Stream = 13, "not exactly one TLV stream has the stream id";
    NoLiveSlot = 14, "that stream has no live slot";
    NoSlotDue = 20, "no slot is due";
    EventsWait = 21, "events were not read until nothing waits";
    Memory = 22, "packet memory or collecting memory is too short";
    SlotLength = 23, "the slot has another length than its mode's";
    PieceSize = 70, "the piece size m is not 1 to 1,400";
    Kind = 71, "the kind is above 4";
    Pieces = 72, "the unit has more than 65,535 pieces";
    PackOutput = 73, "the output is too short for the packets";
    PackCid = 74, "the CID is above 4,095";
    Run = 75, "the run is not whole TLV packets, each starting with 0x7F";
    CutLength = 76, "no mode has slots of this length";
    CutEnd = 77, "the slot passes the run's end";
    CutOutput = 78, "the output has not the slot's length";
    StateWords = 90, "the state has fewer than 751 words";
    Settings = 91, "the settings have too few words, or a word is above its bound";
    Event = 92, "an event has fewer than 24 words, or is no unit that can be packed";
    ShowOutput = 93, "the output is shorter than the unit";
}

impl Refusal {
    /// Its number.
    ///
    /// ```
    /// assert_eq!(ixohuemil::Refusal::EventsWait.number(), 21);
    /// assert_eq!(ixohuemil::Refusal::EventsWait.to_string(), "refused with 21: events were not read until nothing waits");
    /// ```
    pub fn number(self) -> u8 {
        self as u8
    }

    /// The refusal of that number, if there is one.
    ///
    /// ```
    /// assert_eq!(ixohuemil::Refusal::from_number(13), Some(ixohuemil::Refusal::Stream));
    /// assert_eq!(ixohuemil::Refusal::from_number(0), None);
    /// ```
    pub fn from_number(number: u8) -> Option<Refusal> {
        Refusal::ALL.iter().copied().find(|refusal| refusal.number() == number)
    }

    /// A call's answer.
    pub(crate) fn of_answer(number: u8) -> Result<(), Refusal> {
        match Refusal::from_number(number) {
            None if number == 0 => Ok(()),
            None => panic!("the library answers {number}, which is no refusal of this version"),
            Some(refusal) => Err(refusal),
        }
    }
}

impl fmt::Display for Refusal {
    fn fmt(&self, f: &mut fmt::Formatter<'_>) -> fmt::Result {
        write!(f, "refused with {}: {}", self.number(), self.text())
    }
}

impl Error for Refusal {}
