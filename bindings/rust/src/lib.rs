//! Ixohuemil: a receiver for ultra-high-definition satellite broadcasting, proved, and called from safe Rust.
//!
//! Control blocks and slots go in; notes and whole units come out. A unit comes out exactly when every packet that carried
//! part of it came in. A [`Receiver`] is started with [`Settings`]. Then, for each frame, it is given its control block by
//! [`Receiver::frame`] and 120 times a slot, by [`Receiver::slot`] or [`Receiver::lost_slot`]; a frame that is lost as a whole is
//! told by [`Receiver::lost_frame`]. After each slot and each lost frame its events are read until nothing waits.
//!
//! No input is forbidden: damage inside a slot gives a [`Note`], a wrong call a [`Refusal`], and a refused call changes nothing.
//!
//! This is a frame of which slot 1 came in, with one unit, and the other slots were lost:
//!
//! ```
//! use ixohuemil::{cut, pack, Event, Kind, Receiver, Settings, Unit};
//! # fn main() -> Result<(), ixohuemil::Refusal> {
//! // What is sent: a signalling unit in a packet of 23 bytes, and a null packet (0x7F, 0xFF, length) up to the slot's end.
//! let sent = Unit { kind: Kind::Signalling, psn: 7, bytes: &[0xAB, 0xCD], ..Unit::default() };
//! let mut run = vec![0; 1870];
//! assert_eq!(pack(&sent, 2, 0, 1400, &mut run)?, 23);
//! run[23..27].copy_from_slice(&[0x7F, 0xFF, 0x07, 0x33]);
//! let mut data = vec![0; 1870];
//! let pointers = cut(&run, 1870, 0, &mut data)?;
//! assert_eq!((pointers.top, pointers.last), (0, 1870));
//!
//! // Its control block: 120 slots of BPSK 1/3, relative stream 0 is a TLV stream with id 1, and slot 1 has these pointers.
//! let mut block = [0; ixohuemil::BLOCK_BYTES];
//! block[1..25].copy_from_slice(&[[0x11, 120, 0], [0xFF, 0, 0], [0xFF, 0, 0], [0xFF, 0, 0], [0xFF, 0, 0], [0xFF, 0, 0],
//!     [0xFF, 0, 0], [0xFF, 0, 0]].concat());
//! block[25] = 2;
//! block[153..155].copy_from_slice(&pointers.top.to_be_bytes());
//! block[155..157].copy_from_slice(&pointers.last.to_be_bytes());
//! block[693..695].copy_from_slice(&1u16.to_be_bytes());
//!
//! // Stream 1, CID 2, packet_id 0, joined units of at most 100 bytes.
//! let mut receiver = Receiver::new(&Settings::new(1, 2, [0], 100))?;
//! let (mut units, mut notes) = (0, Vec::new());
//! receiver.frame(&block)?;
//! for slot in 1..=120 {
//!     if slot == 1 { receiver.slot(&data)? } else { receiver.lost_slot()? }
//!     while let Some(event) = receiver.next_event() {
//!         match event {
//!             Event::Unit(unit) => { assert_eq!((slot, unit), (1, sent)); units += 1 }
//!             Event::Note(note) => notes.push((slot, note.number())),
//!         }
//!     }
//! }
//! assert_eq!((units, notes), (1, vec![(6, 40)]));
//! # Ok(())
//! # }
//! ```

#![deny(missing_docs)]

mod event;
mod link;
mod receiver;
mod refusal;
mod sending;
mod settings;
mod text;

pub use event::{Cause, Event, Kind, Note, Unit};
pub use receiver::{Events, Receiver};
pub use refusal::Refusal;
pub use sending::{cut, pack, Pointers};
pub use settings::Settings;
pub use text::text;

/// Bytes of a frame's control block.
pub const BLOCK_BYTES: usize = 1178;
/// Slots of a frame.
pub const FRAME_SLOTS: usize = 120;
/// Bytes of the longest slot.
pub const MOST_SLOT_BYTES: usize = 5049;
