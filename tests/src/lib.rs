//! The second decoder: control block and slots to TLV packets, to MMTP packets, to units.
//!
//! It is written from documents 01 and 02 alone and shares no line with the proved library, so that a
//! difference between the two points at a misreading. One module for each section of document 01.

pub mod calls;
pub mod capture;
pub mod control_block;
pub mod cutter;
pub mod fields;
pub mod generate;
pub mod joining;
pub mod packer;
pub mod packets;
pub mod slots;

/// A refusal: document 01's number.
pub type Refusal = u8;
