//! The memories that are lent for a capture: how long they are, and their filling.

use second::capture::{COLLECTING, START_LEN};
use second::fields::be32;
use second::generate::prng::Prng;
use second::slots::PACKET_MEMORY;

/// The longest collecting memory; a capture that asks for more gets the capture program's.
const MOST: usize = 300_000;

/// Packet memory and collecting memory.
pub type Memories = (Vec<u8>, Vec<u8>);

/// How long the memories are, beside what the capture asks for.
#[derive(Clone, Copy, PartialEq)]
pub enum Lengths {
    Exact,
    Longer,
    PacketShort,
    CollectingShort,
}

/// n × R of a capture's C.
fn collecting_len(capture: &[u8]) -> usize {
    if capture.len() < START_LEN || capture[0] != b'C' {
        return COLLECTING;
    }
    let len = usize::from(capture[5]) * be32(capture, START_LEN - 4) as usize;
    if len > MOST {
        COLLECTING
    } else {
        len
    }
}

/// Packet memory and collecting memory, with a pseudo-random filling.
pub fn filled(number: u64, capture: &[u8], lengths: Lengths) -> Memories {
    let mut rng = Prng::new(number ^ 0xF111);
    let (mut packet, mut collecting) = (PACKET_MEMORY, collecting_len(capture));
    match lengths {
        Lengths::Exact => {}
        Lengths::Longer => (packet, collecting) = (packet + 7, collecting + 100),
        Lengths::PacketShort => packet -= 1,
        Lengths::CollectingShort => collecting = collecting.saturating_sub(1),
    }
    (rng.bytes(packet), rng.bytes(collecting))
}
