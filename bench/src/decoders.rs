//! Both decoders, from a capture in memory to its text in memory.

use second::capture::{Capture, COLLECTING};
use second::slots::PACKET_MEMORY;

use crate::linkage;

/// Bytes of the longest line: text memory has as many more than the text.
pub const LONGEST_LINE: usize = 152;

/// Memories lent to a decoder, the same to both; made once, outside what is measured.
pub struct Memories {
    packet: Vec<u8>,
    collecting: Vec<u8>,
}

impl Memories {
    pub fn new() -> Self {
        Memories {
            packet: vec![0; PACKET_MEMORY],
            collecting: vec![0; COLLECTING],
        }
    }

    /// The second decoder writes the capture's text to `text`, which has room for it.
    pub fn second(&mut self, capture: &[u8], text: &mut Vec<u8>) {
        let (packet, collecting) = (&mut self.packet, &mut self.collecting);
        let memories = (std::mem::take(packet), std::mem::take(collecting));
        let mut reading = Capture::with_memories(memories.0, memories.1);
        text.clear();
        reading.feed(capture, text);
        (*packet, *collecting) = reading.finish(text);
    }

    /// The proved decoder writes the capture's text to `text`; how many bytes it has.
    pub fn proved(&mut self, capture: &[u8], text: &mut [u8]) -> usize {
        linkage::text(capture, &mut self.packet, &mut self.collecting, text)
    }
}
