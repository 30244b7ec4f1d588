//! Control block (TMCC): what each of a frame's 120 slots carries, or refusals 12, 13, 14.

use crate::fields::be16;
use crate::Refusal;

pub const BLOCK_LEN: usize = 1_178;
pub const SLOTS: usize = 120;

/// Data bytes of a live slot by code rate; no rate 0.
pub const DATA_LENGTHS: [u16; 12] = [
    0, 1870, 2244, 2805, 3366, 3740, 4114, 4301, 4488, 4675, 4862, 5049,
];

// Bytes are counted from 0; byte 0 is the change indication.
const MODES_AT: usize = 1;
const TYPES_AT: usize = 25;
const POINTERS_AT: usize = 153;
const STREAMS_AT: usize = 633;
const IDS_AT: usize = 693;

const TYPE_TLV: u8 = 2;
const UNUSED_MODE: [u8; 3] = [0xFF, 0, 0];

/// One slot of the frame.
#[derive(Clone, Copy, Debug, Default, PartialEq, Eq)]
pub struct SlotPlan {
    /// Data bytes; 0 for a dummy slot.
    pub len: u16,
    pub top: u16,
    pub last: u16,
    /// Live and of the stream that the receiver was started for.
    pub own: bool,
}

pub type Layout = [SlotPlan; SLOTS];

/// The frame's layout for the stream with id `stream_id`.
pub fn decode(block: &[u8; BLOCK_LEN], stream_id: u16) -> Result<Layout, Refusal> {
    let mut layout = [SlotPlan::default(); SLOTS];
    fill_lengths(block, &mut layout)?;
    let own = own_stream(block, stream_id)?;
    let mut any = false;
    for (i, slot) in layout.iter_mut().enumerate() {
        let halves = block[STREAMS_AT + i / 2];
        let relative = if i % 2 == 0 { halves >> 4 } else { halves & 15 };
        slot.top = be16(block, POINTERS_AT + 4 * i);
        slot.last = be16(block, POINTERS_AT + 4 * i + 2);
        slot.own = slot.len > 0 && relative == own;
        any |= slot.own;
    }
    if any {
        Ok(layout)
    } else {
        Err(14)
    }
}

/// Reads the modes, and with them each slot's length.
fn fill_lengths(block: &[u8; BLOCK_LEN], layout: &mut Layout) -> Result<(), Refusal> {
    let mut filled = 0;
    let mut before = 0xFF; // above every used pair
    let mut ended = false;
    for mode in block[MODES_AT..TYPES_AT].chunks_exact(3) {
        if mode == UNUSED_MODE {
            ended = true;
            continue;
        }
        let (modulation, rate) = (mode[0] >> 4, mode[0] & 15);
        let count = usize::from(mode[1]);
        let used = (1..=5).contains(&modulation) && (1..=11).contains(&rate);
        // Modulation is the high half, so falling bytes are falling pairs.
        let ordered = mode[0] < before && !ended;
        if !used || !ordered || count == 0 || count % 5 != 0 || filled + count > SLOTS {
            return Err(12);
        }
        for (i, slot) in layout[filled..filled + count].iter_mut().enumerate() {
            if i % 5 < usize::from(modulation) {
                slot.len = DATA_LENGTHS[usize::from(rate)];
            }
        }
        filled += count;
        before = mode[0];
    }
    if filled == SLOTS {
        Ok(())
    } else {
        Err(12)
    }
}

/// The only relative stream that is both TLV and of that id.
fn own_stream(block: &[u8; BLOCK_LEN], stream_id: u16) -> Result<u8, Refusal> {
    let mut found = None;
    for relative in 0..16u8 {
        let r = usize::from(relative);
        if block[TYPES_AT + r] == TYPE_TLV && be16(block, IDS_AT + 2 * r) == stream_id {
            if found.is_some() {
                return Err(13);
            }
            found = Some(relative);
        }
    }
    found.ok_or(13)
}
