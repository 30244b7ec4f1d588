//! Cutter: a slot out of a run of TLV packets, with its top and last pointer.

use crate::control_block::DATA_LENGTHS;
use crate::slots::{good_first, packet_total, NO_POINTER, TLV_HEADER};
use crate::Refusal;

/// Copies slot `s` (from 0) of `run`, of `len` bytes, and gives its top and last pointer.
pub fn cut(run: &[u8], len: usize, s: usize, out: &mut [u8]) -> Result<(u16, u16), Refusal> {
    if !whole_packets(run) {
        return Err(75);
    }
    if len == 0 || !DATA_LENGTHS.iter().any(|&l| usize::from(l) == len) {
        return Err(76);
    }
    let end = s.checked_add(1).and_then(|s| s.checked_mul(len));
    let Some(end) = end.filter(|&end| end <= run.len()) else {
        return Err(77);
    };
    if out.len() != len {
        return Err(78);
    }
    out.copy_from_slice(&run[end - len..end]);
    Ok(pointers(run, end - len, end))
}

/// Whether the run is a row of complete packets, each with a good first byte.
fn whole_packets(run: &[u8]) -> bool {
    let mut at = 0;
    while at < run.len() {
        let left = run.len() - at;
        if !good_first(run[at]) || left < TLV_HEADER || left < packet_total(run, at) {
            return false;
        }
        at += packet_total(run, at);
    }
    true
}

/// Pointers of the slot from `from` to `to`, by the places where packets start and end.
fn pointers(run: &[u8], from: usize, to: usize) -> (u16, u16) {
    let (mut top, mut last) = (NO_POINTER, NO_POINTER);
    let mut at = 0;
    while at < to {
        let end = at + packet_total(run, at);
        if at >= from && top == NO_POINTER {
            top = (at - from) as u16;
        }
        // A packet ends in the slot if its last byte is there.
        if end > from && end <= to {
            last = (end - from) as u16;
        }
        at = end;
    }
    (top, last)
}
