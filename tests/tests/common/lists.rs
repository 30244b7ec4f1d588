//! Watch lists by hand: sets of packet_ids, their orders, and the units that show which ids are watched and
//! where each collects.

use second::generate::prng::Prng;
use second::generate::watching::List;
use second::packets::MAX_IDS;

use super::{block, cut_padded, signalling};

/// Bytes of a unit by hand: its packet_id, and one more.
pub const UNIT: usize = 3;

/// A slot's data, t and last.
type Slot = (Vec<u8>, u16, u16);

/// The place of an id: a search in the order given.
pub fn place(ids: &[u16], id: u16) -> Option<usize> {
    ids.iter().position(|&watched| watched == id)
}

/// Sets of `n` ids, each rising: at both ends of the numbers, where their top bit changes, with one between
/// from the first number on and up to the last, over all of them, and with the same low byte.
pub fn sets(n: usize) -> [Vec<u16>; 6] {
    let n = n as u16;
    let steps = |from: u16, step: u16| (0..n).map(|i| from + i * step).collect();
    let end = |i: u16| {
        if i.is_multiple_of(2) {
            i / 2
        } else {
            0xFFFF - i / 2
        }
    };
    let mut ends: Vec<u16> = (0..n).map(end).collect();
    ends.sort_unstable();
    [
        ends,
        steps(0x8000 - n.div_ceil(2), 1),
        steps(0, 2),
        steps(0xFFFF - 2 * (n - 1), 2),
        steps(0x80, 0xF01),
        steps(0xFF, 0x100),
    ]
}

/// Every order of these ids.
pub fn every_order(ids: &[u16]) -> Vec<Vec<u16>> {
    if ids.is_empty() {
        return vec![Vec::new()];
    }
    let mut orders = Vec::new();
    for first in 0..ids.len() {
        let mut rest = ids.to_vec();
        let id = rest.remove(first);
        let behind = every_order(&rest).into_iter();
        orders.extend(behind.map(|order| [&[id], &order[..]].concat()));
    }
    orders
}

/// Orders of rising ids: as they are, falling, rotated, each id moved to each place, each two changed over,
/// and so many mixed ones.
pub fn some_orders(rng: &mut Prng, rising: &[u16], mixed: usize) -> Vec<Vec<u16>> {
    let n = rising.len();
    let mut orders = vec![rising.to_vec(), rising.iter().rev().copied().collect()];
    for one in 0..n {
        let mut rotated = rising.to_vec();
        rotated.rotate_left(one);
        orders.push(rotated);
        for other in 0..n {
            let mut moved = rising.to_vec();
            let id = moved.remove(one);
            moved.insert(other, id);
            orders.push(moved);
            let mut changed = rising.to_vec();
            changed.swap(one, other);
            orders.push(changed);
        }
    }
    for _ in 0..mixed {
        let mut order = rising.to_vec();
        rng.shuffle(&mut order);
        orders.push(order);
    }
    orders.sort_unstable();
    orders.dedup();
    orders
}

/// C's operands for stream 1 and CID 5.
pub fn operands(n: u8, ids: &[u16], joined_max: u32) -> Vec<u8> {
    assert_eq!(ids.len(), MAX_IDS);
    let mut out = vec![0, 1, 0, 5, n];
    out.extend(ids.iter().flat_map(|id| id.to_be_bytes()));
    out.extend(joined_max.to_be_bytes());
    out
}

/// The ids to be tried, in any order: each watched one, its neighbours and others that are like it, the ends
/// of the numbers, and those behind n.
pub fn tried(rng: &mut Prng, list: &List) -> Vec<u16> {
    let mut ids = vec![0, 1, 0xFF, 0x100, 0x7FFF, 0x8000, 0xFFFE, 0xFFFF];
    ids.extend(&list.behind);
    for &id in &list.ids {
        ids.extend([id, id.wrapping_sub(1), id.wrapping_add(1)]);
        ids.extend([id ^ 0x8000, id ^ 0x100, id & 0xFF, id.swap_bytes()]);
    }
    ids.sort_unstable();
    ids.dedup();
    rng.shuffle(&mut ids);
    ids
}

/// The psn of the first piece of an id's unit.
pub fn psn(id: u16) -> u32 {
    u32::MAX - 0x8000 + u32::from(id) % 0x8001
}

/// What the unit of an id holds.
pub fn bytes(id: u16) -> [u8; UNIT] {
    let [high, low] = id.to_be_bytes();
    [high, low, !low]
}

/// Slots with a unit in two pieces of each id: all first pieces, then all last ones, so that all units are
/// open at once.
pub fn in_two(ids: &[u16]) -> Vec<Slot> {
    let first = |&id: &u16| signalling(id, psn(id), 1, 1, &bytes(id)[..2]);
    let last = |&id: &u16| signalling(id, psn(id).wrapping_add(1), 3, 0, &bytes(id)[2..]);
    let packets: Vec<Vec<u8>> = ids.iter().map(first).chain(ids.iter().map(last)).collect();
    cut_padded(&packets)
}

/// A frame of 32APSK 1/3, in which each of the 120 slots is own and has 1,870 bytes, with the pointers of
/// these slots.
pub fn frame_of(slots: &[Slot]) -> Vec<u8> {
    let mut block = block(&[(0x51, 120)]);
    for ((_, top, last), at) in slots.iter().zip((153..).step_by(4)) {
        block[at..at + 2].copy_from_slice(&top.to_be_bytes());
        block[at + 2..at + 4].copy_from_slice(&last.to_be_bytes());
    }
    block
}
