//! Watch lists: how long they are, in which order, and which packets come beside those that are watched.

use std::collections::BTreeMap;

use super::packets;
use second::fields::be16;
use second::generate::catalogue::{capture, family};
use second::generate::packet::address_len;
use second::packets::{read, Reading, Watch, FI_LAST, MAX_IDS};

type Counts = BTreeMap<String, u64>;

fn count(counts: &mut Counts, what: &str, seen: bool) {
    *counts.entry(what.into()).or_default() += u64::from(seen);
}

/// A packet's id and FI, if it is good for a receiver that watches its id.
fn good(packet: &[u8], cid: u16) -> Option<(u16, u8)> {
    let start = 4 + 3 + address_len(*packet.get(6)?);
    let id = be16(packet.get(start + 2..start + 4)?, 0);
    match read(packet, cid, &Watch::new(&[id])) {
        Reading::Good(packet) => Some((id, packet.indicator)),
        _ => None,
    }
}

/// The list itself.
fn count_list(counts: &mut Counts, ids: &[u16], behind: &[u16]) {
    for n in 1..=MAX_IDS {
        count(counts, &format!("list of {n}"), ids.len() == n);
    }
    let (rising, falling) = (ids.is_sorted(), ids.iter().rev().is_sorted());
    for (name, some) in [("3 or more", ids.len() > 2), ("16", ids.len() == 16)] {
        count(counts, &format!("{name}, rising"), some && rising);
        count(counts, &format!("{name}, falling"), some && falling);
        let mixed = some && !rising && !falling;
        count(counts, &format!("{name}, mixed"), mixed);
    }
    let next = |id: &u16| id.checked_add(1).is_some_and(|next| ids.contains(&next));
    count(counts, "two neighbours watched", ids.iter().any(next));
    let twice = behind.iter().any(|id| ids.contains(id));
    count(counts, "a watched id stands behind n too", twice);
}

/// A good packet of a watched id.
fn count_watched(counts: &mut Counts, ids: &[u16], id: u16, indicator: u8) {
    let place = ids.iter().position(|&other| other == id);
    let smaller = ids.iter().filter(|&&other| other < id).count();
    let joined = indicator == FI_LAST;
    count(counts, "watched", true);
    for end in [0, 0x7FFF, 0x8000, 0xFFFF] {
        count(counts, &format!("watched, {end:#x}"), id == end && joined);
    }
    let moved = joined && place != Some(smaller);
    count(counts, "last piece, not at its rising place", moved);
    for (name, some) in [("2 or more", ids.len() > 1), ("16", ids.len() == 16)] {
        let some = some && joined;
        let (first, last) = (smaller == 0, smaller + 1 == ids.len());
        count(counts, &format!("{name}, smallest"), some && first);
        count(counts, &format!("{name}, largest"), some && last);
        let between = some && !first && !last;
        count(counts, &format!("{name}, between them"), between);
    }
}

/// A packet that is good but for its id, which is not watched.
fn count_unwatched(counts: &mut Counts, ids: &[u16], behind: &[u16], id: u16) {
    let watched = |id: Option<u16>| id.is_some_and(|id| ids.contains(&id));
    count(counts, "not watched", true);
    for end in [0, 0x7FFF, 0x8000, 0xFFFF] {
        count(counts, &format!("not watched, {end:#x}"), id == end);
    }
    let smaller = ids.iter().filter(|&&other| other < id).count();
    let (below, above) = (watched(id.checked_add(1)), watched(id.checked_sub(1)));
    count(counts, "one below a watched id", below);
    count(counts, "one above a watched id", above);
    count(counts, "between two watched ones", below && above);
    count(counts, "below all", smaller == 0);
    count(counts, "above all", smaller == ids.len());
    let top_bit = watched(Some(id ^ 0x8000));
    count(counts, "only its top bit differs", top_bit);
    let low_byte = ids.iter().any(|other| other & 0xFF == id & 0xFF);
    count(counts, "its low byte is a watched id's", low_byte);
    count(counts, "stands behind n", behind.contains(&id));
    let end = behind.contains(&id) && smaller == ids.len();
    count(counts, "stands behind n, above all", end);
}

/// Each thing comes at least so often; captures that are counted one by one less often.
const FEATURE: u64 = 100;
const CAPTURES: u64 = 4;

#[test]
fn watch_lists_of_every_form() {
    let (mut packets_of, mut lists) = (Counts::new(), Counts::new());
    for number in (0..4_000).filter(|&number| family(number) == "watch lists") {
        let capture = capture(number);
        let (cid, n) = (be16(&capture, 3), usize::from(capture[5]));
        let all: Vec<u16> = (0..MAX_IDS).map(|k| be16(&capture, 6 + 2 * k)).collect();
        let (ids, behind) = all.split_at(n);
        count_list(&mut lists, ids, behind);
        let (mut watched, mut unwatched) = (0, 0);
        for packet in packets(&capture) {
            let Some((id, indicator)) = good(&packet, cid) else {
                continue;
            };
            if ids.contains(&id) {
                count_watched(&mut packets_of, ids, id, indicator);
                watched += 1;
            } else {
                count_unwatched(&mut packets_of, ids, behind, id);
                unwatched += 1;
            }
        }
        let many = n == MAX_IDS && watched > 0 && unwatched >= 8 * watched;
        count(
            &mut lists,
            "16, about nine packets in ten not watched",
            many,
        );
    }
    assert!(lists["list of 16"] > 0 && packets_of["watched"] > 0 && packets_of["not watched"] > 0);
    for (counts, floor) in [(lists, CAPTURES), (packets_of, FEATURE)] {
        for (what, count) in &counts {
            println!("{count:8} {what}");
            assert!(*count >= floor, "{what}: {count}");
        }
    }
}
