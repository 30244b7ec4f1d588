//! The catalogue reaches every note, every refusal that a capture can reach, every kind of unit, a bad first
//! byte at every place that a header can have, units and holes that the counter runs round in, and watch lists
//! of every length and order beside packets that nearly fit them.

mod common;
#[path = "coverage/watching.rs"]
mod watching;

use std::collections::BTreeMap;

use common::own_slots;
use second::capture::lines_of;
use second::fields::be16;
use second::generate::boundary::HELD_CAPTURES;
use second::generate::catalogue::{capture, family, FAMILIES};
use second::generate::damage::headers;
use second::packets::{read, Packet, Reading, UnitFields, Watch};
use second::slots::{packet_total, sound, Stream, PACKET_MEMORY};

const NOTES: [u8; 12] = [40, 41, 42, 43, 50, 51, 52, 60, 61, 62, 63, 64];
/// 10 and 21 can't be reached: F has its length, and next is called until nothing waits.
const REFUSALS: [u8; 11] = [1, 2, 3, 4, 11, 12, 13, 14, 20, 22, 23];

#[test]
fn every_note_and_refusal_is_hit() {
    let mut counts: BTreeMap<String, u64> = BTreeMap::new();
    let numbers = 4 * HELD_CAPTURES * FAMILIES.len() as u64;
    for number in 0..numbers {
        let text = String::from_utf8(lines_of(&capture(number))).expect("lines are ASCII");
        check_totals(&text);
        for line in text.lines() {
            let words: Vec<&str> = line.split(' ').collect();
            let what = match words[..] {
                [_, _, "note", note, _] => format!("note {note}"),
                [_, _, "unit", _, kind, ..] => format!("unit of kind {kind}"),
                ["refused", refusal] => format!("refused {refusal}"),
                _ => continue,
            };
            *counts.entry(what).or_default() += 1;
            if family(number) == "undamaged" {
                assert_eq!(words[2], "unit", "{line}");
            }
        }
    }
    for (what, count) in &counts {
        println!("{count:8} {what}");
    }
    let due = NOTES.map(|note| format!("note {note}"));
    let due = due
        .into_iter()
        .chain(REFUSALS.map(|r| format!("refused {r}")));
    let due: Vec<String> = due
        .chain((0..5).map(|k| format!("unit of kind {k}")))
        .collect();
    for what in &due {
        let count = counts.get(what).copied().unwrap_or(0);
        assert!(count >= 5, "{what}: {count}");
    }
    assert_eq!(counts.len(), due.len(), "nothing else comes");
}

/// The end line counts the lines before it.
fn check_totals(text: &str) {
    let count = |word| text.lines().filter(|line| line.contains(word)).count();
    let last = text.lines().last().expect("an end line");
    let numbers: Vec<usize> = last
        .strip_prefix("end ")
        .expect("the end line is last")
        .split(' ')
        .map(|number| number.parse().expect("decimal"))
        .collect();
    assert_eq!(numbers[1..], [count(" unit "), count(" note ")]);
}

const PLACES: [&str; 7] = [
    "at t",
    "between packets",
    "last complete packet",
    "unfinished packet",
    "tail of 1 byte",
    "tail of 2 bytes",
    "tail of 3 bytes",
];

/// Bad first bytes: the last of each range, its name, and how often it must come at each place.
const RANGES: [(u8, &str, u64); 3] = [
    (0x3F, "0x00 to 0x3F", 10),
    (0x7E, "0x40 to 0x7E", 50),
    (0xFF, "0x80 to 0xFF", 50),
];

/// The places of header `i` of those in the slot; the header at t has one more.
fn places(data: &[u8], headers: &[usize], i: usize) -> Vec<&'static str> {
    let complete = |i: usize| {
        let left = &data[headers[i]..];
        left.len() >= 4 && left.len() >= 4 + usize::from(u16::from_be_bytes([left[2], left[3]]))
    };
    let last = complete(i) && (i + 1 == headers.len() || !complete(i + 1));
    let left = data.len() - headers[i];
    let is = [
        i == 0,
        i > 0 && complete(i) && !last,
        last,
        !complete(i) && left >= 4,
        left == 1,
        left == 2,
        left == 3,
    ];
    let places = PLACES.into_iter().zip(is);
    places
        .filter_map(|(place, is)| is.then_some(place))
        .collect()
}

/// A slot that is unsound for a first byte alone: the byte, and the header's places.
fn spoilt(data: &mut [u8], t: u16, last: u16) -> Option<(u8, Vec<&'static str>)> {
    let headers = headers(data, t.into());
    let i = headers.iter().position(|&at| data[at] != 0x7F)?;
    assert_eq!(sound(data, t, last), None);
    let byte = std::mem::replace(&mut data[headers[i]], 0x7F);
    sound(data, t, last)?;
    Some((byte, places(data, &headers, i)))
}

#[test]
fn bad_first_bytes_at_every_place() {
    let mut counts: BTreeMap<(&str, &str), u64> = BTreeMap::new();
    let families = [
        "packets damaged",
        "slots damaged",
        "slot noise",
        "boundaries of held bytes",
    ];
    for number in (0..4_000).filter(|&number| families.contains(&family(number))) {
        for (data, t, last) in own_slots(&capture(number)) {
            let Some((byte, places)) = data.and_then(|mut data| spoilt(&mut data, t, last)) else {
                continue;
            };
            let range = RANGES.iter().find(|range| byte <= range.0).expect("a byte");
            for place in places {
                *counts.entry((place, range.1)).or_default() += 1;
            }
        }
    }
    for place in PLACES {
        for (_, range, floor) in RANGES {
            let count = counts.get(&(place, range)).copied().unwrap_or(0);
            println!("{count:8} {place}: {range}");
            assert!(count >= floor, "{place}, {range}: {count}");
        }
    }
}

/// A good packet, and the fields that its first unit or piece starts with.
type Good = (Packet, UnitFields);

/// The complete packets of a capture, in order.
fn packets(capture: &[u8]) -> Vec<Vec<u8>> {
    let mut out = Vec::new();
    let (mut stream, mut memory) = (Stream::default(), vec![0; PACKET_MEMORY]);
    for (data, t, last) in own_slots(capture) {
        let taken = match data {
            Some(data) => stream.take(&data, t, last, &mut memory),
            None => stream.lose(),
        };
        let mut parts = vec![0..taken.continued];
        let mut at = taken.at;
        while at < taken.end {
            parts.push(at..at + packet_total(&memory, at));
            at = parts[parts.len() - 1].end;
        }
        let parts = parts.into_iter().filter(|part| !part.is_empty());
        out.extend(parts.map(|part| memory[part].to_vec()));
    }
    out
}

/// The good packets of each watched packet_id of a capture, in order.
fn good_packets(capture: &[u8]) -> Vec<Vec<Good>> {
    let (cid, n) = (be16(capture, 3), usize::from(capture[5]));
    let ids: Vec<u16> = (0..n).map(|k| be16(capture, 6 + 2 * k)).collect();
    let (watch, mut out) = (Watch::new(&ids), vec![Vec::new(); n]);
    for bytes in packets(capture) {
        if let Reading::Good(packet) = read(&bytes, cid, &watch) {
            let fields = match packet.prefix {
                0 => UnitFields::read(packet.kind, &bytes[packet.at..]),
                _ => UnitFields::default(),
            };
            out[packet.place].push((packet, fields));
        }
    }
    out
}

/// Whether a piece agrees with the one before it, whatever their psn.
fn agrees(before: &Good, piece: &Good) -> bool {
    let key = |(packet, fields): &Good| (packet.kind, packet.mpu, fields.fragment, fields.sample);
    let one_lower = before.0.counter.wrapping_sub(1);
    key(before) == key(piece) && piece.0.counter == one_lower
}

/// What the counters of one packet_id's packets do, each as often as it does.
fn counted(packets: &[Good]) -> Vec<&'static str> {
    let mut out = Vec::new();
    let mut open = 0; // pieces of the open unit, or 0
    for (i, piece) in packets.iter().enumerate() {
        let (indicator, counter) = (piece.0.indicator, piece.0.counter);
        match (indicator, counter) {
            (1, 0) => out.push("first piece with 0"),
            (2, 0) => out.push("middle piece with 0"),
            _ => {}
        }
        if indicator < 2 || open == 0 {
            open = usize::from(indicator == 1);
            continue;
        }
        let before = &packets[i - 1];
        let agrees = agrees(before, piece);
        match (piece.0.psn.wrapping_sub(before.0.psn), before.0.counter) {
            (1, 0) if agrees => out.push("0, then 255"),
            (1, 0) => out.push("0, then no piece that agrees"),
            (257, _) if agrees => out.push("256 pieces lost"),
            (513, _) if agrees => out.push("512 pieces lost"),
            (256 | 258, _) => out.push("255 or 257 pieces lost"),
            _ => {}
        }
        let goes_on = agrees && piece.0.psn == before.0.psn.wrapping_add(1);
        open = if goes_on { open + 1 } else { 0 };
        if goes_on && indicator == 3 {
            match open {
                257 => out.push("unit of 257 pieces"),
                513 => out.push("unit of 513 pieces"),
                258.. => out.push("unit of more pieces"),
                _ => {}
            }
            open = 0;
        }
    }
    out
}

/// What counters must do, in which family, and how often.
const COUNTERS: [(&str, &str, u64); 16] = [
    ("holes of 256 pieces", "256 pieces lost", 100),
    ("holes of 256 pieces", "512 pieces lost", 20),
    ("holes of 256 pieces", "255 or 257 pieces lost", 50),
    ("holes of 256 pieces", "0, then 255", 200),
    ("holes of 256 pieces", "first piece with 0", 100),
    ("holes of 256 pieces", "middle piece with 0", 50),
    ("holes of 256 pieces", "unit of 257 pieces", 20),
    ("holes of 256 pieces", "unit of 513 pieces", 10),
    ("holes of 256 pieces", "unit of more pieces", 20),
    ("joining noise", "256 pieces lost", 200),
    ("joining noise", "0, then 255", 1_000),
    ("joining noise", "0, then no piece that agrees", 200),
    ("joining noise", "first piece with 0", 1_000),
    ("joining noise", "middle piece with 0", 1_000),
    ("undamaged", "first piece with 0", 20),
    ("undamaged", "0, then 255", 20),
];

#[test]
fn counters_that_run_round() {
    let families = [
        "undamaged",
        "slots and frames lost",
        "packets damaged",
        "slots damaged",
        "joining noise",
        "holes of 256 pieces",
    ];
    let mut counts: BTreeMap<(&str, &str), u64> = BTreeMap::new();
    for number in (0..2_400).filter(|&number| families.contains(&family(number))) {
        for packets in good_packets(&capture(number)) {
            for what in counted(&packets) {
                *counts.entry((family(number), what)).or_default() += 1;
            }
        }
    }
    for ((family, what), count) in &counts {
        println!("{count:8} {family}: {what}");
    }
    for (family, what, floor) in COUNTERS {
        let count = counts.get(&(family, what)).copied().unwrap_or(0);
        assert!(count >= floor, "{family}, {what}: {count}");
    }
}
