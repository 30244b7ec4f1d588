//! Refusals in their order, by hand: where several hold the first is answered, and nothing changes.

use second::generate::prng::Prng;
use second::slots::PACKET_MEMORY;

use super::common::block;
use super::lent::{Lent, Station};
use super::library::{self, LEN, RECORD, SETTINGS, STATE};
use super::records::Settings;

/// Stream 1, CID 5, packet_ids 7 and 9, R 100.
fn good() -> Settings {
    let mut settings = [0; SETTINGS];
    settings[..6].copy_from_slice(&[1, 5, 2, 100, 7, 9]);
    settings
}

/// A station that was started; its collecting memory has n × R bytes.
fn station() -> Station {
    let mut station = Station::noise(&mut Prng::new(1), 3, 200);
    assert_eq!(library::start(&good(), station.state.lend()), 0);
    station
}

/// Makes a call that must be refused, and sees that nothing changed.
fn refused(station: &mut Station, due: u8, call: impl FnOnce(&mut Station) -> u8) {
    let before = station.clone();
    assert_eq!(call(station), due);
    assert!(*station == before, "refused with {due}");
}

/// The refusal of start with these settings, over a station that is running.
fn start(station: &mut Station, settings: &[u64], due: u8) {
    refused(station, due, |s| library::start(settings, s.state.lend()));
}

#[test]
fn start_in_order() {
    let mut station = station();
    let with = |changes: &[(usize, u64)]| {
        let mut settings = good();
        changes.iter().for_each(|&(k, word)| settings[k] = word);
        settings
    };
    let all = with(&[(31, 1), (2, 0), (1, 4_096), (3, 0)]);
    for words in [0, 1, STATE - 1] {
        refused(&mut station, 90, |s| {
            library::start(&all, &mut s.state.lend()[..words])
        });
        refused(&mut station, 90, |s| {
            library::start(&good(), &mut s.state.lend()[..words])
        });
    }
    start(&mut station, &all, 91);
    for len in 0..SETTINGS {
        start(&mut station, &good()[..len], 91);
        start(&mut station, &all[..len], 91);
    }
    start(
        &mut station,
        &with(&[(2, 0), (5, 7), (1, 4_096), (3, 0)]),
        1,
    );
    start(&mut station, &with(&[(5, 7), (1, 4_096), (3, 0)]), 2);
    start(&mut station, &with(&[(1, 4_096), (3, 0)]), 3);
    start(&mut station, &with(&[(1, 65_535), (3, 0)]), 3);
    start(&mut station, &with(&[(3, 0)]), 4);
    for n in [0, 17, 256, 257, 1 << 32, (1 << 32) + 1, u64::MAX] {
        start(&mut station, &with(&[(2, n)]), 1);
    }
    for r in [0, 1_048_577, 1 << 32, (1 << 32) + 1, u64::MAX] {
        start(&mut station, &with(&[(3, r)]), 4);
    }
}

/// Each setting at its bound and one above it, also packet_ids behind n and the words for later settings.
#[test]
fn settings_at_their_bounds() {
    let mut station = station();
    for k in (0..SETTINGS).filter(|k| ![2, 3].contains(k)) {
        let bound = if k < 20 { 65_535 } else { 0 };
        for word in [bound + 1, bound + (1 << 32), u64::MAX] {
            let mut settings = good();
            settings[k] = word;
            start(&mut station, &settings, 91);
            settings[2] = 0;
            start(&mut station, &settings, 91);
        }
        let mut settings = good();
        settings[k] = bound;
        let answer = library::start(&settings, station.state.lend());
        assert_eq!(answer, if k == 1 { 3 } else { 0 }, "word {k}");
    }
    let mut most = good();
    most[..4].copy_from_slice(&[65_535, 4_095, 16, 1_048_576]);
    for (k, id) in most[4..20].iter_mut().enumerate() {
        *id = 65_535 - k as u64;
    }
    let more = [&most[..], &[u64::MAX; 3]].concat(); // words behind the 32 do not count
    assert_eq!(library::start(&most, station.state.lend()), 0);
    let state = station.state.clone();
    assert_eq!(library::start(&more, station.state.lend()), 0);
    assert!(station.state == state && station.is_guarded());
}

/// A control block that breaks 12 and what follows, 13 and 14, or 14 alone.
fn faulty(modes_ok: bool, stream_ok: bool) -> Vec<u8> {
    let mut block = block(&[(if modes_ok { 0x11 } else { 0x61 }, 120)]);
    block[633..693].fill(0x55); // relative stream 3 has no slot
    if !stream_ok {
        block[28] = 1;
    }
    block
}

#[test]
fn frames_in_order() {
    let mut station = station();
    let all = faulty(false, false);
    let short =
        |s: &mut Station, block: &[u8]| library::frame(&mut s.state.lend()[..STATE - 1], block);
    refused(&mut station, 90, |s| short(s, &[]));
    refused(&mut station, 90, |s| {
        library::frame(&mut s.state.lend()[..0], &all)
    });
    for len in [0, 1_177] {
        refused(&mut station, 10, |s| s.frame(&all[..len]));
    }
    refused(&mut station, 10, |s| s.frame(&[&all[..], &[0]].concat()));
    refused(&mut station, 12, |s| s.frame(&all));
    refused(&mut station, 13, |s| s.frame(&faulty(true, false)));
    refused(&mut station, 14, |s| s.frame(&faulty(true, true)));
    assert_eq!(station.frame(&block(&[(0x11, 120)])), 0);
    refused(&mut station, 90, |s| short(s, &[]));
    refused(&mut station, 10, |s| s.frame(&all[1..]));
    refused(&mut station, 11, |s| s.frame(&all));
    refused(&mut station, 11, |s| s.frame(&block(&[(0x11, 120)])));
    refused(&mut station, 11, |s| s.lost_frame());
    refused(&mut station, 90, |s| {
        library::lost_frame(&mut s.state.lend()[..STATE - 1])
    });
}

/// What a slot or next is lent of the station: this much of the state and of both memories.
#[derive(Clone, Copy)]
struct Parts(usize, usize, usize);

const WHOLE: Parts = Parts(STATE, PACKET_MEMORY, 200);
const NONE: Parts = Parts(0, 0, 0);
const NO_STATE: Parts = Parts(STATE - 1, PACKET_MEMORY, 200);
const NO_PACKET: Parts = Parts(STATE, PACKET_MEMORY - 1, 200);
const NO_COLLECTING: Parts = Parts(STATE, PACKET_MEMORY, 199);

/// Slot with data, and lost slot where there is none.
fn slot(s: &mut Station, parts: Parts, data: Option<usize>) -> u8 {
    let state = &mut s.state.lend()[..parts.0];
    let packet = &mut s.packet.lend()[..parts.1];
    let collecting = &mut s.collecting.lend()[..parts.2];
    match data {
        Some(len) => library::slot(state, packet, collecting, &vec![0x7F; len]),
        None => library::lost_slot(state, packet, collecting),
    }
}

/// Slot with right and wrong data and lost slot, all refused with one number.
fn slots(station: &mut Station, parts: Parts, due: u8) {
    for data in [None, Some(0), Some(1_870), Some(65_535)] {
        refused(station, due, |s| slot(s, parts, data));
    }
}

fn accept(answer: u8) {
    assert_eq!(answer, 0);
}

#[test]
fn slots_in_order() {
    let mut station = station();
    let no_slot = |s: &mut Station, number: u8| {
        for parts in [NONE, NO_STATE] {
            slots(s, parts, 90);
        }
        for parts in [NO_PACKET, NO_COLLECTING, WHOLE] {
            slots(s, parts, number);
        }
    };
    no_slot(&mut station, 20);
    accept(station.frame(&block(&[(0x11, 120)])));
    slots(&mut station, NONE, 90);
    for parts in [NO_PACKET, NO_COLLECTING, Parts(STATE, 0, 0)] {
        slots(&mut station, parts, 22);
    }
    for len in [0, 1, 1_869, 1_871, 5_049, 5_050, 65_535] {
        refused(&mut station, 23, |s| slot(s, WHOLE, Some(len)));
    }
    for number in 1..=120 {
        accept(station.lost_slot());
        no_slot(&mut station, if number == 120 { 20 } else { 21 });
        let mut record = [9; RECORD];
        accept(station.next(&mut record));
        assert_eq!(record, [0; RECORD]);
        let live = number % 5 == 0; // whether the slot behind this one is
        if number < 120 {
            let wrong = if live { 0 } else { 1_870 };
            refused(&mut station, 23, |s| slot(s, WHOLE, Some(wrong)));
        }
    }
    no_slot(&mut station, 20);
    accept(station.lost_frame());
    no_slot(&mut station, 20);
    refused(&mut station, 11, |s| s.lost_frame());
}

/// Next and events with parts of what they need, and so many words for events: one number of both.
fn nexts(station: &mut Station, parts: Parts, words: usize, due: u8) {
    let filling = Lent::<u64>::noise(&mut Prng::new(2), words);
    for many in [false, true] {
        let mut array = filling.clone();
        refused(station, due, |s| {
            let state = &mut s.state.lend()[..parts.0];
            let packet = &mut s.packet.lend()[..parts.1];
            let collecting = &mut s.collecting.lend()[..parts.2];
            if !many {
                return library::next(state, packet, collecting, array.lend());
            }
            let (answer, count) = library::events(state, packet, collecting, array.lend());
            assert_eq!(count, LEN);
            answer
        });
        assert!(array == filling, "event memory");
    }
}

#[test]
fn next_and_events_in_order() {
    let mut station = station();
    for owed in [false, true] {
        for words in [0, 1, RECORD - 1, RECORD, 100] {
            nexts(&mut station, NONE, words, 90);
            nexts(&mut station, NO_STATE, words, 90);
        }
        for parts in [WHOLE, NO_PACKET, NO_COLLECTING, Parts(STATE, 0, 0)] {
            for words in [0, 1, RECORD - 1] {
                nexts(&mut station, parts, words, 92);
            }
        }
        for parts in [NO_PACKET, NO_COLLECTING, Parts(STATE, 0, 0)] {
            for words in [RECORD, 2 * RECORD + 1] {
                nexts(&mut station, parts, words, 22);
            }
        }
        if !owed {
            accept(station.lost_frame());
        }
    }
    let mut record = [9; RECORD];
    accept(station.next(&mut record));
    assert_eq!(record, [0; RECORD]);
    accept(station.lost_frame());
}
