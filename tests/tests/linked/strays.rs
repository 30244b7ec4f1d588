//! Calls that are refused, to be strewn in anywhere between others: nothing may change.

use second::generate::commands::damage_block;
use second::generate::prng::Prng;
use second::slots::PACKET_MEMORY;

use super::lent::Lent;
use super::library::{self, LEN, RECORD, SETTINGS, STATE};
use super::pair::Pair;
use super::records::{start, Settings};

/// Lengths of data that no slot has.
const NO_SLOT: [usize; 6] = [1, 1_869, 1_871, 5_048, 5_050, 65_535];

/// Makes one refused call after an accepted start. `block` is a good control block, where there is one.
pub fn stray(pair: &mut Pair, rng: &mut Prng, block: &[u8], settings: &Settings) {
    match rng.below(9) {
        0 | 1 => short_state(pair, rng, block, settings),
        2 => bad_settings(pair, rng, settings),
        3 => refused_start(pair, rng, settings),
        4 => short_event(pair, rng),
        5 => short_memory(pair, rng),
        6 => bad_frame(pair, rng, block),
        7 => bad_slot(pair, rng),
        _ => lost_out_of_turn(pair),
    }
}

/// Any call with too few words of state, the rest being good or not: 90.
fn short_state(pair: &mut Pair, rng: &mut Prng, block: &[u8], settings: &Settings) {
    let before = pair.theirs.state.get().to_vec();
    let words = rng.pick(&[0, 1, 24, STATE - 1]);
    let room = rng.pick(&[0, RECORD - 1, RECORD, 3 * RECORD]);
    let filling = Lent::<u64>::noise(rng, room);
    let mut event = filling.clone();
    let theirs = &mut pair.theirs;
    let state = &mut theirs.state.lend()[..words];
    let packet = rng.pick(&[0, PACKET_MEMORY]).min(pair.packet.len());
    let packet = &mut theirs.packet.lend()[..packet];
    let collecting = theirs.collecting.lend();
    let answer = match rng.below(7) {
        0 => library::start(&settings[..rng.pick(&[0, SETTINGS])], state),
        1 => library::frame(state, &block[..rng.pick(&[0, block.len()])]),
        2 => library::lost_frame(state),
        3 => library::slot(state, packet, collecting, &[]),
        4 => library::lost_slot(state, packet, collecting),
        5 => library::next(state, packet, collecting, event.lend()),
        _ => {
            let (answer, count) = library::events(state, packet, collecting, event.lend());
            assert_eq!(count, LEN);
            answer
        }
    };
    assert!(event == filling, "event memory");
    pair.compare("a short state", Err(90), answer, &before);
}

/// Start with too few words of settings, or one of them above its bound: 91.
fn bad_settings(pair: &mut Pair, rng: &mut Prng, settings: &Settings) {
    let before = pair.theirs.state.get().to_vec();
    let (mut settings, mut len) = (*settings, SETTINGS);
    match rng.below(3) {
        0 => len = rng.below(SETTINGS),
        1 => settings[rng.pick(&[0, 1, 4, 5, 18, 19])] = rng.pick(&[65_536, 1 << 32, u64::MAX]),
        _ => settings[rng.range(20, 31)] = rng.pick(&[1, u64::MAX]),
    }
    if rng.chance(1, 2) {
        settings[2] = 0; // 1, were the settings good
    }
    let answer = library::start(&settings[..len], pair.theirs.state.lend());
    pair.compare("bad settings", Err(91), answer, &before);
}

/// Start with settings that the receiver refuses: 1 to 4.
fn refused_start(pair: &mut Pair, rng: &mut Prng, settings: &Settings) {
    let before = pair.theirs.state.get().to_vec();
    let mut settings = *settings;
    if rng.chance(1, 2) {
        settings[3] = rng.pick(&[0, 1_048_577]);
    }
    match rng.below(4) {
        0 => settings[2] = rng.pick(&[0, 17, 255]),
        1 => (settings[2], settings[5]) = (2, settings[4]),
        2 => settings[1] = rng.pick(&[4_096, 65_535]),
        _ => settings[3] = rng.pick(&[0, 1_048_577]),
    }
    let due = start(&settings).map(|_| ());
    assert!(due.is_err());
    let answer = library::start(&settings, pair.theirs.state.lend());
    pair.compare("a refused start", due, answer, &before);
}

/// Next or events with an event memory of fewer than 24 words, and perhaps short memories: 92.
fn short_event(pair: &mut Pair, rng: &mut Prng) {
    let before = pair.theirs.state.get().to_vec();
    let room = rng.pick(&[0, 1, RECORD - 1]);
    let filling = Lent::<u64>::noise(rng, room);
    let mut event = filling.clone();
    let theirs = &mut pair.theirs;
    let len = rng.pick(&[0, PACKET_MEMORY]).min(pair.packet.len());
    let packet = &mut theirs.packet.lend()[..len];
    let (state, collecting) = (theirs.state.lend(), theirs.collecting.lend());
    let answer = if rng.chance(1, 2) {
        library::next(state, packet, collecting, event.lend())
    } else {
        let (answer, count) = library::events(state, packet, collecting, event.lend());
        assert_eq!(count, LEN);
        answer
    };
    assert!(event == filling, "event memory");
    pair.compare("a short event memory", Err(92), answer, &before);
}

/// Next, events or a lost slot with a memory one byte too short, or without any: 22, or 20 and 21 of a slot.
fn short_memory(pair: &mut Pair, rng: &mut Prng) {
    let before = pair.theirs.state.get().to_vec();
    let (mut packet, mut collecting) = (pair.packet.len(), pair.collecting.len());
    if rng.chance(1, 2) {
        packet = packet.min(rng.pick(&[0, PACKET_MEMORY - 1]));
    } else {
        collecting = collecting.min(rng.pick(&[0, pair.need - 1]));
    }
    let filling = Lent::<u64>::noise(rng, 2 * RECORD);
    let mut event = filling.clone();
    let ours = pair.ours.as_mut().expect("a start was accepted");
    let theirs = &mut pair.theirs;
    let (ours_packet, ours_collecting) =
        (&pair.packet[..packet], &mut pair.collecting[..collecting]);
    let state = theirs.state.lend();
    let packet = &mut theirs.packet.lend()[..packet];
    let collecting = &mut theirs.collecting.lend()[..collecting];
    let next = |ours: &mut second::calls::Receiver, collecting: &mut [u8]| {
        ours.next(ours_packet, collecting).map(|_| ())
    };
    let (due, answer) = match rng.below(3) {
        0 => (
            ours.lost_slot(ours_packet, ours_collecting),
            library::lost_slot(state, packet, collecting),
        ),
        1 => (
            next(ours, ours_collecting),
            library::next(state, packet, collecting, event.lend()),
        ),
        _ => {
            let (answer, count) = library::events(state, packet, collecting, event.lend());
            assert_eq!(count, LEN);
            (next(ours, ours_collecting), answer)
        }
    };
    assert!(due.is_err() && event == filling, "event memory");
    pair.compare("a short memory", due, answer, &before);
}

/// A frame of a wrong length, out of turn, or with a bad control block: 10 to 14.
pub fn bad_frame(pair: &mut Pair, rng: &mut Prng, block: &[u8]) {
    let before = pair.theirs.state.get().to_vec();
    let mut block = block.to_vec();
    match rng.below(4) {
        0 => block.truncate(rng.pick(&[0, 1, 1_177])),
        1 => block.push(0),
        2 => {}
        _ if block.len() > 1_000 => damage_block(rng, &mut block),
        _ => {}
    }
    let ours = pair.ours.as_ref().expect("a start was accepted");
    let due = ours.clone().frame(&block);
    if due.is_err() {
        let answer = pair.theirs.frame(&block);
        pair.compare("a bad frame", due, answer, &before);
    }
}

/// A slot of a length that none has, perhaps with short memories: 20 to 23.
fn bad_slot(pair: &mut Pair, rng: &mut Prng) {
    let before = pair.theirs.state.get().to_vec();
    let len = rng.pick(&NO_SLOT);
    let data = rng.bytes(len);
    let ours = pair.ours.as_mut().expect("a start was accepted");
    let short = rng.chance(1, 4);
    let len = if short { PACKET_MEMORY - 1 } else { usize::MAX }.min(pair.packet.len());
    let due = ours.slot(&data, &mut pair.packet[..len], &pair.collecting);
    let theirs = &mut pair.theirs;
    let (packet, collecting) = (theirs.packet.lend(), theirs.collecting.lend());
    let answer = library::slot(theirs.state.lend(), &mut packet[..len], collecting, &data);
    assert!(due.is_err());
    pair.compare("a bad slot", due, answer, &before);
}

/// A lost slot or a lost frame that is out of turn: 20, 21, 22, 11.
fn lost_out_of_turn(pair: &mut Pair) {
    let before = pair.theirs.state.get().to_vec();
    let ours = pair.ours.as_ref().expect("a start was accepted");
    let slot = ours.clone().lost_slot(&pair.packet, &pair.collecting);
    let frame = ours.clone().lost_frame();
    if slot.is_err() {
        let answer = pair.theirs.lost_slot();
        pair.compare("a lost slot", slot, answer, &before);
    }
    if frame.is_err() {
        let answer = pair.theirs.lost_frame();
        pair.compare("a lost frame", frame, answer, &before);
    }
}
