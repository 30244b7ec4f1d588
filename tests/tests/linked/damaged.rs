//! Words that no call left as a state: noise, and states of which some words are damaged. Every call ends,
//! writes only what it is lent to write, and changes nothing where it is refused.

use second::generate::catalogue;
use second::generate::prng::Prng;

use super::calls::{Reading, PLAIN};
use super::events::{once, Stops};
use super::lent::{Lent, Station};
use super::library::{self, LEN, NOTHING, RECORD, SETTINGS, STATE};
use super::memories::Lengths;
use super::records::{commands, Command, Settings};

/// States of noise, and states of captures that are damaged.
const NOISE: u64 = 800;
const DAMAGED: u64 = 1_500;
/// Calls with each.
const CALLS: usize = 40;

/// A word that is small, large, near a bound, or anything.
pub fn word(rng: &mut Prng) -> u64 {
    let any = rng.u64();
    let bound = rng.pick(&[
        16,
        120,
        751,
        1_178,
        5_049,
        16_384,
        21_433,
        65_536,
        1 << 20,
        1 << 32,
    ]);
    match rng.below(6) {
        0 => rng.pick(&[0, 1, 2, 3, 119, 120, 255, u64::MAX]),
        1 => any >> rng.below(64),
        2 => bound,
        3 => bound - 1,
        4 => bound + 1,
        _ => any,
    }
}

/// Damages some words of a state: single ones, or all of a part.
fn damage(rng: &mut Prng, state: &mut [u64]) {
    let most = rng.pick(&[10, 100, STATE]);
    let part = rng.range(1, most);
    let from = rng.below(STATE - part + 1);
    match rng.below(6) {
        0 => state[from..from + part].fill_with(|| word(rng)),
        1 | 2 => {
            for _ in 0..rng.range(1, 3) {
                state[rng.below(60)] = word(rng);
            }
        }
        _ => {
            for _ in 0..rng.range(1, 12) {
                state[rng.below(STATE)] = word(rng);
            }
        }
    }
}

/// What came of the calls.
#[derive(Default, Debug)]
pub struct Ended {
    pub accepted: [u64; 7],
    pub refused: u64,
    pub records: u64,
    /// Calls of events that were compared with next.
    beside_next: Stops,
}

impl Ended {
    pub fn see(&mut self, (which, answer, _): Made) {
        match answer {
            0 => self.accepted[which] += 1,
            _ => self.refused += 1,
        }
    }
}

/// Which call, its answer, and the records that it gave.
pub type Made = (usize, u8, u64);

/// A length of a memory: all of it, or less.
fn length(rng: &mut Prng, len: usize) -> usize {
    let any = rng.below(len + 1);
    if rng.chance(9, 10) {
        return len;
    }
    rng.pick(&[len.saturating_sub(1), any, 0])
}

/// What calls are given that would be good ones.
pub struct Given<'a> {
    settings: Settings,
    block: &'a [u8],
    data: Vec<&'a [u8]>,
}

impl<'a> Given<'a> {
    /// Of a capture's commands from `at` on: the data that comes next, and a control block.
    pub fn of(list: &[Command<'a>], at: usize, settings: Settings, block: &'a [u8]) -> Self {
        let mut given = Given {
            settings,
            block,
            data: Vec::new(),
        };
        for command in list.iter().skip(at).take(12) {
            match command {
                Command::Slot(data) => given.data.push(data),
                Command::Frame(block) => given.block = block,
                _ => {}
            }
        }
        given
    }

    /// Data of a slot: what is due, or noise of a length that some slot has.
    fn slot(&self, rng: &mut Prng) -> Vec<u8> {
        if rng.chance(2, 3) && !self.data.is_empty() {
            return rng.pick(&self.data).to_vec();
        }
        let len = rng.pick(&[0, 1_870, 1_870, 4_301, 5_049, 5_050]);
        rng.bytes(len)
    }
}

/// One call over `station`, with parts of its memories.
fn call(rng: &mut Prng, station: &mut Station, given: &Given, array: &mut [u64]) -> Made {
    let packet = length(rng, station.packet.get().len());
    let collecting = length(rng, station.collecting.get().len());
    let packet = &mut station.packet.lend()[..packet];
    let collecting = &mut station.collecting.lend()[..collecting];
    let state = station.state.lend();
    let which = rng.pick(&[0, 1, 1, 2, 3, 3, 3, 4, 5, 5, 5, 5, 6, 6, 6]);
    let answer = match which {
        0 => {
            let mut settings = given.settings;
            if rng.chance(7, 8) {
                settings[rng.below(SETTINGS)] = word(rng);
            }
            library::start(&settings, state)
        }
        1 => library::frame(state, given.block),
        2 => library::lost_frame(state),
        3 => library::slot(state, packet, collecting, &given.slot(rng)),
        4 => library::lost_slot(state, packet, collecting),
        5 => library::next(state, packet, collecting, array),
        _ => {
            let (answer, count) = library::events(state, packet, collecting, array);
            assert!((count == LEN) == (answer != 0));
            return (which, answer, if answer == 0 { count } else { 0 });
        }
    };
    (which, answer, u64::from(which == 5 && answer == 0))
}

/// The refusals that a call may answer.
fn known(which: usize, answer: u8) -> bool {
    let known: &[u8] = match which {
        0 => &[91, 1, 2, 3, 4],
        1 => &[10, 11, 12, 13, 14],
        2 => &[11],
        3 => &[20, 21, 22, 23],
        4 => &[20, 21, 22],
        _ => &[92, 22],
    };
    answer == 0 || known.contains(&answer)
}

/// What a call may write: the state's 751 words, and by its kind packet memory, collecting memory and the
/// array up to the records that it gave; nothing where it is refused.
fn is_kept(made: Made, before: &Before, station: &Station, array: &Lent<u64>) {
    let (which, answer, records) = made;
    let (old, filling) = (&before.station, &before.array);
    assert!(known(which, answer), "call {which}: {answer}");
    assert!(station.is_guarded() && array.is_guarded(), "call {which}");
    let behind = &station.state.get()[STATE..];
    assert!(*behind == old.state.get()[STATE..], "call {which}");
    assert!(which == 3 || station.packet == old.packet, "call {which}");
    assert!(
        which >= 5 || station.collecting == old.collecting,
        "call {which}"
    );
    let written = records as usize * RECORD;
    let behind = &array.get()[written..];
    assert!(*behind == filling.get()[written..], "call {which}: array");
    let same = *station == *old && records == 0;
    assert!(answer == 0 || same, "call {which} refused with {answer}");
}

/// What stood there before a call.
struct Before {
    station: Station,
    array: Lent<u64>,
}

/// Makes a call in an array of `room` words, and sees that it keeps to what is its own, and that a copy does the
/// same; what was made, and the records.
pub fn checked(
    rng: &mut Prng,
    station: &mut Station,
    room: usize,
    make: impl Fn(&mut Station, &mut [u64]) -> Made,
) -> (Made, Vec<u64>) {
    let before = Before {
        station: station.clone(),
        array: Lent::noise(rng, room),
    };
    let (mut array, mut other) = (before.array.clone(), before.array.clone());
    let mut copy = station.clone();
    let made = make(station, array.lend());
    let again = make(&mut copy, other.lend());
    is_kept(made, &before, station, &array);
    let (which, _, records) = made;
    let same = made == again && *station == copy && array == other;
    assert!(same, "call {which} on a copy");
    (made, array.get()[..records as usize * RECORD].to_vec())
}

/// Damage to a state's words.
pub type Damage = fn(&mut Prng, &mut [u64]);

/// Calls in any order, some over words that are damaged again.
pub fn calls(
    rng: &mut Prng,
    station: &mut Station,
    given: &Given,
    damage: Damage,
    ended: &mut Ended,
) {
    for _ in 0..CALLS {
        if rng.chance(1, 16) {
            damage(rng, station.state.lend());
        }
        let room = rng.pick(&[0, RECORD - 1, RECORD, RECORD + 1, 200]);
        let seed = rng.u64();
        let (made, records) = checked(rng, station, room, |station, array| {
            call(&mut Prng::new(seed), station, given, array)
        });
        ended.see(made);
        ended.records += show_each(rng, station, &records);
        if rng.chance(1, 4) && station.clone().next(&mut [0; RECORD]) == 0 {
            let room = rng.pick(&[1, 2, 3, 7]);
            once(station, rng, room, &mut ended.beside_next);
        }
    }
}

/// Show of records that a damaged state gave: the part of its memory, or nothing. How many are events.
pub fn show_each(rng: &mut Prng, station: &mut Station, records: &[u64]) -> u64 {
    let mut events = 0;
    for record in records.chunks_exact(RECORD) {
        assert!(record[0] <= 2 && record[2] <= 1, "{record:?}");
        let memories = [station.packet.get(), station.collecting.get()];
        let (start, len) = (record[3] as usize, record[4] as usize);
        let part = memories[record[2] as usize].get(start..start.saturating_add(len));
        let part = part.unwrap_or(&[]).to_vec();
        let mut output = Lent::<u8>::noise(rng, part.len());
        let answer = station.show(record, output.lend());
        assert_eq!(answer, (0, part.len() as u64), "{record:?}");
        assert!(output.get() == part && output.is_guarded(), "{record:?}");
        events += u64::from(record[0] != NOTHING);
    }
    events
}

/// A block with a TLV stream of each id below 16, all slots live and of 1,870 bytes, by turns theirs.
pub fn block_of_sixteen() -> Vec<u8> {
    let mut block = vec![0; 1_178];
    block[1..25].copy_from_slice(&[0xFF, 0, 0].repeat(8));
    block[1..3].copy_from_slice(&[0x51, 120]);
    block[25..41].fill(2);
    for k in 0..16 {
        block[694 + 2 * k] = k as u8;
    }
    for i in 0..60 {
        block[633 + i] = (i as u8 % 8) * 0x22 + 1;
    }
    block
}

/// Settings that are good ones.
fn good() -> Settings {
    let mut settings = [0; SETTINGS];
    settings[..6].copy_from_slice(&[3, 5, 2, 100, 7, 9]);
    settings
}

/// Words behind a state's: none, or some.
fn more(number: u64) -> usize {
    [0, 0, 1, 17][(number % 4) as usize]
}

#[test]
fn noise() {
    let mut ended = Ended::default();
    let block = block_of_sixteen();
    let capture = catalogue::capture(0);
    let given = Given {
        block: &block,
        ..Given::of(&commands(&capture), 0, good(), &block)
    };
    for number in 0..NOISE {
        let mut rng = Prng::new(number ^ 0x9015E);
        let mut station = Station::noise(&mut rng, more(number), 5_000);
        if number % 2 == 0 {
            let small = 1 << (number / 2 % 20);
            let state = &mut station.state.lend()[..STATE];
            state.iter_mut().for_each(|word| *word %= small);
        }
        calls(&mut rng, &mut station, &given, damage, &mut ended);
    }
    println!("{ended:?}");
    assert!(ended.accepted.iter().all(|&count| count > 20));
    assert!(ended.refused > 1_000 && ended.records > 50);
}

#[test]
fn damaged_states() {
    let mut ended = Ended::default();
    let block = block_of_sixteen();
    for number in 0..DAMAGED {
        let capture = catalogue::capture(number);
        let mut rng = Prng::new(number ^ 0xDA7A);
        let mut reading = Reading::new(number, &capture, Lengths::Exact, PLAIN);
        for _ in 0..rng.pick(&[1, 5, 60, 200]) {
            reading.step();
        }
        while number % 4 > 0 && !reading.pair.owed && reading.step() {}
        if reading.pair.ours.is_none() {
            continue;
        }
        let given = Given::of(&reading.commands, reading.at, reading.settings, &block);
        let mut station = reading.pair.theirs;
        damage(&mut rng, station.state.lend());
        calls(&mut rng, &mut station, &given, damage, &mut ended);
    }
    println!("{ended:?}");
    assert!(ended.accepted.iter().all(|&count| count > 100));
    assert!(ended.refused > 10_000 && ended.records > 1_000);
}
