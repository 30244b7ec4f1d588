//! Words that no start left where a state has its watch list: falling, equal, huge, or anything, with any n.
//! Every call ends, writes only what it is lent to write, and changes nothing where it is refused.

use std::ops::Range;

use second::generate::catalogue::{self, FAMILIES};
use second::generate::prng::Prng;

use super::calls::{Reading, PLAIN};
use super::common::lists::sets;
use super::damaged::{block_of_sixteen, calls, checked, show_each, word, Ended, Given, Made};
use super::lent::{Lent, Station};
use super::library::{self, RECORD, SETTINGS, STATE};
use super::memories::Lengths;
use super::records::{settings, Command};

/// The word of n, that of R, and the words of the list.
const LENGTH: usize = 2;
const JOINED_MAX: usize = 3;
const LIST: Range<usize> = 4..20;

/// Captures of watch lists that are read on, and captures of all families over which calls are made in any order.
const READ: u64 = 1_200;
const CALLED: u64 = 500;
/// Commands of a capture that are read on, and calls of next or events behind each, at most.
const COMMANDS: usize = 30;
const NEXTS: usize = 100;

/// A fresh state with this list.
fn started(ids: &[u16]) -> Vec<u64> {
    let mut settings = [0; SETTINGS];
    settings[..4].copy_from_slice(&[1, 5, ids.len() as u64, 100]);
    for (word, &id) in settings[LIST].iter_mut().zip(ids) {
        *word = id.into();
    }
    let mut state = vec![7; STATE];
    assert_eq!(library::start(&settings, &mut state), 0);
    state
}

/// The list stands in those words: two states that differ in it alone differ there, and nowhere else.
#[test]
fn where_the_list_stands() {
    for n in 1..=16 {
        let [one, other] = [1, 3].map(|which| started(&sets(n)[which]));
        let differing: Vec<usize> = (0..STATE).filter(|&k| one[k] != other[k]).collect();
        assert!(!differing.is_empty());
        assert!(differing.iter().all(|k| LIST.contains(k)), "{differing:?}");
        assert_eq!((one[LENGTH], one[JOINED_MAX]), (n as u64, 100));
    }
}

/// Damages the list: its order, its ids, or what may stand beside an id in a word; and n and R.
fn damage_list(rng: &mut Prng, state: &mut [u64]) {
    let list = &mut state[LIST];
    let (one, other) = (rng.below(list.len()), rng.below(list.len()));
    match rng.below(12) {
        0 => list.reverse(),
        1 => list.fill(list[one]),
        2 => list.fill_with(|| word(rng)),
        3 => list.fill_with(|| u64::MAX >> rng.below(4)),
        4 => list.sort_unstable_by(|a, b| b.cmp(a)),
        5 => list.sort_unstable(),
        6 => rng.shuffle(list),
        7 => list[one] = rng.pick(&[list[other], 0, 65_535, 65_536, u64::MAX]),
        8 => {
            let (most, shift) = (rng.pick(&[3, 16, 20, 65_535]), rng.pick(&[16, 20, 32, 48]));
            let above = |word: &mut u64| *word |= (rng.below(most) as u64) << shift;
            list.iter_mut().for_each(above);
        }
        9 => {
            let shift = rng.pick(&[0, 4, 5, 16]);
            let below = |word: &mut u64| *word = *word << shift ^ rng.below(16) as u64;
            list.iter_mut().for_each(below);
        }
        10 => list.iter_mut().for_each(|word| *word >>= 4),
        _ => list[one] = word(rng),
    }
    if rng.chance(1, 2) {
        let few = rng.below(21) as u64;
        let huge = word(rng);
        state[LENGTH] = rng.pick(&[few, few, 16, 17, huge]);
    }
    if rng.chance(1, 4) {
        state[JOINED_MAX] = rng.pick(&[0, 1, 3, 40]);
    }
}

/// A real state, from the start on or later, whose list is to be damaged; collecting memory suffices for 20 ids
/// and more, where R is not large.
fn later<'a>(number: u64, capture: &'a [u8], rng: &mut Prng) -> Option<Reading<'a>> {
    let mut reading = Reading::new(number, capture, Lengths::Exact, PLAIN);
    for _ in 0..rng.pick(&[1, 3, 30, 200]) {
        reading.step();
    }
    while !number.is_multiple_of(4) && !reading.pair.owed && reading.step() {}
    reading.pair.ours.as_ref()?;
    let need = 21 * reading.settings[JOINED_MAX] as usize;
    if need < 10_000 {
        reading.pair.theirs.collecting = Lent::noise(rng, need);
    }
    Some(reading)
}

/// Calls in any order, start among them.
#[test]
fn lists_that_no_start_wrote() {
    let mut ended = Ended::default();
    let block = block_of_sixteen();
    for number in 0..CALLED {
        let capture = catalogue::capture(number);
        let mut rng = Prng::new(number ^ 0x3117D);
        let Some(reading) = later(number, &capture, &mut rng) else {
            continue;
        };
        let given = Given::of(&reading.commands, reading.at, reading.settings, &block);
        let mut station = reading.pair.theirs;
        damage_list(&mut rng, station.state.lend());
        calls(&mut rng, &mut station, &given, damage_list, &mut ended);
    }
    println!("{ended:?}");
    assert!(ended.accepted.iter().all(|&count| count > 50));
    assert!(ended.refused > 5_000 && ended.records > 100);
}

/// The call of a command.
fn call(station: &mut Station, command: &Command) -> Made {
    match command {
        Command::Start(operands) => (
            0,
            library::start(&settings(operands), station.state.lend()),
            0,
        ),
        Command::Frame(block) => (1, station.frame(block), 0),
        Command::LostFrame => (2, station.lost_frame(), 0),
        Command::Slot(data) => (3, station.slot(data), 0),
        Command::LostSlot => (4, station.lost_slot(), 0),
    }
}

/// Next or events.
fn next(station: &mut Station, many: bool, array: &mut [u64]) -> Made {
    if many {
        let (answer, count) = station.events(array);
        return (6, answer, if answer == 0 { count } else { 0 });
    }
    let answer = station.next(array);
    (5, answer, u64::from(answer == 0))
}

/// Takes the events until nothing waits. Where n or R is too large for the memory, the list is damaged again.
fn drain(rng: &mut Prng, station: &mut Station, ended: &mut Ended) {
    for _ in 0..NEXTS {
        let (many, room) = (rng.chance(1, 3), RECORD * rng.range(1, 3));
        let (made, records) = checked(rng, station, room, |station, array| {
            next(station, many, array)
        });
        ended.see(made);
        let events = show_each(rng, station, &records);
        ended.records += events;
        match made.1 {
            0 if events == 0 => return,
            0 => {}
            _ => damage_list(rng, station.state.lend()),
        }
    }
}

/// Captures with many packets, watched and not, read on as they go, while the list is damaged again and again.
#[test]
fn read_on_with_such_lists() {
    let mut ended = Ended::default();
    for number in (0..READ).map(|i| i * FAMILIES.len() as u64 + 12) {
        let capture = catalogue::capture(number);
        let mut rng = Prng::new(number ^ 0x4EAD);
        let Some(reading) = later(number, &capture, &mut rng) else {
            continue;
        };
        let mut station = reading.pair.theirs;
        damage_list(&mut rng, station.state.lend());
        drain(&mut rng, &mut station, &mut ended);
        for command in reading.commands.iter().skip(reading.at).take(COMMANDS) {
            if rng.chance(1, 5) {
                damage_list(&mut rng, station.state.lend());
            }
            let (made, _) = checked(&mut rng, &mut station, 0, |station, _| {
                call(station, command)
            });
            ended.see(made);
            drain(&mut rng, &mut station, &mut ended);
        }
    }
    println!("{ended:?}");
    let [_, _, _, slots, lost, next, events] = ended.accepted;
    assert!(slots > 5_000 && lost > 500 && next > 10_000 && events > 5_000);
    assert!(ended.refused > 500 && ended.records > 2_000);
}
