//! Many events for one call: equal to so many calls of next on a copy, records, state and memories.

use second::generate::catalogue::{self, FAMILIES};
use second::generate::prng::Prng;

use super::lent::{Lent, Station};
use super::library::{self, NOTE, NOTHING, RECORD, UNIT};
use super::memories::{filled, Lengths};
use super::records::{commands, settings, Command, Record};

/// Captures of each family.
const EACH: u64 = 25;
/// Records that an array has room for.
const ROOMS: [usize; 5] = [1, 2, 3, 7, 64];

/// Why a call of events stopped.
#[derive(Default, Debug)]
pub struct Stops {
    /// Nothing waited, the array was full, a joined unit was given before it was.
    nothing: u64,
    full: u64,
    joined: u64,
    pub records: u64,
    /// Calls that gave more than one record.
    several: u64,
}

/// One call of next; its record.
fn next(station: &mut Station) -> Record {
    let mut record = [7; RECORD];
    assert_eq!(station.next(&mut record), 0);
    record
}

/// What so many calls of next give: until nothing waits, `room` records, or a joined unit.
fn by_next(station: &mut Station, room: usize, stops: &mut Stops) -> Vec<Record> {
    let mut records = Vec::new();
    while records.len() < room {
        let record = next(station);
        match (record[0], record[2]) {
            (NOTHING, _) => {
                stops.nothing += 1;
                return records;
            }
            (UNIT, 1) => {
                records.push(record);
                stops.joined += u64::from(records.len() < room);
                return records;
            }
            (NOTE | UNIT, 0) => records.push(record),
            other => panic!("no event: {other:?}"),
        }
    }
    stops.full += 1;
    records
}

/// One call of events in an array of `room` records and some words more, beside next on a copy; how many
/// records it gave.
pub fn once(station: &mut Station, rng: &mut Prng, room: usize, stops: &mut Stops) -> usize {
    let mut copy = station.clone();
    let words = room * RECORD + rng.pick(&[0, 0, 1, 12, RECORD - 1]);
    let mut due = Lent::<u64>::noise(rng, words);
    let mut array = due.clone();
    let records = by_next(&mut copy, room, stops);
    due.lend()[..records.len() * RECORD].copy_from_slice(&records.concat());
    let answer = station.events(array.lend());
    assert_eq!(answer, (0, records.len() as u64), "{room} records");
    assert!(array == due, "records, and the words behind them");
    assert!(
        station.is_guarded() && *station == copy,
        "state and memories"
    );
    stops.records += records.len() as u64;
    stops.several += u64::from(records.len() > 1);
    records.len()
}

/// Reads a capture by events, until a call gives nothing; a further one gives nothing again.
fn read(number: u64, room: Option<usize>, stops: &mut Stops) {
    let capture = catalogue::capture(number);
    let (packet, collecting) = filled(number, &capture, Lengths::Exact);
    let mut rng = Prng::new(number ^ 0xE7E7);
    let mut station = Station::new(&mut rng, (number % 3) as usize, &packet, &collecting);
    let mut started = false;
    for command in commands(&capture) {
        let answer = match command {
            Command::Start(operands) => {
                let answer = library::start(&settings(operands), station.state.lend());
                started |= answer == 0;
                answer
            }
            _ if !started => continue,
            Command::Frame(block) => station.frame(block),
            Command::LostFrame => station.lost_frame(),
            Command::Slot(data) => station.slot(data),
            Command::LostSlot => station.lost_slot(),
        };
        if answer != 0 {
            continue; // next gives nothing, or is refused with 22
        }
        let mut event = [7; RECORD];
        if station.clone().next(&mut event) != 0 {
            continue;
        }
        let mut count = 1;
        while count > 0 {
            let room = room.unwrap_or_else(|| rng.pick(&ROOMS));
            count = once(&mut station, &mut rng, room, stops);
        }
        assert_eq!(once(&mut station, &mut rng, 1, stops), 0);
    }
}

/// Captures of every family, each with one length of the array, and with one that changes.
#[test]
fn equal_next() {
    let mut all = Stops::default();
    for room in ROOMS.map(Some).into_iter().chain([None]) {
        for number in 0..EACH * FAMILIES.len() as u64 {
            read(number, room, &mut all);
        }
    }
    println!("{all:?}");
    assert!(all.nothing > 10_000 && all.full > 10_000 && all.joined > 1_000);
    assert!(all.records > 100_000 && all.several > 10_000);
}
