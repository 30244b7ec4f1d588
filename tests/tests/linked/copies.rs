//! States that are copied and resumed: a copy of state and both memories goes on as the original does.

use second::generate::catalogue::{self, FAMILIES};
use second::generate::prng::Prng;

use super::calls::{Reading, PLAIN, STREWN};
use super::lent::Station;
use super::library::{self, SETTINGS, STATE};
use super::memories::Lengths;
use super::pair::Seen;

/// Captures of each family.
const EACH: u64 = 40;

/// Reads on to the end; what came of it.
fn ended(mut reading: Reading) -> (Seen, u64, Station) {
    reading.read();
    let pair = reading.pair;
    (pair.seen, pair.units, pair.theirs)
}

/// Each capture is stopped between two calls anywhere, also while next is owed. The copy goes on first,
/// then the original; both beside the second decoder, and with the same answers, state and memories.
#[test]
fn resumed() {
    let (mut units, mut owed, mut later) = (0, 0, 0);
    for number in 0..EACH * FAMILIES.len() as u64 {
        let capture = catalogue::capture(number);
        let manner = if number % 2 == 0 { PLAIN } else { STREWN };
        let mut reading = Reading::new(number, &capture, Lengths::Exact, manner);
        let mut rng = Prng::new(number ^ 0xC0B1);
        for _ in 0..rng.pick(&[1, 2, 30, 150, 300, 600]) {
            if !reading.step() {
                break;
            }
        }
        let before = reading.pair.units;
        owed += u64::from(reading.pair.owed);
        let copy = ended(reading.clone());
        let original = ended(reading);
        assert!(copy.0 == original.0, "capture {number}: answers");
        assert!(copy.1 == original.1, "capture {number}: units");
        assert!(copy.2 == original.2, "capture {number}: state and memories");
        units += original.1 - before;
        later += u64::from(original.1 > before);
    }
    println!("{owed} copied while next was owed; {later} gave {units} units behind the copy");
    assert!(owed > 60 && later > 100 && units > 10_000);
}

/// One receiver's calls say nothing about another's: two captures read in turn, call by call.
#[test]
fn two_in_turn() {
    for number in 0..2 * FAMILIES.len() as u64 {
        let captures = [number, number + 1].map(catalogue::capture);
        let readings = |k: usize| {
            let number = number + k as u64;
            Reading::new(number, &captures[k], Lengths::Exact, PLAIN)
        };
        let (mut one, mut other) = (readings(0), readings(1));
        let alone = [ended(readings(0)), ended(readings(1))];
        while one.step() | other.step() {}
        assert!(alone[0] == ended(one), "capture {number}");
        assert!(alone[1] == ended(other), "capture {}", number + 1);
    }
}

/// An accepted start leaves the same 751 words whatever stood there; those behind stay.
#[test]
fn started_over_anything() {
    let mut settings = [0; SETTINGS];
    settings[..6].copy_from_slice(&[1, 5, 2, 100, 7, 9]);
    let mut clean = vec![0; STATE];
    assert_eq!(library::start(&settings, &mut clean), 0);
    for number in 0..100 {
        let mut rng = Prng::new(number);
        let mut station = Station::noise(&mut rng, (number % 3) as usize, 200);
        let before = station.clone();
        assert_eq!(library::start(&settings, station.state.lend()), 0);
        assert!(station.is_guarded());
        assert!(station.state.get()[..STATE] == clean, "{number}");
        assert!(station.state.get()[STATE..] == before.state.get()[STATE..]);
    }
    for number in 0..FAMILIES.len() as u64 {
        let capture = catalogue::capture(number);
        let mut reading = Reading::new(number, &capture, Lengths::Exact, PLAIN);
        for _ in 0..200 {
            reading.step();
        }
        let state = reading.pair.theirs.state.lend();
        assert_eq!(library::start(&settings, state), 0);
        assert!(state[..STATE] == clean, "capture {number}");
    }
}
