//! The calls, one by one, beside the second decoder's: over captures of every family, with refused calls
//! strewn in, and to the end also where the capture program would stop.

use second::generate::catalogue::{self, FAMILIES};
use second::generate::prng::Prng;

use super::memories::{filled, Lengths};
use super::pair::{Pair, Seen};
use super::records::{commands, settings, Command, Settings};
use super::strays::{bad_frame, stray};

/// Captures of each family.
const EACH: u64 = 200;
/// Bad frames before a frame, where refused calls are strewn in.
const BAD_FRAMES: usize = 12;

/// How a capture's calls are made.
#[derive(Clone, Copy)]
pub struct Manner {
    /// Refused calls before a call, in 100.
    pub strays: usize,
    /// Commands before nothing waits, in 100: their calls are refused.
    pub early: usize,
}

pub const PLAIN: Manner = Manner {
    strays: 0,
    early: 0,
};
pub const STREWN: Manner = Manner {
    strays: 10,
    early: 5,
};

/// A reading that can be stopped between two calls, copied, and gone on with.
#[derive(Clone)]
pub struct Reading<'a> {
    pub pair: Pair,
    pub commands: Vec<Command<'a>>,
    pub at: usize,
    rng: u64,
    manner: Manner,
    block: &'a [u8],
    pub settings: Settings,
}

impl<'a> Reading<'a> {
    pub fn new(number: u64, capture: &'a [u8], lengths: Lengths, manner: Manner) -> Self {
        let mut rng = Prng::new(number ^ 0x5EED);
        let more = [9, 0, 0][(number % 3) as usize];
        let memories = filled(number, capture, lengths);
        Reading {
            pair: Pair::new(format!("capture {number}"), &mut rng, more, memories),
            commands: commands(capture),
            at: 0,
            rng: number,
            manner,
            block: &[],
            settings: [0; 32],
        }
    }

    /// Makes one call, with refused ones before it; whether there was one to make.
    pub fn step(&mut self) -> bool {
        self.rng += 0x1_0000;
        let mut rng = Prng::new(self.rng);
        let started = self.pair.ours.is_some();
        while started && rng.chance(self.manner.strays, 100) {
            stray(&mut self.pair, &mut rng, self.block, &self.settings);
        }
        let early = rng.chance(self.manner.early, 100);
        if self.pair.owed && !early && self.pair.next(&mut rng).is_ok() {
            return true;
        }
        let Some(&command) = self.commands.get(self.at) else {
            return false;
        };
        if let (true, Command::Frame(block)) = (started && self.manner.strays > 0, command) {
            for _ in 0..BAD_FRAMES {
                bad_frame(&mut self.pair, &mut rng, block);
            }
        }
        let owed = self.pair.owed;
        let answer = self.pair.call(&command);
        match command {
            Command::Start(operands) if answer == 0 => self.settings = settings(operands),
            Command::Frame(block) if answer == 0 => self.block = block,
            _ => {}
        }
        // A command that came too early comes again once nothing waits.
        if !(early && owed && answer != 0) {
            self.at += 1;
        }
        true
    }

    pub fn read(&mut self) {
        while self.step() {}
    }
}

/// What captures came to.
#[derive(Default)]
struct Compared {
    calls: u64,
    units: u64,
    refused: u64,
    /// Captures that changed packet memory, and collecting memory.
    packet: u64,
    collecting: u64,
}

fn compare(number: u64, lengths: Lengths, manner: Manner, compared: &mut Compared) -> Seen {
    let capture = catalogue::capture(number);
    let mut reading = Reading::new(number, &capture, lengths, manner);
    let filling = filled(number, &capture, lengths);
    reading.read();
    let pair = reading.pair;
    compared.calls += pair.seen.iter().sum::<u64>();
    compared.refused += pair.seen[1..].iter().sum::<u64>();
    compared.units += pair.units;
    compared.packet += u64::from(pair.packet != filling.0);
    compared.collecting += u64::from(pair.collecting != filling.1);
    pair.seen
}

/// Compares captures of a family, most with memories just as long as it asks for.
fn compare_family(family: u64) -> Compared {
    let mut compared = Compared::default();
    for i in 0..EACH {
        let lengths = if i % 8 == 7 {
            Lengths::Longer
        } else {
            Lengths::Exact
        };
        let manner = if i % 2 == 0 { PLAIN } else { STREWN };
        let number = family + i * FAMILIES.len() as u64;
        compare(number, lengths, manner, &mut compared);
    }
    let Compared {
        calls,
        units,
        refused,
        packet,
        collecting,
    } = compared;
    let name = FAMILIES[family as usize];
    println!("{EACH} captures, {name}: {calls} calls, {refused} refused, {units} units");
    println!("    {packet} and {collecting} changed a memory");
    compared
}

/// Most captures of this family change packet memory, and many collecting memory.
fn reaches_memories(family: u64) {
    let compared = compare_family(family);
    assert!(compared.calls > 200 * EACH);
    assert!(compared.units > EACH);
    assert!(compared.packet > EACH / 2);
    assert!(compared.collecting > EACH / 4);
}

#[test]
fn undamaged() {
    reaches_memories(0);
}

#[test]
fn slots_and_frames_lost() {
    reaches_memories(1);
}

#[test]
fn packets_damaged() {
    reaches_memories(2);
}

#[test]
fn slots_damaged() {
    reaches_memories(3);
}

#[test]
fn commands_damaged() {
    reaches_memories(4);
}

#[test]
fn refusals() {
    assert!(compare_family(5).refused > EACH);
}

#[test]
fn joining_noise() {
    reaches_memories(6);
}

#[test]
fn slot_noise() {
    assert!(compare_family(7).calls > 100 * EACH);
}

#[test]
fn bytes() {
    assert!(compare_family(8).calls > EACH);
}

#[test]
fn boundaries_of_held_bytes() {
    assert!(compare_family(9).packet == EACH);
}

#[test]
fn packets_cut_at_every_byte() {
    assert!(compare_family(10).calls > 100 * EACH);
}

#[test]
fn holes_of_256_pieces() {
    reaches_memories(11);
}

#[test]
fn watch_lists() {
    reaches_memories(12);
}

#[test]
fn memories_too_short() {
    let mut compared = Compared::default();
    let mut seen = 0;
    for number in 0..10 * FAMILIES.len() as u64 {
        for lengths in [Lengths::PacketShort, Lengths::CollectingShort] {
            seen += compare(number, lengths, PLAIN, &mut compared)[22];
        }
    }
    println!("{} calls, {seen} refused with 22", compared.calls);
    assert!(seen > 10_000);
}

/// Every refusal of the receiver and of its linkage comes, and each often.
#[test]
fn every_refusal() {
    let mut all = [0; 256];
    let manner = Manner {
        strays: 60,
        early: 20,
    };
    let mut compared = Compared::default();
    for number in 0..10 * FAMILIES.len() as u64 {
        let seen = compare(number, Lengths::Exact, manner, &mut compared);
        for (sum, count) in all.iter_mut().zip(seen) {
            *sum += count;
        }
    }
    let due = [
        1, 2, 3, 4, 10, 11, 12, 13, 14, 20, 21, 22, 23, 90, 91, 92, 93,
    ];
    for number in due {
        println!("{number}: {}", all[number]);
        assert!(all[number] > 20, "{number}");
    }
    let known = all[0] + due.iter().map(|&number| all[number]).sum::<u64>();
    assert_eq!(known, all.iter().sum::<u64>());
}
