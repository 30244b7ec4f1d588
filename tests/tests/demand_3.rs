//! Demand 3 as a property: what a damaged broadcast gives follows from the broadcast alone.

mod common;

use common::{read, read_with, Got, Station};
use second::generate::broadcast::{undamaged, Broadcast, Losses};
use second::generate::holes;
use second::generate::prng::Prng;
use second::generate::sender::Sent;
use second::generate::watching;

fn got(broadcast: &Broadcast, losses: &Losses) -> Vec<Got> {
    let sent = broadcast.surviving(losses);
    sent.into_iter().map(Got::from).collect()
}

#[test]
fn nothing_lost_gives_every_unit_and_no_note() {
    let mut units = 0;
    for seed in 0..150 {
        let broadcast = undamaged(seed, 3);
        let none = Losses::none(broadcast.frames.len());
        let reading = read(&broadcast, &none);
        assert_eq!(reading.notes, [], "seed {seed}");
        assert!(reading.units == got(&broadcast, &none), "seed {seed}");
        assert_eq!(reading.units.len(), broadcast.units.len());
        units += reading.units.len();
    }
    assert!(units > 10_000, "{units}");
}

/// How units fared under losses.
#[derive(Default)]
struct Fared {
    removed: usize,
    kept: usize,
    /// Kept, though slots between their packets were lost.
    bridged: usize,
    notes: usize,
}

fn compare(broadcast: &Broadcast, losses: &Losses, fared: &mut Fared, seed: u64) {
    let mut rng = Prng::new(seed);
    let reading = read_with(broadcast, losses, rng.byte(), |station| {
        if rng.chance(1, 20) {
            refused_call(&mut rng, station);
        }
    });
    let due = got(broadcast, losses);
    assert!(reading.units == due, "seed {seed}");
    fared.kept += due.len();
    fared.removed += broadcast.units.len() - due.len();
    fared.notes += reading.notes.len();
    for unit in broadcast.surviving(losses) {
        let ends = [unit.carriers[0], unit.carriers[unit.carriers.len() - 1]];
        let span = broadcast.packets[ends[0]].start..broadcast.packets[ends[1]].end;
        fared.bridged += usize::from(broadcast.own.iter().any(|own| {
            let inside = span.start < own.row.start && own.row.end < span.end;
            inside && losses.lost(own.frame, own.slot)
        }));
    }
}

/// A call that is refused in every state in which the readings make it.
fn refused_call(rng: &mut Prng, station: &mut Station) {
    let memory = station.packet_memory.clone();
    match rng.below(4) {
        0 => assert_eq!(station.receiver.frame(&[0; 1_177]), Err(10)),
        1 => {
            let short = &memory[..memory.len() - 1];
            let answer = station.receiver.next(short, &mut station.collecting);
            assert_eq!(answer, Err(22));
        }
        2 => {
            let answer = station.slot(&[0; 5_050]);
            assert!(matches!(answer, Err(20 | 21 | 23)));
        }
        _ => {
            let all = station.collecting.clone();
            let short = &all[..all.len() - 1];
            let answer = station.receiver.lost_slot(&memory, short);
            assert!(matches!(answer, Err(20..=22)));
        }
    }
    assert!(station.packet_memory == memory);
}

#[test]
fn losses_remove_exactly_the_units_they_hit() {
    let mut fared = Fared::default();
    for seed in 0..600 {
        let broadcast = undamaged(seed, 4);
        let mut rng = Prng::new(seed ^ 0x10);
        for round in 0..4 {
            let losses = Losses::random(&mut rng, broadcast.frames.len());
            compare(&broadcast, &losses, &mut fared, 4 * seed + round);
        }
    }
    let Fared {
        removed,
        kept,
        bridged,
        notes,
    } = fared;
    println!(
        "{removed} units removed, {kept} kept, {bridged} of them over lost slots, {notes} notes"
    );
    assert!(removed > 10_000 && kept > 10_000 && bridged > 500 && notes > 1_000);
}

/// Also where 256 pieces of a unit are lost, over which its counters fit.
#[test]
fn holes_in_long_units() {
    let mut fared = Fared::default();
    let (mut long, mut torn) = (0, 0);
    for seed in 0..200 {
        let (broadcast, losses) = holes::broadcast(seed);
        compare(&broadcast, &losses, &mut fared, seed);
        let is_long = |unit: &&Sent| unit.carriers.len() > 256;
        let sent = broadcast.units.iter().filter(is_long).count();
        let left = broadcast.surviving(&losses);
        let left = left.into_iter().filter(is_long).count();
        long += left;
        torn += sent - left;
    }
    println!("{long} units of more than 256 pieces kept, {torn} removed");
    assert!(long > 100 && torn > 200 && fared.notes > 1_000);
}

/// Also for watch lists of every length and order, with many packets beside that are not watched; there are
/// no units but those that were sent, each for its own packet_id.
#[test]
fn watch_lists_of_every_order() {
    let (mut fared, mut mixed) = (Fared::default(), 0);
    for seed in 0..300 {
        let (broadcast, list) = watching::broadcast(seed);
        let none = Losses::none(broadcast.frames.len());
        assert_eq!(read(&broadcast, &none).notes, [], "seed {seed}");
        compare(&broadcast, &none, &mut fared, seed);
        let mut rng = Prng::new(seed ^ 0x11);
        for round in 0..2 {
            let losses = Losses::random(&mut rng, broadcast.frames.len());
            compare(&broadcast, &losses, &mut fared, 2 * seed + round);
        }
        mixed += u64::from(!list.ids.is_sorted());
    }
    let Fared { removed, kept, .. } = fared;
    println!("{removed} units removed, {kept} kept, {mixed} lists not in rising order");
    assert!(removed > 1_000 && kept > 10_000 && mixed > 100);
}

#[test]
fn every_subset_of_few_slots() {
    let (mut broadcasts, mut fared) = (0, Fared::default());
    for seed in 0.. {
        let broadcast = undamaged(seed, 2);
        let own = &broadcast.own;
        if !(3..=7).contains(&own.len()) || broadcast.units.is_empty() {
            continue;
        }
        for subset in 0..1u64 << own.len() {
            let mut losses = Losses::none(broadcast.frames.len());
            for (i, slot) in own.iter().enumerate() {
                losses.slots[slot.frame][slot.slot] = subset >> i & 1 == 1;
            }
            compare(&broadcast, &losses, &mut fared, seed ^ subset << 32);
        }
        broadcasts += 1;
        if broadcasts == 20 {
            break;
        }
    }
    println!("{} units removed, {} kept", fared.removed, fared.kept);
    assert!(fared.removed > 1_000 && fared.kept > 1_000);
}
