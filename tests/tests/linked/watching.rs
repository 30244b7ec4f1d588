//! Watch lists of every length, in many orders: which packet_ids are read, and where each collects, is written
//! out by a search in the order given, and compared with both decoders.

use second::generate::prng::Prng;
use second::generate::watching::List;
use second::packets::MAX_IDS;
use second::slots::PACKET_MEMORY;

use super::cases::{drain, words};
use super::common::cut_padded;
use super::common::lists::{bytes, every_order, frame_of, in_two, operands, place, psn, sets};
use super::common::lists::{some_orders, tried, UNIT};
use super::common::signalling;
use super::pair::Pair;
use super::records::{Command, Record};

/// Ids of which every order is tried, at most; and mixed orders of more.
const FEW: usize = 7;
const MIXED: usize = 30;

/// Both receivers, not yet started, with memories for a list of `n` ids and R.
fn pair(name: String, rng: &mut Prng, n: usize, joined_max: usize) -> Pair {
    let memories = (rng.bytes(PACKET_MEMORY), rng.bytes(n * joined_max));
    Pair::new(name, rng, n % 3, memories)
}

/// What both give of these slots, in as many frames as it takes.
fn records(pair: &mut Pair, rng: &mut Prng, slots: &[(Vec<u8>, u16, u16)]) -> Vec<Record> {
    let mut records = Vec::new();
    for slots in slots.chunks(120) {
        assert_eq!(pair.call(&Command::Frame(&frame_of(slots))), 0);
        for (data, ..) in slots {
            assert_eq!(pair.call(&Command::Slot(data)), 0);
            drain(pair, rng, &mut records);
        }
    }
    records
}

/// Reads a unit in two pieces of each id that is tried. Those that are watched come, in order; the one at
/// place k of the order given stands from k × R on, and no other byte of collecting memory is written.
fn read(list: &List, rng: &mut Prng) {
    let (ids, n) = (&list.ids, list.ids.len());
    let joined_max = rng.pick(&[UNIT, UNIT, UNIT, UNIT + 1, 100]);
    let mut pair = pair(format!("{ids:?}"), rng, n, joined_max);
    let start = operands(n as u8, &list.all(), joined_max as u32);
    assert_eq!(pair.call(&Command::Start(&start)), 0);
    let mut collecting = pair.collecting.clone();
    let (mut due, tried) = (Vec::new(), tried(rng, list));
    for &id in &tried {
        let Some(k) = place(ids, id) else {
            continue;
        };
        let at = k * joined_max;
        collecting[at..at + UNIT].copy_from_slice(&bytes(id));
        let [at, len] = [at, UNIT].map(|word| word as u64);
        due.push(words(&[2, 0, 1, at, len, id.into(), 4, psn(id).into()]));
    }
    assert_eq!(due.len(), n, "{ids:?}");
    let slots = in_two(&tried);
    assert_eq!(records(&mut pair, rng, &slots), due, "{ids:?}");
    assert!(*pair.theirs.collecting.get() == collecting, "{ids:?}");
}

/// Every order of up to 7 ids, of each set.
#[test]
fn every_order_of_few_ids() {
    let (mut rng, mut lists) = (Prng::new(6), 0);
    for n in 1..=FEW {
        for ids in sets(n).iter().flat_map(|set| every_order(set)) {
            read(&List::of(&mut rng, &ids), &mut rng);
            lists += 1;
        }
    }
    println!("{lists} lists");
    assert_eq!(lists, 6 * (1 + 2 + 6 + 24 + 120 + 720 + 5_040));
}

/// Rising, falling, rotated, with one id moved or two changed over, and mixed, of each set.
#[test]
fn many_orders_of_up_to_16() {
    let (mut rng, mut lists) = (Prng::new(16), 0);
    for n in FEW + 1..=MAX_IDS {
        for set in sets(n) {
            for ids in some_orders(&mut rng, &set, MIXED) {
                read(&List::of(&mut rng, &ids), &mut rng);
                lists += 1;
            }
        }
    }
    println!("{lists} lists");
    assert!(lists > 10_000);
}

/// Lists as the generator makes them.
#[test]
fn any_lists() {
    for seed in 0..1_000 {
        let mut rng = Prng::new(seed);
        read(&List::random(&mut rng), &mut rng);
    }
}

/// A whole unit of each of the 65,536 packet_ids: those that are watched come, and no other.
#[test]
fn every_packet_id() {
    let packets: Vec<Vec<u8>> = (0..=0xFFFF)
        .map(|id| signalling(id, 7, 0, 0, b""))
        .collect();
    let slots = cut_padded(&packets);
    let mut rng = Prng::new(0xFFFF);
    for n in [1, 2, 15, 16] {
        for mut ids in sets(n) {
            rng.shuffle(&mut ids);
            let list = List::of(&mut rng, &ids);
            let mut pair = pair(format!("{ids:?}"), &mut rng, n, 1);
            let start = operands(n as u8, &list.all(), 1);
            assert_eq!(pair.call(&Command::Start(&start)), 0);
            let given = records(&mut pair, &mut rng, &slots);
            let given: Vec<u64> = given.iter().map(|record| record[5]).collect();
            ids.sort_unstable();
            assert!(given.into_iter().eq(ids.iter().map(|&id| id.into())));
        }
    }
}

/// An id twice, at each two places: 2 among the first n, and the receiver that runs stays as it was. Where one
/// of them or both stand behind n, start accepts them, and the first n alone are watched.
#[test]
fn an_id_twice() {
    let (mut rng, mut refused) = (Prng::new(2), 0);
    for n in 1..=MAX_IDS {
        let mut running = pair(format!("twice of {n}"), &mut rng, MAX_IDS, 1);
        let start = operands(16, &sets(MAX_IDS)[0], 1);
        assert_eq!(running.call(&Command::Start(&start)), 0);
        for second in 1..MAX_IDS {
            for first in 0..second {
                let mut ids = rng.pick(&sets(MAX_IDS).each_ref()).clone();
                rng.shuffle(&mut ids);
                ids[second] = ids[first];
                if second < n {
                    let start = operands(n as u8, &ids, 1);
                    assert_eq!(running.call(&Command::Start(&start)), 2, "{n} of {ids:?}");
                    refused += 1;
                } else {
                    let (ids, behind) = ids.split_at(n);
                    let (ids, behind) = (ids.to_vec(), behind.to_vec());
                    read(&List { ids, behind }, &mut rng);
                }
            }
        }
    }
    assert_eq!(refused, 680);
}

/// No list is empty or of more than 16: 1, whatever ids there are; 1 comes before 2.
#[test]
fn of_no_length() {
    let mut rng = Prng::new(1);
    let mut running = pair("of no length".into(), &mut rng, MAX_IDS, 1);
    for n in (0..=255).filter(|n| !(1..=16).contains(n)) {
        for ids in sets(MAX_IDS).into_iter().chain([vec![7; MAX_IDS]]) {
            let start = operands(n, &ids, 1);
            assert_eq!(running.call(&Command::Start(&start)), 1, "{n}");
        }
    }
}
