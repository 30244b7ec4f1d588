//! The second decoder's watch list: its answer for each packet_id, and where it collects, are those of a
//! search in the order given.

mod common;

use common::lists::{bytes, UNIT};
use common::lists::{every_order, frame_of, in_two, place, sets, some_orders, tried};
use common::{Read, Station};
use second::calls::start;
use second::generate::prng::Prng;
use second::generate::watching::List;
use second::packets::{Watch, MAX_IDS};
use second::slots::PACKET_MEMORY;

/// Every packet_id is looked for in many lists.
#[test]
fn every_packet_id() {
    for seed in 0..300 {
        let ids = List::random(&mut Prng::new(seed)).ids;
        let watch = Watch::new(&ids);
        for id in 0..=0xFFFF {
            assert_eq!(watch.place(id), place(&ids, id), "{id} in {ids:?}");
        }
    }
}

/// Reads a unit in two pieces of each id that is tried: those of watched ids come, and each stands where it is
/// due.
fn read(list: &List) {
    let mut rng = Prng::new(list.ids[0].into());
    let (n, ids) = (list.ids.len(), &list.ids);
    let all: [u16; MAX_IDS] = list.all().try_into().expect("16 ids");
    let receiver = start(1, 5, n as u8, &all, UNIT as u32).expect("a legal start");
    let mut station = Station {
        receiver,
        packet_memory: vec![0; PACKET_MEMORY],
        collecting: vec![0xAA; n * UNIT],
    };
    let tried = tried(&mut rng, list);
    let slots = in_two(&tried);
    let mut read = Read::default();
    assert_eq!(station.receiver.frame(&frame_of(&slots)), Ok(()));
    for (data, ..) in &slots {
        assert_eq!(station.slot(data), Ok(()));
        station.drain(&mut read);
    }
    let got: Vec<u16> = read.units.iter().map(|unit| unit.packet_id).collect();
    let watched = tried.into_iter().filter(|&id| place(ids, id).is_some());
    assert_eq!(got, watched.collect::<Vec<u16>>(), "{ids:?}");
    assert_eq!(read.notes, [], "{ids:?}");
    let due: Vec<u8> = ids.iter().flat_map(|&id| bytes(id)).collect();
    assert!(station.collecting == due, "{ids:?}");
}

#[test]
fn every_order_of_few_ids() {
    for n in 1..=5 {
        for ids in sets(n).iter().flat_map(|set| every_order(set)) {
            read(&List::of(&mut Prng::new(n as u64), &ids));
        }
    }
}

#[test]
fn many_orders_of_up_to_16() {
    let mut rng = Prng::new(16);
    for n in 6..=MAX_IDS {
        for set in sets(n) {
            for ids in some_orders(&mut rng, &set, 20) {
                read(&List::of(&mut rng, &ids));
            }
        }
    }
}

/// An id twice, at each two places: 2 among the first n, accepted where one of them or both stand behind.
#[test]
fn an_id_twice() {
    let mut rng = Prng::new(2);
    for n in 1..=MAX_IDS {
        for second in 1..MAX_IDS {
            for first in 0..second {
                let mut ids = sets(MAX_IDS)[(first + second) % 6].clone();
                rng.shuffle(&mut ids);
                ids[second] = ids[first];
                let all: [u16; MAX_IDS] = ids[..].try_into().expect("16 ids");
                let due = if second < n { Some(2) } else { None };
                let answer = start(1, 5, n as u8, &all, 1).err();
                assert_eq!(answer, due, "{first} and {second} of {n}");
            }
        }
    }
}
