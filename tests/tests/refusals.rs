//! Refusals: every number, in the table's order where several hold, and nothing changed.

mod common;

use common::{block, signalling, sixteen, station, tlv, Station};
use second::calls::{show, start, Event, Place, Unit};
use second::cutter::cut;
use second::packer::{pack, Head, Numbers};
use second::packets::UnitFields;

#[test]
fn start_in_order() {
    let twice = sixteen(&[7, 7]);
    let number = |n, ids: &[u16], cid, r| start(1, cid, n, &sixteen(ids), r).err();
    assert_eq!(number(0, &[7, 7], 4_096, 0), Some(1));
    assert_eq!(number(17, &[7, 7], 4_096, 0), Some(1));
    assert_eq!(start(1, 4_096, 2, &twice, 0).err(), Some(2));
    assert_eq!(number(1, &[7, 7], 4_096, 0), Some(3)); // the second 7 isn't among the first n
    assert_eq!(number(2, &[7, 8], 4_095, 0), Some(4));
    assert_eq!(number(2, &[7, 8], 4_095, 1_048_577), Some(4));
    assert_eq!(number(2, &[7, 8], 4_095, 1_048_576), None);
    let all: Vec<u16> = (0..16).collect();
    assert_eq!(number(16, &all, 0, 1), None);
    assert_eq!(number(16, &[&all[..15], &[3]].concat(), 0, 1), Some(2));
}

/// Makes a call that must be refused, and sees that nothing changed.
fn refused(station: &mut Station, due: u8, call: impl FnOnce(&mut Station) -> Result<(), u8>) {
    let state = format!("{:?}", station.receiver);
    let memories = (station.packet_memory.clone(), station.collecting.clone());
    assert_eq!(call(station), Err(due));
    assert_eq!(format!("{:?}", station.receiver), state);
    assert!((&station.packet_memory, &station.collecting) == (&memories.0, &memories.1));
}

/// Bad modes, no stream, no live slot: each fault of a frame that comes after the one asked for.
fn faulty(modes_ok: bool, stream_ok: bool) -> Vec<u8> {
    let mut block = block(&[(if modes_ok { 0x11 } else { 0x61 }, 120)]);
    block[633..693].fill(0x55); // relative stream 3 has no slot
    if !stream_ok {
        block[28] = 1;
    }
    block
}

#[test]
fn frame_in_order() {
    let mut station = station(&[7]);
    refused(&mut station, 10, |s| s.receiver.frame(&[0; 1_177]));
    refused(&mut station, 10, |s| s.receiver.frame(&[0; 1_179]));
    refused(&mut station, 12, |s| {
        s.receiver.frame(&faulty(false, false))
    });
    refused(&mut station, 13, |s| s.receiver.frame(&faulty(true, false)));
    refused(&mut station, 14, |s| s.receiver.frame(&faulty(true, true)));
    let mut twice = faulty(true, true);
    twice[25 + 9] = 2;
    twice[693 + 18..693 + 20].copy_from_slice(&[0, 1]);
    refused(&mut station, 13, |s| s.receiver.frame(&twice));
    // Dummy slots alone are no live slot.
    let mut dummies = faulty(true, true);
    dummies[633] = 0x53;
    refused(&mut station, 14, |s| s.receiver.frame(&dummies));
    assert_eq!(station.receiver.frame(&block(&[(0x11, 120)])), Ok(()));
    refused(&mut station, 10, |s| s.receiver.frame(&[]));
    refused(&mut station, 11, |s| {
        s.receiver.frame(&faulty(false, false))
    });
    refused(&mut station, 11, |s| s.receiver.lost_frame());
}

#[test]
fn next_owed() {
    let mut station = station(&[7]);
    assert_eq!(station.next(), Ok(Event::Nothing)); // nothing owed
    assert_eq!(station.receiver.lost_frame(), Ok(()));
    refused(&mut station, 11, |s| s.receiver.lost_frame());
    refused(&mut station, 11, |s| {
        s.receiver.frame(&faulty(false, false))
    });
    refused(&mut station, 20, |s| s.slot(&[]));
    assert_eq!(station.next(), Ok(Event::Nothing));
    assert_eq!(station.receiver.lost_frame(), Ok(()));
}

#[test]
fn slot_in_order() {
    let mut station = station(&[7]);
    let short = vec![0; 21_432];
    refused(&mut station, 20, |s| {
        s.receiver.slot(&[0], &mut short.clone(), &[])
    });
    assert_eq!(station.receiver.frame(&block(&[(0x11, 120)])), Ok(()));
    refused(&mut station, 22, |s| {
        s.receiver.slot(&[0], &mut short.clone(), &s.collecting)
    });
    refused(&mut station, 22, |s| {
        s.receiver.lost_slot(&s.packet_memory, &[0; 99])
    });
    refused(&mut station, 23, |s| s.slot(&[0; 1_869]));
    refused(&mut station, 23, |s| s.slot(&[]));
    assert_eq!(station.lost_slot(), Ok(()));
    refused(&mut station, 21, |s| s.receiver.lost_slot(&short, &[]));
    refused(&mut station, 22, |s| {
        s.receiver.next(&short, &mut [0; 100]).map(|_| ())
    });
    refused(&mut station, 22, |s| {
        s.receiver.next(&[0; 21_433], &mut [0; 99]).map(|_| ())
    });
    for slot in 2..=120 {
        assert_eq!(station.next(), Ok(Event::Nothing));
        // Slot 2 to 5 are dummies, slot 6 is live again.
        let wrong = if slot % 5 == 1 { 0 } else { 1_870 };
        refused(&mut station, 23, |s| s.slot(&vec![0; wrong]));
        assert_eq!(station.lost_slot(), Ok(()));
    }
    refused(&mut station, 20, |s| s.lost_slot()); // not 21, though next is owed
    assert_eq!(station.next(), Ok(Event::Nothing));
    refused(&mut station, 20, |s| s.lost_slot());
}

#[test]
fn other_streams_slots_are_only_counted() {
    let mut station = station(&[7]);
    let mut block = block(&[(0x31, 120)]);
    block[633] = 0x34; // slot 2 is another stream's
    block[153..157].copy_from_slice(&[0, 0, 0xFF, 0xFF]);
    assert_eq!(station.receiver.frame(&block), Ok(()));
    let tail = &tlv(0xFF, &[0; 3_000])[..1_870];
    assert_eq!(station.slot(tail), Ok(()));
    assert_eq!(station.next(), Ok(Event::Nothing));
    let before = station.packet_memory.clone();
    refused(&mut station, 23, |s| s.slot(&[]));
    assert_eq!(station.slot(&[0xFF; 1_870]), Ok(()));
    assert_eq!(station.next(), Ok(Event::Nothing));
    assert!(station.packet_memory == before);
    assert!(before[16_384..16_384 + 1_870] == *tail && before[..16_384].iter().all(|&b| b == 0));
}

#[test]
fn show_outside_is_empty() {
    let unit = |place| Unit {
        packet_id: 0,
        kind: 0,
        psn: 0,
        mpu: 0,
        fields: UnitFields::default(),
        place,
    };
    let (packet, collecting) = ([1, 2, 3], [4, 5]);
    let part = |place| show(&unit(place), &packet, &collecting);
    assert_eq!(part(Place::Packet { at: 1, len: 2 }), [2, 3]);
    assert_eq!(part(Place::Collecting { at: 0, len: 2 }), [4, 5]);
    assert_eq!(part(Place::Packet { at: 1, len: 3 }), []);
    assert_eq!(part(Place::Collecting { at: 3, len: 0 }), []);
    let far = usize::MAX;
    assert_eq!(part(Place::Collecting { at: far, len: 2 }), []);
}

#[test]
fn packer_in_order() {
    let head = |kind| Head {
        packet_id: 9,
        kind,
        mpu: 0,
        fields: UnitFields::default(),
    };
    let numbers = |cid| Numbers { cid, sn: 0, psn: 7 };
    let (long, mut none) = (vec![0; 65_536], [0xAA; 0]);
    let mut packed =
        |kind, len: usize, m, cid| pack(&head(kind), &long[..len], m, numbers(cid), &mut none);
    assert_eq!(packed(5, 65_536, 0, 4_096), Err(70));
    assert_eq!(packed(5, 65_536, 1_401, 4_096), Err(70));
    assert_eq!(packed(5, 65_536, 1, 4_096), Err(71));
    assert_eq!(packed(4, 65_536, 1, 4_096), Err(72));
    assert_eq!(packed(4, 65_535, 1, 4_096), Err(73));
    let mut out = [0xAA; 24];
    let sent = pack(&head(4), &[1, 2], 2, numbers(4_096), &mut out);
    assert_eq!((sent, out), (Err(74), [0xAA; 24]));
    let sent = pack(&head(4), &[1, 2], 2, numbers(5), &mut out[..22]);
    assert_eq!((sent, out), (Err(73), [0xAA; 24]));
    let sent = pack(&head(4), &[1, 2], 2, numbers(5), &mut out);
    assert_eq!((sent, out[23]), (Ok(23), 0xAA));
    assert_eq!(out[..23], signalling(9, 7, 0, 0, &[1, 2]));
}

#[test]
fn packed_pieces_byte_for_byte() {
    let head = Head {
        packet_id: 0x1234,
        kind: 2,
        mpu: 5,
        fields: UnitFields {
            fragment: 1,
            sample: 2,
            offset: 3,
            priority: 4,
            dependency: 6,
        },
    };
    let numbers = Numbers {
        cid: 0xABC,
        sn: 15,
        psn: u32::MAX,
    };
    let mut out = [0; 200];
    let len = pack(&head, b"abc", 2, numbers, &mut out).expect("a legal unit");
    let mfu = [0, 0, 0, 1, 0, 0, 0, 2, 0, 0, 0, 3, 4, 6];
    let first = [
        &[
            0x7F, 3, 0, 39, 0xAB, 0xCF, 0x61, 0, 0, 0x12, 0x34, 0, 0, 0, 0, 255, 255, 255, 255,
        ][..],
        &[0, 22, 0x2A, 1, 0, 0, 0, 5],
        &mfu,
        b"ab",
    ];
    let last = [
        &[
            0x7F, 3, 0, 38, 0xAB, 0xC0, 0x61, 0, 0, 0x12, 0x34, 0, 0, 0, 0, 0, 0, 0, 0,
        ][..],
        &[0, 21, 0x2E, 0, 0, 0, 0, 5],
        &mfu,
        b"c",
    ];
    assert_eq!(out[..len], [first.concat(), last.concat()].concat());
}

/// Counters fall to 0 modulo 256, FI 11 stands on the last piece alone, psn and SN rise: from the last
/// piece back to the first.
#[test]
fn packed_pieces_of_long_units() {
    let head = Head {
        packet_id: 9,
        kind: 4,
        mpu: 0,
        fields: UnitFields::default(),
    };
    let (cid, sn, first) = (5, 3, u32::MAX - 300);
    let numbers = Numbers {
        cid,
        sn,
        psn: first,
    };
    for pieces in [2, 255, 256, 257, 258, 300, 512, 513, 514, 65_535] {
        let unit: Vec<u8> = (0..pieces).map(|i| (i % 251) as u8).collect();
        let mut out = vec![0xAA; 22 * pieces + 1];
        let sent = pack(&head, &unit, 1, numbers, &mut out);
        assert_eq!((sent, out.pop()), (Ok(22 * pieces), Some(0xAA)));
        let (mut indicator, mut counter) = (3, 0u8);
        let mut psn = first.wrapping_add(pieces as u32);
        for (i, packet) in out.chunks_exact(22).enumerate().rev() {
            psn = psn.wrapping_sub(1);
            if i == 0 {
                indicator = 1;
            }
            let mut due = signalling(9, psn, indicator, counter, &unit[i..i + 1]);
            due[5] |= (3 + i) as u8 & 15;
            assert_eq!(packet, due, "piece {i} of {pieces}");
            (indicator, counter) = (2, counter.wrapping_add(1));
        }
        assert_eq!(psn, first);
    }
}

#[test]
fn cutter_in_order() {
    let run = tlv(0xFF, &vec![0; 1_866]);
    let mut bad = run.clone();
    bad[0] = 0x80;
    let mut out = vec![0xAA; 1_870];
    assert_eq!(cut(&bad, 1_871, 1, &mut []), Err(75));
    assert_eq!(cut(&run[..1_869], 1_871, 1, &mut []), Err(75));
    assert_eq!(cut(&run[..3], 1_870, 0, &mut out), Err(75));
    assert_eq!(cut(&run, 1_871, 1, &mut []), Err(76));
    assert_eq!(cut(&run, 0, 0, &mut []), Err(76));
    assert_eq!(cut(&run, 1_870, 1, &mut []), Err(77));
    assert_eq!(cut(&run, 1_870, usize::MAX, &mut []), Err(77));
    assert_eq!(cut(&[], 1_870, 0, &mut out), Err(77));
    assert_eq!(cut(&run, 1_870, 0, &mut out[1..]), Err(78));
    assert!(out.iter().all(|&byte| byte == 0xAA));
    assert_eq!(cut(&run, 1_870, 0, &mut out), Ok((0, 1_870)));
    assert!(out == run);
}

/// A bad first byte anywhere in the run is 75, also behind the slot that is asked for, and before the
/// other refusals.
#[test]
fn cutter_takes_7f_alone() {
    let totals = [100, 4, 1_766, 1_000, 870, 1_870];
    let mut run = Vec::new();
    let mut headers = Vec::new();
    for total in totals {
        headers.push(run.len());
        run.extend(tlv(0xFF, &vec![0; total - 4]));
    }
    assert_eq!((run.len(), headers[5]), (3 * 1_870, 2 * 1_870));
    for at in headers {
        for byte in 0..=255 {
            run[at] = byte;
            let mut out = vec![0xAA; 1_870];
            let (slot, length) = (cut(&run, 1_870, 0, &mut out), cut(&run, 1, 9, &mut []));
            if byte == 0x7F {
                assert_eq!((slot, length), (Ok((0, 1_870)), Err(76)));
                assert!(out == run[..1_870]);
            } else {
                assert_eq!((slot, length), (Err(75), Err(75)), "{byte:#x} at {at}");
                assert!(out.iter().all(|&byte| byte == 0xAA));
            }
        }
        run[at] = 0x7F;
    }
}

#[test]
fn cutter_pointers() {
    let run = tlv(0xFF, &vec![0; 2 * 1_870 - 4]);
    let mut out = vec![0; 1_870];
    assert_eq!(cut(&run, 1_870, 0, &mut out), Ok((0, 0xFFFF)));
    assert_eq!(cut(&run, 1_870, 1, &mut out), Ok((0xFFFF, 1_870)));
    let run = [tlv(0xFF, &[0; 3_734]), tlv(0xFF, &[0; 1_868])].concat();
    assert_eq!(cut(&run, 1_870, 0, &mut out), Ok((0, 0xFFFF)));
    assert_eq!(cut(&run, 1_870, 1, &mut out), Ok((1_868, 1_868)));
    assert_eq!(cut(&run, 1_870, 2, &mut out), Ok((0xFFFF, 1_870)));
    // A packet that ended just before the slot doesn't end in it.
    let run = [tlv(0xFF, &[0; 1_866]), tlv(0xFF, &[0; 3_736])].concat();
    assert_eq!(cut(&run, 1_870, 0, &mut out), Ok((0, 1_870)));
    assert_eq!(cut(&run, 1_870, 1, &mut out), Ok((0, 0xFFFF)));
    assert_eq!(cut(&run, 1_870, 2, &mut out), Ok((0xFFFF, 1_870)));
}
