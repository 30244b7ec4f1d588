//! Counters modulo 256: which are read, which follow each other, units of more than 256 pieces, and holes in
//! them that the counter alone does not show.

use super::common::{
    bytes_of, cut_padded, feed, in_pieces, mpu, read_packets, signalling, station, Got, Read,
};
use super::mfu;
use second::packets::{read, Reading, UnitFields, Watch};

/// A packet of any kind, with fields where the kind has them.
fn packet(kind: u8, psn: u32, indicator: u8, counter: u8, bytes: &[u8]) -> Vec<u8> {
    let mpu = |type_and_timed: u8, after: &[u8]| {
        mpu(9, psn, type_and_timed | indicator << 1, counter, 3, after)
    };
    match kind {
        2 => mpu(0x28, &mfu(1, 2, bytes)),
        3 => mpu(0x20, &[&[0, 0, 0, 5], bytes].concat()),
        4 => signalling(9, psn, indicator, counter, bytes),
        _ => mpu(kind << 4, bytes),
    }
}

/// The unit that such packets give.
fn unit(kind: u8, psn: u32, bytes: &[u8]) -> Got {
    let (fragment, sample) = [(0, 0), (0, 0), (1, 2), (5, 0), (0, 0)][usize::from(kind)];
    Got {
        packet_id: 9,
        kind,
        psn,
        mpu: if kind == 4 { 0 } else { 3 },
        fields: UnitFields {
            fragment,
            sample,
            ..UnitFields::default()
        },
        bytes: bytes.to_vec(),
    }
}

#[test]
fn only_a_last_piece_must_have_0() {
    let watch = Watch::new(&[9]);
    for kind in 0..5 {
        for counter in 0..=255 {
            for indicator in 0..3 {
                let reading = read(&packet(kind, 1, indicator, counter, b"a"), 5, &watch);
                let Reading::Good(good) = reading else {
                    panic!("kind {kind}, FI {indicator}, counter {counter}: {reading:?}");
                };
                let due = (kind, indicator, counter);
                assert_eq!((good.kind, good.indicator, good.counter), due);
            }
            let last = read(&packet(kind, 1, 3, counter, b"a"), 5, &watch);
            let bad = last == Reading::BadPayload(0);
            assert_eq!(bad, counter != 0, "kind {kind}, FI 3, counter {counter}");
        }
    }
}

/// Every counter after every other one. A whole unit comes behind the two pieces: where the second one
/// agrees, it finds the unit open, 61.
#[test]
fn a_middle_piece_is_one_lower() {
    for open in 0..=255u8 {
        let (mut packets, mut due) = (Vec::new(), Vec::new());
        for (psn, counter) in (0..).step_by(3).zip(0..=255u8) {
            packets.extend([
                signalling(9, psn, 1, open, b""),
                signalling(9, psn + 1, 2, counter, b""),
                signalling(9, psn + 2, 0, 0, b""),
            ]);
            let one_lower = if open == 0 { 255 } else { open - 1 };
            due.push(if counter == one_lower { 61 } else { 63 });
        }
        let got = read_packets(&[9], &packets);
        assert_eq!((got.numbers(), got.units.len()), (due, 256), "{open}");
    }
}

#[test]
fn a_last_piece_comes_after_1() {
    for open in 0..=255 {
        let first = signalling(9, 1, 1, open, b"a");
        let got = read_packets(&[9], &[first, signalling(9, 2, 3, 0, b"b")]);
        let due = if open == 1 {
            (vec![], vec![unit(4, 1, b"ab")])
        } else {
            (vec![63], vec![])
        };
        assert_eq!((got.numbers(), got.units), due, "{open}");
    }
}

/// Also where a first piece has 0, and middle ones have it, which end nothing.
#[test]
fn units_of_many_pieces() {
    let psn = u32::MAX - 280;
    for kind in 0..5 {
        for count in [256, 257, 258, 300, 512, 513, 514, 600] {
            let mut packets = in_pieces(count, psn, |psn, indicator, counter, bytes| {
                packet(kind, psn, indicator, counter, bytes)
            });
            let next = psn.wrapping_add(count as u32);
            packets.push(packet(kind, next, 0, 0, b"next"));
            let got = read_packets(&[9], &packets);
            let due = [
                unit(kind, psn, &bytes_of(0..count)),
                unit(kind, next, b"next"),
            ];
            assert_eq!(got.notes, [], "kind {kind}, {count} pieces");
            assert_eq!(got.units, due, "kind {kind}, {count} pieces");
        }
    }
}

/// The receiver doesn't count the pieces: more than a packer sends, nearly all of them empty.
#[test]
fn a_unit_of_very_many_pieces() {
    let count = 257 * 256 + 1;
    let packets = in_pieces(count, 0, |psn, indicator, counter, _| {
        let bytes: &[u8] = if indicator == 2 { b"" } else { b"a" };
        signalling(9, psn, indicator, counter, bytes)
    });
    let got = read_packets(&[9], &packets);
    assert_eq!(
        (got.numbers(), got.units),
        (vec![], vec![unit(4, 0, b"aa")])
    );
}

/// A unit of 600 pieces from psn 5 on.
fn long() -> Vec<Vec<u8>> {
    in_pieces(600, 5, |psn, indicator, counter, bytes| {
        signalling(9, psn, indicator, counter, bytes)
    })
}

/// FI and counter of a packet of such a unit.
fn head(packet: &[u8]) -> (u8, u8) {
    (packet[19] >> 6, packet[20])
}

/// What follows the unit: a whole one, and one in pieces.
fn behind() -> (Vec<Vec<u8>>, Vec<Got>) {
    let packets = vec![
        signalling(9, 605, 0, 0, b"whole"),
        signalling(9, 606, 1, 1, b"a"),
        signalling(9, 607, 3, 0, b"b"),
    ];
    (packets, vec![unit(4, 605, b"whole"), unit(4, 606, b"ab")])
}

/// Wherever 256 pieces are gone, counters go on over the hole; the psn shows it.
#[test]
fn a_hole_of_256_pieces() {
    let (packets, due) = behind();
    for from in 1..=600 - 257 {
        let mut left = long();
        left.drain(from..from + 256);
        let (before, after) = (head(&left[from - 1]), head(&left[from]));
        assert_eq!(before.1, after.1.wrapping_add(1), "the counter fits");
        assert!(matches!((before.0, after.0), (1 | 2, 2 | 3)));
        let got = read_packets(&[9], &[left, packets.clone()].concat());
        assert_eq!((got.numbers(), &got.units), (vec![60], &due), "{from}");
    }
}

/// The same where the counters don't fit, and where the hole has the first piece or the last.
#[test]
fn other_holes() {
    let (packets, due) = behind();
    let idle = signalling(9, 4, 0, 0, b"before");
    for hole in [
        100..101,
        100..355,
        100..357,
        1..599,
        0..256,
        344..600,
        0..600,
    ] {
        let mut left = long();
        left.drain(hole.clone());
        left.insert(0, idle.clone());
        let got = read_packets(&[9], &[left, packets.clone()].concat());
        assert_eq!(got.numbers(), [60], "{hole:?}");
        assert_eq!(got.units[0], unit(4, 4, b"before"), "{hole:?}");
        assert_eq!(got.units[1..], due, "{hole:?}");
    }
}

/// A loss of any multiple of 256 pieces that a psn can tell; 4,294,967,296 would be none.
#[test]
fn holes_of_many_times_256_pieces() {
    for hole in (8..32).map(|bit| 1u32 << bit).chain([0xFFFF_FF00]) {
        for (indicator, counter) in [(2, 0u8), (3, 0), (2, 255)] {
            let first = signalling(9, 7, 1, counter.wrapping_add(1), b"a");
            let behind = 8u32.wrapping_add(hole);
            let got = read_packets(
                &[9],
                &[
                    first,
                    signalling(9, behind, indicator, counter, b"b"),
                    signalling(9, behind.wrapping_add(1), 0, 0, b"next"),
                ],
            );
            let next = unit(4, behind.wrapping_add(1), b"next");
            assert_eq!((got.numbers(), got.units), (vec![60], vec![next]), "{hole}");
        }
    }
}

/// Pieces that the sender left out, its psn going on: with 256 of them all agrees, and this is no loss.
#[test]
fn pieces_that_were_never_sent() {
    for (gone, notes) in [(255, vec![63]), (256, vec![]), (257, vec![63])] {
        let mut left = long();
        left.drain(100..100 + gone);
        for (packet, psn) in left.iter_mut().zip(5u32..) {
            packet[15..19].copy_from_slice(&psn.to_be_bytes());
        }
        let got = read_packets(&[9], &left);
        let bytes = [bytes_of(0..100), bytes_of(356..600)].concat();
        let due = if notes.is_empty() {
            vec![unit(4, 5, &bytes)]
        } else {
            vec![]
        };
        assert_eq!((got.numbers(), got.units), (notes, due), "{gone}");
    }
}

/// The 256 pieces stand in lost slots. Nothing of another packet_id's open unit is lost, and it comes out.
#[test]
fn slots_with_256_pieces_lost() {
    let pieces = long();
    let other = |psn, indicator, counter| signalling(7, psn, indicator, counter, b"x");
    let (packets, due) = behind();
    let (mut station, mut got) = (station(&[7, 9]), Read::default());
    let mut give = |packets: &[Vec<u8>], lost: bool| {
        for (data, top, last) in cut_padded(packets) {
            if lost {
                assert_eq!(station.receiver.lost_frame(), Ok(()));
                station.drain(&mut got);
            } else {
                feed(&mut station, &data, top, last, &mut got);
            }
        }
    };
    give(&[&pieces[..70], &[other(1, 1, 1)]].concat(), false);
    give(&pieces[70..326], true);
    give(
        &[&[other(2, 3, 0)], &pieces[326..], &packets].concat(),
        false,
    );
    assert_eq!(got.notes, [(40, None), (60, Some(9))]);
    let [first, rest @ ..] = &got.units[..] else {
        panic!("no unit");
    };
    assert_eq!((first.packet_id, &first.bytes[..]), (7, &b"xx"[..]));
    assert_eq!(rest, due);
}
