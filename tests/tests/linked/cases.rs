//! Hand-made cases: packets of every kind, whole, aggregated and joined, and every note, with their records
//! written out.

use second::control_block::BLOCK_LEN;
use second::generate::commands::start;
use second::generate::prng::Prng;
use second::generate::sender::Config;

use super::common::{block, bytes_of, cut_padded, flow, in_pieces, mmtp, mpu, signalling, tlv};
use super::library::{NOTHING, RECORD};
use super::pair::Pair;
use super::records::{Command, Record};

/// Where the first packet's MMTP payload bytes start in packet memory, behind TLV, flow and MMTP headers.
const PAYLOAD: u64 = 16_384 + 4 + 3 + 12;
/// Behind a signalling header, and behind an MPU header.
const SIGNALLING: u64 = PAYLOAD + 2;
const MPU: u64 = PAYLOAD + 8;
/// Movie fragment number 1, sample 2, offset 3, priority 4, dependency 5.
const FIELDS: [u8; 14] = [0, 0, 0, 1, 0, 0, 0, 2, 0, 0, 0, 3, 4, 5];

/// No record.
const SILENT: [Record; 0] = [];

/// Both receivers for stream 1, CID 5, packet_ids 7 and 9, R 100.
fn pair() -> Pair {
    let mut rng = Prng::new(7);
    let memories = (rng.bytes(21_433), rng.bytes(200));
    let mut pair = Pair::new("by hand".into(), &mut rng, 2, memories);
    let start = start(&Config {
        stream_id: 1,
        cid: 5,
        ids: vec![7, 9],
        joined_max: 100,
    });
    assert_eq!(pair.call(&Command::Start(&start[1..])), 0);
    pair
}

/// A frame of BPSK 1/3 whose slot 1 alone is own, with these pointers.
fn frame(top: u16, last: u16) -> Vec<u8> {
    let mut block = block(&[(0x11, 120)]);
    block[633..693].fill(0x44);
    block[633] = 0x34;
    block[153..155].copy_from_slice(&top.to_be_bytes());
    block[155..157].copy_from_slice(&last.to_be_bytes());
    assert_eq!(block.len(), BLOCK_LEN);
    block
}

/// The records until nothing waits.
pub fn drain(pair: &mut Pair, rng: &mut Prng, records: &mut Vec<Record>) {
    loop {
        let record = pair.next(rng).expect("the memories suffice");
        if record[0] == NOTHING {
            assert_eq!(record, [0; RECORD]);
            return;
        }
        records.push(record);
    }
}

/// Gives an own slot, lost where there is no data, in a frame of its own; the records of it.
fn give(pair: &mut Pair, data: Option<&[u8]>, top: u16, last: u16) -> Vec<Record> {
    let mut rng = Prng::new(8);
    let mut records = Vec::new();
    assert_eq!(pair.call(&Command::Frame(&frame(top, last))), 0);
    let first = data.map_or(Command::LostSlot, Command::Slot);
    assert_eq!(pair.call(&first), 0);
    drain(pair, &mut rng, &mut records);
    for _ in 1..120 {
        assert_eq!(pair.call(&Command::LostSlot), 0);
        drain(pair, &mut rng, &mut records);
    }
    records
}

/// The records of these packets, in slots of 1,870 bytes that a null packet fills up.
fn records(packets: &[Vec<u8>]) -> Vec<Record> {
    let mut pair = pair();
    let slots = cut_padded(packets);
    let give = |(data, top, last): &(Vec<u8>, u16, u16)| give(&mut pair, Some(data), *top, *last);
    slots.iter().flat_map(give).collect()
}

/// A record of these words, and 0 behind them.
pub fn words(first: &[u64]) -> Record {
    let mut record = [0; RECORD];
    record[..first.len()].copy_from_slice(first);
    record
}

fn note(number: u64, id: u64) -> Record {
    words(&[1, number, 0, 0, 0, id])
}

#[test]
fn whole_units_of_each_kind() {
    let one = |packet: Vec<u8>| records(&[packet]);
    let shown = one(signalling(7, 5, 0, 0, b"abc"));
    assert_eq!(shown, [words(&[2, 0, 0, SIGNALLING, 3, 7, 4, 5])]);
    let shown = one(signalling(9, u32::MAX, 0, 0, b""));
    assert_eq!(shown, [words(&[2, 0, 0, SIGNALLING, 0, 9, 4, 0xFFFF_FFFF])]);
    for kind in [0, 1] {
        let shown = one(mpu(7, 5, kind << 4, 0, 66, b"abcd"));
        assert_eq!(shown, [words(&[2, 0, 0, MPU, 4, 7, kind.into(), 5, 66])]);
    }
    let shown = one(mpu(7, 5, 0x28, 0, 66, &[&FIELDS[..], b"ab"].concat()));
    let timed = words(&[2, 0, 0, MPU + 14, 2, 7, 2, 5, 66, 1, 2, 3, 4, 5]);
    assert_eq!(shown, [timed]);
    let shown = one(mpu(7, 5, 0x20, 0, 66, b"\0\0\x01\0ab"));
    let item = words(&[2, 0, 0, MPU + 4, 2, 7, 3, 5, 66, 0, 0, 0, 0, 0, 256]);
    assert_eq!(shown, [item]);
}

#[test]
fn aggregated_units() {
    let shown = records(&[mpu(
        7,
        5,
        0x21,
        0,
        66,
        b"\0\x06\0\0\0\x01ab\0\x04\0\0\0\x02",
    )]);
    let first = words(&[2, 0, 0, MPU + 6, 2, 7, 3, 5, 66, 0, 0, 0, 0, 0, 1]);
    let second = words(&[2, 0, 0, MPU + 14, 0, 7, 3, 5, 66, 0, 0, 0, 0, 0, 2]);
    assert_eq!(shown, [first, second]);
    let long = [&mmtp(2, 9, 1)[..], &[3, 0], b"\0\0\0\x01a\0\0\0\x02bc"].concat();
    let first = words(&[2, 0, 0, SIGNALLING + 4, 1, 9, 4, 1]);
    let second = words(&[2, 0, 0, SIGNALLING + 9, 2, 9, 4, 1]);
    assert_eq!(records(&[flow(&long)]), [first, second]);
}

/// The first piece's fields count; a unit of the second packet_id stands from byte R on.
#[test]
fn joined_units() {
    let mut other = FIELDS;
    other[8..14].copy_from_slice(&[9, 9, 9, 9, 9, 9]); // offset, priority, dependency need not agree
    let pieces = |id: u16| {
        [
            mpu(id, 5, 0x2A, 2, 66, &[&FIELDS[..], b"abc"].concat()),
            mpu(id, 6, 0x2C, 1, 66, &[&other[..], b""].concat()),
            mpu(id, 7, 0x2E, 0, 66, &[&other[..], b"de"].concat()),
        ]
    };
    let joined = |id, at| words(&[2, 0, 1, at, 5, id, 2, 5, 66, 1, 2, 3, 4, 5]);
    assert_eq!(records(&pieces(7)), [joined(7, 0)]);
    assert_eq!(records(&pieces(9)), [joined(9, 100)]);
    let item = |psn, head, counter| mpu(9, psn, head, counter, 1, b"\0\0\0\x08ab");
    let shown = records(&[item(0xFFFF_FFFF, 0x22, 1), item(0, 0x26, 0)]);
    let due = words(&[2, 0, 1, 100, 4, 9, 3, 0xFFFF_FFFF, 1, 0, 0, 0, 0, 0, 8]);
    assert_eq!(shown, [due]);
    let exact = [
        signalling(7, 1, 1, 1, &[1; 99]),
        signalling(7, 2, 3, 0, &[2]),
    ];
    assert_eq!(records(&exact), [words(&[2, 0, 1, 0, 100, 7, 4, 1])]);
}

/// A signalling unit of packet_id 9 in so many pieces, from psn 5 on.
fn long(count: usize) -> Vec<Vec<u8>> {
    in_pieces(count, 5, |psn, indicator, counter, bytes| {
        signalling(9, psn, indicator, counter, bytes)
    })
}

/// The counter runs modulo 256: the first piece of 257 or 513 has 0, and so have middle ones of more.
#[test]
fn units_of_many_pieces() {
    for count in [256, 257, 258, 300, 513, 600] {
        let len = bytes_of(0..count).len() as u64;
        let due = words(&[2, 0, 1, 100, len, 9, 4, 5]);
        assert_eq!(records(&long(count)), [due], "{count} pieces");
    }
}

/// More pieces than a packer sends, all empty but the ends.
#[test]
fn a_unit_of_very_many_pieces() {
    let packets = in_pieces(257 * 256 + 1, 5, |psn, indicator, counter, _| {
        let bytes: &[u8] = if indicator == 2 { b"" } else { b"a" };
        signalling(9, psn, indicator, counter, bytes)
    });
    assert_eq!(records(&packets), [words(&[2, 0, 1, 100, 2, 9, 4, 5])]);
}

/// Wherever 256 pieces of 600 are lost, the counters fit over the hole. The unit behind it comes.
#[test]
fn holes_of_256_pieces() {
    for from in [1, 2, 43, 44, 87, 88, 89, 200, 342, 343] {
        let mut left = long(600);
        left.drain(from..from + 256);
        left.push(signalling(9, 605, 0, 0, b"next"));
        let shown = records(&left);
        let [hole, next] = shown[..] else {
            panic!("{shown:?}");
        };
        assert_eq!(hole, note(60, 9), "{from}");
        assert_eq!((next[0], &next[4..8]), (2, &[4, 9, 4, 605][..]), "{from}");
    }
}

#[test]
fn counters_that_do_not_fit() {
    let piece = |psn, indicator, counter| signalling(9, psn, indicator, counter, b"");
    let after =
        |open, indicator, counter| records(&[piece(1, 1, open), piece(2, indicator, counter)]);
    assert_eq!(after(0, 2, 255), SILENT);
    assert_eq!(after(1, 2, 0), SILENT);
    for (open, indicator, counter) in [(0, 3, 0), (0, 2, 0), (0, 2, 1), (0, 2, 254), (1, 2, 255)] {
        let shown = after(open, indicator, counter);
        assert_eq!(shown, [note(63, 9)], "{open}, then {counter}");
    }
    assert_eq!(after(2, 3, 1), [note(52, 9)]);
}

#[test]
fn notes_of_packets_and_joining() {
    assert_eq!(records(&[tlv(3, &[0, 0x50])]), [note(50, 0)]);
    assert_eq!(records(&[flow(&[0x40; 12])]), [note(51, 0)]);
    let bad = |id| flow(&[&mmtp(1, id, 3)[..], &[0; 9]].concat());
    assert_eq!(records(&[bad(9), bad(8)]), [note(52, 9)]); // 8 is not watched
    let whole = |psn| signalling(9, psn, 0, 0, b"");
    let piece = |psn, indicator, counter| signalling(9, psn, indicator, counter, b"x");
    let after = |packets: &[Vec<u8>]| -> Vec<u64> {
        let shown = records(packets);
        let notes = shown.iter().filter(|record| record[0] == 1);
        let numbers = notes.map(|record| {
            assert_eq!(*record, note(record[1], 9));
            record[1]
        });
        numbers.collect()
    };
    assert_eq!(after(&[whole(1), whole(3)]), [60]);
    assert_eq!(after(&[piece(1, 1, 5), whole(2)]), [61]);
    assert_eq!(after(&[whole(1), piece(2, 2, 5)]), [62]);
    assert_eq!(after(&[piece(1, 1, 5), piece(2, 2, 5)]), [63]);
    let long = signalling(9, 2, 2, 4, &[0; 100]);
    assert_eq!(after(&[piece(1, 1, 5), long]), [64]);
    let both = signalling(9, 2, 1, 4, &[0; 101]);
    assert_eq!(after(&[piece(1, 1, 5), both]), [61, 64]);
}

#[test]
fn notes_of_slots() {
    let full = tlv(0xFF, &[0; 1_866]);
    let mut pair = pair();
    assert_eq!(give(&mut pair, None, 0, 0), SILENT);
    assert_eq!(give(&mut pair, Some(&full), 0, 1_870), SILENT);
    assert_eq!(give(&mut pair, None, 0, 0), [note(40, 0)]);
    assert_eq!(give(&mut pair, Some(&full), 0, 1_869), [note(41, 0)]);
    assert_eq!(give(&mut pair, Some(&full), 0, 1_870), SILENT);
    let none = give(&mut pair, Some(&full), 0xFFFF, 0xFFFF); // no packet is held
    assert_eq!(none, [note(42, 0)]);
    let mut long = vec![0; 1_870];
    long[..4].copy_from_slice(&[0x7F, 0xFF, 0x3F, 0xFD]);
    assert_eq!(give(&mut pair, Some(&long), 0, 0xFFFF), [note(43, 0)]);
    // A lost frame is read as one lost own slot.
    assert_eq!(give(&mut pair, Some(&full), 0, 1_870), SILENT);
    assert_eq!(pair.call(&Command::LostFrame), 0);
    let mut records = Vec::new();
    drain(&mut pair, &mut Prng::new(9), &mut records);
    assert_eq!(records, [note(40, 0)]);
}
