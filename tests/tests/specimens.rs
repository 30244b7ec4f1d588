//! The specimens of document 01, starred or not, and its traps; every first byte of a TLV header; counters.

mod common;
#[path = "specimens/counters.rs"]
mod counters;

use common::{
    block, cut_padded, feed, flow, mmtp, mpu, read_packets, signalling, station, tlv, Read,
};
use second::control_block::decode;
use second::packets::{read, Reading, Watch};
use second::slots::{sound, Held, Stream, Taken, PACKET_MEMORY, SLOT_AT};

/// MFU fields: movie fragment, sample, offset, priority, dependency.
fn mfu(fragment: u32, sample: u32, bytes: &[u8]) -> Vec<u8> {
    let mut out = fragment.to_be_bytes().to_vec();
    out.extend(sample.to_be_bytes());
    out.extend([0; 6]);
    out.extend(bytes);
    out
}

#[test]
fn psn_wraps() {
    let packets = [
        signalling(9, u32::MAX, 1, 1, b"ab"),
        signalling(9, 0, 3, 0, b"c"),
    ];
    let got = read_packets(&[9], &packets);
    assert_eq!(got.notes, []);
    assert_eq!(got.units[0].bytes, b"abc");
    assert_eq!(got.units[0].psn, u32::MAX);
}

#[test]
fn counter_and_extension_put_the_payload_at_24() {
    let mut header = mmtp(2, 9, 1);
    header[0] = 0x22;
    header.extend([0; 4]); // counter
    header.extend([0, 1, 0, 4, 0xEE, 0xEE, 0xEE, 0xEE]);
    assert_eq!(header.len(), 24);
    let packet = flow(&[&header[..], &[0, 0, 0x55]].concat());
    let Reading::Good(good) = read(&packet, 5, &Watch::new(&[9])) else {
        panic!("a good packet");
    };
    assert_eq!(good.at, 4 + 3 + 24 + 2);
    assert_eq!(read_packets(&[9], &[packet]).units[0].bytes, [0x55]);
}

#[test]
fn version_1_is_51() {
    let mut header = mmtp(2, 9, 1);
    header[0] = 0x40;
    let packet = flow(&[&header[..], &[0, 0]].concat());
    assert_eq!(read(&packet, 5, &Watch::new(&[9])), Reading::Noted(51));
    // Also for a packet_id that isn't watched.
    assert_eq!(read(&packet, 5, &Watch::new(&[8])), Reading::Noted(51));
}

/// Every first byte of MMTP, with the short header and with another one.
#[test]
fn every_mmtp_first_byte() {
    let watch = Watch::new(&[9]);
    for (header_type, addresses) in [(0x61, 0), (0x21, 2)] {
        for flags in 0..=255u8 {
            let mut data = vec![0, 0x50, header_type];
            data.extend(vec![0xEE; addresses]);
            data.extend([flags, 0xC2, 0, 9, 0, 0, 0, 0, 0, 0, 0, 1]);
            let mut due = 4 + data.len() + 2;
            if flags & 0x20 != 0 {
                data.extend([0xEE; 4]);
                due += 4;
            }
            if flags & 0x02 != 0 {
                data.extend([0xEE, 0xEE, 0, 3, 0xEE, 0xEE, 0xEE]);
                due += 7;
            }
            data.extend([0, 0, 0x55]);
            let reading = read(&tlv(3, &data), 5, &watch);
            if flags & 0b1101_1000 != 0 {
                assert_eq!(reading, Reading::Noted(51), "{flags:#x}");
                continue;
            }
            let Reading::Good(good) = reading else {
                panic!("{flags:#x}: {reading:?}");
            };
            assert_eq!((good.at, good.psn, good.kind), (due, 1, 4), "{flags:#x}");
        }
    }
}

#[test]
fn mpu_byte_2a_and_2b() {
    let watch = Watch::new(&[9]);
    let piece = mfu(1, 2, b"x");
    let Reading::Good(good) = read(&mpu(9, 1, 0x2A, 1, 3, &piece), 5, &watch) else {
        panic!("a good packet");
    };
    assert_eq!((good.kind, good.indicator, good.prefix), (2, 1, 0));
    let bad = read(&mpu(9, 1, 0x2B, 1, 3, &piece), 5, &watch);
    assert_eq!(bad, Reading::BadPayload(0));
}

/// 1,870 bytes whose packet at t has that length field.
fn slot(t: usize, field: u16) -> Vec<u8> {
    let mut data = vec![0x7F; 1_870];
    if t + 4 <= data.len() {
        data[t + 2..t + 4].copy_from_slice(&field.to_be_bytes());
    }
    data
}

#[test]
fn sound_slots() {
    assert_eq!(sound(&slot(0, 1_866), 0, 1_870), Some(1_870));
    assert_eq!(sound(&slot(0, 1_866), 0, 1_869), None);
    assert_eq!(sound(&slot(1_868, 0), 1_868, 1_868), Some(1_868));
    assert_eq!(sound(&slot(0, 0), 0xFFFF, 1_869), None);
    // No packet complete: t, or 0xFFFF for t = 0; never the other one.
    assert_eq!(sound(&slot(0, 1_867), 0, 0xFFFF), Some(0));
    assert_eq!(sound(&slot(0, 1_867), 0, 0), None);
    assert_eq!(sound(&slot(5, 5_000), 5, 5), Some(5));
    assert_eq!(sound(&slot(5, 5_000), 5, 0xFFFF), None);
    assert_eq!(sound(&slot(0, 0), 0xFFFF, 0xFFFF), Some(1_870));
    assert_eq!(sound(&slot(0, 0), 0xFFFF, 1_870), Some(1_870));
    for t in [1_870, 1_871, 0xFFFE] {
        assert_eq!(sound(&slot(0, 0), t, 0xFFFF), None);
        assert_eq!(sound(&slot(0, 0), t, t), None);
    }
    // The unfinished packet at the end must begin with 0x7F too, even with one byte of it there.
    let mut data = slot(0, 1_865);
    assert_eq!(sound(&data, 0, 1_869), Some(1_869));
    for first in [0x40, 0x7E, 0xC0] {
        data[1_869] = first;
        assert_eq!(sound(&data, 0, 1_869), None);
    }
    let mut data = slot(0, 1_866);
    data[0] = 0x40;
    assert_eq!(sound(&data, 0, 1_870), None);
}

/// A slot of 1,870 bytes and its pointers.
struct Row {
    data: Vec<u8>,
    t: usize,
    last: u16,
    /// Where each header stands, and one past the last complete packet.
    headers: Vec<usize>,
    end: usize,
}

/// The last `t` bytes of a packet, then packets of these lengths; the slot's end cuts the last one.
fn row(t: usize, totals: &[usize]) -> Row {
    let mut data = vec![0x11; t];
    let (mut headers, mut end) = (Vec::new(), t);
    for &total in totals {
        headers.push(data.len());
        data.extend(tlv(0xFF, &vec![0; total - 4]));
        if data.len() <= 1_870 {
            end = data.len();
        }
    }
    assert!(data.len() >= 1_870 && headers.iter().all(|&at| at < 1_870));
    data.truncate(1_870);
    Row {
        data,
        t,
        last: if end == 0 { 0xFFFF } else { end as u16 },
        headers,
        end,
    }
}

/// Headers at every place that a header can have: at t, between packets, of the last complete packet,
/// of an unfinished one, and so near the slot's end that only 1, 2 or 3 bytes of them are there.
fn rows() -> Vec<Row> {
    let mut rows = vec![
        row(0, &[100, 200, 1_570]),
        row(0, &[1_870]),
        row(0, &[3_000]),
        row(10, &[3_000]),
    ];
    for tail in [1, 2, 3, 4, 40] {
        rows.push(row(0, &[100, 200, 1_570 - tail, 1_000]));
        rows.push(row(10, &[100, 200, 1_560 - tail, 1_000]));
        rows.push(row(1_870 - tail, &[1_000]));
    }
    rows
}

/// Each row with every byte in the place of each first byte.
fn every_first_byte(mut check: impl FnMut(&Row, u8)) {
    let mut checked = 0;
    for mut row in rows() {
        for at in row.headers.clone() {
            for byte in 0..=255 {
                row.data[at] = byte;
                check(&row, byte);
                checked += 1;
            }
            row.data[at] = 0x7F;
        }
    }
    assert_eq!(checked, (6 + 5 * (4 + 4 + 1)) * 256);
}

#[test]
fn only_7f_begins_a_header() {
    every_first_byte(|row, byte| {
        let due = (byte == 0x7F).then_some(row.end);
        assert_eq!(sound(&row.data, row.t as u16, row.last), due, "{byte:#x}");
    });
}

/// A stream that holds 20 bytes of a packet with `left` more to come, or no byte if none is.
fn holding(left: usize) -> (Stream, Vec<u8>) {
    let mut memory = vec![0x22; PACKET_MEMORY];
    memory[..20].copy_from_slice(&tlv(0xFF, &vec![0x22; 16 + left])[..20]);
    let mut stream = Stream::default();
    let len = if left == 0 { 0 } else { 20 };
    stream.held = Held::Bytes { from: 0, len };
    (stream, memory)
}

#[test]
fn any_other_first_byte_is_41() {
    every_first_byte(|row, byte| {
        let (mut stream, mut memory) = holding(row.t);
        let before = memory[..SLOT_AT].to_vec();
        let taken = stream.take(&row.data, row.t as u16, row.last, &mut memory);
        let mut due = Taken::default();
        if byte != 0x7F {
            due.note = 41;
            assert_eq!((taken, stream.held), (due, Held::Searching), "{byte:#x}");
            assert!(memory[..SLOT_AT] == before);
            return;
        }
        due.continued = if row.t == 0 { 0 } else { 20 + row.t };
        (due.at, due.end) = (SLOT_AT + row.t, SLOT_AT + row.end);
        let (from, len) = (due.end, 1_870 - row.end);
        assert_eq!((taken, stream.held), (due, Held::Bytes { from, len }));
    });
}

/// A long unit ends in the slot, a short one follows it, and the short one's header is changed: neither
/// is given, and the next slot is read as after a loss.
#[test]
fn nothing_is_read_beside_a_bad_first_byte() {
    let sent = [
        signalling(9, 1, 0, 0, &[1; 2_000]),
        signalling(9, 2, 0, 0, &[2]),
    ];
    let mut slots = cut_padded(&sent);
    slots.extend(cut_padded(&[signalling(9, 3, 0, 0, &[3])]));
    let t = usize::from(slots[1].1);
    assert_eq!((slots.len(), t), (3, sent[0].len() - 1_870));
    for byte in 0..=255 {
        slots[1].0[t] = byte;
        let (mut station, mut got) = (station(&[9]), Read::default());
        for (data, top, last) in &slots {
            feed(&mut station, data, *top, *last, &mut got);
        }
        let psns: Vec<u32> = got.units.iter().map(|unit| unit.psn).collect();
        let due = if byte == 0x7F {
            (vec![], vec![1, 2, 3])
        } else {
            (vec![41], vec![3])
        };
        assert_eq!((got.numbers(), psns), due, "{byte:#x}");
    }
}

/// Bytes before t, and slots in which no packet starts, are not looked at.
#[test]
fn where_no_header_stands_any_byte_may() {
    for byte in 0..=255 {
        let mut row = row(10, &[100, 1_760]);
        row.data[..10].fill(byte);
        assert_eq!(sound(&row.data, 10, 1_870), Some(1_870), "{byte:#x}");
        let (mut stream, mut memory) = holding(10);
        let taken = stream.take(&row.data, 10, 1_870, &mut memory);
        assert_eq!((taken.note, taken.continued), (0, 30), "{byte:#x}");
        assert!(memory[20..30] == [byte; 10]);
        let data = vec![byte; 1_870];
        for (left, last, continued, len) in [(1_870, 1_870, 1_890, 0), (1_871, 0xFFFF, 0, 1_890)] {
            assert_eq!(sound(&data, 0xFFFF, last), Some(1_870), "{byte:#x}");
            let (mut stream, mut memory) = holding(left);
            let taken = stream.take(&data, 0xFFFF, last, &mut memory);
            assert_eq!((taken.note, taken.continued), (0, continued), "{byte:#x}");
            assert_eq!(stream.held, Held::Bytes { from: 0, len });
            assert!(memory[20..1_890] == data);
        }
    }
}

#[test]
fn unsound_slots_are_41() {
    let mut memory = vec![0; PACKET_MEMORY];
    for (t, last) in [(0, 1_869), (0xFFFF, 1_869)] {
        let mut stream = Stream::default();
        stream.held = Held::Bytes { from: 0, len: 0 };
        let taken = stream.take(&slot(0, 1_866), t, last, &mut memory);
        let due = Taken {
            note: 41,
            ..Taken::default()
        };
        assert_eq!((taken, stream.held), (due, Held::Searching));
    }
}

#[test]
fn qpsk_half_over_slots_1_to_10() {
    let layout = decode(&array(&block(&[(0x23, 10), (0x11, 110)])), 1).expect("legal");
    let live: Vec<usize> = (1..=10).filter(|s| layout[s - 1].len > 0).collect();
    assert_eq!(live, [1, 2, 6, 7]);
    assert!(live
        .iter()
        .all(|s| layout[s - 1].len == 2_805 && layout[s - 1].own));
    assert_eq!((layout[10].len, layout[11].len), (1_870, 0));
}

#[test]
fn total_of_115_slots_is_12() {
    let modes: [&[(u8, u8)]; 9] = [
        &[(0x11, 115)],
        &[(0x11, 125)],
        &[],
        &[(0x11, 60), (0x11, 60)],
        &[(0x11, 60), (0x12, 60)],
        &[(0x12, 60), (0xFF, 0), (0x11, 60)],
        &[(0x61, 120)],
        &[(0x1C, 120)],
        &[(0x12, 118), (0x11, 2)],
    ];
    for modes in modes {
        assert_eq!(decode(&array(&block(modes)), 1), Err(12), "{modes:?}");
    }
    let mut with_back_off = block(&[(0x11, 120)]);
    with_back_off[3] = 200; // ignored in a used mode
    assert!(decode(&array(&with_back_off), 1).is_ok());
    with_back_off[6] = 1; // not in an unused one
    assert_eq!(decode(&array(&with_back_off), 1), Err(12));
}

fn array(block: &[u8]) -> [u8; 1_178] {
    block.try_into().expect("1,178 bytes")
}

#[test]
fn held_total_of_16_384_is_kept() {
    for (total, notes, units) in [(16_384usize, vec![], 1), (16_385, vec![43], 0)] {
        let body = vec![0x11; total - 21];
        let packet = signalling(9, 1, 0, 0, &body);
        assert_eq!(packet.len(), total);
        let got = read_packets(&[9], &[packet]);
        assert_eq!((got.numbers(), got.units.len()), (notes, units));
        assert!(got.units.iter().all(|unit| unit.bytes == body));
    }
}

#[test]
fn three_pieces_and_a_gap() {
    let pieces = |last| {
        [
            signalling(9, 5, 1, 2, b"a"),
            signalling(9, 6, 2, 1, b""),
            signalling(9, last, 3, 0, b"b"),
        ]
    };
    let got = read_packets(&[9], &pieces(7));
    assert_eq!((got.numbers(), got.units.len()), (vec![], 1));
    assert_eq!(got.units[0].bytes, b"ab");
    let got = read_packets(&[9], &pieces(8));
    assert_eq!((got.notes, got.units.len()), (vec![(60, Some(9))], 0));
}

#[test]
fn a_psn_noted_52_is_not_recorded() {
    let packets = [
        signalling(9, 5, 1, 1, b"a"),
        signalling(9, 6, 3, 1, b"bad"),
        signalling(9, 6, 3, 0, b"b"),
    ];
    let got = read_packets(&[9], &packets);
    assert_eq!(got.notes, [(52, Some(9))]);
    assert_eq!(got.units[0].bytes, b"ab");
}

#[test]
fn notes_60_to_64_in_pairs() {
    let long = [0u8; 101];
    let s = |psn, indicator, counter, bytes: &[u8]| signalling(9, psn, indicator, counter, bytes);
    type Case<'a> = (Vec<Vec<u8>>, &'a [u8], usize);
    let cases: [Case; 9] = [
        (vec![s(1, 1, 1, b"a"), s(2, 1, 1, &long)], &[61, 64], 0),
        (vec![s(1, 1, 1, b"a"), s(3, 1, 1, &long)], &[60, 64], 0),
        (vec![s(1, 1, 1, b"a"), s(2, 0, 0, &long)], &[61], 1),
        (vec![s(1, 1, 1, b"a"), s(3, 0, 0, b"")], &[60], 1),
        (vec![s(1, 0, 0, b"a"), s(2, 3, 0, b"")], &[62], 1),
        (vec![s(1, 3, 0, b"a"), s(2, 3, 0, b"")], &[], 0),
        (vec![s(1, 1, 2, b"a"), s(2, 3, 0, b"")], &[63], 0),
        (vec![s(1, 1, 1, &long[1..]), s(2, 3, 0, b"")], &[], 1),
        (
            vec![s(1, 1, 1, &long[1..]), s(2, 3, 0, b"x"), s(3, 3, 0, b"")],
            &[64],
            0,
        ),
    ];
    for (packets, notes, units) in cases {
        let got = read_packets(&[9], &packets);
        assert_eq!((got.numbers(), got.units.len()), (notes.to_vec(), units));
    }
}

#[test]
fn pieces_that_disagree_are_63() {
    let first = mpu(9, 1, 0x2A, 1, 3, &mfu(1, 2, b"a"));
    let agree = mpu(9, 2, 0x2E, 0, 3, &mfu(1, 2, b"b"));
    let got = read_packets(&[9], &[first.clone(), agree]);
    assert_eq!(
        (got.numbers(), got.units[0].bytes.as_slice()),
        (vec![], &b"ab"[..])
    );
    let others = [
        mpu(9, 2, 0x2E, 0, 4, &mfu(1, 2, b"b")),
        mpu(9, 2, 0x2E, 0, 3, &mfu(0, 2, b"b")),
        mpu(9, 2, 0x2E, 0, 3, &mfu(1, 3, b"b")),
        mpu(9, 2, 0x26, 0, 3, &mfu(1, 2, b"b")),
        mpu(9, 2, 0x1E, 0, 3, b"b"),
        signalling(9, 2, 3, 0, b"b"),
    ];
    for other in others {
        let got = read_packets(&[9], &[first.clone(), other]);
        assert_eq!((got.numbers(), got.units.len()), (vec![63], 0));
    }
}

#[test]
fn kinds_and_their_fields() {
    let packets = [
        mpu(9, 1, 0x00, 0, 3, b"ab"),
        mpu(9, 2, 0x18, 7, 3, b""),
        mpu(
            9,
            3,
            0x28,
            0,
            3,
            &[1, 0, 0, 2, 3, 0, 0, 4, 5, 0, 0, 6, 7, 8, 9],
        ),
        mpu(9, 4, 0x20, 0, 3, &[0, 0, 0, 5]),
        mpu(9, 5, 0x21, 0, 3, &[0, 5, 0, 0, 0, 1, 77, 0, 4, 0, 0, 0, 2]),
        flow(&[&mmtp(2, 9, 6)[..], &[0x03, 0, 0, 0, 0, 1, 88, 0, 0, 0, 0]].concat()),
        flow(&[&mmtp(2, 9, 7)[..], &[0x02, 0, 99]].concat()),
    ];
    let got = read_packets(&[9], &packets);
    assert_eq!(got.notes, []);
    let short: Vec<(u8, u32, u32, u32, &[u8])> = got
        .units
        .iter()
        .map(|u| (u.kind, u.psn, u.mpu, u.fields.fragment, u.bytes.as_slice()))
        .collect();
    let due: [(u8, u32, u32, u32, &[u8]); 9] = [
        (0, 1, 3, 0, b"ab"),
        (1, 2, 3, 0, b""),
        (2, 3, 3, 0x0100_0002, &[9]),
        (3, 4, 3, 5, b""),
        (3, 5, 3, 1, &[77]),
        (3, 5, 3, 2, b""),
        (4, 6, 0, 0, &[88]),
        (4, 6, 0, 0, b""),
        (4, 7, 0, 0, &[99]),
    ];
    assert_eq!(short, due);
    let timed = &got.units[2].fields;
    assert_eq!((timed.sample, timed.offset), (0x0300_0004, 0x0500_0006));
    assert_eq!((timed.priority, timed.dependency), (7, 8));
}

#[test]
fn payloads_noted_52() {
    let watch = Watch::new(&[9]);
    let signal = |rest: &[u8]| flow(&[&mmtp(2, 9, 1)[..], rest].concat());
    let with_length = |add: u8| {
        let mut packet = mpu(9, 1, 0, 0, 3, b"ab");
        packet[4 + 3 + 12 + 1] = 8u8.wrapping_add(add);
        packet
    };
    assert_eq!(with_length(0), mpu(9, 1, 0, 0, 3, b"ab"));
    let bad = [
        flow(&mmtp(1, 9, 1)),
        flow(&mmtp(0, 9, 1)),
        with_length(1),
        with_length(255),
        with_length(254),
        mpu(9, 1, 0x30, 0, 3, b""),
        mpu(9, 1, 0x28, 0, 3, &[0; 13]),
        mpu(9, 1, 0x20, 0, 3, &[0; 3]),
        mpu(9, 1, 0x01, 0, 3, b""),
        mpu(
            9,
            1,
            0x29,
            0,
            3,
            &[0, 13, 0, 0, 0, 0, 0, 0, 0, 0, 0, 0, 0, 0, 0],
        ),
        mpu(9, 1, 0x01, 0, 3, &[0, 1, 0, 0]),
        mpu(9, 1, 0x01, 0, 3, &[0, 2, 0]),
        signal(&[]),
        signal(&[0]),
        signal(&[0x01, 0]),
        signal(&[0x03, 0, 0, 0]),
        signal(&[0x41, 1, 0, 0]),
        signal(&[0xC0, 1]),
        signal(&[0xC0, 255]),
    ];
    for (i, packet) in bad.iter().enumerate() {
        let reading = read(packet, 5, &watch);
        assert_eq!(reading, Reading::BadPayload(0), "case {i}");
        let unwatched = read(packet, 5, &Watch::new(&[8]));
        assert_eq!(unwatched, Reading::Silent, "case {i}");
    }
}

#[test]
fn another_flow_is_silent() {
    let watch = Watch::new(&[9]);
    let good = signalling(9, 1, 0, 0, b"ab");
    for cid in 0..4_096 {
        let silent = read(&good, cid, &watch) == Reading::Silent;
        assert_eq!(silent, cid != 5);
    }
    let mut other_type = good.clone();
    for tlv_type in 0..=255 {
        other_type[1] = tlv_type;
        let silent = read(&other_type, 5, &watch) == Reading::Silent;
        assert_eq!(silent, tlv_type != 3);
    }
}

/// Ids of the same hash, ids at the ends, and none that isn't watched.
#[test]
fn watched_ids_and_no_others() {
    let ids = [
        0, 0x0101, 0x0202, 0xFFFF, 0x1234, 0x3412, 0x2600, 0x0026, 1, 256,
    ];
    let watch = Watch::new(&ids);
    for id in 0..=0xFFFF {
        let place = ids.iter().position(|&watched| watched == id);
        assert_eq!(watch.place(id), place, "{id}");
    }
}

#[test]
fn headers_noted_50_or_51() {
    let watch = Watch::new(&[9]);
    let read = |data: &[u8]| read(&tlv(3, data), 5, &watch);
    let noted = |number| Reading::Noted(number);
    assert_eq!(read(&[]), noted(50));
    assert_eq!(read(&[0xFF, 0xFF]), noted(50)); // before the CID is compared
    assert_eq!(read(&[0xFF, 0xFF, 0]), Reading::Silent); // before the header type
    assert_eq!(read(&[0, 0x5F, 0x62]), noted(50));
    for (header_type, start) in [(0x20, 23), (0x21, 5), (0x60, 45), (0x61, 3)] {
        let mut data = vec![0; start + 12];
        data[..3].copy_from_slice(&[0, 0x50, header_type]);
        for len in 3..start {
            assert_eq!(read(&data[..len]), noted(50));
        }
        for len in start..start + 12 {
            assert_eq!(read(&data[..len]), noted(51));
        }
        assert_eq!(read(&data), Reading::Silent); // packet_id 0
    }
    assert_eq!(
        second::packets::read(&tlv(2, &[]), 5, &watch),
        Reading::Silent
    );
}
