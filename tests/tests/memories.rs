//! Collecting memory, byte by byte: where each packet_id collects, and what writes nothing.

mod common;

use common::{cut_padded, signalling, Read, Station};
use second::calls::Event;
use second::generate::sender::Config;

const R: usize = 10;

fn station() -> Station {
    let config = Config {
        stream_id: 1,
        cid: 5,
        ids: vec![7, 9],
        joined_max: R as u32,
    };
    Station::new(&config, 0xAA)
}

/// Gives the packets in one slot of a frame, and leaves next to be called.
fn give(station: &mut Station, packets: &[Vec<u8>]) {
    let (data, top, last) = cut_padded(packets).remove(0);
    let mut block = common::block(&[(0x11, 120)]);
    block[153..155].copy_from_slice(&top.to_be_bytes());
    block[155..157].copy_from_slice(&last.to_be_bytes());
    assert_eq!(station.receiver.frame(&block), Ok(()));
    assert_eq!(station.slot(&data), Ok(()));
}

/// What the two ids have collected; 0xAA where nothing was written.
fn areas(station: &Station) -> (&[u8], &[u8]) {
    station.collecting.split_at(R)
}

fn padded(bytes: &[u8]) -> Vec<u8> {
    let mut area = bytes.to_vec();
    area.resize(R, 0xAA);
    area
}

#[test]
fn each_id_collects_in_its_own_part() {
    let mut station = station();
    give(
        &mut station,
        &[
            signalling(9, 1, 1, 2, b"abc"),
            signalling(7, 1, 1, 1, b"0123456789"), // R bytes
            signalling(9, 2, 2, 1, b""),
            signalling(9, 3, 3, 0, b"de"),
            signalling(7, 2, 3, 0, b""),
            signalling(7, 3, 0, 0, b"a whole unit, longer than R"),
        ],
    );
    let mut read = Read::default();
    station.drain(&mut read);
    assert_eq!(read.notes, []);
    let bytes: Vec<&[u8]> = read.units.iter().map(|unit| &unit.bytes[..]).collect();
    let due: [&[u8]; 3] = [b"abcde", b"0123456789", b"a whole unit, longer than R"];
    assert_eq!(bytes, due);
    assert_eq!(areas(&station), (&b"0123456789"[..], &padded(b"abcde")[..]));
}

#[test]
fn noted_pieces_write_nothing() {
    let mut station = station();
    give(
        &mut station,
        &[
            signalling(7, 1, 1, 2, b"abc"),
            signalling(7, 2, 2, 1, b"12345678"), // 11 bytes: 64
            signalling(7, 3, 3, 0, b"x"),        // waiting: silent
            signalling(9, 1, 1, 2, b"0123456789A"), // 64
            signalling(9, 2, 1, 3, b"de"),
            signalling(9, 3, 2, 1, b"y"), // counter 2 is due: 63
            signalling(9, 4, 0, 0, b"z"),
            signalling(9, 5, 2, 1, b"y"), // 62
        ],
    );
    let mut read = Read::default();
    station.drain(&mut read);
    let due = [(64, Some(7)), (64, Some(9)), (63, Some(9)), (62, Some(9))];
    assert_eq!(read.notes, due);
    assert_eq!(areas(&station), (&padded(b"abc")[..], &padded(b"de")[..]));
}

#[test]
fn the_note_before_a_piece_comes_with_its_bytes() {
    let mut station = station();
    let packets = [
        signalling(7, 1, 1, 1, b"abc"),
        signalling(7, 3, 1, 1, b"de"),          // 60, and opens
        signalling(7, 4, 1, 1, b"f"),           // 61, and opens
        signalling(7, 5, 1, 1, b"0123456789A"), // 61, then 64
    ];
    give(&mut station, &packets);
    let note = |number| {
        Ok(Event::Note {
            number,
            packet_id: Some(7),
        })
    };
    let due: [(u8, &[u8]); 4] = [(60, b"dec"), (61, b"fec"), (61, b"fec"), (64, b"fec")];
    for (number, collected) in due {
        assert_eq!(station.next(), note(number));
        assert_eq!(areas(&station).0, padded(collected));
    }
    assert_eq!(station.next(), Ok(Event::Nothing));
    assert_eq!(areas(&station).1, padded(b""));
}
