//! The worked capture of document 01, and the ends of a capture.

mod common;

use common::{block, signalling, tlv};
use second::capture::lines_of;
use second::generate::commands;
use second::generate::sender::Config;

fn lines(capture: &[u8]) -> String {
    String::from_utf8(lines_of(capture)).expect("lines are ASCII")
}

fn start(joined_max: u32) -> Vec<u8> {
    commands::start(&Config {
        stream_id: 1,
        cid: 5,
        ids: vec![0],
        joined_max,
    })
}

fn bpsk() -> Vec<u8> {
    commands::frame(&block(&[(0x11, 120)]))
}

#[test]
fn one_bpsk_frame() {
    let unit = signalling(0, 7, 0, 0, &[1, 2]);
    assert_eq!(unit.len(), 23);
    let null = tlv(0xFF, &vec![0; 1_870 - 23 - 4]);
    let mut block = block(&[(0x11, 120)]);
    block[153..157].copy_from_slice(&[0, 0, 0x07, 0x4E]);
    let capture = [
        start(100),
        commands::frame(&block),
        commands::slot(&[unit, null].concat()),
        vec![b'L'; 119],
    ];
    let due = "1 1 unit 0 4 7 0 2\n1 6 note 40 -\nend 1 1 1\n";
    assert_eq!(lines(&capture.concat()), due);
}

#[test]
fn ends() {
    let cases: [(Vec<u8>, &str); 14] = [
        (vec![], "end 0 0 0\n"),
        (vec![b'F'], "end 0 0 0\n"),
        (vec![b'X'], "end 0 0 0\n"),
        (start(100)[..41].to_vec(), "end 0 0 0\n"),
        (start(0), "refused 4\nend 0 0 0\n"),
        (start(100), "end 0 0 0\n"),
        ([start(100), start(100)].concat(), "end 0 0 0\n"),
        ([start(100), vec![b'X', b'X']].concat(), "end 2 0 0\n"),
        ([start(100), vec![b'X', b'?', b'X']].concat(), "end 1 0 0\n"),
        ([start(100), vec![b'L']].concat(), "refused 20\nend 0 0 0\n"),
        ([start(100), vec![b'S', 0]].concat(), "end 0 0 0\n"),
        (
            [start(100), bpsk(), bpsk()].concat(),
            "refused 11\nend 1 0 0\n",
        ),
        (
            [start(65_537), vec![b'X']].concat(),
            "refused 22\nend 1 0 0\n",
        ),
        (
            [start(65_537), bpsk(), vec![b'L']].concat(),
            "refused 22\nend 1 0 0\n",
        ),
    ];
    for (capture, due) in cases {
        assert_eq!(lines(&capture), due);
    }
}

#[test]
fn a_lost_frame_notes_slot_0() {
    let null = tlv(0xFF, &vec![0; 1_866]);
    let mut block = block(&[(0x11, 120)]);
    block[633..693].fill(0x44);
    block[633] = 0x34;
    block[153..157].copy_from_slice(&[0, 0, 0x07, 0x4E]);
    let capture = [
        start(100),
        commands::frame(&block),
        commands::slot(&null),
        vec![b'L'; 119],
        vec![b'X', b'X'],
    ];
    assert_eq!(lines(&capture.concat()), "2 0 note 40 -\nend 3 0 1\n");
}
