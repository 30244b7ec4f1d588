//! The text of a whole capture, and both memories after it; text memory that is too short for it.

use second::capture::{Capture, START_LEN};
use second::generate::broadcast::{undamaged, Losses};
use second::generate::catalogue::{self, FAMILIES};
use second::generate::prng::Prng;

use super::library;
use super::memories::{filled, Lengths, Memories};

/// Captures of each family.
const EACH: u64 = 300;
/// Bytes of the longest line: where fewer are left in text memory, the text stops.
const LONGEST: usize = 152;

/// The second decoder's lines of a capture, and the memories as it leaves them.
fn second(capture: &[u8], (packet, collecting): Memories) -> (Vec<u8>, Memories) {
    let mut reading = Capture::with_memories(packet, collecting);
    let mut lines = Vec::new();
    reading.feed(capture, &mut lines);
    let after = reading.finish(&mut lines);
    (lines, after)
}

/// The library's text of a capture in a memory of `room` bytes; what stands behind it is as before.
fn proved(capture: &[u8], memories: &mut Memories, room: usize) -> Vec<u8> {
    let before = Prng::new(room as u64).bytes(room);
    let mut text = before.clone();
    let answer = library::text(capture, &mut memories.0, &mut memories.1, &mut text);
    let len = usize::try_from(answer).expect("a length");
    assert!(len <= room, "{len} bytes of text in a memory of {room}");
    assert!(text[len..] == before[len..], "bytes behind the text");
    text.truncate(len);
    text
}

/// Compares the whole text, and both memories after it; gives the text.
fn compare(place: &str, capture: &[u8], memories: Memories) -> Vec<u8> {
    let (lines, after) = second(capture, memories.clone());
    let mut left = memories;
    let text = proved(capture, &mut left, lines.len() + LONGEST);
    if text != lines {
        let (text, lines) = (
            String::from_utf8_lossy(&text),
            String::from_utf8_lossy(&lines),
        );
        assert_eq!(text, lines, "{place}");
    }
    assert!(left.0 == after.0, "{place}: packet memory");
    assert!(left.1 == after.1, "{place}: collecting memory");
    lines
}

/// How many lines have the word.
fn count(text: &[u8], word: &str) -> u64 {
    let text = std::str::from_utf8(text).expect("lines are ASCII");
    let has = |line: &&str| line.split(' ').any(|other| other == word);
    text.lines().filter(has).count() as u64
}

#[test]
fn captures_of_every_family() {
    for (f, family) in FAMILIES.iter().enumerate() {
        let (mut units, mut notes, mut refused) = (0, 0, 0);
        for i in 0..EACH {
            let number = f as u64 + i * FAMILIES.len() as u64;
            let capture = catalogue::capture(number);
            let lengths = if i % 8 == 7 {
                Lengths::Longer
            } else {
                Lengths::Exact
            };
            let memories = filled(number, &capture, lengths);
            let text = compare(&format!("capture {number}"), &capture, memories);
            units += count(&text, "unit");
            notes += count(&text, "note");
            refused += count(&text, "refused");
        }
        println!("{EACH} captures, {family}: {units} units, {notes} notes, {refused} refusals");
        match *family {
            "undamaged" => assert!(units > EACH && notes == 0 && refused == 0),
            "refusals" => assert!(units == 0 && refused > EACH / 2),
            "commands damaged" => assert!(units > EACH && refused > EACH / 4),
            "bytes" => assert!(notes > EACH && refused > EACH / 10),
            "boundaries of held bytes" => assert!(notes > EACH),
            _ => assert!(units > EACH && notes > EACH),
        }
    }
}

#[test]
fn memories_too_short() {
    let (mut compared, mut refused) = (0, 0);
    for number in 0..20 * FAMILIES.len() as u64 {
        let capture = catalogue::capture(number);
        for lengths in [Lengths::PacketShort, Lengths::CollectingShort] {
            let memories = filled(number, &capture, lengths);
            let text = compare(&format!("capture {number}"), &capture, memories);
            assert_eq!(count(&text, "unit"), 0, "capture {number}");
            compared += 1;
            refused += u64::from(text.starts_with(b"refused 22\n"));
        }
    }
    println!("{compared} captures, {refused} refused with 22");
    assert!(refused > compared / 2);
}

/// Where the commands of a capture end.
fn ends(capture: &[u8], (packet, collecting): Memories) -> Vec<usize> {
    let mut reading = Capture::with_memories(packet, collecting);
    let (mut rest, mut lines) = (capture, Vec::new());
    let mut ends = vec![0];
    while let Some(behind) = reading.call_once(rest, &mut lines) {
        if behind.len() < rest.len() {
            ends.push(capture.len() - behind.len());
        }
        rest = behind;
    }
    ends
}

/// Captures that end before, behind and inside C, F and S, and anywhere.
#[test]
fn captures_cut() {
    let mut compared = 0;
    for number in 0..2 * FAMILIES.len() as u64 {
        let capture = catalogue::capture(number);
        let memories = filled(number, &capture, Lengths::Exact);
        let mut rng = Prng::new(number);
        let mut lengths: Vec<usize> = (0..START_LEN + 3).collect();
        let ends = ends(&capture, memories.clone());
        for _ in 0..12 {
            let end = rng.pick(&ends);
            lengths.extend([end.saturating_sub(1), end, end + 1, end + 2, end + 3]);
            lengths.push(rng.below(capture.len() + 1));
        }
        for len in lengths.into_iter().filter(|&len| len < capture.len()) {
            let place = format!("capture {number}, {len} bytes of it");
            compare(&place, &capture[..len], memories.clone());
            compared += 1;
        }
    }
    println!("{compared} captures cut");
    assert!(compared > 1_500);
}

/// Each byte as a command: before C, behind it, behind F, between slots, and behind a frame.
#[test]
fn commands_of_every_letter() {
    let list = undamaged(0, 1).commands(&Losses::none(1));
    for commands in [0, 1, 2, 40, list.len()] {
        let before = list[..commands].concat();
        let memories = filled(0, &list[0], Lengths::Exact);
        let (until, _) = second(&before, memories.clone());
        for letter in 0..=255 {
            let behind = [&[letter][..], &list[1..].concat()].concat();
            let capture = [&before[..], &behind].concat();
            let place = format!("{letter} behind {commands} commands");
            let text = compare(&place, &capture, memories.clone());
            let known = if commands == 0 { &b"C"[..] } else { b"FXSL" };
            if !known.contains(&letter) {
                assert_eq!(text, until, "{place}: nothing behind it is read");
            }
        }
    }
}

/// Frames are counted in as many digits as they need.
#[test]
fn very_many_lost_frames() {
    let list = undamaged(11, 1).commands(&Losses::none(1));
    let capture = [list[0].clone(), vec![b'X'; 1_234_567], list[1..].concat()].concat();
    let memories = filled(0, &capture, Lengths::Exact);
    let text = compare("many frames", &capture, memories);
    assert!(text.starts_with(b"1234568 "));
    assert!(count(&text, "1234568") > 1);
}

/// How much of a text comes to a memory of `room` bytes: its lines up to the first one that has too few
/// bytes left.
fn beginning(text: &[u8], room: usize) -> &[u8] {
    let mut at = 0;
    for line in text.split_inclusive(|&byte| byte == b'\n') {
        if room - at < LONGEST {
            break;
        }
        at += line.len();
    }
    &text[..at]
}

/// Where the end line starts.
fn end_line(text: &[u8]) -> usize {
    let before = &text[..text.len() - 1];
    before
        .iter()
        .rposition(|&b| b == b'\n')
        .map_or(0, |at| at + 1)
}

/// Lengths of text memory: up to two longest lines, around those at which one line more is written, and
/// around the whole text's.
fn rooms(rng: &mut Prng, text: &[u8]) -> Vec<usize> {
    let mut rooms: Vec<usize> = (0..2 * LONGEST).collect();
    let starts: Vec<usize> = (0..text.len())
        .filter(|&at| at == 0 || text[at - 1] == b'\n')
        .collect();
    let (one, another) = (rng.pick(&starts), rng.pick(&starts));
    for at in [one, another, end_line(text), text.len()] {
        rooms.extend([at.saturating_sub(1), at, at + 1]);
        rooms.extend([at + LONGEST - 1, at + LONGEST, at + LONGEST + 1]);
    }
    rooms
}

#[test]
fn text_memory_too_short() {
    let (mut none, mut some, mut all) = (0, 0, 0);
    for number in 0..6 * FAMILIES.len() as u64 {
        let capture = catalogue::capture(number);
        let memories = filled(number, &capture, Lengths::Exact);
        let (text, _) = second(&capture, memories.clone());
        let whole = end_line(&text) + LONGEST;
        for room in rooms(&mut Prng::new(number), &text) {
            let place = format!("capture {number}, text memory of {room} bytes");
            let written = proved(&capture, &mut memories.clone(), room);
            assert!(text.starts_with(&written), "{place}: the text's beginning");
            assert!(
                written.is_empty() || written.ends_with(b"\n"),
                "{place}: whole lines"
            );
            assert_eq!(
                written.len() == text.len(),
                room >= whole,
                "{place}: whether all is written"
            );
            assert_eq!(
                written.len(),
                beginning(&text, room).len(),
                "{place}: how much is written"
            );
            match written.len() {
                0 => none += 1,
                len if len == text.len() => all += 1,
                _ => some += 1,
            }
        }
    }
    println!("nothing written {none} times, a beginning {some} times, all {all} times");
    assert!(none > 5_000 && some > 1_000 && all > 1_000);
}
