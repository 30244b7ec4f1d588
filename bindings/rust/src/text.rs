//! A capture's lines, in memory.

use crate::link::{ixohuemil_text, PACKET_BYTES};

/// Collecting memory that tlv_capture lends.
const COLLECTING: usize = 65_536;
/// Room for the lines at first. A text that does not fit is written again to twice the room.
const ROOM: usize = 65_536;

/// The lines of a capture, as the program `tlv_capture` prints them. It needs 96 KiB of stack.
///
/// ```
/// let mut capture = b"C".to_vec();
/// capture.extend([0, 1, 0, 2, 1]); // stream id 1, CID 2, one packet_id
/// capture.extend([0; 32]); // sixteen packet_ids; the first is 0
/// capture.extend(100u32.to_be_bytes());
/// capture.extend(b"XL"); // a lost frame; then a slot, which is not due
/// assert_eq!(ixohuemil::text(&capture), "refused 20\nend 1 0 0\n");
/// ```
pub fn text(capture: &[u8]) -> String {
    let mut room = ROOM;
    loop {
        let text = text_within(capture, room);
        let last = text.trim_end().rsplit('\n').next();
        if last.is_some_and(|line| line.starts_with("end ")) {
            return text;
        }
        room *= 2;
    }
}

/// The lines that fit.
fn text_within(capture: &[u8], room: usize) -> String {
    let (mut packet, mut collecting) = (vec![0; PACKET_BYTES], vec![0; COLLECTING]);
    let mut text = vec![0; room];
    // SAFETY: each slice is lent whole, and none overlaps another.
    let length = unsafe {
        ixohuemil_text(
            capture.as_ptr(),
            capture.len(),
            packet.as_mut_ptr(),
            packet.len(),
            collecting.as_mut_ptr(),
            collecting.len(),
            text.as_mut_ptr(),
            text.len(),
        )
    };
    text.truncate(length as usize);
    String::from_utf8(text).expect("the lines are ASCII")
}

#[cfg(test)]
mod tests {
    use super::{text, text_within, ROOM};

    /// A capture of `frames` lost frames.
    fn lost(frames: usize) -> Vec<u8> {
        let mut capture = b"C\0\x01\0\x02\x01".to_vec();
        capture.extend([0; 32]);
        capture.extend(100u32.to_be_bytes());
        capture.extend(vec![b'X'; frames]);
        capture
    }

    #[test]
    fn the_worked_example() {
        let capture = include_bytes!("../../../crates/tlv_capture/stdin");
        assert_eq!(text(capture), include_str!("../../../crates/tlv_capture/stdout"));
        assert_eq!(text(&[]), "end 0 0 0\n");
    }

    #[test]
    fn too_little_room_shows_by_the_missing_end_line() {
        assert_eq!(text_within(&lost(3), 200), "end 3 0 0\n");
        assert_eq!(text_within(&lost(3), 151), "");
    }

    #[test]
    fn a_text_above_the_first_room_is_whole() {
        // The worked example's frame again and again: its unit, note 40, and note 60, since its psn is always 7.
        let example = include_bytes!("../../../crates/tlv_capture/stdin");
        let mut capture = example.to_vec();
        for _ in 0..4000 {
            capture.extend(&example[42..]);
        }
        let lines = text(&capture);
        assert!(lines.len() > ROOM);
        assert!(lines.starts_with("1 1 unit 0 4 7 0 2\n1 6 note 40 -\n2 1 note 60 0\n"));
        assert!(lines.ends_with("\nend 4001 4001 8001\n"), "{}", &lines[lines.len() - 40..]);
    }
}
