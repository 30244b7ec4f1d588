//! The C header and the binding say the same: numbers of refusals and notes, and sizes.

use ixohuemil::{Cause, Refusal, BLOCK_BYTES, FRAME_SLOTS, MOST_SLOT_BYTES};

const HEADER: &str = include_str!("../../../include/ixohuemil.h");

/// The numbers that the header gives to names with this beginning, in its order.
fn numbers(beginning: &str) -> Vec<u8> {
    let named = |line: &str| line.trim_start().strip_prefix(beginning)?.split_once(" = ").map(|(_, rest)| rest.to_owned());
    let digits = |rest: String| rest.chars().take_while(char::is_ascii_digit).collect::<String>();
    HEADER.lines().filter_map(named).map(|rest| digits(rest).parse().unwrap()).collect()
}

/// The size that the header gives to this name.
fn size(name: &str) -> usize {
    let rest = HEADER.lines().find_map(|line| line.strip_prefix(&format!("#define {name} "))).unwrap();
    rest.split_whitespace().next().unwrap().parse().unwrap()
}

#[test]
fn the_header_has_the_same_refusals() {
    let ours: Vec<u8> = Refusal::ALL.iter().map(|refusal| refusal.number()).collect();
    assert_eq!(numbers("IXOHUEMIL_REFUSED_"), ours);
    assert_eq!(ours, [1, 2, 3, 4, 10, 11, 12, 13, 14, 20, 21, 22, 23, 70, 71, 72, 73, 74, 75, 76, 77, 78, 90, 91, 92, 93]);
}

#[test]
fn the_header_has_the_same_notes() {
    let ours: Vec<u8> = Cause::ALL.iter().map(|cause| cause.number()).collect();
    assert_eq!(numbers("IXOHUEMIL_NOTE_"), ours);
    assert_eq!(ours, [40, 41, 42, 43, 50, 51, 52, 60, 61, 62, 63, 64]);
}

#[test]
fn the_header_has_the_same_sizes() {
    assert_eq!(size("IXOHUEMIL_BLOCK_BYTES"), BLOCK_BYTES);
    assert_eq!(size("IXOHUEMIL_FRAME_SLOTS"), FRAME_SLOTS);
    assert_eq!(size("IXOHUEMIL_MOST_SLOT_BYTES"), MOST_SLOT_BYTES);
}
