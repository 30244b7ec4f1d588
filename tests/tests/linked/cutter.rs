//! The cutter: answer and whole output memory, of slots that it cuts and of refused ones.

use second::control_block::DATA_LENGTHS;
use second::cutter::cut;
use second::generate::damage::{bad_first, spoil_first};
use second::generate::packet::tlv;
use second::generate::prng::Prng;

use super::library;

const RUNS: u64 = 1_500;

/// A length of the table.
fn slot_len(rng: &mut Prng) -> usize {
    let lengths: Vec<u16> = DATA_LENGTHS.into_iter().filter(|&l| l != 0).collect();
    usize::from(rng.pick(&lengths))
}

/// Whole packets up to at least `len` bytes, some of which end at a slot's edge or within 4 bytes of
/// it.
fn run(rng: &mut Prng, len: usize, l: usize) -> Vec<u8> {
    let mut run = Vec::new();
    while run.len() < len {
        let to_edge = l - run.len() % l;
        let any = rng.below(3_000);
        let total = match rng.below(8) {
            0 => to_edge,
            1 => to_edge + rng.below(8),
            2 => to_edge.saturating_sub(rng.below(8)),
            3 => to_edge + l * rng.below(4),
            4 => 4 + rng.below(4),
            5 => rng.below(20_000),
            _ => any,
        };
        let body = rng.bytes(total.max(4) - 4);
        run.extend(tlv(0x7F, rng.byte(), &body));
    }
    run
}

/// The refusal, or 0, of both cutters; their outputs are compared whole. A refused call leaves the output
/// and the numbers that it is lent as they were.
fn compare(run: &[u8], l: usize, s: usize, output: &[u8]) -> u8 {
    let (mut ours, mut theirs) = (output.to_vec(), output.to_vec());
    let answer = cut(run, l, s, &mut ours);
    let other = library::cut(run, l, s, &mut theirs);
    let place = format!(
        "{} bytes, L {l}, slot {s}, output {}",
        run.len(),
        output.len()
    );
    match answer {
        Ok((top, last)) => assert_eq!(other, (0, top, last), "{place}"),
        Err(number) => {
            assert_eq!(other, (number, library::TOP, library::LAST), "{place}");
            assert!(theirs == output, "{place}: output of a refused call");
        }
    }
    assert!(ours == theirs, "{place}: output");
    answer.err().unwrap_or(0)
}

#[test]
fn slots_that_are_cut() {
    let mut cut = 0;
    for number in 0..RUNS {
        let mut rng = Prng::new(number);
        let l = slot_len(&mut rng);
        let slots = rng.range(1, 6);
        let run = run(&mut rng, slots * l, l);
        for s in 0..run.len() / l {
            assert_eq!(compare(&run, l, s, &rng.bytes(l)), 0);
            cut += 1;
        }
        assert_eq!(compare(&run, l, run.len() / l, &rng.bytes(l)), 77);
    }
    println!("{cut} slots");
    assert!(cut > 5_000);
}

/// Spoils a run: a byte less or more, a bad first byte of a packet in it or of one behind it, any byte.
fn spoil(rng: &mut Prng, run: &mut Vec<u8>) {
    match rng.below(6) {
        0 => {
            let less = rng.pick(&[1, 2, 3, 4, 5, 100]);
            run.truncate(run.len() - less);
        }
        1 => run.extend(rng.pick(&[&[0x7F][..], &[0x7F, 3, 0], &[0x7F, 3, 0, 1], &[0x40]])),
        2 | 3 => spoil_first(rng, run, 0),
        4 => run.extend([bad_first(rng), 3, 0, 0]),
        _ => {
            let at = rng.below(run.len());
            run[at] ^= 1 << rng.below(8);
        }
    }
}

#[test]
fn refused_slots() {
    let mut seen = [0; 256];
    for number in 0..4 * RUNS {
        let mut rng = Prng::new(number ^ 0xBAD);
        let mut l = slot_len(&mut rng);
        let slots = rng.below(3);
        let mut run = run(&mut rng, slots * l, l);
        if rng.chance(1, 3) && run.len() > 100 {
            spoil(&mut rng, &mut run);
        }
        let whole = run.len() / l;
        if rng.chance(1, 3) {
            l = rng.pick(&[0, 1, l - 1, l + 1, 1_869, 5_050, usize::MAX]);
        }
        let any = rng.u64() as usize;
        // A product with L that does not fit 64 bits, or fits but comes to a small number.
        let wraps = (usize::MAX / l.max(1)).saturating_add(rng.below(2));
        let past = rng.pick(&[whole, whole + 1, any, wraps, usize::MAX]);
        let s = if rng.chance(1, 3) {
            past
        } else {
            rng.below(whole.max(1))
        };
        let less = l.min(6_000).saturating_sub(1);
        let room = rng.pick(&[l.min(6_000), l.min(6_000), less, less + 2, 0, 6_000]);
        seen[usize::from(compare(&run, l, s, &rng.bytes(room)))] += 1;
    }
    println!("0 {}, 75 to 78 {:?}", seen[0], &seen[75..79]);
    assert!(seen[75..79].iter().all(|&count| count > 300));
    assert_eq!(seen[0] + seen[75..79].iter().sum::<u64>(), 4 * RUNS);
}
