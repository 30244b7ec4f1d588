//! Show of records with any place: the part of its memory, or no bytes where one lies outside.

use second::generate::prng::Prng;

use super::lent::{Lent, Station};
use super::library::{LEN, RECORD};

const COUNT: u64 = 20_000;

/// A word at or near an end of a memory of `len` bytes, or far outside.
fn near(rng: &mut Prng, len: usize) -> u64 {
    let (len, inside) = (len as u64, rng.below(len + 1) as u64);
    let any = rng.u64();
    let far = [u64::MAX, u64::MAX - len, 1 << 32, 1 << 63, any];
    match rng.below(8) {
        0 => rng.pick(&[0, 1, len - 1, len, len + 1]),
        1 => rng.pick(&far),
        _ => inside,
    }
}

/// Start and length: near the ends, or with a sum that is the memory's length, one more, or passes 64 bits.
fn place(rng: &mut Prng, len: usize) -> (u64, u64) {
    let (start, other) = (near(rng, len), near(rng, len));
    let rest = (len as u64).wrapping_sub(start);
    let wraps = 0u64.wrapping_sub(start);
    (
        start,
        rng.pick(&[other, other, other, rest, rest.wrapping_add(1), wraps]),
    )
}

#[test]
fn any_place() {
    let mut rng = Prng::new(0x5403);
    let mut station = Station::noise(&mut rng, 0, 500);
    let before = station.clone();
    let (mut inside, mut outside, mut short) = (0, 0, 0);
    for _ in 0..COUNT {
        let memory = rng.below(2);
        let bytes = [before.packet.get(), before.collecting.get()][memory];
        let (start, len) = place(&mut rng, bytes.len());
        let mut record: Vec<u64> = (0..RECORD).map(|_| rng.u64()).collect();
        record[2..5].copy_from_slice(&[memory as u64, start, len]);
        let end = start
            .checked_add(len)
            .map_or(usize::MAX, |end| end as usize);
        let part = bytes.get(start as usize..end).unwrap_or(&[]);
        let room = part.len() + 2;
        let room = rng.pick(&[room - 2, room - 2, room, room.saturating_sub(3), 0]);
        let mut due = Lent::<u8>::noise(&mut rng, room);
        let mut output = due.clone();
        let answer = station.show(&record, output.lend());
        if room < part.len() {
            assert_eq!(answer, (93, LEN), "{record:?}");
            short += 1;
        } else {
            due.lend()[..part.len()].copy_from_slice(part);
            assert_eq!(answer, (0, part.len() as u64), "{record:?}");
            inside += u64::from(!part.is_empty());
            outside += u64::from(part.is_empty() && len > 0);
        }
        assert!(output == due, "{record:?}: output");
    }
    assert!(station == before, "both memories");
    println!("{inside} inside, {outside} outside, {short} with an output too short");
    assert!(inside > 3_000 && outside > 3_000 && short > 1_000);
}

/// Fewer than 24 words: 92, before 93.
#[test]
fn too_few_words() {
    let mut rng = Prng::new(0x5404);
    let mut station = Station::noise(&mut rng, 0, 500);
    let before = station.clone();
    let mut record = [0; RECORD];
    record[..5].copy_from_slice(&[2, 0, 0, 0, 100]);
    for words in 0..RECORD {
        for room in [0, 99, 100, 200] {
            let filling = Lent::<u8>::noise(&mut rng, room);
            let mut output = filling.clone();
            let answer = station.show(&record[..words], output.lend());
            assert_eq!(answer, (92, LEN), "{words} words, room for {room}");
            assert!(output == filling && station == before);
        }
    }
    let mut output = Lent::<u8>::noise(&mut rng, 100);
    assert_eq!(station.show(&record, &mut output.lend()[..99]), (93, LEN));
    assert_eq!(station.show(&record, output.lend()), (0, 100));
    assert!(output.get() == &before.packet.get()[..100] && output.is_guarded());
}
