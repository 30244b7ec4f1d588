//! The packer: units of few, many and the most pieces, of the same size each.

use std::error::Error;
use std::hint::black_box;

use second::generate::prng::Prng;
use second::packer::{pack, Head, Numbers};
use second::packets::{UnitFields, KIND_TIMED};

use crate::clock::Best;
use crate::linkage::{self, RECORD};
use crate::table::Times;

/// Pieces of a unit, and what they are called.
const COUNTS: [(usize, &str); 3] = [(256, "256"), (4_096, "4,096"), (MOST, "65,535")];
const MOST: usize = 65_535;
/// Bytes of a piece, few and the most, and what they are called.
const SIZES: [(usize, &str); 2] = [(16, "16"), (LONGEST, "1,400")];
const LONGEST: usize = 1_400;
/// Calls of a round that are refused.
const REFUSED: usize = 50;
/// Headers and fields of a piece of kind 2.
const BEFORE: usize = 4 + 3 + 12 + 8 + 14;

const HEAD: Head = Head {
    packet_id: 0x1234,
    kind: KIND_TIMED,
    mpu: 5,
    fields: UnitFields {
        fragment: 1,
        sample: 2,
        offset: 3,
        priority: 4,
        dependency: 6,
    },
};
const NUMBERS: Numbers = Numbers {
    cid: 0xABC,
    sn: 3,
    psn: u32::MAX - 100,
};

/// The record that says the same of the unit.
fn record() -> [u64; RECORD] {
    let mut words = [0; RECORD];
    words[0] = 2;
    words[5] = HEAD.packet_id.into();
    words[6] = HEAD.kind.into();
    words[7] = NUMBERS.psn.into();
    words[8] = HEAD.mpu.into();
    let fields = HEAD.fields;
    words[9] = fields.fragment.into();
    words[10] = fields.sample.into();
    words[11] = fields.offset.into();
    words[12] = fields.priority.into();
    words[13] = fields.dependency.into();
    words
}

fn second(unit: &[u8], m: usize, out: &mut [u8]) -> Result<usize, u8> {
    pack(&HEAD, unit, m, NUMBERS, out)
}

fn proved(unit: &[u8], m: usize, out: &mut [u8]) -> Result<usize, u8> {
    linkage::pack(&record(), NUMBERS.cid, NUMBERS.sn, m, unit, out)
}

/// The times of packing a unit `times` over, in pieces of `m` bytes; both packers must write the same.
fn cost(unit: &[u8], m: usize, times: usize, rounds: usize) -> Result<Times, Box<dyn Error>> {
    let len = unit.len() / m * BEFORE + unit.len();
    let (mut ours, mut theirs) = (vec![1; len], vec![2; len]);
    let answers = (second(unit, m, &mut ours), proved(unit, m, &mut theirs));
    if answers != (Ok(len), Ok(len)) || ours != theirs {
        return Err(format!("the packers disagree on {} bytes: {answers:?}", unit.len()).into());
    }
    let mut target = vec![3; len];
    let mut best = Times::new();
    for _ in 0..rounds {
        best.copy.time(|| {
            for _ in 0..times {
                target.copy_from_slice(black_box(&ours));
                black_box(&mut target);
            }
        });
        best.second.time(|| {
            for _ in 0..times {
                black_box(second(black_box(unit), m, &mut ours)).ok();
            }
        });
        best.proved.time(|| {
            for _ in 0..times {
                black_box(proved(black_box(unit), m, &mut theirs)).ok();
            }
        });
    }
    if ours != theirs || ours != target {
        return Err("the packers or the copy left something else at the end".into());
    }
    Ok(best)
}

/// The times of calls that are refused with 72, for one byte too many; nothing is copied.
fn refusal_cost(rounds: usize) -> Result<Times, Box<dyn Error>> {
    let unit = vec![0; MOST * LONGEST + 1];
    let refused = |pack: fn(&[u8], usize, &mut [u8]) -> Result<usize, u8>, best: &mut Best| {
        let all = best.time(|| {
            (0..REFUSED).all(|_| black_box(pack(black_box(&unit), LONGEST, &mut [])) == Err(72))
        });
        all.then_some(())
            .ok_or("65,536 pieces are not refused with 72")
    };
    let mut best = Times::new();
    for _ in 0..rounds {
        refused(second, &mut best.second)?;
        refused(proved, &mut best.proved)?;
    }
    Ok(best)
}

/// Measures and prints.
pub fn measure(rounds: usize) -> Result<(), Box<dyn Error>> {
    println!(
        "{:<30} {:>12} {:>12} {:>12} {:>17}",
        "nanoseconds", "plain copy", "second", "proved", "proved to second"
    );
    let each = |best: &Best, count: usize| best.seconds() * 1e9 / count as f64;
    let bytes = Prng::new(5).bytes(MOST * LONGEST);
    for (m, size) in SIZES {
        for (count, pieces) in COUNTS {
            let times = MOST.div_ceil(count);
            let best = cost(&bytes[..count * m], m, times, rounds)?;
            let name = format!("{pieces} pieces of {size} bytes");
            let [copy, second, proved] =
                [best.copy, best.second, best.proved].map(|best| each(&best, times * count));
            let ratio = second / proved;
            println!("{name:<30} {copy:>12.1} {second:>12.1} {proved:>12.1} {ratio:>17.2}");
        }
    }
    let best = refusal_cost(rounds)?;
    let [second, proved] = [best.second, best.proved].map(|best| each(&best, REFUSED));
    let name = "65,536 pieces: 72, a call";
    println!("{name:<30} {:>12} {second:>12.1} {proved:>12.1}", "");
    Ok(())
}
