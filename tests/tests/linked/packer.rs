//! The packer: answer and whole output memory, of units that it takes and of refused ones.

use second::generate::prng::Prng;
use second::packer::{pack, Head, Numbers, MAX_PIECE};
use second::packets::{fields_len, UnitFields, KIND_ITEM, KIND_SIGNALLING};

use super::library::{self, RECORD, UNIT};
use super::records::Record;

const COUNT: u64 = 5_000;
/// The most pieces that a unit is packed in.
const MOST: usize = 65_535;

/// What a unit carries; an item id is a field of its own here.
#[derive(Clone, Copy, Debug)]
struct Unit {
    packet_id: u16,
    kind: u8,
    psn: u32,
    mpu: u32,
    fields: UnitFields,
    item: u32,
    /// Words 1 to 4 of its record, which do not count.
    place: [u64; 4],
}

impl Unit {
    fn record(&self) -> Record {
        let mut words = [0; RECORD];
        words[0] = UNIT;
        words[1..5].copy_from_slice(&self.place);
        words[5..9].copy_from_slice(&[
            self.packet_id.into(),
            self.kind.into(),
            self.psn.into(),
            self.mpu.into(),
        ]);
        words[9..15].copy_from_slice(&[
            self.fields.fragment.into(),
            self.fields.sample.into(),
            self.fields.offset.into(),
            self.fields.priority.into(),
            self.fields.dependency.into(),
            self.item.into(),
        ]);
        words
    }
}

/// What a call of the packer is given.
struct Call {
    unit: Unit,
    cid: u16,
    sn: u8,
    m: usize,
    bytes: Vec<u8>,
    /// The output's length, and its filling.
    output: Vec<u8>,
}

/// Fields of any value, also those that the kind lacks; an item id that is no movie fragment number.
fn unit(rng: &mut Prng) -> Unit {
    let psn = rng.u32();
    Unit {
        packet_id: rng.u16(),
        kind: rng.below(5) as u8,
        psn: rng.pick(&[0, u32::MAX - 3, u32::MAX, psn]),
        mpu: rng.u32(),
        fields: UnitFields {
            fragment: rng.u32(),
            sample: rng.u32(),
            offset: rng.u32(),
            priority: rng.byte(),
            dependency: rng.byte(),
        },
        item: rng.u32(),
        place: std::array::from_fn(|_| rng.u64()),
    }
}

/// A piece size, and bytes of a unit: none, around whole pieces, up to 601 of them. Very many are short.
fn sizes(rng: &mut Prng) -> (usize, usize) {
    let any = rng.range(1, MAX_PIECE);
    let m = rng.pick(&[1, 2, 3, 100, 1_399, MAX_PIECE, any]);
    let many = rng.range(257, 600);
    let pieces = rng.pick(&[0, 1, 1, 2, 3, 20, 255, 256, many]);
    let m = if pieces > 256 { m.min(100) } else { m };
    let whole = m * pieces;
    let len = match rng.below(4) {
        0 => whole,
        1 => whole.saturating_sub(1),
        2 => whole + 1,
        _ => rng.below(whole + 1),
    };
    (m, len)
}

/// The length of the packets of `len` bytes in pieces of `m`.
fn written(kind: u8, len: usize, m: usize) -> usize {
    let payload_header = if kind == KIND_SIGNALLING { 2 } else { 8 };
    let before = 4 + 3 + 12 + payload_header + fields_len(kind);
    len.div_ceil(m).max(1) * before + len
}

/// A call that is accepted.
fn legal(rng: &mut Prng) -> Call {
    let unit = unit(rng);
    let (m, len) = sizes(rng);
    let room = written(unit.kind, len, m) + rng.pick(&[0, 0, 1, 500]);
    let cid = rng.u16() & 0xFFF;
    Call {
        unit,
        cid: rng.pick(&[0, 0xFFF, cid]),
        sn: rng.byte(),
        m,
        bytes: rng.bytes(len),
        output: rng.bytes(room),
    }
}

/// Spoils some of what the call is given, so that most are refused, by the first of several numbers.
fn spoil(rng: &mut Prng, call: &mut Call) {
    if rng.chance(1, 4) {
        call.m = rng.pick(&[0, MAX_PIECE + 1, 65_536, usize::MAX]);
    }
    if rng.chance(1, 4) {
        call.unit.kind = rng.pick(&[5, 6, 8, 0x80, 0xFF]);
    }
    if rng.chance(1, 3) {
        call.m = call.m.min(3);
        let more = rng.pick(&[1, 1, 2, 1_000]);
        call.bytes = vec![7; MOST * call.m + more];
    }
    if rng.chance(1, 3) {
        let short = rng.range(1, call.output.len().max(1));
        let less = rng.pick(&[1, 1, short]);
        call.output.truncate(call.output.len().saturating_sub(less));
    }
    if rng.chance(1, 3) {
        call.cid |= 0x1000 << rng.below(4);
    }
}

/// The refusal, or 0, of both packers; their outputs are compared whole. A refused call leaves the output
/// and the number that it is lent as they were.
fn compare(call: &Call) -> u8 {
    let Call {
        unit, cid, sn, m, ..
    } = *call;
    let mut fields = unit.fields;
    if unit.kind == KIND_ITEM {
        fields.fragment = unit.item;
    }
    let head = Head {
        packet_id: unit.packet_id,
        kind: unit.kind,
        mpu: unit.mpu,
        fields,
    };
    let psn = unit.psn;
    let (mut ours, mut theirs) = (call.output.clone(), call.output.clone());
    let answer = pack(&head, &call.bytes, m, Numbers { cid, sn, psn }, &mut ours);
    let other = library::pack(&unit.record(), cid, sn, m, &call.bytes, &mut theirs);
    let place = format!(
        "{unit:?}, CID {cid}, SN {sn}, m {m}, {} bytes",
        call.bytes.len()
    );
    match answer {
        Ok(len) => assert_eq!(other, (0, len as u64), "{place}"),
        Err(number) => {
            assert_eq!(other, (number, library::LEN), "{place}");
            assert!(theirs == call.output, "{place}: output of a refused call");
        }
    }
    assert!(ours == theirs, "{place}: output");
    answer.err().unwrap_or(0)
}

#[test]
fn units_that_are_taken() {
    for number in 0..COUNT {
        let mut rng = Prng::new(number);
        assert_eq!(compare(&legal(&mut rng)), 0);
    }
}

/// A unit of these bytes in pieces of `m`, with room for all of them.
fn of_bytes(rng: &mut Prng, m: usize, bytes: &[u8]) -> Call {
    let unit = unit(rng);
    let room = written(unit.kind, bytes.len(), m);
    Call {
        unit,
        cid: 5,
        sn: rng.byte(),
        m,
        bytes: bytes.to_vec(),
        output: vec![0xEE; room],
    }
}

/// Each count of pieces up to 600, or 260 long ones: the last piece whole, one byte short of it, or one byte
/// alone behind it.
#[test]
fn every_count_of_pieces() {
    let mut rng = Prng::new(3);
    for (m, most) in [(1, 600), (2, 600), (7, 600), (188, 600), (MAX_PIECE, 260)] {
        let bytes = rng.bytes(most * m + 1);
        for pieces in 1..=most {
            for len in [m * pieces - 1, m * pieces, m * pieces + 1] {
                assert_eq!(compare(&of_bytes(&mut rng, m, &bytes[..len])), 0);
            }
        }
    }
}

/// Around the most pieces: each number of bytes from two pieces below it to one above.
#[test]
fn the_most_pieces() {
    let mut rng = Prng::new(6);
    for m in [1, 2, 7, 16] {
        let bytes = rng.bytes((MOST + 1) * m);
        for len in (MOST - 2) * m..=(MOST + 1) * m {
            let refusal = if len > MOST * m { 72 } else { 0 };
            assert_eq!(compare(&of_bytes(&mut rng, m, &bytes[..len])), refusal);
        }
    }
}

/// 72 before 73 and 74, and 73 for the most pieces.
#[test]
fn too_many_pieces_for_a_short_output() {
    let mut rng = Prng::new(7);
    for m in [1, 2, 1_399, MAX_PIECE] {
        let mut call = of_bytes(&mut rng, m, &[]);
        call.bytes = vec![0; MOST * m + 1];
        for cid in [5, 4_096] {
            call.cid = cid;
            assert_eq!(compare(&call), 72);
        }
        call.bytes.pop();
        assert_eq!(compare(&call), 73);
    }
}

/// The count stops above 65,535 pieces, so these are refused soon.
#[test]
fn units_of_very_many_pieces() {
    let mut rng = Prng::new(4);
    let mut call = of_bytes(&mut rng, 1, &[]);
    call.bytes = vec![0; 1 << 27];
    for m in [1, 2, 1_399, MAX_PIECE] {
        call.m = m;
        assert_eq!(compare(&call), 72);
    }
}

#[test]
fn refused_units() {
    let mut seen = [0; 256];
    for number in 0..COUNT {
        let mut rng = Prng::new(number ^ 0xBAD);
        let mut call = legal(&mut rng);
        spoil(&mut rng, &mut call);
        seen[usize::from(compare(&call))] += 1;
    }
    println!("0 {}, 70 to 74 {:?}", seen[0], &seen[70..75]);
    assert!(seen[70..75].iter().all(|&count| count > 100));
    assert_eq!(seen[0] + seen[70..75].iter().sum::<u64>(), COUNT);
}

/// Each word of the record that is one above its bound, a word 0 that says something else, and too few
/// words: 92, before 70 to 74. At its bound a word is none of them.
#[test]
fn records_that_are_none_of_a_unit() {
    let (byte, two, four) = (0xFF, 0xFFFF, 0xFFFF_FFFF);
    let most = [two, byte, four, four, four, four, four, byte, byte, four];
    let mut refused = 0;
    for number in 0..200 {
        let mut rng = Prng::new(number ^ 92);
        let mut call = legal(&mut rng);
        if number % 2 == 0 {
            spoil(&mut rng, &mut call);
        }
        let good = call.unit.record();
        let mut bad: Vec<Vec<u64>> = (0..RECORD).map(|words| good[..words].to_vec()).collect();
        let mut with = |k: usize, word: u64| {
            let mut record = good.to_vec();
            record[k] = word;
            bad.push(record);
        };
        let any = rng.u64().max(3);
        for word in [0, 1, 3, UNIT + (1 << 32), any] {
            with(0, word);
        }
        for k in 5..RECORD {
            let bound: u64 = most.get(k - 5).copied().unwrap_or(0);
            for word in [bound + 1, bound + (1 << 33), u64::MAX] {
                with(k, word);
            }
        }
        for record in bad {
            let mut output = call.output.clone();
            let answer =
                library::pack(&record, call.cid, call.sn, call.m, &call.bytes, &mut output);
            assert_eq!(answer, (92, library::LEN), "{record:?}");
            assert!(output == call.output, "output of a refused call");
            refused += 1;
        }
    }
    println!("{refused} calls refused with 92");
    assert!(refused > 10_000);
}

/// Fields at their bounds, and words behind a record's 24, which do not count.
#[test]
fn records_at_their_bounds() {
    let mut rng = Prng::new(5);
    let mut call = legal(&mut rng);
    for kind in 0..5 {
        call.unit = Unit {
            packet_id: u16::MAX,
            kind,
            psn: u32::MAX,
            mpu: u32::MAX,
            fields: UnitFields {
                fragment: u32::MAX,
                sample: u32::MAX,
                offset: u32::MAX,
                priority: u8::MAX,
                dependency: u8::MAX,
            },
            item: u32::MAX,
            place: [u64::MAX; 4],
        };
        call.output = vec![0xEE; written(kind, call.bytes.len(), call.m)];
        assert_eq!(compare(&call), 0);
        let record = [&call.unit.record()[..], &[u64::MAX; 5]].concat();
        let (mut one, mut other) = (call.output.clone(), call.output.clone());
        let (bytes, m) = (&call.bytes, call.m);
        let long = library::pack(&record, call.cid, call.sn, m, bytes, &mut one);
        let exact = library::pack(&record[..RECORD], call.cid, call.sn, m, bytes, &mut other);
        assert_eq!((long.0, long), (0, exact));
        assert!(one == other && one != call.output);
    }
}
