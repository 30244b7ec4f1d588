//! The round trip: units packed, padded with null packets, cut and read come back the same.

mod common;

use common::{Got, Read, Station};
use second::cutter::cut;
use second::generate::layout::{frame_of, set_pointers};
use second::generate::packet::tlv;
use second::generate::prng::Prng;
use second::generate::sender::{config, Config};
use second::packer::{pack, Head, Numbers};
use second::packets::UnitFields;

/// Data bytes by rate, from 1.
const LENGTHS: [usize; 11] = [
    1870, 2244, 2805, 3366, 3740, 4114, 4301, 4488, 4675, 4862, 5049,
];

struct Sending {
    run: Vec<u8>,
    units: Vec<Got>,
    psns: Vec<u32>,
    /// Units of more than 256 pieces, by kind.
    long: [usize; 5],
}

impl Sending {
    fn new(rng: &mut Prng, config: &Config) -> Self {
        Sending {
            run: Vec::new(),
            units: Vec::new(),
            psns: vec![rng.pick(&[0, u32::MAX - 2]); config.ids.len()],
            long: [0; 5],
        }
    }
}

fn random_head(rng: &mut Prng, config: &Config, k: usize, kind: u8) -> Head {
    let mut fields = UnitFields::default();
    if kind == 2 || kind == 3 {
        fields.fragment = rng.u32();
    }
    if kind == 2 {
        fields.sample = rng.u32();
        fields.offset = rng.u32();
        fields.priority = rng.byte();
        fields.dependency = rng.byte();
    }
    Head {
        packet_id: config.ids[k],
        kind,
        mpu: if kind == 4 { 0 } else { rng.u32() },
        fields,
    }
}

/// Sends a unit of any kind and size, short pieces perhaps more than 256.
fn send_any(rng: &mut Prng, config: &Config, sending: &mut Sending) {
    let kind = rng.below(5) as u8;
    let m = rng.pick(&[1, 2, 100, 1_399, 1_400]);
    let most = config.joined_max as usize;
    let len = match rng.below(5) {
        0 => m, // one piece, whatever R is
        1 => rng.below(most.min(3_000) + 1),
        2 => (2 * m).min(most),
        3 => (m * rng.pick(&[256, 257, 300, 513])).min(most),
        _ => rng.below(most.min(40) + 1),
    };
    send(rng, config, sending, kind, m, len);
}

/// Packs one unit; its packets stand side by side, with null packets between some of them.
fn send(rng: &mut Prng, config: &Config, sending: &mut Sending, kind: u8, m: usize, len: usize) {
    let k = rng.below(config.ids.len());
    let head = random_head(rng, config, k, kind);
    let bytes = rng.bytes(len);
    let numbers = Numbers {
        cid: config.cid,
        sn: rng.byte(),
        psn: sending.psns[k],
    };
    let pieces = len.div_ceil(m).max(1);
    let mut out = vec![0xAA; pieces * 47 + len];
    let written = pack(&head, &bytes, m, numbers, &mut out).expect("a legal unit");
    assert!(out[written..].iter().all(|&byte| byte == 0xAA));
    let mut at = 0;
    while at < written {
        let total = 4 + usize::from(u16::from_be_bytes([out[at + 2], out[at + 3]]));
        sending.run.extend(&out[at..at + total]);
        at += total;
        if rng.chance(1, 4.max(pieces / 10)) {
            null(rng, &mut sending.run);
        }
    }
    sending.psns[k] = numbers.psn.wrapping_add(pieces as u32);
    sending.long[usize::from(kind)] += usize::from(pieces > 256);
    sending.units.push(Got {
        packet_id: head.packet_id,
        kind: head.kind,
        psn: numbers.psn,
        mpu: head.mpu,
        fields: head.fields,
        bytes,
    });
}

fn null(rng: &mut Prng, run: &mut Vec<u8>) {
    let len = if rng.chance(1, 40) {
        16_380
    } else {
        rng.below(60)
    };
    let data = rng.bytes(len);
    run.extend(tlv(0x7F, 0xFF, &data));
}

/// Pads the run with null packets to a multiple of `len`.
fn pad(run: &mut Vec<u8>, len: usize) {
    let mut left = (len - run.len() % len) % len;
    if (1..4).contains(&left) {
        left += len;
    }
    if left > 0 {
        run.extend(tlv(0x7F, 0xFF, &vec![0; left - 4]));
    }
}

/// Reads the run's slots in frames of one mode, ended after the last.
fn read_run(rng: &mut Prng, config: &Config, run: &[u8], rate: u8, len: usize) -> Read {
    let (mut station, mut read) = (Station::new(config, 7), Read::default());
    let mut s = 0;
    while s * len < run.len() {
        let modulation = rng.range(1, 5) as u8;
        let plan = frame_of(rng, config.stream_id, &[(modulation << 4 | rate, 120)]);
        let (mut block, mut slots) = (plan.block, Vec::new());
        for (i, slot) in plan.slots.iter().enumerate() {
            let mut data = vec![0; slot.len];
            if slot.own {
                if s * len == run.len() {
                    break;
                }
                let (top, last) = cut(run, len, s, &mut data).expect("a slot of the run");
                set_pointers(&mut block, i, top, last);
                s += 1;
            }
            slots.push(data);
        }
        assert_eq!(station.receiver.frame(&block), Ok(()));
        for data in &slots {
            assert_eq!(station.slot(data), Ok(()));
            station.drain(&mut read);
        }
    }
    read
}

#[test]
fn units_come_back() {
    let (mut total, mut long) = (0, [0; 5]);
    for seed in 0..300 {
        let mut rng = Prng::new(seed);
        let config = config(&mut rng);
        let mut sending = Sending::new(&mut rng, &config);
        for _ in 0..rng.range(1, 40) {
            send_any(&mut rng, &config, &mut sending);
            if rng.chance(1, 3) {
                null(&mut rng, &mut sending.run);
            }
        }
        let rate = rng.range(1, 11);
        let len = LENGTHS[rate - 1];
        pad(&mut sending.run, len);
        let read = read_run(&mut rng, &config, &sending.run, rate as u8, len);
        assert_eq!(read.notes, [], "seed {seed}");
        assert!(read.units == sending.units, "seed {seed}");
        total += read.units.len();
        for (sum, count) in long.iter_mut().zip(sending.long) {
            *sum += count;
        }
    }
    println!("{total} units came back; of more than 256 pieces, by kind: {long:?}");
    assert!(total > 5_000 && long.iter().all(|&count| count > 50));
}

/// The most pieces that a unit is packed in, of each kind; the bytes are just R.
#[test]
fn units_of_65_535_pieces_come_back() {
    for kind in 0..5 {
        let mut rng = Prng::new(kind.into());
        let config = Config {
            stream_id: 1,
            cid: 5,
            ids: vec![9],
            joined_max: 65_535,
        };
        let mut sending = Sending::new(&mut rng, &config);
        send(&mut rng, &config, &mut sending, kind, 1, 65_535);
        send(&mut rng, &config, &mut sending, kind, 1_400, 65_535);
        pad(&mut sending.run, LENGTHS[10]);
        let read = read_run(&mut rng, &config, &sending.run, 11, LENGTHS[10]);
        assert_eq!(read.notes, [], "kind {kind}");
        assert_eq!(
            (read.units.len(), sending.units[0].bytes.len()),
            (2, 65_535)
        );
        assert!(read.units == sending.units, "kind {kind}");
    }
}
