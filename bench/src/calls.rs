//! The calls, one by one, from a capture's commands in memory: frame, slot, lost slot and lost frame, the
//! events of each, and every unit's bytes in place.

use std::error::Error;
use std::hint::black_box;

use second::calls::{self, show, Event};
use second::capture::{COLLECTING, START_LEN};
use second::control_block::BLOCK_LEN;
use second::fields::{be16, be32};
use second::packets::MAX_IDS;
use second::slots::PACKET_MEMORY;

use crate::linkage::{self, RECORD, SETTINGS, STATE};
use crate::table::Times;

/// Records that an array has room for.
const ROOM: usize = 64;

/// What a reading came to: units, notes, and a sum over what units carry and over their bytes.
#[derive(Clone, Copy, Default, PartialEq)]
pub struct Sum {
    pub units: u64,
    pub notes: u64,
    pub sum: u64,
}

impl Sum {
    #[inline(always)]
    fn note(&mut self, number: u64, packet_id: u64) {
        self.notes += 1;
        self.add([number, packet_id, 0, 0]);
    }

    #[inline(always)]
    fn unit(&mut self, fields: [u64; 4], bytes: &[u8]) {
        self.units += 1;
        self.add(fields);
        let (eights, rest) = bytes.as_chunks::<8>();
        for eight in eights {
            self.sum = self.sum.wrapping_add(u64::from_le_bytes(*eight));
        }
        for &byte in rest {
            self.sum = self.sum.wrapping_add(byte.into());
        }
    }

    #[inline(always)]
    fn add(&mut self, words: [u64; 4]) {
        for word in words {
            self.sum = self.sum.wrapping_mul(31).wrapping_add(word);
        }
    }
}

/// A receiver with its memories. A call answers its refusal, or 0.
trait Receiver {
    fn start(&mut self, operands: &[u8]) -> u8;
    fn frame(&mut self, block: &[u8]) -> u8;
    fn lost_frame(&mut self) -> u8;
    fn slot(&mut self, data: &[u8]) -> u8;
    fn lost_slot(&mut self) -> u8;
    /// Gives all events that wait to the sum.
    fn events(&mut self, sum: &mut Sum) -> u8;
}

/// Reads a whole capture, in the same way for both decoders; the refusal, if any.
#[inline(always)]
fn read(receiver: &mut impl Receiver, capture: &[u8]) -> Result<Sum, u8> {
    let mut sum = Sum::default();
    let mut refusal = receiver.start(&capture[1..START_LEN]);
    let mut rest = &capture[START_LEN..];
    while refusal == 0 && !rest.is_empty() {
        let (letter, behind) = (rest[0], &rest[1..]);
        let len = match letter {
            b'F' => BLOCK_LEN,
            b'S' => 2 + usize::from(be16(behind, 0)),
            _ => 0,
        };
        let (operands, after) = behind.split_at(len);
        refusal = match letter {
            b'F' => receiver.frame(operands),
            b'S' => receiver.slot(&operands[2..]),
            b'L' => receiver.lost_slot(),
            _ => receiver.lost_frame(),
        };
        if refusal == 0 && letter != b'F' {
            refusal = receiver.events(&mut sum);
        }
        rest = after;
    }
    if refusal == 0 {
        Ok(sum)
    } else {
        Err(refusal)
    }
}

/// The second decoder's receiver.
struct Second {
    receiver: Option<Box<calls::Receiver>>,
    packet: Vec<u8>,
    collecting: Vec<u8>,
}

impl Second {
    fn new() -> Self {
        Second {
            receiver: None,
            packet: vec![0; PACKET_MEMORY],
            collecting: vec![0; COLLECTING],
        }
    }

    #[inline(always)]
    fn receiver(&mut self) -> &mut calls::Receiver {
        self.receiver.as_mut().expect("a start was accepted")
    }
}

fn number(answer: Result<(), u8>) -> u8 {
    answer.err().unwrap_or(0)
}

impl Receiver for Second {
    fn start(&mut self, operands: &[u8]) -> u8 {
        let ids: [u16; MAX_IDS] = std::array::from_fn(|k| be16(operands, 5 + 2 * k));
        let (stream, cid) = (be16(operands, 0), be16(operands, 2));
        let joined_max = be32(operands, 5 + 2 * MAX_IDS);
        match calls::start(stream, cid, operands[4], &ids, joined_max) {
            Ok(receiver) => self.receiver = Some(Box::new(receiver)),
            Err(refusal) => return refusal,
        }
        0
    }

    fn frame(&mut self, block: &[u8]) -> u8 {
        number(self.receiver().frame(block))
    }

    fn lost_frame(&mut self) -> u8 {
        number(self.receiver().lost_frame())
    }

    #[inline(always)]
    fn slot(&mut self, data: &[u8]) -> u8 {
        let receiver = self.receiver.as_mut().expect("a start was accepted");
        number(receiver.slot(data, &mut self.packet, &self.collecting))
    }

    fn lost_slot(&mut self) -> u8 {
        let receiver = self.receiver.as_mut().expect("a start was accepted");
        number(receiver.lost_slot(&self.packet, &self.collecting))
    }

    #[inline(always)]
    fn events(&mut self, sum: &mut Sum) -> u8 {
        let receiver = self.receiver.as_mut().expect("a start was accepted");
        loop {
            match receiver.next(&self.packet, &mut self.collecting) {
                Ok(Event::Nothing) => return 0,
                Ok(Event::Note { number, packet_id }) => {
                    sum.note(number.into(), packet_id.unwrap_or(0).into());
                }
                Ok(Event::Unit(unit)) => {
                    let [id, kind] = [unit.packet_id.into(), unit.kind.into()];
                    let fields = [id, kind, unit.psn.into(), unit.mpu.into()];
                    sum.unit(fields, show(&unit, &self.packet, &self.collecting));
                }
                Err(refusal) => return refusal,
            }
        }
    }
}

/// The proved library's receiver.
struct Proved {
    state: Vec<u64>,
    packet: Vec<u8>,
    collecting: Vec<u8>,
    records: Vec<u64>,
}

impl Proved {
    fn new() -> Self {
        Proved {
            state: vec![0; STATE],
            packet: vec![0; PACKET_MEMORY],
            collecting: vec![0; COLLECTING],
            records: vec![0; ROOM * RECORD],
        }
    }
}

impl Receiver for Proved {
    fn start(&mut self, operands: &[u8]) -> u8 {
        let mut settings = [0; SETTINGS];
        settings[0] = be16(operands, 0).into();
        settings[1] = be16(operands, 2).into();
        settings[2] = operands[4].into();
        settings[3] = be32(operands, 5 + 2 * MAX_IDS).into();
        for k in 0..MAX_IDS {
            settings[4 + k] = be16(operands, 5 + 2 * k).into();
        }
        linkage::start(&settings, &mut self.state)
    }

    fn frame(&mut self, block: &[u8]) -> u8 {
        linkage::frame(&mut self.state, block)
    }

    fn lost_frame(&mut self) -> u8 {
        linkage::lost_frame(&mut self.state)
    }

    #[inline(always)]
    fn slot(&mut self, data: &[u8]) -> u8 {
        linkage::slot(&mut self.state, &mut self.packet, &self.collecting, data)
    }

    fn lost_slot(&mut self) -> u8 {
        linkage::lost_slot(&mut self.state, &self.packet, &self.collecting)
    }

    #[inline(always)]
    fn events(&mut self, sum: &mut Sum) -> u8 {
        loop {
            let (state, records) = (&mut self.state, &mut self.records);
            let answer = linkage::events(state, &self.packet, &mut self.collecting, records);
            let count = match answer {
                Ok(0) => return 0,
                Ok(count) => count,
                Err(refusal) => return refusal,
            };
            for record in self.records.chunks_exact(RECORD).take(count) {
                if record[0] == 1 {
                    sum.note(record[1], record[5]);
                    continue;
                }
                let memory = if record[2] == 0 {
                    &self.packet
                } else {
                    &self.collecting
                };
                let (at, len) = (record[3] as usize, record[4] as usize);
                let bytes = &memory[at..at + len];
                sum.unit([record[5], record[6], record[7], record[8]], bytes);
            }
        }
    }
}

/// Each decoder's reading stays a function of its own.
#[inline(never)]
fn read_second(receiver: &mut Second, capture: &[u8]) -> Result<Sum, u8> {
    read(receiver, capture)
}

#[inline(never)]
fn read_proved(receiver: &mut Proved, capture: &[u8]) -> Result<Sum, u8> {
    read(receiver, capture)
}

/// The times of a capture, which both decoders must read to the same sum.
pub fn measure(capture: &[u8], rounds: usize) -> Result<(Times, Sum), Box<dyn Error>> {
    let mut times = Times::new();
    let (mut ours, mut theirs) = (Second::new(), Proved::new());
    let mut target = vec![1; capture.len()];
    let refused = |number: u8| format!("a call is refused with {number}");
    let sum = read_second(&mut ours, capture).map_err(refused)?;
    if read_proved(&mut theirs, capture).map_err(refused)? != sum {
        return Err("the decoders' units differ".into());
    }
    for _ in 0..rounds {
        times.copy.time(|| {
            target.copy_from_slice(capture);
            black_box(&mut target);
        });
        times
            .second
            .time(|| black_box(read_second(&mut ours, black_box(capture))).is_ok());
        times
            .proved
            .time(|| black_box(read_proved(&mut theirs, black_box(capture))).is_ok());
    }
    Ok((times, sum))
}
