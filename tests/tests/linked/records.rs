//! Settings, commands and events in words: what the library is given, and what it must answer.

use second::calls::{self, Event, Place, Receiver, Unit};
use second::capture::START_LEN;
use second::control_block::BLOCK_LEN;
use second::fields::{be16, be32};
use second::packets::{KIND_ITEM, MAX_IDS};

use super::library::{NOTE, RECORD, SETTINGS, UNIT};

pub type Record = [u64; RECORD];
pub type Settings = [u64; SETTINGS];

/// A call, with what it is given beside state and memories.
#[derive(Clone, Copy, Debug)]
pub enum Command<'a> {
    /// C's operands.
    Start(&'a [u8]),
    Frame(&'a [u8]),
    LostFrame,
    Slot(&'a [u8]),
    LostSlot,
}

/// The settings that C's operands say.
pub fn settings(operands: &[u8]) -> Settings {
    let mut words = [0; SETTINGS];
    words[0] = be16(operands, 0).into();
    words[1] = be16(operands, 2).into();
    words[2] = operands[4].into();
    words[3] = be32(operands, 5 + 2 * MAX_IDS).into();
    for k in 0..MAX_IDS {
        words[4 + k] = be16(operands, 5 + 2 * k).into();
    }
    words
}

/// The second decoder's start with these settings, which fit its fields.
pub fn start(settings: &Settings) -> Result<Receiver, u8> {
    let id = |k: usize| u16::try_from(settings[4 + k]).expect("16 bits");
    let ids: [u16; MAX_IDS] = std::array::from_fn(id);
    let [stream, cid] = [settings[0], settings[1]].map(|word| word as u16);
    let n = u8::try_from(settings[2]).expect("8 bits");
    let joined_max = u32::try_from(settings[3]).expect("32 bits");
    calls::start(stream, cid, n, &ids, joined_max)
}

/// All commands of a capture, also behind one that would end it. F and S that are cut have the bytes that
/// are left, a cut C is none; a byte that is no command is passed over.
pub fn commands(capture: &[u8]) -> Vec<Command<'_>> {
    let mut rest = capture;
    let mut out = Vec::new();
    while let Some((letter, behind)) = rest.split_first() {
        let part = |len: usize| behind.split_at(len.min(behind.len()));
        rest = behind;
        match letter {
            b'C' if behind.len() >= START_LEN - 1 => {
                rest = &behind[START_LEN - 1..];
                out.push(Command::Start(&behind[..START_LEN - 1]));
            }
            b'F' => {
                let (block, after) = part(BLOCK_LEN);
                rest = after;
                out.push(Command::Frame(block));
            }
            b'S' if behind.len() >= 2 => {
                let (data, after) = part(2 + usize::from(be16(behind, 0)));
                rest = after;
                out.push(Command::Slot(&data[2..]));
            }
            b'X' => out.push(Command::LostFrame),
            b'L' => out.push(Command::LostSlot),
            _ => {}
        }
    }
    out
}

/// The record of an event.
pub fn record(event: &Event) -> Record {
    let mut words = [0; RECORD];
    match event {
        Event::Nothing => {}
        Event::Note { number, packet_id } => {
            words[0] = NOTE;
            words[1] = u64::from(*number);
            words[5] = packet_id.unwrap_or(0).into();
        }
        Event::Unit(unit) => words = unit_record(unit),
    }
    words
}

fn unit_record(unit: &Unit) -> Record {
    let mut words = [0; RECORD];
    let (memory, at, len) = match unit.place {
        Place::Packet { at, len } => (0, at, len),
        Place::Collecting { at, len } => (1, at, len),
    };
    words[0] = UNIT;
    words[2..5].copy_from_slice(&[memory, at as u64, len as u64]);
    words[5] = unit.packet_id.into();
    words[6] = unit.kind.into();
    words[7] = unit.psn.into();
    words[8] = unit.mpu.into();
    let fields = unit.fields;
    if unit.kind == KIND_ITEM {
        words[14] = fields.fragment.into();
    } else {
        words[9] = fields.fragment.into();
    }
    words[10] = fields.sample.into();
    words[11] = fields.offset.into();
    words[12] = fields.priority.into();
    words[13] = fields.dependency.into();
    words
}
