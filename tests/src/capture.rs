//! Capture: commands in, lines out. Bytes may come in blocks of any size.

use std::io::{self, Read, Write};

use crate::calls::{self, Event, Receiver};
use crate::control_block::BLOCK_LEN;
use crate::fields::{be16, be32};
use crate::packets::MAX_IDS;
use crate::slots::PACKET_MEMORY;
use crate::Refusal;

/// Collecting bytes that the program lends.
pub const COLLECTING: usize = 65_536;
/// Length of C with its operands: stream, CID, n, sixteen ids, R.
pub const START_LEN: usize = 1 + 2 + 2 + 1 + 2 * MAX_IDS + 4;
/// Bytes that are read from standard input at one go.
pub const READ_BLOCK: usize = 65_536;

/// The longest command: S with its length, and 65,535 bytes.
const LONGEST_COMMAND: usize = 3 + 65_535;

enum Stage {
    /// Only C is known.
    Fresh,
    /// Every command but C is known.
    Running(Box<Receiver>),
    Ended,
}

/// How far a command can be told from its first bytes.
enum Command {
    Known(usize),
    /// More bytes are needed to tell its length.
    Cut,
    Unknown,
}

/// A capture being read.
pub struct Capture {
    stage: Stage,
    /// A command of which not all bytes have come.
    partial: Vec<u8>,
    packet_memory: Vec<u8>,
    collecting: Vec<u8>,
    /// Next is called until nothing waits.
    owed: bool,
    frames: u64,
    slot: u64,
    units: u64,
    notes: u64,
    line: Line,
}

impl Default for Capture {
    fn default() -> Self {
        Capture::with_memories(vec![0; PACKET_MEMORY], vec![0; COLLECTING])
    }
}

impl Capture {
    /// A capture that is lent these memories.
    pub fn with_memories(packet_memory: Vec<u8>, collecting: Vec<u8>) -> Self {
        Capture {
            stage: Stage::Fresh,
            partial: Vec::new(),
            packet_memory,
            collecting,
            owed: false,
            frames: 0,
            slot: 0,
            units: 0,
            notes: 0,
            line: Line::new(),
        }
    }

    /// Packet memory and collecting memory.
    pub fn memories(&self) -> (&[u8], &[u8]) {
        (&self.packet_memory, &self.collecting)
    }

    /// Makes one call, of next where it is owed, else that of the first command of `rest`; gives the
    /// bytes behind it, or none where no call is made.
    pub fn call_once<'a>(&mut self, rest: &'a [u8], lines: &mut Vec<u8>) -> Option<&'a [u8]> {
        if self.owed {
            self.call_next(true, lines);
            return Some(rest);
        }
        if rest.is_empty() || self.ended() {
            return None;
        }
        match self.command(rest) {
            Command::Known(len) if len <= rest.len() => {
                self.call_command(&rest[..len], lines);
                Some(&rest[len..])
            }
            _ => None,
        }
    }

    /// Whether further bytes can change nothing.
    pub fn ended(&self) -> bool {
        matches!(self.stage, Stage::Ended)
    }

    /// Reads a block; its lines are appended to `lines`.
    pub fn feed(&mut self, block: &[u8], lines: &mut Vec<u8>) {
        let mut rest = block;
        while !self.partial.is_empty() && !rest.is_empty() && !self.ended() {
            rest = self.complete(rest, lines);
        }
        let read = self.carry_out_all(rest, lines);
        self.partial.extend_from_slice(&rest[read..]);
    }

    /// Carries out the whole commands that `bytes` begins with; how many bytes they are. An unknown
    /// command ends the capture, and all that follows it counts as read.
    fn carry_out_all(&mut self, bytes: &[u8], lines: &mut Vec<u8>) -> usize {
        let mut rest = bytes;
        while !rest.is_empty() && !self.ended() {
            match self.command(rest) {
                Command::Known(len) if len <= rest.len() => {
                    self.carry_out(&rest[..len], lines);
                    rest = &rest[len..];
                }
                Command::Unknown => self.stage = Stage::Ended,
                _ => return bytes.len() - rest.len(),
            }
        }
        bytes.len()
    }

    /// Tops the partial command up from the block, and carries it out once it is whole.
    fn complete<'a>(&mut self, block: &'a [u8], lines: &mut Vec<u8>) -> &'a [u8] {
        let due = match self.command(&self.partial) {
            Command::Known(len) => len - self.partial.len(),
            _ => 1,
        };
        let (taken, rest) = block.split_at(due.min(block.len()));
        self.partial.extend_from_slice(taken);
        if let Command::Known(len) = self.command(&self.partial) {
            if len == self.partial.len() {
                let mut whole = std::mem::take(&mut self.partial);
                self.carry_out(&whole, lines);
                whole.clear();
                self.partial = whole;
            }
        }
        rest
    }

    /// The end of the input: a cut command isn't carried out. Writes the last line, and gives packet
    /// memory and collecting memory back.
    pub fn finish(self, lines: &mut Vec<u8>) -> (Vec<u8>, Vec<u8>) {
        let mut line = Line::new();
        line.word(b"end");
        for number in [self.frames, self.units, self.notes] {
            line.number(number);
        }
        line.end(lines);
        (self.packet_memory, self.collecting)
    }

    fn command(&self, bytes: &[u8]) -> Command {
        let running = matches!(self.stage, Stage::Running(_));
        match (bytes[0], running) {
            (b'C', false) => Command::Known(START_LEN),
            (b'F', true) => Command::Known(1 + BLOCK_LEN),
            (b'X' | b'L', true) => Command::Known(1),
            (b'S', true) if bytes.len() < 3 => Command::Cut,
            (b'S', true) => Command::Known(3 + usize::from(be16(bytes, 1))),
            _ => Command::Unknown,
        }
    }

    /// A whole command, and then next until nothing waits. It stays a function, so that it is as fast in
    /// every program.
    #[inline(never)]
    fn carry_out(&mut self, command: &[u8], lines: &mut Vec<u8>) {
        self.call_command(command, lines);
        if self.owed {
            self.call_next(false, lines);
        }
    }

    fn refused(&mut self, number: Refusal, lines: &mut Vec<u8>) {
        let mut line = Line::new();
        line.word(b"refused");
        line.number(number.into());
        line.end(lines);
        self.stage = Stage::Ended;
        self.owed = false;
    }

    fn call_command(&mut self, command: &[u8], lines: &mut Vec<u8>) {
        match self.call(command) {
            Ok(owed) => self.owed = owed,
            Err(number) => self.refused(number, lines),
        }
    }

    /// The command's call; whether next is owed after it.
    fn call(&mut self, command: &[u8]) -> Result<bool, Refusal> {
        let Stage::Running(receiver) = &mut self.stage else {
            self.stage = Stage::Running(Box::new(start(command)?));
            return Ok(false);
        };
        match command[0] {
            b'F' => {
                receiver.frame(&command[1..])?;
                self.frames += 1;
                self.slot = 0;
                return Ok(false);
            }
            b'X' => {
                receiver.lost_frame()?;
                self.frames += 1;
                self.slot = 0;
            }
            b'S' => {
                receiver.slot(&command[3..], &mut self.packet_memory, &self.collecting)?;
                self.slot += 1;
            }
            _ => {
                receiver.lost_slot(&self.packet_memory, &self.collecting)?;
                self.slot += 1;
            }
        }
        Ok(true)
    }

    /// Calls of next, each with its line: one, or until nothing waits.
    #[inline(always)]
    fn call_next(&mut self, once: bool, lines: &mut Vec<u8>) {
        let Stage::Running(receiver) = &mut self.stage else {
            return;
        };
        let (packet_memory, collecting) = (&self.packet_memory[..], &mut self.collecting[..]);
        let refusal = loop {
            match receiver.next(packet_memory, collecting) {
                Ok(Event::Nothing) => {
                    self.owed = false;
                    return;
                }
                Ok(Event::Note { number, packet_id }) => {
                    self.notes += 1;
                    let line = self.line.of(self.frames, self.slot);
                    line.word(b" note");
                    line.number(number.into());
                    match packet_id {
                        Some(id) => line.number(id.into()),
                        None => line.word(b" -"),
                    }
                    line.end(lines);
                }
                Ok(Event::Unit(unit)) => {
                    self.units += 1;
                    let shown = calls::show(&unit, packet_memory, collecting);
                    let line = self.line.of(self.frames, self.slot);
                    line.word(b" unit");
                    line.number(unit.packet_id.into());
                    line.number(unit.kind.into());
                    line.number(unit.psn.into());
                    line.number(unit.mpu.into());
                    line.number(shown.len() as u64);
                    line.end(lines);
                }
                Err(number) => break number,
            }
            if once {
                return;
            }
        };
        self.refused(refusal, lines);
    }
}

/// C's operands.
fn start(command: &[u8]) -> Result<Receiver, Refusal> {
    let mut ids = [0; MAX_IDS];
    for (k, id) in ids.iter_mut().enumerate() {
        *id = be16(command, 6 + 2 * k);
    }
    let joined_max = be32(command, 6 + 2 * MAX_IDS);
    let (stream_id, cid) = (be16(command, 1), be16(command, 3));
    calls::start(stream_id, cid, command[5], &ids, joined_max)
}

/// A line being written, from frame and slot on, which stay for the next line of the same slot.
struct Line {
    bytes: [u8; LONGEST_LINE],
    len: usize,
    /// Frame and slot that it begins with, and their length; 0 if it has none.
    place: (u64, u64),
    place_len: usize,
}

/// Two words, seven numbers of at most 20 digits, spaces and the end of the line take less.
const LONGEST_LINE: usize = 176;

/// The digits of 0 to 99, two each.
const PAIRS: [[u8; 2]; 100] = {
    let mut pairs = [[0; 2]; 100];
    let mut n = 0;
    while n < 100 {
        pairs[n] = [b'0' + (n / 10) as u8, b'0' + (n % 10) as u8];
        n += 1;
    }
    pairs
};

impl Line {
    fn new() -> Self {
        Line {
            bytes: [0; LONGEST_LINE],
            len: 0,
            place: (0, 0),
            place_len: 0,
        }
    }

    /// A line that begins with frame and slot.
    #[inline(always)]
    fn of(&mut self, frame: u64, slot: u64) -> &mut Self {
        self.len = self.place_len;
        if self.place != (frame, slot) || self.place_len == 0 {
            self.len = 0;
            self.digits(frame);
            self.number(slot);
            (self.place, self.place_len) = ((frame, slot), self.len);
        }
        self
    }

    #[inline(always)]
    fn word(&mut self, word: &[u8]) {
        self.bytes[self.len..self.len + word.len()].copy_from_slice(word);
        self.len += word.len();
    }

    /// A number, with a space before it.
    #[inline(always)]
    fn number(&mut self, number: u64) {
        if number < 10 {
            self.word(&[b' ', b'0' + number as u8]);
        } else {
            self.word(b" ");
            self.digits(number);
        }
    }

    /// A number's digits: those of its hundreds first, then a pair.
    fn digits(&mut self, number: u64) {
        if number < 10 {
            self.word(&[b'0' + number as u8]);
            return;
        }
        if number >= 100 {
            self.digits(number / 100);
        }
        self.word(&PAIRS[(number % 100) as usize]);
    }

    /// The end of the line: it is appended to `lines`.
    #[inline(always)]
    fn end(&mut self, lines: &mut Vec<u8>) {
        self.word(b"\n");
        lines.extend_from_slice(&self.bytes[..self.len]);
    }
}

/// The lines of a whole capture.
pub fn lines_of(capture: &[u8]) -> Vec<u8> {
    let mut lines = Vec::new();
    let mut reading = Capture::default();
    reading.feed(capture, &mut lines);
    reading.finish(&mut lines);
    lines
}

/// Writes the lines of a whole capture.
pub fn write_lines(capture: &[u8], output: &mut impl Write) -> io::Result<()> {
    output.write_all(&lines_of(capture))
}

/// Reads a capture to its end, or to the command that ends it, and writes its lines on the way.
pub fn run(mut input: impl Read, mut output: impl Write) -> io::Result<()> {
    let mut reading = Capture::default();
    // A command of which not all bytes have come stands first; the next block is read behind it.
    let mut bytes = vec![0; LONGEST_COMMAND + READ_BLOCK];
    let mut held = 0;
    let mut lines = Vec::new();
    while !reading.ended() {
        let len = match input.read(&mut bytes[held..held + READ_BLOCK]) {
            Ok(0) => break,
            Ok(len) => len,
            Err(error) if error.kind() == io::ErrorKind::Interrupted => continue,
            Err(error) => return Err(error),
        };
        let end = held + len;
        let read = reading.carry_out_all(&bytes[..end], &mut lines);
        bytes.copy_within(read..end, 0);
        held = end - read;
        output.write_all(&lines)?;
        lines.clear();
    }
    reading.finish(&mut lines);
    output.write_all(&lines)?;
    output.flush()
}
