//! Measures the proved decoder beside the second one and beside a plain copy: as whole processes and in
//! memory, on four captures, as lines and call by call; what a command without data costs, and packing.
//!
//! `bench [FRAMES [ROUNDS [PROGRAM]]]`. PROGRAM is the capture program, else TLV_CAPTURE names it.
//! `bench write NAME FRAMES FILE` writes one of the captures to a file.

mod calls;
mod captures;
mod clock;
mod commands;
mod decoders;
mod linkage;
mod memory;
mod packing;
mod processes;
mod table;

use std::env;
use std::error::Error;
use std::fs;
use std::io;
use std::path::PathBuf;
use std::process::ExitCode;

use processes::Programs;
use table::Times;

/// Where `rt check tlv_capture` writes the capture program.
const TLV_CAPTURE: &str = concat!(env!("CARGO_MANIFEST_DIR"), "/../crates/tlv_capture/out/tlv_capture");

/// What the figures mean.
const PROCESSES: &str = "
Whole processes: gigabytes of capture per second of wall time, from the start of the process to its end.
A capture comes from a file in the page cache on standard input, its lines go to /dev/null. Plain copy:
a process that reads the file in blocks of the same size and copies each to another memory.";
const MEMORY: &str = "
In memory: gigabytes of capture per second of processor time. A decoder reads the capture in memory and
writes its lines to memory. Plain copy: the whole capture to memory of the same length.";
const CALLS: &str = "
Calls: gigabytes of capture per second of processor time. A program makes the calls of a capture's
commands in memory, takes the events of each, and adds up the bytes of every unit in place.";
const COMMANDS: &str = "
Commands without data: nanoseconds of processor time for each, in memory. F is taken away from the frames
that L and S come in.";
const PACKING: &str = "
Packing: nanoseconds of processor time for each piece of a unit of kind 2, from memory to memory. A round
packs about as many pieces in each row, so a unit of few is packed again and again. Plain copy: the packets
to memory of the same length. The last row has a whole call, refused once the pieces are counted.";

/// How much is measured, and which program.
struct Settings {
    frames: usize,
    rounds: usize,
    program: PathBuf,
}

impl Settings {
    fn new(mut words: impl Iterator<Item = String>) -> Result<Self, Box<dyn Error>> {
        let mut number = |otherwise| words.next().map_or(Ok(otherwise), |word| word.parse());
        let (Ok(frames @ 1..), Ok(rounds @ 1..)) = (number(200), number(15)) else {
            return Err("FRAMES and ROUNDS are decimal numbers above 0".into());
        };
        let program = words.next().map(PathBuf::from);
        let program = program.or_else(|| env::var_os("TLV_CAPTURE").map(PathBuf::from));
        Ok(Settings {
            frames,
            rounds,
            program: program.unwrap_or(TLV_CAPTURE.into()),
        })
    }
}

fn main() -> ExitCode {
    let mut words = env::args().skip(1).peekable();
    let done = match words.peek().map(String::as_str) {
        Some(processes::SECOND) => {
            second::capture::run(io::stdin().lock(), io::stdout().lock()).map_err(Into::into)
        }
        Some(processes::COPY) => processes::copy().map_err(Into::into),
        Some("write") => write(&words.skip(1).collect::<Vec<_>>()),
        _ => Settings::new(words).and_then(|settings| measure(&settings)),
    };
    match done {
        Ok(()) => ExitCode::SUCCESS,
        Err(error) => {
            eprintln!("bench: {error}");
            ExitCode::FAILURE
        }
    }
}

/// Writes a capture to a file, and prints what it has.
fn write(words: &[String]) -> Result<(), Box<dyn Error>> {
    let [name, frames, file] = words else {
        return Err("write takes NAME, FRAMES and FILE".into());
    };
    let Ok(frames @ 1..) = frames.parse() else {
        return Err("FRAMES is a decimal number above 0".into());
    };
    let measured = captures::named(name, frames).ok_or(format!("there is no capture {name}"))?;
    fs::write(file, &measured.capture).map_err(|error| format!("{file}: {error}"))?;
    println!("{name}: {}", measured.what);
    let bytes = measured.capture.len();
    println!("    {bytes} bytes, {} packets", measured.packets);
    Ok(())
}

/// A capture's row.
struct Row {
    name: &'static str,
    bytes: usize,
    processes: Times,
    memory: Times,
    calls: Times,
}

fn measure(settings: &Settings) -> Result<(), Box<dyn Error>> {
    let rounds = settings.rounds;
    let programs = Programs::new(&settings.program)?;
    println!(
        "The best of {rounds} rounds is given; a ratio is one of speeds, above 1 is faster.\n"
    );
    let mut rows = Vec::new();
    for measured in captures::all(settings.frames) {
        let capture = &measured.capture[..];
        let (processes, text) = programs.measure(capture, rounds)?;
        println!("{}: {}", measured.name, measured.what);
        let (calls, sum) = calls::measure(capture, rounds)?;
        println!("    {}", summary(&measured, &text, &sum)?);
        rows.push(Row {
            name: measured.name,
            bytes: capture.len(),
            processes,
            memory: memory::measure(capture, &text, rounds)?,
            calls,
        });
    }
    let (empty, _) = programs.measure(&[], rounds)?;

    print(PROCESSES, &rows, |row| &row.processes);
    let milliseconds = |best: clock::Best| best.seconds() * 1e3;
    println!(
        "{:<24} {:>12.2} {:>12.2} {:>12.2}",
        "empty capture, ms",
        milliseconds(empty.copy),
        milliseconds(empty.second),
        milliseconds(empty.proved)
    );
    print(MEMORY, &rows, |row| &row.memory);
    print(CALLS, &rows, |row| &row.calls);
    println!("{COMMANDS}\n");
    commands::measure(rounds)?;
    println!("{PACKING}\n");
    packing::measure(rounds)
}

/// A table of speeds, and what they mean.
fn print(what: &str, rows: &[Row], times: impl Fn(&Row) -> &Times) {
    println!("{what}\n");
    table::heading("GB/s");
    for row in rows {
        table::speeds(row.name, row.bytes, times(row));
    }
}

/// What a capture comes to, from its text; it must not be refused.
fn summary(
    measured: &captures::Measured,
    text: &[u8],
    sum: &calls::Sum,
) -> Result<String, Box<dyn Error>> {
    let last = std::str::from_utf8(text)?.lines().rev().take(2);
    let last: Vec<&str> = last.collect();
    if last.iter().any(|line| line.starts_with("refused")) {
        return Err(format!("the capture is {}", last[1]).into());
    }
    let words: Vec<&str> = last[0].split(' ').collect();
    let ["end", frames, units, notes] = words[..] else {
        return Err(format!("no end line: {}", last[0]).into());
    };
    if (units, notes) != (&*sum.units.to_string(), &*sum.notes.to_string()) {
        return Err("the calls give other units or notes than the lines".into());
    }
    let (bytes, packets) = (measured.capture.len() as f64 / 1e6, measured.packets);
    let lines = text.len() as f64 / 1e6;
    Ok(format!(
        "{bytes:.1} MB, {frames} frames, {packets} packets, {units} units, {notes} notes, {lines:.2} MB of lines"
    ))
}
