//! Prints the units and notes of a capture on standard input, line for line as tlv_capture(1) does.

use std::io::{self, Read};

use ixohuemil::{Event, Receiver, Refusal, Settings};

fn number(bytes: &[u8]) -> usize {
    bytes.iter().fold(0, |number, &byte| number << 8 | usize::from(byte))
}

/// The next command and its operands; none where it is unknown or cut short.
fn command<'a>(rest: &mut &'a [u8]) -> Option<(u8, &'a [u8])> {
    let (&letter, behind) = rest.split_first()?;
    let (from, length) = match letter {
        b'S' => (2, number(behind.get(..2)?)),
        _ => (0, [(b'C', 41), (b'F', 1178), (b'X', 0), (b'L', 0)].iter().find(|known| known.0 == letter)?.1),
    };
    *rest = behind.get(from + length..)?;
    Some((letter, &behind[from..from + length]))
}

fn line(event: Event, units: &mut u64, notes: &mut u64) -> String {
    *(if let Event::Unit(_) = event { units } else { notes }) += 1;
    match event {
        Event::Unit(u) => format!("unit {} {} {} {} {}", u.packet_id, u.kind.number(), u.psn, u.mpu, u.bytes.len()),
        Event::Note(note) => format!("note {} {}", note.number(), note.packet_id.map_or("-".into(), |id| id.to_string())),
    }
}

/// Makes the calls of a capture, prints their lines, and counts frames, units and notes.
fn read(mut rest: &[u8], [frames, units, notes]: &mut [u64; 3]) -> Result<(), Refusal> {
    let Some((b'C', start)) = command(&mut rest) else { return Ok(()) };
    let (n, limit, mut slot) = (start[4].into(), number(&start[37..]), 0);
    let ids: Vec<u16> = (0..n).map(|k| start.get(5 + 2 * k..7 + 2 * k).map_or(0, number) as u16).collect();
    let (stream_id, cid) = (number(&start[..2]) as u16, number(&start[2..4]) as u16);
    let mut receiver = Receiver::new(&Settings::new(stream_id, cid, ids, limit as u32))?;
    let fits = n * limit <= 65_536; // tlv_capture has no more collecting memory, and refuses with 22
    while let Some((letter, operand)) = command(&mut rest) {
        match letter {
            b'F' => receiver.frame(operand)?,
            b'X' => receiver.lost_frame()?,
            b'S' if fits => receiver.slot(operand)?,
            b'S' | b'L' => receiver.lost_slot()?,
            _ => return Ok(()),
        }
        (*frames, slot) = if b"FX".contains(&letter) { (*frames + 1, 0) } else { (*frames, slot + 1) };
        (fits || letter == b'F').then_some(()).ok_or(Refusal::Memory)?;
        receiver.read_events(|event| println!("{frames} {slot} {}", line(event, units, notes)));
    }
    Ok(())
}

fn main() -> io::Result<()> {
    let (mut capture, mut totals) = (Vec::new(), [0; 3]);
    io::stdin().read_to_end(&mut capture)?;
    read(&capture, &mut totals).unwrap_or_else(|refusal| println!("refused {}", refusal.number()));
    println!("end {} {} {}", totals[0], totals[1], totals[2]);
    Ok(())
}
