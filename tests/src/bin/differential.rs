//! Runs generated captures through another capture program and compares its lines with ours.
//!
//! `differential PROGRAM [COUNT [FIRST]]`, or the program in OTHER_CAPTURE. Ends at the first
//! difference; the capture and both outputs then stay in the folder that is printed.

use std::collections::BTreeMap;
use std::env;
use std::fs::{self, File};
use std::io;
use std::path::{Path, PathBuf};
use std::process::{Command, ExitCode, Stdio};

use second::capture::lines_of;
use second::generate::catalogue;

fn main() -> ExitCode {
    let mut arguments = env::args().skip(1);
    let Some(program) = arguments.next().or_else(|| env::var("OTHER_CAPTURE").ok()) else {
        eprintln!("usage: differential PROGRAM [COUNT [FIRST]]");
        return ExitCode::from(2);
    };
    let mut number = |otherwise| arguments.next().map_or(Ok(otherwise), |text| text.parse());
    let (Ok(count), Ok(first)) = (number(4_000), number(0)) else {
        eprintln!("COUNT and FIRST are decimal numbers");
        return ExitCode::from(2);
    };
    match compare(Path::new(&program), first, count) {
        Ok(true) => ExitCode::SUCCESS,
        Ok(false) => ExitCode::FAILURE,
        Err(error) => {
            eprintln!("{program}: {error}");
            ExitCode::from(2)
        }
    }
}

/// Where captures stand for the other program to read: never in the repository.
fn folder() -> io::Result<PathBuf> {
    let folder = env::temp_dir().join(format!("differential-{}", std::process::id()));
    fs::create_dir_all(&folder)?;
    Ok(folder)
}

/// Whether all captures gave the same lines.
fn compare(program: &Path, first: u64, count: u64) -> io::Result<bool> {
    let folder = folder()?;
    let mut compared: BTreeMap<&str, u64> = BTreeMap::new();
    let (mut capture_bytes, mut line_bytes) = (0u64, 0u64);
    for number in first..first + count {
        let capture = catalogue::capture(number);
        let ours = lines_of(&capture);
        let theirs = lines_of_other(program, &capture, &folder)?;
        if theirs != ours {
            report(&folder, number, &ours, &theirs)?;
            return Ok(false);
        }
        *compared.entry(catalogue::family(number)).or_default() += 1;
        capture_bytes += capture.len() as u64;
        line_bytes += ours.len() as u64;
    }
    fs::remove_dir_all(&folder)?;
    for (family, count) in &compared {
        println!("{count:8} {family}");
    }
    println!("{count} captures compared, no difference");
    println!("{capture_bytes} bytes of captures, {line_bytes} bytes of lines");
    Ok(true)
}

/// The other program reads the capture from a file, so that it need not be fed while it writes.
fn lines_of_other(program: &Path, capture: &[u8], folder: &Path) -> io::Result<Vec<u8>> {
    let path = folder.join("capture");
    fs::write(&path, capture)?;
    let output = Command::new(program)
        .stdin(Stdio::from(File::open(&path)?))
        .stderr(Stdio::inherit())
        .output()?;
    if output.status.success() {
        Ok(output.stdout)
    } else {
        Ok([output.stdout, format!("({})\n", output.status).into_bytes()].concat())
    }
}

/// Saves both outputs beside the capture, and prints where they part.
fn report(folder: &Path, number: u64, ours: &[u8], theirs: &[u8]) -> io::Result<()> {
    fs::write(folder.join("ours"), ours)?;
    fs::write(folder.join("theirs"), theirs)?;
    println!("capture {number} ({}) differs", catalogue::family(number));
    let (ours, theirs) = (
        String::from_utf8_lossy(ours),
        String::from_utf8_lossy(theirs),
    );
    let (mut ours, mut theirs) = (ours.lines(), theirs.lines());
    for line in 1.. {
        let (mine, other) = (ours.next(), theirs.next());
        if mine != other || mine.is_none() {
            println!("line {line}: ours {mine:?}, theirs {other:?}");
            break;
        }
    }
    println!("saved in {}", folder.display());
    Ok(())
}
