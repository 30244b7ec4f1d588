//! Whole processes: from a file on standard input to /dev/null, from the start to the end.

use std::env;
use std::error::Error;
use std::fs::{self, File};
use std::hint::black_box;
use std::io::{self, Read};
use std::path::{Path, PathBuf};
use std::process::{Command, Stdio};
use std::time::Instant;

use second::capture::READ_BLOCK;

use crate::clock::Best;
use crate::table::Times;

/// Words by which this program is the second decoder's, or copies its input.
pub const SECOND: &str = "--second-capture";
pub const COPY: &str = "--copy";

/// Reads standard input in blocks, and copies each to another memory.
pub fn copy() -> io::Result<()> {
    let mut input = io::stdin().lock();
    let (mut block, mut other) = (vec![0; READ_BLOCK], vec![0; READ_BLOCK]);
    loop {
        let len = input.read(&mut block)?;
        if len == 0 {
            return Ok(());
        }
        other[..len].copy_from_slice(&block[..len]);
        black_box(&mut other);
    }
}

/// A folder for captures; it goes with this value.
struct Folder(PathBuf);

impl Folder {
    fn new() -> io::Result<Self> {
        let path = env::temp_dir().join(format!("bench-{}", std::process::id()));
        fs::create_dir(&path)?;
        Ok(Folder(path))
    }
}

impl Drop for Folder {
    fn drop(&mut self) {
        if let Err(error) = fs::remove_dir_all(&self.0) {
            eprintln!("{}: {error}", self.0.display());
        }
    }
}

/// The programs, and a file that they read.
pub struct Programs {
    proved: PathBuf,
    this: PathBuf,
    folder: Folder,
}

impl Programs {
    pub fn new(proved: &Path) -> Result<Self, Box<dyn Error>> {
        if !proved.is_file() {
            let what = "is not there: tools/build writes crates/tlv_capture/out/tlv_capture";
            return Err(format!("{} {what}", proved.display()).into());
        }
        Ok(Programs {
            proved: proved.to_path_buf(),
            this: env::current_exe()?,
            folder: Folder::new()?,
        })
    }

    fn copy(&self) -> Command {
        self.own(COPY)
    }

    fn second(&self) -> Command {
        self.own(SECOND)
    }

    fn proved(&self) -> Command {
        Command::new(&self.proved)
    }

    fn own(&self, word: &str) -> Command {
        let mut command = Command::new(&self.this);
        command.arg(word);
        command
    }

    fn input(&self) -> PathBuf {
        self.folder.0.join("capture")
    }

    /// What a program prints of the file.
    fn output(&self, mut command: Command) -> Result<Vec<u8>, Box<dyn Error>> {
        let input = File::open(self.input())?;
        let output = command
            .stdin(input)
            .stderr(Stdio::inherit())
            .output()
            .map_err(|error| format!("{command:?}: {error}"))?;
        if !output.status.success() {
            return Err(format!("{command:?}: {}", output.status).into());
        }
        Ok(output.stdout)
    }

    /// Sees the time of one run over the file.
    fn time(&self, mut command: Command, best: &mut Best) -> Result<(), Box<dyn Error>> {
        let input = File::open(self.input())?;
        command.stdin(input).stdout(Stdio::null());
        let start = Instant::now();
        let status = command.status()?;
        best.see(start.elapsed());
        if !status.success() {
            return Err(format!("{command:?}: {status}").into());
        }
        Ok(())
    }

    /// The times of a capture, and its text, which both programs must print. The file was just written
    /// and read, so it is in memory.
    pub fn measure(
        &self,
        capture: &[u8],
        rounds: usize,
    ) -> Result<(Times, Vec<u8>), Box<dyn Error>> {
        fs::write(self.input(), capture)?;
        let text = self.output(self.second())?;
        if self.output(self.proved())? != text {
            return Err("the programs' outputs differ".into());
        }
        let mut times = Times::new();
        for _ in 0..rounds {
            self.time(self.copy(), &mut times.copy)?;
            self.time(self.second(), &mut times.second)?;
            self.time(self.proved(), &mut times.proved)?;
        }
        Ok((times, text))
    }
}
