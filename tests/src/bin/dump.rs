//! `dump FOLDER COUNT [FIRST]`: writes captures of the catalogue to files, one each, named by their numbers.

use std::path::Path;
use std::process::ExitCode;
use std::{env, fs, io};

use second::generate::catalogue;

fn main() -> ExitCode {
    let arguments: Vec<String> = env::args().skip(1).collect();
    let number = |place: usize| arguments.get(place).map(|text| text.parse::<u64>());
    let (Some(folder), Some(Ok(count)), Ok(first)) =
        (arguments.first(), number(1), number(2).unwrap_or(Ok(0)))
    else {
        eprintln!("usage: dump FOLDER COUNT [FIRST]");
        return ExitCode::from(2);
    };
    match dump(Path::new(folder), first, count) {
        Ok(()) => ExitCode::SUCCESS,
        Err(error) => {
            eprintln!("{folder}: {error}");
            ExitCode::from(2)
        }
    }
}

fn dump(folder: &Path, first: u64, count: u64) -> io::Result<()> {
    fs::create_dir_all(folder)?;
    for number in first..first + count {
        fs::write(folder.join(number.to_string()), catalogue::capture(number))?;
    }
    Ok(())
}
