//! The second program's commands, see `USAGE`.

use std::fs::{create_dir_all, write};
use std::io::{self, stdin, stdout, BufWriter};
use std::path::Path;
use std::process::ExitCode;

const USAGE: &str = "usage:
  second listing < stream             lists a UART stream
  second totals HEARER < stream       lists it as HEARER hears it, with the turn totals: right,
                                      channel-alone, one-number, gap-of-255 or closes-only
  second trip CHANNEL CIRCUMFERENCE [HEARER] < stream
                                      shows an odometer that hears it, by the right hearer
                                      if no other is named
  second captures DIRECTORY           writes the captures for the class";

fn main() -> ExitCode {
    // Bytes that are no text become U+FFFD, which stands in no command.
    let arguments = std::env::args_os().skip(1).map(|word| word.to_string_lossy().into_owned());
    let arguments: Vec<String> = arguments.collect();
    let words: Vec<&str> = arguments.iter().map(String::as_str).collect();
    match run(&words) {
        Ok(Ok(())) => ExitCode::SUCCESS,
        Ok(Err(error)) => {
            eprintln!("second: {error}");
            ExitCode::FAILURE
        }
        Err(complaint) => {
            eprintln!("{complaint}");
            ExitCode::from(2)
        }
    }
}

/// A complaint where the words are no command.
fn run(words: &[&str]) -> Result<io::Result<()>, &'static str> {
    let (input, output) = (stdin().lock(), BufWriter::new(stdout().lock()));
    match words {
        ["listing"] => Ok(second::listing::list(input, output)),
        ["totals", name] => {
            let hearer = second::wrong::hearer(name).ok_or(USAGE)?;
            Ok(second::totals::list_totals(hearer, input, output))
        }
        ["trip", settings @ ..] => {
            let (hearer, odometer) = second::trip::settings(settings)?;
            Ok(second::trip::trip(hearer, odometer, input, output))
        }
        ["captures", directory] => Ok(write_captures(Path::new(directory))),
        _ => Err(USAGE),
    }
}

fn write_captures(directory: &Path) -> io::Result<()> {
    create_dir_all(directory)?;
    for (name, bytes) in second::captures::all() {
        write(directory.join(name), bytes)?;
    }
    Ok(())
}
