//! The job of `office canon` in plain Rust, to be timed beside it: reads PO text from standard input, at most 16,777,217
//! bytes and no further, and prints its canonical text; or only `po line L kind K` on the second output, with status 1.

mod draft;
mod entry;
mod fault;
mod header;
mod line;
mod reader;
mod writer;

use entry::Entry;
use reader::{TEXT_LIMIT, read};
use std::fs::File;
use std::io::{self, BufWriter, Read, Write};
use std::os::fd::AsFd;
use std::process::ExitCode;
use writer::write_entries;

fn main() -> ExitCode {
    let Ok(bytes) = input() else {
        return ExitCode::FAILURE;
    };
    match read(&bytes) {
        Ok(entries) => match print(&entries) {
            Ok(()) => ExitCode::SUCCESS,
            Err(_) => ExitCode::FAILURE,
        },
        Err(fault) => {
            let _ = writeln!(io::stderr(), "{fault}");
            ExitCode::FAILURE
        }
    }
}

/// The text, and one byte more than it may have if there are so many. `Stdin` would read ahead.
fn input() -> io::Result<Vec<u8>> {
    let source = File::from(io::stdin().as_fd().try_clone_to_owned()?);
    let mut bytes = Vec::new();
    source.take(TEXT_LIMIT as u64 + 1).read_to_end(&mut bytes)?;
    Ok(bytes)
}

fn print(entries: &[Entry]) -> io::Result<()> {
    let mut out = BufWriter::new(io::stdout().lock());
    write_entries(&mut out, entries)?;
    out.flush()
}
