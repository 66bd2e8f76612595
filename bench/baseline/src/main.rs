//! Settles one hour: reads a package from standard input, posts it to a new month and prints the
//! statement, or the refusal. Written from docs/ alone, for `bench/run` to hold the engine against.

#![forbid(unsafe_code)]

mod package;
mod posting;
mod repeats;
mod text;

use std::fs::File;
use std::io::{self, Read, Write};
use std::os::fd::AsFd;
use std::process::ExitCode;
use std::sync::Mutex;

/// Why a package or its hour is not taken: the number, and the place that it speaks of.
pub struct Refusal {
    pub number: u32,
    pub place: usize,
}

/// Every table and buffer of the program. Its first value is all zero bytes and it is static, so it
/// comes cleared with the process: as locals these arrays would be cleared again at every start.
struct Tables {
    /// One byte more than the largest package, so that a longer input is seen to be too long.
    input: [u8; package::MAX_BYTES + 1],
    hour: package::Hour,
    month: posting::Month,
    posting: posting::Tables,
    output: [u8; text::MAX_BYTES],
}

static TABLES: Mutex<Tables> = Mutex::new(Tables {
    input: [0; package::MAX_BYTES + 1],
    hour: package::Hour::EMPTY,
    month: posting::Month::CLEAR,
    posting: posting::Tables::CLEAR,
    output: [0; text::MAX_BYTES],
});

fn main() -> ExitCode {
    match TABLES
        .lock()
        .map_err(|_| ())
        .and_then(|mut tables| settle(&mut tables).map_err(|_| ()))
    {
        Ok(()) => ExitCode::SUCCESS,
        Err(()) => ExitCode::FAILURE,
    }
}

/// Prints the statement of the hour that stands on standard input, or its refusal.
fn settle(tables: &mut Tables) -> io::Result<()> {
    let Tables {
        input,
        hour,
        month,
        posting,
        output,
    } = tables;
    let length = fill(input)?;
    let posted =
        package::read(&input[..length], hour).and_then(|()| posting::post(month, hour, posting));
    let written = match posted {
        Ok(figures) => text::statement(output, hour, &posting.amounts, &figures),
        Err(refusal) => text::refused(output, &refusal),
    };
    io::stdout().lock().write_all(&output[..written])
}

/// Reads standard input to its end, or until the buffer is full; as a plain file, since the buffered
/// one of the standard library may take more than it is asked for.
fn fill(input: &mut [u8]) -> io::Result<usize> {
    let mut from = File::from(io::stdin().as_fd().try_clone_to_owned()?);
    let mut length = 0;
    while length < input.len() {
        match from.read(&mut input[length..]) {
            Ok(0) => break,
            Ok(more) => length += more,
            Err(fault) if fault.kind() == io::ErrorKind::Interrupted => {}
            Err(fault) => return Err(fault),
        }
    }
    Ok(length)
}
