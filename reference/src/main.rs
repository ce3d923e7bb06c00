//! Reads a month file on standard input and prints its statement, or one line of
//! refusal. Ends with status 0 after a statement and with status 1 otherwise.

use std::io::{self, Read, Write};
use std::process::ExitCode;

fn main() -> ExitCode {
    match run() {
        Ok(true) => ExitCode::SUCCESS,
        Ok(false) => ExitCode::FAILURE,
        Err(error) => {
            eprintln!("reference: {error}");
            ExitCode::FAILURE
        }
    }
}

fn run() -> io::Result<bool> {
    let mut file = Vec::new();
    io::stdin().lock().read_to_end(&mut file)?;
    let (out, settled) = reference::settle(&file);
    let mut stdout = io::stdout().lock();
    stdout.write_all(&out)?;
    stdout.flush()?;
    Ok(settled)
}
