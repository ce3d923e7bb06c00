//! Writes a month file to standard output: that of a seed, or a full month.

use std::io::{self, Write};
use std::process::ExitCode;

use reference::generate::{full_month, month_file};

const USAGE: &str = "usage: generate SEED
       generate full RESOURCES DAYS SEED    (up to 64 resources and 31 days)";

fn main() -> ExitCode {
    let arguments: Vec<String> = std::env::args().skip(1).collect();
    let Some(file) = requested_file(&arguments) else {
        eprintln!("{USAGE}");
        return ExitCode::FAILURE;
    };
    match io::stdout().lock().write_all(&file) {
        Ok(()) => ExitCode::SUCCESS,
        Err(error) => {
            eprintln!("generate: {error}");
            ExitCode::FAILURE
        }
    }
}

fn requested_file(arguments: &[String]) -> Option<Vec<u8>> {
    match arguments {
        [seed] => Some(month_file(seed.parse().ok()?)),
        [full, resources, days, seed] if full == "full" => {
            let resources = resources.parse().ok().filter(|count| *count <= 64)?;
            let days = days.parse().ok().filter(|count| *count <= 31)?;
            Some(full_month(resources, days, seed.parse().ok()?))
        }
        _ => None,
    }
}
