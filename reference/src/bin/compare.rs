//! Compares a program with the reference over generated month files: what it
//! prints on standard output, and whether it ends with status 0.

use std::collections::BTreeMap;
use std::io::{self, Read, Write};
use std::process::{Command, ExitCode, Stdio};
use std::sync::atomic::{AtomicU64, Ordering};
use std::thread;
use std::time::Instant;

use reference::generate::month_file;
use reference::settle;

const USAGE: &str = "usage: compare PROGRAM COUNT [FIRST_SEED]";
const THREADS: usize = 2;
const DIFFERENCE_FILE: &str = "first-difference.month";

fn main() -> ExitCode {
    let arguments: Vec<String> = std::env::args().skip(1).collect();
    let Some(job) = Job::from_arguments(&arguments) else {
        eprintln!("{USAGE}");
        return ExitCode::from(2);
    };
    let begin = Instant::now();
    match job.run() {
        Ok(tally) => {
            let seconds = begin.elapsed().as_secs_f64();
            eprintln!("{:.0} files a second", tally.compared as f64 / seconds);
            report(&tally)
        }
        Err(error) => {
            eprintln!("compare: {}: {error}", job.program);
            ExitCode::from(2)
        }
    }
}

fn report(tally: &Tally) -> ExitCode {
    println!("compared {}", tally.compared);
    println!("settled {}", tally.settled);
    for (number, count) in &tally.refused {
        println!("refused {number}: {count}");
    }
    println!("differ {}", tally.differ);
    let Some(difference) = &tally.first_difference else {
        return ExitCode::SUCCESS;
    };
    if let Err(error) = std::fs::write(DIFFERENCE_FILE, month_file(difference.seed)) {
        eprintln!("compare: {DIFFERENCE_FILE}: {error}");
    }
    println!("first difference: seed {}", difference.seed);
    difference.expected.print("reference");
    difference.actual.print("program");
    ExitCode::FAILURE
}

struct Job {
    program: String,
    first: u64,
    count: u64,
}

impl Job {
    fn from_arguments(arguments: &[String]) -> Option<Job> {
        let (program, count, first) = match arguments {
            [program, count] => (program, count, 0),
            [program, count, first] => (program, count, first.parse().ok()?),
            _ => return None,
        };
        let count = count.parse().ok()?;
        Some(Job {
            program: program.clone(),
            first,
            count,
        })
    }

    fn run(&self) -> io::Result<Tally> {
        let next = AtomicU64::new(0);
        thread::scope(|scope| {
            let workers: Vec<_> = (0..THREADS)
                .map(|_| scope.spawn(|| self.work(&next)))
                .collect();
            let mut total = Tally::default();
            for worker in workers {
                total.add(worker.join().expect("a worker does not panic")?);
            }
            Ok(total)
        })
    }

    /// Takes one seed after another until none is left.
    fn work(&self, next: &AtomicU64) -> io::Result<Tally> {
        let mut tally = Tally::default();
        loop {
            let place = next.fetch_add(1, Ordering::Relaxed);
            if place >= self.count {
                return Ok(tally);
            }
            let seed = self.first.wrapping_add(place);
            let file = month_file(seed);
            let (out, success) = settle(&file);
            let expected = Answer { out, success };
            let actual = ask(&self.program, &file)?;
            tally.count(seed, expected, actual);
        }
    }
}

/// What a program printed, and whether it ended with status 0.
#[derive(PartialEq, Eq)]
struct Answer {
    out: Vec<u8>,
    success: bool,
}

impl Answer {
    fn print(&self, name: &str) {
        let status = if self.success {
            "status 0"
        } else {
            "another status than 0"
        };
        println!("--- {name}, {status}:");
        print!("{}", String::from_utf8_lossy(&self.out));
        if !self.out.ends_with(b"\n") {
            println!("(no line feed at the end)");
        }
    }

    /// The number of a refusal, or `None` for a statement.
    fn refused(&self) -> Option<u32> {
        let line = std::str::from_utf8(&self.out).ok()?;
        line.strip_prefix("REFUSED ")?
            .split(' ')
            .next()?
            .parse()
            .ok()
    }
}

/// Runs a program with a file on standard input.
fn ask(program: &str, file: &[u8]) -> io::Result<Answer> {
    let mut child = Command::new(program)
        .stdin(Stdio::piped())
        .stdout(Stdio::piped())
        .spawn()?;
    let mut stdin = child.stdin.take().expect("standard input is piped");
    let mut stdout = child.stdout.take().expect("standard output is piped");
    let mut out = Vec::new();
    // Fed by another thread, so that neither side waits for the other for ever.
    let read = thread::scope(|scope| {
        scope.spawn(move || {
            // A program may end before it has read all: that is no error here.
            let _ = stdin.write_all(file);
        });
        stdout.read_to_end(&mut out)
    });
    let success = child.wait()?.success();
    read?;
    Ok(Answer { out, success })
}

#[derive(Default)]
struct Tally {
    compared: u64,
    settled: u64,
    refused: BTreeMap<u32, u64>,
    differ: u64,
    first_difference: Option<Difference>,
}

struct Difference {
    seed: u64,
    expected: Answer,
    actual: Answer,
}

impl Tally {
    fn count(&mut self, seed: u64, expected: Answer, actual: Answer) {
        self.compared += 1;
        match expected.refused() {
            Some(number) => *self.refused.entry(number).or_default() += 1,
            None => self.settled += 1,
        }
        if expected != actual {
            self.differ += 1;
            // A thread's seeds rise, so its first difference has its lowest seed.
            self.first_difference.get_or_insert(Difference {
                seed,
                expected,
                actual,
            });
        }
    }

    fn add(&mut self, other: Tally) {
        self.compared += other.compared;
        self.settled += other.settled;
        for (number, count) in other.refused {
            *self.refused.entry(number).or_default() += count;
        }
        self.differ += other.differ;
        let both = [self.first_difference.take(), other.first_difference];
        self.first_difference = both.into_iter().flatten().min_by_key(|it| it.seed);
    }
}
