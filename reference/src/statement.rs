//! The whole job: from the bytes of a month file to the bytes of the output.

use std::io::Write;

use crate::assessment::{assess_day, line_state, Category, Figures, PerPool, Settings, State};
use crate::file::{DayRecord, MonthRecord, Placed, Record, Records, ResourceRecord};
use crate::money::{charge, close_pool, payment, PoolClose, PRICE_LIMIT};
use crate::refusal::{Fault, Refusal};

const ROSTER_LIMIT: usize = 64;

/// Settles a month file. Answers what is to be printed, and whether the file was
/// settled: otherwise it is one line of refusal.
pub fn settle(file: &[u8]) -> (Vec<u8>, bool) {
    match statement(file) {
        Ok(statement) => (statement, true),
        Err(refusal) => (format!("{refusal}\n").into_bytes(), false),
    }
}

/// The statement of a month file.
pub fn statement(file: &[u8]) -> Result<Vec<u8>, Refusal> {
    read_month(file)?
        .close()
        .map_err(|fault| fault.at(file.len()))
}

/// Reads all records, and records the days as they come.
fn read_month(file: &[u8]) -> Result<OpenMonth, Refusal> {
    let mut records = Records::of(file);
    let given = match records.next() {
        None => return Err(Fault::CutShort.at(0)),
        Some(first) => match first?.record {
            Record::Month(given) => given,
            Record::Resource(_) | Record::Day(_) => return Err(Fault::OutOfPlace.at(0)),
        },
    };
    // The month is opened by the first day record or by the end of the file; its
    // faults wait until then, but are told at its own record.
    let open = |roster| OpenMonth::new(&given, roster).map_err(|fault| fault.at(0));

    let mut roster = Vec::with_capacity(ROSTER_LIMIT);
    let first_day = loop {
        let Some(next) = records.next() else {
            return open(roster);
        };
        let Placed { offset, record } = next?;
        match record {
            Record::Month(_) => return Err(Fault::OutOfPlace.at(offset)),
            Record::Resource(resource) => {
                let account = enroll(resource, roster.len()).map_err(|fault| fault.at(offset))?;
                roster.push(account);
            }
            Record::Day(day) => break (day, offset),
        }
    };

    let mut month = open(roster)?;
    let (day, offset) = first_day;
    month.record(day).map_err(|fault| fault.at(offset))?;
    for next in records {
        let Placed { offset, record } = next?;
        match record {
            Record::Month(_) | Record::Resource(_) => return Err(Fault::OutOfPlace.at(offset)),
            Record::Day(day) => month.record(day).map_err(|fault| fault.at(offset))?,
        }
    }
    Ok(month)
}

/// A resource and what was recorded of it so far.
struct Account {
    category: Category,
    /// A bit for each day recorded, day 1 the lowest.
    recorded: u32,
    sums: PerPool<Figures>,
}

/// Takes a resource into a roster of so many.
fn enroll(resource: ResourceRecord, roster_length: usize) -> Result<Account, Fault> {
    if resource.number as usize != roster_length {
        return Err(Fault::OutOfPlace);
    }
    match Category::from_word(resource.category) {
        Some(category) if roster_length < ROSTER_LIMIT => Ok(Account {
            category,
            recorded: 0,
            sums: PerPool::default(),
        }),
        _ => Err(Fault::UnfitResource),
    }
}

#[derive(Clone, Copy)]
enum Standing {
    Binding,
    Advisory,
}

/// A month whose terms are within their limits.
struct OpenMonth {
    year: u32,
    month: u32,
    settings: Settings,
    standing: Standing,
    price: u64,
    roster: Vec<Account>,
}

impl OpenMonth {
    fn new(given: &MonthRecord, roster: Vec<Account>) -> Result<OpenMonth, Fault> {
        let settings = Settings::new(&given.trade_month).ok_or(Fault::UnfitTerms)?;
        let standing = match given.standing {
            0 => Standing::Binding,
            1 => Standing::Advisory,
            _ => return Err(Fault::UnfitTerms),
        };
        if given.price > PRICE_LIMIT {
            return Err(Fault::UnfitTerms);
        }
        Ok(OpenMonth {
            year: given.trade_month.year,
            month: given.trade_month.month,
            settings,
            standing,
            price: u64::from(given.price),
            roster,
        })
    }

    fn record(&mut self, given: DayRecord) -> Result<(), Fault> {
        let account = self
            .roster
            .get_mut(given.resource as usize)
            .ok_or(Fault::UnknownResource)?;
        if !(1..=self.settings.length).contains(&given.day) {
            return Err(Fault::NoSuchDay);
        }
        let mark = 1 << (given.day - 1);
        if account.recorded & mark != 0 {
            return Err(Fault::GivenTwice);
        }
        let submission = given.submission();
        submission.check(account.category)?;

        let day = assess_day(&self.settings, account.category, given.day, &submission);
        account.recorded |= mark;
        account.sums.generic.add(day.generic);
        account.sums.flexible.add(day.flexible);
        Ok(())
    }

    /// Closes the month. The book holds nothing before it, in either standing.
    fn close(&self) -> Result<Vec<u8>, Fault> {
        let lines: Vec<PerPool<State>> = self.roster.iter().map(|it| self.lines(it)).collect();
        let pools = PerPool {
            generic: close_pool(0, self.price, lines.iter().map(|line| line.generic))?,
            flexible: close_pool(0, self.price, lines.iter().map(|line| line.flexible))?,
        };
        let mut out = Vec::with_capacity(128 + 128 * lines.len());
        self.write(&mut out, &lines, pools)
            .expect("a vector takes all that is written to it");
        Ok(out)
    }

    fn lines(&self, account: &Account) -> PerPool<State> {
        let days = self.settings.assessed_days(account.category);
        PerPool {
            generic: line_state(account.sums.generic, days.generic),
            flexible: line_state(account.sums.flexible, days.flexible),
        }
    }

    fn write(
        &self,
        out: &mut Vec<u8>,
        lines: &[PerPool<State>],
        pools: PerPool<PoolClose>,
    ) -> std::io::Result<()> {
        let standing = match self.standing {
            Standing::Binding => "BINDING",
            Standing::Advisory => "ADVISORY",
        };
        writeln!(out, "MONTH {}-{:02} {standing}", self.year, self.month)?;
        for (number, (account, line)) in self.roster.iter().zip(lines).enumerate() {
            let PerPool { generic, flexible } = account.sums;
            self.write_line(out, number, 'G', generic, line.generic, pools.generic.rate)?;
            self.write_line(
                out,
                number,
                'F',
                flexible,
                line.flexible,
                pools.flexible.rate,
            )?;
        }
        write_pool(out, 'G', pools.generic)?;
        write_pool(out, 'F', pools.flexible)
    }

    fn write_line(
        &self,
        out: &mut Vec<u8>,
        number: usize,
        pool: char,
        sums: Figures,
        line: State,
        rate: u64,
    ) -> std::io::Result<()> {
        let (state, cents) = match line {
            State::Empty => return Ok(()),
            State::Charged { .. } => ('C', charge(line, self.price)),
            State::Neutral => ('N', 0),
            State::Paid { .. } => ('P', payment(line, rate)),
        };
        let Figures {
            obligation,
            availability,
        } = sums;
        writeln!(
            out,
            "{number} {pool} {obligation} {availability} {state} {cents}"
        )
    }
}

fn write_pool(out: &mut Vec<u8>, pool: char, close: PoolClose) -> std::io::Result<()> {
    let PoolClose {
        charges,
        rate,
        payments,
        balance,
    } = close;
    writeln!(out, "POOL {pool} {charges} {rate} {payments} {balance}")
}

#[cfg(test)]
mod tests {
    use super::*;

    fn push(file: &mut Vec<u8>, words: &[u32]) {
        file.extend(words.iter().flat_map(|word| word.to_be_bytes()));
    }

    fn push_day(file: &mut Vec<u8>, resource: u32, day: u32, showings: [u32; 4], hour: [u32; 4]) {
        push(file, &[3, resource, day]);
        push(file, &showings);
        (0..24).for_each(|_| push(file, &hour));
    }

    /// June 2018: the first of two resources bids nothing, the second all it shows.
    fn example() -> Vec<u8> {
        let mut file = Vec::new();
        push(&mut file, &[1, 2018, 6, 0, 14, 16, 16, 0, 379_000]);
        push(&mut file, &[2, 0, 0, 1000]);
        push(&mut file, &[2, 1, 0, 1001]);
        push_day(&mut file, 0, 1, [100_000, 0, 0, 0], [0; 4]);
        push_day(
            &mut file,
            1,
            1,
            [100_000, 0, 0, 0],
            [100_000, 0, 100_000, 0],
        );
        file
    }

    fn set(file: &mut [u8], offset: usize, word: u32) {
        file[offset..offset + 4].copy_from_slice(&word.to_be_bytes());
    }

    fn output(file: &[u8]) -> String {
        let (out, settled) = settle(file);
        let out = String::from_utf8(out).unwrap();
        assert_eq!(settled, out.starts_with("MONTH "));
        out
    }

    #[test]
    fn the_example_comes_out_to_the_letter() {
        let file = example();
        assert_eq!(file.len(), 892);
        assert_eq!(
            output(&file),
            "MONTH 2018-06 BINDING\n\
             0 G 100000000 0 C 1705500\n\
             1 G 100000000 100000000 P 81213\n\
             POOL G 1705500 1137000 81213 1624287\n\
             POOL F 0 0 0 0\n"
        );
    }

    #[test]
    fn the_example_cut_by_a_byte_is_refused() {
        assert_eq!(output(&example()[..891]), "REFUSED 40 R 480\n");
        assert_eq!(output(&[]), "REFUSED 40 R 0\n");
    }

    #[test]
    fn a_month_alone_is_settled() {
        let mut file = example();
        file.truncate(36);
        set(&mut file, 28, 1);
        set(&mut file, 8, 12);
        assert_eq!(
            output(&file),
            "MONTH 2018-12 ADVISORY\nPOOL G 0 0 0 0\nPOOL F 0 0 0 0\n"
        );
    }

    #[test]
    fn a_fault_of_the_month_waits_for_the_first_day() {
        let mut file = example();
        set(&mut file, 32, 500_001);
        assert_eq!(output(&file), "REFUSED 12 S 0\n");
        assert_eq!(output(&file[..36]), "REFUSED 12 S 0\n");
        // The first day record is read before the month is opened, but not yet used.
        assert_eq!(output(&file[..479]), "REFUSED 40 R 68\n");
        set(&mut file, 72, 9);
        assert_eq!(output(&file), "REFUSED 12 S 0\n");
        set(&mut file, 60, 4);
        assert_eq!(output(&file), "REFUSED 10 S 52\n");
    }

    #[test]
    fn of_two_faults_of_a_record_one_is_told() {
        let mut file = example();
        set(&mut file, 60, 4); // The second resource's category ...
        set(&mut file, 56, 0); // ... and its number.
        assert_eq!(output(&file), "REFUSED 43 R 52\n");
        let mut file = example();
        set(&mut file, 84, u32::MAX); // Flexible showing of category 0,
        set(&mut file, 76, 31); // a day that June does not have,
        set(&mut file, 72, 2); // an unknown resource.
        assert_eq!(output(&file), "REFUSED 16 S 68\n");
        set(&mut file, 72, 0);
        assert_eq!(output(&file), "REFUSED 17 S 68\n");
        set(&mut file, 76, 30);
        assert_eq!(output(&file), "REFUSED 19 S 68\n");
        set(&mut file, 84, 1);
        assert_eq!(output(&file), "REFUSED 20 S 68\n");
    }

    #[test]
    fn a_65th_resource_is_refused_at_once() {
        let mut file = example()[..36].to_vec();
        (0..64).for_each(|number| push(&mut file, &[2, number, 3, 0]));
        assert!(settle(&file).1);
        push(&mut file, &[2, 64, 0, 0]);
        assert_eq!(output(&file), "REFUSED 10 S 1060\n");
        set(&mut file, 1064, 65);
        assert_eq!(output(&file), "REFUSED 43 R 1060\n");
    }

    #[test]
    fn the_largest_fund_of_a_file_is_far_below_the_limit() {
        // One work day: 1 January 2018. All of it is owed and nothing is given.
        let mut file = Vec::new();
        push(&mut file, &[1, 2018, 1, 0x7fff_fffe, 1, 1, 1, 0, 500_000]);
        (0..64).for_each(|number| push(&mut file, &[2, number, 0, 0]));
        (0..64).for_each(|number| push_day(&mut file, number, 1, [2_000_000, 0, 0, 0], [0; 4]));
        let out = output(&file);
        assert!(out.contains("POOL G 60480000000 0 0 60480000000\n"));
    }
}
