//! A month file before it is written.

use crate::calendar::month_length;
use crate::file::DAY_WORDS;

/// The fields may hold anything, also what no sound file holds.
pub struct Draft {
    pub month: MonthFields,
    pub resources: Vec<Resource>,
    pub days: Vec<Day>,
}

pub struct MonthFields {
    pub year: u32,
    pub month: u32,
    pub marks: u32,
    pub starts: [u32; 3],
    pub standing: u32,
    pub price: u32,
}

#[derive(Clone)]
pub struct Resource {
    pub number: u32,
    pub category: u32,
    pub identifier: u32,
}

#[derive(Clone)]
pub struct Day {
    pub resource: u32,
    pub day: u32,
    pub showing: Showing,
    /// Day-ahead economic and self-scheduled, real-time economic and self-scheduled.
    pub hours: [[u32; 4]; 24],
}

#[derive(Clone, Copy, Default)]
pub struct Showing {
    pub generic: u32,
    pub flexible: u32,
    pub exempt_generic: u32,
    pub exempt_flexible: u32,
}

impl Draft {
    pub fn length(&self) -> u32 {
        month_length(self.month.year, self.month.month)
    }

    pub fn records(&self) -> Vec<Vec<u8>> {
        let MonthFields {
            year,
            month,
            marks,
            starts: [a, b, c],
            standing,
            price,
        } = self.month;
        let mut records = vec![record([1, year, month, marks, a, b, c, standing, price])];
        records.extend(self.resources.iter().map(Resource::record));
        records.extend(self.days.iter().map(Day::record));
        records
    }

    pub fn bytes(&self) -> Vec<u8> {
        self.records().concat()
    }
}

impl Resource {
    fn record(&self) -> Vec<u8> {
        record([2, self.number, self.category, self.identifier])
    }
}

impl Day {
    fn record(&self) -> Vec<u8> {
        let Showing {
            generic,
            flexible,
            exempt_generic,
            exempt_flexible,
        } = self.showing;
        let head = [
            3,
            self.resource,
            self.day,
            generic,
            flexible,
            exempt_generic,
            exempt_flexible,
        ];
        record(head.into_iter().chain(self.hours.into_iter().flatten()))
    }
}

/// A record of these words, most significant byte first.
pub fn record(words: impl IntoIterator<Item = u32>) -> Vec<u8> {
    let mut bytes = Vec::with_capacity(4 * DAY_WORDS);
    for word in words {
        bytes.extend_from_slice(&word.to_be_bytes());
    }
    bytes
}
