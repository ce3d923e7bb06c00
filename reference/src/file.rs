//! The records of a month file.

use crate::assessment::{Bid, PerPool, Submission, TradeMonth};
use crate::refusal::{Fault, Refusal};

const WORD: usize = 4;
pub const MONTH_WORDS: usize = 9;
pub const RESOURCE_WORDS: usize = 4;
pub const DAY_WORDS: usize = 103;

/// A record and the offset of its first byte.
#[derive(Clone, Copy, Debug)]
pub struct Placed<'a> {
    pub offset: usize,
    pub record: Record<'a>,
}

#[derive(Clone, Copy, Debug)]
pub enum Record<'a> {
    Month(MonthRecord),
    Resource(ResourceRecord),
    Day(DayRecord<'a>),
}

/// The month record, as it was given: no field is tested.
#[derive(Clone, Copy, Debug)]
pub struct MonthRecord {
    pub trade_month: TradeMonth,
    pub standing: u32,
    pub price: u32,
}

impl MonthRecord {
    fn from_words(words: [u32; MONTH_WORDS]) -> MonthRecord {
        let [_, year, month, holidays, generic_start, category_2_start, category_3_start, standing, price] =
            words;
        MonthRecord {
            trade_month: TradeMonth {
                year,
                month,
                holidays,
                generic_start,
                category_2_start,
                category_3_start,
            },
            standing,
            price,
        }
    }
}

/// A resource. The statement names it by its number, so the identifier is passed over.
#[derive(Clone, Copy, Debug)]
pub struct ResourceRecord {
    pub number: u32,
    pub category: u32,
}

impl ResourceRecord {
    fn from_words(words: [u32; RESOURCE_WORDS]) -> ResourceRecord {
        let [_, number, category, _] = words;
        ResourceRecord { number, category }
    }
}

/// A resource's day. The kilowatts are read only once its place is known to be good.
#[derive(Clone, Copy, Debug)]
pub struct DayRecord<'a> {
    pub resource: u32,
    pub day: u32,
    kilowatts: &'a [u8],
}

impl<'a> DayRecord<'a> {
    fn from_bytes(record: &'a [u8]) -> DayRecord<'a> {
        let [_, resource, day] = words(record);
        DayRecord {
            resource,
            day,
            kilowatts: &record[3 * WORD..],
        }
    }

    pub fn submission(&self) -> Submission {
        let (showings, hours) = self.kilowatts.split_at(4 * WORD);
        let [shown_generic, shown_flexible, exempt_generic, exempt_flexible] = words(showings);
        let mut submission = Submission {
            shown: PerPool {
                generic: shown_generic,
                flexible: shown_flexible,
            },
            exempt: PerPool {
                generic: exempt_generic,
                flexible: exempt_flexible,
            },
            ..Submission::default()
        };
        let bids = hours.chunks_exact(2 * WORD);
        for (bid, bytes) in submission.hours.as_flattened_mut().iter_mut().zip(bids) {
            let [economic, self_scheduled] = words(bytes);
            *bid = Bid {
                economic,
                self_scheduled,
            };
        }
        submission
    }
}

/// The words at the start of the bytes, most significant byte first.
fn words<const N: usize>(bytes: &[u8]) -> [u32; N] {
    let mut words = [0; N];
    for (word, bytes) in words.iter_mut().zip(bytes.chunks_exact(WORD)) {
        *word = u32::from_be_bytes([bytes[0], bytes[1], bytes[2], bytes[3]]);
    }
    words
}

/// Reads a file record by record. A fault is the last thing that it tells.
pub struct Records<'a> {
    rest: &'a [u8],
    offset: usize,
}

impl<'a> Records<'a> {
    pub fn of(file: &'a [u8]) -> Records<'a> {
        Records {
            rest: file,
            offset: 0,
        }
    }

    fn read(&mut self) -> Result<Record<'a>, Fault> {
        if self.rest.len() < WORD {
            return Err(Fault::CutShort);
        }
        let [kind] = words(self.rest);
        match kind {
            1 => Ok(Record::Month(MonthRecord::from_words(words(
                self.take(MONTH_WORDS)?,
            )))),
            2 => Ok(Record::Resource(ResourceRecord::from_words(words(
                self.take(RESOURCE_WORDS)?,
            )))),
            3 => Ok(Record::Day(DayRecord::from_bytes(self.take(DAY_WORDS)?))),
            _ => Err(Fault::UnknownKind),
        }
    }

    fn take(&mut self, words: usize) -> Result<&'a [u8], Fault> {
        let (record, rest) = self
            .rest
            .split_at_checked(words * WORD)
            .ok_or(Fault::CutShort)?;
        self.rest = rest;
        Ok(record)
    }
}

impl<'a> Iterator for Records<'a> {
    type Item = Result<Placed<'a>, Refusal>;

    fn next(&mut self) -> Option<Self::Item> {
        if self.rest.is_empty() {
            return None;
        }
        let offset = self.offset;
        let before = self.rest.len();
        let record = self.read();
        if record.is_err() {
            self.rest = &[];
        }
        self.offset += before - self.rest.len();
        Some(match record {
            Ok(record) => Ok(Placed { offset, record }),
            Err(fault) => Err(fault.at(offset)),
        })
    }
}

#[cfg(test)]
mod tests {
    use super::*;

    fn first_refusal(file: &[u8]) -> Option<(Fault, usize)> {
        Records::of(file)
            .find_map(Result::err)
            .map(|refusal| (refusal.fault, refusal.offset))
    }

    #[test]
    fn the_kind_is_known_before_the_length() {
        assert_eq!(first_refusal(&[0, 0, 0]), Some((Fault::CutShort, 0)));
        assert_eq!(first_refusal(&[0, 0, 0, 4]), Some((Fault::UnknownKind, 0)));
        assert_eq!(first_refusal(&[0, 0, 0, 3]), Some((Fault::CutShort, 0)));
    }

    #[test]
    fn a_fault_is_told_at_its_record() {
        let mut file = vec![0; 36 + 16 + 3];
        file[3] = 1;
        file[39] = 2;
        assert_eq!(first_refusal(&file), Some((Fault::CutShort, 52)));
        file.push(9);
        assert_eq!(first_refusal(&file), Some((Fault::UnknownKind, 52)));
        assert_eq!(first_refusal(&file[..52]), None);
    }
}
