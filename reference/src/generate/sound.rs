//! Sound months, most of them small.

use std::ops::RangeInclusive;

use super::draft::{Day, Draft, MonthFields, Resource, Showing};
use super::rng::Rng;
use crate::assessment::KILOWATT_LIMIT;
use crate::calendar::{all_days, month_length};
use crate::money::PRICE_LIMIT;

/// A valid month, most often a small one.
pub fn valid(rng: &mut Rng) -> Draft {
    match rng.below(1000) {
        0..=1 => sound(rng, 64, 31),
        2..=14 => sound_up_to(rng, 64, 3),
        15..=24 => sound_up_to(rng, 2, 31),
        25..=44 => sound(rng, 0, 0),
        _ => sound_up_to(rng, 4, 5),
    }
}

/// A small valid month, to be changed.
pub fn small(rng: &mut Rng) -> Draft {
    sound_up_to(rng, 3, 3)
}

fn sound_up_to(rng: &mut Rng, resources: u32, days: u32) -> Draft {
    let resources = rng.within(1..=resources);
    let days = rng.within(1..=days);
    sound(rng, resources, days)
}

fn sound(rng: &mut Rng, resources: u32, days: u32) -> Draft {
    let mut draft = Draft {
        month: sound_month(rng),
        resources: sound_resources(rng, resources),
        days: Vec::new(),
    };
    let all: Vec<u32> = (1..=draft.length()).collect();
    for resource in &draft.resources {
        let mut bids = Bids::random(rng);
        let changing = rng.one_in(3);
        let mut chosen = all.clone();
        rng.shuffle(&mut chosen);
        chosen.truncate(days as usize);
        chosen.sort_unstable();
        for day in chosen {
            if changing {
                bids = Bids::random(rng);
            }
            let showing = Showing::random(rng, resource.category);
            draft
                .days
                .push(bids.day(rng, resource.number, day, showing));
        }
    }
    if rng.one_in(3) {
        rng.shuffle(&mut draft.days);
    }
    draft
}

pub fn sound_month(rng: &mut Rng) -> MonthFields {
    let year = rng.within(2018..=2099);
    let month = rng.within(1..=12);
    let days = all_days(month_length(year, month));
    let marks = match rng.below(10) {
        0..=4 => 0,
        5..=6 => 1 << rng.below(28),
        7 => rng.word() & rng.word(),
        8 => rng.word(),
        _ => !(1 << rng.below(28)),
    };
    MonthFields {
        year,
        month,
        marks: marks & days,
        starts: sound_starts(rng),
        standing: u32::from(rng.one_in(4)),
        price: match rng.below(8) {
            0 => 0,
            1 => PRICE_LIMIT,
            2 => rng.within(1..=50),
            3..=4 => 379_000,
            _ => rng.within(0..=PRICE_LIMIT),
        },
    }
}

fn sound_starts(rng: &mut Rng) -> [u32; 3] {
    let start = rng.within(1..=20);
    match rng.below(4) {
        // Windows that overlap in part, or are the same.
        0 => [start; 3].map(|start| (start + rng.within(0..=4)).min(20)),
        1 => [start; 3],
        _ => [start, rng.within(1..=20), rng.within(1..=20)],
    }
}

pub fn sound_resources(rng: &mut Rng, count: u32) -> Vec<Resource> {
    (0..count)
        .map(|number| Resource {
            number,
            category: rng.within(0..=3),
            identifier: rng.word(),
        })
        .collect()
}

impl Showing {
    pub fn random(rng: &mut Rng, category: u32) -> Showing {
        let limit = match rng.below(8) {
            0 => 10,
            1 => 1000,
            2 => KILOWATT_LIMIT,
            _ => 400_000,
        };
        let mut showing = Showing::up_to(rng, limit, category);
        match rng.below(12) {
            0 => showing.generic = 0,
            1 => showing.flexible = 0,
            2 if category > 0 => showing.flexible = showing.generic,
            3 => showing.generic = KILOWATT_LIMIT,
            4 if category > 0 => showing.flexible = KILOWATT_LIMIT,
            _ => {}
        }
        if rng.one_in(4) {
            showing.exempt_generic = part(rng, showing.generic);
        }
        if rng.one_in(4) {
            showing.exempt_flexible = part(rng, showing.flexible);
        }
        showing
    }

    pub fn up_to(rng: &mut Rng, limit: u32, category: u32) -> Showing {
        Showing {
            generic: rng.within(0..=limit),
            flexible: if category > 0 {
                rng.within(0..=limit)
            } else {
                0
            },
            ..Showing::default()
        }
    }

    /// The net showings. An unsound showing may be exempt beyond itself.
    fn net(&self) -> (u32, u32) {
        (
            self.generic.saturating_sub(self.exempt_generic),
            self.flexible.saturating_sub(self.exempt_flexible),
        )
    }
}

/// Some or all of a showing.
fn part(rng: &mut Rng, whole: u32) -> u32 {
    match rng.below(3) {
        0 => whole,
        _ => rng.within(0..=whole),
    }
}

/// How a resource bids.
pub struct Bids {
    pub aim: Aim,
    /// Thousandths of the aim.
    pub permille: RangeInclusive<u32>,
    pub split: Split,
    pub markets: Markets,
    /// The same in all hours of a day.
    pub steady: bool,
}

/// The kilowatts that bids are around.
pub enum Aim {
    Generic,
    Flexible,
    Larger,
    Sum,
    Difference,
}

pub enum Split {
    Economic,
    SelfScheduled,
    Mixed,
    /// The whole amount in each.
    Both,
}

pub enum Markets {
    Equal,
    Apart,
    /// One kilowatt less in one of them.
    NearlyEqual,
    DayAheadOnly,
    RealTimeOnly,
}

impl Bids {
    pub fn random(rng: &mut Rng) -> Bids {
        if rng.one_in(4) {
            return Bids::faithful();
        }
        Bids {
            aim: match rng.below(8) {
                0 => Aim::Generic,
                1 => Aim::Flexible,
                2..=3 => Aim::Larger,
                4..=6 => Aim::Sum,
                _ => Aim::Difference,
            },
            permille: rng
                .pick(&[
                    0..=0,
                    0..=1000,
                    0..=2000,
                    900..=1000,
                    930..=960,
                    945..=945,
                    945..=985,
                    970..=1000,
                    985..=985,
                    1000..=1000,
                    1000..=1000,
                    1000..=1200,
                ])
                .clone(),
            split: match rng.below(6) {
                0..=2 => Split::Economic,
                3 => Split::SelfScheduled,
                4 => Split::Mixed,
                _ => Split::Both,
            },
            markets: match rng.below(12) {
                0..=6 => Markets::Equal,
                7..=8 => Markets::Apart,
                9 => Markets::NearlyEqual,
                10 => Markets::DayAheadOnly,
                _ => Markets::RealTimeOnly,
            },
            steady: rng.one_in(2),
        }
    }

    /// All that is owed is offered, so that there is something to pay for.
    fn faithful() -> Bids {
        Bids {
            aim: Aim::Sum,
            permille: 1000..=1000,
            split: Split::Economic,
            markets: Markets::Equal,
            steady: true,
        }
    }

    pub fn day(&self, rng: &mut Rng, resource: u32, day: u32, showing: Showing) -> Day {
        let mut hours = [[0; 4]; 24];
        if self.steady {
            hours.fill(self.hour(rng, showing));
        } else {
            hours
                .iter_mut()
                .for_each(|hour| *hour = self.hour(rng, showing));
        }
        Day {
            resource,
            day,
            showing,
            hours,
        }
    }

    fn hour(&self, rng: &mut Rng, showing: Showing) -> [u32; 4] {
        let day_ahead = self.bid(rng, showing);
        let nothing = [0; 2];
        let [[a, b], [c, d]] = match self.markets {
            Markets::Equal => [day_ahead, day_ahead],
            Markets::Apart => [day_ahead, self.bid(rng, showing)],
            Markets::NearlyEqual => {
                let mut markets = [day_ahead; 2];
                let bid = &mut markets[rng.below(2)][rng.below(2)];
                *bid = bid.saturating_sub(1);
                markets
            }
            Markets::DayAheadOnly => [day_ahead, nothing],
            Markets::RealTimeOnly => [nothing, day_ahead],
        };
        [a, b, c, d]
    }

    /// An economic and a self-scheduled amount.
    fn bid(&self, rng: &mut Rng, showing: Showing) -> [u32; 2] {
        let (generic, flexible) = showing.net();
        let aim = match self.aim {
            Aim::Generic => generic,
            Aim::Flexible => flexible,
            Aim::Larger => generic.max(flexible),
            Aim::Sum => generic.saturating_add(flexible),
            Aim::Difference => generic.abs_diff(flexible),
        };
        let amount = u64::from(aim) * u64::from(rng.within(self.permille.clone())) / 1000;
        let amount = amount.min(u64::from(KILOWATT_LIMIT)) as u32;
        match self.split {
            Split::Economic => [amount, 0],
            Split::SelfScheduled => [0, amount],
            Split::Mixed => {
                let economic = rng.within(0..=amount);
                [economic, amount - economic]
            }
            Split::Both => [amount; 2],
        }
    }
}
