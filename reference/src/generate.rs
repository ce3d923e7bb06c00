//! Makes month files from seeds: sound ones, ones at the edges of the limits, and
//! damaged ones. Equal seeds make equal files.

mod damage;
mod draft;
mod edges;
mod rng;
mod sound;

use damage::damaged;
use draft::{Draft, MonthFields, Showing};
use edges::edge;
use rng::Rng;
use sound::{sound_month, sound_resources, valid, Aim, Bids, Markets, Split};

/// What sort of file a seed makes.
#[derive(Clone, Copy, Debug, PartialEq, Eq)]
pub enum Class {
    Valid,
    Edge,
    Damaged,
}

pub fn class(seed: u64) -> Class {
    match seed % 8 {
        0..=2 => Class::Valid,
        3..=5 => Class::Edge,
        _ => Class::Damaged,
    }
}

/// The month file of a seed.
pub fn month_file(seed: u64) -> Vec<u8> {
    let mut rng = Rng::new(seed);
    match class(seed) {
        Class::Valid => valid(&mut rng).bytes(),
        Class::Edge => edge(&mut rng).bytes(),
        Class::Damaged => damaged(&mut rng),
    }
}

/// A valid binding month with so many resources, each with so many day records,
/// and bids around the obligation. There are at most 64 resources and 31 days.
pub fn full_month(resources: u32, days: u32, seed: u64) -> Vec<u8> {
    let mut rng = Rng::new(seed);
    let mut draft = Draft {
        month: MonthFields {
            // Any month of 31 days, so that there is room for all.
            month: *rng.pick(&[1, 3, 5, 7, 8, 10, 12]),
            standing: 0,
            price: 379_000,
            ..sound_month(&mut rng)
        },
        resources: sound_resources(&mut rng, resources),
        days: Vec::new(),
    };
    draft.month.marks = 0;
    for resource in &draft.resources {
        for day in 1..=days {
            let shown = Showing::up_to(&mut rng, 400_000, resource.category);
            let bids = Bids {
                aim: Aim::Sum,
                permille: 850..=1050,
                split: Split::Mixed,
                markets: Markets::Apart,
                steady: false,
            };
            draft
                .days
                .push(bids.day(&mut rng, resource.number, day, shown));
        }
    }
    draft.bytes()
}

#[cfg(test)]
mod tests {
    use std::collections::BTreeMap;

    use super::*;
    use crate::refusal::Fault;
    use crate::statement::statement;

    const SEEDS: std::ops::Range<u64> = 0..20_000;

    /// How often each thing was seen.
    #[derive(Default)]
    struct Counts(BTreeMap<String, u32>);

    impl Counts {
        fn see(&mut self, thing: impl ToString) {
            *self.0.entry(thing.to_string()).or_default() += 1;
        }

        fn of(&self, thing: &str) -> u32 {
            self.0.get(thing).copied().unwrap_or(0)
        }

        fn expect(&self, at_least: u32, things: &[&str]) {
            for thing in things {
                let count = self.of(thing);
                assert!(count >= at_least, "{thing}: only {count}");
            }
        }
    }

    #[test]
    fn equal_seeds_make_equal_files() {
        for seed in 0..100 {
            assert_eq!(month_file(seed), month_file(seed));
        }
    }

    #[test]
    fn full_months_are_settled() {
        for (resources, days) in [(0, 0), (1, 31), (64, 1), (64, 31)] {
            let file = full_month(resources, days, 7);
            assert_eq!(file.len() as u32, 36 + resources * (16 + days * 412));
            let out = String::from_utf8(statement(&file).unwrap()).unwrap();
            assert!(out.lines().next().unwrap().ends_with(" BINDING"));
        }
    }

    #[test]
    fn every_fault_comes_up_but_that_of_the_fund() {
        let mut counts = Counts::default();
        for seed in SEEDS {
            let refusal = statement(&month_file(seed)).err();
            assert!(
                refusal.is_none() || class(seed) != Class::Valid,
                "seed {seed}"
            );
            counts.see(format!("{:?}", class(seed)));
            if let Some(refusal) = refusal {
                counts.see(refusal.fault.number());
            }
        }
        counts.expect(5000, &["Valid", "Edge", "Damaged"]);
        for fault in Fault::ALL {
            let number = fault.number().to_string();
            // 64 resources cannot be charged so much that a fund is full.
            match fault {
                Fault::FundOverLimit => assert_eq!(counts.of(&number), 0),
                _ => counts.expect(100, &[&number]),
            }
        }
    }

    #[test]
    fn every_limit_comes_up() {
        let mut counts = Counts::default();
        for seed in SEEDS.filter(|&seed| class(seed) == Class::Edge) {
            let draft = edge(&mut Rng::new(seed));
            let MonthFields {
                year,
                month,
                marks,
                starts,
                standing,
                price,
            } = draft.month;
            counts.see(format!("year {year}"));
            counts.see(format!("month {month}"));
            counts.see(format!("price {price}"));
            counts.see(format!("standing {standing}"));
            counts.see(format!("last mark {:?}", marks.checked_ilog2()));
            for (place, start) in starts.into_iter().enumerate() {
                counts.see(format!("start {place} at {start}"));
            }
            counts.see(format!("{} resources", draft.resources.len()));
            for resource in &draft.resources {
                counts.see(format!("category {}", resource.category));
            }
            for day in &draft.days {
                counts.see(format!("day {} of {}", day.day, draft.length()));
                let Showing {
                    generic,
                    flexible,
                    exempt_generic,
                    exempt_flexible,
                } = day.showing;
                counts.see(format!("generic {generic}"));
                counts.see(format!("flexible {flexible}"));
                counts.see(format!(
                    "generic left {}",
                    i64::from(generic) - i64::from(exempt_generic)
                ));
                counts.see(format!(
                    "flexible left {}",
                    i64::from(flexible) - i64::from(exempt_flexible)
                ));
                for (place, bid) in day.hours.iter().flatten().enumerate() {
                    if *bid >= 2_000_000 {
                        counts.see(format!("bid {} of {bid}", place % 4));
                    }
                }
            }
        }
        counts.expect(
            10,
            &[
                "year 2017",
                "year 2018",
                "year 2099",
                "year 2100",
                "month 0",
                "month 1",
                "month 12",
                "month 13",
                "price 0",
                "price 500000",
                "price 500001",
                "standing 0",
                "standing 1",
                "standing 2",
                "last mark None",
                "last mark Some(28)",
                "last mark Some(29)",
                "last mark Some(30)",
                "last mark Some(31)",
                "start 0 at 0",
                "start 0 at 1",
                "start 0 at 20",
                "start 0 at 21",
                "start 1 at 0",
                "start 1 at 1",
                "start 1 at 20",
                "start 1 at 21",
                "start 2 at 0",
                "start 2 at 1",
                "start 2 at 20",
                "start 2 at 21",
                "64 resources",
                "65 resources",
                "category 3",
                "category 4",
                "day 0 of 30",
                "day 31 of 31",
                "day 32 of 31",
                "day 30 of 30",
                "day 31 of 30",
                "day 28 of 28",
                "day 29 of 28",
                "day 29 of 29",
                "day 30 of 29",
                "generic 2000000",
                "generic 2000001",
                "flexible 2000000",
                "flexible 2000001",
                "generic left 0",
                "generic left -1",
                "flexible left 0",
                "flexible left -1",
                "bid 0 of 2000000",
                "bid 1 of 2000000",
                "bid 2 of 2000000",
                "bid 3 of 2000000",
                "bid 0 of 2000001",
                "bid 1 of 2000001",
                "bid 2 of 2000001",
                "bid 3 of 2000001",
            ],
        );
    }

    #[test]
    fn every_sort_of_line_comes_up() {
        let mut counts = Counts::default();
        for seed in SEEDS {
            let file = month_file(seed);
            let Ok(out) = statement(&file) else {
                continue;
            };
            let price = u32::from_be_bytes(file[32..36].try_into().unwrap());
            for line in String::from_utf8(out).unwrap().lines() {
                see_line(&mut counts, line, price.into());
            }
        }
        counts.expect(
            20,
            &[
                "BINDING",
                "ADVISORY",
                "G C 0",
                "G C",
                "G N",
                "G P 0",
                "G P",
                "F C 0",
                "F C",
                "F N",
                "F P 0",
                "F P",
                "G at 945",
                "G at 985",
                "F at 945",
                "F at 985",
                "G pays triple",
                "G pays less",
                "G pays nothing",
                "F pays triple",
                "F pays less",
                "F pays nothing",
                "G holds 60480000000",
            ],
        );
    }

    fn see_line(counts: &mut Counts, line: &str, price: u64) {
        let fields: Vec<&str> = line.split(' ').collect();
        let number = |place: usize| fields[place].parse::<u64>().unwrap();
        match fields[..] {
            ["MONTH", _, standing] => counts.see(standing),
            ["POOL", pool, ..] => {
                let (rate, payments) = (number(3), number(4));
                counts.see(format!("{pool} holds {}", number(5)));
                counts.see(match payments {
                    0 => format!("{pool} pays nothing"),
                    _ if rate == 3 * price => format!("{pool} pays triple"),
                    _ => format!("{pool} pays less"),
                });
            }
            [_, pool, _, _, state, cents] => {
                let (obligation, availability) = (number(2), number(3));
                for bound in [945, 985] {
                    if state == "N" && 1000 * availability == bound * obligation {
                        counts.see(format!("{pool} at {bound}"));
                    }
                }
                match cents {
                    "0" if state != "N" => counts.see(format!("{pool} {state} 0")),
                    _ => counts.see(format!("{pool} {state}")),
                }
            }
            _ => panic!("not a line of a statement: {line}"),
        }
    }
}
