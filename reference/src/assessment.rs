//! From a resource's showings and bids to the figures of its days, and to the
//! state and quantity of its lines of the month.

use crate::calendar::{all_days, month_length, work_days};
use crate::refusal::Fault;

/// The most kilowatts that any showing, exemption or bid may tell.
pub const KILOWATT_LIMIT: u32 = 2_000_000;

const WINDOW_LENGTH: u32 = 5;
const LAST_WINDOW_START: u32 = 20;

/// One thing for each of the two pools.
#[derive(Clone, Copy, Debug, Default, PartialEq, Eq)]
pub struct PerPool<T> {
    pub generic: T,
    pub flexible: T,
}

/// The category of a resource's flexible capacity.
#[derive(Clone, Copy, Debug, PartialEq, Eq)]
pub enum Category {
    None,
    One,
    Two,
    Three,
}

impl Category {
    pub fn from_word(word: u32) -> Option<Category> {
        match word {
            0 => Some(Category::None),
            1 => Some(Category::One),
            2 => Some(Category::Two),
            3 => Some(Category::Three),
            _ => None,
        }
    }
}

/// The fields of a trade month that the assessment needs, as they were given.
#[derive(Clone, Copy, Debug)]
pub struct TradeMonth {
    pub year: u32,
    pub month: u32,
    pub holidays: u32,
    pub generic_start: u32,
    pub category_2_start: u32,
    pub category_3_start: u32,
}

/// A trade month within its limits: which hours are assessed on which days.
///
/// Days and hours are bits of a word, the first of each in the lowest.
#[derive(Clone, Copy, Debug)]
pub struct Settings {
    pub length: u32,
    work_days: u32,
    generic_window: u32,
    category_2_window: u32,
    category_3_window: u32,
}

impl Settings {
    /// `None` if a field is outside its limits.
    pub fn new(given: &TradeMonth) -> Option<Settings> {
        if !(2018..=2099).contains(&given.year) || !(1..=12).contains(&given.month) {
            return None;
        }
        let length = month_length(given.year, given.month);
        if given.holidays & !all_days(length) != 0 {
            return None;
        }
        Some(Settings {
            length,
            work_days: work_days(given.year, given.month, given.holidays),
            generic_window: window(given.generic_start)?,
            category_2_window: window(given.category_2_start)?,
            category_3_window: window(given.category_3_start)?,
        })
    }

    /// The hours that each pool is assessed in, on a day of the month.
    fn hours(&self, category: Category, day: u32) -> PerPool<u32> {
        let is_work_day = self.work_days >> (day - 1) & 1 == 1;
        let on_work_days = |hours| if is_work_day { hours } else { 0 };
        PerPool {
            generic: on_work_days(self.generic_window),
            flexible: match category {
                Category::None => 0,
                Category::One => hours_ending(6, 22),
                Category::Two => self.category_2_window,
                Category::Three => on_work_days(self.category_3_window),
            },
        }
    }

    /// On how many days of the month each pool is assessed.
    pub fn assessed_days(&self, category: Category) -> PerPool<u64> {
        let work_days = u64::from(self.work_days.count_ones());
        PerPool {
            generic: work_days,
            flexible: match category {
                Category::None => 0,
                Category::One | Category::Two => u64::from(self.length),
                Category::Three => work_days,
            },
        }
    }
}

fn window(start: u32) -> Option<u32> {
    (1..=LAST_WINDOW_START)
        .contains(&start)
        .then(|| hours_ending(start, start + WINDOW_LENGTH - 1))
}

fn hours_ending(first: u32, last: u32) -> u32 {
    (1 << last) - (1 << (first - 1))
}

/// What is offered into one market in one hour, in kW.
#[derive(Clone, Copy, Debug, Default)]
pub struct Bid {
    pub economic: u32,
    pub self_scheduled: u32,
}

/// A resource's day as it was submitted, in kW. An hour has a bid for the
/// day-ahead market and one for the real-time market.
#[derive(Clone, Copy, Debug, Default)]
pub struct Submission {
    pub shown: PerPool<u32>,
    pub exempt: PerPool<u32>,
    pub hours: [[Bid; 2]; 24],
}

impl Submission {
    /// Tests a submission in the order in which its breaches are told.
    pub fn check(&self, category: Category) -> Result<(), Fault> {
        let PerPool { generic, flexible } = self.shown;
        let showings = generic.max(flexible);
        // An exemption within its showing is also within the limit.
        if showings.max(self.largest_bid()) > KILOWATT_LIMIT
            || self.exempt.generic > generic
            || self.exempt.flexible > flexible
        {
            return Err(Fault::DayOverLimit);
        }
        if category == Category::None && flexible > 0 {
            return Err(Fault::FlexibleInCategory0);
        }
        Ok(())
    }

    fn largest_bid(&self) -> u32 {
        self.hours.iter().flatten().fold(0, |most, bid| {
            most.max(bid.economic).max(bid.self_scheduled)
        })
    }

    fn net_showing(&self) -> PerPool<u32> {
        PerPool {
            generic: self.shown.generic - self.exempt.generic,
            flexible: self.shown.flexible - self.exempt.flexible,
        }
    }
}

/// Obligation and availability of one pool, in W: of a day, or summed over days.
#[derive(Clone, Copy, Debug, Default, PartialEq, Eq)]
pub struct Figures {
    pub obligation: u64,
    pub availability: u64,
}

impl Figures {
    pub fn add(&mut self, day: Figures) {
        self.obligation += day.obligation;
        self.availability += day.availability;
    }
}

/// Assesses a checked submission for a day of the month.
pub fn assess_day(
    settings: &Settings,
    category: Category,
    day: u32,
    submission: &Submission,
) -> PerPool<Figures> {
    let hours = settings.hours(category, day);
    let net = submission.net_showing();

    // Sums of kW over the day, and for each market of what was taken.
    let mut owed = PerPool::<u64>::default();
    let mut taken = [PerPool::<u64>::default(); 2];
    for (hour, bids) in submission.hours.iter().enumerate() {
        let is_in = |hours: u32| hours >> hour & 1 == 1;
        // Capacity of both pools is owed once, to the flexible one.
        let flexible = if is_in(hours.flexible) {
            net.flexible
        } else {
            0
        };
        let generic = if is_in(hours.generic) {
            net.generic.saturating_sub(flexible)
        } else {
            0
        };
        owed.generic += u64::from(generic);
        owed.flexible += u64::from(flexible);
        for (taken, bid) in taken.iter_mut().zip(bids) {
            // The flexible rule takes economic bids only, and takes first.
            let by_flexible = bid.economic.min(flexible);
            let left = bid.economic - by_flexible + bid.self_scheduled;
            taken.flexible += u64::from(by_flexible);
            taken.generic += u64::from(left.min(generic));
        }
    }

    let largest = u64::from(net.generic.max(net.flexible));
    let watts = Watts::new(hours, owed, largest);
    // Rounding down keeps the order, so the smaller sum is the smaller availability.
    let [day_ahead, real_time] = taken;
    PerPool {
        generic: Figures {
            obligation: watts.generic(owed.generic),
            availability: watts.generic(day_ahead.generic.min(real_time.generic)),
        },
        flexible: Figures {
            obligation: watts.flexible(owed.flexible),
            availability: watts.flexible(day_ahead.flexible.min(real_time.flexible)),
        },
    }
}

/// Turns a day's sum of kW into W: `1000 * sum * factor / divisor`, pool by pool.
///
/// No product passes 3.4e17: a sum is at most 17 hours of 2,000,000 kW, and a
/// factor is the largest net showing times the hours of the other pool.
struct Watts {
    factor: PerPool<u64>,
    divisor: u64,
}

impl Watts {
    fn new(hours: PerPool<u32>, owed: PerPool<u64>, largest: u64) -> Watts {
        let generic_hours = u64::from(hours.generic.count_ones());
        let flexible_hours = u64::from(hours.flexible.count_ones());
        if generic_hours > 0 && flexible_hours > 0 {
            Watts {
                factor: PerPool {
                    generic: flexible_hours * largest,
                    flexible: generic_hours * largest,
                },
                divisor: owed.generic * flexible_hours + owed.flexible * generic_hours,
            }
        } else {
            // One of them is 0, and a pool without hours has a sum of 0.
            Watts {
                factor: PerPool {
                    generic: 1,
                    flexible: 1,
                },
                divisor: generic_hours + flexible_hours,
            }
        }
    }

    fn generic(&self, sum: u64) -> u64 {
        self.watts(sum, self.factor.generic)
    }

    fn flexible(&self, sum: u64) -> u64 {
        self.watts(sum, self.factor.flexible)
    }

    fn watts(&self, sum: u64, factor: u64) -> u64 {
        // A divisor of 0 means that nothing is owed.
        (1000 * sum * factor).checked_div(self.divisor).unwrap_or(0)
    }
}

/// How a resource did in a pool over the month; a quantity is in W.
#[derive(Clone, Copy, Debug, PartialEq, Eq)]
pub enum State {
    Empty,
    Charged { quantity: u64 },
    Neutral,
    Paid { quantity: u64 },
}

/// The state of a line, from its sums and the number of days assessed.
pub fn line_state(sums: Figures, days: u64) -> State {
    let Figures {
        obligation,
        availability,
    } = sums;
    if obligation == 0 || days == 0 {
        return State::Empty;
    }
    let given = 1000 * availability;
    let (low, high) = (945 * obligation, 985 * obligation);
    if given < low {
        State::Charged {
            quantity: (low - given) / (1000 * days),
        }
    } else if given > high {
        State::Paid {
            quantity: (given - high) / (1000 * days),
        }
    } else {
        State::Neutral
    }
}

#[cfg(test)]
mod tests {
    use super::*;

    fn june_2018(starts: [u32; 3]) -> Settings {
        let [generic_start, category_2_start, category_3_start] = starts;
        Settings::new(&TradeMonth {
            year: 2018,
            month: 6,
            holidays: 0,
            generic_start,
            category_2_start,
            category_3_start,
        })
        .unwrap()
    }

    #[test]
    fn overlapping_windows_share_the_larger_showing() {
        let bid = Bid {
            economic: 0,
            self_scheduled: 1000,
        };
        let submission = Submission {
            shown: PerPool {
                generic: 2000,
                flexible: 1000,
            },
            exempt: PerPool::default(),
            hours: [[bid; 2]; 24],
        };
        let settings = june_2018([1, 3, 3]);
        assert_eq!(submission.check(Category::Two), Ok(()));
        assert_eq!(
            assess_day(&settings, Category::Two, 1, &submission),
            PerPool {
                generic: Figures {
                    obligation: 1_166_666,
                    availability: 833_333
                },
                flexible: Figures {
                    obligation: 833_333,
                    availability: 0
                },
            }
        );
        // On a Saturday the flexible pool alone is assessed.
        assert_eq!(
            assess_day(&settings, Category::Two, 2, &submission),
            PerPool {
                generic: Figures::default(),
                flexible: Figures {
                    obligation: 1_000_000,
                    availability: 0
                },
            }
        );
    }

    #[test]
    fn hours_and_days_follow_the_category() {
        let settings = june_2018([1, 20, 16]);
        let hours = |category, day| {
            let PerPool { generic, flexible } = settings.hours(category, day);
            (generic, flexible)
        };
        let (generic, second, third) = (0x1f, 0x1f << 19, 0x1f << 15);
        assert_eq!(hours(Category::None, 1), (generic, 0));
        assert_eq!(hours(Category::One, 1), (generic, 0x3f_ffe0));
        assert_eq!(hours(Category::Two, 1), (generic, second));
        assert_eq!(hours(Category::Three, 1), (generic, third));
        assert_eq!(hours(Category::One, 2), (0, 0x3f_ffe0));
        assert_eq!(hours(Category::Three, 2), (0, 0));
        let days = |category| settings.assessed_days(category).flexible;
        assert_eq!(days(Category::None), 0);
        assert_eq!(days(Category::One), 30);
        assert_eq!(days(Category::Two), 30);
        assert_eq!(days(Category::Three), 21);
    }

    #[test]
    fn lines_turn_at_the_two_bounds() {
        let state = |availability| {
            line_state(
                Figures {
                    obligation: 200_000,
                    availability,
                },
                21,
            )
        };
        assert_eq!(state(188_999), State::Charged { quantity: 0 });
        assert_eq!(state(189_000), State::Neutral);
        assert_eq!(state(197_000), State::Neutral);
        assert_eq!(state(197_001), State::Paid { quantity: 0 });
    }

    #[test]
    fn lines_without_obligation_or_days_are_empty() {
        assert_eq!(line_state(Figures::default(), 21), State::Empty);
        let figures = Figures {
            obligation: 1,
            availability: 1,
        };
        assert_eq!(line_state(figures, 0), State::Empty);
    }

    #[test]
    fn breaches_come_in_their_order() {
        let mut submission = Submission::default();
        submission.shown.flexible = 10;
        submission.exempt.flexible = 10;
        assert_eq!(
            submission.check(Category::None),
            Err(Fault::FlexibleInCategory0)
        );
        assert_eq!(submission.check(Category::One), Ok(()));
        submission.exempt.flexible = 11;
        assert_eq!(submission.check(Category::None), Err(Fault::DayOverLimit));
        submission.exempt.flexible = 0;
        submission.hours[23][1].self_scheduled = KILOWATT_LIMIT;
        assert_eq!(submission.check(Category::One), Ok(()));
        submission.hours[23][1].self_scheduled += 1;
        assert_eq!(submission.check(Category::None), Err(Fault::DayOverLimit));
    }
}
