//! Months with something at a limit, or one past it.

use super::draft::{Day, Draft, MonthFields, Resource, Showing};
use super::rng::Rng;
use super::sound::{small, sound_month, sound_resources, Bids};
use crate::assessment::KILOWATT_LIMIT;
use crate::calendar::{all_days, month_length, work_days};
use crate::money::PRICE_LIMIT;

/// A month with one or two fields, records or results at an edge.
pub fn edge(rng: &mut Rng) -> Draft {
    let mut draft = small(rng);
    let index = rng.below(EDGES.len());
    EDGES[index](rng, &mut draft);
    if rng.one_in(3) {
        let index = rng.below(EDGES.len());
        EDGES[index](rng, &mut draft);
    }
    draft
}

type Edge = fn(&mut Rng, &mut Draft);

const EDGES: [Edge; 24] = [
    edge_year,
    edge_month,
    edge_price,
    edge_start,
    edge_standing,
    edge_marks,
    edge_last_mark,
    edge_leap_day,
    edge_no_work_day,
    edge_category,
    edge_roster,
    edge_number,
    edge_day,
    edge_resource_of_day,
    edge_showing,
    edge_exemption,
    edge_bid,
    edge_category_0,
    edge_twice,
    edge_faulty_day,
    edge_bounds,
    edge_rounding,
    edge_small_fund,
    edge_extremes,
];

/// The last values within the limit, the first outside, and the largest of all.
const KILOWATT_EDGES: [u32; 5] = [
    KILOWATT_LIMIT - 1,
    KILOWATT_LIMIT,
    KILOWATT_LIMIT,
    KILOWATT_LIMIT + 1,
    u32::MAX,
];

fn edge_year(rng: &mut Rng, draft: &mut Draft) {
    draft.month.year = *rng.pick(&[0, 2017, 2018, 2018, 2099, 2099, 2100, u32::MAX]);
}

fn edge_month(rng: &mut Rng, draft: &mut Draft) {
    draft.month.month = *rng.pick(&[0, 1, 1, 12, 12, 13, u32::MAX]);
    draft.month.marks = 0;
}

fn edge_price(rng: &mut Rng, draft: &mut Draft) {
    draft.month.price = *rng.pick(&[
        0,
        1,
        PRICE_LIMIT - 1,
        PRICE_LIMIT,
        PRICE_LIMIT + 1,
        u32::MAX,
    ]);
}

fn edge_start(rng: &mut Rng, draft: &mut Draft) {
    let place = rng.below(3);
    draft.month.starts[place] = *rng.pick(&[0, 1, 20, 21, u32::MAX]);
}

fn edge_standing(rng: &mut Rng, draft: &mut Draft) {
    draft.month.standing = *rng.pick(&[0, 1, 1, 2, u32::MAX]);
}

/// A mark on the last day of a month, or past it.
fn edge_marks(rng: &mut Rng, draft: &mut Draft) {
    draft.month.month = *rng.pick(&[2, 4, 6, 7, 9, 11, 12]);
    draft.month.marks = 1 << rng.within(27..=31);
    if rng.one_in(2) {
        draft.month.marks |= rng.word() >> 5;
    }
}

/// The bit that no month has a day for, or the one of day 31.
fn edge_last_mark(rng: &mut Rng, draft: &mut Draft) {
    draft.month.marks = if rng.one_in(2) { 1 << 31 } else { 1 << 30 };
}

/// The end of February: as a day record and sometimes as a mark.
fn edge_leap_day(rng: &mut Rng, draft: &mut Draft) {
    draft.month.year = *rng.pick(&[2018, 2019, 2020, 2024, 2050, 2096, 2099]);
    draft.month.month = 2;
    draft.month.marks = if rng.one_in(4) { 1 << 28 } else { 0 };
    draft.days.retain(|day| day.day < 28);
    if let Some(resource) = draft.resources.last() {
        let showing = Showing::random(rng, resource.category);
        let day = rng.within(28..=30);
        draft
            .days
            .push(Bids::random(rng).day(rng, resource.number, day, showing));
    }
}

/// All days of the month are holidays, or all but one.
fn edge_no_work_day(rng: &mut Rng, draft: &mut Draft) {
    draft.month.marks = all_days(draft.length());
    if rng.one_in(2) {
        draft.month.marks &= !(1 << rng.below(28));
    }
}

fn edge_category(rng: &mut Rng, draft: &mut Draft) {
    let category = *rng.pick(&[3, 4, 4, u32::MAX]);
    if let Some(resource) = rng.pick_mut(&mut draft.resources) {
        resource.category = category;
    }
}

/// 63 to 66 resources, the last sometimes with another fault.
fn edge_roster(rng: &mut Rng, draft: &mut Draft) {
    let count = *rng.pick(&[63, 64, 64, 65, 65, 66]);
    draft.resources = sound_resources(rng, count);
    if rng.one_in(4) {
        if let Some(last) = draft.resources.last_mut() {
            if rng.one_in(2) {
                last.category = 4;
            } else {
                last.number = *rng.pick(&[0, 63, 64, 65]);
            }
        }
    }
    // The old days may no longer fit their categories.
    draft.days.clear();
    for number in [0, 62, 63, 64] {
        let Some(resource) = draft.resources.get(number as usize) else {
            continue;
        };
        let showing = Showing::random(rng, resource.category);
        let day = rng.within(1..=28);
        draft
            .days
            .push(Bids::random(rng).day(rng, number, day, showing));
    }
}

fn edge_number(rng: &mut Rng, draft: &mut Draft) {
    let change = *rng.pick(&[1, u32::MAX, 64, 0]);
    if let Some(resource) = rng.pick_mut(&mut draft.resources) {
        resource.number = resource.number.wrapping_add(change);
    }
}

fn edge_day(rng: &mut Rng, draft: &mut Draft) {
    let days = [0, 1, 27, 28, 29, 30, 31, 32, 33, u32::MAX];
    let value = *rng.pick(&days);
    if let Some(day) = rng.pick_mut(&mut draft.days) {
        day.day = value;
    }
}

fn edge_resource_of_day(rng: &mut Rng, draft: &mut Draft) {
    let count = draft.resources.len() as u32;
    let value = *rng.pick(&[count.saturating_sub(1), count, count + 1, 64, u32::MAX]);
    if let Some(day) = rng.pick_mut(&mut draft.days) {
        day.resource = value;
    }
}

fn edge_showing(rng: &mut Rng, draft: &mut Draft) {
    let value = *rng.pick(&KILOWATT_EDGES);
    let flexible = rng.one_in(2);
    if let Some(day) = rng.pick_mut(&mut draft.days) {
        if flexible {
            day.showing.flexible = value;
        } else {
            day.showing.generic = value;
        }
    }
}

/// An exemption of all that is shown, or of one more.
fn edge_exemption(rng: &mut Rng, draft: &mut Draft) {
    let more = u32::from(rng.one_in(2));
    let flexible = rng.one_in(2);
    let full = rng.one_in(4);
    if let Some(Day { showing, .. }) = rng.pick_mut(&mut draft.days) {
        if full {
            showing.generic = KILOWATT_LIMIT;
        }
        if flexible {
            showing.exempt_flexible = showing.flexible.wrapping_add(more);
        } else {
            showing.exempt_generic = showing.generic.wrapping_add(more);
        }
    }
}

fn edge_bid(rng: &mut Rng, draft: &mut Draft) {
    let value = *rng.pick(&KILOWATT_EDGES);
    let hour = match rng.below(4) {
        0 => 0,
        1 => 23,
        _ => rng.below(24),
    };
    let place = rng.below(4);
    if let Some(day) = rng.pick_mut(&mut draft.days) {
        day.hours[hour][place] = value;
    }
}

/// Flexible capacity in category 0: shown, exempt in full, or only exempt.
fn edge_category_0(rng: &mut Rng, draft: &mut Draft) {
    let (flexible, exempt) = *rng.pick(&[(0, 0), (1, 0), (1, 1), (0, 1), (5, 6), (100_000, 0)]);
    let Some(day) = rng.pick_mut(&mut draft.days) else {
        return;
    };
    day.showing.flexible = flexible;
    day.showing.exempt_flexible = exempt;
    if let Some(resource) = draft.resources.get_mut(day.resource as usize) {
        resource.category = 0;
    }
}

/// A day recorded twice, with the same figures or others.
fn edge_twice(rng: &mut Rng, draft: &mut Draft) {
    let Some(day) = rng.pick_mut(&mut draft.days) else {
        return;
    };
    let mut again = day.clone();
    match rng.below(3) {
        0 => again.showing = Showing::default(),
        1 => again.hours = [[KILOWATT_LIMIT + 1; 4]; 24],
        _ => {}
    }
    let place = rng.below(draft.days.len() + 1);
    draft.days.insert(place, again);
}

/// Several faults in one day record, so that the order of the tests shows.
fn edge_faulty_day(rng: &mut Rng, draft: &mut Draft) {
    let count = draft.resources.len() as u32;
    let [unknown, no_such_day, twice, showing, exemption, bid, category_0] =
        [(); 7].map(|()| rng.one_in(3));
    let hour = rng.below(24);
    let Some(mut day) = draft.days.last().cloned() else {
        return;
    };
    if category_0 {
        if let Some(resource) = draft.resources.get_mut(day.resource as usize) {
            resource.category = 0;
        }
        day.showing.flexible = 1;
    }
    if unknown {
        day.resource = count;
    }
    if no_such_day {
        day.day = 32;
    }
    if showing {
        day.showing.generic = KILOWATT_LIMIT + 1;
    }
    if exemption {
        day.showing.exempt_flexible = day.showing.flexible.wrapping_add(1);
    }
    if bid {
        day.hours[hour] = [u32::MAX; 4];
    }
    if !twice {
        draft.days.pop();
    }
    draft.days.push(day);
}

/// Availability at 94.5 or 98.5 per cent of the obligation, or next to it.
fn edge_bounds(rng: &mut Rng, draft: &mut Draft) {
    let category = rng.within(0..=3);
    let flexible = category > 0 && rng.one_in(2);
    let shown = match rng.below(4) {
        0 => 200,
        1 => KILOWATT_LIMIT,
        _ => 200 * rng.within(1..=2000),
    };
    let bid = shown / 1000 * 945 + shown % 1000 * 945 / 1000;
    let bid = if rng.one_in(2) { bid } else { bid + shown / 25 };
    let mut hours = [[bid, 0, bid, 0]; 24];
    if !flexible && rng.one_in(3) {
        hours = [[0, bid, bid, 0]; 24];
    }
    // One kilowatt more or less in all hours, in one hour or in none.
    let nudge = |hour: &mut [u32; 4], up: bool| {
        for bid in hour.iter_mut().filter(|bid| **bid > 0) {
            *bid = if up { *bid + 1 } else { *bid - 1 };
        }
    };
    let up = rng.one_in(2);
    match rng.below(4) {
        0..=1 => {}
        2 => hours.iter_mut().for_each(|hour| nudge(hour, up)),
        _ => nudge(&mut hours[rng.below(24)], up),
    }
    let showing = if flexible {
        Showing {
            flexible: shown,
            ..Showing::default()
        }
    } else {
        Showing {
            generic: shown,
            ..Showing::default()
        }
    };
    add_resource(rng, draft, category, showing, hours);
}

/// Quantities, or cents, that round down to 0.
fn edge_rounding(rng: &mut Rng, draft: &mut Draft) {
    let generic = |generic| Showing {
        generic,
        ..Showing::default()
    };
    // 137 kW in any five hours of 29 kW are just below 94.5 per cent.
    let mut hours = [[0; 4]; 24];
    for (hour, bid) in hours
        .iter_mut()
        .zip([27, 27, 27, 28, 28].into_iter().cycle())
    {
        *hour = [bid, 0, bid, 0];
    }
    match rng.below(4) {
        0 => add_resource(rng, draft, 0, generic(29), hours),
        1 => add_resource(rng, draft, 0, generic(1), [[1, 0, 0, 1]; 24]),
        2 => {
            draft.month.price = *rng.pick(&[1, 2, 20]);
            add_resource(rng, draft, 0, generic(1), [[0; 4]; 24]);
        }
        _ => {
            draft.month.price = 1;
            add_resource(rng, draft, 0, generic(100_000), [[0; 4]; 24]);
            add_resource(rng, draft, 0, generic(100), [[100, 0, 100, 0]; 24]);
        }
    }
}

/// Little is charged and much would be paid.
fn edge_small_fund(rng: &mut Rng, draft: &mut Draft) {
    let category = rng.within(0..=3);
    let showing = |kilowatts| match category {
        0 => Showing {
            generic: kilowatts,
            ..Showing::default()
        },
        _ => Showing {
            flexible: kilowatts,
            ..Showing::default()
        },
    };
    let short = rng.within(1..=1000);
    add_resource(rng, draft, category, showing(short), [[0; 4]; 24]);
    for _ in 0..rng.within(1..=4) {
        let shown = rng.within(100_000..=KILOWATT_LIMIT);
        add_resource(
            rng,
            draft,
            category,
            showing(shown),
            [[shown, 0, shown, 0]; 24],
        );
    }
}

/// A resource with the same showing and bids on one to four days in a row.
fn add_resource(
    rng: &mut Rng,
    draft: &mut Draft,
    category: u32,
    showing: Showing,
    hours: [[u32; 4]; 24],
) {
    let number = draft.resources.len() as u32;
    draft.resources.push(Resource {
        number,
        category,
        identifier: rng.word(),
    });
    let first = rng.within(1..=24);
    let days = first..=first + rng.within(0..=3);
    draft.days.extend(days.map(|day| Day {
        resource: number,
        day,
        showing,
        hours,
    }));
}

/// Words of all ones, or the largest charges that a file can bring.
fn edge_extremes(rng: &mut Rng, draft: &mut Draft) {
    const ONES: u32 = u32::MAX;
    match rng.below(8) {
        0 => {
            draft.month = MonthFields {
                year: ONES,
                month: ONES,
                marks: ONES,
                starts: [ONES; 3],
                standing: ONES,
                price: ONES,
            }
        }
        1 => draft.resources.push(Resource {
            number: ONES,
            category: ONES,
            identifier: ONES,
        }),
        2 => draft.days.push(Day {
            resource: ONES,
            day: ONES,
            showing: Showing {
                generic: ONES,
                flexible: ONES,
                exempt_generic: ONES,
                exempt_flexible: ONES,
            },
            hours: [[ONES; 4]; 24],
        }),
        3 => {
            if let Some(day) = rng.pick_mut(&mut draft.days) {
                day.hours = [[ONES; 4]; 24];
            }
        }
        4..=5 => *draft = largest_charges(rng),
        _ => {
            if let Some(day) = rng.pick_mut(&mut draft.days) {
                day.showing.generic = KILOWATT_LIMIT;
                day.showing.exempt_generic = 0;
                day.hours = [[KILOWATT_LIMIT; 4]; 24];
            }
        }
    }
}

/// 64 resources that owe all they can and give nothing, at the highest price.
fn largest_charges(rng: &mut Rng) -> Draft {
    let mut month = MonthFields {
        marks: 0,
        price: PRICE_LIMIT,
        ..sound_month(rng)
    };
    let whole_month = rng.one_in(8);
    let category = if whole_month {
        rng.within(0..=3)
    } else {
        3 * rng.within(0..=1)
    };
    let work_days = work_days(month.year, month.month, 0);
    let mut days = all_days(month_length(month.year, month.month));
    if !whole_month {
        // One work day alone makes the same averages.
        let only = 1 << work_days.trailing_zeros();
        month.marks = days & !only;
        days = only;
    }
    let mut showing = Showing {
        generic: KILOWATT_LIMIT,
        ..Showing::default()
    };
    if category > 0 {
        showing.flexible = KILOWATT_LIMIT;
        showing.generic = *rng.pick(&[0, KILOWATT_LIMIT]);
    }
    let resources: Vec<_> = (0..64)
        .map(|number| Resource {
            number,
            category,
            identifier: rng.word(),
        })
        .collect();
    let days = resources
        .iter()
        .flat_map(|resource| {
            (1..=31)
                .filter(|day| days >> (day - 1) & 1 == 1)
                .map(|day| Day {
                    resource: resource.number,
                    day,
                    showing,
                    hours: [[0; 4]; 24],
                })
        })
        .collect();
    Draft {
        month,
        resources,
        days,
    }
}
