//! The money of a month: what is charged, at which rate is paid, and what stays
//! in the fund. All amounts are whole cents.
//!
//! No product passes 64 bits: a quantity is below 1e11 W, a price or rate at
//! most 1,500,000 cents, and a fund at most 7e12 cents.

use crate::assessment::State;
use crate::refusal::Fault;

/// The highest price, in cents per megawatt and month.
pub const PRICE_LIMIT: u32 = 500_000;

/// The most that a fund may hold.
const FUND_LIMIT: u64 = 7_000_000_000_000;

const WATTS_PER_MEGAWATT: u64 = 1_000_000;

/// What a pool collected and paid, and what it then holds.
#[derive(Clone, Copy, Debug, Default, PartialEq, Eq)]
pub struct PoolClose {
    pub charges: u64,
    pub rate: u64,
    pub payments: u64,
    pub balance: u64,
}

/// The cents of a quantity at a price or rate.
fn cents(quantity: u64, rate: u64) -> u64 {
    quantity * rate / WATTS_PER_MEGAWATT
}

/// Triple the price, or what the fund has for the eligible quantity if that is less.
fn paid_rate(price: u64, fund: u64, eligible: u64) -> u64 {
    (fund * WATTS_PER_MEGAWATT)
        .checked_div(eligible)
        .map_or(0, |affordable| affordable.min(3 * price))
}

/// Closes a pool that holds a balance, over the states of its lines.
pub fn close_pool(
    balance: u64,
    price: u64,
    lines: impl Iterator<Item = State> + Clone,
) -> Result<PoolClose, Fault> {
    let charges = lines.clone().map(|line| charge(line, price)).sum();
    let eligible = lines.clone().map(eligible_quantity).sum();
    let fund = balance + charges;
    if fund > FUND_LIMIT {
        return Err(Fault::FundOverLimit);
    }
    let rate = paid_rate(price, fund, eligible);
    let payments: u64 = lines.map(|line| payment(line, rate)).sum();
    Ok(PoolClose {
        charges,
        rate,
        payments,
        // The rate is never more than the fund has for all of them.
        balance: fund - payments,
    })
}

fn eligible_quantity(line: State) -> u64 {
    match line {
        State::Paid { quantity } => quantity,
        _ => 0,
    }
}

/// What a line is charged at the month's price.
pub fn charge(line: State, price: u64) -> u64 {
    match line {
        State::Charged { quantity } => cents(quantity, price),
        _ => 0,
    }
}

/// What a line is paid at the pool's rate.
pub fn payment(line: State, rate: u64) -> u64 {
    cents(eligible_quantity(line), rate)
}

#[cfg(test)]
mod tests {
    use super::*;

    #[test]
    fn a_small_fund_is_shared() {
        let lines = [State::Paid { quantity: 300_000 }; 3];
        let close = close_pool(1000, 379_000, lines.into_iter());
        assert_eq!(
            close,
            Ok(PoolClose {
                charges: 0,
                rate: 1111,
                payments: 999,
                balance: 1
            })
        );
        assert_eq!(payment(lines[0], 1111), 333);
    }

    #[test]
    fn a_large_fund_pays_triple_the_price() {
        let lines = [
            State::Charged {
                quantity: 4_500_000,
            },
            State::Paid { quantity: 71_428 },
        ];
        assert_eq!(
            close_pool(0, 379_000, lines.into_iter()),
            Ok(PoolClose {
                charges: 1_705_500,
                rate: 1_137_000,
                payments: 81_213,
                balance: 1_624_287,
            })
        );
    }

    #[test]
    fn nothing_eligible_has_rate_0() {
        let lines = [State::Paid { quantity: 0 }, State::Neutral, State::Empty];
        let close = close_pool(5, 379_000, lines.into_iter());
        assert_eq!(
            close,
            Ok(PoolClose {
                balance: 5,
                ..PoolClose::default()
            })
        );
    }

    #[test]
    fn a_fund_may_reach_its_limit_but_not_pass_it() {
        let one_cent = [State::Charged { quantity: 2 }];
        let close = |balance| close_pool(balance, 500_000, one_cent.into_iter());
        assert_eq!(
            close(FUND_LIMIT - 1).map(|pool| pool.balance),
            Ok(FUND_LIMIT)
        );
        assert_eq!(close(FUND_LIMIT), Err(Fault::FundOverLimit));
    }
}
