//! The judge of plans: lawfulness first, then the certificate's bounds.

use crate::board::{Row, View};
use crate::sweep::{usable_rows, Usable};
use crate::values::*;

/// Whether a plan is lawful for its order: none of the breaches holds.
fn is_lawful(view: View, order: &Order, fees: &FeeBook, plan: &Plan) -> bool {
    let side = order.side.contra();
    if plan.version != view.version || plan.order != *order || order.sym != view.sym {
        return false;
    }
    let legs = &plan.legs;
    let row_of = |leg: &Leg| {
        let row = view.book.ranked(side).iter().find(|r| r.part == leg.part);
        row.filter(|r| (r.protected || order.manual) && !order.self_help.has(r.part))
    };
    let mut given = [0u32; MAX_PARTS];
    for leg in legs.iter() {
        let Some(row) = row_of(leg) else { return false };
        let is_good = row.price == leg.price
            && leg.shares > 0
            && leg.shares <= row.size
            && given[leg.part as usize] == 0
            && !side.better(order.limit, leg.price);
        if !is_good {
            return false;
        }
        given[leg.part as usize] = leg.shares;
    }
    let sum: u64 = legs.iter().map(|leg| u64::from(leg.shares)).sum();
    let passed_over = |r: &Row| {
        r.protected
            && !order.self_help.has(r.part)
            && given[r.part as usize] < r.size
            && legs.iter().any(|leg| side.better(r.price, leg.price))
    };
    let cost: Money = legs
        .iter()
        .map(|leg| Money::from(fees.unit_cost(leg.part, order.side, leg.price)) * Money::from(leg.shares))
        .sum();
    sum <= u64::from(order.shares)
        && !view.book.ranked(side).iter().any(passed_over)
        && u64::from(plan.filled) == sum
        && plan.cost == cost
}

/// One cutoff price: what is swept before it and what may be chosen from.
struct Level<'a> {
    price: Price,
    side: Side,
    rows: &'a [Usable],
}

impl Level<'_> {
    fn swept(&self) -> impl Iterator<Item = &Usable> {
        self.rows.iter().filter(|r| self.is_swept(r))
    }
    fn pool(&self) -> impl Iterator<Item = &Usable> {
        self.rows.iter().filter(|r| !self.is_swept(r) && !self.side.better(self.price, r.price))
    }
    fn is_swept(&self, row: &Usable) -> bool {
        row.protected && self.side.better(row.price, self.price)
    }
    fn swept_size(&self) -> Money {
        self.swept().map(|r| Money::from(r.size)).sum()
    }
    fn pool_size(&self) -> Money {
        self.pool().map(|r| Money::from(r.size)).sum()
    }
    fn bound(&self, k: Money, filled: Money) -> Money {
        let swept_cost: Money = self.swept().map(|r| Money::from(r.unit) * Money::from(r.size)).sum();
        let gain: Money = self.pool().map(|r| (k - Money::from(r.unit)).max(0) * Money::from(r.size)).sum();
        swept_cost + k * (filled - self.swept_size()) - gain
    }
}

/// Whether a plan is lawful and its certificate leaves no better one.
pub fn confirm(view: View, order: &Order, fees: &FeeBook, plan: &Plan, certificate: &Certificate) -> bool {
    const RANGE: Money = 1_000_000_000_000_000_000;
    if !is_lawful(view, order, fees, plan) {
        return false;
    }
    let rows = usable_rows(view.book, order, fees);
    let total: Money = rows.iter().map(|r| Money::from(r.size)).sum();
    let filled = total.min(Money::from(order.shares));
    let mut prices: Vec<Price> = rows.iter().map(|r| r.price).collect();
    prices.dedup();
    if Money::from(plan.filled) != filled || !certificate.iter().map(|c| c.price).eq(prices) {
        return false;
    }
    let side = order.side.contra();
    let holds = |cut: &Cut| {
        let level = Level { price: cut.price, side, rows: &rows };
        match cut.kind {
            CutKind::TooMuch => level.swept_size() > filled,
            CutKind::TooLittle => level.swept_size() + level.pool_size() < filled,
            CutKind::Marginal(k) => {
                level.swept_size() <= filled && (-RANGE..=RANGE).contains(&k) && plan.cost <= level.bound(k, filled)
            }
        }
    };
    certificate.iter().all(holds)
}
