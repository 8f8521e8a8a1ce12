//! The calls as the library has them: numbers come in and are tested, and the answer goes into the caller's room, where the
//! places that it does not need are 0. So both sides of bench/latency do the same work. A call of a library is a call: none of
//! them is merged into its caller.

use std::num::NonZeroU32;

use crate::board::{market, Boards, Row, View};
use crate::check;
use crate::sweep::plan_into;
use crate::values::*;

const MOST_PRICE: u64 = 99_999_999_999;
const MOST_SHARES: u32 = 999_999_999;
/// The most that an execution's price may be, in 1/1,000,000 dollar.
const MOST_MILLIONTHS: u64 = 9_999_999_999_999;
/// The changes that a board takes.
const MOST_CHANGES: u64 = 10_000_000;

/// Why a call is refused.
#[derive(Clone, Copy, Debug, PartialEq, Eq)]
pub enum Refused {
    Range,
    NoPart,
    NoSym,
    Full,
    Doubted,
}

#[repr(C)]
#[derive(Clone, Copy, Default)]
pub struct ChangeNumbers {
    pub price: [u64; 2],
    pub shares: [u32; 2],
    pub sym: u16,
    pub lot: u16,
    pub part: u8,
    /// 0 a quotation, 1 a state, 2 a withdrawal, 3 a round lot.
    pub kind: u8,
    pub state: u8,
    pub spare: u8,
}

#[repr(C)]
#[derive(Clone, Copy, Default)]
pub struct OrderNumbers {
    pub limit: u64,
    pub shares: u32,
    pub self_help: u32,
    pub sym: u16,
    pub side: u8,
    pub manual: u8,
    pub spare: u32,
}

#[repr(C)]
#[derive(Clone, Copy, Default)]
pub struct RowNumbers {
    pub price: u64,
    pub receipt: u64,
    pub size: u32,
    pub part: u8,
    pub protected: u8,
    pub spare: u16,
}

#[repr(C)]
#[derive(Clone, Copy, Default)]
pub struct BestNumbers {
    pub version: u64,
    pub rows: [RowNumbers; 2],
    pub market: u32,
    pub spare: u32,
}

#[repr(C)]
#[derive(Clone, Copy, Default)]
pub struct LegNumbers {
    pub price: u64,
    pub shares: u32,
    pub part: u8,
    pub spare: [u8; 3],
}

#[repr(C)]
#[derive(Clone, Copy, Default)]
pub struct CutNumbers {
    pub price: u64,
    pub marginal: i64,
    pub kind: u32,
    pub spare: u32,
}

/// A plan with its certificate.
#[repr(C)]
#[derive(Clone, Copy, Default)]
pub struct PlanNumbers {
    pub version: u64,
    pub cost_low: u64,
    pub cost_high: i64,
    pub filled: u32,
    pub legs: u32,
    pub cuts: u32,
    pub spare: u32,
    pub leg: [LegNumbers; MAX_PARTS],
    pub cut: [CutNumbers; MAX_PARTS],
}

impl PlanNumbers {
    /// Plans an order: each cut and each leg goes to its place at once.
    fn take(&mut self, view: View, order: &Order, fees: &FeeBook) {
        let (mut legs, mut cuts) = (0, 0);
        let put_cut = |Cut { price, kind }| {
            let (kind, marginal) = match kind {
                CutKind::TooMuch => (0, 0),
                CutKind::TooLittle => (1, 0),
                CutKind::Marginal(marginal) => (2, marginal as i64),
            };
            self.cut[cuts] = CutNumbers { price, marginal, kind, spare: 0 };
            cuts += 1;
        };
        let put_leg = |Leg { part, price, shares }| {
            self.leg[legs] = LegNumbers { price, shares, part, spare: [0; 3] };
            legs += 1;
        };
        let (filled, cost) = plan_into(view, order, fees, put_cut, put_leg);
        self.leg[legs..].fill(LegNumbers::default());
        self.cut[cuts..].fill(CutNumbers::default());
        self.version = view.version;
        (self.cost_low, self.cost_high) = (cost as u64, (cost >> 64) as i64);
        (self.filled, self.legs, self.cuts, self.spare) = (filled, legs as u32, cuts as u32, 0);
    }

    /// The plan of n participants as the checker takes it: each number is tested first.
    fn read(&self, parts: usize, order: &Order) -> Result<(Plan, Certificate), Refused> {
        let legs = self.leg.get(..self.legs as usize).ok_or(Refused::Range)?;
        let cuts = self.cut.get(..self.cuts as usize).ok_or(Refused::Range)?;
        let is_price = |price: u64| (1..=MOST_PRICE).contains(&price);
        if !legs.iter().all(|it| is_price(it.price) && it.shares <= MOST_SHARES) || !cuts.iter().all(|it| is_price(it.price) && it.kind <= 2) {
            return Err(Refused::Range);
        }
        if !legs.iter().all(|it| usize::from(it.part) < parts) {
            return Err(Refused::NoPart);
        }
        let leg = |it: &LegNumbers| Leg { part: it.part, price: it.price, shares: it.shares };
        let cut = |it: &CutNumbers| Cut {
            price: it.price,
            kind: [CutKind::TooMuch, CutKind::TooLittle, CutKind::Marginal(Money::from(it.marginal))][it.kind as usize],
        };
        let plan = Plan {
            version: self.version,
            order: *order,
            legs: legs.iter().map(leg).collect(),
            filled: self.filled,
            cost: (Money::from(self.cost_high) << 64) + Money::from(self.cost_low),
        };
        Ok((plan, cuts.iter().map(cut).collect()))
    }
}

/// The protected quotations that a price trades through, of each side.
#[repr(C)]
#[derive(Clone, Copy)]
pub struct ThroughNumbers {
    pub version: u64,
    pub count: [u32; 2],
    pub rows: [[RowNumbers; MAX_PARTS]; 2],
}

impl Default for ThroughNumbers {
    fn default() -> ThroughNumbers {
        ThroughNumbers { version: 0, count: [0; 2], rows: [[RowNumbers::default(); MAX_PARTS]; 2] }
    }
}

/// Whether an execution at a price in 1/1,000,000 dollar trades through a quotation at another price.
fn is_through(side: Side, millionths: u64, price: Price) -> bool {
    match side {
        Side::Bid => millionths < price * 100,
        Side::Offer => price * 100 < millionths,
    }
}

fn side_of(price: u64, shares: u32) -> Option<Option<SideQuote>> {
    if price > MOST_PRICE || shares > MOST_SHARES || (price == 0) != (shares == 0) {
        return None;
    }
    Some(NonZeroU32::new(shares).map(|shares| SideQuote { price, shares }))
}

fn state_of(state: u8) -> Option<QState> {
    [QState::Automated, QState::Manual, QState::Halted].get(usize::from(state)).copied()
}

/// A board with its fees, as a handle holds it.
pub struct Open {
    pub boards: Boards,
    pub fees: FeeBook,
    pub parts: usize,
    pub syms: usize,
}

impl Open {
    fn sym(&self, sym: u16) -> Result<Sym, Refused> {
        if usize::from(sym) < self.syms { Ok(sym) } else { Err(Refused::NoSym) }
    }

    fn part(&self, part: u8) -> Result<Part, Refused> {
        if usize::from(part) < self.parts { Ok(part) } else { Err(Refused::NoPart) }
    }

    fn change_of(&self, n: &ChangeNumbers) -> Result<Change, Refused> {
        match n.kind {
            0 => {
                let state = state_of(n.state).ok_or(Refused::Range)?;
                let bid = side_of(n.price[0], n.shares[0]).ok_or(Refused::Range)?;
                let offer = side_of(n.price[1], n.shares[1]).ok_or(Refused::Range)?;
                Ok(Change::Quote { part: self.part(n.part)?, sym: self.sym(n.sym)?, state, sides: [bid, offer] })
            }
            1 => {
                let state = state_of(n.state).ok_or(Refused::Range)?;
                Ok(Change::State { part: self.part(n.part)?, sym: self.sym(n.sym)?, state })
            }
            2 => Ok(Change::Withdraw { part: self.part(n.part)? }),
            3 if (1..=1000).contains(&n.lot) => Ok(Change::Lot { sym: self.sym(n.sym)?, lot: n.lot }),
            _ => Err(Refused::Range),
        }
    }

    pub fn order_of(&self, n: &OrderNumbers) -> Result<Order, Refused> {
        let side = match n.side {
            0 => OrderSide::Buy,
            1 => OrderSide::Sell,
            _ => return Err(Refused::Range),
        };
        if n.manual > 1 || !(1..=MOST_SHARES).contains(&n.shares) || !(1..=MOST_PRICE).contains(&n.limit) {
            return Err(Refused::Range);
        }
        if u64::from(n.self_help) >> self.parts != 0 {
            return Err(Refused::NoPart);
        }
        let sym = self.sym(n.sym)?;
        Ok(Order { side, sym, shares: n.shares, limit: n.limit, manual: n.manual == 1, self_help: PartSet(n.self_help) })
    }

    #[inline(never)]
    pub fn apply(&mut self, n: &ChangeNumbers) -> Result<(), Refused> {
        let change = self.change_of(n)?;
        if u64::from(self.boards.applied) >= MOST_CHANGES {
            return Err(Refused::Full);
        }
        self.boards.apply(&change);
        Ok(())
    }

    #[inline(never)]
    pub fn best_of(&self, sym: u16, out: &mut BestNumbers) -> Result<(), Refused> {
        let view = self.boards.view(self.sym(sym)?);
        for side in Side::BOTH {
            out.rows[side as usize] = row_numbers(view.book.best(side));
        }
        out.version = view.version;
        out.market = market(view.book) as u32;
        out.spare = 0;
        Ok(())
    }

    #[inline(never)]
    pub fn plan(&self, n: &OrderNumbers, out: &mut PlanNumbers) -> Result<(), Refused> {
        let order = self.order_of(n)?;
        out.take(self.boards.view(order.sym), &order, &self.fees);
        Ok(())
    }

    /// Whether a plan is the best lawful one for an order.
    #[inline(never)]
    pub fn confirm(&self, order: &OrderNumbers, plan: &PlanNumbers) -> Result<(), Refused> {
        let order = self.order_of(order)?;
        let (plan, certificate) = plan.read(self.parts, &order)?;
        let holds = check::confirm(self.boards.view(order.sym), &order, &self.fees, &plan, &certificate);
        if holds { Ok(()) } else { Err(Refused::Doubted) }
    }

    /// Writes what a price trades through, by participant. Rows are in rank order, so it looks no further than the price.
    #[inline(never)]
    pub fn traded_through(&self, sym: u16, millionths: u64, out: &mut ThroughNumbers) -> Result<(), Refused> {
        if !(1..=MOST_MILLIONTHS).contains(&millionths) {
            return Err(Refused::Range);
        }
        let view = self.boards.view(self.sym(sym)?);
        out.version = view.version;
        for side in Side::BOTH {
            let (rows, mut count) = (&mut out.rows[side as usize], 0);
            let through = view.book.ranked(side).iter().take_while(|row| is_through(side, millionths, row.price));
            for row in through.filter(|row| row.protected) {
                rows[count] = row_numbers(Some(row));
                count += 1;
            }
            rows[..count].sort_unstable_by_key(|row| row.part);
            rows[count..].fill(RowNumbers::default());
            out.count[side as usize] = count as u32;
        }
        Ok(())
    }
}

fn row_numbers(row: Option<&Row>) -> RowNumbers {
    match row {
        Some(r) => RowNumbers { price: r.price, receipt: u64::from(r.receipt), size: r.size, part: r.part, protected: u8::from(r.protected), spare: 0 },
        None => RowNumbers::default(),
    }
}
