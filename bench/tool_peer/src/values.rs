//! The values that every module uses, and those of bench/latency_peer. Prices are
//! whole 1/10,000 dollars, money is whole nanodollars, sizes are shares.

use std::num::NonZeroU32;

use crate::list::List;

pub const MAX_PARTS: usize = 32;

pub type Part = u8;
pub type Sym = u16;
pub type Price = u64;
pub type Money = i128;

#[derive(Clone, Copy, PartialEq, Eq, Debug)]
pub struct Feed(pub u8);

impl Feed {
    pub const A: Feed = Feed(0);
}

#[derive(Clone, Copy, PartialEq, Eq, Debug)]
pub enum Side {
    Bid = 0,
    Offer = 1,
}

impl Side {
    pub const BOTH: [Side; 2] = [Side::Bid, Side::Offer];

    /// Whether price `a` ranks strictly before price `b` on this side.
    pub fn better(self, a: Price, b: Price) -> bool {
        match self {
            Side::Bid => a > b,
            Side::Offer => a < b,
        }
    }
}

#[derive(Clone, Copy, PartialEq, Eq, Debug)]
pub enum OrderSide {
    Buy,
    Sell,
}

impl OrderSide {
    /// The side of the book that the order trades against.
    pub fn contra(self) -> Side {
        match self {
            OrderSide::Buy => Side::Offer,
            OrderSide::Sell => Side::Bid,
        }
    }
}

#[derive(Clone, Copy, PartialEq, Eq, Debug)]
pub enum QState {
    Automated,
    Manual,
    Halted,
}

#[derive(Clone, Copy, PartialEq, Eq, Debug)]
pub struct SideQuote {
    pub price: Price,
    pub shares: NonZeroU32,
}

#[derive(Clone, Copy, PartialEq, Eq, Debug)]
pub enum Change {
    Quote { part: Part, sym: Sym, state: QState, sides: [Option<SideQuote>; 2] },
    State { part: Part, sym: Sym, state: QState },
    Withdraw { part: Part },
    Lot { sym: Sym, lot: u16 },
}

/// A set of participant places.
#[derive(Clone, Copy, PartialEq, Eq, Debug, Default)]
pub struct PartSet(pub u32);

impl PartSet {
    pub fn insert(&mut self, part: Part) {
        self.0 |= 1 << part;
    }
    pub fn has(self, part: Part) -> bool {
        self.0 >> part & 1 == 1
    }
    pub fn iter(self) -> impl Iterator<Item = Part> {
        (0..MAX_PARTS as Part).filter(move |&p| self.has(p))
    }
}

#[derive(Clone, Copy, PartialEq, Eq, Debug)]
pub struct Order {
    pub side: OrderSide,
    pub sym: Sym,
    pub shares: u32,
    pub limit: Price,
    pub manual: bool,
    pub self_help: PartSet,
}

#[derive(Clone, Copy, PartialEq, Eq, Debug)]
pub struct Leg {
    pub part: Part,
    pub price: Price,
    pub shares: u32,
}

#[derive(Clone, Copy, PartialEq, Eq, Debug)]
pub enum CutKind {
    TooMuch,
    TooLittle,
    Marginal(Money),
}

#[derive(Clone, Copy, PartialEq, Eq, Debug)]
pub struct Cut {
    pub price: Price,
    pub kind: CutKind,
}

pub type Certificate = List<Cut, MAX_PARTS>;

#[derive(Clone)]
pub struct Plan {
    pub version: u64,
    pub order: Order,
    pub legs: List<Leg, MAX_PARTS>,
    pub filled: u32,
    pub cost: Money,
}

/// Fee per share in nanodollars from 1.0000 up, and rate in hundred-thousandths
/// of the price below.
#[derive(Clone, Copy, Default)]
pub struct Fee {
    pub fee: i64,
    pub rate: i64,
}

#[derive(Clone, Default)]
pub struct FeeBook(pub [Fee; MAX_PARTS]);

impl FeeBook {
    /// Nanodollars per share.
    pub fn unit_cost(&self, part: Part, side: OrderSide, price: Price) -> i64 {
        let Fee { fee, rate } = self.0[part as usize];
        let price = price as i64;
        let fee = if price >= 10_000 { fee } else { price * rate };
        match side {
            OrderSide::Buy => price * 100_000 + fee,
            OrderSide::Sell => -price * 100_000 + fee,
        }
    }
}
