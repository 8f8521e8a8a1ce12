//! The proved quote board and sweep planner for ordinary Rust. No `unsafe` is needed above this crate.
//!
//! ```
//! use nms::{Board, Order, OrderSide};
//!
//! # let setup = r#"
//! # tape_limit = 9
//! # queue = 9
//! # desks = 1
//! # [[participant]]
//! # name = "N"
//! # feed = "A"
//! # fee = 3000000
//! # rate = 300
//! # [[symbol]]
//! # name = "ABC"
//! # lot = 100
//! # "#;
//! let mut board = Board::open(setup)?;
//! let abc = board.sym("ABC")?;
//! board.apply_text("Q,N,ABC,A,9.99,200,10.00,300")?;
//! assert_eq!(board.best(abc)?.offer.unwrap().price, 100_000);
//! let plan = board.plan(Order::new(OrderSide::Buy, abc, 600, 100_100))?;
//! assert_eq!(plan.filled(), 300);
//! assert_eq!(board.confirm(&plan)?, None);
//! # Ok::<(), nms::Error>(())
//! ```
//!
//! A [`View`] is a value: [`Terms`] plan and confirm on it, in any number of threads, with no board and no lock.
//!
//! Prices are whole 1/10,000 dollars, sizes are shares, money is whole nanodollars. Only [`Board::open`], [`Terms::open`] and
//! [`setup_place`] take memory of the library.
#![warn(missing_docs)]

use nms_sys as sys;
use std::fmt;
use std::ptr::null_mut;

pub use nms_sys;
pub use sys::{nms_best as RawBest, nms_change as RawChange, nms_counts as Counts, nms_doubt as Doubt, nms_order as RawOrder, nms_place as Place, nms_plan as RawPlan, nms_view as View};

/// A call that was refused.
#[derive(Clone, Copy, Debug, PartialEq, Eq, Hash)]
#[non_exhaustive]
pub enum Error {
    /// The text is no setup: 1 to 8 for C1 to C8.
    Setup(u8),
    /// Out of memory.
    NoMemory,
    /// A number that is out of its range.
    Range,
    /// No such participant on the roster.
    NoPart,
    /// No such symbol on the roster.
    NoSym,
    /// The board has taken 2^63 changes. Its setup's `tape_limit` does not count here.
    Full,
    /// The library has another layout than this crate.
    WrongAbi,
    /// No look shows such a view: a torn copy, or numbers that no look wrote.
    NoView,
    /// A record, or the text of a plan, is refused: 1 to 14 for L1 to L14.
    Record(u8),
    /// Any other code of `enum nms_code`.
    Other(u32),
}

impl Error {
    fn of(code: u32) -> Error {
        match code {
            1..=8 => Error::Setup(code as u8),
            sys::NMS_NO_MEMORY => Error::NoMemory,
            sys::NMS_RANGE => Error::Range,
            sys::NMS_NO_PART => Error::NoPart,
            sys::NMS_NO_SYM => Error::NoSym,
            sys::NMS_FULL => Error::Full,
            sys::NMS_WRONG_ABI => Error::WrongAbi,
            sys::NMS_NO_VIEW => Error::NoView,
            101..=114 => Error::Record((code - 100) as u8),
            _ => Error::Other(code),
        }
    }

    /// The code of `enum nms_code`.
    pub fn code(self) -> u32 {
        match self {
            Error::Setup(number) => number.into(),
            Error::NoMemory => sys::NMS_NO_MEMORY,
            Error::Range => sys::NMS_RANGE,
            Error::NoPart => sys::NMS_NO_PART,
            Error::NoSym => sys::NMS_NO_SYM,
            Error::Full => sys::NMS_FULL,
            Error::WrongAbi => sys::NMS_WRONG_ABI,
            Error::NoView => sys::NMS_NO_VIEW,
            Error::Record(number) => 100 + u32::from(number),
            Error::Other(code) => code,
        }
    }
}

impl fmt::Display for Error {
    fn fmt(&self, out: &mut fmt::Formatter<'_>) -> fmt::Result {
        // The library has no text for this code, which it never answers.
        if *self == Error::WrongAbi {
            return write!(out, "code {}: the library has another layout than this crate", self.code());
        }
        let (mut text, mut bytes) = ([0; sys::NMS_CODE_TEXT_ROOM], 0);
        // SAFETY: the buffer and the length are ours, and live through the call.
        unsafe { sys::nms_raw_code_text(self.code(), text.as_mut_ptr(), text.len(), &mut bytes) };
        write!(out, "code {}: {}", self.code(), String::from_utf8_lossy(&text[..bytes]))
    }
}

impl std::error::Error for Error {}

/// What a call gives.
pub type Result<T> = std::result::Result<T, Error>;

fn must(code: u32) -> Result<()> {
    if code == sys::NMS_OK { Ok(()) } else { Err(Error::of(code)) }
}

/// The version of the library, such as 0.3.0.
pub fn version() -> Result<String> {
    let (mut text, mut bytes) = ([0; sys::NMS_CODE_TEXT_ROOM], 0);
    // SAFETY: the buffer and the length are ours, and live through the call.
    must(unsafe { sys::nms_raw_version(text.as_mut_ptr(), text.len(), &mut bytes) })?;
    Ok(String::from_utf8_lossy(&text[..bytes]).into_owned())
}

fn must_fit() -> Result<()> {
    // SAFETY: the function takes nothing.
    if unsafe { sys::nms_abi() } == sys::NMS_ABI { Ok(()) } else { Err(Error::WrongAbi) }
}

/// A participant's number on the roster of a board.
#[derive(Clone, Copy, Debug, PartialEq, Eq, PartialOrd, Ord, Hash)]
pub struct Part(pub u8);

/// A symbol's number on the roster of a board.
#[repr(transparent)]
#[derive(Clone, Copy, Debug, PartialEq, Eq, PartialOrd, Ord, Hash)]
pub struct Sym(pub u16);

/// A side of the board.
#[derive(Clone, Copy, Debug, PartialEq, Eq, Hash)]
#[repr(u8)]
pub enum Side {
    /// The bids.
    Bid = sys::NMS_BID,
    /// The offers.
    Offer = sys::NMS_OFFER,
}

/// Whether an order buys or sells.
#[derive(Clone, Copy, Debug, PartialEq, Eq, Hash)]
#[repr(u8)]
pub enum OrderSide {
    /// It buys.
    Buy = sys::NMS_BUY,
    /// It sells.
    Sell = sys::NMS_SELL,
}

/// The state of a quotation.
#[derive(Clone, Copy, Debug, PartialEq, Eq, Hash)]
#[repr(u8)]
pub enum State {
    /// Automated, so its rows are protected.
    Automated = sys::NMS_AUTOMATED,
    /// Manual.
    Manual = sys::NMS_MANUAL,
    /// Halted, so it has no row.
    Halted = sys::NMS_HALTED,
}

/// How the best bid and the best offer compare.
#[derive(Clone, Copy, Debug, PartialEq, Eq, Hash)]
pub enum Market {
    /// There is neither.
    Empty,
    /// There is one of them.
    OneSided,
    /// The bid is below the offer.
    Normal,
    /// They are equal.
    Locked,
    /// The bid is above the offer.
    Crossed,
}

impl Market {
    fn of(number: u32) -> Market {
        match number {
            sys::NMS_EMPTY => Market::Empty,
            sys::NMS_ONE_SIDED => Market::OneSided,
            sys::NMS_NORMAL => Market::Normal,
            sys::NMS_LOCKED => Market::Locked,
            _ => Market::Crossed,
        }
    }
}

/// A quotation of at least one round lot.
#[derive(Clone, Copy, Debug, PartialEq, Eq)]
pub struct Row {
    /// Whose it is.
    pub part: Part,
    /// 1/10,000 dollars.
    pub price: u64,
    /// Shares, whole round lots.
    pub size: u32,
    /// In the order of the changes of the symbol that last altered a side's price or shares, at most the version. Until
    /// 9,990,000 changes were applied it is the number of that change.
    pub receipt: u64,
    /// Whether it is automated, and so protected.
    pub is_protected: bool,
}

impl Row {
    fn of(row: &sys::nms_row) -> Option<Row> {
        let &sys::nms_row { part, price, size, receipt, is_protected, .. } = row;
        (size != 0).then_some(Row { part: Part(part), price, size, receipt, is_protected: is_protected == 1 })
    }
}

/// The best bid and the best offer of a symbol.
#[derive(Clone, Copy, Debug, PartialEq, Eq)]
pub struct Best {
    /// How many changes were applied.
    pub version: u64,
    /// The best bid.
    pub bid: Option<Row>,
    /// The best offer.
    pub offer: Option<Row>,
    /// How they compare.
    pub market: Market,
}

/// What a price trades through: the protected bids above it and the protected offers below it.
#[derive(Clone, Debug, PartialEq, Eq)]
pub struct Through {
    /// How many changes were applied.
    pub version: u64,
    /// The bids, by participant.
    pub bids: Vec<Row>,
    /// The offers, by participant.
    pub offers: Vec<Row>,
}

impl Through {
    /// What an execution at a price trades through on a view. The price is in 1/1,000,000 dollars.
    pub fn of(view: &View, millionths: u64) -> Result<Through> {
        let mut it = sys::nms_through::default();
        // SAFETY: both pointers are those of references, which live through the call.
        must(unsafe { sys::nms_raw_through_view(view, millionths, &mut it) })?;
        Ok(Through::from(&it))
    }

    fn from(it: &sys::nms_through) -> Through {
        let rows = |rows: &[sys::nms_row]| rows.iter().filter_map(Row::of).collect();
        Through { version: it.version, bids: rows(&it.bid), offers: rows(&it.offer) }
    }
}

/// A view with at most `most[n]` shares of participant n on one side: for shares that one's own orders have taken, and that the
/// quotes still show. A buyer reduces the offers.
pub fn reduced(view: &View, side: Side, most: &[u32; sys::NMS_MOST_PARTS]) -> Result<View> {
    let mut left = View::default();
    // SAFETY: all three pointers are those of references, which live through the call, and `most` has as many numbers as it reads.
    must(unsafe { sys::nms_raw_reduce_view(view, side as u8, most.as_ptr(), &mut left) })?;
    Ok(left)
}

/// A change of the board. A side is a price and shares, or none.
#[derive(Clone, Copy, Debug, PartialEq, Eq)]
pub enum Change {
    /// A quotation.
    Quote {
        /// Whose it is.
        part: Part,
        /// Its symbol.
        sym: Sym,
        /// Its state.
        state: State,
        /// Price and shares.
        bid: Option<(u64, u32)>,
        /// Price and shares.
        offer: Option<(u64, u32)>,
    },
    /// Another state of a quotation.
    State {
        /// Whose it is.
        part: Part,
        /// Its symbol.
        sym: Sym,
        /// The state from now on.
        state: State,
    },
    /// No quotation in any symbol.
    Withdraw {
        /// Who withdraws.
        part: Part,
    },
    /// Another round lot.
    Lot {
        /// Of which symbol.
        sym: Sym,
        /// 1 to 1,000 shares.
        lot: u16,
    },
}

impl From<Change> for RawChange {
    fn from(change: Change) -> RawChange {
        let none = RawChange::default();
        match change {
            Change::Quote { part, sym, state, bid, offer } => {
                let ((bid_price, bid_shares), (offer_price, offer_shares)) = (bid.unwrap_or((0, 0)), offer.unwrap_or((0, 0)));
                let sides = RawChange { bid_price, bid_shares, offer_price, offer_shares, ..none };
                RawChange { kind: sys::NMS_QUOTE, part: part.0, sym: sym.0, state: state as u8, ..sides }
            }
            Change::State { part, sym, state } => RawChange { kind: sys::NMS_STATE, part: part.0, sym: sym.0, state: state as u8, ..none },
            Change::Withdraw { part } => RawChange { kind: sys::NMS_WITHDRAW, part: part.0, ..none },
            Change::Lot { sym, lot } => RawChange { kind: sys::NMS_LOT, sym: sym.0, lot, ..none },
        }
    }
}

/// What is to be traded.
#[repr(transparent)]
#[derive(Clone, Copy, Debug, PartialEq, Eq)]
pub struct Order(RawOrder);

impl Order {
    /// An order on automated quotations that passes over nobody: 1 to 999,999,999 shares, and the worst price in 1/10,000
    /// dollars.
    pub fn new(side: OrderSide, sym: Sym, shares: u32, limit: u64) -> Order {
        Order(RawOrder { limit, shares, sym: sym.0, side: side as u8, ..RawOrder::default() })
    }

    /// May also trade with manual quotations.
    pub fn manual(mut self) -> Order {
        self.0.manual = 1;
        self
    }

    /// Passes over a participant too (self-help, 17 CFR 242.611(b)(1)). Its number has to be below 32.
    pub fn self_help(mut self, part: Part) -> Order {
        assert!(usize::from(part.0) < sys::NMS_MOST_PARTS, "participant {} is on no roster", part.0);
        self.0.self_help |= 1 << part.0;
        self
    }
}

/// An order that goes to one participant.
#[derive(Clone, Copy, Debug, PartialEq, Eq)]
pub struct Leg {
    /// To whom it goes.
    pub part: Part,
    /// 1/10,000 dollars.
    pub price: u64,
    /// How many shares.
    pub shares: u32,
}

/// A plan with the order that it was made for and its certificate.
#[derive(Clone, Debug, PartialEq, Eq)]
pub struct Plan {
    order: RawOrder,
    raw: RawPlan,
}

impl Plan {
    /// How many changes had been applied to the board that it was made on.
    pub fn version(&self) -> u64 {
        self.raw.version
    }

    /// The shares of all legs.
    pub fn filled(&self) -> u32 {
        self.raw.filled
    }

    /// What the legs cost with fees, in nanodollars; negative for a sale.
    pub fn cost(&self) -> i128 {
        (i128::from(self.raw.cost_high) << 64) + i128::from(self.raw.cost_low)
    }

    /// What goes to whom.
    pub fn legs(&self) -> impl ExactSizeIterator<Item = Leg> + DoubleEndedIterator + '_ {
        self.raw.leg[..self.raw.legs as usize].iter().map(|it| Leg { part: Part(it.part), price: it.price, shares: it.shares })
    }

    /// The structs of nms.h.
    pub fn as_raw(&self) -> (&RawOrder, &RawPlan) {
        (&self.order, &self.raw)
    }

    /// A plan of any maker, for [`Board::confirm`] to judge. None if it counts more legs or cuts than it has places.
    pub fn from_raw(order: RawOrder, raw: RawPlan) -> Option<Plan> {
        (raw.legs.max(raw.cuts) as usize <= sys::NMS_MOST_PARTS).then_some(Plan { order, raw })
    }
}

/// Where a text is no setup, and why. None if it is one.
pub fn setup_place(setup: &str) -> Result<Option<Place>> {
    must_fit()?;
    let mut place = Place::default();
    // SAFETY: here and below each pointer is that of a reference or a slice, which lives through the call.
    must(unsafe { sys::nms_raw_setup_place(setup.as_ptr(), setup.len(), &mut place) })?;
    Ok((place.code != 0).then_some(place))
}

/// A board. It can go to another thread. Looks take `&self`, so threads that share a board may make them together; all
/// else takes `&mut self`. So an `RwLock<Board>` lets many look at once.
#[derive(Debug)]
pub struct Board(sys::nms_board);

// SAFETY: the library keeps no state besides the board, and lets it change threads if a move, a lock or a join orders them.
unsafe impl Send for Board {}
// SAFETY: every method with `&self` is a look: it is proved that the library only reads the board in it, with a share of the
// right to, and stores in a copy of the handle that the call owns.
unsafe impl Sync for Board {}

impl Board {
    /// Opens a board from the text of a setup.
    pub fn open(setup: &str) -> Result<Board> {
        must_fit()?;
        let mut board = Board(sys::nms_board { mark: 0, at: null_mut() });
        must(unsafe { sys::nms_raw_open(setup.as_ptr(), setup.len(), &mut board.0) })?;
        Ok(board)
    }

    /// The handle's copy for one look, in which the library stores. It ends with the look, and is never closed.
    fn look(&self) -> sys::nms_board {
        let sys::nms_board { mark, at } = self.0;
        sys::nms_board { mark, at }
    }

    /// How many changes were applied, how many may still be, and how many participants and symbols there are.
    pub fn counts(&self) -> Result<Counts> {
        let mut counts = Counts::default();
        must(unsafe { sys::nms_raw_counts_of(&mut self.look(), &mut counts) })?;
        Ok(counts)
    }

    /// The number of a participant: look it up once.
    pub fn part(&self, name: &str) -> Result<Part> {
        let mut number = 0;
        must(unsafe { sys::nms_raw_find_part(&mut self.look(), name.as_ptr(), name.len(), &mut number) })?;
        Ok(Part(number))
    }

    /// The number of a symbol: look it up once.
    pub fn sym(&self, name: &str) -> Result<Sym> {
        let mut number = 0;
        must(unsafe { sys::nms_raw_find_sym(&mut self.look(), name.as_ptr(), name.len(), &mut number) })?;
        Ok(Sym(number))
    }

    /// The name of a participant.
    pub fn part_name(&self, part: Part) -> Result<String> {
        let (mut text, mut bytes) = ([0; sys::NMS_NAME_ROOM], 0);
        must(unsafe { sys::nms_raw_part_name(&mut self.look(), part.0, text.as_mut_ptr(), text.len(), &mut bytes) })?;
        Ok(String::from_utf8_lossy(&text[..bytes]).into_owned())
    }

    /// The name of a symbol.
    pub fn sym_name(&self, sym: Sym) -> Result<String> {
        let (mut text, mut bytes) = ([0; sys::NMS_NAME_ROOM], 0);
        must(unsafe { sys::nms_raw_sym_name(&mut self.look(), sym.0, text.as_mut_ptr(), text.len(), &mut bytes) })?;
        Ok(String::from_utf8_lossy(&text[..bytes]).into_owned())
    }

    /// Applies one change.
    pub fn apply(&mut self, change: Change) -> Result<()> {
        must(unsafe { sys::nms_raw_apply(&mut self.0, &change.into()) })
    }

    /// Applies changes in order, up to the first that is refused: how many were applied, and why the next one was not.
    pub fn apply_all(&mut self, changes: &[RawChange]) -> (usize, Result<()>) {
        let mut applied = 0;
        let code = unsafe { sys::nms_raw_apply_all(&mut self.0, changes.as_ptr(), changes.len(), &mut applied) };
        (applied, must(code))
    }

    /// As [`Board::apply_all`], and writes the best rows of each change's symbol after it; of a withdrawal too. There has to be a
    /// place for each change.
    pub fn apply_best(&mut self, changes: &[RawChange], best: &mut [RawBest]) -> (usize, Result<()>) {
        let mut applied = 0;
        let code = unsafe { sys::nms_raw_apply_best(&mut self.0, changes.as_ptr(), changes.len(), best.as_mut_ptr(), best.len(), &mut applied) };
        (applied, must(code))
    }

    /// Applies the change that a record says, as `Q,N,ABC,A,10.01,300,10.03,200`, without its end of line.
    pub fn apply_text(&mut self, record: &str) -> Result<()> {
        must(unsafe { sys::nms_raw_apply_text(&mut self.0, record.as_ptr(), record.len()) })
    }

    /// Applies the changes that the lines of a text say, as a file of changes has them, in order up to the first that is refused: how
    /// many were applied, the byte where the next line begins, and why that one was not applied.
    pub fn apply_lines(&mut self, text: impl AsRef<[u8]>) -> (usize, usize, Result<()>) {
        let (text, mut applied, mut at) = (text.as_ref(), 0, 0);
        let code = unsafe { sys::nms_raw_apply_lines(&mut self.0, text.as_ptr(), text.len(), &mut applied, &mut at) };
        (applied, at, must(code))
    }

    /// The best bid and the best offer of a symbol.
    pub fn best(&self, sym: Sym) -> Result<Best> {
        let mut best = sys::nms_best::default();
        must(unsafe { sys::nms_raw_best_of(&mut self.look(), sym.0, &mut best) })?;
        Ok(Best { version: best.version, bid: Row::of(&best.bid), offer: Row::of(&best.offer), market: Market::of(best.market) })
    }

    /// Writes the best rows of each symbol, up to the first that is refused: how many were written, and why the next one was not.
    /// There has to be a place for each symbol.
    pub fn best_all(&self, syms: &[Sym], best: &mut [RawBest]) -> (usize, Result<()>) {
        let mut done = 0;
        let code = unsafe { sys::nms_raw_best_all(&mut self.look(), syms.as_ptr().cast(), syms.len(), best.as_mut_ptr(), best.len(), &mut done) };
        (done, must(code))
    }

    /// The rows of one side of a symbol in rank order, best first.
    pub fn rows(&self, sym: Sym, side: Side) -> Result<Vec<Row>> {
        let mut it = sys::nms_rows::default();
        must(unsafe { sys::nms_raw_rows_of(&mut self.look(), sym.0, side as u8, &mut it) })?;
        let row = |n: usize| Row { part: Part(it.part[n]), price: it.price[n], size: it.size[n], receipt: it.receipt[n], is_protected: it.is_protected[n] == 1 };
        Ok((0..it.count as usize).map(row).collect())
    }

    /// The row at a place of a side's rank order, from 0 on. None if the side has fewer rows.
    pub fn ranked(&self, sym: Sym, side: Side, place: u8) -> Result<Option<Row>> {
        let mut row = sys::nms_row::default();
        match unsafe { sys::nms_raw_ranked(&mut self.look(), sym.0, side as u8, place, &mut row) } {
            sys::NMS_NONE => Ok(None),
            code => must(code).map(|()| Row::of(&row)),
        }
    }

    /// All that a look at a symbol shows, as a value for [`Terms`] and [`Through::of`].
    pub fn view(&self, sym: Sym) -> Result<View> {
        let mut view = View::default();
        must(unsafe { sys::nms_raw_view_of(&mut self.look(), sym.0, &mut view) })?;
        Ok(view)
    }

    /// The protected quotations that an execution at a price trades through. The price is in 1/1,000,000 dollars.
    pub fn traded_through(&self, sym: Sym, millionths: u64) -> Result<Through> {
        let mut it = sys::nms_through::default();
        must(unsafe { sys::nms_raw_traded_through(&mut self.look(), sym.0, millionths, &mut it) })?;
        Ok(Through::from(&it))
    }

    /// What one share costs with a participant's fee, in nanodollars; negative for a sale.
    pub fn unit_cost(&self, part: Part, side: OrderSide, price: u64) -> Result<i64> {
        let mut nanodollars = 0;
        must(unsafe { sys::nms_raw_unit_cost(&mut self.look(), part.0, side as u8, price, &mut nanodollars) })?;
        Ok(nanodollars)
    }

    /// The best lawful plan for an order.
    pub fn plan(&self, order: Order) -> Result<Plan> {
        let mut raw = RawPlan::default();
        must(unsafe { sys::nms_raw_plan_order(&mut self.look(), &order.0, &mut raw) })?;
        Ok(Plan { order: order.0, raw })
    }

    /// Writes a plan for each order on the board as it is, up to the first that is refused: how many were planned, and why the next
    /// one was not. Two plans may take the same shares. There has to be a place for each order.
    pub fn plan_all(&self, orders: &[Order], plans: &mut [RawPlan]) -> (usize, Result<()>) {
        let mut done = 0;
        let code = unsafe { sys::nms_raw_plan_all(&mut self.look(), orders.as_ptr().cast(), orders.len(), plans.as_mut_ptr(), plans.len(), &mut done) };
        (done, must(code))
    }

    /// Whether a plan is lawful and the best one for its order on this board: nothing if it is, else why not.
    pub fn confirm(&self, plan: &Plan) -> Result<Option<Doubt>> {
        let mut doubt = Doubt::default();
        match unsafe { sys::nms_raw_confirm(&mut self.look(), &plan.order, &plan.raw, &mut doubt) } {
            sys::NMS_DOUBTED => Ok(Some(doubt)),
            code => must(code).map(|()| None),
        }
    }

    /// The text of a plan with its certificate, as `nms_tool check` reads it.
    pub fn text(&mut self, plan: &Plan) -> Result<String> {
        let (mut text, mut bytes) = (vec![0; sys::NMS_PLAN_TEXT_ROOM], 0);
        must(unsafe { sys::nms_raw_plan_text(&mut self.0, &plan.order, &plan.raw, text.as_mut_ptr(), text.len(), &mut bytes) })?;
        Ok(String::from_utf8_lossy(&text[..bytes]).into_owned())
    }

    /// The plan that such a text says. It need not be lawful: [`Board::confirm`] judges that.
    pub fn read(&mut self, text: &str) -> Result<Plan> {
        let (mut order, mut raw) = (RawOrder::default(), RawPlan::default());
        must(unsafe { sys::nms_raw_read_plan(&mut self.0, text.as_ptr(), text.len(), &mut order, &mut raw) })?;
        Ok(Plan { order, raw })
    }

    /// The changes that bring an empty board of the same setup to a symbol's rows, for [`Board::apply_all`] of that board.
    pub fn opening(&self, sym: Sym) -> Result<Vec<RawChange>> {
        let mut it = sys::nms_opening::default();
        must(unsafe { sys::nms_raw_opening_of(&mut self.look(), sym.0, &mut it) })?;
        Ok(it.change[..it.count as usize].to_vec())
    }
}

impl Drop for Board {
    fn drop(&mut self) {
        unsafe { sys::nms_raw_close(&mut self.0) };
    }
}

/// The roster and the fees of a setup, which never change. Every method takes `&self`, and any number of threads may call at
/// once, each on a view of its own.
#[derive(Debug)]
pub struct Terms(sys::nms_terms);

// SAFETY: the library keeps no state besides the terms, and lets them change threads if a move, a lock or a join orders them.
unsafe impl Send for Terms {}
// SAFETY: as with a board, and no method writes.
unsafe impl Sync for Terms {}

impl Terms {
    /// Opens terms from the text of a setup.
    pub fn open(setup: &str) -> Result<Terms> {
        must_fit()?;
        let mut terms = Terms(sys::nms_terms { mark: 0, at: null_mut() });
        must(unsafe { sys::nms_raw_terms_open(setup.as_ptr(), setup.len(), &mut terms.0) })?;
        Ok(terms)
    }

    /// The handle's copy for one call, as that of a board.
    fn look(&self) -> sys::nms_terms {
        let sys::nms_terms { mark, at } = self.0;
        sys::nms_terms { mark, at }
    }

    /// The number of a participant: look it up once.
    pub fn part(&self, name: &str) -> Result<Part> {
        let mut number = 0;
        must(unsafe { sys::nms_raw_terms_find_part(&mut self.look(), name.as_ptr(), name.len(), &mut number) })?;
        Ok(Part(number))
    }

    /// The number of a symbol: look it up once.
    pub fn sym(&self, name: &str) -> Result<Sym> {
        let mut number = 0;
        must(unsafe { sys::nms_raw_terms_find_sym(&mut self.look(), name.as_ptr(), name.len(), &mut number) })?;
        Ok(Sym(number))
    }

    /// The name of a participant.
    pub fn part_name(&self, part: Part) -> Result<String> {
        let (mut text, mut bytes) = ([0; sys::NMS_NAME_ROOM], 0);
        must(unsafe { sys::nms_raw_terms_part_name(&mut self.look(), part.0, text.as_mut_ptr(), text.len(), &mut bytes) })?;
        Ok(String::from_utf8_lossy(&text[..bytes]).into_owned())
    }

    /// The name of a symbol.
    pub fn sym_name(&self, sym: Sym) -> Result<String> {
        let (mut text, mut bytes) = ([0; sys::NMS_NAME_ROOM], 0);
        must(unsafe { sys::nms_raw_terms_sym_name(&mut self.look(), sym.0, text.as_mut_ptr(), text.len(), &mut bytes) })?;
        Ok(String::from_utf8_lossy(&text[..bytes]).into_owned())
    }

    /// The best lawful plan for an order on a view.
    pub fn plan(&self, view: &View, order: Order) -> Result<Plan> {
        let mut raw = RawPlan::default();
        must(unsafe { sys::nms_raw_plan_view(&mut self.look(), view, &order.0, &mut raw) })?;
        Ok(Plan { order: order.0, raw })
    }

    /// Whether a plan is lawful and the best one for its order on a view: nothing if it is, else why not.
    pub fn confirm(&self, view: &View, plan: &Plan) -> Result<Option<Doubt>> {
        let mut doubt = Doubt::default();
        match unsafe { sys::nms_raw_confirm_view(&mut self.look(), view, &plan.order, &plan.raw, &mut doubt) } {
            sys::NMS_DOUBTED => Ok(Some(doubt)),
            code => must(code).map(|()| None),
        }
    }
}

impl Drop for Terms {
    fn drop(&mut self) {
        unsafe { sys::nms_raw_terms_close(&mut self.0) };
    }
}
