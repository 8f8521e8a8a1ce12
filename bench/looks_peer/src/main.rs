//! The `looks` loads of `crates/nms_examples` in ordinary Rust over a mutex round one board, with no proofs and the standard
//! library alone: desks look while a publisher publishes every 64 changes. Each line of standard input is
//! `looks DESKS LOOKS`. The board, the changes and the view of a look are those of `crates/nms_board`.
#![allow(dead_code)]
#[path = "../../change.rs"]
mod change;

use change::QState;
use std::io::Read;
use std::mem::MaybeUninit;
use std::num::{NonZeroU32, NonZeroU64};
use std::sync::atomic::{AtomicBool, Ordering};
use std::sync::Mutex;
use std::thread;
use std::time::Duration;

const MOST_ROWS: usize = 32;
const PARTICIPANTS: u64 = 16;
const SYMBOLS: u64 = 200;
const BATCHES_TO_FILL: u32 = 50;
const BATCH: u32 = 64;

#[derive(Clone, Copy, PartialEq)]
struct SideQuote {
    price: NonZeroU64,
    shares: NonZeroU32,
}

type Change = change::Change<SideQuote>;

#[derive(Clone, Copy)]
struct Held {
    quote: Option<SideQuote>,
    receipt: u64,
}

impl Held {
    fn take(&mut self, number: u64, quote: Option<SideQuote>) {
        if self.quote != quote {
            *self = Held {
                quote,
                receipt: number,
            };
        }
    }
}

#[derive(Clone, Copy)]
struct Cell {
    state: Option<QState>,
    bid: Held,
    offer: Held,
}

impl Cell {
    fn row(&self, held: &Held, part: u8, lot: u32) -> Option<Row> {
        if self.state == Some(QState::Halted) {
            return None;
        }
        let quote = held.quote?;
        let size = displayed(quote.shares.get(), lot);
        if size == 0 {
            return None;
        }
        Some(Row {
            price: quote.price,
            receipt: held.receipt,
            size,
            part,
            protected: self.state == Some(QState::Automated),
        })
    }
}

#[derive(Clone, Copy)]
struct Row {
    price: NonZeroU64,
    receipt: u64,
    size: u32,
    part: u8,
    protected: bool,
}

/// A list with room for a row of each participant, of which only the rows in it are written.
struct Rows {
    len: usize,
    rows: [MaybeUninit<Row>; MOST_ROWS],
}

impl Rows {
    fn new() -> Self {
        Rows {
            len: 0,
            rows: [MaybeUninit::uninit(); MOST_ROWS],
        }
    }

    fn push(&mut self, row: Row) {
        self.rows[self.len].write(row);
        self.len += 1;
    }

    fn get(&self, place: usize) -> Option<&Row> {
        // The rows below the length were written.
        (place < self.len).then(|| unsafe { self.rows[place].assume_init_ref() })
    }
}

struct View {
    version: u64,
    sym: u16,
    bids: Rows,
    offers: Rows,
}

struct Board {
    parts: u8,
    lots: Vec<u32>,
    cells: Vec<Cell>,
    applied: u64,
}

impl Board {
    fn new() -> Self {
        let nothing = Held {
            quote: None,
            receipt: 0,
        };
        let empty = Cell {
            state: None,
            bid: nothing,
            offer: nothing,
        };
        Board {
            parts: PARTICIPANTS as u8,
            lots: vec![100; SYMBOLS as usize],
            cells: vec![empty; MOST_ROWS * SYMBOLS as usize],
            applied: 0,
        }
    }

    fn cell(&mut self, part: u8, sym: u16) -> &mut Cell {
        &mut self.cells[MOST_ROWS * usize::from(sym) + usize::from(part)]
    }

    fn apply(&mut self, change: Change) {
        self.applied += 1;
        let number = self.applied;
        match change {
            Change::Quote {
                part,
                sym,
                state,
                bid,
                offer,
            } => {
                let cell = self.cell(part, sym);
                cell.state = Some(state);
                cell.bid.take(number, bid);
                cell.offer.take(number, offer);
            }
            Change::State { part, sym, state } => self.cell(part, sym).state = Some(state),
            Change::Withdraw { part } => {
                for sym in 0..self.lots.len() as u16 {
                    let cell = self.cell(part, sym);
                    cell.bid.take(number, None);
                    cell.offer.take(number, None);
                }
            }
        }
    }

    fn view(&self, sym: u16) -> View {
        let (mut bids, mut offers) = (Rows::new(), Rows::new());
        if let Some(&lot) = self.lots.get(usize::from(sym)) {
            let first = MOST_ROWS * usize::from(sym);
            let cells = &self.cells[first..first + usize::from(self.parts)];
            for (part, cell) in cells.iter().enumerate() {
                if let Some(row) = cell.row(&cell.bid, part as u8, lot) {
                    bids.push(row);
                }
                if let Some(row) = cell.row(&cell.offer, part as u8, lot) {
                    offers.push(row);
                }
            }
        }
        View {
            version: self.applied,
            sym,
            bids,
            offers,
        }
    }
}

/// Shares in whole lots. The lots that are common are divided by as constants.
fn displayed(shares: u32, lot: u32) -> u32 {
    match lot {
        100 => shares - shares % 100,
        40 => shares - shares % 40,
        10 => shares - shares % 10,
        _ => shares - shares % lot,
    }
}

/// The change of that number: each participant quotes each symbol in turn, with other shares each time round.
fn quotation(number: u64) -> Change {
    let side = Some(SideQuote {
        price: NonZeroU64::new(100_000).unwrap(),
        shares: NonZeroU32::new(100 * (1 + number / (PARTICIPANTS * SYMBOLS) % 9) as u32).unwrap(),
    });
    Change::Quote {
        part: (number % PARTICIPANTS) as u8,
        sym: (number / PARTICIPANTS % SYMBOLS) as u16,
        state: QState::Automated,
        bid: side,
        offer: side,
    }
}

struct Publisher<'a> {
    board: &'a Mutex<Board>,
    tape: Vec<Change>,
    fresh: Vec<Change>,
}

impl Publisher<'_> {
    fn publish_batch(&mut self) {
        for _ in 0..BATCH {
            let change = quotation(self.tape.len() as u64);
            self.tape.push(change);
            self.fresh.push(change);
        }
        let mut board = self.board.lock().unwrap();
        for change in self.fresh.drain(..) {
            board.apply(change);
        }
    }
}

/// Makes n looks, at one symbol after another and a row of each side. Reports how many rows stood where they
/// belong.
fn look_often(board: &Mutex<Board>, looks: u32) -> u64 {
    let (mut rows, mut last) = (0, 0);
    for look in 0..looks {
        let view = board.lock().unwrap().view((u64::from(look) % SYMBOLS) as u16);
        assert!(view.version >= last);
        last = view.version;
        let place = u64::from(look) % PARTICIPANTS;
        for side in [&view.bids, &view.offers] {
            let row = side.get(place as usize);
            rows += u64::from(row.is_some_and(|row| u64::from(row.part) == place));
        }
    }
    rows
}

fn run(desks: u8, looks: u32) -> u64 {
    let board = &Mutex::new(Board::new());
    let mut publisher = Publisher {
        board,
        tape: Vec::new(),
        fresh: Vec::new(),
    };
    for _ in 0..BATCHES_TO_FILL {
        publisher.publish_batch();
    }
    let ended = &AtomicBool::new(false);
    thread::scope(|scope| {
        scope.spawn(move || {
            while !ended.load(Ordering::SeqCst) {
                publisher.publish_batch();
                thread::sleep(Duration::from_micros(100));
            }
        });
        let desks: Vec<_> = (0..desks)
            .map(|_| scope.spawn(move || look_often(board, looks)))
            .collect();
        let rows = desks.into_iter().map(|desk| desk.join().unwrap()).sum();
        ended.store(true, Ordering::SeqCst);
        rows
    })
}

fn main() {
    let mut input = String::new();
    std::io::stdin().read_to_string(&mut input).unwrap();
    for line in input.lines() {
        let sizes = line.strip_prefix("looks ").unwrap();
        let (desks, looks) = sizes.split_once(' ').unwrap();
        let rows = run(desks.parse().unwrap(), looks.parse().unwrap());
        println!("{line} {rows}");
    }
}
