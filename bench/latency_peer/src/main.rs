//! The calls of the library in ordinary Rust, without proofs, timed as bench/latency.c times them; and a small program that
//! answers quotations, publishings, looks and orders on two pipes, as nms_tool does.
//!
//!     latency_peer calls OPERATIONS      prints a line for each call, and a sum of all answers
//!     latency_peer serve OPERATIONS      answers a script on standard input; of OPERATIONS it takes the setup

mod check;
mod list;
mod numbers;
mod serve;

// The board, the planner and the values are those of the other program in ordinary Rust, which needs more of them.
#[allow(dead_code)]
#[path = "../../tool_peer/src/board.rs"]
mod board;
#[allow(dead_code)]
#[path = "../../tool_peer/src/sweep.rs"]
mod sweep;
#[allow(dead_code)]
#[path = "../../tool_peer/src/values.rs"]
mod values;

use std::hint::black_box;

use board::Boards;
use numbers::{BestNumbers, ChangeNumbers, Open, OrderNumbers, PlanNumbers, RowNumbers, ThroughNumbers};
use values::*;

/// What a load asks for, one after another.
pub enum Operation {
    Apply(ChangeNumbers),
    Look(Sym),
    Plan(OrderNumbers),
}

/// A load's setup and its operations.
pub struct Load {
    pub parts: Vec<String>,
    pub syms: Vec<String>,
    pub lots: Vec<u16>,
    pub fees: FeeBook,
    pub operations: Vec<Operation>,
}

fn read_load(path: &str) -> Load {
    let text = std::fs::read_to_string(path).expect("operations");
    let mut load = Load { parts: vec![], syms: vec![], lots: vec![], fees: FeeBook::default(), operations: vec![] };
    for line in text.lines() {
        let (kind, rest) = line.split_once(' ').expect("a kind");
        if kind == "p" || kind == "s" {
            let mut words = rest.split(' ');
            let name = words.next().expect("a name").to_string();
            let numbers: Vec<i64> = words.map(|it| it.parse().expect("a number")).collect();
            if kind == "p" {
                load.fees.0[load.parts.len()] = Fee { fee: numbers[0], rate: numbers[1] };
                load.parts.push(name);
            } else {
                load.lots.push(numbers[0] as u16);
                load.syms.push(name);
            }
            continue;
        }
        let n: Vec<u64> = rest.split(' ').map(|it| it.parse().expect("a number")).collect();
        load.operations.push(match kind {
            "Q" => Operation::Apply(ChangeNumbers {
                part: n[0] as u8,
                sym: n[1] as u16,
                state: n[2] as u8,
                price: [n[3], n[5]],
                shares: [n[4] as u32, n[6] as u32],
                ..Default::default()
            }),
            "S" => Operation::Apply(ChangeNumbers { kind: 1, part: n[0] as u8, sym: n[1] as u16, state: n[2] as u8, ..Default::default() }),
            "X" => Operation::Apply(ChangeNumbers { kind: 2, part: n[0] as u8, ..Default::default() }),
            "R" => Operation::Apply(ChangeNumbers { kind: 3, sym: n[0] as u16, lot: n[1] as u16, ..Default::default() }),
            "N" => Operation::Look(n[0] as u16),
            _ => Operation::Plan(OrderNumbers {
                side: n[0] as u8,
                sym: n[1] as u16,
                shares: n[2] as u32,
                limit: n[3],
                manual: n[4] as u8,
                self_help: n[5] as u32,
                spare: 0,
            }),
        });
    }
    load
}

#[repr(C)]
struct TimeSpec {
    seconds: i64,
    nanoseconds: i64,
}

extern "C" {
    fn clock_gettime(clock: i32, time: *mut TimeSpec) -> i32;
}

/// The monotonic clock in nanoseconds.
fn now() -> i64 {
    let mut time = TimeSpec { seconds: 0, nanoseconds: 0 };
    unsafe { clock_gettime(1, &mut time) };
    time.seconds * 1_000_000_000 + time.nanoseconds
}

/// The times of one call.
#[derive(Default)]
struct Times(Vec<i64>);

impl Times {
    fn take<T>(&mut self, call: impl FnOnce() -> T) -> T {
        let from = now();
        let got = black_box(call());
        self.0.push(now() - from);
        got
    }

    fn print(mut self, name: &str, clock: i64) {
        self.0.sort_unstable();
        let many = self.0.len();
        if many == 0 {
            return;
        }
        let at = |share: f64| (self.0[((many as f64 * share) as usize).min(many - 1)] - clock).max(0);
        let mean = self.0.iter().sum::<i64>() as f64 / many as f64 - clock as f64;
        println!("{name} {many} {} {} {} {mean:.1}", at(0.5), at(0.99), at(0.999));
    }
}

/// A sum of all answers.
struct Sum(u64);

impl Sum {
    fn take(&mut self, number: u64) {
        self.0 = (self.0 ^ number).wrapping_mul(0x100_0000_01b3);
    }

    fn take_row(&mut self, row: &RowNumbers) {
        [row.price, row.receipt, u64::from(row.size), u64::from(row.part), u64::from(row.protected)].into_iter().for_each(|it| self.take(it));
    }

    fn take_through(&mut self, through: &ThroughNumbers) {
        [through.version, u64::from(through.count[0]), u64::from(through.count[1])].into_iter().for_each(|it| self.take(it));
        through.rows.iter().flatten().for_each(|row| self.take_row(row));
    }

    fn take_plan(&mut self, plan: &PlanNumbers) {
        [plan.version, plan.cost_low, plan.cost_high as u64, u64::from(plan.filled), u64::from(plan.legs)].into_iter().for_each(|it| self.take(it));
        for leg in &plan.leg[..plan.legs as usize] {
            [leg.price, u64::from(leg.shares), u64::from(leg.part)].into_iter().for_each(|it| self.take(it));
        }
        for cut in &plan.cut[..plan.cuts as usize] {
            [cut.price, u64::from(cut.kind), cut.marginal as u64].into_iter().for_each(|it| self.take(it));
        }
    }
}

fn calls(load: &Load) {
    // What it costs to ask the clock: the middle of many askings.
    let mut clock: Vec<i64> = (0..100_001).map(|_| -now() + now()).collect();
    clock.sort_unstable();
    let clock = clock[clock.len() / 2];
    println!("clock {clock}");

    let open = || Open { boards: Boards::new(load.parts.len(), load.lots.iter().copied()), fees: load.fees.clone(), parts: load.parts.len(), syms: load.syms.len() };
    let from = now();
    let mut desk = open();
    println!("open {}", now() - from);

    // All changes in one go.
    let mut many = 0;
    let from = now();
    for operation in &load.operations {
        if let Operation::Apply(change) = operation {
            desk.apply(change).expect("a change");
            many += 1;
        }
    }
    println!("apply_all {many} {:.2}", (now() - from) as f64 / many as f64);

    // All looks in one go, on the board that they left, at the symbols of the changes. Each look waits for the answer of the
    // one before it, as a caller's does who acts on it: no price has 64 bits, but that is not known before it is there.
    let syms: Vec<Sym> = load.operations.iter().filter_map(sym_of).collect();
    let (mut at, mut many, mut best) = (0, 0, BestNumbers::default());
    let from = now();
    while at < syms.len() {
        desk.best_of(syms[at], black_box(&mut best)).expect("a symbol");
        let answer = black_box(&best);
        at += 1 + (answer.rows[0].price >> 63) as usize + (answer.rows[1].price >> 63) as usize;
        many += 1;
    }
    println!("best_all {many} {:.2}", (now() - from) as f64 / many as f64);

    // Each call by itself, and a sum of what all of them answer.
    let [mut apply, mut looks, mut planning, mut confirming, mut through]: [Times; 5] = Default::default();
    let (mut desk, mut sum, mut plan, mut passed) = (open(), Sum(0xcbf2_9ce4_8422_2325), PlanNumbers::default(), ThroughNumbers::default());
    for operation in &load.operations {
        match operation {
            Operation::Apply(change) => apply.take(|| desk.apply(change)).expect("a change"),
            Operation::Look(_) => {}
            Operation::Plan(numbers) => {
                planning.take(|| desk.plan(numbers, black_box(&mut plan))).expect("an order");
                sum.take_plan(black_box(&plan));
                confirming.take(|| desk.confirm(black_box(numbers), black_box(&plan))).expect("the best plan");
                through.take(|| desk.traded_through(numbers.sym, numbers.limit * 100, black_box(&mut passed))).expect("a price");
                sum.take_through(black_box(&passed));
            }
        }
        if let Some(sym) = sym_of(operation) {
            looks.take(|| desk.best_of(sym, black_box(&mut best))).expect("a symbol");
            sum.take(best.version);
            best.rows.iter().for_each(|row| sum.take_row(row));
            sum.take(u64::from(best.market));
        }
    }
    let all = [("apply", apply), ("best", looks), ("plan", planning), ("confirm", confirming), ("through", through)];
    for (name, times) in all {
        times.print(name, clock);
    }
    println!("sum {:016x}", sum.0);
}

/// The symbol of an operation that has one.
fn sym_of(operation: &Operation) -> Option<Sym> {
    match operation {
        Operation::Apply(change) => (change.kind != 2).then_some(change.sym),
        Operation::Look(sym) => Some(*sym),
        Operation::Plan(order) => Some(order.sym),
    }
}

fn main() {
    let words: Vec<String> = std::env::args().collect();
    let load = read_load(&words[2]);
    match words[1].as_str() {
        "calls" => calls(&load),
        _ => serve::serve(&load),
    }
}
