//! Answers quotations, publishings, looks and orders on standard input, each answer in one write, as nms_tool answers them.

use std::fmt::Write as _;
use std::io::{self, BufRead, Write};
use std::num::NonZeroU32;

use crate::board::{market, Boards};
use crate::sweep;
use crate::values::*;
use crate::Load;

/// A price field of at most four decimals.
fn price_of(text: &str) -> Price {
    let (whole, decimals) = text.split_once('.').unwrap_or((text, ""));
    let scale = 10u64.pow(4 - decimals.len() as u32);
    whole.parse::<u64>().expect("dollars") * 10_000 + if decimals.is_empty() { 0 } else { decimals.parse::<u64>().expect("decimals") * scale }
}

fn side(price: &str, shares: &str) -> Option<SideQuote> {
    let shares = NonZeroU32::new(shares.parse().ok()?)?;
    Some(SideQuote { price: price_of(price), shares })
}

fn money(amount: Money) -> String {
    let (sign, size) = (if amount < 0 { "-" } else { "" }, amount.unsigned_abs());
    format!("{sign}{}.{:09}", size / 1_000_000_000, size % 1_000_000_000)
}

fn dollars(price: Price) -> String {
    format!("{}.{:04}", price / 10_000, price % 10_000)
}

pub fn serve(load: &Load) {
    let parts: std::collections::HashMap<&str, u8> = load.parts.iter().enumerate().map(|(at, name)| (name.as_str(), at as u8)).collect();
    let syms: std::collections::HashMap<&str, u16> = load.syms.iter().enumerate().map(|(at, name)| (name.as_str(), at as u16)).collect();
    let mut boards = Boards::new(load.parts.len(), load.lots.iter().copied());
    let (mut queue, mut taken) = (Vec::new(), 0u64);
    let (mut input, mut line, mut answer) = (io::stdin().lock(), String::new(), String::new());
    let mut out = io::stdout().lock();
    while input.read_line(&mut line).expect("input") > 0 {
        let fields: Vec<&str> = line.trim_end().split(',').collect();
        answer.clear();
        match fields[0] {
            "Q" => {
                let state = match fields[3] {
                    "A" => QState::Automated,
                    "M" => QState::Manual,
                    _ => QState::Halted,
                };
                let sides = [side(fields[4], fields[5]), side(fields[6], fields[7])];
                queue.push(Change::Quote { part: parts[fields[1]], sym: syms[fields[2]], state, sides });
            }
            "F" => {
                for change in queue.drain(..) {
                    boards.apply(&change);
                    taken += 1;
                }
                writeln!(answer, "PUB,{taken}").expect("room");
            }
            "N" => {
                let view = boards.view(syms[fields[2]]);
                let word = market(view.book).word();
                write!(answer, "BEST,{},{},{},{word}", fields[1], fields[2], view.version).expect("room");
                for side in Side::BOTH {
                    match view.book.best(side) {
                        None => answer.push_str(",,,,"),
                        Some(row) => write!(answer, ",{},{},{},{}", load.parts[row.part as usize], dollars(row.price), row.size, row.receipt).expect("room"),
                    }
                }
                answer.push('\n');
            }
            _ => {
                let order = Order {
                    side: if fields[2] == "B" { OrderSide::Buy } else { OrderSide::Sell },
                    sym: syms[fields[3]],
                    shares: fields[4].parse().expect("shares"),
                    limit: price_of(fields[5]),
                    manual: fields.get(6) == Some(&"M"),
                    self_help: PartSet::default(),
                };
                let (plan, certificate) = sweep::plan(boards.view(order.sym), &order, &load.fees);
                let flag = if order.manual { "M" } else { "" };
                let (limit, cost) = (dollars(order.limit), money(plan.cost));
                writeln!(answer, "PLAN,{},{},{},{},{limit},{flag},{},{cost}", plan.version, fields[2], fields[3], order.shares, plan.filled).expect("room");
                for leg in plan.legs.iter() {
                    writeln!(answer, "LEG,{},{},{}", load.parts[leg.part as usize], dollars(leg.price), leg.shares).expect("room");
                }
                for cut in certificate.iter() {
                    let (word, value) = match cut.kind {
                        CutKind::TooMuch => ("TOOMUCH", String::new()),
                        CutKind::TooLittle => ("TOOLITTLE", String::new()),
                        CutKind::Marginal(k) => ("MARGINAL", money(k)),
                    };
                    writeln!(answer, "CUT,{},{word},{value}", dollars(cut.price)).expect("room");
                }
                answer.push_str("END\n");
            }
        }
        if !answer.is_empty() {
            out.write_all(answer.as_bytes()).and_then(|()| out.flush()).expect("output");
        }
        line.clear();
    }
}
