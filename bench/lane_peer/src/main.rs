//! The `lane` loads of `crates/nms_examples` in ordinary Rust over the upstream queue, with no proofs: one to eight threads send
//! changes, one more takes them. Each line of standard input is `lane CAPACITY SENDERS CHANGES`.
#![allow(dead_code)]
#[path = "../../change.rs"]
mod change;

use change::QState;
use crossbeam_queue::ArrayQueue;
use std::io::Read;
use std::sync::atomic::{AtomicBool, Ordering};
use std::thread;

#[derive(Clone, Copy)]
enum Feed {
    A,
    B,
    C,
    D,
    E,
    F,
    G,
    H,
}

const FEEDS: [Feed; 8] = [
    Feed::A,
    Feed::B,
    Feed::C,
    Feed::D,
    Feed::E,
    Feed::F,
    Feed::G,
    Feed::H,
];

#[derive(Clone, Copy)]
struct SideQuote {
    price: u64,
    shares: u32,
}

type Change = change::Change<SideQuote>;

#[derive(Clone, Copy)]
struct Marked {
    feed: Feed,
    change: Change,
}

type Lane = ArrayQueue<Marked>;

/// Sends a change n times.
fn send_all(lane: &Lane, feed: Feed, change: &Change, changes: u32) -> u64 {
    let mut sent = 0;
    for _ in 0..changes {
        let mut marked = Marked {
            feed,
            change: *change,
        };
        while let Err(back) = lane.push(marked) {
            marked = back;
            thread::yield_now();
        }
        sent += 1;
    }
    sent
}

/// Takes changes until all senders have ended and nothing is left.
fn take_all(lane: &Lane, ended: &AtomicBool) -> u64 {
    let mut taken = 0;
    let mut has_ended = false;
    loop {
        if lane.pop().is_some() {
            taken += 1;
            continue;
        }
        if has_ended {
            return taken;
        }
        has_ended = ended.load(Ordering::SeqCst);
        thread::yield_now();
    }
}

fn run(capacity: usize, senders: usize, change: &Change, changes: u32) -> (Vec<u64>, u64) {
    let lane = &Lane::new(capacity);
    let ended = &AtomicBool::new(false);
    thread::scope(|scope| {
        let handles: Vec<_> = FEEDS[..senders]
            .iter()
            .map(|feed| scope.spawn(move || send_all(lane, *feed, change, changes)))
            .collect();
        let taker = scope.spawn(move || take_all(lane, ended));
        let sent = handles.into_iter().map(|handle| handle.join().unwrap()).collect();
        ended.store(true, Ordering::SeqCst);
        (sent, taker.join().unwrap())
    })
}

fn main() {
    let mut input = String::new();
    std::io::stdin().read_to_string(&mut input).unwrap();
    let side = |shares| {
        Some(SideQuote {
            price: 100_000,
            shares,
        })
    };
    let change = Change::Quote {
        part: 0,
        sym: 0,
        state: QState::Automated,
        bid: side(100),
        offer: side(200),
    };
    for line in input.lines() {
        let sizes: Vec<&str> = line.strip_prefix("lane ").unwrap().split(' ').collect();
        let (capacity, senders) = (sizes[0].parse().unwrap(), sizes[1].parse().unwrap());
        let (sent, taken) = run(capacity, senders, &change, sizes[2].parse().unwrap());
        println!("{line} {sent:?} {taken}");
    }
}
