//! Quotes, a plan, its check, and the mistakes that are answered by a code.
//!
//!     cargo run --offline --manifest-path rust/Cargo.toml --example trade -- examples/builtin.toml
//!
//! prints rust/nms/examples/trade.out.

use nms::{Board, Change, Error, Order, OrderSide, Plan, Side, State};
use std::thread;

fn trade(setup: &str) -> Result<(), Error> {
    let mut board = Board::open(setup)?;
    let abc = board.sym("ABC")?;
    // A change is numbers, or the text of a record.
    let n = board.part("N")?;
    board.apply(Change::Quote { part: n, sym: abc, state: State::Automated, bid: Some((99_900, 200)), offer: Some((100_000, 300)) })?;
    for record in ["Q,P,ABC,A,9.98,700,10.00,500", "Q,Y,ABC,M,10.00,100,10.01,200"] {
        board.apply_text(record)?;
    }

    let best = board.best(abc)?;
    if let (Some(bid), Some(offer)) = (best.bid, best.offer) {
        println!("version {}: bid {} for {}, offer {} for {}", best.version, bid.price, bid.size, offer.price, offer.size);
    }

    for (name, order) in [
        ("buy 600 at 10.01", Order::new(OrderSide::Buy, abc, 600, 100_100)),
        ("buy 900 at 10.01", Order::new(OrderSide::Buy, abc, 900, 100_100)),
        ("buy 900 at 10.01, manual too", Order::new(OrderSide::Buy, abc, 900, 100_100).manual()),
        ("sell 500 at 9.98, not to N", Order::new(OrderSide::Sell, abc, 500, 99_800).self_help(n)),
    ] {
        let plan = board.plan(order)?;
        assert_eq!(board.confirm(&plan)?, None);
        println!("{name}: {} filled for {} nanodollars, confirmed", plan.filled(), plan.cost());
        for leg in plan.legs() {
            println!("    {} {} at {}", board.part_name(leg.part)?, leg.shares, leg.price);
        }
    }

    // Looks take `&self`, so two threads may make them at once; a change can't come between.
    let shared = &board;
    let (bid, offer) = thread::scope(|scope| {
        let bid = scope.spawn(|| shared.rows(abc, Side::Bid).map(|rows| rows.len()));
        let offer = scope.spawn(|| shared.rows(abc, Side::Offer).map(|rows| rows.len()));
        (bid.join().expect("a look"), offer.join().expect("a look"))
    });
    println!("two threads look: {} bids, {} offers", bid?, offer?);

    // An execution at 10.005 would trade through the protected offers below that price.
    println!("10.005 trades through {} offers", board.traded_through(abc, 10_005_000)?.offers.len());

    // A plan goes to another process as its text, or as the structs of nms.h. One that was altered is doubted.
    let plan = board.plan(Order::new(OrderSide::Buy, abc, 600, 100_100))?;
    let text = board.text(&plan)?;
    print!("{text}");
    assert_eq!(board.read(&text)?.legs().len(), 2);
    let (order, mut raw) = { let (order, raw) = plan.as_raw(); (*order, *raw) };
    raw.leg[0].shares += 100;
    let altered = Plan::from_raw(order, raw).expect("a plan with as many legs as before");
    println!("altered: doubted {}", board.confirm(&altered)?.is_some());

    // Another board of the same setup begins where this one is.
    let mut next = Board::open(setup)?;
    let (applied, end) = next.apply_all(&board.opening(abc)?);
    end?;
    println!("{applied} opening changes, the same rows: {}", next.rows(abc, Side::Bid)?.len() == board.rows(abc, Side::Bid)?.len());

    println!("no such participant: {:?}", board.part("NONE"));
    println!("half a side: {:?}", board.apply_text("Q,N,ABC,A,9.99,,10.00,300"));
    println!("no setup: {:?}", Board::open("tape_limit = 1").err());
    Ok(())
}

fn main() {
    let path = std::env::args().nth(1).expect("usage: trade SETUP");
    let setup = std::fs::read_to_string(&path).expect("a setup that can be read");
    if let Err(error) = trade(&setup) {
        eprintln!("trade: {error}");
        std::process::exit(1);
    }
}
