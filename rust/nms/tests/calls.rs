//! Each call of the crate, right and with each wrong argument.

use nms::{reduced, setup_place, version, Board, Change, Error, Market, Order, OrderSide, Part, Plan, RawBest, RawPlan, Side, State, Sym, Terms, Through, View};

const SETUP: &str = r#"
tape_limit = 1000
queue = 9
desks = 1
[[participant]]
name = "N"
feed = "A"
fee = 3000000
rate = 300
[[participant]]
name = "P"
feed = "A"
fee = 3000000
rate = 300
[[symbol]]
name = "ABC"
lot = 100
[[symbol]]
name = "PNY"
lot = 1
"#;
const N: Part = Part(0);
const P: Part = Part(1);
const ABC: Sym = Sym(0);
const STRANGE_PART: Part = Part(2);
const STRANGE_SYM: Sym = Sym(2);

/// N quotes 9.99 and 10.00, P 9.98 and 10.00.
fn board() -> Board {
    let mut board = Board::open(SETUP).expect("a setup");
    for record in ["Q,N,ABC,A,9.99,200,10.00,300", "Q,P,ABC,A,9.98,700,10.00,500"] {
        board.apply_text(record).expect("a record");
    }
    board
}

fn quote() -> Change {
    Change::Quote { part: N, sym: ABC, state: State::Automated, bid: Some((99_900, 200)), offer: Some((100_000, 300)) }
}

fn order() -> Order {
    Order::new(OrderSide::Buy, ABC, 600, 100_000)
}

#[test]
fn setups_and_names() {
    assert_eq!(version().expect("a version"), env!("CARGO_PKG_VERSION"));
    assert_eq!(Board::open("").err(), Some(Error::Setup(2)));
    assert_eq!(Terms::open("queue 9").err(), Some(Error::Setup(1)));
    assert_eq!(setup_place(SETUP).expect("a place"), None);
    assert_eq!(setup_place("").expect("a place").map(|it| it.code), Some(2));
    let (board, terms) = (board(), Terms::open(SETUP).expect("a setup"));
    assert_eq!((board.part("P"), board.sym("PNY")), (Ok(P), Ok(Sym(1))));
    assert_eq!((terms.part("P"), terms.sym("PNY")), (Ok(P), Ok(Sym(1))));
    assert_eq!((board.part_name(P), board.sym_name(ABC)), (Ok("P".into()), Ok("ABC".into())));
    assert_eq!((terms.part_name(P), terms.sym_name(ABC)), (Ok("P".into()), Ok("ABC".into())));
    assert_eq!((board.part("NONE"), board.sym("")), (Err(Error::NoPart), Err(Error::NoSym)));
    assert_eq!((terms.part(""), terms.sym("NONE")), (Err(Error::NoPart), Err(Error::NoSym)));
    assert_eq!((board.part_name(STRANGE_PART), board.sym_name(STRANGE_SYM)), (Err(Error::NoPart), Err(Error::NoSym)));
    assert_eq!((terms.part_name(Part(255)), terms.sym_name(Sym(65_535))), (Err(Error::NoPart), Err(Error::NoSym)));
}

#[test]
fn looks() {
    let board = board();
    let best = board.best(ABC).expect("a look");
    assert_eq!((best.version, best.market), (2, Market::Normal));
    let rows = board.rows(ABC, Side::Offer).expect("a look");
    assert_eq!((rows.len(), Some(rows[0])), (2, best.offer));
    assert_eq!(board.ranked(ABC, Side::Offer, 1), Ok(Some(rows[1])));
    assert_eq!(board.ranked(ABC, Side::Offer, 2), Ok(None));
    assert_eq!(board.counts().map(|it| (it.applied, it.parts, it.syms)), Ok((2, 2, 2)));
    assert_eq!(board.traded_through(ABC, 10_010_000).map(|it| (it.bids.len(), it.offers.len())), Ok((0, 2)));
    assert!(board.unit_cost(N, OrderSide::Buy, 100_000).expect("a cost") > 10_000_000_000);
    assert_eq!(board.best(STRANGE_SYM), Err(Error::NoSym));
    assert_eq!(board.rows(STRANGE_SYM, Side::Bid), Err(Error::NoSym));
    assert_eq!(board.ranked(STRANGE_SYM, Side::Bid, 0), Err(Error::NoSym));
    assert_eq!(board.view(STRANGE_SYM).err(), Some(Error::NoSym));
    assert_eq!(board.opening(STRANGE_SYM).err(), Some(Error::NoSym));
    assert_eq!(board.traded_through(STRANGE_SYM, 1), Err(Error::NoSym));
    for millionths in [0, 10_000_000_000_000, u64::MAX] {
        assert_eq!(board.traded_through(ABC, millionths), Err(Error::Range));
    }
    for price in [0, 100_000_000_000, u64::MAX] {
        assert_eq!(board.unit_cost(N, OrderSide::Buy, price), Err(Error::Range));
    }
    assert_eq!(board.unit_cost(STRANGE_PART, OrderSide::Buy, 1), Err(Error::NoPart));
}

#[test]
fn changes() {
    let mut board = board();
    let before = board.view(ABC).expect("a look");
    let half = Change::Quote { part: N, sym: ABC, state: State::Automated, bid: Some((0, 200)), offer: None };
    let high = Change::Quote { part: N, sym: ABC, state: State::Automated, bid: None, offer: Some((100_000_000_000, 1)) };
    let many = Change::Quote { part: N, sym: ABC, state: State::Automated, bid: Some((1, 1_000_000_000)), offer: None };
    for change in [half, high, many, Change::Lot { sym: ABC, lot: 0 }, Change::Lot { sym: ABC, lot: 1_001 }] {
        assert_eq!(board.apply(change), Err(Error::Range));
    }
    assert_eq!(board.apply(Change::Withdraw { part: STRANGE_PART }), Err(Error::NoPart));
    assert_eq!(board.apply(Change::State { part: N, sym: STRANGE_SYM, state: State::Manual }), Err(Error::NoSym));
    assert_eq!(board.apply_text("Q,N,ABC,A,9.99,,10.00,300"), Err(Error::Record(8)));
    assert_eq!(board.apply_text(""), Err(Error::Record(1)));
    assert_eq!(board.apply_text(&"x".repeat(256)), Err(Error::Range));
    assert_eq!(board.view(ABC).expect("a look"), before, "a refused change alters nothing");
    assert_eq!(board.apply_all(&[quote().into(), half.into(), quote().into()]), (1, Err(Error::Range)));
    assert_eq!(board.apply_all(&[]), (0, Ok(())));
    assert_eq!(board.apply_lines("X,N\r\nX,P\nX,NONE\nX,N\n"), (2, 9, Err(Error::Record(3))));
    assert_eq!(board.apply_lines(b"S,N,ABC,A\nQ,N,ABC,A,9.99,200,10.00,300"), (2, 38, Ok(())));
    assert_eq!(board.apply_lines("Q,P,ABC,A,9.98,700,10.00,500\n"), (1, 29, Ok(())));
    assert_eq!(board.apply_lines(""), (0, 0, Ok(())));
    let mut next = Board::open(SETUP).expect("a setup");
    assert!(next.apply_all(&board.opening(ABC).expect("an opening")).1.is_ok());
    assert_eq!(next.rows(ABC, Side::Bid).map(|it| it.len()), Ok(2));
}

#[test]
fn plans() {
    let mut board = board();
    let plan = board.plan(order()).expect("a plan");
    assert_eq!((plan.version(), plan.filled(), board.confirm(&plan)), (2, 600, Ok(None)));
    let text = board.text(&plan).expect("a text");
    assert_eq!(board.read(&text), Ok(plan.clone()));
    assert_eq!(board.read("PLAN"), Err(Error::Record(11)));
    for (shares, limit) in [(0, 1), (1_000_000_000, 1), (1, 0), (1, 100_000_000_000)] {
        assert_eq!(board.plan(Order::new(OrderSide::Buy, ABC, shares, limit)), Err(Error::Range));
    }
    assert_eq!(board.plan(Order::new(OrderSide::Buy, STRANGE_SYM, 1, 1)), Err(Error::NoSym));
    assert_eq!(board.plan(order().self_help(STRANGE_PART)), Err(Error::NoPart));
    let (order, mut raw) = (*plan.as_raw().0, *plan.as_raw().1);
    raw.filled -= 1;
    let doubt = board.confirm(&Plan::from_raw(order, raw).expect("a plan")).expect("a finding").expect("a doubt");
    assert_eq!(doubt.doubt, 1);
    raw.leg[0].part = 2;
    assert_eq!(board.confirm(&Plan::from_raw(order, raw).expect("a plan")), Err(Error::NoPart));
    raw.leg[0].price = 0;
    assert_eq!(board.confirm(&Plan::from_raw(order, raw).expect("a plan")), Err(Error::Range));
    assert_eq!(board.text(&Plan::from_raw(order, raw).expect("a plan")), Err(Error::Range));
    raw.legs = 33;
    assert_eq!(Plan::from_raw(order, raw), None);
}

#[test]
fn many() {
    let mut board = board();
    let mut best = [RawBest::default(); 3];
    assert_eq!(board.best_all(&[Sym(1), ABC, STRANGE_SYM], &mut best), (2, Err(Error::NoSym)));
    assert_eq!((best[1].offer.price, best[2]), (100_000, RawBest::default()));
    assert_eq!(board.best_all(&[ABC; 4], &mut best), (0, Err(Error::Other(19))), "no place for the fourth");
    let mut plans = [RawPlan::default(); 2];
    assert_eq!(board.plan_all(&[order(), Order::new(OrderSide::Buy, ABC, 0, 1)], &mut plans), (1, Err(Error::Range)));
    assert_eq!(&plans[0], board.plan(order()).expect("a plan").as_raw().1);
    let withdrawn = Change::Withdraw { part: N };
    assert_eq!(board.apply_best(&[quote().into(), withdrawn.into(), Change::Withdraw { part: STRANGE_PART }.into()], &mut best), (2, Err(Error::NoPart)));
    assert_eq!((best[0].version, best[0].bid.part, best[1].version, best[1].bid.part), (3, 0, 4, 1));
    assert_eq!(board.apply_best(&[], &mut []), (0, Ok(())));
}

#[test]
fn views() {
    let (board, terms) = (board(), Terms::open(SETUP).expect("a setup"));
    let view = board.view(ABC).expect("a look");
    let plan = terms.plan(&view, order()).expect("a plan");
    assert_eq!((Ok(&plan), terms.confirm(&view, &plan)), (board.plan(order()).as_ref(), Ok(None)));
    assert_eq!(Through::of(&view, 10_010_000), board.traded_through(ABC, 10_010_000));
    assert_eq!(Through::of(&view, 0), Err(Error::Range));
    assert_eq!(terms.plan(&view, Order::new(OrderSide::Buy, Sym(1), 1, 1)), Err(Error::NoSym));
    assert_eq!(terms.plan(&view, Order::new(OrderSide::Buy, ABC, 0, 1)), Err(Error::Range));
    let mut torn = view;
    torn.offer.total += 1;
    assert_eq!(terms.plan(&torn, order()), Err(Error::NoView));
    assert_eq!(terms.confirm(&torn, &plan), Err(Error::NoView));
    assert_eq!(Through::of(&torn, 1), Err(Error::NoView));
    assert_eq!(terms.plan(&View::default(), order()).map(|it| it.filled()), Ok(0), "a view of nothing");
    let mut most = [u32::MAX; 32];
    assert_eq!(reduced(&view, Side::Offer, &most), Ok(view), "nothing is taken");
    most[0] = 40;
    most[1] = 0;
    let left = reduced(&view, Side::Offer, &most).expect("a view");
    assert_eq!((left.bid, left.offer.count, left.offer.total), (view.bid, 1, 40));
    let plan = terms.plan(&left, order()).expect("a plan");
    assert_eq!((plan.filled(), terms.confirm(&left, &plan)), (40, Ok(None)));
    assert_eq!(reduced(&torn, Side::Offer, &most), Err(Error::NoView));
}
