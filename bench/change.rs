//! The changes of quotations that lane_peer and looks_peer carry. Each has side quotes of its own.

#[derive(Clone, Copy, PartialEq)]
pub enum QState {
    Automated,
    Manual,
    Halted,
}

#[derive(Clone, Copy)]
pub enum Change<SideQuote> {
    Quote {
        part: u8,
        sym: u16,
        state: QState,
        bid: Option<SideQuote>,
        offer: Option<SideQuote>,
    },
    State {
        part: u8,
        sym: u16,
        state: QState,
    },
    Withdraw {
        part: u8,
    },
}
