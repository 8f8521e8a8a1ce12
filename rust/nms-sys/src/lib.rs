//! The declarations of nms.h, made of it by packages/nms_sys.py. That header says what each call does.
//!
//! No pointer may be null: the header's inline functions test that, and the `nms_raw_` functions do not.

#![no_std]
#![allow(non_camel_case_types)]

use core::ffi::c_void;
use core::mem::{offset_of, size_of};

pub const NMS_VERSION: &str = "0.3.0";
pub const NMS_ABI: u32 = 2;
pub const NMS_MOST_PARTS: usize = 32;
pub const NMS_MOST_SYMS: usize = 1000;
pub const NMS_MOST_OPENING: usize = 65;
pub const NMS_MOST_PRICE: u64 = 99999999999;
pub const NMS_MOST_SHARES: u32 = 999999999;
pub const NMS_NAME_ROOM: usize = 9;
pub const NMS_CODE_TEXT_ROOM: usize = 128;
pub const NMS_PLAN_TEXT_ROOM: usize = 8192;

// enum nms_code
pub const NMS_OK: u32 = 0;
pub const NMS_C1_NOT_TOML: u32 = 1;
pub const NMS_C2_MISSING: u32 = 2;
pub const NMS_C3_UNKNOWN_KEY: u32 = 3;
pub const NMS_C4_BAD_NAME: u32 = 4;
pub const NMS_C5_WRONG_TYPE: u32 = 5;
pub const NMS_C6_OUT_OF_RANGE: u32 = 6;
pub const NMS_C7_OVER_CAP: u32 = 7;
pub const NMS_C8_TOO_MANY: u32 = 8;
pub const NMS_NO_MEMORY: u32 = 9;
pub const NMS_RANGE: u32 = 10;
pub const NMS_NO_PART: u32 = 11;
pub const NMS_NO_SYM: u32 = 12;
pub const NMS_FULL: u32 = 13;
pub const NMS_NONE: u32 = 14;
pub const NMS_CLOSED: u32 = 15;
pub const NMS_DOUBTED: u32 = 16;
pub const NMS_OPEN_ALREADY: u32 = 17;
pub const NMS_NULL: u32 = 18;
pub const NMS_ROOM: u32 = 19;
pub const NMS_WRONG_ABI: u32 = 20;
pub const NMS_NO_VIEW: u32 = 21;
pub const NMS_L1_UNKNOWN_KIND: u32 = 101;
pub const NMS_L2_FIELD_COUNT: u32 = 102;
pub const NMS_L3_UNKNOWN_PARTICIPANT: u32 = 103;
pub const NMS_L4_UNKNOWN_SYMBOL: u32 = 104;
pub const NMS_L5_BAD_STATE: u32 = 105;
pub const NMS_L6_BAD_PRICE: u32 = 106;
pub const NMS_L7_BAD_SHARES: u32 = 107;
pub const NMS_L8_HALF_SIDE: u32 = 108;
pub const NMS_L9_WRONG_FEED: u32 = 109;
pub const NMS_L10_BAD_DESK: u32 = 110;
pub const NMS_L11_BAD_PLAN_TEXT: u32 = 111;
pub const NMS_L14_BAD_LOT: u32 = 114;

// enum nms_side
pub const NMS_BID: u8 = 0;
pub const NMS_OFFER: u8 = 1;

// enum nms_order_side
pub const NMS_BUY: u8 = 0;
pub const NMS_SELL: u8 = 1;

// enum nms_state
pub const NMS_AUTOMATED: u8 = 0;
pub const NMS_MANUAL: u8 = 1;
pub const NMS_HALTED: u8 = 2;

// enum nms_kind
pub const NMS_QUOTE: u8 = 0;
pub const NMS_STATE: u8 = 1;
pub const NMS_WITHDRAW: u8 = 2;
pub const NMS_LOT: u8 = 3;

// enum nms_market
pub const NMS_EMPTY: u32 = 0;
pub const NMS_ONE_SIDED: u32 = 1;
pub const NMS_NORMAL: u32 = 2;
pub const NMS_LOCKED: u32 = 3;
pub const NMS_CROSSED: u32 = 4;

// enum nms_table
pub const NMS_NO_DOCUMENT: u32 = 0;
pub const NMS_TOP: u32 = 1;
pub const NMS_PARTICIPANT: u32 = 2;
pub const NMS_SYMBOL: u32 = 3;

// enum nms_spot
pub const NMS_TAPE_LIMIT: u32 = 1;
pub const NMS_QUEUE: u32 = 2;
pub const NMS_DESKS: u32 = 3;
pub const NMS_CAPS: u32 = 4;
pub const NMS_FEEDS: u32 = 5;
pub const NMS_PARTICIPANTS: u32 = 6;
pub const NMS_SYMBOLS: u32 = 7;
pub const NMS_NAME: u32 = 8;
pub const NMS_FEED: u32 = 9;
pub const NMS_FEE: u32 = 10;
pub const NMS_RATE: u32 = 11;
pub const NMS_ROUND_LOT: u32 = 12;
pub const NMS_OTHER_KEY: u32 = 13;
pub const NMS_NAME_TWICE: u32 = 14;
pub const NMS_NO_TABLE: u32 = 15;

// enum nms_cut_kind
pub const NMS_TOO_MUCH: u32 = 0;
pub const NMS_TOO_LITTLE: u32 = 1;
pub const NMS_MARGINAL: u32 = 2;

#[repr(C)]
#[derive(Debug)]
pub struct nms_board {
    pub mark: u64,
    pub at: *mut c_void,
}

#[repr(C)]
#[derive(Debug)]
pub struct nms_terms {
    pub mark: u64,
    pub at: *mut c_void,
}

#[repr(C)]
#[derive(Clone, Copy, Debug, PartialEq, Eq)]
pub struct nms_change {
    pub bid_price: u64,
    pub offer_price: u64,
    pub bid_shares: u32,
    pub offer_shares: u32,
    pub sym: u16,
    pub lot: u16,
    pub part: u8,
    pub kind: u8,
    pub state: u8,
    pub spare: u8,
}

impl Default for nms_change {
    fn default() -> Self {
        // SAFETY: its fields are numbers, and 0 is one of each.
        unsafe { core::mem::zeroed() }
    }
}

#[repr(C)]
#[derive(Clone, Copy, Debug, PartialEq, Eq)]
pub struct nms_row {
    pub price: u64,
    pub receipt: u64,
    pub size: u32,
    pub part: u8,
    pub is_protected: u8,
    pub spare: u16,
}

impl Default for nms_row {
    fn default() -> Self {
        // SAFETY: its fields are numbers, and 0 is one of each.
        unsafe { core::mem::zeroed() }
    }
}

#[repr(C)]
#[derive(Clone, Copy, Debug, PartialEq, Eq)]
pub struct nms_best {
    pub version: u64,
    pub bid: nms_row,
    pub offer: nms_row,
    pub market: u32,
    pub spare: u32,
}

impl Default for nms_best {
    fn default() -> Self {
        // SAFETY: its fields are numbers, and 0 is one of each.
        unsafe { core::mem::zeroed() }
    }
}

#[repr(C)]
#[derive(Clone, Copy, Debug, PartialEq, Eq)]
pub struct nms_rows {
    pub total: u64,
    pub price: [u64; NMS_MOST_PARTS],
    pub receipt: [u64; NMS_MOST_PARTS],
    pub size: [u32; NMS_MOST_PARTS],
    pub part: [u8; NMS_MOST_PARTS],
    pub is_protected: [u8; NMS_MOST_PARTS],
    pub count: u32,
    pub spare: u32,
}

impl Default for nms_rows {
    fn default() -> Self {
        // SAFETY: its fields are numbers, and 0 is one of each.
        unsafe { core::mem::zeroed() }
    }
}

#[repr(C)]
#[derive(Clone, Copy, Debug, PartialEq, Eq)]
pub struct nms_view {
    pub version: u64,
    pub market: u32,
    pub sym: u16,
    pub spare: u16,
    pub bid: nms_rows,
    pub offer: nms_rows,
}

impl Default for nms_view {
    fn default() -> Self {
        // SAFETY: its fields are numbers, and 0 is one of each.
        unsafe { core::mem::zeroed() }
    }
}

#[repr(C)]
#[derive(Clone, Copy, Debug, PartialEq, Eq)]
pub struct nms_through {
    pub version: u64,
    pub bids: u32,
    pub offers: u32,
    pub bid: [nms_row; NMS_MOST_PARTS],
    pub offer: [nms_row; NMS_MOST_PARTS],
}

impl Default for nms_through {
    fn default() -> Self {
        // SAFETY: its fields are numbers, and 0 is one of each.
        unsafe { core::mem::zeroed() }
    }
}

#[repr(C)]
#[derive(Clone, Copy, Debug, PartialEq, Eq)]
pub struct nms_order {
    pub limit: u64,
    pub shares: u32,
    pub self_help: u32,
    pub sym: u16,
    pub side: u8,
    pub manual: u8,
    pub spare: u32,
}

impl Default for nms_order {
    fn default() -> Self {
        // SAFETY: its fields are numbers, and 0 is one of each.
        unsafe { core::mem::zeroed() }
    }
}

#[repr(C)]
#[derive(Clone, Copy, Debug, PartialEq, Eq)]
pub struct nms_leg {
    pub price: u64,
    pub shares: u32,
    pub part: u8,
    pub spare_a: u8,
    pub spare_b: u16,
}

impl Default for nms_leg {
    fn default() -> Self {
        // SAFETY: its fields are numbers, and 0 is one of each.
        unsafe { core::mem::zeroed() }
    }
}

#[repr(C)]
#[derive(Clone, Copy, Debug, PartialEq, Eq)]
pub struct nms_cut {
    pub price: u64,
    pub marginal: i64,
    pub kind: u32,
    pub spare: u32,
}

impl Default for nms_cut {
    fn default() -> Self {
        // SAFETY: its fields are numbers, and 0 is one of each.
        unsafe { core::mem::zeroed() }
    }
}

#[repr(C)]
#[derive(Clone, Copy, Debug, PartialEq, Eq)]
pub struct nms_plan {
    pub version: u64,
    pub cost_low: u64,
    pub cost_high: i64,
    pub filled: u32,
    pub legs: u32,
    pub cuts: u32,
    pub spare: u32,
    pub leg: [nms_leg; NMS_MOST_PARTS],
    pub cut: [nms_cut; NMS_MOST_PARTS],
}

impl Default for nms_plan {
    fn default() -> Self {
        // SAFETY: its fields are numbers, and 0 is one of each.
        unsafe { core::mem::zeroed() }
    }
}

#[repr(C)]
#[derive(Clone, Copy, Debug, PartialEq, Eq)]
pub struct nms_doubt {
    pub doubt: u32,
    pub breach: u32,
    pub part: u32,
    pub cut: u32,
}

impl Default for nms_doubt {
    fn default() -> Self {
        // SAFETY: its fields are numbers, and 0 is one of each.
        unsafe { core::mem::zeroed() }
    }
}

#[repr(C)]
#[derive(Clone, Copy, Debug, PartialEq, Eq)]
pub struct nms_place {
    pub code: u32,
    pub table: u32,
    pub spot: u32,
    pub spare: u32,
    pub element: u64,
    pub twin: u64,
    pub start: u64,
    pub end: u64,
}

impl Default for nms_place {
    fn default() -> Self {
        // SAFETY: its fields are numbers, and 0 is one of each.
        unsafe { core::mem::zeroed() }
    }
}

#[repr(C)]
#[derive(Clone, Copy, Debug, PartialEq, Eq)]
pub struct nms_counts {
    pub applied: u64,
    pub room: u64,
    pub parts: u32,
    pub syms: u32,
}

impl Default for nms_counts {
    fn default() -> Self {
        // SAFETY: its fields are numbers, and 0 is one of each.
        unsafe { core::mem::zeroed() }
    }
}

#[repr(C)]
#[derive(Clone, Copy, Debug, PartialEq, Eq)]
pub struct nms_opening {
    pub count: u32,
    pub spare: u32,
    pub change: [nms_change; NMS_MOST_OPENING],
}

impl Default for nms_opening {
    fn default() -> Self {
        // SAFETY: its fields are numbers, and 0 is one of each.
        unsafe { core::mem::zeroed() }
    }
}

const _: () = {
    assert!(size_of::<*mut c_void>() == 8);
    assert!(size_of::<nms_board>() == 16);
    assert!(offset_of!(nms_board, at) == 8);
    assert!(size_of::<nms_terms>() == 16);
    assert!(offset_of!(nms_terms, at) == 8);
    assert!(size_of::<nms_change>() == 32);
    assert!(offset_of!(nms_change, offer_price) == 8);
    assert!(offset_of!(nms_change, bid_shares) == 16);
    assert!(offset_of!(nms_change, offer_shares) == 20);
    assert!(offset_of!(nms_change, sym) == 24);
    assert!(offset_of!(nms_change, lot) == 26);
    assert!(offset_of!(nms_change, part) == 28);
    assert!(offset_of!(nms_change, kind) == 29);
    assert!(offset_of!(nms_change, state) == 30);
    assert!(size_of::<nms_row>() == 24);
    assert!(offset_of!(nms_row, receipt) == 8);
    assert!(offset_of!(nms_row, size) == 16);
    assert!(offset_of!(nms_row, part) == 20);
    assert!(offset_of!(nms_row, is_protected) == 21);
    assert!(size_of::<nms_best>() == 64);
    assert!(offset_of!(nms_best, bid) == 8);
    assert!(offset_of!(nms_best, offer) == 32);
    assert!(offset_of!(nms_best, market) == 56);
    assert!(size_of::<nms_rows>() == 720);
    assert!(offset_of!(nms_rows, price) == 8);
    assert!(offset_of!(nms_rows, receipt) == 264);
    assert!(offset_of!(nms_rows, size) == 520);
    assert!(offset_of!(nms_rows, part) == 648);
    assert!(offset_of!(nms_rows, is_protected) == 680);
    assert!(offset_of!(nms_rows, count) == 712);
    assert!(size_of::<nms_view>() == 1456);
    assert!(offset_of!(nms_view, bid) == 16);
    assert!(offset_of!(nms_view, offer) == 736);
    assert!(offset_of!(nms_view, market) == 8);
    assert!(offset_of!(nms_view, sym) == 12);
    assert!(size_of::<nms_through>() == 1552);
    assert!(offset_of!(nms_through, bid) == 16);
    assert!(offset_of!(nms_through, offers) == 12);
    assert!(offset_of!(nms_through, offer) == 784);
    assert!(size_of::<nms_order>() == 24);
    assert!(offset_of!(nms_order, shares) == 8);
    assert!(offset_of!(nms_order, self_help) == 12);
    assert!(offset_of!(nms_order, sym) == 16);
    assert!(offset_of!(nms_order, side) == 18);
    assert!(offset_of!(nms_order, manual) == 19);
    assert!(size_of::<nms_leg>() == 16);
    assert!(offset_of!(nms_leg, shares) == 8);
    assert!(offset_of!(nms_leg, part) == 12);
    assert!(size_of::<nms_cut>() == 24);
    assert!(offset_of!(nms_cut, marginal) == 8);
    assert!(offset_of!(nms_cut, kind) == 16);
    assert!(size_of::<nms_plan>() == 1320);
    assert!(offset_of!(nms_plan, cost_low) == 8);
    assert!(offset_of!(nms_plan, cost_high) == 16);
    assert!(offset_of!(nms_plan, filled) == 24);
    assert!(offset_of!(nms_plan, legs) == 28);
    assert!(offset_of!(nms_plan, cuts) == 32);
    assert!(offset_of!(nms_plan, leg) == 40);
    assert!(offset_of!(nms_plan, cut) == 552);
    assert!(size_of::<nms_doubt>() == 16);
    assert!(size_of::<nms_counts>() == 24);
    assert!(offset_of!(nms_counts, parts) == 16);
    assert!(size_of::<nms_place>() == 48);
    assert!(offset_of!(nms_place, spot) == 8);
    assert!(offset_of!(nms_place, element) == 16);
    assert!(offset_of!(nms_place, twin) == 24);
    assert!(offset_of!(nms_place, start) == 32);
    assert!(offset_of!(nms_place, end) == 40);
    assert!(size_of::<nms_opening>() == 2088);
    assert!(offset_of!(nms_opening, change) == 8);
};

unsafe extern "C" {
    pub fn nms_abi() -> u32;
    pub fn nms_raw_version(out: *mut u8, room: usize, bytes: *mut usize) -> u32;
    pub fn nms_raw_code_text(code: u32, out: *mut u8, room: usize, bytes: *mut usize) -> u32;
    pub fn nms_raw_open(setup: *const u8, setup_bytes: usize, board: *mut nms_board) -> u32;
    pub fn nms_raw_setup_place(setup: *const u8, setup_bytes: usize, place: *mut nms_place) -> u32;
    pub fn nms_raw_close(board: *mut nms_board) -> u32;
    pub fn nms_raw_counts_of(look: *mut nms_board, counts: *mut nms_counts) -> u32;
    pub fn nms_raw_find_part(look: *mut nms_board, name: *const u8, name_bytes: usize, part: *mut u8) -> u32;
    pub fn nms_raw_find_sym(look: *mut nms_board, name: *const u8, name_bytes: usize, sym: *mut u16) -> u32;
    pub fn nms_raw_part_name(look: *mut nms_board, part: u8, out: *mut u8, room: usize, bytes: *mut usize) -> u32;
    pub fn nms_raw_sym_name(look: *mut nms_board, sym: u16, out: *mut u8, room: usize, bytes: *mut usize) -> u32;
    pub fn nms_raw_apply(board: *mut nms_board, change: *const nms_change) -> u32;
    pub fn nms_raw_apply_all(board: *mut nms_board, changes: *const nms_change, count: usize, applied: *mut usize) -> u32;
    pub fn nms_raw_apply_best(board: *mut nms_board, changes: *const nms_change, count: usize, best: *mut nms_best, places: usize, applied: *mut usize) -> u32;
    pub fn nms_raw_apply_text(board: *mut nms_board, record: *const u8, record_bytes: usize) -> u32;
    pub fn nms_raw_apply_lines(board: *mut nms_board, text: *const u8, text_bytes: usize, applied: *mut usize, at: *mut usize) -> u32;
    pub fn nms_raw_best_of(look: *mut nms_board, sym: u16, best: *mut nms_best) -> u32;
    pub fn nms_raw_best_all(look: *mut nms_board, syms: *const u16, count: usize, best: *mut nms_best, places: usize, done: *mut usize) -> u32;
    pub fn nms_raw_ranked(look: *mut nms_board, sym: u16, side: u8, place: u8, row: *mut nms_row) -> u32;
    pub fn nms_raw_rows_of(look: *mut nms_board, sym: u16, side: u8, rows: *mut nms_rows) -> u32;
    pub fn nms_raw_view_of(look: *mut nms_board, sym: u16, view: *mut nms_view) -> u32;
    pub fn nms_raw_traded_through(look: *mut nms_board, sym: u16, millionths: u64, through: *mut nms_through) -> u32;
    pub fn nms_raw_plan_order(look: *mut nms_board, order: *const nms_order, plan: *mut nms_plan) -> u32;
    pub fn nms_raw_plan_all(look: *mut nms_board, orders: *const nms_order, count: usize, plan: *mut nms_plan, places: usize, done: *mut usize) -> u32;
    pub fn nms_raw_confirm(look: *mut nms_board, order: *const nms_order, plan: *const nms_plan, doubt: *mut nms_doubt) -> u32;
    pub fn nms_raw_unit_cost(look: *mut nms_board, part: u8, side: u8, price: u64, nanodollars: *mut i64) -> u32;
    pub fn nms_raw_plan_text(board: *mut nms_board, order: *const nms_order, plan: *const nms_plan, out: *mut u8, room: usize, bytes: *mut usize) -> u32;
    pub fn nms_raw_read_plan(board: *mut nms_board, text: *const u8, text_bytes: usize, order: *mut nms_order, plan: *mut nms_plan) -> u32;
    pub fn nms_raw_opening_of(look: *mut nms_board, sym: u16, opening: *mut nms_opening) -> u32;
    pub fn nms_raw_terms_open(setup: *const u8, setup_bytes: usize, terms: *mut nms_terms) -> u32;
    pub fn nms_raw_terms_close(terms: *mut nms_terms) -> u32;
    pub fn nms_raw_terms_find_part(look: *mut nms_terms, name: *const u8, name_bytes: usize, part: *mut u8) -> u32;
    pub fn nms_raw_terms_find_sym(look: *mut nms_terms, name: *const u8, name_bytes: usize, sym: *mut u16) -> u32;
    pub fn nms_raw_terms_part_name(look: *mut nms_terms, part: u8, out: *mut u8, room: usize, bytes: *mut usize) -> u32;
    pub fn nms_raw_terms_sym_name(look: *mut nms_terms, sym: u16, out: *mut u8, room: usize, bytes: *mut usize) -> u32;
    pub fn nms_raw_plan_view(look: *mut nms_terms, view: *const nms_view, order: *const nms_order, plan: *mut nms_plan) -> u32;
    pub fn nms_raw_confirm_view(look: *mut nms_terms, view: *const nms_view, order: *const nms_order, plan: *const nms_plan, doubt: *mut nms_doubt) -> u32;
    pub fn nms_raw_through_view(view: *const nms_view, millionths: u64, through: *mut nms_through) -> u32;
    pub fn nms_raw_reduce_view(view: *const nms_view, side: u8, most: *const u32, reduced: *mut nms_view) -> u32;
}
