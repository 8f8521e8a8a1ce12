/* nms.h: the proved quote board and sweep planner after Regulation NMS, in the caller's own process.
 *
 * HOW TO CALL
 *   Every call returns a code of `enum nms_code`: NMS_OK (0), or why it was refused. A refused call leaves the board
 *   as it was and writes nothing to the caller's structs. Seven calls differ, and say so: nms_apply_all, nms_apply_best,
 *   nms_apply_lines, nms_best_all, nms_plan_all, nms_confirm and nms_confirm_view.
 *   Set a board to NMS_BOARD_CLOSED before nms_open. Close each board that was opened, once. Terms likewise.
 *   Find the number of a name once (nms_find_part, nms_find_sym), and use the number after that. A participant's number is
 *   its place in the setup's document, 0 to 31; so is a symbol's, 0 to 999.
 *
 * UNITS
 *   Prices are in 1/10,000 dollar, 1 to 99,999,999,999 (9,999,999.9999 dollars). A price for nms_traded_through is in
 *   1/1,000,000 dollar. Shares are 1 to 999,999,999. Money is in nanodollars (10^-9 dollar).
 *
 * HOW MANY CHANGES
 *   A board takes 2^63 changes, whatever its setup's tape_limit says: the library keeps no tape. It holds two boards, and shows
 *   one. When that one has taken 9,990,000 changes, each further change also brings one symbol to the other. Once the other has
 *   all symbols it is shown. Rows, their ranks and plans are as if there were one board, and versions go on. Only receipts start
 *   again: nms_row says what they promise.
 *
 * MEMORY
 *   nms_open takes memory, and nms_close gives it back; nms_terms_open and nms_terms_close likewise. nms_setup_place takes
 *   memory and gives it back before it returns. No other call takes any. The caller's structs may lie anywhere: on the stack,
 *   in an array, in shared memory.
 *   Stack that a call needs, in KiB; a thread or a fiber with less room dies in the call:
 *     nms_open 2048, nms_terms_open 2048, nms_setup_place 2048, nms_read_plan 96, nms_plan_view 32, nms_confirm_view 32,
 *     nms_through_view 24, nms_apply 20, nms_apply_all 20, nms_apply_best 20, nms_apply_text 20, nms_apply_lines 20,
 *     nms_confirm 20, nms_opening_of 16, nms_reduce_view 16, nms_plan_text 12, nms_plan_order 8, nms_plan_all 8,
 *     any other call 4
 *   nms_open, nms_terms_open and nms_setup_place take 48 for a text that is a setup. They take more for one that nests, up to
 *   80 tables with keys of 80 parts each, which are the most that TOML text may have here.
 *
 * THREADS
 *   A look is a call that takes a `const nms_board *`. It stores its answer and nothing else. Looks at one board may run
 *   together, in any number of threads, as long as no other call runs on that board: a reader's lock does that. nms_plan_order
 *   is a look too. Every other call on a board needs an exclusive lock, which keeps looks out too. That holds also for
 *   nms_plan_text and nms_read_plan, since they work in room that lies in the board. Or give each thread a board of its own. A
 *   board may go from one thread to another if a lock, a start or a join orders the two. No call waits, starts a thread, or may
 *   be made from a signal handler. The library holds no state besides boards and terms. To publish views from one
 *   thread to others without a lock, use nms_shared.h.
 *
 * A VIEW IS A VALUE
 *   nms_view_of writes all that a look at a symbol shows. The struct may be copied, sent and stored. nms_plan_view,
 *   nms_confirm_view and nms_through_view work on it, with no board: they promise what nms_plan_order, nms_confirm and
 *   nms_traded_through promise of the board at that version. nms_reduce_view makes another view of it, with at most a given
 *   number of shares of each participant. nms_terms are the roster and the fees, which stay as they are from nms_terms_open to
 *   nms_terms_close. So any number of threads may make these calls at once, also beside changes of a board, with no lock. A
 *   caller who shares a view while another thread writes it has to see to it that it reads a whole one. What a torn copy mostly
 *   shows is answered NMS_NO_VIEW: numbers that no look shows.
 *
 * NULL POINTERS
 *   The calls below are inline functions. Each tests its pointers, answers NMS_NULL (18) if one is null, and then calls the
 *   function of the library, which has the same name with `nms_raw_` in place of `nms_` and the same arguments. A text of 0
 *   bytes and an array of 0 changes, which a call only reads, may have a null pointer. C and C++ call the inline functions.
 *   A language that can't read this header calls nms_raw_*. It passes no null pointer, compares nms_abi() with NMS_ABI once,
 *   and gives each look, and each call on terms, a copy of the handle, or an exclusive lock.
 *
 * WHAT A LOOK COPIES, FOR OTHER LANGUAGES
 *   The library's function takes its right to read the board out of the handle that it is given, and puts it back before it
 *   returns. So a look gives it a copy of the handle's 16 bytes, on the stack. The caller's handle stays as it is, and the copy
 *   ends with the look. What is proved of a look is that it answers as its clauses say with a share of the right to read the
 *   board, of which there may be any number; whoever holds one may not write. C has to keep the rest: until every look has
 *   returned, no other call runs on the board. The same holds for terms.
 *
 * WHAT NO CALL CAN SEE
 *   A pointer that is not null has to point at a whole struct of its type, or at as many bytes or elements as the caller
 *   says. Two arguments of one call may not overlap. Never copy a struct nms_board yourself. After one copy is closed or
 *   used, the other points at memory that is no longer its own, and no test can find that out. Treat it as a
 *   pthread_mutex_t. The same holds for struct nms_terms, and for either if the caller alters its bytes.
 */
#ifndef NMS_H
#define NMS_H

#include <stddef.h>
#include <stdint.h>

#ifdef __cplusplus
extern "C" {
#endif

/* The version of this header's layout, which libnms.so has in its name. nms_open, nms_terms_open and nms_setup_place
 * compare it with nms_abi(). */
#define NMS_ABI 2
/* The version of the product that this header came with. nms_version writes that of the library. */
#define NMS_VERSION "0.3.0"

#define NMS_MOST_PARTS 32    /* participants of a setup, and rows of a side */
#define NMS_MOST_SYMS 1000   /* symbols of a setup */
#define NMS_MOST_OPENING 65  /* opening changes of a symbol: a round lot, and 64 sides */
#define NMS_MOST_PRICE UINT64_C(99999999999) /* 1/10,000 dollar, of a quotation or a limit */
#define NMS_MOST_SHARES 999999999            /* of a quotation or an order */

/* Room that always suffices for a text with its closing zero. */
#define NMS_NAME_ROOM 9        /* the name of a participant or a symbol */
#define NMS_CODE_TEXT_ROOM 128 /* the text of a code, or the library's version */
#define NMS_PLAN_TEXT_ROOM 8192 /* the text of a plan with its certificate */

/* The answer of a call. If one struct's numbers have several faults, the call returns the least code. A call that takes an
 * order and a plan checks the order first. */
enum nms_code {
    NMS_OK = 0,
    /* why a text is no setup, as nms_tool names it: C1 to C9 */
    NMS_C1_NOT_TOML = 1,      /* not a TOML document, or not UTF-8 */
    NMS_C2_MISSING = 2,       /* a key is missing */
    NMS_C3_UNKNOWN_KEY = 3,   /* an unknown key */
    NMS_C4_BAD_NAME = 4,      /* a bad name, or the same name twice */
    NMS_C5_WRONG_TYPE = 5,    /* a value of another kind */
    NMS_C6_OUT_OF_RANGE = 6,  /* a value out of range, or an empty array */
    NMS_C7_OVER_CAP = 7,      /* a fee or a rate over its cap */
    NMS_C8_TOO_MANY = 8,      /* more than 32 participants or 1,000 symbols */
    NMS_NO_MEMORY = 9,        /* C9: out of memory */
    /* why numbers are refused */
    NMS_RANGE = 10,           /* a number that is out of its range, or a side with a price and no shares, or the reverse */
    NMS_NO_PART = 11,         /* no such participant on the roster */
    NMS_NO_SYM = 12,          /* no such symbol on the roster */
    NMS_FULL = 13,            /* the board has taken 2^63 changes */
    NMS_NONE = 14,            /* no row at that place, no such code */
    NMS_CLOSED = 15,          /* the board is not open, or the terms: never opened, closed, or overwritten */
    NMS_DOUBTED = 16,         /* the plan is not confirmed: nms_doubt says why */
    NMS_OPEN_ALREADY = 17,    /* the board is open already, or the terms */
    NMS_NULL = 18,            /* a null pointer */
    NMS_ROOM = 19,            /* the caller's buffer is too small */
    NMS_WRONG_ABI = 20,       /* the library has another layout than this header: only nms_open, nms_terms_open, nms_setup_place */
    NMS_NO_VIEW = 21,         /* no look shows such a view: a torn copy, or numbers that no look wrote */
    /* why a record or the text of a plan is refused, as nms_tool names it: L1 to L8, L11, L14 */
    NMS_L1_UNKNOWN_KIND = 101,
    NMS_L2_FIELD_COUNT = 102,
    NMS_L3_UNKNOWN_PARTICIPANT = 103,
    NMS_L4_UNKNOWN_SYMBOL = 104,
    NMS_L5_BAD_STATE = 105,
    NMS_L6_BAD_PRICE = 106,
    NMS_L7_BAD_SHARES = 107,
    NMS_L8_HALF_SIDE = 108,
    NMS_L9_WRONG_FEED = 109,  /* never answered by this library: it reads records of any participant */
    NMS_L10_BAD_DESK = 110,   /* never answered by this library: it has no desks */
    NMS_L11_BAD_PLAN_TEXT = 111,
    NMS_L14_BAD_LOT = 114
};

enum nms_side { NMS_BID = 0, NMS_OFFER = 1 };
enum nms_order_side { NMS_BUY = 0, NMS_SELL = 1 };
enum nms_state { NMS_AUTOMATED = 0, NMS_MANUAL = 1, NMS_HALTED = 2 };
enum nms_kind { NMS_QUOTE = 0, NMS_STATE = 1, NMS_WITHDRAW = 2, NMS_LOT = 3 };
enum nms_market { NMS_EMPTY = 0, NMS_ONE_SIDED = 1, NMS_NORMAL = 2, NMS_LOCKED = 3, NMS_CROSSED = 4 };
enum nms_table { NMS_NO_DOCUMENT = 0, NMS_TOP = 1, NMS_PARTICIPANT = 2, NMS_SYMBOL = 3 };
/* What is wrong in a table of a setup: a key that is missing or has a wrong value (1 to 12), a key that may not stand
 * there, the name of an earlier element, an element that is no table. 0 if the text is no document. */
enum nms_spot {
    NMS_TAPE_LIMIT = 1, NMS_QUEUE = 2, NMS_DESKS = 3, NMS_CAPS = 4, NMS_FEEDS = 5, NMS_PARTICIPANTS = 6, NMS_SYMBOLS = 7,
    NMS_NAME = 8, NMS_FEED = 9, NMS_FEE = 10, NMS_RATE = 11, NMS_ROUND_LOT = 12, NMS_OTHER_KEY = 13, NMS_NAME_TWICE = 14,
    NMS_NO_TABLE = 15
};
enum nms_cut_kind { NMS_TOO_MUCH = 0, NMS_TOO_LITTLE = 1, NMS_MARGINAL = 2 };

/* A board. Set it to NMS_BOARD_CLOSED (all zero) before nms_open. Its fields are the library's. The caller never copies it. */
typedef struct nms_board {
    uint64_t mark;
    void *at;
} nms_board;
#define NMS_BOARD_CLOSED { 0, 0 }

/* The roster and the fees of a setup. Set it to NMS_TERMS_CLOSED (all zero) before nms_terms_open. Its fields are the library's.
 * The caller never copies it. */
typedef struct nms_terms {
    uint64_t mark;
    void *at;
} nms_terms;
#define NMS_TERMS_CLOSED { 0, 0 }

/* A change of the board. The fields that its kind does not use are ignored.
 *   NMS_QUOTE     part, sym, state, and both sides: a side is a price and 1 or more shares, or 0 and 0 for no quotation
 *   NMS_STATE     part, sym, state
 *   NMS_WITHDRAW  part: no quotation in any symbol
 *   NMS_LOT       sym, lot: the round lot from now on, 1 to 1,000 shares */
typedef struct nms_change {
    uint64_t bid_price, offer_price; /* 1/10,000 dollar */
    uint32_t bid_shares, offer_shares;
    uint16_t sym, lot;
    uint8_t part, kind, state, spare;
} nms_change;

/* A quotation of at least one round lot; in a view of nms_reduce_view it may be less. size 0: no row. */
typedef struct nms_row {
    uint64_t price;       /* 1/10,000 dollar */
    /* Receipts of one symbol are in the order of the changes that last altered a side's price or shares. Each is from 1 on, and
     * at most the version. Until 9,990,000 changes were applied it is the number of that change. */
    uint64_t receipt;
    uint32_t size;        /* shares; of a board, whole round lots */
    uint8_t part;
    uint8_t is_protected; /* 1: automated, a protected quotation; 0: manual */
    uint16_t spare;       /* 0 */
} nms_row;

/* The best bid and the best offer of a symbol. */
typedef struct nms_best {
    uint64_t version;     /* changes applied so far */
    nms_row bid, offer;   /* size 0: the side is empty */
    uint32_t market;      /* enum nms_market */
    uint32_t spare;       /* 0 */
} nms_best;

/* The rows of one side in rank order, best first: by price, then by size, then by receipt. */
typedef struct nms_rows {
    uint64_t total; /* shares of all rows */
    uint64_t price[NMS_MOST_PARTS], receipt[NMS_MOST_PARTS];
    uint32_t size[NMS_MOST_PARTS];
    uint8_t part[NMS_MOST_PARTS], is_protected[NMS_MOST_PARTS];
    uint32_t count; /* rows; the places from it on are 0 */
    uint32_t spare; /* 0 */
} nms_rows;

/* All rows of a symbol. It is whole in itself: nms_plan_view, nms_confirm_view and nms_through_view need no more of a board. */
typedef struct nms_view {
    uint64_t version; /* changes applied so far */
    uint32_t market;  /* enum nms_market */
    uint16_t sym, spare; /* spare: 0 */
    nms_rows bid, offer;
} nms_view;

/* The protected quotations that a price trades through: bids above it and offers below it, each by participant. */
typedef struct nms_through {
    uint64_t version;
    uint32_t bids, offers;       /* how many; the places from there on are rows of size 0 */
    nms_row bid[NMS_MOST_PARTS], offer[NMS_MOST_PARTS];
} nms_through;

/* What is to be traded: 1 or more shares at the limit or better. */
typedef struct nms_order {
    uint64_t limit;     /* 1/10,000 dollar */
    uint32_t shares;
    uint32_t self_help; /* bit n: participant n is passed over (17 CFR 242.611(b)(1)). No bit for a number out of the roster */
    uint16_t sym;
    uint8_t side;       /* enum nms_order_side */
    uint8_t manual;     /* 1: may also trade with manual quotations; else 0 */
    uint32_t spare;
} nms_order;

/* An order that goes to one participant. */
typedef struct nms_leg {
    uint64_t price;
    uint32_t shares;
    uint8_t part, spare_a;
    uint16_t spare_b;
} nms_leg;

/* What a plan's certificate says of one price. */
typedef struct nms_cut {
    uint64_t price;
    int64_t marginal; /* nanodollars for one more share; 0 if kind is not NMS_MARGINAL */
    uint32_t kind;    /* enum nms_cut_kind */
    uint32_t spare;   /* 0 */
} nms_cut;

/* A plan with its certificate: the most shares that a lawful plan fills, at the least cost with fees. */
typedef struct nms_plan {
    uint64_t version;     /* changes applied when it was made */
    uint64_t cost_low;    /* cost_high * 2^64 + cost_low nanodollars, fees included; negative for a sale */
    int64_t cost_high;
    uint32_t filled;      /* shares of all legs */
    uint32_t legs, cuts;  /* how many; the places from there on are 0 */
    uint32_t spare;       /* 0 */
    nms_leg leg[NMS_MOST_PARTS];
    nms_cut cut[NMS_MOST_PARTS];
} nms_plan;

/* Why a plan is not confirmed, as nms_tool names it. All 0 if it is confirmed. */
typedef struct nms_doubt {
    uint32_t doubt;  /* 1 to 7: K1 to K7 */
    uint32_t breach; /* 1 to 12: P1 to P12, if doubt is 1; else 0 */
    uint32_t part;   /* if breach is 10, the participant that is traded through; else 0 */
    uint32_t cut;    /* if doubt is 7, the first cut whose bound fails, from 0 on; else 0 */
} nms_doubt;

/* Where a text is no setup, and why. All 0 if it is a setup. */
typedef struct nms_place {
    uint32_t code;    /* 1 to 8: C1 to C8 */
    uint32_t table;   /* enum nms_table */
    uint32_t spot;    /* enum nms_spot */
    uint32_t spare;   /* 0 */
    uint64_t element; /* if table is NMS_PARTICIPANT or NMS_SYMBOL, the element's place in its array, from 0 on; else 0 */
    uint64_t twin;    /* if spot is NMS_NAME_TWICE, the place of the earlier element that has the name; else 0 */
    uint64_t start, end; /* if table is NMS_NO_DOCUMENT, the bytes at which reading stopped: from start up to end; else 0 */
} nms_place;

/* What a board holds. */
typedef struct nms_counts {
    uint64_t applied; /* changes applied */
    uint64_t room;    /* changes that may still be applied: 2^63 less those */
    uint32_t parts, syms;
} nms_counts;

/* Changes that bring an empty board of the same setup to a symbol's present rows. */
typedef struct nms_opening {
    uint32_t count, spare;
    nms_change change[NMS_MOST_OPENING];
} nms_opening;

/* ---- sizes, compared with the library by the gate ---- */
#ifdef __cplusplus
#define NMS_HOLDS(fact, text) static_assert(fact, text)
#else
#define NMS_HOLDS(fact, text) _Static_assert(fact, text)
#endif
NMS_HOLDS(sizeof(void *) == 8, "64-bit pointers");
NMS_HOLDS(sizeof(nms_board) == 16 && offsetof(nms_board, at) == 8, "nms_board");
NMS_HOLDS(sizeof(nms_terms) == 16 && offsetof(nms_terms, at) == 8, "nms_terms");
NMS_HOLDS(sizeof(nms_change) == 32, "nms_change");
NMS_HOLDS(offsetof(nms_change, offer_price) == 8 && offsetof(nms_change, bid_shares) == 16, "nms_change");
NMS_HOLDS(offsetof(nms_change, offer_shares) == 20 && offsetof(nms_change, sym) == 24, "nms_change");
NMS_HOLDS(offsetof(nms_change, lot) == 26 && offsetof(nms_change, part) == 28, "nms_change");
NMS_HOLDS(offsetof(nms_change, kind) == 29 && offsetof(nms_change, state) == 30, "nms_change");
NMS_HOLDS(sizeof(nms_row) == 24 && offsetof(nms_row, receipt) == 8 && offsetof(nms_row, size) == 16, "nms_row");
NMS_HOLDS(offsetof(nms_row, part) == 20 && offsetof(nms_row, is_protected) == 21, "nms_row");
NMS_HOLDS(sizeof(nms_best) == 64 && offsetof(nms_best, bid) == 8 && offsetof(nms_best, offer) == 32, "nms_best");
NMS_HOLDS(offsetof(nms_best, market) == 56, "nms_best");
NMS_HOLDS(sizeof(nms_rows) == 720 && offsetof(nms_rows, price) == 8 && offsetof(nms_rows, receipt) == 264, "nms_rows");
NMS_HOLDS(offsetof(nms_rows, size) == 520 && offsetof(nms_rows, part) == 648, "nms_rows");
NMS_HOLDS(offsetof(nms_rows, is_protected) == 680 && offsetof(nms_rows, count) == 712, "nms_rows");
NMS_HOLDS(sizeof(nms_view) == 1456 && offsetof(nms_view, bid) == 16 && offsetof(nms_view, offer) == 736, "nms_view");
NMS_HOLDS(offsetof(nms_view, market) == 8 && offsetof(nms_view, sym) == 12, "nms_view");
NMS_HOLDS(sizeof(nms_through) == 1552 && offsetof(nms_through, bid) == 16, "nms_through");
NMS_HOLDS(offsetof(nms_through, offers) == 12 && offsetof(nms_through, offer) == 784, "nms_through");
NMS_HOLDS(sizeof(nms_order) == 24 && offsetof(nms_order, shares) == 8 && offsetof(nms_order, self_help) == 12, "nms_order");
NMS_HOLDS(offsetof(nms_order, sym) == 16 && offsetof(nms_order, side) == 18, "nms_order");
NMS_HOLDS(offsetof(nms_order, manual) == 19, "nms_order");
NMS_HOLDS(sizeof(nms_leg) == 16 && offsetof(nms_leg, shares) == 8 && offsetof(nms_leg, part) == 12, "nms_leg");
NMS_HOLDS(sizeof(nms_cut) == 24 && offsetof(nms_cut, marginal) == 8 && offsetof(nms_cut, kind) == 16, "nms_cut");
NMS_HOLDS(sizeof(nms_plan) == 1320 && offsetof(nms_plan, cost_low) == 8 && offsetof(nms_plan, cost_high) == 16, "nms_plan");
NMS_HOLDS(offsetof(nms_plan, filled) == 24 && offsetof(nms_plan, legs) == 28, "nms_plan");
NMS_HOLDS(offsetof(nms_plan, cuts) == 32 && offsetof(nms_plan, leg) == 40 && offsetof(nms_plan, cut) == 552, "nms_plan");
NMS_HOLDS(sizeof(nms_doubt) == 16 && sizeof(nms_counts) == 24 && offsetof(nms_counts, parts) == 16, "nms_counts");
NMS_HOLDS(sizeof(nms_place) == 48 && offsetof(nms_place, spot) == 8 && offsetof(nms_place, element) == 16, "nms_place");
NMS_HOLDS(offsetof(nms_place, twin) == 24 && offsetof(nms_place, start) == 32 && offsetof(nms_place, end) == 40, "nms_place");
NMS_HOLDS(sizeof(nms_opening) == 2088 && offsetof(nms_opening, change) == 8, "nms_opening");

/* ---- the functions of the library ---- */
uint32_t nms_abi(void); /* NMS_ABI of the header that the library was made with */
uint32_t nms_raw_version(uint8_t *out, size_t room, size_t *bytes);
uint32_t nms_raw_code_text(uint32_t code, uint8_t *out, size_t room, size_t *bytes);
uint32_t nms_raw_open(const uint8_t *setup, size_t setup_bytes, nms_board *board);
uint32_t nms_raw_setup_place(const uint8_t *setup, size_t setup_bytes, nms_place *place);
uint32_t nms_raw_close(nms_board *board);
uint32_t nms_raw_counts_of(nms_board *look, nms_counts *counts);
uint32_t nms_raw_find_part(nms_board *look, const uint8_t *name, size_t name_bytes, uint8_t *part);
uint32_t nms_raw_find_sym(nms_board *look, const uint8_t *name, size_t name_bytes, uint16_t *sym);
uint32_t nms_raw_part_name(nms_board *look, uint8_t part, uint8_t *out, size_t room, size_t *bytes);
uint32_t nms_raw_sym_name(nms_board *look, uint16_t sym, uint8_t *out, size_t room, size_t *bytes);
uint32_t nms_raw_apply(nms_board *board, const nms_change *change);
uint32_t nms_raw_apply_all(nms_board *board, const nms_change *changes, size_t count, size_t *applied);
uint32_t nms_raw_apply_best(nms_board *board, const nms_change *changes, size_t count, nms_best *best, size_t places, size_t *applied);
uint32_t nms_raw_apply_text(nms_board *board, const uint8_t *record, size_t record_bytes);
uint32_t nms_raw_apply_lines(nms_board *board, const uint8_t *text, size_t text_bytes, size_t *applied, size_t *at);
uint32_t nms_raw_best_of(nms_board *look, uint16_t sym, nms_best *best);
uint32_t nms_raw_best_all(nms_board *look, const uint16_t *syms, size_t count, nms_best *best, size_t places, size_t *done);
uint32_t nms_raw_ranked(nms_board *look, uint16_t sym, uint8_t side, uint8_t place, nms_row *row);
uint32_t nms_raw_rows_of(nms_board *look, uint16_t sym, uint8_t side, nms_rows *rows);
uint32_t nms_raw_view_of(nms_board *look, uint16_t sym, nms_view *view);
uint32_t nms_raw_traded_through(nms_board *look, uint16_t sym, uint64_t millionths, nms_through *through);
uint32_t nms_raw_plan_order(nms_board *look, const nms_order *order, nms_plan *plan);
uint32_t nms_raw_plan_all(nms_board *look, const nms_order *orders, size_t count, nms_plan *plan, size_t places, size_t *done);
uint32_t nms_raw_confirm(nms_board *look, const nms_order *order, const nms_plan *plan, nms_doubt *doubt);
uint32_t nms_raw_unit_cost(nms_board *look, uint8_t part, uint8_t side, uint64_t price, int64_t *nanodollars);
uint32_t nms_raw_plan_text(nms_board *board, const nms_order *order, const nms_plan *plan, uint8_t *out, size_t room, size_t *bytes);
uint32_t nms_raw_read_plan(nms_board *board, const uint8_t *text, size_t text_bytes, nms_order *order, nms_plan *plan);
uint32_t nms_raw_opening_of(nms_board *look, uint16_t sym, nms_opening *opening);
uint32_t nms_raw_terms_open(const uint8_t *setup, size_t setup_bytes, nms_terms *terms);
uint32_t nms_raw_terms_close(nms_terms *terms);
uint32_t nms_raw_terms_find_part(nms_terms *look, const uint8_t *name, size_t name_bytes, uint8_t *part);
uint32_t nms_raw_terms_find_sym(nms_terms *look, const uint8_t *name, size_t name_bytes, uint16_t *sym);
uint32_t nms_raw_terms_part_name(nms_terms *look, uint8_t part, uint8_t *out, size_t room, size_t *bytes);
uint32_t nms_raw_terms_sym_name(nms_terms *look, uint16_t sym, uint8_t *out, size_t room, size_t *bytes);
uint32_t nms_raw_plan_view(nms_terms *look, const nms_view *view, const nms_order *order, nms_plan *plan);
uint32_t nms_raw_confirm_view(nms_terms *look, const nms_view *view, const nms_order *order, const nms_plan *plan, nms_doubt *doubt);
uint32_t nms_raw_through_view(const nms_view *view, uint64_t millionths, nms_through *through);
uint32_t nms_raw_reduce_view(const nms_view *view, uint8_t side, const uint32_t *most, nms_view *reduced);

/* ---- the calls ---- */

/* Where a call begins to read: any place if there is nothing to read, since the library is given no null pointer. */
static inline const void *nms_from(const void *at)
{
    static const uint64_t nothing = 0;
    return at ? at : &nothing;
}

/* Writes the version of the library, as "0.3.0", with a closing zero. *bytes is its length without the zero.
 * Codes: NMS_ROOM. */
static inline uint32_t nms_version(char *out, size_t room, size_t *bytes)
{
    return out && bytes ? nms_raw_version((uint8_t *)out, room, bytes) : (uint32_t)NMS_NULL;
}

/* Writes what a code says, in English, with a closing zero. *bytes is its length without the zero.
 * Codes: NMS_NONE if no call answers that code, NMS_ROOM. */
static inline uint32_t nms_code_text(uint32_t code, char *out, size_t room, size_t *bytes)
{
    /* This code is the header's own, so the library has no text for it. */
    static const char wrong_abi[] = "the library has another layout than nms.h";
    if (!out || !bytes) {
        return NMS_NULL;
    }
    if (code != NMS_WRONG_ABI) {
        return nms_raw_code_text(code, (uint8_t *)out, room, bytes);
    }
    if (room < sizeof wrong_abi) {
        return NMS_ROOM;
    }
    for (size_t at = 0; at < sizeof wrong_abi; ++at) {
        out[at] = wrong_abi[at];
    }
    *bytes = sizeof wrong_abi - 1;
    return NMS_OK;
}

/* Opens a board from the text of a setup, a TOML document in UTF-8. The board is empty: no change was applied.
 * Codes: NMS_WRONG_ABI; NMS_OPEN_ALREADY; 1 to 8 if the text is no setup; NMS_NO_MEMORY. A closed board stays closed then.
 * Takes memory. Needs an exclusive lock. */
static inline uint32_t nms_open(const char *setup, size_t setup_bytes, nms_board *board)
{
    if (!board || (!setup && setup_bytes > 0)) {
        return NMS_NULL;
    }
    if (nms_abi() != NMS_ABI) {
        return NMS_WRONG_ABI;
    }
    return nms_raw_open((const uint8_t *)nms_from(setup), setup_bytes, board);
}

/* Writes where a text is no setup, and why: the code that nms_open answers, and the first place that has it. All 0 if the
 * text is a setup. Codes: NMS_WRONG_ABI, NMS_NO_MEMORY. Takes memory and gives it back. */
static inline uint32_t nms_setup_place(const char *setup, size_t setup_bytes, nms_place *place)
{
    if (!place || (!setup && setup_bytes > 0)) {
        return NMS_NULL;
    }
    if (nms_abi() != NMS_ABI) {
        return NMS_WRONG_ABI;
    }
    return nms_raw_setup_place((const uint8_t *)nms_from(setup), setup_bytes, place);
}

/* Closes a board and gives its memory back. It may be opened again. Codes: NMS_CLOSED. Needs an exclusive lock. */
static inline uint32_t nms_close(nms_board *board)
{
    return board ? nms_raw_close(board) : (uint32_t)NMS_NULL;
}

/* Writes how many changes were applied, how many may still be, and how many participants and symbols there are.
 * Codes: NMS_CLOSED. */
static inline uint32_t nms_counts_of(const nms_board *board, nms_counts *counts)
{
    if (!board || !counts) {
        return NMS_NULL;
    }
    nms_board look = *board;
    return nms_raw_counts_of(&look, counts);
}

/* Writes the number of the participant of that name (no closing zero is needed). Codes: NMS_NO_PART, NMS_CLOSED. */
static inline uint32_t nms_find_part(const nms_board *board, const char *name, size_t name_bytes, uint8_t *part)
{
    if (!board || (!name && name_bytes > 0) || !part) {
        return NMS_NULL;
    }
    nms_board look = *board;
    return nms_raw_find_part(&look, (const uint8_t *)nms_from(name), name_bytes, part);
}

/* Writes the number of the symbol of that name. Codes: NMS_NO_SYM, NMS_CLOSED. */
static inline uint32_t nms_find_sym(const nms_board *board, const char *name, size_t name_bytes, uint16_t *sym)
{
    if (!board || (!name && name_bytes > 0) || !sym) {
        return NMS_NULL;
    }
    nms_board look = *board;
    return nms_raw_find_sym(&look, (const uint8_t *)nms_from(name), name_bytes, sym);
}

/* Writes the name of a participant with a closing zero. *bytes is its length without the zero, 1 to 4.
 * Codes: NMS_NO_PART, NMS_CLOSED, NMS_ROOM. */
static inline uint32_t nms_part_name(const nms_board *board, uint8_t part, char *out, size_t room, size_t *bytes)
{
    if (!board || !out || !bytes) {
        return NMS_NULL;
    }
    nms_board look = *board;
    return nms_raw_part_name(&look, part, (uint8_t *)out, room, bytes);
}

/* Writes the name of a symbol with a closing zero. *bytes is its length without the zero, 1 to 8.
 * Codes: NMS_NO_SYM, NMS_CLOSED, NMS_ROOM. */
static inline uint32_t nms_sym_name(const nms_board *board, uint16_t sym, char *out, size_t room, size_t *bytes)
{
    if (!board || !out || !bytes) {
        return NMS_NULL;
    }
    nms_board look = *board;
    return nms_raw_sym_name(&look, sym, (uint8_t *)out, room, bytes);
}

/* Applies one change. Codes: NMS_RANGE, NMS_NO_PART, NMS_NO_SYM, NMS_FULL, NMS_CLOSED; the board is as it was then. Needs an
 * exclusive lock. */
static inline uint32_t nms_apply(nms_board *board, const nms_change *change)
{
    return board && change ? nms_raw_apply(board, change) : (uint32_t)NMS_NULL;
}

/* Applies changes in order, up to the first that is refused. *applied is how many were applied: those stay on the board,
 * and the answer is the code of the next one. Codes: as nms_apply. *applied is written unless the answer is NMS_CLOSED or
 * NMS_NULL. Needs an exclusive lock. */
static inline uint32_t nms_apply_all(nms_board *board, const nms_change *changes, size_t count, size_t *applied)
{
    if (!board || (!changes && count > 0) || !applied) {
        return NMS_NULL;
    }
    return nms_raw_apply_all(board, (const nms_change *)nms_from(changes), count, applied);
}

/* Applies changes in order, up to the first that is refused, and writes the best bid and the best offer of a change's symbol
 * after it. The array has a place for each change. Of a withdrawal the sym is used too, for the rows that are written.
 * *applied is how many were applied: those stay on the board, and the answer is the code of the next one. Codes: as nms_apply.
 * *applied is written unless the answer is NMS_CLOSED or NMS_NULL. Needs an exclusive lock. */
static inline uint32_t nms_apply_best(nms_board *board, const nms_change *changes, size_t count, nms_best *best, size_t *applied)
{
    nms_best none;
    if (!board || ((!changes || !best) && count > 0) || !applied) {
        return NMS_NULL;
    }
    return nms_raw_apply_best(board, (const nms_change *)nms_from(changes), count, best ? best : &none, count, applied);
}

/* Applies the change that one record says, as "Q,NYSE,ABC,A,10.01,300,10.03,200": a line of a file of changes, with or
 * without its end of line. Records of kinds Q, S, X and R are read, of any participant. Its fields are what stands between
 * the commas: none of them needs a quote, and no quote is read. nms_raw_apply_text takes no end of line.
 * Codes: NMS_L1 to NMS_L8, NMS_L14, NMS_RANGE (more than 255 bytes), NMS_FULL, NMS_CLOSED; the board is as it was then.
 * Needs an exclusive lock. */
static inline uint32_t nms_apply_text(nms_board *board, const char *record, size_t record_bytes)
{
    if (!board || (!record && record_bytes > 0)) {
        return NMS_NULL;
    }
    if (record_bytes > 0 && record[record_bytes - 1] == '\n') {
        record_bytes--;
        if (record_bytes > 0 && record[record_bytes - 1] == '\r') {
            record_bytes--;
        }
    }
    return nms_raw_apply_text(board, (const uint8_t *)nms_from(record), record_bytes);
}

/* Applies the changes that the lines of a text say, in order up to the first that is refused. Each line is a record as of
 * nms_apply_text. It ends with a line feed, or a carriage return and one, and the last line may have no end. A file of
 * changes is read with more leave: here a blank line is a record of an unknown kind (NMS_L1), no byte order mark is dropped, and
 * a carriage return without a line feed ends no line. *applied is how many were applied: those stay on the board, and the answer
 * is the code of the next one. *at is the byte where that one begins, or text_bytes if all were applied: the text from there on
 * has the lines that are left. Codes: as nms_apply_text. *applied and *at are written unless the answer is NMS_CLOSED or
 * NMS_NULL. Needs an exclusive lock. */
static inline uint32_t nms_apply_lines(nms_board *board, const char *text, size_t text_bytes, size_t *applied, size_t *at)
{
    if (!board || (!text && text_bytes > 0) || !applied || !at) {
        return NMS_NULL;
    }
    return nms_raw_apply_lines(board, (const uint8_t *)nms_from(text), text_bytes, applied, at);
}

/* Writes the best bid, the best offer and the state of the market of a symbol. Codes: NMS_NO_SYM, NMS_CLOSED. */
static inline uint32_t nms_best_of(const nms_board *board, uint16_t sym, nms_best *best)
{
    if (!board || !best) {
        return NMS_NULL;
    }
    nms_board look = *board;
    return nms_raw_best_of(&look, sym, best);
}

/* Writes the best bid and the best offer of each symbol, up to the first that is refused. *done is how many were written, and
 * the answer is the code of the next symbol. Codes: NMS_NO_SYM, NMS_CLOSED. *done is written unless the answer is NMS_CLOSED or
 * NMS_NULL. */
static inline uint32_t nms_best_all(const nms_board *board, const uint16_t *syms, size_t count, nms_best *best, size_t *done)
{
    nms_best none;
    if (!board || ((!syms || !best) && count > 0) || !done) {
        return NMS_NULL;
    }
    nms_board look = *board;
    return nms_raw_best_all(&look, (const uint16_t *)nms_from(syms), count, best ? best : &none, count, done);
}

/* Writes the row at a place of a side's rank order, from 0 on. side: enum nms_side.
 * Codes: NMS_RANGE (the side), NMS_NO_SYM, NMS_NONE (no row there), NMS_CLOSED. */
static inline uint32_t nms_ranked(const nms_board *board, uint16_t sym, uint8_t side, uint8_t place, nms_row *row)
{
    if (!board || !row) {
        return NMS_NULL;
    }
    nms_board look = *board;
    return nms_raw_ranked(&look, sym, side, place, row);
}

/* Writes all rows of a side in rank order, and their total size. Codes: NMS_RANGE (the side), NMS_NO_SYM, NMS_CLOSED. */
static inline uint32_t nms_rows_of(const nms_board *board, uint16_t sym, uint8_t side, nms_rows *rows)
{
    if (!board || !rows) {
        return NMS_NULL;
    }
    nms_board look = *board;
    return nms_raw_rows_of(&look, sym, side, rows);
}

/* Writes both sides of a symbol, as nms_rows_of, with the version, the symbol and the state of the market. What it writes may be
 * given to nms_plan_view, nms_confirm_view and nms_through_view, also after the board has changed. Codes: NMS_NO_SYM, NMS_CLOSED. */
static inline uint32_t nms_view_of(const nms_board *board, uint16_t sym, nms_view *view)
{
    if (!board || !view) {
        return NMS_NULL;
    }
    nms_board look = *board;
    return nms_raw_view_of(&look, sym, view);
}

/* Writes the protected quotations that an execution at a price trades through (17 CFR 242.600, "trade-through"): the
 * protected bids above it and the protected offers below it. The price is in 1/1,000,000 dollar, 1 to 9,999,999,999,999,
 * so that an average price is judged as it is, and not rounded to 1/10,000 dollar first.
 * Codes: NMS_RANGE (the price), NMS_NO_SYM, NMS_CLOSED. */
static inline uint32_t nms_traded_through(const nms_board *board, uint16_t sym, uint64_t millionths, nms_through *through)
{
    if (!board || !through) {
        return NMS_NULL;
    }
    nms_board look = *board;
    return nms_raw_traded_through(&look, sym, millionths, through);
}

/* Plans an order: a lawful plan that fills the most shares, at the least cost with fees, with its certificate. A plan
 * that fills nothing has 0 legs. It works on its own stack. Codes: NMS_RANGE, NMS_NO_PART (self_help), NMS_NO_SYM, NMS_CLOSED. */
static inline uint32_t nms_plan_order(const nms_board *board, const nms_order *order, nms_plan *plan)
{
    if (!board || !order || !plan) {
        return NMS_NULL;
    }
    nms_board look = *board;
    return nms_raw_plan_order(&look, order, plan);
}

/* Plans each order on the board as it is, up to the first that is refused: two plans may take the same shares. *done is how many
 * were planned, and the answer is the code of the next order. Codes: as nms_plan_order. *done is written unless the answer is
 * NMS_CLOSED or NMS_NULL. */
static inline uint32_t nms_plan_all(const nms_board *board, const nms_order *orders, size_t count, nms_plan *plans, size_t *done)
{
    nms_plan none;
    if (!board || ((!orders || !plans) && count > 0) || !done) {
        return NMS_NULL;
    }
    nms_board look = *board;
    return nms_raw_plan_all(&look, (const nms_order *)nms_from(orders), count, plans ? plans : &none, count, done);
}

/* Confirms on the board that a plan is lawful and the best one for the order, from any maker. It does not trust the
 * planner. A plan rests on one version of the whole board, so each change applied after it, of another symbol too, brings
 * doubt 1 and breach 1 (K1, P1). To ask whether the plan is still right, set plan.version to nms_counts.applied and
 * confirm again, under the same lock.
 * Codes: NMS_OK if it is confirmed; NMS_DOUBTED, and then *doubt says why; NMS_RANGE, NMS_NO_PART and NMS_NO_SYM if the
 * numbers say no order and no plan; NMS_CLOSED. *doubt is written at NMS_OK and NMS_DOUBTED only. */
static inline uint32_t nms_confirm(const nms_board *board, const nms_order *order, const nms_plan *plan, nms_doubt *doubt)
{
    if (!board || !order || !plan || !doubt) {
        return NMS_NULL;
    }
    nms_board look = *board;
    return nms_raw_confirm(&look, order, plan, doubt);
}

/* Writes what one share costs with the fee of a participant, in nanodollars: for a buyer the price and the fee, for a
 * seller what is received, negative. side: enum nms_order_side. Codes: NMS_RANGE, NMS_NO_PART, NMS_CLOSED. */
static inline uint32_t nms_unit_cost(const nms_board *board, uint8_t part, uint8_t side, uint64_t price, int64_t *nanodollars)
{
    if (!board || !nanodollars) {
        return NMS_NULL;
    }
    nms_board look = *board;
    return nms_raw_unit_cost(&look, part, side, price, nanodollars);
}

/* Writes a plan and its certificate as text, in the layout that nms_tool writes and reads, with a closing zero.
 * *bytes is its length without the zero. The plan need not be lawful. Needs an exclusive lock, since it works in the board's
 * own room.
 * Codes: NMS_RANGE, NMS_NO_PART, NMS_NO_SYM, NMS_CLOSED, NMS_ROOM. */
static inline uint32_t nms_plan_text(nms_board *board, const nms_order *order, const nms_plan *plan, char *out, size_t room, size_t *bytes)
{
    return board && order && plan && out && bytes ? nms_raw_plan_text(board, order, plan, (uint8_t *)out, room, bytes) : (uint32_t)NMS_NULL;
}

/* Reads a plan, its order and its certificate from that text. What it reads need not be lawful: nms_confirm judges that.
 * Needs an exclusive lock, as nms_plan_text.
 * Codes: NMS_L11_BAD_PLAN_TEXT, NMS_RANGE (more than 8,192 bytes, or a marginal beyond 10^18 nanodollars), NMS_CLOSED. */
static inline uint32_t nms_read_plan(nms_board *board, const char *text, size_t text_bytes, nms_order *order, nms_plan *plan)
{
    if (!board || (!text && text_bytes > 0) || !order || !plan) {
        return NMS_NULL;
    }
    return nms_raw_read_plan(board, (const uint8_t *)nms_from(text), text_bytes, order, plan);
}

/* Writes the changes that bring an empty board of the same setup to the symbol's rows: its round lot if it differs from
 * the setup's, then its sides in order of receipt, hidden ones included. So a board can go on elsewhere: open a new one, and
 * apply the opening of each symbol. Its versions begin at 0. Codes: NMS_NO_SYM, NMS_CLOSED. */
static inline uint32_t nms_opening_of(const nms_board *board, uint16_t sym, nms_opening *opening)
{
    if (!board || !opening) {
        return NMS_NULL;
    }
    nms_board look = *board;
    return nms_raw_opening_of(&look, sym, opening);
}

/* Opens terms from the text of a setup, as nms_open opens a board. They never change. Codes: NMS_WRONG_ABI; NMS_OPEN_ALREADY;
 * 1 to 8 if the text is no setup; NMS_NO_MEMORY. Closed terms stay closed then. Takes memory. No other call may run on these
 * terms. */
static inline uint32_t nms_terms_open(const char *setup, size_t setup_bytes, nms_terms *terms)
{
    if (!terms || (!setup && setup_bytes > 0)) {
        return NMS_NULL;
    }
    if (nms_abi() != NMS_ABI) {
        return NMS_WRONG_ABI;
    }
    return nms_raw_terms_open((const uint8_t *)nms_from(setup), setup_bytes, terms);
}

/* Closes terms and gives their memory back. Codes: NMS_CLOSED. No other call may run on these terms. */
static inline uint32_t nms_terms_close(nms_terms *terms)
{
    return terms ? nms_raw_terms_close(terms) : (uint32_t)NMS_NULL;
}

/* As nms_find_part, of the roster of terms. Any number of threads may call at once. */
static inline uint32_t nms_terms_find_part(const nms_terms *terms, const char *name, size_t name_bytes, uint8_t *part)
{
    if (!terms || (!name && name_bytes > 0) || !part) {
        return NMS_NULL;
    }
    nms_terms look = *terms;
    return nms_raw_terms_find_part(&look, (const uint8_t *)nms_from(name), name_bytes, part);
}

/* As nms_find_sym, of the roster of terms. Any number of threads may call at once. */
static inline uint32_t nms_terms_find_sym(const nms_terms *terms, const char *name, size_t name_bytes, uint16_t *sym)
{
    if (!terms || (!name && name_bytes > 0) || !sym) {
        return NMS_NULL;
    }
    nms_terms look = *terms;
    return nms_raw_terms_find_sym(&look, (const uint8_t *)nms_from(name), name_bytes, sym);
}

/* As nms_part_name, of the roster of terms. Any number of threads may call at once. */
static inline uint32_t nms_terms_part_name(const nms_terms *terms, uint8_t part, char *out, size_t room, size_t *bytes)
{
    if (!terms || !out || !bytes) {
        return NMS_NULL;
    }
    nms_terms look = *terms;
    return nms_raw_terms_part_name(&look, part, (uint8_t *)out, room, bytes);
}

/* As nms_sym_name, of the roster of terms. Any number of threads may call at once. */
static inline uint32_t nms_terms_sym_name(const nms_terms *terms, uint16_t sym, char *out, size_t room, size_t *bytes)
{
    if (!terms || !out || !bytes) {
        return NMS_NULL;
    }
    nms_terms look = *terms;
    return nms_raw_terms_sym_name(&look, sym, (uint8_t *)out, room, bytes);
}

/* Plans an order on a view, as nms_plan_order does on the board that showed it. Any number of threads may call at once.
 * Codes, the first that holds: NMS_CLOSED; NMS_NO_VIEW; NMS_RANGE, NMS_NO_PART (self_help), NMS_NO_SYM of the order, also if it
 * is of another symbol than the view. */
static inline uint32_t nms_plan_view(const nms_terms *terms, const nms_view *view, const nms_order *order, nms_plan *plan)
{
    if (!terms || !view || !order || !plan) {
        return NMS_NULL;
    }
    nms_terms look = *terms;
    return nms_raw_plan_view(&look, view, order, plan);
}

/* Confirms a plan on a view, as nms_confirm does on the board that showed it. Any number of threads may call at once. A plan of
 * another version is doubted (K1, P1), and an order of another symbol too (K1, P2).
 * Codes, the first that holds: NMS_CLOSED; NMS_NO_VIEW; NMS_RANGE, NMS_NO_PART and NMS_NO_SYM if the numbers say no order and no
 * plan; NMS_DOUBTED, and then *doubt says why; NMS_OK. *doubt is written at NMS_OK and NMS_DOUBTED only. */
static inline uint32_t nms_confirm_view(const nms_terms *terms, const nms_view *view, const nms_order *order, const nms_plan *plan, nms_doubt *doubt)
{
    if (!terms || !view || !order || !plan || !doubt) {
        return NMS_NULL;
    }
    nms_terms look = *terms;
    return nms_raw_confirm_view(&look, view, order, plan, doubt);
}

/* Writes the protected quotations of a view that an execution at a price trades through, as nms_traded_through does on the
 * board that showed it. Any number of threads may call at once. Codes, the first that holds: NMS_NO_VIEW, NMS_RANGE (the
 * price). */
static inline uint32_t nms_through_view(const nms_view *view, uint64_t millionths, nms_through *through)
{
    return view && through ? nms_raw_through_view(view, millionths, through) : (uint32_t)NMS_NULL;
}

/* Writes a view with at most most[n] shares of participant n on one side, for each n below NMS_MOST_PARTS. 0 leaves no row of it.
 * Its row's size, or more, leaves the row as it is. Rows are ranked by what is left, and version, symbol and the other side stay.
 * It is for a caller whose own orders have taken shares that the quotes still show. What it writes is a view for nms_plan_view,
 * nms_confirm_view, nms_through_view and this call. A plan made or confirmed on it sends participant n at most most[n] shares, if
 * the side is the one that the order trades with: NMS_OFFER for a buyer. On the whole view the same plan may be doubted.
 * What is left of a row may be less than a round lot. It stays a row, protected as it was, so a plan takes it too: an order that
 * took a part of a displayed size owes the rest.
 * side: enum nms_side. Any number of threads may call at once. Codes, the first that holds: NMS_NO_VIEW, NMS_RANGE (the side). */
static inline uint32_t nms_reduce_view(const nms_view *view, uint8_t side, const uint32_t *most, nms_view *reduced)
{
    return view && most && reduced ? nms_raw_reduce_view(view, side, most, reduced) : (uint32_t)NMS_NULL;
}

#ifdef __cplusplus
}
#endif
#endif
