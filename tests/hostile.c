/* A hostile caller: calls each function of nms.h with each bad number, size, name, kind and state of the handle, with the
 * bytes of each text cut and altered, with random bytes as every struct, with more changes than tape_limit, and with each request
 * for memory refused in turn. Each call has to answer its code, and a refused one has to leave the board and the caller's structs as
 * they were. An allocator that counts shows that no call takes memory but nms_open and nms_setup_place, and that they give all
 * of it back.
 *
 * What a call is given ends at a page that can't be touched, so a byte too many ends the program. Link it with
 * -Wl,--wrap=malloc,--wrap=realloc,--wrap=calloc,--wrap=free,--wrap=nms_abi; tests/library.py runs it under the address and
 * undefined-behaviour sanitizers, and under valgrind.
 *
 *     hostile SETUP [ROUNDS]     the built-in setup; n rounds of random bytes, 20,000 by default
 *
 * Prints a line for each difference (the first forty), and last `N passed, M failed`.
 */
#define _GNU_SOURCE
#include <nms.h>
#include <stdio.h>
#include <stdlib.h>
#include <string.h>
#include <sys/mman.h>

static unsigned long passed, failed;

static void differs(const char *what, unsigned long got, unsigned long wanted)
{
    if (++failed <= 40)
        printf("DIFFERS: %s: %lu, and not %lu\n", what, got, wanted);
}

static void equals(unsigned long got, unsigned long wanted, const char *what)
{
    if (got == wanted)
        ++passed;
    else
        differs(what, got, wanted);
}

/* ---- the allocator that counts ---- */

void *__real_malloc(size_t size);
void *__real_realloc(void *at, size_t size);
void *__real_calloc(size_t count, size_t size);
void __real_free(void *at);

/* Requests so far, blocks that were not given back yet, and the request that is refused (0: none). */
static unsigned long requests, refuse_at;
static long blocks;

static int is_refused(void)
{
    return ++requests == refuse_at;
}

void *__wrap_malloc(size_t size)
{
    void *at = is_refused() ? NULL : __real_malloc(size);
    blocks += at != NULL;
    return at;
}

void *__wrap_calloc(size_t count, size_t size)
{
    void *at = is_refused() ? NULL : __real_calloc(count, size);
    blocks += at != NULL;
    return at;
}

void *__wrap_realloc(void *from, size_t size)
{
    void *at = is_refused() ? NULL : __real_realloc(from, size);
    blocks += from == NULL && at != NULL;
    return at;
}

void __wrap_free(void *at)
{
    blocks -= at != NULL;
    __real_free(at);
}

/* ---- the library's layout, which is another one now and then ---- */

uint32_t __real_nms_abi(void);
static uint32_t newer;

uint32_t __wrap_nms_abi(void)
{
    return __real_nms_abi() + newer;
}

/* ---- memory that ends at a page that can't be touched ---- */

enum { EDGES = 4, EDGE = 1 << 18 };
static unsigned char *edges[EDGES];

static void open_edges(void)
{
    for (int at = 0; at < EDGES; ++at) {
        unsigned char *whole = mmap(NULL, EDGE + 4096, PROT_READ | PROT_WRITE, MAP_PRIVATE | MAP_ANONYMOUS, -1, 0);
        if (whole == MAP_FAILED || mprotect(whole + EDGE, 4096, PROT_NONE) != 0)
            exit(2);
        edges[at] = whole + EDGE;
    }
}

/* That many last bytes of an edge, all of one value. */
static void *filled(int edge, size_t size, int fill)
{
    return memset(edges[edge] - size, fill, size);
}

/* The last bytes of an edge, copied from somewhere. */
static void *copied(int edge, const void *from, size_t size)
{
    return memmove(edges[edge] - size, from, size);
}

static int is_filled(const void *at, size_t size, int fill)
{
    const unsigned char *byte = at;
    for (size_t i = 0; i < size; ++i)
        if (byte[i] != (unsigned char)fill)
            return 0;
    return 1;
}

/* ---- boards ---- */

static char setup[1 << 16];
static size_t setup_bytes;

/* A sum of all that a board answers: its counts, and the views and openings of its symbols. */
static unsigned long state_of(nms_board *board)
{
    unsigned long sum = 1469598103934665603ul;
    nms_counts counts;
    if (nms_counts_of(board, &counts) != NMS_OK)
        return 0;
    for (size_t at = 0; at < sizeof counts; ++at)
        sum = (sum ^ ((unsigned char *)&counts)[at]) * 1099511628211ul;
    for (unsigned sym = 0; sym < counts.syms; ++sym) {
        nms_view view;
        nms_opening opening;
        if (nms_view_of(board, (uint16_t)sym, &view) != NMS_OK || nms_opening_of(board, (uint16_t)sym, &opening) != NMS_OK)
            return 0;
        for (size_t at = 0; at < sizeof view; ++at)
            sum = (sum ^ ((unsigned char *)&view)[at]) * 1099511628211ul;
        for (size_t at = 0; at < sizeof opening.count + opening.count * sizeof(nms_change); ++at)
            sum = (sum ^ ((unsigned char *)&opening)[at]) * 1099511628211ul;
    }
    return sum;
}

static nms_change quote(uint8_t part, uint16_t sym, uint64_t bid, uint32_t bid_shares, uint64_t offer, uint32_t offer_shares)
{
    nms_change change = { 0 };
    change.kind = NMS_QUOTE;
    change.part = part;
    change.sym = sym;
    change.bid_price = bid;
    change.bid_shares = bid_shares;
    change.offer_price = offer;
    change.offer_shares = offer_shares;
    return change;
}

/* Opens a board with some quotations on it. */
static void open_board(nms_board *board)
{
    const nms_change changes[] = {
        quote(0, 0, 99900, 200, 100000, 300), quote(1, 0, 99800, 700, 100000, 500), quote(2, 0, 100000, 150, 100100, 250),
        quote(3, 1, 5000, 1000, 5010, 800),   quote(0, 1, 5000, 1000, 5010, 90),
    };
    size_t applied;
    *board = (nms_board)NMS_BOARD_CLOSED;
    equals(nms_open(setup, setup_bytes, board), NMS_OK, "the setup opens");
    equals(nms_apply_all(board, changes, 5, &applied), NMS_OK, "five changes are applied");
}

static nms_order buy(uint16_t sym, uint32_t shares, uint64_t limit)
{
    nms_order order = { 0 };
    order.sym = sym;
    order.shares = shares;
    order.limit = limit;
    return order;
}

/* ---- states of the handle ---- */

/* Every call on a handle that is not open: NMS_CLOSED, the handle as it was, and nothing written. */
static void every_call_is_closed(nms_board *board, const char *what)
{
    const nms_board before = *board;
    const nms_change change = quote(0, 0, 99900, 200, 100000, 300);
    const nms_order order = buy(0, 100, 100000);
    const uint16_t sym = 0;
    unsigned char *out = filled(0, 4096, 0x5A);
    nms_plan *plan = filled(1, sizeof(nms_plan), 0);
    size_t *bytes = filled(2, sizeof(size_t), 0x5A), *place = filled(3, sizeof(size_t), 0x5A);
    const uint32_t codes[] = {
        nms_close(board),
        nms_counts_of(board, (nms_counts *)out),
        nms_find_part(board, "N", 1, out),
        nms_find_sym(board, "ABC", 3, (uint16_t *)out),
        nms_part_name(board, 0, (char *)out, 4096, bytes),
        nms_sym_name(board, 0, (char *)out, 4096, bytes),
        nms_apply(board, &change),
        nms_apply_all(board, &change, 1, bytes),
        nms_apply_best(board, &change, 1, (nms_best *)out, bytes),
        nms_apply_text(board, "X,N", 3),
        nms_apply_lines(board, "X,N\n", 4, bytes, place),
        nms_best_of(board, 0, (nms_best *)out),
        nms_best_all(board, &sym, 1, (nms_best *)out, bytes),
        nms_ranked(board, 0, NMS_BID, 0, (nms_row *)out),
        nms_rows_of(board, 0, NMS_BID, (nms_rows *)out),
        nms_view_of(board, 0, (nms_view *)out),
        nms_traded_through(board, 0, 10000000, (nms_through *)out),
        nms_plan_order(board, &order, (nms_plan *)out),
        nms_plan_all(board, &order, 1, (nms_plan *)out, bytes),
        nms_confirm(board, &order, plan, (nms_doubt *)out),
        nms_unit_cost(board, 0, NMS_BUY, 100000, (int64_t *)out),
        nms_plan_text(board, &order, plan, (char *)out, 4096, bytes),
        nms_read_plan(board, "END\n", 4, (nms_order *)out, plan),
        nms_opening_of(board, 0, (nms_opening *)out),
    };
    for (size_t at = 0; at < sizeof codes / sizeof codes[0]; ++at)
        equals(codes[at], NMS_CLOSED, what);
    equals(is_filled(out, 4096, 0x5A) && is_filled(bytes, sizeof *bytes, 0x5A) && is_filled(place, sizeof *place, 0x5A) &&
               is_filled(plan, sizeof *plan, 0), 1, what);
    equals(memcmp(board, &before, sizeof before) == 0, 1, what);
}

static void states(void)
{
    nms_board board = NMS_BOARD_CLOSED;
    every_call_is_closed(&board, "a handle that was never opened");
    for (int fill = 1; fill < 256; ++fill) {
        memset(&board, fill, sizeof board);
        every_call_is_closed(&board, "a handle of one byte, repeated");
    }
    for (int bit = 0; bit < 64; ++bit) {
        nms_board other;
        unsigned long before;
        open_board(&board);
        before = state_of(&board);
        other = board;
        other.mark ^= 1ul << bit;
        every_call_is_closed(&other, "a handle whose word has another bit");
        equals(state_of(&board), before, "its board");
        equals(nms_open(setup, setup_bytes, &board), NMS_OPEN_ALREADY, "a second open");
        equals(nms_open("nonsense", 8, &board), NMS_OPEN_ALREADY, "a second open with a bad setup");
        equals(state_of(&board), before, "the board after it");
        equals(nms_close(&board), NMS_OK, "a close");
        every_call_is_closed(&board, "a handle that was closed");
        equals(nms_close(&board), NMS_CLOSED, "a second close");
    }
}

/* ---- null pointers ---- */

static void nulls(nms_board *board)
{
    const unsigned long before = state_of(board);
    nms_change change = quote(0, 0, 99900, 200, 100000, 300);
    nms_order order = buy(0, 100, 100000), *out_order = filled(1, sizeof *out_order, 0x5A);
    nms_plan plan, *out = filled(0, sizeof *out, 0x5A);
    size_t *bytes = filled(2, sizeof *bytes, 0x5A);
    const uint32_t most = 0;
    char *text = (char *)out;
    equals(nms_plan_order(board, &order, &plan), NMS_OK, "an order is planned");
    const uint32_t codes[] = {
        nms_version(NULL, 9, bytes),
        nms_version(text, 9, NULL),
        nms_code_text(0, NULL, 9, bytes),
        nms_code_text(0, text, 9, NULL),
        nms_open(NULL, 1, board),
        nms_open(setup, setup_bytes, NULL),
        nms_setup_place(NULL, 1, (nms_place *)out),
        nms_setup_place(setup, setup_bytes, NULL),
        nms_close(NULL),
        nms_counts_of(NULL, (nms_counts *)text),
        nms_counts_of(board, NULL),
        nms_find_part(NULL, "N", 1, (uint8_t *)text),
        nms_find_part(board, NULL, 1, (uint8_t *)text),
        nms_find_part(board, "N", 1, NULL),
        nms_find_sym(NULL, "ABC", 3, (uint16_t *)out),
        nms_find_sym(board, NULL, 1, (uint16_t *)out),
        nms_find_sym(board, "ABC", 3, NULL),
        nms_part_name(NULL, 0, text, 9, bytes),
        nms_part_name(board, 0, NULL, 9, bytes),
        nms_part_name(board, 0, text, 9, NULL),
        nms_sym_name(NULL, 0, text, 9, bytes),
        nms_sym_name(board, 0, NULL, 9, bytes),
        nms_sym_name(board, 0, text, 9, NULL),
        nms_apply(NULL, &change),
        nms_apply(board, NULL),
        nms_apply_all(NULL, &change, 1, bytes),
        nms_apply_all(board, NULL, 1, bytes),
        nms_apply_all(board, &change, 1, NULL),
        nms_apply_best(NULL, &change, 1, (nms_best *)out, bytes),
        nms_apply_best(board, NULL, 1, (nms_best *)out, bytes),
        nms_apply_best(board, &change, 1, NULL, bytes),
        nms_apply_best(board, &change, 1, (nms_best *)out, NULL),
        nms_best_all(NULL, &change.sym, 1, (nms_best *)out, bytes),
        nms_best_all(board, NULL, 1, (nms_best *)out, bytes),
        nms_best_all(board, &change.sym, 1, NULL, bytes),
        nms_best_all(board, &change.sym, 1, (nms_best *)out, NULL),
        nms_plan_all(NULL, &order, 1, (nms_plan *)out, bytes),
        nms_plan_all(board, NULL, 1, (nms_plan *)out, bytes),
        nms_plan_all(board, &order, 1, NULL, bytes),
        nms_plan_all(board, &order, 1, (nms_plan *)out, NULL),
        nms_apply_text(NULL, "X,N", 3),
        nms_apply_text(board, NULL, 1),
        nms_apply_lines(NULL, "X,N", 3, bytes, (size_t *)out),
        nms_apply_lines(board, NULL, 1, bytes, (size_t *)out),
        nms_apply_lines(board, "X,N", 3, NULL, (size_t *)out),
        nms_apply_lines(board, "X,N", 3, bytes, NULL),
        nms_best_of(NULL, 0, (nms_best *)out),
        nms_best_of(board, 0, NULL),
        nms_ranked(NULL, 0, 0, 0, (nms_row *)out),
        nms_ranked(board, 0, 0, 0, NULL),
        nms_rows_of(NULL, 0, 0, (nms_rows *)out),
        nms_rows_of(board, 0, 0, NULL),
        nms_view_of(NULL, 0, (nms_view *)out),
        nms_view_of(board, 0, NULL),
        nms_traded_through(NULL, 0, 1, (nms_through *)out),
        nms_traded_through(board, 0, 1, NULL),
        nms_plan_order(NULL, &order, out),
        nms_plan_order(board, NULL, out),
        nms_plan_order(board, &order, NULL),
        nms_confirm(NULL, &order, &plan, (nms_doubt *)out),
        nms_confirm(board, NULL, &plan, (nms_doubt *)out),
        nms_confirm(board, &order, NULL, (nms_doubt *)out),
        nms_confirm(board, &order, &plan, NULL),
        nms_unit_cost(NULL, 0, 0, 100000, (int64_t *)out),
        nms_unit_cost(board, 0, 0, 100000, NULL),
        nms_plan_text(NULL, &order, &plan, text, 9, bytes),
        nms_plan_text(board, NULL, &plan, text, 9, bytes),
        nms_plan_text(board, &order, NULL, text, 9, bytes),
        nms_plan_text(board, &order, &plan, NULL, 9, bytes),
        nms_plan_text(board, &order, &plan, text, 9, NULL),
        nms_read_plan(NULL, "END\n", 4, out_order, out),
        nms_read_plan(board, NULL, 1, out_order, out),
        nms_read_plan(board, "END\n", 4, NULL, out),
        nms_read_plan(board, "END\n", 4, out_order, NULL),
        nms_opening_of(NULL, 0, (nms_opening *)out),
        nms_opening_of(board, 0, NULL),
        nms_reduce_view(NULL, NMS_BID, &most, (nms_view *)out),
        nms_reduce_view((nms_view *)out, NMS_BID, NULL, (nms_view *)out),
        nms_reduce_view((nms_view *)out, NMS_BID, &most, NULL),
    };
    for (size_t at = 0; at < sizeof codes / sizeof codes[0]; ++at) {
        equals(codes[at], NMS_NULL, "a null pointer");
        equals(is_filled(out, sizeof *out, 0x5A) && is_filled(bytes, sizeof *bytes, 0x5A), 1, "what a call with a null pointer wrote");
    }
    equals(state_of(board), before, "the board after null pointers");
}

/* A null pointer to nothing is an empty text, or an array of no changes: the answer is that of any other pointer. */
static void empties(nms_board *board)
{
    const unsigned long before = state_of(board);
    nms_board closed = NMS_BOARD_CLOSED;
    nms_place *place = filled(0, sizeof *place, 0x5A);
    size_t *applied = filled(2, sizeof *applied, 0x5A);
    unsigned char *out = filled(1, 2, 0x5A);
    nms_order *order = filled(1, sizeof *order, 0x5A);
    nms_plan *plan = filled(3, sizeof *plan, 0x5A);
    equals(nms_open(NULL, 0, &closed), NMS_C2_MISSING, "an open of no text");
    equals(nms_open(NULL, 0, board), NMS_OPEN_ALREADY, "a second open of no text");
    equals(nms_setup_place(NULL, 0, place), NMS_OK, "the place of no text's fault");
    equals(place->code == NMS_C2_MISSING && place->table == NMS_TOP && place->spare == 0, 1, "what that place says");
    equals(nms_apply_all(&closed, NULL, 0, applied), NMS_CLOSED, "no changes on a closed board");
    equals(is_filled(applied, sizeof *applied, 0x5A), 1, "how many were applied on it");
    equals(nms_apply_all(board, NULL, 0, applied), NMS_OK, "no changes");
    equals(*applied, 0, "how many of none were applied");
    equals(nms_apply_text(board, NULL, 0), NMS_L1_UNKNOWN_KIND, "an empty record");
    size_t *place_after = filled(0, sizeof *place_after, 0x5A);
    equals(nms_apply_lines(&closed, NULL, 0, applied, place_after), NMS_CLOSED, "no lines on a closed board");
    equals(is_filled(place_after, sizeof *place_after, 0x5A), 1, "the place after them");
    equals(nms_apply_lines(board, NULL, 0, applied, place_after), NMS_OK, "no lines");
    equals(*applied == 0 && *place_after == 0, 1, "how far no lines came");
    equals(nms_find_part(board, NULL, 0, out), NMS_NO_PART, "a participant with no name");
    equals(nms_find_sym(board, NULL, 0, (uint16_t *)out), NMS_NO_SYM, "a symbol with no name");
    equals(nms_read_plan(board, NULL, 0, order, plan), NMS_L11_BAD_PLAN_TEXT, "a plan of no text");
    equals(is_filled(order, sizeof *order, 0x5A) && is_filled(plan, sizeof *plan, 0x5A), 1, "what was read of it");
    equals(state_of(board), before, "the board after nothing");
}

/* A library of another layout: no board is opened and no struct is written. */
static void layouts(nms_board *board)
{
    nms_board *other = filled(0, sizeof *other, 0);
    nms_place *place = filled(1, sizeof *place, 0x5A);
    char text[NMS_CODE_TEXT_ROOM];
    size_t bytes;
    newer = 1;
    equals(nms_open(setup, setup_bytes, other), NMS_WRONG_ABI, "an open by a library of another layout");
    equals(nms_open(setup, setup_bytes, board), NMS_WRONG_ABI, "a second open by a library of another layout");
    equals(nms_open(setup, setup_bytes, NULL), NMS_NULL, "an open of no board by a library of another layout");
    equals(nms_setup_place(setup, setup_bytes, place), NMS_WRONG_ABI, "a place by a library of another layout");
    equals(is_filled(other, sizeof *other, 0) && is_filled(place, sizeof *place, 0x5A), 1, "what a library of another layout wrote");
    newer = 0;
    equals(nms_code_text(NMS_WRONG_ABI, text, sizeof text, &bytes), NMS_OK, "the text of its code");
    equals(strstr(text, "nms.h") != NULL && strlen(text) == bytes, 1, "what the text says");
}

/* ---- bad numbers ---- */

static nms_board *the_board;

static void change_gives(nms_change change, uint32_t wanted, const char *what)
{
    const unsigned long before = state_of(the_board);
    size_t *applied = filled(2, sizeof *applied, 0x5A);
    nms_change *at = copied(0, &change, sizeof change);
    equals(nms_apply(the_board, at), wanted, what);
    equals(memcmp(at, &change, sizeof change) == 0, 1, "the change that was applied");
    if (wanted != NMS_OK) {
        equals(nms_apply_all(the_board, at, 1, applied), wanted, what);
        equals(*applied, 0, "changes applied of one that is refused");
        equals(state_of(the_board), before, what);
    }
}

static void changes(nms_board *board)
{
    static const uint64_t bad_prices[] = { 100000000000, 100000000001, 1ul << 40, 1ul << 63, UINT64_MAX };
    static const uint32_t bad_shares[] = { 1000000000, 1000000001, 1u << 31, UINT32_MAX };
    nms_change good = quote(0, 0, 99900, 200, 100000, 300);
    the_board = board;
    for (size_t at = 0; at < sizeof bad_prices / sizeof bad_prices[0]; ++at) {
        change_gives(quote(0, 0, bad_prices[at], 200, 100000, 300), NMS_RANGE, "a bid that is too high");
        change_gives(quote(0, 0, 99900, 200, bad_prices[at], 300), NMS_RANGE, "an offer that is too high");
        change_gives(quote(200, 2000, bad_prices[at], 200, 100000, 300), NMS_RANGE, "the least code of three");
        change_gives(quote(0, 0, bad_prices[at], 0, 100000, 300), NMS_RANGE, "a bid that is too high, with no shares");
    }
    for (size_t at = 0; at < sizeof bad_shares / sizeof bad_shares[0]; ++at) {
        change_gives(quote(0, 0, 99900, bad_shares[at], 100000, 300), NMS_RANGE, "a bid for too many shares");
        change_gives(quote(0, 0, 99900, 200, 100000, bad_shares[at]), NMS_RANGE, "an offer of too many shares");
        change_gives(quote(0, 0, 0, bad_shares[at], 100000, 300), NMS_RANGE, "too many shares and no price");
    }
    change_gives(quote(0, 0, 0, 200, 100000, 300), NMS_RANGE, "shares without a price");
    change_gives(quote(0, 0, 99900, 0, 100000, 300), NMS_RANGE, "a price without shares");
    change_gives(quote(0, 0, 99900, 200, 0, 300), NMS_RANGE, "shares offered without a price");
    change_gives(quote(0, 0, 99900, 200, 100000, 0), NMS_RANGE, "a price of an offer without shares");
    for (unsigned part = 4; part < 256; ++part) {
        change_gives(quote((uint8_t)part, 0, 99900, 200, 100000, 300), NMS_NO_PART, "a quotation of a stranger");
        nms_change state = { .kind = NMS_STATE, .part = (uint8_t)part }, withdraw = { .kind = NMS_WITHDRAW, .part = (uint8_t)part };
        change_gives(state, NMS_NO_PART, "a state of a stranger");
        change_gives(withdraw, NMS_NO_PART, "a withdrawal of a stranger");
        state.sym = 2;
        change_gives(state, NMS_NO_PART, "a state of a stranger in a strange symbol");
    }
    for (unsigned sym = 2; sym < 65536; sym += sym < 1100 ? 1 : 997) {
        nms_change state = { .kind = NMS_STATE, .sym = (uint16_t)sym }, lot = { .kind = NMS_LOT, .sym = (uint16_t)sym, .lot = 40 };
        change_gives(quote(0, (uint16_t)sym, 99900, 200, 100000, 300), NMS_NO_SYM, "a quotation in a strange symbol");
        change_gives(state, NMS_NO_SYM, "a state in a strange symbol");
        change_gives(lot, NMS_NO_SYM, "a lot of a strange symbol");
    }
    for (unsigned number = 3; number < 256; ++number) {
        nms_change state = { .kind = NMS_STATE, .state = (uint8_t)number };
        good.state = (uint8_t)number;
        change_gives(good, NMS_RANGE, "a quotation of an unknown state");
        change_gives(state, NMS_RANGE, "an unknown state");
        state.part = 99;
        change_gives(state, NMS_RANGE, "an unknown state of a stranger");
    }
    good.state = 0;
    for (unsigned number = 4; number < 256; ++number) {
        good.kind = (uint8_t)number;
        change_gives(good, NMS_RANGE, "an unknown kind");
    }
    for (unsigned lot = 0; lot < 65536; lot = lot == 0 ? 1001 : lot + 113) {
        nms_change change = { .kind = NMS_LOT, .lot = (uint16_t)lot };
        change_gives(change, NMS_RANGE, "a lot out of range");
    }

    /* The fields that a kind does not use are ignored. */
    nms_change strange;
    memset(&strange, 0xFF, sizeof strange);
    strange.kind = NMS_WITHDRAW;
    strange.part = 3;
    change_gives(strange, NMS_OK, "a withdrawal with all else strange");
    strange.kind = NMS_LOT;
    strange.part = 0xFF;
    strange.sym = 1;
    strange.lot = 1000;
    change_gives(strange, NMS_OK, "a lot with all else strange");
    strange.kind = NMS_STATE;
    strange.part = 1;
    strange.sym = 0;
    strange.state = NMS_HALTED;
    change_gives(strange, NMS_OK, "a state with all else strange");

    /* The changes of an array before the first refused one are applied, and nothing after it. */
    nms_change many[3] = { quote(0, 0, 99900, 300, 100000, 300), quote(9, 0, 99900, 300, 100000, 300), quote(1, 0, 99900, 300, 100000, 300) };
    size_t *applied = filled(2, sizeof *applied, 0x5A);
    nms_counts before, after;
    nms_counts_of(board, &before);
    equals(nms_apply_all(board, copied(0, many, sizeof many), 3, applied), NMS_NO_PART, "an array whose second is refused");
    nms_counts_of(board, &after);
    equals(*applied, 1, "changes applied before it");
    equals(after.applied - before.applied, 1, "changes on the board");
    equals(nms_apply_all(board, copied(0, many, 0), 0, applied), NMS_OK, "an empty array");
    equals(*applied, 0, "changes applied of none");

    /* Likewise with the best rows after each, in an array that ends where the answers do. */
    nms_best *best = filled(1, 3 * sizeof *best, 0x5A), single;
    equals(nms_apply_best(board, copied(0, many, sizeof many), 3, best, applied), NMS_NO_PART, "the best after each of three changes");
    equals(*applied, 1, "changes applied before the one that is refused");
    nms_best_of(board, 0, &single);
    equals(memcmp(&best[0], &single, sizeof single) == 0, 1, "the best after the first");
    equals(is_filled(&best[1], 2 * sizeof *best, 0x5A), 1, "nothing is written after it");
    many[1] = many[2];
    many[1].kind = NMS_WITHDRAW;
    many[1].sym = 9;
    equals(nms_apply_best(board, copied(0, many, sizeof many), 3, best, applied), NMS_NO_SYM, "a withdrawal that names no symbol");
    nms_counts_of(board, &before);
    equals(before.applied - after.applied, 2, "it is not applied");
    equals(nms_apply_best(board, NULL, 0, NULL, applied), NMS_OK, "no changes, and no place");
    equals(*applied, 0, "the best after none");
    const uint16_t syms[3] = { 0, 9, 0 };
    best = filled(1, 3 * sizeof *best, 0x5A);
    equals(nms_best_all(board, copied(0, syms, sizeof syms), 3, best, applied), NMS_NO_SYM, "the best of symbols, the second of which is strange");
    nms_best_of(board, 0, &single);
    equals(*applied == 1 && memcmp(&best[0], &single, sizeof single) == 0, 1, "the best of the first");
    equals(is_filled(&best[1], 2 * sizeof *best, 0x5A), 1, "nothing is written of the others");
    equals(nms_best_all(board, NULL, 0, NULL, applied), NMS_OK, "the best of no symbols");
    nms_order orders[2] = { buy(0, 100, 100000), buy(0, 0, 100000) };
    nms_plan *plans = filled(1, 2 * sizeof *plans, 0x5A), alone;
    memset(&alone, 0, sizeof alone);
    equals(nms_plan_all(board, copied(0, orders, sizeof orders), 2, plans, applied), NMS_RANGE, "plans of orders, the second of which is wrong");
    equals(nms_plan_order(board, &orders[0], &alone), NMS_OK, "the first by itself");
    equals(*applied == 1 && memcmp(&plans[0], &alone, sizeof alone) == 0, 1, "the plan of the first");
    equals(is_filled(&plans[1], sizeof *plans, 0x5A), 1, "nothing is written of the second");
    equals(nms_plan_all(board, NULL, 0, NULL, applied), NMS_OK, "plans of no orders");
}

static void order_gives(nms_order order, uint32_t wanted, const char *what)
{
    const unsigned long before = state_of(the_board);
    nms_plan *plan = filled(1, sizeof *plan, 0x5A), made;
    nms_doubt *doubt = filled(2, sizeof *doubt, 0x5A);
    nms_order *at = copied(0, &order, sizeof order), good = buy(0, 100, 100000);
    char *text = filled(3, NMS_PLAN_TEXT_ROOM, 0x5A);
    equals(nms_plan_order(the_board, at, plan), wanted, what);
    equals(is_filled(plan, sizeof *plan, 0x5A), 1, what);
    equals(nms_plan_order(the_board, &good, &made), NMS_OK, "an order is planned");
    equals(nms_confirm(the_board, at, &made, doubt), wanted, what);
    equals(is_filled(doubt, sizeof *doubt, 0x5A), 1, what);
    doubt = filled(2, sizeof *doubt, 0x5A);
    equals(nms_plan_text(the_board, at, &made, text, NMS_PLAN_TEXT_ROOM, (size_t *)doubt), wanted, what);
    equals(is_filled(text, NMS_PLAN_TEXT_ROOM, 0x5A) && is_filled(doubt, sizeof *doubt, 0x5A), 1, what);
    equals(state_of(the_board), before, what);
}

static void orders(nms_board *board)
{
    static const uint64_t bad_limits[] = { 0, 100000000000, 1ul << 40, UINT64_MAX };
    static const uint32_t bad_shares[] = { 0, 1000000000, UINT32_MAX };
    nms_order order;
    the_board = board;
    for (size_t at = 0; at < sizeof bad_limits / sizeof bad_limits[0]; ++at)
        order_gives(buy(0, 100, bad_limits[at]), NMS_RANGE, "a limit out of range");
    for (size_t at = 0; at < sizeof bad_shares / sizeof bad_shares[0]; ++at)
        order_gives(buy(0, bad_shares[at], 100000), NMS_RANGE, "an order of shares out of range");
    for (unsigned number = 2; number < 256; ++number) {
        order = buy(0, 100, 100000);
        order.side = (uint8_t)number;
        order_gives(order, NMS_RANGE, "an unknown side");
        order = buy(0, 100, 100000);
        order.manual = (uint8_t)number;
        order_gives(order, NMS_RANGE, "manual is neither 0 nor 1");
    }
    for (unsigned sym = 2; sym < 65536; sym += sym < 1100 ? 7 : 997)
        order_gives(buy((uint16_t)sym, 100, 100000), NMS_NO_SYM, "an order of a strange symbol");
    for (unsigned bit = 4; bit < 32; ++bit) {
        order = buy(0, 100, 100000);
        order.self_help = 1u << bit | 1;
        order_gives(order, NMS_NO_PART, "self-help against a stranger");
        order.sym = 77;
        order_gives(order, NMS_NO_PART, "self-help against a stranger in a strange symbol");
        order.side = 7;
        order_gives(order, NMS_RANGE, "the least code of three");
    }
}

/* What has no order and no change: looks, names, costs, texts of codes. */
static void looks(nms_board *board)
{
    const unsigned long before = state_of(board);
    unsigned char *out = filled(0, 4096, 0x5A);
    for (unsigned sym = 2; sym < 65536; sym += sym < 1100 ? 1 : 499) {
        const uint16_t s = (uint16_t)sym;
        const uint32_t codes[] = {
            nms_best_of(board, s, (nms_best *)out),
            nms_ranked(board, s, NMS_OFFER, 0, (nms_row *)out),
            nms_rows_of(board, s, NMS_OFFER, (nms_rows *)out),
            nms_view_of(board, s, (nms_view *)out),
            nms_traded_through(board, s, 10000000, (nms_through *)out),
            nms_opening_of(board, s, (nms_opening *)out),
            nms_sym_name(board, s, (char *)out, 4096, (size_t *)out),
        };
        for (size_t at = 0; at < sizeof codes / sizeof codes[0]; ++at)
            equals(codes[at], NMS_NO_SYM, "a look at a strange symbol");
    }
    for (unsigned side = 2; side < 256; ++side) {
        equals(nms_ranked(board, 0, (uint8_t)side, 0, (nms_row *)out), NMS_RANGE, "a row of an unknown side");
        equals(nms_ranked(board, 9, (uint8_t)side, 255, (nms_row *)out), NMS_RANGE, "the least code of a row");
        equals(nms_rows_of(board, 0, (uint8_t)side, (nms_rows *)out), NMS_RANGE, "rows of an unknown side");
        equals(nms_rows_of(board, 9, (uint8_t)side, (nms_rows *)out), NMS_RANGE, "the least code of rows");
        equals(nms_unit_cost(board, 0, (uint8_t)side, 100000, (int64_t *)out), NMS_RANGE, "a cost of an unknown side");
    }
    for (unsigned place = 3; place < 256; ++place) {
        equals(nms_ranked(board, 0, NMS_BID, (uint8_t)place, (nms_row *)out), NMS_NONE, "a row that is not there");
        equals(nms_ranked(board, 9, NMS_BID, (uint8_t)place, (nms_row *)out), NMS_NO_SYM, "a row that is not there, of a strange symbol");
    }
    for (unsigned part = 4; part < 256; ++part) {
        equals(nms_part_name(board, (uint8_t)part, (char *)out, 4096, (size_t *)out), NMS_NO_PART, "the name of a stranger");
        equals(nms_unit_cost(board, (uint8_t)part, 0, 100000, (int64_t *)out), NMS_NO_PART, "the cost of a stranger");
        equals(nms_unit_cost(board, (uint8_t)part, 0, 0, (int64_t *)out), NMS_RANGE, "the least code of a cost");
    }
    equals(nms_unit_cost(board, 0, 0, 0, (int64_t *)out), NMS_RANGE, "the cost at no price");
    equals(nms_unit_cost(board, 0, 1, 100000000000, (int64_t *)out), NMS_RANGE, "the cost at too high a price");
    equals(nms_unit_cost(board, 0, 1, UINT64_MAX, (int64_t *)out), NMS_RANGE, "the cost at too high a price");
    equals(nms_traded_through(board, 0, 0, (nms_through *)out), NMS_RANGE, "an execution at no price");
    equals(nms_traded_through(board, 0, 10000000000000, (nms_through *)out), NMS_RANGE, "an execution at too high a price");
    equals(nms_traded_through(board, 9, UINT64_MAX, (nms_through *)out), NMS_RANGE, "the least code of an execution");
    equals(is_filled(out, 4096, 0x5A), 1, "what refused looks wrote");

    /* Names: none, too long, of zeros, of other letters, and with something after them. */
    static char longest[100000];
    memset(longest, 'N', sizeof longest);
    const struct { const char *text; size_t bytes; } names[] = {
        { "", 0 }, { "\0", 1 }, { "n", 1 }, { "NN", 2 }, { "N ", 2 }, { "N\0", 2 }, { "ab", 2 }, { "ABCD", 4 }, { "\xff\xfe", 2 },
        { longest, sizeof longest }, { longest, 4 }, { longest, 5 }, { longest, 8 }, { longest, 9 }, { longest, 32 },
    };
    for (size_t at = 0; at < sizeof names / sizeof names[0]; ++at) {
        const char *name = copied(1, names[at].text, names[at].bytes);
        equals(nms_find_part(board, name, names[at].bytes, out), NMS_NO_PART, "a name that is no participant");
        equals(nms_find_sym(board, name, names[at].bytes, (uint16_t *)out), NMS_NO_SYM, "a name that is no symbol");
    }
    equals(is_filled(out, 4096, 0x5A), 1, "what refused names wrote");

    /* Buffers: each room below what is needed is refused with nothing written, and that is enough. */
    char whole[NMS_PLAN_TEXT_ROOM];
    size_t need, told;
    nms_order order = buy(0, 900, 100100);
    nms_plan plan;
    equals(nms_plan_order(board, &order, &plan), NMS_OK, "an order is planned");
    equals(nms_plan_text(board, &order, &plan, whole, sizeof whole, &need), NMS_OK, "a text of a plan");
    for (size_t size = 0; size <= need + 1; ++size) {
        char *text = filled(3, size, 0x5A);
        told = 77;
        equals(nms_plan_text(board, &order, &plan, text, size, &told), size > need ? NMS_OK : NMS_ROOM, "a text of a plan in so much room");
        equals(size > need ? told == need && memcmp(text, whole, need + 1) == 0 : told == 77 && is_filled(text, size, 0x5A), 1,
               "what was written of a plan in so much room");
    }
    for (uint32_t code = 0; code < 200; ++code) {
        const int is_known = code <= NMS_NO_VIEW || (code >= 101 && code <= 111) || code == 114;
        const uint32_t answer = nms_code_text(code, whole, NMS_CODE_TEXT_ROOM, &need);
        equals(answer, is_known ? NMS_OK : NMS_NONE, "the text of a code");
        for (size_t size = 0; is_known && answer == NMS_OK && size <= need + 1; ++size) {
            char *text = filled(3, size, 0x5A);
            equals(nms_code_text(code, text, size, &told), size > need ? NMS_OK : NMS_ROOM, "the text of a code in so much room");
            equals(size > need ? text[need] == 0 : is_filled(text, size, 0x5A), 1, "what was written of a code's text");
        }
    }
    for (int bit = 8; bit < 32; ++bit)
        equals(nms_code_text(1u << bit, whole, sizeof whole, &need), NMS_NONE, "the text of no code");
    equals(nms_version(whole, 0, &need), NMS_ROOM, "a version in no room");
    equals(nms_version(whole, NMS_CODE_TEXT_ROOM, &need), NMS_OK, "a version");
    equals(strlen(whole), need, "the length of a version");
    equals(state_of(board), before, "the board after looks");
}

/* ---- plans that nobody made ---- */

static void plans(nms_board *board)
{
    const unsigned long before = state_of(board);
    nms_order order = buy(0, 700, 100100);
    nms_plan plan, *at;
    nms_doubt *doubt;
    uint32_t code;
    equals(nms_plan_order(board, &order, &plan), NMS_OK, "an order is planned");
    doubt = filled(2, sizeof *doubt, 0x5A);
    equals(nms_confirm(board, &order, copied(1, &plan, sizeof plan), doubt), NMS_OK, "a plan is confirmed");
    equals(is_filled(doubt, sizeof *doubt, 0), 1, "the doubt of a confirmed plan");

    for (int fill = 0; fill < 256; ++fill) {
        at = filled(1, sizeof *at, fill);
        code = nms_confirm(board, &order, at, doubt);
        equals(code == NMS_DOUBTED || code == NMS_RANGE || code == NMS_NO_PART, 1, "a plan of one byte, repeated");
    }
    for (unsigned count = 33; count < 300; count += 7) {
        at = copied(1, &plan, sizeof plan);
        at->legs = count;
        equals(nms_confirm(board, &order, at, doubt), NMS_RANGE, "a plan of more than 32 legs");
        at = copied(1, &plan, sizeof plan);
        at->cuts = UINT32_MAX - count;
        equals(nms_confirm(board, &order, at, doubt), NMS_RANGE, "a plan of more than 32 cuts");
    }
    for (unsigned number = 3; number < 300; ++number) {
        at = copied(1, &plan, sizeof plan);
        at->cut[0].kind = number;
        equals(nms_confirm(board, &order, at, doubt), NMS_RANGE, "a cut of an unknown kind");
    }
    for (unsigned part = 4; part < 256; ++part) {
        at = copied(1, &plan, sizeof plan);
        at->leg[0].part = (uint8_t)part;
        equals(nms_confirm(board, &order, at, doubt), NMS_NO_PART, "a leg of a stranger");
    }
    /* Each bit that a plan's meaning rests on, flipped one at a time. */
    for (size_t byte = 0; byte < sizeof plan; ++byte)
        for (int bit = 0; bit < 8; ++bit) {
            const size_t legs = offsetof(nms_plan, leg), cuts = offsetof(nms_plan, cut);
            int means = byte < offsetof(nms_plan, spare);
            if (byte >= legs && byte < legs + plan.legs * sizeof(nms_leg))
                means = (byte - legs) % sizeof(nms_leg) < offsetof(nms_leg, spare_a);
            if (byte >= cuts && byte < cuts + plan.cuts * sizeof(nms_cut)) {
                const size_t cut = (byte - cuts) / sizeof(nms_cut), in = (byte - cuts) % sizeof(nms_cut);
                means = in < 8 || (in >= 16 && in < 20) || (in < 16 && plan.cut[cut].kind == NMS_MARGINAL);
            }
            at = copied(1, &plan, sizeof plan);
            ((unsigned char *)at)[byte] ^= (unsigned char)(1 << bit);
            code = nms_confirm(board, &order, at, doubt);
            if (means)
                equals(code == NMS_DOUBTED || code == NMS_RANGE || code == NMS_NO_PART, 1, "a plan with one bit turned");
            else
                equals(code, NMS_OK, "a plan with a bit turned that means nothing");
        }
    equals(state_of(board), before, "the board after forged plans");

    /* Its text, cut at each byte, and with each byte altered in five ways. */
    char whole[NMS_PLAN_TEXT_ROOM];
    size_t bytes;
    equals(nms_plan_text(board, &order, &plan, whole, sizeof whole, &bytes), NMS_OK, "the text of a plan");
    for (size_t size = 0; size < bytes; ++size) {
        nms_order *out_order = filled(2, sizeof *out_order, 0x5A);
        at = filled(1, sizeof *at, 0x5A);
        code = nms_read_plan(board, copied(3, whole, size), size, out_order, at);
        equals(code, size == bytes - 1 ? NMS_OK : NMS_L11_BAD_PLAN_TEXT, "a text of a plan that is cut");
        if (code != NMS_OK)
            equals(is_filled(out_order, sizeof *out_order, 0x5A) && is_filled(at, sizeof *at, 0x5A), 1, "what a cut text wrote");
    }
    static const unsigned char others[] = { 0, '\n', ',', '9', 0xFF };
    for (size_t place = 0; place < bytes; ++place)
        for (size_t other = 0; other < sizeof others; ++other) {
            nms_order *out_order = filled(2, sizeof *out_order, 0x5A);
            char *text = copied(3, whole, bytes);
            text[place] = (char)others[other];
            at = filled(1, sizeof *at, 0x5A);
            code = nms_read_plan(board, text, bytes, out_order, at);
            equals(code == NMS_OK || code == NMS_L11_BAD_PLAN_TEXT, 1, "a text of a plan with a byte altered");
            if (code == NMS_OK) {
                nms_doubt why;
                code = nms_confirm(board, out_order, at, &why);
                equals(code == NMS_OK || code == NMS_DOUBTED, 1, "a plan that was read");
            } else
                equals(is_filled(out_order, sizeof *out_order, 0x5A) && is_filled(at, sizeof *at, 0x5A), 1, "what an altered text wrote");
        }
    /* The most bytes that a text may have, and one more: with blank lines after the plan, in one field, and only of commas. */
    static char longest[NMS_PLAN_TEXT_ROOM + 1];
    for (size_t size = sizeof longest - 2; size <= sizeof longest; ++size) {
        const uint32_t too_long = size > NMS_PLAN_TEXT_ROOM ? NMS_RANGE : NMS_OK;
        nms_order *out_order = filled(2, sizeof *out_order, 0x5A);
        at = filled(1, sizeof *at, 0x5A);
        memset(longest, '\n', sizeof longest);
        memcpy(longest, whole, bytes);
        equals(nms_read_plan(board, copied(3, longest, size), size, out_order, at), too_long, "a text with blank lines behind the plan");
        equals(is_filled(out_order, sizeof *out_order, 0x5A) && is_filled(at, sizeof *at, 0x5A), too_long != NMS_OK, "what it wrote");
        for (int other = 0; other < 3; ++other) {
            memset(longest, ",N\""[other], sizeof longest);
            code = nms_read_plan(board, copied(3, longest, size), size, out_order, at);
            equals(code, too_long ? too_long : (uint32_t)NMS_L11_BAD_PLAN_TEXT, "a text of one byte, repeated");
        }
    }
    equals(state_of(board), before, "the board after texts of plans");
}

/* ---- records ---- */

static void records(nms_board *board)
{
    static const struct { const char *text; uint32_t code; } bad[] = {
        { "", NMS_L1_UNKNOWN_KIND }, { "\n", NMS_L1_UNKNOWN_KIND }, { "Z,N", NMS_L1_UNKNOWN_KIND }, { "F", NMS_L1_UNKNOWN_KIND },
        { "O,0,B,ABC,100,10.00", NMS_L1_UNKNOWN_KIND }, { "N,0,ABC", NMS_L1_UNKNOWN_KIND }, { "q,N", NMS_L1_UNKNOWN_KIND },
        { "Q,N", NMS_L2_FIELD_COUNT }, { "X,N,N", NMS_L2_FIELD_COUNT }, { "Q,NONE,ABC,A,9.99,100,10.00,100", NMS_L3_UNKNOWN_PARTICIPANT },
        { "X,", NMS_L3_UNKNOWN_PARTICIPANT }, { "S,N,XYZ,A", NMS_L4_UNKNOWN_SYMBOL }, { "R,XYZ,100", NMS_L4_UNKNOWN_SYMBOL },
        { "S,N,ABC,Q", NMS_L5_BAD_STATE }, { "Q,N,ABC,A,9.99999,100,10.00,100", NMS_L6_BAD_PRICE },
        { "Q,N,ABC,A,-9,100,10.00,100", NMS_L6_BAD_PRICE }, { "Q,N,ABC,A,9.99,1000000000,10.00,100", NMS_L7_BAD_SHARES },
        { "Q,N,ABC,A,9.99,,10.00,100", NMS_L8_HALF_SIDE }, { "R,ABC,0", NMS_L14_BAD_LOT }, { "R,ABC,1001", NMS_L14_BAD_LOT },
    };
    const unsigned long before = state_of(board);
    for (size_t at = 0; at < sizeof bad / sizeof bad[0]; ++at) {
        const size_t bytes = strlen(bad[at].text);
        equals(nms_apply_text(board, copied(0, bad[at].text, bytes), bytes), bad[at].code, bad[at].text);
        equals(state_of(board), before, bad[at].text);
    }
    /* The most bytes that a record may have, and one more. */
    static char longest[200000];
    memset(longest, 'N', sizeof longest);
    memcpy(longest, "X,", 2);
    equals(nms_apply_text(board, copied(0, longest, 255), 255), NMS_L3_UNKNOWN_PARTICIPANT, "a record of 255 bytes");
    equals(nms_apply_text(board, copied(0, longest, 256), 256), NMS_RANGE, "a record of 256 bytes");
    memset(longest, ',', sizeof longest);
    longest[0] = 'Q';
    equals(nms_apply_text(board, copied(0, longest, sizeof longest), sizeof longest), NMS_RANGE, "a record of commas");
    memset(longest, 'N', sizeof longest);
    memcpy(longest, "X,", 2);
    equals(nms_apply_text(board, copied(0, longest, sizeof longest), sizeof longest), NMS_RANGE, "a record of 200,000 bytes");
    equals(state_of(board), before, "the board after long records");

    /* A record, cut at each byte and with each byte made each other byte: applied, or refused with nothing altered. */
    static const char record[] = "Q,N,ABC,A,9.99,300,10.00,300";
    nms_counts counts, after;
    for (size_t place = 0; place < sizeof record - 1; ++place)
        for (int byte = -1; byte < 256; ++byte) {
            const size_t bytes = byte < 0 ? place : sizeof record - 1;
            char *text = copied(0, record, bytes);
            unsigned long now = state_of(board);
            unsigned long asked = requests;
            uint32_t code;
            if (byte >= 0)
                text[place] = (char)byte;
            nms_counts_of(board, &counts);
            code = nms_apply_text(board, text, bytes);
            nms_counts_of(board, &after);
            equals(requests, asked, "requests for memory of a record");
            equals(code == NMS_OK || (code >= 101 && code <= 108), 1, "a record with a byte altered");
            if (code == NMS_OK)
                equals(after.applied, counts.applied + 1, "changes of an applied record");
            else
                equals(state_of(board), now, "the board after a refused record");
        }
}

/* ---- many records as one text ---- */

/* A text of lines does what its records do one after another, up to the first that is refused, and says where that one begins. */
static void lines(nms_board *board)
{
    static const struct { const char *text; uint32_t code; size_t applied, at; } texts[] = {
        { "", NMS_OK, 0, 0 }, { "X,N", NMS_OK, 1, 3 }, { "X,N\n", NMS_OK, 1, 4 }, { "X,N\r\n", NMS_OK, 1, 5 },
        { "X,N\nX,P", NMS_OK, 2, 7 }, { "X,N\r\nX,P\r\n", NMS_OK, 2, 10 }, { "Q,N,ABC,A,9.99,200,10.00,300\nX,P\nX,Y\n", NMS_OK, 3, 37 },
        { "\n", NMS_L1_UNKNOWN_KIND, 0, 0 }, { "\nX,N", NMS_L1_UNKNOWN_KIND, 0, 0 }, { "\r\n", NMS_L1_UNKNOWN_KIND, 0, 0 },
        { "X,N\n\n", NMS_L1_UNKNOWN_KIND, 1, 4 }, { "X,N\r\n\r\nX,N", NMS_L1_UNKNOWN_KIND, 1, 5 }, { "X,N\n\nX,N", NMS_L1_UNKNOWN_KIND, 1, 4 },
        { "X,N\r", NMS_L3_UNKNOWN_PARTICIPANT, 0, 0 }, { "X,N\r\r\n", NMS_L3_UNKNOWN_PARTICIPANT, 0, 0 },
        { "X,N\rX,P\n", NMS_L2_FIELD_COUNT, 0, 0 }, { "X,N\nX,P\r", NMS_L3_UNKNOWN_PARTICIPANT, 1, 4 },
        { "X,N\nX,NONE\nX,P\n", NMS_L3_UNKNOWN_PARTICIPANT, 1, 4 }, { "F\nX,N\n", NMS_L1_UNKNOWN_KIND, 0, 0 },
        { "X,N\nR,ABC,0", NMS_L14_BAD_LOT, 1, 4 },
    };
    for (size_t which = 0; which < sizeof texts / sizeof texts[0]; ++which) {
        const size_t bytes = strlen(texts[which].text);
        size_t *applied = filled(1, sizeof *applied, 0x5A), *at = filled(2, sizeof *at, 0x5A);
        nms_counts counts, after;
        const unsigned long asked = requests;
        nms_counts_of(board, &counts);
        equals(nms_apply_lines(board, copied(0, texts[which].text, bytes), bytes, applied, at), texts[which].code, texts[which].text);
        equals(*applied, texts[which].applied, texts[which].text);
        equals(*at, texts[which].at, texts[which].text);
        nms_counts_of(board, &after);
        equals(after.applied, counts.applied + texts[which].applied, "changes of lines that were applied");
        equals(requests, asked, "requests for memory of lines");
    }

    /* A long line is refused where it stands, whatever its length. */
    static char longest[70000];
    for (size_t size = 254; size <= 257; ++size) {
        size_t *applied = filled(1, sizeof *applied, 0x5A), *at = filled(2, sizeof *at, 0x5A);
        memset(longest, 'N', sizeof longest);
        memcpy(longest, "X,N\nX,", 6);
        longest[4 + size] = '\n';
        equals(nms_apply_lines(board, copied(0, longest, sizeof longest), sizeof longest, applied, at),
               size > 255 ? NMS_RANGE : NMS_L3_UNKNOWN_PARTICIPANT, "a long line");
        equals(*applied == 1 && *at == 4, 1, "where a long line begins");
    }
    memset(longest, 'N', sizeof longest);
    equals(nms_apply_lines(board, copied(0, longest, sizeof longest), sizeof longest, filled(1, sizeof(size_t), 0), filled(2, sizeof(size_t), 0)),
           NMS_RANGE, "one line of 70,000 bytes");

    /* Lines with each byte made each other byte, beside their records, which are applied one after another. */
    static const char whole[] = "Q,N,ABC,A,9.99,300,10.00,300\r\nX,P\nR,ABC,40";
    for (size_t place = 0; place < sizeof whole - 1; ++place)
        for (int byte = 0; byte < 256; ++byte) {
            const size_t bytes = sizeof whole - 1;
            size_t *applied = filled(1, sizeof *applied, 0x5A), *at = filled(2, sizeof *at, 0x5A), from = 0, many = 0;
            char *text = copied(0, whole, bytes);
            nms_counts counts, after;
            uint32_t code = NMS_OK, single = NMS_OK;
            text[place] = (char)byte;
            nms_counts_of(board, &counts);
            code = nms_apply_lines(board, text, bytes, applied, at);
            nms_counts_of(board, &after);
            equals(after.applied, counts.applied + *applied, "changes of lines with a byte altered");
            while (from < bytes && single == NMS_OK) {
                const char *end = memchr(text + from, '\n', bytes - from);
                const size_t size = end == NULL ? bytes - from : (size_t)(end - text) + 1 - from;
                single = nms_apply_text(board, text + from, size);
                if (single == NMS_OK) {
                    from += size;
                    ++many;
                }
            }
            equals(code, single, "the code of lines with a byte altered");
            equals(*applied == many && *at == from, 1, "how far lines with a byte altered came");
        }
}

/* ---- a short tape ---- */

/* The library keeps no tape: a board takes more changes than its setup's tape_limit, and its counts say so. */
static void limits(void)
{
    static const char small[] =
        "tape_limit = 3\nqueue = 2\ndesks = 1\n[[participant]]\nname = \"N\"\nfeed = \"A\"\nfee = 0\nrate = 0\n"
        "[[symbol]]\nname = \"ABC\"\nlot = 1\n";
    nms_board board = NMS_BOARD_CLOSED;
    nms_change change = quote(0, 0, 99900, 1, 100000, 1), stranger = quote(1, 0, 99900, 1, 100000, 1);
    nms_change many[4] = { change, change, change, change };
    nms_counts counts;
    size_t applied;
    equals(nms_open(small, sizeof small - 1, &board), NMS_OK, "a setup of three changes");
    equals(nms_apply_all(&board, many, 4, &applied), NMS_OK, "four changes on it");
    equals(applied, 4, "how many were applied");
    for (unsigned long again = 0; again < 3; ++again) {
        equals(nms_apply(&board, &change), NMS_OK, "a change beyond tape_limit");
        equals(nms_apply_text(&board, "X,N", 3), NMS_OK, "a record beyond tape_limit");
        equals(nms_apply(&board, &stranger), NMS_NO_PART, "a stranger's change beyond tape_limit");
        equals(nms_apply_text(&board, "X,P", 3), NMS_L3_UNKNOWN_PARTICIPANT, "a bad record beyond tape_limit");
        equals(nms_counts_of(&board, &counts), NMS_OK, "the counts");
        equals(counts.applied, 6 + 2 * again, "changes beyond tape_limit");
        equals(counts.room, (1ul << 63) - counts.applied, "how many more may be applied");
    }
    nms_close(&board);
}

/* ---- setups, and memory ---- */

/* Where a text is no setup: the code is that of nms_open, and every number is within its range. */
static void place_gives(const char *text, size_t bytes, uint32_t code)
{
    nms_place *place = filled(1, sizeof *place, 0x5A);
    const long held = blocks;
    equals(nms_setup_place(text, bytes, place), NMS_OK, "the place of a setup's fault");
    equals((unsigned long)blocks, (unsigned long)held, "blocks of memory after it");
    equals(place->code, code, "the code of a place beside that of nms_open");
    if (code == NMS_OK)
        equals(is_filled(place, sizeof *place, 0), 1, "the place of no fault");
    else if (place->table == NMS_NO_DOCUMENT)
        equals(code == NMS_C1_NOT_TOML && place->spot == 0 && place->element == 0 && place->twin == 0 && place->start <= place->end &&
                   place->end <= bytes, 1, "the place of a text that is no document");
    else
        equals(place->table <= NMS_SYMBOL && place->spot >= NMS_TAPE_LIMIT && place->spot <= NMS_NO_TABLE && place->start == 0 &&
                   place->end == 0 && (place->table != NMS_TOP || place->element == 0) && (place->twin == 0 || place->twin < place->element),
               1, "the numbers of a place");
    equals(place->spare, 0, "the spare number of a place");
}

static void setups(void)
{
    /* Cut at each byte, each byte altered in four ways, and random bytes. */
    static const unsigned char others[] = { 0, '"', '9', 0xFF };
    for (size_t size = 0; size <= setup_bytes; ++size)
        for (size_t other = 0; other <= sizeof others; ++other) {
            const size_t bytes = other == sizeof others ? size : setup_bytes;
            char *text = copied(0, setup, bytes);
            nms_board *board = filled(1, sizeof *board, 0);
            const long held = blocks;
            uint32_t code;
            if (other < sizeof others) {
                if (size == setup_bytes)
                    continue;
                text[size] = (char)others[other];
            }
            code = nms_open(text, bytes, board);
            equals(code <= NMS_C8_TOO_MANY, 1, "a setup with a byte altered");
            if (code == NMS_OK)
                equals(nms_close(board), NMS_OK, "a close");
            equals(is_filled(board, sizeof *board, 0), 1, "the handle of a setup that is refused");
            equals((unsigned long)blocks, (unsigned long)held, "blocks of memory after a setup");
            place_gives(text, bytes, code);
        }
    equals(nms_open("", 0, &(nms_board)NMS_BOARD_CLOSED), NMS_C2_MISSING, "an empty setup");
    equals(nms_open("\xff\xfe", 2, &(nms_board)NMS_BOARD_CLOSED), NMS_C1_NOT_TOML, "a setup that is not UTF-8");
}

/* Each request of a call refused in turn: NMS_NO_MEMORY, nothing kept, nothing written. */
static void memory(void)
{
    const long held = blocks;
    unsigned long of_open, of_place, from = requests;
    nms_board board = NMS_BOARD_CLOSED;
    equals(nms_open(setup, setup_bytes, &board), NMS_OK, "an open");
    of_open = requests - from;
    equals(nms_close(&board), NMS_OK, "a close");
    equals((unsigned long)blocks, (unsigned long)held, "blocks of memory after a close");
    for (unsigned long at = 1; at <= of_open; ++at) {
        memset(&board, 0, sizeof board);
        refuse_at = requests + at;
        equals(nms_open(setup, setup_bytes, &board), NMS_NO_MEMORY, "an open with a request for memory refused");
        refuse_at = 0;
        equals((unsigned long)blocks, (unsigned long)held, "blocks of memory after that open");
        equals(is_filled(&board, sizeof board, 0), 1, "the handle after that open");
        every_call_is_closed(&board, "a handle after that open");
    }
    /* The place of a fault, which takes memory too. */
    setup[0] ^= 1;
    const uint32_t code = nms_open(setup, setup_bytes, &board);
    from = requests;
    place_gives(setup, setup_bytes, code);
    of_place = requests - from;
    for (unsigned long at = 1; at <= of_place; ++at) {
        nms_place *place = filled(1, sizeof *place, 0x5A);
        refuse_at = requests + at;
        equals(nms_setup_place(setup, setup_bytes, place), NMS_NO_MEMORY, "a place with a request for memory refused");
        refuse_at = 0;
        equals((unsigned long)blocks, (unsigned long)held, "blocks of memory after that place");
        equals(is_filled(place, sizeof *place, 0x5A), 1, "what that place wrote");
    }
    setup[0] ^= 1;
    printf("an open asks for memory %lu times, a setup's place %lu times\n", of_open, of_place);
}

/* ---- random bytes ---- */

static uint64_t seed = 0x9E3779B97F4A7C15ul;

static uint64_t draw(void)
{
    seed ^= seed << 13;
    seed ^= seed >> 7;
    seed ^= seed << 17;
    return seed;
}

static void scatter(void *at, size_t size)
{
    for (size_t i = 0; i < size; ++i)
        ((unsigned char *)at)[i] = (unsigned char)(draw() >> 29);
}

/* Every struct, in and out, ends at a page that can't be touched. */
/* Fewer shares of what a board shows, again of what is left, and of numbers that were altered. */
static void reduce(nms_board *board, uint16_t sym, uint8_t side)
{
    nms_view *view = filled(0, sizeof *view, 0), *left = filled(1, sizeof *left, 0x5A);
    uint32_t *most = filled(2, NMS_MOST_PARTS * sizeof *most, 0), code;
    scatter(most, NMS_MOST_PARTS * sizeof *most);
    for (unsigned at = 0; at < NMS_MOST_PARTS; ++at)
        most[at] %= draw() % 3 ? 1000 : UINT32_MAX;
    /* Of a strange symbol the numbers are all 0, as those of a board with nothing on it. */
    nms_view_of(board, sym, view);
    code = nms_reduce_view(view, side, most, left);
    equals(code, side <= NMS_OFFER ? NMS_OK : NMS_RANGE, "fewer shares of a random board");
    if (code == NMS_OK) {
        nms_view *again = filled(3, sizeof *again, 0x5A);
        view = copied(0, left, sizeof *left);
        equals(nms_reduce_view(view, side, most, again), NMS_OK, "fewer shares of what is left");
        equals(memcmp(again, left, sizeof *left) == 0, 1, "what is left stays");
    }
    ((unsigned char *)view)[draw() % sizeof *view] ^= (unsigned char)(1u << draw() % 8);
    left = filled(1, sizeof *left, 0x5A);
    code = nms_reduce_view(view, side, most, left);
    equals(code == NMS_OK || code == NMS_NO_VIEW || (code == NMS_RANGE && side > NMS_OFFER), 1, "fewer shares of altered numbers");
    equals(code == NMS_OK || is_filled(left, sizeof *left, 0x5A), 1, "what a refused call wrote");
}

static void random_bytes(unsigned long rounds)
{
    nms_board board;
    unsigned long applied = 0, planned = 0, unconfirmed = 0;
    open_board(&board);
    for (unsigned long round = 0; round < rounds; ++round) {
        nms_change *change = filled(0, sizeof *change, 0);
        nms_order *order;
        nms_plan *plan;
        nms_doubt *doubt;
        nms_counts counts;
        char *text;
        uint32_t code;
        size_t bytes;
        const unsigned long from = requests;
        const uint16_t sym = (uint16_t)(draw() % 9 ? draw() & 1 : draw());
        const uint8_t side = (uint8_t)(draw() % 9 ? draw() & 1 : draw());
        scatter(change, sizeof *change);
        /* Now and then numbers that may be right, so that some calls go on. */
        if (draw() % 8) {
            change->kind &= 3;
            change->part &= 3;
            change->sym &= 1;
            change->state %= 3;
            change->lot = (uint16_t)(1 + change->lot % 1000);
            change->bid_price %= 200000;
            change->offer_price %= 200000;
            change->bid_shares %= 3000;
            change->offer_shares %= 3000;
        }
        code = nms_apply(&board, change);
        equals(code == NMS_OK || (code >= NMS_RANGE && code <= NMS_NO_SYM), 1, "a random change");
        applied += code == NMS_OK;
        order = filled(0, sizeof *order, 0);
        scatter(order, sizeof *order);
        if (draw() % 8) {
            order->side &= 1;
            order->manual &= 1;
            order->sym &= 1;
            order->self_help &= 15;
            order->limit = 1 + order->limit % 200000;
            order->shares = 1 + order->shares % 5000;
        }
        plan = filled(1, sizeof *plan, 0x5A);
        doubt = filled(2, sizeof *doubt, 0x5A);
        code = nms_plan_order(&board, order, plan);
        equals(code == NMS_OK || (code >= NMS_RANGE && code <= NMS_NO_SYM), 1, "a random order");
        if (code == NMS_OK) {
            ++planned;
            unconfirmed += nms_confirm(&board, order, plan, doubt) != NMS_OK;
            text = filled(3, NMS_PLAN_TEXT_ROOM, 0x5A);
            equals(nms_plan_text(&board, order, plan, text, NMS_PLAN_TEXT_ROOM, &bytes), NMS_OK, "the text of a random plan");
            text = copied(3, text, bytes);
            equals(nms_read_plan(&board, text, bytes, order, plan), NMS_OK, "the reading of a random plan");
            unconfirmed += nms_confirm(&board, order, plan, doubt) != NMS_OK;
        }
        scatter(plan, draw() % sizeof *plan);
        code = nms_confirm(&board, order, plan, doubt);
        equals(code == NMS_OK || code == NMS_DOUBTED || (code >= NMS_RANGE && code <= NMS_NO_SYM), 1, "a random plan");
        nms_plan_text(&board, order, plan, filled(3, NMS_PLAN_TEXT_ROOM, 0x5A), NMS_PLAN_TEXT_ROOM, &bytes);
        nms_best_of(&board, sym, filled(3, sizeof(nms_best), 0x5A));
        nms_ranked(&board, sym, side, (uint8_t)(draw() % 7), filled(3, sizeof(nms_row), 0x5A));
        nms_rows_of(&board, sym, side, filled(3, sizeof(nms_rows), 0x5A));
        nms_view_of(&board, sym, filled(3, sizeof(nms_view), 0x5A));
        nms_traded_through(&board, sym, draw() % 9 ? draw() % 20000000 : draw(), filled(3, sizeof(nms_through), 0x5A));
        reduce(&board, sym, side);
        order = filled(0, sizeof *order, 0);
        plan = filled(1, sizeof *plan, 0x5A);
        nms_opening_of(&board, sym, filled(3, sizeof(nms_opening), 0x5A));
        nms_unit_cost(&board, (uint8_t)(draw() % 6), side, draw() % 9 ? draw() % 200000 : draw(), filled(3, sizeof(int64_t), 0x5A));
        nms_counts_of(&board, filled(3, sizeof(nms_counts), 0x5A));
        bytes = draw() % 64;
        text = filled(3, bytes, 0);
        scatter(text, bytes);
        nms_apply_text(&board, text, bytes);
        {
            size_t *many = filled(1, sizeof *many, 0), *at = filled(2, sizeof *at, 0);
            nms_apply_lines(&board, text, bytes, many, at);
            equals(*many <= *at && *at <= bytes, 1, "how far random lines came");
        }
        plan = filled(1, sizeof *plan, 0x5A);
        nms_read_plan(&board, text, bytes, order, plan);
        equals(requests, from, "requests for memory of calls on an open board");
        nms_counts_of(&board, &counts);
        /* A new board now and then, so that sides are empty at times. */
        if (counts.applied >= 1000) {
            nms_close(&board);
            open_board(&board);
        }
    }
    equals(unconfirmed, 0, "plans of random boards that were not confirmed");
    printf("of %lu rounds of random bytes %lu changes were applied and %lu orders planned\n", rounds, applied, planned);
    nms_close(&board);
}

int main(int count, char **words)
{
    nms_board board;
    unsigned long from;
    long held;
    FILE *file = count > 1 ? fopen(words[1], "rb") : NULL;
    if (file == NULL)
        return 2;
    setup_bytes = fread(setup, 1, sizeof setup, file);
    fclose(file);
    setvbuf(stdout, NULL, _IOLBF, 4096);
    open_edges();
    held = blocks;
    printf("a hostile caller of version %u of the layout\n", (unsigned)nms_abi());

    states();
    open_board(&board);
    from = requests;
    nulls(&board);
    changes(&board);
    equals(requests, from, "requests for memory of calls on an open board");
    empties(&board);
    layouts(&board);
    equals(nms_close(&board), NMS_OK, "a close");
    open_board(&board);
    from = requests;
    orders(&board);
    looks(&board);
    plans(&board);
    equals(requests, from, "requests for memory of calls on an open board");
    records(&board);
    lines(&board);
    equals(nms_close(&board), NMS_OK, "a close");
    limits();
    setups();
    memory();
    random_bytes(count > 2 ? strtoul(words[2], NULL, 10) : 20000);
    equals((unsigned long)blocks, (unsigned long)held, "blocks of memory at the end");
    printf("%lu passed, %lu failed\n", passed, failed);
    return failed != 0;
}
