/* Compares include/nms.h with what the library really reads and writes, since nothing else compares the two. The header's
 * own assertions check only the header; here every struct is seen from the library's side.
 *
 *   - What a call writes: the struct is filled once with one byte and once with another, between guards, and the call is made
 *     twice. The library wrote exactly the struct if both are the same, byte for byte, and the guards are as they were.
 *   - What a call reads: each field has a value that no other has, and is found again in an answer.
 *
 *     sizes SETUP     the built-in setup; prints a line for each difference, and last `N passed, M failed`
 */
#include <nms.h>
#include <stdio.h>
#include <stdlib.h>
#include <string.h>

enum { GUARD = 4096 };

static unsigned passed, failed;

static void holds(int fact, const char *what)
{
    if (fact)
        ++passed;
    else {
        ++failed;
        printf("DIFFERS: %s\n", what);
    }
}

/* A struct between guards, filled with one byte. */
typedef struct room {
    unsigned char *whole;
    size_t size;
    unsigned char fill;
} room;

static void *room_of(room *room, size_t size, unsigned char fill)
{
    room->whole = malloc(size + 2 * GUARD);
    room->size = size;
    room->fill = fill;
    memset(room->whole, fill, size + 2 * GUARD);
    return room->whole + GUARD;
}

static int guards_hold(const room *room)
{
    for (size_t at = 0; at < GUARD; ++at)
        if (room->whole[at] != room->fill || room->whole[GUARD + room->size + at] != room->fill)
            return 0;
    return 1;
}

/* WRITES(type, call) makes the call on two structs of a type, each named `out`. */
#define WRITES(type, call)                                                                    \
    do {                                                                                      \
        room one, other;                                                                      \
        type *first = room_of(&one, sizeof(type), 0x5A), *second = room_of(&other, sizeof(type), 0xA5); \
        type *out = first;                                                                    \
        holds((call) == NMS_OK, #call " is answered NMS_OK");                                 \
        out = second;                                                                         \
        holds((call) == NMS_OK, #call " is answered NMS_OK again");                           \
        holds(guards_hold(&one) && guards_hold(&other), #call " writes no more than a " #type); \
        holds(memcmp(first, second, sizeof(type)) == 0, #call " writes all of a " #type);     \
        free(one.whole);                                                                      \
        free(other.whole);                                                                    \
    } while (0)

static char *text_of(const char *path, size_t *bytes)
{
    static char text[1 << 20];
    FILE *file = fopen(path, "rb");
    if (file == NULL) {
        perror(path);
        exit(2);
    }
    *bytes = fread(text, 1, sizeof text, file);
    fclose(file);
    return text;
}

int main(int count, char **words)
{
    size_t bytes, applied;
    nms_board board = NMS_BOARD_CLOSED;
    if (count != 2)
        return 2;
    char *setup = text_of(words[1], &bytes);

    holds(nms_abi() == NMS_ABI, "the library is of this header's layout");
    {
        char text[NMS_CODE_TEXT_ROOM];
        size_t length;
        holds(nms_version(text, sizeof text, &length) == NMS_OK && strcmp(text, NMS_VERSION) == 0, "the library is of this header's version");
    }
    holds(nms_open(setup, bytes, &board) == NMS_OK, "the setup opens");

    /* nms_place: an element of an array of tables, a name that comes twice, and a text that is no document. */
    {
        const char twice[] = "tape_limit = 9\nqueue = 9\ndesks = 1\n[[participant]]\nname = \"N\"\nfeed = \"A\"\nfee = 1\nrate = 1\n"
                             "[[participant]]\nname = \"P\"\nfeed = \"A\"\nfee = 1\nrate = 1\n"
                             "[[participant]]\nname = \"P\"\nfeed = \"A\"\nfee = 1\nrate = 1\n[[symbol]]\nname = \"ABC\"\nlot = 100\n";
        /* Four faults: a fee out of range (C6), then two bad names and a bad symbol (C4). The least code counts, and of its places the first. */
        const char several[] = "tape_limit = 9\nqueue = 9\ndesks = 1\n[[participant]]\nname = \"N\"\nfeed = \"A\"\nfee = 1\nrate = -100000000\n"
                               "[[participant]]\nname = \"p\"\nfeed = \"A\"\nfee = 1\nrate = 1\n"
                               "[[participant]]\nname = \"q\"\nfeed = \"A\"\nfee = 1\nrate = 1\n[[symbol]]\nname = \"abc\"\nlot = 100\n";
        const char torn[] = "tape_limit = 9\nqueue 9\n";
        nms_place place;
        WRITES(nms_place, nms_setup_place(twice, sizeof twice - 1, out));
        WRITES(nms_place, nms_setup_place(setup, bytes, out));
        holds(nms_setup_place(twice, sizeof twice - 1, &place) == NMS_OK && place.code == NMS_C4_BAD_NAME && place.table == NMS_PARTICIPANT &&
                  place.element == 2 && place.spot == NMS_NAME_TWICE && place.twin == 1 && place.start == 0 && place.end == 0 &&
                  place.spare == 0, "nms_place: code, table, element, spot, twin");
        holds(nms_setup_place(several, sizeof several - 1, &place) == NMS_OK && place.code == NMS_C4_BAD_NAME && place.table == NMS_PARTICIPANT &&
                  place.element == 1 && place.spot == NMS_NAME, "nms_place: of several faults of the least code the first");
        holds(nms_setup_place(torn, sizeof torn - 1, &place) == NMS_OK && place.code == NMS_C1_NOT_TOML && place.table == NMS_NO_DOCUMENT &&
                  place.start >= 15 && place.start <= place.end && place.end <= sizeof torn - 1 && place.element == 0 && place.twin == 0,
              "nms_place: start, end");
    }

    /* nms_board: a handle moves whole, and the bytes after it are not the library's. */
    {
        room one;
        nms_board *out = room_of(&one, sizeof(nms_board), 0);
        holds(nms_open(setup, bytes, out) == NMS_OK && guards_hold(&one), "an open writes no more than a nms_board");
        holds(nms_close(out) == NMS_OK && guards_hold(&one), "a close writes no more than a nms_board");
        free(one.whole);
    }

    /* nms_change as it is read: a quotation, a state and a lot whose fields all differ, in an array of three. */
    nms_change changes[3];
    memset(changes, 0, sizeof changes);
    changes[0] = (nms_change){ .bid_price = 100001, .offer_price = 100203, .bid_shares = 405, .offer_shares = 607, .sym = 1, .part = 2,
                               .kind = NMS_QUOTE, .state = NMS_MANUAL };
    changes[1] = (nms_change){ .bid_price = 99009, .offer_price = 100811, .bid_shares = 1213, .offer_shares = 1415, .sym = 1, .part = 3,
                               .kind = NMS_QUOTE, .state = NMS_AUTOMATED };
    changes[2] = (nms_change){ .sym = 1, .lot = 7, .kind = NMS_LOT };
    holds(nms_apply_all(&board, changes, 3, &applied) == NMS_OK && applied == 3, "three changes are applied");

    /* Two counts of a call on lines, in the order of its arguments: how many were applied, and the byte where the next line begins. */
    {
        const char lines[] = "S,Y,ABC,A\r\nX,NONE\n";
        room one, other;
        size_t *out = room_of(&one, sizeof *out, 0x5A), *out_at = room_of(&other, sizeof *out_at, 0x5A);
        nms_board fresh = NMS_BOARD_CLOSED;
        holds(nms_open(setup, bytes, &fresh) == NMS_OK && nms_apply_lines(&fresh, lines, sizeof lines - 1, out, out_at) == NMS_L3_UNKNOWN_PARTICIPANT &&
                  *out == 1 && *out_at == 11 && guards_hold(&one) && guards_hold(&other), "nms_apply_lines: applied, at");
        nms_close(&fresh);
        free(one.whole);
        free(other.whole);
    }

    nms_best best;
    holds(nms_best_of(&board, 1, &best) == NMS_OK && best.version == 3, "nms_best: version");
    holds(best.bid.price == 100001 && best.offer.price == 100203, "nms_change: bid_price, offer_price; nms_row: price");
    holds(best.bid.size == 399 && best.offer.size == 602, "nms_change: bid_shares, offer_shares, lot; nms_row: size");
    holds(best.bid.part == 2 && best.bid.is_protected == 0 && best.bid.receipt == 1, "nms_change: part, state; nms_row: receipt");
    holds(best.market == NMS_NORMAL && best.spare == 0 && best.bid.spare == 0, "nms_best: market, spare");
    nms_row row;
    holds(nms_ranked(&board, 1, NMS_OFFER, 1, &row) == NMS_OK && row.price == 100811 && row.size == 1414 && row.part == 3 &&
              row.is_protected == 1 && row.receipt == 2, "the second element of an array of nms_change");

    /* What is written. */
    WRITES(nms_best, nms_best_of(&board, 1, out));
    WRITES(nms_row, nms_ranked(&board, 1, NMS_BID, 0, out));
    WRITES(nms_rows, nms_rows_of(&board, 1, NMS_OFFER, out));
    WRITES(nms_view, nms_view_of(&board, 1, out));
    WRITES(nms_through, nms_traded_through(&board, 1, 10090000, out));
    WRITES(nms_counts, nms_counts_of(&board, out));
    WRITES(nms_opening, nms_opening_of(&board, 1, out));
    WRITES(uint8_t, nms_find_part(&board, "Y", 1, out));
    WRITES(uint16_t, nms_find_sym(&board, "PNY", 3, out));
    WRITES(int64_t, nms_unit_cost(&board, 2, NMS_BUY, 100000, out));

    nms_rows rows;
    holds(nms_rows_of(&board, 1, NMS_BID, &rows) == NMS_OK && rows.count == 2 && rows.total == 399 + 1211, "nms_rows: count, total");
    holds(rows.price[1] == 99009 && rows.receipt[1] == 2 && rows.size[1] == 1211 && rows.part[1] == 3 && rows.is_protected[1] == 1 &&
              rows.is_protected[0] == 0 && rows.price[2] == 0 && rows.spare == 0, "nms_rows: its arrays");
    nms_view view;
    holds(nms_view_of(&board, 1, &view) == NMS_OK && view.version == 3 && view.market == NMS_NORMAL && view.bid.price[1] == 99009 &&
              view.offer.price[1] == 100811 && view.offer.count == 2 && view.offer.total == 602 + 1414 && view.sym == 1 && view.spare == 0, "nms_view");
    nms_through through;
    holds(nms_traded_through(&board, 1, 10090000, &through) == NMS_OK && through.version == 3 && through.bids == 0 &&
              through.offers == 1 && through.offer[0].price == 100811 && through.offer[0].part == 3, "nms_through");
    holds(nms_traded_through(&board, 1, 9900000, &through) == NMS_OK && through.bids == 1 && through.bid[0].price == 99009 &&
              through.offers == 0, "nms_through: bids");
    /* A bid at the very price is not above it, nor an offer below it: one 1/1,000,000 dollar to either side decides. */
    holds(nms_traded_through(&board, 1, 9900900, &through) == NMS_OK && through.bids == 0 && nms_traded_through(&board, 1, 9900899, &through) == NMS_OK &&
              through.bids == 1, "nms_traded_through: a bid at the price");
    holds(nms_traded_through(&board, 1, 10081100, &through) == NMS_OK && through.offers == 0 && nms_traded_through(&board, 1, 10081101, &through) == NMS_OK &&
              through.offers == 1, "nms_traded_through: an offer at the price");
    nms_counts counts;
    holds(nms_counts_of(&board, &counts) == NMS_OK && counts.applied == 3 && counts.room == (UINT64_C(1) << 63) - 3 && counts.parts == 4 && counts.syms == 2,
          "nms_counts");
    nms_opening opening;
    holds(nms_opening_of(&board, 1, &opening) == NMS_OK && opening.count == 3, "nms_opening: a lot and two quotations");
    nms_board again = NMS_BOARD_CLOSED;
    holds(nms_open(setup, bytes, &again) == NMS_OK && nms_apply_all(&again, opening.change, opening.count, &applied) == NMS_OK,
          "the changes of an opening are applied");
    nms_view reopened;
    holds(nms_view_of(&again, 1, &reopened) == NMS_OK, "a view of the board that was opened so");
    for (unsigned place = 0; place < 2; ++place)
        holds(reopened.bid.price[place] == view.bid.price[place] && reopened.bid.size[place] == view.bid.size[place] &&
                  reopened.bid.part[place] == view.bid.part[place] && reopened.offer.price[place] == view.offer.price[place] &&
                  reopened.offer.size[place] == view.offer.size[place] && reopened.offer.part[place] == view.offer.part[place] &&
                  reopened.offer.is_protected[place] == view.offer.is_protected[place], "it has the same rows in the same order");
    nms_close(&again);
    nms_terms terms = NMS_TERMS_CLOSED;
    holds(nms_terms_open(setup, bytes, &terms) == NMS_OK, "terms are opened");

    /* nms_order as it is read, and nms_plan as it is written and read: the text says every field. */
    nms_order order = { .limit = 100812, .shares = 1617, .self_help = 1u << 1, .sym = 1, .side = NMS_BUY, .manual = 1 };
    WRITES(nms_plan, nms_plan_order(&board, &order, out));
    nms_plan plan;
    holds(nms_plan_order(&board, &order, &plan) == NMS_OK && plan.version == 3 && plan.filled == 1617 && plan.legs == 2 &&
              plan.cuts == 2 && plan.spare == 0, "nms_plan: version, filled, legs, cuts");
    holds(plan.leg[0].part == 2 && plan.leg[0].price == 100203 && plan.leg[0].shares == 602 && plan.leg[1].part == 3 &&
              plan.leg[1].price == 100811 && plan.leg[1].shares == 1015, "nms_leg: price, shares, part");
    nms_order fewer = order;
    nms_plan shorter;
    fewer.shares = 500;
    holds(nms_plan_order(&board, &fewer, &shorter) == NMS_OK && shorter.legs == 1 && shorter.cuts == 2, "nms_plan: legs is not cuts");
    int64_t cheap = 0, dear = 0;
    holds(nms_unit_cost(&board, 2, NMS_BUY, 100203, &cheap) == NMS_OK && cheap == 10020100000 && nms_unit_cost(&board, 3, NMS_BUY, 100811, &dear) == NMS_OK &&
              dear == 10084100000, "nms_unit_cost");
    holds(plan.cost_high == 0 && plan.cost_low == (uint64_t)(602 * cheap + 1015 * dear), "nms_plan: cost_low, cost_high of a purchase");
    holds(plan.cut[1].price == 100811 && plan.cut[1].kind == NMS_MARGINAL && plan.cut[1].marginal == dear, "nms_cut: price, kind, marginal");

    char text[NMS_PLAN_TEXT_ROOM];
    holds(nms_plan_text(&board, &order, &plan, text, sizeof text, &bytes) == NMS_OK && bytes == strlen(text), "nms_plan_text: bytes");
    holds(strncmp(text, "PLAN,3,B,PNY,1617,10.0812,M,1617,", 33) == 0, "nms_order: side, sym, shares, limit, manual");
    holds(strstr(text, ",P\nLEG,") != NULL, "nms_order: self_help");
    nms_order read_order;
    nms_plan read_plan;
    {
        room one, other;
        nms_order *out_order = room_of(&one, sizeof order, 0x5A);
        nms_plan *out_plan = room_of(&other, sizeof plan, 0x5A);
        holds(nms_read_plan(&board, text, bytes, out_order, out_plan) == NMS_OK && guards_hold(&one) && guards_hold(&other),
              "nms_read_plan writes no more than its structs");
        read_order = *out_order;
        read_plan = *out_plan;
        free(one.whole);
        free(other.whole);
    }
    holds(memcmp(&read_order, &order, sizeof order) == 0, "an order is read back as it was");
    holds(memcmp(&read_plan, &plan, sizeof plan) == 0, "a plan is read back as it was");

    WRITES(nms_doubt, nms_confirm(&board, &order, &plan, out));
    WRITES(nms_plan, nms_plan_view(&terms, &view, &order, out));
    WRITES(nms_doubt, nms_confirm_view(&terms, &view, &order, &plan, out));
    WRITES(nms_through, nms_through_view(&view, 10090000, out));

    /* A view with fewer shares: each number of the array is read, and no more of them than there are participants. */
    {
        room one;
        uint32_t *most = room_of(&one, NMS_MOST_PARTS * sizeof(uint32_t), 0xFF);
        nms_view left;
        most[2] = 405;
        most[3] = 708;
        WRITES(nms_view, nms_reduce_view(&view, NMS_OFFER, most, out));
        holds(nms_reduce_view(&view, NMS_OFFER, most, &left) == NMS_OK && left.version == 3 && left.sym == 1 && left.market == NMS_NORMAL &&
                  left.offer.count == 2 && left.offer.total == 405 + 708 && left.offer.size[0] == 405 && left.offer.size[1] == 708 &&
                  left.offer.price[1] == 100811 && left.offer.part[1] == 3 && left.offer.receipt[1] == 2 && left.offer.is_protected[1] == 1,
              "nms_reduce_view: the offers");
        holds(memcmp(&left.bid, &view.bid, sizeof left.bid) == 0, "nms_reduce_view: the other side stays");
        most[2] = 0;
        holds(nms_reduce_view(&view, NMS_BID, most, &left) == NMS_OK && left.bid.count == 1 && left.bid.total == 708 &&
                  left.bid.size[0] == 708 && left.bid.price[0] == 99009 && left.bid.size[1] == 0, "nms_reduce_view: the bids");
        holds(guards_hold(&one), "nms_reduce_view only reads the numbers");
        free(one.whole);
    }
    WRITES(uint8_t, nms_terms_find_part(&terms, "Y", 1, out));
    WRITES(uint16_t, nms_terms_find_sym(&terms, "PNY", 3, out));
    holds(nms_terms_close(&terms) == NMS_OK, "terms are closed");
    nms_doubt doubt;
    plan.leg[1].shares -= 1;
    holds(nms_confirm(&board, &order, &plan, &doubt) == NMS_DOUBTED && doubt.doubt >= 1, "nms_doubt: doubt");
    plan.leg[1].shares += 1;
    plan.version = 2;
    holds(nms_confirm(&board, &order, &plan, &doubt) == NMS_DOUBTED, "nms_plan: version is read");
    plan.version = 3;

    /* A sale: a negative cost fills both words. */
    nms_order sale = { .limit = 99000, .shares = 100, .sym = 1, .side = NMS_SELL };
    nms_plan sold;
    holds(nms_plan_order(&board, &sale, &sold) == NMS_OK && sold.cost_high == -1 && (int64_t)sold.cost_low < 0,
          "nms_plan: cost_low, cost_high of a sale");

    /* Texts: a buffer that is exactly long enough, one that is too short, and the bytes after it. */
    for (size_t size = 0; size <= 16; ++size) {
        room one;
        char *out = room_of(&one, size, 0x5A);
        size_t told = 77;
        uint32_t code = nms_sym_name(&board, 1, out, size, &told);
        holds(guards_hold(&one) && code == (size >= 4 ? NMS_OK : NMS_ROOM), "nms_sym_name keeps to its buffer");
        holds(code == NMS_OK ? told == 3 && memcmp(out, "PNY", 4) == 0 : told == 77, "nms_sym_name writes the name, or nothing");
        free(one.whole);
    }

    holds(nms_close(&board) == NMS_OK, "the board closes");
    printf("%u passed, %u failed\n", passed, failed);
    return failed != 0;
}
