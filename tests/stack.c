/* Measures the stack of each call of nms.h: it runs the call on a stack of its own whose bytes all have one value, and counts
 * those that were written. Each call is made with the longest texts and the largest boards.
 *
 *     stack SETUP     the built-in setup; prints a line `CALL BYTES` for each call, and `CALL_of_a_setup BYTES` where a right
 *                     setup takes less than any text
 */
#define _GNU_SOURCE
#include <nms.h>
#include <stdio.h>
#include <stdlib.h>
#include <string.h>
#include <sys/mman.h>
#include <ucontext.h>

enum { STACK = 1 << 22, FILL = 0xA5, TEXT = 1 << 16, KINDS = 6 };

static unsigned char *stack;
static ucontext_t here, there;
static size_t most;

/* Runs a call, and keeps what it took if no other took more. */
static void measure(void (*call)(void))
{
    size_t untouched = 0;
    memset(stack, FILL, STACK);
    getcontext(&there);
    there.uc_stack.ss_sp = stack;
    there.uc_stack.ss_size = STACK;
    there.uc_link = &here;
    makecontext(&there, call, 0);
    swapcontext(&here, &there);
    while (untouched < STACK && stack[untouched] == FILL)
        ++untouched;
    if (STACK - untouched > most)
        most = STACK - untouched;
}

static nms_board board, other;
static nms_terms terms, more_terms;
static nms_view view;
static nms_order order, out_order;
static nms_plan plan, out_plan;
static nms_doubt doubt;
static char text[TEXT], out[NMS_PLAN_TEXT_ROOM];
static size_t bytes, out_bytes, applied;
static nms_change change;
static uint32_t code, many[NMS_MOST_PARTS];
static union {
    nms_best best;
    nms_row row;
    nms_rows rows;
    nms_view view;
    nms_through through;
    nms_opening opening;
    nms_counts counts;
    nms_place place;
    int64_t cost;
    uint16_t number;
} it;

static void nothing(void) { }
static void nms_open_(void) { code = nms_open(text, bytes, &other); }
static void nms_setup_place_(void) { code = nms_setup_place(text, bytes, &it.place); }
static void nms_close_(void) { code = nms_close(&other); }
static void nms_version_(void) { code = nms_version(out, sizeof out, &out_bytes); }
static void nms_code_text_(void) { code = nms_code_text(NMS_L11_BAD_PLAN_TEXT, out, sizeof out, &out_bytes); }
static void nms_counts_of_(void) { code = nms_counts_of(&board, &it.counts); }
static void nms_find_part_(void) { code = nms_find_part(&board, "P31", 3, (uint8_t *)&it.number); }
static void nms_find_sym_(void) { code = nms_find_sym(&board, "ABCDEFGH", 8, &it.number); }
static void nms_part_name_(void) { code = nms_part_name(&board, 31, out, sizeof out, &out_bytes); }
static void nms_sym_name_(void) { code = nms_sym_name(&board, 0, out, sizeof out, &out_bytes); }
static void nms_apply_(void) { code = nms_apply(&board, &change); }
static void nms_apply_all_(void) { code = nms_apply_all(&board, &change, 1, &applied); }
static void nms_apply_best_(void) { code = nms_apply_best(&board, &change, 1, &it.best, &applied); }
static void nms_best_all_(void) { code = nms_best_all(&board, &change.sym, 1, &it.best, &applied); }
static void nms_plan_all_(void) { code = nms_plan_all(&board, &order, 1, &plan, &applied); }
static void nms_apply_text_(void) { code = nms_apply_text(&board, text, bytes); }
static void nms_apply_lines_(void) { code = nms_apply_lines(&board, text, bytes, &applied, &out_bytes); }
static void nms_best_of_(void) { code = nms_best_of(&board, 0, &it.best); }
static void nms_ranked_(void) { code = nms_ranked(&board, 0, NMS_BID, 31, &it.row); }
static void nms_rows_of_(void) { code = nms_rows_of(&board, 0, NMS_OFFER, &it.rows); }
static void nms_view_of_(void) { code = nms_view_of(&board, 0, &it.view); }
static void nms_traded_through_(void) { code = nms_traded_through(&board, 0, 9900000, &it.through); }
static void nms_plan_order_(void) { code = nms_plan_order(&board, &order, &plan); }
static void nms_confirm_(void) { code = nms_confirm(&board, &order, &plan, &doubt); }
static void nms_unit_cost_(void) { code = nms_unit_cost(&board, 31, NMS_SELL, 100000, &it.cost); }
static void nms_plan_text_(void) { code = nms_plan_text(&board, &order, &plan, out, sizeof out, &out_bytes); }
static void nms_read_plan_(void) { code = nms_read_plan(&board, text, bytes, &out_order, &out_plan); }
static void nms_opening_of_(void) { code = nms_opening_of(&board, 0, &it.opening); }
static void nms_terms_open_(void) { code = nms_terms_open(text, bytes, &more_terms); }
static void nms_terms_close_(void) { code = nms_terms_close(&more_terms); }
static void nms_terms_find_part_(void) { code = nms_terms_find_part(&terms, "P31", 3, (uint8_t *)&it.number); }
static void nms_terms_find_sym_(void) { code = nms_terms_find_sym(&terms, "ABCDEFGH", 8, &it.number); }
static void nms_terms_part_name_(void) { code = nms_terms_part_name(&terms, 31, out, sizeof out, &out_bytes); }
static void nms_terms_sym_name_(void) { code = nms_terms_sym_name(&terms, 0, out, sizeof out, &out_bytes); }
static void nms_plan_view_(void) { code = nms_plan_view(&terms, &view, &order, &plan); }
static void nms_confirm_view_(void) { code = nms_confirm_view(&terms, &view, &order, &plan, &doubt); }
static void nms_through_view_(void) { code = nms_through_view(&view, 9900000, &it.through); }
static void nms_reduce_view_(void) { code = nms_reduce_view(&view, NMS_OFFER, many, &it.view); }

/* Measures a call, and ends the program if it was refused and may not be. */
static void takes(const char *name, void (*call)(void), int may_be_refused)
{
    measure(call);
    if (code != NMS_OK && !may_be_refused) {
        printf("DIFFERS: %s: code %u\n", name, (unsigned)code);
        exit(1);
    }
}

/* Appends a text a number of times. */
static void append(const char *piece, unsigned times)
{
    for (unsigned at = 0; at < times; ++at)
        bytes += (size_t)sprintf(text + bytes, "%s", piece);
}

/* A text that nests: arrays, tables, both, or a key or a heading of many parts. */
static void nest(unsigned kind, unsigned deep)
{
    static const struct { const char *first, *opening, *inner, *closing; } kinds[KINDS] = {
        { "x = ", "[", "1", "]" }, { "x = ", "{a=", "1", "}" }, { "x = ", "[{a=", "1", "}]" },
        { "", "a.", "a = 1", "" }, { "[", "a.", "a]\nb = 1", "" }, { "[[", "a.", "a]]\nb = 1", "" },
    };
    bytes = 0;
    append(kinds[kind].first, 1);
    append(kinds[kind].opening, deep);
    append(kinds[kind].inner, 1);
    append(kinds[kind].closing, deep);
}

/* The deepest text that is TOML: under a heading of 80 parts as many tables as may nest, each under a key of 80 parts. */
static void nest_deepest(unsigned tables)
{
    bytes = 0;
    append("[[", 1);
    append("a.", 79);
    append("a]]\n", 1);
    append("a.", 79);
    append("a = ", 1);
    for (unsigned at = 0; at < tables; ++at) {
        append("{", 1);
        append("a.", 79);
        append("a=", 1);
    }
    append("1", 1);
    append("}", tables);
}

/* What a call takes that reads a setup: of one that is right, and of any text. */
static void every_setup(const char *name, void (*call)(void), const char *setup, size_t empty)
{
    most = 0;
    bytes = 0;
    append(setup, 1);
    takes(name, call, 0);
    printf("%s_of_a_setup %zu\n", name, most - empty);
    if (call == nms_open_)
        nms_close(&other);
    if (call == nms_terms_open_)
        nms_terms_close(&more_terms);
    for (unsigned kind = 0; kind < KINDS; ++kind)
        for (unsigned deep = 40; deep <= 5120; deep *= 2) {
            nest(kind, deep);
            takes(name, call, 1);
        }
    for (unsigned tables = 78; tables <= 82; ++tables) {
        nest_deepest(tables);
        takes(name, call, 1);
    }
    printf("%s %zu\n", name, most - empty);
}

/* A setup of 32 participants. */
static void write_setup(void)
{
    bytes = (size_t)sprintf(text, "tape_limit = 1000\nqueue = 9\ndesks = 1\n");
    for (unsigned at = 0; at < NMS_MOST_PARTS; ++at)
        bytes += (size_t)sprintf(text + bytes, "[[participant]]\nname = \"P%02u\"\nfeed = \"A\"\nfee = %u\nrate = -%u\n", at, at * 1000, at);
    bytes += (size_t)sprintf(text + bytes, "[[symbol]]\nname = \"ABCDEFGH\"\nlot = 100\n");
}

/* A board with a quotation of each participant on both sides. */
static void fill_board(void)
{
    write_setup();
    code = nms_open(text, bytes, &board);
    memset(&change, 0, sizeof change);
    for (unsigned at = 0; at < 2 * NMS_MOST_PARTS && code == NMS_OK; ++at) {
        change.part = (uint8_t)(at % NMS_MOST_PARTS);
        change.bid_price = 90000 + 11 * at;
        change.offer_price = 100000 - 7 * at;
        change.bid_shares = 100 + at;
        change.offer_shares = 200 + at;
        code = nms_apply(&board, &change);
    }
    order.limit = 200000;
    order.shares = 7777;
    if (code != NMS_OK || nms_plan_order(&board, &order, &plan) != NMS_OK || plan.legs < NMS_MOST_PARTS - 1) {
        printf("DIFFERS: the board is not filled: code %u, %u legs\n", (unsigned)code, (unsigned)plan.legs);
        exit(1);
    }
}

/* The board anew, at the last change before it goes over to its second board: the next one brings that all quotations. */
static void to_the_brink(void)
{
    const nms_change state = { .kind = NMS_STATE, .state = NMS_AUTOMATED };
    nms_counts counts;
    nms_close(&board);
    fill_board();
    code = nms_counts_of(&board, &counts);
    for (; code == NMS_OK && counts.applied < 9990000; ++counts.applied)
        code = nms_apply(&board, &state);
}

/* TAKES(name) prints the stack of a call that is answered NMS_OK. */
#define TAKES(name)                                         \
    do {                                                    \
        most = 0;                                           \
        takes(#name, name##_, 0);                           \
        printf("%s %zu\n", #name, most - empty);            \
    } while (0)

int main(int count, char **words)
{
    static char setup[TEXT];
    FILE *file = count == 2 ? fopen(words[1], "rb") : NULL;
    if (file == NULL)
        return 2;
    setup[fread(setup, 1, sizeof setup - 1, file)] = 0;
    fclose(file);
    stack = mmap(NULL, STACK, PROT_READ | PROT_WRITE, MAP_PRIVATE | MAP_ANONYMOUS, -1, 0);
    if (stack == MAP_FAILED)
        return 2;
    write_setup();
    if (nms_terms_open(text, bytes, &terms) != NMS_OK)
        return 2;
    fill_board();
    measure(nothing);
    const size_t empty = most;
    TAKES(nms_version);
    TAKES(nms_code_text);
    TAKES(nms_counts_of);
    TAKES(nms_find_part);
    TAKES(nms_find_sym);
    TAKES(nms_part_name);
    TAKES(nms_sym_name);
    TAKES(nms_apply);
    TAKES(nms_apply_all);
    TAKES(nms_apply_best);
    change.kind = NMS_WITHDRAW;
    TAKES(nms_apply_all);
    TAKES(nms_apply_best);
    change.kind = NMS_LOT;
    change.lot = 40;
    TAKES(nms_apply);
    bytes = (size_t)sprintf(text, "Q,P31,ABCDEFGH,A,9999999.9999,999999999,9999999.9999,999999999");
    TAKES(nms_apply_text);
    bytes = (size_t)sprintf(text, "Q,P31,ABCDEFGH,A,10.0000,300,9.0000,400");
    TAKES(nms_apply_text);
    bytes = 0;
    append("Q,P31,ABCDEFGH,A,9999999.9999,999999999,9999999.9999,999999999\r\nQ,P31,ABCDEFGH,A,10.0000,300,9.0000,400\n", 500);
    TAKES(nms_apply_lines);
    TAKES(nms_best_of);
    TAKES(nms_best_all);
    TAKES(nms_ranked);
    TAKES(nms_rows_of);
    TAKES(nms_view_of);
    TAKES(nms_traded_through);
    TAKES(nms_unit_cost);
    TAKES(nms_opening_of);
    TAKES(nms_plan_order);
    TAKES(nms_plan_all);
    TAKES(nms_confirm);
    if (nms_view_of(&board, 0, &view) != NMS_OK)
        return 2;
    TAKES(nms_plan_view);
    TAKES(nms_confirm_view);
    TAKES(nms_through_view);
    for (unsigned at = 0; at < NMS_MOST_PARTS; ++at)
        many[at] = 100 + 7 * at;
    TAKES(nms_reduce_view);
    TAKES(nms_terms_find_part);
    TAKES(nms_terms_find_sym);
    TAKES(nms_terms_part_name);
    TAKES(nms_terms_sym_name);
    TAKES(nms_plan_text);
    memcpy(text, out, bytes = out_bytes);
    TAKES(nms_read_plan);
    memset(text + bytes, '\n', TEXT - bytes);
    bytes = NMS_PLAN_TEXT_ROOM;
    TAKES(nms_read_plan);
    to_the_brink();
    TAKES(nms_apply);
    to_the_brink();
    change.kind = NMS_WITHDRAW;
    TAKES(nms_apply_all);
    to_the_brink();
    bytes = (size_t)sprintf(text, "X,P31");
    TAKES(nms_apply_text);
    to_the_brink();
    bytes = (size_t)sprintf(text, "X,P31\nX,P30\n");
    TAKES(nms_apply_lines);
    every_setup("nms_setup_place", nms_setup_place_, setup, empty);
    every_setup("nms_open", nms_open_, setup, empty);
    every_setup("nms_terms_open", nms_terms_open_, setup, empty);
    if (nms_open(setup, strlen(setup), &other) != NMS_OK)
        return 2;
    TAKES(nms_close);
    if (nms_terms_open(setup, strlen(setup), &more_terms) != NMS_OK)
        return 2;
    TAKES(nms_terms_close);
    return 0;
}
