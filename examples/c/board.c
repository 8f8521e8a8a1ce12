/* The first example of README.md, through the library: three offers, the best of them, and a plan for 600 shares at 10.01
 * or better. Every call answers a code, and this program stops at the first that is not NMS_OK.
 *
 *     gcc -std=c11 -I include examples/c/board.c crates/nms_c/out/libnms.a -o board
 *     ./board examples/builtin.toml        prints examples/c/board.out
 */
#include <nms.h>
#include <stdio.h>
#include <stdlib.h>
#include <string.h>

/* Ends the program if a call was refused, with the text of its code. */
static void must(uint32_t code, const char *call)
{
    if (code != NMS_OK) {
        char text[NMS_CODE_TEXT_ROOM] = "";
        size_t bytes;
        nms_code_text(code, text, sizeof text, &bytes);
        fprintf(stderr, "board: %s: code %u, %s\n", call, (unsigned)code, text);
        exit(1);
    }
}

/* The whole text of a file; its length goes to *bytes. */
static char *text_of(const char *path, size_t *bytes)
{
    FILE *file = fopen(path, "rb");
    static char text[1 << 20];
    if (file == NULL) {
        perror(path);
        exit(1);
    }
    *bytes = fread(text, 1, sizeof text, file);
    fclose(file);
    return text;
}

/* The numbers of a participant and of a symbol: looked up once, used from then on. */
static uint8_t part(const nms_board *board, const char *name)
{
    uint8_t number;
    must(nms_find_part(board, name, strlen(name), &number), "nms_find_part");
    return number;
}

static uint16_t sym(const nms_board *board, const char *name)
{
    uint16_t number;
    must(nms_find_sym(board, name, strlen(name), &number), "nms_find_sym");
    return number;
}

/* An automated offer and no bid. A price is in 1/10,000 dollar. */
static nms_change offer(uint8_t part, uint16_t sym, uint64_t price, uint32_t shares)
{
    nms_change change = { 0 };
    change.kind = NMS_QUOTE;
    change.part = part;
    change.sym = sym;
    change.state = NMS_AUTOMATED;
    change.offer_price = price;
    change.offer_shares = shares;
    return change;
}

int main(int count, char **words)
{
    if (count != 2) {
        fprintf(stderr, "usage: board SETUP\n");
        return 2;
    }

    /* A board lies in the caller's memory, closed before it is opened. It is never copied. nms_open also tests that header
     * and library have one layout. */
    nms_board board = NMS_BOARD_CLOSED;
    size_t bytes;
    char *setup = text_of(words[1], &bytes);
    must(nms_open(setup, bytes, &board), "nms_open");
    uint16_t abc = sym(&board, "ABC");

    nms_change changes[] = {
        offer(part(&board, "N"), abc, 100000, 300),
        offer(part(&board, "P"), abc, 100000, 500),
        offer(part(&board, "Y"), abc, 100100, 200),
    };
    size_t applied;
    must(nms_apply_all(&board, changes, sizeof changes / sizeof changes[0], &applied), "nms_apply_all");
    printf("applied %zu changes\n", applied);

    nms_best best;
    char name[NMS_NAME_ROOM];
    must(nms_best_of(&board, abc, &best), "nms_best_of");
    must(nms_part_name(&board, best.offer.part, name, sizeof name, &bytes), "nms_part_name");
    printf("best offer: %s, %u shares at %llu/10000 dollar, of change %llu\n", name, (unsigned)best.offer.size,
           (unsigned long long)best.offer.price, (unsigned long long)best.offer.receipt);

    nms_order order = { 0 };
    order.sym = abc;
    order.side = NMS_BUY;
    order.shares = 600;
    order.limit = 100100;
    nms_plan plan;
    must(nms_plan_order(&board, &order, &plan), "nms_plan_order");
    printf("the plan fills %u shares in %u legs\n", (unsigned)plan.filled, (unsigned)plan.legs);

    char text[NMS_PLAN_TEXT_ROOM];
    must(nms_plan_text(&board, &order, &plan, text, sizeof text, &bytes), "nms_plan_text");
    fputs(text, stdout);

    /* The checker trusts nothing of the planner: a plan that was altered is doubted. */
    nms_doubt doubt;
    must(nms_confirm(&board, &order, &plan, &doubt), "nms_confirm");
    printf("confirmed\n");
    plan.leg[0].shares -= 100;
    if (nms_confirm(&board, &order, &plan, &doubt) != NMS_DOUBTED)
        return 1;
    printf("100 shares fewer in the first leg: doubted\n");

    /* A refused call leaves the board as it was. */
    nms_change strange = offer(200, abc, 100000, 300);
    printf("a change of participant 200: code %u\n", (unsigned)nms_apply(&board, &strange));

    must(nms_close(&board), "nms_close");
    printf("after closing: code %u\n", (unsigned)nms_best_of(&board, abc, &best));
    return 0;
}
