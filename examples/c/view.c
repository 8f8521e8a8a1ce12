/* A view as a value: one part of a program has the board, and another one plans on what a look showed, by the terms alone. The
 * two may be threads, or processes that share the memory of the view; here they are two functions.
 *
 *     gcc -std=c11 -I include examples/c/view.c crates/nms_c/out/libnms.a -o view
 *     ./view examples/builtin.toml        prints examples/c/view.out
 */
#include <nms.h>
#include <stdio.h>
#include <stdlib.h>
#include <string.h>

/* Ends the program if a call was refused. */
static void must(uint32_t code, const char *call)
{
    if (code != NMS_OK) {
        fprintf(stderr, "view: %s: code %u\n", call, (unsigned)code);
        exit(1);
    }
}

/* What the board shows of a symbol after three offers, and one change later. */
static void show(const char *setup, size_t bytes, nms_view *view)
{
    static const char *const records[] = { "Q,N,ABC,A,,,10.00,300", "Q,P,ABC,A,,,10.00,500", "Q,Y,ABC,A,,,10.01,200" };
    nms_board board = NMS_BOARD_CLOSED;
    uint16_t abc;
    must(nms_open(setup, bytes, &board), "nms_open");
    must(nms_find_sym(&board, "ABC", 3, &abc), "nms_find_sym");
    for (int at = 0; at < 3; ++at)
        must(nms_apply_text(&board, records[at], strlen(records[at])), "nms_apply_text");
    must(nms_view_of(&board, abc, view), "nms_view_of");
    /* The board goes on, and the view stays. */
    must(nms_apply_text(&board, "X,P", 3), "nms_apply_text");
    must(nms_close(&board), "nms_close");
}

int main(int count, char **words)
{
    static char setup[1 << 16];
    FILE *file = count == 2 ? fopen(words[1], "rb") : NULL;
    if (file == NULL) {
        fprintf(stderr, "usage: view SETUP\n");
        return 2;
    }
    const size_t bytes = fread(setup, 1, sizeof setup, file);
    fclose(file);
    nms_view view;
    show(setup, bytes, &view);

    /* The roster and the fees: opened once, and constant. Any number of threads may use them at once, with no lock. */
    nms_terms terms = NMS_TERMS_CLOSED;
    must(nms_terms_open(setup, bytes, &terms), "nms_terms_open");
    nms_order order = { 0 };
    must(nms_terms_find_sym(&terms, "ABC", 3, &order.sym), "nms_terms_find_sym");
    order.side = NMS_BUY;
    order.shares = 600;
    order.limit = 100100;
    nms_plan plan;
    must(nms_plan_view(&terms, &view, &order, &plan), "nms_plan_view");
    printf("on version %llu the plan fills %u shares in %u legs\n", (unsigned long long)plan.version, (unsigned)plan.filled, (unsigned)plan.legs);
    nms_doubt doubt;
    must(nms_confirm_view(&terms, &view, &order, &plan, &doubt), "nms_confirm_view");
    printf("confirmed\n");

    /* The orders of that plan are sent, and the quotes still show what they take: the next order is planned on what they leave. */
    uint32_t most[NMS_MOST_PARTS] = { 0 };
    for (unsigned at = 0; at < view.offer.count; ++at)
        most[view.offer.part[at]] = view.offer.size[at];
    for (unsigned at = 0; at < plan.legs; ++at)
        most[plan.leg[at].part] -= plan.leg[at].shares;
    nms_view left;
    must(nms_reduce_view(&view, NMS_OFFER, most, &left), "nms_reduce_view");
    must(nms_plan_view(&terms, &left, &order, &plan), "nms_plan_view");
    must(nms_confirm_view(&terms, &left, &order, &plan, &doubt), "nms_confirm_view");
    printf("on what its orders leave, the next plan fills %u shares in %u legs\n", (unsigned)plan.filled, (unsigned)plan.legs);

    nms_through through;
    must(nms_through_view(&view, 10005000, &through), "nms_through_view");
    printf("a trade at 10.005 trades through %u offers\n", (unsigned)through.offers);

    /* Half of another view, as a copy that was torn: no look shows such numbers. */
    view.offer.receipt[1] = view.version + 1;
    printf("a torn view: code %u\n", (unsigned)nms_plan_view(&terms, &view, &order, &plan));
    must(nms_terms_close(&terms), "nms_terms_close");
    return 0;
}
