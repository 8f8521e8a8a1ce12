/* Times the calls of the library one by one and in one go, as bench/latency_peer times the same calls in ordinary Rust.
 *
 *     latency SETUP OPERATIONS      prints a line for each call, and a sum of all answers (bench/latency reads them)
 *
 * A line has the call, how often it was made, and nanoseconds: the middle, the 99th of 100, the 999th of 1,000, the mean. The
 * clock's own cost, the middle of many askings, has its line, and was taken off.
 */
#define _GNU_SOURCE
#include <nms.h>
#include <inttypes.h>
#include <stdio.h>
#include <stdlib.h>
#include <string.h>
#include <time.h>

enum kind { APPLY, LOOK, PLAN };

typedef struct operation {
    enum kind kind;
    int has_sym;
    uint16_t sym;
    nms_change change;
    nms_order order;
} operation;

static int64_t now(void)
{
    struct timespec time;
    clock_gettime(CLOCK_MONOTONIC, &time);
    return (int64_t)time.tv_sec * 1000000000 + time.tv_nsec;
}

static void must(uint32_t code, const char *what)
{
    if (code != NMS_OK) {
        fprintf(stderr, "latency: %s: code %u\n", what, (unsigned)code);
        exit(1);
    }
}

static char *text_of(const char *path, size_t *bytes)
{
    FILE *file = fopen(path, "rb");
    char *text;
    if (file == NULL) {
        perror(path);
        exit(2);
    }
    fseek(file, 0, SEEK_END);
    *bytes = (size_t)ftell(file);
    rewind(file);
    text = malloc(*bytes + 1);
    *bytes = fread(text, 1, *bytes, file);
    text[*bytes] = 0;
    fclose(file);
    return text;
}

/* The operations of a text: numbers between spaces, one operation a line. */
static operation *read_operations(const char *path, size_t *count)
{
    size_t bytes;
    char *text = text_of(path, &bytes), *at = text;
    size_t lines = 0;
    operation *found;
    for (size_t i = 0; i < bytes; ++i)
        lines += text[i] == '\n';
    found = calloc(lines + 1, sizeof *found);
    *count = 0;
    while (*at != 0) {
        operation *next = &found[*count];
        const char kind = *at++;
        uint64_t numbers[8] = { 0 };
        int many = 0;
        if (kind == 'p' || kind == 's') {
            at = strchr(at, '\n') + 1;
            continue;
        }
        while (*at == ' ')
            numbers[many++] = strtoull(at, &at, 10);
        ++at;
        ++*count;
        switch (kind) {
        case 'Q':
            next->change.kind = NMS_QUOTE;
            next->change.part = (uint8_t)numbers[0];
            next->change.sym = next->sym = (uint16_t)numbers[1];
            next->change.state = (uint8_t)numbers[2];
            next->change.bid_price = numbers[3];
            next->change.bid_shares = (uint32_t)numbers[4];
            next->change.offer_price = numbers[5];
            next->change.offer_shares = (uint32_t)numbers[6];
            next->has_sym = 1;
            break;
        case 'X':
            next->change.kind = NMS_WITHDRAW;
            next->change.part = (uint8_t)numbers[0];
            break;
        case 'N':
            next->kind = LOOK;
            next->sym = (uint16_t)numbers[0];
            next->has_sym = 1;
            break;
        case 'S':
            next->change.kind = NMS_STATE;
            next->change.part = (uint8_t)numbers[0];
            next->change.sym = next->sym = (uint16_t)numbers[1];
            next->change.state = (uint8_t)numbers[2];
            next->has_sym = 1;
            break;
        case 'R':
            next->change.kind = NMS_LOT;
            next->change.sym = next->sym = (uint16_t)numbers[0];
            next->change.lot = (uint16_t)numbers[1];
            next->has_sym = 1;
            break;
        default:
            next->kind = PLAN;
            next->order.side = (uint8_t)numbers[0];
            next->order.sym = next->sym = (uint16_t)numbers[1];
            next->order.shares = (uint32_t)numbers[2];
            next->order.limit = numbers[3];
            next->order.manual = (uint8_t)numbers[4];
            next->order.self_help = (uint32_t)numbers[5];
            next->has_sym = 1;
        }
    }
    free(text);
    return found;
}

/* The times of one call. */
typedef struct times {
    int64_t *taken;
    size_t count;
} times;

static int compare(const void *one, const void *other)
{
    const int64_t a = *(const int64_t *)one, b = *(const int64_t *)other;
    return (a > b) - (a < b);
}

static void print_times(const char *name, times *times, int64_t clock)
{
    static const double shares[] = { 0.5, 0.99, 0.999 };
    double sum = 0;
    if (times->count == 0)
        return;
    qsort(times->taken, times->count, sizeof *times->taken, compare);
    printf("%s %zu", name, times->count);
    for (int at = 0; at < 3; ++at) {
        const size_t place = (size_t)((double)times->count * shares[at]);
        const int64_t taken = times->taken[place < times->count ? place : times->count - 1] - clock;
        printf(" %" PRId64, taken > 0 ? taken : 0);
    }
    for (size_t at = 0; at < times->count; ++at)
        sum += (double)times->taken[at];
    printf(" %.1f\n", sum / (double)times->count - (double)clock);
}

static uint64_t sum = 0xcbf29ce484222325u;

static void add(uint64_t number)
{
    sum = (sum ^ number) * 0x100000001b3u;
}

static void add_row(const nms_row *row)
{
    const int is_there = row->size != 0;
    add(is_there ? row->price : 0);
    add(is_there ? row->receipt : 0);
    add(row->size);
    add(is_there ? row->part : 0);
    add(is_there ? row->is_protected : 0);
}

static void add_through(const nms_through *through)
{
    add(through->version);
    add(through->bids);
    add(through->offers);
    for (int at = 0; at < NMS_MOST_PARTS; ++at)
        add_row(&through->bid[at]);
    for (int at = 0; at < NMS_MOST_PARTS; ++at)
        add_row(&through->offer[at]);
}

static void add_plan(const nms_plan *plan)
{
    add(plan->version);
    add(plan->cost_low);
    add((uint64_t)plan->cost_high);
    add(plan->filled);
    add(plan->legs);
    for (uint32_t at = 0; at < plan->legs; ++at) {
        add(plan->leg[at].price);
        add(plan->leg[at].shares);
        add(plan->leg[at].part);
    }
    for (uint32_t at = 0; at < plan->cuts; ++at) {
        add(plan->cut[at].price);
        add(plan->cut[at].kind);
        add((uint64_t)plan->cut[at].marginal);
    }
}

int main(int argc, char **words)
{
    size_t bytes, count, many = 0;
    int64_t from, clock, *asked = malloc(100001 * sizeof *asked);
    nms_board board = NMS_BOARD_CLOSED;
    nms_best best;
    nms_plan plan;
    nms_doubt doubt;
    nms_through passed;
    if (argc != 3)
        return 2;
    char *setup = text_of(words[1], &bytes);
    operation *operations = read_operations(words[2], &count);
    for (int at = 0; at < 100001; ++at) {
        from = now();
        asked[at] = now() - from;
    }
    qsort(asked, 100001, sizeof *asked, compare);
    clock = asked[50000];
    printf("clock %" PRId64 "\n", clock);

    from = now();
    must(nms_open(setup, bytes, &board), "nms_open");
    printf("open %" PRId64 "\n", now() - from);

    /* All changes in one go. */
    from = now();
    for (size_t at = 0; at < count; ++at)
        if (operations[at].kind == APPLY) {
            must(nms_apply(&board, &operations[at].change), "nms_apply");
            ++many;
        }
    printf("apply_all %zu %.2f\n", many, (double)(now() - from) / (double)many);

    /* All looks in one go, on the board that they left, at the symbols of the changes. Each look waits for the answer of the
     * one before it, as a caller's does who acts on it: no price has 64 bits, but that is not known before it is there. */
    uint16_t *syms = malloc(count * sizeof *syms);
    many = 0;
    for (size_t at = 0; at < count; ++at)
        if (operations[at].has_sym)
            syms[many++] = operations[at].sym;
    size_t looked = 0;
    from = now();
    for (size_t at = 0; at < many; at += 1 + (best.bid.price >> 63) + (best.offer.price >> 63), ++looked)
        must(nms_best_of(&board, syms[at], &best), "nms_best_of");
    printf("best_all %zu %.2f\n", looked, (double)(now() - from) / (double)looked);
    must(nms_close(&board), "nms_close");

    /* Each call by itself, and a sum of what all of them answer. */
    times apply = { malloc(count * sizeof(int64_t)), 0 }, looks = { malloc(count * sizeof(int64_t)), 0 };
    times planning = { malloc(count * sizeof(int64_t)), 0 }, confirming = { malloc(count * sizeof(int64_t)), 0 };
    times through = { malloc(count * sizeof(int64_t)), 0 };
    must(nms_open(setup, bytes, &board), "nms_open");
    for (size_t at = 0; at < count; ++at) {
        const operation *it = &operations[at];
        uint32_t code;
        if (it->kind == APPLY) {
            from = now();
            code = nms_apply(&board, &it->change);
            apply.taken[apply.count++] = now() - from;
            must(code, "nms_apply");
        } else if (it->kind == PLAN) {
            from = now();
            code = nms_plan_order(&board, &it->order, &plan);
            planning.taken[planning.count++] = now() - from;
            must(code, "nms_plan_order");
            add_plan(&plan);
            from = now();
            code = nms_confirm(&board, &it->order, &plan, &doubt);
            confirming.taken[confirming.count++] = now() - from;
            must(code, "nms_confirm");
            from = now();
            code = nms_traded_through(&board, it->sym, it->order.limit * 100, &passed);
            through.taken[through.count++] = now() - from;
            must(code, "nms_traded_through");
            add_through(&passed);
        }
        if (it->has_sym) {
            from = now();
            code = nms_best_of(&board, it->sym, &best);
            looks.taken[looks.count++] = now() - from;
            must(code, "nms_best_of");
            add(best.version);
            add_row(&best.bid);
            add_row(&best.offer);
            add(best.market);
        }
    }
    must(nms_close(&board), "nms_close");
    print_times("apply", &apply, clock);
    print_times("best", &looks, clock);
    print_times("plan", &planning, clock);
    print_times("confirm", &confirming, clock);
    print_times("through", &through, clock);
    printf("sum %016" PRIx64 "\n", sum);
    return 0;
}
