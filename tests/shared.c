/* One thread applies changes and publishes views; others read them without a lock, and plan on what they read.
 *
 *   - A reader never sees an older view of a symbol than before, and each view says its symbol.
 *   - Each plan on a view is confirmed on that view. Afterwards the changes are applied again one after another: each view that
 *     a reader kept is, byte for byte, what the board shows at the view's version, and the board gives the same plan.
 *   - A view of version v shows what the board shows up to the version that was published when it was read.
 *   - An older view, a symbol that is not there, a symbol of which nothing was published, and memory of another header are refused.
 *
 *     shared SETUP [CHANGES [READERS [SEED]]]      the built-in setup; 20,000 changes and three readers, at most eight, by default
 *
 * Built with -fsanitize=thread it shows races.
 *
 * Prints the first differences, and last `N passed, M failed`.
 */
#define _GNU_SOURCE
#include <nms_shared.h>
#include <pthread.h>
#include <stdio.h>
#include <stdlib.h>
#include <string.h>

enum { MOST_READERS = 8, SYMS = 2, PARTS = 4, MOST_KEPT = 40000 };

/* What a reader did: the version that was published, the view that it read then, and its plan for an order. */
struct kept {
    uint64_t published;
    nms_view view;
    nms_order order;
    nms_plan plan;
    uint32_t code;
};

static nms_board board = NMS_BOARD_CLOSED, again = NMS_BOARD_CLOSED;
static nms_terms terms = NMS_TERMS_CLOSED;
static nms_shared *shared;
static nms_change *changes;
static uint64_t first_seed = 5;
static unsigned long wanted = 20000, taken, passed, failed;
static int is_over, readers = 3;
static struct kept *kept[MOST_READERS];
static unsigned long counts[MOST_READERS], fallen[MOST_READERS], doubted[MOST_READERS], strange[MOST_READERS], looks[MOST_READERS];

static unsigned drawn(uint64_t *seed, unsigned below)
{
    *seed = *seed * 6364136223846793005ul + 1442695040888963407ul;
    return (unsigned)(*seed >> 33) % below;
}

static void holds(int fact, const char *what)
{
    if (fact)
        ++passed;
    else if (++failed <= 20)
        printf("DIFFERS: %s\n", what);
}

static nms_change draw_change(uint64_t *seed)
{
    nms_change change = { 0 };
    const unsigned kind = drawn(seed, 40);
    change.part = (uint8_t)drawn(seed, PARTS);
    change.sym = (uint16_t)drawn(seed, SYMS);
    change.state = drawn(seed, 6) == 0;
    change.kind = (uint8_t)(kind < 37 ? NMS_QUOTE : kind - 36);
    change.lot = (uint16_t)(1 + drawn(seed, 100));
    change.bid_price = 99900 + drawn(seed, 64);
    change.offer_price = 99930 + drawn(seed, 128);
    change.bid_shares = 100 + drawn(seed, 900);
    change.offer_shares = 100 + drawn(seed, 900);
    return change;
}

static nms_order draw_order(uint64_t *seed, uint16_t sym)
{
    nms_order order = { 0 };
    order.sym = sym;
    order.side = (uint8_t)drawn(seed, 2);
    order.shares = 1 + drawn(seed, 3000);
    order.limit = 99900 + drawn(seed, 160);
    order.manual = (uint8_t)drawn(seed, 2);
    order.self_help = drawn(seed, 4) == 0 ? 1u << drawn(seed, PARTS) : 0;
    return order;
}

/* Reads and plans until the writer has ended. Its own numbers only: what they say is compared afterwards. */
static void *reads(void *given)
{
    const int me = (int)(size_t)given;
    uint64_t seed = first_seed + 72 + (unsigned)me, last[SYMS] = { 0 };
    while (!__atomic_load_n(&is_over, __ATOMIC_ACQUIRE)) {
        struct kept one = { 0 };
        const uint16_t sym = (uint16_t)drawn(&seed, SYMS);
        nms_doubt doubt;
        one.published = nms_shared_version(shared);
        if (nms_shared_get(shared, sym, &one.view) != NMS_OK)
            continue;
        ++looks[me];
        fallen[me] += one.view.version < last[sym];
        strange[me] += one.view.sym != sym;
        last[sym] = one.view.version;
        one.order = draw_order(&seed, sym);
        one.code = nms_plan_view(&terms, &one.view, &one.order, &one.plan);
        doubted[me] += one.code != NMS_OK || nms_confirm_view(&terms, &one.view, &one.order, &one.plan, &doubt) != NMS_OK;
        if (counts[me] < MOST_KEPT)
            kept[me][counts[me]++] = one;
    }
    return NULL;
}

static int by_version(const void *one, const void *other)
{
    const uint64_t a = ((const struct kept *)one)->view.version, b = ((const struct kept *)other)->view.version;
    return (a > b) - (a < b);
}

/* Whether two views show the same, whatever their versions. */
static int alike(const nms_view *one, const nms_view *other)
{
    return one->market == other->market && !memcmp(&one->bid, &other->bid, sizeof one->bid)
        && !memcmp(&one->offer, &other->offer, sizeof one->offer);
}

/* Compares what a reader kept with the changes, applied again. */
static void replay(int reader)
{
    unsigned long views = 0, plans = 0, later = 0, at = 0;
    uint64_t version = 0;
    qsort(kept[reader], counts[reader], sizeof(struct kept), by_version);
    for (unsigned long each = 0; each < counts[reader]; each++) {
        const struct kept *one = &kept[reader][each];
        nms_view shown;
        nms_plan plan;
        while (version < one->view.version && at < taken)
            version += nms_apply(&again, &changes[at++]) == NMS_OK;
        memset(&shown, 0, sizeof shown);
        memset(&plan, 0, sizeof plan);
        views += nms_view_of(&again, one->order.sym, &shown) == NMS_OK && !memcmp(&shown, &one->view, sizeof shown);
        plans += nms_plan_order(&again, &one->order, &plan) == one->code && !memcmp(&plan, &one->plan, sizeof plan);
    }
    holds(views == counts[reader], "a view is not what the board showed at its version");
    holds(plans == counts[reader], "a plan is not that of the board at its version");
    /* Up to the published version, each change left what the view shows. */
    for (unsigned long each = 0; each < counts[reader]; each++)
        later += kept[reader][each].published > kept[reader][each].view.version;
    printf("reader %d: %lu looks, %lu kept, %lu of them at a later published version\n", reader, looks[reader], counts[reader], later);
}

/* A view that was read when a later version was published shows what the board shows at that version. */
static int by_published(const void *one, const void *other)
{
    const uint64_t a = ((const struct kept *)one)->published, b = ((const struct kept *)other)->published;
    return (a > b) - (a < b);
}

static void replay_published(int reader)
{
    unsigned long same = 0, all = 0, at = 0;
    uint64_t version = 0;
    qsort(kept[reader], counts[reader], sizeof(struct kept), by_published);
    for (unsigned long each = 0; each < counts[reader]; each++) {
        const struct kept *one = &kept[reader][each];
        nms_view shown;
        if (one->published < one->view.version)
            continue;
        while (version < one->published && at < taken)
            version += nms_apply(&again, &changes[at++]) == NMS_OK;
        ++all;
        same += nms_view_of(&again, one->order.sym, &shown) == NMS_OK && alike(&shown, &one->view);
    }
    holds(same == all, "a view is not what the board showed at the version that was published");
}

static void refused(void)
{
    static uint64_t memory[4096];
    nms_shared *small;
    const nms_shared *found;
    nms_view view;
    holds(nms_shared_open(memory, sizeof memory, 60000, &small) == NMS_RANGE, "too little memory is refused");
    holds(nms_shared_find(memory, sizeof memory, &found) == NMS_WRONG_ABI, "memory that nobody made ready is refused");
    holds(nms_shared_open(memory, sizeof memory, 1, &small) == NMS_OK, "enough memory is made ready");
    holds(nms_shared_find(memory, sizeof memory, &found) == NMS_OK && found == small, "it is found");
    holds(nms_shared_find(memory, 20, &found) == NMS_RANGE, "a part of it is refused");
    holds(nms_shared_get(small, 0, &view) == NMS_NO_VIEW, "nothing was published of a symbol");
    holds(nms_shared_get(small, 1, &view) == NMS_NO_SYM, "a symbol that is not there");
    memset(&view, 0, sizeof view);
    view.version = 7;
    holds(nms_shared_put(small, &view) == NMS_OK && nms_shared_put(small, &view) == NMS_OK, "the same version again");
    view.version = 6;
    holds(nms_shared_put(small, &view) == NMS_RANGE, "an older view is refused");
    holds(nms_shared_get(small, 0, &view) == NMS_OK && view.version == 7, "the newer one is there");
    view.sym = 1;
    holds(nms_shared_put(small, &view) == NMS_NO_SYM, "a view of a symbol that is not there is refused");
    holds(nms_shared_put(NULL, &view) == NMS_NULL && nms_shared_get(small, 0, NULL) == NMS_NULL, "null pointers");
}

int main(int count, char **words)
{
    static char setup[1 << 16];
    FILE *file = count > 1 ? fopen(words[1], "rb") : NULL;
    const size_t bytes = file ? fread(setup, 1, sizeof setup, file) : 0;
    pthread_t thread[MOST_READERS];
    if (count > 2)
        wanted = strtoul(words[2], NULL, 10);
    if (count > 3)
        readers = atoi(words[3]) < 1 || atoi(words[3]) > MOST_READERS ? MOST_READERS : atoi(words[3]);
    if (count > 4)
        first_seed = strtoul(words[4], NULL, 10);
    uint64_t seed = first_seed;
    const size_t room = nms_shared_bytes(SYMS);
    changes = calloc(wanted, sizeof *changes);
    void *memory = calloc(1, room);
    if (!bytes || !changes || !memory || nms_open(setup, bytes, &board) || nms_open(setup, bytes, &again)
        || nms_terms_open(setup, bytes, &terms) || nms_shared_open(memory, room, SYMS, &shared))
        return 2;
    refused();
    for (int each = 0; each < readers; each++) {
        kept[each] = calloc(MOST_KEPT, sizeof(struct kept));
        if (!kept[each] || pthread_create(&thread[each], NULL, reads, (void *)(size_t)each))
            return 2;
    }
    unsigned long unpublished = 0;
    for (; taken < wanted; taken++) {
        changes[taken] = draw_change(&seed);
        if (nms_apply(&board, &changes[taken]) == NMS_OK)
            unpublished += nms_shared_put_change(shared, &board, &changes[taken]) != NMS_OK;
    }
    __atomic_store_n(&is_over, 1, __ATOMIC_RELEASE);
    holds(unpublished == 0, "each change is published");
    for (int each = 0; each < readers; each++) {
        pthread_join(thread[each], NULL);
        holds(fallen[each] == 0, "a version fell");
        holds(strange[each] == 0, "a view of another symbol");
        holds(doubted[each] == 0, "a plan on a view is not confirmed on it");
        nms_close(&again);
        holds(nms_open(setup, bytes, &again) == NMS_OK, "the board is opened again");
        replay(each);
        nms_close(&again);
        holds(nms_open(setup, bytes, &again) == NMS_OK, "the board is opened again");
        replay_published(each);
        free(kept[each]);
    }
    nms_close(&board);
    nms_close(&again);
    nms_terms_close(&terms);
    free(changes);
    free(memory);
    printf("%lu passed, %lu failed\n", passed, failed);
    return failed != 0;
}
