/* Looks that run together: four threads make all 14 looks at one board under a reader's lock, while a fifth applies changes
 * under the writer's. What a reader is answered has to be, byte for byte, what a single thread is answered at that version.
 *
 *     readers SETUP [ROUNDS]      the built-in setup; each reader makes all looks ROUNDS times, 10,000 by default
 *
 * Prints the first differences, and last `N passed, M failed`.
 */
#define _GNU_SOURCE
#include <nms.h>
#include <pthread.h>
#include <sched.h>
#include <stdio.h>
#include <stdlib.h>
#include <string.h>

enum { READERS = 4, CHANGES = 900, SYMS = 2, PARTS = 4 };

static nms_board board = NMS_BOARD_CLOSED;
static nms_change changes[CHANGES];
static nms_order order;
static nms_plan plan;
/* What all looks answer at each version, by a single thread. */
static uint64_t wanted[CHANGES + 1];
static unsigned long rounds = 10000;

static pthread_rwlock_t lock;
static pthread_mutex_t count_lock = PTHREAD_MUTEX_INITIALIZER;
static unsigned long rounds_made, passed, failed;

static uint64_t add(uint64_t sum, const void *at, size_t size)
{
    const unsigned char *byte = at;
    for (size_t i = 0; i < size; ++i)
        sum = (sum ^ byte[i]) * 1099511628211ul;
    return sum;
}

/* LOOK(call, out) adds the code of a look and what it wrote. */
#define LOOK(call, out)                       \
    do {                                      \
        memset(&(out), 0x5A, sizeof(out));    \
        const uint32_t code = (call);         \
        sum = add(sum, &code, sizeof code);   \
        sum = add(sum, &(out), sizeof(out));  \
    } while (0)

/* A sum of what the 14 looks answer at both symbols. The version that they show goes to *version. */
static uint64_t looked(const nms_board *at, uint64_t *version)
{
    uint64_t sum = 1469598103934665603ul;
    nms_counts counts;
    nms_plan now = plan;
    nms_doubt doubt;
    uint8_t part;
    char name[NMS_NAME_ROOM];
    size_t bytes = 0;
    LOOK(nms_counts_of(at, &counts), counts);
    *version = counts.applied;
    now.version = counts.applied;
    LOOK(nms_confirm(at, &order, &now, &doubt), doubt);
    LOOK(nms_find_part(at, "Y", 1, &part), part);
    LOOK(nms_part_name(at, part, name, sizeof name, &bytes), name);
    for (uint16_t sym = 0; sym < SYMS; ++sym) {
        nms_best best;
        nms_row row;
        nms_rows rows;
        nms_view view;
        nms_through through;
        nms_opening opening;
        nms_plan made;
        int64_t cost;
        uint16_t found;
        LOOK(nms_best_of(at, sym, &best), best);
        LOOK(nms_ranked(at, sym, NMS_OFFER, 1, &row), row);
        LOOK(nms_rows_of(at, sym, NMS_BID, &rows), rows);
        LOOK(nms_view_of(at, sym, &view), view);
        LOOK(nms_traded_through(at, sym, 9999000, &through), through);
        LOOK(nms_unit_cost(at, 2, NMS_BUY, 100000, &cost), cost);
        LOOK(nms_opening_of(at, sym, &opening), opening);
        LOOK(nms_plan_order(at, &order, &made), made);
        LOOK(nms_sym_name(at, sym, name, sizeof name, &bytes), name);
        LOOK(nms_find_sym(at, name, bytes, &found), found);
    }
    return sum;
}

static void *reader(void *unused)
{
    unsigned long right = 0, wrong = 0;
    for (unsigned long round = 0; round < rounds; ++round) {
        uint64_t version = 0;
        pthread_rwlock_rdlock(&lock);
        const uint64_t sum = looked(&board, &version);
        pthread_rwlock_unlock(&lock);
        if (version <= CHANGES && sum == wanted[version])
            ++right;
        else
            ++wrong;
        pthread_mutex_lock(&count_lock);
        ++rounds_made;
        pthread_mutex_unlock(&count_lock);
    }
    pthread_mutex_lock(&count_lock);
    passed += right;
    failed += wrong;
    if (wrong > 0)
        printf("DIFFERS: %lu of %lu rounds of looks beside other threads\n", wrong, rounds);
    pthread_mutex_unlock(&count_lock);
    return unused;
}

/* Waits until the readers have made so many rounds that this change is due, so that changes and looks go on side by side. */
static void wait_for(unsigned at)
{
    const unsigned long due = at * READERS * rounds / CHANGES;
    for (int is_due = 0; !is_due;) {
        pthread_mutex_lock(&count_lock);
        is_due = rounds_made >= due;
        pthread_mutex_unlock(&count_lock);
        if (!is_due)
            sched_yield();
    }
}

static void *writer(void *unused)
{
    for (unsigned at = 0; at < CHANGES; ++at) {
        wait_for(at);
        pthread_rwlock_wrlock(&lock);
        const uint32_t code = nms_apply(&board, &changes[at]);
        pthread_rwlock_unlock(&lock);
        pthread_mutex_lock(&count_lock);
        if (code == NMS_OK)
            ++passed;
        else {
            ++failed;
            printf("DIFFERS: change %u beside readers: code %u\n", at, (unsigned)code);
        }
        pthread_mutex_unlock(&count_lock);
    }
    return unused;
}

/* Changes by all participants in both symbols: quotations, states, withdrawals and round lots. */
static void draw_changes(void)
{
    uint64_t seed = 0x9E3779B97F4A7C15ul;
    for (unsigned at = 0; at < CHANGES; ++at) {
        nms_change *change = &changes[at];
        seed = seed * 6364136223846793005ul + 1442695040888963407ul;
        const unsigned drawn = (unsigned)(seed >> 33);
        change->part = drawn % PARTS;
        change->sym = drawn / 8 % SYMS;
        change->state = drawn / 16 % 8 == 0;
        change->kind = drawn / 128 % 16 < 13 ? NMS_QUOTE : (uint8_t)(drawn / 128 % 16 - 12);
        change->lot = (uint16_t)(1 + drawn / 2048 % 100);
        change->bid_price = 99900 + drawn / 4096 % 64;
        change->offer_price = 99950 + drawn / 8192 % 128;
        change->bid_shares = 100 + drawn % 900;
        change->offer_shares = 100 + drawn / 32 % 900;
    }
}

/* Opens the board, and asks on another one what a single thread is answered after each change. */
static int prepare(const char *setup, size_t bytes)
{
    nms_board lone = NMS_BOARD_CLOSED;
    size_t applied;
    uint64_t version;
    draw_changes();
    order.limit = 100050;
    order.shares = 700;
    /* The plan of an early version, which later ones mostly doubt. */
    if (nms_open(setup, bytes, &lone) != NMS_OK || nms_apply_all(&lone, changes, 20, &applied) != NMS_OK ||
        nms_plan_order(&lone, &order, &plan) != NMS_OK || plan.legs == 0 || nms_close(&lone) != NMS_OK)
        return 0;
    if (nms_open(setup, bytes, &board) != NMS_OK || nms_open(setup, bytes, &lone) != NMS_OK)
        return 0;
    for (unsigned at = 0; at <= CHANGES; ++at) {
        if (at > 0 && nms_apply(&lone, &changes[at - 1]) != NMS_OK)
            return 0;
        wanted[at] = looked(&lone, &version);
        if (version != at)
            return 0;
    }
    return nms_close(&lone) == NMS_OK;
}

int main(int count, char **words)
{
    static char setup[1 << 16];
    pthread_t threads[READERS + 1];
    pthread_rwlockattr_t kind;
    FILE *file = count > 1 ? fopen(words[1], "rb") : NULL;
    if (file == NULL)
        return 2;
    const size_t bytes = fread(setup, 1, sizeof setup, file);
    fclose(file);
    if (count > 2)
        rounds = strtoul(words[2], NULL, 10);
    if (!prepare(setup, bytes)) {
        printf("DIFFERS: a single thread is refused\n0 passed, 1 failed\n");
        return 1;
    }
    pthread_rwlockattr_init(&kind);
#ifdef PTHREAD_RWLOCK_WRITER_NONRECURSIVE_INITIALIZER_NP
    /* Else the readers would keep the writer out until they have ended. */
    pthread_rwlockattr_setkind_np(&kind, PTHREAD_RWLOCK_PREFER_WRITER_NONRECURSIVE_NP);
#endif
    pthread_rwlock_init(&lock, &kind);
    for (int at = 0; at <= READERS; ++at)
        pthread_create(&threads[at], NULL, at < READERS ? reader : writer, NULL);
    for (int at = 0; at <= READERS; ++at)
        pthread_join(threads[at], NULL);
    uint64_t version = 0;
    const uint64_t sum = looked(&board, &version);
    if (version == CHANGES && sum == wanted[CHANGES] && nms_close(&board) == NMS_OK)
        ++passed;
    else {
        ++failed;
        printf("DIFFERS: the board after all threads\n");
    }
    printf("%lu passed, %lu failed\n", passed, failed);
    return failed != 0;
}
