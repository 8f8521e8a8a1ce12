/* The longest that a change takes on a board of 1,000 symbols and 32 participants, also while the board goes over to its second one.
 *
 *     rolling [CHANGES]      30,000,000 by default. Link it with libnms.a
 *
 * Prints nanoseconds of single changes, with the clock's own cost: how many, the middle, the 99th of 100, the longest; then the
 * same of the 1,000 changes while the board goes over for the first time. The machine's own pauses are in it.
 */
#define _GNU_SOURCE
#include <nms.h>
#include <inttypes.h>
#include <stdio.h>
#include <stdlib.h>
#include <time.h>

enum { SYMS = NMS_MOST_SYMS, PARTS = NMS_MOST_PARTS, BEGINS = 9990000, KEPT = 1000000 };

static int64_t now(void)
{
    struct timespec time;
    clock_gettime(CLOCK_MONOTONIC, &time);
    return (int64_t)time.tv_sec * 1000000000 + time.tv_nsec;
}

static int by_size(const void *one, const void *other)
{
    const int64_t a = *(const int64_t *)one, b = *(const int64_t *)other;
    return (a > b) - (a < b);
}

static void print(const char *name, int64_t *took, size_t count, int64_t longest)
{
    if (count == 0)
        return;
    qsort(took, count, sizeof *took, by_size);
    printf("%s %zu %" PRId64 " %" PRId64 " %" PRId64 "\n", name, count, took[count / 2], took[count - 1 - count / 100], longest);
}

int main(int count, char **words)
{
    static char setup[200000];
    const uint64_t wanted = count > 1 ? strtoull(words[1], NULL, 10) : 30000000;
    int at = sprintf(setup, "tape_limit = 1000\nqueue = 16\ndesks = 1\n");
    for (int part = 0; part < PARTS; part++)
        at += sprintf(setup + at, "[[participant]]\nname = \"%c%c\"\nfeed = \"A\"\nfee = 0\nrate = 0\n", 'A' + part / 26, 'A' + part % 26);
    for (int sym = 0; sym < SYMS; sym++)
        at += sprintf(setup + at, "[[symbol]]\nname = \"%c%c%c\"\nlot = 100\n", 'A' + sym / 676, 'A' + sym / 26 % 26, 'A' + sym % 26);
    nms_board board = NMS_BOARD_CLOSED;
    int64_t *took = malloc(KEPT * sizeof *took), *over = malloc(KEPT * sizeof *over), longest = 0, longest_over = 0;
    size_t kept = 0, kept_over = 0;
    uint64_t seed = 9;
    if (!took || !over || nms_open(setup, (size_t)at, &board) != NMS_OK)
        return 2;
    for (uint64_t each = 0; each < wanted; each++) {
        nms_change change = { 0 };
        seed = seed * 6364136223846793005u + 1442695040888963407u;
        const unsigned drawn = (unsigned)(seed >> 33);
        change.part = (uint8_t)(drawn % PARTS);
        change.sym = (uint16_t)(drawn / PARTS % SYMS);
        change.bid_price = 99000 + drawn / 32000 % 900;
        change.offer_price = 100000 + drawn / 32000 % 800;
        change.bid_shares = change.offer_shares = 100 + drawn % 900;
        const int64_t from = now();
        if (nms_apply(&board, &change) != NMS_OK)
            return 1;
        const int64_t took_now = now() - from;
        const int is_over = each >= BEGINS && each < BEGINS + SYMS;
        if (is_over && kept_over < KEPT)
            over[kept_over++] = took_now;
        else if (kept < KEPT)
            took[kept++] = took_now;
        if (is_over)
            longest_over = took_now > longest_over ? took_now : longest_over;
        else
            longest = took_now > longest ? took_now : longest;
    }
    print("changes", took, kept, longest);
    print("changes_while_it_goes_over", over, kept_over, longest_over);
    return nms_close(&board) != NMS_OK;
}
