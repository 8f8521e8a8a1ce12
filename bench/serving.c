/* Times a board that runs, over its FIFOs: from an order to its answer, and from a change to a look that shows it, while a feed sends
 * changes at an even pace.
 *
 *     serving orders FEED LINES PACE ASKS ANSWERS REQUESTS COUNT REST
 *     serving changes FEED LINES PACE ASKS ANSWERS CHANGED COUNT REST
 *
 * LINES are sent to FEED again and again, PACE a second, a few each 200 microseconds. `orders` sends the lines of REQUESTS one after
 * another, each once the answer before is whole, and rests REST microseconds between two. `changes` sends a new quotation to CHANGED,
 * and looks again and again until an answer shows it. The times of COUNT of them are printed, in nanoseconds: the middle, the 99th of
 * 100, the 999th of 1,000, the longest. Then how many changes a second were sent.
 */
#define _GNU_SOURCE
#include <errno.h>
#include <fcntl.h>
#include <inttypes.h>
#include <pthread.h>
#include <stdatomic.h>
#include <stdio.h>
#include <stdlib.h>
#include <string.h>
#include <time.h>
#include <unistd.h>

enum { ROOM = 1 << 16, TICK = 200000, BEFORE = 2000 };

static atomic_bool is_over;
static _Atomic uint64_t sent;

static int64_t now(void)
{
    struct timespec time;
    clock_gettime(CLOCK_MONOTONIC, &time);
    return (int64_t)time.tv_sec * 1000000000 + time.tv_nsec;
}

static void sleep_until(int64_t at)
{
    const struct timespec time = { at / 1000000000, at % 1000000000 };
    while (clock_nanosleep(CLOCK_MONOTONIC, TIMER_ABSTIME, &time, NULL) == EINTR) {}
}

static void fails(const char *what)
{
    perror(what);
    exit(1);
}

static int opened(const char *path, int mode)
{
    const int file = open(path, mode);
    if (file < 0)
        fails(path);
    return file;
}

static void write_all(int file, const char *text, size_t bytes)
{
    while (bytes > 0) {
        const ssize_t more = write(file, text, bytes);
        if (more <= 0)
            fails("write");
        text += more;
        bytes -= (size_t)more;
    }
}

/* The text of a file, and where each of its lines begins. */
struct lines {
    char *text;
    size_t *starts, count;
};

static struct lines lines_of(const char *path)
{
    struct lines lines = { NULL, NULL, 0 };
    FILE *file = fopen(path, "rb");
    if (file == NULL || fseek(file, 0, SEEK_END) != 0)
        fails(path);
    const size_t bytes = (size_t)ftell(file);
    rewind(file);
    lines.text = malloc(bytes + 1);
    lines.starts = malloc((bytes + 2) * sizeof(size_t));
    if (lines.text == NULL || lines.starts == NULL || fread(lines.text, 1, bytes, file) != bytes)
        fails(path);
    fclose(file);
    lines.starts[0] = 0;
    for (size_t at = 0; at < bytes; ++at)
        if (lines.text[at] == '\n')
            lines.starts[++lines.count] = at + 1;
    if (lines.count == 0)
        fails("a file without lines");
    return lines;
}

struct pace {
    const char *feed;
    struct lines lines;
    double pace;
};

/* Sends lines at an even pace. */
static void *feed_on(void *of)
{
    const struct pace *pace = of;
    const int file = opened(pace->feed, O_WRONLY);
    const int64_t began = now();
    size_t place = 0;
    for (int64_t tick = 1; !atomic_load(&is_over); ++tick) {
        const uint64_t due = (uint64_t)(pace->pace * (double)(tick * TICK) / 1e9), before = atomic_load(&sent);
        if (due > before) {
            uint64_t count = due - before;
            while (count > 0) {
                size_t end = place + count;
                if (end > pace->lines.count)
                    end = pace->lines.count;
                write_all(file, pace->lines.text + pace->lines.starts[place], pace->lines.starts[end] - pace->lines.starts[place]);
                count -= end - place;
                place = end % pace->lines.count;
            }
            atomic_store(&sent, due);
        }
        sleep_until(began + tick * TICK);
    }
    close(file);
    return NULL;
}

/* Whether an answer is whole: one line, or a plan up to its END. A line of an epoch is none. */
static int is_whole(const char *answer, size_t bytes)
{
    size_t at = bytes;
    if (bytes == 0 || answer[bytes - 1] != '\n')
        return 0;
    while (--at > 0 && answer[at - 1] != '\n') {}
    return strncmp(answer + at, "END\n", 4) == 0 || strncmp(answer + at, "BEST,", 5) == 0 || strncmp(answer + at, "ERR,", 4) == 0;
}

static size_t ask(int asks, int answers, const char *request, size_t bytes, char *answer)
{
    size_t got = 0;
    write_all(asks, request, bytes);
    while (!is_whole(answer, got)) {
        const ssize_t more = read(answers, answer + got, ROOM - 1 - got);
        if (more <= 0)
            fails("an answer");
        got += (size_t)more;
    }
    answer[got] = 0;
    return got;
}

static int compare(const void *one, const void *other)
{
    const int64_t a = *(const int64_t *)one, b = *(const int64_t *)other;
    return (a > b) - (a < b);
}

int main(int argc, char **words)
{
    static char answer[ROOM], text[256], shown[64];
    if (argc != 10 || (strcmp(words[1], "orders") != 0 && strcmp(words[1], "changes") != 0)) {
        fprintf(stderr, "serving orders|changes FEED LINES PACE ASKS ANSWERS REQUESTS|CHANGED COUNT REST\n");
        return 2;
    }
    const int is_order = strcmp(words[1], "orders") == 0;
    const size_t count = strtoul(words[8], NULL, 10);
    const int64_t rest = strtoll(words[9], NULL, 10) * 1000;
    struct pace pace = { words[2], lines_of(words[3]), strtod(words[4], NULL) };
    pthread_t feeding;
    if (pthread_create(&feeding, NULL, feed_on, &pace) != 0)
        fails("a thread");
    const int asks = opened(words[5], O_WRONLY), answers = opened(words[6], O_RDONLY);
    struct lines requests = { NULL, NULL, 0 };
    int changed = -1;
    if (is_order)
        requests = lines_of(words[7]);
    else
        changed = opened(words[7], O_WRONLY);
    int64_t *taken = malloc(count * sizeof(int64_t));
    if (taken == NULL)
        fails("memory");
    uint64_t before = 0;
    int64_t began = 0;
    for (size_t turn = 0; turn < count + BEFORE; ++turn) {
        if (rest > 0)
            sleep_until(now() + rest);
        if (turn == BEFORE) {
            before = atomic_load(&sent);
            began = now();
        }
        int64_t since;
        if (is_order) {
            const size_t place = turn % requests.count;
            const char *request = requests.text + requests.starts[place];
            since = now();
            ask(asks, answers, request, requests.starts[place + 1] - requests.starts[place], answer);
            if (strstr(answer, "PLAN,") == NULL) {
                fprintf(stderr, "an order has no plan: %s", answer);
                return 1;
            }
        } else {
            const unsigned shares = 100 * (1 + (unsigned)(turn % 9000000));
            snprintf(shown, sizeof shown, ",10.0000,%u,", shares);
            const int bytes = snprintf(text, sizeof text, "Q,ZZ,ZZZ,A,10,%u,10.01,%u\n", shares, shares);
            since = now();
            write_all(changed, text, (size_t)bytes);
            do
                ask(asks, answers, "N,1,ZZZ\n", 8, answer);
            while (strstr(answer, shown) == NULL);
        }
        if (turn >= BEFORE)
            taken[turn - BEFORE] = now() - since;
    }
    const double seconds = (double)(now() - began) / 1e9;
    const double pace_had = (double)(atomic_load(&sent) - before) / seconds;
    atomic_store(&is_over, 1);
    pthread_join(feeding, NULL);
    close(asks);
    while (read(answers, answer, ROOM) > 0) {}
    qsort(taken, count, sizeof(int64_t), compare);
    printf("%" PRId64 " %" PRId64 " %" PRId64 " %" PRId64 " %.0f\n", taken[count / 2], taken[count * 99 / 100], taken[count * 999 / 1000], taken[count - 1], pace_had);
    return 0;
}
