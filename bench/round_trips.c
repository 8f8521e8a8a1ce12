/* Times round trips through a program on two pipes: a request of some records is written, and its answer read.
 *
 *     round_trips REQUESTS PROGRAM WORD..      prints a line for each kind of request (bench/latency reads them)
 *
 * REQUESTS has one request a line: its kind, how many lines its answer has at least, the word that begins the answer's last
 * line, and the records with a bar in place of each line end. As `look 2 BEST Q,AA,AAA,A,1,100,2,100|F|N,0,AAA|`. A line of
 * numbers is as in bench/latency.c.
 */
#define _GNU_SOURCE
#include <inttypes.h>
#include <stdio.h>
#include <stdlib.h>
#include <string.h>
#include <sys/wait.h>
#include <time.h>
#include <unistd.h>

enum { KINDS = 4, ROOM = 1 << 16 };

static int64_t now(void)
{
    struct timespec time;
    clock_gettime(CLOCK_MONOTONIC, &time);
    return (int64_t)time.tv_sec * 1000000000 + time.tv_nsec;
}

static int compare(const void *one, const void *other)
{
    const int64_t a = *(const int64_t *)one, b = *(const int64_t *)other;
    return (a > b) - (a < b);
}

static void fails(const char *what)
{
    perror(what);
    exit(1);
}

/* Whether an answer is whole: it ends in a line that begins with a word. */
static int is_whole(const char *answer, size_t bytes, const char *word)
{
    size_t at = bytes;
    if (bytes == 0 || answer[bytes - 1] != '\n')
        return 0;
    while (--at > 0 && answer[at - 1] != '\n') {}
    return strncmp(answer + at, word, strlen(word)) == 0;
}

int main(int argc, char **words)
{
    static char line[ROOM], answer[ROOM];
    char names[KINDS][16];
    int64_t *taken[KINDS];
    size_t counts[KINDS] = { 0 }, kinds = 0;
    int to[2], from[2], status;
    uint64_t sum = 0xcbf29ce484222325u;
    FILE *requests = argc > 2 ? fopen(words[1], "r") : NULL;
    if (requests == NULL || pipe(to) != 0 || pipe(from) != 0)
        fails("round_trips");
    const pid_t child = fork();
    if (child == 0) {
        dup2(to[0], 0);
        dup2(from[1], 1);
        for (int at = 0; at < 2; ++at) {
            close(to[at]);
            close(from[at]);
        }
        execv(words[2], words + 2);
        fails(words[2]);
    }
    close(to[0]);
    close(from[1]);
    while (fgets(line, sizeof line, requests) != NULL) {
        char kind[16], word[16];
        int at, lines;
        if (sscanf(line, "%15s %d %15s %n", kind, &lines, word, &at) != 3)
            fails("a request");
        char *record = line + at;
        size_t bytes = strcspn(record, "\n"), got = 0;
        size_t which = 0;
        for (size_t i = 0; i < bytes; ++i)
            if (record[i] == '|')
                record[i] = '\n';
        while (which < kinds && strcmp(names[which], kind) != 0)
            ++which;
        if (which == kinds) {
            if (kinds == KINDS)
                fails("too many kinds");
            strcpy(names[kinds], kind);
            taken[kinds++] = malloc(10000000 * sizeof(int64_t));
        }
        const int64_t began = now();
        if (write(to[1], record, bytes) != (ssize_t)bytes)
            fails("write");
        while (!is_whole(answer, got, word)) {
            const ssize_t more = read(from[0], answer + got, sizeof answer - got);
            if (more <= 0)
                fails("read");
            got += (size_t)more;
        }
        taken[which][counts[which]++] = now() - began;
        for (size_t i = 0; i < got; ++i)
            sum = (sum ^ (unsigned char)answer[i]) * 0x100000001b3u;
    }
    close(to[1]);
    waitpid(child, &status, 0);
    for (size_t which = 0; which < kinds; ++which) {
        static const double shares[] = { 0.5, 0.99, 0.999 };
        double all = 0;
        qsort(taken[which], counts[which], sizeof(int64_t), compare);
        printf("%s %zu", names[which], counts[which]);
        for (int at = 0; at < 3; ++at)
            printf(" %" PRId64, taken[which][(size_t)((double)counts[which] * shares[at])]);
        for (size_t at = 0; at < counts[which]; ++at)
            all += (double)taken[which][at];
        printf(" %.1f\n", all / (double)counts[which]);
    }
    printf("sum %016" PRIx64 "\n", sum);
    return status != 0;
}
