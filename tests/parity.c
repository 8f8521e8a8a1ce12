/* Answers a script on standard input through the library as nms_tool answers it: a queue of changes, which F applies, looks
 * N, trade-through tests E, orders O. Every plan is confirmed, written as text and read back. tests/parity.py compares.
 *
 *     parity SETUP numbers|text < SCRIPT      changes go as numbers (nms_apply_all), or as records (nms_apply_text)
 */
#include <nms.h>
#include <stdio.h>
#include <stdlib.h>
#include <string.h>

enum { QUEUE = 1024, FIELDS = 8, LINE = 256 };

static nms_board board = NMS_BOARD_CLOSED;
static nms_counts counts;
static char (*part_names)[NMS_NAME_ROOM], (*sym_names)[NMS_NAME_ROOM];

static void must(uint32_t code, const char *what)
{
    if (code != NMS_OK) {
        printf("%s: code %u\n", what, (unsigned)code);
        exit(1);
    }
}

static uint8_t part_of(const char *name)
{
    uint8_t part;
    must(nms_find_part(&board, name, strlen(name), &part), "nms_find_part");
    return part;
}

static uint16_t sym_of(const char *name)
{
    uint16_t sym;
    must(nms_find_sym(&board, name, strlen(name), &sym), "nms_find_sym");
    return sym;
}

/* A price field with n decimals. */
static uint64_t price_of(const char *text, int decimals)
{
    uint64_t price = strtoull(text, NULL, 10);
    const char *point = strchr(text, '.');
    for (int at = 1; at <= decimals; ++at) {
        price *= 10;
        if (point != NULL && point[at] >= '0' && point[at] <= '9')
            price += (uint64_t)(point[at] - '0');
        else
            point = NULL;
    }
    return price;
}

/* The fields of a line, which is cut at its commas. */
static int split(char *line, char *fields[FIELDS])
{
    int count = 0;
    for (char *at = line; at != NULL && count < FIELDS;) {
        fields[count++] = at;
        at = strchr(at, ',');
        if (at != NULL)
            *at++ = 0;
    }
    return count;
}

static uint8_t state_of(const char *letter)
{
    return *letter == 'A' ? NMS_AUTOMATED : *letter == 'M' ? NMS_MANUAL : NMS_HALTED;
}

static nms_change change_of(char *fields[FIELDS])
{
    nms_change change = { 0 };
    switch (*fields[0]) {
    case 'Q':
        change.kind = NMS_QUOTE;
        change.part = part_of(fields[1]);
        change.sym = sym_of(fields[2]);
        change.state = state_of(fields[3]);
        change.bid_shares = (uint32_t)strtoul(fields[5], NULL, 10);
        change.bid_price = change.bid_shares ? price_of(fields[4], 4) : 0;
        change.offer_shares = (uint32_t)strtoul(fields[7], NULL, 10);
        change.offer_price = change.offer_shares ? price_of(fields[6], 4) : 0;
        break;
    case 'S':
        change.kind = NMS_STATE;
        change.part = part_of(fields[1]);
        change.sym = sym_of(fields[2]);
        change.state = state_of(fields[3]);
        break;
    case 'X':
        change.kind = NMS_WITHDRAW;
        change.part = part_of(fields[1]);
        break;
    default:
        change.kind = NMS_LOT;
        change.sym = sym_of(fields[1]);
        change.lot = (uint16_t)strtoul(fields[2], NULL, 10);
    }
    return change;
}

static void print_price(uint64_t price)
{
    printf("%llu.%04llu", (unsigned long long)(price / 10000), (unsigned long long)(price % 10000));
}

/* part,price,size of a row. */
static void print_row(const nms_row *row)
{
    printf("%s,", part_names[row->part]);
    print_price(row->price);
    printf(",%u", (unsigned)row->size);
}

static void look(char *fields[FIELDS])
{
    static const char *const markets[] = { "EMPTY", "ONESIDED", "NORMAL", "LOCKED", "CROSSED" };
    nms_best best;
    const nms_row *rows[2] = { &best.bid, &best.offer };
    must(nms_best_of(&board, sym_of(fields[2]), &best), "nms_best_of");
    printf("BEST,%s,%s,%llu,%s", fields[1], fields[2], (unsigned long long)best.version, markets[best.market]);
    for (int side = 0; side < 2; ++side) {
        putchar(',');
        if (rows[side]->size == 0)
            printf(",,,");
        else {
            print_row(rows[side]);
            printf(",%llu", (unsigned long long)rows[side]->receipt);
        }
    }
    putchar('\n');
}

static void through(char *fields[FIELDS])
{
    nms_through found;
    must(nms_traded_through(&board, sym_of(fields[2]), price_of(fields[3], 6), &found), "nms_traded_through");
    printf("THRU,%s,%s,%llu,", fields[1], fields[2], (unsigned long long)found.version);
    print_price(price_of(fields[3], 4));
    printf(",%u\n", (unsigned)(found.bids + found.offers));
    for (uint32_t at = 0; at < found.bids + found.offers; ++at) {
        const nms_row *row = at < found.bids ? &found.bid[at] : &found.offer[at - found.bids];
        printf("ROW,%s,", at < found.bids ? "BID" : "OFFER");
        print_row(row);
        putchar('\n');
    }
}

static void order(char *fields[FIELDS], int count)
{
    nms_order order = { 0 }, again;
    nms_plan plan, read;
    nms_doubt doubt;
    char text[NMS_PLAN_TEXT_ROOM];
    size_t bytes;
    order.side = *fields[2] == 'B' ? NMS_BUY : NMS_SELL;
    order.sym = sym_of(fields[3]);
    order.shares = (uint32_t)strtoul(fields[4], NULL, 10);
    order.limit = price_of(fields[5], 4);
    order.manual = count > 6 && *fields[6] == 'M';
    for (char *name = count > 7 ? fields[7] : NULL; name != NULL;) {
        char *plus = strchr(name, '+');
        if (plus != NULL)
            *plus++ = 0;
        order.self_help |= 1u << part_of(name);
        name = plus;
    }
    must(nms_plan_order(&board, &order, &plan), "nms_plan_order");
    must(nms_confirm(&board, &order, &plan, &doubt), "nms_confirm");
    must(nms_plan_text(&board, &order, &plan, text, sizeof text, &bytes), "nms_plan_text");
    fwrite(text, 1, bytes, stdout);
    must(nms_read_plan(&board, text, bytes, &again, &read), "nms_read_plan");
    if (memcmp(&again, &order, sizeof order) != 0 || memcmp(&read, &plan, sizeof plan) != 0)
        printf("a plan is not read back as it was written\n");
}

int main(int argc, char **words)
{
    static char setup[1 << 20], line[LINE], waiting[QUEUE][LINE];
    static nms_change queue[QUEUE];
    size_t waits = 0, bytes, applied;
    FILE *file = argc == 3 ? fopen(words[1], "rb") : NULL;
    if (file == NULL)
        return 2;
    const int by_text = strcmp(words[2], "text") == 0;
    bytes = fread(setup, 1, sizeof setup, file);
    fclose(file);
    must(nms_open(setup, bytes, &board), "nms_open");
    must(nms_counts_of(&board, &counts), "nms_counts_of");
    part_names = calloc(counts.parts, sizeof *part_names);
    sym_names = calloc(counts.syms, sizeof *sym_names);
    for (unsigned at = 0; at < counts.parts; ++at)
        must(nms_part_name(&board, (uint8_t)at, part_names[at], NMS_NAME_ROOM, &bytes), "nms_part_name");
    for (unsigned at = 0; at < counts.syms; ++at) {
        must(nms_sym_name(&board, (uint16_t)at, sym_names[at], NMS_NAME_ROOM, &bytes), "nms_sym_name");
        if (sym_of(sym_names[at]) != at)
            printf("a symbol's name is not found at its number\n");
    }
    while (fgets(line, sizeof line, stdin) != NULL) {
        char *fields[FIELDS];
        line[strcspn(line, "\n")] = 0;
        if (strchr("QSXR", *line) != NULL && waits < QUEUE) {
            if (by_text)
                strcpy(waiting[waits++], line);
            else {
                split(line, fields);
                queue[waits++] = change_of(fields);
            }
            continue;
        }
        const int count = split(line, fields);
        switch (*line) {
        case 'F':
            if (by_text)
                for (size_t at = 0; at < waits; ++at)
                    must(nms_apply_text(&board, waiting[at], strlen(waiting[at])), "nms_apply_text");
            else
                must(nms_apply_all(&board, queue, waits, &applied), "nms_apply_all");
            waits = 0;
            must(nms_counts_of(&board, &counts), "nms_counts_of");
            printf("PUB,%llu\n", (unsigned long long)counts.applied);
            break;
        case 'N':
            look(fields);
            break;
        case 'E':
            through(fields);
            break;
        case 'O':
            order(fields, count);
            break;
        default:
            printf("a record that this program can't answer: %s\n", line);
        }
    }
    must(nms_close(&board), "nms_close");
    free(part_names);
    free(sym_names);
    return 0;
}
