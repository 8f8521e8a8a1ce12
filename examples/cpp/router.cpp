// A small order router: it reads a feed of changes from standard input, plans each order that comes among them, has each
// plan confirmed, and prints the legs as child orders. At the end it prints the position of each symbol.
//
//     g++ -std=c++17 -I include examples/cpp/router.cpp crates/nms_c/out/libnms.a -o router
//     ./router examples/builtin.toml < examples/cpp/day.feed      prints examples/cpp/router.out
//
// A line of the feed is a record of a file of changes (Q, S, X, R), or an order of a customer:
//
//     O,ID,SIDE,SYM,SHARES,LIMIT[,AWAY]    SIDE is B or S; AWAY is a participant that self-help is declared against
//
// What an order can't fill at once is cancelled. The child orders count as executed; a real router waits for reports.
#include <nms.hpp>

#include <cstdio>
#include <fstream>
#include <iostream>
#include <map>
#include <sstream>
#include <string>
#include <vector>

namespace {

// A sum of nanodollars: 128 bits, as in a plan.
__extension__ typedef __int128 Money;

// Shares held, and nanodollars paid for them with fees: both are negative after a sale.
struct Position {
    long long shares = 0;
    Money cost = 0;
};

std::vector<std::string> fields_of(const std::string &line)
{
    std::vector<std::string> fields;
    std::istringstream text(line);
    for (std::string field; std::getline(text, field, ',');)
        fields.push_back(field);
    return fields;
}

// The number that 1 to `most` digits say. Any other text is refused with a code.
std::uint64_t number_of(const std::string &text, std::size_t most, std::uint32_t code)
{
    if (text.empty() || text.size() > most || text.find_first_not_of("0123456789") != std::string::npos)
        throw nms::Error(code);
    return std::stoull(text);
}

// A price of at most four decimals, in 1/10,000 dollar.
std::uint64_t price_of(const std::string &text)
{
    const auto point = text.find('.');
    std::string decimals = point == std::string::npos ? "0" : text.substr(point + 1);
    number_of(decimals, 4, NMS_L6_BAD_PRICE);
    decimals.resize(4, '0');
    return number_of(text.substr(0, point), 7, NMS_L6_BAD_PRICE) * 10000 + std::stoull(decimals);
}

std::string dollars(std::uint64_t price)
{
    char text[32];
    std::snprintf(text, sizeof text, "%llu.%04llu", static_cast<unsigned long long>(price / 10000),
                  static_cast<unsigned long long>(price % 10000));
    return text;
}

std::string money(Money nanodollars)
{
    const Money size = nanodollars < 0 ? -nanodollars : nanodollars;
    char text[64];
    std::snprintf(text, sizeof text, "%s%llu.%09llu", nanodollars < 0 ? "-" : "",
                  static_cast<unsigned long long>(size / 1000000000), static_cast<unsigned long long>(size % 1000000000));
    return text;
}

// The cost of a plan: cost_high * 2^64 + cost_low nanodollars.
Money cost_of(const nms_plan &plan)
{
    return static_cast<Money>(plan.cost_high) * (static_cast<Money>(1) << 64) + plan.cost_low;
}

class Router {
public:
    explicit Router(const std::string &setup) : board_(setup) {}

    void take(const std::string &line)
    {
        if (line.rfind("O,", 0) == 0)
            route(fields_of(line));
        else
            board_.apply(line);
    }

    void report()
    {
        for (const auto &[sym, held] : positions_)
            std::printf("POSITION %s %+lld shares, %s dollars\n", board_.sym_name(sym).c_str(), held.shares, money(held.cost).c_str());
    }

private:
    void route(const std::vector<std::string> &fields)
    {
        if (fields.size() != 6 && fields.size() != 7)
            throw nms::Error(NMS_L2_FIELD_COUNT);
        if (fields[2] != "B" && fields[2] != "S")
            throw nms::Error(NMS_L5_BAD_STATE);
        nms_order order{};
        const std::string id = fields[1];
        order.side = fields[2] == "B" ? NMS_BUY : NMS_SELL;
        order.sym = board_.sym(fields[3]);
        order.shares = static_cast<std::uint32_t>(number_of(fields[4], 9, NMS_L7_BAD_SHARES));
        order.limit = price_of(fields[5]);
        if (fields.size() > 6)
            order.self_help = 1u << board_.part(fields[6]);

        const nms_plan plan = board_.plan(order);
        // No child order leaves before the checker has confirmed the plan: it trusts nothing of the planner.
        if (const auto doubt = board_.doubt(order, plan)) {
            std::printf("ORDER %s is doubted: K%u\n", id.c_str(), doubt->doubt);
            return;
        }
        std::printf("ORDER %s %s %u %s at %s: %u filled on version %llu\n", id.c_str(), order.side == NMS_BUY ? "buys" : "sells",
                    order.shares, fields[3].c_str(), dollars(order.limit).c_str(), plan.filled,
                    static_cast<unsigned long long>(plan.version));
        for (std::uint32_t leg = 0; leg < plan.legs; ++leg)
            std::printf("  CHILD %s.%u to %s: %u at %s, intermarket sweep\n", id.c_str(), leg + 1,
                        board_.part_name(plan.leg[leg].part).c_str(), plan.leg[leg].shares, dollars(plan.leg[leg].price).c_str());
        Position &held = positions_[order.sym];
        held.shares += order.side == NMS_BUY ? static_cast<long long>(plan.filled) : -static_cast<long long>(plan.filled);
        held.cost += cost_of(plan);
    }

    nms::Board board_;
    std::map<std::uint16_t, Position> positions_;
};

} // namespace

int main(int count, char **words)
{
    if (count != 2) {
        std::fprintf(stderr, "usage: router SETUP < FEED\n");
        return 2;
    }
    std::ifstream file(words[1], std::ios::binary);
    if (!file) {
        std::fprintf(stderr, "router: no file %s\n", words[1]);
        return 2;
    }
    const std::string setup((std::istreambuf_iterator<char>(file)), std::istreambuf_iterator<char>());
    try {
        Router router(setup);
        unsigned number = 0;
        for (std::string line; std::getline(std::cin, line);) {
            ++number;
            try {
                router.take(line);
            } catch (const nms::Error &fault) {
                // A refused record or order leaves the board as it was, so the feed goes on.
                std::printf("LINE %u is refused: code %u\n", number, fault.code());
            }
        }
        router.report();
    } catch (const std::exception &fault) {
        std::fprintf(stderr, "router: %s\n", fault.what());
        return 1;
    }
    return 0;
}
