// Plans in other threads: one thread applies changes and publishes views, and two desks plan on them without a lock.
//
//     g++ -std=c++17 -pthread -I include examples/cpp/threads.cpp crates/nms_c/out/libnms.a -o threads
//     ./threads examples/builtin.toml      prints examples/cpp/threads.out
#include <nms.hpp>
#include <nms_shared.h>

#include <cstdio>
#include <exception>
#include <fstream>
#include <functional>
#include <iterator>
#include <string>
#include <thread>
#include <vector>

namespace {

void must(std::uint32_t code)
{
    if (code)
        throw nms::Error(code);
}

// Publishes each symbol once. Before that, nms_shared_get answers NMS_NO_VIEW.
void publish_all(nms_shared *shared, const nms::Board &board, std::uint16_t symbols)
{
    for (std::uint16_t sym = 0; sym < symbols; ++sym) {
        const nms_view view = board.view(sym);
        must(nms_shared_put(shared, &view));
    }
}

// A desk waits for version 4, and then plans on the view of its order's symbol. That view shows the board at version 4 or later.
// A refused call or a doubt ends the program.
void desk(const nms_shared *shared, const nms::Terms &terms, nms_order order, nms_plan *plan)
{
    while (nms_shared_version(shared) < 4)
        std::this_thread::yield();
    nms_view view;
    must(nms_shared_get(shared, order.sym, &view));
    *plan = terms.plan(view, order);
    if (terms.doubt(view, order, *plan))
        std::terminate();
}

int run(const std::string &setup)
{
    nms::Board board(setup);
    // Open the terms from the board's own setup: a view carries no fees.
    const nms::Terms terms(setup);
    const std::uint16_t symbols = board.counts().syms;
    std::vector<std::uint64_t> memory(nms_shared_bytes(symbols) / 8 + 1);
    nms_shared *shared = nullptr;
    must(nms_shared_open(memory.data(), memory.size() * 8, symbols, &shared));
    publish_all(shared, board, symbols);

    nms_order order{};
    order.sym = board.sym("ABC");
    order.side = NMS_BUY;
    order.shares = 600;
    order.limit = 100100; // 10.01 dollars
    nms_order other = order;
    other.side = NMS_SELL;
    other.limit = 99700;
    other.self_help = 1u << board.part("P");
    nms_plan plans[2];
    std::thread buyer(desk, shared, std::cref(terms), order, &plans[0]);
    std::thread seller(desk, shared, std::cref(terms), other, &plans[1]);

    for (const char *record : {"Q,N,ABC,A,9.98,400,10.00,300", "Q,P,ABC,A,9.99,200,10.00,500", "Q,Y,ABC,A,9.97,600,10.01,200", "R,ABC,100"}) {
        board.apply(record);
        // After a text, these two fields are all that a publishing needs. After an `X` the kind has to be NMS_WITHDRAW.
        nms_change change{};
        change.kind = NMS_QUOTE;
        change.sym = order.sym;
        must(nms_shared_put_change(shared, board.raw(), &change));
    }
    buyer.join();
    seller.join();
    for (const nms_plan &plan : plans) {
        std::printf("%u filled on version %llu\n", plan.filled, static_cast<unsigned long long>(plan.version));
        for (std::uint32_t leg = 0; leg < plan.legs; ++leg)
            std::printf("  %u to %s\n", plan.leg[leg].shares, terms.part_name(plan.leg[leg].part).c_str());
    }
    return 0;
}

} // namespace

int main(int count, char **words)
{
    std::ifstream file(count == 2 ? words[1] : "", std::ios::binary);
    if (!file) {
        std::fprintf(stderr, "usage: threads SETUP\n");
        return 2;
    }
    const std::string setup((std::istreambuf_iterator<char>(file)), std::istreambuf_iterator<char>());
    try {
        return run(setup);
    } catch (const std::exception &fault) {
        std::fprintf(stderr, "threads: %s\n", fault.what());
        return 1;
    }
}
