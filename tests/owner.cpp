// The classes of include/nms.hpp: each call gives what the header says, looks are const, an empty text is a text, and an error
// names the place of a setup or the field of a number. Link it with -Wl,--wrap=nms_abi.
//
//     owner SETUP     the built-in setup; prints a line for each difference, and last `N passed, M failed`
#include <nms.hpp>

#include <array>
#include <cstdio>
#include <cstring>
#include <fstream>
#include <iterator>

extern "C" std::uint32_t __real_nms_abi(void);
extern "C" std::uint32_t __wrap_nms_abi(void);

namespace {

unsigned passed, failed;
std::uint32_t newer;

void holds(bool fact, const std::string &what)
{
    if (fact)
        ++passed;
    else {
        ++failed;
        std::printf("DIFFERS: %s\n", what.c_str());
    }
}

// The call throws an error of that code, whose text ends so.
template <class Call> void throws(std::uint32_t code, const std::string &end, Call call)
{
    try {
        call();
        holds(false, "nothing is thrown: " + end);
    } catch (const nms::Error &error) {
        const std::string what = error.what();
        holds(error.code() == code && what.size() >= end.size() && what.compare(what.size() - end.size(), end.size(), end) == 0, what);
    }
}

// Every look, by a board that can't be changed.
void looks(const nms::Board &board, const nms_order &order, const nms_plan &plan)
{
    const auto abc = board.sym("ABC");
    holds(board.part("P") == 1 && board.part_name(1) == "P" && board.sym_name(abc) == "ABC", "names by a const board");
    holds(board.counts().applied == 1 && board.best(abc).offer.price == 100000 && board.view(abc).offer.count == 1, "looks at a const board");
    holds(!board.doubt(order, plan) && board.opening(abc).size() == 1, "a plan and an opening by a const board");
    const nms_rows rows = board.rows(abc, NMS_OFFER);
    const auto row = board.ranked(abc, NMS_OFFER, 0);
    holds(rows.count == 1 && row && row->price == rows.price[0] && !board.ranked(abc, NMS_OFFER, 1), "the rows of a side");
    holds(board.through(abc, 10010000).offers == 1 && board.through(abc, 10000000).offers == 0, "what a price trades through");
    holds(board.unit_cost(0, NMS_BUY, 100000) > 10000000000, "what a share costs with its fee");
    std::uint8_t part = 9;
    holds(nms_find_part(board.raw(), "P", 1, &part) == NMS_OK && part == 1, "the raw handle of a const board");
    throws(NMS_RANGE, "a number is out of its range", [&] { board.rows(abc, static_cast<nms_side>(2)); });
    throws(NMS_RANGE, "a number is out of its range", [&] { board.ranked(abc, static_cast<nms_side>(2), 0); });
    throws(NMS_RANGE, "a number is out of its range", [&] { board.through(abc, 0); });
    throws(NMS_RANGE, "a number is out of its range", [&] { board.unit_cost(0, NMS_BUY, 0); });
    throws(NMS_NO_SYM, "symbol", [&] { board.rows(999, NMS_BID); });
    throws(NMS_NO_PART, "participant", [&] { board.unit_cost(200, NMS_BUY, 100000); });
}

// Plans and checks on a view, by terms that can't be changed.
void views(const nms::Terms &terms, const nms_view &view, const nms_order &order, const nms_plan &plan)
{
    holds(terms.part("P") == 1 && terms.sym("ABC") == view.sym, "numbers by terms");
    holds(terms.part_name(1) == "P" && terms.sym_name(view.sym) == "ABC", "names by terms");
    throws(NMS_NO_PART, "participant", [&] { terms.part_name(200); });
    throws(NMS_NO_SYM, "symbol", [&] { terms.sym_name(999); });
    const nms_plan same = terms.plan(view, order);
    holds(same.filled == plan.filled && same.cost_low == plan.cost_low && !terms.doubt(view, order, same), "a plan on a view");
    nms_plan other = same;
    other.version += 1;
    const auto doubt = terms.doubt(view, order, other);
    holds(doubt && doubt->doubt == 1 && doubt->breach == 1, "a plan of another version on a view");
    holds(nms::through(view, 10010000).offers == 1 && nms::through(view, 10000000).offers == 0, "what a price trades through on a view");
    std::array<std::uint32_t, NMS_MOST_PARTS> most;
    most.fill(UINT32_MAX);
    const nms_view whole = nms::reduced(view, NMS_OFFER, most);
    holds(std::memcmp(&whole, &view, sizeof view) == 0, "a view of which nothing is taken");
    most[view.offer.part[0]] = 40;
    const nms_view left = nms::reduced(view, NMS_OFFER, most);
    const nms_plan fewer = terms.plan(left, order);
    holds(left.offer.total + view.offer.size[0] == view.offer.total + 40 && !terms.doubt(left, order, fewer), "a plan on what is left");
    for (std::uint32_t at = 0; at < fewer.legs; ++at)
        holds(fewer.leg[at].shares <= most[fewer.leg[at].part], "a leg of what is left");
    throws(NMS_RANGE, "a number is out of its range", [&] { nms::reduced(view, static_cast<nms_side>(2), most); });
    nms_view torn = view;
    torn.offer.total += 1;
    throws(NMS_NO_VIEW, "no look shows such a view", [&] { nms::reduced(torn, NMS_OFFER, most); });
    throws(NMS_NO_VIEW, "no look shows such a view", [&] { terms.plan(torn, order); });
    throws(NMS_NO_VIEW, "no look shows such a view", [&] { terms.doubt(torn, order, plan); });
    throws(NMS_NO_VIEW, "no look shows such a view", [&] { nms::through(torn, 10010000); });
    nms_order bad = order;
    bad.shares = 0;
    throws(NMS_RANGE, ": shares", [&] { terms.plan(view, bad); });
}

void setups(const std::string &setup)
{
    throws(NMS_C2_MISSING, ": tape_limit", [] { nms::Terms{ "" }; });
    throws(NMS_C2_MISSING, ": tape_limit", [] { nms::Board{ std::string_view{} }; });
    throws(NMS_C2_MISSING, ": tape_limit", [] { nms::Board{ "" }; });
    throws(NMS_C1_NOT_TOML, ": at byte 6", [] { nms::Board{ "queue 9\n" }; });
    throws(NMS_C3_UNKNOWN_KEY, ": a key that may not stand here", [&] { nms::Board{ "queues = 9\n" + setup }; });
    throws(NMS_C4_BAD_NAME, ": element 2 of symbol: the name of element 0", [&] { nms::Board{ setup + "[[symbol]]\nname = \"ABC\"\nlot = 1\n" }; });
    throws(NMS_C6_OUT_OF_RANGE, ": element 2 of symbol: lot", [&] { nms::Board{ setup + "[[symbol]]\nname = \"XYZ\"\nlot = 1001\n" }; });
    try {
        nms::Board{ setup + "[[symbol]]\nname = \"XYZ\"\nlot = 1001\n" };
    } catch (const nms::Error &error) {
        holds(error.place() && error.place()->table == NMS_SYMBOL && error.place()->element == 2 && error.place()->spot == NMS_ROUND_LOT,
              "the place of a setup's fault");
    }
    newer = 1;
    throws(NMS_WRONG_ABI, ": the library has another layout than nms.h", [&] { nms::Board{ setup }; });
    newer = 0;
}

void fields(nms::Board &board)
{
    nms_order order{};
    order.limit = 100000;
    order.shares = 100;
    const auto plans = [&](const char *end, auto set) {
        nms_order bad = order;
        set(bad);
        throws(NMS_RANGE, end, [&] { board.plan(bad); });
    };
    plans(": shares", [](nms_order &it) { it.shares = 0; });
    plans(": shares", [](nms_order &it) { it.shares = 1000000000; });
    plans(": limit", [](nms_order &it) { it.limit = 0; });
    plans(": limit", [](nms_order &it) { it.limit = 100000000000; });
    plans(": side", [](nms_order &it) { it.side = 2; });
    plans(": manual", [](nms_order &it) { it.manual = 2; });
    nms_change change{};
    change.bid_price = 99900;
    const auto applies = [&](const char *end) { throws(NMS_RANGE, end, [&] { board.apply(change); }); };
    applies(": bid_price, bid_shares");
    change.bid_shares = 100;
    change.offer_price = 100000000000;
    change.offer_shares = 100;
    applies(": offer_price, offer_shares");
    change.state = 3;
    applies(": state");
    change.kind = NMS_LOT;
    applies(": lot");
    change.kind = 4;
    applies(": kind");
    throws(NMS_L1_UNKNOWN_KIND, "kind", [&] { board.apply(std::string_view{}); });
    throws(NMS_NO_PART, "participant", [&] { board.part(std::string_view{}); });
    throws(NMS_NO_SYM, "symbol", [&] { board.sym(std::string_view{}); });
}

// Changes with a code in place of an exception, and a plan that is written and read.
void codes(nms::Board &board, const nms_order &order)
{
    nms_change changes[3]{};
    for (nms_change &it : changes) {
        it.part = 1;
        it.bid_price = 99900;
        it.bid_shares = 100;
    }
    changes[1].kind = 4;
    const std::uint64_t before = board.counts().applied;
    const nms::Done some = board.try_apply(changes, 3);
    holds(some.count == 1 && some.code == NMS_RANGE && board.counts().applied == before + 1, "changes up to the first that is refused");
    const nms::Done none = board.try_apply(nullptr, 0);
    holds(none.count == 0 && none.code == NMS_OK, "no changes");
    nms_best best[3]{};
    const nms::Done followed = board.try_apply(changes, 3, best);
    holds(followed.count == 1 && followed.code == NMS_RANGE && best[0].version == before + 2 && best[1].version == 0, "the best after each change");
    const std::uint16_t syms[] = { 1, 0, 999 };
    const nms::Done looked = board.try_best(syms, 3, best);
    holds(looked.count == 2 && looked.code == NMS_NO_SYM && best[1].offer.price == board.best(0).offer.price, "the best of many symbols");
    nms_order orders[] = { order, order };
    orders[1].shares = 0;
    nms_plan plans[2]{};
    const nms::Done planned = board.try_plan(orders, 2, plans);
    holds(planned.count == 1 && planned.code == NMS_RANGE && plans[0].filled == board.plan(order).filled, "plans of many orders");
    holds(board.try_plan(nullptr, 0, nullptr).code == NMS_OK && board.try_best(nullptr, 1, best).code == NMS_NULL, "no orders, and null pointers");
    holds(board.try_apply(changes[0]) == NMS_OK && board.try_apply(changes[1]) == NMS_RANGE, "a change by a code");
    holds(board.try_apply("Q,P,ABC,A,,,,") == NMS_OK && board.try_apply("Q,P,ABC,X,,,,") == NMS_L5_BAD_STATE, "a record by a code");
    const nms::DoneLines lines = board.try_apply_lines("S,P,ABC,A\r\nX,P\nX,XYZ\nX,P");
    holds(lines.count == 2 && lines.code == NMS_L3_UNKNOWN_PARTICIPANT && lines.at == 15, "lines up to the first that is refused");
    holds(board.try_apply_lines("X,P").at == 3 && board.try_apply_lines({}).code == NMS_OK, "a line without an end, and no lines");
    const nms_plan plan = board.plan(order);
    const auto said = board.read(board.text(order, plan));
    holds(said.first.limit == order.limit && said.second.filled == plan.filled && !board.doubt(said.first, said.second), "a plan read from its text");
    throws(NMS_L11_BAD_PLAN_TEXT, "plan", [&] { board.read("PLAN"); });
    holds(nms::version() == NMS_VERSION, "the library's version");
}

} // namespace

std::uint32_t __wrap_nms_abi(void)
{
    return __real_nms_abi() + newer;
}

int main(int count, char **words)
{
    if (count != 2)
        return 2;
    std::ifstream file(words[1], std::ios::binary);
    const std::string setup((std::istreambuf_iterator<char>(file)), std::istreambuf_iterator<char>());
    setups(setup);
    nms::Board board(setup);
    board.apply("Q,N,ABC,A,9.99,200,10.00,300");
    nms_order order{};
    order.limit = 100000;
    order.shares = 100;
    looks(board, order, board.plan(order));
    nms::Terms terms(setup);
    views(terms, board.view(board.sym("ABC")), order, board.plan(order));
    nms::Terms moved(std::move(terms));
    throws(NMS_CLOSED, "open", [&] { terms.part("P"); });
    holds(moved.part("P") == 1, "terms that were moved");
    fields(board);
    holds(board.counts().applied == 1, "a refused call changes nothing");
    codes(board, order);
    std::printf("%u passed, %u failed\n", passed, failed);
    return failed != 0;
}
