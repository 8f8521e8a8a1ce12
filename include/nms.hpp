// nms.hpp: owners of a board and of terms for C++17. Each opens in its constructor, closes in its destructor, can be moved and
// not copied, and throws nms::Error when a call answers anything but NMS_OK. What a call does is in nms.h.
#pragma once

#include <nms.h>

#include <array>
#include <cstddef>
#include <exception>
#include <optional>
#include <string>
#include <string_view>
#include <utility>
#include <vector>

namespace nms {

// Where a setup is wrong, in words: "queue", "element 2 of participant: fee", "at byte 15". Both count from 0 on.
inline std::string where(const nms_place &place)
{
    static constexpr const char *spots[] = { "", "tape_limit", "queue", "desks", "caps", "feeds", "participant", "symbol",
                                             "name", "feed", "fee", "rate", "lot", "a key that may not stand here",
                                             "the name of element ", "no table" };
    if (place.table == NMS_NO_DOCUMENT)
        return "at byte " + std::to_string(place.start);
    std::string text;
    if (place.table != NMS_TOP)
        text = "element " + std::to_string(place.element) + " of " + (place.table == NMS_SYMBOL ? "symbol: " : "participant: ");
    text += place.spot <= NMS_NO_TABLE ? spots[place.spot] : "";
    return place.spot == NMS_NAME_TWICE ? text + std::to_string(place.twin) : text;
}

// The field of an order or of a change that is out of its range; "" if none is.
inline const char *field_of(const nms_order &order) noexcept
{
    if (order.shares < 1 || order.shares > NMS_MOST_SHARES)
        return "shares";
    if (order.limit < 1 || order.limit > NMS_MOST_PRICE)
        return "limit";
    return order.side > NMS_SELL ? "side" : order.manual > 1 ? "manual" : "";
}
inline const char *field_of(const nms_change &change) noexcept
{
    const auto is_side = [](std::uint64_t price, std::uint32_t shares) {
        return price <= NMS_MOST_PRICE && shares <= NMS_MOST_SHARES && (price == 0) == (shares == 0);
    };
    if (change.kind > NMS_LOT)
        return "kind";
    if (change.kind == NMS_LOT)
        return change.lot < 1 || change.lot > 1000 ? "lot" : "";
    if (change.kind != NMS_WITHDRAW && change.state > NMS_HALTED)
        return "state";
    if (change.kind != NMS_QUOTE)
        return "";
    if (!is_side(change.bid_price, change.bid_shares))
        return "bid_price, bid_shares";
    return is_side(change.offer_price, change.offer_shares) ? "" : "offer_price, offer_shares";
}

// A call that was refused: its code, the code's text, and the place or the field at fault if that is known.
class Error : public std::exception {
public:
    explicit Error(std::uint32_t code, const std::string &at = "") : code_(code)
    {
        std::size_t bytes = 0;
        char text[NMS_CODE_TEXT_ROOM] = "";
        nms_code_text(code, text, sizeof text, &bytes);
        text_ = "code " + std::to_string(code) + ": " + std::string(text, bytes) + (at.empty() ? "" : ": " + at);
    }
    // A setup that is refused.
    Error(std::uint32_t code, const nms_place &place) : Error(code, where(place)) { place_ = place; }

    // One of `enum nms_code`.
    std::uint32_t code() const noexcept { return code_; }
    const char *what() const noexcept override { return text_.c_str(); }
    // Where the setup is wrong, if the code is that of a setup.
    const std::optional<nms_place> &place() const noexcept { return place_; }

private:
    std::uint32_t code_;
    std::string text_;
    std::optional<nms_place> place_;
};

inline void must(std::uint32_t code)
{
    if (code != NMS_OK)
        throw Error(code);
}

// The version of the library, such as 0.3.0.
inline std::string version()
{
    char text[NMS_CODE_TEXT_ROOM];
    std::size_t bytes = 0;
    must(nms_version(text, sizeof text, &bytes));
    return std::string(text, bytes);
}

// As `must`, with the field that is out of its range.
template <class Numbers> void must(std::uint32_t code, const Numbers &numbers)
{
    if (code != NMS_OK)
        throw Error(code, code == NMS_RANGE ? field_of(numbers) : "");
}

// What a call on a text of a setup is answered: its code, and the place at which the text is no setup.
inline void must_open(std::uint32_t code, std::string_view setup)
{
    nms_place place;
    if (code >= NMS_C1_NOT_TOML && code <= NMS_C8_TOO_MANY && nms_setup_place(setup.data(), setup.size(), &place) == NMS_OK)
        throw Error(code, place);
    must(code);
}

// How far a call of many came: how many were answered, and the code of the next one, NMS_OK if there is none.
struct Done {
    std::size_t count;
    std::uint32_t code;
};

// How far a call on lines came: how many were applied, the byte where the next one begins, and its code, NMS_OK if there is none.
struct DoneLines {
    std::size_t count;
    std::size_t at;
    std::uint32_t code;
};

// A board. Its `const` methods are looks: they may run together in several threads, as long as no other method runs. So a
// std::shared_mutex may be locked shared for them, and has to be locked for all else.
class Board {
public:
    // Opens a board from the text of a setup. Only this call takes memory of the library. It throws NMS_WRONG_ABI if the
    // library has another layout than nms.h.
    explicit Board(std::string_view setup) { must_open(nms_open(setup.data(), setup.size(), &raw_), setup); }

    ~Board() { nms_close(&raw_); }

    // A board that was moved from is closed: its calls throw NMS_CLOSED. The handle is moved and never doubled.
    Board(Board &&other) noexcept : raw_(std::exchange(other.raw_, nms_board NMS_BOARD_CLOSED)) {}
    Board &operator=(Board &&other) noexcept
    {
        if (this != &other) {
            nms_close(&raw_);
            raw_ = std::exchange(other.raw_, nms_board NMS_BOARD_CLOSED);
        }
        return *this;
    }
    Board(const Board &) = delete;
    Board &operator=(const Board &) = delete;

    // The number of a name: look it up once.
    std::uint8_t part(std::string_view name) const
    {
        std::uint8_t number = 0;
        must(nms_find_part(&raw_, name.data(), name.size(), &number));
        return number;
    }
    std::uint16_t sym(std::string_view name) const
    {
        std::uint16_t number = 0;
        must(nms_find_sym(&raw_, name.data(), name.size(), &number));
        return number;
    }

    std::string part_name(std::uint8_t number) const
    {
        char name[NMS_NAME_ROOM];
        std::size_t bytes = 0;
        must(nms_part_name(&raw_, number, name, sizeof name, &bytes));
        return std::string(name, bytes);
    }
    std::string sym_name(std::uint16_t number) const
    {
        char name[NMS_NAME_ROOM];
        std::size_t bytes = 0;
        must(nms_sym_name(&raw_, number, name, sizeof name, &bytes));
        return std::string(name, bytes);
    }

    nms_counts counts() const
    {
        nms_counts counts;
        must(nms_counts_of(&raw_, &counts));
        return counts;
    }

    // A change by numbers, and a change as a record of a file of changes.
    void apply(const nms_change &change) { must(nms_apply(&raw_, &change), change); }
    void apply(std::string_view record) { must(nms_apply_text(&raw_, record.data(), record.size())); }

    // The same with a code in place of an exception. They make no text and take no memory.
    std::uint32_t try_apply(const nms_change &change) noexcept { return nms_apply(&raw_, &change); }
    std::uint32_t try_apply(std::string_view record) noexcept { return nms_apply_text(&raw_, record.data(), record.size()); }
    // Changes in order, up to the first that is refused.
    Done try_apply(const nms_change *changes, std::size_t count) noexcept
    {
        Done done{ 0, NMS_OK };
        done.code = nms_apply_all(&raw_, changes, count, &done.count);
        return done;
    }
    // The same, with the best rows of each change's symbol after it.
    Done try_apply(const nms_change *changes, std::size_t count, nms_best *best) noexcept
    {
        Done done{ 0, NMS_OK };
        done.code = nms_apply_best(&raw_, changes, count, best, &done.count);
        return done;
    }
    // The changes that the lines of a text say, as a file of changes has them, up to the first that is refused.
    DoneLines try_apply_lines(std::string_view text) noexcept
    {
        DoneLines done{ 0, 0, NMS_OK };
        done.code = nms_apply_lines(&raw_, text.data(), text.size(), &done.count, &done.at);
        return done;
    }
    // The best rows of many symbols, and plans of many orders on the board as it is: up to the first that is refused.
    Done try_best(const std::uint16_t *syms, std::size_t count, nms_best *best) const noexcept
    {
        Done done{ 0, NMS_OK };
        done.code = nms_best_all(&raw_, syms, count, best, &done.count);
        return done;
    }
    Done try_plan(const nms_order *orders, std::size_t count, nms_plan *plans) const noexcept
    {
        Done done{ 0, NMS_OK };
        done.code = nms_plan_all(&raw_, orders, count, plans, &done.count);
        return done;
    }

    nms_best best(std::uint16_t sym) const
    {
        nms_best best;
        must(nms_best_of(&raw_, sym, &best));
        return best;
    }
    nms_view view(std::uint16_t sym) const
    {
        nms_view view;
        must(nms_view_of(&raw_, sym, &view));
        return view;
    }
    // The row at a place of the rank order, from 0 on; nothing if the side has fewer rows.
    std::optional<nms_row> ranked(std::uint16_t sym, nms_side side, std::uint8_t place) const
    {
        nms_row row;
        const std::uint32_t code = nms_ranked(&raw_, sym, static_cast<std::uint8_t>(side), place, &row);
        if (code == NMS_NONE)
            return std::nullopt;
        must(code);
        return row;
    }
    nms_rows rows(std::uint16_t sym, nms_side side) const
    {
        nms_rows rows;
        must(nms_rows_of(&raw_, sym, static_cast<std::uint8_t>(side), &rows));
        return rows;
    }
    // What an execution at a price in 1/1,000,000 dollar trades through.
    nms_through through(std::uint16_t sym, std::uint64_t millionths) const
    {
        nms_through through;
        must(nms_traded_through(&raw_, sym, millionths, &through));
        return through;
    }
    // What one share costs with a participant's fee, in nanodollars; negative for a sale.
    std::int64_t unit_cost(std::uint8_t part, nms_order_side side, std::uint64_t price) const
    {
        std::int64_t nanodollars = 0;
        must(nms_unit_cost(&raw_, part, static_cast<std::uint8_t>(side), price, &nanodollars));
        return nanodollars;
    }

    nms_plan plan(const nms_order &order) const
    {
        nms_plan plan;
        must(nms_plan_order(&raw_, &order, &plan), order);
        return plan;
    }
    // Nothing if the plan is confirmed on this board, else why it is not.
    std::optional<nms_doubt> doubt(const nms_order &order, const nms_plan &plan) const
    {
        nms_doubt doubt;
        const std::uint32_t code = nms_confirm(&raw_, &order, &plan, &doubt);
        if (code == NMS_DOUBTED)
            return doubt;
        must(code, order);
        return std::nullopt;
    }
    std::string text(const nms_order &order, const nms_plan &plan)
    {
        std::string text(NMS_PLAN_TEXT_ROOM, '\0');
        std::size_t bytes = 0;
        must(nms_plan_text(&raw_, &order, &plan, text.data(), text.size(), &bytes), order);
        text.resize(bytes);
        return text;
    }

    // The order and the plan that such a text says. The plan need not be lawful: `doubt` judges that.
    std::pair<nms_order, nms_plan> read(std::string_view text)
    {
        std::pair<nms_order, nms_plan> said;
        must(nms_read_plan(&raw_, text.data(), text.size(), &said.first, &said.second));
        return said;
    }

    // The changes by which a new board of the same setup gets this symbol's rows.
    std::vector<nms_change> opening(std::uint16_t sym) const
    {
        nms_opening opening;
        must(nms_opening_of(&raw_, sym, &opening));
        return std::vector<nms_change>(opening.change, opening.change + opening.count);
    }

    // The handle, for calls of nms.h.
    nms_board *raw() noexcept { return &raw_; }
    const nms_board *raw() const noexcept { return &raw_; }

private:
    nms_board raw_ = NMS_BOARD_CLOSED;
};

// The roster and the fees of a setup, which never change. Any number of threads may plan and confirm with them at once, each on
// a view of its own.
class Terms {
public:
    explicit Terms(std::string_view setup) { must_open(nms_terms_open(setup.data(), setup.size(), &raw_), setup); }

    ~Terms() { nms_terms_close(&raw_); }

    // As with a board, terms that were moved from are closed.
    Terms(Terms &&other) noexcept : raw_(std::exchange(other.raw_, nms_terms NMS_TERMS_CLOSED)) {}
    Terms &operator=(Terms &&other) noexcept
    {
        if (this != &other) {
            nms_terms_close(&raw_);
            raw_ = std::exchange(other.raw_, nms_terms NMS_TERMS_CLOSED);
        }
        return *this;
    }
    Terms(const Terms &) = delete;
    Terms &operator=(const Terms &) = delete;

    // The number of a name: look it up once.
    std::uint8_t part(std::string_view name) const
    {
        std::uint8_t number = 0;
        must(nms_terms_find_part(&raw_, name.data(), name.size(), &number));
        return number;
    }
    std::uint16_t sym(std::string_view name) const
    {
        std::uint16_t number = 0;
        must(nms_terms_find_sym(&raw_, name.data(), name.size(), &number));
        return number;
    }

    std::string part_name(std::uint8_t number) const
    {
        char name[NMS_NAME_ROOM];
        std::size_t bytes = 0;
        must(nms_terms_part_name(&raw_, number, name, sizeof name, &bytes));
        return std::string(name, bytes);
    }
    std::string sym_name(std::uint16_t number) const
    {
        char name[NMS_NAME_ROOM];
        std::size_t bytes = 0;
        must(nms_terms_sym_name(&raw_, number, name, sizeof name, &bytes));
        return std::string(name, bytes);
    }

    // The best lawful plan for an order on a view. It throws NMS_NO_VIEW if no look shows such a view, as of a torn copy.
    nms_plan plan(const nms_view &view, const nms_order &order) const
    {
        nms_plan plan;
        must(nms_plan_view(&raw_, &view, &order, &plan), order);
        return plan;
    }
    // Nothing if the plan is confirmed on this view, else why it is not.
    std::optional<nms_doubt> doubt(const nms_view &view, const nms_order &order, const nms_plan &plan) const
    {
        nms_doubt doubt;
        const std::uint32_t code = nms_confirm_view(&raw_, &view, &order, &plan, &doubt);
        if (code == NMS_DOUBTED)
            return doubt;
        must(code, order);
        return std::nullopt;
    }

    // The handle, for calls of nms.h.
    nms_terms *raw() noexcept { return &raw_; }
    const nms_terms *raw() const noexcept { return &raw_; }

private:
    nms_terms raw_ = NMS_TERMS_CLOSED;
};

// What an execution at a price in 1/1,000,000 dollar trades through on a view.
inline nms_through through(const nms_view &view, std::uint64_t millionths)
{
    nms_through through;
    must(nms_through_view(&view, millionths, &through));
    return through;
}

// A view with at most most[n] shares of participant n on one side: for shares that one's own orders have taken, and that the
// quotes still show. A buyer reduces the offers.
inline nms_view reduced(const nms_view &view, nms_side side, const std::array<std::uint32_t, NMS_MOST_PARTS> &most)
{
    nms_view left;
    must(nms_reduce_view(&view, static_cast<std::uint8_t>(side), most.data(), &left));
    return left;
}

} // namespace nms
