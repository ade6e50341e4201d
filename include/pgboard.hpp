// pgboard.h for C++17: arrays and texts in, results or an exception out. The calls whose names begin with `try_` return each answer
// of the library, and throw nothing for it; a vector or a string of the result may still throw std::bad_alloc.
#ifndef PGBOARD_HPP
#define PGBOARD_HPP

#include <cstddef>
#include <cstdint>
#include <initializer_list>
#include <iterator>
#include <new>
#include <stdexcept>
#include <string>
#include <string_view>
#include <type_traits>
#include <utility>
#include <vector>

#include "pgboard.h"

#if !defined(__cpp_exceptions) && !defined(_CPPUNWIND)
#error "pgboard.hpp needs exceptions: with -fno-exceptions include pgboard.h"
#endif

namespace pgboard {

namespace detail {

// How many fields of its report each answer has, by its number; tools/faults makes this line.
inline constexpr std::string_view fields = "0011111112001102000011210000000111100000011111110010000000001112000000001110000012111020000";

// The text of an answer, and in brackets what its report says.
inline std::string said(std::uint32_t answer, const pgboard_report &report)
{
    const char count = answer < fields.size() ? fields[answer] : '0';
    std::string text = pgboard_strerror(answer);
    if (count > '0')
        text += " (" + std::to_string(report.at) + (count > '1' ? ", " + std::to_string(report.to) : "") + ")";
    return text;
}

} // namespace detail

// Why there is no result: an answer of pgboard.h, and what its report says, which what() has too. Refused memory is a std::bad_alloc
// instead.
struct fault : std::runtime_error {
    std::uint32_t answer;
    std::uint64_t at, to;

    fault(std::uint32_t number, const pgboard_report &report)
        : std::runtime_error(detail::said(number, report)), answer(number), at(report.at), to(report.to)
    {
    }
};

// A pointer and a length, as std::span of C++20: of a vector, a std::span, or an array of C or of C++. What it refers to has to be
// there during the call.
template <class Item> class span {
  public:
    span() = default;
    template <class First, class = std::enable_if_t<std::is_convertible_v<First, Item *>>>
    span(First at, std::size_t count) noexcept : first(at), length(count)
    {
    }
    template <std::size_t Count> span(Item (&items)[Count]) noexcept : span(&items[0], Count) {}
    template <class Items, class = std::enable_if_t<std::is_convertible_v<decltype(std::declval<const Items &>().data()), Item *>>>
    span(const Items &items) noexcept : span(items.data(), items.size())
    {
    }
    // (an empty vector may have no address, and the calls take none that is null)
    Item *data() const noexcept { return first ? first : &nothing; }
    std::size_t size() const noexcept { return length; }

  private:
    static constexpr std::remove_const_t<Item> nothing{};
    Item *first = nullptr;
    std::size_t length = 0;
};

// A game, as struct pgboard_game has it: the successors of v are targets[starts[v]], up to and without targets[starts[v + 1]].
struct game {
    std::vector<std::uint8_t> owners;
    std::vector<std::uint32_t> priorities, starts, targets;
    // the identifiers of a board's game; the calls that take a game need none
    std::vector<std::uint32_t> ids{};
};

// Winners and choices; of what is known of a game, or the result.
struct solution {
    std::vector<std::uint8_t> winners;
    std::vector<std::uint32_t> choices;
};

// The same, which others hold. A view may be kept as long as they are there, so none is made of a temporary.
struct game_view {
    span<const std::uint8_t> owners;
    span<const std::uint32_t> priorities, starts, targets;

    game_view() = default;
    game_view(const game &it) noexcept : game_view(it.owners, it.priorities, it.starts, it.targets) {}
    game_view(const game &&) = delete;
    game_view(span<const std::uint8_t> by, span<const std::uint32_t> ranks, span<const std::uint32_t> rows, span<const std::uint32_t> to) noexcept
        : owners(by), priorities(ranks), starts(rows), targets(to)
    {
    }
};

struct solution_view {
    span<const std::uint8_t> winners;
    span<const std::uint32_t> choices;

    solution_view(const solution &it) noexcept : solution_view(it.winners, it.choices) {}
    solution_view(const solution &&) = delete;
    solution_view(span<const std::uint8_t> by, span<const std::uint32_t> moves) noexcept : winners(by), choices(moves) {}
};

// The same for the time of a call, which a temporary outlasts.
struct game_argument : game_view {
    using game_view::game_view;
    game_argument(const game_view &it) noexcept : game_view(it) {}
    game_argument(const game &&it) noexcept : game_view(it) {}
};

struct solution_argument : solution_view {
    using solution_view::solution_view;
    solution_argument(const solution_view &it) noexcept : solution_view(it) {}
    solution_argument(const solution &&it) noexcept : solution_view(it) {}
};

// An answer of pgboard.h, its report, and the value if the answer is PGBOARD_OK.
template <class Value = void> struct [[nodiscard]] outcome {
    std::uint32_t answer;
    pgboard_report report;
    Value value;

    explicit operator bool() const noexcept { return answer == PGBOARD_OK; }
};

template <> struct [[nodiscard]] outcome<void> {
    std::uint32_t answer;
    pgboard_report report;

    explicit operator bool() const noexcept { return answer == PGBOARD_OK; }
};

namespace detail {

inline void judge(std::uint32_t answer, const pgboard_report &report)
{
    if (answer == PGBOARD_MEMORY)
        throw std::bad_alloc();
    if (answer != PGBOARD_OK)
        throw fault(answer, report);
}

template <class Value> Value judged(outcome<Value> &&found)
{
    judge(found.answer, found.report);
    if constexpr (!std::is_void_v<Value>)
        return std::move(found.value);
}

inline pgboard_game arrays(const game_view &it) noexcept
{
    return {sizeof(pgboard_game),     it.owners.data(), it.owners.size(),  it.priorities.data(), it.priorities.size(),
            it.starts.data(), it.starts.size(), it.targets.data(), it.targets.size()};
}

inline pgboard_solution arrays(const solution_view &it) noexcept
{
    return {sizeof(pgboard_solution), it.winners.data(), it.winners.size(), it.choices.data(), it.choices.size()};
}

// A solution of so many vertices, by a call that writes it.
template <class Call> outcome<solution> written(std::size_t size, Call call)
{
    outcome<solution> found{PGBOARD_OK, {}, {std::vector<std::uint8_t>(size), std::vector<std::uint32_t>(size)}};
    solution &it = found.value;
    // (an empty vector may have no address)
    std::uint8_t no_winner;
    std::uint32_t no_choice;
    pgboard_results results{sizeof results, size ? it.winners.data() : &no_winner, size, size ? it.choices.data() : &no_choice, size};
    found.answer = call(&results, &found.report);
    return found;
}

inline const std::uint8_t *bytes(std::string_view text) noexcept
{
    return reinterpret_cast<const std::uint8_t *>(text.data() ? text.data() : "");
}

template <class Call> outcome<std::string> text_by(Call call, std::string_view text)
{
    outcome<std::string> found{PGBOARD_OK, {}, std::string(PGBOARD_TEXT_BOUND(text.size()), '\0')};
    std::string &into = found.value;
    std::size_t size = 0;
    found.answer = call(bytes(text), text.size(), reinterpret_cast<std::uint8_t *>(into.data()), into.size(), &size, &found.report);
    into.resize(size);
    return found;
}

} // namespace detail

// Solves a game.
[[nodiscard]] inline outcome<solution> try_solve(const game_argument &game)
{
    const pgboard_game arrays = detail::arrays(game);
    return detail::written(game.owners.size(), [&](auto *results, auto *report) { return pgboard_solve(&arrays, results, report); });
}
[[nodiscard]] inline solution solve(const game_argument &game)
{
    return detail::judged(try_solve(game));
}

// Solves a game, or gives up with the answer PGBOARD_GAVE_UP if the recursion needs more steps than these.
[[nodiscard]] inline outcome<solution> try_solve_within(const game_argument &game, std::uint64_t steps)
{
    const pgboard_game arrays = detail::arrays(game);
    return detail::written(game.owners.size(), [&](auto *results, auto *report) { return pgboard_solve_within(&arrays, steps, results, report); });
}
[[nodiscard]] inline solution solve_within(const game_argument &game, std::uint64_t steps)
{
    return detail::judged(try_solve_within(game, steps));
}

// Solves a game from what is known, where PGBOARD_NO_WINNER is an unknown winner; also with a bound, as above.
[[nodiscard]] inline outcome<solution> try_solve(const game_argument &game, const solution_argument &known)
{
    const pgboard_game arrays = detail::arrays(game);
    const pgboard_solution given = detail::arrays(known);
    return detail::written(game.owners.size(), [&](auto *results, auto *report) { return pgboard_solve_known(&arrays, &given, results, report); });
}
[[nodiscard]] inline solution solve(const game_argument &game, const solution_argument &known)
{
    return detail::judged(try_solve(game, known));
}
[[nodiscard]] inline outcome<solution> try_solve_within(const game_argument &game, const solution_argument &known, std::uint64_t steps)
{
    const pgboard_game arrays = detail::arrays(game);
    const pgboard_solution given = detail::arrays(known);
    return detail::written(game.owners.size(), [&](auto *results, auto *report) { return pgboard_solve_known_within(&arrays, &given, steps, results, report); });
}
[[nodiscard]] inline solution solve_within(const game_argument &game, const solution_argument &known, std::uint64_t steps)
{
    return detail::judged(try_solve_within(game, known, steps));
}

// Checks that winners and choices are a solution of a game; a fault says what is wrong first.
[[nodiscard]] inline outcome<> try_check(const game_argument &game, const solution_argument &solution) noexcept
{
    const pgboard_game arrays = detail::arrays(game);
    const pgboard_solution given = detail::arrays(solution);
    outcome<> found{};
    found.answer = pgboard_check(&arrays, &given, &found.report);
    return found;
}
inline void check(const game_argument &game, const solution_argument &solution)
{
    detail::judged(try_check(game, solution));
}

// The text of a solution of a game's text.
[[nodiscard]] inline outcome<std::string> try_solve_text(std::string_view game)
{
    return detail::text_by(pgboard_solve_text, game);
}
[[nodiscard]] inline std::string solve_text(std::string_view game)
{
    return detail::judged(try_solve_text(game));
}

// The one written form of a game's text.
[[nodiscard]] inline outcome<std::string> try_tidy_text(std::string_view game)
{
    return detail::text_by(pgboard_tidy_text, game);
}
[[nodiscard]] inline std::string tidy_text(std::string_view game)
{
    return detail::judged(try_tidy_text(game));
}

// Checks that a text is a solution of a game's text; a fault says what is wrong first.
[[nodiscard]] inline outcome<> try_verify_text(std::string_view game, std::string_view solution) noexcept
{
    outcome<> found{};
    found.answer = pgboard_verify_text(detail::bytes(game), game.size(), detail::bytes(solution), solution.size(), &found.report);
    return found;
}
inline void verify_text(std::string_view game, std::string_view solution)
{
    detail::judged(try_verify_text(game, solution));
}

// An entry of a board's journal; the first `claimed` vertices were claimed.
struct entry {
    std::uint32_t worker, player;
    std::size_t claimed;
    std::vector<std::uint32_t> vertices, choices;
};

class board;

// The journal of a board, the oldest entry first. Each entry is read when it is reached, and those that are added meanwhile follow.
class journal {
  public:
    class iterator {
      public:
        using iterator_category = std::input_iterator_tag;
        using value_type = entry;
        using difference_type = std::ptrdiff_t;
        using reference = entry;
        // (an entry is made when it is read, and lasts as long as the expression that reads it)
        struct pointer {
            entry it;
            const entry *operator->() const { return &it; }
        };

        iterator() = default;
        iterator(const board *board, std::uint64_t at) noexcept : of(board), number(at) {}
        entry operator*() const;
        pointer operator->() const { return {**this}; }
        iterator &operator++() noexcept { return number++, *this; }
        iterator operator++(int) noexcept { return {of, number++}; }
        // (the end is where no entry is left)
        bool operator==(const iterator &other) const noexcept { return at() == other.at(); }
        bool operator!=(const iterator &other) const noexcept { return !(*this == other); }

      private:
        std::uint64_t at() const noexcept;
        const board *of = nullptr;
        std::uint64_t number = 0;
    };

    explicit journal(const board &board) noexcept : of(&board) {}
    [[nodiscard]] iterator begin() const noexcept { return {of, 0}; }
    [[nodiscard]] iterator end() const noexcept { return {of, UINT64_MAX}; }
    [[nodiscard]] std::uint64_t size() const noexcept;
    [[nodiscard]] entry operator[](std::uint64_t number) const;

  private:
    const board *of;
};

// A board of a game, which closes it at the end. A board may be moved. No two calls may use a board at once, as in C, not even two
// that are const: those read only, but take the board out of the handle meanwhile. Calls on two boards may run at once.
class board {
    using list = std::initializer_list<std::uint32_t>;

  public:
    explicit board(const game_argument &game) : board(detail::judged(try_open(game))) {}
    [[nodiscard]] static outcome<board> try_open(const game_argument &game) noexcept
    {
        const pgboard_game arrays = detail::arrays(game);
        return opened([&](auto *it, auto *report) { return pgboard_board_open(it, &arrays, report); });
    }
    // A board of a game's text; its vertices have numbers from 0 on, in the order of their identifiers.
    [[nodiscard]] static outcome<board> try_open_text(std::string_view game) noexcept
    {
        return opened([&](auto *it, auto *report) { return pgboard_board_open_text(it, detail::bytes(game), game.size(), report); });
    }
    [[nodiscard]] static board open_text(std::string_view game) { return detail::judged(try_open_text(game)); }
    board(board &&other) noexcept : held(std::exchange(other.held, {})) {}
    board &operator=(board other) noexcept
    {
        std::swap(held, other.held);
        return *this;
    }
    ~board() { pgboard_board_close(&held); }

    // Posts a claim; the answer says why it is refused. PGBOARD_POST_STALE is no error where others post too. After PGBOARD_POST_LOST the
    // claim was never right.
    [[nodiscard]] outcome<pgboard_posted> try_post(std::uint32_t player, span<const std::uint32_t> vertices, span<const std::uint32_t> choices,
                                                   std::uint32_t worker = 0) noexcept
    {
        const pgboard_claim claim{sizeof claim, worker, player, vertices.data(), vertices.size(), choices.data(), choices.size()};
        outcome<pgboard_posted> found{};
        found.answer = pgboard_board_post(&held, &claim, &found.value, &found.report);
        return found;
    }
    [[nodiscard]] pgboard_posted post(std::uint32_t player, span<const std::uint32_t> vertices, span<const std::uint32_t> choices, std::uint32_t worker = 0)
    {
        return detail::judged(try_post(player, vertices, choices, worker));
    }
    // The same with lists, which last as long as the call.
    [[nodiscard]] outcome<pgboard_posted> try_post(std::uint32_t player, list vertices, list choices, std::uint32_t worker = 0) noexcept
    {
        return try_post(player, {vertices.begin(), vertices.size()}, {choices.begin(), choices.size()}, worker);
    }
    [[nodiscard]] pgboard_posted post(std::uint32_t player, list vertices, list choices, std::uint32_t worker = 0)
    {
        return detail::judged(try_post(player, vertices, choices, worker));
    }

    // The winner and the choice of each vertex, or PGBOARD_NO_WINNER.
    [[nodiscard]] pgboard::solution state() const { return detail::judged(results(pgboard_board_state)); }

    // The board's game, with the identifiers of its vertices.
    [[nodiscard]] pgboard::game game() const
    {
        const std::size_t size = static_cast<std::size_t>(vertices());
        // (an open board has a vertex)
        if (size == 0)
            detail::judge(PGBOARD_BOARD_CLOSED, {});
        pgboard::game found{{}, {}, {0}, {}};
        std::vector<std::uint32_t> row(size);
        for (std::size_t v = 0; v < size; v++) {
            pgboard_vertex it;
            pgboard_report report;
            detail::judge(pgboard_board_vertex(&held, static_cast<std::uint32_t>(v), &it, row.data(), row.size(), &report), report);
            found.ids.push_back(it.id), found.priorities.push_back(it.priority);
            found.owners.push_back(static_cast<std::uint8_t>(it.owner));
            found.targets.insert(found.targets.end(), row.begin(), row.begin() + it.successors);
            found.starts.push_back(static_cast<std::uint32_t>(found.targets.size()));
        }
        return found;
    }

    [[nodiscard]] std::uint64_t vertices() const noexcept { return pgboard_board_vertices(&held); }
    [[nodiscard]] std::uint64_t settled() const noexcept { return pgboard_board_settled(&held); }
    [[nodiscard]] std::uint64_t entries() const noexcept { return pgboard_board_entries(&held); }
    // (a journal refers to this board, which has to outlive it and not be moved)
    [[nodiscard]] pgboard::journal journal() const &noexcept { return pgboard::journal(*this); }
    pgboard::journal journal() const && = delete;

    // The entry with this number, from 0.
    [[nodiscard]] pgboard::entry entry(std::uint64_t number) const
    {
        pgboard::entry found{0, 0, 0, std::vector<std::uint32_t>(16), std::vector<std::uint32_t>(16)};
        pgboard_entry it;
        pgboard_report report;
        const auto resize = [&found](std::uint64_t rows) {
            found.vertices.resize(static_cast<std::size_t>(rows)), found.choices.resize(static_cast<std::size_t>(rows));
        };
        const auto read = [&] {
            return pgboard_board_entry(&held, number, &it, found.vertices.data(), found.vertices.size(), found.choices.data(), found.choices.size(), &report);
        };
        std::uint32_t answer = read();
        if (answer == PGBOARD_CAPACITY) {
            resize(report.at); // the number of rows
            answer = read();
        }
        detail::judge(answer, report);
        found.worker = it.worker, found.player = it.player, found.claimed = static_cast<std::size_t>(it.claimed);
        resize(it.rows);
        return found;
    }

    // Settles what is left, as pgboard::solve does.
    [[nodiscard]] outcome<> try_finish() noexcept
    {
        return answered([&](auto *report) { return pgboard_board_finish(&held, report); });
    }
    void finish() { detail::judged(try_finish()); }

    // The same, or gives up with the answer PGBOARD_GAVE_UP if the recursion needs more steps than these.
    [[nodiscard]] outcome<> try_finish_within(std::uint64_t steps) noexcept
    {
        return answered([&](auto *report) { return pgboard_board_finish_within(&held, steps, report); });
    }
    void finish_within(std::uint64_t steps) { detail::judged(try_finish_within(steps)); }

    // Makes one search of those that are left or, after the last one, takes up to so many steps of the recursion, and leaves in `steps`
    // the number of steps that it did not take. PGBOARD_OK once all is settled, and PGBOARD_BOARD_UNSETTLED before: call it again then.
    [[nodiscard]] outcome<> try_advance(std::uint64_t &steps) noexcept
    {
        return answered([&](auto *report) { return pgboard_board_advance(&held, &steps, report); });
    }
    // The same, as whether all is settled.
    [[nodiscard]] bool advance(std::uint64_t &steps)
    {
        const outcome<> found = try_advance(steps);
        if (found.answer != PGBOARD_BOARD_UNSETTLED)
            detail::judge(found.answer, found.report);
        return static_cast<bool>(found);
    }

    // The solution of a full board, and its text.
    [[nodiscard]] outcome<pgboard::solution> try_solution() const { return results(pgboard_board_solution); }
    [[nodiscard]] pgboard::solution solution() const { return detail::judged(try_solution()); }
    [[nodiscard]] std::string solution_text() const
    {
        // (a row of the game's arrays takes up to 20 bytes)
        std::string into(static_cast<std::size_t>(vertices()) * 20 + 20, '\0');
        std::size_t written = 0;
        pgboard_report report;
        const auto write = [&] {
            return pgboard_board_solution_text(&held, reinterpret_cast<std::uint8_t *>(into.data()), into.size(), &written, &report);
        };
        std::uint32_t answer = write();
        if (answer == PGBOARD_CAPACITY) {
            into.resize(static_cast<std::size_t>(report.at)); // the size of the text
            answer = write();
        }
        detail::judge(answer, report);
        into.resize(written);
        return into;
    }

  private:
    board() = default;

    // A board that a call opens, which is closed if it does not.
    template <class Call> static outcome<board> opened(Call call) noexcept
    {
        outcome<board> found{PGBOARD_OK, {}, board()};
        found.answer = call(&found.value.held, &found.report);
        return found;
    }

    template <class Call> static outcome<> answered(Call call) noexcept
    {
        outcome<> found{};
        found.answer = call(&found.report);
        return found;
    }

    template <class Call> outcome<pgboard::solution> results(Call call) const
    {
        return detail::written(static_cast<std::size_t>(vertices()), [&](auto *into, auto *report) { return call(&held, into, report); });
    }

    // (C's readers take a board that is not const)
    mutable pgboard_board held = PGBOARD_BOARD;
};

inline entry journal::iterator::operator*() const
{
    return of->entry(number);
}
inline std::uint64_t journal::iterator::at() const noexcept
{
    const std::uint64_t count = of ? of->entries() : 0;
    return number < count ? number : count;
}
inline std::uint64_t journal::size() const noexcept
{
    return of->entries();
}
inline entry journal::operator[](std::uint64_t number) const
{
    return of->entry(number);
}

} // namespace pgboard

#endif
