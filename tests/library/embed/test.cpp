// Goes through the calls of include/pgboard.hpp. The last line is 'N passed, M failed'.
#include <algorithm>
#include <array>
#include <atomic>
#include <cstdlib>
#include <cstring>
#include <functional>
#include <iostream>
#include <type_traits>
#include <utility>
#if __cplusplus >= 202002L
#include <span>
#endif

#include "pgboard.hpp"

static int passed, failed;
#define EXPECT(holds) ((holds) ? ++passed : (++failed, std::cout << "FAILED embed/test.cpp:" << __LINE__ << ": " #holds "\n", 0))

// Even owns 0 and may stay there or go to 1; Odd owns 1 and stays. Even wins 0, Odd wins 1.
static const pgboard::game two{{0, 1}, {2, 1}, {0, 2, 3}, {0, 1, 1}};

// A game of which the searches leave something to the recursion.
static const pgboard::game five{{1, 1, 1, 0, 0}, {0, 4, 2, 3, 5}, {0, 1, 2, 4, 5, 7}, {4, 4, 3, 2, 2, 1, 0}};

// A journal is of a board that stays.
template <class Of, class = void> struct has_journal : std::false_type {};
template <class Of> struct has_journal<Of, std::void_t<decltype(std::declval<Of>().journal())>> : std::true_type {};
static_assert(has_journal<const pgboard::board &>::value && !has_journal<pgboard::board>::value, "the board of a journal stays");

// A view may be kept, so none is made of a list, which ends with the expression, nor of a number that is a null pointer.
using numbers = pgboard::span<const std::uint32_t>;
template <class Of, class = void> struct takes_numbers : std::false_type {};
template <class Of> struct takes_numbers<Of, std::void_t<decltype(Of{0, 1})>> : std::true_type {};
static_assert(!std::is_constructible_v<numbers, std::initializer_list<std::uint32_t>> && !takes_numbers<numbers>::value);
static_assert(std::is_constructible_v<numbers, std::uint32_t *, int> && std::is_constructible_v<numbers, std::array<std::uint32_t, 3> &>);
static_assert(!std::is_constructible_v<pgboard::game_view, pgboard::game> && !std::is_constructible_v<pgboard::game_view, const pgboard::game>);
static_assert(!std::is_constructible_v<pgboard::solution_view, pgboard::solution> && std::is_constructible_v<pgboard::solution_view, pgboard::solution &>);
#if __cplusplus >= 202002L
static_assert(std::ranges::input_range<pgboard::journal> && std::ranges::common_range<pgboard::journal>);
#endif
static_assert(std::is_nothrow_constructible_v<pgboard::game_view, const pgboard::game &> && std::is_nothrow_move_assignable_v<pgboard::board>);
static_assert(noexcept(pgboard::try_check(two, pgboard::solution())) && noexcept(std::declval<const pgboard::board &>().settled()));
static_assert(noexcept(std::declval<pgboard::board &>().try_post(0, numbers(), numbers())) && !noexcept(pgboard::check(two, pgboard::solution())));

static bool refuses(std::uint32_t answer, std::uint64_t at, std::uint64_t to, const std::function<void()> &call)
{
    try {
        call();
    } catch (const pgboard::fault &fault) {
        // (tests/pages/faults.py looks at the numbers of fields)
        const std::string text = pgboard_strerror(answer), one = " (" + std::to_string(at), what = fault.what();
        const bool has_places = what == text + one + ")" || what == text + one + ", " + std::to_string(to) + ")";
        return fault.answer == answer && fault.at == at && fault.to == to && (has_places || (what == text && at == 0 && to == 0));
    }
    return false;
}

// How many allocations of the library are still allowed; none is refused below 0. (Those of C++ are not the library's.)
static std::atomic<int> allowed{-1};

extern "C" void *__real_malloc(std::size_t size);
extern "C" void *__wrap_malloc(std::size_t size)
{
    return allowed == 0 ? nullptr : (allowed > 0 ? --allowed : 0, __real_malloc(size));
}
extern "C" void *__real_realloc(void *at, std::size_t size);
extern "C" void *__wrap_realloc(void *at, std::size_t size)
{
    return allowed == 0 ? nullptr : (allowed > 0 ? --allowed : 0, __real_realloc(at, size));
}

// Whether a call throws bad_alloc for each allocation that is refused, and else does what it does.
static bool runs_out(const std::function<void()> &call)
{
    for (int first = 0;; first++) {
        bool is_refused = false;
        allowed = first;
        try {
            call();
        } catch (const std::bad_alloc &) {
            is_refused = true;
        } catch (...) {
            return allowed = -1, false;
        }
        allowed = -1;
        if (!is_refused)
            return first > 0;
    }
}

// A game of own loops, each of one player, with his priority.
static pgboard::game loops(std::uint32_t count, std::uint8_t player)
{
    pgboard::game loops{{}, {}, {0}, {}};
    for (std::uint32_t v = 0; v < count; v++)
        loops.owners.push_back(player), loops.priorities.push_back(2 - player), loops.targets.push_back(v), loops.starts.push_back(v + 1);
    return loops;
}

// What runs at the next allocation of C++, as in the making of an exception.
static void (*meanwhile)() = nullptr;

void *operator new(std::size_t size)
{
    if (void (*call)() = std::exchange(meanwhile, nullptr))
        call();
    if (void *at = __real_malloc(size ? size : 1))
        return at;
    throw std::bad_alloc();
}
void operator delete(void *at) noexcept { std::free(at); }
void operator delete(void *at, std::size_t) noexcept { std::free(at); }

// Whether a refusal says its own place where another call is refused before the exception is made, as another thread's may be.
static bool has_its_report()
{
    pgboard::game game = loops(20, 0);
    const pgboard::solution right = pgboard::solve(game);
    game.targets[7] = 99;
    static bool was_refused;
    return refuses(PGBOARD_UNKNOWN, 7, 99, [&] {
               meanwhile = [] { was_refused = refuses(PGBOARD_LEAVES, 0, 1, [] { pgboard::check(two, pgboard::solution{{0, 1}, {1, 1}}); }); };
               pgboard::check(game, right);
           })
        && was_refused;
}

// What is in memory of other kinds than vectors, and a call that may not own it.
static void views()
{
    const std::uint8_t owners[] = {0, 1};
    const std::array<std::uint32_t, 2> priorities{2, 1};
    const std::vector<std::uint32_t> starts{9, 0, 2, 3, 9};
    const std::uint32_t targets[] = {0, 1, 1};
    const pgboard::game_view game(owners, priorities, {starts.data() + 1, 3}, {targets, 3});
    const auto found = pgboard::solve(game);
    EXPECT((found.winners == std::vector<std::uint8_t>{0, 1}) && (found.choices == std::vector<std::uint32_t>{0, 1}));
    const std::uint8_t known[] = {PGBOARD_NO_WINNER, 1};
    EXPECT(pgboard::solve(game, {{known, 2}, found.choices}).winners == found.winners);
    const pgboard::solution_view part(known, found.choices);
    EXPECT(pgboard::solve(game, part).choices == found.choices && pgboard::solve(loops(3, 1), pgboard::solve(loops(3, 1))).choices[2] == 2);
    std::uint32_t rows_of_game[] = {0, 2, 3};
    EXPECT(pgboard::solve({owners, priorities, rows_of_game, targets}, {known, found.choices}).choices == found.choices);
    EXPECT((pgboard::check(game, {found.winners, {found.choices.data(), 2}}), true));
    EXPECT(refuses(PGBOARD_SOLUTION, PGBOARD_ARRAY_CHOICES, 0, [&] { pgboard::check(game, {found.winners, {found.choices.data(), 1}}); }));
    pgboard::board board(game);
    // (the calls take no null pointer)
    const std::vector<std::uint32_t> empty;
    EXPECT(pgboard::span<const std::uint32_t>().data() && pgboard::span<const std::uint32_t>(empty).data() && pgboard::game_view().owners.data());
    const std::uint32_t rows[] = {7, 1};
    EXPECT(board.post(1, {rows + 1, 1}, {rows + 1, 1}).settled == 1);
#if __cplusplus >= 202002L
    EXPECT(pgboard::solve({std::span(owners), std::span(priorities), std::span(starts).subspan(1, 3), std::span(targets)}).choices == found.choices);
    EXPECT(board.try_post(1, std::span(rows).last(1), std::span(rows).last(1)).answer == PGBOARD_POST_STALE);
#endif
}

// Answers that are no errors, without an exception.
static void answers()
{
    const std::uint64_t more = std::uint64_t{1} << 32; // 0 in 32 bits
    const auto gave_up = pgboard::try_solve_within(five, 0);
    EXPECT(!gave_up && gave_up.answer == PGBOARD_GAVE_UP);
    const auto within = pgboard::try_solve_within(five, more);
    EXPECT(within && within.answer == PGBOARD_OK && within.value.winners == pgboard::solve(five).winners && within.value.choices == pgboard::solve(five).choices);
    EXPECT(pgboard::solve_within(five, more + 1).winners == within.value.winners);
    EXPECT(pgboard::try_solve_within(pgboard::game{{}, {}, {0}, {}}, more).answer == PGBOARD_NO_VERTEX);
    const pgboard::solution nothing{std::vector<std::uint8_t>(5, PGBOARD_NO_WINNER), std::vector<std::uint32_t>(5)};
    EXPECT(pgboard::try_solve_within(five, nothing, 0).answer == PGBOARD_GAVE_UP);
    EXPECT(pgboard::try_solve_within(five, nothing, more).value.winners == within.value.winners);
    EXPECT(pgboard::solve_within(five, within.value, 0).winners == within.value.winners);
    EXPECT(pgboard::try_solve(five).value.choices == within.value.choices && pgboard::try_solve(five, nothing).value.choices == within.value.choices);
    EXPECT(pgboard::try_solve(pgboard::game{{}, {}, {0}, {}}).answer == PGBOARD_NO_VERTEX);
    const auto unknown = pgboard::try_solve(two, pgboard::solution{{0, PGBOARD_NO_WINNER}, {1, 1}});
    EXPECT(!unknown && unknown.answer == PGBOARD_KNOWN_LEAVES && unknown.report.at == 0 && unknown.report.to == 1);
    // a verdict that is negative
    const auto verdict = pgboard::try_check(two, pgboard::solution{{0, 1}, {1, 1}});
    EXPECT(!verdict && verdict.answer == PGBOARD_LEAVES && verdict.report.at == 0 && verdict.report.to == 1);
    EXPECT(pgboard::try_check(two, pgboard::solve(two)));
    const auto missing = pgboard::try_verify_text("7 0 0 7;", {});
    EXPECT(!missing && missing.answer == PGBOARD_SOLUTION_MISSING && missing.report.at == 7 && pgboard::try_verify_text("7 0 0 7;", "7 0 7;"));
    const auto solved = pgboard::try_solve_text("7 0 0 7;"), tidied = pgboard::try_tidy_text("7 0 0 7;");
    EXPECT(solved && solved.value == pgboard::solve_text("7 0 0 7;") && tidied && tidied.value == "parity 7;\n7 0 0 7;\n");
    const auto unsolved = pgboard::try_solve_text("7 0 0 7"), untidied = pgboard::try_tidy_text("?");
    EXPECT(!unsolved && unsolved.answer == PGBOARD_GAME_SYNTAX && unsolved.report.at == 7 && unsolved.value.empty());
    EXPECT(!untidied && untidied.answer == PGBOARD_GAME_LEXICAL && untidied.report.at == 0);
    pgboard::board rest(five);
    EXPECT(rest.try_finish_within(0).answer == PGBOARD_GAVE_UP && rest.entries() == 0 && rest.settled() == 0);
    EXPECT(rest.try_finish_within(more).answer == PGBOARD_OK && rest.settled() == 5 && rest.solution().winners == within.value.winners);
    pgboard::board board(two);
    const auto posted = board.try_post(1, {1}, {1});
    EXPECT(posted && posted.value.entry == 0 && posted.value.claimed == 1 && posted.value.settled == 1);
    const auto stale = board.try_post(1, {1}, {1}, 8);
    EXPECT(!stale && stale.answer == PGBOARD_POST_STALE && stale.report.at == 0);
    const auto open = board.try_post(0, {0}, {1});
    EXPECT(!open && open.answer == PGBOARD_POST_OPEN && open.report.at == 0 && open.report.to == 1);
    EXPECT(board.try_post(0, {}, {}).answer == PGBOARD_POST_SHAPE && board.entries() == 1);
    EXPECT(board.try_finish_within(more).answer == PGBOARD_OK && board.settled() == 2);
    EXPECT(board.entry(0).worker == 0);
}

// The same of a board that is opened, finished and read.
static void answers_of_boards()
{
    auto opened = pgboard::board::try_open(five), of_text = pgboard::board::try_open_text("9 1 1 9; 3 2 0 3,9;");
    EXPECT(opened && opened.value.vertices() == 5 && of_text && of_text.value.game().ids.back() == 9);
    const auto wrong = pgboard::board::try_open(pgboard::game{{0, 1}, {2, 1}, {0, 2, 3}, {0, 7, 1}}), no_text = pgboard::board::try_open_text("0 0 0 ?;");
    EXPECT(!wrong && wrong.answer == PGBOARD_UNKNOWN && wrong.report.at == 0 && wrong.report.to == 7 && wrong.value.vertices() == 0);
    EXPECT(!no_text && no_text.answer == PGBOARD_GAME_LEXICAL && no_text.report.at == 6);
    const auto unsettled = opened.value.try_solution();
    EXPECT(!unsettled && unsettled.answer == PGBOARD_BOARD_UNSETTLED && unsettled.report.at == 5);
    std::uint64_t steps = 0;
    const auto part = opened.value.try_advance(steps);
    EXPECT(!part && part.answer == PGBOARD_BOARD_UNSETTLED && part.report.at == 5);
    EXPECT(opened.value.try_finish() && opened.value.try_advance(steps).report.at == 0);
    EXPECT(opened.value.try_solution().value.choices == pgboard::solve(five).choices);
    pgboard::board moved(std::move(opened.value));
    EXPECT(opened.value.try_finish().answer == PGBOARD_BOARD_CLOSED && opened.value.try_solution().answer == PGBOARD_BOARD_CLOSED);
}

// What only reads takes a board that is const, and the journal is gone through from the first entry on.
static void readers()
{
    pgboard::board board(loops(40, 0));
    const pgboard::board &same = board;
    EXPECT(same.journal().begin() == same.journal().end() && same.journal().size() == 0);
    for (std::uint32_t v = 0; v < 40; v += 2)
        EXPECT(board.post(0, {v, v + 1}, {v, v + 1}, v).entry == v / 2);
    std::uint32_t next = 0;
    for (const pgboard::entry &it : same.journal()) {
        EXPECT(it.worker == next && it.player == 0 && it.claimed == 2 && (it.vertices == std::vector<std::uint32_t>{next, next + 1}) && it.choices == it.vertices);
        next += 2;
    }
    EXPECT(next == 40 && same.journal().size() == 20 && same.journal()[19].worker == 38 && same.entry(3).worker == 6);
    EXPECT(std::distance(same.journal().begin(), same.journal().end()) == 20);
    EXPECT(pgboard::journal::iterator() == pgboard::journal::iterator());
#if __cplusplus >= 202002L
    EXPECT(std::ranges::count(same.journal(), 38u, &pgboard::entry::worker) == 1);
#endif
    EXPECT(same.journal().begin()->worker == 0 && std::next(same.journal().begin(), 2)->vertices == same.entry(2).vertices);
    auto at = same.journal().begin();
    EXPECT((*at++).worker == 0 && at->worker == 2);
    EXPECT(same.settled() == 40 && same.entries() == 20 && same.state().choices == same.solution().choices);
    // entries that are added on the way follow
    pgboard::board other(loops(10, 1));
    std::uint32_t count = 0;
    EXPECT(other.post(1, {0}, {0}).entry == 0);
    for (const pgboard::entry &it : other.journal())
        if (count = it.vertices[0] + 1; count < 10)
            EXPECT(other.post(1, {count}, {count}).entry == count);
    EXPECT(count == 10 && other.settled() == 10 && other.entry(0).worker == 0 && other.entry(9).worker == 0);
}

// All entries of a board, as text.
static std::string journal_of(const pgboard::board &board)
{
    std::string all;
    for (const pgboard::entry &it : board.journal()) {
        all += std::to_string(it.worker) + ' ' + std::to_string(it.player) + ' ' + std::to_string(it.claimed);
        for (std::size_t k = 0; k < it.vertices.size(); k++)
            all += ' ' + std::to_string(it.vertices[k]) + ':' + std::to_string(it.choices[k]);
        all += '\n';
    }
    return all;
}

// A board that is finished part by part, with no step and with all of them in the last call.
static void parts()
{
    pgboard::board board(five), finished(five);
    finished.finish();
    std::uint64_t steps = 0;
    for (int k = 0; k < 3000; k++)
        EXPECT(!board.advance(steps) && steps == 0);
    EXPECT(board.try_advance(steps).answer == PGBOARD_BOARD_UNSETTLED && steps == 0 && board.settled() < 5);
    const std::uint64_t given = std::uint64_t{1} << 40;
    steps = given;
    EXPECT(board.advance(steps) && board.settled() == 5 && steps < given);
    const std::uint64_t taken = given - steps;
    EXPECT(board.advance(steps) && board.try_advance(steps).answer == PGBOARD_OK && given - steps == taken);
    EXPECT(journal_of(board) == journal_of(finished) && board.solution().choices == finished.solution().choices);
    EXPECT(pgboard::board(five).try_finish_within(taken).answer == PGBOARD_OK && pgboard::board(five).try_finish_within(taken - 1).answer == PGBOARD_GAVE_UP);
    // the caller may stop, post what it has found, and go on
    pgboard::board stopped(two);
    EXPECT(stopped.post(1, {1}, {1}, 8).entry == 0);
    steps = 1;
    while (!stopped.advance(steps))
        steps = 1;
    EXPECT((stopped.solution().winners == std::vector<std::uint8_t>{0, 1}) && stopped.entry(0).worker == 8 && stopped.entry(1).worker == 0);
    pgboard::board moved(std::move(stopped));
    EXPECT(refuses(PGBOARD_BOARD_CLOSED, 0, 0, [&] { return stopped.advance(steps); }) && stopped.try_advance(steps).answer == PGBOARD_BOARD_CLOSED);
    EXPECT(moved.advance(steps));
    EXPECT(runs_out([] {
        pgboard::board some(five);
        std::uint64_t more = 9;
        while (!some.advance(more))
            continue;
    }));
}

// A board of a text, and the text of its solution.
static void board_texts()
{
    const std::string text = "9 1 1 9; 3 2 0 3, 9 \"a name\";";
    pgboard::board board = pgboard::board::open_text(text);
    EXPECT(board.settled() == 0 && board.entries() == 0 && board.vertices() == 2);
    EXPECT((board.state().winners == std::vector<std::uint8_t>{PGBOARD_NO_WINNER, PGBOARD_NO_WINNER}));
    // the game of the board
    const pgboard::game read = board.game();
    EXPECT((read.ids == std::vector<std::uint32_t>{3, 9}) && (read.owners == std::vector<std::uint8_t>{0, 1}));
    EXPECT((read.priorities == std::vector<std::uint32_t>{2, 1}) && (read.targets == std::vector<std::uint32_t>{0, 1, 1}));
    EXPECT((read.starts == std::vector<std::uint32_t>{0, 2, 3}) && pgboard::solve(read).winners == pgboard::solve(two).winners);
    EXPECT(refuses(PGBOARD_BOARD_UNSETTLED, 2, 0, [&] { return board.solution_text(); }));
    // the vertices 3 and 9 are 0 and 1
    EXPECT(board.post(1, {1}, {1}).settled == 1);
    EXPECT(refuses(PGBOARD_BOARD_UNSETTLED, 1, 0, [&] { return board.solution_text(); }));
    board.finish();
    EXPECT((board.solution().winners == std::vector<std::uint8_t>{0, 1}) && board.solution_text() == "paritysol 9;\n3 0 3;\n9 1 9;\n");
    board = pgboard::board(two);
    board.finish();
    EXPECT(board.solution_text() == "paritysol 1;\n0 0 0;\n1 1 1;\n");
    EXPECT(refuses(PGBOARD_GAME_LEXICAL, 6, 0, [] { return pgboard::board::open_text("0 0 0 ?;"); }));
    EXPECT(refuses(PGBOARD_GAME_SYNTAX, 0, 0, [] { return pgboard::board::open_text({}); }));
    EXPECT(refuses(PGBOARD_UNKNOWN, 7, 8, [] { return pgboard::board::open_text("7 0 0 7, 8;"); }));
    const pgboard::game same = board.game();
    EXPECT(same.targets == two.targets && same.starts == two.starts && (same.ids == std::vector<std::uint32_t>{0, 1}));
    pgboard::board moved(std::move(board));
    EXPECT(refuses(PGBOARD_BOARD_CLOSED, 0, 0, [&] { return board.solution_text(); }) && board.vertices() == 0);
    EXPECT(refuses(PGBOARD_BOARD_CLOSED, 0, 0, [&] { return board.game(); }) && board.journal().begin() == board.journal().end());
    // texts with short rows and with long ones
    for (std::uint32_t first : {0u, 10u, 999990u, 2147483600u})
        for (std::uint32_t count : {1u, 2u, 40u}) {
            std::string loops;
            for (std::uint32_t v = first; v < first + count; v++)
                loops += std::to_string(v) + " 0 " + std::to_string(v % 2) + ' ' + std::to_string(v) + ";\n";
            pgboard::board other = pgboard::board::open_text(loops);
            EXPECT(other.state().winners.size() == count);
            other.finish();
            EXPECT(other.solution_text() == pgboard::solve_text(loops));
        }
    EXPECT(runs_out([&] { return pgboard::board::open_text(text); }));
    EXPECT(runs_out([&] {
        pgboard::board some = pgboard::board::open_text(text);
        some.finish();
        return some.solution_text();
    }));
}

// Boards of other sizes are moved, and memory is refused.
static void sizes_and_memory()
{
    pgboard::board board(two);
    board = pgboard::board(loops(50, 1));
    EXPECT(board.state().winners.size() == 50);
    board.finish();
    EXPECT(board.solution().winners == std::vector<std::uint8_t>(50, 1));
    pgboard::board moved(std::move(board));
    EXPECT(moved.solution().choices.size() == 50 && moved.settled() == 50);
    moved = pgboard::board(two);
    moved.finish();
    EXPECT((moved.solution().winners == std::vector<std::uint8_t>{0, 1}));
    EXPECT(runs_out([] { return pgboard::solve(five); }));
    EXPECT(runs_out([] { return pgboard::solve_within(five, 9); }));
    EXPECT(runs_out([] { return pgboard::solve_text("9 1 1 9; 3 2 0 3, 9;"); }));
    EXPECT(runs_out([] { pgboard::check(two, pgboard::solution{{0, 1}, {0, 1}}); }));
    EXPECT(runs_out([] { pgboard::board(two).finish(); }));
    EXPECT(has_its_report());
    // what() has the place, where there is one
    const auto what = [](std::uint32_t answer, std::uint64_t at, std::uint64_t to) { return std::string(pgboard::fault(answer, {at, to}).what()); };
    EXPECT(what(PGBOARD_UNKNOWN, 7, 99) == "a successor is no vertex (7, 99)" && what(PGBOARD_GAME_LEXICAL, 0, 0).find("closed (0)") != std::string::npos);
    EXPECT(what(PGBOARD_POST_STALE, 0, 0) == pgboard_strerror(PGBOARD_POST_STALE) && what(999, 0, 0) == "no answer of this library");
}

int main()
{
    const std::string text = "9 1 1 9; 3 2 0 3, 9 \"a name\";";
    const auto found = pgboard::solve(two);
    EXPECT((found.winners == std::vector<std::uint8_t>{0, 1}) && (found.choices == std::vector<std::uint32_t>{0, 1}));
    EXPECT(pgboard::solve(two, pgboard::solution{{PGBOARD_NO_WINNER, 1}, {PGBOARD_NO_CHOICE, 1}}).winners == found.winners);
    const auto within = pgboard::solve_within(five, 9);
    EXPECT(within.winners == pgboard::solve(five).winners && within.choices == pgboard::solve(five).choices);
    EXPECT(refuses(PGBOARD_GAVE_UP, 0, 0, [] { return pgboard::solve_within(five, 0); }));
    EXPECT((pgboard::check(two, found), true));
    EXPECT(pgboard::solve_text(text) == "paritysol 9;\n3 0 3;\n9 1 9;\n");
    EXPECT(pgboard::tidy_text(text) == "parity 9;\n3 2 0 3,9;\n9 1 1 9;\n");
    EXPECT((pgboard::verify_text(text, "9 1 9; 3 0 3;"), true));
    EXPECT(refuses(PGBOARD_LEAVES, 0, 1, [&] { pgboard::check(two, pgboard::solution{{0, 1}, {1, 1}}); }));
    EXPECT(refuses(PGBOARD_SOLUTION, PGBOARD_ARRAY_CHOICES, 0, [&] { pgboard::check(two, pgboard::solution{{0, 1}, {1}}); }));
    EXPECT(refuses(PGBOARD_KNOWN_LEAVES, 0, 1, [&] { return pgboard::solve(two, pgboard::solution{{0, PGBOARD_NO_WINNER}, {1, 1}}); }));
    EXPECT(refuses(PGBOARD_LENGTHS, PGBOARD_ARRAY_STARTS, 0, [] { return pgboard::solve({}); }));
    EXPECT(refuses(PGBOARD_NO_VERTEX, 0, 0, [] { return pgboard::solve(pgboard::game{{}, {}, {0}, {}}); }));
    EXPECT(refuses(PGBOARD_GAME_LEXICAL, 6, 0, [] { return pgboard::solve_text("0 0 0 ?;"); }));
    EXPECT(refuses(PGBOARD_GAME_SYNTAX, 0, 0, [] { return pgboard::tidy_text({}); }));
    EXPECT(refuses(PGBOARD_SOLUTION_MISSING, 3, 0, [&] { pgboard::verify_text(text, {}); }));
    pgboard::board first(two), board = std::move(first);
    EXPECT(refuses(PGBOARD_BOARD_CLOSED, 0, 0, [&] { first.finish(); }));
    EXPECT(refuses(PGBOARD_POST_OPEN, 0, 1, [&] { return board.post(0, {0}, {1}); }));
    EXPECT(refuses(PGBOARD_POST_SHAPE, 0, 0, [&] { return board.post(0, {}, {}); }));
    EXPECT(refuses(PGBOARD_POST_LENGTHS, 1, 0, [&] { return board.post(0, {0}, {}); }));
    EXPECT(refuses(PGBOARD_BOARD_UNSETTLED, 2, 0, [&] { return board.solution(); }));
    const auto posted = board.post(1, {1}, {1}, 8);
    EXPECT(posted.entry == 0 && posted.claimed == 1 && posted.settled == 1);
    EXPECT((board.state().winners == std::vector<std::uint8_t>{PGBOARD_NO_WINNER, 1}) && board.settled() == 1);
    board.finish();
    EXPECT(board.entries() == 2 && board.solution().winners == found.winners && board.solution().choices == found.choices);
    const auto entry = board.entry(0);
    EXPECT(entry.worker == 8 && entry.player == 1 && entry.claimed == 1 && entry.vertices == std::vector<std::uint32_t>{1} && entry.choices == entry.vertices);
    EXPECT(refuses(PGBOARD_BOARD_ENTRY, 2, 0, [&] { return board.entry(2); }));
    board = pgboard::board(two);
    EXPECT(board.entries() == 0);
    // the searches settle both vertices, and nothing is left that needs a step
    board.finish_within(0);
    EXPECT(board.solution().winners == found.winners && board.solution().choices == found.choices);
    board = pgboard::board(five);
    EXPECT(refuses(PGBOARD_GAVE_UP, 0, 0, [&] { board.finish_within(0); }));
    EXPECT(board.entries() == 0 && board.settled() == 0);
    board.finish_within(9);
    EXPECT(board.solution().winners == pgboard::solve(five).winners && board.solution().choices == pgboard::solve(five).choices);
    // own loops of Even's, each with the priority 2, which he wins by staying: entries of 16 rows, of 17 and of the others
    pgboard::game loops{{}, {}, {0}, {}};
    for (std::uint32_t v = 0; v < 100; v++)
        loops.owners.push_back(0), loops.priorities.push_back(2), loops.targets.push_back(v), loops.starts.push_back(v + 1);
    pgboard::board long_board(loops);
    for (const auto &[from, to] : {std::pair{0, 16}, {16, 33}, {33, 100}}) {
        const std::vector<std::uint32_t> rows(loops.targets.begin() + from, loops.targets.begin() + to);
        const auto number = long_board.post(0, rows, rows).entry;
        const auto long_entry = long_board.entry(number);
        EXPECT(long_entry.claimed == rows.size() && long_entry.vertices == rows && long_entry.choices == rows);
    }
    views();
    answers();
    answers_of_boards();
    readers();
    parts();
    board_texts();
    sizes_and_memory();
    std::cout << passed << " passed, " << failed << " failed\n";
    return failed != 0;
}
