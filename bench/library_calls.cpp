// What the calls of the library take: library_calls MODE GAME. Standard output has the solution. Standard error has the milliseconds, and
// those of the processors, from the game in memory to its solution in memory.
//
//   solve, known    pgboard_solve, and pgboard_solve_known where nothing is known
//   make            what pgboard_solve does before it solves: a call that is refused, after it has made the game of its arrays

#include <cstdlib>
#include <ctime>
#include <fstream>
#include <iostream>
#include <iterator>

#include "pgboard.hpp"

using Numbers = std::vector<uint32_t>;

static const uint32_t NONE = PGBOARD_NO_CHOICE;
static const char *const USAGE = "usage: library_calls solve|known|make GAME";

[[noreturn]] static void stop(const std::string &why)
{
    std::cerr << "library_calls: " << why << "\n";
    std::exit(2);
}

struct Game : pgboard::game {
    uint32_t size() const { return static_cast<uint32_t>(ids.size()); }
};

static std::string text_of(const Game &game, const pgboard::solution &solution)
{
    std::string text = "paritysol " + std::to_string(game.ids.back()) + ";\n";
    for (uint32_t v = 0; v < game.size(); v++) {
        text += std::to_string(game.ids[v]) + (solution.winners[v] ? " 1" : " 0");
        text += solution.choices[v] == NONE ? ";\n" : " " + std::to_string(game.ids[solution.choices[v]]) + ";\n";
    }
    return text;
}

static pgboard::solution made(const Game &game)
{
    const pgboard_game arrays = pgboard::detail::arrays(game);
    uint8_t winner;
    uint32_t choice;
    pgboard_results none = {sizeof none, &winner, 0, &choice, 0};
    pgboard_report report;
    if (pgboard_solve(&arrays, &none, &report) != PGBOARD_RESULTS)
        stop("the arrays for results are too short, and are not refused");
    return {std::vector<uint8_t>(game.size()), Numbers(game.size(), NONE)};
}

static pgboard::solution solved(const Game &game, const std::string &mode)
{
    if (mode == "solve")
        return pgboard::solve(game);
    if (mode == "known")
        return pgboard::solve(game, {std::vector<uint8_t>(game.size(), PGBOARD_NO_WINNER), Numbers(game.size(), NONE)});
    if (mode == "make")
        return made(game);
    stop(USAGE);
}

static double milliseconds(clockid_t clock)
{
    timespec now;
    clock_gettime(clock, &now);
    return 1e3 * static_cast<double>(now.tv_sec) + 1e-6 * static_cast<double>(now.tv_nsec);
}

int main(int count, char **words)
try {
    if (count != 3)
        stop(USAGE);
    std::ifstream file(words[2], std::ios::binary);
    const std::string text(std::istreambuf_iterator<char>(file), {});
    const Game game{pgboard::board::open_text(text).game()};
    const double begun = milliseconds(CLOCK_MONOTONIC), used = milliseconds(CLOCK_PROCESS_CPUTIME_ID);
    const pgboard::solution solution = solved(game, words[1]);
    std::cerr << milliseconds(CLOCK_MONOTONIC) - begun << " " << milliseconds(CLOCK_PROCESS_CPUTIME_ID) - used << "\n";
    std::cout << text_of(game, solution);
    return 0;
} catch (const pgboard::fault &fault) {
    stop(fault.what());
}
