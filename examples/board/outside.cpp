// Solves a game by a board to which two threads post what they find. Nobody has to trust them: the board
// settles what holds of it, refuses the rest, and solves what is left. They look for fatal attractors (Huth,
// Kuo and Piterman 2013): vertices to which a player comes again by no greater priority, and those on the way.
#include <algorithm>
#include <fstream>
#include <future>
#include <iostream>
#include <mutex>

#include "pgboard.hpp"

using Numbers = std::vector<uint32_t>;

// A game, whose vertices have the numbers that a board of its text gives them: from 0, by rising identifier.
struct Game {
    Numbers priority, owner;
    std::vector<Numbers> after, before;

    explicit Game(const pgboard::game &it)
        : priority(it.priorities), owner(it.owners.begin(), it.owners.end()), after(owner.size()), before(owner.size())
    {
        for (uint32_t v = 0; v < owner.size(); v++)
            for (uint32_t e = it.starts[v]; e < it.starts[v + 1]; e++)
                after[v].push_back(it.targets[e]), before[it.targets[e]].push_back(v);
    }
};

// A player's search in a copy of the board, which takes one call at a time.
struct Search {
    const Game &game;
    pgboard::board &board;
    std::mutex &turn;
    uint32_t player;
    uint64_t posts = 0, stale = 0, refused = 0;
    std::vector<uint8_t> winners = std::vector<uint8_t>(game.owner.size(), PGBOARD_NO_WINNER);
    // of each vertex the choice, and the last round in which it was attracted
    Numbers choice = Numbers(game.owner.size()), last = choice;

    // Posts where the player can come to the top by priorities up to its own, if that is so at the top too.
    void post(uint32_t top, uint32_t round)
    {
        Numbers list{top}, choices;
        const auto is_open = [&](uint32_t v) { return winners[v] == PGBOARD_NO_WINNER && last[v] < round; };
        const auto is_way_out = [&](uint32_t w) { return w != top && is_open(w); };
        for (size_t i = 0; i < list.size(); i++)
            for (uint32_t v : game.before[list[i]]) {
                const Numbers &row = game.after[v];
                const bool is_own = game.owner[v] == player;
                if (!is_open(v) || game.priority[v] > game.priority[top] ||
                    (!is_own && std::any_of(row.begin(), row.end(), is_way_out)))
                    continue;
                choice[v] = is_own ? list[i] : PGBOARD_NO_CHOICE, last[v] = round;
                if (v != top)
                    list.push_back(v);
            }
        if (last[top] != round)
            return;
        std::sort(list.begin(), list.end());
        for (uint32_t v : list)
            choices.push_back(choice[v]), winners[v] = static_cast<uint8_t>(player);
        const std::lock_guard<std::mutex> hold(turn);
        const uint32_t answer = board.try_post(player, list, choices, 1 + player).answer;
        posts++, stale += answer == PGBOARD_POST_STALE;
        refused += answer != PGBOARD_OK && answer != PGBOARD_POST_STALE;
        if (answer == PGBOARD_POST_STALE) // others have settled all of it, and maybe more
            winners = board.state().winners;
    }

    // Tries the thousand greatest vertices of the player's parity, until a claim is refused.
    void run()
    {
        std::vector<std::pair<uint32_t, uint32_t>> tops;
        for (uint32_t v = 0; v < game.owner.size(); v++)
            if (game.priority[v] % 2 == player)
                tops.emplace_back(game.priority[v], v);
        std::sort(tops.rbegin(), tops.rend());
        for (uint32_t round = 1; round <= std::min<size_t>(tops.size(), 1000) && refused == 0; round++)
            post(tops[round - 1].second, round);
    }
};

// The exit statuses are those of pgboard.
int main(int count, char **words)
try {
    if (count > 2 || (count == 2 && words[1][0] == '-'))
        return std::cerr << "outside: usage: outside [GAME]\n", 2;
    std::ifstream file(count == 2 ? words[1] : "/dev/stdin");
    file.exceptions(std::ios::failbit);
    const std::string text(std::istreambuf_iterator<char>(file), {});
    pgboard::board board = pgboard::board::open_text(text);
    const Game game(board.game());
    std::mutex turn;
    Search even{game, board, turn, 0}, odd{game, board, turn, 1};
    const auto one = std::async([&] { even.run(); }), other = std::async([&] { odd.run(); });
    one.wait(), other.wait(); // (where a thread had no memory, the board has more to do)
    const uint64_t settled = board.settled();
    board.finish();
    if (!(std::cout << board.solution_text() << std::flush))
        throw std::ios::failure("");
    std::cerr << "outside: posts " << even.posts + odd.posts << ", stale " << even.stale + odd.stale
              << ", refused " << even.refused + odd.refused << ", settled " << settled << " of "
              << board.settled() << "\n";
} catch (const pgboard::fault &it) {
    return std::cerr << "outside: " << it.what() << "\n", 3;
} catch (const std::ios::failure &) {
    return std::cerr << "outside: read or write fault\n", 4;
} catch (const std::bad_alloc &) {
    return std::cerr << "outside: no memory\n", 5;
}
