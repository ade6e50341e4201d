//! Writes the inputs of the benchmarks, the same bytes in each run: `generate FOLDER NAME..`.
//!
//! For each name a game `NAME.pg`, and where `verify` is measured on a wrong solution `NAME.wrong`. Right solutions are
//! not made here. All games keep pgboard's limits. A name that ends in a number of vertices, as `chain_1048576`, is a game
//! of a kind that is measured at two sizes.

use std::fs::File;
use std::io::{BufWriter, Result, Write};

/// How many vertices most games have.
const VERTICES: u32 = 65_536;
/// How many levels the hostile games of that size have.
const LEVELS: u32 = 4_096;
/// How many vertices a game may have.
const MOST_VERTICES: u32 = 1_048_576;
/// How many vertices the sparse games with many priorities have.
const SPARSE: [u32; 2] = [100_000, 1_000_000];

/// Numbers from a fixed seed (splitmix64).
struct Random(u64);

impl Random {
    fn below(&mut self, bound: u32) -> u32 {
        self.0 = self.0.wrapping_add(0x9e37_79b9_7f4a_7c15);
        let mut z = self.0;
        z = (z ^ (z >> 30)).wrapping_mul(0xbf58_476d_1ce4_e5b9);
        z = (z ^ (z >> 27)).wrapping_mul(0x94d0_49bb_1331_11eb);
        ((z ^ (z >> 31)) % u64::from(bound)) as u32
    }

    /// So many different numbers below a bound, rising.
    fn different(&mut self, count: u32, bound: u32) -> Vec<u32> {
        let mut found = Vec::new();
        while (found.len() as u32) < count {
            let more = (found.len() as u32..count).map(|_| self.below(bound)).collect::<Vec<_>>();
            found.extend(more);
            found.sort_unstable();
            found.dedup();
        }
        found
    }
}

/// A vertex: its priority, whether Odd owns it, and its successors.
struct Vertex(u32, bool, Vec<u32>);

type Game = Vec<Vertex>;

/// Each vertex with so many successors, priorities and owners at random.
fn sparse(n: u32, degree: u32, priorities: u32, seed: u64) -> Game {
    let random = &mut Random(seed);
    (0..n)
        .map(|_| Vertex(random.below(priorities), random.below(2) == 1, random.different(degree, n)))
        .collect()
}

/// Each vertex with one or two random successors and a random priority of 31 bits.
fn one_or_two(n: u32, seed: u64) -> Game {
    let random = &mut Random(seed);
    (0..n)
        .map(|_| {
            let degree = 1 + random.below(2);
            Vertex(random.below(1 << 31), random.below(2) == 1, random.different(degree, n))
        })
        .collect()
}

/// A vertex with these successors, and with a random owner and a random priority below a bound.
fn any(random: &mut Random, priorities: u32, row: Vec<u32>) -> Vertex {
    Vertex(random.below(priorities), random.below(2) == 1, sorted(row))
}

/// A ring on which each vertex leads to the nearest two on both sides, but one edge in ten leads anywhere (Watts and Strogatz 1998).
fn small_world(n: u32) -> Game {
    let random = &mut Random(28);
    (0..n)
        .map(|v| {
            let mut to = |step: u32| if random.below(10) == 0 { random.below(n) } else { (v + step) % n };
            let row = vec![to(n - 2), to(n - 1), to(1), to(2)];
            any(random, n, row)
        })
        .collect()
}

/// A ring of clusters of 50 vertices. Each vertex has two random successors in its cluster, and one vertex in ten has one in the next.
fn clusters(n: u32) -> Game {
    let random = &mut Random(29);
    (0..n)
        .map(|v| {
            let first = v - v % 50;
            let mut row = vec![first + random.below(50), first + random.below(50)];
            if random.below(10) == 0 {
                row.push((first + 50 + random.below(50)) % n);
            }
            any(random, n, row)
        })
        .collect()
}

/// Each vertex has up to three random successors, which mostly are a little lower: many small parts are won one after another.
fn layers(n: u32) -> Game {
    let random = &mut Random(30);
    (0..n)
        .map(|v| {
            let degree = 1 + random.below(3);
            let mut near = |_| {
                let (down, up) = ([1, 5, 15][random.below(3) as usize], [0, 1, 5][random.below(3) as usize]);
                let (low, high) = (v.saturating_sub(down), (v + up).min(n - 1));
                low + random.below(high - low + 1)
            };
            let row = (0..degree).map(&mut near).collect();
            any(random, n, row)
        })
        .collect()
}

/// Each of the edges with one chance of two.
fn dense(n: u32) -> Game {
    let random = &mut Random(5);
    (0..n)
        .map(|v| {
            let row = (0..n).filter(|w| *w == (v + 1) % n || random.below(2) == 1).collect();
            Vertex(random.below(n), random.below(2) == 1, row)
        })
        .collect()
}

/// A path to an own loop, with so many priorities that rise.
fn chain(n: u32, levels: u32) -> Game {
    (0..n).map(|v| Vertex(v / (n / levels), v % 2 == 1, vec![(v + 1).min(n - 1)])).collect()
}

/// A path on which each vertex may also stay where it is.
fn chain_of_own_loops(n: u32) -> Game {
    (0..n).map(|v| Vertex(v / (n / LEVELS), v % 3 == 1, vec![v, (v + 1).min(n - 1)])).collect()
}

/// One cycle through all vertices.
fn cycle(n: u32) -> Game {
    (0..n).map(|v| Vertex(v.wrapping_mul(7919) % LEVELS, v % 2 == 1, vec![(v + 1) % n])).collect()
}

/// All edges lead down, and at the end is an own loop: every vertex but that is bad for Even, who wins all.
fn downward(n: u32, degree: u32) -> Game {
    (0..n)
        .map(|v| match v {
            0 => Vertex(0, true, vec![0]),
            _ => Vertex(1, true, (v.saturating_sub(degree)..v).collect()),
        })
        .collect()
}

/// A ring with a bad vertex and a good one hung on it for each level: from the ring to the bad one, from there to the
/// good one of next greater priority, and back to the ring. Even wins all, and each level hides the next one.
fn ladder(n: u32, levels: u32) -> Game {
    let ring = n - 2 * levels;
    let mut game: Game = (0..ring).map(|v| Vertex(0, true, vec![(v + 1) % ring])).collect();
    for level in 0..levels {
        let at = level * (ring / levels);
        let bad = ring + 2 * level;
        game[at as usize].2.push(bad);
        game.push(Vertex(2 * level + 1, true, vec![bad + 1]));
        game.push(Vertex(2 * level + 2, true, vec![at]));
    }
    game
}

/// Own loops alone, each with a priority of its own.
fn own_loops(n: u32) -> Game {
    (0..n).map(|v| Vertex(2 * v, false, vec![v])).collect()
}

/// Each vertex leads to lower ones alone and has an even priority of its own: as many nested subgames as vertices.
fn nested(n: u32) -> Game {
    (0..n)
        .map(|v| match v {
            0 | 1 => Vertex(2 * v, v == 1, vec![0]),
            2 => Vertex(4, false, vec![1]),
            _ => Vertex(2 * v, v % 2 == 1, vec![v / 2, v - 1]),
        })
        .collect()
}

/// Whether a formula of the modal mu-calculus holds in the states of a transition system, as a game of pairs (Emerson,
/// Jutla and Sistla 1993): greatest X, least Y: (p and (q or some next is in X)) or all next are in Y. Most states have one
/// next, some lead back to an earlier one too, and the last leads to itself.
fn modal(n: u32) -> Game {
    let random = &mut Random(13);
    let states = n / 8;
    let mut game = Game::new();
    for s in 0..states {
        let mut next = vec![(s + 1).min(states - 1)];
        if s % 64 == 63 {
            next.insert(0, s - random.below(s.min(4_096)));
        }
        let at = |place: u32| 8 * s + place;
        let to = |place: u32| next.iter().map(|t| 8 * t + place).collect::<Vec<u32>>();
        let mut or_some = to(0);
        or_some.push(at(6));
        or_some.sort_unstable();
        let (p, q) = (random.below(8) == 0, random.below(64) == 0);
        game.push(Vertex(2, false, vec![at(1)]));
        game.push(Vertex(1, false, vec![at(2)]));
        game.push(Vertex(0, false, vec![at(3), at(7)]));
        game.push(Vertex(0, true, vec![at(4), at(5)]));
        game.push(Vertex(u32::from(!p), false, vec![at(4)]));
        game.push(Vertex(0, false, or_some));
        game.push(Vertex(u32::from(!q), false, vec![at(6)]));
        game.push(Vertex(0, true, to(1)));
    }
    game
}

/// A transition system of components of at most 64 states: a ring with chords, from which every second state also leads to a later
/// component.
fn components(states: u32, random: &mut Random) -> Vec<Vec<u32>> {
    let mut rows = Vec::new();
    while (rows.len() as u32) < states {
        let first = rows.len() as u32;
        let size = (1 + random.below(64)).min(states - first);
        for at in 0..size {
            let mut row = vec![first + (at + 1) % size];
            row.extend((0..random.below(3)).map(|_| first + random.below(size)));
            if at % 2 == 1 && first + size < states {
                row.push(first + size + random.below((states - first - size).min(4_096)));
            }
            row.sort_unstable();
            row.dedup();
            rows.push(row);
        }
    }
    rows
}

/// Whether a formula with so many fixed points that alternate holds in the states of such a system, as a game of pairs: greatest X,
/// least Y and so on, to Z: (p or some next is in X) and (q or all next are in Z). Each of p and q holds in so many of 8 states.
fn formula(n: u32, points: u32, of_8: u32, seed: u64) -> Game {
    let random = &mut Random(seed);
    let size = points + 6;
    let mut game = Game::new();
    for (s, next) in components(n / size, random).iter().enumerate() {
        let at = |place: u32| size * s as u32 + place;
        let to = |place: u32| next.iter().map(|t| size * t + place).collect::<Vec<u32>>();
        game.extend((0..points).map(|point| Vertex(points - point, false, vec![at(point + 1)])));
        let mut or_some = to(0);
        or_some.push(at(points + 4));
        or_some.sort_unstable();
        game.push(Vertex(0, true, vec![at(points + 1), at(points + 2)]));
        game.push(Vertex(0, false, or_some));
        game.push(Vertex(0, false, vec![at(points + 3), at(points + 5)]));
        game.push(Vertex(0, true, to(points - 1)));
        game.push(Vertex(u32::from(random.below(8) >= of_8), false, vec![at(points + 4)]));
        game.push(Vertex(u32::from(random.below(8) >= of_8), false, vec![at(points + 5)]));
    }
    game
}

/// Blocks of so many vertices that don't touch, each of eight phases: every edge leads into the block's next phase, so no play
/// comes back within seven moves, and no dominion is small. One block is a protocol in rounds, many are modules.
fn phases(n: u32, block: u32, degree: u32) -> Game {
    let random = &mut Random(20);
    let phase = block / 8;
    (0..n)
        .map(|v| {
            let next = v - v % block + (v % block / phase + 1) % 8 * phase;
            let row = random.different(degree, phase).iter().map(|w| next + w).collect();
            Vertex(random.below(6), random.below(2) == 1, row)
        })
        .collect()
}

/// The same, and at the end of each block four vertices that one player owns are a cycle which he can keep to.
fn modules(n: u32) -> Game {
    let random = &mut Random(21);
    let mut game = phases(n, 64, 3);
    for first in (60..n).step_by(64) {
        let odd = random.below(2);
        for at in 0..4 {
            let Vertex(priority, owner, row) = &mut game[(first + at) as usize];
            (*priority, *owner) = (2 * random.below(3) + odd, odd == 1);
            row.push(first + (at + 1) % 4);
            row.sort_unstable();
            row.dedup();
        }
    }
    game
}

/// A game of a kind that is measured at two sizes.
fn sized(kind: &str, n: u32) -> Option<Game> {
    Some(match kind {
        "random_2_6" => sparse(n, 2, 6, 14),
        "random_3_all" => sparse(n, 3, n, 15),
        "random_4_6" => sparse(n, 4, 6, 16),
        "random_4_all" => sparse(n, 4, n, 17),
        "random_16_6" => sparse(n, 16, 6, 18),
        "random_16_all" => sparse(n, 16, n, 19),
        "rounds" => phases(n, n, 4),
        "blocks" => phases(n, 64, 3),
        "modules" => modules(n),
        "modal" => modal(n),
        "formula_few" => formula(n, 2, 6, 22),
        "formula_many" => formula(n, 6, 1, 23),
        "chain" => chain(n, n),
        "ladder" => ladder(n, n / 4),
        "own_loops" => own_loops(n),
        "nested" => nested(n),
        _ => return None,
    })
}

/// A sparse game with many priorities.
fn sparse_kind(kind: &str, n: u32) -> Option<Game> {
    Some(match kind {
        "small_world" => small_world(n),
        "clusters" => clusters(n),
        "layers" => layers(n),
        "recursive_ladder" => recursive_ladder(n / 5),
        _ => one_or_two(n, kind.strip_prefix("one_or_two_")?.parse().ok()?),
    })
}

/// One cycle through all vertices, with a chord from each that skips up to 63, and a priority for each.
fn chords(n: u32) -> Game {
    let random = &mut Random(24);
    (0..n)
        .map(|v| {
            let mut row = vec![(v + 1) % n, (v + 2 + random.below(63)) % n];
            row.sort_unstable();
            Vertex(v, random.below(2) == 1, row)
        })
        .collect()
}

/// The corners of a cube of many dimensions. An edge leads to each corner that differs in one of them, which the other player owns.
fn hypercube(dimensions: u32) -> Game {
    let random = &mut Random(26);
    let n = 1 << dimensions;
    (0..n)
        .map(|v: u32| {
            let mut row: Vec<u32> = (0..dimensions).map(|at| v ^ (1 << at)).collect();
            row.sort_unstable();
            Vertex(random.below(256), v.count_ones() % 2 == 1, row)
        })
        .collect()
}

/// A binary tree in which each leaf leads back to a vertex above it.
fn tree_with_ways_back(n: u32) -> Game {
    let random = &mut Random(27);
    (0..n)
        .map(|v| {
            let mut row: Vec<u32> = [2 * v + 1, 2 * v + 2].into_iter().filter(|w| *w < n).collect();
            if row.is_empty() {
                // one above has the leading binary digits of v + 1, less 1
                row.push(((v + 1) >> (1 + random.below((v + 1).ilog2()))) - 1);
            }
            Vertex(random.below(32), random.below(2) == 1, row)
        })
        .collect()
}

/// A game on which a plain recursion takes a time exponential in the levels (Friedmann 2011).
fn recursive_ladder(levels: u32) -> Game {
    let (a, b, c, d, e) = (0, levels, 2 * levels, 3 * levels, 4 * levels);
    let mut game = Game::new();
    for i in 1..=levels {
        game.push(Vertex(1 - i % 2, i % 2 == 0, vec![b + i - 1, d + i - 1]));
    }
    for i in 1..=levels {
        game.push(Vertex(1 - i % 2, i % 2 == 1, if i < levels { vec![a + i - 1, c + i] } else { vec![a + i - 1] }));
    }
    for i in 0..levels {
        game.push(Vertex(3 * i + 5, i % 2 == 0, vec![b + i, d + i]));
    }
    for i in 0..levels {
        let near = [(i > 0).then(|| d + i - 1), (i + 1 < levels).then_some(d + i + 1), Some(e + i)];
        game.push(Vertex(3 * i + 4, i % 2 == 1, near.into_iter().flatten().collect()));
    }
    for i in 0..levels {
        game.push(Vertex(3 * i + 3, i % 2 == 0, if i > 0 { vec![b + i - 1, d + i] } else { vec![d] }));
    }
    game
}

fn sorted(mut row: Vec<u32>) -> Vec<u32> {
    row.sort_unstable();
    row.dedup();
    row
}

/// A game that is hard for priority promotion (Benerecetti, Dell'Erba and Mogavero, Solving Parity Games via Priority Promotion, 2016):
/// for 4, 6, .. 14 levels it took 2^(levels - 2) + 1 promotions. With their later rule that a promotion resets regions of the other
/// player alone (Improving Priority Promotion for Parity Games, 2016) it took the Fibonacci number of levels + 1. A plain recursion took
/// about twice the steps for each two levels. A search among small patterns found it; it is none of the authors' games. Each vertex is
/// owned by the player for whom its priority is bad. A level has a low and a high priority. The low ones fall, and the high ones rise.
fn promotions(levels: u32) -> Game {
    let (low, high) = (|level: u32| level, |level: u32| levels + level);
    // the last level of the other parity
    let last = |level: u32| levels - 2 + (level + 1) % 2;
    let mut game = Game::new();
    for level in 0..levels {
        let mut row = vec![low(level), high(last(level))];
        row.extend((level + 1 < levels).then(|| high(level + 1)));
        game.push(Vertex(levels - level, level % 2 == 0, sorted(row)));
    }
    for level in 0..levels {
        let mut row = vec![low(last(level))];
        row.extend((level > 1).then(|| low(level - 2)));
        row.extend((level > 1).then(|| high(level - 2)));
        game.push(Vertex(levels + 1 + level, level % 2 == 1, sorted(row)));
    }
    game
}

/// A game in the manner of Jurdzinski (Small Progress Measures for Solving Parity Games, 2000); not the same games as his. On 15 small
/// sizes each of three orders of lifting took at least (columns + 1)^levels steps. A cell of a level i and a column has three vertices. Even's
/// selector leads to the cell's bad vertex and to the selector above. Odd's bad vertex, of priority 2 i + 1, leads to the lowest
/// selector of the next column and to the good vertex. This, of priority 2 i + 2, is Even's, and leads to that of the next column and to
/// the lowest selector of its own. The last column leads to the first. Even wins the good vertices alone. A lift raises the greatest
/// measure of a lowest selector by at most one, since Even takes the level whose bad vertex adds least.
fn lifting(columns: u32, levels: u32) -> Game {
    let at = |level: u32, column: u32, place: u32| 3 * (columns * level + column % columns) + place;
    let mut game = Game::new();
    for level in 0..levels {
        for column in 0..columns {
            let mut select = vec![at(level, column, 1)];
            select.extend((level + 1 < levels).then(|| at(level + 1, column, 0)));
            game.push(Vertex(0, false, select));
            game.push(Vertex(2 * level + 1, true, sorted(vec![at(0, column + 1, 0), at(level, column, 2)])));
            game.push(Vertex(2 * level + 2, false, sorted(vec![at(0, column, 0), at(level, column + 1, 2)])));
        }
    }
    game
}

/// Whether one random Buchi automaton simulates another fairly (Etessami, Wilke and Schuller 2005), as a game of k^2 pairs
/// of states and 2 k^2 answers that are owed. Odd moves in the first automaton by a letter, and Even has to answer by it.
fn simulation(k: u32) -> Game {
    let random = &mut Random(25);
    // of each state and letter the successors, and whether the state is accepting
    let mut automaton = || -> Vec<([Vec<u32>; 2], bool)> {
        (0..k)
            .map(|_| {
                let rows = [0, 1].map(|_| {
                    let count = 1 + random.below(2);
                    random.different(count, k)
                });
                (rows, random.below(8) == 0)
            })
            .collect()
    };
    let (first, second) = (automaton(), automaton());
    let owed = |letter: u32, p: u32, q: u32| (1 + letter) * k * k + p * k + q;
    let mut game = Vec::new();
    for at in 0..k * k {
        let (p, q) = (&first[(at / k) as usize], &second[(at % k) as usize]);
        let priority = if q.1 { 2 } else { u32::from(p.1) };
        let moves = (0..2).flat_map(|letter| p.0[letter as usize].iter().map(move |to| owed(letter, *to, at % k)));
        game.push(Vertex(priority, true, moves.collect()));
    }
    for at in 0..2 * k * k {
        let (letter, p, q) = (at / (k * k), at / k % k, at % k);
        let answers = second[q as usize].0[letter as usize].iter().map(|to| p * k + to);
        game.push(Vertex(0, false, answers.collect()));
    }
    game
}

/// A sparse game in which every second group of four vertices is a short loop that its player can keep to.
fn small_dominions(n: u32) -> Game {
    let random = &mut Random(7);
    let mut game = sparse(n, 4, 6, 8);
    for first in (0..n).step_by(8) {
        let odd = random.below(2);
        let size = 1 + random.below(4);
        for at in 0..size {
            let mut row = random.different(3, n);
            row.push(first + (at + 1) % size);
            row.sort_unstable();
            row.dedup();
            game[(first + at) as usize] = Vertex(2 * random.below(3) + odd, odd == 1, row);
        }
    }
    game
}

fn write_row(out: &mut impl Write, id: u32, vertex: &Vertex, name: impl Fn(u32) -> u32) -> Result<()> {
    let Vertex(priority, odd, row) = vertex;
    write!(out, "{id} {priority} {} ", u8::from(*odd))?;
    for (at, w) in row.iter().enumerate() {
        write!(out, "{}{}", if at == 0 { "" } else { "," }, name(*w))?;
    }
    writeln!(out, ";")
}

fn write_game(out: &mut impl Write, game: &Game) -> Result<()> {
    writeln!(out, "parity {};", game.len() - 1)?;
    for (v, vertex) in game.iter().enumerate() {
        write_row(out, v as u32, vertex, |w| w)?;
    }
    Ok(())
}

/// Even is said to win everywhere, with the first successors as choices.
fn write_wrong(out: &mut impl Write, game: &Game) -> Result<()> {
    writeln!(out, "paritysol {};", game.len() - 1)?;
    for (v, Vertex(_, odd, row)) in game.iter().enumerate() {
        match odd {
            true => writeln!(out, "{v} 0;")?,
            false => writeln!(out, "{v} 0 {};", row[0])?,
        }
    }
    Ok(())
}

/// The game `sparse_6` in another spelling: the order of its lines, its identifiers, its rows, and what stands behind them.
fn spelled(
    out: &mut impl Write,
    lines: impl Iterator<Item = u32>,
    id: impl Fn(u32) -> u32,
    row: impl Fn(&[u32]) -> Vec<u32>,
    name: &str,
) -> Result<()> {
    let game = sparse(VERTICES, 4, 6, 1);
    for v in lines {
        let Vertex(priority, odd, successors) = &game[v as usize];
        let row: Vec<String> = row(successors).iter().map(|w| id(*w).to_string()).collect();
        writeln!(out, "{} {priority} {} {}{name};", id(v), u8::from(*odd), row.join(","))?;
    }
    Ok(())
}

/// All vertices, each once, in no order: an odd factor gives each.
fn shuffled() -> impl Iterator<Item = u32> {
    (0..VERTICES).map(|at| at.wrapping_mul(40_503) % VERTICES)
}

/// The successors from the last to the first, and the last once more.
fn unsorted(row: &[u32]) -> Vec<u32> {
    row.iter().rev().chain(row.last()).copied().collect()
}

/// Wide identifiers in no order, a long name each, and many blanks.
fn wide(out: &mut impl Write) -> Result<()> {
    let random = &mut Random(9);
    let ids = random.different(VERTICES, 1 << 31);
    let game = sparse(VERTICES, 2, 6, 10);
    let blanks = " ".repeat(64) + "\t\r\n";
    let name = "a name with some length; 0 1 2, ".repeat(8);
    for v in shuffled() {
        let Vertex(priority, odd, row) = &game[v as usize];
        write!(out, "{}{blanks}{priority}{blanks}{}{blanks}", ids[v as usize], u8::from(*odd))?;
        for (place, w) in row.iter().enumerate() {
            write!(out, "{}{}{blanks}", if place == 0 { "" } else { ",  " }, ids[*w as usize])?;
        }
        writeln!(out, "\"{name}\" ;{blanks}")?;
    }
    Ok(())
}

fn many(out: &mut impl Write, piece: &[u8], count: usize) -> Result<()> {
    let block = piece.repeat(1 << 16);
    for _ in 0..count >> 16 {
        out.write_all(&block)?;
    }
    out.write_all(&piece.repeat(count & 0xffff))
}

/// A game of one vertex round a great many bytes.
fn around(out: &mut impl Write, before: &str, piece: &[u8], count: usize, after: &str) -> Result<()> {
    out.write_all(before.as_bytes())?;
    many(out, piece, count)?;
    out.write_all(after.as_bytes())
}

fn game_of(name: &str) -> Option<Game> {
    let n = VERTICES;
    if let Some((kind, size)) = name.rsplit_once('_') {
        let game = match size.parse().unwrap_or(0) {
            size if [VERTICES, MOST_VERTICES].contains(&size) => sized(kind, size),
            size if SPARSE.contains(&size) => sparse_kind(kind, size),
            _ => None,
        };
        if game.is_some() {
            return game;
        }
    }
    Some(match name {
        "sparse_6" => sparse(n, 4, 6, 1),
        "sparse_4096" => sparse(n, 4, 4096, 2),
        "edge_limit_2" => sparse(n, 16, 2, 4),
        "edge_limit_100" => sparse(n, 16, 100, 4),
        "edge_limit_4096" => sparse(n, 16, 4096, 4),
        "growth_8192" => sparse(8_192, 16, 100, 4),
        "growth_16384" => sparse(16_384, 16, 100, 4),
        "growth_32768" => sparse(32_768, 16, 100, 4),
        "growth_65536" => sparse(65_536, 16, 100, 4),
        "dense" => dense(1_024),
        "chain" => chain(n, LEVELS),
        "chain_of_own_loops" => chain_of_own_loops(n),
        "cycle" => cycle(n),
        "downward" => downward(n, 16),
        "growth_downward_8192" => downward(8_192, 16),
        "ladder" => ladder(n, LEVELS / 2 - 1),
        "growth_ladder_8192" => ladder(8_192, LEVELS / 2 - 1),
        "own_loops" => own_loops(LEVELS),
        "one_own_loop_too_many" => own_loops(MOST_VERTICES + 1),
        "small_dominions" => small_dominions(n),
        "chords" => chords(n),
        "recursive_ladder" => recursive_ladder(40),
        "lifting_500_200" => lifting(500, 200),
        "promotions_10000" => promotions(5_000),
        "simulation" => simulation(180),
        "hypercube" => hypercube(13),
        "tree_with_ways_back" => tree_with_ways_back(n),
        _ => return None,
    })
}

fn text_of(name: &str, out: &mut impl Write) -> Result<()> {
    match name {
        "gaps" => spelled(out, 0..VERTICES, |v| 3 * v + 1, <[u32]>::to_vec, ""),
        "shuffled" => spelled(out, shuffled(), |v| v, <[u32]>::to_vec, ""),
        "gaps_shuffled" => spelled(out, shuffled(), |v| 3 * v + 1, <[u32]>::to_vec, ""),
        "unsorted" => spelled(out, 0..VERTICES, |v| v, unsorted, ""),
        "names" => spelled(out, 0..VERTICES, |v| v, <[u32]>::to_vec, " \"a vertex\""),
        "wide_identifiers" => {
            let ids = Random(9).different(VERTICES, 1 << 31);
            spelled(out, 0..VERTICES, |v| ids[v as usize], <[u32]>::to_vec, "")
        }
        "wide" => wide(out),
        "one_name" => around(out, "0 0 0 0 \"", b"a name ", 200_000_000 / 7, "\";\n"),
        "blanks" => around(out, "0 0 0", b" \t\r\n", 50_000_000, "0;\n"),
        "digits" => around(out, "parity ", b"0", 10_000_000, "1; 0 0 0 0;\n"),
        "digits_too_many" => around(out, "parity ", b"9", 10_000_000, "; 0 0 0 0;\n"),
        "quotes" => around(out, "", b"\"\"", 25_000_000, "\n"),
        "repeated_successor" => around(out, "0 0 0 0", b",0", 50_000_000, ";\n"),
        _ => Err(std::io::Error::other(format!("no input is called {name}"))),
    }
}

fn main() -> Result<()> {
    let words: Vec<String> = std::env::args().skip(1).collect();
    let Some((folder, names)) = words.split_first() else {
        return Err(std::io::Error::other("generate FOLDER NAME.."));
    };
    for name in names {
        let mut out = BufWriter::with_capacity(1 << 20, File::create(format!("{folder}/{name}.pg"))?);
        match game_of(name) {
            Some(game) => {
                write_game(&mut out, &game)?;
                let mut wrong = BufWriter::with_capacity(1 << 20, File::create(format!("{folder}/{name}.wrong"))?);
                write_wrong(&mut wrong, &game)?;
                wrong.flush()?;
            }
            None => text_of(name, &mut out)?,
        }
        out.flush()?;
    }
    Ok(())
}
