//! Random games, and their winners by the definition and by the plain recursion (Zielonka 1998): slow, for small games.

use std::collections::BTreeSet;

use pgboard::{Game, Player};

/// Numbers by a linear congruence (Knuth's MMIX).
pub struct Random(pub u64);

impl Random {
    pub fn below(&mut self, bound: usize) -> usize {
        self.0 = self.0.wrapping_mul(6364136223846793005).wrapping_add(1442695040888963407);
        (self.0 >> 33) as usize % bound
    }

    pub fn player(&mut self) -> Player {
        Player::of(self.below(2) as u32)
    }
}

pub type Set = BTreeSet<u32>;

/// Owners, priorities and successors.
#[derive(Clone, Debug)]
pub struct Plain {
    pub owners: Vec<Player>,
    pub priorities: Vec<u32>,
    pub rows: Vec<Vec<u32>>,
}

impl Plain {
    pub fn random(random: &mut Random) -> Plain {
        let (n, priorities) = (1 + random.below(9), 1 + random.below(6));
        Plain::of_size(random, n, priorities)
    }

    pub fn of_size(random: &mut Random, n: usize, priorities: usize) -> Plain {
        let row = |random: &mut Random| (0..1 + random.below(3)).map(|_| random.below(n) as u32).collect();
        Plain {
            owners: (0..n).map(|_| random.player()).collect(),
            priorities: (0..n).map(|_| random.below(priorities) as u32).collect(),
            rows: (0..n).map(|_| row(random)).collect(),
        }
    }

    pub fn starts(&self) -> Vec<u32> {
        let ends = self.rows.iter().scan(0, |end, row| {
            *end += row.len() as u32;
            Some(*end)
        });
        std::iter::once(0).chain(ends).collect()
    }

    pub fn game(&self) -> Game<'_> {
        Game::new(&self.owners, &self.priorities, self.starts(), self.rows.concat()).unwrap()
    }

    pub fn all(&self) -> Set {
        (0..self.rows.len() as u32).collect()
    }

    /// Who wins each vertex.
    pub fn winners(&self) -> Vec<Player> {
        let odd = self.won_by_odd(&self.all());
        self.all().iter().map(|v| Player::of(odd.contains(v) as u32)).collect()
    }

    fn won_by_odd(&self, inside: &Set) -> Set {
        let top = match inside.iter().map(|&v| self.priorities[v as usize]).max() {
            Some(top) => top,
            None => return Set::new(),
        };
        let (player, opponent) = (Player::of(top), Player::of(top + 1));
        let greatest = inside.iter().copied().filter(|&v| self.priorities[v as usize] == top).collect();
        let rest = inside - &self.attracted(&greatest, player, inside);
        let odd = self.won_by_odd(&rest);
        let lost = if player == Player::Even { odd } else { &rest - &odd };
        if lost.is_empty() {
            return if player == Player::Odd { inside.clone() } else { Set::new() };
        }
        let taken = self.attracted(&lost, opponent, inside);
        let odd = self.won_by_odd(&(inside - &taken));
        if opponent == Player::Odd {
            &odd | &taken
        } else {
            odd
        }
    }

    /// What a player attracts to a target, inside a subgame.
    pub fn attracted(&self, target: &Set, player: Player, inside: &Set) -> Set {
        let mut found = target.clone();
        loop {
            let leads = |v: &u32| {
                let mut row = self.rows[*v as usize].iter().filter(|it| inside.contains(it));
                let is_own = self.owners[*v as usize] == player;
                if is_own {
                    row.any(|it| found.contains(it))
                } else {
                    row.all(|it| found.contains(it))
                }
            };
            let more: Set = (inside - &found).into_iter().filter(leads).collect();
            if more.is_empty() {
                return found;
            }
            found = &found | &more;
        }
    }

    /// Whether winners and choices are a solution.
    pub fn is_solution(&self, winners: &[Player], choices: &[u32]) -> bool {
        let kept = |v: u32| {
            let is_own = self.owners[v as usize] == winners[v as usize];
            if is_own {
                vec![choices[v as usize]]
            } else {
                self.rows[v as usize].clone()
            }
        };
        self.all().into_iter().all(|v| {
            let (winner, priority) = (winners[v as usize], self.priorities[v as usize]);
            let is_right = |to: &u32| self.rows[v as usize].contains(to) && winners[*to as usize] == winner;
            let is_low = |to: &u32| self.priorities[*to as usize] <= priority;
            kept(v).iter().all(is_right) && (Player::of(priority) == winner || !comes_again(v, kept, is_low))
        })
    }
}

/// Whether a walk over edges to such vertices leads from a vertex to itself.
fn comes_again(v: u32, edges: impl Fn(u32) -> Vec<u32>, is_inside: impl Fn(&u32) -> bool) -> bool {
    let (mut reached, mut list) = (Set::new(), vec![v]);
    while let Some(at) = list.pop() {
        list.extend(edges(at).into_iter().filter(|to| is_inside(to) && reached.insert(*to)));
    }
    reached.contains(&v)
}
