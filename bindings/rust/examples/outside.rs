//! Solves a game of a file by a board to which two threads post what they find: `cargo run --example outside GAME`
//!
//! Nobody has to trust them: the board settles what holds of it, refuses the rest, and solves what is left. They look
//! for fatal attractors (Huth, Kuo and Piterman 2013): vertices to which a player comes again by no greater priority,
//! and those on the way.

use std::collections::BTreeMap;
use std::sync::Mutex;
use std::{env, error::Error, fs, thread};

use pgboard::{Board, Claim, Fault, Partial, Player, Vertex, NO_CHOICE};

/// A player's search on a board that others post to as well.
struct Search<'a> {
    board: &'a Mutex<Board>,
    game: &'a [Vertex],
    predecessors: &'a [Vec<u32>],
    player: Player,
    state: Partial,
}

impl Search<'_> {
    /// Posts an attractor for each of the greatest priorities of the player's parity, and returns how many.
    fn run(&mut self) -> Result<usize, Fault> {
        let is_own = |v: &u32| Player::of(self.game[*v as usize].priority) == self.player;
        let mut tops: Vec<u32> = (0..self.game.len() as u32).filter(is_own).collect();
        tops.sort_by_key(|v| std::cmp::Reverse(self.game[*v as usize].priority));
        let mut posts = 0;
        for top in tops.into_iter().take(1000) {
            let claim = self.fatal_attractor(top);
            if claim.contains_key(&top) {
                self.post(claim)?;
                posts += 1;
            }
        }
        Ok(posts)
    }

    /// The unsettled vertices from which the player forces a play to the top by priorities up to its own, with his
    /// choices. The claim holds if the top is one of them.
    fn fatal_attractor(&self, top: u32) -> BTreeMap<u32, u32> {
        let (mut found, mut list) = (BTreeMap::new(), vec![top]);
        while let Some(to) = list.pop() {
            for &v in &self.predecessors[to as usize] {
                let vertex = &self.game[v as usize];
                let is_open = |v| self.state.winner(v).is_none() && !found.contains_key(&v);
                let is_own = vertex.owner == self.player;
                let is_forced = is_own || !vertex.successors.iter().any(|&it| it != top && is_open(it));
                if is_open(v) && is_forced && vertex.priority <= self.game[top as usize].priority {
                    found.insert(v, if is_own { to } else { NO_CHOICE });
                    if v != top {
                        list.push(v);
                    }
                }
            }
        }
        found
    }

    /// Posts a claim, and looks at what is settled then.
    fn post(&mut self, claim: BTreeMap<u32, u32>) -> Result<(), Fault> {
        let (vertices, choices): (Vec<_>, Vec<_>) = claim.into_iter().unzip();
        let worker = 1 + self.player as u32;
        let claim = Claim { worker, player: self.player, vertices: &vertices, choices: &choices };
        let mut board = self.board.lock().unwrap();
        match board.post(claim) {
            Ok(_) | Err(Fault::PostStale) => self.state = board.state()?,
            Err(fault) => return Err(fault),
        }
        Ok(())
    }
}

fn main() -> Result<(), Box<dyn Error>> {
    let path = env::args_os().nth(1).ok_or("usage: outside GAME")?;
    let board = Board::open_text(fs::read(path)?)?;
    let game = board.vertices().collect::<Result<Vec<_>, _>>()?;
    let mut predecessors = vec![Vec::new(); game.len()];
    for (v, vertex) in (0..).zip(&game) {
        vertex.successors.iter().for_each(|&to| predecessors[to as usize].push(v));
    }
    let (state, board) = (board.state()?, Mutex::new(board));
    let search = |player| {
        Search { board: &board, game: &game, predecessors: &predecessors, player, state: state.clone() }.run()
    };
    let posts = thread::scope(|scope| -> Result<usize, Fault> {
        let even = scope.spawn(|| search(Player::Even));
        let odd = search(Player::Odd)?;
        Ok(even.join().unwrap()? + odd)
    })?;
    let mut board = board.into_inner()?;
    let settled = board.settled();
    board.finish()?;
    print!("{}", board.solution_text()?);
    eprintln!("outside: posts {posts}, settled {settled} of {}", board.settled());
    Ok(())
}
