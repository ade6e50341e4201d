//! Whether winners and choices are a solution, or the first fault: by kind, then by vertex, then by successor.

use crate::cycles;
use crate::game::Game;
use crate::read::{NO_CHOICE, Solution};
use std::fmt::{Display, Formatter};

/// Each names identifiers.
#[derive(Clone, Copy, Debug, PartialEq, Eq)]
pub enum NoSolution {
    NoChoice(u32),
    BadChoice(u32),
    Leaves(u32, u32),
    Cycle(u32),
}

impl Display for NoSolution {
    fn fmt(&self, f: &mut Formatter) -> std::fmt::Result {
        match self {
            NoSolution::NoChoice(id) => write!(f, "no choice at {id}"),
            NoSolution::BadChoice(id) => write!(f, "bad choice at {id}"),
            NoSolution::Leaves(from, to) => write!(f, "{from} leaves to {to}"),
            NoSolution::Cycle(id) => write!(f, "bad cycle at {id}"),
        }
    }
}

/// The kept edges of a vertex: its choice where its winner owns it, else all.
#[inline(always)]
pub fn kept<'g>(game: &'g Game, solution: &'g Solution, v: u32) -> &'g [u32] {
    let at = v as usize;
    if game.odd[at] == solution.odd[at] {
        &solution.choices[at..=at]
    } else {
        game.successors.row(v)
    }
}

pub fn check(game: &Game, solution: &Solution) -> Result<(), NoSolution> {
    check_edges(game, solution)?;
    match cycles::least(game, solution) {
        Some(v) => Err(NoSolution::Cycle(game.ids[v as usize])),
        None => Ok(()),
    }
}

pub fn check_edges(game: &Game, solution: &Solution) -> Result<(), NoSolution> {
    let is_chosen = |v: &u32| game.odd[*v as usize] == solution.odd[*v as usize];
    let id = |v: u32| game.ids[v as usize];
    if let Some(v) = (0..game.len()).filter(is_chosen).find(|v| solution.choices[*v as usize] == NO_CHOICE) {
        return Err(NoSolution::NoChoice(id(v)));
    }
    let is_bad = |v: &u32| game.successors.row(*v).binary_search(&solution.choices[*v as usize]).is_err();
    if let Some(v) = (0..game.len()).filter(is_chosen).find(is_bad) {
        return Err(NoSolution::BadChoice(id(v)));
    }
    for v in 0..game.len() {
        let odd = solution.odd[v as usize];
        if let Some(w) = kept(game, solution, v).iter().find(|w| solution.odd[**w as usize] != odd) {
            return Err(NoSolution::Leaves(id(v), id(*w)));
        }
    }
    Ok(())
}
