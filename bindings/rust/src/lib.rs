//! Solves max-parity games and verifies solutions, by the proved C library of pgboard. The crate itself is only
//! tested.
//!
//! A [`Game`] has vertices from 0 on, each with an owner, a priority and successors. A [`Player`] wins a vertex if he
//! has choices by which, on every play from there, the greatest priority that occurs again and again has his parity.
//!
//! ```
//! use pgboard::{Game, Player::{Even, Odd}};
//!
//! let mut builder = Game::builder();
//! builder.push(Even, 2, [0, 1]); // vertex 0, where Even may stay or go to 1
//! builder.push(Odd, 1, [1]);
//! let solution = builder.build()?.solve()?;
//! assert_eq!(solution.winners, [Even, Odd]);
//! assert_eq!(solution.strategy(0), Some(0));
//! # Ok::<(), pgboard::Fault>(())
//! ```
//!
//! On a [`Board`] several solvers share what they find, and [`text`] has games in PGSolver's format. No call starts a
//! thread, waits or panics.

#![deny(unsafe_op_in_unsafe_fn)]
#![warn(missing_docs, missing_debug_implementations)]

mod board;
mod fault;
#[allow(dead_code, missing_docs, non_camel_case_types)]
mod ffi;
mod game;
mod solution;
pub mod text;

pub use board::{Board, Claim, Entry, Posted, Vertex};
pub use fault::Fault;
/// In lists of choices: the vertex has none.
pub use ffi::PGBOARD_NO_CHOICE as NO_CHOICE;
pub use game::{Builder, Game};
pub use solution::{Partial, Solution, Verdict};

/// (The program of the page is a test.)
#[cfg(doctest)]
#[doc = include_str!("../README.md")]
struct Readme;

/// A player: even priorities are good for Even, and odd ones for Odd.
#[derive(Clone, Copy, Debug, PartialEq, Eq, PartialOrd, Ord, Hash)]
#[allow(missing_docs)]
#[repr(u8)]
pub enum Player {
    Even = 0,
    Odd = 1,
}

impl Player {
    /// The player for whom a priority is good.
    pub fn of(priority: u32) -> Player {
        [Player::Even, Player::Odd][priority as usize % 2]
    }
}

/// Takes the answer and the report of a call.
///
/// What the calls of the library have in common, and why they are safe: each pointer comes from a slice or a reference
/// that lasts as long as the call, so it is not null, and what the call writes is borrowed by it alone.
fn judged(call: impl FnOnce(&mut ffi::pgboard_report) -> u32) -> Result<(), Fault> {
    let mut report = ffi::pgboard_report { at: 0, to: 0 };
    let answer = call(&mut report);
    Fault::of(answer, report).map_or(Ok(()), Err)
}

/// A list of copies of a value, if there is memory for it.
fn filled<T: Copy>(value: T, count: usize) -> Result<Vec<T>, Fault> {
    let mut list = Vec::new();
    list.try_reserve_exact(count)?;
    list.resize(count, value);
    Ok(list)
}

/// What a call writes to a buffer of a given size. If that is too short, it gets one of the size that it asks for.
fn sized<T>(size: usize, mut call: impl FnMut(usize) -> Result<T, Fault>) -> Result<T, Fault> {
    match call(size) {
        Err(Fault::Capacity { size }) => call(size as usize),
        found => found,
    }
}
