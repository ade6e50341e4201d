//! Zielonka's recursion (1998) that solves anew all that a player had won, once his opponent has won some of the rest. It is there to
//! measure what `solve.rs` gains.
//!
//! A vertex is active while it is in the subgame in hand. A frame is a subgame that waits for the answer on what the
//! attractor of its greatest priority leaves. What is attracted goes to the end of one of two lists that all frames share.

use crate::game::{Game, Rows};
use crate::read::{NO_CHOICE, Solution};

struct Frame {
    /// Where its greatest priority stands in the list by priority.
    at: usize,
    odd: bool,
    /// How many were set aside and settled before, and how many of those for Odd.
    aside: usize,
    settled: usize,
    settled_odd: usize,
}

#[derive(Clone, Copy, PartialEq, Eq)]
enum To {
    Aside,
    Settled,
}

struct Solver<'g> {
    game: &'g Game,
    predecessors: Rows,
    sorted: Vec<u32>,
    active: Vec<bool>,
    won_by_odd: Vec<bool>,
    choices: Vec<u32>,
    /// At an opponent's vertex, a successor that was active when it was last looked at: most looks end there, and read no row.
    witness: Vec<u32>,
    /// At an opponent's vertex, how many successors have been passed in the attraction of the stamp.
    watched: Vec<u32>,
    stamps: Vec<u32>,
    stamp: u32,
    aside: Vec<u32>,
    settled: Vec<u32>,
    settled_odd: usize,
    frames: Vec<Frame>,
}

pub fn zielonka(game: &Game) -> Solution {
    let n = game.ids.len();
    let mut sorted: Vec<u32> = (0..game.len()).collect();
    sorted.sort_unstable_by_key(|v| (u32::MAX - game.priorities[*v as usize], *v));
    let mut solver = Solver {
        game,
        predecessors: game.predecessors(),
        sorted,
        active: vec![true; n],
        won_by_odd: vec![false; n],
        choices: vec![NO_CHOICE; n],
        witness: (0..game.len()).map(|v| game.successors.row(v)[0]).collect(),
        watched: vec![0; n],
        stamps: vec![0; n],
        stamp: 0,
        aside: Vec::with_capacity(n),
        settled: Vec::with_capacity(n),
        settled_odd: 0,
        frames: Vec::new(),
    };
    solver.run();
    let Solver { won_by_odd: odd, mut choices, .. } = solver;
    for v in 0..n {
        if game.odd[v] != odd[v] {
            choices[v] = NO_CHOICE;
        }
    }
    Solution { odd, choices }
}

impl Solver<'_> {
    fn run(&mut self) {
        let mut at = 0;
        loop {
            if let Some(next) = self.enter(at) {
                at = next;
                continue;
            }
            loop {
                let Some(frame) = self.frames.pop() else {
                    return;
                };
                at = frame.at;
                if self.leave(frame) {
                    break;
                }
            }
        }
    }

    /// Begins the subgame of the active vertices, none of which is greater than that at place `at`.
    fn enter(&mut self, at: usize) -> Option<usize> {
        let at = at + self.sorted[at..].iter().position(|v| self.active[*v as usize])?;
        let priority = self.game.priorities[self.sorted[at] as usize];
        let odd = priority % 2 == 1;
        let aside = self.aside.len();
        let next = self.set_aside(at, priority);
        self.stamp += 1;
        self.attract(odd, To::Aside, aside);
        self.frames.push(Frame { at, odd, aside, settled: self.settled.len(), settled_odd: self.settled_odd });
        Some(next)
    }

    /// Sets aside the active vertices of a priority, and gives the place after them.
    fn set_aside(&mut self, at: usize, priority: u32) -> usize {
        let mut next = at;
        while let Some(v) = self.sorted.get(next).copied().filter(|v| self.game.priorities[*v as usize] == priority) {
            if self.active[v as usize] {
                let active = |w: &&u32| self.active[**w as usize];
                if let Some(w) = self.game.successors.row(v).iter().find(active) {
                    self.choices[v as usize] = *w;
                }
            }
            next += 1;
        }
        for v in &self.sorted[at..next] {
            if std::mem::replace(&mut self.active[*v as usize], false) {
                self.aside.push(*v);
            }
        }
        next
    }

    /// Takes from the active vertices all that a list attracts from place `from` on.
    fn attract(&mut self, odd: bool, list: To, from: usize) {
        let mut at = from;
        loop {
            let to = match list {
                To::Aside => self.aside.get(at),
                To::Settled => self.settled.get(at),
            };
            let Some(to) = to.copied() else {
                return;
            };
            at += 1;
            let begin = self.predecessors.offsets[to as usize] as usize;
            let end = self.predecessors.offsets[to as usize + 1] as usize;
            for place in begin..end {
                let v = self.predecessors.targets[place];
                if !self.active[v as usize] {
                    continue;
                }
                if self.game.odd[v as usize] == odd {
                    self.choices[v as usize] = to;
                } else if !self.is_lost(v) {
                    continue;
                }
                self.active[v as usize] = false;
                match list {
                    To::Aside => self.aside.push(v),
                    To::Settled => self.settle(v, odd),
                }
            }
        }
    }

    #[inline(always)]
    fn settle(&mut self, v: u32, odd: bool) {
        self.won_by_odd[v as usize] = odd;
        self.settled.push(v);
        self.settled_odd += usize::from(odd);
    }

    /// Whether no successor is active.
    #[inline(always)]
    fn is_lost(&mut self, v: u32) -> bool {
        if self.active[self.witness[v as usize] as usize] {
            return false;
        }
        let row = self.game.successors.row(v);
        let v = v as usize;
        let mut at = if self.stamps[v] == self.stamp { self.watched[v] as usize } else { 0 };
        while at < row.len() && !self.active[row[at] as usize] {
            at += 1;
        }
        self.stamps[v] = self.stamp;
        self.watched[v] = at as u32;
        match row.get(at) {
            Some(w) => {
                self.witness[v] = *w;
                false
            }
            None => true,
        }
    }

    /// Whether the subgame goes on, without what the opponent has won of it.
    fn leave(&mut self, frame: Frame) -> bool {
        let settled = self.settled.len() - frame.settled;
        let settled_odd = self.settled_odd - frame.settled_odd;
        let lost = if frame.odd { settled - settled_odd } else { settled_odd };
        if lost == 0 {
            while self.aside.len() > frame.aside {
                if let Some(v) = self.aside.pop() {
                    self.settle(v, frame.odd);
                }
            }
            return false;
        }
        for v in self.aside.drain(frame.aside..) {
            self.active[v as usize] = true;
        }
        let mut kept = frame.settled;
        for at in frame.settled..self.settled.len() {
            let v = self.settled[at];
            if self.won_by_odd[v as usize] == frame.odd {
                self.active[v as usize] = true;
            } else {
                self.settled[kept] = v;
                kept += 1;
            }
        }
        self.settled.truncate(kept);
        if frame.odd {
            self.settled_odd = frame.settled_odd;
        }
        self.stamp += 1;
        self.attract(!frame.odd, To::Settled, frame.settled);
        true
    }
}
