//! The written forms, each made in one buffer.

use crate::game::Game;
use crate::read::{NO_CHOICE, Solution};

#[inline(always)]
fn number(out: &mut Vec<u8>, value: u32) {
    if value < 10 {
        out.push(b'0' + value as u8);
        return;
    }
    let mut digits = [0u8; 10];
    let (mut at, mut rest) = (10, value);
    while rest > 0 {
        at -= 1;
        digits[at] = b'0' + (rest % 10) as u8;
        rest /= 10;
    }
    out.extend_from_slice(&digits[at..]);
}

fn header(word: &str, game: &Game, capacity: usize) -> Vec<u8> {
    let mut out = Vec::with_capacity(capacity);
    out.extend_from_slice(word.as_bytes());
    out.push(b' ');
    number(&mut out, game.ids.last().copied().unwrap_or(0));
    out.extend_from_slice(b";\n");
    out
}

pub fn game(game: &Game) -> Vec<u8> {
    let mut out = header("parity", game, 16 * game.ids.len() + 6 * game.successors.targets.len() + 20);
    for v in 0..game.len() {
        number(&mut out, game.ids[v as usize]);
        out.push(b' ');
        number(&mut out, game.priorities[v as usize]);
        out.extend_from_slice(if game.odd[v as usize] { b" 1 " } else { b" 0 " });
        for w in game.successors.row(v) {
            number(&mut out, game.ids[*w as usize]);
            out.push(b',');
        }
        if let Some(last) = out.last_mut() {
            *last = b';';
        }
        out.push(b'\n');
    }
    out
}

pub fn solution(game: &Game, solution: &Solution) -> Vec<u8> {
    let mut out = header("paritysol", game, 16 * game.ids.len() + 22);
    for v in 0..game.ids.len() {
        line(&mut out, game.ids[v], solution.odd[v]);
        if solution.choices[v] != NO_CHOICE {
            out.push(b' ');
            number(&mut out, game.ids[solution.choices[v] as usize]);
        }
        out.extend_from_slice(b";\n");
    }
    out
}

pub fn winners(game: &Game, solution: &Solution) -> Vec<u8> {
    let mut out = header("paritysol", game, 12 * game.ids.len() + 22);
    for v in 0..game.ids.len() {
        line(&mut out, game.ids[v], solution.odd[v]);
        out.extend_from_slice(b";\n");
    }
    out
}

#[inline(always)]
fn line(out: &mut Vec<u8>, id: u32, odd: bool) {
    number(out, id);
    out.extend_from_slice(if odd { b" 1" } else { b" 0" });
}
