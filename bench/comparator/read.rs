//! Both texts, each in one pass.

use crate::fault::Fault;
use crate::game::{Game, Specs};
use crate::lexer::{Kind, Lexer};

/// For each vertex whether Odd wins it, and a choice or `NO_CHOICE`.
pub struct Solution {
    pub odd: Vec<bool>,
    pub choices: Vec<u32>,
}

pub const NO_CHOICE: u32 = u32::MAX;

pub fn game(text: &[u8]) -> Result<Game, Fault> {
    specs(text).and_then(Specs::game).ok_or(Fault::Game)
}

fn specs(text: &[u8]) -> Option<Specs> {
    let mut lexer = Lexer::new(text);
    let mut specs = Specs::default();
    let mut token = lexer.next();
    for header in [b"parity".as_slice(), b"start"] {
        if token.kind == Kind::Word && lexer.word(token) == header {
            lexer.expect_header()?;
            token = lexer.next();
        }
    }
    loop {
        let Kind::Number(id) = token.kind else {
            return lexer.unexpected(token);
        };
        let priority = lexer.expect_number()?;
        let owner = lexer.expect_number()?;
        loop {
            specs.successors.push(lexer.expect_number()? as u32);
            token = lexer.next();
            if token.kind != Kind::Comma {
                break;
            }
        }
        if token.kind == Kind::Name {
            token = lexer.next();
        }
        if token.kind != Kind::Semicolon {
            return lexer.unexpected(token);
        }
        if owner > 1 {
            return None;
        }
        specs.ids.push(id as u32);
        specs.priorities.push(priority as u32);
        specs.odd.push(owner == 1);
        specs.ends.push(specs.successors.len() as u32);
        token = lexer.next();
        if token.kind == Kind::End {
            break;
        }
    }
    (!lexer.too_large).then_some(specs)
}

pub fn solution(game: &Game, text: &[u8]) -> Result<Solution, Fault> {
    lines(game, text).ok_or(Fault::Solution)
}

fn lines(game: &Game, text: &[u8]) -> Option<Solution> {
    let n = game.ids.len();
    let mut lexer = Lexer::new(text);
    let mut solution = Solution { odd: vec![false; n], choices: vec![NO_CHOICE; n] };
    let mut written = vec![false; n];
    let mut token = lexer.next();
    if token.kind == Kind::Word && lexer.word(token) == b"paritysol" {
        lexer.expect_header()?;
        token = lexer.next();
    }
    while token.kind != Kind::End {
        let Kind::Number(id) = token.kind else {
            return lexer.unexpected(token);
        };
        let winner = lexer.expect_number()?;
        let v = game.places.get(id as u32)?;
        let mut choice = NO_CHOICE;
        token = lexer.next();
        if let Kind::Number(id) = token.kind {
            choice = game.places.get(id as u32)?;
            token = lexer.next();
        }
        if token.kind != Kind::Semicolon {
            return lexer.unexpected(token);
        }
        if winner > 1 || std::mem::replace(&mut written[v as usize], true) {
            return None;
        }
        solution.odd[v as usize] = winner == 1;
        solution.choices[v as usize] = choice;
        token = lexer.next();
    }
    (!lexer.too_large && written.iter().all(|it| *it)).then_some(solution)
}
