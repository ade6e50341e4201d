//! A plain program in Rust with the commands of pgboard, to measure it against.
//!
//! It stands on the standard library alone and is written for speed: each text is read whole and in one pass, games lie
//! in flat lists, and the output is made in one buffer. It refuses a text with a fault, and does not name the fault. Nothing of it is proved. `selftest` compares its fast parts with
//! slow and plain ones on random games. `solve --plain` takes the plain recursion. Build it with `rustc -O --edition 2024 main.rs`.

mod cycles;
mod fault;
mod game;
mod lexer;
mod plain;
mod read;
mod rounds;
mod selftest;
mod solve;
mod verify;
mod write;

use fault::Fault;
use std::fs::File;
use std::io::{Read, Write};
use std::mem::ManuallyDrop;
use std::os::fd::FromRawFd;
use std::process::ExitCode;

/// The greatest length of a text.
const LONGEST: usize = 268_435_456;

/// What a run writes, and whether the answer was yes.
struct Answer {
    bytes: Vec<u8>,
    holds: bool,
}

impl Answer {
    fn done(bytes: Vec<u8>) -> Answer {
        Answer { bytes, holds: true }
    }
}

fn main() -> ExitCode {
    let words: Vec<String> = std::env::args().skip(1).collect();
    let words: Vec<&str> = words.iter().map(String::as_str).collect();
    let answer = match words.as_slice() {
        [] => joined(),
        ["tidy" | "verify" | "solve", "--help"] => Ok(Answer::done(b"as pgboard has it: docs/CLI.md\n".to_vec())),
        ["verify", game, solution] => verify(game, solution),
        ["tidy"] => tidy(None),
        ["tidy", game] if !game.starts_with("--") => tidy(Some(game)),
        ["solve", rest @ ..] => return solve(rest),
        ["selftest", count] => return selftest::run(count.parse().unwrap_or(1000)),
        _ => return refused(),
    };
    finish(answer)
}

fn refused() -> ExitCode {
    eprintln!("comparator: no such command line");
    ExitCode::from(2)
}

fn finish(answer: Result<Answer, Fault>) -> ExitCode {
    let answer = answer.and_then(|answer| {
        let mut out = standard(1);
        out.write_all(&answer.bytes).map_err(|_| Fault::Device)?;
        Ok(answer.holds)
    });
    match answer {
        Ok(true) => ExitCode::SUCCESS,
        Ok(false) => ExitCode::from(1),
        Err(fault) => {
            let _ = standard(2).write_all(format!("comparator: {fault:?} fault\n").as_bytes());
            ExitCode::from(fault.status())
        }
    }
}

/// A standard stream without a buffer.
fn standard(number: i32) -> ManuallyDrop<File> {
    // SAFETY: the three standard descriptors are never closed here
    ManuallyDrop::new(unsafe { File::from_raw_fd(number) })
}

fn open(path: Option<&str>) -> Result<ManuallyDrop<File>, Fault> {
    match path {
        Some(path) => File::open(path).map(ManuallyDrop::new).map_err(|_| Fault::Device),
        None => Ok(standard(0)),
    }
}

fn text_of(mut file: ManuallyDrop<File>) -> Result<Vec<u8>, Fault> {
    let size = file.metadata().map_or(0, |it| it.len() as usize);
    let mut text = Vec::with_capacity(size.min(LONGEST) + 1);
    (&mut *file).take(LONGEST as u64 + 1).read_to_end(&mut text).map_err(|_| Fault::Device)?;
    if text.len() > LONGEST { Err(Fault::Game) } else { Ok(text) }
}

fn joined() -> Result<Answer, Fault> {
    let text = text_of(open(None)?)?;
    let at = text.iter().position(|byte| *byte == b'%').unwrap_or(text.len());
    let game = read::game(&text[..at])?;
    judge(&game, text.get(at + 1..).unwrap_or(&[]))
}

fn verify(game: &str, solution: &str) -> Result<Answer, Fault> {
    let (game, solution) = (open(Some(game))?, open(Some(solution))?);
    let game = read::game(&text_of(game)?)?;
    let solution = text_of(solution)?;
    judge(&game, &solution)
}

fn judge(game: &game::Game, text: &[u8]) -> Result<Answer, Fault> {
    let solution = read::solution(game, text)?;
    Ok(match verify::check(game, &solution) {
        Ok(()) => Answer::done(b"ok\n".to_vec()),
        Err(why) => Answer { bytes: format!("not a solution: {why}\n").into_bytes(), holds: false },
    })
}

fn tidy(game: Option<&str>) -> Result<Answer, Fault> {
    let text = text_of(open(game)?)?;
    let game = read::game(&text)?;
    drop(text);
    Ok(Answer::done(write::game(&game)))
}

type Recursion = fn(&game::Game) -> read::Solution;

fn solve(words: &[&str]) -> ExitCode {
    let (mut winners, mut recursion, mut game) = (false, solve::solve as Recursion, None);
    let mut words = words.iter();
    while let Some(word) = words.next() {
        match *word {
            "--winners" => winners = true,
            "--plain" => recursion = plain::zielonka,
            // pgboard's own options, which change nothing here
            "--workers" | "--bound" => drop(words.next()),
            word if !word.starts_with('-') && game.is_none() => game = Some(word),
            _ => return refused(),
        }
    }
    finish(solved(winners, recursion, game))
}

fn solved(winners: bool, recursion: Recursion, path: Option<&str>) -> Result<Answer, Fault> {
    let text = text_of(open(path)?)?;
    let game = read::game(&text)?;
    drop(text);
    let solution = recursion(&game);
    Ok(Answer::done(if winners { write::winners(&game, &solution) } else { write::solution(&game, &solution) }))
}
