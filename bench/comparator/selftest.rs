//! The fast parts against slow and plain ones, on random games.

use crate::game::{Game, Specs};
use crate::read::{self, Solution};
use crate::verify::{self, NoSolution, kept};
use crate::{cycles, plain, solve, write};
use std::process::ExitCode;

/// Numbers from a fixed seed (splitmix64).
struct Random(u64);

impl Random {
    fn below(&mut self, bound: u32) -> u32 {
        self.0 = self.0.wrapping_add(0x9e37_79b9_7f4a_7c15);
        let mut z = self.0;
        z = (z ^ (z >> 30)).wrapping_mul(0xbf58_476d_1ce4_e5b9);
        z = (z ^ (z >> 27)).wrapping_mul(0x94d0_49bb_1331_11eb);
        ((z ^ (z >> 31)) % u64::from(bound)) as u32
    }

    fn game(&mut self) -> Game {
        let most = if self.below(16) == 0 { 200 } else { 12 };
        let n = 1 + self.below(most);
        let priorities = 1 + self.below(2 * n);
        let degree = 1 + self.below(3);
        let mut specs = Specs::default();
        for v in 0..n {
            specs.ids.push(3 * (n - v));
            specs.priorities.push(self.below(priorities));
            specs.odd.push(self.below(2) == 1);
            for _ in 0..=self.below(degree) {
                specs.successors.push(3 * (1 + self.below(n)));
            }
            specs.ends.push(specs.successors.len() as u32);
        }
        specs.game().expect("a game")
    }
}

/// The verdict on cycles by one search for each bad vertex.
fn verdict(game: &Game, solution: &Solution) -> Result<(), NoSolution> {
    verify::check_edges(game, solution)?;
    for v in 0..game.len() {
        let top = game.priorities[v as usize];
        if (top % 2 == 1) == solution.odd[v as usize] {
            continue;
        }
        let mut seen = vec![false; game.ids.len()];
        let mut open = vec![v];
        while let Some(u) = open.pop() {
            for w in kept(game, solution, u) {
                if *w == v {
                    return Err(NoSolution::Cycle(game.ids[v as usize]));
                }
                if game.priorities[*w as usize] <= top && !std::mem::replace(&mut seen[*w as usize], true) {
                    open.push(*w);
                }
            }
        }
    }
    Ok(())
}

fn fault(random: &mut Random) -> Option<String> {
    let game = random.game();
    let text = write::game(&game);
    let shown = || String::from_utf8_lossy(&text).into_owned();
    if !read::game(&text).is_ok_and(|again| write::game(&again) == text) {
        return Some(format!("tidy twice differs\n{}", shown()));
    }
    let mut solution = plain::zielonka(&game);
    if let Err(why) = verdict(&game, &solution) {
        return Some(format!("solve --plain: {why}\n{}", shown()));
    }
    let odd = std::mem::replace(&mut solution, solve::solve(&game)).odd;
    if let Err(why) = verdict(&game, &solution) {
        return Some(format!("solve: {why}\n{}", shown()));
    }
    if odd != solution.odd {
        return Some(format!("solve and solve --plain: other winners\n{}", shown()));
    }
    for _ in 0..4 {
        // both verdicts agree, also on solutions with a fault, most of which keep to their regions
        let v = random.below(game.len());
        let row = game.successors.row(v);
        solution.choices[v as usize] = row[random.below(row.len() as u32) as usize];
        if random.below(4) == 0 {
            solution.odd.fill(random.below(2) == 1);
            for u in 0..game.len() {
                let row = game.successors.row(u);
                solution.choices[u as usize] = row[random.below(row.len() as u32) as usize];
            }
        }
        let (fast, slow) = (verify::check(&game, &solution), verdict(&game, &solution));
        if fast != slow {
            return Some(format!("verify: {fast:?} and {slow:?}\n{}", shown()));
        }
        // the search by levels agrees, from the beginning and after some rounds
        let found = |v: Option<u32>| v.map_or(Ok(()), |v| Err(NoSolution::Cycle(game.ids[v as usize])));
        let looks = [0, 1 + random.below(20) as usize];
        if !matches!(slow, Ok(()) | Err(NoSolution::Cycle(_))) {
            continue;
        }
        for looks in looks {
            let levels = found(cycles::least_after(&game, &solution, looks));
            if levels != slow {
                return Some(format!("after {looks} looks: {levels:?} and {slow:?}\n{}", shown()));
            }
        }
    }
    None
}

pub fn run(count: u64) -> ExitCode {
    let mut random = Random(2026);
    for _ in 0..count {
        if let Some(why) = fault(&mut random) {
            println!("{why}");
            return ExitCode::FAILURE;
        }
    }
    println!("{count} games agree");
    ExitCode::SUCCESS
}
