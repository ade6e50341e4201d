//! Calls on games and on texts.

mod plain;

use pgboard::Player::{Even, Odd};
use pgboard::{text, Board, Fault, Game, Partial, Player, Solution, Verdict, NO_CHOICE};
use plain::{Plain, Random};

const GAMES: usize = 500;

fn games() -> impl Iterator<Item = (Plain, Random)> {
    let mut random = Random(108);
    (0..GAMES).map(move |seed| (Plain::random(&mut random), Random(seed as u64)))
}

/// The text of a game.
fn written(it: &Plain) -> String {
    let list = |row: &Vec<u32>| row.iter().map(u32::to_string).collect::<Vec<_>>().join(",");
    let line = |v: usize| format!("{v} {} {} {};", it.priorities[v], it.owners[v] as u32, list(&it.rows[v]));
    (0..it.rows.len()).map(line).collect()
}

fn both_win() -> Game<'static> {
    Game::from_edges(vec![Even, Odd], vec![2, 1], [(0, 0), (0, 1), (1, 1)]).unwrap()
}

#[test]
fn a_solution_has_the_winners_of_the_plain_solver_and_a_strategy() {
    for (plain, _) in games() {
        let game = plain.game();
        let found = game.solve().unwrap();
        assert_eq!(found.winners, plain.winners(), "{plain:?}");
        assert!(plain.is_solution(&found.winners, &found.choices), "{plain:?}");
        assert_eq!(game.solve_within(1 << 20), Ok(found.clone()));
        for (v, winner, choice) in found.iter() {
            assert_eq!((found.winner(v), found.strategy(v)), (Some(winner), choice));
            assert_eq!(choice.is_some(), plain.owners[v as usize] == winner);
            assert!(
                found.won_by(winner).any(|it| it == v)
                    && found.won_by(Player::of(winner as u32 + 1)).all(|it| it != v)
            );
        }
        let end = plain.rows.len() as u32;
        assert_eq!((found.winner(end), found.strategy(end)), (None, None));
    }
}

#[test]
fn a_changed_solution_is_judged_by_the_definition() {
    let mut verdicts = [0, 0];
    for (plain, mut random) in games() {
        let game = plain.game();
        let mut it = game.solve().unwrap();
        let v = random.below(it.winners.len());
        it.choices[v] = plain.rows[v][random.below(plain.rows[v].len())];
        if random.below(2) == 0 {
            it.winners[v] = random.player();
        }
        let is_right = plain.is_solution(&it.winners, &it.choices);
        assert_eq!(game.check(&it).unwrap() == Verdict::Solution, is_right, "{plain:?} {it:?}");
        verdicts[usize::from(is_right)] += 1;
    }
    assert!(verdicts.iter().all(|&it| it > 50), "{verdicts:?}");
}

#[test]
fn each_way_to_make_a_game_makes_the_same() {
    for (plain, mut random) in games() {
        let game = plain.game();
        let mut edges: Vec<_> =
            (0..).zip(&plain.rows).flat_map(|(v, row)| row.iter().map(move |&to| (v, to))).collect();
        for at in 1..edges.len() {
            edges.swap(at, random.below(at + 1));
        }
        let mut builder = Game::builder();
        for (v, row) in (0..).zip(&plain.rows) {
            assert_eq!(game.successors(v), row);
            assert_eq!(
                builder.push(plain.owners[v as usize], plain.priorities[v as usize], row.iter().copied()),
                v
            );
        }
        let built = builder.build().unwrap();
        assert_eq!(Game::from_edges(&plain.owners, &plain.priorities, edges), Ok(built.clone()));
        assert_eq!((built.owners(), built.priorities()), (&plain.owners[..], &plain.priorities[..]));
        assert_eq!(built.solve(), game.solve());
        assert!(game.successors(plain.rows.len() as u32).is_empty());
    }
}

#[test]
fn what_is_known_is_kept_and_what_is_wrong_is_refused() {
    for (plain, mut random) in games() {
        let (game, player) = (plain.game(), random.player());
        let solution = game.solve().unwrap();
        let winners = solution.winners.iter().map(|&it| Some(it).filter(|&it| it == player)).collect();
        let mut known = Partial { winners, choices: solution.choices.clone() };
        let found = game.solve_known(&known).unwrap();
        assert_eq!(found.winners, solution.winners);
        assert!(solution.won_by(player).all(|v| found.choices[v as usize] == solution.choices[v as usize]));
        assert_eq!(game.solve_known_within(&known, 1 << 20), Ok(found));
        let chosen = solution.iter().find(|it| it.1 == player && it.2.is_some());
        if let Some((v, ..)) = chosen {
            known.choices[v as usize] = NO_CHOICE;
            assert_eq!(game.solve_known(&known), Err(Fault::KnownChoice { vertex: v }));
        }
    }
    let game = both_win();
    let known = |winners: [_; 2], choices: [_; 2]| {
        game.solve_known(&Partial { winners: winners.to_vec(), choices: choices.to_vec() }).unwrap_err()
    };
    assert_eq!(known([None, Some(Even)], [NO_CHOICE, NO_CHOICE]), Fault::KnownCycle { vertex: 1 });
    assert_eq!(known([Some(Even), None], [1, NO_CHOICE]), Fault::KnownLeaves { vertex: 0, to: 1 });
    let lost = Game::from_edges(vec![Even, Even], vec![0, 1], [(0, 0), (1, 1), (1, 0)]).unwrap();
    let known = Partial { winners: vec![Some(Even), Some(Odd)], choices: vec![0, NO_CHOICE] };
    assert_eq!(lost.solve_known(&known), Err(Fault::KnownLost { vertex: 1 }));
}

#[test]
fn texts_say_what_the_arrays_say() {
    for (plain, mut random) in games() {
        let (game, given) = (plain.game(), written(&plain));
        let mut solution = game.solve().unwrap();
        let found = text::solve(&given).unwrap();
        assert_eq!(found, lines(&solution));
        assert_eq!(text::verify(given.as_bytes(), found), Ok(Verdict::Solution));
        assert_eq!(text::solve(text::tidy(given.as_bytes()).unwrap()), Ok(lines(&solution)));
        let v = random.below(plain.rows.len());
        solution.choices[v] = random.below(plain.rows.len()) as u32;
        assert_eq!(text::verify(&given, lines(&solution)), game.check(&solution));
    }
}

fn lines(solution: &Solution) -> String {
    let choice = |it: Option<u32>| it.map_or(String::new(), |to| format!(" {to}"));
    let line =
        |(v, winner, to): (u32, Player, Option<u32>)| format!("{v} {}{};\n", winner as u32, choice(to));
    format!("paritysol {};\n", solution.winners.len() - 1) + &solution.iter().map(line).collect::<String>()
}

#[test]
fn lists_that_are_no_game_are_refused_with_the_place() {
    let refused = |owners: &[Player], priorities: &[u32], starts: &[u32], targets: &[u32]| {
        Game::new(owners, priorities, starts, targets).unwrap_err()
    };
    assert_eq!(refused(&[Even], &[], &[0, 1], &[0]), Fault::Lengths { array: "priorities" });
    assert_eq!(refused(&[], &[0], &[0], &[]), Fault::Lengths { array: "priorities" });
    assert_eq!(refused(&[Even], &[0], &[0], &[0]), Fault::Lengths { array: "starts" });
    assert_eq!(refused(&[Even], &[0], &[], &[0]), Fault::Lengths { array: "starts" });
    assert_eq!(refused(&[Even], &[0], &[0, 1, 1], &[0]), Fault::Lengths { array: "starts" });
    assert_eq!(refused(&[Even], &[0], &[0, 1], &[]), Fault::Lengths { array: "targets" });
    assert_eq!(refused(&[Even, Odd], &[0, 0], &[0, 2, 1], &[0]), Fault::Row { vertex: 0 });
    assert_eq!(refused(&[Even], &[1 << 31], &[0, 1], &[0]), Fault::Priority { vertex: 0 });
    assert_eq!(refused(&[], &[], &[0], &[]), Fault::NoVertex);
    assert_eq!(refused(&[Even, Odd], &[0, 0], &[0, 1, 1], &[0]), Fault::NoSuccessor { vertex: 1 });
    assert_eq!(refused(&[Even, Odd], &[0, 0], &[0, 1, 2], &[0, 2]), Fault::Unknown { vertex: 1, to: 2 });
    assert_eq!(Game::builder().build(), Err(Fault::NoVertex));
    let edges = |edges: &[(u32, u32)]| Game::from_edges(vec![Even], vec![0], edges.to_vec()).unwrap_err();
    assert_eq!(edges(&[(7, 0), (0, 9), (4, 0), (0, 0)]), Fault::Unknown { vertex: 4, to: 0 });
    assert_eq!(edges(&[(0, 9), (0, 0)]), Fault::Unknown { vertex: 0, to: 9 });
    assert_eq!(edges(&[]), Fault::NoSuccessor { vertex: 0 });
    let many = (1 << 20) + 1;
    let (owners, zeros, numbers) = (vec![Even; many], vec![0; many], (0..=many as u32).collect::<Vec<_>>());
    assert_eq!(Game::new(owners, &zeros, numbers, &zeros), Err(Fault::TooManyVertices));
}

#[test]
fn lists_of_another_length_and_numbers_beyond_the_game_are_refused() {
    let game = both_win();
    let check = |winners: &[Player], choices: &[u32]| {
        game.check(&Solution { winners: winners.to_vec(), choices: choices.to_vec() })
    };
    assert_eq!(check(&[Even, Odd], &[0, 1]), Ok(Verdict::Solution));
    for (winners, choices, array) in [
        (&[Even][..], &[0, 1][..], "winners"),
        (&[Even, Odd, Odd], &[0, 1], "winners"),
        (&[], &[], "winners"),
        (&[Even, Odd], &[0], "choices"),
        (&[Even, Odd], &[0, 1, 1], "choices"),
    ] {
        assert_eq!(check(winners, choices), Err(Fault::Solution { array }));
        let winners = winners.iter().copied().map(Some).collect();
        let known = Partial { winners, choices: choices.to_vec() };
        assert_eq!(game.solve_known(&known), Err(Fault::Solution { array }));
        assert_eq!(game.solve_known_within(&known, 9), Err(Fault::Solution { array }));
    }
    let wrong =
        |winners, choices, fault| assert_eq!(check(winners, choices), Ok(Verdict::NotASolution(fault)));
    wrong(&[Even, Odd], &[2, 1], Fault::BadChoice { vertex: 0 });
    wrong(&[Even, Odd], &[0, u32::MAX], Fault::NoChoiceAt { vertex: 1 });
    wrong(&[Even, Odd], &[1, 1], Fault::Leaves { vertex: 0, to: 1 });
    wrong(&[Even, Even], &[0, NO_CHOICE], Fault::Cycle { vertex: 1 });
    let known = Partial { winners: vec![Some(Even), None], choices: vec![2, NO_CHOICE] };
    assert_eq!(game.solve_known(&known), Err(Fault::KnownChoice { vertex: 0 }));
}

#[test]
fn texts_that_are_none_are_refused_with_the_place() {
    let refused = [
        ("", Fault::GameSyntax { at: 0 }),
        ("0 0 0 0", Fault::GameSyntax { at: 7 }),
        ("0 0 0 \u{e9};", Fault::GameLexical { at: 6 }),
        ("0 9999999999 0 0;", Fault::GameNumber { at: 2 }),
        ("0 0 2 0;", Fault::GameOwner { at: 4 }),
        ("3 0 0 3; 3 0 0 3;", Fault::Twice { vertex: 3 }),
        ("3 0 0 4;", Fault::Unknown { vertex: 3, to: 4 }),
    ];
    for (game, fault) in refused {
        assert_eq!((text::solve(game), text::tidy(game)), (Err(fault), Err(fault)));
        assert_eq!(text::verify(game, "0 0 0;"), Err(fault));
    }
    let refused = [
        ("3 0", Fault::SolutionSyntax { at: 3 }),
        ("3 0 ?;", Fault::SolutionLexical { at: 4 }),
        ("3 0 9999999999;", Fault::SolutionNumber { at: 4 }),
        ("3 2;", Fault::SolutionWinner { at: 2 }),
        ("3 0 3; 4 0;", Fault::SolutionStranger { vertex: 4 }),
        ("3 0 3; 3 0 3;", Fault::SolutionTwice { vertex: 3 }),
        ("", Fault::SolutionMissing { vertex: 3 }),
    ];
    for (solution, fault) in refused {
        assert_eq!(text::verify("3 0 0 3;", solution), Err(fault));
    }
}

#[test]
fn a_fault_shows_its_text_and_its_places() {
    let shown = |it: Fault| it.to_string();
    assert_eq!(shown(Fault::Memory), "memory was refused");
    assert_eq!(
        shown(Fault::Lengths { array: "starts" }),
        "the arrays of the game do not fit one another (starts)"
    );
    assert_eq!(shown(Fault::Unknown { vertex: 1, to: 2 }), "a successor is no vertex (1, 2)");
    let fault: Box<dyn std::error::Error + Send + Sync> = Box::new(Fault::GaveUp);
    assert_eq!(fault.to_string(), "the recursion needs more steps than the call allows");
}

#[test]
fn a_bound_on_the_recursion_is_kept() {
    let plain = Plain::of_size(&mut Random(0), 300, 50);
    let game = plain.game();
    let solution = game.solve().unwrap();
    let known = Partial { winners: vec![None; 300], choices: vec![NO_CHOICE; 300] };
    let steps = (0..).find(|&steps| game.solve_within(steps).is_ok()).unwrap();
    assert!(steps > 1);
    assert_eq!((game.solve_within(steps - 1), game.solve_within(steps)), (Err(Fault::GaveUp), Ok(solution)));
    assert_eq!(game.solve_known_within(&known, steps - 1), Err(Fault::GaveUp));
    assert_eq!(game.solve_known_within(&known, steps), game.solve());
    let mut board = Board::open(&game).unwrap();
    assert_eq!((board.finish_within(steps - 1), board.settled()), (Err(Fault::GaveUp), 0));
    assert_eq!((board.finish_within(steps), board.solution()), (Ok(()), game.solve()));
    let (mut board, mut taken, mut left) = (Board::open(&game).unwrap(), 0, 300);
    while left > 0 {
        let mut step = 1;
        left = board.advance(&mut step).unwrap();
        taken += 1 - step;
    }
    assert_eq!((taken, board.solution()), (steps, game.solve()));
}

#[test]
fn a_game_is_shared_by_threads() {
    let game = both_win();
    std::thread::scope(|scope| {
        let solving: Vec<_> = (0..4).map(|_| scope.spawn(|| game.solve())).collect();
        solving.into_iter().for_each(|it| assert_eq!(it.join().unwrap(), game.solve()));
    });
}
