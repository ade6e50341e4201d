//! Calls on boards.

mod plain;

use std::sync::Mutex;
use std::thread;

use pgboard::Player::{Even, Odd};
use pgboard::{Board, Claim, Fault, Player, Posted, NO_CHOICE};
use plain::{Plain, Random, Set};

const BOARDS: u64 = 300;
const THREE: &str = "4 2 0 4,6; 6 1 1 6; 9 0 0 4,6;";

/// A claim of random vertices with random choices, which holds now and then.
fn random_claim(plain: &Plain, random: &mut Random) -> (Player, Vec<u32>, Vec<u32>) {
    let player = random.player();
    let vertices: Vec<_> = plain.all().into_iter().filter(|_| random.below(2) == 0).collect();
    let choices = vertices.iter().map(|&v| {
        let row = &plain.rows[v as usize];
        if plain.owners[v as usize] == player {
            row[random.below(row.len())]
        } else {
            NO_CHOICE
        }
    });
    (player, vertices.clone(), choices.collect())
}

/// Whether the player wins the vertices of a claim by his choices, and leaves them for the settled ones alone.
fn holds(plain: &Plain, player: Player, vertices: &[u32], choices: &[u32], won: &Set) -> bool {
    // (in the plain game he has these choices alone, and what is settled for him goes round with his priority)
    let mut it = plain.clone();
    for v in plain.all() {
        let at = v as usize;
        if won.contains(&v) {
            (it.rows[at], it.priorities[at]) = (vec![v], 1000 + player as u32);
        } else if let Ok(row) = vertices.binary_search(&v) {
            it.rows[at] = if choices[row] == NO_CHOICE { plain.rows[at].clone() } else { vec![choices[row]] };
        } else {
            (it.rows[at], it.priorities[at]) = (vec![v], 1001 - player as u32);
        }
    }
    let winners = it.winners();
    vertices.iter().all(|&v| winners[v as usize] == player)
}

#[test]
fn claims_that_hold_are_settled_and_others_change_nothing() {
    let (mut accepted, mut refused) = (0, 0);
    for seed in 0..BOARDS {
        let mut random = Random(seed);
        let plain = Plain::random(&mut random);
        let mut board = Board::open(&plain.game()).unwrap();
        for worker in 0..20 {
            let before = board.state().unwrap();
            let (player, vertices, choices) = random_claim(&plain, &mut random);
            let won: Set = before.won_by(Some(player)).collect();
            let claim = Claim { worker, player, vertices: &vertices, choices: &choices };
            let is_new = vertices.iter().any(|&v| before.winner(v).is_none());
            let entries = board.entries().len();
            match board.post(claim) {
                Ok(posted) => {
                    assert!(
                        is_new && holds(&plain, player, &vertices, &choices, &won),
                        "{plain:?} {claim:?}"
                    );
                    judge_entry(&plain, &board, claim, posted, &before.won_by(None).collect(), &won);
                    accepted += 1;
                }
                Err(fault) => {
                    assert!(
                        !is_new || !holds(&plain, player, &vertices, &choices, &won),
                        "{fault} {plain:?} {claim:?}"
                    );
                    assert_eq!((board.state().unwrap(), board.entries().len()), (before, entries));
                    refused += 1;
                }
            }
        }
        judge_end(&plain, board, &mut random);
    }
    assert!(accepted > 200 && refused > 200, "{accepted} {refused}");
}

fn judge_entry(plain: &Plain, board: &Board, claim: Claim, posted: Posted, open: &Set, won: &Set) {
    let entry = board.entry(posted.entry).unwrap();
    assert_eq!(posted.entry, board.entries().len() - 1);
    assert_eq!((entry.worker, entry.player), (claim.worker, claim.player));
    assert_eq!((entry.claimed, entry.vertices.len()), (posted.claimed, posted.settled));
    let claimed: Vec<_> = claim.vertices.iter().copied().filter(|v| open.contains(v)).collect();
    assert_eq!(entry.vertices[..entry.claimed], claimed);
    let target = won | &claimed.into_iter().collect();
    let settled: Set = entry.vertices.iter().copied().collect();
    assert_eq!(won | &settled, plain.attracted(&target, claim.player, &plain.all()));
    let state = board.state().unwrap();
    for (&v, &choice) in entry.vertices.iter().zip(&entry.choices) {
        assert_eq!(state.winner(v), Some(claim.player));
        assert_eq!(state.strategy(v), Some(choice).filter(|&it| it != NO_CHOICE));
    }
}

/// Finishes a board in one of three ways.
fn judge_end(plain: &Plain, mut board: Board, random: &mut Random) {
    let known = board.state().unwrap();
    match random.below(3) {
        0 => board.finish().unwrap(),
        1 => board.finish_within(1 << 20).unwrap(),
        _ => {
            let mut left = plain.rows.len();
            while left > 0 {
                let now = board.advance(&mut 1).unwrap();
                assert!(now <= left && now == plain.rows.len() - board.settled());
                left = now;
            }
        }
    }
    let solution = board.solution().unwrap();
    assert_eq!(solution.winners, plain.winners());
    assert!(plain.is_solution(&solution.winners, &solution.choices));
    assert_eq!(plain.game().solve_known(&known).unwrap().winners, solution.winners);
    let entries = board.entries().collect::<Result<Vec<_>, _>>().unwrap();
    assert!(entries.iter().enumerate().all(|(number, it)| board.entry(number).as_ref() == Ok(it)));
    assert_eq!(entries.iter().map(|it| it.vertices.len()).sum::<usize>(), board.settled());
    assert_eq!((board.settled(), board.vertices().len()), (plain.rows.len(), plain.rows.len()));
}

#[test]
fn a_board_of_a_text_has_its_vertices() {
    let mut board = Board::open_text(THREE).unwrap();
    let vertices = board.vertices().collect::<Result<Vec<_>, _>>().unwrap();
    let ids: Vec<_> = vertices.iter().map(|it| (it.id, it.priority, it.owner)).collect();
    assert_eq!(ids, [(4, 2, Even), (6, 1, Odd), (9, 0, Even)]);
    assert_eq!(
        vertices.iter().map(|it| &it.successors[..]).collect::<Vec<_>>(),
        [&[0, 1][..], &[1], &[0, 1]]
    );
    assert_eq!(board.solution(), Err(Fault::BoardUnsettled { count: 3 }));
    assert_eq!(board.solution_text(), Err(Fault::BoardUnsettled { count: 3 }));
    board.finish().unwrap();
    assert_eq!(board.solution_text().unwrap(), "paritysol 9;\n4 0 4;\n6 1 6;\n9 0 4;\n");
    assert_eq!(Board::open_text("0 0 0 7;").unwrap_err(), Fault::Unknown { vertex: 0, to: 7 });
    assert_eq!(Board::open_text("0 0 0").unwrap_err(), Fault::GameSyntax { at: 5 });
}

#[test]
fn wrong_claims_and_numbers_beyond_the_board_are_refused_and_it_goes_on() {
    let mut board = Board::open_text(THREE).unwrap();
    let mut post = |player, vertices: &[u32], choices: &[u32]| {
        board.post(Claim { worker: 1, player, vertices, choices })
    };
    for (player, vertices, choices, fault) in [
        (Even, &[0, 1][..], &[0][..], Fault::PostLengths { vertices: 2, choices: 1 }),
        (Even, &[], &[], Fault::PostShape { row: 0 }),
        (Even, &[3], &[0], Fault::PostShape { row: 0 }),
        (Even, &[u32::MAX], &[0], Fault::PostShape { row: 0 }),
        (Even, &[0, 0], &[0, 0], Fault::PostShape { row: 1 }),
        (Even, &[0], &[2], Fault::PostShape { row: 0 }),
        (Even, &[0], &[NO_CHOICE], Fault::PostShape { row: 0 }),
        (Even, &[1], &[1], Fault::PostShape { row: 0 }),
        (Even, &[1], &[NO_CHOICE], Fault::PostCycle { vertex: 1 }),
        (Even, &[0], &[1], Fault::PostOpen { vertex: 0, to: 1 }),
    ] {
        assert_eq!(post(player, vertices, choices), Err(fault));
    }
    assert_eq!(post(Even, &[0], &[0]), Ok(Posted { entry: 0, claimed: 1, settled: 2 }));
    assert_eq!(post(Even, &[0], &[0]), Err(Fault::PostStale));
    assert_eq!(post(Odd, &[0], &[NO_CHOICE]), Err(Fault::PostCycle { vertex: 0 }));
    assert_eq!(post(Odd, &[1, 2], &[1, NO_CHOICE]), Err(Fault::PostLost { vertex: 2 }));
    assert_eq!(post(Odd, &[1], &[1]), Ok(Posted { entry: 1, claimed: 1, settled: 1 }));
    for beyond in [3, u32::MAX] {
        assert_eq!(board.vertex(beyond), Err(Fault::BoardVertex { count: 3 }));
        assert_eq!(board.entry(beyond as usize), Err(Fault::BoardEntry { count: 2 }));
        assert_eq!(board.state().unwrap().winner(beyond), None);
    }
    assert_eq!(board.entry(usize::MAX), Err(Fault::BoardEntry { count: 2 }));
    assert_eq!(board.solution_text().unwrap(), "paritysol 9;\n4 0 4;\n6 1 6;\n9 0 4;\n");
}

#[test]
fn a_board_is_moved_and_threads_share_it() {
    let (mut random, mut settled) = (Random(7), 0);
    for _ in 0..20 {
        let plain = Plain::of_size(&mut random, 30, 5);
        let opened = Board::open(&plain.game()).unwrap();
        let moved = thread::spawn(move || opened).join().unwrap();
        let board = Mutex::new(moved);
        thread::scope(|scope| {
            for seed in 0..4 {
                let (plain, board) = (&plain, &board);
                scope.spawn(move || {
                    let mut random = Random(seed);
                    for v in plain.all() {
                        let (row, player) = (&plain.rows[v as usize], plain.owners[v as usize]);
                        let choices = &[row[random.below(row.len())]];
                        let _ =
                            board.lock().unwrap().post(Claim { worker: 1, player, vertices: &[v], choices });
                    }
                });
            }
        });
        let mut board = board.into_inner().unwrap();
        settled += board.settled();
        board.finish().unwrap();
        let solution = board.solution().unwrap();
        assert_eq!(solution.winners, plain.winners());
        assert!(plain.is_solution(&solution.winners, &solution.choices));
    }
    assert!(settled > 20);
}
