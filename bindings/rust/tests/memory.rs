//! Calls whose requests for memory are refused, one after the other.

#![allow(clippy::missing_safety_doc)]

use std::cell::Cell;
use std::ffi::c_void;
use std::ptr::null_mut;

use pgboard::{text, Board, Claim, Fault, Game, Partial, Player::Even, Player::Odd, Verdict, NO_CHOICE};

thread_local! {
    /// How many requests of a thread are left before the one that is refused.
    static LEFT: Cell<i64> = const { Cell::new(i64::MAX) };
}

extern "C" {
    fn __libc_malloc(size: usize) -> *mut c_void;
    fn __libc_realloc(at: *mut c_void, size: usize) -> *mut c_void;
}

fn is_refused() -> bool {
    LEFT.with(|left| left.replace(left.get() - 1) == 0)
}

#[no_mangle]
pub unsafe extern "C" fn malloc(size: usize) -> *mut c_void {
    if is_refused() {
        null_mut()
    } else {
        __libc_malloc(size)
    }
}

#[no_mangle]
pub unsafe extern "C" fn realloc(at: *mut c_void, size: usize) -> *mut c_void {
    if is_refused() {
        null_mut()
    } else {
        __libc_realloc(at, size)
    }
}

/// What a call returns with all memory, after it was refused each request in turn. (A search that has no memory may be
/// left out, and the call succeed.)
fn after_refusals<T>(mut call: impl FnMut() -> Result<T, Fault>) -> T {
    let mut faults = 0;
    for requests in 0.. {
        LEFT.with(|left| left.set(requests));
        let found = call();
        let is_refused = LEFT.with(|left| left.replace(i64::MAX)) < 0;
        match found {
            Ok(it) if !is_refused => {
                assert!(faults > 0);
                return it;
            }
            Ok(_) => {}
            Err(fault) => {
                assert_eq!((fault, is_refused), (Fault::Memory, true));
                faults += 1;
            }
        }
    }
    unreachable!()
}

#[test]
fn refused_memory_is_a_fault_and_changes_nothing() {
    let (owners, priorities, starts, targets) = ([Even, Odd], [2, 1], [0, 2, 3], [0, 1, 1]);
    let game = after_refusals(|| Game::new(&owners[..], &priorities[..], &starts[..], &targets[..]));
    let edges = [(1, 1), (0, 1), (0, 0)];
    assert_eq!(after_refusals(|| Game::from_edges(&owners[..], &priorities[..], edges)), game);
    let built = after_refusals(|| {
        let mut builder = Game::builder();
        builder.push(Even, 2, [0, 1]);
        builder.push(Odd, 1, [1]);
        builder.build()
    });
    assert_eq!(built, game);
    let solution = after_refusals(|| game.solve());
    assert_eq!(solution.winners, owners);
    let known = Partial { winners: vec![None, Some(Odd)], choices: vec![NO_CHOICE, 1] };
    assert_eq!(after_refusals(|| game.solve_known(&known)), solution);
    assert_eq!(after_refusals(|| game.check(&solution)), Verdict::Solution);
    let given = "9 1 1 9; 3 2 0 9,3;";
    let written = after_refusals(|| text::solve(given));
    assert_eq!(after_refusals(|| text::verify(given, &written)), Verdict::Solution);
    assert_eq!(after_refusals(|| text::tidy(given)), "parity 9;\n3 2 0 3,9;\n9 1 1 9;\n");

    let mut board = None;
    after_refusals(|| Board::open(&game).map(|it| board = Some(it)));
    let mut board = board.unwrap();
    let claim = Claim { worker: 1, player: Even, vertices: &[0], choices: &[0] };
    after_refusals(|| match board.post(claim) {
        Ok(_) | Err(Fault::PostStale) => Ok(()),
        Err(fault) => Err(fault),
    });
    assert_eq!(after_refusals(|| board.state()).winners, [Some(Even), None]);
    assert_eq!(after_refusals(|| board.entry(0)).vertices, [0]);
    assert_eq!(after_refusals(|| board.vertex(0)).successors, [0, 1]);
    after_refusals(|| board.finish());
    assert_eq!(after_refusals(|| board.solution()), solution);
    assert_eq!(after_refusals(|| board.solution_text()), "paritysol 1;\n0 0 0;\n1 1 1;\n");
    after_refusals(|| Board::open_text(given).map(drop));
}

#[test]
fn a_list_without_an_end_is_a_fault_at_the_limits() {
    let mut builder = Game::builder();
    builder.push(Even, 0, 0..);
    builder.push(Even, 0, 0..);
    assert_eq!(builder.build(), Err(Fault::TooManyEdges));
    let mut builder = Game::builder();
    for v in 0..=1 << 20 {
        builder.push(Even, 0, [v]);
    }
    assert_eq!(builder.build(), Err(Fault::TooManyVertices));
    // (equal edges are one)
    let doubled = (0..3 << 24).map(|at| (0, at >> 25));
    assert_eq!(Game::from_edges(&[Even][..], &[0][..], doubled), Err(Fault::Unknown { vertex: 0, to: 1 }));
}
