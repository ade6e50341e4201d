use std::cell::UnsafeCell;

use crate::{ffi, filled, judged, sized, solution, text, Fault, Game, Partial, Player, Solution};

/// A call that writes results.
type Call =
    unsafe extern "C" fn(*mut ffi::pgboard_board, *mut ffi::pgboard_results, *mut ffi::pgboard_report) -> u32;

/// A game, and a winner and a choice of each vertex that is settled so far.
///
/// Solvers of any kind post on it what they find: claims that a player wins some vertices by his choices there. The
/// board refuses a claim that does not hold. Else it settles the claim's unsettled vertices and all further ones from
/// which the player forces a play to his settled ones. So each settled vertex has its right winner, whatever is posted.
///
/// ```
/// use pgboard::{Board, Claim, Fault, Player::{Even, Odd}};
///
/// let mut board = Board::open_text("0 2 0 0,1; 1 1 1 1; 2 0 0 0,1;")?;
/// // worker 7 claims that Even wins vertex 0 by moving to 1, and then by staying
/// let wrong = Claim { worker: 7, player: Even, vertices: &[0], choices: &[1] };
/// assert_eq!(board.post(wrong), Err(Fault::PostOpen { vertex: 0, to: 1 }));
/// assert_eq!(board.post(Claim { choices: &[0], ..wrong })?.settled, 2);
/// assert_eq!(board.state()?.winners, [Some(Even), None, Some(Even)]);
/// board.finish()?; // the board settles vertex 1 itself
/// assert_eq!(board.solution()?.winners, [Even, Odd, Even]);
/// # Ok::<(), Fault>(())
/// ```
///
/// Threads that share a board take turns, by a `Mutex`:
///
/// ```
/// let board = std::sync::Mutex::new(pgboard::Board::open_text("0 2 0 0;")?);
/// std::thread::scope(|scope| {
///     scope.spawn(|| board.lock().unwrap().finish());
///     scope.spawn(|| board.lock().unwrap().settled());
/// });
/// # Ok::<(), pgboard::Fault>(())
/// ```
///
/// Without one the compiler refuses them, as it does a board that was dropped or moved:
///
/// ```compile_fail
/// # let board = pgboard::Board::open_text("0 2 0 0;")?;
/// std::thread::scope(|scope| {
///     scope.spawn(|| board.settled());
/// });
/// # Ok::<(), pgboard::Fault>(())
/// ```
///
/// ```compile_fail
/// # let board = pgboard::Board::open_text("0 2 0 0;")?;
/// drop(board);
/// board.settled();
/// # Ok::<(), pgboard::Fault>(())
/// ```
#[derive(Debug)]
pub struct Board {
    // (a call of C that reads a board takes it out of the struct meanwhile)
    held: UnsafeCell<ffi::pgboard_board>,
}

// SAFETY: the library keeps nothing for a thread, and a board may be moved.
unsafe impl Send for Board {}

/// That a player wins these vertices, which rise, by these choices: successors where he owns the vertex, else
/// [`NO_CHOICE`](crate::NO_CHOICE). They may lead to what is settled for him. The entry keeps the number of the worker.
#[derive(Clone, Copy, Debug, PartialEq, Eq)]
#[allow(missing_docs)]
pub struct Claim<'a> {
    pub worker: u32,
    pub player: Player,
    pub vertices: &'a [u32],
    pub choices: &'a [u32],
}

/// A post: the number of its entry, how many vertices of the claim were unsettled, and how many it settled in all.
#[derive(Clone, Copy, Debug, PartialEq, Eq)]
#[allow(missing_docs)]
pub struct Posted {
    pub entry: usize,
    pub claimed: usize,
    pub settled: usize,
}

/// A post that settled these vertices. The first `claimed` of them were in its claim.
#[derive(Clone, Debug, PartialEq, Eq)]
#[allow(missing_docs)]
pub struct Entry {
    pub worker: u32,
    pub player: Player,
    pub claimed: usize,
    pub vertices: Vec<u32>,
    pub choices: Vec<u32>,
}

/// A vertex of a board's game, with its identifier in the game's text. The successors rise.
#[derive(Clone, Debug, PartialEq, Eq)]
#[allow(missing_docs)]
pub struct Vertex {
    pub id: u32,
    pub priority: u32,
    pub owner: Player,
    pub successors: Vec<u32>,
}

impl Board {
    /// A board with a copy of the game, on which nothing is settled.
    pub fn open(game: &Game) -> Result<Board, Fault> {
        Board::opened(|board, report| unsafe { ffi::pgboard_board_open(board, &game.arrays(), report) })
    }

    /// The same of a game in PGSolver's format. Its vertices get numbers from 0 on, in the order of their identifiers.
    pub fn open_text(game: impl AsRef<[u8]>) -> Result<Board, Fault> {
        let game = game.as_ref();
        Board::opened(|board, report| unsafe {
            ffi::pgboard_board_open_text(board, game.as_ptr(), game.len(), report)
        })
    }

    fn opened(
        call: impl FnOnce(*mut ffi::pgboard_board, &mut ffi::pgboard_report) -> u32,
    ) -> Result<Board, Fault> {
        let closed = ffi::pgboard_board { at: std::ptr::null_mut(), live: 0 };
        let board = Board { held: UnsafeCell::new(closed) };
        judged(|report| call(board.held.get(), report))?;
        Ok(board)
    }

    /// Posts a claim. The faults are `Fault::Post..`, and nothing is settled then.
    ///
    /// Where others post too, [`Fault::PostStale`] is no mistake. After [`Fault::PostLost`] a claim was never right.
    pub fn post(&mut self, claim: Claim) -> Result<Posted, Fault> {
        let claim = ffi::pgboard_claim {
            size: std::mem::size_of::<ffi::pgboard_claim>(),
            worker: claim.worker,
            player: claim.player as u32,
            vertices: claim.vertices.as_ptr(),
            vertices_len: claim.vertices.len(),
            choices: claim.choices.as_ptr(),
            choices_len: claim.choices.len(),
        };
        let mut it = ffi::pgboard_posted { entry: 0, claimed: 0, settled: 0 };
        judged(|report| unsafe { ffi::pgboard_board_post(self.held.get(), &claim, &mut it, report) })?;
        let [entry, claimed, settled] = [it.entry, it.claimed, it.settled].map(|number| number as usize);
        Ok(Posted { entry, claimed, settled })
    }

    /// The winner and the choice of each settled vertex. The unsettled part is a game of its own: each of its
    /// vertices has a successor in it.
    pub fn state(&self) -> Result<Partial, Fault> {
        self.written(ffi::pgboard_board_state)
    }

    /// The solution of a full board, or [`Fault::BoardUnsettled`].
    pub fn solution(&self) -> Result<Solution, Fault> {
        self.written(ffi::pgboard_board_solution).map(Partial::total)
    }

    fn written(&self, call: Call) -> Result<Partial, Fault> {
        let vertices = self.vertices().len();
        solution::written(vertices, |results, report| unsafe { call(self.held.get(), results, report) })
    }

    /// The text of the solution, with the identifiers of the game's text.
    pub fn solution_text(&self) -> Result<String, Fault> {
        // (no line is longer than `2147483647 0 2147483647;`)
        text::written(25 * self.vertices().len() + 25, |into, len, size, report| unsafe {
            ffi::pgboard_board_solution_text(self.held.get(), into, len, size, report)
        })
    }

    /// How many vertices are settled.
    pub fn settled(&self) -> usize {
        unsafe { ffi::pgboard_board_settled(self.held.get()) as usize }
    }

    /// The vertices of the game. Each is read when it is reached.
    pub fn vertices(&self) -> impl ExactSizeIterator<Item = Result<Vertex, Fault>> + '_ {
        let count = unsafe { ffi::pgboard_board_vertices(self.held.get()) as usize };
        (0..count).map(move |v| self.vertex(v as u32))
    }

    /// A vertex of the game, or [`Fault::BoardVertex`].
    pub fn vertex(&self, v: u32) -> Result<Vertex, Fault> {
        sized(0, |len| {
            let mut successors = filled(0, len)?;
            let mut it = ffi::pgboard_vertex { id: 0, priority: 0, owner: 0, successors: 0 };
            judged(|report| unsafe {
                ffi::pgboard_board_vertex(self.held.get(), v, &mut it, successors.as_mut_ptr(), len, report)
            })?;
            Ok(Vertex { id: it.id, priority: it.priority, owner: Player::of(it.owner), successors })
        })
    }

    /// The entries of the journal, the oldest first. Each is read when it is reached. Nothing can be posted meanwhile:
    ///
    /// ```compile_fail
    /// # let mut board = pgboard::Board::open_text("0 2 0 0;")?;
    /// for entry in board.entries() {
    ///     board.finish()?;
    ///     println!("{:?}", entry?.vertices);
    /// }
    /// # Ok::<(), pgboard::Fault>(())
    /// ```
    pub fn entries(&self) -> impl ExactSizeIterator<Item = Result<Entry, Fault>> + '_ {
        let count = unsafe { ffi::pgboard_board_entries(self.held.get()) as usize };
        (0..count).map(move |number| self.entry(number))
    }

    /// An entry of the journal, or [`Fault::BoardEntry`]. They are numbered from 0.
    pub fn entry(&self, number: usize) -> Result<Entry, Fault> {
        sized(0, |len| {
            let (mut vertices, mut choices) = (filled(0, len)?, filled(0, len)?);
            let (rows, to) = (vertices.as_mut_ptr(), choices.as_mut_ptr());
            let mut it = ffi::pgboard_entry { worker: 0, player: 0, claimed: 0, rows: 0 };
            judged(|report| unsafe {
                ffi::pgboard_board_entry(self.held.get(), number as u64, &mut it, rows, len, to, len, report)
            })?;
            let (player, claimed) = (Player::of(it.player), it.claimed as usize);
            Ok(Entry { worker: it.worker, player, claimed, vertices, choices })
        })
    }

    /// Settles what is left, as [`Game::solve`] does.
    pub fn finish(&mut self) -> Result<(), Fault> {
        judged(|report| unsafe { ffi::pgboard_board_finish(self.held.get(), report) })
    }

    /// The same, or [`Fault::GaveUp`] if the recursion needs more steps.
    pub fn finish_within(&mut self, steps: u64) -> Result<(), Fault> {
        judged(|report| unsafe { ffi::pgboard_board_finish_within(self.held.get(), steps, report) })
    }

    /// Settles more of what is left, and returns how many vertices are left then.
    ///
    /// A call makes one search or, after the last one, takes up to so many steps of the recursion. It leaves in `steps`
    /// how many it did not take. Between two calls a program can stop, or do something else:
    ///
    /// ```
    /// # let mut board = pgboard::Board::open_text("0 2 0 0;")?;
    /// # let is_cancelled = || false;
    /// while !is_cancelled() && board.advance(&mut 100)? > 0 {}
    /// # assert_eq!(board.settled(), 1);
    /// # Ok::<(), pgboard::Fault>(())
    /// ```
    pub fn advance(&mut self, steps: &mut u64) -> Result<usize, Fault> {
        match judged(|report| unsafe { ffi::pgboard_board_advance(self.held.get(), steps, report) }) {
            Ok(()) => Ok(0),
            Err(Fault::BoardUnsettled { count }) => Ok(count as usize),
            Err(fault) => Err(fault),
        }
    }
}

impl Drop for Board {
    fn drop(&mut self) {
        unsafe { ffi::pgboard_board_close(self.held.get()) }
    }
}
