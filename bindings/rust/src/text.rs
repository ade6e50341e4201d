//! Games and solutions as texts in PGSolver's format. Faults have the identifiers of vertices.
//!
//! ```
//! use pgboard::{text, Fault, Verdict};
//!
//! let game = "9 1 1 9; 3 2 0 9,3;";
//! let solution = text::solve(game)?;
//! assert_eq!(solution, "paritysol 9;\n3 0 3;\n9 1 9;\n");
//! assert_eq!(text::verify(game, &solution)?, Verdict::Solution);
//! let leaves = Fault::Leaves { vertex: 3, to: 9 };
//! assert_eq!(text::verify(game, "3 0 9; 9 1 9;")?, Verdict::NotASolution(leaves));
//! assert_eq!(text::tidy(game)?, "parity 9;\n3 2 0 3,9;\n9 1 1 9;\n");
//! assert_eq!(text::solve("0 2 0;"), Err(Fault::GameSyntax { at: 5 }));
//! # Ok::<(), Fault>(())
//! ```

use crate::{ffi, filled, judged, sized, Fault, Verdict};

/// The text of a solution of a game.
pub fn solve(game: impl AsRef<[u8]>) -> Result<String, Fault> {
    let game = game.as_ref();
    written(bound(game), |into, len, size, report| unsafe {
        ffi::pgboard_solve_text(game.as_ptr(), game.len(), into, len, size, report)
    })
}

/// The one written form of a game.
pub fn tidy(game: impl AsRef<[u8]>) -> Result<String, Fault> {
    let game = game.as_ref();
    written(bound(game), |into, len, size, report| unsafe {
        ffi::pgboard_tidy_text(game.as_ptr(), game.len(), into, len, size, report)
    })
}

/// Whether a text is a solution of a game.
pub fn verify(game: impl AsRef<[u8]>, solution: impl AsRef<[u8]>) -> Result<Verdict, Fault> {
    let (game, solution) = (game.as_ref(), solution.as_ref());
    Verdict::of(judged(|report| unsafe {
        ffi::pgboard_verify_text(game.as_ptr(), game.len(), solution.as_ptr(), solution.len(), report)
    }))
}

/// A size that suffices for what is written of a game, as `PGBOARD_TEXT_BOUND` has it.
fn bound(game: &[u8]) -> usize {
    game.len() + game.len() / 8 + 22
}

/// Takes the text that a call writes to a buffer.
pub(crate) fn written(
    bound: usize,
    mut call: impl FnMut(*mut u8, usize, &mut usize, &mut ffi::pgboard_report) -> u32,
) -> Result<String, Fault> {
    sized(bound, |len| {
        let (mut into, mut size) = (filled(0, len)?, 0);
        judged(|report| call(into.as_mut_ptr(), len, &mut size, report))?;
        into.truncate(size);
        // (what the library writes is ASCII)
        String::from_utf8(into).map_err(|_| Fault::Other { answer: 0 })
    })
}
