use crate::{ffi, filled, judged, Fault, Player, NO_CHOICE};

/// Winners and choices of all vertices of a game. In a [`Partial`] solution a winner may be `None`.
#[derive(Clone, Debug, PartialEq, Eq)]
pub struct Solution<Winner = Player> {
    /// The winner of each vertex.
    pub winners: Vec<Winner>,
    /// The successor that the winner chooses where he owns the vertex, else [`NO_CHOICE`].
    pub choices: Vec<u32>,
}

/// Winners and choices of some vertices: what is known of a game, or settled on a board.
pub type Partial = Solution<Option<Player>>;

impl<Winner: Copy + PartialEq> Solution<Winner> {
    /// The successor that the winner of a vertex chooses, if he has a choice there.
    pub fn strategy(&self, v: u32) -> Option<u32> {
        self.choices.get(v as usize).copied().filter(|&it| it != NO_CHOICE)
    }

    /// Each vertex with its winner, and his choice if he has one.
    pub fn iter(&self) -> impl Iterator<Item = (u32, Winner, Option<u32>)> + '_ {
        (0..).zip(&self.winners).map(move |(v, &winner)| (v, winner, self.strategy(v)))
    }

    /// The vertices with this winner; with `None` those that are not settled.
    pub fn won_by(&self, winner: Winner) -> impl Iterator<Item = u32> + '_ {
        self.iter().filter(move |it| it.1 == winner).map(|it| it.0)
    }
}

impl Solution {
    /// The winner of a vertex, or `None` beyond the game.
    pub fn winner(&self, v: u32) -> Option<Player> {
        self.winners.get(v as usize).copied()
    }
}

impl Partial {
    /// The winner of a vertex, or `None` if it is not settled, and beyond the game.
    pub fn winner(&self, v: u32) -> Option<Player> {
        self.winners.get(v as usize).copied().flatten()
    }

    /// The same, where all vertices are settled. (The list keeps its memory.)
    pub(crate) fn total(self) -> Solution {
        let winners = self.winners.into_iter().map(|it| it.unwrap_or(Player::Even)).collect();
        Solution { winners, choices: self.choices }
    }
}

/// Takes what a call writes of so many vertices.
pub(crate) fn written(
    vertices: usize,
    call: impl FnOnce(&mut ffi::pgboard_results, &mut ffi::pgboard_report) -> u32,
) -> Result<Partial, Fault> {
    let (mut winners, mut choices) = (filled(0, vertices)?, filled(NO_CHOICE, vertices)?);
    let mut results = ffi::pgboard_results {
        size: std::mem::size_of::<ffi::pgboard_results>(),
        winners: winners.as_mut_ptr(),
        winners_len: vertices,
        choices: choices.as_mut_ptr(),
        choices_len: vertices,
    };
    judged(|report| call(&mut results, report))?;
    let winner = |it: u8| [Player::Even, Player::Odd].get(usize::from(it)).copied();
    Ok(Solution { winners: winners.into_iter().map(winner).collect(), choices })
}

/// Whether winners and choices are a solution of a game, or what is wrong with them first.
#[derive(Clone, Copy, Debug, PartialEq, Eq)]
#[allow(missing_docs)]
#[must_use]
pub enum Verdict {
    Solution,
    /// [`Fault::NoChoiceAt`], [`Fault::BadChoice`], [`Fault::Leaves`] or [`Fault::Cycle`].
    NotASolution(Fault),
}

impl Verdict {
    /// Takes what a call that judges has found.
    pub(crate) fn of(found: Result<(), Fault>) -> Result<Verdict, Fault> {
        use Fault::{BadChoice, Cycle, Leaves, NoChoiceAt};
        match found {
            Ok(()) => Ok(Verdict::Solution),
            Err(it @ (NoChoiceAt { .. } | BadChoice { .. } | Leaves { .. } | Cycle { .. })) => {
                Ok(Verdict::NotASolution(it))
            }
            Err(it) => Err(it),
        }
    }
}
