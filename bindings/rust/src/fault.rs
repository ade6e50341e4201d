use std::collections::TryReserveError;
use std::fmt;

use crate::ffi;

/// Makes the enumeration of rows: the number of the answer in C, the name, the fields, and the text.
macro_rules! faults {
    ($($number:literal $name:ident $([$array:ident])? $({ $($field:ident),+ })? $text:literal)+) => {
        /// Why there is no result: the first fault. Nothing has changed then.
        ///
        /// A vertex is its number, or in calls on texts its identifier. A place in a text counts the bytes before it.
        /// (Some faults of the C library are here that the types of this crate exclude.)
        #[derive(Clone, Copy, Debug, PartialEq, Eq, Hash)]
        #[allow(missing_docs)]
        #[non_exhaustive]
        pub enum Fault {
            $(#[doc = $text] $name $({ $array: &'static str })? $({ $($field: u32),+ })?,)+
            /// an answer of a later version of the library
            Other { answer: u32 },
        }

        impl Fault {
            /// The fault of an answer, unless it is 0.
            pub(crate) fn of(answer: u32, report: ffi::pgboard_report) -> Option<Fault> {
                let mut numbers = [report.at, report.to].into_iter().map(|it| it.try_into().unwrap_or(u32::MAX));
                let names = ["", "priorities", "starts", "targets", "winners", "choices"];
                match answer {
                    0 => None,
                    $($number => Some(Fault::$name
                        $({ $array: names.get(report.at as usize).copied().unwrap_or("") })?
                        $({ $($field: numbers.next()?),+ })?),)+
                    _ => Some(Fault::Other { answer }),
                }
            }
        }

        /// The text, and the fields in brackets.
        impl fmt::Display for Fault {
            fn fmt(&self, to: &mut fmt::Formatter<'_>) -> fmt::Result {
                let (text, fields) = match self {
                    $(Fault::$name $({ $array })? $({ $($field),+ })? =>
                        ($text, vec![$($array.to_string())? $($($field.to_string()),+)?]),)+
                    Fault::Other { answer } => ("an answer that this crate does not know", vec![answer.to_string()]),
                };
                match fields[..] {
                    [] => write!(to, "{text}"),
                    _ => write!(to, "{text} ({})", fields.join(", ")),
                }
            }
        }
    };
}

impl std::error::Error for Fault {}

impl From<TryReserveError> for Fault {
    fn from(_: TryReserveError) -> Fault {
        Fault::Memory
    }
}

// (tools/faults makes these rows)
faults! {
    1 Memory "memory was refused"
    9 Size { structure, size } "the size of a struct is not the one that this library takes"
    2 Lengths [array] "the arrays of the game do not fit one another"
    3 Row { vertex } "the row of a vertex is no part of the targets"
    4 Owner { vertex } "an owner is neither 0 nor 1"
    5 Priority { vertex } "a priority is above 2147483647"
    8 Solution [array] "an array of the solution does not have one entry for each vertex"
    7 Winner { vertex } "a winner is neither 0 nor 1"
    6 Results [array] "an array for results does not have one entry for each vertex"
    10 NoVertex "the game has no vertex"
    11 TooManyVertices "the game has more than 1048576 vertices"
    12 Twice { vertex } "a vertex is specified twice"
    13 NoSuccessor { vertex } "a vertex has no successor"
    14 TooManyEdges "the game has more than 16777216 edges"
    15 Unknown { vertex, to } "a successor is no vertex"
    20 NoChoiceAt { vertex } "the winner owns a vertex and has no choice there"
    21 BadChoice { vertex } "a winner's choice is no successor"
    22 Leaves { vertex, to } "a kept edge leads to a vertex that its winner does not win"
    23 Cycle { vertex } "the greatest priority on a closed walk is the loser's"
    60 KnownChoice { vertex } "a vertex that its owner is known to win has no choice that is a successor"
    61 KnownCycle { vertex } "the greatest priority on a closed walk in what a player is known to win is the other's"
    62 KnownLost { vertex } "Even attracts a vertex that is known for Odd to what is known for Even"
    63 KnownLeaves { vertex, to } "a kept edge leads out of what a player is known to win"
    30 GameTooLong "the game's text is longer than 268435456 bytes"
    31 GameLexical { at } "the game's text has a byte that begins no token, or a quote that is never closed"
    32 GameSyntax { at } "the game's text has a token that is not expected, or ends too early"
    33 GameNumber { at } "the game's text has a number above 2147483647"
    34 GameOwner { at } "the game's text has an owner that is neither 0 nor 1"
    40 SolutionTooLong "the solution's text is longer than 268435456 bytes"
    41 SolutionLexical { at } "the solution's text has a byte that begins no token, or a quote that is never closed"
    42 SolutionSyntax { at } "the solution's text has a token that is not expected, or ends too early"
    43 SolutionNumber { at } "the solution's text has a number above 2147483647"
    44 SolutionWinner { at } "the solution's text has a winner that is neither 0 nor 1"
    45 SolutionStranger { vertex } "the solution's text has a vertex that is not in the game"
    46 SolutionTwice { vertex } "the solution's text has two lines for a vertex"
    47 SolutionMissing { vertex } "the solution's text has no line for a vertex"
    50 Capacity { size } "the buffer is smaller than the text, or an array than what it is to have"
    70 BoardOpen "the board is open already"
    71 BoardClosed "the board is not open"
    72 BoardEntry { count } "the board has no entry of this number"
    73 BoardUnsettled { count } "the board has unsettled vertices"
    74 BoardVertex { count } "the board has no vertex of this number"
    80 PostPlayer { player } "the claim's player is neither 0 nor 1"
    81 PostLengths { vertices, choices } "the claim's arrays have different lengths"
    82 PostShape { row } "a row of the claim is wrong"
    83 PostCycle { vertex } "the greatest priority on a closed walk in the claim is the opponent's"
    84 PostLost { vertex } "a vertex of the claim is settled for the opponent"
    85 PostStale "all vertices of the claim are settled for the player"
    86 PostOpen { vertex, to } "a kept edge leads out of the claim and of what is settled for the player"
    90 GaveUp "the recursion needs more steps than the call allows"
}
