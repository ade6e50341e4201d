//! Why a run has no answer. A text with a fault is refused, and its fault is not named.

#[derive(Clone, Copy, Debug, PartialEq, Eq)]
pub enum Fault {
    Device,
    Game,
    Solution,
}

impl Fault {
    pub fn status(self) -> u8 {
        if self == Fault::Device { 4 } else { 3 }
    }
}
