//! What a run answers: numbers that depend on every call, the same as the port's program writes.

#[derive(Clone, Copy, Debug, Default, Eq, PartialEq)]
pub struct Tally {
    pub revision: u64,
    pub presses: u64,
    pub sum: u64,
}

/// The times of a case and the tallies of its runs of T and of 3T turns.
pub struct Measured {
    pub nanos: f64,
    pub tallies: [Tally; 2],
}
