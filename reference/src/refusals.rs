//! The refusals that an act or a question can get, with their numbers (docs/refusals.md).

/// Why an act or a question is refused. Its number is its value as `u8`.
#[derive(Clone, Copy, Debug, PartialEq, Eq)]
pub enum Refusal {
    NoServer = 1,
    Stopped = 2,
    Running = 3,
    NoClient = 4,
    NoCell = 5,
    NotPrimary = 6,
    Barred = 7,
    OpenAlready = 8,
    AllOpen = 9,
    NotOpen = 10,
    Committing = 11,
    AllNoted = 12,
    Busy = 13,
    Full = 14,
    NoneWaiting = 15,
    AllDelivered = 16,
}

/// Refuses where the condition does not hold.
pub fn require(holds: bool, refusal: Refusal) -> Result<(), Refusal> {
    holds.then_some(()).ok_or(refusal)
}
