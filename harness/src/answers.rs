//! What the entries answer.

/// What serving or a reset answers.
#[derive(Clone, Copy, Debug, PartialEq, Eq)]
pub enum Done {
    /// So many chains still wait.
    Served(u64),
    /// The device has stopped.
    Stopped,
    /// The device was reset.
    Anew,
    /// Nothing was done: the number of the refusal.
    Refused(u64),
}

/// Where a descriptor's part lies: its address and its length.
pub type Part = Option<(u64, u64)>;

/// Serving, by whichever does it: places, begins, memory, state, kept, times.
pub type Entry = fn(u64, u64, &mut [u8], &mut [u32], &mut [u8], u64) -> Done;
