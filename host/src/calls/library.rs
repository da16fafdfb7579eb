//! Whose calls are made: those of this commit's library, or of an earlier one's
//! beside it.

/// A library that is linked.
#[derive(Clone, Copy)]
pub enum Library {
    Ours,
    /// The one that BEFORE_DIR named when this was built.
    #[cfg(before)]
    Before,
}

impl Library {
    /// All of them, ours first.
    #[cfg(not(before))]
    pub const ALL: [Library; 1] = [Library::Ours];
    #[cfg(before)]
    pub const ALL: [Library; 2] = [Library::Ours, Library::Before];
}
