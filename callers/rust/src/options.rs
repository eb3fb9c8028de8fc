//! What a check reports.
use std::num::NonZeroUsize;

/// What a check reports: by default all faults, in English.
#[derive(Clone, Copy, Debug)]
pub struct Options<'a> {
    pub(crate) most: NonZeroUsize,
    pub(crate) language: &'a str,
    pub(crate) places: bool,
}

impl<'a> Options<'a> {
    /// All faults, in English.
    pub const fn new() -> Options<'a> {
        Options {
            most: NonZeroUsize::MAX,
            language: "",
            places: false,
        }
    }

    /// So many faults at most.
    pub const fn most(self, most: NonZeroUsize) -> Options<'a> {
        Options { most, ..self }
    }

    /// Sentences in the language of this tag (RFC 5646). Of one that the library has not, they are
    /// English.
    pub const fn language(self, language: &'a str) -> Options<'a> {
        Options { language, ..self }
    }

    /// Where in the body each fault is, too: for those who ask for faults, and not for their text.
    pub const fn places(self) -> Options<'a> {
        Options {
            places: true,
            ..self
        }
    }
}

impl Default for Options<'_> {
    fn default() -> Self {
        Options::new()
    }
}
