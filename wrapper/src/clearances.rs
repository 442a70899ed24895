//! Who may print where.

use crate::sys::ALL_OWNERS;
use crate::PAGE_COUNT;

/// The clearance of each page, a set of owners 0 to 31 by bits. A line goes out only if its label is inside its page's
/// set, else the run stops with [`NotCleared`](crate::Stop::NotCleared); the end line needs page 0's. The default clears
/// every page for all owners.
#[derive(Clone, Copy, Debug, PartialEq, Eq)]
pub struct Clearances {
    /// As the C interface has them.
    words: [i64; PAGE_COUNT],
}

impl Clearances {
    /// Every page for all owners.
    pub const ALL: Clearances = Clearances { words: [ALL_OWNERS; PAGE_COUNT] };

    /// These sets, page 0's first.
    pub fn new(sets: [u32; PAGE_COUNT]) -> Clearances {
        Clearances { words: sets.map(i64::from) }
    }

    /// The same, with this set for one page.
    ///
    /// # Panics
    ///
    /// If there is no such page: their numbers are 0 to 15.
    #[must_use]
    pub fn with(mut self, page: u8, set: u32) -> Clearances {
        self.words[index(page)] = set.into();
        self
    }

    /// A page's set.
    ///
    /// # Panics
    ///
    /// If there is no such page: their numbers are 0 to 15.
    pub fn of(&self, page: u8) -> u32 {
        self.words[index(page)] as u32
    }

    /// The words that the C interface takes, one a page.
    pub fn words(&self) -> &[i64; PAGE_COUNT] {
        &self.words
    }
}

impl Default for Clearances {
    fn default() -> Clearances {
        Clearances::ALL
    }
}

fn index(page: u8) -> usize {
    assert!(usize::from(page) < PAGE_COUNT, "there is no page {page}: they are 0 to {}", PAGE_COUNT - 1);
    page.into()
}
