//! What is kept in mind of touches: two words for each place, of which one is a stamp, so that forgetting takes no time.

use crate::Clash;

/// Ways of touching, as bits, so that those of one thread can stand together.
#[derive(Clone, Copy)]
pub enum How {
    Reading = 1,
    Writing = 2,
    Adding = 4,
}

/// The first thread that touched a place in the stretch of the stamp, and how it did: thread * 8 + bits.
///
/// Threads go one after the other, so the first one does not come back while another's touch is in mind; and as long
/// as there was no clash, the others have touched the place in the first one's way, which is then a single one.
#[derive(Clone, Copy, Default)]
struct Entry {
    stamp: u32,
    first: u32,
}

pub struct Ledger {
    entries: Vec<Entry>,
    stamp: u32,
}

impl Ledger {
    /// A memory of no words has place 0 all the same.
    pub fn new(words: usize) -> Self {
        Ledger { entries: vec![Entry::default(); words.max(1)], stamp: 1 }
    }

    /// All that wait go on. Stamps come around after 2^32 - 1 stretches; then entries are cleared.
    pub fn forget(&mut self) {
        self.stamp = self.stamp.wrapping_add(1);
        if self.stamp == 0 {
            self.entries.fill(Entry::default());
            self.stamp = 1;
        }
    }

    #[inline]
    pub fn note(&mut self, me: u32, place: usize, how: How) -> Result<(), Clash> {
        let entry = &mut self.entries[place];
        let how = how as u32;
        if entry.stamp != self.stamp {
            *entry = Entry { stamp: self.stamp, first: me * 8 + how };
        } else if entry.first / 8 == me {
            entry.first |= how;
        } else if entry.first % 8 != how || how == How::Writing as u32 {
            return Err(Clash { first: entry.first / 8, second: me, place: place as u32 });
        }
        Ok(())
    }
}
