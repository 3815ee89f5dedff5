//! The TLB's entries: which addresses one covers, what it makes of them, lookup, place, flush, drop.

use crate::coverage::{Event, Watch};
use crate::state::{TlbEntry, TLB_ENTRIES};

/// The address bits that lie in the base, by size: section, large page, small page.
pub const SIZE_MASKS: [u32; 3] = [0xFFF0_0000, 0xFFFF_0000, 0xFFFF_F000];

impl TlbEntry {
    #[inline]
    pub fn covers(&self, address: u32) -> bool {
        self.valid == 1 && address & SIZE_MASKS[self.size as usize] == self.virtual_base
    }

    #[inline]
    pub fn is_page(&self) -> bool {
        self.size != 0
    }

    /// The physical address of a virtual address that the entry covers.
    #[inline]
    pub fn physical(&self, address: u32) -> u32 {
        self.physical_base | (address & !SIZE_MASKS[self.size as usize])
    }

    /// The AP that serves: AP0 for a section, by VA[15:14] in a large and VA[11:10] in a small page.
    #[inline]
    pub fn permission(&self, address: u32) -> u32 {
        match self.size {
            0 => self.ap[0],
            1 => self.ap[(address >> 14 & 3) as usize],
            _ => self.ap[(address >> 10 & 3) as usize],
        }
    }
}

/// The lowest-numbered entry that covers the address.
#[inline]
pub fn lookup(tlb: &[TlbEntry; TLB_ENTRIES], address: u32) -> Option<usize> {
    tlb.iter().position(|entry| entry.covers(address))
}

/// Puts an entry at the pointer, which then steps round the 32. Answers where it went.
pub fn place<T: Watch>(
    tlb: &mut [TlbEntry; TLB_ENTRIES],
    pointer: &mut u32,
    entry: TlbEntry,
    watch: &mut T,
) -> usize {
    let at = *pointer as usize;
    watch.note(if tlb[at].valid == 1 {
        Event::TlbReplacement
    } else {
        Event::TlbPlaceEmpty
    });
    tlb[at] = entry;
    *pointer = (*pointer + 1) % TLB_ENTRIES as u32;
    at
}

/// Empties every entry; the pointer stays.
pub fn flush(tlb: &mut [TlbEntry; TLB_ENTRIES]) {
    *tlb = [TlbEntry::EMPTY; TLB_ENTRIES];
}

/// Empties every entry that covers the address. Answers how many there were.
pub fn drop_covering(tlb: &mut [TlbEntry; TLB_ENTRIES], address: u32) -> usize {
    let mut dropped = 0;
    for entry in tlb.iter_mut() {
        if entry.covers(address) {
            *entry = TlbEntry::EMPTY;
            dropped += 1;
        }
    }
    dropped
}
