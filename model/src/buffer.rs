//! The write buffer: join, take, the oldest leaving, drain, overlap.

use crate::bus::{Board, WORD_BYTES};
use crate::coverage::{Event, Watch};
use crate::state::{Buffer, Slot, BLOCK_BYTES, BUFFER_ENTRIES};

/// The words of a block.
const BLOCK_WORDS: usize = BLOCK_BYTES / WORD_BYTES;

/// The mask of `width` bytes at a physical address, in its block.
#[inline]
pub fn access_mask(physical: u32, width: u32) -> u32 {
    ((1 << width) - 1) << (physical & 15)
}

impl Slot {
    /// Writes the masked bytes of good words to memory; those of bad words are dropped.
    fn leave<T: Watch>(&self, board: &mut Board, watch: &mut T) {
        let at = self.block as usize * BLOCK_BYTES;
        let block = &mut board.memory[at..at + BLOCK_BYTES];
        let first = self.block as usize * BLOCK_WORDS;
        let dropped = dropped_mask(&board.bad[first..first + BLOCK_WORDS]);
        let (written, lost) = (self.mask & !dropped, self.mask & dropped);
        watch.note(match (written != 0, lost != 0) {
            (_, false) => Event::LeavesGood,
            (true, true) => Event::LeavesMixed,
            (false, true) => Event::LeavesBad,
        });
        if written == 0xFFFF {
            block.copy_from_slice(&self.bytes);
            return;
        }
        for (i, byte) in block.iter_mut().enumerate() {
            if written >> i & 1 == 1 {
                *byte = self.bytes[i];
            }
        }
    }

    /// Adds the bytes of a store to the entry.
    fn join(&mut self, physical: u32, width: u32, value: u32) {
        let at = (physical & 15) as usize;
        let width_bytes = width as usize;
        self.bytes[at..at + width_bytes].copy_from_slice(&value.to_le_bytes()[..width_bytes]);
        self.mask |= access_mask(physical, width);
    }
}

/// The mask of the bytes of a block's bad words.
#[inline]
fn dropped_mask(words: &[u8]) -> u32 {
    let bits = words.iter().enumerate();
    bits.map(|(i, word)| (*word as u32 * 0xF) << (WORD_BYTES * i))
        .sum()
}

impl Buffer {
    fn in_use(&self) -> &[Slot] {
        &self.slots[..self.entries as usize]
    }

    /// Takes a new entry; if all eight are taken, the oldest leaves first and the others close up.
    fn take<T: Watch>(&mut self, board: &mut Board, slot: Slot, watch: &mut T) {
        if self.entries as usize == BUFFER_ENTRIES {
            watch.note(Event::OldestLeaves);
            self.slots[0].leave(board, watch);
            self.slots.copy_within(1.., 0);
            self.entries -= 1;
        }
        self.slots[self.entries as usize] = slot;
        self.entries += 1;
    }

    /// A store joins the newest entry of its block, else takes a new one.
    pub fn store<T: Watch>(
        &mut self,
        board: &mut Board,
        physical: u32,
        width: u32,
        value: u32,
        watch: &mut T,
    ) {
        let block = physical >> 4;
        match self.in_use().iter().rposition(|slot| slot.block == block) {
            Some(newest) => {
                watch.note(if self.entries as usize == BUFFER_ENTRIES {
                    Event::StoreJoinsFull
                } else {
                    Event::StoreJoins
                });
                self.slots[newest].join(physical, width, value);
            }
            None => {
                watch.note(Event::StoreTakesEntry);
                let mut slot = Slot {
                    block,
                    ..Slot::EMPTY
                };
                slot.join(physical, width, value);
                self.take(board, slot, watch);
            }
        }
    }

    /// A half sent out always takes a new entry.
    pub fn send_half<T: Watch>(
        &mut self,
        board: &mut Board,
        block: u32,
        bytes: [u8; BLOCK_BYTES],
        watch: &mut T,
    ) {
        watch.note(Event::HalfSent);
        let slot = Slot {
            block,
            mask: 0xFFFF,
            bytes,
        };
        self.take(board, slot, watch);
    }

    /// Every entry leaves, oldest first; the emptied slots become zeros.
    pub fn drain<T: Watch>(&mut self, board: &mut Board, watch: &mut T) {
        for i in 0..self.entries as usize {
            self.slots[i].leave(board, watch);
            self.slots[i] = Slot::EMPTY;
        }
        self.entries = 0;
    }

    /// Is a byte of the physical line masked in some entry? A sound entry has a masked byte.
    #[inline]
    pub fn overlaps_line(&self, frame: u32) -> bool {
        self.in_use().iter().any(|slot| slot.block >> 1 == frame)
    }

    /// Is a byte of the access masked in some entry?
    #[inline]
    pub fn overlaps_access(&self, physical: u32, width: u32) -> bool {
        let mask = access_mask(physical, width);
        self.in_use()
            .iter()
            .any(|slot| slot.block == physical >> 4 && slot.mask & mask != 0)
    }
}
