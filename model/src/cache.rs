//! The Dcache: search, give way, fill, clean, flush. Lines are matched by virtual tag.

use crate::bus::Board;
use crate::coverage::{Event, Watch};
use crate::state::{
    Buffer, Counts, Directory, Line, BLOCK_BYTES, LINES, LINE_BYTES, STORE_BYTES, WAYS,
};

/// The set of a virtual address: VA[8:5].
#[inline]
pub fn set_of(address: u32) -> usize {
    (address >> 5 & 15) as usize
}

/// The tag of a virtual address: VA[31:9].
#[inline]
pub fn tag_of(address: u32) -> u32 {
    address >> 9
}

/// The virtual address of the first byte of a line with this index and tag.
pub fn address_of(index: usize, tag: u32) -> u32 {
    tag << 9 | ((index / WAYS) as u32) << 5
}

impl Directory {
    /// The valid line that holds the virtual address. The search of a set stops at the first match.
    #[inline]
    pub fn find(&self, address: u32) -> Option<usize> {
        let tag = tag_of(address);
        let first = set_of(address) * WAYS;
        self.lines[first..first + WAYS]
            .iter()
            .position(|line| line.tag == tag && line.valid == 1)
            .map(|way| first + way)
    }

    /// The line that gives way if the line of a virtual address is filled now.
    #[inline]
    pub fn victim(&self, address: u32) -> &Line {
        let set = set_of(address);
        &self.lines[set * WAYS + self.pointers[set] as usize]
    }

    /// Empties every line; pointers and store bytes stay.
    pub fn flush(&mut self) {
        self.lines = [Line::EMPTY; LINES];
    }
}

/// The index of a byte of a held line in the cache store.
#[inline]
pub fn store_index(line: usize, address: u32) -> usize {
    line * LINE_BYTES + (address as usize % LINE_BYTES)
}

/// The parts that a line's departure or arrival touches.
pub struct Cached<'a, 'b> {
    pub cache: &'a mut Directory,
    pub buffer: &'a mut Buffer,
    pub counts: &'a mut Counts,
    pub board: &'a mut Board<'b>,
    pub store: &'a mut [u8; STORE_BYTES],
}

impl Cached<'_, '_> {
    /// Sends a line's dirty halves to the buffer, low half first, and clears their dirty bits.
    pub fn send_dirty_halves<T: Watch>(&mut self, index: usize, watch: &mut T) {
        for half in 0..2 {
            let line = &mut self.cache.lines[index];
            if line.dirty[half] == 0 {
                continue;
            }
            line.dirty[half] = 0;
            let at = index * LINE_BYTES + half * BLOCK_BYTES;
            let bytes = self.store[at..at + BLOCK_BYTES].try_into().unwrap();
            self.buffer
                .send_half(self.board, line.frame * 2 + half as u32, bytes, watch);
            self.counts.halves += 1;
        }
    }

    /// Fills the line of a virtual address from a frame. Answers its index, or the first word of the line
    /// that aborts, 0 to 7; then the place stays empty, and the store keeps its bytes.
    pub fn fill<T: Watch>(
        &mut self,
        address: u32,
        frame: u32,
        watch: &mut T,
    ) -> Result<usize, u32> {
        let index = self.give_way(set_of(address), watch);
        let drains = self.buffer.overlaps_line(frame);
        if drains {
            watch.note(Event::DrainBeforeFill);
            self.buffer.drain(self.board, watch);
        }
        if let Some(word) = self.board.bus().first_abort(frame) {
            if drains {
                watch.note(Event::DrainBeforeAbortedFill);
            }
            return Err(word);
        }
        let from = frame as usize * LINE_BYTES;
        let to = index * LINE_BYTES;
        let bytes = &self.board.memory[from..from + LINE_BYTES];
        self.store[to..to + LINE_BYTES].copy_from_slice(bytes);
        self.cache.lines[index] = Line {
            tag: tag_of(address),
            frame,
            valid: 1,
            dirty: [0; 2],
        };
        self.counts.fills += 1;
        watch.note(Event::Fill);
        Ok(index)
    }

    /// The line at the set's pointer gives way, and the pointer steps. Answers the index of the empty place.
    fn give_way<T: Watch>(&mut self, set: usize, watch: &mut T) -> usize {
        let pointer = &mut self.cache.pointers[set];
        let index = set * WAYS + *pointer as usize;
        *pointer = (*pointer + 1) % WAYS as u32;
        watch.note(victim_event(&self.cache.lines[index]));
        self.send_dirty_halves(index, watch);
        self.cache.lines[index] = Line::EMPTY;
        index
    }
}

fn victim_event(line: &Line) -> Event {
    match (line.valid, line.dirty[0] + line.dirty[1]) {
        (0, _) => Event::VictimEmpty,
        (_, 0) => Event::VictimClean,
        (_, 1) => Event::VictimHalfDirty,
        _ => Event::VictimDirty,
    }
}

/// The half of its line that a virtual address lies in: 0 low, 1 high.
#[inline]
pub fn half_of(address: u32) -> usize {
    (address >> 4 & 1) as usize
}
