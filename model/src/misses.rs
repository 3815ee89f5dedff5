//! Accesses whose line is not held: fills, uncached loads, buffered and direct stores, swaps.

use crate::access::Place;
use crate::answers::Abort;
use crate::bus::{self, Word};
use crate::cache::store_index;
use crate::calls::Access;
use crate::coverage::{Event, Watch};
use crate::library::Lent;
use crate::state::Line;
use crate::words;
use std::cmp::Ordering;

/// A load that misses fills a line, or reads memory past the cache.
pub fn load_miss<T: Watch>(
    lent: &mut Lent,
    access: &Access,
    address: u32,
    place: &Place,
    watch: &mut T,
) -> Result<u32, Abort> {
    if place.fills(&lent.registers.plain) {
        return load_by_fill(lent, access, address, place, watch);
    }
    if lent.word(place.physical) != Word::Good {
        note_entries(lent, Event::NoDrainBeforeLoadAbort, watch);
        return Err(place.other_abort());
    }
    watch.note(Event::UncachedLoad);
    let buffer = &mut lent.state.buffer;
    if buffer.overlaps_access(place.physical, access.width) {
        watch.note(Event::DrainBeforeLoad);
        buffer.drain(&mut lent.board, watch);
    }
    Ok(lent.read_memory(place, access))
}

/// A fill reads the line from its first word upward. If a word aborts, the line is not held, and the load is
/// served by the words read: it faults unless the wanted one is among them.
fn load_by_fill<T: Watch>(
    lent: &mut Lent,
    access: &Access,
    address: u32,
    place: &Place,
    watch: &mut T,
) -> Result<u32, Abort> {
    let victim = *lent.state.cache.victim(address);
    match lent.cached().fill(address, place.physical >> 5, watch) {
        Ok(index) => {
            let at = store_index(index, address);
            Ok(words::read(lent.store, at, access.width))
        }
        Err(aborted) => {
            let wanted = bus::number_in_line(place.physical);
            note_aborted_fill(lent, place, &victim, aborted.cmp(&wanted), watch);
            if aborted <= wanted {
                return Err(place.fill_abort());
            }
            Ok(lent.read_memory(place, access))
        }
    }
}

/// Notes a fill that aborted: where, beside the wanted word, and what gave way to it.
fn note_aborted_fill<T: Watch>(
    lent: &Lent,
    place: &Place,
    victim: &Line,
    aborted: Ordering,
    watch: &mut T,
) {
    let outside = lent.word(place.physical) == Word::Outside;
    watch.note(match (outside, aborted) {
        (true, _) => Event::FillOutside,
        (_, Ordering::Less) => Event::FillBadBefore,
        (_, Ordering::Equal) => Event::FillBadAt,
        (_, Ordering::Greater) => Event::FillBadBehind,
    });
    watch.note(match (outside, victim.valid, victim.dirty) {
        (true, 0, _) => Event::OutsideVictimEmpty,
        (true, _, [0, 0]) => Event::OutsideVictimClean,
        (true, ..) => Event::OutsideVictimDirty,
        (false, 0, _) => Event::BadVictimEmpty,
        (false, _, [0, 0]) => Event::BadVictimClean,
        (false, ..) => Event::BadVictimDirty,
    });
}

/// Notes the event if the buffer has entries.
fn note_entries<T: Watch>(lent: &Lent, event: Event, watch: &mut T) {
    if lent.state.buffer.entries > 0 {
        watch.note(event);
    }
}

/// A store that misses is buffered, dropped outside memory, or drains the buffer and writes.
pub fn store_miss<T: Watch>(
    lent: &mut Lent,
    access: &Access,
    place: &Place,
    value: u32,
    watch: &mut T,
) -> Result<u32, Abort> {
    let word = lent.word(place.physical);
    match (place.buffers(&lent.registers.plain), word) {
        (true, Word::Outside) => watch.note(Event::DroppedStore),
        (true, Word::Good | Word::Bad) => {
            watch.note(match word {
                Word::Bad => Event::BufferedStoreBad,
                _ => Event::BufferedStore,
            });
            let buffer = &mut lent.state.buffer;
            let board = &mut lent.board;
            buffer.store(board, place.physical, access.width, value, watch);
        }
        (false, Word::Outside | Word::Bad) => {
            note_entries(lent, Event::NoDrainBeforeStoreAbort, watch);
            return Err(place.other_abort());
        }
        (false, Word::Good) => {
            watch.note(Event::DirectStore);
            note_entries(lent, Event::DrainBeforeStore, watch);
            lent.state.buffer.drain(&mut lent.board, watch);
            lent.write_memory(place, access, value);
        }
    }
    Ok(0)
}

/// A swap that misses drains the buffer, reads memory, then writes it. A read that aborts is found before
/// the drain and followed by no write.
pub fn swap_miss<T: Watch>(
    lent: &mut Lent,
    access: &Access,
    place: &Place,
    value: u32,
    watch: &mut T,
) -> Result<u32, Abort> {
    note_swap_miss(lent, access, place, watch);
    if lent.word(place.physical) != Word::Good {
        note_entries(lent, Event::NoDrainBeforeSwapAbort, watch);
        return Err(place.other_abort());
    }
    note_entries(lent, Event::DrainBeforeSwap, watch);
    lent.state.buffer.drain(&mut lent.board, watch);
    let old = lent.read_memory(place, access);
    lent.write_memory(place, access, value);
    Ok(old)
}

/// Notes what a load and a store do at the place of a swap that misses, and whether its bytes are buffered.
fn note_swap_miss<T: Watch>(lent: &Lent, access: &Access, place: &Place, watch: &mut T) {
    let registers = &lent.registers.plain;
    let (fills, buffers) = (place.fills(registers), place.buffers(registers));
    let word = lent.word(place.physical);
    watch.note(match (fills, buffers, word) {
        (true, _, Word::Good) => Event::SwapWhereLoadsFill,
        (false, true, Word::Good) => Event::SwapWhereStoresBuffer,
        (false, false, Word::Good) => Event::SwapWhereNeither,
        (true, _, Word::Outside) => Event::SwapOutsideWhereLoadsFill,
        (false, true, Word::Outside) => Event::SwapOutsideWhereStoresBuffer,
        (false, false, Word::Outside) => Event::SwapOutsideWhereNeither,
        (true, _, Word::Bad) => Event::SwapBadWhereLoadsFill,
        (false, true, Word::Bad) => Event::SwapBadWhereStoresBuffer,
        (false, false, Word::Bad) => Event::SwapBadWhereNeither,
    });
    let buffer = &lent.state.buffer;
    if word == Word::Good && buffer.overlaps_access(place.physical, access.width) {
        watch.note(Event::DrainOfSwapped);
    }
}
