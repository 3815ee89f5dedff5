//! CP15 reads and writes on the library machine.

use crate::answers::Answer;
use crate::coverage::{Event, Watch};
use crate::library::Lent;
use crate::registers::Operation;
use crate::state::Line;
use crate::tlb;

/// Serves a read that is not refused.
pub fn read<T: Watch>(lent: &mut Lent, register: u32, watch: &mut T) -> Answer {
    watch.note(Event::RegisterRead);
    lent.state.counts.calls += 1;
    Answer::Value(lent.registers.plain.read(register))
}

/// Serves a write of register 1 to 6 that is not refused.
pub fn write<T: Watch>(lent: &mut Lent, register: u32, value: u32, watch: &mut T) -> Answer {
    watch.note(Event::RegisterWrite);
    lent.state.counts.calls += 1;
    lent.registers.plain.write(register, value);
    Answer::Value(0)
}

/// Serves a listed operation of register 7 or 8.
pub fn operate<T: Watch>(lent: &mut Lent, operation: Operation, watch: &mut T) -> Answer {
    lent.state.counts.calls += 1;
    match operation {
        Operation::FlushDcache => flush_dcache(lent, watch),
        Operation::FlushLine(address) => flush_line(lent, address, watch),
        Operation::CleanLine(address) => clean_line(lent, address, watch),
        Operation::Drain => drain(lent, watch),
        Operation::FlushTlb => {
            watch.note(Event::TlbFlush);
            tlb::flush(&mut lent.state.tlb);
        }
        Operation::DropTlbEntry(address) => {
            let dropped = tlb::drop_covering(&mut lent.state.tlb, address);
            watch.note(match dropped {
                0 => Event::TlbDropNothing,
                1 => Event::TlbDrop,
                _ => Event::TlbDropSeveral,
            });
        }
        Operation::Nothing => watch.note(Event::OperationNothing),
    }
    Answer::Value(0)
}

fn flush_dcache<T: Watch>(lent: &mut Lent, watch: &mut T) {
    watch.note(Event::WholeFlush);
    lent.state.cache.flush();
}

/// A flush loses dirty bytes; the line's place becomes all zeros.
fn flush_line<T: Watch>(lent: &mut Lent, address: u32, watch: &mut T) {
    match lent.state.cache.find(address) {
        Some(index) => {
            watch.note(Event::LineFlush);
            lent.state.cache.lines[index] = Line::EMPTY;
        }
        None => watch.note(Event::LineFlushAbsent),
    }
}

/// A clean sends dirty halves to the buffer, clears their dirty bits and leaves the line valid.
fn clean_line<T: Watch>(lent: &mut Lent, address: u32, watch: &mut T) {
    match lent.state.cache.find(address) {
        Some(index) => {
            watch.note(if lent.state.cache.lines[index].dirty == [0, 0] {
                Event::CleanOfClean
            } else {
                Event::CleanOfDirty
            });
            lent.cached().send_dirty_halves(index, watch);
        }
        None => watch.note(Event::CleanOfAbsent),
    }
}

fn drain<T: Watch>(lent: &mut Lent, watch: &mut T) {
    watch.note(if lent.state.buffer.entries > 0 {
        Event::DrainOfEntries
    } else {
        Event::DrainOfNothing
    });
    lent.state.buffer.drain(&mut lent.board, watch);
}
