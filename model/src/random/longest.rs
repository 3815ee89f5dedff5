//! Sound states whose text is as long as can be: every number has as many digits as the greatest of its
//! field.

use super::rng::Rng;
use crate::machine::Machine;
use crate::registers::{CONTROL_KEPT, TABLE_BASE_KEPT};
use crate::state::{Counts, Line, PlainRegisters, Registers, Slot, TlbEntry};
use crate::state::{BLOCK_BYTES, BUFFER_ENTRIES, LINES, LINE_BYTES, MEMORY_LIMIT, SETS, WAYS};
use crate::tlb::SIZE_MASKS;

/// A machine in such a state, with the longest memory, all zeros.
pub fn longest(rng: &mut Rng) -> Machine {
    let mut machine = Machine::fresh(vec![0; MEMORY_LIMIT]);
    machine.registers = registers(rng);
    let state = &mut machine.state;
    for entry in &mut state.tlb {
        *entry = tlb_entry(rng);
    }
    state.cache.pointers = [0; SETS].map(|_| pointer(rng));
    for (i, place) in state.cache.lines.iter_mut().enumerate() {
        *place = line(rng, i % WAYS);
    }
    state.buffer.entries = BUFFER_ENTRIES as u32;
    for place in &mut state.buffer.slots {
        *place = slot(rng);
    }
    state.counts = counts(rng);
    machine
}

fn ten_digits(rng: &mut Rng) -> u32 {
    rng.word() | 1 << 31
}

fn pointer(rng: &mut Rng) -> u32 {
    10 + rng.below(22)
}

fn registers(rng: &mut Rng) -> Registers {
    Registers {
        plain: PlainRegisters {
            control: CONTROL_KEPT,
            table_base: ten_digits(rng) & TABLE_BASE_KEPT,
            domain: ten_digits(rng),
            fsr: 100 + rng.below(156),
            far: ten_digits(rng),
        },
        tlb_pointer: pointer(rng),
    }
}

fn tlb_entry(rng: &mut Rng) -> TlbEntry {
    let size = rng.below(3);
    let mask = SIZE_MASKS[size as usize];
    TlbEntry {
        valid: 1,
        size,
        virtual_base: ten_digits(rng) & mask,
        physical_base: ten_digits(rng) & mask,
        domain: 10 + rng.below(6),
        ap: [0; 4].map(|_| rng.below(4)),
        c: rng.below(2),
        b: rng.below(2),
    }
}

/// A line of this way; the tags of two ways differ.
fn line(rng: &mut Rng, way: usize) -> Line {
    let frames = (MEMORY_LIMIT / LINE_BYTES) as u32;
    Line {
        tag: 1_000_000 + way as u32 * 200_000 + rng.below(200_000),
        frame: 100_000 + rng.below(frames - 100_000),
        valid: 1,
        dirty: [rng.below(2), rng.below(2)],
    }
}

fn slot(rng: &mut Rng) -> Slot {
    let blocks = (MEMORY_LIMIT / BLOCK_BYTES) as u32;
    Slot {
        block: 1_000_000 + rng.below(blocks - 1_000_000),
        mask: 0xFFFF,
        bytes: [0; BLOCK_BYTES].map(|_| 100 + rng.below(156) as u8),
    }
}

/// Counts below the limit of refusal 5, with room for every half of a line to be dirty.
fn counts(rng: &mut Rng) -> Counts {
    let calls = u32::MAX - 1;
    let mut upto = |most: u32| most - rng.below(1_000_000_000);
    Counts {
        calls,
        tlb_misses: upto(calls),
        hits: upto(calls),
        fills: upto(calls),
        halves: upto(calls - 2 * LINES as u32),
    }
}
