//! A state as the proved library has it: small structs, and lists of packed words.

use sa110_model::state::BLOCK_BYTES;
use sa110_model::state::{self, Line, PlainRegisters, Registers, Slot, TlbEntry};

pub use sa110::Machine as Packed;
pub use sa110::{Counts, Cp15, State};

/// A TLB entry: bit 0 valid, 1 C, 2 B, 3 to 7 size, 8 to 15 domain, 16 to 23 AP0 to AP3, 24 to 43
/// the physical base and 44 to 63 the virtual base, both divided by 4096. Here as in the words below,
/// bits that a field has no place for are cut off.
pub fn entry_word(e: &TlbEntry) -> u64 {
    let ap = |k: usize| cut(e.ap[k], 2) << (2 * k);
    cut(e.valid, 1)
        | cut(e.c, 1) << 1
        | cut(e.b, 1) << 2
        | cut(e.size, 5) << 3
        | cut(e.domain, 8) << 8
        | (ap(0) | ap(1) | ap(2) | ap(3)) << 16
        | cut(e.physical_base / 4096, 20) << 24
        | cut(e.virtual_base / 4096, 20) << 44
}

pub fn entry_of(w: u64) -> TlbEntry {
    let ap = |k: usize| field(w, 16 + 2 * k, 2);
    TlbEntry {
        valid: field(w, 0, 1),
        size: field(w, 3, 5),
        virtual_base: field(w, 44, 20) * 4096,
        physical_base: field(w, 24, 20) * 4096,
        domain: field(w, 8, 8),
        ap: [ap(0), ap(1), ap(2), ap(3)],
        c: field(w, 1, 1),
        b: field(w, 2, 1),
    }
}

/// A line: bit 0 valid, 1 dirty low half, 2 dirty high half, 3 to 31 the physical line number, 32 to 63
/// the tag.
pub fn line_word(l: &Line) -> u64 {
    cut(l.valid, 1)
        | cut(l.dirty[0], 1) << 1
        | cut(l.dirty[1], 1) << 2
        | cut(l.frame, 29) << 3
        | (l.tag as u64) << 32
}

pub fn line_of(w: u64) -> Line {
    Line {
        tag: field(w, 32, 32),
        frame: field(w, 3, 29),
        valid: field(w, 0, 1),
        dirty: [field(w, 1, 1), field(w, 2, 1)],
    }
}

/// A buffer entry without its bytes: bits 0 to 31 the mask, 32 to 63 the block number.
pub fn slot_word(s: &Slot) -> u64 {
    s.mask as u64 | (s.block as u64) << 32
}

pub fn slot_of(w: u64, bytes: [u8; BLOCK_BYTES]) -> Slot {
    Slot {
        block: field(w, 32, 32),
        mask: field(w, 0, 32),
        bytes,
    }
}

/// The low bits of a number.
fn cut(x: u32, bits: u32) -> u64 {
    x as u64 & ((1 << bits) - 1)
}

fn field(w: u64, first: usize, bits: u32) -> u32 {
    (w >> first & ((1 << bits) - 1)) as u32
}

/// A state and record of the second model in packed words, and back.
pub trait OfModel {
    fn of(state: &state::State, registers: &Registers) -> Self;

    /// The second model's state and record. A size or number of buffer entries that it has no place
    /// for becomes the largest that it has.
    fn unpacked(&self) -> (state::State, Registers);
}

impl OfModel for Packed {
    fn of(state: &state::State, registers: &Registers) -> Packed {
        let (r, c) = (&registers.plain, &state.counts);
        Packed {
            state: State {
                size: state.memory_length as usize,
                counts: Counts {
                    calls: c.calls,
                    misses: c.tlb_misses,
                    hits: c.hits,
                    fills: c.fills,
                    halves: c.halves,
                },
                used: state.buffer.entries as usize,
                entries: std::array::from_fn(|i| entry_word(&state.tlb[i])),
                lines: std::array::from_fn(|i| line_word(&state.cache.lines[i])),
                pointers: state.cache.pointers,
                words: std::array::from_fn(|i| slot_word(&state.buffer.slots[i])),
                bytes: std::array::from_fn(|i| state.buffer.slots[i].bytes),
            },
            cp15: Cp15 {
                control: r.control,
                base: r.table_base,
                domains: r.domain,
                fsr: r.fsr,
                far: r.far,
                pointer: registers.tlb_pointer,
            },
        }
    }

    fn unpacked(&self) -> (state::State, Registers) {
        let (p, r, c) = (&self.state, &self.cp15, &self.state.counts);
        let mut state = state::State::ZERO;
        state.memory_length = narrow(p.size);
        state.tlb = p.entries.map(entry_of);
        state.cache.lines = p.lines.map(line_of);
        state.cache.pointers = p.pointers;
        state.buffer.entries = narrow(p.used);
        state.buffer.slots = std::array::from_fn(|i| slot_of(p.words[i], p.bytes[i]));
        state.counts = state::Counts {
            calls: c.calls,
            tlb_misses: c.misses,
            hits: c.hits,
            fills: c.fills,
            halves: c.halves,
        };
        let plain = PlainRegisters {
            control: r.control,
            table_base: r.base,
            domain: r.domains,
            fsr: r.fsr,
            far: r.far,
        };
        let tlb_pointer = r.pointer;
        (state, Registers { plain, tlb_pointer })
    }
}

fn narrow(x: usize) -> u32 {
    x.try_into().unwrap_or(u32::MAX)
}
