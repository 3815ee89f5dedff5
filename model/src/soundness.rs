//! Refusal 3, clause by clause. Each clause can be asked of any state, sound or not.

use crate::registers::{control_listed, CONTROL_KEPT, FSR_KEPT, TABLE_BASE_KEPT};
use crate::state::{Line, Registers, Slot, State, TlbEntry, BUFFER_ENTRIES, WAYS};
use crate::tlb::SIZE_MASKS;

/// One clause of refusal 3: its name, and whether a state with memory of this length breaks it.
pub struct Clause {
    pub name: &'static str,
    pub broken: fn(&State, &Registers, u32) -> bool,
}

pub const CLAUSES: [Clause; 16] = [
    Clause {
        name: "a pointer above 31",
        broken: pointer_above_31,
    },
    Clause {
        name: "more than 8 buffer entries",
        broken: |state, _, _| state.buffer.entries as usize > BUFFER_ENTRIES,
    },
    Clause {
        name: "two valid lines of one set with equal tags",
        broken: |state, _, _| equal_tags(state),
    },
    Clause {
        name: "a valid line outside the lent memory",
        broken: line_outside,
    },
    Clause {
        name: "a buffer entry outside the lent memory",
        broken: |state, _, memory| entries(state).iter().any(|slot| slot.block >= memory / 16),
    },
    Clause {
        name: "an empty TLB entry not all zeros",
        broken: |state, _, _| {
            state
                .tlb
                .iter()
                .any(|e| e.valid == 0 && *e != TlbEntry::EMPTY)
        },
    },
    Clause {
        name: "an empty line not all zeros",
        broken: |state, _, _| lines(state, 0).any(|line| *line != Line::EMPTY),
    },
    Clause {
        name: "an empty buffer slot not all zeros",
        broken: |state, _, _| rest(state).iter().any(|slot| *slot != Slot::EMPTY),
    },
    Clause {
        name: "a TLB base not a multiple of its size",
        broken: |state, _, _| state.tlb.iter().any(base_not_multiple),
    },
    Clause {
        name: "a buffer entry with mask 0",
        broken: |state, _, _| entries(state).iter().any(|slot| slot.mask == 0),
    },
    Clause {
        name: "a buffer entry with a nonzero byte outside its mask",
        broken: |state, _, _| entries(state).iter().any(byte_outside_mask),
    },
    Clause {
        name: "a register bit outside its range",
        broken: |_, registers, _| register_out_of_range(registers),
    },
    Clause {
        name: "a field outside its range",
        broken: |state, _, _| field_out_of_range(state),
    },
    Clause {
        name: "a control combination outside the list",
        broken: |_, registers, _| !control_listed(registers.plain.control),
    },
    Clause {
        name: "TLB misses, hits or fills above the calls",
        broken: |state, _, _| count_above_calls(state),
    },
    Clause {
        name: "halves sent out plus dirty halves above the calls",
        broken: |state, _, _| halves_above_calls(state),
    },
];

/// Does the state with this record and this lent memory length keep every clause?
pub fn is_sound(state: &State, registers: &Registers, memory: u32) -> bool {
    !CLAUSES
        .iter()
        .any(|clause| (clause.broken)(state, registers, memory))
}

/// The names of the clauses that are broken.
pub fn broken_clauses(state: &State, registers: &Registers, memory: u32) -> Vec<&'static str> {
    CLAUSES
        .iter()
        .filter(|clause| (clause.broken)(state, registers, memory))
        .map(|clause| clause.name)
        .collect()
}

/// The slots in use; all eight if the number of entries is above 8.
fn entries(state: &State) -> &[Slot] {
    &state.buffer.slots[..(state.buffer.entries as usize).min(BUFFER_ENTRIES)]
}

/// The slots at or above the number of entries.
fn rest(state: &State) -> &[Slot] {
    &state.buffer.slots[(state.buffer.entries as usize).min(BUFFER_ENTRIES)..]
}

/// The lines with this valid field.
fn lines(state: &State, valid: u32) -> impl Iterator<Item = &Line> {
    state
        .cache
        .lines
        .iter()
        .filter(move |line| line.valid == valid)
}

fn pointer_above_31(state: &State, registers: &Registers, _: u32) -> bool {
    registers.tlb_pointer > 31 || state.cache.pointers.iter().any(|pointer| *pointer > 31)
}

fn line_outside(state: &State, _: &Registers, memory: u32) -> bool {
    lines(state, 1).any(|line| line.frame >= memory / 32)
}

fn equal_tags(state: &State) -> bool {
    for set in state.cache.lines.chunks_exact(WAYS) {
        // A bit for each value of a tag's low six bits seen so far: most lines need no comparison.
        let mut seen = 0u64;
        for (way, line) in set.iter().enumerate() {
            if line.valid != 1 {
                continue;
            }
            let bit = 1u64 << (line.tag & 63);
            if seen & bit != 0 {
                for earlier in &set[..way] {
                    if earlier.valid == 1 && earlier.tag == line.tag {
                        return true;
                    }
                }
            }
            seen |= bit;
        }
    }
    false
}

/// Both bases are asked. An empty entry and a size out of range have their own clauses.
fn base_not_multiple(entry: &TlbEntry) -> bool {
    if entry.valid == 0 {
        return false;
    }
    match SIZE_MASKS.get(entry.size as usize) {
        Some(mask) => (entry.virtual_base | entry.physical_base) & !mask != 0,
        None => false,
    }
}

fn byte_outside_mask(slot: &Slot) -> bool {
    slot.bytes
        .iter()
        .enumerate()
        .any(|(i, byte)| *byte != 0 && slot.mask >> i & 1 == 0)
}

fn register_out_of_range(registers: &Registers) -> bool {
    registers.plain.control & !CONTROL_KEPT != 0
        || registers.plain.table_base & !TABLE_BASE_KEPT != 0
        || registers.plain.fsr & !FSR_KEPT != 0
}

fn field_out_of_range(state: &State) -> bool {
    state.tlb.iter().any(|entry| {
        entry.valid > 1
            || entry.size > 2
            || entry.domain > 15
            || entry.ap.iter().any(|ap| *ap > 3)
            || entry.c > 1
            || entry.b > 1
    }) || state
        .cache
        .lines
        .iter()
        .any(|line| line.valid > 1 || line.tag >> 23 != 0 || line.dirty.iter().any(|d| *d > 1))
        || entries(state).iter().any(|slot| slot.mask >> 16 != 0)
}

fn count_above_calls(state: &State) -> bool {
    let counts = &state.counts;
    counts.tlb_misses > counts.calls || counts.hits > counts.calls || counts.fills > counts.calls
}

fn halves_above_calls(state: &State) -> bool {
    let dirty: u64 = lines(state, 1)
        .map(|line| line.dirty[0] as u64 + line.dirty[1] as u64)
        .sum();
    state.counts.halves as u64 + dirty > state.counts.calls as u64
}
