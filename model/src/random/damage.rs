//! Damages: each makes a sound state break one named clause of refusal 3.

use super::rng::Rng;
use crate::machine::Machine;
use crate::state::{Line, Slot, TlbEntry, BUFFER_ENTRIES, WAYS};

pub struct Damage {
    pub name: &'static str,
    /// The clause that is broken, as named in `soundness::CLAUSES`.
    pub clause: &'static str,
    /// Changes the machine; false if it holds nothing that can be damaged so.
    pub make: fn(&mut Machine, &mut Rng) -> bool,
}

const POINTER: &str = "a pointer above 31";
const ENTRIES: &str = "more than 8 buffer entries";
const TAGS: &str = "two valid lines of one set with equal tags";
const LINE_OUTSIDE: &str = "a valid line outside the lent memory";
const SLOT_OUTSIDE: &str = "a buffer entry outside the lent memory";
const EMPTY_ENTRY: &str = "an empty TLB entry not all zeros";
const EMPTY_LINE: &str = "an empty line not all zeros";
const EMPTY_SLOT: &str = "an empty buffer slot not all zeros";
const BASE: &str = "a TLB base not a multiple of its size";
const MASK: &str = "a buffer entry with mask 0";
const BYTE: &str = "a buffer entry with a nonzero byte outside its mask";
const REGISTER: &str = "a register bit outside its range";
const FIELD: &str = "a field outside its range";
const COMBINATION: &str = "a control combination outside the list";
const COUNT: &str = "TLB misses, hits or fills above the calls";
const HALVES: &str = "halves sent out plus dirty halves above the calls";

/// A value above `limit`: the next one, a large one or the largest.
fn above(rng: &mut Rng, limit: u32) -> u32 {
    let far = limit + 1 + rng.below(u32::MAX - limit);
    rng.pick(&[limit + 1, far, u32::MAX])
}

/// One bit among those set in `bits`.
fn bit_of(rng: &mut Rng, bits: u32) -> u32 {
    loop {
        let bit = 1 << rng.below(32);
        if bits & bit != 0 {
            return bit;
        }
    }
}

fn valid_entry<'a>(m: &'a mut Machine, rng: &mut Rng) -> Option<&'a mut TlbEntry> {
    let first = rng.below(32) as usize;
    let at = (0..32)
        .map(|i| (first + i) % 32)
        .find(|i| m.state.tlb[*i].valid == 1)?;
    Some(&mut m.state.tlb[at])
}

fn empty_entry<'a>(m: &'a mut Machine, rng: &mut Rng) -> Option<&'a mut TlbEntry> {
    let first = rng.below(32) as usize;
    let at = (0..32)
        .map(|i| (first + i) % 32)
        .find(|i| m.state.tlb[*i].valid == 0)?;
    Some(&mut m.state.tlb[at])
}

fn line_index(m: &Machine, rng: &mut Rng, valid: u32) -> Option<usize> {
    let first = rng.below(512) as usize;
    (0..512)
        .map(|i| (first + i) % 512)
        .find(|i| m.state.cache.lines[*i].valid == valid)
}

fn line<'a>(m: &'a mut Machine, rng: &mut Rng, valid: u32) -> Option<&'a mut Line> {
    let at = line_index(m, rng, valid)?;
    Some(&mut m.state.cache.lines[at])
}

fn entry<'a>(m: &'a mut Machine, rng: &mut Rng) -> Option<&'a mut Slot> {
    if m.state.buffer.entries == 0 {
        return None;
    }
    let at = rng.below(m.state.buffer.entries) as usize;
    Some(&mut m.state.buffer.slots[at])
}

fn free_slot<'a>(m: &'a mut Machine, rng: &mut Rng) -> Option<&'a mut Slot> {
    let entries = m.state.buffer.entries as usize;
    if entries == BUFFER_ENTRIES {
        return None;
    }
    let at = entries + rng.below((BUFFER_ENTRIES - entries) as u32) as usize;
    Some(&mut m.state.buffer.slots[at])
}

/// Applies a change where there is something to change.
fn on<T>(thing: Option<&mut T>, change: impl FnOnce(&mut T)) -> bool {
    thing.map(change).is_some()
}

fn equal_tags(m: &mut Machine, rng: &mut Rng) -> bool {
    let Some(at) = line_index(m, rng, 1) else {
        return false;
    };
    let other = at / WAYS * WAYS + (at + 1 + rng.below(31) as usize) % WAYS;
    let tag = m.state.cache.lines[at].tag;
    let frame = m.state.cache.lines[at].frame;
    let line = &mut m.state.cache.lines[other];
    if line.valid == 1 {
        line.tag = tag;
    } else {
        *line = Line {
            tag,
            frame,
            valid: 1,
            dirty: [0; 2],
        };
    }
    true
}

fn byte_outside(m: &mut Machine, rng: &mut Rng) -> bool {
    let Some(slot) = entry(m, rng) else {
        return false;
    };
    if slot.mask == 0xFFFF {
        slot.bytes = [1; 16];
        slot.mask = 1 << rng.below(16);
        return true;
    }
    let bit = bit_of(rng, !slot.mask & 0xFFFF);
    slot.bytes[bit.trailing_zeros() as usize] = 1 + rng.below(255) as u8;
    true
}

/// Lowers or raises the halves sent out until they break the clause by one, or by much.
fn too_many_halves(m: &mut Machine, rng: &mut Rng) -> bool {
    let state = &mut m.state;
    let dirty: u32 = state
        .cache
        .lines
        .iter()
        .map(|l| l.dirty[0] + l.dirty[1])
        .sum();
    let room = state.counts.calls - dirty;
    if room == u32::MAX {
        return false;
    }
    state.counts.halves = if rng.percent(50) { room + 1 } else { u32::MAX };
    state.counts.halves as u64 + dirty as u64 > state.counts.calls as u64
}

pub const DAMAGES: [Damage; 46] = [
    Damage {
        name: "TLB pointer",
        clause: POINTER,
        make: |m, rng| {
            m.registers.tlb_pointer = above(rng, 31);
            true
        },
    },
    Damage {
        name: "set pointer",
        clause: POINTER,
        make: |m, rng| {
            m.state.cache.pointers[rng.below(16) as usize] = above(rng, 31);
            true
        },
    },
    Damage {
        name: "number of buffer entries",
        clause: ENTRIES,
        make: |m, rng| {
            for slot in m.state.buffer.slots.iter_mut().filter(|s| s.mask == 0) {
                slot.mask = 1;
            }
            m.state.buffer.entries = above(rng, 8);
            !m.memory.is_empty()
        },
    },
    Damage {
        name: "equal tags",
        clause: TAGS,
        make: equal_tags,
    },
    Damage {
        name: "line just outside memory",
        clause: LINE_OUTSIDE,
        make: |m, rng| {
            let frames = m.memory.len() as u32 / 32;
            on(line(m, rng, 1), |line| line.frame = frames)
        },
    },
    Damage {
        name: "line far outside memory",
        clause: LINE_OUTSIDE,
        make: |m, rng| {
            let frame = rng.pick(&[1 << 19, 1 << 27, u32::MAX]);
            on(line(m, rng, 1), |line| line.frame = frame)
        },
    },
    Damage {
        name: "buffer entry just outside memory",
        clause: SLOT_OUTSIDE,
        make: |m, rng| {
            let blocks = m.memory.len() as u32 / 16;
            on(entry(m, rng), |slot| slot.block = blocks)
        },
    },
    Damage {
        name: "buffer entry far outside memory",
        clause: SLOT_OUTSIDE,
        make: |m, rng| {
            let block = rng.pick(&[1 << 20, 1 << 28, u32::MAX]);
            on(entry(m, rng), |slot| slot.block = block)
        },
    },
    Damage {
        name: "empty TLB entry with a size",
        clause: EMPTY_ENTRY,
        make: |m, rng| on(empty_entry(m, rng), |e| e.size = 1),
    },
    Damage {
        name: "empty TLB entry with a virtual base",
        clause: EMPTY_ENTRY,
        make: |m, rng| on(empty_entry(m, rng), |e| e.virtual_base = 0x10_0000),
    },
    Damage {
        name: "empty TLB entry with a physical base",
        clause: EMPTY_ENTRY,
        make: |m, rng| on(empty_entry(m, rng), |e| e.physical_base = 0x10_0000),
    },
    Damage {
        name: "empty TLB entry with a domain",
        clause: EMPTY_ENTRY,
        make: |m, rng| on(empty_entry(m, rng), |e| e.domain = 1),
    },
    Damage {
        name: "empty TLB entry with an AP",
        clause: EMPTY_ENTRY,
        make: |m, rng| {
            let at = rng.below(4) as usize;
            on(empty_entry(m, rng), |e| e.ap[at] = 1)
        },
    },
    Damage {
        name: "empty TLB entry with C",
        clause: EMPTY_ENTRY,
        make: |m, rng| on(empty_entry(m, rng), |e| e.c = 1),
    },
    Damage {
        name: "empty TLB entry with B",
        clause: EMPTY_ENTRY,
        make: |m, rng| on(empty_entry(m, rng), |e| e.b = 1),
    },
    Damage {
        name: "empty line with a tag",
        clause: EMPTY_LINE,
        make: |m, rng| on(line(m, rng, 0), |line| line.tag = 1),
    },
    Damage {
        name: "empty line with a frame",
        clause: EMPTY_LINE,
        make: |m, rng| on(line(m, rng, 0), |line| line.frame = 1),
    },
    Damage {
        name: "empty line with a dirty bit",
        clause: EMPTY_LINE,
        make: |m, rng| {
            let half = rng.below(2) as usize;
            on(line(m, rng, 0), |line| line.dirty[half] = 1)
        },
    },
    Damage {
        name: "free slot with a block",
        clause: EMPTY_SLOT,
        make: |m, rng| on(free_slot(m, rng), |slot| slot.block = 1),
    },
    Damage {
        name: "free slot with a mask",
        clause: EMPTY_SLOT,
        make: |m, rng| on(free_slot(m, rng), |slot| slot.mask = 1),
    },
    Damage {
        name: "free slot with a byte",
        clause: EMPTY_SLOT,
        make: |m, rng| {
            let at = rng.below(16) as usize;
            on(free_slot(m, rng), |slot| slot.bytes[at] = 1)
        },
    },
    Damage {
        name: "virtual base of a section",
        clause: BASE,
        make: |m, rng| {
            let bit = 1 << rng.below(20);
            on(valid_entry(m, rng), |e| {
                e.size = 0;
                e.physical_base = 0;
                e.virtual_base = bit;
            })
        },
    },
    Damage {
        name: "physical base of a section",
        clause: BASE,
        make: |m, rng| {
            let bit = 1 << rng.below(20);
            on(valid_entry(m, rng), |e| {
                e.size = 0;
                e.virtual_base = 0;
                e.physical_base = bit;
            })
        },
    },
    Damage {
        name: "virtual base of a large page",
        clause: BASE,
        make: |m, rng| {
            let bit = 1 << rng.below(16);
            on(valid_entry(m, rng), |e| {
                e.size = 1;
                e.physical_base = 0;
                e.virtual_base = bit;
            })
        },
    },
    Damage {
        name: "physical base of a large page",
        clause: BASE,
        make: |m, rng| {
            let bit = 1 << rng.below(16);
            on(valid_entry(m, rng), |e| {
                e.size = 1;
                e.virtual_base = 0;
                e.physical_base = bit;
            })
        },
    },
    Damage {
        name: "virtual base of a small page",
        clause: BASE,
        make: |m, rng| {
            let bit = 1 << rng.below(12);
            on(valid_entry(m, rng), |e| {
                e.size = 2;
                e.physical_base = 0;
                e.virtual_base = bit;
            })
        },
    },
    Damage {
        name: "physical base of a small page",
        clause: BASE,
        make: |m, rng| {
            let bit = 1 << rng.below(12);
            on(valid_entry(m, rng), |e| {
                e.size = 2;
                e.virtual_base = 0;
                e.physical_base = bit;
            })
        },
    },
    Damage {
        name: "mask 0",
        clause: MASK,
        make: |m, rng| {
            on(entry(m, rng), |slot| {
                slot.mask = 0;
                slot.bytes = [0; 16];
            })
        },
    },
    Damage {
        name: "byte outside the mask",
        clause: BYTE,
        make: byte_outside,
    },
    Damage {
        name: "control bit",
        clause: REGISTER,
        make: |m, rng| {
            m.registers.plain.control |= bit_of(rng, !0x130F);
            true
        },
    },
    Damage {
        name: "table base bit",
        clause: REGISTER,
        make: |m, rng| {
            m.registers.plain.table_base |= bit_of(rng, 0x3FFF);
            true
        },
    },
    Damage {
        name: "FSR bit",
        clause: REGISTER,
        make: |m, rng| {
            m.registers.plain.fsr |= bit_of(rng, !0xFF);
            true
        },
    },
    Damage {
        name: "TLB valid",
        clause: FIELD,
        make: |m, rng| {
            let value = above(rng, 1);
            on(valid_entry(m, rng), |e| e.valid = value)
        },
    },
    Damage {
        name: "TLB size",
        clause: FIELD,
        make: |m, rng| {
            let value = above(rng, 2);
            on(valid_entry(m, rng), |e| e.size = value)
        },
    },
    Damage {
        name: "TLB domain",
        clause: FIELD,
        make: |m, rng| {
            let value = above(rng, 15);
            on(valid_entry(m, rng), |e| e.domain = value)
        },
    },
    Damage {
        name: "TLB AP",
        clause: FIELD,
        make: |m, rng| {
            let (at, value) = (rng.below(4) as usize, above(rng, 3));
            on(valid_entry(m, rng), |e| e.ap[at] = value)
        },
    },
    Damage {
        name: "TLB C",
        clause: FIELD,
        make: |m, rng| {
            let value = above(rng, 1);
            on(valid_entry(m, rng), |e| e.c = value)
        },
    },
    Damage {
        name: "TLB B",
        clause: FIELD,
        make: |m, rng| {
            let value = above(rng, 1);
            on(valid_entry(m, rng), |e| e.b = value)
        },
    },
    Damage {
        name: "line tag",
        clause: FIELD,
        make: |m, rng| {
            let bit = 1 << (23 + rng.below(9));
            on(line(m, rng, 1), |line| line.tag |= bit)
        },
    },
    Damage {
        name: "line valid",
        clause: FIELD,
        make: |m, rng| {
            let value = above(rng, 1);
            on(line(m, rng, 1), |line| line.valid = value)
        },
    },
    Damage {
        name: "line dirty",
        clause: FIELD,
        make: |m, rng| {
            let half = rng.below(2) as usize;
            m.state.counts.calls = m.state.counts.calls.max(1_000_000);
            on(line(m, rng, 1), |line| line.dirty[half] = 7)
        },
    },
    Damage {
        name: "mask of 17 bits",
        clause: FIELD,
        make: |m, rng| {
            let bit = 1 << (16 + rng.below(16));
            on(entry(m, rng), |slot| slot.mask |= bit)
        },
    },
    Damage {
        name: "control combination",
        clause: COMBINATION,
        make: |m, rng| {
            let control = m.registers.plain.control & !0xD;
            m.registers.plain.control = control | rng.pick(&[4, 5, 8, 12]);
            true
        },
    },
    Damage {
        name: "TLB misses",
        clause: COUNT,
        make: |m, rng| {
            if m.state.counts.calls == u32::MAX {
                return false;
            }
            let value = above(rng, m.state.counts.calls);
            let counts = &mut m.state.counts;
            match rng.below(3) {
                0 => counts.tlb_misses = value,
                1 => counts.hits = value,
                _ => counts.fills = value,
            }
            true
        },
    },
    Damage {
        name: "halves sent out",
        clause: HALVES,
        make: too_many_halves,
    },
    Damage {
        name: "one dirty half too many",
        clause: HALVES,
        make: |m, rng| {
            let Some(at) = line_index(m, rng, 1) else {
                return false;
            };
            m.state.cache.lines[at].dirty = [1, 1];
            let lines = m.state.cache.lines.iter();
            let dirty: u32 = lines.map(|line| line.dirty[0] + line.dirty[1]).sum();
            let counts = &mut m.state.counts;
            counts.halves = counts.calls.saturating_sub(dirty) + 1;
            counts.halves as u64 + dirty as u64 > counts.calls as u64
        },
    },
];
