//! Random sound states, made field by field, and calls that meet what they hold.

use super::proposals::{control_value, domain_value, Proposer};
use super::rng::Rng;
use super::world::{world, World};
use crate::cache;
use crate::calls::Call;
use crate::machine::Machine;
use crate::registers::{CONTROL_KEPT, TABLE_BASE_KEPT};
use crate::state::{
    Counts, Line, Registers, Slot, State, TlbEntry, BUFFER_ENTRIES, LINES, SETS, WAYS,
};
use crate::tlb::SIZE_MASKS;

/// A sound machine, and the world that it was made in.
pub struct Sound {
    pub machine: Machine,
    pub world: World,
}

/// A machine in a random sound state, on a random world's memory.
pub fn sound(rng: &mut Rng) -> Sound {
    let world = world(rng);
    sound_in(rng, world)
}

/// A machine in a random sound state, on this world's memory.
pub fn sound_in(rng: &mut Rng, mut world: World) -> Sound {
    let length = world.memory.len() as u32;
    let mut state = Box::new(State::ZERO);
    state.memory_length = length;
    fill_tlb(rng, &mut state, &world);
    fill_cache(rng, &mut state, &world, length / 32);
    fill_buffer(rng, &mut state, length / 16);
    state.counts = counts(rng, &state);
    for (i, line) in state.cache.lines.iter().enumerate() {
        if line.valid == 1 && rng.percent(20) {
            world.lines.push(cache::address_of(i, line.tag));
        }
    }
    let machine = Machine {
        state,
        registers: registers(rng, &world),
        memory: world.memory.clone(),
        bad: world.bad.clone(),
        store: world.store.clone(),
    };
    Sound { machine, world }
}

fn registers(rng: &mut Rng, world: &World) -> Registers {
    let mut registers = Registers {
        tlb_pointer: rng.below(32),
        ..Registers::default()
    };
    registers.plain.control = control_value(rng) & CONTROL_KEPT;
    registers.plain.table_base = if rng.percent(85) {
        rng.pick(&world.bases)
    } else {
        rng.word() & TABLE_BASE_KEPT
    };
    registers.plain.domain = domain_value(rng);
    registers.plain.fsr = rng.below(256);
    registers.plain.far = rng.word();
    registers
}

/// Entries over the world's addresses; several may cover one address.
fn fill_tlb(rng: &mut Rng, state: &mut State, world: &World) {
    let density = rng.pick(&[0, 10, 50, 100]);
    for entry in state.tlb.iter_mut() {
        if !rng.percent(density) {
            continue;
        }
        let size = rng.below(3);
        let mask = SIZE_MASKS[size as usize];
        let near = rng.below(world.memory.len() as u32 + 1);
        let physical = if rng.percent(85) { near } else { rng.word() };
        let ap = rng.below(4);
        *entry = TlbEntry {
            valid: 1,
            size,
            virtual_base: rng.pick(&world.lines) & mask,
            physical_base: physical & mask,
            domain: rng.pick(&[0, 0, 0, 1, 15]),
            ap: if rng.percent(50) {
                [3; 4]
            } else {
                [ap, rng.below(4), rng.below(4), rng.below(4)]
            },
            c: rng.below(2),
            b: rng.below(2),
        };
    }
}

/// Lines with distinct tags in each set.
fn fill_cache(rng: &mut Rng, state: &mut State, world: &World, frames: u32) {
    let density = rng.pick(&[0, 5, 50, 100]);
    let dirty = rng.pick(&[0, 10, 60]);
    for i in 0..SETS {
        state.cache.pointers[i] = rng.below(32);
    }
    if frames == 0 {
        return;
    }
    for i in 0..LINES {
        if !rng.percent(density) {
            continue;
        }
        let tag = match rng.below(3) {
            0 => cache::tag_of(rng.pick(&world.lines)),
            1 => rng.below(1 << 23),
            _ => rng.below(256),
        };
        let set = &state.cache.lines[i / WAYS * WAYS..i];
        if set.iter().any(|line| line.valid == 1 && line.tag == tag) {
            continue;
        }
        state.cache.lines[i] = Line {
            tag,
            frame: rng.below(frames),
            valid: 1,
            dirty: [rng.percent(dirty) as u32, rng.percent(dirty) as u32],
        };
    }
}

/// Entries inside memory; several may have one block.
fn fill_buffer(rng: &mut Rng, state: &mut State, blocks: u32) {
    if blocks == 0 {
        return;
    }
    let entries = rng.pick(&[0, 1, 4, 7, 8, 8]);
    let near = rng.below(blocks);
    state.buffer.entries = entries;
    for slot in state.buffer.slots[..entries as usize].iter_mut() {
        let block = if rng.percent(50) {
            near
        } else {
            rng.below(blocks)
        };
        let mask = match rng.below(3) {
            0 => 0xFFFF,
            1 => 1 << rng.below(16),
            _ => 1 + rng.below(0xFFFF),
        };
        *slot = Slot {
            block,
            mask,
            bytes: masked_bytes(rng, mask),
        };
    }
    assert!(entries as usize <= BUFFER_ENTRIES);
}

fn masked_bytes(rng: &mut Rng, mask: u32) -> [u8; 16] {
    let mut bytes = [0; 16];
    for (i, byte) in bytes.iter_mut().enumerate() {
        if mask >> i & 1 == 1 {
            *byte = rng.word() as u8;
        }
    }
    bytes
}

/// Counts that keep the clauses, now and then as tightly as can be.
fn counts(rng: &mut Rng, state: &State) -> Counts {
    let dirty: u32 = state
        .cache
        .lines
        .iter()
        .map(|l| l.dirty[0] + l.dirty[1])
        .sum();
    let halves = rng.pick(&[0, 7, 1000]);
    let least = halves + dirty;
    let calls = match rng.below(20) {
        0 => u32::MAX,
        1 => u32::MAX - 1,
        2..=9 => least,
        _ => least + rng.below(100_000),
    };
    let upto = |rng: &mut Rng| match (rng.percent(50), calls) {
        (true, _) => calls,
        (false, u32::MAX) => rng.word(),
        (false, calls) => rng.below(calls + 1),
    };
    Counts {
        calls,
        tlb_misses: upto(rng),
        hits: upto(rng),
        fills: upto(rng),
        halves,
    }
}

/// Random calls in the sound state's world.
pub fn calls(rng: &mut Rng, world: &World, length: usize) -> Vec<Call> {
    let mut proposer = Proposer::new(rng, world);
    (0..length).map(|_| proposer.next(rng)).collect()
}
