//! Refusals 1 to 12 and 16 in checking order: 16 comes behind 4. 14 and 15 are met by texts alone: see `text`.

use crate::bus;
use crate::calls::Call;
use crate::registers::{control_listed, operation, BIG_ENDIAN};
use crate::soundness;
use crate::state::{Registers, State, MEMORY_LIMIT, STORE_BYTES};

/// The refusal of a map of bad words that does not fit.
pub const BAD_MAP: u32 = 16;

/// Refusal 1: the length of the lent memory.
pub fn of_memory(memory: usize) -> Option<u32> {
    (!memory.is_multiple_of(32) || memory > MEMORY_LIMIT).then_some(1)
}

/// Refusals 1 and 2: the lengths of the lent memory and store.
pub fn of_lengths(memory: usize, store: usize) -> Option<u32> {
    of_memory(memory).or_else(|| (store != STORE_BYTES).then_some(2))
}

/// Refusals 1 to 4 and 16: the lent things.
pub fn of_lent(
    state: &State,
    registers: &Registers,
    memory: usize,
    bad: &[u8],
    store: usize,
) -> Option<u32> {
    of_lengths(memory, store)
        .or_else(|| of_state(state, registers, memory))
        .or_else(|| of_map(memory, bad))
}

/// Refusal 16: the lent map of bad words, for a memory of so many bytes.
pub fn of_map(memory: usize, bad: &[u8]) -> Option<u32> {
    (!bus::map_fits(memory, bad)).then_some(BAD_MAP)
}

/// Refusals 3 and 4, where 1 does not hold. 3 goes by the memory lent in this call.
pub fn of_state(state: &State, registers: &Registers, memory: usize) -> Option<u32> {
    if !soundness::is_sound(state, registers, memory as u32) {
        return Some(3);
    }
    if state.memory_length as usize != memory {
        return Some(4);
    }
    None
}

/// Refusals 5 to 12: the count of calls and the call's arguments.
#[inline]
pub fn of_call(calls: u32, call: &Call) -> Option<u32> {
    if calls == u32::MAX {
        return Some(5);
    }
    match *call {
        Call::Load { width, .. } | Call::SignedLoad { width, .. } => of_width(width),
        // a swap is of a byte or a word
        Call::Swap { width: 2, .. } => Some(6),
        Call::Store { width, value, .. } | Call::Swap { width, value, .. } => {
            of_width(width).or_else(|| of_value(width, value))
        }
        Call::Read {
            privileged,
            register,
        } => of_read(privileged, register),
        Call::Write {
            privileged,
            register,
            opcode2,
            crm,
            value,
        } => of_write(privileged, register, opcode2, crm, value),
    }
}

fn of_width(width: u32) -> Option<u32> {
    (!matches!(width, 1 | 2 | 4)).then_some(6)
}

fn of_value(width: u32, value: u32) -> Option<u32> {
    (width < 4 && value >> (8 * width) != 0).then_some(7)
}

fn of_read(privileged: bool, register: u32) -> Option<u32> {
    if !privileged {
        return Some(8);
    }
    (register > 6).then_some(9)
}

fn of_write(privileged: bool, register: u32, opcode2: u32, crm: u32, value: u32) -> Option<u32> {
    if !privileged {
        return Some(8);
    }
    match register {
        1 if value & BIG_ENDIAN != 0 => Some(11),
        1 if !control_listed(value) => Some(12),
        1..=6 => None,
        7 | 8 if operation(register, opcode2, crm, value).is_none() => Some(10),
        7 | 8 => None,
        _ => Some(9),
    }
}
