//! The state as text (document 02, Four): a first line, then 32 TLB lines, 512 cache lines and 8 buffer
//! lines. Fields are decimal without leading zeros, parted by commas; a line feed ends each line. The host
//! keeps memory and cache store itself.

use crate::refusals;
use crate::registers::{CONTROL_KEPT, FSR_KEPT, TABLE_BASE_KEPT};
use crate::state::{Line, Registers, Slot, State, TlbEntry};
use crate::state::{BLOCK_BYTES, BUFFER_ENTRIES, LINES, LINE_BYTES, MEMORY_LIMIT, TLB_ENTRIES};
use std::slice::Iter;

/// The refusal of a text that departs from the form.
pub const DEPARTS: u32 = 14;
/// The refusal of a slice that is too short for the text.
pub const TOO_SHORT: u32 = 15;

/// The length of the longest text of a sound state: 159 + 32 × 41 + 512 × 21 + 8 × 78 bytes.
pub const TEXT_MAX: usize = 12_847;

/// A kind of line: its fields in the text's order, each with the greatest number that a sound state has
/// there.
macro_rules! line {
    ($kind:ident($($lent:ident: $type:ty),+) { $($field:expr => $greatest:expr,)+ }) => {
        mod $kind {
            use super::*;

            pub const GREATEST: &[u32] = &[$($greatest),+];

            pub fn fields($($lent: &$type),+) -> [u32; GREATEST.len()] {
                [$($field),+]
            }

            pub fn set($($lent: &mut $type,)+ fields: [u32; GREATEST.len()]) {
                [$($field),+] = fields;
            }
        }
    };
}

line!(first(state: State, registers: Registers) {
    registers.plain.control => CONTROL_KEPT,
    registers.plain.table_base => TABLE_BASE_KEPT,
    registers.plain.domain => u32::MAX,
    registers.plain.fsr => FSR_KEPT,
    registers.plain.far => u32::MAX,
    state.memory_length => MEMORY_LIMIT as u32,
    registers.tlb_pointer => 31,
    state.cache.pointers[0] => 31,
    state.cache.pointers[1] => 31,
    state.cache.pointers[2] => 31,
    state.cache.pointers[3] => 31,
    state.cache.pointers[4] => 31,
    state.cache.pointers[5] => 31,
    state.cache.pointers[6] => 31,
    state.cache.pointers[7] => 31,
    state.cache.pointers[8] => 31,
    state.cache.pointers[9] => 31,
    state.cache.pointers[10] => 31,
    state.cache.pointers[11] => 31,
    state.cache.pointers[12] => 31,
    state.cache.pointers[13] => 31,
    state.cache.pointers[14] => 31,
    state.cache.pointers[15] => 31,
    state.buffer.entries => BUFFER_ENTRIES as u32,
    state.counts.calls => u32::MAX,
    state.counts.tlb_misses => u32::MAX,
    state.counts.hits => u32::MAX,
    state.counts.fills => u32::MAX,
    state.counts.halves => u32::MAX,
});

line!(tlb(entry: TlbEntry) {
    entry.valid => 1,
    entry.size => 2,
    entry.virtual_base => 0xFFFF_F000,
    entry.physical_base => 0xFFFF_F000,
    entry.domain => 15,
    entry.ap[0] => 3,
    entry.ap[1] => 3,
    entry.ap[2] => 3,
    entry.ap[3] => 3,
    entry.c => 1,
    entry.b => 1,
});

line!(cache(line: Line) {
    line.tag => 0x7F_FFFF,
    line.frame => (MEMORY_LIMIT / LINE_BYTES) as u32 - 1,
    line.valid => 1,
    line.dirty[0] => 1,
    line.dirty[1] => 1,
});

// The entry's bytes stand apart, since a text may have any numbers there.
line!(buffer(bytes: [u32; BLOCK_BYTES], slot: Slot) {
    bytes[0] => 255,
    bytes[1] => 255,
    bytes[2] => 255,
    bytes[3] => 255,
    bytes[4] => 255,
    bytes[5] => 255,
    bytes[6] => 255,
    bytes[7] => 255,
    bytes[8] => 255,
    bytes[9] => 255,
    bytes[10] => 255,
    bytes[11] => 255,
    bytes[12] => 255,
    bytes[13] => 255,
    bytes[14] => 255,
    bytes[15] => 255,
    slot.mask => 0xFFFF,
    slot.block => (MEMORY_LIMIT / BLOCK_BYTES) as u32 - 1,
});

/// The lines of one kind.
pub struct Lines {
    pub kind: &'static str,
    /// How many there are.
    pub lines: usize,
    /// The greatest number that a sound state has in each field.
    pub greatest: &'static [u32],
}

/// The lines of a text.
pub const FORM: [Lines; 4] = [
    Lines {
        kind: "first",
        lines: 1,
        greatest: first::GREATEST,
    },
    Lines {
        kind: "TLB",
        lines: TLB_ENTRIES,
        greatest: tlb::GREATEST,
    },
    Lines {
        kind: "cache",
        lines: LINES,
        greatest: cache::GREATEST,
    },
    Lines {
        kind: "buffer",
        lines: BUFFER_ENTRIES,
        greatest: buffer::GREATEST,
    },
];

/// Stores the state as text at the front of the lent slice; gives the text's length, or refusal 1, 3, 4
/// or 15.
pub fn store(
    state: &State,
    registers: &Registers,
    memory: &[u8],
    text: &mut [u8],
) -> Result<usize, u32> {
    let refused = refusals::of_memory(memory.len())
        .or_else(|| refusals::of_state(state, registers, memory.len()));
    if let Some(number) = refused {
        return Err(number);
    }
    let stored = text_of(state, registers);
    let front = text.get_mut(..stored.len()).ok_or(TOO_SHORT)?;
    front.copy_from_slice(&stored);
    Ok(stored.len())
}

/// The text of any state, sound or not.
pub fn text_of(state: &State, registers: &Registers) -> Vec<u8> {
    let mut text = Vec::with_capacity(TEXT_MAX);
    put(&mut text, first::fields(state, registers));
    for entry in &state.tlb {
        put(&mut text, tlb::fields(entry));
    }
    for line in &state.cache.lines {
        put(&mut text, cache::fields(line));
    }
    for slot in &state.buffer.slots {
        put(&mut text, buffer::fields(&slot.bytes.map(u32::from), slot));
    }
    text
}

/// Writes a line.
fn put<const FIELDS: usize>(text: &mut Vec<u8>, fields: [u32; FIELDS]) {
    for (i, field) in fields.into_iter().enumerate() {
        let end = if i + 1 == FIELDS { b'\n' } else { b',' };
        put_number(text, field, end);
    }
}

/// Writes a number and the byte behind it.
fn put_number(text: &mut Vec<u8>, number: u32, end: u8) {
    if number < 10 {
        text.extend_from_slice(&[b'0' + number as u8, end]);
        return;
    }
    let mut digits = [end; 11];
    let mut first = digits.len() - 1;
    let mut rest = number;
    while rest > 0 {
        first -= 1;
        digits[first] = b'0' + (rest % 10) as u8;
        rest /= 10;
    }
    text.extend_from_slice(&digits[first..]);
}

/// What a text reads as: the refusal if there is one, and the state and record (all zeros if refused).
pub struct Read {
    pub refused: Option<u32>,
    pub state: State,
    pub registers: Registers,
}

/// Reads a text back, for the memory that the run goes on with. Meets refusals 1, 14, 3 and 4.
pub fn read(text: &[u8], memory: &[u8]) -> Read {
    match accepted(text, memory.len()) {
        Ok((state, registers)) => Read {
            refused: None,
            state,
            registers,
        },
        Err(number) => Read {
            refused: Some(number),
            state: State::ZERO,
            registers: Registers::default(),
        },
    }
}

fn accepted(text: &[u8], memory: usize) -> Result<(State, Registers), u32> {
    if let Some(number) = refusals::of_memory(memory) {
        return Err(number);
    }
    let parsed = parse(text).ok_or(DEPARTS)?;
    // a number that a byte cannot hold is no sound state's
    if !parsed.fits {
        return Err(3);
    }
    match refusals::of_state(&parsed.state, &parsed.registers, memory) {
        Some(number) => Err(number),
        None => Ok((parsed.state, parsed.registers)),
    }
}

/// The numbers of a text in their places, sound or not.
struct Parsed {
    state: State,
    registers: Registers,
    /// The numbers of the buffer's bytes are bytes.
    fits: bool,
}

/// The numbers of a text; none if it departs from the form.
fn parse(text: &[u8]) -> Option<Parsed> {
    let mut state = State::ZERO;
    let mut registers = Registers::default();
    let mut fits = true;
    let mut rest = text.iter();
    first::set(&mut state, &mut registers, line(&mut rest)?);
    for entry in &mut state.tlb {
        tlb::set(entry, line(&mut rest)?);
    }
    for place in &mut state.cache.lines {
        cache::set(place, line(&mut rest)?);
    }
    for slot in &mut state.buffer.slots {
        let mut bytes = [0; BLOCK_BYTES];
        buffer::set(&mut bytes, slot, line(&mut rest)?);
        fits &= bytes.iter().all(|byte| *byte <= 255);
        slot.bytes = bytes.map(|byte| byte as u8);
    }
    rest.next().is_none().then_some(Parsed {
        state,
        registers,
        fits,
    })
}

/// The numbers of the next line, if it has so many fields.
fn line<const FIELDS: usize>(text: &mut Iter<u8>) -> Option<[u32; FIELDS]> {
    let mut fields = [0; FIELDS];
    let (last, others) = fields.split_last_mut()?;
    for field in others {
        *field = number(text, b',')?;
    }
    *last = number(text, b'\n')?;
    Some(fields)
}

/// The next number, with this byte behind it: digits, at least one, without leading zeros, below 2^32.
fn number(text: &mut Iter<u8>, end: u8) -> Option<u32> {
    let mut number = digit(*text.next()?)?;
    loop {
        let byte = *text.next()?;
        if byte == end {
            return Some(number);
        }
        let leading_zero = number == 0;
        if leading_zero {
            return None;
        }
        number = number.checked_mul(10)?.checked_add(digit(byte)?)?;
    }
}

fn digit(byte: u8) -> Option<u32> {
    byte.is_ascii_digit().then(|| u32::from(byte - b'0'))
}
