//! The SA-110 data side for Rust: safe functions over the static library. include/sa110.h says what
//! each function does; document 01, and document 02 for replays, swaps, states as text, bad words and the rights
//! table worked out, is the authority on every meaning. Every error is an answer, and nothing panics.
//!
//! Memory is lent with a map of bad words, `bad`: one byte a word, 1 for a word that aborts on the bus, else 0.
//! Its length is a quarter of memory's, and it is the same through a run. `no_bad_words` makes one of zeros.

mod constants;
mod replay;
mod text;

pub use constants::*;
pub use replay::{replay, Replay};
use std::mem::{offset_of, size_of};

/// What a call answers.
#[derive(Clone, Copy, Debug, PartialEq, Eq)]
pub enum Answer {
    /// The value loaded or read, a signed one as its 32 bits; the old value of a swap; 0 for a store and a
    /// CP15 write.
    Value(u32),
    /// The fault's address is the call's.
    Fault { status: u32, domain: u32 },
    /// The refusal's number, 1 to 12 or 16; nothing has changed.
    Refused(u32),
    /// The numbers are no call; nothing has changed.
    NoCall,
}

impl Answer {
    /// The answer of a code, kind × 2^32 + value.
    pub fn of(code: u64) -> Answer {
        let value = code as u32;
        match code >> 32 {
            0 => Answer::Value(value),
            1 => Answer::Fault {
                status: value % 16,
                domain: value / 16 % 16,
            },
            2 => Answer::Refused(value),
            _ => Answer::NoCall,
        }
    }
}

/// Where a look finds the 32 bytes of a virtual address's line, by the offset of the first.
#[derive(Clone, Copy, Debug, PartialEq, Eq)]
pub enum Look {
    OfStore(usize),
    OfMemory(usize),
    /// Refusals 1 to 4 or 16, a walk fault, or a line outside memory.
    Nowhere,
}

impl Look {
    fn of(code: u64) -> Look {
        let offset = code as u32 as usize;
        match code >> 32 {
            1 => Look::OfStore(offset),
            2 => Look::OfMemory(offset),
            _ => Look::Nowhere,
        }
    }

    /// The 32 bytes, or none.
    pub fn bytes<'a>(&self, memory: &'a [u8], store: &'a [u8]) -> &'a [u8] {
        match *self {
            Look::OfStore(at) => store.get(at..at.saturating_add(LINE_BYTES)).unwrap_or(&[]),
            Look::OfMemory(at) => memory.get(at..at.saturating_add(LINE_BYTES)).unwrap_or(&[]),
            Look::Nowhere => &[],
        }
    }
}

/// The small record: the plain five registers and the TLB pointer.
#[repr(C)]
#[derive(Clone, Copy, Debug, Default, PartialEq, Eq)]
pub struct Cp15 {
    pub control: u32,
    pub base: u32,
    pub domains: u32,
    pub fsr: u32,
    pub far: u32,
    pub pointer: u32,
}

/// The five counts.
#[repr(C)]
#[derive(Clone, Copy, Debug, Default, PartialEq, Eq)]
pub struct Counts {
    pub calls: u32,
    pub misses: u32,
    pub hits: u32,
    pub fills: u32,
    pub halves: u32,
}

/// A state in packed words: `size` is the memory's length at the start, `used` the number of buffer
/// entries.
#[repr(C)]
#[derive(Clone, Debug, PartialEq, Eq)]
pub struct State {
    pub size: usize,
    pub counts: Counts,
    pub used: usize,
    pub entries: [u64; TLB_ENTRIES],
    pub lines: [u64; LINES],
    pub pointers: [u32; SETS],
    pub words: [u64; BUFFER_ENTRIES],
    pub bytes: [[u8; BLOCK_BYTES]; BUFFER_ENTRIES],
}

/// A state and its record.
#[derive(Clone, Debug, PartialEq, Eq)]
pub struct Machine {
    pub state: State,
    pub cp15: Cp15,
}

/// What a run of the plain machine leaves beside memory and answers.
#[repr(C)]
#[derive(Clone, Copy, Debug, PartialEq, Eq)]
pub struct PlainRan {
    pub control: u32,
    pub base: u32,
    pub domains: u32,
    pub fsr: u32,
    pub far: u32,
    pub calls: u32,
    pub refusal: u32,
    pub made: usize,
}

// The layout that include/sa110.h states.
const _: () = {
    assert!(size_of::<Cp15>() == 24 && size_of::<Counts>() == 20);
    assert!(size_of::<State>() == 4648 && offset_of!(State, used) == 32);
    assert!(offset_of!(State, entries) == 40 && offset_of!(State, lines) == 296);
    assert!(offset_of!(State, pointers) == 4392 && offset_of!(State, words) == 4456);
    assert!(offset_of!(State, bytes) == 4520);
    assert!(size_of::<PlainRan>() == 40 && offset_of!(PlainRan, made) == 32);
};

extern "C" {
    fn sa110_start(
        state: *mut State,
        cp15: *mut Cp15,
        memory: *const u8,
        memory_length: usize,
        store: *const u8,
        store_length: usize,
    ) -> u32;
    fn sa110_call(
        state: *mut State,
        cp15: *mut Cp15,
        memory: *mut u8,
        memory_length: usize,
        bad: *const u8,
        bad_length: usize,
        store: *mut u8,
        store_length: usize,
        kind: u32,
        privileged: u32,
        n: u32,
        a: u32,
        v: u32,
    ) -> u64;
    fn sa110_run(
        state: *mut State,
        cp15: *mut Cp15,
        memory: *mut u8,
        memory_length: usize,
        bad: *const u8,
        bad_length: usize,
        store: *mut u8,
        store_length: usize,
        calls: *const u32,
        calls_length: usize,
        answers: *mut u64,
        answers_length: usize,
    ) -> usize;
    fn sa110_look(
        state: *const State,
        cp15: *const Cp15,
        memory: *const u8,
        memory_length: usize,
        bad: *const u8,
        bad_length: usize,
        store: *const u8,
        store_length: usize,
        va: u32,
    ) -> u64;
    fn sa110_sound(state: *const State, cp15: *const Cp15, n: usize) -> u32;
    fn sa110_right(index: u32) -> u8;
    fn sa110_rights_table(table: *mut [u8; RIGHTS]);
    fn sa110_walk(
        memory: *const u8,
        memory_length: usize,
        bad: *const u8,
        bad_length: usize,
        base: u32,
        va: u32,
    ) -> u64;
    fn sa110_plain_run(
        memory: *mut u8,
        memory_length: usize,
        bad: *const u8,
        bad_length: usize,
        calls: *const u32,
        calls_length: usize,
        answers: *mut u64,
        answers_length: usize,
    ) -> PlainRan;
}

impl Machine {
    /// A state and a record of zeros, which is what a refused start leaves.
    pub const ZERO: Machine = Machine {
        state: State {
            size: 0,
            counts: Counts {
                calls: 0,
                misses: 0,
                hits: 0,
                fills: 0,
                halves: 0,
            },
            used: 0,
            entries: [0; TLB_ENTRIES],
            lines: [0; LINES],
            pointers: [0; SETS],
            words: [0; BUFFER_ENTRIES],
            bytes: [[0; BLOCK_BYTES]; BUFFER_ENTRIES],
        },
        cp15: Cp15 {
            control: 0,
            base: 0,
            domains: 0,
            fsr: 0,
            far: 0,
            pointer: 0,
        },
    };

    /// A start: the fresh state and record, and refusal 1 or 2, or 0.
    pub fn start(memory: &[u8], store: &[u8]) -> (Machine, u32) {
        let mut left = Machine::ZERO;
        let refusal = unsafe {
            sa110_start(
                &mut left.state,
                &mut left.cp15,
                memory.as_ptr(),
                memory.len(),
                store.as_ptr(),
                store.len(),
            )
        };
        (left, refusal)
    }

    /// A call of five numbers; gives the answer's code, or `NO_CALL`.
    #[inline]
    pub fn call(
        &mut self,
        memory: &mut [u8],
        bad: &[u8],
        store: &mut [u8],
        numbers: &Numbers,
    ) -> u64 {
        let [kind, privileged, n, a, v] = *numbers;
        unsafe {
            sa110_call(
                &mut self.state,
                &mut self.cp15,
                memory.as_mut_ptr(),
                memory.len(),
                bad.as_ptr(),
                bad.len(),
                store.as_mut_ptr(),
                store.len(),
                kind,
                privileged,
                n,
                a,
                v,
            )
        }
    }

    /// A run over five numbers a call; gives how many calls it made. Refusals 1 to 4 and 16 are tested once, and
    /// one that is met refuses every call.
    #[inline]
    pub fn run(
        &mut self,
        memory: &mut [u8],
        bad: &[u8],
        store: &mut [u8],
        calls: &[u32],
        answers: &mut [u64],
    ) -> usize {
        unsafe {
            sa110_run(
                &mut self.state,
                &mut self.cp15,
                memory.as_mut_ptr(),
                memory.len(),
                bad.as_ptr(),
                bad.len(),
                store.as_mut_ptr(),
                store.len(),
                calls.as_ptr(),
                calls.len(),
                answers.as_mut_ptr(),
                answers.len(),
            )
        }
    }

    /// Where the line of a virtual address is to be read; no call. Its walk alone heeds the map.
    pub fn look(&self, memory: &[u8], bad: &[u8], store: &[u8], va: u32) -> Look {
        Look::of(unsafe {
            sa110_look(
                &self.state,
                &self.cp15,
                memory.as_ptr(),
                memory.len(),
                bad.as_ptr(),
                bad.len(),
                store.as_ptr(),
                store.len(),
                va,
            )
        })
    }

    /// Whether state and record are sound for a memory of n bytes, as refusal 3 tests them.
    #[inline]
    pub fn is_sound(&self, n: usize) -> bool {
        unsafe { sa110_sound(&self.state, &self.cp15, n) == 1 }
    }
}

/// The rights table's entry, or 255 behind its end.
pub fn right(index: u32) -> u8 {
    unsafe { sa110_right(index) }
}

/// All entries of the rights table, worked out from the domain values and the rows of document 001's table 2-3.
pub fn rights_table() -> [u8; RIGHTS] {
    let mut table = [0; RIGHTS];
    unsafe { sa110_rights_table(&mut table) };
    table
}

/// A map without bad words for a memory of so many bytes.
pub fn no_bad_words(memory_length: usize) -> Vec<u8> {
    vec![0; memory_length / WORD_BYTES]
}

/// A walk: the word of a TLB entry, which is odd, or twice the fault's domain × 16 + status. The map may have
/// any length; words behind its end are good.
pub fn walk(memory: &[u8], bad: &[u8], base: u32, va: u32) -> u64 {
    unsafe {
        sa110_walk(
            memory.as_ptr(),
            memory.len(),
            bad.as_ptr(),
            bad.len(),
            base,
            va,
        )
    }
}

/// A run of the plain machine over five numbers a call. With a map that does not fit every call is refused
/// by 16.
pub fn plain_run(memory: &mut [u8], bad: &[u8], calls: &[u32], answers: &mut [u64]) -> PlainRan {
    unsafe {
        sa110_plain_run(
            memory.as_mut_ptr(),
            memory.len(),
            bad.as_ptr(),
            bad.len(),
            calls.as_ptr(),
            calls.len(),
            answers.as_mut_ptr(),
            answers.len(),
        )
    }
}
