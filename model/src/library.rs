//! The library machine's entry points: start, call, run, look.

use crate::access::{self, Place};
use crate::answers::Answer;
use crate::bus::{Board, Bus, Word};
use crate::cache::Cached;
use crate::calls::{Access, Call, FIELDS};
use crate::coverage::{Unwatched, Watch};
use crate::cp15;
use crate::refusals;
use crate::registers::{operation, M};
use crate::state::{Registers, State, LINE_BYTES, STORE_BYTES};
use crate::walk::walk;
use crate::words;

/// What a step works on: everything is lent and, but for the map of bad words, changed in place.
pub struct Lent<'a> {
    pub state: &'a mut State,
    pub registers: &'a mut Registers,
    pub board: Board<'a>,
    pub store: &'a mut [u8; STORE_BYTES],
}

impl<'a> Lent<'a> {
    /// What the bus makes of the word of a physical address.
    #[inline]
    pub fn word(&self, physical: u32) -> Word {
        self.board.bus().word(physical)
    }

    /// What an access reads in memory at a place inside.
    #[inline]
    pub fn read_memory(&self, place: &Place, access: &Access) -> u32 {
        words::read(self.board.memory, place.physical as usize, access.width)
    }

    /// Writes what an access stores in memory at a place inside.
    #[inline]
    pub fn write_memory(&mut self, place: &Place, access: &Access, value: u32) {
        let at = place.physical as usize;
        words::write(self.board.memory, at, access.width, value);
    }

    /// The parts that the cache's lines need.
    #[inline]
    pub fn cached(&mut self) -> Cached<'_, 'a> {
        Cached {
            cache: &mut self.state.cache,
            buffer: &mut self.state.buffer,
            counts: &mut self.state.counts,
            board: &mut self.board,
            store: self.store,
        }
    }
}

/// A start: the refusal if there is one, and the fresh state and record (all zeros if refused).
pub struct Started {
    pub refused: Option<u32>,
    pub state: State,
    pub registers: Registers,
}

/// Makes a fresh state. Writes to no lent bytes; meets refusals 1 and 2.
pub fn start(memory: &[u8], store: &[u8]) -> Started {
    let refused = refusals::of_lengths(memory.len(), store.len());
    let mut state = State::ZERO;
    if refused.is_none() {
        state.memory_length = memory.len() as u32;
    }
    Started {
        refused,
        state,
        registers: Registers::default(),
    }
}

/// One call, with refusals 1 to 12 and 16 tested.
pub fn call(
    state: &mut State,
    registers: &mut Registers,
    memory: &mut [u8],
    bad: &[u8],
    store: &mut [u8],
    call: &Call,
) -> Answer {
    call_watched(state, registers, memory, bad, store, call, &mut Unwatched)
}

/// As `call`, with its events noted.
pub fn call_watched<T: Watch>(
    state: &mut State,
    registers: &mut Registers,
    memory: &mut [u8],
    bad: &[u8],
    store: &mut [u8],
    call: &Call,
    watch: &mut T,
) -> Answer {
    if let Some(number) = refusals::of_lent(state, registers, memory.len(), bad, store.len()) {
        return Answer::Refused(number);
    }
    let mut lent = Lent {
        state,
        registers,
        board: Board { memory, bad },
        store: store.try_into().expect("refusal 2 was tested"),
    };
    step(&mut lent, call, watch)
}

/// One call on lent things that refusals 1 to 4 and 16 do not meet. Keeps that true.
#[inline]
pub fn step<T: Watch>(lent: &mut Lent, call: &Call, watch: &mut T) -> Answer {
    if let Some(number) = refusals::of_call(lent.state.counts.calls, call) {
        return Answer::Refused(number);
    }
    match *call {
        Call::Read { register, .. } => cp15::read(lent, register, watch),
        Call::Write {
            register,
            opcode2,
            crm,
            value,
            ..
        } => match operation(register, opcode2, crm, value) {
            Some(operation) => cp15::operate(lent, operation, watch),
            None => cp15::write(lent, register, value, watch),
        },
        _ => access::serve(lent, &call.access().expect("an access"), watch),
    }
}

/// Why a run stopped or did not begin.
#[derive(Clone, Copy, Debug, PartialEq, Eq)]
pub enum RunError {
    /// The list of calls is not in fives, or the answers are not one a call. Nothing was done.
    Lengths,
    /// The call at this place, from 0, has a kind above 5 or privileged above 1.
    /// The calls before it were served and answered; nothing was done after them.
    NotACall(usize),
}

/// The calls of a list in a row, five numbers each; answers as `Answer::as_number`.
/// Refusals 1 to 4 and 16 are tested once: if one is met, every call is refused with it.
pub fn run(
    state: &mut State,
    registers: &mut Registers,
    memory: &mut [u8],
    bad: &[u8],
    store: &mut [u8],
    calls: &[u32],
    answers: &mut [u64],
) -> Result<(), RunError> {
    if calls.len() != answers.len() * FIELDS {
        return Err(RunError::Lengths);
    }
    let refused = refusals::of_lent(state, registers, memory.len(), bad, store.len());
    if let Some(number) = refused {
        return refuse_all(number, calls, answers);
    }
    let mut lent = Lent {
        state,
        registers,
        board: Board { memory, bad },
        store: store.try_into().expect("refusal 2 was tested"),
    };
    for (i, numbers) in calls.chunks_exact(FIELDS).enumerate() {
        let numbers = numbers.try_into().expect("five numbers");
        let call = Call::from_numbers(numbers).ok_or(RunError::NotACall(i))?;
        answers[i] = step(&mut lent, &call, &mut Unwatched).as_number();
    }
    Ok(())
}

fn refuse_all(number: u32, calls: &[u32], answers: &mut [u64]) -> Result<(), RunError> {
    for (i, numbers) in calls.chunks_exact(FIELDS).enumerate() {
        let numbers = numbers.try_into().expect("five numbers");
        Call::from_numbers(numbers).ok_or(RunError::NotACall(i))?;
        answers[i] = Answer::Refused(number).as_number();
    }
    Ok(())
}

/// The 32 bytes of a virtual address's line, out of the cache store if held there, otherwise out of
/// memory by a walk past the TLB. Empty under refusals 1 to 4 and 16 and under a walk or bounds fault. The
/// walk alone heeds the map: bad words of the line are shown as memory has them.
pub fn look<'a>(
    state: &State,
    registers: &Registers,
    memory: &'a [u8],
    bad: &[u8],
    store: &'a [u8],
    address: u32,
) -> &'a [u8] {
    if refusals::of_lent(state, registers, memory.len(), bad, store.len()).is_some() {
        return &[];
    }
    if let Some(index) = state.cache.find(address) {
        return &store[index * LINE_BYTES..][..LINE_BYTES];
    }
    match look_through(registers, Bus { memory, bad }, address) {
        Some(physical) if (physical as usize) < memory.len() => {
            let line = physical as usize / LINE_BYTES;
            &memory[line * LINE_BYTES..][..LINE_BYTES]
        }
        _ => &[],
    }
}

/// The physical address that a look goes to: flat with M clear, else by a walk.
fn look_through(registers: &Registers, bus: Bus, address: u32) -> Option<u32> {
    if !registers.plain.has(M) {
        return Some(address);
    }
    walk(bus, registers.plain.table_base, address)
        .found
        .ok()
        .map(|entry| entry.physical(address))
}
