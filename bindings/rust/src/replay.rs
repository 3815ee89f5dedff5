//! A trace kept as text, replayed in parts or as a whole.

use crate::{no_bad_words, Cp15, Machine, State};
use crate::{PRINTED_LINE, REPLAY_MEMORY, STORE_BYTES, TRACE_LINE};
use std::mem::{offset_of, size_of};

/// A replay of a trace kept as text: a machine, and what a text cut anywhere leaves between two parts.
#[repr(C)]
#[derive(Clone, Debug, PartialEq, Eq)]
pub struct Replay {
    pub state: State,
    pub cp15: Cp15,
    /// Lines replayed.
    pub lines: u64,
    /// Bytes of a line that has begun and not ended, at the front of `begun`; 0 to 63, no line feed
    /// among them.
    pub held: usize,
    /// Bytes printed that no slice had room for, at the front of `pending`; 0 to 64.
    pub waiting: usize,
    /// Not 0 behind a malformed line.
    pub stopped: u32,
    pub begun: [u8; TRACE_LINE],
    pub pending: [u8; 64],
    /// What the last part took of its text.
    pub taken: usize,
    /// What the last part wrote into its slice.
    pub written: usize,
}

// The layout that include/sa110.h states.
const _: () = {
    assert!(size_of::<Replay>() == 4848 && offset_of!(Replay, cp15) == 4648);
    assert!(offset_of!(Replay, lines) == 4672 && offset_of!(Replay, held) == 4680);
    assert!(offset_of!(Replay, waiting) == 4688 && offset_of!(Replay, stopped) == 4696);
    assert!(offset_of!(Replay, begun) == 4700 && offset_of!(Replay, pending) == 4764);
    assert!(offset_of!(Replay, taken) == 4832 && offset_of!(Replay, written) == 4840);
};

extern "C" {
    fn sa110_replay(
        replay: *mut Replay,
        memory: *mut u8,
        memory_length: usize,
        bad: *const u8,
        bad_length: usize,
        store: *mut u8,
        store_length: usize,
        text: *const u8,
        text_length: usize,
        ends: u32,
        out: *mut u8,
        out_length: usize,
    ) -> u32;
}

impl Replay {
    /// A replay that has not begun, on a start's state and record; or the start's refusal, 1 or 2.
    pub fn start(memory: &[u8], store: &[u8]) -> Result<Box<Replay>, u32> {
        let (Machine { state, cp15 }, refusal) = Machine::start(memory, store);
        if refusal != 0 {
            return Err(refusal);
        }
        Ok(Box::new(Replay {
            state,
            cp15,
            lines: 0,
            held: 0,
            waiting: 0,
            stopped: 0,
            begun: [0; TRACE_LINE],
            pending: [0; 64],
            taken: 0,
            written: 0,
        }))
    }

    /// Replays of a part of a text what one call replays; `taken` and `written` tell how much. It is called
    /// until all of the part is taken and nothing was written into a slice that is not empty. The text ends
    /// with the part where `ends` says so. A map that does not fit has every line refused by 16. Gives 0, or 3
    /// where the fields behind the record are not ones that a call leaves; then nothing has changed but that
    /// `taken` and `written` are 0.
    #[inline]
    pub fn part(
        &mut self,
        memory: &mut [u8],
        bad: &[u8],
        store: &mut [u8],
        text: &[u8],
        ends: bool,
        out: &mut [u8],
    ) -> u32 {
        unsafe {
            sa110_replay(
                self,
                memory.as_mut_ptr(),
                memory.len(),
                bad.as_ptr(),
                bad.len(),
                store.as_mut_ptr(),
                store.len(),
                text.as_ptr(),
                text.len(),
                ends.into(),
                out.as_mut_ptr(),
                out.len(),
            )
        }
    }
}

/// Replays a whole text on 65,536 zero bytes without bad words; gives what is printed.
pub fn replay(text: &[u8]) -> Vec<u8> {
    let (mut memory, mut store) = (vec![0; REPLAY_MEMORY], vec![0; STORE_BYTES]);
    let bad = no_bad_words(REPLAY_MEMORY);
    let mut printed = Vec::new();
    let Ok(mut replay) = Replay::start(&memory, &store) else {
        return printed; // both lengths are served
    };
    let mut out = vec![0; 1024 * PRINTED_LINE];
    let mut rest = text;
    while replay.part(&mut memory, &bad, &mut store, rest, true, &mut out) == 0 {
        printed.extend(out.iter().take(replay.written));
        rest = rest.get(replay.taken..).unwrap_or_default();
        if rest.is_empty() && replay.written == 0 {
            break;
        }
    }
    printed
}
