//! A state and its record as text, to stop a run and carry on. The caller keeps memory and cache store.

use crate::{Answer, Cp15, Machine, State};

extern "C" {
    fn sa110_store_text(
        state: *const State,
        cp15: *const Cp15,
        memory: *const u8,
        memory_length: usize,
        text: *mut u8,
        text_length: usize,
    ) -> u64;
    fn sa110_read_text(
        state: *mut State,
        cp15: *mut Cp15,
        memory: *const u8,
        memory_length: usize,
        text: *const u8,
        text_length: usize,
    ) -> u32;
}

impl Machine {
    /// Stores state and record as text at the front of the slice, for which `TEXT_MAX` bytes always suffice.
    /// Gives the text's length; the bytes behind it stay. Or gives refusal 1, 3, 4 or 15, and then nothing
    /// has changed.
    #[inline]
    pub fn store_text(&self, memory: &[u8], text: &mut [u8]) -> Result<usize, u32> {
        let code = unsafe {
            sa110_store_text(
                &self.state,
                &self.cp15,
                memory.as_ptr(),
                memory.len(),
                text.as_mut_ptr(),
                text.len(),
            )
        };
        match Answer::of(code) {
            Answer::Value(length) => Ok(length as usize),
            _ => Err(code as u32),
        }
    }

    /// Reads a text that `store_text` stored into this state and record, whatever they are, for the memory
    /// that the run goes on with. Or gives refusal 1, 14, 3 or 4, and then both are all zeros.
    #[inline]
    pub fn read_text(&mut self, memory: &[u8], text: &[u8]) -> Result<(), u32> {
        let refusal = unsafe {
            sa110_read_text(
                &mut self.state,
                &mut self.cp15,
                memory.as_ptr(),
                memory.len(),
                text.as_ptr(),
                text.len(),
            )
        };
        match refusal {
            0 => Ok(()),
            number => Err(number),
        }
    }
}
