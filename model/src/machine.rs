//! The library machine with the memory, map of bad words and store it is lent, owned together for runs.

use crate::answers::Answer;
use crate::bus::{no_bad_words, Board};
use crate::calls::Call;
use crate::coverage::{Unwatched, Watch};
use crate::library::{self, Lent, RunError};
use crate::soundness;
use crate::state::{Registers, State, STORE_BYTES};

#[derive(Clone, Debug, PartialEq, Eq)]
pub struct Machine {
    pub state: Box<State>,
    pub registers: Registers,
    pub memory: Vec<u8>,
    /// The map of bad words, which nothing changes.
    pub bad: Vec<u8>,
    pub store: Vec<u8>,
}

impl Machine {
    /// A machine after a served start on this memory and store, with this map, which a start does not test;
    /// the refusal otherwise.
    pub fn start(memory: Vec<u8>, bad: Vec<u8>, store: Vec<u8>) -> Result<Machine, u32> {
        let started = library::start(&memory, &store);
        match started.refused {
            Some(number) => Err(number),
            None => Ok(Machine {
                state: Box::new(started.state),
                registers: started.registers,
                memory,
                bad,
                store,
            }),
        }
    }

    /// A machine after a served start on this memory without bad words and a store of zeros.
    pub fn fresh(memory: Vec<u8>) -> Machine {
        let bad = no_bad_words(memory.len());
        Machine::start(memory, bad, vec![0; STORE_BYTES]).expect("a served start")
    }

    /// One call, with refusals 1 to 12 and 16 tested.
    pub fn call(&mut self, call: &Call) -> Answer {
        self.call_watched(call, &mut Unwatched)
    }

    pub fn call_watched<T: Watch>(&mut self, call: &Call, watch: &mut T) -> Answer {
        library::call_watched(
            &mut self.state,
            &mut self.registers,
            &mut self.memory,
            &self.bad,
            &mut self.store,
            call,
            watch,
        )
    }

    /// One call without refusals 1 to 4 and 16, for a machine that they do not meet.
    pub fn step<T: Watch>(&mut self, call: &Call, watch: &mut T) -> Answer {
        let mut lent = Lent {
            state: &mut self.state,
            registers: &mut self.registers,
            board: Board {
                memory: &mut self.memory,
                bad: &self.bad,
            },
            store: (&mut self.store[..])
                .try_into()
                .expect("a store of 16,384 bytes"),
        };
        library::step(&mut lent, call, watch)
    }

    /// A run over five numbers a call.
    pub fn run(&mut self, calls: &[u32], answers: &mut [u64]) -> Result<(), RunError> {
        library::run(
            &mut self.state,
            &mut self.registers,
            &mut self.memory,
            &self.bad,
            &mut self.store,
            calls,
            answers,
        )
    }

    pub fn look(&self, address: u32) -> &[u8] {
        library::look(
            &self.state,
            &self.registers,
            &self.memory,
            &self.bad,
            &self.store,
            address,
        )
    }

    pub fn is_sound(&self) -> bool {
        soundness::is_sound(&self.state, &self.registers, self.memory.len() as u32)
    }
}
