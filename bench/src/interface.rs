//! The functions of a shared object that have memory lent: with the map of bad words behind it, as
//! include/sa110.h has them, or without a map, as libraries before document 02's request Five.

use crate::replay::Part;
use sa110_compare::packed::{Cp15, State};
use sa110_compare::side_by_side::{Numbers, Setting};
use sa110_model::{Call, Machine};
use std::ffi::c_void;
use std::mem::transmute;

/// With the map: two more arguments behind memory's length.
mod with_map {
    use super::{Cp15, State};
    type Bad = *const u8;

    pub type Call = unsafe extern "C" fn(
        *mut State,
        *mut Cp15,
        *mut u8,
        usize,
        Bad,
        usize,
        *mut u8,
        usize,
        u32,
        u32,
        u32,
        u32,
        u32,
    ) -> u64;
    pub type Run = unsafe extern "C" fn(
        *mut State,
        *mut Cp15,
        *mut u8,
        usize,
        Bad,
        usize,
        *mut u8,
        usize,
        *const u32,
        usize,
        *mut u64,
        usize,
    ) -> usize;
    pub type Replay = unsafe extern "C" fn(
        *mut sa110::Replay,
        *mut u8,
        usize,
        Bad,
        usize,
        *mut u8,
        usize,
        *const u8,
        usize,
        u32,
        *mut u8,
        usize,
    ) -> u32;
}

mod without_map {
    use super::{Cp15, State};

    pub type Call = unsafe extern "C" fn(
        *mut State,
        *mut Cp15,
        *mut u8,
        usize,
        *mut u8,
        usize,
        u32,
        u32,
        u32,
        u32,
        u32,
    ) -> u64;
    pub type Run = unsafe extern "C" fn(
        *mut State,
        *mut Cp15,
        *mut u8,
        usize,
        *mut u8,
        usize,
        *const u32,
        usize,
        *mut u64,
        usize,
    ) -> usize;
    pub type Replay = unsafe extern "C" fn(
        *mut sa110::Replay,
        *mut u8,
        usize,
        *mut u8,
        usize,
        *const u8,
        usize,
        u32,
        *mut u8,
        usize,
    ) -> u32;
}

#[derive(Clone, Copy)]
pub enum Interface {
    WithMap {
        call: with_map::Call,
        run: with_map::Run,
        replay: Option<with_map::Replay>,
    },
    WithoutMap {
        call: without_map::Call,
        run: without_map::Run,
        replay: Option<without_map::Replay>,
    },
}

impl Interface {
    /// The interface that these functions of a shared object have.
    ///
    /// # Safety
    /// They are `sa110_call`, `sa110_run` and `sa110_replay` of a library, with or without a map.
    pub unsafe fn of(
        call: *mut c_void,
        run: *mut c_void,
        replay: Option<*mut c_void>,
    ) -> Interface {
        let with_map = Interface::WithMap {
            call: transmute::<*mut c_void, with_map::Call>(call),
            run: transmute::<*mut c_void, with_map::Run>(run),
            replay: replay.map(|f| transmute::<*mut c_void, with_map::Replay>(f)),
        };
        if with_map.reads_control() {
            return with_map;
        }
        Interface::WithoutMap {
            call: transmute::<*mut c_void, without_map::Call>(call),
            run: transmute::<*mut c_void, without_map::Run>(run),
            replay: replay.map(|f| transmute::<*mut c_void, without_map::Replay>(f)),
        }
    }

    /// Does a privileged read of register 1 give what a fresh machine has there? A library without a map that
    /// is called with one has its store's length for the call's privilege, and answers that it is no call.
    fn reads_control(&self) -> bool {
        let mut fresh = Setting::of(&Machine::fresh(vec![0; 32]));
        self.call(&mut fresh, &Call::read(1).to_numbers()) == 0x70
    }

    pub fn takes_map(&self) -> bool {
        matches!(self, Interface::WithMap { .. })
    }

    pub fn call(&self, s: &mut Setting, numbers: &Numbers) -> u64 {
        let [kind, privileged, n, a, v] = *numbers;
        let (state, cp15) = (&mut s.packed.state, &mut s.packed.cp15);
        let (memory, m) = (s.memory.as_mut_ptr(), s.memory.len());
        let (bad, b) = (s.bad.as_ptr(), s.bad.len());
        let (store, c) = (s.store.as_mut_ptr(), s.store.len());
        unsafe {
            match *self {
                Interface::WithMap { call, .. } => call(
                    state, cp15, memory, m, bad, b, store, c, kind, privileged, n, a, v,
                ),
                Interface::WithoutMap { call, .. } => {
                    call(state, cp15, memory, m, store, c, kind, privileged, n, a, v)
                }
            }
        }
    }

    pub fn run(&self, s: &mut Setting, calls: &[u32], answers: &mut [u64]) -> usize {
        let (state, cp15) = (&mut s.packed.state, &mut s.packed.cp15);
        let (memory, m) = (s.memory.as_mut_ptr(), s.memory.len());
        let (bad, b) = (s.bad.as_ptr(), s.bad.len());
        let (store, c) = (s.store.as_mut_ptr(), s.store.len());
        let (list, l) = (calls.as_ptr(), calls.len());
        let (out, o) = (answers.as_mut_ptr(), answers.len());
        unsafe {
            match *self {
                Interface::WithMap { run, .. } => {
                    run(state, cp15, memory, m, bad, b, store, c, list, l, out, o)
                }
                Interface::WithoutMap { run, .. } => {
                    run(state, cp15, memory, m, store, c, list, l, out, o)
                }
            }
        }
    }

    /// The replay of a part of a text, where the library has it.
    pub fn replay(&self) -> Option<Box<Part>> {
        match *self {
            Interface::WithMap { replay, .. } => {
                let replay = replay?;
                Some(Box::new(
                    move |r, memory, bad, store, text, ends, out| unsafe {
                        let (memory, m) = (memory.as_mut_ptr(), memory.len());
                        let (bad, b) = (bad.as_ptr(), bad.len());
                        let (store, c) = (store.as_mut_ptr(), store.len());
                        let (text, t) = (text.as_ptr(), text.len());
                        let (out, o) = (out.as_mut_ptr(), out.len());
                        replay(r, memory, m, bad, b, store, c, text, t, ends.into(), out, o)
                    },
                ))
            }
            Interface::WithoutMap { replay, .. } => {
                let replay = replay?;
                Some(Box::new(
                    move |r, memory, _, store, text, ends, out| unsafe {
                        let (memory, m) = (memory.as_mut_ptr(), memory.len());
                        let (store, c) = (store.as_mut_ptr(), store.len());
                        let (text, t) = (text.as_ptr(), text.len());
                        let (out, o) = (out.as_mut_ptr(), out.len());
                        replay(r, memory, m, store, c, text, t, ends.into(), out, o)
                    },
                ))
            }
        }
    }
}
