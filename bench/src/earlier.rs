//! An earlier library, out of a shared object, called as the linked one is.

use crate::interface::Interface;
use crate::replay::Part;
use crate::text;
use sa110_compare::packed::{Cp15, Packed, State};
use sa110_compare::side_by_side::{Numbers, Setting};
use sa110_compare::NO_CALL;
use sa110_model::Machine;
use std::ffi::{c_char, c_int, c_void, CStr, CString};
use std::mem::transmute;

extern "C" {
    fn dlopen(path: *const c_char, flags: c_int) -> *mut c_void;
    fn dlsym(object: *mut c_void, name: *const c_char) -> *mut c_void;
    fn dlerror() -> *const c_char;
}

/// RTLD_NOW of Linux; without RTLD_GLOBAL nothing else is bound to the object's symbols.
const NOW: c_int = 2;

type Sound = unsafe extern "C" fn(*const State, *const Cp15, usize) -> u32;
type StoreText =
    unsafe extern "C" fn(*const State, *const Cp15, *const u8, usize, *mut u8, usize) -> u64;
type ReadText =
    unsafe extern "C" fn(*mut State, *mut Cp15, *const u8, usize, *const u8, usize) -> u32;

/// The functions of an earlier library. Its state, and its record of a replay, have the layout of
/// include/sa110.h.
#[derive(Clone, Copy)]
pub struct Earlier {
    interface: Interface,
    sound: Option<Sound>,
    store_text: Option<StoreText>,
    read_text: Option<ReadText>,
}

impl Earlier {
    /// The library in a shared object. In one with names that end in `_lent` those have the state
    /// lent; it has no soundness test of a lent state.
    pub fn open(path: &str) -> Result<Earlier, String> {
        let file = std::fs::canonicalize(path).map_err(|error| format!("{path}: {error}"))?;
        let name = CString::new(file.as_os_str().as_encoded_bytes()).expect("a path has no 0");
        let object = unsafe { dlopen(name.as_ptr(), NOW) };
        if object.is_null() {
            return Err(unsafe { CStr::from_ptr(dlerror()) }
                .to_string_lossy()
                .into_owned());
        }
        let symbol = |name: &CStr| {
            let found = unsafe { dlsym(object, name.as_ptr()) };
            (!found.is_null()).then_some(found)
        };
        let missing = |name| format!("{path} has no function {name}");
        let lent = symbol(c"sa110_run_lent");
        let (run, call, sound) = match lent {
            Some(_) => (lent, symbol(c"sa110_call_lent"), None),
            None => (
                symbol(c"sa110_run"),
                symbol(c"sa110_call"),
                symbol(c"sa110_sound"),
            ),
        };
        let run = run.ok_or_else(|| missing("sa110_run"))?;
        let call = call.ok_or_else(|| missing("sa110_call"))?;
        let replay = symbol(c"sa110_replay");
        let store_text = symbol(c"sa110_store_text");
        let read_text = symbol(c"sa110_read_text");
        Ok(unsafe {
            Earlier {
                interface: Interface::of(call, run, replay),
                sound: sound.map(|f| transmute::<*mut c_void, Sound>(f)),
                store_text: store_text.map(|f| transmute::<*mut c_void, StoreText>(f)),
                read_text: read_text.map(|f| transmute::<*mut c_void, ReadText>(f)),
            }
        })
    }

    /// The test of refusal 3 for a memory of so many bytes, where the library has it.
    pub fn soundness(&self) -> Option<impl Fn(&Packed, usize) -> bool> {
        let sound = self.sound?;
        Some(move |p: &Packed, n| unsafe { sound(&p.state, &p.cp15, n) == 1 })
    }

    /// The replay of a part of a text, where the library has it.
    pub fn replay(&self) -> Option<Box<Part>> {
        self.interface.replay()
    }

    /// Storing a state as text, where the library has it.
    pub fn store_text(&self) -> Option<Box<text::Store>> {
        let store = self.store_text?;
        Some(Box::new(move |p, memory, text| {
            let code = unsafe {
                store(
                    &p.state,
                    &p.cp15,
                    memory.as_ptr(),
                    memory.len(),
                    text.as_mut_ptr(),
                    text.len(),
                )
            };
            match code >> 32 {
                0 => Ok(code as usize),
                _ => Err(code as u32),
            }
        }))
    }

    /// Reading a text back, where the library has it.
    pub fn read_text(&self) -> Option<Box<text::Read>> {
        let read = self.read_text?;
        Some(Box::new(move |p, memory, text| {
            let refusal = unsafe {
                read(
                    &mut p.state,
                    &mut p.cp15,
                    memory.as_ptr(),
                    memory.len(),
                    text.as_ptr(),
                    text.len(),
                )
            };
            match refusal {
                0 => Ok(()),
                number => Err(number),
            }
        }))
    }

    /// Whether it has calls of all these kinds, and takes a map if words are bad.
    pub fn has(&self, calls: &[sa110_model::Call], bad: &[u8]) -> bool {
        let mut fresh = Setting::of(&Machine::fresh(Vec::new()));
        let mut calls = calls.iter();
        calls.all(|call| self.call(&mut fresh, &call.to_numbers()) != NO_CALL)
            && (self.interface.takes_map() || !bad.contains(&1))
    }

    pub fn call(&self, s: &mut Setting, numbers: &Numbers) -> u64 {
        self.interface.call(s, numbers)
    }

    pub fn run(&self, s: &mut Setting, calls: &[u32], answers: &mut [u64]) -> usize {
        self.interface.run(s, calls, answers)
    }
}
