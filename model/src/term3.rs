//! Term 3: a run that keeps the rules answers as the plain machine, and its memory ends as the plain
//! machine's if every line stored to has been cleaned and drained. Comparison and shrinking.

use crate::answers::Answer;
use crate::calls::Call;
use crate::coverage::{Unwatched, Watch};
use crate::machine::Machine;
use crate::rules::{Monitor, Part, Rules};
use std::fmt;

/// A start's memory and store, the map of bad words, and the calls after the start.
#[derive(Clone, Debug)]
pub struct Run {
    pub memory: Vec<u8>,
    pub bad: Vec<u8>,
    pub store: Vec<u8>,
    pub calls: Vec<Call>,
}

impl Run {
    /// The library machine after the start.
    pub fn machine(&self) -> Machine {
        let (memory, bad) = (self.memory.clone(), self.bad.clone());
        Machine::start(memory, bad, self.store.clone()).expect("a served start")
    }
}

/// Where library and plain machine differ.
#[derive(Clone, Copy, Debug, PartialEq, Eq)]
pub enum Difference {
    Answer {
        call: usize,
        library: Answer,
        plain: Answer,
    },
    /// The run is settled and this byte of memory differs.
    Memory {
        address: usize,
        library: u8,
        plain: u8,
    },
    /// The five registers or the counts of calls differ at the end.
    Registers,
    /// The library's state is unsound at the end.
    Unsound,
}

#[derive(Clone, Copy, Debug, PartialEq, Eq)]
pub enum Verdict {
    /// The rules forbid the call at this place, from 0.
    Forbidden {
        call: usize,
        part: Part,
    },
    Differs(Difference),
    /// Answers agree; `settled` tells whether memory was compared.
    Agrees {
        settled: bool,
    },
}

/// Runs library and plain machine side by side under the rules.
pub fn compare<T: Watch>(run: &Run, rules: Rules, watch: &mut T) -> Verdict {
    let mut library = run.machine();
    let mut monitor = Monitor::start(run.memory.clone(), run.bad.clone(), rules);
    let mut difference = None;
    for (i, call) in run.calls.iter().enumerate() {
        let deed = match monitor.propose(call) {
            Ok(deed) => deed,
            Err(part) => return Verdict::Forbidden { call: i, part },
        };
        let plain = monitor.accept(&deed);
        let answer = library.step(call, watch);
        watch.note_answer(call, &answer);
        if answer != plain && difference.is_none() {
            difference = Some(Difference::Answer {
                call: i,
                library: answer,
                plain,
            });
        }
    }
    match difference.or_else(|| difference_at_end(&library, &monitor)) {
        Some(difference) => Verdict::Differs(difference),
        None => Verdict::Agrees {
            settled: monitor.settled(),
        },
    }
}

fn difference_at_end(library: &Machine, monitor: &Monitor) -> Option<Difference> {
    if !library.is_sound() {
        return Some(Difference::Unsound);
    }
    let plain = &monitor.plain;
    if library.registers.plain != plain.registers || library.state.counts.calls != plain.calls {
        return Some(Difference::Registers);
    }
    if !monitor.settled() || library.memory == plain.memory {
        return None;
    }
    let address = library
        .memory
        .iter()
        .zip(&plain.memory)
        .position(|(a, b)| a != b)?;
    Some(Difference::Memory {
        address,
        library: library.memory[address],
        plain: plain.memory[address],
    })
}

fn differs(run: &Run, rules: Rules) -> bool {
    matches!(compare(run, rules, &mut Unwatched), Verdict::Differs(_))
}

/// Makes a run that differs under the rules shorter: drops calls one by one, and zeroes memory and map,
/// while it still differs.
pub fn shrink(run: &Run, rules: Rules) -> Run {
    let mut shrunk = run.clone();
    cut_after_difference(&mut shrunk, rules);
    while drop_calls(&mut shrunk, rules) {}
    for size in [1024, 4] {
        zero(&mut shrunk, rules, size, |run| &mut run.memory);
    }
    for size in [256, 1] {
        zero(&mut shrunk, rules, size, |run| &mut run.bad);
    }
    while drop_calls(&mut shrunk, rules) {}
    shrunk
}

/// Calls after the first different answer are not needed.
fn cut_after_difference(run: &mut Run, rules: Rules) {
    let verdict = compare(run, rules, &mut Unwatched);
    if let Verdict::Differs(Difference::Answer { call, .. }) = verdict {
        run.calls.truncate(call + 1);
    }
}

/// One pass over the calls, last first. Was a call dropped?
fn drop_calls(run: &mut Run, rules: Rules) -> bool {
    let before = run.calls.len();
    for i in (0..before).rev() {
        let call = run.calls.remove(i);
        if !differs(run, rules) {
            run.calls.insert(i, call);
        }
    }
    run.calls.len() < before
}

/// Zeroes pieces of some bytes of the run that the difference does not need.
fn zero(run: &mut Run, rules: Rules, size: usize, bytes: fn(&mut Run) -> &mut Vec<u8>) {
    let length = bytes(run).len();
    for at in (0..length).step_by(size) {
        let end = (at + size).min(length);
        let piece = bytes(run)[at..end].to_vec();
        if piece.iter().all(|byte| *byte == 0) {
            continue;
        }
        bytes(run)[at..end].fill(0);
        if !differs(run, rules) {
            bytes(run)[at..end].copy_from_slice(&piece);
        }
    }
}

impl fmt::Display for Run {
    fn fmt(&self, out: &mut fmt::Formatter) -> fmt::Result {
        let length = self.memory.len();
        writeln!(out, "all numbers hexadecimal; memory of {length:X} bytes")?;
        for (i, word) in self.memory.chunks_exact(4).enumerate() {
            let word = u32::from_le_bytes(word.try_into().unwrap());
            if word != 0 {
                writeln!(out, "       word {word:X} at {:X}", i * 4)?;
            }
        }
        for (i, _) in self.bad.iter().enumerate().filter(|word| *word.1 == 1) {
            writeln!(out, "       bad word at {:X}", i * 4)?;
        }
        for (i, call) in self.calls.iter().enumerate() {
            writeln!(out, "{i:>5X}  {call}   {:X?}", call.to_numbers())?;
        }
        Ok(())
    }
}

impl fmt::Display for Difference {
    fn fmt(&self, out: &mut fmt::Formatter) -> fmt::Result {
        match self {
            Difference::Answer {
                call,
                library,
                plain,
            } => write!(
                out,
                "call {call:X}: library {library}; plain machine {plain}"
            ),
            Difference::Memory {
                address,
                library,
                plain,
            } => write!(
                out,
                "memory at {address:X}: library {library:X}; plain machine {plain:X}"
            ),
            Difference::Registers => write!(out, "registers or counts of calls differ at the end"),
            Difference::Unsound => write!(out, "the library's state is unsound at the end"),
        }
    }
}
