//! Library and second model side by side: the same calls from the same place, with everything that
//! they answer and leave compared.

use crate::met::Met;
use crate::packed::{OfModel, Packed};
use crate::report::report;
use crate::NO_CALL;
use sa110::{Look, LINE_BYTES};
use sa110_model::calls::FIELDS;
use sa110_model::coverage::{Coverage, Unwatched, Watch};
use sa110_model::library::{self, RunError};
use sa110_model::refusals;
use sa110_model::term3::Run;
use sa110_model::{Answer, Call, Machine};
use std::fmt;

/// A call in five numbers, or numbers that are no call.
pub type Numbers = [u32; FIELDS];

/// What both sides begin with.
#[derive(Clone)]
pub struct Setting {
    pub packed: Packed,
    pub memory: Vec<u8>,
    /// The map of bad words.
    pub bad: Vec<u8>,
    pub store: Vec<u8>,
}

impl Setting {
    pub fn of(machine: &Machine) -> Setting {
        Setting {
            packed: Packed::of(&machine.state, &machine.registers),
            memory: machine.memory.clone(),
            bad: machine.bad.clone(),
            store: machine.store.clone(),
        }
    }

    /// What a start leaves, refused or not, with this map. Both sides' starts are compared.
    pub fn start(memory: Vec<u8>, bad: Vec<u8>, store: Vec<u8>) -> Setting {
        let (packed, refusal) = Packed::start(&memory, &store);
        let started = library::start(&memory, &store);
        let lengths = format!(
            "start, memory {} bytes, store {} bytes",
            memory.len(),
            store.len()
        );
        assert_eq!(refusal, started.refused.unwrap_or(0), "{lengths}");
        let model = Packed::of(&started.state, &started.registers);
        assert_eq!(difference(&packed, &model), None, "{lengths}");
        Setting {
            packed,
            memory,
            bad,
            store,
        }
    }

    /// What a start leaves for a run.
    pub fn of_run(run: &Run) -> Setting {
        Setting::start(run.memory.clone(), run.bad.clone(), run.store.clone())
    }

    /// A call on the library; gives the answer's code.
    pub fn call(&mut self, numbers: &Numbers) -> u64 {
        let (memory, store) = (&mut self.memory, &mut self.store);
        self.packed.call(memory, &self.bad, store, numbers)
    }

    /// A run on the library; gives how many calls it made.
    pub fn run(&mut self, calls: &[u32], answers: &mut [u64]) -> usize {
        let (memory, store) = (&mut self.memory, &mut self.store);
        self.packed.run(memory, &self.bad, store, calls, answers)
    }

    fn machine(&self) -> Machine {
        let (state, registers) = self.packed.unpacked();
        Machine {
            state: Box::new(state),
            registers,
            memory: self.memory.clone(),
            bad: self.bad.clone(),
            store: self.store.clone(),
        }
    }
}

/// The two sides after some calls.
pub struct Sides {
    pub proved: Setting,
    pub model: Machine,
}

impl Sides {
    pub fn of(setting: &Setting) -> Sides {
        Sides {
            proved: setting.clone(),
            model: setting.machine(),
        }
    }

    /// A call on both sides; gives the answer's code, or what differs.
    pub fn call<T: Watch>(&mut self, numbers: &Numbers, watch: &mut T) -> Result<u64, String> {
        let before = self.proved.packed.clone();
        let code = self.proved.call(numbers);
        let (expected, left) = match Call::from_numbers(numbers) {
            None => (NO_CALL, before),
            Some(call) => {
                let answer = self.model.call_watched(&call, watch);
                watch.note_answer(&call, &answer);
                let left = match answer {
                    Answer::Refused(_) => before,
                    _ => self.packed_model(),
                };
                (answer.as_number(), left)
            }
        };
        if code != expected {
            return Err(format!("proved {code:X}, model {expected:X}"));
        }
        match difference(&self.proved.packed, &left) {
            Some(what) => Err(what),
            None => Ok(code),
        }
    }

    /// A run on both sides, of as many calls as both lists hold; gives how many were made, or what
    /// differs.
    pub fn run(&mut self, calls: &[u32], answers: &mut [u64]) -> Result<usize, String> {
        let n = (calls.len() / FIELDS).min(answers.len());
        let mut expected = answers.to_vec();
        let before = self.proved.packed.clone();
        let made = self.proved.run(calls, answers);
        let refused = refused(&self.model);
        let ran = self.model.run(&calls[..n * FIELDS], &mut expected[..n]);
        let expected_made = match ran {
            Ok(()) => n,
            Err(RunError::NotACall(i)) => i,
            Err(RunError::Lengths) => unreachable!("one answer a call"),
        };
        if made != expected_made {
            return Err(format!("{made} calls proved, {expected_made} by the model"));
        }
        if let Some(what) = first("answer", answers, &expected) {
            return Err(what);
        }
        let left = match refused {
            Some(_) => before,
            None => self.packed_model(),
        };
        match difference(&self.proved.packed, &left) {
            Some(what) => Err(what),
            None => Ok(made),
        }
    }

    /// A look on both sides; gives what it finds, or what differs.
    pub fn look(&self, va: u32) -> Result<Look, String> {
        let (p, m) = (&self.proved, &self.model);
        let found = p.packed.look(&p.memory, &p.bad, &p.store, va);
        let expected = place(m.look(va), &m.memory, &m.store);
        if found != expected {
            return Err(format!(
                "look at {va:X}: proved {found:X?}, model {expected:X?}"
            ));
        }
        Ok(found)
    }

    /// Compares memory, map and store.
    pub fn bytes(&self) -> Result<(), String> {
        let (p, m) = (&self.proved, &self.model);
        let pairs = [
            ("memory at", &p.memory, &m.memory),
            ("map at", &p.bad, &m.bad),
            ("store at", &p.store, &m.store),
        ];
        for (name, proved, model) in pairs {
            if proved != model {
                return Err(first(name, proved, model).expect("they differ"));
            }
        }
        Ok(())
    }

    fn packed_model(&self) -> Packed {
        Packed::of(&self.model.state, &self.model.registers)
    }
}

/// The refusal of the lent things, by the second model.
pub(crate) fn refused(m: &Machine) -> Option<u32> {
    let (memory, store) = (m.memory.len(), m.store.len());
    refusals::of_lent(&m.state, &m.registers, memory, &m.bad, store)
}

/// Where the part lies that a look of the second model shows.
fn place(part: &[u8], memory: &[u8], store: &[u8]) -> Look {
    let within = |bytes: &[u8]| {
        let at = (part.as_ptr() as usize).wrapping_sub(bytes.as_ptr() as usize);
        (at < bytes.len()).then_some(at)
    };
    match (part.len(), within(store), within(memory)) {
        (0, _, _) => Look::Nowhere,
        (LINE_BYTES, Some(at), _) => Look::OfStore(at),
        (LINE_BYTES, None, Some(at)) => Look::OfMemory(at),
        _ => panic!("a part of {} bytes of neither", part.len()),
    }
}

/// The address to look at after a call: the access's, or the one that a CP15 write may give.
fn looked_at(numbers: &Numbers) -> u32 {
    numbers[if matches!(numbers[0], 3 | 4) { 4 } else { 3 }]
}

/// What differs between two states and records, the first place of each list.
pub(crate) fn difference(proved: &Packed, model: &Packed) -> Option<String> {
    if proved == model {
        return None;
    }
    let (p, m) = (&proved.state, &model.state);
    let parts = [
        first("registers", &[proved.cp15], &[model.cp15]),
        first("counts", &[p.counts], &[m.counts]),
        first("size", &[p.size], &[m.size]),
        first("number of buffer entries", &[p.used], &[m.used]),
        first("TLB entry", &p.entries, &m.entries),
        first("line", &p.lines, &m.lines),
        first("pointer of set", &p.pointers, &m.pointers),
        first("buffer word", &p.words, &m.words),
        first("bytes of buffer entry", &p.bytes, &m.bytes),
    ];
    Some(parts.into_iter().flatten().collect::<Vec<_>>().join("; "))
}

/// The first place where two lists of one length differ.
fn first<T: PartialEq + fmt::Debug>(name: &str, proved: &[T], model: &[T]) -> Option<String> {
    let i = proved.iter().zip(model).position(|(p, m)| p != m)?;
    let at = if proved.len() > 1 {
        format!(" {i:X}")
    } else {
        String::new()
    };
    let (p, m) = (&proved[i], &model[i]);
    Some(format!("{name}{at}: proved {p:X?}, model {m:X?}"))
}

/// What was compared.
#[derive(Clone, Default)]
pub struct Tally {
    pub by_call: Met,
    pub by_run: Met,
    /// What the second model did in the calls one by one.
    pub events: Coverage,
}

impl Tally {
    pub fn add(&mut self, other: &Tally) {
        self.by_call.add(&other.by_call);
        self.by_run.add(&other.by_run);
        self.events.add(&other.events);
    }

    /// Compares a list one by one, in one run, and in runs of `piece` calls. A difference is shrunk,
    /// printed and panicked with; `name` says where the list comes from. Gives the machine at the end.
    pub fn compare(
        &mut self,
        setting: &Setting,
        calls: &[Numbers],
        piece: usize,
        name: &dyn Fn() -> String,
    ) -> Machine {
        let ran = by_call(setting, calls, &mut self.events, &mut self.by_call);
        let machine = ran.unwrap_or_else(|_| {
            report(name() + ", by call", setting, calls, &|setting, calls| {
                by_call(setting, calls, &mut Unwatched, &mut Met::default()).err()
            })
        });
        for piece in [calls.len().max(1), piece] {
            if by_runs(setting, calls, piece, &mut self.by_run).is_some() {
                let how = format!(", by runs of {piece} calls");
                report(name() + &how, setting, calls, &|setting, calls| {
                    by_runs(setting, calls, piece, &mut Met::default())
                });
            }
        }
        machine
    }
}

impl fmt::Display for Tally {
    fn fmt(&self, out: &mut fmt::Formatter) -> fmt::Result {
        writeln!(out, "{:>10}{:>12}", "by call", "by run")?;
        let rows = self.by_call.rows().into_iter().zip(self.by_run.rows());
        for ((name, by_call), (_, by_run)) in rows {
            writeln!(out, "{by_call:>10}{by_run:>12}  {name}")?;
        }
        Ok(())
    }
}

/// Memory and store are compared after every call and run if memory is at most this long.
const SMALL: usize = 1024;

/// The calls one by one; gives the model's machine at the end, or what differs first.
fn by_call<T: Watch>(
    setting: &Setting,
    calls: &[Numbers],
    watch: &mut T,
    met: &mut Met,
) -> Result<Machine, String> {
    let mut sides = Sides::of(setting);
    let small = setting.memory.len() <= SMALL;
    for (i, numbers) in calls.iter().enumerate() {
        let said = |what| format!("call {i:X}: {what}");
        let code = sides.call(numbers, watch).map_err(said)?;
        if small {
            sides.bytes().map_err(said)?;
        }
        met.note(numbers, code);
        if i % 2 == 0 {
            let va = looked_at(numbers);
            met.note_look(&sides.model, va, sides.look(va).map_err(said)?);
        }
    }
    sides.bytes()?;
    Ok(sides.model)
}

/// What an answer is before a run.
const UNTOUCHED: u64 = 0x1234_5678_9ABC_DEF0;

/// The calls by runs of at most `piece` calls; a run that stops at numbers that are no call is followed
/// by one from behind them. Gives what differs first.
fn by_runs(setting: &Setting, calls: &[Numbers], piece: usize, met: &mut Met) -> Option<String> {
    let mut sides = Sides::of(setting);
    let small = setting.memory.len() <= SMALL;
    let mut rest = calls;
    while !rest.is_empty() {
        let at = calls.len() - rest.len();
        let said = |what| format!("run from call {at:X}: {what}");
        let part = &rest[..piece.min(rest.len())];
        let mut answers = vec![UNTOUCHED; part.len()];
        let made = match sides.run(part.as_flattened(), &mut answers) {
            Ok(made) => made,
            Err(what) => return Some(said(what)),
        };
        if small {
            if let Err(what) = sides.bytes() {
                return Some(said(what));
            }
        }
        let va = looked_at(&part[part.len() - 1]);
        match sides.look(va) {
            Ok(found) => met.note_look(&sides.model, va, found),
            Err(what) => return Some(said(what)),
        }
        for (numbers, code) in part.iter().zip(&answers[..made]) {
            met.note(numbers, *code);
        }
        if made < part.len() {
            met.note(&part[made], NO_CALL);
            rest = &rest[made + 1..];
        } else {
            rest = &rest[made..];
        }
    }
    sides.bytes().err()
}
