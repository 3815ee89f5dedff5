//! The plain machine: memory, the five registers and a count of calls; no TLB, cache or buffer.

use crate::access::{aligned, check_rights, Place};
use crate::answers::{Abort, Answer, Fault};
use crate::bus::{Bus, WORD_BYTES};
use crate::calls::{Access, Call, Kind};
use crate::refusals;
use crate::registers::{operation, Operation, M};
use crate::state::{PlainRegisters, LINE_BYTES};
use crate::walk::{walk, Walk};
use crate::words;

#[derive(Clone, Debug, PartialEq, Eq)]
pub struct Plain {
    pub memory: Vec<u8>,
    /// The map of bad words, and refusal 16 if it does not fit: tested once, since it is unchanged through a run.
    bad: Vec<u8>,
    bad_refused: Option<u32>,
    pub registers: PlainRegisters,
    pub calls: u32,
}

/// The line that an access reaches, once translation and rights have passed.
#[derive(Clone, Copy, Debug, PartialEq, Eq)]
pub struct Reached {
    pub virtual_line: u32,
    pub physical_line: u32,
    /// With M clear.
    pub flat: bool,
    /// Inside memory.
    pub inside: bool,
}

/// What a store or a swap writes, if it is neither dropped nor faults.
#[derive(Clone, Copy, Debug, PartialEq, Eq)]
pub struct Stored {
    pub physical: u32,
    pub width: u32,
    pub value: u32,
}

/// What the plain machine does with a call. A refused call does nothing.
#[derive(Clone, Copy, Debug, PartialEq, Eq)]
pub struct Deed {
    pub answer: Answer,
    /// The walk of an access that passed alignment with M set.
    pub walk: Option<Walk>,
    pub reached: Option<Reached>,
    pub stored: Option<Stored>,
    /// A served write of register 7 or 8.
    pub operation: Option<Operation>,
    /// A served write of register 1 to 6: register and value.
    pub written: Option<(u32, u32)>,
}

impl Deed {
    fn answering(answer: Answer) -> Deed {
        Deed {
            answer,
            walk: None,
            reached: None,
            stored: None,
            operation: None,
            written: None,
        }
    }
}

impl Plain {
    /// Registers and count all zero, on the start's memory with this map.
    pub fn start(memory: Vec<u8>, bad: Vec<u8>) -> Plain {
        Plain {
            bad_refused: refusals::of_map(memory.len(), &bad),
            memory,
            bad,
            registers: PlainRegisters::default(),
            calls: 0,
        }
    }

    /// Memory with its map.
    pub fn bus(&self) -> Bus<'_> {
        Bus {
            memory: &self.memory,
            bad: &self.bad,
        }
    }

    /// One call.
    pub fn call(&mut self, call: &Call) -> Answer {
        let deed = self.foresee(call);
        self.perform(&deed);
        deed.answer
    }

    /// What the call will do, without doing it.
    pub fn foresee(&self, call: &Call) -> Deed {
        let refused = self.bad_refused;
        if let Some(number) = refused.or_else(|| refusals::of_call(self.calls, call)) {
            return Deed::answering(Answer::Refused(number));
        }
        match *call {
            Call::Read { register, .. } => {
                Deed::answering(Answer::Value(self.registers.read(register)))
            }
            Call::Write {
                register,
                opcode2,
                crm,
                value,
                ..
            } => {
                let operation = operation(register, opcode2, crm, value);
                Deed {
                    operation,
                    written: operation.is_none().then_some((register, value)),
                    ..Deed::answering(Answer::Value(0))
                }
            }
            _ => self.foresee_access(&call.access().expect("an access")),
        }
    }

    /// Does what was foreseen.
    pub fn perform(&mut self, deed: &Deed) {
        if matches!(deed.answer, Answer::Refused(_)) {
            return;
        }
        self.calls += 1;
        if let Some((register, value)) = deed.written {
            self.registers.write(register, value);
        }
        if let Some(stored) = deed.stored {
            let at = stored.physical as usize;
            words::write(&mut self.memory, at, stored.width, stored.value);
        }
        if let Answer::Fault(fault) = deed.answer {
            self.registers.fsr = fault.fsr();
            self.registers.far = fault.address;
        }
    }

    /// The physical address that a virtual address translates to now, rights not asked.
    pub fn translate(&self, address: u32) -> Option<u32> {
        if !self.registers.has(M) {
            return Some(address);
        }
        walk(self.bus(), self.registers.table_base, address)
            .found
            .ok()
            .map(|entry| entry.physical(address))
    }

    fn foresee_access(&self, access: &Access) -> Deed {
        let mut deed = Deed::answering(Answer::Value(0));
        match self.reach(access, &mut deed) {
            Ok(value) if access.kind == Kind::SignedLoad => {
                deed.answer = Answer::Signed(words::signed(value, access.width));
            }
            Ok(value) => deed.answer = Answer::Value(value),
            Err(Abort { status, domain }) => {
                deed.answer = Answer::Fault(Fault {
                    status,
                    domain,
                    address: access.address,
                });
            }
        }
        deed
    }

    /// Alignment, then the walk and rights if M is set, then memory at once. A swap loads and stores together.
    fn reach(&self, access: &Access, deed: &mut Deed) -> Result<u32, Abort> {
        let address = aligned(&self.registers, access)?;
        let place = if self.registers.has(M) {
            let walk = walk(self.bus(), self.registers.table_base, address);
            deed.walk = Some(walk);
            let entry = walk.found?;
            check_rights(&self.registers, &entry, address, access)?;
            Place::mapped(&entry, address)
        } else {
            Place::flat(address)
        };
        deed.reached = Some(Reached {
            virtual_line: address / LINE_BYTES as u32,
            physical_line: place.physical / LINE_BYTES as u32,
            flat: !self.registers.has(M),
            inside: (place.physical as usize) < self.memory.len(),
        });
        if self.drops(access, &place)? {
            return Ok(0);
        }
        deed.stored = access.stores().map(|value| Stored {
            physical: place.physical,
            width: access.width,
            value,
        });
        if !access.loads() {
            return Ok(0);
        }
        Ok(words::read(
            &self.memory,
            place.physical as usize,
            access.width,
        ))
    }

    /// Is the access a store that is dropped? One that aborts otherwise is a fault: a load that may fill by
    /// any word of its line up to its own. A swap is never dropped, and never 4 or 6.
    fn drops(&self, access: &Access, place: &Place) -> Result<bool, Abort> {
        let bus = self.bus();
        let aborts = bus.aborts(place.physical);
        match access.kind {
            Kind::Store(_) if place.buffers(&self.registers) => Ok(aborts),
            Kind::Load | Kind::SignedLoad if place.fills(&self.registers) => {
                let first = place.physical & !(LINE_BYTES as u32 - 1);
                let mut words = (first..=place.physical).step_by(WORD_BYTES);
                if words.any(|word| bus.aborts(word)) {
                    return Err(place.fill_abort());
                }
                Ok(false)
            }
            _ if aborts => Err(place.other_abort()),
            _ => Ok(false),
        }
    }
}
