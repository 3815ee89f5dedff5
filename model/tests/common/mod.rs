//! Machines and calls that several tests share.
#![allow(dead_code)]

use sa110_model::answers::{Answer, Fault, Status};
use sa110_model::calls::Call;
use sa110_model::machine::Machine;
use sa110_model::words;

/// A memory of zeros with these words in it.
pub fn memory(length: usize, words: &[(usize, u32)]) -> Vec<u8> {
    let mut memory = vec![0; length];
    for (at, word) in words {
        words::write(&mut memory, *at, 4, *word);
    }
    memory
}

/// A fresh machine on such a memory, after these calls, none of which is refused or faults.
pub fn machine(length: usize, words: &[(usize, u32)], calls: &[Call]) -> Machine {
    let mut machine = Machine::fresh(memory(length, words));
    serve(&mut machine, calls);
    machine
}

/// As `machine`, with these words bad. The calls must be served all the same.
pub fn bad_machine(length: usize, words: &[(usize, u32)], bad: &[u32], calls: &[Call]) -> Machine {
    let mut machine = Machine::fresh(memory(length, words));
    for physical in bad {
        machine.bad[*physical as usize / 4] = 1;
    }
    serve(&mut machine, calls);
    machine
}

/// Makes calls that must be served.
pub fn serve(machine: &mut Machine, calls: &[Call]) {
    for call in calls {
        let answer = machine.call(call);
        assert!(
            matches!(answer, Answer::Value(_) | Answer::Signed(_)),
            "{call} answers {answer}"
        );
    }
}

/// Sections 0 and 1 both map to physical 0, cacheable and bufferable; M, C and W are set.
pub fn mapped_twice() -> Machine {
    machine(
        0x4000,
        &[(0, 0xC0E), (4, 0xC0E)],
        &[Call::write(3, 1), Call::write(1, 0xD)],
    )
}

pub fn user_load(width: u32, address: u32) -> Call {
    Call::Load {
        privileged: false,
        width,
        address,
    }
}

pub fn user_store(width: u32, address: u32, value: u32) -> Call {
    Call::Store {
        privileged: false,
        width,
        address,
        value,
    }
}

/// The blocks of the buffer's entries, oldest first.
pub fn blocks(m: &Machine) -> Vec<u32> {
    let buffer = &m.state.buffer;
    let slots = &buffer.slots[..buffer.entries as usize];
    slots.iter().map(|slot| slot.block).collect()
}

pub fn signed_load(width: u32, address: u32) -> Call {
    Call::SignedLoad {
        privileged: true,
        width,
        address,
    }
}

pub fn fault(status: Status, domain: u32, address: u32) -> Answer {
    Answer::Fault(Fault {
        status,
        domain,
        address,
    })
}

pub fn value(value: u32) -> Answer {
    Answer::Value(value)
}
