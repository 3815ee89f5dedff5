//! Refusals 1 to 12 and 16: each for each kind of call that meets it, the order of any two, no change.

mod common;
use common::*;
use sa110_model::answers::Answer;
use sa110_model::bus::no_bad_words;
use sa110_model::calls::Call;
use sa110_model::library::{self, RunError};
use sa110_model::machine::Machine;
use sa110_model::state::{Registers, State, STORE_BYTES};

/// Calls of each kind, each served on `ready`.
fn kinds() -> Vec<Call> {
    vec![
        Call::load(4, 0x100),
        signed_load(4, 0x100),
        Call::store(4, 0x100, 7),
        Call::swap(4, 0x100, 7),
        Call::read(1),
        Call::write(1, 0xD),
        Call::write(3, 0xD),
        Call::flush_dcache(),
        Call::flush_line(0x100),
        Call::clean_line(0x100),
        Call::drain(),
        Call::flush_tlb(),
        Call::drop_tlb_entry(0x100),
    ]
}

/// A machine that holds something everywhere: TLB entries, dirty lines, buffer entries.
fn ready() -> Machine {
    let mut m = mapped_twice();
    serve(
        &mut m,
        &[
            Call::load(4, 0x100),
            Call::store(4, 0x104, 0x55),
            Call::store(4, 0x110, 0x66),
            Call::store(4, 0x1000, 0x77),
            Call::store(1, 0x1208, 0x88),
        ],
    );
    m
}

/// Makes refusal `number` met by machine and call; none if this kind of call cannot meet it.
fn meet(number: u32, m: &mut Machine, call: &mut Call) -> bool {
    match number {
        1 => {
            m.memory.push(0);
            // Refusal 4 is not to be met by the way.
            m.state.memory_length += 1;
        }
        2 => m.store.truncate(STORE_BYTES - 1),
        3 => m.state.cache.pointers[3] = 32,
        4 => m.state.memory_length ^= 0x20,
        16 => m.bad[7] = 2,
        5 => m.state.counts.calls = u32::MAX,
        6..=12 => return meet_in_call(number, call),
        _ => unreachable!(),
    }
    true
}

fn meet_in_call(number: u32, call: &mut Call) -> bool {
    match (number, call) {
        (6, Call::Load { width, .. } | Call::SignedLoad { width, .. }) => *width = 3,
        (6, Call::Store { width, .. }) => *width = 3,
        (6, Call::Swap { width, .. }) => *width = 2,
        (7, Call::Store { width, value, .. }) => {
            *value = u32::MAX;
            if *width == 4 {
                *width = 2;
            }
        }
        (7, Call::Swap { width, value, .. }) => {
            *value = u32::MAX;
            if *width == 4 {
                *width = 1;
            }
        }
        (8, Call::Read { privileged, .. } | Call::Write { privileged, .. }) => *privileged = false,
        (9, Call::Read { register, .. }) => *register = 7,
        (9, Call::Write { register, .. }) => *register = 9,
        (
            10,
            Call::Write {
                register: 7 | 8,
                opcode2,
                ..
            },
        ) => *opcode2 = 3,
        (
            11,
            Call::Write {
                register: 1, value, ..
            },
        ) => *value |= 0x80,
        (
            12,
            Call::Write {
                register: 1, value, ..
            },
        ) => *value = (*value & 0x80) | 5,
        _ => return false,
    }
    true
}

/// The call is refused by this number and changes nothing at all.
fn refused(m: &mut Machine, call: &Call, number: u32) {
    let before = m.clone();
    assert_eq!(m.call(call), Answer::Refused(number), "{call}");
    assert_eq!(*m, before, "{call} changed something");
}

#[test]
fn every_kind_is_served_on_the_ready_machine() {
    for call in kinds() {
        serve(&mut ready(), &[call]);
    }
}

/// The refusals of a call, in checking order.
const ORDER: [u32; 13] = [1, 2, 3, 4, 16, 5, 6, 7, 8, 9, 10, 11, 12];

#[test]
fn each_refusal_for_each_kind() {
    let mut met = [0; ORDER.len()];
    for call in kinds() {
        for (count, number) in met.iter_mut().zip(ORDER) {
            let (mut m, mut call) = (ready(), call);
            if meet(number, &mut m, &mut call) {
                refused(&mut m, &call, number);
                *count += 1;
            }
        }
    }
    println!("kinds of call refused, in checking order: {met:?}");
    assert_eq!(met, [13, 13, 13, 13, 13, 13, 4, 2, 9, 9, 6, 1, 1]);
}

#[test]
fn the_first_of_two_in_order() {
    let mut pairs = 0;
    for call in kinds() {
        for (i, first) in ORDER.into_iter().enumerate() {
            for second in ORDER.into_iter().skip(i + 1) {
                let (mut m, mut call) = (ready(), call);
                if !meet(first, &mut m, &mut call) {
                    continue;
                }
                // A register that cannot be written has no operation pair and no control value.
                if !meet(second, &mut m, &mut call) {
                    continue;
                }
                refused(&mut m, &call, first);
                pairs += 1;
            }
        }
    }
    println!("{pairs} pairs of refusals met together");
    assert!(pairs > 200);
}

#[test]
fn all_at_once() {
    let mut m = ready();
    let mut call = Call::write(1, 0x8C);
    for number in [8, 5, 16, 4, 3, 2, 1] {
        assert!(meet(number, &mut m, &mut call));
        refused(&mut m, &call, number);
    }
    let mut m = ready();
    let mut call = Call::store(3, 0, u32::MAX);
    for number in [5, 16, 4, 3, 2, 1] {
        assert!(meet(number, &mut m, &mut call));
        refused(&mut m, &call, number);
    }
}

#[test]
fn lengths() {
    for length in [1, 16, 31, 33, 48, 0x4001, 16_777_217, 16_777_248] {
        let mut m = ready();
        m.memory = vec![0; length];
        m.state.memory_length = length as u32;
        refused(&mut m, &Call::load(4, 0), 1);
    }
    for length in [0, 1, STORE_BYTES - 32, STORE_BYTES + 1, 2 * STORE_BYTES] {
        let mut m = ready();
        m.store = vec![0; length];
        refused(&mut m, &Call::load(4, 0), 2);
    }
    for length in [0, 1, 0xFFF, 0x1001, 0x2000, 0x4000] {
        let mut m = ready();
        m.bad = vec![0; length];
        refused(&mut m, &Call::load(4, 0), 16);
    }
    for at in [0, 1, 0x800, 0xFFF] {
        let mut m = ready();
        m.bad[at] = 2;
        refused(&mut m, &Call::load(4, 0), 16);
    }
    let mut m = Machine::fresh(vec![0; 16_777_216]);
    assert_eq!(m.call(&Call::load(4, 16_777_212)), value(0));
    m.bad[4_194_303] = 255;
    assert_eq!(m.call(&Call::load(4, 16_777_212)), Answer::Refused(16));
    let mut m = Machine::fresh(vec![]);
    assert!(matches!(m.call(&Call::load(4, 0)), Answer::Fault(_)));
}

/// "Outside the lent memory" goes by the memory lent in this call, so 3 can come before 4.
#[test]
fn shorter_memory_is_3_before_4() {
    let mut m = ready();
    m.memory.truncate(0x1000);
    refused(&mut m, &Call::read(1), 3);
    let mut m = ready();
    serve(
        &mut m,
        &[Call::clean_line(0x100), Call::flush_dcache(), Call::drain()],
    );
    m.memory.truncate(0x1000);
    refused(&mut m, &Call::read(1), 4);
    m.memory.resize(0x4020, 0);
    refused(&mut m, &Call::read(1), 4);
}

#[test]
fn widths_and_values() {
    for width in [0, 3, 5, 8, u32::MAX] {
        for call in [
            Call::load(width, 0),
            signed_load(width, 0),
            Call::store(width, 0, 0),
        ] {
            refused(&mut ready(), &call, 6);
        }
    }
    refused(&mut ready(), &Call::store(1, 0, 0x100), 7);
    refused(&mut ready(), &Call::store(2, 0, 0x10000), 7);
    serve(
        &mut ready(),
        &[
            Call::store(1, 0, 0xFF),
            Call::store(2, 0, 0xFFFF),
            Call::store(4, 0, u32::MAX),
        ],
    );
}

#[test]
fn registers_and_pairs() {
    for register in 0..20 {
        let call = Call::read(register);
        match register {
            0..=6 => serve(&mut ready(), &[call]),
            _ => refused(&mut ready(), &call, 9),
        }
        let call = Call::operate(register, 3, 3, 0);
        match register {
            1..=6 => serve(&mut ready(), &[call]),
            7 | 8 => refused(&mut ready(), &call, 10),
            _ => refused(&mut ready(), &call, 9),
        }
    }
    refused(&mut ready(), &Call::read(u32::MAX), 9);
    let sevens = [(0, 7), (0, 6), (0, 5), (1, 6), (1, 10), (4, 10)];
    let eights = [(0, 7), (0, 6), (0, 5), (1, 6)];
    for opcode2 in 0..9 {
        for crm in 0..40 {
            for (register, listed) in [(7, &sevens[..]), (8, &eights[..])] {
                let call = Call::operate(register, opcode2, crm, 0);
                if listed.contains(&(opcode2, crm)) {
                    serve(&mut ready(), &[call]);
                } else {
                    refused(&mut ready(), &call, 10);
                }
            }
        }
    }
}

#[test]
fn control_values() {
    let mut listed = 0;
    for control in 0..0x4000 {
        let mcw = control & 0xD;
        let expected = match mcw {
            _ if control & 0x80 != 0 => Some(11),
            0 | 1 | 9 | 13 => None,
            _ => Some(12),
        };
        let mut m = Machine::fresh(vec![]);
        match expected {
            Some(number) => assert_eq!(m.step_unwatched(control), Answer::Refused(number)),
            None => {
                assert_eq!(m.step_unwatched(control), value(0));
                assert_eq!(m.registers.plain.control, control & 0x130F);
                listed += 1;
            }
        }
    }
    println!("{listed} of 16384 control values accepted");
    assert_eq!(listed, 16384 / 4);
}

trait Step {
    fn step_unwatched(&mut self, control: u32) -> Answer;
}

impl Step for Machine {
    fn step_unwatched(&mut self, control: u32) -> Answer {
        self.step(
            &Call::write(1, control),
            &mut sa110_model::coverage::Unwatched,
        )
    }
}

#[test]
fn calls_at_the_limit() {
    let mut m = ready();
    m.state.counts.calls = u32::MAX - 1;
    serve(&mut m, &[Call::read(1)]);
    assert_eq!(m.state.counts.calls, u32::MAX);
    for call in kinds() {
        refused(&mut m, &call, 5);
    }
    // The plain machine refuses by its own count.
    let mut plain = sa110_model::plain::Plain::start(vec![0; 0x40], no_bad_words(0x40));
    plain.calls = u32::MAX;
    let before = plain.clone();
    for call in kinds() {
        assert_eq!(plain.call(&call), Answer::Refused(5));
    }
    assert_eq!(plain, before);
}

#[test]
fn start() {
    for (memory, store, number) in [
        (33, STORE_BYTES, 1),
        (16_777_248, STORE_BYTES, 1),
        (0x40, STORE_BYTES - 1, 2),
        (0x40, STORE_BYTES + 1, 2),
        (33, 0, 1),
    ] {
        let started = library::start(&vec![1; memory], &vec![1; store]);
        assert_eq!(started.refused, Some(number));
        assert_eq!(started.state, State::ZERO);
        assert_eq!(started.registers, Registers::default());
    }
    for memory in [0, 32, 64, 0x4000, 16_777_216] {
        let started = library::start(&vec![1; memory], &vec![1; STORE_BYTES]);
        assert_eq!(started.refused, None);
        let expected = State {
            memory_length: memory as u32,
            ..State::ZERO
        };
        assert_eq!(started.state, expected);
        assert_eq!(started.registers, Registers::default());
    }
}

/// A look is empty under refusals 1 to 4 and 16.
#[test]
fn look() {
    let m = ready();
    assert_eq!(m.look(0x100).len(), 32);
    for number in [1, 2, 3, 4, 16] {
        let (mut m, mut call) = (ready(), Call::read(1));
        meet(number, &mut m, &mut call);
        assert_eq!(m.look(0x100).len(), 0, "under refusal {number}");
    }
}

/// A run under refusals 1 to 4 and 16 answers each call as `call` does.
#[test]
fn run_is_refused_as_its_calls_are() {
    let calls: Vec<u32> = kinds().iter().flat_map(|call| call.to_numbers()).collect();
    for number in [1, 2, 3, 4, 16] {
        let mut m = ready();
        meet(number, &mut m, &mut Call::read(1));
        let before = m.clone();
        let mut answers = vec![0; kinds().len()];
        assert_eq!(m.run(&calls, &mut answers), Ok(()));
        assert!(answers.iter().all(|a| *a == (2 << 32) + number as u64));
        assert_eq!(m, before);
    }
}

#[test]
fn run_tells_what_is_not_a_call() {
    let run = |calls: &[u32], answers: usize| {
        let mut m = ready();
        let mut answers = vec![9; answers];
        (m.run(calls, &mut answers), answers)
    };
    let three = [3, 1, 1, 0, 0, 6, 1, 1, 0, 0, 3, 1, 1, 0, 0];
    assert_eq!(run(&three[..5], 1), (Ok(()), vec![0x7D]));
    assert_eq!(run(&three[..5], 2).0, Err(RunError::Lengths));
    assert_eq!(run(&three[..6], 1).0, Err(RunError::Lengths));
    let stopped = (Err(RunError::NotACall(1)), vec![0x7D, 9, 9]);
    assert_eq!(run(&three, 3), stopped);
    assert_eq!(run(&[0, 2, 4, 0, 0], 1).0, Err(RunError::NotACall(0)));
}
