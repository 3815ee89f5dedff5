//! The swap (document 02, Two) in a run: an access that reaches its line, and a store to its word and line.

mod common;
use common::memory;
use sa110_model::bus::no_bad_words;
use sa110_model::calls::Call;
use sa110_model::rules::{Monitor, Part, Rules};

/// A run whose sections 0 and 1 map to physical 0, after these calls, which the rules allow.
fn run_of(calls: &[Call]) -> Monitor {
    let memory = memory(0x4000, &[(0, 0xC0E), (4, 0xC0E)]);
    let mut monitor = Monitor::start(memory, no_bad_words(0x4000), Rules::ALL);
    for call in [Call::write(3, 1), Call::write(1, 0xD)].iter().chain(calls) {
        let deed = monitor.propose(call).expect("the rules allow it");
        monitor.accept(&deed);
    }
    monitor
}

fn forbidden(calls: &[Call], call: Call) -> Option<Part> {
    run_of(calls).propose(&call).err()
}

/// R2: "every data access whose translation and rights pass reaches a line, even one outside memory".
#[test]
fn r2() {
    let swap = Call::swap(4, 0x1000, 7);
    let other = Call::load(4, 0x101000);
    assert_eq!(forbidden(&[swap], other), Some(Part::R2Physical));
    assert_eq!(forbidden(&[other], swap), Some(Part::R2Physical));
    let outside = Call::swap(4, 0x4000, 7);
    let other = Call::load(4, 0x104000);
    assert_eq!(forbidden(&[outside], other), Some(Part::R2Physical));
    assert_eq!(forbidden(&[swap], Call::load(4, 0x1000)), None);
}

/// R3: a swap is a store to its line; one outside memory faults and is none.
#[test]
fn r3() {
    let swap = Call::swap(1, 0x1000, 7);
    let clean = Call::clean_line(0x1000);
    for (flush, part) in [
        (Call::flush_line(0x1000), Part::R3Line),
        (Call::flush_dcache(), Part::R3Whole),
    ] {
        assert_eq!(forbidden(&[swap], flush), Some(part));
        assert_eq!(forbidden(&[swap, clean], flush), None);
        assert_eq!(forbidden(&[swap, clean, swap], flush), Some(part));
        let outside = Call::swap(4, 0x4000, 7);
        assert_eq!(forbidden(&[outside], flush), None);
    }
}

/// R4: a swap is a store to its word.
#[test]
fn r4() {
    let swap = Call::swap(4, 8, 0xC0E);
    let load = Call::load(4, 0x201000);
    let (clean, drain) = (Call::clean_line(0), Call::drain());
    let after = |calls: &[Call]| forbidden(calls, load);
    assert_eq!(after(&[swap]), Some(Part::R4Clean));
    assert_eq!(after(&[swap, drain]), Some(Part::R4Clean));
    assert_eq!(after(&[swap, clean]), Some(Part::R4Drain));
    assert_eq!(after(&[swap, clean, drain]), Some(Part::R4TlbFlush));
    assert_eq!(after(&[swap, clean, drain, Call::flush_tlb()]), None);
    // another word of the line does not matter
    assert_eq!(forbidden(&[Call::swap(4, 12, 0)], load), None);
}

/// The end: a line swapped in is cleaned, then drained.
#[test]
fn the_end() {
    let swap = Call::swap(4, 0x1000, 7);
    let (clean, drain) = (Call::clean_line(0x1000), Call::drain());
    assert!(!run_of(&[swap]).settled());
    assert!(!run_of(&[swap, drain]).settled());
    assert!(!run_of(&[swap, clean]).settled());
    assert!(run_of(&[swap, clean, drain]).settled());
    assert!(!run_of(&[swap, clean, drain, swap]).settled());
    assert!(run_of(&[Call::swap(4, 0x4000, 7)]).settled());
    // a refused one is no store
    assert!(run_of(&[Call::swap(2, 0x1000, 7)]).settled());
}
