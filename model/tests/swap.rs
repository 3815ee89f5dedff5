//! The swap (document 02, Two) on both machines. Each test quotes the words that it is about.

mod common;
use common::*;
use sa110_model::answers::{Answer, Status};
use sa110_model::bus::no_bad_words;
use sa110_model::calls::Call;
use sa110_model::machine::Machine;
use sa110_model::plain::Plain;
use sa110_model::state::Counts;
use sa110_model::words;

/// The word at 1000 and its neighbour, in a memory of 4000 bytes.
const OLD: u32 = 0x8391_A2B4;
const WORDS: [(usize, u32); 2] = [(0x1000, OLD), (0x1004, 0x5566_7788)];

/// A machine whose section 0 has this level 1 word, with domain register 1 and this control value.
fn section(word: u32, control: u32) -> Machine {
    let words = [&[(0, word)], &WORDS[..]].concat();
    machine(
        0x4000,
        &words,
        &[Call::write(3, 1), Call::write(1, control)],
    )
}

/// A section's word, and a control value, where a load that misses fills a line.
const FILLS: (u32, u32) = (0xC0E, 0xD);
/// Where a store that misses is buffered and a load fills nothing.
const BUFFERS: [(u32, u32); 3] = [(0xC06, 0xD), (0xC06, 9), (0xC0E, 9)];
/// Where neither.
const NEITHER: [(u32, u32); 4] = [(0xC02, 0xD), (0xC02, 9), (0xC0E, 1), (0xC0E, 0)];

/// As `section`, on the plain machine.
fn plain_section(word: u32, control: u32) -> Plain {
    let words = [&[(0, word)], &WORDS[..]].concat();
    let mut plain = Plain::start(memory(0x4000, &words), no_bad_words(0x4000));
    plain.call(&Call::write(3, 1));
    plain.call(&Call::write(1, control));
    plain
}

fn everywhere() -> impl Iterator<Item = (u32, u32)> {
    [FILLS].into_iter().chain(BUFFERS).chain(NEITHER)
}

fn user_swap(width: u32, address: u32, value: u32) -> Call {
    Call::Swap {
        privileged: false,
        width,
        address,
        value,
    }
}

/// "One new call swaps a byte or a word", and "It answers the old value": held or not, unsigned.
#[test]
fn a_byte_or_a_word() {
    for held in [false, true] {
        let ready = || {
            let mut m = section(FILLS.0, FILLS.1);
            if held {
                serve(&mut m, &[Call::load(1, 0x1000)]);
            }
            m
        };
        let mut m = ready();
        assert_eq!(m.call(&Call::swap(4, 0x1000, 0x1122_3344)), value(OLD));
        assert_eq!(m.call(&Call::load(4, 0x1000)), value(0x1122_3344));
        assert_eq!(m.call(&Call::load(4, 0x1004)), value(0x5566_7788));
        for (i, byte) in OLD.to_le_bytes().into_iter().enumerate() {
            let mut m = ready();
            let at = 0x1000 + i as u32;
            assert_eq!(m.call(&Call::swap(1, at, 0xFE)), value(byte as u32));
            let mut left = OLD.to_le_bytes();
            left[i] = 0xFE;
            let left = u32::from_le_bytes(left);
            assert_eq!(m.call(&Call::load(4, 0x1000)), value(left));
        }
    }
}

/// "it is checked as a store": where loads alone are allowed it has a permission fault.
#[test]
fn rights_are_a_stores() {
    // AP 10: users may load; AP 00 with S: privileged loads alone
    for (word, control, privileged) in [(0x80E, 0xD, false), (0x00E, 0x10D, true)] {
        let swap = Call::Swap {
            privileged,
            width: 4,
            address: 0x1000,
            value: 7,
        };
        let load = Call::Load {
            privileged,
            width: 4,
            address: 0x1000,
        };
        for held in [false, true] {
            let mut m = section(word, control);
            if held {
                serve(&mut m, &[load]);
            }
            let denied = fault(Status::PermissionSection, 0, 0x1000);
            let before = m.clone();
            assert_eq!(m.call(&swap), denied);
            assert_eq!((m.store, m.memory), (before.store, before.memory));
            assert_eq!(m.state.counts.hits, 0);
            assert_eq!(plain_section(word, control).call(&swap), denied);
        }
    }
    let mut m = section(0xC0E, 0xD);
    serve(&mut m, &[user_swap(4, 0x1000, 7), Call::write(3, 0)]);
    let denied = fault(Status::DomainSection, 0, 0x1000);
    assert_eq!(m.call(&Call::swap(4, 0x1000, 7)), denied);
}

/// Alignment is an access's: with A set a word not at a multiple of 4 faults, with A clear the low bits
/// are cleared. FAR is the address given.
#[test]
fn alignment() {
    for held in [false, true] {
        for low in 1..4 {
            let mut m = section(0xC0E, 0xD);
            if held {
                serve(&mut m, &[Call::load(1, 0x1000)]);
            }
            let swap = Call::swap(4, 0x1000 + low, 7);
            assert_eq!(m.call(&swap), value(OLD));
            assert_eq!(m.call(&Call::load(4, 0x1000)), value(7));
            serve(&mut m, &[Call::write(1, 0xF)]);
            let misaligned = fault(Status::Alignment, 0, 0x1000 + low);
            assert_eq!(m.call(&swap), misaligned);
            assert_eq!(m.call(&Call::read(6)), value(0x1000 + low));
            serve(&mut m, &[Call::swap(1, 0x1000 + low, 7)]);
        }
    }
}

/// "if the line is held, reads and writes the cached line": memory and buffer stay, its half is marked, one
/// hit is counted.
#[test]
fn a_hit() {
    for (address, dirty) in [(0x1004, [1, 0]), (0x101C, [0, 1])] {
        let mut m = section(0xC0E, 0xD);
        serve(&mut m, &[Call::load(1, 0x1000), Call::store(4, 0x2000, 9)]);
        let before = m.clone();
        serve(&mut m, &[Call::swap(4, address, 0xAABB_CCDD)]);
        let line = m.state.cache.find(0x1000).expect("held");
        assert_eq!(m.state.cache.lines[line].dirty, dirty);
        let at = line * 32 + address as usize % 32;
        assert_eq!(words::read(&m.store, at, 4), 0xAABB_CCDD);
        assert_eq!(m.memory, before.memory);
        assert_eq!(m.state.buffer, before.state.buffer);
        let counted = Counts {
            calls: before.state.counts.calls + 1,
            hits: before.state.counts.hits + 1,
            ..before.state.counts
        };
        assert_eq!(m.state.counts, counted);
    }
}

/// The cache "is searched always, even when disabled", and a hit has "no bounds test".
#[test]
fn a_hit_anywhere() {
    for (_, control) in everywhere() {
        let mut m = section(0xC0E, 0xD);
        serve(&mut m, &[Call::load(1, 0x1000), Call::write(1, control)]);
        assert_eq!(m.call(&Call::swap(4, 0x1000, 7)), value(OLD));
        assert_eq!((m.state.counts.hits, m.memory[0x1000]), (1, 0xB4));
    }
    // the line is held; then its section is mapped outside memory
    let mut m = section(0xC0E, 0xD);
    serve(&mut m, &[Call::load(4, 0x1000), Call::flush_tlb()]);
    m.memory[2] = 0xF0;
    assert_eq!(m.call(&Call::swap(4, 0x1000, 7)), value(OLD));
}

/// "Otherwise the buffer is drained and memory is read, then written, without filling a line": wherever a
/// load fills, a store is buffered, or neither; with entries of the word and of others.
#[test]
fn a_miss() {
    for (word, control) in everywhere() {
        // the buffer gets its entries where stores are buffered
        let mut m = section(0xC06, 9);
        serve(
            &mut m,
            &[
                Call::store(1, 0x1001, 0xEE),
                Call::store(4, 0x2000, 9),
                Call::write(1, control),
                Call::flush_tlb(),
            ],
        );
        words::write(&mut m.memory, 0, 4, word);
        let before = m.clone();
        assert_eq!(before.state.buffer.entries, 2);
        let old = OLD & !0xFF00 | 0xEE00;
        assert_eq!(m.call(&Call::swap(4, 0x1000, 7)), value(old));
        assert_eq!(m.state.buffer.entries, 0);
        assert_eq!(words::read(&m.memory, 0x1000, 4), 7);
        assert_eq!(m.memory[0x2000], 9);
        assert_eq!((m.state.cache, m.store), (before.state.cache, before.store));
        let counted = Counts {
            calls: before.state.counts.calls + 1,
            tlb_misses: before.state.counts.tlb_misses + control % 2,
            ..before.state.counts
        };
        assert_eq!(m.state.counts, counted);
    }
}

/// "an aborted read, found before the drain, is followed by no write; codes 8 and 10 apply, also on a
/// buffered page": never 4 or 6, and not dropped. Only FSR, FAR, TLB and counts change.
#[test]
fn outside_memory() {
    for (word, control) in everywhere() {
        for at in [0x4000, 0xF_FFFC] {
            let answer = fault(Status::OtherSection, 0, at);
            aborts(&mut section(word, control), at, answer);
            let mut plain = plain_section(word, control);
            let memory = plain.memory.clone();
            assert_eq!(plain.call(&Call::swap(4, at, 7)), answer);
            assert_eq!(plain.memory, memory);
            assert_eq!((plain.registers.fsr, plain.registers.far), (8, at));
        }
        if control == 0 {
            continue; // without translation there is no page
        }
        // a small page of domain 3 with the section's C and B
        let words = [(4, 0x461), (0x400, 0x0010_0FF2 | word & 0xC)];
        let setup = [Call::write(3, 0x40), Call::write(1, control)];
        let mut m = machine(0x4000, &words, &setup);
        aborts(&mut m, 0x100000, fault(Status::OtherPage, 3, 0x100000));
        assert_eq!(m.registers.plain.fsr, 0x3A);
    }
}

/// The swap at this address answers the fault, and leaves cache, buffer, memory and store.
fn aborts(m: &mut Machine, address: u32, answer: Answer) {
    let mut slot = m.state.buffer.slots[0];
    (slot.block, slot.mask, slot.bytes[0]) = (0x200, 1, 9);
    (m.state.buffer.slots[0], m.state.buffer.entries) = (slot, 1);
    let before = m.clone();
    assert_eq!(m.call(&Call::swap(4, address, 7)), answer);
    assert_eq!(m.state.buffer, before.state.buffer);
    assert_eq!(m.state.cache, before.state.cache);
    assert_eq!((&m.memory, &m.store), (&before.memory, &before.store));
    assert_eq!(m.state.counts.calls, before.state.counts.calls + 1);
    assert_eq!(m.state.counts.hits, before.state.counts.hits);
}

/// "A width of 2 is refused as 6", as any but 1 and 4, before a value that does not fit as 7. The plain
/// machine refuses alike.
#[test]
fn refusals() {
    for (width, value, number) in [
        (2, 0, 6),
        (2, u32::MAX, 6),
        (0, 0, 6),
        (3, 0, 6),
        (5, 0, 6),
        (8, 0, 6),
        (u32::MAX, u32::MAX, 6),
        (1, 0x100, 7),
        (1, u32::MAX, 7),
    ] {
        for swap in [
            Call::swap(width, 0x1000, value),
            user_swap(width, 0x1000, value),
        ] {
            let mut m = section(0xC0E, 0xD);
            serve(&mut m, &[Call::load(4, 0x1000), Call::store(4, 0x2000, 9)]);
            let before = m.clone();
            assert_eq!(m.call(&swap), Answer::Refused(number), "{swap}");
            assert_eq!(m, before, "{swap}");
            let mut plain = plain_section(0xC0E, 0xD);
            let before = plain.clone();
            assert_eq!(plain.call(&swap), Answer::Refused(number), "{swap}");
            assert_eq!(plain, before, "{swap}");
        }
    }
    serve(
        &mut section(0xC0E, 0xD),
        &[Call::swap(1, 0x1000, 0xFF), Call::swap(4, 0x1000, u32::MAX)],
    );
}

/// "as one call; in a run the plain machine loads and stores together".
#[test]
fn the_plain_machine() {
    for (word, control) in everywhere() {
        let mut plain = plain_section(word, control);
        let before = plain.clone();
        assert_eq!(plain.call(&Call::swap(4, 0x1002, 7)), value(OLD));
        assert_eq!(words::read(&plain.memory, 0x1000, 4), 7);
        assert_eq!(plain.call(&Call::swap(1, 0x1000, 0x80)), value(7));
        assert_eq!(plain.call(&Call::swap(1, 0x1000, 0)), value(0x80));
        assert_eq!(plain.calls, before.calls + 3);
        assert_eq!(plain.registers, before.registers);
    }
}

/// Five numbers: kind 5 is a swap, kinds 6 and above are no call.
#[test]
fn numbers() {
    for call in [
        Call::swap(4, 0x1000, 7),
        user_swap(1, u32::MAX, 0xFF),
        Call::swap(2, 3, u32::MAX),
    ] {
        let numbers = call.to_numbers();
        assert_eq!(numbers[0], 5);
        assert_eq!(Call::from_numbers(&numbers), Some(call));
        for kind in [6, 7, 255, 256 + 5, u32::MAX] {
            let [_, privileged, width, address, value] = numbers;
            let numbers = [kind, privileged, width, address, value];
            assert_eq!(Call::from_numbers(&numbers), None);
        }
        let [_, _, width, address, value] = numbers;
        assert_eq!(Call::from_numbers(&[5, 2, width, address, value]), None);
    }
}
