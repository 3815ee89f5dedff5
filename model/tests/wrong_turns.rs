//! The wrong turns seen in other models: each test fails a model that takes the turn.

mod common;
use common::*;
use sa110_model::answers::Status;
use sa110_model::calls::Call;

fn no_section(address: u32) -> sa110_model::Answer {
    fault(Status::TranslationSection, 0, address)
}

/// Walking through the cache: the new descriptor lies in a dirty line.
#[test]
fn the_walk_does_not_see_the_cache() {
    let mut m = mapped_twice();
    serve(&mut m, &[Call::load(4, 0), Call::store(4, 8, 0xC0E)]);
    assert_eq!(m.state.cache.lines[0].dirty, [1, 0]);
    assert_eq!(m.call(&Call::load(4, 0x200000)), no_section(0x200000));
    // A second-level word in a dirty line.
    let mut m = machine(
        0x4000,
        &[(0, 0xC0E), (4, 0x401)],
        &[
            Call::write(3, 1),
            Call::write(1, 0xD),
            Call::load(4, 0x400),
            Call::store(4, 0x400, 0x1FF2),
        ],
    );
    let answer = m.call(&Call::load(4, 0x100000));
    assert_eq!(answer, fault(Status::TranslationPage, 0, 0x100000));
}

/// Walking through the buffer: the new descriptor lies in a buffer entry, and stays there.
#[test]
fn the_walk_does_not_see_the_buffer() {
    let mut m = mapped_twice();
    serve(&mut m, &[Call::store(4, 8, 0xC0E)]);
    assert_eq!(m.state.buffer.entries, 1);
    assert_eq!(m.call(&Call::load(4, 0x200000)), no_section(0x200000));
    assert_eq!(m.state.buffer.entries, 1);
    serve(&mut m, &[Call::drain(), Call::load(4, 0x200000)]);
}

/// Checking domain before the second level: domain 1 has value 0, yet 7 and 14 come first.
#[test]
fn domain_comes_after_the_second_level() {
    let setup = [Call::write(3, 1), Call::write(1, 0xD)];
    let mut m = machine(0x4000, &[(4, 0x421)], &setup);
    let answer = m.call(&Call::load(4, 0x100000));
    assert_eq!(answer, fault(Status::TranslationPage, 1, 0x100000));
    let mut m = machine(0x4000, &[(4, 0x4021)], &setup);
    let answer = m.call(&Call::load(4, 0x100000));
    assert_eq!(answer, fault(Status::WalkLevel2, 1, 0x100000));
    // A valid mapping goes to the TLB before the domain fault.
    let mut m = machine(0x4000, &[(4, 0x421), (0x400, 0xFFE)], &setup);
    let answer = m.call(&Call::load(4, 0x100000));
    assert_eq!(answer, fault(Status::DomainPage, 1, 0x100000));
    assert_eq!((m.state.tlb[0].valid, m.registers.tlb_pointer), (1, 1));
}

/// Filling an empty line instead of the pointer's.
#[test]
fn the_fill_takes_the_pointers_line() {
    let mut m = mapped_twice();
    let line = |i: u32| Call::load(4, i * 0x200);
    serve(&mut m, &[line(0), line(1), line(2), Call::flush_line(0)]);
    assert_eq!(m.state.cache.lines[0].valid, 0);
    serve(&mut m, &[line(3)]);
    assert_eq!(m.state.cache.lines[0].valid, 0);
    assert_eq!(m.state.cache.lines[3].tag, 3);
    // The pointer's line gives way although the others are empty.
    let mut m = mapped_twice();
    serve(&mut m, &[line(0)]);
    m.state.cache.pointers[0] = 0;
    serve(&mut m, &[line(1)]);
    assert_eq!(m.state.cache.lines[0].tag, 1);
    assert_eq!(m.state.cache.lines[1].valid, 0);
}

/// Allocating on a store.
#[test]
fn a_store_does_not_allocate() {
    let mut m = mapped_twice();
    serve(&mut m, &[Call::store(4, 0x1000, 7)]);
    assert!(m.state.cache.lines.iter().all(|line| line.valid == 0));
    assert_eq!((m.state.counts.fills, m.state.buffer.entries), (0, 1));
}

/// Skipping the cache when it is disabled: by C, by M, and for a page that is not cacheable.
#[test]
fn the_cache_is_searched_when_disabled() {
    for control in [9, 1, 0] {
        let mut m = mapped_twice();
        serve(&mut m, &[Call::load(4, 0x1000), Call::write(1, control)]);
        m.memory[0x1000] = 0x55;
        assert_eq!(m.call(&Call::load(4, 0x1000)), value(0));
        serve(&mut m, &[Call::store(4, 0x1004, 7)]);
        assert_eq!(m.state.counts.hits, 2);
        let line = m.state.cache.find(0x1000).expect("held");
        assert_eq!(m.state.cache.lines[line].dirty, [1, 0]);
        assert_eq!(m.memory[0x1004], 0);
    }
    let mut m = mapped_twice();
    serve(&mut m, &[Call::load(4, 0x1000), Call::flush_tlb()]);
    m.memory[0] = 0x02;
    m.memory[0x1000] = 0x55;
    assert_eq!(m.call(&Call::load(4, 0x1000)), value(0));
}

/// Setting FAR to the cleared address.
#[test]
fn far_is_the_address_given() {
    let mut m = mapped_twice();
    let answer = m.call(&Call::load(4, 0x200003));
    assert_eq!(answer, no_section(0x200003));
    assert_eq!(m.call(&Call::read(6)), value(0x200003));
    let answer = m.call(&Call::load(2, 0x4001));
    assert_eq!(answer, fault(Status::FillSection, 0, 0x4001));
    assert_eq!(m.call(&Call::read(6)), value(0x4001));
}
