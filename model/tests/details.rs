//! Parts of document 01 that a comparison with the plain machine cannot see.

mod common;
use common::*;
use sa110_model::answers::{Answer, Status};
use sa110_model::calls::Call;
use sa110_model::machine::Machine;
use sa110_model::state::{Line, Slot};

/// A line held with both halves dirty: 11 at its first byte, 22 at its seventeenth.
fn dirty_line(address: u32) -> [Call; 3] {
    [
        Call::load(4, address),
        Call::store(1, address, 0x11),
        Call::store(1, address + 16, 0x22),
    ]
}

#[test]
fn a_clean_sends_the_low_half_first_and_keeps_the_line() {
    let mut m = mapped_twice();
    serve(&mut m, &dirty_line(0x1000));
    serve(&mut m, &[Call::clean_line(0x101C)]);
    assert_eq!(blocks(&m), [0x100, 0x101]);
    assert_eq!(m.state.buffer.slots[0].mask, 0xFFFF);
    assert_eq!(m.state.buffer.slots[1].bytes[0], 0x22);
    let line = m.state.cache.lines[0];
    assert_eq!((line.valid, line.frame, line.dirty), (1, 0x80, [0, 0]));
    assert_eq!(m.state.counts.halves, 2);
    serve(
        &mut m,
        &[Call::clean_line(0x1000), Call::clean_line(0x5000)],
    );
    assert_eq!((m.state.counts.halves, m.state.buffer.entries), (2, 2));
}

#[test]
fn a_victims_halves_take_new_entries() {
    let mut m = mapped_twice();
    serve(&mut m, &[Call::store(1, 0x1010, 0x33)]);
    serve(&mut m, &dirty_line(0x1000));
    // The fill drained the store. A store to the same block from another line's address:
    serve(&mut m, &[Call::store(1, 0x101011, 0x44)]);
    assert_eq!(blocks(&m), [0x101]);
    m.state.cache.pointers[0] = 0;
    serve(&mut m, &[Call::load(4, 0x1200)]);
    // The halves did not join the entry of block 101.
    assert_eq!(blocks(&m), [0x101, 0x100, 0x101]);
    assert_eq!(m.state.counts.halves, 2);
    assert_eq!(m.state.cache.pointers[0], 1);
    // A store joins the newest entry of its block, here a half.
    serve(&mut m, &[Call::store(1, 0x101012, 0x55)]);
    assert_eq!(blocks(&m), [0x101, 0x100, 0x101]);
    assert_eq!(m.state.buffer.slots[0].mask, 0b10);
    assert_eq!(m.state.buffer.slots[2].bytes[..3], [0x22, 0, 0x55]);
}

#[test]
fn eight_entries_rest_and_the_ninth_pushes_the_oldest_out() {
    let mut m = mapped_twice();
    for i in 0..8 {
        serve(&mut m, &[Call::store(4, 0x1000 + 16 * i, 0x100 + i)]);
    }
    assert_eq!(m.state.buffer.entries, 8);
    assert!(m.memory[0x1000..0x1080].iter().all(|byte| *byte == 0));
    // A join into a full buffer sends nothing out.
    serve(&mut m, &[Call::store(2, 0x1004, 0xABCD)]);
    assert_eq!(m.state.buffer.slots[0].mask, 0x3F);
    assert_eq!(m.state.buffer.entries, 8);
    serve(&mut m, &[Call::store(4, 0x2000, 9)]);
    let expected: Vec<u32> = (0x101..0x108).chain([0x200]).collect();
    assert_eq!(blocks(&m), expected);
    assert_eq!(m.memory[0x1000..0x1008], [0, 1, 0, 0, 0xCD, 0xAB, 0, 0]);
    serve(&mut m, &[Call::drain()]);
    assert_eq!(m.state.buffer.entries, 0);
    assert_eq!(m.state.buffer.slots, [Slot::EMPTY; 8]);
    assert_eq!(m.memory[0x1070], 7);
}

#[test]
fn drains_before_reads_go_by_masked_bytes() {
    // A fill goes by the whole line.
    let mut m = mapped_twice();
    serve(&mut m, &[Call::store(1, 0x101F, 1), Call::load(1, 0x1000)]);
    assert_eq!(m.state.buffer.entries, 0);
    let mut m = mapped_twice();
    serve(&mut m, &[Call::store(1, 0x1020, 1), Call::load(1, 0x1000)]);
    assert_eq!(m.state.buffer.entries, 1);
    // An uncached load goes by the access.
    let setup = [Call::write(3, 1), Call::write(1, 9)];
    let mut m = machine(0x4000, &[(0, 0xC0E)], &setup);
    serve(&mut m, &[Call::store(1, 0x1003, 1), Call::load(1, 0x1002)]);
    serve(&mut m, &[Call::load(2, 0x1000), Call::load(4, 0x1004)]);
    assert_eq!(m.state.buffer.entries, 1);
    assert_eq!(m.call(&Call::load(2, 0x1002)), value(0x100));
    assert_eq!(m.state.buffer.entries, 0);
}

#[test]
fn stores_that_miss() {
    // C or B buffers, with W; neither, or no W, or M clear, drains and writes.
    for (word, control, buffered) in [
        (0xC0E, 0xD, true),
        (0xC0A, 0xD, true),
        (0xC06, 0xD, true),
        (0xC02, 0xD, false),
        (0xC0E, 9, true),
        (0xC0E, 1, false),
        (0xC0E, 0, false),
    ] {
        let setup = [Call::write(3, 1), Call::write(1, control)];
        let mut m = machine(0x4000, &[(0, word)], &setup);
        serve(&mut m, &[Call::store(4, 0x1000, 7)]);
        assert_eq!(m.state.buffer.entries, buffered as u32);
        assert_eq!(m.memory[0x1000], if buffered { 0 } else { 7 });
        // Outside memory: dropped or a fault, and nothing is drained.
        let answer = m.call(&Call::store(4, 0x4000, 7));
        let outside = fault(Status::OtherSection, 0, 0x4000);
        assert_eq!(answer, if buffered { value(0) } else { outside });
        assert_eq!(m.state.buffer.entries, buffered as u32);
    }
    let mut m = mapped_twice();
    serve(&mut m, &[Call::store(4, 0x1000, 7), Call::write(1, 0)]);
    serve(&mut m, &[Call::store(4, 0x2000, 8)]);
    assert_eq!((m.memory[0x1000], m.memory[0x2000]), (7, 8));
}

#[test]
fn a_hit_asks_no_bounds() {
    // VA 1000 is held; then its section is mapped outside memory.
    let mut m = mapped_twice();
    serve(&mut m, &[Call::load(4, 0x1000), Call::flush_tlb()]);
    m.memory[2] = 0xF0;
    assert_eq!(m.call(&Call::load(4, 0x1000)), value(0));
    let answer = m.call(&Call::load(4, 0x1200));
    assert_eq!(answer, fault(Status::FillSection, 0, 0x1200));
}

#[test]
fn the_lowest_tlb_entry_serves_and_ap0_of_a_section() {
    let mut m = mapped_twice();
    serve(&mut m, &[Call::load(4, 0x1000)]);
    m.state.tlb[5] = m.state.tlb[0];
    m.state.tlb[5].ap = [0; 4];
    serve(&mut m, &[Call::load(4, 0x1000)]);
    m.state.tlb[0].ap = [0, 3, 3, 3];
    let denied = fault(Status::PermissionSection, 0, 0xC00);
    assert_eq!(m.call(&Call::load(4, 0xC00)), denied);
    // Dropping empties both entries, and the pointer stays.
    serve(&mut m, &[Call::drop_tlb_entry(0xFFFFF)]);
    assert!(m.state.tlb.iter().all(|entry| entry.valid == 0));
    assert_eq!(m.registers.tlb_pointer, 1);
}

#[test]
fn the_tlb_pointer_steps_round() {
    let mut m = machine(0x4000, &[], &[Call::write(3, 1), Call::write(1, 1)]);
    for i in 0..40 {
        sa110_model::words::write(&mut m.memory, 4 * i, 4, 0xC0E);
    }
    for i in 0..33 {
        serve(&mut m, &[Call::load(4, i << 20)]);
    }
    assert_eq!(m.registers.tlb_pointer, 1);
    assert_eq!(m.state.tlb[0].virtual_base, 32 << 20);
    assert_eq!(m.state.counts.tlb_misses, 33);
    serve(&mut m, &[Call::load(4, 5 << 20), Call::load(4, 0)]);
    assert_eq!(m.state.counts.tlb_misses, 34);
    // A miss counts even if its walk faults, and fills nothing.
    m.call(&Call::load(4, 50 << 20));
    assert_eq!(m.state.counts.tlb_misses, 35);
    assert_eq!(m.registers.tlb_pointer, 2);
    // An alignment fault is found before translation.
    serve(&mut m, &[Call::write(1, 3)]);
    m.call(&Call::load(4, (51 << 20) + 1));
    assert_eq!(m.state.counts.tlb_misses, 35);
}

#[test]
fn permissions_by_quarter() {
    // APs 3, 2, 1, 0 from the lowest quarter upward.
    let ap = 0x1B0;
    let setup = [Call::write(3, 1), Call::write(1, 0xD)];
    let mut words = vec![(4, 0x401), (0x400, ap | 2)];
    words.extend((16..32).map(|i| (0x400 + 4 * i, ap | 1)));
    let mut m = machine(0x10000, &words, &setup);
    for (address, quarter) in [(0x100000, 0x400), (0x110000, 0x4000)] {
        let status = |i: u32, call: Call, m: &mut Machine| {
            let answer = m.call(&call);
            assert_eq!(matches!(answer, Answer::Value(_)), i == 1, "{call}");
        };
        for i in 0..4 {
            let at = address + i * quarter;
            // AP of 1B0's quarters: 3, 2, 1, 0.
            let allowed = [(1, 1, 1, 1), (1, 0, 1, 1), (0, 0, 1, 1), (0, 0, 0, 0)][i as usize];
            status(allowed.0, user_load(4, at), &mut m);
            status(allowed.1, user_store(4, at, 0), &mut m);
            status(allowed.2, Call::load(4, at), &mut m);
            status(allowed.3, Call::store(4, at, 0), &mut m);
        }
    }
}

#[test]
fn flushes_lose_dirty_bytes_and_keep_pointers_and_store() {
    for flush in [Call::flush_dcache(), Call::operate(7, 0, 7, 0)] {
        let mut m = mapped_twice();
        serve(&mut m, &dirty_line(0x1000));
        let store = m.store.clone();
        serve(&mut m, &[flush]);
        assert_eq!(m.state.cache.lines, [Line::EMPTY; 512]);
        assert_eq!(m.state.cache.pointers[0], 1);
        assert_eq!(m.store, store);
        assert_eq!(m.call(&Call::load(1, 0x1000)), value(0));
    }
    let mut m = mapped_twice();
    serve(&mut m, &dirty_line(0x1000));
    serve(&mut m, &dirty_line(0x1200));
    serve(
        &mut m,
        &[Call::flush_line(0x1010), Call::flush_line(0x7000)],
    );
    assert_eq!(m.state.cache.lines[0], Line::EMPTY);
    assert_eq!(m.state.cache.lines[1].valid, 1);
    assert_eq!(m.state.cache.pointers[0], 2);
    // (0,5) does nothing.
    let before = m.clone();
    serve(
        &mut m,
        &[Call::operate(7, 0, 5, 1), Call::operate(8, 0, 5, 1)],
    );
    assert_eq!(m.state.cache, before.state.cache);
    assert_eq!(m.state.tlb, before.state.tlb);
}

#[test]
fn registers_read_what_they_keep() {
    let mut m = Machine::fresh(vec![]);
    for register in [2, 3, 4, 5, 6] {
        serve(&mut m, &[Call::write(register, u32::MAX)]);
    }
    serve(&mut m, &[Call::write(1, 0xFFFFFF7F)]);
    let reads: Vec<Answer> = (0..7).map(|r| m.call(&Call::read(r))).collect();
    let kept = [0x4401A100, 0x137F, 0xFFFFC000, u32::MAX, 0, 0xFF, u32::MAX];
    assert_eq!(reads, kept.map(value));
    assert_eq!(m.state.counts.calls, 13);
}

#[test]
fn counts_of_an_access() {
    let mut m = mapped_twice();
    let counts = |m: &Machine| {
        let c = m.state.counts;
        [c.calls, c.tlb_misses, c.hits, c.fills, c.halves]
    };
    assert_eq!(counts(&m), [2, 0, 0, 0, 0]);
    serve(&mut m, &[Call::load(4, 0x1000)]);
    assert_eq!(counts(&m), [3, 1, 0, 1, 0]);
    serve(&mut m, &[Call::load(4, 0x1004), Call::store(4, 0x1008, 1)]);
    assert_eq!(counts(&m), [5, 1, 2, 1, 0]);
    // A dropped store counts as a call only.
    serve(&mut m, &[Call::store(4, 0x4000, 1)]);
    assert_eq!(counts(&m), [6, 1, 2, 1, 0]);
    // A denied access to a held line is no hit.
    serve(&mut m, &[Call::write(3, 0)]);
    let answer = m.call(&Call::load(4, 0x1000));
    assert_eq!(answer, fault(Status::DomainSection, 0, 0x1000));
    assert_eq!(counts(&m), [8, 1, 2, 1, 0]);
}

#[test]
fn alignment_with_m_clear() {
    let mut m = machine(0x40, &[(0, 0x44332211)], &[]);
    assert_eq!(m.call(&Call::load(4, 3)), value(0x44332211));
    assert_eq!(m.call(&Call::load(2, 3)), value(0x4433));
    serve(&mut m, &[Call::write(1, 2)]);
    assert_eq!(m.call(&Call::load(4, 2)), fault(Status::Alignment, 0, 2));
    assert_eq!(m.call(&Call::load(2, 1)), fault(Status::Alignment, 0, 1));
    assert_eq!(m.call(&Call::load(1, 3)), value(0x44));
    assert_eq!(
        m.call(&Call::load(4, 0x40)),
        fault(Status::OtherSection, 0, 0x40)
    );
}

#[test]
fn page_statuses_and_domains() {
    // Table 400 with domain 3; small pages: outside and cacheable, outside and not.
    let words = [(4, 0x461), (0x400, 0x00100FFE), (0x404, 0x00100FF2)];
    let setup = [Call::write(3, u32::MAX), Call::write(1, 0xD)];
    let mut m = machine(0x4000, &words, &setup);
    let answer = m.call(&Call::load(4, 0x100000));
    assert_eq!(answer, fault(Status::FillPage, 3, 0x100000));
    let answer = m.call(&Call::load(4, 0x101000));
    assert_eq!(answer, fault(Status::OtherPage, 3, 0x101000));
    let answer = m.call(&Call::store(4, 0x101000, 0));
    assert_eq!(answer, fault(Status::OtherPage, 3, 0x101000));
    serve(&mut m, &[Call::store(4, 0x100000, 0)]);
    assert_eq!(m.call(&Call::read(5)), value(0x3A));
}

#[test]
fn looks() {
    let mut m = mapped_twice();
    serve(&mut m, &dirty_line(0x1000));
    serve(&mut m, &[Call::store(4, 0x2000, 7), Call::write(3, 0)]);
    let before = m.clone();
    // Held: out of the store, dirty bytes shown.
    let held = m.look(0x1013);
    assert_eq!((held.len(), held[0], held[16]), (32, 0x11, 0x22));
    assert!(std::ptr::eq(held, &m.store[..32]));
    // Not held: out of memory, by a walk; rights not asked, buffered bytes not shown.
    let other = m.look(0x102005);
    assert!(std::ptr::eq(other, &m.memory[0x2000..0x2020]));
    assert_eq!(other[0], 0);
    // Walk and bounds faults.
    assert!(m.look(0x200000).is_empty());
    assert!(m.look(0x4000).is_empty());
    assert!(m.look(0xFFF00000).is_empty());
    assert_eq!(m, before);
    // Past the TLB: the walk sees the changed word, the TLB keeps the old one.
    m.memory[0] = 0;
    assert!(m.look(0x2000).is_empty());
    // Flat with M clear; the last line of the address space.
    serve(&mut m, &[Call::write(1, 0)]);
    assert!(std::ptr::eq(m.look(0x1000), &m.store[..32]));
    assert!(std::ptr::eq(m.look(0x3FFF), &m.memory[0x3FE0..0x4000]));
    assert!(m.look(u32::MAX).is_empty());
}
