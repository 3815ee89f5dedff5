//! Bad words on the bus (document 02, Five), on the library machine. Each test quotes the words that it is about.

mod common;
use common::*;
use sa110_model::answers::{Answer, Status};
use sa110_model::calls::Call;
use sa110_model::library;
use sa110_model::machine::Machine;
use sa110_model::state::{Counts, Line, Slot, STORE_BYTES};
use sa110_model::text;
use sa110_model::words;

/// Megabyte 0 is a section of physical 0, megabyte 1 has domain 3 and small pages 0 to 3 of physical 0 on:
/// both cacheable and bufferable. Megabytes 2 and 3 are as they, and neither cacheable nor bufferable. Word
/// i of 1000 to 3FFF is i.
fn words_of_tables() -> Vec<(usize, u32)> {
    let mut words = vec![(0, 0xC0E), (4, 0x461), (8, 0xC02), (12, 0x861)];
    for page in 0..4 {
        words.push((0x400 + 4 * page, 0xFFE | (page as u32) << 12));
        words.push((0x800 + 4 * page, 0xFF2 | (page as u32) << 12));
    }
    words.extend((0x400..0x1000).map(|i| (4 * i, i as u32)));
    words
}

const PAGE: u32 = 1 << 20;
const UNCACHED: u32 = 2 << 20;
const UNCACHED_PAGE: u32 = 3 << 20;

/// A machine with these tables and bad words; M, C and W are set.
fn ready(bad: &[u32]) -> Machine {
    let setup = [Call::write(3, 0x41), Call::write(1, 0xD)];
    bad_machine(0x4000, &words_of_tables(), bad, &setup)
}

/// The line of this address is held with both halves dirty, and is the next victim of its set.
fn dirty_victim(m: &mut Machine, line: u32) {
    let pointers = m.state.cache.pointers;
    serve(
        m,
        &[
            Call::load(4, line),
            Call::store(1, line, 0x11),
            Call::store(1, line + 16, 0x22),
        ],
    );
    m.state.cache.pointers = pointers;
}

/// "A fill reads from the line's first word upward. An abort at or before the wanted word faults with 4 or
/// 6. A later one serves the load."
#[test]
fn where_a_fill_aborts() {
    for bad in 0..8 {
        for wanted in 0..8 {
            for (section, width) in [(true, 4), (true, 2), (true, 1), (false, 4)] {
                let mut m = ready(&[0x1200 + 4 * bad]);
                let base = if section { 0 } else { PAGE };
                let address = base + 0x1200 + 4 * wanted + (4 - width);
                let held = (0x480 + wanted) & (u32::MAX >> (32 - 8 * width));
                let held = if width == 4 { held } else { 0 };
                let expected = match (bad <= wanted, section) {
                    (false, _) => value(held),
                    (true, true) => fault(Status::FillSection, 0, address),
                    (true, false) => fault(Status::FillPage, 3, address),
                };
                assert_eq!(m.call(&Call::load(width, address)), expected);
                assert!(m.state.cache.find(address).is_none());
                if let Answer::Fault(fault) = expected {
                    assert_eq!(m.registers.plain.fsr, fault.fsr());
                    assert_eq!(m.registers.plain.far, address);
                }
            }
        }
    }
}

/// Of several bad words the first decides; a signed load is served with its sign.
#[test]
fn the_first_bad_word_decides() {
    let mut m = ready(&[0x1208, 0x120C, 0x121C]);
    for (address, served) in [(0x1204, true), (0x1208, false), (0x1210, false)] {
        let answer = m.call(&Call::load(4, address));
        assert_eq!(answer == value(address / 4), served, "{address:X}");
    }
    words::write(&mut m.memory, 0x1200, 4, 0x80FF_FF80);
    assert_eq!(m.call(&signed_load(1, 0x1200)), Answer::Signed(-128));
    assert_eq!(m.call(&signed_load(2, 0x1202)), Answer::Signed(-0x7F01));
}

/// "Either way the old line has already given way, the pointer has stepped and any drain is done, the place
/// stays empty, the cache store keeps its bytes, and no fill is counted."
#[test]
fn what_an_aborted_fill_leaves() {
    // bad before, at and behind the wanted word
    for (bad, served) in [(0x1200, false), (0x1208, false), (0x120C, true)] {
        let mut m = ready(&[bad]);
        dirty_victim(&mut m, 0x1000);
        serve(&mut m, &[Call::store(4, 0x1208, 0x1234_5678)]);
        serve(&mut m, &[Call::store(4, 0x2200, 9)]);
        let before = m.clone();
        let answer = m.call(&Call::load(4, 0x1208));
        let expected = match served {
            true => value(0x1234_5678),
            false => fault(Status::FillSection, 0, 0x1208),
        };
        assert_eq!(answer, expected);
        assert_eq!(m.state.cache.lines, [Line::EMPTY; 512]);
        assert_eq!(m.state.cache.pointers[0], 1);
        assert_eq!(m.state.buffer.slots, [Slot::EMPTY; 8]);
        assert_eq!((m.memory[0x1000], m.memory[0x1010]), (0x11, 0x22));
        assert_eq!(m.memory[0x2200], 9);
        // the store went to a word that is good in two of the cases
        let stored = words::read(&m.memory, 0x1208, 4);
        assert_eq!(stored, if bad == 0x1208 { 0x482 } else { 0x1234_5678 });
        assert_eq!(m.store, before.store);
        let counted = Counts {
            calls: before.state.counts.calls + 1,
            halves: before.state.counts.halves + 2,
            ..before.state.counts
        };
        assert_eq!(m.state.counts, counted);
        assert!(m.is_sound());
    }
}

/// The drain goes by the whole line, and is left out where no masked byte lies in it.
#[test]
fn the_drain_before_an_aborted_fill() {
    for (stored, drained) in [(0x121F, true), (0x1200, true), (0x1220, false)] {
        let mut m = ready(&[0x1210]);
        serve(&mut m, &[Call::store(1, stored, 7), Call::load(4, 0x1204)]);
        assert_eq!(m.state.buffer.entries == 0, drained, "{stored:X}");
        assert_eq!(m.memory[stored as usize] == 7, drained, "{stored:X}");
    }
}

/// The next load of the line aborts again, and an empty or clean victim gives way as well.
#[test]
fn aborts_again() {
    let mut m = ready(&[0x1210]);
    serve(&mut m, &[Call::load(4, 0x1000)]);
    m.state.cache.pointers[0] = 31;
    for pointer in [0, 1, 2] {
        serve(&mut m, &[Call::load(4, 0x1204)]);
        assert_eq!(m.state.cache.pointers[0], pointer);
    }
    assert_eq!(m.state.cache.lines, [Line::EMPTY; 512]);
    assert_eq!((m.state.counts.fills, m.state.counts.hits), (1, 0));
}

/// "This now holds too for fills outside memory", up to the last line of the address space.
#[test]
fn fills_outside_memory() {
    for (physical, low) in [(0, 0x4000), (0, 0xF_FFE0), (0xFFF0_0000, 0xF_FFFC)] {
        let mut m = ready(&[]);
        dirty_victim(&mut m, 0x1000 + low % 0x200 / 32 * 32);
        serve(&mut m, &[Call::store(4, 0x2200, 9)]);
        words::write(&mut m.memory, 0xFFC, 4, physical | 0xC0E);
        let before = m.clone();
        let address = 0x3FF << 20 | low;
        let answer = m.call(&Call::load(4, address));
        assert_eq!(answer, fault(Status::FillSection, 0, address));
        assert_eq!(m.state.cache.lines, [Line::EMPTY; 512]);
        let set = low as usize / 32 % 16;
        assert_eq!(m.state.cache.pointers[set], 1);
        // the halves wait behind the store: nothing of the line is masked, so nothing is drained
        assert_eq!(blocks(&m)[0], 0x220);
        assert_eq!((m.state.buffer.entries, m.state.counts.halves), (3, 2));
        assert_eq!((&m.memory, &m.store), (&before.memory, &before.store));
        assert_eq!(m.state.counts.fills, before.state.counts.fills);
    }
    let mut m = ready(&[]);
    words::write(&mut m.memory, 0x404, 4, 0x10_0FFE);
    let answer = m.call(&Call::load(4, PAGE + 0x1000));
    assert_eq!(answer, fault(Status::FillPage, 3, PAGE + 0x1000));
}

/// "Buffered bytes for a bad word are dropped on leaving": a store takes or joins an entry like any other.
#[test]
fn entries_with_bad_words() {
    let mut m = ready(&[0x1204]);
    serve(
        &mut m,
        &[
            Call::store(4, 0x1204, 0xAAAA_AAAA),
            Call::store(2, 0x1202, 0xBBBB),
            Call::store(1, 0x1207, 0xCC),
            Call::store(1, 0x1208, 0xDD),
        ],
    );
    let slot = m.state.buffer.slots[0];
    assert_eq!((m.state.buffer.entries, slot.mask), (1, 0x1FC));
    assert_eq!(slot.bytes[7], 0xCC);
    serve(&mut m, &[Call::drain()]);
    assert_eq!(m.state.buffer.entries, 0);
    let left = [0x80, 4, 0xBB, 0xBB, 0x81, 4, 0, 0, 0xDD, 4, 0, 0];
    assert_eq!(m.memory[0x1200..0x120C], left);
    // an entry of bad bytes alone changes nothing, and leaves as the oldest of a full buffer too
    let before = m.memory.clone();
    serve(&mut m, &[Call::store(4, 0x1204, 7)]);
    for i in 0..8 {
        serve(&mut m, &[Call::store(4, 0x2000 + 16 * i, 0)]);
    }
    assert_eq!((m.state.buffer.entries, blocks(&m)[0]), (8, 0x200));
    assert_eq!(m.memory, before);
    // outside memory no entry is taken
    serve(&mut m, &[Call::drain(), Call::store(4, 0x4000, 7)]);
    assert_eq!(m.state.buffer.entries, 0);
}

/// A half sent out, of a line that a constructed state holds, drops the bytes of its bad words.
#[test]
fn halves_with_bad_words() {
    for bad in 0..4 {
        let mut m = ready(&[]);
        serve(&mut m, &[Call::load(4, 0x1210)]);
        for i in 0..4 {
            serve(&mut m, &[Call::store(4, 0x1210 + 4 * i, 0x100 + i)]);
        }
        m.bad[0x1210 / 4 + bad] = 1;
        serve(&mut m, &[Call::clean_line(0x1200), Call::drain()]);
        for i in 0..4 {
            let expected = if i == bad { 0x484 + i } else { 0x100 + i };
            let word = words::read(&m.memory, 0x1210 + 4 * i, 4);
            assert_eq!(word, expected as u32);
        }
    }
}

/// "walks, uncached loads, swaps that miss and unbuffered stores abort as outside memory": with 8 and 10,
/// found before any drain.
#[test]
fn accesses_that_abort() {
    for (base, status, domain) in [
        (UNCACHED, Status::OtherSection, 0),
        (UNCACHED_PAGE, Status::OtherPage, 3),
    ] {
        for byte in 0..4 {
            let address = base + 0x1204 + byte;
            let answer = fault(status, domain, address);
            stays(&Call::load(1, address), answer);
            stays(&signed_load(1, address), answer);
            stays(&Call::store(1, address, 7), answer);
            stays(&Call::swap(1, address, 7), answer);
        }
        for call in [
            Call::load(4, base + 0x1204),
            Call::swap(4, base + 0x1204, 7),
        ] {
            stays(&call, fault(status, domain, base + 0x1204));
        }
        // its neighbours do not abort
        let mut m = ready(&[0x1204]);
        for address in [base + 0x1200, base + 0x1208] {
            let old = m.call(&Call::swap(4, address, 7));
            assert_eq!(old, value(address % 0x10000 / 4));
            assert_eq!(m.call(&Call::load(4, address)), value(7));
        }
    }
    // a swap aborts so where a load fills and a store is buffered
    stays(
        &Call::swap(4, 0x1204, 7),
        fault(Status::OtherSection, 0, 0x1204),
    );
    let page = PAGE + 0x1204;
    stays(&Call::swap(4, page, 7), fault(Status::OtherPage, 3, page));
}

/// With the word at 1204 bad and bytes of it and of others in the buffer, the call answers the fault and
/// leaves cache, buffer, memory and store.
fn stays(call: &Call, answer: Answer) {
    let mut m = ready(&[0x1204]);
    serve(
        &mut m,
        &[Call::store(4, 0x1204, 9), Call::store(4, 0x2000, 9)],
    );
    serve(&mut m, &[Call::load(4, 0x3000)]);
    let before = m.clone();
    assert_eq!(m.call(call), answer, "{call}");
    assert_eq!(m.state.buffer, before.state.buffer);
    assert_eq!(m.state.cache, before.state.cache);
    assert_eq!((&m.memory, &m.store), (&before.memory, &before.store));
    assert_eq!(m.state.counts.hits, before.state.counts.hits);
    assert_eq!(m.state.counts.calls, before.state.counts.calls + 1);
}

/// With M clear, with M alone and with M and W too.
#[test]
fn accesses_that_abort_by_control() {
    for control in [0, 1, 9] {
        let mut m = ready(&[0x1204]);
        serve(&mut m, &[Call::write(1, control)]);
        let aborted = fault(Status::OtherSection, 0, 0x1204);
        assert_eq!(m.call(&Call::load(4, 0x1204)), aborted);
        assert_eq!(m.call(&Call::swap(4, 0x1204, 7)), aborted);
        let stored = m.call(&Call::store(4, 0x1204, 7));
        assert_eq!(stored, if control == 9 { value(0) } else { aborted });
        assert_eq!(m.state.buffer.entries, control / 9);
    }
}

/// Walks: 12 and domain 0 by a bad level 1 word, 14 and the level 1 word's domain by a bad level 2 word; the
/// miss counts, the TLB and its pointer stay.
#[test]
fn walks_that_abort() {
    let level1 = fault(Status::WalkLevel1, 0, PAGE + 0x1234);
    let level2 = fault(Status::WalkLevel2, 3, PAGE + 0x1234);
    for (bad, answer) in [(4, level1), (0x404, level2)] {
        for call in [
            Call::load(4, PAGE + 0x1234),
            Call::store(4, PAGE + 0x1234, 7),
            Call::swap(4, PAGE + 0x1234, 7),
        ] {
            let mut m = ready(&[bad]);
            let before = m.clone();
            assert_eq!(m.call(&call), answer, "{call}");
            assert_eq!(m.state.tlb, before.state.tlb);
            assert_eq!(m.registers.tlb_pointer, 0);
            assert_eq!(m.state.counts.tlb_misses, 1);
        }
    }
    // a mapping in the TLB serves without a walk
    let mut m = ready(&[]);
    serve(&mut m, &[Call::load(4, PAGE + 0x1234)]);
    m.bad[0x404 / 4] = 1;
    serve(&mut m, &[Call::load(4, PAGE + 0x1638)]);
}

/// Alignment, domain and permission come before a bad word.
#[test]
fn earlier_statuses() {
    let mut m = ready(&[0x1204]);
    serve(&mut m, &[Call::write(1, 0xF)]);
    let answer = m.call(&Call::load(4, 0x1206));
    assert_eq!(answer, fault(Status::Alignment, 0, 0x1206));
    serve(&mut m, &[Call::write(3, 0x40)]);
    let answer = m.call(&Call::load(4, UNCACHED + 0x1204));
    assert_eq!(answer, fault(Status::DomainSection, 0, UNCACHED + 0x1204));
    words::write(&mut m.memory, 0x804, 4, 0x1002);
    let answer = m.call(&Call::store(4, UNCACHED_PAGE + 0x1204, 7));
    assert_eq!(
        answer,
        fault(Status::PermissionPage, 3, UNCACHED_PAGE + 0x1204)
    );
}

/// A hit serves with no bounds test, and so whatever the map says.
#[test]
fn hits() {
    let mut m = ready(&[]);
    serve(&mut m, &[Call::load(4, 0x1204)]);
    m.bad.fill(1);
    assert_eq!(m.call(&Call::load(4, 0x1204)), value(0x481));
    serve(&mut m, &[Call::store(4, 0x1204, 7)]);
    assert_eq!(m.call(&Call::swap(4, 0x1204, 8)), value(7));
    assert_eq!(m.state.counts.hits, 3);
}

/// "A look meets 16 too; only its walk heeds the map": bytes are shown where words are bad.
#[test]
fn looks() {
    let m = ready(&[0x1204, 0x1400, 4, 0x800]);
    assert!(std::ptr::eq(m.look(0x1210), &m.memory[0x1200..0x1220]));
    assert!(std::ptr::eq(
        m.look(UNCACHED + 0x1404),
        &m.memory[0x1400..0x1420]
    ));
    // the level 1 word of pages is bad, and a level 2 word of uncached pages
    assert!(m.look(PAGE + 0x1210).is_empty());
    assert!(m.look(UNCACHED_PAGE + 0x210).is_empty());
    assert_eq!(m.look(UNCACHED_PAGE + 0x1210).len(), 32);
    // flat, no walk
    let mut m = m;
    serve(&mut m, &[Call::write(1, 0)]);
    m.bad.fill(1);
    assert!(std::ptr::eq(m.look(0), &m.memory[..32]));
    for bad in [vec![0; 0xFFF], vec![0; 0x1001], vec![2; 0x1000], vec![]] {
        m.bad = bad;
        assert!(m.look(0).is_empty());
    }
}

/// The start, and storing and reading texts, do not meet 16: no map is lent to them.
#[test]
fn what_does_not_meet_16() {
    let mut m = Machine::start(vec![0; 64], vec![9], vec![0; STORE_BYTES]).expect("a start");
    let mut slice = [0; text::TEXT_MAX];
    let stored = text::store(&m.state, &m.registers, &m.memory, &mut slice);
    let length = stored.expect("a text");
    assert_eq!(text::read(&slice[..length], &m.memory).refused, None);
    assert_eq!(library::start(&m.memory, &m.store).refused, None);
    assert_eq!(m.call(&Call::read(1)), Answer::Refused(16));
    m.bad = vec![1; 16];
    assert_eq!(m.call(&Call::read(1)), value(0x70));
}
