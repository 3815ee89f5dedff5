//! Bad words on the bus (document 02, Five), on the plain machine, in the rules and in a replay. Each test
//! quotes the words that it is about.

mod common;
use common::*;
use sa110_model::answers::{Answer, Status};
use sa110_model::bus::no_bad_words;
use sa110_model::calls::Call;
use sa110_model::coverage::Unwatched;
use sa110_model::machine::Machine;
use sa110_model::plain::Plain;
use sa110_model::replay::{fresh, fresh_plain, replay_on, stream, MEMORY_BYTES};
use sa110_model::rules::{Monitor, Part, Rules};
use sa110_model::state::STORE_BYTES;
use sa110_model::term3::{compare, Run, Verdict};
use sa110_model::words;

/// A map for a memory of 4000 bytes with these words bad.
fn map(bad: &[u32]) -> Vec<u8> {
    let mut map = no_bad_words(0x4000);
    for physical in bad {
        map[*physical as usize / 4] = 1;
    }
    map
}

/// Level 1 word 0 maps a section of physical 0; word 1 leads to a small page of domain 3 with physical
/// 1000, both with these C and B bits. Word i of 1000 to 1FFF is i.
fn tables(bits: u32) -> Vec<u8> {
    let mut words = vec![(0, 0xC02 | bits), (4, 0x461), (0x404, 0x1FF2 | bits)];
    words.extend((0x400..0x800).map(|i| (4 * i, i as u32)));
    memory(0x4000, &words)
}

const PAGE: u32 = 1 << 20;

/// The plain machine there, with domain values 1 and this control value.
fn plain(bits: u32, control: u32, bad: &[u32]) -> Plain {
    let mut plain = Plain::start(tables(bits), map(bad));
    for call in [Call::write(3, 0x41), Call::write(1, control)] {
        assert_eq!(plain.call(&call), value(0));
    }
    plain
}

/// C and B bits and control values where a load may fill, a store would be buffered, or neither.
const FILLS: (u32, u32) = (0xC, 0xD);
const BUFFERS: [(u32, u32); 4] = [(4, 0xD), (8, 9), (4, 9), (0xC, 9)];
const NEITHER: [(u32, u32); 4] = [(0, 0xD), (0, 9), (0xC, 1), (0xC, 0)];

/// The place of an access with M set or clear, and the second of each pair of statuses for a page.
fn places(control: u32, status: [Status; 2]) -> Vec<(u32, Status, u32)> {
    let mut places = vec![(0x1000, status[0], 0)];
    if control & 1 == 1 {
        places.push((PAGE + 0x1000, status[1], 3));
    }
    places
}

/// "The plain machine reads the same map by the same rule": a load that may fill reads its line's words from
/// the first up to the wanted one.
#[test]
fn loads_that_may_fill() {
    for bad in 0..8 {
        for wanted in 0..8 {
            let status = [Status::FillSection, Status::FillPage];
            for (base, status, domain) in places(FILLS.1, status) {
                let mut plain = plain(FILLS.0, FILLS.1, &[0x1220 + 4 * bad]);
                let address = base + 0x220 + 4 * wanted;
                let expected = match bad <= wanted {
                    false => value(0x488 + wanted),
                    true => fault(status, domain, address),
                };
                assert_eq!(plain.call(&Call::load(4, address)), expected);
                let byte = plain.call(&Call::load(1, address + 3));
                assert_eq!(byte == value(0), bad > wanted);
            }
        }
    }
}

/// Any other load asks its own word alone: 8 or 10.
#[test]
fn other_loads() {
    for (bits, control) in BUFFERS.into_iter().chain(NEITHER) {
        for (base, status, domain) in places(control, [Status::OtherSection, Status::OtherPage]) {
            let mut plain = plain(bits, control, &[0x1204]);
            let answers = [0x200, 0x204, 0x208].map(|at| plain.call(&Call::load(4, base + at)));
            let aborted = fault(status, domain, base + 0x204);
            assert_eq!(answers, [value(0x480), aborted, value(0x482)]);
            assert_eq!(plain.registers.far, base + 0x204);
        }
    }
}

/// A store to a bad word is dropped without a fault where it would be buffered, else 8 or 10; a swap is
/// never dropped.
#[test]
fn stores_and_swaps() {
    for (bits, control) in [FILLS].into_iter().chain(BUFFERS).chain(NEITHER) {
        let neither = NEITHER.contains(&(bits, control));
        for (base, status, domain) in places(control, [Status::OtherSection, Status::OtherPage]) {
            let mut plain = plain(bits, control, &[0x1204]);
            let before = plain.memory.clone();
            for (width, at) in [(4, 0x204), (2, 0x206), (1, 0x207)] {
                let aborted = fault(status, domain, base + at);
                let answer = plain.call(&Call::store(width, base + at, 7));
                assert_eq!(answer, if neither { aborted } else { value(0) });
                if width != 2 {
                    assert_eq!(plain.call(&Call::swap(width, base + at, 7)), aborted);
                }
            }
            assert_eq!(plain.memory, before);
            plain.call(&Call::store(4, base + 0x200, 7));
            assert_eq!(plain.memory[0x1200], 7);
        }
    }
}

/// Walks of the plain machine abort at bad words.
#[test]
fn walks() {
    for (bad, status, domain) in [(4, Status::WalkLevel1, 0), (0x404, Status::WalkLevel2, 3)] {
        let mut plain = plain(FILLS.0, FILLS.1, &[bad]);
        let answer = plain.call(&Call::load(4, PAGE + 0x1200));
        assert_eq!(answer, fault(status, domain, PAGE + 0x1200));
        assert_eq!(plain.registers.fsr, domain * 16 + status as u32);
    }
}

/// "and refuses by 16 before 5, so a run still ends as it does": with a map that does not fit both machines
/// refuse every call by 16, whatever the call and its count.
#[test]
fn refusal_16() {
    let calls = [
        Call::read(1),
        Call::load(3, 0),
        Call::write(1, 5),
        Call::store(4, 0, 7),
    ];
    for bad in [vec![], vec![0; 15], vec![0; 17], vec![2; 16], vec![0; 64]] {
        for count in [0, u32::MAX] {
            let mut plain = Plain::start(vec![0; 64], bad.clone());
            plain.calls = count;
            let before = plain.clone();
            for call in calls {
                assert_eq!(plain.call(&call), Answer::Refused(16), "{call}");
            }
            assert_eq!(plain, before);
        }
        let run = Run {
            memory: vec![0; 64],
            bad: bad.clone(),
            store: vec![0; STORE_BYTES],
            calls: calls.to_vec(),
        };
        let mut library = run.machine();
        let before = library.clone();
        for call in calls {
            assert_eq!(library.call(&call), Answer::Refused(16), "{call}");
        }
        assert_eq!(library, before);
    }
    let mut plain = Plain::start(vec![0; 64], vec![1; 16]);
    plain.calls = u32::MAX;
    assert_eq!(plain.call(&Call::read(1)), Answer::Refused(5));
}

/// A run of the rules' monitor after these calls, which the rules allow.
fn run_of(bad: &[u32], calls: &[Call]) -> Monitor {
    let memory = memory(0x4000, &[(0, 0xC0E), (4, 0xC0E)]);
    let mut monitor = Monitor::start(memory, map(bad), Rules::ALL);
    for call in [Call::write(3, 1), Call::write(1, 0xD)].iter().chain(calls) {
        let deed = monitor.propose(call).expect("the rules allow it");
        monitor.accept(&deed);
    }
    monitor
}

/// "stores (dropped ones left out)": one dropped at a bad word is no store of R3, R4 and the end; one to
/// another word of the line is.
#[test]
fn dropped_stores_are_no_stores() {
    let dropped = Call::store(4, 0x1204, 7);
    let kept = Call::store(4, 0x1208, 7);
    let bad = [0x1204, 8];
    for flush in [Call::flush_dcache(), Call::flush_line(0x1200)] {
        assert!(run_of(&bad, &[dropped]).propose(&flush).is_ok());
        assert!(run_of(&bad, &[kept]).propose(&flush).is_err());
    }
    assert!(run_of(&bad, &[dropped]).settled());
    assert!(!run_of(&bad, &[kept]).settled());
    // a bad descriptor: its walk aborts before and after, and nothing has to be cleaned
    let calls = [Call::store(4, 8, 0xC0E)];
    let load = Call::load(4, 0x201000);
    let answer = run_of(&bad, &calls).propose(&load).map(|deed| deed.answer);
    assert_eq!(answer, Ok(fault(Status::WalkLevel1, 0, 0x201000)));
    assert!(run_of(&[], &calls).propose(&load).is_err());
}

/// Every access whose translation and rights pass reaches a line, even at a bad word.
#[test]
fn bad_words_reach_lines() {
    for first in [
        Call::load(4, 0x1204),
        Call::store(4, 0x1204, 7),
        Call::swap(4, 0x1204, 7),
    ] {
        let monitor = run_of(&[0x1204], &[first]);
        let other = monitor.propose(&Call::load(4, 0x101200));
        assert_eq!(other.err(), Some(Part::R2Physical), "{first}");
    }
}

/// "R6's sixteen words are good ones": the large page is not used while one of them is bad.
#[test]
fn r6() {
    let mut words = vec![(0, 0xC0E), (4, 0x401)];
    words.extend((0..16).map(|i| (0x400 + 4 * i, 0xFFD)));
    for bad in 0..16 {
        let bad = 0x400 + 4 * bad;
        let mut monitor = Monitor::start(memory(0x4000, &words), map(&[bad]), Rules::ALL);
        for call in [Call::write(3, 1), Call::write(1, 0xD)] {
            let deed = monitor.propose(&call).expect("a CP15 write");
            monitor.accept(&deed);
        }
        for page in 0..16 {
            let load = monitor.propose(&Call::load(4, PAGE + page * 0x1000));
            let own = 0x400 + 4 * page == bad;
            // its own word aborts the walk, which then finds no large page
            assert_eq!(load.err(), (!own).then_some(Part::R6Good));
        }
    }
}

/// Term 3 over a list that meets bad words in every way, cleaned and drained at the end.
#[test]
fn both_machines() {
    let setup = [Call::write(3, 1), Call::write(1, 0xD)];
    let calls = [
        Call::load(4, 0x1200),
        Call::load(4, 0x1204),
        Call::load(4, 0x1208),
        Call::store(4, 0x1204, 1),
        Call::store(4, 0x1208, 2),
        Call::load(4, 0x1208),
        Call::load(4, 0x1200),
        Call::swap(4, 0x1204, 3),
        Call::swap(4, 0x1208, 4),
        Call::load(4, 0x4000),
        Call::store(4, 0x1000, 5),
        Call::load(4, 0x1000),
        Call::load(4, 0x200000),
        Call::clean_line(0x1200),
        Call::clean_line(0x1000),
        Call::drain(),
    ];
    let run = Run {
        memory: tables(0xC),
        bad: map(&[0x1204, 8]),
        store: vec![0; STORE_BYTES],
        calls: setup.iter().chain(&calls).copied().collect(),
    };
    let verdict = compare(&run, Rules::ALL, &mut Unwatched);
    assert_eq!(verdict, Verdict::Agrees { settled: true });
}

/// "16 when the map's length is not a quarter of memory's": each line of a replay is refused, up to one that
/// departs from the form.
#[test]
fn replays() {
    let text = b"3,1,1,0,0\n0,1,3,0,0\n2,1,4,0,7\n\n3,1,1,0,0\n";
    for bad in [vec![0; 16_383], vec![0; 16_385], vec![3; 16_384], vec![]] {
        let mut machine = fresh();
        machine.bad = bad.clone();
        let printed = replay_on(&mut machine, 0, text).output;
        assert_eq!(printed, b"1,2,16\n2,2,16\n3,2,16\n4,2,13\n");
        let mut plain = Plain::start(vec![0; MEMORY_BYTES], bad);
        assert_eq!(replay_on(&mut plain, 0, text).output, printed);
    }
    // the program's own map is 16,384 zeros
    assert_eq!(fresh().bad, [0; 16_384]);
    let expected = b"1,0,112\n2,2,6\n3,0,0\n4,2,13\n";
    let mut streamed = Vec::new();
    stream(&text[..], &mut streamed).expect("slices do not fail");
    assert_eq!(streamed, expected);
    assert_eq!(replay_on(&mut fresh_plain(), 0, text).output, expected);
    // a word that aborts
    let mut machine = fresh();
    machine.bad[1] = 1;
    let text = b"0,1,4,4,0\n2,1,1,7,9\n0,1,1,8,0\n3,1,5,0,0\n";
    let printed = replay_on(&mut machine, 0, text).output;
    assert_eq!(printed, b"1,1,8\n2,1,8\n3,0,0\n4,0,8\n");
}

/// Nothing changes the map: it is lent, and the same through a run.
#[test]
fn the_map_stays() {
    let bad = map(&[0x1204, 0x1234]);
    let memory = tables(0xC);
    let mut machine = Machine::start(memory, bad.clone(), vec![0; STORE_BYTES]).expect("a start");
    serve(&mut machine, &[Call::write(3, 1), Call::write(1, 0xD)]);
    for at in (0x1200..0x1240).step_by(4) {
        machine.call(&Call::load(4, at));
        machine.call(&Call::store(4, at, at));
        machine.call(&Call::swap(4, at, 7));
    }
    serve(&mut machine, &[Call::drain()]);
    assert_eq!(machine.bad, bad);
    assert_eq!(words::read(&machine.memory, 0x1204, 4), 0x481);
}
