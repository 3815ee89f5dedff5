//! Each rule is needed: for each part left out, a short run that breaks term 3.

mod common;
use common::*;
use sa110_model::answers::{Answer, Status};
use sa110_model::bus::no_bad_words;
use sa110_model::calls::Call;
use sa110_model::coverage::Unwatched;
use sa110_model::random::guided::guided;
use sa110_model::random::rng::{from_environment, Rng};
use sa110_model::rules::{Part, Rules};
use sa110_model::state::STORE_BYTES;
use sa110_model::term3::{compare, shrink, Difference, Run, Verdict};

/// A run from a fresh start with domain register 1, control D, table base 0.
fn run(memory: Vec<u8>, calls: &[Call]) -> Run {
    let mut all = vec![Call::write(3, 1), Call::write(1, 0xD)];
    all.extend(calls);
    Run {
        bad: no_bad_words(memory.len()),
        memory,
        store: vec![0; STORE_BYTES],
        calls: all,
    }
}

/// Level 1 words 0 and 1 both map to physical 0; 4000 bytes.
fn twice(calls: &[Call]) -> Run {
    run(memory(0x4000, &[(0, 0xC0E), (4, 0xC0E)]), calls)
}

/// With all rules the run's last call (or an earlier one) is forbidden by the part; with the part
/// left out the run is allowed, and its last answers are these.
fn breaks(run: &Run, part: Part, library: Answer, plain: Answer) {
    breaks_by(run, part, part, library, plain);
}

/// As `breaks`, where with all rules another part is named than the one left out.
fn breaks_by(run: &Run, part: Part, named: Part, library: Answer, plain: Answer) {
    match compare(run, Rules::ALL, &mut Unwatched) {
        Verdict::Forbidden { part, .. } => assert_eq!(part, named),
        verdict => panic!("{verdict:?}"),
    }
    let expected = Difference::Answer {
        call: run.calls.len() - 1,
        library,
        plain,
    };
    let verdict = compare(run, Rules::without(part), &mut Unwatched);
    assert_eq!(verdict, Verdict::Differs(expected));
}

/// With all rules the run is allowed but not settled; with the part left out it counts as settled,
/// and this byte of memory differs.
fn breaks_at_end(run: &Run, part: Part, address: usize, library: u8, plain: u8) {
    let verdict = compare(run, Rules::ALL, &mut Unwatched);
    assert_eq!(verdict, Verdict::Agrees { settled: false });
    let expected = Difference::Memory {
        address,
        library,
        plain,
    };
    let verdict = compare(run, Rules::without(part), &mut Unwatched);
    assert_eq!(verdict, Verdict::Differs(expected));
}

#[test]
fn r2_physical() {
    let calls = [
        Call::load(4, 0x1000),
        Call::store(4, 0x101000, 7),
        Call::load(4, 0x1000),
    ];
    breaks(&twice(&calls), Part::R2Physical, value(0), value(7));
}

/// Words 401 at 0, 2FFE at 404, 9 at 2000.
fn r2_virtual_run() -> Run {
    let calls = [
        Call::load(4, 0x1000),
        Call::write(1, 0),
        Call::load(4, 0x1000),
    ];
    let words = [(0, 0x401), (0x404, 0x2FFE), (0x2000, 9)];
    run(memory(0x4000, &words), &calls)
}

#[test]
fn r2_virtual() {
    breaks(&r2_virtual_run(), Part::R2Virtual, value(9), value(0));
}

#[test]
fn r2_with_m_clear() {
    let run = r2_virtual_run();
    breaks_by(&run, Part::R2Flat, Part::R2Virtual, value(9), value(0));
}

#[test]
fn r2_outside_memory() {
    let calls = [
        Call::load(4, 0x100000),
        Call::write(1, 0),
        Call::load(4, 0x100000),
    ];
    let plain = fault(Status::OtherSection, 0, 0x100000);
    let run = twice(&calls);
    breaks_by(&run, Part::R2Outside, Part::R2Virtual, value(0xC0E), plain);
}

fn r3_run(flush: Call) -> Run {
    twice(&[
        Call::load(4, 0x1000),
        Call::store(4, 0x1000, 7),
        flush,
        Call::load(4, 0x1000),
    ])
}

#[test]
fn r3_whole_flush() {
    for crm in [6, 7] {
        let run = r3_run(Call::operate(7, 0, crm, 0));
        breaks(&run, Part::R3Whole, value(0), value(7));
    }
}

#[test]
fn r3_line_flush() {
    let run = r3_run(Call::flush_line(0x1000));
    breaks(&run, Part::R3Line, value(0), value(7));
    let run = r3_run(Call::flush_line(0x101F));
    breaks(&run, Part::R3Line, value(0), value(7));
}

#[test]
fn the_cleans_virtual_line() {
    let calls = [
        Call::load(4, 0x1000),
        Call::store(4, 0x1000, 7),
        Call::clean_line(0x101000),
        Call::flush_dcache(),
        Call::load(4, 0x1000),
    ];
    let run = twice(&calls);
    breaks_by(&run, Part::CleanAddress, Part::R3Whole, value(0), value(7));
}

fn no_section(address: u32) -> Answer {
    fault(Status::TranslationSection, 0, address)
}

#[test]
fn r4_clean() {
    let calls = [
        Call::load(4, 0),
        Call::store(4, 8, 0xC0E),
        Call::drain(),
        Call::flush_tlb(),
        Call::load(4, 0x201000),
    ];
    let library = no_section(0x201000);
    breaks(&twice(&calls), Part::R4Clean, library, value(0));
}

#[test]
fn r4_drain() {
    let calls = [
        Call::store(4, 8, 0xC0E),
        Call::clean_line(0),
        Call::flush_tlb(),
        Call::load(4, 0x201000),
    ];
    let library = no_section(0x201000);
    breaks(&twice(&calls), Part::R4Drain, library, value(0));
}

#[test]
fn r4_tlb_flush() {
    let calls = [
        Call::load(4, 0x101000),
        Call::store(4, 4, 0),
        Call::clean_line(0),
        Call::drain(),
        Call::load(4, 0x101000),
    ];
    let plain = no_section(0x101000);
    breaks(&twice(&calls), Part::R4TlbFlush, value(0), plain);
    // Register 8's (0,5) flushes nothing here.
    let mut with_nothing = calls.to_vec();
    with_nothing.insert(4, Call::operate(8, 0, 5, 0));
    breaks(&twice(&with_nothing), Part::R4TlbFlush, value(0), plain);
}

/// The clean, the drain and the TLB flush are all there, but the drain comes before the clean.
#[test]
fn r4_order() {
    let calls = [
        Call::load(4, 0),
        Call::store(4, 8, 0xC0E),
        Call::drain(),
        Call::clean_line(0),
        Call::flush_tlb(),
        Call::load(4, 0x201000),
    ];
    let library = no_section(0x201000);
    let run = twice(&calls);
    breaks_by(&run, Part::R4Order, Part::R4Drain, library, value(0));
}

#[test]
fn r5() {
    let calls = [
        Call::load(4, 0x1000),
        Call::write(2, 0x4000),
        Call::load(4, 0x1000),
    ];
    let plain = fault(Status::WalkLevel1, 0, 0x1000);
    breaks(&twice(&calls), Part::R5, value(0), plain);
}

#[test]
fn r6_equal() {
    let memory = memory(0x4000, &[(4, 0x401), (0x400, 0xFFD)]);
    let calls = [Call::load(4, 0x100800), Call::load(4, 0x101000)];
    let plain = fault(Status::TranslationPage, 0, 0x101000);
    breaks(&run(memory, &calls), Part::R6Equal, value(0), plain);
}

#[test]
fn r6_in_memory() {
    let mut words = vec![(4, 0x401)];
    words.extend((0..8).map(|i| (0x400 + 4 * i, 0xFFD)));
    let memory = memory(0x420, &words);
    let calls = [Call::load(4, 0x100000), Call::load(4, 0x108000)];
    let library = fault(Status::FillPage, 0, 0x108000);
    let plain = fault(Status::WalkLevel2, 0, 0x108000);
    breaks(&run(memory, &calls), Part::R6Memory, library, plain);
}

/// The second word of the group is bad: the plain machine's walk for its page aborts.
#[test]
fn r6_good() {
    let mut words = vec![(4, 0x401)];
    words.extend((0..16).map(|i| (0x400 + 4 * i, 0xFFD)));
    let calls = [Call::load(4, 0x100800), Call::load(4, 0x101000)];
    let mut run = run(memory(0x4000, &words), &calls);
    run.bad[0x404 / 4] = 1;
    let plain = fault(Status::WalkLevel2, 0, 0x101000);
    breaks(&run, Part::R6Good, value(0), plain);
}

/// The first access is denied by AP0 but leaves the large page in the TLB.
#[test]
fn r6_of_denied_accesses() {
    let memory = memory(0x8000, &[(4, 0x401), (0x400, 0xFCD)]);
    let calls = [Call::load(4, 0x100800), Call::load(4, 0x104000)];
    let plain = fault(Status::TranslationPage, 0, 0x104000);
    let run = run(memory, &calls);
    breaks_by(&run, Part::R6Denied, Part::R6Equal, value(0), plain);
}

#[test]
fn end_clean() {
    let calls = [
        Call::load(4, 0x1000),
        Call::store(4, 0x1000, 7),
        Call::drain(),
    ];
    breaks_at_end(&twice(&calls), Part::EndClean, 0x1000, 0, 7);
}

#[test]
fn end_drain() {
    let calls = [Call::store(4, 0x1000, 7), Call::clean_line(0x1000)];
    breaks_at_end(&twice(&calls), Part::EndDrain, 0x1000, 0, 7);
}

/// Refused cleans, drains and flushes do not count, and no implicit drain does.
#[test]
fn refused_operations_do_not_count() {
    let user = |crm| Call::Write {
        privileged: false,
        register: 7,
        opcode2: if crm == 6 { 0 } else { 1 },
        crm,
        value: 0x1000,
    };
    let calls = [Call::store(4, 0x1000, 7), user(10), Call::drain()];
    let verdict = compare(&twice(&calls), Rules::ALL, &mut Unwatched);
    assert_eq!(verdict, Verdict::Agrees { settled: false });
    // A refused flush is allowed even over uncleaned lines.
    let calls = [Call::store(4, 0x1000, 7), user(6)];
    let verdict = compare(&twice(&calls), Rules::ALL, &mut Unwatched);
    assert_eq!(verdict, Verdict::Agrees { settled: false });
    // A load of the buffered line drains, but the end asks for the operation.
    let calls = [
        Call::store(4, 0x1000, 7),
        Call::clean_line(0x1000),
        Call::load(4, 0x1000),
    ];
    let verdict = compare(&twice(&calls), Rules::ALL, &mut Unwatched);
    assert_eq!(verdict, Verdict::Agrees { settled: false });
}

/// What term 3 allows: the same pieces in the order that the rules ask for.
#[test]
fn the_rules_way_agrees() {
    let calls = [
        Call::load(4, 0),
        Call::store(4, 8, 0xC0E),
        Call::clean_line(0),
        Call::drain(),
        Call::flush_tlb(),
        Call::load(4, 0x201000),
        Call::store(4, 0x201000, 9),
        Call::clean_line(0x201000),
        Call::flush_dcache(),
        Call::load(4, 0x101000),
        Call::write(2, 0),
        Call::flush_tlb(),
        Call::load(4, 0x101000),
        Call::drain(),
    ];
    let verdict = compare(&twice(&calls), Rules::ALL, &mut Unwatched);
    assert_eq!(verdict, Verdict::Agrees { settled: true });
}

/// Random runs with one part left out find a break of term 3, which is shrunk and printed.
#[test]
fn random_runs_find_what_a_missing_part_breaks() {
    let seed = from_environment("SEED", 21);
    let parts = [
        Part::R2Physical,
        Part::R2Virtual,
        Part::R2Flat,
        Part::R2Outside,
        Part::R3Whole,
        Part::R3Line,
        Part::R4Clean,
        Part::R4Drain,
        Part::R4TlbFlush,
        Part::R5,
        Part::R6Good,
        Part::R6Equal,
    ];
    for part in parts {
        let rules = Rules::without(part);
        let mut found = None;
        for i in 0..20_000 {
            let mut rng = Rng::of_run(seed, i);
            let run = guided(&mut rng, 300, rules).run;
            if let Verdict::Differs(_) = compare(&run, rules, &mut Unwatched) {
                found = Some((i, run));
                break;
            }
        }
        let Some((number, run)) = found else {
            panic!("no break without {part:?}, seed {seed}");
        };
        let shrunk = shrink(&run, rules);
        let Verdict::Differs(difference) = compare(&shrunk, rules, &mut Unwatched) else {
            panic!("shrinking lost the difference");
        };
        println!(
            "Without {part:?}: seed {seed}, run {number} of {} calls, shrunk to {}.\n{shrunk}{difference}\n",
            run.calls.len(),
            shrunk.calls.len()
        );
        assert!(shrunk.calls.len() <= 30, "{part:?}");
        let verdict = compare(&shrunk, Rules::ALL, &mut Unwatched);
        assert!(matches!(verdict, Verdict::Forbidden { .. }), "{verdict:?}");
    }
}
