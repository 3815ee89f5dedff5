//! The proved plain machine beside the second model's, call by call.

use sa110_compare::{numbers, plain_run, shrunk, PlainRan};
use sa110_model::bus::no_bad_words;
use sa110_model::plain::Plain;
use sa110_model::random::guided::{free, guided};
use sa110_model::random::maps::damage;
use sa110_model::random::rng::{from_environment, Rng};
use sa110_model::rules::Rules;
use sa110_model::term3::Run;
use sa110_model::Call;

/// The first place where the two differ, in words.
fn difference(run: &Run, calls: &[Call]) -> Option<String> {
    let Run { memory, bad, .. } = run;
    let mut proved_memory = memory.clone();
    let mut answers = vec![0; calls.len()];
    let ran = plain_run(&mut proved_memory, bad, &numbers(calls), &mut answers);
    let mut plain = Plain::start(memory.clone(), bad.clone());
    for (i, call) in calls.iter().enumerate() {
        let expected = plain.call(call).as_number();
        if answers[i] != expected {
            return Some(format!(
                "call {i}: proved {:x}, model {expected:x}",
                answers[i]
            ));
        }
    }
    let r = &plain.registers;
    let expected = PlainRan {
        control: r.control,
        base: r.table_base,
        domains: r.domain,
        fsr: r.fsr,
        far: r.far,
        calls: plain.calls,
        refusal: 0,
        made: calls.len(),
    };
    if ran != expected {
        return Some(format!("registers: proved {ran:?}, model {expected:?}"));
    }
    (proved_memory != plain.memory).then(|| "memory".to_string())
}

fn compare(run: &Run, name: &str) {
    if difference(run, &run.calls).is_some() {
        let short = shrunk(&run.calls, |calls| difference(run, calls).is_some());
        let what = difference(run, &short).unwrap();
        let words = run.bad.iter().filter(|byte| **byte == 1).count();
        panic!(
            "{name}: {what}\nmemory {} bytes, {words} bad words, calls:\n{short:#?}",
            run.memory.len()
        );
    }
}

#[test]
fn random_lists() {
    let seed = from_environment("SEED", 1);
    let runs = from_environment("RUNS", 3_000);
    println!("seed {seed}, {runs} runs of each kind");
    let (mut calls, mut swaps, mut with_bad_words) = (0, 0, 0);
    let mut count = |run: &Run| {
        calls += run.calls.len();
        let swap = |call: &&Call| matches!(call, Call::Swap { .. });
        swaps += run.calls.iter().filter(swap).count();
        if run.bad.contains(&1) {
            with_bad_words += run.calls.len();
        }
    };
    for n in 0..runs {
        let mut rng = Rng::of_run(seed, n);
        let length = 50 + rng.below(400) as usize;
        let run = free(&mut rng, length);
        count(&run);
        compare(&run, &format!("free run {n} of seed {seed}"));
        let run = guided(&mut rng, length, Rules::ALL).run;
        count(&run);
        compare(&run, &format!("guided run {n} of seed {seed}"));
    }
    println!("calls compared {calls}, {swaps} of them swaps, {with_bad_words} with bad words");
    // fewer runs need not meet everything
    if runs >= 3_000 {
        assert!(calls >= 1_000_000 && swaps >= 50_000 && with_bad_words >= 500_000);
    }
}

/// A map that does not fit has every call refused by 16, and nothing changes.
#[test]
fn damaged_maps() {
    let seed = from_environment("SEED", 1);
    for n in 0..1_000 {
        let mut rng = Rng::of_run(seed, n);
        let mut run = free(&mut rng, 20);
        let what = damage(&mut rng, &mut run.bad);
        compare(&run, &format!("run {n} of seed {seed}: {what}"));
        let mut answers = vec![0; run.calls.len()];
        let mut memory = run.memory.clone();
        let ran = plain_run(&mut memory, &run.bad, &numbers(&run.calls), &mut answers);
        assert!(answers.iter().all(|code| *code == (2 << 32) + 16), "{what}");
        assert_eq!((ran.made, ran.calls), (answers.len(), 0), "{what}");
        assert!(memory == run.memory, "{what}");
    }
}

#[test]
fn lengths() {
    let calls = numbers(&[Call::read(1), Call::read(0), Call::load(4, 0)]);
    // a memory whose length does not fit is refused, whatever the map, and nothing changes
    for length in [1, 31, 33, 16_777_217, 16_777_248] {
        for bad in [no_bad_words(length), vec![2; 5], vec![]] {
            let mut memory = vec![7; length];
            let mut answers = [9; 3];
            let ran = plain_run(&mut memory, &bad, &calls, &mut answers);
            assert_eq!((ran.refusal, ran.made, ran.calls), (1, 0, 0));
            assert_eq!(answers, [9; 3]);
            assert!(memory.iter().all(|b| *b == 7));
        }
    }
    // memories of 0, 32 bytes and 16 MB are served
    for length in [0, 32, 64, 16_777_216] {
        let mut memory = vec![0; length];
        let mut answers = [9; 3];
        let ran = plain_run(&mut memory, &no_bad_words(length), &calls, &mut answers);
        assert_eq!((ran.refusal, ran.made, ran.calls), (0, 3, 3));
        assert_eq!(answers[..2], [0x70, 0x4401A100]);
        assert_eq!(answers[2], if length == 0 { (1 << 32) + 8 } else { 0 });
    }
    let mut memory = vec![0; 64];
    let mut run = |calls: &[u32], answers: &mut [u64]| {
        plain_run(&mut memory, &no_bad_words(64), calls, answers).made
    };
    // as many calls as both lists hold; the rest of the answers stays
    let mut answers = [9; 4];
    assert_eq!(run(&calls[..14], &mut answers), 2);
    assert_eq!(answers[2..], [9, 9]);
    assert_eq!(run(&calls, &mut [9; 1]), 1);
    // the run stops at five numbers that are no call
    let mut odd = calls.clone();
    odd[5] = 6;
    let mut answers = [9; 3];
    assert_eq!(run(&odd, &mut answers), 1);
    assert_eq!(answers[1..], [9, 9]);
    odd[5] = 3;
    odd[6] = 2;
    assert_eq!(run(&odd, &mut answers), 1);
}
