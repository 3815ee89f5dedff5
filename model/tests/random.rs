//! Random runs: term 3, the four generators' coverage, and `run` against `call`.

use sa110_model::answers::Answer;
use sa110_model::calls::Call;
use sa110_model::coverage::{Coverage, Unwatched, Watch};
use sa110_model::random::damage::DAMAGES;
use sa110_model::random::guided::{free, guided};
use sa110_model::random::maps;
use sa110_model::random::rng::{from_environment, Rng};
use sa110_model::random::states;
use sa110_model::rules::Rules;
use sa110_model::state::STORE_BYTES;
use sa110_model::term3::{compare, shrink, Run, Verdict};

/// Runs that keep the rules agree in every answer and, settled, in memory.
#[test]
fn term_3() {
    let seed = from_environment("SEED", 1);
    let runs = from_environment("RUNS", 40_000);
    println!("Term 3: seed {seed}, {runs} runs that keep the rules.");
    let mut coverage = Coverage::default();
    let (mut calls, mut longest, mut with_bad_words) = (0, 0, 0);
    for i in 0..runs {
        let mut rng = Rng::of_run(seed, i);
        let length = run_length(&mut rng);
        let run = guided(&mut rng, length, Rules::ALL).run;
        calls += run.calls.len();
        longest = longest.max(run.calls.len());
        with_bad_words += u64::from(run.bad.contains(&1));
        agrees(seed, i, &run, &mut coverage);
    }
    println!("{coverage}");
    println!(
        "Term 3: {runs} runs, {with_bad_words} of them with bad words, {calls} calls agreed, the longest run \
         {longest} calls."
    );
}

/// Mostly up to 600 calls, now and then 6,000.
fn run_length(rng: &mut Rng) -> usize {
    let length = 50 + rng.below(550) as usize;
    if rng.percent(1) {
        10 * length
    } else {
        length
    }
}

fn agrees(seed: u64, number: u64, run: &Run, coverage: &mut Coverage) {
    match compare(run, Rules::ALL, coverage) {
        Verdict::Agrees { settled: true } => {}
        Verdict::Differs(difference) => {
            let shrunk = shrink(run, Rules::ALL);
            println!("seed {seed}, run {number}: {difference}");
            println!("shrunk to {} calls:\n{shrunk}", shrunk.calls.len());
            panic!(
                "term 3 does not hold: {:?}",
                compare(&shrunk, Rules::ALL, &mut Unwatched)
            );
        }
        verdict => panic!("seed {seed}, run {number}: {verdict:?}"),
    }
}

/// Over guided runs, free runs, sound states and damaged states everything occurs at least once.
#[test]
fn coverage() {
    let seed = from_environment("SEED", 2);
    let runs = from_environment("RUNS", 5_000);
    let mut coverage = Coverage::default();
    for i in 0..runs {
        let mut rng = Rng::of_run(seed, i);
        let run = guided(&mut rng, 300, Rules::ALL).run;
        agrees(seed, i, &run, &mut coverage);
    }
    let guided_alone = coverage.clone();
    for i in 0..runs {
        let mut rng = Rng::of_run(seed + 1, i);
        free_run(&mut rng, &mut coverage);
        sound_run(&mut rng, &mut coverage);
        damaged_call(&mut rng, &mut coverage);
    }
    println!("Coverage of guided, free, sound and damaged states: seed {seed}, {runs} runs each.");
    println!("{coverage}");
    let missing = guided_alone.missing();
    println!("Never in the guided runs alone: {missing:?}");
    let refusals = |of: &'static str| {
        let numbers = (1..=5).chain([16]);
        numbers.map(move |number| format!("{of}refusal {number}"))
    };
    // from a start no line with a bad word is ever held
    let mut expected = vec!["hit of a bad word".to_string()];
    expected.extend(refusals("").chain(refusals("swap, ")));
    assert_eq!(missing, expected);
    assert_eq!(coverage.missing(), Vec::<String>::new());
}

/// A free run: never refused by 1 to 5, sound at the end.
fn free_run(rng: &mut Rng, coverage: &mut Coverage) {
    let run = free(rng, 200);
    let mut m = run.machine();
    for call in &run.calls {
        let answer = m.step(call, coverage);
        coverage.note_answer(call, &answer);
        assert!(!matches!(answer, Answer::Refused(1..=5 | 16)));
    }
    assert!(m.is_sound());
}

fn sound_run(rng: &mut Rng, coverage: &mut Coverage) {
    let mut sound = states::sound(rng);
    for call in states::calls(rng, &sound.world, 20) {
        let answer = sound.machine.call_watched(&call, coverage);
        coverage.note_answer(&call, &answer);
        assert!(!matches!(answer, Answer::Refused(1..=4 | 16)));
    }
}

/// Damaged states and lent things that do not fit: refusals 1 to 4 and 16, nothing changed.
fn damaged_call(rng: &mut Rng, coverage: &mut Coverage) {
    let mut sound = states::sound(rng);
    let call = states::calls(rng, &sound.world, 1)[0];
    let m = &mut sound.machine;
    let expected = match rng.below(9) {
        0 => {
            m.memory.push(0);
            1
        }
        1 => {
            m.store.truncate(rng.below(STORE_BYTES as u32) as usize);
            2
        }
        2 => {
            m.state.memory_length = m.state.memory_length.wrapping_add(1 + rng.below(u32::MAX));
            4
        }
        3 => {
            maps::damage(rng, &mut m.bad);
            16
        }
        _ => {
            let damage = &DAMAGES[rng.below(DAMAGES.len() as u32) as usize];
            if !(damage.make)(m, rng) {
                return;
            }
            3
        }
    };
    let before = m.clone();
    let answer = m.call_watched(&call, coverage);
    coverage.note_answer(&call, &answer);
    assert_eq!(answer, Answer::Refused(expected), "{call}");
    assert_eq!(*m, before);
}

/// `run` over five numbers a call leaves and answers what the calls one by one do.
#[test]
fn run_is_call_after_call() {
    let seed = from_environment("SEED", 3);
    let runs = from_environment("RUNS", 1_000);
    let mut calls = 0;
    for i in 0..runs {
        let mut rng = Rng::of_run(seed, i);
        let sound = states::sound(&mut rng);
        let list = states::calls(&mut rng, &sound.world, 100);
        let numbers: Vec<u32> = list.iter().flat_map(|call| call.to_numbers()).collect();
        for (call, numbers) in list.iter().zip(numbers.chunks_exact(5)) {
            assert_eq!(Call::from_numbers(numbers.try_into().unwrap()), Some(*call));
        }
        let mut one_by_one = sound.machine.clone();
        let expected: Vec<u64> = list
            .iter()
            .map(|call| one_by_one.call(call).as_number())
            .collect();
        let mut m = sound.machine;
        let mut answers = vec![0; list.len()];
        assert_eq!(m.run(&numbers, &mut answers), Ok(()));
        assert_eq!(answers, expected, "seed {seed}, run {i}");
        assert_eq!(m, one_by_one, "seed {seed}, run {i}");
        calls += list.len();
    }
    println!("run is call after call: seed {seed}, {runs} runs, {calls} calls.");
}

/// A seed gives the same runs again, and a run does not depend on those before it.
#[test]
fn runs_follow_from_the_seed() {
    let make = |seed, run| guided(&mut Rng::of_run(seed, run), 100, Rules::ALL).run;
    let (a, b) = (make(5, 7), make(5, 7));
    assert_eq!((a.calls, a.memory, a.store), (b.calls, b.memory, b.store));
    assert_eq!(a.bad, b.bad);
    assert_ne!(make(5, 7).calls, make(5, 8).calls);
    assert_ne!(make(5, 7).calls, make(6, 7).calls);
}
