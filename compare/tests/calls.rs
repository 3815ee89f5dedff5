//! The proved library beside the second model, call by call, through `call` and through `run`.

use sa110_compare::damage::{flip_bit, replace_word};
use sa110_compare::full::{full, Tags, TAGS};
use sa110_compare::lists::{misfit, piece, varied_numbers, world_around};
use sa110_compare::packed::{OfModel, Packed};
use sa110_compare::side_by_side::{Setting, Sides, Tally};
use sa110_compare::NO_CALL;
use sa110_model::bus::no_bad_words;
use sa110_model::coverage::Unwatched;
use sa110_model::random::damage::DAMAGES;
use sa110_model::random::guided::{free, guided};
use sa110_model::random::maps::Map;
use sa110_model::random::proposals::Proposer;
use sa110_model::random::rng::{from_environment, Rng};
use sa110_model::random::states;
use sa110_model::random::world::{world_of, World};
use sa110_model::rules::Rules;
use sa110_model::state::STORE_BYTES;
use sa110_model::{Call, Machine};
use std::panic::resume_unwind;

const MEGABYTE: usize = 1 << 20;

/// The comparison of random lists: what was compared, and by whose seed.
struct Comparison {
    tally: Tally,
    damages: [u64; DAMAGES.len()],
    seed: u64,
}

impl Comparison {
    fn new(seed: u64) -> Comparison {
        Comparison {
            tally: Tally::default(),
            damages: [0; DAMAGES.len()],
            seed,
        }
    }

    fn add(&mut self, other: &Comparison) {
        self.tally.add(&other.tally);
        for (sum, count) in self.damages.iter_mut().zip(other.damages) {
            *sum += count;
        }
    }

    /// Compares a list of calls from a setting; gives the machine at the end.
    fn list(&mut self, rng: &mut Rng, setting: &Setting, calls: &[Call], name: &str) -> Machine {
        let list = varied_numbers(rng, calls);
        let piece = piece(rng, list.len());
        let seed = self.seed;
        self.tally
            .compare(setting, &list, piece, &|| format!("seed {seed}, {name}"))
    }

    /// The lists and states of one run.
    fn random(&mut self, n: u64) {
        let mut rng = Rng::of_run(self.seed, n);
        let rng = &mut rng;
        let length = 50 + rng.below(400) as usize;
        let run = free(rng, length);
        let setting = Setting::of_run(&run);
        let machine = self.list(rng, &setting, &run.calls, &format!("free run {n}"));
        let world = world_around(&machine);
        self.damaged(rng, &machine, &world, &format!("end of free run {n}"));
        let run = guided(rng, length, Rules::ALL).run;
        let setting = Setting::of_run(&run);
        self.list(rng, &setting, &run.calls, &format!("guided run {n}"));
        let sound = states::sound(rng);
        let name = format!("sound state {n}");
        self.on_machine(rng, &sound.machine, &sound.world, &name);
        if n.is_multiple_of(8) {
            let tags = TAGS[n as usize / 8 % TAGS.len()];
            self.full(rng, tags, &format!("full cache {n}, tags {tags:?},"));
        }
    }

    /// Full caches, and a map that may make words of lines held bad.
    fn full(&mut self, rng: &mut Rng, tags: Tags, name: &str) {
        let mut machine = full(rng, tags);
        machine.bad = Map::random(rng).make(rng, machine.memory.len(), &[]);
        let world = world_around(&machine);
        self.on_machine(rng, &machine, &world, name);
    }

    /// Calls on a sound machine, and on what damages make of it.
    fn on_machine(&mut self, rng: &mut Rng, machine: &Machine, world: &World, name: &str) {
        let length = 20 + rng.below(200) as usize;
        let calls = states::calls(rng, world, length);
        self.list(rng, &Setting::of(machine), &calls, name);
        self.damaged(rng, machine, world, name);
    }

    /// Calls on states that are damaged, on changed ones that may still be sound, and with bytes or a map lent
    /// that do not fit.
    fn damaged(&mut self, rng: &mut Rng, machine: &Machine, world: &World, name: &str) {
        for _ in 0..4 {
            let i = rng.below(DAMAGES.len() as u32) as usize;
            let mut damaged = machine.clone();
            if !(DAMAGES[i].make)(&mut damaged, rng) {
                continue;
            }
            let mut setting = Setting::of(&damaged);
            if setting.packed.unpacked() != (*damaged.state, damaged.registers) {
                continue; // a field wider than its place in the words
            }
            self.damages[i] += 1;
            let calls = states::calls(rng, world, 3);
            let mut name = format!("{name}: {}", DAMAGES[i].name);
            if rng.percent(30) {
                name += &format!("; {}", misfit(rng, &mut setting));
            }
            self.list(rng, &setting, &calls, &name);
        }
        for _ in 0..4 {
            let mut setting = Setting::of(machine);
            let what = if rng.percent(50) {
                flip_bit(&mut setting.packed, rng)
            } else {
                replace_word(&mut setting.packed, rng)
            };
            let calls = states::calls(rng, world, 12);
            self.list(rng, &setting, &calls, &format!("{name}: {what}"));
        }
        for _ in 0..4 {
            let mut setting = Setting::of(machine);
            let what = misfit(rng, &mut setting);
            let calls = states::calls(rng, world, 6);
            self.list(rng, &setting, &calls, &format!("{name}: {what}"));
        }
    }
}

#[test]
fn random_lists_and_states() {
    let seed = from_environment("SEED", 1);
    let runs = from_environment("RUNS", 2_000);
    println!("seed {seed}, {runs} runs of each kind");
    let compared = std::thread::scope(|scope| {
        let halves = [0, 1].map(|half| {
            scope.spawn(move || {
                let mut comparison = Comparison::new(seed);
                for n in (half..runs).step_by(2) {
                    comparison.random(n);
                }
                comparison
            })
        });
        let mut sum = Comparison::new(seed);
        for half in halves {
            sum.add(&half.join().unwrap_or_else(|panic| resume_unwind(panic)));
        }
        sum
    });
    let tally = &compared.tally;
    let (by_call, by_run) = (tally.by_call.calls, tally.by_run.calls);
    println!("calls compared {by_call} by call, {by_run} by run");
    println!("{tally}");
    println!("what the second model did in the calls one by one:");
    println!("{}", tally.events);
    println!("damages compared:");
    for (damage, count) in DAMAGES.iter().zip(compared.damages) {
        println!("{count:>8}  {}", damage.name);
    }
    // fewer runs need not meet everything
    if runs >= 2_000 {
        assert!(by_call >= 1_000_000 && by_run >= 1_000_000);
        assert_eq!(tally.by_call.missing(), Vec::<String>::new());
        assert_eq!(tally.by_run.missing(), Vec::<String>::new());
        assert_eq!(tally.events.missing(), Vec::<String>::new());
    }
}

/// Memories from 0 bytes to 16 MB are served; others are refused by 1 at the start and by every call.
#[test]
fn memories() {
    let seed = from_environment("SEED", 1);
    let mut comparison = Comparison::new(seed);
    let (most, lists) = (16 * MEGABYTE, 4);
    for length in [
        0,
        32,
        64,
        96,
        0x400,
        0x4000,
        MEGABYTE,
        4 * MEGABYTE + 32,
        most - 32,
        most,
    ] {
        for n in 0..lists {
            let mut rng = Rng::of_run(seed, n);
            let world = world_of(&mut rng, length);
            let mut proposer = Proposer::new(&mut rng, &world);
            proposer.opening(&mut rng);
            let calls: Vec<_> = (0..2_000).map(|_| proposer.next(&mut rng)).collect();
            let (memory, bad) = (world.memory.clone(), world.bad.clone());
            let setting = Setting::start(memory, bad, world.store.clone());
            let name = format!("list {n} in {length} bytes");
            comparison.list(&mut rng, &setting, &calls, &name);
        }
    }
    let mut rng = Rng::new(seed);
    let world = world_of(&mut rng, 0x4000);
    for length in [
        1,
        16,
        31,
        33,
        48,
        0x4001,
        most + 1,
        most + 16,
        most + 32,
        2 * most,
    ] {
        let bad = no_bad_words(length);
        let setting = Setting::start(vec![7; length], bad, vec![0; STORE_BYTES]);
        let calls = states::calls(&mut rng, &world, 20);
        comparison.list(&mut rng, &setting, &calls, &format!("{length} bytes"));
    }
    for length in [
        0,
        1,
        STORE_BYTES - 32,
        STORE_BYTES - 1,
        STORE_BYTES + 1,
        2 * STORE_BYTES,
    ] {
        for memory in [0x4000, 33] {
            let bad = no_bad_words(memory);
            let setting = Setting::start(vec![7; memory], bad, vec![7; length]);
            let calls = states::calls(&mut rng, &world, 20);
            let name = format!("{memory} bytes, store {length} bytes");
            comparison.list(&mut rng, &setting, &calls, &name);
        }
    }
    let (by_call, by_run) = (
        comparison.tally.by_call.calls,
        comparison.tally.by_run.calls,
    );
    println!("calls compared in memories of 0 bytes to 16 MB {by_call} by call, {by_run} by run");
}

/// A run makes as many calls as both lists hold, and leaves the other answers as they were.
#[test]
fn lists_of_other_lengths() {
    let seed = from_environment("SEED", 1);
    for n in 0..2_000 {
        let mut rng = Rng::of_run(seed, n);
        let sound = states::sound(&mut rng);
        let calls = states::calls(&mut rng, &sound.world, 20);
        let list = varied_numbers(&mut rng, &calls);
        let list = &list.as_flattened()[..rng.below(101) as usize];
        let length = rng.pick(&[0, 1, 19, 20, 25]);
        let mut answers = vec![9; length];
        let mut sides = Sides::of(&Setting::of(&sound.machine));
        let ran = sides.run(list, &mut answers);
        let name = format!(
            "list of {} numbers, {} answers, state {n} of seed {seed}",
            list.len(),
            answers.len()
        );
        assert!(ran.is_ok(), "{name}: {}", ran.unwrap_err());
        assert_eq!(sides.bytes(), Ok(()), "{name}");
    }
}

/// Numbers that are no call change nothing, whatever the state and the lengths.
#[test]
fn numbers_that_are_no_call() {
    let mut rng = Rng::new(1);
    let machine = full(&mut rng, Tags::Random);
    let mut settings = vec![Setting::of(&machine); 5];
    settings[1].packed.cp15.pointer = 32;
    settings[2].memory.push(0);
    settings[3].store.clear();
    settings[4].bad[9] = 2;
    for setting in &settings {
        for kind in [0, 1, 2, 3, 4, 5, 6, 255, 256, 1 << 31, u32::MAX] {
            for privileged in [0, 1, 2, 3, 256, u32::MAX] {
                let call = [kind, privileged, 4, 0x4000, 7];
                let mut sides = Sides::of(setting);
                let answer = sides.call(&call, &mut Unwatched);
                let is_call = kind < 6 && privileged < 2;
                assert_eq!(
                    answer.as_ref().map(|code| *code != NO_CALL),
                    Ok(is_call),
                    "{call:?}: {answer:?}"
                );
                assert_eq!(sides.bytes(), Ok(()), "{call:?}");
                let mut answers = [9; 3];
                let calls = [[3, 1, 1, 0, 0], call, [3, 1, 1, 0, 0]];
                let mut sides = Sides::of(setting);
                let made = sides.run(calls.as_flattened(), &mut answers);
                assert_eq!(made, Ok(if is_call { 3 } else { 1 }), "{call:?}");
                assert_eq!(sides.bytes(), Ok(()), "{call:?}");
            }
        }
    }
}

/// A start writes to no lent bytes, and its state has the length lent.
#[test]
fn starts() {
    for length in [0, 32, 64, 0x4000, 16 * MEGABYTE] {
        let (memory, store) = (vec![5; length], vec![6; STORE_BYTES]);
        let (packed, refusal) = Packed::start(&memory, &store);
        assert_eq!((refusal, packed.state.size), (0, length));
        assert!(memory.iter().all(|byte| *byte == 5) && store.iter().all(|byte| *byte == 6));
    }
    for (length, store, number) in [(33, STORE_BYTES, 1), (64, 5, 2), (33, 5, 1)] {
        let (packed, refusal) = Packed::start(&vec![5; length], &vec![6; store]);
        assert_eq!((refusal, packed.state.size), (number, 0));
    }
}
