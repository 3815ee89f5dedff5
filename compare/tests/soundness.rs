//! The proved soundness test beside the second model's clauses, on sound states and damaged ones.

use sa110_compare::damage::{flip_bit, replace_word};
use sa110_compare::full::{full, is_full, TAGS};
use sa110_compare::packed::{OfModel, Packed};
use sa110_model::coverage::Unwatched;
use sa110_model::random::damage::DAMAGES;
use sa110_model::random::guided::{free, guided};
use sa110_model::random::rng::{from_environment, Rng};
use sa110_model::random::states;
use sa110_model::rules::Rules;
use sa110_model::soundness::{broken_clauses, is_sound, CLAUSES};
use sa110_model::term3::Run;
use sa110_model::Machine;

/// What was compared.
struct Tally {
    sound: u64,
    unsound: u64,
    /// How often each clause alone was broken.
    alone: [u64; CLAUSES.len()],
    /// How often a damage of the second model was compared.
    damages: [u64; DAMAGES.len()],
}

impl Tally {
    fn new() -> Tally {
        Tally {
            sound: 0,
            unsound: 0,
            alone: [0; CLAUSES.len()],
            damages: [0; DAMAGES.len()],
        }
    }

    fn states(&self) -> u64 {
        self.sound + self.unsound
    }

    /// Compares the two on packed words and memory of n bytes; `what` says what the state is.
    fn compare(&mut self, packed: &Packed, n: usize, what: &dyn Fn() -> String) {
        let (state, registers) = packed.unpacked();
        let proved = packed.is_sound(n);
        if is_sound(&state, &registers, n as u32) {
            self.sound += 1;
            assert!(
                proved,
                "proved unsound, model sound; memory {n} bytes; {}",
                what()
            );
            return;
        }
        self.unsound += 1;
        let broken = broken_clauses(&state, &registers, n as u32);
        assert!(
            !proved,
            "proved sound, model unsound by {broken:?}; memory {n} bytes; {}",
            what()
        );
        if let [clause] = broken[..] {
            let at = CLAUSES.iter().position(|c| c.name == clause);
            self.alone[at.expect("a clause")] += 1;
        }
    }

    /// The same on a machine whose fields all fit the words.
    fn compare_machine(&mut self, machine: &Machine, what: &dyn Fn() -> String) {
        let n = machine.memory.len();
        let packed =
            packed_whole(machine).unwrap_or_else(|| panic!("a field fits no word; {}", what()));
        self.compare(&packed, n, what);
    }
}

/// The machine's state in words, if all its fields fit them.
fn packed_whole(machine: &Machine) -> Option<Packed> {
    let packed = Packed::of(&machine.state, &machine.registers);
    let (state, registers) = packed.unpacked();
    (state == *machine.state && registers == machine.registers).then_some(packed)
}

/// Compares a sound machine's state, and what many damages make of it.
fn compare_damaged(tally: &mut Tally, sound: &Machine, rng: &mut Rng, name: &str) {
    assert!(sound.is_sound(), "{name}");
    tally.compare_machine(sound, &|| name.to_string());
    let n = sound.memory.len();
    let packed = packed_whole(sound).expect("compared above");
    for _ in 0..70 {
        let mut p = packed.clone();
        let what = flip_bit(&mut p, rng);
        tally.compare(&p, n, &|| format!("{name}: {what}"));
    }
    for _ in 0..70 {
        let mut p = packed.clone();
        let what: Vec<_> = (0..rng.pick(&[1, 1, 1, 2, 3]))
            .map(|_| replace_word(&mut p, rng))
            .collect();
        tally.compare(&p, n, &|| format!("{name}: {}", what.join("; ")));
    }
    let any = rng.below(n as u32 + 1) as usize;
    for m in [
        0,
        1,
        16,
        31,
        32,
        33,
        n / 2,
        any,
        n.saturating_sub(16),
        n.saturating_sub(1),
        n + 1,
        n + 31,
        n + 32,
    ] {
        tally.compare(&packed, m, &|| format!("{name}: memory's length"));
    }
    let mut damaged = sound.clone();
    for (i, damage) in DAMAGES.iter().enumerate() {
        damaged.state.clone_from(&sound.state);
        damaged.registers = sound.registers;
        if !(damage.make)(&mut damaged, rng) {
            continue;
        }
        // a field wider than its place in the words is left to the second model's own tests
        let Some(p) = packed_whole(&damaged) else {
            continue;
        };
        tally.compare(&p, n, &|| {
            format!("{name}: {} ({})", damage.name, damage.clause)
        });
        tally.damages[i] += 1;
    }
}

/// Makes a run's calls, and compares the state after each fourth; answers the machine at the end.
fn compare_run(tally: &mut Tally, run: &Run, name: &str) -> Machine {
    let mut machine = run.machine();
    for (i, call) in run.calls.iter().enumerate() {
        machine.step(call, &mut Unwatched);
        if i % 4 == 0 {
            tally.compare_machine(&machine, &|| format!("{name}: after call {i}"));
        }
    }
    machine
}

#[test]
fn states_sound_and_damaged() {
    let seed = from_environment("SEED", 1);
    let runs = from_environment("RUNS", 300);
    println!("seed {seed}, {runs} machines of each kind");
    let mut tally = Tally::new();
    let (mut reached, mut damaged) = (0, 0);
    for n in 0..runs {
        let mut rng = Rng::of_run(seed, n);
        let length = 50 + rng.below(400) as usize;
        let name = |kind: &str| format!("{kind} {n} of seed {seed}");
        let mut machines = Vec::new();
        let before = tally.states();
        let run = free(&mut rng, length);
        let end = compare_run(&mut tally, &run, &name("free run"));
        machines.push((end, name("free run")));
        let run = guided(&mut rng, length, Rules::ALL).run;
        let end = compare_run(&mut tally, &run, &name("guided run"));
        machines.push((end, name("guided run")));
        reached += tally.states() - before;
        machines.push((states::sound(&mut rng).machine, name("sound state")));
        let tags = TAGS[n as usize % TAGS.len()];
        let machine = full(&mut rng, tags);
        assert!(is_full(&machine));
        machines.push((machine, name(&format!("full cache, tags {tags:?},"))));
        let before = tally.states();
        for (machine, name) in &machines {
            compare_damaged(&mut tally, machine, &mut rng, name);
        }
        damaged += tally.states() - before;
    }
    println!(
        "states compared {}: {reached} in runs, {damaged} sound and damaged",
        tally.states()
    );
    println!(
        "sound {}, unsound {}; a clause broken alone:",
        tally.sound, tally.unsound
    );
    for (clause, count) in CLAUSES.iter().zip(&tally.alone) {
        println!("{count:>8}  {}", clause.name);
    }
    println!("damages of the second model whose field fits no word:");
    for (damage, count) in DAMAGES.iter().zip(&tally.damages) {
        if *count == 0 {
            println!("          {}", damage.name);
        }
    }
    assert!(tally.alone.iter().all(|count| *count > 0));
}
