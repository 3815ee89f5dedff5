//! The proved library's texts of states (document 02, Four) beside the second model's: stored, read back, and
//! runs that are stopped and carried on.

use sa110_compare::damage::{flip_bit, replace_word};
use sa110_compare::packed::{OfModel, Packed};
use sa110_compare::side_by_side::{Numbers, Setting};
use sa110_compare::sound::{lengths, machines, zeros};
use sa110_compare::texts::Texts;
use sa110_model::random::damage::DAMAGES;
use sa110_model::random::guided::{free, guided};
use sa110_model::random::rng::{from_environment, Rng};
use sa110_model::random::states;
use sa110_model::rules::Rules;
use sa110_model::text::{text_of, TEXT_MAX};
use sa110_model::{Call, Machine};

fn packed_of(machine: &Machine) -> Packed {
    Packed::of(&machine.state, &machine.registers)
}

/// Slices for a text of n bytes: too short, just long enough, longer.
fn rooms(rng: &mut Rng, n: usize) -> [usize; 9] {
    let (short, long) = (rng.below(n as u32) as usize, rng.below(300) as usize);
    [
        0,
        1,
        short,
        n - 1,
        n,
        n + 1,
        n + long,
        TEXT_MAX,
        TEXT_MAX + 1,
    ]
}

/// Stores a sound machine's state into slices of many lengths and reads it back.
fn store_and_read(texts: &mut Texts, rng: &mut Rng, machine: &Machine, name: &str) {
    let packed = packed_of(machine);
    let said = || name.to_string();
    let text = texts.store(&packed, &machine.memory, TEXT_MAX, &said);
    let text = text.unwrap_or_else(|refusal| panic!("refused by {refusal}; {name}"));
    assert!(text.len() <= sa110::TEXT_MAX, "{name}");
    for room in rooms(rng, text.len()) {
        let stored = texts.store(&packed, &machine.memory, room, &said);
        let fits = room >= text.len();
        assert_eq!(stored.is_ok(), fits, "{name}: slice {room}");
    }
    let back = texts.read(rng, &text, &machine.memory, &said);
    assert!(back.as_ref() == Ok(&packed), "{name}: another state");
}

/// Stores what damages make of a state, with lent bytes that fit and some that do not.
fn store_damaged(texts: &mut Texts, rng: &mut Rng, machine: &Machine, zeros: &[u8], name: &str) {
    let n = machine.memory.len();
    let sound = packed_of(machine);
    let mut damaged = machine.clone();
    for damage in &DAMAGES {
        damaged.state.clone_from(&machine.state);
        damaged.registers = machine.registers;
        if !(damage.make)(&mut damaged, rng) {
            continue;
        }
        let packed = packed_of(&damaged);
        if packed.unpacked() != (*damaged.state.clone(), damaged.registers) {
            continue; // a field wider than its place in the words
        }
        let length = rng.pick(&[n, n, n, n + 1, n + 32]);
        let room = rng.pick(&[TEXT_MAX, TEXT_MAX, 0]);
        let said = || format!("{name}: {}", damage.name);
        let stored = texts.store(&packed, &zeros[..length], room, &said);
        assert!(length != n || stored == Err(3), "{}", said());
    }
    for i in 0..40 {
        let mut packed = sound.clone();
        let what = match i % 2 {
            0 => flip_bit(&mut packed, rng),
            _ => replace_word(&mut packed, rng),
        };
        let room = rng.pick(&[TEXT_MAX, TEXT_MAX, 2 * TEXT_MAX, 6_000]);
        let said = || format!("{name}: {what}");
        let _ = texts.store(&packed, &machine.memory, room, &said);
    }
}

/// Stores a sound state with memories of other lengths, and with another length at the start.
fn store_misfit(texts: &mut Texts, rng: &mut Rng, machine: &Machine, zeros: &[u8], name: &str) {
    let n = machine.memory.len();
    let sound = packed_of(machine);
    for length in lengths(rng, n) {
        let room = rng.pick(&[TEXT_MAX, TEXT_MAX, 1]);
        let _ = texts.store(&sound, &zeros[..length], room, &|| name.to_string());
    }
    // the library has 64 bits for the length at the start
    let any = rng.draw() as usize >> rng.below(64);
    for size in [any, 0, n + 32, n ^ 1, n + (1 << 32)] {
        let mut packed = sound.clone();
        packed.state.size = size;
        let stored = texts.store(&packed, &machine.memory, TEXT_MAX, &|| {
            format!("{name}: {size}")
        });
        assert_eq!(stored.is_ok(), size == n, "{name}: {size}");
    }
}

/// States of every kind, sound and damaged, with slices and memories of every length.
#[test]
fn states_stored_and_read_back() {
    let seed = from_environment("SEED", 1);
    let runs = from_environment("RUNS", 300);
    assert_eq!(sa110::TEXT_MAX, TEXT_MAX);
    let zeros = zeros();
    let mut texts = Texts::default();
    for n in 0..runs {
        let mut rng = Rng::of_run(seed, n);
        for (kind, machine) in machines(&mut rng, n) {
            let name = format!("{kind} {n} of seed {seed}");
            let before = (kind != "longest").then(|| machine.memory.clone());
            store_and_read(&mut texts, &mut rng, &machine, &name);
            store_damaged(&mut texts, &mut rng, &machine, &zeros, &name);
            store_misfit(&mut texts, &mut rng, &machine, &zeros, &name);
            let same = before.is_none_or(|memory| memory == machine.memory);
            assert!(same, "{name}: memory changes");
        }
    }
    println!("texts compared, seed {seed}, of states sound and damaged: {texts}");
    // fewer runs need not meet everything
    if runs >= 300 {
        assert_eq!(texts.missing("storing"), Vec::<String>::new());
    }
}

/// Texts of memories of many lengths, read with memories of many lengths.
#[test]
fn memories() {
    let seed = from_environment("SEED", 1);
    let runs = from_environment("RUNS", 300).div_ceil(10);
    let zeros = zeros();
    let mut texts = Texts::default();
    for n in 0..runs {
        let mut rng = Rng::of_run(seed, n);
        for (kind, mut machine) in machines(&mut rng, n) {
            let at_start = machine.memory.len();
            for length in lengths(&mut rng, at_start).into_iter().chain([at_start]) {
                machine.state.memory_length = length as u32;
                let text = text_of(&machine.state, &machine.registers);
                let others = lengths(&mut rng, length);
                for lent in others.into_iter().chain([length, at_start]) {
                    let said = || format!("{kind} {n} of seed {seed}, at the start {length}");
                    let _ = texts.read(&mut rng, &text, &zeros[..lent], &said);
                }
            }
        }
    }
    println!("texts compared, seed {seed}, with memories of many lengths: {texts}");
    if runs >= 30 {
        assert_eq!(texts.missing("reading"), ["reading, refusal 14"]);
    }
}

/// Places to stop at in a list of so many calls, rising: one, a few or many, now and then twice at one.
fn stops(rng: &mut Rng, calls: usize) -> Vec<usize> {
    let count = rng.pick(&[1, 1, 3, 10, 40]);
    let mut stops: Vec<_> = (0..count)
        .map(|_| rng.below(calls as u32 + 1) as usize)
        .collect();
    stops.sort_unstable();
    stops
}

/// Runs of the library, stored, read back and carried on at random places, end like the unbroken run.
#[test]
fn runs_stopped_and_carried_on() {
    let seed = from_environment("SEED", 1);
    let runs = from_environment("RUNS", 300);
    let mut texts = Texts::default();
    let (mut made, mut stopped) = (0, 0);
    for n in 0..runs {
        let mut rng = Rng::of_run(seed, n);
        let rng = &mut rng;
        let length = 50 + rng.below(400) as usize;
        let sound = states::sound(rng);
        let mut lists = vec![(
            Setting::of(&sound.machine),
            states::calls(rng, &sound.world, length),
        )];
        for run in [free(rng, length), guided(rng, length, Rules::ALL).run] {
            lists.push((Setting::of_run(&run), run.calls));
        }
        for (i, (setting, calls)) in lists.iter().enumerate() {
            let calls: Vec<Numbers> = calls.iter().map(Call::to_numbers).collect();
            let stops = stops(rng, calls.len());
            let said = || format!("list {i} of run {n} of seed {seed}");
            texts.carry_on(rng, setting, &calls, &stops, &said);
            made += calls.len();
            stopped += stops.len() + 1;
        }
    }
    println!("texts compared, seed {seed}, of {made} calls with {stopped} stops: {texts}");
    if runs >= 300 {
        assert!(made >= 150_000 && stopped >= 8_000);
    }
}
