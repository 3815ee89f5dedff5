//! Damaged texts, and runs that are stopped and carried on (document 02, Four).

use sa110_model::calls::Call;
use sa110_model::machine::Machine;
use sa110_model::random::guided::{free, guided};
use sa110_model::random::longest::longest;
use sa110_model::random::rng::{from_environment, Rng};
use sa110_model::random::states;
use sa110_model::random::stored::{Effect, DAMAGES, DEPARTING};
use sa110_model::random::texts::changed;
use sa110_model::rules::Rules;
use sa110_model::state::{Registers, State};
use sa110_model::text::{read, store, text_of, FORM, TEXT_MAX};
use std::fmt;

/// Does the text keep the form? By `split` and `parse`, apart from the reader.
fn keeps_form(text: &[u8]) -> bool {
    let Ok(text) = std::str::from_utf8(text) else {
        return false;
    };
    let kinds = FORM
        .iter()
        .flat_map(|kind| vec![kind.greatest.len(); kind.lines]);
    let fields: Vec<usize> = kinds.collect();
    let lines: Vec<&str> = text.split('\n').collect();
    lines.len() == fields.len() + 1
        && lines[fields.len()].is_empty()
        && lines.iter().zip(&fields).all(|(line, fields)| {
            let numbers = line.split(',');
            numbers.clone().count() == *fields && numbers.into_iter().all(is_number)
        })
}

/// Is it a number of 32 bits as it is printed?
fn is_number(field: &str) -> bool {
    field
        .parse::<u32>()
        .is_ok_and(|number| number.to_string() == field)
}

/// Reads a text that may be damaged; gives the refusal, or 0. A text that reads is the text of what it
/// reads as; a refused one gives zeros.
fn try_read(text: &[u8], memory: &[u8], name: &dyn Fn() -> String) -> u32 {
    let back = read(text, memory);
    assert_eq!(back.refused == Some(14), !keeps_form(text), "{}", name());
    match back.refused {
        None => assert!(text_of(&back.state, &back.registers) == text, "{}", name()),
        Some(_) => {
            let zero = (State::ZERO, Registers::default());
            assert!((back.state, back.registers) == zero, "{}", name());
        }
    }
    back.refused.unwrap_or(0)
}

/// A machine that is fresh, in any sound state, or with the longest text.
fn machine(rng: &mut Rng) -> Machine {
    match rng.below(8) {
        0 => Machine::fresh(vec![0; rng.pick(&[0, 0x4000])]),
        1 => longest(rng),
        _ => states::sound(rng).machine,
    }
}

/// The answers of reading: 0 for none, and the refusals but 1.
const ANSWERS: [u32; 4] = [0, 14, 3, 4];

/// How often each was met.
#[derive(Clone, Default)]
struct Met([u64; ANSWERS.len()]);

impl Met {
    fn note(&mut self, answer: u32) {
        let at = ANSWERS.iter().position(|number| *number == answer);
        self.0[at.expect("0, 14, 3 or 4")] += 1;
    }
}

impl fmt::Display for Met {
    fn fmt(&self, out: &mut fmt::Formatter) -> fmt::Result {
        self.0.iter().try_for_each(|n| write!(out, "{n:>8}"))
    }
}

/// Each damage by itself has its effect.
#[test]
fn damaged_texts() {
    let seed = from_environment("SEED", 42);
    let runs = from_environment("RUNS", 400);
    let mut met = vec![Met::default(); DAMAGES.len()];
    for (i, damage) in DAMAGES.iter().enumerate() {
        assert_eq!(damage.effect == Effect::Departs, i < DEPARTING);
    }
    for run in 0..runs {
        let mut rng = Rng::of_run(seed, run);
        let m = machine(&mut rng);
        let whole = text_of(&m.state, &m.registers);
        for (damage, met) in DAMAGES.iter().zip(&mut met) {
            let mut text = whole.clone();
            if !(damage.make)(&mut text, &mut rng) {
                continue;
            }
            let name = || format!("seed {seed}, run {run}: {}", damage.name);
            let answer = try_read(&text, &m.memory, &name);
            let expected: &[u32] = match damage.effect {
                Effect::Departs => &[14],
                Effect::Unsound => &[3],
                Effect::Open => &ANSWERS,
            };
            assert!(expected.contains(&answer), "{}: {answer}", name());
            met.note(answer);
        }
    }
    println!("Damaged texts, seed {seed}, {runs} states:");
    println!("{:>8}{:>8}{:>8}{:>8}", "read", 14, 3, 4);
    for (damage, met) in DAMAGES.iter().zip(&met) {
        println!("{met}  {}", damage.name);
    }
    // fewer runs need not meet everything
    if runs >= 400 {
        assert!(met.iter().all(|met| met.0.iter().sum::<u64>() > 0));
        assert!((0..ANSWERS.len()).all(|i| met.iter().any(|met| met.0[i] > 0)));
    }
}

/// Several damages at once, half of the time of those that need not depart from the form.
#[test]
fn texts_damaged_several_times() {
    let seed = from_environment("SEED", 43);
    let runs = from_environment("RUNS", 400);
    let mut met = Met::default();
    for run in 0..runs {
        let mut rng = Rng::of_run(seed, run);
        let m = machine(&mut rng);
        let whole = text_of(&m.state, &m.registers);
        for n in 0..40 {
            let mut text = whole.clone();
            let first = if n % 2 == 0 { 0 } else { DEPARTING };
            let damages = &DAMAGES[first..];
            for _ in 0..2 + rng.below(3) {
                let damage = &damages[rng.below(damages.len() as u32) as usize];
                (damage.make)(&mut text, &mut rng);
            }
            let name = || format!("seed {seed}, run {run}, text {n}");
            met.note(try_read(&text, &m.memory, &name));
        }
    }
    println!("Texts damaged several times, seed {seed}; read, 14, 3, 4:{met}");
    assert!(runs < 400 || met.0.iter().all(|count| *count > 0));
}

/// One byte replaced, left out or put in, at every place of some lines of each kind.
#[test]
fn one_byte_changed_at_every_place() {
    let mut rng = Rng::new(1);
    let m = longest(&mut rng);
    let text = text_of(&m.state, &m.registers);
    let lines: Vec<_> = text.split_inclusive(|byte| *byte == b'\n').collect();
    let mut met = Met::default();
    for at in [0, 1, 32, 33, 544, 545, 552] {
        let (before, behind) = (lines[..at].concat(), lines[at + 1..].concat());
        for line in changed(lines[at]) {
            let text = [&before[..], &line, &behind].concat();
            let name = || format!("line {at}: {}", line.escape_ascii());
            met.note(try_read(&text, &m.memory, &name));
        }
    }
    println!("Texts with one byte changed; read, 14, 3, 4:{met}");
    assert!(met.0.iter().all(|count| *count > 0));
}

/// Stores a machine's state, and goes on with what is read back.
fn stop_and_carry_on(m: &mut Machine) {
    let mut text = vec![0xA5; TEXT_MAX];
    let length = store(&m.state, &m.registers, &m.memory, &mut text).expect("a text");
    let back = read(&text[..length], &m.memory);
    assert_eq!(back.refused, None);
    (*m.state, m.registers) = (back.state, back.registers);
}

/// "A run stored and read back midway ends like the unbroken run with the same answers".
fn carries_on(rng: &mut Rng, m: &Machine, calls: &[Call]) -> u64 {
    let (mut unbroken, mut broken) = (m.clone(), m.clone());
    let often = rng.pick(&[1, 5, 30]);
    let mut stops = 0;
    for call in calls {
        if rng.percent(often) {
            stop_and_carry_on(&mut broken);
            stops += 1;
        }
        assert_eq!(unbroken.call(call), broken.call(call), "{call}");
    }
    assert_eq!(unbroken, broken);
    stops
}

#[test]
fn runs_stopped_and_carried_on() {
    let seed = from_environment("SEED", 44);
    let runs = from_environment("RUNS", 400);
    let (mut calls, mut stops) = (0, 0);
    for run in 0..runs {
        let mut rng = Rng::of_run(seed, run);
        let rng = &mut rng;
        for run in [free(rng, 200), guided(rng, 200, Rules::ALL).run] {
            stops += carries_on(rng, &run.machine(), &run.calls);
            calls += run.calls.len();
        }
        let sound = states::sound(rng);
        let list = states::calls(rng, &sound.world, 60);
        stops += carries_on(rng, &sound.machine, &list);
        calls += list.len();
    }
    println!("Runs stopped and carried on: seed {seed}, {calls} calls, {stops} stops.");
}
