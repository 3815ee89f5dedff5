//! Damaged texts of states (document 02, Four), read back by the proved library beside the second model.

use sa110_compare::sound::{lengths, machines, zeros};
use sa110_compare::texts::Texts;
use sa110_model::random::longest::longest;
use sa110_model::random::rng::{from_environment, Rng};
use sa110_model::random::stored::{Effect, DAMAGES, DEPARTING};
use sa110_model::random::texts::BYTES;
use sa110_model::state::MEMORY_LIMIT;
use sa110_model::text::{text_of, FORM};
use sa110_model::Machine;

fn model_text(machine: &Machine) -> Vec<u8> {
    text_of(&machine.state, &machine.registers)
}

/// How often each damage was answered with 0 for a state, 14, 3, 4 or 1.
#[derive(Clone, Copy, Default)]
struct Met([u64; 5]);

impl Met {
    const ANSWERS: [u32; 5] = [0, 14, 3, 4, 1];

    fn note(&mut self, answer: u32) {
        let at = Met::ANSWERS.iter().position(|number| *number == answer);
        self.0[at.expect("an answer of reading")] += 1;
    }

    fn print(&self, name: &str) {
        let [served, departs, unsound, length, memory] = self.0;
        println!("{served:>9}{departs:>9}{unsound:>9}{length:>9}{memory:>9}  {name}");
    }
}

const HEAD: &str = "     read       14        3        4        1";

/// Each damage by itself has its effect.
#[test]
fn damaged_texts() {
    let seed = from_environment("SEED", 1);
    let runs = from_environment("RUNS", 300);
    let mut texts = Texts::default();
    let mut met = [Met::default(); DAMAGES.len()];
    for n in 0..runs {
        let mut rng = Rng::of_run(seed, n);
        for (kind, machine) in machines(&mut rng, n) {
            let whole = model_text(&machine);
            for (damage, met) in DAMAGES.iter().zip(&mut met) {
                let mut text = whole.clone();
                if !(damage.make)(&mut text, &mut rng) {
                    continue;
                }
                let said = || format!("{kind} {n} of seed {seed}: {}", damage.name);
                let answer = texts.read(&mut rng, &text, &machine.memory, &said).err();
                met.note(answer.unwrap_or(0));
                match damage.effect {
                    Effect::Departs => assert_eq!(answer, Some(14), "{}", said()),
                    Effect::Unsound => assert_eq!(answer, Some(3), "{}", said()),
                    Effect::Open => {}
                }
            }
        }
    }
    println!("texts compared, seed {seed}, damaged: {texts}\n{HEAD}");
    for (damage, met) in DAMAGES.iter().zip(&met) {
        met.print(damage.name);
        assert!(runs < 300 || met.0.iter().any(|count| *count > 0));
    }
}

/// Several damages at once, a quarter of them with memories of other lengths.
#[test]
fn texts_damaged_several_times() {
    let seed = from_environment("SEED", 1);
    let runs = from_environment("RUNS", 300);
    let zeros = zeros();
    let mut texts = Texts::default();
    let mut met = Met::default();
    for n in 0..runs {
        let mut rng = Rng::of_run(seed, n);
        let rng = &mut rng;
        for (kind, machine) in machines(rng, n) {
            let whole = model_text(&machine);
            for i in 0..40 {
                let (text, what) = damaged_often(rng, &whole, i % 2 == 0);
                let others = lengths(rng, machine.memory.len());
                let memory = match i % 4 {
                    3 => &zeros[..rng.pick(&others)],
                    _ => &machine.memory,
                };
                let said = || format!("{kind} {n} of seed {seed}: {what}");
                met.note(texts.read(rng, &text, memory, &said).err().unwrap_or(0));
            }
        }
    }
    println!("texts compared, seed {seed}, damaged several times: {texts}\n{HEAD}");
    met.print("several");
    assert!(runs < 300 || met.0.iter().all(|count| *count > 0));
}

/// A text with several damages, of all or of those that need not depart from the form; and their names.
fn damaged_often(rng: &mut Rng, whole: &[u8], of_all: bool) -> (Vec<u8>, String) {
    let damages = &DAMAGES[if of_all { 0 } else { DEPARTING }..];
    let mut text = whole.to_vec();
    let mut names = Vec::new();
    for _ in 0..1 + rng.below(4) {
        let damage = &damages[rng.below(damages.len() as u32) as usize];
        (damage.make)(&mut text, rng);
        names.push(damage.name);
    }
    (text, names.join("; "))
}

/// One byte replaced, one left out and one put in at every place of a text.
#[test]
fn one_byte_changed_at_every_place() {
    let seed = from_environment("SEED", 1);
    let mut rng = Rng::new(seed);
    let rng = &mut rng;
    let mut texts = Texts::default();
    for (kind, machine) in machines(rng, 0) {
        let whole = model_text(&machine);
        for at in 0..=whole.len() {
            let next = (at + 1).min(whole.len());
            let byte = [rng.pick(&BYTES)];
            for (change, end) in [(&byte[..], next), (&[], next), (&byte[..], at)] {
                let text = [&whole[..at], change, &whole[end..]].concat();
                let said = || format!("{kind}, byte {at}, {change:?} for {}", end - at);
                let _ = texts.read(rng, &text, &machine.memory, &said);
            }
        }
    }
    println!("texts compared, seed {seed}, with one byte changed: {texts}");
    assert_eq!(texts.missing("reading"), ["reading, refusal 1"]);
}

/// The numbers to try in a field: a few of its bits changed, the greatest that a sound state has there, one
/// more, 0; and what departs from the form: numbers of 2^32 and more, leading zeros, nothing.
fn fields(rng: &mut Rng, old: u32, greatest: u32) -> Vec<String> {
    let mut numbers: Vec<u64> = (0..8).map(|_| (old ^ 1 << rng.below(32)).into()).collect();
    numbers.extend([
        0,
        greatest as u64,
        greatest as u64 + 1,
        1 << 32,
        (1 << 32) + old as u64,
    ]);
    let mut fields: Vec<_> = numbers.iter().map(|number| number.to_string()).collect();
    fields.extend([format!("0{old}"), String::new()]);
    fields
}

/// Other numbers in every field of a text.
#[test]
fn other_numbers_in_every_field() {
    let seed = from_environment("SEED", 1);
    let mut rng = Rng::new(seed);
    let rng = &mut rng;
    let mut texts = Texts::default();
    let kinds = FORM
        .iter()
        .flat_map(|kind| [kind.greatest].repeat(kind.lines));
    let greatest: Vec<u32> = kinds.flatten().copied().collect();
    let memory = vec![0; MEMORY_LIMIT];
    for machine in [longest(rng), Machine::fresh(memory)] {
        let whole = model_text(&machine);
        let mut start = 0;
        let ends = |byte: &u8| *byte == b',' || *byte == b'\n';
        for (i, old) in whole.split_inclusive(ends).enumerate() {
            let (before, behind) = (&whole[..start], &whole[start + old.len() - 1..]);
            let old = std::str::from_utf8(&old[..old.len() - 1]).expect("digits");
            start = whole.len() - behind.len() + 1;
            for new in fields(rng, old.parse().expect("a number"), greatest[i]) {
                let text = [before, new.as_bytes(), behind].concat();
                let said = || format!("field {i}, {new} for {old}");
                let _ = texts.read(rng, &text, &machine.memory, &said);
            }
        }
        assert_eq!(start, whole.len());
    }
    println!("texts compared, seed {seed}, with other numbers in every field: {texts}");
    assert_eq!(texts.missing("reading"), ["reading, refusal 1"]);
}
