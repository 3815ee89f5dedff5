//! The rights table, also as it is worked out and printed, and walks over random tables with maps of bad words.

use sa110_compare::packed::entry_word;
use sa110_compare::{right, rights_table, walk};
use sa110_model::access_table;
use sa110_model::bus::{Bus, Word};
use sa110_model::random::rng::{from_environment, Rng};
use sa110_model::random::world::{world, World};
use sa110_model::rights::TABLE;

#[test]
fn rights_entries() {
    for (i, entry) in TABLE.iter().enumerate() {
        assert_eq!(right(i as u32), *entry, "entry {i}");
    }
    assert_eq!(right(256), 255);
    assert_eq!(right(u32::MAX), 255);
}

/// The table worked out by the library, by the second model, and entry by entry.
#[test]
fn worked_out_entries() {
    let worked_out = access_table::worked_out();
    for (i, entry) in rights_table().into_iter().enumerate() {
        assert_eq!(entry, worked_out[i], "entry {i}");
        assert_eq!(entry, right(i as u32), "entry {i}");
    }
}

/// The text that the program rights_table prints is the second model's.
#[test]
fn program_prints_the_table() {
    let printed = include_str!("../../crates/rights_table/stdout");
    assert_eq!(printed, access_table::text());
    assert!(printed.lines().any(|line| line == "66,2"));
}

/// What a walk answers by the second model, and what it comes to: a mapping, a fault, one by a bad word.
fn expected(bus: Bus, base: u32, va: u32) -> (u64, usize) {
    let walk = sa110_model::walk::walk(bus, base, va);
    let answer = match walk.found {
        Ok(entry) => return (entry_word(&entry), 0),
        Err(abort) => 2 * (abort.domain * 16 + abort.status as u32) as u64,
    };
    let bad = walk.aborted.is_some_and(|at| bus.word(at) == Word::Bad);
    (answer, 1 + usize::from(bad))
}

/// The world's map; or one that a walk takes too: cut, longer than memory's, or with bytes above 1, which are
/// no bad words.
fn map(rng: &mut Rng, world: &World) -> Vec<u8> {
    let mut bad = world.bad.clone();
    if rng.percent(30) {
        let length = rng.below(2 * bad.len() as u32 + 2) as usize;
        bad.resize(length, rng.below(2) as u8);
    }
    if rng.percent(20) {
        let byte = rng.pick(&[2, 3, 0x81, 0xFF]);
        for bad in bad.iter_mut().filter(|_| rng.percent(30)) {
            *bad = byte;
        }
    }
    bad
}

#[test]
fn walks() {
    let seed = from_environment("SEED", 1);
    println!("seed {seed}");
    let mut counts = [0; 3];
    for n in 0..400 {
        let mut rng = Rng::of_run(seed, n);
        let world = world(&mut rng);
        let bad = map(&mut rng, &world);
        let bus = Bus {
            memory: &world.memory,
            bad: &bad,
        };
        for _ in 0..2_000 {
            let base = if rng.percent(80) && !world.bases.is_empty() {
                rng.pick(&world.bases) & !0x3FFF
            } else {
                rng.word() & !0x3FFF
            };
            let va = if rng.percent(70) && !world.lines.is_empty() {
                rng.pick(&world.lines) ^ (rng.word() & 0xFFF)
            } else {
                rng.word()
            };
            let (answer, kind) = expected(bus, base, va);
            assert_eq!(
                walk(&world.memory, &bad, base, va),
                answer,
                "seed {seed} world {n} base {base:x} va {va:x}"
            );
            counts[kind] += 1;
        }
    }
    let [found, failed, bad] = counts;
    println!("walks that found a mapping {found}, that failed {failed}, that met a bad word {bad}");
    assert!(counts.iter().all(|count| *count > 1_000));
}
