//! Refusal 3, clause by clause, and that accepted calls keep a state sound.

mod common;
use common::*;
use sa110_model::answers::Answer;
use sa110_model::calls::Call;
use sa110_model::random::damage::DAMAGES;
use sa110_model::random::rng::{from_environment, Rng};
use sa110_model::random::states;
use sa110_model::random::world::world_of;
use sa110_model::soundness::{broken_clauses, CLAUSES};

fn calls() -> Vec<Call> {
    vec![
        Call::load(4, 0x100),
        signed_load(1, 0x100),
        Call::store(4, 0x100, 7),
        Call::read(1),
        Call::write(1, 0xD),
        Call::drain(),
    ]
}

/// Each damage breaks its clause alone, and is refused by 3 without any change.
#[test]
fn each_clause_by_its_own_damage() {
    let seed = from_environment("SEED", 11);
    let mut damaged = vec![0; DAMAGES.len()];
    let mut clauses = vec![0; CLAUSES.len()];
    for run in 0..300 {
        let mut rng = Rng::of_run(seed, run);
        let world = world_of(&mut rng, 0x4000);
        let sound = states::sound_in(&mut rng, world).machine;
        assert!(sound.is_sound());
        for (i, damage) in DAMAGES.iter().enumerate() {
            let mut m = sound.clone();
            if !(damage.make)(&mut m, &mut rng) {
                continue;
            }
            let broken = broken_clauses(&m.state, &m.registers, m.memory.len() as u32);
            assert_eq!(broken, [damage.clause], "{}", damage.name);
            damaged[i] += 1;
            let clause = CLAUSES.iter().position(|c| c.name == damage.clause);
            clauses[clause.expect("a clause")] += 1;
            let before = m.clone();
            for call in calls() {
                assert_eq!(m.call(&call), Answer::Refused(3), "{}", damage.name);
            }
            assert!(m.look(0x100).is_empty());
            assert_eq!(m, before);
        }
    }
    println!("Damaged states refused by 3, seed {seed}:");
    for (damage, count) in DAMAGES.iter().zip(&damaged) {
        println!("{count:>6}  {} ({})", damage.name, damage.clause);
    }
    assert!(damaged.iter().all(|count| *count > 0));
    assert!(clauses.iter().all(|count| *count > 0));
}

/// The largest counts do not overflow in the sum of halves.
#[test]
fn the_sum_of_halves_is_wide() {
    let mut m = mapped_twice();
    serve(&mut m, &[Call::load(4, 0), Call::store(4, 0, 1)]);
    m.state.counts.calls = u32::MAX - 5;
    m.state.counts.halves = u32::MAX;
    assert_eq!(m.call(&Call::read(1)), Answer::Refused(3));
    m.state.counts.halves = u32::MAX - 6;
    assert_eq!(m.call(&Call::read(1)), value(0x7D));
    m.state.counts.calls = u32::MAX - 7;
    assert_eq!(m.call(&Call::read(1)), Answer::Refused(3));
}

/// States at the edge of the clauses that are sound.
#[test]
fn sound_at_the_edge() {
    let mut m = mapped_twice();
    serve(&mut m, &[Call::load(4, 0)]);
    m.registers.tlb_pointer = 31;
    m.state.cache.pointers = [31; 16];
    m.registers.plain.fsr = 255;
    m.registers.plain.far = u32::MAX;
    m.registers.plain.domain = u32::MAX;
    m.registers.plain.control = 0x130F;
    m.registers.plain.table_base = 0xFFFFC000;
    // A section whose APs differ, and two entries that cover one address.
    m.state.tlb[0].ap = [0, 1, 2, 3];
    m.state.tlb[1] = m.state.tlb[0];
    // Equal tags in two sets, one frame under two tags, the last frame of memory.
    let line = m.state.cache.lines[0];
    m.state.cache.lines[32] = line;
    m.state.cache.lines[1] = line;
    m.state.cache.lines[1].tag = (1 << 23) - 1;
    m.state.cache.lines[33] = line;
    m.state.cache.lines[33].tag = 5;
    m.state.cache.lines[33].frame = 0x4000 / 32 - 1;
    // Eight entries of one block.
    m.state.buffer.entries = 8;
    for slot in m.state.buffer.slots.iter_mut() {
        slot.block = 0x4000 / 16 - 1;
        slot.mask = 0x8000;
        slot.bytes[15] = 1;
    }
    let counts = &mut m.state.counts;
    counts.tlb_misses = counts.calls;
    counts.hits = counts.calls;
    counts.fills = counts.calls;
    counts.halves = counts.calls;
    assert!(m.is_sound());
    assert!(m.call(&Call::read(1)) == value(0x137F));
}

/// Random sound states pass, and every accepted call keeps them sound and counts as it must.
#[test]
fn accepted_calls_keep_soundness() {
    let seed = from_environment("SEED", 12);
    let runs = from_environment("RUNS", 4000);
    let (mut accepted, mut refused) = (0, 0);
    for run in 0..runs {
        let mut rng = Rng::of_run(seed, run);
        let mut sound = states::sound(&mut rng);
        let m = &mut sound.machine;
        assert!(m.is_sound());
        for call in states::calls(&mut rng, &sound.world, 60) {
            let before = m.state.counts;
            let answer = m.call(&call);
            let after = m.state.counts;
            if let Answer::Refused(number) = answer {
                assert!(number >= 5, "run {run}: {call} refused {number}");
                assert_eq!(before, after);
                refused += 1;
            } else {
                assert_eq!(after.calls, before.calls + 1);
                assert!(after.tlb_misses - before.tlb_misses <= 1);
                assert!(after.hits - before.hits <= 1);
                assert!(after.fills - before.fills <= 1);
                assert!(after.halves - before.halves <= 2);
                accepted += 1;
            }
            assert!(m.is_sound(), "run {run}: unsound after {call}");
        }
    }
    println!(
        "Soundness kept: seed {seed}, {runs} sound states, {accepted} accepted calls, {refused} refused."
    );
}
