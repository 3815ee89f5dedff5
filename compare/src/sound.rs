//! Machines in sound states of every kind, and memories to lend with them.

use crate::full::{full, TAGS};
use sa110_model::coverage::Unwatched;
use sa110_model::random::guided::{free, guided};
use sa110_model::random::longest::longest;
use sa110_model::random::states;
use sa110_model::random::Rng;
use sa110_model::rules::Rules;
use sa110_model::state::MEMORY_LIMIT;
use sa110_model::term3::Run;
use sa110_model::Machine;

/// A machine after a run's calls.
fn after(run: Run) -> Machine {
    let mut machine = run.machine();
    for call in &run.calls {
        machine.step(call, &mut Unwatched);
    }
    machine
}

/// A machine of each kind: fresh, where a run left it, in any sound state, with full caches, and now and
/// then with the longest text.
pub fn machines(rng: &mut Rng, n: u64) -> Vec<(&'static str, Machine)> {
    let length = rng.pick(&[0, 32, 0x4000, 0x10000]);
    let calls = 20 + rng.below(300) as usize;
    let tags = TAGS[n as usize % TAGS.len()];
    let mut machines = vec![
        ("fresh", Machine::fresh(vec![0; length])),
        ("free run", after(free(rng, calls))),
        ("guided run", after(guided(rng, calls, Rules::ALL).run)),
        ("sound state", states::sound(rng).machine),
        ("full caches", full(rng, tags)),
    ];
    if n.is_multiple_of(8) {
        machines.push(("longest", longest(rng)));
    }
    machines
}

/// Bytes to lend as a memory of any length.
pub fn zeros() -> Vec<u8> {
    vec![0; 2 * MEMORY_LIMIT]
}

/// Lengths of a memory around n, and around those that are refused.
pub fn lengths(rng: &mut Rng, n: usize) -> [usize; 14] {
    let any = rng.below(MEMORY_LIMIT as u32 + 100) as usize;
    [
        0,
        31,
        32,
        n / 64 * 32,
        n.saturating_sub(32),
        n.saturating_sub(1),
        n + 1,
        n + 16,
        n + 32,
        any,
        any / 32 * 32,
        MEMORY_LIMIT,
        MEMORY_LIMIT + 1,
        MEMORY_LIMIT + 32,
    ]
}
