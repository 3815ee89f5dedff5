//! The soundness test on full caches, and on one that is not.

use crate::earlier::Earlier;
use crate::measure::{Line, Side};
use sa110_compare::full::{full, is_full, Tags, TAGS};
use sa110_compare::packed::{OfModel, Packed};
use sa110_model::random::Rng;
use sa110_model::soundness::is_sound;
use sa110_model::{state, Machine};
use std::hint::black_box;
use std::rc::Rc;

/// A line for each way in which the tags of a full cache lie, and one for a cache that is not full.
pub fn lines(earlier: Option<Earlier>) -> impl Iterator<Item = Line> {
    TAGS.into_iter()
        .map(full_cache)
        .chain([half_empty()])
        .map(move |(name, machine)| line(name, machine, earlier))
}

fn full_cache(tags: Tags) -> (&'static str, Machine) {
    let machine = full(&mut Rng::new(1), tags);
    assert!(is_full(&machine));
    let name = match tags {
        Tags::InARow => "soundness, in a row",
        Tags::Random => "soundness, random",
        Tags::Apart => "soundness, apart",
    };
    (name, machine)
}

fn half_empty() -> (&'static str, Machine) {
    let mut machine = full(&mut Rng::new(1), Tags::Random);
    for line in machine.state.cache.lines.iter_mut().step_by(2) {
        *line = state::Line::EMPTY;
    }
    ("soundness, half empty", machine)
}

fn line(name: &str, machine: Machine, earlier: Option<Earlier>) -> Line {
    let packed = Rc::new(Packed::of(&machine.state, &machine.registers));
    let n = machine.memory.len();
    assert!(machine.is_sound());
    let test = earlier.and_then(|earlier| earlier.soundness());
    Line {
        name: name.to_string(),
        calls: 1,
        library: side(&packed, n, Packed::is_sound),
        earlier: test.map(|test| side(&packed, n, test)),
        model: Box::new(move |calls| {
            for _ in 0..calls {
                let m = black_box(&machine);
                black_box(is_sound(&m.state, &m.registers, n as u32));
            }
        }),
    }
}

/// A library's test of the state, for a memory of n bytes.
fn side(state: &Rc<Packed>, n: usize, test: impl Fn(&Packed, usize) -> bool + 'static) -> Side {
    let state = Rc::clone(state);
    assert!(test(&state, n));
    Box::new(move |calls| {
        for _ in 0..calls {
            black_box(test(black_box(&state), n));
        }
    })
}
