//! Lists of calls for a comparison, and things to lend that do not fit.

use crate::side_by_side::{Numbers, Setting};
use sa110_model::cache::address_of;
use sa110_model::random::maps::damage;
use sa110_model::random::world::World;
use sa110_model::random::Rng;
use sa110_model::state::STORE_BYTES;
use sa110_model::{Call, Machine};

/// The calls as numbers. Numbers that a call has no use for are any; in some lists a few calls become
/// five odd numbers, which may be no call.
pub fn varied_numbers(rng: &mut Rng, calls: &[Call]) -> Vec<Numbers> {
    let odd = rng.pick(&[0, 0, 0, 2, 20]);
    let mut list: Vec<_> = calls.iter().map(Call::to_numbers).collect();
    for numbers in &mut list {
        if rng.percent(50) {
            fill_unused(rng, numbers);
        }
        if rng.percent(odd) {
            *numbers = odd_numbers(rng, numbers);
        }
    }
    list
}

fn fill_unused(rng: &mut Rng, numbers: &mut Numbers) {
    let [kind, _, register, a, v] = numbers;
    if *kind == 3 || *kind == 4 && *register != 7 && *register != 8 {
        *a = rng.word();
    }
    if *kind == 0 || *kind == 1 || *kind == 3 {
        *v = rng.word();
    }
}

/// Five numbers, most of them small or those of a call.
fn odd_numbers(rng: &mut Rng, call: &Numbers) -> Numbers {
    let mut numbers = *call;
    for (number, small) in numbers.iter_mut().zip([7, 4, 10, 0x100, 0x100]) {
        match rng.below(10) {
            0..=5 => {}
            6..=8 => *number = rng.below(small),
            _ => *number = rng.word(),
        }
    }
    numbers
}

/// How many calls the shorter runs of a list make.
pub fn piece(rng: &mut Rng, calls: usize) -> usize {
    match rng.below(4) {
        0 => 1 + rng.below(3) as usize,
        1 => 1 + rng.below(40) as usize,
        _ => 1 + rng.below(calls as u32) as usize,
    }
}

/// The lines that a machine holds, and some descriptors, for calls that meet them.
pub fn world_around(machine: &Machine) -> World {
    let lines = machine.state.cache.lines.iter().enumerate();
    let mut lines: Vec<_> = lines
        .filter(|(_, line)| line.valid == 1)
        .map(|(i, line)| address_of(i, line.tag))
        .collect();
    lines.extend((0..16).map(|i| 0x4000 + 0x220 * i));
    let base = machine.registers.plain.table_base;
    let words = machine.memory.len() as u32 / 4;
    World {
        memory: machine.memory.clone(),
        bad: machine.bad.clone(),
        store: Vec::new(),
        bases: vec![base],
        lines,
        pages: (0..40).map(|i| i << 12).collect(),
        descriptors: (0..words.min(8)).map(|i| 4 * i).collect(),
        sections: vec![0],
        tables: vec![0x400],
        mixed: Vec::new(),
    }
}

/// Lends bytes of other lengths or a damaged map, changes the length at the start, or counts calls up to the
/// limit; one or several of them.
pub fn misfit(rng: &mut Rng, setting: &mut Setting) -> String {
    let mut done = Vec::new();
    while done.is_empty() {
        let n = setting.memory.len();
        if rng.percent(35) {
            let any = rng.below(n as u32 + 100) as usize;
            let shorter = n.saturating_sub(32);
            let one = n.saturating_sub(1);
            let length = rng.pick(&[
                any,
                any / 32 * 32,
                0,
                31,
                shorter,
                one,
                n + 1,
                n + 16,
                n + 32,
            ]);
            setting.memory.resize(length, 0);
            done.push(format!("memory {length} bytes"));
            if rng.percent(50) {
                setting.bad.resize(length / 4, 0);
                done.push("its map".to_string());
            }
        }
        if rng.percent(35) {
            done.push(damage(rng, &mut setting.bad));
        }
        if rng.percent(25) {
            let any = rng.below(2 * STORE_BYTES as u32) as usize;
            let length = rng.pick(&[any, 0, STORE_BYTES - 1, STORE_BYTES + 1]);
            setting.store.resize(length, 0);
            done.push(format!("store {length} bytes"));
        }
        if rng.percent(25) {
            let any = rng.draw() as usize >> rng.below(64);
            let size = rng.pick(&[any, 0, n + 32, n ^ 1, n + (1 << 32)]);
            setting.packed.state.size = size;
            done.push(format!("length at the start {size}"));
        }
        if rng.percent(35) {
            let calls = u32::MAX - rng.below(5);
            setting.packed.state.counts.calls = calls;
            done.push(format!("{calls} calls"));
        }
    }
    done.join("; ")
}
